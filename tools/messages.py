"""Frames by docs/formats.md alone: their bytes read one by one, with the exact place of what is off. It shares nothing with the program, which the
scripts beside this file compare with it."""
from typing import NamedTuple

NODE, SEQUENCER, READER = 0, 1, 2
RECORD, HOLE, BRIDGE, PLUG, WITHHELD = 0, 1, 2, 3, 4
STORE, STORED, SEALED, LOST, TRIMMED, DIGEST_ASK, DIGEST_PAGE, RELEASE, TRIM, READ_ASK, READ_PAGE = 1, 2, 3, 4, 6, 7, 8, 10, 11, 12, 13
READ_TRIM, READ_WAIT, CLEAN_HERE, CLEAN, READ_ENDED, READ_ONE = 15, 16, 17, 18, 19, 20
LAST_EPOCH, LAST_PLACE, LONGEST = 2**32 - 2, 2**32 - 1, 8_388_608

# who may send a kind, and to whom
ACTORS = {
    STORE: ((SEQUENCER,), (NODE,)), STORED: ((NODE,), (SEQUENCER,)), SEALED: ((NODE,), (SEQUENCER,)), LOST: ((NODE,), (NODE, SEQUENCER, READER)),
    TRIMMED: ((NODE,), (SEQUENCER,)), DIGEST_ASK: ((SEQUENCER,), (NODE,)), DIGEST_PAGE: ((NODE,), (SEQUENCER,)), RELEASE: ((SEQUENCER,), (NODE,)),
    TRIM: ((SEQUENCER,), (NODE,)), READ_ASK: ((NODE, READER), (NODE,)), READ_PAGE: ((NODE,), (NODE, READER)), READ_TRIM: ((NODE,), (NODE, READER)),
    READ_WAIT: ((NODE,), (NODE, READER)), CLEAN_HERE: ((NODE,), (SEQUENCER,)), CLEAN: ((SEQUENCER,), (NODE,)), READ_ENDED: ((NODE,), (NODE, READER)),
    READ_ONE: ((READER,), (NODE,)),
}
# the least and the greatest number of an actor
NUMBERS = {NODE: (1, 16), SEQUENCER: (1, LAST_EPOCH), READER: (0, 999)}


class Off(Exception):
    """Bytes that are off, at a place."""

    def __init__(self, place):
        self.place = place


class Entry(NamedTuple):
    number: int
    ballot: int
    tag: int
    payload: bytes


class Summary(NamedTuple):
    ballot: int
    good: int
    trim: int
    end: int
    loss: int


class Message(NamedTuple):
    kind: int
    sender: tuple
    taker: tuple
    log: int
    fields: dict


def epoch_of(number):
    return number >> 32


def place_of(number):
    return number & LAST_PLACE


def home(number):
    """The home epoch and place of a number."""
    epoch, place = epoch_of(number), place_of(number)
    return (epoch - 1, 2**32) if place == 0 and epoch > 0 else (epoch, place)


class Fields:
    """Fields of bytes, one after the other; each is charged to its first byte."""

    def __init__(self, data, at):
        self.data, self.at, self.last = data, at, at

    def number(self, size, least=0, most=None):
        self.last = self.at
        if self.at + size > len(self.data):
            raise Off(self.at)
        value = int.from_bytes(self.data[self.at : self.at + size], "big")
        self.at += size
        self.where(least <= value and (most is None or value <= most))
        return value

    def where(self, fits):
        """The field that was read last is off where this doesn't hold."""
        if not fits:
            raise Off(self.last)

    def payload(self):
        size = self.number(2)
        self.where(self.at + size <= len(self.data))
        self.at += size
        return self.data[self.at - size : self.at]

    def entry(self, tags, least=0, most=2**64 - 1):
        number = self.number(8, least, most)
        self.where(1 <= epoch_of(number) <= LAST_EPOCH and place_of(number) >= 1)
        ballot = self.number(4, epoch_of(number), LAST_EPOCH)
        tag = self.number(1)
        self.where(tag in tags and (place_of(number) < LAST_PLACE or tag == BRIDGE))
        return Entry(number, ballot, tag, self.payload() if tag == RECORD else b"")

    def summary(self, epoch, has_loss=True):
        ballot = self.number(4, epoch + 1, LAST_EPOCH)
        good, trim, end = self.number(4, 0, LAST_EPOCH), self.number(8), self.number(4, 1)
        return Summary(ballot, good, trim, end, self.number(1, 0, 1) if has_loss else 0)

    def entries(self, count, tags, least, most):
        found = []
        for _ in range(count):
            found.append(self.entry(tags, least, most))
            least = found[-1].number + 1
        return found

    def done(self):
        if self.at < len(self.data):
            raise Off(self.at)


# ---- frames


def actor(fields, tags):
    tag = fields.number(1)
    fields.where(tag in tags)
    return tag, fields.number(4, *NUMBERS[tag])


def range_fields(f, found, least):
    """From where to where a page speaks: both in one home epoch."""
    found["from"] = f.number(8, least)
    found["upto"] = f.number(8, found["from"])
    f.where(home(found["from"])[0] == home(found["upto"])[0])


def store_fields(f, sender, found):
    found["number"] = f.number(8)
    epoch = epoch_of(found["number"])
    f.where(1 <= epoch <= sender[1] and place_of(found["number"]) >= 1)
    found["good"] = f.number(4, 0, LAST_EPOCH)
    tag = f.number(1, 0, PLUG)
    f.where(place_of(found["number"]) < LAST_PLACE or tag == BRIDGE)
    f.where(epoch < sender[1] or tag == RECORD)
    found["tag"], found["payload"] = tag, f.payload() if tag == RECORD else b""


def round_fields(f, found):
    found["round"] = f.number(4)
    found["from"] = f.number(8, 1)


def fields_of(kind, sender, taker, f):
    """The fields of a kind, by name."""
    found = {}
    if kind == STORE:
        store_fields(f, sender, found)
    elif kind in (STORED, RELEASE, TRIM):
        found["number"] = f.number(8)
    elif kind == SEALED:
        found["number"], found["seal"] = f.number(8), f.number(4)
    elif kind == LOST:
        found["number"] = f.number(8, 1)
        found["round"] = f.number(4, 0, 0 if taker[0] == SEQUENCER else None)
        found["generation"], found["end"] = f.number(4), f.number(8)
    elif kind == TRIMMED:
        found["number"], found["trim"] = f.number(8), f.number(8)
    elif kind == DIGEST_ASK:
        found["from"] = f.number(8)
        f.where(1 <= epoch_of(found["from"]) < sender[1] and place_of(found["from"]) >= 1)
    elif kind == DIGEST_PAGE:
        range_fields(f, found, 0)
        found["trim"], found["good"] = f.number(8), f.number(4, 0, LAST_EPOCH)
        found["entries"] = f.entries(f.number(2, 0, 64), (RECORD, HOLE, BRIDGE, PLUG), found["from"], found["upto"])
    elif kind == READ_ASK:
        found["round"] = f.number(4, 0, 0 if sender[0] == NODE else None)
        found["from"] = f.number(8, 1)
    elif kind == READ_ONE:
        round_fields(f, found)
        found["set"], found["left_out"] = f.number(2), f.number(2)
        f.where(found["left_out"] & ~found["set"] == 0 and found["set"] & ~found["left_out"] != 0)
    elif kind == READ_PAGE:
        found["round"] = f.number(4)
        range_fields(f, found, 1)
        found["clean"] = f.number(1, 0, 1)
        tags = (RECORD, HOLE, PLUG) + ((WITHHELD,) if taker[0] == READER else ())
        found["entries"] = f.entries(f.number(2, 0, 64), tags, found["from"], found["upto"])
    elif kind in (READ_TRIM, READ_WAIT, READ_ENDED):
        round_fields(f, found)
        found["to"] = f.number(8)
        if kind == READ_ENDED:
            found["loss"] = f.number(1, 0, 1)
    elif kind == CLEAN_HERE:
        found["number"] = f.number(8)
        found["summary"] = f.summary(epoch_of(found["number"]))
    elif kind == CLEAN:
        found["epoch"] = f.number(4, 1, LAST_EPOCH)
        found["summary"] = f.summary(found["epoch"])
    return found


def message_of(data):
    """The message of a frame, without its length; Off at the place that is off."""
    f = Fields(data, 1)
    senders, takers = ACTORS[data[0]]
    sender, taker = actor(f, senders), actor(f, takers)
    log = f.number(4, 1, 65_535)
    found = fields_of(data[0], sender, taker, f)
    f.done()
    return Message(data[0], sender, taker, log, found)


def frames_of(data):
    """The messages that the bytes of a peer say, one after the other; then why it goes no further: the beginning of the cause's line where a frame is
    off, None where the bytes end, whole or cut."""
    at = 0
    while len(data) - at >= 4:
        length = int.from_bytes(data[at : at + 4], "big")
        if length > LONGEST:
            yield None, f"frame length {length}: "
            return
        if length == 0:
            yield None, "frame kind 0 place 0: "
            return
        if len(data) - at >= 5 and data[at + 4] not in ACTORS:
            yield None, f"frame kind {data[at + 4]}: "
            return
        if len(data) - at < 4 + length:
            break
        try:
            yield message_of(data[at + 4 : at + 4 + length]), None
        except Off as off:
            yield None, f"frame kind {data[at + 4]} place {off.place}: "
            return
        at += 4 + length
    yield None, None


def big(size, *values):
    return b"".join(value.to_bytes(size, "big") for value in values)


def entry_bytes(entry):
    payload = big(2, len(entry.payload)) + entry.payload if entry.tag == RECORD else b""
    return big(8, entry.number) + big(4, entry.ballot) + bytes([entry.tag]) + payload


def summary_bytes(y):
    return big(4, y.ballot, y.good) + big(8, y.trim) + big(4, y.end) + bytes([y.loss])


def frame(kind, sender, taker, log, fields):
    body = bytes([kind, sender[0]]) + big(4, sender[1]) + bytes([taker[0]]) + big(4, taker[1], log) + fields
    return big(4, len(body)) + body
