"""A storage node by docs/protocol.md and docs/formats.md alone: journals read byte by byte, with the exact place of what is off, and the
answers of a node that serves. It shares nothing with the program, which the scripts beside this file compare with it."""
from messages import (
    BRIDGE, CLEAN, CLEAN_HERE, DIGEST_ASK, DIGEST_PAGE, HOLE, LAST_EPOCH, LAST_PLACE, LOST, NODE, PLUG, READ_ASK, READ_ENDED, READ_ONE, READ_PAGE,
    READ_TRIM, READ_WAIT, RECORD, RELEASE, SEALED, STORE, STORED, TRIM, TRIMMED, WITHHELD, big, Entry, entry_bytes, epoch_of, Fields, frame,
    frames_of, home, Off, place_of, Summary, summary_bytes,
)


# ---- the state and its answers


class Log:
    def __init__(self, lost_to=0):
        self.seal = self.trim = 0
        self.entries, self.summaries, self.good = {}, {}, {}
        self.is_lost, self.lost_to = lost_to > 0, lost_to

    def lost(self, epoch):
        return self.is_lost and 0 < epoch <= self.lost_to

    def summary(self, epoch):
        return Summary(0, 0, 0, 1, 0) if epoch == 0 else self.summaries.get(epoch)

    def end(self, epoch):
        y = self.summary(epoch)
        return 0 if y is None else epoch << 32 | y.end

    def accept(self, good, e):
        self.seal = e.ballot
        if e.tag == BRIDGE:
            gone = [n for n, o in self.entries.items() if n > e.number and epoch_of(n) == epoch_of(e.number) and o.ballot < e.ballot]
            for number in gone:
                del self.entries[number]
        self.entries[e.number] = e
        epoch = epoch_of(e.number)
        if good > self.good.get(epoch, 0):
            self.good[epoch] = good

    def trim_to(self, point):
        self.trim = max(self.trim, point)
        self.entries = {n: e for n, e in self.entries.items() if n > self.trim}

    def clean(self, epoch, y):
        self.trim_to(y.trim)
        stays = lambda e: epoch_of(e.number) != epoch or e.ballot >= y.ballot or place_of(e.number) <= y.good
        self.entries = {n: e for n, e in self.entries.items() if stays(e)}
        self.summaries[epoch] = y
        self.good.pop(epoch, None)

    def within(self, first, last, with_bridges):
        found = [e for n, e in sorted(self.entries.items()) if first <= n <= last and (with_bridges or e.tag != BRIDGE)]
        return found[:64], found[63].number if len(found) > 64 else last

    def is_missing(self, number):
        """Whether a number of a clean epoch up to the last lost one has no entry, above the trim."""
        epoch, y = epoch_of(number), self.summaries.get(epoch_of(number))
        return self.trim < number and epoch <= self.lost_to and y is not None and place_of(number) < y.end and number not in self.entries


class Node:
    """A node that is formatted, its logs and what was released of them."""

    def __init__(self, number, logs, generation):
        self.number, self.known, self.generation = number, logs, generation
        self.logs, self.released = {}, {}

    def log(self, number):
        return self.logs.setdefault(number, Log())

    def answers(self, data):
        """The bytes that a peer of these bytes gets, and the beginning of the cause's line where the node ends by it."""
        out = b""
        for message, cause in frames_of(data):
            if message is None:
                return out, cause
            out += self.take(message)
        return out, None

    def take(self, m):
        if m.taker != (NODE, self.number) or m.log not in self.known:
            return b""
        answer = self.handle(m, self.log(m.log))
        return b"" if answer is None else frame(answer[0], m.taker, m.sender, m.log, answer[1])

    def handle(self, m, g):
        """What it answers: a kind and its fields; and what it keeps."""
        f, ballot = m.fields, m.sender[1]
        if m.kind == STORE:
            return self.on_store(g, Entry(f["number"], ballot, f["tag"], f["payload"]), f["good"])
        if m.kind == DIGEST_ASK:
            return self.on_digest_ask(g, ballot, f["from"])
        if m.kind == CLEAN and g.summary(f["epoch"]) is None:
            g.clean(f["epoch"], f["summary"])
        elif m.kind == TRIM:
            g.trim_to(f["number"])
        elif m.kind == RELEASE:
            self.released[m.log] = max(self.released.get(m.log, 0), f["number"])
        elif m.kind in (READ_ASK, READ_ONE):
            return self.on_read(g, m.log, f)
        elif m.kind in (READ_PAGE, READ_TRIM) and g.is_lost:
            self.refill(g, m.kind, f)
        return None

    def refused(self, g, number, ballot, is_store):
        epoch = epoch_of(number)
        if g.lost(epoch):
            return LOST, big(8, number) + big(4, 0, self.generation) + big(8, g.end(epoch))
        if g.summary(epoch) is not None:
            return CLEAN_HERE, big(8, number) + summary_bytes(g.summary(epoch))
        if is_store and number <= g.trim:
            return TRIMMED, big(8, number, g.trim)
        if ballot < g.seal:
            return SEALED, big(8, number) + big(4, g.seal)
        return None

    def on_store(self, g, entry, good):
        refused = self.refused(g, entry.number, entry.ballot, True)
        if refused:
            return refused
        if g.entries.get(entry.number) != entry:
            g.accept(good, entry)
        return STORED, big(8, entry.number)

    def on_digest_ask(self, g, ballot, first):
        refused = self.refused(g, first, ballot, False)
        if refused:
            return refused
        g.seal = ballot
        found, upto = g.within(first, epoch_of(first) << 32 | LAST_PLACE, True)
        head = big(8, first, upto, g.trim) + big(4, g.good.get(epoch_of(first), 0)) + big(2, len(found))
        return DIGEST_PAGE, head + b"".join(map(entry_bytes, found))

    def on_read(self, g, log, f):
        first, asked = f["from"], big(4, f["round"]) + big(8, f["from"])
        epoch, place = home(first)
        released, y = self.released.get(log, 0), g.summary(epoch)
        if first <= g.trim:
            return READ_TRIM, asked + big(8, g.trim)
        if y is not None and place >= y.end:
            return READ_ENDED, asked + big(8, g.end(epoch)) + bytes([y.loss])
        if g.lost(epoch):
            return LOST, big(8, first) + big(4, f["round"], self.generation) + big(8, g.end(epoch))
        if y is not None:
            return self.page(g, f, asked, epoch << 32 | y.end - 1, 1)
        if place_of(released) > 0 and epoch_of(released) == epoch and first <= released:
            return self.page(g, f, asked, released, 0)
        return READ_WAIT, asked + big(8, released)

    def page(self, g, f, asked, last, clean):
        found, upto = g.within(f["from"], last, False)
        if "set" in f:
            found = [e if e.tag != RECORD or sender(f["set"], f["left_out"], e.number) == self.number else e._replace(tag=WITHHELD) for e in found]
        return READ_PAGE, asked + big(8, upto) + bytes([clean]) + big(2, len(found)) + b"".join(map(entry_bytes, found))

    def refill(self, g, kind, f):
        if kind == READ_TRIM:
            g.trim_to(f["to"])
        elif f["clean"]:
            for e in f["entries"]:
                if g.is_missing(e.number):
                    g.entries[e.number] = e._replace(ballot=g.summaries[epoch_of(e.number)].ballot)


def sender(nodes, left_out, number):
    """The node of a set, as bits, that sends the payload of a number: the first round the ring that isn't left out."""
    ring = [n for n in range(1, 17) if nodes >> n - 1 & 1]
    at = (epoch_of(number) + place_of(number)) % len(ring)
    return next(n for n in ring[at:] + ring[:at] if not left_out >> n - 1 & 1)


# ---- journals


class Damaged(Exception):
    """A journal that is damaged, at a place."""

    def __init__(self, place):
        self.place = place


def bodies_of(data):
    """The bodies of a journal, each with the place of its gate."""
    if not data:
        raise Damaged(0)
    at = 0
    while data[at] == 1:
        if at + 5 > len(data):
            raise Damaged(at)
        end = at + 5 + int.from_bytes(data[at + 1 : at + 5], "big")
        if end + 1 > len(data):
            raise Damaged(at)
        yield at, data[at + 5 : end]
        at = end


def logs_of(f):
    found, last = {}, 0
    for _ in range(f.number(1)):
        last = f.number(4, last + 1, 65_535)
        found[last] = f.number(4, 1)
    return found


KEPT = (RECORD, HOLE, BRIDGE, PLUG)


def op_of(body):
    """The record of a body: its first byte, and what it says; Off where it is no record."""
    if not body:
        raise Off(0)
    f, kind = Fields(body, 1), body[0]
    if kind in (10, 1):
        if kind == 10:
            f.number(1, 2, 2)
        said = f.number(4), logs_of(f)
    elif kind == 11:
        said = f.number(1, 2, 2)
    elif kind in (2, 3, 4, 5, 6, 7, 12):
        log = f.number(4, 1, 65_535)
        if kind == 2:
            said = log, f.number(4, 0, LAST_EPOCH), f.entry(KEPT)
        elif kind == 3:
            said = log, f.number(4, 1, LAST_EPOCH)
        elif kind in (4, 12):
            epoch = f.number(4, 1, LAST_EPOCH)
            said = log, epoch, f.summary(epoch, kind == 12)
        elif kind == 5:
            said = log, f.number(8)
        elif kind == 6:
            said = log, f.entries(f.number(2, 1, 64), KEPT, 0, 2**64 - 1)
        else:
            said = (log,)
    else:
        raise Off(0)
    f.done()
    return kind, said


def in_place(version, kind):
    """The version of a journal with a record of this kind more; None where it is out of place. None at first, then 1 or 2."""
    if version is None:
        return {1: 1, 10: 2}.get(kind)
    if kind in (1, 10):
        return None
    if kind == 11:
        return 2 if version == 1 else None
    if kind == 4:
        return 1 if version == 1 else None
    if kind == 12:
        return 2 if version == 2 else None
    return version


def loaded(data, number, known):
    """The node of a store's bytes; None where it is blank."""
    node, version = None, None
    for at, body in bodies_of(data):
        try:
            kind, said = op_of(body)
        except Off:
            raise Damaged(at) from None
        version = in_place(version, kind)
        if version is None:
            raise Damaged(at)
        if kind in (1, 10):
            node = Node(number, known, said[0])
            node.logs = {log: Log(epoch) for log, epoch in said[1].items()}
        elif kind == 2:
            node.log(said[0]).accept(said[1], said[2])
        elif kind == 3:
            node.log(said[0]).seal = said[1]
        elif kind in (4, 12):
            node.log(said[0]).clean(said[1], said[2])
        elif kind == 5:
            node.log(said[0]).trim_to(said[1])
        elif kind == 6:
            node.log(said[0]).entries.update({e.number: e for e in said[1]})
        elif kind == 7:
            node.log(said[0]).is_lost = False
    return node
