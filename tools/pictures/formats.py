"""Reads schedules and transcripts as docs/formats.md has them. A line that can't be read is told with its number."""
import json, re
from typing import NamedTuple

LONGEST = 200_000
HUGE = 2**32 - 1

MESSAGES = (
    "store stored sealedhere losthere cleanhere trimmedhere digestask digestpage "
    "clean release trim readask readpage readended readtrim readwait readone"
).split()

# what a word of an event has to be
NUMBER = "0|[1-9][0-9]*"
WORDS = {
    "N": lambda w: is_number(w, 1, 16),
    "L": lambda w: is_number(w, 1, 65_535),
    "K": lambda w: is_number(w, 1, 1_000_000),
    "I": lambda w: is_number(w, 0, 999_999_999_999),
    "S": lambda w: re.fullmatch("[a-z0-9]{1,16}", w),
    "HEX": lambda w: re.fullmatch("-|([0-9a-f]{2})+", w),
    "HEX,HEX,..": lambda w: w.count(",") < 1024 and all(re.fullmatch("-|([0-9a-f]{2})+", part) for part in w.split(",")),
    "LSN": lambda w: is_lsn(w),
    "PICTURE": lambda w: re.fullmatch("old|new|[0-9a-f]{2}", w),
    "HOW": lambda w: re.fullmatch("done|undone", w),
    "R": lambda w: is_number(w, 1, 16),
    "X": lambda w: is_number(w, 0, 3),
    "NODES": lambda w: is_rising(w.split(",")),
}

EVENTS = {
    form.split()[0]: form.split()[1:]
    for form in (
        "format N;activate S L;append S HEX;batch S HEX,HEX,..;trim S LSN;retry S;drop S;deliver I;lose I;flow K;open S L LSN LSN;"
        "openone S L LSN LSN;openmsgs S L LSN LSN;poll S;tick N L;down N;up N;wipe N;fail N K;tear N K PICTURE;set L R X NODES;replace N N L;"
        "regfail K HOW;calm"
    ).split(";")
}

# the lines of a transcript: kind, whose line it is, form; `#` is a number, `@` a name, `%` a number of a log
LINES = """
none        -  none
set         -  set # # # #(?:,#)*
formatted   n  node # formatted #
lost        n  node # lost # #
up          n  node # up
down        n  node # down
wiped       n  node # wiped
failed      n  node # failed
full        n  node # full
rebuilt     n  node # rebuilt #
replaced    n  node # replaced # # #
refusednode n  node # refused (register|genlimit|swaplimit)
active      s  active @ #
appended    s  appended @ %
refused     r  refused @ (range|full)
refused     s  refused @ (long #|preempted #|epochfull|windowfull|past %|register|epochlimit)
acked       s  acked @ %
clean       s  clean @ %
trimmed     s  trimmed @ %
released    s  released @ %
record      r  record @ % (-|(?:[0-9a-f]{2})+)
message     r  message @ % # (-|(?:[0-9a-f]{2})+)
gap         r  gap @ (trim|hole|bridge|dataloss) % %
msg         m  msg # ([nsr]\\.[a-z0-9]{1,16}) ([nsr]\\.[a-z0-9]{1,16}) ([a-z]+) %
"""


class Unreadable(Exception):
    """A line that can't be read: of which file, its number counted from 1, and why."""

    def __init__(self, name, number, why, text=""):
        shown = f" `{shorten(text, 60)}`" if text else ""
        super().__init__(f"{name}, line {number}:{shown} {why}")
        self.number = number


class Log(NamedTuple):
    """A log's nodes, its replication factor and its extras."""

    nodes: list
    copies: int
    extras: int


class Config(NamedTuple):
    nodes: list
    logs: dict


class Event(NamedTuple):
    word: str
    args: list
    number: int
    text: str


class Line(NamedTuple):
    """A line of a transcript. `actor` is `n.N`, `s.NAME` or `r.NAME`; None for `none` and `set`. `fields` are the words after the
    actor's."""

    kind: str
    actor: str
    fields: list
    number: int
    text: str


class Schedule(NamedTuple):
    """`fault` is the first line that can't be read, or None; the events are those before it."""

    config: Config
    events: list
    fault: Unreadable


def shorten(text, most):
    return text if len(text) <= most else text[: most - 1] + "…"


def is_number(word, low, high):
    return re.fullmatch(NUMBER, word) and len(word) < 20 and low <= int(word) <= high


def is_rising(words):
    """Whether the words are numbers of nodes, each greater than the one before it."""
    return all(is_number(word, 1, 16) for word in words) and all(int(a) < int(b) for a, b in zip(words, words[1:]))


def is_lsn(word):
    found = re.fullmatch(f"e({NUMBER})n({NUMBER})", word)
    return found and all(is_number(part, 0, HUGE) for part in found.groups())


def lsn(word):
    """The epoch and the place of a number."""
    epoch, place = word[1:].split("n")
    return int(epoch), int(place)


def home(word):
    """The epoch that a number belongs to: place 0 belongs to the bridge of the epoch before."""
    epoch, place = lsn(word)
    return epoch - 1 if place == 0 and epoch > 0 else epoch


def named_log(fields):
    """What a `set` line names for its log."""
    return Log([int(node) for node in fields[3].split(",")], int(fields[1]), int(fields[2]))


def read_config(text, name):
    def refuse(why):
        raise Unreadable(name, 1, why)

    try:
        config = json.loads(text)
        nodes, logs = config["nodes"], {}
        for log in config["logs"]:
            logs[log["id"]] = Log(sorted(log["set"]), log["r"], log.get("extras", 0))
            if not set(log["set"]) <= set(nodes) or not 1 <= log["r"] <= len(log["set"]):
                refuse(f"log {log['id']} has a set or an `r` that doesn't fit")
        if not nodes or not all(type(n) is int and 1 <= n <= 16 for n in nodes):
            refuse("nodes are numbers from 1 to 16")
    except (ValueError, TypeError, KeyError, RecursionError) as why:
        refuse(f"isn't a configuration ({why})")
    return Config(sorted(nodes), logs)


def read_event(text, number, name):
    words = text.split(" ")
    form = EVENTS.get(words[0])
    if form is None:
        raise Unreadable(name, number, "isn't an event", text)
    if len(form) != len(words) - 1:
        raise Unreadable(name, number, f"`{' '.join([words[0]] + form)}` has {len(form)} words after the first", text)
    for want, word in zip(form, words[1:]):
        if not WORDS[want](word):
            raise Unreadable(name, number, f"`{shorten(word, 20)}` isn't a word for {want} in `{' '.join([words[0]] + form)}`", text)
    return Event(words[0], words[1:], number, text)


def cut(data, name):
    """The lines of a file. The rest after the last byte 10 is a line too; whether there is such a rest is told."""
    lines = data.decode("latin-1").split("\n")
    rest = lines.pop()
    return (lines + [rest], True) if rest else (lines, False)


def read_schedule(data, name):
    lines, is_cut = cut(data, name)
    if not lines:
        raise Unreadable(name, 1, "the configuration is missing")
    config, events, fault = read_config(lines[0], name), [], None
    for number, text in enumerate(lines[1:], 2):
        try:
            if len(text) > LONGEST:
                raise Unreadable(name, number, f"is longer than {LONGEST} bytes", text)
            if is_cut and number == len(lines):
                raise Unreadable(name, number, "doesn't end with a byte 10", text)
            events.append(read_event(text, number, name))
        except Unreadable as found:
            fault = found
            break
    return Schedule(config, events, fault)


def line_forms():
    """For each first word the forms of its lines: kind, owner, expression."""
    forms, parts = {}, {"#": f"(?:{NUMBER})", "@": "[a-z0-9]{1,16}", "%": f"e(?:{NUMBER})n(?:{NUMBER})"}
    for row in LINES.strip().splitlines():
        kind, owner, form = row.split(None, 2)
        pattern = re.sub("[#@%]", lambda mark: parts[mark.group()], form)
        forms.setdefault(form.split()[0], []).append((kind, owner, re.compile(pattern)))
    return forms


FORMS = line_forms()


def read_line(text, number, name):
    for kind, owner, form in FORMS.get(text.split(" ", 1)[0], []):
        if form.fullmatch(text):
            words = text.split(" ")
            if owner == "-":
                return Line(kind, None, words[1:], number, text)
            if owner == "m":
                if words[4] not in MESSAGES:
                    raise Unreadable(name, number, f"`{words[4]}` isn't a kind of message", text)
                return Line(kind, words[2], words[1:], number, text)
            # a node's lines have its number first, then their own word
            fields = words[3:] if owner == "n" else words[2:]
            return Line(kind, f"{owner}.{words[1]}", fields, number, text)
    raise Unreadable(name, number, "isn't a line of a transcript", text)


def read_transcript(data, name):
    texts, is_cut = cut(data, name)
    if is_cut:
        raise Unreadable(name, len(texts), "doesn't end with a byte 10", texts[-1])
    lines, sent = [], 0
    for number, text in enumerate(texts, 1):
        line = read_line(text, number, name)
        if line.kind == "msg":
            if int(line.fields[0]) != sent:
                raise Unreadable(name, number, f"message {sent} comes next", text)
            sent += 1
        lines.append(line)
    return lines
