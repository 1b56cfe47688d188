"""Splits the lines of a transcript into the steps of its schedule.

An event is a step; `flow K` is up to K steps, a delivery each, and `calm` is several of several kinds (calms.py). A transcript doesn't say where a step ends, but the lines of
a step are all of one actor, which the event or the message that is delivered names, and each kind of step has lines of
few kinds, in one order (SHAPES). What the network holds is read from the `msg` lines, so each delivery of a flow or a calm is known.
Where more than one split is left (items of one reader in deliveries that follow one another), the search goes on to one
in which all lines find their step.
"""
import re
from typing import NamedTuple

from .calms import Calms
from .formats import Unreadable, home, lsn, named_log, shorten

# a letter for each kind of line
LETTERS = {
    "none": "0", "set": "s", "formatted": "F", "lost": "L", "up": "U", "down": "D", "wiped": "W", "failed": "X", "full": "Y",
    "rebuilt": "B", "replaced": "P", "refusednode": "Z", "active": "a", "appended": "p", "refused": "z", "acked": "k", "clean": "c",
    "trimmed": "t", "released": "r", "record": "1", "message": "6",
}
GAP_LETTERS = {"hole": "2", "bridge": "3", "trim": "4", "dataloss": "5"}
MESSAGE_LETTERS = {"clean": "C", "release": "R", "trim": "T", "digestask": "G", "store": "S", "readask": "K", "readone": "O"}

# what a step may write, by its event, or by who takes which message; nothing but `none` where it isn't here
SHAPES = {
    "set": "s", "format": "FL*|[DXYZ]", "up": "[UDX]", "down": "D", "wipe": "W", "activate": "aG*|z", "append": "pS*|z", "batch": "pS*|z",
    "trim": "tT*|z", "retry": "z?c?r?C*R*G*S*", "calm": "z?c?r?C*R*G*S*", "open": "z", "openone": "z", "openmsgs": "z", "poll": "O+|K*", "tick": "[DXYB]|K+",
    "replace": "[PZ]",
    "n store": "[DXYM]", "n digestask": "[DXYM]", "n readask": "[DXYM]", "n readone": "[DXYM]", "n clean": "[DXY]", "n trim": "[DXY]",
    "n release": "[DXY]", "n readpage": "[DXY]", "n readtrim": "[DXY]",
    "s stored own": "k?r?R*", "s stored": "z?c?r?C*R*G*", "s trimmedhere": "z?c?r?C*R*G*", "s cleanhere": "z|r?C*R*G*",
    "s sealedhere": "z", "s digestpage": "G|S+|z|c?r?C*R*G*", "s losthere": "S+|z?c?r?C*R*G*",
    "r readpage": "([1256][1-6]*)?(O+|K*)", "r readended": "([35][1-6]*)?(O+|K*)", "r readtrim": "(4[1-6]*)?(O+|K*)",
    "r losthere": "(5[1-6]*)?(O+|K*)",
    "r readwait": "O+|K*",
}
SHAPES = {step: re.compile(shape) for step, shape in SHAPES.items()}
OPENS = ("open", "openone", "openmsgs")
REFUSE_AT_ONCE = 200_000


class Step(NamedTuple):
    """One step: its event, which one of a flow or a calm it is, who acts (None: nobody), the message taken (None: none), whether
    that was new, its lines from `first` up to `end`, and what a calm had left to do before it."""

    event: int
    turn: int
    actor: str
    message: int
    was_new: bool
    first: int
    end: int
    left: tuple


class Split(NamedTuple):
    """The steps, and the index of the first event that has no lines any more (the count of events where there is none)."""

    steps: list
    done: int


def actor_of(event):
    """Who acts in an event that is no delivery."""
    if event.word in ("activate", "append", "batch", "trim", "retry", "drop"):
        return "s." + event.args[0]
    if event.word in OPENS or event.word == "poll":
        return "r." + event.args[0]
    return None if event.word in ("set", "regfail", "calm") else "n." + event.args[0]


class Splitter:
    """A search for the steps, one after the other; where a step may end at several lines, the likeliest is tried first."""

    def __init__(self, schedule, lines, name):
        self.events, self.lines, self.name, self.logs = schedule.events, lines, name, schedule.config.logs
        self.messages = [l for l in lines if l.kind == "msg"]
        self.letters = "".join(self.letter(l) for l in lines)
        self.epochs = {}
        for line in lines:
            if line.kind == "active":
                self.epochs[line.actor] = int(line.fields[0])
        self.count_ahead()
        self.gather()
        self.is_new = bytearray(b"\1" * len(self.messages))
        self.oldest = 0
        self.steps, self.choices, self.pages, self.answers = [], [], {}, {}
        self.event = self.turn = self.line = self.farthest = 0
        self.stuck, self.left = None, ()
        self.calms = Calms(self, schedule.config)

    def letter(self, line):
        if line.kind == "msg":
            return MESSAGE_LETTERS.get(line.fields[3], "M")
        return GAP_LETTERS[line.fields[0]] if line.kind == "gap" else LETTERS[line.kind]

    def count_ahead(self):
        """Before each line, how many messages were sent; from each line on, where the lines of its actor end."""
        self.sent, self.same = [0], [0] * len(self.lines)
        for line in self.lines:
            self.sent.append(self.sent[-1] + (line.kind == "msg"))
        for at in reversed(range(len(self.lines))):
            goes_on = at + 1 < len(self.lines) and self.lines[at + 1].actor == self.lines[at].actor
            self.same[at] = self.same[at + 1] if goes_on else at + 1

    def gather(self):
        """Who has which log, which numbers each node is known to have stored and for which epoch's sequencer, by whom each
        epoch was closed, when each node lost its disk, and how many nodes a number of each epoch is sent to by its own sequencer
        and by another, whose plan may go to all nodes of the epoch."""
        self.log_of, self.stored, self.wiped, self.closed, self.choice = {}, {}, {}, {}, {}
        for event in self.events:
            if event.word == "activate" or event.word in OPENS:
                self.log_of.setdefault(actor_of(event), int(event.args[1]))
        self.single = {actor_of(event) for event in self.events if event.word == "openone"}
        named = dict(self.logs)
        for line in self.lines:
            if line.kind == "set":
                named[int(line.fields[0])] = named_log(line.fields)
            elif line.kind == "active":
                log = self.log_of.get(line.actor)
                if log in named:
                    self.choice[log, int(line.fields[0])] = named[log].copies + named[log].extras, len(named[log].nodes)
            elif line.kind == "wiped":
                self.wiped.setdefault(line.actor, []).append(line.number)
            elif line.kind == "clean":
                key = self.log_of.get(line.actor), home(line.fields[0])
                self.closed.setdefault(key, (line.number, self.epochs.get(line.actor, 0)))
            elif line.kind == "msg" and line.fields[3] == "stored":
                key = line.actor, self.log_of.get(line.fields[2]), line.fields[4]
                self.stored.setdefault(key, []).append((line.number, self.epochs.get(line.fields[2], 0)))

    def rises(self, before, after):
        """Whether two messages of one kind stand in the order of a step: by number, each addressee once."""
        one, two = before.fields, after.fields
        if one[3] != two[3]:
            return True
        if one[3] == "store":
            return lsn(one[4]) <= lsn(two[4])
        return int(one[2][2:]) < int(two[2][2:])

    def in_order(self, at, end, again=False):
        """How far the messages from `at` on are in the order of one step, each told once, and no number stored at more
        nodes than a choice has. Where a calm retries, its number may be released a second time."""
        told, stores, log = set(), {}, self.log_of.get(self.lines[at].actor)
        for k in range(at, end):
            line = self.lines[k]
            if line.kind != "msg":
                continue
            what = tuple(line.fields[2:])
            if again and what in told and line.fields[3] == "release":
                told, again = {one for one in told if one[1] != "release"}, False
            elif what in told or (k > at and self.letters[k - 1] == self.letters[k] and not self.rises(self.lines[k - 1], line)):
                return k
            if line.fields[3] == "store":
                stores[line.fields[4]] = stores.get(line.fields[4], 0) + 1
                epoch = home(line.fields[4])
                if stores[line.fields[4]] > self.choice.get((log, epoch), (16, 16))[self.epochs.get(line.actor) != epoch]:
                    return k
            told.add(what)
        return end

    def ends(self, shape, actor, message):
        """Where a step that begins at this line may end, the likeliest end last."""
        at = self.line
        if self.letters[at] == "0":
            return [at + 1] if not self.left or self.left[0][0] != "ticks" else self.ticked(at + 1)
        if shape not in SHAPES or self.lines[at].actor != actor:
            return []
        found = SHAPES[shape].match(self.letters, at, self.same[at])
        end = self.in_order(at, found.end() if found else at, shape == "calm")
        if end == at:
            return []
        if shape in ("append", "batch", "retry", "calm", "tick"):
            return [k for k in range(at + 1, end) if self.lines[k].kind == "msg"] + [end]
        if shape[:2] != "r ":
            return [end]
        if self.letters[at] in "KO" and not self.may_ask(actor, message):
            return []
        inside = [k for k in range(at + 1, end) if self.letters[k - 1] in "123456" and not self.goes_on(k)]
        gaps = [k for k in inside if shape == "r readpage" and not self.is_held(actor, message, self.lines[k])]
        likely = gaps[0] if gaps else end
        return [k for k in inside + [end] if k != likely] + [likely]

    def ticked(self, end):
        """The ends of a tick of a calm that tells nothing: with whether the node ticks again, the likeliest last."""
        _, log, node = self.left[0]
        again = self.calms.may_clean(log, f"n.{node}")
        return [(end, not again), (end, again)]

    def ticks(self, step):
        """The log and the node of a step that is a tick; None of another one."""
        event = self.events[step.event]
        if event.word == "tick":
            return int(event.args[1]), f"n.{event.args[0]}"
        return (step.left[0][1], f"n.{step.left[0][2]}") if step.left and step.left[0][0] == "ticks" else None

    def goes_on(self, at):
        """Whether a line is a message of the batch whose messages stand before it: they are one item, and of one step."""
        return self.letters[at] == "6" and self.lines[at].fields[1] != "0"

    def may_ask(self, reader, message):
        """Whether the reader took an answer of a lost node, or has one copy sent of each record: without that it asks in a delivery only
        after an item."""
        return reader in self.single or self.messages[message].fields[3] == "losthere" or self.answers.get((reader, "losthere"), 0) > 0

    def is_held(self, reader, message, item):
        """Whether the reader may have this item from what it took so far: false of a record or hole that no node is known
        to have stored before it sent a page to this reader."""
        if item.kind not in ("record", "message") and item.fields[0] != "hole":
            return True
        number = item.fields[1 if item.kind == "gap" else 0]
        pages = [message] + self.pages.get((reader, self.messages[message].fields[4]), [])
        return any(self.shows(self.messages[page], reader, number) for page in pages)

    def remember(self, step, by):
        """Counts what a reader took (1), or takes it back (-1)."""
        if step.message is None or not step.actor or step.actor[0] != "r":
            return
        kind, number = self.messages[step.message].fields[3:]
        self.answers[step.actor, kind] = self.answers.get((step.actor, kind), 0) + by
        pages = self.pages.setdefault((step.actor, number), [])
        pages.append(step.message) if by > 0 else pages.pop()

    def shows(self, page, reader, number):
        """Whether a page has the number for all that is known: its node stored it, for the sequencer that closed the epoch
        or a later one where the epoch was closed before, and has that disk still."""
        if page.fields[3] != "readpage" or home(page.fields[4]) != home(number) or lsn(page.fields[4]) > lsn(number):
            return False
        log = self.log_of.get(reader)
        closed, ballot = self.closed.get((log, home(number)), (page.number, 0))
        for k, epoch in self.stored.get((page.actor, log, number), []):
            is_there = k < page.number and not any(k < w < page.number for w in self.wiped.get(page.actor, []))
            if is_there and (closed >= page.number or epoch >= ballot):
                return True
        return False

    def next_shape(self):
        """The step that comes next: its shape, its actor and its message; None where the events are over."""
        while self.event < len(self.events):
            event = self.events[self.event]
            if event.word == "flow":
                message = self.oldest_new()
                if self.turn < int(event.args[0]) and message is not None:
                    return self.delivery(message)
                if self.turn == 0:
                    return "flow", None, None
                self.event, self.turn = self.event + 1, 0
                continue
            if event.word == "calm":
                if self.turn == 0:
                    self.left = self.calms.all_left()
                found = self.calms.next_of(self.left)
                if found:
                    step, self.left = found
                    return step
                self.event, self.turn, self.left = self.event + 1, 0, ()
                continue
            if event.word in ("deliver", "lose"):
                message = int(event.args[0])
                if message >= self.sent[self.line]:
                    return event.word, None, None
                return self.delivery(message) if event.word == "deliver" else ("lose", None, message)
            return event.word, actor_of(event), None
        return None

    def oldest_new(self):
        """The oldest new message; None where there is none."""
        while self.oldest < self.sent[self.line] and not self.is_new[self.oldest]:
            self.oldest += 1
        return self.oldest if self.oldest < self.sent[self.line] else None

    def delivery(self, message):
        sender, taker, kind, number = self.messages[message].fields[1:]
        shape = f"{taker[0]} {kind}"
        if shape == "s stored" and lsn(number)[0] == self.epochs.get(taker):
            shape += " own"
        return shape, taker, message

    def take(self, actor, message, end):
        end, again = end if isinstance(end, tuple) else (end, False)
        was_new = message is not None and bool(self.is_new[message])
        self.steps.append(Step(self.event, self.turn, actor, message, was_new, self.line, end, self.left))
        if was_new:
            self.is_new[message] = 0
        self.remember(self.steps[-1], 1)
        if self.left:
            self.left = self.calms.goes_on(self.left, again)
            self.turn, self.line = self.turn + 1, end
            return
        self.line = end
        if self.events[self.event].word == "flow" and message is not None:
            self.turn += 1
        else:
            self.event, self.turn = self.event + 1, 0

    def go_back(self):
        """Goes back to the last step with another end, and takes that; false where there is none."""
        while self.choices:
            count, ends = self.choices.pop()
            while len(self.steps) > count:
                step = self.steps.pop()
                self.remember(step, -1)
                if step.was_new:
                    self.is_new[step.message] = 1
                    self.oldest = min(self.oldest, step.message)
            self.event, self.turn, self.line, self.left = step.event, step.turn, step.first, step.left
            self.choose(step.actor, step.message, ends)
            return True
        return False

    def choose(self, actor, message, ends):
        end = ends.pop()
        if ends:
            self.choices.append((len(self.steps), ends))
        self.take(actor, message, end)

    def search(self):
        """Goes on to a split in which all lines are used; false where there is none (any more)."""
        self.partial, budget = None, REFUSE_AT_ONCE
        while True:
            step = self.next_shape()
            if self.line == len(self.lines):
                if step is None:
                    return True
                if self.partial is None:
                    self.partial = Split(list(self.steps), self.event)
                ends = []
            else:
                ends = self.ends(*step) if step else []
                if not ends and self.line >= self.farthest:
                    self.farthest, self.stuck = self.line, (self.event, step)
            if ends:
                self.choose(step[1], step[2], ends)
                continue
            budget -= 1
            if budget == 0 or not self.go_back():
                return False

    def refuse(self):
        line, (event, step) = self.lines[self.farthest], self.stuck
        if step is None:
            why = "no event is left whose line this is"
        else:
            told = self.events[event]
            taken = "" if step[2] is None else f", which delivers message {step[2]}"
            why = f"isn't a line of its step, line {told.number} of the schedule, `{shorten(told.text, 40)}`{taken}"
        raise Unreadable(self.name, line.number, why, line.text)


def split(schedule, lines, name):
    """The steps of a run. A transcript may end early, between two steps."""
    splitter = Splitter(schedule, lines, name)
    if splitter.search():
        return Split(splitter.steps, len(schedule.events))
    if splitter.partial is None:
        splitter.refuse()
    return splitter.partial


def count_splits(schedule, lines, name, most):
    """How many splits there are, counted up to `most`."""
    splitter, count = Splitter(schedule, lines, name), 0
    found = splitter.search()
    while found and count < most:
        count += 1
        found = splitter.go_back() and splitter.search()
    return count
