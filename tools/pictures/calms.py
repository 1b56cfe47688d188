"""What a calm has left to do, step by step, as docs/formats.md says.

What is left is a tuple of parts: ("announces", L), ("settles", L), ("ticks", L, N), ("reads", R), ("drains",) and ("again", R, NEXT).
Whether a tick cleaned an epoch isn't told: it is worked out from the steps before, and the search may find that it is otherwise.
"""
import bisect

from .formats import home, lsn


def after(number):
    """The number that comes next."""
    epoch, place = lsn(number)
    return epoch * 2**32 + place + 1


class Calms:
    """What calms look up in the lines of a run and in the steps that were found so far."""

    def __init__(self, splitter, config):
        self.splitter, self.config = splitter, config
        self.active, self.items, self.drops = {}, {}, {}
        for at, line in enumerate(splitter.lines):
            if line.kind == "active":
                self.active.setdefault(splitter.log_of.get(line.actor), []).append((at, int(line.fields[0]), line.actor))
            elif line.kind in ("record", "message", "gap"):
                last = line.fields[2] if line.kind == "gap" else line.fields[0]
                self.items.setdefault(line.actor, []).append((at, after(last)))
        for at, event in enumerate(splitter.events):
            if event.word == "drop":
                self.drops.setdefault(f"s.{event.args[0]}", []).append(at)

    def all_left(self):
        """The parts of a calm that begins now."""
        opened, left = self.opened(), []
        for log in self.config.logs:
            left += [("announces", log), ("settles", log)]
            left += [("ticks", log, node) for node in self.config.nodes]
            left += [("reads", reader) for reader, (of, _, _) in opened.items() if of == log]
        return tuple(left)

    def opened(self):
        """The readers in the order of opening, with their logs, and their first and last numbers."""
        found = {}
        for step in self.splitter.steps:
            event = self.splitter.events[step.event]
            if event.word in ("open", "openone", "openmsgs") and self.splitter.lines[step.first].kind == "none":
                name, log, low, high = event.args
                if int(log) in self.config.logs:
                    found.setdefault(f"r.{name}", (int(log), after(low) - 1, after(high) - 1))
        return found

    def next_number(self, reader):
        """The number that the reader waits for."""
        items = self.items.get(reader, [])
        at = bisect.bisect_left(items, (self.splitter.line, 0))
        return items[at - 1][1] if at else self.opened()[reader][1]

    def last(self, log):
        """The log's sequencer of the greatest epoch; None where there is none, or it is gone."""
        there = [(epoch, at, actor) for at, epoch, actor in self.active.get(log, []) if at < self.splitter.line]
        if not there:
            return None
        _, at, actor = max(there)
        steps = self.splitter.steps
        began = steps[bisect.bisect_right(steps, at, key=lambda step: step.first) - 1].event
        return None if any(began < drop < self.splitter.event for drop in self.drops.get(actor, [])) else actor

    def next_of(self, left):
        """The shape of the next step, its actor and its message, with what is left then; None where nothing is."""
        splitter = self.splitter
        for at, part in enumerate(left):
            rest = left[at:]
            if part[0] == "announces":
                actor = self.last(part[1])
                if actor:
                    return ("calm", actor, None), rest
            elif part[0] in ("settles", "drains"):
                message = splitter.oldest_new()
                if message is not None:
                    return splitter.delivery(message), rest
            elif part[0] == "ticks":
                return ("tick", f"n.{part[2]}", None), rest
            elif part[0] == "reads":
                if self.next_number(part[1]) <= self.opened()[part[1]][2]:
                    return ("poll", part[1], None), rest
            elif self.next_number(part[1]) != part[2]:
                return ("poll", part[1], None), rest
        return None

    def goes_on(self, left, again):
        """What is left behind a step."""
        part, rest = left[0], left[1:]
        if part[0] in ("settles", "drains") or again:
            return left
        if part[0] in ("reads", "again"):
            return (("drains",), ("again", part[1], self.next_number(part[1]))) + rest
        return rest

    def may_clean(self, log, node):
        """Whether a tick of the node finds a closed epoch that isn't clean there, for all that the lines tell."""
        splitter, closed, clean, is_up = self.splitter, set(), set(), False

        def lowest():
            return next(e for e in range(1, len(clean) + 2) if e not in clean)

        for step in splitter.steps:
            lines = splitter.lines[step.first : step.end]
            closed |= {home(l.fields[0]) for l in lines if l.kind == "clean" and splitter.log_of.get(l.actor) == log}
            if step.actor != node:
                continue
            kinds = {line.kind for line in lines}
            if kinds & {"wiped", "formatted"}:
                clean = set()
            if kinds & {"up", "formatted"}:
                is_up = True
            if kinds & {"down", "failed", "wiped"}:
                is_up = False
            elif is_up and step.message is not None:
                sender, _, kind, number = splitter.messages[step.message].fields[1:]
                if kind == "clean" and splitter.log_of.get(sender) == log and "full" not in kinds:
                    clean.add(home(number))
            elif is_up and kinds == {"none"} and splitter.ticks(step) == (log, node) and lowest() in closed:
                clean.add(lowest())
        return is_up and lowest() in closed
