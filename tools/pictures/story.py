"""What a run was, ready to be drawn: columns, messages and what became of them, how each node stood, each reader's items."""
from typing import NamedTuple

from . import formats, steps

LETTER = {"record": "R", "message": "M", "trim": "T", "hole": "H", "bridge": "B", "dataloss": "D"}


class Taking(NamedTuple):
    step: int
    is_repeat: bool


class Message:
    """A message: who sent it in which step, and the steps that took or lost it."""

    def __init__(self, line, step):
        words = line.fields
        self.id, self.sender, self.taker, self.kind, self.lsn = int(words[0]), words[1], words[2], words[3], words[4]
        self.line, self.sent = line.number - 1, step
        self.takings, self.lost = [], None

    def first(self):
        return next((t.step for t in self.takings if not t.is_repeat), None)

    def fate(self):
        return "taken" if self.first() is not None else "never" if self.lost is None else "lost"

    def ends(self):
        """What became of it, in a few words; steps are counted from 1."""
        parts = ["never delivered"] if self.fate() == "never" and not self.takings else []
        if self.lost is not None:
            parts.append(f"lost in {self.lost + 1}")
        if self.takings:
            parts.append("→ " + ", ".join(str(t.step + 1) for t in self.takings))
        return " ".join(parts)


class Item(NamedTuple):
    """An item of a reader; `line` and `step` are indices from 0."""

    reader: str
    kind: str
    low: str
    high: str
    payload: str
    line: int
    step: int

    def letter(self):
        return LETTER[self.kind]

    def label(self):
        return self.low if self.low == self.high else f"{self.low} to {self.high}"


class Span(NamedTuple):
    """How a node stands from a step on: `blank`, `up`, `down` or `failed`; for which logs it stands lost, up to which epoch
    (None: for all that there is); the lines that made it so."""

    step: int
    state: str
    lost: dict
    since: dict


class Story:
    def __init__(self, name, schedule, lines, transcript="the transcript"):
        self.name, self.config, self.events, self.lines = name, schedule.config, schedule.events, lines
        split = steps.split(schedule, lines, transcript)
        self.steps = split.steps
        self.notes = self.endings(schedule, split)
        self.step_of = [0] * len(lines)
        for number, step in enumerate(self.steps):
            self.step_of[step.first : step.end] = [number] * (step.end - step.first)
        self.log_of, self.until = {}, {}
        self.gather_actors()
        self.gather_messages()
        self.gather_logs()
        self.items = [self.item(l) for l in lines if l.kind in LETTER or l.kind == "gap"]
        self.spans = {n: self.stand(n) for n in self.config.nodes}

    def endings(self, schedule, split):
        notes = []
        if schedule.fault:
            notes.append(f"{schedule.fault}; the picture ends before it")
        if split.done < len(self.events):
            event = self.events[split.done]
            notes.append(f"the transcript ends before line {event.number} of the schedule, {formats.shorten(event.text, 40)}")
        return notes

    def text_of(self, step):
        return self.lines[step.first : step.end]

    def gather_actors(self):
        """The sequencers and readers that came to be, in their order, with the steps of their lives."""
        self.born, self.gone, self.seen = {}, {}, {}
        for number, step in enumerate(self.steps):
            event, lines = self.events[step.event], self.text_of(step)
            name = step.actor
            self.seen[name] = number
            if event.word == "activate" and lines[0].kind == "active":
                self.born[name], self.log_of[name] = number, int(event.args[1])
            if event.word in steps.OPENS and lines[0].kind == "none" and name not in self.born and int(event.args[1]) in self.config.logs:
                self.born[name], self.log_of[name], self.until[name] = number, int(event.args[1]), event.args[3]
            if event.word == "drop" and name in self.born:
                self.gone.setdefault(name, number)
        self.sequencers = [a for a in self.born if a[0] == "s"]
        self.readers = [a for a in self.born if a[0] == "r"]

    def gather_messages(self):
        self.messages = [Message(l, self.step_of[l.number - 1]) for l in self.lines if l.kind == "msg"]
        for number, step in enumerate(self.steps):
            if step.message is None:
                continue
            message = self.messages[step.message]
            if self.events[step.event].word == "lose":
                message.lost = number if step.was_new else message.lost
                self.seen[message.taker] = number
            else:
                message.takings.append(Taking(number, not step.was_new))

    def gather_logs(self):
        """The nodes, the factor and the extras of each epoch of a log, from which step on: those that were named last before it
        was handed out, and then as nodes took the places of others in it. An activation that failed handed one out where the fault that was
        armed last is one with the change made."""
        named, self.logs, last, is_done, upto = dict(self.config.logs), {}, {}, False, {}
        for number, step in enumerate(self.steps):
            event, line = self.events[step.event], self.lines[step.first]
            if event.word == "regfail":
                is_done = event.args[1] == "done"
            elif line.kind == "set":
                named[int(line.fields[0])] = formats.named_log(line.fields)
            elif event.word == "activate":
                is_made = line.kind == "active" or (line.fields[:1] == ["register"] and is_done)
                log = int(event.args[1])
                if is_made and log in named:
                    last[log] = last.get(log, 0) + 1
                    self.logs[log, last[log]] = [(number, named[log])]
            elif event.word == "format":
                upto.update({(step.actor, int(l.fields[0])): int(l.fields[1]) for l in self.text_of(step) if l.kind == "lost"})
            elif line.kind == "replaced":
                log, old = (int(word) for word in line.fields[:2])
                self.replace(number, log, old, int(step.actor[2:]), upto.get((step.actor, log), 0))

    def replace(self, number, log, old, new, upto):
        """A node took the place of another one in the epochs up to one that had the old one and lacked the new one."""
        for epoch in range(1, upto + 1):
            _, now = self.logs.get((log, epoch), [(0, self.config.logs[log])])[-1]
            if old in now.nodes and new not in now.nodes:
                self.logs[log, epoch].append((number, now._replace(nodes=sorted({*now.nodes, new} - {old}))))

    def log_at(self, log, epoch, step=None):
        """What an epoch of a log had by a step, or by the end; what the configuration has, where it wasn't handed out."""
        found = [it for since, it in self.logs.get((log, epoch), []) if step is None or since <= step]
        return found[-1] if found else self.config.logs[log]

    def item(self, line):
        at, words = line.number - 1, line.fields
        if line.kind in ("record", "message"):
            return Item(line.actor, line.kind, words[0], words[0], words[-1], at, self.step_of[at])
        return Item(line.actor, words[0], words[1], words[2], "", at, self.step_of[at])

    def stand(self, node):
        """The spans of a node. Lost for all logs at the start and after a wipe; then as the lines say."""
        actor, logs = f"n.{node}", list(self.config.logs)
        state, lost, since = "blank", {l: None for l in logs}, {l: [] for l in logs}
        is_formatted, spans = False, [Span(0, state, dict(lost), dict(since))]
        for number, step in enumerate(self.steps):
            if step.actor != actor:
                continue
            for line in self.text_of(step):
                at = line.number - 1
                if line.kind == "wiped":
                    state, is_formatted, lost, since = "blank", False, {l: None for l in logs}, {l: [at] for l in logs}
                elif line.kind == "formatted":
                    state, is_formatted, formatted, lost, since = "up", True, at, {}, {l: since.get(l, []) for l in logs}
                elif line.kind == "lost":
                    log, epoch = (int(w) for w in line.fields)
                    lost[log], since[log] = epoch, since.get(log, []) + [formatted, at]
                elif line.kind == "rebuilt":
                    lost.pop(int(line.fields[0]), None)
                elif line.kind == "up":
                    state = "up" if is_formatted else "blank"
                elif line.kind in ("down", "failed", "full"):
                    state = "down" if line.kind == "down" else "failed"
                elif line.kind == "msg" and state == "blank":
                    # a crash in the format left the record: it is told by the first answer
                    state, is_formatted = "up", True
            span = Span(number, state, dict(lost), {l: since[l] for l in lost})
            if span[1:3] != spans[-1][1:3]:
                spans.append(span)
        return spans

    def span_at(self, node, step):
        found = self.spans[node][0]
        for span in self.spans[node]:
            if span.step > step:
                break
            found = span
        return found
