"""Why a reader got a gap: the lines that led to it, each with a sentence."""
from .formats import home, lsn


class Causes:
    """Looks up, for each gap of a story, the lines behind it."""

    def __init__(self, story):
        self.story = story
        self.cleans, self.trims, self.appends, self.acks, self.stores = {}, {}, {}, {}, {}
        self.sent_by, self.taken_by = {}, {}
        for at, line in enumerate(story.lines):
            log = story.log_of.get(line.actor)
            if line.kind == "clean":
                self.cleans[log, home(line.fields[0])] = at
            elif line.kind == "trimmed":
                self.trims.setdefault(log, []).append(at)
            elif line.kind == "appended":
                self.appends[log, line.fields[0]] = at
            elif line.kind == "acked":
                self.acks[log, line.fields[0]] = at
        for message in story.messages:
            self.sent_by.setdefault((message.kind, message.sender), []).append(message)
            self.taken_by.setdefault((message.kind, message.taker), []).append(message)
            if message.kind == "store":
                self.stores.setdefault((message.sender, home(message.lsn)), []).append(message)

    def of(self, item):
        """A list of (sentence, indices of lines)."""
        log = self.story.log_of[item.reader]
        if item.kind in ("record", "message"):
            return self.of_record(item, log)
        if item.kind == "trim":
            return self.of_trim(item, log)
        if item.kind == "dataloss":
            return self.of_loss(item, log)
        return self.of_closing(item, log)

    def of_trim(self, item, log):
        before = [at for at in self.trims.get(log, []) if at < item.line]
        fitting = [at for at in before if lsn(self.story.lines[at].fields[0]) >= lsn(item.high)]
        if not fitting:
            return [("No trim of this point is told: the log was trimmed up to it by a sequencer whose line isn't here.", [])]
        best = min(fitting, key=lambda at: (lsn(self.story.lines[at].fields[0]), at))
        point, name = self.story.lines[best].fields[0], self.story.lines[best].actor[2:]
        told = [m.line for m in self.sent_by.get(("trim", f"s.{name}"), []) if m.lsn == point]
        closes = [at for (of, _), at in self.cleans.items() if of == log and best < at < item.line]
        answers = [m.line for m in self.taken_by.get(("readtrim", item.reader), []) if m.lsn == item.high]
        answers = [at for at in answers if at < item.line]
        parts = [
            (f"Sequencer {name} let all up to {point} go.", [best]),
            ("It told the nodes.", told),
            ("Epochs that were closed later; a close takes on the trim point that its digest found.", closes),
            ("Nodes answered the reader that it is trimmed.", answers),
        ]
        return [part for part in parts if part[1]]

    def of_record(self, item, log):
        """The append of a record, what was sent of it, and who acknowledged it or copied it."""
        told, epoch, at = [], home(item.low), self.appends.get((log, item.low))
        if at is not None:
            name = self.story.lines[at].actor
            told.append((f"Sequencer {name[2:]} appended it.", [at]))
            told.append(("Its stores.", [m.line for m in self.stores.get((name, epoch), []) if m.lsn == item.low]))
        acked, closed = self.acks.get((log, item.low)), self.cleans.get((log, epoch))
        if acked is not None:
            told.append(("It was acknowledged.", [acked]))
        else:
            told.append(("It was never acknowledged.", []))
        if closed is not None and closed < item.line:
            name = self.story.lines[closed].actor
            told.append((f"Sequencer {name[2:]} closed its epoch.", [closed]))
            told.append(("The plan of that close copied it.", [m.line for m in self.stores.get((name, epoch), []) if m.lsn == item.low]))
        return [part for part in told if part[1] or "never" in part[0]]

    def of_closing(self, item, log):
        epoch = home(item.low)
        if epoch == 0:
            return [("Epoch 0 never had a record. It counts as closed, and a reader is led over it.", [])]
        at = self.cleans.get((log, epoch))
        if at is None:
            told = f"Epoch {epoch} has no `clean` line: it was closed in a call of the register that failed after its change."
            return [(told, [])] + self.of_plans(epoch, log)
        name, end = self.story.lines[at].actor, self.story.lines[at].fields[0]
        told = [(f"Sequencer {name[2:]} closed epoch {epoch}; it ends at {end}.", [at])]
        plan = self.stores.get((name, epoch), [])
        if item.kind == "hole":
            mine = [m.line for m in plan if lsn(item.low) <= lsn(m.lsn) <= lsn(item.high)]
            told.append(("Its plan put the hole there, in these stores.", mine))
            told += self.of_append(item, log)
        else:
            mine = [m.line for m in plan if m.lsn == end]
            told.append(("Its plan put the bridge at the end, in these stores.", mine))
        rest = [m.line for m in plan if m.line not in set(mine)]
        told.append(("The other stores of that plan.", rest))
        made = min((m.sent for m in plan), default=-1)
        pages = [m for m in self.taken_by.get(("digestpage", name), []) if home(m.lsn) == epoch and m.takings]
        told.append(("The plan was made from these digest pages.", [m.line for m in pages if m.takings[0].step <= made]))
        return [part for part in told if part[1]]

    def of_plans(self, epoch, log):
        """The stores of each sequencer that recovered the epoch."""
        return [
            (f"Sequencer {name[2:]} recovered epoch {epoch} with these stores.", [m.line for m in plan])
            for (name, e), plan in self.stores.items()
            if e == epoch and self.story.log_of.get(name) == log and lsn(self.own_epoch(name))[0] > epoch
        ]

    def own_epoch(self, name):
        line = next(l for l in self.story.lines if l.kind == "active" and l.actor == name)
        return f"e{line.fields[0]}n0"

    def of_append(self, item, log):
        """What became of the append whose number is a hole now."""
        at = self.appends.get((log, item.low))
        if at is None:
            return [("No append had this number; it lies below one that was kept.", [])]
        name = self.story.lines[at].actor
        sent = [m for m in self.sent_by.get(("store", name), []) if m.lsn == item.low]
        return [(f"Its append by {name[2:]}, which was never acknowledged.", [at]), ("The stores of that append.", [m.line for m in sent])]

    def of_loss(self, item, log):
        """The last time before the gap in which as many nodes as the replication factor stood lost for the epoch."""
        epoch = home(item.low)
        nodes, copies, _ = self.story.log_at(log, epoch, item.step)
        moment, lost = self.moment(item.step, log, epoch, nodes, copies)
        if not lost:
            return [("No moment is told at which enough nodes stood lost.", [])]
        names = ", ".join(map(str, lost))
        what = f"From step {moment + 1} on, nodes {names} stood lost for epoch {epoch}."
        told = self.of_loss_plan(item, log, copies)
        told.append((f"{what} A record is acknowledged once {copies} keep it, so these may have been all that did.", []))
        for node, span in lost.items():
            since = span.since.get(log, [])
            told.append((f"Node {node} stood lost since these lines." if since else f"Node {node} was blank from the start.", since))
        confirmed = [m for m in self.taken_by.get(("losthere", item.reader), []) if m.line < item.line and m.lsn == item.low]
        told.append(("They said so when the reader asked.", [m.line for m in confirmed]))
        return told

    def of_loss_plan(self, item, log, copies):
        """The closing plan, where it was made from what too many lost nodes left, and says that the item is lost."""
        epoch = home(item.low)
        at = self.cleans.get((log, epoch))
        if at is None:
            return []
        name, end = self.story.lines[at].actor, self.story.lines[at].fields[0]
        plan = [m for m in self.stores.get((name, epoch), []) if m.line < at]
        lost = [m for m in self.taken_by.get(("losthere", name), []) if home(m.lsn) == epoch and m.line < at]
        mine = [m.line for m in plan if m.lsn == (item.low if item.high == item.low else end)]
        if len({m.sender for m in lost}) < copies or not mine:
            return []
        what = "put a plug there" if item.high == item.low else f"ends the epoch at {end}, and what stood behind may be lost"
        return [
            (f"Sequencer {name[2:]} closed epoch {epoch} without the nodes that lost it.", [at]),
            ("They had told it so.", [m.line for m in lost]),
            (f"Its plan {what}, in these stores.", mine),
        ]

    def moment(self, end, log, epoch, nodes, copies):
        """The step at which the last such time before `end` began, and those of the nodes that stood lost then, each with its
        last span in that time."""
        found, begin = {}, 0
        for step in sorted({s.step for n in nodes for s in self.story.spans[n] if s.step < end}, reverse=True):
            spans = {n: self.story.span_at(n, step) for n in nodes}
            lost = {n: s for n, s in spans.items() if log in s.lost and (s.lost[log] is None or s.lost[log] >= epoch)}
            if len(lost) >= copies:
                begin, found = step, {n: found.get(n, s) for n, s in lost.items()}
            elif found:
                break
        return begin, found
