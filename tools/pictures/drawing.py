"""Draws a story: pieces of SVG for each step, message and span, and the whole picture of them."""
from . import ink
from .formats import shorten
from .ink import ROW, pill, short, text

SPACE, BETWEEN, TOP = 104, 14, 100

MARKS = {"appended": "appended", "acked": "acked", "released": "released", "trimmed": "trimmed", "clean": "closed"}
MOST_ITEMS, MOST_TEXT, MOST_COLUMNS = 6, 20, 6

# how a reader is opened, and what its column says of that
OPENS = {"open": "", "openone": ", one copy of each", "openmsgs": ", as messages"}

# events that write `none` also where they do something
QUIET = ("drop", "lose", *OPENS, "fail", "tear", "regfail", "calm")


class Drawing:
    """The pieces of a picture. `gutters` (number and event) and `rows` have one piece a step; `arrows` and `spans` have
    their first and last step before the piece, and an arrow its message."""

    def __init__(self, story):
        self.story = story
        self.place_columns()
        self.width = 0
        self.items_of = {}
        for number, item in enumerate(story.items):
            self.items_of.setdefault(item.line, (number, item))
        self.gutters = [self.gutter(n, s) for n, s in enumerate(story.steps)]
        self.rows = [self.row(n, s) for n, s in enumerate(story.steps)]
        self.width = max([self.width] + list(self.columns.values())) + 24
        self.arrows = [a for m in story.messages for a in self.arrows_of(m)]
        self.spans = self.lifelines()

    def place_columns(self):
        """Register, sequencers, nodes, readers: messages go between neighbours then."""
        story = self.story
        nodes = [[f"n.{n}"] for n in story.config.nodes]
        self.groups = [[["register"]], self.share(story.sequencers), nodes, self.share(story.readers)]
        self.is_shared = {actor: len(actors) > 1 for group in self.groups for actors in group for actor in actors}
        longest = max((len(shorten(e.text, MOST_TEXT)) for e in story.events), default=0)
        self.left = 54 + ink.width("m" * longest, 11.5)
        self.columns, x = {}, self.left + 26
        for group in self.groups:
            for actors in group:
                for actor in actors:
                    self.columns[actor] = x
                # right of the register stands what it gave, left of a sequencer what it took
                x += SPACE + (78 if actors == ["register"] and story.sequencers else 0)
            x += BETWEEN if group else 0

    def share(self, actors):
        """The actors of each column: one, where there are few; else one after the other, each from its birth to its last step."""
        if len(actors) <= MOST_COLUMNS:
            return [[actor] for actor in actors]
        columns = []
        for actor in actors:
            free = [c for c in columns if self.story.seen[c[-1]] + 1 < self.story.born[actor]]
            if free:
                free[0].append(actor)
            else:
                columns.append([actor])
        return columns

    def y(self, step):
        return step * ROW + ROW / 2

    # ---- heads

    def heads(self):
        """The columns' heads, their bottom at 0."""
        kinds = {"r": "reader", "s": "sequencer", "n": "node"}
        out = []
        for actors in (a for group in self.groups for a in group):
            x, names = self.columns[actors[0]], " ".join(a[2:] for a in actors)
            if actors == ["register"]:
                out.append(text(x, -8, "head", "register"))
            elif len(actors) == 1:
                out.append(text(x, -23, "kind", kinds[actors[0][0]]) + text(x, -8, "head", names))
            else:
                shown = f"<g><title>{names}</title>{text(x, -8, 'head', shorten(names, 13))}</g>"
                out.append(text(x, -23, "kind", kinds[actors[0][0]] + "s") + shown)
        return "".join(out)

    # ---- rows

    def gutter(self, number, step):
        event, lines, y = self.story.events[step.event], self.story.text_of(step), self.y(number)
        out = [text(34, y + 3.6, "number", str(number + 1))]
        if step.turn == 0:
            out.append(f'<path class="rule" d="M0,{short(y - ROW / 2)}h{short(self.left)}"/>')
            is_idle = lines[0].kind == "none" and step.message is None and event.word not in QUIET
            out.append(text(44, y + 4, "event idle" if is_idle else "event", shorten(event.text, MOST_TEXT)))
        return "".join(out)

    def row(self, number, step):
        story, y = self.story, self.y(number)
        event, lines, out = story.events[step.event], story.text_of(step), []
        if step.turn == 0:
            out.append(f'<path class="rule" d="M{short(self.left)},{short(y - ROW / 2)}h9999"/>')
        out.append(self.call(number, step, lines))
        x = self.columns.get(step.actor)
        if x is not None and event.word != "lose":
            out.append(self.acted(step, event, lines, x, y))
        elif event.word == "regfail":
            out.append(pill(self.columns["register"] + 8, y, "bad", f"call {event.args[0]} will fail, {event.args[1]}")[0])
        elif lines[0].kind == "set":
            piece, at = pill(self.columns["register"] + 8, y, "plain", f"log {event.args[0]}: R {event.args[1]} of {event.args[3]}" + (f", extras {event.args[2]}" if event.args[2] != "0" else ""))
            out.append(piece)
            self.width = max(self.width, at)
        elif step.actor and lines[0].kind == "refused":
            out.append(self.stillborn(step.actor, lines[0], y))
        return "".join(out)

    def acted(self, step, event, lines, x, y):
        """The dot at the actor, what it took and what it wrote."""
        kind, radius = ("dot none", 3.6) if lines[0].kind == "none" else ("dot", 4.4)
        out, at = [f'<circle class="{kind}" cx="{short(x)}" cy="{short(y)}" r="{radius}"/>'], x + 10
        if step.message is not None:
            piece, at = self.taken_label(step, x, at, y)
            out.append(piece)
        for kind, words in self.marks(event, lines):
            piece, at = pill(at, y, kind, self.named(step.actor, words) if step.message is None else words)
            out.append(piece)
            at += 5
        items = [self.items_of[l.number - 1] for l in lines if l.number - 1 in self.items_of]
        for number, item in items[:MOST_ITEMS]:
            piece, at = ink.cell(at, y, item, number)
            out.append(piece)
            at += 4
        if len(items) > MOST_ITEMS:
            out.append(text(at, y + 3.7, "said", f"and {len(items) - MOST_ITEMS} more"))
            at += 80
        self.width = max(self.width, at)
        return "".join(out)

    def taken_label(self, step, x, at, y):
        """What a step took, on the side that the arrow doesn't come from; and where what follows may begin."""
        message = self.story.messages[step.message]
        label, family = self.named(step.actor, f"{message.kind} {message.lsn}"), ink.FAMILY[message.kind]
        if self.columns.get(message.sender, 0) > x:
            return text(x - 9, y + 3.7, f"label {family} before", label), at
        return text(at, y + 3.7, f"label {family}", label), at + ink.width(label, 11.5) + 8

    def named(self, actor, words):
        """The words, with the actor's name where its column has others too."""
        return f"{actor[2:]}: {words}" if self.is_shared.get(actor) else words

    def stillborn(self, actor, line, y):
        """A sequencer or reader that was refused has no column: it is told beside the register."""
        x = self.columns["register"]
        mark = "" if actor[0] == "r" else ink.diamond(x, y)
        return mark + pill(x + 9, y, "refused", f"{actor[2:]} refused: " + " ".join(line.fields))[0]

    def marks(self, event, lines):
        """What is told at the actor: pairs of a pill's kind and its words."""
        for line in lines:
            words = line.fields
            if line.kind in MARKS:
                yield MARKS[line.kind], f"{MARKS[line.kind]} {words[0]}"
            elif line.kind == "active":
                yield "plain", f"active, epoch {words[0]}"
            elif line.kind == "refused":
                yield "refused", "refused: " + " ".join(words)
            elif line.kind == "refusednode":
                yield "refused", "refused: " + words[-1]
            elif line.kind == "formatted":
                yield "plain", f"formatted, generation {words[0]}"
            elif line.kind == "lost":
                yield "lost", f"lost, log {words[0]} to epoch {words[1]}"
            elif line.kind == "rebuilt":
                yield "released", f"rebuilt, log {words[0]}"
            elif line.kind == "replaced":
                yield "plain", f"in place of node {words[1]}, log {words[0]}, epochs: {words[2]}"
            elif line.kind == "up":
                yield "plain", "up"
            elif line.kind in ("down", "failed", "full", "wiped"):
                yield "bad", "crashed" if line.kind == "down" and event.word != "down" else line.kind
        if event.word in ("fail", "tear"):
            yield "bad", f"armed: {event.word} in call {event.args[1]}" + (f", {event.args[2]}" if event.word == "tear" else "")
        elif event.word == "drop" and lines[0].kind == "none":
            yield "plain", "dropped"
        elif event.word in OPENS and lines[0].kind == "none":
            yield "plain", f"log {event.args[1]}, {event.args[2]} to {event.args[3]}{OPENS[event.word]}"

    def call(self, number, step, lines):
        """The call of the register in a step, where one is told: a dotted line to it and what it gave."""
        told = {"active": "epoch {}", "clean": "closed {}", "formatted": "generation {}", "replaced": "swapped in log {}"}
        refusals = ("register", "epochlimit", "genlimit", "swaplimit")
        for line in lines:
            is_refused = line.kind in ("refused", "refusednode") and line.fields[-1] in refusals
            if (line.kind in told or is_refused) and step.actor in self.columns:
                x, y = self.columns["register"], self.y(number)
                path = f'<path class="call" d="M{short(x)},{short(y)}H{short(self.columns[step.actor])}"/>'
                words = "call failed" if is_refused else told[line.kind].format(line.fields[0])
                return path + ink.diamond(x, y) + text(x + 10, y + 3.7, "said", words)
        return ""

    # ---- messages

    def point(self, actor, step):
        return self.columns[actor], self.y(step)

    def arrows_of(self, message):
        """The arrow of a message, and one for each repeat."""
        if message.sender not in self.columns or message.taker not in self.columns:
            return []
        start, family, fate = self.point(message.sender, message.sent), ink.FAMILY[message.kind], message.fate()
        drawn = {"taken": self.taken, "lost": self.lost, "never": self.never}[fate]
        body, end = drawn(message, start)
        title = f"message {message.id}: {message.kind} {message.lsn}, {message.sender} to {message.taker}"
        ends = {"taken": "", "lost": ", lost", "never": ", never delivered"}[fate]
        group = f'<g class="msg {family} fate-{fate}" data-m="{message.id}"><title>{title}{ends}</title>{body}</g>'
        found = [(message.sent, end, message.id, group)]
        for taking in message.takings:
            if taking.is_repeat:
                body = ink.arrow(start, self.point(message.taker, taking.step))
                group = f'<g class="again {family}" data-again="{message.id}"><title>{title}, again</title>{body}</g>'
                found.append((message.sent, taking.step, message.id, group))
        return found

    def taken(self, message, start):
        return ink.arrow(start, self.point(message.taker, message.first())), message.first()

    def lost(self, message, start):
        """To a cross beside the one it was for, in the step that lost it."""
        x, y = self.point(message.taker, message.lost)
        x += -16 if x > start[0] else 16
        label = f"{message.kind} {message.lsn}, lost"
        self.width = max(self.width, x + 18 + ink.width(label, 11.5))
        return ink.line(start, (x, y)) + ink.cross(x, y) + text(x + 10, y + 3.7, "label", label), message.lost

    def never(self, message, start):
        """A stub with a ring, towards the one it is for."""
        x, y = start[0] + (self.columns[message.taker] - start[0]) * 0.42, start[1] + ROW * 0.62
        return ink.line(start, (x, y)) + f'<circle class="ring" cx="{short(x)}" cy="{short(y)}" r="3.4"/>', message.sent

    # ---- how long things stand

    def lifelines(self):
        """The lines and bands of all columns."""
        story, last = self.story, len(self.story.steps) - 1
        spans = [self.line("register", 0, last, "thin")]
        for node in story.config.nodes:
            spans += self.of_node(node, last)
        self.learnt = {}
        for line in story.lines:
            if line.kind == "refused" and line.fields[0] == "preempted":
                self.learnt.setdefault(line.actor, story.step_of[line.number - 1])
        for actor in story.sequencers:
            spans += self.of_sequencer(actor, last)
        ends = {i.reader: i.step for i in story.items if i.high == story.until.get(i.reader)}
        for actor in story.readers:
            gone = self.last_of(actor, last)
            end = min(ends.get(actor, gone), gone)
            spans.append(self.line(actor, story.born[actor], end, "life"))
            if end < gone:
                spans.append(self.line(actor, end, gone, "dead"))
        return spans

    def line(self, column, first, last, kind):
        x, low = self.columns[column], 0 if first == 0 else self.y(first)
        return first, last, f'<path class="{kind}" d="M{short(x)},{short(low)}V{short(self.y(last) + ROW / 2)}"/>'

    def band(self, column, first, last, kind, wide):
        x, low = self.columns[column] - wide / 2, self.y(first)
        box = f'x="{short(x)}" y="{short(low)}" width="{wide}" height="{short(self.y(last) - low)}" rx="2"'
        return first, last, f'<rect class="{kind}" {box}/>'

    def of_node(self, node, last):
        spans, out, key = self.story.spans[node], [], f"n.{node}"
        for at, span in enumerate(spans):
            end = spans[at + 1].step if at + 1 < len(spans) else last
            if span.lost and span.state != "blank":
                out.append(self.band(key, span.step, end, "lost", 13))
            if span.state in ("down", "failed"):
                out.append(self.band(key, span.step, end, span.state, 9))
            else:
                out.append(self.line(key, span.step, end, "life" if span.state == "up" else "blank"))
        return out

    def last_of(self, actor, last):
        """The last step that an actor's line reaches to."""
        return self.story.seen[actor] if self.is_shared[actor] else last

    def of_sequencer(self, actor, last):
        """In full while it works, thin from the step in which it learns that it is preempted, then to its drop."""
        story = self.story
        born, gone = story.born[actor], min(story.gone.get(actor, last), self.last_of(actor, last))
        learnt = self.learnt.get(actor, gone)
        out = [self.line(actor, born, min(learnt, gone), "life")]
        if learnt < gone:
            out.append(self.line(actor, learnt, gone, "dead"))
        return out
