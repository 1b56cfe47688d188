"""A run as one self-contained page: the pieces of its picture, its lines, and what leads from one to the other, as JSON."""
import json, pathlib
from html import escape

from . import ink
from .causes import Causes
from .drawing import Drawing
from .formats import shorten
from .picture import legend

HERE = pathlib.Path(__file__).resolve().parent
SCRIPTS = ("page.js", "page-test.js", "page-input.js")
MOST_LINES, MOST_TEXT = 60, 160


def standing(story):
    """For each node its spans: from which step, its state, and for what it stands lost."""
    out = []
    for node, spans in story.spans.items():
        told = []
        for span in spans:
            logs = [f"log {l}" + ("" if epoch is None else f" to epoch {epoch}") for l, epoch in sorted(span.lost.items())]
            told.append([span.step, span.state, "lost for " + ", ".join(logs) if logs else ""])
        out.append([node, told])
    return out


def flying(story):
    """After each step, how many messages are new."""
    change = [0] * (len(story.steps) + 1)
    for message in story.messages:
        change[message.sent] += 1
        ends = [s for s in (message.first(), message.lost) if s is not None]
        if ends:
            change[min(ends)] -= 1
    count, out = 0, []
    for step in change[:-1]:
        count += step
        out.append(count)
    return out


def items(story):
    causes = Causes(story)
    out = []
    for item in story.items:
        why = [[sentence, lines[:MOST_LINES], max(0, len(lines) - MOST_LINES)] for sentence, lines in causes.of(item)]
        told = {"reader": item.reader[2:], "kind": item.kind, "letter": item.letter(), "label": item.label()}
        out.append(told | {"line": item.line, "step": item.step, "why": why})
    return out


def signs():
    """What the signs mean, as a picture of its own."""
    body, bottom, wide = legend(0)
    return f'<svg class="run" width="{wide:.0f}" viewBox="0 0 {wide:.0f} {bottom}">{body}</svg>'


def data(story):
    drawing = Drawing(story)
    first_step = {}
    for number, step in enumerate(story.steps):
        first_step.setdefault(step.event, number)
    message_of = [-1] * len(story.lines)
    for message in story.messages:
        message_of[message.line] = message.id
    return {
        "notes": story.notes, "row": ink.ROW, "width": round(drawing.width), "heads": drawing.heads(), "defs": ink.DEFS, "signs": signs(),
        "gutters": drawing.gutters, "left": round(drawing.left), "rows": drawing.rows, "arrows": drawing.arrows, "spans": drawing.spans,
        "steps": [[s.event, s.turn, s.first, s.end] for s in story.steps],
        "events": [[e.number, shorten(e.text, MOST_TEXT)] for e in story.events],
        "firstStep": [first_step.get(e, len(story.steps) - 1) for e in range(len(story.events))],
        "lines": [shorten(l.text, MOST_TEXT) for l in story.lines], "stepOf": story.step_of,
        "message": message_of, "lineOf": [m.line for m in story.messages], "ends": [m.ends() for m in story.messages],
        "place": [round(drawing.columns.get(s.actor, -1)) for s in story.steps],
        "standing": standing(story), "flying": flying(story),
        "readers": [[r[2:], f"log {story.log_of[r]}, to {story.until[r]}"] for r in story.readers], "items": items(story),
    }


def make(story):
    """The page, as the text of an HTML file."""
    told = json.dumps(data(story), separators=(",", ":"), ensure_ascii=False).replace("</", "<\\/")
    parts = {
        "@TITLE@": escape(story.name),
        "@STYLE@": ink.STYLE + (HERE / "page.css").read_text(),
        "@SCRIPT@": "".join((HERE / f).read_text() for f in SCRIPTS),
        "@DATA@": told,
    }
    page = (HERE / "page.html").read_text()
    for mark, text in parts.items():
        page = page.replace(mark, text)
    return page
