"""The whole picture of a run as one SVG: heads, rows, arrows, each reader's strip, and what the signs mean."""
from html import escape

from . import ink
from .drawing import TOP, Drawing
from .ink import ROW, pill, short, text
from .story import Item


def strips(drawing, top):
    """Each reader's items, one after the other, as a strip of cells; and where they end."""
    story, out, y = drawing.story, [], top
    for reader in story.readers:
        out.append(text(24, y + 14, "event", f"reader {reader[2:]}"))
        x = 120
        mine = [(n, i) for n, i in enumerate(story.items) if i.reader == reader]
        for number, item in mine:
            piece, wide = ink.tape(x, y, item, number)
            if x + wide > drawing.width - 24 and x > 120:
                x, y = 120, y + 42
                piece, wide = ink.tape(x, y, item, number)
            out.append(piece)
            x += wide
        if not mine:
            out.append(text(x, y + 14, "soft", "nothing"))
        y += 46
    return "".join(out), y


def legend(top):
    """What the signs mean, in three rows; where they end below, and on the right."""
    rows = [families(top + 12), fates_and_standings(top + 36), items_and_marks(top + 60)]
    return "".join(piece for piece, _ in rows), top + 84, max(x for _, x in rows) + 20


def families(y):
    names = {
        "write": "store, stored", "digest": "digests", "tell": "clean, release, trim", "read": "reading",
        "turn": "sealed, lost, clean or trimmed here",
    }
    x, out = 24, []
    for family, words in names.items():
        out.append(f'<g class="{family}">{ink.arrow((x - 4, y), (x + 40, y))}{text(x + 38, y + 4, "label", words)}</g>')
        x += 56 + ink.width(words, 11.5)
    return "".join(out), x


def fates_and_standings(y):
    x, out = 24, []
    for kind, words in (("fate-lost", "lost"), ("fate-never", "never delivered"), ("again", "delivered again, or after it was lost")):
        if kind == "again":
            sign = ink.arrow((x, y), (x + 41, y))
        else:
            sign = ink.line((x, y), (x + 26, y)) + (ink.cross(x + 31, y) if kind == "fate-lost" else ring(x + 28, y))
        out.append(f'<g class="write {kind}">{sign}</g>{text(x + 42, y + 4, "", words)}')
        x += 60 + ink.width(words, 11.5)
    for kind, words in (("life", "up"), ("blank", "blank"), ("down", "down"), ("failed", "failed"), ("lost", "lost for a log")):
        if kind in ("life", "blank"):
            sign = f'<path class="{kind}" d="M{short(x + 6)},{y - 8}v16"/>'
        else:
            sign = f'<rect class="{kind}" x="{short(x + 1)}" y="{y - 8}" width="10" height="16" rx="2"/>'
        out.append(sign + text(x + 18, y + 4, "", words))
        x += 36 + ink.width(words, 11.5)
    return "".join(out), x


def ring(x, y):
    return f'<circle class="ring" cx="{short(x)}" cy="{short(y)}" r="3.4"/>'


def items_and_marks(y):
    x, out = 24, []
    kinds = {"record": "record", "message": "message of a batch", "trim": "trim gap", "hole": "hole", "bridge": "bridge to the next epoch", "dataloss": "data loss"}
    for kind, words in kinds.items():
        piece, x = ink.cell(x, y, Item("", kind, words, words, "", 0, 0), -1)
        out.append(piece.replace(' data-item="-1"', ""))
        x += 10
    for kind in ("appended", "acked", "released", "trimmed", "closed"):
        piece, x = pill(x, y, kind, kind)
        out.append(piece)
        x += 6
    return "".join(out), x


def draw(story):
    """The picture, as the text of an SVG file."""
    drawing = Drawing(story)
    height = len(story.steps) * ROW
    below, bottom = strips(drawing, height + 56)
    signs, bottom, least = legend(bottom + 6)
    wide, high = short(max(drawing.width, least)), short(TOP + bottom)
    notes = "".join(text(24, 52 + 15 * n, "note", note) for n, note in enumerate(story.notes))
    size = f'width="{wide}" height="{high}"'
    parts = [
        f'<svg xmlns="http://www.w3.org/2000/svg" class="run" {size} viewBox="0 0 {wide} {high}">',
        f"<title>{escape(story.name)}</title><style>{ink.STYLE}</style>{ink.DEFS}",
        f'<rect class="paper" {size}/>{text(24, 32, "title", story.name)}{notes}',
        f'<g transform="translate(0,{TOP})">{drawing.heads()}',
        "<g>" + "\n".join(piece for _, _, piece in drawing.spans) + "</g>",
        "<g>" + "\n".join(piece for _, _, _, piece in drawing.arrows) + "</g>",
        "<g>" + "\n".join(a + b for a, b in zip(drawing.gutters, drawing.rows)) + "</g>",
        text(24, height + 36, "title", "What each reader got") if story.readers else "",
        below, signs, "</g></svg>",
    ]
    return "\n".join(p for p in parts if p) + "\n"
