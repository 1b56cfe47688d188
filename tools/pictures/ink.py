"""Colours, widths and small pieces of SVG. Everything tells itself apart in grey too: by letters, dashes, hatches and lightness."""
from html import escape
from math import hypot

ROW = 22
FAMILIES = {
    "write": ("store", "stored"),
    "digest": ("digestask", "digestpage"),
    "tell": ("clean", "release", "trim"),
    "read": ("readask", "readone", "readpage", "readended", "readtrim", "readwait"),
    "turn": ("sealedhere", "losthere", "cleanhere", "trimmedhere"),
}
FAMILY = {kind: family for family, kinds in FAMILIES.items() for kind in kinds}

STYLE = """
svg.run{font-family:system-ui,-apple-system,"Segoe UI",Roboto,"Helvetica Neue",Arial,"DejaVu Sans",sans-serif;
font-size:11.5px;fill:#1f2933}
.run .paper{fill:#fff}
.run .title{font-size:17px;font-weight:600}
.run .note{fill:#9a1c10}
.run .soft,.run .number{fill:#5a6775}
.run .number{font-size:10px;text-anchor:end}
.run .event{font-weight:600}
.run .idle{fill:#6b7785;font-weight:400;font-style:italic}
.run .rule{stroke:#e6eaee}
.run .head{font-weight:600;font-size:13px;text-anchor:middle}
.run .kind{fill:#5a6775;font-size:10.5px;text-anchor:middle}
.run .life{stroke:#8693a0;stroke-width:2}
.run .thin{stroke:#c3ccd5;stroke-width:1.5}
.run .dead{stroke:#9aa5b1;stroke-width:1.5;stroke-dasharray:3 4}
.run .blank{stroke:#9aa5b1;stroke-width:2;stroke-dasharray:1 6;stroke-linecap:round}
.run .down{fill:url(#down);stroke:#7b8794;stroke-width:.8}
.run .failed{fill:url(#failed);stroke:#b3261e;stroke-width:.8}
.run .lost{fill:#fbdc8c;stroke:#b98a00;stroke-width:.8}
.run .call{stroke:#8693a0;stroke-dasharray:2 3;fill:none}
.run .diamond{fill:#fff;stroke:#1f2933;stroke-width:1.5}
.run .dot{fill:#1f2933}
.run .dot.none{fill:#fff;stroke:#1f2933;stroke-width:1.5}
.run .write{color:#1d5fa8}
.run .digest{color:#7a3aa8}
.run .tell{color:#587315}
.run .read{color:#0b726a}
.run .turn{color:#c0400a}
.run .arrow{fill:none;stroke:currentColor;stroke-width:1.4;opacity:.75}
.run .tip,.run .label{fill:currentColor}
.run .fate-lost .arrow{stroke-dasharray:7 4}
.run .again .arrow{stroke-dasharray:.1 4.5;stroke-linecap:round;stroke-width:2.2}
.run .cross{fill:none;stroke:currentColor;stroke-width:2.4}
.run .ring{fill:#fff;stroke:currentColor;stroke-width:1.6}
.run .label,.run .said{paint-order:stroke;stroke:#fff;stroke-width:4.5px;stroke-linejoin:round}
.run .before{text-anchor:end}
.run .pill rect{stroke-width:1.1}
.run .pill text{font-size:10.5px}
.run .p-plain rect{fill:#fff;stroke:#5a6775}
.run .p-appended rect{fill:#e4effb;stroke:#1d5fa8}
.run .p-acked rect{fill:#2f7d32;stroke:#2f7d32}
.run .p-released rect{fill:#e3f4e1;stroke:#2f7d32}
.run .p-trimmed rect{fill:#ffe9b0;stroke:#a87900}
.run .p-closed rect{fill:#6b2fa0;stroke:#6b2fa0}
.run .p-acked text,.run .p-closed text{fill:#fff;font-weight:600}
.run .p-refused rect{fill:#fff;stroke:#b3261e;stroke-dasharray:3 2}
.run .p-refused text{fill:#9a1c10}
.run .p-bad rect{fill:#fde4e1;stroke:#b3261e}
.run .p-lost rect{fill:#fbdc8c;stroke:#b98a00}
.run .item text{font-size:10.5px}
.run .letter{font-weight:700;text-anchor:middle}
.run .i-R rect,.run .i-M rect{fill:#2a62a5;stroke:#2a62a5}
.run .i-T rect{fill:#eeb52c;stroke:#94690a}
.run .i-H rect{fill:#fff;stroke:#1f2933;stroke-dasharray:3 2}
.run .i-B rect{fill:#bfe9e2;stroke:#0b726a}
.run .i-D rect{fill:#1c1c1c;stroke:#d0342c;stroke-width:2}
.run .i-R .letter,.run .i-M .letter,.run .i-D .letter{fill:#fff}
"""

DEFS = (
    '<defs><pattern id="down" width="6" height="6" patternUnits="userSpaceOnUse" patternTransform="rotate(45)">'
    '<rect width="6" height="6" fill="#eef1f4"/><path d="M0,0V6" stroke="#7b8794" stroke-width="2.4"/></pattern>'
    '<pattern id="failed" width="5" height="5" patternUnits="userSpaceOnUse" patternTransform="rotate(-45)">'
    '<rect width="5" height="5" fill="#fff"/><path d="M0,0V5" stroke="#b3261e" stroke-width="2.6"/></pattern></defs>'
)


def short(value):
    """A coordinate without needless digits."""
    return f"{value:.1f}".rstrip("0").rstrip(".")


def width(text, size=10.5):
    """About how wide words are; fonts differ, so rather too much than too little."""
    return len(text) * size * 0.6


def text(x, y, kind, words):
    named = f' class="{kind}"' if kind else ""
    return f'<text x="{short(x)}" y="{short(y)}"{named}>{escape(words)}</text>'


def line(start, end):
    return f'<path class="arrow" d="M{short(start[0])},{short(start[1])}L{short(end[0])},{short(end[1])}"/>'


def arrow(start, end):
    """A line with a tip, that ends a little before its end's dot."""
    (a, b), (c, d) = start, end
    far = hypot(c - a, d - b) or 1
    u, v = (c - a) / far, (d - b) / far
    c, d = c - u * 7, d - v * 7
    foot, wing = (c - 7 * u, d - 7 * v), (3 * v, -3 * u)
    corners = [(c, d), (foot[0] + wing[0], foot[1] + wing[1]), (foot[0] - wing[0], foot[1] - wing[1])]
    tip = "L".join(f"{short(x)},{short(y)}" for x, y in corners)
    return line((a + 4 * u, b + 4 * v), (c - 5 * u, d - 5 * v)) + f'<path class="tip" d="M{tip}z"/>'


def cross(x, y):
    return f'<path class="cross" d="M{short(x - 5)},{short(y - 5)}l10,10m0,-10l-10,10"/>'


def diamond(x, y):
    return f'<path class="diamond" d="M{short(x - 6)},{short(y)}l6,-6 6,6 -6,6z"/>'


def pill(x, y, kind, words):
    """A rounded box with words, its left side at x and its middle at y; and where it ends."""
    wide = width(words) * (1.07 if kind in ("acked", "closed") else 1) + 13
    box = f'<rect x="{short(x)}" y="{short(y - 8)}" width="{short(wide)}" height="16" rx="8"/>'
    return f'<g class="pill p-{kind}">{box}{text(x + 6.5, y + 3.7, "", words)}</g>', x + wide


def cell(x, y, item, number):
    """A reader's item in a row: its letter in a box, then its number; and where it ends."""
    letter, label = item.letter(), item.label()
    box = f'<rect x="{short(x)}" y="{short(y - 8)}" width="16" height="16" rx="2"/>'
    words = text(x + 8, y + 3.9, "letter", letter) + text(x + 20, y + 3.7, "said", label)
    return f'<g class="item i-{letter}" data-item="{number}">{box}{words}</g>', x + 24 + width(label)


def tape(x, y, item, number):
    """A cell of a reader's strip, its number below; and how wide it is."""
    letter, label = item.letter(), item.label()
    wide = max(38, width(label, 10.5) + 6)
    box = f'<rect x="{short(x)}" y="{short(y)}" width="{short(wide - 2)}" height="20" rx="3"/>'
    words = text(x + wide / 2 - 1, y + 14.2, "letter", letter)
    below = text(x + wide / 2 - 1, y + 32, "kind", label)
    title = f"<title>{item.kind} {label}</title>"
    return f'<g class="item i-{letter}" data-item="{number}">{title}{box}{words}{below}</g>', wide
