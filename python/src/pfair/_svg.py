"""The elements of a picture as SVG: its style, and bars, lines, texts and marks as text."""
from __future__ import annotations

from typing import Iterable

# the colours of Okabe and Ito, two of them darker; words on the light ones are dark
COLOURS = (
    "0,114,178", "230,159,0", "0,158,115", "204,121,167", "86,180,233", "213,94,0", "140,122,0", "111,111,111"
)
LIGHT = (1, 4)

STYLE = """text{font:11px Helvetica,Arial,'DejaVu Sans',sans-serif;fill:#1f2933}
.title{font-size:14px;font-weight:bold}
.name{font-weight:bold;text-anchor:end}.absent{fill:#8a94a1;text-anchor:end}
.side{fill:#5b6673;text-anchor:end;font-size:10px}.scale{fill:#5b6673;font-size:10px;text-anchor:middle}
.entry{fill:#5b6673}
.band{fill:#f6f7f9}.grid{stroke:#e3e7ec}.tick{stroke:#c3cad3}.edge{stroke:#8a94a1}
.window{fill:#fff;stroke:#9aa4b1}.dense{fill:#dde2e8}.held{fill:url(#hatch);stroke:#8a94a1;stroke-width:.5}
.on{font-size:9px;text-anchor:middle;fill:#fff}.dark{fill:#1f2933}.small{font-size:8px}
.weight{font-size:8px;fill:#5b6673}
.shaft{stroke:#1f2933;stroke-width:1.5}
.late{stroke:#882255;stroke-width:1.5;stroke-dasharray:3 2}
.more{fill:#882255;font-size:9px;font-weight:bold;text-anchor:middle}
.number{fill:#c1121f;font-size:9px;font-weight:bold}.beyond{fill:#c1121f;font-size:9px;font-weight:bold;text-anchor:end}
.within{fill:#f1f6fa}.zero{stroke:#8a94a1;stroke-width:.75}.bound{stroke:#c1121f;stroke-width:.75;stroke-dasharray:4 3}
.lag{fill:none;stroke:#0072b2;stroke-width:1.5;stroke-linecap:square}
.past{fill:none;stroke:#c1121f;stroke-width:1.5;stroke-linecap:square}
"""
# the marks of decisions and lags, the hatching of held weights, and the white ground
MARKS = """<defs><pattern id="hatch" width="5" height="5" patternUnits="userSpaceOnUse" patternTransform="rotate(45)">\
<rect width="5" height="5" fill="#eef1f4"/><line y2="5" stroke="#8a94a1" stroke-width="1.5"/></pattern>
<path id="join" d="M0 0l-3.5 6h7z" fill="#1f2933"/><path id="departure" d="M0 0l-3.5 -6h7z" fill="#1f2933"/>
<path id="stamp" d="M0 -3l3 3l-3 3l-3 -3z" fill="#882255"/><path id="later" d="M0 0l-6 -3.5v7z" fill="#882255"/>
<path id="refusal" d="M-3 -3l6 6m0 -6l-6 6" fill="none" stroke="#c1121f" stroke-width="2" stroke-linecap="round"/>
<circle id="inside" r="2" fill="#0072b2"/><circle id="outside" r="3" fill="#c1121f"/>
<path id="above" d="M0 -8l4 6h-8z" fill="#c1121f"/><path id="below" d="M0 8l4 -6h-8z" fill="#c1121f"/></defs>
<rect width="100%" height="100%" fill="#fff"/>
"""


def document(width: int, height: int, title: str, told: str, processors: int, parts: Iterable[str]) -> str:
    """Returns an SVG document of these parts, with a style for each processor."""
    colours = "".join(f".p{place}{{fill:rgb({COLOURS[place % len(COLOURS)]})}}\n" for place in range(processors))
    size = f'width="{width}" height="{height}" viewBox="0 0 {width} {height}"'
    head = f'<svg xmlns="http://www.w3.org/2000/svg" {size} role="img">\n'
    head += f"<title>{escaped(title)}</title>\n<desc>{told}</desc>\n"
    return f"{head}<style>{STYLE}{colours}</style>\n{MARKS}{''.join(parts)}</svg>\n"


def escaped(words: str) -> str:
    return words.replace("&", "&amp;").replace("<", "&lt;").replace(">", "&gt;")


def text(x: int, y: int, style: str, words: object) -> str:
    return f'<text x="{x}" y="{y}" class="{style}">{escaped(str(words))}</text>\n'


def line(x1: int, y1: int, x2: int, y2: int, style: str) -> str:
    return f'<line x1="{x1}" y1="{y1}" x2="{x2}" y2="{y2}" class="{style}"/>\n'


def step(x1: int, y1: int, x2: int, y2: int, style: str) -> str:
    """Returns a line across from the first point, and then up or down to the second."""
    return f'<path d="M{x1} {y1}H{x2}V{y2}" class="{style}"/>\n'


def mark(x: int, y: int, name: str) -> str:
    """Returns a mark, by its name in MARKS."""
    return f'<use href="#{name}" x="{x}" y="{y}"/>\n'


def bar(x: int, y: int, width: int, height: int, style: str, told: str = "") -> str:
    """Returns a rectangle, and its tooltip if it has one."""
    shape = f'<rect x="{x}" y="{y}" width="{width}" height="{height}" class="{style}"'
    round = ' rx="2"' if style == "window" else ""
    return f"{shape}{round}><title>{escaped(told)}</title></rect>\n" if told else f"{shape}{round}/>\n"


def group(told: str, *parts: str) -> str:
    """Returns elements that share a tooltip."""
    return f"<g><title>{escaped(told)}</title>\n{''.join(parts)}</g>\n"


def layer(name: str, parts: list[str]) -> str:
    """Returns elements of one kind, under its name."""
    return f'<g id="{name}">\n{"".join(parts)}</g>\n'


def style_on(place: int) -> str:
    """Returns the style of words on the colour of a processor."""
    return "on dark" if place % len(COLOURS) in LIGHT else "on"


def arrow(x: int, top: int, bottom: int, tip: int, name: str) -> str:
    return line(x, top, x, bottom, "shaft") + mark(x, tip, name)


def swatch(x: int, y: int, colour: int) -> str:
    return bar(x, y, 16, 11, f"p{colour}") + text(x + 8, y + 9, style_on(colour), colour)
