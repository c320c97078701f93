"""Pictures by Matplotlib, from their SVG: in vectors, with the sizes of a paper."""
from __future__ import annotations

import io
import itertools
import re
from typing import Any, Iterator
from xml.etree import ElementTree

import matplotlib
from matplotlib.collections import LineCollection, PolyCollection
from matplotlib.figure import Figure
from matplotlib.path import Path

SVG = "{http://www.w3.org/2000/svg}"
ALIGNS = {"start": "left", "middle": "center", "end": "right"}


def styles_of(css: str) -> dict[str, dict[str, str]]:
    """Returns the properties of each class."""
    rules = re.findall(r"\.?(\w+){([^}]*)}", css)
    return {name: dict(part.split(":") for part in body.split(";") if part) for name, body in rules}


def elements_of(root: Any) -> Iterator[Any]:
    """Yields what is drawn, in its order, without groups."""
    for child in root:
        if child.tag == SVG + "g":
            yield from elements_of(child)
        elif child.tag.removeprefix(SVG) in ("rect", "line", "path", "text", "use") and child.get("width") != "100%":
            yield child


def numbers(element: Any, *keys: str) -> list[float]:
    return [float(element.get(key)) for key in keys]


def colour(said: str) -> Any:
    """Returns a colour of the picture's style as Matplotlib has it."""
    found = re.fullmatch(r"rgb\((\d+),(\d+),(\d+)\)", said)
    return tuple(int(part) / 255 for part in found.groups()) if found else said


class Plot:
    """A picture on axes whose units are its pixels, `scale` points each."""

    def __init__(self, svg: str, width: float) -> None:
        root = ElementTree.fromstring(svg)
        wide, high = numbers(root, "width", "height")
        self.scale = 72 * width / wide
        self.styles = styles_of(root.findtext(SVG + "style") or "")
        self.marks = {mark.get("id"): mark for mark in root.find(SVG + "defs") or ()}
        self.figure = Figure(figsize=(width, width * high / wide))
        self.axes = self.figure.add_axes((0, 0, 1, 1), xlim=(0, wide), ylim=(high, 0))
        self.axes.axis("off")
        drawn = itertools.groupby(elements_of(root), lambda one: (one.tag, one.get("class") or one.get("href")))
        for order, ((tag, style), elements) in enumerate(drawn, 1):
            getattr(self, tag[len(SVG) :])(elements, style, order)

    def style(self, classes: str) -> dict[str, str]:
        """Returns the properties of an element, by its classes."""
        found: dict[str, str] = {}
        for name in classes.split():
            found.update(self.styles.get(name, {}))
        return found

    def rect(self, elements: Iterator[Any], classes: str, order: int) -> None:
        style, corners = self.style(classes), []
        for element in elements:
            x, y, width, height = numbers(element, "x", "y", "width", "height")
            corners.append([(x, y), (x + width, y), (x + width, y + height), (x, y + height)])
        width = self.scale * float(style.get("stroke-width", 1))
        bars = PolyCollection(corners, edgecolors=style.get("stroke", "none"), linewidths=width, zorder=order)
        if style["fill"].startswith("url"):
            bars.set(facecolor="#eef1f4", hatch="////")
        else:
            bars.set(facecolor=colour(style["fill"]))
        self.axes.add_collection(bars)

    def lines(self, points: list[Any], style: dict[str, str], order: int) -> None:
        width = float(style.get("stroke-width", 1))
        dashes = [float(part) / width for part in style.get("stroke-dasharray", "").split()]
        drawn = LineCollection(points, colors=style["stroke"], linewidths=self.scale * width, zorder=order)
        if dashes:
            drawn.set_linestyle((0, dashes))
        self.axes.add_collection(drawn)

    def line(self, elements: Iterator[Any], classes: str, order: int) -> None:
        ends = (numbers(element, "x1", "y1", "x2", "y2") for element in elements)
        self.lines([[(x1, y1), (x2, y2)] for x1, y1, x2, y2 in ends], self.style(classes), order)

    def path(self, elements: Iterator[Any], classes: str, order: int) -> None:
        steps = (map(float, re.findall(r"-?[\d.]+", element.get("d"))) for element in elements)
        self.lines([[(x1, y1), (x2, y1), (x2, y2)] for x1, y1, x2, y2 in steps], self.style(classes), order)

    def text(self, elements: Iterator[Any], classes: str, order: int) -> None:
        style = {**self.styles["text"], "font-size": "11px", **self.style(classes)}
        size, weight = self.scale * float(style["font-size"].removesuffix("px")), style.get("font-weight", "normal")
        align = ALIGNS[style.get("text-anchor", "start")]
        given = {"color": style["fill"], "size": size, "weight": weight, "ha": align}
        for element in elements:
            self.axes.text(*numbers(element, "x", "y"), element.text or "", zorder=order, **given)

    def use(self, elements: Iterator[Any], name: str, order: int) -> None:
        mark = self.marks[name[1:]]
        places = [numbers(element, "x", "y") for element in elements]
        is_line = mark.get("fill") == "none"
        size = (2 * extent(mark) * self.scale) ** 2
        drawn = self.axes.scatter(*zip(*places), s=size, marker=outline(mark), zorder=order, clip_on=False)
        if is_line:
            drawn.set(facecolor="none", edgecolor=mark.get("stroke"), linewidth=2 * self.scale)
        else:
            drawn.set(facecolor=mark.get("fill"), edgecolor="none", linewidth=0)


def points(mark: Any) -> list[tuple[int, float, float]]:
    """Returns the corners of a mark's outline: 1 for a move or 2 for a line, and the position."""
    x = y = 0.0
    made = []
    for command, said in re.findall(r"([MmlhvV])([^A-Za-z]*)", mark.get("d")):
        given = [float(part) for part in re.findall(r"-?[\d.]+", said)]
        if command in "Mm":
            x, y = (given[0], given[1]) if command == "M" else (x + given[0], y + given[1])
        else:
            x, y = x + (given[0] if command in "lh" else 0), y + (given[-1] if command in "lv" else 0)
        made.append((1 if command in "Mm" else 2, x, y))
    return made


def outline(mark: Any) -> Path:
    """Returns a mark as Matplotlib has it, with its second axis up."""
    if mark.get("r"):
        return Path.unit_circle()
    made = points(mark)
    return Path([(x, -y) for _, x, y in made], [kind for kind, _, _ in made])


def extent(mark: Any) -> float:
    """Returns how far a mark reaches from its position."""
    return float(mark.get("r")) if mark.get("r") else max(max(abs(x), abs(y)) for _, x, y in points(mark))


def file_of(svg: str, format: str) -> bytes:
    """Returns a picture as a file of this format."""
    made = io.BytesIO()
    with matplotlib.rc_context({"pdf.fonttype": 42}):
        Plot(svg, 7.0).figure.savefig(made, format=format, dpi=200)
    return made.getvalue()
