"""Pictures of schedules and of lags in SVG, and the page around one for a browser.

A figure places bars, lines, words and marks by the rows of a source. It uses neither numpy nor the shared library, so
that scripts/pfair_picture draws by the same code with Python alone.
"""
from __future__ import annotations

import pathlib
from collections import Counter
from typing import Iterator, Optional

from ._figure import (
    FEW_SLOTS, LAST, MOST_SLOTS, Figure, Life, Shown, Sizes, across, blank, lives_of, shortened, slot_width,
)
from ._lags_figure import LagsFigure
from ._rows import Decision, PictureRows
from ._svg import COLOURS, arrow, bar, group, layer, line, mark, style_on, swatch, text
from ._trace import Quantum

#: The kinds of pictures.
PICTURES = ("schedule", "lags")
PAGE = """<!DOCTYPE html>
<html lang="en">
<head>
<meta charset="utf-8">
<meta name="viewport" content="width=device-width">
<title>Pfair picture</title>
<style>
{}</style>
</head>
<body>
<div id="view" tabindex="0">
{}<canvas id="times" aria-hidden="true"></canvas><canvas id="names" aria-hidden="true"></canvas>
<div id="glass"></div>
<div id="keys">drag or arrows: move &#183; wheel or + and -: zoom &#183; 0: as at first</div>
<div id="box" role="status" hidden></div>
</div>
<script>
{}</script>
</body>
</html>
"""


def schedule_sizes(slots: int, tasks: int) -> Sizes:
    """Returns the sizes of a schedule: the more tasks and slots, the thinner the lanes."""
    wide, cell = slot_width(slots), 15 if slots <= 120 else 7
    if tasks <= 24 and slots <= 120:
        return Sizes(wide, 13, 7, 7, 2, 13, cell)
    if slots <= FEW_SLOTS or tasks <= 60 and slots <= 400:
        return Sizes(wide, 10, 7, 3, 1, 7, cell)
    return Sizes(wide, 6, 7, 2, 0, 7, cell)


class ScheduleFigure(Figure):
    """A row for each task, with windows, quanta and decisions, and one for each processor."""

    title = "Schedule"

    def __init__(self, source: PictureRows, shown: Shown) -> None:
        decided = [row for row in source.decided() if row.slot < shown.stop]
        names = list(dict.fromkeys(row.task for row in decided))
        sizes = schedule_sizes(shown.stop - shown.start, len(names))
        super().__init__(source, shown, names, sizes, source.processors)
        self.lives = lives_of(decided)
        quanta = self.ran(source)
        self.ground({life.name for life in self.lives})
        self.frame(True)
        self.bars(quanta)
        self.labels(quanta)
        self.weights(self.lives, 6)
        for marks in (self.life_marks, self.late_marks):
            self.parts += [some for life in self.lives for some in marks(life)]
        self.refusals(decided)
        self.keys({quantum.place for quantum in quanta})

    def ran(self, source: PictureRows) -> list[Quantum]:
        """Returns the quanta in sight, and sets the last subtask that ran of each task."""
        waiting: dict[str, list[Life]] = {}
        for life in reversed(self.lives):
            waiting.setdefault(life.name, []).append(life)
        shown = []
        for quantum in source.quanta():
            if quantum.slot >= self.stop:
                break
            lives = waiting[quantum.task]
            while len(lives) > 1 and lives[-2].joined <= quantum.slot:
                lives.pop()
            lives[-1].ran = quantum.subtask
            if quantum.slot >= self.start:
                shown.append(quantum)
        return shown

    def lane_y(self, task: str, index: int) -> int:
        """Returns where the lane of a subtask begins: odd ones lie above, even ones below."""
        return self.y(self.row_of[task]) + self.sizes.above + (1 - index % 2) * (self.sizes.lane + 1)

    def bars(self, quanta: list[Quantum]) -> None:
        """Draws held weights, lines from quanta to their windows, windows, and quanta by tasks and by processors."""
        held = [mark for life in self.lives for mark in self.held(life)]
        ties = [mark for quantum in quanta for mark in self.tie(quantum)]
        windows = [mark for life in self.lives for mark in self.windows(life)]
        self.kinds.update(kind for kind, marks in (("held", held), ("tie", ties), ("window", windows)) if marks)
        bars, cells = [], []
        wide, lane, gap, cell = self.sizes.slot, self.sizes.lane, self.sizes.gap, self.sizes.cell
        for slot, place, task, index, _, _ in quanta:
            x, y, style = self.x(slot), self.lane_y(task, index), f"p{place}"
            told = f"{task}, subtask {index}, slot {slot}, processor {place}"
            bars.append(bar(x + gap, y + gap, wide - 2 * gap, lane - 2 * gap, style, told))
            cells.append(bar(x, self.cell_y(place) + 1, wide - 1, cell - 2, style, told))
        self.parts += [*held, *ties, layer("windows", windows), layer("quanta", bars), layer("processors", cells)]

    def tie(self, quantum: Quantum) -> Iterator[str]:
        """Yields a line between a quantum and its window, if slots lie between them."""
        slot, opens, closes = quantum.slot, quantum.release, quantum.deadline
        y = self.lane_y(quantum.task, quantum.subtask) + self.sizes.lane // 2
        if slot + 1 < opens:
            yield line(self.x(slot + 1), y, self.x(opens), y, "edge")
        elif slot > closes:
            yield line(self.x(closes), y, self.x(slot), y, "edge")

    def windows(self, life: Life) -> Iterator[str]:
        for index, opens, closes in life.windows(self.start, self.stop):
            x, told = self.x(opens), f"{life.name}, subtask {index}, window {opens} to {closes}"
            yield bar(x, self.lane_y(life.name, index), self.x(closes) - x, self.sizes.lane, self.window_style(), told)

    def window_style(self) -> str:
        """Returns the style of windows: outlines would fill narrow ones."""
        return "window" if self.sizes.slot >= 8 else "dense"

    def held(self, life: Life) -> Iterator[str]:
        """Yields the weight that a task holds from its departure until it is freed."""
        if life.leave is not None and life.freed is not None and self.x(life.leave) < self.x(life.freed):
            x, high = self.x(life.leave), 2 * self.sizes.lane + 1
            yield bar(x, self.lane_y(life.name, 1), self.x(life.freed) - x, high, "held", life.departure())

    def labels(self, quanta: list[Quantum]) -> None:
        """Draws the numbers of processors at the left, and the words that quanta have room for."""
        wide, lane, gap, cell = self.sizes.slot, self.sizes.lane, self.sizes.gap, self.sizes.cell
        has_names = wide >= 12
        for processor in range(self.processors):
            y = self.cell_y(processor) + cell
            if has_names:
                self.parts.append(text(self.left - 8, y - 4, "side", f"processor {processor}"))
            elif processor % 2 == 0:
                self.parts.append(text(self.left - 8, y, "side", processor))
        small = " small" if lane == 10 else ""
        shorts = shortened(dict.fromkeys(quantum.task for quantum in quanta), wide - 1) if has_names else {}
        for slot, place, task, index, _, _ in quanta:
            x, style, words = self.x(slot) + wide // 2, style_on(place), self.words_on(index, place)
            if words:
                self.parts.append(text(x, self.lane_y(task, index) + lane - gap - 1, style + small, words))
                self.kinds.update(("index", "place") if " " in words else ("index",))
            if short := shorts.get(task):
                self.parts.append(text(x, self.cell_y(place) + cell - 4, style, short))

    def words_on(self, index: int, place: int) -> str:
        """Returns the index of a quantum, and its processor if colours repeat, as far as there is room."""
        digits, wide = len(str(index)), self.sizes.slot
        if self.sizes.lane < 10:
            return ""
        if self.processors > len(COLOURS) and 5 * (digits + len(str(place))) + 10 < wide:
            return f"{index} p{place}"
        return str(index) if 5 * max(digits, 2) + 2 < wide else ""

    def life_marks(self, life: Life) -> Iterator[str]:
        """Yields an arrow up where a task joins, and one down where it departs."""
        top = self.y(self.row_of[life.name])
        bottom = top + self.lanes
        if life.joined >= self.start:
            self.kinds.add("join")
            told = f"{life.name} joins at slot {life.joined}, weight {life.weight}"
            yield group(told, arrow(self.x(life.joined), top + 4, bottom - 2, top + 2, "join"))
        if life.leave is not None and life.leave >= self.start:
            self.kinds.add("departure")
            yield group(life.departure(), arrow(self.x(life.leave), top + 2, bottom - 4, bottom - 2, "departure"))

    def late_marks(self, life: Life) -> Iterator[str]:
        """Yields a stamp where a late release is decided, with an arrow from the old window to the new one."""
        for slot, index, by, old in life.late:
            if slot >= self.start:
                self.kinds.add("late")
                middle = self.lane_y(life.name, index) + self.sizes.lane // 2
                parts = [mark(self.x(slot), middle, "stamp")]
                if old < self.stop:
                    parts += self.later(middle, old, index, by)
                yield group(f"{life.name}, slot {slot}: from subtask {index} on later by {by}", *parts)

    def later(self, middle: int, old: int, index: int, by: int) -> Iterator[str]:
        """Yields the arrow of a late release, with its length if there is room."""
        left, right = self.x(old), self.x(old + by)
        self.kinds.add("later")
        yield line(left, middle, right, middle, "late")
        yield mark(right, middle, "later")
        if right - left >= 24:
            self.kinds.add("more")
            yield text((left + right) // 2, middle - 4 if index % 2 else middle + 11, "more", f"+{by}")

    def refusals(self, decided: list[Decision]) -> None:
        """Draws a cross for the refusals of a task at a slot, with the number of a single one, or their count."""
        refused: dict[tuple[int, str], list[int]] = {}
        for row in decided:
            if row.outcome == "refused" and row.slot >= self.start:
                refused.setdefault((row.slot, row.task), []).append(row.value)
        for (slot, task), numbers in refused.items():
            counts = sorted(Counter(numbers).items())
            told = " ".join(f"{number} x{count}" if count > 1 else str(number) for number, count in counts)
            x, y = self.x(slot) + min(7, self.sizes.slot // 2), self.y(self.row_of[task]) + self.lanes + 3
            parts = [mark(x, y, "refusal")]
            self.kinds.add("refusal")
            if self.sizes.slot >= 28:
                kind, words = ("reason", str(numbers[0])) if len(numbers) == 1 else ("times", f"x{len(numbers)}")
                self.kinds.add(kind)
                parts.append(text(x + 6, y + 4, "number", words))
            self.parts.append(group(f"{task}, slot {slot}: refused {told}", *parts))

    def keys(self, places: set[int]) -> None:
        self.kinds.update(["processor"] if places else [], ["repeat"] if max(places, default=0) >= len(COLOURS) else [])
        colours, style = sorted({place % len(COLOURS) for place in places}), self.window_style()

        def swatches(x: int, y: int) -> str:
            return "".join(swatch(x + 60 + 20 * colour, y, colour) for colour in colours)

        self.key(
            (
                ("processor", 228, 0, "processor", swatches),
                ("repeat", 210, 0, "8 has the colour of 0, and so on", blank),
                ("place", LAST, 0, "p12 is processor 12", blank),
            ),
            (
                ("window", 86, 30, "window", lambda x, y: bar(x, y, 24, 11, style)),
                ("tie", 216, 30, "from a quantum to its window", across("edge")),
                ("index", LAST, 0, "the number in a quantum is that of its subtask", blank),
            ),
            (
                ("join", 52, 13, "joins", lambda x, y: arrow(x + 4, y + 1, y + 12, y - 2, "join")),
                ("departure", 64, 13, "departs", lambda x, y: arrow(x + 4, y - 2, y + 10, y + 13, "departure")),
                ("held", 168, 26, "weight held until freed", lambda x, y: bar(x, y, 20, 11, "held")),
                ("weight", 106, 0, "1/2 is a weight", blank),
                ("absent", LAST, 0, "a grey name: not admitted", blank),
            ),
            (
                ("late", 98, 12, "late release", lambda x, y: mark(x + 4, y + 6, "stamp")),
                ("later", 148, 30, "to its new window", late_sample),
                ("more", 98, 0, "+3: by 3 slots", blank),
                ("refusal", 66, 14, "refused", lambda x, y: mark(x + 5, y + 6, "refusal")),
                ("reason", 98, 0, "22: its number", blank),
                ("times", LAST, 0, "x3: three at once", blank),
            ),
        )


def late_sample(x: int, y: int) -> str:
    return line(x, y + 6, x + 18, y + 6, "late") + mark(x + 24, y + 6, "later")


def refusal(start: int, stop: int, slots: int) -> str:
    """Returns why no picture of a run of so many slots shows `start` to `stop - 1`, or nothing if one does."""
    if start >= stop:
        return f"slots from {start} to before {stop} refused: there are none"
    if stop > slots:
        return f"slots {start} to {stop - 1} refused: the file has {slots}"
    if stop - start > MOST_SLOTS:
        return f"slots {start} to {stop - 1} refused: {MOST_SLOTS:,} at most"
    return ""


def svg(
    source: PictureRows,
    picture: str = "schedule",
    start: int = 0,
    stop: Optional[int] = None,
    title: Optional[str] = None,
    legend: bool = True,
) -> str:
    """Returns a picture of slots `start` to `stop - 1` in SVG.

    Parameters
    ----------
    source : PictureRows
        The rows of a run.
    picture : {"schedule", "lags"}
        Which picture.
    start : int
        The first slot, from 0.
    stop : int, optional
        The slot behind the last one, at most 4,096 behind `start`; by default the number of slots of the run.
    title : str, optional
        The title, in place of "Schedule" or "Lags" and the line below; it takes no room if it is empty.
    legend : bool
        Whether the picture explains its signs.

    Returns
    -------
    str
        An SVG document.

    Raises
    ------
    ValueError
        If there is no such picture, or if it can't show these slots.
    """
    end = source.slots if stop is None else stop
    if picture not in PICTURES:
        raise ValueError(f"no such picture: {picture}")
    if refused := refusal(start, end, source.slots):
        raise ValueError(refused)
    return (ScheduleFigure if picture == "schedule" else LagsFigure)(source, Shown(start, end, title, legend)).svg()


def page(picture: str) -> str:
    """Returns a page around a picture, to zoom, move and point at in a browser.

    Parameters
    ----------
    picture : str
        An SVG document, as `svg` makes it.

    Returns
    -------
    str
        HTML that loads no other file.
    """
    folder = pathlib.Path(__file__).parent
    css, js = ((folder / name).read_text(encoding="utf-8") for name in ("page.css", "page.js"))
    return PAGE.format(css, picture, js)
