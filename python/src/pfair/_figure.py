"""What pictures have in common: positions of slots and rows, names, times, weights, the key, and the tasks of a run."""
from __future__ import annotations

import os
import re
from typing import Callable, Iterable, Iterator, NamedTuple, Optional

from ._rows import Decision, PictureRows
from ._svg import bar, document, line, text
from ._trace import Member

#: The most slots of one picture.
MOST_SLOTS = 4096
# the most slots of a picture, and the width of a slot in pixels
WIDTHS = ((14, 40), (40, 28), (72, 18), (120, 12), (240, 8), (400, 4), (MOST_SLOTS, 2))
NARROWEST, LEFT, RIGHT, TOP = 640, 118, 40, 76
# the lines of a title, and the most pixels of one of its letters
TITLE, TOLD, TITLE_LETTER = 24, 18, 11
# up to so many slots a quantum has room for its index, if its lane has too
FEW_SLOTS = 40
# the scale is repeated above every so many rows
ROWS_OF_SCALE = 16
# the width of an entry of the key with nothing behind it
LAST = 0
#: An entry of the key: the kind of thing, its width, where its words begin, the words, and what draws the sample.
Entry = tuple[str, int, int, str, Callable[[int, int], str]]


class Sizes(NamedTuple):
    """Pixels: of a slot and a lane, above and below the lanes, around a quantum, between rows, of a processor's row."""

    slot: int
    lane: int
    above: int
    below: int
    gap: int
    strip: int
    cell: int


def slot_width(slots: int) -> int:
    """Returns the width of a slot in a picture of that many slots."""
    return next(width for most, width in WIDTHS if slots <= most)


def scale_step(wide: int, end: int) -> int:
    """Returns by how many slots numbers of the scale are apart, so that their digits have room."""
    need = max(24, 7 * len(str(end)) + 4)
    return next(some for tens in (1, 10) for some in (tens, 2 * tens, 5 * tens) if some * wide >= need)


def name_width(name: str) -> int:
    """Returns the most pixels that a name takes."""
    return sum(12 if letter in "mw" else 8 for letter in name)


def small_width(name: str) -> int:
    """Returns the most pixels that a name takes in the small letters of a processor's row."""
    return name_width(name) * 3 // 4


def shortened(names: Iterable[str], room: int) -> dict[str, str]:
    """Returns names as they fit into so many pixels of a processor's row, each of them another.

    A name that is too long is cut to its first letters and a dot. If that makes some alike, letters follow that tell
    these apart: the last ones, or the first that differ. They are empty if none that fit do.
    """
    short = {name: name if small_width(name) <= room else cut(name, "", room) for name in names}
    alike: dict[str, list[str]] = {}
    for name, words in short.items():
        alike.setdefault(words, []).append(name)
    taken: set[str] = set()
    for words, group in alike.items():
        if len(group) > 1:
            apart = told_apart(group, room, taken) if words else []
            taken.update(apart)
            short.update(zip(group, apart or [""] * len(group)))
    return short


def cut(name: str, tail: str, room: int) -> str:
    """Returns the first letters of a name, a dot and a tail: as many letters as there is room for, or nothing."""
    head = name
    while head and small_width(head + tail) + 6 > room:
        head = head[:-1]
    return f"{head}.{tail}" if head or tail and small_width(tail) + 6 <= room else ""


def told_apart(names: list[str], room: int, taken: set[str]) -> list[str]:
    """Returns names cut to their first letters and the fewest that tell them apart, or none if none that fit do."""
    for tails in tails_of(names):
        made = [cut(name[: len(name) - len(tail)], tail, room) for name, tail in zip(names, tails)]
        if all(made) and len(set(made)) == len(made) and taken.isdisjoint(made):
            return made
    return []


def tails_of(names: list[str]) -> Iterator[list[str]]:
    """Yields letters of each name: more and more of its last ones, or of those from the first that differs."""
    begin = len(os.path.commonprefix(names))
    for length in range(1, max(map(len, names))):
        # first without cutting a number
        ends = [re.search(rf"(?:\d+|\D).{{{length - 1}}}$", name) for name in names]
        yield [end[0] if end else name for name, end in zip(names, ends)]
        yield [name[-length:] for name in names]
        yield [name[begin : begin + length] for name in names]


class Life(Member):
    """A task from its admission on: departure, freeing slot, last subtask that ran, and its late releases."""

    leave: Optional[int] = None
    freed: Optional[int] = None
    ran = 0

    def __init__(self, row: Decision) -> None:
        super().__init__(row.entry["cost"], row.entry["period"], row.slot)
        self.name, self.weight = row.task, f"{row.entry['cost']}/{row.entry['period']}"
        # the slot, the first subtask, the delay, and the release that it had before
        self.late: list[tuple[int, int, int, int]] = []

    def departure(self) -> str:
        return f"{self.name} departs at slot {self.leave}, weight held until slot {self.freed}"

    def windows(self, start: int, stop: int) -> Iterator[tuple[int, int, int]]:
        """Yields index, release and deadline of windows in sight; one that never ran ends where its task departs."""
        latest = self.joined + sum(by for _, by in self.delays)
        # all subtasks up to this one have closed by the first slot
        index = max(0, (start - latest) * self.cost // self.period)
        while True:
            index += 1
            opens, closes = self.window(index)
            end = stop
            if self.leave is not None and index > self.ran:
                closes, end = min(closes, self.leave), min(stop, self.leave)
            if opens >= end:
                return
            if closes > start:
                yield index, opens, closes


def lives_of(decided: list[Decision]) -> list[Life]:
    """Returns the tasks that were admitted."""
    last: dict[str, Life] = {}
    lives = []
    for row in decided:
        if row.outcome == "admitted":
            last[row.task] = Life(row)
            lives.append(last[row.task])
        elif row.outcome == "departing":
            last[row.task].leave, last[row.task].freed = row.slot, row.value
        elif row.outcome == "delayed":
            life, index, by = last[row.task], row.entry["index"], row.entry["by"]
            life.late.append((row.slot, index, by, life.window(index)[0]))
            life.delays.append((index, by))
    return lives


class Shown(NamedTuple):
    """What a picture shows: slots `start` to `stop - 1`, its title if it isn't the usual one, and whether its key."""

    start: int
    stop: int
    title: Optional[str]
    has_key: bool


class Figure:
    """A picture: its parts, in the order in which they are drawn."""

    title: str

    def __init__(self, source: PictureRows, shown: Shown, names: list[str], sizes: Sizes, processors: int) -> None:
        self.start, self.stop, title, self.has_key = shown
        self.names, self.sizes, self.processors = names, sizes, processors
        self.row_of = {name: row for row, name in enumerate(names)}
        self.left = max(LEFT, 64 + max(map(name_width, names), default=0))
        self.lanes = sizes.above + 2 * sizes.lane + 1 + sizes.below
        self.step = scale_step(sizes.slot, self.stop)
        slots = f"slots: {self.start} to {self.stop - 1} of {source.slots}"
        self.told, self.colours = f"processors: {source.processors}, frame: {source.frame}, {slots}", source.processors
        # the usual title has a second line; an empty one takes no room
        self.has_told, self.title = title is None, self.title if title is None else title
        self.top = TOP - (0 if self.has_told else TOLD) - (0 if self.title else TITLE)
        self.bottom = self.cell_y(processors) + 4
        self.width, self.key_lines = max(self.x(self.stop) + RIGHT, NARROWEST), 0
        self.width = max(self.width, 32 + TITLE_LETTER * len(self.title))
        self.parts: list[str] = []
        self.kinds: set[str] = set()  # of things that the key has to name

    def x(self, slot: int) -> int:
        """Returns where a slot begins; one that isn't shown counts as the nearest that is."""
        return self.left + (min(max(slot, self.start), self.stop) - self.start) * self.sizes.slot

    def y(self, row: int) -> int:
        """Returns where a row begins; above every sixteenth there is room for a scale."""
        scales = max(0, min(row, len(self.names) - 1)) // ROWS_OF_SCALE
        return self.top + row * (self.lanes + self.sizes.strip) + 12 * scales

    def cell_y(self, processor: int) -> int:
        """Returns where a processor's row begins."""
        return self.y(len(self.names)) + (12 if self.processors else 0) + processor * self.sizes.cell

    def svg(self) -> str:
        height = self.bottom + (40 + 20 * self.key_lines if self.key_lines else 26)
        return document(self.width, height, self.title, self.told, self.colours, self.parts)

    def ground(self, admitted: set[str]) -> None:
        """Draws the title, and a band and a name for each row."""
        self.parts += [text(16, 24, "title", self.title)] if self.title else []
        self.parts += [text(16, 42, "entry", self.told)] if self.has_told else []
        wide, high = self.x(self.stop) - self.left, self.lanes + self.sizes.strip
        for row, name in enumerate(self.names):
            y, style = self.y(row), "name" if name in admitted else "absent"
            if row % 2 == 0:
                self.parts.append(bar(self.left, y, wide, high, "band"))
            self.parts.append(text(self.left - 46, y + self.sizes.above + self.sizes.lane + 4, style, name))
            if name not in admitted:
                self.kinds.add("absent")

    def frame(self, has_slots: bool) -> None:
        """Draws the lines and the numbers of times."""
        for time in range(self.start, self.stop + 1):
            is_numbered = time % self.step == 0
            if is_numbered or self.sizes.slot >= 8:
                style = "tick" if is_numbered and self.step > 1 else "grid"
                self.parts.append(line(self.x(time), self.top, self.x(time), self.bottom, style))
        self.scale(self.top - 5, has_slots)
        for row in range(ROWS_OF_SCALE, len(self.names), ROWS_OF_SCALE):
            self.scale(self.y(row) - 2, has_slots)
        self.scale(self.bottom + 15, False)
        self.parts.append(line(self.left, self.bottom, self.x(self.stop), self.bottom, "edge"))

    def scale(self, y: int, has_slots: bool) -> None:
        """Draws the numbers of slots, in their middle, or of times, at their boundary."""
        aside, end = (self.sizes.slot // 2, self.stop) if has_slots else (0, self.stop + 1)
        first = -(-self.start // self.step) * self.step
        self.parts += [text(self.x(time) + aside, y, "scale", time) for time in range(first, end, self.step)]
        self.parts.append(text(self.left - 22, y, "side", "slot" if has_slots else "time"))

    def weights(self, lives: list[Life], down: int) -> None:
        """Draws the weight of each task that isn't freed by the first slot, where it joins."""
        for life in lives:
            if life.freed is None or life.freed > self.start:
                x = self.x(life.joined) + 5
                self.parts.append(text(x, self.y(self.row_of[life.name]) + down, "weight", life.weight))
                self.width = max(self.width, x + 6 * len(life.weight) + 4)
                self.kinds.add("weight")

    def key(self, *lines: tuple[Entry, ...]) -> None:
        """Draws the key: an entry for each kind of thing that the picture has, one behind the other."""
        for entries in lines if self.has_key else ():
            x, y = 16, self.bottom + 36 + 20 * self.key_lines
            for kind, width, begins, words, sample in entries:
                if kind in self.kinds:
                    self.parts += [sample(x, y), text(x + begins, y + 9, "entry", words)]
                    x += width
            self.key_lines += any(entry[0] in self.kinds for entry in entries)


def blank(x: int, y: int) -> str:
    """Returns no sample, for an entry whose words say all."""
    return ""


def across(style: str) -> Callable[[int, int], str]:
    """Returns the sample of a line of a style."""
    return lambda x, y: line(x, y + 6, x + 24, y + 6, style)
