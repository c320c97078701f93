"""The picture of the lags of a run."""
from __future__ import annotations

from typing import Callable

from ._figure import FEW_SLOTS, LAST, Figure, Shown, Sizes, across, blank, lives_of, slot_width
from ._rows import PictureRows
from ._svg import bar, group, line, mark, step, text
from ._trace import Lag

PAST = "at or past a bound (late releases are not taken into account)"


def lag_sizes(slots: int, tasks: int) -> Sizes:
    """Returns the sizes of lags: a lane is a lag of 1, with room above for a weight and for lags past the bound."""
    lane = 20 if tasks <= 24 else 14 if tasks <= 60 or slots <= FEW_SLOTS else 9
    return Sizes(slot_width(slots), lane, 8 + lane // 4, lane // 4, 0, 3, 0)


class LagsFigure(Figure):
    """A row for each task that was admitted: its lag from each time to the next, and the bounds of -1 and 1."""

    title = "Lags"

    def __init__(self, source: PictureRows, shown: Shown) -> None:
        lives = lives_of([row for row in source.decided() if row.slot < shown.stop])
        names = list(dict.fromkeys(life.name for life in lives))
        super().__init__(source, shown, names, lag_sizes(shown.stop - shown.start, len(names)), 0)
        above = self.sizes.above + self.sizes.lane
        self.zero = {name: self.y(row) + above for row, name in enumerate(names)}
        self.ground(set(names))
        for name in names:
            self.bounds(name)
        self.frame(False)
        self.steps(source, {(life.name, life.joined) for life in lives})
        self.weights(lives, 7)
        self.keys()

    def bounds(self, task: str) -> None:
        right, zero, lane = self.x(self.stop), self.zero[task], self.sizes.lane
        self.parts.append(bar(self.left, zero - lane, right - self.left, 2 * lane, "within"))
        self.parts.append(line(self.left, zero, right, zero, "zero"))
        self.parts += [line(self.left, y, right, y, "bound") for y in (zero - lane, zero + lane)]
        self.kinds.add("bounds")

    def steps(self, source: PictureRows, joined: set[tuple[str, int]]) -> None:
        """Draws a step for each lag in sight, from the one before it: 0 if the task has just joined."""
        last: dict[str, tuple[int, bool]] = {}
        time = x1 = x2 = -1
        for lag in source.lags(max(0, self.start - 1)):
            if lag.time > self.stop:
                break
            if lag.time != time:
                time, x1, x2 = lag.time, self.x(lag.time - 1), self.x(lag.time)
            y, is_beyond = self.lag_y(lag)
            is_past = abs(lag.numerator) >= lag.period
            if time > self.start:
                has_joined = (lag.task, time - 1) in joined
                y1, was = (self.zero[lag.task], False) if has_joined else last[lag.task]
                parts = self.lag(x1, y1, x2, y, was, is_past)
                more = self.beyond(lag, x2, y) if is_beyond else ""
                told = f"{lag.task}, time {time}: lag {lag.numerator}/{lag.period}"
                self.parts.append(group(told, parts, more))
            last[lag.task] = y, is_past

    def lag_y(self, lag: Lag) -> tuple[int, bool]:
        """Returns where a lag is drawn, and whether it is further away than that."""
        most, far = self.sizes.lane + self.sizes.lane // 4, abs(lag.numerator) * self.sizes.lane // lag.period
        return self.zero[lag.task] + (min(far, most) if lag.numerator < 0 else -min(far, most)), far > most

    def lag(self, x1: int, y1: int, x2: int, y2: int, was_past: bool, is_past: bool) -> str:
        """Returns a step, in red while the lag is at or past a bound, with a dot if there is room."""
        self.kinds.update(("past",) if was_past else (), ("lag",) if not (was_past and is_past) else ())
        if was_past and not is_past:
            drawn = line(x1, y1, x2, y1, "past") + line(x2, y1, x2, y2, "lag")
        else:
            drawn = step(x1, y1, x2, y2, "past" if was_past else "lag")
        if self.sizes.slot < 12:
            return drawn
        dot = "outside" if is_past else "inside"
        self.kinds.add(dot)
        return drawn + mark(x2, y2, dot)

    def beyond(self, lag: Lag, x: int, y: int) -> str:
        """Returns a triangle for a lag that is further than is drawn, with its value if there is room."""
        name = "below" if lag.numerator < 0 else "above"
        self.kinds.add(name)
        if self.sizes.slot < 28:
            return mark(x, y, name)
        self.kinds.add("number")
        # between the bound and the middle, so that no line goes through it
        bound = self.zero[lag.task] + (self.sizes.lane - 4 if lag.numerator < 0 else 10 - self.sizes.lane)
        return mark(x, y, name) + text(x, bound, "beyond", f"{lag.numerator}/{lag.period}")

    def keys(self) -> None:
        kinds = self.kinds
        kinds.update(["far"] if kinds & {"past", "outside"} else [])

        def both(style: str, dot: str) -> Callable[[int, int], str]:
            """Returns the sample of a line, a dot or both, as the lags have them."""

            def drawn(x: int, y: int) -> str:
                drawn_line = across(style)(x, y) if style in kinds else ""
                return drawn_line + (mark(x + 24, y + 6, dot) if dot in kinds else "")

            return drawn

        self.key(
            (
                ("lag", 230, 32, "lag, from each time to the next", both("lag", "inside")),
                ("bounds", 222, 30, "the bounds of 1 on both sides", across("bound")),
                ("weight", LAST, 0, "1/2 is a weight", blank),
            ),
            (("far", LAST, 32, PAST, both("past", "outside")),),
            (
                ("above", 144, 13, "above what is drawn", lambda x, y: mark(x + 4, y + 10, "above")),
                ("below", 144, 13, "below what is drawn", lambda x, y: mark(x + 4, y, "below")),
                ("number", LAST, 0, "with the lag itself", blank),
            ),
        )
