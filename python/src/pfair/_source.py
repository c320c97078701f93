"""A schedule as the source of traces and pictures."""
from __future__ import annotations

from dataclasses import asdict
from typing import TYPE_CHECKING, Any, Iterator

from ._entries import Entry, Rows
from ._library import OUTCOMES
from ._rows import Decision, PictureRows
from ._trace import Decided, Lag, Quantum, quanta_of, words_of

if TYPE_CHECKING:
    from ._schedule import Schedule

# rows that become numbers of Python at once
_READ_AT_ONCE = 1 << 15


class ScheduleSource(PictureRows):
    """A schedule as the source of traces and pictures."""

    def __init__(self, schedule: Schedule) -> None:
        script = schedule.script
        self.schedule, self.processors, self.frame, self.slots = schedule, script.processors, script.frame, script.slots

    def _decided(self) -> Iterator[tuple[int, int, int, str, str, int, Entry]]:
        for slot, task, processor, number, outcome, freed_at in _read(self.schedule.decisions):
            word, value = (OUTCOMES[outcome], freed_at) if outcome < 20 else ("refused", outcome)
            yield slot, processor, number, task.decode(), word, value, self.schedule._entry(processor, number)

    def names(self) -> list[str]:
        return list(dict.fromkeys(task for _, _, _, task, outcome, _, _ in self._decided() if outcome == "admitted"))

    def decisions(self) -> Iterator[Decided]:
        for slot, processor, number, task, outcome, value, entry in self._decided():
            said = words_of(entry.kind or "", task, outcome, value, asdict(entry))
            yield Decided(slot, processor, number, task, said)

    def decided(self) -> Iterator[Decision]:
        for slot, _, _, task, outcome, value, entry in self._decided():
            yield Decision(slot, task, outcome, value, asdict(entry))

    def quanta(self) -> Iterator[Quantum]:
        rows = ((slot, place, task.decode(), index) for slot, _, place, task, index in _read(self.schedule.quanta))
        return quanta_of(rows, ((slot, task, outcome, entry) for slot, task, outcome, _, entry in self.decided()))

    def lags(self, start: int = 0) -> Iterator[Lag]:
        for rows in self.schedule._lags_by_pieces(start):
            for time, task, numerator, period in _read(rows):
                yield Lag(time, task.decode(), numerator, period)


def _read(rows: Rows) -> Iterator[Any]:
    """Yields the fields of each row as Python has them, some rows at once."""
    for first in range(0, len(rows), _READ_AT_ONCE):
        yield from rows[first : first + _READ_AT_ONCE].tolist()
