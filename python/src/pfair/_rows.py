"""The rows that pictures are made of: those of traces, and more of each decision."""
from __future__ import annotations

from typing import Any, Iterable, Mapping, NamedTuple

from ._trace import Lag, Source


class Decision(NamedTuple):
    """A decision: `value` is a departure's freeing slot or a refusal's number, `entry` the announcement's fields."""

    slot: int
    task: str
    outcome: str
    value: int
    entry: Mapping[str, Any]


class PictureRows(Source):
    """A source of pictures: rows in the order of slots."""

    frame: int

    def decided(self) -> Iterable[Decision]:
        """Returns all decisions."""
        raise NotImplementedError

    def lags(self, start: int = 0) -> Iterable[Lag]:
        """Returns the lags at times after `start`."""
        raise NotImplementedError
