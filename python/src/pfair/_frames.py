"""Rows as data frames of pandas."""
from __future__ import annotations

from typing import TYPE_CHECKING, Any

import numpy as np
import pandas

from ._entries import Rows
from ._library import OUTCOMES
from ._names import numbered

if TYPE_CHECKING:
    from pandas import Categorical, DataFrame


def frame_of(rows: Rows) -> DataFrame:
    """Returns rows with a task as a frame: the task first, outcomes as words, and numbers that don't wrap around."""
    columns: dict[str, Any] = {"task": _tasks(rows)}
    for name in rows.dtype.names or ():
        if name == "outcome":
            codes = np.searchsorted([*OUTCOMES], rows[name])
            columns[name] = pandas.Categorical.from_codes(codes, [*OUTCOMES.values()])
        elif name != "task":
            columns[name] = rows[name].astype(np.int64)
    return pandas.DataFrame(columns)


def _tasks(rows: Rows) -> Categorical:
    """Returns the tasks as categories, in the order of their names."""
    codes, names = numbered(rows["task"])
    order = sorted(range(len(names)), key=names.__getitem__)
    places = np.empty(len(names), np.int64)
    places[order] = np.arange(len(names))
    return pandas.Categorical.from_codes(places[codes], [names[at].decode() for at in order])
