"""The windows of subtasks."""
from __future__ import annotations

import numpy as np

from ._entries import Rows
from .errors import check
from ._library import WINDOW, library
from ._numbers import whole

_LAST_INDEX, _MOST_THETA = 1_000_001, 2**40


def windows(cost: int, period: int, count: int, first: int = 1, theta: int = 0) -> Rows:
    """Returns the windows of subtasks `first` to `first + count - 1` of a task.

    Parameters
    ----------
    cost, period : int
        The weight: `cost` quanta in each `period` slots, with 1 <= cost <= period <= 1,000,000,000.
    count : int
        The number of windows, from 0; the last subtask is at most 1,000,001.
    first : int
        The first subtask, 1 to 1,000,001.
    theta : int
        The offset in slots, 0 to 2**40: the slot in which the task joined, plus the delays of its late releases.

    Returns
    -------
    ndarray of dtype WINDOW
        A row for each subtask: `release` and `deadline` (slots), `b_bit` (0 or 1), and `group_deadline` (a slot, or 0
        if the weight is below 1/2).

    Raises
    ------
    ZeroCost, CostOverPeriod, PeriodTooLong
        If the weight is out of its range.
    OutOfRange
        If `first`, `count` or `theta` is out of its range, or a number is negative or too large for its type in C.

    Notes
    -----
    O(count). Releases and deadlines are those of Baruah, Cohen, Plaxton and Varvel; the b-bit and the group deadline
    are those of Anderson and Srinivasan.
    """
    begin = whole(first, "first", 1, _LAST_INDEX)
    rows = np.zeros(whole(count, "count", 0, _LAST_INDEX + 1 - begin), WINDOW)
    given = whole(cost, "cost"), whole(period, "period"), begin, len(rows), whole(theta, "theta", 0, _MOST_THETA)
    check(library.pfair_windows(*given, rows.ctypes.data, len(rows)), f"{cost}/{period}")
    return rows
