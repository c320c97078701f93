"""The first subtask of a task that ran out of its window, or not at all."""
from __future__ import annotations

import ctypes as c
from typing import Literal, NamedTuple, Optional, Sequence, Union

import numpy as np
import numpy.typing as npt

from .errors import check
from ._library import Miss as _Miss
from ._library import library
from ._numbers import whole

MissKind = Literal["early", "tardy", "unserved"]
_KINDS: tuple[MissKind, ...] = ("early", "tardy", "unserved")
Picks = Union[Sequence[int], npt.NDArray[np.int64], npt.NDArray[np.uint64]]


class Miss(NamedTuple):
    """A subtask that is out of its window.

    Attributes
    ----------
    kind : {"early", "tardy", "unserved"}
        "early": it ran before its release. "tardy": it ran at its deadline or later. "unserved": its deadline is at
        most the horizon, and it did not run.
    subtask : int
        Which it is, from 1.
    slot : int or None
        The slot in which it ran; None if it did not.
    """

    kind: MissKind
    subtask: int
    slot: Optional[int]


def first_miss(cost: int, period: int, picks: Picks, horizon: int) -> Optional[Miss]:
    """Returns the first subtask that is out of its window, or None.

    Parameters
    ----------
    cost, period : int
        The weight: `cost` quanta in each `period` slots, with 1 <= cost <= period <= 1,000,000,000.
    picks : sequence of int
        The slots in which the task ran, rising, counted from the slot in which it joined: the first is that of subtask
        1, and so on.
    horizon : int
        The number of slots that have passed, 0 to 1,000,000.

    Returns
    -------
    Miss or None
        None exactly if the task's lag stays above -1 and below 1, from the joining slot to the horizon.

    Raises
    ------
    ZeroCost, CostOverPeriod, PeriodTooLong
        If the weight is out of its range.
    OutOfRange
        If the horizon is out of its range, or a number is negative or too large for its type in C.
    PicksNotRising, PickPastHorizon
        If a slot isn't after the one before it, or not before the horizon; found["place"] is the first such place.
    TypeError
        If `picks` isn't a list of whole numbers.

    Notes
    -----
    O(n) for n picks. That lags and windows say the same is a theorem of Baruah, Cohen, Plaxton and Varvel, and proved
    of the library's call.
    """
    return _first("pfair_first_miss", cost, period, picks, horizon)


def first_late(cost: int, period: int, picks: Picks, horizon: int) -> Optional[Miss]:
    """Returns the first subtask that is late, "tardy" or "unserved", or None: one that runs early is right here.

    Parameters
    ----------
    cost, period, picks, horizon
        As in `first_miss`.

    Returns
    -------
    Miss or None
        None exactly if the task's lag stays below 1, as it has to with early release (ERfair).

    Raises
    ------
    PfairError, TypeError
        As `first_miss`.

    Notes
    -----
    O(n) for n picks.
    """
    return _first("pfair_first_late", cost, period, picks, horizon)


def _first(call: str, cost: int, period: int, picks: Picks, horizon: int) -> Optional[Miss]:
    slots = _slots_of(picks)
    rows, miss, place = np.ascontiguousarray(slots, np.uint64), _Miss(), c.c_uint64()
    given = whole(cost, "cost"), whole(period, "period"), whole(horizon, "horizon", 0, 1_000_000)
    answer = getattr(library, call)(*given, miss, place, rows.ctypes.data, len(rows))
    if answer in (40, 41):
        check(answer, f"{rows[place.value]} at {place.value}", place=place.value)
    check(answer, f"{cost}/{period}")
    return Miss(_KINDS[miss.kind - 1], miss.index, None if miss.kind == 3 else miss.slot) if miss.kind else None


def _slots_of(picks: Picks) -> npt.NDArray[np.int64]:
    """Returns the picks as an array of whole numbers, none of which is negative."""
    try:
        slots = np.asarray(picks)
    except ValueError:
        slots = np.zeros((0, 0))
    if slots.ndim != 1 or len(slots) and slots.dtype.kind not in ("u", "i"):
        raise TypeError(f"picks have to be a list or an array of whole numbers, and not {picks!r:.60}")
    if len(slots):
        whole(slots.min(), "pick")
    return slots
