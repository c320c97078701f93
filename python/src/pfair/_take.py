"""How a dispatcher takes entries: calls of `Dispatcher`."""
from __future__ import annotations

import ctypes as c
from typing import TYPE_CHECKING, Literal, NamedTuple, Sequence, Union

from ._entries import Entry, Rows, rows_of
from .errors import check
from ._library import TakenLog
from ._numbers import whole

if TYPE_CHECKING:
    from ._dispatcher import Dispatcher

Taken = Literal["new", "known", "torn"]
TAKEN: tuple[Taken, ...] = ("new", "known", "torn")


class TakenCounts(NamedTuple):
    """How many entries a call took, and what each of them met.

    Attributes
    ----------
    taken : int
        All entries taken: the sum of the other three.
    new : int
        Entries whose number was free.
    known : int
        Entries equal to the existing one.
    torn : int
        Entries whose number had a different entry, or was torn already.
    """

    taken: int
    new: int
    known: int
    torn: int


def key_of(processor: int, number: int, name: str = "number") -> tuple[int, int]:
    """Returns the key of an entry in the library's types, a byte and four."""
    return whole(processor, "processor", 0, 255), whole(number, name, 0, 2**32 - 1)


def take(self: Dispatcher, processor: int, number: int, entry: Entry) -> Taken:
    """Takes an entry of a log and returns what it met.

    Parameters
    ----------
    processor : int
        The processor whose log it is, from 0.
    number : int
        The position in the log, 1 to the capacity.
    entry : Entry

    Returns
    -------
    {"new", "known", "torn"}
        "new": the number was free, and has the entry now. "known": it had an equal entry. "torn": it had a
        different entry or was torn already, and is torn now.

    Raises
    ------
    NameEmpty, NameTooLong, NameBadByte
        If the announcement's name is no task name.
    ZeroCost, CostOverPeriod, PeriodTooLong
        If an arrival's weight is out of its range.
    SlotTooFar, StampBeforeFloor, BadIndex, BadDelay
        If the floor, the stamp, or the index or the delay of a late release is out of its range.
    NoSuchProcessor, NoSuchNumber
        If the dispatcher has no such processor or number.
    OutOfRange
        If the kind is unknown, or a number is negative or too large for its type in C.
    OutOfMemory
        If an allocation fails; only for a free number.

    Notes
    -----
    O((1 + g) log n) for n entries in the log, if its run of entries 1, 2, 3, .. grows by g.
    """
    row, key, taken = rows_of([entry]), key_of(processor, number), c.c_uint64()
    self._call("pfair_take", *key, row.ctypes.data, taken, where=f"entry {key[1]} of processor {key[0]}")
    return TAKEN[taken.value]


def take_log(
    self: Dispatcher, processor: int, entries: Union[Sequence[Entry], Rows], first: int = 1
) -> TakenCounts:
    """Takes consecutive entries of a log, each as `take` does, up to the first that is refused.

    Parameters
    ----------
    processor : int
        The processor whose log it is, from 0.
    entries : sequence of Entry, or ndarray of dtype ENTRY
        As `rows_of` makes it; an array is read as it is.
    first : int
        The number of the first entry, 1 to the capacity, even if there are no entries.

    Returns
    -------
    TakenCounts

    Raises
    ------
    PfairError
        As `take`, for the first entry that is refused. found["processor"] and found["number"] name it, and the
        entries before it are taken.
    OutOfRange, NameBadByte, TypeError
        As `rows_of`, before any entry is taken and with nothing in `found`; so too OutOfRange if `processor` or
        `first` is too large for its type in C.

    Notes
    -----
    The cost of `take` for each entry.
    """
    rows, key, counted = rows_of(entries), key_of(processor, first, "first"), TakenLog()
    answer = self._answer("pfair_take_log", *key, counted, rows.ctypes.data, len(rows))
    number = key[1] + counted.taken
    check(answer, f"entry {number} of processor {key[0]}", processor=key[0], number=number)
    return TakenCounts(counted.taken, counted.fresh, counted.known, counted.torn)


def absorb(self: Dispatcher, other: Dispatcher) -> None:
    """Takes all entries of another dispatcher, which stays as it is.

    Parameters
    ----------
    other : Dispatcher
        One with as many processors and the same capacity. With itself the call does nothing.

    Raises
    ------
    OtherShape
        If the number of processors or the capacity differs.
    OutOfMemory
        If an allocation fails. Some entries are taken; absorbing the other again takes the rest.
    TypeError
        If `other` is no Dispatcher.

    Notes
    -----
    O((n + m) log(n + m)) for n entries here and m there.
    """
    if other is not self:
        with self._both(other):
            self._call("pfair_absorb", other._handle)


def is_below(self: Dispatcher, other: Dispatcher) -> bool:
    """Returns whether another dispatcher has all that this one has: each number with the same entry, or torn.

    Parameters
    ----------
    other : Dispatcher

    Returns
    -------
    bool

    Raises
    ------
    TypeError
        If `other` is no Dispatcher.

    Notes
    -----
    O(n log m) for n entries here and m there.
    """
    if other is self:
        return True
    is_below = c.c_uint64()
    with self._both(other):
        self._call("pfair_below", other._handle, is_below)
    return bool(is_below.value)
