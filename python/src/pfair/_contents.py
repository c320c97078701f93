"""What a dispatcher holds of the logs, and what is wrong with them: calls of `Dispatcher`."""
from __future__ import annotations

import ctypes as c
from typing import TYPE_CHECKING, NamedTuple, Optional

import numpy as np

from ._entries import Entry, entry_of
from .errors import check
from ._library import ENTRY, KEY
from ._numbers import whole
from ._take import key_of

if TYPE_CHECKING:
    from ._dispatcher import Dispatcher


class Faults(NamedTuple):
    """What is wrong with the logs of a dispatcher, as lists of (processor, number).

    Attributes
    ----------
    torn : list of tuple of int
        The numbers with conflicting entries.
    fallen : list of tuple of int
        The entries right behind a sound beginning whose floor is lower: the rest of that log is ignored.
    """

    torn: list[tuple[int, int]]
    fallen: list[tuple[int, int]]


def held(self: Dispatcher, processor: int, number: int) -> Optional[Entry]:
    """Returns the entry with a number, or None if there is none.

    Parameters
    ----------
    processor : int
        The processor whose log it is, from 0.
    number : int
        The position in the log, 1 to the capacity.

    Returns
    -------
    Entry or None
        Fields that its kind doesn't need have their defaults.

    Raises
    ------
    Torn
        If conflicting entries were taken for the number; found["processor"] and found["number"] name it.
    NoSuchProcessor, NoSuchNumber
        If the dispatcher has no such processor or number.
    OutOfRange
        If a number is negative or too large for its type in C.

    Notes
    -----
    O(log n) for n entries in the log.
    """
    row, key, kind = np.zeros(1, ENTRY), key_of(processor, number), c.c_uint64()
    where = f"entry {key[1]} of processor {key[0]}"
    self._call("pfair_held", *key, kind, row.ctypes.data, where=where)
    if kind.value == 2:
        check(30, where, processor=key[0], number=key[1])
    return entry_of(row[0]) if kind.value == 1 else None


def mark(self: Dispatcher, processor: int) -> tuple[int, int]:
    """Returns the mark of a processor, and the length of its sound beginning.

    The sound beginning is the longest run of entries 1, 2, 3, .., none torn, whose floors never fall. Its mark is
    the floor of the last of them, or 0: below that slot the log announces nothing more.

    Parameters
    ----------
    processor : int
        From 0.

    Returns
    -------
    tuple of int
        The mark, a slot, and the number of entries.

    Raises
    ------
    NoSuchProcessor
        If the dispatcher has no such processor.
    OutOfRange
        If the number is negative or past 255.

    Notes
    -----
    O(1).
    """
    own, slot, count = whole(processor, "processor", 0, 255), c.c_uint64(), c.c_uint64()
    self._call("pfair_mark", own, slot, count, where=f"processor {own}")
    return slot.value, count.value


def missing(self: Dispatcher, processor: int) -> Optional[int]:
    """Returns the least number of a log that has no entry, or None if every number up to the capacity has one.

    Parameters
    ----------
    processor : int
        The processor whose log it is, from 0.

    Returns
    -------
    int or None
        A torn number isn't missing.

    Raises
    ------
    NoSuchProcessor
        If the dispatcher has no such processor.
    OutOfRange
        If the number is negative or past 255.

    Notes
    -----
    A look-up for each number up to the one returned.
    """
    own = whole(processor, "processor", 0, 255)
    return self._number("pfair_missing", own, where=f"processor {own}") or None


def faults(self: Dispatcher) -> Faults:
    """Returns the torn numbers of all logs, and the entries whose floor falls behind a sound beginning.

    Returns
    -------
    Faults
        Each list in the order of processors and numbers.

    Raises
    ------
    OutOfMemory
        If an allocation fails; only if there is a fault.

    Notes
    -----
    A look-up for each number of each log.
    """
    torn, fallen, rows = c.c_uint64(), c.c_uint64(), np.zeros(0, KEY)
    with self._lock:
        answer = 103
        while answer == 103:
            rows = np.zeros(torn.value + fallen.value, KEY)
            answer = self._answer("pfair_faults", torn, fallen, rows.ctypes.data, len(rows))
        check(answer)
    keys = [(int(row["processor"]), int(row["number"])) for row in rows]
    return Faults(keys[: torn.value], keys[torn.value :])
