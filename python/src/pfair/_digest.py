"""Digests of logs, by which two dispatchers find that they hold different entries: a call of `Dispatcher`."""
from __future__ import annotations

import hashlib
from typing import TYPE_CHECKING

from ._entries import Entry
from .errors import NoSuchNumber, check
from ._take import key_of

if TYPE_CHECKING:
    from ._dispatcher import Dispatcher

_TASK = ("at", "kind", "name")
# the fields that the row of an entry has, by its kind, and their order
_TOLD = {None: (), "arrive": (*_TASK, "cost", "period", "early"), "depart": _TASK, "late": (*_TASK, "index", "by")}
_COLUMNS = (*_TOLD["arrive"], "index", "by")


class NotHeld(ValueError):
    """A log has no entry under a number up to the last that is wanted; the text says which."""


def digest(self: Dispatcher, processor: int, count: int) -> bytes:
    """Returns a digest of the first entries of a log: equal for equal entries, and in practice for no others.

    Two dispatchers that took different entries under one number, and never both, plan different slots, and no number is
    torn. Each of them can send its digests: the other one has other entries if its own digest of as many differs.

    Parameters
    ----------
    processor : int
        The processor whose log it is, from 0.
    count : int
        The number of entries, 0 to the capacity: as a rule the length of the sound beginning, by `mark`.

    Returns
    -------
    bytes
        32 bytes: SHA-256 of the rows of entries 1 to `count`, each with its newline. docs/SPECIFICATION.md has the form
        of the rows.

    Raises
    ------
    NotHeld
        If one of these numbers has no entry. The first one without, or torn, counts.
    Torn
        If conflicting entries were taken for one of them; found["processor"] and found["number"] name it.
    NoSuchProcessor, NoSuchNumber
        If the dispatcher has no such processor, or `count` is past the capacity.
    OutOfRange
        If a number is negative or too large for its type in C.

    Notes
    -----
    O(c log n) for c entries of a log that has n. Floors may fall in it.
    """
    own, last = key_of(processor, count, "count")
    hashed = hashlib.sha256()
    with self._lock:
        self.mark(own)
        if last > self.capacity:
            check(NoSuchNumber.number, f"entry {last} of processor {own}")
        for number in range(1, last + 1):
            entry = self.held(own, number)
            if entry is None:
                raise NotHeld(f"there is no entry {number} of processor {own}")
            hashed.update(f"{_row(own, number, entry)}\n".encode())
    return hashed.digest()


def _row(processor: int, number: int, entry: Entry) -> str:
    """Returns the row of an entry, with a dash for each field that its kind doesn't have."""
    told = _TOLD[entry.kind]
    fields = [str(getattr(entry, column)).lower() if column in told else "-" for column in _COLUMNS]
    return ",".join([str(processor), str(number), str(entry.floor), *fields])
