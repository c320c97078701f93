"""What a dispatcher has planned: calls of `Dispatcher`."""
from __future__ import annotations

import ctypes as c
from typing import TYPE_CHECKING, Any, Optional

import numpy as np

from ._entries import Rows
from .errors import check
from ._library import DECISION, LAG, MEMBER, QUANTUM
from ._numbers import whole

if TYPE_CHECKING:
    from ._dispatcher import Dispatcher


def _rows(self: Dispatcher, name: str, kind: np.dtype[Any], *given: int) -> tuple[int, Rows]:
    """Returns the answer of a call, and its rows, which are counted first."""
    count, rows, answer = c.c_uint64(), np.zeros(0, kind), 103
    with self._lock:
        while answer == 103:
            rows = np.empty(count.value, kind)
            answer = self._answer(name, *given, count, rows.ctypes.data, len(rows))
    return answer, rows


def _range(self: Dispatcher, name: str, kind: np.dtype[Any], start: int, stop: Optional[int]) -> Rows:
    """Returns the rows of a call for slots `start` to `stop - 1`."""
    with self._lock:
        first, planned = whole(start, "start"), self.planned
        behind = planned if stop is None else whole(stop, "stop")
        answer, rows = _rows(self, name, kind, first, behind)
    # a slot that is planned is forgotten; lags count from slot 0 on
    check(answer, f"slot {behind - 1 if behind > planned else 0 if kind is LAG else first}")
    return rows


def quanta(self: Dispatcher, start: int = 0, stop: Optional[int] = None) -> Rows:
    """Returns the quanta of slots `start` to `stop - 1`.

    Parameters
    ----------
    start : int
        The first slot, from 0.
    stop : int, optional
        The slot behind the last one; by default the number of planned slots. If it isn't above `start` there are no
        rows.

    Returns
    -------
    ndarray of dtype QUANTUM
        Slot by slot, each slot's quanta in PD2 order. `place` is the processor that runs one: a task that runs in
        two consecutive slots stays on its processor.

    Raises
    ------
    NotPlanned
        If slot `stop - 1` isn't planned, or slot `start` is forgotten.
    OutOfRange
        If a number is negative or too large for its type in C.

    Notes
    -----
    O(s + r) for s slots and r rows.
    """
    return _range(self, "pfair_quanta", QUANTUM, start, stop)


def decisions(self: Dispatcher, start: int = 0, stop: Optional[int] = None) -> Rows:
    """Returns the decisions at the boundaries of slots `start` to `stop - 1`.

    Parameters
    ----------
    start, stop : int
        As in `quanta`.

    Returns
    -------
    ndarray of dtype DECISION
        Slot by slot, each slot's decisions in the order of processors and numbers.

    Raises
    ------
    NotPlanned, OutOfRange
        As `quanta`.

    Notes
    -----
    O(s + r) for s slots and r rows.
    """
    return _range(self, "pfair_decisions", DECISION, start, stop)


def lags(self: Dispatcher, start: int = 0, stop: Optional[int] = None) -> Rows:
    """Returns the lags after each of slots `start` to `stop - 1`.

    Parameters
    ----------
    start, stop : int
        As in `quanta`.

    Returns
    -------
    ndarray of dtype LAG
        Slot by slot, each slot's lags in the order of admission: a row for each task that is admitted and not
        departing after the boundary of the slot. Its time is the end of the slot.

    Raises
    ------
    NotPlanned
        If slot `stop - 1` isn't planned, or any slot is forgotten.
    OutOfMemory
        If an allocation fails.
    OutOfRange
        If a number is negative or too large for its type in C.

    Notes
    -----
    Each call counts from slot 0 on, whatever `start` is: O(stop + q + d + r) look-ups for q quanta and d decisions
    before slot `stop` and r rows, and a pass over the tasks for each departure.

    The lag is that of Baruah, Cohen, Plaxton and Varvel, from the joining slot on, without late releases: the fluid
    share less the quanta received.
    """
    return _range(self, "pfair_lags", LAG, start, stop)


def members(self: Dispatcher) -> Rows:
    """Returns the members after the planned slots.

    Returns
    -------
    ndarray of dtype MEMBER
        In the order of admission, a row for each task that was admitted and isn't freed at the boundary of the last
        planned slot, as it is after that slot's table, with its lag then, in any run and after any `forget`.

    Raises
    ------
    Spent
        If an allocation failed in a plan, until `reopen`.

    Notes
    -----
    O(r + l) for r rows and l late releases that were accepted of these tasks.
    """
    answer, rows = _rows(self, "pfair_members", MEMBER)
    check(answer)
    return rows


def state(self: Dispatcher) -> bytes:
    """Returns the state in which the run began, as text: after `next_run`, what the run before has left.

    Two dispatchers whose runs began alike have the same bytes. They differ if the runs before did.

    Returns
    -------
    bytes
        Lines of less than 256 bytes each; docs/SPECIFICATION.md, "A state as rows", has the form.

    Notes
    -----
    O(b) for b bytes.
    """
    answer, text = _rows(self, "pfair_state", np.dtype("u1"))
    check(answer)
    return text.tobytes()


def table(self: Dispatcher, slot: int) -> list[tuple[str, int]]:
    """Returns the table of a slot: the task and the subtask of each row, in PD2 order.

    Parameters
    ----------
    slot : int
        From 0.

    Returns
    -------
    list of tuple of (str, int)
        At most as many rows as there are processors.

    Raises
    ------
    NotPlanned
        If the slot isn't planned, or is forgotten.
    OutOfRange
        If the number is negative or too large for its type in C.

    Notes
    -----
    O(r) for r rows.
    """
    return [(row["task"].decode(), int(row["index"])) for row in self.quanta(slot, slot + 1)]


def places(self: Dispatcher, slot: int) -> list[int]:
    """Returns the processor that runs each row of a slot's table.

    Parameters
    ----------
    slot : int
        From 0.

    Returns
    -------
    list of int
        Processors from 0, in the order of `table`.

    Raises
    ------
    NotPlanned, OutOfRange
        As `table`.

    Notes
    -----
    O(r) for r rows.
    """
    return [int(place) for place in self.quanta(slot, slot + 1)["place"]]
