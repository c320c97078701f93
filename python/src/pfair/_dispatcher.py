"""Dispatchers: they take entries and plan slots."""
from __future__ import annotations

import ctypes as c
import threading
from contextlib import ExitStack
from types import TracebackType
from typing import Any, Optional, TypeVar, Union

from . import _contents, _digest, _planned, _plans, _take
from .errors import NotOpen, check
from ._library import FileFault, Handle, OUTCOMES, Settings, StateFault, library
from ._numbers import whole

Own = TypeVar("Own", bound="Dispatcher")
# in bytes: the library refuses a longer task file
LONGEST_FILE = 67_108_864
# the fields of a file's fault that are set, by the answer
_WHERE = {61: ("place",), 62: ("place",), 63: ("place",), 64: ("processor", "number", "cause")}
_KEYS = (
    "", "version", "processors", "frame", "slots", "entry", "processor", "floor", "kind", "at", "name", "cost",
    "period", "early", "index", "by",
)
# why a row of a state is refused, by the cause of the fault
_CAUSES = {0: "", 1: ": another form", 2: ": out of range", 3: ": not left by a run", 4: ": no such quantum"}
_CAUSES |= {5: ": rows are missing", **{number: f": {text}" for number, text in OUTCOMES.items() if number >= 20}}


class Dispatcher:
    """Takes entries of the processors' logs, in any order, and plans the slots that they settle.

    Each processor has a log of entries, numbered from 1. An entry has a floor, below which neither it nor a later one
    is stamped, and at most one announcement. A slot is settled once the entries of each log have come, without a gap,
    up to a floor above it. A number of a log is torn if two different entries came under it: nothing more is planned
    then. A dispatcher is spent if an allocation failed in a plan, until `reopen`.

    Parameters
    ----------
    processors : int
        The number of processors, 1 to 64.
    frame : int
        The frame in slots, 1 to 1,000,000,000. The period of each admitted task divides it.
    slots : int
        The number of slots to plan, 1 to 1,000,000.
    capacity : int
        The most entries of a log, 1 to 4,096.

    Raises
    ------
    OutOfRange
        If a parameter is out of its range.
    OutOfMemory
        If an allocation fails.

    Notes
    -----
    Threads may share a dispatcher: a lock makes its calls run one after another. It is freed by `close`, at the end of
    a `with` block, or with its last reference. It can't be copied or pickled (TypeError).

    Once it is closed, calls and properties raise `NotOpen`, except `close`, and `absorb` and `is_below` with itself. A
    call that raises has changed nothing, unless its description says otherwise. After `Torn`, `Spent` or `OutOfMemory`
    a dispatcher still takes entries, and returns its contents and what was planned.
    """

    def __init__(self, processors: int, frame: int, slots: int, capacity: int = 4096) -> None:
        sizes = whole(processors, "processors", 1, 64), whole(frame, "frame", 1, 1_000_000_000)
        lengths = whole(slots, "slots", 1, 1_000_000), whole(capacity, "capacity", 1, 4_096)
        self._begin()
        self._call("pfair_open", *sizes, *lengths)

    @classmethod
    def of_file(cls: type[Own], text: Union[bytes, bytearray, memoryview]) -> Own:
        """Makes a dispatcher with the settings and the entries of a task file, and plans nothing.

        Each log that is empty, or whose last floor is below the number of slots, gets a closing entry whose floor is
        that number. The capacity is the length of the longest log.

        Parameters
        ----------
        text : bytes, bytearray, memoryview or another buffer
            The contents of the file, at most 67,108,864 bytes.

        Returns
        -------
        Dispatcher
            With every entry taken.

        Raises
        ------
        TaskFileError
            One of its subclasses, for the first fault of the file.
        OutOfMemory
            If an allocation fails.
        TypeError
            If `text` is no buffer.

        Notes
        -----
        O(b) for b bytes, and for each entry the cost of `take`.
        """
        content = _bytes_of(text)
        made, fault = cls.__new__(cls), FileFault()
        made._begin()
        answer = made._answer("pfair_read_file", fault, content, len(content))
        found = {name: getattr(fault, name) for name in _WHERE.get(answer, ())}
        where = f"{_KEYS[fault.field]} at {fault.place}" if found else ""
        if fault.cause:
            where = f"entry {fault.number} of processor {fault.processor} for {fault.cause}"
        check(answer, where, **found)
        return made

    @classmethod
    def resume(cls: type[Own], state: Union[bytes, bytearray, memoryview], slots: int, capacity: int = 4096) -> Own:
        """Makes a dispatcher for a run that begins with a state, as the run did whose `state` it is.

        No check can tell whether a run has left the state; by another one tasks may miss deadlines. So compare its
        bytes with those of another machine.

        Parameters
        ----------
        state : bytes, bytearray, memoryview or another buffer
            The text of the state, at most 67,108,864 bytes.
        slots : int
            The number of slots to plan, 1 to 1,000,000.
        capacity : int
            The most entries of a log, 1 to 4,096.

        Returns
        -------
        Dispatcher
            With no entries and no planned slots.

        Raises
        ------
        OutOfRange
            If a number is out of its range.
        FileTooLong
            If the text is too long.
        NoStateRow
            If a line is no row of a state, or not in its place.
        StateRefused
            If a row says what no state has.
        PastLastSlot
            If the run would end after slot 824,633,720,832, counted over all runs.
        OutOfMemory
            If an allocation fails.
        TypeError
            If `state` is no buffer.

        Notes
        -----
        O(b + n log n + l log l) for b bytes, n members and l late releases that are still to come.
        """
        lengths = whole(slots, "slots", 1, 1_000_000), whole(capacity, "capacity", 1, 4_096)
        content = _bytes_of(state)
        made, fault = cls.__new__(cls), StateFault()
        made._begin()
        answer = made._answer("pfair_resume", *lengths, fault, content, len(content))
        found = {name: int(getattr(fault, name)) for name in ("line", "cause") if getattr(fault, name)}
        where = f"line {fault.line}{_CAUSES[fault.cause]}" if found else ""
        check(answer, where, **found)
        return made

    def _begin(self) -> None:
        """Makes the handle that a dispatcher is opened with, and the lock that goes with it."""
        self._handle, self._lock = Handle(False, None), threading.RLock()

    def __enter__(self: Own) -> Own:
        return self

    def __exit__(
        self, kind: Optional[type[BaseException]], value: Optional[BaseException], trace: Optional[TracebackType]
    ) -> None:
        self.close()

    def __del__(self) -> None:
        if hasattr(self, "_lock"):
            self.close()

    def __reduce__(self) -> Any:
        raise TypeError("a Dispatcher can't be copied or pickled")

    def __repr__(self) -> str:
        with self._lock:
            if not self._handle.is_open:
                return f"<{type(self).__name__}: closed>"
            sizes = self._settings()
            told = ", ".join(f"{name}={getattr(sizes, name)}" for name, _ in Settings._fields_)
            return f"<{type(self).__name__}: {told}, {self.planned} slots planned>"

    def _answer(self, name: str, *given: Any) -> int:
        """Makes a call of the library on this dispatcher, and returns its answer."""
        with self._lock:
            return int(getattr(library, name)(self._handle, *given))

    def _call(self, name: str, *given: Any, where: str = "") -> None:
        check(self._answer(name, *given), where)

    def _number(self, name: str, *given: Any, where: str = "") -> int:
        number = c.c_uint64()
        self._call(name, *given, number, where=where)
        return number.value

    def _both(self, other: Dispatcher) -> ExitStack:
        """Returns what holds the locks of both dispatchers, which any two calls take in one order."""
        if not isinstance(other, Dispatcher):
            raise TypeError(f"other = {other!r} is no Dispatcher")
        stack = ExitStack()
        for one in sorted((self, other), key=id):
            stack.enter_context(one._lock)
        return stack

    def close(self) -> None:
        """Frees the dispatcher; a second call does nothing.

        Notes
        -----
        O(e + t + r) for e entries, t tasks, and r quanta and decisions of the planned slots.
        """
        answer = self._answer("pfair_close")
        check(0 if answer == NotOpen.number else answer)

    def _settings(self) -> Settings:
        settings = Settings()
        self._call("pfair_settings", settings)
        return settings

    @property
    def processors(self) -> int:
        """The number of processors."""
        return int(self._settings().processors)

    @property
    def frame(self) -> int:
        """The frame, in slots."""
        return int(self._settings().frame)

    @property
    def slots(self) -> int:
        """The number of slots to plan."""
        return int(self._settings().slots)

    @property
    def capacity(self) -> int:
        """The most entries of a log."""
        return int(self._settings().capacity)

    # ---- calls: what they do is in the modules that have them

    take = _take.take
    take_log = _take.take_log
    absorb = _take.absorb
    is_below = _take.is_below

    held = _contents.held
    mark = _contents.mark
    missing = _contents.missing
    faults = _contents.faults
    digest = _digest.digest

    @property
    def frontier(self) -> int:
        """The frontier, the least mark of all processors: every announcement stamped below this slot is known.

        It falls if an entry of a sound beginning is torn. O(1).
        """
        return self._number("pfair_frontier")

    plan = _plans.plan
    reserve = _plans.reserve
    forget = _plans.forget
    reopen = _plans.reopen
    next_run = _plans.next_run

    @property
    def planned(self) -> int:
        """The number of planned slots, which is also the next slot to plan."""
        return self._number("pfair_next_slot")

    quanta = _planned.quanta
    decisions = _planned.decisions
    lags = _planned.lags
    members = _planned.members
    state = _planned.state
    table = _planned.table
    places = _planned.places


def _bytes_of(text: Union[bytes, bytearray, memoryview]) -> bytes:
    """Returns the contents of a buffer."""
    try:
        return text if isinstance(text, bytes) else bytes(memoryview(text))
    except TypeError:
        told = "text has to be the contents of a task file, bytes or another buffer"
        raise TypeError(f"{told}, and not a {type(text).__name__}") from None
