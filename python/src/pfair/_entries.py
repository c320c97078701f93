"""Entries of logs, and scripts: the settings of a run with the logs of all its processors."""
from __future__ import annotations

import re
from dataclasses import dataclass, field
from typing import TYPE_CHECKING, Any, Callable, Literal, Optional, Sequence, Union

import numpy as np
import numpy.typing as npt

from . import errors
from ._library import ENTRY
from ._numbers import whole

if TYPE_CHECKING:
    from ._schedule import Schedule

Rows = npt.NDArray[np.void]
Kind = Literal["arrive", "depart", "late"]
KINDS: tuple[Optional[Kind], ...] = (None, "arrive", "depart", "late")
_NUMBERS = ("floor", "at", "cost", "period", "early", "index", "by")
_LAST_SLOT, _LONGEST_PERIOD, _LAST_INDEX, _LONGEST_DELAY = 1_000_000, 1_000_000_000, 1_000_000, 1_048_576


@dataclass(frozen=True)
class Entry:
    """An entry of a processor's log, with the keys of a task file.

    Nothing is checked until a dispatcher takes it; fields that its kind doesn't need are ignored there. `arrive`,
    `depart`, `late` and `promise` make entries and check them at once.

    Attributes
    ----------
    floor : int
        A slot, 0 to 1,000,000: from this entry on nothing in its log is stamped before it.
    kind : str or None
        What is announced: "arrive", "depart", "late", or None for nothing.
    at : int
        The stamp, `floor` to 1,000,000: the slot at whose boundary the announcement is decided.
    name : str
        The task: 1 to 16 bytes, a letter a-z, then letters a-z, digits and underscores.
    cost, period : int
        For an arrival, the weight: `cost` quanta in each `period` slots, 1 <= cost <= period <= 1,000,000,000.
    early : bool
        For an arrival: a subtask may run before its release, as soon as the one before it in the same job has run.
    index : int
        For a late release, the first subtask that is late, 1 to 1,000,000.
    by : int
        For a late release, the delay in slots, 1 to 1,048,576.
    """

    floor: int = 0
    kind: Optional[Kind] = None
    at: int = 0
    name: str = ""
    cost: int = 0
    period: int = 0
    early: bool = False
    index: int = 0
    by: int = 0


def arrive(name: str, cost: int, period: int, *, at: int = 0, floor: int = 0, early: bool = False) -> Entry:
    """Returns an entry that announces the arrival of a task.

    Parameters
    ----------
    name : str
        The task: 1 to 16 bytes, a letter a-z, then letters a-z, digits and underscores.
    cost, period : int
        Its weight: `cost` quanta in each `period` slots, 1 <= cost <= period <= 1,000,000,000.
    at : int
        The slot in which it joins, if it is admitted: `floor` to 1,000,000.
    floor : int
        The entry's floor, a slot, 0 to 1,000,000.
    early : bool
        Whether a subtask may run before its release, as soon as the one before it in the same job has run (ERfair).

    Returns
    -------
    Entry

    Raises
    ------
    NameEmpty, NameTooLong, NameBadByte, ZeroCost, CostOverPeriod, PeriodTooLong, SlotTooFar, StampBeforeFloor
        If a field is out of its range; the text names it.
    OutOfRange
        If a number is negative or at least 2**64.
    TypeError
        If `name` isn't a str, or a number isn't whole.
    """
    return _made("arrive", name, at=at, floor=floor, cost=cost, period=period, early=early)


def depart(name: str, *, at: int, floor: int = 0) -> Entry:
    """Returns an entry that announces the departure of a task.

    Parameters
    ----------
    name : str
        The task, as in `arrive`.
    at : int
        The slot from which on it gets no quantum: `floor` to 1,000,000.
    floor : int
        The entry's floor, a slot, 0 to 1,000,000.

    Returns
    -------
    Entry

    Raises
    ------
    PfairError, TypeError
        As `arrive`.
    """
    return _made("depart", name, at=at, floor=floor)


def late(name: str, index: int, by: int, *, at: int, floor: int = 0) -> Entry:
    """Returns an entry that announces a late release (an intra-sporadic task).

    Parameters
    ----------
    name : str
        The task, as in `arrive`.
    index : int
        The first subtask that is late, 1 to 1,000,000; all later ones are too.
    by : int
        The delay in slots, 1 to 1,048,576.
    at : int
        The slot at whose boundary it is decided: `floor` to 1,000,000.
    floor : int
        The entry's floor, a slot, 0 to 1,000,000.

    Returns
    -------
    Entry

    Raises
    ------
    BadIndex, BadDelay
        If the subtask or the delay is out of its range; the text names it.
    PfairError, TypeError
        As `arrive`.
    """
    return _made("late", name, at=at, floor=floor, index=index, by=by)


def promise(floor: int) -> Entry:
    """Returns an entry that announces nothing but its floor, so that slots below it can be settled.

    Parameters
    ----------
    floor : int
        The slot before which nothing that follows in the log is stamped, 0 to 1,000,000.

    Returns
    -------
    Entry

    Raises
    ------
    SlotTooFar, OutOfRange, TypeError
        As `arrive`.
    """
    return _made(None, "", floor=floor)


# what can be wrong with an entry, in the order in which the library looks: of which kinds, by which fields, and whether
_Fault = tuple[type[errors.PfairError], tuple[Optional[Kind], ...], tuple[str, ...], Callable[[Entry], bool]]
_NAMED = KINDS[1:]
_FAULTS: tuple[_Fault, ...] = (
    (errors.NameEmpty, _NAMED, ("name",), lambda entry: not entry.name),
    (errors.NameTooLong, _NAMED, ("name",), lambda entry: len(entry.name.encode(errors="surrogatepass")) > 16),
    (errors.NameBadByte, _NAMED, ("name",), lambda entry: not re.fullmatch("[a-z][a-z0-9_]*", entry.name)),
    (errors.ZeroCost, ("arrive",), ("cost",), lambda entry: entry.cost == 0),
    (errors.CostOverPeriod, ("arrive",), ("cost", "period"), lambda entry: entry.cost > entry.period),
    (errors.PeriodTooLong, ("arrive",), ("period",), lambda entry: entry.period > _LONGEST_PERIOD),
    (errors.SlotTooFar, KINDS, ("floor",), lambda entry: entry.floor > _LAST_SLOT),
    (errors.SlotTooFar, _NAMED, ("at",), lambda entry: entry.at > _LAST_SLOT),
    (errors.StampBeforeFloor, _NAMED, ("at", "floor"), lambda entry: entry.at < entry.floor),
    (errors.BadIndex, ("late",), ("index",), lambda entry: not 1 <= entry.index <= _LAST_INDEX),
    (errors.BadDelay, ("late",), ("by",), lambda entry: not 1 <= entry.by <= _LONGEST_DELAY),
)


def _made(kind: Optional[Kind], name: str, early: Any = False, **numbers: Any) -> Entry:
    """Returns an entry that a dispatcher takes, or refuses it as that would, with the fields that are wrong."""
    if not isinstance(name, str):
        raise TypeError(f"name = {name!r} is no str")
    is_early = bool(early if isinstance(early, np.bool_) else whole(early, "early", 0, 1))
    fields = {key: whole(number, key) for key, number in numbers.items()}
    entry = Entry(kind=kind, name=name, early=is_early, **fields)
    for fault, kinds, keys, is_wrong in _FAULTS:
        if kind in kinds and is_wrong(entry):
            raise fault(f"{fault.text}: {', '.join(f'{key} = {getattr(entry, key)!r}' for key in keys)}")
    return entry


def rows_of(entries: Union[Sequence[Entry], Rows]) -> Rows:
    """Returns entries as the library reads them.

    Parameters
    ----------
    entries : sequence of Entry, or ndarray of dtype ENTRY

    Returns
    -------
    ndarray of dtype ENTRY
        A row for each entry. An array is returned as it is, or copied if its rows aren't contiguous.

    Raises
    ------
    TypeError
        If an array has another dtype or isn't one-dimensional, or a field that counts isn't a whole number.
    OutOfRange
        If a kind is unknown, or a number is negative or at least 2**64.
    NameBadByte
        If a name has a byte of zero.

    Notes
    -----
    O(n) for n entries. The other rules of entries are checked when they are taken.
    """
    if isinstance(entries, np.ndarray):
        if entries.dtype != ENTRY or entries.ndim != 1:
            told = f"an array of {entries.ndim} dimensions and the dtype {entries.dtype}"
            raise TypeError(f"{told} isn't a list of rows of the dtype ENTRY")
        return np.ascontiguousarray(entries)
    rows = np.zeros(len(entries), ENTRY)
    for row, entry in zip(rows, entries):
        if entry.kind not in KINDS:
            raise errors.OutOfRange(f"{errors.OutOfRange.text}: kind = {entry.kind!r}")
        name = entry.name.encode(errors="surrogatepass")
        if b"\0" in name:
            raise errors.NameBadByte(f"{errors.NameBadByte.text}: name = {entry.name!r}")
        row["name"], row["length"] = name[:16], len(name)
        row["kind"] = KINDS.index(entry.kind)
        for key in _NUMBERS:
            row[key] = whole(getattr(entry, key), key)
    return rows


def entry_of(row: Any) -> Entry:
    """Returns the entry of a row that the library wrote."""
    floor, at, cost, period, early, index, by = (int(row[key]) for key in _NUMBERS)
    name = bytes(row["name"]).decode()
    return Entry(floor, KINDS[row["kind"]], at, name, cost, period, bool(early), index, by)


@dataclass
class Script:
    """The settings of a run, and the log of each processor: the contents of a task file.

    Nothing is checked until the script is planned.

    Attributes
    ----------
    processors : int
        The number of processors, 1 to 64.
    frame : int
        The frame in slots, 1 to 1,000,000,000. A task is admitted only if its period divides it.
    slots : int
        The number of slots of the run, 1 to 1,000,000.
    logs : list of list of Entry
        The logs, by processors from 0; one that is left out is empty.
    """

    processors: int
    frame: int
    slots: int
    logs: list[list[Entry]] = field(default_factory=list)

    def __repr__(self) -> str:
        told = f"processors={self.processors}, frame={self.frame}, slots={self.slots}"
        return f"<Script: {told}, {sum(map(len, self.logs))} entries>"

    def log(self, processor: int) -> list[Entry]:
        """Returns the log of a processor.

        Parameters
        ----------
        processor : int
            From 0.

        Returns
        -------
        list of Entry
            The list itself, and not a copy; an empty one if `logs` has none for the processor.

        Raises
        ------
        OutOfRange
            If the processor is negative.
        """
        return self.logs[processor] if whole(processor, "processor") < len(self.logs) else []

    def closed(self, processor: int) -> list[Entry]:
        """Returns the log of a processor, closed as the reader of task files does it.

        Parameters
        ----------
        processor : int
            From 0.

        Returns
        -------
        list of Entry
            The log, with `promise(slots)` behind it if it is empty or its last floor is below `slots`.
        """
        log = self.log(processor)
        return [*log] if log and log[-1].floor >= self.slots else [*log, Entry(self.slots)]

    def cycle(self) -> Schedule:
        """Plans one cycle of a static schedule: of tasks that all arrive at slot 0 and never change.

        The cycle has H slots: the hyperperiod, the least common multiple of the periods of the tasks that are admitted.
        In slot t + k H the tasks of slot t run, each with its index raised by k times its quanta in a cycle, which are
        H * cost / period. This script's own number of slots doesn't matter.

        Returns
        -------
        Schedule
            All slots of a copy of this script that has H slots. Each cycle has the same table of tasks. The places are
            those of the first one, and a valid assignment for each: at the border between two cycles a task that runs
            on may change its processor, though the executive would have kept it there.

        Raises
        ------
        NoCycle
            If anything else than an arrival at slot 0 is announced, or H is over 1,000,000.
        PfairError
            As `Schedule`, for H slots.

        Notes
        -----
        The cost of `Schedule` for H slots.
        """
        from ._cycle import cycle_of

        return cycle_of(self)

    def text(self) -> str:
        """Returns the script as a task file.

        Returns
        -------
        str
            TOML, in version 2 of the format. Its reader checks it, and closes the logs.

        Raises
        ------
        KeyError
            If an entry's kind is unknown.
        """
        lines = ["version = 2", f"processors = {self.processors}", f"frame = {self.frame}", f"slots = {self.slots}"]
        lines.append("entry = [")
        for processor, log in enumerate(self.logs):
            lines += [f"    {{ {_fields(processor, entry)} }}," for entry in log]
        return "\n".join([*lines, "]", ""])


# the keys of an entry in a task file, by its kind
_FIELDS = {None: (), "arrive": ("cost", "period"), "depart": (), "late": ("index", "by")}


def _fields(processor: int, entry: Entry) -> str:
    told = [f"processor = {processor}", f"floor = {entry.floor}"]
    if entry.kind:
        told += [f'kind = "{entry.kind}"', f"at = {entry.at}", f'name = "{entry.name}"']
    told += [f"{key} = {getattr(entry, key)}" for key in _FIELDS[entry.kind]]
    if entry.early:
        told.append("early = true")
    return ", ".join(told)
