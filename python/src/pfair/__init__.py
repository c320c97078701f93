"""The Pfair executive for Python: windows of subtasks, dispatchers, schedules, and sets of tasks to study.

It computes schedules by the PD2 order of Anderson and Srinivasan over the Pfair model of Baruah, Cohen, Plaxton and
Varvel; it does not execute tasks. What plans is a library in C whose every call is proved to meet its contract. Times
are in slots, and each quantum is one slot of one processor.

Slots and counts are whole numbers, as `operator.index` takes them: any other type raises TypeError. Refusals by the
library are exceptions below `PfairError`: `number` is the library's answer, and `found` says where, by names. The
module `errors` has them all.
"""
from . import errors as errors
from . import study as study
from ._check import Violation, check
from ._contents import Faults
from ._cycle import NoCycle
from ._digest import NotHeld
from ._dispatcher import Dispatcher
from ._entries import Entry, Script, arrive, depart, late, promise, rows_of
from .errors import (
    BY_NUMBER, BadDelay, BadIndex, CannotCarry, CostOverPeriod, EntryRefused, FileTooLong, KeyMissing, KeyOutOfRange,
    KeyWrongKind, NameBadByte, NameEmpty, NameTooLong, NoStateRow, NoSuchNumber, NoSuchProcessor, NotOpen, NotPlanned,
    NotToml, OtherShape, OutOfMemory, OutOfRange, PastLastSlot, PeriodTooLong, PfairError, PickPastHorizon,
    PicksNotRising, SlotTooFar, Spent, Stalled, StampBeforeFloor, StateRefused, TaskFileError, Torn, Unfinished,
    UnknownVersion, ZeroCost,
)
from ._first_miss import Miss, first_late, first_miss
from ._library import DECISION, ENTRY, LAG, MEMBER, OUTCOMES, QUANTUM, WINDOW
from ._plans import Planned
from ._schedule import Counts, Schedule, schedule
from ._state import State, StateMember
from ._succeed import CannotSucceed, Succession, succeed
from ._take import TakenCounts
from ._task_file import read_task_file
from ._version import VERSION as __version__
from ._windows import windows

__all__ = [
    "BY_NUMBER", "DECISION", "ENTRY", "LAG", "MEMBER", "OUTCOMES", "QUANTUM", "WINDOW", "Counts", "Dispatcher", "Entry",
    "Faults", "Miss", "Planned", "Schedule", "Script", "State", "StateMember", "Succession", "TakenCounts", "Violation",
    "arrive", "check", "depart", "errors", "first_late", "first_miss", "late", "promise", "read_task_file", "rows_of",
    "schedule", "study", "succeed", "windows",
    "BadDelay", "BadIndex", "CannotCarry", "CannotSucceed", "CostOverPeriod", "EntryRefused", "FileTooLong",
    "KeyMissing", "KeyOutOfRange", "KeyWrongKind", "NameBadByte", "NameEmpty", "NameTooLong", "NoCycle", "NoStateRow",
    "NoSuchNumber", "NoSuchProcessor", "NotHeld", "NotOpen", "NotPlanned", "NotToml", "OtherShape", "OutOfMemory",
    "OutOfRange", "PastLastSlot", "PeriodTooLong", "PfairError", "PickPastHorizon", "PicksNotRising", "SlotTooFar",
    "Spent", "Stalled", "StampBeforeFloor", "StateRefused", "TaskFileError", "Torn", "Unfinished", "UnknownVersion",
    "ZeroCost",
]
