"""An exception for each answer by which a call is refused."""
from __future__ import annotations


class PfairError(Exception):
    """A call was refused.

    Attributes
    ----------
    number : int
        The answer of the C library, a number of docs/SPECIFICATION.md; 0 for a class of several.
    text : str
        What is wrong, without where. An exception's own text goes on with that.
    found : dict of str to int
        Where, by names: those that the class says.
    """

    number: int = 0
    text: str = ""

    def __init__(self, text: str = "", **found: int) -> None:
        super().__init__(text)
        self.found = found

    def __init_subclass__(cls, found: str = "") -> None:
        """Makes the text the class's documentation, with what `found` says: docstrings go if Python runs with -OO."""
        super().__init_subclass__()
        cls.__doc__ = f"{cls.text}: found has {found}" if found else cls.text


class NameEmpty(PfairError, ValueError):
    number = 1
    text = "a name of no bytes"


class NameTooLong(PfairError, ValueError):
    number = 2
    text = "a name of more than 16 bytes"


class NameBadByte(PfairError, ValueError):
    number = 3
    text = "a name is a letter a-z, then letters a-z, digits and underscores"


class ZeroCost(PfairError, ValueError):
    number = 4
    text = "a weight of cost 0"


class CostOverPeriod(PfairError, ValueError):
    number = 5
    text = "a weight of more than a whole processor"


class PeriodTooLong(PfairError, ValueError):
    number = 6
    text = "a period of more than 1,000,000,000 slots"


class StampBeforeFloor(PfairError, ValueError):
    number = 7
    text = "an announcement stamped before its entry's floor"


class SlotTooFar(PfairError, ValueError):
    number = 8
    text = "a floor or a stamp past slot 1,000,000"


class BadDelay(PfairError, ValueError):
    number = 9
    text = "a late release by 0 slots, or by more than 1,048,576"


class BadIndex(PfairError, ValueError):
    number = 10
    text = "a late release of subtask 0, or of one past 1,000,000"


class NoSuchProcessor(PfairError, ValueError):
    number = 13
    text = "the dispatcher has no such processor"


class NoSuchNumber(PfairError, ValueError):
    number = 14
    text = "an entry's number is 0 or past the capacity"


class OtherShape(PfairError, ValueError):
    number = 15
    text = "two dispatchers with different numbers of processors, or different capacities"


class Torn(PfairError, found='"processor" and "number", if the call names one'):
    number = 30
    text = "two different entries were taken for one number"


class Spent(PfairError):
    number = 31
    text = "the dispatcher is spent: an allocation failed in a plan, and reopen helps"


class Unfinished(PfairError):
    number = 32
    text = "not all slots of the run are planned"


class PastLastSlot(PfairError):
    number = 33
    text = "the next run would end after slot 824,633,720,832, counted over all runs"


class CannotCarry(PfairError):
    number = 34
    text = "a member can't be taken into a next run"


class PicksNotRising(PfairError, ValueError, found='"place", its place from 0'):
    number = 40
    text = "a slot of a list isn't after the one before it"


class PickPastHorizon(PfairError, ValueError, found='"place", its place from 0'):
    number = 41
    text = "a slot of a list isn't before the horizon"


class Stalled(PfairError, found="\"frontier\", the first slot that isn't settled"):
    number = 52
    text = "the logs settle fewer slots than are wanted"


class TaskFileError(PfairError, ValueError):
    text = "a task file is refused"


class NotToml(TaskFileError):
    number = 60
    text = "a task file is no TOML document"


class KeyMissing(TaskFileError, found="\"place\", its table in the file, from 1, or 0 for the file's own keys"):
    number = 61
    text = "a key is missing"


class KeyWrongKind(TaskFileError, found='"place", as KeyMissing'):
    number = 62
    text = "the value of a key is of the wrong type"


class KeyOutOfRange(TaskFileError, found='"place", as KeyMissing'):
    number = 63
    text = "the value of a key is out of its range"


class EntryRefused(TaskFileError, found='"processor", "number", and "cause", the number of what is wrong with it'):
    number = 64
    text = "each key of a table is valid, but together they make no entry"


class UnknownVersion(TaskFileError):
    number = 65
    text = "the file's version is neither 1 nor 2"


class FileTooLong(TaskFileError):
    number = 66
    text = "a task file of more than 67,108,864 bytes"


class NoStateRow(PfairError, ValueError, found='"line", from 1'):
    number = 68
    text = "a line is no row of a state, or not in its place"


class StateRefused(PfairError, ValueError, found='"line", from 1, and "cause", its number in C'):
    number = 69
    text = "a row of a state says what no state has"


class OutOfMemory(PfairError, MemoryError):
    number = 90
    text = "an allocation failed"


class OutOfRange(PfairError, ValueError):
    number = 100
    text = "a number is out of its range"


class NotOpen(PfairError):
    number = 102
    text = "the dispatcher is closed"


class NotPlanned(PfairError):
    number = 104
    text = "the slot isn't planned, or is forgotten"


#: The exceptions by the answers of the C library. Its answers 101 (a handle is opened twice) and 103 (too few rows are
#: offered) don't leave this package.
BY_NUMBER: dict[int, type[PfairError]] = {
    kind.number: kind
    for kind in (
        NameEmpty, NameTooLong, NameBadByte, ZeroCost, CostOverPeriod, PeriodTooLong, StampBeforeFloor, SlotTooFar,
        BadDelay, BadIndex, NoSuchProcessor, NoSuchNumber, OtherShape, Torn, Spent, Unfinished, PastLastSlot,
        CannotCarry, PicksNotRising, PickPastHorizon, Stalled, NotToml, KeyMissing, KeyWrongKind, KeyOutOfRange,
        EntryRefused, UnknownVersion, FileTooLong, NoStateRow, StateRefused, OutOfMemory, OutOfRange, NotOpen,
        NotPlanned,
    )
}


def check(answer: int, where: str = "", **found: int) -> None:
    """Raises the exception of an answer of the C library, unless that is 0."""
    if answer:
        kind = BY_NUMBER[answer]
        raise kind(f"{kind.text}: {where}" if where else kind.text, **found)
