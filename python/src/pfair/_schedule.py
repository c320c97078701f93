"""The schedule of a script: all its slots, planned by one dispatcher."""
from __future__ import annotations

import functools
import os
from typing import TYPE_CHECKING, Any, Iterator, Literal, NamedTuple, Optional, TextIO, Union, overload

import numpy as np
import numpy.typing as npt

from . import picture as pictures
from ._dispatcher import Dispatcher
from ._entries import Entry, Rows, Script
from .errors import Stalled, check
from ._figure import MOST_SLOTS
from ._names import numbered
from ._numbers import whole
from ._source import ScheduleSource
from ._task_file import read_task_file
from ._trace import check as check_trace
from ._trace import write_trace

if TYPE_CHECKING:
    from matplotlib.figure import Figure
    from pandas import DataFrame

Picture = Literal["schedule", "lags"]
# slots of a picture whose windows can be told apart
_SHOWN = 400
# lags of a piece: what one call returns
_LAGS_AT_ONCE = 1 << 21


class Counts(NamedTuple):
    """The counts of a schedule.

    Attributes
    ----------
    arrivals : int
        The arrivals that were decided.
    refused : int
        Those of them that were refused.
    quanta : int
        The quanta of all slots.
    preemptions : int
        The quanta of a job, except its first, that come after a gap.
    moves : int
        The quanta that run on another processor than the task's one before. A name that joins again is another task.
    behind : int
        The lags, of a task after a slot, that are 1 or more. Late releases aren't taken into account.
    """

    arrivals: int
    refused: int
    quanta: int
    preemptions: int
    moves: int
    behind: int


class Schedule:
    """Plans all slots of a script, and keeps what was planned.

    Parameters
    ----------
    script : Script
        Logs past its number of processors are ignored. It isn't to be changed as long as the schedule is used.

    Attributes
    ----------
    script : Script
        The one that was given.
    quanta : ndarray of dtype QUANTUM
        Slot by slot, in PD2 order; see `Dispatcher.quanta`.
    decisions : ndarray of dtype DECISION
        Slot by slot, in the order of processors and numbers; see `Dispatcher.decisions`.

    Raises
    ------
    Stalled
        If the logs settle fewer slots than the script has, since floors fall in one: found["frontier"] is the first
        slot that isn't settled.
    PfairError
        As `Dispatcher.take_log`, for the first entry that is refused.
    OutOfRange
        If the number of processors, the frame or the number of slots is out of its range, or a closed log has more than
        4,096 entries.
    OutOfMemory
        If an allocation fails.

    Notes
    -----
    The cost of taking the logs and of planning the slots; see `Dispatcher.take` and `Dispatcher.plan`. A schedule can
    be pickled, and so a pool of processes can return it. The lags aren't sent with it: the first call that needs them
    plans the script once more.
    """

    def __init__(self, script: Script) -> None:
        self.script = script
        self.quanta: Rows = self._dispatcher.quanta()
        self.decisions: Rows = self._dispatcher.decisions()

    @functools.cached_property
    def _dispatcher(self) -> Dispatcher:
        """The dispatcher that planned the script."""
        dispatcher = opened(self.script)
        plan_to(dispatcher, self.script.slots)
        return dispatcher

    def __getstate__(self) -> dict[str, Any]:
        return {name: value for name, value in vars(self).items() if name != "_dispatcher"}

    def __repr__(self) -> str:
        script = self.script
        told = f"processors={script.processors}, frame={script.frame}, slots={script.slots}"
        return f"<Schedule: {told}, {len(self.quanta)} quanta>"

    def lags(self, start: int = 0, stop: Optional[int] = None) -> Rows:
        """Returns the lags after each of slots `start` to `stop - 1`.

        Parameters
        ----------
        start : int
            The first slot, from 0.
        stop : int, optional
            The slot behind the last one; by default the number of slots.

        Returns
        -------
        ndarray of dtype LAG
            As `Dispatcher.lags`, which has the order and the cost.

        Raises
        ------
        NotPlanned
            If `stop` is past the script's slots.
        OutOfMemory
            If an allocation fails.
        OutOfRange
            If a number is negative or too large for its type in C.
        """
        return self._dispatcher.lags(start, stop)

    def counts(self) -> Counts:
        """Counts arrivals, quanta, preemptions, moves, and lags of 1 or more.

        Returns
        -------
        Counts

        Raises
        ------
        OutOfMemory
            If an allocation fails.

        Notes
        -----
        O(d + (q + a) log(q + a)) for d decisions, a of which admit, and q quanta, and the cost of `lags` for each piece
        of at most 2,097,152 lags.
        """
        keys = (self.decisions[name].tolist() for name in ("processor", "number", "outcome"))
        decided = [(self._entry(processor, number), outcome) for processor, number, outcome in zip(*keys)]
        arrivals = sum(entry.kind == "arrive" for entry, _ in decided)
        costs = np.array([entry.cost for entry, outcome in decided if outcome == 0], np.uint64)
        rows, incarnations = self.quanta, self._incarnations()
        order = np.lexsort((rows["slot"], incarnations))
        rows, incarnations = rows[order], incarnations[order]
        same = incarnations[1:] == incarnations[:-1]
        after_a_gap = rows["slot"][1:] - rows["slot"][:-1] > 1
        in_a_job = (rows["index"][1:] - 1) % costs[incarnations[1:]] != 0 if len(rows) else same
        preemptions = int((same & after_a_gap & in_a_job).sum())
        moves = int((same & (rows["place"][1:] != rows["place"][:-1])).sum())
        return Counts(arrivals, arrivals - len(costs), len(rows), preemptions, moves, self._behind())

    def _behind(self) -> int:
        return sum(int((rows["numerator"] >= rows["period"].astype(np.int64)).sum()) for rows in self._lags_by_pieces())

    def _lags_by_pieces(self, first: int = 0) -> Iterator[Rows]:
        admitted = int((self.decisions["outcome"] == 0).sum())
        step = max(1, _LAGS_AT_ONCE // max(1, admitted))
        slots = self.script.slots
        return (self.lags(start, min(start + step, slots)) for start in range(first, slots, step))

    def _entry(self, processor: int, number: int) -> Entry:
        return self.script.log(processor)[number - 1]

    def _incarnations(self) -> npt.NDArray[np.int64]:
        """Returns the admitted arrival of each quantum, from 0: the last one of its name up to its slot."""
        admitted = self.decisions[self.decisions["outcome"] == 0]
        codes, _ = numbered(np.concatenate([admitted["task"], self.quanta["task"]]))
        slots = np.concatenate([admitted["slot"], self.quanta["slot"]])
        # by names and slots, and of those that are equal the arrival first
        order = np.lexsort((slots, codes))
        last = np.maximum.accumulate(np.where(order < len(admitted), np.arange(len(order)), 0))
        found = np.empty(len(order), np.int64)
        found[order] = order[last]
        return found[len(admitted) :]

    def write_trace(
        self, out: Union[TextIO, str, os.PathLike[str]], format: Literal["json", "vcd"] = "json", slot: float = 1.0
    ) -> None:
        """Writes a trace of the schedule for a viewer.

        Parameters
        ----------
        out : text file, str or os.PathLike
            A file that is written to and stays open, or the path of one that is written anew.
        format : {"json", "vcd"}
            "json", the Trace Event Format of Perfetto and chrome://tracing, or "vcd", a value change dump for GTKWave.
        slot : float
            The length of a slot in the trace, 0.001 to 1,000,000 milliseconds.

        Raises
        ------
        ValueError
            If the format is unknown or the length out of its range; nothing is written.
        OSError
            If the file can't be written.
        OutOfMemory
            If an allocation fails for the lags of "json"; the beginning of the trace is written.

        Notes
        -----
        "json" has decisions, quanta and lags, and reads the lags at the cost that `counts` has for them. "vcd" has
        quanta alone.
        """
        check_trace(format, slot)
        if isinstance(out, (str, os.PathLike)):
            with open(out, "w", encoding="ascii") as file:
                write_trace(ScheduleSource(self), format, slot, file)
        else:
            write_trace(ScheduleSource(self), format, slot, out)

    def svg(
        self,
        start: int = 0,
        stop: Optional[int] = None,
        picture: Picture = "schedule",
        *,
        title: Optional[str] = None,
        legend: bool = True,
    ) -> str:
        """Returns a picture of slots `start` to `stop - 1`.

        Parameters
        ----------
        start : int
            The first slot, from 0.
        stop : int, optional
            The slot behind the last one, at most 4,096 behind `start`; by default the number of slots.
        picture : {"schedule", "lags"}
            Which picture.
        title : str, optional
            The title; by default "Schedule" or "Lags", and a line with the processors, the frame and the slots. No
            title, and no room for one, if it is empty.
        legend : bool
            Whether the picture explains its signs.

        Returns
        -------
        str
            An SVG document.

        Raises
        ------
        ValueError
            If there is no such picture.
        OutOfRange
            If there is no slot to show, or more than 4,096, or a number is negative.
        NotPlanned
            If `stop` is past the script's slots.
        OutOfMemory
            If an allocation fails for "lags".
        """
        if picture not in pictures.PICTURES:
            raise ValueError(f"no such picture: {picture}, and not {' or '.join(pictures.PICTURES)}")
        first, behind = whole(start, "start"), self.script.slots if stop is None else whole(stop, "stop")
        shown = f"slots {first} to {behind - 1}: a picture has 1 to {MOST_SLOTS:,} slots, by start and stop"
        check(100 if first >= behind or behind - first > MOST_SLOTS else 0, shown)
        check(104 if behind > self.script.slots else 0, f"slot {behind - 1}")
        return pictures.svg(ScheduleSource(self), picture, first, behind, title, legend)

    def _repr_svg_(self) -> str:
        """Returns the picture that a notebook shows: of the first 400 slots, whose windows can be told apart."""
        return self.svg(0, min(self.script.slots, _SHOWN))

    def plot(
        self,
        start: int = 0,
        stop: Optional[int] = None,
        picture: Picture = "schedule",
        width: float = 7.0,
        *,
        title: Optional[str] = None,
        legend: bool = True,
    ) -> Figure:
        """Draws the picture of `svg` by Matplotlib, for a paper.

        Parameters
        ----------
        start, stop, picture, title, legend
            As in `svg`.
        width : float
            The width in inches.

        Returns
        -------
        matplotlib.figure.Figure
            `plot().savefig("schedule.pdf")` writes vectors.

        Raises
        ------
        ImportError
            If Matplotlib isn't installed.
        ValueError, OutOfRange, NotPlanned, OutOfMemory
            As `svg`.
        """
        from ._plot import Plot

        return Plot(self.svg(start, stop, picture, title=title, legend=legend), width).figure

    @overload
    def to_pandas(self, lags: Literal[False] = False) -> tuple[DataFrame, DataFrame]: ...

    @overload
    def to_pandas(self, lags: Literal[True]) -> tuple[DataFrame, DataFrame, DataFrame]: ...

    def to_pandas(self, lags: bool = False) -> tuple[DataFrame, ...]:
        """Returns the quanta and the decisions as data frames, and the lags if they are asked for.

        Parameters
        ----------
        lags : bool
            Whether to return the lags too: a row for each member and slot.

        Returns
        -------
        tuple of pandas.DataFrame
            The quanta, the decisions and maybe the lags, each with the columns of its dtype, `task` first. Tasks are
            categories in the order of their names, outcomes categories by the words of OUTCOMES, and all other columns
            int64.

        Raises
        ------
        ImportError
            If pandas isn't installed.
        OutOfMemory
            If an allocation fails for the lags.
        """
        from ._frames import frame_of

        return tuple(map(frame_of, (self.quanta, self.decisions, *([self.lags()] if lags else ()))))


def opened(script: Script) -> Dispatcher:
    """Returns a dispatcher that has taken the closed logs of a script, and planned nothing."""
    logs = [script.closed(processor) for processor in range(script.processors)]
    dispatcher = Dispatcher(script.processors, script.frame, script.slots, max(map(len, logs), default=1))
    for processor, log in enumerate(logs):
        dispatcher.take_log(processor, log)
    return dispatcher


def plan_to(dispatcher: Dispatcher, slots: int) -> None:
    """Plans so many slots, all of which are to be settled."""
    planned = dispatcher.plan(slots)
    if planned.kind == "waiting":
        raise Stalled(f"{Stalled.text}: slot {planned.slot}", frontier=planned.slot)


def schedule(given: Union[Script, str, "os.PathLike[str]", bytes]) -> Schedule:
    """Plans all slots of a script or of a task file.

    Parameters
    ----------
    given : Script, str, os.PathLike or bytes
        A script, or a task file by its path or its contents as bytes.

    Returns
    -------
    Schedule

    Raises
    ------
    TaskFileError, OSError
        As `read_task_file`.
    PfairError
        As `Schedule`.
    """
    return Schedule(given if isinstance(given, Script) else read_task_file(given))
