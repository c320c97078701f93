"""Whether a schedule that was recorded elsewhere is right: against the windows of its tasks, and the order of PD2."""
from __future__ import annotations

import os
from itertools import accumulate
from typing import Any, Iterator, Literal, NamedTuple, Optional, Union

import numpy as np
import numpy.typing as npt

from ._entries import Rows, Script
from ._first_miss import MissKind, first_miss
from ._record import Given, Numbers, Record, read_record
from ._names import numbered
from ._schedule import opened, plan_to
from ._task_file import read_task_file
from ._windows import windows

Wrong = Literal[
    "crowded", "place", "twice", "absent", "index", "early", "tardy", "unserved", "order",
]
# slots that are planned at once
_SLOTS_AT_ONCE = 1 << 16


class Violation(NamedTuple):
    """Something that is wrong in a recorded schedule.

    Attributes
    ----------
    slot : int
        The slot in which it is; for "unserved" the deadline that passed.
    kind : str
        "crowded": more quanta in the slot than processors. "place": a processor that the run doesn't have, or that runs
        two tasks. "twice": a task has two quanta in the slot. "absent": the task isn't a member then. "index": a
        subtask that isn't the next. "early", "tardy", "unserved": a subtask ran before its release, ran at its deadline
        or later, or didn't run by its deadline. "order": PD2 runs other subtasks in the slot.
    task : str
        The task, or "" for "crowded".
    subtask : int
        Its subtask, from 1; 0 if it is about none.
    text : str
        What is wrong, in words.
    """

    slot: int
    kind: Wrong
    task: str
    subtask: int
    text: str


def check(tasks: Union[Script, str, "os.PathLike[str]", bytes], rows: Given, order: bool = False) -> list[Violation]:
    """Returns what is wrong in a recorded schedule, whatever planned it.

    Parameters
    ----------
    tasks : Script, str, os.PathLike or bytes
        A script, or a task file by its path or its contents as bytes.
    rows : ndarray, pandas.DataFrame, sequence of tuple, str, bytes, os.PathLike or file
        The quanta, in any order: an array or a frame with the fields `slot` and `task`, and maybe `index` and `place`;
        tuples of these columns in this order; or a text of comma-separated values with a header that has at least
        `slot` and `task`, by its path, its contents, or opened for reading. A `str` of more than one line is such a
        text, and any other a path.
    order : bool
        Whether to compare with the executive's own plan too, up to the first slot that differs.

    Returns
    -------
    list of Violation
        By slots. Of each slot all that is wrong with the slot itself; of each incarnation of a task the first wrong
        index and the first subtask out of its window, since the next ones follow from these; and the first quantum of
        each time in which a task isn't a member. A second quantum of a task in a slot counts for "twice" alone.

    Raises
    ------
    ValueError
        If the rows can't be read; the text names the line.
    PfairError
        As `schedule`, if the tasks are refused.
    OSError
        If a file can't be read.

    Notes
    -----
    O(r log r) for r rows, and the cost of planning the tasks: the plan's decisions say which tasks are members in
    which slots, and which late releases are accepted. The k-th quantum of an incarnation is taken for its subtask k,
    and the rows for all quanta of the run: a record that ends earlier leaves subtasks unserved.
    """
    script = tasks if isinstance(tasks, Script) else read_task_file(tasks)
    record = read_record(rows)
    plan, decided = _Order(script, record) if order else None, []
    for stop, decisions, quanta in _planned(script, order):
        decided.append(decisions)
        if plan:
            plan.look(stop, quanta, decided)
    stays = _stays(script, np.concatenate(decided))
    found = [
        *_past(record, script),
        *_crowded(record, script),
        *_places(record, script),
        *_tasks(record, script, stays),
    ]
    return sorted([*found, *(plan.found if plan else ())])


def _planned(script: Script, with_quanta: bool) -> Iterator[tuple[int, Rows, Rows]]:
    """Yields the decisions of the next slots, before which slot these end, and, if wanted, their quanta."""
    with opened(script) as dispatcher:
        for start in range(0, script.slots, _SLOTS_AT_ONCE):
            stop = min(start + _SLOTS_AT_ONCE, script.slots)
            plan_to(dispatcher, stop)
            yield stop, dispatcher.decisions(start, stop), dispatcher.quanta(start, stop if with_quanta else start)
            dispatcher.forget(stop)


# ---- who is there


class _Stay(NamedTuple):
    """An incarnation of a task: from the slot in which it joins to before the one from which on it gets no quantum."""

    joined: int
    left: int
    cost: int
    period: int
    early: bool
    delays: dict[int, int]

    def windows(self, last: int) -> Rows:
        """Returns the windows of subtasks 1 to `last`."""
        starts = sorted({1, *(index for index in self.delays if index <= last)})
        thetas = accumulate((self.delays.get(index, 0) for index in starts), initial=self.joined)
        rows = [
            windows(self.cost, self.period, stop - start, start, theta)
            for start, stop, theta in zip(starts, [*starts[1:], last + 1], [*thetas][1:])
        ]
        return np.concatenate(rows)

    def window(self, index: int) -> Any:
        """Returns the window of a subtask."""
        theta = self.joined + sum(by for first, by in self.delays.items() if first <= index)
        return windows(self.cost, self.period, 1, index, theta)[0]

    def waits(self, indexes: Numbers) -> npt.NDArray[np.bool_]:
        """Returns which of these subtasks may not run before their releases."""
        if not self.early:
            return np.ones(len(indexes), np.bool_)
        starts_job: npt.NDArray[np.bool_] = (indexes - 1) % self.cost == 0
        return starts_job | np.isin(indexes, [*self.delays])

    def first_miss(self, slots: Numbers) -> Optional[tuple[MissKind, int]]:
        """Returns how the first subtask is out of its window, if one is, and which: subtasks ran in these slots."""
        if not self.early and not self.delays:
            miss = first_miss(self.cost, self.period, slots - self.joined, self.left - self.joined)
            return (miss.kind, miss.subtask) if miss else None
        own = self.windows(len(slots) + 1)
        releases, deadlines = own["release"].astype(np.int64), own["deadline"].astype(np.int64)
        early = self.waits(np.arange(1, len(slots) + 1)) & (slots < releases[:-1])
        wrong = np.flatnonzero(early | (slots >= deadlines[:-1]))
        if len(wrong):
            return "early" if early[wrong[0]] else "tardy", int(wrong[0]) + 1
        return ("unserved", len(slots) + 1) if deadlines[-1] <= self.left else None


def _stays(script: Script, decided: Rows) -> dict[str, list[_Stay]]:
    """Returns the incarnations of each task, in their order, by the executive's decisions."""
    stays: dict[str, list[_Stay]] = {}
    columns = (decided[name].tolist() for name in ("slot", "task", "processor", "number", "outcome"))
    for slot, task, processor, number, outcome in zip(*columns):
        entry, name = script.log(processor)[number - 1], task.decode()
        if outcome == 0:
            stays.setdefault(name, []).append(_Stay(slot, script.slots, entry.cost, entry.period, entry.early, {}))
        elif outcome == 1:
            stays[name][-1] = stays[name][-1]._replace(left=slot)
        elif outcome == 2:
            delays = stays[name][-1].delays
            delays[entry.index] = delays.get(entry.index, 0) + entry.by
    return stays


# ---- what is wrong


def _past(record: Record, script: Script) -> Iterator[Violation]:
    """The first quantum of each task behind the run."""
    behind = np.flatnonzero(record.slots >= script.slots)
    by_task = behind[np.lexsort((record.slots[behind], record.tasks[behind]))]
    _, first = np.unique(record.tasks[by_task], return_index=True)
    for at in by_task[first].tolist():
        text = f"the run has {script.slots} slots"
        yield Violation(int(record.slots[at]), "absent", record.names[record.tasks[at]], 0, text)


def _crowded(record: Record, script: Script) -> Iterator[Violation]:
    counts = np.bincount(record.slots[record.slots < script.slots])
    for slot in np.flatnonzero(counts > script.processors).tolist():
        yield Violation(slot, "crowded", "", 0, f"{counts[slot]} quanta on {script.processors} processors")


def _places(record: Record, script: Script) -> Iterator[Violation]:
    if record.places is None:
        return
    for at in np.flatnonzero(record.places >= script.processors).tolist():
        yield Violation(
            int(record.slots[at]),
            "place",
            record.names[record.tasks[at]],
            0,
            f"there is no processor {record.places[at]}",
        )
    inside = np.flatnonzero((record.places < script.processors) & (record.slots < script.slots))
    keys = record.slots[inside] * script.processors + record.places[inside]
    by_key = np.lexsort((keys,))
    for at in inside[by_key[1:][keys[by_key[1:]] == keys[by_key[:-1]]]].tolist():
        yield Violation(
            int(record.slots[at]),
            "place",
            record.names[record.tasks[at]],
            0,
            f"processor {record.places[at]} runs another task too",
        )


def _tasks(record: Record, script: Script, stays: dict[str, list[_Stay]]) -> Iterator[Violation]:
    """What is wrong with the quanta of each task."""
    inside = record.slots < script.slots
    # numbers of two bytes are sorted in one pass
    codes: npt.NDArray[Any] = record.tasks.astype(np.uint16 if len(record.names) <= 1 << 16 else np.int64)
    by_task = np.lexsort((record.slots, codes))
    by_task = by_task[inside[by_task]]
    codes, slots = codes[by_task], record.slots[by_task]
    indexes = None if record.indexes is None else record.indexes[by_task]
    again = np.append(False, (codes[1:] == codes[:-1]) & (slots[1:] == slots[:-1]))[: len(slots)]
    for at in np.flatnonzero(again).tolist():
        yield Violation(int(slots[at]), "twice", record.names[codes[at]], 0, "it has another quantum in this slot")
    codes, slots, indexes = codes[~again], slots[~again], None if indexes is None else indexes[~again]
    ends = dict(zip(record.names, np.searchsorted(codes, np.arange(1, len(record.names) + 1)).tolist()))
    start = 0
    for name, end in [*ends.items(), *((name, len(slots)) for name in stays if name not in ends)]:
        yield from _task(name, stays.get(name, []), slots[start:end], None if indexes is None else indexes[start:end])
        start = end


def _task(name: str, stays: list[_Stay], slots: Numbers, indexes: Optional[Numbers]) -> Iterator[Violation]:
    """What is wrong with the quanta of a task, of one incarnation after another, and of the times between them."""
    before, told = 0, ""
    for stay in stays:
        first, end = np.searchsorted(slots, (stay.joined, stay.left)).tolist()
        if first > before:
            yield Violation(int(slots[before]), "absent", name, 0, f"{told}it joins at {stay.joined}")
        yield from _stay(name, stay, slots[first:end], None if indexes is None else indexes[first:end])
        before, told = end, f"it left at {stay.left}; "
    if len(slots) > before:
        yield Violation(int(slots[before]), "absent", name, 0, told[:-2] or "no task of this name is admitted")


def _stay(name: str, stay: _Stay, slots: Numbers, indexes: Optional[Numbers]) -> Iterator[Violation]:
    if indexes is not None and len(wrong := np.flatnonzero(indexes != np.arange(1, len(slots) + 1))):
        at = int(wrong[0])
        yield Violation(int(slots[at]), "index", name, int(indexes[at]), f"subtask {at + 1} is the next")
    if miss := stay.first_miss(slots):
        kind, index = miss
        window = stay.window(index)
        slot = int(window["deadline"]) if kind == "unserved" else int(slots[index - 1])
        text = f"its release is {window['release']}" if kind == "early" else f"its deadline is {window['deadline']}"
        yield Violation(slot, kind, name, index, text)


# ---- the order


class _Order:
    """The tasks of each slot of a record, beside those of the executive's tables, up to the first slot that differs."""

    def __init__(self, script: Script, record: Record) -> None:
        self.script, self.found = script, list[Violation]()
        announced = (entry.name for log in script.logs for entry in log)
        self.names = [*dict.fromkeys([*record.names, *announced])]
        self.codes = {name.encode(): code for code, name in enumerate(self.names)}
        # a slot and a task are one number, which rises with the slot
        inside = record.slots < script.slots
        self.keys = np.unique(record.slots[inside] * len(self.names) + record.tasks[inside])
        self.seen = 0

    def look(self, stop: int, quanta: Rows, decided: list[Rows]) -> None:
        """Compares the next slots, up to `stop`, with their quanta; `decided` are all decisions so far."""
        if self.found:
            return
        codes, known = numbered(quanta["task"])
        wanted = np.sort(
            quanta["slot"].astype(np.int64) * len(self.names)
            + np.array([self.codes[name] for name in known], np.int64)[codes]
        )
        begun, self.seen = self.seen, int(np.searchsorted(self.keys, stop * len(self.names)))
        had = self.keys[begun : self.seen]
        both = min(len(wanted), len(had))
        at = next(iter(np.flatnonzero(wanted[:both] != had[:both]).tolist()), both)
        if at < max(len(wanted), len(had)):
            slot = int(min(keys[at] for keys in (wanted, had) if at < len(keys))) // len(self.names)
            self.found.append(self._why(slot, quanta[quanta["slot"] == slot], np.concatenate(decided)))

    def _why(self, slot: int, table: Rows, decided: Rows) -> Violation:
        """Returns which subtask ran in the slot, or didn't, and why not by the executive's table."""
        planned = {row["task"].decode(): int(row["index"]) for row in table}
        first, end = np.searchsorted(self.keys, (slot * len(self.names), (slot + 1) * len(self.names))).tolist()
        ran = [self.names[code] for code in (self.keys[first:end] - slot * len(self.names)).tolist()]
        left_out = [name for name in planned if name not in ran]
        other = next((name for name in ran if name not in planned), None)
        if other is None:
            return Violation(
                slot, "order", left_out[0], planned[left_out[0]], "it doesn't run, and a processor is idle"
            )
        stays = _stays(self.script, decided[decided["slot"] <= slot])
        if other not in stays or slot >= stays[other][-1].left:
            return Violation(slot, "order", other, 0, "it isn't there")
        stay = stays[other][-1]
        before = self.keys[int(np.searchsorted(self.keys, stay.joined * len(self.names))) : first]
        index = 1 + int((before % len(self.names) == self.names.index(other)).sum())
        window = stay.window(index)
        if stay.waits(np.array([index]))[0] and window["release"] > slot:
            text = f"it isn't released before slot {window['release']}"
        elif not left_out:
            text = f"it isn't among the first {self.script.processors}"
        else:
            better = left_out[0]
            part = _part(stays[better][-1].window(planned[better]), window)
            text = f"subtask {planned[better]} of {better} goes before it, by its {part}"
        return Violation(slot, "order", other, index, text)


def _part(better: Any, other: Any) -> str:
    """Returns by which part of its key a subtask goes before another one."""
    for field in ("deadline", "b_bit", "group_deadline"):
        if better[field] != other[field] and (field != "group_deadline" or better["b_bit"] == 1):
            return f"{field.replace('_', '-' if field == 'b_bit' else ' ')}, {better[field]} against {other[field]}"
    return "name"
