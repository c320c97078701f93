"""Traces for viewers: the Trace Event Format (Perfetto, chrome://tracing) and value change dumps (GTKWave).

It uses nothing else of the package, and no numpy, so that scripts/trace writes its traces by the same code.
"""
from __future__ import annotations

import itertools
import json
from typing import Any, Iterable, Iterator, NamedTuple, TextIO, Union

PROCESSORS, TASKS, LAGS = 1, 2, 3


class Decided(NamedTuple):
    """A decision at the boundary of a slot, in words."""

    slot: int
    processor: int
    number: int
    task: str
    text: str


class Quantum(NamedTuple):
    """A quantum: `place` is the processor, and the window opens in slot `release` and closes before slot `deadline`."""

    slot: int
    place: int
    task: str
    subtask: int
    release: int
    deadline: int


class Lag(NamedTuple):
    """A lag in quanta, at a time."""

    time: int
    task: str
    numerator: int
    period: int


class Source:
    """What a trace is made of: rows in the order of slots."""

    processors: int
    slots: int

    def names(self) -> list[str]:
        """Returns the tasks that were admitted, in the order of their first admission."""
        raise NotImplementedError

    def decisions(self) -> Iterable[Decided]:
        raise NotImplementedError

    def quanta(self) -> Iterable[Quantum]:
        raise NotImplementedError

    def lags(self) -> Iterable[Lag]:
        raise NotImplementedError


class Member:
    """A task from its joining slot on, with its accepted delays; a name that joins again is another one."""

    def __init__(self, cost: int, period: int, joined: int) -> None:
        self.cost, self.period, self.joined = cost, period, joined
        self.delays: list[tuple[int, int]] = []

    def window(self, index: int) -> tuple[int, int]:
        """Returns the window of a subtask: the slot in which it opens, and the one before which it closes."""
        theta = self.joined + sum(by for first, by in self.delays if first <= index)
        return theta + (index - 1) * self.period // self.cost, theta - (-index * self.period // self.cost)


def words_of(kind: str, task: str, outcome: str, value: Any, entry: Any) -> str:
    """Returns a decision in words; `entry` has the fields of the announcement by their keys."""
    if outcome == "admitted":
        return f"{task} joins with {entry['cost']}/{entry['period']}"
    if outcome == "departing":
        return f"{task} departs, free at {value}"
    if outcome == "delayed":
        return f"{task}: subtask {entry['index']} and later ones put off by {entry['by']}"
    return f"{kind} {task} refused: {value}"


class JsonTrace:
    """The Trace Event Format, with times in microseconds; a slot takes `slot` milliseconds."""

    def __init__(self, source: Source, slot: float, out: TextIO) -> None:
        self.source, self.slot, self.out, self.first = source, slot * 1000, out, True

    def event(self, **fields: Any) -> None:
        self.out.write(("" if self.first else ",\n") + json.dumps(fields, separators=(",", ":")))
        self.first = False

    def at(self, slot: int) -> float:
        return round(slot * self.slot, 3)

    def tracks(self, names: list[str]) -> None:
        for process, name in ((PROCESSORS, "processors"), (TASKS, "tasks"), (LAGS, "lags")):
            self.event(ph="M", name="process_name", pid=process, tid=0, args={"name": name})
        for place in range(self.source.processors):
            self.event(ph="M", name="thread_name", pid=PROCESSORS, tid=place + 1, args={"name": f"processor {place}"})
        for task, name in enumerate(names, 1):
            self.event(ph="M", name="thread_name", pid=TASKS, tid=task, args={"name": name})

    def write(self) -> None:
        source, out, names = self.source, self.out, self.source.names()
        track = {name: task for task, name in enumerate(names, 1)}
        out.write('{"displayTimeUnit":"ms","traceEvents":[\n')
        self.tracks(names)
        for row in source.decisions():
            where, key = track.get(row.task, 0), {"processor": row.processor, "number": row.number}
            self.event(ph="i", s="t", name=row.text, pid=TASKS, tid=where, ts=self.at(row.slot), args=key)
        for quantum in source.quanta():
            self.quantum(quantum, track[quantum.task])
        for lag in source.lags():
            value = {"lag": lag.numerator / lag.period}
            self.event(ph="C", name=f"lag of {lag.task}", pid=LAGS, tid=0, ts=self.at(lag.time), args=value)
        out.write("\n]}\n")

    def quantum(self, quantum: Quantum, track: int) -> None:
        """Writes a quantum on the track of its processor, and on that of its task."""
        slot, place, task, index, release, deadline = quantum
        name = f"{task}{index}" if task[-1].isalpha() else f"{task} {index}"
        said = {"subtask": index, "window": f"{release} to {deadline - 1}", "deadline": deadline}
        said |= {"slack": deadline - slot - 1, "processor": place}
        for process, thread in ((PROCESSORS, place + 1), (TASKS, track)):
            self.event(ph="X", name=name, pid=process, tid=thread, ts=self.at(slot), dur=self.at(1), args=said)


class VcdTrace:
    """A value change dump, with times in microseconds; a slot takes `slot` milliseconds."""

    def __init__(self, source: Source, slot: float, out: TextIO) -> None:
        self.source, self.slot, self.out = source, slot * 1000, out
        codes = (code_of(number) for number in itertools.count())
        self.places = {place: next(codes) for place in range(source.processors)}
        self.tasks = {name: next(codes) for name in source.names()}
        self.on: dict[int, str] = {}

    def head(self) -> None:
        out = self.out
        out.write("$timescale 1 us $end\n$scope module pfair $end\n$scope module processors $end\n")
        out.writelines(f"$var string 1 {code} processor_{place} $end\n" for place, code in self.places.items())
        out.write("$upscope $end\n$scope module tasks $end\n")
        out.writelines(f"$var wire 1 {code} {name} $end\n" for name, code in self.tasks.items())
        out.write("$upscope $end\n$upscope $end\n$enddefinitions $end\n#0\n$dumpvars\n")
        out.writelines(f"s- {code}\n" for code in self.places.values())
        out.writelines(f"0{code}\n" for code in self.tasks.values())
        out.write("$end\n")

    def write(self) -> None:
        self.head()
        end = 0
        for slot, quanta in itertools.groupby(self.source.quanta(), key=lambda quantum: quantum.slot):
            if slot > end:
                self.change(end, {})
            self.change(slot, {quantum.place: f"{quantum.task}_{quantum.subtask}" for quantum in quanta})
            end = slot + 1
        if end < self.source.slots:
            self.change(end, {})
        self.out.write(f"#{self.at(self.source.slots)}\n")

    def at(self, slot: int) -> int:
        return round(slot * self.slot)

    def change(self, slot: int, now: dict[int, str]) -> None:
        """Writes the signals that differ from before."""
        running, named = ({text.rpartition("_")[0] for text in on.values()} for on in (self.on, now))
        moved = ((place, code) for place, code in self.places.items() if now.get(place) != self.on.get(place))
        changes = [f"s{now.get(place, '-')} {code}\n" for place, code in moved]
        changes += [f"1{self.tasks[name]}\n" for name in sorted(named - running)]
        changes += [f"0{self.tasks[name]}\n" for name in sorted(running - named)]
        if changes:
            self.out.write(f"#{self.at(slot)}\n")
            self.out.writelines(changes)
        self.on = now


def code_of(number: int) -> str:
    """Returns the short code of a signal: printable bytes."""
    code = ""
    while True:
        code += chr(33 + number % 94)
        number = number // 94 - 1
        if number < 0:
            return code


def quanta_of(
    rows: Iterable[tuple[int, int, str, int]], decisions: Iterable[tuple[int, str, str, Any]]
) -> Iterator[Quantum]:
    """Yields quanta with windows, from (slot, place, task, index) and (slot, task, outcome, entry), both by slot."""
    members: dict[str, Member] = {}
    waiting = iter(decisions)
    decided = next(waiting, None)
    for slot, place, task, index in rows:
        while decided and decided[0] <= slot:
            at, name, outcome, entry = decided
            if outcome == "admitted":
                members[name] = Member(entry["cost"], entry["period"], at)
            elif outcome == "delayed":
                members[name].delays.append((entry["index"], entry["by"]))
            decided = next(waiting, None)
        yield Quantum(slot, place, task, index, *members[task].window(index))


FORMATS: dict[str, Union[type[JsonTrace], type[VcdTrace]]] = {"json": JsonTrace, "vcd": VcdTrace}


def check(format: str, slot: float) -> None:
    """Refuses a format that no trace has, or a length of a slot out of its range."""
    if format not in FORMATS:
        raise ValueError(f"a trace is {' or '.join(FORMATS)}, and not {format}")
    if not 0.001 <= slot <= 1_000_000:
        raise ValueError("a slot is 0.001 to 1000000 milliseconds")


def write_trace(source: Source, format: str, slot: float, out: TextIO) -> None:
    """Writes a trace, "json" or "vcd", in which a slot takes `slot` milliseconds."""
    check(format, slot)
    FORMATS[format](source, slot, out).write()
