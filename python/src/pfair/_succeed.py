"""How a survivor closes the log of a dead processor, so that a task of weight 1 takes its place."""
from __future__ import annotations

from dataclasses import replace
from typing import NamedTuple, Optional, Sequence

from ._dispatcher import Dispatcher
from ._entries import Entry, Script, arrive, depart, promise
from ._library import OUTCOMES
from ._numbers import whole
from ._state import State

_NO_ROOM = 22


class CannotSucceed(ValueError):
    """The log of a dead processor can't be closed so; the text says why."""


class Succession(NamedTuple):
    """The closed log of a dead processor.

    Attributes
    ----------
    log : list of Entry
        The whole log, from entry 1 on: entries that are held, with an empty one under each number in between that has
        none; then the departures, the arrival of weight 1, and a floor at the end of the run.
    said : int
        How many of them come before the departures.
    floor : int
        The dead processor's last floor, a slot: nobody has planned it or a later one.
    admitted : int
        The slot from which on the arrived task has a quantum in each slot.
    victims : list of str
        The tasks that depart at `floor`.
    """

    log: list[Entry]
    said: int
    floor: int
    admitted: int
    victims: list[str]


def succeed(
    joined: Dispatcher, processor: int, name: Optional[str] = None, victims: Optional[Sequence[str]] = None
) -> Succession:
    """Closes the log of a dead processor, so that a task of weight 1 takes its place.

    That task gets a quantum in each slot, on one place. The processor whose place it is runs what has the dead one's
    place instead, and all other tasks meet their deadlines on the processors that are left.

    Before the call the dead processor's log is fenced: no dispatcher takes a late entry of it any more. And `joined`
    has absorbed all that any survivor holds. Until the task is admitted, nobody announces anything but floors.

    Parameters
    ----------
    joined : Dispatcher
        One that holds what all survivors hold, and what each of them announced. It stays as it is. In a later run it is
        one that went on there by `Dispatcher.next_run`, or that `Dispatcher.resume` made of the run's state.
    processor : int
        The dead processor, from 0.
    name : str, optional
        The name of the task that takes its place, as in `arrive`; by default "down_" and the processor.
    victims : sequence of str, optional
        The tasks that may depart, in the order in which they do until there is room; names of tasks that can't depart
        are passed over. By default all: those that are free soonest go first, of these the heaviest.

    Returns
    -------
    Succession
        Its log is for all dispatchers, by `take_log`.

    Raises
    ------
    CannotSucceed
        If the log has too few free numbers, or ends the run already; the task isn't admitted in this run; or a log has
        a gap (of the dead one's a floor that falls).
    Torn
        If a number is torn.
    PfairError
        As `arrive`, `take_log` and `Dispatcher.plan`.

    Notes
    -----
    A look-up for each number of each log up to the capacity, and the cost of planning the run up to the slot of the
    admission, once for each victim and three times more.
    """
    dead = whole(processor, "processor", 0, joined.processors - 1)
    heir, name = _Heir(joined, dead), f"down_{dead}" if name is None else name
    floor, freed = heir.floor, heir.freed(victims)
    chosen: list[str] = []
    while True:
        at = max([floor, *(freed[victim] for victim in chosen)])
        entries = [*(depart(victim, at=floor, floor=floor) for victim in chosen)]
        entries.append(arrive(name, 1, 1, at=at, floor=floor))
        outcome = heir.outcome(entries, at)
        if outcome == 0:
            log = [*heir.log, *entries, promise(heir.script.slots)]
            return Succession(log, len(heir.log), floor, at, chosen)
        left = [victim for victim in freed if victim not in chosen]
        if outcome != _NO_ROOM or not left:
            raise CannotSucceed(f"{name} isn't admitted at slot {at}: {OUTCOMES[outcome]}")
        chosen.append(left[0])


class _Heir:
    """Tries how the log of a dead processor may go on, each time in a dispatcher of its own."""

    def __init__(self, joined: Dispatcher, dead: int) -> None:
        with joined._lock:
            processors, self.capacity = joined.processors, joined.capacity
            logs = [_log(joined, processor, processor == dead) for processor in range(processors)]
            self.script, self.state = Script(processors, joined.frame, joined.slots, logs), joined.state()
        self.dead, self.log, self.origin = dead, logs[dead], State.of(self.state).slot
        self.floor = self.log[-1].floor if self.log else 0
        if self.floor >= self.script.slots:
            raise CannotSucceed(f"the log of processor {dead} ends the run: it can be closed in the next one")

    def trial(self, entries: Sequence[Entry], slots: int) -> Dispatcher:
        """Plans slots of the run, as if these entries closed the log and nothing else were announced any more."""
        logs = [*self.script.logs]
        logs[self.dead] = [*self.log, *entries]
        run, trial = replace(self.script, logs=logs), Dispatcher.resume(self.state, self.script.slots)
        for processor in range(run.processors):
            trial.take_log(processor, run.closed(processor))
        if slots:
            trial.plan(slots)
        return trial

    def freed(self, victims: Optional[Sequence[str]]) -> dict[str, int]:
        """Returns the tasks that may depart at the floor, in their order, and from when on each is free."""
        with self.trial([], self.floor) as trial:
            weights = {row["task"].decode(): row["cost"] / row["period"] for row in trial.members()}
        going = [depart(name, at=self.floor, floor=self.floor) for name in weights]
        with self.trial(going, self.floor + 1) as trial:
            rows = trial.decisions(self.floor)
        own = rows[(rows["processor"] == self.dead) & (rows["number"] > len(self.log)) & (rows["outcome"] == 1)]
        freed = {row["task"].decode(): max(self.floor, int(row["freed_at"]) - self.origin) for row in own}
        if victims is not None:
            return {name: freed[name] for name in victims if name in freed}
        return {name: freed[name] for name in sorted(freed, key=lambda name: (freed[name], -weights[name], name))}

    def outcome(self, entries: Sequence[Entry], at: int) -> int:
        """Returns what becomes of the last of these entries, which is stamped `at`."""
        last = len(self.log) + len(entries)
        if last >= self.capacity:
            told = f"has {self.capacity} numbers, and {last + 1} entries are needed"
            raise CannotSucceed(f"the log of processor {self.dead} {told}")
        if at >= self.script.slots:
            raise CannotSucceed(f"{entries[-1].name} isn't admitted in this run: its victims are free at slot {at}")
        with self.trial(entries, at + 1) as trial:
            rows = trial.decisions(at)
        return int(rows["outcome"][(rows["processor"] == self.dead) & (rows["number"] == last)][0])


def _log(joined: Dispatcher, processor: int, is_dead: bool) -> list[Entry]:
    """Returns a log; gaps in that of a dead processor are filled with empty entries of the floor before."""
    held = [joined.held(processor, number) for number in range(1, joined.capacity + 1)]
    log: list[Entry] = []
    for entry in held[: max((number for number, entry in enumerate(held, 1) if entry), default=0)]:
        before = log[-1].floor if log else 0
        if (entry is None and not is_dead) or (entry is not None and entry.floor < before):
            told = "a floor that falls" if entry else "a gap: a survivor's entries aren't joined"
            raise CannotSucceed(f"the log of processor {processor} has at number {len(log) + 1} {told}")
        log.append(entry or promise(before))
    return log
