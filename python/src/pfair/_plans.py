"""How a dispatcher plans: calls of `Dispatcher`."""
from __future__ import annotations

from typing import TYPE_CHECKING, Literal, NamedTuple, Optional

from .errors import check
from ._library import Step
from ._numbers import whole

if TYPE_CHECKING:
    from ._dispatcher import Dispatcher

StepKind = Literal["planned", "waiting", "done"]
STEPS: tuple[StepKind, ...] = ("planned", "waiting", "done")


class Planned(NamedTuple):
    """How far a call of `Dispatcher.plan` came.

    Attributes
    ----------
    kind : str
        "planned": as many slots are planned as were asked for. "waiting": the next slot isn't settled. "done": all
        slots of the run are planned, and more were asked for.
    slot : int
        For "planned", the last slot that was asked for; for "waiting", the frontier, the first slot that isn't settled;
        for "done", 0.
    """

    kind: StepKind
    slot: int


def plan(self: Dispatcher, until: Optional[int] = None) -> Planned:
    """Plans slots until `until` of them are planned, or the next one isn't settled, or none is left.

    Parameters
    ----------
    until : int, optional
        The number of slots to have planned, from 1; by default all slots of the run.

    Returns
    -------
    Planned
        How far the plan came.

    Raises
    ------
    Torn
        If fewer than `until` slots are planned, and a number is torn; found["processor"] and found["number"] name
        the least. No slot is planned.
    OutOfMemory
        If an allocation fails. Slots planned before that stay, and the dispatcher is spent.
    Spent
        If fewer than `until` slots are planned, and an allocation failed in an earlier plan. `reopen` helps.
    OutOfRange
        If `until` is 0, negative, or too large for its type in C.

    Notes
    -----
    For each slot O((M + r) log n + a + l), for M processors, n members, r releases that come at the slot, a
    announcements at it and l late releases accepted of the tasks that these name; O(n) more if a member is freed;
    and a look-up for each entry taken since the last plan. The order is PD2, of Anderson and Srinivasan.
    """
    step = Step()
    with self._lock:
        end = self.slots if until is None else whole(until, "until", 1)
        answer = self._answer("pfair_plan_to", end, step)
    where = f"entry {step.number} of processor {step.processor}" if answer == 30 else ""
    check(answer, where, processor=step.processor, number=step.number)
    return Planned(STEPS[step.kind], step.slot)


def reserve(self: Dispatcher, slots: int, tasks: int) -> None:
    """Allocates ahead what the plans of the next slots need.

    The plan of such a slot then allocates nothing, if no announcement is decided at it, no entry came since the
    slot before, and there are at most `tasks` members.

    Parameters
    ----------
    slots : int
        The number of slots, from the next one to plan on; all that are left if these are fewer.
    tasks : int
        The number of members at one time, or as many as the logs have room for entries if these are fewer.

    Raises
    ------
    OutOfMemory
        If an allocation fails. Contents and planned slots stay, and plans go on with what was allocated.
    OutOfRange
        If a number is negative or too large for its type in C.

    Notes
    -----
    O(s M + t) for s slots and t tasks that have no memory yet, and M processors.
    """
    self._call("pfair_reserve", whole(slots, "slots"), whole(tasks, "tasks"))


def forget(self: Dispatcher, slots: int) -> None:
    """Forgets the tables, places and decisions of all planned slots below `slots`.

    Later plans and `members` are as if these slots were still there. Their memory is freed, but for that of the last
    planned slot, or used for slots to come, so the memory of a long run doesn't grow.

    Parameters
    ----------
    slots : int
        The first slot to keep; all planned slots are forgotten if it is past them.

    Raises
    ------
    OutOfRange
        If the number is negative or too large for its type in C.

    Notes
    -----
    O(s) for s slots whose memory is freed. From then on calls for forgotten slots raise `NotPlanned`, and
    `lags` does so for any slots, since lags count from slot 0 on.
    """
    self._call("pfair_forget", whole(slots, "slots"))


def reopen(self: Dispatcher) -> None:
    """Rebuilds what plans need from the entries, after an allocation failed in a plan.

    Plans then go on as if no allocation had failed; forgotten slots stay forgotten.

    Raises
    ------
    Torn
        If a number is torn; nothing has changed.
    OutOfMemory
        If an allocation fails; plans raise `Spent` until it is called again.

    Notes
    -----
    The cost of planning all slots so far.
    """
    self._call("pfair_reopen")


def next_run(self: Dispatcher, slots: int) -> None:
    """Begins the next run, once all slots of this one are planned.

    The dispatcher then has no entries and no planned slots, and the members that the run left. Slots, stamps and
    floors count from the next run's own slot 0, and entries from 1; in `members`, and in `freed_at` of `decisions`,
    slots count from the first run's slot 0. What is stamped after this run's last slot isn't taken over. Each
    member's jobs before that of its last quantum are dropped from its count: it counts as joined as many periods
    later, and its indexes are as many costs lower. Windows and lags stay as they are, and a task that runs on stays
    on its processor.

    Parameters
    ----------
    slots : int
        The number of slots of the next run, 1 to 1,000,000.

    Raises
    ------
    OutOfRange
        If the number is out of its range.
    Torn
        If a number is torn.
    Spent
        If an allocation failed in a plan, until `reopen`.
    Unfinished
        If not all slots are planned.
    PastLastSlot
        If the next run would end after slot 824,633,720,832, counted over all runs.
    CannotCarry
        If a member has a cost over 1,000,000, or so many late releases that its offset would pass that slot.
    OutOfMemory
        If an allocation fails.

    Notes
    -----
    O(M + n log n + l log l) for M processors, n members and l late releases that are still to come, and the cost of
    `close`.
    """
    self._call("pfair_next_run", whole(slots, "slots", 1, 1_000_000))
