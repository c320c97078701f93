"""States, with which runs begin: what `Dispatcher.state` writes, as fields."""
from __future__ import annotations

from typing import NamedTuple, Optional, Union

from ._dispatcher import Dispatcher


class StateMember(NamedTuple):
    """A task that the run before has left.

    Attributes
    ----------
    name : str
        The task.
    cost, period : int
        Its weight.
    early : bool
        Whether a subtask may run before its release.
    joined : int
        The slot from which its windows count, over all runs.
    next : int
        Its next subtask, as the run that begins counts them, from 1.
    freed_at : int or None
        The slot from which on its weight and name are free, over all runs; None if it isn't departing.
    delays : tuple of tuple of (int, int)
        Its late releases: the first subtask that is late, and the delay in slots.
    """

    name: str
    cost: int
    period: int
    early: bool
    joined: int
    next: int
    freed_at: Optional[int]
    delays: tuple[tuple[int, int], ...]


class State(NamedTuple):
    """The state in which a run begins, made by `State.of`. Two are equal exactly if their texts are.

    Attributes
    ----------
    slot : int
        The slot in which the run begins, counted over all runs.
    processors : int
        The number of processors.
    frame : int
        The frame, in slots.
    members : tuple of StateMember
        In the order of admission.
    ran : tuple of tuple of (str, int, int)
        The quanta of the slot before: task, subtask as the run before counted them, and place.
    """

    slot: int
    processors: int
    frame: int
    members: tuple[StateMember, ...]
    ran: tuple[tuple[str, int, int], ...]

    @classmethod
    def of(cls, text: Union[bytes, bytearray, memoryview]) -> State:
        """Returns the fields of a state.

        Parameters
        ----------
        text : bytes, bytearray, memoryview or another buffer
            As `Dispatcher.state` returns it.

        Returns
        -------
        State

        Raises
        ------
        PfairError, TypeError
            As `Dispatcher.resume`, for a run of one slot.

        Notes
        -----
        The cost of `Dispatcher.resume`.
        """
        content = bytes(memoryview(text))
        Dispatcher.resume(content, 1, 1).close()
        first, *rows, _ = [line.split(",") for line in content.decode().splitlines()]
        members: list[StateMember] = []
        ran = []
        for kind, name, *more in rows:
            if kind == "member":
                cost, period, joined, following = map(int, more[:2] + more[3:5])
                freed_at = None if more[5] == "-" else int(more[5])
                members.append(StateMember(name, cost, period, more[2] == "true", joined, following, freed_at, ()))
            elif kind == "late":
                delay = int(more[0]), int(more[1])
                members[-1] = members[-1]._replace(delays=(*members[-1].delays, delay))
            else:
                ran.append((name, int(more[0]), int(more[1])))
        return cls(int(first[2]), int(first[3]), int(first[4]), tuple(members), tuple(ran))
