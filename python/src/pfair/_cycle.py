"""One cycle of a static schedule, whose tasks all arrive at slot 0 and never change."""
from __future__ import annotations

from dataclasses import replace
from math import lcm

from ._entries import Script
from ._schedule import Schedule, opened, plan_to

# slots of the longest run that the library plans
_LONGEST = 1_000_000
_VERBS = {"arrive": "arrives", "depart": "departs", "late": "comes late"}


class NoCycle(ValueError):
    """A script has no table of one cycle."""


def cycle_of(script: Script) -> Schedule:
    """Plans one cycle of a script, as `Script.cycle` says."""
    first = replace(script, slots=1)
    with opened(first) as dispatcher:
        _refuse_changes(script)
        plan_to(dispatcher, first.slots)
        slots = lcm(*dispatcher.members()["period"].tolist())
    if slots > _LONGEST:
        raise NoCycle(f"the hyperperiod has {slots:,} slots, and a run has at most {_LONGEST:,}")
    return Schedule(replace(script, slots=slots))


def _refuse_changes(script: Script) -> None:
    """Refuses the first announcement that isn't an arrival at slot 0."""
    for processor in range(script.processors):
        for number, entry in enumerate(script.log(processor), 1):
            if entry.kind and (entry.kind != "arrive" or entry.at):
                told = f"{entry.name} {_VERBS[entry.kind]} at slot {entry.at}"
                where = f"entry {number} of processor {processor}"
                raise NoCycle(f"{told} ({where}), and a cycle needs tasks that arrive at slot 0 and never change")
