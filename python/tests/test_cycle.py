"""Script.cycle(): its length and its rows, beside runs of three cycles, and why there is none."""
from dataclasses import replace
from math import lcm

import numpy as np
import pytest
from conftest import EXAMPLES, refusal, script_of
from hypothesis import given
from static_sets import SCRIPTS, script_with

import pfair


def members_of(script):
    """The arrivals that are admitted at slot 0, by their names."""
    decisions = pfair.schedule(replace(script, slots=1)).decisions
    joined = [row for row in decisions if row["outcome"] == 0]
    entries = [script.logs[int(row["processor"])][int(row["number"]) - 1] for row in joined]
    return {entry.name: entry for entry in entries}


def check_cycle(script, cycles=3):
    """Its rows repeat in a run of some cycles, with indexes that are raised, and its places go on to be valid."""
    made, members = script.cycle(), members_of(script)
    slots = lcm(*(entry.period for entry in members.values()))
    assert type(made) is pfair.Schedule and made.script == replace(script, slots=slots)
    whole = pfair.schedule(replace(script, slots=cycles * slots)).quanta
    assert made.quanta.dtype == pfair.QUANTUM and (made.quanta == whole[whole["slot"] < slots]).all()
    raised = {name.encode(): entry.cost * slots // entry.period for name, entry in members.items()}
    for cycle in range(cycles):
        rows = made.quanta.copy()
        rows["slot"] += np.uint64(cycle * slots)
        rows["index"] += np.array([cycle * raised[bytes(name)] for name in rows["task"]], np.uint64)
        wanted = whole[whole["slot"] // slots == cycle]
        assert (rows[["slot", "row", "task", "index"]] == wanted[["slot", "row", "task", "index"]]).all()
    for slot in range(slots):
        places = made.quanta["place"][made.quanta["slot"] == slot].tolist()
        assert len(set(places)) == len(places) and all(place < script.processors for place in places)
    return made


@given(SCRIPTS)
def test_sets_at_random(script):
    check_cycle(script)


def test_at_full_load():
    rng = np.random.default_rng(3)
    for processors in (1, 2, 4, 8):
        weights = pfair.study.rand_fixed_sum(3 * processors, processors, rng)
        script = pfair.study.task_set(weights, processors, 7, rng, (4, 6, 8, 12), early=processors == 4)
        check_cycle(script)


def test_one_slot_is_a_cycle():
    """Of one task of weight 1, and of none."""
    made = check_cycle(script_with(1, 12, ("a", 1, 1)), 9)
    assert made.quanta.tolist() == [(0, 0, 0, b"a", 1)] and made.script.slots == 1
    made = check_cycle(script_with(2, 12))
    assert len(made.quanta) == len(made.decisions) == 0 and made.script.slots == 1


def test_the_number_of_slots_does_not_matter():
    tasks = ("a", 1, 2), ("b", 2, 3)
    for slots in (0, 1, 5, 6, 1_000_001):
        made = script_with(2, 6, *tasks, slots=slots).cycle()
        assert made.script.slots == 6 and (made.quanta == script_with(2, 6, *tasks).cycle().quanta).all()


def test_what_is_announced_but_arrivals():
    """Floors change nothing, nor does a log past the last processor. The script isn't changed."""
    promises = [pfair.promise(0), pfair.Entry(at=3, name="a")]
    logs = [[*promises, pfair.arrive("a", 1, 2), pfair.promise(900)], [], [pfair.depart("a", at=3)]]
    script = pfair.Script(2, 2, 9, logs)
    assert script.cycle().script.slots == 2 and script == pfair.Script(2, 2, 9, logs)
    assert pfair.Script(2, 2, 9).cycle().script.slots == 1


def test_a_full_log():
    """Nothing is put behind one whose last floor is that of the cycle."""
    made = pfair.Script(1, 6, 9, [[pfair.promise(1)] * 4096]).cycle()
    assert made.script.slots == 1 and len(made.script.log(0)) == 4096


CHANGES = {
    "b departs at slot 1 (entry 3 of processor 1)": [pfair.promise(0), *(pfair.depart("b", at=at) for at in (1, 2))],
    "a departs at slot 0 (entry 2 of processor 1)": [pfair.depart("a", at=0)],
    "b comes late at slot 0 (entry 2 of processor 1)": [pfair.late("b", 2, 1, at=0)],
    "b comes late at slot 7 (entry 2 of processor 1)": [pfair.late("b", 2, 1, at=7, floor=3)],
    "c arrives at slot 1 (entry 2 of processor 1)": [pfair.arrive("c", 1, 6, at=1)],
    "c arrives at slot 900000 (entry 3 of processor 1)": [pfair.arrive("d", 1, 6), pfair.arrive("c", 1, 6, at=900_000)],
}


@pytest.mark.parametrize("told", CHANGES)
def test_changes(told):
    script = pfair.Script(2, 6, 6, [[pfair.arrive("a", 1, 2)], [pfair.arrive("b", 1, 3), *CHANGES[told]]])
    refusal(pfair.NoCycle, f"{told}, and a cycle needs tasks that arrive at slot 0 and never change", script.cycle)
    assert pfair.NoCycle.__bases__ == (ValueError,)
    with pytest.raises(pfair.NoCycle, match="^a departs at slot 0 .entry 1 of processor 0."):
        replace(script, logs=[[pfair.depart("a", at=0)], *script.logs[1:]]).cycle()


def test_the_longest_cycle():
    made = script_with(1, 2_000_000, ("a", 1, 1_000_000), ("b", 1, 500_000)).cycle()
    assert made.script.slots == 1_000_000 and made.quanta["slot"].tolist() == [0, 1, 500_000]
    text = "the hyperperiod has {} slots, and a run has at most 1,000,000"
    script = script_with(1, 1_000_001, ("a", 1, 1_000_001))
    refusal(pfair.NoCycle, text.format("1,000,001"), script.cycle)
    script = script_with(2, 1_000_000_000, ("a", 1, 2**9), ("b", 1, 5**9))
    refusal(pfair.NoCycle, text.format("1,000,000,000"), script.cycle)
    # a task that is refused has no part in it
    assert script_with(1, 1_000_000_000, ("a", 1, 2), ("b", 1, 2), ("c", 1, 5**9)).cycle().script.slots == 2


def test_what_the_library_refuses():
    """As a schedule is refused, and before anything that changes is looked at."""
    for script in (
        pfair.Script(0, 6, 6), pfair.Script(1, 0, 6), pfair.Script(1, 6, 6, [[pfair.Entry(kind="leave", at=3)]]),
        pfair.Script(1, 6, 6, [[pfair.depart("a", at=3), pfair.Entry(3, "arrive", 2, "b", 1, 6)]]),
    ):
        with pytest.raises(pfair.PfairError) as wanted:
            pfair.schedule(script)
        refusal(type(wanted.value), str(wanted.value), script.cycle)
    # floors that fall: the run would stall in the cycle, or behind it
    fallen = [pfair.arrive("a", 1, 6), pfair.promise(5), pfair.promise(3)]
    found = refusal(pfair.Stalled, f"{pfair.Stalled.text}: slot 5", pfair.Script(1, 6, 3, [fallen]).cycle)
    assert found == {"frontier": 5}
    assert pfair.Script(1, 5, 3, [[pfair.arrive("a", 1, 5), *fallen[1:]]]).cycle().script.slots == 5


def test_examples():
    """Those of the examples that have a cycle are the ones in which nothing changes."""
    cycles = {}
    for file in sorted(EXAMPLES.glob("*.toml")):
        try:
            cycles[file.stem] = check_cycle(script_of(file)).script.slots
        except pfair.NoCycle:
            pass
    assert cycles == {"full_load": 6, "places": 3}
