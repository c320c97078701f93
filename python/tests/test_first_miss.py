"""first_miss() and first_late() beside the windows, and each refusal."""
import itertools
from fractions import Fraction

import numpy as np
import pytest
from conftest import WRONG_WEIGHTS, outside, refusal
from recorded import Stay

import pfair
from pfair import Miss


def wanted(cost, period, picks, horizon, may_be_early):
    miss = Stay("", 0, horizon, cost, period, False, []).miss(picks)
    if may_be_early and miss and miss[1] == "early":
        stay = Stay("", 0, horizon, cost, period, True, [])
        late = [(slot, index) for index, slot in enumerate(picks, 1) if slot >= stay.deadline(index)]
        behind = stay.deadline(len(picks) + 1)
        if late:
            return Miss("tardy", late[0][1], late[0][0])
        return Miss("unserved", len(picks) + 1, None) if behind <= horizon else None
    return miss and Miss(miss[1], miss[3], None if miss[1] == "unserved" else miss[0])


def test_all_of_eight_slots():
    """Each set of slots below 8, for each weight up to period 5."""
    for period in range(1, 6):
        for cost in range(1, period + 1):
            for count in range(9):
                for picks in itertools.combinations(range(8), count):
                    assert pfair.first_miss(cost, period, picks, 8) == wanted(cost, period, picks, 8, False)
                    assert pfair.first_late(cost, period, picks, 8) == wanted(cost, period, picks, 8, True)


@pytest.mark.parametrize(
    "kind", [list, tuple, lambda p: np.array(p, "u8"), lambda p: np.array(p, "i4"), lambda p: np.array([p, p]).T[:, 0]]
)
def test_forms(kind):
    assert pfair.first_miss(1, 2, kind([0, 2, 4]), 6) is None
    assert pfair.first_miss(1, 2, kind([0, 3, 7]), 9) == ("tardy", 3, 7)
    assert pfair.first_late(1, 2, kind([0, 1, 2]), 9) == ("unserved", 4, None)


def test_refusals():
    for call in (pfair.first_miss, pfair.first_late):
        for name, cost, period in WRONG_WEIGHTS:
            kind = getattr(pfair, name)
            refusal(kind, f"{kind.text}: {cost}/{period}", call, cost, period, [], 9)
        for wrong in (-1, 1_000_001):
            outside("horizon", wrong, call, 1, 2, [], wrong, most=1_000_000)
        for wrong in (-1, 2**64):
            outside("cost", wrong, call, wrong, 2, [], 1)
            outside("period", wrong, call, 1, wrong, [], 1)
        outside("pick", -3, call, 1, 2, [0, -3], 9)
        said = f"{pfair.PicksNotRising.text}: 4 at 2"
        assert refusal(pfair.PicksNotRising, said, call, 1, 2, [0, 4, 4], 9) == {"place": 2}
        said = f"{pfair.PickPastHorizon.text}: 9 at 1"
        assert refusal(pfair.PickPastHorizon, said, call, 1, 2, [0, 9, 4], 9) == {"place": 1}
        for picks in ([0.0], [[0]], ["a"], [[0], [1, 2]], 3, None, [True, False], (slot for slot in (0, 2))):
            said = f"picks have to be a list or an array of whole numbers, and not {picks!r:.60}"
            refusal(TypeError, said, call, 1, 2, picks, 9)


def test_picks_of_a_schedule():
    """The slots of a schedule's own rows, which lie apart in memory."""
    schedule = pfair.schedule(pfair.Script(1, 4, 40, [[pfair.arrive("a", 1, 4)]]))
    assert pfair.first_miss(1, 4, schedule.quanta["slot"], 40) is None and len(schedule.quanta) == 10
