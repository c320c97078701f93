"""Dead processors: how their logs are closed, what is refused, and random deaths after which nothing is wrong."""
import importlib
import os
import random
import sys

import pytest
from conftest import EXAMPLES, outside

import pfair

DEATHS = int(os.environ.get("PFAIR_DEATHS", 40))
# a log with a gap; and three tasks that fill two processors
GAP = {1: pfair.arrive("c", 3, 4), 3: pfair.promise(6)}
FULL = pfair.arrive("a", 1, 2), pfair.arrive("b", 3, 4), pfair.promise(9)


def joined(held=GAP, others=FULL, slots=20, capacity=7, frame=4):
    one = pfair.Dispatcher(2, frame, slots, capacity)
    one.take_log(0, others)
    for number, entry in held.items():
        one.take(1, number, entry)
    return one


def closing(victims, at, floor, slots=20):
    departures = [pfair.depart(name, at=floor, floor=floor) for name in victims]
    return [*departures, pfair.arrive("down_1", 1, 1, at=at, floor=floor), pfair.promise(slots)]


def test_a_log_is_closed(monkeypatch):
    held, one, read = [GAP[1], pfair.promise(0), GAP[3]], joined(), pfair.Dispatcher.held
    monkeypatch.setattr(pfair.Dispatcher, "held", lambda one, *words: read(one, *words) if one._lock._is_owned() else 0)
    assert pfair.succeed(one, 1) == ([*held, *closing("ab", 9, 6)], 3, 6, 9, ["a", "b"])
    assert pfair.succeed(joined(), 1, victims=["nobody", "b", "a"]).log[3:] == closing("ba", 9, 6)
    # of those that are free at one slot the heaviest departs, here of 1/4; who departs already can't
    light = [*(pfair.arrive(name, 1, 3) for name in ("own", "other")), pfair.arrive("b", 2, 12)]
    light += [pfair.arrive("z", 1, 4), pfair.depart("other", at=12, floor=12)]
    one = joined({1: pfair.arrive("c", 3, 4), 2: pfair.depart("own", at=12, floor=12)}, light, 30, 8, 12)
    assert pfair.succeed(one, 1).log[2:] == closing("z", 12, 12, 30)
    assert pfair.succeed(joined({}, [pfair.promise(3)]), 1) == (closing("", 0, 0), 0, 0, 0, [])
    found = pfair.succeed(joined({2: pfair.promise(1)}, []), 1)
    assert found.log == [pfair.promise(0), pfair.promise(1), *closing("", 1, 1)]


def test_a_log_of_a_later_run_is_closed():
    one = pfair.Dispatcher(2, 4, 5)
    one.take_log(0, [*FULL[:2], pfair.promise(5)])
    one.take_log(1, [GAP[1], pfair.promise(5)])
    one.plan()
    one.next_run(20)
    one.take(1, 1, pfair.promise(6))
    assert pfair.succeed(one, 1) == ([pfair.promise(6), *closing("bc", 8, 6)], 1, 6, 8, ["b", "c"])


# the contents of the dead one's log and of the other's, the capacity, the task's name, and who may depart
LATE, ENDED, FALLS = {**GAP, 3: pfair.promise(17)}, {1: pfair.promise(21)}, {2: GAP[3], 3: GAP[1]}
IN_LOG = "the log of processor"
REFUSED = {
    f"{IN_LOG} 1 has 6 numbers, and 7 entries are needed": (GAP, FULL, 6, None, None),
    f"{IN_LOG} 1 has 7 numbers, and 9 entries are needed": ({7: GAP[3]}, FULL, 7, None, None),
    f"a isn't admitted at slot 6: {pfair.OUTCOMES[20]}": (GAP, FULL, 7, "a", None),
    f"down_1 isn't admitted at slot 6: {pfair.OUTCOMES[22]}": (GAP, FULL, 7, None, []),
    f"down_1 isn't admitted at slot 7: {pfair.OUTCOMES[22]}": (GAP, FULL, 7, None, ["a"]),
    "down_1 isn't admitted in this run: its victims are free at slot 21": (LATE, FULL, 7, None, None),
    f"{IN_LOG} 1 ends the run: it can be closed in the next one": (ENDED, FULL, 7, None, None),
    f"{IN_LOG} 0 has at number 2 a gap: a survivor's entries aren't joined": (GAP, FULL[:1], 7, None, None),
    f"{IN_LOG} 1 has at number 3 a floor that falls": (FALLS, FULL, 7, None, None),
}


@pytest.mark.parametrize("text", REFUSED)
def test_what_cannot_be_closed(text):
    held, others, capacity, name, victims = REFUSED[text]
    one = joined(held, others, 21, capacity)
    one.take(0, 3, FULL[2])
    with pytest.raises(pfair.CannotSucceed) as refused:
        pfair.succeed(one, 1, name, victims)
    assert str(refused.value) == text
    outside("processor", 2, pfair.succeed, one, 2, most=1)


@pytest.fixture(scope="module")
def deaths():
    with pytest.MonkeyPatch.context() as patch:
        patch.setattr(sys, "dont_write_bytecode", True)
        patch.syspath_prepend(EXAMPLES / "python")
        yield importlib.import_module("deaths")


@pytest.mark.parametrize("number", range(DEATHS))
def test_the_others_go_on(number, deaths):
    chance = random.Random(number)
    world = deaths.World(number, chance.choice((4, 8, 16, 32)), chance.choice(("M", "M - 1")), deaths.RIGHT)
    assert world.run() == set()
    assert world.closed.floor - world.died <= world.lead and (world.load == "M" or world.closed.victims == [])
