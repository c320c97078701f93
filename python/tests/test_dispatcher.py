"""Dispatchers: what each call does with entries in any order, and what it tells."""
import gc
import resource

import numpy as np
import pytest
from conftest import Told, assert_plain, refusal
from hypothesis import given, settings
from hypothesis import strategies as some

import pfair


def ceiling(number, by):
    return -(-number // by)


def group_deadline(cost, period, index):
    """The first time from the deadline on that ends a run of windows: the deadline of a subtask with the b-bit 0, or
    the slot before the deadline of one whose window has three slots."""
    if 2 * cost < period:
        return 0
    first = ceiling(index * period, cost)
    for later in range(index, index + period + 1):
        deadline, release = ceiling(later * period, cost), (later - 1) * period // cost
        if later * period % cost == 0:
            return deadline
        if deadline - release == 3 and deadline - 1 >= first:
            return deadline - 1
    return None


@settings(max_examples=80)
@given(some.integers(1, 30), some.integers(0, 30), some.integers(1, 40), some.integers(0, 12), some.integers(0, 2**40))
def test_windows(cost, more, first, count, theta):
    period = cost + more
    rows = pfair.windows(cost, period, count, first, *[theta] * (theta > 0))
    assert rows.dtype == pfair.WINDOW and rows.shape == (count,)
    for index, row in enumerate(rows.tolist(), first):
        release, deadline = (index - 1) * period // cost, ceiling(index * period, cost)
        group = group_deadline(cost, period, index)
        wanted = (theta + release, theta + deadline, int(index * period % cost != 0), theta + group if group else 0)
        assert row == wanted


LOG = [pfair.arrive("a", 1, 2, at=1), pfair.late("a", 2, 1, at=2, floor=2), pfair.depart("a", at=3, floor=3)]
LOG.append(pfair.promise(6))


def test_settings():
    with pfair.Dispatcher(2, 7, 5, 3) as one:
        assert (one.processors, one.frame, one.slots, one.capacity) == (2, 7, 5, 3)
        assert pfair.Dispatcher(1, 1, 1).capacity == 4096


def test_what_is_taken():
    with pfair.Dispatcher(2, 6, 6, 8) as one:
        met = [one.take(1, 2, LOG[at]) for at in (1, 1, 0, 1)]
        assert met == ["new", "known", "torn", "torn"] and one.take(0, 2, LOG[1]) == "new"
        counts = one.take_log(1, LOG)
        assert counts == (4, 3, 0, 1) and counts._fields == ("taken", "new", "known", "torn")
        assert one.take_log(1, LOG, 1) == (4, 0, 3, 1)


def test_logs_from_a_number_on():
    with pfair.Dispatcher(2, 6, 6, 8) as one:
        assert one.take_log(1, LOG, first=5) == (4, 4, 0, 0)
        assert [one.held(1, number) for number in range(1, 9)] == [None] * 4 + LOG and one.held(0, 5) is None
        assert one.take_log(1, LOG[1:3], 6) == (2, 0, 2, 0) and one.take_log(1, [], 8) == (0, 0, 0, 0)
        wrong = [pfair.promise(1), pfair.Entry(1, "arrive", 1, "b", 1, 10**9 + 1), pfair.promise(2)]
        text = f"{pfair.PeriodTooLong.text}: entry 4 of processor 0"
        assert refusal(pfair.PeriodTooLong, text, one.take_log, 0, wrong, first=3) == {"processor": 0, "number": 4}
        assert one.held(0, 3) == pfair.promise(1) and one.held(0, 4) is None and one.held(0, 5) is None
        text = f"{pfair.NoSuchNumber.text}: entry 9 of processor 1"
        assert refusal(pfair.NoSuchNumber, text, one.take_log, 1, LOG, 7) == {"processor": 1, "number": 9}
        assert one.faults().torn == [(1, 7), (1, 8)]


def test_logs_as_arrays():
    log = [pfair.arrive("a", 1, 2), pfair.arrive("b", 1, 3), pfair.late("a", 2, 1, at=1, floor=1), pfair.promise(6)]
    wanted, one = pfair.Dispatcher(1, 6, 6, 4), pfair.Dispatcher(1, 6, 6, 4)
    assert wanted.take_log(0, log) == (4, 4, 0, 0)
    rows = pfair.rows_of(log)
    for wrong in (
        np.zeros(4), rows.reshape(2, 2), rows[["floor", "kind"]], rows.view("u1"), np.array(log, dtype=object),
    ):
        with pytest.raises(TypeError):
            one.take_log(0, wrong)
    assert one.missing(0) == 1
    # every other row of an array, and then the whole of it
    apart = np.repeat(rows, 2)[::2]
    assert not apart.flags.c_contiguous and one.take_log(0, apart[:2]) == (2, 2, 0, 0)
    assert one.take_log(0, rows) == (4, 2, 2, 0) and one.take_log(0, rows[:0]) == (0, 0, 0, 0)
    assert one.is_below(wanted) and wanted.is_below(one)
    rows["by"][2] = 2**63
    text = f"{pfair.BadDelay.text}: entry 3 of processor 0"
    found = refusal(pfair.BadDelay, text, pfair.Dispatcher(1, 6, 6, 4).take_log, 0, rows)
    assert found == {"processor": 0, "number": 3}


def test_what_is_held():
    with pfair.Dispatcher(2, 6, 6, 8) as one:
        one.take_log(1, LOG)
        assert [one.held(1, number) for number in range(1, 6)] == [*LOG, None]
        assert one.mark(1) == (6, 4) and one.mark(0) == (0, 0) and (one.missing(1), one.missing(0)) == (5, 1)
        assert one.take(0, 2, pfair.promise(3)) == "new" and one.missing(0) == 1 and one.mark(0) == (0, 0)
        assert one.faults() == pfair.Faults(torn=[], fallen=[]) and one.faults()._fields == ("torn", "fallen")
        assert one.take(1, 5, pfair.promise(5)) == "new" and one.faults() == ([], [(1, 5)])
        assert one.take(1, 4, pfair.promise(5)) == "torn" and one.faults() == ([(1, 4)], [])
        text = "two different entries were taken for one number: entry 4 of processor 1"
        assert refusal(pfair.Torn, text, one.held, 1, 4) == {"processor": 1, "number": 4}
        assert refusal(pfair.Torn, text, one.plan) == {"processor": 1, "number": 4}
        one.take(0, 2, pfair.promise(4))
        assert one.faults() == ([(0, 2), (1, 4)], []) and one.mark(1) == (3, 3)


def test_what_is_missing():
    """None once each number of a log is held, also where it is torn."""
    with pfair.Dispatcher(1, 6, 6, 3) as one:
        for number, missing in ((1, 2), (3, 2), (2, None)):
            one.take(0, number, pfair.promise(number))
            assert one.missing(0) == missing
        one.take(0, 2, pfair.promise(0))
        assert one.missing(0) is None and one.faults() == ([(0, 2)], [])


def test_absorbing():
    one, other = pfair.Dispatcher(2, 6, 6, 8), pfair.Dispatcher(2, 9, 7, 8)
    one.take_log(0, LOG)
    assert other.is_below(one) and not one.is_below(other) and one.is_below(one) is True
    assert one.absorb(one) is None and other.absorb(one) is None
    assert one.is_below(other) is True and [other.held(0, number) for number in range(1, 5)] == LOG
    text = "two dispatchers with different numbers of processors, or different capacities"
    for unlike in (pfair.Dispatcher(1, 6, 6, 8), pfair.Dispatcher(2, 6, 6, 7)):
        refusal(pfair.OtherShape, text, one.absorb, unlike)


def test_plans():
    with pfair.Dispatcher(2, 6, 6, 8) as one:
        assert one.frontier == 0 == one.planned and one.plan() == ("waiting", 0)
        one.take_log(0, LOG[:3])
        one.take(1, 1, pfair.promise(4))
        # the least mark, before anything is planned
        assert one.frontier == 3 and one.planned == 0
        assert one.plan(2) == pfair.Planned(kind="planned", slot=1) and one.planned == 2
        assert one.plan(1) == ("planned", 0)
        assert one.plan(3) == ("planned", 2) and one.plan(4) == ("waiting", 3) == one.plan() and one.planned == 3
        one.take_log(0, LOG)
        one.take(1, 2, pfair.promise(6))
        assert one.frontier == 6 and one.plan(5) == ("planned", 4) and one.planned == 5
        assert one.plan() == ("planned", 5) and one.planned == 6 and one.plan(7) == ("done", 0) == one.plan(2**64 - 1)


NOT_PLANNED = "the slot isn't planned, or is forgotten"


def planned():
    one = pfair.Dispatcher(2, 6, 8)
    log = [pfair.arrive("x", 1, 2), pfair.arrive("y", 2, 3), pfair.arrive("z", 1, 1), pfair.depart("y", at=4, floor=4)]
    one.take_log(0, [*log, pfair.promise(8)])
    one.take_log(1, [pfair.arrive("w", 1, 6, at=2), pfair.promise(8)])
    assert one.plan() == ("planned", 7)
    return one


def test_ranges_of_slots():
    """From `start` to `stop - 1`; from 0 on, and all that are planned, where they aren't given."""
    with planned() as one:
        for call, column, first in ((one.quanta, "slot", 0), (one.decisions, "slot", 0), (one.lags, "time", 1)):
            rows = call()
            assert len(rows) > 3 and (rows == call(0, 8)).all() and call(0, 0).shape == call(5, 3).shape == (0,)
            for start, stop in ((0, 3), (2, 5), (4, 8), (4, None)):
                within = (rows[column] >= start + first) & (rows[column] < (8 if stop is None else stop) + first)
                assert (call(start, stop) == rows[within]).all() and len(call(start, stop)) == within.sum()
            refusal(pfair.NotPlanned, f"{NOT_PLANNED}: slot 8", call, 0, 9)
            assert (call(start=4, stop=6) == call(4, 6)).all()
        refusal(pfair.NotPlanned, f"{NOT_PLANNED}: slot 8", one.table, 8)
        refusal(pfair.NotPlanned, f"{NOT_PLANNED}: slot 9", one.places, 9)


def test_rows():
    """By hand: z is refused, and y departs at slot 4; the rows of a slot run on different processors."""
    with planned() as one:
        assert [rows.dtype for rows in (one.quanta(), one.decisions())] == [pfair.QUANTUM, pfair.DECISION]
        told = one.decisions()[["slot", "task", "processor", "number", "outcome"]].tolist()
        joined = [(0, b"x", 0, 1, 0), (0, b"y", 0, 2, 0), (0, b"z", 0, 3, 22), (2, b"w", 1, 1, 0)]
        assert told == [*joined, (4, b"y", 0, 4, 1)] and one.lags().dtype == pfair.LAG
        assert one.table(0) == [("y", 1), ("x", 1)] and one.table(1) == [("y", 2)] and sorted(one.places(0)) == [0, 1]
        # y stays on the processor on which it was
        assert one.places(1) == one.places(0)[:1] and one.quanta(1, 2).tolist() == [(1, 0, one.places(1)[0], b"y", 2)]
        assert one.lags(0, 1).tolist() == [(1, b"x", -1, 2), (1, b"y", -1, 3)]
        assert one.lags(1, 2).tolist() == [(2, b"x", 0, 2), (2, b"y", -2, 3)]


def test_members():
    with pfair.Dispatcher(1, 6, 9) as one:
        assert one.members().tolist() == []
        log = [pfair.arrive("z", 1, 2), pfair.late("z", 2, 3, at=1), pfair.arrive("b", 1, 3, at=2, early=True)]
        log += [pfair.depart("b", at=4), pfair.arrive("c", 1, 4, at=4)]
        one.take_log(0, [*log, pfair.promise(9)])
        one.plan(5)
        known = [(b"z", 1, 2, 0, 0, 2, 3, 0, 0, 3), (b"b", 1, 3, 1, 2, 2, 2, 1, 5, 0)]
        assert one.members().tolist() == known and one.members().dtype == pfair.MEMBER
        member = one.members()[0]
        assert pfair.windows(member["cost"], member["period"], 1, member["next"], member["theta"])["release"] == 5
        assert one.take(0, 9, pfair.promise(8)) == "new" and one.take(0, 9, pfair.promise(9)) == "torn"
        assert one.members().tolist() == known


def test_forgotten_slots():
    with planned() as one:
        rows, decided = one.quanta(), one.decisions()
        one.forget(3)
        assert one.planned == 8 and (one.quanta(3) == rows[rows["slot"] >= 3]).all()
        assert (one.decisions(4, 8) == decided[decided["slot"] >= 4]).all()
        # the slot that is named is one that is forgotten, or not planned; lags need all slots before
        for slot, asked, *words in (
            (0, one.quanta), (0, one.decisions), (2, one.quanta, 2, 8), (1, one.decisions, 1, 5), (2, one.table, 2),
            (8, one.quanta, 2, 9), (0, one.lags, 3), (0, one.lags), (8, one.lags, 3, 9),
        ):
            refusal(pfair.NotPlanned, f"{NOT_PLANNED}: slot {slot}", asked, *words)
        # members still have their lags
        stay = one.members()[["task", "lag", "period"]][one.members()["is_departing"] == 0]
        assert stay.tolist() == planned().lags(7, 8)[["task", "numerator", "period"]].tolist() and len(stay) == 2
        one.forget(2**64 - 1)
        refusal(pfair.NotPlanned, f"{NOT_PLANNED}: slot 7", one.table, 7)


def test_two_locks_are_taken_in_one_order():
    """Else two threads that absorb each other could wait for each other."""
    pair, told, orders = [pfair.Dispatcher(1, 6, 6) for _ in range(2)], [], set()
    for place, one in enumerate(pair):
        one._lock = Told(one._lock, place, told)
    for one, other in (pair, pair[::-1]):
        for call in (one.absorb, one.is_below):
            told.clear()
            call(other)
            orders.add(tuple(told))
    assert orders in ({(0, 1)}, {(1, 0)})


def test_results_are_plain():
    """What isn't an array has numbers of Python alone."""
    with planned() as one:
        results = [one.table(0), one.places(0), one.mark(0), one.missing(0), one.held(0, 2), one.frontier, one.planned]
        results += [one.take(1, 7, pfair.promise(8)), one.take_log(1, [pfair.promise(8)], 8), one.plan()]
        results += [one.take(1, 7, pfair.promise(9)), one.faults()]
        results += [one.processors, one.frame, one.slots, one.capacity, one.is_below(one)]
        for result in results:
            assert_plain(tuple(vars(result).values()) if isinstance(result, pfair.Entry) else result)


def test_nothing_leaks():
    def once():
        one = pfair.Dispatcher(1, 6, 10_000, 4)
        one.take_log(0, [pfair.arrive("a", 1, 2), pfair.promise(10_000)])
        one.plan()

    for _ in range(20):
        once()
    before = resource.getrusage(resource.RUSAGE_SELF).ru_maxrss
    for _ in range(100):
        once()
    gc.collect()
    assert resource.getrusage(resource.RUSAGE_SELF).ru_maxrss - before < 4000
