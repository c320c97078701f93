"""Generators, counts, tests of schedulability, and studies on executors."""
import concurrent.futures
import math
import multiprocessing
from fractions import Fraction

import numpy as np
import pytest
from conftest import outside, refusal
from hypothesis import given, settings
from hypothesis import strategies as some

import pfair
from pfair import study


class Draws:
    """In the place of a random generator: it gives numbers of the test's own, and keeps the order."""

    def __init__(self, *numbers, periods=()):
        self.numbers, self.periods = list(numbers), periods

    def random(self, size=None):
        return self.numbers.pop(0) if size is None else np.array([self.numbers.pop(0) for _ in range(size)])

    def permutation(self, weights):
        return weights

    def choice(self, periods, size):
        assert len(self.periods) == size
        return np.array(self.periods)


def test_uunifast_by_hand():
    """0.9, of which a share is cut by the square root of 0.25, and then by 0.5."""
    assert np.allclose(study.uunifast_discard(3, 0.9, Draws(0.25, 0.5)), [0.45, 0.225, 0.225])
    # a weight over 1 is drawn anew, one of 1 isn't
    assert np.allclose(study.uunifast_discard(2, 1.5, Draws(0.25, 0.5)), [0.75, 0.75])
    assert study.uunifast_discard(2, 1.25, Draws(0.2, 0.5)).tolist() == [1.0, 0.25]
    assert study.uunifast_discard(1, 0.7, Draws()).tolist() == [0.7]


def test_uunifast_is_given_up(monkeypatch):
    assert study._MOST_DRAWN == 1_000_000
    monkeypatch.setattr(study, "_MOST_DRAWN", 3)
    draws = Draws(*[0.0] * 4)
    refusal(ValueError, "no set without a weight over 1 in 3 draws", study.uunifast_discard, 2, 1.5, draws)
    assert draws.numbers == [0.0]


def test_loads_out_of_range():
    for draw in (study.uunifast_discard, study.rand_fixed_sum):
        for load in (0, -1, 5.5):
            said = f"a load of {load} isn't in 0 .. 5, the number of tasks"
            refusal(ValueError, said, draw, 5, load, np.random.default_rng(3))
        assert draw(1, 1, np.random.default_rng(3)).tolist() == [1]
    assert np.allclose(study.rand_fixed_sum(5, 5, np.random.default_rng(3)), 1)


def test_faces_by_hand():
    """Half the way from the middle to an end: there one of two weights is 1 if their sum is 1.3, and 0 if it is 0.6."""
    assert np.allclose(study.rand_fixed_sum(2, 1.3, Draws(0.7, 0.5)), [0.475, 0.825])
    assert np.allclose(study.rand_fixed_sum(2, 0.6, Draws(0.7, 0.5)), [0.45, 0.15])
    # of three with the sum 1.5 either face is as likely; near to the tip by the square root of what is drawn
    full, empty = (study.rand_fixed_sum(3, 1.5, Draws(face, 0.5, 1.0, 0.25)) for face in (0.5, 0.499))
    assert np.allclose(full, [0.5, 0.25, 0.75]) and np.allclose(empty, [0.5, 0.75, 0.25])


@settings(max_examples=60)
@given(some.integers(1, 9), some.floats(0.05, 0.95), some.integers(-2, 11))
def test_volumes(number, part, whole):
    """Those of slices of cubes are the density of a sum of uniform numbers, and nothing outside."""
    volume = study._volumes(9, 3 + part)
    inside = irwin_hall(number, part + whole) if number > 1 else 1
    wanted = inside if 0 <= whole < number else 0
    assert math.isclose(volume(number, part + whole), wanted, rel_tol=1e-6, abs_tol=1e-9)


def irwin_hall(number, at):
    """The density of the sum of so many uniform numbers."""
    terms = ((-1) ** k * math.comb(number, k) * np.maximum(at - k, 0) ** (number - 1) for k in range(number + 1))
    return np.asarray(sum(terms)) / math.factorial(number - 1)


@settings(max_examples=60)
@given(some.lists(some.tuples(some.integers(1, 999), some.sampled_from(study.PERIODS)), min_size=1, max_size=9))
def test_costs(drawn_):
    """Whole costs from 1 to the period, whose weights add to at most the sum, and to less than 1/8 below it."""
    weights, periods = [number / 1000 for number, _ in drawn_], [period for _, period in drawn_]
    total = sum(Fraction(number, 1000) for number, _ in drawn_)
    if total < sum(Fraction(1, period) for period in periods):
        text = f"{len(periods)} tasks of cost 1 are already over this load: longer periods are needed"
        refusal(ValueError, text, study._costs, weights, periods)
        return
    costs = study._costs(weights, periods)
    left = total - sum(Fraction(cost, period) for cost, period in zip(costs, periods))
    assert all(1 <= cost <= period for cost, period in zip(costs, periods)) and len(costs) == len(periods)
    assert left >= Fraction(-2, 10**9) and (left < Fraction(1, 8) or costs == periods)


def test_costs_by_hand():
    # 6.2, 2.5 and 1.3 quanta: what is left goes to the task that lost the most
    assert study._costs([0.62, 0.25, 0.13], [10, 10, 10]) == [6, 3, 1]
    # light tasks take a whole quantum, so that the heaviest is lowered, as far as it is wanted
    assert study._costs([0.28, 0.01, 0.01], [10, 10, 10]) == [1, 1, 1]
    assert study._costs([0.48, 0.01, 0.01], [10, 10, 10]) == [3, 1, 1]
    assert study._costs([0.31, 0.27, 0.01, 0.01], [10] * 4) == [2, 2, 1, 1]
    assert study._costs([0.52, 0.24, 0.02, 0.02, 0.01, 0.01], [20, 10, 10, 10, 10, 10]) == [4, 2, 1, 1, 1, 1]
    assert study._costs([1.0, 0.25], [100, 10]) == [100, 2] and study._costs([1.0, 1.0], [7, 9]) == [7, 9]
    # ten floats of 0.1 add to a little less than 1; what is less by more than a billionth is less
    assert sum([0.1] * 10) < 1 and study._costs([0.1] * 10, [10] * 10) == [1] * 10
    assert study._costs([0.1] * 9 + [0.1 - 0.9e-9], [10] * 10) == [1] * 10
    text = "10 tasks of cost 1 are already over this load: longer periods are needed"
    refusal(ValueError, text, study._costs, [0.1] * 9 + [0.1 - 1.5e-9], [10] * 10)


def test_sets():
    """The tasks are dealt to the logs in turn, all at slot 0; the frame is the least common multiple of the periods."""
    script = study.task_set([0.5, 0.25, 0.75], 2, 77, Draws(periods=[4, 6, 8]), (4, 6, 8))
    logs = [[pfair.arrive("t0", 2, 4), pfair.arrive("t2", 6, 8)], [pfair.arrive("t1", 1, 6)]]
    assert script == pfair.Script(2, 24, 77, logs)
    early = study.task_set([0.5, 0.25], 1, 9, Draws(periods=[4, 6]), early=True)
    assert early.logs == [[pfair.arrive("t0", 2, 4, early=True), pfair.arrive("t1", 1, 6, early=True)]]
    rng, asked = np.random.default_rng(1), []
    for _ in range(40):
        script = study.task_set(study.rand_fixed_sum(9, 2.5, rng), 3, 9, rng)
        asked += [entry.period for log in script.logs for entry in log]
        assert not any(entry.early for log in script.logs for entry in log)
    assert set(asked) == set(study.PERIODS) and study.PERIODS == (8, 10, 12, 15, 16, 20, 24, 30, 40, 48, 60)


def test_sets_that_make_no_sense():
    rng, words = np.random.default_rng(1), {"processors": 2, "slots": 9}

    def made(weights=(0.5,), **more):
        return study.task_set(weights, rng=rng, **{**words, **more})

    for weight in (0, -0.5, 1.5, float("nan"), Fraction(3, 2)):
        said = f"weights[1] = {weight} isn't above 0 and at most 1, a share of a processor"
        refusal(ValueError, said, made, [0.5, weight])
    for weight in ("1", None, 1j):
        refusal(TypeError, f"weights[0] = {weight!r} is no number", made, [weight])
    for wrong in (0, 65):
        outside("processors", wrong, lambda: made(processors=wrong), least=1, most=64)
    for wrong in (0, 1_000_001):
        outside("slots", wrong, lambda: made(slots=wrong), least=1, most=1_000_000)
        outside("periods[1]", -wrong, lambda: made(periods=[8, -wrong]), least=1, most=10**9)
    refusal(ValueError, "periods: there are none to draw from", lambda: made(periods=[]))
    refusal(TypeError, "periods[0] = 8.0 is no whole number", lambda: made(periods=[8.0]))
    assert made([1, np.float32(0.5), Fraction(1, 2)]).processors == 2 and made([]).logs == [[], []]


def test_periods_may_be_repeated():
    """What is drawn from is as it was given: a period that is there twice comes twice as often."""

    class Keeps(Draws):
        def choice(self, periods, size):
            self.asked = list(periods)
            return super().choice(periods, size)

    rng = Keeps(periods=[60])
    study.task_set([0.5], 1, 9, rng, [8, 8, 60, 8])
    assert rng.asked == [8, 8, 60, 8]


def test_public_names():
    """What the module defines, and not what it needs."""
    own = {name for name, value in vars(study).items() if getattr(value, "__module__", "") == study.__name__}
    own = {name for name in own if callable(getattr(study, name)) and name != "Summary"}
    assert {name for name in own if name[0] != "_"} | {"PERIODS"} == set(study.__all__)


def test_early_sets_are_planned():
    """Early tasks run ahead of their fluid share: some lag is -1 or less, which none is without."""
    for early in (False, True):
        rng = np.random.default_rng(7)
        script = study.task_set(study.rand_fixed_sum(5, 1.2, rng), 2, 200, rng, early=early)
        lags = pfair.schedule(script).lags()
        assert bool((lags["numerator"] <= -lags["period"].astype(np.int64)).any()) == early
        assert pfair.schedule(script).counts().behind == 0


def test_weights_of_sets():
    log = [pfair.arrive("a", 1, 2), pfair.depart("a", at=3), pfair.arrive("b", 2, 6, at=4, floor=4)]
    # a log past the processors counts for nothing
    script = pfair.Script(2, 6, 9, [log, [pfair.arrive("c", 3, 4)], [pfair.arrive("d", 1, 1)]])
    assert study.weights_of(script) == [Fraction(1, 2), Fraction(1, 3), Fraction(3, 4)]
    for seed in range(40):
        rng = np.random.default_rng(seed)
        script = study.task_set(study.rand_fixed_sum(9, 2.55, rng), 3, 100, rng)
        total = sum(study.weights_of(script))
        assert total <= Fraction(2.55) + Fraction(1, 10**9) and total > 2.35


def test_fits_by_hand():
    half, third = Fraction(1, 2), Fraction(1, 3)
    # three tasks of 2/3 on two processors: none of the partitioned tests, but PD2 has room
    heavy = [Fraction(2, 3)] * 3
    assert not study.fits_partitioned_edf(heavy, 2) and not study.fits_global_edf(heavy, 2)
    script = pfair.Script(2, 3, 30, [[pfair.arrive(name, 2, 3) for name in "abc"]])
    assert study.summary_of(script) == pfair.schedule(script).counts() and study.summary_of(script).refused == 0
    assert study.fits_partitioned_edf([half] * 4, 2) and not study.fits_partitioned_edf([half] * 5, 2)
    # the heaviest first, each on the first processor that has room
    tenths = [Fraction(tenth, 10) for tenth in (3, 3, 7, 7)]
    assert study.fits_partitioned_edf(tenths, 2) and not study.fits_partitioned_edf([*tenths, Fraction(1, 100)], 2)
    assert not study.fits_partitioned_edf([Fraction(tenth, 10) for tenth in (6, 5, 4, 3, 2, 1)][:5], 1)
    # the first one that has room, where the fullest one would do
    best = [Fraction(*weight) for weight in ((23, 30), (2, 3), (2, 5), (2, 5), (3, 10), (1, 5), (2, 15), (1, 10))]
    assert not study.fits_partitioned_edf(best, 3)
    # at the bound itself, where sums of floats are above it
    assert study.fits_partitioned_edf([Fraction(1, 5), Fraction(23, 30), Fraction(1, 30)], 1)
    assert study.fits_global_edf([Fraction(3, 10), Fraction(13, 15), Fraction(1, 10)], 3)
    # at most 2 - 1/2, and 3 - 2 * 1/2
    assert study.fits_global_edf([half] * 3, 2) and not study.fits_global_edf([half, half, half, Fraction(1, 60)], 2)
    assert study.fits_global_edf(iter([half] * 4), 3) and not study.fits_global_edf([half] * 5, 3)
    assert study.fits_global_edf([third] * 5, 2) and study.fits_global_edf([], 2) and study.fits_partitioned_edf([], 1)


class Recording(concurrent.futures.Executor):
    """Runs here, and keeps how it was asked."""

    def map(self, call, *given_, timeout=None, chunksize=1):
        self.asked = call, given_, chunksize
        return map(call, *given_)


def test_runs_as_they_are_asked():
    executor = Recording()
    assert study.run([3, 1, 2], lambda number: 10 * number, executor) == [30, 10, 20]
    assert executor.asked[1:] == (([3, 1, 2],), 16)
    assert study.run([], executor=executor, chunk=5) == [] and executor.asked == (study.summary_of, ([],), 5)


def test_runs_alone(monkeypatch):
    """On processes of this machine, in pieces of the same length."""
    monkeypatch.setattr(study, "ProcessPoolExecutor", lambda: made)
    made = Recording()
    assert study.run([4, 5], str) == ["4", "5"] and made.asked == (str, ([4, 5],), 16)


@pytest.mark.parametrize("draw", (study.uunifast_discard, study.rand_fixed_sum))
def test_generators_keep_the_sum(draw):
    rng = np.random.default_rng(3)
    for tasks, load in ((1, 0.5), (1, 1.0), (2, 1.0), (2, 1.7), (5, 2.0), (8, 2.5), (12, 4.0)):
        sets = np.array([draw(tasks, load, rng) for _ in range(400)])
        assert np.allclose(sets.sum(axis=1), load) and (sets >= -1e-12).all() and (sets <= 1 + 1e-12).all()
        assert np.allclose(sets.mean(axis=0), load / tasks, atol=0.06)


@pytest.mark.parametrize("draw", (study.uunifast_discard, study.rand_fixed_sum))
def test_one_weight_has_its_distribution(draw):
    """If each set with the sum u is as likely as any other, the density of a weight x of n is in proportion to that of
    a sum u - x of n - 1 uniform numbers. By Kolmogorov and Smirnov: the greatest distance of what was drawn from that.
    4,000 draws of it pass the limit in one of 1,000 cases."""
    rng = np.random.default_rng(6)
    for tasks, load in ((3, 1.5), (4, 1.3), (5, 2.2)):
        weights = np.sort([draw(tasks, load, rng)[0] for _ in range(4_000)])
        points = np.linspace(0, 1, 20_001)
        density = irwin_hall(tasks - 1, load - points)
        below = np.append(0, np.cumsum((density[1:] + density[:-1]) / 2))
        wanted = np.interp(weights, points, below / below[-1])
        shares = np.arange(4_001) / 4_000
        distance = max(abs(wanted - shares[:-1]).max(), abs(wanted - shares[1:]).max())
        assert distance < 1.95 / np.sqrt(4_000)


def drawn(seed, processors=3, slots=300, tasks=9):
    rng = np.random.default_rng(seed)
    return study.task_set(study.rand_fixed_sum(tasks, 0.85 * processors, rng), processors, slots, rng)


SETS = [drawn(seed) for seed in range(12)]
WANTED = [study.summary_of(script) for script in SETS]


@pytest.mark.parametrize("how", ("fork", "spawn"))
def test_runs_on_processes(how):
    with concurrent.futures.ProcessPoolExecutor(2, multiprocessing.get_context(how)) as processes:
        assert study.run(SETS, executor=processes, chunk=2) == WANTED


def test_runs_on_threads_and_alone():
    with concurrent.futures.ThreadPoolExecutor(4) as threads:
        assert study.run(SETS, executor=threads) == WANTED
    assert study.run(SETS) == WANTED
