"""Sets of tasks drawn at random, tests of schedulability to compare with, and their schedules, made side by side."""
from __future__ import annotations

from concurrent.futures import Executor, ProcessPoolExecutor
from fractions import Fraction
from math import floor, lcm
from numbers import Real
from typing import Callable, Iterable, Optional, Sequence, TypeVar

import numpy as np
import numpy.typing as npt

from ._entries import Entry, Script, arrive
from ._numbers import whole
from ._schedule import Counts, Schedule

__all__ = [
    "PERIODS", "fits_global_edf", "fits_partitioned_edf", "rand_fixed_sum", "run", "summary_of", "task_set",
    "uunifast_discard", "weights_of",
]

Weights = npt.NDArray[np.float64]
Summary = TypeVar("Summary")

#: The periods, in slots, that `task_set` draws from unless it is given others.
PERIODS = (8, 10, 12, 15, 16, 20, 24, 30, 40, 48, 60)
# sets that uunifast_discard draws before it gives up
_MOST_DRAWN = 1_000_000


def uunifast_discard(tasks: int, load: float, rng: np.random.Generator) -> Weights:
    """Draws weights with a given sum, each at most 1, uniformly from all such sets.

    Parameters
    ----------
    tasks : int
        The number of weights.
    load : float
        Their sum, above 0 and at most `tasks`.
    rng : numpy.random.Generator
        Where the random numbers come from.

    Returns
    -------
    ndarray of float64
        The weights.

    Raises
    ------
    ValueError
        If the load is out of its range, or if 1,000,000 sets were drawn and each has a weight over 1.

    Notes
    -----
    O(n) for each set of n weights. Near a load of n most sets are discarded: `rand_fixed_sum` draws from the same
    distribution and discards none.

    UUniFast: E. Bini, G. Buttazzo, Measuring the performance of schedulability tests, Real-Time Systems 30, 2005.
    Discarding sets with a weight over 1: R. Davis, A. Burns, RTSS 2009.
    """
    _in_range(tasks, load)
    for _ in range(_MOST_DRAWN):
        sums: Weights = np.zeros(tasks + 1)
        sums[0], sums[1:-1] = load, load * np.cumprod(rng.random(tasks - 1) ** (1 / np.arange(tasks - 1, 0, -1)))
        weights: Weights = sums[:-1] - sums[1:]
        if weights.max() <= 1:
            return weights
    raise ValueError(f"no set without a weight over 1 in {_MOST_DRAWN} draws")


def rand_fixed_sum(tasks: int, load: float, rng: np.random.Generator) -> Weights:
    """Draws weights with a given sum, each at most 1, uniformly from all such sets, without discarding any.

    Parameters
    ----------
    tasks : int
        The number of weights.
    load : float
        Their sum, above 0 and at most `tasks`.
    rng : numpy.random.Generator
        Where the random numbers come from.

    Returns
    -------
    ndarray of float64
        The weights.

    Raises
    ------
    ValueError
        If the load is out of its range.

    Notes
    -----
    O(n**2) for n weights. The sets with a sum are a slice of the unit cube, made of cones with their tip in its middle,
    one on each face where a weight is 0 or 1. The face is drawn by the volumes of the cones, then a set in it by the
    same rule, and then how near to the tip.

    RandFixedSum: R. Stafford, 2006; P. Emberson, R. Stafford, R. Davis, Techniques for the synthesis of multiprocessor
    tasksets, WATERS 2010.
    """
    _in_range(tasks, load)
    volume = _volumes(tasks, load)
    fixed, rest = [], load
    for number in range(tasks, 1, -1):
        cones = rest * volume(number - 1, rest), (number - rest) * volume(number - 1, rest - 1)
        is_full = rng.random() * sum(cones) >= cones[0]
        fixed.append((number, rest, is_full))
        rest -= is_full
    weights = np.array([rest])
    for number, rest, is_full in reversed(fixed):
        near = rng.random() ** (1 / (number - 1))
        weights = (1 - near) * rest / number + near * np.append(weights, float(is_full))
    return rng.permutation(weights)


def _in_range(tasks: int, load: float) -> None:
    if not 0 < load <= tasks:
        raise ValueError(f"a load of {load} isn't in 0 .. {tasks}, the number of tasks")


def _volumes(tasks: int, load: float) -> Callable[[int, float], float]:
    """Returns a function for the volumes of slices of unit cubes, up to a factor: the recurrence of Irwin and Hall."""
    part = load - floor(load)
    rows = [np.array([1.0])]
    for number in range(2, tasks + 1):
        below = rows[-1]
        sums = part + np.arange(number)
        rows.append((sums * np.append(below, 0) + (number - sums) * np.append(0, below)) / (number - 1))

    def volume(number: int, total: float) -> float:
        whole = round(total - part)
        return float(rows[number - 1][whole]) if 0 <= whole < number else 0.0

    return volume


def task_set(
    weights: Sequence[float],
    processors: int,
    slots: int,
    rng: np.random.Generator,
    periods: Sequence[int] = PERIODS,
    early: bool = False,
) -> Script:
    """Makes a script of tasks near the given weights, which all arrive at slot 0.

    Parameters
    ----------
    weights : sequence of float
        The weights to come near, each above 0 and at most 1.
    processors : int
        The number of processors, 1 to 64; the tasks t0, t1, .. are dealt to their logs in turn.
    slots : int
        The number of slots of the run, 1 to 1,000,000.
    rng : numpy.random.Generator
        Where the periods are drawn.
    periods : sequence of int
        The periods to draw from, in slots, each 1 to 1,000,000,000.
    early : bool
        Whether the subtasks of the tasks may run before their releases, within a job.

    Returns
    -------
    Script
        Its frame is the least common multiple of the periods that were drawn.

    Raises
    ------
    ValueError
        If a weight isn't above 0 and at most 1; if there are no periods; or if costs of 1 already exceed the sum of the
        weights: only longer periods can help.
    OutOfRange
        If another number is out of its range.
    TypeError
        If a weight is no number, or another number isn't whole.

    Notes
    -----
    O(n log n) for n tasks. Costs are whole quanta, at least 1. The sum of the tasks' weights exceeds that of `weights`
    by at most a billionth, and is less than 1/p below it, p being the least of `periods`. The frame isn't checked:
    `Schedule` refuses one of more than 1,000,000,000 slots.
    """
    for place, weight in enumerate(weights):
        _check_weight(weight, f"weights[{place}]")
    if not len(periods):
        raise ValueError("periods: there are none to draw from")
    lengths = [whole(period, f"periods[{place}]", 1, 1_000_000_000) for place, period in enumerate(periods)]
    drawn = [int(period) for period in rng.choice(lengths, len(weights))]
    whole(slots, "slots", 1, 1_000_000)
    logs: list[list[Entry]] = [[] for _ in range(whole(processors, "processors", 1, 64))]
    for place, (cost, period) in enumerate(zip(_costs(weights, drawn), drawn)):
        logs[place % processors].append(arrive(f"t{place}", cost, period, early=early))
    return Script(processors, lcm(*drawn), slots, logs)


def _check_weight(weight: float, name: str) -> None:
    """Refuses what is no share of a processor."""
    if not isinstance(weight, Real):
        raise TypeError(f"{name} = {weight!r} is no number")
    if not 0 < weight <= 1:
        raise ValueError(f"{name} = {weight} isn't above 0 and at most 1, a share of a processor")


def _costs(weights: Sequence[float], periods: Sequence[int]) -> list[int]:
    # a sum of floats may be a little below the load that was meant
    left = Fraction(float(sum(weights))) + Fraction(1, 10**9)
    costs = [max(1, floor(weight * period)) for weight, period in zip(weights, periods)]
    left -= sum(Fraction(cost, period) for cost, period in zip(costs, periods))
    for place in sorted(range(len(costs)), key=lambda k: weights[k] * periods[k] % 1, reverse=True):
        if costs[place] < periods[place] and Fraction(1, periods[place]) <= left:
            costs[place] += 1
            left -= Fraction(1, periods[place])
    for place in sorted(range(len(costs)), key=lambda k: costs[k], reverse=True):
        lowered = min(costs[place] - 1, max(0, -floor(left * periods[place])))
        costs[place] -= lowered
        left += Fraction(lowered, periods[place])
    if left < 0:
        raise ValueError(f"{len(costs)} tasks of cost 1 are already over this load: longer periods are needed")
    return costs


def weights_of(script: Script) -> list[Fraction]:
    """Returns the weights of a script's arrivals.

    Parameters
    ----------
    script : Script

    Returns
    -------
    list of Fraction
        In the order of processors and entries, without logs past the script's processors.
    """
    entries = (entry for log in script.logs[: script.processors] for entry in log)
    return [Fraction(entry.cost, entry.period) for entry in entries if entry.kind == "arrive"]


def fits_partitioned_edf(weights: Iterable[Fraction], processors: int) -> bool:
    """Returns whether first fit, heaviest task first, puts each task on a processor whose load stays at most 1.

    Parameters
    ----------
    weights : iterable of Fraction
        The weights of the tasks.
    processors : int
        The number of processors, each of which schedules its own tasks by EDF.

    Returns
    -------
    bool
        If true, no task misses a deadline.

    Notes
    -----
    O(n log n + n M) for n tasks and M processors. EDF meets all deadlines of a processor with a load of at most 1: C.
    Liu, J. Layland, Scheduling algorithms for multiprogramming in a hard-real-time environment, Journal of the ACM 20,
    1973.
    """
    loads = [Fraction(0)] * processors
    for weight in sorted(weights, reverse=True):
        for place, load in enumerate(loads):
            if load + weight <= 1:
                loads[place] += weight
                break
        else:
            return False
    return True


def fits_global_edf(weights: Iterable[Fraction], processors: int) -> bool:
    """Returns whether a set passes the test of Goossens, Funk and Baruah for global EDF.

    It does if the sum of its weights is at most M - (M - 1) u, with M processors and the greatest weight u, or if it is
    empty. The test is sufficient: a set that fails it may still meet its deadlines.

    Parameters
    ----------
    weights : iterable of Fraction
        The weights of the tasks.
    processors : int
        The number of processors.

    Returns
    -------
    bool

    Notes
    -----
    O(n) for n tasks. J. Goossens, S. Funk, S. Baruah, Priority-driven scheduling of periodic task systems on
    multiprocessors, Real-Time Systems 25, 2003.
    """
    given = list(weights)
    return not given or sum(given) <= processors - (processors - 1) * max(given)


def summary_of(script: Script) -> Counts:
    """Plans a script and returns the counts of its schedule.

    Parameters
    ----------
    script : Script

    Returns
    -------
    Counts

    Raises
    ------
    PfairError
        As `Schedule`.
    """
    return Schedule(script).counts()


def run(
    scripts: Iterable[Script],
    summary: Callable[[Script], Summary] = summary_of,  # type: ignore[assignment]
    executor: Optional[Executor] = None,
    chunk: int = 16,
) -> list[Summary]:
    """Returns the summary of each script, in the order of the scripts, made by an executor.

    Neither the executor nor the order in which it works changes the result.

    Parameters
    ----------
    scripts : iterable of Script
        The runs to summarize.
    summary : callable
        It is called with each script, by default `summary_of`. For processes it has to be picklable.
    executor : concurrent.futures.Executor, optional
        By default a pool of processes on this machine. If a study outgrows it,
        `distributed.Client(...).get_executor()`.
    chunk : int
        How many scripts a process gets at a time.

    Returns
    -------
    list
        What `summary` returned.

    Raises
    ------
    Exception
        What `summary` raises for the first script for which it does.
    """
    if executor is not None:
        return list(executor.map(summary, scripts, chunksize=chunk))
    with ProcessPoolExecutor() as processes:
        return list(processes.map(summary, scripts, chunksize=chunk))
