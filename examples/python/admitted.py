"""Which share of random sets is schedulable, by what? Beside PD2, which admits a set exactly if its weights add to at most M: first-fit
partitioned EDF, and the test of Goossens, Funk and Baruah for global EDF. Draws the shares over the load into the file that is named."""
import sys

import numpy as np

import pfair
from pfair import study

PROCESSORS, TASKS, LOADS, SETS = 4, 8, range(50, 101, 5), 500
NAMES = ("PD2, as admitted", "first-fit partitioned EDF", "global EDF by the test")


def drawn(load, seed):
    rng = np.random.default_rng(seed)
    return study.task_set(study.rand_fixed_sum(TASKS, load * PROCESSORS / 100, rng), PROCESSORS, 1, rng)


def summary(script):
    weights = study.weights_of(script)
    return pfair.schedule(script).counts().refused == 0, study.fits_partitioned_edf(weights, PROCESSORS), study.fits_global_edf(weights, PROCESSORS)


if __name__ == "__main__":
    rows = np.array(study.run((drawn(load, seed) for load in LOADS for seed in range(SETS)), summary)).reshape(len(LOADS), SETS, 3).mean(axis=1)
    print(f"| load | {' | '.join(NAMES)} |\n|---|---|---|---|")
    for load, shares in zip(LOADS, rows):
        print(f"| {load} % | {' | '.join(f'{100 * share:.0f} %' for share in shares)} |")
    if sys.argv[1:]:
        import matplotlib
        from matplotlib import pyplot

        matplotlib.use("svg")
        matplotlib.rcParams["svg.hashsalt"] = "pfair"

        figure, axis = pyplot.subplots(figsize=(7, 4), layout="constrained")
        for name, shares, marker in zip(NAMES, rows.T, "os^"):
            axis.plot(LOADS, 100 * shares, marker=marker, label=name)
        axis.set(xlabel=f"load of each of {PROCESSORS} processors, %", ylabel=f"schedulable sets of {TASKS} tasks, %", ylim=(-3, 103))
        axis.legend()
        figure.savefig(sys.argv[1], metadata={"Date": None})
