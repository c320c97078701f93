"""How often is a task preempted, and how often is it moved to another processor? Draws both, for each quantum, over the load into the
file that is named."""
import sys

import numpy as np

from pfair import study

PROCESSORS, LOADS, SETS, SLOTS = (2, 4, 8), range(40, 101, 10), 50, 960


def drawn(processors, load, seed):
    rng = np.random.default_rng(seed)
    return study.task_set(study.rand_fixed_sum(3 * processors, load * processors / 100, rng), processors, SLOTS, rng)


if __name__ == "__main__":
    groups = [(processors, load) for processors in PROCESSORS for load in LOADS]
    counts = study.run(drawn(*group, seed) for group in groups for seed in range(SETS))
    print("| processors | load | sets | quanta | preemptions a quantum | moves a quantum |\n|---|---|---|---|---|---|")
    rates = {}
    for place, (processors, load) in enumerate(groups):
        own = counts[place * SETS : (place + 1) * SETS]
        quanta, preemptions, moves = (sum(getattr(count, name) for count in own) for name in ("quanta", "preemptions", "moves"))
        rates.setdefault(processors, []).append((preemptions / quanta, moves / quanta))
        print(f"| {processors} | {load} % | {SETS} | {quanta} | {preemptions / quanta:.3f} | {moves / quanta:.3f} |")
    if sys.argv[1:]:
        import matplotlib
        from matplotlib import pyplot

        matplotlib.use("svg")
        matplotlib.rcParams["svg.hashsalt"] = "pfair"

        figure, axes = pyplot.subplots(1, 2, figsize=(9, 4), sharey=True, layout="constrained")
        for axis, what, title in zip(axes, (0, 1), ("preemptions a quantum", "moves a quantum")):
            for (processors, own), marker in zip(rates.items(), "os^"):
                axis.plot(LOADS, [rate[what] for rate in own], marker=marker, label=f"{processors} processors")
            axis.set(title=title, xlabel="load, %")
        axes[0].legend()
        figure.savefig(sys.argv[1], metadata={"Date": None})
