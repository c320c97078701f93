"""Who is refused while others leave? In each set M + 1 of 2M + 2 tasks depart at random slots, and for each of them one of the same
weight arrives 0 to 9 slots later. Prints a table."""
import numpy as np

import pfair
from pfair import study

PROCESSORS, LOADS, SETS, SLOTS = (1, 2, 4, 8, 16), (50, 60, 70, 80, 90, 100), 100, 480


def drawn(processors, load, seed):
    rng = np.random.default_rng(seed)
    script = study.task_set(study.rand_fixed_sum(2 * processors + 2, load * processors / 100, rng), processors, SLOTS, rng)
    tasks = [entry for log in script.logs for entry in log]
    said = []
    for place in rng.choice(len(tasks), processors + 1, replace=False):
        task, leaves = tasks[place], int(rng.integers(SLOTS))
        comes = min(leaves + int(rng.integers(10)), SLOTS - 1)
        said += [pfair.depart(task.name, at=leaves, floor=leaves), pfair.arrive("n" + task.name, task.cost, task.period, at=comes, floor=comes)]
    for place, entry in enumerate(sorted(said, key=lambda entry: entry.at)):
        script.logs[place % processors].append(entry)
    return script


def summary(script):
    """Arrivals, refused ones, and the greatest lag."""
    schedule = pfair.schedule(script)
    counts, lags = schedule.counts(), schedule.lags()
    return counts.arrivals, counts.refused, max(lags["numerator"] / lags["period"], default=0)


if __name__ == "__main__":
    print("| processors | load | sets | arrivals | refused, no room | sets with a lag of 1 or more | greatest lag |\n|---|---|---|---|---|---|---|")
    groups = [(processors, load) for processors in PROCESSORS for load in LOADS]
    rows = study.run((drawn(*group, seed) for group in groups for seed in range(SETS)), summary)
    for place, (processors, load) in enumerate(groups):
        arrivals, refused, lags = zip(*rows[place * SETS : (place + 1) * SETS])
        print(f"| {processors} | {load} % | {SETS} | {sum(arrivals)} | {sum(refused)} | {sum(lag >= 1 for lag in lags)} | {max(lags):.3f} |")
