"""What the tests of cycles share: scripts whose tasks all arrive at slot 0."""
from hypothesis import strategies as some

import pfair

PERIODS = some.sampled_from((1, 2, 3, 4, 5, 6, 8, 12))
TASKS = some.tuples(some.sampled_from("abcdefgh"), some.integers(1, 12), PERIODS, some.booleans())


def script_with(processors, frame, *tasks, slots=1):
    """A script with these tasks (name, cost, period, and maybe early), dealt to the logs in turn."""
    logs = [[] for _ in range(processors)]
    for place, (name, cost, period, *early) in enumerate(tasks):
        logs[place % processors].append(pfair.arrive(name, cost, period, early=any(early)))
    return pfair.Script(processors, frame, slots, logs)


def _script_of(processors, drawn):
    tasks = ((name, min(cost, period), period, early) for name, cost, period, early in drawn)
    return script_with(processors, 24, *tasks)


#: Some of the tasks are early, and some are refused: a name in use, a period that doesn't divide 24, no room.
SCRIPTS = some.builds(_script_of, some.integers(1, 4), some.lists(TASKS, max_size=10))
