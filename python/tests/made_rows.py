"""Rows of runs that are made up, and pictures of them that are kept."""
from pfair import _rows, _trace


class Rows(_rows.PictureRows):
    """Rows that are made up: of tasks that come, leave and run as the caller says."""

    def __init__(self, processors=1, slots=14, frame=12):
        self.processors, self.slots, self.frame = processors, slots, frame
        self.made, self.ran, self.told = [], [], []

    def decide(self, slot, task, outcome, value=0, **entry):
        self.made.append(_rows.Decision(slot, task, outcome, value, entry))
        return self

    def join(self, slot, task, cost, period):
        return self.decide(slot, task, "admitted", cost=cost, period=period)

    def leave(self, slot, task, freed):
        return self.decide(slot, task, "departing", freed)

    def late(self, slot, task, index, by):
        return self.decide(slot, task, "delayed", index=index, by=by)

    def refuse(self, slot, task, *numbers):
        for number in numbers:
            self.decide(slot, task, "refused", number)
        return self

    def run(self, slot, place, task, index):
        self.ran.append((slot, place, task, index))
        return self

    def lag(self, task, period, *numerators, first=1):
        self.told += [_trace.Lag(time, task, numerator, period) for time, numerator in enumerate(numerators, first)]
        return self

    def decided(self):
        return sorted(self.made, key=lambda row: row.slot)

    def quanta(self):
        told = [(row.slot, row.task, row.outcome, row.entry) for row in self.decided()]
        return _trace.quanta_of(sorted(self.ran), told)

    def lags(self, start=0):
        return (lag for lag in sorted(self.told, key=lambda lag: lag.time) if lag.time > start)


def every_kind():
    """Each kind of thing that a schedule can have, but for processors past 8."""
    rows = Rows(processors=2, slots=130).join(0, "ab", 2, 5).join(0, "c", 1, 4)
    rows.refuse(0, "ab", 20).refuse(0, "no_one", 23).refuse(2, "no_one", 24, 22, 24).refuse(8, "c", 25, 25)
    rows.join(1, "idle", 1, 9).leave(4, "idle", 4).late(3, "c", 2, 3).late(4, "c", 3, 1).leave(6, "ab", 10)
    rows.join(11, "ab", 1, 3).leave(20, "c", 20)
    for slot, place, task, index in (
        (0, 0, "ab", 1), (1, 1, "c", 1), (4, 0, "ab", 2), (5, 1, "ab", 3), (6, 0, "c", 2), (11, 1, "ab", 1),
        (11, 0, "c", 3), (15, 0, "ab", 2), (17, 1, "ab", 3), (23, 0, "ab", 4), (24, 1, "ab", 5), (25, 1, "ab", 6),
        (26, 0, "ab", 7), (38, 1, "ab", 8),
    ):  # fmt: skip
        rows.run(slot, place, task, index)
    return rows


def crowd(tasks, processors, slots, step=1, period=2):
    """Tasks that take turns on all processors, with an index that grows long."""
    rows = Rows(processors, slots)
    for task in range(tasks):
        rows.join(task % 3, f"{'mwx'[task % 3]}_{task}", 1, period)
    for slot in range(3, slots, step):
        for place in range(min(processors, tasks)):
            rows.run(slot, place, f"{'mwx'[(slot + place) % tasks % 3]}_{(slot + place) % tasks}", slot // 2 + 1)
    return rows


def lags_of_all_kinds(slots=14):
    rows = Rows(1, slots).join(0, "far", 1, 4).join(2, "far_too", 3, 4)
    rows.join(0, "gone", 1, 2).leave(3, "gone", 4).join(6, "gone", 1, 3)
    rows.lag("far", 4, 1, 2, 3, 4, 5, 6, 7, 5, 2, -3, -4, -5, -6, -9)
    rows.lag("far_too", 4, 3, 5, 9, 4, 3, 4, -4, -3, -7, -8, -5, 0, first=3)
    return rows.lag("gone", 2, 1, 0, 1).lag("gone", 3, 1, -1, 0, 1, 2, 3, 4, 5, first=7)


def wide_gap():
    """A name of many letters, a weight at the right end, and indices and times of many digits."""
    rows = Rows(9, 200_000, 1_000_000_000).join(0, "mmmmmmmmmmmmmmmw", 1, 1).join(199_999, "z", 1, 1_000_000_000)
    for slot in (*range(150, 160), *range(5000, 5010), *range(99_990, 100_004), *range(199_960, 200_000)):
        rows.run(slot, slot % 9, "mmmmmmmmmmmmmmmw", slot + 1)
    return rows


FAR = ((150, 200), (5000, 5014), (99_990, 100_004), (199_990, 200_000), (199_961, 200_000))
LAGS = ((0, 14), (2, 14), (6, 8), (9, 10), (0, 2), (3, 4))
EVERY = tuple((0, stop) for stop in (4, 14, 15, 40, 41, 44, 100, 130)) + ((3, 20), (4, 9), (6, 12), (10, 12), (12, 13))
# a name, the rows, and the pictures and slots that are kept of it
CASES = {
    "every_kind": (every_kind(), [("schedule", *slots) for slots in EVERY]),
    "crowd_of_8": (crowd(8, 8, 5), [("schedule", 3, 5)]), "row_of_16": (crowd(16, 1, 3), [("schedule", 2, 3)]),
    "row_of_17": (crowd(17, 1, 3), [("schedule", 2, 3)]), "row_of_25": (crowd(25, 1, 3), [("schedule", 2, 3)]),
    "row_of_33": (crowd(33, 1, 3), [("schedule", 2, 3)]), "crowd": (crowd(26, 10, 6), [("schedule", 4, 6)]),
    "row_of_24": (crowd(24, 1, 3), [("schedule", 2, 3), ("lags", 2, 3)]),
    "crowd_of_60": (crowd(60, 1, 3), [("schedule", 2, 3)]),
    "crowd_of_61": (crowd(61, 1, 44), [(kind, at, 44) for kind in ("schedule", "lags") for at in (42, 4, 3)]),
    "widths": (crowd(3, 3, 500, 29, 40), [("schedule", 0, end) for end in (72, 73, 120, 121, 240, 241, 400, 401)]),
    "lags": (lags_of_all_kinds(), [("lags", *slots) for slots in LAGS]),
    "lags_of_25": (crowd(25, 1, 4), [("lags", 3, 4)]), "lags_of_60": (crowd(60, 1, 4), [("lags", 3, 4)]),
    "wide_lags": (lags_of_all_kinds(80), [("lags", 0, 40), ("lags", 0, 80)]),
    "narrow_lags": (lags_of_all_kinds(500), [("lags", 0, 121), ("lags", 0, 401)]),
    "far": (wide_gap(), [("schedule", *slots) for slots in FAR] + [("lags", 199_960, 200_000)]),
    "name_that_just_fits": (Rows().join(0, "camera", 1, 2).run(0, 0, "camera", 1), [("schedule", 0, 2)]),
    "nothing": (Rows(3, 5), [("schedule", 0, 5), ("lags", 4, 5)]),
}
# those that are kept whole; of the others their sums
WHOLE = ("crowd.schedule.4.6", "every_kind.schedule.0.44", "far.schedule.99990.100004", "lags.lags.0.14")
WHOLE += ("nothing.lags.4.5",)
KEPT = [(name, *slots) for name, (_, kept) in CASES.items() for slots in kept]
