"""check(): schedules that are right, one thing planted in each, other policies, and which subtask goes before which."""
import random
from collections import Counter
from fractions import Fraction

import numpy as np
import pytest
from conftest import EXAMPLES, assert_plain, refusal
from hypothesis import given, settings
from hypothesis import strategies as some
from recorded import drawn, rows_of, stays_of

import pfair
from pfair import _check

FILES = sorted(EXAMPLES.glob("*.toml"))
SETS = 300


def found_in(script, rows, **more):
    return [tuple(wrong[:4]) for wrong in assert_plain(pfair.check(script, rows, **more))]


@pytest.mark.parametrize("file", FILES, ids=lambda file: file.stem)
def test_examples(file):
    """What the programs print of the examples is right, also by their order, and with other forms of the rows."""
    placed = file.with_suffix(".placed")
    for rows in [file.with_suffix(".replay"), *([placed] if placed.exists() else [])]:
        assert pfair.check(file, rows) == pfair.check(str(file), rows.read_bytes(), order=True) == []
    quanta = pfair.schedule(file).quanta
    assert len(FILES) >= 7 and pfair.check(file.read_bytes(), quanta, order=True) == []
    assert pfair.check(pfair.read_task_file(file), quanta[["task", "slot"]][::-1], order=True) == []
    assert pfair.check(file, rows_of(quanta)) == pfair.check(file, [row[:2] for row in rows_of(quanta)]) == []


# ---- one thing planted


class Sown:
    """A right schedule, in which one thing is made wrong at a time."""

    def __init__(self, script, rng):
        schedule = pfair.schedule(script)
        self.script, self.rng, self.rows = script, rng, rows_of(schedule.quanta)
        self.stays = stays_of(script, schedule.decisions)
        self.busy = Counter(row[0] for row in self.rows)
        self.ran = {}
        for at, (slot, name, _, _) in enumerate(self.rows):
            stay = next(stay for stay in self.stays if stay.name == name and stay.joined <= slot < stay.left)
            self.ran.setdefault(stay[:2], []).append(at)

    def room(self, slot):
        return 0 <= slot < self.script.slots and self.busy[slot] < self.script.processors

    def moves(self):
        """Each quantum that could run elsewhere, between those beside it: its row, its stay, and such a slot."""
        for stay in self.stays:
            own = self.ran.get(stay[:2], [])
            slots = [stay.joined - 1, *(self.rows[at][0] for at in own), stay.left]
            for index, at in enumerate(own, 1):
                for slot in range(slots[index - 1] + 1, slots[index + 1]):
                    if slot != slots[index]:
                        yield at, stay, index, slot

    def planted(self, kind):
        """Rows with one thing wrong, and what is to be found; None if it can't be planted here."""
        options = list(getattr(self, kind)())
        if not options:
            return None
        at, row, wanted = self.rng.choice(options)
        return [*self.rows[:at], *([row] if row else []), *self.rows[at + 1 :]], wanted

    # of each option the number of a row (behind all for a new one), the row in its place, and what is wrong then

    def move(self, at, slot, kind, name, index):
        return at, [slot, *self.rows[at][1:]], (slot, kind, name, index)

    def crowded(self):
        for at, stay, index, slot in self.moves():
            if stay.bounds(index)[0] <= slot < stay.bounds(index)[1] and not self.room(slot):
                yield self.move(at, slot, "crowded", "", 0)

    def early(self):
        for at, stay, index, slot in self.moves():
            if slot < stay.bounds(index)[0] and self.room(slot):
                yield self.move(at, slot, "early", stay.name, index)

    def tardy(self):
        for at, stay, index, slot in self.moves():
            if slot >= stay.deadline(index) and self.room(slot):
                yield self.move(at, slot, "tardy", stay.name, index)

    def unserved(self):
        for stay in self.stays:
            for at in self.ran.get(stay[:2], [])[-1:]:
                index = self.rows[at][2]
                if stay.deadline(index) <= stay.left:
                    yield at, None, (stay.deadline(index), "unserved", stay.name, index)

    def twice(self):
        for slot, name, index, place in self.rows:
            if self.room(slot):
                yield len(self.rows), [slot, name, index, place], (slot, "twice", name, 0)

    def absent(self):
        for name in sorted({stay.name for stay in self.stays} | {"nobody"}):
            own = [stay for stay in self.stays if stay.name == name]
            for slot in range(self.script.slots):
                if self.room(slot) and not any(stay.joined <= slot < stay.left for stay in own):
                    yield len(self.rows), [slot, name, 1, 0], (slot, "absent", name, 0)

    def index(self):
        for at, (slot, name, index, place) in enumerate(self.rows):
            other = self.rng.choice([index - 1, index + 1, index + 9])
            yield at, [slot, name, other, place], (slot, "index", name, other)

    def place(self):
        for at, (slot, name, index, _) in enumerate(self.rows):
            yield at, [slot, name, index, self.script.processors], (slot, "place", name, 0)


KINDS = ("crowded", "early", "tardy", "unserved", "twice", "absent", "index", "place")


def test_planted():
    """Of 300 sets, one thing of each kind at a random place: it is found, with slot and task, and nothing else."""
    rng, done, seen = random.Random(5), Counter(), 0
    while min(done[kind] for kind in KINDS) < SETS:
        seen += 1
        assert seen < 5 * SETS, done
        sown = Sown(drawn(rng), rng)
        assert pfair.check(sown.script, sown.rows, order=True) == []
        for kind in KINDS:
            if done[kind] < SETS and (planted := sown.planted(kind)):
                rows, wanted = planted
                rng.shuffle(rows)
                columns = {"index": 3, "place": 4}.get(kind, rng.choice((2, 3)))
                assert found_in(sown.script, [row[:columns] for row in rows]) == [wanted]
                done[kind] += 1


# ---- other policies


def schedule_by(policy, tasks, processors, slots):
    """Runs in each slot the first tasks by the policy, one for each processor: rows of slot and task."""
    had, rows = Counter(), []
    for slot in range(slots):
        keys = [(policy(slot, had[name], cost, period), name) for name, cost, period in tasks]
        for _, name in sorted(key for key in keys if key[0] is not None)[:processors]:
            rows.append((slot, name))
            had[name] += 1
    return rows


def edf(slot, had, cost, period):
    """Global EDF: the job with the earliest deadline, quantum by quantum."""
    job = had // cost
    return (job + 1) * period if slot >= job * period else None


def by_lag(slot, had, cost, period):
    """The greatest lag first, of the tasks that are behind at the slot's end."""
    behind = Fraction(cost * (slot + 1), period) - had
    return -behind if behind > 0 else None


def without_groups(slot, had, cost, period):
    """PD2 without its group deadlines."""
    release, deadline, after = had * period // cost, -(-(had + 1) * period // cost), (had + 1) * period // cost
    return (deadline, after - deadline) if release <= slot else None


def set_of(tasks, processors, slots):
    return pfair.Script(processors, slots, slots, [[pfair.arrive(*task) for task in tasks]])


def judged(tasks, slots, rows):
    """What the test's own windows say of each task."""
    stays = stays_of(*(lambda s: (s.script, s.decisions))(pfair.schedule(set_of(tasks, 64, slots))))
    misses = (stay.miss([slot for slot, name in rows if name == stay.name]) for stay in stays)
    return sorted(miss for miss in misses if miss)


@pytest.mark.parametrize("policy,least", [(edf, 21), (by_lag, 0), (without_groups, 0)])
def test_other_policies(policy, least):
    """Sets at full load, by other policies: the misses are those that the windows say, in so many sets."""
    rng, missed = random.Random(7), 0
    for _ in range(60):
        processors, tasks = rng.randint(2, 4), []
        left = Fraction(processors)
        while left:
            period = rng.choice((3, 4, 6, 12))
            cost = min(rng.randint(1, period), left * period)
            if cost == int(cost):
                tasks.append((f"t{len(tasks)}", int(cost), period))
                left -= Fraction(int(cost), period)
        rows = schedule_by(policy, tasks, processors, 48)
        wanted = judged(tasks, 48, rows)
        assert found_in(set_of(tasks, processors, 48), rows) == wanted
        missed += bool(wanted)
    assert missed >= least


def test_without_group_deadlines():
    """The set of examples/python/README.md that misses at 60, and where the order first differs."""
    tasks = [("a", 37, 60), ("b", 2, 3), ("c", 5, 6), ("d", 54, 60), ("e", 59, 60)]
    script, rows = set_of(tasks, 4, 60), schedule_by(without_groups, tasks, 4, 60)
    missed = (60, "unserved", "e", 59, "its deadline is 60")
    text = "subtask 1 of e goes before it, by its group deadline, 60 against 3"
    assert pfair.check(script, rows) == [missed]
    assert pfair.check(script, rows, order=True) == [(0, "order", "b", 1, text), missed]


# ---- the order


LINE = [("z", 8, 11), ("a", 2, 3), ("c", 3, 5), ("w", 1, 330)]
ORDERS = [
    ("az", None), ("ac", (0, "order", "c", 1, "subtask 1 of z goes before it, by its group deadline, 4 against 3")),
    ("cz", (0, "order", "c", 1, "subtask 1 of a goes before it, by its name")),
    ("wz", (0, "order", "w", 1, "subtask 1 of a goes before it, by its deadline, 2 against 330")),
    ("z", (0, "order", "a", 1, "it doesn't run, and a processor is idle")),
    ("", (0, "order", "z", 1, "it doesn't run, and a processor is idle")),
    ("acz", (0, "order", "c", 1, "it isn't among the first 2")), ("xz", (0, "order", "x", 0, "it isn't there")),
]


@pytest.mark.parametrize("ran,wanted", ORDERS, ids=[ran or "none" for ran, _ in ORDERS])
def test_order(ran, wanted):
    """What ran in slot 0 of two processors: the slot differs if it isn't a and z."""
    script = set_of(LINE, 2, 330)
    rows = [row[:2] for row in rows_of(pfair.schedule(script).quanta) if row[0] > 0]
    found = assert_plain(pfair.check(script, [*((0, name) for name in ran), *rows], order=True))
    assert [one for one in found if one.kind == "order"] == ([wanted] if wanted else [])


def test_order_by_b_bit_and_release():
    log = [pfair.arrive("a", 1, 2), pfair.arrive("b", 1, 4, at=1), pfair.late("a", 3, 2, at=3)]
    script = pfair.Script(1, 12, 12, [[*log, pfair.depart("b", at=6)]])
    quanta = rows_of(pfair.schedule(script).quanta)
    wanted = [[0, "a", 1], [1, "b", 1], [2, "a", 2], [5, "b", 2], [6, "a", 3], [8, "a", 4], [10, "a", 5]]
    assert [row[:3] for row in quanta] == wanted
    for rows, wanted in (
        ([[0, "a"], [1, "a"]], (1, "order", "a", 2, "it isn't released before slot 2")),
        ([[0, "a"], [1, "b"], [2, "a"], [4, "a"]], (4, "order", "a", 3, "it isn't released before slot 6")),
        ([row[:2] for row in quanta[:4]] + [[6, "b"]], (6, "order", "b", 0, "it isn't there")),
    ):
        assert [one for one in pfair.check(script, rows, order=True) if one.kind == "order"] == [wanted]
    tasks = [("a", 2, 4), ("b", 3, 4), ("c", 3, 4)]
    rows = [(0, "a"), (0, "b"), *(row[:2] for row in rows_of(pfair.schedule(set_of(tasks, 2, 4)).quanta) if row[0])]
    found = pfair.check(set_of(tasks, 2, 4), rows, order=True)
    assert (0, "order", "a", 1, "subtask 1 of c goes before it, by its b-bit, 1 against 0") in found


def test_order_of_light_tasks_and_later_incarnations():
    """At b-bit 0 group deadlines decide nothing; subtasks are counted from the joining slot."""
    script = pfair.Script(1, 4, 4, [[pfair.arrive("a", 1, 4), pfair.arrive("b", 3, 4)]])
    found = pfair.check(script, [(0, "b"), (1, "b"), (2, "b"), (3, "a")], order=True)
    assert found == [(2, "order", "b", 3, "subtask 1 of a goes before it, by its name")]
    script = pfair.Script(1, 12, 12, [[pfair.arrive("a", 1, 2), pfair.arrive("w", 1, 12)]])
    found = pfair.check(script, [(0, "w"), (1, "a"), *((slot, "a") for slot in range(2, 12, 2))], order=True)
    assert found == [(0, "order", "w", 1, "subtask 1 of a goes before it, by its deadline, 2 against 12")]
    log = [pfair.arrive("a", 1, 3), pfair.arrive("c", 1, 2), pfair.depart("a", at=6, floor=6)]
    script = pfair.Script(1, 6, 12, [[*log, pfair.arrive("a", 1, 3, at=9, floor=9)]])
    rows = [row[:2] for row in rows_of(pfair.schedule(script).quanta)]
    wrong = [row for row in rows if row[0] < 10] + [[10, "a"], [11, "c"]]
    found = [one for one in pfair.check(script, wrong, order=True) if one.kind == "order"]
    assert [10, "c"] in rows and found == [(10, "order", "a", 2, "it isn't released before slot 12")]


def test_order_over_many_slots(monkeypatch):
    """Slots are compared in pieces: a difference in a later one is found, with what is decided up to it."""
    log = [pfair.arrive("a", 1, 2), pfair.arrive("b", 3, 4), pfair.depart("b", at=150, floor=90)]
    script = pfair.Script(2, 24, 200, [log, [pfair.arrive("c", 2, 3, at=60, floor=50)]])
    rows = [row[:2] for row in rows_of(pfair.schedule(script).quanta)]
    wanted = (171, "order", "c", 75, "it doesn't run, and a processor is idle")
    forgotten = []
    monkeypatch.setattr(pfair.Dispatcher, "forget", lambda self, slots: forgotten.append(slots))
    for size in (1, 7, 171, 172):
        monkeypatch.setattr(_check, "_SLOTS_AT_ONCE", size)
        forgotten.clear()
        assert pfair.check(script, rows, order=True) == [] and forgotten == [*range(size, 200, size), 200]
        found = pfair.check(script, [row for row in rows if row not in ([171, "c"], [198, "a"])], order=True)
        assert wanted in found and [one.kind for one in found].count("order") == 1
        assert_plain(found)


@pytest.mark.parametrize("tasks", (255, 256, 257, 300))
def test_as_many_tasks(tasks):
    """Records of as many tasks as one byte can number, and of more."""
    logs = [[pfair.arrive(f"t{place}", 1, 10)] for place in range(tasks)]
    script = pfair.Script(64, 10, 20, [sum(logs[place::64], []) for place in range(64)])
    schedule = pfair.schedule(script)
    assert pfair.check(script, schedule.quanta, order=True) == [] and len(schedule.quanta) == 2 * tasks


def test_many_slots_and_names():
    """More slots and names than four bytes can number together."""
    log = [pfair.arrive(f"t{place}", 1, 10**5) for place in range(3_000)]
    schedule = pfair.schedule(pfair.Script(1, 10**5, 10**6, [log]))
    assert len(schedule.quanta) == 30_000 and pfair.check(schedule.script, schedule.quanta, order=True) == []


# ---- words


TWO = pfair.Script(1, 6, 12, [[pfair.arrive("a", 1, 3, at=2), pfair.depart("a", at=5), pfair.arrive("a", 1, 3, at=9)]])
ROW = [("slot", "u8"), ("task", "S16"), ("index", "u8"), ("place", "u8")]
# rows as slot, task and maybe more, and what is wrong: slot, kind, task, subtask and words
TEXTS = {
    "0 a, 1 a": "0 absent a 0 it joins at 2, 5 unserved a 1 its deadline is 5, 12 unserved a 1 its deadline is 12",
    "2 a, 7 a, 9 a": "7 absent a 0 it left at 5; it joins at 9",
    "2 a, 9 a, 13 a, 12 a": "12 absent a 0 the run has 12 slots",
    "2 a, 3 b, 9 a": "3 absent b 0 no task of this name is admitted",
    "2 a, 2 a, 9 a": "2 crowded - 0 2 quanta on 1 processors, 2 twice a 0 it has another quantum in this slot",
    "2 a 1 0, 9 a 2 1": "9 index a 2 subtask 1 is the next, 9 place a 0 there is no processor 1",
    "2 a 1 0, 9 a 1 0, 9 b 1 0": "9 absent b 0 no task of this name is admitted, "
    "9 crowded - 0 2 quanta on 1 processors, 9 place b 0 processor 0 runs another task too",
    "2 a, 9 a, 11 a": "11 early a 2 its release is 12",
}


def wrong_in(text):
    for slot, kind, task, subtask, words in (line.split(" ", 4) for line in text.split(", ")):
        yield int(slot), kind, task.strip("-"), int(subtask), words


@pytest.mark.parametrize("rows,wanted", TEXTS.items())
def test_texts(rows, wanted):
    rows = [tuple(int(word) if word.isdigit() else word for word in row.split()) for row in rows.split(", ")]
    found = pfair.check(TWO, np.array(rows, ROW[: len(rows[0])]))
    assert found == pfair.check(TWO, rows) == [*wrong_in(wanted)]
    assert_plain(found)


def test_behind_the_run():
    """What comes behind the run is reported once for each task, however far it is, and counts for nothing else."""
    rows = [(2, "a", 1, 0), (9, "a", 1, 0), (2**62, "a", 5, 0), (12, "a", 2, 0), (12, "b", 1, 0), (13, "b", 1, 7)]
    text = "the run has 12 slots"
    wanted = [(12, "absent", "a", 0, text), (12, "absent", "b", 0, text)]
    assert [one for one in pfair.check(TWO, rows, order=True) if one.kind != "place"] == wanted
    assert pfair.check(TWO, [row[:3] for row in rows], order=True) == wanted
    assert [one[:4] for one in pfair.check(TWO, rows) if one.kind == "place"] == [(13, "place", "b", 0)]


def test_places():
    """Two on one processor, among others, also where there are more processors than slots."""
    script = pfair.Script(4, 2, 2, [[pfair.arrive(name, 2, 2) for name in "abcd"]])
    rows = [(0, name, 1, place) for name, place in zip("dabc", (3, 0, 2, 1))]
    rows += [(1, name, 2, place) for place, name in enumerate("cab")]
    assert pfair.check(script, [*rows, (1, "d", 2, 3)]) == []
    text = "processor 1 runs another task too"
    assert pfair.check(script, [*rows, (1, "d", 2, 1)]) == [(1, "place", "d", 0, text)]


@pytest.mark.parametrize("count", (65_535, 65_536, 65_537))
def test_many_names(count):
    """As many names as two bytes can number, and more."""
    names = [f"n{place}" for place in range(count - 1)]
    rows = [(2, "a"), (9, "a"), *((place % 12, name) for place, name in enumerate(names))]
    found = pfair.check(TWO, np.array(rows, ROW[:2]))
    kinds = Counter(one.kind for one in found)
    assert kinds == {"absent": len(names), "crowded": 12} and {one.task for one in found} == {*names, ""}


def test_left_at_the_end():
    """What comes behind the last incarnation, and a task that is refused."""
    script = pfair.Script(1, 6, 8, [[pfair.arrive("a", 1, 3), pfair.arrive("b", 1, 1), pfair.depart("a", at=4)]])
    found = pfair.check(script, [(0, "a"), (3, "a"), (5, "a"), (6, "a"), (6, "b")])
    wanted = "5 absent a 0 it left at 4, 6 absent b 0 no task of this name is admitted, "
    assert found == [*wrong_in(wanted + "6 crowded - 0 2 quanta on 1 processors")]


def test_refused_tasks(tmp_path):
    refusal(pfair.NotToml, pfair.NotToml.text, pfair.check, b"version = \n", "slot,task\n")
    stalled = pfair.Script(1, 6, 9, [[pfair.promise(5), pfair.promise(4)]])
    with pytest.raises(pfair.Stalled):
        pfair.check(stalled, b"slot,task\n")
    with pytest.raises(FileNotFoundError):
        pfair.check(tmp_path / "none.toml", b"slot,task\n")
    with pytest.raises(FileNotFoundError):
        pfair.check(TWO, tmp_path / "none.csv")


def test_frames_of_a_schedule():
    """The package's own table is right, and one that was changed by hand isn't."""
    pytest.importorskip("pandas")
    schedule = pfair.schedule(pfair.Script(2, 12, 24, [[pfair.arrive("b", 1, 3), pfair.arrive("a", 5, 6)]]))
    frame, _ = schedule.to_pandas()
    assert pfair.check(schedule.script, frame, order=True) == pfair.check(schedule.script, frame.sample(frac=1)) == []
    found = pfair.check(schedule.script, frame.assign(slot=frame["slot"].replace(0, 5)))
    assert {one.kind for one in found} == {"index", "tardy"}


PLACED = EXAMPLES.joinpath("places.placed").read_bytes()
DAMAGE = some.one_of(some.binary(max_size=3), some.text('\r\n,;" -0\ufeff', max_size=2).map(str.encode))


@settings(max_examples=200)
@given(some.lists(some.tuples(some.integers(0, len(PLACED)), DAMAGE, some.integers(0, 5)), min_size=1, max_size=3))
def test_damaged_texts(damages):
    """A text that is damaged somewhere is read, or refused with its line."""
    text = PLACED
    for at, more, less in damages:
        text = text[:at] + more + text[at + less :]
    try:
        assert isinstance(pfair.check(EXAMPLES / "places.toml", text), list)
    except ValueError as fault:
        assert type(fault) is ValueError and str(fault).startswith("line ")
