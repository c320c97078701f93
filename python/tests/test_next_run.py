"""Runs that go on: a run and those after it give what one long run gives."""
import collections
import dataclasses
import os
import random

import numpy as np
import pytest
from conftest import outside, refusal

import pfair

FRAME, SLOTS = 24, 3000
PERIODS = (2, 3, 4, 6, 8, 12, 24)
# so many sets of tasks; each of them in one run, in 3, in 30, and in runs of any lengths
SETS = int(os.environ.get("PFAIR_SETS", 12))


def announcements_of(chance, processors):
    """Arrivals, departures and late releases all along, by their stamps: (processor, entry)."""
    said, at = [], 0
    names = [f"t{number}" for number in range(3 * processors + 2)]
    while at < SLOTS:
        name, kind = chance.choice(names), chance.random()
        if kind < 0.5:
            period = chance.choice(PERIODS)
            entry = pfair.arrive(name, chance.randint(1, period), period, at=at, floor=at, early=chance.random() < 0.3)
        elif kind < 0.7:
            entry = pfair.depart(name, at=at, floor=at)
        else:
            entry = pfair.late(name, chance.randint(1, 1 + at), chance.choice((1, 2, 7, 40)), at=at, floor=at)
        said.append((chance.randrange(processors), entry))
        at += chance.choice((0, 0, 1, 2, 5, 17, 60))
    return sorted(said, key=lambda one: (one[1].at, one[0]))


def plan(dispatcher, said):
    """Takes these announcements, in each log in their order, and plans all slots."""
    logs = collections.defaultdict(list)
    for processor, entry in said:
        logs[processor].append(entry)
    for processor in range(dispatcher.processors):
        dispatcher.take_log(processor, [*logs[processor], pfair.promise(dispatcher.slots)])
    assert dispatcher.plan() == ("planned", dispatcher.slots - 1)


def admitted_in(rows):
    """The tasks that are admitted, each with the slot in which it first is."""
    rows = rows[rows["outcome"] == 0][::-1]
    return dict(zip(rows["task"].tolist(), rows["slot"].tolist()))


class Run:
    """A run from slot `begin` to `end` of a long one. `lowered` has the subtasks that aren't counted of its members."""

    def __init__(self, long, begin, end, lowered):
        self.begin, self.end, self.lowered = begin, end, lowered
        self.decided = long.decisions(begin, end)
        self.admitted = admitted_in(self.decided)

    def own(self, said):
        """What is announced in the run, with its own slots and indexes."""
        joined = {(row["processor"], row["slot"], row["task"]) for row in self.decided[self.decided["outcome"] == 0]}
        lowered = dict(self.lowered)
        for processor, entry in said:
            if not self.begin <= entry.at < self.end:
                continue
            name, at = entry.name.encode(), entry.at - self.begin
            if entry.kind == "arrive" and (processor, entry.at, name) in joined:
                lowered[name] = 0
            index = max(1, entry.index - lowered.get(name, 0)) if entry.kind == "late" else entry.index
            yield processor, dataclasses.replace(entry, at=at, floor=at, index=index)

    def raised(self, rows):
        """Quanta with the slots and indexes of the long run."""
        rows["slot"] += self.begin
        for name, number in self.lowered.items():
            is_carried = rows["slot"] < self.admitted.get(name, self.end)
            rows["index"][(rows["task"] == name) & is_carried] += number
        return rows

    def left(self, members):
        """The members after the run, as the long run has them, and what is not counted of each."""
        rows = members.copy()
        lowered = {name: number for name, number in self.lowered.items() if name not in self.admitted}
        for row in rows:
            number = lowered.get(row["task"], 0)
            row["next"] += number
            moved = number // row["cost"] * row["period"]
            row["joined"] -= moved
            row["theta"] -= moved
        return rows, lowered


def check_run(run, one, long, said):
    """Plans a run, and compares it with the slots of the long one. Returns its members, raised, and what is lowered."""
    plan(one, run.own(said))
    decided, lags = one.decisions(), one.lags()
    decided["slot"] += run.begin
    lags["time"] += run.begin
    fields = ["slot", "task", "processor", "outcome", "freed_at"]
    assert (decided[fields] == run.decided[fields]).all()
    assert (lags == long.lags(run.begin, run.end)).all()
    assert (run.raised(one.quanta()) == long.quanta(run.begin, run.end)).all()
    members = one.members()
    stay = members[["task", "lag"]][members["is_departing"] == 0]
    assert stay.tolist() == lags[["task", "numerator"]][lags["time"] == run.end].tolist()
    return run.left(members)


def check_state(state, begin, processors, members, ran):
    assert state[:3] == (begin, processors, FRAME) and [(name.encode(), *more) for name, *more in state.ran] == ran
    told = members[["task", "cost", "period", "early", "joined", "next", "freed_at", "is_departing", "theta"]].tolist()
    for of, (name, *more, freed_at, departs, theta) in zip(state.members, told, strict=True):
        assert of[:7] == (name.decode(), *more, freed_at if departs else None)
        assert of.joined + sum(by for index, by in of.delays if index <= of.next) == theta


def check_runs(lengths, processors, said, long):
    """Plans runs of these lengths, one after the other, and compares them with the long one."""
    one, begin, lowered = pfair.Dispatcher(processors, FRAME, lengths[0]), 0, {}
    for place, length in enumerate(lengths):
        run = Run(long, begin, begin + length, lowered)
        rows, lowered = check_run(run, one, long, said)
        begin += length
        if begin == SLOTS:
            assert (rows == long.members()).all()
            break
        before, ran = one.members(), one.quanta(length - 1)[["task", "index", "place"]].tolist()
        one.next_run(lengths[place + 1])
        after = one.members()
        check_state(pfair.State.of(one.state()), begin, processors, after, ran)
        if place % 2:
            one = pfair.Dispatcher.resume(one.state(), lengths[place + 1])
            assert (one.members() == after).all()
        assert one.planned == 0 and (after[["task", "lag"]] == before[["task", "lag"]]).all()
        taken = dict(zip(before["task"].tolist(), (before["next"] - after["next"]).tolist()))
        assert (after["next"] <= after["cost"] + 1).all()
        lowered = {name: lowered.get(name, 0) + number for name, number in taken.items()}
    one.close()


def any_lengths(chance):
    """The lengths of some runs, that of the shortest 1 slot."""
    lengths = [1, 1]
    while sum(lengths) < SLOTS:
        lengths.append(min(chance.choice((1, 2, 3, 30, 200, 900)), SLOTS - sum(lengths)))
    return lengths


@pytest.mark.parametrize("number", range(SETS))
def test_runs_go_on_as_one(number):
    chance = random.Random(number)
    processors = chance.randint(1, 5)
    said = announcements_of(chance, processors)
    long = pfair.Dispatcher(processors, FRAME, SLOTS)
    plan(long, said)
    assert len(long.quanta()) > SLOTS // 4 and len(np.unique(long.decisions()["outcome"])) > 5
    for lengths in ([SLOTS // 3] * 3, [SLOTS // 30] * 30, any_lengths(chance)):
        check_runs(lengths, processors, said, long)


def begun(*entries, slots=4):
    one = pfair.Dispatcher(1, 20_000_000, slots)
    one.take_log(0, [*entries, pfair.promise(slots)])
    return one


def test_a_next_run_is_refused():
    one = begun(pfair.arrive("a", 1, 2))
    outside("slots", 1_000_001, one.next_run, 1_000_001, least=1, most=1_000_000)
    refusal(pfair.Unfinished, "not all slots of the run are planned", one.next_run, 4)
    one.plan(3)
    refusal(pfair.Unfinished, "not all slots of the run are planned", one.next_run, 4)
    one.plan()
    one.take(0, 1, pfair.promise(4))
    refusal(pfair.Torn, "two different entries were taken for one number", one.next_run, 4)
    assert one.planned == 4 and one.table(2) == [("a", 2)]


def test_a_state_is_refused():
    resume, member = pfair.Dispatcher.resume, "state,1,9,1,6\nmember,a,1,4,true,0,1,-\nend,3\n"
    for text, kind, where in (
        ("state,1,0,1,6\n", pfair.NoStateRow, "line 2"), ("state,1,824633720832,1,6\nend,2\n", pfair.PastLastSlot, ""),
        ("state,2,0,1,6\nend,2\n", pfair.StateRefused, "line 1: another form"),
        ("state,1,0,65,6\nend,2\n", pfair.StateRefused, "line 1: out of range"),
        (member.replace("true,0", "true,10"), pfair.StateRefused, f"line 2: {pfair.OUTCOMES[21]}"),
        ("state,1,9,1,6\n" + 2 * "member,a,1,6,true,0,1,-\n", pfair.StateRefused, f"line 3: {pfair.OUTCOMES[20]}"),
        (member.replace("1,6", "1,8").replace("true,0", "true,10"), pfair.StateRefused, "line 2: not left by a run"),
        ("state,1,9,1,6\nran,a,1,1\nend,3\n", pfair.StateRefused, "line 2: no such quantum"),
        ("state,1,0,1,6\nend,3\n", pfair.StateRefused, "line 2: rows are missing"),
    ):
        told = ": ".join(filter(None, (kind.text, where)))
        refusal(kind, told, resume, text.encode(), 1)
        refusal(kind, told, pfair.State.of, text.encode())
    for name, most, *words in (("slots", 10**6, 10**6 + 1), ("capacity", 4_096, 1, 0), ("capacity", 4_096, 1, 4_097)):
        outside(name, words[-1], resume, b"", *words, least=1, most=most)


def test_the_fields_of_a_state():
    text = b"state,1,9,1,6\nmember,a,1,6,true,0,2,-\nlate,a,1,2\nlate,a,3,4\nran,a,1,0\nend,6\n"
    member = pfair.StateMember("a", 1, 6, True, 0, 2, None, ((1, 2), (3, 4)))
    assert pfair.State.of(text) == pfair.State.of(bytearray(text)) == (9, 1, 6, (member,), (("a", 1, 0),))
    assert pfair.State.of(b"state,1,824633720831,1,6\nend,2\n") == (824_633_720_831, 1, 6, (), ())
    with pytest.raises(TypeError):
        pfair.State.of(9)


def test_what_a_next_run_begins_with():
    one = begun(pfair.arrive("a", 1, 2), pfair.arrive("b", 1, 4), pfair.depart("b", at=2), slots=5)
    one.plan()
    one.forget(5)
    one.next_run(6)
    assert (one.slots, one.planned, one.frontier, one.missing(0)) == (6, 0, 0, 1)
    refusal(pfair.NotPlanned, "the slot isn't planned, or is forgotten: slot 0", one.quanta, 0, 1)
