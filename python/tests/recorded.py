"""What the tests of recorded schedules share: scripts at random, and the test's own reckoning of their windows."""
from fractions import Fraction
from math import ceil, floor
from typing import NamedTuple

import pfair


class Stay(NamedTuple):
    """An incarnation: `left` is the slot from which on it gets no quantum, `delays` are (index, by)."""

    name: str
    joined: int
    left: int
    cost: int
    period: int
    early: bool
    delays: list

    def theta(self, index):
        return self.joined + sum(by for first, by in self.delays if first <= index)

    def release(self, index):
        return self.theta(index) + floor(Fraction((index - 1) * self.period, self.cost))

    def deadline(self, index):
        return self.theta(index) + ceil(Fraction(index * self.period, self.cost))

    def waits(self, index):
        return not self.early or (index - 1) % self.cost == 0 or any(first == index for first, _ in self.delays)

    def bounds(self, index):
        """From which slot on the subtask may run, and before which it has to."""
        return self.release(index) if self.waits(index) else self.joined, self.deadline(index)

    def miss(self, slots):
        """The first subtask out of its bounds that is, as (slot, kind, name, subtask), or None."""
        for index, slot in enumerate(slots, 1):
            first, behind = self.bounds(index)
            if not first <= slot < behind:
                return slot, "early" if slot < first else "tardy", self.name, index
        behind = self.deadline(len(slots) + 1)
        return (behind, "unserved", self.name, len(slots) + 1) if behind <= self.left else None


def stays_of(script, decisions):
    """The incarnations of a script, by its decisions."""
    stays = []
    for row in decisions:
        entry, outcome = script.log(int(row["processor"]))[int(row["number"]) - 1], row["outcome"]
        name = row["task"].decode()
        own = next((place for place in range(len(stays) - 1, -1, -1) if stays[place].name == name), None)
        if outcome == 0:
            stays.append(Stay(name, int(row["slot"]), script.slots, entry.cost, entry.period, entry.early, []))
        elif outcome == 1:
            stays[own] = stays[own]._replace(left=int(row["slot"]))
        elif outcome == 2:
            stays[own].delays.append((entry.index, entry.by))
    return stays


def drawn(rng):
    """A script of some tasks at random: they join and leave, come late, and may be early."""
    processors, slots = rng.randint(1, 4), rng.randint(24, 60)
    logs = [[] for _ in range(processors)]
    left = Fraction(processors)
    for place in range(rng.randint(2, 3 * processors)):
        period = rng.choice((2, 3, 4, 6, 8, 12, 24))
        cost = rng.randint(1, max(1, min(period, floor(left * period))))
        left -= Fraction(cost, period)
        at, log = rng.choice((0, 0, 0, rng.randint(0, slots // 2))), rng.choice(logs)
        name = f"t{place}"
        log.append(pfair.arrive(name, cost, period, at=at, early=rng.random() < 0.3))
        for _ in range(rng.choice((0, 0, 1, 2))):
            log.append(pfair.late(name, rng.randint(1, 6), rng.randint(1, 9), at=rng.randint(at, slots - 1)))
        if rng.random() < 0.3:
            stamp = rng.randint(at, slots - 1)
            log.append(pfair.depart(name, at=stamp))
            if rng.random() < 0.5:
                log.append(pfair.arrive(name, 1, 6, at=rng.randint(stamp, slots - 1)))
    return pfair.Script(processors, 24, slots, logs)


def rows_of(quanta):
    """The quanta as lists: slot, task, subtask, processor."""
    return [[int(q["slot"]), q["task"].decode(), int(q["index"]), int(q["place"])] for q in quanta]
