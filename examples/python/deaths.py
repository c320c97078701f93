"""A processor dies, and the others go on: python3 deaths.py [RUNS]. Prints a table of what was wrong in so many runs.

Each of 2 to 8 processors has a dispatcher of its own; with fewer than three there are listeners, which have no log.
Entries travel late and out of order, one in 8 is lost (of a dying processor's last ones each second), and what is
missing is asked for again. Once the others wait for the dead one, the least of them, the heir, closes its log by
`pfair.succeed`, and the processor whose place `down` has takes over the dead one's place. Other ways to close it, of
which each leaves out a part of the recipe (docs/GUIDE.md, "When a processor dies"), show that it is needed.
"""
import collections
import random
import sys
from typing import NamedTuple

import pfair

FRAME, SLOTS, CAPACITY, PATIENCE, CUT, RUNS = 60, 300, 400, 8, 60, 40
PERIODS = [period for period in range(2, 21) if FRAME % period == 0]
RIGHT, OWN_VIEW, GAP, OWN_LOG = "as it should be", "behind the heir's own view", "gaps stay", "`down` in the heir's log"
NO_FENCE, BACK = "no fence", "no fence, and the dead one comes back"
# two entries under one number; tables that differ; a slot never planned; `down` not from its slot on; a window missed
WRONG = ("torn", "split", "stalled", "late", "missed")
# leads of floors, loads, and how the log is closed
CASES = [(8, "M", RIGHT), (16, "M", RIGHT), (8, "M - 1", RIGHT), *((8, "M", way) for way in (OWN_VIEW, GAP, OWN_LOG))]
CASES += [(8, "M", NO_FENCE), (8, "M", BACK)]


class Message(NamedTuple):
    due: int
    to: "Site"
    pen: int
    processor: int
    number: int
    entry: pfair.Entry


class Site:
    """A processor, or a listener: its dispatcher, and what it announced."""

    def __init__(self, number, world):
        self.number, self.world = number, world
        self.dispatcher = pfair.Dispatcher(world.processors, FRAME, SLOTS, CAPACITY)
        # the logs in which it announces, and from which pen on it takes entries of each log
        self.logs, self.pens = {number: []} if number < world.processors else {}, [0] * world.processors
        self.floor, self.is_dead, self.is_cut = 0, False, False

    def say(self, log, entries):
        for entry in entries:
            self.logs[log].append(entry)
            self.take(log, len(self.logs[log]), entry)
            for to in self.world.sites:
                self.world.send(self, to, log, len(self.logs[log]))

    def take(self, log, number, entry):
        if self.dispatcher.take(log, number, entry) == "torn":
            self.world.wrong.add("torn")

    def announce(self):
        """Announces what is stamped up to the lead ahead, and then a floor."""
        world, slot = self.world, self.dispatcher.planned if self.is_cut else self.world.slot
        end = min(SLOTS, slot + world.lead - (self.number % world.step if self.floor == 0 else 0))
        if self.number in self.logs and self.floor < SLOTS and (end - self.floor >= world.step or end == SLOTS):
            self.say(self.number, [*([] if world.is_holding else world.news(self, end)), pfair.promise(end)])
            self.floor = end

    def ran(self, start):
        """What it ran from a slot on, by its own tables: (slot, task, index, place)."""
        rows = [tuple(row) for row in self.dispatcher.quanta(start)[["slot", "task", "index", "place"]].tolist()]
        down = {slot: place for slot, task, _, place in rows if task == b"down"}
        for slot, task, index, place in rows:
            own = self.world.dead if down.get(slot) == self.number else self.number
            if place == own and task != b"down":
                yield slot, task.decode(), index, place


class World:
    """A run in which a processor dies: its sites, and the messages under way."""

    def __init__(self, seed, lead, load, way):
        self.chance, self.lead, self.step, self.load, self.way = random.Random(seed), lead, lead // 2, load, way
        self.processors, self.wrong, self.messages = self.chance.randint(2, 8), set(), []
        self.sites = [Site(number, self) for number in range(max(3, self.processors))]
        self.dead, self.end = self.chance.randrange(self.processors), self.chance.randint(40, 150)
        self.now, self.slot, self.names, self.back, self.is_holding = 0, 0, 0, 0, False
        self.closed = self.heir = self.died = self.lost = None
        self.first, left = [], (self.processors - (load == "M - 1")) * FRAME
        for _ in range(8 * self.processors):
            task = self.task(0, 0)
            units = task.cost * FRAME // task.period
            if units <= left:
                left -= units
                self.first.append(task)

    def task(self, at, floor):
        self.names, period = self.names + 1, self.chance.choice(PERIODS)
        cost, early = self.chance.randint(1, period - 1), self.chance.random() < 0.2
        return pfair.arrive(f"t{self.names}", cost, period, at=at, floor=floor, early=early)

    def news(self, site, end):
        if site.floor == 0:
            return self.first[site.number :: self.processors]
        chance, said = self.chance, []
        names = [row["task"].decode() for row in site.dispatcher.members() if row["task"] != b"down"] or ["t1"]
        for at in range(site.floor, end):
            kind = chance.random()
            if kind < 0.03 and self.load == "M":
                said.append(self.task(at, site.floor))
            elif kind < 0.045:
                said.append(pfair.depart(chance.choice(names), at=at, floor=site.floor))
            elif kind < 0.07:
                late = chance.choice(names), chance.randint(1, 60), chance.randint(1, 9)
                said.append(pfair.late(*late, at=at, floor=site.floor))
        return said

    # ---- messages

    def send(self, site, to, log, number):
        chance, is_dying = self.chance, site.number == self.dead and self.end - self.lead <= self.now <= self.end
        if to is not site and not to.is_dead and chance.random() >= (1 / 2 if is_dying else 1 / 8):
            due = self.back if site.is_cut or to.is_cut else self.now
            due += chance.randint(0, 24 if is_dying or chance.random() < 1 / 16 else 4)
            self.messages.append(Message(due, to, site.pens[log], log, number, site.logs[log][number - 1]))

    def deliver(self):
        come = [message for message in self.messages if message.due <= self.now]
        self.messages = [message for message in self.messages if message.due > self.now]
        for message in come:
            if not message.to.is_dead and message.pen >= message.to.pens[message.processor]:
                message.to.take(message.processor, message.number, message.entry)

    def ask_again(self):
        wanted = min(SLOTS, self.slot + self.step + 2)
        for site in self.sites if self.now % 3 == 0 else ():
            for log in range(self.processors) if not site.is_dead and site.dispatcher.frontier < wanted else ():
                mark, count = site.dispatcher.mark(log)
                asked = [one for one in self.living() if log in one.logs]
                asked = max(asked, key=lambda one: one.pens[log], default=site)
                if asked is not site and mark < wanted:
                    for number in range(count + 1, len(asked.logs[log]) + 1):
                        self.send(asked, site, log, number)

    # ---- the death

    def living(self):
        return [site for site in self.sites if not site.is_dead and not site.is_cut]

    def close(self):
        """All survivors raise the pen of the log, the heir joins what they hold, and closes the log."""
        self.heir, self.is_holding = self.living()[0], True
        for site in self.living():
            site.pens[self.dead] = int(self.way not in (NO_FENCE, BACK))
            if self.way != OWN_VIEW:
                self.heir.dispatcher.absorb(site.dispatcher)
        self.closed = pfair.succeed(self.heir.dispatcher, self.dead, "down")
        log, said = self.closed.log, self.closed.said
        self.heir.logs[self.dead] = log[:said]
        held = [self.heir.dispatcher.held(self.dead, number + 1) for number in range(said)]
        self.has_gap = None in held
        if self.way == GAP and self.has_gap:
            self.heir.logs[self.dead] = log[: held.index(None)]
            return
        for number, entry in enumerate(log[:said], 1):
            self.heir.take(self.dead, number, entry)
        if self.way == OWN_LOG:
            floor = self.heir.floor
            later = [pfair.depart(name, at=floor, floor=floor) for name in self.closed.victims]
            self.heir.say(self.heir.number, [*later, pfair.arrive("down", 1, 1, at=floor + 1, floor=floor)])
            log = [*log[:said], log[-1]]
        self.heir.say(self.dead, log[said:])

    def run(self):
        """Runs all slots, and returns what was wrong."""
        waited, dead = 0, self.sites[self.dead]
        while self.slot < SLOTS and self.now < 3 * SLOTS and not self.wrong:
            if self.now == self.end:
                self.died, self.back = self.slot, self.now + CUT
                dead.is_dead, dead.is_cut = self.way != BACK, self.way == BACK
            dead.is_cut &= self.now < self.back
            for site in self.sites:
                if not site.is_dead:
                    site.announce()
            self.deliver()
            self.ask_again()
            if not self.wrong:
                for site in self.living():
                    site.dispatcher.plan()
            if all(site.dispatcher.planned > self.slot for site in self.living() if site is not dead):
                self.slot, waited = self.slot + 1, 0
            elif self.died is not None and self.closed is None and (waited := waited + 1) == PATIENCE:
                self.close()
            self.is_holding &= self.closed is None or self.slot <= self.closed.admitted
            self.now += 1
        return self.judged()

    def judged(self):
        """What is wrong, of what the survivors' tables have and what they ran from the admission on."""
        if self.wrong or self.slot < SLOTS:
            self.wrong = self.wrong or {"stalled"}
            return self.wrong
        heir, start = self.heir.dispatcher, self.closed.admitted
        if len({site.dispatcher.quanta().tobytes() for site in self.living()}) != 1:
            self.wrong.add("split")
        planned = [(slot, task.decode(), index, place) for slot, _, place, task, index in heir.quanta().tolist()]
        down = [row for row in planned if row[1] == "down"]
        if [row[0] for row in down] != [*range(start, SLOTS)] or len({row[3] for row in down}) != 1:
            self.wrong.add("late")
        # until then as planned, lost quanta too, since the plan counts them as had; `down` itself runs nowhere
        before = [row for row in planned if row[0] < start or row[1] == "down"]
        ran = [row for site in self.living() if site.number < self.processors for row in site.ran(start)]
        logs = [[heir.held(log, number + 1) for number in range(heir.mark(log)[1])] for log in range(self.processors)]
        if pfair.check(pfair.Script(self.processors, FRAME, SLOTS, logs), sorted([*before, *ran]), order=True):
            self.wrong.add("missed")
        self.lost = sum(place == self.dead for slot, _, _, place in before if self.died <= slot < start)
        return self.wrong


def main():
    runs = int(sys.argv[1]) if sys.argv[1:] else RUNS
    print(f"| lead | load | how the log is closed | runs | {' | '.join(WRONG)} | quanta lost: mean, most |")
    print("|---|---|---|---|---|" + "---|" * len(WRONG))
    for lead, load, way in CASES:
        worlds = [World(f"{seed} {lead} {load}", lead, load, way) for seed in range(runs)]
        seen = collections.Counter(wrong for world in worlds for wrong in world.run())
        lost, wrong = [world.lost for world in worlds if not world.wrong], " | ".join(str(seen[one]) for one in WRONG)
        told = f"{sum(lost) / len(lost):.1f}, {max(lost)}" if lost else "-"
        print(f"| {lead} | {load} | {way} | {runs} | {wrong} | {told} |", flush=True)


if __name__ == "__main__":
    main()
