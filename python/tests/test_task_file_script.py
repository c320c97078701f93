"""scripts/task_file: its files against the test's own reckoning, its limits at both sides, and its warnings."""
import random
import tomllib
import types
import zlib
from fractions import Fraction

import pytest
from conftest import as_program, module_of, refusal
from hypothesis import assume, given, settings
from hypothesis import strategies as some

TASK_FILE = module_of("task_file")
ONE = ("--processors", "1")
WARNING = "scripts/task_file: warning: "

LISTED = """# a comment
name, cost, period, slot

late, 1, 2, 5
 top ,3,4
second,1,2,0
"""
# processor, slot, kind, name, and of an arrival the weight
OF_LIST = [
    (0, 0, "arrive", "top", 3, 4), (1, 0, "arrive", "second", 1, 2), (0, 5, "arrive", "late", 1, 2),
    (1, 5, "depart", "top"), (0, 8, "depart", "second"),
]


def text_of(entries, **head):
    """The text of a task file, line by line."""
    lines = [f"{key} = {value}" for key, value in head.items()]
    for processor, slot, kind, name, *weight in entries:
        lines += ["", "[[entry]]", f"processor = {processor}", f"floor = {slot}", f'kind = "{kind}"', f"at = {slot}"]
        lines += [f'name = "{name}"', *(f"{key} = {value}" for key, value in zip(("cost", "period"), weight))]
    return "\n".join([*lines, ""])


@pytest.fixture
def listing(call, tmp_path):
    """Makes a task file of a plain list."""

    def made(text, *words):
        file = tmp_path / "tasks.csv"
        file.write_text(text)
        return call(TASK_FILE, "list", file, *words)

    return made


def test_text_of_a_list(listing):
    """Entries in the order of slots, arrivals first, dealt to the processors in turn, without comments and the head."""
    words = ("--processors", "2", "--slots", "9", "--leave", "second=8", "--leave", "top=5")
    assert listing(LISTED, *words) == (0, text_of(OF_LIST, version=1, processors=2, frame=4, slots=9), "")


def test_early(listing):
    done = listing("a,1,2\nb,1,3\n", "--early", *ONE)
    told = tomllib.loads(done.out)
    assert (told["version"], told["frame"], told["slots"]) == (2, 6, 6)
    assert [entry["early"] for entry in told["entry"]] == [True, True]
    assert done.out.count("early = true\n") == 2 and "early" not in listing("a,1,2\n", *ONE).out


def test_slots_of_a_list(listing):
    """As many as the frame, which is the least common multiple of the periods, and 1,000,000 at most."""
    long = ("a,1,999983\nb,1,2\n", 1_999_966, 10**6), ("a,1,1000000\n", 10**6, 10**6)
    for text, frame, slots in (("a,1,4\nb,1,6\n", 12, 12), *long):
        told = tomllib.loads(listing(text, *ONE).out)
        assert (told["frame"], told["slots"]) == (frame, slots)
    assert tomllib.loads(listing("a,1,4\n", "--slots", "1000000", *ONE).out)["slots"] == 1_000_000
    assert listing("a,1,4\n", "--slots", "1", *ONE).status == 0


AT_LIMITS = ["a,4,4\n", "a,1,1000000000\n", "abcdefghijklmnop,1,2\n", "z0_9,1,2\n", "a,1,2,1000000\n", "a,1,2,0\n"]
NO_NAME = "is no task name: a letter a-z, then up to 15 letters, digits or underscores"
PAST_LIMITS = [
    *((f"a,{cost},4\n", f"task a: the cost {cost} is not from 1 to the period 4") for cost in (5, 0)),
    ("a,1,1000000001\n", "task a: the period 1000000001 is over 1000000000"),
    *((f"a,1,2,{at}\n", f"task a: it arrives at {at}, which is not from 0 to 1000000") for at in (1000001, -1)),
    *((f"{name},1,2\n", f"'{name}' {NO_NAME}") for name in ("abcdefghijklmnopq", "0a", "aB", "", "_a")),
    ("a,1\n", "line 1: 'a,1' is not name,cost,period or name,cost,period,slot"),
    ("\n# c\n a,1,2,3,4\n", "line 3: 'a,1,2,3,4' is not name,cost,period or name,cost,period,slot"),
    ("a,1,2\nb,one,2\n", "line 2: 'one' is no whole number"),
    ("a,1,x\n", "line 1: 'x' is no whole number"),
    ("a,1,999999937\nb,1,2\n", "the least common multiple of the periods, 1999999874, is over 1000000000: "
     "choose periods with more divisors in common"),
]


def test_limits_of_lists(listing, tmp_path):
    for text in AT_LIMITS:
        assert listing(text, *ONE).status == 0, text
    for text, complaint in PAST_LIMITS:
        assert listing(text, *ONE) == (1, "", f"scripts/task_file: {complaint}\n")
    for text in ("", "# nothing\n\nname,cost,period\n"):
        assert listing(text, *ONE) == (1, "", f"scripts/task_file: {tmp_path / 'tasks.csv'} lists no task\n")


def test_limits_of_files(listing, call, tmp_path):
    assert listing("a,1,2\n", "--processors", "64").status == 0
    for words, complaint in (
        *((("--processors", wrong), f"{wrong} processors are not 1 to 64") for wrong in ("0", "65")),
        *(((*ONE, "--slots", wrong), f"{wrong} slots are not 1 to 1000000") for wrong in ("1000001", "-1", "0")),
        *(((*ONE, "--leave", f"a={at}"), f"--leave a={at}: {at} is not from 0 to 1000000") for at in (-5, 1000001)),
        ((*ONE, "--leave", "b=1"), "--leave b=1: no task has this name"),
        ((*ONE, "--leave", "a=x"), "--leave a=x: 'x' is no whole number"),
    ):
        done = listing("a,1,2\n", *words)
        assert (done.status, done.out) == (1, "") and done.err.endswith(f"scripts/task_file: {complaint}\n")
    done = call(TASK_FILE, "list", tmp_path / "none", *ONE)
    assert done.status == 1 and done.err.startswith("scripts/task_file: ") and "none" in done.err
    assert {listing("a,1,2\n", *ONE, "--leave", f"a={at}").status for at in (0, 1_000_000)} == {0}
    file = tmp_path / "tasks.csv"
    for text, status in ((b"# \xfc\na,1,2\n", 1), ("\ufeff# \u00fc\na,1,2\n".encode(), 0), (b"\xef\xbb\xbfa,1,2\n", 0)):
        file.write_bytes(text)
        done = call(TASK_FILE, "list", file, *ONE)
        assert (done.status, done.err) == (status, status * f"scripts/task_file: {file} is not in UTF-8\n")


def test_longest_logs(listing):
    """4,095 entries for each processor, and no more."""
    names = [f"t{place},1,1000000\n" for place in range(8_191)]
    assert listing("".join(names[:8_190]), "--processors", "2").status == 0
    said = "scripts/task_file: 8191 entries are more than 2 logs of 4095\n"
    assert listing("".join(names), "--processors", "2") == (1, "", said)


OVER = f"{WARNING}the weights add to %s, more than %d processors, so that arrivals will be refused\n"
WARNED = [
    ("a,1,2\nb,1,2\n", ONE, ""),
    ("a,1,2\nb,2,3\n", ONE, OVER % ("7/6", 1)),
    ("a,1,1\nb,1,1\nc,1,9\n", ("--processors", "2"), OVER % ("19/9", 2)),
    # who has left by then doesn't count; who leaves at the slot itself neither; who leaves later does
    ("a,1,2\nb,2,3,2\n", (*ONE, "--leave", "a=1"), ""),
    ("a,1,2\nb,2,3,2\n", (*ONE, "--leave", "a=2"), ""),
    ("a,1,2\nb,2,3,2\n", (*ONE, "--leave", "a=3"), OVER % ("7/6", 1)),
    ("a,1,2\nb,2,3,2\n", ONE, OVER % ("7/6", 1)),
    # who leaves before it comes is there
    ("a,1,2,3\nb,2,3,3\n", (*ONE, "--leave", "a=1"), OVER % ("7/6", 1)),
    ("a,1,2,3\nb,2,3,4\n", (*ONE, "--leave", "a=3"), ""),
    # the first slot with too much is reported, once
    ("a,1,1\nb,1,2,5\nc,1,2,9\n", ONE, OVER % ("3/2", 1)),
    ("a,1,4\na,1,2,3\n", ONE, ""),
    ("a,1,4,3\nb,1,4,3\na,1,2,3\n", ONE, f"{WARNING}a arrives twice at slot 3, and the second is refused\n"),
    ("a,1,4\na,1,4\na,1,4\n", ONE, 2 * f"{WARNING}a arrives twice at slot 0, and the second is refused\n"),
]


@pytest.mark.parametrize("text,words,warning", WARNED)
def test_warnings(listing, text, words, warning):
    done = listing(text, *words)
    assert (done.status, done.err) == (0, warning) and done.out.startswith("version = 1\n")


def random_words(tasks, load, processors, periods, seed, *more):
    given = {"tasks": tasks, "load": load, "processors": processors, "seed": seed}
    given["periods"] = ",".join(map(str, periods))
    return ["random", *(f"--{key}={value}" for key, value in given.items()), *more]


def text_at_random(*words):
    return TASK_FILE.at_random(TASK_FILE.words_of(random_words(*words)))


def arrivals_in(text):
    return [entry for entry in tomllib.loads(text)["entry"] if entry["kind"] == "arrive"]


@settings(max_examples=60)
@given(some.integers(1, 12), some.integers(1, 100), some.integers(1, 4), some.integers(0, 10**6))
def test_loads(tasks, load, processors, seed):
    """The weights add to at most the load, and to less than a quantum of the shortest period below it."""
    total, periods = Fraction(load * processors, 100), (8, 12, 20, 30)
    # near one processor for each task nearly all sets have a weight over 1
    assume(total > tasks or total < 0.7 * tasks)
    rng = random.Random(seed)
    if total > tasks:
        said = f"{tasks} tasks can't have a load of {float(total):g} processors"
        refusal(TASK_FILE.Refused, said, TASK_FILE.drawn, tasks, load, processors, periods, rng)
        return
    try:
        made = TASK_FILE.drawn(tasks, load, processors, periods, rng)
    except TASK_FILE.Refused as refused:
        # each period is at most 30, so that tasks of cost 1 are over the load
        said = f"{tasks} tasks of cost 1 are already over the load of {load} percent: give longer periods"
        assert tasks > total * 8 and str(refused) == said
        return
    left = total - sum(Fraction(task.cost, task.period) for task in made)
    assert left >= 0 and [task.name for task in made] == [f"t{place}" for place in range(tasks)]
    assert all(1 <= task.cost <= task.period and task.period in periods and task.arrives == 0 for task in made)
    assert left < Fraction(1, 8) or all(task.cost == task.period for task in made)


def test_seeds():
    """A study that names its seeds can be made again: texts that were looked at, by their sum."""
    sets = [(4 + seed % 6, 50 + seed, 3, (8, 12, 24), seed, f"--churn={seed % 4}") for seed in range(30)]
    assert zlib.crc32("".join(text_at_random(*one) for one in sets).encode()) == 4_170_284_551


def test_draws_are_given_up():
    asked = []  # in the place of a random generator: it gives zeros
    draws = types.SimpleNamespace(random=lambda: asked.append(1) or 0.0, choice=lambda periods: periods[0])
    said = "no 2 tasks were found whose weights add to 1.5: give more tasks, or a smaller load"
    refusal(TASK_FILE.Refused, said, TASK_FILE.drawn, 2, 75, 2, [10], draws)
    assert len(asked) == 100_000


# what the generator draws, the load, the processors, the periods, and what the tasks cost
COSTS = (0, 100, 1, [8], [8]), (0, 57, 1, [100], [57]), (0, 25, 2, [4, 4], [1, 1]), (2 / 3, 75, 2, [3, 100], [1, 100])


@pytest.mark.parametrize("number,load,processors,periods,costs", COSTS)
def test_costs(number, load, processors, periods, costs):
    draws = types.SimpleNamespace(random=lambda: number, choice=lambda left: left.pop(0))
    made = TASK_FILE.drawn(len(costs), load, processors, [*periods], draws)
    assert [task.cost for task in made] == costs


def test_shares_are_unbiased():
    """Of three weights with the sum 0.9 each is below x with probability 1 - (1 - x / 0.9)^2 (Kolmogorov, Smirnov)."""
    rng = random.Random(1)
    sets = [TASK_FILE.utilizations(3, 0.9, rng) for _ in range(2_000)]
    for place in range(3):
        shares = sorted(drawn[place] for drawn in sets)
        wanted = [1 - (1 - share / 0.9) ** 2 for share in shares]
        assert max(abs(at - (number + 0.5) / 2_000) for number, at in enumerate(wanted)) < 1.95 / 2_000**0.5


def test_text_at_random(call):
    words = random_words(9, 100, 3, (8, 12, 24), 5)
    done = call(TASK_FILE, *words)
    told, again = tomllib.loads(done.out), call(TASK_FILE, *random_words(9, 100, 3, (8, 12, 24), 6))
    assert [told[key] for key in ("version", "processors", "frame", "slots")] == [1, 3, 24, 24]
    assert "early" not in done.out
    assert call(TASK_FILE, *words) == done != again and len(told["entry"]) == 9 and (done.status, done.err) == (0, "")
    assert sum(Fraction(entry["cost"], entry["period"]) for entry in told["entry"]) == 3
    assert tomllib.loads(call(TASK_FILE, *words, "--slots", "7").out)["slots"] == 7
    assert tomllib.loads(call(TASK_FILE, *random_words(1, 50, 1, (1_999_966,), 1)).out)["slots"] == 1_000_000
    done = call(TASK_FILE, *random_words(2, 100, 3, (8,), 5))
    assert done == (1, "", "scripts/task_file: 2 tasks can't have a load of 3 processors\n")
    for periods, words, said in (
        (("8", "x"), (), "--periods: 'x' is no whole number"),
        ((8, 0), (), "--periods: 0 is not from 1 to 1000000000"),
        ((8,), ("--churn", "-1"), "-1 of 2 tasks can't depart"),
        ((8,), ("--slots", "-3", "--churn", "1"), "-3 slots are not 1 to 1000000"),
    ):
        done = call(TASK_FILE, *random_words(2, 50, 1, periods, 5, *words))
        assert done == (1, "", f"scripts/task_file: {said}\n")


def test_churn(call):
    """Each task that departs has a task of its weight that arrives in one of the ten slots from then on."""
    text = text_at_random(6, 60, 2, (12, 24), 3, "--churn", "4", "--slots", "5")
    entries = tomllib.loads(text)["entry"]
    came = {entry["name"]: entry for entry in entries if entry["kind"] == "arrive"}
    left = {entry["name"]: entry["at"] for entry in entries if entry["kind"] == "depart"}
    assert len(left) == 4 and set(came) == {f"t{place}" for place in range(6)} | {f"n{name}" for name in left}
    for name, slot in left.items():
        new, old = came[f"n{name}"], came[name]
        assert (new["cost"], new["period"]) == (old["cost"], old["period"]) and slot <= new["at"] < 5
    stamps = [(entry["at"], entry["kind"]) for entry in entries]
    assert stamps == sorted(stamps) and all(entry["at"] == entry["floor"] for entry in entries)
    assert [entry["processor"] for entry in entries] == [place % 2 for place in range(len(entries))]
    assert call(TASK_FILE, *random_words(3, 60, 1, (12,), 3, "--churn", "3")).status == 0
    done = call(TASK_FILE, *random_words(3, 60, 1, (12,), 3, "--churn", "4"))
    assert done == (1, "", "scripts/task_file: 4 of 3 tasks can't depart\n")


def test_slots_of_churn():
    """Every slot is drawn, and every distance up to 9; none past the last slot."""
    tasks = [TASK_FILE.Task(f"t{place}", 1, 2) for place in range(1_000)]
    departures, newcomers = TASK_FILE.churned(tasks, 1_000, 25, random.Random(2))
    left = {dict(keys)["name"].strip('"'): slot for slot, keys in departures}
    assert set(left.values()) == set(range(25)) and len(newcomers) == 1_000
    gaps = {task.arrives - left[task.name[1:]] for task in newcomers}
    assert gaps == set(range(10)) and max(task.arrives for task in newcomers) == 24
    assert TASK_FILE.churned(tasks, 0, 25, random.Random(2)) == ([], [])


def test_words(call):
    every = random_words(2, 50, 1, (8,), 1)
    for words in ([], ["list"], ["list", "x"], ["random"], *(every[:left] + every[left + 1 :] for left in range(1, 6))):
        assert call(TASK_FILE, *words).status == 2
    assert call(TASK_FILE, *every, "--load=60.5").status == 2
    said = as_program("task_file", "--help")
    assert said.status == 0 and TASK_FILE.__doc__.strip() in said.out
    helped = {way: " ".join(call(TASK_FILE, way, "--help").out.split()) for way in ("list", "random")}
    assert "[--early] [--leave NAME=SLOT] TASKS positional" in helped["list"]
    assert "--load PERCENT --processors PROCESSORS --periods P,P,.. --seed" in helped["random"]
