"""Dispatchers: each refusal with its words, and memory that is refused or taken ahead."""
import array
import copy
import pickle
import subprocess
import sys

import pytest
from conftest import WRONG_WEIGHTS, Told, outside, refusal

import pfair
from pfair import _dispatcher

# runs by itself, since a process keeps memory that was freed and uses it again
MEMORY = """
import resource
import pfair

def long_run():
    one = pfair.Dispatcher(8, 6, 200_000, 8)
    for processor in range(8):
        one.take_log(processor, [pfair.arrive(f"t{processor}", 1, 3), pfair.promise(200_000)])
    return one

def limit(more):
    most = resource.RLIM_INFINITY
    if more:
        most = more + int(open("/proc/self/statm").read().split()[0]) * resource.getpagesize()
    resource.setrlimit(resource.RLIMIT_AS, (most, resource.RLIM_INFINITY))

def refused(kind, call, *words):
    try:
        call(*words)
    except pfair.PfairError as raised:
        assert type(raised) is kind and str(raised) == kind.text, raised
    else:
        raise AssertionError("it was not refused")
"""
REFUSED = """
one, ample = long_run(), long_run()
limit(8 << 20)
refused(pfair.OutOfMemory, one.plan)
refused(pfair.Spent, one.plan)
limit(0)
refused(pfair.Spent, one.plan)
refused(pfair.Spent, one.members)
done = one.planned
assert 0 < done < one.slots
one.reopen()
assert one.planned == done and one.plan(done + 10) == ("planned", done + 9)
ample.plan(done + 10)
assert (one.quanta(done - 10) == ample.quanta(done - 10)).all() and (one.members() == ample.members()).all()
"""
AHEAD = """
few, all = long_run(), long_run()
few.reserve(1_000, 1_000)
all.plan(1)
all.reserve(2**64 - 1, 2**64 - 1)
assert all.planned == 1
limit(8 << 20)
assert all.plan() == ("planned", 199_999)
refused(pfair.OutOfMemory, few.plan)
few.reserve(0, 0)
"""


@pytest.mark.parametrize("program", [REFUSED, AHEAD], ids=["refused", "ahead"])
def test_memory(program):
    """After an allocation failed in a plan the dispatcher is spent; reopened, it plans as if memory had been ample.
    What is reserved is there for so many slots, and no more."""
    done = subprocess.run([sys.executable, "-c", MEMORY + program], capture_output=True, text=True)
    assert done.returncode == 0, done.stderr


# what each call and property is tried with, in an order in which none is refused
CALLS = {"take": (0, 1, pfair.arrive("a", 1, 2)), "take_log": (0, [pfair.promise(6)], 2), "held": (0, 1), "mark": (0,)}
CALLS |= {"missing": (0,), "reserve": (1, 1), "plan": (), "table": (0,), "places": (0,), "quanta": (), "lags": ()}
CALLS |= {name: () for name in ("decisions", "members", "state", "faults", "planned", "frontier", "frame")}
CALLS |= {"slots": (), "capacity": (), "absorb": "other", "is_below": "other", "forget": (1,), "reopen": ()}
CALLS |= {"processors": (), "digest": (0, 1), "next_run": (6,), "close": ()}


def called(one, name, other):
    """Makes a call with its words, or reads a property."""
    found = getattr(one, name)
    return found(*((other,) if CALLS[name] == "other" else CALLS[name])) if callable(found) else found


def test_each_call_is_one_step():
    """No other thread comes between what a call asks of the library."""
    one, other = pfair.Dispatcher(1, 6, 6), pfair.Dispatcher(1, 6, 6)
    assert set(CALLS) == {name for name in dir(one) if name[0] != "_"} - {"of_file", "resume"}
    told = []
    one._lock = Told(one._lock, "one", told)
    for name in (*CALLS, "__repr__"):
        told.clear()
        repr(one) if name == "__repr__" else called(one, name, other)
        assert told == ["one"], name
    torn = pfair.Dispatcher(1, 6, 6)
    torn.take(0, 1, pfair.promise(1)), torn.take(0, 1, pfair.promise(2))
    torn._lock = Told(torn._lock, "torn", told)
    told.clear()
    assert torn.faults() == ([(0, 1)], []) and told == ["torn"]


def test_closing():
    one, other = pfair.Dispatcher(1, 6, 6), pfair.Dispatcher(1, 6, 6)
    with one as entered:
        assert entered is one
    one.close()
    for name in set(CALLS) - {"close"}:
        with pytest.raises(pfair.NotOpen, match="^the dispatcher is closed"):
            called(one, name, other)
    for call in (other.absorb, other.is_below):
        refusal(pfair.NotOpen, "the dispatcher is closed", call, one)
    assert repr(one) == "<Dispatcher: closed>"
    with pfair.Dispatcher(1, 6, 6) as another:
        assert repr(another) == "<Dispatcher: processors=1, frame=6, slots=6, capacity=4096, 0 slots planned>"
    refusal(pfair.NotOpen, "the dispatcher is closed", another.plan)
    for copied in (copy.copy, copy.deepcopy, pickle.dumps):
        with pytest.raises(TypeError, match="^a Dispatcher can't be copied or pickled$"):
            copied(other)


def test_one_that_was_never_made():
    """Its end is no fault: no number was taken, or the settings were refused."""
    pfair.Dispatcher.__new__(pfair.Dispatcher).__del__()
    with pytest.raises(TypeError):
        pfair.Dispatcher()


ANY, BYTE, SHORT = (0, 2**64 - 1), (0, 255), (0, 2**32 - 1)
KEY, SLOTS = {"processor": BYTE, "number": SHORT}, {"start": ANY, "stop": ANY}
# each number that a call takes, with its range, and whether the library takes all that are in it
RANGES = {
    "Dispatcher": ({"processors": (1, 64), "frame": (1, 10**9), "slots": (1, 10**6), "capacity": (1, 4096)}, True),
    "windows": ({"cost": ANY, "period": ANY, "count": (0, 1_000_001), "first": (1, 1_000_001)}, False),
    "plan": ({"until": (1, 2**64 - 1)}, True), "reserve": ({"slots": ANY, "tasks": ANY}, True),
    "forget": ({"slots": ANY}, True), "next_run": ({"slots": (1, 10**6)}, False), "held": (KEY, False),
    "take": (KEY, False), "take_log": ({"processor": BYTE, "first": SHORT}, False),
    **{name: ({"processor": BYTE}, False) for name in ("mark", "missing")},
    **{name: (SLOTS, False) for name in ("quanta", "decisions", "lags")},
}
NEEDS = {
    "Dispatcher": {"processors": 1, "frame": 1, "slots": 1, "capacity": 1}, "reserve": {"slots": 0, "tasks": 0},
    "windows": {"cost": 1, "period": 2, "count": 1}, "take": {"processor": 0, "number": 1, "entry": pfair.promise(1)},
    "take_log": {"processor": 0, "entries": []}, "held": {"processor": 0, "number": 1},
}


def tried(name, **words):
    one = pfair if hasattr(pfair, name) else pfair.Dispatcher(1, 1, 1)
    return getattr(one, name)(**{**NEEDS.get(name, {}), **words})


@pytest.mark.parametrize("call", RANGES)
def test_ranges(call):
    """A number out of its range is refused by its name, and so is what is no whole number."""
    ranges, is_taken = RANGES[call]
    for name, (least, most) in ranges.items():
        for number in (least - 1, most + 1):
            outside(name, number, lambda: tried(call, **{name: number}), least=least, most=most)
        for number in (least, most) if is_taken else ():
            tried(call, **{name: number})
        for wrong in (1.5, "1"):
            refusal(TypeError, f"{name} = {wrong!r} is no whole number", lambda: tried(call, **{name: wrong}))


def test_limits_of_windows():
    for words in ({"count": 0}, {"count": 1_000_001}, {"first": 1_000_001}, {"theta": 0}, {"theta": 2**40}):
        assert len(tried("windows", **words)) == words.get("count", 1)
    for theta in (-1, 2**40 + 1):
        outside("theta", theta, lambda: tried("windows", theta=theta), most=2**40)


def test_weights_of_windows():
    outside("count", 1_000_000, pfair.windows, 1, 2, 1_000_000, 3, most=999_999)
    for name, cost, period in WRONG_WEIGHTS:
        kind = getattr(pfair, name)
        refusal(kind, f"{kind.text}: {cost}/{period}", pfair.windows, cost, period, 1)


def test_refused_entries():
    """Nothing is taken of an entry that is wrong, or that has no place; which are wrong is in test_entries.py."""
    one = pfair.Dispatcher(2, 6, 6, 5)
    for kind, entry in (
        (pfair.NameEmpty, pfair.Entry(kind="arrive", cost=1, period=2)),
        (pfair.StampBeforeFloor, pfair.Entry(2, "depart", 1, "a")),
        (pfair.SlotTooFar, pfair.Entry(10**6 + 1)),
    ):
        refusal(kind, f"{kind.text}: entry 3 of processor 1", one.take, 1, 3, entry)
        assert one.held(1, 3) is None
    for entry in (pfair.Entry(-1), pfair.Entry(0, "leave", 0, "a")):
        with pytest.raises(pfair.OutOfRange):
            one.take(1, 3, entry)
    for processor, number in ((2, 1), (0, 0), (0, 6)):
        kind = pfair.NoSuchProcessor if processor == 2 else pfair.NoSuchNumber
        where = f"{kind.text}: entry {number} of processor {processor}"
        refusal(kind, where, one.take, processor, number, pfair.promise(1))
        refusal(kind, where, one.held, processor, number)
        for entries in ([], [pfair.promise(1)]):
            found = refusal(kind, where, one.take_log, processor, entries, number)
            assert found == {"processor": processor, "number": number}
    for call in (one.mark, one.missing):
        refusal(pfair.NoSuchProcessor, f"{pfair.NoSuchProcessor.text}: processor 2", call, 2)


def test_what_is_no_dispatcher():
    one = pfair.Dispatcher(1, 6, 6)
    for other in (3, None, pfair.Script(1, 6, 6)):
        for call in (one.absorb, one.is_below):
            refusal(TypeError, f"other = {other!r} is no Dispatcher", call, other)


HEAD = b"version = 1\nprocessors = 2\nframe = 6\nslots = 6\n"
ENTRY = b"[[entry]]\nprocessor = 1\nfloor = 3\n"
LATE = ENTRY + b"kind = 'late'\nat = 4\nname = 'a'\nindex = 1\nby = 1\n"
ARRIVE = ENTRY + b"kind = 'arrive'\nat = 4\nname = 'a'\ncost = 1\nperiod = 2\n"
KEYS = "version processors frame slots processor floor at name cost period index by".split()


def without(text, key):
    return b"".join(line for line in text.splitlines(True) if not line.startswith(key + b" ="))


FAULTS = [
    *((pfair.KeyMissing, f"{key} at 0", without(HEAD, key.encode()), {"place": 0}) for key in KEYS[:4]),
    *((pfair.KeyMissing, f"{key} at 1", HEAD + without(ARRIVE, key.encode()), {"place": 1}) for key in KEYS[4:10]),
    *((pfair.KeyMissing, f"{key} at 2", HEAD + ENTRY + without(LATE, key.encode()), {"place": 2}) for key in KEYS[10:]),
    (pfair.KeyWrongKind, "processors at 0", HEAD.replace(b"2", b"'2'"), {"place": 0}),
    (pfair.KeyWrongKind, "entry at 0", HEAD + b"entry = 3\n", {"place": 0}),
    (pfair.KeyWrongKind, "early at 1", HEAD.replace(b"1", b"2") + ARRIVE + b"early = 3\n", {"place": 1}),
    (pfair.KeyOutOfRange, "kind at 1", HEAD + ENTRY + b"kind = 'leave'\n", {"place": 1}),
    (pfair.KeyOutOfRange, "processors at 0", HEAD.replace(b"2", b"65"), {"place": 0}),
    (pfair.NotToml, "", b"version = ", {}), (pfair.UnknownVersion, "", HEAD.replace(b"1", b"3"), {}),
    (pfair.FileTooLong, "", b" " * 67_108_865, {}),
]
FOUND = "entry 2 of processor 1 for 7", {"processor": 1, "number": 2, "cause": 7}
FAULTS.append((pfair.EntryRefused, FOUND[0], HEAD + 2 * ENTRY + b"kind = 'depart'\nat = 2\nname = 'a'\n", FOUND[1]))


@pytest.mark.parametrize("kind,where,text,found", FAULTS, ids=lambda given_: getattr(given_, "__name__", ""))
def test_faults_of_files(kind, where, text, found):
    said = kind.text + (f": {where}" if where else "")
    assert refusal(kind, said, pfair.Dispatcher.of_file, text) == found and issubclass(kind, pfair.TaskFileError)


def test_buffers_of_files():
    """Any buffer is read, and another thing is refused by its name."""
    for text in (HEAD, bytearray(HEAD), memoryview(b"x" + HEAD)[1:], array.array("b", HEAD)):
        assert pfair.Dispatcher.of_file(text).processors == 2
    said = "text has to be the contents of a task file, bytes or another buffer, and not a "
    for text in (HEAD.decode(), 3, None):
        refusal(TypeError, said + type(text).__name__, pfair.Dispatcher.of_file, text)


def test_subclasses():
    class Own(pfair.Dispatcher):
        pass

    for one in (Own(1, 6, 6), Own.of_file(HEAD)):
        assert type(one) is Own and repr(one).startswith("<Own: processors=")


def test_longest_file():
    longest = _dispatcher.LONGEST_FILE
    text = HEAD + b"#" * (longest - len(HEAD))
    with pfair.Dispatcher.of_file(text) as one:
        assert (one.processors, one.frame, one.slots, one.capacity, one.planned) == (2, 6, 6, 1, 0)
    with pytest.raises(pfair.FileTooLong):
        pfair.Dispatcher.of_file(text + b"#")


def test_dispatchers_of_files():
    """It holds the entries of the file and the promise that closes each log, and has planned nothing."""
    with pfair.Dispatcher.of_file(HEAD + ARRIVE + LATE) as one:
        assert (one.processors, one.frame, one.slots, one.capacity, one.planned, one.frontier) == (2, 6, 6, 3, 0, 6)
        entries = [pfair.arrive("a", 1, 2, at=4, floor=3), pfair.late("a", 1, 1, at=4, floor=3), pfair.promise(6)]
        assert [one.held(1, number) for number in (1, 2, 3)] == entries and one.held(0, 1) == pfair.promise(6)
        assert one.plan() == ("planned", 5)
