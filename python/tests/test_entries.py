"""Entries and scripts: their rows, their texts, their defaults and their limits."""
import dataclasses
import re
import tomllib

import numpy as np
import pytest
from hypothesis import example, given, settings
from hypothesis import strategies as some

import pfair
from conftest import assert_plain, outside, refusal
from pfair._entries import entry_of
from pfair._numbers import whole

KINDS = {None: 0, "arrive": 1, "depart": 2, "late": 3}
KEYS = ["floor", "kind", "at", "name", "length", "cost", "period", "early", "index", "by"]
NUMBERS = some.integers(0, 2**64 - 1)
NAMES = some.text("abcdefghijklmnopqrstuvwxyz_0123456789", max_size=16)
WEIGHTS = NUMBERS, NUMBERS, some.booleans()
ANY = some.builds(pfair.Entry, NUMBERS, some.sampled_from(list(KINDS)), NUMBERS, NAMES, *WEIGHTS, NUMBERS, NUMBERS)


@settings(max_examples=100)
@given(some.lists(ANY, max_size=5))
def test_rows_of_entries(entries):
    """Each field of each entry stands in its own column, and comes back."""
    rows = pfair.rows_of(entries)
    assert rows.dtype == pfair.ENTRY and rows.shape == (len(entries),)
    for row, entry in zip(rows, entries):
        wanted = [entry.floor, KINDS[entry.kind], entry.at, entry.name.encode(), len(entry.name), entry.cost]
        wanted += [entry.period, int(entry.early), entry.index, entry.by]
        assert [row[key].item() for key in KEYS] == wanted
        back = entry_of(row)
        assert back == entry and type(back.early) is bool
        assert_plain(dataclasses.astuple(back))


def test_names_in_rows():
    """A name keeps its first 16 bytes, and its whole length, by which the library refuses it."""
    rows = pfair.rows_of([pfair.Entry(name=name) for name in ("abcdefgh" * 3, "é" * 9, "a" * 16, "\ud800")])
    assert rows["name"].tolist() == [b"abcdefgh" * 2, "é".encode() * 8, b"a" * 16, b"\xed\xa0\x80"]
    assert rows["length"].tolist() == [24, 18, 16, 3]
    text = f"{pfair.NameBadByte.text}: name = 'a\\x00\\ud800'"
    refusal(pfair.NameBadByte, text, pfair.rows_of, [pfair.Entry(name="a\0\ud800")])


def test_numbers_in_rows():
    for key in ("floor", "at", "cost", "period", "early", "index", "by"):
        entry = dataclasses.replace(pfair.Entry(), **{key: 2**64 - 1})
        assert int(pfair.rows_of([entry])[key][0]) == 2**64 - 1
        for wrong in (-1, 2**64):
            outside(key, wrong, pfair.rows_of, [dataclasses.replace(entry, **{key: wrong})])
        text = f"{key} = 1.0 is no whole number"
        refusal(TypeError, text, pfair.rows_of, [dataclasses.replace(entry, **{key: 1.0})])
    text = "a number is out of its range: kind = 'leave'"
    refusal(pfair.OutOfRange, text, pfair.rows_of, [pfair.Entry(kind="leave")])


def test_rows_that_are_an_array():
    rows = pfair.rows_of([pfair.promise(slot) for slot in range(4)])
    assert pfair.rows_of(rows) is rows or np.shares_memory(pfair.rows_of(rows), rows)
    apart = pfair.rows_of(rows[::2])
    assert apart.flags.c_contiguous and apart["floor"].tolist() == [0, 2]
    for wrong, said in (
        (np.zeros(3), "1 dimensions and the dtype float64"),
        (rows.reshape(2, 2), "2 dimensions and the dtype .*"),
    ):
        with pytest.raises(TypeError, match=f"^an array of {said} isn't a list of rows of the dtype ENTRY$"):
            pfair.rows_of(wrong)


@given(some.integers(-9, 9), some.integers(0, 2**70), some.integers(-(2**71), 2**71))
def test_whole(least, more, number):
    if least <= number <= least + more:
        assert whole(number, "it", least, least + more) == number
    else:
        outside("it", number, whole, number, "it", least, least + more, least=least, most=least + more)


def test_whole_takes_whole_numbers_alone():
    for number in (np.uint64(1), np.int8(1), True, 1):
        assert whole(number, "it") == 1 and type(whole(number, "it")) in (int, bool)
    for wrong in (1.0, "1", None):
        refusal(TypeError, f"it = {wrong!r} is no whole number", whole, wrong, "it")


# ---- entries that are made


NAME = some.one_of(some.sampled_from(["", "a", "a" * 16, "a" * 17, "é" * 8, "é" * 9, "A", "1a", "\ud800"]), NAMES)


def near(*bounds):
    """Numbers near these, and some others."""
    edges = [bound + more for bound in bounds for more in (-1, 0, 1)]
    return some.one_of(some.sampled_from([*edges, 2**64]), some.integers(0, 9))


SLOTS = near(0, 10**6)
WEIGHT = {"cost": near(0, 10**9), "period": near(0, 10**9), "early": some.sampled_from((0, 1, 2))}
FIELDS = {"arrive": {"name": NAME, **WEIGHT}, "depart": {"name": NAME}}
FIELDS |= {"late": {"name": NAME, "index": near(0, 10**6), "by": near(0, 2**20)}}
FIELDS = {None: {"floor": SLOTS}} | {kind: {**more, "at": SLOTS, "floor": SLOTS} for kind, more in FIELDS.items()}
ENTRIES = some.one_of(some.tuples(some.just(kind), some.fixed_dictionaries(FIELDS[kind])) for kind in FIELDS)
MAKERS = {None: pfair.promise, "arrive": pfair.arrive, "depart": pfair.depart, "late": pfair.late}


def outcome(call, *words, **fields):
    try:
        return call(*words, **fields)
    except pfair.PfairError as refused:
        return refused


def arrival(**fields):
    return "arrive", {"name": "a", "cost": 1, "period": 2, "early": False, "at": 0, "floor": 0, **fields}


# of several wrong fields the first is named
@settings(max_examples=1000)
@example(("late", {"name": "a", "index": 0, "by": 0, "at": 0, "floor": 0}))
@example(("late", {"name": "a", "index": 0, "by": 1, "at": 0, "floor": 1}))
@example(("depart", {"name": "a", "at": 10**6 + 1, "floor": 10**6 + 2}))
@example(arrival(cost=10**9 + 2, period=10**9 + 1))
@example(arrival(cost=10**9, period=10**9, at=10**6, floor=10**6))
@example(("late", {"name": "a" * 16, "index": 10**6, "by": 2**20, "at": 10**6, "floor": 10**6}))
@example(("late", {"name": "a", "index": 10**6 + 1, "by": 1, "at": 0, "floor": 0}))
@example(("late", {"name": "a", "index": 1, "by": 2**20 + 1, "at": 0, "floor": 0}))
@example(arrival(cost=0, name=""))
@example(arrival(cost=0, at=1, floor=2))
@example(arrival(name="\u00c9" * 9))
@given(ENTRIES)
def test_makers(drawn):
    """They make the entry of these fields, or refuse what a dispatcher would, and name fields that are wrong."""
    kind, fields = drawn
    entry = pfair.Entry(kind=kind, **fields)
    made, taken = outcome(MAKERS[kind], **fields), outcome(pfair.Dispatcher(1, 1, 1, 1).take, 0, 1, entry)
    if taken == "new":
        assert made == entry and type(made.early) is bool
    else:
        assert type(made) is type(taken)
        named = dict(re.findall(r"(\w+) = ('.*'|-?\d+)", str(made)))
        assert named and all(repr(fields[key]) == value for key, value in named.items())


def test_forms_of_makers():
    """Slots are given by their names alone. Numbers of numpy are taken, and nothing else is."""
    whole_ones = pfair.arrive("a", np.int8(1), np.uint64(2), at=np.int32(3), early=np.True_)
    assert whole_ones == pfair.Entry(0, "arrive", 3, "a", 1, 2, True)
    assert {type(getattr(whole_ones, key)) for key in ("at", "cost", "period")} == {int} and whole_ones.early is True
    assert pfair.late("a", 2, 3, at=4) == pfair.Entry(0, "late", 4, "a", index=2, by=3)
    assert pfair.depart("a", at=4) == pfair.Entry(0, "depart", 4, "a") and pfair.promise(5) == pfair.Entry(5)
    assert pfair.arrive("a", 1, 2) == pfair.Entry(0, "arrive", 0, "a", 1, 2, False)
    for words in ((pfair.arrive, "a", 1, 2, 3), (pfair.depart, "a", 3), (pfair.late, "a", 1, 2, 3)):
        with pytest.raises(TypeError, match="positional argument"):
            words[0](*words[1:])
    for text, words in (
        ("name = 3 is no str", (pfair.depart, 3)),
        ("name = b'a' is no str", (pfair.depart, b"a")),
        ("cost = 1.5 is no whole number", (pfair.arrive, "a", 1.5, 2)),
        ("index = None is no whole number", (pfair.late, "a", None, 2)),
    ):
        refusal(TypeError, text, *words, at=0)
    refusal(TypeError, "floor = 2.0 is no whole number", pfair.promise, 2.0)
    with pytest.raises(dataclasses.FrozenInstanceError):
        whole_ones.floor = 1


def test_order_of_fields():
    """That of the rows of the library, and of pfair.h."""
    assert [field.name for field in dataclasses.fields(pfair.Entry)] == [key for key in KEYS if key != "length"]
    assert pfair.Entry() == pfair.Entry(0, None, 0, "", 0, 0, False, 0, 0)


LOG = [
    pfair.arrive("a", 1, 2, early=True), pfair.late("a", 2, 3, at=1, floor=1), pfair.depart("a", at=4, floor=3),
    pfair.promise(5),
]
MORE = {"arrive": ("cost", "period"), "late": ("index", "by")}


@given(some.lists(some.lists(ANY, max_size=3), max_size=3))
def test_text_of_a_script(logs):
    """An entry in a line, with the keys that its kind needs, and no others."""
    text, wanted = pfair.Script(3, 6, 8, logs).text(), []
    for processor, entry in ((processor, entry) for processor, log in enumerate(logs) for entry in log):
        keys = ["floor", *(("kind", "at", "name") if entry.kind else ()), *MORE.get(entry.kind, ())]
        told = {key: getattr(entry, key) for key in keys + ["early"] * entry.early}
        wanted.append({"processor": processor, **told})
    assert tomllib.loads(text) == {"version": 2, "processors": 3, "frame": 6, "slots": 8, "entry": wanted}
    assert text.count("\n") == 6 + len(wanted) and text.startswith("version = 2\n")


def test_logs_of_a_script():
    script = pfair.Script(3, 6, 8, [LOG, [], [pfair.promise(8)]])
    assert [script.log(processor) for processor in range(4)] == [LOG, [], [pfair.promise(8)], []]
    assert script.log(0) is script.logs[0]
    outside("processor", -1, script.log, -1)
    # closed by a promise for all slots, unless the log's last floor is that already
    assert script.closed(0) == [*LOG, pfair.promise(8)]
    assert script.closed(1) == script.closed(2) == script.closed(3) == [pfair.promise(8)]
    past = pfair.Script(1, 6, 8, [[pfair.promise(8), pfair.promise(7)]])
    assert past.closed(0) == [pfair.promise(8), pfair.promise(7), pfair.promise(8)]
    assert pfair.Script(1, 6, 8, [[pfair.promise(9)]]).closed(0) == [pfair.promise(9)]
    assert script.closed(0) is not script.logs[0] and script.logs[0] == LOG


def test_settings_of_a_script():
    one, other = pfair.Script(1, 2, 3), pfair.Script(1, 2, 3)
    assert (one.processors, one.frame, one.slots, one.logs) == (1, 2, 3, [])
    assert one == other and one.logs is not other.logs
    script = pfair.Script(2, 6, 8, [LOG, [pfair.promise(8)]])
    assert repr(script) == "<Script: processors=2, frame=6, slots=8, 5 entries>"
