"""Recorded rows as they are read: each form, texts in pieces, what is slow beside what is quick, and each complaint."""
import io

import numpy as np
import pytest
from conftest import refusal
from hypothesis import given, settings
from hypothesis import strategies as some

from pfair import _record
from pfair._record import read_record

NAMES = some.from_regex(r"[a-z][a-z0-9_]{0,15}", fullmatch=True)
NUMBERS = some.one_of(some.integers(0, 12), some.integers(0, 10**8), some.integers(0, 2**63 - 1))
FIELDS = ("slot", "task", "index", "place")
ROWS = some.lists(some.tuples(NUMBERS, some.one_of(some.sampled_from("abc"), NAMES), NUMBERS, NUMBERS), max_size=12)


def columns(record):
    """A record as rows again."""
    names = [record.names[code] for code in record.tasks.tolist()]
    assert len(set(record.names)) == len(record.names)
    more = [column.tolist() for column in (record.indexes, record.places) if column is not None]
    assert all(column is None or column.dtype == np.int64 for column in record[:2] + record[3:])
    return [*zip(record.slots.tolist(), names, *more)]


@settings(max_examples=200)
@given(ROWS, some.integers(1, 80), some.sampled_from(",;\t"), some.booleans())
def test_texts(rows, size, separator, has_end):
    """Texts whose columns stand in another order, beside others, read in pieces of any size."""
    lines = [("place", "x", "task", "index", "slot"), *((d, "", b, c, a) for a, b, c, d in rows)]
    text = "\n".join(separator.join(map(str, line)) for line in lines) + "\n" * has_end
    before = _record._AT_ONCE
    _record._AT_ONCE = size
    try:
        assert columns(read_record(io.BytesIO(text.encode()))) == rows
        assert columns(read_record(text.encode().replace(b"\n", b"\r\n"))) == rows
        quoted = "\r\n".join(separator.join(f' "{word}" ' for word in line) for line in lines)
        assert columns(read_record(io.BytesIO(b"\xef\xbb\xbf" + quoted.encode()))) == rows
    finally:
        _record._AT_ONCE = before


@settings(max_examples=100)
@given(ROWS)
def test_arrays_and_rows(rows):
    array = np.array(rows, [("slot", "u8"), ("task", "S16"), ("index", "i8"), ("place", "u8")])
    assert columns(read_record(array)) == columns(read_record(rows)) == columns(read_record(iter(rows))) == rows
    assert columns(read_record(array[["task", "slot"]])) == [row[:2] for row in rows]
    for kind in ("U16", "O"):
        assert columns(read_record(array.astype([(name, kind if name == "task" else "u8") for name in FIELDS]))) == rows
    some_rows = [(f" {a} ", b.encode(), np.uint64(c)) for a, b, c, _ in rows]
    assert columns(read_record(some_rows)) == [row[:3] for row in rows]


@settings(max_examples=60)
@given(ROWS, some.sampled_from(("category", object, "string")))
def test_frames(rows, kind):
    pandas = pytest.importorskip("pandas")
    rows = [(a, b, c, d % 64) for a, b, c, d in rows]
    frame = pandas.DataFrame(rows, columns=FIELDS).astype({"slot": "u8", "index": "i8", "task": kind, "place": "u1"})
    assert columns(read_record(frame)) == rows
    assert columns(read_record(frame[["task", "slot"]])) == [row[:2] for row in rows]
    assert columns(read_record(frame[::-1])) == rows[::-1]


def test_refused_frames():
    pandas = pytest.importorskip("pandas")
    good = pandas.DataFrame({"slot": [1, 2], "task": ["a", "b"]})
    assert columns(read_record(good)) == [(1, "a"), (2, "b")] and not hasattr(_record, "DataFrame")
    assert columns(read_record(pandas.Series([(1, "a")]))) == [(1, "a")]
    refusal(ValueError, "a frame without the column 'task'", read_record, good[["slot"]])
    refusal(ValueError, "a frame without the column 'slot'", read_record, good[["task"]])
    refusal(ValueError, "row 2: it has no task", read_record, good.assign(task=["a", None]))
    refusal(ValueError, "'B' is no task's name", read_record, good.assign(task=["a", "B"]))
    text = "the field 'slot' has other values than whole numbers from 0 on"
    for slots in ([1.0, 2.0], [1, None], [-1, 2]):
        refusal(ValueError, text, read_record, good.assign(slot=slots))


def test_quick():
    """Plain lines are read at once, and others one by one; both give the same."""
    header = _record._Header(b"slot,task\n")
    text = b"".join(b"%d,%s\n" % (10**k - 1, b"a" * k) for k in range(1, 9)) * 2
    for read in (_record._quick, lambda piece, _, *more: _record._slow(piece, 2, *more)):
        names = _record.Names()
        columns_read = read(text, 16, header, names)
        assert list(columns_read) == ["slot", "task"]
        assert columns_read["slot"].tolist() == [10**k - 1 for k in range(1, 9)] * 2
        assert [names.all()[code] for code in columns_read["task"]] == ["a" * k for k in range(1, 9)] * 2
    long = b"".join(b"1,%s%c%s\n" % (b"a" * k, letter, b"z" * (15 - k)) for k in (0, 7, 8, 9, 15) for letter in b"bcb")
    names = _record.Names()
    codes = _record._quick(long, 15, header, names)["task"]
    assert b"".join(b"1,%s\n" % names.all()[code].encode() for code in codes) == long and len(names.all()) == 10
    for other in (
        b"1\na,3,b\n", b"1,a\n2\n", b"1,a,2\n2\n", b",a\n", b"123456789,a\n", b"1,\n", b"1, a\n",
        b"1,aaaaaaaaaaaaaaaaa\n", b"1,a\0\n", b"1,A\n",
    ):
        assert _record._quick(other, other.count(b"\n"), header, _record.Names()) is None
    for byte in {*range(256)} - {*b"0123456789,\n"}:
        assert _record._quick(b"1%c1,a\n" % byte, 1, header, _record.Names()) is None


def test_forms_of_texts(tmp_path):
    file = tmp_path / "rows.csv"
    file.write_text("task,slot\nb,7\n\na,0\n,,\n"[:-3] + "\n")
    texts = io.StringIO(file.read_text()), io.BytesIO(file.read_bytes())
    for given_as in (file, str(file), file.read_bytes(), file.read_text(), *texts):
        assert columns(read_record(given_as)) == [(7, "b"), (0, "a")]
    with open(file) as opened:
        assert columns(read_record(opened)) == [(7, "b"), (0, "a")]
    for text in ("slot,task,a;b\n1,a,0\n", 'slot,task\n" ",\n1,a\n'):
        assert columns(read_record(text)) == [(1, "a")]
    assert columns(read_record("\ufeffSlot ; TASK\n 3 ; a \n;\n")) == [(3, "a")]
    for empty in ("slot,task\n", b"slot,task", [], np.zeros(0, [("slot", "u8"), ("task", "S16")])):
        read = read_record(empty)
        assert columns(read) == [] and read.names == [] and read.indexes is read.places is None


HEADS = {b"": "", b"time,task\n": "time,task", b"slotxtask\n1xa\n": "slotxtask", b"\xff,task\n": "\ufffd,task"}
HEADS |= {b"x" * 99 + b"\n": "x" * 80}
COMPLAINTS = [
    *((text, f"line 1: the header has no column 'slot': '{head}'") for text, head in HEADS.items()),
    (b"slot,name\n", "line 1: the header has no column 'task': 'slot,name'"),
    (b"x" * 131_073, "line 1: field larger than field limit (131072)"),
    (b"slot,task\n1,a\n2\n", "line 3: it has 1 columns, and the header 2"),
    (b"slot,task\n1,a\n2,a,3\n1,a\n", "line 3: it has 3 columns, and the header 2"),
    (b"slot,task,index\n1,a,1\n\n1,a,\n", "line 4: '' is no whole number from 0 on"),
    *(
        (f"slot,task\n1,a\n{word},a\n".encode(), f"line 3: {word!r} is no whole number from 0 on")
        for word in ("x", "-1", "1.0", "1_0", "", "\u0663", "9223372036854775808")
    ),
    *(
        (b"slot,task\n1,a\n1,%s\n" % word, f"line 3: {word.decode(errors='replace')!r} is no task's name")
        for word in (b"A", b"", b"abcdefghijklmnopq", b"\xff")
    ),
    (b'slot,task\n1,"a\n2,b\n', "line 3: unexpected end of data"),
    (b'slot,task\n1,"a"b\n', "line 2: ',' expected after '\"'"),
]


@pytest.mark.parametrize("text,complaint", COMPLAINTS)
def test_complaints(text, complaint):
    refusal(ValueError, complaint, read_record, text)


def test_lines_are_counted_over_pieces(monkeypatch):
    text = b"slot,task\n" + b"1,a\n" * 50 + b"?,a\n"
    for size in (1, 5, 64, 1000):
        monkeypatch.setattr(_record, "_AT_ONCE", size)
        refusal(ValueError, "line 52: '?' is no whole number from 0 on", read_record, text)


def test_refused_rows():
    refusal(ValueError, "row 2: '-1' is no whole number from 0 on", read_record, [(1, "a"), ("-1", "a")])
    refusal(ValueError, "row 1: 1.5 is no whole number from 0 on", read_record, [(1.5, "a")])
    refusal(ValueError, "row 1: True is no whole number from 0 on", read_record, [(True, "a")])
    for name, shown in (("é", "é"), (b"\xff", "\ufffd"), ("\ud800", 3 * "\ufffd"), (5, "5")):
        refusal(ValueError, f"row 1: {shown!r} is no task's name", read_record, [(1, name)])
    for of in (str, io.StringIO):
        refusal(ValueError, "line 2: '\ufffd\ufffd\ufffd' is no task's name", read_record, of("slot,task\n1,\ud800\n"))
    for before in (1, 2):
        text, rows = f"row {before + 1}: it has 3 columns, and the first row 2", [*[(1, "a")] * before, (1, "a", 1)]
        refusal(ValueError, text, read_record, rows)
    refusal(ValueError, "row 1: not enough values to unpack (expected at least 2, got 1)", read_record, [(1,)])
    refusal(ValueError, "row 1: cannot unpack non-iterable int object", read_record, [1])
    assert columns(read_record([(1, "a", 2, 3, "more")])) == [(1, "a", 2, 3)]


def test_refused_arrays():
    for fields, missing in (([("slot", "u8")], "task"), ([("task", "S4"), ("time", "u8")], "slot")):
        refusal(ValueError, f"an array without the field '{missing}'", read_record, np.zeros(1, fields))
    refusal(ValueError, "an array without the field 'slot'", read_record, np.zeros(3))
    for kind, value in (("f8", 1), ("i8", -1), ("u8", 2**63)):
        rows = np.array([(value, "a")], [("slot", kind), ("task", "S16")])
        refusal(ValueError, "the field 'slot' has other values than whole numbers from 0 on", read_record, rows)
    rows = np.array([(1, "a", -1)], [("slot", "u8"), ("task", "S16"), ("index", "i8")])
    refusal(ValueError, "the field 'index' has other values than whole numbers from 0 on", read_record, rows)
    refusal(ValueError, "'B' is no task's name", read_record, np.array([(1, "B")], [("slot", "u8"), ("task", "S16")]))
    assert columns(read_record(np.array([(2**63 - 1, "a")], [("slot", "u8"), ("task", "S16")]))) == [(2**63 - 1, "a")]
