"""Schedules of scripts and task files: rows, counts, tables for pandas, traces, and files as they are read."""
import concurrent.futures
import copy
import io
import multiprocessing
import pickle
import sys
import types

import numpy as np
import pytest
from conftest import EXAMPLES, outside, refusal, script_of
from hypothesis import given, settings
from hypothesis import strategies as some

import pfair
from pfair import _frames, _names, _program, _schedule, _source, _task_file, _trace
from recorded import rows_of, stays_of

FILES = sorted(EXAMPLES.glob("*.toml"))
NAMED = {0: "admitted", 1: "departing", 2: "delayed"}


def rows_of_table(quanta, *more):
    head = ",".join(["slot,processor,task,index", *more])
    rows = [[q["slot"], q["row"], q["task"].decode(), q["index"], *(q[key] for key in more)] for q in quanta]
    return [head, *(",".join(map(str, row)) for row in rows)]


def decisions_of(decisions):
    lines = ["slot,processor,number,task,outcome,value"]
    for row in decisions:
        outcome = int(row["outcome"])
        value = row["freed_at"] if outcome == 1 else "-" if outcome in NAMED else outcome
        told = row["slot"], row["processor"], row["number"], row["task"].decode(), NAMED.get(outcome, "refused"), value
        lines.append(",".join(map(str, told)))
    return lines


def lags_of(lags):
    rows = [f"{row['time']},{row['task'].decode()},{row['numerator']},{row['period']}" for row in lags]
    return ["time,task,numerator,period", *rows]


@pytest.mark.parametrize("file", FILES, ids=lambda file: file.stem)
def test_rows_of_the_examples(file):
    schedule = pfair.schedule(script_of(file))
    assert rows_of_table(schedule.quanta) == file.with_suffix(".replay").read_text().splitlines()
    assert decisions_of(schedule.decisions) == file.with_suffix(".decisions").read_text().splitlines()
    assert lags_of(schedule.lags()) == file.with_suffix(".lags").read_text().splitlines()
    middle = schedule.script.slots // 2
    assert (np.concatenate([schedule.lags(0, middle), schedule.lags(middle)]) == schedule.lags()).all()
    assert (schedule.lags(start=1, stop=2) == schedule._dispatcher.lags(1, 2)).all()
    if file.with_suffix(".placed").exists():
        assert rows_of_table(schedule.quanta, "place") == file.with_suffix(".placed").read_text().splitlines()


def drawn(seed, processors=4, slots=200, early=False):
    rng = np.random.default_rng(seed)
    weights = pfair.study.rand_fixed_sum(10, 0.7 * processors, rng)
    return pfair.study.task_set(weights, processors, slots, rng, early=early)


def test_any_order_and_repeats():
    rng, script = np.random.default_rng(1), drawn(1)
    whole = pfair.schedule(script)
    pair = [pfair.Dispatcher(4, script.frame, script.slots, 16) for _ in range(2)]
    for processor in range(4):
        log = script.closed(processor)
        for number in rng.permutation(len(log)):
            one = pair[int(rng.integers(2))]
            assert one.take(processor, int(number) + 1, log[number]) == "new"
            assert one.take(processor, int(number) + 1, log[number]) == "known"
    assert pair[0].missing(0) is not None or pair[1].missing(0) is not None
    pair[0].absorb(pair[1])
    assert pair[1].is_below(pair[0]) and not pair[0].is_below(pair[1])
    pair[1].absorb(pair[0])
    for one in pair:
        assert one.is_below(pair[0]) and one.plan() == ("planned", script.slots - 1)
        assert (one.quanta() == whole.quanta).all() and (one.decisions() == whole.decisions).all()
        assert one.table(3) == [(q["task"].decode(), int(q["index"])) for q in one.quanta(3, 4)]
        assert sorted(one.places(3)) == sorted(set(one.places(3)))


def test_capacity_is_that_of_the_longest_log():
    script = pfair.Script(2, 6, 9, [[pfair.arrive("a", 1, 2), pfair.arrive("b", 1, 2)]])
    schedule = pfair.schedule(script)
    assert schedule.script is script and schedule._dispatcher.capacity == 3


def test_runs_that_cannot_be_planned():
    outside("processors", 0, pfair.schedule, pfair.Script(0, 1, 1), least=1, most=64)
    script = pfair.Script(1, 6, 6, [[pfair.promise(4), pfair.promise(2)]])
    text = f"{pfair.Stalled.text}: slot 4"
    assert refusal(pfair.Stalled, text, pfair.schedule, script) == {"frontier": 4}


def counts_by_a_loop(script):
    """The counts by a loop over the quanta of each incarnation."""
    schedule, preempted, moved = pfair.schedule(script), 0, 0
    rows, decided = rows_of(schedule.quanta), decisions_of(schedule.decisions)[1:]
    for stay in stays_of(script, schedule.decisions):
        own = [row for row in rows if row[1] == stay.name and stay.joined <= row[0] < stay.left]
        for (before, _, _, where), (slot, _, index, place) in zip(own, own[1:]):
            preempted += slot - before > 1 and (index - 1) % stay.cost != 0
            moved += place != where
    refused = sum(int(line.split(",")[5]) in (20, 21, 22) for line in decided if ",refused," in line)
    admitted = sum(",admitted," in line for line in decided)
    behind = sum(above >= below for _, _, above, below in schedule.lags().tolist())
    return admitted + refused, refused, len(rows), preempted, moved, behind


AGAIN = [
    pfair.arrive("a", 1, 3), pfair.arrive("b", 2, 3), pfair.depart("a", at=10),
    pfair.arrive("a", 2, 6, at=20, floor=20), pfair.arrive("c", 1, 5, at=21, floor=21),
    pfair.depart("x", at=22, floor=22), pfair.late("b", 20, 5, at=23, floor=23),
]
SMALL = [AGAIN], [], [[pfair.arrive("a", 1, 6), pfair.late("a", 2, 5, at=1, floor=1)]]
SCRIPTS = [drawn(1, 2, 60), drawn(2, 3, 80), drawn(3, 4, 60, True), *(pfair.Script(1, 6, 60, logs) for logs in SMALL)]


@pytest.mark.parametrize("script", SCRIPTS)
def test_counts(script):
    counts = pfair.schedule(script).counts()
    assert counts == counts_by_a_loop(script) and all(type(count) is int for count in counts)
    assert counts._fields == ("arrivals", "refused", "quanta", "preemptions", "moves", "behind")


@pytest.mark.parametrize("limit", [7, 25, 1_000])
def test_lags_by_pieces(limit, monkeypatch):
    """As many slots at once as have no more lags than the limit, and at least one; nothing else depends on them."""
    script = drawn(1, 2, 60)
    counts, lags = pfair.schedule(script).counts(), pfair.schedule(script).lags()
    monkeypatch.setattr(_schedule, "_LAGS_AT_ONCE", limit)
    schedule = pfair.schedule(script)
    pieces = list(schedule._lags_by_pieces())
    assert schedule.counts() == counts and (np.concatenate(pieces) == lags).all()
    slots = max(1, limit // 10)
    assert [len(set(piece["time"].tolist())) for piece in pieces[:-1]] == [slots] * (59 // slots)


NAMES = some.lists(some.text("ab", max_size=4).map(lambda end: ("longname" + end).encode()), max_size=12)
MIXED = some.lists(
    some.sampled_from([b"a", b"b", b"longnamea", b"longnameb", b"longname", b"othernamea", b"othername"]), max_size=14
)


@pytest.mark.parametrize("boxes", [1 << 16, 1])
@settings(max_examples=100)
@given(some.one_of(NAMES, MIXED))
def test_numbers_of_names(boxes, names):
    """Names of more than 8 bytes with one beginning are apart, also where they end alike behind another beginning."""
    with pytest.MonkeyPatch.context() as patch:
        if boxes == 1:  # all names are in one box
            patch.setattr(_names, "_MIXED", np.array([0, 0, 0], np.uint64))
        check_numbers(names)


def check_numbers(names):
    rows = np.zeros(len(names), pfair.QUANTUM)
    rows["task"] = names
    codes, known = _names.numbered(rows["task"])
    assert [known[code] for code in codes] == names and len(known) == len(set(names)) and set(known) == set(names)


def test_numbers_of_many_names():
    """Some of many names share a box."""
    check_numbers([b"n%d" % (place * place) for place in [*range(3000)] * 2])
    check_numbers([b"%c%c%s" % (one, other, b"a" * 14) for one in b"abc" for other in range(97, 123)])
    check_numbers([b"a" * 14 + b"%c%c" % (one, other) for one in b"abc" for other in range(97, 123)])


def test_pandas():
    """Tasks in the order of their names, outcomes in words, and numbers whose differences don't wrap around."""
    pandas = pytest.importorskip("pandas")
    script = pfair.Script(2, 12, 60, [[pfair.arrive("beginning_b", 5, 12), pfair.arrive("beginning_a", 1, 3)], AGAIN])
    schedule = pfair.schedule(script)
    frames = schedule.to_pandas(lags=True)
    assert len(schedule.to_pandas()) == 2 and not {*vars(_schedule), *vars(_frames)} & {"DataFrame"}
    for frame, rows in zip(frames, (schedule.quanta, schedule.decisions, schedule.lags())):
        others = [name for name in rows.dtype.names if name != "task"]
        assert list(frame.columns) == ["task", *others] and len(frame) == len(rows) > 5
        assert list(frame["task"]) == [name.decode() for name in rows["task"]]
        assert list(frame["task"].cat.categories) == sorted(set(frame["task"])) and not frame["task"].cat.ordered
        for name in others:
            if name == "outcome":
                assert list(frame[name]) == [pfair.OUTCOMES[outcome] for outcome in rows[name].tolist()]
            else:
                assert frame[name].dtype == np.int64 and frame[name].tolist() == rows[name].tolist()
    assert isinstance(frames[1]["outcome"].dtype, pandas.CategoricalDtype)
    assert set(frames[1]["outcome"]) == {pfair.OUTCOMES[outcome] for outcome in (0, 1, 2, 21, 23)}


def test_schedules_can_be_pickled():
    """What comes back has the same rows and counts, and plans again once its lags are asked for."""
    schedule = pfair.schedule(drawn(5))
    for again in (pickle.loads(pickle.dumps(schedule)), copy.deepcopy(schedule), copy.copy(schedule)):
        assert again.script == schedule.script and "_dispatcher" not in vars(again)
        assert (again.quanta == schedule.quanta).all() and (again.decisions == schedule.decisions).all()
        assert "_dispatcher" not in vars(again) and again.counts() == schedule.counts()
        assert (again.lags() == schedule.lags()).all() and again.svg(picture="lags") == schedule.svg(picture="lags")
    with concurrent.futures.ProcessPoolExecutor(1, multiprocessing.get_context("fork")) as processes:
        (made,) = pfair.study.run([schedule.script], pfair.schedule, processes)
    assert type(made) is pfair.Schedule and (made.quanta == schedule.quanta).all()
    assert repr(made) == f"<Schedule: processors=4, frame=240, slots=200, {len(made.quanta)} quanta>"


@pytest.mark.parametrize("file", FILES, ids=lambda file: file.stem)
def test_text_and_back(file, tmp_path):
    script = script_of(file)
    again = tmp_path / "again.toml"
    again.write_text(script.text())
    for given_ in (file, again, str(again), script.text().encode()):
        assert pfair.read_task_file(given_) == pfair.schedule(given_).script == script == script_of(again)


HEAD = b"version = 1\nprocessors = 2\nframe = 6\nslots = 6\n"
ARRIVE = b"[[entry]]\nprocessor = 1\nfloor = 3\nkind = 'arrive'\nat = 4\nname = 'a'\ncost = 1\nperiod = 2\n"


def test_a_file_one_byte_too_long(tmp_path):
    file = tmp_path / "long.toml"
    for size, kind in ((67_108_865, pfair.FileTooLong), (67_108_864, pfair.PfairError)):
        with open(file, "wb") as opened:
            opened.write(HEAD + b"#")
            opened.truncate(size)
        for given_ in (file, str(file)):
            with pytest.raises(kind) as refused:
                pfair.read_task_file(given_)
            assert isinstance(refused.value, pfair.FileTooLong) == (size == 67_108_865)


def test_a_file_without_an_end(monkeypatch):
    """No more is asked for than is needed to refuse it."""
    asked = []

    class Endless(io.BytesIO):
        def read(self, size=-1):
            asked.append(size)
            return b" " * 67_108_865

    monkeypatch.setattr(_task_file, "open", lambda *_: Endless(), raising=False)
    refusal(pfair.FileTooLong, pfair.FileTooLong.text, pfair.read_task_file, "endless")
    assert asked == [67_108_865]


def test_logs_of_files():
    """A log is as the file has it, without the promise that closes it; another last promise stands."""
    text = HEAD + ARRIVE + b"[[entry]]\nprocessor = 1\nfloor = 5\n" + b"[[entry]]\nprocessor = 0\nfloor = 6\n"
    logs = [[], [pfair.arrive("a", 1, 2, at=4, floor=3), pfair.promise(5)]]
    assert pfair.read_task_file(text) == pfair.Script(2, 6, 6, logs)


def trace_of(schedule, *how):
    out = io.StringIO()
    schedule.write_trace(out, *how)
    return out.getvalue()


@pytest.mark.parametrize("file", FILES, ids=lambda file: file.stem)
def test_traces_of_the_examples(file, stand_in):
    """Those of the rows that a program prints, which test_program.py and test_trace.py look at."""
    schedule = pfair.schedule(file)
    rows = {"decisions": decisions_of(schedule.decisions), "replay": rows_of_table(schedule.quanta, "place")}
    rows["lags"] = lags_of(schedule.lags())
    program = stand_in({command: "\n".join([*lines, ""]) for command, lines in rows.items()})
    for format, slot in (("json", 1.0), ("json", 0.25), ("vcd", 2.0)):
        out = io.StringIO()
        _trace.write_trace(_program.Program(file, program), format, slot, out)
        assert trace_of(schedule, format, slot) == out.getvalue() and len(out.getvalue()) > 400
    assert trace_of(schedule) == trace_of(schedule, "json", 1.0)


def test_dumps(tmp_path):
    schedule, out = pfair.schedule(EXAMPLES / "two_processors.toml"), io.StringIO()
    schedule.write_trace(out, "vcd", 0.5)
    text = out.getvalue()
    assert text.startswith("$timescale 1 us $end\n") and text.endswith(f"\n#{500 * schedule.script.slots}\n")
    with pytest.raises(ValueError, match="^a trace is json or vcd, and not svg$"):
        schedule.write_trace(out, "svg")
    file = tmp_path / "trace.vcd"
    for path in (file, str(file)):
        schedule.write_trace(path, "vcd", 0.5)
        assert file.read_text() == text
    # what is refused leaves the file as it was
    with pytest.raises(ValueError, match="milliseconds$"):
        schedule.write_trace(file, "vcd", 0)
    assert file.read_text() == text


def test_traces_in_pieces(monkeypatch):
    """However many rows are read at once."""
    schedule = pfair.schedule(drawn(4, 2, 60))
    whole = trace_of(schedule), schedule.svg(picture="lags")
    for size in (1, 7):
        monkeypatch.setattr(_source, "_READ_AT_ONCE", size)
        assert (trace_of(schedule), schedule.svg(picture="lags")) == whole


def test_pictures_know_the_settings():
    """The slots of the run and its frame are two numbers."""
    drawn = pfair.schedule(pfair.Script(2, 6, 9, [[pfair.arrive("a", 1, 2)], []])).svg()
    assert "processors: 2, frame: 6, slots: 0 to 8 of 9" in drawn


def test_slots_of_pictures():
    """At most 4,096 slots of the run; a notebook shows the first 400."""
    schedule = pfair.schedule(pfair.Script(1, 4, 5000, [[pfair.arrive("a", 1, 4)]]))
    assert schedule._repr_svg_() == schedule.svg(0, 400) == schedule.svg(stop=400)
    assert len(schedule.svg(900, 4996)) > 1 << 18 and schedule.svg(7, 9, "lags") != schedule.svg(7, 10, "lags")
    refused = {(0, None): "0 to 4999", (903, 5000): "903 to 4999", (7, 7): "7 to 6", (8, 7): "8 to 6"}
    for slots, shown in refused.items():
        text = f"a number is out of its range: slots {shown}: a picture has 1 to 4,096 slots, by start and stop"
        refusal(pfair.OutOfRange, text, schedule.svg, *slots)
    for wrong in (-1, 2**64):
        outside("start", wrong, schedule.svg, wrong)
        outside("stop", wrong, schedule.svg, 0, wrong)
    refusal(pfair.NotPlanned, f"{pfair.NotPlanned.text}: slot 5000", schedule.svg, 4999, 5001)
    refusal(ValueError, "no such picture: table, and not schedule or lags", schedule.svg, picture="table")


def test_plots_are_made_of_the_picture(monkeypatch):
    plot = types.SimpleNamespace(Plot=lambda svg, width: types.SimpleNamespace(figure=(svg, width)))
    monkeypatch.setitem(sys.modules, "pfair._plot", plot)
    schedule = pfair.schedule(pfair.Script(2, 6, 9, [[pfair.arrive("a", 1, 2)], []]))
    assert schedule.plot() == (schedule.svg(), 7.0)
    assert schedule.plot(1, 3, "lags", 4.0) == (schedule.svg(1, 3, "lags"), 4.0)
    words = {"title": "Mine", "legend": False}
    assert schedule.plot(**words) == (schedule.svg(**words), 7.0) and ">Mine</text>" in schedule.svg(**words)
    assert ">Schedule</text>" not in schedule.svg(**words) and "joins</text>" not in schedule.svg(**words)
