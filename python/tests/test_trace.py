"""Traces of rows of the test's own: each word, time and track of both formats."""
import io
import itertools
import json
import re
import types

import pytest
from hypothesis import given, settings
from hypothesis import strategies as some

from pfair import _trace as trace
from pfair._trace import Decided, Lag, Quantum


def Rows(processors, slots, names, quanta=(), decisions=(), lags=()):
    """Rows of the test's own."""
    made = types.SimpleNamespace(processors=processors, slots=slots, names=lambda: list(names))
    made.quanta, made.lags = lambda: itertools.starmap(Quantum, quanta), lambda: itertools.starmap(Lag, lags)
    made.decisions = lambda: itertools.starmap(Decided, decisions)
    return made


def written(rows, format, slot=1.0):
    out = io.StringIO()
    trace.write_trace(rows, format, slot, out)
    return out.getvalue()


QUANTA = [(0, 0, "a", 1, 0, 2), (0, 1, "b2", 1, 0, 3), (1, 0, "a", 2, 1, 4), (3, 1, "b2", 2, 3, 6)]
DECISIONS = [(0, 1, 2, "a", "a joins"), (0, 0, 1, "b2", "b2 joins"), (4, 0, 3, "c", "c isn't known")]
LAGS = [(1, "a", -1, 2), (1, "b2", 3, 4), (2, "a", 0, 2)]
SMALL = Rows(2, 6, ["a", "b2"], QUANTA, DECISIONS, LAGS)


def named(pid, tid, name, kind="thread_name"):
    return {"ph": "M", "name": kind, "pid": pid, "tid": tid, "args": {"name": name}}


def complete(pid, tid, name, ts, dur, subtask, window, deadline, slack, processor):
    args = {"subtask": subtask, "window": window, "deadline": deadline, "slack": slack, "processor": processor}
    return {"ph": "X", "name": name, "pid": pid, "tid": tid, "ts": ts, "dur": dur, "args": args}


def instant(name, tid, ts, processor, number):
    args = {"processor": processor, "number": number}
    return {"ph": "i", "s": "t", "name": name, "pid": 2, "tid": tid, "ts": ts, "args": args}


def counter(task, ts, lag):
    return {"ph": "C", "name": f"lag of {task}", "pid": 3, "tid": 0, "ts": ts, "args": {"lag": lag}}


EVENTS = [
    *(named(pid, 0, name, "process_name") for pid, name in enumerate(("processors", "tasks", "lags"), 1)),
    *(named(1, place + 1, f"processor {place}") for place in (0, 1)),
    *(named(2, tid, name) for tid, name in ((1, "a"), (2, "b2"))),
    # a task that never joined has no track
    instant("a joins", 1, 0, 1, 2),
    instant("b2 joins", 2, 0, 0, 1),
    instant("c isn't known", 0, 1000, 0, 3),
    *(complete(pid, tid, "a1", 0, 250, 1, "0 to 1", 2, 1, 0) for pid, tid in ((1, 1), (2, 1))),
    *(complete(pid, tid, "b2 1", 0, 250, 1, "0 to 2", 3, 2, 1) for pid, tid in ((1, 2), (2, 2))),
    *(complete(pid, tid, "a2", 250, 250, 2, "1 to 3", 4, 2, 0) for pid, tid in ((1, 1), (2, 1))),
    *(complete(pid, tid, "b2 2", 750, 250, 2, "3 to 5", 6, 2, 1) for pid, tid in ((1, 2), (2, 2))),
    *(counter(*lag) for lag in (("a", 250, -0.5), ("b2", 250, 0.75), ("a", 500, 0.0))),
]


def test_events():
    text = written(SMALL, "json", 0.25)
    assert json.loads(text) == {"displayTimeUnit": "ms", "traceEvents": EVENTS}
    assert text.startswith('{"displayTimeUnit":"ms","traceEvents":[\n{"ph":"M",') and text.endswith("}\n]}\n")
    assert ", " not in text
    assert text.count("\n") == len(EVENTS) + 2 and text.count("},\n{") == len(EVENTS) - 1


def test_times_of_events():
    """In microseconds, to three places."""
    rows = Rows(1, 9, ["a"], [(7, 0, "a", 1, 0, 9)])
    for slot, begins, lasts in ((1.0, 7000, 1000), (0.0012344, 8.641, 1.234), (1_000_000, 7 * 10**9, 10**9)):
        event = json.loads(written(rows, "json", slot))["traceEvents"][-1]
        assert (event["ts"], event["dur"]) == (begins, lasts)


# lines, parted by a stroke
DUMP = """$timescale 1 us $end|$scope module pfair $end|$scope module processors $end|
$var string 1 ! processor_0 $end|$var string 1 " processor_1 $end|$upscope $end|$scope module tasks $end|
$var wire 1 # a $end|$var wire 1 $ b2 $end|$upscope $end|$upscope $end|$enddefinitions $end|
#0|$dumpvars|s- !|s- "|0#|0$|$end|#0|sa_1 !|sb2_1 "|1#|1$|#250|sa_2 !|s- "|0$|#500|s- !|0#|#750|sb2_2 "|1$|
#1000|s- "|0$|#1500|
"""


def test_dump():
    assert written(SMALL, "vcd", 0.25) == DUMP.replace("\n", "").replace("|", "\n")
    ends = Rows(1, 2, ["a_1"], [(0, 0, "a_1", 1, 0, 1), (1, 0, "a_1", 2, 1, 2)])
    wanted = 's- !\n0"\n$end\n#0\nsa_1_1 !\n1"\n#1000\nsa_1_2 !\n#2000\n'
    assert written(ends, "vcd").partition("$dumpvars\n")[2] == wanted
    assert written(Rows(1, 3, []), "vcd", 0.0012345).endswith("$dumpvars\ns- !\n$end\n#4\n")
    after = Rows(1, 9, ["a"], [(2, 0, "a", 1, 0, 9)])
    wanted = '\ns- !\n0"\n$end\n#2000\nsa_1 !\n1"\n#3000\ns- !\n0"\n#9000\n'
    assert written(after, "vcd").partition("$end\n#0\n$dumpvars")[2] == wanted


def test_changes_at_one_time_are_ordered():
    names = "hgfedcba"
    text = written(Rows(8, 3, list(names), [(1, place, name, 1, 0, 9) for place, name in enumerate(names)]), "vcd")
    codes = [trace.code_of(8 + place) for place in reversed(range(8))]
    bits = [line for line in text.partition("$end\n#1000\n")[2].splitlines() if line[0] in "01"]
    assert bits == [f"{bit}{code}" for bit in "10" for code in codes]


RUN = some.lists(some.dictionaries(some.integers(0, 3), some.integers(0, 119), max_size=4), max_size=12)


@settings(max_examples=60)
@given(RUN)
def test_dumps_read_back(run):
    """Of 4 processors and 120 tasks, which is more signals than one byte has codes for: what runs in each slot."""
    slots = [{place: task for place, task in row.items() if list(row.values()).count(task) == 1} for row in run]
    ran = ((slot, place, task) for slot, row in enumerate(slots) for place, task in row.items())
    quanta = [(slot, place, f"t{task}", slot + 1, 0, 9) for slot, place, task in ran]
    names = [f"t{task}" for task in range(120)]
    text = written(Rows(4, len(run) + 2, names, quanta), "vcd")
    codes = dict(re.findall(r"\$var (?:string|wire) 1 (\S+) (\w+) \$end", text))
    assert len(codes) == 124 and set(codes.values()) == {*(f"processor_{place}" for place in range(4)), *names}
    now, seen, time = {}, {}, 0
    for line in text.partition("$dumpvars\n")[2].replace("$end\n", "").splitlines():
        if line[0] == "#":
            time = int(line[1:])
        else:
            value, code = line[1:].split(" ") if line[0] == "s" else (line[0], line[1:])
            now[codes[code]] = value
        seen[time] = dict(now)
    for slot, row in enumerate([*slots, {}, {}]):
        shown = seen[max(time for time in seen if time <= 1000 * slot)]
        running = {name: value for name, value in shown.items() if value not in ("-", "0")}
        wanted = {f"processor_{place}": f"t{task}_{slot + 1}" for place, task in row.items()}
        assert running == {**wanted, **{f"t{task}": "1" for task in row.values()}}
    assert max(seen) == 1000 * (len(run) + 2) and list(seen) == sorted(seen)


def test_codes():
    """Each number has a code of its own, of printable bytes; the codes of one byte come first."""
    assert [trace.code_of(number) for number in (0, 1, 93, 94, 95, 187, 188)] == ["!", '"', "~", "!!", '"!', "~!", '!"']
    codes = [trace.code_of(number) for number in range(20_000)]
    assert len(set(codes)) == 20_000 and all("!" <= byte <= "~" for byte in "".join(codes))
    assert [sum(len(code) == length for code in codes) for length in (1, 2, 3)] == [94, 94**2, 20_000 - 94 - 94**2]


def test_words():
    arrival, delay = {"cost": 2, "period": 7}, {"index": 3, "by": 5}
    assert trace.words_of("arrive", "a", "admitted", "-", arrival) == "a joins with 2/7"
    assert trace.words_of("depart", "a", "departing", 14, {}) == "a departs, free at 14"
    assert trace.words_of("late", "a", "delayed", "-", delay) == "a: subtask 3 and later ones put off by 5"
    assert trace.words_of("arrive", "a", "refused", 22, arrival) == "arrive a refused: 22"


@settings(max_examples=100)
@given(
    some.integers(1, 9), some.integers(0, 5), some.integers(0, 9),
    some.lists(some.tuples(some.integers(1, 9), some.integers(1, 5))),
)
def test_windows(cost, more, joined, delays):
    """Of subtask i from floor((i - 1) / weight) to ceil(i / weight), after the joining slot and all delays up to i."""
    period = cost + more
    decisions = [(joined, "a", "admitted", {"cost": cost, "period": period})]
    decisions += [(joined + 1, "a", "delayed", {"index": index, "by": by}) for index, by in delays]
    rows = [(joined + 1, 3, "a", index) for index in range(1, 12)]
    for index, quantum in enumerate(trace.quanta_of(rows, decisions), 1):
        theta = joined + sum(by for first, by in delays if index >= first)
        release = next(slot for slot in range(99) if (slot + 1) * cost > (index - 1) * period)
        deadline = next(slot for slot in range(99) if slot * cost >= index * period)
        assert quantum == (joined + 1, 3, "a", index, theta + release, theta + deadline)


def test_decisions_before_quanta():
    """What is decided at a slot holds from its quanta on, and a name that joins again is a new task."""
    half, third = {"cost": 1, "period": 2}, {"cost": 1, "period": 3}
    decisions = [
        (0, "a", "admitted", half), (1, "b", "refused", third), (2, "a", "delayed", {"index": 2, "by": 4}),
        (8, "a", "departing", {}), (9, "a", "admitted", third), (30, "a", "delayed", {"index": 1, "by": 7}),
    ]
    rows = [(0, 0, "a", 1), (1, 0, "a", 2), (2, 1, "a", 2), (9, 0, "a", 1), (29, 0, "a", 2), (31, 0, "a", 2)]
    windows = [(quantum.release, quantum.deadline) for quantum in trace.quanta_of(rows, decisions)]
    assert windows == [(0, 2), (2, 4), (6, 8), (9, 12), (12, 15), (19, 22)]
    assert list(trace.quanta_of([], decisions)) == list(trace.quanta_of([], [])) == []


def test_refusals():
    for format in ("svg", ""):
        with pytest.raises(ValueError, match=f"^a trace is json or vcd, and not {format}$"):
            written(SMALL, format)
    for slot in (0.000999, 1_000_000.1, -1.0, float("nan")):
        with pytest.raises(ValueError, match="^a slot is 0.001 to 1000000 milliseconds$"):
            written(SMALL, "json", slot)
    assert written(SMALL, "vcd", 0.001).endswith("#6\n") and written(SMALL, "vcd", 1_000_000).endswith("#6000000000\n")
