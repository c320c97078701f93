"""scripts/misses: its sums against the test's own, and each status and complaint."""
import os
import re
from fractions import Fraction

import pytest
from conftest import HEADER, as_program, failing, module_of
from hypothesis import given, settings
from hypothesis import strategies as some

MISSES = module_of("misses")
DECISIONS = "slot,processor,number,task,outcome,value\n"
LAGS = "time,task,numerator,period\n"
HEAD = "task,times,least,greatest,first,delays\n"
JOINED = DECISIONS + "0,0,1,a,admitted,-\n"
REFUSALS = dict(re.findall(r"PFAIR_OUTCOME_\w+ = (2\d),? +/\* (of an arrival:)?", HEADER))


def rows_of_lags(lags):
    return LAGS + "".join(f"{time},{task},{numerator},{period}\n" for time, task, numerator, period in lags)


def rows_of_decisions(decided):
    rows = (f"{slot},0,{slot + 1},{task},{outcome},{value}\n" for slot, (task, outcome, value) in enumerate(decided))
    return DECISIONS + "".join(rows)


def wanted_of(decided, lags, bound):
    """The text and the status, by the words of the script's help."""
    tasks = list(dict.fromkeys(task for _, task, _, _ in lags))
    late = {task: sum(name == task and outcome == "delayed" for name, outcome, _ in decided) for task in tasks}
    lines, past = [], {}
    for task in tasks:
        own = [(time, Fraction(numerator, period)) for time, name, numerator, period in lags if name == task]
        past[task] = [time for time, lag in own if lag >= bound]
        least, greatest = min(lag for _, lag in own), max(lag for _, lag in own)
        lines.append(f"{task},{len(own)},{least},{greatest},{past[task][0] if past[task] else '-'},{late[task]}\n")
    every = [Fraction(numerator, period) for _, _, numerator, period in lags] or [Fraction(0)]
    missed = sum(bool(past[task]) and not late[task] for task in tasks)
    lines.append(f"all {len(tasks)} tasks,{len(lags)},{min(every)},{max(every)},{missed} at or past {bound},")
    lines.append(f"{sum(count > 0 for count in late.values())} with late releases\n")
    refused = sum(outcome == "refused" and bool(REFUSALS[value]) for _, outcome, value in decided)
    arrivals = refused + sum(outcome == "admitted" for _, outcome, _ in decided)
    lines.append(f"arrivals: {arrivals}, of which {refused} refused\n")
    status = 1 if missed else 3 if refused or not tasks else 0
    return HEAD + "".join(lines), status


KINDS = [("admitted", "-"), ("delayed", "-"), ("departing", "20"), ("departing", "7")]
OUTCOMES = some.sampled_from([*KINDS, *(("refused", number) for number in REFUSALS)])
DECIDED = some.lists(some.tuples(some.sampled_from("abcde"), OUTCOMES).map(lambda row: (row[0], *row[1])), max_size=8)
LAG = some.tuples(some.integers(1, 9), some.sampled_from("abcd"), some.integers(-8, 8), some.integers(1, 6))
LAGGED = some.lists(LAG, max_size=10)
BOUNDS = some.sampled_from([Fraction(1), Fraction(0), Fraction(3, 2), Fraction(-1, 2)])


@settings(max_examples=60)
@given(DECIDED, LAGGED, BOUNDS)
def test_sums(decided, lags, bound):
    schedule = MISSES.Schedule(bound)
    schedule.read((rows_of_decisions(decided) + rows_of_lags(lags)).splitlines())
    text, status = wanted_of(decided, lags, bound)
    written = []
    MISSES.print = lambda line: written.append(f"{line}\n")
    MISSES.tell(schedule)
    del MISSES.print
    assert "".join(written) == text
    assert bool(schedule.missing()) == (status == 1)


MISSED = [(1, "a", 1, 2), (2, "a", 1, 1), (3, "b", 5, 4), (4, "b", -1, 4), (5, "c", 0, 3)]
FINE, ONE = [(1, "a", 1, 2)], [("a", "admitted", "-")]
TWO = [*ONE, ("b", "admitted", "-"), ("c", "refused", "20"), ("d", "refused", "21"), ("b", "refused", "22")]
STATUSES = [(ONE, FINE, []), (ONE, MISSED, []), (TWO, FINE, []), (TWO, MISSED, []), ([], [], [])]
STATUSES += [([*ONE, ("a", "refused", "23")], FINE, []), (ONE, MISSED, ["--bound", "3/2"])]
STATUSES += [([("a", "delayed", "-"), ("a", "delayed", "-"), ("b", "delayed", "-")], MISSED, [])]


@pytest.mark.parametrize("decided,lags,words", STATUSES)
def test_statuses(call, decided, lags, words):
    rows = rows_of_decisions(decided) + rows_of_lags(lags)
    text, status = wanted_of(decided, lags, Fraction(words[1]) if words else Fraction(1))
    assert call(MISSES, *words, given=rows) == (status, text, "")
    assert call(MISSES, "--let-pass", *words, given=rows) == (1 if status == 1 else 0, text, "")


def test_lags_alone(call):
    rows = rows_of_lags([(1, "a", 1, 2), (2, "a", 3, 2), (2, "b", -1, 3), (3, "b", 1, 1), (4, "c", 0, 1)])
    text = "a,2,1/2,3/2,2,?\nb,2,-1/3,1,3,?\nc,1,0,0,-,?\nall 3 tasks,5,-1/3,3/2,2 at or past 1,late releases not known"
    text += "\narrivals: not known, since no rows of decisions were given\n"
    assert call(MISSES, given=rows) == (3, HEAD + text, "")
    assert call(MISSES, "--let-pass", given=rows) == (0, HEAD + text, "")


def test_rows_may_come_in_parts(call):
    """Rows of both commands twice: arrivals and late releases add up. A task without lags isn't counted."""
    parts = [JOINED + "0,0,2,b,refused,22\n1,0,3,a,delayed,-\n1,0,4,x,delayed,-\n", rows_of_lags([(1, "a", 2, 1)])]
    parts += [DECISIONS + "2,0,5,c,refused,21\n", rows_of_lags([(2, "a", 0, 1)])]
    text = "a,2,0,2,1,1\nall 1 tasks,2,0,2,0 at or past 1,1 with late releases\narrivals: 3, of which 2 refused\n"
    assert call(MISSES, given="".join(parts)) == (3, HEAD + text, "")


NEITHER = f"the first line is neither '{DECISIONS[:-1]}' nor '{LAGS[:-1]}'"
COMPLAINTS = [("", "there are no rows"), ("a,b\n", NEITHER), ("\n" + LAGS, NEITHER)]
WRONG = "-1,0,2,a,admitted,-", "0,x,2,a,admitted,-", "0,0,x,a,refused,22", "0,0,1,a,admitted"
NO_ROWS = [*((DECISIONS, row) for row in WRONG), *((LAGS, row) for row in ("1,a,1,0", "x,a,1,2", "1,a,1", "1,a,1,2x"))]
NO_ROWS += [(JOINED, "0,0,2,a,gone,-"), (JOINED + LAGS, "1,a,x,2"), (LAGS + "1,a,1,2\n", "")]
for before, row in NO_ROWS:
    kind = "lags" if LAGS in before else "decisions"
    COMPLAINTS.append((f"{before}{row}\n", f"line {before.count(chr(10)) + 1} is no row of {kind}: {row}"))


@pytest.mark.parametrize("rows,complaint", COMPLAINTS)
def test_complaints(call, rows, complaint):
    assert call(MISSES, given=rows) == (2, "", f"scripts/misses: {complaint}\n")


SUMS = "a,1,1/2,1/2,-,0\nall 1 tasks,1,1/2,1/2,0 at or past 1,0 with late releases\narrivals: 1, of which 0 refused\n"


def test_files(call, tmp_path):
    """Rows in a file, of either command first; and a file that isn't there."""
    file = tmp_path / "rows"
    for rows in (JOINED + LAGS + "1,a,1,2\n", LAGS + "1,a,1,2\n" + JOINED):
        file.write_text(rows)
        assert call(MISSES, file) == (0, HEAD + SUMS, "")
    done = call(MISSES, tmp_path / "none")
    assert done.status == 2 and done.out == "" and done.err.startswith("scripts/misses: ") and "none" in done.err


def test_task_files(call, stand_in, tmp_path, monkeypatch):
    """The rows of a task file are those of two commands of `pfair`, or of the script beside if none is on the path."""
    file = tmp_path / "tasks.toml"
    file.write_text("# gr\u00fcn\nversion = 1\n", encoding="utf-8")
    answers = {"decisions": JOINED, "lags": LAGS + "1,a,1,2\n"}
    monkeypatch.setenv("PATH", f"{stand_in(answers).parent}:{os.environ['PATH']}")
    assert call(MISSES, file) == (0, HEAD + SUMS, "")
    assert (tmp_path / "calls").read_text() == f"decisions {file}\nlags {file}\n"
    beside = str(stand_in(answers, "beside"))
    monkeypatch.setattr(MISSES, "program", lambda: beside)
    assert call(MISSES, file) == (0, HEAD + SUMS, "")
    monkeypatch.setattr(MISSES, "program", failing(ImportError("build failed")))
    assert call(MISSES, file) == (2, "", "scripts/misses: build failed\n")


def test_refused_task_files(call, stand_in, tmp_path, monkeypatch):
    file = tmp_path / "tasks.toml"
    file.write_text("version = 1\n")
    monkeypatch.setenv("PATH", f"{tmp_path / 'programs'}:{os.environ['PATH']}")
    answers = {"echo ' pfair: 60 no TOML ' >&2; exit 1": "pfair: 60 no TOML", "exit 1": "it was refused"}
    for said, complaint in answers.items():
        program = stand_in({})
        program.write_text(f"#!/bin/sh\n{said}\n")
        assert call(MISSES, file) == (2, "", f"scripts/misses: {file}: {complaint}\n")


def test_as_a_program():
    done, said = as_program("misses", given=rows_of_lags(FINE).encode()), as_program("misses", "--help")
    assert done.status == 3 and done.out.startswith(HEAD + "a,1,")
    assert said.status == 0 and "[--bound BOUND] [--let-pass] [FILE]" in said.out and MISSES.__doc__.strip() in said.out
