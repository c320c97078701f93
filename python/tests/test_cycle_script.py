"""scripts/cycle: the header for C, the rows and the object, and each status and complaint."""
import csv
import functools
import io
import json
import os
import re

import pytest
import static_sets
from conftest import EXAMPLES, SCRIPTS, as_program, ended, failing, module_of
from hypothesis import given
from static_sets import script_with

import pfair

CYCLE, run = module_of("cycle"), functools.partial(as_program, "cycle")
FULL = EXAMPLES / "full_load.toml"
TYPES = {"uint8_t": 2**8, "uint16_t": 2**16, "uint32_t": 2**32}
COMMENT = '''\
/*
 * One cycle of the static schedule of "{file}", by scripts/cycle.
 *
 * In slot t processor p runs the task with the number cycle_task[t % CYCLE_SLOTS][p], or none if that is CYCLE_IDLE.
 * Its subtask is cycle_index[t % CYCLE_SLOTS][p] + t / CYCLE_SLOTS * cycle_quanta[task]. cycle_quanta has the
 * quanta of each task in a cycle, and cycle_name its name.
 */
#ifndef CYCLE_H
'''


def numbers_of(text):
    return [int(number) for number in re.findall(r"\d+", text)]


def read_header(text, name="cycle"):
    """The macros and the arrays of a header, each array with its type and its values."""
    upper = name.upper()
    assert text.startswith("/*\n") and text.count("*/") == text.count("/*") == 1
    head, guarded, body = text.partition(f"*/\n#ifndef {upper}_H\n#define {upper}_H\n\n#include <stdint.h>\n\n")
    assert guarded and body.endswith("};\n\n#endif\n")
    macros = {key: int(value) for key, value in re.findall(rf"^#define {upper}_(\w+) (\d+)$", body, re.M)}
    form = rf"^static const ([\w *]+) {name}_(\w+)((?:\[[\w +]+\])+) = \{{\n([^;]*)\n\}};$"
    arrays = {what: (kind, size, values) for kind, what, size, values in re.findall(form, body, re.M)}
    of_task, of_slot = f"[{upper}_TASKS + 1]", f"[{upper}_SLOTS][{upper}_PROCESSORS]"
    sizes = {"name": of_task, "quanta": of_task, "task": of_slot, "index": of_slot}
    assert {what: size for what, (_, size, _) in arrays.items()} == sizes and arrays["name"][0] == "char *const"
    assert all(len(line) <= 120 for what in ("name", "quanta") for line in arrays[what][2].splitlines())
    names = json.loads(f"[{arrays['name'][2]}]")
    grids = {what: [numbers_of(line) for line in arrays[what][2].splitlines()] for what in ("task", "index")}
    types = {what: arrays[what][0] for what in ("quanta", "task", "index")}
    return macros, names, numbers_of(arrays["quanta"][2]), grids, types


def check_header(text, cycle, name="cycle"):
    """The header has the rows of a cycle, and arrays of the smallest types."""
    macros, names, quanta, grids, types = read_header(text, name)
    script, idle = cycle.script, macros["IDLE"]
    assert macros == {"SLOTS": script.slots, "PROCESSORS": script.processors, "TASKS": idle, "IDLE": idle}
    assert names == [row["task"].decode() for row in cycle.decisions if row["outcome"] == 0] + ["-"]
    assert len(quanta) == len(names) == idle + 1
    wanted = {(row["slot"], row["place"]): (row["task"].decode(), row["index"]) for row in cycle.quanta}
    for slot in range(script.slots):
        for place in range(script.processors):
            task, index = grids["task"][slot][place], grids["index"][slot][place]
            assert (names[task], index) == wanted.get((slot, place), ("-", 0))
    assert [len(grid) for grid in grids.values()] == [script.slots] * 2
    assert all(len(row) == script.processors for grid in grids.values() for row in grid)
    ran = [task.decode() for task in cycle.quanta["task"].tolist()]
    assert quanta == [ran.count(task) for task in names]
    for what, greatest in (("task", idle), ("quanta", max(quanta)), ("index", max(quanta))):
        assert types[what] == next(kind for kind, limit in TYPES.items() if greatest < limit)
    return types


def written(call, folder, script, *words):
    """What the script writes of a script's task file, and the file."""
    file = folder / "tasks.toml"
    file.write_text(script.text())
    return call(CYCLE, *words, file), file


def test_header(call, tmp_path):
    script = script_with(2, 6, ("a", 1, 2), ("b", 2, 3))
    done, file = written(call, tmp_path, script)
    assert (done.status, done.err) == (0, "") and done.out.startswith(COMMENT.format(file=file))
    check_header(done.out, script.cycle())
    rows = done.out.partition("cycle_task[CYCLE_SLOTS][CYCLE_PROCESSORS] = ")[2].splitlines()
    assert rows[:4] == ["{", "    {1, 0},", "    {1, 2},", "    {0, 2},"]


@given(static_sets.SCRIPTS)
def test_headers_at_random(script):
    cycle = script.cycle()
    check_header("".join(CYCLE.header_of(CYCLE.Table(cycle), "tasks.toml", "cycle")), cycle)


@pytest.mark.parametrize("tasks, cost, bits", [(255, 1, "8 8"), (256, 1, "16 8"), (1, 255, "8 8"), (1, 256, "8 16")])
def test_types(call, tmp_path, tasks, cost, bits):
    """The number of no task has to fit too."""
    script = script_with(2, 512, *((f"t{place}", cost, 512) for place in range(tasks)))
    done, _ = written(call, tmp_path, script)
    task, other = (f"uint{number}_t" for number in bits.split())
    assert check_header(done.out, script.cycle()) == {"task": task, "quanta": other, "index": other}


def test_type_of_a_number():
    limits = (0, 255, 256, 65_535, 65_536, 2**32 - 1)
    assert [CYCLE.type_of(number) for number in limits] == [kind for kind in TYPES for _ in range(2)]


def test_lines_of_arrays():
    """They have at most 120 columns."""
    assert CYCLE.array_of(["a" * 57, "b" * 57]) == f"    {'a' * 57}, {'b' * 57}"
    assert CYCLE.array_of(["a" * 57, "b" * 58]) == f"    {'a' * 57},\n    {'b' * 58}"


def test_names(call, tmp_path):
    """A file's name breaks neither the comment nor the object, and the words of C begin as they are asked to."""
    script = script_with(1, 2, ("a", 1, 2))
    for name, told in (
        ("a*/b.toml", r"a\u002a/b.toml"),
        ('/*"\\\n?*/.toml', r"/\u002a\"\\\n?\u002a/.toml"),
        ("ä\udcff.toml", r"\u00e4\udcff.toml"),
    ):
        file = tmp_path / name
        file.parent.mkdir(exist_ok=True)
        file.write_text(script.text())
        done = call(CYCLE, file)
        assert done.status == 0 and done.out.isascii() and f'{told}", by scripts/cycle.\n' in done.out
        check_header(done.out, script.cycle())
        done = call(CYCLE, "--json", file)
        assert done.status == 0 and done.out.isascii() and json.loads(done.out)["file"] == str(file)
    done, _ = written(call, tmp_path, script, "--name", "Flight_2")
    check_header(done.out, script.cycle(), "Flight_2")
    assert not re.search("cycle_|CYCLE", done.out) and "Flight_2_task[t % FLIGHT_2_SLOTS][p]" in done.out
    for name in ("", "2a", "_a", "a-b", "a b", "ä", "a\n"):
        done, _ = written(call, tmp_path, script, f"--name={name}")
        assert done.status == 2 and f"{name!r} begins no name of C\n" in done.err and not done.out


def test_rows(call, tmp_path):
    """The rows of `pfair replay --affinity`, of the cycle's slots."""
    assert call(CYCLE, "--csv", EXAMPLES / "places.toml") == (0, first_slots("places.placed", 3), "")
    done = call(CYCLE, "--csv", FULL)
    rows = [row[:4] for row in csv.reader(io.StringIO(done.out))]
    assert "".join(",".join(row) + "\n" for row in rows) == first_slots("full_load.replay", 6)
    done, _ = written(call, tmp_path, script_with(2, 6))
    assert call(CYCLE, "--csv", tmp_path / "tasks.toml") == (0, "slot,processor,task,index,place\n", "")


def first_slots(name, slots):
    head, *rows = (EXAMPLES / name).read_text().splitlines(keepends=True)
    return head + "".join(row for row in rows if int(row.split(",")[0]) < slots)


def test_object(call, tmp_path):
    script = script_with(2, 12, ("a", 1, 2), ("b", 2, 3, True), ("c", 1, 12))
    done, file = written(call, tmp_path, script, "--json")
    read, rows = json.loads(done.out), list(csv.DictReader(io.StringIO(call(CYCLE, "--csv", file).out)))
    assert (done.status, done.err) == (0, "") and done.out.count("\n") == 1 and done.out.endswith("\n")
    assert [{key: str(value) for key, value in row.items()} for row in read.pop("quanta")] == rows
    told = [("a", 1, 2, False, 6), ("c", 1, 12, False, 1), ("b", 2, 3, True, 8)]
    tasks = [dict(zip(("task", "cost", "period", "early", "quanta"), task)) for task in told]
    assert read == {"file": str(file), "slots": 12, "processors": 2, "tasks": tasks} and len(rows) == 15


def test_tasks_that_are_refused(call, tmp_path):
    script = script_with(1, 60, ("a", 1, 2), ("b", 3, 5), ("c", 1, 7), ("a", 1, 60), ("d", 1, 3))
    done, file = written(call, tmp_path, script)
    for word, refused in (("b", pfair.OUTCOMES[22]), ("c", pfair.OUTCOMES[21]), ("a", pfair.OUTCOMES[20])):
        assert f"scripts/cycle: {file}: {word} is refused, and not in the table: {refused}\n" in done.err
    assert done.status == 0 and done.err.count("\n") == 3 and read_header(done.out)[:3] == (
        {"SLOTS": 6, "PROCESSORS": 1, "TASKS": 2, "IDLE": 2},
        ["a", "d", "-"],
        [3, 2, 0],
    )
    assert call(CYCLE, "--csv", file).err == call(CYCLE, "--json", file).err == done.err


def test_no_cycle(call, tmp_path):
    script = script_with(1, 1_000_001, ("a", 1, 1_000_001))
    for words in ((), ("--csv",), ("--json",)):
        done, file = written(call, tmp_path, script, *words)
        said = f"scripts/cycle: {file}: the hyperperiod has 1,000,001 slots, and a run has at most 1,000,000\n"
        assert done == (1, "", said)
    file = EXAMPLES / "two_processors.toml"
    said = "(entry 3 of processor 0), and a cycle needs tasks that arrive at slot 0 and never change"
    assert call(CYCLE, file) == (1, "", f"scripts/cycle: {file}: a departs at slot 2 {said}\n")


def test_refused(call, tmp_path):
    """What can't be read or planned is named, in one line."""
    bad, none, stalled = tmp_path / "bad.toml", tmp_path / "none", tmp_path / "stalled.toml"
    bad.write_text("version = 3\n")
    stalled.write_text(pfair.Script(1, 9, 9, [[pfair.arrive("a", 1, 9), pfair.promise(5), pfair.promise(4)]]).text())
    refused = {bad: "the file's version is neither 1 nor 2", none: f"[Errno 2] No such file or directory: '{none}'"}
    refused |= {tmp_path: f"[Errno 21] Is a directory: '{tmp_path}'", stalled: f"{pfair.Stalled.text}: slot 5"}
    for file, said in refused.items():
        assert call(CYCLE, file) == (2, "", f"scripts/cycle: {file}: {said}\n")


def test_what_cant_be_made(call, monkeypatch):
    for name, fault, of in ("Table", MemoryError("no memory"), FULL), ("package", ImportError("no numpy"), "pfair"):
        monkeypatch.setattr(CYCLE, name, failing(fault))
        assert call(CYCLE, FULL) == (2, "", f"scripts/cycle: {of}: {fault}\n")


def test_as_a_program(call):
    assert os.access(SCRIPTS / "cycle", os.X_OK)
    for words in ((FULL,), ("--csv", FULL), ("--json", FULL), ("--name", "x", FULL)):
        assert run(*words) == call(CYCLE, *words) and run(*words)[0] == 0
    for words in ((), (FULL, FULL), ("--csv", "--json", FULL)):
        status, out, said = run(*words)
        assert status == 2 and not out and "usage: " in said
    status, out, said = run("--help")
    assert status == 0 and "[-h] [--csv | --json] [--name NAME] FILE\n" in out and CYCLE.__doc__.strip() in out


def test_a_reader_that_ends(monkeypatch):
    assert ended(monkeypatch, CYCLE, FULL) == (0, False)
