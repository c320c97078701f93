"""scripts/check_schedule: its lines and statuses, and what can't be read."""
import functools

from conftest import EXAMPLES, as_program, ended, failing, module_of

import pfair

CHECK, run = module_of("check_schedule"), functools.partial(as_program, "check_schedule")
TASKS, ROWS = EXAMPLES / "full_load.toml", EXAMPLES / "full_load.replay"


def test_wrong(call, tmp_path):
    script = pfair.Script(1, 6, 6, [[pfair.arrive("a", 1, 3), pfair.arrive("b", 1, 2)]])
    tasks, rows = tmp_path / "tasks.toml", tmp_path / "rows.csv"
    tasks.write_text(script.text())
    rows.write_text("slot,task,index\n0,b,1\n0,a,1\n2,b,2\n3,a,2\n3,b,9\n4,x,1\n5,b,4\n")
    lines = [f"slot {slot}: crowded: 2 quanta on 1 processors" for slot in (0, 3)]
    lines += ["slot 3, b 3: early: its release is 4", "slot 3, b 9: index: subtask 3 is the next"]
    lines += ["slot 4, x: absent: no task of this name is admitted"]
    wanted = "\n".join([*lines, "5 wrong: 1 absent, 2 crowded, 1 early, 1 index", ""])
    assert call(CHECK, tasks, rows) == (1, wanted, "")
    done = call(CHECK, "--order", tasks, rows)
    order = "slot 0, a 1: order: it isn't among the first 1\n"
    wanted = "\n".join([*lines[1:], "6 wrong: 1 absent, 2 crowded, 1 early, 1 index, 1 order", ""])
    assert done == (1, f"{lines[0]}\n{order}{wanted}", "")


def test_refused(call, tmp_path):
    """What can't be read is named, in one line."""
    bad, none = tmp_path / "bad.toml", tmp_path / "none"
    bad.write_text("version = 3\n")
    stalled = tmp_path / "stalled.toml"
    stalled.write_text(pfair.Script(1, 1, 8, [[pfair.promise(5), pfair.promise(4)]]).text())
    rows = tmp_path / "rows"
    rows.write_text("slot,task\n0,a\n1,?\n")
    for words, said in (
        ((bad, ROWS), f"{bad}: the file's version is neither 1 nor 2"),
        *((words, f"{none}: [Errno 2] No such file or directory: '{none}'") for words in ((none, ROWS), (TASKS, none))),
        ((TASKS, tmp_path), f"{tmp_path}: [Errno 21] Is a directory: '{tmp_path}'"),
        ((TASKS, rows), f"{rows}: line 3: '?' is no task's name"),
        ((stalled, ROWS), f"{stalled}: {pfair.Stalled.text}: slot 5"),
    ):
        assert call(CHECK, *words) == (2, "", f"scripts/check_schedule: {said}\n")


def test_as_a_program():
    text = ROWS.read_bytes()
    for words in ((TASKS, "-"), ("--order", TASKS, "-"), ("--order", TASKS, ROWS)):
        assert run(*words, given=text) == (0, "nothing is wrong\n", "")
    assert run("--order", TASKS, "-", given=text.replace(b"\n0,0,", b"\n0,0,x"))[0] == 1
    status, out, said = run(TASKS, "-", given=b"")
    assert (status, out, said) == (2, "", "scripts/check_schedule: -: line 1: the header has no column 'slot': ''\n")
    assert run(TASKS)[0] == 2 and "usage: " in run(TASKS)[2]
    status, out, said = run("--help")
    assert status == 0 and "usage: check_schedule [-h] [--order] TASKS ROWS\n" in out and CHECK.__doc__.strip() in out


def test_what_cant_be_made(call, monkeypatch):
    faults = ("package", ImportError("make_library failed"), "pfair"), ("check", MemoryError("no memory"), ROWS)
    for name, fault, reading in faults:
        with monkeypatch.context() as patch:
            patch.setattr(CHECK, name, failing(fault))
            assert call(CHECK, TASKS, ROWS) == (2, "", f"scripts/check_schedule: {reading}: {fault}\n")


def test_comment_lines(call, tmp_path):
    """They are passed over, wherever they are, and the other lines keep their numbers."""
    rows, plain = tmp_path / "rows.csv", ROWS.read_text()
    header, *lines = plain.splitlines(keepends=True)
    for text in (
        f"# full.csv\n#\n{plain}",
        f"{header}# first\n{''.join(lines)}# last",
        header + "".join(f"#{place},x,y\n{line}" for place, line in enumerate(lines)),
        f"#{plain.strip()}".replace("\n", "\n#") + f"\n{plain}".rstrip("\n"),
        header + ("#" + 99 * "x" + "\n") * 21_000 + "".join(lines),
    ):
        rows.write_text(text)
        assert call(CHECK, TASKS, rows) == (0, "nothing is wrong\n", "")
        assert run(TASKS, "-", given=text.encode()) == (0, "nothing is wrong\n", "")
    rows.write_text(f"# one\n# two\nslot,task\n0,a\n# five\n# six\n1,?\n")
    assert call(CHECK, TASKS, rows) == (2, "", f"scripts/check_schedule: {rows}: line 7: '?' is no task's name\n")
    rows.write_text("slot,task\n0,#a\n")
    assert call(CHECK, TASKS, rows) == (2, "", f"scripts/check_schedule: {rows}: line 2: '#a' is no task's name\n")


def test_a_reader_that_ends(monkeypatch):
    assert ended(monkeypatch, CHECK, TASKS, ROWS) == (0, False)
