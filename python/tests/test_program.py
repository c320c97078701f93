"""The rows of the program `pfair` as a source of pictures, with a program that stands in for it."""
import os
import sys
import threading

import pytest

from pfair import _program, picture
from pfair._rows import Decision
from pfair._trace import Decided, Lag, Quantum

FILE = """version = 1
processors = 2
frame = 6
slots = 9
entry = [
    { processor = 1, floor = 0, kind = "arrive", at = 0, name = "a", cost = 1, period = 2 },
    { processor = 0, floor = 0, kind = "arrive", at = 0, name = "b", cost = 1, period = 3 },
    { processor = 1, floor = 1, kind = "late", at = 1, name = "a", index = 2, by = 3 },
    { processor = 0, floor = 2, kind = "depart", at = 2, name = "b" },
    { processor = 0, floor = 3, kind = "arrive", at = 3, name = "a", cost = 1, period = 2 },
]
"""
ANSWERS = {
    "decisions": "slot,processor,number,task,outcome,value\n0,0,1,b,admitted,-\n0,1,1,a,admitted,-\n"
    "1,1,2,a,delayed,-\n2,0,2,b,departing,3\n3,0,3,a,refused,20\n",
    "replay": "slot,processor,task,index,place\n0,0,a,1,1\n0,1,b,1,0\n5,0,a,2,1\n",
    "lags": "time,task,numerator,period\n1,b,-2,3\n1,a,-1,2\n2,a,0,2\n",
}


@pytest.fixture
def stands(tmp_path):
    """A file, and a program that prints these rows of it, or ends so."""
    file, program = tmp_path / "tasks.toml", tmp_path / "pfair"
    file.write_text(FILE)

    def made(answers=ANSWERS, ends=""):
        body = f"#!{sys.executable}\nimport sys\nwith open({str(tmp_path / 'calls')!r}, 'a') as calls:\n"
        body += "    calls.write(' '.join(sys.argv[1:]) + '\\n')\n"
        body += f"{ends}\nsys.stdout.write({answers!r}[sys.argv[1]])\n"
        program.write_text(body)
        program.chmod(0o755)
        return _program.Program(file, program)

    made.file, made.program, made.calls = file, program, tmp_path / "calls"
    return made


def test_rows(stands):
    rows = stands()
    a = {"at": 0, "cost": 1, "floor": 0, "kind": "arrive", "name": "a", "period": 2, "processor": 1}
    told = list(rows.decided())
    assert (rows.processors, rows.frame, rows.slots) == (2, 6, 9)
    assert told[1] == Decision(0, "a", "admitted", 0, a) and (told[0].task, told[0].entry["name"]) == ("b", "b")
    assert [row[:4] for row in told[2:]] == [(1, "a", "delayed", 0), (2, "b", "departing", 3), (3, "a", "refused", 20)]
    assert (told[2].entry["index"], told[3].entry["kind"], told[4].entry["at"]) == (2, "depart", 3)
    quanta = [Quantum(0, 1, "a", 1, 0, 2), Quantum(0, 0, "b", 1, 0, 3), Quantum(5, 1, "a", 2, 5, 7)]
    assert list(rows.quanta()) == quanta
    lags = [Lag(1, "b", -2, 3), Lag(1, "a", -1, 2), Lag(2, "a", 0, 2)]
    assert list(rows.lags()) == lags and list(rows.lags(1)) == lags[2:] and list(rows.lags(2)) == []
    calls = [f"{words} {stands.file}" for words in ("decisions", "replay --affinity", "lags", "lags", "lags")]
    assert stands.calls.read_text().splitlines() == calls
    assert picture.svg(rows, "lags").count("<title>") == 4


def test_decisions_in_words(stands):
    rows = stands()
    assert rows.names() == ["b", "a"]
    assert list(rows.decisions()) == [
        Decided(0, 0, 1, "b", "b joins with 1/3"), Decided(0, 1, 1, "a", "a joins with 1/2"),
        Decided(1, 1, 2, "a", "a: subtask 2 and later ones put off by 3"),
        Decided(2, 0, 2, "b", "b departs, free at 3"), Decided(3, 0, 3, "a", "arrive a refused: 20"),
    ]  # fmt: skip


def test_a_reader_that_ends_first(stands):
    goes_on = "import atexit, time; atexit.register(lambda: (time.sleep(3), open(sys.argv[2], 'w')))"
    answers = {**ANSWERS, "lags": "time,task,numerator,period\n" + 200_000 * "1,b,-2,3\n"}
    lags = stands(answers, f"if sys.argv[1] == 'lags': {goes_on}").lags()
    assert (next(lags), lags.close(), stands.file.read_text()) == (Lag(1, "b", -2, 3), None, FILE)


def test_a_file_without_entries(stands):
    stands.file.write_text("version = 1\nprocessors = 1\nframe = 1\nslots = 2\n")
    rows = stands({command: answer.partition("\n")[0] + "\n" for command, answer in ANSWERS.items()})
    assert (list(rows.decided()), list(rows.quanta()), list(rows.lags())) == ([], [], [])


@pytest.mark.parametrize("ends, said, status", [
    ("sys.stderr.write('pfair: 61 missing slots at 0\\n'); sys.exit(2)", "61 missing slots at 0", 2),
    ("sys.stderr.write('a: word\\npfair: 52 stalled at slot 4\\n'); sys.exit(3)", "52 stalled at slot 4", 3),
    ("sys.stderr.write(': 61 missing slots at 0'); sys.exit(2)", "61 missing slots at 0", 2),
    ("sys.stderr.buffer.write(b'pfair: 61 missing \\xff at 0'); sys.exit(2)", "61 missing \ufffd at 0", 2),
    ("sys.stdout.buffer.write(b'\\xff\\n\\xff\\n'); sys.exit(4)", "{} ended with status 4", 4),
    ("sys.exit(4)", "{} ended with status 4", 4),
])  # fmt: skip
def test_refused(stands, ends, said, status):
    with pytest.raises(_program.Refused) as refused:
        stands(ends=ends)
    assert (str(refused.value), refused.value.status) == (said.format(stands.program), status)


def test_what_can_not_be_read(stands, tmp_path):
    said = f"^70 reading failed: the program {tmp_path}/none can't be run$"
    with pytest.raises(_program.Refused, match=said) as refused:
        _program.Program(stands.file, tmp_path / "none")
    assert refused.value.status == 5
    stands.file.write_text("version = \n")
    with pytest.raises(_program.Refused, match="^60 not TOML$") as refused:
        stands()
    assert refused.value.status == 2
    stands.file.unlink()
    with pytest.raises(OSError):
        stands()


def test_readers_of_toml(stands, monkeypatch):
    asked, found = [], {"tomllib": None, "tomli": _program.importlib.import_module("tomllib")}

    def imported(name):
        asked.append(name)
        if found[name] is None:
            raise ModuleNotFoundError(name)
        return found[name]

    monkeypatch.setattr(_program.importlib, "import_module", imported)
    assert stands().slots == 9 and asked == ["tomllib", "tomli"]
    found["tomli"] = None
    said = "^70 reading failed: Python 3.11 is needed, or Python's module tomli$"
    with pytest.raises(_program.Refused, match=said) as refused:
        stands()
    assert refused.value.status == 5


def test_a_pipe(stands, tmp_path):
    """What comes through a pipe is read once, and kept as long as it is asked for."""
    pipe = tmp_path / "pipe"
    os.mkfifo(pipe)
    writer = threading.Thread(target=pipe.write_text, args=(FILE,))
    writer.start()
    stands()
    rows = _program.Program(pipe, stands.program)
    writer.join()
    assert rows.slots == 9 and len(list(rows.quanta())) == 3
    calls = [line.split()[-1] for line in stands.calls.read_text().splitlines()]
    assert calls[1] == calls[2] != str(pipe) and os.path.exists(calls[1])
