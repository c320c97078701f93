"""scripts/trace: the trace of a task file, by rows of a program that stands in for `pfair`."""
import io
import json
import subprocess
import sys

import pytest
from conftest import SCRIPTS, ended, failing, module_of

from pfair import _program, _trace

TRACE = module_of("trace")
FILE = """version = 2
processors = 2
frame = 6
slots = 6
entry = [{ processor = 1, floor = 0, kind = "arrive", at = 0, name = "a", cost = 1, period = 2 }]
"""
ANSWERS = {
    "decisions": "slot,processor,number,task,outcome,value\n0,1,1,a,admitted,-\n",
    "replay": "slot,processor,task,index,place\n0,0,a,1,1\n5,0,a,2,1\n",
    "lags": "time,task,numerator,period\n1,a,-1,2\n",
}


@pytest.fixture
def file(tmp_path):
    made = tmp_path / "tasks.toml"
    made.write_text(FILE)
    return made


def test_traces(call, stand_in, file, tmp_path):
    """Those of the program's rows, which test_program.py and test_trace.py look at."""
    program = stand_in(ANSWERS)
    for words in (("json", 1.0), ("vcd", 0.5)):
        out = io.StringIO()
        _trace.write_trace(_program.Program(file, program), *words, out)
        (tmp_path / "calls").unlink()
        done = call(TRACE, "--program", program, "--format", words[0], "--slot", words[1], file)
        assert done == (0, out.getvalue(), "") and len(done.out) > 300
        asked = ["decisions", "lags", "replay --affinity"] if words[0] == "json" else ["decisions", "replay --affinity"]
        assert sorted((tmp_path / "calls").read_text().splitlines()) == [f"{command} {file}" for command in asked]


def test_words(call, stand_in, file, monkeypatch):
    program = stand_in(ANSWERS)
    monkeypatch.setattr(TRACE, "program", lambda: str(program))
    assert call(TRACE, file).out == call(TRACE, "--format", "json", "--slot", "1", "--program", program, file).out
    dump = call(TRACE, "--format", "vcd", "--slot", "0.5", file)
    assert dump.status == 0 and dump.out.startswith("$timescale 1 us $end\n")
    assert dump.out.endswith('\n#2500\nsa_2 "\n1#\n#3000\n')
    refused = call(TRACE, "--format", "svg", file)
    usage = "[--slot MILLISECONDS] [--program PATH] FILE script_trace: error"
    assert refused.status == 2 and "choose from 'json', 'vcd'" in refused.err and usage in " ".join(refused.err.split())
    assert call(TRACE).status == 2
    assert call(TRACE, "--slot", "0", file) == (1, "", "scripts/trace: a slot is 0.001 to 1000000 milliseconds\n")


def test_a_program_that_cant_be_built(call, file, monkeypatch):
    monkeypatch.setattr(TRACE, "program", failing(ImportError("build failed")))
    assert call(TRACE, file) == (1, "", "scripts/trace: build failed\n")


@pytest.mark.parametrize(
    "said,complaint",
    [("echo ' pfair: 61 missing ' >&2; exit 1", "61 missing"), ("exit 3", "{program} ended with status 3")],
)
def test_refused_by_the_program(call, stand_in, file, said, complaint):
    program = stand_in({})
    program.write_text(f"#!/bin/sh\n{said}\n")
    assert call(TRACE, "--program", program, file) == (1, "", f"scripts/trace: {complaint.format(program=program)}\n")


def test_refused_files(call, stand_in, tmp_path):
    done = call(TRACE, "--program", stand_in(ANSWERS), tmp_path / "none")
    assert done.status == 1 and done.err.startswith("scripts/trace: ") and "none" in done.err
    (tmp_path / "bad.toml").write_text("version = \n")
    done = call(TRACE, "--program", stand_in(ANSWERS), tmp_path / "bad.toml")
    assert done == (1, "", "scripts/trace: 60 not TOML\n")


def test_nothing_is_kept_beside(monkeypatch):
    """Whoever runs it may not be allowed to write into the repository: no compiled module is."""
    monkeypatch.setattr(sys, "dont_write_bytecode", False)
    file = SCRIPTS / "trace"
    exec(compile(file.read_text(), file, "exec"), {"__name__": "trace", "__file__": str(file)})
    assert sys.dont_write_bytecode is True


def test_as_a_program(stand_in, file, tmp_path):
    """Also by a link to the folder, as a package has one."""
    (tmp_path / "linked").symlink_to(SCRIPTS)
    words = [sys.executable, tmp_path / "linked" / "trace", "--program", stand_in(ANSWERS), file]
    done = subprocess.run(words, capture_output=True, text=True)
    assert done.returncode == 0 and done.stderr == "" and len(json.loads(done.stdout)["traceEvents"]) == 12
    helped = subprocess.run([sys.executable, SCRIPTS / "trace", "--help"], capture_output=True, text=True)
    assert helped.returncode == 0 and TRACE.__doc__.strip() in helped.stdout
    said = helped.stdout.partition("--program PATH ")[2]
    assert said.strip() == "instead of `pfair` on the path, or of this clone"


def test_reader_that_stops(stand_in, file, monkeypatch):
    """Ends with status 1 and no word if its reader goes away."""
    assert ended(monkeypatch, TRACE, "--program", stand_in(ANSWERS), file) == (1, False)
    many = {**ANSWERS, "lags": "time,task,numerator,period\n" + 40_000 * "1,b,-2,3\n"}
    words = [sys.executable, SCRIPTS / "trace", "--program", stand_in(many), file]
    running = subprocess.Popen(words, stdout=subprocess.PIPE, stderr=subprocess.PIPE, text=True)
    running.stdout.readline()
    running.stdout.close()
    assert running.wait(timeout=60) == 1 and running.stderr.read() == ""
