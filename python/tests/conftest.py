"""What the tests share: task files as scripts by Python's own reader, and the scripts of the repository."""
import atexit
import importlib.machinery
import importlib.util
import io
import os
import pathlib
import signal
import subprocess
import sys
import tempfile
import tomllib
from typing import NamedTuple

import pytest
from hypothesis import configuration, settings

TOP = pathlib.Path(__file__).resolve().parents[2]
EXAMPLES = pathlib.Path(os.environ.get("PFAIR_EXAMPLES", TOP / "examples"))
HEADER = (EXAMPLES.parent / "include" / "pfair.h").read_text()
SCRIPTS = pathlib.Path(os.environ.get("PFAIR_SCRIPTS", TOP / "scripts"))
sys.path.append(str(SCRIPTS))
# weights that no call takes: the exception's name, cost and period
WRONG_WEIGHTS = ("ZeroCost", 0, 2), ("CostOverPeriod", 3, 2), ("PeriodTooLong", 1, 10**9 + 1)
# the most that a test may take, also on a busy machine
SECONDS = 300
# hypothesis keeps tables of its own, which don't belong into the tree
STORAGE = tempfile.TemporaryDirectory()
atexit.register(STORAGE.cleanup)
configuration.set_hypothesis_home_dir(STORAGE.name)
# each run tries the same examples, however long one takes
settings.register_profile("steady", derandomize=True, deadline=None, database=None)
settings.load_profile("steady")


def script_of(file):
    import pfair

    told = tomllib.loads(pathlib.Path(file).read_text())
    logs = [[] for _ in range(told["processors"])]
    for table in told.get("entry", []):
        fields = {key: table[key] for key in table if key != "processor"}
        if told["version"] == 1:
            fields.pop("early", None)
        logs[table["processor"]].append(pfair.Entry(**fields))
    for log in logs:
        # a promise for all slots closes the log, as each is closed that has none
        if log and log[-1] == pfair.promise(told["slots"]):
            log.pop()
    return pfair.Script(told["processors"], told["frame"], told["slots"], logs)


def refusal(kind, text, call, *words, **named):
    """Makes a call that has to be refused so. Returns what was found."""
    with pytest.raises(kind) as refused:
        call(*words, **named)
    assert type(refused.value) is kind and str(refused.value) == text
    return getattr(refused.value, "found", None)


def outside(name, number, call, *words, least=0, most=2**64 - 1):
    """Makes a call that has to refuse a number, by its name and with its range."""
    import pfair

    text = f"a number is out of its range: {name} = {number}, and not {least:,} to {most:,}"
    refusal(pfair.OutOfRange, text, call, *words)


def module_of(name):
    """A script of the repository as a module."""
    sys.dont_write_bytecode = True
    loader = importlib.machinery.SourceFileLoader(f"script_{name}", str(SCRIPTS / name))
    module = importlib.util.module_from_spec(importlib.util.spec_from_loader(loader.name, loader))
    loader.exec_module(module)
    assert sys.dont_write_bytecode
    return module


def pytest_runtest_call(item):
    """A test that hangs, such as one that waits for a lock, fails after some time."""

    def late(*_):
        pytest.fail(f"over {SECONDS} seconds", pytrace=True)

    if not any(signal.getitimer(signal.ITIMER_REAL)):
        signal.signal(signal.SIGALRM, late)
        signal.alarm(SECONDS)
        item.addfinalizer(lambda: signal.alarm(0))


class Guarded:
    """The shared library, each of whose calls on a dispatcher has to hold the lock of that dispatcher."""

    def __init__(self, library, locks):
        self.library, self.locks = library, locks

    def __getattr__(self, name):
        from pfair._library import Handle

        call = getattr(self.library, name)

        def guarded(*given):
            for handle in given:
                assert not isinstance(handle, Handle) or self.locks[id(handle)]._is_owned(), f"{name} without a lock"
            return call(*given)

        setattr(self, name, guarded)
        return guarded


@pytest.fixture(autouse=True, scope="session")
def locks():
    """Looks in each test that calls of the library hold the locks of their dispatchers."""
    from pfair import _dispatcher

    locks, begin = {}, _dispatcher.Dispatcher._begin

    def begun(self):
        begin(self)
        locks[id(self._handle)] = self._lock

    with pytest.MonkeyPatch.context() as patch:
        patch.setattr(_dispatcher.Dispatcher, "_begin", begun)
        patch.setattr(_dispatcher, "library", Guarded(_dispatcher.library, locks))
        yield


class Told:
    """A lock that tells when it is taken by one who doesn't have it."""

    def __init__(self, lock, name, told):
        self.lock, self.name, self.told = lock, name, told

    def __enter__(self):
        if not self.lock._is_owned():
            self.told.append(self.name)
        return self.lock.__enter__()

    def __exit__(self, *fault):
        return self.lock.__exit__(*fault)


def assert_plain(value):
    """Numbers of Python and no others, as json and any program take them."""
    if isinstance(value, (tuple, list)):
        for part in value:
            assert_plain(part)
    else:
        assert value is None or type(value) in (bool, int, str), repr(value)
    return value


class Done(NamedTuple):
    """How a run of a script ended, and what it wrote."""

    status: int
    out: str
    err: str


def as_program(name, *words, given=b""):
    """How a run of a script ends in a process of its own."""
    done = subprocess.run([sys.executable, SCRIPTS / name, *map(str, words)], input=given, capture_output=True)
    return Done(done.returncode, done.stdout.decode(), done.stderr.decode())


@pytest.fixture
def call(monkeypatch, capfd):
    """Runs a script's main() in this process, with all that it and its own programs write."""

    def called(module, *words, given=""):
        monkeypatch.setattr(sys, "argv", [module.__name__, *map(str, words)])
        monkeypatch.setattr(sys, "stdin", io.StringIO(given))
        status, more = 0, ""
        try:
            status = module.main() or 0
        except SystemExit as ended:
            status = ended.code or 0
            if isinstance(status, str):
                status, more = 1, f"{status}\n"
        out, err = capfd.readouterr()
        return Done(status, out, err + more)

    return called


def failing(fault):
    """A function that raises this, whatever it is given."""

    def fails(*_, **__):
        raise fault

    return fails


def ended(patch, module, *words):
    """What a script returns whose reader has ended, and whether it complained."""
    out, err = io.StringIO(), io.StringIO()
    out.write = out.writelines = failing(BrokenPipeError())
    for name, value in (("argv", [module.__name__, *map(str, words)]), ("stdout", out), ("stderr", err)):
        patch.setattr(sys, name, value)
    return module.main(), not err.closed


@pytest.fixture
def stand_in(tmp_path):
    """Makes a program that answers by rows of the test's own, in the place of `pfair`."""

    def made(answers, name="pfair"):
        cases = "".join(f"{command}) cat <<'ROWS'\n{rows}ROWS\n;;\n" for command, rows in answers.items())
        program = tmp_path / "programs" / name
        program.parent.mkdir(exist_ok=True)
        program.write_text(f'#!/bin/sh\necho "$@" >>"{tmp_path}/calls"\ncase "$1" in\n{cases}esac\n')
        program.chmod(0o755)
        return program

    return made
