"""scripts/install, study and pfair_picture, with stand-ins for what is proved and built."""
import os
import shutil
import stat
import subprocess
import sys

import pytest
from conftest import EXAMPLES, SCRIPTS, Done

import pfair

VERSION, TOP = pfair.__version__, EXAMPLES.parent
MAJOR = VERSION.partition(".")[0]
PACKAGE = "share/pfair/python/src/pfair"
# the commands and the other files of each folder, and where links lead
COMMANDS = {"bin": "pfair pfair_follow pfair_picture", "lib/pfair": "pfair pfair_follow"}
COMMANDS |= {"share/pfair/scripts": "check_schedule cycle lint misses study task_file trace"}
FILES = {"lib": f"libpfair.a libpfair.so.{VERSION}", "include": "pfair.h", "lib/pkgconfig": "pfair.pc"}
FILES |= {"share/pfair/scripts": "run_program import_pfair.py task_faults.py word_faults.py"}
FILES |= {"share/man/man1": "pfair.1 pfair_follow.1 pfair_picture.1"}
FILES |= {PACKAGE: " ".join(file.name for file in (SCRIPTS.parent / "python/src/pfair").glob("*.[!s]*"))}
MODES = {f"{folder}/{name}": 0o755 for folder, names in COMMANDS.items() for name in names.split()}
MODES |= {f"{folder}/{name}": 0o644 for folder, names in FILES.items() for name in names.split()}
LINKS = {f"lib/libpfair.so.{MAJOR}": f"libpfair.so.{VERSION}", "lib/libpfair.so": f"libpfair.so.{MAJOR}"}
LINKS |= {f"{PACKAGE}/libpfair.so": f"../../../../../lib/libpfair.so.{VERSION}"}
LINKS |= {"share/pfair/scripts/pfair_picture": "../../../bin/pfair_picture"}
MAKER = 'printf library >"$1/libpfair.a"; cp "$1/libpfair.a" "$1/libpfair.so"; chmod 600 "$1"/libpfair.*'


def program(path, text):
    path.parent.mkdir(parents=True, exist_ok=True)
    path.write_text(f"#!/bin/sh\n{text}\n")
    path.chmod(0o755)
    return path


@pytest.fixture
def clone(tmp_path):
    """A clone whose builder and library are stand-ins: each call is kept in `calls`."""
    top = tmp_path / "a clone"
    shutil.copytree(SCRIPTS, top / "scripts")
    unwanted = shutil.ignore_patterns("*.so", "__pycache__")
    shutil.copytree(SCRIPTS.parent / "python/src", top / "python/src", ignore=unwanted)
    for name in ("include", "docs"):
        shutil.copytree(TOP / name, top / name)
    (top / "examples/python").mkdir(parents=True)
    (tmp_path / "room").mkdir()
    program(top / "scripts/build", f'echo "build $@" >>"{tmp_path}/calls"; echo proving')
    program(top / "tools/make_library", f'echo "make_library $@" >>"{tmp_path}/calls"; {MAKER}')
    for name in ("pfair", "pfair_follow"):
        program(top / "build" / name, f'printf "{name}"; printf "<%s>" "$@"').chmod(0o700)
    return top


def run(clone, *words, **variables):
    """Runs a script in a folder beside the clone, and looks that it leaves nothing in TMPDIR."""
    room = clone.parent / "room"
    given = {name: value for name, value in os.environ.items() if not name.startswith(("PFAIR", "DESTDIR", "PYTHON"))}
    how = {"cwd": clone.parent, "env": {**given, "TMPDIR": str(room), **variables}, "umask": 0o022, "text": True}
    done = subprocess.run([str(word) for word in words], stdin=subprocess.DEVNULL, capture_output=True, **how)
    assert not list(room.iterdir())
    return Done(done.returncode, done.stdout, done.stderr)


def assert_installed(place, prefix, rpath=True):
    """All that belongs there and nothing else, and a file for pkg-config with that prefix."""
    found = {path: str(path.relative_to(place)) for path in place.rglob("*")}
    assert {name: os.readlink(path) for path, name in found.items() if path.is_symlink()} == LINKS
    modes = {name: stat.S_IMODE(path.lstat().st_mode) for path, name in found.items() if name not in LINKS}
    assert modes == MODES | {name: 0o755 for path, name in found.items() if path.is_dir()}
    head = f"prefix={prefix}\nlibdir=${{prefix}}/lib\nincludedir=${{prefix}}/include\n\nName: pfair\n"
    text = (place / "lib/pkgconfig/pfair.pc").read_text()
    assert text.startswith(head) and f"\nVersion: {VERSION}\n" in text and "@" not in text
    assert f"\nLibs: -L${{libdir}} -lpfair{' -Wl,-rpath,${libdir}' * rpath}\nCflags: -I${{includedir}}\n" in text
    assert (place / "lib/libpfair.a").read_text() == (place / "lib/libpfair.so").read_text() == "library"


@pytest.mark.parametrize("prefix", ["here", "a & b|c\\d/e"])
def test_install_twice(clone, prefix):
    """The second call writes over the first; a relative prefix is one of the folder that the call runs in."""
    place = clone.parent / prefix
    for _ in range(2):
        done = run(clone, clone / "scripts/install", prefix)
        assert (done.status, done.err) == (0, "") and done.out.startswith("scripts/install: bin/pfair, ")
        assert done.out.endswith(f" are in {place}\n") and done.out.count("\n") == 1
        assert_installed(place, place)
    assert (clone.parent / "calls").read_text().count("build \n") == 2
    shutil.rmtree(clone)
    for name in ("pfair", "pfair_follow"):
        assert run(clone, place / "bin" / name, "a", "b  c", "") == (0, f"{name}<a><b  c><>", "")
    picture = clone.parent / "a link"
    picture.symlink_to(place / "share/pfair/scripts/pfair_picture")
    assert run(clone, picture, "--version") == (0, f"pfair_picture {VERSION}\n", "")


@pytest.mark.parametrize("prefix", ["/usr", "/usr/", "/opt/pfair"])
def test_install_to_be_packed(clone, prefix):
    root = clone.parent / "root"
    assert run(clone, clone / "scripts/install", prefix, DESTDIR=str(root)).status == 0
    assert_installed(root / prefix.strip("/"), prefix.rstrip("/"), rpath=prefix == "/opt/pfair")
    assert [path.name for path in root.iterdir()] == [prefix.split("/")[1]]


def test_install_is_refused(clone):
    for words in ((), ("",), ("here", "there")):
        assert run(clone, clone / "scripts/install", *words) == (2, "", "usage: scripts/install PREFIX\n")
    done = run(clone, clone / "scripts/install", "here", DESTDIR=str(clone.parent / "root"))
    assert done == (2, "", "scripts/install: with DESTDIR the prefix begins with /, and here doesn't\n")
    program(clone / "scripts/build", "exit 3")
    assert run(clone, clone / "scripts/install", "there").status == 3
    assert {path.name for path in clone.parent.iterdir()} == {"a clone", "room", "there"}
    assert not list((clone.parent / "there").iterdir())


STUDIES = {"Which sets are admitted": "admitted", "Preemptions and moves": "moves"}
STUDIES |= {"Who is refused while others leave": "refusals", "When a processor dies": "deaths"}


def test_study(clone):
    """Each program under its heading, by the interpreter that is named, and its plot where it belongs."""
    python = program(clone.parent / "a python", '[ "$1" = -c ] || printf "%s|" "$PYTHONPATH" "$PFAIR_LIBRARY" "$@"')
    plots, library = clone.parent / "the plots", clone / "build/libpfair.so"
    plots.mkdir()
    for words, folder in (((), clone / "examples/python"), ((plots,), plots)):
        wanted = ""
        for heading, name in STUDIES.items():
            plot = f"{folder / name}.svg|" if name in ("admitted", "moves") else ""
            wanted += f"## {heading}\n{clone / 'python/src'}|{library}|{clone / 'examples/python' / name}.py|{plot}"
        done = run(clone, clone / "scripts/study", *words, PYTHON=str(python))
        assert done == (0, wanted, "")
        assert (clone.parent / "calls").read_text().splitlines()[-1] == f"make_library {clone / 'build'}"
    (clone / "python/src/pfair/libpfair.so").touch()
    done = run(clone, clone / "scripts/study", plots, PYTHON=str(python))
    assert done == (0, wanted.replace(str(library), ""), "") and (clone.parent / "calls").read_text().count("\n") == 2
    said = f"scripts/study: this user can't write to {plots}x: give a FOLDER for the plots\n"
    assert run(clone, clone / "scripts/study", f"{plots}x", PYTHON=str(python)) == (1, "", said)
    program(python, '[ "$1" = -c ] || exit 7')
    assert run(clone, clone / "scripts/study", plots, PYTHON=str(python)).status == 7
    said = f"{python} has no numpy or no matplotlib: apt-get install python3-numpy python3-matplotlib\n"
    program(python, "exit 1")
    assert run(clone, clone / "scripts/study", PYTHON=str(python)) == (1, "", f"scripts/study: {said}")


ROWS = {"decisions": "slot,processor,number,task,outcome,value\n", "replay": "slot,processor,task,index,place\n"}
FILE = "version = 2\nprocessors = 1\nframe = 1\nslots = 3\n"


def test_pictures(clone, stand_in):
    """By the program beside it, which is built first in a clone; else by that on the path."""
    (clone.parent / "file").write_text(FILE)
    other = stand_in(ROWS)
    path, picture = f"{other.parent}:{os.environ['PATH']}", clone / "scripts/pfair_picture"
    program(clone / "scripts/pfair", other.read_text().replace("echo", "echo beside", 1))
    drawn, calls = run(clone, picture, "schedule", "file", PATH=path), clone.parent / "calls"
    assert drawn.status == 0 and drawn.out.startswith("<svg ") and not drawn.err
    assert calls.read_text().splitlines() == ["build pfair", "beside decisions file", "beside replay --affinity file"]
    for words in (("schedule", "--help"), ("lags", "-h"), ("--version",), ("schedule", "--program", other, "file")):
        calls.write_text("")
        assert run(clone, picture, *words, PATH=path).status == 0 and "build" not in calls.read_text()
    program(clone / "scripts/build", "exit 3")
    assert run(clone, picture, "lags", "file", PATH=path) == (3, "", "") and not list(clone.rglob("__pycache__"))
    for name in ("build", "pfair"):
        (clone / "scripts" / name).unlink()
    calls.write_text("")
    assert run(clone, picture, "schedule", "file", PATH=path) == drawn and "beside" not in calls.read_text()
    assert run(clone, sys.executable, picture, "lags", "file", PATH="").err.endswith("the program pfair can't be run\n")
