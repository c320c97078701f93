"""The command that draws pictures: its words, its files and its faults."""
import os
import pathlib
import shutil
import subprocess
import sys

import pytest

import pfair
from conftest import EXAMPLES, failing
from made_rows import CASES
from pfair import _task_file, draw, picture

FILES = sorted(EXAMPLES.glob("*.toml"))
RSVG = shutil.which("rsvg-convert")
STORED = pathlib.Path(__file__).parent / "pictures"


@pytest.fixture
def command(monkeypatch, capfdbinary):
    """Runs the command over made up rows: its status and what it writes."""
    asked = []
    rows = CASES["every_kind"][0]
    monkeypatch.setattr(draw, "source_of", lambda file, program: asked.append((file, program)) or rows)

    def run(*words, program=None):
        try:
            status = draw.main(list(words), program)
        except SystemExit as ended:
            status = ended.code
        return (status, *capfdbinary.readouterr())

    run.asked = asked
    return run


def test_words(command):
    rows = CASES["every_kind"][0]
    whole, some = picture.svg(rows, "schedule").encode(), picture.svg(rows, "lags", 2, 7).encode()
    page = picture.page(some.decode()).encode()
    assert command("schedule", "file") == (0, whole, b"")
    for words in (("file", "2", "7"), ("file", "+2", "7"), ("--slots", "2..7", "file"), ("file", "--slots", "2..7")):
        assert command("lags", *words) == (0, some, b"")
        assert command("lags", "--html", *words) == command("lags", *words, "--html") == (0, page, b"")
    assert command("schedule", "file", "--program", "other", program="pfair")[0] == 0
    assert command("schedule", "file", program="pfair")[0] == 0
    assert command.asked[0] == ("file", None) and command.asked[-2:] == [("file", "other"), ("file", "pfair")]
    assert command("--version") == (0, f"pfair_picture {pfair.__version__}\n".encode(), b"")


def test_help(command):
    kept = STORED / "help.txt"
    for words in (("--help",), ("schedule", "--help"), ("lags", "-h")):
        status, said, wrong = command(*words)
        if os.environ.get("PFAIR_KEEP_PICTURES"):
            kept.write_bytes(said)
        assert (status, said, wrong) == (0, kept.read_bytes(), b"")
    assert max(map(len, said.decode().splitlines())) <= 100


@pytest.mark.parametrize("words, said", [
    ("", "the following arguments are required: picture, FILE"),
    ("schedule", "the following arguments are required: FILE"),
    ("replay file", "argument picture: invalid choice: 'replay' (choose from 'schedule', 'lags')"),
    ("schedule file 0", "slots are asked for by --slots A..B, or by FROM TO behind the file"),
    ("schedule file 0 1 2", "slots are asked for by --slots A..B, or by FROM TO behind the file"),
    ("schedule file 0 1 --slots 0..1", "slots are asked for by --slots A..B, or by FROM TO behind the file"),
    ("schedule file 0 x\udcff", "argument FROM TO: 'x\\udcff' is no slot"),
    ("schedule file --slots 3", "argument --slots: '3' is not A..B, the slots A to B - 1"),
    ("schedule file --slots 3..9x", "argument --slots: '3..9x' is not A..B, the slots A to B - 1"),
    ("schedule file --title \udcff", "argument --title: '\\udcff' is no text"),
    ("schedule file --htm", "unrecognized arguments: --htm"),
    ("schedule file --html --pdf", "argument --pdf: not allowed with argument --html"),
])  # fmt: skip
def test_words_that_ask_for_nothing(command, words, said):
    assert command(*words.split()) == (1, b"", f"pfair_picture: 80 command line refused: {said}\n".encode())


def test_faults(command, monkeypatch):
    none, past = b"81 slots from 3 to before 2 refused: there are none", b"81 slots 0 to 130 refused: the file has 130"
    assert command("lags", "file", "3", "2") == (1, b"", b"pfair_picture: " + none + b"\n")
    assert command("lags", "file", "0", "131") == (1, b"", b"pfair_picture: " + past + b"\n")
    raised = {
        b"70 reading failed": (OSError(), 5), b"90 out of memory": (MemoryError(), 4),
        b"60 not TOML": (draw.Refused.by(60), 2),
        b"52 stalled at slot 4": (draw.Refused("52 stalled at slot 4", 3), 3),
    }  # fmt: skip
    for said, (fault, status) in raised.items():
        monkeypatch.setattr(draw, "source_of", failing(fault))
        assert command("lags", "file") == (status, b"", b"pfair_picture: " + said + b"\n")
    monkeypatch.setattr(draw, "source_of", failing(KeyboardInterrupt()))
    assert command("lags", "file") == (130, b"", b"")


def test_files(command, tmp_path, monkeypatch):
    """A file is written whole or not at all."""
    out = tmp_path / "made.svg"
    mask = os.umask(0o026)
    assert command("schedule", "file", "-o", str(out)) == (0, b"", b"")
    assert out.read_text() == picture.svg(CASES["every_kind"][0])
    assert (out.stat().st_mode & 0o777, os.umask(mask)) == (0o640, 0o026)
    out.chmod(0o604)
    for form, start in (("png", b"\x89PNG"), ("pdf", b"%PDF")):
        for found in (RSVG, None):
            monkeypatch.setattr(draw.shutil, "which", {"rsvg-convert": found}.__getitem__)
            assert command("schedule", "file", f"--{form}", "-o", str(out)) == (0, b"", b"")
            assert out.read_bytes().startswith(start) and out.stat().st_mode & 0o777 == 0o604
    before = out.read_bytes()
    assert command("schedule", "file", "9", "8", "-o", str(out))[0] == 1
    monkeypatch.setattr(draw.os, "replace", failing(OSError()))
    assert command("schedule", "file", "-o", str(out)) == (5, b"", b"pfair_picture: 71 writing failed\n")
    assert out.read_bytes() == before and list(tmp_path.iterdir()) == [out]
    for nowhere in (str(tmp_path / "none" / "made.svg"), "/dev/full"):
        assert command("schedule", "file", "-o", nowhere) == (5, b"", b"pfair_picture: 71 writing failed\n")


def test_links_and_other_file_systems(command, tmp_path, monkeypatch):
    """A link stays, and the file that it names is written beside itself, and whole before it has its name."""
    real, link = tmp_path / "real" / "made.svg", tmp_path / "link.svg"
    real.parent.mkdir()
    link.symlink_to(real)
    replace, asked = os.replace, []

    def replaced(made, target):
        asked.append((pathlib.Path(made).parent, target, pathlib.Path(made).read_text()))
        replace(made, target)

    monkeypatch.setattr(draw.os, "replace", replaced)
    assert command("schedule", "file", "-o", str(link)) == (0, b"", b"") and link.is_symlink()
    assert asked == [(real.parent, real, real.read_text())] and real.read_text().endswith("</svg>\n")
    # also what is less than a buffer holds
    draw.write(b"small", str(link))
    assert asked[-1] == (real.parent, real, "small")
    # what is interrupted leaves nothing behind
    monkeypatch.setattr(draw.os, "replace", failing(KeyboardInterrupt()))
    assert command("schedule", "file", "-o", str(link)) == (130, b"", b"")
    assert list(real.parent.iterdir()) == [real] and sorted(tmp_path.iterdir()) == [link, real.parent]


FULL = """
import resource, sys
from pfair import draw

resource.setrlimit(resource.RLIMIT_FSIZE, (1000, 1000))
sys.exit(draw.main(["schedule", sys.argv[1]]))
"""


def test_a_full_disk(tmp_path):
    """A picture that standard output takes in part alone is a fault."""
    with open(tmp_path / "out", "wb") as out:
        done = subprocess.run([sys.executable, "-c", FULL, FILES[0]], stdout=out, stderr=subprocess.PIPE)
    assert (done.returncode, done.stderr) == (5, b"pfair_picture: 71 writing failed\n")


def test_titles_and_legends(command):
    rows = CASES["every_kind"][0]
    for words, how in (
        (("--title", "Mine & yöurs"), ("Mine & yöurs", True)), (("--title", ""), ("", True)),
        (("--no-legend",), (None, False)), (("--no-legend", "--title", "b"), ("b", False)),
    ):
        svg = picture.svg(rows, "schedule", 0, 130, *how)
        assert command("schedule", "file", *words) == (0, svg.encode(), b"")
        assert command("schedule", "file", "--html", *words) == (0, picture.page(svg).encode(), b"")


CONVERTS = """#!/bin/sh
echo a warning >&2
echo "$@"
cat
"""
FAILS = r"""#!/bin/sh
cat > /dev/null
printf '\n\303\251\377%0299d' 0 >&2
echo nothing useful
exit 3
"""


def test_rsvg_convert(command, tmp_path, monkeypatch):
    """What the command rsvg-convert is called with, and what becomes of its output and of its complaint."""
    stand_in = tmp_path / "rsvg-convert"
    monkeypatch.setenv("PATH", f"{tmp_path}{os.pathsep}{os.environ['PATH']}")
    stand_in.write_text(CONVERTS)
    stand_in.chmod(0o755)
    svg = picture.svg(CASES["every_kind"][0], title="ü").encode()
    for form, words in (("png", b"--format png --zoom 2"), ("pdf", b"--format pdf")):
        wanted = b"--unlimited " + words + b"\n" + svg
        assert command("schedule", "file", f"--{form}", "--title", "ü") == (0, wanted, b"")
    stand_in.write_text(FAILS)
    said = f"pfair_picture: 71 writing failed: rsvg-convert: {chr(0xE9) + chr(0xFFFD) + '0' * 198!r}\n"
    assert command("schedule", "file", "--png") == (5, b"", said.encode())


def test_formats_that_are_not_here(command, monkeypatch):
    monkeypatch.setattr(draw.shutil, "which", {"rsvg-convert": None}.__getitem__)
    monkeypatch.setitem(draw.sys.modules, "pfair._plot", None)
    said = b"pfair_picture: 80 command line refused: --png needs the command rsvg-convert or Python's matplotlib\n"
    assert command("schedule", "file", "--png") == (1, b"", said)


def test_sources(monkeypatch):
    """The rows are those of a program if one is given, else those of the library, with the numbers of its refusals."""
    monkeypatch.setattr(draw, "Program", lambda *words: words)
    assert draw.source_of("file", "pfair") == ("file", "pfair")
    for kind, status in ((pfair.NotToml, 2), (pfair.EntryRefused, 2), (pfair.Stalled, 3), (pfair.OutOfMemory, 4)):
        fault = kind("said so")
        monkeypatch.setattr(_task_file, "read_task_file", failing(fault))
        with pytest.raises(draw.Refused, match=f"^{kind.number} said so$") as refused:
            draw.source_of("file", None)
        assert refused.value.status == status


def test_command_over_the_library(capfdbinary, tmp_path):
    file = FILES[0]
    assert draw.main(["schedule", str(file)]) == 0
    assert capfdbinary.readouterr() == (file.with_suffix(".schedule.svg").read_bytes(), b"")
    bad = tmp_path / "bad.toml"
    for text, status, start in (("version = ", 2, b"60 "), ("version = 9", 2, b"6"), (None, 5, b"70 reading failed\n")):
        bad.write_text(text) if text else bad.unlink()
        assert draw.main(["lags", str(bad)]) == status
        said = capfdbinary.readouterr()
        assert said.out == b"" and said.err.startswith(b"pfair_picture: " + start) and said.err.count(b"\n") == 1


def test_as_a_module():
    done = subprocess.run([sys.executable, "-m", "pfair.draw", "--version"], capture_output=True, text=True)
    assert (done.returncode, done.stdout, done.stderr) == (0, f"pfair_picture {pfair.__version__}\n", "")
    # a pipe is written, though a link names it
    words = [sys.executable, "-m", "pfair.draw", "schedule", FILES[0], "-o", "/dev/stdout"]
    done = subprocess.run(words, capture_output=True)
    assert (done.returncode, done.stdout) == (0, FILES[0].with_suffix(".schedule.svg").read_bytes())
