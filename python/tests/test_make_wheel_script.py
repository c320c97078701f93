"""scripts/make_wheel: what is in the wheel, by Python's own readers, and its complaints."""
import base64
import csv
import email
import hashlib
import runpy
import subprocess
import sys
import tomllib
import zipfile

import pytest
from conftest import SCRIPTS, module_of

MAKE = module_of("make_wheel")
PACKAGE = SCRIPTS.parent / "python"
VERSION = tomllib.loads((PACKAGE / "pyproject.toml").read_text())["project"]["version"]
ABOUT = f"ramluhay-{VERSION}.dist-info"


@pytest.fixture
def wheel(tmp_path):
    library = tmp_path / "made.so"
    library.write_bytes(b"\x7fELF library")
    return MAKE.write_wheel(library, tmp_path)


def test_files(wheel):
    """The package's own files as they are, the library, and four files about it, in one order and of one time."""
    assert wheel.name == f"ramluhay-{VERSION}-py3-none-linux_x86_64.whl"
    with zipfile.ZipFile(wheel) as packed:
        members = packed.infolist()
        files = [file for file in (PACKAGE / "src" / "pfair").iterdir() if file.is_file() and file.suffix != ".so"]
        sources = {f"pfair/{file.name}": file.read_bytes() for file in files}
        about = [f"{ABOUT}/METADATA", f"{ABOUT}/WHEEL", f"{ABOUT}/entry_points.txt", f"{ABOUT}/RECORD"]
        assert [member.filename for member in members] == [*sorted(sources), "pfair/libpfair.so", *about]
        assert {"pfair/__init__.py", "pfair/py.typed", "pfair/page.css", "pfair/page.js"} <= sources.keys()
        assert packed.read(about[2]) == b"[console_scripts]\npfair_picture = pfair.draw:main\n"
        assert all(packed.read(name) == content for name, content in sources.items())
        assert packed.read("pfair/libpfair.so") == b"\x7fELF library" and packed.testzip() is None
    for member in members:
        assert member.date_time == (1980, 1, 1, 0, 0, 0) and member.compress_type == zipfile.ZIP_STORED
        assert member.external_attr >> 16 == 0o100644 and member.external_attr & 0xFFFF == 0


def test_record(wheel):
    """The sum and the length of each file but of the record itself."""
    with zipfile.ZipFile(wheel) as packed:
        rows = list(csv.reader(packed.read(f"{ABOUT}/RECORD").decode().splitlines()))
        assert [row[0] for row in rows] == packed.namelist() and rows[-1] == [f"{ABOUT}/RECORD", "", ""]
        for name, digest, length in rows[:-1]:
            content = packed.read(name)
            kind, _, text = digest.partition("=")
            assert kind == "sha256" and base64.urlsafe_b64decode(text + "=") == hashlib.sha256(content).digest()
            assert "=" not in text and int(length) == len(content)


def test_metadata(wheel):
    with zipfile.ZipFile(wheel) as packed:
        told = email.message_from_string(packed.read(f"{ABOUT}/METADATA").decode())
        tags = email.message_from_string(packed.read(f"{ABOUT}/WHEEL").decode())
    assert told.items() == [
        ("Metadata-Version", "2.1"), ("Name", "ramluhay"), ("Version", VERSION),
        ("Summary", "A proved Pfair (PD2) multiprocessor executive, for studies of schedulability"),
        ("Classifier", "Typing :: Typed"), ("Classifier", "Operating System :: POSIX :: Linux"),
        ("Classifier", "Programming Language :: Python :: 3"), ("Requires-Python", ">=3.9"),
        ("Description-Content-Type", "text/markdown"), ("Requires-Dist", "numpy>=1.22"), ("Provides-Extra", "tables"),
        ("Requires-Dist", "pandas>=1.5 ; extra == 'tables'"), ("Provides-Extra", "plots"),
        ("Requires-Dist", "matplotlib>=3.5 ; extra == 'plots'"),
    ]
    assert told.get_payload() == (PACKAGE / "README.md").read_text()
    wanted = [("Wheel-Version", "1.0"), ("Generator", "scripts/make_wheel"), ("Root-Is-Purelib", "false")]
    assert tags.items() == [*wanted, ("Tag", "py3-none-linux_x86_64")] and tags.get_payload() == ""


def test_sections():
    text = '[one]\na = \'b\'\nlong-name = ["c", "d"]\n\n[one.two]\na = "e"\n[three]\nf = "g"\n'
    assert MAKE.section_of(text, "one") == {"a": "b", "long-name": ["c", "d"]}
    assert MAKE.section_of(text, "one.two") == {"a": "e"} and MAKE.section_of(text, "three") == {"f": "g"}


def test_words(call, tmp_path):
    for words in ([], [""], ["-h"], [tmp_path, tmp_path]):
        assert call(MAKE, *words) == (2, "", "usage: scripts/make_wheel FOLDER\n")


def test_what_is_missing(call, tmp_path, monkeypatch):
    """One line says what, and how to get it; nothing is made."""
    advice_on_rt = "README.md names the Rattle kit that has it"
    for command, advice in (("rt", advice_on_rt), ("cc", "install a C compiler, on Debian by apt-get install gcc")):
        monkeypatch.setattr(MAKE.shutil, "which", lambda name, command=command: None if name == command else name)
        said = f"scripts/make_wheel: there is no {command} here: {advice}\n"
        assert call(MAKE, tmp_path / "made") == (1, "", said) and not (tmp_path / "made").exists()


def test_library_is_made_first(call, tmp_path, monkeypatch):
    monkeypatch.setattr(MAKE, "TOP", tmp_path)
    monkeypatch.setattr(MAKE.shutil, "which", lambda name: name)
    made, maker = tmp_path / "deep" / "made", tmp_path / "tools" / "make_library"
    maker.parent.mkdir()
    maker.write_text('#!/bin/sh\necho proving\nprintf made >"$1/libpfair.so"\n')
    maker.chmod(0o755)
    (tmp_path / "python").symlink_to(PACKAGE)
    for _ in range(2):
        done = call(MAKE, made)
        (wheel,) = made.iterdir()
        assert (done.status, done.out) == (0, f"scripts/make_wheel: {wheel}\n")
        assert zipfile.ZipFile(wheel).read("pfair/libpfair.so") == b"made"
    maker.write_text("#!/bin/sh\nexit 1\n")
    assert call(MAKE, made)[::2] == (1, "scripts/make_wheel: the C library was not made\n")


def test_text_that_is_no_ascii(monkeypatch, tmp_path):
    monkeypatch.setattr(MAKE, "metadata", lambda: ("ramluhay", VERSION, "ü"))
    (tmp_path / "made.so").touch()
    with zipfile.ZipFile(MAKE.write_wheel(tmp_path / "made.so", tmp_path)) as packed:
        assert packed.read(f"{ABOUT}/METADATA").decode() == "ü"


def test_as_a_program(tmp_path):
    (tmp_path / "linked").symlink_to(SCRIPTS)
    assert runpy.run_path(str(tmp_path / "linked" / "make_wheel"))["TOP"] == SCRIPTS.resolve().parent
    done = subprocess.run([sys.executable, SCRIPTS / "make_wheel"], capture_output=True, text=True)
    assert (done.returncode, done.stdout, done.stderr) == (2, "", "usage: scripts/make_wheel FOLDER\n")
