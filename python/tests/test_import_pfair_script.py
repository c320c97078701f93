"""How the scripts find the package and the program."""
import os
import runpy
import subprocess
import sys

import import_pfair
import pytest
from conftest import SCRIPTS, refusal

import pfair


@pytest.fixture
def ran(monkeypatch, tmp_path):
    """The commands that were run, in a clone of the test's own in which the package isn't installed; all succeed."""
    calls = []

    def run(words, **how):
        calls.append([*map(str, words)])
        assert how == {"stdin": subprocess.DEVNULL, "stdout": subprocess.DEVNULL}
        return subprocess.CompletedProcess(words, 0)

    monkeypatch.setattr(import_pfair.importlib.util, "find_spec", lambda name: None if name == "pfair" else "here")
    monkeypatch.setattr(import_pfair.subprocess, "run", run)
    monkeypatch.setattr(sys, "path", [*sys.path])
    monkeypatch.setattr(import_pfair, "TOP", tmp_path)
    return calls


def test_through_a_link(tmp_path):
    (tmp_path / "linked").symlink_to(SCRIPTS)
    assert runpy.run_path(str(tmp_path / "linked" / "import_pfair.py"))["TOP"] == SCRIPTS.resolve().parent


def test_installed_package():
    assert import_pfair.package() is pfair


def test_package_beside(monkeypatch, tmp_path, ran):
    """The package beside, with the library that is named, or lies beside it, or is made."""
    monkeypatch.setenv("PFAIR_LIBRARY", "some.so")
    assert import_pfair.package() is pfair and sys.path[0] == str(tmp_path / "python" / "src") and not ran
    for unset in ("", None):
        monkeypatch.delenv("PFAIR_LIBRARY") if unset is None else monkeypatch.setenv("PFAIR_LIBRARY", unset)
        assert import_pfair.package() is pfair
        assert os.environ["PFAIR_LIBRARY"] == str(tmp_path / "build" / "libpfair.so")
    assert ran == [[str(tmp_path / "tools" / "make_library"), str(tmp_path / "build")]] * 2
    beside = tmp_path / "python" / "src" / "pfair" / "libpfair.so"
    beside.parent.mkdir(parents=True)
    beside.touch()
    monkeypatch.delenv("PFAIR_LIBRARY")
    assert import_pfair.package() is pfair and len(ran) == 2 and "PFAIR_LIBRARY" not in os.environ


def test_numpy_is_looked_for_first(monkeypatch, ran):
    monkeypatch.setattr(import_pfair.importlib.util, "find_spec", lambda name: None)
    said = "numpy isn't here for this Python: apt-get install python3-numpy, or python3 -m pip install numpy"
    refusal(ImportError, said, import_pfair.package)
    assert not ran


def test_a_library_that_cant_be_made(monkeypatch, ran):
    monkeypatch.delenv("PFAIR_LIBRARY", raising=False)
    monkeypatch.setattr(import_pfair.subprocess, "run", lambda words, **how: subprocess.CompletedProcess(words, 1))
    with pytest.raises(ImportError, match="^make_library failed$"):
        import_pfair.package()


def test_program(monkeypatch, tmp_path, ran):
    """The one on the path; else that of an installation; else that of the clone, built first."""
    monkeypatch.setattr(import_pfair.shutil, "which", {"pfair": "here/pfair"}.get)
    assert import_pfair.program() == "here/pfair"
    monkeypatch.setattr(import_pfair.shutil, "which", lambda name: None)
    assert import_pfair.program() == str(tmp_path.parent.parent / "bin" / "pfair") and not ran
    (tmp_path / "scripts").mkdir()
    (tmp_path / "scripts" / "build").touch()
    assert import_pfair.program() == str(tmp_path / "build" / "pfair")
    assert ran == [[str(tmp_path / "scripts" / "build"), "pfair"]]


def test_ends():
    def interrupted():
        raise KeyboardInterrupt

    for main, status in ((lambda: 3, 3), (lambda: None, None), (interrupted, 130)):
        with pytest.raises(SystemExit) as ended:
            import_pfair.run(main)
        assert ended.value.code == status
