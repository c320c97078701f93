"""Where the scripts find the Python package and the program, and how they end."""
import importlib.util
import os
import pathlib
import shutil
import subprocess
import sys

TOP = pathlib.Path(__file__).resolve().parent.parent
NO_NUMPY = "numpy isn't here for this Python: apt-get install python3-numpy, or python3 -m pip install numpy"


def made(*words):
    """Runs what makes a file that is needed, and tells of its progress itself."""
    if subprocess.run(words, stdin=subprocess.DEVNULL, stdout=subprocess.DEVNULL).returncode:
        raise ImportError(f"{pathlib.Path(words[0]).name} failed")


def package():
    """The package, as it is installed or as it stands beside the scripts."""
    if importlib.util.find_spec("numpy") is None:
        raise ImportError(NO_NUMPY)
    if importlib.util.find_spec("pfair") is None:
        sources = TOP / "python" / "src"
        sys.path.insert(0, str(sources))
        # what is installed has the library beside the package
        if not os.environ.get("PFAIR_LIBRARY") and not (sources / "pfair" / "libpfair.so").exists():
            made(TOP / "tools" / "make_library", TOP / "build")
            os.environ["PFAIR_LIBRARY"] = str(TOP / "build" / "libpfair.so")
    return importlib.import_module("pfair")


def program():
    """The program `pfair`: that on the path, that installed with this, or that of this clone, proved and built."""
    if found := shutil.which("pfair"):
        return found
    if not (TOP / "scripts" / "build").exists():
        return str(TOP.parent.parent / "bin" / "pfair")
    made(TOP / "scripts" / "build", "pfair")
    return str(TOP / "build" / "pfair")


def run(main):
    """Ends the script with the status that `main` returns, and without a traceback after Ctrl-C."""
    try:
        status = main()
    except KeyboardInterrupt:
        status = 130
    sys.exit(status)
