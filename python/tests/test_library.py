"""The shared library as the package sees it, beside its header: rows, structs, calls, the version, and which file."""
import ctypes
import importlib.util
import pathlib
import re

import numpy as np
import pytest

import conftest
import pfair
from pfair import _dispatcher, _entries, _library, _plans, _take

HEADER = re.sub(r"/\*.*?\*/", "", conftest.HEADER, flags=re.S)
STRUCTS = {name: body for name, body in re.findall(r"struct pfair_(\w+) \{(.*?)\n\};", HEADER, re.S)}
ENUMS = {name: body for name, body in re.findall(r"enum pfair_(\w+) \{(.*?)\}", HEADER, re.S)}
SIMPLE = {"uint64_t": "u8", "int64_t": "i8"}
# names of the package for those of the header
ROWS = {name: name.upper() for name in ("quantum", "decision", "lag", "member", "window", "entry", "key")}
KEPT = {"dispatcher": "Handle", "step": "Step", "settings": "Settings", "taken_log": "TakenLog", "miss": "Miss"}
KEPT |= {"file_fault": "FileFault", "state_fault": "StateFault"}


def fields_of(struct):
    """The fields of a struct of the header: the type and the name of each."""
    for declared in STRUCTS[struct].split(";")[:-1]:
        *kind, first = declared.split(",")[0].split()
        for name in (first, *declared.split(",")[1:]):
            yield kind[-1], name.strip()


@pytest.mark.parametrize("struct", ROWS)
def test_layout_of_rows(struct):
    """A name is 16 bytes and its length, which users see in entries alone."""
    dtype, end = getattr(_library, ROWS[struct]), 0
    names = []
    for kind, name in fields_of(struct):
        is_name = kind == "pfair_name"
        names.append(name if struct == "entry" or not is_name else "task")
        wanted = np.dtype("S16") if is_name else np.dtype(SIMPLE[kind])
        assert dtype.fields[names[-1]][:2] == (wanted, end)
        names += ["length"] if struct == "entry" and is_name else []
        end += 24 if is_name else 8
    assert list(dtype.names) == names and dtype.itemsize == end


@pytest.mark.parametrize("struct", KEPT)
def test_layout_of_structs(struct):
    kind, named = getattr(_library, KEPT[struct]), [name.strip("*") for _, name in fields_of(struct)]
    assert [field for field, _ in kind._fields_] == named and ctypes.sizeof(kind) == 8 * len(named)
    assert [getattr(kind, field).offset for field in named] == [8 * place for place in range(len(named))]


def constants_of(enum):
    """The constants of an enum of the header by their numbers, in the words that follow PFAIR_."""
    return {int(number): words for words, number in re.findall(r"PFAIR_(\w+) = (\d+)", ENUMS[enum])}


def test_numbers_of_the_header():
    """The outcomes of decisions, the keys of a task file, and what is found and done."""
    outcomes = constants_of("outcome")
    assert outcomes == {n: f"OUTCOME_{words.upper().replace(' ', '_')}" for n, words in pfair.OUTCOMES.items()}
    assert constants_of("key_of_file") == {n: f"KEY_{key.upper()}" for n, key in enumerate(_dispatcher._KEYS) if key}
    assert constants_of("taken") == {n: f"TAKEN_{word.upper()}" for n, word in enumerate(_take.TAKEN)}
    assert constants_of("step_kind") == {0: "STEP_PLANNED", 1: "STEP_WAITING", 2: "STEP_ALL_PLANNED"}
    assert _plans.STEPS == ("planned", "waiting", "done") and len(ENUMS) == 9
    assert constants_of("kind") == {n: f"KIND_{(kind or 'nothing').upper()}" for n, kind in enumerate(_entries.KINDS)}
    assert constants_of("miss_kind") == {0: "MISS_NONE", 1: "MISS_EARLY", 2: "MISS_TARDY", 3: "MISS_UNSERVED"}
    for enum in ENUMS.keys() - {"answer"}:  # a constant begins with a word of its enum's name, the same in all of it
        firsts = {words.split("_")[0] for words in constants_of(enum).values()}
        assert len(firsts) == 1 and firsts <= {*enum.upper().split("_")}, enum


class Fake:
    """In the place of a shared library: each of its calls is a function that answers by one number."""

    def __init__(self, version):
        self.version = version

    def __getattr__(self, name):
        call = (lambda: self.version) if name == "pfair_version" else lambda: 0
        call.__name__ = name
        setattr(self, name, call)
        return call


def loaded(monkeypatch, version):
    """The module anew, over a library of this version, and the file that it asked for."""
    asked = []
    monkeypatch.setattr(ctypes, "CDLL", lambda file: asked.append(file) or Fake(version))
    specification = importlib.util.spec_from_file_location("pfair._anew", _library.__file__)
    module = importlib.util.module_from_spec(specification)
    specification.loader.exec_module(module)
    return module, asked


# of the version A.B.C: 10,000 times A, 100 times B, and C
FIRST, SECOND, THIRD = map(int, pfair.__version__.split("."))
NUMBER_OF_VERSION = 10_000 * FIRST + 100 * SECOND + THIRD


def test_which_library(monkeypatch):
    beside = str(pathlib.Path(_library.__file__).with_name("libpfair.so"))
    for named, wanted in ((None, beside), ("", beside), ("another.so", "another.so")):
        monkeypatch.delenv("PFAIR_LIBRARY", raising=False)
        if named is not None:
            monkeypatch.setenv("PFAIR_LIBRARY", named)
        assert loaded(monkeypatch, NUMBER_OF_VERSION)[1] == [wanted]


def test_version(monkeypatch):
    """10,000 times the first part and 100 times the second and the third: a library of any other number is refused."""
    assert pfair.__version__ == _library.VERSION and _library.library.pfair_version() == NUMBER_OF_VERSION
    for version in (0, NUMBER_OF_VERSION - 1, NUMBER_OF_VERSION + 1, NUMBER_OF_VERSION + 100):
        said = f"^the shared library has version number {version}, and this package is {pfair.__version__}$"
        with pytest.raises(ImportError, match=said):
            loaded(monkeypatch, version)
    monkeypatch.setattr("pfair._version.VERSION", "3.45.6")
    assert loaded(monkeypatch, 34_506)[0].VERSION == "3.45.6"
    for version in (34_505, 34_406, 24_506):
        with pytest.raises(ImportError):
            loaded(monkeypatch, version)


# a byte for a processor, four bytes for the number of an entry
NUMBERS = {f"uint{bits}_t": getattr(ctypes, f"c_uint{bits}") for bits in (8, 32, 64)} | {"size_t": ctypes.c_size_t}


def type_of(declared, module):
    """The type that ctypes has to know for an argument of the header."""
    *words, name = declared.split()
    if name[0] != "*":
        return NUMBERS[words[-1]]
    if words[0] == "const":
        return ctypes.c_char_p if words[1] == "uint8_t" else ctypes.c_void_p
    if words[0] == "struct":
        struct = KEPT.get(words[1].removeprefix("pfair_"))
        return ctypes.POINTER(getattr(module, struct)) if struct else ctypes.c_void_p
    return ctypes.c_void_p if words[0] == "uint8_t" else ctypes.POINTER(NUMBERS[words[0]])


def test_types_of_calls(monkeypatch):
    module, _ = loaded(monkeypatch, NUMBER_OF_VERSION)
    declared = dict(re.findall(r"^uint32_t (pfair_\w+)\(([^)]*)\);", HEADER, re.M))
    assert len(module._CALLS) == 29 and set(module._CALLS) <= set(declared)
    for name in module._CALLS:
        types = [type_of(one, module) for one in declared[name].split(",") if one != "void"]
        call = getattr(module.library, name)
        assert (call.argtypes, call.restype) == (types, ctypes.c_uint32), name
