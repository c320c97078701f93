"""The exceptions: number, text and base classes of each, and what check() makes of answers."""
import pickle
import re
import subprocess
import sys

import pytest

import pfair
from conftest import HEADER
from pfair import errors

# the numbers and texts of the header, which says of two more than an exception does
ENUM = re.search(r"enum pfair_answer {(.*?)};", HEADER, re.S)[1]
TEXTS = {int(number): text.replace("pfair_", "") for number, text in re.findall(r"= (\d+),? +/\* (.*) \*/", ENUM)}
TEXTS |= {52: "the logs settle fewer slots than are wanted", 100: "a number is out of its range"}
TEXTS |= {102: "the dispatcher is closed"}
# the names there, where they aren't those of the exceptions
NAMES = {60: "FILE_NOT_TOML", 61: "FILE_MISSING", 62: "FILE_WRONG_KIND", 63: "FILE_RANGE", 64: "FILE_ENTRY"}
NAMES |= {65: "FILE_VERSION", 90: "MEMORY"}
VALUES, FILES = {*range(1, 16), 40, 41, 68, 69, 100}, {*range(60, 67)}


def test_each_answer_has_its_exception():
    assert set(TEXTS) - {101, 103} == set(pfair.BY_NUMBER) and len(pfair.BY_NUMBER) == 34
    for number, kind in pfair.BY_NUMBER.items():
        assert (kind.number, kind.text) == (number, TEXTS[number]) and getattr(pfair, kind.__name__) is kind
        second = ValueError if number in VALUES else MemoryError if number == 90 else None
        family = (pfair.TaskFileError,) if number in FILES else (pfair.PfairError, *([second] if second else []))
        assert kind.__bases__ == family and kind.__doc__.startswith(kind.text) and kind().number == number
        name = NAMES.get(number) or re.sub("(?<!^)([A-Z])", r"_\1", kind.__name__).upper()
        assert number == 52 or f" PFAIR_{name} = {number}" in ENUM
    kinds = {kind for kind in vars(errors).values() if isinstance(kind, type) and issubclass(kind, Exception)}
    assert kinds == {*pfair.BY_NUMBER.values(), pfair.PfairError, pfair.TaskFileError}


@pytest.mark.parametrize("number", sorted(pfair.BY_NUMBER))
def test_what_an_answer_raises(number):
    for where, found in (("", {}), ("slot 7", {}), ("here", {"place": 3, "number": 4})):
        with pytest.raises(pfair.BY_NUMBER[number]) as raised:
            errors.check(number, *[where] * bool(where), **found)
        text = f"{TEXTS[number]}: {where}" if where else TEXTS[number]
        for fault in (raised.value, pickle.loads(pickle.dumps(raised.value))):
            assert type(fault) is pfair.BY_NUMBER[number] and fault.args == (text,) and str(fault) == text
            assert fault.found == found and fault.number == number


def test_what_they_have_in_common():
    kinds, texts = (pfair.PfairError, pfair.TaskFileError), ["", "a task file is refused"]
    assert [(kind.number, kind.text) for kind in kinds] == [(0, text) for text in texts]
    assert [kind.__bases__ for kind in kinds] == [(Exception,), (pfair.PfairError, ValueError)]
    plain = pfair.PfairError()
    assert str(plain) == "" and plain.found == {} and pfair.PfairError("said", slot=1).found == {"slot": 1}
    said = "a slot of a list isn't before the horizon: found has \"place\", its place from 0"
    assert pfair.PickPastHorizon.__doc__ == said and pfair.NotOpen.__doc__ == "the dispatcher is closed"


WITHOUT_DOCSTRINGS = """
import pfair

for number in pfair.BY_NUMBER:
    try:
        pfair.errors.check(number, "here")
    except pfair.PfairError as fault:
        print(number, fault)
try:
    pfair.Dispatcher(256, 1, 1)
except pfair.OutOfRange as fault:
    print(fault)
"""


def test_messages_without_docstrings():
    """Python's -OO drops docstrings, and no message."""
    done = subprocess.run([sys.executable, "-OO", "-c", WITHOUT_DOCSTRINGS], capture_output=True, text=True)
    wanted = [f"{number} {TEXTS[number]}: here" for number in pfair.BY_NUMBER]
    wanted.append("a number is out of its range: processors = 256, and not 1 to 64")
    assert (done.stdout.splitlines(), done.stderr) == (wanted, "")
