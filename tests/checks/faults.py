"""The table of faults in docs/SPECIFICATION.md, from which the checks take the lines that they expect."""
import pathlib
import re

SPECIFICATION = pathlib.Path(__file__).resolve().parents[2] / "docs" / "SPECIFICATION.md"
ROWS = re.findall(r"^\| (\d+) \| `([^`]+)` \|", SPECIFICATION.read_text(), re.MULTILINE)
TABLE = {int(number): text for number, text in ROWS}
PART = re.compile(r"PLACE|NUMBER TEXT|NUMBER|PROCESSOR|SLOT|KEY|LINE|WHY")


def fault(number, *parts):
    """What a program says behind its name: the number and the text of a fault, with these in place of its parts."""
    given = list(parts)
    line = f"{number} {PART.sub(lambda _: str(given.pop(0)), TABLE[number])}"
    assert not given, (number, parts)
    return line
