"""Whole numbers as calls take them, each by its name and with its range."""
from __future__ import annotations

import operator
from typing import Any

from .errors import OutOfRange

#: The largest number of the library's type for slots and counts.
LARGEST = 2**64 - 1


def whole(number: Any, name: str, least: int = 0, most: int = LARGEST) -> int:
    """Returns a whole number, or refuses one that isn't, or that is out of its range: ctypes would truncate it."""
    try:
        given = operator.index(number)
    except TypeError:
        raise TypeError(f"{name} = {number!r} is no whole number") from None
    if not least <= given <= most:
        raise OutOfRange(f"{OutOfRange.text}: {name} = {given}, and not {least:,} to {most:,}")
    return given
