"""Rows of schedules that were recorded elsewhere, as arrays."""
from __future__ import annotations

import csv
import io
import os
import re
from typing import IO, TYPE_CHECKING, Any, Iterable, Iterator, NamedTuple, Optional, Sequence, Union

import numpy as np
import numpy.typing as npt

from ._entries import Rows
from ._names import numbered

if TYPE_CHECKING:
    from pandas import DataFrame

Numbers = npt.NDArray[np.int64]
Words = npt.NDArray[np.uint64]
#: What recorded rows are given as.
Given = Union[Rows, "DataFrame", Sequence[Sequence[Any]], str, bytes, "os.PathLike[str]", IO[bytes], IO[str]]

# bytes of a text that are looked at together
_AT_ONCE = 1 << 21
_NAME = re.compile(r"[a-z][a-z0-9_]{0,15}")
# the columns that are read; a header has at least the first two
_COLUMNS = ("slot", "task", "index", "place")
_LARGEST = 2**63 - 1
# of each length up to 8, the bytes of a word that a number, or a name, of that length has
_LAST = np.array([2**64 - (1 << 64 - 8 * length) for length in range(9)], np.uint64)
_FIRST = np.array([(1 << 8 * length) - 1 for length in range(9)], np.uint64)
_ZEROS, _DIGIT = np.uint64(0x3030303030303030), np.uint64(0xF0F0F0F0F0F0F0F0)


class Record(NamedTuple):
    """The rows of a recorded schedule, as columns of one length.

    Attributes
    ----------
    slots : ndarray of int64
        The slot of each row.
    tasks : ndarray of int64
        Which of `names` each row's task is, from 0.
    names : list of str
        The tasks, each once.
    indexes, places : ndarray of int64, or None
        The subtask and the processor of each row, if the rows have them.
    """

    slots: Numbers
    tasks: Numbers
    names: list[str]
    indexes: Optional[Numbers]
    places: Optional[Numbers]


class Names:
    """Numbers names from 0, in the order in which they come."""

    def __init__(self) -> None:
        self.codes: dict[bytes, int] = {}

    def code(self, name: bytes) -> int:
        """Returns the number of a name; refuses what is no task's name."""
        if name not in self.codes:
            if not _NAME.fullmatch(name.decode(errors="replace")):
                raise ValueError(f"{name.decode(errors='replace')!r} is no task's name")
            self.codes[name] = len(self.codes)
        return self.codes[name]

    def all(self) -> list[str]:
        return [name.decode() for name in self.codes]


def read_record(given: Given) -> Record:
    """Reads recorded rows, in whatever form they are given.

    Parameters
    ----------
    given : ndarray, pandas.DataFrame, sequence of tuple, str, bytes, os.PathLike or file
        As `check` takes it.

    Returns
    -------
    Record

    Raises
    ------
    ValueError
        If the rows can't be read: the text names the line.
    OSError
        If a file can't be read.
    """
    if isinstance(given, np.ndarray):
        return _of_array(given)
    if isinstance(given, bytes) or isinstance(given, str) and "\n" in given:
        return _of_text(io.BytesIO(_bytes_of(given)))
    if isinstance(given, (str, os.PathLike)):
        with open(given, "rb") as file:
            return _of_text(file)
    other: Any = given
    if hasattr(other, "columns") and hasattr(other, "to_numpy"):
        return _of_frame(other)
    return _of_text(other) if hasattr(other, "read") else _of_rows(other)


def _of_frame(frame: Any) -> Record:
    """Reads a frame of pandas, whose tasks may be categories or texts."""
    if missing := [name for name in _COLUMNS[:2] if name not in frame.columns]:
        raise ValueError(f"a frame without the column {missing[0]!r}")
    codes, known = frame["task"].factorize()
    if len(codes) and codes.min() < 0:
        raise ValueError(f"row {int(codes.argmin()) + 1}: it has no task")
    names = Names()
    for name in known:
        names.code(_bytes_of(name))
    more = (_whole(frame[name].to_numpy(), name) if name in frame.columns else None for name in ("index", "place"))
    return Record(_whole(frame["slot"].to_numpy(), "slot"), codes.astype(np.int64), names.all(), *more)


def _bytes_of(name: Any) -> bytes:
    return name if isinstance(name, bytes) else str(name).encode(errors="surrogatepass")


def _of_array(rows: Rows) -> Record:
    fields = rows.dtype.names or ()
    if missing := [name for name in _COLUMNS[:2] if name not in fields]:
        raise ValueError(f"an array without the field {missing[0]!r}")
    known, codes = np.unique(rows["task"], return_inverse=True)
    names = Names()
    for name in known:
        names.code(_bytes_of(name))
    slots, *more = (_whole(rows[name], name) if name in fields else None for name in ("slot", "index", "place"))
    assert slots is not None
    return Record(slots, codes.ravel().astype(np.int64), names.all(), *more)


def _whole(column: Any, name: str) -> Numbers:
    if (
        column.dtype.kind not in ("u", "i")
        or len(column)
        and not 0 <= int(column.min()) <= int(column.max()) <= _LARGEST
    ):
        raise ValueError(f"the field {name!r} has other values than whole numbers from 0 on")
    whole: Numbers = column.astype(np.int64)
    return whole


def _of_rows(rows: Iterable[Sequence[Any]]) -> Record:
    names, read = Names(), []
    for place, row in enumerate(rows, 1):
        try:
            slot, task, *more = row
            numbers = [_number_of(value) for value in (slot, *more[:2])]
            read.append((numbers[0], names.code(_bytes_of(task)), *numbers[1:]))
        except (TypeError, ValueError) as refused:
            raise ValueError(f"row {place}: {refused}") from None
        if len(read[-1]) != len(read[0]):
            raise ValueError(f"row {place}: it has {len(read[-1])} columns, and the first row {len(read[0])}")
    columns = [np.array(column, np.int64) for column in zip(*read)] or [np.zeros(0, np.int64)] * 2
    return Record(columns[0], columns[1], names.all(), *[*columns[2:], None, None][:2])


def _number_of(value: Any) -> int:
    """Returns the whole number that a value is or spells."""
    text = value.strip() if isinstance(value, str) else format(value)
    if not (text.isascii() and text.isdigit()) or int(text) > _LARGEST:
        raise ValueError(f"{value!r} is no whole number from 0 on")
    return int(text)


# ---- texts


class _Header:
    """The first line of a text: how columns are separated, and which of them are read."""

    def __init__(self, line: bytes) -> None:
        text = line.decode("utf-8-sig", errors="replace").rstrip("\r\n")
        self.separator = next((one for one in ",;\t" if one in text), ",")
        try:
            words: list[str] = next(csv.reader([text], delimiter=self.separator, skipinitialspace=True))
        except csv.Error as refused:
            raise ValueError(f"line 1: {refused}") from None
        columns = [word.strip().lower() for word in words]
        self.width = len(columns)
        if missing := [name for name in _COLUMNS[:2] if name not in columns]:
            raise ValueError(f"line 1: the header has no column {missing[0]!r}: {text[:80]!r}")
        self.columns = {name: columns.index(name) for name in _COLUMNS if name in columns}


def _of_text(file: Union[IO[bytes], IO[str]]) -> Record:
    header, names, line = _Header(_bytes_of(file.readline())), Names(), 2
    parts: list[dict[str, Numbers]] = []
    for piece in _pieces(file):
        lines = piece.count(b"\n")
        parts.append(_quick(piece, lines, header, names) or _slow(piece, line, header, names))
        line += lines
    columns = {
        name: np.concatenate([part.pop(name) for part in parts] or [np.zeros(0, np.int64)]) for name in header.columns
    }
    return Record(columns["slot"], columns["task"], names.all(), columns.get("index"), columns.get("place"))


def _pieces(file: Union[IO[bytes], IO[str]]) -> Iterator[bytes]:
    """Yields whole lines, some megabytes at once, each with a newline at its end."""
    rest = b""
    while read := file.read(_AT_ONCE):
        piece = _bytes_of(read)
        lines, newline, after = piece.rpartition(b"\n")
        if newline:
            yield (rest + lines + newline).replace(b"\r\n", b"\n")
        rest = after if newline else rest + after
    if rest:
        yield rest + b"\n"


def _quick(piece: bytes, lines: int, header: _Header, names: Names) -> Optional[dict[str, Numbers]]:
    """Reads lines of plain numbers and names, as the programs write them; None if another is among them."""
    text = np.frombuffer(bytes(8) + piece + bytes(16), np.uint8)
    ends = np.flatnonzero((text == ord(header.separator)) | (text == ord("\n")))
    if (
        b"\0" in piece
        or len(ends) != lines * header.width
        or (text[ends[header.width - 1 :: header.width]] != ord("\n")).any()
    ):
        return None
    words: Words = np.ndarray((len(text) - 7,), "<u8", text, strides=(1,))
    starts = np.concatenate([[8], ends[:-1] + 1])
    read = {}
    for name, place in header.columns.items():
        start, stop = starts[place :: header.width], ends[place :: header.width]
        column = _codes(words, start, stop, names) if name == "task" else _numbers(words, start, stop)
        if column is None:
            return None
        read[name] = column
    return read


def _numbers(words: Words, start: Numbers, stop: Numbers) -> Optional[Numbers]:
    """Returns the numbers between these places, each of its digits at once; None if one isn't 1 to 8 digits."""
    length = stop - start
    if length.min() < 1 or length.max() > 8:
        return None
    kept = _LAST[length]
    word = (words[stop - 8] & kept) | (_ZEROS & ~kept)
    if (((word & _DIGIT) ^ _ZEROS) | (((word + np.uint64(0x0606060606060606)) & _DIGIT) ^ _ZEROS)).any():
        return None
    word ^= _ZEROS
    for factor, shift, mask in ((10, 8, 0x00FF00FF00FF00FF), (100, 16, 0x0000FFFF0000FFFF), (10_000, 32, 0xFFFFFFFF)):
        word = (word * np.uint64(factor) + (word >> np.uint64(shift))) & np.uint64(mask)
    numbers: Numbers = word.astype(np.int64)
    return numbers


def _codes(words: Words, start: Numbers, stop: Numbers, names: Names) -> Optional[Numbers]:
    """Returns the numbers of the names between these places; None if any is no name."""
    length = stop - start
    if length.min() < 1 or length.max() > 16:
        return None
    both = np.stack(
        (words[start] & _FIRST[np.minimum(length, 8)], words[start + 8] & _FIRST[np.maximum(length - 8, 0)]), axis=1
    )
    codes, known = numbered(both.view("S16").ravel())
    try:
        return np.array([names.code(name) for name in known], np.int64)[codes]
    except ValueError:
        return None


def _slow(piece: bytes, first: int, header: _Header, names: Names) -> dict[str, Numbers]:
    """Reads lines one by one, with quotes and blanks, and refuses the first that is wrong, by its number."""
    rows: list[list[int]] = []
    # the reader passes over blanks before a quoted field, and not behind it
    text = re.sub(f'" +(?=[{header.separator}\n])', '"', piece.decode(errors="replace"))
    reader = csv.reader(io.StringIO(text), delimiter=header.separator, skipinitialspace=True, strict=True)
    try:
        for row in reader:
            if not any(field.strip() for field in row):
                continue
            if len(row) != header.width:
                raise ValueError(f"it has {len(row)} columns, and the header {header.width}")
            read = {name: row[place].strip() for name, place in header.columns.items()}
            rows.append(
                [names.code(text.encode()) if name == "task" else _number_of(text) for name, text in read.items()]
            )
    except (ValueError, csv.Error) as refused:
        raise ValueError(f"line {first + reader.line_num - 1}: {refused}") from None
    columns = np.array(rows, np.int64).reshape(-1, len(header.columns))
    return {name: columns[:, place] for place, name in enumerate(header.columns)}
