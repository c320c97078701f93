"""The shared library: its structs as ctypes and numpy see them, and its calls."""
from __future__ import annotations

import ctypes as c
import os
import pathlib
from typing import Any

import numpy as np

from ._version import VERSION


class Handle(c.Structure):
    _fields_ = [("is_open", c.c_bool), ("at", c.c_void_p)]


class Step(c.Structure):
    _fields_ = [("kind", c.c_uint64), ("slot", c.c_uint64), ("processor", c.c_uint64), ("number", c.c_uint64)]


class Settings(c.Structure):
    _fields_ = [("processors", c.c_uint64), ("frame", c.c_uint64), ("slots", c.c_uint64), ("capacity", c.c_uint64)]


class TakenLog(c.Structure):
    _fields_ = [("taken", c.c_uint64), ("fresh", c.c_uint64), ("known", c.c_uint64), ("torn", c.c_uint64)]


class Miss(c.Structure):
    _fields_ = [("kind", c.c_uint64), ("index", c.c_uint64), ("slot", c.c_uint64)]


class FileFault(c.Structure):
    _fields_ = [(name, c.c_uint64) for name in ("place", "field", "processor", "number", "cause")]


class StateFault(c.Structure):
    _fields_ = [("line", c.c_uint64), ("cause", c.c_uint64)]


# Arrays have the layout of the library's structs. A name is 16 bytes and its length, which users don't see: zeros
# follow a name, and none is in it.
_NAME, _NUMBER = ("S16", 24), ("u8", 8)


def _rows(**fields: tuple[str, int]) -> np.dtype[Any]:
    """Returns the dtype of these fields, each with its format and its size in bytes."""
    offsets, end = [], 0
    for _, size in fields.values():
        offsets.append(end)
        end += size
    formats = [kind for kind, _ in fields.values()]
    return np.dtype({"names": list(fields), "formats": formats, "offsets": offsets, "itemsize": end})


#: The window of a subtask, from slot `release` to before slot `deadline`; `b_bit` 0 or 1; `group_deadline` a slot, or 0
#: for a weight below 1/2.
WINDOW = _rows(release=_NUMBER, deadline=_NUMBER, b_bit=_NUMBER, group_deadline=_NUMBER)
#: A quantum: `row` its row in the slot's table, in PD2 order, and `place` the processor that runs it, both from 0;
#: `index` its subtask, from 1.
QUANTUM = _rows(slot=_NUMBER, row=_NUMBER, place=_NUMBER, task=_NAME, index=_NUMBER)
#: A decision on the announcement of entry `number` of the log of `processor`, at the boundary of `slot`: `outcome` as
#: in OUTCOMES; `freed_at` for a departure the slot from which the task's weight and name are free, else 0.
DECISION = _rows(slot=_NUMBER, task=_NAME, processor=_NUMBER, number=_NUMBER, outcome=_NUMBER, freed_at=_NUMBER)
#: The outcomes of decisions by their numbers in DECISION; those from 20 on are refusals.
OUTCOMES = {
    0: "admitted", 1: "departing", 2: "delayed", 20: "name taken", 21: "period outside frame", 22: "no room",
    23: "no such task", 24: "already departing", 25: "already released",
}
#: A lag: of the task at a time (the end of slot `time` - 1), in quanta: numerator/period.
LAG = _rows(time=_NUMBER, task=_NAME, numerator=("i8", 8), period=_NUMBER)
#: A member, a task that was admitted and isn't freed, of weight cost/period: `early` 0 or 1; `joined` the slot in which
#: it was admitted; `next` its next subtask, from 1; `theta` the offset of that one's window, in slots; `is_departing` 0
#: or 1; `freed_at` as in DECISION; `lag` its lag as a numerator over its period.
MEMBER = _rows(
    task=_NAME, cost=_NUMBER, period=_NUMBER, early=_NUMBER, joined=_NUMBER, next=_NUMBER, theta=_NUMBER,
    is_departing=_NUMBER, freed_at=_NUMBER, lag=("i8", 8),
)
#: An entry as the library reads it: `kind` 0 for no announcement, 1 for an arrival, 2 for a departure, 3 for a late
#: release; `name` with zeros behind it, and `length` its length; the rest as in `Entry`.
ENTRY = _rows(
    floor=_NUMBER, kind=_NUMBER, at=_NUMBER, name=("S16", 16), length=_NUMBER, cost=_NUMBER, period=_NUMBER,
    early=_NUMBER, index=_NUMBER, by=_NUMBER,
)
KEY = _rows(processor=_NUMBER, number=_NUMBER)

library = c.CDLL(os.environ.get("PFAIR_LIBRARY") or str(pathlib.Path(__file__).with_name("libpfair.so")))

_handle, _u8, _u32, _u64, _size, _array = c.POINTER(Handle), c.c_uint8, c.c_uint32, c.c_uint64, c.c_size_t, c.c_void_p
_number, _step = c.POINTER(c.c_uint64), c.POINTER(Step)
_CALLS: dict[str, list[Any]] = {
    "pfair_version": [],
    "pfair_windows": [_u64, _u64, _u64, _u64, _u64, _array, _size],
    "pfair_first_miss": [_u64, _u64, _u64, c.POINTER(Miss), _number, _array, _size],
    "pfair_first_late": [_u64, _u64, _u64, c.POINTER(Miss), _number, _array, _size],
    "pfair_open": [_handle, _u8, _u64, _u64, _u32],
    "pfair_read_file": [_handle, c.POINTER(FileFault), c.c_char_p, _size],
    "pfair_close": [_handle],
    "pfair_settings": [_handle, c.POINTER(Settings)],
    "pfair_take": [_handle, _u8, _u32, _array, _number],
    "pfair_take_log": [_handle, _u8, _u32, c.POINTER(TakenLog), _array, _size],
    "pfair_absorb": [_handle, _handle],
    "pfair_held": [_handle, _u8, _u32, _number, _array],
    "pfair_mark": [_handle, _u8, _number, _number],
    "pfair_missing": [_handle, _u8, _number],
    "pfair_faults": [_handle, _number, _number, _array, _size],
    "pfair_below": [_handle, _handle, _number],
    "pfair_plan_to": [_handle, _u64, _step],
    "pfair_reserve": [_handle, _u64, _u64],
    "pfair_forget": [_handle, _u64],
    "pfair_reopen": [_handle],
    "pfair_next_run": [_handle, _u64],
    "pfair_frontier": [_handle, _number],
    "pfair_next_slot": [_handle, _number],
    "pfair_quanta": [_handle, _u64, _u64, _number, _array, _size],
    "pfair_decisions": [_handle, _u64, _u64, _number, _array, _size],
    "pfair_lags": [_handle, _u64, _u64, _number, _array, _size],
    "pfair_members": [_handle, _number, _array, _size],
    "pfair_state": [_handle, _number, _array, _size],
    "pfair_resume": [_handle, _u64, _u32, c.POINTER(StateFault), c.c_char_p, _size],
}
for _call, _types in _CALLS.items():
    getattr(library, _call).argtypes = _types
    getattr(library, _call).restype = _u32

_parts = [int(part) for part in VERSION.split(".")]
if library.pfair_version() != 10_000 * _parts[0] + 100 * _parts[1] + _parts[2]:
    raise ImportError(f"the shared library has version number {library.pfair_version()}, and this package is {VERSION}")
