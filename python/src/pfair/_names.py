"""Numbers for the names in an array."""
from __future__ import annotations

import numpy as np
import numpy.typing as npt

# by which names are put into boxes: factors of their words, and which bits of the sum number the box
_BOXES = 1 << 16
_MIXED = np.array([0x9E3779B97F4A7C15, 0xC2B2AE3D27D4EB4F, 48], np.uint64)


def numbered(names: npt.NDArray[np.bytes_]) -> tuple[npt.NDArray[np.int64], list[bytes]]:
    """Returns a number from 0 for each name, and the names by number; names are compared as two words, for speed."""
    words = np.ascontiguousarray(names).view(np.uint64).reshape(-1, 2)
    boxes = (words[:, 0] * _MIXED[0] + words[:, 1] * _MIXED[1]) >> _MIXED[2]
    last = np.zeros(_BOXES, np.int64)
    last[boxes] = np.arange(len(boxes))
    if (words[last[boxes]] != words).any():
        return _sorted(names, words)
    # each box has one name
    used = np.zeros(_BOXES, np.bool_)
    used[boxes] = True
    return (np.cumsum(used) - 1)[boxes], [bytes(names[at]) for at in last[used]]


def _sorted(names: npt.NDArray[np.bytes_], words: npt.NDArray[np.uint64]) -> tuple[npt.NDArray[np.int64], list[bytes]]:
    head, heads = np.unique(words[:, 0], return_inverse=True)
    tail, tails = np.unique(words[:, 1], return_inverse=True)
    both = heads if len(tail) <= 1 else heads * len(tail) + tails
    _, first, codes = np.unique(both, return_index=True, return_inverse=True)
    return codes.reshape(-1), [bytes(names[at]) for at in first]
