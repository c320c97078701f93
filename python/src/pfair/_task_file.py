"""Task files, as the programs read them."""
from __future__ import annotations

import os
from typing import Union

from ._dispatcher import LONGEST_FILE, Dispatcher
from ._entries import Entry, Script, promise


def read_task_file(file: Union[str, "os.PathLike[str]", bytes]) -> Script:
    """Reads a task file as the programs do.

    Parameters
    ----------
    file : str, os.PathLike or bytes
        Its path, or its contents as bytes.

    Returns
    -------
    Script
        Without the closing entry of a log, `promise(slots)`, which `Script.closed` puts there.

    Raises
    ------
    TaskFileError
        One of its subclasses, for the first fault of the file.
    OutOfMemory
        If an allocation fails.
    OSError
        If the file can't be read.

    Notes
    -----
    O(b) for b bytes, for each entry the cost of `Dispatcher.take`, and for each number up to the length of the longest
    log a look-up in each log.
    """
    if isinstance(file, bytes):
        text = file
    else:
        with open(file, "rb") as opened:
            text = opened.read(LONGEST_FILE + 1)
    with Dispatcher.of_file(text) as dispatcher:
        logs = [_log_of(dispatcher, processor) for processor in range(dispatcher.processors)]
        return Script(dispatcher.processors, dispatcher.frame, dispatcher.slots, logs)


def _log_of(dispatcher: Dispatcher, processor: int) -> list[Entry]:
    """Returns the entries of a log, without the promise that closes it."""
    held = (dispatcher.held(processor, number) for number in range(1, dispatcher.capacity + 1))
    log = [entry for entry in held if entry is not None]
    return log[:-1] if log[-1] == promise(dispatcher.slots) else log
