"""The rows that the program `pfair` prints of a task file, as a source of pictures and traces."""
from __future__ import annotations

import importlib
import itertools
import os
import shutil
import subprocess
import tempfile
from typing import Any, Iterator, Union

from ._rows import Decision, PictureRows
from ._trace import Decided, Lag, Quantum, quanta_of, words_of


# the faults of the program that are found here too, each with its text and its exit status
FAULTS = {
    60: ("not TOML", 2), 70: ("reading failed", 5), 71: ("writing failed", 5), 80: ("command line refused", 1),
    90: ("out of memory", 4),
}


class Refused(Exception):
    """A refusal, as by the program: the number and text of its fault, and its exit status."""

    def __init__(self, text: str, status: int) -> None:
        super().__init__(text)
        self.status = status

    @classmethod
    def by(cls, number: int, why: str = "") -> "Refused":
        """Returns the refusal by a fault of FAULTS."""
        text, status = FAULTS[number]
        return cls(f"{number} {text}{': ' if why else ''}{why}", status)


class Program(PictureRows):
    """A task file, its decisions, and the rows of its slots, read as the program prints them."""

    def __init__(self, path: Union[str, "os.PathLike[str]"], program: Union[str, "os.PathLike[str]"]) -> None:
        self.path, self.program = os.fspath(path), os.fspath(program)
        if os.path.exists(path) and not os.path.isfile(path) and not os.path.isdir(path):
            self.keep_pipe()
        # the program reads the file first, so that it reports what is wrong there
        rows = list(self.rows("decisions"))
        read = tables_of(self.path)
        self.processors, self.frame, self.slots = read["processors"], read["frame"], read["slots"]
        logs: dict[int, list[dict[str, Any]]] = {}
        for table in read.get("entry", []):
            logs.setdefault(table["processor"], []).append(table)
        self.told: list[Decision] = []
        self.keys: list[tuple[int, int]] = []
        for slot, processor, number, task, outcome, value in rows:
            key = int(processor), int(number)
            self.keys.append(key)
            entry = logs[key[0]][key[1] - 1]
            self.told.append(Decision(int(slot), task, outcome, 0 if value == "-" else int(value), entry))

    def keep_pipe(self) -> None:
        """Copies a pipe's contents to a file, since each command reads them anew."""
        self.kept = tempfile.NamedTemporaryFile()
        with open(self.path, "rb") as pipe:
            shutil.copyfileobj(pipe, self.kept)
        self.kept.flush()
        self.path = self.kept.name

    def rows(self, *command: str) -> Iterator[list[str]]:
        """Yields the rows of a command, without their header."""
        words = [self.program, *command, self.path]
        complaint = tempfile.TemporaryFile("w+", errors="replace")
        try:
            none, pipe = subprocess.DEVNULL, subprocess.PIPE
            made = subprocess.Popen(words, stdin=none, stdout=pipe, stderr=complaint, errors="replace")
        except OSError:
            raise Refused.by(70, f"the program {self.program} can't be run") from None
        with made as running, complaint:
            assert running.stdout
            try:
                for line in itertools.islice(running.stdout, 1, None):
                    yield line.rstrip("\n").split(",")
                status = running.wait()
                complaint.seek(0)
                said = complaint.read().strip().rpartition("\n")[2]
            finally:
                # the reader may end before the rows do
                running.kill()
        if status:
            raise Refused(said.partition(": ")[2] or f"{self.program} ended with status {status}", status)

    def decided(self) -> list[Decision]:
        return self.told

    def names(self) -> list[str]:
        return list(dict.fromkeys(row.task for row in self.told if row.outcome == "admitted"))

    def decisions(self) -> Iterator[Decided]:
        for (processor, number), (slot, task, outcome, value, entry) in zip(self.keys, self.told):
            text = words_of(entry["kind"], task, outcome, value, entry)
            yield Decided(slot, processor, number, task, text)

    def quanta(self) -> Iterator[Quantum]:
        rows = self.rows("replay", "--affinity")
        quanta = ((int(slot), int(place), task, int(index)) for slot, _, task, index, place in rows)
        return quanta_of(quanta, ((row.slot, row.task, row.outcome, row.entry) for row in self.told))

    def lags(self, start: int = 0) -> Iterator[Lag]:
        for row in self.rows("lags"):
            time = int(row[0])
            if time > start:
                yield Lag(time, row[1], int(row[2]), int(row[3]))


def tables_of(path: str) -> Any:
    """Reads a task file by Python's TOML reader, which comes with Python 3.11."""
    for name in ("tomllib", "tomli"):
        try:
            reader = importlib.import_module(name)
            break
        except ModuleNotFoundError:
            pass
    else:
        raise Refused.by(70, "Python 3.11 is needed, or Python's module tomli")
    try:
        with open(path, "rb") as file:
            return reader.load(file)
    except ValueError:
        raise Refused.by(60) from None
