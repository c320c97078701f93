"""The command that draws pictures: `pfair_picture`, or `python3 -m pfair.draw`.

It draws a task file's schedule or lags by the rows of the program `pfair`, or of the library if no program is given.
"""
from __future__ import annotations

import argparse
import functools
import os
import pathlib
import re
import shutil
import subprocess
import sys
import tempfile
from typing import NoReturn, Optional

from . import picture
from ._program import Program, Refused
from ._rows import PictureRows
from ._version import VERSION

NAME = "pfair_picture"
USAGE = """pfair_picture schedule|lags [--html|--png|--pdf] [--slots A..B] [--title TEXT]
                     [--no-legend] [-o OUT] FILE"""
DESCRIPTION = """Draws a task file: its schedule, or the lags of its tasks. Writes SVG to standard output.

  schedule  a row for each task, in the order in which they are first named: windows as outlined
            bars, each quantum in the colour of the processor that runs it with the index of its
            subtask, and what was decided; below, a row for each processor
  lags      a row for each task that was admitted: how far it is from its fluid share, with the
            bounds of -1 and 1
  FILE      task file, as `pfair replay --help` describes it"""
EPILOG = """FILE FROM TO, without --slots, asks for the slots FROM to TO - 1 too.

Examples:
  pfair_picture schedule examples/two_processors.toml >schedule.svg
  pfair_picture schedule --html -o schedule.html examples/two_processors.toml
  pfair_picture lags --slots 1000..1048 long.toml >lags.svg

A fault is one line on standard error, `pfair_picture: NUMBER TEXT`, with the numbers of `pfair`.
Nothing is written to OUT then; only a writer that fails (71) may have taken the beginning.

Exit status, by the numbers of the faults:
  0  done
  1  refused: the command line (80), or slots that no picture shows (81): A isn't below B, B is
     past the slots of the file, or they are more than 4096
  2  refused: the task file (60 to 66)
  3  its logs settle too few slots (52)
  4  out of memory (90)
  5  reading or writing failed (70, 71)"""


class Parser(argparse.ArgumentParser):
    def error(self, message: str) -> NoReturn:
        # FROM and TO may be left out
        raise Refused.by(80, message.replace(", FROM TO", ""))


def slots_of(text: str) -> tuple[int, int]:
    found = re.fullmatch(r"(\d+)\.\.(\d+)", text, re.ASCII)
    if not found:
        raise argparse.ArgumentTypeError(f"'{text}' is not A..B, the slots A to B - 1")
    return int(found[1]), int(found[2])


def number(text: str) -> int:
    if not re.fullmatch(r"\+?\d+", text, re.ASCII):
        raise argparse.ArgumentTypeError(f"'{text}' is no slot")
    return int(text)


def title(text: str) -> str:
    try:
        text.encode()
    except UnicodeEncodeError:
        raise argparse.ArgumentTypeError(f"{text!r} is no text") from None
    return text


def words_of(argv: Optional[list[str]]) -> argparse.Namespace:
    """Returns the options of the command line."""
    layout = functools.partial(argparse.RawDescriptionHelpFormatter, width=100)
    parser = Parser(NAME, USAGE, DESCRIPTION, EPILOG, formatter_class=layout, allow_abbrev=False, add_help=False)
    parser.add_argument("picture", choices=picture.PICTURES, help=argparse.SUPPRESS)
    parser.add_argument("file", metavar="FILE", help=argparse.SUPPRESS)
    parser.add_argument("range", metavar="FROM TO", nargs="*", type=number, help=argparse.SUPPRESS)
    forms = parser.add_mutually_exclusive_group()
    forms.add_argument(
        "--html", dest="format", action="store_const", const="html",
        help="a page around the picture: one HTML file with no outside parts, to zoom, move and point at in a browser, "
        "with names and times in sight",
    )
    for format in ("png", "pdf"):
        said = f"the picture in {format.upper()}, if the command rsvg-convert or Python's matplotlib is here"
        forms.add_argument(f"--{format}", dest="format", action="store_const", const=format, help=said)
    said = "the title, in place of the usual one and the line below it; no title if TEXT is empty"
    parser.add_argument("--title", type=title, metavar="TEXT", help=said)
    said = "no key below the picture, for a paper"
    parser.add_argument("--no-legend", dest="legend", action="store_false", help=said)
    said = "the slots A to B - 1, at most 4096; without it all slots of the file"
    parser.add_argument("--slots", type=slots_of, metavar="A..B", help=said)
    parser.add_argument("-o", dest="out", help="a file to write, in place of standard output")
    parser.add_argument("--program", help="the program pfair, if it isn't the one beside this command or on the path")
    parser.add_argument("--help", "-h", action="help", help="this text")
    parser.add_argument("--version", action="version", version=f"{NAME} {VERSION}", help="the version")
    words = parser.parse_intermixed_args(argv)
    if len(words.range) not in (0, 2) or (words.range and words.slots):
        parser.error("slots are asked for by --slots A..B, or by FROM TO behind the file")
    if words.range:
        words.slots = words.range
    return words


def source_of(file: str, program: Optional[str]) -> PictureRows:
    """Returns the rows of a task file, from the program or from the library."""
    if program is not None:
        return Program(file, program)
    from .errors import PfairError, Stalled, TaskFileError
    from ._schedule import Schedule
    from ._source import ScheduleSource
    from ._task_file import read_task_file

    try:
        return ScheduleSource(Schedule(read_task_file(file)))
    except PfairError as fault:
        status = 2 if isinstance(fault, TaskFileError) else 3 if isinstance(fault, Stalled) else 4
        raise Refused(f"{fault.number} {fault}", status) from None


def drawn(words: argparse.Namespace, source: PictureRows) -> bytes:
    """Returns the bytes of the picture."""
    start, stop = words.slots or (0, source.slots)
    if refused := picture.refusal(start, stop, source.slots):
        raise Refused(f"81 {refused}", 1)
    svg = picture.svg(source, words.picture, start, stop, words.title, words.legend)
    if words.format == "html":
        return picture.page(svg).encode()
    return converted(svg, words.format) if words.format else svg.encode()


def converted(svg: str, format: str) -> bytes:
    """Returns a picture in another format."""
    if shutil.which("rsvg-convert"):
        words = ["rsvg-convert", "--unlimited", "--format", format, *(["--zoom", "2"] if format == "png" else [])]
        done = subprocess.run(words, input=svg.encode(), stdout=subprocess.PIPE, stderr=subprocess.PIPE)
        if done.returncode:
            raise Refused.by(71, f"rsvg-convert: {done.stderr.decode(errors='replace').strip()[:200]!r}")
        return done.stdout
    try:
        from ._plot import file_of
    except ImportError:
        raise Refused.by(80, f"--{format} needs the command rsvg-convert or Python's matplotlib") from None
    return file_of(svg, format)


def write(content: bytes, out: Optional[str]) -> None:
    """Writes the whole content, or leaves a file as it was."""
    if out is None:
        with open(1, "wb", closefd=False) as stdout:
            stdout.write(content)
        return
    target = pathlib.Path(out)
    if target.exists() and not target.is_file():
        target.write_bytes(content)
        return
    # a link stays, and what it names is written
    target = pathlib.Path(os.path.realpath(out))
    with tempfile.NamedTemporaryFile(dir=target.parent, delete=False) as made:
        try:
            made.write(content)
            made.flush()
            os.chmod(made.name, target.stat().st_mode if target.exists() else 0o666 & ~umask())
            os.replace(made.name, target)
        except BaseException:
            os.unlink(made.name)
            raise


def umask() -> int:
    mask = os.umask(0)
    os.umask(mask)
    return mask


def draw(argv: Optional[list[str]], program: Optional[str]) -> None:
    words = words_of(argv)
    try:
        source = source_of(words.file, words.program or program)
        content = drawn(words, source)
    except OSError:
        raise Refused.by(70) from None
    try:
        write(content, words.out)
    except OSError:
        raise Refused.by(71) from None


def main(argv: Optional[list[str]] = None, program: Optional[str] = None) -> int:
    """Runs the command and returns its exit status.

    Parameters
    ----------
    argv : list of str, optional
        The words behind the command's name; by default those of the process.
    program : str, optional
        The program `pfair` whose rows are drawn, unless the command line names one; by default the library is used.

    Returns
    -------
    int
        0 if the picture is written, 1 to 5 for a fault, which is reported on standard error, or 130 after an interrupt.

    Raises
    ------
    SystemExit
        After `--help` or `--version`.
    """
    try:
        draw(argv, program)
    except Refused as refused:
        fault = refused
    except MemoryError:
        fault = Refused.by(90)
    except KeyboardInterrupt:
        return 130
    else:
        return 0
    os.write(2, f"{NAME}: {fault}\n".encode(errors="backslashreplace"))
    return fault.status


if __name__ == "__main__":
    sys.exit(main())
