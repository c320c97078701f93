"""What the measurements here share: processor time, and a program that stands on the library's crates without being one of them."""
import resource
import shutil
import subprocess
from pathlib import Path

BENCH = Path(__file__).resolve().parent
TOP = BENCH.parent


def processor_time():
    """Seconds of processor time of all commands that have ended."""
    used = resource.getrusage(resource.RUSAGE_CHILDREN)
    return used.ru_utime + used.ru_stime


def workspace_lines():
    """Each crate's line of the workspace, and the crates of the workspace that it stands on."""
    lines = {}
    for line in (TOP / "crates.txt").read_text().splitlines():
        head, colon, libraries = line.split("#")[0].partition(":")
        if colon:
            lines[head.split()[0]] = (line, libraries.split())
    return lines


def program_beside(folder, name, stands_on, sources):
    """Proves and builds a program in a copy of the tree: its name, the crates that it stands on, and its files by their names in
    src/. Its sources stand here as texts, since the gate proves each source that it finds. Gives the built program."""
    lines, crates, todo = workspace_lines(), set(), list(stands_on)
    while todo:
        crate = todo.pop()
        if crate in lines and crate not in crates:
            crates.add(crate)
            todo.extend(lines[crate][1])
    copy = folder / name
    for crate in crates:
        shutil.copytree(TOP / "crates" / crate, copy / "crates" / crate, ignore=shutil.ignore_patterns("must-fail", "mutants"))
    (copy / "crates" / name / "src").mkdir(parents=True)
    for target, source in sources.items():
        shutil.copy(source, copy / "crates" / name / "src" / target)
    (copy / "crates.txt").write_text("".join(f"{lines[crate][0]}\n" for crate in sorted(crates)) + f"{name}: {' '.join(stands_on)}\n")
    shutil.copy(TOP / "HANDLES", copy)
    subprocess.run(["rt", "run"], cwd=copy / "crates" / name, check=True, stdout=subprocess.DEVNULL, stderr=subprocess.DEVNULL)
    return copy / "crates" / name / "out" / name
