"""Runs every command of a page, and compares what it writes with what the page shows.

usage: check_tutorial.py PROGRAM PAGE...

Commands stand in blocks marked `console`, each after `$ `, with further lines after `> `; what follows is their output,
in which a line `...` stands for any lines. They are run by one shell, in order, at the root of the repository, with
PROGRAM as `srm_lab`. Ends with status 1 at the first page with a difference.
"""
import os
import re
import subprocess
import sys
import tempfile
from collections.abc import Iterator
from pathlib import Path

import matplotlib.font_manager  # makes the list of fonts where there is none yet, which Matplotlib tells of if it takes long

ROOT = Path(__file__).resolve().parents[1]


def commands_of(page: str) -> list[tuple[str, list[str]]]:
    """Each command of a page's console blocks, with its output."""
    found: list[tuple[list[str], list[str]]] = []
    for block in re.findall(r"^```console\n(.*?)^```$", page, re.MULTILINE | re.DOTALL):
        for line in block.splitlines():
            if line.startswith("$ "):
                found.append(([line[2:]], []))
            elif line.startswith("> ") or line == ">":
                found[-1][0].append(line[2:])
            else:
                found[-1][1].append(line)
    return [("\n".join(command), output) for command, output in found]


def fits(got: list[str], wanted: list[str]) -> bool:
    """Whether lines are the wanted ones, where `...` is any lines."""
    if not wanted:
        return not got
    if wanted[0] == "...":
        return any(fits(got[start:], wanted[1:]) for start in range(len(got) + 1))
    return bool(got) and got[0] == wanted[0] and fits(got[1:], wanted[1:])


def run(commands: list[tuple[str, list[str]]], program: Path) -> Iterator[tuple[str, int | None]]:
    """What each command writes, and its status, from one shell."""
    with tempfile.TemporaryDirectory() as directory:
        place = Path(directory)
        # the page puts its own directories in front of the path; a function stands before all, and SRM_LAB for Python
        script = [f'srm_lab() {{ "{program}" "$@"; }}']
        for number, (command, _) in enumerate(commands):
            script.append(f"{{ {command}\n}} > {place}/{number}.out 2>&1; echo $? > {place}/{number}.status")
        environment = {**os.environ, "SRM_LAB": str(program), "TMPDIR": str(place), "XDG_CACHE_HOME": str(place),
                       "MPLCONFIGDIR": matplotlib.get_cachedir()}
        subprocess.run(["bash", "-c", "\n".join(script)], cwd=ROOT, env=environment, check=False)
        for number in range(len(commands)):
            status = place / f"{number}.status"
            yield (place / f"{number}.out").read_text(), int(status.read_text()) if status.exists() else None


def check(path: str | Path, program: Path) -> int:
    """How many commands of a page do otherwise than it says."""
    commands = commands_of(Path(path).read_text())
    wrong = 0
    for (command, wanted), (got, status) in zip(commands, run(commands, program)):
        if status != 0 or not fits(got.splitlines(), wanted):
            wrong += 1
            print(f"{path}: status {status}: {command}", "--- the page", *wanted, "--- the run", f"{got}---", sep="\n")
    print(f"{path}: {len(commands)} commands, {wrong} otherwise than it says")
    return wrong


def main(program: str, *pages: str) -> int:
    return 1 if any([check(page, Path(program).resolve()) for page in pages]) else 0


if __name__ == "__main__":
    sys.exit(main(*sys.argv[1:]))
