#!/usr/bin/env python3
"""Runs `rt ci`, then each test script on the programs that it built, and ends with the worse status and one line.

usage: tools/gate.py [--scripts] FOLDER|SCRIPT ..

`rt ci` proves each crate, tries the must-fail edits, and runs tests and programs. It has no word for a script that runs a built
program or reads the documents. Such a script is an executable file of a folder, and passes where it ends with status 0; as many
run side by side as there are processors. With --scripts `rt ci` is left out. RT is the command to call in place of `rt`.
"""
import os
import pathlib
import re
import shlex
import subprocess
import sys
import time
from collections.abc import Iterable
from concurrent.futures import ThreadPoolExecutor

RT = shlex.split(os.environ.get("RT", "rt"))


def of_rt() -> tuple[int, int, int]:
    """The status of `rt ci`, and how much passed and failed in it."""
    last = ""
    with subprocess.Popen([*RT, "ci"], stdin=subprocess.DEVNULL, stdout=subprocess.PIPE, text=True) as running:
        for last in running.stdout or ():
            print(last, end="", flush=True)
    told = re.match(r"(\d+) passed, (\d+) failed", last)
    return (running.returncode, int(told[1]), int(told[2])) if told else (running.returncode or 1, 0, 1)


def scripts(places: Iterable[str]) -> list[pathlib.Path]:
    """The executable files that these places are, or hold."""
    held = [sorted(it.iterdir()) if it.is_dir() else [it] for it in map(pathlib.Path, places)]
    return [it.resolve() for paths in held for it in paths if it.is_file() and os.access(it, os.X_OK)]


def passes(script: pathlib.Path) -> tuple[bool, list[str]]:
    """Runs a script to its end, prints what it told, and gives whether it passed, and its lines on what it did not run."""
    began = time.monotonic()
    ran = subprocess.run([script], stdin=subprocess.DEVNULL, stdout=subprocess.PIPE, stderr=subprocess.STDOUT, check=False)
    verdict = "passed" if ran.returncode == 0 else f"FAILED with status {ran.returncode}"
    told = ran.stdout.decode(errors="replace")
    print(f"== {os.path.relpath(script)}: {verdict} in {time.monotonic() - began:.0f} seconds\n{told}", end="", flush=True)
    return ran.returncode == 0, [line for line in told.splitlines() if line.startswith("not run: ")]


def main() -> int:
    status, passed, failed = (0, 0, 0) if "--scripts" in sys.argv else of_rt()
    with ThreadPoolExecutor(len(os.sched_getaffinity(0))) as threads:
        ends = [*threads.map(passes, scripts(it for it in sys.argv[1:] if it != "--scripts"))]
    passed, failed = passed + sum(well for well, _ in ends), failed + sum(not well for well, _ in ends)
    print(*(line for _, lines in ends for line in lines), f"{passed} passed, {failed} failed", sep="\n")
    return max(status, int(failed > 0 or not passed))


if __name__ == "__main__":
    sys.exit(main())
