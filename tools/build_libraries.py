#!/usr/bin/env python3
"""Proves and builds the libraries below a program side by side, where `rt run` builds one after the other.

usage: tools/build_libraries.py FOLDER JOBS

FOLDER is the program's crate. Two libraries are built at a time, by JOBS jobs each, since one process alone does a library's
first and last steps; only one, where JOBS is 1. A library begins once those that it uses are built, and first come those on the
longest way to the program. Each is built as `rt lib` builds it, by the toolchain's own rtlib.py: so it is `rt` that locks the
crates, that keeps in out/ what the next check begins with, and that ends all that was started at Ctrl-C. RT is the command to
call in place of `rt`.
"""
import graphlib
import importlib
import os
import pathlib
import shlex
import signal
import subprocess
import sys
import tempfile
import time
from concurrent.futures import FIRST_COMPLETED, Future, ThreadPoolExecutor, wait
from typing import Any

RT = shlex.split(os.environ.get("RT", "rt"))


def toolchain() -> Any:
    """The toolchain's Python, in bin/ beside the page that `rt doc` names."""
    page = subprocess.run([*RT, "doc"], stdout=subprocess.PIPE, text=True, check=True).stdout
    sys.dont_write_bytecode = True
    sys.path.append(str(pathlib.Path(page.strip()).parent / "bin"))
    return importlib.import_module("rtlib")


def build(library: Any, jobs: int) -> tuple[int, str]:
    """Builds a library where it is not built, and gives the status and what was printed."""
    with tempfile.TemporaryFile("w+", errors="replace") as library.out:
        status = library.build_rlib(["--jobs", str(jobs)], anew=False)
        library.out.seek(0)
        return status, library.out.read()


def lines_to(libraries: list[Any]) -> dict[Any, int]:
    """How many lines of code the longest way has from each library to the program: libraries come after those that they use."""
    way: dict[Any, int] = {}
    for it in reversed(libraries):
        way[it] = it.count(rb"\n") + max((way[above] for above in libraries if it in above.deps), default=0)
    return way


def main(folder: str, jobs: int) -> int:
    began, rtlib = time.monotonic(), toolchain()
    # as `rt` begins: what it starts ends with it, and Ctrl-C waits for nothing
    rtlib.guarded()
    signal.signal(signal.SIGINT, signal.SIG_DFL)
    program = os.path.abspath(folder)
    libraries = rtlib.Crate(program, rtlib.root_above(program), {}).below()
    rtlib.lock(libraries)
    way, at_once = lines_to(libraries), min(2, jobs)
    order = graphlib.TopologicalSorter({it: it.deps for it in libraries})
    order.prepare()
    waiting: list[Any] = []
    running: dict[Future[tuple[int, str]], Any] = {}
    with ThreadPoolExecutor(at_once) as threads:
        while order.is_active():
            waiting = sorted([*waiting, *order.get_ready()], key=way.__getitem__)
            while waiting and len(running) < at_once:
                library = waiting.pop()
                running[threads.submit(build, library, jobs)] = library
            for future in wait(running, return_when=FIRST_COMPLETED).done:
                library, (status, said) = running.pop(future), future.result()
                if status:
                    print(f"{said}{library.name} was not built", flush=True)
                    os._exit(status)
                if said:
                    print(f"{time.monotonic() - began:5.0f} s: {library.name} is proved and built", flush=True)
                order.done(library)
    return 0


if __name__ == "__main__":
    sys.exit(main(sys.argv[1], int(sys.argv[2])))
