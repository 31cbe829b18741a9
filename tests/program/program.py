"""Runs the built program, several runs side by side where that is asked for, and tells how a run ended. What starts it in tests/
and bench/ does so by this module. The built program is that of `make build`, or what the environment's SRM_LAB names.

Nothing but Python is needed, and nothing here is of the Python package.
"""
import os
import pathlib
import re
import subprocess
import sys
from collections.abc import Callable, Iterable, Iterator, Sequence
from concurrent.futures import ThreadPoolExecutor
from typing import Any, NamedTuple, TypeVar

TOP = pathlib.Path(__file__).resolve().parent.parent.parent
BUILT = pathlib.Path(os.environ.get("SRM_LAB") or TOP / "crates/srm_lab/out/srm_lab")
# seconds after which a run hangs
LONGEST = 60

Word = str | bytes
Item = TypeVar("Item")
Got = TypeVar("Got")


class End(NamedTuple):
    """How a run ended: its status, and what it wrote on standard output and on standard error."""

    status: int
    written: bytes
    told: bytes


SOURCE = (TOP / "crates/srm_command_line/src/command_line.rt").read_text(encoding="utf-8")
VERSION = "srm_lab {}\n".format(*re.findall('VERSION: &str = "([^"]+)"', SOURCE)).encode()
REFUSED_LINE = End(2, b"", b"command line refused\n")


def refused(line: str) -> End:
    """The end of a run that is refused: one line on standard error, and nothing written."""
    return End(1, b"", f"refused: {line}\n".encode())


def side_by_side(call: Callable[[Item], Got], items: Iterable[Item]) -> Iterator[Got]:
    """What a call gives for each item, in the order of the items, with as many calls at a time as there are processors.

    Each call is made by a thread, so this is of use where a call waits for a run of the program. The exception of a call comes
    out in its place, and of the calls that were not begun by then none is made.
    """
    with ThreadPoolExecutor(len(os.sched_getaffinity(0))) as threads:
        yield from threads.map(call, items)


class Program:
    """A built program, with its name in what is told of it."""

    def __init__(self, path: str | os.PathLike[str], name: str = "program") -> None:
        self.path = os.path.abspath(path)
        self.name = name

    def run(self, words: Sequence[Word] = (), text: bytes = b"", **how: Any) -> End:
        """How a run with these words ends on a text; `how` is handed on to subprocess.run, such as another input or output."""
        streams: dict[str, Any] = {"stdout": subprocess.PIPE, "stderr": subprocess.PIPE, "timeout": LONGEST, **how}
        if "stdin" not in streams:
            streams["input"] = text
        done = subprocess.run([self.path, *words], check=False, **streams)
        return End(done.returncode, done.stdout or b"", done.stderr or b"")

    def run_on_pipe(self, words: Sequence[Word], text: bytes) -> tuple[End, int]:
        """How a run ends on a text, and how many of its bytes were left unread; a pipe has to have room for the text."""
        reader, writer = os.pipe()
        os.write(writer, text)
        os.close(writer)
        end = self.run(words, stdin=reader)
        with os.fdopen(reader, "rb") as rest:
            return end, len(rest.read())

    def written(self, words: Sequence[str] = (), text: bytes = b"", timeout: float | None = None, **how: Any) -> bytes:
        """What a run writes on a text, which must succeed; ends this script where it does not. `how` is as in `run`."""
        end = self.run(words, text, timeout=timeout, **how)
        if end.status != 0:
            sys.exit(f"{' '.join([self.path, *words])}: status {end.status}: {end.told.decode(errors='replace').strip()}")
        return end.written

    def start(self, words: Sequence[str] = (), **how: Any) -> subprocess.Popen[bytes]:
        """A run that has begun; `how` is handed on to subprocess.Popen."""
        return subprocess.Popen([self.path, *words], **how)
