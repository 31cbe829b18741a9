"""Runs of the program: its tables, and its traces row by row."""
import os
import shutil
import subprocess
import tempfile
from collections.abc import Callable, Iterable, Iterator, Sequence
from functools import partial
from pathlib import Path

from .errors import RefusedError, ScenarioError
from .tables import Row, read_trace


def find_program(program: str | Path | None = None) -> Path:
    """The program: the one given, or SRM_LAB of the environment, or the one of the package's wheel, or srm_lab."""
    named = program or os.environ.get("SRM_LAB") or _of_the_wheel() or "srm_lab"
    found = shutil.which(named)
    if found is not None:
        return Path(found).resolve()
    if named == "srm_lab":
        raise ScenarioError("there is no program srm_lab: put it on the path, or say where it is in SRM_LAB")
    raise ScenarioError(f"there is no program {named}")


def _of_the_wheel() -> Path | None:
    """The program that was installed with this package, and not with another of its name."""
    from importlib.metadata import PackageNotFoundError, distribution  # takes as long to load as most else

    try:
        installed = distribution("srm_lab")
    except PackageNotFoundError:
        return None
    if Path(str(installed.locate_file("srm_lab"))).resolve() != Path(__file__).resolve().parent:
        return None
    return next((Path(str(one.locate())) for one in installed.files or () if one.parts[-2:] == ("bin", "srm_lab")), None)


def version_of(program: Path) -> str:
    """What the program says that it is, such as `srm_lab 0.2.0`."""
    return subprocess.run([program, "--version"], capture_output=True, text=True, check=False).stdout.strip()


# the names of tables that the program calls otherwise
SHOWN = {"constants": "timers"}
BLOCK = 2**16  # as many bytes as a pipe has room for


def nobody(made: int) -> None:
    """Is told how many runs are made where nobody wants to know."""


def table_text(text: bytes, table: str, seeds: Sequence[int], program: Path, options: Sequence[str] = (),
               workers: int = 1, made: Callable[[int], None] = nobody) -> bytes:
    """What the program writes of a table of runs of one scenario, the seed in front; RefusedError where it refuses one.

    Seeds that follow each other are one process. With `options`, more words of the command line, each seed is one.
    `made` is told, as they come, how many of the runs are made.
    """
    words = ["--show", SHOWN.get(table, table), *options]
    parts: list[bytes] = []
    before = 0
    for first, count in [(seed, 1) for seed in seeds] if options else neighbours(seeds):
        own = [] if options else ["--replications", str(count), "--workers", str(workers)]
        blocks = []
        for block in written(text, [*words, "--seed", str(first), *own], program):
            blocks.append(block)
            if not options:
                made(before + last_seed(block, first) - first)
        part = b"".join(blocks)
        parts.append(_with_seed(first, part) if options else part)
        before += count
        made(before)
    return parts[0] + b"".join(part.partition(b"\n")[2] for part in parts[1:])


def last_seed(block: bytes, first: int) -> int:
    """The seed of the last row that begins in a block after another one, or the first seed where no row does."""
    _, line, row = block.rstrip(b"\n").rpartition(b"\n")
    seed, comma, _ = row.partition(b",")
    return int(seed) if line and comma else first


def neighbours(seeds: Sequence[int]) -> Iterator[tuple[int, int]]:
    """Each run of seeds that rise by one: its first seed, and how many they are."""
    begin = 0
    for place, seed in enumerate(seeds, 1):
        if place == len(seeds) or seeds[place] != seed + 1:
            yield seeds[begin], place - begin
            begin = place


def _with_seed(seed: int, table: bytes) -> bytes:
    """A table of one run as the program writes it of several."""
    header, *rows = table.splitlines(keepends=True)
    return b"".join([b"seed," + header, *(b"%d," % seed + row for row in rows)])


def written(text: bytes, words: Sequence[str], program: Path) -> Iterator[bytes]:
    """What the program writes of a scenario, in blocks as they come; RefusedError at their end where it refuses it."""
    with tempfile.TemporaryFile() as scenario, tempfile.TemporaryFile() as told:
        scenario.write(text)
        scenario.seek(0)
        with subprocess.Popen([program, "--explain", *words], bufsize=0, stdin=scenario, stdout=subprocess.PIPE,
                              stderr=told) as running:
            assert running.stdout is not None
            try:
                yield from iter(partial(running.stdout.read, BLOCK), b"")
                if running.wait():
                    told.seek(0)
                    raise _refusal(told.read(), running.returncode)
            finally:
                running.kill()


def trace_of(text: bytes, seed: int, program: Path, options: Sequence[str] = ()) -> Iterator[Row]:
    """The rows of a run, while the program writes them; RefusedError where it refuses the run.

    `options` are more words of the program's command line, which has to write the trace with them.
    """
    return read_trace(_lines(written(text, ["--seed", str(seed), *options], program)))


def _lines(blocks: Iterable[bytes]) -> Iterator[str]:
    rest = ""
    for block in blocks:
        *whole, rest = (rest + block.decode("ascii")).split("\n")
        yield from whole
    if rest:
        yield rest


def _refusal(told: bytes, status: int) -> RefusedError:
    line, _, explanation = told.decode(errors="replace").partition("\n")
    return RefusedError(line.strip(), status, explanation.rstrip("\n"))
