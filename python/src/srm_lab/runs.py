"""Runs of the program: its tables of many seeds and scenarios, kept in a cache."""
import gc
import hashlib
import json
import os
import sys
import tempfile
import warnings
from collections.abc import Callable, Iterable, Iterator, Sequence
from concurrent.futures import ProcessPoolExecutor, ThreadPoolExecutor
from dataclasses import dataclass
from functools import cached_property, partial
from multiprocessing import get_context
from operator import index
from pathlib import Path
from typing import Any

import pandas
import tqdm

from . import __version__, shown
from .errors import RefusedError, ScenarioError, perhaps, spelled, verbs_spelled
from .frames import COLUMNS, Columns, Frames, Rows, Table, columns_of, joined, packed, rows_of, save, unpacked
from .limits import MOST_SEED, within
from .page.cut import Cut
from .page.shown import Page, page_of
from .scenario import Scenario
from .statistics import Statistic, evaluated, summarise
from .timers import COLUMNS as TIMERS, timers_of
from .traces import find_program, nobody, table_text, trace_of, version_of

LAYOUT = 3  # of what the cache keeps; a cache of another layout is not read
CACHE = "cache"
MOST_IN_CHUNK = 16
MOST_WORKERS = 1024
Job = tuple[int, tuple[int, ...]]  # runs of one scenario: its number, and their seeds


@dataclass(frozen=True)
class Asked:
    """What is asked of every run: its tables, and how the program is run."""

    tables: tuple[str, ...]
    program: Path
    cache: Path | None
    options: tuple[str, ...] = ()

    @cached_property
    def digest(self) -> str:
        """The digest of the program's bytes."""
        return hashlib.sha256(self.program.read_bytes()).hexdigest()

    def place(self, given: Scenario, table: str, seeds: Sequence[int]) -> Path | None:
        """Where the cache has a table of runs of a scenario: it depends on these, the program and its other options."""
        if self.cache is None:
            return None
        words = json.dumps([LAYOUT, table, given.digest(), *seeds, self.digest, *self.options])
        return self.cache / f"{hashlib.sha256(words.encode()).hexdigest()}.rows"


def perform(given: Scenario, seeds: Sequence[int], asked: Asked, workers: int,
            made: Callable[[int], None]) -> dict[str, Rows]:
    """The tables of runs of one scenario, the seed in front: of the cache, or by so many workers.

    Each table is a process of the program, and all are side by side: to read a trace takes longer than several runs.
    `made` is told, as the first table comes, how many of the runs are made.
    """
    def make(name: str) -> Rows:
        place = asked.place(given, name, seeds)
        if place is not None and place.exists():
            return unpacked(name, place.read_bytes())
        tell = made if name == asked.tables[0] else nobody
        found = rows_of(name, timers_text(given, seeds, asked, workers, tell) if name == "timers" else
                        table_text(given.plain_text, name, seeds, asked.program, asked.options, workers, tell))
        if place is not None:
            keep(place, packed(found))
        return found

    own = {name: make(name) for name in asked.tables if name == "timers"}  # before there are threads: it may fork
    others = [name for name in asked.tables if name not in own]
    if len(others) < 2 or workers == 1:
        return own | {name: make(name) for name in others}
    with ThreadPoolExecutor(len(others)) as pool:
        return own | dict(zip(others, pool.map(make, others)))


def timers_text(given: Scenario, seeds: Sequence[int], asked: Asked, workers: int, made: Callable[[int], None]) -> bytes:
    """The table of timers, of the trace of each run."""
    def of_one(seed: int) -> bytes:
        rows = timers_of(given, trace_of(given.plain_text, seed, asked.program, asked.options))
        return "".join(f"{','.join(map(str, (seed, *row)))}\n" for row in rows).encode()

    parts = [f"{','.join(('seed', *TIMERS))}\n".encode()]
    for part in _mapped(of_one, seeds, min(workers, len(seeds))):
        made(len(parts))
        parts.append(part)
    return b"".join(parts)


def keep(place: Path, rows: bytes) -> None:
    """Puts a table into the cache at once, so that no half of one is ever read."""
    place.parent.mkdir(parents=True, exist_ok=True)
    with tempfile.NamedTemporaryFile(dir=place.parent, suffix=".part", delete=False) as part:
        part.write(rows)
    os.replace(part.name, place)


def perform_all(make: Callable[[int], Scenario], jobs: Sequence[Job], asked: Asked, workers: int | None,
                progress: bool | None, said: Callable[[int], str] | None = None) -> tuple[Frames, list[str]]:
    """The tables of many runs, with the number of the scenario in front, and the digest of each scenario, in order of numbers.

    `make` gives the scenario of a number, and `said` what a refusal tells of it. A bar counts the runs.
    """
    processors = workers or len(os.sched_getaffinity(0))
    several = min(len(jobs), processors)
    first = make(jobs[0][0])
    first.digest(), asked.digest  # all workers need what this loads, and so have it when they begin
    bar = bar_of(sum(len(seeds) for _, seeds in jobs), progress)
    chunks = list(chunks_of(jobs, several))
    rest = len(chunks) % several  # parts of the last round, which share all processors

    def work(place: int) -> tuple[list[str], dict[str, Columns]]:
        sharing = several if place < len(chunks) - rest else rest
        digests, tables = [], []
        for number, seeds in chunks[place]:
            given = first if number == jobs[0][0] else make(number)
            digests.append(given.digest())
            tell: Callable[[int], None] = nobody
            if several == 1:
                tell = partial(move, bar, bar.n)
            try:
                found = perform(given, seeds, asked, processors // sharing, tell)
            except RefusedError as fault:
                if said is not None:
                    fault.add_note(f"refused at {said(number)}")
                raise
            tables.append({name: Table(number, given, rows) for name, rows in found.items()})
        return digests, {name: columns_of(name, [one[name] for one in tables]) for name in asked.tables}

    digests: dict[int, str] = {}
    parts, made = [], 0
    with bar:
        for chunk, (found, tables) in zip(chunks, _mapped(work, range(len(chunks)), several)):
            digests.update(zip((number for number, _ in chunk), found))
            parts.append(tables)
            made += sum(len(seeds) for _, seeds in chunk)
            move(bar, 0, made)
    return {name: joined(name, [one[name] for one in parts]) for name in asked.tables}, [digests[one] for one in sorted(digests)]


def chunks_of(jobs: Sequence[Job], several: int) -> Iterator[Sequence[Job]]:
    """Jobs in ever shorter parts, so that so many workers end at about the same time."""
    place = 0
    while place < len(jobs):
        size = min(MOST_IN_CHUNK, -(-(len(jobs) - place) // (2 * several)))
        yield jobs[place:place + size]
        place += size


def bar_of(total: int, progress: bool | None) -> tqdm.tqdm:
    """A bar that counts runs. Unless it is told, it is shown where somebody looks on: in a terminal, or in a notebook.

    In a notebook it is one of its widgets, or a line of text where ipywidgets is not installed.
    """
    if not is_notebook():
        return tqdm.tqdm(total=total, unit="run", disable=not (sys.stderr.isatty() if progress is None else progress))
    with warnings.catch_warnings():
        warnings.simplefilter("ignore", tqdm.TqdmWarning)  # which asks for ipywidgets
        from tqdm.auto import tqdm as notebook_bar
    return notebook_bar(total=total, unit="run", disable=progress is False)


def is_notebook() -> bool:
    """Whether this is the kernel of a notebook."""
    shell = getattr(sys.modules.get("IPython"), "get_ipython", lambda: None)()
    return hasattr(shell, "kernel")


def move(bar: tqdm.tqdm, before: int, made: int) -> None:
    """Moves a bar on to so many runs after those before, and never back."""
    bar.update(max(0, before + made - bar.n))


_work: list[Callable[[Any], Any]] = []  # what this process does, where it is a worker


def _begin(work: Callable[[Any], Any]) -> None:
    """Makes this process a worker; what it was forked with is never searched for garbage, which would copy it."""
    gc.freeze()
    _work.insert(0, work)


def _do(chunk: Any) -> Any:
    return _work[0](chunk)


def _mapped(work: Callable[[Any], Any], chunks: Sequence[Any], several: int) -> Iterator[Any]:
    """What the function gives for each chunk, in order, from one pool of workers.

    Workers are forked, so that the function need not be one that can be sent to them: it may hold a user's lambda.
    """
    if several == 1:
        yield from map(work, chunks)
        return
    with ProcessPoolExecutor(several, get_context("fork"), _begin, (work,)) as pool:
        try:
            yield from pool.map(_do, chunks)
        except BaseException:
            pool.shutdown(cancel_futures=True)
            raise


@verbs_spelled
@dataclass(frozen=True)
class Runs:
    """The tables of runs of one scenario, each a DataFrame whose first column is the seed."""

    given: Scenario
    seeds: tuple[int, ...]
    tables: Frames
    asked: Asked

    def __repr__(self) -> str:
        return shown.runs_text(self)

    def _repr_html_(self) -> str:
        return shown.runs_html(self)

    def __dir__(self) -> list[str]:
        return sorted({*super().__dir__(), *self.tables})

    def __getattr__(self, name: str) -> pandas.DataFrame:
        if name.startswith("_") or name not in COLUMNS:
            raise AttributeError(f"runs have no {name!r}{perhaps(name, [*COLUMNS, *vars(type(self))])}")
        return self.table(name)

    def table(self, name: str) -> pandas.DataFrame:
        """A table of these runs."""
        if name not in self.tables:
            raise ScenarioError(f"the table {name!r} was not asked for: these runs have {', '.join(self.tables)}")
        return self.tables[name]

    def holding(self, expression: str) -> pandas.DataFrame:
        """The first of these tables that has the columns of an expression."""
        faults = []
        for table in self.tables.values():
            try:
                evaluated(table, expression)
            except ScenarioError as fault:
                faults.append(fault)
            else:
                return table
        raise faults[0] if len(faults) == 1 else ScenarioError(
            f"no table of these runs has the columns of {expression!r}: they are {', '.join(self.tables)}")

    @spelled
    def summary(self, expression: str, by: str | Sequence[str] | None = None, table: str | None = None,
                statistic: Statistic | Sequence[Statistic] = "mean", method: str = "t",
                level: float = 0.95) -> pandas.DataFrame | pandas.Series:
        """Means of a column, or of an expression of columns, with intervals over seeds; see `summarise`."""
        frame = self.holding(expression) if table is None else self.table(table)
        return summarise(frame, expression, by, statistic, method, level)

    @spelled
    def page(self, seed: int | None = None, begin: int = 0, end: int | None = None, title: str | None = None) -> Page:
        """The page that plays the run of a seed, by default the first; a notebook shows it, and `write` saves it.

        The run is made anew for it. What was settled before tick `begin` is left out, and what came after tick `end`.
        """
        number = self.seeds[0] if seed is None else within("seed", seed, 0, MOST_SEED)
        rows = trace_of(self.given.plain_text, number, self.asked.program, self.asked.options)
        return page_of(self.given, rows, number, Cut(begin, end), title)

    @spelled
    def save(self, directory: str | Path, ending: str = "csv") -> list[Path]:
        """Writes each table to a file, as `csv` or `parquet`, with what it is of beside it; see `save`."""
        if ending not in ("csv", "parquet"):
            raise ScenarioError(f"ending is {ending!r}, and has to be csv or parquet")
        return [save(table, Path(directory) / f"{name}.{ending}") for name, table in self.tables.items()]


@spelled
def run(given: Scenario, seeds: int | Iterable[int] = 1, tables: str | Iterable[str] = "losses",
        program: str | Path | None = None, cache: str | Path | None = CACHE, workers: int | None = None,
        progress: bool | None = None, options: Iterable[str] = ()) -> Runs:
    """Runs a scenario with each seed, and gives the tables of all runs; `seeds=5` are 0 to 4.

    Of each table the program makes all runs of neighbouring seeds in one process, on `workers` processors (by default
    on all); `timers` alone are put together from the trace of each run. A bar counts the runs in a terminal or a notebook,
    or where `progress` says so. A table is kept
    in the folder `cache` (by default the user's, srm_lab in XDG_CACHE_HOME), and read from there where scenario, seeds
    and program are the same; with None nothing is kept. The program is `program`, or SRM_LAB of the environment, or the
    one of the package's wheel, or srm_lab on the path; `options` are more words of its command line that leave the
    tables as they are, such as `--engine` and `window`: with them each seed is a process. What a table is of stands in
    its `attrs`.

    Raises RefusedError with the program's line where it refuses a run, and ScenarioError or TypeError with a sentence
    where something else was asked for.
    """
    if not isinstance(given, Scenario):
        raise TypeError(f"run takes one scenario, and was given {_said(given)}: sweep runs several, and scenario.load "
                        "reads a file")
    numbers, asked = seeds_of(seeds), asked_of(tables, program, cache, options)
    given.check()
    frames, (digest,) = perform_all(lambda _: given, [(0, numbers)], asked, workers_of(workers), progress)
    for name, frame in frames.items():
        del frame["scenario"]
        frame.attrs = {**origin(name, numbers, asked), "scenario": digest}
    return Runs(given, numbers, frames, asked)


def origin(table: str, seeds: tuple[int, ...], asked: Asked) -> dict[str, Any]:
    """What every table of runs says of itself."""
    return {"table": table, "seeds": list(seeds), "program": version_of(asked.program),
            "program_sha256": asked.digest, "package": __version__, "options": list(asked.options)}


def seeds_of(given: int | Iterable[int]) -> tuple[int, ...]:
    """The seeds: those given, or as many as a number says, from 0 on."""
    if isinstance(given, int) and not isinstance(given, bool):
        return tuple(range(within("seeds", given, 1, MOST_SEED)))
    if isinstance(given, (str, bool)) or not isinstance(given, Iterable):
        raise TypeError(f"seeds are {_said(given)}, and have to be a number, or a list of whole numbers")
    found = list(given)
    try:
        seeds = tuple(within("a seed", index(seed), 0, MOST_SEED) for seed in found)
    except TypeError:
        raise TypeError(f"seeds are {found!r}, and have to be whole numbers") from None
    if not seeds:
        raise ScenarioError("there is no seed: say how many, or a list of them")
    if len(set(seeds)) < len(seeds):
        raise ScenarioError("a seed is given twice")
    return seeds


def asked_of(tables: str | Iterable[str], program: str | Path | None, cache: str | Path | None,
             options: Iterable[str]) -> Asked:
    """What is asked of every run, or a sentence that says what is wrong with it."""
    wanted = (tables,) if isinstance(tables, str) else tuple(_words("tables", tables))
    for name in wanted:
        if name not in COLUMNS:
            raise ScenarioError(f"there is no table {name!r}{perhaps(name, COLUMNS)}: there are {', '.join(COLUMNS)}")
    if not wanted or len(set(wanted)) < len(wanted):
        raise ScenarioError(f"tables are {list(wanted)}, and have to be one or more, none of them twice")
    for name, path in (("program", program), ("cache", cache)):
        if path is not None and not isinstance(path, (str, Path)):
            raise TypeError(f"{name} is {_said(path)}, and has to be a path")
    place = cache_folder() if cache == CACHE else None if cache is None else Path(cache)
    return Asked(wanted, find_program(program), place, tuple(_words("options", options)))


def workers_of(given: int | None) -> int | None:
    """How many workers, where that is told."""
    return None if given is None else within("workers", given, 1, MOST_WORKERS)


def _words(what: str, given: Any) -> Iterator[str]:
    if isinstance(given, str) or not isinstance(given, Iterable):
        raise TypeError(f"{what} are {_said(given)}, and have to be a list of words")
    for word in given:
        if not isinstance(word, str):
            raise TypeError(f"{what} have {_said(word)}, and have to be words")
        yield word


def _said(given: Any) -> str:
    """A value of a wrong type, as a sentence tells it."""
    return repr(given) if isinstance(given, (str, int, float, type(None))) else f"a {type(given).__name__}"


def cache_folder() -> Path:
    """Where runs are kept unless another folder is named."""
    return Path(os.environ.get("XDG_CACHE_HOME") or Path.home() / ".cache") / "srm_lab"
