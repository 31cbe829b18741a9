#!/usr/bin/env python3
"""Runs the program on scenarios made at random, and holds what it writes to a second computation from the documents.

usage: tests/fuzz/fuzz.py [--seconds N | --cases N] [--from SEED] [--case SEED] [--versions LIST]

Each case is made from its number, its seed: a scenario of the format's grammar, one that is spoiled in one place, an example or
a scenario with bytes or numbers changed, or a command line that must be refused. The scenarios are of the versions of the
format that --versions lists, as 1,2,3,4,5, and any other version must be refused; without it, of those that the program reads. Of
each case this is asserted:

- Each row of the trace is of an event that was pending, and is what the model's tables say; nothing is passed over, and nothing
  left (fuzz_replay.py).
- The other tables are those of the trace: its rows are counted, and its packets followed along the paths (fuzz_tables.py,
  fuzz_format.py).
- A refusal is the one that comes first by docs/FORMATS.md, as one line on standard error, with nothing on standard output and
  status 1. Where Python cannot read the text as TOML, any refusal of a scenario may come. A refused command line has status 2.
- The run in windows, with a crew, workers, a cut and a width at random, and besides with a team of 1, 2, 4, 7 or 64 workers,
  gives the sequential engine's bytes; and where the cut or the width is none that the scenario allows, their refusal
  (fuzz_windows.py).
- Replications from its seed on, some for a table and workers at random, are the single runs' tables in one.
- With --explain a refusal has the same line, status and standard output, and lines after that line, which begin with two spaces
  where the words are not refused.
- Each run ends within LONGEST seconds.

A table, a width, or an option, that the program's --help does not name is left out. Prints each case that fails and writes
its scenario to out/; --case SEED runs one case again. Without --from the first seed is a random one, and with neither a time nor
a number of cases it runs the cases 1 to 100. Ends with status 1 where a case failed.
"""
import argparse
import collections
import itertools
import pathlib
import random
import re
import resource
import subprocess
import sys
import time
from collections.abc import Callable, Iterator

sys.dont_write_bytecode = True
sys.path.append(str(pathlib.Path(__file__).resolve().parent.parent / "program"))

import fuzz_replay
import fuzz_scenarios
import fuzz_tables
import fuzz_windows
from fuzz_format import VERSIONS, Scenario
from fuzz_scenarios import Case
from fuzz_tables import Wrong
from program import BUILT, REFUSED_LINE, TOP, End, Program, refused, side_by_side

Run = Callable[[list[str], bytes], End]

LONGEST = 60
MEMORY = 2**32
MOST_FAILURES = 10
FEW = 100
REFUSAL = re.compile(
    rb"refused: (not-toml|too-long|not-tree|bad-key top 0"
    rb"|bad-(key )?(member|draw|session|drop|outage|loss) (0|[1-9][0-9]*)|bad-key link (0|[1-9][0-9]*))\n"
)
NO_MEMORY = refused("no-memory")


def runner(program: Program) -> Run:
    """The program as a function of its words and its standard input, which gives how the run ended."""

    def run(words: list[str], text: bytes) -> End:
        try:
            return program.run(words, text, timeout=LONGEST)
        except subprocess.TimeoutExpired as late:
            raise Wrong(f"{words}: it runs for more than {LONGEST} seconds") from late

    return run


def words_named(run: Run) -> set[str]:
    """The words of the program's help."""
    status, told, _ = run(["--help"], b"")
    if status != 0:
        raise Wrong("--help: another status than 0")
    return set(re.findall(r"\w+", told.decode()))


def is_same(what: object, got: End, must: End) -> None:
    """Refuses an end that is not as it must be: tells the first line that differs."""
    if (got.status, got.told) != (must.status, must.told):
        told = f"status {got.status}, {got.told[:200]!r} on standard error"
        raise Wrong(f"{what}: {told}, and not status {must.status}, {must.told[:200]!r}")
    if got.written != must.written:
        lines = itertools.zip_longest(got.written.split(b"\n"), must.written.split(b"\n"))
        number, pair = next((at, pair) for at, pair in enumerate(lines, 1) if pair[0] != pair[1])
        raise Wrong(f"{what}: line {number} is {pair[0]!r}, and not {pair[1]!r}")


def is_in_form(table: str, end: End) -> None:
    """Refuses an end that is neither this table nor a refusal of a scenario."""
    status, printed, told = end
    if status == 0 and not told:
        fuzz_tables.lines_of(table, printed)
    elif not (status == 1 and not printed and REFUSAL.fullmatch(told)) and end != NO_MEMORY:
        raise Wrong(f"{table}: status {status}, {len(printed)} bytes on standard output, {told[:200]!r} on standard error")


def expected(scenario: Scenario, seed: int, trace: bytes) -> dict[str, bytes]:
    """The other tables, from a trace that is first held to the model."""
    rows = fuzz_tables.rows_of(trace)
    replay = fuzz_replay.Replay(scenario, seed)
    losses = replay.run(rows)
    return {
        "trace": trace,
        "members": fuzz_tables.members_table(scenario, rows),
        "losses": fuzz_tables.losses_table(scenario, losses),
        "operations": fuzz_tables.operations_table(scenario, rows, losses),
        "links": fuzz_tables.links_table(scenario, rows, replay.packets),
        "timers": fuzz_tables.timers_table(replay.timers),
        "scopes": fuzz_tables.scopes_table(rows, replay.packets),
    }


def ends(tables: list[str], case: Case, first: End) -> dict[str, End]:
    """How a run for each table must end, as far as it is known, from the end of a first one, which wrote the trace."""
    if first.status != 0 or isinstance(case.must, str):
        return {"trace": first} if first.status == 0 else dict.fromkeys(tables, first)
    texts = expected(Scenario(case.must, case.seed), case.seed, first.written)
    return {table: End(0, texts[table], b"") for table in tables}


def check_windows(run: Run, named: set[str], case: Case, must: dict[str, End]) -> None:
    """Runs an accepted case in windows, for each table, with a team too, and once with a cut or a width that is refused."""
    rng = fuzz_windows.random_of(case)
    top = case.must if isinstance(case.must, dict) else None
    rows = must["trace"].written.count(b"\n")
    ways: list[tuple[str, list[str]]] = []
    for table in must:
        ways.append((table, fuzz_windows.windows(rng, top, rows, named)))
        if "team" in named:
            ways.append((table, fuzz_windows.team(rng, top, named)))
    ends = side_by_side(lambda way: run([f"--seed={case.seed}", *way[1], "--show", way[0]], case.text), ways)
    for (table, words), end in zip(ways, ends):
        is_same(" ".join(["--show", table, *words]), end, must[table])
    if top is not None:
        words, line = fuzz_windows.refused(rng, top)
        end = refused(line)
        is_same(" ".join(words), run(words, case.text), end)
        if "explain" in named:
            check_explained(run, words, case.text, end)


def check_replications(run: Run, case: Case, must: dict[str, End]) -> None:
    """Runs an accepted case with some seeds at once, and holds the table to those of single runs."""
    rng = random.Random(f"replications {case.seed}")
    table, count, workers = rng.choice([*must]), rng.choice((1, 2, 5)), rng.choice((1, 2, 7, 64))
    words = [f"--seed={case.seed}", f"--replications={count}", "--show", table, f"--workers={workers}"]
    if case.seed + count > 2**63:
        is_same(" ".join(words), run(words, case.text), REFUSED_LINE)
        return
    single = {seed: run([f"--seed={seed}", "--show", table], case.text) for seed in range(case.seed, case.seed + count)}
    if all(end.status == 0 for end in single.values()):
        text = fuzz_tables.replications_table({seed: end.written for seed, end in single.items()})
        is_same(" ".join(words), run(words, case.text), End(0, text, b""))


def check_explained(run: Run, words: list[str], text: bytes, end: End) -> None:
    """Sees that an explanation changes nothing of a refusal but what follows its line."""
    status, printed, told = run(["--explain", *words], text)
    line, _, more = told.partition(b"\n")
    is_same("--explain", End(status, printed, line + b"\n"), end)
    if any(isinstance(word, bytes) for word in words):
        is_same("--explain, where a word is no text", End(status, printed, more), End(status, printed, b""))
        return
    if not more.endswith(b"\n") or status == 1 and not all(it.startswith(b"  ") for it in more.splitlines()):
        raise Wrong(f"--explain: {more[:200]!r} after the line")


def check(run: Run, named: set[str], case: Case) -> None:
    """Runs one case, and raises Wrong where the program does what it must not. Its help names these words."""
    if case.words is not None:
        is_same(case.words, run(case.words, case.text), REFUSED_LINE)
        if "explain" in named:
            check_explained(run, case.words, case.text, REFUSED_LINE)
        return
    first = run(["--seed", str(case.seed)] if case.seed else [], case.text)
    is_in_form("trace", first)
    if case.must == fuzz_scenarios.UNKNOWN and first == NO_MEMORY:
        return
    if isinstance(case.must, dict) and first.status != 0:
        raise Wrong(f"it must be accepted: {first.told!r}")
    if isinstance(case.must, str) and case.must != fuzz_scenarios.UNKNOWN:
        is_same("refusal", first, refused(case.must))
    if first.status != 0 and "explain" in named:
        check_explained(run, [], case.text, first)
    tables = [table for table in fuzz_tables.HEADERS if table in named]
    must = ends(tables, case, first)
    for table in tables:
        end = run([f"--seed={case.seed}", "--show", table], case.text)
        is_in_form(table, end)
        is_same(f"--show {table}", end, must.setdefault(table, end))
    if "replications" in named and first.status == 0:
        check_replications(run, case, must)
    if "window" not in named:
        return
    if first.status == 0:
        check_windows(run, named, case, must)
    else:
        is_same("--engine window", run(["--engine", "window", "--cut", "0", "--width", "0"], case.text), first)


def case_of(seed: int, versions: tuple[int, ...]) -> Case:
    examples = [it.read_bytes() for it in sorted((TOP / "examples").glob("*.toml"))]
    return fuzz_scenarios.case_of(random.Random(seed), examples, versions)


def failure(run: Run, named: set[str], seed: int, versions: tuple[int, ...]) -> tuple[str | None, str]:
    """Runs the case of a seed; the line that tells what is wrong with it, or None, and what kind of case it is."""
    case = case_of(seed, versions)
    try:
        check(run, named, case)
    except Exception as wrong:
        if not isinstance(wrong, Wrong):
            print(f"case {seed}: the check itself broke off")
            raise
        kept = TOP / "out" / f"fuzz-{seed}.toml"
        kept.parent.mkdir(exist_ok=True)
        kept.write_bytes(case.text)
        words = case.words if case.words is not None else ["--seed", case.seed]
        return f"case {seed} ({case.kind}, {words}): {wrong}\n  its scenario: {kept.relative_to(TOP)}", case.kind
    return None, case.kind


def seeds(options: argparse.Namespace) -> Iterator[int]:
    """The seeds of the cases to run, until the time is over or there were enough."""
    if options.case is not None:
        yield options.case
        return
    cases = options.cases or (FEW if options.seconds is None else None)
    first = 1 if options.cases is options.seconds is None else random.SystemRandom().randrange(2**40)
    first = first if options.first is None else options.first
    began = time.monotonic()
    seed = first
    while seed < first + cases if cases else time.monotonic() - began < options.seconds:
        yield seed
        seed += 1


def versions_of(word: str) -> tuple[int, ...]:
    """The versions that an argument lists, as 1,2,3,4,5."""
    versions = tuple(sorted(int(it) for it in word.split(",")))
    if not set(versions) <= set(VERSIONS):
        raise ValueError(word)
    return versions


def main() -> int:
    parser = argparse.ArgumentParser(description=__doc__, formatter_class=argparse.RawDescriptionHelpFormatter)
    parser.add_argument("--seconds", type=float)
    parser.add_argument("--cases", type=int)
    parser.add_argument("--from", type=int, dest="first", metavar="SEED")
    parser.add_argument("--case", type=int, metavar="SEED")
    parser.add_argument("--versions", type=versions_of, default=VERSIONS, metavar="LIST")
    options = parser.parse_args()
    resource.setrlimit(resource.RLIMIT_AS, (MEMORY, resource.getrlimit(resource.RLIMIT_AS)[1]))
    run = runner(Program(BUILT))
    try:
        named = words_named(run)
    except (OSError, Wrong) as wrong:
        sys.exit(f"{BUILT}: {wrong}")
    kinds: collections.Counter[str] = collections.Counter()
    failed, began = 0, time.monotonic()
    for seed in seeds(options):
        told, kind = failure(run, named, seed, options.versions)
        kinds[kind] += 1
        if told:
            failed += 1
            print(told, flush=True)
        if failed == MOST_FAILURES:
            break
    spent = time.monotonic() - began
    counts = ", ".join(f"{number} {kind}" for kind, number in sorted(kinds.items()))
    tables = ", ".join(table for table in fuzz_tables.HEADERS if table in named)
    print(f"{sum(kinds.values())} cases in {spent:.0f} seconds ({counts}), {failed} failed; tables: {tables}")
    return failed > 0


if __name__ == "__main__":
    sys.exit(main())
