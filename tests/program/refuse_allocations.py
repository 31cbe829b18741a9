#!/usr/bin/env python3
"""Runs programs once for each allocation that they make, with that one refused.

usage: tests/program/refuse_allocations.py

- The simulator, on each scenario of examples/ with each engine, must end as it does with ample memory, or with the line that
  memory ran out on standard error, a front of the table on standard output, and status 1.
- So must runs of FEW that show each of the other tables, replications, and runs in windows with the crews that take threads.
  Which allocation has which number differs from run to run there, so such a run may also come to none with that number.
- Each refused scenario of explanations.txt must be told as with ample memory, or with the line that memory ran out, and after
  the line its explanation, or what the fault is, or nothing.
- Each of TESTS must pass, whichever of its allocations is refused. `rt ci` builds them.

Needs a C compiler, `cc`. Prints a line for each scenario and test, and ends with status 1 where one of them failed.
"""
import itertools
import pathlib
import subprocess
import sys
import tempfile
from collections.abc import Callable, Iterable, Iterator, Mapping, Sequence
from typing import NamedTuple

sys.dont_write_bytecode = True

import explanations
from preloaded import Library
from program import BUILT, TOP, End, Program, refused, side_by_side

NO_MEMORY = refused("no-memory")
# of a run that does not end
NO_END = End(-1, b"", b"")
ENGINES = {"step": ["--engine", "step"], "window": ["--engine", "window"]}
CREWS = {
    "window, pool": ["--engine", "window", "--crew", "pool"],
    **{f"window, {crew}, 2 workers": ["--engine", "window", "--crew", crew, "--workers", "2"] for crew in ("bag", "team")},
}
TABLES = {table: ["--show", table] for table in ("members", "losses", "operations", "links", "timers", "scopes")}
REPLICATIONS = {
    f"replications, {table}, {workers} workers": ["--replications", "3", "--show", table, "--workers", str(workers)]
    for table, workers in (("trace", 1), ("losses", 1), ("trace", 3), ("losses", 3))
}
EXAMPLES = TOP / "examples"
NAMES_OF_FEW = ("two-nodes", "chain-of-five-one-loss", "star-loss-at-the-source", "losses-at-random", "local-recovery")
FEW = [EXAMPLES / f"{name}.toml" for name in NAMES_OF_FEW]
# crates of tests, or a module of one, whose tests pass whichever allocation is refused
TESTS = (
    "srm_member_and_role_tests",
    "srm_cell_and_ledger_tests:ledger_tests",
    "srm_crew_tests:crew_tests",
    "srm_engine_and_report_tests:drops_tests",
)


class Run(NamedTuple):
    """A run with these words on a text, with the library that refuses an allocation."""

    name: str
    # whether one that was refused an allocation ended as it must, from its end and the end with ample memory
    may_be: Callable[[End, End], bool]
    library: Library
    program: Program
    words: Sequence[str]
    text: bytes = b""

    def allocations(self) -> int:
        """How many allocations it makes."""
        return self.library.counted(lambda environment: self.program.run(self.words, self.text, env=environment, timeout=None))

    def ended(self, number: int) -> End:
        """How it ends where the allocation of this number is refused; 0 is of none."""
        try:
            return self.program.run(self.words, self.text, env=self.library.refusing(number))
        except subprocess.TimeoutExpired:
            return NO_END


def each_refused(runs: Sequence[Run]) -> bool:
    """Refuses each allocation of each of these runs in turn, and tells whether each ended as it must."""
    totals = [*side_by_side(Run.allocations, runs)]
    tried = [(run, number) for run, total in zip(runs, totals) for number in range(total + 1)]
    ends = side_by_side(lambda it: it[0].ended(it[1]), tried)
    right = True
    for run, total in zip(runs, totals):
        ample, *refused_one = itertools.islice(ends, total + 1)
        wrong = [number for number, end in enumerate(refused_one, 1) if not run.may_be(end, ample)]
        verdict = f"wrong where these are refused: {wrong}" if wrong else "ok"
        print(f"{run.name}: {total} allocations, each refused in turn: {verdict}")
        right &= not wrong
    return right


def is_right(end: End, ample: End) -> bool:
    """Whether a run ended as it does with ample memory, or for want of it after a front of its table."""
    if end == NO_END:
        return False
    return end == ample or (end._replace(written=b"") == NO_MEMORY and ample.written.startswith(end.written))


def each_way(library: Library, program: Program, ways: Mapping[str, list[str]],
             scenarios: Iterable[pathlib.Path]) -> Iterator[Run]:
    """The program's runs on each scenario in each of these ways."""
    for scenario in scenarios:
        text = scenario.read_bytes()
        for name, words in ways.items():
            yield Run(f"{scenario.stem}, {name}", is_right, library, program, words, text)


def is_explained(end: End, ample: End) -> bool:
    """Whether a refusal with --explain ended as with ample memory, or for want of it told less, or that memory ran out."""
    status, written, told = end
    line, _, more = told.partition(b"\n")
    same = line == ample.told.partition(b"\n")[0]
    less = not more or more.decode().strip() in explanations.GENERAL
    if end == NO_END:
        return False
    return end == ample or (status, written) == (1, b"") and (same and less or line + b"\n" == NO_MEMORY.told)


def each_explained(library: Library, program: Program) -> Iterator[Run]:
    """The program's runs with --explain on each stored refusal of a scenario."""
    for name, words, text, told in explanations.stored():
        if told.startswith("refused: "):
            yield Run(name, is_explained, library, program, ["--explain", *words], text.encode())


def passes(end: End, _: End) -> bool:
    """Whether a test of a test program passed."""
    return end.status == 0


def tests_of(program: Program, module: str) -> list[str]:
    """The names of the tests of a test program, or of those in a module of it."""
    lines = program.written(["--list"]).decode().splitlines()
    names = [line.removesuffix(": test") for line in lines if line.endswith(": test")]
    return [name for name in names if not module or name.startswith(f"{module}::")]


def each_test(library: Library, named: str) -> Iterator[Run]:
    """The runs of each test of a crate, or of one of its modules, as CRATE:MODULE."""
    crate, _, module = named.partition(":")
    program = Program(TOP / "crates" / crate / "out" / f"{crate}_tests")
    for test in tests_of(program, module):
        yield Run(test, passes, library, program, [test])


def main() -> None:
    program = Program(BUILT)
    with tempfile.TemporaryDirectory() as folder:
        library = Library("refuse_allocation", folder)
        runs = [
            *each_way(library, program, ENGINES, sorted(EXAMPLES.glob("*.toml"))),
            *each_way(library, program, {**CREWS, **TABLES, **REPLICATIONS}, FEW),
            *each_explained(library, program),
            *itertools.chain.from_iterable(each_test(library, named) for named in TESTS),
        ]
        right = each_refused(runs)
    sys.exit(0 if right else 1)


if __name__ == "__main__":
    main()
