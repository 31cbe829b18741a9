#!/usr/bin/env python3
"""Compares what the built program writes with the tables of the examples, and with its exit statuses.

usage: tests/program/compare_program.py

examples/ and tests/scenarios/ have scenarios NAME.toml and tables NAME.TABLE.csv, or NAME.seed-N.TABLE.csv where the seed is not
0. Each stored table is compared with what the sequential engine writes. Then each scenario is run in windows, for
each table, with each crew, numbers of workers, cuts and widths that --help names, and has to give the sequential
engine's bytes; so it has to with each seed for which a table is stored, and by the sequential engine with options that only
windows look at. Last, command lines and texts that are refused have to end with their line and status. Prints a line for each
difference, and ends with status 1 where there is one.
"""
import functools
import itertools
import pathlib
import sys
from collections.abc import Iterator, Sequence

sys.dont_write_bytecode = True

from program import BUILT, REFUSED_LINE, TOP, VERSION, End, Program, Word, refused, side_by_side

SHOWS = ("trace", "members", "losses", "operations", "links", "timers", "scopes")
CREWS = ("plain", "pool", "bag", "team")
WORKERS = ("1", "2", "7")
CUTS = ("1", "3", "1024")
WIDTHS = ("1", "least", "promise")


def tables(program: Program, examples: pathlib.Path) -> Iterator[str]:
    """A line for each table that is not what the program writes."""
    for table in sorted(examples.glob("*.csv")):
        name, *seed, show, _ = table.name.split(".")
        words = ["--show", show] + [word for part in seed for word in ("--seed", part.removeprefix("seed-"))]
        text = (examples / f"{name}.toml").read_bytes()
        if program.run(words, text) != (0, table.read_bytes(), b""):
            yield f"{table.name}: not what the program writes with {' '.join(words)}"


def seeds(examples: pathlib.Path, name: str) -> list[str]:
    """The seeds for which a table of this scenario is stored, and 0."""
    parts = [table.name.split(".")[1:-2] for table in examples.glob(f"{name}.*.csv")]
    return sorted({"0", *(seed.removeprefix("seed-") for part in parts for seed in part)})


def engines(program: Program) -> Iterator[list[str]]:
    """The words that ask for the run in windows, in each way, and for the sequential one with what only windows look at."""
    yield ["--engine", "step", "--crew", "bag", "--workers", "7", "--cut", "0", "--width", "0"]
    printed = program.run(["--help"]).written.decode()
    for crew, workers, cut, width in itertools.product(CREWS, WORKERS, CUTS, WIDTHS):
        if width != "promise" or width in printed:
            yield ["--engine", "window", "--crew", crew, "--workers", workers, "--cut", cut, "--width", width]


def each_run(examples: pathlib.Path) -> Iterator[tuple[pathlib.Path, list[str]]]:
    """Each scenario, with the words for each seed and each table of it."""
    for scenario in sorted(examples.glob("*.toml")):
        for seed, show in itertools.product(seeds(examples, scenario.stem), SHOWS):
            yield scenario, ["--seed", seed, "--show", show]


def windows(program: Program, ways: list[list[str]], run: tuple[pathlib.Path, list[str]]) -> list[str]:
    """A line for each of these ways in which a run writes other bytes than the sequential engine."""
    scenario, words = run
    text = scenario.read_bytes()
    must = program.run(words, text)
    wrong = [way for way in ways if must.status != 0 or program.run(words + way, text) != must]
    return [f"{scenario.name}: with {' '.join(words + way)} not what the sequential engine writes" for way in wrong]


def cuts_and_widths(program: Program, examples: pathlib.Path) -> Iterator[str]:
    """A line for each cut and width that is not refused, or accepted, as it must be. The least delay of the chain is 1 tick."""
    chain, lone = ((examples / f"{name}.toml").read_bytes() for name in ("chain-of-five-one-loss", "no-member"))
    accepted = program.run([], chain)
    runs = [
        (["--cut", "0"], chain, refused("bad-cut")),
        (["--cut", "1025"], chain, refused("bad-cut")),
        (["--cut", "4294967295"], chain, refused("bad-cut")),
        (["--cut", "0", "--width", "0"], chain, refused("bad-cut")),
        (["--width", "0"], chain, refused("bad-width")),
        (["--width", "2"], chain, refused("bad-width")),
        (["--width", "18446744073709551615"], chain, refused("bad-width")),
        (["--width", "0"], lone, refused("bad-width")),
        (["--width", "18446744073709551615"], lone, program.run([], lone)),
        (["--cut", "0"], b"version = 1\n", refused("bad-key top 0")),
        (["--cut", "0001024", "--width", "01", "--workers", "64", "--crew", "bag"], chain, accepted),
    ]
    for words, text, must in runs:
        got = program.run(["--engine", "window", *words], text)
        if got != must:
            yield f"--engine window {' '.join(words)}: got {tuple(got)}, and not {tuple(must)}"


def statuses(program: Program) -> Iterator[str]:
    """A line for each command line or text that does not end as it must."""
    text = b"version = 1\n"
    runs: list[tuple[Sequence[Word], End, int]] = [
        (["--show", "colors"], REFUSED_LINE, len(text)),
        (["--workers", "65"], REFUSED_LINE, len(text)),
        (["--workers", "0"], REFUSED_LINE, len(text)),
        (["--engine", "fast"], REFUSED_LINE, len(text)),
        (["--crew", "six"], REFUSED_LINE, len(text)),
        (["--cut", "+1"], REFUSED_LINE, len(text)),
        (["--cut", "4294967296"], REFUSED_LINE, len(text)),
        (["--width", "18446744073709551616"], REFUSED_LINE, len(text)),
        (["--width", "most"], REFUSED_LINE, len(text)),
        (["--seed", "-1"], REFUSED_LINE, len(text)),
        (["--seed", "9223372036854775808"], REFUSED_LINE, len(text)),
        (["--seed", b"\xff"], REFUSED_LINE, len(text)),
        (["--show", "links", "--show", "links"], REFUSED_LINE, len(text)),
        (["--version"], End(0, VERSION, b""), len(text)),
        ([], refused("bad-key top 0"), 0),
    ]
    for words, must, unread in runs:
        got = program.run_on_pipe(words, text)
        if got != (must, unread):
            yield f"{words}: got {got}, and not {(must, unread)}"
    status, printed, told = program.run(["--help"], text)
    if status != 0 or told or b"Exit status" not in printed:
        yield "--help: no help on standard output"


def main() -> bool:
    program, folders = Program(BUILT), [TOP / "examples", TOP / "tests/scenarios"]
    ways = [*engines(program)]
    differences = [*cuts_and_widths(program, folders[0]), *statuses(program)]
    for folder in folders:
        found = side_by_side(functools.partial(windows, program, ways), each_run(folder))
        differences += [*tables(program, folder), *itertools.chain.from_iterable(found)]
    for line in differences:
        print(line)
    stored = sum(len(list(folder.glob("*.csv"))) for folder in folders)
    print(f"{stored} tables compared, and {len(ways)} ways to run, {len(differences)} differences")
    return len(differences) > 0


if __name__ == "__main__":
    sys.exit(main())
