#!/usr/bin/env python3
"""Rows per second of the built program, beside a plain simulator of the same model (baseline/).

usage: bench/events_per_second.py PROGRAM [--repeat N] [--long] [--only TEXT] [--instructions]

First both are compared, byte for byte: the traces and the tables of links of each scenario of examples/, with two
seeds, and the traces of the generated scenarios. Where one differs nothing is timed, and the status is 1. Then both
run in turn, N times each (3 by default), with standard output on /dev/null; the least processor time of each
(user and system, from the start of the process to its end) is printed, with rows per second and the ratio of the two
times. README.md in this folder tells what the scenarios are. Nothing is asserted about speed.

--long          1,000 draws in place of 200, and the scenario at the limits of version 1 of the format (some minutes)
--only TEXT     only the scenarios whose name has TEXT in it
--instructions  in place of times: instructions that valgrind's callgrind counts, on the two scenarios for it

The baseline is built with `rustc -O` into out/. Without rustc the program is timed alone.
"""
import argparse
import os
import pathlib
import re
import shutil
import subprocess
import sys
import tempfile
from collections.abc import Callable
from typing import NamedTuple

sys.dont_write_bytecode = True

import measuring
from program import TOP, Program

SOURCES = TOP / "bench" / "baseline"
BASELINE = TOP / "out" / "baseline"
SIZES = [16, 64, 256, 1024]
# Sizes of which the times for a row are compared.
GROWTH = [(16, 256), (256, 1024)]


class Scenario(NamedTuple):
    """A generated scenario: the link and the number of each packet that is dropped, and the member and the time of each session
    message."""

    name: str
    shape: str
    nodes: int
    draws: int
    until: int
    drops: list[tuple[int, int]]
    sessions: list[tuple[int, int]]


# what is measured of each program: instructions, or seconds
Figures = list[float]
# the figure for a row of each program, by shape, nodes and draws
ByRow = dict[tuple[str, int, int], Figures]


def ordinary(shape: str, nodes: int, draws: int) -> Scenario:
    """One sender; of its packets 0, 10, 20 .. below `draws` each is dropped, at link 0, 10, 20 .. in turn."""
    drops = [(count % (nodes - 1), count) for count in range(0, draws, 10)]
    return Scenario(f"{shape} of {nodes}, {draws:,} draws", shape, nodes, draws, 2_000_000, drops, [])


def at_the_limits() -> Scenario:
    """256 nodes and members, and 4,096 draws, session messages and drops each: as many as version 1 of the format allows."""
    drops = [(count % 255, count) for count in range(4096)]
    sessions = [(k % 256, k * 1000 + 500) for k in range(4096)]
    return Scenario("at the limits", "chain", 256, 4096, 2**40, drops, sessions)


def scenarios(long: bool) -> list[Scenario]:
    """What is timed."""
    draws = 1000 if long else 200
    found = [ordinary(shape, nodes, draws) for shape in ["chain", "tree", "star"] for nodes in SIZES]
    return found + [at_the_limits()] if long else found


def scenarios_of_instructions() -> list[Scenario]:
    """Those whose instructions are counted."""
    return [ordinary("chain", 256, 1024), ordinary("star", 256, 400)]


def text_of(scenario: Scenario) -> bytes:
    """The scenario as a file's text."""
    it = scenario
    return measuring.scenario(it.shape, it.nodes, delay=5, until=it.until, draws=it.draws, spacing=1000, drops=it.drops,
                              width=(2000, 1000), sessions=it.sessions)


def baseline() -> Program | None:
    """The built baseline, or None where there is no rustc."""
    if shutil.which("rustc") is None:
        return None
    if not BASELINE.exists() or any(BASELINE.stat().st_mtime < it.stat().st_mtime for it in SOURCES.glob("*.rs")):
        BASELINE.parent.mkdir(exist_ok=True)
        subprocess.run(["rustc", "-O", "--edition", "2021", "-o", BASELINE, SOURCES / "main.rs"], check=True)
    return Program(BASELINE, "baseline")


def compare(programs: list[Program], what: str, words: list[str], text: bytes) -> int:
    """The rows that all programs write; ends this script where two differ."""
    first = programs[0].written(words, text)
    for other in programs[1:]:
        second = other.written(words, text)
        if first != second:
            ours, theirs = first.split(b"\n"), second.split(b"\n")
            both = zip(ours, theirs)
            at = next((k for k, (a, b) in enumerate(both) if a != b), min(len(ours), len(theirs)))
            print(f"{what}: line {at + 1} differs, and so nothing is timed", file=sys.stderr)
            for program, lines in [(programs[0], ours), (other, theirs)]:
                line = lines[at].decode() if at < len(lines) else "(none)"
                print(f"  {program.name}: {line}", file=sys.stderr)
            sys.exit(1)
    return first.count(b"\n") - 1


def compare_examples(programs: list[Program]) -> int:
    examples = sorted((TOP / "examples").glob("*.toml"))
    for example in examples:
        for seed in ["0", "42"]:
            for show in ["trace", "links"]:
                compare(programs, example.name, ["--seed", seed, "--show", show], example.read_bytes())
    return len(examples)


def processor_time(program: Program, path: pathlib.Path) -> float:
    """Seconds, of the user's and the system's processor time, that a program takes for a scenario's file."""
    with open(path, "rb") as text:
        process = program.start(stdin=text, stdout=subprocess.DEVNULL)
    _, status, usage = os.wait4(process.pid, 0)
    process.returncode = os.waitstatus_to_exitcode(status)
    if process.returncode != 0:
        sys.exit(f"{program.path}: status {process.returncode}")
    return usage.ru_utime + usage.ru_stime


def times(programs: list[Program], path: pathlib.Path, repeat: int) -> Figures:
    """For each program its least time, where they run in turn."""
    best = [float("inf")] * len(programs)
    for _ in range(repeat):
        best = [min(least, processor_time(program, path)) for least, program in zip(best, programs)]
    return best


def instructions(programs: list[Program], path: pathlib.Path, _: int) -> Figures:
    """For each program the instructions that callgrind counts."""
    counted: Figures = []
    for program in programs:
        command = ["valgrind", "--tool=callgrind", "--callgrind-out-file=/dev/null", program.path]
        with open(path, "rb") as text:
            done = subprocess.run(command, stdin=text, stdout=subprocess.DEVNULL, stderr=subprocess.PIPE, check=True)
        counted += [int(number) for number in re.findall(rb"Collected : (\d+)", done.stderr)]
    return counted


def print_head(programs: list[Program], unit: list[str]) -> None:
    columns = [f"{program.name} {it}" for it in unit for program in programs]
    print(f"{'scenario':28} {'rows':>9}" + "".join(f" {it:>18}" for it in columns) + "  ratio" * (len(programs) > 1))


def print_line(name: str, rows: int, columns: list[str], found: Figures) -> None:
    ratio = f" {found[0] / found[1]:6.2f}" if len(found) > 1 else ""
    print(f"{name:28} {rows:9}" + "".join(f" {it:>18}" for it in columns) + ratio, flush=True)


def print_times(name: str, rows: int, best: Figures) -> None:
    print_line(name, rows, [f"{it:.3f}" for it in best] + [f"{rows / it:.0f}" for it in best], best)


def print_instructions(name: str, rows: int, counted: Figures) -> None:
    print_line(name, rows, [f"{it / rows:.0f}" for it in counted], counted)


def measure(
    programs: list[Program],
    chosen: list[tuple[Scenario, int]],
    figures: Callable[[list[Program], pathlib.Path, int], Figures],
    show: Callable[[str, int, Figures], None],
    repeat: int,
) -> ByRow:
    """A line for each scenario, and rows that all programs agree on; gives each program's figure for a row."""
    by_row = {}
    with tempfile.TemporaryDirectory() as folder:
        path = pathlib.Path(folder) / "scenario.toml"
        for scenario, rows in chosen:
            path.write_bytes(text_of(scenario))
            found = figures(programs, path, repeat)
            show(scenario.name, rows, found)
            by_row[scenario.shape, scenario.nodes, scenario.draws] = [figure / rows for figure in found]
    return by_row


def starts(programs: list[Program], chosen: list[tuple[Scenario, int]], repeat: int) -> ByRow:
    """For each scenario the seconds that each program takes for a row's share of the start: of the same network with one draw."""
    by_row = {}
    with tempfile.TemporaryDirectory() as folder:
        path = pathlib.Path(folder) / "scenario.toml"
        for scenario, rows in chosen:
            path.write_bytes(text_of(scenario._replace(draws=1, drops=[], sessions=[])))
            by_row[scenario.shape, scenario.nodes, scenario.draws] = [it / rows for it in times(programs, path, repeat)]
    return by_row


def print_growth(programs: list[Program], by_row: ByRow, starts_by_row: ByRow) -> None:
    """How the time for a row grows from smaller networks to larger ones of a shape, whole and without the start."""
    for key in by_row:
        shape, nodes, draws = key
        for small, large in GROWTH:
            larger = shape, large, draws
            if nodes == small and larger in by_row:
                told = []
                for at, program in enumerate(programs):
                    more, less = by_row[larger][at], by_row[key][at]
                    alone = (more - starts_by_row[larger][at]) / (less - starts_by_row[key][at])
                    told.append(f"{program.name} {more / less:.2f} ({alone:.2f} without the start)")
                print(f"time for a row, {shape} of {large} over {shape} of {small}: {', '.join(told)}")


def main() -> None:
    parser = argparse.ArgumentParser(description=__doc__, formatter_class=argparse.RawDescriptionHelpFormatter)
    parser.add_argument("program", type=Program)
    parser.add_argument("--repeat", type=int, default=3)
    parser.add_argument("--long", action="store_true")
    parser.add_argument("--only", default="")
    parser.add_argument("--instructions", action="store_true")
    options = parser.parse_args()
    if options.instructions and shutil.which("valgrind") is None:
        sys.exit("valgrind is missing: it counts the instructions")
    programs = [options.program]
    plain = baseline()
    if plain is None:
        print("rustc is missing: no baseline, the program is timed alone")
    else:
        programs.append(plain)
    examples = compare_examples(programs)
    found = scenarios_of_instructions() if options.instructions else scenarios(options.long)
    named = [scenario for scenario in found if options.only in scenario.name]
    chosen = [(scenario, compare(programs, scenario.name, [], text_of(scenario))) for scenario in named]
    if plain is not None:
        print(f"the same bytes from both: {examples} scenarios of examples/, {len(chosen)} generated ones", flush=True)
    if options.instructions:
        print_head(programs, ["instr./row"])
        measure(programs, chosen, instructions, print_instructions, options.repeat)
    else:
        print_head(programs, ["seconds", "rows/s"])
        by_row = measure(programs, chosen, times, print_times, options.repeat)
        print_growth(programs, by_row, starts(programs, chosen, options.repeat))


if __name__ == "__main__":
    main()
