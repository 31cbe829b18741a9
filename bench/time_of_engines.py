#!/usr/bin/env python3
"""How long the built program takes with each engine and crew, side by side, on wide and on narrow windows.

usage: bench/time_of_engines.py PROGRAM [--nodes N] [--draws N] [--workers N] [--repeat N] [--only TEXT] [--cases]

Runs PROGRAM on a chain, a tree and a star of N nodes (256 by default, at most 1,024) with a member on each node, a star's hub
aside. Member 0 draws 4,096 times, one draw each 10 ticks, and of its packets one in forty is dropped, at one link after the
other. Links take 1,000 ticks (wide windows: many events each) or 1 tick (narrow ones: few). What is shown is the table of
links, which is short, so that the time is the engine's. Windows are as wide as the least delay of a link, and a job has as
many members as go evenly to four jobs for each worker, and with a team to sixteen.

All engines must write the same bytes; where one does not, nothing more is timed, and the status is 1. Prints the least wall
time of N runs, to a file, and how many times as fast as the sequential engine that is. It asserts nothing about speed.

--cases  in place of these the cases of CASES, larger ones, most of them with four tables; on the chain a team's job has 4
         members. One that PROGRAM does not read is left out, and told: more than 1,024 nodes need version 3 of the format
         (docs/FORMATS.md).
"""
import argparse
import sys
from collections.abc import Iterator
from typing import NamedTuple

sys.dont_write_bytecode = True

import measuring
from program import Program

DRAWS = 4096
SPACING = 10
DROPPED = 40
MOST_CUT = 1024
SHAPES = ["chain", "tree", "star"]
DELAYS = {"wide": 1000, "narrow": 1}


class Case(NamedTuple):
    """A network with a member on each node, a star's hub aside; the delay of its links, and how often member 0 draws."""

    name: str
    shape: str
    nodes: int
    delay: int
    draws: int
    tables: tuple[str, ...]
    team_cut: int = 0  # how many members a team's job has, or 0 for sixteen jobs for each worker


LINKS, FOUR = ("links",), ("links", "members", "losses", "trace")
CASES = [
    Case("tree of 1,024, 1,024 draws", "tree", 1024, 1000, 1024, FOUR),
    Case("star of 1,024, 100 draws", "star", 1024, 1000, 100, FOUR),
    Case("tree of 1,024, 4,096 draws", "tree", 1024, 1000, 4096, FOUR),
    Case("chain of 1,024, 1,024 draws", "chain", 1024, 1000, 1024, FOUR, team_cut=4),
    Case("tree of 10,000, 100 draws", "tree", 10000, 1000, 100, LINKS),
    Case("tree of 1,024, links of one tick", "tree", 1024, 1, 1024, LINKS),
]


def scenario(shape: str, nodes: int, delay: int, draws: int) -> bytes:
    """The text of a scenario."""
    drops = [(number % (nodes - 1), count) for number, count in enumerate(range(0, draws, DROPPED))]
    until = draws * SPACING + 100 * delay * nodes
    return measuring.scenario(shape, nodes, delay=delay, until=until, draws=draws, spacing=SPACING, drops=drops)


def engines(nodes: int, workers: int, team_cut: int) -> dict[str, list[str]]:
    """The options of each engine, by its name."""
    window = ["--engine", "window", "--width", "least", "--workers", str(workers)]
    jobs = {"plain": 4, "pool": 4, "bag": 4, "team": 16}
    cuts = {crew: min(MOST_CUT, max(1, nodes // (each * workers))) for crew, each in jobs.items()}
    cuts["team"] = team_cut or cuts["team"]
    return {"step": [], **{f"window, {crew}": [*window, "--crew", crew, "--cut", str(cut)] for crew, cut in cuts.items()}}


def is_read(program: Program, name: str, text: bytes) -> bool:
    """Whether a program reads a scenario; tells why not."""
    end = program.run(["--check"], text, timeout=None)
    if end.status != 0:
        print(f"{name:32} left out: {end.told.decode(errors='replace').strip()}", flush=True)
    return end.status == 0


def asked(options: argparse.Namespace) -> Iterator[Case]:
    """The cases that the options ask for."""
    if options.cases:
        yield from (case for case in CASES if options.only in case.name)
        return
    for windows, delay in DELAYS.items():
        for shape in SHAPES:
            if options.only in f"{windows} {shape}":
                yield Case(f"{windows} {shape}", shape, options.nodes, delay, options.draws, LINKS)


def main() -> None:
    parser = argparse.ArgumentParser(description=__doc__, formatter_class=argparse.RawDescriptionHelpFormatter)
    parser.add_argument("program", type=Program)
    parser.add_argument("--nodes", type=int, default=256)
    parser.add_argument("--draws", type=int, default=DRAWS)
    parser.add_argument("--workers", type=int, default=4)
    parser.add_argument("--repeat", type=int, default=3)
    parser.add_argument("--only", default="")
    parser.add_argument("--cases", action="store_true")
    options = parser.parse_args()
    print(f"{'scenario':32} {'table':7} {'engine':14} {'seconds':>8} {'times as fast':>13}")
    for case in asked(options):
        text = scenario(case.shape, case.nodes, case.delay, case.draws)
        for table in case.tables if is_read(options.program, case.name, text) else ():
            engine_words = engines(case.nodes, options.workers, case.team_cut)
            ways = {name: ["--show", table, *words] for name, words in engine_words.items()}
            times, _ = measuring.least_times(options.program, text, ways, options.repeat)
            for name, spent in times.items():
                print(f"{case.name:32} {table:7} {name:14} {spent:8.3f} {times['step'] / spent:13.2f}", flush=True)


if __name__ == "__main__":
    main()
