#!/usr/bin/env python3
"""How long many runs of one scenario take, by one call of the built program and by a call for each run.

usage: bench/time_of_replications.py PROGRAM [--runs N] [--repeat N]

The scenario is a tree of 200 nodes with a member on each third, in which member 0 draws 100 times; its packets are dropped one in
ten, at one link after the other. What is shown is the table of losses of N runs (1,000 by default), with 1, 2 and 4 workers, and
of N processes one after the other, each with a seed of its own. Prints the least wall times, and them over that of one worker.
It asserts nothing about speed.
"""
import argparse
import sys
import time

sys.dont_write_bytecode = True

import measuring
from program import Program

NODES = 200
DRAWS = 100
DROPPED = 10


def scenario() -> bytes:
    """Timers have a random part, so that runs differ."""
    drops = [(count % (NODES - 1), count) for count in range(0, DRAWS, DROPPED)]
    return measuring.scenario("tree", NODES, delay=100, until=200_000, draws=DRAWS, spacing=1000, drops=drops, width=(2000, 1000),
                              apart=3)


def processes(program: Program, text: bytes, runs: int) -> float:
    """The wall time of a call for each seed."""
    begin = time.perf_counter()
    for seed in range(runs):
        program.written(["--show", "losses", "--seed", str(seed)], text)
    return time.perf_counter() - begin


def main() -> None:
    parser = argparse.ArgumentParser(description=__doc__, formatter_class=argparse.RawDescriptionHelpFormatter)
    parser.add_argument("program", type=Program)
    parser.add_argument("--runs", type=int, default=1000)
    parser.add_argument("--repeat", type=int, default=3)
    options = parser.parse_args()
    text = scenario()
    asked = ["--show", "losses", "--replications", str(options.runs), "--workers"]
    ways = {f"{workers} workers": [*asked, str(workers)] for workers in (1, 2, 4)}
    times, _ = measuring.least_times(options.program, text, ways, options.repeat)
    times[f"{options.runs} processes"] = processes(options.program, text, options.runs)
    for way, spent in times.items():
        print(f"{way:16} {spent:8.3f} seconds {spent / times['1 workers']:6.2f}")


if __name__ == "__main__":
    main()
