#!/usr/bin/env python3
"""How long the built program takes for each of its tables, side by side, on a run at the limits of version 1 of the format.

usage: bench/time_of_tables.py PROGRAM [--draws N] [--repeat N]

Runs PROGRAM on a chain of 256 nodes with a member on each, in which member 0 draws 4,096 times and its own link drops one
draw in fifty, which 255 members then lose: some 1.07 million events and 21,000 losses. Each table is made of the same run, so
what differs is the table. Prints, for each table, its lines, the least wall time of N runs, and that time over the trace's.
It asserts nothing.
"""
import argparse
import sys

sys.dont_write_bytecode = True

import measuring
from program import Program

NODES = 256
DRAWS = 4096
SPACING = 1000
LOST = 50
TABLES = ["trace", "members", "losses", "operations", "links", "timers", "scopes"]


def scenario(draws: int) -> bytes:
    """One request and one repair mend each loss, before the next draw but one."""
    # before a draw member 0 sent so many draws, and a repair for each that was lost
    drops = [(0, lost + lost // LOST) for lost in range(0, draws, LOST)]
    return measuring.scenario("chain", NODES, delay=5, until=(draws + 10) * SPACING, draws=draws, spacing=SPACING, drops=drops)


def main() -> None:
    parser = argparse.ArgumentParser(description=__doc__, formatter_class=argparse.RawDescriptionHelpFormatter)
    parser.add_argument("program", type=Program)
    parser.add_argument("--draws", type=int, default=DRAWS)
    parser.add_argument("--repeat", type=int, default=3)
    options = parser.parse_args()
    ways = {table: ["--show", table] for table in TABLES}
    times, written = measuring.least_times(options.program, scenario(options.draws), ways, options.repeat, tables=True)
    print(f"{'table':8} {'lines':>9} {'seconds':>8} {'over trace':>10}")
    for table, spent in times.items():
        lines = written[table].count(b"\n") - 1
        print(f"{table:8} {lines:9} {spent:8.3f} {spent / times['trace']:10.2f}")


if __name__ == "__main__":
    main()
