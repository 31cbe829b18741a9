"""Means of 20 rounds of loss, of which docs/EXPERIMENTS.md shows some, with 95 per cent intervals over seeds.

usage: rounds_table.py TABLE..

TABLE are those of experiments with rounds, results-adaptive/tables/rounds_star.csv for one. A line is printed for each of
three blocks of rounds and each kind of timers: requests, repairs, and the delay of the last member in its round trips.
"""
import sys
from collections.abc import Iterator
from pathlib import Path

import pandas
from adaptive_figures import BLOCK, MEASURES, block_means, with_rounds
from recoveries import read

SHOWN = (1, 21, 81)  # the first round of each block that is told


def lines(table: pandas.DataFrame) -> Iterator[str]:
    """The lines of one table."""
    for first in SHOWN:
        for adaptive, one in table.groupby("adaptive"):
            blocks = [block_means(one, column).loc[first + (BLOCK - 1) / 2] for column in MEASURES]
            told = (f"{block['mean']:.2f} [{block['low']:.2f}, {block['high']:.2f}]" for block in blocks)
            yield f"| {first} to {first + BLOCK - 1} | {'adaptive' if adaptive else 'fixed'} | {' | '.join(told)} |"


def main(*paths: str) -> None:
    """Prints the lines of each table."""
    for path in paths:
        table = with_rounds(read(path))
        print(f"{Path(path).stem}, {table['seed'].nunique()} seeds")
        print("\n".join(lines(table)))


if __name__ == "__main__":
    main(*sys.argv[1:])
