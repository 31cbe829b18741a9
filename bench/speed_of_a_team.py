#!/usr/bin/env python3
"""How many times as fast as the sequential engine a team is: against members, delay of links, and workers.

usage: bench/speed_of_a_team.py PROGRAM --table TABLE [--repeat N] [--figure SVG]

Runs PROGRAM on trees of degree 4 with a member on each node, on which member 0 draws once in 10 ticks and one in forty of its
packets is dropped, as bench/time_of_engines.py does. A series varies one of three things from MIDDLE, and leaves the others as
they are there. Each run's table of links and its trace are timed, `step` and the team in turn, and all must write the same bytes.
TABLE is a CSV file that takes the least wall time in seconds of N runs of each; what stands in it is not measured again. With
--figure the figure of the table is drawn. It needs pandas, and matplotlib for the figure. It asserts nothing about speed.
"""
import argparse
import pathlib
import sys
from collections.abc import Iterator
from typing import NamedTuple

sys.dont_write_bytecode = True

import measuring
import pandas
from program import Program
from time_of_engines import is_read, scenario

COLUMNS = ["series", "members", "delay", "workers", "table", "step", "team"]
TABLES = ("links", "trace")
DRAWS = 512


class Setting(NamedTuple):
    """How many members a tree has, how many ticks its links take, and how many workers a team has."""

    members: int
    delay: int
    workers: int


MIDDLE = Setting(members=1024, delay=1000, workers=4)
SERIES = {
    "members": [MIDDLE._replace(members=members) for members in (64, 128, 256, 512, 1024, 2048, 4096)],
    "delay": [MIDDLE._replace(delay=delay) for delay in (1, 10, 30, 100, 300, 1000, 10000)],
    "workers": [MIDDLE._replace(workers=workers) for workers in (1, 2, 3, 4)],
}
LABELS = {"members": "members", "delay": "delay of a link (ticks)", "workers": "workers"}


def words(setting: Setting) -> list[str]:
    """The options of the team; a job has as many members as go evenly to sixteen jobs for each worker."""
    cut = min(1024, max(1, setting.members // (16 * setting.workers)))
    return ["--engine", "window", "--crew", "team", "--workers", str(setting.workers), "--cut", str(cut)]


def least_times(program: Program, setting: Setting, table: str, repeat: int) -> tuple[float, float]:
    """The least wall times of the sequential engine and of the team, which run in turn."""
    text = scenario("tree", setting.members, setting.delay, DRAWS)
    if not is_read(program, str(setting), text):
        sys.exit(1)
    ways = {"step": ["--show", table], "team": ["--show", table, *words(setting)]}
    times, _ = measuring.least_times(program, text, ways, repeat)
    return times["step"], times["team"]


def measured(program: Program, known: pandas.DataFrame, repeat: int) -> Iterator[list[object]]:
    """The rows that the table lacks."""
    there = set(known[COLUMNS[:5]].itertuples(index=False, name=None))
    for series, settings in SERIES.items():
        for setting in settings:
            for table in TABLES:
                if (series, *setting, table) not in there:
                    yield [series, *setting, table, *least_times(program, setting, table, repeat)]


def draw(table: pandas.DataFrame, svg: str) -> None:
    """Draws how many times as fast as `step` the team is, a part of the figure for each series."""
    import matplotlib

    matplotlib.use("Agg")
    matplotlib.rcParams |= {"svg.hashsalt": "srm_lab", "svg.fonttype": "none", "font.size": 10}
    import matplotlib.pyplot as plot

    figure, parts = plot.subplots(1, len(SERIES), figsize=(9.5, 3.2), sharey=True, layout="constrained")
    for part, series in zip(parts, SERIES):
        part.axhline(1, color="#666666", linewidth=0.8, linestyle=":")
        for name, colour, mark in zip(TABLES, ("#0072b2", "#d55e00"), "os"):
            rows = table[(table["series"] == series) & (table["table"] == name)].sort_values(series)
            part.plot(rows[series], rows["step"] / rows["team"], color=colour, marker=mark, markersize=4, label=f"table of {name}"
                      if name == "links" else name)
        if series != "workers":
            part.set_xscale("log")
        else:
            part.set_xticks([setting.workers for setting in SERIES[series]])
        part.set_xlabel(LABELS[series])
        part.set_ylim(bottom=0)
        part.grid(alpha=0.25)
    parts[0].set_ylabel("times as fast as step")
    parts[-1].legend(frameon=False, loc="upper left")
    figure.savefig(svg, metadata={"Date": None})


def main() -> None:
    parser = argparse.ArgumentParser(description=__doc__, formatter_class=argparse.RawDescriptionHelpFormatter)
    parser.add_argument("program", type=Program)
    parser.add_argument("--table", type=pathlib.Path, required=True)
    parser.add_argument("--repeat", type=int, default=3)
    parser.add_argument("--figure")
    options = parser.parse_args()
    known = pandas.read_csv(options.table) if options.table.exists() else pandas.DataFrame(columns=COLUMNS)
    for row in measured(options.program, known, options.repeat):
        print(*row, flush=True)
        known.loc[len(known)] = row
        known.to_csv(options.table, index=False, float_format="%.4f")
    if options.figure:
        draw(known, options.figure)


if __name__ == "__main__":
    main()
