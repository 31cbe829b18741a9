"""The figures of adaptive timers, for figures.py: rounds of loss, and sessions of many sizes after some rounds."""
from typing import Any

import pandas
from matplotlib.axes import Axes
from srm_lab.statistics import interval

MEASURES = ("requests", "repairs", "ratio")
DRAWS = 2  # of the source in a round, the first of which is lost
BLOCK = 20  # rounds of which one mean is taken
SETTLED = 40  # rounds after which timers count as adapted


def with_rounds(table: pandas.DataFrame) -> pandas.DataFrame:
    """A table with the round of each loss, from 1: the source draws twice in a round, and the first is lost."""
    numbers = table["operation"].str.rpartition("/")[2].astype(int)
    return table.assign(round=numbers // DRAWS + 1)


def medians(axes: Axes, table: pandas.DataFrame, column: str, look: tuple[str, str, str]) -> None:
    """Of each round the median over seeds, and the quartiles over seeds as a band; `look` is colour, style, label."""
    colour, style, label = look
    seeds = table.groupby("round")[column]
    middle, lower, upper = (seeds.quantile(part) for part in (0.5, 0.25, 0.75))
    axes.fill_between(middle.index, lower, upper, color=colour, alpha=0.2, linewidth=0, step="mid",
                      label=f"{label}: quartiles of the seeds")
    axes.plot(middle.index, middle, color=colour, linewidth=1.2, linestyle=style, drawstyle="steps-mid",
              label=f"{label}: median of the seeds")


def block_means(table: pandas.DataFrame, column: str) -> pandas.DataFrame:
    """Of each block of rounds the mean over seeds of the means of each seed, with its interval."""
    rows: dict[float, dict[str, Any]] = {}
    for block, group in table.groupby((table["round"] - 1) // BLOCK):
        mean = interval(group.groupby("seed")[column].mean())
        rows[BLOCK * int(block) + (BLOCK + 1) / 2] = {"mean": mean.mean, "low": mean.low, "high": mean.high}
    return pandas.DataFrame.from_dict(rows, orient="index")


def blocks(axes: Axes, table: pandas.DataFrame, column: str, look: tuple[str, str, str], shift: float) -> None:
    """The means of blocks of rounds, beside others by `shift` rounds; `look` is colour, mark, label."""
    colour, mark, label = look
    points = block_means(table, column)
    spread = [(points["mean"] - points["low"]).fillna(0), (points["high"] - points["mean"]).fillna(0)]
    axes.errorbar(points.index + shift, points["mean"], yerr=spread, color=colour, marker=mark, markersize=4, capsize=3,
                  linewidth=1.2, linestyle="none", label=f"{label}: mean, 95% interval over seeds")
