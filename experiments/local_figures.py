"""The figure of local recovery, for figures.py: who hears what a loss takes, without a scope, in one step and in two."""
from typing import Any

import pandas
from matplotlib.axes import Axes

# by whether requests have a scope, and the steps of repairs: without one these decide nothing
MODES = {"to all": ("0", 2), "one step": ("least", 1), "two steps": ("least", 2)}
MEASURES = {"requests_heard": "members that hear a request,\neach for each, over losers",
            "repairs_heard": "members that hear a repair,\neach for each, over losers",
            "hearing": "members that hear any of them,\nover losers",
            "longest_delay": "longest delay of a loser\n(round trips to the source)"}


def of_mode(table: pandas.DataFrame, mode: str) -> pandas.DataFrame:
    """The runs of a mode."""
    scope, steps = MODES[mode]
    return table[(table["scope"].astype(str) == scope) & (table["steps"] == steps)]


def medians(axes: Axes, table: pandas.DataFrame, over: str, column: str, look: tuple[str, str, int], label: str) -> None:
    """Of each value of `over` the median over runs, and the quartiles as a band; `look` is colour, mark and its size."""
    colour, mark, size = look
    runs = table.groupby(over)[column]
    middle, lower, upper = (runs.quantile(part) for part in (0.5, 0.25, 0.75))
    axes.fill_between(middle.index, lower, upper, color=colour, alpha=0.18, linewidth=0, label=f"{label}: quartiles of the runs")
    axes.plot(middle.index, middle, color=colour, marker=mark, markersize=size, linewidth=size / 3,
              label=f"{label}: median of the runs")


def told(table: pandas.DataFrame) -> str:
    """What a table's runs have in common, in words."""
    nodes = "each node a member" if "members" not in table else f"{int(table['size'].iloc[0]):,} nodes"
    if "loss" not in table:
        return nodes
    members = f"{int(table['members'].iloc[0])} members on " if "members" in table else ""
    burst = f"in bursts of {int(table['burst'].iloc[0]):,} ticks" if "burst" in table else "one by one"
    return f"{members}{nodes}, packets lost {burst}"


def over_of(table: pandas.DataFrame, words: dict[str, Any]) -> str:
    """What stands across: the key that `over` names, or the size of the session."""
    return str(words.get("over", "members" if "members" in table else "size"))
