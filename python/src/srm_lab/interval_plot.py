"""A figure of means with their intervals, of what `summarise` or `paired` gives by groups."""
from collections.abc import Iterator
from typing import TYPE_CHECKING, Any

import numpy
import pandas

from .errors import ScenarioError, perhaps, spelled

if TYPE_CHECKING:
    from matplotlib.axes import Axes

COLOURS = ("#0072b2", "#d55e00", "#009e73", "#cc79a7", "#e69f00", "#56b4e9", "#000000")
MARKS = "os^Dv<>"
APART = 5  # points of the page between the bars of two lines at one place, where there is room
ROOM = 8  # points of the page beside the outermost points: their marks and caps, and what a layout may take
NEEDED = ("mean", "low", "high")


@spelled
def plot(summary: pandas.DataFrame, x: str | None = None, axes: "Axes | None" = None, **words: Any) -> "Axes":
    """Draws means with their intervals, of a table that `summarise` or `paired` gives with `by`, and gives the axes.

    `x` is the column of `by` that lies across, by default the first; each combination of the others is a line. Bars of
    several lines at one place stand beside each other. `axes` are matplotlib's, by default of a new figure; other words
    are those of its `errorbar`.
    """
    if not isinstance(summary, pandas.DataFrame) or not {*NEEDED} <= {*summary.columns} or summary.index.names[0] is None:
        raise ScenarioError("plot takes the table that summarise or paired gives with `by`, with `by` as its index and "
                            "columns mean, low and high")
    names = list(summary.index.names)
    across = names[0] if x is None else x
    if across not in names:
        raise ScenarioError(f"x is {across!r}, and has to be one of {', '.join(map(str, names))}{perhaps(across, names)}")
    if axes is None:
        from matplotlib import pyplot  # takes a second to load, and is needed here alone

        axes = pyplot.subplots()[1]
    lines = list(lines_of(summary, across))
    places = places_of(summary.index.get_level_values(across))
    width = axes.bbox.width * 72 / axes.figure.dpi
    apart = min(APART, width / (2 * len(lines)))
    _widen(axes, (apart * (len(lines) - 1) / 2 + ROOM) / width)
    for number, (label, line) in enumerate(lines):
        look = {"color": COLOURS[number % len(COLOURS)], "marker": MARKS[number % len(MARKS)], "markersize": 5, "capsize": 3,
                "linewidth": 1.2, "label": label}
        shift = apart * (number - (len(lines) - 1) / 2)
        _draw(axes, [places[value] for value in line.index], line, shift, {**look, **words})
    if [*places] != [*places.values()]:
        axes.set_xticks([*places.values()], [str(value) for value in places])
    axes.set_xlabel(across)
    axes.set_ylabel(y_label(summary))
    axes.grid(alpha=0.3)
    if len(names) > 1:
        axes.legend(frameon=False)
    return axes


def _draw(axes: "Axes", places: list[float], line: pandas.DataFrame, shift: float, words: dict[str, Any]) -> None:
    """One line of means with their intervals, so many points of the page beside its places."""
    from matplotlib.transforms import offset_copy

    mean, low, high = (line[name].to_numpy(float) for name in NEEDED)
    spread = numpy.nan_to_num(numpy.maximum([mean - low, high - mean], 0))  # a single seed has no interval
    moved = offset_copy(axes.transData, axes.figure, x=shift, units="points")
    for part in axes.errorbar(places, mean, spread, **words).get_children():
        part.set_transform(moved)  # after it was drawn, since the limits are of places, whatever the scale


def _widen(axes: "Axes", part: float) -> None:
    """Keeps free at least this part of the width at either side, of all axes that share the limits."""
    for one in axes.get_shared_x_axes().get_siblings(axes):
        free = min(part, 0.4)
        one.set_xmargin(max(one.margins()[0], free / (1 - 2 * free)))


def lines_of(summary: pandas.DataFrame, across: str) -> Iterator[tuple[str | None, pandas.DataFrame]]:
    """Each line of a figure: its label, and its rows by what lies across."""
    others = [name for name in summary.index.names if name != across]
    if not others:
        yield None, summary
        return
    for values, line in summary.groupby(level=others, sort=False):
        several = values if isinstance(values, tuple) else (values,)
        yield ", ".join(f"{name} = {value}" for name, value in zip(others, several)), line.droplevel(others)


def places_of(values: pandas.Index) -> dict[Any, float]:
    """Where each value lies across: at its number, or, of words, one after the other."""
    each = list(dict.fromkeys(values))
    is_number = pandas.api.types.is_numeric_dtype(values) and not pandas.api.types.is_bool_dtype(values)
    return dict(zip(each, each if is_number else range(len(each))))


def y_label(summary: pandas.DataFrame) -> str:
    """What lies upwards."""
    level = summary.attrs.get("level", 0.95)
    what = summary.attrs.get("expression", "")
    if "second" in summary:
        what = f"{what}: second less first"
    return f"{what}\nmean, {100 * level:g}% interval over seeds".strip()
