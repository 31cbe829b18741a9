"""Figures from the tables of experiments.

Of a figure in a configuration `draw` names a function of DRAWS, which takes its other words.
A point is the mean over seeds of the means of each seed, with a 95 per cent interval (Student's t) over the seeds; a
band is from the lower to the upper quartile of all losses.
"""
import io
import math
import os
from collections.abc import Sequence
from typing import Any

import matplotlib
import pandas

matplotlib.use("Agg")
matplotlib.rcParams["svg.hashsalt"] = "srm_lab"  # the same table gives the same bytes
matplotlib.rcParams["svg.fonttype"] = "none"  # letters stay letters
matplotlib.rcParams["font.size"] = 10
matplotlib.rcParams["axes.titley"] = 1.0  # so that no drawing looks for where a title has to be

import adaptive_figures as rounds  # noqa: E402
import local_figures  # noqa: E402
import matplotlib.pyplot as plot  # noqa: E402
from matplotlib.axes import Axes  # noqa: E402
from matplotlib.backends.backend_svg import RendererSVG  # noqa: E402
from matplotlib.colors import to_rgba  # noqa: E402
from matplotlib.figure import Figure  # noqa: E402
from matplotlib.path import Path  # noqa: E402
from matplotlib.text import Annotation  # noqa: E402
from matplotlib.ticker import FixedLocator, FuncFormatter, NullLocator  # noqa: E402
from matplotlib.transforms import Bbox  # noqa: E402
from recoveries import read  # noqa: E402
from srm_lab.statistics import interval  # noqa: E402

BLUE, ORANGE, GREEN, PURPLE, GREY = "#0072b2", "#d55e00", "#009e73", "#cc79a7", "#666666"
COLOURS = (BLUE, ORANGE, GREEN, PURPLE, "#e69f00", "#56b4e9", "#000000")
THEORY = "#222222"
DOTS = 72  # that an SVG has to an inch
STEP = 0.025  # from the bar of one line to the next line's, as a part of the axis
STYLES = ("--", ":", "-.")
MARKS = "osv^D<>"
ROUND = [factor * 10**power for power in range(-2, 4) for factor in (1, 1.5, 2, 3, 5, 7)]
SESSION = "session size (members)"
LABELS = {
    "size": "nodes", "members": SESSION, "c1": "C1", "c2": "C2", "d1": "D1", "d2": "D2",
    "drop_link": "link that loses", "delay": "delay of a link (ticks)", "back": "delay back of a link (ticks)",
    "degree": "degree of inner nodes", "loss": "probability of a loss on a link", "losers": "losers of a loss",
    "requests": "requests for a loss", "repairs": "repairs for a loss", "left": "members that left with a loss",
    "ratio": "delay of the last member\n(round trips to the source)", "last_delay": "delay of the last member (ticks)",
    "least_delay": "least delay of a member (ticks)", "greatest_delay": "greatest delay of a member (ticks)",
}


def left_out(tables: Sequence[pandas.DataFrame]) -> str:
    """What a figure leaves out of its tables, in words."""
    total = {key: sum(table.attrs.get(key, 0) for table in tables) for key in ("rows", "open", "gone", "left")}
    told = []
    if total["open"]:
        told.append(f"left out: {total['open']} of {total['rows']} operations, which some member lacked to the end")
    if total["gone"]:
        told.append(f"left out: {total['gone']} of {total['rows']} operations, all of whose losers left")
    if total["left"]:
        told.append(f"{total['left']} losses ended with a leave, and count in no delay")
    return "; ".join(told)


def label_of(column: str) -> str:
    """The label of an axis on which a column is drawn."""
    return LABELS.get(column, column.replace("_", " "))


def points_of(table: pandas.DataFrame, over: str, column: str) -> pandas.DataFrame:
    """Of each value of `over`: the mean over seeds with its interval, and the quartiles of all losses."""
    rows = {}
    for value, group in table.groupby(over):
        mean = interval(group.groupby("seed")[column].mean())
        rows[value] = {"mean": mean.mean, "low": mean.low, "high": mean.high,
                       "lower": group[column].quantile(0.25), "upper": group[column].quantile(0.75)}
    return pandas.DataFrame.from_dict(rows, orient="index")


def means(axes: Axes, table: pandas.DataFrame, over: str, column: str, look: tuple[str, str, str],
          band: bool = True, joined: bool = True, beside: tuple[float, float] | None = None) -> pandas.DataFrame:
    """Means with intervals over seeds, and quartiles of all losses; `look` is colour, mark, label.

    Means that are not `joined` leave a line of theory beside them to be seen. Those of several tables do not stand over
    each other where they stand `beside` their place: so far along the axis, their quartiles as bars of such a width.
    """
    colour, mark, label = look
    shift, width = beside or (0, 0)
    points = points_of(table, over, column)
    points.index += shift
    spread = [(points["mean"] - points["low"]).fillna(0), (points["high"] - points["mean"]).fillna(0)]
    axes.errorbar(points.index, points["mean"], yerr=spread, color=colour, marker=mark, markersize=4, capsize=3,
                  linewidth=1.2, linestyle="-" if joined else "none", label=f"{label}: mean, 95% interval over seeds")
    if band and width:
        axes.bar(points.index, points["upper"] - points["lower"], bottom=points["lower"], width=width,
                 color=to_rgba(colour, 0.15), edgecolor=to_rgba(colour, 0.6), linewidth=0.8,
                 label=f"{label}: quartiles of all losses")
    elif band:
        quartiles(axes, points, colour, label)
    return points


def quartiles(axes: Axes, points: pandas.DataFrame, colour: str, label: str) -> None:
    """The quartiles of all losses: a band, or, where both are the same at each point, a line."""
    if (points["lower"] == points["upper"]).all():
        axes.plot(points.index, points["lower"], color=colour, linewidth=1, linestyle=":",
                  label=f"{label}: quartiles of all losses, both the same")
    else:
        axes.fill_between(points.index, points["lower"], points["upper"], color=colour, alpha=0.15, linewidth=0,
                          label=f"{label}: quartiles of all losses")


def finish(figure: Figure, parts: Sequence[Axes], tables: Sequence[pandas.DataFrame], below: float = -0.2) -> Figure:
    """Letters of panels, grids, legends under the axes, and what is left out."""
    for letter, axes in zip("abcdefghi", parts):
        told = axes.get_title()
        axes.set_title("")
        axes.set_title(f"({letter}) {told}".strip() if len(parts) > 1 else told, loc="left", fontsize=10)
        axes.grid(alpha=0.3)
        axes.legend(fontsize=8, loc="upper center", bbox_to_anchor=(0.5, below), ncol=1, frameon=False)
    told = left_out(tables)
    if told:
        figure.text(0.01, -0.01, told, fontsize=8, va="top")
    return figure


def name_ticks(axis: Any, values: Sequence[float]) -> None:
    """Labels an axis at these values, and nowhere else."""
    axis.set_major_locator(FixedLocator(list(values)))
    axis.set_minor_locator(NullLocator())
    axis.set_major_formatter(FuncFormatter(lambda value, _: f"{value:g}"))


def over_session_size(tables: list[pandas.DataFrame], words: dict[str, str]) -> Figure:
    """Requests, repairs and delay of each loss against what `over` names: nodes or members; a column for each table."""
    over = words.get("over", "size")
    figure, grid = plot.subplots(3, len(tables), figsize=(1.2 + 5.2 * len(tables), 9.6), squeeze=False, sharex=True,
                                 sharey="row")
    looks = (("requests", ORANGE, "o"), ("repairs", GREEN, "s"), ("ratio", BLUE, "^"))
    for row, (column, colour, mark) in zip(grid, looks):
        look = colour, mark, column if column != "ratio" else "delay"
        greatest = max(means(axes, table, over, column, look).to_numpy().max() for axes, table in zip(row, tables))
        row[0].set_ylim(0, 1.1 * greatest)
        row[0].set_ylabel(label_of(column))
        for axes in row:
            axes.tick_params(labelbottom=True, labelleft=True)
    for axes, table in zip(grid[0], tables):
        if len(tables) > 1:
            axes.set_title(f"{int(table['size'].iloc[0]):,} nodes")
    for axes in grid[2]:
        name_ticks(axes.xaxis, sorted(tables[0][over].unique()))
        axes.set_xlabel(label_of(over))
    finish(figure, list(grid.flat), tables, -0.12)
    for axes in grid[2]:
        axes.legend(fontsize=8, loc="upper center", bbox_to_anchor=(0.5, -0.25), frameon=False)
    return figure


def lines(tables: list[pandas.DataFrame], words: dict[str, str]) -> Figure:
    """`y` against `x`, a line for each value of `by`; tables of several experiments side by side."""
    figure, grid = plot.subplots(1, len(tables), figsize=(5.4 * len(tables), 4.4), squeeze=False)
    x, y, by = words["x"], words["y"], words.get("by")
    for axes, table in zip(grid[0], tables):
        if y not in table:
            raise SystemExit(f"there is no column {y!r}: there are {', '.join(table.columns)}")
        groups = [("", table)] if by is None else [(f"{label_of(by)} {value}", one) for value, one in table.groupby(by)]
        places, step = places_of(table[x], len(groups))
        for at, ((label, one), colour, mark) in enumerate(zip(groups, COLOURS * len(groups), MARKS * len(groups))):
            look = colour, mark, label or label_of(y).split("\n")[0]
            shift = step * (at - (len(groups) - 1) / 2)
            means(axes, one.assign(place=one[x].map(places)), "place", y, look, band=len(groups) == 1, beside=(shift, 0))
        axes.set_xlabel(label_of(x))
        axes.set_ylabel(label_of(y))
        axes.set_xticks(list(places.values()), [f"{it:g}" if are_numbers(table[x]) else str(it) for it in places])
    return finish(figure, list(grid[0]), tables)


def are_numbers(values: pandas.Series) -> bool:
    """Whether values are numbers, of which true and false are none here."""
    return pandas.api.types.is_numeric_dtype(values) and not pandas.api.types.is_bool_dtype(values)


def places_of(values: pandas.Series, count: int) -> tuple[dict[Any, float], float]:
    """Where values stand along an axis, and how far apart the bars of so many lines stand beside each other at each.

    Numbers stand where they are; those that are too close for their bars, and other values, equally far from each other.
    """
    shown = sorted(values.dropna().unique())
    if are_numbers(values) and len(shown) > 1:
        step = STEP * (shown[-1] - shown[0])
        if min(later - one for one, later in zip(shown, shown[1:])) >= (count + 1) * step:
            return dict(zip(shown, shown)), step
    return dict(zip(shown, range(len(shown)))), min(STEP * max(1, len(shown) - 1), 1 / (count + 1))


def requests_in_a_star(tables: list[pandas.DataFrame], words: dict[str, str]) -> Figure:
    """Requests against C2 where the source's own link loses, with 1 + n / C2 for n losers."""
    figure, (left, right) = plot.subplots(1, 2, figsize=(10, 5.2))
    for table, (colour, other), mark, style in zip(tables, ((ORANGE, BLUE), (PURPLE, GREEN)), "os", STYLES):
        losers, c1 = int(table["size"].iloc[0]) - 2, table["c1"].iloc[0]
        told = f"n = {losers}, C1 = {c1:g}"
        means(left, table, "c2", "requests", (colour, mark, told), band=False, joined=False)
        asked = [c2 / 10 for c2 in range(10, 10 * int(table["c2"].max()) + 1)]
        left.plot(asked, [requests_of(losers, c2) for c2 in asked], color=THEORY, linewidth=1, linestyle=style,
                  label=f"theory, 1 + n / C2, n = {losers}")
        means(right, table, "c2", "ratio", (other, mark, told), band=False)
    left.set_yscale("log")
    name_ticks(left.yaxis, ROUND)
    left.set_ylabel(label_of("requests"))
    right.set_ylabel(label_of("ratio"))
    right.set_ylim(bottom=0)
    for axes in (left, right):
        axes.set_xlabel(label_of("c2"))
    return finish(figure, [left, right], tables)


def requests_of(losers: int, c2: float) -> float:
    """The expected number of requests of n losers, as far from each other as from the source, at C2 of at least 1.

    Their timers are n uniform numbers from an interval of length C2 times the distance; those ask whose timers end
    less than one distance after the first. That is 1 + n / C2, less C2^-n, which is 1 at C2 = 1 and soon nothing.
    """
    return 1 + losers / c2 - c2**-losers


def chain_of_sure_timers(tables: list[pandas.DataFrame], words: dict[str, str]) -> Figure:
    """Requests, repairs and delay against the way to the first loser, with D (c1 s + 2 + d1)."""
    table, = tables
    table["hops"] = table["drop_link"].str.removeprefix("hops:").astype(int)
    c1, d1 = table["c1"].iloc[0], table["d1"].iloc[0]
    figure, (left, right) = plot.subplots(1, 2, figsize=(10, 4.8))
    for column, colour, mark in (("requests", ORANGE, "o"), ("repairs", GREEN, "x")):
        points = points_of(table, "hops", column)
        left.plot(points.index, points["mean"], color=colour, marker=mark, label=f"{column}: mean")
    left.set_ylabel("packets for a loss")
    left.set_ylim(0, 3)
    delay = table["delay"].iloc[0]
    low, high = table.groupby("hops")["least_delay"].min(), table.groupby("hops")["greatest_delay"].max()
    right.plot(low.index, low / delay, color=BLUE, marker="v", linestyle="none", label="least of all members and seeds")
    right.plot(high.index, high / delay, color=ORANGE, marker="^", linestyle="none",
               label="greatest of all members and seeds")
    way = [0, table["hops"].max()]
    right.plot(way, [c1 * hops + 2 + d1 for hops in way], color=THEORY, linewidth=1, linestyle="--",
               label=f"theory, C1 s + 2 + D1, C1 = {c1:g}, D1 = {d1:g}")
    right.set_ylabel("recovery delay (delays of a link)")
    for axes in (left, right):
        axes.set_xlabel("s: links from the source to the first loser")
    return finish(figure, [left, right], tables)


def requests_against_delay(tables: list[pandas.DataFrame], words: dict[str, str]) -> Figure:
    """Mean requests against mean delay, each point a C2, for near and far losses."""
    figure, parts = plot.subplots(1, 2, figsize=(10, 5.4))
    drawn = [trade_off(axes, table) for axes, table in zip(parts, tables)]
    finish(figure, list(parts), tables, -0.16)
    figure.tight_layout()  # labels are placed by what stands beside them in the finished picture
    for axes, lines_drawn in zip(parts, drawn):
        label_marks(axes, lines_drawn)
    return figure


def trade_off(axes: Axes, table: pandas.DataFrame) -> list[tuple[str, pandas.DataFrame, pandas.DataFrame]]:
    """One panel; of each of its lines the colour, the delays and the requests."""
    size, c1 = int(table["size"].iloc[0]), table["c1"].iloc[0]
    drawn = []
    for link, colour, mark in zip(sorted(table["drop_link"].unique(), key=lambda text: int(text[5:])), COLOURS, MARKS):
        one = table[table["drop_link"] == link]
        delay, requests = points_of(one, "c2", "ratio"), points_of(one, "c2", "requests")
        hops = int(link[5:])
        axes.errorbar(delay["mean"], requests["mean"], color=colour, marker=mark, markersize=4, linewidth=1,
                      xerr=[delay["mean"] - delay["low"], delay["high"] - delay["mean"]], capsize=2,
                      yerr=[requests["mean"] - requests["low"], requests["high"] - requests["mean"]],
                      label=f"first loser {hops} link{'s' if hops > 1 else ''} away, C1 = {c1:g}: "
                            "means, 95% intervals over seeds")
        drawn.append((colour, delay, requests))
    axes.set_title(f"{table['kind'].iloc[0]} of {size} members; at each mark its C2")
    axes.set_xlabel("delay of the last member (round trips to the source)")
    axes.set_ylabel("requests for a loss")
    axes.set_xscale("log")
    name_ticks(axes.xaxis, ROUND)
    points = table.groupby(["drop_link", "c2"])["ratio"].mean()
    axes.set_xlim(0.8 * points.min(), 1.25 * points.max())
    return drawn


def label_marks(axes: Axes, drawn: list[tuple[str, pandas.DataFrame, pandas.DataFrame]]) -> None:
    """Writes beside each mark what it stands for, where no line, interval or other label is in the way."""
    taken = [Path(axes.transData.transform(one)) for _, delay, requests in drawn for one in strokes(delay, requests)]
    boxes: list[Bbox] = []
    for colour, delay, requests in drawn:
        for c2 in delay.index:
            label = axes.annotate(f"{c2:g}", (delay["mean"][c2], requests["mean"][c2]), textcoords="offset points",
                                  xytext=(0, 0), fontsize=7, color=colour, ha="center", va="center_baseline")
            label.xyann = (next((offset for offset in AROUND if not crossings(label, offset, taken, boxes)), None)
                           or min(AROUND, key=lambda offset: crossings(label, offset, taken, boxes)))
            boxes.append(label.get_window_extent())


AROUND = [(far * math.cos(turn * math.pi / 8), far * math.sin(turn * math.pi / 8))
          for far in (8, 10, 12, 15, 18) for turn in (2, 1, 3, 0, 4, 6, 14, 12, 10, 8, 5, 7, 9, 11, 13, 15)]


def strokes(delay: pandas.DataFrame, requests: pandas.DataFrame) -> list[list[tuple[float, float]]]:
    """The line through the means, and their intervals, each as its corners."""
    found = [list(zip(delay["mean"], requests["mean"]))]
    for (_, x), (_, y) in zip(delay.iterrows(), requests.iterrows()):
        found += [[(x["low"], y["mean"]), (x["high"], y["mean"])], [(x["mean"], y["low"]), (x["mean"], y["high"])]]
    return [corners for corners in found if not any(math.isnan(value) for corner in corners for value in corner)]


def crossings(label: Annotation, offset: tuple[float, float], taken: list[Path], boxes: list[Bbox]) -> int:
    """How many strokes and other labels are in the way of a label that stands at this offset from its mark."""
    label.xyann = offset
    box = label.get_window_extent().padded(1.5)
    return (sum(path.intersects_bbox(box, filled=False) for path in taken)
            + sum(box.overlaps(other) for other in boxes))


LOOKS = {("srm_lab", False): (BLUE, "o"), ("srm_lab", True): (ORANGE, "s"),
         ("ns-2", False): (GREY, "v"), ("ns-2", True): (PURPLE, "^")}


def runs_of(tables: list[pandas.DataFrame]) -> dict[tuple[str, bool], pandas.DataFrame]:
    """The losses of each program and kind of timers, with their rounds; the second table is ns-2's."""
    programs = dict(zip(("srm_lab", "ns-2"), map(rounds.with_rounds, tables)))
    found = {(program, adaptive): programs[program][programs[program]["adaptive"] == adaptive]
             for program, adaptive in LOOKS if program in programs}
    return {key: table for key, table in found.items() if len(table)}


def name_of(program: str, adaptive: bool) -> str:
    """A program and its timers, in words."""
    return f"{program}, {'adaptive' if adaptive else 'fixed'} timers"


def over_rounds(tables: list[pandas.DataFrame], words: dict[str, str]) -> Figure:
    """Requests, repairs and delay over rounds of loss, of fixed and adaptive timers; the second table is ns-2's.

    A column for each program, with the medians and the quartiles of each round, and one with the means of both.
    """
    shown = runs_of(tables)
    programs = list(dict.fromkeys(program for program, _ in shown))
    figure, grid = plot.subplots(3, len(programs) + 1, figsize=(5 * len(programs) + 5, 10.5), sharex=True, sharey="row")
    for row, column in zip(grid, rounds.MEASURES):
        for place, ((program, adaptive), one) in enumerate(shown.items()):
            (colour, mark), told = LOOKS[program, adaptive], name_of(program, adaptive)
            rounds.medians(row[programs.index(program)], one, column, (colour, "--" if adaptive else "-", told))
            rounds.blocks(row[-1], one, column, (colour, mark, told), 3 * (place - (len(shown) - 1) / 2))
        row[0].set_ylabel(label_of(column))
        row[0].set_ylim(bottom=0)
        for axes in row:
            axes.tick_params(labelbottom=True, labelleft=True)
    for axes, program, table in zip(grid[0], programs, tables):
        axes.set_title(f"{program}, {table['seed'].nunique()} seeds: each round")
    grid[0][-1].set_title(f"means of {rounds.BLOCK} rounds")
    for axes in grid[2]:
        axes.set_xlabel("round")
        name_ticks(axes.xaxis, range(0, max(int(one["round"].max()) for one in shown.values()) + 1, rounds.BLOCK))
    finish(figure, list(grid.flat), tables, -0.2)
    for axes in grid[:2].flat:
        axes.get_legend().remove()  # that of the panels below is theirs too
    return figure


def adapted_over_size(tables: list[pandas.DataFrame], words: dict[str, str]) -> Figure:
    """Requests, repairs and delay against what `over` names, of fixed and adaptive timers after some rounds.

    The second table is ns-2's.
    """
    shown = {key: table[table["round"] > rounds.SETTLED] for key, table in runs_of(tables).items()}
    figure, parts = plot.subplots(3, 1, figsize=(6.4, 10.2), sharex=True)
    over = words.get("over", "members")
    for axes, column in zip(parts, rounds.MEASURES):
        for place, ((program, adaptive), one) in enumerate(shown.items()):
            (colour, mark), told = LOOKS[program, adaptive], f"{name_of(program, adaptive)}, {one['seed'].nunique()} seeds"
            shift = 2.4 * (place - (len(shown) - 1) / 2)
            means(axes, one, over, column, (colour, mark, told), beside=(shift, 1.92))
        axes.set_ylabel(label_of(column))
        axes.set_ylim(bottom=0)
        axes.tick_params(labelbottom=True)
    name_ticks(parts[2].xaxis, sorted(tables[0][over].unique()))
    last = max(int(one["round"].max()) for one in shown.values())
    parts[2].set_xlabel(f"{label_of(over)}; rounds {rounds.SETTLED + 1} to {last}")
    finish(figure, parts, tables, -0.25)
    for axes in parts[:2]:
        axes.get_legend().remove()
    return figure


def over_spacing(tables: list[pandas.DataFrame], words: dict[str, str]) -> Figure:
    """Requests, repairs and delay against how far apart losses lie, of fixed and adaptive timers; a column for each table.

    The spacings stand equally far from each other, whatever they are.
    """
    figure, grid = plot.subplots(3, len(tables), figsize=(1.2 + 5.2 * len(tables), 9.6), squeeze=False, sharey="row")
    for row, measure in zip(grid, rounds.MEASURES):
        greatest = max(both_timers(axes, table, measure) for axes, table in zip(row, tables))
        row[0].set_ylim(0, 1.1 * greatest)
        row[0].set_ylabel(label_of(measure))
        for axes in row:
            axes.tick_params(labelleft=True)
    for axes, table in zip(grid[0], tables):
        axes.set_title(f"{table['kind'].iloc[0]} of {int(table['size'].iloc[0]):,} nodes")
    for axes in grid[2]:
        axes.set_xlabel("ticks from a loss to the next")
    finish(figure, list(grid.flat), tables, -0.25)
    for axes in grid[:2].flat:
        axes.get_legend().remove()
    return figure


def both_timers(axes: Axes, table: pandas.DataFrame, measure: str) -> float:
    """One panel of `over_spacing`; the greatest value in it."""
    spacings = sorted(table["every"].unique())
    placed = table.assign(place=table["every"].map(spacings.index))
    axes.set_xticks(range(len(spacings)), [f"{rounds.DRAWS * every:,}" for every in spacings])
    looks = ((False, (BLUE, "o", "fixed timers"), -0.12), (True, (ORANGE, "s", "adaptive timers"), 0.12))
    return max(means(axes, placed[placed["adaptive"] == adaptive], "place", measure, look, beside=(shift, 0.192)).to_numpy().max()
               for adaptive, look, shift in looks)


def local(tables: list[pandas.DataFrame], words: dict[str, str]) -> Figure:
    """Who hears what a loss takes, and the longest delay, over the session's size or what `over` names; a column for each table.

    A line for each of to all, in one step, and in two: medians of all runs, with quartiles.
    """
    measures, looks = local_figures.MEASURES, ((BLUE, "o", 4), (ORANGE, "s", 7), (GREEN, "^", 4))
    figure, grid = plot.subplots(len(measures), len(tables), figsize=(1.2 + 5.2 * len(tables), 11.6), squeeze=False, sharey="row")
    for axes, table in zip(grid.T, tables):
        over = local_figures.over_of(table, words)
        for part, column in zip(axes, measures):
            for mode, look in zip(local_figures.MODES, looks):
                local_figures.medians(part, local_figures.of_mode(table, mode), over, column, look, mode)
            part.set_xscale("log")
            name_ticks(part.xaxis, sorted(table[over].unique()))
            part.tick_params(labelleft=True)
        axes[0].set_title(local_figures.told(table))
        axes[-1].set_xlabel(SESSION if over == "size" else label_of(over))
    for row, label in zip(grid, measures.values()):
        row[0].set_ylabel(label)
    for row in grid[:-1]:
        row[0].set_yscale("log")
        name_ticks(row[0].yaxis, [factor * 10**power for power in range(-1, 5) for factor in (1, 2, 5)])
    grid[-1][0].set_ylim(bottom=0)
    finish(figure, list(grid.flat), tables, -0.25)
    for axes in grid[:-1].flat:
        axes.get_legend().remove()
    return figure


DRAWS = {draw.__name__: draw for draw in (
    over_session_size, lines, requests_in_a_star, chain_of_sure_timers, requests_against_delay, over_rounds,
    adapted_over_size, over_spacing, local)}


def draw(asked: dict[str, Any], svg: str, png: str, *paths: str) -> None:
    """Draws one figure."""
    figure = DRAWS[asked["draw"]]([read(path) for path in paths], asked)
    figure.tight_layout()
    box = box_of(figure)
    figure.savefig(svg, dpi=DOTS, metadata={"Date": None}, bbox_inches=box)
    figure.savefig(png, dpi=150, metadata={"Software": None}, bbox_inches=box)
    plot.close(figure)


def box_of(figure: Figure) -> Bbox:
    """The part of a figure that is drawn on, in inches: for both files that of the SVG.

    With `bbox_inches="tight"` each file would be drawn twice, and looked through once more.
    """
    figure.dpi = DOTS
    return figure.get_tightbbox(RendererSVG(*figure.bbox.size, io.StringIO())).padded(matplotlib.rcParams["savefig.pad_inches"])


def draw_all(config: dict[str, dict[str, Any]], results: "os.PathLike[str]") -> None:
    """Draws all figures of a configuration, whose tables are in the folder of its results."""
    for name, asked in config.items():
        picture = f"{results}/figures/{name}"
        draw(asked, f"{picture}.svg", f"{picture}.png", *(f"{results}/tables/{one}.csv" for one in asked["of"]))
