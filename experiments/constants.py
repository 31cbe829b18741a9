"""How C1 and C2 of members near to a loss and far from it move over rounds of loss: a figure.

usage: constants.py PROGRAM SVG PNG [COUNT]

50 members are on random nodes of a tree of degree 4 with 1,000 nodes, and a link at a random source loses, round after
round. Of its losers the nearest to the source and the farthest from it are taken, for 20 seeds, each of a session of its
own. PROGRAM tells of each event that changes a constant; drawn is what constants are at the end of a round. With COUNT
ns-2's adaptive agents go through the first so many of these sessions as well, some ten seconds of a processor for each.
"""
import sys
from collections.abc import Callable, Iterable
from functools import partial

import matplotlib
import pandas

matplotlib.use("Agg")
matplotlib.rcParams["svg.hashsalt"] = "srm_lab"
matplotlib.rcParams["svg.fonttype"] = "none"
matplotlib.rcParams["font.size"] = 10

import matplotlib.pyplot as plot  # noqa: E402
from matplotlib.axes import Axes  # noqa: E402
from ns2_agent import ns2  # noqa: E402
from srm_lab import Scenario, run, scenario  # noqa: E402
from srm_lab.losses import losers  # noqa: E402
from srm_lab.parts import CONSTANTS  # noqa: E402

ROUNDS, SEEDS = 100, range(1, 21)
LOOKS = {("srm_lab", "nearest"): ("#0072b2", "-"), ("srm_lab", "farthest"): ("#d55e00", "-"),
         ("ns-2", "nearest"): ("#666666", "--"), ("ns-2", "farthest"): ("#cc79a7", "--")}


def session(seed: int) -> Scenario:
    """A session whose losers are not all as far from the source."""
    given = scenario.regular_tree(1000, members=50, source="random", delay=1000, seed=seed)
    return given.adaptive().rounds(ROUNDS, link="adjacent")


def ends(given: Scenario) -> dict[str, int]:
    """The nearest and the farthest of a session's losers; of several that are as far the first."""
    nodes = [member.node for member in given.members]
    behind = losers(given.tree, nodes[0], nodes[1:], given.settled.outages[0].link)
    far = given.tree.distances(nodes[0])
    return {"nearest": nodes.index(min(behind, key=far.__getitem__)),
            "farthest": nodes.index(max(behind, key=far.__getitem__))}


def after_rounds(table: pandas.DataFrame, starts: list[int], member: int) -> pandas.DataFrame:
    """C1 and C2 of a member at the end of each round, in plain numbers; the next round starts with its first draw."""
    own = table[table["member"] == member].sort_values("time", kind="stable")
    rows = []
    for place, end in enumerate([*starts[1:], None], 1):
        last = (own if end is None else own[own["time"] < end]).iloc[-1]
        rows.append({"round": place, "C1": last["c1"] / 1000, "C2": last["c2"] / 1000})
    return pandas.DataFrame(rows)


def of_program(program: str, given: Scenario, seed: int) -> pandas.DataFrame:
    """The constants that members' timers go by in PROGRAM: a row for each event that changes one."""
    return run(given, [seed], ["constants"], program, cache=None, progress=False).constants


def of_ns2(given: Scenario, seed: int) -> pandas.DataFrame:
    """The same of ns-2's adaptive agents, with random numbers of their own."""
    told = ns2(given.text(), seed=seed).constants
    rows = [(time, member, *values) for member, changes in told.items() for time, values in changes]
    return pandas.DataFrame(rows, columns=["time", "member", *CONSTANTS])


def moves(table_of: Callable[[Scenario, int], pandas.DataFrame], seeds: Iterable[int]) -> pandas.DataFrame:
    """For each seed, end and round: C1 and C2."""
    found = []
    for seed in seeds:
        given = session(seed)
        table = table_of(given, seed)
        starts = [draw.at for draw in given.settled.draws][::2]
        for end, member in ends(given).items():
            found.append(after_rounds(table, starts, member).assign(seed=seed, end=end))
    return pandas.concat(found, ignore_index=True)


def panel(axes: Axes, tables: dict[str, pandas.DataFrame], constant: str) -> None:
    """One constant of both losers, in each program."""
    for (program, end), (colour, style) in LOOKS.items():
        if program not in tables:
            continue
        table = tables[program]
        seeds = table[table["end"] == end].groupby("round")[constant]
        middle, lower, upper = (seeds.quantile(part) for part in (0.5, 0.25, 0.75))
        label = f"{program}, {end} loser"
        axes.fill_between(middle.index, lower, upper, color=colour, alpha=0.2, linewidth=0, step="mid",
                          label=f"{label}: quartiles of the {table['seed'].nunique()} seeds")
        axes.plot(middle.index, middle, color=colour, linewidth=1.2, linestyle=style, drawstyle="steps-mid",
                  label=f"{label}: median of the seeds")


def main(program: str, svg: str, png: str, count: str = "0") -> None:
    """Draws the figure."""
    tables = {"srm_lab": moves(partial(of_program, program), SEEDS)}
    if int(count):
        tables["ns-2"] = moves(of_ns2, SEEDS[:int(count)])
    figure, parts = plot.subplots(1, 2, figsize=(10, 4.8))
    for letter, axes, constant in zip("ab", parts, ("C1", "C2")):
        panel(axes, tables, constant)
        axes.set_xlabel("round")
        axes.set_ylabel(constant)
        axes.set_ylim(bottom=0)
        axes.set_title(f"({letter})", loc="left", fontsize=10)
        axes.grid(alpha=0.3)
        axes.legend(fontsize=8, loc="upper center", bbox_to_anchor=(0.5, -0.15), frameon=False)
    figure.tight_layout()
    figure.savefig(svg, metadata={"Date": None}, bbox_inches="tight")
    figure.savefig(png, dpi=150, metadata={"Software": None}, bbox_inches="tight")


if __name__ == "__main__":
    main(*sys.argv[1:])
