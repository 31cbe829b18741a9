"""Recovery against the rate at which links lose packets: where data alone is lost, and where all packets are.

usage: random_loss.py [FIGURE.svg], with the program on the path or in SRM_LAB. Prints what the figure shows, and writes
it to a file that is named. Trees, members and losses are drawn anew for each seed.
"""
import sys
from typing import Any

import matplotlib
import matplotlib.pyplot as plot
import pandas

from srm_lab import Scenario, scenario, summarise, sweep

matplotlib.rcParams.update({"svg.hashsalt": "random_loss", "svg.fonttype": "none"})
RATES = [0.001, 0.003, 0.01, 0.03, 0.1]
DRAWS = 50
LOST = {"data": ("data alone", "#0072b2", "o"), "all": ("all packets", "#d55e00", "s")}
# what is drawn, with the table that has it
SHOWN = {
    "delay / round_trip": ("losses", "recovery delay (round trips)"),
    "requests": ("operations", "requests for a lost operation"),
    "repairs": ("operations", "repairs of a lost operation"),
}


def session(lost: str, rate: float, seed: int) -> Scenario:
    """50 members on a random tree of 50 nodes. The source's first packets are data: it draws them before it is asked."""
    made = scenario.random_tree(50, source="random", seed=seed).constants(c1=2, c2=2, d1="log10", d2="log10").drawing(DRAWS)
    return made.lose(rate=rate, packets=DRAWS) if lost == "data" else made.lose(rate=rate)


def figure(found: dict[str, pandas.DataFrame], seeds: int) -> Any:
    """A panel for each column of SHOWN, over the rate of loss."""
    whole, panels = plot.subplots(1, len(SHOWN), figsize=(11, 3.6))
    for panel, (column, (table, label)) in zip(panels, SHOWN.items()):
        means = summarise(found[table], column, by=["lost", "rate"])
        print(label, means.round(2).to_string(), sep="\n")
        for lost, (told, colour, mark) in LOST.items():
            one = means.loc[lost]
            spread = (one[["low", "high"]].T - one["mean"]).abs()
            panel.errorbar(one.index, one["mean"], spread, fmt=f"{mark}-", color=colour, capsize=3, markersize=4, label=told)
        panel.set(xscale="log", xlabel="rate of loss at each link", ylabel=label, ylim=(0, None))
        panel.grid(alpha=0.3)
    panels[0].legend(title="what links lose", frameon=False)
    whole.suptitle(f"50 members, random trees: mean and 95% interval over {seeds} seeds", fontsize=10)
    whole.tight_layout()
    return whole


def main(seeds: int = 20) -> None:
    grid = {"lost": list(LOST), "rate": RATES}
    found = sweep(grid, session, seeds=seeds, tables=["losses", "operations"], cache=None)
    print(found["losses"].groupby(["lost", "rate"])["ended"].value_counts().unstack(fill_value=0))
    drawn = figure(found, seeds)
    if len(sys.argv) > 1:
        drawn.savefig(sys.argv[1], metadata={"Date": None})


if __name__ == "__main__":
    main()
