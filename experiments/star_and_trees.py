"""Requests, repairs and delay in stars and random trees against C2: three sizes, two links that lose, 20 seeds.

usage: star_and_trees.py, with the program on the path or in SRM_LAB. Trees are drawn anew for each seed.
"""
from srm_lab import Scenario, scenario, summarise, sweep


def session(shape: str, size: int, link: str, c2: int, seed: int) -> Scenario:
    """Ten losses, a tick apart, on a link beside the source or on one at random."""
    made = scenario.star(size + 1) if shape == "star" else scenario.random_tree(size, source="random", seed=seed)
    return made.constants(c2=c2).drawing(20).lose(every=2, link=link)


if __name__ == "__main__":
    grid = {"shape": ["star", "tree"], "size": [20, 50, 100], "link": ["adjacent", "random"], "c2": [0, 1, 2, 4, 8, 16, 32]}
    found = sweep(grid, session, seeds=20, tables="operations", cache=None)
    for column in ("requests", "repairs", "delay / round_trip"):
        print(column, summarise(found, column, by=list(grid)).round(2).to_string(), sep="\n")
