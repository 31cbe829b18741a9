"""The families of compare_ns2.py with adaptive timers: rounds of loss that lie apart, and timers of random length.

ns-2's adaptive agent is given what it is not to be compared by: the limits of the constants, and the random words of
each member. What is compared are the ticks of losses, requests, repairs and recoveries, and each change of a constant.
With all rules of srm_lab ns-2 does the same; a rule is needed where with all others it does not.
"""
import random
import sys
from collections import Counter
from collections.abc import Callable
from concurrent.futures import ThreadPoolExecutor
from dataclasses import replace
from typing import Any

from ns2_agent import ALL, Programs, Result, row_of, simultaneous, tell
from srm_lab import Scenario, tree
from srm_lab.link import Link
from srm_lab.scenario import on


def on_a_chain(rng: random.Random) -> Scenario:
    size = rng.randint(3, 12)
    return rounds(rng, tree.chain(size, 2 * rng.randint(1, 20)), f"hops:{rng.randint(1, size - 1)}")


def on_a_star(rng: random.Random) -> Scenario:
    return rounds(rng, tree.star(rng.randint(4, 14), 2 * rng.randint(1, 20)), rng.choice(["adjacent", "random"]))


def on_a_regular_tree(rng: random.Random) -> Scenario:
    return rounds(rng, tree.bounded_degree(rng.randint(4, 20), rng.randint(3, 5), 2 * rng.randint(1, 20)), "random")


def on_a_random_tree(rng: random.Random) -> Scenario:
    made = tree.random_labelled(rng.randint(3, 16), 2, rng)
    links = tuple(Link.both_ways(link.a, link.b, 2 * rng.randint(1, 50)) for link in made.links)
    return rounds(rng, tree.Tree(made.nodes, links), "random", source="random")


WORDS = 0  # the seed of random words
UNTOLD = ("same", "packets at one tick", "unexplained")  # what is told of a scenario in place of rules
FAMILIES: dict[Callable[[random.Random], Scenario], int] = {
    on_a_chain: 15, on_a_star: 15, on_a_regular_tree: 15, on_a_random_tree: 15}


def rounds(rng: random.Random, made: tree.Tree, link: str, source: str = "first") -> Scenario:
    """4 to 12 losses on one link, of members that adapt constants with room in some of them, or in all."""
    seed = rng.randrange(10**6)
    values: dict[str, float] = {}
    for name in ("c1", "c2", "d1", "d2"):
        first = rng.choice([1, 1.5, 2, 2.5])
        values |= {name: first, f"{name}_least": max(0, first - rng.choice([0, 0.5, 1])),
                   f"{name}_most": first + rng.choice([0, 1, 10])}
    given = replace(on(made, "all", source, seed), draws=(), sessions=(), backoff=3).constants(**values)
    return given.rounds(rng.randint(4, 12), link)


def needed(programs: Programs, text: str, ours: Result) -> list[str] | None:
    """The rules without each of which ns-2 does otherwise than srm_lab, with all others; None where all are not enough."""
    if not programs.ns2(text, ALL, words=WORDS).same(ours):
        return None
    return [rule for rule in ALL
            if not programs.ns2(text, [other for other in ALL if other != rule], words=WORDS).same(ours)]


def compared(programs: Programs, family: str, place: int, text: str) -> list[Any]:
    """A scenario's row."""
    ours, theirs = programs.ours(text, WORDS), programs.ns2(text, words=WORDS)
    told = "same"
    if not ours.same(theirs):
        rules = needed(programs, text, ours)
        if rules is not None:
            told = " + ".join(rules) or "all rules"
        else:
            told = "packets at one tick" if simultaneous(programs.srm_lab(text, WORDS, "trace")) else "unexplained"
    if told == "unexplained":
        sys.stderr.write(f"{family} {place}:\n{text}\n")
    return row_of(family, place, ours, theirs, told)


def compare_adaptive(programs: Programs, only: str, jobs: int, rows: list[list[Any]]) -> int:
    """Runs every scenario of every family, `jobs` side by side; how many differences stay unexplained."""
    counted: Counter[str] = Counter()
    made: list[str] = []
    for make, count in FAMILIES.items():
        family = f"rounds {make.__name__}"
        if only not in family:
            continue
        texts = [make(random.Random(f"{make.__name__} search {place}")).text() for place in range(count)]
        with ThreadPoolExecutor(jobs) as pool:
            found = list(pool.map(lambda place: compared(programs, family, place, texts[place]), range(count)))
        reasons = [row[7] for row in found]
        counted.update(rule for told in reasons for rule in told.split(" + ") if rule in ALL)
        tell(family, Counter(told if told in UNTOLD else "with all rules put in" for told in reasons))
        made += reasons
        rows += found
    for rule, number in counted.most_common():
        print(f"    {number} of {len(made)} need {rule}")
    return made.count("unexplained")
