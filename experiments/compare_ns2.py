"""Compares srm_lab with the SRM agent of ns-2: lost packets, requests, repairs and their times.

usage: compare_ns2.py PROGRAM [--only FAMILY] [--jobs N] [--table FILE]

Timers have no random part in the families of FAMILIES, so that each request and repair has its one tick in both
programs. Where they differ, rules of srm_lab are put into ns-2's agent until they do not: the fewest that do so
explain the difference. Families with adaptive timers follow (compare_adaptive.py), whose random words ns-2 is given.
Each rule has a scenario in ns2/differences that shows it. Last, a star with random timers is compared by its mean
number of requests, with run times side by side, and a tree whose links lose packets at random by what is lost and
sent (compare_losses.py). Ends with status 1 if a difference stays unexplained.
"""
import argparse
import csv
import os
import random
import sys
from collections import Counter
from collections.abc import Callable, Sequence
from concurrent.futures import ThreadPoolExecutor
from functools import partial
from itertools import combinations
from pathlib import Path
from typing import Any

from compare_adaptive import compare_adaptive
from compare_losses import compare_losses
from ns2_agent import ADAPTIVE, ALL, HERE, RULES, Programs, Result, children_seconds, counts, row_of, simultaneous, tell
from srm_lab import Scenario, tree
from srm_lab.cli import build, parser
from srm_lab.link import Link
from srm_lab.losses import links_in_use
from srm_lab.parts import Draw, Drop, Member, Session
from srm_lab.statistics import Interval, difference, interval


# ---- families ------------------------------------------------------------------

def from_words(words: str) -> str:
    return build(parser().parse_args(words.split())).text()


def one_loss_on_a_chain(rng: random.Random) -> str:
    size = rng.randint(3, 30)
    return from_words(f"chain --size {size} --delay {2 * rng.randint(1, 20)} --draws 2 --every 1000 --no-session "
                      f"--drop-link hops:{rng.randint(1, size - 1)} {constants(rng)}")


def one_loss_on_a_star(rng: random.Random) -> str:
    size = rng.randint(4, 20)
    link = rng.randint(0, size - 2)
    return from_words(f"star --size {size} --delay {2 * rng.randint(1, 20)} --draws 2 --every 1000 --no-session "
                      f"--drop-link {link} {constants(rng)}")


def one_loss_on_a_regular_tree(rng: random.Random) -> str:
    return from_words(f"tree --size {rng.randint(4, 40)} --degree {rng.randint(3, 5)} --delay {2 * rng.randint(1, 20)} "
                      f"--draws 2 --every 1000 --no-session --drop-link random --seed {rng.randrange(10**6)} {constants(rng)}")


def random_tree(rng: random.Random) -> tree.Tree:
    """A random tree with random even delays, so that half of a timer is a whole number."""
    made = tree.random_labelled(rng.randint(3, 25), 2, rng)
    return tree.Tree(made.nodes, tuple(Link.both_ways(link.a, link.b, 2 * rng.randint(1, 50)) for link in made.links))


def scenario(rng: random.Random, made: tree.Tree, lost: int, draws: int, every: int,
             sessions: Sequence[int] = ()) -> str:
    """Members on all nodes, the source on a random one; `lost` random links lose a random draw each."""
    nodes = list(range(made.nodes))
    source = nodes.pop(rng.randrange(made.nodes))
    links = rng.sample(sorted(links_in_use(made, source, nodes)), min(lost, made.nodes - 1))
    last = draws if sessions or lost > 1 else draws - 1  # alone, the loss of the last draw would show to nobody
    drops = [(link, rng.randrange(last)) for link in links]
    c1, d1 = rng.choice(CONSTANTS)
    farthest = 2 * max(made.distances(source).values())
    until = draws * every + max([0, *sessions]) + 200 * (2 + c1 + d1) * farthest
    members = tuple(Member(node, "receiver" if place else "sender", place + 1)
                    for place, node in enumerate([source, *nodes]))
    return Scenario(made, members, until, 1000 * c1, 0, 1000 * d1, 0,
                    tuple(Draw(0, 0, place, place * every) for place in range(draws)),
                    tuple(Session(0, (draws - 1) * every + after) for after in sessions),
                    tuple(Drop(link, 0, count) for link, count in drops)).text()


def one_loss_on_a_random_tree(rng: random.Random) -> str:
    return scenario(rng, random_tree(rng), 1, 2, 1000)


def losses_at_several_links(rng: random.Random) -> str:
    """Different draws are lost at different links, at once: the source sends no repair before its last draw."""
    return scenario(rng, random_tree(rng), rng.randint(2, 6), rng.randint(2, 4), 1)


def loss_found_by_a_session_message(rng: random.Random) -> str:
    return scenario(rng, random_tree(rng), 1, 1, 1, [100])


CONSTANTS = [(1, 1), (2, 1), (3, 1), (1, 2), (3, 2), (5, 3)]


def constants(rng: random.Random) -> str:
    c1, d1 = rng.choice(CONSTANTS)
    return f"--c1 {c1} --c2 0 --d1 {d1} --d2 0"


FAMILIES = {
    one_loss_on_a_chain: 40, one_loss_on_a_star: 30, one_loss_on_a_regular_tree: 40, one_loss_on_a_random_tree: 60,
    losses_at_several_links: 60, loss_found_by_a_session_message: 30,
}


# ---- comparing -----------------------------------------------------------------

def explain(programs: Programs, text: str, ours: Result) -> tuple[str, ...] | None:
    """The fewest rules with which ns-2 does what srm_lab did, or None."""
    for count in range(len(RULES) + 1):
        for rules in combinations(RULES, count):
            if count and programs.ns2(text, rules).same(ours):
                return rules
        if count == 1 and not programs.ns2(text, RULES).same(ours):
            return None
    return None


def compare_families(programs: Programs, only: str, rows: list[list[Any]]) -> int:
    """Runs every scenario of every family; how many differences stay unexplained."""
    open_ones = 0
    for make, count in FAMILIES.items():
        if only not in make.__name__:
            continue
        rng = random.Random(make.__name__)
        told: Counter[str] = Counter()
        for place in range(count):
            text = make(rng)
            ours, theirs = programs.ours(text), programs.ns2(text)
            why = "same"
            if not ours.same(theirs):
                rules = explain(programs, text, ours)
                if rules is not None:
                    why = " + ".join(rules)
                elif simultaneous(programs.srm_lab(text, 0, "trace")):
                    why = "packets at one tick"
                else:
                    why, open_ones = "unexplained", open_ones + 1
                    sys.stderr.write(f"{make.__name__} {place}:\n{text}\n")
            told[why] += 1
            rows.append(row_of(make.__name__, place, ours, theirs, why))
        tell(make.__name__, told)
    return open_ones


def compare_differences(programs: Programs) -> int:
    """Shows each rule by its scenario of ns2/differences; how many do not show it.

    There both programs differ; with all rules of srm_lab ns-2 does the same; with all but this one it does not.
    """
    wrong = 0
    for rule, told in ALL.items():
        path = HERE / f"ns2/differences/{rule}.toml"
        text = path.read_text()
        rules, words = (ALL, 0) if rule in ADAPTIVE else (RULES, None)
        ours, theirs = programs.ours(text), programs.ns2(text, words=words)
        others = [other for other in rules if other != rule]
        right = (not ours.same(theirs) and programs.ns2(text, rules, words=words).same(ours)
                 and not programs.ns2(text, others, words=words).same(ours))
        wrong += not right
        alone = " alone" if programs.ns2(text, [rule], words=words).same(ours) else " and others"
        print(f"{rule}: {told}")
        print(f"    {path.name}: srm_lab sends {said(ours)}, ns-2 {said(theirs)}; "
              + (f"with this rule{alone} ns-2 does as srm_lab" if right else "NOT AS STATED"))
    return wrong


def said(result: Result) -> str:
    asks, answers = counts(result)
    last = max((at for _, at in result.losses.values() if at is not None), default=0)
    return f"{asks} request{'s' * (asks != 1)} and {answers} repair{'s' * (answers != 1)}, last recovery at {last:g}"


CHANCES = (2, 4, 8, 16, 32)  # values of C2
STAR = """star of {members} members, n = {losers} losers, C1 = 2, D1 = 1, D2 = 0: mean requests for a loss, of {seeds} \
seeds with {lost} losses each,
and the difference, ns-2's less srm_lab's, each with its 95 per cent interval over seeds (Student's t; Welch's for the \
difference).
Each C2 has every fifth seed, of its own, so that no two rows share a random word. The two programs are given seeds of \
the same numbers, and share no random words either.
The last row is of all runs, each in parts of 1 + n / C2. Seconds are of processor time for all seeds."""


def compare_star(programs: Programs, jobs: int, members: int = 33, lost: int = 40, seeds: int = 25) -> None:
    """Mean requests of a star with random timers, with intervals over seeds; the time of both programs."""
    print(STAR.format(members=members, losers=members - 1, seeds=seeds, lost=lost))
    print(f"{'C2':>4} {'seeds':>9} {'srm_lab':>24} {'ns-2':>24} {'1 + n / C2':>11} {'difference':>24} "
          f"{'srm_lab s':>10} {'ns-2 s':>8}")
    relative: tuple[list[float], list[float]] = ([], [])
    for place, c2 in enumerate(CHANCES):
        own = range(1 + place, 1 + len(CHANCES) * seeds, len(CHANCES))
        text = from_words(f"star --size {members + 1} --delay 1000 --draws {2 * lost} --drop-every 2 --no-session "
                          f"--drop-link adjacent --c1 2 --c2 {c2} --d1 1 --d2 0 --until 2000000")
        runs = (partial(programs.ours, text), partial(programs.ns2, text, (), cycle=(0, 2)))
        means, spent = zip(*(requests_of(run, own, lost, jobs) for run in runs))
        theory = 1 + (members - 1) / c2
        for values, kept in zip(means, relative):
            kept += [value / theory for value in values]
        print(f"{c2:4} {own[0]:>4}..{own[-1]:<3} {said_interval(interval(means[0])):>24} "
              f"{said_interval(interval(means[1])):>24} {theory:11.3f} {said_interval(difference(*means)):>24} "
              f"{spent[0]:10.2f} {spent[1]:8.2f}", flush=True)
    print(f"{'all':>4} {'':>9} {said_interval(interval(relative[0])):>24} {said_interval(interval(relative[1])):>24} "
          f"{1:11.3f} {said_interval(difference(*relative)):>24}")


def requests_of(run: Callable[..., Result], seeds: range, lost: int, jobs: int) -> tuple[list[float], float]:
    """The mean number of requests for a loss of each seed, and the processor time of all; `jobs` run side by side."""
    begin = children_seconds()
    with ThreadPoolExecutor(jobs) as pool:
        results = list(pool.map(lambda seed: run(seed=seed), seeds))
    return [counts(result)[0] / lost for result in results], children_seconds() - begin


def said_interval(one: Interval) -> str:
    return f"{one.mean:.3f} [{one.low:.3f}, {one.high:.3f}]"


def main() -> int:
    words = argparse.ArgumentParser(description=__doc__, formatter_class=argparse.RawDescriptionHelpFormatter)
    words.add_argument("program")
    words.add_argument("--only", default="", help="a part of a family's name; then nothing else is run")
    words.add_argument("--jobs", type=int, default=len(os.sched_getaffinity(0)), help="runs of the star side by side")
    words.add_argument("--table", type=Path, help="where a CSV row for each scenario is written")
    options = words.parse_args()
    programs = Programs(options.program)
    rows: list[list[Any]] = []
    wrong = compare_families(programs, options.only, rows)
    wrong += compare_adaptive(programs, options.only, options.jobs, rows)
    if options.table:
        options.table.parent.mkdir(parents=True, exist_ok=True)
        with open(options.table, "w", newline="") as out:
            csv.writer(out, lineterminator="\n").writerows([
                ["family", "place", "losses", "requests", "repairs", "ns2_requests", "ns2_repairs", "difference",
                 "seconds", "ns2_seconds", "ns2_run_seconds"], *rows])
    print(f"{len(rows)} scenarios: {sum(row[7] == 'same' for row in rows)} the same, "
          f"{sum(row[7] not in ('same', 'unexplained') for row in rows)} explained, {wrong} not")
    print(f"seconds of processor time for all: srm_lab {sum(float(row[8]) for row in rows):.2f}, "
          f"ns-2 {sum(float(row[9]) for row in rows):.2f}, {sum(float(row[10]) for row in rows):.2f} of them its runs")
    if not options.only:
        wrong += compare_differences(programs)
        compare_star(programs, options.jobs)
        compare_losses(programs, options.jobs)
    return 1 if wrong else 0


if __name__ == "__main__":
    sys.exit(main())
