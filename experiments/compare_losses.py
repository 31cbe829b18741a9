"""Links that lose packets at random, in srm_lab and in ns-2: its ErrorModel on every link, in both directions."""
import random
from concurrent.futures import ThreadPoolExecutor
from functools import partial

from ns2_agent import RULES, Programs, Result, counts
from srm_lab import Scenario, scenario
from srm_lab.statistics import Interval, difference, interval

# rates, each with the seeds of ns-2, whose runs take seconds; srm_lab has ten times as many
RATES = {0.01: 200, 0.05: 100}
MORE = 10
DRAWS, APART = 40, 25_000
TOLD = """tree of {members} members, of which every link loses packets of each kind, C1 = C2 = 2, D1 = D2 = 1: the share of \
draws that a receiver loses,
mean requests and repairs for a lost draw, of seeds with {draws} draws each (srm_lab has {more} times as many), and the \
difference, ns-2's less
srm_lab's, each with its 95 per cent interval over seeds (Student's t; Welch's for the difference). ns-2 has srm_lab's \
rules; neither the
programs nor the rates share random words."""


def session(rate: float) -> Scenario:
    """Draws that lie so far apart that hardly any two recoveries meet."""
    made = scenario.regular_tree(20, delay=200).drawing(DRAWS, every=APART).lose(rate=rate)
    return made.ends(DRAWS * APART + 4 * APART)


def share_of(given: Scenario, rate: float) -> float:
    """The share that is lost in the mean: of what has to cross h links all but (1 - rate)^h."""
    ways = given.tree.ways(given.members[0].node)
    hops = [len(ways[member.node]) for member in given.members[1:]]
    return sum(1 - (1 - rate) ** one for one in hops) / len(hops)


def seen(given: Scenario, result: Result) -> tuple[float, float, float]:
    """What is compared of a run: the share lost, and requests and repairs for a lost draw."""
    asks, answers = counts(result)
    lost = max(1, len({number for _, number in result.losses}))
    return len(result.losses) / (len(given.members) - 1) / len(given.draws), asks / lost, answers / lost


def of_ns2(programs: Programs, text: str, seed: int) -> Result:
    """A run of ns-2 with a seed far from the others: its k-th random number is, modulo 1, the seed times a number of k."""
    return programs.ns2(text, RULES, random.Random(seed).randrange(1, 2**31 - 1))


def compare_losses(programs: Programs, jobs: int) -> None:
    """Prints what both programs lose and send at each rate, with intervals."""
    print(TOLD.format(members=len(session(0).members), draws=DRAWS, more=MORE))
    print(f"{'rate':>5} {'seeds':>5} {'':>9} {'srm_lab':>24} {'ns-2':>24} {'expected':>9} {'difference':>26}")
    for place, (rate, seeds) in enumerate(RATES.items()):
        given, several = session(rate), range(1 + place, 1 + len(RATES) * MORE * seeds, len(RATES))
        text = given.text()
        runs = (partial(programs.ours, text), several), (partial(of_ns2, programs, text), several[:seeds])
        with ThreadPoolExecutor(jobs) as pool:
            ours, theirs = (list(zip(*(seen(given, result) for result in pool.map(run, own)))) for run, own in runs)
        for name, own, other in zip(("lost", "requests", "repairs"), ours, theirs):
            wanted = share_of(given, rate) if name == "lost" else None
            means, less = (interval(list(own)), interval(list(other))), difference(list(own), list(other))
            print(f"{rate:5} {seeds:5} {name:>9} {said(means[0]):>24} {said(means[1]):>24} "
                  f"{'' if wanted is None else format(wanted, '.4f'):>9} {said(less):>26}", flush=True)


def said(one: Interval) -> str:
    return f"{one.mean:.4f} [{one.low:.4f}, {one.high:.4f}]"
