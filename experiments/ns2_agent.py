"""Runs scenarios in srm_lab and in the SRM agent of ns-2: lost packets, requests, repairs, their times, and constants.

Rules of srm_lab can be put into ns-2's agent by their names: RULES for any timers, ADAPTIVE besides for adaptive ones.
ns-2 is given the distances. With `words` its adaptive agent is given limits and the members' random words as well: the
words of a seed are those of the program, so that each timer takes as many ticks in both.
"""
import csv
import resource
import subprocess
import tempfile
from collections import Counter
from collections.abc import Iterable, Iterator
from dataclasses import dataclass, field
from pathlib import Path
from typing import Any

from srm_lab import Scenario, read_scenario
from srm_lab.limits import NEWEST
from srm_lab.link import Link
from srm_lab.losses import arrival
from srm_lab.parts import CONSTANTS
from srm_lab.tables import read_trace
from srm_lab.tree import Tree

HERE = Path(__file__).resolve().parent

RULES = {
    "arrivals-first": "of what happens at one tick, arrivals come before own timers; ns-2 takes the order of setting",
    "hold-off-by-source": "the hold-off after a repair is three times the distance to the source (at the source itself "
                          "to the requester or repairer), not to the requester",
    "back-off-at-once": "a loss learnt from a request backs off at once; ns-2 sets a first timer",
    "hold-off-when-held": "a repair heard by a member that holds the packet and has no timer starts a hold-off",
    "hold-off-extended": "a further repair during a hold-off starts it anew",
    "ten-doublings": "request timers double up to ten times, and not up to five",
}
ADAPTIVE = {
    "averaged-once": "the duplicates of a period go into their average once; ns-2 takes them in when it adjusts, and "
                     "again when it marks the period",
    "half-step-first": "who sends first takes 0.05 off C1 or D1; ns-2 takes 0.1",
    "duplicates-at-rest": "a duplicate repair is one that is heard at rest; in ns-2 each one is that a member with a "
                          "repair timer or a rest hears, the first and its own too",
    "duplicates-ignored": "a duplicate request is one that is ignored after any backoff; in ns-2 after the first one "
                          "only, and at the very end of that time too",
    "every-recovery": "repairs that a member sends and hears count each time that it answers for a name; in ns-2 the "
                      "first time only",
    "present-constants": "a timer that backs off takes the constants of the moment; ns-2 those at detection",
    "sent-first-alone": "who sent first stays so; in ns-2 a duplicate of a member nearer than 1.5 times its own distance "
                        "takes that back",
    "six-triplings": "request timers triple up to six times, and not up to five",
    "whole-thousandths": "averages are whole thousandths, rounded down",
}
ALL = {**RULES, **ADAPTIVE}


@dataclass
class Result:
    """What a run did: (time, member, ask or answer, number) sent, and (member, number) lost with its two times.

    Of adaptive timers the constants besides.
    """

    sent: list[tuple[float, int, str, int]]
    losses: dict[tuple[int, int], tuple[float, float | None]]
    # of each member the ticks after which its constants are others, with them in thousandths
    constants: dict[int, list[tuple[float, tuple[int, ...]]]] = field(default_factory=dict)
    seconds: float = 0.0  # of processor time, from the start of the program to its end
    of_run: float = 0.0  # those of them that ns-2 took for the run, without its start and its setup

    def same(self, other: "Result") -> bool:
        return (self.sent, self.losses, self.constants) == (other.sent, other.losses, other.constants)


class Programs:
    """Both programs, each running one scenario's text."""

    def __init__(self, program: str):
        self.program = program

    def ours(self, text: str, seed: int = 0) -> Result:
        begin = children_seconds()
        trace = self.srm_lab(text, seed, "trace")
        spent = children_seconds() - begin
        sent = [(row.time, row.member, row.cause, int(row.ref.split("/")[2])) for row in read_trace(trace.splitlines())
                if row.cause in ("ask", "answer") and row.result == "sent"]
        losses: dict[tuple[int, int], tuple[float, float | None]] = {}
        for row in csv.DictReader(self.srm_lab(text, seed, "losses").splitlines()):
            recovered = None if row["recovered"] == "-" else int(row["recovered"])
            losses[int(row["member"]), int(row["number"])] = (int(row["detected"]), recovered)
        return Result(sorted(sent), losses, self._constants(text, seed), spent)

    def _constants(self, text: str, seed: int) -> dict[int, list[tuple[float, tuple[int, ...]]]]:
        if not read_scenario(text).is_adaptive:
            return {}
        table = csv.DictReader(self.srm_lab(text, seed, "timers").splitlines())
        return changes((int(row["time"]), int(row["member"]), tuple(int(row[name]) for name in CONSTANTS))
                       for row in table)

    def srm_lab(self, text: str, seed: int, show: str) -> str:
        done = subprocess.run([self.program, "--seed", str(seed), "--show", show], input=text.encode(),
                              capture_output=True, check=False)
        if done.returncode:
            raise SystemExit(f"{self.program}: {done.stderr.decode().strip()}")
        return done.stdout.decode()

    def ns2(self, text: str, rules: Iterable[str] = (), seed: int = 1,
            cycle: tuple[int, int] | None = None, words: int | None = None) -> Result:
        return ns2(text, rules, seed, cycle, words)


def ns2(text: str, rules: Iterable[str] = (), seed: int = 1,
        cycle: tuple[int, int] | None = None, words: int | None = None) -> Result:
    """A run of ns-2; `words` is the seed of the program's random words, which it is given in place of its own."""
    given = read_scenario(text)
    with tempfile.NamedTemporaryFile("w", suffix=".txt") as file:
        file.write(ns2_input(text, rules, seed, cycle, words))
        file.flush()
        begin = children_seconds()
        done = subprocess.run(["ns", HERE / "ns2/srm.tcl", file.name], capture_output=True, text=True, check=False)
        spent = children_seconds() - begin
    if done.returncode or "cost" not in done.stdout:
        raise SystemExit(f"ns: {done.stderr.strip() or done.stdout.strip()}")
    result = Result([], {}, seconds=spent)
    told = []
    for line in done.stdout.splitlines():
        parts = line.split()
        if parts[0] == "event":
            result.sent.append((whole(parts[1]), int(parts[2]), parts[3], int(parts[4])))
        elif parts[0] == "lost":
            result.losses[int(parts[1]), int(parts[2])] = (whole(parts[3]), None)
        elif parts[0] == "recovered":
            key = int(parts[1]), int(parts[2])
            result.losses[key] = (result.losses[key][0], whole(parts[3]))
        elif parts[0] == "constants":
            told.append((whole(parts[1]), int(parts[2]), tuple(round(1000 * float(one)) for one in parts[3:])))
        elif parts[0] == "cost":
            result.of_run = float(parts[1])
    result.sent.sort()
    if given.is_adaptive:
        first = tuple(getattr(given, name) for name in CONSTANTS)
        result.constants = changes([*((0, member, first) for member in range(len(given.members))), *told])
    return result


def children_seconds() -> float:
    """The processor time of all programs that this one ran to their ends; other work of the machine does not count."""
    usage = resource.getrusage(resource.RUSAGE_CHILDREN)
    return usage.ru_utime + usage.ru_stime


def whole(text: str) -> float:
    """A time of ns-2: a whole number where timers have no random part."""
    number = float(text)
    return int(number) if number == int(number) else number


def changes(told: Iterable[tuple[float, int, tuple[int, ...]]]) -> dict[int, list[tuple[float, tuple[int, ...]]]]:
    """Of each member the ticks after which its constants are others than before; several of one tick are one change."""
    ends: dict[int, dict[float, tuple[int, ...]]] = {}
    for time, member, constants in told:
        ends.setdefault(member, {})[time] = constants
    return {member: [(time, constants) for place, (time, constants) in enumerate(of.items())
                     if not place or constants != list(of.values())[place - 1]] for member, of in ends.items()}


def random_words(seed: int, stream: int) -> Iterator[int]:
    """A member's random words of 32 bits: the generator PCG XSH RR 64/32 of its seed and stream."""
    increment, most = 2 * stream + 1, 2**64 - 1
    state = (seed + increment) * 6364136223846793005 + increment & most
    while True:
        word, turn = (state >> 18 ^ state) >> 27 & 0xffffffff, state >> 59
        yield (word >> turn | word << 32 - turn) & 0xffffffff
        state = state * 6364136223846793005 + increment & most


def ns2_input(text: str, rules: Iterable[str], seed: int, cycle: tuple[int, int] | None = None,
              words: int | None = None) -> str:
    """A scenario's text as ns2/srm.tcl reads it.

    `cycle` is (link, K) in place of the losses of every K-th draw, `words` the seed of random words that ns-2 is given.
    """
    given = read_scenario(text)
    draws = sorted(draw.at for draw in given.draws)
    every = draws[1] - draws[0] if len(draws) > 1 else 1
    assert draws == [place * every for place in range(len(draws))], "draws have to be equally far apart, from tick 0"
    lines = ["constants " + " ".join(str(getattr(given, name) / 1000) for name in ("c1", "c2", "d1", "d2")),
             f"seed {seed}", f"end {given.end}"]
    assert given.tree.is_even, "ns-2 is given one delay for a link"
    network, hosts = given.tree, [member.node for member in given.members]
    if given.outages:
        link, first_of = cycle_of(given)
        smaller, places, joined = reduced(network, hosts)
        if smaller.nodes < network.nodes:
            network, hosts, link = smaller, places, joined[link]
        cycle = link, first_of
    lines += [f"link {link.a} {link.b} {link.delay}" for link in network.links]
    lines += [f"member {host}" for host in hosts]
    lines += [f"draws {len(draws)} {every}"]
    lines += [f"session {session.at}" for session in given.sessions]
    lines += adaptive_lines(given, words)
    lines += loss_lines(given)
    if cycle:
        lines.append(f"cycle {cycle[0]} {cycle[1]}")
    else:
        links = [drop.link for drop in given.drops]
        assert len(links) == len(set(links)), "ns-2 drops one packet at a link"
        lines += [f"drop {drop.link} {drop.count}" for drop in given.drops]
    return "\n".join([*lines, *(f"rule {rule}" for rule in rules), ""])


def reduced(network: Tree, hosts: list[int]) -> tuple[Tree, list[int], dict[int, int]]:
    """The network without nodes that only hand on, on which members are as far from each other; the first is the source.

    Besides the members' nodes there, and for each link that is on the way to one the link that it became part of.
    """
    source, ways = hosts[0], network.ways(hosts[0])
    steps = {node: near for node, near in network.parents(source).items() if near is not None}
    used = {link for host in hosts for link in ways[host]}
    onward = Counter(before for before, link in steps.values() if link in used)
    kept = [source, *(node for node, (_, link) in steps.items() if link in used and (node in hosts or onward[node] > 1))]
    number = {node: place for place, node in enumerate(kept)}
    links: list[Link] = []
    joined: dict[int, int] = {}
    for node in kept[1:]:
        top, link = steps[node]
        way = [link]
        while top not in number:
            top, link = steps[top]
            way.append(link)
        joined |= dict.fromkeys(way, len(links))
        links.append(Link.both_ways(number[top], number[node], sum(network.links[one].delay for one in way)))
    return Tree(len(kept), tuple(links)), [number[host] for host in hosts], joined


def cycle_of(given: Scenario) -> tuple[int, int]:
    """The link of a scenario's rounds of loss, and of how many draws it loses the first."""
    link = given.outages[0].link
    way = arrival(given.tree, given.members[0].node, link)
    lost = [place for place, draw in enumerate(given.draws) if given.is_out(link, draw.at + way)]
    every = lost[1] if len(lost) > 1 else len(given.draws)
    assert len(given.outages) == len(lost) and lost == list(range(0, len(given.draws), every)), "outages are no rounds"
    return link, every


def loss_lines(given: Scenario) -> list[str]:
    """What ns2/srm.tcl is told of losses at random, of which a link has one for the whole run at most."""
    losses = given.random_losses
    assert len({one.link for one in losses}) == len(losses), "ns-2 is given one loss of a link"
    assert not losses or not given.outages, "ns-2 is given losses at random or rounds"
    assert all(one.first == 0 and one.end is None for one in losses), "ns-2 loses packets for the whole run"
    return [f"loss {one.link} {one.rate / NEWEST.rate}" for one in losses]


WORDS = 400  # that a member is given: more than it sets timers


def adaptive_lines(given: Scenario, words: int | None) -> list[str]:
    """What ns2/srm.tcl is told of adaptive timers: nothing where a scenario has none."""
    if not given.is_adaptive:
        return []
    lines = [f"adaptive {len(given.members)}"]
    if words is None:
        return lines
    lines.append("limits " + " ".join(f"{given.least(name) / 1000} {given.greatest(name) / 1000}" for name in CONSTANTS))
    for place, member in enumerate(given.members):
        several = random_words(words, member.stream)
        lines.append(f"words {place} " + " ".join(str(next(several)) for _ in range(WORDS)))
    return lines


def counts(result: Result) -> tuple[int, int]:
    """How many requests and how many repairs were sent."""
    asks = sum(1 for one in result.sent if one[2] == "ask")
    return asks, len(result.sent) - asks


def simultaneous(ours_trace: str) -> bool:
    """Whether two packets about one name come to a member at one tick: then srm_lab takes them by sender."""
    seen: set[tuple[int, int, str]] = set()
    about: dict[str, str] = {}
    for row in read_trace(ours_trace.splitlines()):
        if row.sent != "-":
            about[row.sent] = row.ref
        if row.cause in ("request", "repair", "data"):
            key = row.time, row.member, about[row.ref]
            if key in seen:
                return True
            seen.add(key)
    return False


def row_of(family: str, place: int, ours: Result, theirs: Result, why: str) -> list[Any]:
    """A row of the table of scenarios."""
    return [family, place, len(ours.losses), *counts(ours), *counts(theirs), why,
            f"{ours.seconds:.4f}", f"{theirs.seconds:.4f}", f"{theirs.of_run:.4f}"]


def tell(family: str, told: Counter[str]) -> None:
    """Prints how many scenarios of a family there were of each kind, the most frequent first."""
    print(f"{family.replace('_', ' ')}: {told.total()} scenarios; "
          + ", ".join(f"{number} {why}" for why, number in told.most_common()), flush=True)
