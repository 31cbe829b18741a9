"""Losses that are told by a rule, which a scenario remembers until it is written.

What a rule comes to depends on draws, delays, constants and members, whichever verb says these first. So
`Scenario.settled` lets each rule add its drops, outages and draws only then, and refuse what was not asked for.
"""
import random
from collections import Counter
from collections.abc import Collection, Iterable
from dataclasses import dataclass, replace
from itertools import pairwise
from typing import TYPE_CHECKING, Protocol

from .errors import ScenarioError
from .losses import arrival, bernoulli, check_that_data_is_lost, drawn, first_request, last_draws, links_in_use
from .parts import Draw, Drop, Outage, RandomLoss

if TYPE_CHECKING:
    from .scenario import Scenario

# while requests and repairs may come to a link, outages for single operations are at least so many ticks apart
APART = 100


class Rule(Protocol):
    """A rule of losses."""

    def added_to(self, given: "Scenario") -> "Scenario":
        """The scenario with what the rule adds to it."""

    def check(self, given: "Scenario") -> None:
        """Refuses a scenario, with what all rules have added to it, in which this one loses what was not asked for."""


@dataclass(frozen=True)
class EveryPacket:
    """A link drops the packets 0, K, 2 K and so on of a sender, by default among as many as it draws."""

    link: int
    every: int
    sender: int = 0
    packets: int | None = None
    any_packet: bool = False

    def added_to(self, given: "Scenario") -> "Scenario":
        return replace(given, drops=(*given.drops, *(Drop(self.link, self.sender, count) for count in self._counts(given))))

    def check(self, given: "Scenario") -> None:
        check_link(given, self.link, self.sender)
        if not self.any_packet:
            check_that_data_is_lost(given, self._counts(given), self.sender)

    def _counts(self, given: "Scenario") -> range:
        return range(0, packets_of(given, self.sender, self.packets), self.every)


@dataclass(frozen=True)
class ListedLosses:
    """Each link on the way from a sender to another member, or one link, drops each of its packets with a probability."""

    rate: float
    link: int | None
    sender: int | None
    packets: int | None
    seed: int

    def added_to(self, given: "Scenario") -> "Scenario":
        found = bernoulli(given, self.rate, self.link, random.Random(f"lose {self.seed}"),
                          lambda sender: packets_of(given, sender, self.packets))
        return replace(given, drops=(*given.drops, *(drop for drop in found if self.sender in (None, drop.sender))))

    def check(self, given: "Scenario") -> None:
        """Nothing else is lost by a drop."""


@dataclass(frozen=True)
class OfRecovery:
    """Losses at random, each of which begins once the last draw has come to its link: so they take no operation."""

    losses: tuple[RandomLoss, ...]

    def added_to(self, given: "Scenario") -> "Scenario":
        last = last_draws(given)
        made = (replace(one, first=max(one.first, 1 + last.get(one.link, -1))) for one in self.losses)
        return replace(given, random_losses=(*given.random_losses, *made))

    def check(self, given: "Scenario") -> None:
        """It loses what was asked for, whatever else is lost."""


@dataclass(frozen=True)
class EveryOperation:
    """A link loses the operations 0, K, 2 K and so on of a sender: it is out for the tick at which each comes to it."""

    link: int
    every: int
    sender: int = 0

    def added_to(self, given: "Scenario") -> "Scenario":
        return with_outages(given, self.link, self._ticks(given))

    def check(self, given: "Scenario") -> None:
        check_link(given, self.link, self.sender)
        check_outages(given, self.link, self._ticks(given), drawn(given, self.sender)[::self.every])

    def _ticks(self, given: "Scenario") -> list[int]:
        way = arrival(given.tree, given.members[self.sender].node, self.link)
        return [draw.at + way for draw in drawn(given, self.sender)[::self.every]]


@dataclass(frozen=True)
class Rounds:
    """A sender draws twice in each round; the first of the two is lost on one link, which is out for its tick."""

    count: int
    link: int
    every: int | None = None
    sender: int = 0
    page: int = 0

    def added_to(self, given: "Scenario") -> "Scenario":
        draws = self._draws(given)
        return with_outages(replace(given, draws=(*given.draws, *draws)), self.link, self._ticks(given, draws[::2]))

    def check(self, given: "Scenario") -> None:
        check_link(given, self.link, self.sender)
        lost = self._draws(given)[::2]
        check_outages(given, self.link, self._ticks(given, lost), lost)

    def _draws(self, given: "Scenario") -> list[Draw]:
        every = given.recovery() if self.every is None else self.every
        return [Draw(self.sender, self.page, number, number * every) for number in range(2 * self.count)]

    def _ticks(self, given: "Scenario", lost: Iterable[Draw]) -> list[int]:
        way = arrival(given.tree, given.members[self.sender].node, self.link)
        return [draw.at + way for draw in lost]


def settled(given: "Scenario", rules: Iterable[Rule]) -> "Scenario":
    """A scenario with what the rules add; those that draw come first, since others lose what is drawn."""
    for rule in sorted(rules, key=lambda rule: not isinstance(rule, Rounds)):
        given = rule.added_to(given)
    return given


def packets_of(given: "Scenario", sender: int, packets: int | None) -> int:
    """How many packets of a sender may be dropped: by default as many as it draws."""
    return len(drawn(given, sender)) if packets is None else packets


def with_outages(given: "Scenario", link: int, ticks: Iterable[int]) -> "Scenario":
    """A scenario whose link is out in these ticks."""
    return replace(given, outages=(*given.outages, *(Outage(link, at, at + 1) for at in dict.fromkeys(ticks))))


def check_link(given: "Scenario", link: int, sender: int) -> None:
    """Refuses a link that none of a sender's packets comes to."""
    nodes = [member.node for member in given.members]
    if link not in links_in_use(given.tree, nodes[sender], nodes):
        raise ScenarioError(f"link {link} is on no way from member {sender} to another member, so that it loses nothing")


def check_outages(given: "Scenario", link: int, ticks: Iterable[int], lost: Iterable[Draw]) -> None:
    """Refuses outages of single ticks that take more than the operations that they are for.

    Of operations and session messages it is known when they come to the link. Requests and repairs come at random, so
    that one of them may be lost too: where they may be on their way, the link is out in one tick of a hundred at most.
    """
    taken = sorted({*ticks})
    _check_others(given, link, {*taken}, lost)
    close = [(before, at) for before, at in pairwise(taken) if at - before < APART]
    begins = first_request(given) if close else None
    for before, at in close:
        if begins is not None and at >= begins:
            raise ScenarioError(
                f"link {link} is out at tick {before} and again at {at}, and from tick {begins} on requests and repairs may "
                f"be lost there besides: let lost operations be at least {APART} ticks apart, if need be by longer delays, "
                "which make a tick a shorter time")


def _check_others(given: "Scenario", link: int, taken: Collection[int], lost: Iterable[Draw]) -> None:
    """Refuses outages that take another operation, or a session message."""
    others = Counter(given.draws)
    others.subtract(lost)
    nodes = [member.node for member in given.members]
    acts = [*((one.member, one.at, "an operation") for one in others.elements()),
            *((one.member, one.at, "a session message") for one in given.sessions)]
    ways = {member: arrival(given.tree, nodes[member], link) for member in sorted({member for member, _, _ in acts})
            if link in links_in_use(given.tree, nodes[member], nodes)}
    for member, at, what in acts:
        if member in ways and at + ways[member] in taken:
            raise ScenarioError(f"{what} of member {member}, sent at tick {at}, comes to link {link} in the same tick as one "
                                "that it is to lose: let them be sent at different ticks")
