"""A scenario, and the verbs that build one.

    from srm_lab import scenario
    scenario.random_tree(nodes=200, members=60, seed=7).lose(rate=0.01).leave(members=20, at=(40_000, 120_000))

Every function and verb gives a scenario that the format takes, or raises ScenarioError with a sentence that names the
key and the rule. Rules of losses (`lose`, `lose_operations`, `rounds`) are kept until the scenario is written: then
they take what the other verbs said, before them or after, and what a rule cannot do is refused. Times and delays are in
ticks. All random choices are those of the scenario's seed, of each verb its own.
"""
import hashlib
import random
from collections.abc import Callable, Collection, Iterable, Mapping
from dataclasses import dataclass, field, replace
from decimal import Decimal
from functools import cached_property
from operator import attrgetter
from pathlib import Path
from typing import TYPE_CHECKING, Any

from . import graphs, loss_rules, losses, router_map, shown, tree as trees, writing
from .checks import check
from .errors import ScenarioError, perhaps, spelled, verbs_spelled
from .graphs import Delays
from .kept import kept, kept_of
from .limits import MOST_NUMBERS, MOST_SEED, MOST_TIME, NEWEST, VERSIONS, Limits, within
from .loss_rules import EveryOperation, EveryPacket, ListedLosses, OfRecovery, Rounds, Rule
from .parts import (CONSTANTS, LIMITS, LOCAL, Draw, Drop, Member, Outage, RandomLoss, Session, are_in_bursts, drawn_evenly,
                    have_scopes, losses_alike)
from .timing import BACKOFF, Timing
from .tree import Tree

# a session's links, and its source's draws: they are over before the first loss is asked for
DELAY, DRAWS, EVERY = 1000, 100, 1
AT = attrgetter("at")
Ticks = int | tuple[int, int]
Members = int | str | Iterable[Any]  # how many, `all`, or the nodes' names or numbers


@verbs_spelled
@dataclass(frozen=True)
class Scenario:
    """What a run is given. Constants are in thousandths; members adapt each from its least to its greatest value.

    Where `until` is None, the end leaves time for 64 rounds of asking and repairing after the last draw, session
    message or join. Where `version` is None, the first version of the format that has room is written. A request goes
    `scope` links, unless its member has a scope of its own, and `widen` more for each backoff; one with `tries` backoffs goes
    to all, as where the scope is 0. Repairs for requests with a scope are made in one or two `steps`.
    `comments` are the lines in front of the file; the names of nodes stand there as well. `rules` are losses that are
    told by a rule; in `settled` stand the drops, outages, losses at random and draws that they come to.
    """

    tree: Tree
    members: tuple[Member, ...] = ()
    until: int | None = None
    c1: int = 2000
    c2: int = 2000
    d1: int = 1000
    d2: int = 1000
    draws: tuple[Draw, ...] = ()
    sessions: tuple[Session, ...] = ()
    drops: tuple[Drop, ...] = ()
    outages: tuple[Outage, ...] = ()
    random_losses: tuple[RandomLoss, ...] = ()
    version: int | None = None
    comments: tuple[str, ...] = ()
    seed: int = 0
    c1_least: int | None = None
    c2_least: int | None = None
    d1_least: int | None = None
    d2_least: int | None = None
    c1_most: int | None = None
    c2_most: int | None = None
    d1_most: int | None = None
    d2_most: int | None = None
    backoff: int = 2
    scope: int = LOCAL["scope"]
    widen: int = LOCAL["widen"]
    tries: int = LOCAL["tries"]
    steps: int = LOCAL["steps"]
    rules: tuple[Rule, ...] = ()
    timings: tuple[Timing, ...] = field(default=(), repr=False, compare=False)  # what verbs said of the constants

    # ---- what it says ----------------------------------------------------------

    @cached_property
    def end(self) -> int:
        """Events before this tick are handled."""
        return self.until if self.until is not None else self.settled._room()

    @cached_property
    def settled(self) -> "Scenario":
        """This scenario with the draws, and what links lose, that its rules of losses come to, in place of the rules."""
        if not self.rules:
            return self
        made = loss_rules.settled(self._bare, self.rules)
        parts = {name: getattr(made, name) for name in ("draws", "drops", "outages", "random_losses")}
        made = self._bare._with(**{name: part for name, part in parts.items() if part is not getattr(self, name)})
        for rule in self.rules:
            rule.check(made)
        return made

    @cached_property
    def _bare(self) -> "Scenario":
        """This scenario without its rules of losses."""
        return replace(self, rules=()) if self.rules else self

    def _room(self) -> int:
        """An end that leaves time for 64 rounds of asking and repairing after the last thing that is to happen."""
        last = max([*map(AT, self.draws), *map(AT, self.sessions), *map(attrgetter("join"), self.members)], default=0)
        return min(MOST_TIME, last + self.recovery())

    def recovery(self) -> int:
        """Time for 64 rounds of asking and repairing by timers as they now stand, of members as far apart as any are."""
        nodes = [*map(attrgetter("node"), self.members)] or [0]
        far = max(nodes, key=self.tree.round_trips(nodes[0]).__getitem__)
        farthest = max(map(self.tree.round_trips(far).__getitem__, nodes))
        constants = sum(self.greatest(name) for name in CONSTANTS)
        return farthest + 64 * (2 + constants // 1000 + 1) * max(1, farthest) + 1

    def least(self, name: str) -> int:
        """The least value of a constant, such as `c1`, that a member adapts it to."""
        value = getattr(self, f"{name}_least")
        return int(getattr(self, name) if value is None else value)

    def greatest(self, name: str) -> int:
        """The greatest value of a constant that a member adapts it to."""
        value = getattr(self, f"{name}_most")
        return int(getattr(self, name) if value is None else value)

    @property
    def is_adaptive(self) -> bool:
        """Whether only a version with adaptive timers has room for its constants."""
        given = any(getattr(self, name) is not None for name in LIMITS) or self.backoff != 2
        return given or max(self.c1, self.c2, self.d1, self.d2) > VERSIONS[2].constant

    @cached_property
    def is_local(self) -> bool:
        """Whether only a version with local recovery has room for what it says of scopes."""
        return any(getattr(self, name) != value for name, value in LOCAL.items()) or have_scopes(self.members)

    def scope_of(self, member: int) -> int:
        """How many links the first request of a member goes, and 0 where it goes to all."""
        own = self.members[member].scope
        return self.scope if own is None else own

    @cached_property
    def least_version(self) -> int:
        """The first version of the format that has room for this scenario."""
        if self.rules:
            return self.settled.least_version
        needs = {"large": "parent" in self.tree.shorthand, "losses": bool(self.random_losses), "outages": bool(self.outages),
                 "adaptive": self.is_adaptive, "two_way": not self.tree.is_even or "back" in self.tree.shorthand,
                 "local": self.is_local or are_in_bursts(self.random_losses)}
        wanted = [name for name, needed in needs.items() if needed]
        return next((version for version, limits in VERSIONS.items()
                     if all(getattr(limits, name) for name in wanted) and self._fits(limits)), max(VERSIONS))

    @property
    def is_large(self) -> bool:
        """Whether only a version with larger networks has room for so many nodes, members and other elements."""
        return not self.settled._fits(VERSIONS[2])

    def _fits(self, limits: Limits) -> bool:
        """Whether a version has room for so many nodes and elements."""
        nodes = max(self.tree.nodes, self.tree.shorthand.get("degree", 0) + 1)
        elements = max(map(len, (self.draws, self.sessions, self.drops, self.outages, self.random_losses)))
        return nodes <= limits.nodes and len(self.members) <= limits.members and elements <= limits.elements

    def source(self) -> int:
        """The member that draws first, or member 0."""
        draws = self.settled.draws
        return min(draws, key=lambda draw: draw.at).member if draws else 0

    def wants(self, member: int, page: int) -> bool:
        """Whether operations from before this member came to the page concern it."""
        return self.members[member].wants(page)

    def is_out(self, link: int, at: int) -> bool:
        """Whether a link is out at a tick, and so drops each packet that comes to it."""
        return any(outage.is_on(at) for outage in self.outages_of.get(link, ()))

    def is_lost(self, link: int, sender: int, count: int, at: int, seed: int) -> bool:
        """Whether a link loses a packet at random that comes to it at a tick, in the run of a seed."""
        return any(loss.takes(seed, sender, count, at) for loss in self.losses_of.get(link, ()))

    @cached_property
    def losses_of(self) -> dict[int, list[RandomLoss]]:
        """The losses at random of each link that has some."""
        found: dict[int, list[RandomLoss]] = {}
        for loss in self.random_losses:
            found.setdefault(loss.link, []).append(loss)
        return found

    @cached_property
    def outages_of(self) -> dict[int, list[Outage]]:
        """The outages of each link that has some."""
        found: dict[int, list[Outage]] = {}
        for outage in self.settled.outages:
            found.setdefault(outage.link, []).append(outage)
        return found

    @cached_property
    def drops_of(self) -> dict[tuple[int, int], frozenset[int]]:
        """The links that drop a packet, for each (sender, count) that some link drops."""
        found: dict[tuple[int, int], set[int]] = {}
        for drop in self.settled.drops:
            found.setdefault((drop.sender, drop.count), set()).add(drop.link)
        return {packet: frozenset(links) for packet, links in found.items()}

    def distance(self, a: int, b: int) -> int:
        """How long a packet takes from one member to another, in ticks."""
        return self.tree.distances(self.members[a].node)[self.members[b].node]

    def round_trip(self, a: int, b: int) -> int:
        """The distance from one member to another and back, in ticks."""
        return self.tree.round_trips(self.members[b].node)[self.members[a].node]

    def hops(self, a: int, b: int) -> int:
        """How many links are between two members."""
        return self.tree.hops(self.members[a].node)[self.members[b].node]

    def least_scopes(self, link: int, sender: int = 0) -> dict[int, int]:
        """Of each member behind a link, as a sender sees it, the least scope that reaches all of them and one more member.

        It is what `local_recovery` takes: requests for what the link loses go just far enough to be answered.
        """
        return losses.least_scopes(self, link, sender)

    # ---- its text --------------------------------------------------------------

    def check(self) -> "Scenario":
        """This scenario, or ScenarioError with the first thing that the format refuses, or that a rule of losses does."""
        self.settled._checked
        return self

    @cached_property
    def _checked(self) -> "Scenario":
        check(self)
        return self

    def table(self) -> dict[str, Any]:
        """The keys and values of the scenario file."""
        return writing.table_of(self.check().settled)

    def text(self) -> str:
        """The scenario file."""
        return writing.text_of(self.check().settled)

    def digest(self) -> str:
        """The SHA-256 of the scenario file, but for `comments`: what tells scenarios apart."""
        return self._digest

    @cached_property
    def _digest(self) -> str:
        return hashlib.sha256(self.plain_text).hexdigest()

    @cached_property
    def plain_text(self) -> bytes:
        """The scenario file without `comments`."""
        return (replace(self, comments=()) if self.comments else self).text().encode()

    def is_as(self, other: "Scenario") -> bool:
        """Whether the other scenario has the same file, but for `comments`."""
        return replace(self, comments=(), seed=0) == replace(other, comments=(), seed=0)

    def write(self, path: str | Path) -> Path:
        """Writes the scenario file, and gives its path."""
        path = Path(path)
        path.write_text(self.text(), encoding="utf-8")
        return path

    def __repr__(self) -> str:
        return f"<Scenario: {shown.line_of(self._shown)}>"

    def _repr_html_(self) -> str:
        return shown.scenario_html(self._shown)

    @property
    def _shown(self) -> "Scenario":
        """What is shown of it: with what its rules of losses come to, but where they are refused."""
        try:
            return self.settled
        except ScenarioError:
            return self._bare

    # ---- verbs -----------------------------------------------------------------

    if not TYPE_CHECKING:  # which is to see what is misspelt
        def __getattr__(self, name: str) -> Any:
            if name.startswith("_"):
                raise AttributeError(name)
            raise AttributeError(f"a scenario has no {name!r}{perhaps(name, (*vars(type(self)), *vars(self)))}")

    def _with(self, **changes: Any) -> "Scenario":
        """This scenario with changes; elements that were checked already, and stay, are not checked again.

        What one version of the format takes, each later one does. Rules of losses wait until the scenario is written.
        """
        made = replace(self, **changes)
        if changes.keys() == {"rules"}:
            vars(made)["_bare"] = self._bare
        before, after = self._bare, made._bare
        if before is not after and "_checked" in vars(before) and after.least_version >= before.least_version:
            check(after, changes)
            vars(after)["_checked"] = after
        after._checked
        return made

    def _seed(self, seed: int | None) -> int:
        return self.seed if seed is None else seed_of(seed)

    def _rng(self, verb: str, seed: int | None) -> random.Random:
        return random.Random(f"{verb} {self._seed(seed)}")

    def constants(self, **values: float | str) -> "Scenario":
        """Sets `c1`, `c2`, `d1` or `d2`: a number with at most three decimals, or `log10` or `sqrt` of the members.

        `c1_least`, `c1_most` and so on say how far members adapt a constant. `backoff`, 2 or 3, is how many times as long
        a backoff makes a request timer.
        """
        _check_constants(values, (*CONSTANTS, *LIMITS, BACKOFF))
        return self._timed(Timing(values))

    def adaptive(self, **first: float | str) -> "Scenario":
        """Lets members adapt their timers, with the limits and the backoff of Floyd et al. (1997) for so many members.

        The constants begin as there too, but for those that `first` names (`c1=1.5`, `d2="sqrt"`); `setting` has which
        numbers these are. Without it, or after `constants(...)` has set limits, timers are as the constants say.
        """
        _check_constants(first, CONSTANTS)
        return self._timed(Timing(first, is_adaptive=True))

    def _timed(self, timing: Timing) -> "Scenario":
        return self._with(timings=(*self.timings, timing), **timing.keys(len(self.members)))

    def local_recovery(self, scope: int | Mapping[int, int] | None = None, widen: int | None = None, tries: int | None = None,
                       steps: int | None = None) -> "Scenario":
        """Lets requests and repairs go only some links far, so that those who lost nothing need not hear them.

        A member's first request goes `scope` links, or to all where that is 0; of a dict, such as `least_scopes` gives,
        each of its members has its own. A backoff lets it go `widen` links further, and a request with `tries` backoffs,
        1 to 10, goes to all. With `steps=1` a repair goes as far as the request did and the way between both members
        besides; with `steps=2` it goes as far as the request, whose member then sends it on as far. What is not named
        stays as it is.
        """
        whole = None if isinstance(scope, Mapping) else scope
        given = {"scope": whole, "widen": widen, "tries": tries, "steps": steps}
        changes: dict[str, Any] = {name: value for name, value in given.items() if value is not None}
        if isinstance(scope, Mapping):
            own = iter(scope.values())
            changes["members"] = _changed(self.members, _numbers("members", scope),
                                          lambda member: replace(member, scope=next(own)))
        return self._with(**changes) if changes else self

    def in_version(self, version: int) -> "Scenario":
        """Writes the scenario in this version of the format, 1 to 5, in place of the first that has room for it."""
        return self._with(version=version)

    def ends(self, until: int) -> "Scenario":
        """Handles events before this tick only."""
        return self._with(until=until)

    def delay(self, delay: int, most: int | None = None, seed: int | None = None) -> "Scenario":
        """Gives each link this delay in both directions, or a random one from `delay` to `most`."""
        if most is None:
            return self._with(tree=self.tree.with_delay(delay))
        return self._with(tree=self.tree.with_delays(delay, most, self._rng("delay", seed)))

    def back(self, delay: int, most: int | None = None, seed: int | None = None) -> "Scenario":
        """Gives the other direction of each link this delay, or a random one from `delay` to `most`."""
        if most is None:
            return self._with(tree=self.tree.with_back(delay))
        rng = self._rng("back", seed)
        return self._with(tree=self.tree.with_back(lambda: rng.randint(delay, within("most", most, delay, MOST_TIME))))

    def member(self, node: int | str, role: str = "receiver", **keys: Any) -> "Scenario":
        """Puts one more member on a node, named by its number or its name; `keys` are those of Member."""
        keys.setdefault("stream", len(self.members) + 1)
        members = (*self.members, Member(self.tree.number(node), role, **keys))
        again = {key: value for timing in self.timings for key, value in timing.keys(len(members)).items()}
        return self._with(members=members, **again)

    def role(self, members: Iterable[int], role: str, pages: Iterable[int] | None = None) -> "Scenario":
        """Gives members a role; `pages` are those that late members want."""
        wanted = None if pages is None else tuple(_numbers("pages", pages))
        return self._with(members=_changed(self.members, _numbers("members", members),
                                           lambda member: replace(member, role=role, pages=wanted)))

    def join(self, members: int | Iterable[int], at: Ticks, seed: int | None = None) -> "Scenario":
        """Lets members join at a tick, or each at a random one of a range, both ends in it.

        A number says how many receivers and listeners, chosen at random among those that join at 0.
        """
        return self._with(members=_at_ticks(self.members, "join", members, at, self._seed(seed)))

    def leave(self, members: int | Iterable[int], at: Ticks, seed: int | None = None) -> "Scenario":
        """Lets members leave at a tick, or each at a random one of a range, both ends in it.

        A number says how many, chosen at random among those that do not draw and do not leave yet.
        """
        return self._with(members=_at_ticks(self.members, "leave", members, at, self._seed(seed)))

    def draw(self, at: int, member: int = 0, page: int = 0, ink: int | None = None) -> "Scenario":
        """Lets a sender draw once more."""
        ink = len(self.draws) if ink is None else ink
        return self._with(draws=(*self.draws, Draw(member, page, ink, within("at", at, 0, MOST_TIME))))

    def session(self, at: int, member: int = 0) -> "Scenario":
        """Lets a member send a session message."""
        return self._with(sessions=(*self.sessions, Session(member, within("at", at, 0, MOST_TIME))))

    def drawing(self, count: int, every: int = EVERY, start: int = 0, member: int = 0, page: int = 0) -> "Scenario":
        """In place of all draws and session messages of a sender: so many draws, `every` ticks apart, on one page.

        A session message follows `every` ticks after the last of them, so that a loss of the last one is found too.
        """
        count, every = within("count", count, 0, MOST_NUMBERS), within("every", every, 1, MOST_TIME)
        start = within("start", start, 0, MOST_TIME)
        told = (Session(member, start + count * every),) if count else ()
        others = tuple(one for one in self.draws if one.member != member)
        return self._with(draws=others + drawn_evenly(member, page, start, every, count),
                          sessions=(*(one for one in self.sessions if one.member != member), *told),
                          rules=tuple(one for one in self.rules if not isinstance(one, Rounds) or one.sender != member))

    def rounds(self, count: int, link: int | str, every: int | None = None, seed: int | None = None,
               sender: int = 0, page: int = 0) -> "Scenario":
        """In place of all draws and session messages of a sender: so many losses on one link, each a round of its own.

        The sender draws twice in a round. The link, which is chosen as by `lose`, is out for the one tick at which the
        first of the two comes to it; the second is heard, and shows the loss. Draws are `every` ticks apart, by default
        as many as 64 rounds of asking and repairing take, so that a round is over before the next begins.
        """
        number = losses.link_of(str(link), self, self._rng("rounds", seed), sender)
        if every is not None:
            within("every", every, 1, MOST_TIME)
        rule = Rounds(within("count", count, 0, MOST_NUMBERS // 2), number, every, sender, within("page", page, 0, NEWEST.page))
        return self.drawing(0, member=sender)._ruled(rule)

    def _ruled(self, rule: Rule) -> "Scenario":
        return self._with(rules=(*self.rules, rule))

    def drop(self, link: int, count: int | Iterable[int], sender: int = 0) -> "Scenario":
        """Lets a link drop a packet of a sender, or several, by their numbers among all that it sends, from 0."""
        return self._with(drops=(*self.drops, *(Drop(link, sender, one) for one in _numbers("count", count))))

    def lose(self, rate: float | None = None, every: int | None = None, link: int | str | None = None,
             packets: int | None = None, seed: int | None = None, sender: int | None = None,
             any_packet: bool = False, stream: int = 0, first: int = 0, last: int | None = None,
             burst: int | None = None, spares_draws: bool = False) -> "Scenario":
        """Loses packets by a rule: at random with a `rate`, or every K-th of a sender.

        A `rate` is the probability, in at most six decimals, with which a link loses each packet that comes to it from
        tick `first` to tick `last`, both in it, or to the end: data, requests, repairs and session messages alike. This
        is a loss of version 4, by which each run of a scenario loses packets of its own: the run's seed and the `stream`
        decide. Losses of one link and one stream take the same packets, as far as their rates go. In a `burst` of so many
        ticks a link loses all packets or none. With `spares_draws` each link begins once the last draw has come to it, so
        that requests, repairs and session messages alone are lost. For one `sender`, for the first `packets` of each, and in
        a scenario of version 1 to 3 it is a list of drops instead: each link on the way from a sender to another member
        drops each packet of that sender with this probability, the same in all runs.

        With `every` a link drops the packets 0, K, 2 K and so on of the `sender`, by default member 0. `link` says which
        one: a number, `adjacent` to the sender, `random`, `hops:H` away from it, or one with so many members behind it, as
        `losers:N`, or `losers:FEW-MANY`, of which it is drawn first how many; `losers` alone are 3 to a tenth of the
        members, or the next number that a link has. With a rate all links lose where none is named. A packet counts among
        all that its sender sends; the first `packets` may be dropped, by default as many as it draws. Every K-th has to be
        data: where a repair might come in place of it the scenario is not written, unless `any_packet` allows it. See
        `lose_operations` for draws that last longer than the first recovery.
        """
        if (rate is None) == (every is None):
            raise ScenarioError("lose: give either a rate or every")
        has_place = bool(stream or first or last is not None or burst is not None or spares_draws)
        if sender is not None:
            within("sender", sender, 0, max(0, len(self.members) - 1))
        one = sender or 0
        named = None if link is None else losses.link_of(str(link), self, self._rng("lose", seed), one)
        if packets is not None:
            within("packets", packets, 0, NEWEST.count)
        if every is not None:
            if named is None:
                raise ScenarioError("lose: every needs a link")
            if has_place:
                raise ScenarioError("lose: stream, first, last, burst and spares_draws go with a rate")
            return self._ruled(EveryPacket(named, within("every", every, 1, NEWEST.elements), one, packets, any_packet))
        if sender is None and packets is None and (self.version not in VERSIONS or VERSIONS[self.version].losses):
            found = self._at_random(_probability(rate), named, stream, first, last, burst)
            return self._ruled(OfRecovery(found)) if spares_draws else self._with(random_losses=self.random_losses + found)
        if has_place:
            raise ScenarioError("lose: stream, first, last, burst and spares_draws are of losses at random, which know no "
                                "sender and no packets, and which only versions from 4 on have")
        return self._ruled(ListedLosses(_probability(rate), named, sender, packets, self._seed(seed)))

    def lose_operations(self, every: int, link: int | str, seed: int | None = None, sender: int = 0) -> "Scenario":
        """Loses the operations 0, K, 2 K and so on of a sender on one link, whatever else is sent.

        The link, which is chosen as by `lose`, is out for the one tick at which each of them comes to it. Where another
        operation or a session message would come to it in such a tick, that is refused. A request or a repair may, and
        then is lost too: so lost operations have to be 100 ticks apart from the tick on at which the first is sent, and
        at most one packet in a hundred is. With long delays, which make a tick a short time, it is one of many more.
        How many were, the table of links tells: all that `dropped` has above the number of lost operations.
        """
        number = losses.link_of(str(link), self, self._rng("lose", seed), sender)
        return self._ruled(EveryOperation(number, within("every", every, 1, MOST_NUMBERS), sender))

    def _at_random(self, rate: float, link: int | None, stream: int, first: int, last: int | None,
                   burst: int | None) -> tuple[RandomLoss, ...]:
        """Losses at random of a link, or of all links."""
        share = _millionths(rate)
        end = None if last is None else within("last", last, 0, MOST_TIME) + 1
        within("stream", stream, 0, NEWEST.stream)
        within("first", first, 0, MOST_TIME)
        if burst is not None:
            burst = within("burst", burst, 1, MOST_TIME)
        links = range(len(self.tree.links)) if link is None else range(link, link + 1)
        return losses_alike(links, share, stream, first, end, burst) if share else ()

    def outage(self, link: int, first: int, last: int) -> "Scenario":
        """Lets a link drop each packet that comes to it from tick `first` to tick `last`, both in it."""
        return self._with(outages=(*self.outages, Outage(link, first, within("last", last, 0, MOST_TIME) + 1)))


def _check_constants(names: Iterable[str], known: Collection[str]) -> None:
    """Refuses a name that no constant has."""
    for name in names:
        if name not in known:
            raise ScenarioError(f"{name}: the constants are c1, c2, d1 and d2{perhaps(name, known)}")


def _probability(rate: float | None) -> float:
    if isinstance(rate, bool) or not isinstance(rate, (int, float)) or not 0 <= rate <= 1:
        raise ScenarioError(f"lose: rate is {rate!r}, and has to be from 0 to 1")
    return float(rate)


def _millionths(rate: float) -> int:
    """A rate in millionths, of a number with at most six decimals."""
    share = Decimal(str(rate)) * NEWEST.rate
    if share != int(share):
        raise ScenarioError(f"lose: rate is {rate}, which has more than six decimals, and the format has millionths")
    return int(share)


@kept_of
def _at_ticks(members: tuple[Member, ...], verb: str, which: int | Iterable[int], at: Ticks, seed: int) -> tuple[Member, ...]:
    """The members, of whom those that are named, or so many, `join` or `leave` at a tick or at random ones."""
    rng = random.Random(f"{verb} {seed}")
    stays = {"join": 0, "leave": None}[verb]
    free = [place for place, one in enumerate(members) if one.role != "sender" and getattr(one, verb) == stays]
    return _changed(members, _chosen(verb, which, free, rng), lambda member: replace(member, **{verb: _tick(at, rng)}))


def _changed(members: tuple[Member, ...], places: list[int], change: Callable[[Member], Member]) -> tuple[Member, ...]:
    """The members with a change of those at some places."""
    made = list(members)
    for place in places:
        if not 0 <= place < len(made):
            raise ScenarioError(f"there is no member {place}: there are {len(made)}")
        made[place] = change(made[place])
    return tuple(made)


def _tick(at: Ticks, rng: random.Random) -> int:
    """A tick that is given, or a random one of a range."""
    if isinstance(at, int):
        return at
    if not isinstance(at, (tuple, list)) or len(at) != 2:
        raise ScenarioError(f"at is {at!r}, and has to be a tick, or the first and the last tick of a range")
    first, last = _numbers("at", at)
    if first > last:
        raise ScenarioError(f"at is {at!r}, and its first tick is after its last")
    return rng.randint(first, last)


def _chosen(verb: str, members: int | Iterable[int], free: list[int], rng: random.Random) -> list[int]:
    """The members that are named, or so many of the free ones."""
    if not isinstance(members, int):
        return _numbers("members", members)
    return sorted(rng.sample(free, within(f"{verb}: members", members, 0, len(free))))


def _numbers(what: str, given: int | Iterable[int]) -> list[int]:
    """The whole numbers that are given, one or several."""
    several = given if isinstance(given, Iterable) and not isinstance(given, str) else [given]
    return [within(what, one, 0, MOST_TIME) for one in several]


def seed_of(seed: Any) -> int:
    """A seed of random choices."""
    return within("seed", seed, 0, MOST_SEED)


# ---- scenarios on networks of a kind -------------------------------------------

_kept = kept(lambda made: made.tree.nodes)

if not TYPE_CHECKING:
    def __getattr__(name: str) -> Any:
        if name.startswith("_"):
            raise AttributeError(name)
        makers = [word for word, one in globals().items() if getattr(one, "__annotations__", {}).get("return") is Scenario]
        raise AttributeError(f"srm_lab.scenario has no {name!r}{perhaps(name, makers)}")


@spelled
@_kept
def chain(nodes: int, members: Members = "all", source: int | str = "first", delay: int = DELAY,
          seed: int = 0) -> Scenario:
    """Nodes in a row. See `on` for the other words."""
    return on(trees.chain(nodes, delay), members, source, seed)


@spelled
@_kept
def star(nodes: int, members: Members = "all", source: int | str = "first", delay: int = DELAY,
         seed: int = 0) -> Scenario:
    """A hub, node 0, without a member, and a link from it to each other node. See `on` for the other words."""
    return on(trees.star(nodes, delay), members, source, seed)


@spelled
@_kept
def regular_tree(nodes: int, degree: int = 4, members: Members = "all", source: int | str = "first",
                 delay: int = DELAY, seed: int = 0) -> Scenario:
    """A tree whose inner nodes have this degree, as far as the nodes last. See `on` for the other words."""
    return on(trees.bounded_degree(nodes, degree, delay), members, source, seed)


@spelled
@_kept
def random_tree(nodes: int, members: Members = "all", source: int | str = "first", delay: int = DELAY,
                seed: int = 0) -> Scenario:
    """A random labelled tree: each one of this size has the same chance. See `on` for the other words."""
    return on(_random_labelled(nodes, delay, seed), members, source, seed)


@kept(attrgetter("nodes"))
def _random_labelled(nodes: int, delay: int, seed: int) -> Tree:
    """The tree of a seed, on which sessions of several sizes may be."""
    return trees.random_labelled(nodes, delay, random.Random(f"tree {seed}"))


@spelled
def from_parents(parent: Iterable[int], delay: int | Iterable[int] = DELAY, back: int | Iterable[int] | None = None,
                 members: Members = "all", source: int | str = "first", seed: int = 0) -> Scenario:
    """A network by the parents of nodes 1, 2 and so on, as the format's `parent` tells it; node 0 has none.

    `delay` is that of each link from the parent to the child, or has one for each link, and `back` the same of the other
    direction, by default as long. See `on` for the other words.
    """
    return on(trees.by_parents(parent, delay, back), members, source, seed)


@spelled
def from_graph(graph: Any, delays: Delays | int = Delays(), spanning_tree: str | None = None,
               members: Members = "all", source: int | str = "first", seed: int = 0) -> Scenario:
    """A networkx graph whose nodes keep their names; `delays` says where its delays stand, or is that of each link.

    The shortest spanning tree is that of the source, where the source is named. See `on` for the other words.
    """
    delays = Delays(default=delays) if isinstance(delays, int) else delays
    root = graphs.node_of(graph, source)
    root = root if root in graph else None
    return on(graphs.from_graph(graph, delays, spanning_tree, root), members, source, seed)


@spelled
def from_file(path: str | Path, delays: Delays | int = Delays(), spanning_tree: str | None = None,
              members: Members = "all", source: int | str = "first", seed: int = 0) -> Scenario:
    """The graph in a GraphML or GML file, or a list of edges, as `from_graph` takes it.

    A node has its `label` as its name, where no other has the same, and else its id.
    """
    delays = Delays(default=delays) if isinstance(delays, int) else delays
    root = None if source in ("first", "random") else str(source)
    return on(graphs.from_file(path, delays, spanning_tree, root), members, source, seed)


@spelled
def from_router_map(graph: Any, delays: Delays | int = Delays(), members: Members = "all",
                    source: Any = "first", seed: int = 0) -> Scenario:
    """A session on a map of routers of any size: the tree of shortest ways from the source to the members.

    `graph` is a networkx graph or the path of a file. `members` names their nodes, or says how many there are, the
    source among them, chosen at random among those that the source reaches, or `all`. Ways on which there is no member
    are left out, and routers that only hand on are joined into one link with those beside them; `tree.names` and
    `tree.routes` lead back to the map. The tree may have 65,535 nodes. `srm_lab.router_map` has the rules.
    """
    delays = Delays(default=delays) if isinstance(delays, int) else delays
    if isinstance(graph, (str, Path)):
        graph = graphs.read_graph(graph, delays.attribute)
    if not graph:
        raise ScenarioError("the map has no node")
    rng = random.Random(f"members {seed}")
    root = graphs.node_of(graph, source)
    if root not in graph:
        if source not in ("first", "random"):
            raise ScenarioError(f"the map has no node {source!r}")
        root = next(iter(graph)) if source == "first" else rng.choice(list(graph))
    steps = router_map.shortest_ways(graph, delays, root)
    others = router_map.reached(graph, root, steps)
    if isinstance(members, int):
        picked = set(rng.sample(range(len(others)), within("members", members, 1, len(others) + 1) - 1))
        others = [node for place, node in enumerate(others) if place in picked]
    elif members != "all":
        others = router_map.named(graph, root, steps, [members] if isinstance(members, str) else members)
    tree = router_map.reduced(graph, root, steps, others)
    return _session(tree, [tree.number(str(node)) for node in (root, *others)], seed)


@spelled
def on(tree: Tree, members: Members = "all", source: int | str = "first", seed: int = 0) -> Scenario:
    """A session on a network: member 0, a sender, draws 100 times, a tick apart, and the others receive.

    `members` is how many there are, the source among them, on nodes chosen at random; or their nodes, by numbers or
    names; or `all`. `source` is a node by its number or name, `first` or `random`. `drawing` puts other draws in place of these.
    """
    return _session(tree, place_members(tree, members, source, random.Random(f"members {seed}")), seed)


def _session(tree: Tree, nodes: Iterable[int], seed: int) -> Scenario:
    """A session of members on these nodes, the source's first."""
    made = tuple(Member(node, "receiver" if place else "sender", place + 1) for place, node in enumerate(nodes))
    return Scenario(tree, made, seed=seed_of(seed)).drawing(DRAWS)


def place_members(tree: Tree, members: Members, source: int | str, rng: random.Random) -> list[int]:
    """The members' nodes, the source's first and the others in rising order."""
    hosts = tree.hosts()
    if not hosts:
        raise ScenarioError("no node may host a member")
    node = hosts[0] if source == "first" else rng.choice(hosts) if source == "random" else _host(tree, source, "source")
    others = [host for host in hosts if host != node]
    if isinstance(members, str):
        return [node, *(others if members == "all" else {_host(tree, members, "members")} - {node})]
    if isinstance(members, Iterable):
        return [node, *sorted({_host(tree, name, "members") for name in members} - {node})]
    return [node, *sorted(rng.sample(others, within("members", members, 1, len(hosts)) - 1))]


def _host(tree: Tree, name: int | str, what: str) -> int:
    """The node of this name or number, if it may host a member."""
    node = tree.number(name)
    if node == tree.hub:
        raise ScenarioError(f"{what} {name}: no node that may host a member")
    return node


@spelled
def read(text: str | bytes) -> Scenario:
    """The scenario in a text, which is refused where the program would refuse it."""
    from .reading import read_scenario
    return read_scenario(text)


@spelled
def load(path: str | Path) -> Scenario:
    """The scenario in a file."""
    from .reading import load_scenario
    return load_scenario(path)
