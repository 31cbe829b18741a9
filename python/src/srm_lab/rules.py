"""What the parts of a scenario have to be to each other, as docs/FORMATS.md has it, in the order of its refusals."""
import math
from collections.abc import Collection
from typing import TYPE_CHECKING

from .errors import ScenarioError
from .kept import kept_of
from .parts import Draw, Member, RandomLoss

if TYPE_CHECKING:
    from .scenario import Scenario


def _members(given: "Scenario") -> None:
    nodes, last = _places(given.members)
    if max(nodes, default=0) < given.tree.nodes and given.tree.hub not in nodes and last < given.end:
        return
    taken: dict[int, int] = {}
    hub = given.tree.hub
    for place, member in enumerate(given.members):
        def fault(key: str, told: str, place: int = place) -> ScenarioError:
            return ScenarioError(f"member {place}: `{key}` {told}", "member", place, key)

        if member.node >= given.tree.nodes:
            raise fault("node", f"is {member.node}, and the network has {given.tree.nodes} nodes")
        if member.node == hub:
            raise fault("node", f"is {member.node}, the hub of the star, on which no member may be placed")
        if member.node in taken:
            raise fault("node", f"is {member.node}, on which member {taken[member.node]} is: a node has one member")
        if member.join >= given.end:
            raise fault("join", f"is {member.join}, and has to be before the end of the run at {given.end}")
        if member.leave is not None and member.leave <= member.join:
            raise fault("leave", f"is {member.leave}, and has to be after it joins at {member.join}")
        if member.pages is not None and member.role != "late":
            raise fault("pages", f"are given, and its role is {member.role}: only a late member has wanted pages")
        if member.scope is not None and member.role == "listener":
            raise fault("scope", "is given, and its role is listener, which never asks")
        taken[member.node] = place


def _while_there(given: "Scenario", part: str, place: int, at: int, number: int) -> None:
    """Refuses what a member is to do at a time at which it is not there, or that is not before the end."""
    member = given.members[number]
    told = None
    if at < member.join:
        told = f"before member {number} joins at {member.join}"
    elif member.leave is not None and at > member.leave:
        told = f"after member {number} leaves at {member.leave}"
    elif at >= given.end:
        told = f"not before the end of the run at {given.end}"
    if told:
        raise ScenarioError(f"{part} {place}: `at` is {at}, which is {told}", part, place, "at")


def _known(given: "Scenario", part: str, place: int, key: str, number: int) -> None:
    if number >= len(given.members):
        raise ScenarioError(f"{part} {place}: `{key}` is {number}, and there are {len(given.members)} members",
                            part, place, key)


def _may_draw(given: "Scenario", number: int, first: int, last: int) -> bool:
    """Whether there is such a member, and it may draw from one tick to another."""
    if number >= len(given.members) or last >= given.end:
        return False
    member = given.members[number]
    return member.role == "sender" and member.join <= first and (member.leave is None or last <= member.leave)


def _draws(given: "Scenario") -> None:
    if all(_may_draw(given, number, *span) for number, span in _spans(given.draws).items()):
        return
    for place, draw in enumerate(given.draws):
        _known(given, "draw", place, "member", draw.member)
        role = given.members[draw.member].role
        if role != "sender":
            raise ScenarioError(f"draw {place}: `member` is {draw.member}, a {role}, and only senders draw",
                                "draw", place, "member")
        _while_there(given, "draw", place, draw.at, draw.member)


def _sessions(given: "Scenario") -> None:
    for place, session in enumerate(given.sessions):
        _known(given, "session", place, "member", session.member)
        if given.members[session.member].role == "listener":
            raise ScenarioError(f"session {place}: `member` is {session.member}, a listener, which sends nothing",
                                "session", place, "member")
        _while_there(given, "session", place, session.at, session.member)


def _link(given: "Scenario", part: str, place: int, link: int) -> None:
    if link >= len(given.tree.links):
        raise ScenarioError(f"{part} {place}: there is no link {link}: the network has {len(given.tree.links)}",
                            part, place, "link")


def _drops(given: "Scenario") -> None:
    for place, drop in enumerate(given.drops):
        _link(given, "drop", place, drop.link)
        _known(given, "drop", place, "sender", drop.sender)


def _outages(given: "Scenario") -> None:
    for place, outage in enumerate(given.outages):
        _link(given, "outage", place, outage.link)
        if outage.first >= outage.end:
            raise ScenarioError(f"outage {place}: `from` is {outage.first}, and has to be below `to`, {outage.end}",
                                "outage", place, "from")


def _losses(given: "Scenario") -> None:
    if _greatest_link(given.random_losses) < len(given.tree.links):
        return
    for place, loss in enumerate(given.random_losses):
        _link(given, "loss", place, loss.link)
        if loss.end is not None and loss.first >= loss.end:
            raise ScenarioError(f"loss {place}: `from` is {loss.first}, and has to be below `to`, {loss.end}",
                                "loss", place, "from")


@kept_of
def _places(members: tuple[Member, ...]) -> tuple[list[int], float]:
    """The nodes of members and when the last of them joins, which is never where one of them does not fit by itself."""
    nodes = [member.node for member in members]
    fits = len(set(nodes)) == len(nodes) and all(
        (member.leave is None or member.join < member.leave) and (member.pages is None or member.role == "late")
        and (member.scope is None or member.role != "listener") for member in members)
    return nodes, max((member.join for member in members), default=-1) if fits else math.inf


@kept_of
def _spans(draws: tuple[Draw, ...]) -> dict[int, tuple[int, int]]:
    """For each member that draws the first tick at which it does, and the last."""
    ticks: dict[int, list[int]] = {}
    for draw in draws:
        ticks.setdefault(draw.member, []).append(draw.at)
    return {member: (min(found), max(found)) for member, found in ticks.items()}


@kept_of
def _greatest_link(losses: tuple[RandomLoss, ...]) -> float:
    """The greatest link of losses, which is above all links where one of them ends before it begins."""
    spans = all(loss.end is None or loss.first < loss.end for loss in losses)
    return max((loss.link for loss in losses), default=-1) if spans else math.inf


# in the order of refusals, each with the fields of a scenario by which it may be broken; an end that is not set suits all
RULES = (
    (_members, {"tree", "members", "until"}),
    (_draws, {"members", "draws", "until"}),
    (_sessions, {"members", "sessions", "until"}),
    (_drops, {"tree", "members", "drops"}),
    (_outages, {"tree", "outages"}),
    (_losses, {"tree", "random_losses"}),
)


def check_rules(given: "Scenario", changed: Collection[str] | None = None) -> None:
    """Refuses a scenario whose parts do not fit each other: its first fault, or that of some changed fields."""
    for rule, fields in RULES:
        if changed is None or not fields.isdisjoint(changed):
            rule(given)
