"""Local recovery: how far requests and repairs go, and which requests a repair serves, as docs/MODEL.md has it."""
from typing import TYPE_CHECKING, NamedTuple

from .limits import NEWEST

if TYPE_CHECKING:
    from .follower import Packet
    from .scenario import Scenario


class Asked(NamedTuple):
    """A request as a repair answers it: who asked, and how many links far; to all, where the width is None."""

    requester: int
    width: int | None


class Mark(NamedTuple):
    """A repair with a scope as one member sees it: the request that it answers, and how many links further it goes."""

    requester: int
    width: int
    left: int


def scope_of_request(given: "Scenario", member: int, backoffs: int) -> int | None:
    """How many links a member's request goes after so many backoffs, or None where it goes to all."""
    first = given.scope_of(member)
    if first == 0 or backoffs >= given.tries:
        return None
    return min(NEWEST.hops, first + backoffs * given.widen)


def scope_of_repair(given: "Scenario", member: int, asked: Asked) -> int | None:
    """How many links a member's repair goes, or None where it goes to all."""
    if asked.width is None or given.steps == 2:
        return asked.width
    return asked.width + given.hops(asked.requester, member)


def mark_of(given: "Scenario", packet: "Packet", member: int) -> Mark | None:
    """A repair as a member sees it that sent or heard it, or None where it went to all."""
    if packet.scope is None or packet.asked is None or packet.asked.width is None:
        return None
    return Mark(packet.asked.requester, packet.asked.width, max(0, packet.scope - given.hops(packet.sender, member)))


def serves(given: "Scenario", mark: Mark | None, member: int, asked: Asked) -> bool:
    """Whether a repair serves a request, as far as a member sees: it was meant for it, or all that heard that are within."""
    if mark is None:
        return True
    if asked.width is None:
        return False
    is_meant = mark.requester == asked.requester != member and mark.width >= asked.width
    return is_meant or given.hops(asked.requester, member) + asked.width <= mark.left
