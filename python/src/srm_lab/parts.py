"""The elements of a scenario file: who takes part, what they do and when, and what is lost."""
from dataclasses import dataclass

from .errors import verbs_spelled
from .kept import kept, kept_of
from .limits import NEWEST
from .loss_words import NOBODY, loss_word

ROLES = ("sender", "receiver", "late", "listener")
CONSTANTS = ("c1", "c2", "d1", "d2")
# how far members adapt them
LIMITS = tuple(f"{name}_{end}" for end in ("least", "most") for name in CONSTANTS)
# how members recover locally: what each key is where it is not given
LOCAL = {"scope": 0, "widen": 0, "tries": 1, "steps": 2}


@verbs_spelled
@dataclass(frozen=True)
class Member:
    """A member on a node. `stream` picks its random words; it joins at tick `join`, and stays where `leave` is None.

    `pages` are those whose earlier operations a late member asks for; None stands where none are named. `scope` is how
    many links its first request goes, 0 for all; None stands where that is the scenario's.
    """

    node: int
    role: str
    stream: int
    join: int = 0
    leave: int | None = None
    pages: tuple[int, ...] | None = None
    scope: int | None = None

    def wants(self, page: int) -> bool:
        """Whether operations from before it came to a page concern this member."""
        return self.role != "late" or page in (self.pages or ())


@dataclass(frozen=True)
class Draw:
    """A member draws on a page of its own at a tick; `ink` is what it draws."""

    member: int
    page: int
    ink: int
    at: int


@dataclass(frozen=True)
class Session:
    """A member sends a session message at a tick."""

    member: int
    at: int


@dataclass(frozen=True)
class Drop:
    """A link drops a member's packet of this number, counted from 0 over all that the member sends."""

    link: int
    sender: int
    count: int


@dataclass(frozen=True)
class Outage:
    """A link drops each packet that comes to it at a tick from `first` up to below `end`."""

    link: int
    first: int
    end: int

    def is_on(self, at: int) -> bool:
        """Whether the outage is on at a tick."""
        return self.first <= at < self.end


@dataclass(frozen=True)
class RandomLoss:
    """A link loses `rate` millionths of the packets that come to it from tick `first` up to below `end`, or to the end.

    Losses of one link and one stream take the same packets, as far as their rates are the same. In a `burst` of so many
    ticks, counted from tick 0, the link loses all packets or none.
    """

    link: int
    rate: int
    stream: int = 0
    first: int = 0
    end: int | None = None
    burst: int | None = None

    def is_on(self, at: int) -> bool:
        """Whether the link loses packets at a tick."""
        return self.first <= at and (self.end is None or at < self.end)

    def takes(self, seed: int, sender: int, count: int, at: int) -> bool:
        """Whether it takes a packet of a sender that comes to the link at a tick, in the run of a seed."""
        packet = (sender, count) if self.burst is None else (NOBODY, at // self.burst)
        word = loss_word(seed, self.stream, self.link, *packet)
        return self.is_on(at) and word < self.rate * 2**32 // NEWEST.rate


@kept(len)
def drawn_evenly(member: int, page: int, start: int, every: int, count: int) -> tuple[Draw, ...]:
    """So many draws of a member on a page, so many ticks apart."""
    return tuple(Draw(member, page, number, start + number * every) for number in range(count))


@kept_of
def have_scopes(members: tuple[Member, ...]) -> bool:
    """Whether any of these members has a scope of its own."""
    return any(one.scope is not None for one in members)


@kept_of
def are_in_bursts(losses: tuple[RandomLoss, ...]) -> bool:
    """Whether any of these losses comes in bursts."""
    return any(one.burst is not None for one in losses)


@kept(len)
def losses_alike(links: range, rate: int, stream: int, first: int, end: int | None,
                 burst: int | None) -> tuple[RandomLoss, ...]:
    """The same loss of each of these links."""
    return tuple(RandomLoss(link, rate, stream, first, end, burst) for link in links)
