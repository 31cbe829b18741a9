"""How long each timer of a run was to last: the member's next random word tells, as docs/MODEL.md has it."""
from collections import Counter
from typing import Any

from ..scenario import Scenario
from .network import RoundTrips, links_of
from .run import Event
from .words import Words

MOST_BACKOFFS = 10


class Lengths:
    """The lengths of timers, drawn in the order in which they were set."""

    def __init__(self, given: Scenario, seed: int) -> None:
        self.members = given.members
        self.given = given
        self.trips = RoundTrips(given.tree.nodes, links_of(given))
        self.words = [Words(seed, member.stream) for member in given.members]
        self.attempts: Counter[tuple[int, tuple[int, ...]]] = Counter()

    def of(self, event: Event) -> list[int]:
        """The length of each timer that a row set."""
        return [self._drawn(timer, event) for timer in event.timers]

    def _drawn(self, timer: Any, event: Event) -> int:
        least, most = self._span(timer, event)
        return max(1, least + self.words[timer.member].next() * (most - least + 1) // 2**32)

    def _span(self, timer: Any, event: Event) -> tuple[int, int]:
        """The least and the greatest length of a timer."""
        if timer.kind == "repair":
            return self._scaled("d", 1, timer.member, timer.set_for)
        key = timer.member, tuple(timer.name)
        backoffs = min(self.attempts[key], MOST_BACKOFFS)
        self.attempts[key] += 1
        return self._scaled("c", 2**backoffs, timer.member, timer.name[0])

    def _scaled(self, letter: str, share: int, member: int, other: int) -> tuple[int, int]:
        least, more = getattr(self.given, letter + "1"), getattr(self.given, letter + "2")
        share *= self.trips.half(self.members[member].node, self.members[other].node)
        return share * least // 1000, share * (least + more) // 1000


def lengths_of(given: Scenario, events: list[Event], seed: int, begins: int) -> list[list[int]] | None:
    """For each row the lengths of the timers that it set, or None where the trace is not that of this seed.

    A timer that expired lasted its length; one that ended otherwise lasted no longer than that.
    """
    drawn = Lengths(given, seed)
    found = [drawn.of(event) for event in events]
    pairs = ((timer, length) for event, row in zip(events, found) for timer, length in zip(event.timers, row))
    return found if all(fits(timer, length, begins) for timer, length in pairs) else None


def fits(timer: Any, length: int, last: int) -> bool:
    """Whether a timer may have had this length; `last` is the tick of the trace's last row."""
    if timer.how == "expired":
        return bool(timer.end - timer.start == length)
    return bool((last if timer.end is None else timer.end) - timer.start <= length)
