"""A timer."""
from dataclasses import dataclass

from .marks import Asked


@dataclass
class Timer:
    """A timer of a member for a name: when it was set, and when and how it ended.

    `kind` is `request` or `repair`. The end is `expired`, `backed off` (a request timer that was set anew), `stopped`
    or, at the end of the run, None. For what a timer that did not expire was set, no trace tells. A request timer has
    `backoffs`. A repair timer was set for the member `set_for`, and answers what is `asked`, which a further request may
    have taken over; it is a second step where the member itself is who asked.
    """

    member: int
    kind: str
    name: tuple[int, int, int]
    start: int
    end: int | None = None
    how: str | None = None
    backoffs: int = 0
    set_for: int | None = None
    asked: Asked | None = None
