"""Which rows of a run stand in a page, and what is said of those that do not."""
from dataclasses import dataclass

from .run import Event, Name

MOST_ROWS = 250_000


@dataclass(frozen=True)
class Cut:
    """What a page shows: from one tick to another, only some operations, and no more than so many rows."""

    begin: int = 0
    end: int | None = None
    names: frozenset[Name] = frozenset()
    most: int = MOST_ROWS


@dataclass
class Part:
    """The rows that a cut leaves, the operations that they tell of (None: all), and whether rows were too many."""

    events: list[Event]
    names: set[Name] | None = None
    too_many: bool = False


def part_of(events: list[Event], cut: Cut) -> Part:
    """The rows of a run that a cut leaves.

    Rows after the end go. With names, only joins, leaves and rows about one of these stay. With a begin, of the rows
    before it only joins, leaves and rows about operations that a later row is about, or that somebody lacks there.
    """
    kept = [event for event in events if cut.end is None or event.row.time <= cut.end]
    names: set[Name] | None = None
    if cut.begin > 0:
        names = unsettled(kept, cut.begin)
    if cut.names:
        names = set(cut.names) if names is None else names & cut.names
    if names is not None:
        kept = [event for event in kept if stays(event, names, cut)]
    return Part(kept[:cut.most], names, len(kept) > cut.most)


def stays(event: Event, names: set[Name], cut: Cut) -> bool:
    """Whether a row stays where only some operations are shown."""
    if event.row.cause in ("join", "leave") or event.names & names:
        return True
    return not cut.names and event.row.time >= cut.begin


def unsettled(events: list[Event], begin: int) -> set[Name]:
    """The operations that a row at or after a tick is about, or that a member lacks then."""
    lacked: set[tuple[int, Name]] = set()
    later: set[Name] = set()
    for event in events:
        if event.row.time >= begin:
            later |= event.names
            continue
        lacked.update((event.row.member, name) for name in event.lost)
        if event.row.result == "fixed" and event.name:
            lacked.discard((event.row.member, event.name))
        if event.row.cause == "leave":
            lacked = {it for it in lacked if it[0] != event.row.member}
    return later | {name for _, name in lacked}
