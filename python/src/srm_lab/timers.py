"""The table of timers, which is put together from a trace row by row."""
from collections.abc import Iterable, Iterator

from .clocks import Clocks
from .follower import Follower
from .scenario import Scenario
from .tables import Row
from .timer import Timer

COLUMNS = ("member", "kind", "source", "page", "number", "set", "ended", "how")


def timers_of(given: Scenario, rows: Iterable[Row]) -> Iterator[tuple]:
    """A row for each timer, in the order in which they were set: `set` and `ended` in ticks, and how it ended.

    `how` is `expired`, `backed off` (a request timer that was set anew), `stopped`, or `running` at the end of the run.
    No row of the trace is kept.
    """
    clocks, timers = Clocks(given), []
    for step in Follower(given).follow(iter(rows)):
        clocks.take(step)
        timers += [one for one in clocks.begun if isinstance(one, Timer)]
    for timer in timers:
        yield (timer.member, timer.kind, *timer.name, timer.start, "-" if timer.end is None else timer.end,
               timer.how or "running")
