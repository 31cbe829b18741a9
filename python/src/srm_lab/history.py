"""What happened in a run: its packets, losses, timers and leaves, put together from the scenario and the trace."""
from collections.abc import Iterable

from .clocks import Clocks
from .errors import verbs_spelled
from .follower import Follower, Packet
from .loss import Loss
from .scenario import Scenario
from .tables import Row
from .timer import Timer


@verbs_spelled
class History:
    """All of a run, from its rows in order.

    `packets` are by `sender:count`; `losses` and `timers` in the order in which they began, and `set_in` has how many
    timers each row set; `joins` and `leaves` have the tick of each member that joined or left.
    """

    def __init__(self, given: Scenario, rows: Iterable[Row]):
        self.given = given
        self.rows: list[Row] = []
        self.packets: dict[str, Packet] = {}
        self.losses: list[Loss] = []
        self.timers: list[Timer] = []
        self.set_in: list[int] = []
        self.joins: dict[int, int] = {}
        self.leaves: dict[int, int] = {}
        follower, clocks = Follower(given), Clocks(given)
        for step in follower.follow(iter(rows)):
            row = step.row
            self.rows.append(row)
            clocks.take(step)
            self.losses += [one for one in clocks.begun if isinstance(one, Loss)]
            timers = [one for one in clocks.begun if isinstance(one, Timer)]
            self.timers += timers
            self.set_in.append(len(timers))
            if step.heard is not None:
                step.heard.heard[row.member] = row.time
            if step.sent is not None:
                self.packets[row.sent] = step.sent
            if row.cause in ("join", "leave"):
                (self.joins if row.cause == "join" else self.leaves)[row.member] = row.time

    @property
    def end(self) -> int:
        """The time of the last row."""
        return self.rows[-1].time if self.rows else 0
