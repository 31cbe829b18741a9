"""The program's tables a second time: computed in Python from a trace, row by row, as docs/FORMATS.md has them."""
from collections import Counter, defaultdict

from crossings import Crossings

from srm_lab.clocks import Clocks
from srm_lab.follower import HEARD, KINDS, Follower
from srm_lab.loss import Loss

SENT = {"draw": "drawn", "ask": "requests", "answer": "repairs", "report": "sessions"}


class MembersTable:
    """A row for each member, counted over its rows of the trace."""

    header = "member,role,node,joined,left,drawn,heard,lost,fixed,open,requests,repairs,sessions"

    def __init__(self, given, seed=0):
        self.given = given
        self._counts = defaultdict(Counter)
        self._times = {}

    def take(self, step, clocks):
        row = step.row
        counts = self._counts[row.member]
        if row.cause in HEARD:
            counts["heard"] += 1
            counts["lost"] += row.lost
            counts["fixed"] += row.result == "fixed"
        elif row.cause in ("join", "leave"):
            self._times[row.member, row.cause] = row.time
        elif row.result == "sent":
            counts[SENT[row.cause]] += 1

    def rows(self):
        for place, member in enumerate(self.given.members):
            counts = self._counts[place]
            times = [self._times.get((place, cause)) for cause in ("join", "leave")]
            yield (place, member.role, member.node, *times, counts["drawn"], counts["heard"], counts["lost"],
                   counts["fixed"], counts["lost"] - counts["fixed"], counts["requests"], counts["repairs"],
                   counts["sessions"])


class LossesTable:
    """A row for each name that a member lost, by member and name."""

    header = "member,source,page,number,detected,recovered,delay"

    def __init__(self, given, seed=0):
        self.given = given
        self.losses = []

    def take(self, step, clocks):
        self.losses += [one for one in clocks.begun if isinstance(one, Loss)]

    def rows(self):
        for loss in sorted(self.losses, key=lambda loss: (loss.member, loss.name)):
            yield loss.member, *loss.name, loss.detected, loss.recovered, delay_of(self.given, loss)


def delay_of(given, loss):
    """How long the recovery took, over the round trip between the member and the source."""
    if loss.recovered is None:
        return None
    return f"{loss.recovered - loss.detected}/{given.round_trip(loss.member, loss.name[0])}"


class LinksTable:
    """A row for each link: how many packets of each kind crossed it, and how many it dropped."""

    header = "link,data,requests,repairs,sessions,dropped"

    def __init__(self, given, seed=0):
        self.given = given
        self._crossings = Crossings(given, seed)

    def take(self, step, clocks):
        if step.sent is not None:
            self._crossings.take(step.sent)

    def rows(self):
        crossed = self._crossings.crossed()
        for place in range(len(self.given.tree.links)):
            yield place, *(crossed[place, kind] for kind in KINDS.values()), self._crossings.dropped[place]


class OperationsTable:
    """A row for each operation that somebody lost, with what its recovery took."""

    header = "source,page,number,losers,recovered,left,detected,asked,requests,repairs,last,delay"

    def __init__(self, given, seed=0):
        self.given = given
        self._losses = defaultdict(list)
        self._sent: dict = {"request": defaultdict(list), "repair": defaultdict(list)}

    def take(self, step, clocks):
        for one in clocks.begun:
            if isinstance(one, Loss):
                self._losses[one.name].append(one)
        if step.sent is not None and step.sent.kind in self._sent:
            self._sent[step.sent.kind][step.sent.name].append(step.row.time)

    def rows(self):
        for name, losses in sorted(self._losses.items()):
            ends = Counter(loss.ended for loss in losses)
            asked = self._sent["request"][name]
            last = self._last(losses) if not ends["open"] else None
            yield (*name, len(losses), ends["recovered"], ends["left"], min(loss.detected for loss in losses),
                   min(asked, default=None), len(asked), len(self._sent["repair"][name]),
                   last and last.member, last and delay_of(self.given, last))

    def _last(self, losses):
        """The loss whose recovery is the latest; of several that of the member with the least number."""
        done = [loss for loss in losses if loss.recovered is not None]
        return max(done, key=lambda loss: (loss.recovered, -loss.member), default=None)


class ScopesTable:
    """A row for each request and repair that was sent: how far it went, what it answers, and how many heard it."""

    header = "time,member,cause,ref,sent,scope,requester,width,heard"

    def __init__(self, given, seed=0):
        self._sent = []
        self._heard: Counter = Counter()

    def take(self, step, clocks):
        row = step.row
        if step.sent is not None and row.cause in ("ask", "answer"):
            self._sent.append((row, step.sent))
        if step.heard is not None:
            self._heard[step.heard.sender, step.heard.count] += 1

    def rows(self):
        for row, packet in self._sent:
            told = (None, None) if packet.scope is None or packet.asked is None else packet.asked
            yield (row.time, row.member, row.cause, row.ref, row.sent, packet.scope, *told,
                   self._heard[packet.sender, packet.count])


TABLES: dict = {"losses": LossesTable, "operations": OperationsTable, "members": MembersTable, "links": LinksTable,
                "scopes": ScopesTable}


def second(given, rows, seed=0, tables=tuple(TABLES)):
    """The texts of the tables of these names, after every row of the trace of a seed."""
    made, clocks = {name: TABLES[name](given, seed) for name in tables}, Clocks(given)
    for step in Follower(given).follow(rows):
        clocks.take(step)
        for table in made.values():
            table.take(step, clocks)
    return {name: text_of(table) for name, table in made.items()}


def text_of(table):
    """A table as the program writes it."""
    lines = (",".join("-" if field is None else str(field) for field in row) for row in table.rows())
    return "".join(f"{line}\n" for line in (table.header, *lines))
