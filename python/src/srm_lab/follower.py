"""Follows a trace row by row: which packet each row sends or hears, and which names it finds lost."""
from collections import deque
from collections.abc import Iterator
from dataclasses import dataclass, field

from .errors import ScenarioError
from .marks import Asked
from .scenario import Scenario
from .tables import Row

KINDS = {"draw": "data", "ask": "request", "answer": "repair", "report": "session"}
HEARD = frozenset(KINDS.values())
Name = tuple[int, int, int]


@dataclass
class Packet:
    """A packet: who sent it when, what it is about, and when which member heard it.

    `name` is (source, page, number), and None for a session message, which has the highest number of each page that it
    lists in `listed`, by (source, page). It goes `scope` links, or to all where that is None; a repair answers what was
    `asked`. `Clocks` finds both.
    """

    sender: int
    count: int
    kind: str
    time: int
    name: Name | None = None
    listed: dict[tuple[int, int], int] = field(default_factory=dict)
    heard: dict[int, int] = field(default_factory=dict)
    scope: int | None = None
    asked: Asked | None = None


@dataclass
class Step:
    """A row, with the packet that it hears, the one that it sends, and the names that it finds lost."""

    row: Row
    heard: Packet | None
    lost: list[Name]
    sent: Packet | None

    @property
    def name(self) -> Name | None:
        """The name that the row is about: of the packet that it hears, of its timer, or of what it draws."""
        if self.heard is not None:
            return self.heard.name
        return self.sent.name if self.sent is not None else None


class Follower:
    """The state of a run as far as its rows tell it.

    A packet is forgotten once it has come to every member, so that what is kept does not grow with the trace.
    """

    def __init__(self, given: Scenario):
        self.given = given
        self._packets: dict[str, Packet] = {}
        self._order: deque[tuple[int, str]] = deque()
        self._next: dict[tuple[int, int, int], int] = {}
        self._pages: dict[int, set[tuple[int, int]]] = {}
        self._farthest = self._greatest_distance()

    def _greatest_distance(self) -> int:
        """How long any packet may be under way, at most."""
        nodes = [member.node for member in self.given.members]
        if not nodes:
            return 0
        trips = self.given.tree.round_trips(nodes[0])
        far = max(nodes, key=trips.__getitem__)
        trips = self.given.tree.round_trips(far)
        return max(trips[node] for node in nodes)

    def follow(self, rows: Iterator[Row]) -> Iterator[Step]:
        """Each row with what it says."""
        for row in rows:
            yield self.take(row)

    def take(self, row: Row) -> Step:
        """What the next row says."""
        if row.member >= len(self.given.members):
            raise ScenarioError(f"the trace has a member {row.member}, and the scenario has none")
        heard = self._heard(row)
        lost = self._lost(row, heard)
        return Step(row, heard, lost, self._sent(row) if row.sent != "-" else None)

    def _heard(self, row: Row) -> Packet | None:
        """The packet that arrives in this row, or None."""
        if row.cause not in HEARD:
            return None
        packet = self._packets.get(row.ref)
        if packet is None:
            raise ScenarioError(f"packet {row.ref} is heard at tick {row.time}, and nobody sent it")
        return packet

    def _lost(self, row: Row, packet: Packet | None) -> list[Name]:
        """The names that a member finds missing in this row."""
        if packet is None or self.given.members[row.member].role == "listener":
            return []
        if row.result == "skip":
            self._skipped(row.member, packet)
            return []
        if packet.name is None:
            tops = packet.listed
        else:
            source, page, number = packet.name
            tops = {(source, page): number if packet.kind == "request" else number - 1}
        lost: list[Name] = []
        for (source, page), top in tops.items():
            first = self._first(row.member, source, page, top + 1)
            lost += [(source, page, number) for number in range(first, top + 1)]
            self._meet(row.member, source, page, max(first, top + 1))
        if row.result == "fresh" and packet.name is not None:
            self._meet(row.member, *packet.name[:2], packet.name[2] + 1)
        if len(lost) != row.lost:
            raise ScenarioError(f"member {row.member} lost {row.lost} names at tick {row.time}, and not {len(lost)}: "
                                "is this the trace of this scenario?")
        return lost

    def _skipped(self, member: int, packet: Packet) -> None:
        """A late member meets a page at a request too, which does not concern it."""
        if packet.name is not None and (member, *packet.name[:2]) not in self._next:
            self._meet(member, *packet.name[:2], packet.name[2] + 1)

    def _first(self, member: int, source: int, page: int, otherwise: int) -> int:
        """The first number that the member has not heard of; at a new page 0, or `otherwise` where it is late."""
        known = self._next.get((member, source, page))
        if known is not None:
            return known
        return 0 if self.given.wants(member, page) else otherwise

    def _meet(self, member: int, source: int, page: int, following: int) -> None:
        self._next[member, source, page] = following
        self._pages.setdefault(member, set()).add((source, page))

    def _sent(self, row: Row) -> Packet:
        """The packet that is sent in this row."""
        sender, _, count = row.sent.partition(":")
        packet = Packet(int(sender), int(count), KINDS[row.cause], row.time)
        if row.cause == "report":
            packet.listed = {page: following - 1 for page in sorted(self._pages.get(row.member, ()))
                             if (following := self._next[row.member, page[0], page[1]]) > 0}
        else:
            source, page, number = map(int, row.ref.split("/"))
            packet.name = source, page, number
            if row.cause == "draw":
                self._meet(packet.sender, source, page, number + 1)
        self._forget(row.time)
        self._packets[row.sent] = packet
        self._order.append((row.time + self._farthest, row.sent))
        return packet

    def _forget(self, now: int) -> None:
        """Drops the packets that have come to every member before this tick."""
        while self._order and self._order[0][0] < now:
            del self._packets[self._order.popleft()[1]]
