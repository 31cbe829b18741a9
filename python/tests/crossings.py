"""Which links a packet crosses, and at which it is dropped."""
from collections import Counter
from functools import cache

from srm_lab.follower import Packet
from srm_lab.losses import links_in_use
from srm_lab.scenario import Scenario


class Crossings:
    """How many packets of each kind crossed each link in the run of a seed, and how many were dropped at it.

    `crossed` is by (link, kind), `dropped` by link.
    """

    def __init__(self, given: Scenario, seed: int = 0):
        self.given, self.seed = given, seed
        self._whole: Counter[tuple[int, str]] = Counter()
        self._parts: Counter[tuple[int, str]] = Counter()
        self.dropped: Counter[int] = Counter()
        self._way = cache(self._way_of)

    def take(self, packet: Packet) -> None:
        """Counts a packet that was sent."""
        dropping = self.given.drops_of.get((packet.sender, packet.count), frozenset())
        if dropping or self.given.outages or self.given.random_losses or packet.scope is not None:
            self._walk(packet, dropping)
        else:
            self._whole[packet.sender, packet.kind] += 1

    def crossed(self) -> Counter[tuple[int, str]]:
        """How many packets of a kind crossed a link, by (link, kind)."""
        counts = Counter(self._parts)
        for (sender, kind), packets in self._whole.items():
            for link, _, _, _ in self._way(sender):
                counts[link, kind] += packets
        return counts

    def _way_of(self, sender: int) -> list[tuple[int, int, int, int]]:
        """The links on the way from a sender to any other member, nearest first.

        Each is (link, the place of the link before it or -1, how long a packet takes to come to it, which one it is on its
        way from 1 on).
        """
        node = self.given.members[sender].node
        used = links_in_use(self.given.tree, node, [member.node for member in self.given.members])
        distances = self.given.tree.distances(node)
        place: dict[int, int] = {node: -1}
        way: list[tuple[int, int, int, int]] = []
        for child, near in self.given.tree.parents(node).items():
            if near is not None and near[1] in used:
                place[child] = len(way)
                way.append((near[1], place[near[0]], distances[near[0]], used[near[1]]))
        return way

    def _walk(self, packet: Packet, dropping: frozenset[int]) -> None:
        """Counts a packet link by link."""
        through: list[bool] = []
        for link, before, offset, hops in self._way(packet.sender):
            came = (before < 0 or through[before]) and (packet.scope is None or hops <= packet.scope)
            taken = came and (link in dropping or self._is_taken(link, packet, packet.time + offset))
            if taken:
                self.dropped[link] += 1
            elif came:
                self._parts[link, packet.kind] += 1
            through.append(came and not taken)

    def _is_taken(self, link: int, packet: Packet, at: int) -> bool:
        """Whether a link takes a packet that comes to it at a tick, in an outage or at random."""
        given = self.given
        return given.is_out(link, at) or given.is_lost(link, packet.sender, packet.count, at, self.seed)
