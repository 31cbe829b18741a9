"""The ways of one packet: when it is where, and where it is dropped."""
from .follower import Packet
from .scenario import Scenario


class Flight:
    """A packet on the ways from its sender's node, in the run of a seed; every time is of its own direction of each link."""

    def __init__(self, packet: Packet, given: Scenario, node: int, seed: int = 0):
        self.packet, self.given, self.seed = packet, given, seed
        self._parents = given.tree.parents(node)
        self._distances = given.tree.distances(node)
        self._hops = given.tree.hops(node)
        self._hosts = {member.node for member in given.members}
        self._hearers = {node, *(given.members[member].node for member in packet.heard)}
        self._dropping = given.drops_of.get((packet.sender, packet.count), frozenset())

    def time_at(self, node: int) -> int:
        """When it is at a node, or would be if nothing dropped it."""
        return self.packet.time + self._distances[node]

    def is_within(self, node: int) -> bool:
        """Whether its scope goes as far as a node."""
        return self.packet.scope is None or self._hops[node] <= self.packet.scope

    def before(self, node: int) -> int | None:
        """The last node with a member before this one on its way, or None at the sender's."""
        return self._last_of(self._hosts, node)

    def heard_before(self, node: int) -> int | None:
        """The last node before this one on its way whose member sent or heard it, or None at the sender's."""
        return self._last_of(self._hearers, node)

    def _last_of(self, nodes: set[int], node: int) -> int | None:
        near = self._parents[node]
        while near is not None:
            if near[0] in nodes:
                return near[0]
            near = self._parents[near[0]]
        return None

    def taken_at(self, node: int) -> float | None:
        """The middle of its time on the first link of its way to a node that drops it, or None where none does."""
        taken = None
        far, near = node, self._parents[node]
        while near is not None:
            before, link = near
            if self.is_within(far) and self._takes(link, self.time_at(before)):
                taken = self.time_at(before) + self.given.tree.links[link].delay_from(before) / 2
            far, near = before, self._parents[before]
        return taken

    def _takes(self, link: int, at: int) -> bool:
        """Whether a link takes it out at a tick."""
        lost = self.given.is_lost(link, self.packet.sender, self.packet.count, at, self.seed)
        return lost or link in self._dropping or self.given.is_out(link, at)

    def dropped(self, near: int, node: int) -> float | None:
        """When it is dropped between two nodes of one way; None where it comes through, or does not come that far.

        That it does not come so far shows at no member between them, so nothing is drawn there.
        """
        return None if self.taken_at(near) is not None else self.taken_at(node)
