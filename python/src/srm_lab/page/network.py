"""Round trips over a scenario's links."""
from functools import lru_cache

from ..link import Link
from ..scenario import Scenario


def links_of(given: Scenario) -> tuple[Link, ...]:
    """The links of a scenario, in their order."""
    return given.tree.links


class RoundTrips:
    """Half the round trip between two nodes, rounded down."""

    def __init__(self, nodes: int, links: tuple[Link, ...]) -> None:
        self.near: list[list[tuple[int, int]]] = [[] for _ in range(nodes)]
        for link in links:
            self.near[link.a].append((link.b, link.delay + link.back))
            self.near[link.b].append((link.a, link.delay + link.back))
        self.from_node = lru_cache(maxsize=None)(self._from_node)

    def _from_node(self, root: int) -> dict[int, int]:
        """For each node its round trip from a root."""
        found = {root: 0}
        order = [root]
        for node in order:
            for neighbour, there_and_back in self.near[node]:
                if neighbour not in found:
                    found[neighbour] = found[node] + there_and_back
                    order.append(neighbour)
        return found

    def half(self, node: int, other: int) -> int:
        """Half the round trip of two nodes."""
        return self.from_node(other)[node] // 2
