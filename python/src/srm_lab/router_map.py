"""Maps of routers: the tree that a session of chosen members on a map uses, without the routers that only hand on.

A map may have any number of nodes. Packets of the source go to each member on a shortest way; what of the map is on no
such way is left out. Then a node on which there is no member, and from which there is but one way on, is taken out: the
two links at it become one, with the sum of their delays in each direction. Members are as far from each other on the
smaller tree as they were on the larger, and a packet that is lost on a link is lost to the same members. What members
send goes along the source's tree too.
"""
from collections import Counter
from collections.abc import Iterable
from typing import Any, NamedTuple

from .errors import ScenarioError
from .graphs import Delays, check_names, links_of, node_of
from .limits import MOST_NODES
from .link import Link
from .tree import Tree


class Step(NamedTuple):
    """A node's last step on the way from the source: the node before it, and the delays from that one and back."""

    before: Any
    delay: int
    back: int


def shortest_ways(graph: Any, delays: Delays, source: Any) -> dict[Any, Step]:
    """The last step to each node that the source reaches, on a way of the least sum of delays from the source.

    Of two ways that are equally short one is taken, always the same of the same map.
    """
    import networkx

    ways = networkx.DiGraph()
    ways.add_nodes_from(graph)
    for a, b, delay, back in links_of(graph, delays):
        if delay < 0 or back < 0:
            raise ScenarioError(f"edge {a} - {b}: a delay is {min(delay, back)}, and has to be at least 0")
        for one, other, there, here in ((a, b, delay, back), (b, a, back, delay)):
            known = ways.get_edge_data(one, other)
            if known is None or there < known["delay"]:  # of parallel edges the shortest
                ways.add_edge(one, other, delay=there, back=here)
    before, _ = networkx.dijkstra_predecessor_and_distance(ways, source, weight="delay")
    return {node: Step(near[0], *(ways.edges[near[0], node][key] for key in ("delay", "back")))
            for node, near in before.items() if near}


def reached(graph: Any, source: Any, steps: dict[Any, Step]) -> list[Any]:
    """The nodes, other than the source, that the source reaches, in the map's order."""
    return [node for node in graph if node in steps and node != source]


def named(graph: Any, source: Any, steps: dict[Any, Step], names: Iterable[Any]) -> list[Any]:
    """The nodes of these names, in the map's order, without the source; each has to be within the source's reach."""
    found = set()
    for name in names:
        node = node_of(graph, name)
        if node not in graph:
            raise ScenarioError(f"the map has no node {name!r}")
        if node != source and node not in steps:
            raise ScenarioError(f"the map has no way from {source!r} to {name!r}")
        found.add(node)
    return [node for node in graph if node in found and node != source]


def reduced(graph: Any, source: Any, steps: dict[Any, Step], members: list[Any]) -> Tree:
    """The tree of the ways from the source to the members; nodes keep their names, and links the routers on them."""
    check_names(graph)
    onward = _onward(source, steps, members)
    hosts = {source, *members}
    kept = [node for node in graph if node in onward and (node in hosts or onward[node] > 1)]
    if len(kept) > MOST_NODES:
        raise ScenarioError(f"the tree to these {len(hosts)} members has {len(kept)} nodes that have a member or part "
                            f"ways, and the format has room for {MOST_NODES}: choose fewer members")
    number = {node: place for place, node in enumerate(kept)}
    joined = [_joined(node, steps, number) for node in kept if node != source]
    return Tree(len(kept), tuple(link for link, _ in joined), names=tuple(str(node) for node in kept),
                routes=tuple(tuple(str(node) for node in route) for _, route in joined)).by_parents_if_large()


def _onward(source: Any, steps: dict[Any, Step], members: list[Any]) -> dict[Any, int]:
    """Each node on a way to a member, and how many of the ways part from there."""
    used = {source}
    for node in members:
        while node not in used:
            used.add(node)
            node = steps[node].before
    onward = Counter(steps[node].before for node in used if node != source)
    return {node: onward[node] for node in used}


def _joined(node: Any, steps: dict[Any, Step], number: dict[Any, int]) -> tuple[Link, list[Any]]:
    """The link to a node from the nearest one before it that is kept, and the routers on it in this order."""
    route, delay, back = [node], 0, 0
    while len(route) == 1 or route[-1] not in number:
        step = steps[route[-1]]
        delay, back = delay + step.delay, back + step.back
        route.append(step.before)
    return Link(number[route[-1]], number[node], delay, back), route[::-1]
