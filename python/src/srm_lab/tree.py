"""Networks: trees of nodes and links."""
import random
from collections import Counter
from collections.abc import Callable, Iterable, Iterator
from dataclasses import dataclass, field, replace
from functools import cached_property
from heapq import heappop, heappush
from operator import attrgetter
from typing import Any

from .errors import ScenarioError, verbs_spelled
from .kept import kept
from .limits import MOST_DELAY, MOST_NODES, VERSIONS, are_within, within
from .link import Link

# roots whose ways and distances a tree keeps
MOST_ROOTS = 4


@verbs_spelled
@dataclass(frozen=True)
class Tree:
    """A tree of nodes 0 to `nodes - 1`, whose links are numbered from 0.

    `shorthand` has the keys that stand for the links in a scenario file, where the format has a name for the tree.
    `names` has the name of each node, in order, where the tree comes from a graph with names. `routes` has the names of
    the routers on each link, from `a` to `b`, both among them, where links of a map were joined.
    """

    nodes: int
    links: tuple[Link, ...]
    shorthand: dict = field(default_factory=dict)
    names: tuple[str, ...] = ()
    routes: tuple[tuple[str, ...], ...] = ()

    def __post_init__(self) -> None:
        within("the number of nodes", self.nodes, 1, MOST_NODES)
        if len(self.links) != self.nodes - 1:
            raise ScenarioError(f"{self.nodes} nodes and {len(self.links)} links are no tree")
        ranges = (("an end", 0, self.nodes - 1), ("an end", 0, self.nodes - 1), ("the delay", 1, MOST_DELAY),
                  ("the delay back", 1, MOST_DELAY))
        for (what, least, most), values in zip(ranges, zip(*self.links)):
            for place, value in enumerate(() if are_within(values, least, most) else values):
                within(f"{what} of link {place}", value, least, most)
        if len(self.parents(0)) != self.nodes:
            raise ScenarioError("the links join only some of the nodes, so they are no tree")

    def __repr__(self) -> str:
        return f"<Tree of {self.nodes:,} nodes>"

    @property
    def hub(self) -> int | None:
        """The node that hosts no member, or None."""
        return 0 if self.shorthand.get("topology") == "star" else None

    @cached_property
    def is_even(self) -> bool:
        """Whether every link takes as long in either direction."""
        return all(link.is_even for link in self.links)

    def name(self, node: int) -> str | int:
        """The name of a node, which is its number where the tree has no names."""
        return self.names[node] if self.names else node

    def route(self, link: int) -> tuple[str | int, ...]:
        """The names of the nodes that a link stands for, from one end to the other: its ends, and routers of a map."""
        return self.routes[link] if self.routes else (self.name(self.links[link].a), self.name(self.links[link].b))

    def link_between(self, a: str | int, b: str | int) -> int:
        """The number of the link that the way from one node to its neighbour is on; of a map, from router to router."""
        for link in range(len(self.links)):
            route = self.route(link)
            if any({str(a), str(b)} == {str(one), str(other)} for one, other in zip(route, route[1:])):
                return link
        raise ScenarioError(f"there is no link between {a!r} and {b!r}")

    def number(self, name: str | int) -> int:
        """The number of the node of this name, or with this number."""
        if str(name) in self._numbers:
            return self._numbers[str(name)]
        if not self.names and isinstance(name, int) and 0 <= name < self.nodes:
            return name
        raise ScenarioError(f"there is no node {name!r}")

    @cached_property
    def _numbers(self) -> dict[str, int]:
        return {name: node for node, name in enumerate(self.names)}

    def hosts(self) -> list[int]:
        """The nodes that may host a member, in rising order."""
        hub = self.hub
        return [node for node in range(self.nodes) if node != hub]

    @cached_property
    def _near(self) -> list[list[tuple[int, int]]]:
        near: list[list[tuple[int, int]]] = [[] for _ in range(self.nodes)]
        for place, link in enumerate(self.links):
            near[link.a].append((link.b, place))
            near[link.b].append((link.a, place))
        return near

    def neighbours(self) -> list[list[tuple[int, int]]]:
        """For each node its (neighbour, link) pairs."""
        return self._near

    def parents(self, root: int) -> dict[int, tuple[int, int] | None]:
        """For each node that the root reaches its (parent, link), breadth first; the root's is None. It is not changed."""
        return self._of_root("parents", root, lambda: self._reached(root))

    def _reached(self, root: int) -> dict[int, tuple[int, int] | None]:
        found: dict[int, tuple[int, int] | None] = {root: None}
        order = [root]
        for node in order:
            for neighbour, link in self._near[node]:
                if neighbour not in found:
                    found[neighbour] = (node, link)
                    order.append(neighbour)
        return found

    def ways(self, root: int) -> dict[int, list[int]]:
        """For each node the links on the way from the root to it, in order."""
        ways: dict[int, list[int]] = {}
        for node, near in self.parents(root).items():
            ways[node] = [] if near is None else [*ways[near[0]], near[1]]
        return ways

    def distances(self, root: int) -> dict[int, int]:
        """For each node its distance from the root in ticks: the delays of the way there, each in its direction."""
        return self._sums("distances", root, lambda node, link: link.delay_from(node))

    def round_trips(self, root: int) -> dict[int, int]:
        """For each node the distance from the root to it and back, in ticks."""
        return self._sums("round trips", root, lambda node, link: link.delay + link.back)

    def hops(self, root: int) -> dict[int, int]:
        """For each node how many links are between the root and it."""
        return self._sums("hops", root, lambda node, link: 1)

    def _sums(self, what: str, root: int, ticks: Callable[[int, Link], int]) -> dict[int, int]:
        """For each node the sum of the ticks of each link from the root to it."""
        def summed() -> dict[int, int]:
            sums: dict[int, int] = {}
            for node, near in self.parents(root).items():
                sums[node] = 0 if near is None else sums[near[0]] + ticks(near[0], self.links[near[1]])
            return sums

        return self._of_root(what, root, summed)

    def _of_root(self, what: str, root: int, make: Callable[[], dict[int, Any]]) -> dict[int, Any]:
        """What is made of a root, once: that of the last roots is kept."""
        kept = self._kept.setdefault(what, {})
        if root not in kept:
            made = make()
            if len(kept) == MOST_ROOTS:
                del kept[next(iter(kept))]
            kept[root] = made
        return kept[root]

    @cached_property
    def _kept(self) -> dict[str, dict[int, dict[int, Any]]]:
        return {}

    def with_delay(self, delay: int) -> "Tree":
        """The same tree with this delay at each link, in both directions."""
        shorthand = {key: value for key, value in self.shorthand.items() if key not in ("back", "backs", "delays")}
        links = _even(((link.a, link.b) for link in self.links), delay)
        return replace(self, links=links, shorthand={**shorthand, "delay": delay} if shorthand else {})

    def with_delays(self, least: int, most: int, rng: random.Random) -> "Tree":
        """The same tree with a random delay from least to most at each link, the same in both directions."""
        if self.hub is not None:
            raise ScenarioError("the format has one delay for all links of a star")
        within("the least delay", least, 1, MOST_DELAY)
        within("the greatest delay", most, least, MOST_DELAY)
        links = tuple(Link.both_ways(link.a, link.b, rng.randint(least, most)) for link in self.links)
        return replace(self, links=links, shorthand={}).by_parents_if_large()

    def with_back(self, back: int | Callable[[], int]) -> "Tree":
        """The same tree with this delay in the other direction of each link, or with what the function gives."""
        if callable(back) and self.hub is not None:
            raise ScenarioError("the format has one delay back for all links of a star")
        shorthand = {key: value for key, value in self.shorthand.items() if key != "backs"}
        shorthand = {**shorthand, "back": back} if shorthand and not callable(back) else {}
        links = tuple(link._replace(back=back() if callable(back) else back) for link in self.links)
        return replace(self, links=links, shorthand=shorthand).by_parents_if_large()

    def by_parents(self) -> "Tree":
        """The same tree as a file tells it by its parents, seen from node 0: link i leads to node i + 1 from its parent.

        Nodes keep their numbers and names, and links get others, but in a tree that stands so.
        """
        found = sorted((node, near) for node, near in self.parents(0).items() if near is not None)
        links = tuple(Link(parent, node, self.links[place].delay_from(parent), self.links[place].delay_from(node))
                      for node, (parent, place) in found)
        routes = tuple(self.routes[place][::1 if self.links[place].a == parent else -1]
                       for node, (parent, place) in found) if self.routes else ()
        return replace(self, links=links, routes=routes, shorthand=_keys_of_parents(links))

    def by_parents_if_large(self) -> "Tree":
        """The same tree, by its parents if it has no other name and version 2 of the format has no room for it."""
        return self.by_parents() if not self.shorthand and self.nodes > VERSIONS[2].nodes else self


def _keys_of_parents(links: tuple[Link, ...]) -> dict[str, Any]:
    """The keys of a tree whose links stand by parents: one delay for all links where all are the same."""
    delays, backs = [link.delay for link in links], [link.back for link in links]
    return {"topology": "parents", "parent": [link.a for link in links], **_once("delay", delays),
            **(_once("back", backs) if backs != delays else {})}


def _once(key: str, ticks: list[int]) -> dict[str, Any]:
    """The delays of all links: under the key where all are the same, and else, in its plural, each of them."""
    return {key: ticks[0]} if len(set(ticks)) == 1 else {f"{key}s": ticks}


def _even(ends: Iterable[tuple[int, int]], delay: int) -> tuple[Link, ...]:
    return tuple(Link.both_ways(a, b, delay) for a, b in ends)


_kept = kept(attrgetter("nodes"))


@_kept
def chain(size: int, delay: int) -> Tree:
    """Nodes in a row: link i joins nodes i and i + 1."""
    within("size", size, 1, MOST_NODES)
    links = _even(((node, node + 1) for node in range(size - 1)), delay)
    return Tree(size, links, {"topology": "chain", "size": size, "delay": delay})


@_kept
def star(size: int, delay: int) -> Tree:
    """A hub, node 0, which hosts nobody, with a link to each other node."""
    within("size", size, 1, MOST_NODES)
    links = _even(((0, node) for node in range(1, size)), delay)
    return Tree(size, links, {"topology": "star", "size": size, "delay": delay})


@_kept
def bounded_degree(size: int, degree: int, delay: int) -> Tree:
    """A tree, numbered breadth first, in which each inner node has this degree, as far as the nodes last."""
    within("size", size, 1, MOST_NODES)
    within("degree", degree, 2, MOST_NODES - 1)

    def parent(node: int) -> int:
        return 0 if node <= degree else 1 + (node - degree - 1) // (degree - 1)

    links = _even(((parent(node), node) for node in range(1, size)), delay)
    return Tree(size, links, {"topology": "tree", "size": size, "degree": degree, "delay": delay})


def of_parents(keys: dict[str, Any]) -> Tree:
    """The tree of a file's keys `parent`, `delay` or `delays`, and perhaps `back` or `backs`."""
    parent = keys["parent"]
    delays = keys["delays"] if "delays" in keys else [keys["delay"]] * len(parent)
    backs = [keys["back"]] * len(parent) if "back" in keys else keys.get("backs", delays)
    links = tuple(Link(near, node, *ticks) for node, (near, *ticks) in enumerate(zip(parent, delays, backs), 1))
    shorthand = {key: keys[key] for key in ("topology", "parent", "delay", "delays", "back", "backs") if key in keys}
    return Tree(len(parent) + 1, links, shorthand)


def by_parents(parent: Iterable[int], delay: int | Iterable[int], back: int | Iterable[int] | None = None) -> Tree:
    """The tree of the parents of nodes 1, 2 and so on: a delay for all links or for each, and so of the other direction."""
    keys: dict[str, Any] = {"topology": "parents", "parent": list(parent)}
    for key, ticks in (("delay", delay), ("back", back)):
        if isinstance(ticks, Iterable):
            keys[f"{key}s"] = list(ticks)
            if len(keys[f"{key}s"]) != len(keys["parent"]):
                raise ScenarioError(f"{key} has {len(keys[f'{key}s'])} numbers, and has to have one for each of the "
                                    f"{len(keys['parent'])} links")
        elif ticks is not None:
            keys[key] = ticks
    return of_parents(keys)


def random_labelled(size: int, delay: int, rng: random.Random) -> Tree:
    """A tree that each labelled tree of this size is with one and the same chance: that of a random Pruefer code."""
    within("size", size, 1, MOST_NODES)
    ends = of_code([rng.randrange(size) for _ in range(size - 2)], size)
    return Tree(size, _even(sorted((min(a, b), max(a, b)) for a, b in ends), delay)).by_parents_if_large()


def of_code(code: list[int], size: int) -> Iterator[tuple[int, int]]:
    """The links of the tree of a Pruefer code: each of its nodes is joined to the least leaf that is left."""
    later = Counter(code)
    leaves = [node for node in range(size) if node not in later]
    for node in code:
        yield heappop(leaves), node
        later[node] -= 1
        if not later[node]:
            heappush(leaves, node)
    if size > 1:
        yield heappop(leaves), heappop(leaves)
