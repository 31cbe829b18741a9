"""A picture of a scenario's network, as SVG: around the middle of the tree, with its members and the links that lose."""
import math
from collections.abc import Iterable, Iterator
from html import escape
from typing import TYPE_CHECKING

from .tree import Tree

if TYPE_CHECKING:
    from .scenario import Scenario

MOST_NODES = 2000  # of a network that is drawn
WIDTH, MARGIN, LEGEND = 640, 16, 30
LEAST_RADIUS, READABLE_RADIUS, MOST_RADIUS = 1.5, 7, 11
LINK = 'stroke="#aaaaaa" stroke-width="1.2"'
LOSSY = 'stroke="#cc79a7" stroke-width="2.5"'
NODE, MEMBER, SOURCE = 'fill="#aaaaaa"', 'fill="#0072b2"', 'fill="#d55e00"'
Point = tuple[float, float]


class TreePicture:
    """The SVG of a scenario's network. It has no styles, which in a notebook would be those of the whole page."""

    def __init__(self, given: "Scenario"):
        self.given, self.tree = given, given.tree
        self.source = given.source()
        self.at_node = {member.node: number for number, member in enumerate(given.members)}
        self.lossy = {*(one.link for one in given.drops), *given.outages_of, *given.losses_of}
        self.places, self.height = fitted(places_of(self.tree))
        self.radius = round(max(LEAST_RADIUS, min(MOST_RADIUS, 0.4 * self._room())), 1)

    def _room(self) -> float:
        """How far apart most nodes are: how long nine of ten links are at least, or how close leaves are on a circle."""
        lengths = sorted(math.dist(self.places[link.a], self.places[link.b]) for link in self.tree.links)
        leaves = sum(len(near) == 1 for near in self.tree.neighbours())
        return min(lengths[len(lengths) // 10], math.pi * WIDTH / leaves) if lengths else WIDTH

    def svg(self) -> str:
        """The whole picture."""
        links, members = range(len(self.tree.links)), range(len(self.given.members))
        parts = (group(LINK, (self._link(one) for one in links if one not in self.lossy)),
                 group(LOSSY, (self._link(one) for one in links if one in self.lossy)),
                 group(NODE, (self._node(one) for one in range(self.tree.nodes) if one not in self.at_node)),
                 group(MEMBER, (self._member(one) for one in members if one != self.source)),
                 group(SOURCE, (self._member(one) for one in members if one == self.source)),
                 group('fill="white" text-anchor="middle" font-size="10" pointer-events="none"', self._numbers()),
                 *self._legend())
        height = self.height + LEGEND
        return (f'<svg xmlns="http://www.w3.org/2000/svg" viewBox="0 0 {WIDTH} {height}" width="{WIDTH}" '
                f'height="{height}" font-family="sans-serif" font-size="12">\n'
                '<rect width="100%" height="100%" fill="white"/>\n' + "\n".join(filter(None, parts)) + "\n</svg>\n")

    def _link(self, number: int) -> str:
        link = self.tree.links[number]
        (x, y), (right, bottom) = self.places[link.a], self.places[link.b]
        told = f"link {number}: {link.delay:,} ticks" + ("" if link.is_even else f", {link.back:,} back")
        return f'<line x1="{x}" y1="{y}" x2="{right}" y2="{bottom}"><title>{told}</title></line>'

    def _node(self, node: int) -> str:
        return self._circle(node, round(self.radius / 2, 1), f"node {self.tree.name(node)}")

    def _member(self, number: int) -> str:
        member = self.given.members[number]
        return self._circle(member.node, self.radius,
                            f"member {number}, {member.role}, on node {self.tree.name(member.node)}")

    def _circle(self, node: int, radius: float, told: str) -> str:
        x, y = self.places[node]
        return f'<circle cx="{x}" cy="{y}" r="{radius}"><title>{escape(told)}</title></circle>'

    def _numbers(self) -> Iterator[str]:
        """The members' numbers, where there is room for them."""
        for number, member in enumerate(self.given.members if self.radius >= READABLE_RADIUS else ()):
            x, y = self.places[member.node]
            yield f'<text x="{x}" y="{y + 3.5:.1f}">{number}</text>'

    def _legend(self) -> Iterator[str]:
        """What the marks are that the picture has."""
        y, at = self.height + LEGEND // 2, MARGIN
        members = len(self.at_node)
        marks = ((f"source: member {self.source}", SOURCE, members > 0), ("member", MEMBER, members > 1),
                 ("node without a member", NODE, members < self.tree.nodes))
        for told, style, is_there in marks:
            if is_there:
                yield f'<circle {style} cx="{at}" cy="{y}" r="{3 if style == NODE else 6}"/>'
                yield f'<text x="{at + 11}" y="{y + 4}" fill="#222222">{told}</text>'
                at += 36 + 7 * len(told)
        if self.lossy:
            yield f'<line {LOSSY} x1="{at - 6}" y1="{y}" x2="{at + 14}" y2="{y}"/>'
            yield f'<text x="{at + 20}" y="{y + 4}" fill="#222222">link that loses packets</text>'


def group(style: str, marks: Iterable[str]) -> str:
    """Marks of one style, or nothing where there are none."""
    several = "\n".join(marks)
    return f"<g {style}>\n{several}\n</g>" if several else ""


def fitted(places: list[Point]) -> tuple[list[Point], int]:
    """The same places on a picture of the usual width, and its height."""
    xs, ys = [x for x, _ in places], [y for _, y in places]
    left, right, top, bottom = min(xs), max(xs), min(ys), max(ys)
    scale = (WIDTH - 2 * MARGIN) / max(right - left, bottom - top, 1)
    shift = (WIDTH - scale * (right - left)) / 2
    return ([(round(shift + scale * (x - left), 1), round(MARGIN + scale * (y - top), 1)) for x, y in places],
            round(2 * MARGIN + scale * (bottom - top)))


def places_of(tree: Tree) -> list[Point]:
    """The place of each node: as far from the tree's middle as it is links away, and each leaf in a direction of its own."""
    middle = middle_of(tree)
    parents = tree.parents(middle)
    leaves = dict.fromkeys(parents, 0)
    for node, near in reversed(parents.items()):
        leaves[node] = max(1, leaves[node])
        if near is not None:
            leaves[near[0]] += leaves[node]
    depth: dict[int, int] = {}
    free: dict[int, int] = {}  # the first of the leaves behind a node that no node below it has yet
    places = [(0.0, 0.0)] * tree.nodes
    for node, near in parents.items():
        depth[node], free[node] = (0, 0) if near is None else (depth[near[0]] + 1, free[near[0]])
        if near is not None:
            free[near[0]] += leaves[node]
        turn = 2 * math.pi * (free[node] + (leaves[node] - 1) / 2) / leaves[middle]
        places[node] = (depth[node] * math.cos(turn), depth[node] * math.sin(turn))
    return places


def middle_of(tree: Tree) -> int:
    """The node in the middle of the longest way."""
    end = list(tree.parents(0))[-1]
    parents = tree.parents(end)
    way = [list(parents)[-1]]
    while (near := parents[way[-1]]) is not None:
        way.append(near[0])
    return way[len(way) // 2]
