"""Networks from networkx graphs, GraphML, GML and lists of edges."""
import math
import re
from collections import Counter, defaultdict
from collections.abc import Iterable
from dataclasses import dataclass
from pathlib import Path
from typing import Any

from .errors import ScenarioError, verbs_spelled
from .limits import MOST_NODES
from .link import Link
from .tree import Tree

SPANNING = ("shortest", "minimum")


@verbs_spelled
@dataclass(frozen=True)
class Delays:
    """Where the delays of a graph's edges stand, and what they are in ticks.

    A link's delay is the edge's attribute `attribute` times `factor`, rounded to a whole tick; its delay back is that
    of `back`, if such an attribute is named. Of a directed graph each edge has the delay of its own direction. An edge
    without the attribute takes `default` ticks; where there is no default, it is refused.
    """

    attribute: str = "delay"
    default: int | None = None
    factor: float = 1
    back: str | None = None

    def of(self, edge: str, data: dict[str, Any], attribute: str) -> int:
        """The ticks of an edge, which `edge` names."""
        if attribute not in data:
            if self.default is None:
                raise ScenarioError(f"{edge} has no attribute {attribute!r}, and no default delay is given")
            return self.default
        value = data[attribute]
        try:
            ticks = float(value) * self.factor
        except (TypeError, ValueError):
            raise ScenarioError(f"{edge}: {attribute} = {value!r} is no number") from None
        if not math.isfinite(ticks):
            raise ScenarioError(f"{edge}: {attribute} = {value!r} is no finite number")
        if self.factor == 1 and ticks != int(ticks):
            raise ScenarioError(f"{edge}: {attribute} = {value!r} is no whole number of ticks: give a factor")
        return round(ticks)


def from_graph(graph: Any, delays: Delays = Delays(), spanning_tree: str | None = None, root: Any = None) -> Tree:
    """The tree of a networkx graph. Nodes are numbered in the graph's own order, and keep their names.

    A graph that is no tree is refused, unless `spanning_tree` says which of its trees is taken: `shortest`, that of
    the shortest paths from `root` (without it from the graph's first node), or `minimum`, that of the least sum of
    delays.
    """
    if graph.number_of_nodes() > MOST_NODES:
        raise ScenarioError(f"the graph has {graph.number_of_nodes()} nodes, and the format has room for {MOST_NODES}")
    number = {node: place for place, node in enumerate(graph.nodes)}
    check_names(number)
    links = links_of(graph, delays)
    if spanning_tree is not None:
        links = _spanned(list(number), links, spanning_tree, root)
    elif number and len(links) != len(number) - 1:
        raise ScenarioError(f"{len(number)} nodes and {len(links)} edges are no tree: "
                            "say spanning_tree=\"shortest\" or \"minimum\"")
    made = tuple(Link(number[a], number[b], delay, back) for a, b, delay, back in links)
    return Tree(len(number), made, names=tuple(str(node) for node in number)).by_parents_if_large()


def check_names(nodes: Iterable[Any]) -> None:
    """Refuses two nodes whose names are one text, such as 1 and "1"."""
    known: set[str] = set()
    for node in nodes:
        if str(node) in known:
            raise ScenarioError(f"two nodes of the graph have the name {str(node)!r}")
        known.add(str(node))


def links_of(graph: Any, delays: Delays) -> list[tuple[Any, Any, int, int]]:
    """Each edge with its delays; of a directed graph an edge and one back are one link."""
    links: list[tuple[Any, Any, int, int]] = []
    single: defaultdict[tuple[Any, Any], list[int]] = defaultdict(list)  # of a directed graph: links that lack an edge back
    found = 0
    for a, b, data in graph.edges(data=True):
        edge = f"edge {a} - {b}"
        found += delays.attribute in data
        delay = delays.of(edge, data, delays.attribute)
        back = delay if delays.back is None else delays.of(edge, data, delays.back)
        if graph.is_directed() and a != b and single[b, a]:
            place = single[b, a].pop(0)
            links[place] = (*links[place][:3], delay)
        else:
            single[a, b].append(len(links))
            links.append((a, b, delay, back))
    if not found and delays.attribute != "delay" and graph.number_of_edges():
        raise ScenarioError(f"no edge has an attribute {delays.attribute!r}")
    return links


def _spanned(nodes: list[Any], links: list[tuple[Any, Any, int, int]], which: str, root: Any) -> list:
    """The links of a spanning tree; of parallel ones the shortest."""
    import networkx

    if which not in SPANNING:
        raise ScenarioError(f"spanning_tree is {which!r}, and has to be one of {', '.join(SPANNING)}")
    graph = networkx.MultiGraph()
    graph.add_nodes_from(nodes)
    for place, link in sorted(enumerate(links), key=lambda one: -(one[1][2] + one[1][3])):
        if link[0] != link[1]:
            graph.add_edge(link[0], link[1], key=place, weight=link[2] + link[3])
    if not networkx.is_connected(graph):
        raise ScenarioError("the graph is not connected, so it has no spanning tree")
    if which == "minimum":
        kept = {place for _, _, place in networkx.minimum_spanning_edges(graph, keys=True, data=False)}
    else:
        if root is None:
            root = nodes[0]
        if root not in graph:
            raise ScenarioError(f"the root {root!r} is no node of the graph")
        near, _ = networkx.dijkstra_predecessor_and_distance(graph, root)
        ways = (graph[before[0]][node] for node, before in near.items() if before)
        kept = {min((data["weight"], place) for place, data in way.items())[1] for way in ways}
    return [link for place, link in enumerate(links) if place in kept]


def from_file(path: str | Path, delays: Delays = Delays(), spanning_tree: str | None = None,
              root: str | None = None) -> Tree:
    """The tree in a GraphML or GML file, or in a list of edges, as `read_graph` reads them."""
    graph = read_graph(path, delays.attribute)
    try:
        return from_graph(graph, delays, spanning_tree, node_of(graph, root))
    except ScenarioError as fault:
        raise ScenarioError(f"{path}: {fault}") from None


def node_of(graph: Any, name: Any) -> Any:
    """The node of a graph that has this name, or the name itself where there is none."""
    return name if name is None or name in graph else next((node for node in graph if str(node) == str(name)), name)


def read_graph(path: str | Path, attribute: str = "delay") -> Any:
    """The graph in a GraphML or GML file, or in a list of edges (`node node` or `node node delay` in each line).

    A node has its `label` as its name, where no other has the same, and else its id. The delays of a list of edges become
    this attribute.
    """
    import networkx  # here, since most scenarios are made without it, and it takes long to load

    name = str(path).lower()
    try:
        if name.endswith(".graphml"):
            return _by_labels(networkx.read_graphml(path))
        if name.endswith(".gml"):
            return _by_labels(_gml(Path(path).read_text(encoding="utf-8")))
        if name.endswith((".edges", ".edgelist", ".txt")):
            return _edge_list(path, attribute)
    except OSError as fault:
        raise ScenarioError(f"{path}: {fault.strerror}") from None
    except ScenarioError:
        raise
    except Exception as fault:  # each of networkx's readers has exceptions of its own
        raise ScenarioError(f"{path}: cannot be read as a graph: {fault}") from None
    raise ScenarioError(f"{path}: the name has to end in .graphml, .gml, .edges, .edgelist or .txt")


def _gml(text: str) -> Any:
    """The graph of a text in GML, with its nodes' ids; it may have parallel edges, whether or not it says so."""
    import networkx

    text = re.sub(r"^([^#\n]*?\bgraph\s*\[)", r"\1 multigraph 1 ", text, count=1, flags=re.MULTILINE)
    return networkx.parse_gml(text, label=None)


def _by_labels(graph: Any) -> Any:
    """The same graph, in which a node has its label as its name where no other node has it as its label or its id."""
    import networkx

    labels = {node: str(label) for node, label in graph.nodes(data="label") if label not in (None, "")}
    times, ids = Counter(labels.values()), {str(node): node for node in graph}
    names = {node: label for node, label in labels.items() if times[label] == 1 and ids.get(label, node) == node}
    return networkx.relabel_nodes(graph, names)


def _edge_list(path: str | Path, attribute: str) -> Any:
    """A graph from lines of two node names and perhaps a delay; `#` begins a comment."""
    import networkx

    graph = networkx.MultiGraph()
    with open(path, encoding="utf-8") as text:
        for place, line in enumerate(text, 1):
            words = line.split("#")[0].split()
            if not words:
                continue
            if len(words) not in (2, 3):
                raise ScenarioError(f"{path}: line {place} has {len(words)} words, and has to have 2 or 3")
            graph.add_edge(words[0], words[1], **({attribute: words[2]} if len(words) == 3 else {}))
    return graph
