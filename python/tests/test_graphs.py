"""Networks from graphs: names, delays in any unit, and spanning trees."""
from typing import Any

import networkx
import pytest

from srm_lab import Delays, ScenarioError, graphs, run, scenario
from srm_lab.cli import main

GRAPHML = """<?xml version="1.0" encoding="UTF-8"?>
<graphml xmlns="http://graphml.graphdrawing.org/xmlns">
  <key id="d0" for="edge" attr.name="delay" attr.type="int"/>
  <graph edgedefault="undirected">
    <node id="a"/><node id="b"/><node id="c"/>
    <edge source="a" target="b"><data key="d0">7</data></edge>
    <edge source="b" target="c"/>
  </graph>
</graphml>
"""


@pytest.fixture
def square():
    """Four towns in a ring, with a short way from w to y only by x: of 1, 1, 1 and 2.5 milliseconds."""
    graph = networkx.Graph()
    graph.add_weighted_edges_from([("w", "x", 1), ("x", "y", 1), ("y", "z", 1), ("z", "w", 2.5)], weight="ms")
    return graph


@pytest.mark.parametrize("words, told", [
    ([], "edge b - c has no attribute 'delay', and --delay gives none"),
    (["--delay-attribute", "lag"], "edge a - b has no attribute 'lag', and --delay gives none"),
    (["--delay-attribute", "lag", "--delay", "9"], "no edge has an attribute 'lag'"),
])
def test_edge_without_a_delay_is_refused_by_its_name(words, told, tmp_path, capsys):
    path = tmp_path / "three.graphml"
    path.write_text(GRAPHML)
    assert main(["file", str(path), *words]) == 1
    text = capsys.readouterr()
    assert text.out == "" and told in text.err
    assert main(["file", str(path), "--delay", "9"]) == 0


def test_delays_are_turned_into_ticks_by_a_factor(square):
    square.remove_edge("z", "w")
    assert [link[2:] for link in graphs.from_graph(square, Delays("ms", factor=1000)).links] == [(1000, 1000)] * 3


def test_shortest_spanning_tree_of_a_root(square):
    # from w: x at 1, y at 2 by x, z at 2.5 straight and at 3 by y
    made = graphs.from_graph(square, Delays("ms", factor=10), "shortest", "w")
    assert {(made.name(link.a), made.name(link.b)) for link in made.links} == {("w", "x"), ("w", "z"), ("x", "y")}


def test_least_spanning_tree(square):
    made = graphs.from_graph(square, Delays("ms", factor=10), "minimum")
    assert {(made.name(link.a), made.name(link.b)) for link in made.links} == {("w", "x"), ("x", "y"), ("y", "z")}


def test_shortest_spanning_tree_is_that_of_the_source(square):
    made = scenario.from_graph(square, Delays("ms", factor=10), "shortest", source="z")
    assert made.tree.name(made.members[0].node) == "z"
    assert {(made.tree.name(link.a), made.tree.name(link.b)) for link in made.tree.links} == {
        ("y", "z"), ("x", "y"), ("w", "z")}


def test_directed_graph_has_a_delay_in_each_direction():
    graph = networkx.DiGraph()
    graph.add_edge("a", "b", delay=3)
    graph.add_edge("b", "a", delay=5)
    graph.add_edge("c", "b", delay=4)
    assert graphs.from_graph(graph).links == ((0, 1, 3, 5), (2, 1, 4, 4))


@pytest.mark.parametrize("make, told", [
    (lambda graph: graphs.from_graph(graph, Delays("ms", factor=10)), "4 nodes and 4 edges are no tree"),
    (lambda graph: graphs.from_graph(graph, Delays("ms"), "minimum"), "ms = 2.5 is no whole number of ticks"),
    (lambda graph: graphs.from_graph(graph, Delays("ms", factor=10), "widest"), "shortest, minimum"),
    (lambda graph: graphs.from_graph(graph, Delays("ms", factor=10), "shortest", "q"), "'q' is no node"),
    (lambda graph: graphs.from_graph(graph, Delays("ms", factor=0.1), "minimum"), "delay of link 0 is 0"),
    (lambda graph: graphs.from_graph(networkx.Graph([(1, 2), (3, 4), (4, 3)]), Delays(default=1), "minimum"),
     "not connected"),
    (lambda graph: graphs.from_graph(networkx.Graph([(1, "1")]), Delays(default=1)), "two nodes .* have the name '1'"),
])
def test_graphs_that_are_refused(make, told, square):
    with pytest.raises(ScenarioError, match=told):
        make(square)


def test_members_of_a_graph_are_chosen_by_a_seed():
    graph = networkx.path_graph(60)
    chosen = [tuple(member.node for member in scenario.from_graph(graph, 5, members=9, seed=seed).members)
              for seed in (1, 1, 2)]
    assert chosen[0] == chosen[1] != chosen[2] and len(chosen[0]) == 9


def test_tables_use_the_names_of_nodes(program, square):
    made = scenario.from_graph(square, Delays("ms", factor=10), "minimum").drawing(3).drop(2, 0)
    runs = run(made, tables=["members", "losses", "links"], program=program, cache=None)
    assert list(runs.members["node"]) == ["w", "x", "y", "z"]
    assert list(runs.losses["node"]) == ["z"]
    assert list(runs.links["a"] + runs.links["b"]) == ["wx", "xy", "yz"]


def test_spanning_tree_of_parallel_edges_that_are_equal():
    graph = networkx.MultiGraph()
    for a, b, delay in [("w", "x", 3), ("w", "x", 3), ("x", "y", 2), ("x", "y", 5), ("y", "w", 9), ("y", "w", 9)]:
        graph.add_edge(a, b, delay=delay)
    for tree in graphs.SPANNING:
        made = graphs.from_graph(graph, spanning_tree=tree).links
        assert sorted(link[:3] for link in made) == [(0, 1, 3), (1, 2, 2)], tree


def test_directed_parallel_edges_are_as_many_links():
    graph = networkx.MultiDiGraph()
    for a, b, delay in [("a", "b", 3), ("a", "b", 4), ("b", "a", 5), ("b", "a", 6)]:
        graph.add_edge(a, b, delay=delay)
    assert graphs.links_of(graph, Delays()) == [("a", "b", 3, 5), ("a", "b", 4, 6)]


GML = """graph [ label "three towns"
  node [ id 0 label "Łódź" ] node [ id 1 label "Here &#38; there" ]
  node [ id 2 ]
  edge [ source 0 target 1 delay 7 ] edge [ source 0 target 1 delay 7 ]
  edge [ source 1 target 2 delay 8 ]
]
"""
LABELLED = """<?xml version="1.0" encoding="UTF-8"?>
<graphml xmlns="http://graphml.graphdrawing.org/xmlns">
  <key id="d0" for="node" attr.name="label" attr.type="string"/><key id="d1" for="edge" attr.name="delay" attr.type="int"/>
  <graph edgedefault="undirected">
    <node id="0"><data key="d0">Łódź</data></node><node id="1"><data key="d0">Here &amp; there</data></node><node id="2"/>
    <edge source="0" target="1"><data key="d1">7</data></edge><edge source="0" target="1"><data key="d1">7</data></edge>
    <edge source="1" target="2"><data key="d1">8</data></edge>
  </graph>
</graphml>
"""


@pytest.mark.parametrize("name, text", [("towns.gml", GML), ("towns.graphml", LABELLED)])
def test_labels_of_a_file_are_names_and_parallel_edges_are_read(name, text, tmp_path):
    path = tmp_path / name
    path.write_text(text, encoding="utf-8")
    made = scenario.from_file(path, spanning_tree="minimum", members=["2", "Łódź"], source="Here & there")
    assert made.tree.names == ("Łódź", "Here & there", "2")
    assert [made.tree.name(member.node) for member in made.members] == ["Here & there", "Łódź", "2"]
    assert [link[2] for link in made.tree.links] == [7, 8]
    assert scenario.from_router_map(path, members=["2"], source="Łódź").tree.routes == (("Łódź", "Here & there", "2"),)


@pytest.mark.parametrize("labels, names", [
    (["x", "y", "x"], ("0", "y", "2")),   # two have one label
    (["1", "y", "z"], ("0", "y", "z")),   # another node's id
    (["0", "2", "1"], ("0", "1", "2")),
    (["x", "", "z"], ("x", "1", "z")),
])
def test_label_that_is_another_nodes_is_no_name(labels, names, tmp_path):
    nodes = "\n".join(f'node [ id {place} label "{label}" ]' for place, label in enumerate(labels))
    path = tmp_path / "three.gml"
    path.write_text(f"# graph [ of three\ngraph [\n{nodes}\nedge [ source 0 target 1 ]\nedge [ source 1 target 2 ]\n]\n")
    assert scenario.from_file(path, delays=5).tree.names == names


def test_members_are_named_as_in_router_maps(square, tmp_path, capsys):
    words: dict[str, Any] = {"delays": Delays("ms", factor=10), "members": ["y", "w"], "source": "z"}
    made = scenario.from_graph(square, spanning_tree="shortest", **words)
    names = [made.tree.name(member.node) for member in made.members]
    assert names == [scenario.from_router_map(square, **words).tree.name(node) for node in (2, 0, 1)] == ["z", "w", "y"]
    assert [member.node for member in scenario.chain(9, members=[7, 3]).members] == [0, 3, 7]
    assert [member.node for member in scenario.star(9, members=[7, 3], source=3).members] == [3, 7]
    refused: list[tuple[Any, str]] = [([9], "there is no node 9"), (["x"], "there is no node 'x'"),
                                      (1.5, "members is 1.5, and has to be")]
    for wrong, told in refused:
        with pytest.raises(ScenarioError, match=told):
            scenario.chain(9, members=wrong)
    with pytest.raises(ScenarioError, match="members 0: no node that may host a member"):
        scenario.star(9, members=[0, 3])
    path = tmp_path / "square.graphml"
    networkx.write_graphml(square, path)
    file = ["file", str(path), "--delay-attribute", "ms", "--factor", "10", "--spanning-tree", "shortest", "--source", "z"]
    assert main([*file, "--members", "y,w"]) == 0
    assert scenario.read(capsys.readouterr().out).members == made.members
    assert main([*file, "--members", "y,q"]) == 1
    assert "--members y,q: say a number or all, or name nodes, parted by commas; q is no node" in capsys.readouterr().err


def test_shortest_spanning_tree_is_that_of_a_source_named_by_its_text():
    graph = networkx.Graph([(0, 1), (1, 2), (2, 3), (3, 0)])
    made = scenario.from_graph(graph, 5, "shortest", source="2")
    assert {(link.a, link.b) for link in made.tree.links} > {(1, 2), (2, 3)}
