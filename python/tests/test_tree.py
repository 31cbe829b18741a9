"""Networks that are made by rule, at random or from files."""
import random

import pytest

from srm_lab import Delays, Scenario, ScenarioError, graphs, tree
from srm_lab.link import Link
from srm_lab.parts import Member

GRAPHML = """<?xml version="1.0" encoding="UTF-8"?>
<graphml xmlns="http://graphml.graphdrawing.org/xmlns">
  <key id="d0" for="edge" attr.name="delay" attr.type="int"/>
  <graph edgedefault="undirected">
    <node id="a"/><node id="b"/><node id="c"/>
    <edge source="a" target="b"><data key="d0">7</data></edge>
    <edge source="b" target="c"/>
  </graph>
</graphml>
"""
GML = "graph [\n node [ id 5 ]\n node [ id 6 ]\n node [ id 9 ]\n edge [ source 5 target 9 delay 4 ]\n" \
      " edge [ source 9 target 6 ]\n]\n"


def test_chain_joins_each_node_to_the_next():
    assert tree.chain(4, 3).links == (Link(0, 1, 3, 3), Link(1, 2, 3, 3), Link(2, 3, 3, 3))


def test_star_has_a_hub_without_a_member():
    made = tree.star(4, 3)
    assert made.links == (Link(0, 1, 3, 3), Link(0, 2, 3, 3), Link(0, 3, 3, 3))
    assert made.hosts() == [1, 2, 3]


def test_bounded_degree_tree_is_numbered_breadth_first():
    # degree 3: the root has children 1, 2, 3; node 1 has 4 and 5; node 2 has 6 and 7
    made = tree.bounded_degree(8, 3, 1)
    assert [link.a for link in made.links] == [0, 0, 0, 1, 1, 2, 2]


def test_inner_nodes_have_the_degree():
    made = tree.bounded_degree(256, 4, 1)
    degree = [len(near) for near in made.neighbours()]
    # 4 links of the root and 3 further ones of each of 83 nodes are 253; the two last ones are one more node's
    assert set(degree[:84]) == {4}
    assert degree[84] == 3 and set(degree[85:]) == {1}


def test_random_tree_of_a_seed_is_one_and_the_same():
    first = tree.random_labelled(50, 2, random.Random(9))
    assert first == tree.random_labelled(50, 2, random.Random(9))
    assert first != tree.random_labelled(50, 2, random.Random(10))
    assert first.nodes == 50 and len(first.links) == 49


@pytest.mark.parametrize("size", [1, 2, 3])
def test_small_random_trees(size):
    assert len(tree.random_labelled(size, 1, random.Random(0)).links) == size - 1


@pytest.mark.parametrize("seed", range(30))
def test_tree_of_a_code_is_that_of_networkx(seed):
    import networkx
    rng = random.Random(seed)
    code = [rng.randrange(seed + 3) for _ in range(seed + 1)]
    wanted = networkx.from_prufer_sequence(code).edges
    assert {frozenset(one) for one in tree.of_code(code, len(code) + 2)} == {frozenset(one) for one in wanted}


def test_each_labelled_tree_of_three_nodes_comes_up():
    middles = set()
    for seed in range(40):
        near = tree.random_labelled(3, 1, random.Random(seed)).neighbours()
        middles.add(max(range(3), key=lambda node: len(near[node])))
    assert middles == {0, 1, 2}


def test_ways_and_distances_from_a_node():
    made = tree.Tree(4, (Link(2, 0, 5, 5), Link(0, 1, 7, 7), Link(3, 2, 1, 1)))
    assert made.ways(1) == {1: [], 0: [1], 2: [1, 0], 3: [1, 0, 2]}
    assert made.distances(1) == {1: 0, 0: 7, 2: 12, 3: 13}


def test_random_delays_are_in_range_and_leave_the_shape():
    made = tree.bounded_degree(40, 4, 1).with_delays(10, 20, random.Random(1))
    assert made.shorthand == {}
    assert all(10 <= delay <= 20 for _, _, delay, _ in made.links)
    assert len({delay for _, _, delay, _ in made.links}) > 1


def test_graphml_with_a_delay(tmp_path):
    path = tmp_path / "three.graphml"
    path.write_text(GRAPHML)
    assert graphs.from_file(path, Delays(default=2)).links == (Link(0, 1, 7, 7), Link(1, 2, 2, 2))


def test_gml_nodes_are_numbered_in_their_order(tmp_path):
    path = tmp_path / "three.gml"
    path.write_text(GML)
    assert graphs.from_file(path, Delays(default=2)).links == (Link(0, 2, 4, 4), Link(1, 2, 2, 2))


def test_list_of_edges(tmp_path):
    path = tmp_path / "three.edges"
    path.write_text("# a comment\nhome office 12\n\noffice lab  # without a delay\n")
    assert graphs.from_file(path, Delays(default=2)).links == (Link(0, 1, 12, 12), Link(1, 2, 2, 2))


@pytest.mark.parametrize("text, told", [
    ("a b\nb c\nc a\n", "are no tree"),
    ("a b\nc d\n", "are no tree"),
    ("a b\na b\nc d\n", "no tree"),
    ("a a\n", "are no tree"),
    ("a b 1.5\n", "no whole number"),
    ("a b soon\n", "no number"),
    ("a b 0\n", "delay of link 0 is 0"),
    ("a b 1000001\n", "delay of link 0 is 1000001"),
    ("a b 1 2\n", "line 1 has 4 words"),
    ("", "number of nodes is 0"),
])
def test_lists_of_edges_that_are_refused(tmp_path, text, told):
    path = tmp_path / "graph.edges"
    path.write_text(text)
    with pytest.raises(ScenarioError, match=told):
        graphs.from_file(path, Delays(default=1))


def test_a_graph_of_more_nodes_than_the_format_has_room_for_is_refused():
    import networkx
    with pytest.raises(ScenarioError, match="the graph has 65536 nodes, and the format has room for 65535"):
        graphs.from_graph(networkx.star_graph(65_535), Delays(default=1))


@pytest.mark.parametrize("name, text, told", [
    ("none.gml", None, "No such file"),
    ("wrong.gml", "graph {", "cannot be read"),
    ("wrong.graphml", "<graphml", "cannot be read"),
    ("graph.dot", "graph { a -- b }", "has to end in"),
])
def test_files_that_are_refused(tmp_path, name, text, told):
    if text is not None:
        (tmp_path / name).write_text(text)
    with pytest.raises(ScenarioError, match=told):
        graphs.from_file(tmp_path / name, Delays(default=1))


@pytest.mark.parametrize("made, version", [
    (tree.chain(256, 1), 1), (tree.chain(257, 1), 2), (tree.chain(1024, 1), 2),
    (tree.bounded_degree(9, 255, 1), 1), (tree.bounded_degree(9, 256, 1), 2), (tree.chain(1025, 1), 3),
    (tree.bounded_degree(9, 1023, 1), 2), (tree.bounded_degree(9, 1024, 1), 3), (tree.chain(256, 1).by_parents(), 3),
])
def test_a_scenario_names_the_first_version_that_has_room(made, version):
    made = Scenario(made, (Member(1, "sender", 1),))
    assert made.table()["version"] == version


@pytest.mark.parametrize("make, told", [
    (lambda: tree.chain(0, 1), "size is 0"),
    (lambda: tree.chain(65_536, 1), "size is 65536"),
    (lambda: tree.star(66_000, 1), "size is 66000"),
    (lambda: tree.chain(2, 0), "delay of link 0 is 0"),
    (lambda: tree.bounded_degree(9, 1, 1), "degree is 1"),
    (lambda: tree.bounded_degree(9, 65_535, 1), "degree is 65535"),
    (lambda: tree.random_labelled(65_536, 1, random.Random(0)), "size is 65536"),
    (lambda: tree.Tree(3, (Link(0, 1, 1, 1), Link(1, 0, 1, 1))), "no tree"),
    (lambda: tree.Tree(2, (Link(0, 2, 1, 1),)), "end of link 0 is 2"),
])
def test_networks_that_are_refused(make, told):
    with pytest.raises(ScenarioError, match=told):
        make()


def test_ways_from_the_last_roots_are_found_once():
    made = tree.chain(9, 1)
    seen = [made.parents(root) for root in range(9)]
    assert [one[4] for one in seen] == [*[(3, 3)] * 4, None, *[(5, 4)] * 4]
    assert made.parents(8) is seen[8] and made.parents(0) == seen[0] and made.distances(0)[8] == 8


def test_a_tree_by_its_parents_is_seen_from_node_0():
    # 0 - 2 is told from 2, and 3 - 1 hangs below: 1 is the child of 3, and 3 that of 2
    made = tree.Tree(4, (Link(2, 0, 5, 6), Link(3, 1, 7, 8), Link(3, 2, 1, 2)), names=tuple("abcd"),
                     routes=(("c", "x", "a"), ("d", "b"), ("d", "y", "z", "c"))).by_parents()
    assert made.links == (Link(3, 1, 7, 8), Link(0, 2, 6, 5), Link(2, 3, 2, 1))
    assert made.routes == (("d", "b"), ("a", "x", "c"), ("c", "z", "y", "d")) and made.names == tuple("abcd")
    assert made.shorthand == {"topology": "parents", "parent": [3, 0, 2], "delays": [7, 6, 2], "backs": [8, 5, 1]}
    assert made.by_parents() == made


@pytest.mark.parametrize("links, keys", [
    ((), {"delays": []}),
    ((Link(0, 1, 4, 4), Link(1, 2, 4, 4)), {"delay": 4}),
    ((Link(0, 1, 4, 4), Link(1, 2, 5, 5)), {"delays": [4, 5]}),
    ((Link(0, 1, 4, 9), Link(1, 2, 5, 9)), {"delays": [4, 5], "back": 9}),
    ((Link(0, 1, 4, 5), Link(1, 2, 4, 6)), {"delay": 4, "backs": [5, 6]}),
])
def test_a_delay_of_all_links_is_told_once(links, keys):
    shorthand = tree.Tree(len(links) + 1, links).by_parents().shorthand
    assert {key: value for key, value in shorthand.items() if key not in ("topology", "parent")} == keys


def test_large_trees_without_a_name_stand_by_their_parents():
    assert tree.random_labelled(1025, 3, random.Random(1)).shorthand["delay"] == 3
    assert tree.random_labelled(1024, 3, random.Random(1)).shorthand == {}
    large = tree.chain(1025, 3).with_delays(3, 4, random.Random(1))
    assert large.shorthand["parent"] == list(range(1024)) and set(large.shorthand["delays"]) == {3, 4}
    assert large.with_back(7).shorthand == {**large.shorthand, "back": 7}
    both = large.with_back(iter(range(1, 1025)).__next__)
    assert both.shorthand == {**large.shorthand, "backs": list(range(1, 1025))} and both.with_back(7) == large.with_back(7)


@pytest.mark.parametrize("made, links, far", [
    # below the root of degree 4 are 4, 12, 36, 108, 324 nodes, 485 with it; 515 of the 972 at the next depth are left
    (tree.bounded_degree(1000, 4, 1), [(0, 1), (0, 4), (1, 5), (332, 999)], 6),
    # and 972, 2916: 4,373 with the root; 627 of the next depth are left
    (tree.bounded_degree(5000, 4, 1), [(0, 1), (0, 4), (1, 5), (1665, 4999)], 8),
    (tree.bounded_degree(65_535, 4, 1), [(0, 1), (21843, 65_532), (21843, 65_533), (21844, 65_534)], 10),
    (tree.chain(65_535, 1), [(0, 1), (4, 5), (65_533, 65_534)], 65_534),
    (tree.star(65_535, 1), [(0, 1), (0, 5), (0, 65_534)], 1),
])
def test_large_trees_that_have_a_name(made, links, far):
    assert [(made.links[child - 1].a, made.links[child - 1].b) for _, child in links] == links
    assert max(made.distances(0).values()) == far
    assert len(set(made.shorthand) & {"link", "parent"}) == 0
