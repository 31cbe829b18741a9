"""Maps of routers: the tree of a session, worked out by hand on small maps, and held to a large map itself."""
import itertools
import random

import networkx
import pytest

from srm_lab import Delays, ScenarioError, read_scenario, run, scenario
from srm_lab.cli import main
from srm_lab.losses import losers


def edges(made):
    """The links of a tree by the names of their ends, each with its two delays and its route."""
    return {(made.name(link.a), made.name(link.b)): (link.delay, link.back, "".join(made.route(place)))
            for place, link in enumerate(made.links)}


@pytest.fixture
def town():
    """A map with a ring, a branch without a member, and a row of routers.

        s --2-- a --3-- b --4-- m        m, n, k: members; s: source
                |       |
                9       1
                |       |
                c --1-- d --5-- e --6-- n
                |               |
                7               8
                |               |
                q               k
    """
    graph = networkx.Graph()
    graph.add_weighted_edges_from([
        ("s", "a", 2), ("a", "b", 3), ("b", "m", 4), ("a", "c", 9), ("b", "d", 1), ("c", "d", 1), ("d", "e", 5),
        ("e", "n", 6), ("c", "q", 7), ("e", "k", 8)], weight="delay")
    return graph


def test_tree_of_the_shortest_ways_without_branches_and_with_joined_links(town):
    # d is nearer by a, b (6) than by a, c (12); a and d only hand on; c and q have no member behind them
    made = scenario.from_router_map(town, members=["m", "n", "k"], source="s")
    assert edges(made.tree) == {
        ("s", "b"): (5, 5, "sab"), ("b", "m"): (4, 4, "bm"), ("b", "e"): (6, 6, "bde"), ("e", "n"): (6, 6, "en"),
        ("e", "k"): (8, 8, "ek")}
    assert [made.tree.name(member.node) for member in made.members] == ["s", "m", "n", "k"]
    assert [member.role for member in made.members] == ["sender", "receiver", "receiver", "receiver"]


def test_member_on_a_router_of_two_links_stays(town):
    made = scenario.from_router_map(town, members=["d", "n"], source="s")
    assert edges(made.tree) == {("s", "d"): (6, 6, "sabd"), ("d", "n"): (11, 11, "den")}
    assert made.tree.link_between("e", "d") == made.tree.link_between("e", "n") == 1
    assert made.tree.link_between("a", "b") == 0
    with pytest.raises(ScenarioError, match="no link between 'a' and 'c'"):
        made.tree.link_between("a", "c")


def test_one_member_may_be_named_alone(town):
    assert edges(scenario.from_router_map(town, members="k", source="s").tree) == {("s", "k"): (19, 19, "sabdek")}


def test_source_in_the_middle_has_two_links(town):
    made = scenario.from_router_map(town, members=["m", "n", "d"], source="d")
    assert edges(made.tree) == {("d", "m"): (5, 5, "dbm"), ("d", "n"): (11, 11, "den")}
    assert made.tree.name(made.members[0].node) == "d" and len(made.members) == 3


def test_delays_of_both_directions_are_added_and_the_way_there_is_the_one_that_is_short():
    graph = networkx.DiGraph()
    for a, b, there, back in [("s", "a", 1, 10), ("a", "m", 2, 20), ("s", "c", 2, 1), ("c", "m", 2, 1)]:
        graph.add_edge(a, b, delay=there)
        graph.add_edge(b, a, delay=back)
    assert edges(scenario.from_router_map(graph, members=["m"], source="s").tree) == {("s", "m"): (3, 30, "sam")}
    assert edges(scenario.from_router_map(graph, members=["s"], source="m").tree) == {("m", "s"): (2, 4, "mcs")}


def test_of_parallel_links_the_shortest_is_taken():
    graph = networkx.MultiGraph()
    for delay in (5, 3, 4):
        graph.add_edge("s", "m", delay=delay)
    assert edges(scenario.from_router_map(graph, members=["m"], source="s").tree) == {("s", "m"): (3, 3, "sm")}


@pytest.mark.parametrize("words, told", [
    ({"members": ["z"], "source": "s"}, "the map has no node 'z'"),
    ({"members": ["far"], "source": "s"}, "no way from 's' to 'far'"),
    ({"members": ["m"], "source": "z"}, "the map has no node 'z'"),
    ({"members": 99, "source": "s"}, "members is 99, and has to be 1 to 10"),
    ({"delays": Delays("lag"), "source": "s"}, "edge s - a has no attribute 'lag'"),
])
def test_maps_that_are_refused(words, told, town):
    town.add_edge("far", "away", delay=1)
    with pytest.raises(ScenarioError, match=told):
        scenario.from_router_map(town, **words)


def test_negative_delay_is_refused_by_its_edge(town):
    town.edges["c", "q"]["delay"] = -7
    with pytest.raises(ScenarioError, match="edge c - q: a delay is -7, and has to be at least 0"):
        scenario.from_router_map(town, members=["m"], source="s")


def test_tree_of_more_nodes_than_the_format_has_room_for_is_refused():
    with pytest.raises(ScenarioError, match="65536 members has 65536 nodes .* room for 65535: choose fewer"):
        scenario.from_router_map(networkx.path_graph(66_000), 1, members=65_536, source=0)


def test_number_of_members_is_chosen_by_the_seed(town):
    chosen = [[made.tree.name(member.node) for member in made.members] for made in (
        scenario.from_router_map(town, members=4, source="s", seed=seed) for seed in (1, 1, 2))]
    assert chosen[0] == chosen[1] != chosen[2] and [len(names) for names in chosen] == [4] * 3
    assert len(scenario.from_router_map(town, source="s").members) == 10


def test_routes_are_kept_by_files(town):
    made = scenario.from_router_map(town, members=["m", "n", "k"], source="s")
    again = read_scenario(made.text())
    assert again.tree == made.tree and again.comments == ()
    other = made.text().replace('"s", "a", "b"', '"s", 7, "b"', 1)
    assert read_scenario(other).tree.routes == () and len(read_scenario(other).comments) == 1


def test_names_of_the_map_stand_in_tables(program, town):
    made = scenario.from_router_map(town, members=["m", "n", "k"], source="s").drawing(3)
    lossy = made.tree.link_between("d", "e")
    runs = run(made.drop(lossy, 0), tables=["losses", "links"], program=program, cache=None)
    assert sorted(runs.losses["node"]) == ["k", "n"]
    assert list(runs.links["a"] + runs.links["b"])[lossy] == "be"


@pytest.fixture(scope="module")
def large():
    """A map of 10,000 routers, each of them with two links or more, and delays of 1 to 30 milliseconds."""
    graph = networkx.barabasi_albert_graph(10_000, 2, seed=5)
    rng = random.Random(5)
    for _, _, keys in graph.edges(data=True):
        keys["ms"] = rng.randint(10, 300) / 10
    return graph


def test_a_map_of_10000_routers(program, large):
    made = scenario.from_router_map(large, Delays("ms", factor=10), members=600, source=17, seed=3)
    tree = made.tree
    assert len(made.members) == 600 and 600 < tree.nodes <= 1024
    nodes = [member.node for member in made.members]
    near = tree.neighbours()
    assert [tree.name(node) for node in range(tree.nodes) if len(near[node]) < 3 and node not in nodes] == []
    # each member is as far from the source as on the map
    must = networkx.single_source_dijkstra_path_length(large, 17, weight="ms")
    found = tree.distances(nodes[0])
    assert all(found[node] == round(10 * must[int(tree.name(node))]) for node in nodes)
    # and each link is a way on the map, with its delay, that begins and ends where the link does
    for place, link in enumerate(tree.links):
        route = [int(name) for name in tree.route(place)]
        assert (tree.name(link.a), tree.name(link.b)) == (str(route[0]), str(route[-1]))
        assert link.delay == round(sum(10 * large.edges[step]["ms"] for step in itertools.pairwise(route)))
    runs = run(made.drawing(4).drop(0, 0), tables=["losses"], program=program, cache=None)
    assert set(runs.losses["ended"]) == {"recovered"}


def test_a_session_on_a_large_map_that_only_version_3_has_room_for(program, large):
    made = scenario.from_router_map(large, Delays("ms", factor=10), members=2500, source=17, seed=3)
    tree = made.tree
    assert made.table()["version"] == 3 and tree.nodes > 2500 and made.table()["topology"] == "parents"
    # link i leads to node i + 1 from its parent, and what stands in the file leads back to the map
    assert [link.b for link in tree.links] == list(range(1, tree.nodes))
    again = read_scenario(made.text())
    assert again.tree == tree and again.members == made.members
    must = networkx.single_source_dijkstra_path_length(large, 17, weight="ms")
    found = tree.distances(made.members[0].node)
    assert all(found[member.node] == round(10 * must[int(tree.name(member.node))]) for member in made.members)
    for place, link in enumerate(tree.links):
        route = [int(name) for name in tree.route(place)]
        assert (tree.name(link.a), tree.name(link.b)) == (str(route[0]), str(route[-1]))
        assert link.delay == link.back == round(sum(10 * large.edges[step]["ms"] for step in itertools.pairwise(route)))
    # those that lose the first draw are the members behind the link, as the map has it
    lossy = tree.link_between("17", next(tree.name(node) for node, _ in tree.neighbours()[tree.number("17")]))
    behind = losers(tree, tree.number("17"), [member.node for member in made.members], lossy)
    runs = run(made.drawing(2).drop(lossy, 0), tables=["losses"], program=program, cache=None)
    assert sorted(runs.losses["node"]) == sorted(str(tree.name(node)) for node in behind)
    assert set(runs.losses["ended"]) == {"recovered"}


def test_a_map_of_the_internet_in_lists_of_edges(tmp_path, srm_lab):
    graph = networkx.random_internet_as_graph(3000, seed=1)
    path = tmp_path / "internet.edges"
    path.write_text("".join(f"AS{a} AS{b} {1 + (a + b) % 30}\n" for a, b in graph.edges))
    made = scenario.from_router_map(path, members=1500, source="AS0", seed=2)
    assert len(made.members) == 1500 and made.tree.name(made.members[0].node) == "AS0"
    assert read_scenario(made.text()).tree == made.tree
    srm_lab(made.text(), "--check")


def test_command_line_writes_the_tree_of_a_map(tmp_path, capsys, town):
    path = tmp_path / "town.graphml"
    networkx.write_graphml(town, path)
    assert main(["map", str(path), "--source", "s", "--members", "m,n,k", "--drop-link", "hops:2"]) == 0
    assert edges(read_scenario(capsys.readouterr().out).tree) == edges(
        scenario.from_router_map(town, members=["m", "n", "k"], source="s").tree)
    assert main(["map", str(path), "--delay-attribute", "lag"]) == 1
    assert "edge s - a has no attribute 'lag', and --delay gives none" in capsys.readouterr().err
