"""The list of examples/, and the map there: its lengths, and what docs/EXPERIMENTS.md tells of it."""
import itertools
import math
import re
from pathlib import Path

import networkx

from srm_lab import Delays, scenario

ROOT = Path(__file__).resolve().parents[2]
MAP = ROOT / "examples/abilene.graphml"


def test_list_of_examples_has_each_of_them():
    listed = re.findall(r"\]\(([\w.-]+)\)", (ROOT / "examples/README.md").read_text())
    files = [path.name for kind in ("*.toml", "*.graphml", "*.ipynb") for path in (ROOT / "examples").glob(kind)]
    assert sorted(listed) == sorted(files)


def test_lengths_of_abilene_are_great_circles_between_its_cities():
    graph = networkx.read_graphml(MAP)
    assert (graph.number_of_nodes(), graph.number_of_edges(), networkx.is_connected(graph)) == (11, 14, True)
    places = {node: [math.radians(data[key]) for key in ("latitude", "longitude")] for node, data in graph.nodes(data=True)}
    for a, b, data in graph.edges(data=True):
        # the angle between two unit vectors; the file was made by the haversine formula
        vectors = [(math.cos(north) * math.cos(east), math.cos(north) * math.sin(east), math.sin(north))
                   for north, east in (places[a], places[b])]
        assert abs(6371 * math.acos(sum(x * y for x, y in zip(*vectors))) - data["km"]) <= 0.5


def test_session_on_abilene_is_on_its_shortest_ways():
    made = scenario.from_file(MAP, Delays("km", factor=5), "shortest", source="New York")
    graph = networkx.relabel_nodes(read := networkx.read_graphml(MAP), dict(read.nodes(data="label")))
    must = networkx.single_source_dijkstra_path_length(graph, "New York", weight="km")
    found = made.tree.distances(made.members[0].node)
    assert {made.tree.name(node): ticks for node, ticks in found.items()} == {name: 5 * km for name, km in must.items()}
    assert len(made.members) == 11


def test_what_is_told_of_the_map(monkeypatch):
    monkeypatch.chdir(ROOT)
    text = (ROOT / "docs/EXPERIMENTS.md").read_text()
    code, = re.findall(r"```python\n(.*?)```", text[text.index("### Maps of routers"):], re.DOTALL)
    told: dict = {}
    exec(code, told)  # the page's own lines
    comment = re.search(r"tree\.route\(2\) +# (\(.*?\)):", code)
    assert comment is not None and repr(told["tree"].route(2)).replace("'", '"') == comment[1]
    way = [told["tree"].route(link) for link in range(3)]
    steps = {frozenset(step) for route in way for step in itertools.pairwise(route)}
    assert told["session"].outages[0].link == 2 and frozenset(("Washington", "Atlanta")) in steps
