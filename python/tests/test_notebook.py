"""What a notebook shows: scenarios, runs, pages, a bar, figures; and the notebook of examples/, which is run."""
import html
import json
import os
import re
import subprocess
import sys
import xml.etree.ElementTree as xml
from pathlib import Path

import pandas
import pytest
from matplotlib.figure import Figure

import srm_lab
from srm_lab import ScenarioError, paired, plot, run, scenario, summarise
from srm_lab.page.html import D3
from srm_lab.tree_picture import TreePicture, places_of

ROOT = Path(__file__).resolve().parents[2]
NOTEBOOK = ROOT / "examples/notebook.ipynb"
SVG = "{http://www.w3.org/2000/svg}"
CHAIN = scenario.chain(4, delay=10).constants(c2=0, d2=0).drawing(0).draw(0).draw(50).drop(1, 0)
# of each seed twice as much in a group as in the other one
TABLE = pandas.DataFrame({"seed": [0, 0, 1, 1, 2, 2], "c2": [1, 2] * 3, "delay": [1, 2, 3, 6, 5, 10]})


def test_names_of_the_package_are_found_before_they_are_loaded():
    told = subprocess.run([sys.executable, "-c", "import srm_lab; print(*dir(srm_lab))"], text=True, capture_output=True,
                          env={**os.environ, "PYTHONPATH": str(ROOT / "python/src")}, check=True).stdout.split()
    assert {*srm_lab.__all__} <= {*told} and "sweep" in told


@pytest.mark.parametrize("given, words", [
    (scenario.random_tree(200, members=60, seed=7).lose(rate=0.01), ["tree of 200 nodes", "60 members", "100 draws",
                                                                     "losses at random on 199 links", "c1=2 c2=2 d1=1 d2=1"]),
    (scenario.chain(65_535), ["chain of 65,535 nodes", "65,535 members"]),
    (CHAIN.ends(700), ["chain of 4 nodes", "2 draws", "1 drop", "until 700"]),
    (scenario.chain(1), ["chain of 1 node, 1 member"]),
])
def test_scenario_is_told_in_a_line(given, words):
    told = repr(given)
    assert len(told) < 200 and "\n" not in told and all(word in told for word in words)
    assert repr(given.tree) == f"<Tree of {given.tree.nodes:,} nodes>"


def test_scenario_is_shown_with_its_tree_and_its_losses():
    given = scenario.star(5).drop(2, [0, 3]).outage(1, 80, 99).lose(rate=0.01).lose(rate=0.5, link=3, stream=1, first=7)
    found = xml.fromstring(given._repr_html_())
    picture, table = found.find(f"{SVG}svg"), found.find("table")
    assert picture is not None and table is not None
    assert len(picture.findall(f".//{SVG}line")) == 4 + 1  # the links, and one in the legend
    titles = [one.text for one in picture.iter(f"{SVG}title")]
    assert "link 1: 1,000 ticks" in titles and "member 3, receiver, on node 4" in titles and "node 0" in titles
    rows = [[cell.text for cell in row] for row in table.iter("tr")]
    assert rows == [["link", "loses", "when"], ["all 4", "1% of all packets, at random", "always"],
                    ["3 (0 to 4)", "50% of all packets, at random, stream 1", "from tick 7"],
                    ["1 (0 to 2)", "all packets", "ticks 80 to 99"], ["2 (0 to 3)", "packets 0, 3 of member 0", None]]
    assert "<style" not in given._repr_html_()  # it would be that of the whole page


def test_many_losses_are_few_rows():
    given = scenario.random_tree(200, members=60, seed=7)
    assert given.lose(rate=0.01)._repr_html_().count("<tr>") == 2
    listed = given.rounds(100, link="random")._repr_html_()
    assert listed.count("<tr>") == 2 and "(100 outages)" in listed
    assert "and 179 more rows" in given.drop(0, 0)._with(drops=tuple(
        srm_lab.scenario.Drop(link, 0, 5) for link in range(199)))._repr_html_()


def test_nodes_of_a_picture_stand_apart_and_a_chain_is_a_line():
    places = places_of(scenario.chain(5).tree)
    assert [round(y, 6) for _, y in places] == [0] * 5 and sorted(round(x, 6) for x, _ in places) == [-2, -1, 0, 1, 2]
    for given in (scenario.star(50), scenario.random_tree(200, seed=3), scenario.regular_tree(100)):
        assert len({(round(x, 3), round(y, 3)) for x, y in places_of(given.tree)}) == given.tree.nodes
    assert "<svg" not in scenario.chain(2001)._repr_html_() and TreePicture(scenario.chain(1)).svg().count("<circle") == 2


def test_names_in_a_picture_are_no_markup():
    networkx = pytest.importorskip("networkx")
    graph = networkx.Graph([("<b>", "a&b")])
    assert xml.fromstring(scenario.from_graph(graph, 10).drop(0, 0)._repr_html_()).find("table") is not None


def test_runs_print_as_tables_and_not_as_their_scenario(program):
    runs = run(CHAIN, 2, ["losses", "links"], program=program, cache=None)
    told = repr(runs)
    assert told.startswith("2 runs of a chain of 4 nodes, 4 members") and len(told.splitlines()) < 30
    assert "losses: 4 rows\n   seed  member" in told and "links: 6 rows" in told and "Link(" not in told
    found = runs._repr_html_()
    assert found.count("<table") == 2 and "detected" in found
    assert {"losses", "links", "summary", "page"} <= {*dir(runs)} and "members" not in dir(runs)


def test_page_of_runs_is_shown_and_saved(program, tmp_path):
    if not any(Path(one).exists() for one in D3):
        pytest.skip("no node-d3")
    page = run(CHAIN, [3, 5], program=program, cache=None).page()
    assert page.write(tmp_path / "run.html").read_text() == page.html and len(repr(page)) < 100
    frame, = re.findall('<iframe .*srcdoc="([^"]*)"', page._repr_html_(), re.DOTALL)
    assert html.unescape(frame) == page.html and page.html.startswith("<!DOCTYPE html>")
    assert "Run of seed 3" in page.html and "Five" in run(CHAIN, program=program, cache=None).page(5, title="Five").html


def test_bar_is_seen_in_a_notebook(monkeypatch, capsys):
    class Shell:
        kernel = None

    class IPython:
        get_ipython = Shell

    from srm_lab.runs import bar_of
    assert bar_of(3, None).disable  # standard error is no terminal here
    monkeypatch.setitem(sys.modules, "IPython", IPython)
    assert not bar_of(3, None).disable and bar_of(3, False).disable
    assert "0/3" in capsys.readouterr().err


def test_plot_of_a_summary_has_its_means_and_intervals():
    found = summarise(TABLE, "delay", by="c2")
    axes = plot(found)
    assert axes.lines[0].get_xdata().tolist() == [1, 2] and axes.lines[0].get_ydata().tolist() == [3, 6]
    low, high = axes.collections[0].get_segments()[0][:, 1]
    assert (low, high) == pytest.approx((found.loc[1, "low"], found.loc[1, "high"]))
    assert axes.get_xlabel() == "c2" and axes.get_ylabel() == "delay\nmean, 95% interval over seeds"


def test_plot_has_a_line_for_each_other_group_beside_the_first():
    table = pandas.concat([TABLE.assign(shape=shape) for shape in ("star", "tree")])
    found = summarise(table, "delay", by=["c2", "shape"])
    axes = plot(found)
    assert [text.get_text() for text in axes.get_legend().get_texts()] == ["shape = star", "shape = tree"]
    places = [line.get_transform().transform([(1, 3)])[0][0] for line in axes.lines[::3]]
    assert places[0] < places[1]  # both are of c2 = 1
    across = plot(found, x="shape")
    assert [label.get_text() for label in across.get_xticklabels()] == ["star", "tree"]
    alone = plot(summarise(TABLE.query("seed == 1"), "delay", by="c2"))  # of one seed no interval is known
    assert alone.lines[0].get_ydata().tolist() == [3, 6]


@pytest.mark.parametrize("scale", ["linear", "log"])
@pytest.mark.parametrize("lines, wide", [(2, 1), (5, 1), (5, 4), (12, 1), (12, 4), (40, 2)])
def test_points_of_all_lines_are_inside_the_limits(scale, lines, wide):
    table = pandas.concat([TABLE.assign(rate=TABLE["c2"]**9 / 1000, line=number) for number in range(lines)])
    first, *others = Figure().subplots(1, wide, sharex=True, squeeze=False)[0]
    first.set_xscale(scale)
    for axes in (first, *others[1:]):
        plot(summarise(table, "delay", by=["rate", "line"]), axes=axes).set_xscale(scale)
    for axes in (first, *others[1:]):
        low, high = axes.get_xlim()
        across = [axes.transData.inverted().transform(line.get_transform().transform(line.get_xydata()))[:, 0]
                  for line in axes.lines]
        assert len(across) == 3 * lines and all(low < place < high for line in across for place in line)
        places = {round(float(line[0]), 9) for line in across}
        assert len(places) == lines and min(places) < 0.001 < max(places)


def test_limits_are_of_the_places_and_those_that_were_set_stay():
    table = pandas.concat([TABLE.assign(rate=TABLE["c2"] / 1000, line=number) for number in range(3)])
    found = summarise(table, "delay", by=["rate", "line"])
    axes = plot(found, axes=Figure().subplots())
    assert axes.dataLim.intervalx.tolist() == [0.001, 0.002] and axes.get_xlim() == pytest.approx((0.00095, 0.00205))
    given = Figure().subplots()
    given.set_xlim(0, 1)
    assert plot(found, axes=given).get_xlim() == (0, 1)


@pytest.mark.parametrize("given, words, told", [
    (summarise(TABLE, "delay"), {}, "plot takes the table that summarise or paired gives with `by`"),
    (TABLE, {}, "plot takes the table"),
    (summarise(TABLE, "delay", by="c2").reset_index(), {}, "gives with `by`, with `by` as its index and columns mean"),
    (summarise(TABLE, "delay", by="c2"), {"x": "c1"}, "x is 'c1', and has to be one of c2"),
])
def test_what_cannot_be_plotted(given, words, told):
    with pytest.raises(ScenarioError, match=told):
        plot(given, **words)


def test_paired_by_groups():
    found = paired(TABLE, TABLE.assign(delay=TABLE["delay"] + TABLE["c2"]), "delay", by="c2")
    assert found["mean"].tolist() == [1, 2] and found["low"].tolist() == [1, 2]  # on each seed the same
    assert found[["first", "second", "seeds"]].values.tolist() == [[3, 4, 3], [6, 8, 3]]
    alone = paired(TABLE.query("c2 == 2"), TABLE.query("c2 == 2").assign(delay=[3, 9, 9]), "delay").difference
    one = paired(TABLE, TABLE.assign(delay=[1, 3, 3, 9, 5, 9]), "delay", by=["c2"]).loc[2]
    assert (one["mean"], one["low"], one["high"]) == (alone.mean, alone.low, alone.high)
    assert "second less first" in plot(found).get_ylabel()


def test_groups_that_cannot_be_paired():
    with pytest.raises(ScenarioError, match="by c2 needs the same groups"):
        paired(TABLE, TABLE.query("c2 == 1"), "delay", by="c2")
    with pytest.raises(ScenarioError, match="there is no column 'c3'"):
        paired(TABLE, TABLE, "delay", by="c3")


@pytest.fixture
def converted(program, tmp_path):
    """The notebook of examples/, run by Debian's nbconvert, as its cells with their outputs."""
    pytest.importorskip("nbconvert")
    pytest.importorskip("ipykernel")
    env = {**os.environ, "SRM_LAB": str(program), "PYTHONPATH": str(ROOT / "python/src"), "XDG_CACHE_HOME": str(tmp_path)}
    made = tmp_path / "made.ipynb"
    subprocess.run(["/usr/bin/python3", "-m", "nbconvert", "--to", "notebook", "--execute", "--output", made, NOTEBOOK],
                   env=env, check=True, timeout=300)
    return json.loads(made.read_text())["cells"]


def test_notebook_shows_what_it_says(converted):
    shown = ["".join("".join(one.get("data", one).get(kind, "")) for one in cell.get("outputs", ())
                     for kind in ("text/html", "image/png", "text")) for cell in converted if cell["cell_type"] == "code"]
    kinds = ("<svg", "<table", "<iframe", "iVBOR", "run/s")
    assert [kind for kind in kinds if not any(kind in one for one in shown)] == []
    assert all(one["output_type"] != "error" for cell in converted for one in cell.get("outputs", ()))


def test_notebook_is_kept_without_what_it_shows():
    cells = json.loads(NOTEBOOK.read_text())["cells"]
    assert all(not cell.get("outputs") and cell.get("execution_count") is None for cell in cells)
