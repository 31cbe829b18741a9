"""Experiments of a configuration, and their tables."""
import io
from pathlib import Path

import pytest

from srm_lab import ScenarioError
from srm_lab.gather import write_table
from srm_lab.experiment import Experiment, Needs, check_config

ROOT = Path(__file__).resolve().parents[2]

TABLES = {
    "operations": """seed,source,page,number,losers,recovered,left,detected,asked,requests,repairs,last,delay
1,0,0,0,2,2,0,9,11,2,1,1,7/4
1,0,0,3,2,1,0,9,12,5,4,-,-
""",
    "losses": """seed,member,source,page,number,detected,recovered,delay
1,1,0,0,0,10,17,7/4
1,1,0,0,3,9,16,7/4
1,2,0,0,0,9,13,4/8
1,2,0,0,3,9,-,-
""",
    "metrics": "seed,own\n1,8\n"}
DRAWS = {"lines": Needs(4), "over_session_size": Needs(1), "requests_against_delay": Needs(2, ("drop_link", "c1"))}


def test_points_are_the_product_of_the_lists():
    one = Experiment("e", {"kind": "star", "size": [5, 9], "c2": [0, 2], "d1": [1], "seeds": 3})
    assert list(one.points) == ["size-5_c2-0", "size-5_c2-2", "size-9_c2-0", "size-9_c2-2"]
    assert one.parts == [[1, 2, 3]]
    assert one.words("size-9_c2-2", 3) == ["star", "--size", "9", "--c2", "2", "--d1", "1", "--seed", "3"]


def test_losses_are_every_second_packet():
    one = Experiment("e", {"kind": "chain", "size": 3, "drop_link": "hops:1", "losses": 7, "seeds": [4]})
    assert one.words("only", 4) == [
        "chain", "--size", "3", "--drop-link", "hops:1", "--draws", "14", "--drop-every", "2", "--seed", "4"]


def test_file_is_named_after_its_kind():
    one = Experiment("e", {"kind": "file", "path": ["a.gml", "b.gml"], "seeds": 1})
    assert one.words("path-b.gml", 1) == ["file", "b.gml", "--seed", "1"]


def test_rounds_and_adaptive_timers_are_options():
    one = Experiment("e", {"kind": "chain", "size": 3, "drop_link": 1, "rounds": 5, "adaptive": [True, False],
                           "agent": "ns2", "seeds": [4]})
    assert one.words("adaptive-True", 4) == ["chain", "--size", "3", "--drop-link", "1", "--rounds", "5", "--adaptive",
                                             "--seed", "4"]
    assert "--adaptive" not in one.words("adaptive-False", 4) and one.agent == "ns2"
    assert Experiment("e", {**one.config, "seeds": 3}).parts == [[1], [2], [3]]  # a job for each, which takes seconds


def test_value_twice_is_refused():
    with pytest.raises(ScenarioError, match="a list has a value twice"):
        Experiment("e", {"kind": "star", "size": [5, 5], "seeds": 1})


def test_experiment_without_seeds_is_refused():
    with pytest.raises(ScenarioError, match="seeds have to be there"):
        Experiment("e", {"kind": "star", "size": 5})


def test_keys_that_repeat_and_flags():
    one = Experiment("e", {"kind": "chain", "size": 3, "leave": ["2:0-100", "1:5 1:9-20"], "any_packet": True,
                           "outage": "1:10-20 0:5-6", "back": 7, "loss": 0.5, "seeds": 1})
    assert one.words("leave-1-5-1-9-20", 1) == [
        "chain", "--size", "3", "--leave", "1:5", "--leave", "1:9-20", "--any-packet",
        "--outage", "1:10-20", "--outage", "0:5-6", "--back", "7", "--loss", "0.5", "--seed", "1"]


@pytest.mark.parametrize("change, told", [
    ({"experiment": {}}, "there is no 'experiment'"),
    ({"experiments": {"one": {"kind": "chain", "size": 3, "sizes": 4, "seeds": 1}}}, "no key 'sizes'"),
    ({"experiments": {"one": {"kind": "ring", "size": 3, "seeds": 1}}}, "there is no kind 'ring'"),
    ({"experiments": {"one": {"kind": "chain", "size": 3, "leave": "9:1-2", "seeds": 1}}}, "only: leave: members is 9"),
    ({"experiments": {"one": {"kind": "chain", "size": 3, "outage": "2:1-2", "seeds": 1}}}, "there is no link 2"),
    ({"experiments": {"one": {"kind": "chain", "size": [3, 70000], "seeds": 1}}}, "size-70000: size is 70000"),
    ({"figures": {"f": {"draw": "line", "of": ["one"]}}}, "figure f, draw: there is no 'line'"),
    ({"figures": {"f": {"draw": "lines", "of": ["two"]}}}, "figure f, of: there is no 'two'"),
    ({"figures": {"f": {"draw": "lines", "of": ["one"], "x": "size"}}}, "lines need x and y"),
    ({"figures": {"f": {"draw": "lines", "of": ["one"], "x": "c3", "y": "ratio"}}}, "there is no 'c3'"),
    ({"figures": {"f": {"of": ["one"]}}}, "draw and of have to be there"),
    ({"figures": ["f"]}, "figures are no names"),
    ({"figures": {"f": {"draw": "lines", "of": [], "x": "size", "y": "ratio"}}}, "takes a list of 1 to 4 experiments"),
    ({"figures": {"f": {"draw": "lines", "of": "one", "x": "size", "y": "ratio"}}}, "takes a list of 1 to 4"),
    ({"figures": {"f": {"draw": "over_session_size", "of": ["one", "one"]}}}, "takes a list of one experiment"),
    ({"figures": {"f": {"draw": "lines", "of": ["one"], "x": "size", "y": "ratoi"}}}, "y: there is no 'ratoi'"),
    ({"figures": {"f": {"draw": "over_session_size", "of": ["one"], "over": "members"}}}, "there is no 'members'"),
    ({"figures": {"f": {"draw": "requests_against_delay", "of": ["one"]}}}, "of one: there is no 'drop_link'"),
    ({"experiments": {"one": {"kind": "chain", "size": 3, "c1": 2, "drop_link": ["hops:1", "random"], "seeds": 1}},
      "figures": {"f": {"draw": "requests_against_delay", "of": ["one"]}}}, "needs links hops:H, and drop_link has"),
    ({"experiments": {"one": {"kind": "chain", "size": 3, "agent": "ns3", "seeds": 1}}},
     "there is no 'ns3' .did you mean 'ns2'..: there are"),
    ({"experiments": {"one": {"kind": "chain", "size": 3, "agent": "ns2", "seeds": 1}}}, "ns2 needs rounds"),
    ({"experiments": {"one": {"kind": "chain", "size": 3, "rounds": 0, "drop_link": 1, "seeds": 1}}},
     "--rounds is 0, and has to be 1 to 2048"),
    ({"experiments": {"one": 5}}, "kind and seeds have to be there"),
    ({"experiments": {"one": {"kind": "chain", "size": 3, "seeds": 0}}}, "seeds is 0, and has to be 1 to"),
    ({"experiments": {"one": {"kind": "chain", "size": 3, "seeds": "two"}}}, "seeds is 'two', and has to be a whole"),
    ({"experiments": {"one": {"kind": "chain", "size": 3, "seeds": [1, 1]}}}, "without the same twice"),
    ({"experiments": {"one": {"kind": "chain", "size": 3, "seeds": []}}}, "without the same twice"),
    ({"experiments": {"one": {"kind": "chain", "size": 3, "seeds": 1, "metrics": {"own": "nowhere.py:f"}}}},
     "there has to be such a file"),
    ({"experiments": {"one": {"kind": "chain", "size": 3, "seeds": 1, "metrics": {"own": f"{__file__}:nothing"}}}},
     "has no function nothing"),
    ({"experiments": {"one": {"kind": "chain", "size": 3, "seeds": 1, "metrics": {"losers": f"{__file__}:ROOT"}}}},
     "has a column 'losers' besides"),
    ({"experiments": {"one": {"kind": "chain", "size": 3, "seeds": 1, "metrics": [f"{__file__}:ROOT"]}}},
     "metrics are no names"),
])
def test_configurations_that_are_refused(change, told):
    config = {"experiments": {"one": {"kind": "chain", "size": 3, "seeds": 2}}, "figures": {}, **change}
    with pytest.raises(ScenarioError, match=told):
        check_config(config, DRAWS)


def test_file_of_a_metric_that_cannot_be_loaded_is_named(tmp_path):
    (tmp_path / "own.py").write_text("import nothing_of_this_name\n")
    one = {"kind": "chain", "size": 3, "seeds": 1, "metrics": {"own": f"{tmp_path}/own.py:f"}}
    with pytest.raises(ScenarioError, match="own.py cannot be loaded: ModuleNotFoundError"):
        check_config({"experiments": {"one": one}}, DRAWS)


def test_figure_of_a_metric_is_accepted(tmp_path):
    (tmp_path / "own.py").write_text("def f(runs):\n    return 1\n")
    one = {"kind": "chain", "size": [3, 4], "seeds": 1, "metrics": {"own": f"{tmp_path}/own.py:f"}}
    for y in ("own", "size", "ratio", "requests"):
        check_config({"experiments": {"one": one}, "figures": {"f": {"draw": "lines", "of": ["one"], "x": "size",
                                                                     "y": y}}}, DRAWS)


def test_each_configuration_of_the_repository_is_accepted(monkeypatch):
    import figures
    import kinds
    import yaml
    monkeypatch.chdir(ROOT / "experiments")  # where files are that they name
    for name in ("config.yaml", "small.yaml", "adaptive.yaml", "adaptive-ns2.yaml", "sparse.yaml", "local.yaml"):
        check_config(yaml.safe_load((ROOT / "experiments" / name).read_text()), kinds.NEEDS)
    assert set(kinds.NEEDS) == set(figures.DRAWS)


def test_table_of_an_experiment(tmp_path):
    one = Experiment("e", {"kind": "chain", "size": [2, 3], "seeds": 1, "metrics": {"own": "a.py:f"}})

    def path_of(label, part, name):
        path = tmp_path / f"{label}-{part}-{name}"
        path.write_text(TABLES[name])
        return path

    out = io.StringIO()
    write_table(one, path_of, out)
    assert out.getvalue().splitlines() == [
        "kind,size,seed,operation,losers,left,open,requests,repairs,least_delay,greatest_delay,last_delay,"
        "last_round_trip,own",
        "chain,2,1,0/0/0,2,0,0,2,1,4,7,7,4,8", "chain,2,1,0/0/3,2,0,1,5,4,,,,,8",
        "chain,3,1,0/0/0,2,0,0,2,1,4,7,7,4,8", "chain,3,1,0/0/3,2,0,1,5,4,,,,,8"]
