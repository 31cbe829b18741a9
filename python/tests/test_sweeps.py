"""Sweeps: a table with a column for each parameter, whatever makes the scenarios."""
import hashlib
import json

import pandas
import pytest

from srm_lab import RefusedError, ScenarioError, paired, run, save, scenario, summarise, sweep
from srm_lab.runs import chunks_of


def chain(nodes, c2=0):
    """A chain whose last link loses the first packet: the last member's request timer is C1 times its distance."""
    return scenario.chain(nodes, delay=10).constants(c2=c2, d2=0).drawing(0).draw(0).draw(50).drop(nodes - 2, 0)


@pytest.fixture
def words(program):
    return {"program": program, "cache": None, "workers": 2}


def test_table_has_a_column_for_each_parameter(words):
    found = sweep({"nodes": [3, 5], "c2": range(2)}, chain, seeds=[4, 6], **words)
    assert list(found.columns[:4]) == ["nodes", "c2", "seed", "member"]
    assert found[["nodes", "c2", "seed", "member", "round_trip"]].values.tolist() == [
        [nodes, c2, seed, nodes - 1, 20 * (nodes - 1)] for nodes in (3, 5) for c2 in (0, 1) for seed in (4, 6)]
    alone = run(chain(5, 1), [4, 6], program=words["program"], cache=None).losses
    of_one = found.query("nodes == 5 and c2 == 1").drop(columns=["nodes", "c2"]).reset_index(drop=True)
    pandas.testing.assert_frame_equal(of_one, alone)


def test_networks_are_made_anew_for_each_seed_where_the_function_takes_it(words):
    found = sweep({"nodes": [12]}, scenario.random_tree, seeds=[3, 8], tables="links", **words)
    for seed in (3, 8):
        links = scenario.random_tree(12, seed=seed).tree.links
        assert found[found["seed"] == seed][["a", "b"]].values.tolist() == [[link.a, link.b] for link in links]


def test_constants_and_named_scenarios_need_no_function(words):
    found = sweep({"c1": [2, 3], "network": {"short": chain(3), "long": chain(5)}}, **words)
    # detected at the same tick by both, asked for after C1 times the distance, repaired after one link and D1 times it
    assert found[["c1", "network", "delay"]].values.tolist() == [
        [c1, network, c1 * distance + 10 + 10 + 10] for c1 in (2, 3) for network, distance in (("short", 20), ("long", 40))]
    one = sweep({"c1": [3]}, chain(3), **words)
    assert one[["c1", "delay"]].values.tolist() == [[3, 90]]


def test_several_tables_are_a_dict_of_them(words):
    found = sweep({"nodes": [3]}, chain, tables=["losses", "operations"], **words)
    assert list(found) == ["losses", "operations"] and found["operations"]["requests"].tolist() == [1]


def test_names_stand_in_the_column_and_values_go_to_the_function(words):
    found = sweep({"shape": {"chain": scenario.chain, "star": scenario.star}}, lambda shape: shape(5),
                  tables="members", **words)
    assert found.groupby("shape").size().to_dict() == {"chain": 5, "star": 4}


def test_one_value_needs_no_list(words):
    assert sweep({"nodes": 3, "c2": 0}, chain, **words)[["nodes", "c2"]].values.tolist() == [[3, 0]]


def test_groups_and_pairs_of_a_sweep(words):
    star = scenario.star(12).lose(every=2, link="adjacent")
    found = sweep({"c2": [1, 32]}, star, seeds=6, tables="operations", **words)
    means = summarise(found, "requests / losers", by="c2")
    more = paired(found[found["c2"] == 32], found[found["c2"] == 1], "requests / losers")
    assert more.difference.low > 0  # with C2 = 1 all of them ask
    assert more.difference.mean == pytest.approx(means.loc[1, "mean"] - means.loc[32, "mean"])


def test_sweep_says_what_it_is_of(words, tmp_path):
    found = sweep({"nodes": [3, 5]}, chain, seeds=2, **words)
    both = hashlib.sha256((chain(3).digest() + chain(5).digest()).encode()).hexdigest()
    assert (found.attrs["seeds"], found.attrs["parameters"], found.attrs["scenario"]) == ([0, 1], {"nodes": [3, 5]}, both)
    save(found, tmp_path / "sweep.csv")
    assert json.loads((tmp_path / "sweep.json").read_text()) == found.attrs


def test_rows_do_not_depend_on_the_workers(words):
    grid = {"nodes": [3, 4, 5], "c2": [0, 1, 2]}
    one, two = (sweep(grid, chain, seeds=5, **words | {"workers": workers}) for workers in (1, 3))
    pandas.testing.assert_frame_equal(one, two)


def test_bar_counts_the_runs(words, capsys):
    sweep({"nodes": [3, 5]}, chain, seeds=3, progress=True, **words)
    assert "6/6" in capsys.readouterr().err


@pytest.mark.parametrize("parameters, make, told", [
    ([("c2", 1)], chain(3), "parameters are a list, and have to be a dict of names and values"),
    ({"c2": []}, chain(3), "parameter c2 has no value, or one twice"),
    ({"c2": [1, 1]}, chain(3), "parameter c2 has no value, or one twice"),
    ({"cc2": [1]}, chain(3), "parameter 'cc2' is no constant of timers .did you mean 'c2'"),
    ({"network": [chain(3), chain(5)]}, None, "a Scenario cannot stand in a column: give a dict"),
    ({"c2": [0]}, None, "a sweep needs a function that gives the scenario, or a scenario"),
    ({"c2": [0]}, "chain", "a sweep needs a function that gives the scenario, or a scenario"),
    ({"c2": [0], "network": {"a": chain(3)}}, chain(3), "a sweep needs a function that gives the scenario, or a scenario"),
    ({"node": [3]}, chain, "the table losses has a column 'node' besides this parameter"),
    ({"seed": [3]}, chain, "the table losses has a column 'seed' besides this parameter"),
    ({"size": [3]}, chain, "does not fit the parameters: "),
    ({"nodes": [3, 0]}, chain, "nodes = 0: size is 0"),
    ({"nodes": [3]}, lambda nodes: None, "nodes = 3: the function gave a NoneType, and has to give a Scenario"),
    ({"nodes": [3]}, lambda nodes, seed: scenario.chain(seed - 1), "nodes = 3, seed = 0: size is -1"),
])
def test_what_is_no_sweep(parameters, make, told, words):
    with pytest.raises((ScenarioError, TypeError), match=told):
        sweep(parameters, make, **words)


def test_refusal_of_the_program_tells_the_point(tmp_path):
    path = tmp_path / "srm_lab"
    path.write_text('#!/bin/sh\necho "refused: no-memory" >&2\nexit 1\n')
    path.chmod(0o755)
    for workers in (1, 2):
        with pytest.raises(RefusedError, match="no-memory") as fault:
            sweep({"nodes": [3, 5]}, chain, program=path, cache=None, workers=workers)
        assert fault.value.__notes__ == ["refused at nodes = 3"]


@pytest.mark.parametrize("count, several, sizes", [
    (1, 1, [1]), (5, 2, [2, 1, 1, 1]), (20, 2, [5, 4, 3, 2, 2, 1, 1, 1, 1]), (40, 1, [16, 12, 6, 3, 2, 1])])
def test_parts_of_a_sweep_get_shorter(count, several, sizes):
    jobs = [(number, (0,)) for number in range(count)]
    parts = list(chunks_of(jobs, several))
    assert [job for part in parts for job in part] == jobs
    assert [len(part) for part in parts] == sizes


@pytest.mark.parametrize("nodes, workers, shared", [([3, 4, 5, 6, 7], 4, ["1", "1", "1", "1", "4"]), ([3, 4, 5], 8, ["2"] * 3),
                                                    ([3, 4, 5, 6], 2, ["1"] * 4), ([3], 3, ["3"])])
def test_what_is_left_for_the_last_round_shares_all_processors(nodes, workers, shared, program, tmp_path):
    path, log = tmp_path / "srm_lab", tmp_path / "log"
    path.write_text(f'#!/bin/sh\ntest "$1" = --version || echo "$@" >> {log}\nexec {program} "$@"\n')
    path.chmod(0o755)
    sweep({"nodes": nodes}, chain, seeds=6, program=path, cache=None, workers=workers)
    assert sorted(line.split("--workers ")[1].split()[0] for line in log.read_text().splitlines()) == shared
