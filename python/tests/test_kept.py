"""What a sweep makes once: scenarios, networks, and what is made of a tuple."""
import hashlib
from typing import Any

import pandas
import pytest

from srm_lab import ScenarioError, scenario, sweep, tree
from srm_lab.kept import kept_of


def test_scenario_of_a_point_is_made_once(program, tmp_path):
    log = tmp_path / "log"

    def make(nodes):
        with open(log, "a", encoding="ascii") as lines:
            lines.write(f"{nodes}\n")
        return scenario.chain(nodes)

    for workers in (1, 2):
        log.write_text("")
        sweep({"nodes": [3, 4, 5]}, make, seeds=4, program=program, cache=None, workers=workers)
        assert sorted(log.read_text().split()) == ["3", "4", "5"]


def test_scenarios_that_are_the_same_for_all_seeds_are_one(program, tmp_path):
    def make(shape, seed):
        return scenario.star(5, seed=seed) if shape == "star" else scenario.random_tree(5, seed=seed)

    words = {"tables": "members", "program": program}
    found = sweep({"shape": ["star", "tree"]}, make, seeds=6, cache=tmp_path, **words)
    assert len([*tmp_path.iterdir()]) == 1 + 6
    assert found[["shape", "seed"]].drop_duplicates().values.tolist() == [
        [shape, seed] for shape in ("star", "tree") for seed in range(6)]
    alone = sweep({"shape": ["tree"]}, make, seeds=[4], cache=None, **words)
    same = found.query("shape == 'tree' and seed == 4").reset_index(drop=True)
    pandas.testing.assert_frame_equal(alone, same)


def test_networks_that_were_asked_for_are_kept_and_others_are_made():
    assert scenario.star(9) is scenario.star(9) and scenario.star(9) is not scenario.star(9, seed=1)
    wrong: Any
    for wrong, told in ((9.0, "size is 9.0"), ([9], "size is .9")):
        with pytest.raises(ScenarioError, match=told):
            scenario.star(wrong)
    assert scenario.random_tree(9, members=3, seed=2).tree is scenario.random_tree(9, members=8, seed=2).tree
    assert scenario.star(9).tree is scenario.star(9, members=4, seed=1).tree is not scenario.star(9, delay=7).tree
    first = scenario.chain(1000)
    for delay in range(1, 101):
        scenario.chain(1000, delay=delay)
    assert scenario.chain(1000) is not first  # as many as 100,000 nodes are kept


def test_network_of_a_seed_is_made_once_for_all_points(program, monkeypatch):
    """Though few of all networks are kept. Rows and digests are in the order of the points."""
    made = []
    random_labelled = tree.random_labelled

    def counted(*given):
        made.append(given)
        return random_labelled(*given)

    monkeypatch.setattr(tree, "random_labelled", counted)
    monkeypatch.setattr("srm_lab.kept.MOST", 50)

    def make(c2, seed):
        return scenario.random_tree(20, seed=seed).constants(c2=c2)

    found = sweep({"c2": [0, 1, 2]}, make, seeds=9, tables="members", program=program, cache=None, workers=1)
    assert len(made) < 2 * 9
    points = [(c2, seed) for c2 in (0, 1, 2) for seed in range(9)]
    assert [*found[["c2", "seed"]].drop_duplicates().itertuples(index=False, name=None)] == points
    digests = "".join(make(*point).digest() for point in points)
    assert found.attrs["scenario"] == hashlib.sha256(digests.encode()).hexdigest()


def test_what_is_made_of_a_tuple_is_kept_for_it_and_for_no_other():
    made = []

    @kept_of
    def total(several, more):
        made.append(several)
        return sum(several) + sum(more)

    one, other = (1, 2), tuple([1, 2])
    assert [total(one, [3]), total(one, [3]), total(other, [3]), total(one, iter([4])), total(one, iter([5]))] == [6, 6, 6, 7, 8]
    assert len(made) == 4
    assert [*map(type, (total(one, [1]), total(one, [True]), total(one, [1.0])))] == [int, int, float]


def test_members_who_leave_are_those_that_are_named():
    given = scenario.chain(9)
    assert given.leave(3, at=(5, 9)).members is given.leave(3, at=(5, 9)).members
    for member in (4, 5):
        found = given.leave((one for one in [member]), at=7)
        assert [place for place, one in enumerate(found.members) if one.leave == 7] == [member]
