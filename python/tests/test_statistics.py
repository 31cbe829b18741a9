"""Statistics over seeds, with numbers worked out by hand or from tables of Student's t."""
import math

import numpy
import pandas
import pytest
from scipy import stats

from srm_lab import ScenarioError, difference, interval, paired, run, scenario, statistics, summarise


def test_values_that_are_all_the_same_have_no_width():
    for method in ("t", "bootstrap"):
        one = interval([5, 5, 5], method)
        assert (one.mean, one.low, one.high) == (5, 5, 5)


def test_students_interval():
    # mean 3, standard deviation 1.5811, t for 4 degrees of freedom 2.7764: 3 -+ 2.7764 * 1.5811 / sqrt(5)
    one = interval([1, 2, 3, 4, 5])
    assert one.mean == 3
    assert (one.low, one.high) == (pytest.approx(1.0368, abs=1e-4), pytest.approx(4.9632, abs=1e-4))


def test_bootstrap_interval_is_within_the_values_and_the_same_again():
    one = interval([0, 0, 0, 10], "bootstrap")
    assert one.mean == 2.5 and 0 <= one.low < one.mean < one.high <= 10
    assert one == interval([0, 0, 0, 10], "bootstrap")


def test_one_value_has_no_interval():
    one = interval([7.0])
    assert one.mean == 7 and math.isnan(one.low) and math.isnan(one.high)


@pytest.mark.parametrize("words, told", [({"method": "z"}, "one of t, bootstrap"), ({"level": 95}, "between 0 and 1")])
def test_intervals_that_are_refused(words, told):
    with pytest.raises(ScenarioError, match=told):
        interval([1, 2], **words)


def test_welchs_interval_of_two_independent_samples():
    # variances 1 and 4 of 3 and 3 values: standard error sqrt(5 / 3), 2.94 degrees of freedom, t 3.2184
    one = difference([1, 2, 3], [4, 6, 8])
    assert one.mean == 4
    assert (one.low, one.high) == (pytest.approx(4 - 4.155, abs=2e-3), pytest.approx(4 + 4.155, abs=2e-3))
    # its end is at 0 where its level is one less the chance of scipy's own test
    chance = stats.ttest_ind([1, 2, 3], [4, 6, 8], equal_var=False).pvalue
    assert difference([1, 2, 3], [4, 6, 8], level=1 - chance).low == pytest.approx(0, abs=1e-9)
    assert difference([1, 1], [3, 3]).low == 2


LOSSES = pandas.DataFrame({
    "c2": [0] * 4 + [1] * 4, "seed": [1, 1, 1, 2, 1, 2, 2, 2], "round_trip": [2] * 4 + [4] * 4,
    "delay": pandas.array([10, 10, 10, 20, 4, 8, 8, None], dtype="Int64"), "ended": ["recovered"] * 7 + ["left"]})


def test_replications_are_seeds_and_not_losses():
    # seed 1 has three losses of 10, seed 2 one of 20: the mean over seeds is 15, and not 12.5
    one = summarise(LOSSES[LOSSES["c2"] == 0], "delay")
    assert (one["mean"], one["seeds"], one["values"], one["left_out"]) == (15, 2, 4, 0)
    assert one["high"] == pytest.approx(15 + 12.7062 * 5, abs=1e-3)


def test_rows_without_a_value_are_counted():
    one = summarise(LOSSES[LOSSES["c2"] == 1], "delay")
    assert (one["mean"], one["values"], one["left_out"]) == (6, 3, 1)


def test_expressions_by_groups_are_those_of_pandas_own_words():
    found = summarise(LOSSES, "delay / round_trip", by=["c2"])
    assert found["mean"].to_dict() == {0: 7.5, 1: 1.5} and found["left_out"].tolist() == [0, 1]
    applied = LOSSES.groupby("c2").apply(summarise, "delay / round_trip")
    pandas.testing.assert_frame_equal(applied, found, check_dtype=False)
    assert found.loc[1, "high"] == pytest.approx(1.5 + 12.7062 * 0.5, abs=1e-3)
    # of seed 2 one loss of three ended so, of seed 1 none
    assert summarise(LOSSES, "ended == 'left'", by="c2").loc[1, "mean"] == pytest.approx(1 / 6)


def test_statistics_of_a_seed_other_than_the_mean():
    found = summarise(LOSSES, "delay", by="c2", statistic=["max", 0.5, len])
    assert found["mean"].to_dict() == {(0, "max"): 15, (0, "q50"): 15, (0, "len"): 2,
                                       (1, "max"): 6, (1, "q50"): 6, (1, "len"): 2}


def test_group_of_nothing_has_no_row():
    assert summarise(LOSSES[:0], "delay", by="c2").empty and summarise(LOSSES[:0], "delay")["seeds"] == 0


def test_ends_of_a_seed_are_quantiles():
    found = summarise(LOSSES[LOSSES["c2"] == 1], "delay", statistic=[0, 0.25, 1])
    assert found["mean"].to_dict() == {"q0": 6, "q25": 6, "q100": 6}  # of seed 1 a 4 alone, of seed 2 8 and 8


# delays of two settings: of seed 1 1, 2, 9 and 4, 6, 20, of seed 2 3, 5, 7, 9 and 3, 7, 7, 15
FIRST = pandas.DataFrame({"seed": [1, 1, 1, 2, 2, 2, 2], "delay": [1, 2, 9, 3, 5, 7, 9]})
SECOND = FIRST.assign(delay=[4, 6, 20, 3, 7, 7, 15])


@pytest.mark.parametrize("statistic, first, second", [
    ("mean", [4, 6], [10, 8]), ("median", [2, 6], [6, 7]), (0.5, [2, 6], [6, 7]), (0.25, [1.5, 4.5], [5, 6]),
    ("max", [9, 9], [20, 15]), (1, [9, 9], [20, 15]), (lambda values: values.max() - values.min(), [8, 6], [16, 12])])
def test_pairs_of_a_statistic(statistic, first, second):
    found = paired(FIRST, SECOND, "delay", statistic=statistic)
    assert found.table["first"].tolist() == first and found.table["second"].tolist() == second
    assert found.difference == interval([right - left for left, right in zip(first, second)])
    grouped = paired(FIRST.assign(c2=3), SECOND.assign(c2=3), "delay", by="c2", statistic=statistic).loc[3]
    assert grouped[["mean", "first", "second"]].tolist() == [found.difference.mean, sum(first) / 2, sum(second) / 2]


def test_statistic_of_pairs_is_the_mean_if_none_is_named():
    assert paired(FIRST, SECOND, "delay").difference == paired(FIRST, SECOND, "delay", statistic="mean").difference
    assert paired(FIRST, SECOND, "delay").difference.mean == 4  # of 6 and 2
    one = paired(FIRST, SECOND, "delay", statistic=0.95)
    first, second = ([numpy.quantile(setting.query("seed == @seed")["delay"], 0.95) for seed in (1, 2)]
                     for setting in (FIRST, SECOND))
    assert one.table["first"].tolist() == pytest.approx(first) and one.table["second"].tolist() == pytest.approx(second)
    assert (one.difference.low, one.difference.high) == pytest.approx(
        tuple(stats.ttest_rel(second, first).confidence_interval(0.95)))


@pytest.mark.parametrize("given, told", [
    ("Median", "statistic is 'Median' .did you mean 'median'.., and has to be one of mean, median, min"),
    ("med", "did you mean 'median'"), ("mode", "statistic is 'mode'"), (1.5, "statistic is 1.5, and has to be one of mean"),
    (-0.1, "a quantile between 0 and 1, or a function"), (math.nan, "statistic is nan"), (True, "statistic is True"),
    (None, "statistic is None"), (["mean"], "statistic is .'mean'. .did you mean 'mean'")])
def test_statistics_that_are_refused(given, told):
    for ask in (lambda: summarise(LOSSES, "delay", by="c2", statistic=["mean", given]),
                lambda: paired(FIRST, SECOND, "delay", statistic=given)):
        with pytest.raises(ScenarioError, match=told):
            ask()


def test_words_of_statistics_are_known_to_pandas():
    found = summarise(LOSSES, "delay", statistic=statistics.WORDS)
    assert found.index.tolist() == [*statistics.WORDS] and found.loc["median", "mean"] == summarise(
        LOSSES, "delay", statistic="median")["mean"]


@pytest.mark.parametrize("ask", [lambda given: summarise(given, "delay"), lambda given: paired(LOSSES, given, "delay")])
def test_what_is_no_table(ask):
    with pytest.raises(TypeError, match="a list was given, and has to be a table .a DataFrame. or runs"):
        ask([1, 2])
    with pytest.raises(TypeError, match=r"a dict was given, .* or runs: take one table, as tables\['losses'\]"):
        ask({"losses": LOSSES, "links": LOSSES})


@pytest.mark.parametrize("words, told", [
    ({"expression": "lag"}, "there is no column 'lag': there are c2, seed"),
    ({"expression": "dealy / 2"}, "no column 'dealy' .did you mean 'delay'"),
    ({"expression": "delya"}, "no column 'delya' .did you mean 'delay'"),
    ({"expression": "delay +"}, "'delay .' gives no number for each row"),
    ({"expression": "ended"}, "'ended' gives no number for each row"),
    ({"expression": "delay", "by": ["sede"]}, "no column 'sede' .did you mean 'seed'"),
])
def test_what_cannot_be_summarised(words, told):
    with pytest.raises(ScenarioError, match=told):
        summarise(LOSSES, **words)


def test_settings_are_compared_seed_by_seed(program):
    given = scenario.star(12).lose(every=2, link="adjacent")
    few, many = (run(given.constants(c2=c2), range(6), tables=["operations"], program=program, cache=None)
                 for c2 in (32, 1))
    found = paired(few, many, "requests")
    assert len(found.table) == 6 and found.difference.low > 0  # with C2 = 1 all of them ask
    assert found.difference.mean == pytest.approx(found.table["second"].mean() - found.table["first"].mean())


def test_other_seeds_cannot_be_paired(program):
    first, second = (run(scenario.chain(3).drop(0, 0), seeds, program=program, cache=None) for seeds in ([1], [2]))
    with pytest.raises(ScenarioError, match="the same seeds"):
        paired(first, second, "delay")
