"""What the figure of constants takes of a run: the nearest and the farthest loser, and constants at the end of a round."""
import constants
import matplotlib.pyplot as plot
import pandas
from constants import after_rounds, ends
from ns2_agent import Result

from srm_lab import scenario


def test_nearest_and_farthest_of_the_losers():
    # the source is on node 0, and link 1 loses: nodes 2 to 4 are behind it
    assert ends(scenario.chain(5).rounds(1, 1)) == {"nearest": 2, "farthest": 4}


def test_constants_at_the_end_of_a_round():
    table = pandas.DataFrame({"time": [0, 40, 90, 100, 250], "member": [1, 1, 2, 1, 1],
                              "c1": [2000, 1950, 7, 1900, 500], "c2": [2000, 2500, 7, 2400, 1000]})
    rows = after_rounds(table, [0, 100, 200], 1)  # the change at tick 100 is one of round 2
    assert rows.values.tolist() == [[1, 1.95, 2.5], [2, 1.9, 2.4], [3, 0.5, 1.0]]


def test_constants_of_ns2_are_a_row_for_each_change(monkeypatch):
    told: dict[int, list[tuple[float, tuple[int, ...]]]] = {
        1: [(0, (2000, 2000, 500, 1000)), (40.5, (1900, 2500, 500, 1000))], 2: [(0, (2000, 2000, 500, 1000))]}
    monkeypatch.setattr(constants, "ns2", lambda text, seed: Result([], {}, told))
    table = constants.of_ns2(scenario.chain(3).adaptive().rounds(1, 1), 1)
    assert list(table.columns) == ["time", "member", "c1", "c2", "d1", "d2"]
    assert after_rounds(table, [0], 1).values.tolist() == [[1, 1.9, 2.5]]
    assert after_rounds(table, [0], 2).values.tolist() == [[1, 2.0, 2.0]]


def test_each_program_has_a_line_for_each_loser():
    # three seeds of one round: the median is the second value
    rows = [{"round": 1, "seed": seed, "end": end, "C1": first + step} for end, first in (("nearest", 0), ("farthest", 10))
            for seed, step in ((1, 1), (2, 2), (3, 6))]
    ours = pandas.DataFrame(rows)
    _, axes = plot.subplots()
    constants.panel(axes, {"srm_lab": ours, "ns-2": ours.assign(C1=ours["C1"] + 20)[ours["seed"] < 3]}, "C1")
    assert {line.get_label(): line.get_ydata().tolist() for line in axes.lines} == {
        "srm_lab, nearest loser: median of the seeds": [2], "srm_lab, farthest loser: median of the seeds": [12],
        "ns-2, nearest loser: median of the seeds": [21.5], "ns-2, farthest loser: median of the seeds": [31.5]}
    bands = [band.get_label() for band in axes.collections]
    assert bands == [f"{name} loser: quartiles of the {seeds} seeds" for name, seeds in (
        ("srm_lab, nearest", 3), ("srm_lab, farthest", 3), ("ns-2, nearest", 2), ("ns-2, farthest", 2))]
    plot.close("all")
