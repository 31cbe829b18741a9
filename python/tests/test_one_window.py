"""The window of a run that docs/MODEL.md draws."""
from pathlib import Path

import pytest
from one_window import main, way, window_at
from srm_lab.history import History
from srm_lab.reading import load_scenario
from srm_lab.tables import read_trace

ROOT = Path(__file__).resolve().parents[2]
SCENARIO = ROOT / "examples/star-of-unequal-links.toml"
TRACE = ROOT / "examples/star-of-unequal-links.trace.csv"


@pytest.fixture
def history():
    with open(TRACE, newline="", encoding="ascii") as lines:
        return History(load_scenario(SCENARIO), read_trace(lines))


def test_window_ends_at_the_least_promise(history):
    window = window_at(history.given, history.rows, 114)
    assert (window.begin, window.end) == (114, 124)
    assert window.promises == {2: (114, 127), 1: (117, 124), 3: (120, 128)}
    assert [(row.time, row.member) for row in window.rows] == [(114, 2), (117, 1), (120, 3)]


def test_ways_are_to_the_nearest_member(history):
    assert [way(history.given, member) for member in range(4)] == [7, 7, 13, 8]


def test_picture_of_the_model_is_what_is_drawn(capsys):
    main([str(SCENARIO), str(TRACE), "114"])
    assert (ROOT / "docs/pictures/one-window.svg").read_text(encoding="utf-8") == capsys.readouterr().out
