"""What ns-2 is given, and how its rules are named. What both programs do is compared by `make compare-ns2`."""
import pytest

from compare_losses import session, share_of
from compare_ns2 import from_words
from ns2_agent import ALL, HERE, changes, ns2_input, random_words, whole
from srm_lab import read_scenario

CHAIN = ("chain --size 3 --delay 10 --draws 2 --every 50 --drop-link 1 --session-after 7 --until 500 "
         "--c1 2 --c2 0 --d1 1.5 --d2 0")


def test_scenario_as_ns2_reads_it():
    assert ns2_input(from_words(CHAIN), ["ten-doublings"], 4).splitlines() == [
        "constants 2.0 0.0 1.5 0.0", "seed 4", "end 500", "link 0 1 10", "link 1 2 10",
        "member 0", "member 1", "member 2", "draws 2 50", "session 57", "drop 1 0", "rule ten-doublings"]


def test_every_other_packet_is_lost_by_a_cycle():
    lines = ns2_input(from_words(CHAIN), (), 1, (1, 2)).splitlines()
    assert lines[-1] == "cycle 1 2" and not any(line.startswith("drop") for line in lines)


def test_losses_at_random_are_told_link_by_link():
    text = from_words("chain --size 3 --draws 2 --every 50 --loss 0.015")
    assert [line for line in ns2_input(text, (), 1).splitlines() if line.startswith("loss")] == ["loss 0 0.015", "loss 1 0.015"]
    with pytest.raises(AssertionError, match="losses at random or rounds"):
        ns2_input(from_words("chain --size 3 --rounds 2 --drop-link 1 --loss 0.015"), (), 1)
    with pytest.raises(AssertionError, match="one loss of a link"):
        ns2_input(read_scenario(text).lose(rate=0.1, link=1, stream=2).text(), (), 1)


def test_share_that_a_tree_loses_is_that_of_its_ways():
    # node 0 has 4 children, these 3 each, and the last 3 nodes are further away: h links lose 1 - 0.9^h
    shares = [1 - 0.9 ** hops for hops in (1,) * 4 + (2,) * 12 + (3,) * 3]
    assert share_of(session(0.1), 0.1) == pytest.approx(sum(shares) / 19)


def test_times_are_whole_where_they_can_be():
    assert whole("12") == 12 and isinstance(whole("12.0"), int) and whole("12.5") == 12.5


def test_each_rule_has_its_scenario_and_stands_in_the_script():
    script = "".join((HERE / f"ns2/{name}.tcl").read_text() for name in ("srm", "adaptive"))
    assert sorted(path.stem for path in (HERE / "ns2/differences").iterdir()) == sorted(ALL)
    assert [rule for rule in ALL if f"$rules({rule})" not in script] == []


ROUNDS = "chain --size 3 --delay 10 --rounds 3 --drop-link 1 --every 5000 --until 40000 --adaptive"


def test_adaptive_agent_is_told_the_group_and_rounds_are_a_cycle():
    lines = ns2_input(from_words(ROUNDS), (), 4).splitlines()
    assert lines[0] == "constants 2.0 2.0 0.5 1.0" and lines[-3:] == ["draws 6 5000", "adaptive 3", "cycle 1 2"]


def test_limits_and_random_words_are_given():
    lines = ns2_input(from_words(ROUNDS), (), 4, words=7).splitlines()
    assert "limits 0.5 2.0 1.0 3.0 0.5 0.5 1.0 3.0" in lines
    assert [line.split()[:2] for line in lines if line.startswith("words")] == [["words", str(one)] for one in range(3)]


def test_outages_that_are_no_rounds_are_refused():
    with pytest.raises(AssertionError, match="outages are no rounds"):
        ns2_input(from_words("chain --size 3 --draws 4 --every 9 --outage 1:1000-1010"), (), 4)


def test_random_words_are_those_of_the_generator():
    # the demonstration of pcg32 by its author, seeded with 42 and 54
    several = random_words(42, 54)
    assert [next(several) for _ in range(6)] == [0xa15c02b7, 0x7b47f409, 0xba1d3330, 0x83d2f293, 0xbfa4784b, 0xcbed606e]


def test_changes_of_one_tick_are_one_and_constants_that_stay_are_none():
    told = [(0, 1, (5, 5)), (0, 2, (5, 5)), (9, 1, (6, 5)), (9, 1, (6, 7)), (12, 1, (6, 7)), (20, 2, (5, 5))]
    assert changes(told) == {1: [(0, (5, 5)), (9, (6, 7))], 2: [(0, (5, 5))]}
