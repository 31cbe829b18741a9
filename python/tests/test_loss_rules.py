"""Rules of losses: whatever the order of the verbs, what was asked for is lost, or the scenario is refused."""
import csv
import io
import itertools
import random

import pytest

from srm_lab import ScenarioError, scenario
from srm_lab.cli import main
from srm_lab.parts import Drop, Outage

SEVEN = scenario.chain(7, members=6, delay=10, seed=2)
SLOW = scenario.chain(3, delay=10).drawing(9, every=100)


def in_order(given, verbs):
    """The text of a scenario after some verbs, or what is told where it is refused."""
    try:
        for name, words in verbs:
            given = getattr(given, name)(**words)
        return given.text()
    except ScenarioError as fault:
        return str(fault)


@pytest.mark.parametrize("given, verbs, told", [
    (scenario.star(101), [("lose", {"every": 10, "link": "adjacent"}), ("drawing", {"count": 100, "every": 10_000_000})],
     "packet 10 of the source is drawn at tick 100000000"),
    (SEVEN, [("lose", {"every": 4, "link": 2}), ("drawing", {"count": 9, "every": 100}), ("adaptive", {"c1": 0.1}),
             ("back", {"delay": 3})], "packet 4 of the source is drawn at tick 400"),
    (SEVEN, [("lose", {"every": 3, "link": 2}), ("drawing", {"count": 20}), ("constants", {"c1": 3, "d1": "log10"}),
             ("back", {"delay": 700})], "drop"),
    # a slow timer mends what a fast one would refuse
    (SEVEN, [("lose", {"every": 4, "link": 2}), ("drawing", {"count": 9, "every": 100}), ("constants", {"c1": 900})], "drop"),
    (SEVEN, [("lose", {"rate": 0.3, "packets": 7}), ("drawing", {"count": 5}), ("delay", {"delay": 40})], "drop"),
    (SEVEN, [("lose", {"rate": 0.3, "sender": 0}), ("drawing", {"count": 50}), ("in_version", {"version": 3})], "drop"),
    (SEVEN, [("lose_operations", {"every": 3, "link": "hops:2"}), ("drawing", {"count": 20, "every": 500}),
             ("delay", {"delay": 30}), ("adaptive", {})], "outage"),
    (SEVEN, [("rounds", {"count": 5, "link": "random"}), ("adaptive", {"d1": "sqrt"}), ("member", {"node": 6}),
             ("back", {"delay": 70})], "outage"),
    (SEVEN, [("rounds", {"count": 5, "link": 3}), ("constants", {"c2": "log10"}), ("member", {"node": 6}),
             ("delay", {"delay": 5, "most": 50})], "outage"),
    (SEVEN, [("rounds", {"count": 3, "link": 1, "every": 100}), ("session", {"at": 7, "member": 2}),
             ("role", {"members": [3], "role": "sender"})], "outage"),
])
def test_the_order_of_verbs_does_not_matter(given, verbs, told):
    node = next(node for node in range(7) if node not in [member.node for member in SEVEN.members])
    verbs = [(name, {**words, "node": node} if name == "member" else words) for name, words in verbs]
    found = {in_order(given, order) for order in itertools.permutations(verbs)}
    # elements of one part stand in the order of the verbs; all else is the same
    assert len({"\n".join(sorted(text.splitlines())) for text in found}) == 1 and told in found.pop()


def test_timers_by_the_number_of_members_are_those_of_all_members():
    # 10 members: log10 is 1, and C2 may rise to 10
    made = scenario.chain(10, members=9).adaptive(d1="log10", c1="sqrt")
    node, = set(range(10)) - {member.node for member in made.members}
    later = made.member(node)
    assert (later.d1, later.c1, later.c2_most) == (1000, 3162, 10_000)
    assert later == scenario.chain(10, members=9).member(node).adaptive(d1="log10", c1="sqrt")
    assert made.constants(c1=4).member(node).c1 == 4000  # what was said last


def test_a_rule_is_remembered_by_draws_that_come_later():
    made = scenario.chain(4).lose(every=3, link=1).drawing(7)
    assert made.settled.drops == tuple(Drop(1, 0, count) for count in (0, 3, 6))
    assert made.drawing(4).settled.drops == (Drop(1, 0, 0), Drop(1, 0, 3))


def test_rounds_go_with_the_draws_that_take_their_place():
    made = scenario.chain(4, delay=10).rounds(2, 1, every=100)
    assert made.settled.outages == (Outage(1, 10, 11), Outage(1, 210, 211))
    assert made.drawing(3).settled.outages == () and made.drawing(3) == scenario.chain(4, delay=10).drawing(3)
    assert made.rounds(1, 2, every=50).settled.outages == (Outage(2, 20, 21),)


def test_what_a_member_asks_for_that_joins_late_counts_before_what_losers_ask_for():
    # member 1 comes after the first draw was at its node, hears the second at 110, and may ask 20 later: the source hears
    # that at 140, and answers at 150 at the earliest; what the far loser asks for comes later
    slow = scenario.chain(3, delay=10).drawing(9, every=100).lose(every=2, link=1, packets=3)
    with pytest.raises(ScenarioError, match="drawn at tick 200, and from tick 200 on"):
        slow.check()
    # at 50 it comes, and not before 70 it asks, is heard at 80 and answered at 90
    with pytest.raises(ScenarioError, match="drawn at tick 200, and from tick 90 on"):
        slow.join([1], at=50).check()
    with pytest.raises(ScenarioError, match="drawn at tick 200, and from tick 200 on"):
        slow.join([1], at=10).check()  # just in time for the first draw


def test_what_is_written_loses_data_and_no_repairs(srm_lab):
    rng, written = random.Random(1), 0
    for seed in range(150):
        made = scenario.random_tree(9, members=6, delay=10, seed=seed).lose(every=rng.randint(2, 6), link="random")
        made = made.drawing(12, every=rng.randint(1, 60)).constants(c1=rng.randint(0, 4), d1=rng.randint(0, 2))
        if seed % 2:
            made = made.join(2, at=(1, 300))
        try:
            text = made.text()
        except ScenarioError:
            continue
        written += 1
        sent = {row["sent"]: row["ref"] for row in csv.DictReader(io.StringIO(srm_lab(text, "--seed", str(seed))))}
        for drop in made.settled.drops:
            assert sent[f"0:{drop.count}"] == f"0/0/{drop.count}", seed
    assert 20 < written < 130


def lost_operations(srm_lab, given, seed=0):
    """The numbers of the operations that somebody lost, in order, and how many packets each link dropped."""
    def rows(table):
        return csv.DictReader(io.StringIO(srm_lab(given.text(), "--seed", str(seed), "--show", table)))
    return [int(row["number"]) for row in rows("operations")], [int(row["dropped"]) for row in rows("links")]


@pytest.mark.parametrize("given, every, operations", [
    (scenario.star(101).drawing(100, every=10_000_000), 10, 100),
    (scenario.star(30, delay=50).adaptive().drawing(60, every=400).session(401), 7, 60),
    (scenario.random_tree(50, members=20, source="random", seed=4).drawing(40, every=3_000), 4, 40),
])
def test_every_kth_operation_is_lost_and_no_other(srm_lab, given, every, operations):
    made = given.lose_operations(every=every, link="adjacent")
    numbers, dropped = lost_operations(srm_lab, made)
    assert numbers == list(range(0, operations, every))
    assert sum(dropped) == len(numbers)  # with this seed no other packet comes to the link in one of these ticks


def test_packets_that_are_counted_miss_what_operations_do_not(srm_lab):
    # the source repairs, or asks nobody: its packets 0, 4 and 8 are not its operations 0, 4 and 8
    by_packets, _ = lost_operations(srm_lab, SLOW.lose(every=4, link=0, any_packet=True))
    by_operations, _ = lost_operations(srm_lab, SLOW.lose_operations(every=4, link=0))
    assert by_packets != by_operations == [0, 4, 8]


def test_operations_of_another_sender_and_the_way_of_their_packets():
    made = scenario.chain(4, delay=10).back(7).role([3], "sender").drawing(0).drawing(5, every=200, start=3, member=3)
    # from node 3 to the far end of link 1 there is link 2 backwards: 7 ticks
    assert made.lose_operations(every=2, link="hops:2", sender=3).settled.outages == (
        Outage(1, 10, 11), Outage(1, 410, 411), Outage(1, 810, 811))


TWO = scenario.chain(4, delay=10).role([3], "sender")


@pytest.mark.parametrize("make, told", [
    # member 3 draws at 10, and comes to link 1 at 20, as the source's first operation does
    (lambda: TWO.drawing(3, every=500, start=10).drawing(1, start=10, member=3).lose_operations(every=2, link=1),
     "an operation of member 3, sent at tick 10, comes to link 1 in the same tick"),
    (lambda: TWO.drawing(3, every=500).draw(0).lose_operations(every=2, link=1), "an operation of member 0, sent at tick 0"),
    (lambda: SLOW.session(410).session(800).lose_operations(every=4, link=0), "a session message of member 0, sent at tick 800"),
    (lambda: SLOW.session(0, member=1).lose_operations(every=4, link=1).drawing(2, every=50, start=10).drawing(
        5, every=50), "nothing"),
    # the first loss is found at 25 + 20 and asked for 40 later or after; the link is out at 10, 60, 110 and 160
    (lambda: scenario.chain(3, delay=10).drawing(8, every=25).lose_operations(every=2, link=1),
     "link 1 is out at tick 60 and again at 110, and from tick 85 on requests"),
    (lambda: scenario.chain(3, delay=10).rounds(4, 1, every=25), "link 1 is out at tick 60 and again at 110"),
    *((lambda words=words: getattr(scenario.chain(4, members=[1]), words[0])(link=2, **words[1]),
       "link 2 is on no way from member 0 to another member") for words in (
        ("lose", {"every": 2}), ("lose_operations", {"every": 2}), ("rounds", {"count": 2}))),
    (lambda: SLOW.lose_operations(every=0, link=0), "every is 0, and has to be 1 to 4096"),
    (lambda: SLOW.lose_operations(every=2, link=2), "there is no link 2"),
    (lambda: SLOW.lose_operations(every=2, link=0, sender=3), "sender is 3, and has to be 0 to 2"),
])
def test_what_else_an_outage_would_take_is_refused(make, told):
    if told == "nothing":
        assert make().check()
        return
    with pytest.raises(ScenarioError) as fault:
        make().text()
    assert told in str(fault.value)


def test_fast_draws_are_over_before_anything_is_asked_for():
    made = scenario.star(20).drawing(100).lose_operations(every=2, link="adjacent")
    assert made.settled.outages == tuple(Outage(0, at, at + 1) for at in range(0, 100, 2))


def test_every_kth_operation_on_the_command_line(capsys):
    words = "star --size 30 --delay 50 --draws 60 --every 400 --drop-link adjacent".split()
    assert main([*words, "--lose-operations", "7"]) == 0
    made = scenario.read(capsys.readouterr().out)
    wanted = scenario.star(30, delay=50).drawing(60, every=400).lose_operations(every=7, link=0)
    assert (made.outages, made.draws, made.drops) == (wanted.settled.outages, wanted.draws, ())
    assert main([*words, "--drop-every", "7"]) == 1
    assert "lose_operations" not in (told := capsys.readouterr().err) and "--lose-operations goes by operations" in told


@pytest.mark.parametrize("words, told", [
    ("--lose-operations 2", "--drop-every, --drop-packet and --lose-operations need --drop-link"),
    ("--lose-operations 2 --drop-every 2 --drop-link 0", "--drop-every and --lose-operations exclude each other"),
    ("--lose-operations 2 --rounds 2 --drop-link 0", "leave out --lose-operations"),
    ("--lose-operations 0 --drop-link 0", "--lose-operations is 0, and has to be 1 to 4096"),
    # the loss of the first packet is asked for, whichever option says so
    ("--draws 9 --every 100 --drop-link 1 --drop-packet 4 --outage 0:0-0", "packet 4 of the source is drawn at tick 400, and"),
    ("--draws 9 --every 100 --drop-link 1 --drop-packet 4 --loss 0.1", "packet 4 of the source is drawn at tick 400, and"),
])
def test_losses_that_the_command_line_refuses(words, told, capsys):
    assert main(["chain", "--size", "3", "--delay", "10", *words.split()]) == 1
    assert told in capsys.readouterr().err
