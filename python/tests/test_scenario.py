"""Scenarios: read and written without loss, built by verbs, and refused as the format refuses them."""
import importlib.util
import sys
import tomllib
from dataclasses import replace
from pathlib import Path
from typing import cast

import pytest

from srm_lab import ScenarioError, read_scenario, scenario
from srm_lab.parts import Drop, Outage
from srm_lab.repetition import APART, expanded

ROOT = Path(__file__).resolve().parents[2]
FILES = sorted([*(ROOT / "examples").glob("*.toml"), *(ROOT / "tests/scenarios").glob("*.toml")])


def refusals():
    """The texts of tests/program/refusals.txt, each with what the program answers."""
    sys.path.insert(0, str(ROOT / "tests/program"))  # for the modules that it uses
    spec = importlib.util.spec_from_file_location("refusals", ROOT / "tests/program/refusals.py")
    assert spec is not None and spec.loader is not None
    module = importlib.util.module_from_spec(spec)
    spec.loader.exec_module(module)
    return list(module.cases(module.CASES.read_text(encoding="utf-8")))


def answer_of(text):
    """What the program would say, from what the package says."""
    try:
        read_scenario(text)
    except ScenarioError as fault:
        if fault.part is None:
            return "not-toml"
        if fault.part == "tree":
            return "not-tree"
        return f"{fault.part} {fault.place}"
    return "accepted"


@pytest.mark.parametrize("number, text, answer", refusals(), ids=lambda value: value if isinstance(value, int) else "")
def test_package_refuses_what_the_program_refuses_and_nothing_else(number, text, answer):
    wanted = answer.removeprefix("bad-key ").removeprefix("bad-")
    assert answer_of(text) == wanted


def defaults_left_out(table):
    """A file's table without the keys that say what holds without them, and with each of its elements."""
    table = {key: value for key, value in table.items() if value != []}
    table |= {part: expanded(part, table[part]) for part in APART if part in table}
    for member in table.get("member", []):
        if member.get("join") == 0:
            del member["join"]
    for link in table.get("link", []):
        if link.get("back") == link["delay"]:
            del link["back"]
    return table


@pytest.mark.parametrize("path", FILES, ids=lambda path: path.stem)
def test_file_is_read_and_written_without_loss(path):
    given = scenario.load(path)
    assert defaults_left_out(given.table()) == defaults_left_out(tomllib.loads(path.read_text()))
    assert read_scenario(given.text()) == given


def test_names_of_nodes_and_comments_stand_in_the_file():
    import networkx
    given = scenario.from_graph(networkx.Graph([("home", "the office"), ("the office", "lab")]), delays=7)
    given = replace(given, until=given.end, version=1, comments=("first", "", "third"))
    assert read_scenario(given.text()) == given
    assert read_scenario(given.text()).tree.names == ("home", "the office", "lab")


@pytest.mark.parametrize("line", ["names of nodes: of what?", "names of nodes: 7", 'names of nodes: ["a", "a", "b"]'])
def test_comment_that_only_looks_like_names_stays_a_comment(line):
    import networkx
    given = replace(scenario.from_graph(networkx.path_graph(3), delays=7), comments=(line,))
    text = given.text().replace('# names of nodes: ["0", "1", "2"]\n', "")
    assert read_scenario(text).comments == (line,) and read_scenario(text).tree.names == ()
    assert read_scenario(given.text()).tree.names == ("0", "1", "2")


def test_every_part_of_the_format_can_be_built(srm_lab):
    given = (scenario.chain(9, members=3, delay=10, seed=4).constants(c1=1.5, c2="log10", d1=1, d2=0)
             .back(5, most=20).drawing(4, every=7)
             .member(next(node for node in range(9) if node not in taken(9, 4)), role="listener", leave=500)
             .role([1], "late", pages=[0, 3]).join([1], at=15).role([2], "sender")
             .drawing(2, every=9, start=3, member=2, page=6).draw(40, member=2, page=6, ink=99).session(60, member=1)
             .drop(0, [1, 3]).outage(1, first=20, last=29).leave([2], at=(80, 90)).ends(4000))
    table = tomllib.loads(given.text())
    assert set(table) == {"version", "until", "c1", "c2", "d1", "d2", "nodes", "link", "member", "draw", "session",
                          "drop", "outage"}
    assert (table["version"], table["c1"], table["until"]) == (2, 1500, 4000)
    assert table["member"][1] | {"node": 0} == {
        "node": 0, "role": "late", "stream": 2, "join": 15, "pages": [0, 3]}
    assert 80 <= table["member"][2]["leave"] <= 90
    assert table["outage"] == [{"link": 1, "from": 20, "to": 30}]
    assert {"member": 2, "page": 6, "ink": 99, "at": 40} in table["draw"]
    assert srm_lab(given.text()).startswith("time,member")


def taken(nodes, seed):
    """The nodes of the members of a chain of three members."""
    return {member.node for member in scenario.chain(nodes, members=3, delay=10, seed=seed).members}


def test_listed_losses_at_random_are_those_of_a_rate_and_a_seed():
    given = replace(scenario.chain(11, seed=3).drawing(400), version=3)
    drops = given.lose(rate=0.1).settled.drops
    # 10 links and 400 packets: 400 drops expected, with a standard deviation of 19
    assert 300 < len(drops) < 500 and len(set(drops)) == len(drops)
    assert drops == given.lose(rate=0.1).settled.drops != given.lose(rate=0.1, seed=4).settled.drops
    assert given.lose(rate=0).settled.drops == ()
    assert given.lose(rate=1, link=2, packets=3).settled.drops == (Drop(2, 0, 0), Drop(2, 0, 1), Drop(2, 0, 2))


def test_every_third_packet_is_lost():
    assert scenario.chain(4).drawing(7).lose(every=3, link="hops:2").settled.drops == tuple(
        Drop(1, 0, count) for count in (0, 3, 6))


SLOW = scenario.chain(3, delay=10).drawing(9, every=100)  # from member 0 to member 2 it is 20 ticks


@pytest.mark.parametrize("given, words, tick", [
    # member 1 finds its loss at 110, asks at 130, is heard at 140 and answered at 150; member 2 at 120, 160, 180 and 200
    (SLOW, {"every": 4, "link": 0}, 150),
    (SLOW, {"every": 4, "link": 1}, 200),
    (SLOW.constants(c1=0.5, d1=0.1), {"every": 4, "link": 0}, 126),
    # the first packet is lost on the other link too
    (SLOW.drop(0, 0), {"every": 8, "link": 1}, 150),
    (SLOW.outage(0, 0, 0), {"every": 8, "link": 1}, 150),
    (SLOW.session(60), {"every": 4, "link": 0}, 60),
    # no sooner than the lost draw would, member 1 tells member 2 of it: 20, 60, 80 and 100
    (SLOW.session(60, member=1), {"every": 4, "link": 1}, 100),
    # member 2 draws at 0 and at 5; member 1 finds its loss at 15, asks at 35, is heard at 45 and answered at 55
    (SLOW.role([2], "sender").draw(0, 2).draw(5, 2).drop(1, 0, sender=2), {"every": 4, "link": 0}, 55),
    # member 2 comes at 30, and asks for what was before at 70
    (SLOW.role([2], "late", pages=[0]).join([2], at=30), {"every": 4, "link": 0}, 110),
])
def test_data_is_lost_and_no_repair_in_place_of_it(given, words, tick):
    with pytest.raises(ScenarioError, match=rf"packet \d of the source is drawn at tick \d00, and from tick {tick} on"):
        given.lose(**words).text()


def test_losses_of_one_of_several_senders():
    given = scenario.chain(6, seed=3).role([4], "sender").drawing(50).drawing(30, member=4)
    assert given.lose(every=10, link="adjacent", sender=4).settled.drops in (
        tuple(Drop(link, 4, count) for count in (0, 10, 20)) for link in (3, 4))
    given = replace(given, version=2)
    assert {drop.sender for drop in given.lose(rate=0.2).settled.drops} == {0, 4}
    of_one = given.lose(rate=0.2, sender=4).settled.drops
    assert {drop.sender for drop in of_one} == {4} and set(of_one) <= set(given.lose(rate=0.2).settled.drops)


def test_outage_has_both_its_ticks():
    assert scenario.chain(2).outage(0, first=800, last=1200).outages == (Outage(0, 800, 1201),)


def test_one_seed_gives_one_scenario_and_verbs_choose_apart():
    def made(seed):
        return scenario.random_tree(30, members=20, seed=seed).leave(5, at=(100, 190)).join(5, at=(10, 90)).text()
    assert made(1) == made(1) != made(2)
    given = scenario.chain(40, seed=1)
    assert [member.leave for member in given.leave(9, at=(1, 999)).members] != [
        member.join or None for member in given.join(9, at=(1, 999)).members]


@pytest.mark.parametrize("make, told", [
    (lambda: scenario.chain(3).draw(5, member=1), "draw 100: `member` is 1, a receiver, and only senders draw"),
    (lambda: scenario.chain(3).drop(2, 0), "drop 0: there is no link 2: the network has 2"),
    (lambda: scenario.chain(3).outage(0, 9, 8), "outage 0: `from` is 9, and has to be below `to`, 9"),
    (lambda: scenario.chain(3).leave([1], 0), "member 1: `leave` is 0, and has to be 1 to 1099511627776"),
    (lambda: scenario.chain(3).leave([1], 7).session(8, member=1), "which is after member 1 leaves at 7"),
    (lambda: scenario.chain(3).member(0), "`node` is 0, on which member 0 is: a node has one member"),
    (lambda: scenario.star(3).member(0), "`node` is 0, the hub of the star"),
    (lambda: scenario.chain(3).role([1], "receiver", pages=[]), "only a late member has wanted pages"),
    (lambda: scenario.chain(3).role([1], "speaker"), "`role` is 'speaker', and has to be sender, receiver"),
    (lambda: scenario.chain(3).leave(3, 5), "leave: members is 3, and has to be 0 to 2"),
    (lambda: scenario.chain(3).leave([7], 5), "there is no member 7: there are 3"),
    (lambda: scenario.chain(3).leave([1], (9, 5)), "its first tick is after its last"),
    (lambda: scenario.chain(3).lose(), "give either a rate or every"),
    (lambda: scenario.chain(3).lose(every=2), "every needs a link"),
    (lambda: scenario.chain(3).lose(rate=0.5, sender=3), "sender is 3, and has to be 0 to 2"),
    (lambda: scenario.chain(3).lose(rate=1.5), "rate is 1.5, and has to be from 0 to 1"),
    (lambda: scenario.chain(900).lose(rate=1, packets=100).text(), "`drop` has 89900 elements, and may have 65535"),
    (lambda: scenario.chain(3).lose(rate=1e-7), "rate is 1e-07, which has more than six decimals"),
    (lambda: scenario.chain(3).lose(rate=float("nan")), "rate is nan, and has to be from 0 to 1"),
    (lambda: scenario.chain(3).lose(rate=True), "rate is True, and has to be from 0 to 1"),
    (lambda: scenario.chain(3).lose(rate=0.5, link=2), "there is no link 2: the network has 2"),
    (lambda: scenario.chain(3).lose(rate=0.5, stream=-1), "stream is -1, and has to be 0 to 9223372036854775807"),
    (lambda: scenario.chain(3).lose(rate=0.5, first=cast(int, "5")), "first is '5', and has to be a whole number"),
    (lambda: scenario.chain(3).lose(rate=0.5, first=9, last=8), "loss 0: `from` is 9, and has to be below `to`, 9"),
    (lambda: replace(scenario.chain(3), version=6).lose(rate=0.5), "`version` is 6, and has to be 1 to 5"),
    (lambda: scenario.chain(3).lose(rate=0.5, stream=1, sender=0), "losses at random, which know no sender"),
    (lambda: scenario.chain(3).lose(every=2, link=0, first=5), "stream, first, last, burst and spares_draws go with a rate"),
    (lambda: replace(scenario.chain(3).lose(rate=0.5), version=3).check(), "`loss` is no key here before version 4"),
    (lambda: scenario.chain(3).constants(c3=1), "c3: the constants are c1, c2, d1 and d2"),
    (lambda: scenario.chain(3).constants(c1_lesat=1), "c1_lesat: the constants are c1, c2, d1 and d2 (did you mean 'c1_least'?)"),
    (lambda: scenario.chain(3).role([1], "recevier"), "has to be sender, receiver, late, listener (did you mean 'receiver'?)"),
    (lambda: read_scenario(scenario.chain(3).text().replace("delay", "dealy")), "`dealy` is no key here (did you mean 'delay'?)"),
    (lambda: read_scenario(scenario.chain(3).text().replace("delay", "delya")), "`delya` is no key here (did you mean 'delay'?)"),
    (lambda: scenario.chain(3).constants(c1=1025), "1025 in thousandths is 1025000"),
    (lambda: scenario.chain(3).constants(c1=2, c1_least=3), "`c1_least` is 3000, and has to be 0 to 2000"),
    (lambda: scenario.chain(3).constants(d2=2, d2_most=1), "`d2_most` is 1000, and has to be 2000 to 1024000"),
    (lambda: replace(scenario.chain(3).constants(c2_most=9), version=2).check(), "`c2_most` is no key here before version 3"),
    (lambda: replace(scenario.chain(3), backoff=4).check(), "`backoff` is 4, and has to be 2 to 3"),
    (lambda: scenario.chain(3).ends(4), "draw 4: `at` is 4, which is not before the end of the run at 4"),
    (lambda: replace(scenario.chain(3).back(7), version=1).check(), "`back` is no key here in version 1"),
    (lambda: scenario.star(3).back(7, most=9), "one delay back for all links of a star"),
    (lambda: scenario.chain(3, source=5), "there is no node 5"),
    (lambda: scenario.star(3, source=0), "no node that may host"),
])
def test_what_is_refused_has_a_sentence_with_the_key_and_the_rule(make, told):
    with pytest.raises(ScenarioError) as fault:
        make()
    assert told in str(fault.value)


@pytest.mark.parametrize("verb, words, told", [
    ("leave", {"members": "some", "at": 5}, "members is 'some', and has to be a whole number"),
    ("leave", {"members": 1, "at": "soon"}, "at is 'soon', and has to be a tick, or the first and the last tick"),
    ("leave", {"members": 1, "at": (5, 6, 7)}, "at is (5, 6, 7), and has to be a tick"),
    ("role", {"members": 1.5, "role": "sender"}, "members is 1.5, and has to be a whole number"),
    ("draw", {"at": "5"}, "at is '5', and has to be a whole number"),
    ("drawing", {"count": 5, "start": None}, "start is None, and has to be a whole number"),
    ("drop", {"link": 0, "count": 1.5}, "count is 1.5, and has to be a whole number"),
    ("outage", {"link": 0, "first": 1, "last": "9"}, "last is '9', and has to be a whole number"),
    ("rounds", {"count": 2, "link": "adjacent", "sender": "0"}, "sender is '0', and has to be a whole number"),
])
def test_value_of_a_wrong_type_is_told_in_a_sentence(verb, words, told):
    with pytest.raises(ScenarioError) as fault:
        getattr(scenario.chain(3), verb)(**words)
    assert told in str(fault.value)


def test_adapted_constants_are_written_in_version_3_and_read_again():
    made = replace(scenario.chain(3).constants(c1=2, c1_least=0.5, d2=1, d2_most=33), backoff=3)
    table = tomllib.loads(made.text())
    assert {key: table[key] for key in ("version", "c1", "c1_least", "d2", "d2_most", "backoff")} == {
        "version": 3, "c1": 2000, "c1_least": 500, "d2": 1000, "d2_most": 33000, "backoff": 3}
    again = read_scenario(made.text())
    assert (again.least("c1"), again.greatest("c1"), again.least("d2"), again.greatest("d2")) == (500, 2000, 1000, 33000)
    assert replace(again, version=None).text() == made.text()


def test_fixed_timers_need_no_version_3():
    made = scenario.chain(3).constants(c1=64)
    assert (made.least_version, made.constants(c1=65).least_version) == (1, 3)


def test_adaptive_timers_in_one_line():
    made = scenario.star(34).adaptive()
    assert made.adaptive(c1=2, c2=2) == made
    assert (made.c1, made.c1_least, made.greatest("c1"), made.c2, made.least("c2"), made.c2_most, made.backoff) == (
        2000, 500, 2000, 2000, 1000, 33000, 3)
    assert made.adaptive(d1=1.5).d1 == 1500
    with pytest.raises(ScenarioError, match="c3: the constants are c1, c2, d1 and d2"):
        made.adaptive(c3=1)


def test_rounds_take_the_place_of_a_senders_draws_only():
    made = scenario.chain(4, delay=10).role([3], "sender").draw(5, member=3).session(40, member=1).rounds(2, 1, every=100).settled
    assert [(draw.member, draw.at) for draw in made.draws] == [(3, 5), (0, 0), (0, 100), (0, 200), (0, 300)]
    assert [(session.member, session.at) for session in made.sessions] == [(1, 40)]
    assert [(outage.link, outage.first, outage.end) for outage in made.outages] == [(1, 10, 11), (1, 210, 211)]


@pytest.mark.parametrize("link, expected", [(0, 0), (2, 20), ("adjacent", 0), ("hops:3", 20)])
def test_link_of_rounds_is_chosen_as_that_of_losses(link, expected):
    outage, = scenario.chain(4, delay=10).rounds(1, link, every=9).settled.outages
    assert outage.first == expected
