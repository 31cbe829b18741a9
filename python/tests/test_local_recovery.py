"""Local recovery: how it is written, and how far requests and repairs go, which a trace tells through timers and rests."""
import random
import tomllib
from dataclasses import replace

import pytest

from second_tables import second
from srm_lab import ScenarioError, heard, read_scenario, run, scenario, summarise, sweep
from srm_lab.cli import main
from srm_lab.flight import Flight
from srm_lab.follower import Packet
from srm_lab.history import History
from srm_lab.losses import choose_link, losers, members_behind
from srm_lab.marks import Asked, Mark, scope_of_repair, scope_of_request, serves
from srm_lab.tables import read_trace
from srm_lab.timers import timers_of

CHAIN = scenario.chain(5, delay=1).constants(c1=1, c2=0, d1=1, d2=0).drawing(0).draw(0).draw(10).ends(1000)
HEADER = "time,member,cause,ref,result,lost,sent\n"
# Link 1 drops the first operation, and each request goes one link. Member 2 asks, member 1 answers, and 2 sends on what it
# hears, which mends 3. Member 4 heard nothing of that and asks too: 3, at rest for 2 alone, answers.
SCOPE_1 = HEADER + """0,0,join,-,in,0,-
0,0,draw,0/0/0,sent,0,0:0
0,1,join,-,in,0,-
0,2,join,-,in,0,-
0,3,join,-,in,0,-
0,4,join,-,in,0,-
1,1,data,0:0,fresh,0,-
10,0,draw,0/0/1,sent,0,0:1
11,1,data,0:1,fresh,0,-
12,2,data,0:1,fresh,1,-
13,3,data,0:1,fresh,1,-
14,2,ask,0/0/0,sent,0,2:0
14,4,data,0:1,fresh,1,-
15,1,request,2:0,plan,0,-
15,3,request,2:0,back,0,-
16,1,answer,0/0/0,sent,0,1:0
17,0,repair,1:0,again,0,-
17,2,repair,1:0,fixed,0,-
18,2,answer,0/0/0,sent,0,2:1
18,4,ask,0/0/0,sent,0,4:0
19,1,repair,2:1,again,0,-
19,3,repair,2:1,fixed,0,-
19,3,request,4:0,plan,0,-
20,3,answer,0/0/0,sent,0,3:0
21,2,repair,3:0,again,0,-
21,4,repair,3:0,fixed,0,-
22,4,answer,0/0/0,sent,0,4:1
23,3,repair,4:1,again,0,-
"""
# Members 0 to 2 on nodes 1, 2 and 0, and both links drop the operation. 1 asks one link far and 2, whose own scope is 0, asks
# all at once: the timer that 0 set for 1 answers 2 then, as it goes to all.
TAKEN_OVER = HEADER + """0,0,join,-,in,0,-
0,0,draw,0/0/0,sent,0,0:0
0,1,join,-,in,0,-
0,2,join,-,in,0,-
10,0,draw,0/0/1,sent,0,0:1
11,1,data,0:1,fresh,1,-
11,2,data,0:1,fresh,1,-
12,1,ask,0/0/0,sent,0,1:0
12,2,ask,0/0/0,sent,0,2:0
13,0,request,1:0,plan,0,-
13,0,request,2:0,busy,0,-
14,0,answer,0/0/0,sent,0,0:2
14,1,request,2:0,back,0,-
14,2,ask,0/0/0,sent,0,2:1
15,0,request,2:1,rest,0,-
15,1,repair,0:2,fixed,0,-
15,2,repair,0:2,fixed,0,-
16,1,request,2:1,rest,0,-
"""


def rows_of(text):
    return read_trace(text.splitlines())


# ---- how it is written ---------------------------------------------------------------------------------------------------

@pytest.mark.parametrize("words, keys", [
    ({}, {}),
    ({"scope": 3}, {"scope": 3}),
    ({"scope": 3, "widen": 2, "tries": 4, "steps": 1}, {"scope": 3, "widen": 2, "tries": 4, "steps": 1}),
    ({"scope": 0, "widen": 0, "tries": 1, "steps": 2}, {}),
    ({"steps": 1}, {"steps": 1}),
])
def test_version_5_is_written_where_a_key_of_it_is_used(words, keys):
    made = CHAIN.local_recovery(**words)
    table = tomllib.loads(made.text())
    assert table["version"] == (5 if keys else 1)
    assert {key: table[key] for key in ("scope", "widen", "tries", "steps") if key in table} == keys
    assert read_scenario(made.text()).is_as(replace(made, version=table["version"]))


def test_what_is_not_named_stays():
    made = CHAIN.local_recovery(scope=3, steps=1).local_recovery(tries=2).local_recovery(scope={4: 0})
    assert (made.scope, made.widen, made.tries, made.steps) == (3, 0, 2, 1)
    assert [made.scope_of(member) for member in range(5)] == [3, 3, 3, 3, 0]
    table = tomllib.loads(made.text())
    assert [member.get("scope") for member in table["member"]] == [None, None, None, None, 0]
    assert [one.scope for one in read_scenario(made.text()).members] == [None, None, None, None, 0]
    assert CHAIN.local_recovery() is CHAIN


@pytest.mark.parametrize("make, told", [
    (lambda: CHAIN.local_recovery(scope=65536), "top table: `scope` is 65536, and has to be 0 to 65535"),
    (lambda: CHAIN.local_recovery(scope=-1), "`scope` is -1, and has to be 0 to 65535"),
    (lambda: CHAIN.local_recovery(scope=True), "`scope` is True, and has to be a whole number"),
    (lambda: CHAIN.local_recovery(scope=1, tries=11), "`tries` is 11, and has to be 1 to 10"),
    (lambda: CHAIN.local_recovery(scope=1, steps=3), "`steps` is 3, and has to be 1 to 2"),
    (lambda: CHAIN.local_recovery(scope={9: 1}), "there is no member 9: there are 5"),
    (lambda: CHAIN.local_recovery(scope={2: 65536}), "member 2: `scope` is 65536, and has to be 0 to 65535"),
    (lambda: CHAIN.role([2], "listener").local_recovery(scope={2: 0}), "member 2: `scope` is given, and its role is listener"),
    (lambda: CHAIN.in_version(4).local_recovery(scope=1), "top table: `scope` is no key here before version 5"),
    (lambda: CHAIN.in_version(4).local_recovery(scope={2: 1}), "member 2: `scope` is no key here before version 5"),
    (lambda: CHAIN.in_version(4).lose(rate=0.1, burst=9), "loss 0: `burst` is no key here before version 5"),
    (lambda: CHAIN.lose(rate=0.1, burst=0), "burst is 0, and has to be 1 to 1099511627776"),
    (lambda: CHAIN.lose(every=2, link=0, burst=9), "stream, first, last, burst and spares_draws go with a rate"),
    (lambda: CHAIN.lose(rate=0.1, sender=0, spares_draws=True), "are of losses at random, which know no sender"),
    (lambda: CHAIN.lose(every=1, link="losers:5"), "no link has 5 members behind it"),
    (lambda: CHAIN.lose(every=1, link="losers:5-9"), "no link has 5 to 9 members behind it"),
    (lambda: CHAIN.lose(every=1, link="losers:few"), "losers:few tells no number of members"),
    (lambda: CHAIN.least_scopes(4), "link is 4, and has to be 0 to 3"),
])
def test_refusals(make, told):
    with pytest.raises(ScenarioError) as fault:
        make()
    assert told in str(fault.value)


# ---- which link loses, and how far its losers have to ask --------------------------------------------------------------------

def test_a_link_by_how_many_are_behind_it():
    # a tree of degree 3: behind links 0 to 2 are 3, 3 and 1 nodes, behind each other one 1
    tree = scenario.regular_tree(8, degree=3).tree
    nodes = list(range(1, 8))
    assert members_behind(tree, 0, nodes) == {0: 3, 1: 3, 2: 1, 3: 1, 4: 1, 5: 1, 6: 1}
    found = [choose_link("losers:1-3", tree, 0, nodes, random.Random(seed)) for seed in range(400)]
    many = [link for link in found if link in (0, 1)]
    assert {*many} == {0, 1} and {*found} == set(range(7)) and 150 < len(many) < 250  # each number is as likely
    assert {choose_link("losers:3", tree, 0, nodes, random.Random(seed)) for seed in range(30)} == {0, 1}


def test_losers_are_3_to_a_tenth_of_the_members():
    for seed in range(30):
        made = scenario.regular_tree(200, members=60, source="random", seed=seed).lose(every=100, link="losers", seed=seed)
        drop, = made.settled.drops
        nodes = [member.node for member in made.members]
        assert 3 <= len(losers(made.tree, nodes[0], nodes[1:], drop.link)) <= 6


def test_losers_are_the_next_number_where_no_link_has_so_few():
    drop, = scenario.from_parents([0, 1, 1, 1, 1]).drawing(1).lose(every=1, link="losers").settled.drops
    assert drop.link == 0  # behind it are five, and behind each other link is one
    with pytest.raises(ScenarioError, match="no link has 3 members behind it"):
        scenario.chain(3).lose(every=1, link="losers")


def test_least_scope_reaches_all_losers_and_one_that_answers():
    for seed in range(40):
        made = scenario.random_tree(60, members=30, source="random", seed=seed)
        made = made.role([3, 8], "listener")
        link = choose_link("random", made.tree, made.members[0].node, [one.node for one in made.members[1:]], random.Random(seed))
        nodes = [member.node for member in made.members]
        behind = {*losers(made.tree, nodes[0], nodes, link)}
        must = {}
        for member, one in enumerate(made.members):
            if one.node in behind and one.role != "listener":
                hops = made.tree.hops(one.node)
                outside = [hops[other.node] for other in made.members if other.node not in behind and other.role != "listener"]
                must[member] = max(min(outside), *(hops[node] for node in behind), 0)
        assert made.least_scopes(link) == must and (must or behind <= {nodes[3], nodes[8]})


# ---- losses ---------------------------------------------------------------------------------------------------------------

def test_losses_that_spare_draws_begin_once_the_last_draw_has_come():
    made = scenario.chain(4, delay=10).drawing(3, every=5).lose(rate=0.5, spares_draws=True)
    assert [(one.link, one.first) for one in made.settled.random_losses] == [(0, 11), (1, 21), (2, 31)]
    later = made.draw(100)  # what draws come later, the rule takes in
    assert [one.first for one in later.settled.random_losses] == [101, 111, 121]
    two = made.role([3], "sender").draw(200, member=3)  # it comes to link 2 at once
    assert [one.first for one in two.settled.random_losses] == [221, 211, 201]
    assert made.lose(rate=0.5, first=500, spares_draws=True).settled.random_losses[3].first == 500


def test_a_burst_takes_all_or_nothing():
    loss, = scenario.chain(2).lose(rate=0.5, first=3, last=99, burst=10, stream=4).random_losses
    slots = [{loss.takes(7, sender, count, at) for at in range(10 * slot, 10 * slot + 10) for sender, count in ((0, 1), (9, 8))}
             for slot in range(1, 9)]
    assert all(len(slot) == 1 for slot in slots) and {True} in slots and {False} in slots
    assert not any(loss.takes(7, 0, 0, at) for at in (0, 1, 2, 100))
    every, = scenario.chain(2).lose(rate=1, burst=10).random_losses
    assert all(every.takes(1, 2, 3, at) for at in range(40))


def test_the_program_loses_in_the_bursts_of_the_formula(program):
    from test_random_losses import word

    given = scenario.chain(2, delay=10).role([1], "listener").drawing(300).lose(rate=0.4, burst=7)
    found = run(given, seeds=[5, 6], tables="links", program=program, cache=None).links
    lost = [sum(word(seed, 0, 0, 65535, at // 7) < 400000 * 2**32 // 10**6 for at in range(301)) for seed in (5, 6)]
    assert found["dropped"].tolist() == lost and 60 < min(lost) < 180


# ---- what a trace tells ------------------------------------------------------------------------------------------------------

def test_a_request_goes_further_with_each_backoff_and_then_to_all():
    given = CHAIN.local_recovery(scope=2, widen=3, tries=3)
    assert [scope_of_request(given, 1, backoffs) for backoffs in range(5)] == [2, 5, 8, None, None]
    wide = CHAIN.local_recovery(scope=60_000, widen=6_000, tries=10).local_recovery(scope={3: 0})
    assert [scope_of_request(wide, 1, backoffs) for backoffs in (0, 1, 9)] == [60_000, 65_535, 65_535]
    assert scope_of_request(wide, 3, 0) is None


def test_a_repair_goes_as_far_as_its_steps_need():
    for steps, scope in ((1, 4), (2, 2)):
        given = CHAIN.local_recovery(scope=2, steps=steps)
        assert scope_of_repair(given, 1, Asked(3, 2)) == scope and scope_of_repair(given, 1, Asked(3, None)) is None


# member 1 of a chain of five sees a repair for member 3 of width 2 that goes `left` links further, and a request
@pytest.mark.parametrize("mark, asked, answer", [
    (None, Asked(4, None), True),                # to all
    (Mark(3, 2, 9), Asked(4, None), False),
    (Mark(3, 2, 0), Asked(3, 2), True),          # meant for it
    (Mark(3, 2, 0), Asked(3, 3), False),         # which goes further
    (Mark(3, 2, 4), Asked(3, 3), False),
    (Mark(3, 2, 5), Asked(3, 3), True),          # all within 3 of member 3 are within 5 of member 1
    (Mark(3, 2, 0), Asked(2, 1), False),
    (Mark(3, 2, 2), Asked(2, 1), True),
    (Mark(1, 2, 1), Asked(1, 2), False),         # its own request: it has to send on
    (Mark(1, 2, 2), Asked(1, 2), True),
])
def test_which_requests_a_repair_serves(mark, asked, answer):
    assert serves(CHAIN.local_recovery(scope=2), mark, 1, asked) == answer


def test_scopes_of_a_run_whose_requests_go_one_link():
    made = second(CHAIN.drop(1, 0).local_recovery(scope=1), rows_of(SCOPE_1))
    assert made["scopes"] == """time,member,cause,ref,sent,scope,requester,width,heard
14,2,ask,0/0/0,2:0,1,-,-,2
16,1,answer,0/0/0,1:0,1,2,1,2
18,2,answer,0/0/0,2:1,1,2,1,2
18,4,ask,0/0/0,4:0,1,-,-,1
20,3,answer,0/0/0,3:0,1,4,1,2
22,4,answer,0/0/0,4:1,1,4,1,1
"""
    assert made["links"] == "link,data,requests,repairs,sessions,dropped\n0,2,0,1,0,0\n1,1,1,2,0,1\n2,1,1,2,0,0\n3,1,1,2,0,0\n"


def test_second_steps_are_timers_of_a_tick():
    given = CHAIN.drop(1, 0).local_recovery(scope=1)
    repairs = [row for row in timers_of(given, rows_of(SCOPE_1)) if row[1] == "repair"]
    assert [(row[0], *row[5:]) for row in repairs] == [
        (1, 15, 16, "expired"), (2, 17, 18, "expired"), (3, 19, 20, "expired"), (4, 21, 22, "expired")]
    history = History(given, rows_of(SCOPE_1))
    assert [one.asked for one in history.timers if one.kind == "repair"] == [(2, 1), (2, 1), (4, 1), (4, 1)]


def test_a_wider_request_takes_a_timer_over():
    given = scenario.chain(3, members=1, source=1, delay=1).member(2).member(0).constants(c1=1, c2=0, d1=1, d2=0).drawing(0)
    given = given.draw(0).draw(10).drop(0, 0).drop(1, 0).ends(1000).local_recovery(scope=1).local_recovery(scope={2: 0})
    history = History(given, rows_of(TAKEN_OVER))
    timer, = (one for one in history.timers if one.kind == "repair")
    assert (timer.set_for, timer.asked, timer.start, timer.end, timer.how) == (1, (2, None), 13, 14, "expired")
    assert [(packet.scope, packet.asked) for packet in history.packets.values() if packet.kind != "data"] == [
        (1, None), (None, None), (None, (2, None)), (None, None)]


def test_a_packet_is_dropped_nowhere_past_its_scope():
    given = scenario.chain(5, delay=10).outage(1, 0, 99).outage(3, 0, 99)
    near, far = (Flight(Packet(0, 0, "request", 0, scope=scope), given, 0) for scope in (1, 2))
    assert [near.dropped(node, node + 1) for node in range(4)] == [None] * 4
    assert [far.dropped(node, node + 1) for node in range(4)] == [None, 15, None, None]


# ---- runs -------------------------------------------------------------------------------------------------------------------

def tree_of(scope, steps=2):
    """A source above members 1 to 3, and members 4 to 7 below 1 and 2; the link to 1 loses."""
    given = scenario.regular_tree(8, degree=3, delay=2).constants(c1=2, c2=0, d1=1, d2=0).drawing(0).draw(0).draw(10).drop(0, 0)
    return given.local_recovery(scope=2, steps=steps).local_recovery(scope={1: scope}).ends(1000)


def test_table_of_scopes(program):
    scopes = run(tree_of(1), tables="scopes", program=program, cache=None).scopes
    assert scopes.drop(columns="seed").astype(object).where(scopes.notna(), None).values.tolist() == [
        [16, 1, "ask", "0/0/0", "1:0", 1, None, None, 3, 1], [20, 0, "answer", "0/0/0", "0:2", 1, 1, 1, 3, 0],
        [23, 1, "answer", "0/0/0", "1:1", 1, 1, 1, 3, 1]]
    assert {*map(str, scopes.dtypes[["scope", "requester", "width", "heard", "node"]])} == {"Int64"}


def test_how_many_hear_what_a_recovery_takes(program):
    tables = sweep({"steps": [1, 2], "links": [0, 1]}, lambda steps, links: tree_of(links, steps), seeds=2,
                   tables=["operations", "scopes"], program=program, cache=None)
    found = heard(tables)
    assert list(found.columns)[:3] == ["steps", "links", "seed"] and len(found) == 8
    # 1, 4 and 5 lack it; in one step the answer goes the width and the link between, two links, and comes to all
    assert found[["steps", "links", "losers", "requests_heard", "repairs_heard"]].drop_duplicates().values.tolist() == [
        [1, 0, 3, 7, 7], [1, 1, 3, 3, 7], [2, 0, 3, 7, 7], [2, 1, 3, 3, 6]]
    each = summarise(found, "repairs_heard / losers", by=["steps", "links"])["mean"]
    assert each.round(3).tolist() == [2.333, 2.333, 2.333, 2.0]
    runs = run(tree_of(1), tables=["operations", "scopes"], program=program, cache=None)
    assert heard(runs)["repairs_heard"].tolist() == [6]
    calm = run(scenario.chain(3), tables=["operations", "scopes"], program=program, cache=None)
    assert len(heard(calm)) == 0 and "requests_heard" in heard(calm)
    with pytest.raises(ScenarioError, match="the table 'scopes' was not asked for"):
        heard(run(scenario.chain(3), tables="operations", program=program, cache=None))
    with pytest.raises(TypeError, match="a DataFrame was given"):
        heard(tables["operations"])


# ---- the command line -----------------------------------------------------------------------------------------------------

def test_options_of_local_recovery(capsys):
    assert main("chain --size 4 --scope 2 --widen 1 --tries 3 --steps 1 --loss 0.01 --burst 500 --spare-draws".split()) == 0
    table = tomllib.loads(capsys.readouterr().out)
    assert {key: table[key] for key in ("version", "scope", "widen", "tries", "steps")} == {
        "version": 5, "scope": 2, "widen": 1, "tries": 3, "steps": 1}
    assert table["loss"] == [{"link": link, "rate": 10000, "from": 100 + 1000 * link, "burst": 500} for link in range(3)]


def test_least_scope_of_the_losers_on_the_command_line(capsys):
    words = "tree --size 200 --members 60 --source random --drop-link losers --draws 2 --drop-every 2 --scope least --tries 10"
    assert main([*words.split(), "--seed", "4"]) == 0
    made = read_scenario(capsys.readouterr().out)
    drop, = made.drops
    assert made.least_scopes(drop.link) == {place: one.scope for place, one in enumerate(made.members) if one.scope is not None}
    assert (made.scope, made.tries) == (0, 10) and 3 <= len(made.least_scopes(drop.link)) <= 6


@pytest.mark.parametrize("words, told", [
    ("chain --size 4 --scope far", "--scope far: say how many links, or least"),
    ("chain --size 4 --scope least", "--scope least goes by the link that loses: say --drop-link"),
    ("chain --size 4 --burst 5", "--burst and --spare-draws need --loss"),
    ("chain --size 4 --spare-draws", "--burst and --spare-draws need --loss"),
    ("chain --size 4 --loss 0.1 --burst 0", "burst is 0, and has to be 1 to"),
    ("chain --size 4 --drop-link losers:9", "no link has 9 members behind it"),
])
def test_refusals_of_the_command_line(words, told, capsys):
    assert main(words.split()) == 1
    assert told in capsys.readouterr().err
