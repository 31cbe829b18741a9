"""Elements that stand for several, and networks by parents: read, refused, and written where a list would be too long."""
import json
import random
import subprocess
import tomllib
from dataclasses import replace

import pytest

from srm_lab import Delays, ScenarioError, read_scenario, run, scenario, tree
from srm_lab.link import Link
from srm_lab.parts import Draw, Drop, Member, Outage, Session
from srm_lab.repetition import expanded, folded

TOP = "version = 3\nuntil = 1000\nc1 = 1000\nc2 = 0\nd1 = 1000\nd2 = 0\n"
SENDER = 'member = [{ node = 0, role = "sender", stream = 1 }]\n'
PARENTS = 'topology = "parents"\nparent = [2, 0]\n'
STAR = 'topology = "star"\nsize = 9\ndelay = 4\n'
SMALL = 'topology = "chain"\nsize = 9\ndelay = 4\n'


def test_elements_with_other_keys_keep_their_places():
    given = scenario.chain(4).join([2], at=5).leave([1], at=9)
    wanted = [{"node": 0, "role": "sender", "stream": 1}, {"node": 1, "role": "receiver", "stream": 2, "leave": 9},
              {"node": 2, "role": "receiver", "stream": 3, "join": 5}, {"node": 3, "role": "receiver", "stream": 4}]
    assert tomllib.loads(given.text())["member"] == wanted


def test_what_each_element_stands_for():
    given = read_scenario(TOP + STAR + """
member = [
  { node = 2, role = "sender", stream = 5, times = 3, every = 2 },
  { node = 1, role = "late", stream = 5, join = 3, leave = 90, pages = [7], times = 2, every = 6 },
  { node = 3, role = "listener", stream = 0, times = 1, every = 1099511627776 },
]
draw = [
  { member = 1, page = 2, ink = 9, at = 10, times = 3, every = 7 },
  { member = 0, page = 0, ink = 0, at = 5, times = 2, every = 0 },
]
session = [{ member = 4, at = 20, times = 2 }]
drop = [{ link = 1, sender = 2, count = 4, times = 3, every = 5 }]
outage = [{ link = 0, from = 30, to = 40, times = 2, every = 100 }]
""")
    assert given.members == (
        Member(2, "sender", 5), Member(4, "sender", 6), Member(6, "sender", 7),
        Member(1, "late", 5, 3, 90, (7,)), Member(7, "late", 6, 3, 90, (7,)), Member(3, "listener", 0))
    assert given.draws == (Draw(1, 2, 9, 10), Draw(1, 2, 9, 17), Draw(1, 2, 9, 24), Draw(0, 0, 0, 5), Draw(0, 0, 0, 5))
    assert given.sessions == (Session(4, 20), Session(4, 21))
    assert given.drops == (Drop(1, 2, 4), Drop(1, 2, 9), Drop(1, 2, 14))
    assert given.outages == (Outage(0, 30, 40), Outage(0, 130, 140))


@pytest.mark.parametrize("keys, links", [
    ("delay = 5", (Link(2, 1, 5, 5), Link(0, 2, 5, 5))),
    ("delay = 5\nback = 6", (Link(2, 1, 5, 6), Link(0, 2, 5, 6))),
    ("delay = 5\nbacks = [7, 8]", (Link(2, 1, 5, 7), Link(0, 2, 5, 8))),
    ("delays = [3, 4]", (Link(2, 1, 3, 3), Link(0, 2, 4, 4))),
    ("delays = [3, 4]\nback = 6", (Link(2, 1, 3, 6), Link(0, 2, 4, 6))),
    ("delays = [3, 4]\nbacks = [7, 8]", (Link(2, 1, 3, 7), Link(0, 2, 4, 8))),
])
def test_links_of_a_network_by_parents(keys, links):
    given = read_scenario(f"{TOP}{PARENTS}{keys}\n")
    assert given.tree.links == links
    assert read_scenario(given.text()) == given and tomllib.loads(given.text()) == tomllib.loads(f"{TOP}{PARENTS}{keys}\n")


def test_a_single_node_by_parents_keeps_its_names():
    text = f'# names of nodes: ["home"]\n{TOP}topology = "parents"\nparent = []\ndelays = []\n'
    assert read_scenario(text).tree == tree.Tree(1, (), {"topology": "parents", "parent": [], "delays": []}, ("home",))


# texts of version 3, and the line that refuses them, without `refused: `
REFUSED = {
    "no way there": (PARENTS, "bad-key top 0"),
    "two ways there": (f"{PARENTS}delay = 1\ndelays = [1, 1]", "bad-key top 0"),
    "two ways back": (f"{PARENTS}delay = 1\nback = 1\nbacks = [1, 1]", "bad-key top 0"),
    "a size beside parents": (f"{PARENTS}delay = 1\nsize = 3", "bad-key top 0"),
    "a degree beside parents": (f"{PARENTS}delay = 1\ndegree = 3", "bad-key top 0"),
    "nodes beside parents": (f"{PARENTS}delay = 1\nnodes = 3", "bad-key top 0"),
    "a link beside parents": (f"{PARENTS}delay = 1\nlink = []", "bad-key top 0"),
    "parents of a chain": (f"{SMALL}parent = [0]", "bad-key top 0"),
    "delays of a chain": (f"{SMALL}delays = [1, 1, 1, 1, 1, 1, 1, 1]", "bad-key top 0"),
    "parents without a topology": ("nodes = 2\nparent = [0]\ndelay = 1", "bad-key top 0"),
    "no parents": ('topology = "parents"\ndelay = 1', "bad-key top 0"),
    "one parent in place of several": ('topology = "parents"\nparent = 0\ndelay = 1', "bad-key top 0"),
    "a delay too few": (f"{PARENTS}delays = [1]", "bad-key top 0"),
    "a delay too many": (f"{PARENTS}delays = [1, 1, 1]", "bad-key top 0"),
    "a delay of 0": (f"{PARENTS}delays = [1, 0]", "bad-key top 0"),
    "a delay back too large": (f"{PARENTS}delay = 1\nbacks = [1, 1000001]", "bad-key top 0"),
    "a parent that is no number": ('topology = "parents"\nparent = [0, "0"]\ndelay = 1', "bad-key top 0"),
    "a parent of another range": ('topology = "parents"\nparent = [0, 65535]\ndelay = 1', "bad-key top 0"),
    "a parent that is no node": ('topology = "parents"\nparent = [0, 3]\ndelay = 1', "not-tree"),
    "a node that is its own parent": ('topology = "parents"\nparent = [0, 2]\ndelay = 1', "not-tree"),
    "two nodes that are each other's parents": ('topology = "parents"\nparent = [2, 1]\ndelay = 1', "not-tree"),
    "a size beyond the limit": ('topology = "chain"\nsize = 65536\ndelay = 1', "bad-key top 0"),
    "a degree beyond the limit": ('topology = "tree"\nsize = 3\ndegree = 65535\ndelay = 1', "bad-key top 0"),
    "nodes beyond the limit": ("nodes = 65536", "bad-key top 0"),
    "a cycle before a bad member": (f'topology = "parents"\nparent = [2, 1]\ndelay = 1\n{SENDER}{SENDER[:-2]}]',
                                    "not-toml"),
    "times 0": (f"{SMALL}{SENDER}draw = [{{ member = 0, page = 0, ink = 0, at = 0, times = 0 }}]", "bad-key draw 0"),
    "every of -1": (f"{SMALL}{SENDER}session = [{{ member = 0, at = 9, every = -1 }}]", "bad-key session 0"),
    "every of 2^40 + 1": (f"{SMALL}{SENDER}session = [{{ member = 0, at = 9, every = 1099511627777 }}]",
                          "bad-key session 0"),
    "times that is true": (f"{SMALL}{SENDER}drop = [{{ link = 0, sender = 0, count = 0, times = true }}]",
                           "bad-key drop 0"),
    "times of a link": ("nodes = 2\nlink = [{ a = 0, b = 1, delay = 1, times = 1 }]", "bad-key link 0"),
    "a node beyond the range": (
        f'{SMALL}member = [{{ node = 0, role = "sender", stream = 1 }}, '
        '{ node = 1, role = "receiver", stream = 2, times = 3, every = 32767 }]', "bad-key member 1"),
    "a node that the network has not": (
        f'{SMALL}member = [{{ node = 3, role = "sender", stream = 1, times = 8 }}]', "bad-member 6"),
    "one node for all": (
        f'{SMALL}member = [{{ node = 3, role = "sender", stream = 1, times = 3, every = 0 }}]', "bad-member 1"),
    "a stream beyond the range": (
        f'{SMALL}member = [{{ node = 3, role = "sender", stream = 9223372036854775806, times = 3 }}]', "bad-key member 0"),
    "a tick beyond the range": (
        f"{SMALL}{SENDER}session = [{{ member = 0, at = 1, times = 2, every = 1099511627776 }}]", "bad-key session 0"),
    "a count beyond the range": (
        f"{SMALL}{SENDER}drop = [{{ link = 0, sender = 0, count = 4294967295, times = 2 }}]", "bad-key drop 0"),
    "an end beyond the range": (
        f"{SMALL}outage = [{{ link = 0, from = 0, to = 1, times = 2, every = 1099511627776 }}]", "bad-key outage 0"),
    "more than 65,535 members": (
        f'{SMALL}member = [{{ node = 0, role = "sender", stream = 1, times = 65535, every = 0 }}, 7]', "bad-key top 0"),
    "so many members, and one bad": (
        f'{SMALL}member = [{{ node = 0, role = "sender", stream = 1, times = 65534, every = 0 }}, 7]', "bad-key member 1"),
    "a place among the copies": (
        f"{SMALL}{SENDER}session = [{{ member = 0, at = 1, times = 4 }}, {{ member = 0, at = 996, times = 5 }}]",
        "bad-session 8"),
}


@pytest.mark.parametrize("name", REFUSED)
def test_text_is_refused_by_the_package(name):
    text, answer = REFUSED[name]
    with pytest.raises(ScenarioError) as fault:
        read_scenario(f"{TOP}{text}\n")
    part, place = fault.value.part, fault.value.place
    told = {None: "not-toml", "tree": "not-tree"}.get(part, f"{part} {place}")
    assert told == answer.removeprefix("bad-key ").removeprefix("bad-")


@pytest.mark.parametrize("name", REFUSED)
def test_text_is_refused_by_the_program(name, program):
    text, answer = REFUSED[name]
    done = subprocess.run([program, "--check"], input=f"{TOP}{text}\n".encode(), capture_output=True, check=False)
    assert done.stderr.decode() == f"refused: {answer}\n"


@pytest.mark.parametrize("text, told", [
    (f"{PARENTS}delay = 1\ndelays = [1, 1]", "top table: `delay` is no key here beside `delays`"),
    (f"{PARENTS}delays = [1]", "`delays` has 1 elements, and has to have 2"),
    (f"{SMALL}parent = [0]", '`parent` is no key here but for `topology = "parents"`, from version 3 on'),
    (f'{SMALL}member = [{{ node = 60000, role = "sender", stream = 1, times = 6000 }}]',
     "member 0: `node` of its last copy is 65999, and has to be 0 to 65534"),
])
def test_what_is_refused_has_a_sentence(text, told):
    with pytest.raises(ScenarioError) as fault:
        read_scenario(f"{TOP}{text}\n")
    assert told in str(fault.value)


def test_copies_are_unknown_before_version_3():
    text = f"{TOP}{SMALL}{SENDER}session = [{{ member = 0, at = 1, times = 1 }}]".replace("version = 3", "version = 2")
    with pytest.raises(ScenarioError, match="session 0: `times` is no key here before version 3"):
        read_scenario(text)


@pytest.mark.parametrize("part, elements, wanted", [
    ("draw", [], []),
    ("session", [{"member": 0, "at": 4}], [{"member": 0, "at": 4}]),
    ("session", [{"member": 0, "at": 4}, {"member": 0, "at": 4}], [{"member": 0, "at": 4, "times": 2, "every": 0}]),
    ("session", [{"member": 0, "at": at} for at in (9, 8, 10, 12, 15)],
     [{"member": 0, "at": 9}, {"member": 0, "at": 8, "times": 3, "every": 2}, {"member": 0, "at": 15}]),
    ("session", [{"member": 0, "at": 4}, {"member": 1, "at": 5}], [{"member": 0, "at": 4}, {"member": 1, "at": 5}]),
    ("member", [{"node": 4, "stream": 1}, {"node": 6, "stream": 2}, {"node": 8, "stream": 4}],
     [{"node": 4, "stream": 1, "times": 2, "every": 2}, {"node": 8, "stream": 4}]),
    ("drop", [{"link": 1, "sender": 0, "count": count} for count in (0, 10, 20)],
     [{"link": 1, "sender": 0, "count": 0, "times": 3, "every": 10}]),
    ("outage", [{"link": 1, "from": 5, "to": 6}, {"link": 1, "from": 7, "to": 8}, {"link": 1, "from": 9, "to": 11}],
     [{"link": 1, "from": 5, "to": 6, "times": 2, "every": 2}, {"link": 1, "from": 9, "to": 11}]),
])
def test_lists_are_told_by_few_elements(part, elements, wanted):
    assert folded(part, elements) == wanted
    assert expanded(part, wanted) == elements


def test_only_what_is_large_is_told_by_few_elements():
    small = scenario.chain(1024, delay=1).drawing(2)
    assert small.table()["version"] == 2 and len(small.table()["member"]) == 1024
    large = scenario.chain(1025, delay=1).drawing(2)
    assert large.table()["version"] == 3
    assert large.table()["member"] == [{"node": 0, "role": "sender", "stream": 1},
                                       {"node": 1, "role": "receiver", "stream": 2, "times": 1024, "every": 1}]
    assert read_scenario(large.text()) == replace(large, version=3, until=large.end)


def test_many_drops_are_room_for_version_3_only():
    made = scenario.chain(3).drop(0, range(5000))
    assert made.table()["drop"] == [{"link": 0, "sender": 0, "count": 0, "times": 5000, "every": 1}]
    assert (made.least_version, scenario.chain(3).drop(0, range(4096)).least_version) == (3, 1)


def test_a_scenario_may_be_asked_for_in_version_3():
    assert tomllib.loads(replace(scenario.chain(3), version=3).text())["version"] == 3


def test_the_largest_networks_fit_in_a_file(srm_lab):
    # 65,534 parents of up to 5 digits and as many delays of up to 5, each with a comma, are at most 12 * 65,534 letters
    network = tree.bounded_degree(65_535, 4, 1).with_delays(10_000, 99_999, random.Random(1))
    text = scenario.on(network, members=1000, seed=5).drawing(1).text()
    assert 700_000 < len(text) < 1_048_576
    srm_lab(text, "--check")


def test_a_text_that_is_too_large_says_how_much_of_it_is_names():
    names = tuple(f"router number {node}" for node in range(40_000))
    made = scenario.on(replace(tree.chain(40_000, 1), names=names, shorthand={}).by_parents(), members=2)
    told = len("# names of nodes: \n") + len(json.dumps(names))
    with pytest.raises(ScenarioError, match=rf"bytes, {told} of them comments, names and routes, and .* room for 1048576"):
        made.text()


def test_large_star_runs(program):
    # the loser's own link loses the first draw. The second, at 100, is there at 110; the request leaves at 120 and is
    # with the others at 130, the repair leaves them at 140
    made = scenario.star(3000, members=5, delay=5, seed=2).constants(c1=1, c2=0, d1=1, d2=0).drawing(2, every=100)
    losses = run(made.drop(made.members[4].node - 1, 0), program=program, cache=None).losses
    assert made.table()["version"] == 3
    assert [(one.member, one.detected, one.recovered, one.ended) for one in losses.itertuples()] == [
        (4, 110, 150, "recovered")]


def test_large_graph_stands_by_its_parents():
    import networkx
    graph = networkx.star_graph(2000)
    made = scenario.from_graph(graph, Delays(default=3), members=2, source=5, seed=1)
    assert made.table()["parent"] == [0] * 2000 and made.table()["delay"] == 3
    assert made.tree.names[2000] == "2000" and read_scenario(made.text()).tree == made.tree
