"""Scenarios as the command line writes them."""
import tomllib
from dataclasses import replace

import pytest

from srm_lab import ScenarioError, read_scenario, scenario
from srm_lab.cli import main


@pytest.fixture
def write(capsys):
    """The table of the scenario that the words give."""
    def run(words):
        status = main(words.split())
        text = capsys.readouterr()
        assert status == 0, text.err
        return tomllib.loads(text.out)
    return run


def test_tree_with_a_random_choice_of_members(write):
    table = write("tree --size 100 --members 40 --seed 3 --drop-link adjacent")
    assert (table["topology"], table["size"], table["degree"]) == ("tree", 100, 4)
    assert len(table["member"]) == 40
    nodes = [member["node"] for member in table["member"]]
    assert nodes[0] == 0 and len(set(nodes)) == 40 and max(nodes) < 100
    assert [member["role"] for member in table["member"]] == ["sender"] + 39 * ["receiver"]
    assert table["drop"][0]["link"] < 4  # the root's own links are the first four


@pytest.mark.parametrize("words, links", [
    ("tree --size 1000 --members 10", {"topology": "tree", "size": 1000, "degree": 4, "delay": 1000}),
    ("tree --size 5000 --members 100", {"topology": "tree", "size": 5000, "degree": 4, "delay": 1000}),
    ("chain --size 65535 --members 30 --delay 2 --back 3", {"topology": "chain", "size": 65_535, "delay": 2, "back": 3}),
    ("star --size 65535 --members 99 --delay 2", {"topology": "star", "size": 65_535, "delay": 2}),
])
def test_networks_of_the_published_studies_and_larger_ones(write, words, links):
    table = write(f"{words} --seed 3 --drop-link random")
    assert {key: value for key, value in table.items() if key in links} == links and "link" not in table
    assert table["version"] == (2 if links["size"] <= 1024 else 3)
    nodes = [member["node"] + place * member.get("every", 0) for member in table["member"]
             for place in range(member.get("times", 1))]
    assert len(set(nodes)) == len(nodes) == int(words.split()[4]) and max(nodes) < links["size"]
    assert [member["role"] for member in table["member"][1:]] == ["receiver"] * (len(table["member"]) - 1)


def test_random_delays_of_a_large_tree_stand_by_its_parents(write):
    table = write("tree --size 2000 --members 5 --delay 10 --delay-to 20 --back 4 --seed 3")
    assert table["parent"][:8] == [0, 0, 0, 0, 1, 1, 1, 2] and len(table["parent"]) == 1999
    assert len(table["delays"]) == 1999 and set(table["delays"]) == set(range(10, 21)) and table["back"] == 4


def test_one_seed_gives_one_scenario(capsys):
    texts = []
    for seed in ("3", "3", "4"):
        assert main(["random", "--size", "30", "--members", "9", "--drop-link", "random", "--seed", seed]) == 0
        texts.append(capsys.readouterr().out.split("\n", 1)[1])
    assert texts[0] == texts[1] != texts[2]


def test_constants_are_written_in_thousandths(write):
    table = write("chain --size 2 --c1 1.5 --c2 0 --d1 0.001 --d2 64")
    assert [table[name] for name in ("c1", "c2", "d1", "d2")] == [1500, 0, 1, 64000]


def test_constants_that_grow_with_the_session(write):
    table = write("star --size 101 --d1 log10 --c2 sqrt")
    assert (table["d1"], table["c2"]) == (2000, 10000)  # 100 members


def test_streams_differ(write):
    table = write("chain --size 200")
    assert len({member["stream"] for member in table["member"]}) == 200


def test_draws_every_so_many_ticks_and_a_session_message_after_them(write):
    table = write("chain --size 2 --draws 4 --every 10 --start 5 --session-after 3")
    assert [draw["at"] for draw in table["draw"]] == [5, 15, 25, 35]
    assert table["session"] == [{"member": 0, "at": 38}]
    assert table["until"] > 38


def test_no_session_message(write):
    assert "session" not in write("chain --size 2 --no-session")


def test_every_third_packet_is_lost(write):
    table = write("chain --size 4 --draws 9 --drop-link 1 --drop-every 3")
    assert table["drop"] == [{"link": 1, "sender": 0, "count": count} for count in (0, 3, 6)]


def test_named_packets_are_lost(write):
    table = write("chain --size 4 --draws 9 --drop-link 2 --drop-packet 1 --drop-packet 8")
    assert [drop["count"] for drop in table["drop"]] == [1, 8]


def test_link_by_its_way_from_the_source(write):
    assert write("chain --size 9 --drop-link hops:5")["drop"][0]["link"] == 4
    assert write("chain --size 9 --source 8 --drop-link adjacent")["drop"][0]["link"] == 7


def test_random_link_is_on_the_way_to_a_member(write):
    links = {write(f"chain --size 9 --members 3 --seed {seed} --drop-link random")["drop"][0]["link"]
             for seed in range(20)}
    assert len(links) > 2
    table = write("chain --size 2 --drop-link random")
    assert table["drop"][0]["link"] == 0


def test_random_source(write):
    nodes = {write(f"chain --size 9 --source random --seed {seed}")["member"][0]["node"] for seed in range(20)}
    assert len(nodes) > 3


def test_random_delays(write):
    table = write("tree --size 9 --delay 10 --delay-to 30 --seed 2")
    assert "topology" not in table
    assert all(10 <= link["delay"] <= 30 for link in table["link"])


def test_file_of_edges(write, tmp_path):
    path = tmp_path / "net.edges"
    path.write_text("a b 3\nb c 4\n")
    table = write(f"file {path} --drop-link 1")
    assert table["nodes"] == 3
    assert table["link"] == [{"a": 0, "b": 1, "delay": 3}, {"a": 1, "b": 2, "delay": 4}]


@pytest.mark.parametrize("words, told", [
    ("chain --size 65536", "size is 65536"),
    ("chain --size 5 --draws 4097", "--draws is 4097, and has to be 0 to 4096"),
    ("chain --size 5 --members 6", "--members is 6"),
    ("chain --size 5 --members some", "say a number or all"),
    ("chain --size 5 --source 5", "no node that may host"),
    ("star --size 5 --source 0", "no node that may host"),
    ("star --size 1", "no node may host"),
    ("star --size 5 --delay-to 2000", "one delay for all links of a star"),
    ("chain --size 5 --delay 0", "delay of link 0 is 0"),
    ("chain --size 5 --delay 9 --delay-to 8", "greatest delay is 8"),
    ("chain --size 5 --c1 1025", "1025 in thousandths is 1025000"),
    ("chain --size 5 --c1 -1", "-1 in thousandths is -1000"),
    ("chain --size 5 --c2 0.0005", "three decimals"),
    ("chain --size 5 --c2 many", "no number"),
    ("chain --size 5 --c2 nan", "three decimals"),
    ("chain --size 5 --draws 4097", "--draws is 4097"),
    ("chain --size 5 --drop-link 4", "there is no link 4"),
    ("chain --size 5 --drop-link hops:5", "no link 5 links from the source"),
    ("chain --size 5 --drop-link hops:far", "no number of links"),
    ("chain --size 5 --drop-link near", "no choice of a link"),
    ("chain --size 1 --drop-link random", "no link is on the way"),
    ("chain --size 5 --drop-every 2", "need --drop-link"),
    ("chain --size 5 --drop-link 0 --drop-every 0", "--drop-every is 0"),
    ("chain --size 5 --draws 2 --drop-link 0 --drop-packet 2", "no draw 2 to lose"),
    ("chain --size 5 --until 1099511627777", "`until` is 1099511627777"),
    ("chain --size 5 --start -3", "the tick of a draw is -3"),
    ("chain --size 5 --drop-link 0 --drop-packet -1 --any-packet", "number of a lost packet is -1"),
    ("chain --size 5 --until 1", "draw 1: `at` is 1, which is not before the end of the run at 1"),
    ("file nowhere.gml", "No such file"),
])
def test_what_the_format_has_no_room_for(words, told, capsys):
    assert main(words.split()) == 1
    text = capsys.readouterr()
    assert text.out == "" and text.err.startswith("srm-scenarios: ") and text.err.count("\n") == 1
    assert told in text.err


def test_lost_packets_that_may_be_repairs_are_refused(capsys):
    # draws 100 ticks apart on links of 10 ticks: the source may repair the first loss before it draws again
    words = "chain --size 3 --delay 10 --draws 9 --every 100 --drop-link 0 --drop-every 4".split()
    assert main(words) == 1
    told = capsys.readouterr().err
    assert "packet 4 of the source is drawn at tick 400, and from tick 150 on" in told
    assert main([*words, "--any-packet"]) == 0
    slow = scenario.chain(3, delay=10).drawing(9, every=100)
    with pytest.raises(ScenarioError) as fault:
        slow.lose(every=4, link=0).check()
    named = {"any_packet=True": "--any-packet", "lose_operations": "--lose-operations"}
    said = f"srm-scenarios: {fault.value}\n"
    for verb, option in named.items():
        said = said.replace(verb, option)
    assert said == told
    assert [drop.count for drop in slow.lose(every=4, link=0, any_packet=True).settled.drops] == [0, 4, 8]


def test_session_without_words_is_that_of_the_package(capsys):
    assert main("star --size 9 --seed 3 --drop-link adjacent --drop-every 2".split()) == 0
    made = read_scenario(capsys.readouterr().out)
    assert replace(made, comments=(), until=None, version=None, seed=0) == scenario.star(9).lose(every=2, link=0).settled


def test_lost_packets_are_data_up_to_the_earliest_repair(srm_lab, capsys):
    # detected at 1 + 10, asked at least 20 later, 10 back, and at least 10 for the repair timer: tick 51
    words = "chain --size 3 --delay 10 --c1 2 --c2 0 --d1 1 --d2 0 --session-after 9".split()
    words += ["--drop-link", "0", "--drop-packet", "0"]
    assert main([*words, "--draws", "51", "--drop-packet", "50"]) == 0
    trace = srm_lab(capsys.readouterr().out)
    assert "51,0,answer,0/0/0,sent,0,0:51" in trace  # the packet after the 51 draws
    assert main([*words, "--draws", "52", "--drop-packet", "51"]) == 1


def test_the_program_takes_what_is_written_and_everyone_recovers(srm_lab, capsys):
    for words in (
        "chain --size 9 --drop-link hops:3",
        "star --size 20 --drop-link adjacent --draws 20 --drop-every 2",
        "tree --size 256 --members 30 --source random --drop-link random --seed 5 --draws 6 --drop-every 2",
        "random --size 40 --drop-link random --seed 6 --delay 500 --delay-to 1500",
        "chain --size 3 --draws 1 --drop-link 1",
    ):
        assert main(words.split()) == 0
        lines = srm_lab(capsys.readouterr().out, "--show", "losses").splitlines()
        assert len(lines) > 1, words
        assert all(not line.endswith("-") for line in lines), words


def test_setting_of_floyd_et_al_for_33_members(write):
    # log10 33 = 1.5185; the star's hub has no member
    table = write("star --size 34 --adaptive")
    assert {key: table[key] for key in table if key[:2] in ("c1", "c2", "d1", "d2", "ve", "ba")} == {
        "version": 3, "backoff": 3, "c1": 2000, "c1_least": 500, "c2": 2000, "c2_least": 1000, "c2_most": 33000,
        "d1": 1519, "d1_least": 500, "d2": 1519, "d2_least": 1000, "d2_most": 33000}


@pytest.mark.parametrize("members, d1, d2, most", [
    (1, 500, 1000, 2000),  # C2 does not have to fall
    (3, 500, 1000, 3000),  # log10 3 = 0.477
    (4, 602, 1000, 4000),  # log10 4 = 0.602
    (9, 954, 1000, 9000),
    (10, 1000, 1000, 10000),
    (1000, 3000, 3000, 1000000),
])
def test_repair_timers_begin_with_their_least_value_at_least(write, members, d1, d2, most):
    table = write(f"chain --size {members} --adaptive")
    assert (table["d1"], table["d2"], table["c2_most"]) == (d1, d2, most)


def test_first_values_that_are_given_have_limits_that_reach_to_them(write):
    table = write("chain --size 10 --adaptive --c1 0.25 --c2 64 --d1 3 --d2 sqrt")
    assert [table[f"{name}{end}"] for name in ("c1", "c2") for end in ("_least", "")] == [250, 250, 1000, 64000]
    assert (table["c2_most"], table["d1"], table["d2"]) == (64000, 3000, 3162)
    assert "c1_most" not in table  # the constant itself


def test_version_3_only_where_timers_are_adaptive(write):
    assert write("chain --size 4 --rounds 2 --drop-link 1")["version"] == 2
    assert write("chain --size 4 --adaptive")["version"] == 3
    assert write("chain --size 4")["version"] == 1


def test_rounds_of_loss_are_outages_of_one_tick(write):
    # 30 ticks to the near end of link 3; a round is of two draws
    table = write("chain --size 6 --delay 10 --rounds 3 --drop-link 3 --every 700")
    assert [draw["at"] for draw in table["draw"]] == [0, 700, 1400, 2100, 2800, 3500]
    assert table["outage"] == [{"link": 3, "from": at, "to": at + 1} for at in (30, 1430, 2830)]
    assert "drop" not in table and "session" not in table  # the last draw is not lost


def test_rounds_go_by_the_delays_of_the_packets_direction(write):
    # from node 3 to the far end of link 1: link 2 backwards takes 7
    table = write("chain --size 4 --delay 10 --back 7 --source 3 --rounds 1 --drop-link 1 --every 5")
    assert table["outage"] == [{"link": 1, "from": 7, "to": 8}]


def test_rounds_lie_apart_as_far_as_64_recoveries_take(write):
    # round trip 20; constants 2 + 2 + 1 + 1
    table = write("chain --size 2 --delay 10 --rounds 2 --drop-link 0")
    assert table["draw"][1]["at"] == 20 + 64 * (2 + 6 + 1) * 20 + 1
    assert table["outage"][1]["from"] == 2 * table["draw"][1]["at"]


@pytest.mark.parametrize("words, told", [
    ("--rounds 2", "--rounds needs --drop-link"),
    ("--rounds 2 --drop-link 0 --draws 4", "leave out --draws"),
    ("--rounds 2 --drop-link 0 --drop-every 2", "leave out --drop-every"),
    ("--rounds 2 --drop-link 0 --start 9", "leave out --start"),
    ("--rounds 0 --drop-link 0", "--rounds is 0, and has to be 1 to 2048"),
    ("--rounds 2 --drop-link 7", "there is no link 7"),
])
def test_rounds_that_are_refused(words, told, capsys):
    assert main(["chain", "--size", "3", *words.split()]) == 1
    assert told in capsys.readouterr().err
