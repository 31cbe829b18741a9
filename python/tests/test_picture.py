"""Histories put together from traces, and pictures of them."""
import re
from pathlib import Path
from xml.etree import ElementTree

import pytest

from srm_lab import ScenarioError, scenario
from srm_lab.flight import Flight
from srm_lab.follower import Packet
from srm_lab.history import History
from srm_lab.loss import Loss
from srm_lab.picture import Picture, main, nice_step
from srm_lab.reading import load_scenario, read_scenario
from srm_lab.tables import read_trace

ROOT = Path(__file__).resolve().parents[2]
TRACES = sorted((ROOT / "examples").glob("*.trace.csv"))
PICTURE = ROOT / "docs/pictures/chain-of-five-one-loss.svg"


def history_of(name):
    given = read_scenario((ROOT / f"examples/{name}.toml").read_text())
    with open(ROOT / f"examples/{name}.trace.csv", newline="") as lines:
        return History(given, read_trace(lines))


def test_losses_of_the_chain():
    assert history_of("chain-of-five-one-loss").losses == [
        Loss(2, (0, 0, 0), 12, 17), Loss(3, (0, 0, 0), 13, 18), Loss(4, (0, 0, 0), 14, 19)]


def test_timers_of_the_chain():
    ends = [(timer.member, timer.kind, timer.start, timer.end, timer.how)
            for timer in history_of("chain-of-five-one-loss").timers]
    assert sorted(ends) == [
        (0, "repair", 16, 17, "stopped"),
        (1, "repair", 15, 16, "expired"),
        (2, "request", 12, 14, "expired"), (2, "request", 14, 17, "stopped"),
        (3, "request", 13, 15, "backed off"), (3, "request", 15, 18, "stopped"),
        (4, "request", 14, 16, "backed off"), (4, "request", 16, 19, "stopped"),
    ]


def test_packets_of_the_chain():
    packets = history_of("chain-of-five-one-loss").packets
    assert packets["0:0"].heard == {1: 1}
    assert packets["1:0"].kind == "repair" and packets["1:0"].heard == {0: 17, 2: 17, 3: 18, 4: 19}


def test_loss_found_by_a_session_message():
    history = history_of("session-reveals-a-loss")
    assert history.losses == [Loss(1, (0, 0, 0), 21, 25)]
    assert history.packets["0:1"].listed == {(0, 0): 0}


def test_page_that_a_late_joiner_wants():
    assert history_of("late-joiner").losses == [Loss(1, (0, 1, 0), 60, 64)]


@pytest.mark.parametrize("trace", TRACES, ids=lambda trace: trace.name.removesuffix(".trace.csv"))
def test_each_example_has_a_picture(trace, capsys):
    scenario = trace.with_name(trace.name.split(".")[0] + ".toml")  # NAME.trace.csv, or NAME.seed-N.trace.csv
    assert main([str(scenario), str(trace)]) == 0
    ElementTree.fromstring(capsys.readouterr().out)


def test_picture_of_the_chain(capsys):
    name = str(ROOT / "examples/chain-of-five-one-loss")
    assert main([f"{name}.toml", f"{name}.trace.csv"]) == 0
    text = capsys.readouterr().out
    assert re.findall(r">member (\d)<", text) == list("01234")
    assert text.count("data 0:0 of 0/0/0: dropped") == 1
    assert "member 3 lacks 0/0/0 from 13 to 18" in text
    # data 1 and 4 hops, a request on 4 links, a repair on 4
    assert len(re.findall(r"<line [^>]*class=\"packet\"[^>]*><title>data", text)) == 2 + 4
    assert len(re.findall(r"<line [^>]*class=\"packet\"[^>]*><title>request", text)) == 4
    assert len(re.findall(r"<line [^>]*class=\"packet\"[^>]*><title>repair", text)) == 4
    assert PICTURE.read_text() == text


def test_part_of_a_run(capsys):
    name = str(ROOT / "examples/chain-of-five-one-loss")
    assert main([f"{name}.toml", f"{name}.trace.csv", "--from", "10", "--to", "16"]) == 0
    text = capsys.readouterr().out
    assert "dropped</title>" not in text and "request 2:0" in text and "repair 1:0" not in text


@pytest.mark.parametrize("name", sorted({trace.name.removesuffix(".trace.csv") for trace in TRACES}))
def test_each_time_in_a_picture_is_one_of_the_trace(name, capsys):
    """A line of a packet from its sender begins when that sends it, and ends when its hearer hears it."""
    scenario = ROOT / "examples" / (name.split(".")[0] + ".toml")
    with open(ROOT / f"examples/{name}.trace.csv", newline="") as lines:
        history = History(load_scenario(scenario), read_trace(lines))
    heard = {(row.ref, row.member): row.time for row in history.rows if row.ref in history.packets}
    picture = Picture(history, 0, history.end)
    for key, packet in history.packets.items():
        flight = Flight(packet, history.given, history.given.members[packet.sender].node)
        for member in packet.heard:
            assert flight.time_at(history.given.members[member].node) == heard[key, member]
    assert picture.svg()


def test_request_on_a_link_that_takes_longer_back_is_drawn_when_it_is_heard(capsys):
    name = str(ROOT / "examples/two-way-delays")
    assert main([f"{name}.toml", f"{name}.trace.csv"]) == 0
    text = capsys.readouterr().out
    # the trace: member 1 asks at 13, member 0 hears it at 16; the last row is at 20
    across = {told: (float(begin), float(end)) for begin, end, told in re.findall(
        r'<line x1="([^"]*)"[^>]* x2="([^"]*)"[^>]*class="packet"[^>]*><title>(request 1:0)', text)}
    end = read_last(f"{name}.trace.csv")
    tick = (1000 - 130 - 30) / end
    begin, arrival = across["request 1:0"]
    assert (begin - 130) / tick == pytest.approx(13, abs=0.01)
    assert (arrival - 130) / tick == pytest.approx(16, abs=0.01)


def read_last(path):
    """The tick of the last row of a trace."""
    return int(Path(path).read_text().splitlines()[-1].split(",")[0])


def test_cross_of_an_outage_is_at_the_tick_at_which_the_packet_comes_to_the_link():
    given = scenario.chain(3, delay=10).back(30).drawing(1, every=10).outage(link=0, first=45, last=45)
    # member 2 asks nobody; its session message would take 30 ticks to node 1, and 30 more to node 0
    given = given.session(15, member=2)
    packet = Packet(2, 0, "session", 15)
    flight = Flight(packet, given, 2)
    assert flight.dropped(1, 0) == 45 + 15
    assert flight.dropped(2, 1) is None


LEFT_WITH_A_LOSS = """time,member,cause,ref,result,lost,sent
0,0,join,-,in,0,-
0,0,draw,0/0/0,sent,0,0:0
0,1,join,-,in,0,-
10,0,draw,0/0/1,sent,0,0:1
20,1,data,0:1,fresh,1,-
25,1,leave,-,out,0,-
90,0,draw,0/0/2,sent,0,0:2
"""


def test_member_that_left_lacks_nothing_after_its_leave(capsys, tmp_path):
    given = scenario.chain(2, delay=10).drawing(0).draw(0).draw(10).draw(90).drop(0, 0).leave([1], at=25)
    (tmp_path / "trace.csv").write_text(LEFT_WITH_A_LOSS)
    history = History(given, read_trace(LEFT_WITH_A_LOSS.splitlines()))
    assert history.losses == [Loss(1, (0, 0, 0), 20, None, 25)]
    assert (history.losses[0].ended, history.losses[0].end) == ("left", 25)
    assert history.leaves == {1: 25}
    assert main([str(given.write(tmp_path / "one.toml")), str(tmp_path / "trace.csv")]) == 0
    text = capsys.readouterr().out
    assert "member 1 lacks 0/0/0 from 20 till it leaves at 25" in text
    assert "member 1 leaves at 25" in text
    box = re.search(r'class="loss" x="([^"]*)" y="[^"]*" width="([^"]*)"[^>]*><title>member 1 lacks', text)
    assert box is not None
    assert (float(box[1]) - 130 + float(box[2])) / (840 / 90) == pytest.approx(25, abs=0.01)


def test_trace_of_another_scenario_is_refused(capsys):
    words = [str(ROOT / "examples/two-nodes.toml"), str(ROOT / "examples/chain-of-five-one-loss.trace.csv")]
    assert main(words) == 1
    assert "member 2" in capsys.readouterr().err


def test_losses_that_do_not_fit_are_refused():
    given = read_scenario((ROOT / "examples/chain-of-five-one-loss.toml").read_text())
    lines = ["time,member,cause,ref,result,lost,sent", "0,0,draw,0/0/0,sent,0,0:0", "1,1,data,0:0,fresh,2,-"]
    with pytest.raises(ScenarioError, match="lost 2 names at tick 1, and not 0"):
        History(given, read_trace(lines))


@pytest.mark.parametrize("span, step", [(19, 2), (100, 10), (7, 1), (1, 1), (12345, 2000)])
def test_marks_of_an_axis(span, step):
    assert nice_step(span) == step
