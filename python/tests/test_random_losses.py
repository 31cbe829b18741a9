"""Losses at random: how they are written, and which packets they take, by the formula of docs/MODEL.md."""
import csv
import io
import random
import tomllib
from dataclasses import replace

import pytest

from srm_lab import read_scenario, run, scenario
from srm_lab.flight import Flight
from srm_lab.history import History
from srm_lab.loss_words import loss_word, mixed
from srm_lab.parts import Drop, RandomLoss
from srm_lab.tables import read_trace

PAIR = scenario.chain(2, delay=10).role([1], "listener").drawing(300)  # which of 300 packets the listener hears


def word(seed, stream, link, sender, count):
    """The word once more, with products and sums that are taken modulo 2^64 in the end only."""
    def f(z):
        z = ((z ^ (z // 2**30)) * 0xbf58476d1ce4e5b9) % 2**64
        z = ((z ^ (z // 2**27)) * 0x94d049bb133111eb) % 2**64
        return z ^ (z // 2**31)
    return f(f(f(f((seed + 0x9e3779b97f4a7c15) % 2**64) ^ stream) ^ (link * 65536 + sender)) ^ count) // 2**32


def test_words_are_those_of_the_formula():
    # the first numbers of SplitMix64 with seed 1234567
    assert [mixed((1234567 + step * 0x9e3779b97f4a7c15) % 2**64) for step in (1, 2)] == [
        6457827717110365317, 3203168211198807973]
    rng = random.Random(1)
    for _ in range(200):
        seed, stream = (rng.choice([0, 1, 2**63 - 1, rng.randrange(2**63)]) for _ in range(2))
        packet = rng.choice([0, 65534, rng.randrange(65535)]), rng.choice([0, 65534]), rng.choice([0, 2**48 - 1])
        assert loss_word(seed, stream, *packet) == word(seed, stream, *packet)


@pytest.mark.parametrize("words, elements", [
    ({}, [{"link": 0, "rate": 15000, "times": 10, "every": 1}]),
    ({"link": 2}, [{"link": 2, "rate": 15000}]),
    ({"link": "hops:3", "stream": 7}, [{"link": 2, "rate": 15000, "stream": 7}]),
    ({"link": 2, "first": 5, "last": 9}, [{"link": 2, "rate": 15000, "from": 5, "to": 10}]),
    ({"last": 0}, [{"link": 0, "rate": 15000, "to": 1, "times": 10, "every": 1}]),
])
def test_a_rate_is_written_as_losses_of_version_4(words, elements):
    made = scenario.chain(11).lose(rate=0.015, **words)
    table = tomllib.loads(made.text())
    assert (table["version"], table["loss"], "drop" in table) == (4, elements, False)
    again = read_scenario(made.text())
    assert replace(again, version=None).text() == made.text() and again.random_losses == made.random_losses


def test_rates_from_the_least_to_all():
    assert scenario.chain(2).lose(rate=0.000001).random_losses == (RandomLoss(0, 1),)
    assert scenario.chain(2).lose(rate=1).random_losses == (RandomLoss(0, 1_000_000),)
    assert scenario.chain(2).lose(rate=0) == scenario.chain(2)
    assert scenario.chain(1).lose(rate=0.5).random_losses == ()


def test_of_one_sender_or_of_the_first_packets_they_are_listed():
    given = scenario.chain(3).drawing(5)
    for made in (given.lose(rate=1, link=1, packets=2), replace(given, version=3).lose(rate=1, link=1, packets=2)):
        assert (made.settled.drops, made.random_losses, made.least_version) == ((Drop(1, 0, 0), Drop(1, 0, 1)), (), 1)
    assert len(given.lose(rate=1, sender=0).settled.drops) == 10


def test_a_loss_that_may_come_before_is_looked_at_where_data_has_to_be_lost():
    given = scenario.chain(3, delay=10).drawing(9, every=100)
    # the loss of the first draw may be found when the second comes, and asked for and repaired before the third
    with pytest.raises(scenario.ScenarioError, match="packet 4 of the source is drawn at tick 400, and from tick 150 on"):
        given.lose(rate=0.01, link=0).lose(every=4, link=1).check()
    given.lose(rate=0.01, link=0, first=801).lose(every=1, link=1, packets=2).check()


@pytest.mark.parametrize("seed", [0, 5, 2**63 - 1])
def test_the_program_loses_what_the_formula_says(srm_lab, seed):
    given = PAIR.lose(rate=0.3).lose(rate=0.4, first=100, last=149, stream=9).lose(rate=0.35, last=49)
    heard = {row["ref"] for row in csv.DictReader(io.StringIO(srm_lab(given.text(), "--seed", str(seed))))
             if row["cause"] == "data"}

    def is_lost(count):  # the packet comes to the link as it is drawn, at tick `count`
        own = word(seed, 0, 0, 0, count)
        return own < 350000 * 2**32 // 10**6 and (count < 50 or own < 300000 * 2**32 // 10**6) or (
            100 <= count < 150 and word(seed, 9, 0, 0, count) < 400000 * 2**32 // 10**6)

    assert heard == {f"0:{count}" for count in range(300) if not is_lost(count)}
    assert 60 < 300 - len(heard) < 160


def test_each_seed_of_a_run_loses_packets_of_its_own(program):
    found = run(PAIR.lose(rate=0.3), seeds=[7, 8, 9], tables="links", program=program, cache=None).links
    # 300 draws and a session message
    lost = [sum(word(seed, 0, 0, 0, count) < 300000 * 2**32 // 10**6 for count in range(301)) for seed in (7, 8, 9)]
    assert found["dropped"].tolist() == lost and len(set(lost)) > 1


def test_a_packet_stops_where_it_is_lost(srm_lab):
    given = scenario.chain(4, delay=10).drawing(40, every=40).lose(rate=0.1)
    history = History(given, read_trace(io.StringIO(srm_lab(given.text(), "--seed", "3"))))
    told = csv.DictReader(io.StringIO(srm_lab(given.text(), "--show", "links", "--seed", "3")))
    dropped = [0, 0, 0]
    for packet in history.packets.values():
        sender = given.members[packet.sender].node
        flight = Flight(packet, given, sender, 3)
        for node in range(4):
            near = flight.before(node)
            if near is not None and (at := flight.dropped(near, node)) is not None:
                assert at == flight.time_at(near) + 5
                dropped[min(near, node)] += 1
    assert dropped == [int(row["dropped"]) for row in told] and min(dropped) > 0
