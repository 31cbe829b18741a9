"""Each key of the format has a verb that sets it; verbs and seeds that are none are told in a sentence."""
import tomllib
from collections.abc import Callable

import numpy
import pytest
from test_packaging import KEYS, ROOT

from srm_lab import Scenario, ScenarioError, __version__, scenario, sweep
from srm_lab.cli import main
from srm_lab.page import command as page_command
from srm_lab.repetition import DEFAULTS

CHAIN = scenario.chain(4)


def top(**words: int) -> dict[str, Callable[[], tuple[Scenario, dict]]]:
    """For each constant that `constants` takes a scenario in which it has the value, in thousandths."""
    return {key: lambda key=key, value=value: (CHAIN.constants(**{key: value / 1000}), {key: value})  # type: ignore[misc]
            for key, value in words.items()}


# for each key a scenario whose file has it, and what stands there of the top table or of the part's last element
SETS: dict[str, Callable[[], tuple[Scenario, dict]]] = {
    "version": lambda: (CHAIN.in_version(3), {"version": 3}),
    "until": lambda: (CHAIN.ends(777), {"until": 777}),
    **top(c1=1500, c2=700, d1=300, d2=1, c1_least=10, c2_least=20, d1_least=30, d2_least=40, c1_most=9000, c2_most=9100,
          d1_most=9200, d2_most=9300),
    "backoff": lambda: (CHAIN.constants(backoff=3), {"backoff": 3}),
    "scope": lambda: (CHAIN.local_recovery(scope=2), {"version": 5, "scope": 2}),
    "widen": lambda: (CHAIN.local_recovery(scope=2, widen=3), {"widen": 3}),
    "tries": lambda: (CHAIN.local_recovery(scope=2, tries=4), {"tries": 4}),
    "steps": lambda: (CHAIN.local_recovery(scope=2, steps=1), {"steps": 1}),
    "nodes": lambda: (scenario.random_tree(5), {"nodes": 5}),
    "topology": lambda: (CHAIN, {"topology": "chain"}),
    "size": lambda: (scenario.star(6), {"topology": "star", "size": 6}),
    "degree": lambda: (scenario.regular_tree(9, degree=3), {"topology": "tree", "degree": 3}),
    "delay": lambda: (CHAIN.delay(70), {"delay": 70}),
    "back": lambda: (CHAIN.back(7), {"delay": 1000, "back": 7}),
    "parent": lambda: (scenario.from_parents([2, 0, 2], delay=9, back=8), {
        "topology": "parents", "parent": [2, 0, 2], "delay": 9, "back": 8}),
    "delays": lambda: (scenario.from_parents([2, 0, 2], delay=[4, 5, 6]), {"delays": [4, 5, 6]}),
    "backs": lambda: (scenario.from_parents([2, 0, 2], back=[4, 5, 6]), {"delay": 1000, "backs": [4, 5, 6]}),
    "link": lambda: (CHAIN.delay(5, most=9), {}),
    "member": lambda: (scenario.chain(2), {}),
    "draw": lambda: (CHAIN.draw(3000), {}),
    "session": lambda: (CHAIN.session(3000), {}),
    "drop": lambda: (CHAIN.drop(1, 3), {}),
    "outage": lambda: (CHAIN.outage(1, first=20, last=29), {}),
    "loss": lambda: (CHAIN.lose(rate=0.01, link=1), {}),
    "link.a": lambda: (scenario.random_tree(2), {"a": 0}),
    "link.b": lambda: (scenario.random_tree(2), {"b": 1}),
    "link.delay": lambda: (CHAIN.delay(5, most=5), {"delay": 5}),
    "link.back": lambda: (scenario.random_tree(2).back(3), {"back": 3}),
    "member.node": lambda: (scenario.chain(9, members=1).member(7), {"node": 7}),
    "member.role": lambda: (CHAIN.role([3], "listener"), {"role": "listener"}),
    "member.stream": lambda: (scenario.chain(9, members=1).member(7, stream=99), {"stream": 99}),
    "member.join": lambda: (CHAIN.join([3], at=20), {"join": 20}),
    "member.leave": lambda: (CHAIN.leave([3], at=20), {"leave": 20}),
    "member.pages": lambda: (CHAIN.role([3], "late", pages=[5, 6]), {"pages": [5, 6]}),
    "member.scope": lambda: (CHAIN.local_recovery(scope={3: 2}), {"scope": 2}),
    "draw.member": lambda: (CHAIN.role([3], "sender").draw(3000, member=3), {"member": 3}),
    "draw.page": lambda: (CHAIN.draw(3000, page=8), {"page": 8}),
    "draw.ink": lambda: (CHAIN.draw(3000, ink=77), {"ink": 77}),
    "draw.at": lambda: (CHAIN.draw(3000), {"at": 3000}),
    "session.member": lambda: (CHAIN.session(3000, member=2), {"member": 2}),
    "session.at": lambda: (CHAIN.session(3000), {"at": 3000}),
    "drop.link": lambda: (CHAIN.drop(2, 7), {"link": 2}),
    "drop.sender": lambda: (CHAIN.drop(2, 7, sender=3), {"sender": 3}),
    "drop.count": lambda: (CHAIN.drop(2, 7), {"count": 7}),
    "outage.link": lambda: (CHAIN.outage(2, first=20, last=29), {"link": 2}),
    "outage.from": lambda: (CHAIN.outage(2, first=20, last=29), {"from": 20}),
    "outage.to": lambda: (CHAIN.outage(2, first=20, last=29), {"to": 30}),
    "loss.link": lambda: (CHAIN.lose(rate=0.01, link=2), {"link": 2}),
    "loss.rate": lambda: (CHAIN.lose(rate=0.01, link=2), {"rate": 10_000}),
    "loss.stream": lambda: (CHAIN.lose(rate=0.01, link=2, stream=5), {"stream": 5}),
    "loss.from": lambda: (CHAIN.lose(rate=0.01, link=2, first=20), {"from": 20}),
    "loss.to": lambda: (CHAIN.lose(rate=0.01, link=2, last=29), {"to": 30}),
    "loss.burst": lambda: (CHAIN.lose(rate=0.01, link=2, burst=50), {"burst": 50}),
}


def keys_of_the_format():
    """The keys in the tables of docs/FORMATS.md, those of elements behind their part."""
    text = (ROOT / "docs/FORMATS.md").read_text()
    tables = text[text.index("The keys of the top table"):text.index("Nodes, members, links and all other elements")]
    for cells in KEYS.findall(tables):
        part, *keys = [cell.replace("`", "").split(", ") for cell in cells.strip("| ").split(" | ")]
        yield from (f"{part[0]}.{key}" for key in keys[0]) if keys else part


def test_each_key_of_the_format_has_a_verb():
    found = {key for key in keys_of_the_format() if key.split(".")[-1] not in DEFAULTS}  # as these a file is written
    assert len(found) > 50 and found == SETS.keys()


@pytest.mark.parametrize("key", SETS)
def test_verb_sets_its_key(key):
    given, wanted = SETS[key]()
    table = tomllib.loads(given.text())
    part, _, own = key.rpartition(".")
    element = table[part][-1] if part else table
    assert own in element and {one: element[one] for one in wanted} == wanted


def test_fixed_timers_with_the_backoff_of_adaptive_ones(capsys):
    # the timers of Floyd et al. for 9 members, without and with room
    fixed = scenario.chain(9).constants(d1="log10", backoff=3)
    adaptive = scenario.chain(9).adaptive(d2=1)
    assert (fixed.c1, fixed.c2, fixed.d1, fixed.d2, fixed.backoff) == (
        adaptive.c1, adaptive.c2, adaptive.d1, adaptive.d2, adaptive.backoff) == (2000, 2000, 954, 1000, 3)
    assert adaptive.constants(backoff=2).backoff == 2
    assert main("chain --size 9 --d1 log10 --backoff 3".split()) == 0
    assert tomllib.loads(capsys.readouterr().out)["backoff"] == 3
    assert main("chain --size 9 --adaptive --backoff 2".split()) == 0
    assert "backoff" not in tomllib.loads(capsys.readouterr().out)
    with pytest.raises(ScenarioError, match="backoff is 4, and has to be 2 to 3"):
        fixed.constants(backoff=4)


def test_backoff_is_a_parameter_of_a_sweep(program):
    table = sweep({"backoff": [2, 3]}, CHAIN.drop(1, 0), seeds=2, program=program, cache=None)
    assert table["backoff"].unique().tolist() == [2, 3]


@pytest.mark.parametrize("place, name, told", [
    (CHAIN, "drwaing", "a scenario has no 'drwaing' (did you mean 'drawing'?)"),
    (CHAIN, "lose_operation", "a scenario has no 'lose_operation' (did you mean 'lose_operations'?)"),
    (scenario, "satr", "srm_lab.scenario has no 'satr' (did you mean 'star'?)"),
    (scenario, "from_grpah", "srm_lab.scenario has no 'from_grpah' (did you mean 'from_graph'?)"),
    (CHAIN, "zzz", "a scenario has no 'zzz'"),
])
def test_misspelt_verb_is_told(place, name, told):
    with pytest.raises(AttributeError) as fault:
        getattr(place, name)
    assert str(fault.value) == told


@pytest.mark.parametrize("words, told", [
    ("chian --size 3", "there is no 'chian' (did you mean 'chain'?): there are chain, star, tree, random, file, map"),
    ("chain --size 3 --drop-evry 2", "there is no option --drop-evry (did you mean '--drop-every'?)"),
    ("chain --size 3 --drop-evry=2", "there is no option --drop-evry=2 (did you mean '--drop-every'?)"),
    ("file net.gml --spanning-tree shortst", "there is no 'shortst' (did you mean 'shortest'?): there are shortest, minimum"),
    ("page net.toml --sed 3", "there is no option --sed (did you mean '--seed'?)"),
    ("chain --size three", "argument --size: invalid int value: 'three'"),
])
def test_misspelt_word_of_the_command_line_is_told_in_a_line(words, told, capsys):
    with pytest.raises(SystemExit) as end:
        main(words.split())
    text = capsys.readouterr()
    assert end.value.code == 2 and text.out == "" and told in text.err and text.err.count("\n") == 1


@pytest.mark.parametrize("word", ["--version", "-V"])
def test_version_of_the_command(word, capsys):
    with pytest.raises(SystemExit) as end:
        main([word])
    assert end.value.code == 0 and capsys.readouterr().out == f"srm-scenarios {__version__}\n"


@pytest.mark.parametrize("make", [
    lambda seed: scenario.chain(3, seed=seed),
    lambda seed: scenario.random_tree(3, seed=seed),
    lambda seed: scenario.from_parents([0], seed=seed),
    lambda seed: scenario.chain(3).lose(every=2, link="random", seed=seed),
    lambda seed: scenario.chain(3).lose(rate=0.5, packets=3, seed=seed),
    lambda seed: scenario.chain(3).leave(1, at=(5, 9), seed=seed),
    lambda seed: scenario.chain(3).back(5, most=9, seed=seed),
])
def test_seeds_are_whole_numbers_from_0_on(make):
    for number in (-1, 2**63):
        with pytest.raises(ScenarioError, match=f"seed is {number}, and has to be 0 to 9223372036854775807"):
            make(number)
    for seed in (0.5, "1", True):
        with pytest.raises(ScenarioError, match=f"seed is {seed!r}, and has to be a whole number"):
            make(seed)
    assert make(numpy.int64(3)).text() == make(3).text()


def test_negative_seed_on_the_command_line(tmp_path, capsys):
    assert main("chain --size 3 --seed -1".split()) == 1
    assert capsys.readouterr() == ("", "srm-scenarios: seed is -1, and has to be 0 to 9223372036854775807\n")
    path = scenario.chain(3).write(tmp_path / "chain.toml")
    assert page_command.main([str(path), "--seed", "-1"]) == 1
    assert capsys.readouterr() == ("", "srm-scenarios page: --seed is -1, and has to be 0 to 9223372036854775807\n")
