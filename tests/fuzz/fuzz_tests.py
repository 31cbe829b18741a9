#!/usr/bin/env python3
"""Tests of fuzz.py on worked examples, so that it is known to refuse a wrong table. The program is not run."""
import pathlib
import random
import re
import sys
import tomllib
import unittest
from collections.abc import Iterator
from typing import Any

sys.dont_write_bytecode = True
TOP = pathlib.Path(__file__).resolve().parent.parent.parent
sys.path.append(str(TOP / "tests/program"))

import fuzz
import fuzz_format
import fuzz_replay
import fuzz_scenarios
import fuzz_tables
import fuzz_windows
import fuzz_worked
from fuzz_format import Link, Table
from program import End

ALL_VERSIONS = (1, 2, 3, 4, 5)

# what examples/chain-of-five-one-loss.toml says
CHAIN_OF_FIVE: Table = {
    "version": 1, "until": 100, "c1": 1000, "c2": 0, "d1": 1000, "d2": 0, "topology": "chain", "size": 5, "delay": 1,
    "member": [{"node": node, "role": "receiver" if node else "sender", "stream": node + 1} for node in range(5)],
    "draw": [{"member": 0, "page": 0, "ink": 7, "at": 0}, {"member": 0, "page": 0, "ink": 8, "at": 10}],
    "drop": [{"link": 1, "sender": 0, "count": 0}],
}
LOSSES = b"""\
member,source,page,number,detected,recovered,delay
2,0,0,0,12,17,5/4
3,0,0,0,13,18,5/6
4,0,0,0,14,19,5/8
"""
OPERATIONS = b"""\
source,page,number,losers,recovered,left,detected,asked,requests,repairs,last,delay
0,0,0,3,3,0,12,14,1,1,4,5/8
"""
TIMERS = b"""\
time,member,cause,ref,c1,c2,d1,d2,ave_dup_req,ave_req_delay,ave_dup_rep,ave_rep_delay
0,0,join,-,1000,0,1000,0,-,-,-,-
0,1,join,-,1000,0,1000,0,-,-,-,-
0,2,join,-,1000,0,1000,0,-,-,-,-
0,3,join,-,1000,0,1000,0,-,-,-,-
0,4,join,-,1000,0,1000,0,-,-,-,-
"""

# node 2 below node 0, nodes 1 and 3 below node 2, node 4 below node 1
#
#   0 --10/6-- 2 --3/4-- 1 --2/1-- 4
#              |
#              5/5-- 3
#
# link 0 joins 2 and 1, link 1 0 and 2, link 2 2 and 3, link 3 1 and 4; the first number is the way from the parent
PARENTS: Table = {
    "version": 3, "until": 100, "c1": 1000, "c2": 0, "d1": 1000, "d2": 0,
    "topology": "parents", "parent": [2, 0, 2, 1], "delays": [3, 10, 5, 2], "backs": [4, 6, 5, 1],
    "member": [{"node": node, "role": "receiver" if node else "sender", "stream": node} for node in (0, 3, 4)],
}


def worked() -> dict[str, bytes]:
    """The tables of the example."""
    tables = {it: (TOP / "examples" / f"chain-of-five-one-loss.{it}.csv").read_bytes()
              for it in ("trace", "members", "links", "scopes")}
    return {**tables, "losses": LOSSES, "operations": OPERATIONS, "timers": TIMERS}


def stored() -> Iterator[tuple[pathlib.Path, int, dict[str, bytes]]]:
    """Each scenario whose trace is stored, with the seed, and all tables that are stored."""
    for trace in sorted([*TOP.glob("examples/*.trace.csv"), *TOP.glob("tests/scenarios/*.trace.csv")]):
        run = trace.name.removesuffix(".trace.csv")
        name, _, seed = run.partition(".seed-")
        paths = {it: trace.with_name(f"{run}.{it}.csv") for it in fuzz_tables.HEADERS}
        tables = {it: path.read_bytes() for it, path in paths.items() if path.exists()}
        yield trace.with_name(f"{name}.toml"), int(seed or 0), tables


def program(tables: dict[str, bytes]) -> fuzz.Run:
    """A program that writes these tables, whatever it reads."""
    return lambda words, text: End(0, tables[words[-1] if "--show" in words else "trace"], b"")


def told(tables: dict[str, bytes], must: Table | str = CHAIN_OF_FIVE) -> str | None:
    """What is said of a program that writes these tables for a scenario, or None."""
    try:
        fuzz.check(program(tables), set(tables), fuzz_scenarios.Case("worked", b"", 0, must, None))
    except fuzz_tables.Wrong as wrong:
        return str(wrong)
    return None


def top(**changes: object) -> Table:
    """The example with keys changed, or dropped where the value is None."""
    return {key: value for key, value in {**CHAIN_OF_FIVE, **changes}.items() if value is not None}


class Tables(unittest.TestCase):
    def test_the_worked_tables_agree(self) -> None:
        self.assertIsNone(told(worked()))

    def test_all_stored_tables_agree(self) -> None:
        seen: set[str] = set()
        for path, seed, tables in stored():
            seen.update(tables)
            scenario = fuzz_format.Scenario(tomllib.loads(path.read_text(encoding="utf-8")), seed)
            computed = fuzz.expected(scenario, seed, tables["trace"])
            for name, text in tables.items():
                self.assertEqual(computed[name], text, f"{path.name}, seed {seed}: {name}")
        self.assertEqual(seen, set(fuzz_tables.HEADERS))

    def test_each_number_of_each_table_is_looked_at(self) -> None:
        for name, text in worked().items():
            for found in re.finditer(rb"[0-9]+", text):
                wrong = text[:found.start()] + str(int(found[0]) + 1).encode() + text[found.end():]
                self.assertIsNotNone(told({**worked(), name: wrong}), wrong)

    def test_each_line_of_each_table_is_looked_at(self) -> None:
        for name, text in worked().items():
            lines = text.splitlines(keepends=True)
            for at in range(len(lines)):
                for wrong in (lines[:at] + lines[at + 1:], lines[:at + 1] + lines[at:]):
                    self.assertIsNotNone(told({**worked(), name: b"".join(wrong)}), wrong)

    def test_each_word_of_the_trace_is_looked_at(self) -> None:
        text = worked()["trace"]
        for found in re.finditer(rb"[a-z]+", text):
            for word in {word for words in fuzz_tables.RESULTS.values() for word in words} - {found[0].decode()}:
                wrong = text[:found.start()] + word.encode() + text[found.end():]
                self.assertIsNotNone(told({**worked(), "trace": wrong}), wrong)


class Endings(unittest.TestCase):
    def test_ends_of_another_form_are_refused(self) -> None:
        line = b"refused: bad-key top 0\n"
        fuzz.is_in_form("trace", End(1, b"", line))
        ends = [End(status, b"", line) for status in (2, 101)] + [End(0, b"", b""), End(-11, b"", b""), End(0, b"x", line)]
        for end in [*ends, End(1, b"x", line), End(1, b"", line + line), End(1, b"", line[:-1])]:
            with self.assertRaises(fuzz_tables.Wrong):
                fuzz.is_in_form("trace", end)

    def test_a_scenario_that_must_be_refused_and_is_not_is_told(self) -> None:
        self.assertIsNotNone(told(worked(), "bad-draw 0"))


class Windows(unittest.TestCase):
    def test_runs_for_short_tables_of_long_traces_start_few_threads(self) -> None:
        rows = 5000
        must = {"trace": End(0, b"\n" * rows, b""), "links": End(0, b"\n" * 5, b"")}
        ran: list[list[str]] = []

        def run(words: list[str], text: bytes) -> End:
            ran.append(words)
            return must[words[-1]]

        for seed in range(50):
            fuzz.check_windows(run, {"promise"}, fuzz_scenarios.Case("worked", b"", seed, fuzz_scenarios.UNKNOWN, None), must)
        self.assertEqual(len(ran), 100)
        for words in ran:
            self.assertLessEqual(int(words[words.index("--workers") + 1]) * rows, fuzz_windows.THREADS, words)


class Refusals(unittest.TestCase):
    def test_first_refusals_come_in_the_stated_order(self) -> None:
        member, draw, drop = CHAIN_OF_FIVE["member"], CHAIN_OF_FIVE["draw"], CHAIN_OF_FIVE["drop"]
        outage: Table = {"link": 1, "from": 5, "to": 6}
        links = [{"a": 0, "b": 1, "delay": 1}, {"a": 1, "b": 0, "delay": 1}]
        explicit: Table = {"topology": None, "size": None, "delay": None, "nodes": 3}
        rows = [
            (None, top()),
            ("bad-key top 0", top(until=fuzz_format.LATEST + 1)),
            ("bad-key top 0", top(until=1.0)),
            (None, top(version=5)),
            ("bad-key top 0", top(version=6)),
            (None, top(version=2)),
            ("bad-key top 0", top(back=1)),
            (None, top(version=2, back=1)),
            ("bad-key top 0", top(version=2, back=0)),
            ("bad-key top 0", top(version=2, **explicit, link=links, back=1)),
            ("bad-key link 1", top(**explicit, link=[links[0], {**links[1], "back": 1}])),
            ("not-tree", top(version=2, **explicit, link=[links[0], {**links[1], "back": 1}])),
            ("bad-key top 0", top(nodes=5)),
            ("bad-key top 0", top(degree=2)),
            ("bad-key top 0", top(member=257 * member[:1])),
            ("bad-key draw 1", top(draw=[draw[0], {**draw[1], "color": 1}])),
            ("bad-key member 4", top(member=[*member[:4], {**member[4], "pages": [65536]}])),
            ("not-tree", top(**explicit, link=links)),
            ("not-tree", top(**explicit)),
            ("bad-member 1", top(member=[member[0], member[0]])),
            ("bad-member 0", top(topology="star")),
            ("bad-member 0", top(member=[{**member[0], "pages": []}])),
            ("bad-draw 0", top(draw=[{**draw[0], "member": 9}], drop=[{**drop[0], "link": 9}])),
            ("bad-draw 0", top(draw=[{**draw[0], "member": 1}])),
            ("bad-draw 1", top(draw=[draw[0], {**draw[1], "at": 100}])),
            ("bad-session 0", top(member=[{**member[0], "role": "listener"}], draw=[], session=[{"member": 0, "at": 1}])),
            ("bad-drop 0", top(drop=[{**drop[0], "link": 4}])),
            ("bad-key top 0", top(outage=[])),
            ("bad-key top 0", top(size=257)),
            ("bad-key member 0", top(member=[{**member[0], "node": 256}])),
            (None, top(version=2, size=1024, outage=[])),
            ("bad-key top 0", top(version=2, size=1025)),
            (None, top(version=2, size=1024, member=[{**it, "node": 1023 - it["node"]} for it in member])),
            ("bad-key member 0", top(version=2, size=1024, member=[{**member[0], "node": 1024}])),
            (None, top(version=2, outage=[outage])),
            ("bad-key outage 1", top(version=2, outage=[outage, {**outage, "to": 0}])),
            ("bad-outage 0", top(version=2, outage=[{**outage, "to": 5}])),
            ("bad-outage 1", top(version=2, outage=[outage, {**outage, "link": 4}])),
            ("bad-drop 0", top(version=2, drop=[{**drop[0], "link": 4}], outage=[{**outage, "link": 4}])),
        ]
        for must, it in rows:
            self.assertEqual(fuzz_format.refusal_of(it), must, it)


class Repetition(unittest.TestCase):
    def test_elements_stand_for_those_behind_them(self) -> None:
        rows: list[tuple[str, Table, list[Table]]] = [
            ("draw", {"member": 0, "page": 1, "ink": 9, "at": 5, "times": 3, "every": 40}, [
                {"member": 0, "page": 1, "ink": 9, "at": 5}, {"member": 0, "page": 1, "ink": 9, "at": 45},
                {"member": 0, "page": 1, "ink": 9, "at": 85},
            ]),
            ("session", {"member": 2, "at": 7, "times": 2}, [{"member": 2, "at": 7}, {"member": 2, "at": 8}]),
            ("session", {"member": 2, "at": 7, "every": 50}, [{"member": 2, "at": 7}]),
            ("drop", {"link": 4, "sender": 1, "count": 0, "times": 2, "every": 0}, [{"link": 4, "sender": 1, "count": 0}] * 2),
            ("outage", {"link": 1, "from": 10, "to": 12, "times": 2, "every": 100}, [
                {"link": 1, "from": 10, "to": 12}, {"link": 1, "from": 110, "to": 112},
            ]),
            ("loss", {"link": 1, "rate": 9, "from": 10, "times": 2, "every": 3}, [
                {"link": 1, "rate": 9, "from": 10}, {"link": 4, "rate": 9, "from": 10},
            ]),
            ("member", {"node": 3, "role": "late", "stream": 20, "pages": [1], "join": 4, "times": 2, "every": 5}, [
                {"node": 3, "role": "late", "stream": 20, "pages": [1], "join": 4},
                {"node": 8, "role": "late", "stream": 21, "pages": [1], "join": 4},
            ]),
        ]
        for part, element, made in rows:
            self.assertEqual(fuzz_format.copies(part, element), made)
            before = {**made[0], "stream": 1} if part == "member" else made[0]
            self.assertEqual(fuzz_format.repeated({part: [before, element]}), {part: [before, *made]})

    def test_each_made_scenario_is_accepted_in_its_version(self) -> None:
        for versions in ((1, 2), (3,), (4,), (5,), ALL_VERSIONS):
            for seed in range(30):
                made = fuzz_scenarios.scenario(random.Random(seed), versions)
                self.assertIn(made["version"], versions)
                self.assertIsNone(fuzz_format.refusal_of(made, versions), seed)

    def test_folding_changes_no_element(self) -> None:
        rng = random.Random(1)
        draws = [{"member": 0, "page": 0, "ink": 7, "at": at} for at in (0, 40, 80, 81, 82, 5, 5, 5, 4)]
        for _ in range(100):
            self.assertEqual(fuzz_format.repeated({"draw": fuzz_scenarios.folded(rng, "draw", draws)}), {"draw": draws})


class RefusalsOfVersion3(unittest.TestCase):
    def check(self, rows: list[tuple[str | None, Table]]) -> None:
        for must, it in rows:
            self.assertEqual(fuzz_format.refusal_of(it, ALL_VERSIONS), must, it)
            self.assertEqual(fuzz_format.refusal_of({**it, "version": 3}, (1, 2)), "bad-key top 0")

    def test_limits_of_constants(self) -> None:
        self.check([
            (None, top(version=3)),
            (None, top(version=3, c1=1024000, d2=0, d2_least=0, d2_most=1024000)),
            ("bad-key top 0", top(version=3, c1=1024001)),
            ("bad-key top 0", top(version=2, c1=64001)),
            (None, top(version=3, c1_least=1000, c1_most=1000)),
            ("bad-key top 0", top(version=3, c1_least=1001)),
            ("bad-key top 0", top(version=3, c1_most=999)),
            ("bad-key top 0", top(version=3, d2_most=1024001)),
            ("bad-key top 0", top(version=3, c1_least=True)),
            ("bad-key top 0", top(version=3, c1_most=1000.0)),
            (None, top(version=3, backoff=2)),
            (None, top(version=3, backoff=3)),
            ("bad-key top 0", top(version=3, backoff=1)),
            ("bad-key top 0", top(version=3, backoff=4)),
            ("bad-key top 0", top(version=2, backoff=2)),
            ("bad-key top 0", top(version=2, c1_least=1000)),
            (None, top(version=5)),
            ("bad-key top 0", top(version=6)),
        ])

    def test_parents(self) -> None:
        bare = {key: value for key, value in PARENTS.items() if key not in ("delays", "backs")}
        self.check([
            (None, PARENTS),
            ("bad-key top 0", {**PARENTS, "version": 2}),
            ("bad-key top 0", bare),
            (None, {**bare, "delay": 5}),
            (None, {**bare, "delay": 5, "back": 4}),
            (None, {**bare, "delay": 5, "backs": [1, 2, 3, 4]}),
            ("bad-key top 0", {**PARENTS, "delay": 5}),
            ("bad-key top 0", {**PARENTS, "back": 5}),
            ("bad-key top 0", {**PARENTS, "size": 5}),
            ("bad-key top 0", {**PARENTS, "nodes": 5}),
            ("bad-key top 0", {**PARENTS, "link": []}),
            ("bad-key top 0", {**PARENTS, "degree": 2}),
            ("bad-key top 0", {**PARENTS, "delays": [3, 10, 5]}),
            ("bad-key top 0", {**PARENTS, "backs": [4, 6, 5, 1, 1]}),
            ("bad-key top 0", {**PARENTS, "delays": [3, 10, 5, 0]}),
            ("bad-key top 0", {**PARENTS, "delays": 3}),
            ("bad-key top 0", {**PARENTS, "parent": [2, 0, 2, 65535]}),
            ("bad-key top 0", {**PARENTS, "parent": 4}),
            ("bad-key top 0", top(version=3, delays=[1, 1, 1, 1])),
            ("bad-key top 0", top(version=3, parent=[0])),
            ("not-tree", {**PARENTS, "parent": [2, 0, 2, 5]}),
            ("not-tree", {**PARENTS, "parent": [2, 1, 2, 1]}),
            ("not-tree", {**PARENTS, "parent": [2, 0, 3, 1], "member": [{"node": 9, "role": "late", "stream": 1}]}),
            (None, {**bare, "parent": [], "delays": [], "member": []}),
            ("bad-member 1", {**bare, "parent": [], "delay": 1}),
        ])

    def test_repetition(self) -> None:
        member, draw, drop = CHAIN_OF_FIVE["member"], CHAIN_OF_FIVE["draw"], CHAIN_OF_FIVE["drop"]
        two = {"times": 2, "every": 1}
        link = {"a": 0, "b": 1, "delay": 1, "times": 1}
        self.check([
            (None, top(version=3, member=[member[0], {**member[1], "times": 4}], draw=[{**draw[0], "times": 65535, "every": 0}])),
            ("bad-key draw 0", top(version=2, draw=[{**draw[0], "times": 2}])),
            ("bad-key draw 0", top(version=3, draw=[{**draw[0], "times": 0}])),
            ("bad-key draw 0", top(version=3, draw=[{**draw[0], "times": 65536}])),
            ("bad-key draw 1", top(version=3, draw=[draw[0], {**draw[0], "every": -1}])),
            ("bad-key draw 0", top(version=3, draw=[{**draw[0], "every": 2**40 + 1}])),
            ("bad-key draw 0", top(version=3, draw=[{**draw[0], "every": True}])),
            (None, top(version=3, draw=[{**draw[0], "every": 2**40}])),
            ("bad-draw 1", top(version=3, draw=[{**draw[0], "times": 2, "every": 2**40}])),
            ("bad-key draw 1", top(version=3, draw=[draw[0], {**draw[1], "times": 2, "every": 2**40}])),
            ("bad-key top 0", top(version=3, draw=[{**draw[0], "times": 65535, "every": 0}, draw[0]])),
            ("bad-key draw 1", top(version=3, draw=[{**draw[0], "times": 65534, "every": 0}, {"times": 0}])),
            ("bad-key top 0", top(version=3, draw=[{**draw[0], "times": 65535, "every": 0}, {"times": 0}])),
            ("bad-key top 0", top(version=3, member=[7], drop=[{**drop[0], "times": 65535}, 7])),
            ("bad-member 5", top(version=3, member=[member[0], {**member[1], "times": 5}])),
            ("bad-member 2", top(version=3, member=[member[0], {**member[1], "times": 2, "every": 0}])),
            ("bad-key member 1", top(version=3, member=[member[0], {**member[1], "times": 2, "every": 65534}])),
            ("bad-key member 0", top(version=3, member=[{**member[0], "stream": 2**63 - 1, "times": 2}])),
            ("bad-draw 3", top(version=3, draw=[{**draw[0], **two}, {**draw[1], "times": 2, "every": 90}])),
            (None, top(version=3, drop=[{**drop[0], "count": 2**32 - 2, **two}])),
            ("bad-key drop 0", top(version=3, drop=[{**drop[0], "count": 2**32 - 1, **two}])),
            ("bad-outage 2", top(version=3, outage=[{"link": 1, "from": 5, "to": 6, **two}, {"link": 1, "from": 6, "to": 6}])),
            ("bad-key outage 0", top(version=3, outage=[{"link": 1, "from": 0, "to": 2**40, **two}])),
            ("bad-key link 0", top(version=3, topology=None, size=None, delay=None, nodes=2, link=[link])),
        ])

    def test_larger_networks(self) -> None:
        self.check([
            (None, top(version=3, size=65535, member=[{"node": 65534, "role": "sender", "stream": 0}], draw=[], drop=[])),
            ("bad-key top 0", top(version=3, size=65536)),
            ("bad-key member 0", top(version=3, member=[{"node": 65535, "role": "sender", "stream": 0}])),
            (None, top(version=3, topology="tree", degree=65534)),
            ("bad-key top 0", top(version=3, topology="tree", degree=65535)),
            ("bad-drop 0", top(version=3, drop=[{"link": 65534, "sender": 0, "count": 0}])),
            ("bad-key drop 0", top(version=3, drop=[{"link": 65535, "sender": 0, "count": 0}])),
        ])


class RefusalsOfVersion4(unittest.TestCase):
    def test_losses(self) -> None:
        loss = {"link": 3, "rate": 1}
        rows: list[tuple[str | None, list[Any]]] = [
            (None, []),
            (None, [loss]),
            (None, [{**loss, "rate": 1000000, "stream": 2**63 - 1, "from": 0, "to": 1}]),
            (None, [{**loss, "from": 2**40}]),
            (None, [{**loss, "times": 65535, "every": 0}]),
            ("bad-key top 0", [{**loss, "times": 65535, "every": 0}, loss]),
            ("bad-key loss 0", [{**loss, "rate": 0}]),
            ("bad-key loss 0", [{**loss, "rate": 1000001}]),
            ("bad-key loss 0", [{**loss, "rate": 0.5}]),
            ("bad-key loss 0", [{**loss, "stream": 2**63}]),
            ("bad-key loss 0", [{**loss, "from": 2**40 + 1}]),
            ("bad-key loss 0", [{**loss, "to": 0}]),
            ("bad-key loss 0", [{**loss, "sender": 0}]),
            ("bad-key loss 0", [{"link": 0}]),
            ("bad-key loss 0", [{"rate": 1}]),
            ("bad-key loss 1", [loss, 7]),
            ("bad-key loss 0", [{**loss, "times": 2, "every": 65534}]),
            ("bad-loss 1", [loss, {**loss, "link": 4}]),
            ("bad-loss 1", [{**loss, "times": 2}]),
            ("bad-loss 0", [{**loss, "from": 5, "to": 5}]),
        ]
        for must, losses in rows:
            self.assertEqual(fuzz_format.refusal_of(top(version=4, loss=losses), ALL_VERSIONS), must, losses)
            self.assertEqual(fuzz_format.refusal_of(top(version=3, loss=losses), ALL_VERSIONS), "bad-key top 0")

    def test_losses_are_looked_at_last(self) -> None:
        outage = {"link": 4, "from": 0, "to": 1}
        both = top(version=4, outage=[outage], loss=[{"link": 4, "rate": 1}])
        self.assertEqual(fuzz_format.refusal_of(both, ALL_VERSIONS), "bad-outage 0")


class RefusalsOfVersion5(unittest.TestCase):
    def check(self, rows: list[tuple[str | None, Table]]) -> None:
        """In version 5 the stated refusal, and in version 4 one of the part in which the key stands."""
        for must, it in rows:
            self.assertEqual(fuzz_format.refusal_of(top(version=5, **it), ALL_VERSIONS), must, it)
            part = next(iter(it)) if "loss" in it or "member" in it else "top"
            before = fuzz_format.refusal_of(top(version=4, **it), ALL_VERSIONS)
            self.assertEqual((before or "").split()[:2], ["bad-key", part], it)

    def test_local_recovery(self) -> None:
        self.check([
            (None, {"scope": 0}), (None, {"scope": 65535}), ("bad-key top 0", {"scope": 65536}), ("bad-key top 0", {"scope": -1}),
            ("bad-key top 0", {"scope": True}), ("bad-key top 0", {"scope": 1.0}),
            (None, {"widen": 0}), (None, {"widen": 65535}), ("bad-key top 0", {"widen": 65536}), ("bad-key top 0", {"widen": -1}),
            (None, {"tries": 1}), (None, {"tries": 10}), ("bad-key top 0", {"tries": 0}), ("bad-key top 0", {"tries": 11}),
            (None, {"steps": 1}), (None, {"steps": 2}), ("bad-key top 0", {"steps": 0}), ("bad-key top 0", {"steps": 3}),
        ])

    def test_scopes_of_members(self) -> None:
        member = CHAIN_OF_FIVE["member"]
        listener = {**member[1], "role": "listener"}
        self.check([
            (None, {"member": [{**member[0], "scope": 3}, {**member[1], "scope": 65535}]}),
            (None, {"member": [member[0], {**member[2], "role": "late", "scope": 0}, listener]}),
            (None, {"member": [member[0], {**member[1], "scope": 2, "times": 4}]}),
            ("bad-key member 1", {"member": [member[0], {**member[1], "scope": 65536}]}),
            ("bad-key member 0", {"member": [{**member[0], "scope": 1.0}]}),
            ("bad-member 1", {"member": [member[0], {**listener, "scope": 1}]}),
            ("bad-member 2", {"member": [member[0], {**member[1], "scope": 1}, {**listener, "node": 2, "scope": 0}]}),
        ])

    def test_bursts(self) -> None:
        loss = {"link": 3, "rate": 1}
        self.check([
            (None, {"loss": [{**loss, "burst": 1}, loss]}),
            (None, {"loss": [{**loss, "burst": 2**40, "times": 2, "every": 0}]}),
            ("bad-key loss 0", {"loss": [{**loss, "burst": 0}]}),
            ("bad-key loss 1", {"loss": [loss, {**loss, "burst": 2**40 + 1}]}),
            ("bad-key loss 0", {"loss": [{**loss, "burst": 1.5}]}),
            ("bad-loss 0", {"loss": [{**loss, "burst": 1, "from": 5, "to": 5}]}),
        ])


class Losses(unittest.TestCase):
    def test_words_are_made_by_the_published_function(self) -> None:
        # the first two numbers of SplitMix64 with seed 1234567
        golden = 0x9e3779b97f4a7c15
        found = [fuzz_format.mixed(1234567 + step * golden & 2**64 - 1) for step in (1, 2)]
        self.assertEqual(found, [6457827717110365317, 3203168211198807973])

    def test_a_loss_takes_the_words_below_its_rate_while_it_is_on(self) -> None:
        half = fuzz_format.loss_of({"link": 0, "rate": 500000, "from": 5, "to": 8})
        taken = [half.takes(word, time) for word, time in ((2**31 - 1, 5), (2**31, 5), (0, 4), (0, 7), (0, 8))]
        self.assertEqual(taken, [True, False, False, True, False])
        whole = fuzz_format.loss_of({"link": 0, "rate": 1000000})
        self.assertTrue(whole.takes(2**32 - 1, 2**40))
        least = fuzz_format.loss_of({"link": 0, "rate": 1})
        self.assertEqual([least.takes(word, 0) for word in (4293, 4294)], [True, False])

    def test_the_share_that_is_lost_is_the_rate(self) -> None:
        for rate in (10_000, 300_000, 999_000):
            bound, packets = rate * 2**32 // 1000000, 100_000
            lost = sum(fuzz_format.word_of(7, 0, 3, (5, number)) < bound for number in range(packets))
            share = rate / 1000000
            self.assertLess(abs(lost - packets * share), 4 * (packets * share * (1 - share)) ** 0.5)

    def test_in_bursts_the_slot_decides(self) -> None:
        # words of stream 1 on link 1 with seed 0, worked from the published function
        found = [fuzz_format.word_of(0, 1, 1, (65535, slot)) for slot in range(5)]
        self.assertEqual(found, [0xddf66d04, 0x0f7bf471, 0x5edac5a1, 0x387b7a55, 0x7822a23e])
        chain = {**CHAIN_OF_FIVE, "version": 5, "loss": [{"link": 1, "rate": 100000, "stream": 1, "burst": 40}]}
        network = fuzz_format.Scenario(chain)
        taken = [at for at in range(200) if network.is_lost(1, (at % 5, at), at)]
        self.assertEqual(taken, list(range(40, 80)))

    def test_a_packet_is_followed_up_to_the_loss_that_takes_it(self) -> None:
        # member 0 sends at 50: its packet comes to link 1 at 50, to links 0 and 2 at 60 and to link 3 at 63
        rows: list[tuple[list[Table], set[int], set[int], set[int]]] = [
            ([{"link": 0, "rate": 1000000}], {1}, {1, 2}, {0}),
            ([{"link": 0, "rate": 1000000, "from": 61}], {1, 2}, {0, 1, 2, 3}, set()),
            ([{"link": 0, "rate": 1000000, "to": 60}], {1, 2}, {0, 1, 2, 3}, set()),
            ([{"link": 3, "rate": 1000000, "from": 63, "to": 64}], {1}, {0, 1, 2}, {3}),
            ([{"link": 0, "rate": 1000000, "times": 2}], set(), set(), {1}),
        ]
        for losses, reached, crossed, dropped in rows:
            network = fuzz_format.Scenario({**PARENTS, "version": 4, "loss": losses})
            self.assertEqual(network.fate(0, 9, 50), (reached, crossed, dropped), losses)


class AdaptiveTimers(unittest.TestCase):
    def test_worked_sessions_go_by_the_worked_timers(self) -> None:
        for scenario, trace, timers in fuzz_worked.SESSIONS:
            self.assertEqual(fuzz.expected(fuzz_format.Scenario(scenario), 0, trace)["timers"], timers)

    def test_constants_move_by_the_stated_steps(self) -> None:
        # duplicates and delay, averaged, in thousandths, and whether the member sent first: steps of start and width
        rows = [
            ((1000, 0, False), (100, 500)), ((5000, 2000, False), (100, 500)),
            ((999, 0, False), (50, 0)), ((900, 2000, False), (50, 0)),
            ((899, 1000, False), (0, 0)), ((899, 1001, False), (0, -100)),
            ((250, 1000, False), (0, 0)), ((249, 1000, False), (-50, 0)),
            ((0, 1001, False), (-50, -100)), ((0, 1001, True), (0, -100)), ((5000, 0, True), (0, -100)),
        ]
        for seen, moved in rows:
            self.assertEqual(fuzz_replay.steps(*seen), moved, seen)

    def test_an_interval_adapts_period_by_period_within_its_limits(self) -> None:
        given = {"c1": 1000, "c2": 300, "c1_least": 930, "c1_most": 1050, "c2_most": 400}
        interval = fuzz_replay.Interval(given, "c1", "c2")

        def seen() -> tuple[int, int, int | None, int | None]:
            return interval.start.value, interval.width.value, interval.ave_duplicates, interval.ave_delay

        interval.hear_duplicate()
        interval.begin_period()
        self.assertEqual(seen(), (1000, 300, None, None), "nothing is adapted before a delay is known")
        interval.take_in_delay(45, 30)
        self.assertEqual(seen(), (1000, 300, None, 750), "45 ticks of a round trip of 60")
        interval.hear_duplicate()
        interval.hear_duplicate()
        interval.begin_period()
        self.assertEqual(seen(), (1050, 400, 2000, 750), "up, as far as the limits")
        interval.begin_period()
        self.assertEqual(seen(), (1050, 400, 1500, 750))
        interval.send_first()
        interval.take_in_delay(7, 0)
        self.assertEqual(seen(), (1000, 400, 1500, 1437), "no distance counts as one tick: (3 * 750 + 3500) / 4")
        interval.begin_period()
        self.assertEqual(seen(), (1000, 300, 1125, 1437), "who sent first narrows the width alone, which has no room below 300")
        interval.send_first()
        interval.send_first()
        self.assertEqual(seen(), (930, 300, 1125, 1437), "down, as far as the limits")

    def test_spans_grow_by_the_factor_of_backoff_up_to_its_end(self) -> None:
        # all constants 1000 and no width, half a round trip of 20 ticks: a timer lasts 20 ticks times the factor
        for factor, backoffs, length in ((2, 0, 20), (2, 10, 20480), (3, 1, 60), (3, 6, 14580), (3, 10, 14580)):
            scenario = fuzz_format.Scenario({**CHAIN_OF_FIVE, "version": 3, "delay": 20, "backoff": factor})
            member = fuzz_replay.Member(scenario, 0, 1)
            self.assertEqual(member.drawn(backoffs, member.requests, 0), length)


class LocalRecovery(unittest.TestCase):
    def test_each_number_of_a_local_recovery_is_looked_at(self) -> None:
        path, _, tables = next(it for it in stored() if it[0].stem == "local-recovery")
        scenario = tomllib.loads(path.read_text(encoding="utf-8"))
        self.assertIsNone(told(tables, scenario))
        for name, text in tables.items():
            for found in re.finditer(rb"[0-9]+", text):
                wrong = text[:found.start()] + str(int(found[0]) + 1).encode() + text[found.end():]
                self.assertIsNotNone(told({**tables, name: wrong}, scenario), wrong)

    def test_scopes_of_requests_grow_up_to_all(self) -> None:
        rows: list[tuple[Table, list[int | None]]] = [
            ({}, [None, None]), ({"scope": 0, "tries": 9, "widen": 5}, [None, None]), ({"scope": 3}, [3, None]),
            ({"scope": 3, "widen": 2, "tries": 4}, [3, 5, 7, 9, None]),
            ({"scope": 65000, "widen": 500, "tries": 4}, [65000, 65500, 65535]),
        ]
        for given, scopes in rows:
            member = fuzz_replay.Member(fuzz_format.Scenario({**CHAIN_OF_FIVE, **given}), 0, 2)
            self.assertEqual([member.scope_of_request(backoffs) for backoffs in range(len(scopes))], scopes, given)

    def test_scopes_of_repairs_in_one_step_and_in_two(self) -> None:
        for steps, scope in ((1, 65535 + 3), (2, 65535)):
            member = fuzz_replay.Member(fuzz_format.Scenario({**CHAIN_OF_FIVE, "steps": steps}), 0, 1)
            self.assertEqual(member.scope_of_repair(4, 65535), scope)

    def test_marks_serve_those_that_heard(self) -> None:
        # member 3, one hop from members 2 and 4 and two from member 1: a mark, and which requests it serves
        member = fuzz_replay.Member(fuzz_format.Scenario(CHAIN_OF_FIVE), 0, 3)
        rows: list[tuple[tuple[int, int, int] | None, int, int | None, bool]] = [
            (None, 2, None, True), (None, 2, 9, True), ((2, 9, 9), 2, None, False),
            ((2, 2, 0), 2, 2, True), ((2, 2, 0), 2, 1, True), ((2, 2, 0), 2, 3, False),
            ((2, 2, 0), 4, 1, False), ((2, 2, 1), 4, 1, False), ((2, 2, 2), 4, 1, True), ((2, 2, 2), 1, 1, False),
            ((3, 2, 1), 3, 2, False), ((3, 2, 2), 3, 2, True),
        ]
        for given, requester, width, does in rows:
            mark = None if given is None else fuzz_replay.Mark(*given)
            self.assertEqual(member.serves(mark, requester, width), does, (given, requester, width))

    def test_a_packet_is_followed_up_to_where_its_scope_ends(self) -> None:
        # member 1 is two hops from member 0, by links 1 and 2, and member 2 is three, by links 1, 0 and 3
        drop: Table = {"drop": [{"link": 0, "sender": 0, "count": 9}]}
        rows: list[tuple[Table, int, set[int], set[int], set[int]]] = [
            ({}, 1, set(), {1}, set()), ({}, 2, {1}, {0, 1, 2}, set()), ({}, 3, {1, 2}, {0, 1, 2, 3}, set()),
            (drop, 1, set(), {1}, set()), (drop, 2, {1}, {1, 2}, {0}), (drop, 9, {1}, {1, 2}, {0}),
        ]
        for changes, scope, reached, crossed, dropped in rows:
            network = fuzz_format.Scenario({**PARENTS, **changes})
            self.assertEqual(network.fate(0, 9, 50, scope), (reached, crossed, dropped), (changes, scope))


class Model(unittest.TestCase):
    def test_words_are_those_of_the_published_generator(self) -> None:
        words = fuzz_replay.Words(42, 54)
        found = [f"{words.next():08x}" for _ in range(6)]
        self.assertEqual(found, ["a15c02b7", "7b47f409", "ba1d3330", "83d2f293", "bfa4784b", "cbed606e"])

    def test_an_outage_takes_what_comes_to_its_link_while_it_is_on(self) -> None:
        for (first, end), reached in (((5, 6), {1}), ((4, 5), {1, 2}), ((6, 7), {1, 2})):
            outage = {"link": 1, "from": first, "to": end}
            members = CHAIN_OF_FIVE["member"][:3]
            network = fuzz_format.Scenario({**CHAIN_OF_FIVE, "size": 3, "delay": 5, "member": members, "outage": [outage]})
            self.assertEqual(network.fate(0, 9, 0).reached, reached)
            self.assertEqual(network.fate(0, 9, 10).reached, {1, 2})

    def test_parents_in_a_tree_are_numbered_breadth_first(self) -> None:
        for size, degree, parents in ((8, 3, [0, 0, 0, 1, 1, 2, 2]), (5, 2, [0, 0, 1, 2])):
            links = fuzz_format.links_of({"topology": "tree", "size": size, "degree": degree, "delay": 2})
            self.assertEqual(links, [(parent, at + 1, 2, 2) for at, parent in enumerate(parents)])

    def test_a_link_joins_a_node_to_its_parent_and_takes_its_delay_from_there(self) -> None:
        links: list[Link] = [(2, 1, 3, 4), (0, 2, 10, 6), (2, 3, 5, 5), (1, 4, 2, 1)]
        self.assertEqual(fuzz_format.links_of(PARENTS), links)
        without = {key: value for key, value in PARENTS.items() if key != "backs"}
        self.assertEqual(fuzz_format.links_of(without), [(a, b, delay, delay) for a, b, delay, _ in links])
        self.assertEqual(fuzz_format.links_of({**without, "back": 9}), [(a, b, delay, 9) for a, b, delay, _ in links])

    def test_ways_in_a_tree_of_parents(self) -> None:
        network = fuzz_format.Scenario(PARENTS)
        pairs = ((0, 1), (1, 0), (0, 2), (2, 0), (1, 2), (2, 1))
        self.assertEqual([network.distance(*it) for it in pairs], [15, 11, 15, 11, 10, 10])
        self.assertEqual([network.half_round_trip(*it) for it in ((0, 1), (2, 0), (1, 2))], [13, 13, 10])
        self.assertEqual((network.path(0, 2), network.times(0, 2, 50)), ([1, 0, 3], [50, 60, 63, 65]))

    def test_fates_in_a_tree_of_parents(self) -> None:
        # a packet that member 0 sends at 50 comes to link 1 at 50, to links 0 and 2 at 60 and to link 3 at 63
        outage: Table = {"from": 62, "to": 64}
        rows: list[tuple[Table, set[int], set[int], set[int]]] = [
            ({}, {1, 2}, {0, 1, 2, 3}, set()),
            ({"drop": [{"link": 0, "sender": 0, "count": 9}]}, {1}, {1, 2}, {0}),
            ({"drop": [{"link": 1, "sender": 0, "count": 9}, {"link": 0, "sender": 0, "count": 9}]}, set(), set(), {1}),
            ({"outage": [{**outage, "link": 3}]}, {1}, {0, 1, 2}, {3}),
            ({"outage": [{**outage, "link": 0}]}, {1, 2}, {0, 1, 2, 3}, set()),
            ({"member": PARENTS["member"][:2]}, {1}, {1, 2}, set()),
        ]
        for changes, reached, crossed, dropped in rows:
            self.assertEqual(fuzz_format.Scenario({**PARENTS, **changes}).fate(0, 9, 50), (reached, crossed, dropped), changes)


if __name__ == "__main__":
    unittest.main()
