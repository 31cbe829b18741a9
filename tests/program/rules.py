#!/usr/bin/env python3
"""Holds what the built program prints of its rules (--rules) to what it accepts: each table of each version, by its own words.

usage: tests/program/rules.py [-q] [TEST ..]

That the rules are those that the reader of scenarios is proved against is a clause. Here each table is written with the keys that
it needs alone, and then each key at both ends of its range, and one past them; and a key that may be left out is written as it
is by default, which must change nothing.
"""
import functools
import json
import sys
import unittest
from collections.abc import Iterator
from typing import Any

sys.dont_write_bytecode = True

from program import REFUSED_LINE, End, refused
from program_case import ProgramCase, main

Table = dict[str, Any]
Rule = dict[str, Any]
CONSTANTS = ("c1", "c2", "d1", "d2")
# what these keys hold beside others, whose ranges depend on them
SHOWN: Table = {**dict.fromkeys(CONSTANTS, 7), "parent": [0, 0]}


def least(rule: Rule, table: Table) -> Any:
    """The least that a key may hold in a table."""
    if rule["type"] == "number":
        return bound(rule["least"], table)
    if rule["type"] == "word":
        return rule["words"][0]
    if "length" in rule:
        return [rule["least"]] * len(table[rule["length"]])
    return []


def bound(told: int | str, table: Table) -> int:
    """An end of a range, which is a number, or that at a key of the same table."""
    return table[told] if isinstance(told, str) else told


def ends(rule: Rule, table: Table) -> Iterator[tuple[Any, bool]]:
    """Values at the ends of what a key may hold, and past them; and whether they are allowed."""
    if rule["type"] == "word":
        yield from ((word, True) for word in rule["words"])
        yield from ((rule["words"][0] + "s", False), (1, False))
    elif rule["type"] == "number":
        low, high = bound(rule["least"], table), bound(rule["most"], table)
        yield from ((low, True), (high, True), (low - 1, False), ("one", False))
        if high < 2**63 - 1:
            yield high + 1, False
    elif rule["type"] == "numbers":
        long = len(table[rule["length"]]) if "length" in rule else rule["longest"]
        low, high = rule["least"], rule["most"]
        yield from (([low] * long, True), ([high] * long, True), ([low] * (long + 1), False), (low, False))
        yield from (([low - 1] * max(long, 1), False), ([high + 1] * max(long, 1), False))
    else:
        yield from (([], True), ({}, False), ([{}] * (rule["longest"] + 1), False))


def written(value: Any) -> str:
    """A value in TOML."""
    if isinstance(value, list):
        return f"[{','.join(map(written, value))}]"
    if isinstance(value, dict):
        return f"{{{','.join(f'{key}={written(one)}' for key, one in value.items())}}}"
    return json.dumps(value)


def text_of(top: Table) -> bytes:
    """A scenario in TOML."""
    return "".join(f"{key} = {written(value)}\n" for key, value in top.items()).encode()


class Rules(ProgramCase):
    @functools.cache
    def document(self) -> dict[str, Any]:
        """What --rules prints."""
        end, unread = self.program.run_on_pipe(["--rules"], b"[")
        self.assertEqual((end.status, end.told, unread), (0, b"", 1))
        document: dict[str, Any] = json.loads(end.written)
        return document

    def tables(self) -> Iterator[tuple[int, Table]]:
        for one in self.document()["versions"]:
            yield from ((one["version"], table) for table in one["tables"])

    def top(self, version: int, table: Table) -> Table:
        """A top table with the keys alone that it needs, and those by which it is told apart."""
        found: Table = {}
        for rule in table["keys"]:
            if rule["needed"] or rule["key"] in table.get("beside", []):
                found[rule["key"]] = SHOWN.get(rule["key"], least(rule, found))
        if table["topology"]:
            found["topology"] = table["topology"][0]
        return found | {"version": version}

    def beside(self, version: int) -> Table:
        """A top table beside whose elements any element is read."""
        return self.top(version, next(table for at, table in self.tables() if at == version))

    def answer(self, top: Table) -> str:
        """What the program says of a scenario: the words of its refusal, or nothing."""
        end = self.program.run(["--check"], text_of(top))
        return end.told.decode().removeprefix("refused: ").strip()

    def check(self, top: Table, part: str, allowed: bool, *what: object) -> None:
        """Whether the table of a part is allowed in a scenario."""
        with self.subTest(what=what):
            self.assertEqual(self.answer(top) != f"bad-key {part} 0", allowed, text_of(top)[:300])

    def test_each_key_of_the_top_table(self) -> None:
        for version, table in self.tables():
            if table["table"] != "top":
                continue
            top = self.top(version, table)
            told = (version, table["topology"], table.get("beside"))
            self.check(top, "top", True, *told)
            self.check(top | {"keys": 1}, "top", False, *told)
            # but for keys by which tables are told apart, and those on which others depend
            apart = {"version", "topology", "delays", "backs"}
            for rule in table["keys"]:
                key = rule["key"]
                if key not in apart:
                    self.check({one: top[one] for one in top if one != key}, "top", not rule["needed"], *told, key)
                if key in table.get("beside", []) or key not in (*apart, "parent", *CONSTANTS):
                    for value, allowed in ends(rule, top):
                        self.check(top | {key: value}, "top", allowed, *told, key, str(value)[:60])

    def test_constants_and_versions(self) -> None:
        for version, table in self.tables():
            if table["table"] == "top":
                top = self.top(version, table)
                for rule in table["keys"]:
                    if rule["key"] in CONSTANTS:
                        for value, allowed in ends(rule, top):
                            self.check(top | {rule["key"]: value}, "top", allowed, version, rule["key"], value)
        for value in (0, 6):
            self.check(self.beside(1) | {"version": value}, "top", False, "version", value)

    def test_each_topology_has_the_keys_of_its_table_alone(self) -> None:
        for version in range(1, 6):
            tops = [table for at, table in self.tables() if at == version and table["table"] == "top"]
            keys = {rule["key"]: rule for table in tops for rule in table["keys"]}
            for table in tops:
                top = self.top(version, table)
                for topology in table["topology"]:
                    self.check(top | {"topology": topology}, "top", True, version, topology)
                for key in keys.keys() - {rule["key"] for rule in table["keys"]} - {"delays", "backs"}:
                    self.check(top | {key: least(keys[key], top)}, "top", False, version, table["topology"], key)

    def test_each_key_of_each_element(self) -> None:
        for version, table in self.tables():
            part = table["table"]
            if part == "top":
                continue
            top = self.beside(version)
            element = {rule["key"]: least(rule, {}) for rule in table["keys"] if rule["needed"]}
            self.check(top | {part: [element]}, part, True, version, part)
            self.check(top | {part: [element | {"keys": 1}]}, part, False, version, part)
            for rule in table["keys"]:
                key = rule["key"]
                without = {one: element[one] for one in element if one != key}
                self.check(top | {part: [without]}, part, not rule["needed"], version, part, key)
                for value, allowed in ends(rule, element):
                    # of many copies the last has numbers that are out of range, and they are too many
                    if not (key == "times" and value == rule["most"]):
                        self.check(top | {part: [element | {key: value}]}, part, allowed, version, part, key, str(value)[:60])

    def test_arrays_as_long_as_they_may_be(self) -> None:
        for version, table in self.tables():
            for rule in table["keys"]:
                if rule["type"] == "tables":
                    top = self.top(version, table)
                    self.check(top | {rule["key"]: [{}] * rule["longest"]}, "top", True, version, rule["key"])

    def test_a_key_that_is_left_out_is_as_it_is_by_default(self) -> None:
        for version in (3, 4, 5):
            top: Table = {
                "version": version, "until": 900, "c1": 2000, "c2": 2000, "d1": 1000, "d2": 1000, "nodes": 3,
                "link": [{"a": 0, "b": 1, "delay": 10}, {"a": 1, "b": 2, "delay": 10}],
                "member": [{"node": 0, "role": "sender", "stream": 1}, {"node": 2, "role": "receiver", "stream": 2}],
                "draw": [{"member": 0, "page": 0, "ink": 7, "at": at} for at in range(0, 400, 20)],
                "session": [{"member": 0, "at": 500}],
                "drop": [{"link": 1, "sender": 0, "count": 2}],
                "outage": [{"link": 0, "from": 60, "to": 90}],
            }
            if version >= 4:
                top["loss"] = [{"link": 1, "rate": 200_000}]
            wanted = self.program.written(text=text_of(top))
            seen = 0
            for at, table in self.tables():
                part = table["table"]
                if at == version and (part in top or table.get("topology") == []):
                    for rule in table["keys"]:
                        if "default" in rule:
                            seen += 1
                            with self.subTest(version=version, part=part, key=rule["key"]):
                                changed = changed_by_default(top, part, rule)
                                self.assertEqual(self.program.written(text=text_of(changed)), wanted)
            self.assertGreater(seen, 20)

    def test_the_text_has_at_most_so_many_bytes(self) -> None:
        most = self.document()["bytes"]
        text = text_of(self.beside(1)) + b"#"
        self.assertEqual(self.program.run(["--check"], text.ljust(most, b"#")), End(0, b"", b""))
        self.assertEqual(self.program.run(["--check"], text.ljust(most + 1, b"#")), refused("too-long"))

    def test_words_are_refused_before_and_help_is_given_before(self) -> None:
        for words in (["--rules", "--show", "colors"], ["--cut", "x", "--rules"], ["--rules", "--rules"], ["--rules=1"]):
            with self.subTest(words=words):
                self.assertEqual(self.program.run_on_pipe(words, b"["), (REFUSED_LINE, 1))
        self.assertEqual(self.program.run(["--rules", "--help"]), self.program.run(["--help"]))
        rules = self.program.run(["--rules"])
        for words in (["--check", "--rules"], ["--rules", "--replications", "3"], ["--seed", "7", "--rules"]):
            with self.subTest(words=words):
                self.assertEqual(self.program.run(words), rules)

    def test_rules_that_are_not_taken_whole(self) -> None:
        with open("/dev/full", "wb") as full:
            self.assertEqual(self.program.run(["--rules"], stdout=full), refused("write-fault 0"))


def changed_by_default(top: Table, part: str, rule: Rule) -> Table:
    """The scenario with a key as it is by default, in the top table or in each element of a part."""
    def default(table: Table) -> int:
        return bound(rule["default"], table)

    if part == "top":
        return top | {rule["key"]: default(top)}
    return top | {part: [element | {rule["key"]: default(element)} for element in top[part]]}


if __name__ == "__main__":
    unittest.TestCase.maxDiff = 2000
    main()
