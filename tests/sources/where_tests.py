#!/usr/bin/env python3
"""Tests of tools/where.py: on a small repository of one crate, and on this one.

usage: tests/sources/where_tests.py [-q]
"""
import contextlib
import io
import pathlib
import sys
import tempfile
import unittest
from unittest import mock

sys.dont_write_bytecode = True
sys.path.insert(0, str(pathlib.Path(__file__).resolve().parent.parent.parent / "tools"))

import where

SOURCE = """\
//! Sums.
ghost use Rattle.std.specs.Prelude.{◌≡◌};
ghost use Rattle.srm_sum.specs.Sums.{sum_of, greatest as most};

impl Adder {
    /// The sum.
    pub fn sum(&self, a: u64) -> u64
        requires { a < most }
        ensures value { result ≡ sum_of self.now
            a }
    {
        a
    }
}

impl Member for Adder {
    fn react(&mut self) -> u64 {
        0
    }
}

pub trait Member {
    fn react(&mut self) -> u64
        ensures { result ≡ 0 };
}
"""
DEFINITIONS = """\
-- all numbers of an adder
-- and one more
abbrev pub sum_of : Adder → ℕ → ℕ
sum_of x a = x.sum + a

pub greatest : ℕ
greatest = 9
"""
PROMISES = """\
## srm_sum

| promise | function and clause | edits |
|---|---|---|
| A sum is a sum. | `Adder::sum`: `value` | |
| It is a member. | `Adder` | |
"""


class Where(unittest.TestCase):
    def setUp(self) -> None:
        folder = tempfile.TemporaryDirectory()
        self.addCleanup(folder.cleanup)
        top = pathlib.Path(folder.name)
        for name, text in [("crates/srm_sum/src/adder.rt", SOURCE), ("crates/srm_sum/specs/Sums.antt", DEFINITIONS),
                           ("crates/srm_sum/proofs/adder/AdderMember/react/Answers.antt", ""), ("docs/PROMISES.md", PROMISES)]:
            (top / name).parent.mkdir(parents=True, exist_ok=True)
            (top / name).write_text(text, encoding="utf-8")
        for name, value in [("TOP", top), ("CRATES", top / "crates")]:
            patch = mock.patch.object(where, name, value)
            patch.start()
            self.addCleanup(patch.stop)

    def told(self, *words: str) -> tuple[int, str]:
        """The status of the script, and what it prints."""
        printed = io.StringIO()
        with mock.patch.object(sys, "argv", ["where.py", *words]), contextlib.redirect_stdout(printed), \
                contextlib.redirect_stderr(io.StringIO()):
            return where.main(), printed.getvalue()

    def test_function_is_told_with_contract_definitions_and_promise(self) -> None:
        status, text = self.told("Adder::sum")
        self.assertEqual(0, status)
        lines = [line.split(maxsplit=1) for line in text.splitlines() if line]
        self.assertIn(["body", "crates/srm_sum/src/adder.rt:7"], lines)
        self.assertIn(["ensures", "value { result ≡ sum_of self.now"], lines)
        self.assertIn(["a", "}"], lines)
        self.assertIn(["sum_of", "crates/srm_sum/specs/Sums.antt:3  all numbers of an adder and one more"], lines)
        self.assertIn(["most", "crates/srm_sum/specs/Sums.antt:6"], lines)
        alone = "no folder: the checker proves it from its body and the contracts of what that calls; ask for those by name"
        self.assertIn(["proof", alone], lines)
        self.assertIn(["promise", "docs/PROMISES.md:5  A sum is a sum."], lines)

    def test_method_of_a_trait_has_the_contract_of_the_trait_and_its_own_proof(self) -> None:
        _, text = self.told("Adder::react")
        self.assertIn("that of Member::react", text)
        self.assertIn("crates/srm_sum/proofs/adder/AdderMember/react/", text)
        self.assertIn("docs/PROMISES.md:6  It is a member.", text)

    def test_method_that_a_trait_declares_leads_to_its_types(self) -> None:
        _, text = self.told("Member::react")
        self.assertIn("declared     crates/srm_sum/src/adder.rt:23", text)
        self.assertIn("proof        one for each type that has it: where.py Member", text)

    def test_all_functions_of_a_type_are_told(self) -> None:
        _, text = self.told("Adder")
        self.assertIn("srm_sum: Adder::sum", text)
        self.assertIn("srm_sum: Adder::react", text)

    def test_definition_is_printed_whole(self) -> None:
        status, text = self.told("sum_of")
        self.assertEqual(0, status)
        self.assertEqual(["crates/srm_sum/specs/Sums.antt:3", *DEFINITIONS.splitlines()[:4]],
                         [line.strip() for line in text.splitlines() if line])

    def test_name_of_another_type_or_of_nothing_is_found_nowhere(self) -> None:
        self.assertEqual(1, self.told("Counter::sum")[0])
        self.assertEqual((1, ""), self.told("difference"))


class OfThisRepository(unittest.TestCase):
    def test_each_definition_of_a_public_clause_is_found(self) -> None:
        """Of some calls of which the documents speak."""
        for name, definition in [("Net::distance", "distance"), ("step_run", "TellsOutcome"), ("Ledger::add", "SeatGrows")]:
            found = [it for it in where.functions(None) if it.is_called(name)]
            self.assertTrue(found, name)
            self.assertIn(definition, {told for it in found for told, _ in where.definitions(it, where.contract(it))}, name)


if __name__ == "__main__":
    unittest.main()
