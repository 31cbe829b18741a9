#!/usr/bin/env python3
"""Tests of scripts of this folder, and of tests/program/program.py: on small texts; no proof is run, and the program is not."""
import pathlib
import sys
import tempfile
import threading
import unittest
from collections.abc import Mapping
from unittest import mock

sys.dont_write_bytecode = True
sys.path.append(str(pathlib.Path(__file__).resolve().parent.parent / "program"))

import architecture
import lemmas
import links
import program
import versions


class SideBySide(unittest.TestCase):
    def setUp(self) -> None:
        self.enterContext(mock.patch.object(program.os, "sched_getaffinity", return_value={0, 1}))

    def test_results_come_in_order_whichever_call_ends_first(self) -> None:
        """And two calls are made at a time: the first waits for the second."""
        second = threading.Event()

        def call(item: int) -> int:
            if item == 1:
                second.set()
            elif not second.wait(60):
                raise TimeoutError
            return 10 * item

        self.assertEqual([*program.side_by_side(call, iter(range(5)))], [0, 10, 20, 30, 40])

    def test_what_a_call_raises_comes_out_in_its_place(self) -> None:
        for raised in (ValueError("told"), SystemExit("told")):

            def call(item: int, wrong: BaseException = raised) -> int:
                if item:
                    raise wrong
                return item

            results = program.side_by_side(call, range(3))
            self.assertEqual(next(results), 0)
            with self.assertRaisesRegex(type(raised), "told"):
                next(results)

    def test_no_item_has_no_result(self) -> None:
        self.assertEqual([*program.side_by_side(str, [])], [])


class Lemmas(unittest.TestCase):
    FOLDER = "crates/low/proofs/"
    NEXT = "-- the one after\nabbrev pub next : ℕ → ℕ\nnext n = n + 1\n"
    LATER = "pub later : (n : ℕ)\n    → n < next n\nunfolding next\nlater n = grind (\n  arith\n)\n"
    BOTH = NEXT + "\n" + LATER
    TOLD = [FOLDER + "Lemmas.antt:2: nothing names next", FOLDER + "Lemmas.antt:5: nothing names later"]
    BROUGHT_IN = "use Rattle.low.proofs.Lemmas.{later}\n"
    RETURNS = "pub returns : goal.returns\nreturns c = "

    def unnamed(self, lemmas_of_low: str, **others: str) -> list[str]:
        """What nothing names in a file of lemmas, beside other files of its folder, and of the code in `Source`."""
        paths = {name: "crates/low/src/lib.rt" if name == "Source" else f"{self.FOLDER}{name}.antt" for name in others}
        texts = {paths[name]: text for name, text in others.items()}
        return [*lemmas.unnamed(lemmas.Scopes({self.FOLDER + "Lemmas.antt": lemmas_of_low, **texts}))]

    def test_what_is_only_brought_in_is_named_by_nothing(self) -> None:
        for other in (self.BROUGHT_IN, self.BROUGHT_IN + "-- as later says\n", "use Rattle.low.proofs.Lemmas\n"):
            self.assertEqual(self.unnamed(self.BOTH, Answers=other), self.TOLD)

    def test_what_an_answer_or_a_clause_names_is_kept_with_what_it_names_itself(self) -> None:
        for user in (self.BROUGHT_IN + self.RETURNS + "later c.args.n\n",
                     "use Rattle.low.proofs.Lemmas.{next, later as after}\n" + self.RETURNS + "grind (arith, after)\n",
                     "use Rattle.low.proofs.Lemmas\n" + self.RETURNS + "Lemmas.later c.args.n\n",
                     "use Rattle.low.proofs.Lemmas as lemma\n" + self.RETURNS + "(lemma.later c.args.n)\n",
                     self.RETURNS + "Rattle.low.proofs.Lemmas.later c.args.n\n"):
            self.assertEqual(self.unnamed(self.BOTH, Answers=user), [], user)
        for user in ("ghost use Rattle.low.proofs.Lemmas.{\n    later,\n};\nensures { later n }\n",
                     "#[tactic(auto, using(crate::proofs::Lemmas::later))]\n"):
            self.assertEqual(self.unnamed(self.BOTH, Source=user), [], user)

    def test_what_another_file_passes_on_is_named_through_it(self) -> None:
        user = "use Rattle.low.proofs.Others.{later}\n" + self.RETURNS + "later c.args.n\n"
        self.assertEqual(self.unnamed(self.BOTH, Others="pub " + self.BROUGHT_IN, Answers=user), [])
        self.assertEqual(self.unnamed(self.BOTH, Others=self.BROUGHT_IN, Answers=user), self.TOLD)

    def test_a_lemma_of_the_same_name_elsewhere_hides_nothing(self) -> None:
        other = "use Rattle.low.proofs.Others.{later}\n" + self.RETURNS + "later c.args.n\n"
        self.assertEqual(self.unnamed(self.BOTH, Others=self.BOTH, Answers=other), self.TOLD)
        self.assertEqual(self.unnamed(self.BOTH, Answers=self.LATER + self.RETURNS + "later c.args.n\n"), self.TOLD)

    def test_what_only_something_names_that_nothing_names_is_told(self) -> None:
        least = "pub least : 0 < next 0\nleast = later 0\n"
        told = self.unnamed(self.BOTH + "\n" + least)
        self.assertEqual([line.rpartition(" ")[2] for line in told], ["next", "later", "least"])

    def test_a_name_in_its_own_clauses_is_none(self) -> None:
        own = "sum : List ℕ → ℕ\nsum [] = 0\nsum (x ∷ xs) = x + sum xs\n"
        self.assertEqual(self.unnamed(own), [self.FOLDER + "Lemmas.antt:1: nothing names sum"])

    def test_a_helper_is_seen_by_its_clause_alone(self) -> None:
        helper = "  where\n    by : (n : ℕ) → n < suc n\n    by n = omega arith\n"
        first, second = "pub returns : goal.returns\nreturns zero = by 0\n", "returns (suc n) = by n\n"
        self.assertEqual(self.unnamed("", Answers=first + helper + second + helper), [])
        told = self.unnamed("", Answers=first + helper + second.replace("by", "omega") + helper)
        self.assertEqual(told, [self.FOLDER + "Answers.antt:8: nothing names by"])

    def test_a_helper_of_an_answer_is_not_named_by_the_prover(self) -> None:
        found = self.unnamed("", Answers=self.LATER.replace("pub ", ""))
        self.assertEqual(found, [self.FOLDER + "Answers.antt:1: nothing names later"])

    def test_a_record_is_named_by_its_name_and_a_type_by_a_constructor_too(self) -> None:
        record = "pub record Both : Type 0 where\n  first : ℕ\n  second : ℕ\n"
        self.assertEqual(self.unnamed(record), [self.FOLDER + "Lemmas.antt:1: nothing names Both"])
        types = "pub data Way : Type 0 where\n  up : Way\n  down : ℕ → Way\n"
        user = "use Rattle.low.proofs.Lemmas.{down}\n" + self.RETURNS
        self.assertEqual(self.unnamed(types, Answers=user + "down 0\n"), [])
        self.assertEqual(self.unnamed(types, Answers=user + "up\n"), [self.FOLDER + "Lemmas.antt:1: nothing names Way"])


class Copies(unittest.TestCase):
    LIBRARIES: Mapping[str, list[str]] = {"low": [], "middle": ["low"], "other": []}
    LEAST = "least : (n m : ℕ) → n ≤ n + m\nleast n m = omega arith\n"

    def copies(self, **texts: str) -> list[str]:
        """The copies in a file Lemmas.antt of each of some crates, or in another of `low`."""
        paths = {name: f"crates/{name if name in self.LIBRARIES else 'low'}/proofs/Lemmas{name[3:]}.antt" for name in texts}
        return [*lemmas.copies(lemmas.Scopes({paths[name]: text for name, text in texts.items()}), self.LIBRARIES)]

    def test_a_statement_stands_twice_with_other_names_too(self) -> None:
        other = "pub most : (x y : ℕ)\n    → x ≤ x + y\nmost x y = grind arith\n"
        self.assertEqual(len(self.copies(low=self.LEAST, middle=other)), 1)
        self.assertEqual(len(self.copies(low=self.LEAST, lowest=other)), 1)

    def test_of_crates_of_which_none_stands_on_the_other_each_has_its_own(self) -> None:
        self.assertEqual(self.copies(low=self.LEAST, other=self.LEAST), [])
        self.assertEqual(self.copies(middle=self.LEAST, other=self.LEAST), [])

    def test_other_words_of_the_same_spelling_state_something_else(self) -> None:
        text = "abbrev size : ℕ → ℕ\nsize n = n{}\n\nmost : (n : ℕ) → size n ≤ n + n\nmost n = omega arith\n"
        one, two = (text.format(it) for it in ("", " + n"))
        self.assertEqual(self.copies(low=one, middle=two), [])
        brought_in = "use Rattle.low.proofs.Lemmas.{size}\n" + one.partition("\n\n")[2]
        self.assertEqual(len(self.copies(low=one.replace("abbrev ", "abbrev pub "), middle=brought_in)), 1)

    def test_parameters_of_a_section_count_where_the_statement_names_one(self) -> None:
        section, inner = "module _ (k : ℕ) (f : ℕ → ℕ) where\n", "  " + self.LEAST.replace("\nleast", "\n  least")
        self.assertEqual(len(self.copies(low=self.LEAST, middle=section + inner)), 1)
        named = inner.replace("n + m", "f n + m")
        self.assertEqual(self.copies(low=self.LEAST.replace("n + m", "f n + m"), middle=section + named), [])
        self.assertEqual(len(self.copies(low=section + named, middle=section.replace("k", "l") + named)), 1)

    def test_definitions_functions_and_helpers_are_no_copies(self) -> None:
        for text in ("abbrev IsLess : ℕ → ℕ → Type 0\nIsLess n m = n < m\n", "twice : ℕ → ℕ\ntwice n = n + n\n",
                     "all : (n : ℕ) → Type 0\nall n = by n\n  where\n    by : (m : ℕ) → m ≤ m + n\n    by m = omega arith\n"):
            self.assertEqual(self.copies(low=text, middle=text), [], text)


class Architecture(unittest.TestCase):
    LOWER: architecture.Crates = {"top": ["middle", "low"], "middle": ["low"], "low": []}
    PAGE = "| `low` |\n| `middle` |\n| `top` |\n\n{}"

    def faults(self, page: str) -> list[str]:
        return list(architecture.faults(self.LOWER, page))

    def test_arrows_to_which_others_lead_are_left_out(self) -> None:
        lines = architecture.graph(self.LOWER).splitlines()
        self.assertEqual(lines[2:-1], ["    top --> middle", "    middle --> low", "    low"])

    def test_a_page_that_is_true_has_no_fault(self) -> None:
        self.assertEqual(self.faults(self.PAGE.format(architecture.graph(self.LOWER))), [])

    def test_another_graph_a_missing_row_and_a_wrong_order_are_faults(self) -> None:
        graph = architecture.graph(self.LOWER)
        another = self.PAGE.format(graph.replace("top -->", "low -->"))
        missing = f"| `low` |\n| `top` |\n{graph}"
        wrong_order = f"| `middle` |\n| `low` |\n| `top` |\n{graph}"
        for page in (another, missing, wrong_order):
            self.assertEqual(len(self.faults(page)), 1, page)


class Links(unittest.TestCase):
    def setUp(self) -> None:
        self.top = pathlib.Path(self.enterContext(tempfile.TemporaryDirectory())).resolve()
        self.page = self.top / "page.md"
        self.page.write_text("# One `word`, two\n\n## Again\n\n## Again\n\n```\n# no heading\n```\n", encoding="utf-8")
        self.enterContext(mock.patch.object(links, "TOP", self.top))
        links.anchors.cache_clear()

    def test_links_that_lead_somewhere(self) -> None:
        for link in ("page.md", "#one-word-two", "page.md#again", "#again-1", "https://example.org/none.md"):
            self.assertIsNone(links.fault(self.page, link), link)

    def test_links_that_lead_nowhere(self) -> None:
        for link in ("other.md", "#no-heading", "#again-2", "../page.md", "/page.md"):
            self.assertIsNotNone(links.fault(self.page, link), link)

    def test_code_holds_no_link(self) -> None:
        self.assertEqual(links.LINK.findall(links.CODE.sub("", "`[a](b)` [c](d) ![e [f]](g)")), ["d", "g"])


class Versions(unittest.TestCase):
    RELEASED = "## [1.2.0] - 2026-01-01\n\n## [1.1.0] - 2025-01-01\n"
    TO_COME = "## [Unreleased]\n\nTo be 1.2.0.\n\n## [1.1.0] - 2025-01-01\n"

    def faults(self, changelog: str, merged: str = "", here: str = "", at_tag: str | None = None) -> list[str]:
        """What is wrong where CHANGELOG.md says this, these tags are merged and here, and a tagged commit names this."""
        texts = {versions.PROGRAM: 'const VERSION: &str = "1.2.0";', versions.CITATION: "version: 1.2.0\n",
                 "python/pyproject.toml": 'version = "1.2.0"\n',
                 "python/src/srm_lab/__init__.py": '__version__ = "1.2.0"\n', versions.CHANGELOG: changelog}

        def git(*words: str) -> str:
            if words[0] == "show":
                tag = words[1].removeprefix("v").partition(":")[0]
                return f"version: {at_tag or tag}\n"
            return here if "--points-at" in words else merged

        with tempfile.TemporaryDirectory() as top:
            for name, text in texts.items():
                path = pathlib.Path(top) / name
                path.parent.mkdir(parents=True, exist_ok=True)
                path.write_text(text, encoding="utf-8")
            with mock.patch.object(versions, "TOP", pathlib.Path(top)), mock.patch.object(versions, "git", git):
                return list(versions.faults())

    def test_versions_that_agree(self) -> None:
        self.assertEqual(self.faults(self.TO_COME), [])
        self.assertEqual(self.faults(self.TO_COME, "v1.1.0\n"), [])
        self.assertEqual(self.faults(self.RELEASED), [])
        self.assertEqual(self.faults(self.RELEASED, "v1.1.0\nv1.2.0\nvery-old\n", "v1.2.0\n"), [])

    def test_versions_that_differ(self) -> None:
        self.assertEqual(self.faults("## [1.1.0] - 2026-01-01\n"), ["CHANGELOG.md names version 1.1.0, and the program is 1.2.0"])
        self.assertEqual(self.faults("nothing\n"), ["CHANGELOG.md names no version"])

    def test_releases_that_do_not_rise(self) -> None:
        told = ["CHANGELOG.md has 1.2.0 above 1.10.0, and it is not later"]
        self.assertEqual(self.faults("## [1.2.0] - 2026-01-01\n\n## [1.10.0] - 2025-01-01\n"), told)
        told = ["CHANGELOG.md has 1.2.0 above 1.2.0, and it is not later"]
        self.assertEqual(self.faults("To be 1.2.0.\n\n## [1.2.0] - 2026-01-01\n"), told)

    def test_tags_that_disagree(self) -> None:
        told = ["there is a tag v1.2.0, and CHANGELOG.md has no such release"]
        self.assertEqual(self.faults(self.TO_COME, "v1.1.0\nv1.2.0\n"), told)
        told = ["CHANGELOG.md has the release 1.1.0, and there is no tag v1.1.0"]
        self.assertEqual(self.faults(self.RELEASED, "v1.2.0\n"), told)
        told = ["this commit has the tag v1.1.0, and the program is 1.2.0"]
        self.assertEqual(self.faults(self.TO_COME, "v1.1.0\n", "v1.1.0\n"), told)
        told = ["at the tag v1.1.0, CITATION.cff names version 1.0.0"]
        self.assertEqual(self.faults(self.TO_COME, "v1.1.0\n", at_tag="1.0.0"), told)


if __name__ == "__main__":
    unittest.main()
