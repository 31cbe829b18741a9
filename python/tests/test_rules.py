"""The rules that the program prints: the package's form of scenarios, the man page and the schema are held to them."""
import json
import re
import subprocess
import sys
import tomllib

import pytest
from conftest import ROOT

from srm_lab import form
from srm_lab.limits import VERSIONS

sys.path.append(str(ROOT / "tests/program"))
import refusals  # noqa: E402

CONSTANTS = {"c1": 7, "c2": 7, "d1": 7, "d2": 7}
# of texts with these the schema sees too little: they are no whole numbers, they depend on other keys, or stand for copies
UNSEEN = re.compile(r"\d\.\d|_least|_most|delays|backs|times")


@pytest.fixture(scope="module")
def rules(program):
    return json.loads(subprocess.run([program, "--rules"], capture_output=True, check=True).stdout)


@pytest.fixture(scope="module")
def schema(rules):
    made = subprocess.run([sys.executable, ROOT / "packaging/scenario_schema.py"], input=json.dumps(rules).encode(),
                          capture_output=True, check=True)
    return json.loads(made.stdout)


def top_tables(version, table):
    """Top tables of a version to which these rules apply, as far as the form of scenarios depends on them."""
    for topology in table["topology"] or [None]:
        told = {} if topology is None else {"topology": topology}
        lists = {key: [1, 1] for key in ("parent", *table.get("beside", [])) if topology == "parents"}
        yield CONSTANTS | told | lists | {"version": version}


def probes(rule, top):
    """Values that a key may hold, and values that it may not."""
    def bound(told):
        return top[told] if isinstance(told, str) else told

    if rule["type"] == "word":
        return rule["words"], [*(word + "s" for word in rule["words"]), 1]
    if rule["type"] == "tables":
        return [[], [{}] * rule["longest"]], [{}, [{}] * (rule["longest"] + 1)]
    low, high = bound(rule["least"]), bound(rule["most"])
    if rule["type"] == "number":
        return [low, high], [low - 1, high + 1, "1", True]
    long = len(top[rule["length"]]) if "length" in rule else rule["longest"]
    return [[low] * long, [high] * long], [[low] * (long + 1), [high + 1] * long, [low - 1] * long, low]


def same(rules, keys, top):
    """Holds the keys of a table of the form of scenarios to the rules."""
    assert {rule["key"] for rule in rules} == keys.keys()
    for rule in rules:
        key = keys[rule["key"]]
        # the form takes the keys by which its rules are chosen to be needed where they are there
        assert key.needed == (rule["needed"] or rule["key"] in top.keys() & {"topology", "delays", "backs"}), rule["key"]
        good, bad = probes(rule, top)
        assert [value for value in good if key.check(value)] == []
        assert [value for value in bad if not key.check(value)] == []


def test_form_of_scenarios_has_the_rules_of_the_program(rules):
    assert [one["version"] for one in rules["versions"]] == sorted(VERSIONS)
    assert {limits.bytes for limits in VERSIONS.values()} == {rules["bytes"]}
    for one in rules["versions"]:
        limits = VERSIONS[one["version"]]
        for table in one["tables"]:
            if table["table"] == "top":
                for top in top_tables(one["version"], table):
                    apart = {"topology", "delays", "backs"} - top.keys()
                    shown = [rule for rule in table["keys"] if rule["key"] not in apart]
                    same(shown, form.top(limits, top), top)
            else:
                same(table["keys"], form.elements(limits)[table["table"]], {})


def test_man_page_names_each_key_and_tells_ranges_of_the_rules_alone(rules):
    page = (ROOT / "man/srm_lab.5").read_text()
    all_rules = [rule for one in rules["versions"] for table in one["tables"] for rule in table["keys"]]
    words = set(re.findall(r"\w+", page.partition(".Sh EXAMPLES")[0]))
    assert sorted({rule["key"] for rule in all_rules} - words) == []
    assert sorted({word for rule in all_rules for word in rule.get("words", [])} - words) == []
    ranges = {(rule["least"], rule["most"]) for rule in all_rules if rule["type"] == "number"}
    told = re.findall(r"(\d+) to ([\d^]+)(?:, from version 3 on to (\d+))?", page)
    assert len(told) >= 6
    for low, high, later in told:
        for most in [one for one in (high, later) if one]:
            number = 2 ** int(most.partition("^")[2]) if "^" in most else int(most)
            assert (int(low), number) in ranges, (low, most)


def test_schema_passes_what_is_accepted_and_refuses_keys_that_are_refused(schema):
    validator = pytest.importorskip("jsonschema").Draft7Validator(schema)
    validator.check_schema(schema)
    passed, refused = 0, 0
    for number, text, answer in refusals.cases(refusals.CASES.read_text()):
        try:
            table = tomllib.loads(text)
        except tomllib.TOMLDecodeError:
            continue
        if answer == "accepted":
            assert validator.is_valid(table), number
            passed += 1
        elif answer.startswith("bad-key") and not UNSEEN.search(text):
            assert not validator.is_valid(table), number
            refused += 1
    assert passed > 100 and refused > 100


@pytest.mark.parametrize("path", sorted((ROOT / "examples").glob("*.toml")), ids=lambda path: path.stem)
def test_schema_passes_each_example(schema, path):
    pytest.importorskip("jsonschema").validate(tomllib.loads(path.read_text()), schema)


def test_schema_completes_each_key(rules, schema):
    """Editors complete the keys of `properties`, and of the elements to which they lead."""
    newest = rules["versions"][-1]["tables"]
    for table in newest:
        part = table["table"]
        shown = schema if part == "top" else schema["definitions"][f"version 5 {part}"]
        assert {rule["key"] for rule in table["keys"]} <= shown["properties"].keys()
        if part != "top":
            assert schema["properties"][part]["items"] == {"$ref": f"#/definitions/version 5 {part}"}
