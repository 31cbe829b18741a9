"""Man pages, completions and examples: they name the options of the commands, the keys of the format, and what they show.

Each test needs a program of its own (mandoc, fish, zsh), and is skipped without it.
"""
import argparse
import re
import shutil
import subprocess
from pathlib import Path

import pytest

from srm_lab import cli
from srm_lab.page import command as page_command

ROOT = Path(__file__).resolve().parents[2]
KINDS = ("chain", "star", "tree", "random", "file", "map", "page")
# the cells of FORMATS.md with the keys of a scenario: the first column of one table, and the second of the other
KEYS = re.compile(r"^\| (?:(?:`\w+`(?:, )?)+|all of these but `link`) \|(?: (?:`\w+`(?:, )?)+ \|)?", re.MULTILINE)


def run(*words):
    """What a program writes; the test is skipped where there is none."""
    if shutil.which(words[0]) is None:
        pytest.skip(f"no {words[0]}")
    done = subprocess.run(words, cwd=ROOT, capture_output=True, text=True, check=False)
    assert done.returncode == 0, done.stdout + done.stderr
    return done.stdout


@pytest.fixture
def options(srm_lab):
    """The long options in the program's help."""
    found = re.findall(r"^ +(?:-\w, )?(--[a-z-]+)", srm_lab("", "--help"), re.MULTILINE)
    assert {"--seed", "--show", "--help", "--version"} <= set(found)
    return found


def options_of(kind):
    """The long options of a kind of network, or of pages."""
    kinds = next(action for action in cli.parser()._actions if isinstance(action, argparse._SubParsersAction))
    parser = page_command.parser() if kind == "page" else kinds.choices[kind]
    return [word for action in parser._actions for word in action.option_strings if word.startswith("--")]


def read(page):
    """A man page as plain text."""
    return re.sub(".\b", "", run("mandoc", "-Tascii", f"man/{page}"))  # bold letters are struck twice


def missing(options, text):
    """The options that a text does not name."""
    return [option for option in options if not re.search(f"(?<![a-z-]){option}(?![a-z-])", text)]


@pytest.mark.parametrize("page", ["srm_lab.1", "srm-scenarios.1", "srm_lab.5"])
def test_man_page_is_clean(page):
    done = subprocess.run(["mandoc", "-Tlint", f"man/{page}"], cwd=ROOT, capture_output=True, text=True, check=False) \
        if shutil.which("mandoc") else pytest.skip("no mandoc")
    assert [line for line in done.stdout.splitlines() if "referenced manual not found" not in line] == []


def test_man_page_names_each_option(options):
    assert missing(options, read("srm_lab.1")) == []


def test_synopsis_of_the_man_page_has_each_option(srm_lab, options):
    synopsis = read("srm_lab.1").partition("SYNOPSIS")[2].partition("DESCRIPTION")[0]
    short = re.findall(r"^ +(-\w), --", srm_lab("", "--help"), re.MULTILINE)
    assert {"-h", "-V"} <= set(short)
    assert missing([*options, *short], synopsis) == []


def test_man_page_refers_to_the_paper_as_the_citation_does():
    paper = dict(re.findall("^    ([a-z]+): (.+)$", (ROOT / "CITATION.cff").read_text(), re.MULTILINE))
    reference = " ".join(read("srm_lab.1").partition("SEE ALSO")[2].split())
    known = ("title", "journal", "volume", "issue", "year", "start", "end", "doi")
    assert [key for key in known if paper[key] not in reference] == []


def test_example_says_what_it_shows_in_its_first_line():
    firsts = [path.read_text().splitlines()[0] for path in sorted((ROOT / "examples").glob("*.toml"))]
    assert firsts and [line for line in firsts if not re.fullmatch(r"# Shows .{20,}\.", line)] == []
    assert len(set(firsts)) == len(firsts)


@pytest.mark.parametrize("kind", KINDS)
def test_man_page_of_scenarios_names_each_option(kind):
    assert missing(options_of(kind), read("srm-scenarios.1")) == []


def test_man_page_of_the_format_names_each_key():
    text = (ROOT / "docs/FORMATS.md").read_text()
    tables = text[text.index("The keys of the top table"):text.index("Nodes, members, links and all other elements")]
    keys = {key for cells in KEYS.findall(tables) for key in re.findall(r"`(\w+)`", cells)}
    assert {"version", "c1_most", "topology", "stream", "outage", "rate", "every"} <= keys
    assert sorted(keys - set(re.findall(r"\w+", read("srm_lab.5")))) == []


def test_example_of_the_man_page_runs(srm_lab):
    (example,) = re.findall(r"^\.Bd -literal.*?\n(.*?)^\.Ed", (ROOT / "man/srm_lab.5").read_text(), re.MULTILINE | re.DOTALL)
    members = [line.split(",")[0] for line in srm_lab(example, "--show", "losses").splitlines()]
    assert members == ["member", "2", "3", "4"]


def bash(words):
    """What bash offers for the last of the words."""
    command = words.split()[0]
    script = (f"source completions/{command}.bash; COMP_WORDS=({words}); COMP_CWORD=$((${{#COMP_WORDS[@]}} - 1)); "
              f'_{command.replace("-", "_")}; printf "%s\\n" "${{COMPREPLY[@]}}"')
    return run("bash", "-c", script).split()


def test_bash_completes_each_option(options):
    assert sorted(bash("srm_lab --")) == sorted(options)


@pytest.mark.parametrize("kind", KINDS)
def test_bash_completes_each_option_of_scenarios(kind):
    assert sorted(bash(f"srm-scenarios {kind} --")) == sorted(options_of(kind))


@pytest.mark.parametrize("words, answer", [
    ("srm_lab --show l", ["losses", "links"]),
    ("srm_lab --seed 1 --sh", ["--show"]),
    ("srm-scenarios s", ["star"]),
    ("srm-scenarios tree --drop-link a", ["adjacent"]),
    ("srm-scenarios tree --adaptive --un", ["--until"]),
    ("srm-scenarios tree --delay --un", []),
])
def test_bash_completes(words, answer):
    assert bash(words) == answer


def fish(words):
    """What fish offers for the last of the words."""
    command = words.split()[0]
    out = run("fish", "--no-config", "-c", f"source completions/{command}.fish; complete -C '{words}'")
    return [line.split("\t")[0] for line in out.splitlines()]


def test_fish_completes_each_option(options):
    assert sorted(fish("srm_lab --")) == sorted(options)


@pytest.mark.parametrize("kind", KINDS)
def test_fish_completes_each_option_of_scenarios(kind):
    assert sorted(fish(f"srm-scenarios {kind} --")) == sorted(options_of(kind))


@pytest.mark.parametrize("words, answer", [
    ("srm_lab --s", ["--seed", "--show"]), ("srm_lab --show l", ["links", "losses"]),
    ("srm-scenarios ", sorted(KINDS)), ("srm-scenarios file --spanning-tree ", ["minimum", "shortest"])])
def test_fish_completes(words, answer):
    assert fish(words) == answer


def test_zsh_reads_its_completion(options):
    run("zsh", "-n", "completions/_srm_lab")
    assert missing(options, (ROOT / "completions/_srm_lab").read_text()) == []


@pytest.mark.parametrize("kind", KINDS)
def test_zsh_reads_its_completion_of_scenarios(kind):
    run("zsh", "-n", "completions/_srm-scenarios")
    assert missing(options_of(kind), (ROOT / "completions/_srm-scenarios").read_text()) == []
