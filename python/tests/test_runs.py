"""Runs: their tables are the program's; the cache, refusals, and what is kept."""
import hashlib
import io
import json
import os
import re
import stat
import subprocess
import sys
import tarfile
import tomllib
from dataclasses import replace
from pathlib import Path

import pandas
import pytest

from second_tables import second
from srm_lab import RefusedError, ScenarioError, __version__, read_scenario, run, save, scenario
from srm_lab.follower import Follower
from srm_lab.frames import COLUMNS, Table, columns_of, joined, packed, rows_of, unpacked
from srm_lab.limits import MOST_SEED, MOST_TIME
from srm_lab.tables import read_trace
from srm_lab.traces import table_text

ROOT = Path(__file__).resolve().parents[2]
FILES = sorted([*(ROOT / "examples").glob("*.toml"), *(ROOT / "tests/scenarios").glob("*.toml")])
TABLES = ["members", "losses", "links"]
RANDOM = [
    scenario.random_tree(40, members=25, seed=1).constants(d1="log10").lose(rate=0.02).leave(6, at=(500, 9000)),
    scenario.random_tree(30, seed=2, delay=10).back(5, most=30).lose(rate=0.02).join(8, at=(50, 900))
    .outage(3, 80, 900),
    scenario.star(20, delay=50).lose(every=3, link="adjacent").outage(5, 100, 700).role([4], "listener"),
    scenario.chain(12).drawing(20, every=30).role([3, 5], "sender").drawing(9, every=50, member=3, page=2)
    .drawing(9, every=70, member=5).lose(rate=0.03).role([7], "late", pages=[2]).join([7], at=600),
]


SHOWN = {"constants": "timers"}


def as_the_program(frame, name):
    """A table of the package in the program's columns and words."""
    frame = frame.drop(columns=[column for column in ("ended", "a", "b") if column in frame and name != "timers"])
    if name != "members":
        frame = frame.drop(columns="node", errors="ignore")
    if "round_trip" in frame:
        told = frame["delay"].astype("string") + "/" + frame.pop("round_trip").astype("string")
        frame["delay"] = told.where(frame["delay"].notna())
    return frame.to_csv(index=False, na_rep="-")


@pytest.mark.parametrize("text", [*(path.read_text() for path in FILES), *(given.text() for given in RANDOM)],
                         ids=[*(path.stem for path in FILES), *(f"random-{place}" for place in range(len(RANDOM)))])
def test_tables_are_those_that_the_program_writes_and_that_a_trace_gives(text, program, srm_lab):
    given = read_scenario(text)
    computed = second(given, read_trace(io.StringIO(srm_lab(text, "--seed", "3"))), 3)
    tables = [*computed, "trace", "constants"]
    runs = run(given, seeds=[3], tables=tables, program=program, cache=None)
    for name in tables:
        written = srm_lab(text, "--seed", "3", "--replications", "1", "--show", SHOWN.get(name, name))
        assert as_the_program(runs.table(name), name) == written, name
        if name in computed:
            assert srm_lab(text, "--seed", "3", "--show", name) == computed[name], name


# a table of operations as the program writes it: losers that all recovered, one that left, one that is open, and none
OPERATIONS = b"""seed,source,page,number,losers,recovered,left,detected,asked,requests,repairs,last,delay
0,0,0,0,3,3,0,12,14,1,1,4,5/8
0,0,0,1,1,0,1,11,12,1,1,-,-
1,0,0,0,1,0,0,11,12,1,0,-,-
1,0,0,1,1,1,0,2,-,0,0,2,0/4
"""


def frame_of(name, *given):
    """A table of these numbers, scenarios and texts, which the cache gives back as it was."""
    made = [Table(number, one, rows_of(name, text)) for number, one, text in given]
    kept = [replace(one, rows=unpacked(name, packed(one.rows))) for one in made]
    frame, again = (joined(name, [columns_of(name, tables)]) for tables in (made, kept))
    pandas.testing.assert_frame_equal(frame, again)
    return frame


def test_operations_are_read():
    frame = frame_of("operations", (7, scenario.chain(5), OPERATIONS), (9, scenario.chain(5), OPERATIONS))
    assert list(frame.columns) == ["scenario", "seed", *COLUMNS["operations"]]
    assert frame["scenario"].tolist() == [7] * 4 + [9] * 4
    assert frame["delay"].tolist() == [5, pandas.NA, pandas.NA, 0] * 2 and frame["round_trip"].tolist()[3] == 4
    assert frame["asked"].tolist()[2:4] == [12, pandas.NA] and set(map(str, frame.dtypes[2:])) == {"Int64"}
    empty = frame_of("operations", (0, scenario.chain(5), OPERATIONS.splitlines(True)[0]))
    assert len(empty) == 0 and list(empty.columns) == list(frame.columns)


def test_the_greatest_numbers_are_read_to_the_last_digit():
    text = b"seed\n%d,1,0,0,%d,%d,-,-\n" % (MOST_SEED, 2**32 - 1, MOST_TIME - 1)
    small = b"seed\n7,1,0,0,3,4,5,1/2000\n"  # which the cache has in fewer bytes
    other, one = frame_of("losses", (0, scenario.chain(2), small), (1, scenario.chain(2), text)).to_dict("records")
    assert [*other.values()] == [0, 7, 1, 0, 0, 3, 4, 5, 1, 2000, "recovered", 1]
    assert (one["seed"], one["number"], one["detected"]) == (MOST_SEED, 2**32 - 1, MOST_TIME - 1)
    assert one["recovered"] is one["delay"] is pandas.NA and one["round_trip"] == 2 * 1000 and one["node"] == 1


@pytest.mark.filterwarnings("ignore:string or file could not be read:DeprecationWarning")
@pytest.mark.parametrize("row", [b"0,0,0,0,3,3,0,12,14,1,1,4,x/8", b"0,0,0,0,3,3,0,12,14,1,1,4", b"0,0,0,,3,3,0,12,14,1,1,4,5/8"])
def test_a_broken_table_is_never_read_in_part(row):
    header, *rows = OPERATIONS.splitlines()
    for broken in ([row, *rows], [*rows, row]):
        with pytest.raises(ValueError):
            frame_of("operations", (0, scenario.chain(5), b"\n".join([header, *broken, b""])))


def test_losses_have_numbers_and_ends(program):
    # the chain of the tutorial: detected at 70 and 80, recovered at 140 and 150, round trips 40 and 60
    given = scenario.chain(4, delay=10).constants(c2=0, d2=0).drawing(0).draw(0).draw(50).drop(1, 0)
    runs = run(given, tables=["losses", "timers"], program=program, cache=None)
    losses = runs.losses
    assert list(losses["detected"]) == [70, 80] and list(losses["recovered"]) == [140, 150]
    assert list(losses["delay"]) == [70, 70] and list(losses["round_trip"]) == [40, 60]
    assert list(losses["ended"]) == ["recovered", "recovered"]
    one, = run(given, tables="operations", program=program, cache=None).operations.to_dict("records")
    assert (one["losers"], one["requests"], one["repairs"], one["last"], one["delay"], one["round_trip"]) == (
        2, 1, 1, 3, 70, 60)
    timers = runs.timers[["member", "kind", "set", "ended", "how"]].values.tolist()
    assert [2, "request", 70, 110, "expired"] in timers
    assert [3, "request", 80, 120, "backed off"] in timers
    assert [0, "repair", 130, 140, "stopped"] in timers


def test_constants_that_members_adapt(program, tmp_path):
    # worked by hand: 40 ticks from the source, member 2 waits 80 and then 78 of them, and takes 0.05 off C1 each time
    given = scenario.load(ROOT / "examples/adaptive-request-timers.toml")
    runs = run(given, tables=["losses", "constants"], program=program, cache=tmp_path)
    table = runs.constants
    assert list(table.columns) == ["seed", "time", "member", "cause", "ref", "c1", "c2", "d1", "d2", "ave_dup_req",
                                   "ave_req_delay", "ave_dup_rep", "ave_rep_delay", "node"]
    assert table[["time", "member", "cause", "ref", "c1"]].values.tolist() == [
        [0, 0, "join", "-", 2000], [0, 1, "join", "-", 2000], [0, 2, "join", "-", 2000],
        [121, 2, "ask", "0/0/0", 1950], [1119, 2, "ask", "0/0/2", 1900]]
    assert list(table["ave_req_delay"].dropna()) == [1000, 993] and list(table["ave_dup_req"].dropna()) == [0]
    again = run(given, tables=["constants"], program=program, cache=tmp_path).constants  # from the cache
    pandas.testing.assert_frame_equal(again, table)


def test_loss_of_a_member_that_leaves_is_no_open_one(program):
    given = scenario.chain(4, delay=10).constants(c2=0, d2=0).drawing(0).draw(0).draw(50).drop(1, 0)
    gone, late, short = (run(changed, program=program, cache=None).losses for changed in (
        given.leave([3], at=100), given.leave([3], at=145).ends(145), given.ends(145)))
    assert list(gone["ended"]) == ["recovered", "left"]
    assert list(late["ended"]) == list(short["ended"]) == ["recovered", "open"]  # a leave at the end is none
    assert short["recovered"].isna().tolist() == [False, True] and short["round_trip"].tolist() == [40, 60]


@pytest.fixture
def counted(program, tmp_path):
    """A program that counts its runs, and how many there were."""
    path, log = tmp_path / "srm_lab", tmp_path / "log"
    path.write_text(f'#!/bin/sh\ntest "$1" = --version || echo run >> {log}\nexec {program} "$@"\n')
    path.chmod(path.stat().st_mode | stat.S_IEXEC)
    log.write_text("")
    return path, lambda: len(log.read_text().splitlines())


def test_program_runs_once_for_a_table_and_not_again_for_what_the_cache_has(counted, tmp_path):
    path, runs = counted
    given = scenario.chain(4).lose(every=9, link=1)
    words = {"program": path, "cache": tmp_path / "cache"}
    first = run(given, range(3), tables=[*TABLES, "timers"], **words)
    assert runs() == 6  # three tables of three seeds each, and three traces
    again = run(given, range(3), tables=[*TABLES, "timers"], **words)
    assert runs() == 6 and len(list((tmp_path / "cache").iterdir())) == 4
    for name in (*TABLES, "timers"):
        pandas.testing.assert_frame_equal(first.table(name), again.table(name))
    run(given, range(4), tables="losses", **words)
    assert runs() == 7
    run(given.constants(c1=3), range(3), tables="losses", **words)
    assert runs() == 8
    path.write_text(path.read_text() + "# another program\n")
    run(given, range(3), tables="losses", **words)
    assert runs() == 9


def test_neighbouring_seeds_are_one_process(counted):
    path, runs = counted
    given = scenario.chain(4).lose(every=9, link=1)
    seeds = [4, 5, 6, 9, 2, 3]
    found = run(given, seeds, program=path, cache=None).losses
    assert runs() == 3 and found["seed"].drop_duplicates().tolist() == seeds
    for seed, own in found.groupby("seed"):
        alone = run(given, [seed], program=path, cache=None).losses
        pandas.testing.assert_frame_equal(own.reset_index(drop=True), alone)


def test_refusal_has_the_line_of_the_program(tmp_path):
    path = tmp_path / "srm_lab"
    path.write_text('#!/bin/sh\necho "refused: no-memory" >&2\nexit 1\n')
    path.chmod(0o755)
    for seeds in ([0], [0, 1]):
        with pytest.raises(RefusedError, match="^refused: no-memory$") as fault:
            run(scenario.chain(3), seeds, program=path, cache=None)
        assert fault.value.status == 1


def test_refusal_has_what_the_program_explains(tmp_path):
    path = tmp_path / "srm_lab"
    path.write_text('#!/bin/sh\n'
                    'test "$1" = --explain && printf "refused: bad-width\\n  why\\n  and more\\n" >&2\n'
                    'exit 1\n')
    path.chmod(0o755)
    with pytest.raises(RefusedError) as fault:
        run(scenario.chain(3), program=path, cache=None)
    assert (fault.value.line, fault.value.explanation) == ("refused: bad-width", "  why\n  and more")
    assert str(fault.value) == "refused: bad-width\n  why\n  and more"


def test_trace_that_breaks_off_with_a_refusal_is_that_refusal(tmp_path):
    path = tmp_path / "srm_lab"
    path.write_text('#!/bin/sh\nprintf "time,member,cause,ref,result,lost,sent\\n0,0,join,-,in,0,-\\n"\n'
                    'echo "refused: no-memory" >&2\nexit 1\n')
    path.chmod(0o755)
    with pytest.raises(RefusedError, match="no-memory"):
        run(scenario.chain(3), program=path, cache=None)


@pytest.mark.parametrize("words, told", [
    ({"tables": ["loses"]}, "there is no table 'loses' .did you mean 'losses'..: there are losses"),
    ({"tables": "link"}, "there is no table 'link' .did you mean 'links'"),
    ({"tables": []}, "tables are .., and have to be one or more"),
    ({"tables": 7}, "tables are 7, and have to be a list of words"),
    ({"tables": [7]}, "tables have 7, and have to be words"),
    ({"seeds": [1, 1]}, "a seed is given twice"),
    ({"seeds": [-1]}, "a seed is -1"),
    ({"seeds": 0}, "seeds is 0, and has to be 1"),
    ({"seeds": []}, "there is no seed"),
    ({"seeds": [0.5]}, "seeds are .0.5., and have to be whole numbers"),
    ({"seeds": 2.5}, "seeds are 2.5, and have to be a number, or a list"),
    ({"seeds": "12"}, "seeds are '12', and have to be a number, or a list"),
    ({"seeds": scenario.chain(2)}, "seeds are a Scenario, and have to be a number, or a list"),
    ({"workers": 0}, "workers is 0, and has to be 1"),
    ({"workers": "4"}, "workers is '4', and has to be a whole number"),
    ({"options": "--engine window"}, "options are '--engine window', and have to be a list of words"),
    ({"cache": 5}, "cache is 5, and has to be a path"),
    ({"program": 5}, "program is 5, and has to be a path"),
    ({"program": "/nowhere/srm_lab"}, "there is no program /nowhere/srm_lab"),
])
def test_what_cannot_be_run(words, told, program):
    with pytest.raises((ScenarioError, TypeError), match=told):
        run(scenario.chain(3), **{"program": program, "cache": None, **words})


@pytest.mark.parametrize("given, told", [
    ([scenario.chain(3)], "run takes one scenario, and was given a list"),
    ("chain.toml", "run takes one scenario, and was given 'chain.toml'"),
    (None, "run takes one scenario, and was given None"),
])
def test_what_is_no_scenario(given, told, program):
    with pytest.raises(TypeError, match=told):
        run(given, program=program, cache=None)


def test_number_of_seeds_is_that_many_from_0_on(program):
    given = scenario.chain(3).drop(1, 0)
    runs = run(given, seeds=3, tables="members", program=program, cache=None)
    assert runs.seeds == (0, 1, 2) and runs.members["seed"].tolist() == [0, 0, 0, 1, 1, 1, 2, 2, 2]


def test_other_options_of_the_program_are_handed_on(program, tmp_path):
    given = scenario.star(9, delay=50).lose(every=3, link="adjacent").drawing(12)
    words = {"tables": TABLES, "program": program, "cache": tmp_path}
    step = run(given, **words)
    window = run(given, options=["--engine", "window", "--crew", "bag", "--workers", "2"], **words)
    for name in TABLES:
        pandas.testing.assert_frame_equal(step.table(name), window.table(name))
    with pytest.raises(RefusedError, match="refused: bad-cut"):
        run(given, options=["--engine", "window", "--cut", "0"], **words)


def test_progress_is_shown_where_it_is_asked_for(program, capsys):
    for progress, shown in ((True, True), (None, False), (False, False)):  # standard error is no terminal here
        run(scenario.chain(3), range(2), program=program, cache=None, progress=progress)
        assert ("2/2" in capsys.readouterr().err) == shown


def test_bar_moves_while_the_program_writes(tmp_path):
    """The program does not write its third run before it is seen that the first is made, and else gives up."""
    path, seen, told = tmp_path / "srm_lab", tmp_path / "seen", []
    path.write_text('#!/bin/sh\nprintf "seed,link\\n4,0\\n4,1\\n5,0\\n"\n'
                    f'for _ in $(seq 300); do test -e {seen} && printf "6,0\\n" && exit; sleep 0.1; done\nexit 1\n')
    path.chmod(0o755)

    def made(count):
        told.append(count)
        if count == 1:
            seen.touch()

    assert table_text(b"", "links", [4, 5, 6], path, made=made) == b"seed,link\n4,0\n4,1\n5,0\n6,0\n"
    assert told[0] == 1 and told[-1] == 3


def test_table_that_was_not_asked_for(program):
    with pytest.raises(ScenarioError, match="'links' was not asked for: these runs have losses"):
        run(scenario.chain(3), program=program, cache=None).links


def test_tables_on_disk(program, tmp_path):
    runs = run(scenario.chain(3).drop(1, 0), range(2), program=program, cache=None)
    path, = runs.save(tmp_path / "out")
    assert pandas.read_csv(path)["delay"].tolist() == runs.losses["delay"].tolist()
    means = save(runs.summary("delay", by="member"), tmp_path / "means.csv")
    assert pandas.read_csv(means, index_col="member").loc[2, "seeds"] == 2


def test_tables_say_what_they_are_of(program, srm_lab, tmp_path):
    given = replace(scenario.chain(3).drop(1, 0), comments=("of no matter",))
    runs = run(given, [4, 7], tables=COLUMNS, program=program, cache=None)
    version = srm_lab("", "--version").strip()
    text = given.text().removeprefix("# of no matter\n")
    must = {"seeds": [4, 7], "program": version, "package": __version__, "options": [],
            "program_sha256": hashlib.sha256(program.read_bytes()).hexdigest(),
            "scenario": hashlib.sha256(text.encode()).hexdigest()}
    assert runs.summary("delay", by="member").attrs["scenario"] == given.digest()
    runs.save(tmp_path)
    for name in COLUMNS:
        assert runs.table(name).attrs == {"table": name, **must}
        assert json.loads((tmp_path / f"{name}.json").read_text()) == runs.table(name).attrs
        assert {*runs.table(name)["seed"]} == {4, 7} == {*pandas.read_csv(tmp_path / f"{name}.csv")["seed"]}


def test_version_is_that_of_the_package():
    project = tomllib.loads((ROOT / "python/pyproject.toml").read_text())["project"]
    assert __version__.split("+")[0] == project["version"]


def test_packed_package_knows_its_commit():
    if not (ROOT / ".git").exists():
        pytest.skip("this is no repository of git")
    name = "python/src/srm_lab/__init__.py"
    archive = subprocess.run(["git", "archive", "HEAD", name], cwd=ROOT, capture_output=True, check=True).stdout
    with tarfile.open(fileobj=io.BytesIO(archive)) as packed:
        file = packed.extractfile(name)
        assert file is not None
        text = file.read().decode()
    commit = subprocess.run(["git", "log", "-1", "--format=%h"], cwd=ROOT, capture_output=True, text=True, check=True).stdout
    assert f'COMMIT = "{commit.strip()}"' in text


def test_tables_as_parquet(program, tmp_path):
    pytest.importorskip("pyarrow")
    runs = run(scenario.chain(3).drop(1, 0), range(2), tables=TABLES, program=program, cache=None)
    for name, path in zip(TABLES, runs.save(tmp_path, "parquet")):
        pandas.testing.assert_frame_equal(pandas.read_parquet(path), runs.table(name))


def test_what_parquet_needs_is_told_where_it_is_missing(program, tmp_path, monkeypatch):
    for package in ("pyarrow", "fastparquet"):
        monkeypatch.setitem(sys.modules, package, None)  # as if it were not installed
    runs = run(scenario.chain(3).drop(1, 0), program=program, cache=None)
    with pytest.raises(ScenarioError, match="parquet needs pyarrow or fastparquet"):
        runs.save(tmp_path, "parquet")


@pytest.mark.parametrize("ending", ["xlsx", ""])
def test_other_endings_are_refused(ending, program, tmp_path):
    with pytest.raises(ScenarioError, match="has to be csv or parquet"):
        run(scenario.chain(3), program=program, cache=None).save(tmp_path, ending)


def test_follower_forgets_packets_that_have_come_to_everyone(srm_lab):
    given = scenario.chain(5, delay=10).drawing(2000, every=10).lose(every=50, link=2, any_packet=True)
    follower = Follower(given)
    most = 0
    for _ in follower.follow(read_trace(io.StringIO(srm_lab(given.text())))):
        most = max(most, len(follower._packets))
    # a packet is under way for at most the round trip of the ends, 80 ticks: some ten packets of the source
    assert most < 60


def test_memory_does_not_grow_with_the_trace_where_only_tables_are_asked_for(program):
    """Ten times the rows take no more memory: a packet, and a row, are kept no longer than they are needed."""
    script = ("import resource, sys; from srm_lab import run, scenario; "
              "given = scenario.chain(2, delay=1).drawing(0).ends(int(sys.argv[1])).constants(c1=0, c2=0, d1=0, d2=0); "
              "given = given.draw(0).draw(1).drop(0, 0).outage(0, 3, int(sys.argv[1])); "
              "rows = run(given, tables=['members'], cache=None).members['requests'].sum(); "
              "print(rows, resource.getrusage(resource.RUSAGE_SELF).ru_maxrss)")
    found = []
    for end in (10_000, 200_000):
        done = subprocess.run([sys.executable, "-c", script, str(end)], capture_output=True, text=True, check=False,
                              env={**os.environ, "PYTHONPATH": str(ROOT / "python/src"), "SRM_LAB": str(program)})
        assert done.returncode == 0, done.stderr
        found.append([int(word) for word in done.stdout.split()])
    (few, before), (many, after) = found
    assert many > 15 * few and after < before + 8 * 1024  # kilobytes


def test_page_of_tables_has_each_column_in_order():
    page = (ROOT / "docs/TABLES.md").read_text()
    for section in page.split("\n## `")[1:]:
        name = section.split("`")[0]
        lines = [line.split(":", 1)[0] for line in section.splitlines() if line.startswith("- ")]
        assert re.findall("`([a-z0-9_]+)`", " ".join(lines)) == list(COLUMNS[name]), name
    assert page.count("\n## ") == len(COLUMNS)
