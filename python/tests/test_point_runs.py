"""The runs of a point of a sweep, with a stand-in for the program: which are made, kept, and made anew."""
import json
import os
import re
import subprocess
import time

import pytest
from point_runs import main

ONE: dict = {"kind": "chain", "size": 2, "drop_link": 0, "seeds": 2}
PROGRAM = """#!/bin/sh
case "$*" in
*operations*) cat <<END
seed,source,page,number,losers,recovered,left,detected,asked,requests,repairs,last,delay
1,0,0,0,1,1,0,1001,3001,1,1,1,5000/2000
2,0,0,0,1,1,0,1001,3001,1,1,1,5000/2000
END
;; *) cat <<END
seed,member,source,page,number,detected,recovered,delay
1,1,0,0,0,1001,6001,5000/2000
2,1,0,0,0,1001,6001,5000/2000
END
;; esac
"""


@pytest.fixture
def runs(tmp_path):
    """Makes the runs of the one point, and gives for each when its tables were written."""
    program = tmp_path / "program"
    program.write_text(PROGRAM)
    program.chmod(0o755)

    def make(**change):
        assert main(json.dumps({**ONE, **change}), "only", str(program), str(tmp_path / "runs"), "0") == 0
        tables = [tmp_path / f"runs/part-0.{kind}.csv" for kind in ("losses", "operations")]
        time.sleep(0.02)  # what is written after this is later
        return [table.stat().st_mtime_ns for table in tables]

    return make


def test_runs_are_kept(runs):
    assert runs() == runs()


def test_later_program_makes_runs_anew(runs, tmp_path):
    first = runs()
    os.utime(tmp_path / "program")
    assert all(after > before for before, after in zip(first, runs()))


def test_other_scenario_makes_runs_anew(runs):
    first = runs()
    assert all(after > before for before, after in zip(first, runs(c1=3)))


def test_other_seeds_make_runs_anew(runs):
    first = runs()
    assert all(after > before for before, after in zip(first, runs(seeds=3)))


def test_run_that_was_broken_off_is_made(runs, tmp_path):
    first = runs()
    (tmp_path / "runs/part-0.operations.csv").unlink()
    assert all(after > before for before, after in zip(first, runs()))


def test_seeds_of_one_scenario_are_one_process_and_others_one_each(tmp_path):
    log, program = tmp_path / "log", tmp_path / "program"
    program.write_text(PROGRAM.replace("#!/bin/sh\n", f'#!/bin/sh\necho "$*" >> {log}\n'))
    program.chmod(0o755)
    cases: list[tuple[dict, str]] = [({}, "2"), ({"kind": "random", "size": 30, "drop_link": "random"}, "11")]
    for change, counts in cases:
        log.write_text("")
        assert main(json.dumps({**ONE, **change}), "only", str(program), str(tmp_path / "runs"), "0") == 0
        found = re.findall(r"--show losses .*--replications (\d+)", log.read_text())
        assert "".join(found) == counts


def test_later_metric_makes_runs_anew(runs, tmp_path, program):
    metric = tmp_path / "metric.py"
    metric.write_text("def number(given):\n    return 7 + len(given.links)\n")
    real = json.dumps({**ONE, "metrics": {"own": f"{metric}:number"}}), "only", str(program), str(tmp_path / "real"), "0"
    if "operations" not in subprocess.run([program, "--help"], capture_output=True, text=True, check=True).stdout:
        pytest.skip("the program has no table of operations")
    table = tmp_path / "real/part-0.metrics.csv"
    assert main(*real) == 0 and table.read_text() == "seed,own\n1,8\n2,8\n"
    time.sleep(0.02)
    metric.write_text("def number(given):\n    return 9\n")
    assert main(*real) == 0 and table.read_text() == "seed,own\n1,9\n2,9\n"


def test_refused_run_is_told_with_its_seeds(tmp_path, capsys):
    program = tmp_path / "program"
    program.write_text('#!/bin/sh\necho "refused: bad-drop 0" >&2\nexit 1\n')
    program.chmod(0o755)
    assert main(json.dumps(ONE), "only", str(program), str(tmp_path / "runs"), "0") == 1
    assert capsys.readouterr().err == "seeds 1, 2: refused: bad-drop 0\n"
    assert sorted(path.name for path in (tmp_path / "runs").iterdir()) == ["seed-1.toml", "seed-2.toml"]
