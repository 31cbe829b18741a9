"""The workflow, with a stand-in for the program: what is refused, and what goes on."""
import fcntl
import json
import os
import re
import shutil
import signal
import subprocess
import sys
import time
from contextlib import suppress
from pathlib import Path

import pytest

HERE = Path(__file__).resolve().parents[2] / "experiments"
PROGRAM = r"""#!/bin/sh
# srm_lab: one loss of each of three seeds, or a refusal where the scenario has REFUSE nodes
grep -q "size = $REFUSE$" && { echo "refused: bad-drop 0" >&2; exit 1; }
case "$*" in
*operations*) cat <<END
seed,source,page,number,losers,recovered,left,detected,asked,requests,repairs,last,delay
1,0,0,0,1,1,0,1001,3001,1,1,1,5000/2000
2,0,0,0,1,1,0,1001,3001,1,1,1,5000/2000
3,0,0,0,1,1,0,1001,3001,1,1,1,5000/2000
END
;; *) cat <<END
seed,member,source,page,number,detected,recovered,delay
1,1,0,0,0,1001,6001,5000/2000
2,1,0,0,0,1001,6001,5000/2000
3,1,0,0,0,1001,6001,5000/2000
END
;; esac
"""
ONE: dict = {"kind": "chain", "size": [2, 3], "drop_link": 0, "seeds": 3}
CONFIG: dict[str, dict] = {"experiments": {"one": ONE},
                           "figures": {"delay": {"draw": "lines", "of": ["one"], "x": "size", "y": "ratio"}}}
# make is killed alone, or with its group as by a key of the terminal, or with the terminal
ENDS = pytest.mark.parametrize("number, send", [
    (signal.SIGTERM, os.kill), (signal.SIGKILL, os.kill), (signal.SIGINT, os.killpg), (signal.SIGHUP, os.killpg)])
ROWS = [f"chain,{size},0,{seed},0/0/0,1,0,0,1,1,5000,5000,5000,2000" for size in (2, 3) for seed in (1, 2, 3)]


@pytest.fixture
def sweep(tmp_path):
    """Runs the workflow in a directory of its own."""
    if shutil.which("snakemake") is None:
        pytest.skip("no snakemake")
    program = tmp_path / "srm_lab"
    program.write_text(PROGRAM)
    program.chmod(0o755)
    config = tmp_path / "config.json"

    def run(refuse, **change):
        config.write_text(json.dumps({**CONFIG, "program": str(program), "results": str(tmp_path / "results"), **change}))
        return subprocess.run(["make", "-s", f"--directory={HERE.parent}", "experiments", f"CONFIG={config}",
                               f"SRM_LAB={program}", "JOBS=2"], env={**os.environ, "REFUSE": refuse},
                              capture_output=True, text=True, check=False)

    return run


def test_refused_point_fails_alone_and_is_run_again(sweep, tmp_path):
    first = sweep("3")
    results = tmp_path / "results"
    kept, refused = (results / f"runs/one/size-{size}" for size in (2, 3))
    assert first.returncode != 0 and "refused: bad-drop 0" in first.stderr
    assert not (results / "tables/one.csv").exists()
    assert (kept / "part-0.losses.csv").exists() and not (refused / "part-0.losses.csv").exists()
    assert (refused / "part-0.log").read_text() == "seeds 1, 2, 3: refused: bad-drop 0\n"
    before = (kept / "part-0.losses.csv").stat().st_mtime_ns
    second = sweep("none")
    assert second.returncode == 0, second.stderr
    assert (kept / "part-0.losses.csv").stat().st_mtime_ns == before
    assert (results / "tables/one.csv").read_text().splitlines()[1:] == ROWS
    report = (results / "report.html").read_text()
    assert "<svg" in report and "size:" in report and "pandas" in report and "http-equiv" not in report
    assert not re.search(r'(src|href)="(?!#|data:)', report.replace("xlink:href=\"#", ""))


@pytest.mark.parametrize("change, told", [
    ({"experiments": {"one": {"kind": "chain", "size": 2, "sizes": 3, "seeds": 1}}}, "there is no key 'sizes'"),
    ({"figures": {"f": {"draw": "line", "of": ["one"]}}}, "figure f, draw: there is no 'line'"),
])
def test_configuration_is_refused_once_before_the_first_run(sweep, change, told, tmp_path):
    done = sweep("none", **change)
    assert done.returncode != 0 and (done.stdout + done.stderr).count(told) == 1
    assert not (tmp_path / "results").exists()


def make(*words, cwd=HERE.parent):
    """What make would do."""
    done = subprocess.run(["make", "-n", f"--directory={HERE.parent}", *words], cwd=cwd, capture_output=True, text=True,
                          env={**os.environ, "PWD": str(cwd)}, check=False)
    assert done.returncode == 0, done.stderr
    return done.stdout


def test_configuration_is_taken_from_where_make_was_called(tmp_path):
    (tmp_path / "mine.yaml").write_text("{}")
    assert f"--configfile {tmp_path}/mine.yaml" in make("SRM_LAB=/bin/true", "experiments", "CONFIG=mine.yaml",
                                                        cwd=tmp_path)
    assert f"--configfile {HERE}/small.yaml" in make("SRM_LAB=/bin/true", "experiments", "CONFIG=small.yaml")
    assert f"--configfile {HERE}/config.yaml" in make("SRM_LAB=/bin/true", "experiments")


def at_work_in(folder):
    """The groups of processes that a test left at work in its folder."""
    for process in Path("/proc").glob("[0-9]*"):
        try:
            if os.readlink(process / "cwd") == str(folder):
                yield os.getpgid(int(process.name))
        except OSError:
            pass


def kill_groups(groups, folder):
    """Kills these groups of processes, and what is at work in a folder."""
    for group in {*groups, *at_work_in(folder)}:
        with suppress(ProcessLookupError):
            os.killpg(group, signal.SIGKILL)


def until(holds, seconds=300):
    """Waits until something holds."""
    end = time.monotonic() + seconds
    while not holds():
        assert time.monotonic() < end, "this takes too long"
        time.sleep(0.1)


@pytest.fixture
def started(tmp_path):
    """Starts `make experiments` of a small sweep, whose program waits until a file is there; ends what is left of it."""
    if shutil.which("snakemake") is None:
        pytest.skip("no snakemake")
    sweeps = []

    def start(name, waits_for):
        begun, program, config = (tmp_path / f"{name}.{ending}" for ending in ("begun", "sh", "json"))
        waiting = f"touch {begun}\nuntil [ -e {waits_for} ]; do sleep 0.1; done\n"
        program.write_text(PROGRAM.replace("#!/bin/sh\n", f"#!/bin/sh\n{waiting}"))
        program.chmod(0o755)
        config.write_text(json.dumps({"experiments": {"one": {**ONE, "size": 2, "seeds": 1}}, "results": name}))
        words = ["make", "-s", f"--directory={HERE.parent}", "experiments", f"CONFIG={config}", f"SRM_LAB={program}", "JOBS=1"]
        sweeps.append(subprocess.Popen(["env", "--default-signal=HUP,INT", *words], start_new_session=True,
                                       stderr=subprocess.PIPE, stdout=subprocess.PIPE, text=True))
        return sweeps[-1]

    yield start
    kill_groups([one.pid for one in sweeps], tmp_path)


def test_sweeps_with_different_results_run_side_by_side(started, tmp_path):
    """The program of each waits until that of the other has begun, so neither would end after the other.

    Results lie beside the configuration, and the last line is the report's path.
    """
    sweeps = started("first", tmp_path / "second.begun"), started("second", tmp_path / "first.begun")
    for sweep, name in zip(sweeps, ("first", "second")):
        out, told = sweep.communicate(timeout=600)
        assert sweep.returncode == 0, told
        assert out.splitlines()[-1] == str(tmp_path / name / "report.html")
        assert (tmp_path / name / "tables/one.csv").read_text().splitlines()[1:] == ROWS[:3]


@ENDS
def test_ended_make_leaves_no_run(started, tmp_path, number, send):
    sweep = started("ended", "/nowhere")
    until((tmp_path / "ended.begun").exists)
    send(sweep.pid, number)
    _, told = sweep.communicate(timeout=600)  # all that writes there has ended
    assert "the sweep is stopped" in told and not list(at_work_in(tmp_path))


def test_second_sweep_into_the_same_results_is_refused_at_once(started, tmp_path):
    results = tmp_path / "same"
    results.mkdir()
    with open(results / ".lock", "w") as lock:
        fcntl.flock(lock, fcntl.LOCK_EX)
        sweep = started("same", "/")
        _, told = sweep.communicate(timeout=600)
    assert sweep.returncode != 0 and "failed to get lock" in told and not (results / "runs").exists()


def test_sweeps_with_different_results_have_different_locks():
    said = make("SRM_LAB=/bin/true", "experiments")
    assert 'flock --verbose --nonblock --conflict-exit-code 3 "$results/.lock"' in said
    for name, results in (("config.yaml", "results"), ("small.yaml", "results-small")):
        done = subprocess.run([sys.executable, "check_config.py", name], cwd=HERE, capture_output=True, text=True,
                              env={**os.environ, "PYTHONPATH": str(HERE.parent / "python/src")}, check=False)
        assert done.stdout == f"{results}\n", done.stderr


def test_slurm_that_is_not_there_is_told_at_once(tmp_path):
    for name in ("make", "sh"):
        (tmp_path / name).symlink_to(str(shutil.which(name)))
    done = subprocess.run(["make", f"--directory={HERE.parent}", "SRM_LAB=/bin/true", "experiments-slurm"], check=False,
                          env={"PATH": str(tmp_path)}, capture_output=True, text=True)
    assert done.returncode and "there is no Slurm here: no sbatch is on the path\n" in done.stderr
    assert "snakemake" not in done.stdout
