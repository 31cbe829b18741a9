"""Sweeps on a Slurm of one node, this machine, which is set up for them; `make test-slurm`.

It takes about six minutes, needs to be root, Debian's slurm-wlm and munge, and is skipped without one of these.
"""
import json
import os
import shutil
import subprocess
import tempfile
import time
from pathlib import Path

import pytest
from test_workflow import CONFIG, HERE, PROGRAM, ROWS

pytestmark = pytest.mark.one_node
ONE_NODE = HERE / "slurm/one_node.sh"
# a program that in the scenario of three nodes goes on until a file is there
SLOW = """#!/bin/sh
scenario=$(cat)
case "$scenario" in *"size = 3"*) until [ -e {goes_on} ]; do sleep 0.2; done;; esac
printf '%s\\n' "$scenario" | {program} "$@"
"""


@pytest.fixture(scope="module")
def node():
    """Runs a command of the Slurm, and gives what it writes."""
    for name in ("slurmctld", "slurmd", "munged", "snakemake"):
        if shutil.which(name) is None:
            pytest.skip(f"no {name}")
    if os.geteuid():
        pytest.skip("only root can set up a Slurm")
    with tempfile.TemporaryDirectory(prefix="one-node-") as place:  # pytest's own is closed to munge's user
        def run(*words):
            return subprocess.run(words, env={**os.environ, "SLURM_CONF": f"{place}/slurm.conf"}, capture_output=True,
                                  text=True, check=True, timeout=60).stdout

        try:
            run("bash", ONE_NODE, "start", place)
            yield run
        finally:
            run("bash", ONE_NODE, "stop", place)


@pytest.fixture
def sweep(node, tmp_path):
    """A sweep of two points, the second of which goes on until a file is there."""
    plain, program, config = tmp_path / "plain", tmp_path / "srm_lab", tmp_path / "config.json"
    plain.write_text(PROGRAM)
    program.write_text(SLOW.format(goes_on=tmp_path / "goes-on", program=plain))
    for path in (plain, program):
        path.chmod(0o755)
    config.write_text(json.dumps({**CONFIG, "results": "results"}))
    conf = Path(node("bash", "-c", "echo $SLURM_CONF").strip())
    words = ["make", "-s", f"--directory={HERE.parent}", "experiments-slurm", f"CONFIG={config}", f"SRM_LAB={program}"]
    started = []

    def start(*more):
        started.append(subprocess.Popen([*words, "JOBS=2", "CORES=2", *more], stdout=subprocess.PIPE, stderr=subprocess.STDOUT,
                                        text=True, env={**os.environ, "REFUSE": "none", "SLURM_CONF": str(conf), "CI": "true"}))
        return started[-1]

    yield start
    for one in started:
        if one.poll() is None:
            one.terminate()
            one.communicate(timeout=120)


def slow_job(node, tmp_path):
    """The number of the job that goes on, once that of the other point has ended."""
    until(lambda: (tmp_path / "results/runs/one/size-2/part-0.done").exists())
    until(lambda: len(running(node)) == 1)
    return running(node)[0]


def running(node):
    """The numbers of the jobs that run."""
    return node("squeue", "--noheader", "--states=running", "--format=%i").split()


def until(holds, seconds=120):
    """Waits until something holds."""
    end = time.monotonic() + seconds
    while not holds():
        assert time.monotonic() < end, "this takes too long"
        time.sleep(0.5)


def at_work(tmp_path):
    """The processes of this machine that are at work for a test."""
    return [line for line in subprocess.run(["ps", "-e", "-o", "args="], capture_output=True, text=True, check=True).stdout
            .splitlines() if str(tmp_path) in line]


def test_sweep_is_made(node, sweep, tmp_path):
    (tmp_path / "goes-on").touch()
    making = sweep("SBATCH=--time=5 --comment=ours")
    told, _ = making.communicate(timeout=180)
    assert making.returncode == 0, told
    assert (tmp_path / "results/tables/one.csv").read_text().splitlines()[1:] == ROWS
    assert told.splitlines()[-1] == str(tmp_path / "results/report.html")


def test_job_over_its_time(node, sweep, tmp_path):
    making = sweep("SBATCH=--time=1")
    job = slow_job(node, tmp_path)
    told, _ = making.communicate(timeout=180)
    assert making.returncode and f"Slurm: job {job} took longer than its limit, 1:00: " in told, told
    assert not at_work(tmp_path)
    (tmp_path / "goes-on").touch()
    making = sweep("SBATCH=--time=2")
    told, _ = making.communicate(timeout=180)
    assert making.returncode == 0 and "output: results/runs/one/size-2" not in told, told


def test_cancelled_job(node, sweep, tmp_path):
    making = sweep()
    job = slow_job(node, tmp_path)
    node("scancel", job)
    told, _ = making.communicate(timeout=120)
    assert making.returncode and f"Slurm: job {job} was cancelled" in told, told
    assert not at_work(tmp_path)


@pytest.mark.parametrize("signal", ["TERM", "KILL"])
def test_killed_make(node, sweep, tmp_path, signal):
    making = sweep()
    job = slow_job(node, tmp_path)
    node("kill", f"-{signal}", str(making.pid))
    told, _ = making.communicate(timeout=120)
    assert f"Slurm: cancels {job}" in told, told
    until(lambda: not running(node) and not at_work(tmp_path))


def lose(node):
    """Takes the node away from its job, and gives it back."""
    name = node("sinfo", "--noheader", "--format=%n").strip()
    node("scontrol", "update", f"nodename={name}", "state=down", "reason=test")
    until(lambda: not running(node))
    node("bash", "-c", f"scontrol update nodename={name} state=resume || sinfo")  # it may be back by itself
    until(lambda: node("sinfo", "--noheader", "--format=%t").strip() == "idle")


def test_job_that_lost_its_node_is_run_again(node, sweep, tmp_path):
    """Slurm puts it back into the queue, for two minutes."""
    making = sweep()
    job = slow_job(node, tmp_path)
    lose(node)
    (tmp_path / "goes-on").touch()
    told, _ = making.communicate(timeout=300)
    assert making.returncode == 0 and "Slurm: " not in told, told
    assert " Restarts=1 " in node("scontrol", "show", "job", job)


def test_job_that_lost_its_node_and_is_not_to_run_again(node, sweep, tmp_path):
    making = sweep("SBATCH=--no-requeue")
    job = slow_job(node, tmp_path)
    lose(node)
    told, _ = making.communicate(timeout=120)
    assert making.returncode and f"Slurm: job {job} lost its node" in told, told
