"""Sweeps whose jobs Slurm runs, with a stand-in for its commands: what becomes of jobs that do not end by themselves."""
import json
import os
import shutil
import subprocess

import pytest
import status
import sweep
from test_workflow import CONFIG, ENDS, HERE, PROGRAM, ROWS, at_work_in, kill_groups, until

# the commands of Slurm: a job is a file with its name, state and limit; one of a point named by SLURM_KEEPS is never run
SLURM = r"""#!/usr/bin/python3 -IS
import os, subprocess, sys
from pathlib import Path
jobs, command, words = Path(__file__).parent / "jobs", Path(sys.argv[0]).name, sys.argv[1:]
given = dict(word[2:].partition("=")[::2] for word in words if word.startswith("--"))
these = [job for job in sorted(jobs.glob("*")) if job.read_text().startswith(given.get("name", "") + "|")]
if command == "sbatch":
    number, script = len(list(jobs.glob("*"))) + 1, words[-1]
    point, _, state = os.environ.get("SLURM_KEEPS", "|").partition("|")
    kept = point and point in Path(script).read_text()
    (jobs / str(number)).write_text(given["job-name"] + "|" + (state if kept else "COMPLETED") + "|1:00")
    print(number)
    if not kept:
        subprocess.run(["sh", script], env={**os.environ, "SLURM_JOB_ID": str(number)}, stdout=subprocess.DEVNULL)
elif command == "squeue":
    over = () if "states" in given else ("COMPLETED", "TIMEOUT", "CANCELLED")
    for job in these:
        name, state, limit = job.read_text().split("|")
        if state not in over:
            print(given["format"].replace("%i", job.name).replace("%T", state).replace("%l", limit))
elif command == "scancel":
    for job in these:
        job.write_text(job.read_text().replace("RUNNING", "CANCELLED"))
else:
    sys.exit("there is no accounting")
"""


@pytest.fixture
def cluster(tmp_path):
    """Starts `make experiments-slurm` with commands of Slurm in front of all others, and ends what is left of it."""
    for name in ("snakemake", "flock"):
        if shutil.which(name) is None:
            pytest.skip(f"no {name}")
    commands, program, config = tmp_path / "slurm", tmp_path / "srm_lab", tmp_path / "config.json"
    (commands / "jobs").mkdir(parents=True)
    for name in ("sbatch", "squeue", "scancel", "sacct"):
        (commands / name).write_text(SLURM)
        (commands / name).chmod(0o755)
    program.write_text(PROGRAM)
    program.chmod(0o755)
    config.write_text(json.dumps({**CONFIG, "results": "results"}))
    started = []

    def start(keeps):
        words = ["make", "-s", f"--directory={HERE.parent}", "experiments-slurm", f"CONFIG={config}", f"SRM_LAB={program}"]
        path = f"{commands}:{os.environ['PATH']}"
        started.append(subprocess.Popen(
            ["env", "--default-signal=HUP,INT", *words, "JOBS=2"], start_new_session=True,
            env={**os.environ, "REFUSE": "none", "PATH": path, "SLURM_KEEPS": keeps, "CI": "true"},
            stdout=subprocess.PIPE, stderr=subprocess.STDOUT, text=True))
        return started[-1]

    yield start
    kill_groups([one.pid for one in started], tmp_path)


def states(folder):
    """The states of all jobs, in the order in which they were submitted."""
    return [job.read_text().split("|")[1] for job in sorted((folder / "slurm/jobs").glob("*"))]


def test_sweep_by_slurm_is_that_without(cluster, tmp_path):
    running = cluster("|")
    told, _ = running.communicate(timeout=600)
    assert running.returncode == 0, told
    assert (tmp_path / "results/tables/one.csv").read_text().splitlines()[1:] == ROWS
    assert set(states(tmp_path)) == {"COMPLETED"}


def test_job_that_slurm_ends_is_told_and_the_others_go_on(cluster, tmp_path):
    running = cluster("size-2|TIMEOUT")
    told, _ = running.communicate(timeout=600)
    assert running.returncode and told.count("took longer than its limit, 1:00: ") == 1, told
    assert (tmp_path / "results/runs/one/size-3/part-0.done").exists()
    assert not (tmp_path / "results/runs/one/size-2/part-0.done").exists()


@ENDS
def test_ended_make_leaves_no_job(cluster, tmp_path, number, send):
    running = cluster("size-2|RUNNING")
    until(lambda: "RUNNING" in states(tmp_path))
    send(running.pid, number)
    until(lambda: "CANCELLED" in states(tmp_path) and "RUNNING" not in states(tmp_path))
    told, _ = running.communicate(timeout=600)  # all that writes there has ended
    assert "the sweep is stopped" in told and not list(at_work_in(tmp_path))


def test_what_an_earlier_sweep_left_is_cancelled_first(cluster, tmp_path):
    left = tmp_path / "slurm/jobs/1"
    left.write_text(f"{sweep.Jobs(tmp_path / 'results').name}|RUNNING|1:00")
    (tmp_path / "slurm/jobs/2").write_text("another|RUNNING|1:00")
    cluster("size-2|RUNNING")
    until(lambda: len(states(tmp_path)) > 2)
    assert states(tmp_path)[:2] == ["CANCELLED", "RUNNING"]


@pytest.fixture
def asked(tmp_path, monkeypatch, capsys):
    """What is said of a job, with commands of Slurm that write something or fail."""
    monkeypatch.setenv("PATH", f"{tmp_path}:/usr/bin:/bin")
    monkeypatch.setenv("SWEEP", "name")
    monkeypatch.setenv("SWEEP_JOBS", str(tmp_path))

    def ask(job, **commands):
        for name, text in commands.items():
            (tmp_path / name).write_text("#!/bin/sh\n" + ("exit 1" if text is None else f"echo '{text}'"))
            (tmp_path / name).chmod(0o755)
        status.main(job)
        return capsys.readouterr()

    return ask


@pytest.mark.parametrize("state", ["RUNNING", "PENDING", "CONFIGURING", "COMPLETING", "REQUEUED", "SUSPENDED"])
def test_job_that_is_not_over(asked, state):
    assert asked("7", squeue=f"7|{state}|1:00", sacct=None) == ("running\n", "")


@pytest.mark.parametrize("state, words", [
    ("TIMEOUT", 'took longer than its limit, 1:00: start again with a higher one, SBATCH="--time=MINUTES"'),
    ("OUT_OF_MEMORY", 'took more memory than it was given: start again with more, SBATCH="--mem=MEGABYTES"'),
    ("CANCELLED", "was cancelled"), ("NODE_FAIL", "lost its node"), ("FAILED", "failed"), ("DEADLINE", "did not end before"),
    ("PREEMPTED", "made room for another"), ("BOOT_FAIL", "got no node")])
def test_job_that_slurm_ended(asked, state, words):
    said = asked("7", squeue=f"7|{state}|1:00", sacct=None)
    assert said.out == "failed\n" and said.err.startswith(f"Slurm: job 7 {words}")
    assert said.err.endswith(" (its log: .snakemake/slurm-7.log)\n")


def test_job_that_ended_well_says_so_itself(asked, tmp_path):
    (tmp_path / "7.done").touch()
    assert asked("7", squeue=None, sacct=None).out == "success\n"


def test_job_that_ended_well_by_what_slurm_says(asked):
    assert asked("7", squeue="7|COMPLETED|1:00", sacct=None) == ("success\n", "")


@pytest.mark.parametrize("record, answer, words", [
    ("CANCELLED by 0|1:00", "failed", "was cancelled"), ("TIMEOUT|00:30:00", "failed", "limit, 00:30:00"),
    ("COMPLETED|1:00", "success", ""), ("RUNNING|1:00", "running", ""), (None, "failed", "is not known to Slurm")])
def test_job_that_squeue_no_longer_knows_for_a_minute(asked, tmp_path, record, answer, words):
    assert asked("7", squeue="8|RUNNING|1:00", sacct=record).out == "running\n"
    known = json.loads((tmp_path / "jobs.json").read_text())
    known["unknown"]["7"] -= 61
    (tmp_path / "jobs.json").write_text(json.dumps(known))
    said = asked("7", squeue="8|RUNNING|1:00")
    assert said.out == f"{answer}\n" and words in said.err


def test_job_goes_on_while_slurm_does_not_answer(asked, tmp_path):
    assert asked("7", squeue="7|RUNNING|1:00", sacct=None).out == "running\n"
    known = json.loads((tmp_path / "jobs.json").read_text())
    (tmp_path / "jobs.json").write_text(json.dumps({**known, "asked": 0}))
    assert asked("7", squeue=None).out == "running\n"


def test_squeue_is_asked_for_all_jobs_at_once(asked):
    assert asked("7", squeue="7|RUNNING|1:00\n8|RUNNING|1:00", sacct=None).out == "running\n"
    assert asked("8", squeue="8|FAILED|1:00").out == "running\n"
