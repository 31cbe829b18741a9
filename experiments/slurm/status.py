"""Tells Snakemake of one of its jobs at Slurm: running, success or failed.

usage: status.py JOB, in the environment that sweep.py makes

Of a job that failed it says why on standard error. A job that ended well has left a file. Of the others squeue is asked, of
all at once and every five seconds at most; once it no longer knows a job, sacct, where there is accounting. A job of which
neither knows anything for a minute has failed.
"""
import json
import os
import shutil
import subprocess
import sys
import time
from pathlib import Path
from typing import NamedTuple

ANEW = 5
LOST = 60
# why Slurm ended a job; one in another state but COMPLETED waits, runs or is to run again
ENDED = {
    "TIMEOUT": 'took longer than its limit, {limit}: start again with a higher one, SBATCH="--time=MINUTES"',
    "OUT_OF_MEMORY": 'took more memory than it was given: start again with more, SBATCH="--mem=MEGABYTES"',
    "DEADLINE": "did not end before its deadline: start again with a later one",
    "CANCELLED": "was cancelled",
    "NODE_FAIL": "lost its node",
    "BOOT_FAIL": "got no node that starts",
    "PREEMPTED": "made room for another job",
    "FAILED": "failed",
    "LOST": "is not known to Slurm",
}


class Listing(NamedTuple):
    """What squeue said of the jobs of a sweep: of each its state and its limit of time."""

    asked: float
    jobs: dict[str, str]
    # those that it did not know, and since when
    unknown: dict[str, float]


def output_of(*words: str) -> str | None:
    """What a command of Slurm writes; None where it fails."""
    done = subprocess.run(words, stdout=subprocess.PIPE, text=True, check=False)
    return None if done.returncode else done.stdout


def listed(path: Path) -> Listing:
    """What squeue said a short time ago, or says now; where it fails, what it said before."""
    old = Listing(**json.loads(path.read_text())) if path.exists() else Listing(0, {}, {})
    if time.time() - old.asked < ANEW:
        return old
    found = output_of("squeue", f"--user={os.getuid()}", f"--name={os.environ['SWEEP']}", "--states=all", "--noheader",
                      "--format=%i|%T|%l")
    if found is None:
        return old._replace(asked=time.time())
    return Listing(time.time(), dict(line.split("|", 1) for line in found.splitlines()), old.unknown)


def recorded(job: str) -> str | None:
    """The same of a job that squeue no longer knows, of the records of accounting; None where there are none."""
    if shutil.which("sacct") is None:
        return None
    found = output_of("sacct", "--allocations", "--noheader", "--parsable2", "--format=State,Timelimit", f"--jobs={job}")
    return found.splitlines()[-1] if found else None


def found_out(job: str, path: Path) -> str:
    """State and limit of a job that has not said that it ended well."""
    told = listed(path)
    if job in told.jobs:
        told.unknown.pop(job, None)
        found = told.jobs[job]
    elif told.asked - told.unknown.setdefault(job, told.asked) < LOST:
        found = "PENDING|"
    else:
        found = recorded(job) or "LOST|"
    path.write_text(json.dumps(told._asdict()))
    return found


def main(job: str) -> int:
    folder = Path(os.environ["SWEEP_JOBS"])
    done = (folder / f"{job}.done").exists()
    state, _, limit = ("COMPLETED|" if done else found_out(job, folder / "jobs.json")).partition("|")
    state = state.split()[0]  # accounting says who cancelled it
    if state in ENDED:
        told = ENDED[state].format(limit=limit)
        sys.stderr.write(f"Slurm: job {job} {told} (its log: .snakemake/slurm-{job}.log)\n")
    print("success" if state == "COMPLETED" else "failed" if state in ENDED else "running")
    return 0


if __name__ == "__main__":
    sys.exit(main(*sys.argv[1:]))
