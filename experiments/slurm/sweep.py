"""Runs Snakemake with its jobs at Slurm, and leaves none of them behind, whatever ends it.

usage: sweep.py MAKE RESULTS SNAKEMAKE WORD ..

All jobs have one name, made of the folder of results, which only one sweep has at a time. They are cancelled when Snakemake
ends (as under_make.py has it), and where nothing was left to do so, when the next sweep begins.
"""
import hashlib
import os
import shutil
import subprocess
import sys
import time
from pathlib import Path

sys.path.append(str(Path(__file__).resolve().parents[1]))
from under_make import Stopped, heed_signals, run  # noqa: E402

# seconds that Slurm has to end jobs
CANCEL = 120


class Jobs:
    """The jobs of a sweep at Slurm."""

    def __init__(self, results: Path):
        self.name = "srm_lab-" + hashlib.sha256(str(results.resolve()).encode()).hexdigest()[:12]
        self._these = (f"--user={os.getuid()}", f"--name={self.name}")

    def left(self) -> list[str]:
        """Those that are not over."""
        return subprocess.run(["squeue", "--noheader", "--format=%i", *self._these], stdout=subprocess.PIPE, text=True,
                              check=True).stdout.split()

    def cancel(self) -> None:
        """Cancels those that are not over."""
        left = self.left()
        if left:
            sys.stderr.write(f"Slurm: cancels {' '.join(left)}, which this sweep leaves or an earlier one left\n")
            subprocess.run(["scancel", *self._these], check=True)

    def cancelled(self) -> None:
        """Cancels them, and waits until they are over; TimeoutError where they stay."""
        self.cancel()
        until = time.monotonic() + CANCEL
        while left := self.left():
            if time.monotonic() > until:
                raise TimeoutError(f"Slurm: {' '.join(left)} of an earlier sweep into these results are not ended yet")
            time.sleep(1)


def main(make: str, results: str, *command: str) -> int:
    heed_signals()
    jobs, folder = Jobs(Path(results)), Path(results, ".slurm").resolve()
    try:
        jobs.cancelled()
        shutil.rmtree(folder, ignore_errors=True)
        folder.mkdir()
        os.environ.update(SWEEP=jobs.name, SWEEP_JOBS=str(folder))
        status = run(list(command), int(make))
        jobs.cancel()
        return status
    except (OSError, subprocess.CalledProcessError, Stopped) as fault:
        sys.stderr.write(f"{fault}\n")
        return 1


if __name__ == "__main__":
    sys.exit(main(*sys.argv[1:]))
