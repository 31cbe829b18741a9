"""Runs Snakemake, and leaves neither it nor what it runs here behind, whatever ends make.

usage: under_make.py MAKE SNAKEMAKE WORD ..

Snakemake ends when this process is interrupted, terminated or loses its terminal, or when the process MAKE is no more.
"""
import os
import signal
import subprocess
import sys
from contextlib import suppress
from pathlib import Path
from types import FrameType

# seconds until it looks again whether make is there, and that Snakemake has to end
LOOK, LEAVE = 1, 20
SIGNALS = (signal.SIGINT, signal.SIGTERM, signal.SIGHUP)


class Stopped(Exception):
    """The sweep is to end before it is done."""


def stop(number: int, frame: FrameType | None) -> None:
    raise Stopped(f"by {signal.Signals(number).name}")


def heed_signals() -> None:
    """Lets each signal that is to end the sweep raise Stopped, but those that this process was started to ignore."""
    for number in SIGNALS:
        if signal.getsignal(number) is not signal.SIG_IGN:
            signal.signal(number, stop)


def is_there(process: int) -> bool:
    """Whether a process has not ended; one that has may still be in the table of processes."""
    try:
        return Path(f"/proc/{process}/stat").read_text().rpartition(")")[2].split()[0] != "Z"
    except (FileNotFoundError, ProcessLookupError):
        return False


def watch(running: subprocess.Popen[bytes], make: int) -> int:
    """Waits for Snakemake to end, and gives its status; Stopped where make ends first."""
    while True:
        try:
            return running.wait(LOOK)
        except subprocess.TimeoutExpired:
            if not is_there(make):
                raise Stopped("since make is no more") from None


def end(running: subprocess.Popen[bytes]) -> None:
    """Ends Snakemake, and its group with it: it waits for what it is running."""
    for number in SIGNALS:
        signal.signal(number, signal.SIG_IGN)
    running.send_signal(signal.SIGINT)
    with suppress(ProcessLookupError):
        os.killpg(running.pid, signal.SIGTERM)
        with suppress(subprocess.TimeoutExpired):
            running.wait(LEAVE)
        os.killpg(running.pid, signal.SIGKILL)


def run(command: list[str], make: int) -> int:
    """Runs Snakemake in a group of its own, which no key of the terminal reaches, and gives its status."""
    with subprocess.Popen(command, start_new_session=True) as running:
        try:
            return watch(running, make)
        except Stopped as why:
            sys.stderr.write(f"the sweep is stopped {why}\n")
            end(running)
            return 1


def main(make: str, *command: str) -> int:
    heed_signals()
    return run(list(command), int(make))


if __name__ == "__main__":
    sys.exit(main(*sys.argv[1:]))
