"""Tests of the built program."""
import resource
import signal
import subprocess
import unittest
from typing import IO, Any, ClassVar

from program import BUILT, Program


class ProgramCase(unittest.TestCase):
    """Tests that run the program."""

    program: ClassVar[Program]


def main() -> None:
    """Runs the tests of the script that was called."""
    ProgramCase.program = Program(BUILT)
    unittest.main()


def narrow(most: int) -> dict[str, Any]:
    """What is handed to a run so that its files take at most so many bytes."""

    def limit() -> None:
        signal.signal(signal.SIGXFSZ, signal.SIG_IGN)
        resource.setrlimit(resource.RLIMIT_FSIZE, (most, most))

    return {"preexec_fn": limit, "restore_signals": False}


def pipes(child: subprocess.Popen[bytes]) -> tuple[IO[bytes], IO[bytes]]:
    """The pipes to a run's standard input and from its standard output."""
    assert child.stdin is not None and child.stdout is not None
    return child.stdin, child.stdout
