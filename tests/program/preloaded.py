"""Libraries that are loaded into a run before all others, to count or to refuse what it asks of the system. They need a C
compiler, `cc`."""
import os
import pathlib
import subprocess
import tempfile
from collections.abc import Callable

Environment = dict[str, str]


class Library:
    """A library, built into a folder from its source beside this module."""

    def __init__(self, name: str, folder: str | os.PathLike[str]) -> None:
        self.path = pathlib.Path(folder) / f"{name}.so"
        source = pathlib.Path(__file__).with_name(f"{name}.c")
        subprocess.run(["cc", "-O2", "-shared", "-fPIC", "-o", self.path, source, "-ldl"], check=True)

    def counted(self, run: Callable[[Environment], object]) -> int:
        """How often a run, which is given its environment, does what the library counts."""
        with tempfile.NamedTemporaryFile() as told:
            run({"LD_PRELOAD": str(self.path), "TELL": told.name})
            return os.path.getsize(told.name)

    def refusing(self, number: int) -> Environment:
        """The environment of a run to which the library refuses what has this number, and each thread after it; 0 is of none."""
        return {"LD_PRELOAD": str(self.path), "REFUSE": str(number)}
