#!/usr/bin/env python3
"""Names each source that `rt fmt` would lay out otherwise: `rt ci` refuses its crate, late.

usage: tests/sources/layout.py

It lays out a copy, and changes no source. RT is the command to call in place of `rt`. Ends with status 1 where a source differs.
"""
import os
import pathlib
import shlex
import shutil
import subprocess
import sys
import tempfile
from collections.abc import Iterator

TOP = pathlib.Path(__file__).resolve().parent.parent.parent
RT = shlex.split(os.environ.get("RT", "rt"))


def changed(copy: pathlib.Path) -> Iterator[str]:
    """The sources of a copy of the repository's crates that another layout is given there."""
    before = {path: path.read_bytes() for path in copy.rglob("*") if path.suffix in (".rt", ".antt")}
    for crate in sorted((copy / "crates").iterdir()):
        subprocess.run([*RT, "fmt"], cwd=crate, stdin=subprocess.DEVNULL, stdout=subprocess.DEVNULL, check=True)
    yield from (str(path.relative_to(copy)) for path in sorted(before) if path.read_bytes() != before[path])


def main() -> None:
    with tempfile.TemporaryDirectory() as folder:
        copy = pathlib.Path(folder)
        shutil.copytree(TOP / "crates", copy / "crates", ignore=shutil.ignore_patterns("out"))
        shutil.copy(TOP / "crates.txt", copy)
        told = list(changed(copy))
    for path in told:
        print(f"{path} is not in the layout: make fmt", file=sys.stderr)
    sys.exit(bool(told))


if __name__ == "__main__":
    main()
