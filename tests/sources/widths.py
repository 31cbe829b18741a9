#!/usr/bin/env python3
"""Finds lines that are too long to read: over 120 characters in specs/, over 140 in proofs/.

usage: tests/sources/widths.py

`rt fmt` lays out src/. A line that brings one name alone may be longer. Ends with status 1 where a line is too long.
"""
import pathlib
import re
import sys
from collections.abc import Iterator

TOP = pathlib.Path(__file__).resolve().parent.parent.parent
MOST = {"specs": 120, "proofs": 140}
ONE_NAME = re.compile(r"use [^ ]+( as [^ ]+)?")


def too_long(folder: pathlib.Path, most: int) -> Iterator[str]:
    """The lines of a crate's folder, and of the folders below it, that have more characters."""
    for path in sorted(folder.rglob("*.antt")):
        for number, line in enumerate(path.read_text(encoding="utf-8").splitlines(), 1):
            if len(line) > most and not ONE_NAME.fullmatch(line):
                yield f"{path.relative_to(TOP)}:{number}: {len(line)} characters, and not up to {most}"


def main() -> None:
    folders = [(crate / name, most) for crate in sorted((TOP / "crates").iterdir()) for name, most in MOST.items()]
    told = [line for folder, most in folders for line in too_long(folder, most)]
    for line in told:
        print(line, file=sys.stderr)
    sys.exit(bool(told))


if __name__ == "__main__":
    main()
