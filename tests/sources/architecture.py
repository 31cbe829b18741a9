#!/usr/bin/env python3
"""Holds docs/ARCHITECTURE.md to crates.txt: its picture of the crates, and its table of them.

usage: tests/sources/architecture.py [--write]

The picture is a Mermaid graph with an arrow from each crate to each that it stands on, but for those that other arrows lead
to already. The table has each crate once, after those that it stands on. Ends with status 1 where one of them is not so.
With --write the graph is written anew.
"""
import argparse
import pathlib
import re
import sys
from collections.abc import Iterator

TOP = pathlib.Path(__file__).resolve().parent.parent.parent
PAGE = TOP / "docs" / "ARCHITECTURE.md"
BLOCK = re.compile(r"```mermaid\n.*?```\n", re.S)

# each crate with the crates that it names
Crates = dict[str, list[str]]


def stands_on() -> Crates:
    """Each crate of crates.txt, with the crates of this repository that it names, in the order of the file."""
    named = {}
    for line in (TOP / "crates.txt").read_text(encoding="utf-8").splitlines():
        head, colon, libraries = line.partition("#")[0].partition(":")
        if colon:
            named[head.split()[0]] = libraries.split()
    return {crate: [it for it in libraries if it in named] for crate, libraries in named.items()}


def below(lower: Crates, crate: str) -> set[str]:
    """Every crate that a crate stands on, by whatever way."""
    found = set(lower[crate])
    for it in lower[crate]:
        found |= below(lower, it)
    return found


def graph(lower: Crates) -> str:
    """The picture: of the crates that a crate names, an arrow to each that stands below none of the others."""
    lines = ["```mermaid", "graph TD"]
    for crate, named in lower.items():
        by_others = {further for it in named for further in below(lower, it)}
        direct = [it for it in named if it not in by_others]
        lines += [f"    {crate} --> {it}" for it in direct] or [f"    {crate}"]
    return "\n".join([*lines, "```", ""])


def faults(lower: Crates, text: str) -> Iterator[str]:
    """What is wrong with the page."""
    found = BLOCK.findall(text)
    if len(found) != 1:
        yield f"it has {len(found)} Mermaid graphs, and not one"
    elif found[0] != graph(lower):
        yield "its graph is not that of crates.txt: tests/sources/architecture.py --write writes it anew"
    rows = re.findall(r"^\| `(\w+)` \|", text, re.M)
    for crate in lower:
        if rows.count(crate) != 1:
            yield f"its table has {crate} {rows.count(crate)} times, and not once"
    for at, crate in enumerate(rows):
        if crate not in lower:
            yield f"its table has {crate}, which crates.txt does not list"
        else:
            yield from (f"its table has {crate} above {it}, on which it stands" for it in lower[crate] if it in rows[at:])


def main() -> None:
    parser = argparse.ArgumentParser(description=__doc__, formatter_class=argparse.RawDescriptionHelpFormatter)
    parser.add_argument("--write", action="store_true")
    options = parser.parse_args()
    lower, text = stands_on(), PAGE.read_text(encoding="utf-8")
    if options.write:
        text = BLOCK.sub(lambda _: graph(lower), text)
        PAGE.write_text(text, encoding="utf-8")
    wrong = list(faults(lower, text))
    for it in wrong:
        print(f"docs/ARCHITECTURE.md: {it}", file=sys.stderr)
    sys.exit(1 if wrong else 0)


if __name__ == "__main__":
    main()
