#!/usr/bin/env python3
"""Holds the definition of the refusals' lines, crates/srm_program/specs/RefusalLines.antt, to the table of docs/FORMATS.md.

usage: tests/sources/lines.py

The program is proved to print what the definition says; some of its lines no run can reach. A refusal `ShareFull` has the
line `refused: share-full`, with its number, if it has one, after a space. Ends with status 1 where the definition or the
table differs.
"""
import pathlib
import re
import sys
from collections.abc import Iterator

TOP = pathlib.Path(__file__).resolve().parent.parent.parent
DEFINITION = TOP / "crates" / "srm_program" / "specs" / "RefusalLines.antt"
PAGE = TOP / "docs" / "FORMATS.md"
COMMAND_LINE = "command line refused"
NUMBERED = {
    f"refused: {line}"
    for line in ("bad-key", "bad-member", "bad-draw", "bad-session", "bad-drop", "bad-outage", "bad-loss", "write-fault")
}
PARTS = ["top", "link", "member", "draw", "session", "drop", "outage", "loss"]


def in_words(name: str) -> str:
    """The words of a name, with hyphens between them."""
    return "-".join(re.findall(r"[A-Z][a-z]*", name)).lower()


def faults(definition: str, page: str) -> Iterator[str]:
    """What is wrong with the definition, and with the page."""
    lines = re.findall(r"^(\w+)_line \(?\w+\.(\w+)[^=]*= codes \"([^\"]*)\"", definition, re.M)
    table = set(re.findall(r"`(refused: [^`]*|" + COMMAND_LINE + ")`", page))
    shown = {re.sub(r"(?<=bad-key )draw [0-9]+$|[0-9]+$", "", line) for line in table}
    if len(lines) != 21:
        yield f"the definition has {len(lines)} lines, and not 21"
    for kind, name, line in lines:
        must = COMMAND_LINE if name in ("Line", "BadWord") else f"refused: {in_words(name)}"
        if line.rstrip(" ") != must or line != must and must not in NUMBERED:
            yield f"{kind}: {name} has the line {line!r}, and not {must!r}"
        if line not in shown:
            yield f"docs/FORMATS.md has no line {line!r}"
    for line in sorted(shown - {line for _, _, line in lines}):
        yield f"docs/FORMATS.md has the line {line!r}, which is not defined"
    if re.findall(r"^part_word \w+\.\w+ = codes \"(\w+)\"", definition, re.M) != PARTS:
        yield "the words of the parts differ"


def main() -> None:
    found = list(faults(DEFINITION.read_text(encoding="utf-8"), PAGE.read_text(encoding="utf-8")))
    for fault in found:
        print(f"lines: {fault}", file=sys.stderr)
    sys.exit(1 if found else 0)


if __name__ == "__main__":
    main()
