#!/usr/bin/env python3
"""Runs the built program on the scenario texts of refusals.txt, and compares what it answers with what stands there.

usage: tests/program/refusals.py

They are each end of each range of the format, each two neighbours in the order of its faults, and what does not fit. A text
that is accepted must end with status 0 and a trace; one that is refused with status 1, its line on standard error and nothing
written. Prints a line for each difference, and ends with status 1 where there is one.
"""
import pathlib
import re
import sys
from collections.abc import Iterator

sys.dont_write_bytecode = True

from program import BUILT, Program

CASES = pathlib.Path(__file__).with_name("refusals.txt")
HEADER = b"time,member,cause,ref,result,lost,sent\n"


def repeated(text: str) -> str:
    """The text with what is to stand in it several times standing so often, with commas between."""
    return re.sub(r"<(\d+) of ([^>]*)>", lambda found: ",".join([found[2]] * int(found[1])), text)


def lines_of(text: str) -> list[str]:
    """The lines that stand with semicolons between them, with their elements repeated."""
    return [line.strip() for line in repeated(text).split(";")]


def cases(text: str) -> Iterator[tuple[int, str, str]]:
    """The number of each case's line, its text and its answer."""
    front: list[str] = []
    for number, line in enumerate(text.splitlines(), 1):
        answer, bar, rest = line.partition(" | ")
        if line.startswith("front:"):
            front = lines_of(line.removeprefix("front:"))
        elif bar and not line.startswith("#"):
            yield number, "\n".join([*front, *lines_of(rest), ""]), answer
        elif line and not line.startswith("#"):
            raise ValueError(f"line {number} of {CASES.name} is no case")


def answered(program: Program, text: str) -> str:
    """What the program answers: `accepted`, the rest of the line of its refusal, or how else it ended."""
    end = program.run([], text.encode())
    told = end.told.decode(errors="replace")
    if end.status == 0 and not told and end.written.startswith(HEADER):
        return "accepted"
    if end.status == 1 and not end.written and re.fullmatch(r"refused: [^\n]*\n", told):
        return told.removeprefix("refused: ").rstrip("\n")
    return f"status {end.status}, {len(end.written)} bytes, {told!r}"


def main() -> bool:
    program = Program(BUILT)
    tried, differences = 0, 0
    for number, text, answer in cases(CASES.read_text(encoding="utf-8")):
        tried += 1
        got = answered(program, text)
        if got != answer:
            differences += 1
            print(f"tests/program/refusals.txt:{number}: got {got}, and not {answer}")
    print(f"{tried} texts tried, {differences} differences")
    return differences > 0 or not tried


if __name__ == "__main__":
    sys.exit(main())
