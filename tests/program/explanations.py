#!/usr/bin/env python3
"""Runs the built program with --explain on refused texts and command lines, and reads what it tells after the line of a refusal.

usage: tests/program/explanations.py

Each case of explanations.txt must be told as it stands there. Each text of refusals.txt that is refused must have
the same line, status and standard output as without --explain, and after the line lines that begin with two spaces. Where
they name a line and a column of the text, they show that line, with a mark below that column; they say more than what the
fault is; and where three lines stand before the text, they name a line that is three further on, and tell all else as before.
Of a text that is accepted nothing is told. Prints a line for each difference, and ends with status 1 where there is one.
"""
import pathlib
import re
import sys
from collections.abc import Iterator, Sequence

sys.dont_write_bytecode = True

import refusals
from program import BUILT, Program

CASES = pathlib.Path(__file__).with_name("explanations.txt")
SHOWN = 100
MOVED = "# moved\n# by three\n# lines\n"
# what the faults of a scenario are: of no text is this all that is told
GENERAL = (
    "a scenario is a TOML document in UTF-8",
    "a key there is unknown, missing or not allowed, or its value is out of its range",
    "the links have to make a tree of the nodes",
    "this member does not fit the network, the run or the members before it",
    "a draw is by a sender that is present",
    "a session message is by a member that is present and no listener",
    "a drop is of a link and a member that there are",
    "an outage is of a link that there is, and ends after it begins",
    "a loss is of a link that there is, and ends after it begins",
)
PLACE = re.compile(r"  --> standard input, line (\d+), column (\d+)\n +(\d+) \| (.*)\n +\| ( *)(\^+)\n")


def ended(program: Program, words: Sequence[str], text: str) -> tuple[int, bool, str]:
    """Status, whether something stands on standard output, and standard error."""
    end = program.run(words, text.encode())
    return end.status, bool(end.written), end.told.decode(errors="replace")


def stored() -> Iterator[tuple[str, list[str], str, str]]:
    """The name, the words, the text and what is told of each case of tests/program/explanations.txt."""
    for block in CASES.read_text(encoding="utf-8").split("\n=== ")[1:]:
        name, _, rest = block.partition("\n")
        words, _, rest = rest.partition("\n")
        text, bar, told = rest.partition("--- told\n")
        if not words.startswith("$") or not bar:
            raise ValueError(f"{CASES.name}: {name} is no case")
        yield name, words.removeprefix("$").split(), refusals.repeated(text), told.rstrip("\n") + "\n"


def faults_of_place(text: str, told: str) -> str | None:
    """What is wrong with the line and the column that are told."""
    found = PLACE.search(told)
    if not found:
        return "it shows no line" if "-->" in told else None
    line, column, number, shown, gap, _ = found.groups()
    lines = text.split("\n")
    if line != number or not 1 <= int(line) <= len(lines):
        return f"line {line}, of {len(lines)}"
    whole = lines[int(line) - 1]
    if len(whole) <= SHOWN and (shown != whole.replace("\t", " ") or len(gap) + 1 != int(column)):
        return f"it shows {shown!r} with a mark below {len(gap) + 1}, and line {line} is {whole!r}, column {column}"
    return None


def moved(told: str) -> str:
    """What is told where the text stands three lines further down, with the gaps in front of bars left out."""
    told = re.sub(r"line (\d+), column", lambda found: f"line {int(found[1]) + 3}, column", told)
    told = re.sub(r"(?m)^  (\d+) \|", lambda found: f"  {int(found[1]) + 3} |", told)
    return without_gaps(told)


def without_gaps(told: str) -> str:
    return re.sub(r"(?m)^ +\|", "|", told)


def faults_of(program: Program, text: str, answer: str) -> Iterator[str]:
    """What is wrong with what is told of a text with this answer."""
    status, written, told = ended(program, ["--explain"], text)
    if answer == "accepted":
        if status != 0 or told:
            yield f"status {status}, {told!r}"
        return
    line, _, more = told.partition("\n")
    if (status, written, line) != (1, False, f"refused: {answer}"):
        yield f"status {status}, {told!r}"
    if not more or not all(it.startswith("  ") for it in more.splitlines()) or not told.endswith("\n"):
        yield f"after the line stands {more!r}"
    if any(sentence in more for sentence in GENERAL):
        yield f"nothing is told but {more!r}"
    wrong = faults_of_place(text, more)
    if wrong:
        yield wrong
    again = ended(program, ["--explain"], MOVED + text)[2]
    if without_gaps(again) != moved(told):
        yield f"moved by three lines it is told as {again!r}, and before as {told!r}"


def main() -> bool:
    program = Program(BUILT)
    tried, differences = 0, 0
    for name, words, text, must in stored():
        tried += 1
        _, _, told = ended(program, ["--explain", *words], text)
        if told != must:
            differences += 1
            print(f"{CASES.name}, {name}:\n{told}and not:\n{must}")
    for number, text, answer in refusals.cases(refusals.CASES.read_text(encoding="utf-8")):
        tried += 1
        for wrong in faults_of(program, text, answer):
            differences += 1
            print(f"tests/program/refusals.txt:{number}: {wrong}")
    print(f"{tried} explanations tried, {differences} differences")
    return differences > 0 or not tried


if __name__ == "__main__":
    sys.exit(main())
