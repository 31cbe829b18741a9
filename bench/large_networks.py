#!/usr/bin/env python3
"""Time and memory of the built program on large networks, beside the plain simulator (baseline/).

usage: bench/large_networks.py [PROGRAM] [--repeat N] [--only TEXT] [--instructions]

Each case is a tree of degree 4 with links of 5 ticks, in which member 0 draws once each 1,000 ticks, and of its packets each
tenth is dropped, at one link after the other. Members are spread evenly over the nodes. Both programs must write the same
trace; where they do not, the status is 1. Then both run in turn, N times each (1 by default), with standard output on
/dev/null: printed are the rows, the least processor time of each in seconds, the peak of its resident memory in MB, and the
ratio of the two times. It asserts nothing else. Networks of more than 1,024 nodes are scenarios of version 3
(docs/FORMATS.md); a case that PROGRAM does not read is left out for it, and told. The baseline, whose tables grow with the square
of the members, is left out where there are more than 10,000. Without PROGRAM it is measured alone.

--only TEXT     only the cases whose name has TEXT in it
--instructions  in place of time and memory: instructions a row that valgrind's callgrind counts
"""
import argparse
import itertools
import pathlib
import sys
import tempfile
from collections.abc import Iterator
from typing import Any, NamedTuple

sys.dont_write_bytecode = True

from events_per_second import baseline, compare, instructions, times
from peak_memory import measure
from program import Program

SPACING = 1000
DROPPED = 10
DEGREE = 4
UNTIL = 2_000_000
# nodes, and members, that version 2 of the format has room for
MOST_OF_VERSION_2 = 1024
MOST_MEMBERS_OF_BASELINE = 10_000

Element = dict[str, Any]


class Case(NamedTuple):
    """A tree, and how many members and draws it has."""

    name: str
    nodes: int
    members: int
    draws: int
    by_parents: bool = False


CASES = [
    Case("1,024 nodes and members, start", 1024, 1024, 1),
    Case("1,024 nodes, 1,000 members", 1024, 1000, 20),
    Case("5,000 nodes, 100 members", 5000, 100, 200),
    Case("5,000 nodes, 4,096 members", 5000, 4096, 200),
    Case("65,535 nodes, 1,000 members", 65535, 1000, 20),
    Case("65,535 nodes by parents, 1,000 members", 65535, 1000, 20, by_parents=True),
    Case("65,535 nodes and members", 65535, 65535, 10),
]


def parent(node: int) -> int:
    """The parent of a node in a tree of this degree."""
    return 0 if node <= DEGREE else 1 + (node - DEGREE - 1) // (DEGREE - 1)


def network(case: Case) -> list[str]:
    """The lines of the tree."""
    if case.by_parents:
        return ['topology = "parents"', f"parent = {[parent(node) for node in range(1, case.nodes)]}", "delay = 5"]
    return ['topology = "tree"', f"size = {case.nodes}", f"degree = {DEGREE}", "delay = 5"]


def elements(case: Case) -> dict[str, list[Element]]:
    """The elements of each array, some of which stand for many."""
    apart = (case.nodes - 1) // (case.members - 1)
    sender = {"node": 0, "role": "sender", "stream": 1}
    receivers = {"node": apart, "role": "receiver", "stream": 2, "times": case.members - 1, "every": apart}
    draws = {"member": 0, "page": 0, "ink": 0, "at": 0, "times": case.draws, "every": SPACING}
    drops = [{"link": count % (case.nodes - 1), "sender": 0, "count": count} for count in range(0, case.draws, DROPPED)]
    return {"member": [sender, receivers], "draw": [draws], "drop": drops}


def copies(element: Element) -> Iterator[Element]:
    """The elements that one stands for, as version 2 of the format needs them."""
    for number in range(element.get("times", 1)):
        steps = {"node": number * element.get("every", 0), "stream": number, "at": number * element.get("every", 0)}
        own = {key: value for key, value in element.items() if key not in ("times", "every")}
        yield {key: value + steps[key] if key in steps else value for key, value in own.items()}


def line(element: Element) -> str:
    """An element as an inline table."""
    written = (f'{key} = "{value}"' if key == "role" else f"{key} = {value}" for key, value in element.items())
    return f"{{ {', '.join(written)} }}"


def text_of(case: Case) -> bytes:
    """The scenario as a file's text."""
    version = 2 if case.nodes <= MOST_OF_VERSION_2 else 3
    lines = [f"version = {version}", f"until = {UNTIL}", "c1 = 2000", "c2 = 2000", "d1 = 1000", "d2 = 1000", *network(case)]
    for part, listed in elements(case).items():
        listed = list(itertools.chain.from_iterable(map(copies, listed))) if version == 2 else listed
        lines += [f"{part} = [", *(f"  {line(it)}," for it in listed), "]"]
    return ("\n".join(lines) + "\n").encode()


def refusal(program: Program, text: bytes) -> str | None:
    """Why a program does not read a scenario, or None where it does."""
    end = program.run(["--check"], text, timeout=None)
    return None if end.status == 0 else end.told.decode(errors="replace").strip()


def able(programs: list[Program], case: Case, text: bytes) -> list[Program]:
    """Those of the programs that can run a case; tells of the others."""
    found = []
    for program in programs:
        if program.name == "baseline":
            told = None if case.members <= MOST_MEMBERS_OF_BASELINE else "too many members for its tables"
        else:
            told = refusal(program, text)
        if told is None:
            found.append(program)
        else:
            print(f"{case.name:38} {program.name} left out: {told}", flush=True)
    return found


def figures(programs: list[Program], text: bytes, options: argparse.Namespace) -> list[list[str]]:
    """For each program what is told of it, and at last the ratio of the first one's time, or instructions, to the second's."""
    with tempfile.TemporaryDirectory() as folder:
        path = pathlib.Path(folder) / "scenario.toml"
        path.write_bytes(text)
        if options.instructions:
            counted = instructions(programs, path, 1)
            return [[f"{it:,} instructions"] for it in counted] + ratio(counted)
        spent = times(programs, path, options.repeat)
    peaks = [measure(program, [], text)[1] for program in programs]
    return [[f"{seconds:.3f} s", f"{peak / 1024:.1f} MB"] for seconds, peak in zip(spent, peaks)] + ratio(spent)


def ratio(found: list[float]) -> list[list[str]]:
    return [[f"{found[0] / found[1]:.2f} times"]] if len(found) > 1 else []


def main() -> None:
    parser = argparse.ArgumentParser(description=__doc__, formatter_class=argparse.RawDescriptionHelpFormatter)
    parser.add_argument("program", nargs="?", type=Program)
    parser.add_argument("--repeat", type=int, default=1)
    parser.add_argument("--only", default="")
    parser.add_argument("--instructions", action="store_true")
    options = parser.parse_args()
    programs = [options.program] if options.program else []
    plain = baseline()
    if plain is not None:
        programs.append(plain)
    if not programs:
        sys.exit("rustc is missing, and there is no program: nothing to measure")
    for case in CASES:
        text = text_of(case)
        chosen = able(programs, case, text) if options.only in case.name else []
        if chosen:
            rows = compare(chosen, case.name, [], text)
            told = [" ".join(it) for it in figures(chosen, text, options)]
            named = [f"{program.name} {it}" for program, it in zip(chosen, told)] + told[len(chosen):]
            print(f"{case.name:38} {rows:9} rows  " + ", ".join(named), flush=True)


if __name__ == "__main__":
    main()
