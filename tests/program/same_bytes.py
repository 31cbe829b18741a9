#!/usr/bin/env python3
"""Runs the built program again and again with many threads, and compares what it writes with the sequential engine's.

usage: tests/program/same_bytes.py [--runs N]

The scenarios are a tree of 256 nodes with a member on each, of which member 0 draws, and some of whose packets are dropped, and
the same with local recovery; each run has 64 workers, which in turn share a bag of jobs of 4 members each and are a team with
such jobs. Prints how many runs there were, and ends with status 1 at the first that differs.
"""
import argparse
import itertools
import sys

sys.dont_write_bytecode = True

from program import BUILT, LONGEST, Program, side_by_side

NODES = 256
DRAWS = 3
WORDS = ["--engine", "window", "--workers", "64", "--cut", "4", "--crew"]
CREWS = ("bag", "team")
# without and with local recovery
TOPS = (["version = 1"], ["version = 5", "scope = 3", "widen = 2", "tries = 4"])


def scenario(top: list[str]) -> bytes:
    """The text of a scenario with these keys. Timers have a random part."""
    lines = [*top, "until = 4000", "c1 = 2000", "c2 = 2000", "d1 = 1000", "d2 = 1000"]
    lines += ['topology = "tree"', f"size = {NODES}", "delay = 20", "degree = 4"]
    for node in range(NODES):
        role = "receiver" if node else "sender"
        lines += ["[[member]]", f"node = {node}", f'role = "{role}"', f"stream = {node}"]
    for draw in range(DRAWS):
        lines += ["[[draw]]", "member = 0", "page = 0", f"ink = {draw}", f"at = {draw * 100}"]
    lines += ["[[drop]]", "link = 1", "sender = 0", "count = 0", "[[drop]]", "link = 100", "sender = 0", "count = 1"]
    return ("\n".join(lines) + "\n").encode()


def main() -> None:
    parser = argparse.ArgumentParser(description=__doc__, formatter_class=argparse.RawDescriptionHelpFormatter)
    parser.add_argument("--runs", type=int, default=100)
    options = parser.parse_args()
    program, texts = Program(BUILT), [*map(scenario, TOPS)]
    must = {text: program.written([], text, timeout=LONGEST) for text in texts}
    ways = [*itertools.islice(itertools.cycle(itertools.product(texts, CREWS)), options.runs)]
    ends = side_by_side(lambda way: program.written([*WORDS, way[1]], way[0], LONGEST), ways)
    for run, ((text, _), written) in enumerate(zip(ways, ends)):
        if written != must[text]:
            sys.exit(f"run {run}: not the bytes of the sequential engine")
    rows = " and ".join(str(it.count(b"\n") - 1) for it in must.values())
    print(f"{options.runs} runs with 64 workers: the same {rows} rows")


if __name__ == "__main__":
    main()
