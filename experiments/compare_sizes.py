"""Time and memory of srm_lab at some sizes, beside a plain program of the same model and beside the SRM agent of ns-2.

usage: compare_sizes.py PROGRAM [--plain PATH] [--only NODES] [--repeat N]

Each case is a tree of degree 4 with links of 5 ticks. In three of them each of its nodes has a member, and the source,
at the root, draws 200 times, one draw each 1,000 ticks; in one of 1,000 nodes each tenth node has one, and the source
draws 20 times. Of its packets each tenth is dropped, each on the link to another member. The constants are C1 = C2 = 2
and D1 = D2 = 1. PROGRAM and the plain program must write the same trace, or the status is 1. Then all run in turn, N
times each (3 by default; ns-2 once, since a run of it takes long), and for each are printed the least processor time,
from its start to its end, and the greatest peak of resident memory. ns-2 is given the same tree, draws, drops and
constants. It has other random words, so that its run is not the same run. Where `ns` is missing it is left out.
"""
import argparse
import os
import select
import shutil
import subprocess
import sys
import tempfile
from pathlib import Path
from typing import NamedTuple

from srm_lab import Scenario, tree
from srm_lab.parts import Draw, Drop, Member

from ns2_agent import HERE, ns2_input

SPACING = 1000
DROPPED = 10  # of the source's packets, each of which so many is dropped
DEGREE, DELAY = 4, 5
END = 2_000_000


class Case(NamedTuple):
    """A tree, how many members are on its nodes, equally far apart by their numbers, and how often the source draws."""

    nodes: int
    members: int
    draws: int

    def text(self) -> str:
        """The scenario's text."""
        hosts = range(0, self.nodes, self.nodes // self.members)
        members = tuple(Member(node, "receiver" if node else "sender", place) for place, node in enumerate(hosts))
        draws = tuple(Draw(0, 0, place, place * SPACING) for place in range(self.draws))
        drops = tuple(Drop(hosts[1 + count % (self.members - 1)] - 1, 0, count)
                      for count in range(0, self.draws, DROPPED))
        made = tree.bounded_degree(self.nodes, DEGREE, DELAY)
        return Scenario(made, members, END, 2000, 2000, 1000, 1000, draws, (), drops).text()

    def __str__(self) -> str:
        return f"tree of {self.nodes} nodes, {self.members} members, {self.draws} draws"


CASES = (Case(64, 64, 200), Case(256, 256, 200), Case(1000, 100, 20), Case(1024, 1024, 200))


def high_water(pid: int) -> int:
    """The most resident memory of a process so far in KiB, or 0 where it has ended."""
    try:
        with open(f"/proc/{pid}/status") as status:
            return next((int(line.split()[1]) for line in status if line.startswith("VmHWM:")), 0)
    except FileNotFoundError:
        return 0


def cost(words: list[str], given: Path) -> tuple[float, int]:
    """The processor time of a run in seconds, and its peak of resident memory in KiB."""
    with open(given) as text:
        child = subprocess.Popen(words, stdin=text, stdout=subprocess.PIPE, bufsize=0)
    assert child.stdout is not None
    peak = 0
    while True:
        ready, _, _ = select.select([child.stdout], [], [], 0.02)
        if ready and not child.stdout.read(1 << 16):
            break
        peak = max(peak, high_water(child.pid))
    child.stdout.close()
    _, status, usage = os.wait4(child.pid, 0)
    child.returncode = os.waitstatus_to_exitcode(status)
    if child.returncode:
        raise SystemExit(f"{' '.join(words)}: status {child.returncode}")
    return usage.ru_utime + usage.ru_stime, peak


def trace(program: str, given: Path) -> bytes:
    """What a program writes."""
    with open(given) as text:
        return subprocess.run([program], stdin=text, stdout=subprocess.PIPE, check=True).stdout


def said(name: str, costs: list[tuple[float, int]]) -> str:
    seconds, peak = min(one for one, _ in costs), max(one for _, one in costs)
    return f"{name} {seconds:.3f} s {peak / 1024:.1f} MB"


def compare(case: Case, programs: dict[str, str], repeat: int, folder: Path) -> bool:
    """Prints a line for one case; whether all programs of this model wrote the same trace."""
    given = folder / f"{case.nodes}.toml"
    given.write_text(case.text())
    traces = {name: trace(path, given) for name, path in programs.items()}
    told = [said(name, [cost([path], given) for _ in range(repeat)]) for name, path in programs.items()]
    if shutil.which("ns"):
        for_ns2 = folder / f"{case.nodes}.txt"
        for_ns2.write_text(ns2_input(given.read_text(), (), 1))
        told.append(said("ns-2", [cost(["ns", str(HERE / "ns2/srm.tcl"), str(for_ns2)], for_ns2)]))
    rows = traces["srm_lab"].count(b"\n") - 1
    print(f"{case}, {rows} rows: " + "; ".join(told), flush=True)
    return len(set(traces.values())) == 1


def main() -> int:
    words = argparse.ArgumentParser(description=__doc__, formatter_class=argparse.RawDescriptionHelpFormatter)
    words.add_argument("program")
    words.add_argument("--plain", help="the built program of bench/baseline")
    words.add_argument("--only", type=int, choices=[case.nodes for case in CASES], help="one case alone")
    words.add_argument("--repeat", type=int, default=3)
    options = words.parse_args()
    programs = {"srm_lab": options.program} | ({"plain": options.plain} if options.plain else {})
    with tempfile.TemporaryDirectory() as folder:
        same = [compare(case, programs, options.repeat, Path(folder))
                for case in CASES if options.only in (None, case.nodes)]
    if not all(same):
        print("the plain program writes another trace", file=sys.stderr)
    return 0 if all(same) else 1


if __name__ == "__main__":
    sys.exit(main())
