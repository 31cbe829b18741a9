#!/usr/bin/env python3
"""How much memory the built program takes at its peak for runs of three lengths, by table, engine and crew.

usage: bench/peak_memory.py PROGRAM [--show TABLE]..

Runs PROGRAM on a star of 17 nodes with 16 members. The source's own link drops the first packet of each of four pages, later
ones tell the others of the loss, and the source leaves. All constants are 0, so that the others ask for what nobody can mend
at every tick until the run ends, at tick 1,000, 4,000 or 16,000: some 400,000, 1,750,000 and 7,150,000 rows of one and the
same scenario. Prints, for each table, engine and crew, the lines and the peak resident memory of each run, in KiB, and the
greatest over the least. It asserts nothing. No table keeps rows: the memory of losses and operations grows with the losses of the
run alone, that of scopes with its requests and repairs, and that of the others does not grow.
"""
import argparse
import pathlib
import select
import subprocess
import sys
import tempfile

sys.dont_write_bytecode = True
sys.path.insert(0, str(pathlib.Path(__file__).resolve().parent.parent / "tests/program"))

from program import Program

MEMBERS = 16
PAGES = 4
ENDS = [1000, 4000, 16000]
TABLES = ["trace", "members", "losses", "operations", "links", "timers", "scopes"]
WINDOW = ["--engine", "window", "--workers", "2", "--crew"]
CREWS = ("plain", "pool", "bag", "team")
ENGINES: list[tuple[str, list[str]]] = [("step", []), *((f"window, {crew}", [*WINDOW, crew]) for crew in CREWS)]
# seconds between two looks at the memory of a run that writes nothing meanwhile
PERIOD = 0.001


def scenario(until: int) -> bytes:
    """Member 0 draws twice on each page and leaves; its link drops the first packet of each."""
    lines = ["version = 1", f"until = {until}", "c1 = 0", "c2 = 0", "d1 = 0", "d2 = 0"]
    lines += ['topology = "star"', f"size = {MEMBERS + 1}", "delay = 5"]
    lines += ["[[member]]", "node = 1", 'role = "sender"', "stream = 1", "leave = 100"]
    for node in range(2, MEMBERS + 1):
        lines += ["[[member]]", f"node = {node}", 'role = "receiver"', f"stream = {node}"]
    for at in (90, 95):
        for page in range(PAGES):
            lines += ["[[draw]]", "member = 0", f"page = {page}", "ink = 7", f"at = {at}"]
    for count in range(PAGES):
        lines += ["[[drop]]", "link = 0", "sender = 0", f"count = {count}"]
    return ("\n".join(lines) + "\n").encode()


def high_water(pid: int) -> int:
    """The most resident memory of a process so far in KiB, or 0 where it has ended."""
    with open(f"/proc/{pid}/status") as status:
        return next((int(line.split()[1]) for line in status if line.startswith("VmHWM:")), 0)


def measure(program: Program, words: list[str], text: bytes) -> tuple[int, int]:
    """Lines of the table below its header, and the peak resident memory in KiB, seen each millisecond and as each piece comes."""
    with tempfile.TemporaryFile() as given:
        given.write(text)
        given.seek(0)
        child = program.start(words, stdin=given, stdout=subprocess.PIPE, bufsize=0)
        assert child.stdout is not None
        lines, peak, piece = -1, 0, b"-"
        while piece:
            peak = max(peak, high_water(child.pid))
            if select.select([child.stdout], [], [], PERIOD)[0]:
                piece = child.stdout.read(1 << 16)
                lines += piece.count(b"\n")
        child.stdout.close()
        if child.wait() != 0:
            sys.exit(f"{program.path}: status {child.returncode}")
        return lines, peak


def main() -> None:
    parser = argparse.ArgumentParser(description="peak memory of traces of three lengths")
    parser.add_argument("program", type=Program)
    parser.add_argument("--show", action="append", choices=TABLES, help="a table; all where none is named")
    given = parser.parse_args()
    for table in given.show or TABLES:
        for name, words in ENGINES:
            runs = [measure(given.program, [*words, "--show", table], scenario(until)) for until in ENDS]
            peaks = [peak for _, peak in runs]
            told = ", ".join(f"{lines} lines {peak} KiB" for lines, peak in runs)
            print(f"{table}, {name}: {told}; {max(peaks) / min(peaks):.2f} times")


if __name__ == "__main__":
    main()
