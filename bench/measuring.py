"""What the benchmarks share: scenarios on chains, trees and stars, and the least wall times of runs that take turns."""
import pathlib
import sys
import tempfile
import time
from collections.abc import Iterable, Mapping

sys.path.append(str(pathlib.Path(__file__).resolve().parent.parent / "tests/program"))

from program import Program

# the nodes that each version of the format has room for
MOST_NODES = ((1, 256), (2, 1024), (3, 65535))


def scenario(shape: str, nodes: int, *, delay: int, until: int, draws: int, spacing: int, drops: Iterable[tuple[int, int]],
             width: tuple[int, int] = (0, 0), sessions: Iterable[tuple[int, int]] = (), apart: int = 1) -> bytes:
    """The text of a scenario with a member on each node, or each so many nodes, a star's hub aside, of which member 0 draws each
    `spacing` ticks.

    Of the members' packets those of member 0 with the numbers in `drops` are dropped, each at its link; `sessions` are members
    and times. A width is C2 and D2 in thousandths, by default none: then timers have no random part.
    """
    first = 1 if shape == "star" else 0
    version = next(version for version, most in MOST_NODES if nodes <= most)
    lines = [f"version = {version}", f"until = {until}", "c1 = 2000", f"c2 = {width[0]}", "d1 = 1000", f"d2 = {width[1]}"]
    lines += [f'topology = "{shape}"', f"size = {nodes}", f"delay = {delay}"]
    lines += ["degree = 4"] if shape == "tree" else []
    for node in range(first, nodes, apart):
        role = "sender" if node == first else "receiver"
        lines += ["[[member]]", f"node = {node}", f'role = "{role}"', f"stream = {node}"]
    for draw in range(draws):
        lines += ["[[draw]]", "member = 0", "page = 0", f"ink = {draw}", f"at = {draw * spacing}"]
    for member, at in sessions:
        lines += ["[[session]]", f"member = {member}", f"at = {at}"]
    for link, count in drops:
        lines += ["[[drop]]", f"link = {link}", "sender = 0", f"count = {count}"]
    return ("\n".join(lines) + "\n").encode()


def time_of(program: Program, words: list[str], given: pathlib.Path, table: pathlib.Path) -> float:
    """The wall time of a run that reads one file and writes another, which must succeed."""
    with open(given, "rb") as text, open(table, "wb") as output:
        begin = time.perf_counter()
        program.written(words, stdin=text, stdout=output)
        return time.perf_counter() - begin


def least_times(program: Program, text: bytes, ways: Mapping[str, list[str]], repeat: int,
                tables: bool = False) -> tuple[dict[str, float], dict[str, bytes]]:
    """The least wall time of each way to run a scenario, the ways taking turns, and what each writes: to a file, since
    whoever reads a pipe takes time of a processor that the run may want.

    All ways have to write the same bytes, unless they are different tables; else this script ends.
    """
    least: dict[str, float] = {}
    written: dict[str, bytes] = {}
    with tempfile.TemporaryDirectory() as folder:
        given, table = pathlib.Path(folder, "scenario.toml"), pathlib.Path(folder, "table.csv")
        given.write_bytes(text)
        for _ in range(repeat):
            for name, words in ways.items():
                spent = time_of(program, words, given, table)
                written[name] = table.read_bytes()
                if not tables and written[name] != next(iter(written.values())):
                    sys.exit(f"{name}: not the bytes of {next(iter(ways))}")
                least[name] = min(spent, least.get(name, spent))
    return least, written
