"""The command `srm-scenarios page`: the page of a run, on standard output."""
import argparse
import csv
import io
import subprocess
import sys
from collections.abc import Sequence
from pathlib import Path

from ..errors import ScenarioError
from ..limits import MOST_SEED, within
from ..parsing import Parser
from ..reading import read_scenario
from ..tables import read_trace
from ..traces import find_program
from .cut import MOST_ROWS, Cut
from .document import Document
from .html import page

ABOUT = """Writes a page that plays a run to standard output: one HTML file, which opens from disk and asks nothing
of the network. Without a trace the run is made: by --program, by the program that the environment's SRM_LAB names, by
that which was installed with this package, or by srm_lab of the PATH.
"""
COLUMNS = ["time", "member", "cause", "ref", "result", "lost", "sent"]


def parser() -> Parser:
    """The command line's parser."""
    made = Parser(prog="srm-scenarios page", description=ABOUT, formatter_class=argparse.RawDescriptionHelpFormatter)
    add = made.add_argument
    add("scenario", metavar="SCENARIO", help="the scenario file")
    add("trace", metavar="TRACE", nargs="?", help="its trace (default: the run is made)")
    add("--seed", type=int, default=0, help="the seed of the run (default 0)")
    add("--program", metavar="PATH", help="the program that makes the run")
    add("--title", help="the page's title (default: the scenario's file name)")
    add("--from", dest="begin", type=int, default=0, metavar="TICK",
        help="leave out what was settled before this tick")
    add("--to", dest="end", type=int, metavar="TICK", help="leave out what came after this tick")
    add("--name", action="append", default=[], metavar="S/P/N", help="show this operation only; repeatable")
    add("--rows", type=int, default=MOST_ROWS, metavar="N", help=f"at most so many rows (default {MOST_ROWS})")
    return made


def name_of(text: str) -> tuple[int, ...]:
    """An operation's name."""
    parts = text.split("/")
    if len(parts) != 3 or not all(part.isdecimal() for part in parts):
        raise ScenarioError(f"--name {text}: an operation is source/page/number, as in 0/0/3")
    return tuple(map(int, parts))


def cut_of(options: argparse.Namespace) -> Cut:
    """What the command line leaves of a run."""
    if options.end is not None and options.end < options.begin:
        raise ScenarioError(f"--to {options.end} is before --from {options.begin}")
    if options.rows < 1:
        raise ScenarioError(f"--rows {options.rows}: a page has at least one row")
    return Cut(options.begin, options.end, frozenset(map(name_of, options.name)), options.rows)


def trace_of(options: argparse.Namespace, scenario: bytes) -> str:
    """The trace's text: of the file, or of a run."""
    if options.trace is not None:
        return Path(options.trace).read_text(encoding="utf-8")
    program = find_program(options.program)
    done = subprocess.run([program, "--explain", "--seed", str(options.seed)], input=scenario, capture_output=True,
                          check=False)
    if done.returncode != 0:
        raise ScenarioError(f"{options.scenario}: {done.stderr.decode(errors='replace').strip()}")
    return done.stdout.decode()


def checked(text: str, path: str) -> str:
    """A trace's text, if its header is a trace's."""
    if next(csv.reader(io.StringIO(text)), []) != COLUMNS:
        raise ScenarioError(f"{path} is no trace: its first line has to be {','.join(COLUMNS)}")
    return text


def comments_of(text: str) -> list[str]:
    """The comment lines at the head of a scenario."""
    lines = []
    for line in text.splitlines():
        if not line.startswith("#"):
            break
        lines.append(line.lstrip("#").strip())
    return lines


def made(options: argparse.Namespace) -> str:
    """The page of the command line."""
    within("--seed", options.seed, 0, MOST_SEED)
    scenario = Path(options.scenario).read_bytes()
    text = scenario.decode("utf-8-sig")
    title = options.title or Path(options.scenario).stem
    trace = checked(trace_of(options, scenario), options.trace or "what the program wrote")
    document = Document(read_scenario(text), read_trace(io.StringIO(trace)), options.seed, cut_of(options))
    return page(title, document.payload(title, comments_of(text)))


def main(words: Sequence[str] | None = None) -> int:
    """Writes the page, or says on standard error why there is none and ends with status 1."""
    options = parser().parse_args(words)
    try:
        sys.stdout.write(made(options))
    except (ScenarioError, OSError, UnicodeDecodeError) as fault:
        sys.stderr.write(f"srm-scenarios page: {fault}\n")
        return 1
    return 0


if __name__ == "__main__":
    sys.exit(main())
