#!/usr/bin/env python3
"""Runs the built program with each option, written in each way, and sees by what the run does that it was understood.

usage: tests/program/command_line.py [-q] [TEST ..]

A seed is seen by the trace, which fuzz_replay.py holds to the model; an engine by whether it refuses a cut of 0, a width by which
least delay is wide enough for it, a crew and its workers by the threads that are started, and a cut by how much memory is asked
for, which grows with the jobs of a window. That a trace is written as the run goes is seen by the memory that is asked for where
its output takes nothing. Needs a C compiler, `cc`, for the libraries that count. What is refused is in
compare_program.py and hostile.py too; here stand each option's words.
"""
import contextlib
import functools
import itertools
import os
import pathlib
import pty
import subprocess
import sys
import tempfile
import time
import tomllib
import unittest
from collections.abc import Sequence

sys.dont_write_bytecode = True
sys.path.append(str(pathlib.Path(__file__).resolve().parent.parent / "fuzz"))

import fuzz
import fuzz_format
import fuzz_tables
from preloaded import Environment, Library
from program import LONGEST, REFUSED_LINE, TOP, VERSION, End, refused
from program_case import ProgramCase, main, narrow

EXAMPLES = TOP / "examples"
CHAIN = (EXAMPLES / "chain-of-five-one-loss.toml").read_bytes()
TRACE = (EXAMPLES / "chain-of-five-one-loss.trace.csv").read_bytes()
DRAWN = (EXAMPLES / "drawn-timers.toml").read_bytes()
NO_WORDS: list[str] = []
WINDOW = ["--engine", "window"]
LINKS = ["--show", "links"]
BAD_CUT, BAD_WIDTH = refused("bad-cut"), refused("bad-width")
FULL = "/dev/full"
# runs, of which each takes up to some two seconds beside others
TRIES = 10

# One window and one job: a network of one node has no least delay.
LONE = b"""\
version = 1
until = 50
c1 = 1000
c2 = 0
d1 = 1000
d2 = 0
nodes = 1
member = [{ node = 0, role = "sender", stream = 1 }]
draw = [{ member = 0, page = 0, ink = 7, at = 0 }]
"""


@functools.cache
def library(name: str) -> Library:
    """The library of this name, built when it is first asked for, and removed after the last test."""
    folder = tempfile.TemporaryDirectory()
    unittest.addModuleCleanup(folder.cleanup)
    return Library(name, folder.name)


class CommandLineCase(ProgramCase):
    def ended(self, words: Sequence[str], text: bytes = CHAIN) -> tuple[End, int]:
        """How a run on this text ends, and how much of the text was left unread."""
        return self.program.run_on_pipe(words, text)

    def counted(self, name: str, words: Sequence[str], text: bytes, output: str = os.devnull) -> int:
        """How often a run does what a library counts."""

        def run(environment: Environment) -> None:
            with open(output, "wb") as taken:
                self.program.run(words, text, stdout=taken, env=environment)

        return library(name).counted(run)

    def threads(self, words: Sequence[str], text: bytes = LONE) -> int:
        """How many threads a run starts."""
        return self.counted("refuse_threads", words, text)

    def allocations(self, words: Sequence[str], text: bytes, output: str = os.devnull) -> int:
        """How many allocations a run makes beside those for its words, which a refused text shows."""
        return self.counted("refuse_allocation", words, text, output) - self.counted("refuse_allocation", words, b"[")

    def allocations_until_full(self, words: Sequence[str], text: bytes, most: int) -> int:
        """How many allocations a run makes whose output fails after so many bytes, beside those for its words."""

        def run(environment: Environment) -> None:
            end = self.program.run(words, text, env={**environment, "TAKE": str(most)})
            self.assertEqual((end.status, len(end.written)), (1, most))

        return library("refuse_allocation").counted(run) - self.counted("refuse_allocation", words, b"[")

    def told_on_terminal(self, words: Sequence[str], text: bytes = CHAIN, output: int = subprocess.PIPE) -> tuple[int, str]:
        """The status of a run, and what a terminal takes as its standard error."""
        screen, terminal = pty.openpty()
        with os.fdopen(screen, "rb", 0) as shown:
            end = self.program.run(words, text, stdout=output, stderr=terminal)
            os.close(terminal)
            told = b""
            with contextlib.suppress(OSError):  # a terminal that nobody writes to any more ends so
                while more := shown.read(4096):
                    told += more
        return end.status, told.decode().replace("\r\n", "\n")

    def allocations_until_closed(self, words: Sequence[str], text: bytes, most: int) -> int:
        """How many allocations a run makes whose output is closed once so many bytes were read, beside those for its words."""
        run = functools.partial(self.run_and_close, words, text, most)
        return library("refuse_allocation").counted(run) - self.counted("refuse_allocation", words, b"[")

    def run_and_close(self, words: Sequence[str], text: bytes, most: int, environment: Environment) -> None:
        """Runs the program, reads so many bytes of its output, and closes that."""
        with tempfile.TemporaryFile() as given:
            given.write(text)
            given.seek(0)
            streams = {"stdin": given, "stdout": subprocess.PIPE, "stderr": subprocess.DEVNULL}
            with self.program.start(words, **streams, env=environment) as child:
                assert child.stdout is not None
                child.stdout.read(most)
                child.stdout.close()
                child.wait(LONGEST)

    def peak(self, words: Sequence[str], text: bytes) -> int:
        """The most memory that a run takes, in kilobytes."""
        with tempfile.TemporaryFile() as given:
            given.write(text)
            given.seek(0)
            child = self.program.start(words, stdin=given, stdout=subprocess.DEVNULL)
            _, status, used = os.wait4(child.pid, 0)
            child.returncode = os.waitstatus_to_exitcode(status)
            self.assertEqual(child.returncode, 0)
            return used.ru_maxrss

    def are_busy(self, words: Sequence[str], text: bytes, many: int) -> bool:
        """Whether so many threads of one run take processor time, of a run that is tried several times.

        Beside other work a thread may get less of it than is seen, or end before it is looked at.
        """
        return any(len(self.busy(words, text, many)) == many for _ in range(TRIES))

    def busy(self, words: Sequence[str], text: bytes, most: int) -> set[str]:
        """The threads of a run that take processor time: all, or so many."""
        worked: set[str] = set()
        with tempfile.TemporaryFile() as given:
            given.write(text)
            given.seek(0)
            with self.program.start(words, stdin=given, stdout=subprocess.DEVNULL) as child:
                while len(worked) < most and child.poll() is None:
                    worked |= busy_threads(child.pid)
                    time.sleep(0.01)
                child.wait(LONGEST)
        return worked

    def writes(self, words: Sequence[str], text: bytes) -> tuple[int, int]:
        """How many bytes a run writes, and by how many calls that write, its line of errors included."""
        with tempfile.TemporaryFile() as given, tempfile.TemporaryFile() as taken:
            given.write(text)
            given.seek(0)
            child = self.program.start(words, stdin=given, stdout=taken)
            os.waitid(os.P_PID, child.pid, os.WEXITED | os.WNOWAIT)
            told = dict(line.split(": ") for line in pathlib.Path(f"/proc/{child.pid}/io").read_text().splitlines())
            self.assertEqual(child.wait(), 0)
            return int(told["wchar"]), int(told["syscw"])


def busy_threads(process: int) -> set[str]:
    """The threads of a process that took processor time so far."""
    busy = set()
    for thread in pathlib.Path(f"/proc/{process}/task").glob("*"):
        try:
            # what stands after the name of the thread; its time and the system's for it are fields 14 and 15 of all
            fields = (thread / "stat").read_text().rpartition(")")[2].split()
        except OSError:
            continue
        if int(fields[11]) + int(fields[12]) > 0:
            busy.add(thread.name)
    return busy


def member(node: int, role: str) -> str:
    """A line of an array of members."""
    return f'  {{ node = {node}, role = "{role}", stream = 0 }},\n'


def chain(nodes: int, delay: int, apart: int = 90) -> bytes:
    """A chain with a listener on each node, but for a sender on the first, which draws at tick 0 and so many ticks apart."""
    members = "".join(member(node, "listener" if node else "sender") for node in range(nodes))
    draws = "".join(f"  {{ member = 0, page = 0, ink = 7, at = {at} }},\n" for at in range(0, 91, apart))
    top = f'version = 1\nuntil = 100\nc1 = 0\nc2 = 0\nd1 = 0\nd2 = 0\ntopology = "chain"\nsize = {nodes}\ndelay = {delay}\n'
    return f"{top}member = [\n{members}]\ndraw = [\n{draws}]\n".encode()


def star(members: int, draws: int) -> bytes:
    """A star of listeners round a node, but for a sender that draws so many times, every second tick: each hears each draw."""
    roles = "".join(member(node, "sender" if node == 1 else "listener") for node in range(1, members + 1))
    drawn = "".join(f"  {{ member = 0, page = 0, ink = 7, at = {2 * at} }},\n" for at in range(draws))
    version = 1 if members < 256 else 2
    top = f"version = {version}\nuntil = {2 * draws + 10}\nc1 = 0\nc2 = 0\nd1 = 0\nd2 = 0\n"
    top += f'topology = "star"\nsize = {members + 1}\ndelay = 1\n'
    return f"{top}member = [\n{roles}]\ndraw = [\n{drawn}]\n".encode()


def unheard(members: int, pages: int) -> bytes:
    """A star of listeners, but for a sender that fills so many pages, a draw a tick, and whose link drops all: nothing comes."""
    until = 4096 * pages
    top = f'version = 3\nuntil = {until}\nc1 = 0\nc2 = 0\nd1 = 0\nd2 = 0\n'
    top += f'topology = "star"\nsize = {members + 1}\ndelay = 1000\n'
    listeners = f'  {{ node = 2, role = "listener", stream = 0, times = {members - 1} }},\n'
    drawn = (f"  {{ member = 0, page = {page}, ink = 7, at = {4096 * page}, times = 4096 }},\n" for page in range(pages))
    out = f"outage = [{{ link = 0, from = 0, to = {until} }}]\n"
    return f"{top}member = [\n{member(1, 'sender')}{listeners}]\ndraw = [\n{''.join(drawn)}]\n{out}".encode()


# A loss that nobody can mend, by timers of one tick each: a short text, and a run that is long if it is made.
UNMENDED = b"""\
version = 1
until = 20000
c1 = 0
c2 = 0
d1 = 0
d2 = 0
nodes = 2
link = [{ a = 0, b = 1, delay = 1 }]
member = [{ node = 0, role = "sender", stream = 1, leave = 5 }, { node = 1, role = "receiver", stream = 2 }]
draw = [{ member = 0, page = 0, ink = 7, at = 0 }, { member = 0, page = 0, ink = 7, at = 2 }]
drop = [{ link = 0, sender = 0, count = 0 }]
"""


class Seeds(CommandLineCase):
    def check(self, words: list[str], seed: int) -> bytes:
        """Holds the trace of a run whose timers are drawn to the model, with this seed."""
        (status, trace, told), _ = self.ended(words, DRAWN)
        self.assertEqual((status, told), (0, b""))
        fuzz.expected(fuzz_format.Scenario(tomllib.loads(DRAWN.decode()), seed), seed, trace)
        return trace

    def test_each_way_to_write_a_seed(self) -> None:
        for words, seed in (
            (NO_WORDS, 0),
            (["--seed", "0"], 0),
            (["--seed", "42"], 42),
            (["--seed=42"], 42),
            (["--seed", "+7"], 7),
            (["--seed", "007"], 7),
            (["--seed", "9223372036854775807"], 9223372036854775807),
            (["--show", "trace", "--seed", "3"], 3),
        ):
            with self.subTest(words=words):
                self.check(words, seed)

    def test_seeds_are_told_apart(self) -> None:
        self.assertNotEqual(self.check(["--seed", "42"], 42), self.check([], 0))
        self.assertEqual(self.check(["--seed", "42"], 42), (EXAMPLES / "drawn-timers.seed-42.trace.csv").read_bytes())


class Writes(CommandLineCase):
    def test_a_long_trace_is_written_in_large_pieces(self) -> None:
        """Some 160,000 rows are written by at most 2,000 calls, though they come 32 at a time."""
        for words in (NO_WORDS, WINDOW):
            with self.subTest(words=words):
                size, calls = self.writes(words, star(255, 625))
                self.assertGreater(size, 2_000_000)
                self.assertLessEqual(calls, 2_000)


class Tables(CommandLineCase):
    def test_each_table(self) -> None:
        for words, show in (
            (NO_WORDS, "trace"),
            (["--show", "trace"], "trace"),
            (["--show", "members"], "members"),
            (["--show", "losses"], "losses"),
            (["--show", "operations"], "operations"),
            (["--show=links"], "links"),
            (["--show", "links", "--seed", "3"], "links"),
            (["--show", "timers"], "timers"),
            (["--show", "scopes"], "scopes"),
        ):
            with self.subTest(words=words):
                table = (EXAMPLES / f"chain-of-five-one-loss.{show}.csv").read_bytes()
                self.assertEqual(self.ended(words)[0], (0, table, b""))

    def test_memory_does_not_grow_with_rows(self) -> None:
        """Of a loss that is asked for in vain at each tick, a hundred times as long; but for a table of what was asked."""
        shorter, longer = (UNMENDED.replace(b"20000", ticks) for ticks in (b"2000", b"200000"))
        for words, table in itertools.product((NO_WORDS, WINDOW), fuzz_tables.HEADERS.keys() - {"scopes"}):
            shown = [*words, "--show", table]
            with self.subTest(words=shown):
                self.assertLess(self.peak(shown, longer), 5 / 4 * self.peak(shown, shorter))


class Windows(CommandLineCase):
    def test_only_the_run_in_windows_refuses_a_cut_of_0(self) -> None:
        for words, end in (
            (NO_WORDS, End(0, TRACE, b"")),
            (["--engine", "step"], End(0, TRACE, b"")),
            (["--engine=window"], BAD_CUT),
            (["--engine", "window"], BAD_CUT),
        ):
            with self.subTest(words=words):
                self.assertEqual(self.ended([*words, "--cut", "0"])[0], end)

    def test_a_width_is_the_least_delay_that_is_wide_enough(self) -> None:
        for word, least in (("=1", 1), ("=0007", 7), (" 7", 7), (" 12", 12)):
            words = [*WINDOW, *f"--width{word}".split()]
            with self.subTest(words=words):
                self.assertEqual(self.ended(words, chain(3, least))[0][0], 0)
                if least > 1:
                    self.assertEqual(self.ended(words, chain(3, least - 1))[0], BAD_WIDTH)

    def test_widths_that_no_network_with_a_link_allows(self) -> None:
        for width in ("0", "18446744073709551615"):
            with self.subTest(width=width):
                self.assertEqual(self.ended([*WINDOW, "--width", width])[0], BAD_WIDTH)

    def test_a_width_of_two_is_refused_where_a_link_takes_one_tick_in_either_direction(self) -> None:
        there_in_one = (EXAMPLES / "two-way-delays.toml").read_bytes()
        back_in_one = there_in_one.replace(b"delay = 1\nback = 3", b"delay = 3\nback = 1")
        self.assertNotEqual(back_in_one, there_in_one)
        for text in (there_in_one, back_in_one):
            with self.subTest(text=text):
                self.assertEqual(self.ended([*WINDOW, "--width", "2"], text)[0], BAD_WIDTH)
                self.assertEqual(self.ended([*WINDOW, "--width", "1"], text)[0][0], 0)

    def test_windows_are_as_wide_as_a_link_unless_another_width_is_asked_for(self) -> None:
        text = chain(3, 7, 3)
        least = self.allocations(WINDOW, text)
        self.assertEqual(self.allocations([*WINDOW, "--width", "least"], text), least)
        self.assertEqual(self.allocations([*WINDOW, "--width", "7"], text), least)
        # narrower windows are more, and those of promises fewer, since listeners send nothing
        self.assertGreater(self.allocations([*WINDOW, "--width", "2"], text), least)
        self.assertLess(self.allocations([*WINDOW, "--width", "promise"], text), least)

    def test_more_members_in_a_job_are_fewer_jobs(self) -> None:
        text = chain(20, 1)
        asked = {cut: self.allocations([*WINDOW, "--cut", cut], text) for cut in ("1", "2", "9", "10", "0010", "20", "1024")}
        self.assertEqual(self.allocations(WINDOW, text), asked["1"])
        self.assertEqual(asked["0010"], asked["10"])
        self.assertEqual(asked["20"], asked["1024"])
        # 20, 10, 3, 2 jobs and one
        jobs = [asked[cut] for cut in ("1", "2", "9", "10", "20")]
        self.assertEqual(jobs, sorted(set(jobs), reverse=True))


class Replications(CommandLineCase):
    @functools.cache
    def single(self, table: str, seed: int, text: bytes = DRAWN) -> bytes:
        """The table of the run of one seed."""
        return self.program.written(["--show", table, f"--seed={seed}"], text)

    def table(self, table: str, first: int, count: int, text: bytes = DRAWN) -> bytes:
        """The table of so many runs, from their own tables."""
        return fuzz_tables.replications_table({seed: self.single(table, seed, text) for seed in range(first, first + count)})

    def test_each_table_is_that_of_the_single_runs(self) -> None:
        for table, count in itertools.product(fuzz_tables.HEADERS, (1, 2, 5, 100)):
            wanted = End(0, self.table(table, 7, count), b"")
            for workers in [NO_WORDS, *(["--workers", number] for number in ("1", "2", "7", "64"))]:
                words = ["--replications", str(count), "--seed", "7", "--show", table, *workers]
                with self.subTest(words=words):
                    self.assertEqual(self.ended(words, DRAWN)[0], wanted)

    def test_as_many_runs_are_made_as_are_asked_for(self) -> None:
        """By the seeds of all rows, and the rows of some: each run has one loss."""
        for count, workers in itertools.product((300, 1000), ("1", "64")):
            words = ["--replications", str(count), "--seed", "5", "--show", "losses", "--workers", workers]
            with self.subTest(words=words):
                header, *rows = self.program.written(words, DRAWN).splitlines(keepends=True)
                self.assertEqual([int(row.split(b",")[0]) for row in rows], [*range(5, 5 + count)])
                for place in (0, 298, count // 2, count - 1):
                    self.assertEqual(header + rows[place], self.table("losses", 5 + place, 1))

    def test_so_many_runs_may_be_asked_for(self) -> None:
        words = ["--replications", "1000000", "--check"]
        self.assertEqual(self.ended(words, DRAWN)[0], End(0, b"", b""))

    def test_many_runs_of_a_large_trace_take_no_more_memory_than_some(self) -> None:
        """Some 6,000 rows a run, of which a thousand runs would take over 100 MB if they were kept."""
        text = star(100, 60)
        some, many = (self.peak(["--replications", count, "--workers", "1"], text) for count in ("20", "1000"))
        self.assertLess(many, 5 / 4 * some)

    def test_rows_are_written_run_after_run(self) -> None:
        """The output takes the header and some bytes more."""
        text = chain(20, 1, 1)
        for workers in ("1", "2"):
            words = ["--replications", "40", "--workers", workers]
            with self.subTest(words=words):
                begun = self.allocations_until_full(words, text, 100)
                self.assertLess(begun, 1 / 2 * self.allocations(words, text))

    def test_a_table_without_rows_has_its_header_once(self) -> None:
        wanted = End(0, b"seed,member,source,page,number,detected,recovered,delay\n", b"")
        self.assertEqual(self.ended(["--replications", "3", "--show", "losses"], LONE)[0], wanted)

    def test_options_of_windows_are_not_looked_at(self) -> None:
        wanted = End(0, self.table("losses", 0, 2), b"")
        for words in (["--cut", "0", "--width", "0"], ["--engine", "step", "--crew", "team"], ["--crew", "pool"]):
            with self.subTest(words=words):
                self.assertEqual(self.ended(["--replications", "2", "--show", "losses", *words], DRAWN)[0], wanted)

    def test_the_last_seed_is_the_greatest(self) -> None:
        last = 2**63 - 1
        words = ["--show", "losses", "--replications", "3", "--seed"]
        self.assertEqual(self.ended([*words, str(last - 2)], DRAWN)[0], End(0, self.table("losses", last - 2, 3), b""))
        self.assertEqual(self.ended([*words, str(last - 1)], DRAWN), (REFUSED_LINE, len(DRAWN)))

    def test_words_that_are_refused(self) -> None:
        for words in (["0"], ["1000001"], ["x"], ["2.0"], ["-1"], NO_WORDS, ["2", "--replications", "2"], ["1", *WINDOW]):
            with self.subTest(words=words):
                self.assertEqual(self.ended(["--replications", *words], DRAWN), (REFUSED_LINE, len(DRAWN)))

    def test_a_refused_scenario_has_no_header(self) -> None:
        self.assertEqual(self.ended(["--replications", "2"], b"")[0], refused("bad-key top 0"))

    def test_a_checked_scenario_is_not_run(self) -> None:
        self.assertEqual(self.ended(["--replications", "2", "--check"], DRAWN)[0], End(0, b"", b""))

    def test_workers_are_threads_beside_the_first(self) -> None:
        for words, more in ((["--workers", "1"], 0), (["--workers", "2"], 1), (["--workers=7"], 6), (["--workers", "64"], 63)):
            with self.subTest(words=words):
                self.assertEqual(self.threads(["--replications", "2", *words]), more)

    def test_there_is_a_worker_for_each_processor(self) -> None:
        processors = os.sched_getaffinity(0)
        self.addCleanup(os.sched_setaffinity, 0, processors)
        for count in range(1, min(4, len(processors)) + 1):
            with self.subTest(count=count):
                os.sched_setaffinity(0, sorted(processors)[:count])
                self.assertEqual(self.threads(["--replications", "2"]), count - 1)

    def test_each_worker_works(self) -> None:
        words = ["--replications", "100", "--show", "links", "--workers", "3"]
        self.assertTrue(self.are_busy(words, star(255, 625), 3))

    def test_the_threads_that_there_are_make_the_runs_of_those_that_are_refused(self) -> None:
        wanted = End(0, self.table("losses", 0, 20), b"")
        words = ["--replications", "20", "--show", "losses", "--workers", "4"]
        for first in range(1, 5):
            with self.subTest(first=first):
                self.assertEqual(self.program.run(words, DRAWN, env=library("refuse_threads").refusing(first)), wanted)


class Traces(CommandLineCase):
    def test_first_rows_are_not_held_back(self) -> None:
        """Of tables that would fit into what is gathered later the output takes the header, and fails in the first rows."""
        crews = ([*WINDOW, "--crew", crew] for crew in ("plain", "pool", "bag", "team"))
        for words in (NO_WORDS, *crews):
            for table, text in (("trace", chain(40, 1, 90)), ("timers", UNMENDED)):
                shown = [*words, "--show", table]
                with self.subTest(words=shown):
                    written = self.program.written(shown, text)
                    self.assertLess(len(written), 8192)
                    most = written.index(b"\n") + 10
                    self.assertLess(self.allocations_until_full(shown, text, most), self.allocations(shown, text) - 20)

    def test_rows_are_written_before_the_run_ends(self) -> None:
        text = chain(40, 1, 1)
        promised = [*WINDOW, "--width", "promise", "--cut", "7"]
        for words in (NO_WORDS, WINDOW, promised, *([*WINDOW, "--crew", crew] for crew in ("pool", "bag", "team"))):
            with self.subTest(words=words):
                self.assertLess(self.allocations(words, text, FULL), 3 / 4 * self.allocations(words, text))

    def test_a_long_run_ends_soon_after_its_output_is_closed(self) -> None:
        """Of some 160,000 rows, in over 2,000,000 bytes, 20,000 bytes are read; a pipe keeps 64 KiB more."""
        text = star(255, 625)
        for words in (NO_WORDS, WINDOW):
            with self.subTest(words=words):
                # those before the first row
                begun = self.allocations(words, text, FULL)
                left = self.allocations_until_closed(words, text, 20_000) - begun
                self.assertLess(left, 1 / 4 * (self.allocations(words, text) - begun))

    def test_other_tables_are_written_at_the_end(self) -> None:
        text = chain(40, 1, 1)
        for table in ("members", "losses", "operations", "links", "scopes"):
            words = ["--show", table]
            with self.subTest(words=words):
                self.assertGreater(self.allocations(words, text, FULL), 9 / 10 * self.allocations(words, text))


class Crews(CommandLineCase):
    def test_workers_of_a_bag_and_of_a_team_are_threads_beside_the_first(self) -> None:
        numbers = ((["--workers", "1"], 0), (["--workers", "2"], 1), (["--workers=7"], 6), (["--workers", "+64"], 63))
        given = ((NO_WORDS, 0), *numbers)
        for crew, (words, more) in itertools.product(("bag", "team"), given):
            with self.subTest(crew=crew, words=words):
                if (crew, words) != ("team", NO_WORDS):
                    self.assertEqual(self.threads([*WINDOW, *LINKS, "--crew", crew, *words]), more)

    def test_a_team_has_no_more_threads_for_one_table_than_for_another(self) -> None:
        for table, workers in itertools.product(fuzz_tables.HEADERS, (1, 2, 7, 64)):
            words = [*WINDOW, "--show", table, "--workers", str(workers), "--crew", "team"]
            with self.subTest(words=words):
                self.assertEqual(self.threads(words), workers - 1)

    def test_a_team_has_a_worker_for_each_processor(self) -> None:
        processors = os.sched_getaffinity(0)
        self.addCleanup(os.sched_setaffinity, 0, processors)
        for count in range(1, min(4, len(processors)) + 1):
            with self.subTest(count=count):
                os.sched_setaffinity(0, sorted(processors)[:count])
                self.assertEqual(self.threads([*WINDOW, *LINKS, "--crew", "team"]), count - 1)
                self.assertEqual(self.threads([*WINDOW, "--crew", "bag"]), 0)

    def test_a_team_starts_its_threads_once(self) -> None:
        words = [*WINDOW, "--crew", "team", "--workers", "3"]
        for table in (NO_WORDS, LINKS):
            with self.subTest(table=table):
                self.assertEqual(self.threads([*words, *table], chain(20, 1)), 2)

    def test_each_worker_of_a_team_works(self) -> None:
        """By the processor time of each thread, of which one that is handed nothing takes none."""
        for table in (NO_WORDS, LINKS):
            with self.subTest(table=table):
                self.assertTrue(self.are_busy([*WINDOW, *table, "--crew", "team", "--workers", "3"], star(1023, 625), 3))

    def test_each_worker_of_a_team_hears(self) -> None:
        """Of packets that come to no member, so that one thread does all else."""
        self.assertTrue(self.are_busy([*WINDOW, *LINKS, "--crew", "team", "--workers", "3"], unheard(1000, 2), 3))

    def test_the_threads_that_there_are_do_the_work_of_those_that_are_refused(self) -> None:
        """By the bytes, which are those of one event after the other, whichever thread is the first that is refused."""
        text = star(1023, 20)
        for table, crew in itertools.product((NO_WORDS, LINKS), ("team", "bag", "pool")):
            wanted = End(0, self.program.written(table, text), b"")
            words = [*WINDOW, *table, "--crew", crew, "--workers", "4"]
            for first in range(1, 4):
                with self.subTest(words=words, first=first):
                    self.assertEqual(self.program.run(words, text, env=library("refuse_threads").refusing(first)), wanted)

    def test_no_other_run_starts_a_thread_for_each_worker(self) -> None:
        of_steps = (["--crew", crew] for crew in ("bag", "team", "pool"))
        others = (NO_WORDS, ["--engine", "step"], WINDOW, [*WINDOW, "--crew", "plain"], *of_steps)
        for words in others:
            with self.subTest(words=words):
                self.assertEqual(self.threads([*words, "--workers", "3"]), 0)

    def test_a_pool_has_threads_of_its_own(self) -> None:
        self.assertGreater(self.threads([*WINDOW, "--crew", "pool"], chain(20, 1)), 0)
        self.assertEqual(self.threads([*WINDOW, "--crew", "plain"], chain(20, 1)), 0)

    def test_a_pool_has_a_thread_for_each_processor(self) -> None:
        """In a window of many jobs, where the processors are a power of two. The thread that calls is one of them."""
        processors = os.sched_getaffinity(0)
        self.addCleanup(os.sched_setaffinity, 0, processors)
        for many in (1, 2, 4, 8):
            if many <= len(processors):
                os.sched_setaffinity(0, sorted(processors)[:many])
                with self.subTest(processors=many):
                    self.assertEqual(self.threads([*WINDOW, "--crew", "pool"], chain(64, 100)), many - 1)

    def test_a_bag_is_asked_for_by_its_name_alone(self) -> None:
        text = chain(20, 1)
        plain, bag = (self.allocations([*WINDOW, "--crew", crew], text) for crew in ("plain", "bag"))
        self.assertEqual(self.allocations(WINDOW, text), plain)
        self.assertNotEqual(bag, plain)
        self.assertNotEqual(*(self.threads([*WINDOW, "--crew", crew], text) for crew in ("bag", "pool")))
        for crew in ("plain", "pool", "bag", "team"):
            self.assertEqual(self.allocations(["--engine", "step", "--crew", crew], text), self.allocations([], text))

    def test_options_in_any_order(self) -> None:
        words = ["--width", "7", "--cut", "3", "--workers", "3", "--crew", "bag", "--engine", "window"]
        self.assertEqual(self.threads(words, LONE), 2)
        self.assertEqual(self.ended(words, chain(3, 7))[0][0], 0)
        self.assertEqual(self.ended(words, chain(3, 6))[0], BAD_WIDTH)


class Refused(CommandLineCase):
    def check(self, all_words: list[list[str]]) -> None:
        for words in all_words:
            with self.subTest(words=words):
                self.assertEqual(self.ended(words), (REFUSED_LINE, len(CHAIN)))

    def test_numbers_that_do_not_fit(self) -> None:
        self.check([
            ["--seed", "9223372036854775808"], ["--seed", "18446744073709551616"],
            ["--seed", "-1"], ["--seed", "x"], ["--seed", ""],
            ["--workers", "65"], ["--workers", "0"], ["--workers", "two"],
            ["--cut", "+1"], ["--cut", ""], ["--cut", "4294967296"], ["--cut", "one"],
            ["--width", "+1"], ["--width", "18446744073709551616"],
        ])

    def test_words_that_are_none_of_their_options(self) -> None:
        self.check([
            ["--show", "colors"], ["--show", "Trace"], ["--show", "trace "], ["--show", ""], ["--show=tracelinks"],
            ["--engine", "windows"], ["--engine", ""], ["--crew", "six"], ["--width", "Least"],
        ])

    def test_options_that_are_none_or_lack_something_or_stand_twice(self) -> None:
        self.check([
            ["--seed"], ["--show"], ["--seed", "1", "--seed", "2"], ["--show", "trace", "--show", "trace"],
            ["--cut", "1", "--cut", "1"], ["--see", "1"], ["-s"], ["scenario.toml"], ["--show", "colors", "--seed", "x"],
        ])

    def test_a_mistake_before_help(self) -> None:
        self.check([["--seed", "x", "--help"], ["--colors", "--help"]])

    def test_a_line_that_is_not_taken_changes_no_status(self) -> None:
        with tempfile.TemporaryFile() as errors:
            end = self.program.run(["--show", "colors"], stderr=errors, **narrow(7))
            errors.seek(0)
            self.assertEqual(end._replace(told=errors.read()), (2, b"", b"command"))


# What help says, line by line: the options of README's table, and the exit statuses of docs/FORMATS.md.
HELP = """\
Simulates loss recovery in SRM (Scalable Reliable Multicast), event by event.
Reads a scenario (TOML) on standard input, and writes a table of its run (CSV) on standard output.
A refusal is one line on standard error; with --explain more lines say what to mend.

Usage: srm_lab [OPTIONS] < scenario.toml

Options:
      --seed <0..=9223372036854775807>
          The seed of the random words of members and losses [default: 0]
      --replications <1..=1000000>
          How many runs are made, with the seeds from --seed on: each row begins with its seed
      --show <trace|members|losses|operations|links|timers|scopes>
          The table: a row for each event, member, loss, lost operation, link, adapted timer, or \
request and repair [default: trace]
      --check
          Only read and check the scenario, and write nothing
      --explain
          After the line of a refusal say what to mend
      --rules
          Only print the rules of scenario files, as JSON
  -h, --help
          Print help
  -V, --version
          Print version

Windows (advanced: how a run is worked out, the table is the same):
      --engine <step|window>
          One event at a time, or windows of time [default: step]
      --crew <plain|pool|bag|team>
          Who works in a window: one thread, a pool of threads, workers that share a bag, or a team that lasts [default: plain]
      --workers <1..=64>
          How many workers share the bag; or are the team or make replications, else one for each processor [default: 1]
      --cut <N>
          How many members a job of a window has, 1 to 1024 [default: 1]
      --width <least|promise|N>
          How wide windows are: the least delay of a link, as members promise, or ticks, from 1 to that delay [default: least]

Exit status:
  0  the table was written, or this help, or the rules
  1  refused: one line on standard error says why
  2  the command line was refused, and standard input was not read

Example:
  srm_lab --seed 7 --show members < scenario.toml > members.csv
""".splitlines()


class Terminals(CommandLineCase):
    HINT = "  add --explain to be told what to mend\n"

    def test_a_terminal_is_told_that_a_refusal_can_be_explained(self) -> None:
        for words, text, status, line in (
            (NO_WORDS, b"[", 1, "refused: not-toml\n"),
            (["--check"], b"", 1, "refused: bad-key top 0\n"),
            ([*WINDOW, "--cut", "0"], CHAIN, 1, "refused: bad-cut\n"),
            (["--show", "colors"], CHAIN, 2, "command line refused\n"),
            (["scenario.toml"], CHAIN, 2, "command line refused\n"),
        ):
            with self.subTest(words=words):
                self.assertEqual(self.told_on_terminal(words, text), (status, line + self.HINT))
                self.assertEqual(self.program.run(words, text).told.decode(), line)

    def test_what_is_explained_already_has_no_hint(self) -> None:
        for words, text in ((["--explain"], b"["), (["--explain", "--show", "colors"], CHAIN)):
            with self.subTest(words=words):
                end = self.program.run(words, text)
                self.assertEqual(self.told_on_terminal(words, text), (end.status, end.told.decode()))
                self.assertNotIn(self.HINT, end.told.decode())

    def test_nor_has_what_is_not_refused_or_a_closed_output(self) -> None:
        for words in (NO_WORDS, ["--help"], ["--check"], ["--rules"], ["--explain"]):
            with self.subTest(words=words):
                self.assertEqual(self.told_on_terminal(words), (0, ""))
        with open(FULL, "wb") as full:
            self.assertEqual(self.told_on_terminal(NO_WORDS, output=full.fileno()), (1, "refused: write-fault 0\n"))


class Checks(CommandLineCase):
    def test_a_checked_scenario_is_not_run_by_its_allocations(self) -> None:
        shorter = UNMENDED.replace(b"20000", b"200")
        self.assertGreater(self.allocations(NO_WORDS, UNMENDED), 10 * self.allocations(NO_WORDS, shorter))
        for words in (["--check"], ["--check", "--replications", "1000"], ["--check", *WINDOW], ["--check", "--show", "links"]):
            with self.subTest(words=words):
                self.assertEqual(self.allocations(words, UNMENDED), self.allocations(words, shorter))

    def test_a_constant_that_is_told_without_thousandths_is_remarked(self) -> None:
        for constant, is_remarked in ((0, False), (1, True), (64, True), (65, False), (1000, False)):
            text = DRAWN.replace(b"c1 = ", b"c1 = %d # " % constant).replace(b"d2 = ", b"d2 = %d # " % constant)
            with self.subTest(constant=constant):
                end = self.program.run(["--check", "--explain"], text)
                told = [line for line in end.told.decode().splitlines() if line.startswith("remark: ")]
                self.assertEqual((end.status, end.written), (0, b""))
                self.assertEqual([line.split()[1] for line in told], ["c1", "d2"] if is_remarked else [])
                self.assertEqual(bool(end.told), is_remarked)
                for words in (["--check"], ["--explain"]):
                    self.assertEqual(self.program.run(words, text).told, b"")

    def test_a_scenario_that_is_accepted_is_not_run(self) -> None:
        for words in (["--check"], ["--check", "--explain"], ["--check", *WINDOW, "--cut", "0"], ["--show", "links", "--check"]):
            with self.subTest(words=words):
                self.assertEqual(self.ended(words), ((0, b"", b""), 0))

    def test_one_that_is_not_is_refused_as_ever(self) -> None:
        for text, line in ((b"", b"refused: bad-key top 0\n"), (b"[", b"refused: not-toml\n")):
            self.assertEqual(self.ended(["--check"], text), ((1, b"", line), 0))


class Explanations(CommandLineCase):
    def check(self, words: list[str], *told: str) -> None:
        (status, written, lines), unread = self.ended(["--explain", *words])
        self.assertEqual((status, written, unread), (2, b"", len(CHAIN)))
        self.assertTrue(lines.startswith(REFUSED_LINE.told))
        for it in told:
            self.assertIn(it, lines.decode())

    def test_a_refused_word_is_named_and_what_may_stand_there(self) -> None:
        self.check(["--crew", "six"], "'six'", "--crew", "plain, pool, bag, team")
        self.check(["--shw", "links"], "'--shw'", "'--show'")
        self.check(["--workers", "65"], "'65'", "1..=64")
        self.check(["--cut", "+1"], "'+1'", "--cut <N>", "1 to 1024")
        self.check(["--width", "Least"], "'Least'", "--width <least|promise|N>")
        self.check(["--seed", "1", "--seed", "2"], "--seed", "multiple times")
        self.check(["--seed"], "--seed", "value is required")
        self.check(["--seed", "-1"], "'-1'", "--seed <0..=9223372036854775807>")
        self.check(["--workers", "-1"], "'-1'", "--workers <1..=64>")
        self.check(["--cut", "-1"], "'-1'", "--cut <N>", "1 to 1024")
        self.check(["--show", "-1"], "'-1'", "trace, members, losses, operations, links, timers, scopes")
        self.check(["--seed", "--show", "links"], "--seed", "value is required")
        self.check(["--replications", "0"], "'0'", "1..=1000000")
        self.check(["--replications", "2", *WINDOW], "--replications", "cannot be used with '--engine window'")
        self.check(["--replications", "2", "--seed", str(2**63 - 1)], "--replications", "above 9223372036854775807")
        self.check(["--replications", "2", *WINDOW, "--width", "Least"], "'Least'", "--width <least|promise|N>")

    def test_a_run_that_is_not_refused_is_not_explained(self) -> None:
        self.assertEqual(self.ended(["--explain"])[0], (0, TRACE, b""))

    def test_a_closed_output_is_not_explained(self) -> None:
        with open(FULL, "wb") as full:
            self.assertEqual(self.program.run(["--explain"], CHAIN, stdout=full), refused("write-fault 0"))


class Help(CommandLineCase):
    def test_help_tells_each_option_and_each_status(self) -> None:
        (status, text, told), unread = self.ended(["--help"])
        self.assertEqual((status, told, unread), (0, b"", len(CHAIN)))
        self.assertEqual(text.decode().splitlines(), HELP)

    def test_help_that_is_met_first_is_given(self) -> None:
        must = self.ended(["--help"])
        for words in (["-h"], ["--show", "colors", "--help"], ["--help", "--show", "colors"], ["--seed", "1", "-h", "--colors"]):
            with self.subTest(words=words):
                self.assertEqual(self.ended(words), must)

    def test_the_version_is_the_program_and_its_number(self) -> None:
        for words in (["--version"], ["-V"]):
            with self.subTest(words=words):
                self.assertEqual(self.ended(words), ((0, VERSION, b""), len(CHAIN)))

    def test_a_version_that_is_not_taken_whole(self) -> None:
        with tempfile.TemporaryFile() as output:
            end = self.program.run(["--version"], stdout=output, **narrow(10))
            output.seek(0)
            self.assertEqual(end._replace(written=output.read()), (1, b"srm_lab 0.", b"refused: write-fault 10\n"))


if __name__ == "__main__":
    main()
