#!/usr/bin/env python3
"""Feeds the built program texts, devices and options that it has to refuse, and texts that are barely right.

usage: tests/program/hostile.py [-q] [TEST ..]

What must come is written from docs/FORMATS.md: the first refusal of a text that was changed is computed by fuzz_format.py,
and the trace of one that is accepted is held to the model by fuzz_replay.py. A device that takes so many bytes and then fails
is a file with a limit on its size. One that gives so many and then fails is a socket whose other end is closed with a byte
that was not read.
"""
import contextlib
import fcntl
import functools
import os
import pathlib
import re
import resource
import socket
import subprocess
import sys
import tempfile
import termios
import time
import tomllib
from collections.abc import Iterable, Iterator, Sequence

sys.dont_write_bytecode = True
sys.path.append(str(pathlib.Path(__file__).resolve().parent.parent / "fuzz"))

import fuzz
import fuzz_format
import fuzz_tables
from program import REFUSED_LINE, TOP, End, refused
from program_case import ProgramCase, main, narrow, pipes

TEXT = (TOP / "examples" / "chain-of-five-one-loss.toml").read_bytes()
TRACE = (TOP / "examples" / "chain-of-five-one-loss.trace.csv").read_bytes()
DRAWN = (TOP / "examples" / "drawn-timers.toml").read_bytes()
MEMBERS = tomllib.loads(TEXT.decode())["member"]
ONE_MEMBER = b"""\
version = 1
until = 50
c1 = 1000
c2 = 0
d1 = 1000
d2 = 0
nodes = 1
member = [{ node = 0, role = "sender", stream = 1 }]
draw = [{ member = 0, page = 0, ink = 7, at = 0 }, { member = 0, page = 0, ink = 8, at = 49 }]
"""
NO_WORDS: list[str] = []
WINDOW = ["--engine", "window"]
ENGINES = [NO_WORDS, *([*WINDOW, "--crew", crew, "--workers", "2"] for crew in ("plain", "pool", "bag", "team"))]
PIECE = 50


def changed(old: bytes, new: bytes) -> bytes:
    """The text with one place of it changed."""
    assert TEXT.count(old) == 1, old
    return TEXT.replace(old, new)


def long_text() -> bytes:
    """A scenario whose trace is longer than any pipe holds."""
    draw = "".join(f"  {{ member = 0, page = 0, ink = 1, at = {number} }},\n" for number in range(4096))
    begin, end = TEXT.index(b"draw = ["), TEXT.index(b"drop = [")
    text = TEXT[:begin] + f"draw = [\n{draw}]\n".encode() + TEXT[end:]
    return text.replace(b"until = 100", b"until = 10000")


def without_members() -> tuple[bytes, bytes]:
    """The text without its array of members: what stands before it, and what stands after it."""
    begin = TEXT.index(b"member = [\n")
    end = TEXT.index(b"]\n", begin) + 2
    return TEXT[:begin], TEXT[end:]


def member_tables() -> bytes:
    """The members as tables of their own."""
    return "".join(
        f'[[member]]\nnode = {it["node"]}\nrole = "{it["role"]}"\nstream = {it["stream"]}\n' for it in MEMBERS
    ).encode()


@contextlib.contextmanager
def failing_input() -> Iterator[tuple[socket.socket, socket.socket]]:
    """Two ends of a socket: what is read at the second fails once the first is closed and what was sent is read."""
    ours, theirs = socket.socketpair()
    with ours, theirs:
        theirs.sendall(b"x")
        yield ours, theirs


def unread(end: socket.socket) -> int:
    """How many bytes were sent to an end of a socket and not read."""
    return int.from_bytes(fcntl.ioctl(end, termios.FIONREAD, bytes(4)), sys.byteorder)


class HostileCase(ProgramCase):
    def ended(self, text: bytes, words: Sequence[str] = ()) -> End:
        """How a run on a text ends."""
        return self.program.run(words, text)


class Texts(HostileCase):
    def test_text_cut_after_each_byte(self) -> None:
        accepted = 0
        for length in range(len(TEXT)):
            with self.subTest(length=length):
                accepted += self.check_cut(TEXT[:length])
        # after `delay`, `member` and `draw`, each with its line feed and without, and without the last line feed
        self.assertEqual(accepted, 7)

    def check_cut(self, text: bytes) -> bool:
        """Holds the end of a run on a text to the documents; tells whether it is accepted."""
        end = self.ended(text)
        try:
            top = tomllib.loads(text.decode())
        except tomllib.TOMLDecodeError:
            self.assertEqual(end, refused("not-toml"))
            return False
        if (line := fuzz_format.refusal_of(top)) is not None:
            self.assertEqual(end, refused(line))
            return False
        self.assertEqual((end[0], end[2]), (0, b""))
        fuzz.expected(fuzz_format.Scenario(top), 0, end[1])
        return True

    def test_text_fed_byte_by_byte(self) -> None:
        with self.program.start(stdin=subprocess.PIPE, stdout=subprocess.PIPE, bufsize=0) as child:
            given, taken = pipes(child)
            for byte in TEXT:
                given.write(bytes([byte]))
            given.close()
            self.assertEqual((taken.read(), child.wait()), (TRACE, 0))

    def test_byte_order_mark_in_front(self) -> None:
        self.assertEqual(self.ended(b"\xef\xbb\xbf" + TEXT), (0, TRACE, b""))

    def test_text_without_its_last_line_feed(self) -> None:
        self.assertEqual(self.ended(TEXT.rstrip(b"\n")), (0, TRACE, b""))

    def test_empty_text(self) -> None:
        self.assertEqual(self.ended(b""), refused("bad-key top 0"))

    def test_as_many_spaces_as_a_text_may_have(self) -> None:
        self.assertEqual(self.ended(b" " * 1048576), refused("bad-key top 0"))

    def test_one_space_more_than_a_text_may_have(self) -> None:
        self.assertEqual(self.ended(b" " * 1048577), refused("too-long"))

    def test_byte_that_is_no_text(self) -> None:
        self.assertEqual(self.ended(changed(b"until = 100", b"until = 10\xff")), refused("not-toml"))

    def test_key_given_twice(self) -> None:
        self.assertEqual(self.ended(changed(b"until = 100\n", b"until = 100\nuntil = 100\n")), refused("not-toml"))

    def test_table_that_is_not_closed(self) -> None:
        self.assertEqual(self.ended(b"version = 1\n[[member\n"), refused("not-toml"))

    def test_latest_end(self) -> None:
        self.assertEqual(self.ended(changed(b"until = 100", b"until = 1099511627776"))[0], 0)

    def test_one_tick_past_the_latest_end(self) -> None:
        self.assertEqual(self.ended(changed(b"until = 100", b"until = 1099511627777")), refused("bad-key top 0"))

    def test_end_that_is_no_integer(self) -> None:
        self.assertEqual(self.ended(changed(b"until = 100", b"until = 1.0")), refused("bad-key top 0"))

    def test_integer_too_long_for_toml(self) -> None:
        self.assertEqual(self.ended(changed(b"until = 100", b"until = 9223372036854775808")), refused("not-toml"))

    def test_256_members(self) -> None:
        self.assertEqual(self.ended(self.with_members(256))[0], 0)

    def test_257_members(self) -> None:
        self.assertEqual(self.ended(self.with_members(257)), refused("bad-key top 0"))

    def test_1024_members_in_version_2(self) -> None:
        joined = b"".join(b"0,%d,join,-,in,0,-\n" % member for member in range(1024))
        trace = TRACE[:TRACE.index(b"\n") + 1] + joined
        text = self.with_members(1024, version=2, nodes=1024)
        for words in (NO_WORDS, [*WINDOW, "--cut", "1"]):
            self.assertEqual(self.ended(text, words), (0, trace, b""))

    def test_1025_members_in_version_2(self) -> None:
        self.assertEqual(self.ended(self.with_members(1025, version=2, nodes=1024)), refused("bad-key top 0"))

    def test_1024_nodes_in_version_1(self) -> None:
        self.assertEqual(self.ended(self.with_members(5, version=1, nodes=1024)), refused("bad-key top 0"))

    @staticmethod
    def with_members(many: int, version: int = 1, nodes: int = 256) -> bytes:
        one = b'  { node = %d, role = "listener", stream = 1 },\n'
        before, _ = without_members()
        before = before.replace(b"size = 5", b"size = %d" % nodes).replace(b"version = 1", b"version = %d" % version)
        return before + b"member = [\n" + b"".join(one % node for node in range(many)) + b"]\n"

    def test_draw_is_refused_before_a_drop(self) -> None:
        text = changed(b"{ member = 0, page = 0, ink = 7", b"{ member = 9, page = 0, ink = 7")
        self.assertEqual(self.ended(text.replace(b"{ link = 1", b"{ link = 9")), refused("bad-draw 0"))

    def test_pages_of_a_sender(self) -> None:
        text = changed(b'node = 0, role = "sender"', b'pages = [], node = 0, role = "sender"')
        self.assertEqual(self.ended(text), refused("bad-member 0"))

    def test_members_as_tables_at_the_end(self) -> None:
        before, after = without_members()
        self.assertEqual(self.ended(before + after + member_tables()), (0, TRACE, b""))

    def test_members_as_tables_before_the_draws(self) -> None:
        before, after = without_members()
        self.assertEqual(self.ended(before + member_tables() + after), refused("bad-key member 4"))


class ShortTextsOfMuch(HostileCase):
    """Elements that stand for as many as there may be, and for more; and parents as deep as a tree may be, or in a circle."""

    NODES = 65535
    MEMORY = 2**28
    CHAIN = 'topology = "chain"\nsize = 65535\ndelay = 1\n'
    ARRAYS = {
        "member": f"node = 0, role = 'late', stream = 0, pages = [{', '.join(['7'] * 256)}]",
        "session": "member = 0, at = 0, every = 0",
        "drop": "link = 0, sender = 0, count = 0",
        "outage": "link = 0, from = 0, to = 1",
        "loss": "link = 0, rate = 1, every = 0",
    }

    def checked(self, network: str) -> End:
        """How the check of a scenario of version 4 ends, in 256 MB of memory."""
        limit = functools.partial(resource.setrlimit, resource.RLIMIT_AS, (self.MEMORY, self.MEMORY))
        text = f"version = 4\nuntil = 9\nc1 = 0\nc2 = 0\nd1 = 0\nd2 = 0\n{network}\n"
        return self.program.run(["--check"], text.encode(), preexec_fn=limit)

    def with_parents(self, parents: Iterable[int]) -> str:
        return f'topology = "parents"\ndelay = 1\nparent = [{",".join(map(str, parents))}]'

    def test_as_many_of_each_as_there_may_be(self) -> None:
        lists = [f"{part} = [{{ {fields}, times = 65535 }}]" for part, fields in self.ARRAYS.items()]
        self.assertEqual(self.checked(self.CHAIN + "\n".join(lists)), (0, b"", b""))

    def test_arrays_that_make_thousands_of_millions(self) -> None:
        for part in self.ARRAYS:
            array = ",".join(["{times=65535}"] * 60000)
            self.assertEqual(self.checked(f"{self.CHAIN}{part} = [{array}]"), refused("bad-key top 0"))

    def test_as_deep_as_a_tree_may_be(self) -> None:
        upwards, downwards = [*range(2, self.NODES), 0], range(self.NODES - 1)
        for parents in (upwards, downwards):
            self.assertEqual(self.checked(self.with_parents(parents)), (0, b"", b""))

    def test_parents_in_a_circle(self) -> None:
        for last in (1, 2, self.NODES - 2):
            self.assertEqual(self.checked(self.with_parents([*range(2, self.NODES), last])), refused("not-tree"))


class Devices(HostileCase):
    def test_input_that_fails_at_once(self) -> None:
        folder = os.open(TOP, os.O_RDONLY)
        self.addCleanup(os.close, folder)
        self.assertEqual(self.program.run(stdin=folder), refused("read-fault"))

    def test_input_that_is_closed(self) -> None:
        self.assertEqual(self.program.run(preexec_fn=functools.partial(os.close, 0)), refused("read-fault"))

    def test_input_that_fails_after_each_byte(self) -> None:
        for length in range(len(TEXT) + 1):
            with self.subTest(length=length), failing_input() as (ours, theirs):
                ours.sendall(TEXT[:length])
                ours.close()
                self.assertEqual(self.program.run(stdin=theirs), refused("read-fault"))

    def test_input_that_fails_at_each_call(self) -> None:
        pieces = [TEXT[begin : begin + PIECE] for begin in range(0, len(TEXT), PIECE)]
        for calls in range(len(pieces) + 1):
            with self.subTest(calls=calls), failing_input() as (ours, theirs):
                self.assertEqual(self.fed(ours, theirs, pieces[:calls]), refused("read-fault"))

    def fed(self, ours: socket.socket, theirs: socket.socket, pieces: list[bytes]) -> End:
        """How a run ends that is given these pieces, each after it took the one before, and whose input then fails."""
        child = self.program.start(stdin=theirs, stdout=subprocess.PIPE, stderr=subprocess.PIPE)
        for piece in pieces:
            ours.sendall(piece)
            while unread(theirs):
                time.sleep(0.0001)
        ours.close()
        written, told = child.communicate(timeout=60)
        return End(child.returncode, written, told)

    def test_output_that_is_closed(self) -> None:
        for words in ENGINES:
            with self.subTest(words=words):
                end = self.program.run(words, TEXT, preexec_fn=functools.partial(os.close, 1))
                self.assertEqual(end, refused("write-fault 0"))

    def test_output_that_is_full(self) -> None:
        tables = [["--show", it] for it in ("members", "losses", "operations", "links", "timers", "scopes")]
        for words in [*ENGINES, ["--help"], *tables]:
            with self.subTest(words=words), open("/dev/full", "wb") as full:
                self.assertEqual(self.program.run(words, TEXT, stdout=full), refused("write-fault 0"))

    def test_refused_text_writes_nothing_to_an_output_that_is_full(self) -> None:
        with open("/dev/full", "wb") as full:
            self.assertEqual(self.program.run(stdout=full), refused("bad-key top 0"))

    def test_line_that_is_not_taken_changes_no_status(self) -> None:
        runs = ((NO_WORDS, TEXT, 0), (NO_WORDS, b"", 1), ([*WINDOW, "--cut", "0"], TEXT, 1), (["--workers", "0"], TEXT, 2))
        for words, text, status in runs:
            with self.subTest(words=words, status=status), open("/dev/full", "wb") as full:
                end = self.program.run(words, text, stderr=full)
                self.assertEqual(end, (status, b"" if status else TRACE, b""))

    def test_output_that_fails_after_each_byte(self) -> None:
        for words in ENGINES:
            for most in range(len(TRACE)):
                with self.subTest(words=words, most=most):
                    self.assertEqual(self.into_file(words, most), (1, TRACE[:most], refused(f"write-fault {most}")[2]))

    def test_output_with_just_enough_room(self) -> None:
        for words in ENGINES:
            with self.subTest(words=words):
                self.assertEqual(self.into_file(words, len(TRACE)), (0, TRACE, b""))

    def test_replications_whose_output_fails_after_each_byte(self) -> None:
        for table, workers in (("trace", 1), ("losses", 7)):
            single = [self.program.written(["--show", table, "--seed", seed], DRAWN) for seed in "01"]
            text = fuzz_tables.replications_table(dict(enumerate(single)))
            words = ["--replications", "2", "--show", table, "--workers", str(workers)]
            for most in range(len(text)):
                with self.subTest(words=words, most=most):
                    self.assertEqual(self.into_file(words, most, DRAWN), (1, text[:most], refused(f"write-fault {most}")[2]))
            self.assertEqual(self.into_file(words, len(text), DRAWN), (0, text, b""))

    def into_file(self, words: list[str], most: int, text: bytes = TEXT) -> End:
        """How a run ends that writes to a file of at most so many bytes, and what was written there."""
        with tempfile.TemporaryFile() as file:
            end = self.program.run(words, text, stdout=file, **narrow(most))
            file.seek(0)
            return end._replace(written=file.read())

    def test_reader_that_closes_early(self) -> None:
        for words in ENGINES:
            with self.subTest(words=words):
                self.assertEqual(self.first_line(words, long_text()), (TRACE.split(b"\n")[0], 1, True))

    def first_line(self, words: list[str], text: bytes) -> tuple[bytes, int, bool]:
        """What a reader of one line gets of a run, its status, and whether standard error is one line of a write fault."""
        with tempfile.TemporaryFile() as errors:
            streams = {"stdin": subprocess.PIPE, "stdout": subprocess.PIPE, "stderr": errors}
            child = self.program.start(words, **streams, restore_signals=False)
            given, taken = pipes(child)
            given.write(text)
            given.close()
            line = taken.readline()
            taken.close()
            status = child.wait()
            errors.seek(0)
            return line.rstrip(b"\n"), status, bool(re.fullmatch(rb"refused: write-fault [0-9]+\n", errors.read()))


class Options(HostileCase):
    def check(self, words: list[str], end: tuple[int, bytes, bytes], text: bytes = TEXT) -> None:
        self.assertEqual(self.ended(text, words), end)

    def test_cut_of_1024(self) -> None:
        self.check([*WINDOW, "--cut", "1024"], (0, TRACE, b""))

    def test_cut_of_1025(self) -> None:
        self.check([*WINDOW, "--cut", "1025"], refused("bad-cut"))

    def test_greatest_cut(self) -> None:
        self.check([*WINDOW, "--cut", "4294967295"], refused("bad-cut"))

    def test_cut_past_the_greatest(self) -> None:
        self.check([*WINDOW, "--cut", "4294967296"], REFUSED_LINE)

    def test_cut_of_0(self) -> None:
        self.check([*WINDOW, "--cut", "0"], refused("bad-cut"))

    def test_cut_that_the_sequential_engine_does_not_look_at(self) -> None:
        self.check(["--engine", "step", "--cut", "0", "--width", "0"], (0, TRACE, b""))

    def test_width_of_0(self) -> None:
        self.check([*WINDOW, "--width", "0"], refused("bad-width"))

    def test_width_of_the_least_delay(self) -> None:
        self.check([*WINDOW, "--width", "1"], (0, TRACE, b""))

    def test_width_above_the_least_delay(self) -> None:
        self.check([*WINDOW, "--width", "2"], refused("bad-width"))

    def test_greatest_width(self) -> None:
        self.check([*WINDOW, "--width", "18446744073709551615"], refused("bad-width"))

    def test_greatest_width_without_a_link(self) -> None:
        must = self.ended(ONE_MEMBER)
        self.assertEqual(must[1].count(b"\n"), 4)
        self.check([*WINDOW, "--width", "18446744073709551615"], must, ONE_MEMBER)

    def test_width_past_the_greatest(self) -> None:
        self.check([*WINDOW, "--width", "18446744073709551616"], REFUSED_LINE)

    def test_width_with_a_sign(self) -> None:
        self.check([*WINDOW, "--width", "+1"], REFUSED_LINE)

    def test_cut_is_refused_before_a_width(self) -> None:
        self.check([*WINDOW, "--cut", "0", "--width", "0"], refused("bad-cut"))

    def test_text_is_refused_before_a_cut(self) -> None:
        self.check([*WINDOW, "--cut", "0"], refused("bad-key top 0"), b"")

    def test_words_are_refused_before_a_text(self) -> None:
        self.check(["--workers", "0"], REFUSED_LINE, b"")

    def test_no_worker(self) -> None:
        self.check([*WINDOW, "--crew", "bag", "--workers", "0"], REFUSED_LINE)

    def test_64_workers(self) -> None:
        self.check([*WINDOW, "--crew", "bag", "--workers", "64"], (0, TRACE, b""))

    def test_65_workers(self) -> None:
        self.check([*WINDOW, "--crew", "bag", "--workers", "65"], REFUSED_LINE)

    def test_crew_that_is_none(self) -> None:
        self.check(["--crew", "six"], REFUSED_LINE)

    def test_engine_that_is_none(self) -> None:
        self.check(["--engine", "steps"], REFUSED_LINE)


if __name__ == "__main__":
    main()
