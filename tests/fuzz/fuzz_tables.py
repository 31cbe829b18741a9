"""Reads a trace, and computes from its rows the other tables, as docs/FORMATS.md says what they have. The rows of losses and
of timers are those that fuzz_replay.py finds."""
import collections
import re
from collections.abc import Iterable, Mapping
from typing import Any, NamedTuple

from fuzz_format import Scenario

HEADERS = {
    "trace": "time,member,cause,ref,result,lost,sent",
    "members": "member,role,node,joined,left,drawn,heard,lost,fixed,open,requests,repairs,sessions",
    "losses": "member,source,page,number,detected,recovered,delay",
    "operations": "source,page,number,losers,recovered,left,detected,asked,requests,repairs,last,delay",
    "links": "link,data,requests,repairs,sessions,dropped",
    "timers": "time,member,cause,ref,c1,c2,d1,d2,ave_dup_req,ave_req_delay,ave_dup_rep,ave_rep_delay",
    "scopes": "time,member,cause,ref,sent,scope,requester,width,heard",
}
ARRIVALS = ("data", "request", "repair", "session")
SENDS = {"draw": "data", "ask": "request", "answer": "repair", "report": "session"}
RESULTS = {
    "join": ("in",), "leave": ("out",), "ask": ("sent",), "answer": ("sent",), "draw": ("sent", "skip"), "report": ("sent",),
    "data": ("fresh", "fixed", "again", "skip"), "repair": ("fresh", "fixed", "again", "skip"), "session": ("told", "skip"),
    "request": ("skip", "rest", "busy", "plan", "hold", "back"),
}

NUMBER = "(?:0|[1-9][0-9]*)"
PACKET = re.compile(f"{NUMBER}:{NUMBER}")
NAME = re.compile(f"{NUMBER}/{NUMBER}/{NUMBER}")
ROW = re.compile(f"({NUMBER}),({NUMBER}),([a-z]+),([0-9:/]+|-),([a-z]+),({NUMBER}),({NUMBER}:{NUMBER}|-)")

# a packet, as its sender and its count, or a name, as source, page and number
Numbers = tuple[int, ...]


class Row(NamedTuple):
    """A row of a trace."""

    time: int
    member: int
    cause: str
    ref: Numbers | None
    result: str
    lost: int
    sent: Numbers | None


class Packet(NamedTuple):
    """Of what kind a packet is, and what it carries: a name, or what a session message tells. How many hops it goes, if that is
    limited; and of such a repair whose request it answers, and how far that went."""

    kind: str
    tells: Any
    scope: int | None = None
    requester: int | None = None
    width: int | None = None


# the four constants of a member's timers after an event, and the four averages, of which there may be none yet
Timers = tuple[tuple[int, ...], tuple[int | None, ...]]


class Wrong(Exception):
    """Something that the program must not do."""


def numbers(text: str) -> Numbers:
    """The numbers of a packet, 2:0, or of a name, 0/0/1."""
    return tuple(int(it) for it in re.split("[:/]", text))


def lines_of(table: str, text: bytes) -> list[str]:
    """The lines of a table below its header, each of which ended with a line feed."""
    if not text.isascii():
        raise Wrong(f"{table}: not all of it is ASCII")
    lines = text.decode().split("\n")
    if lines[0] != HEADERS[table] or lines[-1] != "":
        raise Wrong(f"{table}: another header, or no line feed at the end")
    return lines[1:-1]


def row_of(line: str) -> Row:
    """One row of a trace, if it has the form of one."""
    found = ROW.fullmatch(line)
    if found is None or found[5] not in RESULTS.get(found[3], ()):
        raise Wrong(f"trace: no row: {line}")
    time, member, cause, ref, result, lost, sent = found.groups()
    has = PACKET if cause in ARRIVALS else NAME if cause in SENDS and cause != "report" and result == "sent" else re.compile("-")
    if not has.fullmatch(ref) or (sent != "-") != (cause in SENDS and result == "sent"):
        raise Wrong(f"trace: no row: {line}")
    as_numbers = None if sent == "-" else numbers(sent)
    return Row(int(time), int(member), cause, None if ref == "-" else numbers(ref), result, int(lost), as_numbers)


def rows_of(trace: bytes) -> list[Row]:
    """The rows of a trace."""
    return [row_of(line) for line in lines_of("trace", trace)]


def table(name: str, lines: Iterable[str]) -> bytes:
    """The bytes of a table."""
    return "".join(f"{line}\n" for line in [HEADERS[name], *lines]).encode()


def csv(*fields: object) -> str:
    """One line; a dash stands for None."""
    return ",".join("-" if it is None else str(it) for it in fields)


def members_table(scenario: Scenario, rows: list[Row]) -> bytes:
    """One line for each member: filters, counts and sums over its rows."""
    by_member: dict[int, list[Row]] = collections.defaultdict(list)
    for row in rows:
        by_member[row.member].append(row)
    lines = []
    for number, member in enumerate(scenario.members):
        own = by_member[number]
        joined, left = (next((row.time for row in own if row.cause == cause), None) for cause in ("join", "leave"))
        drawn, requests, repairs, sessions = (
            sum(row.cause == cause and row.result == "sent" for row in own) for cause in SENDS
        )
        heard, lost = sum(row.cause in ARRIVALS for row in own), sum(row.lost for row in own)
        fixed = sum(row.result == "fixed" for row in own)
        counts = (drawn, heard, lost, fixed, lost - fixed, requests, repairs, sessions)
        lines.append(csv(number, member["role"], member["node"], joined, left, *counts))
    return table("members", lines)


def losses_table(scenario: Scenario, losses: dict[tuple[int, Numbers], tuple[int, int | None]]) -> bytes:
    """One line for each lost name, from the times at which a member missed a name and took it in, if it did."""
    lines = []
    for (member, name), (detected, recovered) in sorted(losses.items()):
        round_trip = scenario.round_trip(member, name[0])
        delay = None if recovered is None else f"{recovered - detected}/{round_trip}"
        lines.append(csv(member, *name, detected, recovered, delay))
    return table("losses", lines)


def operations_table(
    scenario: Scenario, rows: list[Row], losses: dict[tuple[int, Numbers], tuple[int, int | None]]
) -> bytes:
    """One line for each name that some member lost, from what became of the losses and from what was sent for the name."""
    gone = {row.member for row in rows if row.cause == "leave"}
    lines = []
    for name in sorted({name for _, name in losses}):
        of_name = {member: times for (member, lost), times in losses.items() if lost == name}
        recovered = {member: fixed for member, (_, fixed) in of_name.items() if fixed is not None}
        left = sum(member in gone for member in of_name if member not in recovered)
        asked, answered = (
            [row.time for row in rows if (row.cause, row.result, row.ref) == (cause, "sent", name)] for cause in ("ask", "answer")
        )
        last, delay = None, None
        if recovered and len(recovered) + left == len(of_name):
            last = max(recovered, key=lambda member: (recovered[member], -member))
            delay = f"{recovered[last] - of_name[last][0]}/{scenario.round_trip(last, name[0])}"
        detected = min(found for found, _ in of_name.values())
        counts = (len(of_name), len(recovered), left, detected, min(asked, default=None), len(asked), len(answered))
        lines.append(csv(*name, *counts, last, delay))
    return table("operations", lines)


def links_table(scenario: Scenario, rows: list[Row], packets: Mapping[Numbers, Packet]) -> bytes:
    """One line for each link: of the packets that were sent, those that crossed it, by kind, and those dropped at it."""
    crossed: collections.Counter[tuple[int, str]] = collections.Counter()
    dropped: collections.Counter[int] = collections.Counter()
    for row in rows:
        if row.sent is not None:
            sender, count = row.sent
            fate = scenario.fate(sender, count, row.time, packets[row.sent].scope)
            crossed.update((link, packets[row.sent].kind) for link in fate.crossed)
            dropped.update(fate.dropped)
    links = range(len(scenario.links))
    return table("links", [csv(link, *(crossed[link, kind] for kind in ARRIVALS), dropped[link]) for link in links])


def scopes_table(rows: list[Row], packets: Mapping[Numbers, Packet]) -> bytes:
    """One line for each request and each repair that was sent: how far it was to go, for whom, and how many heard it."""
    heard = collections.Counter(row.ref for row in rows if row.cause in ARRIVALS)
    lines = []
    for row in rows:
        if row.cause in ("ask", "answer") and row.sent is not None:
            packet = packets[row.sent]
            sent = ":".join(str(it) for it in row.sent)
            local = packet.scope, packet.requester, packet.width
            lines.append(csv(row.time, row.member, row.cause, ref_text(row), sent, *local, heard[row.sent]))
    return table("scopes", lines)


def ref_text(row: Row) -> str | None:
    """What a row is about, as a table has it: a packet where something arrives, or else a name."""
    if row.ref is None:
        return None
    return (":" if row.cause in ARRIVALS else "/").join(str(it) for it in row.ref)


def timers_table(timers: list[tuple[Row, Timers]]) -> bytes:
    """One line for each event after which a member's timers go by other constants, and for each join of one that has timers."""
    return table("timers", [
        csv(row.time, row.member, row.cause, ref_text(row), *constants, *averages) for row, (constants, averages) in timers
    ])


def replications_table(tables: Mapping[int, bytes]) -> bytes:
    """The one table of several runs, from the table of each seed: the header once, and each row behind its seed."""
    header = next(iter(tables.values())).splitlines(keepends=True)[0]
    rows = (b"%d,%s" % (seed, row) for seed, table in tables.items() for row in table.splitlines(keepends=True)[1:])
    return b"".join([b"seed," + header, *rows])
