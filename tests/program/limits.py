#!/usr/bin/env python3
"""Runs the built program at the limits of the format, with each engine and crew, and compares what it writes with what it has to.

usage: tests/program/limits.py

Each case has as much of one thing as a scenario of version 2 to 5 may have: nodes and members in a chain, a star, a tree and
by parents, links, draws, session messages, drops, outages, losses, slots, scopes, pages of a late member, ticks, delays,
distances, and bytes of its text. What has to be written is worked out here. Jobs have one member each, so that a window has as
many as there are members, or as many members as they may have. Then a session of 5,000 members, which lose packets, recover
locally and adapt their timers, is run with each crew and several workers, cuts and widths, and has to give the sequential
engine's bytes. Prints how many runs there were, and ends with status 1 where one differs.
"""
import dataclasses
import sys
from collections.abc import Callable, Iterator

sys.dont_write_bytecode = True

from program import BUILT, Program

PAGES = 256
NUMBERS_OF_A_PAGE = 4_096
LONGEST_DELAY = 1_000_000
LAST_TICK = 2**40
LONGEST_TEXT = 1_048_576

TRACE = "time,member,cause,ref,result,lost,sent"
LINKS = "link,data,requests,repairs,sessions,dropped"
SCOPES = "time,member,cause,ref,sent,scope,requester,width,heard"
WINDOW = ("--engine", "window", "--cut")
STEP = ("--engine", "step")
PLAIN = (*WINDOW, "1")
POOL = (*WINDOW, "1", "--crew", "pool")
BAG = (*WINDOW, "1", "--crew", "bag", "--workers", "2")
TEAM = (*WINDOW, "1", "--crew", "team", "--workers", "2")
PROMISE = (*WINDOW, "1024", "--width", "promise")
WAYS = (STEP, PLAIN, POOL, BAG, TEAM, PROMISE)
# nodes, and members, of the session that is run in windows
MANY = 5_000
# each with the table that is compared
WAYS_OF_MANY = (
    ("trace", (*WINDOW, "1")),
    ("trace", (*WINDOW, "1", "--crew", "bag", "--workers", "2", "--width", "promise")),
    ("trace", (*WINDOW, "64", "--crew", "bag", "--workers", "7")),
    ("trace", (*WINDOW, "1000", "--crew", "team", "--workers", "4")),
    ("trace", (*WINDOW, "7", "--crew", "pool", "--width", "3")),
    ("losses", (*WINDOW, "1024", "--crew", "pool", "--width", "promise")),
    ("members", (*WINDOW, "100", "--crew", "bag", "--workers", "4", "--width", "3")),
    ("links", (*WINDOW, "9", "--width", "promise")),
    ("links", (*WINDOW, "300", "--crew", "team", "--workers", "7", "--width", "promise")),
    ("timers", (*WINDOW, "500", "--crew", "bag", "--workers", "3", "--width", "promise")),
    ("scopes", (*WINDOW, "70", "--crew", "pool")),
    ("scopes", (*WINDOW, "200", "--crew", "team", "--workers", "4", "--width", "promise")),
)


@dataclasses.dataclass(frozen=True)
class Version:
    """A version of the format: how many nodes it has room for, and how many draws, session messages, drops and outages each."""

    number: int
    nodes: int
    elements: int


SECOND = Version(2, nodes=1_024, elements=4_096)
THIRD = Version(3, nodes=65_535, elements=65_535)
FOURTH = dataclasses.replace(THIRD, number=4)
FIFTH = dataclasses.replace(THIRD, number=5)


@dataclasses.dataclass(frozen=True)
class Case:
    """A scenario, a table of it, the lines of that table after its header, and the ways in which it is run."""

    name: str
    text: str
    show: str
    lines: list[str]
    ways: tuple[tuple[str, ...], ...] = WAYS

    def table(self) -> bytes:
        """The bytes that have to be written."""
        header = {"trace": TRACE, "links": LINKS, "scopes": SCOPES}[self.show]
        return "".join(f"{line}\n" for line in (header, *self.lines)).encode()


def scenario(version: Version, until: int, *parts: str) -> str:
    """The text of a scenario, whose timers have no random part."""
    return "\n".join((f"version = {version.number}\nuntil = {until}\nc1 = 1000\nc2 = 0\nd1 = 1000\nd2 = 0", *parts, ""))


def topology(kind: str, size: int, delay: int) -> str:
    """The keys of a topology; a tree has degree 4."""
    degree = "\ndegree = 4" if kind == "tree" else ""
    return f'topology = "{kind}"\nsize = {size}\ndelay = {delay}{degree}'


def members(nodes: range) -> str:
    """A member on each node, of which the first draws."""
    roles = ["sender"] + ["receiver"] * (len(nodes) - 1)
    listed = (f'{{ node = {node}, role = "{role}", stream = {node} }}' for node, role in zip(nodes, roles))
    return f"member = [{', '.join(listed)}]"


def members_in_a_row(nodes: range) -> str:
    """The same by one element for all that receive."""
    first, second = (f'node = {node}, role = "{role}", stream = {node}' for node, role in zip(nodes, ("sender", "receiver")))
    return f"member = [{{ {first} }}, {{ {second}, times = {len(nodes) - 1} }}]"


def array(key: str, *elements: str) -> str:
    """An array of elements, each with these fields."""
    return f"{key} = [{', '.join(f'{{ {fields} }}' for fields in elements)}]"


def elements(key: str, fields: Callable[[int], str], count: int = SECOND.elements) -> str:
    """An array with so many elements, the fields of each made of its place."""
    return array(key, *map(fields, range(count)))


def draws(count: int) -> str:
    """So many draws by member 0, one a tick."""
    return elements("draw", lambda place: f"member = 0, page = 0, ink = 0, at = {place}", count)


def joins(count: int) -> list[str]:
    """The lines of the joins of so many members at tick 0."""
    return [f"0,{member},join,-,in,0,-" for member in range(count)]


def rows_of_one_draw(nodes: range, delay: int, links_to: Callable[[int], int]) -> list[str]:
    """The lines of a trace in which the member on the first node draws once, which comes to each other after the links to it."""
    first, *others = joins(len(nodes))
    arrivals = sorted((delay * links_to(node), member) for member, node in enumerate(nodes) if member)
    return [first, "0,0,draw,0/0/0,sent,0,0:0", *others, *(f"{time},{it},data,0:0,fresh,0,-" for time, it in arrivals)]


def one_draw(version: Version, kind: str, nodes: range, delay: int, links_to: Callable[[int], int]) -> Case:
    """A member on each of these nodes of a topology, of which the first draws once."""
    listed = members(nodes) if version is SECOND else members_in_a_row(nodes)
    return Case(
        f"{kind} of {version.nodes} nodes",
        scenario(version, LAST_TICK, topology(kind, version.nodes, delay), listed, draws(1)),
        "trace",
        rows_of_one_draw(nodes, delay, links_to),
    )


def depth(node: int) -> int:
    """How many links lead from the root of a tree of degree 4, numbered breadth first, to a node."""
    if node == 0:
        return 0
    return 1 + depth(0 if node <= 4 else 1 + (node - 5) // 3)


def of_two(*parts: str) -> str:
    """A scenario of two nodes, a tick from each other, with a sender and a receiver, that ends after the last arrival."""
    return scenario(SECOND, SECOND.elements + 1, topology("chain", 2, 1), members(range(2)), *parts)


def with_pages() -> Case:
    """A late member asks for as many pages as it may list, at tick 0, before anything was drawn: nothing is lost."""
    pages = ", ".join(map(str, range(PAGES)))
    late = f'{{ node = 1, role = "late", stream = 1, pages = [{pages}] }}'
    listed = f'member = [{{ node = 0, role = "sender", stream = 0 }}, {late}]'
    rows = ["0,0,join,-,in,0,-", "0,0,draw,0/0/0,sent,0,0:0", "0,1,join,-,in,0,-", "1,1,data,0:0,fresh,0,-"]
    return Case("pages", scenario(SECOND, 2, topology("chain", 2, 1), listed, draws(1)), "trace", rows)


def with_links() -> Case:
    """As many links as a scenario may have, each listed: a star round node 0, and one packet over all of them."""
    nodes = SECOND.nodes
    star = elements("link", lambda place: f"a = 0, b = {place + 1}, delay = 1", nodes - 1)
    text = scenario(SECOND, 2, f"nodes = {nodes}", star, members(range(nodes)), draws(1))
    return Case("links", text, "links", [f"{link},1,0,0,0,0" for link in range(nodes - 1)])


def padded(text: str) -> str:
    """A text that is made as long as it may be, by a comment."""
    return text + "#" * (LONGEST_TEXT - len(text))


def cases_of_version_2() -> Iterator[Case]:
    """A case for each limit of version 2."""
    nodes, count = SECOND.nodes, SECOND.elements
    yield one_draw(SECOND, "chain", range(nodes), LONGEST_DELAY, lambda node: node)
    yield one_draw(SECOND, "star", range(1, nodes), LONGEST_DELAY, lambda node: 2)
    yield one_draw(SECOND, "tree", range(nodes), 1, depth)
    yield with_links()
    yield with_pages()
    yield Case("bytes", padded(of_two(draws(1))), "links", ["0,1,0,0,0,0"])
    yield Case("draws", of_two(draws(count)), "links", [f"0,{count},0,0,0,0"])
    reports = elements("session", lambda place: f"member = {place % 2}, at = {place // 2}")
    yield Case("session messages", of_two(reports), "links", [f"0,0,0,0,{count},0"])
    drops = elements("drop", lambda place: f"link = 0, sender = 0, count = {place}")
    yield Case("drops", of_two(draws(count), drops), "links", [f"0,0,0,0,0,{count}"])
    outages = elements("outage", lambda place: f"link = 0, from = {place}, to = {place + 1}")
    yield Case("outages", of_two(draws(count), outages), "links", [f"0,0,0,0,0,{count}"])


# ---- version 3 -------------------------------------------------------------------


def parent(nodes: int, node: int) -> int:
    """The parent of a node in a binary tree below node 0, in which parents have higher numbers than their children.

    Counted from the last node, which is number 1, the parent of number w is number w / 2, and that of the last node is node 0.
    """
    number = nodes - node
    return nodes - number // 2 if number > 1 else 0


def parents_with(nodes: int, delays: Callable[[int], int]) -> str:
    """The keys of that tree, with a delay for each link."""
    above = ",".join(str(parent(nodes, node)) for node in range(1, nodes))
    return f'topology = "parents"\nparent = [{above}]\ndelays = [{",".join(map(str, map(delays, range(nodes - 1))))}]'


def by_parents() -> Case:
    """As many nodes as there may be, each with a parent and a delay of its own, in a text as long as it may be."""
    nodes = range(THIRD.nodes)
    network = parents_with(THIRD.nodes, lambda link: LONGEST_DELAY)
    text = scenario(THIRD, LAST_TICK, network, members_in_a_row(nodes), draws(1))
    rows = rows_of_one_draw(nodes, LONGEST_DELAY, lambda node: (THIRD.nodes - node).bit_length())
    return Case("parents, and bytes", padded(text), "trace", rows, ways=(STEP, BAG))


def at_the_ends(version: Version, *parts: str) -> str:
    """Members at the two ends of the longest chain, at the greatest distance. The first of two draws is dropped."""
    last = version.nodes - 1
    ends = array("member", 'node = 0, role = "sender", stream = 0', f'node = {last}, role = "receiver", stream = 1')
    drop = array("drop", f"link = {last - 1}, sender = 0, count = 0")
    return scenario(version, LAST_TICK, *parts, topology("chain", version.nodes, LONGEST_DELAY), ends, draws(2), drop)


def longest_way() -> Case:
    """The second draw tells of the loss after one distance; the timers of the request and of the repair take one each, and so
    does each packet: the repair is there after five. Before that the request is sent again, two distances after the first.
    """
    way = LONGEST_DELAY * (THIRD.nodes - 1)
    rows = [
        "0,0,join,-,in,0,-", "0,0,draw,0/0/0,sent,0,0:0", "0,1,join,-,in,0,-", "1,0,draw,0/0/1,sent,0,0:1",
        f"{way + 1},1,data,0:1,fresh,1,-", f"{2 * way + 1},1,ask,0/0/0,sent,0,1:0", f"{3 * way + 1},0,request,1:0,plan,0,-",
        f"{4 * way + 1},0,answer,0/0/0,sent,0,0:2", f"{4 * way + 1},1,ask,0/0/0,sent,0,1:1",
        f"{5 * way + 1},0,request,1:1,rest,0,-", f"{5 * way + 1},1,repair,0:2,fixed,0,-",
    ]
    return Case("distance", at_the_ends(THIRD), "trace", rows)


def far_apart(*parts: str) -> str:
    """A scenario of two nodes as far from each other as a link may be long, so that all that is sent early is in one window."""
    return scenario(THIRD, LAST_TICK, topology("chain", 2, LONGEST_DELAY), members(range(2)), *parts)


def draws_on_pages(count: int) -> str:
    """So many draws by member 0, one a tick, on page after page, each of which is filled."""
    starts = range(0, count, NUMBERS_OF_A_PAGE)
    return array("draw", *(
        f"member = 0, page = {page}, ink = 0, at = {start}, times = {min(NUMBERS_OF_A_PAGE, count - start)}"
        for page, start in enumerate(starts)
    ))


def draws_past_a_page() -> Case:
    """As many draws as there may be on one page, which has numbers for few of them."""
    count, room = THIRD.elements, NUMBERS_OF_A_PAGE
    rows = [f"{at},0,draw,0/0/{at},sent,0,0:{at}" if at < room else f"{at},0,draw,-,skip,0,-" for at in range(count)]
    arrivals = [f"{LONGEST_DELAY + at},1,data,0:{at},fresh,0,-" for at in range(room)]
    text = far_apart(array("draw", f"member = 0, page = 0, ink = 0, at = 0, times = {count}"))
    first, second = joins(2)
    return Case("numbers of a page", text, "trace", [first, rows[0], second, *rows[1:], *arrivals])


def cases_of_version_3() -> Iterator[Case]:
    """A case for each limit that is another in version 3. The largest networks are run in a few ways each, and so in all."""
    nodes, count = THIRD.nodes, THIRD.elements
    star = one_draw(THIRD, "star", range(1, nodes), LONGEST_DELAY, lambda node: 2)
    yield dataclasses.replace(star, ways=(STEP, PLAIN, PROMISE))
    yield dataclasses.replace(one_draw(THIRD, "tree", range(nodes), 1, depth), ways=(STEP, POOL))
    yield by_parents()
    yield longest_way()
    yield draws_past_a_page()
    yield Case("draws of version 3", far_apart(draws_on_pages(count)), "links", [f"0,{count},0,0,0,0"])
    reports = array("session", *(f"member = {it}, at = 0, times = {(count + it) // 2}" for it in range(2)))
    yield Case("session messages of version 3", far_apart(reports), "links", [f"0,0,0,0,{count},0"])
    drops = array("drop", f"link = 0, sender = 0, count = 0, times = {count}")
    yield Case("drops of version 3", far_apart(draws_on_pages(count), drops), "links", [f"0,0,0,0,0,{count}"])
    outages = array("outage", f"link = 0, from = 0, to = 1, times = {count}")
    yield Case("outages of version 3", far_apart(draws_on_pages(count), outages), "links", [f"0,0,0,0,0,{count}"])


def cases_of_version_4() -> Iterator[Case]:
    """As many losses as there may be, of one link: all but one take the first draw, of the greatest stream, one the others."""
    count = FOURTH.elements
    losses = array(
        "loss",
        f"link = 0, rate = 1000000, stream = {2**63 - 1}, to = 1, times = {count - 1}, every = 0",
        "link = 0, rate = 1000000, from = 1",
    )
    text = scenario(FOURTH, LAST_TICK, topology("chain", 2, LONGEST_DELAY), members(range(2)), draws_on_pages(count), losses)
    yield Case("losses", text, "links", [f"0,0,0,0,0,{count}"])


def widest_scope() -> Case:
    """The request goes just as far as the longest way, and in one step its repair has that scope and that way: twice as far."""
    hops = FIFTH.nodes - 1
    way = LONGEST_DELAY * hops
    rows = [
        f"{2 * way + 1},1,ask,0/0/0,1:0,{hops},-,-,1", f"{4 * way + 1},0,answer,0/0/0,0:2,{2 * hops},1,{hops},1",
        f"{4 * way + 1},1,ask,0/0/0,1:1,{hops},-,-,1",
    ]
    return Case("scope", at_the_ends(FIFTH, f"scope = {hops}\nsteps = 1\ntries = 10"), "scopes", rows)


def scope_a_link_short() -> Case:
    """The first request goes one link less than the longest way, and nobody hears it; the second one goes to all."""
    hops = FIFTH.nodes - 1
    way = LONGEST_DELAY * hops
    rows = [
        f"{2 * way + 1},1,ask,0/0/0,1:0,{hops - 1},-,-,0", f"{4 * way + 1},1,ask,0/0/0,1:1,-,-,-,1",
        f"{6 * way + 1},0,answer,0/0/0,0:2,-,-,-,1",
    ]
    return Case("scope that is a link short", at_the_ends(FIFTH, f"scope = {hops - 1}"), "scopes", rows)


def cases_of_version_5() -> Iterator[Case]:
    """A case for each limit that only version 5 has. One slot is the whole run, and losses of all packets take all."""
    yield widest_scope()
    yield scope_a_link_short()
    count = FIFTH.elements
    losses = array("loss", f"link = 0, rate = 1000000, burst = {LAST_TICK}, times = {count}, every = 0")
    text = scenario(FIFTH, LAST_TICK, topology("chain", 2, LONGEST_DELAY), members(range(2)), draws_on_pages(count), losses)
    yield Case("slot", text, "links", [f"0,0,0,0,0,{count}"])


def session_of_many() -> str:
    """A tree of 5,000 nodes with a member on each, of which few lose each of three packets, adapt their timers and ask."""
    adaptive = "c1 = 2000\nc1_least = 500\nc2 = 2000\nc2_most = 8000\nd1 = 1000\nd1_least = 500\nd2 = 1000\nd2_most = 8000"
    network = parents_with(MANY, lambda link: 5 + link % 7)
    return "\n".join((
        f"version = 5\nuntil = 4000\n{adaptive}\nbackoff = 3\nscope = 3\nwiden = 2\ntries = 4",
        f"{network}\n{members_in_a_row(range(MANY))}",
        array("draw", "member = 0, page = 0, ink = 0, at = 0, times = 4, every = 400"),
        array("drop", f"link = {MANY - 100}, sender = 0, count = 0, times = 3", "link = 7, sender = 0, count = 0, times = 9"), "",
    ))


# ---- runs ------------------------------------------------------------------------


def faults(program: Program, case: Case) -> Iterator[str]:
    """A line for each way to run a case that does not write what it has to."""
    for way in case.ways:
        end = program.run([*way, "--show", case.show], case.text.encode())
        if end != (0, case.table(), b""):
            told = end.told.decode().strip() or "another table"
            yield f"{case.name}, {' '.join(way)}: status {end.status}, {told}"


def faults_of_many(program: Program) -> Iterator[str]:
    """A line for each way to run the session of many members that does not write what the sequential engine writes."""
    text = session_of_many().encode()
    must = {show: program.written(["--show", show], text) for show in dict(WAYS_OF_MANY)}
    if must["losses"].count(b"\n") < 4 or must["timers"].count(b"\n") <= MANY + 1:
        yield f"{MANY} members: too little is lost or adapted"
    for show, way in WAYS_OF_MANY:
        if program.run([*way, "--show", show], text) != (0, must[show], b""):
            yield f"{MANY} members, {' '.join(way)} --show {show}: not what the sequential engine writes"


def main() -> None:
    program = Program(BUILT)
    tried = [*cases_of_version_2(), *cases_of_version_3(), *cases_of_version_4(), *cases_of_version_5()]
    wrong = [fault for case in tried for fault in faults(program, case)]
    wrong += faults_of_many(program)
    for fault in wrong:
        print(f"limits: {fault}", file=sys.stderr)
    runs = sum(len(case.ways) for case in tried)
    print(f"{runs} runs at the limits of the format and {len(WAYS_OF_MANY)} of {MANY} members, {len(wrong)} that differ")
    sys.exit(1 if wrong else 0)


if __name__ == "__main__":
    main()
