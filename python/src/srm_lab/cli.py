"""The command line: writes one scenario to standard output."""
import argparse
import random
import shlex
import sys
from collections.abc import Callable, Iterator, Sequence
from contextlib import contextmanager
from dataclasses import replace
from functools import cache
from operator import attrgetter

from . import __version__, graphs, losses, tree
from .errors import ScenarioError
from .graphs import Delays
from .limits import MOST_NUMBERS, MOST_TIME, NEWEST, within
from .parsing import Parser
from .parts import CONSTANTS, Member, Session
from .scenario import DELAY, DRAWS, EVERY, Members, Scenario, Ticks, from_router_map, place_members, seed_of
from .timing import BACKOFF, Timing
from .tree import Tree

ABOUT = """Writes a scenario file of srm_lab to standard output.

Member 0 is the source: it draws, and its packets are lost. The other members are receivers. Times and delays are in
ticks, constants are plain numbers (2 is written as 2000 thousandths). All random choices are those of --seed.

`srm-scenarios page SCENARIO [TRACE]` writes a page that plays a run instead; see its --help.
"""
FIXED = {"c1": "2", "c2": "2", "d1": "1", "d2": "1"}  # constants that are not given


def network(options: argparse.Namespace, rng: random.Random) -> Tree:
    """The network of the command line."""
    delay = DELAY if options.delay is None else options.delay
    kinds: dict[str, Callable[[], Tree]] = {
        "chain": lambda: tree.chain(options.size, delay),
        "star": lambda: tree.star(options.size, delay),
        "tree": lambda: tree.bounded_degree(options.size, options.degree, delay),
        "random": lambda: tree.random_labelled(options.size, delay, rng),
        "file": lambda: graph_of(options),
    }
    return kinds[options.kind]()


def with_delays(made: Tree, options: argparse.Namespace, rng: random.Random) -> Tree:
    """The network with the random delays, and those of the other direction, that the command line asks for."""
    delay = DELAY if options.delay is None else options.delay
    if options.delay_to is not None:
        if made.hub is not None:
            raise ScenarioError("the format has one delay for all links of a star: leave out --delay-to")
        made = made.with_delays(delay, options.delay_to, rng)
    if options.back_to is not None:
        least = within("--back", options.back, 1, options.back_to)
        made = made.with_back(lambda: rng.randint(least, options.back_to))
    elif options.back is not None:
        made = made.with_back(options.back)
    return made


def graph_of(options: argparse.Namespace) -> Tree:
    """The network in the file of the command line."""
    delays = Delays(options.delay_attribute, options.delay, options.factor, options.back_attribute)
    root = None if options.source in ("first", "random") else options.source
    with as_options():
        return graphs.from_file(options.path, delays, options.spanning_tree, root)


@contextmanager
def as_options() -> Iterator[None]:
    """What is refused inside is told in the words of the command line."""
    try:
        yield
    except ScenarioError as fault:
        raise ScenarioError(str(fault).replace("no default delay is given", "--delay gives none")
                            .replace("spanning_tree=\"shortest\" or \"minimum\"", "--spanning-tree shortest or minimum")
                            .replace("give a factor", "give a --factor")
                            .replace("lose_operations", "--lose-operations")
                            .replace("any_packet=True", "--any-packet")) from None


def members_of(options: argparse.Namespace, made: Tree, rng: random.Random) -> list[int]:
    """The members' nodes, the source's first and the others in rising order."""
    members: Members = options.members
    if options.members.isdigit():
        members = within("--members", int(options.members), 1, max(1, len(made.hosts())))
    elif members != "all":
        members = [host_of(made, name, f"--members {members}: say a number or all, or name nodes, parted by commas; "
                           f"{name} is") for name in options.members.split(",")]
    source = options.source
    if source not in ("first", "random"):
        source = host_of(made, source, f"--source {source}:")
    return place_members(made, members, source, rng)


def host_of(made: Tree, name: str, told: str) -> int | str:
    """A node's name, or its number where the network has no names; `told` begins what is told of a node that is none."""
    node: int | str = int(name) if name.isdigit() and not made.names else name
    try:
        is_host = made.number(node) != made.hub
    except ScenarioError:
        is_host = False
    if not is_host:
        raise ScenarioError(f"{told} no node that may host a member")
    return node


def ticks(text: str) -> Ticks:
    """A tick, or a range of them as FIRST-LAST."""
    first, dash, last = text.partition("-")
    if not first.isdigit() or dash and not last.isdigit():
        raise ScenarioError(f"{text!r} is no tick and no range of ticks, FIRST-LAST")
    return (int(first), int(last)) if dash else int(first)


def counted(option: str, text: str) -> tuple[int, Ticks]:
    """How many members, and when: N:TICK or N:FIRST-LAST."""
    count, colon, when = text.partition(":")
    if not colon or not count.isdigit():
        raise ScenarioError(f"{option} {text}: say N:TICK or N:FIRST-LAST")
    return int(count), ticks(when)


def outage(text: str) -> tuple[int, int, int]:
    """A link, and the first and the last tick of an outage: LINK:FIRST-LAST."""
    link, colon, when = text.partition(":")
    range_ = ticks(when) if colon else 0
    if not link.isdigit() or not isinstance(range_, tuple):
        raise ScenarioError(f"--outage {text}: say LINK:FIRST-LAST")
    return int(link), *range_


def mapped(options: argparse.Namespace) -> tuple[Tree, list[int]]:
    """The tree that a session on the map in a file uses, and its members' nodes, the source's first."""
    delays = Delays(options.delay_attribute, options.delay, options.factor, options.back_attribute)
    members = options.members
    if members != "all":
        members = int(members) if members.isdigit() else members.split(",")
    with as_options():
        made = from_router_map(options.path, delays, members, options.source, options.seed)
    return made.tree, [member.node for member in made.members]


def build(options: argparse.Namespace) -> Scenario:
    """The scenario of a parsed command line."""
    rng = random.Random(seed_of(options.seed))
    if options.kind == "map":
        made, nodes = mapped(options)
        made = with_delays(made, options, rng)
    else:
        made = with_delays(network(options, rng), options, rng)
        nodes = members_of(options, made, rng)
    members = tuple(Member(node, "receiver" if place else "sender", place + 1) for place, node in enumerate(nodes))
    scenario = replace(Scenario(made, members, options.until, seed=options.seed), **constants(options, len(nodes)))
    lossy = in_rounds if options.rounds is not None else with_drops
    with as_options():
        found = disturbed(local(lossy(scenario, options, rng), options), options).check()
        if found.drops and not options.any_packet:
            losses.check_that_data_is_lost(found.settled, [drop.count for drop in found.drops])
    return found


def constants(options: argparse.Namespace, members: int) -> dict[str, int]:
    """The timer constants in thousandths, with `--adaptive` their limits and the factor of backoff besides."""
    given = {name: text for name in CONSTANTS if (text := getattr(options, name)) is not None}
    keys = Timing(given, is_adaptive=True) if options.adaptive else Timing(FIXED | given)
    return keys.keys(members) | ({} if options.backoff is None else {BACKOFF: options.backoff})


def with_draws(scenario: Scenario, options: argparse.Namespace) -> Scenario:
    """The scenario with the source's draws, and its session message after them."""
    count = within("--draws", DRAWS if options.draws is None else options.draws, 0, MOST_NUMBERS)
    every = within("--every", EVERY if options.every is None else options.every, 1, MOST_TIME)
    made = scenario.drawing(count, every, within("the tick of a draw", options.start, 0, MOST_TIME))
    if options.no_session or options.session_after is None or not count:
        return replace(made, sessions=() if options.no_session else made.sessions)
    return replace(made, sessions=(Session(0, made.draws[-1].at + options.session_after),))


def in_rounds(scenario: Scenario, options: argparse.Namespace, rng: random.Random) -> Scenario:
    """The scenario with the rounds of loss that the command line asks for."""
    if options.drop_link is None:
        raise ScenarioError("--rounds needs --drop-link")
    given = [name for name in ("draws", "drop_every", "drop_packet", "lose_operations") if getattr(options, name)]
    if given or options.start:
        name = "--" + (given or ["start"])[0].replace("_", "-")
        raise ScenarioError(f"--rounds says which packets are drawn and lost: leave out {name}")
    link = losses.link_of(options.drop_link, scenario, rng)
    return scenario.rounds(within("--rounds", options.rounds, 1, MOST_NUMBERS // 2), link, options.every)


def with_drops(scenario: Scenario, options: argparse.Namespace, rng: random.Random) -> Scenario:
    """The scenario with the source's draws, and the packets or operations of it that one link loses."""
    scenario = with_draws(scenario, options)
    given = [name for name in ("drop_every", "drop_packet", "lose_operations") if getattr(options, name) is not None]
    if options.drop_link is None:
        if given:
            raise ScenarioError("--drop-every, --drop-packet and --lose-operations need --drop-link")
        return scenario
    link = losses.link_of(options.drop_link, scenario, rng)
    if given[1:]:
        raise ScenarioError(f"{' and '.join('--' + name.replace('_', '-') for name in given[:2])} exclude each other")
    if options.drop_every is not None:
        return scenario.lose(every=within("--drop-every", options.drop_every, 1, MOST_NUMBERS), link=link,
                             any_packet=options.any_packet)
    if options.lose_operations is not None:
        return scenario.lose_operations(within("--lose-operations", options.lose_operations, 1, MOST_NUMBERS), link)
    return scenario.drop(link, [within("the number of a lost packet", count, 0, NEWEST.count)
                                for count in options.drop_packet or [0]])


def local(scenario: Scenario, options: argparse.Namespace) -> Scenario:
    """The scenario with local recovery as the command line has it."""
    scope = options.scope
    if scope == "least":
        lossy = {*map(attrgetter("link"), (*scenario.settled.drops, *scenario.settled.outages))}
        if len(lossy) != 1:
            raise ScenarioError("--scope least goes by the link that loses: say --drop-link")
        scope = scenario.least_scopes(lossy.pop())
    elif scope is not None:
        if not scope.isdigit():
            raise ScenarioError(f"--scope {scope}: say how many links, or least")
        scope = int(scope)
    return scenario.local_recovery(scope, options.widen, options.tries, options.steps)


def disturbed(scenario: Scenario, options: argparse.Namespace) -> Scenario:
    """The scenario with its members that join late and leave, its outages, and its losses at random."""
    for text in options.join:
        scenario = scenario.join(*counted("--join", text))
    for text in options.leave:
        scenario = scenario.leave(*counted("--leave", text))
    for text in options.outage:
        scenario = scenario.outage(*outage(text))
    if options.loss is None:
        if options.burst is not None or options.spare_draws:
            raise ScenarioError("--burst and --spare-draws need --loss")
        return scenario
    return scenario.lose(rate=options.loss, burst=options.burst, spares_draws=options.spare_draws)


def common_options() -> Parser:
    """The options of every kind of network."""
    common = Parser(add_help=False)
    add = common.add_argument
    add("--delay", type=int, help=f"delay of each link (default {DELAY}; of a file: of edges that have none)")
    add("--delay-to", type=int, metavar="MOST", help="random delays from --delay to this")
    add("--back", type=int, metavar="DELAY", help="delay of each link in the other direction (default the same)")
    add("--back-to", type=int, metavar="MOST", help="random delays in the other direction, from --back to this")
    add("--members", default="all", metavar="N", help="how many members, the source among them, or all (default), or "
        "their nodes by numbers or names, parted by commas")
    add("--source", default="first", metavar="NODE", help="the source's node: number, name, first (default) or random")
    add("--seed", type=int, default=0, help="seed of all random choices (default 0)")
    for name, default in FIXED.items():
        add(f"--{name}", metavar="X", help=f"number, log10 or sqrt of the members (default {default})")
    add("--adaptive", action="store_true", help="members adapt their timers, with the limits and the backoff of Floyd "
        "et al. (1997) for so many members; C1 and C2 begin with 2, D1 and D2 with log10 of the members, where no "
        "constant is given")
    add("--backoff", type=int, choices=(2, 3), help="how many times as long a backoff makes a request timer (default 2, of "
        "adaptive timers 3)")
    add("--draws", type=int, help=f"how many draws (default {DRAWS})")
    add("--every", type=int, help=f"ticks from a draw to the next (default {EVERY}, in rounds as many as 64 rounds of "
        "requests and repairs take)")
    add("--start", type=int, default=0, help="tick of the first draw (default 0)")
    add("--drop-link", metavar="LINK", help="a number, adjacent (to the source), random, hops:H, or losers:FEW-MANY, of which "
        "the number is drawn first (losers: 3 to a tenth of the members)")
    add("--drop-packet", type=int, action="append", metavar="COUNT", help="lose this packet; repeatable (default 0)")
    add("--drop-every", type=int, metavar="K", help="lose packets 0, K, 2 K and so on")
    add("--lose-operations", type=int, metavar="K", help="lose operations 0, K, 2 K and so on, whatever else the source "
        "sends, by an outage of one tick for each")
    add("--rounds", type=int, metavar="N", help="N losses on --drop-link that lie apart: the source draws twice in each "
        "round, and an outage of one tick loses the first of the two")
    add("--any-packet", action="store_true", help="the lost packets may be repairs of the source")
    add("--loss", type=float, metavar="RATE", help="each link loses each packet that comes to it with this probability")
    add("--burst", type=int, metavar="TICKS", help="with --loss: in each slot of so many ticks a link loses all or nothing")
    add("--spare-draws", action="store_true", help="with --loss: a link begins once the last draw has come to it, so that only "
        "requests, repairs and session messages are lost")
    add("--scope", metavar="HOPS", help="how many links the first request of a member goes (default 0: to all), or least: of "
        "those behind --drop-link as far as they all are, and one that answers")
    add("--widen", type=int, metavar="HOPS", help="how many links more for each backoff (default 0)")
    add("--tries", type=int, metavar="N", help="a request with so many backoffs goes to all (default 1)")
    add("--steps", type=int, choices=(1, 2), help="in how many steps a repair answers a request with a scope (default 2)")
    add("--outage", action="append", default=[], metavar="LINK:FIRST-LAST", help="a link is out; repeatable")
    add("--join", action="append", default=[], metavar="N:FIRST-LAST", help="N receivers join in these ticks; "
        "repeatable")
    add("--leave", action="append", default=[], metavar="N:FIRST-LAST", help="N receivers leave in these ticks; "
        "repeatable")
    add("--session-after", type=int, metavar="TICKS", help="session message after the last draw (default --every)")
    add("--no-session", action="store_true", help="no session message")
    add("--until", type=int, help="end of the run (default: time for 64 rounds of requests and repairs)")
    return common


@cache
def parser() -> Parser:
    """The command line's parser."""
    common = common_options()
    whole = Parser(prog="srm-scenarios", description=ABOUT, formatter_class=argparse.RawDescriptionHelpFormatter)
    whole.add_argument("-V", "--version", action="version", version=f"srm-scenarios {__version__}")
    kinds = whole.add_subparsers(dest="kind", required=True, metavar="KIND")
    for kind, told in (
        ("chain", "nodes in a row"),
        ("star", "a hub, node 0, without a member, and a node at each of its links"),
        ("tree", "a tree of bounded degree"),
        ("random", "a random labelled tree"),
    ):
        one = kinds.add_parser(kind, help=told, description=told, parents=[common])
        one.add_argument("--size", type=int, required=True, help="how many nodes, a star's hub among them")
        if kind == "tree":
            one.add_argument("--degree", type=int, default=4, help="degree of inner nodes (default 4)")
    files = "GraphML (.graphml), GML (.gml) or a list of edges (.edges, .edgelist, .txt)"
    for kind, told in (
        ("file", f"a graph in {files}"),
        ("map", f"the tree that a session on a map of routers uses; the map is in {files}"),
    ):
        one = kinds.add_parser(kind, help=told, description=told, parents=[common])
        one.add_argument("path")
        one.add_argument("--delay-attribute", default="delay", metavar="NAME", help="an edge's delay (default delay)")
        one.add_argument("--back-attribute", metavar="NAME", help="an edge's delay in the other direction")
        one.add_argument("--factor", type=float, default=1, metavar="X", help="ticks for each unit of these delays")
        if kind == "file":
            one.add_argument("--spanning-tree", choices=graphs.SPANNING,
                             help="the tree that is taken of a graph that is none")
    return whole


def options_of(kind: str) -> set[str]:
    """The keys that are options of the generator of a kind of network."""
    kinds = next(action for action in parser()._actions if isinstance(action, argparse._SubParsersAction))
    if kind not in kinds.choices:
        raise ScenarioError(f"there is no kind {kind!r}: there are {', '.join(kinds.choices)}")
    return {action.dest for action in kinds.choices[kind]._actions} - {"help", "seed", "path"}


def scenario_of(words: Sequence[str]) -> Scenario:
    """The scenario of the words of a command line, which its file names."""
    scenario = build(parser().parse_args(words))
    command = shlex.join(words).encode("unicode_escape").decode()  # one line, whatever the words have
    return replace(scenario, comments=(f"made by: srm-scenarios {command}",))


def main(words: Sequence[str] | None = None) -> int:
    """Writes the scenario of the words, or says on standard error why there is none and ends with status 1."""
    words = sys.argv[1:] if words is None else words
    if words[:1] == ["page"]:
        from .page import command as page_command  # which loads what reads traces

        return page_command.main(words[1:])
    try:
        sys.stdout.write(scenario_of(words).text())
    except ScenarioError as fault:
        sys.stderr.write(f"srm-scenarios: {fault}\n")
        return 1
    return 0
