"""Makes cases at random: scenarios of the format's own grammar, spoiled ones, and texts with single bytes or numbers changed."""
import collections
import copy
import re
import tomllib
from collections.abc import Callable
from random import Random
from typing import Any, NamedTuple

from fuzz_format import (
    CONSTANTS, GREATEST_CONSTANT, LATEST, LENGTHS, LONGEST_TEXT, NUMBERS, PAGES, PARTS, RECOVERY, REPEATS, ROLES, SCOPE,
    STEPPED, TOPOLOGIES, VERSIONS, WHOLE_RATE, Scenario, Table, act_fits, copies, links_of, nodes_of, refusal_of, repeated,
    version_of,
)

MOST_ROWS = 20000
# nodes of a larger network, which has room for more
MOST_NODES = 3000
# members where there are more nodes than this
MANY_NODES = 300
FEW = 60
LONGEST_RUN = 40
INKS = (0, 7, 255, 2**31, 2**32 - 1)
UNKNOWN = "unknown"
EDGES = (
    0, 1, 2, 3, 255, 256, 257, 1023, 1024, 1025, 4095, 4096, 64000, 65534, 65535, 65536, GREATEST_CONSTANT, 2**32 - 1, 2**32,
    WHOLE_RATE, WHOLE_RATE + 1, LATEST, LATEST + 1, 2**63 - 1, 2**63,
)
COMMAND_LINES: tuple[list[Any], ...] = (
    ["--show", "colors"], ["--show"], ["--show", "Trace"], ["--show", ""], ["--seed"], ["--seed", "-1"], ["--seed", "1.0"],
    ["--seed", "9223372036854775808"], ["--seed", "18446744073709551616"], ["--seed", ""], ["--seed=x"], ["--seed", "0x1"],
    ["--seed", "1", "--seed", "1"], ["--show", "links", "--show", "links"], ["--seed", "1", "--show", "row"], ["--color"],
    ["--workers", "0"], ["--workers", "65"], ["--workers", "x"], ["--crew", "six"], ["--engine", "fast"], ["--engine", ""],
    ["--cut", "+1"], ["--cut", "4294967296"], ["--cut", "-1"], ["--cut", ""], ["--cut", "1", "--cut", "1"],
    ["--width", "18446744073709551616"], ["--width", "most"], ["--width", "1.0"],
    ["trace"], ["-s", "1"], ["--show", "trace", "more"], ["-"], [b"\xff"], ["--seed", b"\xff"], ["--show", b"trace\xff"],
)


class Case(NamedTuple):
    """One case: the scenario's text, the seed, and what must come of it.

    `must` is the plain data of a scenario that is accepted, the words of the line that refuses it, or UNKNOWN. Where there are
    `words`, the program is given these, and must refuse them.
    """

    kind: str
    text: bytes
    seed: int
    must: Table | str
    words: list[Any] | None


# ---- scenarios -----------------------------------------------------------------


def small(rng: Random, *limits: int) -> int:
    """A number between two limits that stand side by side, the first ones far more often; now and then the last limit itself."""
    at = min(int(rng.expovariate(1.2)), len(limits) - 1)
    return rng.randint(limits[at], limits[min(at + 1, len(limits) - 1)])


def network(rng: Random, version: int) -> Table:
    """The keys of a network."""
    most = min(NUMBERS[version]["top"]["nodes"][1], MOST_NODES)
    nodes = small(rng, *sorted({2, 8, 24, 64, 256, most})) if rng.random() < 0.95 else 1
    if version >= 3 and rng.random() < 0.05:
        nodes = rng.randint(MANY_NODES, MOST_NODES)
    shape = rng.choice([*TOPOLOGIES, "links", "links", *(["parents"] * 5 if version >= 3 else [])])
    delay = rng.choice([1, 1, rng.randint(2, 9), rng.randint(10, 1000), 1000000])
    if shape == "links":
        return explicit(rng, nodes, delay)
    if shape == "parents":
        return parents(rng, nodes, delay)
    degree = {"degree": rng.choice([2, 3, 4, rng.randint(2, most - 1)])} if shape == "tree" else {}
    return {"topology": shape, "size": nodes, "delay": delay, **degree}


def explicit(rng: Random, nodes: int, delay: int) -> Table:
    """A tree of links, its nodes numbered and its links placed at random."""
    numbers = list(range(nodes))
    rng.shuffle(numbers)
    links = []
    for node in range(1, nodes):
        ends = [numbers[node], numbers[rng.randrange(max(0, node - rng.choice([1, 3, nodes])), node)]]
        rng.shuffle(ends)
        links.append({"a": ends[0], "b": ends[1], "delay": rng.choice([delay, rng.randint(1, delay)])})
    rng.shuffle(links)
    return {"nodes": nodes, **({"link": links} if links or rng.random() < 0.5 else {})}


def parents(rng: Random, nodes: int, delay: int) -> Table:
    """A tree by the parents of its nodes, which have lower numbers than their children or not."""
    numbers = list(range(1, nodes))
    if rng.random() < 0.7:
        rng.shuffle(numbers)
    numbers.insert(0, 0)
    above = dict.fromkeys(numbers, 0)
    for place in range(1, nodes):
        above[numbers[place]] = numbers[rng.randrange(max(0, place - rng.choice([1, 3, nodes])), place)]
    top: Table = {"topology": "parents", "parent": [above[node] for node in range(1, nodes)], "delay": delay}
    if rng.random() < 0.5:
        del top["delay"]
        top["delays"] = [rng.randint(1, delay) for _ in range(1, nodes)]
    back = rng.choice(["none", "back", "backs"])
    if back != "none":
        delays = [small(rng, 1, 9, 1000) for _ in range(nodes)]
        top[back] = delays[0] if back == "back" else delays[1:]
    return top


def second_delays(rng: Random, top: Table) -> None:
    """Some links take longer in one direction than in the other."""
    for table in [top] if "topology" in top else top.get("link", []):
        if rng.random() < 0.8:
            table["back"] = rng.choice([table["delay"], small(rng, 1, 9, 1000, 1000000), rng.randint(1, table["delay"])])


def adaptive(rng: Random, top: Table) -> None:
    """Some constants get room, or limits that leave none; request timers back off by 2 or by 3."""
    for name in CONSTANTS if rng.random() < 0.8 else ():
        value = top[name]
        least, most = f"{name}_least", f"{name}_most"
        if rng.random() < 0.8:
            top[least] = rng.choice([0, 0, value // 2, rng.randint(0, value), value])
        if rng.random() < 0.8:
            any_of_them = rng.randint(value, GREATEST_CONSTANT)
            top[most] = rng.choice([value, value + 70, 2 * value, 10 * value + 1000, GREATEST_CONSTANT, any_of_them])
            top[most] = min(top[most], GREATEST_CONSTANT)
    if rng.random() < 0.8:
        top["backoff"] = rng.choice([2, 3, 3])


def local_recovery(rng: Random, top: Table) -> None:
    """Requests go a few hops first, and farther as they back off, up to all; some members have scopes of their own."""

    def scope() -> int:
        return rng.choice([0, 1, 1, 2, 2, 3, rng.randint(1, 9), SCOPE[1]])

    given = {"scope": scope(), "widen": rng.choice([0, 0, 1, 1, 2, SCOPE[1]]), "tries": rng.choice([1, 2, 3, 3, 10]),
             "steps": rng.choice([1, 2, 2])}
    top.update({key: value for key, value in given.items() if rng.random() < 0.85})
    share = rng.choice([0, 0, 0.2, 1])
    for member in top["member"]:
        if member["role"] != "listener" and rng.random() < share:
            member["scope"] = scope()


def members(rng: Random, top: Table) -> list[Table]:
    """Members on some of the nodes, when all run from the beginning to the end."""
    first = 1 if top.get("topology") == "star" else 0
    hosts = list(range(first, nodes_of(top)))
    rng.shuffle(hosts)
    hosts = hosts[:rng.choice([len(hosts), rng.randint(0, len(hosts)), 12]) if len(hosts) <= MANY_NODES else rng.randint(1, FEW)]
    found: list[Table] = []
    for node in hosts:
        role = rng.choice(["sender", "receiver", "receiver", "receiver", "late", "listener"]) if found else "sender"
        member = {"node": node, "role": role, "stream": rng.choice([len(found), rng.randrange(2**63), 2**63 - 1, 0])}
        if role == "late" and rng.random() < 0.8:
            member["pages"] = [rng.choice([0, 0, 1, 2, 65535]) for _ in range(small(rng, 0, 3, PAGES))]
        found.append(member)
    rng.shuffle(found)
    return found


def in_runs(rng: Random, part: str, elements: list[Table], fits: Callable[[Table], bool], most: int) -> list[Table]:
    """These elements, up to a number, some of them with copies behind them, as far as these fit."""
    found: list[Table] = []
    for element in elements:
        found.append(element)
        repeats = {"times": rng.choice([2, 2, 3, 5, 20]), "every": rng.choice([0, 1, 1, 2, 10, 40, rng.randint(1, 5000)])}
        for copy_of in copies(part, {**element, **repeats})[1:] if rng.random() < 0.25 else []:
            if not fits(copy_of):
                break
            found.append(copy_of)
    return found[:most]


def members_in_runs(rng: Random, top: Table) -> list[Table]:
    """The members of a scenario, some with others like them on the nodes beside theirs that are free."""
    taken = {member["node"] for member in top["member"]}

    def fits(member: Table) -> bool:
        is_free = member["node"] < nodes_of(top) and member["node"] not in taken and member["stream"] < 2**63
        taken.add(member["node"])
        return is_free

    return in_runs(rng, "member", top["member"], fits, nodes_of(top))


def folded(rng: Random, part: str, elements: list[Table]) -> list[Table]:
    """The same elements, some of which stand for those behind them."""
    found, place = [], 0
    while place < len(elements):
        element, key = elements[place], STEPPED[part][0]
        every = elements[place + 1][key] - element[key] if place + 1 < len(elements) else 1
        longest = min(len(elements) - place, LONGEST_RUN)
        run = copies(part, {**element, "times": longest, "every": every}) if every >= 0 else [element]
        like = next((number for number, it in enumerate(run) if it != elements[place + number]), len(run))
        times = rng.choice([1, like, like, rng.randint(1, like)])
        repeats = {"times": times, "every": every} if times > 1 else {"times": 1, "every": rng.choice([0, 1, LATEST])}
        if times == 1 and rng.random() < 0.9:
            del repeats["times"]
        if times == 1 and rng.random() < 0.9 or repeats["every"] == 1 and rng.random() < 0.5:
            del repeats["every"]
        found.append({**element, **repeats})
        place += times
    return found


def scenario(rng: Random, versions: tuple[int, ...] = VERSIONS) -> Table:
    """The plain data of a scenario of one of these versions that is accepted."""
    usual = rng.choice([[0], [1000], [0, 500, 1000, 2000, 3000], [0, 500, 1000, 2000, 3000], [0, 64000, rng.randrange(64001)]])
    # later versions have all of the earlier ones, and are tried more often
    version = versions[::-1][int(rng.random()**2 * len(versions))]
    if version >= 3:
        usual = rng.choice([[0], [1000], *[[500, 1000, 2000, 3000]] * 5, [0, 64000, rng.randrange(64001), GREATEST_CONSTANT]])
    constants = {it: rng.choice(usual) for it in CONSTANTS}
    top: Table = {"version": version, "until": 1, **constants}
    if version >= 3:
        adaptive(rng, top)
    top.update(network(rng, version))
    if version >= 2 and top.get("topology") != "parents" and rng.random() < 0.8:
        second_delays(rng, top)
    top["member"] = members(rng, top)
    if version >= 5 and rng.random() < 0.9:
        local_recovery(rng, top)
    if version >= 3:
        top["member"] = members_in_runs(rng, top)
    act(rng, top)
    for part in (part for part in STEPPED if version >= 3 and part in top):
        top[part] = folded(rng, part, top[part])
    for part in PARTS:
        if part in top and not top[part] and rng.random() < 0.5:
            del top[part]
    return top


def act(rng: Random, top: Table) -> None:
    """What the members of a network do, and when, and what becomes of their packets."""
    version, network_of = top["version"], Scenario(top)
    far = max((network_of.distance(0, it) for it in range(len(top["member"]))), default=0)
    most = MOST_ROWS // max(1, len(top["member"]))
    if version >= 3 and has_slow_requests(top) and rng.random() < 0.5:
        rounds(rng, top, network_of, far)
        return
    # timers that adapt do so from the second loss on
    draws = (5, 20, 40, FEW, 600, 4096) if version >= 3 else (1, 6, 20, FEW, 600, 4096)
    drawn, told = (min(most, small(rng, *limits)) for limits in (draws, (0, 3, 8, 40, 4096)))
    dropped = small(rng, *((4, 12, 30, 80, 4096) if version >= 3 else (1, 6, 20, 80, 4096))) if rng.random() < 0.85 else 0
    hour = 1 + far * rng.choice([0, 1, 3, 10, 40]) + rng.choice([0, 5, 50])
    wish = min(LATEST, hour + rng.choice([0, far, 5 * far, 20 * far, 20 * far, 100 * far, LATEST - hour]))
    is_lossy = version >= 4 and rng.random() < 0.8
    top["until"] = bounded_until(top, drawn if drawn <= FEW or is_lossy else min(drawn, dropped), wish)
    for member in top["member"] if drawn <= FEW else []:
        stay(rng, member, min(hour, top["until"]), top["until"])
    top["draw"] = [
        {"member": it, "page": rng.choice([0, 0, 0, 1, 2, 65535]), "ink": rng.choice(INKS), "at": at}
        for it, at in acts(rng, top, ROLES[:1], hour, drawn, {})
    ]
    heard = arrivals(rng, top, network_of)
    if drawn <= FEW:
        meet_packets(rng, top, heard)
    top["session"] = [{"member": it, "at": at} for it, at in acts(rng, top, ROLES[:3], hour, told, heard)]
    if version >= 3:
        lengths = LENGTHS[version]
        top["draw"] = in_runs(rng, "draw", top["draw"], lambda it: act_fits(top, it, ROLES[:1]), min(most, lengths["draw"]))
        sessions = min(most, lengths["session"])
        top["session"] = in_runs(rng, "session", top["session"], lambda it: act_fits(top, it, ROLES[:3]), sessions)
    top["drop"] = drops(rng, top, network_of, dropped)
    if version >= 2:
        top["outage"] = outages(rng, top, network_of, small(rng, 1, 3, 9, 60) if drawn <= FEW and rng.random() < 0.7 else 0)
    if version >= 3:
        top["drop"] = in_runs(rng, "drop", top["drop"], lambda it: it["count"] < 2**32, 4096)
        top["outage"] = in_runs(rng, "outage", top["outage"], lambda it: it["to"] <= LATEST, FEW)
    if version >= 4:
        found = losses(rng, top, network_of, small(rng, 1, 3, 9, 60)) if is_lossy else []
        top["loss"] = in_runs(rng, "loss", found, lambda it: it["link"] < len(network_of.links), FEW)


def has_slow_requests(top: Table) -> bool:
    """Whether a member waits for some time before it asks, whatever its constants become, and there are members that may ask."""
    start, width = (top.get(f"{name}_least", top[name]) for name in ("c1", "c2"))
    return 1 < len(top["member"]) < MANY_NODES and start + width / 2 >= 200


def rounds(rng: Random, top: Table, network_of: Scenario, far: int) -> None:
    """Rounds that lie apart: a sender draws twice, and a link on the way to some member is out as the first packet gets there."""
    members = top["member"]
    number = max(1, min(30, MOST_ROWS // len(members)**2))
    sender = rng.choice([number for number, it in enumerate(members) if it["role"] == "sender"])
    losers = [number for number, it in enumerate(members) if it["role"] in ROLES[:2] and number != sender]
    hearer = rng.choice(losers or range(len(members)))
    apart, gap = 2 + rng.choice([3, 10, 40]) * far + rng.randint(0, 50), rng.choice([1, 1, 2, rng.randint(1, 1 + far)])
    path, times = network_of.path(sender, hearer), network_of.times(sender, hearer, 0)
    place = rng.randrange(len(path)) if path else 0
    top["until"] = min(LATEST, number * apart + gap + far * rng.choice([1, 10]))
    starts = [it * apart for it in range(number)]
    ats = [at + more for more in rng.choice([(0, gap), (gap, 0), (0, gap, 2 * gap)]) for at in starts]
    top["draw"] = [{"member": sender, "page": 0, "ink": rng.choice(INKS[:2]), "at": at} for at in ats if at < top["until"]]
    out = [{"link": path[place], "from": at + times[place], "to": at + times[place] + 1} for at in starts if path]
    top.update(session=[], drop=[], outage=[it for it in out if it["to"] <= LATEST])
    if top["version"] >= 4:
        top["loss"] = losses(rng, top, network_of, rng.choice([0, 1, 3])) if number > 3 else []


def bounded_until(top: Table, losses: int, until: int) -> int:
    """An end at or below a wish at which a run has not too many rows, whatever becomes of its losses."""
    while until > 1 and rows_at_most(top, losses, until) > MOST_ROWS:
        until //= 2
    return until


def rows_at_most(top: Table, losses: int, until: int) -> float:
    """About how many rows losses make that nobody mends: each loser asks and backs off, and each request is heard by all."""
    hearers, delay = len(top.get("member", [])), min((min(delay, back) for _, _, delay, back in links_of(top)), default=1)
    # a member lowers a constant by at most 100 for each of its losses
    start, width = (max(top.get(f"{name}_least", top[name]), top[name] - 100 * losses) for name in ("c1", "c2"))
    factor = top.get("backoff", 2)
    least, asks, time = (start + width / 2) * delay / 1000, 0.0, 0.0
    while time < until and asks < MOST_ROWS:
        if asks > 10:
            asks += (until - time) / max(1, least * (1024 if factor == 2 else 729))
            break
        time += max(1, least * factor**(asks if factor == 2 else min(6, asks)))
        asks += 1
    return losses * hearers * (1 + 0.1 * hearers) * asks


def stay(rng: Random, member: Table, hour: int, until: int) -> None:
    """Some members join late, and some leave."""
    if rng.random() < 0.1 or (member["role"] == "late" and rng.random() < 0.7):
        member["join"] = rng.choice([0, rng.randrange(hour), rng.randrange(hour), rng.randrange(until), until - 1])
    if rng.random() < 0.15:
        join = member.get("join", 0)
        times = [join + 1, join + rng.randint(1, hour), join + rng.randint(1, until), until, LATEST]
        member["leave"] = min(LATEST, rng.choice(times))


def arrivals(rng: Random, top: Table, network_of: Scenario) -> dict[int, list[int]]:
    """For each member some of the times at which what is drawn arrives at it."""
    heard: dict[int, list[int]] = collections.defaultdict(list)
    for draw in top["draw"][:100]:
        member = rng.randrange(len(top["member"]))
        heard[member].append(draw["at"] + network_of.distance(draw["member"], member))
    return heard


def meet_packets(rng: Random, top: Table, heard: dict[int, list[int]]) -> None:
    """Some members join or leave in the tick in which a packet arrives."""
    for number, times in heard.items():
        member, time = top["member"][number], rng.choice(times)
        if member["role"] == "sender" or rng.random() < 0.7:
            continue
        if rng.random() < 0.5 and time < min(top["until"], member.get("leave", LATEST)):
            member["join"] = time
        elif member.get("join", 0) < time <= LATEST:
            member["leave"] = time


def acts(
    rng: Random, top: Table, roles: tuple[str, ...], hour: int, most: int, heard: dict[int, list[int]]
) -> list[tuple[int, int]]:
    """Who acts, and when, while it is there: mostly close together, now and then at the edges or as a packet arrives."""
    able = [(number, it) for number, it in enumerate(top["member"]) if it["role"] in roles]
    found = []
    for _ in range(most if able else 0):
        number, member = rng.choice(able)
        join, last = member.get("join", 0), min(member.get("leave", LATEST), top["until"] - 1)
        times = [rng.randrange(hour), rng.randrange(hour), rng.randint(join, last), join, last, *heard.get(number, [])[:3]]
        found.append((number, min(max(join, rng.choice(times)), last)))
    return found if rng.random() < 0.3 else sorted(found, key=lambda it: it[1])


def drops(rng: Random, top: Table, network_of: Scenario, most: int) -> list[Table]:
    """Which packets are dropped where: mostly early ones of those that draw, on the way to some member."""
    found: list[Table] = []
    sent = [it["member"] for it in top["draw"] + top["session"]]
    for _ in range(most if sent else 0):
        sender = rng.choice([rng.choice(sent), rng.choice(sent), rng.randrange(len(top["member"]))])
        path = network_of.path(sender, rng.randrange(len(top["member"])))
        if path:
            count = rng.choice([0, rng.randrange(1 + min(9, sent.count(sender))), rng.randrange(40), 2**32 - 1])
            found.append({"link": rng.choice([path[0], rng.choice(path)]), "sender": sender, "count": count})
    return (found + found[:rng.choice([0, 0, 1])])[:4096]


def outages(rng: Random, top: Table, network_of: Scenario, most: int) -> list[Table]:
    """When links are out: mostly about when something that is drawn or told comes to them, now and then for long."""
    found: list[Table] = []
    sent = top["draw"] + top["session"]
    for _ in range(most if sent else 0):
        act, hearer = rng.choice(sent), rng.randrange(len(top["member"]))
        path, times = network_of.path(act["member"], hearer), network_of.times(act["member"], hearer, act["at"])
        if path:
            place = rng.choice([0, rng.randrange(len(path))])
            first = max(0, times[place] + rng.choice([-9, -1, 0, 0, 0, 1]))
            end = rng.choice([times[place], times[place] + 1, times[place] + 1, times[-1], first + rng.randint(1, 99), LATEST])
            found.append({"link": path[place], "from": first, "to": max(first + 1, end)})
    return [it for it in found if it["to"] <= LATEST]


def losses(rng: Random, top: Table, network_of: Scenario, most: int) -> list[Table]:
    """Links that lose packets at random, or in bursts: for ever, or from or to a tick about which something comes to them; some
    overlap."""
    found: list[Table] = []
    sent = top["draw"] + top["session"]
    for _ in range(most if sent else 0):
        act, hearer = rng.choice(sent), rng.randrange(len(top["member"]))
        path, times = network_of.path(act["member"], hearer), network_of.times(act["member"], hearer, act["at"])
        if not path:
            continue
        place = rng.randrange(len(path))
        link = rng.choice([path[place]] * 3 + [it["link"] for it in found])
        rate = rng.choice([1, 10000, 100000, 300000, 500000, 500000, rng.randint(1, WHOLE_RATE), WHOLE_RATE - 1, WHOLE_RATE])
        loss = {"link": link, "rate": rate}
        if rng.random() < 0.6:
            loss["stream"] = rng.choice([0, 1, 1, 2, rng.randrange(2**63), 2**63 - 1])
        first, end = (min(LATEST, max(0, times[place] + rng.choice([-9, -1, 0, 0, 1, 99]))) for _ in range(2))
        if rng.random() < 0.3:
            loss["from"] = min(first, LATEST - 1)
        if rng.random() < 0.3:
            loss["to"] = max(end, loss.get("from", 0) + 1)
        if top["version"] >= 5 and rng.random() < 0.5:
            loss["burst"] = rng.choice([1, 2, 10, rng.randint(1, 1 + times[-1]), rng.randint(1, 5000), LATEST])
        found.append(loss)
    return found


# ---- as text -------------------------------------------------------------------


def value_text(rng: Random, value: Any) -> str:
    """A value as TOML, in one of its ways."""
    if type(value) is int:
        ways = [str(value)] * 6 + ([f"{value:_}", f"0x{value:x}", f"0b{value:b}", f"+{value}"] if value >= 0 else [])
        return rng.choice(ways)
    if isinstance(value, bool):
        return "true" if value else "false"
    if isinstance(value, str):
        return rng.choice([f'"{value}"', f"'{value}'", f'"""{value}"""'])
    if isinstance(value, list):
        inner = [value_text(rng, it) for it in value]
        return f"[{', '.join(inner)}]" if len(inner) < 3 else "[\n" + "".join(f"  {it},\n" for it in inner) + "]"
    if isinstance(value, dict):
        return "{ " + ", ".join(pairs(rng, value)) + " }"
    return repr(value)


def pairs(rng: Random, table: Table) -> list[str]:
    """Each key with its value, in any order."""
    keys = list(table)
    if rng.random() < 0.3:
        rng.shuffle(keys)
    return [f"{rng.choice([key] * 5 + [chr(34) + key + chr(34)])} = {value_text(rng, table[key])}" for key in keys]


def text_of(rng: Random, top: Table) -> bytes:
    """A scenario's plain data as TOML: its arrays inline, or as tables below the top table."""
    tables = [
        part for part in PARTS
        if top.get(part) and all(isinstance(it, dict) for it in (top[part] if isinstance(top[part], list) else [0]))
        and rng.random() < 0.4
    ]
    lines = pairs(rng, {key: value for key, value in top.items() if key not in tables})
    for part in tables:
        for element in top[part]:
            lines += [rng.choice(["", "# what follows"]), f"[[{part}]]", *pairs(rng, element)]
    end = rng.choice(["\n"] * 5 + ["\r\n"])
    text = end.join([*lines, ""])
    return (rng.choice([""] * 9 + ["\ufeff"]) + text).encode()


# ---- spoiled scenarios ---------------------------------------------------------


def spoiled(rng: Random, top: Table) -> Table:
    """A scenario with one or two things changed: a key dropped or added, a value at an edge or of another type, and the like."""
    top = copy.deepcopy(top)
    for _ in range(rng.choice([1, 1, 2])):
        arrays = [part for part in PARTS if isinstance(top.get(part), list) and top[part]]
        part = rng.choice(["top", *arrays])
        table = top if part == "top" else rng.choice(top[part])
        if isinstance(table, dict) and table:
            rng.choices(list(SPOILS), list(SPOILS.values()))[0](rng, top, part, table)
    return top


def drop_key(rng: Random, top: Table, part: str, table: Table) -> None:
    del table[rng.choice(list(table))]


def add_key(rng: Random, top: Table, part: str, table: Table) -> None:
    keys = {"nodes", "link", "topology", "size", "delay", "degree"}
    keys |= {"pages", "join", "leave", "color", "back", "outage", "loss", "rate", "from", "to", "a", "at"}
    keys |= {"parent", "delays", "backs", "c1_least", "d2_most", "backoff", "burst", *RECOVERY, *REPEATS}
    key = rng.choice(sorted(keys - set(table)) or ["color"])
    table[key] = rng.choice([0, 1, 2, [], "chain", "tree", "parents"])


def rename_key(rng: Random, top: Table, part: str, table: Table) -> None:
    key = rng.choice(list(table))
    table[rng.choice([key + "s", key.upper(), "color"])] = table.pop(key)


def at_an_edge(rng: Random, top: Table, part: str, table: Table) -> None:
    ranges = NUMBERS[version_of(top)][part]
    keys = [key for key in table if key in ranges]
    if keys:
        key = rng.choice(keys)
        low, high = ranges[key]
        table[key] = rng.choice([low - 1, low, high, high + 1, *EDGES, top.get("until", 1)])


def another_type(rng: Random, top: Table, part: str, table: Table) -> None:
    table[rng.choice(list(table))] = rng.choice([1.0, True, "1", "sender", "listener", [], [[]], {}, [1, 2], -1, ""])


def doubled_element(rng: Random, top: Table, part: str, table: Table) -> None:
    if part != "top":
        place = rng.randrange(len(top[part]) + 1)
        top[part][place:place] = [copy.deepcopy(table)] * rng.choice([1, 1, min(4096, LENGTHS[version_of(top)].get(part, 1))])


def odd_element(rng: Random, top: Table, part: str, table: Table) -> None:
    if part != "top":
        top[part][rng.randrange(len(top[part]))] = rng.choice([0, [], "member", True])


def another_number(rng: Random, top: Table, part: str, table: Table) -> None:
    keys = [key for key in table if key in NUMBERS[5][part] and type(table[key]) is int]
    if keys:
        key = rng.choice(keys)
        table[key] = max(0, table[key] + rng.choice([-1, 1, 2, rng.randint(-9, 9)]))


PLACES = ("a", "b", "node", "member", "link", "sender", "join", "leave", "at", "from", "to")


def another_place(rng: Random, top: Table, part: str, table: Table) -> None:
    """Another node, member, link or time, such as stands somewhere in the scenario, or one more or less."""
    keys = [key for key in table if key in PLACES and part != "top"]
    if keys:
        numbers = [it[key] for key in keys for other in PARTS for it in array_of(top, other) if type(it.get(key)) is int]
        places = [rng.randrange(12), top.get("until", 1), *numbers]
        table[rng.choice(keys)] = max(0, rng.choice(places) + rng.choice([0, 0, -1, 1]))


def other_item(rng: Random, top: Table, part: str, table: Table) -> None:
    """Another number in an array of numbers, one number more or one fewer."""
    arrays = [value for value in table.values() if isinstance(value, list) and value and all(type(it) is int for it in value)]
    if arrays:
        array = rng.choice(arrays)
        place = rng.randrange(len(array))
        some_place = rng.randrange(len(array) + 2)
        array[place:place + 1] = rng.choice(
            [[], [array[place]] * 2, [place], [place + 1], [some_place], [0], [65534], [65535]]
        )


def array_of(top: Table, part: str) -> list[Table]:
    """The tables of an array."""
    found = top.get(part)
    return [it for it in found if isinstance(it, dict)] if isinstance(found, list) else []


# what a scenario is spoiled by, and how often
SPOILS = {
    drop_key: 2, add_key: 2, rename_key: 1, at_an_edge: 4, another_type: 2, doubled_element: 2, odd_element: 1, another_number: 3,
    another_place: 12, other_item: 2,
}


def has_long_number(value: Any) -> bool:
    """Whether a number stands there that has no 64 bits: then the text is no TOML."""
    if isinstance(value, (list, dict)):
        return any(has_long_number(it) for it in (value.values() if isinstance(value, dict) else value))
    return type(value) is int and not -2**63 <= value < 2**63


def is_short(top: Table) -> bool:
    """Whether a run of an accepted scenario has not too many rows for a check in Python."""
    drawn, told, dropped, members = (len(top.get(part, [])) for part in ("draw", "session", "drop", "member"))
    comes_and_goes = any(member.get("join") or "leave" in member for member in top.get("member", []))
    is_steady = not top.get("outage") and not top.get("loss") and not comes_and_goes
    losses = min(drawn, dropped) if is_steady else drawn
    return rows_at_most(top, losses, top["until"]) + members * (drawn + told) <= 4 * MOST_ROWS


def must_of(top: Table, versions: tuple[int, ...]) -> Table | str | None:
    """What must come of plain data: its refusal, itself, or None where it runs for too long."""
    if has_long_number(top):
        return "not-toml"
    return refusal_of(top, versions) or (top if is_short(repeated(top)) else None)


# ---- texts that are changed ----------------------------------------------------


def changed(rng: Random, text: bytes) -> bytes:
    """A text with bytes changed, numbers at edges, lines dropped or doubled, or cut."""
    for _ in range(rng.choice([1, 1, 1, 2, 5])):
        text = rng.choice(CHANGES)(rng, text)
    return text


def other_byte(rng: Random, text: bytes) -> bytes:
    at = rng.randrange(len(text) + 1)
    put = rng.choice([bytes([rng.randrange(256)]), *(bytes([it]) for it in b"[]{}=,\"\n#.0\0\xff")])
    return text[:at] + put + text[at + rng.choice([0, 1]):]


def other_number(rng: Random, text: bytes) -> bytes:
    found = list(re.finditer(rb"\d+", text))
    if not found:
        return text
    it = rng.choice(found)
    number = rng.choice([*EDGES, -1, rng.randrange(20), int(it[0]) + 1])
    return text[:it.start()] + str(number).encode() + text[it.end():]


def without_line(rng: Random, text: bytes) -> bytes:
    lines = text.splitlines(keepends=True)
    at = rng.randrange(len(lines)) if lines else 0
    return b"".join(lines[:at] + lines[at + 1:])


def doubled_line(rng: Random, text: bytes) -> bytes:
    lines = text.splitlines(keepends=True)
    at = rng.randrange(len(lines)) if lines else 0
    return b"".join(lines[:at + 1] + lines[at:])


def cut(rng: Random, text: bytes) -> bytes:
    return text[:rng.randrange(len(text) + 1)]


def without_slice(rng: Random, text: bytes) -> bytes:
    at = rng.randrange(len(text) + 1)
    return text[:at] + text[at + rng.randrange(12):]


CHANGES = [other_byte, other_byte, other_number, other_number, without_line, doubled_line, cut, without_slice]


def must_of_text(text: bytes, versions: tuple[int, ...]) -> Table | str:
    """What must come of a text, as far as Python can tell."""
    if len(text) > LONGEST_TEXT:
        return "too-long"
    try:
        read = text.decode()
    except UnicodeDecodeError:
        return "not-toml"
    try:
        return must_of(tomllib.loads(read.removeprefix("\ufeff")), versions) or UNKNOWN
    except (tomllib.TOMLDecodeError, ValueError, RecursionError):
        return UNKNOWN


# ---- cases ---------------------------------------------------------------------


def case_of(rng: Random, examples: list[bytes], versions: tuple[int, ...] = VERSIONS) -> Case:
    """One case for a program that reads these versions. The examples are texts."""
    kind = rng.choices(list(KINDS), list(KINDS.values()))[0]
    seed = rng.choice([0, 1, 42, rng.randrange(2**63), 2**63 - 1])
    text, must = kind(rng, examples, versions)
    if must is None:
        return case_of(rng, examples, versions)
    words = rng.choice(COMMAND_LINES) if kind is refused_words else None
    return Case(kind.__name__, text, seed, "too-long" if len(text) > LONGEST_TEXT else must, words)


# a text, and what must come of it, or None for one whose run takes too long
Made = tuple[bytes, Table | str | None]


def accepted(rng: Random, examples: list[bytes], versions: tuple[int, ...]) -> Made:
    top = scenario(rng, versions)
    return text_of(rng, top), top


def spoiled_scenario(rng: Random, examples: list[bytes], versions: tuple[int, ...]) -> Made:
    top = spoiled(rng, scenario(rng, versions))
    return text_of(rng, top), must_of(top, versions)


def changed_scenario(rng: Random, examples: list[bytes], versions: tuple[int, ...]) -> Made:
    text = changed(rng, text_of(rng, scenario(rng, versions)))
    return text, must_of_text(text, versions)


def changed_example(rng: Random, examples: list[bytes], versions: tuple[int, ...]) -> Made:
    text = changed(rng, rng.choice(examples))
    return text, must_of_text(text, versions)


def doubled_key(rng: Random, examples: list[bytes], versions: tuple[int, ...]) -> Made:
    """A key that stands twice in one table makes no TOML."""
    text = text_of(rng, scenario(rng, versions)).decode().removeprefix("\ufeff")
    return f"until = 1\n{text}".encode(), "not-toml"


def padded(rng: Random, examples: list[bytes], versions: tuple[int, ...]) -> Made:
    """A scenario at the greatest length of a text, or one byte longer."""
    top = scenario(rng, versions)
    text = text_of(rng, top)
    more = rng.choice([0, 1])
    text += b"#" * (LONGEST_TEXT + more - len(text))
    return text, "too-long" if more or len(text) > LONGEST_TEXT else top


def refused_words(rng: Random, examples: list[bytes], versions: tuple[int, ...]) -> Made:
    return b"version = 1\n", "command line"


KINDS = {
    accepted: 55, spoiled_scenario: 20, changed_example: 12, changed_scenario: 6, doubled_key: 1, padded: 2, refused_words: 4,
}
