"""Scenarios as docs/FORMATS.md has them: the first refusal of one, and its network, from the text's plain data alone.

The plain data is what a TOML reader makes of a text: a dict of numbers, words, lists and dicts. Nothing here is taken from
the program: ranges, refusals and what becomes of a packet are written from the two documents, docs/FORMATS.md and
docs/MODEL.md.
"""
import collections
import functools
from collections.abc import Callable, Iterable
from typing import Any, NamedTuple, TypeGuard

# the plain data of a scenario, or of an element of one of its arrays
Table = dict[str, Any]
Limits = tuple[int, int]
Link = tuple[int, int, int, int]

LATEST = 2**40
LONGEST_TEXT = 1048576
LONGEST_DELAY = 1000000
ROLES = ("sender", "receiver", "late", "listener")
TOPOLOGIES = ("chain", "star", "tree")
CONSTANTS = ("c1", "c2", "d1", "d2")
NEEDED = {"version", "until", *CONSTANTS}
PARTS = ("link", "member", "draw", "session", "drop", "outage", "loss")
PAGES = 256
PAGE = (0, 65535)
GREATEST_CONSTANT = 1024000
# the limits of constants, each with its constant, and the factor of backoff: from version 3 on
LEASTS = {f"{name}_least": name for name in CONSTANTS}
MOSTS = {f"{name}_most": name for name in CONSTANTS}
BACKOFF = {"backoff": (2, 3)}
# local recovery: from version 5 on
SCOPE = (0, 65535)
RECOVERY = {"scope": SCOPE, "widen": (0, 65535), "tries": (1, 10), "steps": (1, 2)}
# how often an element stands there, and how far apart: from version 3 on
REPEATS = {"times": (1, 65535), "every": (0, LATEST)}
# the keys of an element that rise by `every` from copy to copy
STEPPED = {
    "member": ("node",), "draw": ("at",), "session": ("at",), "drop": ("count",), "outage": ("from", "to"), "loss": ("link",),
}
# what elements may lack, besides REPEATS
OPTIONAL = {"member": {"join", "leave", "pages", "scope"}, "loss": {"stream", "from", "to", "burst"}}
# a rate is in millionths
WHOLE_RATE = 1000000
# the versions that the program reads
VERSIONS = (1, 2, 3, 4, 5)


def numbers_with(nodes: int) -> dict[str, dict[str, Limits]]:
    """The ranges of numbers in a version with at most so many nodes."""
    number = (0, nodes - 1)
    delay = (1, LONGEST_DELAY)
    return {
        "top": {
            "version": (1, 5), "until": (1, LATEST),
            "c1": (0, 64000), "c2": (0, 64000), "d1": (0, 64000), "d2": (0, 64000),
            "nodes": (1, nodes), "size": (1, nodes), "delay": delay, "back": delay, "degree": (2, nodes - 1),
        },
        "link": {"a": number, "b": number, "delay": delay, "back": delay},
        "member": {"node": number, "stream": (0, 2**63 - 1), "join": (0, LATEST), "leave": (1, LATEST)},
        "draw": {"member": number, "page": (0, 65535), "ink": (0, 2**32 - 1), "at": (0, LATEST)},
        "session": {"member": number, "at": (0, LATEST)},
        "drop": {"link": number, "sender": number, "count": (0, 2**32 - 1)},
        "outage": {"link": number, "from": (0, LATEST), "to": (1, LATEST)},
    }


def numbers_of_version_3(nodes: int) -> dict[str, dict[str, Limits]]:
    """The same of version 3. Limits of constants have to be within what the constants ask of them, too."""
    numbers = numbers_with(nodes)
    numbers["top"].update({name: (0, GREATEST_CONSTANT) for name in (*CONSTANTS, *LEASTS, *MOSTS)}, **BACKOFF)
    for part in numbers.keys() & STEPPED.keys():
        numbers[part].update(REPEATS)
    return numbers


def numbers_of_version_4(nodes: int) -> dict[str, dict[str, Limits]]:
    """The same of version 4, which has losses at random."""
    ticks = {"from": (0, LATEST), "to": (1, LATEST)}
    loss = {"link": (0, nodes - 1), "rate": (1, WHOLE_RATE), "stream": (0, 2**63 - 1), **ticks, **REPEATS}
    return {**numbers_of_version_3(nodes), "loss": loss}


def numbers_of_version_5(nodes: int) -> dict[str, dict[str, Limits]]:
    """The same of version 5, which has local recovery, and losses that come in bursts."""
    numbers = numbers_of_version_4(nodes)
    numbers["top"].update(RECOVERY)
    numbers["member"]["scope"] = SCOPE
    numbers["loss"]["burst"] = (1, LATEST)
    return numbers


def lengths_with(nodes: int, elements: int) -> dict[str, int]:
    """The lengths of arrays in a version with at most so many nodes, and so many elements of other arrays."""
    return {"link": nodes - 1, "member": nodes, "draw": elements, "session": elements, "drop": elements}


# by the version of the format, of which the first has no outages
NUMBERS = {
    1: numbers_with(256), 2: numbers_with(1024), 3: numbers_of_version_3(65535), 4: numbers_of_version_4(65535),
    5: numbers_of_version_5(65535),
}
LENGTHS = {
    1: lengths_with(256, 4096),
    2: {**lengths_with(1024, 4096), "outage": 4096},
    3: {**lengths_with(65535, 65535), "outage": 65535},
    **dict.fromkeys((4, 5), {**lengths_with(65535, 65535), "outage": 65535, "loss": 65535}),
}


def version_of(top: Table) -> int:
    """The version whose ranges hold; a scenario that names another one is refused for that."""
    version = top.get("version")
    return version if type(version) is int and version in NUMBERS else 1


# ---- refusals ------------------------------------------------------------------


def is_number(value: object, limits: Limits) -> TypeGuard[int]:
    """Whether this is an integer in a range; True and False are none."""
    return type(value) is int and limits[0] <= value <= limits[1]


def top_keys(top: Table) -> tuple[set[str], set[str]]:
    """The keys that must stand in the top table, and those that may."""
    version = version_of(top)
    free = set(LENGTHS[version]) | timers_keys(version) | (set(RECOVERY) if version >= 5 else set())
    if "topology" not in top:
        needed = NEEDED | {"nodes"}
        return needed, needed | free
    free -= {"link"}
    if version >= 3 and top["topology"] == "parents":
        needed = NEEDED | {"topology", "parent", "delays" if "delays" in top else "delay"}
        return needed, needed | free | {"backs" if "backs" in top else "back"}
    needed = NEEDED | {"topology", "size", "delay"} | ({"degree"} if top["topology"] == "tree" else set())
    return needed, needed | free | back_key(version)


def timers_keys(version: int) -> set[str]:
    """The keys of adaptive timers, in a version that has them."""
    return {*LEASTS, *MOSTS, *BACKOFF} if version >= 3 else set()


def back_key(version: int) -> set[str]:
    """The key of a link's second delay, in a version that has it."""
    return {"back"} if version >= 2 else set()


def top_is_right(top: Table) -> bool:
    needed, allowed = top_keys(top)
    has_keys = needed <= set(top) <= allowed
    return has_keys and all(top_value_is_right(top, key, value) for key, value in top.items()) and limits_are_right(top)


def top_value_is_right(top: Table, key: str, value: object) -> bool:
    version = version_of(top)
    if key == "topology":
        return value in TOPOLOGIES or version >= 3 and value == "parents"
    if key in PARTS:
        return isinstance(value, list) and count(version, key, value) <= LENGTHS[version][key]
    if key == "parent":
        return are_numbers(value, NUMBERS[version]["link"]["a"]) and len(value) <= LENGTHS[version]["link"]
    if key in ("delays", "backs"):
        return are_numbers(value, (1, LONGEST_DELAY)) and isinstance(top["parent"], list) and len(value) == len(top["parent"])
    return is_number(value, NUMBERS[version]["top"][key])


def are_numbers(value: object, limits: Limits) -> TypeGuard[list[int]]:
    return isinstance(value, list) and all(is_number(it, limits) for it in value)


def limits_are_right(top: Table) -> bool:
    """Whether each constant is within its limits."""
    leasts = all(top[key] <= top[name] for key, name in LEASTS.items() if key in top)
    return leasts and all(top[key] >= top[name] for key, name in MOSTS.items() if key in top)


def element_is_right(version: int, part: str, element: object) -> bool:
    """Whether an element of an array has the keys of its part, and these what they must have, in each of its copies."""
    if not isinstance(element, dict):
        return False
    allowed = set(NUMBERS[version][part]) - {"back"} | ({"role", "pages"} if part == "member" else set())
    needed = allowed - OPTIONAL.get(part, set()) - set(REPEATS)
    allowed |= back_key(version) if part == "link" else set()
    if not needed <= set(element) <= allowed:
        return False
    return all(value_is_right(version, part, *it) for it in [*element.items(), *last_copy(part, element).items()])


def value_is_right(version: int, part: str, key: str, value: object) -> bool:
    if key == "role":
        return value in ROLES
    if key == "pages":
        return isinstance(value, list) and len(value) <= PAGES and are_numbers(value, PAGE)
    return is_number(value, NUMBERS[version][part][key])


def is_tree(nodes: int, links: list[Link]) -> bool:
    """Whether there is one link fewer than nodes, and each node is reached from the first."""
    if len(links) != nodes - 1 or any(end >= nodes for a, b, *_ in links for end in (a, b)):
        return False
    return len(steps_from(0, neighbours(links))) == nodes


def first_wrong_member(top: Table, nodes: int) -> int | None:
    taken: set[int] = set()
    for place, member in enumerate(top.get("member", [])):
        if not member_fits(top, member, nodes) or member["node"] in taken:
            return place
        taken.add(member["node"])
    return None


def member_fits(top: Table, member: Table, nodes: int) -> bool:
    is_hub = top.get("topology") == "star" and member["node"] == 0
    in_time = member.get("join", 0) < top["until"] and member.get("leave", LATEST + 1) > member.get("join", 0)
    has_pages = "pages" in member and member["role"] != "late"
    has_scope = "scope" in member and member["role"] == "listener"
    return member["node"] < nodes and not is_hub and in_time and not has_pages and not has_scope


def act_fits(top: Table, act: Table, roles: tuple[str, ...]) -> bool:
    """Whether a draw or a session message is by a member of these roles, while it is there."""
    members = top.get("member", [])
    if act["member"] >= len(members) or members[act["member"]]["role"] not in roles:
        return False
    member = members[act["member"]]
    return member.get("join", 0) <= act["at"] <= member.get("leave", LATEST) and act["at"] < top["until"]


def loss_fits(loss: Table, links: int) -> bool:
    """Whether a loss is of one of so many links, and begins before it ends."""
    return loss["link"] < links and ("to" not in loss or loss.get("from", 0) < loss["to"])


def first_wrong(elements: Iterable[Any], is_right: Callable[[Any], bool]) -> int | None:
    """The lowest place of an element that is not right, or None."""
    return next((place for place, it in enumerate(elements) if not is_right(it)), None)


def refusal_of(top: Table, versions: tuple[int, ...] = VERSIONS) -> str | None:
    """The words of the line that refuses a scenario, as `bad-key draw 1`, or None if it is accepted, by a program that reads
    these versions."""
    version = version_of(top)
    if version not in versions or not top_is_right(top):
        return "bad-key top 0"
    for part in PARTS:
        place = first_wrong(top.get(part, []), functools.partial(element_is_right, version, part))
        if place is not None:
            return f"bad-key {part} {place}"
    top = repeated(top)
    nodes, links, members = nodes_of(top), links_of(top), top.get("member", [])
    if not is_tree(nodes, links):
        return "not-tree"
    wrong = {
        "member": first_wrong_member(top, nodes),
        "draw": first_wrong(top.get("draw", []), lambda it: act_fits(top, it, ROLES[:1])),
        "session": first_wrong(top.get("session", []), lambda it: act_fits(top, it, ROLES[:3])),
        "drop": first_wrong(top.get("drop", []), lambda it: it["link"] < len(links) and it["sender"] < len(members)),
        "outage": first_wrong(top.get("outage", []), lambda it: it["link"] < len(links) and it["from"] < it["to"]),
        "loss": first_wrong(top.get("loss", []), lambda it: loss_fits(it, len(links))),
    }
    return next((f"bad-{part} {place}" for part, place in wrong.items() if place is not None), None)


# ---- repetition ----------------------------------------------------------------


def copies(part: str, element: Table) -> list[Table]:
    """The elements that one stands for. A member's streams are one after the other, whatever `every` is."""
    every, streams = element.get("every", 1), 1 if part == "member" else 0
    first = {key: value for key, value in element.items() if key not in REPEATS}
    found = []
    for number in range(element.get("times", 1)):
        copy = {**first, **{key: first[key] + number * every for key in STEPPED[part]}}
        found.append({**copy, "stream": first["stream"] + number} if streams else copy)
    return found


def last_copy(part: str, element: Table) -> Table:
    """The numbers of the last of an element's copies, which has the greatest ones; empty where nothing is known of it."""
    keys = (*REPEATS, *STEPPED.get(part, ()), *(["stream"] if part == "member" else []))
    if not any(key in element for key in REPEATS) or any(type(element.get(key, 1)) is not int for key in keys):
        return {}
    number, every = element.get("times", 1) - 1, element.get("every", 1)
    steps = {key: element[key] + number * every for key in STEPPED[part]}
    return {**steps, "stream": element["stream"] + number} if part == "member" else steps


def count(version: int, part: str, elements: list[Any]) -> int:
    """How many elements an array makes. One that does not say rightly how many it stands for counts as one."""
    if version < 3 or part not in STEPPED:
        return len(elements)
    times = [it.get("times", 1) if isinstance(it, dict) else 1 for it in elements]
    return sum(it if is_number(it, REPEATS["times"]) else 1 for it in times)


def repeated(top: Table) -> Table:
    """A scenario with all elements that its elements stand for."""
    lists = {part: [copy for it in top[part] for copy in copies(part, it)] for part in STEPPED if part in top}
    return {**top, **lists}


# ---- networks ------------------------------------------------------------------


def nodes_of(top: Table) -> int:
    """How many nodes there are."""
    if top.get("topology") == "parents":
        return len(top["parent"]) + 1
    return top.get("nodes", top.get("size"))


def links_of(top: Table) -> list[Link]:
    """Each link as the two nodes that it joins, its delay from the first to the second, and that back."""
    if "topology" not in top:
        return [(link["a"], link["b"], *delays_of(link)) for link in top.get("link", [])]
    if top["topology"] == "parents":
        return list(zip(top["parent"], range(1, nodes_of(top)), *delays_of_parents(top)))
    return [(parent(top, node), node, *delays_of(top)) for node in range(1, top["size"])]


def delays_of(table: Table) -> tuple[int, int]:
    """The delay of a link, or of each link of a topology, and that in the other direction."""
    return table["delay"], table.get("back", table["delay"])


def delays_of_parents(top: Table) -> tuple[list[int], list[int]]:
    """The delays of links from parents to their children, and those back."""
    links = len(top["parent"])
    there = top["delays"] if "delays" in top else [top["delay"]] * links
    if "backs" in top:
        return there, top["backs"]
    return there, [top["back"]] * links if "back" in top else there


def parent(top: Table, node: int) -> int:
    """The parent of a node in a chain, a star or a tree."""
    if top["topology"] == "chain":
        return node - 1
    if top["topology"] == "star":
        return 0
    degree = top["degree"]
    return 0 if node <= degree else 1 + (node - degree - 1) // (degree - 1)


# what is beside each node: other nodes, each with the number of the link to it
Neighbours = dict[int, list[tuple[int, int]]]


def neighbours(links: list[Link]) -> Neighbours:
    beside: Neighbours = collections.defaultdict(list)
    for number, (a, b, *_) in enumerate(links):
        beside[a].append((b, number))
        beside[b].append((a, number))
    return beside


class Step(NamedTuple):
    """The last step of the way to a node: from the node before it, over a link."""

    near: int
    link: int
    far: int


def steps_from(start: int, beside: Neighbours) -> dict[int, Step | None]:
    """For each node that is reached, nearer ones first, the last step of the way to it; none for the start."""
    steps: dict[int, Step | None] = {start: None}
    waiting = [start]
    for node in waiting:
        for other, link in beside.get(node, []):
            if other not in steps:
                steps[other] = Step(node, link, other)
                waiting.append(other)
    return steps


def steps_to(node: int, steps: dict[int, Step | None]) -> list[Step]:
    """The steps of the way to a node, the last one first."""
    found = []
    while (step := steps[node]) is not None:
        found.append(step)
        node = step.near
    return found


class Ways(NamedTuple):
    """The ways from one member: how long a packet takes to each node and back, how many links these have, and the steps of those
    to other members."""

    steps: dict[int, Step | None]
    there: dict[int, int]
    back: dict[int, int]
    hops: dict[int, int]
    to_members: list[Step]


class Fate(NamedTuple):
    """What becomes of a packet: the members that it reaches, the links that it crosses, those at which it is dropped."""

    reached: set[int]
    crossed: set[int]
    dropped: set[int]


class Loss(NamedTuple):
    """Which packets a loss of a link takes: of those that come to it in time, the ones whose words are below a bound. With slots,
    which last so many ticks, all packets of one have one word."""

    stream: int
    bound: int
    first: int
    end: int
    slot: int | None = None

    def takes(self, word: int, time: int) -> bool:
        """Whether it takes a packet of this word that comes at this time."""
        return self.first <= time < self.end and word < self.bound

    def subject(self, packet: tuple[int, int], time: int) -> tuple[int, int]:
        """What decides, besides the link, on a packet that comes at this time: its sender and count, or the slot."""
        return packet if self.slot is None else (NO_MEMBER, time // self.slot)


def loss_of(given: Table) -> Loss:
    """What an element of `loss` says, of which there is none that ends where it has no `to`."""
    bound = given["rate"] * 2**32 // WHOLE_RATE
    return Loss(given.get("stream", 0), bound, given.get("from", 0), given.get("to", LATEST + 1), given.get("burst"))


WORD = 2**64 - 1
# a number that is in words of slots where the sender's is in those of packets
NO_MEMBER = 65535


def mixed(word: int) -> int:
    """The output function of SplitMix64 (Steele, Lea and Flood 2014)."""
    word = (word ^ word >> 30) * 0xbf58476d1ce4e5b9 & WORD
    word = (word ^ word >> 27) * 0x94d049bb133111eb & WORD
    return word ^ word >> 31


def word_of(seed: int, stream: int, link: int, subject: tuple[int, int]) -> int:
    """The word by which losses of a stream decide on a packet, a sender's by its count, or a slot at a link; it has 32 bits."""
    sender, number = subject
    of_stream = mixed(mixed(seed + 0x9e3779b97f4a7c15 & WORD) ^ stream)
    return mixed(mixed(of_stream ^ link * 65536 + sender) ^ number) >> 32


class Scenario:
    """An accepted scenario, with the seed of its losses: its members, and the paths between them."""

    def __init__(self, top: Table, seed: int = 0) -> None:
        self.top = repeated(top)
        self.until: int = top["until"]
        self.members: list[Table] = [{"join": 0, "leave": None, "pages": [], **it} for it in self.top.get("member", [])]
        self.hosts: dict[int, int] = {member["node"]: number for number, member in enumerate(self.members)}
        self.links = links_of(self.top)
        self.beside = neighbours(self.links)
        self.listed: dict[tuple[int, int], set[int]] = collections.defaultdict(set)
        for drop in self.top.get("drop", []):
            self.listed[drop["sender"], drop["count"]].add(drop["link"])
        self.outages: dict[int, list[tuple[int, int]]] = collections.defaultdict(list)
        for outage in self.top.get("outage", []):
            self.outages[outage["link"]].append((outage["from"], outage["to"]))
        self.seed = seed
        self.losses: dict[int, list[Loss]] = collections.defaultdict(list)
        for loss in self.top.get("loss", []):
            self.losses[loss["link"]].append(loss_of(loss))
        self.known: dict[int, Ways] = {}
        self.fates: dict[tuple[int, frozenset[int], int | None, int | None, int | None], Fate] = {}

    def ways(self, member: int) -> Ways:
        """The ways from a member, on which each link takes its delay in the direction in which they take it."""
        if member not in self.known:
            start = self.members[member]["node"]
            steps = steps_from(start, self.beside)
            there, back, hops = {start: 0}, {start: 0}, {start: 0}
            for near, link, far in filter(None, steps.values()):
                a, _, delay, other = self.links[link]
                outward, homeward = (delay, other) if near == a else (other, delay)
                there[far], back[far], hops[far] = there[near] + outward, back[near] + homeward, hops[near] + 1
            self.known[member] = Ways(steps, there, back, hops, self.steps_to_members(steps))
        return self.known[member]

    def steps_to_members(self, steps: dict[int, Step | None]) -> list[Step]:
        """The steps of the ways to all members, each once, and after those before it."""
        found: set[int] = set()
        for node in self.hosts:
            while node not in found and (step := steps[node]) is not None:
                found.add(node)
                node = step.near
        return [step for step in steps.values() if step is not None and step.far in found]

    def path(self, a: int, b: int) -> list[int]:
        """The links on the way from one member to another."""
        return [step.link for step in reversed(steps_to(self.members[b]["node"], self.ways(a).steps))]

    def distance(self, a: int, b: int) -> int:
        """The sum of the delays on the path from one member to another, each in the direction that the path takes the link in."""
        return self.ways(a).there[self.members[b]["node"]]

    def times(self, a: int, b: int, sent: int) -> list[int]:
        """When a packet that one member sends comes to each link on the path to another, and at last to that member."""
        there, node = self.ways(a).there, self.members[b]["node"]
        nodes = [step.near for step in reversed(steps_to(node, self.ways(a).steps))]
        return [sent + there[it] for it in [*nodes, node]]

    def round_trip(self, a: int, b: int) -> int:
        """How long a packet takes from one member to another, and another one back."""
        ways, node = self.ways(b), self.members[a]["node"]
        return ways.there[node] + ways.back[node]

    def half_round_trip(self, a: int, b: int) -> int:
        """The distance that timers and rests go by."""
        return self.round_trip(a, b) // 2

    def hops(self, a: int, b: int) -> int:
        """How many links the path between two members has."""
        return self.ways(a).hops[self.members[b]["node"]]

    def first_scope(self, member: int) -> int:
        """The scope of a member's first requests, or 0 where these go to all."""
        return self.members[member].get("scope", self.top.get("scope", 0))

    def is_present(self, member: int, time: int) -> bool:
        """Whether a packet that arrives at this time is heard."""
        leave = self.members[member]["leave"]
        return self.members[member]["join"] <= time < self.until and (leave is None or time <= leave)

    def fate(self, sender: int, number: int, sent: int, scope: int | None = None) -> Fate:
        """What becomes of a packet sent at a time; a path ends for it where a link drops it, and where its scope ends."""
        listed = frozenset(self.listed.get((sender, number), ()))
        key = sender, listed, number if self.losses else None, sent if self.outages or self.losses else None, scope
        if key not in self.fates:
            self.fates[key] = self.follow((sender, number), listed, sent, scope)
        return self.fates[key]

    def is_out(self, link: int, time: int) -> bool:
        """Whether a link is out at a time: from the first tick of an outage up to below its last."""
        return any(first <= time < end for first, end in self.outages.get(link, ()))

    def is_lost(self, link: int, packet: tuple[int, int], time: int) -> bool:
        """Whether a loss of a link takes a packet, a sender's by its count, that comes to it at a time."""
        losses = self.losses.get(link, ())
        return any(it.takes(word_of(self.seed, it.stream, link, it.subject(packet, time)), time) for it in losses)

    def follow(self, packet: tuple[int, int], listed: frozenset[int], sent: int, scope: int | None) -> Fate:
        """Follows a packet on the ways to all members, step by step, each as far as the packet comes."""
        sender, _ = packet
        ways, fate = self.ways(sender), Fate(set(), set(), set())
        came = {self.members[sender]["node"]}
        for near, link, far in ways.to_members:
            if near not in came or scope is not None and ways.hops[near] >= scope:
                continue
            time = sent + ways.there[near]
            if link in listed or self.is_out(link, time) or self.is_lost(link, packet, time):
                fate.dropped.add(link)
                continue
            fate.crossed.add(link)
            came.add(far)
        fate.reached.update(self.hosts[node] for node in came if node in self.hosts)
        fate.reached.discard(sender)
        return fate
