"""Which links lose packets, and whether the lost packets are known to be data."""
import random
from bisect import bisect_left
from collections import Counter
from collections.abc import Callable, Iterable
from operator import attrgetter
from typing import TYPE_CHECKING

from .errors import ScenarioError
from .limits import MOST_NUMBERS, within
from .parts import Draw, Drop, Outage, RandomLoss
from .tree import Tree

if TYPE_CHECKING:
    from .scenario import Scenario


def links_in_use(tree: Tree, source: int, nodes: Iterable[int]) -> dict[int, int]:
    """For each link on the way from the source to another member: how many links from the source its far end is."""
    before = tree.parents(source)
    hops: dict[int, int] = {}
    for node, near in before.items():
        hops[node] = 0 if near is None else hops[near[0]] + 1
    depth: dict[int, int] = {}
    for node in nodes:
        while (near := before[node]) is not None and near[1] not in depth:
            depth[near[1]] = hops[node]
            node = near[0]
    return depth


def link_of(choice: str, given: "Scenario", rng: random.Random, sender: int = 0) -> int:
    """The link of a choice (`choose_link`), seen from a member."""
    nodes = [member.node for member in given.members]
    within("sender", sender, 0, len(nodes) - 1)
    return choose_link(choice, given.tree, nodes.pop(sender), nodes, rng)


def choose_link(choice: str, tree: Tree, source: int, nodes: list[int], rng: random.Random) -> int:
    """The link of a choice: a number, `adjacent`, `random`, `hops:H` (its far end is H links from the source) or `losers`.

    One with `losers:N`, or `losers:FEW-MANY`, members behind it is chosen by their number first: each number that a link
    has is as likely. Of `losers` alone it is 3 to a tenth of the members, or the next that a link has.
    """
    depth = links_in_use(tree, source, nodes)
    if choice.isdigit():
        link = int(choice)
        if link >= len(tree.links):
            raise ScenarioError(f"there is no link {link}: the network has {len(tree.links)}")
        return link
    if choice == "random":
        wanted, told = sorted(depth), "no link is on the way from the source to another member"
    elif choice == "adjacent" or choice.startswith("hops:"):
        text = "1" if choice == "adjacent" else choice.removeprefix("hops:")
        if not text.isdigit():
            raise ScenarioError(f"hops:{text} is no number of links")
        wanted = sorted(link for link, hops in depth.items() if hops == int(text))
        told = f"no link {text} links from the source is on the way to another member"
    elif choice == "losers" or choice.startswith("losers:"):
        behind = members_behind(tree, source, nodes)
        few, many = losers_told(choice, 1 + len(nodes), behind.values())
        numbers = sorted({number for number in behind.values() if few <= number <= many})
        number = rng.choice(numbers) if numbers else None
        wanted = sorted(link for link, count in behind.items() if count == number)
        told = f"no link has {few if few == many else f'{few} to {many}'} members behind it"
    else:
        raise ScenarioError(f"{choice!r} is no choice of a link: say a number, adjacent, random, hops:H or losers:FEW-MANY")
    if not wanted:
        raise ScenarioError(told)
    return rng.choice(wanted)


def losers_told(choice: str, members: int, numbers: Iterable[int]) -> tuple[int, int]:
    """The least and the greatest number of losers that a choice of a link allows; `numbers` are those that links have."""
    if choice == "losers":
        return 3, max(members // 10, min((number for number in numbers if number >= 3), default=3))
    few, dash, many = choice.removeprefix("losers:").partition("-")
    if not few.isdigit() or dash and not many.isdigit():
        raise ScenarioError(f"{choice} tells no number of members: say losers, losers:N or losers:FEW-MANY")
    return int(few), int(many if dash else few)


def members_behind(tree: Tree, source: int, nodes: Iterable[int]) -> dict[int, int]:
    """How many of these nodes are behind each link, seen from the source, of the links that have some."""
    found: dict[int, int] = {}
    counts = Counter(nodes)
    for node, near in reversed(tree.parents(source).items()):
        if near is not None and counts[node]:
            parent, link = near
            found[link] = counts[node]
            counts[parent] += counts[node]
    return found


def arrival(tree: Tree, source: int, link: int) -> int:
    """How long a packet of a node's takes to come to a link."""
    before = next(near[0] for near in tree.parents(source).values() if near is not None and near[1] == link)
    return tree.distances(source)[before]


def bernoulli(given: "Scenario", rate: float, link: int | None, rng: random.Random,
              packets: Callable[[int], int]) -> list[Drop]:
    """Each packet of each sender, dropped by each link on its ways (or by one link) with a probability."""
    drops: list[Drop] = []
    drawn = rng.random
    nodes = [member.node for member in given.members]
    for sender, member in enumerate(given.members):
        used = sorted(links_in_use(given.tree, member.node, nodes)) if member.role == "sender" else []
        counts = range(packets(sender)) if used else ()
        for one in used:
            if link in (None, one):
                drops += [Drop(one, sender, count) for count in counts if drawn() < rate]
    return drops


def losers(tree: Tree, source: int, nodes: Iterable[int], link: int) -> list[int]:
    """The nodes among `nodes` that are behind the link, seen from the source."""
    behind: set[int] = set()
    for node, near in tree.parents(source).items():
        if near is not None and (near[1] == link or near[0] in behind):
            behind.add(node)
    return [node for node in nodes if node in behind]


def least_scopes(given: "Scenario", link: int, sender: int) -> dict[int, int]:
    """Of each member behind a link, as a sender sees it, the least scope that reaches all of them and one that answers.

    All that lose are behind the link, and whoever answers is before it. Of a tree's nodes none is farther from any other
    than one of the two that are farthest from each other.
    """
    within("link", link, 0, len(given.tree.links) - 1)
    within("sender", sender, 0, len(given.members) - 1)
    nodes = [member.node for member in given.members]
    behind = losers(given.tree, nodes[sender], nodes, link)
    if not behind:
        return {}
    answering = {one.node for one in given.members if one.role != "listener"} - {*behind}
    near = min(given.tree.links[link][:2], key=given.tree.hops(nodes[sender]).__getitem__)
    before = given.tree.hops(near)
    outside = min(map(before.__getitem__, answering))
    one = max(behind, key=before.__getitem__)
    other = max(behind, key=given.tree.hops(one).__getitem__)
    ends = given.tree.hops(one), given.tree.hops(other)
    asking = {member: node for member, node in enumerate(nodes) if node in {*behind} and given.members[member].role != "listener"}
    return {member: max(ends[0][node], ends[1][node], before[node] + outside) for member, node in asking.items()}


def last_draws(given: "Scenario") -> dict[int, int]:
    """For each link the tick at which the last draw comes to it."""
    found: dict[int, int] = {}
    for sender in sorted({draw.member for draw in given.draws}):
        way, last = given.tree.distances(given.members[sender].node), drawn(given, sender)[-1].at
        for place, link in enumerate(given.tree.links):
            found[place] = max(found.get(place, 0), last + min(way[link.a], way[link.b]))
    return found


def drawn(given: "Scenario", sender: int) -> list[Draw]:
    """The draws that a sender sends, in order: once a page is full it sends no more of that page's."""
    draws = sorted([draw for draw in given.draws if draw.member == sender], key=attrgetter("at"))
    if len(draws) <= MOST_NUMBERS:
        return draws
    numbers: Counter[int] = Counter()
    found = []
    for draw in draws:
        numbers[draw.page] += 1
        if numbers[draw.page] <= MOST_NUMBERS:
            found.append(draw)
    return found


def first_lost(given: "Scenario", sender: int, draws: list[int]) -> dict[int, int]:
    """For each link that loses draws of a sender, made at these ticks, the place of the first of them.

    Where losses are at random, it is the first that may be lost.
    The packets of a sender are its draws, as long as it sends nothing else.
    """
    way = given.tree.distances(given.members[sender].node)
    lost = [(drop.link, drop.count) for drop in given.drops if drop.sender == sender and drop.count < len(draws)]
    taking: tuple[Outage | RandomLoss, ...] = (*given.outages, *given.random_losses)
    for one in taking:
        link = given.tree.links[one.link]
        comes = min(way[link.a], way[link.b])
        place = bisect_left(draws, one.first - comes)
        if place < len(draws) and one.is_on(draws[place] + comes):
            lost.append((one.link, place))
    return {link: place for link, place in sorted(lost, reverse=True)}


def least_behind(tree: Tree, source: int, costs: dict[int, int]) -> dict[int, int]:
    """For each link with a node of these behind it, seen from the source, the least of their costs."""
    found, least = {}, dict(costs)
    for node, near in reversed(tree.parents(source).items()):
        if near is not None and node in least:
            parent, link = near
            found[link] = least[node]
            least[parent] = min(least[node], least.get(parent, least[node]))
    return found


def shortest(least: int, trip: int) -> int:
    """The shortest timer of a constant's least value, of a round trip."""
    return max(1, least * (trip // 2) // 1000)


def times_to_ask(given: "Scenario", source: int) -> dict[int, int]:
    """For each member's node the least time from its finding a loss of the source to its request."""
    trips, least = given.tree.round_trips(source), given.least("c1")
    return {one.node: shortest(least, trips[one.node]) for one in given.members if one.node != source}


def times_to_answer(given: "Scenario", source: int, sender: int) -> dict[int, int]:
    """For each member's node the least time from its finding a loss of the source to what the sender sends for it.

    Its shortest request timer, the request's way, and the sender's shortest repair timer; or the sender's own request.
    """
    to_sender, from_sender, least = given.tree.round_trips(sender), given.tree.distances(sender), given.least("d1")
    return {node: time if node == sender else time + to_sender[node] - from_sender[node] + shortest(least, to_sender[node])
            for node, time in times_to_ask(given, source).items()}


def first_request(given: "Scenario") -> int | None:
    """A tick before which no member sends a request, or a repair, or None where nobody asks for anything."""
    return _earliest(given, lambda source: times_to_ask(given, source))


def first_answer(given: "Scenario", sender: int) -> int | None:
    """A tick before which a member sends no request and no repair, or None where nobody asks for anything."""
    return _earliest(given, lambda source: times_to_answer(given, source, given.members[sender].node))


def _earliest(given: "Scenario", times_of: Callable[[int], dict[int, int]]) -> int | None:
    """The earliest tick at which something is sent so long after a member's node found a loss of a source's node.

    A loss is found when the next draw or a session message comes to a loser, one of another member's no earlier than the
    draw itself would; who comes late asks for what was before.
    """
    ticks = []
    for other in sorted({draw.member for draw in given.draws}):
        source = given.members[other].node
        draws = [draw.at for draw in drawn(given, other)]
        times, way = times_of(source), given.tree.distances(source)
        ticks += [one.join + times[one.node] for one in given.members if one.node in times and (
            one.pages or one.role in ("sender", "receiver") and one.join > draws[0] + way[one.node])]
        behind = least_behind(given.tree, source, {node: way[node] + time for node, time in times.items()})
        for link, place in first_lost(given, other, draws).items():
            if link in behind:
                ticks += [at + behind[link] for at in draws[place + 1:place + 2]]
                ticks += [session.at + behind[link] if session.member == other else max(session.at, draws[place] + behind[link])
                          for session in given.sessions]
    return min(ticks, default=None)


def check_that_data_is_lost(given: "Scenario", counts: Iterable[int], sender: int = 0) -> None:
    """Refuses to drop a sender's packets of these counts where one may not be that of its draw of this number.

    A packet count runs over all that a sender sends. It is the number of the draw as long as the sender has sent no
    request, no repair and no session message before.
    """
    draws = [draw.at for draw in drawn(given, sender)]
    others = [first_answer(given, sender), *(session.at for session in given.sessions if session.member == sender)]
    limit = min((at for at in others if at is not None), default=None)
    for count in counts:
        if not 0 <= count < len(draws):
            raise ScenarioError(f"there is no draw {count} to lose: there are {len(draws)}")
        if limit is not None and draws[count] >= limit:
            raise ScenarioError(
                f"packet {count} of the source is drawn at tick {draws[count]}, and from tick {limit} on the source may have "
                "sent repairs or a session message, which count too: lose_operations goes by operations; or draw faster, "
                "lose fewer packets, lengthen the delays, or say any_packet=True")
