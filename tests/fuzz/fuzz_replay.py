"""Goes through the rows of a trace, and asks of each whether it is what docs/MODEL.md says of an event that was pending.

No event list is kept. Each row must be of an event that its member had pending at that time, and have the result, the lost
names and the packet of the model's table; keys must rise; no event may be passed over, and at the end none may be pending below
`until`. These together leave one trace. On the way each packet is handed once to each member that it reaches and that is there,
at its time of sending plus the distance, and to no other.
"""
from typing import NamedTuple

from fuzz_format import SCOPE, Scenario, Table
from fuzz_tables import ARRIVALS, Numbers, Packet, Row, Timers, Wrong

RANKS = {"join": 0, **dict.fromkeys(ARRIVALS, 1), "ask": 2, "answer": 3, "draw": 4, "report": 5, "leave": 6}
MOST_BACKOFFS = 10
# by the factor of backoff: how often it is taken at most
MOST_FACTORS = {2: 10, 3: 6}
MOST_DUPLICATES = 10**6
PAGE_FULL = 4096

# what comes of an event: its result, the names that are lost, and what is sent, if anything
Outcome = tuple[str, list[Numbers], Packet | None]


class Words:
    """The generator Lcg64Xsh32, PCG XSH RR 64/32, of a seed and a stream."""

    MASK = 2**64 - 1

    def __init__(self, seed: int, stream: int) -> None:
        self.increment = (2 * stream + 1) & self.MASK
        self.state = (seed + self.increment) & self.MASK
        self.step()

    def step(self) -> None:
        self.state = (self.state * 6364136223846793005 + self.increment) & self.MASK

    def next(self) -> int:
        """The next word, of 32 bits."""
        old = self.state
        self.step()
        word, turn = ((old >> 18 ^ old) >> 27) & 0xffffffff, old >> 59
        return (word >> turn | word << (32 - turn)) & 0xffffffff


class Entry:
    """How far a member is with a page: numbers below `floor` do not concern it, `next` is the first not heard of."""

    def __init__(self, first: int) -> None:
        self.floor = self.next = first


class Missing:
    """A name that a member lacks, with its request timer."""

    def __init__(self, detected: int, expiry: int) -> None:
        self.detected = self.ignore = detected
        self.expiry, self.backoffs = expiry, 0


class RepairTimer:
    """When a repair timer was set and expires; whose request it is to answer, and how far that went, if not to all."""

    def __init__(self, begun: int, expiry: int, requester: int, width: int | None) -> None:
        self.begun, self.expiry, self.requester, self.width = begun, expiry, requester, width


class Mark(NamedTuple):
    """Of a repair with a scope: whose request it answers, how far that went, and how many hops it went on past the member."""

    requester: int
    width: int
    left: int


class Rest(NamedTuple):
    """Up to when a name rests, and the mark of the repair from which it does; none of a repair that went to all."""

    end: int
    mark: Mark | None


class Constant:
    """A constant of timers, and the limits between which it is kept."""

    def __init__(self, top: Table, name: str) -> None:
        self.value: int = top[name]
        self.least: int = top.get(f"{name}_least", self.value)
        self.most: int = top.get(f"{name}_most", self.value)

    def add(self, more: int) -> None:
        self.value = min(self.most, max(self.least, self.value + more))


class Interval:
    """What timers of one kind are drawn from, and what their constants are adapted to (Floyd et al. 1997)."""

    def __init__(self, top: Table, start: str, width: str) -> None:
        self.start, self.width = Constant(top, start), Constant(top, width)
        self.duplicates, self.sent_first = 0, False
        self.ave_duplicates: int | None = None
        self.ave_delay: int | None = None

    def begin_period(self) -> None:
        """Adapts the constants to the period that ends, but only where some delay is known."""
        if self.ave_delay is not None:
            self.ave_duplicates = average(self.ave_duplicates, 1000 * self.duplicates)
            more_start, more_width = steps(self.ave_duplicates, self.ave_delay, self.sent_first)
            self.start.add(more_start)
            self.width.add(more_width)
        self.duplicates, self.sent_first = 0, False

    def take_in_delay(self, ticks: int, half_round_trip: int) -> None:
        self.ave_delay = average(self.ave_delay, 1000 * ticks // (2 * max(1, half_round_trip)))

    def send_first(self) -> None:
        self.start.add(-50)
        self.sent_first = True

    def hear_duplicate(self) -> None:
        self.duplicates = min(MOST_DUPLICATES, self.duplicates + 1)


def average(before: int | None, value: int) -> int:
    """An average in thousandths, in which a new value weighs a quarter."""
    return value if before is None else (3 * before + value) // 4


def steps(duplicates: int, delay: int, sent_first: bool) -> tuple[int, int]:
    """By how much a new period changes start and width, from the averages in thousandths."""
    if sent_first:
        return 0, -100
    if duplicates >= 1000:
        return 100, 500
    if duplicates >= 900:
        return 50, 0
    return -50 if duplicates < 250 else 0, -100 if delay > 1000 else 0


class Member:
    """What one member knows, and what is pending for it."""

    def __init__(self, scenario: Scenario, seed: int, number: int) -> None:
        self.scenario, self.number = scenario, number
        given = scenario.members[number]
        self.role, self.pages = given["role"], set(given["pages"])
        self.words = Words(seed, given["stream"])
        self.requests, self.answers = Interval(scenario.top, "c1", "c2"), Interval(scenario.top, "d1", "d2")
        self.steps: int = scenario.top.get("steps", 2)
        self.entries: dict[Numbers, Entry] = {}
        self.held: set[Numbers] = set()
        self.missing: dict[Numbers, Missing] = {}
        self.repairs: dict[Numbers, RepairTimer] = {}
        self.rests: dict[Numbers, Rest] = {}
        self.sent = 0
        self.joined: int | None = None
        self.left: int | None = None
        self.inbox: dict[Numbers, int] = {}
        self.draws = self.acts("draw")
        self.reports = self.acts("session")

    def acts(self, part: str) -> list[Table]:
        """Its draws or session messages, the last one first."""
        own = [it for it in self.scenario.top.get(part, []) if it["member"] == self.number]
        return sorted(own, key=lambda it: it["at"])[::-1]

    # ---- timers ------------------------------------------------------------------

    def timers(self) -> Timers:
        """The constants of its timers, and what they are adapted to."""
        requests, answers = self.requests, self.answers
        constants = tuple(it.value for it in (requests.start, requests.width, answers.start, answers.width))
        return constants, (requests.ave_duplicates, requests.ave_delay, answers.ave_duplicates, answers.ave_delay)

    def half(self, other: int) -> int:
        """Half the round trip to another member."""
        return self.scenario.half_round_trip(self.number, other)

    # ---- scopes ------------------------------------------------------------------

    def scope_of_request(self, backoffs: int) -> int | None:
        """How many hops a request goes that has been put off so often."""
        first, top = self.scenario.first_scope(self.number), self.scenario.top
        if first == 0 or backoffs >= top.get("tries", 1):
            return None
        return min(SCOPE[1], first + backoffs * top.get("widen", 0))

    def scope_of_repair(self, requester: int, width: int) -> int:
        """How many hops a repair goes that answers a request: in one step as far as all go that heard it."""
        return width + self.scenario.hops(self.number, requester) if self.steps == 1 else width

    def mark_of(self, repair: Packet, sender: int) -> Mark | None:
        """The mark of a repair that this member hears, or sends."""
        if repair.scope is None or repair.requester is None or repair.width is None:
            return None
        return Mark(repair.requester, repair.width, max(0, repair.scope - self.scenario.hops(sender, self.number)))

    def serves(self, mark: Mark | None, requester: int, width: int | None) -> bool:
        """Whether who heard a request hears the repair of this mark, too, as this member sees it."""
        if mark is None:
            return True
        if width is None:
            return False
        was_for_it = mark.requester == requester != self.number and mark.width >= width
        return was_for_it or self.scenario.hops(self.number, requester) + width <= mark.left

    def is_at_rest(self, rest: Rest | None, time: int, requester: int, width: int | None) -> bool:
        """Whether a request has been answered by the repair from which a name rests."""
        return rest is not None and time < rest.end and self.serves(rest.mark, requester, width)

    def drawn(self, backoffs: int, interval: Interval, other: int) -> int:
        """The length of a timer, which takes one word."""
        factor = self.scenario.top.get("backoff", 2)
        share = factor ** min(backoffs, MOST_FACTORS[factor]) * self.half(other)
        low, high = share * interval.start.value // 1000, share * (interval.start.value + interval.width.value) // 1000
        return max(1, low + self.words.next() * (high - low + 1) // 2**32)

    def is_not_passed_over(self, expiry: int, rank: int, name: Numbers, row: Row) -> None:
        """Refuses a row before which a timer should have fired."""
        if (expiry, rank) < (row.time, RANKS[row.cause]):
            raise Wrong(f"{row}: a timer for {name} was passed over, which expires at {expiry}")

    def note_delay(self, name: Numbers, row: Row) -> None:
        """How long it was without a name until a request, or a repair before any, averaged."""
        lost = self.missing.get(name)
        if lost is not None and lost.backoffs == 0:
            self.requests.take_in_delay(row.time - lost.detected, self.half(name[0]))

    def back_off(self, name: Numbers, row: Row) -> None:
        lost = self.missing[name]
        self.is_not_passed_over(lost.expiry, RANKS["ask"], name, row)
        self.note_delay(name, row)
        lost.backoffs = min(lost.backoffs + 1, MOST_BACKOFFS)
        length = self.drawn(lost.backoffs, self.requests, name[0])
        lost.expiry, lost.ignore = row.time + length, row.time + length // 2

    def base(self, name: Numbers, other: int) -> int:
        """Half the round trip by which a rest is measured: at the source that to another member, which asked or repaired."""
        return self.half(other if name[0] == self.number else name[0])

    # ---- pages -------------------------------------------------------------------

    def meet(self, name: Numbers, late_first: int) -> Entry:
        """The entry of a page, made where there is none."""
        page = name[:2]
        if page not in self.entries:
            is_unwanted = self.role == "late" and name[1] not in self.pages
            self.entries[page] = Entry(late_first if is_unwanted else 0)
        return self.entries[page]

    def lose_up_to(self, name: Numbers, row: Row, begins: bool = True) -> list[Numbers]:
        """The names up to this one that were not heard of, each missing from now on. An event's first loss begins a period."""
        page, last = name[:2], name[2]
        entry = self.entries[page]
        lost = [(*page, number) for number in range(entry.next, last + 1)]
        if lost and begins:
            self.requests.begin_period()
        for it in lost:
            self.missing[it] = Missing(row.time, row.time + self.drawn(0, self.requests, it[0]))
        entry.next = max(entry.next, last + 1)
        return lost

    # ---- what comes of an event: the result, the names lost, and what is sent, if anything --------------

    def data(self, row: Row, packet: Packet) -> Outcome:
        name: Numbers = packet.tells
        if self.role == "listener":
            result = "again" if name in self.held else "fresh"
            self.held.add(name)
            return result, [], None
        entry = self.meet(name, name[2])
        if name[2] < entry.floor:
            return "skip", [], None
        if name[2] >= entry.next:
            lost = self.lose_up_to((*name[:2], name[2] - 1), row)
            entry.next = name[2] + 1
            self.held.add(name)
            return "fresh", lost, None
        if name in self.missing:
            self.is_not_passed_over(self.missing.pop(name).expiry, RANKS["ask"], name, row)
            self.held.add(name)
            return "fixed", [], None
        return "again", [], None

    def repair(self, row: Row, packet: Packet) -> Outcome:
        if self.role == "listener":
            return self.data(row, packet)
        self.note_delay(packet.tells, row)
        came = self.data(row, packet)
        if came[0] != "skip":
            self.hear_repair(row, packet, sender_of(row))
        return came

    def hear_repair(self, row: Row, packet: Packet, sender: int) -> None:
        """The name rests; its repair timer ends, if its request is answered; and what was sent for an own request is sent on."""
        name: Numbers = packet.tells
        timer, before = self.repairs.get(name), self.rests.get(name)
        asker = self.number if packet.requester is None else packet.requester
        mark = self.mark_of(packet, sender)
        self.rest(name, row, mark, sender)
        if timer is not None and self.serves(mark, timer.requester, timer.width):
            self.is_not_passed_over(timer.expiry, RANKS["answer"], name, row)
            self.end_timer(name, row)
        if timer is None and sender != packet.requester and self.is_at_rest(before, row.time, asker, packet.width):
            self.answers.hear_duplicate()
        is_own = self.steps == 2 and packet.requester == self.number
        if is_own and name not in self.repairs and not self.is_at_rest(before, row.time, self.number, packet.width):
            self.set_repair_timer(name, row, self.number, packet.width)

    def rest(self, name: Numbers, row: Row, mark: Mark | None, sender: int) -> None:
        """The name rests from now on, because of a repair of this mark that a member sent."""
        timer = self.repairs.get(name)
        other = sender if timer is None else timer.requester
        self.rests[name] = Rest(row.time + 3 * self.base(name, other), mark)

    def end_timer(self, name: Numbers, row: Row) -> None:
        """A repair timer ends, of which the interval hears how long it lasted; but not of one by which a repair is sent on."""
        timer = self.repairs.pop(name)
        if timer.requester != self.number:
            self.answers.take_in_delay(row.time - timer.begun, self.half(timer.requester))

    def set_repair_timer(self, name: Numbers, row: Row, requester: int, width: int | None) -> None:
        length = self.drawn(0, self.answers, requester)
        self.repairs[name] = RepairTimer(row.time, row.time + length, requester, width)

    def request(self, row: Row, packet: Packet) -> Outcome:
        name: Numbers = packet.tells
        if self.role == "listener" or name[2] < self.meet(name, name[2] + 1).floor:
            return "skip", [], None
        if name in self.held:
            return self.held_request(row, name, sender_of(row), packet.scope), [], None
        lost = self.lose_up_to(name, row)
        if row.time < self.missing[name].ignore:
            self.requests.hear_duplicate()
            return "hold", lost, None
        self.back_off(name, row)
        return "back", lost, None

    def held_request(self, row: Row, name: Numbers, requester: int, width: int | None) -> str:
        """What is made of a request for a name that is held. A pending timer answers the one that goes farther."""
        if self.is_at_rest(self.rests.get(name), row.time, requester, width):
            return "rest"
        timer = self.repairs.get(name)
        if timer is not None:
            is_for_another = timer.requester != self.number
            if is_for_another and timer.width is not None and (width is None or width > timer.width):
                timer.requester, timer.width = requester, width
            return "busy"
        self.answers.begin_period()
        self.set_repair_timer(name, row, requester, width)
        return "plan"

    def session(self, row: Row, packet: Packet) -> Outcome:
        if self.role == "listener":
            return "skip", [], None
        lost: list[Numbers] = []
        for name in packet.tells:
            self.meet(name, name[2] + 1)
            lost += self.lose_up_to(name, row, begins=not lost)
        return "told", lost, None

    def ask(self, row: Row) -> Outcome:
        name = row.ref
        if name is None or name not in self.missing or self.missing[name].expiry != row.time:
            raise Wrong(f"{row}: no request timer expires")
        scope = self.scope_of_request(self.missing[name].backoffs)
        if self.missing[name].backoffs == 0:
            self.requests.send_first()
        self.back_off(name, row)
        return "sent", [], Packet("request", name, scope)

    def answer(self, row: Row) -> Outcome:
        name = row.ref
        if name is None or name not in self.held or name not in self.repairs or self.repairs[name].expiry != row.time:
            raise Wrong(f"{row}: no repair timer expires")
        timer = self.repairs[name]
        sends = Packet("repair", name)
        if timer.width is not None:
            sends = Packet("repair", name, self.scope_of_repair(timer.requester, timer.width), timer.requester, timer.width)
        if timer.requester != self.number:
            self.answers.send_first()
        self.rest(name, row, self.mark_of(sends, self.number), self.number)
        self.end_timer(name, row)
        return "sent", [], sends

    def draw(self, row: Row) -> Outcome:
        page = self.scripted(self.draws, row)["page"]
        entry = self.entries.setdefault((self.number, page), Entry(0))
        if entry.next >= PAGE_FULL:
            return "skip", [], None
        name = self.number, page, entry.next
        self.held.add(name)
        entry.next += 1
        return "sent", [], Packet("data", name)

    def report(self, row: Row) -> Outcome:
        self.scripted(self.reports, row)
        return "sent", [], Packet("session", [(*page, entry.next - 1) for page, entry in sorted(self.entries.items())])

    def join(self, row: Row) -> Outcome:
        if self.joined is not None or row.time != self.scenario.members[self.number]["join"]:
            raise Wrong(f"{row}: it does not join now")
        self.joined = row.time
        return "in", [], None

    def leave(self, row: Row) -> Outcome:
        if row.time != self.scenario.members[self.number]["leave"]:
            raise Wrong(f"{row}: it does not leave now")
        self.nothing_is_pending(row.time)
        self.left = row.time
        return "out", [], None

    def scripted(self, acts: list[Table], row: Row) -> Table:
        """The next draw or session message, which has to be now."""
        if not acts or acts[-1]["at"] != row.time:
            raise Wrong(f"{row}: the scenario has none now")
        return acts.pop()

    def nothing_is_pending(self, last: int) -> None:
        """Refuses an end, of the member or of the run, at which an event up to this time is left."""
        timers = [(lost.expiry, "ask", name) for name, lost in self.missing.items()]
        timers += [(timer.expiry, "answer", name) for name, timer in self.repairs.items()]
        acts = [(it["at"], "draw or report") for it in self.draws + self.reports]
        left = [*(it for it in [*timers, *acts] if it[0] <= last), *sorted(self.inbox.items())]
        if left:
            raise Wrong(f"member {self.number}: pending at its end, and not handled: {left}")


def sender_of(row: Row) -> int:
    """Who sent the packet that arrives."""
    if row.ref is None:
        raise Wrong(f"{row}: no packet")
    return row.ref[0]


class Replay:
    """A trace so far: the members, the packets sent with what they carry, the losses, and what timers go by."""

    def __init__(self, scenario: Scenario, seed: int) -> None:
        self.scenario = scenario
        self.members = [Member(scenario, seed, number) for number in range(len(scenario.members))]
        self.packets: dict[Numbers, Packet] = {}
        self.losses: dict[tuple[int, Numbers], tuple[int, int | None]] = {}
        self.timers: list[tuple[Row, Timers]] = []
        self.last: tuple[int, ...] = ()

    def run(self, rows: list[Row]) -> dict[tuple[int, Numbers], tuple[int, int | None]]:
        """Each name that a member lost, with the times at which it missed it and took it in, or None."""
        for row in rows:
            self.take(row)
        for member in self.members:
            given = self.scenario.members[member.number]
            stays = given["leave"] is None or given["leave"] >= self.scenario.until
            if member.joined is None or (member.left is None) != stays:
                raise Wrong(f"member {member.number}: it did not join, or did not leave")
            if member.left is None:
                member.nothing_is_pending(self.scenario.until - 1)
        return self.losses

    def take(self, row: Row) -> None:
        if row.member >= len(self.members) or row.time >= self.scenario.until:
            raise Wrong(f"{row}: no such member, or not before until")
        member = self.members[row.member]
        if member.left is not None or (member.joined is None) != (row.cause == "join"):
            raise Wrong(f"{row}: the member is not there")
        self.keys_rise(row)
        heard = (self.handed(member, row),) if row.cause in ARRIVALS else ()
        constants = member.timers()[0]
        result, lost, sends = getattr(member, row.cause)(row, *heard)
        if member.timers()[0] != constants or row.cause == "join" and member.role != "listener":
            self.timers.append((row, member.timers()))
        if (row.result, row.lost) != (result, len(lost)):
            raise Wrong(f"{row}: its result is {result}, and it loses {lost}")
        self.note_losses(row, lost, heard)
        self.send(member, row, sends)

    def keys_rise(self, row: Row) -> None:
        """Keys rise; draws and session messages of one tick, which show no place, are told apart by the script."""
        rank = RANKS[row.cause]
        key = row.time, row.member, rank, *(row.ref if row.cause not in ("draw", "report") and row.ref else ())
        if key < self.last or (key == self.last and row.cause not in ("draw", "report")):
            raise Wrong(f"{row}: it stands below {self.last}")
        self.last = key

    def handed(self, member: Member, row: Row) -> Packet:
        """The packet that arrives now."""
        if row.ref is None or member.inbox.pop(row.ref, None) != row.time:
            raise Wrong(f"{row}: this packet does not arrive now, or did already")
        packet = self.packets[row.ref]
        if packet.kind != row.cause:
            raise Wrong(f"{row}: the packet is {packet}")
        return packet

    def note_losses(self, row: Row, lost: list[Numbers], heard: tuple[Packet, ...]) -> None:
        for name in lost:
            if (row.member, name) in self.losses:
                raise Wrong(f"{row}: {name} was lost before")
            self.losses[row.member, name] = row.time, None
        if row.result == "fixed":
            name = heard[0].tells
            detected, recovered = self.losses[row.member, name]
            if recovered is not None:
                raise Wrong(f"{row}: {name} was fixed before")
            self.losses[row.member, name] = detected, row.time

    def send(self, member: Member, row: Row, sends: Packet | None) -> None:
        """A packet that is sent is on its way to each member that it reaches and that is there when it arrives."""
        packet = None if sends is None else (row.member, member.sent)
        if row.sent != packet or (row.cause in ("ask", "answer", "draw") and sends is not None and row.ref != sends.tells):
            raise Wrong(f"{row}: it sends {packet}, {sends}")
        if packet is None or sends is None:
            return
        member.sent += 1
        self.packets[packet] = sends
        for hearer in self.scenario.fate(*packet, row.time, sends.scope).reached:
            arrival = row.time + self.scenario.distance(row.member, hearer)
            if self.scenario.is_present(hearer, arrival):
                self.members[hearer].inbox[packet] = arrival
