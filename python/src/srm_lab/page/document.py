"""What of a run stands in its page: the scenario, and the trace in columns, compressed."""
import base64
import json
import zlib
from collections.abc import Iterable, Iterator
from typing import Any

from ..history import History
from ..scenario import Scenario
from .columns import packed, steps
from .cut import Cut, Part, part_of
from .lengths import lengths_of
from .network import links_of
from .run import Name, events_of

CAUSES = ("join", "data", "request", "repair", "session", "ask", "answer", "draw", "report", "leave")
RESULTS = ("in", "out", "fresh", "fixed", "again", "skip", "rest", "busy", "plan", "hold", "back", "told", "sent")
KINDS = ("data", "request", "repair", "session")


class Document:
    """A run's page as data."""

    def __init__(self, given: Scenario, rows: Iterable[Any], seed: int = 0, cut: Cut = Cut()) -> None:
        self.given, self.seed, self.cut = given, seed, cut
        self.all = list(events_of(History(given, rows)))
        last = self.all[-1].row.time if self.all else 0
        self.lengths = lengths_of(given, self.all, seed, last)
        self.part: Part = part_of(self.all, cut)
        self.packets = self._packets()
        self.names = sorted({name for event in self.part.events for name in self._shown(event.names)}
                            | {tuple(packet.name) for packet in self.packets if packet.name})
        self.number = {name: place for place, name in enumerate(self.names)}

    def _shown(self, names: Iterable[Name]) -> Iterator[Name]:
        """Those of some names that the page tells of."""
        return (name for name in names if self.part.names is None or name in self.part.names)

    def _packets(self) -> list[Any]:
        """The packets that the rows tell of, in the order in which they were sent."""
        wanted = {id(it) for event in self.part.events for it in (event.packet, event.sent) if it is not None}
        sent = (event.sent for event in self.all if event.sent is not None)
        return [packet for packet in sent if id(packet) in wanted]

    def about(self, title: str, comments: list[str]) -> dict[str, Any]:
        """All but the columns: the scenario, and what of the trace is there."""
        given = self.given.settled
        members = [[it.node, it.role, it.stream, it.join, it.leave, list(it.pages or ())] for it in given.members]
        return {
            "title": title,
            "comments": comments,
            "seed": str(self.seed),
            "until": given.end,
            "constants": [given.c1, given.c2, given.d1, given.d2],
            "kind": given.tree.shorthand.get("topology", "links"),
            "nodes": given.tree.nodes,
            "links": [list(link) for link in links_of(given)],
            "members": members,
            "drops": sorted({(it.link, it.sender, it.count) for it in given.drops}),
            "outages": [[it.link, it.first, it.end] for it in given.outages],
            "losses": [[it.link, it.rate, str(it.stream), it.first, it.end, it.burst] for it in given.random_losses],
            "steps": given.steps,
            "names": self.names,
            "told": None if self.part.names is None else [int(name in self.part.names) for name in self.names],
            "timers": self.lengths is not None,
            "cut": self._cut(),
        }

    def _cut(self) -> dict[str, Any]:
        """What the page leaves out."""
        cut = self.cut
        return {"rows": len(self.all), "shown": len(self.part.events), "tooMany": self.part.too_many, "most": cut.most,
                "from": cut.begin, "to": cut.end, "names": sorted(cut.names),
                "last": self.all[-1].row.time if self.all else 0}

    def columns(self) -> dict[str, list[int]]:
        """The columns by name, each of numbers that are not negative."""
        events = self.part.events
        place = {id(packet): at for at, packet in enumerate(self.packets)}
        sent_at = {id(event.sent): at for at, event in enumerate(events) if event.sent is not None}
        return {
            "rowNumber": list(steps(event.number for event in events)),
            "rowTime": list(steps(event.row.time for event in events)),
            "rowMember": list(steps(event.row.member for event in events)),
            "rowCause": [CAUSES.index(event.row.cause) for event in events],
            "rowResult": [RESULTS.index(event.row.result) for event in events],
            "rowLost": [event.row.lost for event in events],
            "rowPacket": list(steps(place[id(event.packet)] for event in events if event.packet is not None)),
            "rowName": list(steps(self.number.get(event.name, -1) for event in events
                                  if event.packet is None and event.name is not None)),
            "lostCount": [sum(1 for _ in self._shown(event.lost)) for event in events if event.lost],
            "lostName": list(steps(self.number[name] for event in events for name in self._shown(event.lost))),
            "timerLength": self._timer_lengths(),
            "packetSender": [packet.sender for packet in self.packets],
            "packetCount": list(steps(packet.count for packet in self.packets)),
            "packetKind": [KINDS.index(packet.kind) for packet in self.packets],
            "packetName": [0 if packet.name is None else 1 + self.number[tuple(packet.name)]
                           for packet in self.packets],
            "packetTime": list(steps(packet.time for packet in self.packets)),
            "packetRow": [1 + sent_at.get(id(packet), -1) for packet in self.packets],
            "packetScope": [packet.scope or 0 for packet in self.packets],
            "packetRequester": [0 if packet.asked is None else 1 + packet.asked.requester for packet in self.packets],
            "packetWidth": [0 if packet.asked is None else packet.asked.width or 0 for packet in self.packets],
        }

    def _timer_lengths(self) -> list[int]:
        """The lengths of the timers that the shown rows set, of the names that the page tells of."""
        if self.lengths is None:
            return []
        return [length for event in self.part.events for timer, length in zip(event.timers, self.lengths[event.number])
                if self.part.names is None or tuple(timer.name) in self.part.names]

    def payload(self, title: str, comments: list[str]) -> str:
        """The page's data: the JSON of `about` with each column's place, then the columns, deflated, in base 64."""
        blocks = {name: packed(numbers) for name, numbers in self.columns().items()}
        about = self.about(title, comments)
        about["columns"] = [[name, len(block)] for name, block in blocks.items()]
        head = json.dumps(about, separators=(",", ":")).encode()
        body = packed([len(head)]) + head + b"".join(blocks.values())
        return base64.b64encode(zlib.compress(body, 9)).decode()
