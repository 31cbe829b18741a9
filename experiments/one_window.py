#!/usr/bin/env python3
"""Draws one window of a run, as an SVG: time across, members down, its own events, and what is handed over after it.

usage: PYTHONPATH=python/src experiments/one_window.py SCENARIO TRACE TICK > PICTURE.svg

The window is the one by promises that has TICK. It begins with a row, and ends at the least promise: a member's next
own event and its way to the nearest other member. In a trace a member's next own event before the end is its next row,
since nothing that is sent in the window arrives before the end. The picture of docs/MODEL.md is

    experiments/one_window.py examples/star-of-unequal-links.toml examples/star-of-unequal-links.trace.csv 114
"""
import argparse
import sys
from collections.abc import Sequence
from dataclasses import dataclass
from html import escape

from srm_lab.flight import Flight
from srm_lab.follower import Packet
from srm_lab.history import History
from srm_lab.picture import COLOURS, LEFT, STYLE as STYLE_OF_PICTURES, TOP, Picture
from srm_lab.reading import load_scenario
from srm_lab.scenario import Scenario
from srm_lab.tables import Row, read_trace

BEFORE, AFTER = 15, 14
TALL = 92
LOWER = 30
LETTER = 7
STYLE = """
.window { fill: #f5ecd0 }
.end { stroke: #8a6d00; stroke-width: 2.5 }
.promise { stroke: #8a6d00; stroke-width: 1.6; stroke-dasharray: 4 3 }
.bar { stroke: #8a6d00; stroke-width: 2.5 }
.told { fill: #8a6d00; font-size: 12px }
.before { opacity: 0.45 }
.halo { paint-order: stroke; stroke: white; stroke-width: 4px; stroke-opacity: 0.8 }
.told.halo, .in.halo { stroke: #fdfaf0 }
"""


@dataclass(frozen=True)
class Window:
    """The rows from a tick up to below an end, and the promises of the members that have a row there."""

    begin: int
    end: int
    rows: list[Row]
    promises: dict[int, tuple[int, int]]


def way(given: Scenario, member: int) -> int | None:
    """The distance from a member to the nearest other one, or None where it sends nothing or is alone."""
    others = [given.distance(member, other) for other in range(len(given.members)) if other != member]
    return min(others) if others and given.members[member].role != "listener" else None


def window_from(given: Scenario, rows: Sequence[Row]) -> Window:
    """The window that begins with the first of these rows."""
    first: dict[int, int] = {}
    for row in rows:
        first.setdefault(row.member, row.time)
    ways = {member: near for member in first if (near := way(given, member)) is not None}
    promises = {member: (first[member], first[member] + near) for member, near in ways.items()}
    end = min([given.end, *(by for _, by in promises.values())])
    kept = [row for row in rows if row.time < end]
    shown = {member: promise for member, promise in promises.items() if promise[0] < end}
    return Window(rows[0].time, end, kept, shown)


def window_at(given: Scenario, rows: Sequence[Row], tick: int) -> Window:
    """The window that has a tick."""
    while rows:
        found = window_from(given, rows)
        if tick < found.end:
            return found
        rows = rows[len(found.rows):]
    raise SystemExit(f"no window has tick {tick}")


class WindowPicture(Picture):
    """The SVG of one window and what is around it."""

    def __init__(self, history: History, window: Window):
        super().__init__(history, max(0, window.begin - BEFORE), window.end + AFTER)
        self.window = window
        self.step = TALL
        self.height = TOP + 70 + TALL * len(self.order)
        self.sent = {row.sent for row in window.rows if row.sent != "-"}

    def svg(self) -> str:
        """The whole picture."""
        self._ground()
        self._axis()
        self._members()
        for told, packet in self.history.packets.items():
            self._ways(packet, told in self.sent)
        for member in self.order:
            self._promise(member)
        for row in self.window.rows:
            self._event(row)
        self._words()
        body = "\n".join(self.parts)
        return (f'<svg xmlns="http://www.w3.org/2000/svg" viewBox="0 0 {self.width} {self.height}" '
                f'width="{self.width}" height="{self.height}">\n<style>{STYLE_OF_PICTURES}{STYLE}</style>\n'
                f'<rect width="100%" height="100%" fill="white"/>\n{body}\n</svg>\n')

    def _ground(self) -> None:
        """The window's ground, and its two ends."""
        left, right = self.x(self.window.begin), self.x(self.window.end)
        tall = TALL * len(self.order)
        self.add(f'<rect class="window" x="{left}" y="{TOP}" width="{round(right - left, 2)}" height="{tall}"/>')
        self.line((right, TOP - 8), (right, TOP + tall), 'class="end"')
        self.add(f'<text class="told" text-anchor="middle" x="{round((left + right) / 2, 2)}" y="{TOP - 12}">'
                 f"the window: from {self.window.begin} up to below {self.window.end}</text>")

    def _ways(self, packet: Packet, in_window: bool) -> None:
        """A line from the sender's event to each member that hears the packet."""
        told = f"{packet.kind} {packet.sender}:{packet.count}"
        flight = Flight(packet, self.given, self.given.members[packet.sender].node)
        if packet.time > self.window.end:
            return
        for member, at in packet.heard.items():
            if not self.inside(packet.time) or not self.inside(at):
                continue
            assert at == flight.time_at(self.given.members[member].node)
            assert not in_window or at >= self.window.end, "a packet of the window arrives in it"
            kept = "" if in_window else " before"
            self.line((self.x(packet.time), self.y(packet.sender)), (self.x(at), self.y(member)),
                      f'class="packet{kept}" stroke="{COLOURS[packet.kind]}"', f"{told} to member {member} at {at}")
            if in_window:
                self.add(f'<circle cx="{self.x(at)}" cy="{self.y(member)}" r="5" fill="white" '
                         f'stroke="{COLOURS[packet.kind]}" stroke-width="2"><title>{escape(told)}</title></circle>')
                self.add(f'<text class="small halo" x="{self.x(at) + 7}" y="{self.y(member) + 14}">'
                         f"{packet.sender}:{packet.count} at {at}</text>")

    def _promise(self, member: int) -> None:
        """From a member's next own event to its promise."""
        y = self.y(member) + LOWER
        if member not in self.window.promises:
            self.add(f'<text class="told halo" x="{self.x(self.window.begin) + 6}" y="{self.y(member) - 12}">'
                     "nothing pending before the end</text>")
            return
        begin, by = self.window.promises[member]
        self.line((self.x(begin), self.y(member)), (self.x(begin), y), 'class="promise"')
        self.line((self.x(begin), y), (self.x(by), y), 'class="promise"')
        self.line((self.x(by), y - 7), (self.x(by), y + 7), 'class="bar"')
        least = ", the least" if by == self.window.end else ""
        self.add(f'<text class="told halo" x="{self.x(by) + 6}" y="{y + 5}">'
                 f"{begin} + {by - begin}: promise {by}{least}</text>")

    def _event(self, row: Row) -> None:
        """An own event of the window."""
        sent = row.sent != "-"
        what = f"{row.cause} of {row.ref}, sends {row.sent}" if sent else f"{row.cause} {row.ref}: {row.result}"
        told, x, y = f"{row.time}: {what}", self.x(row.time), self.y(row.member)
        fits = x + LETTER * len(told) < self.x(self.window.end)
        self.add(f'<circle cx="{x}" cy="{y}" r="6" fill="#222"/>')
        anchor, at = ("start", x - 6) if fits else ("end", x + 6)
        self.add(f'<text class="in halo" text-anchor="{anchor}" x="{at}" y="{y - 12}">{escape(told)}</text>')

    def _words(self) -> None:
        """What the marks mean."""
        at = LEFT
        self.add(f'<circle cx="{at + 6}" cy="22" r="6" fill="#222"/>')
        self.add(f'<text x="{at + 20}" y="27">own event in the window</text>')
        at += 200
        self.add(f'<circle cx="{at + 6}" cy="22" r="5" fill="white" stroke="{COLOURS["request"]}" stroke-width="2"/>')
        self.add(f'<text x="{at + 20}" y="27">handed over after the window</text>')
        at += 230
        self.line((at, 22), (at + 40, 22), 'class="promise"')
        self.line((at + 40, 15), (at + 40, 29), 'class="bar"')
        self.add(f'<text x="{at + 50}" y="27">next own event, the way to the nearest member, promise</text>')


def main(words: Sequence[str] | None = None) -> None:
    parser = argparse.ArgumentParser(description=__doc__, formatter_class=argparse.RawDescriptionHelpFormatter)
    parser.add_argument("scenario")
    parser.add_argument("trace")
    parser.add_argument("tick", type=int)
    asked = parser.parse_args(words)
    given = load_scenario(asked.scenario)
    with open(asked.trace, newline="", encoding="utf-8") as lines:
        history = History(given, read_trace(lines))
    sys.stdout.write(WindowPicture(history, window_at(given, history.rows, asked.tick)).svg())


if __name__ == "__main__":
    main()
