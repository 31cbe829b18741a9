"""A picture of a run: an SVG with time across and the members down, in order of their way from the source.

usage: python3 -m srm_lab.picture SCENARIO TRACE [--seed N] [--from TICK] [--to TICK] > PICTURE.svg
"""
import argparse
import math
import sys
from collections.abc import Sequence
from html import escape

from .errors import ScenarioError
from .flight import Flight
from .follower import Packet
from .history import History
from .loss import Loss
from .reading import load_scenario
from .tables import read_trace
from .timer import Timer

COLOURS = {"data": "#0072b2", "request": "#d55e00", "repair": "#009e73", "session": "#888888"}
Point = tuple[float, float]
LEFT, RIGHT, TOP, BOTTOM = 130, 30, 78, 48
STYLE = """
text { font: 13px sans-serif; fill: #222 }
.small { font-size: 11px; fill: #555 }
.row { stroke: #ddd }
.axis { stroke: #444 }
.loss { fill: #cc79a7; opacity: 0.35 }
.cross { stroke: #c00; stroke-width: 2.5 }
.packet { stroke-width: 1.4; fill: none }
.timer { stroke-width: 2 }
.leave { stroke: #222; stroke-width: 3 }
"""


class Picture:
    """The SVG of a history between two ticks, in the run of a seed."""

    def __init__(self, history: History, begin: int, end: int, seed: int = 0):
        self.history, self.given, self.seed = history, history.given, seed
        self.begin, self.end = begin, max(end, begin + 1)
        self.order = self._order()
        self.row = {member: place for place, member in enumerate(self.order)}
        self.at_node = {about.node: member for member, about in enumerate(self.given.members)}
        self.step = max(14, min(56, 900 // max(1, len(self.order))))
        self.width = 1000
        self.height = TOP + BOTTOM + self.step * max(1, len(self.order))
        self.parts: list[str] = []

    def _order(self) -> list[int]:
        members = range(len(self.given.members))
        if not members:
            return []
        source = self.given.source()
        return sorted(members, key=lambda member: (self.given.distance(source, member), member))

    def x(self, time: float) -> float:
        inner = self.width - LEFT - RIGHT
        return round(LEFT + inner * (time - self.begin) / (self.end - self.begin), 2)

    def y(self, member: int) -> float:
        return TOP + self.step * self.row[member] + self.step / 2

    def inside(self, time: float) -> bool:
        return self.begin <= time <= self.end

    def add(self, text: str) -> None:
        self.parts.append(text)

    def line(self, start: Point, end: Point, style: str, told: str = "") -> None:
        title = f"<title>{escape(told)}</title>" if told else ""
        self.add(f'<line x1="{start[0]}" y1="{start[1]}" x2="{end[0]}" y2="{end[1]}" {style}>{title}</line>')

    def svg(self) -> str:
        """The whole picture."""
        self._legend()
        self._axis()
        self._members()
        for loss in self.history.losses:
            self._loss(loss)
        for packet in self.history.packets.values():
            self._packet(packet)
        for timer in self.history.timers:
            self._timer(timer)
        for timer in self.history.timers:
            self._timer_set(timer)
        for timer in self.history.timers:
            self._timer_ended(timer)
        for member, at in self.history.leaves.items():
            self._leave(member, at)
        body = "\n".join(self.parts)
        return (f'<svg xmlns="http://www.w3.org/2000/svg" viewBox="0 0 {self.width} {self.height}" '
                f'width="{self.width}" height="{self.height}">\n<style>{STYLE}</style>\n'
                f'<rect width="100%" height="100%" fill="white"/>\n{body}\n</svg>\n')

    def _legend(self) -> None:
        at = LEFT
        for kind, colour in COLOURS.items():
            self.line((at, 18), (at + 26, 26), f'class="packet" stroke="{colour}"')
            self.add(f'<text x="{at + 32}" y="27">{kind}</text>')
            at += 110
        self._cross(at + 8, 22)
        self.add(f'<text x="{at + 20}" y="27">dropped</text>')
        if self.history.leaves:
            self.line((at + 110, 14), (at + 110, 30), 'class="leave"')
            self.add(f'<text x="{at + 120}" y="27">leaves</text>')
        at = LEFT
        self.add(f'<rect class="loss" x="{at}" y="42" width="26" height="12"/>')
        leave = " or leave" if self.history.leaves else ""
        self.add(f'<text x="{at + 32}" y="53">lacked: from detection to recovery{leave}</text>')
        at += 320 if leave else 270
        for mark, told in (("set", "timer set"), ("expired", "expired"), ("stopped", "stopped or set anew")):
            self.line((at, 48), (at + 24, 48), 'class="timer" stroke="#555"')
            self._mark(at + 12, 48, "#555", mark)
            self.add(f'<text x="{at + 30}" y="53">{told}</text>')
            at += 110

    def _axis(self) -> None:
        bottom = self.height - BOTTOM + 6
        self.line((LEFT, bottom), (self.width - RIGHT, bottom), 'class="axis"')
        step = nice_step(self.end - self.begin)
        tick = math.ceil(self.begin / step) * step
        while tick <= self.end:
            self.line((self.x(tick), bottom), (self.x(tick), bottom + 5), 'class="axis"')
            self.add(f'<text class="small" text-anchor="middle" x="{self.x(tick)}" y="{bottom + 18}">{tick}</text>')
            tick += step
        middle = (LEFT + self.width - RIGHT) / 2
        self.add(f'<text text-anchor="middle" x="{middle}" y="{bottom + 36}">time (ticks)</text>')

    def _members(self) -> None:
        source = self.given.source()
        for member in self.order:
            y = self.y(member)
            joined, left = self.history.joins.get(member, self.begin), self.history.leaves.get(member, self.end)
            if joined <= self.end and left >= self.begin:
                self.line((self.x(max(joined, self.begin)), y), (self.x(min(left, self.end)), y), 'class="row"')
            self.add(f'<text text-anchor="end" x="{LEFT - 12}" y="{y + 1}">member {member}</text>')
            if self.step >= 28:
                way = self.given.distance(source, member)
                role = self.given.members[member].role
                told = f"{role}, {way} away" if way else role
                self.add(f'<text class="small" text-anchor="end" x="{LEFT - 12}" y="{y + 14}">{told}</text>')

    def _loss(self, loss: Loss) -> None:
        end = self.end if loss.end is None else loss.end
        if end < self.begin or loss.detected > self.end:
            return
        left, right = self.x(max(loss.detected, self.begin)), self.x(min(end, self.end))
        tall = min(16, self.step - 2)
        until = {"recovered": f"to {loss.end}", "left": f"till it leaves at {loss.end}", "open": "to the end"}
        told = f"member {loss.member} lacks {slashed(loss.name)} from {loss.detected} {until[loss.ended]}"
        self.add(f'<rect class="loss" x="{left}" y="{self.y(loss.member) - tall / 2}" width="{round(right - left, 2)}" '
                 f'height="{tall}"><title>{escape(told)}</title></rect>')

    def _leave(self, member: int, at: int) -> None:
        """A bar at the tick of a leave; after it the member's line ends."""
        if self.inside(at):
            x, y, half = self.x(at), self.y(member), min(10, self.step / 2)
            self.line((x, y - half), (x, y + half), 'class="leave"', f"member {member} leaves at {at}")

    def _packet(self, packet: Packet) -> None:
        """Lines from member to member along the packet's ways, and a cross on each link that drops it."""
        node = self.given.members[packet.sender].node
        flight = Flight(packet, self.given, node, self.seed)
        told = f"{packet.kind} {packet.sender}:{packet.count}"
        told += f" of {slashed(packet.name)}" if packet.name else ""
        stroke = f'class="packet" stroke="{COLOURS[packet.kind]}"'
        for member in self.order:
            target = self.given.members[member].node
            near, heard = flight.before(target), flight.heard_before(target)
            if near is None or heard is None:
                continue
            dropped, arrival = flight.dropped(near, target), flight.time_at(target)
            if dropped is not None:
                self._dropped((near, member), (flight.time_at(near), dropped, arrival), stroke, told)
            elif member in packet.heard and self.inside(flight.time_at(heard)) and self.inside(arrival):
                start = (self.x(flight.time_at(heard)), self.y(self.at_node[heard]))
                self.line(start, (self.x(arrival), self.y(member)), stroke, told)

    def _dropped(self, ends: tuple[int, int], times: tuple[int, float, int], stroke: str, told: str) -> None:
        """The line to the middle of the link that drops, and a cross there."""
        (near, member), (start, gone, arrival) = ends, times
        if not self.inside(start) or not self.inside(gone):
            return
        top = self.y(self.at_node[near])
        x, y = self.x(gone), round(top + (gone - start) / (arrival - start) * (self.y(member) - top), 2)
        self.line((self.x(start), top), (x, y), stroke, told)
        self._cross(x, y, f"{told}: dropped")

    def _cross(self, x: float, y: float, told: str = "") -> None:
        title = f"<title>{escape(told)}</title>" if told else ""
        self.add(f'<path class="cross" d="M{x - 5} {y - 5} L{x + 5} {y + 5} M{x - 5} {y + 5} L{x + 5} {y - 5}">'
                 f"{title}</path>")

    def _timer(self, timer: Timer) -> None:
        end = self.end if timer.end is None else timer.end
        if end < self.begin or timer.start > self.end:
            return
        y, colour = self.y(timer.member), COLOURS[timer.kind]
        told = (f"member {timer.member}: {timer.kind} timer of {slashed(timer.name)} set at {timer.start}, "
                f"{timer.how + ' at ' + str(timer.end) if timer.how else 'running at the end'}")
        self.line((self.x(max(timer.start, self.begin)), y), (self.x(min(end, self.end)), y),
                  f'class="timer" stroke="{colour}"', told)

    def _timer_set(self, timer: Timer) -> None:
        if self.inside(timer.start):
            self._mark(self.x(timer.start), self.y(timer.member), COLOURS[timer.kind], "set")

    def _timer_ended(self, timer: Timer) -> None:
        if timer.end is not None and self.inside(timer.end):
            mark = "expired" if timer.how == "expired" else "stopped"
            self._mark(self.x(timer.end), self.y(timer.member), COLOURS[timer.kind], mark)

    def _mark(self, x: float, y: float, colour: str, mark: str) -> None:
        if mark == "stopped":
            self.line((x, y - 5), (x, y + 5), f'class="timer" stroke="{colour}"')
        else:
            fill = colour if mark == "expired" else "white"
            size = 4.5 if mark == "expired" else 3
            self.add(f'<circle cx="{x}" cy="{y}" r="{size}" fill="{fill}" stroke="{colour}" stroke-width="1.5"/>')


def slashed(name: tuple[int, ...]) -> str:
    return "/".join(map(str, name))


def nice_step(span: int) -> int:
    """A round distance between the marks of an axis: some ten of them."""
    step = 10 ** math.floor(math.log10(max(1, span / 10)))
    return next(step * factor for factor in (1, 2, 5, 10) if span / (step * factor) <= 12)


def main(words: Sequence[str] | None = None) -> int:
    parser = argparse.ArgumentParser(prog="python3 -m srm_lab.picture", description=__doc__.splitlines()[0])
    parser.add_argument("scenario")
    parser.add_argument("trace")
    parser.add_argument("--seed", type=int, default=0, help="the seed of the run, by which losses at random go (default 0)")
    parser.add_argument("--from", dest="begin", type=int, default=0, metavar="TICK", help="first tick shown")
    parser.add_argument("--to", dest="end", type=int, metavar="TICK",
                        help="last tick shown (default: of the last event)")
    options = parser.parse_args(words)
    try:
        given = load_scenario(options.scenario)
        with open(options.trace, encoding="utf-8", newline="") as lines:
            history = History(given, read_trace(lines))
    except (ScenarioError, OSError) as fault:
        sys.stderr.write(f"picture: {fault}\n")
        return 1
    end = history.end if options.end is None else options.end
    sys.stdout.write(Picture(history, options.begin, end, options.seed).svg())
    return 0


if __name__ == "__main__":
    sys.exit(main())
