"""A run as the page needs it: rows with the names that each lost, and packets in the order in which they were sent."""
from collections.abc import Iterator
from dataclasses import dataclass, field
from typing import Any

from ..history import History

Name = tuple[int, ...]


@dataclass
class Event:
    """A row of the trace, with its number and what it is about."""

    number: int
    row: Any
    packet: Any = None
    name: Name | None = None
    lost: list[Name] = field(default_factory=list)
    timers: list[Any] = field(default_factory=list)
    sent: Any = None

    @property
    def names(self) -> set[Name]:
        """The operations that this row concerns."""
        return {*self.lost, *([self.name] if self.name else [])}


def events_of(history: History) -> Iterator[Event]:
    """The rows of a history in order, each with its packet, the names that it lost and the timers that it set.

    A history lists losses and timers in the order of the rows that brought them.
    """
    losses, timers = iter(history.losses), iter(history.timers)
    for number, row in enumerate(history.rows):
        event = Event(number, row)
        event.packet = history.packets[row.ref] if ":" in row.ref else None
        event.name = name_of(row, event.packet)
        event.lost = [tuple(next(losses).name) for _ in range(row.lost)]
        event.timers = [next(timers) for _ in range(history.set_in[number])]
        event.sent = history.packets[row.sent] if row.sent != "-" else None
        yield event


def name_of(row: Any, packet: Any) -> Name | None:
    """The operation that a row is about, if it is about one."""
    if packet is not None:
        return None if packet.name is None else tuple(packet.name)
    return tuple(map(int, row.ref.split("/"))) if "/" in row.ref else None
