"""Reading the trace that the program writes."""
from collections.abc import Iterable, Iterator
from typing import NamedTuple

from .errors import ScenarioError

HEADER = "time,member,cause,ref,result,lost,sent"


class Row(NamedTuple):
    """A line of the trace; `lost` is a number, the other fields but `time` and `member` are as they stand."""

    time: int
    member: int
    cause: str
    ref: str
    result: str
    lost: int
    sent: str


def read_trace(lines: Iterable[str]) -> Iterator[Row]:
    """The rows of a trace, from its lines with the header."""
    several = iter(lines)
    header = next(several, "").rstrip("\r\n")
    if header != HEADER:
        raise ScenarioError(f"this is no trace: its first line is {header!r}, and has to be {HEADER}")
    for place, line in enumerate(several, 2):
        fields = line.rstrip("\r\n").split(",")
        try:
            time, member, cause, ref, result, lost, sent = fields
            yield Row(int(time), int(member), cause, ref, result, int(lost), sent)
        except ValueError:
            raise ScenarioError(f"line {place} is no line of a trace: {line.rstrip()!r}") from None
