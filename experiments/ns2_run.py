"""Runs of a sweep by the SRM agent of ns-2 in place of srm_lab: their rounds of loss, in the same tables.

Where members adapt their timers, it is Agent/SRM/Adaptive as it ships, for a group of so many members, and otherwise
Agent/SRM.
"""
from collections.abc import Iterable, Iterator
from typing import Any

from ns2_agent import Result, ns2
from srm_lab import Scenario

LOSSES = "seed,member,source,page,number,detected,recovered,delay"
OPERATIONS = "seed,source,page,number,losers,recovered,left,detected,asked,requests,repairs,last,delay"


def losses_of(given: Scenario, result: Result) -> Iterator[tuple[Any, ...]]:
    """The rows of the table of losses; the source is member 0, and draws on page 0."""
    for (member, number), (detected, recovered) in sorted(result.losses.items()):
        yield member, 0, 0, number, detected, recovered, delay_of(given, member, detected, recovered)


def delay_of(given: Scenario, member: int, detected: float, recovered: float | None) -> str | None:
    """How long a recovery took, over the round trip to the source."""
    return None if recovered is None else f"{recovered - detected}/{given.round_trip(member, 0)}"


def operations_of(given: Scenario, result: Result) -> Iterator[tuple[Any, ...]]:
    """The rows of the table of operations."""
    for number in sorted({number for _, number in result.losses}):
        losses = [(member, *ends) for (member, name), ends in result.losses.items() if name == number]
        done = [(recovered, -member, detected) for member, detected, recovered in losses if recovered is not None]
        asked = [time for time, _, kind, name in result.sent if (kind, name) == ("ask", number)]
        repairs = sum((kind, name) == ("answer", number) for _, _, kind, name in result.sent)
        last: tuple[Any, ...] = (None, None)
        if len(done) == len(losses):
            recovered, member, detected = max(done)
            last = -member, delay_of(given, -member, detected, recovered)
        yield (0, 0, number, len(losses), len(done), 0, min(detected for _, detected, _ in losses),
               min(asked, default=None), len(asked), repairs, *last)


def tables_of(given: dict[int, Scenario]) -> dict[str, bytes]:
    """The tables of runs of scenarios, each with a seed of ns-2's own random numbers."""
    results = {seed: ns2(one.text(), seed=seed) for seed, one in given.items()}
    return {name: written(header, ((seed, *row) for seed, result in results.items() for row in rows_of(given[seed], result)))
            for name, header, rows_of in (("losses", LOSSES, losses_of), ("operations", OPERATIONS, operations_of))}


def written(header: str, rows: Iterable[tuple[Any, ...]]) -> bytes:
    """A table as srm_lab writes it."""
    lines = (",".join("-" if field is None else str(field) for field in row) for row in rows)
    return "".join(f"{line}\n" for line in (header, *lines)).encode()
