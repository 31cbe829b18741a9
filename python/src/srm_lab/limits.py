"""The ranges of the scenario format (docs/FORMATS.md), one row for each of its versions."""
from collections.abc import Sequence
from dataclasses import dataclass, replace
from operator import index
from typing import Any

from .errors import ScenarioError


@dataclass(frozen=True)
class Limits:
    """What one version of the format has room for, and what it has: links with two delays, outages, adaptive timers.

    `large` says whether it has networks by parents, and elements that stand for several, `losses` whether links lose
    packets at random, and `local` whether members recover locally, and such losses come in bursts.
    """

    nodes: int
    members: int
    two_way: bool
    outages: bool
    adaptive: bool = False
    large: bool = False
    losses: bool = False
    local: bool = False
    elements: int = 4096
    pages: int = 256
    page: int = 65_535
    delay: int = 1_000_000
    constant: int = 64_000
    time: int = 2**40
    ink: int = 2**32 - 1
    count: int = 2**32 - 1
    stream: int = 2**63 - 1
    rate: int = 1_000_000
    hops: int = 65_535
    tries: int = 10
    steps: int = 2
    bytes: int = 1_048_576


VERSIONS = {
    1: Limits(nodes=256, members=256, two_way=False, outages=False),
    2: Limits(nodes=1024, members=1024, two_way=True, outages=True),
    3: Limits(nodes=65_535, members=65_535, two_way=True, outages=True, adaptive=True, large=True, elements=65_535,
              constant=1_024_000),
}
VERSIONS[4] = replace(VERSIONS[3], losses=True)
VERSIONS[5] = replace(VERSIONS[4], local=True)
NEWEST = VERSIONS[max(VERSIONS)]
MOST_NODES = NEWEST.nodes
MOST_DELAY = NEWEST.delay
MOST_TIME = NEWEST.time
MOST_SEED = NEWEST.stream
# operations that a sender can draw on one page
MOST_NUMBERS = 4096


def are_within(values: Sequence[Any], least: int, most: int) -> bool:
    """Whether all of these are whole numbers from least to most."""
    return {*map(type, values)} <= {int} and (not values or least <= min(values) and max(values) <= most)


def within(what: str, value: object, least: int, most: int) -> int:
    """The value, if it is a whole number, also one of numpy's, from least to most."""
    try:
        number = index(value)  # type: ignore[arg-type]
    except TypeError:
        number = None
    if number is None or isinstance(value, bool):
        raise ScenarioError(f"{what} is {value!r}, and has to be a whole number")
    if not least <= number <= most:
        raise ScenarioError(f"{what} is {number}, and has to be {least} to {most}")
    return number
