"""Checking a scenario: its keys, and that its parts fit each other. What was checked and did not change is left out."""
from collections.abc import Collection
from operator import attrgetter
from typing import TYPE_CHECKING, Any

from . import writing
from .form import PARTS, are_faultless, check_keys, elements
from .kept import kept_of
from .limits import VERSIONS, are_within
from .parts import CONSTANTS, are_in_bursts, have_scopes
from .repetition import DEFAULTS
from .rules import check_rules
from .writing import FIELDS

if TYPE_CHECKING:
    from .scenario import Scenario

ELEMENTS = {*FIELDS.values()}
TIMINGS = {*CONSTANTS, "timings"}
# the attribute of an element that has a key
ATTRIBUTES = {"from": "first", "to": "end"}


def check(given: "Scenario", changed: Collection[str] | None = None) -> None:
    """Refuses a scenario with the first of its faults; of some changed fields only what concerns them."""
    version = given.least_version if given.version is None else given.version
    parts = [part for part in PARTS if changed is None or FIELDS.get(part, "tree") in changed]
    doubtful = [part for part in parts if version not in VERSIONS or not is_faultless(given, part, version)]
    if doubtful or changed is None or not (ELEMENTS.issuperset(changed) or _are_constants(given, changed, version)):
        check_keys(writing.keys_of(given, doubtful))
    check_rules(given, changed)


def _are_constants(given: "Scenario", changed: Collection[str], version: int) -> bool:
    """Whether only constants changed that members do not adapt, and it is seen at once that a version has room for them."""
    return TIMINGS.issuperset(changed) and version in VERSIONS and not given.is_adaptive and are_within(
        [getattr(given, name) for name in CONSTANTS], 0, VERSIONS[version].constant)


def is_faultless(given: "Scenario", part: str, version: int) -> bool:
    """Whether it is seen at once that a version has room for all elements of a part, and that they have no fault."""
    limits = VERSIONS[version]
    if part == "link":  # no tree has links out of range
        return limits.two_way or given.tree.is_even
    several = getattr(given, FIELDS[part])
    if part == "outage" and not limits.outages or part == "loss" and not limits.losses:
        return not several
    if not limits.local and (part == "member" and have_scopes(several) or part == "loss" and are_in_bursts(several)):
        return False
    most = limits.members if part == "member" else limits.elements
    return len(several) <= most and _are_faultless(several, part, version)


@kept_of
def _are_faultless(several: tuple[Any, ...], part: str, version: int) -> bool:
    return are_faultless(len(several), lambda key: column_of(several, key), elements(VERSIONS[version])[part])


def column_of(several: Collection[Any], key: str) -> list[Any]:
    """What elements have for a key, of those that have it."""
    if key in DEFAULTS:  # each stands for itself alone
        return []
    values = [*map(attrgetter(ATTRIBUTES.get(key, key)), several)]
    if key == "pages":
        return [list(pages) for pages in values if pages is not None]
    return [value for value in values if value is not None] if None in values else values
