"""The keys of a scenario file, with their types and ranges, as docs/FORMATS.md has them."""
from collections.abc import Callable, Iterator
from dataclasses import dataclass, replace
from functools import cache
from typing import Any

from .errors import ScenarioError, perhaps
from .limits import VERSIONS, Limits, are_within
from .parts import CONSTANTS, LIMITS, LOCAL, ROLES
from .repetition import DEFAULTS, copy_of, times_of, total

Check = Callable[[object], str | None]
PARTS = ("link", "member", "draw", "session", "drop", "outage", "loss")


@dataclass(frozen=True)
class Key:
    """A key of a table: what its value may be, and whether it must be there."""

    check: Check
    needed: bool = True


@dataclass(frozen=True)
class Number:
    """A whole number in a range."""

    least: int
    most: int

    def __call__(self, value: object) -> str | None:
        if isinstance(value, bool) or not isinstance(value, int):
            return f"is {value!r}, and has to be a whole number"
        return None if self.least <= value <= self.most else f"is {value}, and has to be {self.least} to {self.most}"


def word(*words: str) -> Check:
    """One of some words."""
    def check(value: object) -> str | None:
        if isinstance(value, str) and value in words:
            return None
        return f"is {value!r}, and has to be {', '.join(words)}{perhaps(value, words)}"
    return check


def array(most: int, of: Check | None = None, count: Callable[[list[Any]], int] = len) -> Check:
    """An array of at most so many elements, each of which passes a check."""
    def check(value: object) -> str | None:
        if not isinstance(value, list):
            return f"is {type(value).__name__}, and has to be an array"
        if count(value) > most:
            return f"has {count(value)} elements, and may have {most}"
        if of is None:
            return None
        return next((f"has an element that {told}" for told in map(of, value) if told), None)
    return check


def one_each(things: object, of: Check) -> Check:
    """An array with one element for each of those of another array."""
    most = len(things) if isinstance(things, list) else 0
    whole = array(most, of)

    def check(value: object) -> str | None:
        told = whole(value)
        if told is None and isinstance(value, list) and len(value) < most:
            told = f"has {len(value)} elements, and has to have {most}"
        return told
    return check


@cache
def elements(limits: Limits) -> dict[str, dict[str, Key]]:
    """The keys of the elements of each part."""
    node = Key(Number(0, limits.nodes - 1))
    member = Key(Number(0, limits.members - 1))
    link = Key(Number(0, limits.nodes - 1))
    at = Key(Number(0, limits.time))
    delay = Number(1, limits.delay)
    back = {"back": Key(delay, False)} if limits.two_way else {}
    scope = {"scope": Key(Number(0, limits.hops), False)} if limits.local else {}
    burst = {"burst": Key(Number(1, limits.time), False)} if limits.local else {}
    keys = {
        "member": {"node": node, "role": Key(word(*ROLES)), "stream": Key(Number(0, limits.stream)),
                   "join": Key(Number(0, limits.time), False), "leave": Key(Number(1, limits.time), False),
                   "pages": Key(array(limits.pages, Number(0, limits.page)), False), **scope},
        "draw": {"member": member, "page": Key(Number(0, limits.page)), "ink": Key(Number(0, limits.ink)), "at": at},
        "session": {"member": member, "at": at},
        "drop": {"link": link, "sender": member, "count": Key(Number(0, limits.count))},
        "outage": {"link": link, "from": at, "to": Key(Number(1, limits.time))},
        "loss": {"link": link, "rate": Key(Number(1, limits.rate)), "stream": Key(Number(0, limits.stream), False),
                 "from": replace(at, needed=False), "to": Key(Number(1, limits.time), False), **burst},
    }
    repetition = {"times": Key(Number(1, limits.elements), False), "every": Key(Number(0, limits.time), False)}
    return {"link": {"a": node, "b": node, "delay": Key(delay), **back},
            **{part: own | (repetition if limits.large else {}) for part, own in keys.items()}}


def top(limits: Limits, table: dict[str, Any]) -> dict[str, Key]:
    """The keys of the top table, which depend on whether a topology is named."""
    constant = Key(Number(0, limits.constant))
    keys = {"version": Key(Number(min(VERSIONS), max(VERSIONS))), "until": Key(Number(1, limits.time)),
            **dict.fromkeys(CONSTANTS, constant)}
    if limits.adaptive:
        keys |= adaptive(limits, table)
    if limits.local:
        keys |= {"scope": Key(Number(0, limits.hops), False), "widen": Key(Number(0, limits.hops), False),
                 "tries": Key(Number(1, limits.tries), False), "steps": Key(Number(1, limits.steps), False)}
    if "topology" in table:
        keys["topology"] = Key(word("chain", "star", "tree", *(["parents"] if limits.large else [])))
    if limits.large and table.get("topology") == "parents":
        keys |= parents(limits, table)
    elif "topology" in table:
        delay = Number(1, limits.delay)
        keys |= {"size": Key(Number(1, limits.nodes)), "delay": Key(delay)}
        if limits.two_way:
            keys["back"] = Key(delay, False)
        if table["topology"] == "tree":
            keys["degree"] = Key(Number(2, limits.nodes - 1))
    else:
        keys |= {"nodes": Key(Number(1, limits.nodes)), "link": Key(array(limits.nodes - 1), False)}
    count = total if limits.large else len
    keys["member"] = Key(array(limits.members, count=count), False)
    parts = ["draw", "session", "drop", *(["outage"] if limits.outages else []), *(["loss"] if limits.losses else [])]
    for part in parts:
        keys[part] = Key(array(limits.elements, count=count), False)
    return keys


def parents(limits: Limits, table: dict[str, Any]) -> dict[str, Key]:
    """The keys of a network that is told by the parent of each node: of its delays either that of all links or each."""
    delay = Number(1, limits.delay)
    each = one_each(table.get("parent"), delay)
    return {"parent": Key(array(limits.nodes - 1, Number(0, limits.nodes - 1))),
            **({"delays": Key(each)} if "delays" in table else {"delay": Key(delay)}),
            **({"backs": Key(each)} if "backs" in table else {"back": Key(delay, False)})}


def adaptive(limits: Limits, table: dict[str, Any]) -> dict[str, Key]:
    """The keys of adaptive timers: what a constant may become is told beside its first value."""
    keys = {"backoff": Key(Number(2, 3), False)}
    for name in CONSTANTS:
        first = table.get(name)
        if isinstance(first, int):
            keys[f"{name}_least"] = Key(Number(0, first), False)
            keys[f"{name}_most"] = Key(Number(first, limits.constant), False)
    return keys


def faults(table: dict[str, Any], keys: dict[str, Key]) -> Iterator[tuple[str, str]]:
    """What is wrong with the keys of one table: each key, and what is told of it."""
    for key in table:
        if key not in keys:
            yield key, "is no key here" + (_hint(key, table) or perhaps(key, keys))
    for key, one in keys.items():
        if key in table:
            told = one.check(table[key])
            if told:
                yield key, told
        elif one.needed:
            yield key, "is missing"


def are_faultless(count: int, column: Callable[[str], list[Any]], keys: dict[str, Key]) -> bool:
    """Whether so many elements have no fault; of many that is seen at once. `column` gives what they have for a key."""
    for key, one in keys.items():
        values = column(key)
        if one.needed and len(values) < count:
            return False
        number = one.check if isinstance(one.check, Number) else None
        if not are_within(values, number.least, number.most) if number else any(map(one.check, values)):
            return False
    return True


def _are_plain(elements: list[Any], keys: dict[str, Key]) -> bool:
    """Whether each element is a table without a fault and stands for itself alone."""
    known = keys.keys() - {"times"}
    if any(type(element) is not dict or not element.keys() <= known for element in elements):
        return False
    return are_faultless(len(elements), lambda key: [element[key] for element in elements if key in element], keys)


def _hint(key: str, table: dict[str, Any]) -> str:
    """Why a key is not allowed that the format has elsewhere."""
    if "version" in table and key in ("nodes", "link") and "topology" in table:
        return " beside `topology`"
    if "version" in table and key in ("size", "delay", "back", "degree") and "topology" not in table:
        return " without `topology`"
    if key in ("delay", "back") and table.get("topology") == "parents" and f"{key}s" in table:
        return f" beside `{key}s`"
    if key in ("parent", "delays", "backs"):
        return " but for `topology = \"parents\"`, from version 3 on"
    if key == "degree":
        return " but for a tree"
    if key in ("back", "outage"):
        return " in version 1"
    if key == "backoff" or key in LIMITS or key in DEFAULTS:
        return " before version 3"
    if key == "loss":
        return " before version 4"
    if key in LOCAL and "version" in table or key == "scope" and "role" in table or key == "burst" and "rate" in table:
        return " before version 5"
    return ""


def check_keys(table: dict[str, Any]) -> None:
    """Refuses a table in which a key is unknown, missing, of a wrong type or out of its range; the first fault."""
    version = table.get("version")
    limits = VERSIONS.get(version, VERSIONS[max(VERSIONS)]) if isinstance(version, int) else VERSIONS[max(VERSIONS)]
    for key, told in faults(table, top(limits, table)):
        raise ScenarioError(f"top table: `{key}` {told}", "top", 0, key)
    keys = elements(limits)
    for part in PARTS:
        several = table.get(part, [])
        for place, element in enumerate(() if _are_plain(several, keys[part]) else several):
            if not isinstance(element, dict):
                raise ScenarioError(f"{part} {place} is {element!r}, and has to be a table", part, place)
            for key, told in faults(element, keys[part]):
                raise ScenarioError(f"{part} {place}: `{key}` {told}", part, place, key)
            if times_of(element) > 1:
                for key, told in faults(copy_of(part, element, times_of(element) - 1), keys[part]):
                    raise ScenarioError(f"{part} {place}: `{key}` of its last copy {told}", part, place, key)
