"""Scenario files: writing them."""
import json
from collections.abc import Callable, Collection
from functools import cache
from itertools import chain, groupby
from typing import TYPE_CHECKING, Any

from .errors import ScenarioError
from .form import PARTS
from .kept import kept_of
from .limits import NEWEST
from .link import Link
from .parts import CONSTANTS, LIMITS, LOCAL, Member, RandomLoss
from .repetition import APART, folded

if TYPE_CHECKING:
    from .scenario import Scenario

NAMES = "names of nodes: "
ROUTES = "routes of links: "
# how many numbers of an array stand in a line
IN_LINE = 20
# the fields of a scenario that have the elements of a part
FIELDS = {"member": "members", "draw": "draws", "session": "sessions", "drop": "drops", "outage": "outages",
          "loss": "random_losses"}
WORDS = ("topology", "role")  # keys of words, in which no quote ever stands


def table_of(given: "Scenario") -> dict[str, Any]:
    """The keys and values of a scenario's file; a large one tells its elements by few that stand for several.

    So does one with losses at random tell these.
    """
    table = keys_of(given)
    return table | {part: folded(part, table[part]) for part in _folded(given) if part in table}


def _folded(given: "Scenario") -> Collection[str]:
    """The parts whose elements stand for several."""
    return APART if given.is_large else ("loss",)


def keys_of(given: "Scenario", wanted: Collection[str] = PARTS) -> dict[str, Any]:
    """The keys and values of a scenario, with each of the elements of the parts that are wanted."""
    top: dict[str, Any] = {"version": given.least_version if given.version is None else given.version,
                           "until": given.end}
    top |= {name: getattr(given, name) for name in CONSTANTS}
    top |= {name: value for name in LIMITS if (value := getattr(given, name)) is not None}
    top |= {"backoff": given.backoff} if given.backoff != 2 else {}
    top |= {name: value for name, default in LOCAL.items() if (value := getattr(given, name)) != default}
    top |= given.tree.shorthand or {"nodes": given.tree.nodes}
    return top | {part: [*map(ELEMENTS[part], several)] for part in PARTS
                  if part in wanted and (several := _several(given, part))}


def _several(given: "Scenario", part: str) -> tuple[Any, ...]:
    """What the file lists as the elements of a part."""
    if part == "link":
        return () if given.tree.shorthand else given.tree.links
    found: tuple[Any, ...] = getattr(given, FIELDS[part])
    return found


def _link(one: Link) -> dict[str, Any]:
    """A link's keys: its delay back, where that is another."""
    keys = {"a": one.a, "b": one.b, "delay": one.delay}
    return keys if one.is_even else keys | {"back": one.back}


def _member(one: Member) -> dict[str, Any]:
    """A member's keys, without those that have their defaults."""
    keys: dict[str, Any] = {"node": one.node, "role": one.role, "stream": one.stream}
    if one.join:
        keys["join"] = one.join
    if one.leave is not None:
        keys["leave"] = one.leave
    if one.pages is not None:
        keys["pages"] = list(one.pages)
    if one.scope is not None:
        keys["scope"] = one.scope
    return keys


def _loss(one: RandomLoss) -> dict[str, Any]:
    """The keys of a loss at random, without those that have their defaults."""
    keys: dict[str, Any] = {"link": one.link, "rate": one.rate}
    if one.stream or one.first or one.end or one.burst:
        own = (("stream", one.stream), ("from", one.first), ("to", one.end), ("burst", one.burst))
        keys |= {key: value for key, value in own if value}
    return keys


ELEMENTS: dict[str, Callable[[Any], dict[str, Any]]] = {
    "link": _link, "member": _member, **dict.fromkeys(("draw", "session", "drop"), lambda one: dict(vars(one))),
    "outage": lambda one: {"link": one.link, "from": one.first, "to": one.end}, "loss": _loss}


def text_of(given: "Scenario") -> str:
    """A scenario's file: its comments, the names of nodes and the routes of links as comments, and its table."""
    comments = list(given.comments)
    if given.tree.names:
        comments.append(NAMES + json.dumps(given.tree.names))
    if given.tree.routes:
        comments.append(ROUTES + json.dumps(given.tree.routes))
    lines = "".join(f"# {line}".rstrip() + "\n" for comment in comments for line in comment.splitlines() or [""])
    text = lines + _toml(keys_of(given, ())) + "".join(
        _array(several, part, part in _folded(given)) for part in PARTS if (several := _several(given, part)))
    if len(text.encode()) > NEWEST.bytes:
        told = f", {len(lines.encode())} of them comments, names and routes" if lines else ""
        raise ScenarioError(f"the text has {len(text.encode())} bytes{told}, and the format has room for {NEWEST.bytes}")
    return text


def _toml(table: dict[str, Any]) -> str:
    """Plain values as TOML, and then arrays of numbers, several in a line."""
    plain = "".join(f"{_form(key)}\n" % value for key, value in table.items() if not isinstance(value, list))
    return plain + "".join(f"{key} = [{_numbers(value)}]\n" for key, value in table.items() if isinstance(value, list))


@kept_of
def _array(several: tuple[Any, ...], part: str, is_folded: bool) -> str:
    """The elements of a part as TOML."""
    elements = [*map(ELEMENTS[part], several)]
    return f"{part} = [{_elements(folded(part, elements) if is_folded else elements)}]\n"


_KEYS: Callable[[dict[str, Any]], tuple[str, ...]] = tuple  # of an element


def _elements(several: list[dict[str, Any]]) -> str:
    """The elements of an array, in lines: those with the same keys at once."""
    alike = [(keys, list(ones)) for keys, ones in groupby(several, _KEYS)]
    return "\n" + "".join([_element_form(keys) * len(ones) % tuple(chain.from_iterable(map(dict.values, ones)))
                           for keys, ones in alike])


@cache
def _element_form(keys: tuple[str, ...]) -> str:
    """The line of an element with these keys, with room for their values."""
    return f"    {{ {', '.join(map(_form, keys))} }},\n"


def _form(key: str) -> str:
    """A key, with room for its value: a word, a number, or numbers."""
    return f'{key} = "%s"' if key in WORDS else f"{key} = %s"


def _numbers(numbers: list[int]) -> str:
    """The numbers of an array, in lines."""
    lines = (numbers[place:place + IN_LINE] for place in range(0, len(numbers), IN_LINE))
    return ",\n".join(",".join(map(str, line)) for line in lines)
