"""Elements of a scenario file that stand for several: from version 3 on `times` says for how many, `every` how far apart.

`expanded` is what they stand for, `folded` the other way round: a long list, told by few of them.
"""
from collections.abc import Iterator
from typing import Any

from .limits import NEWEST

Element = dict[str, Any]
# the keys of a part's elements that are `every` more from copy to copy; a member's stream is one more besides
APART = {"member": ("node",), "draw": ("at",), "session": ("at",), "drop": ("count",), "outage": ("from", "to"),
         "loss": ("link",)}
DEFAULTS = {"times": 1, "every": 1}


def steps(part: str, every: int) -> dict[str, int]:
    """How much more each key that changes is from copy to copy."""
    return dict.fromkeys(APART[part], every) | ({"stream": 1} if part == "member" else {})


def times_of(element: object) -> int:
    """For how many an element counts: one whose `times` is none of the format's counts once."""
    if not isinstance(element, dict) or "times" not in element:
        return 1
    times = element["times"]
    is_number = isinstance(times, int) and not isinstance(times, bool)
    return times if is_number and 1 <= times <= NEWEST.elements else 1


def total(elements: list[Any]) -> int:
    """How many elements a list makes."""
    return sum(map(times_of, elements))


def copy_of(part: str, element: Element, number: int) -> Element:
    """The copy of this number, from 0, that an element stands for."""
    own = {key: value for key, value in element.items() if key not in DEFAULTS}
    more = steps(part, element.get("every", DEFAULTS["every"])) if number else {}
    return own | {key: own[key] + number * step for key, step in more.items()}


def expanded(part: str, elements: list[Element]) -> list[Element]:
    """The elements that a list makes: in place of each all that it stands for."""
    return [copy_of(part, element, number) for element in elements for number in range(times_of(element))]


def folded(part: str, elements: list[Element]) -> list[Element]:
    """A list without `times` as one with it: each run of elements that lie equally far apart is told by its first."""
    return list(_folded(part, elements))


def _folded(part: str, elements: list[Element]) -> Iterator[Element]:
    place = 0
    while place < len(elements):
        times, every = _run(part, elements, place)
        yield elements[place] | ({} if times == 1 else {"times": times, "every": every})
        place += times


def _run(part: str, elements: list[Element], place: int) -> tuple[int, int]:
    """How many elements from a place on are copies of the one there, and how far apart they are."""
    if place + 1 == len(elements):
        return DEFAULTS["times"], DEFAULTS["every"]
    key = APART[part][0]
    every = elements[place + 1][key] - elements[place][key]
    more = steps(part, every)
    last, copy = place, dict(elements[place])
    while every >= 0 and last + 1 < len(elements):
        for key, step in more.items():
            copy[key] += step
        if elements[last + 1] != copy:
            break
        last += 1
    return last + 1 - place, every
