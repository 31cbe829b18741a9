"""Scenario files: reading them."""
import json
from dataclasses import replace
from pathlib import Path
from typing import Any

from . import tree as trees
from .errors import ScenarioError, spelled
from .form import check_keys
from .limits import NEWEST
from .link import Link
from .parts import CONSTANTS, LIMITS, LOCAL, Draw, Drop, Member, Outage, RandomLoss, Session
from .repetition import APART, expanded
from .rules import check_rules
from .scenario import Scenario
from .toml_text import read_toml
from .tree import Tree
from .writing import NAMES, ROUTES


@spelled
def read_scenario(text: str | bytes) -> Scenario:
    """The scenario in a text, which is refused where the program would refuse it: the first of its faults."""
    raw = text.encode() if isinstance(text, str) else text
    if len(raw) > NEWEST.bytes:
        raise ScenarioError(f"the text has {len(raw)} bytes, and may have {NEWEST.bytes}")
    try:
        text = raw.decode("utf-8-sig")
        table = read_toml(text)
    except ValueError as fault:  # of the encoding too
        raise ScenarioError(f"this is no TOML in UTF-8: {fault}") from None
    return from_table(table, _comments(text))


@spelled
def load_scenario(path: str | Path) -> Scenario:
    """The scenario in a file."""
    try:
        return read_scenario(Path(path).read_bytes())
    except OSError as fault:
        raise ScenarioError(f"{path}: {fault.strerror}") from None
    except ScenarioError as fault:
        raise ScenarioError(f"{path}: {fault}", fault.part, fault.place, fault.key) from None


def from_table(table: dict[str, Any], comments: list[str] | None = None) -> Scenario:
    """The scenario of a file's keys and values, and of the comments in front of them."""
    check_keys(table)
    comments = comments or []
    links = len(table.get("parent", table.get("link", [])))
    nodes = links + 1 if "parent" in table else table.get("nodes")
    names = {line: found for line in comments if (found := _names_in(line, nodes))}
    routes = {line: ways for line in comments if (ways := _routes_in(line, links))}
    told = next(iter(names), ""), next(iter(routes), "")
    try:
        network = tree_of(table, names.get(told[0], ()), routes.get(told[1], ()))
    except ScenarioError as fault:
        raise ScenarioError(f"the network: {fault}", "tree") from None
    parts = {part: expanded(part, table.get(part, [])) for part in APART}
    given = Scenario(
        tree=network,
        members=tuple(Member(**{**one, **({"pages": tuple(one["pages"])} if "pages" in one else {})})
                      for one in parts["member"]),
        until=table["until"],
        **{name: table[name] for name in (*CONSTANTS, *LIMITS, "backoff", *LOCAL) if name in table},
        draws=tuple(Draw(**one) for one in parts["draw"]),
        sessions=tuple(Session(**one) for one in parts["session"]),
        drops=tuple(Drop(**one) for one in parts["drop"]),
        outages=tuple(Outage(one["link"], one["from"], one["to"]) for one in parts["outage"]),
        random_losses=tuple(RandomLoss(one["link"], one["rate"], one.get("stream", 0), one.get("from", 0), one.get("to"),
                                       one.get("burst")) for one in parts["loss"]),
        version=table["version"],
        comments=tuple(line for line in comments if line not in told or not line),
    )
    check_rules(given)
    return given


def tree_of(table: dict[str, Any], names: tuple[str, ...] = (), routes: tuple[tuple[str, ...], ...] = ()) -> Tree:
    """The network of a scenario's table."""
    shape = table.get("topology")
    if shape is None:
        links = tuple(Link(one["a"], one["b"], one["delay"], one.get("back", one["delay"]))
                      for one in table.get("link", []))
        return Tree(table["nodes"], links, names=names, routes=routes)
    if shape == "parents":
        return replace(trees.of_parents(table), names=names, routes=routes)
    if shape == "tree":
        made = trees.bounded_degree(table["size"], table["degree"], table["delay"])
    else:
        made = (trees.chain if shape == "chain" else trees.star)(table["size"], table["delay"])
    return made.with_back(table["back"]) if "back" in table else made


def _told(line: str, what: str) -> list[Any]:
    """The list that a line of comment tells of this, and an empty one where it tells something else."""
    try:
        found = json.loads(line.removeprefix(what)) if line.startswith(what) else []
    except ValueError:
        return []
    return found if isinstance(found, list) else []


def _names_in(line: str, nodes: int | None) -> tuple[str, ...]:
    """The names of so many nodes that a line of comment tells, none where it tells something else."""
    found = _told(line, NAMES)
    is_told = all(isinstance(name, str) for name in found)
    return tuple(found) if is_told and len(set(found)) == len(found) == nodes else ()


def _routes_in(line: str, links: int) -> tuple[tuple[str, ...], ...]:
    """The routes of so many links that a line of comment tells, none where it tells something else."""
    found = _told(line, ROUTES)
    is_told = all(isinstance(route, list) and all(isinstance(name, str) for name in route) for route in found)
    return tuple(tuple(route) for route in found) if is_told and len(found) == links else ()


def _comments(text: str) -> list[str]:
    """The lines of comment in front of a file's keys."""
    found = []
    for line in text.splitlines():
        if not line.startswith("#"):
            break
        found.append(line[1:].removeprefix(" "))
    return found
