#!/usr/bin/python3
"""Writes docs/PYTHON.txt: a line for each call of the Python package, with the first sentence of its documentation.

usage: tools/python_calls.py > docs/PYTHON.txt
"""
import inspect
import re
import sys
from collections.abc import Iterator
from pathlib import Path
from types import ModuleType
from typing import Any

ROOT = Path(__file__).resolve().parents[1]
sys.path.insert(0, str(ROOT / "python/src"))
sys.dont_write_bytecode = True

HEAD = """The calls of the Python package srm_lab, a line each, made by tools/python_calls.py: `help(srm_lab.sweep)` tells more.
"""


def first_sentence(thing: Any) -> str:
    """The first sentence of a call's documentation."""
    text = " ".join((inspect.getdoc(thing) or "").split("\n\n")[0].split())
    return re.split(r"(?<=[.:;]) (?=[A-Z])", text)[0].rstrip(":") if text else ""


def words_of(call: Any, own: bool) -> str:
    """The names of what a call takes; what need not be given stands in brackets."""
    told = []
    for name, one in list(inspect.signature(call).parameters.items())[own:]:
        star = "*" if one.kind is one.VAR_POSITIONAL else "**" if one.kind is one.VAR_KEYWORD else ""
        told.append(f"{star}{name}" if star or one.default is one.empty else f"[{name}]")
    return ", ".join(told)


def line(front: str, name: str, call: Any, own: bool = False) -> str:
    """A call's line."""
    return f"{front}{name}({words_of(call, own)}) -- {first_sentence(call)}"


def of_class(name: str, kind: type) -> Iterator[str]:
    """The lines of a class: itself, and its verbs and properties."""
    yield f"{name} -- {first_sentence(kind)}"
    for verb, value in vars(kind).items():
        if verb.startswith("_"):
            continue
        if inspect.isfunction(value):
            yield line("  .", verb, value, own=True)
        elif hasattr(value, "__get__") and inspect.getdoc(value) and not inspect.isclass(value):
            yield f"  .{verb} -- {first_sentence(value)}"


def of_module(module: ModuleType) -> Iterator[str]:
    """The lines of the functions that a module defines."""
    for name, value in vars(module).items():
        if inspect.isfunction(value) and value.__module__ == module.__name__ and not name.startswith("_"):
            if value.__annotations__.get("return") in ("Scenario", module.Scenario):
                yield line("scenario.", name, value)


def lines() -> Iterator[str]:
    """The page."""
    import srm_lab

    yield HEAD
    yield from of_module(srm_lab.scenario)
    for name in srm_lab.__all__:
        value = getattr(srm_lab, name)
        if inspect.isclass(value):
            yield ""
            yield from of_class(name, value)
    yield ""
    for name in srm_lab.__all__:
        value = getattr(srm_lab, name)
        if inspect.isfunction(value):
            yield line("", name, value)


if __name__ == "__main__":
    print("\n".join(lines()))
