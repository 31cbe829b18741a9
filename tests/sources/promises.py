#!/usr/bin/env python3
"""Holds docs/PROMISES.md to the sources and to the must-fail edits.

usage: tests/sources/promises.py

A row's second column cites calls (`Net::build`, `laws::one_path`, `advance`), after a colon clauses of them, and in brackets
definitions. Each has to be there; so has each edit that the third column names, and each script that the page names. Each edit
that is there is named, and can be applied: each text that it replaces stands once in its file. Ends with status 1 where one of
these is not so.
"""
import pathlib
import re
import sys
from collections.abc import Iterator

sys.dont_write_bytecode = True
TOP = pathlib.Path(__file__).resolve().parent.parent.parent
sys.path.append(str(TOP / "tools"))

import where

PAGE = TOP / "docs" / "PROMISES.md"
NAME = re.compile(r"`([A-Za-z_][\w:]*)`")
DECLARED = re.compile(r"^(?:pub(?:\(crate\))? )?(?:struct|enum|trait) (\w+)|^ *(?:\w+ )*pub (?:record )?(\w+)"
                      r"|^    ([A-Z]\w*)[,{ (]|\bghost (\w+)", re.M)


class Sources:
    """All functions of the crates, and the names of definitions, types, variants, ghosts, modules and crates."""

    def __init__(self) -> None:
        self.functions = [*where.functions(None)]
        paths = [*where.CRATES.glob("*/src/**/*.rt"), *where.CRATES.glob("*/specs/**/*.antt")]
        found = [name for path in paths for names in DECLARED.findall(path.read_text(encoding="utf-8")) for name in names]
        self.names = {*found, *(path.stem for path in paths), *(path.name for path in where.CRATES.iterdir())}

    def find(self, crate: str, cited: str) -> list[where.Function]:
        """The functions that this name cites; those of the crate alone where it has some."""
        found = [it for it in self.functions if it.is_called(cited)]
        return [it for it in found if it.crate.name == crate] or found

    def clauses(self, crate: str, cited: str) -> set[str]:
        """The names of the clauses of these functions."""
        found = "\n".join(line for it in self.find(crate, cited) for line in where.contract(it))
        return set(re.findall(r"\b(?:ensures|requires) (\w+) \{", found))


def rows(text: str) -> Iterator[tuple[str, list[str]]]:
    """Each row of the page with its crate, as two cells, or three where it names edits."""
    crate = ""
    for line in text.splitlines():
        if line.startswith("## "):
            crate = line[3:].strip()
        elif line.startswith("|") and crate.startswith("srm_") and not line.startswith(("| promise", "|---")):
            yield crate, [cell.strip() for cell in line.strip()[1:-1].split("|")]


def faults_of_citing(crate: str, cell: str, found: Sources) -> Iterator[str]:
    """What a cell cites that is not there: calls, clauses after a colon, definitions in brackets."""
    for bracket in re.findall(r"\(([^()]*)\)", cell):
        for it in NAME.findall(bracket):
            if it not in found.names and not found.find(crate, it):
                yield f"there is no definition {it}"
    owner = ""
    for part in re.sub(r"\([^()]*\)", "", cell).split(";"):
        head, _, after = part.partition("`: ")
        calls = NAME.findall(head + "`")
        known = {clause for it in calls for name in (it, f"{owner}::{it}") for clause in found.clauses(crate, name)}
        for it in calls:
            owner = it.rpartition("::")[0] or (it if it in found.names else owner)
            if not found.find(crate, it) and it not in found.names:
                yield f"there is no call or type {it}"
        for it in NAME.findall(after):
            if it not in known and not found.find(crate, it) and not found.find(crate, f"{owner}::{it}"):
                yield f"there is no clause {it}"


def misfits(edit: pathlib.Path) -> Iterator[str]:
    """The texts that an edit replaces and that do not stand once in their file."""
    source, old, texts = edit, "", {edit: ""}
    for line in edit.read_text(encoding="utf-8").splitlines():
        key, _, value = line.partition(": ")
        if key == "file":
            source = edit.parent.parent / value.strip()
            texts.setdefault(source, source.read_text(encoding="utf-8") if source.is_file() else "")
        elif key == "old":
            old = value
        elif key.rstrip(":") == "new" and old:
            if texts[source].count(old) != 1:
                yield f"{edit.relative_to(TOP)}: this does not stand once in its file: {old}"
            texts[source] = texts[source].replace(old, value)


def faults(text: str, found: Sources) -> Iterator[str]:
    """What is wrong with the page, and with the edits."""
    edits = {edit.stem: edit for edit in sorted(TOP.glob("crates/*/must-fail/*.edit"))}
    named = set()
    for crate, cells in rows(text):
        if len(cells) not in (2, 3):
            yield f"{crate}: {cells[0][:60]}: it has not two or three cells"
            continue
        named |= {it for cell in cells[2:] for it in re.findall(r"`([a-z0-9_]+)`", cell)}
        yield from (f"{crate}: {cells[0][:60]}: {fault}" for fault in faults_of_citing(crate, cells[1], found))
    scripts = re.findall(r"`((?:tests|bench|tools)/[\w./]+)`", text)
    yield from (f"there is no {script}" for script in scripts if not (TOP / script).exists())
    yield from (f"the edit {name} is named, and is not there" for name in sorted(named - edits.keys()))
    yield from (f"the edit {name} is not named" for name in sorted(edits.keys() - named))
    for edit in edits.values():
        yield from misfits(edit)


def main() -> None:
    found = [*faults(PAGE.read_text(encoding="utf-8"), Sources())]
    for fault in found:
        print(f"docs/PROMISES.md: {fault}", file=sys.stderr)
    sys.exit(bool(found))


if __name__ == "__main__":
    main()
