#!/usr/bin/env python3
"""Tells where a promise stands: the body of a function, its contract, the definitions that the contract cites, and its proof.

usage: tools/where.py NAME.. [--crate CRATE]

NAME is a function, or one of a type, a trait or a module: step_run, Net::distance, laws::one_path; of a type or a trait, as Bag,
all functions are told. For each there are printed its file and line; its contract, as it stands there; each definition of this
repository that the contract names, with its file and line and the comment above it; the folder with what was written of its
proof, or that there is none, since the checker found the proof alone; and the rows of docs/PROMISES.md that name it. NAME may be
a definition too, which is then printed: TellsRefusedFor. Ends with status 1 where a name is found nowhere.
"""
import argparse
import pathlib
import re
import signal
import sys
from collections.abc import Iterator
from typing import NamedTuple

TOP = pathlib.Path(__file__).resolve().parent.parent
CRATES = TOP / "crates"
FUNCTION = re.compile(r"^\s*(?:pub(?:\(crate\))? )?fn (\w+)")
OWNER = re.compile(r"^(?:impl(?:<.*?>)? (?:([\w:]+)(?:<.*>)? for )?|(?:pub(?:\(crate\))? )?trait )(\w+)")
IMPORT = re.compile(r"ghost use Rattle\.(\w+)\.specs\.([\w.]+?)(?:\.\{([^}]*)\}| as (\w+));")
# a file of specs/ that passes on what another one defines
PASSED_ON = re.compile(r"^pub use Rattle\.(\w+)\.specs\.([\w.]+?)\.\{([^}]*)\}", re.M)
CLAUSE = re.compile(r"^\s*(?:requires|ensures|//)")
DEFINED = r"^\s*(?:(?:abbrev|unfoldable|pub|record|data|type) )*{}\b[^=]* :"
# the name of a clause, and the end of a head that has no clause
LABEL = re.compile(r"\b(requires|ensures)(\*?) \w+ (?={)")
BODY = re.compile(r"^\s*(?:pub|fn|\)).*{}?$")


class Function(NamedTuple):
    """A function of a source file: its type or trait, if it has one, with the trait that the type has it by; its name; and its
    line, counted from 1."""

    path: pathlib.Path
    owner: str
    by: str
    name: str
    line: int

    @property
    def crate(self) -> pathlib.Path:
        return CRATES / self.path.relative_to(CRATES).parts[0]

    def is_called(self, asked: str) -> bool:
        """Whether this is the name of it, alone, or after its type, its trait or its module."""
        before, _, name = asked.rpartition("::")
        return name == self.name and before in ("", self.owner, self.path.stem)


def functions(crate: str | None) -> Iterator[Function]:
    """Every function of the sources, or of a crate's."""
    for path in sorted(CRATES.glob(f"{crate or '*'}/src/**/*.rt")):
        owner = by = ""
        for number, line in enumerate(path.read_text(encoding="utf-8").splitlines(), 1):
            if found := OWNER.match(line):
                by, owner = found[1] or "", found[2]
            elif line.startswith("}"):
                owner = by = ""
            if found := FUNCTION.match(line):
                yield Function(path, owner, by, found[1], number)


def contract(function: Function) -> list[str]:
    """The lines of its contract."""
    found: list[str] = []
    lines = function.path.read_text(encoding="utf-8").splitlines()
    for line in [] if BODY.match(lines[function.line - 1]) else lines[function.line :]:
        if line.strip() in ("{", "{}") or FUNCTION.match(line) or BODY.match(line):
            break
        if found or CLAUSE.match(line):
            found.append(line.rstrip())
        if line.endswith(";"):
            break
    return found


def imports(function: Function) -> dict[str, tuple[str, str, str]]:
    """What each name of its file stands for: a crate, a module of its specs/, and the name there."""
    found: dict[str, tuple[str, str, str]] = {}
    names: str
    for crate, module, names, alias in IMPORT.findall(function.path.read_text(encoding="utf-8")):
        for name in filter(None, (it.strip() for it in names.split(","))):
            original, _, other = name.partition(" as ")
            found[other or original] = (crate, module, original)
        if alias:
            found[alias] = (crate, module, "")
    return found


def places(path: pathlib.Path, name: str) -> Iterator[tuple[int, list[str]]]:
    """Where a file of specs/ defines a name: the line, counted from 1, and the lines from the comment above it to the gap."""
    lines = path.read_text(encoding="utf-8").splitlines()
    for number, line in enumerate(lines):
        if re.match(DEFINED.format(re.escape(name)), line):
            first = number
            while first and lines[first - 1].strip().startswith("--"):
                first -= 1
            last = next((at for at in range(number, len(lines)) if not lines[at].strip()), len(lines))
            yield number + 1, lines[first:last]


def definition(crate: str, module: str, name: str) -> str | None:
    """Where a definition of a crate of this repository stands, with the comment above it."""
    path = CRATES / crate / "specs" / (module.replace(".", "/") + ".antt")
    if not path.exists():
        return None
    for number, lines in places(path, name):
        said = " ".join(it.strip().lstrip("-").strip() for it in lines if it.strip().startswith("--"))
        return f"{path.relative_to(TOP)}:{number}  {said}".rstrip()
    for other, further, names in PASSED_ON.findall(path.read_text(encoding="utf-8")):
        if name in re.split(r"[,\s]+", names):
            return definition(other, further, name)
    return None


def definitions(function: Function, clauses: list[str]) -> Iterator[tuple[str, str]]:
    """Each definition that a contract names, with its place; those of the toolchain and those made of a type are left out."""
    known = imports(function)
    for name in dict.fromkeys(re.findall(r"[A-Za-z_]\w*", LABEL.sub(r"\1\2 ", "\n".join(clauses)))):
        if name in known:
            place = definition(known[name][0], known[name][1], known[name][2] or name)
            if place:
                yield name, place


def proof(function: Function) -> str:
    """The folder with what was written of its proof: below its module's, in that of its type, or of its type with the trait."""
    module = function.path.relative_to(function.crate / "src").with_suffix("")
    folder = function.crate / "proofs" / module
    found = folder.glob(f"{function.owner}*/{function.name}") if function.owner else folder.glob(function.name)
    told = ", ".join(f"{it.relative_to(TOP)}/" for it in sorted(found) if it.is_dir())
    return told or "no folder: the checker proves it from its body and the contracts of what that calls; ask for those by name"


def promises(function: Function) -> Iterator[str]:
    """The rows of PROMISES that name it, or its type, in their second column."""
    crate, named = "", re.compile(rf"`(?:(?:\w+::)*{re.escape(function.name)}\b|{function.owner or function.name}`)")
    for number, line in enumerate((TOP / "docs" / "PROMISES.md").read_text(encoding="utf-8").splitlines(), 1):
        crate = line.removeprefix("## ") if line.startswith("## ") else crate
        columns = line.split(" | ")
        if crate == function.crate.name and len(columns) > 1 and named.search(columns[1]):
            yield f"docs/PROMISES.md:{number}  {columns[0].removeprefix('| ')}"


def tell(function: Function) -> None:
    owner = f"{function.owner}::" if function.owner else ""
    print(f"{function.crate.name}: {owner}{function.name}")
    clauses = contract(function)
    declared = bool(clauses) and clauses[-1].endswith(";")
    print(f"  {'declared' if declared else 'body':12} {function.path.relative_to(TOP)}:{function.line}")
    without = f"that of {function.by}::{function.name}" if function.by else "none: it is proved to be safe and to end"
    print("  contract" if clauses else f"  contract     {without}")
    for line in clauses:
        print(f"    {line.strip()}")
    for name, place in definitions(function, clauses):
        print(f"  {name:12} {place}")
    print(f"  proof        {f'one for each type that has it: where.py {function.owner}' if declared else proof(function)}")
    for row in promises(function):
        print(f"  promise      {row}")
    print()


def tell_definitions(name: str, crate: str | None) -> bool:
    """Prints each definition of this name, whole; whether there is one."""
    found = False
    for path in sorted(CRATES.glob(f"{crate or '*'}/specs/**/*.antt")):
        for number, lines in places(path, name):
            print("\n  ".join([f"{path.relative_to(TOP)}:{number}", *lines]) + "\n")
            found = True
    return found


def main() -> int:
    words = argparse.ArgumentParser(description=__doc__, formatter_class=argparse.RawDescriptionHelpFormatter)
    words.add_argument("name", nargs="+")
    words.add_argument("--crate", help="look only in this crate")
    options = words.parse_args()
    known, missing = list(functions(options.crate)), []
    for name in options.name:
        found = [it for it in known if it.is_called(name)] or [it for it in known if name in (it.owner, it.by)]
        for function in found:
            tell(function)
        if not tell_definitions(name, options.crate) and not found:
            missing.append(name)
    for name in missing:
        print(f"{name}: no function and no definition of this name", file=sys.stderr)
    return 1 if missing else 0


if __name__ == "__main__":
    signal.signal(signal.SIGPIPE, signal.SIG_DFL)
    sys.exit(main())
