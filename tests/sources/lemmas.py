#!/usr/bin/env python3
"""Finds lemmas and definitions of proofs/ that nothing names, and lemmas that stand twice: they take the prover's time and the
reader's.

usage: tests/sources/lemmas.py

A word is looked up in the file where it stands, as the prover does: it names what the file declares, or what a `use` line of the
file brings in. So a lemma of the same name in another file hides nothing. What is named only where it is brought in, in its own
text, or by what nothing names either, counts as named by nothing. A tactic reads no lemma but those that it is given by name, so
there is no other way to use one. The goals and invariants of a function (Answers.antt, Invariants.antt) are named by the prover.

A lemma stands twice where its statement does, but for the names of its variables, in two files that may cite one another: of one
crate, or of two of which one stands on the other. What a `where` declares is of its clause alone, and is no copy. Ends with
status 1 where something is found.
"""
import dataclasses
import functools
import itertools
import pathlib
import re
import sys
from collections.abc import Collection, Iterator, Mapping

from architecture import below, stands_on

TOP = pathlib.Path(__file__).resolve().parent.parent.parent
PARTS = ("src", "specs", "proofs")
# a declaration's first line: how far in it stands, whether others may name it, and its name
DECLARED = re.compile(r"( *)(?:abbrev |unfoldable )?(pub )?([^\W\d][^\s:(){}]*) : ")
# the first line of a type: that too, and the word for its kind
TYPE = re.compile(r"( *)(pub )?(record|data) (?:pub )?([^\s:(){}]+)")
CONSTRUCTORS = re.compile(r" +([^\s:(){}]+(?: [^\s:(){}]+)*) : ")
# what is brought in: whether it is passed on, from which module, and the items, or the name of the module here
USE = re.compile(r"^ *(?:ghost )?(pub )?(?:ghost )?use ([^\s{;]+?)(?:\.\{([^}]*)\}| as ([^\s;]+))?;? *$", re.MULTILINE)
# a path in an attribute, as in `using(crate::proofs::Runs::longer)`
RUST_PATH = re.compile(r"\w+(?:::\w+)+")
COMMENT = {".antt": re.compile(r"(?<!\S)--+(?!\S).*"), ".rt": re.compile(r"//.*")}
WORD = re.compile(r"[^\s(){}\[\],;|`]+")
# what tells a statement from the type of a function
STATES = re.compile(r"(?<!\S)[≡≢<≤⊥⊎](?!\S)")
WORD_OR_SIGN = re.compile(rf"[(){{}}\[\],;|`]|{WORD.pattern}")
# the variables that a statement binds together, as in `(xs ys : List ℕ)`
BOUND = re.compile(r"[({]([^(){}:]+) : ")
NAMED_BY_THE_PROVER = {"Answers.antt", "Invariants.antt"}

ALL_LINES = range(sys.maxsize)
# a lemma or a definition: the path of its file, and its line there, from 0
Place = tuple[str, int]


@dataclasses.dataclass
class Declaration:
    """A lemma, a definition or a type: its names (those of its constructors after its own), how far in it stands, its lines, and
    whether others may name it."""

    names: list[str]
    indent: int
    first: int
    end: int
    public: bool
    # the lines of its file that can name it: those of the clause under whose `where` it stands, or all
    scope: range = ALL_LINES


@dataclasses.dataclass
class File:
    """A file: its module, its lines without comments and `use` lines, what it declares, and what it brings in."""

    path: str
    module: str
    lines: list[str]
    declared: list[Declaration]
    items: dict[str, tuple[str, str]] = dataclasses.field(default_factory=dict)
    modules: dict[str, str] = dataclasses.field(default_factory=dict)
    passed_on: set[str] = dataclasses.field(default_factory=set)

    def place_of(self, name: str, line: int) -> Place | None:
        """The place of what this file declares by a name, as a line of the file sees it; all else sees it as line -1."""
        seen = [it for it in self.by_name.get(name, ()) if line in it.scope or it.scope == ALL_LINES]
        return (self.path, min(seen, key=lambda it: len(it.scope)).first) if seen else None

    @functools.cached_property
    def by_name(self) -> Mapping[str, list[Declaration]]:
        """What this file declares, by its names."""
        found: dict[str, list[Declaration]] = {}
        for it in self.declared:
            for name in it.names:
                found.setdefault(name, []).append(it)
        return found

    def owners(self) -> list[Place | None]:
        """For each line, the innermost declaration of which it is a line."""
        found: list[Place | None] = [None] * len(self.lines)
        for it in self.declared:
            found[it.first : it.end] = [(self.path, it.first)] * (it.end - it.first)
        return found


def module_of(path: str) -> str:
    """The module that a file is: crates/low/proofs/Sums.antt is Rattle.low.proofs.Sums."""
    parts = pathlib.PurePath(path).with_suffix("").parts[1:]
    return ".".join(["Rattle", *(parts[:-1] if parts[-1] == "Lib" else parts)])


def end_of(lines: list[str], first: int, indent: int, name: str) -> int:
    """Where a declaration ends that begins at a line: its type, its clauses, and what is further in."""
    goes_on = re.compile(rf" {{{indent}}}(?:[ \])}}|]|unfolding |{re.escape(name)}(?:\s|$))|$")
    return next((at for at in range(first + 1, len(lines)) if not goes_on.match(lines[at])), len(lines))


def declared_in(lines: list[str]) -> list[Declaration]:
    """What a file declares, from the outer to the inner."""
    found = [*declarations(lines)]
    for outer in found:
        for inner in found:
            if outer.first < inner.first < outer.end:
                inner.scope = clause_around(lines, outer, inner.first)
    return found


def clause_around(lines: list[str], outer: Declaration, line: int) -> range:
    """The lines of that clause of a declaration in which a line stands."""
    begins = re.compile(rf" {{{outer.indent}}}{re.escape(outer.names[0])}(?!\S)")
    clauses = [outer.first, *[at for at in range(outer.first, outer.end) if begins.match(lines[at])], outer.end]
    return range(max(it for it in clauses if it <= line), min(it for it in clauses if it > line))


def declarations(lines: list[str]) -> Iterator[Declaration]:
    """What a file declares, each as if all of the file saw it."""
    for first, line in enumerate(lines):
        if kind := TYPE.match(line):
            end = end_of(lines, first, len(kind[1]), kind[4])
            inner = [it[1] for it in map(CONSTRUCTORS.match, lines[first + 1 : end]) if it and kind[3] == "data"]
            yield Declaration([kind[4], *" ".join(inner).split()], len(kind[1]), first, end, bool(kind[2]))
        elif found := DECLARED.match(line):
            end = end_of(lines, first, len(found[1]), found[3])
            clause = re.compile(rf"{found[1]}{re.escape(found[3])}(?:\s|$)")
            if any(map(clause.match, lines[first + 1 : end])):
                yield Declaration([found[3]], len(found[1]), first, end, bool(found[2]))


def read(path: str, text: str) -> File:
    """A file by its text."""
    kind = pathlib.PurePath(path).suffix
    plain = USE.sub(lambda use: "\n" * use[0].count("\n"), COMMENT[kind].sub("", text)).split("\n")
    file = File(path, module_of(path) if kind == ".antt" else path, plain, declared_in(plain) if kind == ".antt" else [])
    for passed_on, module, items, alias in USE.findall(text):
        here: list[str] = []
        for item in filter(None, map(str.strip, items.split(","))):
            full, _, name = item.partition(" as ")
            inner, _, last = f"{module}.{full}".rpartition(".")
            here.append(name or last)
            file.items[here[-1]] = (inner, last)
        if not items:
            here.append(alias or module.rpartition(".")[2])
            file.modules[here[-1]] = module
        file.passed_on.update(here if passed_on else ())
    return file


class Scopes:
    """All files, and what their words name."""

    def __init__(self, texts: Mapping[str, str]) -> None:
        """By the texts of all files, whose paths are theirs below the repository."""
        self.files = [read(path, texts[path]) for path in sorted(texts)]
        self.by_module = {it.module: it for it in self.files}

    def find(self, module: str, name: str) -> Place | None:
        """What a module declares or passes on by a name."""
        file = self.by_module.get(module)
        if file:
            passed_on = self.find(*file.items[name]) if name in file.items and name in file.passed_on else None
            return file.place_of(name, -1) or passed_on
        above, _, last = module.rpartition(".")
        upper = self.by_module.get(above)
        return self.find(upper.modules[last], name) if upper and last in upper.modules and last in upper.passed_on else None

    def along(self, path: list[str]) -> Place | None:
        """What a path names, module by module, with fields of it behind."""
        found = (self.find(".".join(path[:at]), path[at]) for at in range(1, len(path)))
        return next(filter(None, found), None)

    def meaning(self, file: File, word: str, variables: Mapping[str, str]) -> str:
        """A word of a file with what it names in place of itself: two files may mean two things by it, or one by two words."""
        first, *more = word.split(".")
        if first in variables:
            first = variables[first]
        elif place := file.place_of(first, -1):
            first = "{}:{}".format(*place)
        elif first in file.items:
            module, name = file.items[first]
            place = self.find(module, name)
            first = "{}:{}".format(*place) if place else name
        else:
            first = file.modules.get(first, first)
        return ".".join([first, *more])

    def named_in(self, file: File, at: int) -> Iterator[Place | None]:
        """What the words of a line of a file name."""
        for word in WORD.findall(file.lines[at]):
            first, *more = word.split(".")
            if own := file.place_of(first, at):
                yield own
            elif first in file.items:
                yield self.find(*file.items[first])
            elif more:
                yield self.along([*file.modules.get(first, first).split("."), *more])
        if file.path.endswith(".rt"):
            for path in RUST_PATH.findall(file.lines[at]):
                crate, *more = path.split("::")
                yield self.along(["Rattle", pathlib.PurePath(file.path).parts[1] if crate == "crate" else crate, *more])


def used(scopes: Scopes) -> set[Place]:
    """What is named by the code, by definitions that contracts may cite, or by the prover; and what that names."""
    named: dict[Place | None, set[Place]] = {}
    todo: list[Place | None] = [None]
    for file in scopes.files:
        for at, owner in enumerate(file.owners()):
            named.setdefault(owner, set()).update(filter(None, scopes.named_in(file, at)))
        by_prover = pathlib.PurePath(file.path).name in NAMED_BY_THE_PROVER
        in_proofs = pathlib.PurePath(file.path).parts[2] == "proofs"
        todo += [(file.path, it.first) for it in file.declared if not in_proofs or (by_prover and it.public)]
    found: set[Place] = set()
    while todo:
        place = todo.pop()
        if place:
            found.add(place)
        todo += named.pop(place, set()) - found
    return found


def unnamed(scopes: Scopes) -> Iterator[str]:
    """What nothing names in the files of proofs."""
    of_use = used(scopes)
    for file in scopes.files:
        for it in file.declared:
            if (file.path, it.first) not in of_use:
                yield f"{file.path}:{it.first + 1}: nothing names {it.names[0]}"


def variables(text: str) -> list[str]:
    """The variables that a statement binds, in their order."""
    return [name for names in BOUND.findall(text) for name in names.split()]


def in_sections(file: File, it: Declaration, text: str) -> str:
    """The statement of a declaration, after the parameters of those sections around it of which it names one."""
    indent = it.indent
    for at in range(it.first - 1, -1, -1):
        section = re.match(r"( *)module _ ", file.lines[at])
        if section and len(section[1]) < indent:
            indent = len(section[1])
            header = " ".join(file.lines[at : it.first]).partition(" where")[0].partition(" _ ")[2]
            named = {word.partition(".")[0] for word in WORD.findall(text)}
            text = f"{header} {text}" if named.intersection(variables(header)) else text
    return text


def statement(scopes: Scopes, file: File, it: Declaration) -> str | None:
    """What a lemma states, each word by what it names; none of a definition, and of what stands in a clause."""
    clause = re.compile(rf" {{{it.indent}}}(?:unfolding |{re.escape(it.names[0])}(?!\S))")
    end = next((at for at in range(it.first + 1, it.end) if clause.match(file.lines[at])), it.end)
    first, *others = file.lines[it.first : end]
    found = DECLARED.match(first)
    text = " ".join([first[found.end() :], *others]) if found else ""
    if it.scope != ALL_LINES or first.lstrip().startswith(("abbrev ", "unfoldable ")) or not STATES.search(text):
        return None
    whole = in_sections(file, it, text)
    numbers = {name: f"variable {at}" for at, name in enumerate(dict.fromkeys(variables(whole)))}
    return " ".join(scopes.meaning(file, word, numbers) for word in WORD_OR_SIGN.findall(whole))


def copies(scopes: Scopes, libraries: Mapping[str, Collection[str]]) -> Iterator[str]:
    """The lemmas that state what another one states that they could cite, by the crates below each."""
    stated: dict[str, list[tuple[File, Declaration]]] = {}
    for file in scopes.files:
        for it in file.declared:
            if pathlib.PurePath(file.path).parts[2] == "proofs" and (text := statement(scopes, file, it)):
                stated.setdefault(text, []).append((file, it))
    for same in stated.values():
        for (one, first), (other, second) in itertools.combinations(same, 2):
            a, b = (pathlib.PurePath(file.path).parts[1] for file in (one, other))
            if one != other and (a == b or a in libraries[b] or b in libraries[a]):
                yield f"{other.path}:{second.first + 1}: {second.names[0]} is {first.names[0]} of {one.path}:{first.first + 1}"


def main() -> None:
    paths = [path for part in PARTS for path in TOP.glob(f"crates/*/{part}/**/*") if path.suffix in (".rt", ".antt")]
    scopes = Scopes({str(path.relative_to(TOP)): path.read_text(encoding="utf-8") for path in paths})
    lower = stands_on()
    told = [*unnamed(scopes), *copies(scopes, {name: below(lower, name) for name in lower})]
    for line in told:
        print(line, file=sys.stderr)
    sys.exit(bool(told))


if __name__ == "__main__":
    main()
