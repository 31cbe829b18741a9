"""TOML 1.1, which the format is, by Python's reader of TOML 1.0.

What 1.1 has besides is turned into what 1.0 has for it: line breaks, comments and a last comma within `{ .. }`, the
escapes `\\e` and `\\xHH`, and times without seconds.
"""
import re
import tomllib
from collections.abc import Iterator
from typing import Any

TOKEN = re.compile(r'''
    (?P<string> """ (?:[^\\] | \\.)*? "{3,5} | \'\'\' .*? \'{3,5} | " (?:[^"\\\n] | \\.)* " | ' [^'\n]* ')
  | (?P<comment> \#[^\n]*)
  | (?P<line> \n)
  | (?P<space> [ \t]+)
  | (?P<mark> [][{},])
  | (?P<bare> [^][\s"'#{},]+)
  | (?P<other> .)
''', re.VERBOSE | re.DOTALL)
ESCAPE = re.compile(r"\\(e|x[0-9a-fA-F]{2}|.)", re.DOTALL)
TIME = re.compile(r"(?<![-+:0-9])([0-9]{2}:[0-9]{2})(?![:0-9])")
PLACE = re.compile(r" \(at line ([0-9]+), column ([0-9]+)\)$")
CONTROL = re.compile(r"[\x00-\x08\x0b-\x1f\x7f]")
LEAST, MOST = -2**63, 2**63 - 1
Token = tuple[str, str]


def read_toml(text: str) -> dict[str, Any]:
    """The keys and values of a text, or ValueError where it is no TOML 1.1 or has an integer of more than 64 bits."""
    try:
        try:
            table = tomllib.loads(text)
        except tomllib.TOMLDecodeError:
            table = _read_as_toml_1_0(text.replace("\r\n", "\n"))
    except RecursionError:
        raise ValueError("arrays or tables stand too deep in each other") from None
    _check_numbers(table)
    return table


def _read_as_toml_1_0(text: str) -> dict[str, Any]:
    """Reads a text as TOML 1.0, and tells the place of a fault in the text that was given."""
    turned = as_toml_1_0(text)
    try:
        return tomllib.loads(turned)
    except tomllib.TOMLDecodeError as fault:
        found = PLACE.search(str(fault))
        if found is None:
            raise
        line, column = int(found[1]), int(found[2])
        before = text[:sum(len(one) + 1 for one in turned.split("\n")[:line - 1]) + column - 1]
        place = f"(at line {before.count(chr(10)) + 1}, column {len(before) - before.rfind(chr(10))})"
        raise ValueError(f"{str(fault)[:found.start()]} {place}") from None


def _check_numbers(value: Any) -> None:
    if isinstance(value, int) and not LEAST <= value <= MOST:
        raise ValueError(f"{value} has more than 64 bits")
    if isinstance(value, (dict, list)):
        for one in value.values() if isinstance(value, dict) else value:
            _check_numbers(one)


def as_toml_1_0(text: str) -> str:
    """The same in TOML 1.0, each letter at its place, but after escapes; what is no TOML 1.1 is no TOML 1.0 either."""
    tokens = [(str(found.lastgroup), found.group()) for found in TOKEN.finditer(text)]
    if any(kind == "other" for kind, _ in tokens):
        return text  # a string that does not end, or a letter that stands nowhere in TOML
    return "".join(_turned(tokens, _following(tokens)))


def _following(tokens: list[Token]) -> list[str]:
    """For each token the next one that is no space, comment or line break."""
    found, following = "", []
    for kind, word in reversed(tokens):
        following.append(found)
        if kind not in ("space", "comment", "line"):
            found = word
    return following[::-1]


def _turned(tokens: list[Token], following: list[str]) -> Iterator[str]:
    before, around = "", [""]
    for (kind, word), after in zip(tokens, following):
        if kind in ("comment", "line"):
            is_free = around[-1] == "{" and (before in ("{", ",") or after in ("}", ","))
            yield " " * len(word) if is_free and not CONTROL.search(word.rstrip("\n")) else word
            continue
        if kind == "string":
            yield ESCAPE.sub(_escape, word) if word.startswith('"') else word
        elif kind == "bare":
            yield TIME.sub(r"\1:00", word)
        else:
            is_last = word == "," and after == "}" and around[-1] == "{" and not before.endswith(("{", ",", "="))
            yield " " if is_last else word
            if word in ("[", "{"):
                around.append(word)
            elif word in ("]", "}") and len(around) > 1:
                around.pop()
        if kind != "space":
            before = word


def _escape(found: re.Match[str]) -> str:
    """An escape of TOML 1.0 for one of 1.1."""
    if found[1] == "e":
        return r"\u001b"
    return rf"\u00{found[1][1:]}" if len(found[1]) == 3 else found[0]
