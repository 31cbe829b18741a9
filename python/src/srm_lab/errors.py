"""The exceptions of this package, and what their sentences have in common."""
import difflib
import inspect
from collections.abc import Callable, Iterable
from functools import wraps
from typing import Any, TypeVar

Work = TypeVar("Work", bound=Callable[..., Any])
Kind = TypeVar("Kind", bound=type)


class ScenarioError(ValueError):
    """What was asked for is no scenario, no trace of it, or cannot be written; the message names the key and the rule.

    `part` is the part of the format that is at fault (`top`, `link`, `member`, `draw`, `session`, `drop`, `outage` or `loss`),
    `place` the element's place in it, `key` the key; each is None where the fault is of no such part.
    """

    def __init__(self, told: str, part: str | None = None, place: int | None = None, key: str | None = None):
        super().__init__(told)
        self.part, self.place, self.key = part, place, key


class RefusedError(RuntimeError):
    """The program refused a run. The message is the program's line, and below it the explanation if there is one.

    `line` is the line alone, `explanation` what the program said after it, and `status` its exit status.
    """

    def __init__(self, line: str, status: int, explanation: str = ""):
        super().__init__(f"{line}\n{explanation}" if explanation else line)
        self.line, self.status, self.explanation = line, status, explanation

    def __reduce__(self) -> tuple:
        return RefusedError, (self.line, self.status, self.explanation), self.__dict__


def perhaps(name: object, names: Iterable[str]) -> str:
    """The name that was probably meant, as the end of a sentence, or nothing where none is like it."""
    known = list(names)
    same = [one for one in known if sorted(one) == sorted(str(name))]  # letters exchanged
    found = same or difflib.get_close_matches(str(name), known, 1)
    return f" (did you mean {found[0]!r}?)" if found else ""


def unknown(work: Callable[..., Any], words: Iterable[str]) -> str | None:
    """What is told of the first of some keywords that a function does not take, or None where it takes them all."""
    taken = inspect.signature(work).parameters
    if any(one.kind is one.VAR_KEYWORD for one in taken.values()):
        return None
    names = [name for name in taken if name != "self"]
    return next((f"there is no keyword {word!r}{perhaps(word, names)}: there are {', '.join(names)}" for word in words
                 if word not in names), None)


def spelled(work: Work) -> Work:
    """The same function, which says in a sentence that it does not take a keyword, and which one was probably meant."""
    @wraps(work)
    def told(*given: Any, **words: Any) -> Any:
        try:
            return work(*given, **words)
        except TypeError:
            fault = unknown(work, words)
            if fault is None:
                raise
        raise TypeError(f"{work.__qualname__.removesuffix('.__init__').rpartition('.')[2]}: {fault}")

    return told  # type: ignore[return-value]


def verbs_spelled(kind: Kind) -> Kind:
    """The same class, the making of which says so, and each verb that gives one."""
    for name, verb in list(vars(kind).items()):
        if inspect.isfunction(verb) and (name == "__init__" or verb.__annotations__.get("return") == kind.__name__):
            setattr(kind, name, spelled(verb))
    return kind
