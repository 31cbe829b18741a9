"""Command lines: what is wrong with one is told in one line, with the word that was probably meant."""
import argparse
import re
from collections.abc import Iterator
from typing import NoReturn

from .errors import perhaps

WRONG = re.compile(r"(?:invalid choice: '([^']*)' \(choose from (.*)\)|unrecognized arguments: (\S+).*)$")


class Parser(argparse.ArgumentParser):
    """A parser whose refusals are a line each."""

    def error(self, message: str) -> NoReturn:
        """Ends with status 2."""
        self.exit(2, f"{self.prog}: {WRONG.sub(self._told, message)} ({self.prog} --help has all)\n")

    def _told(self, found: re.Match[str]) -> str:
        word, choices, option = found.groups()
        if option is not None:
            return f"there is no option {option}{perhaps(option.partition('=')[0], self._options())}"
        names = re.findall(r"[\w-]+", choices)
        return f"there is no {word!r}{perhaps(word, names)}: there are {', '.join(names)}"

    def _options(self) -> Iterator[str]:
        """The options of this parser, and of those below it."""
        for action in self._actions:
            yield from action.option_strings
            if isinstance(action, argparse._SubParsersAction):
                for one in action.choices.values():
                    yield from one._options()
