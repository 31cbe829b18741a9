"""A run's page, as a notebook shows it and a file keeps it."""
from collections.abc import Iterable
from dataclasses import dataclass
from html import escape
from pathlib import Path

from ..scenario import Scenario
from ..tables import Row
from .cut import Cut
from .document import Document
from .html import page

HEIGHT = 720  # in a notebook, in pixels


@dataclass(frozen=True)
class Page:
    """The page of a run: its title, and its HTML, which needs nothing besides."""

    title: str
    html: str

    def __repr__(self) -> str:
        return f"<Page: {self.title}, {len(self.html):,} bytes; write(path) saves it>"

    def _repr_html_(self) -> str:
        return (f'<iframe title="{escape(self.title)}" srcdoc="{escape(self.html)}" '
                f'style="width: 100%; height: {HEIGHT}px; box-sizing: border-box; border: 1px solid #cccccc"></iframe>')

    def write(self, path: str | Path) -> Path:
        """Writes the page's file, and gives its path."""
        path = Path(path)
        path.write_text(self.html, encoding="utf-8")
        return path


def page_of(given: Scenario, rows: Iterable[Row], seed: int, cut: Cut = Cut(), title: str | None = None) -> Page:
    """The page of a run of a seed, from its trace."""
    told = title or f"Run of seed {seed}"
    comments = [line for comment in given.comments for line in comment.splitlines()]
    return Page(told, page(told, Document(given, rows, seed, cut).payload(told, comments)))
