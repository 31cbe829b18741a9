"""A rest."""
from typing import NamedTuple

from .marks import Mark


class Rest(NamedTuple):
    """Until when a member that sent or heard a repair rests, and the mark of that repair, None where it went to all."""

    until: int
    mark: Mark | None
