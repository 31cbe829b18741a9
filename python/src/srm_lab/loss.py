"""A loss."""
from dataclasses import dataclass


@dataclass
class Loss:
    """A name that a member lacked from tick `detected` on, till it recovered it or left with it."""

    member: int
    name: tuple[int, int, int]
    detected: int
    recovered: int | None = None
    left: int | None = None

    @property
    def ended(self) -> str:
        """`recovered`, `left` where the member left before, and `open` where the run ended before."""
        if self.recovered is not None:
            return "recovered"
        return "open" if self.left is None else "left"

    @property
    def end(self) -> int | None:
        """The tick at which the member recovered it or left, or None where the run ended before."""
        return self.left if self.recovered is None else self.recovered
