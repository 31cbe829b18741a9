"""A link of a network."""
from typing import NamedTuple


class Link(NamedTuple):
    """Two nodes, and the delay in ticks from the first to the second, and back."""

    a: int
    b: int
    delay: int
    back: int

    @classmethod
    def both_ways(cls, a: int, b: int, delay: int) -> "Link":
        """A link that takes as long in either direction."""
        return cls(a, b, delay, delay)

    @property
    def is_even(self) -> bool:
        """Whether it takes as long in either direction."""
        return self.delay == self.back

    def delay_from(self, node: int) -> int:
        """The delay from this end to the other one."""
        return self.delay if node == self.a else self.back

    def other(self, node: int) -> int:
        """The end that is not this one."""
        return self.b if node == self.a else self.a
