"""Random words of a member, as docs/MODEL.md defines them."""

MASK = 2**64 - 1
MULTIPLIER = 6364136223846793005


class Words:
    """The generator Lcg64Xsh32 (PCG XSH RR 64/32) of a seed and a stream."""

    def __init__(self, seed: int, stream: int) -> None:
        self.increment = (2 * stream + 1) & MASK
        self.state = (seed + self.increment) & MASK
        self._step()

    def _step(self) -> None:
        self.state = (self.state * MULTIPLIER + self.increment) & MASK

    def next(self) -> int:
        """The next word, of 32 bits."""
        old = self.state
        self._step()
        word, turn = ((old >> 18 ^ old) >> 27) & 0xFFFFFFFF, old >> 59
        return (word >> turn | word << (32 - turn)) & 0xFFFFFFFF
