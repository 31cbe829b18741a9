"""What a verb says of timers: some of it goes by the number of members, who may come later."""
import math
from dataclasses import dataclass
from decimal import Decimal, InvalidOperation

from .errors import ScenarioError
from .limits import NEWEST, within
from .setting import logarithm, setting

BACKOFF = "backoff"


@dataclass(frozen=True)
class Timing:
    """Constants in words, such as `2` or `log10`, and perhaps the factor of backoff; or first values of adaptive timers."""

    words: dict[str, float | str]
    is_adaptive: bool = False

    def keys(self, members: int) -> dict[str, int]:
        """The keys of a scenario with so many members that it sets."""
        given = {name: thousandths(str(word), members) for name, word in self.words.items() if name != BACKOFF}
        if self.is_adaptive:
            return setting(members, given)
        return given | {name: within(name, word, 2, 3) for name, word in self.words.items() if name == BACKOFF}


def thousandths(text: str, members: int) -> int:
    """A timer constant in thousandths: of a number with at most three decimals, or of log10 or sqrt of the members."""
    if text in ("log10", "sqrt"):
        return logarithm(members) if text == "log10" else round(1000 * math.sqrt(members))
    try:
        number = Decimal(text) * 1000
    except InvalidOperation:
        raise ScenarioError(f"{text!r} is no number, log10 or sqrt") from None
    if not number.is_finite() or number != int(number):
        raise ScenarioError(f"{text} has more than three decimals, and the format has thousandths")
    return within(f"{text} in thousandths", int(number), 0, NEWEST.constant)
