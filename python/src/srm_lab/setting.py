"""The setting of adaptive timers that Floyd et al. (1997) simulate, for a session of so many members.

C1 and C2 begin with 2, D1 and D2 with the decimal logarithm of the members. C1 and D1 go down to 0.5 and never above
where they began; C2 and D2 go from 1 to the number of members. A request timer that backs off becomes three times as
long. This project's own is what the setting leaves open: D1 and D2 of a small session begin with their least value where
the logarithm is below it (D1 of up to 3 members, D2 of up to 9); C2 and D2 never have to fall, also where there is but one
member; and a constant that is given another first value has limits that reach to it.
"""
import math
from collections.abc import Mapping

from .limits import NEWEST
from .parts import CONSTANTS

LEAST = {"c1": 500, "c2": 1000, "d1": 500, "d2": 1000}
WIDTHS = ("c2", "d2")  # which rise up to the number of members
BACKOFF = 3


def logarithm(members: int) -> int:
    """The decimal logarithm of the members in thousandths."""
    return round(1000 * math.log10(max(1, members)))


def setting(members: int, given: Mapping[str, int]) -> dict[str, int]:
    """The constants with their limits, in thousandths, and the factor of backoff; `given` are other first values."""
    first = {"c1": 2000, "c2": 2000, **{name: max(LEAST[name], logarithm(members)) for name in ("d1", "d2")}, **given}
    most = min(1000 * members, NEWEST.constant)
    keys = {name: first[name] for name in CONSTANTS}
    keys |= {f"{name}_least": min(LEAST[name], first[name]) for name in CONSTANTS}
    keys |= {f"{name}_most": max(most, first[name]) for name in WIDTHS}
    return {**keys, "backoff": BACKOFF}
