"""What was made before: of a sweep many points have the same networks, members, draws and losses."""
import pickle
from collections.abc import Callable
from functools import wraps
from typing import Any, TypeVar

Make = TypeVar("Make", bound=Callable[..., Any])
MOST = 100_000  # nodes or elements of all that a function keeps, each of at most about 600 bytes


class Last:
    """What a function gave last, by its arguments, as long as it weighs no more than MOST together."""

    def __init__(self, weigh: Callable[[Any], int]):
        self._found: dict[Any, Any] = {}
        self._weigh = weigh
        self._weight = 0

    def get(self, own: Any, words: Any, make: Callable[[], Any]) -> Any:
        """What it gave for this key and these arguments, or gives now."""
        try:
            key = own, pickle.dumps(words)  # which tells 1, 1.0 and True apart
        except (AttributeError, TypeError, pickle.PicklingError):  # of a generator, say
            return make()
        made = self._found.pop(key, None)
        if made is None:
            made = make()
            self._weight += self._weigh(made)
        self._found[key] = made  # the last one to go
        while self._weight > MOST and self._found:
            self._weight -= self._weigh(self._found.pop(next(iter(self._found))))
        return made


def kept(weigh: Callable[[Any], int]) -> Callable[[Make], Make]:
    """The same function, whose last answers are kept: what it gives depends on its arguments alone."""
    def keeping(make: Make) -> Make:
        last = Last(weigh)

        @wraps(make)
        def same(*given: Any, **words: Any) -> Any:
            return last.get(None, (given, sorted(words.items())), lambda: make(*given, **words))

        return same  # type: ignore[return-value]

    return keeping


def kept_of(make: Make) -> Make:
    """The same function of a tuple and other arguments, whose last answers are kept: of this tuple, and not of an equal one."""
    last = Last(lambda made: 1 + len(made[0]))

    @wraps(make)
    def same(several: tuple[Any, ...], *words: Any) -> Any:
        return last.get(id(several), words, lambda: (several, make(several, *words)))[1]

    return same  # type: ignore[return-value]
