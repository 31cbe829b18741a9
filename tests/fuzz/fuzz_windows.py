"""Words that ask for the run in windows, made at random, and what must come of them by docs/FORMATS.md."""
import random
from typing import Any

from fuzz_format import Table, links_of
from fuzz_scenarios import Case

CREWS = ("plain", "pool", "bag")
MOST_WORKERS = 64
# the workers that a team is tried with, of which the first leads it
TEAMS = (1, 2, 4, 7, MOST_WORKERS)
MOST_CUT = 1024
GREATEST_CUT = 2**32 - 1
GREATEST_WIDTH = 2**64 - 1
# threads that a run may start in all, so that it does not take long: a bag's workers are threads of each window
THREADS = 20000


def often_small(rng: random.Random, most: int) -> int:
    """A number from 1 to a limit: a small one half of the time, and now and then the limit."""
    return rng.choice([rng.randint(1, min(8, most)), rng.randint(1, min(8, most)), rng.randint(1, most), most])


def widest(top: Table) -> int:
    """The greatest width that this scenario allows: the least delay of its links, in either direction."""
    return min((min(delay, back) for _, _, delay, back in links_of(top)), default=GREATEST_WIDTH)


def asked(crew: str, workers: int, cut: int, width: int | str) -> list[str]:
    words: dict[str, Any] = {"engine": "window", "crew": crew, "workers": workers, "cut": cut, "width": width}
    return [word for name, value in words.items() for word in (f"--{name}", str(value))]


def some_width(rng: random.Random, top: Table | None, words: set[str]) -> int | str:
    """A width that each accepted scenario allows; top is None where its plain data is not known, and --help names these words."""
    widths: list[int | str] = [1, "least", *(word for word in ["promise"] if word in words)]
    return rng.choice(widths) if top is None or rng.random() < 0.7 else often_small(rng, widest(top))


def windows(rng: random.Random, top: Table | None, rows: int, words: set[str]) -> list[str]:
    """Words that each accepted scenario allows, of a crew that starts its threads in each window. The trace has so many rows."""
    width = some_width(rng, top, words)
    workers = often_small(rng, max(1, min(MOST_WORKERS, THREADS // max(rows, 1))))
    return asked(rng.choice(CREWS), workers, often_small(rng, MOST_CUT), width)


def team(rng: random.Random, top: Table | None, words: set[str]) -> list[str]:
    """Words that each accepted scenario allows, of a team."""
    return asked("team", rng.choice(TEAMS), often_small(rng, MOST_CUT), some_width(rng, top, words))


def refused(rng: random.Random, top: Table) -> tuple[list[str], str]:
    """Words that this accepted scenario does not allow, and the word of the line that tells so."""
    wide = [0, *([widest(top) + 1, GREATEST_WIDTH] if widest(top) < GREATEST_WIDTH else [])]
    cut = rng.choice([0, MOST_CUT + 1, GREATEST_CUT, rng.randint(MOST_CUT + 1, GREATEST_CUT)])
    if rng.random() < 0.5:
        return asked(rng.choice(CREWS), 1, cut, rng.choice([1, *wide])), "bad-cut"
    return asked(rng.choice(CREWS), 1, rng.randint(1, MOST_CUT), rng.choice(wide)), "bad-width"


def random_of(case: Case) -> random.Random:
    """The random numbers of a case's windows, apart from those that made its scenario."""
    return random.Random(case.text + str(case.seed).encode())
