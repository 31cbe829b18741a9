"""Metrics of local recovery, of runs in which one operation is lost: who hears what its recovery takes, for each loser."""
from srm_lab import Runs, heard


def requests_heard(runs: Runs) -> float:
    """How many members hear a request, each counted for each, over the losers."""
    return _each(runs, "requests_heard")


def repairs_heard(runs: Runs) -> float:
    """How many members hear a repair, each counted for each, over the losers."""
    return _each(runs, "repairs_heard")


def hearing(runs: Runs) -> float:
    """How many members hear a request or a repair, over the losers: what comes to a member besides data is no more."""
    data = len(runs.given.settled.draws) - runs.members["lost"]
    own = runs.members["member"] == runs.given.source()
    others = runs.members["heard"] > data.where(~own, 0)
    return float(others.sum() / _losers(runs))


def longest_delay(runs: Runs) -> float:
    """The longest delay of a loser, in its round trips to the source."""
    return float((runs.losses["delay"] / runs.losses["round_trip"]).max())


def _losers(runs: Runs) -> int:
    losers, = runs.operations["losers"]
    return int(losers)


def _each(runs: Runs, column: str) -> float:
    return float(heard(runs)[column].sum() / _losers(runs))
