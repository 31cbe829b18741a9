"""One table for an experiment: a row for each lost operation of each run."""
import csv
import json
from collections.abc import Callable, Iterator
from pathlib import Path
from typing import TextIO

from .experiment import COLUMNS, NAME, Experiment

Row = dict[str, str]


def write_table(experiment: Experiment, path_of: Callable[[str, int, str], str | Path], out: TextIO) -> None:
    """Writes the table of an experiment; `path_of(label, part, name)` is where a table of a part of a point's runs is.

    Its columns are the experiment's keys, the seed, the operation as source/page/number, what its recovery took, and the
    experiment's own metrics.
    """
    keys = [name for name in experiment.config if name != "seeds"]
    table = csv.DictWriter(out, [*keys, "seed", "operation", *COLUMNS, *experiment.metrics], lineterminator="\n")
    table.writeheader()
    for label, point in experiment.points.items():
        for part in range(len(experiment.parts)):
            own = rows_of(path_of(label, part, "metrics")) if experiment.metrics else iter(())
            metrics: dict[str, Row] = {row["seed"]: {name: row[name] for name in experiment.metrics} for row in own}
            delays = delays_of(path_of(label, part, "losses"))
            for row in rows_of(path_of(label, part, "operations")):
                table.writerow({**point, **operation(row, delays), **(metrics[row["seed"]] if metrics else {})})


def rows_of(path: str | Path) -> Iterator[Row]:
    """The rows of a table."""
    with open(path, newline="", encoding="utf-8") as lines:
        yield from csv.DictReader(lines)


def delays_of(path: str | Path) -> dict[tuple[str, ...], list[float]]:
    """The delays of those that recovered, for each seed and name."""
    found: dict[tuple[str, ...], list[float]] = {}
    for row in rows_of(path):
        if row["delay"] != "-":
            found.setdefault(key_of(row), []).append(number(row["delay"].partition("/")[0]))
    return found


def key_of(row: Row) -> tuple[str, ...]:
    """The seed and the name of a row."""
    return row["seed"], *(row[part] for part in NAME)


def number(text: str) -> float:
    """A number of ticks; those of ns-2 need not be whole."""
    return int(text) if text.isdigit() else float(text)


def operation(row: Row, delays: dict[tuple[str, ...], list[float]]) -> dict[str, object]:
    """What an experiment's table says of an operation; delays only where nobody lacks it still."""
    kept = {name: row[name] for name in ("seed", "losers", "left", "requests", "repairs")}
    told = {"operation": "/".join(row[part] for part in NAME),
            "open": int(row["losers"]) - int(row["recovered"]) - int(row["left"])}
    if row["delay"] == "-":
        return {**kept, **told}
    own, (last, _, trip) = delays[key_of(row)], row["delay"].partition("/")
    return {**kept, **told, "least_delay": min(own), "greatest_delay": max(own), "last_delay": last, "last_round_trip": trip}


def main(config: str, runs: str, table: str) -> None:
    """Writes a table to a file: of an experiment's configuration as JSON, and the folder of its runs."""
    with open(table, "w", newline="", encoding="utf-8") as out:
        write_table(Experiment("", json.loads(config)), lambda label, part, name: Path(runs, label, f"part-{part}.{name}.csv"),
                    out)
