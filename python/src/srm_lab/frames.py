"""Tables as DataFrames: read from what the program writes, and saved with what they are of."""
import json
from collections.abc import Callable, Sequence
from dataclasses import dataclass
from functools import cache
from io import BytesIO
from pathlib import Path
from typing import Any

import numpy
import pandas

from . import timers
from .errors import ScenarioError, spelled
from .parts import CONSTANTS
from .scenario import Scenario
from .tables import HEADER

WORDS = ("role", "cause", "ref", "result", "sent", "kind", "how")  # columns without numbers
# what the program writes, or for `timers` the package; a delay is told as `delay/round trip`, in its last column
WRITTEN: dict[str, tuple[str, ...]] = {
    "losses": ("member", "source", "page", "number", "detected", "recovered", "delay", "round_trip"),
    "operations": ("source", "page", "number", "losers", "recovered", "left", "detected", "asked", "requests", "repairs",
                   "last", "delay", "round_trip"),
    "members": ("member", "role", "node", "joined", "left", "drawn", "heard", "lost", "fixed", "open", "requests",
                "repairs", "sessions"),
    "scopes": ("time", "member", "cause", "ref", "sent", "scope", "requester", "width", "heard"),
    "links": ("link", "data", "requests", "repairs", "sessions", "dropped"),
    "timers": timers.COLUMNS,
    "trace": tuple(HEADER.split(",")),
    "constants": ("time", "member", "cause", "ref", *CONSTANTS, "ave_dup_req", "ave_req_delay", "ave_dup_rep",
                  "ave_rep_delay"),
}
# what the scenario tells besides
ADDED = {"losses": ("ended", "node"), "scopes": ("node",), "links": ("a", "b"), "constants": ("node",)}
COLUMNS = {name: (*columns, *ADDED.get(name, ())) for name, columns in WRITTEN.items()}
Columns = dict[str, numpy.ndarray]  # of one table, in order: words, or numbers, and -1 for none
Rows = bytes | numpy.ndarray  # of one table: its text, or where it has no words the numbers of each row, and -1 for none
WIDEST = 8  # bytes of a number
Frames = dict[str, pandas.DataFrame]
ENDS = numpy.array(["recovered", "left", "open"], dtype=object)  # each word once, however many rows have it


@dataclass(frozen=True)
class Table:
    """A table of runs of one scenario; `number` is the scenario's."""

    number: int
    given: Scenario
    rows: Rows


def rows_of(name: str, text: bytes) -> Rows:
    """The rows of a table as it is written, with the seed in front."""
    rows = text.partition(b"\n")[2]
    if "round_trip" in WRITTEN[name]:
        rows = rows.replace(b"/", b",").replace(b",-\n", b",-,-\n")
    if not has_numbers_alone(name):
        return rows
    numbers = numpy.fromstring(rows.replace(b"-", b"-1").replace(b"\n", b","), "int64", sep=",")  # faster than by pandas
    return numbers.reshape(rows.count(b"\n"), 1 + len(WRITTEN[name]))


def has_numbers_alone(name: str) -> bool:
    """Whether no column of a table has words; then no number is below 0."""
    return not set(WORDS).intersection(WRITTEN[name])


def packed(rows: Rows) -> bytes:
    """Rows as the cache keeps them: numbers are read ten times as fast as their digits.

    They stand row after row, in four bytes each where these are enough, and else in eight; which of the two stands before them.
    """
    if isinstance(rows, bytes):
        return rows
    width = 4 if numpy.abs(rows).max(initial=0) < 2**31 else 8
    return width.to_bytes(WIDEST, "little") + rows.astype(f"<i{width}").tobytes()


def unpacked(name: str, kept: bytes) -> Rows:
    """Rows that the cache kept."""
    if not has_numbers_alone(name):
        return kept
    return numpy.frombuffer(kept, f"<i{kept[0]}", offset=WIDEST).reshape(-1, 1 + len(WRITTEN[name]))


def columns_of(name: str, tables: Sequence[Table]) -> Columns:
    """The columns of a table of several scenarios, with their numbers and the seeds in front."""
    counts = [one.rows.count(b"\n") if isinstance(one.rows, bytes) else len(one.rows) for one in tables]
    scenarios = numpy.repeat(numpy.arange(len(tables)), counts)
    given = [one.given for one in tables]
    columns = {"scenario": numpy.repeat([one.number for one in tables], counts), **_read(name, [one.rows for one in tables])}
    if name == "losses":
        columns |= _ends(columns, given, scenarios)
    if "node" in COLUMNS[name]:
        nodes = [[one.tree.name(member.node) for member in one.members] for one in given]
        columns["node"] = _looked_up(given, nodes, scenarios, columns["member"])
    if name == "links":
        for end in ("a", "b"):
            ends = [[one.tree.name(getattr(link, end)) for link in one.tree.links] for one in given]
            columns[end] = _looked_up(given, ends, scenarios, columns["link"])
    return columns


def _read(name: str, several: Sequence[Rows]) -> Columns:
    """The seeds, and the columns that are written."""
    columns = ("seed", *WRITTEN[name])
    if has_numbers_alone(name):
        return dict(zip(columns, numpy.ascontiguousarray(numpy.concatenate(several).T)))
    words = [column for column in columns if column in WORDS]
    text = b"".join(rows for rows in several if isinstance(rows, bytes))
    read = pandas.read_csv(BytesIO(text), header=None, names=columns, index_col=False, engine="c",
                           dtype=dict.fromkeys(words, str), keep_default_na=False,
                           na_values={column: ["-", ""] for column in columns if column not in words})
    return {column: read[column].to_numpy() if column in words else read[column].fillna(-1).to_numpy("int64")
            for column in columns}


def _ends(losses: Columns, given: Sequence[Scenario], scenarios: numpy.ndarray) -> Columns:
    """How losses ended, as places in ENDS, and the round trips also of those that did not end with a recovery."""
    leaves = [[member.leave is not None and member.leave < one.end for member in one.members] for one in given]
    left = numpy.asarray(_looked_up(given, leaves, scenarios, losses["member"]), bool)
    is_open = losses["recovered"] < 0
    round_trip = cache(lambda place, member, source: given[place].round_trip(member, source))  # many rows have the same
    trips = losses["round_trip"].astype("int64")
    trips[is_open] = [*map(round_trip, *(
        column[is_open].tolist() for column in (scenarios, losses["member"], losses["source"])))]
    return {"round_trip": trips, "ended": numpy.where(is_open, numpy.where(left, 1, 2), 0).astype("int8")}


def _looked_up(given: Sequence[Scenario], values: Sequence[Sequence[Any]], scenarios: numpy.ndarray,
               places: numpy.ndarray) -> numpy.ndarray:
    """For each row the value of its scenario at its place, such as the node of its member; numbers where all are."""
    starts = numpy.cumsum([0, *map(len, values)])[:-1]
    is_named = any(one.tree.names for one in given)
    flat = numpy.array([one for several in values for one in several], dtype=object if is_named else "int32")
    return flat[starts[scenarios] + places] if len(places) else flat[:0]


def joined(name: str, parts: Sequence[Columns]) -> pandas.DataFrame:
    """A table of these parts of it, in order of the scenarios' numbers. It takes column after column out of the parts."""
    order = numpy.argsort(numpy.concatenate([part["scenario"] for part in parts]), kind="stable")
    return pandas.DataFrame({column: _shown(name, column, numpy.concatenate([part.pop(column) for part in parts])[order])
                             for column in [*parts[0]]}, copy=False)


def _shown(name: str, column: str, values: numpy.ndarray) -> Any:
    """A column as a table has it: of its numbers some may be missing, but for those in front."""
    if (name, column) == ("losses", "ended"):
        return ENDS[values]
    if column in ("scenario", "seed"):
        return values.astype("int64")
    return values if values.dtype == object else pandas.arrays.IntegerArray(numpy.maximum(values, 0, dtype="int64"), values < 0)


@spelled
def save(frame: pandas.DataFrame, path: str | Path) -> Path:
    """Writes a table as CSV or Parquet, by the ending of its path, and beside it as JSON what it is of (`frame.attrs`).

    Parquet needs pyarrow or fastparquet besides.
    """
    path = Path(path)
    index = frame.index.names != [None]
    writers: dict[str, Callable[[], None]] = {
        ".csv": lambda: frame.to_csv(path, index=index), ".parquet": lambda: frame.to_parquet(path, index=index)}
    if path.suffix not in writers:
        raise ScenarioError(f"{path}: the name has to end in .csv or .parquet")
    path.parent.mkdir(parents=True, exist_ok=True)
    try:
        writers[path.suffix]()
    except ImportError:
        raise ScenarioError("parquet needs pyarrow or fastparquet, and neither of these Python packages is "
                            "installed (Debian 12 has none: pip install srm_lab[parquet])") from None
    path.with_suffix(".json").write_text(json.dumps(frame.attrs, indent=2) + "\n", encoding="utf-8")
    return path
