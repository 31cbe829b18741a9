"""Sweeps: runs for each combination of some parameters, as one tidy table."""
import hashlib
import inspect
from collections.abc import Callable, Iterable, Mapping
from itertools import product
from pathlib import Path
from typing import Any, overload

import pandas

from .errors import ScenarioError, perhaps, spelled, unknown
from .frames import COLUMNS, Frames
from .parts import CONSTANTS, LIMITS
from .runs import CACHE, Job, asked_of, origin, perform_all, seeds_of, workers_of
from .scenario import Scenario
from .timing import BACKOFF

Maker = Scenario | Callable[..., Scenario] | None
Parameters = Mapping[str, Any]
LABELS = (str, int, float, bool, type(None))  # what may stand in a column


@overload
def sweep(parameters: Parameters, make: Maker = None, seeds: int | Iterable[int] = 1, tables: str = "losses",
          program: str | Path | None = None, cache: str | Path | None = CACHE, workers: int | None = None,
          progress: bool | None = None, options: Iterable[str] = ()) -> pandas.DataFrame: ...


@overload
def sweep(parameters: Parameters, make: Maker = None, seeds: int | Iterable[int] = 1, *, tables: Iterable[str],
          program: str | Path | None = None, cache: str | Path | None = CACHE, workers: int | None = None,
          progress: bool | None = None, options: Iterable[str] = ()) -> Frames: ...


@spelled
def sweep(parameters: Parameters, make: Maker = None, seeds: int | Iterable[int] = 1,
          tables: str | Iterable[str] = "losses", program: str | Path | None = None, cache: str | Path | None = CACHE,
          workers: int | None = None, progress: bool | None = None, options: Iterable[str] = ()) -> pandas.DataFrame | Frames:
    """Runs a scenario for each combination of parameters and each seed: one table, with a column for each parameter.

        sweep({"c2": [0, 1, 2], "nodes": [50, 100]}, make, seeds=20, tables="operations")

    A parameter has a list of values, or a dict, whose keys stand in the column in place of the values. `make` is a
    function that is given the values by name, and gives the scenario; where it takes `seed`, it is given that too, and
    so makes a scenario for each seed. In place of a function a scenario will do, or a parameter whose values are
    scenarios, where all other parameters are constants of timers.

    Of a list of tables the answer is a dict of them. The other words are those of `run`.
    """
    numbers, asked = seeds_of(seeds), asked_of(tables, program, cache, options)
    grid = Grid(parameters, make, numbers, asked.tables)
    frames, digests = perform_all(grid.scenario, grid.jobs(), asked, workers_of(workers), progress, grid.said)
    whole = digests[0] if len(digests) == 1 else hashlib.sha256("".join(digests).encode()).hexdigest()
    for name in asked.tables:
        frames[name] = grid.labelled(frames[name])
        frames[name].attrs = {**origin(name, numbers, asked), "scenario": whole, "parameters": grid.labels}
    return frames[tables] if isinstance(tables, str) else frames


class Grid:
    """The points of a sweep, each a combination of values, and its scenarios: of each point one, or one for each seed.

    Scenarios are numbered, those of a point one after the other. Where a point's are the same for all seeds, the first
    stands for all of them.
    """

    def __init__(self, parameters: Parameters, make: Maker, seeds: tuple[int, ...], tables: Iterable[str]):
        if not isinstance(parameters, Mapping):
            raise TypeError(f"parameters are a {type(parameters).__name__}, and have to be a dict of names and values")
        values = {name: values_of(name, given) for name, given in parameters.items()}
        for table in tables:
            for name in values:
                if name == "seed" or name in COLUMNS[table]:
                    raise ScenarioError(f"the table {table} has a column {name!r} besides this parameter: name it otherwise")
        self.labels = {name: list(found) for name, found in values.items()}
        self.points = [dict(zip(values, point)) for point in product(*(found.items() for found in values.values()))]
        self.make, self.is_seeded = maker_of(make, values)
        self.seeds = seeds
        self.each = len(seeds) if self.is_seeded else 1

    def jobs(self) -> list[Job]:
        """The runs of each scenario: its number, and their seeds. Scenarios of one seed, often on one network, are together."""
        jobs = [job for place in range(len(self.points)) for job in self._jobs_of(place)]
        return sorted(jobs, key=lambda job: job[0] % self.each)

    def _jobs_of(self, place: int) -> list[Job]:
        """The runs of a point; its scenarios are made until one is another than the first."""
        numbers = range(place * self.each, (place + 1) * self.each)
        if self.each == 1:
            return [(place, self.seeds)]
        first = self.scenario(numbers[0])
        if all(self.scenario(number).is_as(first) for number in numbers[1:]):
            return [(numbers[0], self.seeds)]
        return [(number, (seed,)) for number, seed in zip(numbers, self.seeds)]

    def scenario(self, number: int) -> Scenario:
        """The scenario of a number."""
        words = {name: value for name, (_, value) in self.points[number // self.each].items()}
        if self.is_seeded:
            words["seed"] = self.seeds[number % self.each]
        try:
            found = self.make(**words)
            if isinstance(found, Scenario):
                return found.check()
        except ScenarioError as fault:
            raise ScenarioError(f"{self.said(number)}: {fault}") from None
        raise TypeError(f"{self.said(number)}: the function gave a {type(found).__name__}, and has to give a Scenario")

    def said(self, number: int) -> str:
        """The point of a scenario, as a sentence tells it."""
        point = {name: label for name, (label, _) in self.points[number // self.each].items()}
        if self.is_seeded:
            point["seed"] = self.seeds[number % self.each]
        return ", ".join(f"{name} = {label}" for name, label in point.items())

    def labelled(self, frame: pandas.DataFrame) -> pandas.DataFrame:
        """A table with the parameters in front, in place of the scenarios' numbers."""
        labels = pandas.DataFrame([{name: label for name, (label, _) in point.items()} for point in self.points])
        own = labels.iloc[frame.pop("scenario") // self.each].reset_index(drop=True)
        return pandas.concat([own, frame], axis="columns", copy=False)


def values_of(name: str, given: Any) -> dict[Any, Any]:
    """The values of a parameter, each under what stands in the column for it; one value may stand without a list."""
    if isinstance(given, Mapping):
        found = list(given.items())
    else:
        several = [given] if isinstance(given, (str, Scenario)) or not isinstance(given, Iterable) else list(given)
        plain = [one.item() if hasattr(one, "item") else one for one in several]  # of numpy's numbers Python's own
        found = [(one, one) for one in plain]
    for label, _ in found:
        if not isinstance(label, LABELS):
            raise TypeError(f"parameter {name}: a {type(label).__name__} cannot stand in a column: give a dict, of what "
                            "stands there and the value that it stands for")
    if not found or len({label for label, _ in found}) < len(found):
        raise ScenarioError(f"parameter {name} has no value, or one twice")
    return dict(found)


def maker_of(make: Maker, values: dict[str, dict[Any, Any]]) -> tuple[Callable[..., Scenario], bool]:
    """The function that makes the scenarios, and whether it takes a seed."""
    if callable(make):
        return make, takes_seed(make, values)
    networks = [name for name, found in values.items() if all(isinstance(one, Scenario) for one in found.values())]
    if make is not None and not isinstance(make, Scenario) or (make is None) != (len(networks) == 1):
        raise TypeError("a sweep needs a function that gives the scenario, or a scenario, or one parameter whose values "
                        "are scenarios: {\"network\": {\"small\": ..., \"large\": ...}}")
    for name in values:
        if name not in (*CONSTANTS, *LIMITS, BACKOFF, *networks):
            raise ScenarioError(f"parameter {name!r} is no constant of timers{perhaps(name, CONSTANTS)}: give a function "
                                "that makes the scenario of it")

    def constants(**words: Any) -> Scenario:
        given = words.pop(networks[0]) if networks else make
        return given.constants(**words)

    return constants, False


def takes_seed(make: Callable[..., Scenario], names: Iterable[str]) -> bool:
    """Whether a function takes a seed besides these names, which it has to take."""
    signature = inspect.signature(make)
    is_seeded = any(name == "seed" or one.kind is one.VAR_KEYWORD for name, one in signature.parameters.items())
    words = [*names, *(["seed"] if is_seeded else [])]
    try:
        signature.bind(**dict.fromkeys(words))
    except TypeError as fault:
        told = unknown(make, words) or fault
        raise TypeError(f"the function that makes the scenario does not fit the parameters: {told}") from None
    return is_seeded
