"""Runs of one point of a sweep: the program is run once for each table of a scenario and its seeds.

A job is the experiment's configuration as JSON, the name of one of its points, the program, a folder, and the number of
the runs' part, of which the folder then has the tables: `part-N.losses.csv`, `part-N.operations.csv` and perhaps
`part-N.metrics.csv`. What is there and still holds is not made again. A refusal is told on standard error, with status 1.
"""
import hashlib
import json
import sys
from collections.abc import Iterator
from itertools import groupby
from pathlib import Path

from srm_lab import RefusedError, Scenario, ScenarioError
from srm_lab.cli import scenario_of
from srm_lab.experiment import Experiment
from srm_lab.metrics import metrics_of
from srm_lab.traces import find_program, table_text

TABLES = ("losses", "operations")


def holds(record: Path, told: str, tables: list[Path], sources: list[str]) -> bool:
    """Whether tables are there, of these scenarios and metrics, and later than what they are made with."""
    if not all(path.exists() for path in (record, *tables)) or record.read_text() != told:
        return False
    latest = max(Path(source).stat().st_mtime_ns for source in sources)
    return all(table.stat().st_mtime_ns > latest for table in tables)


def perform(experiment: Experiment, point: str, program: str, folder: Path, part: int) -> None:
    """Makes the runs of a part, unless they hold."""
    given = {seed: scenario_of(experiment.words(point, seed)) for seed in experiment.parts[part]}
    names = [*TABLES, *(["metrics"] if experiment.metrics else [])]
    tables = {name: folder / f"part-{part}.{name}.csv" for name in names}
    record, sources = folder / f"part-{part}.json", [where.rpartition(":")[0] for where in experiment.metrics.values()]
    texts = {seed: one.text() for seed, one in given.items()}
    digests = {seed: hashlib.sha256(text.encode()).hexdigest() for seed, text in texts.items()}
    told = json.dumps({"scenarios": digests, "metrics": experiment.metrics}, indent=1)
    if holds(record, told, list(tables.values()), [program, *sources]):
        return
    for path in (record, *tables.values()):
        path.unlink(missing_ok=True)
    for seed, text in texts.items():
        (folder / f"seed-{seed}.toml").write_text(text)
    if experiment.agent == "ns2":
        import ns2_run  # where it is not asked for, ns-2 need not be there
        found = ns2_run.tables_of(given)
    else:
        found = {name: of_program(given, name, program) for name in TABLES}
    if experiment.metrics:
        found["metrics"] = "".join(lines_of_metrics(experiment, given, program)).encode()
    for name, text_of_table in found.items():
        tables[name].write_bytes(text_of_table)
    record.write_text(told)


def of_program(given: dict[int, Scenario], table: str, program: str) -> bytes:
    """A table of the program of all seeds; those that follow each other and have one scenario are one process."""
    texts = [table_text(text, table, list(seeds), find_program(program))
             for text, seeds in groupby(given, lambda seed: given[seed].plain_text)]
    return texts[0] + b"".join(text.partition(b"\n")[2] for text in texts[1:])


def lines_of_metrics(experiment: Experiment, given: dict[int, Scenario], program: str) -> Iterator[str]:
    """The table of metrics: a row for each seed."""
    yield ",".join(["seed", *experiment.metrics]) + "\n"
    for seed, one in given.items():
        yield ",".join(map(str, [seed, *metrics_of(one, seed, program, experiment.metrics)])) + "\n"


def main(config: str, point: str, program: str, folder: str, part: str) -> int:
    """Does a job, and gives its status."""
    Path(folder).mkdir(parents=True, exist_ok=True)
    experiment = Experiment(point, json.loads(config))
    try:
        perform(experiment, point, program, Path(folder), int(part))
    except (ScenarioError, RefusedError) as fault:
        sys.stderr.write(f"seeds {', '.join(map(str, experiment.parts[int(part)]))}: {fault}\n")
        return 1
    return 0
