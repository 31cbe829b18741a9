"""Metrics of a sweep: numbers that functions of somebody's own give for the tables of a run."""
import importlib.util
from collections.abc import Callable, Mapping
from pathlib import Path
from typing import TYPE_CHECKING, Any

from .errors import ScenarioError

if TYPE_CHECKING:
    from .scenario import Scenario

TABLES = ("losses", "operations", "scopes", "members", "links", "timers")


def function_of(text: str) -> Callable[..., Any]:
    """The function that FILE.py:FUNCTION names."""
    path, colon, name = text.rpartition(":")
    spec = importlib.util.spec_from_file_location(Path(path).stem, path) if colon else None
    if spec is None or spec.loader is None or not Path(path).exists():
        raise ScenarioError(f"metric {text!r}: say FILE.py:FUNCTION, and there has to be such a file")
    module = importlib.util.module_from_spec(spec)
    try:
        spec.loader.exec_module(module)
    except Exception as fault:  # whatever a file of somebody's own raises
        raise ScenarioError(f"metric {text!r}: {path} cannot be loaded: {fault!r}") from fault
    if not callable(getattr(module, name, None)):
        raise ScenarioError(f"metric {text!r}: {path} has no function {name}")
    return getattr(module, name)


def metrics_of(given: "Scenario", seed: int, program: str, metrics: Mapping[str, str]) -> list[Any]:
    """Of a run the number that each FILE.py:FUNCTION gives for its tables."""
    from .runs import run  # where there are no metrics, pandas is not loaded

    runs = run(given, [seed], TABLES, program, cache=None, workers=1, progress=False)
    return [function_of(text)(runs) for text in metrics.values()]
