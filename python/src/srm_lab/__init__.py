"""Scenarios, runs, statistics and pictures of srm_lab, a simulator of loss recovery in SRM."""
from importlib import import_module
from typing import TYPE_CHECKING, Any

if TYPE_CHECKING:
    from . import scenario
    from .errors import RefusedError, ScenarioError
    from .frames import save
    from .graphs import Delays
    from .hearing import heard
    from .history import History
    from .interval_plot import plot
    from .reading import load_scenario, read_scenario
    from .runs import Runs, run
    from .scenario import Scenario
    from .statistics import difference, interval, paired, summarise
    from .sweeps import sweep
    from .tree import Tree

__version__ = "0.2.0"
COMMIT = "$Format:%h$"  # `git archive`, by which all is packed, puts the commit's number here
__version__ += "" if COMMIT.startswith("$") else f"+{COMMIT}"
__all__ = ["Delays", "History", "RefusedError", "Runs", "Scenario", "ScenarioError", "Tree", "__version__", "difference", "heard",
           "interval", "load_scenario", "paired", "plot", "read_scenario", "run", "save", "scenario", "summarise", "sweep"]
OF = {"RefusedError": "errors", "ScenarioError": "errors", "save": "frames", "Delays": "graphs", "heard": "hearing",
      "History": "history", "load_scenario": "reading", "plot": "interval_plot", "read_scenario": "reading", "Runs": "runs",
      "run": "runs", "Scenario": "scenario", "sweep": "sweeps", "Tree": "tree",
      **dict.fromkeys(("difference", "interval", "paired", "summarise"), "statistics")}  # the module of each name


def __getattr__(name: str) -> Any:
    """A name is loaded when it is asked for: a job that needs no scenario, or no pandas, starts in a tenth of the time."""
    if name == "scenario":
        return import_module(".scenario", __name__)
    if name not in OF:
        from .errors import perhaps

        raise AttributeError(f"module {__name__!r} has no attribute {name!r}{perhaps(name, __all__)}")
    return getattr(import_module(f".{OF[name]}", __name__), name)


def __dir__() -> list[str]:
    """The names that can be asked for, whether or not they are loaded."""
    return sorted({*globals(), *__all__})
