#!/usr/bin/env python3
"""Checks what of the package needs nothing but Python: reading scenarios, and following traces.

usage: python/tests/plain.py

Of each trace of examples/ and tests/scenarios/ tables are computed and compared with those that stand beside it, and each
scenario is read. Prints a line for each difference, and ends with status 1 where there is one.
"""
import re
import sys
from pathlib import Path

ROOT = Path(__file__).resolve().parents[2]
sys.path[:0] = [str(ROOT / "python/src"), str(ROOT / "python/tests")]
sys.dont_write_bytecode = True


def differences(scenario):
    """The tables beside a scenario that are otherwise when computed from its trace; each trace with those of its seed."""
    from second_tables import TABLES, second
    from srm_lab.reading import load_scenario
    from srm_lab.tables import read_trace

    given = load_scenario(scenario)
    for trace in scenario.parent.glob(f"{scenario.stem}.*trace.csv"):
        seed = re.search(r"\.seed-(\d+)\.trace\.csv$", trace.name)
        with open(trace, encoding="ascii") as lines:
            made = second(given, read_trace(lines), int(seed[1]) if seed else 0)
        for name in TABLES:
            wanted = trace.with_name(trace.name.replace("trace.csv", f"{name}.csv"))
            if wanted.exists() and made[name] != wanted.read_text():
                yield f"{wanted.relative_to(ROOT)}: computed from the trace it is another"


def main():
    if sys.version_info < (3, 11):
        print("the Python package needs Python 3.11, and is not checked")
        return 0
    scenarios = sorted([*(ROOT / "examples").glob("*.toml"), *(ROOT / "tests/scenarios").glob("*.toml")])
    found = [line for scenario in scenarios for line in differences(scenario)]
    print(*found, f"{len(scenarios)} scenarios read by the Python package, {len(found)} differences", sep="\n")
    return 1 if found or not scenarios else 0


if __name__ == "__main__":
    sys.exit(main())
