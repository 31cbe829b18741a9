"""The figures of a sweep, and one page of HTML about it, which opens from disk: figures, tables, configuration, versions.

usage: report.py CONFIG PROGRAM PAGE

CONFIG is the sweep's configuration as JSON; figures and tables are in folders beside PAGE, which has no links to other
files.
"""
import hashlib
import json
import platform
import subprocess
import sys
from html import escape
from importlib.metadata import version
from pathlib import Path
from typing import Any

import figures
import pandas
import yaml
from recoveries import read
from srm_lab.statistics import interval
from srm_lab.experiment import Experiment, experiments_of

STYLE = """
body { font: 15px/1.5 sans-serif; color: #222; max-width: 60em; margin: 2em auto; padding: 0 1em }
table { border-collapse: collapse; margin: 1em 0; font-size: 13px }
th, td { border-bottom: 1px solid #ddd; padding: 0.2em 0.8em; text-align: right }
th:first-child, td:first-child { text-align: left }
pre { background: #f5f5f5; padding: 1em; overflow: auto }
figure { margin: 1em 0 } figure svg { max-width: 100%; height: auto }
"""


def table_of(experiment: Experiment, path: Path) -> tuple[str, str]:
    """A row for each point, with means over seeds and their intervals, and what is left out of it."""
    table = read(str(path))
    columns = ["requests", "repairs", "ratio", *experiment.metrics]
    rows = []
    keys = experiment.varied or ["kind"]
    for point, group in table.groupby(keys if len(keys) > 1 else keys[0]):
        values = point if isinstance(point, tuple) else (point,)
        seeds = group.groupby("seed")
        rows.append({**dict(zip(keys, values)), "seeds": seeds.ngroups, "losses": len(group),
                     **{column: told(seeds[column].mean()) for column in columns}})
    made = pandas.DataFrame(rows).rename(columns={"ratio": "delay of the last member (round trips)"})
    about = table.attrs
    note = (f"{about['rows']} operations that somebody lost; left out are {about['open']} that some member lacked to "
            f"the end and {about['gone']} all of whose losers left; {about['left']} losses ended with a leave.")
    return made.to_html(index=False, border=0), note


def told(values: pandas.Series) -> str:
    """A mean with its interval."""
    one = interval(values)
    return f"{one.mean:.3g} [{one.low:.3g}, {one.high:.3g}]"


def versions(program: Path) -> dict[str, str]:
    """What a sweep's numbers depend on."""
    done = subprocess.run([program, "--version"], capture_output=True, text=True, check=False)
    return {"program": done.stdout.strip() or "unknown",
            "SHA-256 of the program": hashlib.sha256(program.read_bytes()).hexdigest(),
            "Python": platform.python_version(), "pandas": version("pandas"), "matplotlib": version("matplotlib"),
            "system": platform.platform()}


def svg_of(path: Path) -> str:
    """A figure's picture, without the lines that only stand in front of a file."""
    text = path.read_text(encoding="utf-8")
    return text[text.index("<svg"):]


def page(config: dict[str, Any], program: Path, results: Path) -> str:
    """The whole page."""
    parts = [f"<!DOCTYPE html><html lang=\"en\"><meta charset=\"utf-8\"><title>Sweep {escape(results.name)}</title>"
             f"<style>{STYLE}</style><h1>Sweep {escape(results.name)}</h1>"]
    parts.append("<h2>Figures</h2>" if config.get("figures") else "")
    for name in config.get("figures") or {}:
        picture = svg_of(results / f"figures/{name}.svg")
        parts.append(f"<figure><figcaption>{escape(name)}</figcaption>{picture}</figure>")
    parts.append("<h2>Tables</h2><p>Means over seeds, with 95 per cent intervals over the seeds (Student's t).</p>")
    for name, experiment in experiments_of(config).items():
        table, note = table_of(experiment, results / f"tables/{name}.csv")
        parts.append(f"<h3>{escape(name)}</h3>{table}<p>{escape(note)}</p>")
    parts.append(f"<h2>Configuration</h2><pre>{escape(yaml.safe_dump(config, sort_keys=False))}</pre>")
    rows = "".join(f"<tr><td>{escape(what)}</td><td>{escape(value)}</td></tr>"
                   for what, value in versions(program).items())
    parts.append(f"<h2>Versions</h2><table>{rows}</table></html>")
    return "\n".join(parts)


def main(config: str, program: str, target: str) -> None:
    given, results = json.loads(config), Path(target).parent
    figures.draw_all(given.get("figures") or {}, results)
    Path(target).write_text(page(given, Path(program), results), encoding="utf-8")


if __name__ == "__main__":
    main(*sys.argv[1:])
