#!/usr/bin/env python3
"""Runs all that tests the Python of the repository, as far as Debian's packages for it are installed.

usage: python/tests/all.py

The linter, the type checker, and the tests of the package and of the experiments, of the program that the environment's
SRM_LAB names. Ends with a line for each part that was not run and the packages that it lacks, and then, where something
was run, with 'N passed, M failed'; the linter and the type checker count as one each. The status is 1 where one failed.
"""
import re
import shutil
import subprocess
import sys
from pathlib import Path

ROOT = Path(__file__).resolve().parents[2]
PYTHON = "/usr/bin/python3"
MODULES = "python3-networkx python3-pandas python3-matplotlib python3-scipy python3-tqdm python3-yaml"
NEEDS = {
    "the linter": "flake8",
    "the type checker": "mypy",
    "the tests of the package": f"python3-pytest {MODULES}",
}
# tests of these are skipped where a package is missing
PARTS = {
    "the browser's tests": "python3-selenium chromium chromium-driver node-d3",
    "the tests of sweeps": "snakemake",
    "the test of the notebook": "python3-nbconvert python3-ipykernel",
    "the tests of man pages and completions": "mandoc fish zsh",
    "the tests of the schema": "python3-jsonschema",
    "the tests of the wheel": "python3-pip python3-setuptools python3-venv python3-wheel",
    "the test of the Debian package": "debhelper dh-python lintian",
}
COUNTS = re.compile(r"(\d+) (passed|failed|errors?)\b")


def missing(packages: str) -> list[str]:
    """Those of some Debian packages that are not installed."""
    if shutil.which("dpkg-query") is None:
        return packages.split()
    told = subprocess.run(["dpkg-query", "--show", "--showformat=${Package} ${db:Status-Status}\n", *packages.split()],
                          capture_output=True, text=True, check=False).stdout
    return [name for name in packages.split() if f"{name} installed" not in told.splitlines()]


def passes(*words: str) -> bool:
    """Whether a command ends well."""
    return subprocess.run(words, cwd=ROOT, check=False).returncode == 0


def tests() -> tuple[int, int]:
    """How many tests passed, and how many failed."""
    with subprocess.Popen([PYTHON, "-u", "-m", "pytest", "-q", "-p", "no:cacheprovider"], cwd=ROOT / "python",
                          stdout=subprocess.PIPE, text=True) as running:
        assert running.stdout is not None
        last = ""
        for line in running.stdout:
            print(line, end="", flush=True)
            last = line
    counted = {word: int(number) for number, word in COUNTS.findall(last)}
    failed = sum(number for word, number in counted.items() if word != "passed")
    return counted.get("passed", 0), failed or int(running.returncode != 0)


def main() -> int:
    lacking = {what: found for what, packages in {**NEEDS, **PARTS}.items() if (found := missing(packages))}
    passed = failed = 0
    if "the linter" not in lacking:
        told = passes(PYTHON, "-m", "flake8", ".")
        passed, failed = passed + told, failed + (not told)
    if "the type checker" not in lacking:
        told = passes(PYTHON, "-m", "mypy") and passes(PYTHON, "-m", "mypy", "--allow-untyped-defs", "python/tests")
        passed, failed = passed + told, failed + (not told)
    if "the tests of the package" not in lacking:
        of_tests = tests()
        passed, failed = passed + of_tests[0], failed + of_tests[1]
    for what, packages in lacking.items():
        print(f"not run: {what}, for want of Debian's {', '.join(packages)}")
    if passed or failed:
        print(f"{passed} passed, {failed} failed")
    return int(failed > 0)


if __name__ == "__main__":
    sys.exit(main())
