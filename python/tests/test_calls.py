"""The page of the package's calls is that of the package."""
import subprocess
import sys
from pathlib import Path

ROOT = Path(__file__).resolve().parents[2]


def test_page_of_calls_is_as_it_is_made():
    made = subprocess.run([sys.executable, ROOT / "tools/python_calls.py"], capture_output=True, text=True, check=True).stdout
    kept = (ROOT / "docs/PYTHON.txt").read_text(encoding="utf-8")
    assert made == kept, "run tools/python_calls.py > docs/PYTHON.txt"


def test_each_call_has_a_sentence():
    lines = (ROOT / "docs/PYTHON.txt").read_text(encoding="utf-8").splitlines()
    assert [line for line in lines[2:] if line and not line.endswith(".")] == [] and len(lines) > 50
