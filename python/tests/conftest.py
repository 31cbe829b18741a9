import os
import subprocess
from pathlib import Path

import pytest

ROOT = Path(__file__).resolve().parents[2]


@pytest.fixture(scope="session")
def program():
    """The path of the built program; without it the test is skipped."""
    path = Path(os.environ.get("SRM_LAB", ROOT / "crates/srm_lab/out/srm_lab"))
    if not path.exists():
        pytest.skip(f"no program at {path}")
    return path


@pytest.fixture
def srm_lab(program):
    """Runs the built program on a scenario's text."""
    def run(text, *words):
        done = subprocess.run([program, *words], input=text.encode(), capture_output=True, check=False)
        assert done.returncode == 0, done.stderr.decode()
        return done.stdout.decode()

    return run
