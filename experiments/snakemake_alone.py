"""Snakemake without what it looks for when it starts, and sweeps have no use for: stores of files in clouds, and pandas.

usage: snakemake_alone.py, and the words of snakemake. To load them takes longer than forty short runs; it does without
where they are not installed. Jobs find them again (`apart.do`).
"""
import sys
from typing import Any

MODULES: dict[str, Any] = sys.modules
MODULES.update(dict.fromkeys(("azure", "boto3", "google", "pandas", "paramiko", "requests")))

from snakemake import main  # noqa: E402

if __name__ == "__main__":
    main()
