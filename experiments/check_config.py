"""Checks a configuration of sweeps before anything of it is run, and prints where its results go.

usage: check_config.py CONFIG

It is run in the configuration's folder, in which that names files. Ends with status 1 and one line on standard error where
a part of the configuration could not be made.
"""
import sys

import yaml
from kinds import NEEDS
from srm_lab import ScenarioError
from srm_lab.experiment import check_config


def main(path: str) -> int:
    try:
        with open(path, encoding="utf-8") as text:
            config = yaml.safe_load(text)
        if not isinstance(config, dict):
            raise ScenarioError("this is no configuration")
        check_config(config, NEEDS)
    except (ScenarioError, OSError, yaml.YAMLError) as fault:
        sys.stderr.write(f"{path}: {fault}\n")
        return 1
    print(config.get("results", "results"))
    return 0


if __name__ == "__main__":
    sys.exit(main(*sys.argv[1:]))
