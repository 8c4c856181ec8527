#!/usr/bin/env python3
"""Runs shellcheck and pyflakes3 on the scripts of the repository.

    tests/check_scripts.py

If one of the two is not installed, its scripts are skipped, and the script says so. The last line is
'N passed, M failed', of scripts.
"""
import glob
import os
import subprocess
import sys

sys.path.insert(0, os.path.join(os.path.dirname(__file__), "..", "tools"))
from repository import ended, lacking, path

LINTERS = {
    "shellcheck": [".ci/run", "*/*.sh"],
    "pyflakes3": ["tests/*.py", "tools/*.py", "bench/*.py"],
}


def faults(linter, script):
    """What a linter says of a script."""
    ran = subprocess.run([linter, script], cwd=path(), stdout=subprocess.PIPE, stderr=subprocess.STDOUT, text=True, check=False)
    return ran.stdout if ran.returncode else ""


def main():
    looks = []
    for linter, patterns in LINTERS.items():
        if lacking(linter):
            print(f"tests/check_scripts.py: {linter} is not installed, so {' '.join(patterns)} are left out")
            continue
        scripts = sorted(it for pattern in patterns for it in glob.glob(path(pattern)))
        looks += [faults(linter, it) for it in scripts]
    for said in filter(None, looks):
        print(said)
    return ended(len(looks) - sum(map(bool, looks)), sum(map(bool, looks))) if looks else 0


sys.exit(main())
