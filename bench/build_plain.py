#!/usr/bin/env python3
"""Builds build/run_plain, the filter on one thread, over the libraries of the filter.

    bench/build_plain.py

It is built in a copy, as a crate beside the filter's program, and has to filter its first dump rightly.
"""
import os
import shutil
import subprocess
import sys
import tempfile

sys.path.insert(0, os.path.join(os.path.dirname(__file__), "..", "tools"))
from repository import Room, cases, libraries, path

NAME = "run_plain"


def main():
    given = cases()["include_keeps_what_a_prefix_matches"].part("stdin")
    with tempfile.TemporaryDirectory(prefix="plain-") as folder:
        Room("dump_cli", libraries(), folder)
        home = os.path.join(folder, "crates", NAME)
        os.makedirs(os.path.join(home, "src"))
        shutil.copy(path("bench", NAME + ".rt.in"), os.path.join(home, "src", "main.rt"))
        with open(os.path.join(folder, "crates.txt"), "a", encoding="utf-8") as it:
            it.write(f"{NAME}: dump_rules dump_writer dump_pipeline\n")
        ran = subprocess.run(["rt", "run", "--", "/"], cwd=home, input=given, capture_output=True, check=False)
        if ran.returncode or ran.stdout != given:
            print(ran.stderr.decode(errors="replace")[-4000:], end="")
            print(f"bench/build_plain.py: {NAME} is not built, or does not do what it should")
            return 1
        os.makedirs(path("build"), exist_ok=True)
        shutil.copy(os.path.join(home, "out", NAME), path("build"))
    return 0


sys.exit(main())
