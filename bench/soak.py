#!/usr/bin/env python3
"""Runs the filter on random dumps with random plans of threads, and compares its output with that of the filter on one thread.

    bench/soak.py [RUNS [SEED]]

Half of the runs are pinned to one core, where taskset is. Some dumps are cut off or have a broken byte, so that runs end
early. A run that takes longer than a minute counts as one that never ends. The last line is 'N passed, M failed'.
"""
import os
import random
import shutil
import subprocess
import sys
import tempfile

sys.path.insert(0, os.path.join(os.path.dirname(__file__), "..", "tools"))
from repository import ended, path as path_to, programs

PROGRAM, PLAIN = programs()["filter"].built, path_to("build", "run_plain")
DUMPS = 80
PREFIXES = ["/", "trunk", "other", "nothing"]
MINUTE = 60


def made(chance):
    """A dump: whole, cut off, or with a broken byte."""
    words = ["--revisions", chance.randint(1, 80), "--nodes", chance.randint(0, 12), "--text", chance.choice([0, 8, 300, 5000])]
    words += ["--copies", chance.choice([0, 0.2]), "--mergeinfo", chance.choice([0, 0.2]), "--seed", chance.randint(1, 1 << 30)]
    dump = subprocess.run([path_to("bench", "make_dump.py"), *map(str, words)], stdout=subprocess.PIPE, check=True).stdout
    fate, place = chance.random(), chance.randrange(len(dump))
    if fate < 0.2:
        return dump[:place]
    if fate < 0.4:
        return dump[:place] + bytes([dump[place] ^ 1]) + dump[place + 1 :]
    return dump


def plan(chance):
    """Small plans more often than large ones."""
    workers = chance.choice([1, 1, 2, 2, 3, 4, 4, 8, chance.randint(1, 64)])
    window = chance.choice([1, 1, 2, 3, 4, 5, 8, 64, 64, chance.randint(1, 4096)])
    return ["--workers", str(workers), "--window", str(window)]


def run(command, path):
    """What a command writes and whether it ended well; nothing where it doesn't end."""
    with open(path, "rb") as stdin:
        try:
            ended = subprocess.run(command, stdin=stdin, stdout=subprocess.PIPE, stderr=subprocess.DEVNULL, timeout=MINUTE)
        except subprocess.TimeoutExpired:
            return None
    return ended.stdout, ended.returncode == 0


def main(words):
    runs = int(words[0]) if words else 10000
    chance = random.Random(int(words[1]) if len(words) > 1 else 1)
    pinned = shutil.which("taskset") is not None
    cores = sorted(os.sched_getaffinity(0))
    known, failed = {}, 0
    with tempfile.TemporaryDirectory() as folder:
        paths = [os.path.join(folder, str(number)) for number in range(DUMPS)]
        for path in paths:
            with open(path, "wb") as dump:
                dump.write(made(chance))
        for number in range(runs):
            path, prefix = chance.choice(paths), chance.choice(PREFIXES)
            if (path, prefix) not in known:
                known[path, prefix] = run([PLAIN, prefix], path)
            command = [PROGRAM, "include", *plan(chance), prefix]
            if pinned and number % 2 == 0:
                command = ["taskset", "-c", str(chance.choice(cores)), *command]
            if run(command, path) != known[path, prefix]:
                failed += 1
                print(f"run {number}: {' '.join(command[:-1])} on dump {os.path.basename(path)} differs or doesn't end")
    return ended(runs - failed, failed)


sys.exit(main(sys.argv[1:]))
