#!/usr/bin/env python3
"""Measures the programs on made dumps, next to the same filter on one thread (build/run_plain), Subversion's own
svndumpfilter, and tools that only read the same bytes.

    bench/bench.py

All runs are made on one machine, the commands of a dump in turn and that five times, with output to /dev/null; of each
command the quickest run counts. Nothing passes or fails by its time, but the filter has to write the same bytes as
run_plain. The columns are the time, the processor time, the speed, the peak memory as a multiple of the dump's length, how
often it slept, and the time as a multiple of the last one above it of the filter on one thread, or of the first if there is
none. If taskset is installed, the filter and run_plain are also pinned to one core and to two.
"""
import hashlib
import os
import shutil
import subprocess
import sys
import tempfile
import textwrap
import time

sys.path.insert(0, os.path.join(os.path.dirname(__file__), "..", "tools"))
from repository import path as path_to, programs

RUNS = 5
SHAPES = [
    ("texts of about 10 KB", ["--revisions", "2000", "--nodes", "10", "--text", "10000"]),
    ("a million small records", ["--revisions", "100000", "--nodes", "9", "--text", "8"]),
    (
        "copies and mergeinfo",
        ["--revisions", "20000", "--nodes", "10", "--text", "200", "--copies", "0.2", "--mergeinfo", "0.2"],
    ),
]

# dumps at whose first kept copy the filter stops, and the arguments, under which each copy is wanted
COPIES = [
    ("a chain of 100,000 copies", ["--revisions", "0", "--chain", "100000"], ["include trunk", "exclude other/link0"]),
    ("a fan of 100,000 copies", ["--revisions", "0", "--fan", "100000"], ["include trunk", "exclude other"]),
]

# dumps of which svndumpcut excludes and includes paths with their copies
CUTS = [
    (
        "100,000 revisions, 20,000 files, 500 tags",
        ["--revisions", "100000", "--nodes", "0", "--tagged", "20000", "--tags", "500"],
        [
            "exclude --follow-copies trunk/dir7/file7",
            "exclude --follow-copies trunk/dir7",
            "include trunk/dir7 " + " ".join(f"tags/tag{number}/dir7" for number in range(1, 501)),
            "include --after 99000 trunk/dir7",
            "exclude --follow-copies --after 99999 trunk/dir7/file7",
            # the copies of 500 directories with 200 files, and of two tags, are written as additions
            "exclude --keep-copies trunk/dir7",
            "include tags/tag1 tags/tag500",
        ],
    ),
    # the tag's files are written with their texts, each once whole in the dump, and once as a trail of deltas
    (
        "a tag of 2,000 files of 20 KB",
        ["--revisions", "5000", "--nodes", "0", "--tagged", "2000", "--tags", "50", "--size", "20000"],
        ["include tags/tag25", "include tags/tag50"],
    ),
    (
        "the same with deltas",
        ["--revisions", "5000", "--nodes", "0", "--tagged", "2000", "--tags", "50", "--size", "20000", "--deltas"],
        ["include tags/tag25", "include tags/tag50"],
    ),
    ("ten names in a directory", ["--revisions", "100000", "--nodes", "0", "--beside", "10"], ["include beside/name7"]),
    (
        "ten thousand names in a directory",
        ["--revisions", "100000", "--nodes", "0", "--beside", "10000"],
        ["include beside/name7"],
    ),
    (
        "a thousand renames, and fifty copies",
        ["--revisions", "1", "--nodes", "0", "--renames", "1000"],
        ["exclude --follow-copies trunk/name0/file", "include --follow-copies trunk/name1000"],
    ),
]


def ends_well(command, status):
    """Whether a command may end with this status: the survey ends with 1 where it finds something."""
    return status == 0 or status == 1 and command[0] == programs()["survey"].built


def timed(command, path):
    """One run: its seconds, its processor time, its peak memory in bytes, how often it slept, and whether it ended well."""
    with open(path, "rb") as stdin, open(os.devnull, "wb") as null:
        start = time.perf_counter()
        process = subprocess.Popen(command, stdin=stdin, stdout=null, stderr=null)
        _, status, usage = os.wait4(process.pid, 0)
        seconds = time.perf_counter() - start
        process.returncode = os.waitstatus_to_exitcode(status)
    used = usage.ru_utime + usage.ru_stime
    return seconds, used, usage.ru_maxrss * 1024, usage.ru_nvcsw, ends_well(command, process.returncode)


def quickest(commands, path):
    """The quickest of some runs of each command, which are run in turn."""
    rounds = [[timed(command, path) for command in commands] for _ in range(RUNS)]
    return [min(runs)[:4] + (all(run[4] for run in runs),) for runs in zip(*rounds)]


def written(command, path):
    """The digest of what a command writes."""
    with open(path, "rb") as stdin:
        process = subprocess.Popen(command, stdin=stdin, stdout=subprocess.PIPE, stderr=subprocess.DEVNULL)
        digest = hashlib.file_digest(process.stdout, "sha1").hexdigest()
    process.wait()
    return digest


def compared(program, plain):
    """The filter on one thread, and with some workers, for two prefixes."""
    for prefix in "/", "trunk":
        yield prefix, [
            (f"one thread, include {prefix}", [plain, prefix]),
            ("with 1 worker", [program, "include", "--workers", "1", prefix]),
            ("with 2 workers", [program, "include", "--workers", "2", prefix]),
            ("with 2 workers, a window of 512", [program, "include", "--workers", "2", "--window", "512", prefix]),
            ("with 4 workers", [program, "include", prefix]),
        ]


def pinned(program, plain):
    """Both on one core and on two."""
    if not shutil.which("taskset"):
        return []
    return [
        (f"{name}, on {count}", ["taskset", "-c", cores, *command])
        for cores, workers, count in (("0", "1", "one core"), ("0,1", "2", "two cores"))
        for name, command in (
            ("one thread", [plain, "/"]),
            (f"with {workers} worker{'s' * (workers != '1')}", [program, "include", "--workers", workers, "/"]),
        )
    ]


def others(program):
    words = ["--drop-empty-revs", "--renumber-revs", "--skip-missing-merge-sources", "trunk"]
    survey, cut = programs()["survey"].built, programs()["cut"].built
    rows = [
        ("survey, include trunk", [survey, "include", "trunk"]),
        ("with 4 workers, renumbering", [program, "include", *words]),
        ("survey, renumbering", [survey, "include", *words]),
        ("with 4 workers, exclude other", [program, "exclude", "--skip-missing-merge-sources", "other"]),
        ("cut, exclude other", [cut, "exclude", "other"]),
        ("cut, exclude a file", [cut, "exclude", "other/file1-1"]),
        ("cut, include trunk", [cut, "include", "trunk"]),
    ]
    stock = shutil.which("svndumpfilter")
    if stock:
        rows.append(("stock svndumpfilter, include trunk", [stock, "include", "trunk"]))
    return rows + [(name, [name]) for name in ("md5sum", "sha1sum", "cat")]


def shortened(words):
    return textwrap.shorten(words, 26, placeholder=" ..")


def stock_rows(calls):
    """Subversion's svndumpfilter with the subcommands and the prefixes of these calls, if it is installed."""
    stock = shutil.which("svndumpfilter")
    plain = [[word for word in words.split() if not word.startswith("--")] for words in calls if "--after" not in words]
    unlike = dict.fromkeys(" ".join(words) for words in plain)
    return [(f"stock, {shortened(words)}", [stock, *words.split()]) for words in unlike] if stock else []


def head(title, arguments, path):
    """The lines above the rows of a dump."""
    print(f"\n{title}: {os.path.getsize(path) / 1e6:.0f} MB (make_dump.py {' '.join(arguments)})")
    print(f"{'':36}{'seconds':>9}{'used':>9}{'MB/s':>9}{'memory':>9}{'switches':>10}{'times':>8}")


def show_rows(rows, path):
    """Runs each row's command, and prints what it took; of the first row as a multiple of itself."""
    size, alone = os.path.getsize(path), None
    for (name, _), run in zip(rows, quickest([command for _, command in rows], path)):
        seconds, used, peak, switches, well = run
        alone = seconds if name.startswith("one thread") or not alone else alone
        note = "" if well else "   (status not 0)"
        speed, memory = size / 1e6 / seconds, peak / size
        print(f"{name:36}{seconds:9.2f}{used:9.2f}{speed:9.0f}{memory:9.3f}{switches:10}{seconds / alone:8.2f}{note}")


def show(program, plain, path):
    """The rows of a dump; whether the filter wrote what run_plain did."""
    rows, same = [], True
    for prefix, commands in compared(program, plain):
        digests = {written(command, path) for _, command in commands}
        if len(digests) != 1:
            print(f"include {prefix}: the outputs differ")
            same = False
        rows += commands
    show_rows(rows + others(program) + pinned(program, plain), path)
    return same


def make(arguments, path):
    with open(path, "wb") as dump:
        subprocess.run([path_to("bench", "make_dump.py"), *arguments], stdout=dump, check=True)


def main():
    program, plain = programs()["filter"].built, path_to("build", "run_plain")
    same = True
    with tempfile.TemporaryDirectory() as folder:
        path = os.path.join(folder, "dump")
        for title, arguments in SHAPES:
            make(arguments, path)
            head(title, arguments, path)
            same = show(program, plain, path) and same
        for title, arguments, calls in COPIES:
            make(arguments, path)
            head(title, arguments, path)
            survey = programs()["survey"].built
            show_rows([(f"survey, {words}", [survey, *words.split()]) for words in calls], path)
        for title, arguments, calls in CUTS:
            make(arguments, path)
            head(title, arguments, path)
            rows = [("filter, include /", [program, "include", "/"])]
            cut = programs()["cut"].built
            rows += [(f"cut, {shortened(words)}", [cut, *words.split()]) for words in calls]
            show_rows(rows + stock_rows(calls), path)
    return 0 if same else 1


sys.exit(main())
