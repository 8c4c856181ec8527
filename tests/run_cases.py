#!/usr/bin/env python3
"""Runs each program on its cases, and compares every byte that it writes, and its status.

    tests/run_cases.py [NAME|TOPIC..]

With arguments only those cases are run, or those of these topics. A case is a directory tests/cases/TOPIC/NAME; no two
cases have one name. It has these files, where PROGRAM is what follows svndump in the program's name, as filter:

    stdin           the dump
    args            the arguments, one a line
    PROGRAM.status  the exit status. A program runs on the cases that have this file for it, and on no others
    PROGRAM.stdout  what it writes on standard output
    PROGRAM.stderr  what it writes on standard error
    PROGRAM.args    its arguments, if they are not those of args
    FILE            a file that is an argument, or an argument's part after its first =. The program runs in the case's
                    directory
    cut.map         what svndumpcut leaves in the FILE of --map FILE. Without it the program leaves FILE as it is, or does
                    not create it. The program runs in a copy of the case's directory then
    PROGRAM.cuts    then stdin is cut to each of its lengths, and there is neither PROGRAM.stderr nor a use of
                    PROGRAM.status. A line has the first and the last of some lengths, how many bytes of PROGRAM.stdout are
                    written at these, the status, and the line on standard error

A file that is not there is empty. What a case wants is written by hand, from the rules in docs/, never from what the
program prints. A case of the filter that gives neither --workers nor --window is run with each of PLANS too, since they
change nothing. The last line is 'N passed, M failed', of programs on cases; the status is 1 if one failed or none was run.
"""
import os
import shutil
import subprocess
import sys
import tempfile

sys.path.insert(0, os.path.join(os.path.dirname(__file__), "..", "tools"))
from repository import cases, ended, programs

SECONDS = 120
OWN = ("status", "stdout", "stderr", "args", "cuts", "map")
# workers and window
PLANS = [("1", "1"), ("4", "64"), ("64", "4096")]


def difference(what, got, wanted):
    if got == wanted:
        return []
    at = next((i for i, (a, b) in enumerate(zip(got, wanted)) if a != b), min(len(got), len(wanted)))
    near = f"{got[at:at + 40]!r}, wanted {wanted[at:at + 40]!r}"
    return [f"{what}: {len(got)} bytes, wanted {len(wanted)}; they differ first at byte {at}: {near}"]


def map_name(words):
    """The FILE of --map FILE or --map=FILE, which is in the case's directory; None if there is none."""
    options = words[: words.index("--")] if "--" in words else words
    named = [it.partition("=")[2] for it in options if it.startswith("--map=")]
    named += [after for it, after in zip(options, options[1:]) if it == "--map"]
    return named[0] if named and named[0] and not os.path.isabs(named[0]) else None


def content(folder, name):
    """What is in a file of a directory; None if there is no such file."""
    try:
        with open(os.path.join(folder, name), "rb") as it:
            return it.read()
    except OSError:
        return None


class Wanted:
    """An input, and what the program has to make of it."""

    def __init__(self, stdin, stdout, stderr, status):
        self.stdin, self.stdout, self.stderr, self.status = stdin, stdout, stderr, status

    def wrong_with_map(self, command, folder, name, wanted):
        """The same as wrong, and what is wrong with the file of the map."""
        with tempfile.TemporaryDirectory() as copies:
            copy = os.path.join(copies, "case")
            shutil.copytree(folder, copy)
            before = content(copy, name)
            wrong = self.wrong(command, copy)
            left = content(copy, name)
        wanted = before if wanted is None else wanted
        if left is None or wanted is None:
            return wrong + ([] if left == wanted else [f"{name}: there is {'no' if left is None else 'a'} file"])
        return wrong + difference(name, left, wanted)

    def wrong(self, command, folder):
        """What is wrong, a line for each part that differs."""
        try:
            ran = subprocess.run(command, input=self.stdin, capture_output=True, timeout=SECONDS, cwd=folder)
        except subprocess.TimeoutExpired:
            return [f"it had not ended after {SECONDS} seconds"]
        wrong = [] if ran.returncode == self.status else [f"status {ran.returncode}, wanted {self.status}"]
        wrong += difference("standard output", ran.stdout, self.stdout)
        return wrong + difference("standard error", ran.stderr, self.stderr)


def inputs(case, program):
    """The inputs of a case: one, or one for each cut."""
    stdin, stdout = case.part("stdin"), case.of(program, "stdout")
    cuts = case.of(program, "cuts").decode().splitlines()
    if not cuts:
        return [Wanted(stdin, stdout, case.of(program, "stderr"), case.status(program))]
    found = []
    for line in cuts:
        lengths, written, status, error = line.split(" ", 3)
        first, last = map(int, lengths.split("-"))
        for length in range(first, last + 1):
            found.append(Wanted(stdin[:length], stdout[: int(written)], error.encode() + b"\n", int(status)))
    assert [len(it.stdin) for it in found] == list(range(len(stdin) + 1)), "a cut is missing"
    return found


def calls(case, program):
    """The arguments of a case, and the same with each plan."""
    words = case.arguments(program)
    names = [it.split("=")[0] for it in words]
    has_plan = "--workers" in names or "--window" in names
    if program != "filter" or words[:1] not in (["include"], ["exclude"]) or has_plan:
        return [words]
    plans = [["--workers", workers, "--window", window] for workers, window in PLANS]
    return [words] + [[words[0], *plan, *words[1:]] for plan in plans]


def run(case, program):
    """What is wrong with the first run of a case that went wrong."""
    built = programs()[program].built
    if not os.access(built, os.X_OK):
        return [f"there is no {os.path.relpath(built)}: make {program} builds it"]
    for wanted in inputs(case, program):
        for words in calls(case, program):
            name = map_name(words) if program == "cut" else None
            if name:
                wrong = wanted.wrong_with_map([built, *words], case.folder(), name, content(case.folder(), "cut.map"))
            else:
                wrong = wanted.wrong([built, *words], case.folder())
            if wrong:
                return [f"with the arguments {words} and {len(wanted.stdin)} bytes"] + wrong
    return []


def misnamed(case):
    """The files of a case that no program reads: a name is wrong, or the program's status is missing."""
    read = {"stdin", "args", *(f"{program}.{it}" for program in case.programs() for it in OWN)}
    read |= {it.partition("=")[2] or it for program in case.programs() for it in case.arguments(program)}
    return sorted(set(case.files()) - read) or ([] if case.programs() else ["it"])


def main(words):
    known = cases()
    unknown = set(words) - set(known) - {it.topic for it in known.values()}
    for word in sorted(unknown):
        print(f"{word}: there is no such case and no such topic")
    passed, failed = 0, len(unknown)
    chosen = [it for it in known.values() if not words or {it.name, it.topic} & set(words)]
    for case in filter(misnamed, chosen):
        failed += 1
        print(f"{case.topic}/{case.name}: no program reads {', '.join(misnamed(case))}")
    for case, program in ((case, program) for case in chosen for program in case.programs()):
        wrong = run(case, program)
        passed, failed = passed + (not wrong), failed + bool(wrong)
        for line in wrong:
            print(f"{case.topic}/{case.name}, {program}: {line}")
    return ended(passed, failed)


sys.exit(main(sys.argv[1:]))
