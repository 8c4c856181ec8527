#!/usr/bin/env python3
"""Makes each memory allocation and each thread start of the filter and the cut fail, one in each run, in turn.

    tests/fault_injection.py

The library fault_injection.c is loaded into build/svndumpfilter and build/svndumpcut, and counts the requests. A round ends
with the first run that has fewer requests than the number that fails. Whatever fails, the program ends at once: it
does what its case wants, or it reports a failure of memory or threads, and its output is then the first part of the right
one, of the length that it reports. Before the line of the failure svndumpcut may have written the first lines that its case
wants. The unit tests whose names say that memory runs out are run in the same way, if crates/*/out has them built:
such a test passes whatever fails. If nothing fails, the program starts the threads that its arguments ask
for. The last line is 'N passed, M failed'.
"""
import glob
import os
import re
import shutil
import subprocess
import sys
import tempfile

sys.path.insert(0, os.path.join(os.path.dirname(__file__), "..", "tools"))
from repository import cases, ended, path, programs

SECONDS = 60
# a program, a case, and the arguments that are added to its own
CASES = [
    ("filter", "include_keeps_what_a_prefix_matches", []),
    ("filter", "revisions_are_renumbered_with_their_copies", ["--workers", "2", "--window", "4"]),
    ("cut", "exclude_follows_copies", []),
    ("cut", "exclude_would_come_back", []),
    ("cut", "exclude_drops_emptied_revisions", []),
    ("cut", "exclude_in_the_target_alone", []),
    ("cut", "include_follows_the_source_of_a_part", []),
    ("cut", "include_of_a_renamed_project", []),
    ("cut", "include_writes_additions_and_deletes", []),
    ("cut", "after_a_revision_between_additions", []),
    ("cut", "after_a_revision_before_a_delete", []),
    ("cut", "after_a_revision_with_a_later_copy", []),
    ("cut", "after_a_revision_with_mergeinfo_of_a_followed_path", []),
]
# arguments, and how many threads are started by them: the workers, the cutter and the sequencer
PLANS = [([], 6), (["--workers", "1"], 3), (["--workers=5", "--window=2"], 7), (["--workers", "64"], 66)]
FAILURE = re.compile(rb"svndump(?:filter|cut): failure (21 Memory|22 Threads) after ([0-9]+) bytes\n")

TESTS = re.compile(r"or_no_memory|out_of_memory|a_refused_(allocation|growth)")


class Round:
    """The runs of one command."""

    def __init__(self, name, command, given, folder):
        self.name = name
        self.command = command
        self.input = given
        self.report = os.path.join(folder, "report")
        self.shim = os.path.join(folder, "fault_injection.so")

    def run(self, refusal):
        """Runs with one refusal, and returns how often each thing was asked for, and what was wrong."""
        if os.path.exists(self.report):
            os.remove(self.report)
        more = {"LD_PRELOAD": self.shim, "REFUSE_REPORT": self.report, **refusal}
        try:
            ran = subprocess.run(
                self.command, input=self.input, capture_output=True, timeout=SECONDS, env={**os.environ, **more}
            )
        except subprocess.TimeoutExpired:
            return None, f"it had not ended after {SECONDS} seconds"
        if not os.path.exists(self.report):
            return None, f"it left no report; status {ran.returncode}"
        with open(self.report) as report:
            asked = {name: int(count) for name, count in map(str.split, report)}
        return asked, self.difference(ran, "REFUSE_START" in refusal)

    def tally(self, asked_for, variable):
        """Makes each fail in turn, and returns how many runs were right and wrong."""
        passed = failed = 0
        number = 1
        while True:
            asked, wrong = self.run({variable: str(number)})
            if wrong:
                failed += 1
                print(f"{self.name}, {asked_for} {number} refused: {wrong}")
            else:
                passed += 1
            if asked is None or asked[asked_for] < number:
                if number > 1:
                    print(f"{self.name}: {number - 1} {asked_for} refused in turn")
                return passed, failed
            number += 1


class CaseRound(Round):
    """A program on one case, with more arguments."""

    def __init__(self, word, name, more, folder):
        case, words = cases()[name], cases()[name].arguments(word)
        super().__init__(name, [programs()[word].built, words[0], *more, *words[1:]], case.part("stdin"), folder)
        self.output, self.errors = case.of(word, "stdout"), case.of(word, "stderr")
        self.status, self.has_lines_before = case.status(word), word == "cut"

    def difference(self, ran, is_start):
        if ran.returncode == self.status:
            same = ran.stdout == self.output and ran.stderr == self.errors
            return None if same else f"status {ran.returncode} with {ran.stdout!r}, {ran.stderr!r}"
        *before, line = ran.stderr.splitlines(keepends=True) or [b""]
        told = FAILURE.fullmatch(line)
        if before and not (self.has_lines_before and self.errors.startswith(b"".join(before))):
            return f"{before!r} before the failure"
        if ran.returncode != 1 or not told:
            return f"status {ran.returncode}, {ran.stderr!r}"
        if int(told[2]) != len(ran.stdout) or not self.output.startswith(ran.stdout):
            return f"{ran.stderr!r} with {len(ran.stdout)} bytes"
        if is_start and (told[1] != b"22 Threads" or ran.stdout):
            return f"{ran.stderr!r} though a start was refused"
        return None


class TestRound(Round):
    """A test of a crate."""

    def difference(self, ran, is_start):
        return None if ran.returncode == 0 else f"status {ran.returncode}, {ran.stdout[-200:]!r}"


def rounds(folder):
    for word, case, more in CASES:
        yield CaseRound(word, case, more, folder)
    for tests in sorted(glob.glob(path("crates", "*", "out", "*_tests"))):
        names = subprocess.run([tests, "--list"], capture_output=True, check=True, text=True).stdout.split()
        for name in filter(TESTS.search, (it.removesuffix(":") for it in names)):
            yield TestRound(f"{os.path.basename(tests)}, {name}", [tests, name], b"", folder)


def plans(folder):
    """How many plans started as many threads as they ask for, and how many didn't."""
    passed = failed = 0
    for words, wanted in PLANS:
        asked, wrong = CaseRound(*CASES[0][:2], words, folder).run({})
        if wrong is None and asked["starts"] == wanted:
            passed += 1
        else:
            failed += 1
            print(f"with the arguments {words} it asked for {asked}, and {wanted} starts are wanted; {wrong or 'all else is right'}")
    return passed, failed


def main():
    compiler = shutil.which("cc") or shutil.which("gcc") or shutil.which("clang")
    if compiler is None:
        print("tests/fault_injection.py: there is no C compiler, so nothing was refused")
        return 0
    with tempfile.TemporaryDirectory() as folder:
        source, shim = path("tests", "fault_injection.c"), os.path.join(folder, "fault_injection.so")
        subprocess.run([compiler, "-O1", "-shared", "-fPIC", "-o", shim, source, "-ldl"], check=True)
        passed, failed = plans(folder)
        for one_round in rounds(folder):
            for asked_for, variable in [("growths", "REFUSE_GROWTH"), ("starts", "REFUSE_START")]:
                right, wrong = one_round.tally(asked_for, variable)
                passed, failed = passed + right, failed + wrong
    return ended(passed, failed)


sys.exit(main())
