#!/usr/bin/env python3
"""Measures what the checks of each crate take while a process runs, and prints a table at the end.

    tools/measure_cost.py PROCESS

It looks twice a second at the processes that PROCESS has started, itself or by others. For each crate the table has the
processor time, and in brackets the time in which such a check ran, in minutes: of its proof, of its tests (which are
proved and compiled), of its named mutants (those of must-fail) and of the others. What ended between two looks is not seen,
so the table has some half a second less for each check. It stops at a SIGTERM, or when PROCESS has ended.
"""
import collections
import os
import signal
import sys
import time

KINDS = ["proof", "tests", "named", "mutants"]
PAUSE = 0.5
TICKS = os.sysconf("SC_CLK_TCK")
# how the directories begin in which tests/mutants.py checks its copies
MUTANTS = "mutants-"

Process = collections.namedtuple("Process", "parent start used waited")


def processes():
    """What is known of each process that there is: its parent, its start, and the processor time of it and of its children
    that have ended, in seconds."""
    found = {}
    for name in filter(str.isdigit, os.listdir("/proc")):
        try:
            with open(f"/proc/{name}/stat", encoding="utf-8", errors="replace") as it:
                fields = it.read().rpartition(")")[2].split()
        except OSError:
            continue
        times = [int(it) / TICKS for it in fields[11:15]]
        found[int(name)] = Process(int(fields[1]), fields[19], sum(times[:2]), sum(times[2:]))
    return found


def check_of(number):
    """The crate and the kind of check, if a process is one of the toolchain's checks."""
    try:
        with open(f"/proc/{number}/cmdline", encoding="utf-8", errors="replace") as it:
            words = it.read().split("\0")
        folder = os.readlink(f"/proc/{number}/cwd").split(os.sep)
    except OSError:
        return None
    if os.path.basename(words[0]) != "rattle" or "--crate-name" not in words:
        return None
    if any(it.startswith("rt-edit-") for it in folder):
        kind = "named"
    elif any(it.startswith(MUTANTS) for it in folder):
        kind = "mutants"
    else:
        kind = "tests" if "--test" in words else "proof"
    return words[words.index("--crate-name") + 1], kind


class Costs:
    """What was seen of the checks below a process."""

    def __init__(self, top):
        self.top, self.checks, self.used, self.lasted = top, {}, {}, collections.Counter()
        self.begun = self.seen = time.monotonic()
        self.whole = 0

    def look(self):
        """Adds what is seen now; whether the process is still there."""
        now, found = time.monotonic(), processes()
        if self.top not in found:
            return False
        self.whole = found[self.top].waited
        at_work = set()
        for number, it in found.items():
            if self.is_below(number, found):
                check = self.check(number, it, found)
                if check:
                    at_work.add(check)
                    self.used[number, it.start] = check, it.used
        for check in at_work:
            self.lasted[check] += now - self.seen
        self.seen = now
        return True

    def is_below(self, number, found):
        while number in found and number != self.top:
            number = found[number].parent
        return number == self.top

    def check(self, number, it, found):
        """The check that a process is a part of. It is asked again while it is none, since a process may become one."""
        while number in found and number != self.top:
            known = self.checks.get((number, it.start)) or check_of(number)
            if known:
                self.checks[number, it.start] = known
                return known
            number = it.parent
            it = found.get(number)
        return None

    def table(self):
        """The lines of the table, with the crates in the order in which they were met."""
        used = collections.Counter()
        for check, seconds in self.used.values():
            used[check] += seconds
        yield "".join(f"{it:>16}" for it in ["", *KINDS, "all"])
        for crate in dict.fromkeys(crate for crate, _ in used):
            cells = [(used[crate, kind], self.lasted[crate, kind]) for kind in KINDS]
            yield self.row(crate, [*cells, tuple(map(sum, zip(*cells)))])
        of_kinds = [(sum(used[it] for it in used if it[1] == kind), None) for kind in KINDS]
        yield self.row("all crates", [*of_kinds, (sum(used.values()), None)])
        yield self.row("all else", [None] * len(KINDS) + [(max(0, self.whole - sum(used.values())), None)])
        yield self.row("in all", [None] * len(KINDS) + [(max(self.whole, sum(used.values())), self.seen - self.begun)])

    def row(self, name, cells):
        texts = ["" if it is None else f"{it[0] / 60:.1f}" + ("" if it[1] is None else f" ({it[1] / 60:.1f})") for it in cells]
        return f"{name:>16}" + "".join(f"{it:>16}" for it in texts)


def main(words):
    if len(words) != 1 or not words[0].isdigit():
        print(__doc__, file=sys.stderr)
        return 2
    told = []
    signal.signal(signal.SIGTERM, lambda *_: told.append(True))
    costs = Costs(int(words[0]))
    while not told and costs.look():
        time.sleep(PAUSE)
    costs.look()
    print("processor time of the checks, and how long they ran, in minutes:")
    for line in costs.table():
        print(line.rstrip())
    return 0


sys.exit(main(sys.argv[1:]))
