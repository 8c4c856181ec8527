#!/usr/bin/env python3
"""Proves the crates, builds programs and runs each once, and says which crates are at work.

    tools/build.py [--old] [--tests] [PROGRAM..]
    tools/build.py --proved [PROGRAM..]
    tools/build.py --check CRATE [ARGUMENT..]

A PROGRAM is one of programs.txt, the first one if none is given. It is run on its first case, and put into build/. With
--old only those are built that are not there or are older than a source. With --tests the tests of every crate are proved
and run too, each as soon as its crate is proved and a processor is free. The last line is then 'N passed, M failed', of
crates. With --proved nothing is proved: each program is the one that rt ci built, if no source is newer. With --check the
libraries below a crate are proved, and the crate is checked by rt check with these arguments.

Each crate is proved in a copy, so crates that do not depend on each other are proved in parallel, as far as memory allows. If
earlier checks kept work, it is moved to the copy and back. If there is none, each library is built with its statements alone,
as rt ci builds it. Proofs over statements take half the time, and nothing of them is kept but the libraries.

All that the toolchain says goes to build/log.
"""
import fcntl
import os
import re
import shutil
import subprocess
import sys
import tempfile
import threading
import time

from progress import Progress
from repository import TOP, Room, below, cases, current, ended, has_mark, lanes, libraries, path, programs, run_once, sums, tested, toolchain

# how many lines are shown of what the toolchain said of a crate that isn't proved
SHOWN = 12
# the most jobs of a proof; each takes memory
MOST = 4
# what the toolchain says of a function that it proves, and of what it reads
USUAL = re.compile(r": proved$|^(statements|logic|empty contracts|so far:|rt: chose) ?")


class Build:
    """The crates that the programs use, which of them are proved, and the tests of which crates are to come."""

    def __init__(self, wanted, crates=(), with_tests=False):
        self.programs = {it.crate: it for it in wanted}
        self.known, self.turn = libraries(), threading.Condition()
        self.wanted = set(crates).union(*({it} | below(it, self.known) for it in self.programs))
        # what isn't wanted was proved before
        self.proved = set(self.known) - self.wanted | current(self.wanted - set(self.programs), self.known, sums(TOP))
        self.keeps = any(map(has_kept, self.wanted - set(self.programs)))
        self.progress = Progress(self.wanted - self.proved, self.known)
        self.started, self.running, self.failed, self.ended = set(), set(), None, False
        self.tests = tested(self.known) if with_tests else []
        self.count, self.passed = len(self.tests), 0
        os.makedirs(path("build"), exist_ok=True)
        self.log = open(path("build", "log"), "w", encoding="utf-8")

    def able(self):
        """What can be done now, if there is something: the crate to prove with the longest chain of others above it, or else
        one to test."""
        chains = self.progress.chains()
        proofs = [it for it in chains if it not in self.started and below(it, self.known) <= self.proved]
        tests = (it for it in self.tests if {it} | below(it, self.known) <= self.proved)
        if proofs:
            return self.prove, max(proofs, key=chains.get)
        return next(((self.test, it) for it in tests), None)

    def is_over(self):
        return self.failed or not self.tests and self.wanted <= self.proved | self.started

    def next(self):
        """What is to be done next, and to which crate; None if there is nothing more."""
        with self.turn:
            self.turn.wait_for(lambda: self.is_over() or self.able())
            found = None if self.is_over() else self.able()
            if not found:
                return None
            do, crate = found
            if do == self.test:
                self.tests.remove(crate)
            else:
                self.started.add(crate)
                self.progress.begin(crate)
            return found

    def work(self):
        """Proves and tests crates until none is left."""
        while found := self.next():
            do, crate = found
            is_well = False
            try:
                is_well = do(crate)
            finally:
                with self.turn:
                    if do == self.prove and is_well:
                        self.progress.end(crate)
                        self.proved.add(crate)
                    elif do == self.prove:
                        self.fail(crate)
                    self.turn.notify_all()

    def fail(self, crate):
        """Takes the first crate that isn't proved, and ends what is at work if nothing of it would be kept."""
        self.failed = self.failed or crate
        if not self.keeps:
            self.end()

    def end(self):
        """Ends what is at work."""
        self.ended = True
        for it in self.running:
            it.terminate()

    def prove(self, crate):
        """Proves a crate in a copy of it; whether that went well."""
        with tempfile.TemporaryDirectory(prefix="build-") as top:
            with self.turn:
                room, jobs = Room(crate, self.known, top), self.jobs(crate)
            # the longest chain has the processors before the others
            before = [] if jobs > 1 else ["nice", "-n", "5"]
            with room.lent():
                if crate in self.programs:
                    return self.run(crate, room.home, jobs, before)
                words = ["rt", "lib"] if self.keeps else room.statements(min(jobs, MOST))
                return self.call(crate, room.home, [*before, *words])

    def jobs(self, crate):
        """How many jobs a proof gets: one, or all processors if it begins the longest chain. More jobs take more time of the
        processors together, so of two each is better used by a crate of its own, if there is another one."""
        others = len(self.progress.begun) > 1 or self.able()
        return 1 if not self.progress.is_first(crate) or lanes() < 3 and others else lanes()

    def test(self, crate):
        """Proves and runs the tests of a crate in a copy of it, and says how they ended."""
        with tempfile.TemporaryDirectory(prefix="tests-") as top:
            with self.turn:
                room = Room(crate, self.known, top)
                jobs = max(1, lanes() // (len(self.running) + 1))
            with room.lent():
                is_well = self.call(crate, room.home, ["nice", "-n", "10", "rt", "test", "--jobs", str(jobs)])
        with self.turn:
            self.passed += is_well
            print(f"tests: {crate} {'passed' if is_well else 'FAILED; build/log has all that the toolchain said'}", flush=True)
        return is_well

    def call(self, crate, home, words, given=None):
        """Calls the toolchain in a copy of a crate, and logs what it says; whether that went well. Where a program is given an
        input, the program writes on standard output, and the toolchain on standard error."""
        out = subprocess.PIPE if given is None else subprocess.DEVNULL
        err = subprocess.STDOUT if given is None else subprocess.PIPE
        with subprocess.Popen(words, cwd=home, stdin=subprocess.PIPE, stdout=out, stderr=err) as ran:
            with self.turn:
                self.running.add(ran)
                if self.ended:
                    ran.terminate()
            said = b"".join(it or b"" for it in ran.communicate(given or b"")).decode(errors="replace")
        with self.turn:
            self.running.discard(ran)
            if ran.returncode and not self.failed:
                self.words = said
            self.log.write(f"== {crate}: {' '.join(words)}\n{said}")
            self.log.flush()
        return ran.returncode == 0

    def run(self, crate, home, jobs, before):
        """Proves, builds and runs a program; whether that went well."""
        program = self.programs[crate]
        case = cases()[program.first]
        words = [*before, "rt", "run", "--jobs", str(max(2, jobs)), "--", *case.arguments(program.word)]
        return self.call(crate, home, words, given=case.part("stdin"))

    def say_why(self):
        """Says which crate isn't proved, and what the toolchain said of it: what can't be read before what follows from that."""
        said = [it for it in self.words.splitlines() if it and not USUAL.search(it)]
        said = sorted(said, key=lambda it: ": error" not in it)
        print(f"build: {self.failed} is not proved; build/log has all that the toolchain said, and first:")
        print("".join(f"    {it}\n" for it in said[:SHOWN]), end="")


def has_kept(crate):
    """Whether checks of a library kept work."""
    return os.path.exists(path("crates", crate, "out", "incremental")) or has_mark(crate)


def is_current(built):
    """Whether a file is there, and no source is newer."""
    sources = subprocess.run([path("tools", "list_sources.sh")], stdout=subprocess.PIPE, text=True, check=True).stdout.splitlines()
    return os.path.exists(built) and all(os.path.getmtime(path(it)) <= os.path.getmtime(built) for it in sources)


def put(program, begun):
    """Puts a program into build/, if it does what its first case wants; whether it does. A source that was written since the
    build began is newer."""
    made = path("crates", program.crate, "out", program.crate)
    if not run_once(program, [made]):
        print(f"build: {program.name} does not do what its case {program.first} wants")
        return False
    shutil.copy(made, program.built)
    os.utime(program.built, (begun, begun))
    return True


def take(program):
    """Takes a program that rt ci built; whether it is there and no source is newer, and it does what it has to."""
    if not is_current(path("crates", program.crate, "out", program.crate)):
        print(f"build: rt ci has not built {program.name} from these sources")
        return False
    return put(program, time.time())


def finished(build):
    """Proves and tests what a build has to; whether all is proved."""
    # its first call sets a signal's handler, which only the main thread may
    toolchain().guarded()
    workers = [threading.Thread(target=build.work) for _ in range(lanes())]
    for it in workers:
        it.start()
    try:
        for it in workers:
            it.join()
    except KeyboardInterrupt:
        # the toolchain's checks are no part of the terminal's group of processes
        with build.turn:
            build.failed = build.failed or "the crate at work"
            build.end()
            build.turn.notify_all()
        sys.exit("\nbuild: interrupted")
    build.log.close()
    build.progress.close()
    if build.failed:
        build.say_why()
    return not build.failed


def made(wanted, with_tests):
    """Proves the crates of some programs, builds and runs these, and tests all crates if that is wanted; whether all
    went well."""
    begun, build = time.time(), Build(wanted, with_tests=with_tests)
    return (
        finished(build) and all(put(it, begun) for it in wanted)
        and not (with_tests and ended(build.passed, build.count - build.passed))
    )


def checked(crate, words):
    """Proves the libraries below a crate, and checks the crate in a copy of it; whether all is proved."""
    known = libraries()
    if not finished(Build([], below(crate, known))):
        return False
    with tempfile.TemporaryDirectory(prefix="check-") as top:
        room = Room(crate, known, top)
        with room.lent():
            return subprocess.run(["rt", "check", *words], cwd=room.home, check=False).returncode == 0


def locked():
    """Waits for another build: what is kept of a crate is in one copy at a time."""
    os.makedirs(path("build"), exist_ok=True)
    lock = open(path("build", "lock"), "w", encoding="utf-8")
    fcntl.flock(lock, fcntl.LOCK_EX)
    return lock


def main(words):
    if words[:1] == ["--check"] and words[1:2] and words[1] in libraries():
        with locked():
            return 0 if checked(words[1], words[2:]) else 1
    known = {it.name: it for it in programs().values()}
    names, flags = [it for it in words if it in known], {it for it in words if it not in known}
    if flags != {"--proved"} and not flags <= {"--old", "--tests"}:
        print(__doc__, file=sys.stderr)
        return 2
    wanted = [known[it] for it in names or [next(iter(known))]]
    with locked():
        if "--proved" in flags:
            return 0 if all(map(take, wanted)) else 1
        if "--old" in flags:
            wanted = [it for it in wanted if not is_current(it.built)]
        return 0 if not wanted and "--tests" not in flags or made(wanted, "--tests" in flags) else 1


sys.exit(main(sys.argv[1:]))
