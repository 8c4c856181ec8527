#!/usr/bin/env python3
"""Tries the mutants of crates/*/wrong: the check has to reject each, by a goal of the function that it changes.

    tests/mutants.py [--fit] [CRATE..]

A mutant is a file wrong/SENTENCE.edit of a crate. Its lines are 'file: src/FILE', 'function: PATH', where PATH is the
changed function as the check names it, and pairs 'old: TEXT' and 'new: TEXT'. The file has TEXT once, and further pairs apply
to what the earlier ones made. Callers see only contracts, so mutants of different functions do not affect each other: those
of a crate are put together in as few rounds as their functions allow. A round is one check, of these functions and of what
they call, in a copy of the crate. It begins with the work that earlier checks kept, and with the libraries that were built
last, also by rt ci. Where no work was kept, the first round of a crate proves what these functions call too, and the other
rounds begin with that.

A round passes if every edit could be applied, each function that is named is rejected by a goal of its own, and of what the
check looks at nothing else is rejected but their callers. The goals of a caller are not tried: if a mutant's function calls a
rejected one, it is tried again in a later round. The script names what fails. The last line is 'N passed, M failed', of
mutants.

With --fit it tries none and looks whether each mutant fits the sources as they are, and each of crates/*/must-fail: that
takes no time.
"""
import os
import re
import shutil
import subprocess
import sys
import tempfile
import threading
from concurrent.futures import ThreadPoolExecutor

sys.path.insert(0, os.path.join(os.path.dirname(__file__), "..", "tools"))
from repository import PARTS, Room, below, copied, ended, lanes, libraries, path, read

FUNCTION = re.compile(r"^fn (\S+): (.*)")
GOAL = re.compile(r"^note: \S+: (.*)")
# a goal whose answer, in the function's own proof, is one to another goal now
ANSWER = re.compile(r"(?m)^(?:\./)?proofs/(\S+)/\w+\.antt:\d+:\d+: error: (`[^`]+`: .*)")
# a goal that has no answer, in the function's own line
SEARCHED = re.compile(r"`\w+` did not prove (`[^`]+`)")
# no goal: the proof names what the edit took away
NAMES = re.compile(r"has no field|is not in scope|has no `|was not admitted")
# a check that came to the prover
IS_JUDGED = re.compile(r"^only=\d+ ", re.MULTILINE)
# a function that meets its own goals and calls one that doesn't
IS_CALLER = re.compile(r"it (calls|passes) |a call of ")


class Bad(Exception):
    """A mutant that cannot be tried."""


class Mutant:
    """A mutant: the function that it changes, unless it is one of must-fail, and what it changes in which file."""

    def __init__(self, crate, name, kind="wrong"):
        self.name, self.function, self.pairs = f"{crate}/{name.removesuffix('.edit')}", None, []
        file = old = None
        for line in read("crates", crate, kind, name).splitlines():
            word, _, text = line.partition(": ")
            if word == "file" and text.startswith("src/"):
                file = text
            elif word == "function":
                self.function = text
            elif word == "old" and file:
                old = text
            elif word == "new" and old:
                self.pairs.append((file, old, text))
                old = None
            else:
                raise Bad(f"{self.name}: a line is none of file: src/, function:, old: and new: in their order: {line}")
        if (kind == "wrong") != bool(self.function) or not self.pairs or old:
            raise Bad(f"{self.name}: it needs a function, unless it is one of must-fail, and pairs of old and new")


def applied(mutants, crate):
    """The files of a crate under these mutants; Bad says why one of them cannot be applied."""
    texts = {}
    for mutant in mutants:
        for file, old, new in mutant.pairs:
            if not os.path.isfile(path("crates", crate, file)):
                raise Bad(f"{mutant.name}: there is no {file}")
            text = texts.get(file) or read("crates", crate, file)
            if text.count(old) != 1:
                raise Bad(f"{mutant.name}: {file} has its text {text.count(old)} times: {old}")
            texts[file] = text.replace(old, new)
    return texts


def size(crate, known):
    """About how long a check of a crate takes: by its sources, and by the crates below it, which the check loads."""
    files = (os.path.join(at, name) for it in PARTS for at, _, names in os.walk(path("crates", crate, it)) for name in names)
    return sum(map(os.path.getsize, files)) * (1 + len(below(crate, known)))


def fits(mutant, mutants, crate):
    """Whether a mutant can be tried in a round with others."""
    try:
        applied([*mutants, mutant], crate)
    except Bad:
        return False
    return all(mutant.function != it.function for it in mutants)


def place(mutant, rounds, crate):
    """Puts a mutant into the first round that it fits, or into one of its own."""
    home = next((it for it in rounds if fits(mutant, it, crate)), None)
    if home is None:
        rounds.append([mutant])
    else:
        home.append(mutant)


class Copy:
    """A copy of a crate and of those that it depends on, with the work that checks kept."""

    def __init__(self, crate, known, folder):
        self.crate, self.folder, self.home = crate, folder, Room(crate, known, folder).home
        copied(crate, folder, ["out/incremental"])

    def check(self, mutants, jobs):
        """What the check says of the crate under these mutants."""
        texts = applied(mutants, self.crate)
        for file, text in texts.items():
            with open(os.path.join(self.home, file), "w", encoding="utf-8") as it:
                it.write(text)
        words = ["rt", "check", "--jobs", str(jobs), *(word for it in mutants for word in ("--only", it.function))]
        ran = subprocess.run(words, cwd=self.home, stdout=subprocess.PIPE, stderr=subprocess.STDOUT, errors="replace")
        for file in texts:
            shutil.copy(path("crates", self.crate, file), os.path.join(self.home, file))
        return ran.stdout


def verdicts(said):
    """What a check said of each function, and the goals of each that were not proved."""
    found, goals, answers = {}, [], {}
    for folder, goal in ANSWER.findall(said):
        if not NAMES.search(goal):
            answers.setdefault(folder.replace("/", "::"), []).append(goal)
    for line in said.splitlines():
        goal, function = GOAL.match(line), FUNCTION.match(line)
        if goal:
            goals.append(goal[1])
        elif function:
            goals += answers.get(function[1].partition("::")[2], []) + SEARCHED.findall(function[2])
            found[function[1]] = function[2], goals
            goals = []
    return found


class Round:
    """What a check said of some mutants: what is wrong with them, and which have to be tried again."""

    def __init__(self, mutants, said):
        self.wrong, self.again = {}, []
        self.is_judged = bool(IS_JUDGED.search(said))
        found, named = verdicts(said), {it.function for it in mutants}
        for mutant in mutants:
            self.judge(mutant, *found.get(mutant.function, ("the check names no such function", [])))
        for function, (words, _) in found.items():
            if function not in named and not words.startswith("proved") and not IS_CALLER.search(words):
                self.wrong[function] = "it is refused as well, beside " + ", ".join(it.name for it in mutants)

    def judge(self, mutant, words, goals):
        """Judges a mutant by what the check says of its function."""
        if words.startswith("proved"):
            self.wrong[mutant.name] = "NOT REFUSED: the function is proved with it"
        elif not goals and IS_CALLER.search(words):
            self.again.append(mutant)
        elif not goals:
            self.wrong[mutant.name] = f"no goal of the function refuses it: {words}"


class Trial:
    """The mutants of a crate: the rounds that are still to come, and what is known of those that were."""

    def __init__(self, crate):
        names = sorted(os.listdir(path("crates", crate, "wrong")))
        self.crate, self.size, self.rounds, self.copies = crate, len(names), [], []
        self.running, self.count, self.wrong = 0, 0, {}
        for name in names:
            try:
                mutant = Mutant(crate, name)
                applied([mutant], crate)
                place(mutant, self.rounds, crate)
            except Bad as why:
                self.wrong[name] = str(why)

    def ready(self):
        """How many rounds can begin: the first one runs alone, since the others begin with the work that it kept."""
        if self.count:
            return len(self.rounds)
        return min(1 - self.running, len(self.rounds))

    def take(self, mutants, said):
        """Takes what the check said of a round."""
        found = Round(mutants, said)
        self.count += 1
        if not found.is_judged and len(mutants) > 1:
            # one does not compile: alone it is named, and halves find it in few rounds
            half = len(mutants) // 2
            self.rounds[:0] = [mutants[:half], mutants[half:]]
        elif not found.is_judged:
            errors = [line for line in said.splitlines() if "error" in line] or said.splitlines()[-1:] or ["it said nothing"]
            self.wrong[mutants[0].name] = f"the check does not come to the prover, so no contract was tried: {errors[0]}"
        elif len(found.again) == len(mutants):
            self.wrong.update({it.name: "no goal refuses it: its function calls one that is not proved" for it in mutants})
        else:
            self.wrong.update(found.wrong)
            for mutant in found.again:
                place(mutant, self.rounds, self.crate)

    def tell(self):
        """Says how the trial ended."""
        for name, why in self.wrong.items():
            print(f"tests/mutants.py: {name}: {why}", flush=True)
        print(f"tests/mutants.py: {self.crate}: {self.size} mutants in {self.count} rounds, {len(self.wrong)} failed", flush=True)

    def clear(self):
        """Removes the copies of the crate, so that those of all crates do not fill the disk and the memory together."""
        while self.copies:
            shutil.rmtree(self.copies.pop().folder)


class Trials:
    """The trials of some crates. Rounds run in parallel, those of one crate each in a copy of its own."""

    def __init__(self, crates, known, folder):
        # the largest crate is begun first, since the others fit next to it
        self.trials = [Trial(it) for it in sorted(crates, key=lambda it: -size(it, known))]
        self.known, self.folder, self.turn = known, folder, threading.Condition()
        for trial in self.trials:
            if not trial.rounds:
                trial.tell()

    def next(self):
        """A round to come, its trial, a copy if one is free, and its jobs; None if there will be no round."""
        with self.turn:
            self.turn.wait_for(lambda: any(it.ready() for it in self.trials) or not any(it.running for it in self.trials))
            trial = next((it for it in self.trials if it.ready()), None)
            if not trial:
                return None
            trial.running += 1
            mutants = trial.rounds.pop(0)
            # a check gets the processors that no other round can use
            jobs = max(1, lanes() // sum(it.running + it.ready() for it in self.trials))
            return trial, mutants, trial.copies.pop() if trial.copies else None, jobs

    def work(self):
        """Tries rounds until none is left."""
        while True:
            found = self.next()
            if not found:
                return
            self.run(*found)

    def run(self, trial, mutants, copy, jobs):
        """Tries a round, in this copy if there is one."""
        said = None
        try:
            copy = copy or Copy(trial.crate, self.known, tempfile.mkdtemp(dir=self.folder))
            said = copy.check(mutants, jobs)
        finally:
            with self.turn:
                trial.running -= 1
                if said is not None:
                    trial.take(mutants, said)
                    trial.copies.append(copy)
                is_over = not trial.rounds and not trial.running
                if is_over:
                    trial.tell()
                self.turn.notify_all()
        if is_over:
            trial.clear()


def misfits(crate):
    """What is wrong with each mutant of a crate, of both kinds, that does not fit the sources, and how many do."""
    found, fit = [], 0
    for kind in "wrong", "must-fail":
        folder = path("crates", crate, kind)
        for name in sorted(os.listdir(folder)) if os.path.isdir(folder) else []:
            try:
                applied([Mutant(crate, name, kind)], crate)
                fit += 1
            except Bad as why:
                found.append(str(why))
    return found, fit


def fit_all(crates):
    """Looks whether all mutants of some crates fit."""
    results = [misfits(it) for it in crates]
    failed = [why for found, _ in results for why in found]
    for why in failed:
        print(f"tests/mutants.py: {why}")
    return ended(sum(fit for _, fit in results), len(failed))


def main(words):
    known = libraries()
    if words[:1] == ["--fit"]:
        return fit_all(words[1:] or known)
    able = [it for it in known if os.path.isdir(path("crates", it, "wrong"))]
    if not set(words) <= set(able):
        print(f"tests/mutants.py: {' '.join(it for it in words if it not in able)}: no mutants; these crates have some: {' '.join(able)}")
        return 2
    with tempfile.TemporaryDirectory(prefix="mutants-") as folder:
        trials = Trials(words or able, known, folder)
        with ThreadPoolExecutor(lanes()) as pool:
            for it in [pool.submit(trials.work) for _ in range(lanes())]:
                it.result()
    failed = sum(len(it.wrong) for it in trials.trials)
    return ended(sum(max(it.size - len(it.wrong), 0) for it in trials.trials), failed)


sys.exit(main(sys.argv[1:]))
