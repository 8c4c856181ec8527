#!/usr/bin/env python3
"""Sees that merges work after a cut as they did in the original repository.

    tests/check_merges.py

A repository with a trunk, branches, a tag and earlier merges is made by svn; one of its directories has a secret, and so have
the copies of it. svndumpcut excludes that with --follow-copies, or includes what is next to it in the trunk and in the
branches, with all revisions kept and with emptied ones dropped, from a dump without deltas and from one with them. In the
original and in the loaded cut the trunk is then merged into each branch, and a branch back into the trunk: the lines of svn
status, but for excluded paths, and all files have to be the same, with no conflict. If Subversion is not installed, the
test is skipped and says so. The last line is 'N passed, M failed'.
"""
import os
import subprocess
import sys
import tempfile

sys.path.insert(0, os.path.join(os.path.dirname(__file__), "..", "tools"))
from repository import ended, lacking, programs

TOOLS = ("svn", "svnadmin")
SECONDS = 120
SECRET = "trunk/vendor/secret"
# the calls that leave the secret out
CALLS = [
    ["exclude", "--follow-copies", SECRET],
    ["include", *(f"{top}/{name}" for top in ("trunk", "branches/one", "branches/two") for name in ("main", "lib"))],
]
# each merge, from a branch and into one
MERGES = [("trunk", "branches/one"), ("trunk", "branches/two"), ("branches/one", "trunk")]


def call(*words, given=b""):
    """Runs a program that has to end well, and returns what it wrote."""
    it = subprocess.run(words, input=given, capture_output=True, timeout=SECONDS)
    if it.returncode != 0:
        raise RuntimeError(f"{' '.join(words)}: {it.stderr.decode('utf-8', 'replace')}")
    return it.stdout


class Work:
    """A repository, and a working copy of it."""

    def __init__(self, folder, repository):
        self.url, self.copy = "file://" + repository, os.path.join(folder, "copy")
        self.svn("checkout", "-q", self.url, self.copy)

    def svn(self, *words):
        return call("svn", "--non-interactive", *words).decode()

    def at(self, path):
        return os.path.join(self.copy, path)

    def write(self, path, text):
        is_new = not os.path.exists(self.at(path))
        with open(self.at(path), "w", encoding="utf-8") as it:
            it.write(text)
        if is_new:
            self.svn("add", "-q", "--parents", self.at(path))

    def commit(self, log):
        self.svn("commit", "-q", "-m", log, self.copy)
        self.svn("update", "-q", self.copy)

    def merge(self, source, target):
        self.svn("merge", "-q", "--accept", "postpone", f"{self.url}/{source}", self.at(target))
        self.commit(f"Merge {source} into {target}.")

    def mergeable(self, source, target):
        """The lines of svn status after a merge, and each file, in a working copy that is then reverted."""
        self.svn("merge", "-q", "--accept", "postpone", f"{self.url}/{source}", self.at(target))
        lines = self.svn("status", "-q", self.copy).replace(self.copy, "").splitlines()
        files = {}
        for top, folders, names in os.walk(self.at(target)):
            folders[:] = [it for it in folders if it != ".svn"]
            for name in names:
                with open(os.path.join(top, name), "rb") as it:
                    files[os.path.relpath(os.path.join(top, name), self.copy)] = it.read()
        self.svn("revert", "-q", "-R", self.copy)
        return [it for it in lines if "secret" not in it], {it: text for it, text in files.items() if "secret" not in it}


def live(work):
    """Makes a history with branches, merges and a secret."""
    for folder in "trunk", "trunk/lib", "trunk/vendor", "branches", "tags":
        work.svn("mkdir", "-q", work.at(folder))
    lines = [f"line {number}\n" for number in range(20)]
    work.write("trunk/main", "".join(lines))
    work.write("trunk/lib/part", "".join(lines))
    work.write(SECRET, "hunter2\n")
    work.commit("Start.")
    work.svn("copy", "-q", work.at("trunk"), work.at("branches/one"))
    work.commit("A branch.")
    work.write("branches/one/main", "".join([*lines[:15], "of the branch\n", *lines[15:]]))
    work.commit("Change the branch.")
    work.write("trunk/main", "".join(["of the trunk\n", *lines]))
    work.commit("Change the trunk.")
    work.merge("trunk", "branches/one")
    work.write(SECRET, "hunter3\n")
    work.commit("Change the secret.")
    work.svn("copy", "-q", work.at("trunk"), work.at("tags/1.0"))
    work.svn("copy", "-q", work.at("branches/one"), work.at("branches/two"))
    work.commit("A tag, and a branch of the branch.")
    work.svn("move", "-q", work.at("trunk/lib/part"), work.at("trunk/lib/module"))
    work.write("trunk/lib/new", "new\n")
    work.commit("Rename a file, and add one.")
    work.write("branches/two/main", "".join([*lines[:10], "of the second branch\n", *lines[10:15], "of the branch\n", *lines[15:]]))
    work.commit("Change the second branch.")


def wrong(original, folder, words, dump):
    """What the loaded cut of a dump does otherwise, if anything."""
    cut = call(programs()["cut"].built, *words, "--quiet", given=dump)
    if b"hunter" in cut:
        return "the secret is still there"
    repository = os.path.join(folder, "cut")
    call("svnadmin", "create", repository)
    call("svnadmin", "load", "-q", "--ignore-uuid", repository, given=cut)
    loaded = Work(folder, repository)
    for source, target in MERGES:
        wanted, got = original.mergeable(source, target), loaded.mergeable(source, target)
        if wanted != got or any(it.startswith("C") or it[6:7] == "C" for it in got[0]):
            return f"merging {source} into {target}: {got[0]}, and {wanted[0]} is meant"
    return None


def main():
    missing = lacking(*TOOLS)
    if missing:
        print(f"tests/check_merges.py: left out, since {', '.join(missing)} can't be found")
        return 0
    failed, tried = 0, 0
    with tempfile.TemporaryDirectory() as folder:
        repository = os.path.join(folder, "all")
        call("svnadmin", "create", repository)
        original = Work(folder, repository)
        live(original)
        for more in [], ["--deltas"]:
            dump = call("svnadmin", "dump", "-q", *more, repository)
            for words in [[*given, *options] for given in CALLS for options in ([], ["--drop-empty-revs"])]:
                tried += 1
                own = os.path.join(folder, str(tried))
                os.mkdir(own)
                why = wrong(original, own, words, dump)
                failed += bool(why)
                if why:
                    print(f"dump {' '.join(more)}, {' '.join(words)}: {why}")
    return ended(tried - failed, failed)


sys.exit(main())
