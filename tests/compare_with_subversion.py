#!/usr/bin/env python3
"""Compares the filter with Subversion's own svndumpfilter on a real repository.

    tests/compare_with_subversion.py

A repository is made with svnadmin, svnmucc and svn. Its dumps, by `svnadmin dump` without deltas and with them and by
`svnrdump dump`, are filtered by both programs with each of OPTIONS, for which both do the same. Both outputs are loaded
into new repositories, and the dumps of those are compared byte for byte but for their UUIDs. If Subversion is not
installed, the test is skipped and says so. docs/DIFFERENCES.md says where the two differ. The last line is
'N passed, M failed'.
"""
import os
import random
import re
import shutil
import subprocess
import sys
import tempfile

sys.path.insert(0, os.path.join(os.path.dirname(__file__), "..", "tools"))
from repository import ended, lacking, programs

TOOLS = ("svnadmin", "svndumpfilter", "svn", "svnmucc", "svnrdump")
SECONDS = 120
KEPT = ["include", "trunk", "branches", "tags"]
CLEAN = ["exclude", "import", "other"]
OPTIONS = [
    KEPT,
    KEPT + ["--drop-empty-revs"],
    KEPT + ["--drop-empty-revs", "--renumber-revs"],
    KEPT + ["--drop-all-empty-revs", "--renumber-revs"],
    CLEAN + ["--drop-empty-revs"],
    CLEAN + ["--drop-empty-revs", "--renumber-revs", "--preserve-revprops"],
    ["include", "trunk", "--skip-missing-merge-sources", "--drop-empty-revs"],
    ["include", "/trunk/", "/branches", "--drop-all-empty-revs", "--renumber-revs", "--preserve-revprops"],
]


def call(*words, given=None, cwd=None):
    """Runs a program that has to end well, and returns what it wrote."""
    ran = subprocess.run(words, input=given, capture_output=True, timeout=SECONDS, cwd=cwd)
    if ran.returncode != 0:
        sys.exit(f"tests/compare_with_subversion.py: {' '.join(words)}: {ran.stderr.decode('utf-8', 'replace')}")
    return ran.stdout


def left_out():
    """Why the test is skipped, if it is."""
    missing = lacking(*TOOLS)
    if missing:
        return f"{', '.join(missing)} can't be found"
    version = subprocess.run(["svndumpfilter", "--version"], capture_output=True, timeout=SECONDS).stdout
    if not version.startswith(b"svndumpfilter, version 1."):
        return "the svndumpfilter that is found isn't Subversion's"
    return None


class Repository:
    """A repository that grows by commits."""

    def __init__(self, folder):
        self.path = os.path.join(folder, "repository")
        self.url = "file://" + self.path
        self.folder = folder
        call("svnadmin", "create", self.path)

    def commit(self, message, *actions):
        call("svnmucc", "--non-interactive", "-m", message, "-U", self.url, *actions)

    def file(self, text):
        path = os.path.join(self.folder, "text")
        with open(path, "wb") as it:
            it.write(text)
        return path

    def merge(self, source, target, message):
        """Merges a branch in a working copy, so that mergeinfo is what Subversion makes of it."""
        copy = os.path.join(self.folder, "copy")
        call("svn", "checkout", "-q", self.url + target, copy)
        call("svn", "merge", "-q", "--non-interactive", "^" + source, copy)
        call("svn", "commit", "-q", "-m", message, copy)
        shutil.rmtree(copy)


def make(folder):
    """Copies, deletes, a merge, properties, binary texts, a mistaken import, a revision without properties."""
    chance = random.Random(7)
    it = Repository(folder)
    it.commit("folders", "mkdir", "trunk", "mkdir", "branches", "mkdir", "tags", "mkdir", "other")
    it.commit("a text", "put", it.file(b"one\ntwo\nthree\n"), "trunk/a.txt")
    binary = it.file(bytes(chance.randrange(256) for _ in range(20000)) + b"\n\nRevision-number: 3\n\n")
    it.commit("bytes", "put", binary, "trunk/bytes", "propset", "svn:mime-type", "application/octet-stream", "trunk/bytes")
    it.commit("a mistake", "mkdir", "import", "put", it.file(b"film" * 9000), "import/film")
    it.commit("a property", "propset", "note", "two\nlines, \u00fcber\n", "trunk")
    it.commit("a branch", "cp", "HEAD", "trunk", "branches/b1")
    it.commit("on the branch", "put", it.file(b"one\ntwo\nthree\nfour\n"), "branches/b1/a.txt")
    it.commit("elsewhere", "put", it.file(b"x\n"), "other/x", "cp", "2", "trunk/a.txt", "other/a.txt")
    it.commit("on the trunk", "put", it.file(b""), "trunk/empty", "mkdir", "trunk/deep", "put", it.file(b"d"), "trunk/deep/d")
    it.merge("/branches/b1", "/trunk", "a merge")
    it.commit("the mistake goes", "rm", "import")
    it.commit("no properties", "put", it.file(b"y\n"), "other/x")
    for name in ("svn:log", "svn:author", "svn:date"):
        call("svnadmin", "delrevprop", it.path, "-r", "12", name)
    it.commit("moved", "mv", "trunk/deep", "trunk/deeper")
    it.commit("an older text", "rm", "trunk/a.txt", "cp", "2", "trunk/a.txt", "trunk/a.txt")
    it.commit("a tag", "cp", "HEAD", "trunk", "tags/1.0")
    it.commit("a branch goes", "rm", "branches/b1")
    it.commit("a property goes", "propdel", "note", "trunk")
    return {
        "svnadmin dump": call("svnadmin", "dump", "-q", it.path),
        "svnadmin dump --deltas": call("svnadmin", "dump", "-q", "--deltas", it.path),
        "svnrdump dump": call("svnrdump", "dump", "-q", it.url),
    }


def loaded(folder, name, dump):
    """The dump of a new repository that this dump was loaded into."""
    path = os.path.join(folder, name)
    call("svnadmin", "create", path)
    call("svnadmin", "load", "-q", path, given=dump)
    again = call("svnadmin", "dump", "-q", path)
    shutil.rmtree(path)
    return re.sub(rb"^UUID: [0-9a-f-]*$", b"UUID: it", again, count=1, flags=re.MULTILINE)


def main():
    why = left_out()
    if why:
        print(f"tests/compare_with_subversion.py: left out, since {why}")
        return 0
    failed = 0
    with tempfile.TemporaryDirectory() as folder:
        runs = [(kind, dump, options) for kind, dump in make(folder).items() for options in OPTIONS]
        for kind, dump, options in runs:
            ours = loaded(folder, "ours", call(programs()["filter"].built, *options, given=dump))
            theirs = loaded(folder, "theirs", call("svndumpfilter", *options, given=dump))
            if ours != theirs:
                failed += 1
                at = next((i for i, (a, b) in enumerate(zip(ours, theirs)) if a != b), min(len(ours), len(theirs)))
                print(f"{kind}, {' '.join(options)}: the repositories differ at byte {at} of their dumps:")
                print(f"  ours   {ours[max(0, at - 60):at + 60]!r}\n  theirs {theirs[max(0, at - 60):at + 60]!r}")
    return ended(len(runs) - failed, failed)


sys.exit(main())
