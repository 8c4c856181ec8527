#!/usr/bin/env python3
"""Sees that a filtered or cut repository has the right trees: the filter's if the survey reports nothing.

    tests/check_loaded_trees.py [SEED [filter] [cut]]

SEED is 1 if none is given; another one makes other repositories. The words after it say which of the two parts below
are run; both are run if none is given. Repositories are made by svnmucc and svn: copies, renames of projects and of the
directories above them, replaced and deleted directories, properties, branches and merges. Each is dumped, without deltas
and with them; for svndumpcut also by svnrdump, whose dumps have deltas alone.

filter: each dump is surveyed and filtered by many sets of prefixes and options. The output is loaded by svnadmin over the
directories that the survey lists, made in revision 1 in the order of its lines. Then the tree at each number is compared
with the original's, restricted to the kept paths as docs/FILTER.md says: kinds, texts, properties, mergeinfo; and so are
the properties of each kept revision. The same is done with parts of each history, as svnadmin dump -r writes them. The
original is what svnadmin loads of such a part, and if the load lowers numbers, mergeinfo is not compared.

A run passes if all is equal, or if the survey has a line. Where the filter stops, the survey must have a line with that
record and fault, and none with a fault if the filter does not stop. After fault 12 the same is run once more, with all
the prefixes that the survey suggests: then no copy may stop the filter. (No path here begins with two slashes: no prefix
names such a path.)

cut: svndumpcut excludes and includes many sets of one to three paths of each dump, without --follow-copies and with it, some
also with --dry-run and with --drop-empty-revs. Where copies bring excluded content back, --keep-copies is tried too. Some
are also written in two parts with --after: the first one has to be the cut of the dump up to there, and the second one has to
load after it. Mergeinfo is not compared then, since svnadmin load changes it. With --follow-copies nothing may be written
if the first part differs. Which paths are kept in the end, what copies bring back and what is deleted after copies is
computed here, from the original's trees and copies as docs/CUT.md says: the status and the lists have to be as computed.
Nothing may be written but with status 0. What is written then is loaded into an empty repository, with svnadmin's checks of
properties. It has to have each revision of the original with its number and its properties, and its tree with the kept paths
alone, and no text that only excluded files have. The same is done with parts of each history, with dumps whose numbers have
gaps, which svndumpfilter makes, and with dumps in which copies are made over what exists, with no node that deletes it before:
there the original is what svnadmin loads of them, and nothing may be written of a dump that it rejects. If it rejects the
mergeinfo alone, the cut is not judged. And dumps are spoiled: they end behind the record of a revision, lack revisions, or have
some twice. Each of these has to be reported.

The files of a failed run are kept in build/loaded_trees. If Subversion is not installed, the test is skipped and says
so. The last line is 'N passed, M failed'.
"""
import collections
import concurrent.futures
import copy as copying
import functools
import os
import random
import re
import shutil
import subprocess
import sys
import tempfile

sys.path.insert(0, os.path.join(os.path.dirname(__file__), "..", "tools"))
from repository import ended, lacking, path as path_to, programs

TOOLS = ("svn", "svnadmin", "svnlook", "svnmucc", "svnrdump")
SECONDS = 120
# on a disk a load waits for it more than a second
MEMORY = "/dev/shm" if os.access("/dev/shm", os.W_OK) else None
REPOSITORIES, COMMITS, RUNS = 8, 18, 40
# the number of parts of each repository, and of runs for each part
PARTS, PART_RUNS = 3, 5
# a repository doesn't grow above this number of paths
PATHS = 80
# for each repository, the number of sets of paths that are cut out, and the number of parts, of dumps with gaps and of
# dumps with copies over something that are given to svndumpcut
CUTS, CUT_PARTS, CUT_GAPS, CUT_OVERS, CUT_SPOILED = 70, 6, 6, 12, 4
OPTIONS = [
    ["--drop-empty-revs", "--renumber-revs"],
    ["--drop-empty-revs", "--renumber-revs", "--skip-missing-merge-sources"],
    ["--drop-all-empty-revs", "--renumber-revs", "--skip-missing-merge-sources"],
    ["--renumber-revs", "--skip-missing-merge-sources", "--preserve-revprops"],
    ["--skip-missing-merge-sources"],
    ["--preserve-revprops", "--skip-missing-merge-sources"],
    [],
    ["--drop-empty-revs", "--skip-missing-merge-sources"],
]
PADDED_LOG = b"This is an empty revision for padding."
MERGEINFO = b"svn:mergeinfo"
# the lines of the survey that report a directory to create, and by the side a prefix to add
FOLDER = re.compile(rb"^create first: /(.*)$", re.MULTILINE)
AS_WELL = {
    "include": re.compile(r"^also include: (/.*)$", re.MULTILINE),
    "exclude": re.compile(r"^also exclude: (/.*)$", re.MULTILINE),
}
# the fault and the record at which the filter stopped, and those that the survey reports
FAULT = re.compile(rb"svndumpfilter: fault (\d+) \w+ in record (\d+) ")
TOLD_FAULT = re.compile(rb" \(fault (\d+), record (\d+), byte \d+\)$", re.MULTILINE)
# what svndumpcut lists: a path that it excludes too, what a copy would bring, and a copy that is followed by deletes
FROM = rb", copied from /(?P<source>.*)@(?P<number>\d+)"
ADDED = re.compile(rb"^  /(?P<target>.*) \(r(?P<revision>\d+)" + FROM + rb"\)$", re.MULTILINE)
ADDED_COUNT = re.compile(rb"^also excluded, as copies of excluded content: (\d+) paths?$", re.MULTILINE)
INCLUDED = re.compile(rb"^  /(?P<path>.*) \(r(?P<revision>\d+): /(?P<target>.*)" + FROM + rb"\)$", re.MULTILINE)
INCLUDED_COUNT = re.compile(rb"^also included, as sources of copies: (\d+) paths?$", re.MULTILINE)
OTHERS = re.compile(rb"^other excluded paths: ([\d,]+)\n((?:  /.*\n)*)", re.MULTILINE)
FILE_PARENT = re.compile(
    rb"^svndumpcut: warning: /(.*) is a file in r(\d+): it is kept with its content, as a parent of a prefix\n", re.MULTILINE
)
BACK = re.compile(rb"^  r(?P<revision>\d+): /(?P<target>.*)" + FROM + rb": (?P<amount>.*)$", re.MULTILINE)
BACK_COUNT = re.compile(
    rb"^svndumpcut: nothing written: copies would bring excluded content back, in (\d+) places?\n(?:  .*\n)*"
    rb"use --follow-copies to exclude these too, (\d+) paths? in all, or --keep-copies to keep them\n\Z",
    re.MULTILINE,
)
DELETED = re.compile(
    rb"^r(?P<revision>\d+): /(?P<target>.*)" + FROM + rb": (?P<count>\d+) paths? deleted after the copy$", re.MULTILINE
)
CUT_COUNTS = re.compile(
    rb"^revisions kept (?P<kept>\d+)(?: \((?P<emptied>\d+) of them emptied\))?, dropped 0"
    rb"; nodes kept (?P<nodes>\d+), dropped (?P<dropped>\d+)(?:; (?P<replaced>\d+) nodes? written as (?P<written>\d+))?"
    rb"(?:; (?P<deletes>\d+) paths? deleted after copies)?; texts checked \d+\n\Z",
    re.MULTILINE,
)
COUNTS = ("kept", "emptied", "nodes", "dropped", "deletes")
# copies that are written as additions
WRITTEN_COUNT = re.compile(
    rb"^([\d,]+) cop(?:y is|ies are) written as (?:an addition|additions), because (?:its source is|their sources are) not "
    rb"included: svn merge does not take (?:it for a copy|them for copies); --follow-copies includes the sources?$",
    re.MULTILINE,
)
KEPT_COUNT = re.compile(rb"^copies bring excluded content back, in ([\d,]+) places? \(--keep-copies\)$", re.MULTILINE)
PARENTS_COUNT = re.compile(rb"^copies of parents of prefixes that are written as additions: ([\d,]+)$", re.MULTILINE)
# that later copies change what is cut up to a revision
DIFFERING = re.compile(
    rb"^svndumpcut: nothing written: --follow-copies now cuts what exists up to r(\d+) differently, at ([\d,]+) paths?: "
    rb"cut the whole dump again\n((?:  /.*\n)+)or go on with these paths .* without --follow-copies:\n(?:  /.*\n)+\Z",
    re.MULTILINE,
)
OWN_LIFE = re.compile(
    rb"^svndumpcut: warning: /(.*) is excluded in every revision, though what r(\d+) has there was not copied from excluded "
    rb"content\n",
    re.MULTILINE,
)
# that numbers are missing, or that the last revision is empty
HOLE = re.compile(rb"^svndumpcut: warning: the dump has no r(\d+)(?: to r(\d+))?\n", re.MULTILINE)
HOLES = re.compile(
    rb"^svndumpcut: warning: ([\d,]+) numbers of revisions are missing in the dump, in [\d,]+ places\n", re.MULTILINE
)
EMPTY_END = re.compile(
    rb"^svndumpcut: warning: the last revision, r(\d+), is empty: if it is not so in the repository, svnadmin dump failed "
    rb"there\n",
    re.MULTILINE,
)
# that revision numbers do not rise
DISORDER = re.compile(rb"^svndumpcut: r\d+: .* \(fault 8, record \d+, byte \d+\)\n\Z", re.MULTILINE)
# svnadmin's message that it can't give mergeinfo other numbers, as after a gap
MERGEINFO_REFUSED = re.compile("mergeinfo|bad range|Negative revision number")
# the number of a dump's first revision
FIRST = re.compile(rb"^Revision-number: (\d+)$", re.MULTILINE)
# the faults of a dump that svnadmin doesn't load
UNLOADED = re.compile(rb"^svndumpcut: r\d+: .* \(fault (31|34), record \d+, byte \d+\)$", re.MULTILINE)
MARKER = re.compile(rb"^only in text \d+\.$", re.MULTILINE)


def left_out():
    """Why the test is skipped, if it is."""
    missing = lacking(*TOOLS)
    return f"{', '.join(missing)} can't be found" if missing else None


def ran(*words, given=b""):
    return subprocess.run(words, input=given, capture_output=True, timeout=SECONDS)


def call(*words, given=b""):
    """Runs a program that has to end well, and returns what it wrote."""
    it = ran(*words, given=given)
    if it.returncode != 0:
        raise RuntimeError(f"{' '.join(words)}: {it.stderr.decode('utf-8', 'replace')}")
    return it.stdout


class Life:
    """A repository that grows by commits of all kinds; one that Subversion rejects isn't made."""

    def __init__(self, folder, chance):
        self.folder, self.chance = folder, chance
        self.path = os.path.join(folder, "repository")
        self.url = "file://" + self.path
        call("svnadmin", "create", self.path)
        # the paths of each revision, a directory's with a slash at its end
        self.trees = [[]]
        self.names = self.texts = 0

    def name(self):
        self.names += 1
        return self.chance.choice("abcdefgh") + str(self.names)

    def text(self):
        """An empty file, or one with a few lines, of which the last is in no other text."""
        path = os.path.join(self.folder, f"text{self.names}")
        lines = [f"{self.chance.randrange(1000)}\n" for _ in range(self.chance.randrange(4))]
        self.texts += 1
        if lines:
            lines.append(f"only in text {self.texts}.\n")
        with open(path, "w", encoding="utf-8") as it:
            it.write("".join(lines))
        return path

    def committed(self):
        """Notes the tree of the youngest revision, if there is a new one."""
        if int(call("svnlook", "youngest", self.path)) == len(self.trees):
            lines = call("svnlook", "tree", "--full-paths", self.path).decode().splitlines()
            self.trees.append([it for it in lines if it != "/"])

    def commit(self, *actions):
        ran("svnmucc", "--non-interactive", "-m", f"commit {len(self.trees)}", "-U", self.url, "--", *actions)
        self.committed()

    def folders(self):
        return [it.rstrip("/") for it in self.trees[-1] if it.endswith("/")]

    def files(self):
        return [it for it in self.trees[-1] if not it.endswith("/")]

    def any_folder(self):
        return self.chance.choice(self.folders())

    def any_file(self):
        return self.chance.choice(self.files())

    def any_path(self):
        return self.chance.choice(self.trees[-1]).rstrip("/")

    def new_path(self):
        return f"{self.any_folder()}/{self.name()}"

    def begin(self):
        folders = ["work", "work/one", "work/one/trunk", "work/two", "lib", "tags", "tags/old"]
        self.commit(*[word for path in folders for word in ("mkdir", path)])
        for folder in ("work/one/trunk", "work/two", "lib"):
            doc, run = folder + "/doc", folder + "/run"
            self.commit("mkdir", doc, "put", self.text(), doc + "/page", "put", self.text(), run)
            self.commit("propset", "svn:executable", "*", run, "propset", "note", self.name(), doc)

    def edit(self):
        self.commit("put", self.text(), self.any_file())

    def create(self):
        self.commit("put", self.text(), self.new_path(), "mkdir", self.new_path())

    def set_property(self):
        path = self.chance.choice([self.any_path(), self.any_folder(), "."])
        self.commit("propset", self.chance.choice(["note", "svn:ignore", "more"]), self.name(), path)

    def delete_property(self):
        self.commit("propdel", "note", self.any_path())

    def branch(self):
        self.commit("cp", "HEAD", self.any_folder(), f"tags/{self.name()}")

    def branch_all(self):
        if len(self.trees[-1]) < PATHS / 2:
            self.commit("cp", "HEAD", ".", f"tags/{self.name()}")

    def rename(self):
        self.commit("mv", self.any_folder(), self.new_path())

    def rename_top(self):
        self.commit("mv", self.chance.choice(["work", "work/one", "work/two", "lib"]), self.name())

    def rename_back(self):
        """A directory at the top takes the name of one that was there."""
        tops = [it for it in self.folders() if "/" not in it]
        gone = [it for it in ("work", "lib") if it not in tops]
        if gone:
            self.commit("mv", self.chance.choice(tops), gone[0])

    def delete(self):
        self.commit("rm", self.chance.choice([self.any_path(), self.any_file()]))

    def replace_by_new(self):
        path = self.any_folder()
        self.commit("rm", path, "mkdir", path)

    def replace_by_copy(self):
        path, source = self.any_folder(), self.any_folder()
        self.commit("rm", path, "cp", "HEAD", source, path)

    def replace_by_older(self):
        path, number = self.any_path(), self.chance.randrange(1, len(self.trees))
        self.commit("rm", path, "cp", str(number), path, path)

    def copy_older(self):
        number = self.chance.randrange(1, len(self.trees))
        source = self.chance.choice(self.trees[number]).rstrip("/")
        self.commit("cp", str(number), source, self.new_path())

    def bring_back(self):
        """What was deleted is added again at its path."""
        number = self.chance.randrange(1, len(self.trees))
        gone = [it.rstrip("/") for it in self.trees[number] if it not in self.trees[-1]]
        if gone:
            path = self.chance.choice(gone)
            self.commit("cp", str(number), path, path)

    def changed_copy(self):
        path = self.new_path()
        more = self.chance.choice([["propset", "more", self.name(), path], []])
        self.commit("cp", "HEAD", self.any_file(), path, "put", self.text(), path, *more)

    def changed_branch(self):
        source = self.any_folder()
        inside = [it[len(source) + 1 :] for it in self.files() if it.startswith(source + "/")]
        if inside:
            target, one = f"tags/{self.name()}", self.chance.choice(inside)
            change = self.chance.choice([["rm", f"{target}/{one}"], ["put", self.text(), f"{target}/{one}"]])
            self.commit("cp", "HEAD", source, target, *change)

    def replaced_in_branch(self):
        source, other = self.any_folder(), self.any_path()
        inside = [it[len(source) + 1 :] for it in self.trees[-1] if it.startswith(source + "/") and len(it) > len(source) + 1]
        if inside:
            target, one = f"tags/{self.name()}", self.chance.choice(inside).rstrip("/")
            self.commit("cp", "HEAD", source, target, "rm", f"{target}/{one}", "cp", "HEAD", other, f"{target}/{one}")

    def set_mergeinfo(self):
        lines = {}
        for _ in range(self.chance.randrange(1, 3)):
            first = self.chance.randrange(1, len(self.trees))
            last = self.chance.randrange(first, len(self.trees))
            lines[self.any_folder()] = f"{first}-{last}" if first < last else str(first) + self.chance.choice(["", "*"])
        value = "\n".join(f"/{path}:{numbers}" for path, numbers in sorted(lines.items()))
        self.commit("propset", "svn:mergeinfo", value, self.any_folder())

    def merge(self):
        """A directory is branched, the branch changed, and merged in a working copy."""
        source, branch = self.any_folder(), f"tags/{self.name()}"
        self.commit("cp", "HEAD", source, branch)
        self.commit("put", self.text(), f"{branch}/{self.name()}")
        copy = os.path.join(self.folder, "copy")
        for words in (
            ["checkout", f"{self.url}/{source}", copy],
            ["merge", "--accept", "working", f"^/{branch}", copy],
            ["commit", "-m", f"commit {len(self.trees)}", copy],
        ):
            ran("svn", words[0], "-q", "--non-interactive", *words[1:])
        shutil.rmtree(copy, ignore_errors=True)
        self.committed()

    def change_revision(self):
        number = str(len(self.trees) - 1)
        if self.chance.random() < 0.5:
            name = self.chance.choice(["svn:log", "svn:date", "svn:author"])
            call("svnadmin", "delrevprop", self.path, "-r", number, name)
        else:
            call("svnadmin", "setrevprop", self.path, "-r", number, "note", self.text())

    def live(self):
        self.begin()
        self.merge()
        kinds = [
            *[self.edit, self.create, self.set_property, self.branch] * 2,
            *[self.branch_all, self.rename, self.rename_top, self.rename_back, self.delete, self.delete_property],
            *[self.replace_by_new, self.replace_by_copy, self.replace_by_older, self.copy_older, self.bring_back],
            *[self.changed_copy, self.changed_branch, self.replaced_in_branch, self.set_mergeinfo, self.merge],
            self.change_revision,
        ]
        for _ in range(COMMITS):
            grows = len(self.trees[-1]) < PATHS
            self.chance.choice(kinds if grows and self.files() else [self.create, self.set_property, self.delete])()


Record = collections.namedtuple("Record", "headers properties text")


def property_list(block):
    """The properties of a block in order; one that is deleted has no value."""
    found, at = [], 0
    while block[at : at + 9] != b"PROPS-END":
        end = block.index(b"\n", at)
        kind, size = block[at:end].split(b" ")
        name = block[end + 1 : end + 1 + int(size)]
        at, value = end + 2 + int(size), None
        if kind == b"K":
            end = block.index(b"\n", at)
            size = int(block[at:end].split(b" ")[1])
            value = block[end + 1 : end + 1 + size]
            at = end + 2 + size
        found.append((name, value))
    return found


def records(dump):
    """The records of a dump that svnadmin wrote."""
    return (record for _, record in placed_records(dump))


def placed_records(dump):
    """The same, each with the byte at which it begins."""
    at = 0
    while at < len(dump):
        if dump[at : at + 1] == b"\n":
            at += 1
            continue
        place, end = at, dump.index(b"\n\n", at)
        headers = dict(line.split(b": ", 1) for line in dump[at:end].split(b"\n"))
        at = end + 2
        parts = []
        for name in (b"Prop-content-length", b"Text-content-length"):
            size = int(headers.get(name, 0))
            parts.append(dump[at : at + size] if name in headers else None)
            at += size
        yield place, Record(headers, None if parts[0] is None else property_list(parts[0]), parts[1])


def nodes_of(dump):
    """The paths of the nodes of each revision of a dump."""
    found = []
    for record in records(dump):
        if b"Revision-number" in record.headers:
            found.append([])
        elif b"Node-path" in record.headers:
            found[-1].append(record.headers[b"Node-path"])
    return found


# a directory has no text
Node = collections.namedtuple("Node", "properties text")


# a copy, or what it takes of one path to another
Copy = collections.namedtuple("Copy", "revision source number target")


def taken(copy, tree):
    """What a copy takes of the tree that has its source."""
    below = copy.source + b"/" if copy.source else b""
    for it in tree:
        if it == copy.source or it.startswith(below):
            rest = it[len(below) :] if it != copy.source else b""
            yield copy._replace(source=it, target=copy.target + b"/" + rest if rest else copy.target)


def copy_of(record, revision):
    """The copy that a node of a revision is, if it is one."""
    headers = record.headers
    if b"Node-copyfrom-path" not in headers:
        return None
    return Copy(revision, headers[b"Node-copyfrom-path"], int(headers[b"Node-copyfrom-rev"]), headers[b"Node-path"])


def step(trees, tree, record):
    """What a record makes of a tree, as svnadmin load does it with a dump that svnadmin wrote without deltas."""
    headers = record.headers
    path, action = headers[b"Node-path"], headers[b"Node-action"]
    if action in (b"delete", b"replace"):
        for it in [it for it in tree if it == path or it.startswith(path + b"/")]:
            del tree[it]
    if action in (b"add", b"replace"):
        copy = copy_of(record, len(trees) - 1)
        if copy:
            tree.update((it.target, trees[copy.number][it.source]) for it in taken(copy, trees[copy.number]))
        else:
            tree[path] = Node({}, None if headers[b"Node-kind"] == b"dir" else b"")
    if record.properties is not None:
        tree[path] = tree[path]._replace(properties=dict(record.properties))
    if record.text is not None:
        tree[path] = tree[path]._replace(text=record.text)


class History:
    """The trees and revision properties of a repository, the paths of each revision's nodes, and the copies, from its dump.

    Each copy has a list of all paths that it takes.
    """

    def __init__(self, repository, first=0):
        self.path = repository
        # the number of the first revision that was loaded into it, above 0 if that was a part of a history
        self.first = first
        self.trees, self.properties, self.nodes, self.copies, self.made = [], [], [], [], []
        tree = {b"": Node({}, None)}
        for record in records(call("svnadmin", "dump", "-q", repository)):
            if b"Revision-number" in record.headers:
                tree = dict(tree)
                self.trees.append(tree)
                self.properties.append(record.properties or [])
                self.nodes.append([])
            elif b"Node-path" in record.headers:
                step(self.trees, tree, record)
                self.nodes[-1].append(record.headers[b"Node-path"])
                copy = copy_of(record, len(self.trees) - 1)
                if copy:
                    self.copies.append((copy, list(taken(copy, self.trees[copy.number]))))
                elif record.headers[b"Node-action"] in (b"add", b"replace"):
                    self.made.append((len(self.trees) - 1, record.headers[b"Node-path"]))

    @functools.cached_property
    def markers(self):
        """The lines that are in one text alone, each with the paths that have that text."""
        found = {}
        for tree in self.trees:
            for path, node in tree.items():
                for marker in MARKER.findall(node.text or b""):
                    found.setdefault(marker, set()).add(path)
        return found

    def with_nodes_of(self, part):
        """With the nodes of the part that was loaded, since a node that changes nothing isn't in a dump of what it made."""
        self.nodes = [[], *nodes_of(part)]
        return self

    def dumped_as(self, dump):
        """The same history with the nodes of another dump of it: svnrdump writes no node for a change that changes nothing."""
        found = copying.copy(self)
        found.nodes = nodes_of(dump)
        return found

    def validate(self):
        """Sees that each tree is the one that svnadmin dumps whole; svnadmin omits the root's properties there."""
        for number, tree in enumerate(self.trees):
            whole = {b"": Node({}, None)}
            for record in records(call("svnadmin", "dump", "-q", "-r", str(number), self.path)):
                if b"Node-path" in record.headers:
                    step([], whole, record)
            if {**whole, b"": tree[b""]} != tree:
                raise RuntimeError(f"{self.path}: the tree of revision {number} isn't the one that svnadmin dumps")


class Call:
    """The words of a call, and what they mean by docs/FILTER.md."""

    def __init__(self, side, options, prefixes):
        self.words = [side, *options, *prefixes]
        self.include, self.options, self.given = side == "include", options, prefixes
        self.prefixes = [it.strip("/").encode() for it in prefixes]

    def keeps(self, path):
        bare = path[1:] if path.startswith(b"/") else path
        matches = any(it in (b"", bare) or bare.startswith(it + b"/") for it in self.prefixes)
        return matches == self.include

    def folders(self):
        """The directories that have to be there before the load, in order."""
        above = {it.rsplit(b"/", count)[0] for it in self.prefixes for count in range(1, it.count(b"/") + 1)}
        return sorted(it for it in above if not self.keeps(it)) if self.include else []

    def is_kept(self, number, nodes):
        if number == 0 or any(map(self.keeps, nodes)):
            return True
        if nodes:
            return not {"--drop-empty-revs", "--drop-all-empty-revs"} & set(self.options)
        return "--drop-all-empty-revs" not in self.options

    def revision_properties(self, properties, nodes):
        """Those of a kept revision."""
        is_padded = nodes and not any(map(self.keeps, nodes)) and "--preserve-revprops" not in self.options
        if not is_padded:
            return dict(properties)
        return {**{name: value for name, value in properties if name == b"svn:date"}, b"svn:log": PADDED_LOG}


class Excluded(Call):
    """Paths that svndumpcut excludes, and what the copies of a history do to them, by docs/CUT.md."""

    def __init__(self, paths):
        super().__init__("exclude", ["--preserve-revprops", "--skip-missing-merge-sources"], [])
        self.paths = set(paths)

    def keeps(self, path):
        names = path.removeprefix(b"/").split(b"/")
        return not any(b"/".join(names[:count]) in self.paths for count in range(len(names) + 1))

    def back(self, history):
        """What copies bring back."""
        everything = (it for _, some in history.copies for it in some)
        return [it for it in everything if self.keeps(it.target) and not self.keeps(it.source)]

    def status(self, history):
        """The status of a call."""
        return 3 if self.back(history) else 0

    def own_life(self, history, path):
        """The first revision in which something comes to be at the path that isn't a copy of excluded content, if any."""
        copied = [it.revision for _, some in history.copies for it in some if it.target == path and self.keeps(it.source)]
        return min(copied + [revision for revision, made in history.made if made == path], default=None)

    def deleted(self, history):
        """What is deleted after kept copies: the topmost paths of what they have only at their sources, by copy."""
        found = []
        for copy, some in history.copies:
            lost = {it.target for it in some if self.keeps(it.source) and not self.keeps(it.target)}
            if self.keeps(copy.target) and lost:
                found.append((copy, {it for it in lost if not any(is_below(it, other) for other in lost)}))
        return found

    def followed(self, history):
        """With all that copies bring back, until none does."""
        found = Excluded(self.paths)
        back = found.back(history)
        while back:
            found.paths.update(it.target for it in back)
            back = found.back(history)
        return found

    def counts(self, history):
        """How many revisions there are, how many are emptied, and how many nodes are kept and dropped."""
        kept = [[self.keeps(it) for it in some] for some in history.nodes]
        nodes = [it for some in kept for it in some]
        deletes = sum(len(paths) for _, paths in self.deleted(history))
        return len(kept), sum(bool(it) and not any(it) for it in kept), sum(nodes), len(nodes) - sum(nodes), deletes


class Kept(Excluded):
    """Paths that svndumpcut excludes with --keep-copies."""

    def status(self, history):
        """What comes back is written as additions, also if the dump has deltas of its texts."""
        return 0


class Included(Excluded):
    """Paths that svndumpcut includes, with the directories above them."""

    def covers(self, path):
        """Whether one of the paths is at or above it."""
        return not super().keeps(path)

    def is_above(self, path):
        """Whether one of the paths is below it. The root is above all."""
        return not path or any(is_below(it, path) for it in self.paths)

    def keeps(self, path):
        bare = path.removeprefix(b"/")
        return self.covers(bare) or self.is_above(bare)

    def status(self, history):
        """What comes back is written as additions, also if the dump has deltas of its texts."""
        return 0

    def followed(self, history):
        """With the sources of what copies bring to included paths, and their sources."""
        found = Included(self.paths)
        everything = [it for _, some in history.copies for it in some]
        more = [it for it in everything if found.covers(it.target) and not found.covers(it.source)]
        while more:
            found.paths.update(it.source for it in more)
            more = [it for it in everything if found.covers(it.target) and not found.covers(it.source)]
        return found


def mergeinfo(value):
    """What a value says: of each path its numbers, each with whether it is inherited. One that can't be read stays."""
    found = {}
    for line in filter(None, value.split(b"\n")):
        path, _, numbers = line.rpartition(b":")
        for part in filter(None, numbers.split(b",")):
            it = re.fullmatch(rb"(\d+)(?:-(\d+))?(\*?)", part)
            first, last = (int(it[1]), int(it[2] or it[1])) if it else (1, 0)
            if first > last:
                return value
            found.setdefault(path, set()).update((number, not it[3]) for number in range(first, last + 1))
    return found


class Meant:
    """The repository that is meant: the original's trees, restricted to the kept paths, by their loaded numbers."""

    def __init__(self, original, own):
        self.original, self.own = original, own
        self.folders = own.folders()
        kept = [number for number, nodes in enumerate(original.nodes) if own.is_kept(number, nodes)]
        # made directories take a revision of their own
        self.numbers = {number: place + bool(self.folders) for place, number in enumerate(kept)}

    def image(self, number):
        return self.numbers[max(it for it in self.numbers if it <= number)]

    def node(self, node):
        """A kept node as it is meant, with its mergeinfo as it is read."""
        properties = dict(node.properties)
        if MERGEINFO in properties:
            properties[MERGEINFO] = {}
            for path, numbers in mergeinfo(node.properties[MERGEINFO]).items():
                left = {(self.numbers[number], inherited) for number, inherited in numbers if number in self.numbers}
                if left and self.own.keeps(path):
                    properties[MERGEINFO][path] = left
        return node._replace(properties=properties)

    def tree(self, number):
        found = {path: Node({}, None) for path in self.folders}
        if not self.own.keeps(b""):
            found[b""] = Node({}, None)
        whole = self.original.trees[number]
        found.update((path, self.node(node)) for path, node in whole.items() if self.own.keeps(path))
        return found

    def wrong(self, loaded, in_parts=False):
        """What a loaded repository has otherwise, if there is anything. A load of a later part changes mergeinfo."""
        if len(loaded.trees) != len(self.numbers) + bool(self.folders):
            return f"{len(loaded.trees)} revisions are loaded"
        for number, (properties, nodes) in enumerate(zip(self.original.properties, self.original.nodes)):
            got, wanted = loaded.trees[self.image(number)], self.tree(number)
            if self.original.first > 1 or in_parts:
                got, wanted = without_mergeinfo(got), without_mergeinfo(wanted)
            else:
                got = {path: read_mergeinfo(node) for path, node in got.items()}
            for path in sorted({*got, *wanted}):
                if got.get(path) != wanted.get(path):
                    place = f"revision {number}, '{path.decode()}'"
                    return f"{place} is {got.get(path)}, and {wanted.get(path)} is meant"
            # revision 0's are lost if something was in the repository before, and a part of a history has none
            if number in self.numbers and not (number == 0 and (self.folders or self.original.first)):
                wanted = self.own.revision_properties(properties, nodes)
                got = dict(loaded.properties[self.image(number)])
                if got != wanted:
                    return f"revision {number} has the properties {got}, and {wanted} are meant"
        return None


def read_mergeinfo(node):
    if MERGEINFO not in node.properties:
        return node
    return node._replace(properties={**node.properties, MERGEINFO: mergeinfo(node.properties[MERGEINFO])})


def without_mergeinfo(tree):
    """The tree, in which mergeinfo has no value that is compared."""
    return {
        path: node._replace(properties={name: name == MERGEINFO or value for name, value in node.properties.items()})
        for path, node in tree.items()
    }


def load(folder, dump, folders, first=0, options=("--no-flush-to-disk", "--bypass-prop-validation")):
    """Loads a dump into a new repository over these directories, and returns it, or what svnadmin says."""
    path = os.path.join(folder, f"loaded{first or ''}")
    call("svnadmin", "create", path)
    if folders:
        made = [word for it in folders for word in ("mkdir", it.decode())]
        call("svnmucc", "--non-interactive", "-m", "Folders for the load.", "-U", "file://" + path, *made)
    it = ran("svnadmin", "load", "-q", *options, path, given=dump)
    if it.returncode != 0:
        return None, it.stderr.decode("utf-8", "replace").strip().splitlines()[-1]
    return History(path, first), None


class Refused:
    """A part of a history that svnadmin doesn't load."""

    def __init__(self, first, why):
        self.first, self.why = first, why


class Trial:
    """A dump, the words of a call, and what became of it."""

    def __init__(self, name, original, dump, words):
        self.name, self.original, self.dump, self.words = name, original, dump, words
        self.verdicts, self.why = [], None

    def fail(self, why):
        self.verdicts.append("failed")
        self.why = why
        return self

    def keep(self):
        """Keeps what a failed run was made of."""
        folder = path_to("build", "loaded_trees", self.name)
        os.makedirs(folder, exist_ok=True)
        with open(os.path.join(folder, "dump"), "wb") as it:
            it.write(self.dump)
        with open(os.path.join(folder, "args"), "w", encoding="utf-8") as it:
            it.write("".join(word + "\n" for word in self.words))
        return folder


class Run(Trial):
    """A run of the survey and of the filter."""

    def __init__(self, name, original, dump, own, is_validated):
        super().__init__(name, original, dump, own.words)
        self.own, self.is_validated, self.is_grown = own, is_validated, False

    def judge(self, built):
        """What becomes of it, and if the filter stops for fault 12, of it with the prefixes that the survey says to add."""
        told = ran(built["survey"], *self.words, given=self.dump)
        filtered = ran(built["filter"], *self.words, given=self.dump)
        if told.returncode not in (0, 1):
            return self.fail(f"the survey's status is {told.returncode}: {told.stderr.decode()}")
        faults = TOLD_FAULT.findall(told.stdout)
        if self.is_grown and any(number == b"12" for number, _ in faults):
            return self.fail("the survey still reports fault 12, with all the prefixes that it said to add")
        if filtered.returncode == 0:
            if faults:
                return self.fail("the survey tells a fault, and the filter has none")
            return self.compare(told, filtered.stdout)
        fault = FAULT.match(filtered.stderr)
        if not fault or (fault[1], fault[2]) not in faults:
            return self.fail(f"the survey has no line for it: {filtered.stderr.decode()}")
        self.verdicts.append(f"stopped by fault {int(fault[1])}")
        if fault[1] == b"12":
            self.grow(told.stdout.decode())
            self.judge(built)
        return self

    def grow(self, told):
        """Takes the prefixes too that the survey said to add."""
        side = self.words[0]
        self.own = Call(side, self.own.options, [*self.own.given, *AS_WELL[side].findall(told)])
        self.words, self.is_grown = self.own.words, True

    def compare(self, told, filtered):
        """Loads what was filtered, and compares it with what is meant."""
        if isinstance(self.original, Refused):
            if told.returncode == 0:
                return self.fail(f"the survey is silent, and the part isn't loaded: {self.original.why}")
            self.verdicts.append("told, and the part isn't loaded")
            return self
        meant = Meant(self.original, self.own)
        folders = FOLDER.findall(told.stdout)
        if sorted(folders) != meant.folders:
            return self.fail(f"the survey tells the folders {folders}, and {meant.folders} are meant")
        with tempfile.TemporaryDirectory(dir=MEMORY) as folder:
            loaded, why = load(folder, filtered, folders)
            if loaded:
                if self.is_validated:
                    loaded.validate()
                why = meant.wrong(loaded)
        if why and told.returncode == 0:
            return self.fail(f"the survey is silent, and {why}")
        self.verdicts.append(("told" if told.returncode else "silent") + (" and differing" if why else " and equal"))
        return self


class Cut(Trial):
    """Runs of svndumpcut on the dump of a whole repository, without and with --follow-copies or --keep-copies."""

    side = "exclude"

    def __init__(self, name, original, dump, given, place):
        super().__init__(name, original.dumped_as(dump), dump, [])
        self.given, self.is_dry, self.is_validated, self.place = given, place % 3 == 0, place % 10 == 0, place
        # how many paths --follow-copies adds, as it is said without it, and the last output that was right
        self.added, self.right = 0, None

    def judge(self, built):
        named = self.named(map(canonical, self.given))
        calls = [([], named), (["--follow-copies"], named.followed(self.original))]
        if self.side == "exclude" and named.back(self.original):
            calls.append((["--keep-copies"], Kept(named.paths)))
        for options, meant in calls:
            self.words = [self.side, *options, "--verbose", *self.given]
            answer = ran(built["cut"], *self.words, given=self.dump)
            why = self.wrong(answer, named, meant)
            if not why and self.is_dry:
                why = answer.returncode == 0 and self.wrong_dropped(built, meant)
                self.words.append("--dry-run")
                why = why or self.wrong_dry(built, answer)
            if not why and self.place % 3 == 1 and answer.returncode == 0:
                why = self.wrong_part(built, answer, meant)
            if why:
                return self.fail(why)
        return self

    def named(self, paths):
        """What these paths name."""
        return Excluded(paths)

    def wrong(self, answer, named, meant):
        """What is wrong with an answer to a call with some paths, if these are meant to be excluded or included."""
        status = meant.status(self.original)
        warnings = [found for it in (OWN_LIFE, FILE_PARENT, EMPTY_END) for found in it.findall(answer.stderr)]
        if answer.returncode != status or answer.stderr.count(b"warning") != len(warnings):
            return f"the status is {answer.returncode}, and {status} is meant: {answer.stderr.decode()}"
        if status and answer.stdout:
            return f"something is written with status {status}"
        why = self.wrong_added(answer.stderr, named, meant)
        if why or status:
            return why or self.wrong_back(answer.stderr, meant)
        if meant.back(self.original):
            return self.wrong_written(answer.stderr, meant) or self.wrong_output(answer, meant)
        return self.wrong_deleted(answer, meant) or self.wrong_output(answer, meant)

    def wrong_added(self, told, excluded, meant):
        """Each path that is listed has to come from excluded content, and all of them are those that are meant."""
        found, added = Excluded(excluded.paths), listed(ADDED, told)
        targets = [it.target for it in added]
        if targets != sorted(targets):
            return f"{targets} are not sorted"
        if not all(any(it in some for _, some in self.original.copies) for it in added):
            return f"no copy takes one of {added}"
        left = added
        while any(not found.keeps(it.source) for it in left):
            reached = [it for it in left if not found.keeps(it.source)]
            left = [it for it in left if it not in reached]
            found.paths.update(it.target for it in reached)
        if left:
            return f"{left} are listed, and are no copies of excluded content"
        if any(map(meant.keeps, found.paths)) or any(map(found.keeps, meant.paths)):
            return f"{sorted(found.paths)} are excluded, and {sorted(meant.paths)} are meant"
        lives = [(path, meant.own_life(self.original, path)) for path in targets]
        if [(path, int(revision)) for path, revision in OWN_LIFE.findall(told)] != [it for it in lives if it[1] is not None]:
            return f"{lives} had content of their own: {told.decode()}"
        said = [int(it) for it in ADDED_COUNT.findall(told)]
        if said != ([len(added)] if added else []) or len(added) != self.added * ("--follow-copies" in self.words):
            return f"{len(added)} paths are listed, {said} are announced, and {self.added} were without --follow-copies"
        return None

    def wrong_back(self, told, meant):
        """Each place that is listed has to be one, and all that copies bring back is at or below one."""
        places, said = listed(BACK, told), BACK_COUNT.search(told)
        if not said or int(said[1]) != len(places):
            return f"{len(places)} places are listed: {told.decode()}"
        self.added = int(said[2] or 0)
        left, why = self.not_listed(told, meant)
        if why or left:
            return why or f"{left} are brought back, and only {places} are listed"
        self.verdicts.append("not cut, since copies bring content back")
        return None

    def wrong_written(self, told, meant):
        """All that comes back and is kept has to be listed."""
        left, why = self.not_listed(told, meant)
        places, said = listed(BACK, told), KEPT_COUNT.search(told)
        if why or left or not said or len(places) != int(said[1].replace(b",", b"")):
            return why or f"{left} are not listed, of {len(places)} copies: {told.decode()}"
        return None

    def not_listed(self, told, meant):
        """What copies bring back that is not at or below a listed place, and what is wrong with the list, if something is."""
        back, places = meant.back(self.original), listed(BACK, told)
        found = Excluded(it.target for it in places)
        left = [it for it in back if found.keeps(it.target)]
        if not set(places) <= set(back):
            return left, f"nothing is brought back in {set(places) - set(back)}"
        for place, it in zip(places, BACK.finditer(told)):
            amount = self.amount(place, back)
            if it["amount"].decode().removesuffix(", changed in the copy") != amount:
                return left, f"{place} brings back {amount}: {told.decode()}"
        return left, None

    def amount(self, place, back):
        """How much is brought back in a place, as svndumpcut says it."""
        here = Excluded([place.source]), Excluded([place.target])
        some = {it for it in back if it._replace(source=b"", target=b"") == place._replace(source=b"", target=b"")}
        some = [it for it in some if not here[0].keeps(it.source) and not here[1].keeps(it.target)]
        # another copy of the same revision can be inside this one
        some = [it for it in some if it.source.removeprefix(place.source) == it.target.removeprefix(place.target)]
        texts = [self.original.trees[it.number][it.source].text for it in some]
        files = [len(it) for it in texts if it is not None]
        if not files:
            return f"{len(texts)} director{'y' if len(texts) == 1 else 'ies'}"
        said = f"{len(files)} file{'s' * (len(files) != 1)}"
        if self.dump.startswith(b"SVN-fs-dump-format-version: 3"):
            return said
        return f"{said}, {sum(files):,} byte{'s' * (sum(files) != 1)}"

    def wrong_deleted(self, answer, meant):
        """The lines and the output have to have each copy that is followed by deletes, and each delete."""
        deleted = meant.deleted(self.original)
        said = [int(it["count"]) for it in DELETED.finditer(answer.stderr)]
        if listed(DELETED, answer.stderr) != [copy for copy, _ in deleted] or said != [len(it) for _, it in deleted]:
            return f"{deleted} are meant: {answer.stderr.decode()}"
        for _, paths in deleted:
            for path in paths:
                if b"\nNode-path: " + path + b"\nNode-action: delete\n\n" not in answer.stdout:
                    return f"{path.decode()} is not deleted"
        return None

    def wrong_output(self, answer, meant):
        """What is wrong with what was written."""
        back = meant.back(self.original)
        why = self.wrong_counts(answer, meant, bool(back))
        if why:
            return why
        added = {it.source for it in back}
        for marker, paths in self.original.markers.items():
            if marker in answer.stdout and not any(map(meant.keeps, paths)) and added.isdisjoint(paths):
                return f"the output has '{marker.decode()}', which only excluded files have"
        if answer.stdout != self.right:
            with tempfile.TemporaryDirectory(dir=MEMORY) as folder:
                loaded, why = load(folder, answer.stdout, [], options=["--ignore-uuid"])
                if loaded and self.is_validated:
                    loaded.validate()
                why = why or Meant(self.original, meant).wrong(loaded)
            if why:
                return why
        self.right = answer.stdout
        how = ", with additions" if back else ", with deletes" if meant.deleted(self.original) else ""
        self.verdicts.append("cut and equal" + how)
        return None

    def wrong_counts(self, answer, meant, are_added):
        """What is wrong with the last line. Where copies are written as additions, the nodes are those of the output."""
        said, counts = CUT_COUNTS.search(answer.stderr), meant.counts(self.original)
        if not said or are_added != bool(said["replaced"]):
            return f"{counts} are meant: {answer.stderr.decode()}"
        got = {name: int(said[name] or 0) for name in (*COUNTS, "replaced", "written")}
        if not are_added and tuple(map(got.get, COUNTS)) == counts:
            return None
        all_nodes = counts[2] + counts[3] - got["replaced"] + got["written"]
        nodes = answer.stdout.count(b"\nNode-path: ")
        is_right = (got["kept"], got["emptied"], got["nodes"] + got["deletes"]) == (*counts[:2], nodes)
        if are_added and is_right and got["nodes"] + got["dropped"] == all_nodes:
            return None
        return f"{counts} are meant: {answer.stderr.decode()}"

    def wrong_dropped(self, built, meant):
        """With --drop-empty-revs the new repository lacks the emptied revisions, and is else the same."""
        it = ran(built["cut"], *self.words, "--drop-empty-revs", given=self.dump)
        own = type(meant)(meant.paths)
        own.options = [*own.options, "--drop-empty-revs"]
        with tempfile.TemporaryDirectory(dir=MEMORY) as folder:
            loaded, why = load(folder, it.stdout, [], options=["--ignore-uuid"])
            why = why or Meant(self.original, own).wrong(loaded)
        if it.returncode or why:
            return f"with --drop-empty-revs the status is {it.returncode}: {why}"
        self.verdicts.append("cut and equal, with dropped revisions")
        return None

    def wrong_part(self, built, answer, meant):
        """The part after a revision has to be that of the whole output, and has to load after the rest of it."""
        whole = answer.stdout
        revisions = [(place, it) for place, it in placed_records(whole) if b"Revision-number" in it.headers]
        numbers = [int(it.headers[b"Revision-number"]) for _, it in revisions]
        number = self.place // 3 % max(len(numbers), 1)
        if not numbers or numbers != list(range(len(numbers))):
            it = ran(built["cut"], *self.words, "--after", str(number), given=self.dump)
            is_right = it.returncode == 1 and not it.stdout and b"the revisions of the dump are not numbered" in it.stderr
            return None if is_right else f"with --after {number} the status is {it.returncode}: {it.stderr.decode()}"
        places = [place for place, _ in revisions] + [len(whole)]
        first, part = whole[: places[number + 1]], whole[: places[0]] + whole[places[number + 1] :]
        given = [place for place, it in placed_records(self.dump) if b"Revision-number" in it.headers] + [len(self.dump)]
        before = ran(built["cut"], *self.words, "--allow-missing", given=self.dump[: given[number + 1]])
        youngest = ["--youngest", str(numbers[-1])]
        it = ran(built["cut"], *self.words, "--after", str(number), *youngest, given=self.dump)
        if it.returncode == 3 and "--follow-copies" in self.words:
            return self.wrong_differing(it, number, self.dump[: given[number + 1]], before.stdout == first)
        if before.returncode or before.stdout != first:
            return f"the cut of the dump up to r{number} is not the first part of its cut: {before.stderr.decode()}"
        if it.returncode or it.stdout != part:
            return f"with --after {number} the status is {it.returncode}, and {len(part)} bytes are meant: {it.stderr.decode()}"
        said = CUT_COUNTS.search(it.stderr)
        nodes = int(said["nodes"]) + int(said["deletes"] or 0)
        if (int(said["kept"]), nodes) != (len(places) - 2 - number, part.count(b"\nNode-path: ")):
            return f"with --after {number}: {it.stderr.decode()}"
        with tempfile.TemporaryDirectory(dir=MEMORY) as folder:
            loaded, why = load(folder, first, [], options=["--ignore-uuid"])
            if not why:
                call("svnadmin", "load", "-q", "--ignore-uuid", loaded.path, given=part)
                why = Meant(self.original, meant).wrong(History(loaded.path), in_parts=True)
        self.verdicts.append("cut and equal, in two parts")
        return why and f"with --after {number}: {why}"

    def wrong_differing(self, it, number, first, is_same):
        """The paths that are listed have to be in the dump up to a revision, up to which its cut has to be another one."""
        said = DIFFERING.search(it.stderr)
        paths = [line[3:] for line in said[3].splitlines()] if said else []
        if it.stdout or not paths or (int(said[1]), int(said[2].replace(b",", b""))) != (number, len(paths)):
            return f"with --after {number} the status is 3: {it.stderr.decode()}"
        trees = self.original.trees[: number + 1]
        are_there = [any(path in tree for tree in trees) for path in paths]
        lines = [re.search(rb"^/" + re.escape(path) + rb"[/:]", first, re.MULTILINE) for path in paths]
        if is_same and any(are_there) or not all(a or b for a, b in zip(are_there, lines)):
            return f"up to r{number} the cuts do not differ at {paths}"
        self.verdicts.append("not cut in two parts, since the first one differs")
        return None

    def wrong_dry(self, built, answer):
        """A dry run has to answer the same, and to write nothing."""
        it = ran(built["cut"], *self.words, given=self.dump)
        if it.stdout or (it.returncode, it.stderr) != (answer.returncode, answer.stderr):
            return f"a dry run's status is {it.returncode}, with {len(it.stdout)} bytes: {it.stderr.decode()}"
        self.verdicts.append("dry and alike")
        return None


class CutIncluded(Cut):
    """The same of paths that are included."""

    side = "include"

    def named(self, paths):
        return Included(paths)

    def wrong_added(self, told, named, meant):
        """The listed paths have to be those that are meant, and what else is excluded has to be next to them."""
        added = list(INCLUDED.finditer(told))
        copies = [Copy(int(it["revision"]), it["source"], int(it["number"]), it["target"]) for it in added]
        paths = [it["path"] for it in added]
        if paths != sorted(paths) or paths != [it.source for it in copies]:
            return f"{paths} are not sorted, or not the sources of {copies}"
        if not all(any(it in some for _, some in self.original.copies) for it in copies):
            return f"no copy takes one of {copies}"
        found = Included({*named.paths, *paths})
        if not all(map(meant.covers, found.paths)) or not all(map(found.covers, meant.paths)):
            return f"{sorted(found.paths)} are included, and {sorted(meant.paths)} are meant"
        said = [int(it) for it in INCLUDED_COUNT.findall(told)]
        if said != ([len(added)] if added else []) or self.added and meant is not named and self.added != len(added):
            return f"{len(added)} paths are listed, {said} are announced, and {self.added} were without --follow-copies"
        return self.wrong_parents(told, meant) or self.wrong_others(told, meant)

    def wrong_written(self, told, meant):
        """All that comes back has to be listed, but for directories above included paths, which are counted."""
        left, why = self.not_listed(told, meant)
        places, said = listed(BACK, told), WRITTEN_COUNT.search(told)
        if why or len(places) != (int(said[1].replace(b",", b"")) if said else 0):
            return why or f"{len(places)} copies are listed: {told.decode()}"
        others = [it for it in left if meant.covers(it.target) or not meant.is_above(it.target)]
        # another copy to a listed path may be one of parents alone
        if others or left and not PARENTS_COUNT.search(told):
            return f"{left} are not listed: {told.decode()}"
        return None

    def wrong_parents(self, told, meant):
        """A directory above included paths that is a file at the end of a revision is reported, with the first of them."""
        said = {path: int(revision) for path, revision in FILE_PARENT.findall(told)}
        for number, tree in enumerate(self.original.trees):
            for path, node in tree.items():
                if node.text is not None and meant.is_above(path) and not said.get(path, number + 1) <= number:
                    return f"{path.decode()} is a file in r{number}: {told.decode()}"
        return None

    def wrong_others(self, told, meant):
        """No path is listed as excluded that is meant to be kept, and each other one is at or below a listed one."""
        others = OTHERS.search(told)
        if b"nothing written" in told:
            return None
        paths = [it[3:] for it in others[2].splitlines()] if others else []
        if others and int(others[1].replace(b",", b"")) != len(paths) or any(map(meant.keeps, paths)):
            return f"{paths} are listed as excluded"
        found = Excluded(paths)
        left = [it for tree in self.original.trees for it in tree if found.keeps(it) and not meant.keeps(it)]
        return f"{left[0].decode()} is not excluded" if left else None


class CutOther(Trial):
    """A run of svndumpcut on a dump of another form: on a part of a history, or on one whose numbers have gaps."""

    def judge(self, built):
        it = ran(built["cut"], *self.words, given=self.dump)
        if not are_gaps_reported(self.dump, it):
            return self.fail(f"the dump's gaps are not reported: {it.stderr.decode()}")
        with tempfile.TemporaryDirectory(dir=MEMORY) as folder:
            first = int(FIRST.search(self.dump)[1])
            original, refusal = load(folder, self.dump, [], first, ["--ignore-uuid"])
            if refusal and MERGEINFO_REFUSED.search(refusal):
                self.verdicts.append("not judged, since svnadmin rejects its mergeinfo")
                return self
            why = self.wrong(it, original, os.path.join(folder, "cut")) if original else self.wrong_refused(it)
        return self.fail(f"{why}: {it.stderr.decode()}") if why else self

    def wrong_refused(self, it):
        """What is wrong with the answer, if svnadmin rejects the dump."""
        if it.returncode != 1 or it.stdout or not UNLOADED.search(it.stderr):
            return f"svnadmin rejects the dump, and the status is {it.returncode}, with {len(it.stdout)} bytes"
        self.verdicts.append("not cut, since svnadmin rejects it")
        return None

    def wrong(self, it, original, folder):
        """The same, if the dump gives this history."""
        named = {"exclude": Excluded, "include": Included}[self.words[0]]
        meant = named(canonical(path) for path in self.words[1:] if path[0] != "-")
        if "--follow-copies" in self.words:
            meant = meant.followed(original)
        status = meant.status(original)
        if it.returncode != status or it.returncode and it.stdout:
            return f"the status is {it.returncode}, and {status} is meant, with {len(it.stdout)} bytes"
        if it.returncode:
            self.verdicts.append("not cut, since copies of another dump bring content back")
            return None
        os.mkdir(folder)
        loaded, why = load(folder, it.stdout, [], options=["--ignore-uuid"])
        why = why or Meant(original, meant).wrong(loaded)
        if not why:
            self.verdicts.append("another dump cut and equal")
        return why


class CutSpoiled(Trial):
    """A run of svndumpcut on a dump that was spoiled: it has to say so."""

    def __init__(self, name, dump, words, is_reported):
        super().__init__(name, None, dump, words)
        self.is_reported = is_reported

    def judge(self, built):
        it = ran(built["cut"], *self.words, given=self.dump)
        if it.returncode and it.stdout or not self.is_reported(it):
            return self.fail(f"the status is {it.returncode}, with {len(it.stdout)} bytes: {it.stderr.decode()}")
        self.verdicts.append("spoiled dump reported")
        return self


def is_below(path, other):
    """Whether a path is strictly below another one."""
    return path != other and path.startswith(other + b"/" if other else b"")


def canonical(path):
    """A prefix as svndumpcut reads it."""
    return "/".join(it for it in path.split("/") if it not in ("", ".")).encode()


def listed(pattern, told):
    """What svndumpcut lists of copies."""
    found = pattern.finditer(told)
    return [Copy(int(it["revision"]), it["source"], int(it["number"]), it["target"]) for it in found]


def prefixes(trees, side, chance):
    """Some paths that were there at some time; under include, often all at the top but one; rarely the root."""
    if chance.random() < 0.03:
        return ["/"]
    ever = sorted({path.rstrip("/") for tree in trees for path in tree})
    tops = [it for it in ever if "/" not in it]
    if side == "include" and chance.random() < 0.4:
        return chance.sample(tops, max(1, len(tops) - chance.randrange(1, 3)))
    high = [it for it in ever if it.count("/") < 2]
    some = [chance.choice(chance.choice([tops, high, ever])) for _ in range(chance.choice([1, 1, 2, 3]))]
    return [chance.choice([it, it, it, f"/{it}/"]) for it in dict.fromkeys(some)]


def cut_prefixes(history, chance):
    """One to three paths that were there at some time, of all kinds, or such that no copy takes; rarely the root."""
    if chance.random() < 0.02:
        return ["/"]
    ever = {path: node for tree in history.trees for path, node in sorted(tree.items()) if path}
    kinds = [
        [it for it in ever if b"/" not in it],
        [it for it in ever if it.startswith(b"tags/") and it.count(b"/") == 1],
        [it for it, node in ever.items() if node.text is None],
        [it for it, node in ever.items() if node.text is not None],
        [it.target for _, some in history.copies for it in some],
        [it.source for _, some in history.copies for it in some],
    ]
    copied = {it for _, some in history.copies for taken in some for it in (taken.source, taken.target)}
    if chance.random() < 0.2 and not copied.issuperset(ever):
        kinds = [[it for it in ever if it not in copied]]
    some = [chance.choice(chance.choice(list(filter(None, kinds)))) for _ in range(chance.choice([1, 1, 2, 3]))]
    paths = [it.decode() or "/" for it in dict.fromkeys(some)]
    return [chance.choice([it, it, it, f"/{it}/", f"./{it}", it.replace("/", "//")]) for it in paths]


def make_runs(number, seed, folder, tried):
    """Makes a repository, and the runs over its dumps."""
    chance = random.Random(f"{seed} {number}")
    own = os.path.join(folder, str(number))
    os.mkdir(own)
    life = Life(own, chance)
    life.live()
    original = History(life.path)
    original.validate()
    plain = call("svnadmin", "dump", "-q", life.path)
    deltas = call("svnadmin", "dump", "-q", "--deltas", life.path)
    remote = call("svnrdump", "dump", "-q", life.url)
    name, dumps, runs = f"{seed}-{number}", [plain, plain, deltas], []
    if "filter" in tried:
        for place in range(RUNS):
            side = chance.choice(["include", "exclude"])
            words = Call(side, chance.choice(OPTIONS), prefixes(life.trees, side, chance))
            runs.append(Run(f"{name}-{place}", original, chance.choice(dumps), words, place % 10 == 0))
        runs += part_runs(name, life, own, chance)
    if "cut" in tried:
        runs += cut_runs(f"{name}-cut", original, [plain, deltas, remote], random.Random(f"{name} cut"))
    return runs


def part_runs(name, life, folder, chance):
    """The runs over parts of a repository's history, each of which svnadmin loads."""
    runs = []
    for first in [1, *chance.sample(range(2, len(life.trees)), PARTS - 1)]:
        dump = ["svnadmin", "dump", "-q", "-r", f"{first}:HEAD", life.path, *chance.choice([[], [], ["--deltas"]])]
        if first == 1:
            dump.append("--incremental")
        part = call(*dump)
        original, why = load(folder, part, [], first)
        original = original.with_nodes_of(part) if original else Refused(first, why)
        for place in range(PART_RUNS):
            side = chance.choice(["include", "exclude"])
            words = Call(side, chance.choice(OPTIONS), prefixes(life.trees, side, chance))
            runs.append(Run(f"{name}-{first}-{place}", original, part, words, place == 0))
    return runs


def cut_runs(name, original, dumps, chance):
    """The runs of svndumpcut over a repository, and over parts of its history."""
    runs = []
    for place in range(CUTS):
        for kind in Cut, CutIncluded:
            given = cut_prefixes(original, chance)
            runs.append(kind(f"{name}-{kind.side}-{place}", original, chance.choice(dumps), given, place))
    for place, dump in enumerate([*parts_of(original, chance), *dumps_with_gaps(original, dumps, chance)]):
        side = chance.choice(["exclude", "include"])
        words = [side, "--allow-missing", *chance.choice([[], ["--follow-copies"]]), *cut_prefixes(original, chance)]
        runs.append(CutOther(f"{name}-other-{place}", original, dump, words))
    for place, (dump, copy) in enumerate(dumps_copied_over(dumps, chance)):
        near = [os.path.dirname(copy.target).decode() or "/", copy.source.decode()]
        words = chance.choice([["include", *near], ["include", *near], ["exclude", *cut_prefixes(original, chance)]])
        runs.append(CutOther(f"{name}-over-{place}", original, dump, words))
    for place, (dump, options, is_reported) in enumerate(spoiled_dumps(dumps, chance)):
        words = [chance.choice(["exclude", "include"]), "--quiet", *options, *cut_prefixes(original, chance)]
        runs.append(CutSpoiled(f"{name}-spoiled-{place}", dump, words, is_reported))
    return runs


def parts_of(original, chance):
    """Dumps of parts of a history."""
    for first in chance.sample(range(2, len(original.trees)), CUT_PARTS):
        last = chance.randrange(first, len(original.trees))
        more = [it for it in ("--deltas", "--incremental") if chance.random() < 0.3]
        yield call("svnadmin", "dump", "-q", "-r", f"{first}:{last}", *more, original.path)


def dumps_with_gaps(original, dumps, chance):
    """Dumps that lack the revisions that lost all of their nodes."""
    program = programs()["filter"].built
    for _ in range(CUT_GAPS):
        words = ["exclude", "--drop-empty-revs", "--skip-missing-merge-sources", *cut_prefixes(original, chance)]
        it = ran(program, *words, given=chance.choice(dumps))
        if it.returncode == 0:
            yield it.stdout


def dumps_copied_over(dumps, chance):
    """Dumps in which copies are made over what exists, without the nodes before them that delete it; and one such copy."""
    for _ in range(CUT_OVERS):
        dump, left, overs = chance.choice(dumps), [], []
        placed = [*placed_records(dump), (None, None)]
        for (place, record), (after, following) in zip(placed, placed[1:]):
            if following and is_delete(record) and is_copy_to(following, record.headers[b"Node-path"]):
                overs.append(copy_of(following, None))
            else:
                left.append(dump[place:after])
        if overs:
            yield dump[: placed[0][0]] + b"".join(left), chance.choice(overs)


def spoiled_dumps(dumps, chance):
    """Dumps that end early, that lack revisions and that have some twice, each with options and with what says whether this is
    reported."""
    missing = ["--allow-missing"]
    for _ in range(CUT_SPOILED):
        dump = chance.choice(dumps)
        placed = list(placed_records(dump))
        begins = [(place, int(it.headers[b"Revision-number"])) for place, it in placed if b"Revision-number" in it.headers]
        places, numbers = [place for place, _ in begins], [number for _, number in begins]
        first = chance.randrange(1, len(numbers) - 1)
        last = chance.randrange(first, len(numbers) - 1)
        behind = min((place for place, _ in placed if place > places[first]), default=len(dump))
        yield dump[:behind], missing, functools.partial(ends_with, numbers[first])
        early, youngest = dump[: places[first]], numbers[-1]
        yield early, ["--youngest", str(youngest)], functools.partial(ends_before, numbers[first - 1], youngest)
        lacking_some = dump[: places[first]] + dump[places[last + 1] :]
        yield lacking_some, missing, functools.partial(are_gaps_reported, lacking_some)
        yield dump + dump[places[first] :], missing, lambda it: it.returncode == 1 and DISORDER.search(it.stderr)


def ends_with(number, answer):
    """Whether it is reported that a dump ends with this revision, which is empty."""
    return EMPTY_END.findall(answer.stderr) == [b"%d" % number]


def ends_before(number, youngest, answer):
    """Whether a dump that ends with this revision is not cut, since another one is meant to be the youngest."""
    said = b"svndumpcut: the dump ends at r%d, and --youngest is %d: it is not whole\n" % (number, youngest)
    return answer.returncode == 1 and answer.stderr == said


def are_gaps_reported(dump, answer):
    """Whether it is reported which numbers a dump lacks between others: one gap, or how many numbers in several."""
    numbers = [int(it.headers[b"Revision-number"]) for it in records(dump) if b"Revision-number" in it.headers]
    gaps = [(one + 1, other - 1) for one, other in zip(numbers, numbers[1:]) if other > one + 1]
    one = [(b"%d" % first, b"%d" % last if first < last else b"") for first, last in gaps] if len(gaps) == 1 else []
    several = [f"{sum(last - first + 1 for first, last in gaps):,}".encode()] if len(gaps) > 1 else []
    return HOLE.findall(answer.stderr) == one and HOLES.findall(answer.stderr) == several


def is_delete(record):
    return record.headers.get(b"Node-action") == b"delete"


def is_copy_to(record, path):
    return record.headers.get(b"Node-path") == path and b"Node-copyfrom-path" in record.headers


def main(words):
    built = {word: it.built for word, it in programs().items()}
    seed, tried = int(words[0]) if words else 1, words[1:] or ["filter", "cut"]
    why = left_out()
    if why:
        print(f"tests/check_loaded_trees.py: left out, since {why}")
        return 0
    verdicts = collections.Counter()
    with tempfile.TemporaryDirectory(dir=MEMORY) as folder, concurrent.futures.ThreadPoolExecutor(os.cpu_count()) as pool:
        made = list(pool.map(lambda number: make_runs(number, seed, folder, tried), range(REPOSITORIES)))
        runs = [run for some in made for run in some]
        for run in pool.map(lambda run: run.judge(built), runs):
            verdicts.update(run.verdicts)
            if run.why:
                print(f"{run.name}, {' '.join(run.words)}: {run.why}; kept in {run.keep()}")
    for verdict, count in sorted(verdicts.items()):
        print(f"tests/check_loaded_trees.py: {count} {verdict}")
    return ended(verdicts.total() - verdicts["failed"], verdicts["failed"])


sys.exit(main(sys.argv[1:]))
