#!/usr/bin/env python3
"""Writes a dump of format version 2 to standard output. The same arguments give the same bytes.

    bench/make_dump.py [--revisions N] [--nodes N] [--text BYTES] [--copies SHARE] [--mergeinfo SHARE] [--seed N]
        [--chain N] [--fan N] [--tagged N] [--tags N] [--size BYTES] [--deltas] [--beside N] [--renames N]

Revision 1 adds the directories trunk and other, so that the dump loads. Each revision after revision 0 has --nodes nodes
more, half of them under trunk and half under other. A node is a file with
a text of about --text bytes and its two digests, or, for a share of --copies, a directory that is copied from an
earlier revision, or, for a share of --mergeinfo, a change of trunk's mergeinfo.
After these come as many copies as --chain says, one a revision, each of what the one before it made; all but the last
are under other, and that is trunk/last. And as many as --fan says, each of a directory of its own of other into trunk.
With --tagged revision 1 also has this many files, in a hundred directories under trunk, and each later revision changes one of
them, or, as often as --tags says, copies trunk to a tag. With --size these files have random texts of this size, of which a
change replaces a hundredth. With --deltas the format version is 3, and their texts are deltas, as svnadmin dump --deltas
writes them.
With --beside revision 1 also has a directory beside with this many files, and each later revision changes one of them. After
all these come as many renames of a directory with a file as --renames says, one a revision, and then fifty copies of trunk.
"""
import argparse
import hashlib
import random
import sys


def entry(name, value):
    return b"K %d\n%s\nV %d\n%s\n" % (len(name), name, len(value), value)


def number_bytes(number):
    """A number in a delta: seven bits a byte, the highest first."""
    rest = [number % 128]
    while number >= 128:
        number //= 128
        rest.append(number % 128 + 128)
    return bytes(reversed(rest))


def delta(old, new, at, size):
    """The delta, of one window, of a text in which so many bytes at a place are other ones; or are all, if there was none."""
    after, data = at + size, new[at : at + size] if old else new
    words = [b"\x80" + number_bytes(len(data))]
    if old:
        words = [b"\0" + number_bytes(at) + number_bytes(0), *words, b"\0" + number_bytes(len(old) - after) + number_bytes(after)]
    instructions = b"".join(words)
    sizes = [0, len(old), len(new), len(instructions), len(data)]
    return b"SVN\0" + b"".join(map(number_bytes, sizes)) + instructions + data


def record(lines, properties=None, text=None, end=b"\n\n", as_delta=None):
    """A record of these lines, with the lengths of what follows them: a text, or the delta that makes it."""
    body = b""
    if properties is not None:
        body = b"".join(entry(name, value) for name, value in properties) + b"PROPS-END\n"
        lines = lines + [b"Prop-content-length: %d" % len(body)]
    if as_delta is not None:
        lines = lines + [b"Text-delta: true"]
    if text is not None:
        stored = text if as_delta is None else as_delta
        lines = lines + [
            b"Text-content-length: %d" % len(stored),
            b"Text-content-md5: " + hashlib.md5(text).hexdigest().encode(),
            b"Text-content-sha1: " + hashlib.sha1(text).hexdigest().encode(),
        ]
        body += stored
    if body:
        lines = lines + [b"Content-length: %d" % len(body)]
    return b"".join(line + b"\n" for line in lines) + b"\n" + body + end


def revision(number):
    date = b"2024-01-02T03:%02d:%02d.000000Z" % (number // 60 % 60, number % 60)
    return record(
        [b"Revision-number: %d" % number],
        [(b"svn:date", date), (b"svn:author", b"someone"), (b"svn:log", b"Revision %d." % number)],
        end=b"\n",
    )


def copy(path, number, source):
    return record(
        [
            b"Node-path: " + path,
            b"Node-kind: dir",
            b"Node-action: add",
            b"Node-copyfrom-rev: %d" % number,
            b"Node-copyfrom-path: " + source,
        ]
    )


def directory(path):
    return record([b"Node-path: " + path, b"Node-kind: dir", b"Node-action: add"], [])


def node(chance, number, index, arguments):
    side = b"trunk" if index % 2 == 0 else b"other"
    kind = chance.random()
    if number > 1 and kind < arguments.copies:
        return copy(b"%s/tag%d-%d" % (side, number, index), chance.randrange(1, number), side)
    if kind < arguments.copies + arguments.mergeinfo:
        odd = range(1, number + 1, 2)
        ranges = sorted(chance.sample(odd, min(len(odd), 8)))
        value = b"/trunk:" + b",".join(b"%d" % it for it in ranges)
        lines = [b"Node-path: trunk", b"Node-kind: dir", b"Node-action: change"]
        return record(lines, [(b"svn:mergeinfo", value)])
    size = chance.randrange(arguments.text // 2, arguments.text * 3 // 2 + 1)
    lines = [b"Node-path: %s/file%d-%d" % (side, number, index), b"Node-kind: file", b"Node-action: add"]
    return record(lines, [], chance.randbytes(size))


def copies(first, chain, fan):
    """A revision for each copy of a chain, and then of a fan."""
    for index in range(chain):
        path = b"trunk/last" if index == chain - 1 else b"other/link%d" % (index + 1)
        yield revision(first + index) + copy(path, first + index - 1, b"other/link%d" % index)
    first += chain
    for index in range(fan):
        yield revision(first + index) + copy(b"trunk/copy%d" % index, first + index - 1, b"other/source%d" % index)


def tagged(number):
    return b"trunk/dir%d/file%d" % (number % 100, number)


def first_text(number, chance, arguments):
    """The text of a tagged file, and its delta, if deltas are wanted."""
    text = chance.randbytes(arguments.size) if arguments.size else b"file %d\n" % number
    return text, delta(b"", text, 0, len(text)) if arguments.deltas else None


def next_text(old, number, chance, arguments):
    """The same after a change: some bytes are others, or all are."""
    if not arguments.size:
        text = b"changed in %d\n" % number
        return text, delta(b"", text, 0, len(text)) if arguments.deltas else None
    size = arguments.size // 100 + 1
    at = chance.randrange(1, arguments.size - size)
    text = old[:at] + chance.randbytes(size) + old[at + size :]
    return text, delta(old, text, at, size) if arguments.deltas else None


def first_files(texts, chance, arguments):
    """The directories and files of revision 1 other than trunk and other; the texts of tagged files are added to these."""
    if arguments.tagged or arguments.renames:
        yield directory(b"tags")
    if arguments.tagged:
        yield from (directory(b"trunk/dir%d" % number) for number in range(100))
    for number in range(arguments.tagged):
        lines = [b"Node-path: " + tagged(number), b"Node-kind: file", b"Node-action: add"]
        text, its_delta = first_text(number, chance, arguments)
        texts.append(text)
        yield record(lines, [], text, as_delta=its_delta)
    if arguments.beside:
        yield directory(b"beside")
    for number in range(arguments.beside):
        lines = [b"Node-path: beside/name%d" % number, b"Node-kind: file", b"Node-action: add"]
        yield record(lines, [], b"file %d\n" % number)
    if arguments.renames:
        yield directory(b"trunk/name0")
        yield record([b"Node-path: trunk/name0/file", b"Node-kind: file", b"Node-action: add"], [], b"file\n")


def tagged_node(number, texts, chance, arguments):
    """A tag, or a change of one of the tagged files, which have these texts."""
    step = max(1, arguments.revisions // max(1, arguments.tags))
    if number % step == 0 and number // step <= arguments.tags:
        return copy(b"tags/tag%d" % (number // step), number - 1, b"trunk")
    place = number * 7919 % arguments.tagged
    lines = [b"Node-path: " + tagged(place), b"Node-kind: file", b"Node-action: change"]
    texts[place], its_delta = next_text(texts[place], number, chance, arguments)
    return record(lines, None, texts[place], as_delta=its_delta)


def beside_node(number, arguments):
    """A change of one of the files in one directory."""
    lines = [b"Node-path: beside/name%d" % (number * 7919 % arguments.beside), b"Node-kind: file", b"Node-action: change"]
    return record(lines, None, b"changed in %d\n" % number)


def renames(first, count):
    """A revision for each rename of a directory, and then for each copy of trunk."""
    for index in range(count):
        old, new = b"trunk/name%d" % index, b"trunk/name%d" % (index + 1)
        yield revision(first + index) + copy(new, first + index - 1, old) + record([b"Node-path: " + old, b"Node-action: delete"])
    first += count
    for index in range(50 if count else 0):
        yield revision(first + index) + copy(b"tags/copy%d" % index, first + index - 1, b"trunk")


def main():
    parser = argparse.ArgumentParser()
    parser.add_argument("--revisions", type=int, default=1000)
    parser.add_argument("--nodes", type=int, default=10)
    parser.add_argument("--text", type=int, default=10000)
    parser.add_argument("--copies", type=float, default=0.0)
    parser.add_argument("--mergeinfo", type=float, default=0.0)
    parser.add_argument("--seed", type=int, default=1)
    parser.add_argument("--chain", type=int, default=0)
    parser.add_argument("--fan", type=int, default=0)
    parser.add_argument("--tagged", type=int, default=0)
    parser.add_argument("--tags", type=int, default=0)
    parser.add_argument("--size", type=int, default=0)
    parser.add_argument("--deltas", action="store_true")
    parser.add_argument("--beside", type=int, default=0)
    parser.add_argument("--renames", type=int, default=0)
    arguments = parser.parse_args()
    chance = random.Random(arguments.seed)
    out = sys.stdout.buffer
    out.write(b"SVN-fs-dump-format-version: %d\n\n" % (3 if arguments.deltas else 2))
    out.write(b"UUID: 7bf7a5ef-cabf-0310-b7d4-93df341afa7e\n\n")
    out.write(revision(0))
    texts = []
    for number in range(1, arguments.revisions + 1):
        out.write(revision(number))
        if number == 1:
            out.write(directory(b"trunk") + directory(b"other"))
            out.writelines(first_files(texts, chance, arguments))
        if arguments.tagged and number > 1:
            out.write(tagged_node(number, texts, chance, arguments))
        if arguments.beside and number > 1:
            out.write(beside_node(number, arguments))
        for index in range(arguments.nodes):
            out.write(node(chance, number, index, arguments))
    out.writelines(copies(arguments.revisions + 1, arguments.chain, arguments.fan))
    out.writelines(renames(arguments.revisions + arguments.chain + arguments.fan + 1, arguments.renames))


main()
