#!/usr/bin/env python3
"""Makes a case from a sketch of its dump, or prints the dump.

    tests/new_case.py TOPIC/NAME [ARGUMENT..] < SKETCH
    tests/new_case.py < SKETCH > DUMP

A sketch is a dump that may have a question mark in place of each number of bytes and each digest: after
Prop-content-length, Text-content-length, Content-length, Text-content-md5 and Text-content-sha1, and after K, V and D. A
line that begins with Node-path, Revision-number, UUID or SVN-fs-dump-format-version begins a record. The text of a node ends
two line feeds before the next record, as svnadmin writes it. Numbers that the sketch has stay, right or wrong:

    Node-path: trunk/file
    Node-kind: file
    Node-action: add
    Prop-content-length: ?
    Text-content-length: ?
    Content-length: ?

    K ?
    svn:executable
    V ?
    *
    PROPS-END
    the text

The case has then the dump as stdin, and args. What each program makes of it is written by hand: tests/run_cases.py says in
which files.
"""
import hashlib
import os
import re
import sys

sys.path.insert(0, os.path.join(os.path.dirname(__file__), "..", "tools"))
from repository import cases, path

FIRST = re.compile(rb"^(?=(?:Node-path|Revision-number|UUID|SVN-fs-dump-format-version): )", re.MULTILINE)
LINE = re.compile(rb"[KVD] (\?|\d+)|PROPS-END")


class Unclear(Exception):
    """A sketch from which no dump can be made."""


def filled_block(block):
    """A block of properties with the numbers that its sketch lacks. A value ends where a line begins the next entry."""
    lines, found = block.split(b"\n"), []
    while lines:
        line = lines.pop(0)
        if re.fullmatch(rb"[KVD] \?", line):
            count = next((at for at, it in enumerate(lines) if LINE.fullmatch(it)), len(lines))
            text = b"\n".join(lines[:count])
            found += [b"%s %d" % (line[:1], len(text)), text]
            lines = lines[count:]
        else:
            found.append(line)
    return b"\n".join(found)


def filled(record):
    """A record with the numbers and digests that its sketch lacks."""
    header, blank, rest = record.partition(b"\n\n")
    block, text = b"", rest
    if b"\nProp-content-length: " in header:
        block, end, text = rest.partition(b"PROPS-END\n")
        if not end:
            raise Unclear(f"the block of properties has no last line PROPS-END: {record!r}")
        block = filled_block(block + end)
    behind = b"\n\n" if text.endswith(b"\n\n") else b"\n" if text.endswith(b"\n") else b""
    content = text.removesuffix(behind)
    known = {
        b"Prop-content-length": len(block),
        b"Text-content-length": len(content),
        b"Content-length": len(block + content),
        b"Text-content-md5": hashlib.md5(content).hexdigest(),
        b"Text-content-sha1": hashlib.sha1(content).hexdigest(),
    }
    for name, value in known.items():
        header = re.sub(rb"(?m)^%s: \?$" % name, b"%s: %s" % (name, str(value).encode()), header)
    if re.search(rb"(?m)^\S+: \?$", header):
        raise Unclear(f"a question mark stands for something else than a number of bytes or a digest: {header!r}")
    return header + blank + block + text


def dump(sketch):
    return b"".join(map(filled, FIRST.split(sketch)))


def make(place, words, text):
    """Makes the case of this topic and name; why it cannot be made, if it cannot."""
    topic, _, name = place.partition("/")
    topics = sorted({it.topic for it in cases().values()})
    if topic not in topics or not re.fullmatch("[a-z0-9_]+", name):
        return f"a case is TOPIC/NAME, with one of the topics {', '.join(topics)}, and a name of small letters, digits and _"
    if name in cases():
        return f"there is a case {name} in {cases()[name].topic}"
    folder = path("tests", "cases", topic, name)
    os.mkdir(folder)
    for part, value in (("stdin", text), ("args", "".join(it + "\n" for it in words).encode())):
        with open(os.path.join(folder, part), "wb") as it:
            it.write(value)
    print(f"made tests/cases/{place}; write PROGRAM.status and what else it wants by hand, as tests/run_cases.py says")
    return None


def main(words):
    try:
        text = dump(sys.stdin.buffer.read())
    except Unclear as why:
        print(f"tests/new_case.py: {why}", file=sys.stderr)
        return 1
    if not words:
        sys.stdout.buffer.write(text)
        return 0
    why = make(words[0], words[1:], text)
    if why:
        print(f"tests/new_case.py: {why}", file=sys.stderr)
    return 1 if why else 0


sys.exit(main(sys.argv[1:]))
