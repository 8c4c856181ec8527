#!/usr/bin/env python3
"""Runs the filter on very long and malformed dumps, on closed, full and slow streams, with little memory and on one core.

    tests/hostile_input.py [TEXT]

With TEXT only the tests whose names have it are run. Each run is bounded in time. Whatever happens, the program ends by
itself with an exit status and a message of its manual page, and its output is the first part of the right one. The last
line is 'N passed, M failed'.
"""
import os
import random
import re
import resource
import subprocess
import sys
import tempfile
import threading
import time

sys.path.insert(0, os.path.join(os.path.dirname(__file__), "..", "tools"))
from repository import ended, path, programs

PROGRAM = programs()["filter"].built
SECONDS = 120
MEGABYTE = 1_000_000
VERSION = b"SVN-fs-dump-format-version: 2\n\n"
EMPTY_BLOCK = b"PROPS-END\n"
TESTS = []


def test(function):
    TESTS.append(function)
    return function


class Wrong(Exception):
    pass


def revision(number):
    return b"Revision-number: %d\nProp-content-length: 10\nContent-length: 10\n\nPROPS-END\n\n" % number


def node(path, block=EMPTY_BLOCK, more=b""):
    return b"Node-path: %s\nNode-kind: dir\nNode-action: add\n%sProp-content-length: %d\nContent-length: %d\n\n%s\n\n" % (
        path,
        more,
        len(block),
        len(block),
        block,
    )


def entry(name, value):
    return b"K %d\n%s\nV %d\n%s\n" % (len(name), name, len(value), value)


def counts(revisions, nodes, dropped=0):
    return b"revisions kept %d, dropped 0; nodes kept %d, dropped %d; texts checked 0\n" % (revisions, nodes, dropped)


def fault(number, name, record, place):
    return b"svndumpfilter: fault %d %s in record %d at byte %d\n" % (number, name, record, place)


FAILED = re.compile(rb"svndumpfilter: failure (20 Sink|21 Memory|22 Threads|24 Source) after ([0-9]+) bytes\n")


def call(words, stdin=b"", **more):
    more = {"stdout": subprocess.PIPE, "stderr": subprocess.PIPE, "timeout": SECONDS, **more}
    source = {"input": stdin} if isinstance(stdin, bytes) else {"stdin": stdin}
    try:
        return subprocess.run([PROGRAM, *words], **source, **more)
    except subprocess.TimeoutExpired as late:
        raise Wrong(f"it had not ended after {SECONDS} seconds") from late


def expect(got, wanted, what):
    if got != wanted:
        shown = [it if it is None or isinstance(it, int) or len(it) < 200 else f"{len(it)} bytes" for it in (got, wanted)]
        raise Wrong(f"{what} {shown[0]!r}, wanted {shown[1]!r}")


def gives(stdin, status, stdout, stderr, words=("include", "/"), **more):
    """Runs, and compares all three."""
    ran = call(list(words), stdin, **more)
    expect(ran.stderr, stderr, "standard error")
    expect(ran.returncode, status, "status")
    expect(ran.stdout, stdout, "standard output")


def keeps(dump, revisions, nodes, words=("include", "/")):
    gives(dump, 0, dump, counts(revisions, nodes), words)


@test
def a_hundred_megabytes_of_line_feeds():
    gives(b"\n" * (100 * MEGABYTE), 1, b"", fault(1, b"HeaderCut", 0, 100 * MEGABYTE))


@test
def one_line_of_a_hundred_megabytes():
    gives(b"x" * (100 * MEGABYTE), 1, b"", fault(1, b"HeaderCut", 0, 0))
    gives(VERSION + b"a: " + b"x" * (100 * MEGABYTE) + b"\n", 1, VERSION, fault(1, b"HeaderCut", 1, len(VERSION)))


@test
def fifty_megabytes_of_lines_and_no_empty_one():
    gives(VERSION + b"X-a: b\n" * (50 * MEGABYTE // 7), 1, VERSION, fault(1, b"HeaderCut", 1, len(VERSION)))


@test
def a_million_unknown_headers():
    more = b"".join(b"X-%d: \n" % number for number in range(1_000_000))
    keeps(VERSION + revision(0) + revision(1) + node(b"trunk", more=more), 2, 1)


@test
def a_million_properties():
    block = b"".join(entry(b"p%d" % number, b"v") for number in range(1_000_000)) + EMPTY_BLOCK
    keeps(VERSION + revision(0) + revision(1) + node(b"trunk", block), 2, 1)


@test
def a_million_bare_revisions():
    keeps(VERSION + b"".join(b"Revision-number: %d\n\n\n" % number for number in range(1_000_000)), 1_000_000, 0)


@test
def a_hundred_thousand_mergeinfo_properties():
    block = entry(b"svn:mergeinfo", b"/trunk:1") * 100_000 + EMPTY_BLOCK
    dump = VERSION + revision(0) + revision(1) + node(b"trunk") + revision(2) + node(b"trunk/a", block)
    keeps(dump, 3, 2)
    words = ["include", "--renumber-revs", "--drop-empty-revs", "trunk"]
    keeps(dump, 3, 2, words)


def ranges(kinds):
    """The shortest list of the numbers from 1 up, each with a star or without one."""
    parts, first = [], 0
    for last, kind in enumerate(kinds):
        if last + 1 == len(kinds) or kinds[last + 1] != kind:
            text = str(first + 1) if first == last else f"{first + 1}-{last + 1}"
            parts.append(text + ("*" if kind else ""))
            first = last + 1
    return ",".join(parts).encode()


@test
def three_hundred_thousand_ranges_of_two_kinds_in_no_order():
    chance = random.Random(1)
    kinds = [chance.random() < 0.5 for _ in range(300_000)]
    parts = [str(number + 1) + ("*" if kind else "") for number, kind in enumerate(kinds)]
    chance.shuffle(parts)
    before = VERSION + revision(0) + revision(1)
    given = node(b"trunk", entry(b"svn:mergeinfo", b"/trunk:" + ",".join(parts).encode()) + EMPTY_BLOCK)
    wanted = node(b"trunk", entry(b"svn:mergeinfo", b"/trunk:" + ranges(kinds)) + EMPTY_BLOCK)
    gives(before + given, 0, before + wanted, counts(2, 1))


@test
def five_thousand_prefixes():
    prefixes = [f"p{number:04}" for number in range(5_000)]
    kept = [node(f"p{number:04}/a".encode()) for number in range(0, 5_000, 7)]
    left = [node(f"q{number:04}/a".encode()) for number in range(0, 5_000, 7)]
    before = VERSION + revision(0) + revision(1)
    dump = before + b"".join(one + other for one, other in zip(kept, left))
    gives(dump, 0, before + b"".join(kept), counts(2, len(kept), len(left)), ["include", *prefixes])
    gives(dump, 0, before + b"".join(left), counts(2, len(left), len(kept)), ["exclude", *prefixes])


@test
def a_path_of_ten_megabytes():
    path = b"trunk" + b"/a" * (5 * MEGABYTE)
    dump = VERSION + revision(0) + revision(1) + node(path)
    keeps(dump, 2, 1, ["include", "trunk"])
    keeps(dump, 2, 1, ["exclude", "trunks", "trunk/b", "a"])
    padded = VERSION + revision(0) + revision(1)
    gives(dump, 0, padded, counts(2, 0, 1), ["exclude", "--preserve-revprops", "trunk/a"])


# A dump of this many revisions with a kept node each, some 300 bytes a revision.
def small_dump(revisions):
    groups = [revision(number) + node(b"trunk/%d" % number) for number in range(1, revisions)]
    return VERSION + revision(0) + b"".join(groups)


UNREAD = b"svndumpfilter: failure 24 Source after 0 bytes\n"
SINK = b"svndumpfilter: failure 20 Sink after %d bytes\n"


@test
def a_folder_as_input():
    folder = os.open(path("tests"), os.O_RDONLY)
    try:
        gives(folder, 1, b"", UNREAD)
    finally:
        os.close(folder)


def without(number):
    """Closes a stream of the program before it starts."""
    return {"preexec_fn": lambda: os.close(number)}


@test
def a_closed_input():
    gives(subprocess.DEVNULL, 1, b"", UNREAD, **without(0))


@test
def a_closed_output():
    ran = call(["include", "/"], small_dump(10), **without(1))
    expect((ran.returncode, ran.stderr), (1, SINK % 0), "status and standard error")


@test
def a_closed_standard_error():
    dump = small_dump(10)
    ran = call(["include", "/"], dump, **without(2))
    expect((ran.returncode, ran.stdout), (0, dump), "status and standard output")
    ran = call(["include", "/"], dump + b"junk", **without(2))
    expect((ran.returncode, ran.stdout), (1, dump), "status and standard output")


@test
def a_full_device():
    with open("/dev/full", "wb") as full:
        for dump in small_dump(10), small_dump(10_000):
            ran = call(["include", "/"], dump, stdout=full)
            expect((ran.returncode, ran.stderr), (1, SINK % 0), "status and standard error")


def broken_off(words, dump, after, pause=0.0):
    """Reads this many bytes of the output, with the given pauses, and breaks off; returns all that the run left."""
    with tempfile.TemporaryFile() as source, tempfile.TemporaryFile() as errors:
        source.write(dump)
        source.seek(0)
        process = subprocess.Popen([PROGRAM, *words], stdin=source, stdout=subprocess.PIPE, stderr=errors)
        late = threading.Timer(SECONDS, process.kill)
        late.start()
        got = b""
        while len(got) < after:
            time.sleep(pause)
            some = os.read(process.stdout.fileno(), min(4096, after - len(got)))
            if not some:
                break
            got += some
        process.stdout.close()
        status = process.wait()
        late.cancel()
        errors.seek(0)
        return status, got, errors.read()


@test
def a_pipe_that_breaks_off():
    dump = small_dump(20_000)
    for after in [0, 1, 100, 65_536, 1_000_000]:
        status, got, line = broken_off(["include", "/"], dump, after)
        told = FAILED.fullmatch(line)
        expect(status, 1, "status")
        if not told or told[1] != b"20 Sink" or int(told[2]) < len(got):
            raise Wrong(f"standard error {line!r} after {len(got)} bytes")
        expect(got, dump[:after], "what was read")


@test
def a_pipe_that_is_read_slowly():
    dump = small_dump(400)
    status, got, line = broken_off(["include", "--window", "1", "--workers", "64", "/"], dump, len(dump) + 1, 0.01)
    expect((status, got, line), (0, dump, counts(400, 399)), "the run")


def limited(words, dump, wanted, kilobytes):
    """Runs with this much memory for its addresses: it filters all, or fails with a first part."""
    limit = kilobytes * 1024
    set_limit = lambda: resource.setrlimit(resource.RLIMIT_AS, (limit, limit))
    ran = call(words, dump, preexec_fn=set_limit)
    if ran.returncode == 0:
        expect(ran.stdout, dump, "standard output")
        expect(ran.stderr, wanted, "standard error")
        return True
    told = FAILED.fullmatch(ran.stderr)
    if ran.returncode != 1 or not told or told[1] not in (b"21 Memory", b"22 Threads"):
        raise Wrong(f"status {ran.returncode}, standard error {ran.stderr!r} with {kilobytes} KB")
    if ran.stdout != dump[: int(told[2])]:
        raise Wrong(f"{len(ran.stdout)} bytes arrived with {kilobytes} KB, and {ran.stderr!r}")
    return False


@test
def little_memory():
    dump = small_dump(20_000)
    for workers in "1", "4", "64":
        words = ["include", "--workers", workers, "/"]
        sizes = [limited(words, dump, counts(20_000, 19_999), 1000 * size) for size in [10, 15, 20, 30, 50, 100, 200, 400, 1000]]
        if sizes[0] or not sizes[-1]:
            raise Wrong(f"the sizes were not from too little to enough: {sizes}")


def on_one_core():
    os.sched_setaffinity(0, {min(os.sched_getaffinity(0))})


@test
def many_workers_on_one_core():
    chance = random.Random(1)
    clean = small_dump(300)
    for dump, status, line in [
        (clean, 0, counts(300, 299)),
        (clean + b"junk", 1, fault(1, b"HeaderCut", 600, len(clean))),
    ]:
        for _ in range(20):
            workers, window = str(chance.choice([1, 2, 7, 64])), str(chance.choice([1, 2, 3, 64]))
            words = ["include", "--workers", workers, "--window", window, "/"]
            gives(dump, status, clean, line, words, preexec_fn=on_one_core)
    for _ in range(20):
        after = chance.randrange(len(clean))
        status, got, line = broken_off(["include", "--workers", "64", "--window", "1", "/"], small_dump(3000), after, 0.001)
        if status != 1 or not FAILED.fullmatch(line) or not small_dump(3000).startswith(got):
            raise Wrong(f"status {status}, {line!r} after {len(got)} bytes")


def main(words):
    passed = failed = 0
    for function in TESTS:
        name = function.__name__
        if words and words[0] not in name:
            continue
        start = time.perf_counter()
        try:
            function()
            passed += 1
            verdict = "passed"
        except Wrong as wrong:
            failed += 1
            verdict = f"FAILED: {wrong}"
        print(f"{name}: {verdict} ({time.perf_counter() - start:.1f} s)", flush=True)
    return ended(passed, failed)


sys.exit(main(sys.argv[1:]))
