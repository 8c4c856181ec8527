#!/usr/bin/env python3
"""Sees that each definition has one name, each name one definition, and each lemma a use.

    tests/check_names.py

It fails if two crates define a public name in their specs/. It fails too if two definitions of specs/, or the bodies of two
functions of src/, are equal but for their own names and those of their parameters and variables. Bodies of one line or of less
than 40 characters, and tests, are not compared. Copies that are known are in tests/known_copies.txt. One that is no longer there is an error as well, so that the
list only gets shorter.

And it fails if only its own proof, and imports, have the name of a lemma of proofs/, unless the lemma is a worked value. Since
names are compared, a lemma with the name of one that is used is missed. The last line is 'N passed, M failed'.
"""
import collections
import glob
import os
import re
import sys

sys.path.insert(0, os.path.join(os.path.dirname(__file__), "..", "tools"))
from repository import ended, lines_of, path, read

# the line that begins a definition, directly in a file or in a module or a block of definitions that name each other
DEFINITION = re.compile(r"^(?:  )?((?:(?:abbrev|unfoldable|opaque|pub|record|data) )+)(?!mod )([^\s:({]+)")
FUNCTION = re.compile(r"^( *)(?:pub(?:\([a-z]+\))? |const )*fn (\w+)")
# the line that begins a lemma, with its name
LEMMA = re.compile(r"^( *)(?:(?:abbrev|pub|record|data) )*([^\s:({]+) :(?: |$)")
# what no other proof uses: worked values, and the answers to goals
UNUSED = re.compile(r"/values/|Values\.antt$|/(?:Answers|Invariants|Proof)\.antt$")
NAME = re.compile(r"[^\s(){}\[\];,.]+")
# a name of Rust, a field or a method with its dot, a part of a path with its colons, or another mark
TOKEN = re.compile(r"\"[^\"]*\"|(?:\.|::)?[A-Za-z_]\w*|\S")
# a name of a definition, a field with its dot, or another mark
NAME_OR_MARK = re.compile(r"\"[^\"]*\"|\.?[^\W\d][\w'₀-₉-]*|\S")
# the line of a field or of a case
PART = re.compile(r"^ +(?:pub )?([\w'₀-₉-]+) :(?: |$)", re.MULTILINE)
RUST = set("as break continue else false fn for if in let loop match mut move ref return self true while unreachable".split())
# names that are no parameters of a definition
WORDS = {"abbrev", "pub", "record", "data", "where", "module", "mutual", "let", "in", "if", "then", "else", "opaque", "unfoldable"}
KNOWN = "tests/known_copies.txt"
LEAST = 40


def files(pattern):
    """The crate and the text of each file that a pattern names."""
    for it in sorted(glob.glob(path(pattern), recursive=True)):
        name = os.path.relpath(it, path())
        yield name.split(os.sep)[1], name, read(name)


def definitions(text):
    """The name, the words before it and the text of each definition of a file, without comments."""
    found, depth = [], 0
    for line in text.splitlines():
        line = re.sub(r"(^|\s)-- .*", "", line)
        indent, words = len(line) - len(line.lstrip()), line.split()
        if not words or words[0] in ("use", "mod", "module") or words[:2] in (["pub", "use"], ["pub", "mod"]):
            depth = 2 if words[:1] == ["module"] else depth
            continue
        if indent == 0:
            depth = 2 if words[-1] == "mutual" else 0
        head = DEFINITION.match(line)
        if head and indent == depth:
            found.append((head[2], head[1].split(), []))
        if found:
            found[-1][2].append(line)
    return [(name, words, "\n".join(lines)) for name, words, lines in found]


def functions(text):
    """The name, the parameters and the body of each function of a file that has a body of several lines."""
    head, body, words = None, None, ""
    for line in text.splitlines():
        begins = FUNCTION.match(line)
        if body is not None:
            if line == head[1] + "}":
                yield head[2], re.findall(r"[(,]\s*(?:mut )?(\w+):", words), "\n".join(body)
                head, body = None, None
            else:
                body.append(line)
        elif begins or head:
            head, words = begins or head, line if begins else words + line
            # the brace is in the first line, alone after a contract, or after the result's type below all parameters
            if line == head[1] + "{" or line.endswith("{") and (begins or line.startswith(head[1] + ")")):
                body = []


def numbered(tokens, is_own, first=()):
    """Tokens in one line, with a number in place of each of those that are names of one's own; the first numbers are of these."""
    found = {it: number for number, it in enumerate(first)}
    return " ".join(f"#{found.setdefault(it, len(found))}" if is_own(it) else it for it in tokens)


def without_names(name, text, known):
    """A definition in one line, with marks in place of its name and of those that are neither known in its file nor its parts."""
    tokens, parts = ["◆" if it == name else it for it in NAME_OR_MARK.findall(text)], set(PART.findall(text))
    return numbered(tokens, lambda it: re.match(r"[^\W\d]", it) and it not in known | parts)


def without_variables(parameters, body):
    """A function's body in one line, with numbers in place of its variables: names in small letters that nothing is called by."""
    tokens = TOKEN.findall(body)
    called = {it for it, after in zip(tokens, tokens[1:]) if after in ("(", "!", "{", ":") or after.startswith("::")}
    return numbered(tokens, lambda it: re.match(r"[a-z_]\w*$", it) and it not in called | RUST, parameters)


def known_names(text):
    """The names that a file of specs/ imports or defines."""
    imported = re.findall(r"^(?:pub )?use [^{;\n]*\{([^}]*)\}", text, re.MULTILINE)
    names = {it.split(" as ")[-1].strip() for group in imported for it in group.split(",")}
    defined = {name for name, _, _ in definitions(text)}
    return names | defined | set(re.findall(r"^use \S+ as (\w+)", text, re.MULTILINE)) | WORDS


def defined_twice():
    """A sentence for each public name that two crates define."""
    found = {}
    for crate, file, text in files("crates/*/specs/**/*.antt"):
        for name, words, _ in definitions(text):
            if "pub" in words:
                found.setdefault(name, {}).setdefault(crate, file)
    return [f"{name} is defined in two crates: {', '.join(it.values())}" for name, it in sorted(found.items()) if len(it) > 1]


def copies():
    """What is equal but for its name, as lines of the list of known copies."""
    found = {}
    for crate, _, text in files("crates/*/specs/**/*.antt"):
        known = known_names(text)
        for name, _, body in definitions(text):
            found.setdefault(("definition", without_names(name, body, known)), []).append(f"{crate}::{name}")
    for crate, file, text in files("crates/*/src/**/*.rt"):
        for name, parameters, body in functions(text) if "tests" not in re.split(r"[/.]", file) else []:
            if len(" ".join(body.split())) >= LEAST:
                found.setdefault(("function", without_variables(parameters, body)), []).append(f"{crate}::{name}")
    return {" ".join([kind, *sorted(names)]) for (kind, _), names in found.items() if len(names) > 1}


def lemmas(text):
    """The name of each lemma of a file, and how often its own proof has the name; and how often the file has each name."""
    own, words, present = [], collections.Counter(), None
    for line in text.splitlines():
        line = re.sub(r"(^|\s)--.*", "", line)
        if not line.strip() or re.match(r" *(?:pub )?use ", line):
            continue
        indent, names = len(line) - len(line.lstrip()), NAME.findall(line)
        words.update(names)
        inside = present and (indent > present[0] or names and names[0] == present[1])
        head = None if inside else LEMMA.match(line)
        if head:
            present = indent, head[2]
            own.append([head[2], 0])
        if head or inside:
            own[-1][1] += names.count(present[1])
        else:
            present = None
    return own, words


def unused():
    """A sentence for each lemma that nothing names but its own proof."""
    words, own = collections.Counter(), []
    for _, file, text in files("crates/*/proofs/**/*.antt"):
        found, there = lemmas(text)
        words += there
        own += [] if UNUSED.search(file) else [(file, name, count) for name, count in found]
    # a function can name a lemma for its tactic, and a page names laws
    for pattern in "crates/*/src/**/*.rt", "docs/*.md":
        for name in sorted(glob.glob(path(pattern), recursive=True)):
            words.update(re.findall(r"[\w'-]+", read(name)))
    return [f"{file}: nothing uses {name}" for file, name, count in own if words[name] <= count]


def main():
    known, there = set(lines_of(KNOWN)), copies()
    new = [f"these are equal but for their names: {it}" for it in sorted(there - known)]
    gone = [f"{KNOWN} has copies that are no longer there: {it}" for it in sorted(known - there)]
    checks = [defined_twice(), new, gone, unused()]
    for sentence in sum(checks, []):
        print(f"tests/check_names.py: {sentence}")
    failed = sum(bool(it) for it in checks)
    return ended(len(checks) - failed, failed)


sys.exit(main())
