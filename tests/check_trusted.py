#!/usr/bin/env python3
"""Lists the definitions that the statements need, and compares them with the lists in docs/TRUSTED.md.

    tests/check_trusted.py [--print]

It begins with the names in the clauses of tests/statements.txt, and follows each name to its definition and from there to the
names in that one. Each section has its files, each after those that it needs. With --print it writes the lists. The files of
the lists have these definitions and no others, and are directly in a crate's specs/; all other definitions are in
specs/steps/. The last line is 'N passed, M failed'.
"""
import functools
import os
import re
import sys

sys.path.insert(0, os.path.join(os.path.dirname(__file__), "..", "tools"))
from repository import ended, libraries, lines_of, path as path_to, read

BEGIN = "<!-- the definitions of the statements, by tests/check_trusted.py --print -->\n"
END = "<!-- the end of the definitions -->\n"
CRATES = sorted(libraries())
OWN = f"Rattle\\.({'|'.join(CRATES)})\\.specs\\."
# `use M.{a, b as c}` and `use M as c`, of the modules of this repository
USE = re.compile(rf"^[ ]*(?:ghost |pub )*use {OWN}([\w.-]+?)(?:\.\{{([^}}]*)\}}|[ ]as[ ](\S+?));?$", re.MULTILINE)
FUNCTION = re.compile(r"^pub fn (\w+)(.*?)^\{", re.DOTALL | re.MULTILINE)
# where a clause of a contract begins, and the name of one that says what is true afterwards
CLAUSE = re.compile(r"^    (?=requires\b|ensures\b)", re.MULTILINE)
ENSURES = re.compile(r"ensures (?:(\w+) )?\{")
# the line that begins a definition, and a word
HEAD = re.compile(r"(?:(?:abbrev|pub|unfoldable|opaque|record|data) )+([^\s:({]+)")
WORD = re.compile(r"[^\s(){};,.]+")


def meanings(text):
    """What each word that a text imports names: a crate, the path of a module, and a name there, if it isn't the module."""
    found = {}
    for crate, path, names, alias in USE.findall(text):
        if alias:
            found[alias] = crate, path, None
        for name in (it.strip() for it in names.split(",")):
            word, _, other = name.partition(" as ")
            if word:
                found[other or word] = crate, path, word
    return found


def meant(text, known):
    """What the imported words of a text mean; of a module under another name, its words that the text uses."""
    found = []
    for word in sorted(set(WORD.findall(text)) & set(known)):
        crate, path, name = known[word]
        below = re.findall(rf"(?<![^\s(){{}};,]){re.escape(word)}\.([^\s(){{}};,.]+)", text)
        found += [(crate, path, name)] if name else [(crate, path, it) for it in sorted(set(below))]
    return found


class File:
    """A file of definitions: the text of each, with the head of the module that it is in."""

    def __init__(self, crate, path):
        self.crate, self.path = crate, path
        text = read("crates", crate, "specs", path.replace(".", "/") + ".antt")
        self.meanings, self.texts = meanings(text), {}
        module, depth, name = "", 0, None
        for line in text.splitlines():
            indent, words = len(line) - len(line.lstrip()), line.split()
            if not words or words[0] in ("use", "--") or line.startswith("pub use"):
                continue
            if indent and words[0] == "module":
                raise SystemExit(f"tests/check_trusted.py: {crate}, {path}: a module in a module, whose names are not seen")
            if indent == 0:
                module, depth = (line, 2) if words[0] == "module" else ("", 2 if words[-1] == "mutual" else 0)
            head = HEAD.match(line.strip())
            if head and indent == depth and words[0] != "module":
                name = head[1]
                self.texts[name] = module
            if name and words[0] != "module":
                self.texts[name] += "\n" + line.partition("-- ")[0]

    def uses(self, name):
        """What the words of a definition mean: other definitions of the file, and imports."""
        text, here = self.texts[name], (self.crate, self.path)
        return [(*here, it) for it in self.texts if it in WORD.findall(text)] + meant(text, self.meanings)


@functools.cache
def file(crate, path):
    return File(crate, path)


def at(crate, path, name):
    """The file and the definition that a path and a name of a module mean: what it names, or what has it as a part."""
    parts = [*path.split("."), *([name] if name else [])]
    for count in range(len(parts), 0, -1):
        if os.path.isfile(path_to("crates", crate, "specs", *parts[:count]) + ".antt"):
            return ".".join(parts[:count]), parts[count] if count < len(parts) else None
    raise SystemExit(f"tests/check_trusted.py: there is no module {path} in the definitions of {crate}")


class Needed:
    """The definitions that were found to be needed, each with those that it uses, and the types of the sources."""

    def __init__(self):
        self.names, self.types = {}, set()

    def follow(self, crate, path, name):
        """Adds a definition and all that it needs."""
        if path.startswith("declared."):
            self.types.add((crate, re.sub("[.]The(Variants|Views|Constants)$", "", path).split(".")[-1]))
            return
        path, name = at(crate, path, name)
        here = file(crate, path)
        if (crate, path, name) not in self.names and name in here.texts:
            self.names[crate, path, name] = here.uses(name)
            for used in here.uses(name):
                self.follow(*used)

    def files(self):
        """Their files, each after those that its definitions need."""
        found, seen = [], set()

        def visit(crate, path):
            if (crate, path) not in seen:
                seen.add((crate, path))
                for definition, used in self.names.items():
                    for below in used if definition[:2] == (crate, path) else []:
                        if not below[1].startswith("declared."):
                            visit(below[0], at(*below)[0])
                found.append((crate, path))

        for crate, path, _ in self.names:
            visit(crate, path)
        return found

    def follow_function(self, text, name, clause=None):
        """Adds what the signature of a function of a source needs, or one clause of it with what it requires."""
        signature = dict(FUNCTION.findall(text))[name]
        if clause:
            parts = [it for it in CLAUSE.split(signature)[1:] if it.startswith("requires") or ENSURES.match(it)[1] == clause]
            if not any(it.startswith("ensures") for it in parts):
                raise SystemExit(f"tests/check_trusted.py: {name} has no clause {clause}")
            signature = "".join(parts)
        for used in meant(signature, meanings(text)):
            self.follow(*used)

    def lines(self):
        """How many lines these definitions have, without comments."""
        return sum(file(crate, path).texts[name].count("\n") for crate, path, name in self.names)

    def counts(self):
        return f"{len(self.names)} definitions, {self.lines()} lines"


class Statement:
    """A line of tests/statements.txt: a crate, a source, a function or all, and a clause if not the whole contract."""

    def __init__(self, crate, source, function, clause=None):
        self.crate, self.source, self.function, self.clause = crate, source, function, clause

    def name(self):
        clause = f"the clause `{self.clause}` of " if self.clause else ""
        return f"the laws of `{self.crate}`" if self.function == "*" else f"{clause}`{self.function}` of `{self.crate}`"

    def follow(self, found):
        text = read("crates", self.crate, "src", self.source + ".rt")
        for name in dict(FUNCTION.findall(text)) if self.function == "*" else [self.function]:
            found.follow_function(text, name, self.clause)


class Section:
    """A section of the page: its title, its statements, and what these need."""

    def __init__(self, title):
        self.title, self.statements, self.found = title, [], Needed()

    def add(self, statement, whole):
        self.statements.append(statement)
        statement.follow(self.found)
        statement.follow(whole)

    def page(self):
        alone = Needed()
        self.statements[0].follow(alone)
        lines = [f"- {it.name()}" for it in self.statements]
        if self.statements[0].clause:
            lines[0] += f": {alone.counts()}"
        statements = "\n".join(lines)
        return f"### {self.title}\n\n{statements}\n\nneed {self.found.counts()}:\n\n{listed(self.found)}"


def needed():
    """The sections of the page, and all that they need."""
    sections, whole = [], Needed()
    for line in lines_of("tests/statements.txt"):
        if line.startswith("["):
            sections.append(Section(line.strip("[]")))
        else:
            sections[-1].add(Statement(*line.split()), whole)
    return sections, whole


def entry(found, crate, path):
    """A file of a list, with those of its definitions that are needed if it has others."""
    all_names = list(file(crate, path).texts)
    names = [it for it in all_names if (crate, path, it) in found.names]
    return f"`{path}`" + ("" if names == all_names else f" ({', '.join(f'`{it}`' for it in names)})")


def listed(found):
    """A line for each run of files of a crate, in the order in which they can be read."""
    lines, last = [], None
    for crate, path in found.files():
        if crate == last:
            lines[-1] += ", " + entry(found, crate, path)
        else:
            lines.append(f"- `{crate}`: {entry(found, crate, path)}")
        last = crate
    return "\n".join(lines) + "\n"


def page(sections, found):
    types = {}
    for crate, name in sorted(found.types):
        types.setdefault(crate, []).append(f"`{name}`")
    text = f"\nAll sections together have {found.counts()}.\n\n" + "\n".join(it.page() for it in sections)
    text += "\n### Types of the sources that these definitions speak of\n\n"
    return text + "".join(f"- `{crate}`: {', '.join(names)}\n" for crate, names in types.items()) + "\n"


def modules(crate):
    """The files of definitions directly in a crate's specs/, but for those that only name other files."""
    folder = path_to("crates", crate, "specs")
    names = os.listdir(folder) if os.path.isdir(folder) else []
    return {name.removesuffix(".antt") for name in names if name.endswith(".antt")} - {"Lib", "steps"}


def misplaced(found):
    """A sentence for each definition that is in the wrong directory."""
    unneeded, wanted = "no statement needs it", "a statement needs it"
    wrong = []
    for crate in CRATES:
        for path in sorted(modules(crate)):
            for name in file(crate, path).texts:
                if (crate, path, name) not in found.names:
                    wrong.append(f"crates/{crate}/specs/{path}.antt: {name}: {unneeded}, so it belongs into specs/steps/")
    for crate, path, name in found.names:
        if path.startswith("steps."):
            wrong.append(f"crates/{crate}/specs/{path.replace('.', '/')}.antt: {name}: {wanted}, so it belongs right into specs/")
    return wrong


def main(words):
    sections, found = needed()
    wanted = page(sections, found)
    if words == ["--print"]:
        print(wanted, end="")
        return 0
    told = read("docs", "TRUSTED.md").partition(BEGIN)[2].partition(END)[0]
    wrong = misplaced(found)
    for sentence in wrong:
        print(f"tests/check_trusted.py: {sentence}")
    if told != wanted:
        print("tests/check_trusted.py: the lists in docs/TRUSTED.md are others than those of tests/check_trusted.py --print")
    failed = int(told != wanted) + int(bool(wrong))
    return ended(2 - failed, failed)


sys.exit(main(sys.argv[1:]))
