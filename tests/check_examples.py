#!/usr/bin/env python3
"""Runs each example of the manual pages and of README as it is, and compares its output with what the page says.

    tests/check_examples.py [TEXT]

With TEXT only the sections that have it are run. An example is a literal block of a manual page as it is installed, or a
block of README that is marked as sh; one that calls make test is not run. bash runs it, as if a reader had pasted it, with
all programs in PATH by their installed names. The examples of one section (or subsection) follow each other in one
directory, which is empty at first, and for README a clone of the repository. In an example the lines that begin with '# '
are what the others print, without svnmucc's line on each commit. An example without such lines has to succeed. If
Subversion is not installed, the script skips the examples of a section from the first one that uses it, and says so.

It also looks at the pages: whether man shows the examples as they are, whether the filter's page has each fault of the
format and the survey's each line of docs/SURVEY.md, whether the cases that docs/DIFFERENCES.md names show what it says of
Subversion's own tool, and whether those in a column Case of a table in docs/ exist.

The page of a library that tests call, at the head of its src/lib.rt, has examples of public calls. The paragraph after an
example begins with the name of the function in the crate's tests, or in those of another crate, that has these lines. A
line '// ..' is in place of lines that the page omits. The last line is 'N passed, M failed'.
"""
import glob
import os
import re
import shutil
import subprocess
import sys
import tempfile

sys.path.insert(0, os.path.join(os.path.dirname(__file__), "..", "tools"))
from repository import cases, ended, installed_names, lacking, libraries, path as path_to, programs, read

# the names by which the programs are installed, by their own words
NAMES = installed_names("svndumpfilter-proved")
TOOLS = ("svn", "svnadmin", "svnlook", "svnmucc", "svnrdump")
SECONDS = 60
SUBVERSIONS = b"svndumpfilter, version 1.14."
BLOCK = re.compile(r"^```\n(.*?)^```\n\n(?:`([\w:]+)`(?: of `(\w+)`)?)?", re.MULTILINE | re.DOTALL)
# what roff writes otherwise than it reads
MARKS = {r"\e": "\\", r"\(aq": "'", r"\(ha": "^", r"\(ti": "~", r"\&": ""}
COMMITTED = re.compile(r"^r\d+ committed by .*\n", re.MULTILINE)
USES_SUBVERSION = re.compile(r"^(%s)\b|[|(] *(%s)\b" % ("|".join(TOOLS), "|".join(TOOLS)), re.MULTILINE)


class Example:
    """Lines of a page that somebody may paste into a shell, and those that say what these print."""

    def __init__(self, page, section, lines):
        self.page = page
        self.section = section
        self.lines = lines
        self.commands = [it for it in lines if not it.startswith("# ")]
        self.wanted = "".join(it[2:] + "\n" for it in lines if it.startswith("# "))

    def uses_subversion(self):
        return USES_SUBVERSION.search("\n".join(self.commands)) is not None

    def name(self):
        return f"{self.page}, {self.section}: {self.commands[0]}"

    def wrong(self, folder, surroundings):
        """What is wrong with a run in this directory, if anything is."""
        script = os.path.join(folder, "..", "script")
        with open(script, "w", encoding="utf-8") as it:
            it.write("\n".join(self.commands) + "\n")
        try:
            ran = subprocess.run(
                ["bash", "-e", script],
                cwd=folder,
                env=surroundings,
                stdin=subprocess.DEVNULL,
                stdout=subprocess.PIPE,
                stderr=subprocess.STDOUT,
                timeout=SECONDS,
            )
        except subprocess.TimeoutExpired:
            return f"it had not ended after {SECONDS} seconds"
        printed = COMMITTED.sub("", ran.stdout.decode("utf-8", "replace"))
        if ran.returncode != 0:
            return f"status {ran.returncode}, and it printed:\n{printed}"
        if self.wanted and printed != self.wanted:
            return f"it printed:\n{printed}where the page says:\n{self.wanted}"
        return None


def manual(word):
    """The manual page of a program under the installed names."""
    words = [path_to("tools", "render_man.sh"), NAMES["filter"], programs()[word].name]
    return subprocess.run(words, capture_output=True, timeout=SECONDS, check=True, encoding="utf-8").stdout


def plain(line):
    for mark, sign in MARKS.items():
        line = line.replace(mark, sign)
    return line


def manual_examples(name, page):
    """The literal blocks of a page, under the last heading before each."""
    found, section, lines = [], "", None
    for line in page.splitlines():
        if line.startswith((".Sh ", ".Ss ")):
            section = line[4:]
        elif line.startswith(".Bd -literal"):
            lines = []
        elif line == ".Ed":
            found.append(Example(name, section, lines))
            lines = None
        elif lines is not None:
            lines.append(plain(line))
    return found


def readme_examples(text):
    """The blocks that are marked as sh, but for those that run the tests, and so this one again."""
    found, section, lines = [], "", None
    for line in text.splitlines():
        if lines is None and line.startswith("#"):
            section = line.lstrip("# ")
        elif line == "```sh":
            lines = []
        elif line == "```" and lines is not None:
            if "make test" not in lines:
                found.append(Example("README", section, lines))
            lines = None
        elif lines is not None:
            lines.append(line)
    return found


def clone(folder):
    """Makes a directory look like a clone of this repository in which the programs are built."""
    for name in ("crates", "crates.txt", "programs.txt", "HANDLES", "examples", "tools"):
        os.symlink(path_to(name), os.path.join(folder, name))
    os.mkdir(os.path.join(folder, "build"))
    for it in programs().values():
        shutil.copy(path_to(it.name), folder, follow_symlinks=False)
        shutil.copy(it.built, os.path.join(folder, "build"))


def run_all(examples, folder, surroundings):
    """Runs the examples of each section in a directory of its own, and returns how many were right, wrong and skipped."""
    passed = failed = left_out = 0
    there = not lacking(*TOOLS)
    for number, section in enumerate(dict.fromkeys((it.page, it.section) for it in examples)):
        own = os.path.join(folder, str(number), "folder")
        os.makedirs(own)
        if section[0] == "README":
            clone(own)
        those = [it for it in examples if (it.page, it.section) == section]
        for place, example in enumerate(those):
            if not there and example.uses_subversion():
                left_out += len(those) - place
                break
            wrong = example.wrong(own, surroundings)
            passed, failed = passed + (wrong is None), failed + (wrong is not None)
            if wrong:
                print(f"{example.name()}: {wrong}")
    return passed, failed, left_out


def shown(page):
    """The lines of the page as man shows them, or None if there is no man."""
    if lacking("man"):
        return None
    more = {**os.environ, "LC_ALL": "C.UTF-8", "MANWIDTH": "200", "MAN_KEEP_FORMATTING": ""}
    ran = subprocess.run(["man", "-l", "-"], input=page, capture_output=True, env=more, timeout=SECONDS, encoding="utf-8")
    return {it.strip() for it in re.sub(".\b", "", ran.stdout).splitlines()}


def records(dump):
    """The records of a dump, each with its header lines sorted and without the length that may be missing."""
    found, at = [], 0
    while dump[at:].strip(b"\n"):
        at += len(dump[at:]) - len(dump[at:].lstrip(b"\n"))
        end = dump.index(b"\n\n", at)
        lines = dump[at:end].split(b"\n")
        sizes = [int(it.split(b" ")[1]) for it in lines if it.startswith((b"Prop-content-length: ", b"Text-content-length: "))]
        at = end + 2 + sum(sizes)
        found.append((sorted(it for it in lines if not it.startswith(b"Content-length: ")), dump[end + 2 : at]))
    return found


def subversions(case):
    """What Subversion's own tool makes of a case in the locale C: its status, standard output and standard error."""
    command, more = ["svndumpfilter", *case.arguments("filter")], {**os.environ, "LC_ALL": "C"}
    ran = subprocess.run(command, input=case.part("stdin"), capture_output=True, env=more, timeout=SECONDS)
    return ran.returncode, ran.stdout, ran.stderr


def untrue(line, is_difference):
    """The cases in a line of DIFFERENCES that are not there, or that do not show what the line says."""
    wrong = []
    for name in re.findall(r"`([a-z0-9_]{5,})`", line[line.index("(`") :] if "(`" in line else ""):
        case = cases().get(name)
        if not case or "filter" not in case.programs():
            wrong.append(f"the filter has no case {name}")
            continue
        status, written, said = subversions(case)
        own = case.status("filter"), case.of("filter", "stdout"), case.of("filter", "stderr")
        differs = said != own[2] if line.startswith("| what is said") else (status, written) != own[:2]
        same = (status == 0) == (own[0] == 0) and records(written) == records(own[1])
        if not (differs if is_difference else same):
            wrong.append(f"{name} shows no such thing: {line[:60]}")
    return wrong


def wrong_differences():
    """What is not true in DIFFERENCES, by the cases that it names, or None if Subversion's own tool is not installed."""
    if lacking("svndumpfilter"):
        return None
    version = subprocess.run(["svndumpfilter", "--version"], capture_output=True, timeout=SECONDS).stdout
    if not version.startswith(SUBVERSIONS):
        return None
    wrong, section = [], ""
    for line in read("docs", "DIFFERENCES.md").splitlines():
        if line.startswith("#"):
            section = line.lstrip("# ")
        elif line.startswith(("| ", "- ")):
            wrong += untrue(line, section != "The same in both")
    return wrong


def unknown_cases():
    """The cases in a last column Case of a table in docs/ that do not exist."""
    found = []
    for page in sorted(glob.glob(path_to("docs", "*.md"))):
        is_in_table = False
        for line in read(page).splitlines():
            last = line.rstrip().removesuffix("|").rpartition("|")[2].strip()
            if is_in_table:
                found += [it for it in re.findall(r"`([a-z0-9_]+)`", last) if it not in cases()]
            is_in_table = line.startswith("|") and (is_in_table or last == "Case")
    return found


def untold(page):
    """The lines of the survey, by docs/SURVEY.md, that its page does not have."""
    lines = re.findall(r"^\| `([^`]*)`(?: \(fault \w+\))? \|", read("docs", "SURVEY.md"), re.MULTILINE)
    return [it for it in lines if it not in page.replace("\\&", "")]


def test_sources(crate):
    """The texts of a crate's tests, by their modules."""
    found = {}
    for file in glob.glob(path_to("crates", crate, "src", "**", "*.rt"), recursive=True):
        module = os.path.relpath(file, path_to("crates", crate, "src")).removesuffix(".rt").replace(os.sep, "::")
        if crate.endswith("_tests") or "tests" in module.split("::"):
            found[module] = read(file)
    return found


def stripped(text):
    """The lines of a text without their indentation, and without empty ones."""
    return [line.strip() for line in text.splitlines() if line.strip()]


def has_in_order(body, parts):
    """Whether a function has some runs of lines, one after another."""
    for part in parts:
        places = range(len(body) - len(part) + 1)
        at = next((it for it in places if body[it : it + len(part)] == part), None)
        if at is None:
            return False
        body = body[at + len(part) :]
    return True


def wrong_example(text, name, crate):
    """What is wrong with an example on the page of a crate, which names a function in the tests of a crate."""
    sources = test_sources(crate)
    module, _, function = name.rpartition("::")
    body = re.search(rf"^fn {function}\b.*?^}}", sources.get(module, ""), re.MULTILINE | re.DOTALL)
    if not body:
        return f"{crate} has no test or function {name}"
    if not has_in_order(stripped(body[0]), [stripped(it) for it in re.split(r"^ *// \.\.$", text, flags=re.MULTILINE)]):
        return f"{name} of {crate} does not have the lines of the example"
    own = {it for source in sources.values() for it in re.findall(r"^fn (\w+)", source, re.MULTILINE)}
    called = own.intersection(re.findall(r"(?<![.:\w])(\w+)\(", text))
    return f"the example of {name} calls what is not public: {' '.join(sorted(called))}" if called else None


def wrong_on_crate_pages():
    """What is wrong with the examples on the pages of the crates."""
    found = []
    texts = [text for crate in libraries() for text in test_sources(crate).values()]
    for file in sorted(glob.glob(path_to("crates", "*", "src", "lib.rt"))):
        crate = file.split(os.sep)[-3]
        page = "".join(line[3:].removeprefix(" ") for line in read(file).splitlines(True) if line.startswith("//!"))
        blocks = BLOCK.findall(page)
        if not blocks and any(re.search(rf"^use {crate}::", it, re.MULTILINE) for it in texts):
            found.append(f"the page of {crate} has no example, and tests call the crate")
        found += [f"the page of {crate}: {it}" for block in blocks if (it := wrong_example(block[0], block[1], block[2] or crate))]
    return found


def wrong_in_pages(pages, examples):
    """What is wrong with the pages as they are, a line for each check of them."""
    looks = []
    for name, page in pages.items():
        lines = shown(page)
        if lines is None:
            print(f"tests/check_examples.py: man is not installed, so what it makes of the examples of {name} is not looked at")
        else:
            lost = [line for it in examples if it.page == name for line in it.lines if line.strip() not in lines]
            looks.append(lost and f"man shows these lines of examples of {name} otherwise: {lost}")
    looks.append((missing := untold(pages[NAMES["survey"]])) and f"the survey's page lacks these lines: {missing}")
    page = pages[NAMES["filter"]]
    faults = re.findall(r"^\| (\d+) \| (\w+) \|", read("docs", "FORMAT.md"), re.MULTILINE)
    told = re.findall(r"^\.It (\d+) (\w+)$", page, re.MULTILINE)
    looks.append(told[: len(faults)] != faults and f"the page's faults are {told}, the format's {faults}")
    for name, called in [(it, it) for it in pages] + [("README", NAMES["filter"])]:
        unnamed = not any(it.page == name and called in "".join(it.commands) for it in examples)
        looks.append(unnamed and f"no example of {name} calls {called}")
    version = re.search(r"^## (\S+)", read("CHANGELOG.md"), re.MULTILINE)[1]
    for word, name in ("cut", "the_version"), ("survey", "the_version_of_the_survey"):
        told = cases()[name].of(word, "stdout").decode()
        looks.append(told != f"svndump{word}, version {version}\n" and f"the case {name} has {told!r}, CHANGELOG {version}")
    looks.append((unknown := unknown_cases()) and f"docs/ names these cases, which do not exist: {unknown}")
    looks.append("\n".join(wrong_on_crate_pages()))
    differences = wrong_differences()
    if differences is None:
        print("tests/check_examples.py: the svndumpfilter of Subversion 1.14 is not installed, so DIFFERENCES is not compared with it")
    else:
        looks.append(differences and f"DIFFERENCES is not true: {differences}")
    return looks


def main(words):
    pages = {name: manual(word) for word, name in NAMES.items()}
    examples = [it for name, page in pages.items() for it in manual_examples(name, page)] + readme_examples(read("README.md"))
    looks = wrong_in_pages(pages, examples)
    for wrong in filter(None, looks):
        print(wrong)
    with tempfile.TemporaryDirectory() as folder:
        tools = os.path.join(folder, "bin")
        os.mkdir(tools)
        for word, name in NAMES.items():
            os.symlink(programs()[word].built, os.path.join(tools, name))
        surroundings = {**os.environ, "HOME": folder, "LC_ALL": "C.UTF-8", "PATH": tools + os.pathsep + os.environ["PATH"]}
        text = words[0] if words else ""
        sections = {it.section for it in examples if text in "\n".join(it.lines)}
        ran = [it for it in examples if it.section in sections]
        passed, failed, left_out = run_all(ran, folder, surroundings)
    if left_out:
        print(f"tests/check_examples.py: {left_out} examples are left out, since Subversion's programs are not installed")
    passed, failed = passed + sum(not it for it in looks), failed + sum(bool(it) for it in looks)
    return ended(passed, failed)


sys.exit(main(sys.argv[1:]))
