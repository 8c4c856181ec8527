"""What the scripts know of this repository: its programs, its cases and its crates, and copies of crates in which the
toolchain can work. (rt ci takes no link in a directory, so the scripts of tests/ and bench/ name this one as they begin.)"""
import contextlib
import functools
import importlib.util
import os
import re
import shutil
import subprocess
import typing

TOP = os.path.dirname(os.path.dirname(os.path.abspath(__file__)))
# what a check may take at the most
BYTES = 4_000_000_000
PARTS = ("src", "specs", "proofs")


def path(*names):
    return os.path.join(TOP, *names)


def read(*names):
    with open(path(*names), encoding="utf-8") as it:
        return it.read()


def lines_of(name):
    """The lines of a file of data, without what follows a number sign and without empty ones."""
    found = (line.partition("#")[0].strip() for line in read(name).splitlines())
    return [it for it in found if it]


class Program(typing.NamedTuple):
    """A program, as a line of programs.txt has it."""

    name: str
    crate: str
    page: str
    first: str

    @property
    def word(self):
        """The program's own part of its name, by which a case calls its files."""
        return self.name.removeprefix("svndump")

    @property
    def built(self):
        return path("build", self.name)


@functools.cache
def programs():
    """The programs, by their own words."""
    found = [Program(*it.split()) for it in lines_of("programs.txt")]
    return {it.word: it for it in found}


class Case(typing.NamedTuple):
    """A case, a directory below tests/cases; tests/run_cases.py says which files it has."""

    topic: str
    name: str

    def part(self, name):
        """What is in a file of it; nothing if there is no such file."""
        try:
            with open(os.path.join(self.folder(), name), "rb") as it:
                return it.read()
        except FileNotFoundError:
            return b""

    def folder(self):
        return path("tests", "cases", self.topic, self.name)

    def files(self):
        return os.listdir(self.folder())

    def programs(self):
        """The words of the programs that run on it."""
        return [it for it in programs() if self.part(f"{it}.status")]

    def of(self, program, name):
        """What is in a program's own file of it."""
        return self.part(f"{program}.{name}")

    def status(self, program):
        return int(self.of(program, "status"))

    def arguments(self, program):
        text = self.of(program, "args") or self.part("args")
        return [os.fsdecode(it) for it in text.splitlines()]


@functools.cache
def cases():
    """All cases, by their names."""
    found = {}
    for topic in sorted(os.listdir(path("tests", "cases"))):
        for name in sorted(os.listdir(path("tests", "cases", topic))):
            if name in found:
                raise SystemExit(f"two cases are named {name}: one in {topic}, the other in {found[name].topic}")
            found[name] = Case(topic, name)
    return found


def installed_names(name):
    """The names by which the programs are installed, by their own words, if the first one is given this name."""
    said = subprocess.run([path("tools", "installed_names.sh"), name], stdout=subprocess.PIPE, text=True, check=True).stdout
    return {word: line.split()[1] for word, line in zip(programs(), said.splitlines())}


def run_once(program, command):
    """Runs a program on its first case by this command; whether it ended well and wrote what the case wants."""
    case = cases()[program.first]
    ran = subprocess.run([*command, *case.arguments(program.word)], input=case.part("stdin"), capture_output=True, check=False)
    wrote = ran.stdout, ran.stderr, ran.returncode
    return wrote == (case.of(program.word, "stdout"), case.of(program.word, "stderr"), case.status(program.word))


def lacking(*tools):
    """Which of some tools are not installed."""
    return [it for it in tools if shutil.which(it) is None]


def ended(passed, failed):
    """Prints the last line of a suite, and gives its exit status."""
    print(f"{passed} passed, {failed} failed")
    return 1 if failed or not passed else 0


def libraries():
    """The libraries of each crate, as crates.txt has them."""
    lines = lines_of("crates.txt")
    return {line.partition(":")[0].strip(): line.partition(":")[2].split() for line in lines}


def below(crate, known):
    """The repository's crates that a crate uses."""
    found, left = set(), [crate]
    while left:
        new = {it for it in known[left.pop()] if it in known} - found
        found |= new
        left += new
    return found


def lanes():
    """How many checks may run at the same time: one a processor, as far as memory allows."""
    with open("/proc/meminfo", encoding="ascii") as it:
        free = 1024 * int(re.search(r"MemAvailable:\s+(\d+)", it.read())[1])
    return max(1, min(len(os.sched_getaffinity(0)), free // BYTES))


def linked(one, other):
    """Gives a file a second name, or copies it: the toolchain makes a library's files again, and writes into none."""
    try:
        os.link(one, other)
    except OSError:
        shutil.copyfile(one, other)


def copied(name, folder, parts, copy=shutil.copy2):
    """Copies parts of a crate, those that are there, into a directory."""
    for part in parts:
        if os.path.isdir(path("crates", name, part)):
            shutil.copytree(path("crates", name, part), os.path.join(folder, "crates", name, part), copy_function=copy)


def sources(crate):
    """The files that a crate is built from."""
    return (os.path.join(at, name) for part in PARTS for at, _, names in os.walk(path("crates", crate, part)) for name in names)


def library(crate, *names):
    """Where the library is that was built of a crate, or a file beside it. Its mark, the file stamp, has the sum of what it
    was built from. rt ci leaves no mark."""
    return path("crates", crate, "out", "rlib", *names)


def current(crates, known, sums):
    """Those of some crates whose libraries are built from their sources as they are, and over the current ones below. A
    library fits only those that it was built over, and rt ci builds all of them anew and then puts the marked ones back. So
    it has to be newer than those below it; and one without a mark can't lie over a marked one."""
    found = set()
    for crate in sorted(crates, key=lambda it: len(below(it, known))):
        if not os.path.isdir(library(crate, crate + ".rlib")):
            continue
        made, others = os.path.getmtime(library(crate)), below(crate, known)
        if has_mark(crate):
            is_own = read("crates", crate, "out", "rlib", "stamp") == sums[crate]
        else:
            is_own = not any(map(has_mark, others)) and all(os.path.getmtime(it) <= made for it in sources(crate))
        if is_own and others <= found and all(os.path.getmtime(library(it)) < made for it in others):
            found.add(crate)
    return found


def has_mark(crate):
    return os.path.exists(library(crate, "stamp"))


@functools.cache
def toolchain():
    """What rt itself knows of crates. It takes the sum of a crate once here, and else once for each path that leads to it."""
    file = os.path.join(os.path.dirname(os.path.realpath(shutil.which("rt"))), "rtlib.py")
    spec = importlib.util.spec_from_file_location("rtlib", file)
    module = importlib.util.module_from_spec(spec)
    spec.loader.exec_module(module)
    module.Crate.stamp = functools.cache(module.Crate.stamp)
    return module


def known_to_toolchain(folder):
    """What the toolchain knows of each crate of a repository, by its crates.txt as it is now."""
    toolchain().listed.cache_clear()
    return {it.name: it for it in toolchain().crates_below(os.path.realpath(folder))}


def sums(folder):
    """The sum by which the toolchain knows what each crate of a repository was built from."""
    return {name: it.stamp() for name, it in known_to_toolchain(folder).items()}


def list_crates(crates, known, folder):
    """Writes crates.txt of a repository that has these crates, and the directory by which the toolchain knows its top."""
    with open(os.path.join(folder, "crates.txt"), "w", encoding="utf-8") as it:
        it.writelines(f"{name}: {' '.join(known[name])}\n" for name in known if name in crates)
    shutil.copy(path("HANDLES"), folder)
    os.makedirs(os.path.join(folder, ".git"), exist_ok=True)


def shortened(crate, known):
    """The libraries that the lines of crates.txt would have if those below a crate named only what their others don't imply.
    The toolchain takes the sum of a library for each path that leads to it, several times a check, and the paths double with
    each crate. The crate itself has to name all that it uses."""
    implied = {it: set().union(*(below(other, known) for other in known[it] if other in known)) for it in known}
    return {it: [other for other in known[it] if it == crate or other not in implied[it]] for it in known}


class Room:
    """A copy of a crate and of what it uses, a repository of its own with those libraries that are current. The toolchain
    works in a crate and those below it in one run at a time; so it can work in the copy while others run. It builds the
    libraries that aren't current by the whole lines of crates.txt."""

    def __init__(self, crate, known, folder):
        self.crate, self.folder, self.home = crate, folder, os.path.join(folder, "crates", crate)
        others = below(crate, known)
        for name in {crate} | others:
            copied(name, folder, PARTS)
        list_crates({crate} | others, known, folder)
        self.own = self.sums = sums(folder)
        found = current(others, known, self.own)
        if found == others:
            # what a library is built from is the same by both lists, and the sums differ
            list_crates({crate} | others, shortened(crate, known), folder)
            self.sums = sums(folder)
        for name in found:
            copied(name, folder, ["out/rlib"], linked)
            mark(os.path.join(folder, "crates", name, "out", "rlib", "stamp"), self.sums[name])

    def statements(self, jobs):
        """The command that proves the library and builds it with its statements alone, as rt ci does. What it starts ends
        when this process does."""
        kit, it = toolchain(), known_to_toolchain(self.folder)[self.crate]
        os.makedirs(os.path.dirname(it.rlib))
        return [*kit.guarded(), kit.RATTLE, "build", *it.words(["--jobs", str(jobs)], keeps=False), "--statements", "-o", it.rlib]

    @contextlib.contextmanager
    def lent(self):
        """Moves what checks kept of the crate into the copy, and back in the end. The library stays, until another one is
        built."""
        kept, there = path("crates", self.crate, "out"), os.path.join(self.home, "out")
        os.makedirs(kept, exist_ok=True)
        os.makedirs(there, exist_ok=True)
        moved(kept, there, "rlib")
        try:
            self.mark_again(self.own, self.sums)
            yield
        finally:
            self.mark_again(self.sums, self.own)
            if os.path.isdir(os.path.join(there, "rlib", self.crate + ".rlib")):
                shutil.rmtree(library(self.crate), ignore_errors=True)
                shutil.move(os.path.join(there, "rlib"), kept)
            moved(there, kept, "rlib")

    def mark_again(self, before, after):
        """Marks what was built of the crate by other sums, if it has the mark of these."""
        for name in ("rlib/stamp", self.crate + ".stamp"):
            file = os.path.join(self.home, "out", name)
            if os.path.exists(file):
                with open(file, encoding="utf-8") as it:
                    text = it.read()
                if text.startswith(before[self.crate]):
                    mark(file, after[self.crate] + text.removeprefix(before[self.crate]))


def mark(file, text):
    """Writes a mark, into a file of its own: one that is there may be a second name of another one."""
    if os.path.exists(file):
        os.remove(file)
    with open(file, "w", encoding="utf-8") as it:
        it.write(text)


def moved(one, other, all_but):
    """Moves what is in one directory into another one, but for this."""
    for name in os.listdir(one):
        if name != all_but:
            shutil.move(os.path.join(one, name), os.path.join(other, name))


def tested(crates):
    """Those of some crates that have tests, the one with the most code first: crates of laws alone have no code to test."""

    def sources(crate):
        for at, _, names in os.walk(path("crates", crate, "src")):
            for name in names:
                with open(os.path.join(at, name), encoding="utf-8") as it:
                    yield it.read()

    sizes = {it: sum(map(len, sources(it))) for it in crates if any("#[test]" in text for text in sources(it))}
    return sorted(sizes, key=lambda it: -sizes[it])
