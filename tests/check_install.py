#!/usr/bin/env python3
"""Installs all programs into an empty root, with make install and from the Debian package, and removes them.

    tests/check_install.py

Each installed program is run on its first case. Files of somebody else are neither overwritten nor removed. The manual pages
and the package have no faults, if mandoc, man and lintian are installed to say so; without dpkg-deb, objdump and strip no
package is made, and the script says so. Each program has its launcher at the top of the repository. The last line is
'N passed, M failed'.
"""
import glob
import os
import re
import subprocess
import sys
import tempfile

sys.path.insert(0, os.path.join(os.path.dirname(__file__), "..", "tools"))
from repository import cases, ended, installed_names, lacking, libraries, path, programs, run_once

NAME = "svndumpfilter-proved"
DOCUMENTS = ["README.md", "CUT.md", "DIFFERENCES.md", "SURVEY.md"]
SOMEBODY = "somebody else's\n"
RESULTS = []


def expect(is_so, otherwise):
    """Notes whether something is as it has to be."""
    RESULTS.append(bool(is_so))
    if not is_so:
        print(f"tests/check_install.py: {otherwise}")


def call(*words, **more):
    """Runs a command at the top of the repository: whether it succeeded, and what it said."""
    ran = subprocess.run(words, cwd=path(), stdout=subprocess.PIPE, stderr=subprocess.STDOUT, text=True, check=False, **more)
    return ran.returncode == 0, ran.stdout


class Root:
    """A root for make install, below which the prefix is /opt/filter."""

    def __init__(self, folder):
        # with a blank, as a user may have it
        self.top = os.path.join(folder, "plain root")

    def make(self, target, *words):
        return call("make", "-s", target, *words, f"DESTDIR={self.top}", "PREFIX=/opt/filter")

    def at(self, *names):
        return os.path.join(self.top, "opt", "filter", *names)

    def page(self, name):
        return self.at("share", "man", "man1", name + ".1")

    def files(self):
        return sorted(os.path.join(at, name) for at, _, names in os.walk(self.top) for name in names)


def text_of(file):
    with open(file, encoding="utf-8") as it:
        return it.read()


def expect_programs(folder, names):
    """Expects each program in this directory by its installed name."""
    for word, name in names.items():
        expect(run_once(programs()[word], [os.path.join(folder, name)]), f"{name} does not do what its first case wants")


def expect_pages(root, name):
    """Expects pages without faults that name the installed programs and no others."""
    names = installed_names(name)
    for installed in names.values():
        rest = text_of(root.page(installed))
        for it in sorted(names.values(), key=len, reverse=True):
            rest = rest.replace(it, "")
        plain = [it.name for it in programs().values() if it.name in rest]
        expect(not plain, f"the page {installed} calls the program {', '.join(plain)}")
        expect_no_faults(root.page(installed))


def expect_no_faults(page):
    if not lacking("mandoc"):
        said = call("mandoc", "-T", "lint", page)[1].splitlines()
        faults = [it for it in said if not re.search(r"mandoc\.db lacks|referenced manual not found", it)]
        expect(not faults, "\n".join(faults))
    if not lacking("man"):
        ran = subprocess.run(["man", "--warnings", "-l", page], stdout=subprocess.DEVNULL, stderr=subprocess.PIPE, check=False)
        expect(not ran.stderr, f"man has warnings of {page}: {ran.stderr}")


def check_launchers():
    for it in programs().values():
        link = path(it.name)
        is_link = os.path.islink(link) and os.readlink(link) == "tools/launch.sh"
        expect(is_link, f"{it.name} at the top is no link to tools/launch.sh")
        expect(it.crate in libraries() and os.path.isfile(path(it.page)), f"programs.txt: {it.name} has no crate or no page")
        expect(it.word in cases()[it.first].programs(), f"programs.txt: {it.name} does not run on its first case")


def check_make_install(root):
    own, plain = installed_names(NAME), installed_names("svndumpfilter")
    expect(root.make("install")[0], "make install failed")
    expect_programs(root.at("bin"), own)
    wanted = [*(root.at("bin", it) for it in own.values()), *(root.page(it) for it in own.values())]
    wanted += [root.at("share", "doc", NAME, it) for it in [*DOCUMENTS, "installed"]]
    expect(root.files() == sorted(wanted), f"these are installed: {root.files()}")
    expect(root.make("install")[0], "make install failed over what it had installed")
    expect_pages(root, NAME)
    # svndumpcut and its page are then those of the last name
    for name in "cut", "svndumpfilter":
        expect(root.make("install", f"NAME={name}")[0], f"make install failed with NAME={name}")
        expect_programs(root.at("bin"), installed_names(name))
    for word, name in plain.items():
        expect(text_of(root.page(name)) == text_of(path(programs()[word].page)), f"the page {name} is not as it is in docs/")
    expect_pages(root, "svndumpfilter")


def check_somebody_elses(root):
    """Sees what becomes of a file that was not installed from here."""
    mine, own = root.at("bin", NAME), installed_names(NAME)
    with open(mine, "w", encoding="utf-8") as it:
        it.write(SOMEBODY)
    is_well, said = root.make("install")
    expect(not is_well and f"{NAME} exists" in said, f"make install overwrote a file of somebody else, or said: {said}")
    expect(root.make("uninstall")[0], "make uninstall failed")
    expect(text_of(mine) == SOMEBODY, "make uninstall removed a file of somebody else")
    expect(not os.path.exists(root.page(NAME)), "make uninstall left the page")
    expect_programs(root.at("bin"), installed_names("svndumpfilter"))
    expect(root.make("install", "FORCE=1")[0], "FORCE=1 did not overwrite")
    expect_programs(root.at("bin"), own)


def check_uninstall(root):
    for name in NAME, "svndumpfilter", "cut":
        expect(root.make("uninstall", f"NAME={name}")[0], f"make uninstall failed with NAME={name}")
    expect(not root.files(), f"make uninstall left {root.files()}")
    expect(root.make("uninstall")[0], "make uninstall failed though nothing was installed")


def check_package(folder):
    missing = lacking("dpkg-deb", "objdump", "strip")
    if missing:
        print(f"tests/check_install.py: no package was made, since these are not installed: {', '.join(missing)}")
        return
    is_well, said = call("make", "-s", "deb")
    expect(is_well, f"make deb failed: {said}")
    package = glob.glob(path("build", NAME + "_*.deb"))[0]
    expect(call("dpkg-deb", "-x", package, folder)[0], "the package cannot be unpacked")
    expect_programs(os.path.join(folder, "usr", "bin"), installed_names(NAME))
    wanted = [f"man/man1/{it}.1.gz" for it in installed_names(NAME).values()]
    wanted += [f"doc/{NAME}/{it}" for it in [*DOCUMENTS, "CHANGELOG.md", "changelog.gz", "copyright"]]
    for it in wanted:
        file = os.path.join(folder, "usr", "share", it)
        expect(os.path.isfile(file) and os.path.getsize(file), f"the package has no {it}")
    depends = call("dpkg-deb", "-f", package, "Depends")[1]
    expect(re.match(r"libc6 \(>= 2\.[0-9]+\)$", depends), f"the package depends on {depends}")
    if not lacking("lintian"):
        is_well, said = call("lintian", "--fail-on", "error", package)
        expect(is_well, f"lintian: {said}")


def main():
    with tempfile.TemporaryDirectory() as folder:
        check_launchers()
        root = Root(folder)
        check_make_install(root)
        check_somebody_elses(root)
        check_uninstall(root)
        check_package(os.path.join(folder, "deb"))
    return ended(RESULTS.count(True), RESULTS.count(False))


sys.exit(main())
