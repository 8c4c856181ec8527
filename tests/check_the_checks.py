#!/usr/bin/env python3
"""Plants mistakes for the checks of tests/, which have to find and name them.

    tests/check_the_checks.py

Each check runs on a copy of what it reads, in which mistakes were planted. And from a sketch of a dump tests/new_case.py has
to make the dump. The last line is 'N passed, M failed'.
"""
import os
import re
import shutil
import subprocess
import sys
import tempfile

sys.path.insert(0, os.path.join(os.path.dirname(__file__), "..", "tools"))
from repository import ended, path, read

PIECE = "function: dump_writer::piece::Piece::push\nfile: src/piece.rt\nold: Ok(self.chunks.push(chunk)?)\n"
# mutants of dump_writer: what each file has, and what has to be said of it
MUTANTS = {
    "length_is_read_for_nothing": (
        PIECE + "new: { let _length = self.chunks.len(); Ok(self.chunks.push(chunk)?) }\n",
        "dump_writer/length_is_read_for_nothing: NOT REFUSED",
    ),
    "name_is_unknown": (
        PIECE + "new: Ok(self.chunks.push(no_such_name)?)\n",
        "dump_writer/name_is_unknown: the check does not come to the prover",
    ),
    "another_function_is_named": (
        PIECE.replace("::push\n", "::chunks\n") + "new: Ok(self.chunks.insert(0, chunk)?)\n",
        "dump_writer/another_function_is_named: NOT REFUSED",
    ),
    "text_is_not_there": (
        PIECE.replace("old: Ok", "old: Err") + "new: ()\n",
        "dump_writer/text_is_not_there: src/piece.rt has its text 0 times",
    ),
}
ANSWER = "crates/dump_pipeline/specs/RunAnswer.antt"
NOUGHT = "(Failed failures.Threads written) = written ≡ 0\n"
RANGE = "use Rattle.dump_pipeline.specs.steps.PlanRange.{IsInRange}\n"
BEHIND = "-- the received bytes are"
COUNTED = "crates/dump_writer/src/counted.rt"
COPY = "fn trimmed(text: &[u8]) -> &[u8] {\n    match text {\n        [b'/', rest @ ..] => rest,\n        _ => text,\n    }\n}\n"
KNOWN = "tests/known_copies.txt"
LEMMAS = "crates/dump_text/proofs/BoolLemmas.antt"
# a check, a file with edits of it, and what the check has to say: an edit of nothing appends to the file
EDITS = [
    ("tests/check_trusted.py", ANSWER,
     [(NOUGHT, NOUGHT.replace("written ≡", "IsInRange 1 1 × written ≡")), ("use Rattle.dump_writer", RANGE + "use Rattle.dump_writer")],
     "specs/steps/PlanRange.antt: IsInRange: a statement needs it"),
    ("tests/check_trusted.py", ANSWER, [(BEHIND, f"abbrev pub nought : ℕ\nnought = 0\n\n{BEHIND}")],
     "specs/RunAnswer.antt: nought: no statement needs it"),
    ("tests/check_names.py", ANSWER, [(BEHIND, f"abbrev pub status_of : ℕ\nstatus_of = 0\n\n{BEHIND}")],
     f"status_of is defined in two crates: crates/dump_cli/specs/Drive.antt, {ANSWER}"),
    ("tests/check_names.py", ANSWER, [(BEHIND, f"abbrev nought : ℕ\nnought = 0\n\nabbrev none : ℕ\nnone = 0\n\n{BEHIND}")],
     "these are equal but for their names: definition dump_pipeline::none dump_pipeline::nought"),
    ("tests/check_names.py", COUNTED, [("", COPY + COPY.replace("trimmed", "cut"))],
     "these are equal but for their names: function dump_writer::cut dump_writer::trimmed"),
    ("tests/check_names.py", KNOWN, [("", "function dump_text::no_such_function dump_writer::other\n")],
     "has copies that are no longer there: function dump_text::no_such_function dump_writer::other"),
    ("tests/check_names.py", LEMMAS, [("", "\nnought_is : 0 ≡ 0\nnought_is = refl\n")], f"{LEMMAS}: nothing uses nought_is"),
]
SMALL = "examples/small.dump"
NUMBERS = re.compile(r"^((?:Prop-content-length|Text-content-length|Content-length|Text-content-md5|Text-content-sha1):|[KVD]) \w+$", re.MULTILINE)


def copied(folder, *names):
    """Copies files, and links directories of crates, into a directory."""
    for name in names:
        to = os.path.join(folder, name)
        os.makedirs(os.path.dirname(to), exist_ok=True)
        if os.path.isdir(path(name)):
            os.symlink(path(name), to)
        else:
            shutil.copy(path(name), to)


def said_by(folder, *words):
    """What a check says there, if it fails."""
    ran = subprocess.run([os.path.join(folder, words[0]), *words[1:]], stdout=subprocess.PIPE, text=True, check=False)
    return ran.stdout if ran.returncode else ""


def tried(texts, *words):
    """What tests/mutants.py says of these mutants of dump_writer."""
    with tempfile.TemporaryDirectory(prefix="planted-") as folder:
        copied(folder, "tests/mutants.py", "tools/repository.py", "crates.txt", "HANDLES")
        copied(folder, *(f"crates/{it}" for it in os.listdir(path("crates")) if it != "dump_writer"))
        copied(folder, *(f"crates/dump_writer/{it}" for it in os.listdir(path("crates", "dump_writer")) if it != "wrong"))
        wrong = os.path.join(folder, "crates", "dump_writer", "wrong")
        os.mkdir(wrong)
        for name, text in texts.items():
            with open(os.path.join(wrong, f"{name}.edit"), "w", encoding="utf-8") as it:
                it.write(text)
        return said_by(folder, "tests/mutants.py", *words, "dump_writer")


def edited(check, file, pairs):
    """What a check says after a file is edited."""
    with tempfile.TemporaryDirectory(prefix="planted-") as folder:
        copied(folder, check, "tools/repository.py", "tests/statements.txt", KNOWN, "docs/TRUSTED.md", "crates.txt", "programs.txt")
        # only a mistake in a proof needs them
        unread = ["out"] if "/proofs/" in file else ["out", "proofs"]
        shutil.copytree(path("crates"), os.path.join(folder, "crates"), ignore=shutil.ignore_patterns(*unread))
        text = read(file)
        for old, new in pairs:
            assert old in text, f"{old} is not in {file}"
            text = text.replace(old, new, 1) if old else text + new
        with open(os.path.join(folder, file), "w", encoding="utf-8") as it:
            it.write(text)
        return said_by(folder, check)


def is_sketch_filled():
    """Whether tests/new_case.py makes a dump from its sketch, in which no number of bytes and no digest is left."""
    whole = read(SMALL)
    sketch = NUMBERS.sub(r"\1 ?", whole)
    ran = subprocess.run([path("tests", "new_case.py")], input=sketch, stdout=subprocess.PIPE, text=True, check=False)
    return sketch.count("?") > 10 and ran.stdout == whole


def main():
    texts = {name: text for name, (text, _) in MUTANTS.items()}
    said = tried(texts)
    results = [(wanted, said) for _, wanted in MUTANTS.values()]
    results.append((MUTANTS["text_is_not_there"][1], tried(texts, "--fit")))
    results += [(wanted, edited(check, file, pairs)) for check, file, pairs, wanted in EDITS]
    failed = [(wanted, said) for wanted, said in results if wanted not in said]
    for wanted, said in failed:
        print(f"tests/check_the_checks.py: it should have failed and said '{wanted}', and said:\n{said}")
    is_filled = is_sketch_filled()
    if not is_filled:
        print(f"tests/check_the_checks.py: tests/new_case.py makes another dump than {SMALL} from a sketch of it")
    return ended(len(results) - len(failed) + is_filled, len(failed) + (not is_filled))


sys.exit(main())
