#!/usr/bin/env python3
"""Tries the wrong bodies that `rt ci` does not: the prover must refuse each.

    tests/gate/wrong_bodies.py [--quick] [CRATE]..

An edit of tests/common/wrong_bodies/CRATE has the form of one of crates/CRATE/must-fail. `rt ci` proves a crate once more
for the edits of must-fail, so these are not there; the promise that one breaks has others that are, or is one of a crate
whose second proof takes long. They are put into a copy of the repository, where `rt must-fail` tries them, of all crates
or of those named. That takes minutes for each crate.

With --quick nothing is proved: each edit must only be one that can be applied, in a file of its crate and with an old text that
this has exactly once. Each edit is then turned, its file and its old text, and that must be found. The table of
docs/PROOFS.md must have each edit of must-fail, with words of one row of docs/PROMISES.md that no other edit has. It needs
only Python 3 then. The last line is `N passed, N failed`, and the status is 0 only if none failed and one passed.
"""

import argparse
import os
import re
import shutil
import subprocess
import sys
import tempfile

sys.dont_write_bytecode = True
sys.path.insert(0, os.path.join(os.path.dirname(os.path.realpath(__file__)), "..", "common"))
from testing import TOP, Counts

EDITS = os.path.join(TOP, "tests", "common", "wrong_bodies")


def read(path):
    with open(path, encoding="utf-8") as file:
        return file.read()


def edits():
    """The edits: the crate, the name and the text of each."""
    for crate in sorted(os.listdir(EDITS)):
        for name in sorted(os.listdir(os.path.join(EDITS, crate))):
            yield crate, name, read(os.path.join(EDITS, crate, name))


def wrong_in(crate, text):
    """Why an edit cannot be applied to its crate, or nothing."""
    path, old, texts = "", "", {}
    for line in text.split("\n"):
        word, _, rest = line.partition(":")
        rest = rest.removeprefix(" ")
        if word == "file":
            path, old = rest, ""
            whole = os.path.join(TOP, "crates", crate, path)
            if not os.path.isfile(whole):
                return f"there is no file {path}"
            texts.setdefault(path, read(whole))
        elif word == "old":
            old = rest
        elif word == "new":
            count = texts.get(path, "").count(old) if old else 0
            if count != 1:
                return f"the old text is in {path or 'no file'} {count} times"
            texts[path], old = texts[path].replace(old, rest), ""
    if not texts:
        return "it names no file"
    return "" if any(after != read(os.path.join(TOP, "crates", crate, path)) for path, after in texts.items()) else "it changes nothing"


def tried_by_the_gate():
    """The edits of must-fail, as crate/name."""
    for crate in sorted(os.listdir(os.path.join(TOP, "crates"))):
        folder = os.path.join(TOP, "crates", crate, "must-fail")
        for name in sorted(os.listdir(folder)) if os.path.isdir(folder) else []:
            yield f"{crate}/{name.removesuffix('.edit')}"


def wrong_in_table(text, promises):
    """What is wrong with the table of the edits that the gate tries, or nothing."""
    rows = re.findall(r"(?m)^\| `(elf\w+/[\w-]+)` \| (.+) \|$", text)
    if sorted(edit for edit, _ in rows) != sorted(tried_by_the_gate()):
        return "it has other edits than must-fail"
    for edit, words in rows:
        if promises.count(words) != 1 or sum(words == other for _, other in rows) != 1:
            return f"the words of {edit} are not those of one promise, or another edit's too"
    return ""


def check_table(counts):
    """Checks the table, and that a row with other words, another edit's, or none is found."""
    text = read(os.path.join(TOP, "docs", "PROOFS.md"))
    promises = "\n".join(re.findall(r"(?m)^\| (.+?) \| ", read(os.path.join(TOP, "docs", "PROMISES.md"))))
    counts.quiet_case("the table of edits", wrong_in_table(text, promises))
    first, second = re.findall(r"(?m)^\| `elf\w+/[\w-]+` \| .+ \|\n", text)[:2]
    words = second.split(" | ")[1]
    for label, other in (("other words", first.replace(" | ", " | not ")), ("another's words", first.split(" | ")[0] + " | " + words), ("no row", "")):
        counts.quiet_case(f"the table of edits, {label}", "" if wrong_in_table(text.replace(first, other), promises) else "it is not found")


def turned(text):
    """An edit with another file, and one with another old text."""
    yield re.sub(r"(?m)^(file: \S+)$", r"\1x", text, count=1)
    yield re.sub(r"(?m)^(old: .*)$", r"\1 not there", text, count=1)


def copy_with_edits(room):
    """Copies the repository's crates into a directory, with these edits in place of theirs."""
    for name in ("crates.txt", "HANDLES"):
        shutil.copy(os.path.join(TOP, name), room)
    shutil.copytree(os.path.join(TOP, "crates"), os.path.join(room, "crates"), ignore=shutil.ignore_patterns("out", "must-fail"))
    for crate in os.listdir(EDITS):
        shutil.copytree(os.path.join(EDITS, crate), os.path.join(room, "crates", crate, "must-fail"))


def main():
    reader = argparse.ArgumentParser(description="the wrong bodies that the gate does not try")
    reader.add_argument("--quick", action="store_true", help="only look whether each can be applied")
    reader.add_argument("crates", nargs="*", metavar="CRATE")
    given = reader.parse_args()
    counts = Counts()
    every = [edit for edit in edits() if not given.crates or edit[0] in given.crates]
    for crate, name, text in every:
        counts.quiet_case(f"{crate}/{name}", wrong_in(crate, text))
        for at, other in enumerate(turned(text)):
            counts.quiet_case(f"{crate}/{name}, turned {at + 1}", "" if wrong_in(crate, other) else "it can be applied")
    check_table(counts)
    if not given.quick and not counts.failed:
        with tempfile.TemporaryDirectory(prefix="wrong-bodies-") as room:
            copy_with_edits(room)
            done = subprocess.run(["rt", "must-fail", *sorted({crate for crate, _, _ in every})], cwd=room, stdin=subprocess.DEVNULL,
                                  stdout=subprocess.PIPE, text=True, errors="replace", check=False)
        print(done.stdout, end="")
        for crate, name, _ in every:
            label = f"must-fail {crate}/{name}: refused"
            counts.quiet_case(f"{crate}/{name}, tried", "" if label in done.stdout else "the prover did not refuse it")
    print(f"{counts.passed} passed, {counts.failed} failed")
    return 0 if counts.passed and not counts.failed else 1


if __name__ == "__main__":
    sys.exit(main())
