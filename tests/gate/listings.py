#!/usr/bin/env python3
"""Compares the program of the listings alone with the whole program, and listings with a second implementation.

    tests/gate/listings.py [--program PROGRAM] [--listings PROGRAM] [FILE..]

Both must write the same bytes to both streams and end with the same status: for every command line of
tests/gate/command_lines.md that begins with `show`, `sample` or `version` or asks for help, except those of rows by name;
and for listings of each FILE, or of files of the machine and of copies of them that are cut or changed, with several
options. Arguments for anything else the program of the listings must refuse with status 2, and list nothing for
them. Files with relocation entries without addends and with relative ones, well-formed and malformed, must be listed as
tests/again/reported.py does; within each read budget below what tests/again/listing_cost.py allows either so, or as a prefix
of that with the line of the budget after. ./build makes the programs that are not given. It needs bash and Python 3. The last line is `N passed, N failed`."""

import os
import re
import subprocess
import sys
import tempfile

sys.dont_write_bytecode = True
sys.path[:0] = [os.path.join(os.path.dirname(os.path.realpath(__file__)), "..", name) for name in ("common", "again")]
import listing_cost
import relocated_files
from reported import PARTS, Wish, report
from testing import TOP, built, option_reader, program_of

OPTIONS = [[], ["--gnu"], ["--by-segments", "--names", "5"], ["--headers", "20", "--max-read", "9000"]]
# How many files of each directory of the machine, and the largest.
MOST_FILES, MOST_BYTES = 25, 300_000
FOLDERS = ["/usr/bin", "/usr/lib/x86_64-linux-gnu"]
# What the program of the listings does not do, in a directory with a file `f`, a list `list` of it, and a list `names`.
OTHERS = [["find", "f", "name"], ["find", "--gnu", "f", "name"], ["apply", "f", "1"], ["apply", "--explain", "f", "1", "at:1=0x1000"],
          ["check", "f"], ["check", "--only", "header", "f", "f"], ["check", "--files0-from", "list"], ["check", "."],
          ["archive", "f"], ["archive", "--only", "members", "f"], ["show", "--name", "f", "f"], ["show", "--name-list", "names", "f"]]
# With what options files with relocation entries are listed; by the first within budgets.
WISHES = [Wish(("relocs",), gnu=True, cap=2), Wish(PARTS, gnu=True), Wish(PARTS, gnu=True, versions=True), Wish(("relocs",)),
          Wish(PARTS, gnu=True, by_segments=True), Wish(("relocs",), gnu=True, texts=[b"f", b"longer_name"])]
BEGINNING = re.compile(r"elfsee(?=$| (?:show|sample|version|help|--help|-h)(?: |$))(?!.*--name(?:[ =]|-list|$))")


def command_lines():
    """Those of the tables that begin so."""
    with open(os.path.join(TOP, "tests", "gate", "command_lines.md"), encoding="utf-8") as file:
        for line in file:
            row = re.match(r"\| `(elfsee[^`]*)` \|", line)
            if row and BEGINNING.match(row[1]):
                yield row[1].replace(r"\|", "|")


def elf_files():
    """The first small ones of some directories."""
    for folder in FOLDERS:
        found = 0
        for name in sorted(os.listdir(folder)):
            path = os.path.join(folder, name)
            if found < MOST_FILES and os.path.isfile(path) and os.path.getsize(path) <= MOST_BYTES:
                with open(path, "rb") as file:
                    if file.read(4) == b"\x7fELF":
                        found += 1
                        yield path


def copies(path, room):
    """A file as it is, cut in two, and with a byte changed in each of some places."""
    yield path
    with open(path, "rb") as file:
        data = file.read()
    changed = [data[:len(data) // 2], data[:60]]
    for at in (4, 16, 32, 40, 60, 62, len(data) // 3, len(data) * 2 // 3):
        if at < len(data):
            changed.append(data[:at] + bytes([data[at] ^ 0x5A]) + data[at + 1:])
    for copy in changed:
        with open(os.path.join(room, "copy"), "wb") as file:
            file.write(copy)
        yield os.path.join(room, "copy")


class Pair:
    """Both programs, and how often they were the same."""

    def __init__(self, whole, listings, room):
        self.programs, self.room = (whole, listings), room
        self.passed = self.failed = 0

    def compare(self, line, words=()):
        runs = [subprocess.run(["bash", "-c", f'elfsee() {{ "$program" "$@"; }}\n{line}', "bash", *words],
                               cwd=self.room, env={**os.environ, "program": program}, stdin=subprocess.DEVNULL,
                               capture_output=True, check=False) for program in self.programs]
        told = [(run.returncode, run.stdout, run.stderr) for run in runs]
        self.count(told[0] == told[1] and told[0][0] in (0, 1, 2, 3), f"{line} {' '.join(words)}: {told[0][0]} and {told[1][0]}")

    def list(self, path, content, wish, cost=0, budgets=()):
        """Both programs list a file as the second implementation does, and the whole one within budgets below the cost so or
        as a prefix with the budget's line."""
        lines, refusal = report(content, wish)
        names = [word for text in wish.given or () for word in ("--name", text)]
        limits = [(program, []) for program in self.programs[:1 if names else 2]]
        for program, limit in limits + [(self.programs[0], ["--max-read", str(budget)]) for budget in budgets]:
            words = ["show", *wish.words(), *names, *limit, path]
            run = subprocess.run([program, *words], stdin=subprocess.DEVNULL, capture_output=True, check=False)
            got = run.stdout.decode("ascii").splitlines()
            is_right = (got, run.returncode) == (lines, 1 if refusal else 0)
            if limit and int(limit[1]) < cost and got and re.fullmatch("! [0-9a-f]{16} budget", got[-1]):
                is_right = got[:-1] == lines[:len(got) - 1] and run.returncode == 1
            self.count(is_right and not run.stderr, f"{words}: {run.returncode}, {got[-2:]}, wanted {lines[-2:]}")

    def count(self, is_right, wrong):
        if is_right:
            self.passed += 1
        else:
            self.failed += 1
            print(f"FAILED {wrong}")

    def refuse(self, words):
        """The program of the listings refuses words of the other commands, which the whole one takes."""
        runs = [subprocess.run([program, *words], cwd=self.room, stdin=subprocess.DEVNULL, capture_output=True, check=False)
                for program in self.programs]
        is_right = runs[0].returncode in (0, 1) and (runs[1].returncode, runs[1].stdout) == (2, b"") and runs[1].stderr
        self.count(is_right, f"{' '.join(words)}: {runs[0].returncode} and {runs[1].returncode}, {runs[1].stdout + runs[1].stderr!r:.200}")


def compare_relocations(pair, room):
    """Files with relocation entries, with some hundred budgets for each."""
    files = {**relocated_files.made_files(), **relocated_files.linked_files(room)}
    for name, content in files.items():
        path, cost = os.path.join(room, name), listing_cost.cost(content, WISHES[0])
        with open(path, "wb") as file:
            file.write(content)
        pair.list(path, content, WISHES[0], cost, {*range(0, cost, cost // 100), cost - 1, cost})
        for wish in WISHES[1:]:
            pair.list(path, content, wish)


def main():
    parser = option_reader(__doc__)
    parser.add_argument("--listings")
    parser.add_argument("files", nargs="*", metavar="FILE")
    given = parser.parse_args()
    whole = program_of(given)
    listings = os.path.realpath(given.listings or built("build", "elfsee_show"))
    with tempfile.TemporaryDirectory() as room:
        pair = Pair(whole, listings, room)
        for name in ("f", "-", "--", "-x", "--only"):
            with open(os.path.join(room, name), "wb") as file:
                file.write(b"\x7fELF\x02\x01\x01" + bytes(9) + b"\x01\x00>" + bytes(45))
        with open(os.path.join(room, "list"), "wb") as file:
            file.write(b"f\0")
        with open(os.path.join(room, "names"), "wb") as file:
            file.write(b"f\n")
        for words in OTHERS:
            pair.refuse(words)
        for line in command_lines():
            pair.compare(line)
        compare_relocations(pair, room)
        for path in given.files or elf_files():
            for copy in copies(path, room):
                for options in OPTIONS:
                    pair.compare('elfsee show "$@"', [*options, copy])
    print(f"{pair.passed} passed, {pair.failed} failed")
    return 1 if pair.failed or not pair.passed else 0


if __name__ == "__main__":
    sys.exit(main())
