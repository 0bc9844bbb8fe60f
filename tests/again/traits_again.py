#!/usr/bin/env python3
"""Compares `elfsee traits` with a second implementation of the rules (tests/again/hardened.py), over files of the machine,
changed copies of generated programs, libraries and objects, and small files of tables that point to one another at random.

    tests/again/traits_again.py [--program PROGRAM] [--quick] [--copies N] [--programs N] [--keep FOLDER]

Without PROGRAM ./build makes it. --quick takes 240 copies and 20 programs, instead of 6,000 and 200. The files are
made by tests/common/hostile_copies.py, most of them with gcc (if there is none it says so), and by tests/common/small_files.py. In
each copy some numbers differ: of its headers, its dynamic entries, its notes, its tables. Some are run with
--require or --headers, and some with a read budget: the one that tests/again/hardened.py computes shows all, and with any
other the answer is the same, or a refusal for lack of budget. Directories, symbolic links, other files and those that
cannot be read have their lines or none. A file that fails is copied to FOLDER. The last line is `N passed, N failed`, and
the status is 0 only if none failed and one passed."""

import os
import random
import re
import shutil
import sys
import tempfile

sys.dont_write_bytecode = True
sys.path.insert(0, os.path.join(os.path.dirname(os.path.realpath(__file__)), "..", "common"))
# pylint: disable=wrong-import-position
import hardened
import hostile_copies
import listed_files
import small_files
from compared_batches import Comparison, elf_files, given_words
from testing import program_of

QUICK, WHOLE = {"copies": 240, "programs": 20}, {"copies": 6000, "programs": 200}
REQUIRED = ("relro=full,stack=nx,pages=w^x,kind=pie", "kind=lib", "text=fixed,cet=ibt+shstk", "relro=none,cet=-",
            "canary=canary,fortify=fortify,path=-", "path=runpath,stack=exec,pages=wx", "text=patch,kind=static,kind=exec",
            "cet=ibt,canary=-,fortify=-", "kind=pie|lib|exec,stack=nx|-,relro=full|partial")
BATCH, LARGEST = 30, 1 << 21
REFUSED = re.compile(rb"C refused      ([0-9a-f]{16}) budget (.*)\n", re.S)


def copies(files, chance, count):
    """A given number of contents: changed copies, small files, and small files that are changed."""
    programs = [name for name in sorted(files) if not name.endswith(".o")]
    for _ in range(count):
        if chance.random() < 0.7:
            content = small_files.small_file(chance)
            yield hostile_copies.changed(content, chance) if chance.random() < 0.2 else content
        else:
            names = programs if chance.random() < 0.95 else sorted(files)
            yield hostile_copies.changed(files[chance.choice(names)], chance)


def compare_copies(comparison, files, count):
    for number in range(0, count, BATCH):
        chance = random.Random(number)
        most = chance.choice((4096,) * 12 + (3, 6, 12))
        words = chance.choice(REQUIRED) if chance.random() < 0.7 else ""
        required = [tuple(word.split("=")) for word in words.split(",") if word]

        def told(path, content, most=most, required=required):
            return hardened.told(path, content, most, required)

        given = ["--headers", str(most)] * (most != 4096) + ["--require", words] * bool(words)
        contents = list(copies(files, chance, min(BATCH, count - number)))
        comparison.compare_batch(f"copies from {number} on, {' '.join(given)}", ["traits", *given], contents, told)


def compare_budgets(comparison, files, count):
    """A budget of what traits read shows all, and any other all or the line of the budget."""
    with tempfile.TemporaryDirectory() as folder:
        path = os.fsencode(os.path.join(folder, "file"))
        for number in range(count):
            chance = random.Random(-number)
            content = next(copies(files, chance, 1))
            with open(path, "wb") as file:
                file.write(content)
            text, status = hardened.told(path, content)
            cost = hardened.cost(content)
            for budget in sorted({cost, chance.randrange(cost + 1), max(0, cost - 1)}):
                out, ended, errors = comparison.run(["traits", "--max-read", str(budget), path])
                refused = REFUSED.fullmatch(out) if budget < cost and ended == 1 else None
                is_right = (out, ended) == (text.encode(), status)
                is_right |= bool(refused) and int(refused[1], 16) < len(content) and refused[2] == path
                what = f"budget {budget} of {cost}, copy {number}"
                comparison.count(is_right and not errors, what, (out, ended, errors, text))


def compare_folders(comparison, files):
    """Directories, links, pipes, other files, and names that are no text, in the order of their names."""
    with tempfile.TemporaryDirectory() as folder:
        for number, paths in enumerate(listed_files.made_folders(os.fsencode(folder), files)):
            text, status = listed_files.told_of_paths(paths, folder, hardened.told)
            wanted = text.encode(), status
            comparison.compare(f"directories {number}", ["traits", *paths], wanted, cwd=folder)
            comparison.compare(f"directories {number} of a list", ["traits", "--files0-from", "-"], wanted, cwd=folder,
                               given=b"\0".join(paths))


def compare_programs(comparison, most):
    for path in elf_files(most, LARGEST):
        text, status = hardened.told(os.fsencode(path), path.read_bytes())
        comparison.compare(str(path), ["traits", path], (text.encode(), status))


def main():
    given = given_words(__doc__, QUICK, WHOLE)
    comparison = Comparison(program_of(given), given.keep)
    compare_programs(comparison, given.programs)
    if not shutil.which("gcc"):
        print("skipped: copies of compiled files, since there is no gcc")
    with tempfile.TemporaryDirectory() as folder:
        files = hostile_copies.made_files(folder)
    compare_folders(comparison, files)
    compare_copies(comparison, files, given.copies)
    compare_budgets(comparison, files, given.copies // 40)
    return comparison.ended()


if __name__ == "__main__":
    sys.exit(main())
