#!/usr/bin/env python3
"""Compares `elfsee list`, `check --members`, `show` and `archive` with a second implementation of the rules
(tests/again/reported.py, tests/again/listed_files.py): whole listings and parts of them, with names defined by GNU, with the versions
of symbols, by the program headers, rows that are selected by names, archives.

    tests/again/lists_again.py [--program PROGRAM] [--quick] [--copies N] [--programs N] [--keep FOLDER]

Without PROGRAM ./build makes it. --quick takes 180 copies and 8 programs, instead of 6,000 and 80. It compares
files of the machine, changed copies of files that tests/common/hostile_copies.py makes, most of them with gcc (if there is
none it says so), archives of such, and small files of tables that point to one another at random
(tests/common/small_files.py). Some are listed with a read budget: the one that tests/again/listing_cost.py allows shows all, and
any other a prefix of it with the line of the budget after. Directories, symbolic links, other files and those that cannot
be read have their lines or none. A file that fails is copied to FOLDER. The last line is `N passed, N failed`, and the
status is 0 only if none failed and one passed."""

import os
import random
import re
import shutil
import sys
import tempfile

sys.dont_write_bytecode = True
sys.path.insert(0, os.path.join(os.path.dirname(os.path.realpath(__file__)), "..", "common"))
# pylint: disable=wrong-import-position
import hostile_copies
import listed_files
import listing_cost
import reported
import small_files
from asked_of_files import static_libraries
from compared_batches import Comparison, elf_files, given_words
from reported import PARTS, Wish
from testing import program_of

QUICK, WHOLE = {"copies": 180, "programs": 8}, {"copies": 6000, "programs": 80}
BATCH, LARGEST = 20, 1 << 19
NAMES = ([b"one"], [b"wanted", b"one", b"calls", b"__stack_chk_fail"], [b"name", b"three", b"FIRST", b"SECOND"], [b"x"],
         [b"data", b"libneeded.so", b"NEEDED", b"local", b"\\"], [b"name"], [b"nam", b"na"],
         [b"name@FIRST", b"nam", b"names", bytes(range(11, 70)), b"_chk"])
VERSIONED = ([b"name@FIRST", b"name@@FIRST", b"wanted@NEEDED"], [b"name@@THIRD", b"name@SECOND", b"calls@@THIRD"],
             [b"wanted@@NEEDED", b"data@@SECOND", b"data@SECOND@", b"weak"], [b"one@@FIRST", b"one@SECOND"],
             [b"FIRST", b"FIRST@FIRST", b"SECOND@@SECOND", b"name@name@FIRST"],
             [b"name@one", b"name@@data", b"local@name", b"__a_chk@_chk"])
BUDGET = re.compile(r"! ([0-9a-f]{16}) budget|C refused      ([0-9a-f]{16}) budget .*")


def wish_of(chance, contents=()):
    """The options of a listing, or of those of some files."""
    headers = chance.choice((4096,) * 16 + (7, 12, 30))
    cap = chance.choice((256, 256, 256, 1, 2, 3, 4, 5, 10, 59, 63, 64, 4096))
    gnu, by_segments = chance.random() < 0.75, chance.random() < 0.2
    versions, kind = gnu and chance.random() < 0.7, chance.random()
    parts = PARTS if gnu else PARTS[:7]
    if kind < 0.4:
        return Wish(parts, headers, cap, gnu, versions, by_segments)
    if kind < 0.6:
        return Wish((chance.choice(parts),), headers, cap, gnu, versions, by_segments)
    part = chance.choice(("symbols", "symbols", "relocs", "versions")[:4 if gnu else 3])
    texts = chance.choice(VERSIONED + NAMES[:4] if versions else NAMES)
    if chance.random() < 0.7:
        wish = Wish((part,), 4096, 4096, gnu, versions)
        texts = [text for content in contents for text in some_texts(content, wish, chance)][:64] or texts
        # No name is whole that is longer than the longest of these.
        texts = texts if chance.random() < 0.7 else [min(texts, key=len)]
    return Wish((part,), headers, cap, gnu, versions, by_segments, texts)


def some_texts(content, wish, chance):
    """A few names of the rows of a file, some of them less a byte, or with a version."""
    rows = []
    try:
        rows = list(reported.Listing(content, wish).rows())
    except reported.Refused:
        pass
    rows = [row for row in rows if row.name is not None and row.name[0] and row.name[1] and b"\n" not in row.name[0]]
    for row in chance.sample(rows, min(len(rows), 2)):
        if row.version and row.version[0] and b"\n" not in row.version[0] and chance.random() < 0.7:
            text = row.name[0] + chance.choice((b"@", b"@@")) + row.version[0]
        else:
            text = row.name[0][:max(1, len(row.name[0]) - chance.choice((0, 0, 0, 1)))]
        if not wish.versions or b"" not in reported.parted(text)[:2]:
            yield text[:4096]


def copies(files, chance, count, with_archives):
    """A given number of contents: changed copies, small files, small files that are changed, and archives of all these."""
    members = hostile_copies.archive_members(files)
    for _ in range(count):
        kind = chance.random()
        if kind < (0.5 if with_archives else 0.7):
            content = small_files.small_file(chance)
            yield hostile_copies.changed(content, chance) if chance.random() < 0.2 else content
        elif kind < 0.65 or not with_archives:
            yield hostile_copies.changed(files[chance.choice(sorted(files))], chance)
        else:
            chosen = [(b"small.o", small_files.small_file(chance)) if chance.random() < 0.6 else chance.choice(members)
                      for _ in range(chance.randrange(5))]
            yield hostile_copies.changed_archive(chosen, chance)


def words_of_names(wish, chance, folder):
    """The words that give the names of a wish, or a list of them, with one that is in it twice."""
    if wish.given is None:
        return []
    if all(32 <= byte < 127 for text in wish.given for byte in text) and chance.random() < 0.6:
        return [word for text in wish.given for word in ("--name", text)]
    path = os.path.join(folder, "names")
    with open(path, "wb") as file:
        file.write(b"\n" * chance.randrange(2) + b"\n".join(wish.given + wish.given[:1]) + b"\n" * chance.randrange(2))
    return ["--name-list", path]


def compare_copies(comparison, files, count, folder):
    for number in range(0, count, BATCH):
        chance = random.Random(number)
        has_members = chance.random() < 0.4
        contents = list(copies(files, chance, min(BATCH, count - number), has_members))
        wish = wish_of(chance, contents[:3])
        command = "check" if wish.is_for_all_rows() and chance.random() < 0.3 else "list"

        def told(path, content, command=command, wish=wish, has_members=has_members):
            return listed_files.told_by(command, path, content, wish, has_members)

        words = [command, *wish.words(), *["--members"] * has_members, *words_of_names(wish, chance, folder)]
        comparison.compare_batch(f"copies from {number} on, {words}", words, contents, told)


def compare_budgets(comparison, files, count, folder):
    """Without a budget, and with one of what a listing costs, all is shown; with any other a prefix with the budget's line."""
    path = os.path.join(folder, "file")
    for number in range(count):
        chance = random.Random(-number)
        content = next(copies(files, chance, 1, chance.random() < 0.5))
        wish = wish_of(chance, [content])
        command = chance.choice(("show", "archive", "list", "check")[:4 if wish.is_for_all_rows() else 3])
        has_members = command in ("list", "check") and chance.random() < 0.5
        with open(path, "wb") as file:
            file.write(content)
        text, status = listed_files.told_by(command, os.fsencode(path), content, wish, has_members)
        cost = listing_cost.asked_by(command, content, wish, has_members)
        names = words_of_names(wish, chance, folder)
        for budget in sorted({1 << 62, cost, chance.randrange(cost + 1), max(0, cost - 9)}):
            limit = ["--max-read", str(budget)] * (budget < 1 << 62)
            words = [command, *wish.words(), *limit, *["--members"] * has_members, *names, path]
            out, ended, errors = comparison.run(words)
            is_right = (out.decode(), ended) == (text, status)
            is_right |= budget < cost and ended == 1 and is_front(out.decode(), text, path, content)
            what = f"copy {number}, {words} of {cost}"
            comparison.count(is_right and not errors, what, (out[-200:], ended, errors, text[-200:]))


def is_front(out, text, path, content):
    """Whether a text is a prefix of another, with the line of a budget after."""
    got, lines = out.splitlines(), text.splitlines()
    last = BUDGET.fullmatch(got[-1]) if got else None
    return bool(last) and int(last[1] or last[2], 16) < len(content) and got[:-1] in ([f"@ {path}"], lines[:len(got) - 1])


def compare_folders(comparison, files):
    """Directories, links, pipes, other files, and names that are no text, in the order of their names."""
    wishes = (("check", Wish()), ("list", Wish(("symbols",), texts=[b"one"])), ("list", Wish(PARTS, gnu=True, versions=True)))
    with tempfile.TemporaryDirectory() as folder:
        for number, paths in enumerate(listed_files.made_folders(os.fsencode(folder), files)):
            for command, wish in wishes:
                for has_members in (False, True):
                    def told(path, content, command=command, wish=wish, has_members=has_members):
                        return listed_files.told_by(command, path, content, wish, has_members)

                    text, status = listed_files.told_of_paths(paths, folder, told)
                    words = [command, *wish.words(), *["--name", "one"] * bool(wish.given), *["--members"] * has_members]
                    what, wanted = f"directories {number}, {words}", (text.encode(), status)
                    comparison.compare(what, [*words, *paths], wanted, cwd=folder)
                    comparison.compare(f"{what}, of a list", [*words, "--files0-from", "-"], wanted, cwd=folder,
                                       given=b"\0".join(paths))


def compare_programs(comparison, most, folder):
    """Files of the machine, each alone by `show` or `archive`."""
    libraries = [path for path in static_libraries() if os.path.getsize(path) <= LARGEST]
    libraries = libraries[::max(1, len(libraries) // (most // 4 or 1))][:most // 4]
    for number, path in enumerate([*elf_files(most, LARGEST), *libraries]):
        chance = random.Random(number)
        with open(path, "rb") as file:
            content = file.read()
        wish = wish_of(chance, [content] * 2)
        is_archive = content[:8] == listed_files.ARCHIVE
        command = "archive" if is_archive else "show"
        text, status = listed_files.told_by(command, os.fsencode(path), content, wish, False)
        words = [command, *wish.words(), *words_of_names(wish, chance, folder), path]
        comparison.compare(str(words), words, (text.encode(), status))


def main():
    given = given_words(__doc__, QUICK, WHOLE)
    comparison = Comparison(program_of(given), given.keep)
    if not shutil.which("gcc"):
        print("skipped: copies of compiled files, since there is no gcc")
    with tempfile.TemporaryDirectory() as folder:
        files = hostile_copies.made_files(folder)
        compare_programs(comparison, given.programs, folder)
        compare_folders(comparison, files)
        compare_copies(comparison, files, given.copies, folder)
        compare_budgets(comparison, files, given.copies // 40, folder)
    return comparison.ended()


if __name__ == "__main__":
    sys.exit(main())
