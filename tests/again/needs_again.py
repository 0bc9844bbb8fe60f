#!/usr/bin/env python3
"""Compares `elfsee needs --symbols` with a second implementation of the rules (tests/again/needed.py), over programs of the
machine, over changed copies of generated libraries, and over random roots.

    tests/again/needs_again.py [--program PROGRAM] [--quick] [--copies N] [--programs N] [--roots N]

Without PROGRAM ./build makes it. --quick takes 300 copies, 10 programs and 100 roots, instead of 3,000, 60 and 1,000. The
libraries are made by gcc, and if it makes none it says so: with versions and without, with both kinds of hash tables, weak
symbols and undefined ones, names that only a loader's rules find, a program with an interpreter. In each copy some bytes of
one file differ: of its headers, its dynamic entries, its tables. Roots have links, files that are no libraries, and loader's
caches (tests/common/needs_cases/random_roots.py); every tenth answer is compared as objects too. The last line is
`N passed, N failed`, and the status is 0 only if none failed and one passed."""

import os
import random
import shutil
import struct
import subprocess
import sys
import tempfile
from pathlib import Path

sys.dont_write_bytecode = True
sys.path.insert(0, os.path.join(os.path.dirname(os.path.realpath(__file__)), "..", "common"))
import needed  # pylint: disable=wrong-import-position
from compared_batches import given_words  # pylint: disable=wrong-import-position
from needs_cases import random_roots  # pylint: disable=wrong-import-position
from needs_cases.common import Cases  # pylint: disable=wrong-import-position
from testing import program_of  # pylint: disable=wrong-import-position

PLAIN = {"PATH": "/usr/bin:/bin", "LC_ALL": "C"}
# Tags of dynamic entries that have the address of a table, and how many bytes at it are changed.
TABLES = {4: 80, 5: 200, 6: 300, 0x6ffffef5: 120, 0x6ffffff0: 40, 0x6ffffffc: 80, 0x6ffffffe: 64}


class Comparison:
    """Counts what agrees."""

    def __init__(self, program):
        self.program, self.passed, self.failed = program, 0, 0

    def compare(self, path, default, what):
        return self.answers(what, [("default", default)] if default else [], path)

    def answered(self, options, path, more):
        """What elfsee prints with more options, and what is wanted: options are pairs of their names and values."""
        words = [word for name, value in options for word in ("--" + name, str(value))]
        done = subprocess.run([self.program, "needs", "--symbols", *words, *more, str(path)], capture_output=True, timeout=120, env=PLAIN)
        keys = {"library-path": "library", "max-tries": "tries"}
        return done, needed.program(str(path), **{keys.get(name, name): value if name == "max-tries" else os.fsencode(value)
                                                  for name, value in options})

    def tree(self, what, options, path):
        """Compares the rows of objects in a table, up to the first empty line."""
        done, program = self.answered(options, path, ["--table"])
        got, want = done.stdout.partition(b"\n\n")[0].splitlines(), program.tree()
        if got == want:
            self.passed += 1
            return
        self.failed += 1
        if self.failed <= 20:
            first = next((pair for pair in zip(got, want) if pair[0] != pair[1]), (len(got), len(want)))
            print(f"FAILED  {what}: {first[0]!r} in place of {first[1]!r} {done.stderr!r}")

    def answers(self, what, options, path, is_json=False):
        """Compares an answer."""
        words = ["--json"] if is_json else []
        done, program = self.answered(options, path, words)
        wanted = program.status, program.written(is_json)
        if (done.returncode, done.stdout) == wanted and not done.stderr:
            self.passed += 1
            return True
        self.failed += 1
        if self.failed <= 20:
            got = done.stdout.splitlines()
            want = wanted[1].splitlines()
            first = next((pair for pair in zip(got, want) if pair[0] != pair[1]), (len(got), len(want)))
            print(f"FAILED  {what}: {options} {words}: status {done.returncode} in place of {wanted[0]}, {first[0]!r} in place of {first[1]!r} {done.stderr!r}")
        return False


def make(folder, name, text, *words, kind="-shared"):
    source = folder / "made.c"
    source.write_text(text)
    call = ["gcc", kind, "-fPIC", "-nostdlib", "-Wl,--no-as-needed", "-o", str(folder / name), str(source), *words]
    subprocess.run(call, check=True, capture_output=True)


def make_all(folder):
    """A library that needs four others, which need one another."""
    f = str(folder)
    (folder / "one.map").write_text("V1 { global: f; old; local: *; }; V2 { global: g; t; } V1;\n")
    (folder / "two.map").write_text("W1 { global: h; };\n")
    make(folder, "libplain.so", "int f(void) { return 1; } int p(void) { return 2; } int w(void) { return 3; }\n",
         "-Wl,-soname,libplain.so", "-Wl,--hash-style=sysv")
    make(folder, "libone.so", "extern int p(void), none(void) __attribute__((weak)); __thread int t; int f(void) { return p(); } "
         "int g(void) { return none ? none() : t; } int old(void) { return 0; }\n", "-Wl,-soname,libone.so",
         f"-Wl,--version-script,{f}/one.map", f"-L{f}", "-lplain", "-Wl,--hash-style=gnu")
    make(folder, "libtwo.so", "extern int f(void), g(void), nobody(void); int h(void) { return f() + g() + nobody(); }\n",
         "-Wl,-soname,libtwo.so", f"-Wl,--version-script,{f}/two.map", f"-L{f}", "-lone", "-Wl,--hash-style=both")
    text = ("extern int f(void), g(void), h(void), old(void), p(void), w(void) __attribute__((weak)); extern __thread int t;"
            "int top(void) { return f() + g() + h() + old() + p() + w() + t; }\n")
    for name, style in (("top.so", "gnu"), ("top_sysv.so", "sysv")):
        make(folder, name, text, f"-L{f}", "-lone", "-ltwo", "-lplain", "-Wl,-rpath,$ORIGIN/none:$ORIGIN", f"-Wl,--hash-style={style}")
    (folder / "libplain.so").chmod(0o755)
    text = "extern int f(void), g(void), p(void); void _start(void) { f(); g(); p(); }\n"
    make(folder, "program", text, f"-L{f}", "-lone", "-lplain", "-Wl,-z,nodefaultlib", "-Wl,-rpath,$ORIGIN",
         f"-Wl,--dynamic-linker,{f}/libplain.so", "-Wl,--allow-shlib-undefined", kind="-pie")


def places(data):
    """The offsets of a file whose bytes are changed: of headers and tables. In what gcc makes the first segment, which has the
    tables of a loader, has the addresses of its offsets."""
    phoff, = struct.unpack_from("<Q", data, 32)
    count, = struct.unpack_from("<H", data, 56)
    ranges = [(4, 64), (phoff, phoff + 56 * count)]
    for index in range(count):
        kind, _, offset, _, _, size, _ = struct.unpack_from("<2I5Q", data, phoff + 56 * index)
        if kind == 3:
            ranges += [(phoff + 56 * index, phoff + 56 * index + 56), (offset, offset + size)]
        if kind != 2:
            continue
        ranges += [(offset, offset + size)] * 3
        for at in range(offset, offset + size, 16):
            tag, value = struct.unpack_from("<2Q", data, at)
            if tag in TABLES:
                ranges += [(value, value + TABLES[tag])] * 2
    return ranges


def changed(data, chance):
    data = bytearray(data)
    ranges = places(data)
    for _ in range(chance.choice((1, 1, 1, 2, 3, 6))):
        first, last = chance.choice(ranges)
        at = chance.randrange(first, min(last, len(data)))
        data[at] = chance.choice((0, 1, 2, 0x7f, 0x80, 0xff, data[at] ^ 1 << chance.randrange(8), chance.randrange(256)))
    if chance.random() < 0.03:
        del data[chance.randrange(len(data)):]
    return bytes(data)


def compare_copies(comparison, count):
    with tempfile.TemporaryDirectory() as folder:
        folder = Path(folder)
        make_all(folder)
        tops = ["top.so", "top_sysv.so", "program"]
        names = [*tops, "libone.so", "libtwo.so", "libplain.so"]
        plain = {name: (folder / name).read_bytes() for name in names}
        for name in tops:
            comparison.compare(folder / name, f"{folder}", f"made {name}")
        for number in range(count):
            chance = random.Random(number)
            name = chance.choice(names)
            (folder / name).write_bytes(changed(plain[name], chance))
            top = name if name in tops else chance.choice(tops)
            comparison.compare(folder / top, f"{folder}", f"copy {number} of {name}")
            (folder / name).write_bytes(plain[name])


def compare_roots(comparison, count):
    with tempfile.TemporaryDirectory() as folder:
        pool = random_roots.Pool(Cases(comparison.program, folder + "/pool"), random.Random(9))
        for number in range(count):
            root = f"{folder}/root"
            words, path = random_roots.make(pool, random.Random(number), root)
            comparison.answers(f"root {number}", words, path)
            comparison.tree(f"tree of root {number}", words, path)
            if number % 10 == 0:
                comparison.answers(f"root {number} as objects", words, path, is_json=True)
            shutil.rmtree(root)


def compare_programs(comparison, most):
    folder = Path("/usr/bin")
    paths = [path for path in sorted(folder.iterdir()) if path.is_file() and not path.is_symlink()]
    paths = [path for path in paths if path.open("rb").read(4) == b"\x7fELF"]
    for path in paths[::max(1, len(paths) // most)][:most]:
        comparison.compare(path, "", str(path))


def main():
    given = given_words(__doc__, {"copies": 300, "programs": 10, "roots": 100}, {"copies": 3000, "programs": 60, "roots": 1000})
    comparison = Comparison(program_of(given))
    compare_programs(comparison, given.programs)
    if shutil.which("gcc"):
        try:
            compare_copies(comparison, given.copies)
            compare_roots(comparison, given.roots)
        except subprocess.CalledProcessError as error:
            print(f"skipped: made files: {error.stderr.decode()[-300:]}")
    else:
        print("skipped: changed copies and roots, since there is no gcc")
    print(f"{comparison.passed} passed, {comparison.failed} failed")
    return 1 if comparison.failed or not comparison.passed else 0


if __name__ == "__main__":
    sys.exit(main())
