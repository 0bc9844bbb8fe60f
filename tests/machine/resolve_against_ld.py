#!/usr/bin/env python3
"""Compares what `elfsee resolve` prints with what the linker `ld` does with the same words.

    tests/machine/resolve_against_ld.py [--program PROGRAM] [--quick] [--jobs N]

Links are those that compilers make on this machine (tests/common/real_links.py): some hundred small programs of C, C++ and
Fortran with its libraries, static and shared, whole, in groups, as needed, in a wrong order or missing, as far as these are
installed, or with --quick 13; and generated jobs of objects, archives, whole archives and groups, every other one with shared libraries
(tests/common/made_links.py), 1,000 of them or with --quick 100. Compared are the members of archives that ld takes, in their order, each with the file and
the symbol for which it is taken, from the map of the link; which file defines each symbol, from its cross references; and which
symbols are undefined or defined more than once, from its messages; which files are taken with --sysroot; and of each option
that `ld --help` prints, whether the next argument is its value. A symbol that no relocation uses is undefined for elfsee alone: those are counted. So are links that ld gives
up, without a map, since a shared library refers to a hidden symbol.

It needs Python 3 and from Debian gcc and binutils, and for all links g++, gfortran and the libraries. Without PROGRAM the repository's own is tested, and built first if it
is not built. The last line is `N passed, N failed`, and the status is 0 only if none failed and one passed.
"""

import os
import random
import re
import shutil
import subprocess
import sys
import tempfile

sys.dont_write_bytecode = True
sys.path.insert(0, os.path.join(os.path.dirname(os.path.realpath(__file__)), "..", "common"))
import made_links  # pylint: disable=wrong-import-position
import real_links  # pylint: disable=wrong-import-position
from testing import Counts, option_reader, program_of  # pylint: disable=wrong-import-position

PLAIN = {"PATH": "/usr/bin:/bin", "LC_ALL": "C"}
INCLUDED = "Archive member included to satisfy reference by file (symbol)"
NEEDED = "As-needed library included to satisfy reference by file (symbol)"


class Answer:
    """What elfsee says of a link."""

    def __init__(self, lines):
        self.files, self.reasons, self.keys, self.further = [], [], {}, []
        for line in lines:
            letter, fields = line[:1], line[2:].split(None, 4)
            if letter == "I":
                _, kind, archive, _, path = fields
                self.files.append((kind, f"{self.files[int(archive)][1]}({path})" if archive != "-" else path))
            elif letter == "W":
                taken, needer, symbol = line[2:].split(None, 2)
                by = "" if needer == "-" else self.files[int(needer)][1] + " "
                self.reasons.append((self.files[int(taken)][1], f"{by}({symbol})"))
            elif letter == "G":
                state, definer, _, symbol = line[2:].split(None, 3)
                self.keys[symbol] = (state, None if definer == "-" else self.files[int(definer)][1])
            elif letter == "M":
                self.further.append(line[2:].split(None, 1)[1])


class Linked:
    """What ld says of a link: its map and its messages."""

    def __init__(self, words):
        with tempfile.TemporaryDirectory() as folder:
            out, told = os.path.join(folder, "out"), os.path.join(folder, "map")
            done = subprocess.run(["ld", *words, "-o", out, "-Map", told, "--cref", "--noinhibit-exec", "--no-demangle"],
                                  capture_output=True, text=True, errors="surrogateescape", check=False, env=PLAIN)
            self.map = ""
            if os.path.exists(told):
                with open(told, errors="surrogateescape") as file:
                    self.map = file.read()
        # What a shared library lacks has no line.
        told = [line for line in done.stderr.splitlines() if ".so: undefined reference" not in line]
        # Then there is no map.
        self.is_given_up = not self.map and "is referenced by DSO" in done.stderr
        self.undefined = set(re.findall(r"undefined reference to `(.*?)'", "\n".join(told)))
        self.multiple = sorted(re.findall(r"multiple definition of `(.*?)'", done.stderr))

    def included(self, head):
        """The files that were taken, each with what for."""
        found = re.search(re.escape(head) + r"\n\n(.*?)\n\n(?=\S)", self.map, re.S)
        taken, file = [], None
        for line in found[1].split("\n") if found else ():
            words = line.split(None, 1)
            if line[:1] not in ("", " "):
                file, words = words[0], words[1:]
            if file and words:
                taken.append((file, line.split(None, 1)[1].strip() if line[:1] != " " else line.strip()))
        return [pair for pair in taken if "--whole-archive" not in pair[1]]

    def references(self):
        """The files of each symbol, the one that defines it first."""
        place, table, symbol = self.map.find("\nCross Reference Table\n"), {}, None
        for line in self.map[place:].splitlines()[4:] if place >= 0 else ():
            words = line.split(None, 1)
            if line[:1] not in ("", " "):
                symbol = words[0]
                table[symbol], words = [], words[1:]
            if symbol and words:
                table[symbol].append(line.split(None, 1)[1].strip() if line[:1] != " " else line.strip())
        return table


class Links(Counts):
    """Links by elfsee and by ld."""

    def __init__(self, program):
        super().__init__()
        self.program, self.symbols, self.members, self.unused, self.given_up, self.undecided = program, 0, 0, 0, 0, 0

    def compare(self, what, words, is_first):
        """`is_first` says that of the files that ld names for a symbol the first is the one that counts."""
        done = subprocess.run([self.program, "resolve", "--", *words], capture_output=True, text=True, errors="surrogateescape",
                              check=False, timeout=120, env=PLAIN)
        answer, linked = Answer(done.stdout.splitlines()), Linked(words)
        if linked.is_given_up:
            self.given_up += 1
            return
        self.quiet_case(what, "" if done.returncode in (0, 1) and linked.map else f"status {done.returncode}: {done.stderr}")
        self.check(f"{what}: members", linked.included(INCLUDED), answer.reasons)
        self.members += len(answer.reasons)
        table, wrong = linked.references(), []
        for symbol, (_, definer) in answer.keys.items():
            if definer is not None and symbol in table:
                self.symbols += 1
                if definer not in (table[symbol][:1] if is_first else table[symbol]):
                    wrong.append((symbol, table[symbol], definer))
        self.check(f"{what}: definers", [], wrong)
        undefined = {symbol for symbol, (state, _) in answer.keys.items() if state in ("undef", "order")}
        self.check(f"{what}: undefined", set(), linked.undefined - undefined)
        self.unused += len(undefined - linked.undefined)
        self.check(f"{what}: multiple", linked.multiple, sorted(answer.further))

    def compare_value(self, option):
        """Whether the next argument is an option's value, or a file, which is missing."""
        words = [option, "value.o", "-o", "out"]
        told = subprocess.run(["ld", *words], stdin=subprocess.DEVNULL, capture_output=True, text=True, check=False, env=PLAIN).stderr
        is_value = "no input files" in told or "value.o" in told and "cannot find value.o:" not in told
        done = subprocess.run([self.program, "resolve", "--", *words], capture_output=True, text=True, check=False, env=PLAIN)
        # Without either, ld ended for another reason.
        if done.stderr.startswith("elfsee: word") or not is_value and "cannot find value.o:" not in told:
            self.undecided += 1
        else:
            has_value = done.stderr == "elfsee: no input files\n" or " -lvalue.o\n" in done.stdout
            self.check(f"{option} value.o: whether it is a value, and a file", (is_value, not is_value), (has_value, " value.o\n" in done.stdout))


    def compare_roots(self, folder):
        """Links with a root of the linker's directories: their libraries, and scripts below it and elsewhere."""
        root, place = os.path.join(folder, "root"), "lib/x86_64-linux-gnu"
        below = os.path.join(root, place)
        os.makedirs(below)
        os.makedirs("beside")
        os.symlink(root, "other")
        for name, text in (("bar", "int bar(void) { return 1; }"), ("root_main", "int bar(void); int _start(void) { return bar(); }")):
            subprocess.run(["gcc", "-c", "-xc", "-", "-o", f"{name}.o"], input=text, text=True, check=True, env=PLAIN)
        for archive in (f"{below}/libbar.a", "beside/libbeside.a"):
            subprocess.run(["ar", "rcs", archive, "bar.o"], check=True, env=PLAIN)
        for name, text in ((f"{below}/libabsolute.so", f"GROUP ( /{place}/libbar.a )"), (f"{below}/librelative.so", "GROUP ( libbar.a )"),
                           (f"{below}/liboutside.so", f"INPUT ( {folder}/beside/libbeside.a )"), ("beside/libname.so", "INPUT ( -lbar )"),
                           ("beside/libequals.so", f"INPUT ( =/{place}/libbar.a )"), ("beside/libabsent.so", f"INPUT ( /{place}/libbar.a )")):
            with open(name, "w", encoding="utf-8") as file:
                file.write(text + "\n")
        for words in (["-lbar"], ["-labsolute"], ["-lrelative"], ["-l:libbar.a"], ["-Lbeside", "-lname"], ["-Lbeside", "-lequals"],
                      [f"{below}/libabsolute.so"], [f"root/{place}/libabsolute.so"], [f"-Lroot/{place}", "-labsolute"]):
            for option in (f"--sysroot={root}", f"--sysroot={root}/", "--sysroot=root", f"--sysroot={folder}/other"):
                self.compare(f"{option} {' '.join(words)}", [option, "root_main.o", *words], True)
            self.compare(f"{' '.join(words)} and a root at the end", ["--sysroot=beside", "root_main.o", *words, f"--sysroot={root}"], True)
        for words in (["-Lbeside", "-labsent"], ["-loutside"], [f"/{place}/libbar.a"], ["--sysroot=", "-lbar"], ["--sysroot", root, "-lbar"]):
            words = [f"--sysroot={root}" if words[0][:3] != "--s" else "-pie", "root_main.o", *words]
            errors = subprocess.run(["ld", *words, "-o", "out"], capture_output=True, text=True, check=False, env=PLAIN).stderr
            done = subprocess.run([self.program, "resolve", "--", *words], capture_output=True, text=True, check=False, env=PLAIN)
            missing = [line for line in done.stdout.splitlines() if line[:1] == "I" and line.split()[2] == "missing"]
            self.check(f"{' '.join(words)}: a file is missing", (True, 1), ("cannot find" in errors, len(missing)))


def options_of_ld():
    """The options that ld prints, except those of other formats and those at which it ends."""
    text = subprocess.run(["ld", "--help"], stdout=subprocess.PIPE, text=True, check=False, env=PLAIN).stdout
    heads = re.findall(r"^  (-\S.*?)(?:  |$)", text.partition("\ni386p")[0], re.M)
    names = [re.split(r"[ =\[]", name)[0] for head in heads for name in head.split(", ")]
    return [name for name in dict.fromkeys(names) if name not in ("--help", "--target-help", "--version", "-V")]


def main():
    reader = option_reader(__doc__)
    reader.add_argument("--quick", action="store_true")
    reader.add_argument("--jobs", type=int)
    given = reader.parse_args()
    count = given.jobs if given.jobs is not None else 100 if given.quick else 1000
    links, rng, left_out = Links(program_of(given)), random.Random(2240), []
    if not shutil.which("gcc") or not shutil.which("ld"):
        print("gcc and ld are not installed, so nothing is compared")
        return links.end(True)
    with tempfile.TemporaryDirectory() as folder:
        os.chdir(folder)
        for what, text in list(real_links.LINKS.items())[:real_links.QUICK if given.quick else None]:
            command = real_links.command_of(text, folder)
            if command is None:
                left_out.append(what)
            else:
                links.compare(what, real_links.words_of(command), True)
        for number in range(count):
            files, words = made_links.random_job(rng, made_links.PLAIN_NAMES, 1, 3 * (number % 2))
            for name, content in files.items():
                with open(name, "wb") as file:
                    file.write(content)
            links.compare(f"job {number}: {b' '.join(words).decode()}", [os.fsdecode(word) for word in words], False)
        for option in options_of_ld():
            links.compare_value(option)
        links.compare_roots(folder)
        os.chdir("/")
    if left_out:
        print(f"left out, since something is not installed: {'; '.join(left_out)}")
    print(f"{links.members} members and {links.symbols} symbols are the same; {links.unused} undefined symbols are used by "
          f"no relocation; {links.given_up} links that ld gives up and {links.undecided} options are not compared")
    return links.end()


if __name__ == "__main__":
    sys.exit(main())
