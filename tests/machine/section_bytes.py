#!/usr/bin/env python3
"""Writes the bytes of every section and program header of many files, and compares them with the file's.

    tests/machine/section_bytes.py --program PROGRAM [--most N] [FOLDER OR FILE..]

The offsets, sizes, types and names are those that readelf prints. Each section is written by its index; each that
is the first of its name, by its name too; each program header by its index; and the first section of some bytes
within a budget of what that costs, and of one byte less, which must be refused with nothing else written. Without
arguments the files are those of /usr, at most N of them, 300 if none is given. It needs Python 3 and binutils. The
last line is `N passed, N failed`."""

import argparse
import os
import re
import subprocess
import sys

SECTION = re.compile(rb"  \[ *(\d+)\] (.*)$")
HEADER = re.compile(rb"  (?:\S+(?:: \S+)?|LOOS\+\S+|<unknown>\S*) +0x([0-9a-f]+) 0x[0-9a-f]+ 0x[0-9a-f]+ 0x([0-9a-f]+) 0x")


def files(places, most):
    """The first ELF64 files of little-endian data below some places."""
    for place in places:
        for folder, below, names in os.walk(place) if os.path.isdir(place) else [(os.path.dirname(place), [], [os.path.basename(place)])]:
            below.sort()
            for name in sorted(names):
                path = os.path.join(folder, name)
                if most > 0 and os.path.isfile(path) and not os.path.islink(path):
                    try:
                        with open(path, "rb") as file:
                            if file.read(6) == b"\x7fELF\x02\x01":
                                most -= 1
                                yield path
                    except OSError:
                        pass


def readelf(path, *options):
    """The lines that readelf prints."""
    return subprocess.run(["readelf", "-W", *options, "--", path], stdout=subprocess.PIPE, stderr=subprocess.DEVNULL).stdout.split(b"\n")


def sections(path):
    """Of each section its index, name, type, offset and size."""
    for line in readelf(path, "-S"):
        if found := SECTION.match(line):
            rest = re.match(rb"(.*?) +(NULL|\S+) +([0-9a-f]{16}) ([0-9a-f]{6,}) ([0-9a-f]{6,}) ", found[2] + b" ")
            if rest:
                yield int(found[1]), rest[1].strip(), rest[2], int(rest[4], 16), int(rest[5], 16)


def run(program, *words):
    """What the program writes, and its status."""
    done = subprocess.run([program, "bytes", *words], stdout=subprocess.PIPE, stderr=subprocess.DEVNULL)
    return done.stdout, done.returncode


class Cases:
    """Counts of cases."""

    passed = failed = 0

    def wants(self, name, wanted, got):
        """A case."""
        if wanted == got:
            self.passed += 1
        else:
            self.failed += 1
            print(f"FAILED {name}: wanted {len(wanted[0])} bytes and {wanted[1]}, got {len(got[0])} and {got[1]}")


def compares(cases, program, path):
    """The cases of a file."""
    with open(path, "rb") as file:
        data = file.read()
    names, budgeted = set(), False
    few = ["--headers", "65279"]
    for index, name, kind, at, size in sections(path):
        if index == 0:
            cases.wants(f"{path} 0", (b"! 000000000000003c bad-link\n", 1), run(program, *few, path, "0"))
            continue
        wanted = b"" if kind in (b"NOBITS", b"NULL") else data[at:at + size]
        cases.wants(f"{path} {index}", (wanted, 0), run(program, *few, path, str(index)))
        text = name.decode("utf-8", "replace")
        if name and name not in names and re.match(r"[.A-Za-z]", text) and "[" not in text and "\ufffd" not in text:
            cases.wants(f"{path} {text}", (wanted, 0), run(program, *few, path, text))
        names.add(name)
        if wanted and not budgeted:
            budgeted = True
            cost = 64 + 64 * int.from_bytes(data[60:62], "little") + len(wanted)
            cases.wants(f"{path} {index} {cost}", (wanted, 0), run(program, *few, "--max-read", str(cost), path, str(index)))
            line = b"! %016x budget\n" % at
            cases.wants(f"{path} {index} {cost - 1}", (line, 1), run(program, *few, "--max-read", str(cost - 1), path, str(index)))
    cases.wants(f"{path} .no-such", (b"", 1), run(program, *few, path, ".no-such"))
    for index, found in enumerate(filter(None, map(HEADER.match, readelf(path, "-l")))):
        at, size = int(found[1], 16), int(found[2], 16)
        cases.wants(f"{path} segment {index}", (data[at:at + size], 0), run(program, *few, "--segment", str(index), path))


def main():
    words = argparse.ArgumentParser()
    words.add_argument("--program", required=True)
    words.add_argument("--most", type=int, default=300)
    words.add_argument("places", nargs="*", default=["/usr"])
    given = words.parse_args()
    cases = Cases()
    for path in files(given.places or ["/usr"], given.most):
        compares(cases, given.program, path)
    print(f"{cases.passed} passed, {cases.failed} failed")
    return 0 if cases.passed and not cases.failed else 1


sys.exit(main())
