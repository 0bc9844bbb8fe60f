#!/usr/bin/env python3
"""Lists every ELF file of the machine whole, part by part, and with names of other lengths, and compares.

    tests/machine/parts_of_files.py [--program PROGRAM] [FOLDER OR FILE..]

Without arguments all files of the machine that begin as ELF files do are listed, except those of /proc, /sys and
/dev. The output of `show FILE` must be that of the parts given with `--only`, in order, up to
the first refusal, and that of several parts in any order those of each; and with `--names` 1, 63, 64 and 256 it must be that of `--names 4096`, with each name
of more bytes cut to that many and marked. Files with a name without an end are left out of the second, since
a shorter cut may show such a name. It needs Python 3. The last line is `N passed, N failed`."""

import os
import random
import re
import subprocess
import sys

sys.dont_write_bytecode = True
sys.path.insert(0, os.path.join(os.path.dirname(os.path.realpath(__file__)), "..", "common"))
from machine_files import elf_files
from testing import option_reader, program_of

PARTS = ["header", "sections", "segments", "symbols", "relocs", "notes", "dynamic"]
HEX8, HEX16 = rb"[0-9a-f]{8} ", rb"[0-9a-f]{16} "
# What comes before the name in a line that has one.
FRONTS = {
    b"S": re.compile(rb"S .{5} \S+ +(?:\S+ +)?" + HEX16 * 3 + HEX8 * 2),
    b"Y": re.compile(rb"Y .{5} .{10} " + HEX16 * 2 + rb".{7} .{6} .{9} .{5} "),
    b"R": re.compile(rb"R .{5} " + HEX16 + rb"\S+ +" + HEX8 + rb"(?:[+-]" + HEX16 + rb"|- {17})"),
    b"D": re.compile(rb"D .{5} \S+ +" + HEX16),
    b"N": re.compile(rb"N .{5} " + HEX8 * 3),
}
BYTE = re.compile(rb"\\x[0-9a-f]{2}|\\\\|[^\\]")


def show(program, path, *options):
    """What the program writes of a file, and its status."""
    words = [program, "show", "--headers", "65279", *options, "--", path]
    done = subprocess.run(words, stdin=subprocess.DEVNULL, stdout=subprocess.PIPE, timeout=300)
    return done.stdout, done.returncode


def shortened(name, most):
    """A name as it is shown where at most a given number of its bytes are."""
    if len(name) <= most:
        return name
    shown = BYTE.findall(name)
    if len(shown) <= most:
        return name
    return b"".join(shown[:most]) + rb"\+"


def cut_line(line, most):
    """A line of a listing with its name cut."""
    front = FRONTS.get(line[:1])
    if front is None or line[1:2] != b" ":
        return line
    place = front.match(line)
    if place is None:
        raise ValueError(f"a line of another form: {line!r}")
    name, behind = line[place.end():], b""
    if line[:1] == b"N":
        name, space, descriptor = name.rpartition(b" ")
        behind = space + descriptor
    return line[:place.end()] + shortened(name, most) + behind


def joined(told, parts):
    """The listings of some parts, in the order of the whole listing up to the first refusal, and the status."""
    text, status = b"", 0
    for part in parts:
        written, status = told[part]
        text += written
        if status:
            break
    return text, status


def compare_parts(program, path, whole, chance):
    """Says how the parts of a file differ from its whole listing, if they do, or several from each of them."""
    told = {part: show(program, path, "--only", part) for part in PARTS}
    if joined(told, PARTS) != whole:
        return "its parts are not its listing"
    for _ in range(3):
        some = chance.sample(PARTS, chance.randrange(2, len(PARTS) + 1))
        names = ",".join(some + some[:chance.randrange(2)])
        if show(program, path, "--only", names) != joined(told, [part for part in PARTS if part in some]):
            return f"the parts {names} are not each of them"
    return ""


def compare_names(program, path):
    """Says how names of other lengths differ from those of 4,096 bytes, if they do; None if a name has no end."""
    text, status = show(program, path, "--names", "4096")
    if text.endswith(b" name-unended\n"):
        return None
    lines = text.split(b"\n")
    for most in (1, 63, 64, 256):
        written, ended = show(program, path, "--names", str(most))
        wanted = b"\n".join(cut_line(line, most) for line in lines)
        if (written, ended) != (wanted, status):
            return f"with --names {most} its names are not those that were cut"
    return ""


def main():
    parser = option_reader(__doc__)
    parser.add_argument("places", nargs="*", default=["/"])
    given = parser.parse_args()
    program = program_of(given)
    chance = random.Random(7)
    passed = failed = refused = unended = 0
    for path in elf_files(given.places):
        whole = show(program, path)
        if whole[1] not in (0, 1):
            said = f"status {whole[1]}"
        else:
            refused += whole[1]
            said = compare_parts(program, path, whole, chance)
            if not said:
                said = compare_names(program, path)
                unended += said is None
        if said:
            print(f"FAILED {path}: {said}")
            failed += 1
        else:
            passed += 1
    print(f"{refused} of them refused, {unended} with a name that has no end")
    print(f"{passed} passed, {failed} failed")
    sys.exit(failed != 0 or passed == 0)


if __name__ == "__main__":
    main()
