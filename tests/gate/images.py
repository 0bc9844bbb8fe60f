#!/usr/bin/env python3
"""Tests `image` over a file that is made here: its image by items, with changes of the file, and limits on what is read
and written.

    tests/gate/images.py [--program PROGRAM]

Each case is a change of the file or of the items, with the first eight words of the image, or the line of the
refusal; or a limit, with the image or the refusal `budget` alone. Without PROGRAM the repository's own is used, and
built first if it is not built. The last line is `N passed, N failed`."""

import os
import struct
import subprocess
import sys
import tempfile

sys.path.insert(0, os.path.join(os.path.dirname(os.path.dirname(os.path.realpath(__file__))), "common"))
import testing  # noqa: E402

ITEMS = ("base=0x7f0000000000", "sym:1=0x4010", "ires:0x100=0x5555")
PLAIN = "7f0000000010 11 7f0000000012 7f0000001200 5555 7f00 4010 0"
UNPLACED = "7f0000000010 11 7f0000000012 7f0000001200 5555 15 4010 0"


def words(*numbers):
    """Words of 8 bytes."""
    return struct.pack(f"<{len(numbers)}Q", *numbers)


def small_file():
    """A shared object of 880 bytes: two LOAD segments, one of them writable, and relocations of each table."""
    head = b"\x7fELF\2\1\1" + bytes(9) + struct.pack("<HHIQQQIHHHHHH", 3, 62, 1, 0, 64, 0, 0, 64, 56, 3, 0, 0, 0)
    segments = [(1, 4, 0, 0, 0, 0x200, 0x200, 0x1000), (1, 6, 0x200, 0x1200, 0x1200, 0x170, 0x190, 0x1000),
                (2, 6, 0x280, 0x1280, 0x1280, 0xf0, 0xf0, 8)]
    text = head + b"".join(struct.pack("<IIQQQQQQ", *segment) for segment in segments)
    symbols = [(0, 0, 0, 0, 0, 0), (1, 0x12, 0, 0, 0, 0), (3, 0x20, 0, 0, 0, 0), (5, 0x11, 0, 5, 0x1210, 8)]
    text += b"".join(struct.pack("<IBBHQQ", *symbol) for symbol in symbols)
    text += b"\0f\0w\0d\0".ljust(8, b"\0") + words(0x1200, 5)
    entries = [(0x1218, 8, 0, 0x1200), (0x1220, 37, 0, 0x100), (0x1224, 1, 3, 4), (0x1230, 7, 1, 0), (0x1238, 7, 2, 0)]
    text += b"".join(struct.pack("<QIIq", *entry) for entry in entries)
    text += struct.pack("<7I", 1, 4, 3, 0, 0, 1, 2)
    text = text.ljust(0x200, b"\0") + words(*range(0x10, 0x20))
    rows = [(6, 0xe8), (5, 0x148), (10, 7), (4, 0x1d8), (36, 0x150), (35, 16), (37, 8), (7, 0x160), (8, 72), (9, 24),
            (0x6ffffff9, 1), (23, 0x1a8), (2, 48), (20, 7), (0, 0)]
    return text + b"".join(words(*row) for row in rows)


def word_at(at, *numbers):
    """A change of words."""
    return {at: words(*numbers)}


def half_at(at, number):
    """A change of two bytes."""
    return {at: struct.pack("<H", number)}


# Of each case its name, the changes of the file, the items, the segment, and the first eight words or the refusal.
CASES = [
    ("none", {}, ITEMS, 1, PLAIN),
    ("no sym:1", {}, (ITEMS[0], ITEMS[2]), 1, "! 00000000000001a8 undefined"),
    ("no ires:", {}, ITEMS[:2], 1, "! 0000000000000178 unplaced"),
    ("sym:2", {}, (*ITEMS, "sym:2=0x9"), 1, PLAIN[:-1] + "9"),
    ("sym:3", {}, (*ITEMS, "sym:3=0x9"), 1, "7f0000000010 11 7f0000000012 7f0000001200 5555 0 4010 0"),
    ("call:1", {}, (*ITEMS, "call:1=0x8"), 1, "7f0000000010 11 7f0000000012 7f0000001200 5555 7f00 8 0"),
    ("segment 0", {}, ITEMS, 0, "10102464c457f 0 1003e0003 0 40 0 38004000000000 3"),
    ("segment 2", {}, ITEMS, 2, "! 0000000000000038 bad-link"),
    ("segment 3", {}, ITEMS, 3, "! 0000000000000038 bad-link"),
    ("e_type 1", half_at(0x10, 1), ITEMS, 1, "! 0000000000000010 not-image"),
    ("e_machine 183", half_at(0x12, 183), ITEMS, 1, "! 0000000000000012 not-image"),
    ("p_offset 0x201", word_at(0x80, 0x201), ITEMS, 1, "! 0000000000000078 load-align"),
    ("p_filesz 0x191", word_at(0x98, 0x191), ITEMS, 1, "! 0000000000000078 table-outside"),
    ("RELR 5, 0x1200", word_at(0x150, 5, 0x1200), ITEMS, 1, "! 0000000000000150 relr"),
    ("RELR 0x1204", word_at(0x158, 0x1204), ITEMS, 1, "! 0000000000000158 relr"),
    ("RELR 0x1202, 1", word_at(0x150, 0x1202, 1), ITEMS, 1, "7f00000000000010 11 12 7f0000001200 5555 7f00 4010 0"),
    ("RELR 0x1388", word_at(0x158, 0x1388), ITEMS, 1, "7f0000000010 11 12 7f0000001200 5555 7f00 4010 0"),
    ("RELR 0x1389", word_at(0x158, 0x1389), ITEMS, 1, "7f0000000010 11 12 7f0000001200 5555 7f00 4010 0"),
    ("RELR 0x138a", word_at(0x158, 0x138a), ITEMS, 1, "! 0000000000000158 place-outside"),
    ("RELR 0x1280", word_at(0x158, 0x1280), ITEMS, 1, "! 0000000000000158 table-written"),
    ("RELRENT 16", word_at(0x2e8, 16), ITEMS, 1, "! 00000000000002e0 entry-size"),
    ("RELRSZ 15", word_at(0x2d8, 15), ITEMS, 1, "! 00000000000002d0 size-not-whole"),
    ("no RELRSZ", word_at(0x2d0, 99), ITEMS, 1, "! 00000000000002c0 unmapped"),
    ("RELACOUNT 2", word_at(0x328, 2), ITEMS, 1, "! 0000000000000178 unsupported"),
    ("RELASZ 120", word_at(0x308, 120), ITEMS, 1, PLAIN),
    ("RELASZ 48", word_at(0x308, 48), ITEMS, 1, UNPLACED),
    ("PLTREL 17", word_at(0x358, 17), ITEMS, 1, "! 0000000000000350 unsupported"),
    ("two RELA", word_at(0x2b0, 7), ITEMS, 1, "! 00000000000002f0 repeat"),
    ("64 at 0x1388", word_at(0x190, 0x1388), ITEMS, 1, UNPLACED),
    ("64 at 0x1389", word_at(0x190, 0x1389), ITEMS, 1, "! 0000000000000190 place-outside"),
    ("64 at 0x100", word_at(0x190, 0x100), ITEMS, 1, "! 0000000000000190 place-outside"),
    ("kind 24", word_at(0x198, 3 << 32 | 24), ITEMS, 1, "! 0000000000000190 unsupported"),
    ("kind 8, symbol 9", word_at(0x198, 9 << 32 | 8), ITEMS, 1, PLAIN),
    ("symbol 0", word_at(0x198, 1), ITEMS, 1, "! 0000000000000190 unsupported"),
    ("symbol 12", word_at(0x198, 12 << 32 | 1), ITEMS, 1, "! 0000000000000190 symbol-index"),
    ("symbol 3 IFUNC", {0x134: b"\x1a"}, ITEMS, 1, "! 0000000000000190 unplaced"),
    ("symbol 3 ABS", half_at(0x136, 0xfff1), ITEMS, 1, "7f0000000010 11 7f0000000012 7f0000001200 5555 0 4010 0"),
    ("symbol 1 LOCAL", {0x104: b"\x02"}, ITEMS, 1, "! 00000000000001a8 undefined"),
    ("symbol 1 HIDDEN", {0x105: b"\x02"}, ITEMS, 1, "! 00000000000001a8 undefined"),
    ("LOAD 0 writable", {0x44: b"\6", **word_at(0x190, 0x100)}, ITEMS, 1, "! 0000000000000190 table-written"),
]


def image(program, path, *arguments):
    """What the program writes, and its status."""
    done = subprocess.run([program, "image", *arguments[:-1], path, *arguments[-1]], stdout=subprocess.PIPE,
                          stderr=subprocess.PIPE, check=False)
    return done.stdout, done.returncode


def shown(got):
    """The first eight words of an image, or the line of a refusal, with what does not fit the status."""
    text, status = got
    if status == 1:
        return text.decode().rstrip("\n")
    return " ".join(f"{word:x}" for word in struct.unpack_from("<8Q", text)) if status == 0 else f"status {status}"


# What an image of the file may read at most: the headers, the dynamic entries, the relocations twice, since its one window
# has some, the segment and 14 bytes at the window's edges.
COST = 64 + 3 * 56 + 0xf0 + 2 * (16 + 72 * 5) + 0x170 + 14


def try_limits(counts, program, path, whole):
    """A limit on what is read refuses alone, with nothing written, and only if it is below what may be read; one on what is
    written refuses exactly a larger segment, at its program header."""
    fault, was_enough = None, False
    for budget in (*range(0, COST, 3), COST, 2 * COST):
        text, status = image(program, path, "--max-read", str(budget), ["1", *ITEMS])
        is_refused = status == 1 and text.startswith(b"! ") and text.endswith(b" budget\n") and text.count(b"\n") == 1
        if not (is_refused and budget < COST and not was_enough or (text, status) == (whole, 0)):
            fault = fault or f"--max-read {budget}: status {status}, {text[:60]}"
        was_enough = status == 0
    counts.case("limits on what is read", fault)
    for most in (0, 399, 400, 401):
        wanted = (whole, 0) if most >= 400 else (b"! 0000000000000078 budget\n", 1)
        counts.check(f"--max-write {most}", wanted, image(program, path, "--max-write", str(most), ["1", *ITEMS]))


def main():
    given = testing.option_reader(__doc__).parse_args()
    program = testing.program_of(given)
    counts = testing.Counts()
    with tempfile.TemporaryDirectory() as room:
        path = os.path.join(room, "file")
        plain = small_file()
        for name, changes, items, segment, wanted in CASES:
            data = bytearray(plain)
            for at, text in changes.items():
                data[at:at + len(text)] = text
            with open(path, "wb") as file:
                file.write(data)
            got = image(program, path, [str(segment), *items])
            counts.check(name, wanted, shown(got))
            if name == "none":
                counts.check("the length", 400, len(got[0]))
                try_limits(counts, program, path, got[0])
    return counts.end()


if __name__ == "__main__":
    sys.exit(main())
