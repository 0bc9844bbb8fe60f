#!/usr/bin/env python3
"""Compares the rows at a byte of a file, and those of an address, with a second reckoning of where rows are.

    tests/gate/rows_at_places.py [--program PROGRAM] [--quick] [FOLDER OR FILE..]

For ELF files below the directories, or without one below /usr/bin and /usr/lib, the program lists all rows as
objects. Where the record of each is, and which bytes and addresses it describes, is computed here from the file's
bytes. Then `--at` and `--address`, alone, together and with `--only`, must print what is left of that listing, at the
first and the last byte of some rows, at the bytes before and after them, and at places of chance. The same for changed
copies of files that tests/common/hostile_copies.py makes: there the offset of each refusal must have a row of a header or
a record, if the headers are listed without a fault. The symbols of an address must be those that `nm` has
there, if there is one: 10,000 addresses, with `--quick` fewer. Last, by a copy with a fault: `list`, `archive` and numbers
that are refused. It needs Python 3. The last line is `N passed, N failed`."""

import json
import os
import random
import struct
import subprocess
import sys
import tempfile

sys.dont_write_bytecode = True
sys.path.insert(0, os.path.join(os.path.dirname(os.path.realpath(__file__)), "..", "common"))
import hostile_copies
from testing import Counts, option_reader, program_of

NONE = (0, 0)
IN_MEMORY = (1, 2, 4, 7, 0x6474e552)
RECORDS = {"DEF": 20, "FILE": 16, "NEED": 16}
MOST_BYTES = 400000
counts = Counts()
check = counts.quiet_case


class Places:
    """Where the rows of a file are, row after row of a listing."""

    def __init__(self, content):
        self.content = content
        self.type = self.number(16, 2)
        self.phoff, self.shoff = self.number(32, 8), self.number(40, 8)
        self.phnum, self.shnum = self.number(56, 2), self.number(60, 2)
        self.entries, self.notes, self.records = {}, {}, {}
        self.dynamic = None

    def number(self, at, width):
        return int.from_bytes(self.content[at : at + width], "little")

    def section(self, index):
        return self.shoff + 64 * index

    def start(self, index):
        return self.number(self.section(index) + 24, 8)

    def of(self, row):
        """The record of a row, the bytes and the addresses that it describes, each a start and a size."""
        return getattr(self, "of_" + row["line"])(row)

    def of_H(self, row):
        return (0, 64), NONE, NONE

    def of_S(self, row):
        at = self.section(row["index"])
        flags, address, offset, size = struct.unpack_from("<4Q", self.content, at + 8)
        held = NONE if self.number(at + 4, 4) == 8 else (offset, size)
        return (at, 64), held, (address, size) if flags & 2 else NONE

    def of_P(self, row):
        at = self.phoff + 56 * row["index"]
        offset, address, _, filesz, memsz = struct.unpack_from("<5Q", self.content, at + 8)
        return (at, 56), (offset, filesz), (address, memsz) if self.number(at, 4) in IN_MEMORY else NONE

    def of_Y(self, row):
        at = self.symbols(row["table"]) + 24 * row["index"]
        kind, place = self.content[at + 4] % 16, self.number(at + 6, 2)
        value, size = struct.unpack_from("<2Q", self.content, at + 8)
        has = kind not in (3, 4, 6) and (0 < place < 0xff00 or place == 0xfff1)
        return (at, 24), NONE, (value, size or 1) if has else NONE

    def symbols(self, index):
        """The offset of the symbols of a section, or without section headers of a segment of dynamic entries, one of which has their address."""
        if self.shnum:
            return self.start(index)
        at = self.number(self.phoff + 56 * index + 8, 8)
        while self.number(at, 8) != 6:
            at += 16
        address = self.number(at + 8, 8)
        for head in range(self.phoff, self.phoff + 56 * self.phnum, 56):
            offset, start, _, size = struct.unpack_from("<4Q", self.content, head + 8)
            if self.number(head, 4) == 1 and start <= address < start + size:
                return offset + address - start
        raise ValueError(f"no segment has {address:#x}")

    def of_R(self, row):
        if row["table"] not in self.entries:
            self.entries[row["table"]] = self.relocations(row["table"])
        at, size, address = next(self.entries[row["table"]])
        return (at, size), NONE, (address, 8) if self.type in (2, 3) else NONE

    def relocations(self, index):
        """The records of a section with relocation entries, each with its size and address; a word of RELR with each of its addresses."""
        at, kind, behind = self.start(index), self.number(self.section(index) + 4, 4), 0
        size = {9: 16, 19: 8}.get(kind, 24)
        while True:
            number = self.number(at, 8)
            if kind == 19 and number % 2:
                yield from ((at, size, behind + 8 * bit) for bit in range(63) if number >> 1 + bit & 1)
                behind += 504
            else:
                yield at, size, number
                behind = number + 8
            at += size

    def of_N(self, row):
        at = self.section(row["index"]) if self.shnum else self.phoff + 56 * row["index"]
        start, align = (self.number(at + 24, 8), self.number(at + 48, 8)) if self.shnum else (self.number(at + 8, 8), self.number(at + 48, 8))
        align = 8 if align == 8 else 4
        place = self.notes.get(row["index"], start)
        names, descriptors = self.number(place, 4), self.number(place + 4, 4)
        size = 12 + names
        size += (-size % align if descriptors else 0) + descriptors
        size += -size % align
        self.notes[row["index"]] = place + size
        return (place, size), NONE, NONE

    def of_D(self, row):
        if row["index"] == 0:
            self.dynamic = self.next_dynamic()
        return (self.dynamic + 16 * row["index"], 16), NONE, NONE

    def next_dynamic(self):
        """The offset of the next table of dynamic entries that has one."""
        if not hasattr(self, "tables"):
            if self.shnum:
                self.tables = iter([self.start(i) for i in range(self.shnum) if self.number(self.section(i) + 4, 4) == 6
                                    and self.number(self.section(i) + 32, 8)])
            else:
                heads = [self.phoff + 56 * i for i in range(self.phnum)]
                self.tables = iter([self.number(at + 8, 8) for at in heads if self.number(at, 4) == 2 and self.number(at + 32, 8)])
        return next(self.tables)

    def of_V(self, row):
        if row["index"] not in self.records:
            self.records[row["index"]] = self.walk(row["index"])
        at, named = next(self.records[row["index"]])
        return (at, RECORDS[row["kind"]]), (named, 8), NONE

    def walk(self, index):
        """The records of a section of definitions or needs, and what has the index of their name."""
        at = self.start(index)
        if self.number(self.section(index) + 4, 4) == 0x6ffffffd:
            while True:
                yield at, at + self.number(at + 12, 4)
                at += self.number(at + 16, 4)
        while True:
            yield at, at
            version = at + self.number(at + 8, 4)
            while self.number(at + 8, 4):
                yield version, version
                if not self.number(version + 12, 4):
                    break
                version += self.number(version + 12, 4)
            at += self.number(at + 12, 4)

    def of_X(self, row):
        return (self.start(row["table"]) + 2 * row["index"], 2), NONE, NONE


def holds(extent, place):
    return extent[0] <= place < extent[0] + extent[1]


def run(program, *words):
    done = subprocess.run([program, *words], stdout=subprocess.PIPE, stderr=subprocess.PIPE, check=False)
    return done.stdout.splitlines(keepends=True), done.returncode, done.stderr


def rows_of(program, path, content, *options):
    """The lines of a listing, each with where its row is, and the status."""
    lines, status, _ = run(program, "show", "--json", *options, path)
    places = Places(content)
    return [(line, None if row["line"] == "!" else places.of(row)) for line in lines for row in [json.loads(line)]], status


def is_shown(place, at, address):
    if place is None:
        return True
    return ((at is None or holds(place[0], at) or holds(place[1], at))
            and (address is None or holds(place[2], address)))


def compare(program, path, name, rows, status, at, address, *options):
    words = [*options] + (["--at", chosen(at)] if at is not None else []) + (["--address", chosen(address)] if address is not None else [])
    wanted = [line for line, place in rows if is_shown(place, at, address)]
    lines, ended, said = run(program, "show", "--json", *words, path)
    wrong = f"{len(lines)} lines for {len(wanted)}" if lines != wanted else f"status {ended} for {status}" if ended != status else said
    check(f"{name} {' '.join(words)}", wrong and str(wrong))
    return len(wanted)


def chosen(number):
    return hex(number) if number % 2 else str(number)


def edges(extent):
    """The first byte, the last one, and those before and after them."""
    start, size = extent
    return [n for n in (start - 1, start, start + size - 1, start + size) if 0 <= n < 1 << 64] if size else []


def compare_file(program, path, name, content, chance, count, *options):
    rows, status = rows_of(program, path, content, *options)
    placed = [place for _, place in rows if place is not None]
    for _ in range(count):
        if placed and chance.random() < 0.8:
            place = chance.choice(placed)
            at = chance.choice(edges(place[0]) + edges(place[1]) + [chance.randrange(len(content))])
            address = chance.choice(edges(place[2]) + [chance.choice([p[2][0] for p in placed])])
        else:
            at, address = chance.randrange(len(content)), chance.choice((0, 1, (1 << 64) - 1, chance.randrange(1 << 22)))
        which = chance.randrange(5)
        compare(program, path, name, rows, status, at if which != 1 else None, address if which in (1, 2) else None, *options)
    ended = [json.loads(line) for line, place in rows if place is None]
    if ended:
        at = ended[0]["place"]
        compare(program, path, name, rows, status, at, None, *options)


def compare_copies(program, chance, count):
    """Changed copies: the offset of a refusal is of a header or a record."""
    found = 0
    with tempfile.TemporaryDirectory() as folder:
        files = hostile_copies.made_files(folder)
        if not files:
            return
        names = sorted(files)
        path = os.path.join(folder, "copy")
        for _ in range(count):
            content = hostile_copies.changed(files[chance.choice(names)], chance)
            with open(path, "wb") as file:
                file.write(content)
            lines, status, _ = run(program, "show", "--gnu", path)
            heads, ended, _ = run(program, "show", "--gnu", "--only", "header,sections,segments", path)
            if status != 1 or len(content) < 64:
                continue
            at = int(lines[-1].split()[1], 16)
            shown, code, _ = run(program, "show", "--gnu", "--at", hex(at), path)
            check(f"copy, --at {at:#x}: ends alike", (code, shown[-1:]) != (1, lines[-1:]) and str(shown[-1:]))
            check(f"copy, --at {at:#x}: some of the rows", not set(shown) <= set(lines) and "other rows")
            if ended == 0 and at < len(content):
                here, code, _ = run(program, "show", "--gnu", "--only", "header,sections,segments", "--at", hex(at), path)
                held = at < 64 or any(line in heads for line in here)
                check(f"copy, --at {at:#x}: its header", (code or not held) and f"status {code}, {len(here)} rows")
                found += 1
            compare_file(program, path, f"copy of {at:#x}", content, chance, 2, "--gnu")
    print(f"{found} refusals had the row of a header or of a record")


def compare_names(program, paths, chance, count):
    """The symbols of addresses, as `nm` has them."""
    left = count
    for path in paths:
        if left <= 0:
            break
        done = subprocess.run(["nm", "-D", "--format=sysv", "--defined-only", path], stdout=subprocess.PIPE, stderr=subprocess.DEVNULL, check=False)
        # The name, the value, a letter, the type and the size. A thread's symbol has no address.
        rows = [[cell.strip() for cell in line.split("|")] for line in done.stdout.decode(errors="replace").splitlines()]
        known = [(int(row[1], 16), int(row[4], 16), row[0].split("@")[0]) for row in rows
                 if len(row) == 7 and row[1] and row[4] and row[2] in "TtWwi" and row[3] != "TLS"]
        if not known:
            continue
        for value, size, name in chance.sample(known, min(len(known), 40, left)):
            address = value + chance.randrange(size) if size else value
            lines, status, _ = run(program, "show", "--json", "--dynamic", "--names", "4096", "--address", hex(address), path)
            rows = [json.loads(line) for line in lines]
            there = {row["name"] for row in rows if row["line"] == "Y"}
            wanted = {other for start, long, other in known if start <= address < start + long or (start == address and not long)}
            check(f"{path} --address {address:#x}", not wanted <= there and f"{wanted - there} are missing")
            left -= 1
    print(f"{count - left} addresses were compared with nm")


def try_commands(program):
    """Other commands, and numbers that are refused."""
    with tempfile.TemporaryDirectory() as folder:
        path = os.path.join(folder, "object")
        with open(path, "wb") as file:
            file.write(b"\x7fELF\x02\x01\x01" + bytes(9) + struct.pack("<2HI3QI6H", 1, 62, 1, 0, 0, 0, 0, 64, 0, 0, 0, 0, 0))
        shown = run(program, "show", "--at", "63", path)[0]
        check("the header at its last byte", len(shown) != 1 and str(shown))
        check("nothing after it", run(program, "show", "--at", "64", path)[:2] != ([], 0) and "some row")
        head = b"@ " + os.fsencode(path) + b"\n"
        check("list", run(program, "list", "--at", "0", path)[0] != [head, *shown] and "other lines")
        check("list without a row", run(program, "list", "--address", "0", path)[0] != [head] and "other lines")
        for command in ("show", "archive", "list"):
            for option in ("--at", "--address"):
                for text in ("", "x", "0x", "-1", "1.5", "0xg", "ff", str(1 << 64), "0x1" + 16 * "0"):
                    lines, status, said = run(program, command, f"{option}={text}", path)
                    check(f"{command} {option}={text}", (lines, status, said[:7]) != ([], 2, b"error: ") and str((lines, status, said)))


def elf_files(places):
    for place in places:
        names = [place] if not os.path.isdir(place) else sorted(
            os.path.join(folder, name) for folder, _, names in os.walk(place) for name in names)
        for path in names:
            if os.path.isfile(path) and not os.path.islink(path) and os.path.getsize(path) < MOST_BYTES:
                with open(path, "rb") as file:
                    if file.read(5) == b"\x7fELF\x02":
                        yield path


def main():
    parser = option_reader(__doc__)
    parser.add_argument("--quick", action="store_true")
    parser.add_argument("places", nargs="*")
    given = parser.parse_args()
    program = program_of(given)
    chance = random.Random(7)
    paths = list(elf_files(given.places or ["/usr/bin", "/usr/lib"]))
    for path in chance.sample(paths, min(len(paths), 6 if given.quick else 60)):
        with open(path, "rb") as file:
            content = file.read()
        for options in ((), ("--gnu",), ("--only", "symbols,relocs")):
            compare_file(program, path, path, content, chance, 6 if given.quick else 30, *options)
    compare_copies(program, chance, 60 if given.quick else 2000)
    compare_names(program, chance.sample(paths, len(paths)), chance, 100 if given.quick else 10000)
    try_commands(program)
    sys.exit(counts.end())


main()
