#!/usr/bin/env python3
"""Compares docs/FORMAT.md with what the program prints.

    tests/machine/format.py [--program PROGRAM] [FOLDER..]

From the page it takes the drawings and the columns below them, and from examples/ the awk program and the
Python module that it names. The drawings must have their fields at those columns. Then each
ELF64 little-endian file below the directories (/usr/lib if none is given) is listed, and for a file that
is refused each part alone; before them a file that is made here, whose names have all bytes, spaces, backslashes, and as
many bytes as are shown, one less and one more, and which has rows whose fields grow. So are the
relocation entries and the versions of each file, with --gnu. The kinds of
lines must be in their order, and each line must have its fields at its columns, in
the form given there; the Python module must read it, and give names as bytes that are in the
file where its own headers say, which are read here by other code; the awk program must
give the same bytes for the names of symbols. In the file that is made here the names are looked up,
too, and so are names that it does not have; and a section is written that has the bytes of a refusal,
and one that is refused. An archive is made whose members have odd names, and a directory of files that are malformed,
well-formed, or no ELF files; both programs of examples/ read what is printed for them.

It needs Python 3.9 or newer and awk, and is no part of ./check. Over /usr/lib it may take some
minutes. The last line is `N passed, N failed`.
"""

import itertools
import mmap
import os
import re
import struct
import subprocess
import sys
import tempfile

sys.dont_write_bytecode = True
sys.path.insert(0, os.path.join(os.path.dirname(os.path.realpath(__file__)), "..", "common"))
from format_page import PAGE, odd_names, pattern_of, tables_of, write_odd_file
from testing import TOP, Claims, option_reader, program_of

PARTS = ["header", "sections", "segments", "symbols", "relocs", "notes", "dynamic"]
CAP = 256


def check_drawing(counts, letter, drawing, rows):
    """The digits below the line begin at the fields' columns, and so do their names."""
    line, marks, names = drawing[0], drawing[1], drawing[2:]
    counts.check(f"drawing of {letter}", line.startswith(letter + " "), line)
    for number, first, dash, last, name, _ in rows[1:]:
        begin, end = int(first), int(last) if last else len(line)
        mark = number.ljust(end - begin + 1, "-")
        counts.check(f"drawing of {letter}, field {number}",
                     marks[begin - 1:begin - 1 + len(mark)] == mark, marks)
        counts.check(f"drawing of {letter}, name of field {number}",
                     any(row[begin - 1:begin - 1 + len(name)] == name for row in names), name)


class File:
    """A file, read by its headers with nothing of the program's."""

    def __init__(self, path):
        self.file = open(path, "rb")
        self.bytes = mmap.mmap(self.file.fileno(), 0, access=mmap.ACCESS_READ)
        (shoff,) = struct.unpack_from("<Q", self.bytes, 40)
        shnum, names = struct.unpack_from("<HH", self.bytes, 60)
        self.sections = [struct.unpack_from("<IIQQQQIIQQ", self.bytes, shoff + 64 * i)
                         for i in range(shnum)]
        self.names = names
        self.dynamic_strings = {section[6] for section in self.sections if section[1] == 6}

    def close(self):
        self.bytes.close()
        self.file.close()

    def string(self, table, index):
        """The first bytes of a string of a table, and whether it ends there."""
        begin = self.sections[table][4] + index
        end = self.bytes.find(b"\0", begin, begin + CAP + 1)
        return (self.bytes[begin:end], True) if end >= 0 else (self.bytes[begin:begin + CAP], False)

    def symbol(self, table, index):
        at = self.sections[table][4] + 24 * index
        (name,) = struct.unpack_from("<I", self.bytes, at)
        return self.string(self.sections[table][6], name)

    def tables(self, kind):
        return [(index, section) for index, section in enumerate(self.sections) if section[1] == kind and section[5]]

    def records(self, index, section):
        """The rows of the definitions or needs of a section, from record to record."""
        at = section[4]
        while True:
            if section[1] == 0x6ffffffd:
                _, flags, number, _, value, name_at, behind = struct.unpack_from("<4H3I", self.bytes, at)
                (name,) = struct.unpack_from("<I", self.bytes, at + name_at)
                yield "V", index, "DEF", number, flags, value, self.string(section[6], name)
            else:
                _, _, name, version_at, behind = struct.unpack_from("<2H3I", self.bytes, at)
                yield "V", index, "FILE", 0, 0, 0, self.string(section[6], name)
                while version_at:
                    value, flags, number, name, more = struct.unpack_from("<I2H2I", self.bytes, at + version_at)
                    yield "V", index, "NEED", number, flags, value, self.string(section[6], name)
                    version_at = version_at + more if more else 0
            if not behind:
                return
            at += behind

    def versions(self):
        """The rows of all versions: the records, then what they say of each symbol."""
        names = {}
        for kind in (0x6ffffffd, 0x6ffffffe):
            for place, table in enumerate(self.tables(kind)):
                for row in self.records(*table):
                    yield row
                    if place == 0 and row[2] != "FILE" and not (row[2] == "DEF" and row[4] & 1):
                        names.setdefault(row[3] % 0x8000, row[6])
        for index, section in self.tables(0x6fffffff):
            for symbol in range(self.sections[section[6]][5] // 24):
                (word,) = struct.unpack_from("<H", self.bytes, section[4] + 2 * symbol)
                number = word % 0x8000
                name = names[number] if number > 1 else (b"", True)
                yield "X", index, symbol, number, "H" if word >= 0x8000 else "-", name

    def name_of_row(self, row):
        """The name that a row must have; None if it cannot be known from the row alone."""
        if row[0] == "S":
            return self.string(self.names, self.sections[row[1]][0]) if self.names else (b"", True)
        if row[0] == "Y":
            return self.symbol(row[1], row[2])
        if row[0] == "R":
            return self.symbol(self.sections[row[1]][6], row[4]) if row[4] else (b"", True)
        if row[0] == "D" and row[2] in ("NEEDED", "SONAME", "RPATH", "RUNPATH") and self.sections:
            tables = self.dynamic_strings
            return self.string(*tables, row[3]) if len(tables) == 1 else None
        return (b"", True) if row[0] == "D" and self.sections else None


def place_of_name(row):
    return {"S": 9, "Y": 9, "R": 6, "D": 4, "N": 5}.get(row[0])


def elf_files(folders):
    for folder in folders:
        for below, _, names in sorted(os.walk(folder)):
            for name in sorted(names):
                path = os.path.join(below, name)
                if not os.path.islink(path) and os.path.isfile(path):
                    with open(path, "rb") as file:
                        if file.read(6) == b"\x7fELF\x02\x01" and os.path.getsize(path) >= 64:
                            yield path


def listed(program, path, part):
    words = [*(["--gnu"] if part in ("versions", "relocs") else []), *(["--only", part] if part else [])]
    done = subprocess.run([program, "show", *words, path],
                          stdout=subprocess.PIPE, stdin=subprocess.DEVNULL, check=False)
    return done.returncode, done.stdout


def check_listing(counts, name, text, status, patterns, module, file):
    """Each line of a listing; gives the names of its symbols."""
    lines = text.split(b"\n")
    counts.check(name, lines.pop() == b"", "the last line has no newline")
    if status == 1:
        last = lines.pop()
        counts.check(name, patterns["!"].fullmatch(last), last)
    letters, names, versions = b"".join(line[:1] for line in lines).decode(), [], []
    counts.check(name, re.fullmatch("H?S*P*Y*R*N*D*V*X*", letters), "the order of its lines")
    for line, letter in zip(lines, letters):
        counts.check(name, letter in patterns and patterns[letter].fullmatch(line), line)
        (row,) = module["rows"]([line])
        place = place_of_name(row)
        if place:
            wanted = file.name_of_row(row)
            counts.check(name, wanted is None or row[place] == wanted, (line, wanted))
            if letter == "Y":
                names.append(row[place][0])
        if letter in "VX":
            versions.append(row)
    if versions:
        wanted = list(itertools.islice(file.versions(), len(versions)))
        differing = next((pair for pair in zip(versions, wanted) if pair[0] != pair[1]), None)
        counts.check(name, not differing and len(wanted) == len(versions), differing)
    return names


def awk_names(awk, text, *options):
    """What the awk program prints of a listing."""
    done = subprocess.run(["awk", *options, "-f", awk], input=text, stdout=subprocess.PIPE, check=True,
                          env=dict(os.environ, LC_ALL="C"))
    return done.stdout


def check_file(counts, program, path, patterns, module, awk):
    """A file's listing, and of a file that is refused the listing of each part; gives how many
    lines they have."""
    file, lines, parts = File(path), 0, [None, "relocs", "versions"]
    for part in parts:
        name = f"{part or 'listing'} of {path}"
        status, text = listed(program, path, part)
        counts.check(name, status in (0, 1), f"status {status}")
        if status == 1 and part is None:
            parts += PARTS
        lines += text.count(b"\n")
        names = check_listing(counts, name, text, status, patterns, module, file)
        counts.check(f"awk over {name}", awk_names(awk, text) == b"".join(b"%s\n" % name for name in names))
        for kind in "VX":
            wanted = [row[-1][0] for row in module["rows"](text.splitlines(keepends=True)) if row[0] == kind]
            counts.check(f"awk for {kind} over {name}",
                         awk_names(awk, text, "-v", f"kind={kind}") == b"".join(b"%s\n" % name for name in wanted))
    file.close()
    return lines


def check_lookups(counts, program, path, patterns, module):
    """Looks up the odd names: the first symbol of each name, or none; gives how many lines that is."""
    names, lines = list(odd_names()), 0
    first = {name: names.index(name, 1) for name in names[1:]}
    absent = [b"n" * 4096, b"--", b"-n", b"n" * 254, b"two  spaces"]
    for name in [*first, *absent]:
        wanted = name if name in first else None
        try:
            name.decode()
        except UnicodeDecodeError:
            continue
        done = subprocess.run([program, "find", "--", path, name], stdout=subprocess.PIPE,
                              stdin=subprocess.DEVNULL, check=False)
        rows = list(module["rows"](done.stdout.splitlines(True)))
        steps = first[name] if wanted else len(names) - 1
        told = [("F", "found" if wanted else "absent", steps)]
        if wanted:
            told.insert(0, ("Y", 1, steps, 2 ** 64 - 1, steps, "13", "9", "PROTECTED", "65285", (name, True)))
        counts.check(f"find {name[:40]}", (done.returncode, rows) == (0 if wanted else 1, told), rows)
        for line in done.stdout.split(b"\n")[:-1]:
            counts.check(f"find {name[:40]}", patterns[line[:1].decode()].fullmatch(line), line)
            lines += 1
    return lines


def write_object(path, text):
    """An object whose section 1 has these bytes and no entry, and section 2 an entry of no known type."""
    with open(path, "wb") as file:
        file.write(struct.pack("<16sHHIQQQIHHHHHH", b"\x7fELF\2\1\1", 1, 62, 1, 0, 0, 64, 0,
                               64, 0, 0, 64, 4, 0))
        header = struct.Struct("<IIQQQQIIQQ")
        at = 64 + 4 * 64
        file.write(header.pack(*[0] * 10) + header.pack(0, 1, 0, 0, at, len(text), 0, 0, 1, 0)
                   + header.pack(0, 1, 0, 0, at, len(text), 0, 0, 1, 0)
                   + header.pack(0, 4, 0, 0, at + len(text), 24, 0, 2, 8, 24))
        file.write(text + struct.pack("<QQq", 0, 99, 0))


def check_sections(counts, program, path, patterns):
    """A section that has the bytes of a refusal is written with status 0, and one that is refused is a
    line with status 1."""
    text = b"! 0000000000000000 short\n"
    write_object(path, text)
    for section, status in ((1, 0), (2, 1)):
        done = subprocess.run([program, "apply", path, str(section)], stdout=subprocess.PIPE,
                              stdin=subprocess.DEVNULL, check=False)
        wanted = b"! %016x unsupported\n" % (64 + 4 * 64 + len(text)) if status else text
        counts.check(f"apply {section}", (done.returncode, done.stdout) == (status, wanted), done.stdout)
        counts.check(f"apply {section}", patterns["!"].fullmatch(done.stdout[:-1]), done.stdout)


def check_archive(counts, program, path, patterns, module, awk):
    """The lines of an archive whose members have odd names, and one of which is malformed."""
    names = [name for name in odd_names() if name and b"\n" not in name and b"/" not in name]
    table, places = b"".join(name + b"/\n" for name in names), []
    content, data = b"!<arch>\n", b"\x7fELF" + bytes(70)
    for label, body in [(b"//", table), *((b"/%d" % table.index(name + b"/\n"), data[:70 - row % 2])
                                          for row, name in enumerate(names))]:
        content += label.ljust(48) + b"%-10d`\n" % len(body)
        places.append((len(content), len(body)))
        content += body + b"\n" * (len(body) % 2)
    with open(path, "wb") as file:
        file.write(content)
    done = subprocess.run([program, "archive", path], stdout=subprocess.PIPE, stdin=subprocess.DEVNULL, check=False)
    wanted = [("A", row, *places[row], (name[:CAP], len(name) <= CAP)) for row, name in enumerate([b"//", *names])]
    rows = list(module["rows"](done.stdout.splitlines(True)))
    counts.check("archive", done.returncode == 1 and done.stdout.count(b"\n!") == len(names), done.stdout[-200:])
    counts.check("archive, its rows", [row for row in rows if row[0] == "A"] == wanted, rows[:4])
    for line in done.stdout.split(b"\n")[:-1]:
        counts.check("archive, its lines", patterns[line[:1].decode()].fullmatch(line), line)
    counts.check("awk over the archive", awk_names(awk, done.stdout, "-v", "kind=A")
                 == b"".join(row[4][0] + b"\n" for row in wanted))


def check_folder(counts, program, folder, module):
    """The lines of `check` for files of odd names: those that are malformed, are not, and are no ELF files."""
    os.mkdir(folder)
    sample = struct.pack("<16sHHIQQQIHHHHHH", b"\x7fELF\2\1\1", 1, 62, 1, 0, 0, 0, 0, 64, 0, 0, 0, 0, 0)
    files = {b"fine": (sample, "ok", None, None), b"a  -\\ b": (b"text", "no-elf", None, None),
             b"cut \x1b[2J": (sample[:60], "refused", 60, "short"), "ä".encode(): (b"", "no-elf", None, None)}
    top = os.fsencode(folder)
    for name, (content, *_) in files.items():
        with open(os.path.join(top, name), "wb") as file:
            file.write(content)
    for name in (b"\xff", b"\xfe"):
        with open(os.path.join(top, name), "wb"):
            pass
    done = subprocess.run([program, "check", folder, os.path.join(folder, "gone")], stdout=subprocess.PIPE,
                          stdin=subprocess.DEVNULL, check=False)
    wanted = [("C", *said, (os.path.join(top, name), True)) for name, (_, *said) in sorted(files.items())]
    wanted += [("C", "unread", None, None, (os.path.join(top, b"gone"), True)), ("C", "unnamed", 2)]
    rows = list(module["rows"](done.stdout.splitlines(True)))
    counts.check("check", (done.returncode, rows) == (3, wanted), rows)


def main():
    reader = option_reader(__doc__)
    reader.add_argument("folders", metavar="FOLDER", nargs="*", default=["/usr/lib"])
    given = reader.parse_args()
    program = program_of(given)
    with open(PAGE, encoding="utf-8") as file:
        page = file.read()
    counts, kinds, module = Claims(), tables_of(page), {}
    for name in ("rows.py", "names.awk"):
        counts.check(f"examples/{name}", f"examples/{name}" in page, "the page does not name it")
    with open(os.path.join(TOP, "examples", "rows.py"), encoding="utf-8") as file:
        exec(file.read(), module)  # the module that the page names
    awk = os.path.join(TOP, "examples", "names.awk")
    for letter, (drawing, rows) in kinds.items():
        check_drawing(counts, letter, drawing, rows)
    patterns = {letter: pattern_of(letter, rows) for letter, (_, rows) in kinds.items()}
    counts.check("the page's lines", all(patterns[letter].fullmatch(drawing[0].encode())
                                         for letter, (drawing, _) in kinds.items()))
    files, lines = 0, 0
    with tempfile.TemporaryDirectory() as folder:
        write_odd_file(os.path.join(folder, "odd_names"))
        odd = os.path.join(folder, "odd_names")
        lines += check_file(counts, program, odd, patterns, module, awk)
        lines += check_lookups(counts, program, odd, patterns, module)
        check_sections(counts, program, os.path.join(folder, "object"), patterns)
        check_archive(counts, program, os.path.join(folder, "archive"), patterns, module, awk)
        check_folder(counts, program, os.path.join(folder, "files"), module)
    for path in elf_files(given.folders):
        files += 1
        lines += check_file(counts, program, path, patterns, module, awk)
    print(f"{files} files, {lines} lines")
    print(f"{counts.passed} passed, {counts.failed} failed")
    return 0 if counts.passed and files and not counts.failed else 1


if __name__ == "__main__":
    sys.exit(main())
