"""Copies of ELF files and archives with hostile numbers in them, and the files from which they are made. The same
random generator over the same files gives the same copy."""

import os
import shutil
import struct
import subprocess

import made_archives

NUMBERS = (0, 1, 2, 3, 4, 5, 7, 8, 12, 15, 16, 20, 23, 24, 25, 56, 63, 64, 255, 256, 1023, 1024, 4096, 0x7fff, 0x8000, 0x8001,
           0xfff1, 0xffff, 1 << 16, (1 << 31) - 1, 1 << 31, (1 << 32) - 1, 1 << 32, 1 << 62, (1 << 63) - 1, 1 << 63,
           (1 << 64) - 24, (1 << 64) - 16, (1 << 64) - 8, (1 << 64) - 1)
STEPS = (-1, 1, 2, -8, 8, 16, -16, 24, -24, 64)
HEADER = ((16, 2), (18, 2), (32, 8), (40, 8), (54, 2), (56, 2), (58, 2), (60, 2), (62, 2))
# Fields of headers, each its offset and its width, some more often than others.
SECTION = ((0, 4), (4, 4), (8, 8), (24, 8), (24, 8), (32, 8), (32, 8), (40, 4), (40, 4), (44, 4), (48, 8), (56, 8))
SEGMENT = ((0, 4), (0, 4), (4, 4), (8, 8), (16, 8), (32, 8), (32, 8), (40, 8), (48, 8))
SECTION_TYPES = (1, 2, 3, 4, 5, 6, 7, 8, 9, 11, 19, 0x6ffffff6, 0x6ffffffd, 0x6ffffffe, 0x6fffffff)
SEGMENT_TYPES = (0, 1, 2, 3, 4, 6, 0x6474e551, 0x6474e552, 0x6474e553)
TAGS = (0, 1, 4, 5, 6, 10, 14, 15, 22, 24, 29, 30, 0x6ffffef5, 0x6ffffff0, 0x6ffffffb, 0x6ffffffc, 0x6ffffffe)
# Of the types of sections the widths of what is in such a table, and of tags of dynamic entries the type and some size.
TABLES = {2: (4, 1, 1, 2, 8, 8), 11: (4, 1, 1, 2, 8, 8), 4: (8, 4, 4, 8), 9: (8, 4, 4), 19: (8,), 5: (4,), 6: (8, 8),
          7: (4,), 3: (1,), 0x6ffffff6: (4,), 0x6fffffff: (2,), 0x6ffffffd: (2, 2, 2, 2, 4, 4, 4), 0x6ffffffe: (2, 2, 4, 4, 4)}
ADDRESSED = {4: (5, 200), 5: (3, 300), 6: (11, 360), 0x6ffffef5: (0x6ffffff6, 200), 0x6ffffff0: (0x6fffffff, 60),
             0x6ffffffc: (0x6ffffffd, 120), 0x6ffffffe: (0x6ffffffe, 80)}


class Copy:
    """A copy that is changed by a generator of chance."""

    def __init__(self, content, chance):
        self.content, self.chance = bytearray(content), chance
        if len(content) >= 64:
            self.phoff, self.shoff = struct.unpack_from("<2Q", content, 32)
            _, self.phnum, _, self.shnum = struct.unpack_from("<4H", content, 54)

    def put(self, at, width, number):
        if 0 <= at <= len(self.content) - width:
            self.content[at:at + width] = struct.pack("<Q", number % (1 << 64))[:width]

    def there(self, at, width):
        if not 0 <= at <= len(self.content) - width:
            return 0
        return int.from_bytes(self.content[at:at + width], "little")

    def number(self, at, width):
        """A number for a field: a bound, or near what it has, or what ends the file."""
        chance, size, old = self.chance, len(self.content), self.there(at, width)
        return chance.choice((
            lambda: chance.choice(NUMBERS), lambda: chance.choice(NUMBERS), lambda: old + chance.choice(STEPS),
            lambda: old ^ 1 << chance.randrange(8 * width), lambda: size + chance.choice((-64, -24, -16, -2, -1, 0, 1)),
            lambda: size - self.there(at - 8, 8) + chance.choice((-1, 0, 1)), lambda: chance.randrange(64),
            lambda: self.there(chance.randrange(max(1, size - 8)), width)))()

    def sections(self):
        return [self.shoff + 64 * index for index in range(self.shnum) if self.shoff + 64 * index + 64 <= len(self.content)]

    def segments(self):
        return [self.phoff + 56 * index for index in range(self.phnum) if self.phoff + 56 * index + 56 <= len(self.content)]

    def entries(self):
        for at in self.segments():
            if self.there(at, 4) == 2:
                offset, size = self.there(at + 8, 8), self.there(at + 32, 8)
                return range(offset, min(offset + size, len(self.content)) - 15, 16)
        return range(0)

    def tables(self):
        """The kind, the offset and the size of each table that headers and dynamic entries describe."""
        found = [(self.there(at + 4, 4), self.there(at + 24, 8), self.there(at + 32, 8)) for at in self.sections()]
        found += [(7, self.there(at + 8, 8), self.there(at + 32, 8)) for at in self.segments() if self.there(at, 4) == 4]
        for at in self.entries():
            if self.there(at, 8) in ADDRESSED:
                kind, size = ADDRESSED[self.there(at, 8)]
                found.append((kind, self.offset_of(self.there(at + 8, 8)), size))
        return [table for table in found if table[0] in TABLES and 0 < table[2] and table[1] < len(self.content)]

    def offset_of(self, address):
        for at in self.segments():
            start, size = self.there(at + 16, 8), self.there(at + 32, 8)
            if self.there(at, 4) == 1 and start <= address < start + size:
                return address - start + self.there(at + 8, 8)
        return 0

    def change_field(self, starts, fields, types):
        if not starts:
            return
        start, (at, width) = self.chance.choice(starts), self.chance.choice(fields)
        is_type = types and self.chance.random() < 0.5 and (at, width) == types[0]
        self.put(start + at, width, self.chance.choice(types[1]) if is_type else self.number(start + at, width))

    def change_table(self):
        tables = self.tables()
        if not tables:
            return
        kinds = sorted({kind for kind, _, _ in tables})
        wanted = self.chance.choice(kinds)
        kind, offset, size = self.chance.choice([table for table in tables if table[0] == wanted])
        widths = TABLES[kind]
        at = offset + sum(widths) * self.chance.randrange(min(size, len(self.content)) // sum(widths) + 1)
        field = self.chance.randrange(len(widths))
        at += sum(widths[:field])
        self.put(at, widths[field], self.number(at, widths[field]))

    def change(self):
        chance = self.chance
        chance.choice((
            self.change_table, self.change_table, self.change_table, self.change_table,
            lambda: self.change_field([0], HEADER, None),
            lambda: self.change_field(self.sections(), SECTION, ((4, 4), SECTION_TYPES)),
            lambda: self.change_field(self.sections(), SECTION, ((4, 4), SECTION_TYPES)),
            lambda: self.change_field(self.segments(), SEGMENT, ((0, 4), SEGMENT_TYPES)),
            lambda: self.change_field(self.segments(), SEGMENT, ((0, 4), SEGMENT_TYPES)),
            lambda: self.change_field(list(self.entries()), ((0, 8), (8, 8)), ((0, 8), TAGS)),
            lambda: self.change_field(list(self.entries()), ((0, 8), (8, 8)), ((0, 8), TAGS)),
            self.swap, self.flip))()

    def swap(self):
        """One header or entry replaces another too."""
        size, places = self.chance.choice(((64, self.sections()), (56, self.segments()), (16, list(self.entries()))))
        if places:
            first, second = self.chance.choice(places), self.chance.choice(places)
            self.content[first:first + size] = self.content[second:second + size]

    def flip(self):
        at = self.chance.randrange(len(self.content))
        self.content[at] ^= 1 << self.chance.randrange(8)


def changed(content, chance):
    """A copy of an ELF file with one change or some."""
    copy = Copy(content, chance)
    if len(content) >= 64:
        for _ in range(chance.choice((1, 1, 1, 2, 2, 3, 5))):
            copy.change()
    if chance.random() < 0.05:
        del copy.content[chance.randrange(len(copy.content) + 1):]
    return bytes(copy.content)


def changed_archive(members, chance):
    """An archive of members, each a name and its bytes, with changes in some of them or in itself."""
    text, table = made_archives.MAGIC, b""
    members = [(name, changed(content, chance) if chance.random() < 0.4 else content) for name, content in members]
    long_names = [name for name, _ in members if len(name) > 15]
    if long_names:
        table = b"".join(name + b"/\n" for name in long_names)
        text += made_archives.member(b"//", table)
    for name, content in members:
        if len(name) <= 15:
            text += made_archives.member(name + b"/", content)
        elif chance.random() < 0.5:
            text += made_archives.bsd_member(name, content, chance.randrange(5))
        else:
            text += made_archives.member(b"/%d" % table.index(name + b"/\n"), content)
    return made_archives.changed(chance, text) if chance.random() < 0.4 else text


# What copies are made of.

LIBRARY = r"""
int one(void) { return 1; } int two(void) { return 2; } int three(void) { return 3; }
__asm__(".symver one, name@FIRST"); __asm__(".symver two, name@SECOND"); __asm__(".symver three, name@@THIRD");
extern int __stack_chk_fail(void), __sprintf_chk(void), wanted(void), weak(void) __attribute__((weak));
int data[4]; __thread int local; int (*places[])(void) = { one, __stack_chk_fail, __sprintf_chk, wanted, weak };
static int *own[200] = { [0 ... 66] = data, [130] = data };
int calls(int x) { return one() + wanted() + data[x & 3] + local + (weak ? weak() : 0) + *own[x]; }
"""
VERSIONS = "FIRST { global: name; one; }; SECOND { global: two; data; } FIRST; THIRD { global: three; calls; } SECOND;\n"
NEEDED = "int wanted(void) { return 1; } int weak(void) { return 2; } int other = 3;\n"
# Words of gcc for each file.
WAYS = {
    "plain.so": "-shared -fPIC -Wl,--hash-style=gnu",
    "packed.so": "-shared -fPIC -Wl,-Bsymbolic -Wl,-z,pack-relative-relocs",
    "sysv.so": "-shared -fPIC -Wl,--hash-style=sysv -Wl,-z,now -Wl,-soname,sysv.so",
    "both.so": "-shared -fPIC -Wl,--hash-style=both -fcf-protection -Wl,-z,ibt,-z,shstk -Wl,-rpath,/none,--disable-new-dtags",
    "program": "-pie -fPIC -Wl,--hash-style=gnu -Wl,-z,relro,-z,now -Wl,-rpath,/none,-e,calls -Wl,-dynamic-linker,/none",
    "fixed": "-no-pie -Wl,--hash-style=sysv -Wl,-z,norelro -Wl,-e,calls -Wl,-z,execstack",
    "object.o": "-c -O1", "large.o": "-c -g -ffunction-sections -fcf-protection",
}


def made_files(folder):
    """Small files by their names: libraries, programs and objects, if there is gcc, and such as are written here."""
    files = {"small.o": made_archives.small_elf(), "properties": with_properties(), "properties.core": with_properties(4, 4)}
    if shutil.which("gcc"):
        files.update(compiled(folder))
    return files


def compiled(folder):
    unversioned = "\n".join(line for line in LIBRARY.splitlines() if "symver" not in line)
    texts = {"library.c": LIBRARY, "called.c": unversioned, "needed.c": NEEDED, "versions": VERSIONS,
             "needed.versions": "NEEDED { global: wanted; weak; };\n"}
    for name, text in texts.items():
        with open(os.path.join(folder, name), "w", encoding="ascii") as file:
            file.write(text)

    def gcc(words):
        subprocess.run(["gcc", "-nostdlib", "-Wl,--no-as-needed", "-w", *words], check=True, cwd=folder, capture_output=True)

    gcc("-shared -fPIC -o libneeded.so needed.c -Wl,--version-script=needed.versions".split())
    found = {}
    for name, words in WAYS.items():
        more = [] if name.endswith(".o") else ["-Wl,--unresolved-symbols=ignore-all", "-L.", "-lneeded"]
        script = ["-Wl,--version-script=versions"] if name.endswith(".so") else []
        source = "library.c" if name.endswith(".so") else "called.c"
        gcc([*words.split(), "-o", name, source, *more, *script])
        with open(os.path.join(folder, name), "rb") as file:
            found[name] = file.read()
    if shutil.which("strip"):
        for name in ("plain.so", "program"):
            subprocess.run(["strip", "-o", "stripped", name], check=True, cwd=folder)
            with open(os.path.join(folder, "stripped"), "rb") as file:
                found["stripped " + name] = file.read()
    return found


def with_properties(align=8, file_type=3):
    """A file of notes with properties, of a segment for loading, and dynamic entries."""
    properties = struct.pack("<2I8s", 0xc0010002, 8, b"property")
    properties += struct.pack("<3I4x", 0xc0000002, 4, 3) + struct.pack("<3I", 0xc0008002, 4, 1)
    notes = struct.pack("<3I4s4s", 4, 4, 1, b"any\0", b"\1\2\3\4") + bytes(4) * (align == 8)
    notes += struct.pack("<3I4s", 4, len(properties), 5, b"GNU\0") + properties
    strings = b"\0__stack_chk_guard\0__x_chk\0"
    symbols = bytes(24) + struct.pack("<IBBHQQ", 1, 0x12, 0, 0, 0, 0) + struct.pack("<IBBHQQ", 19, 0x12, 0, 0, 0, 0)
    table = struct.pack("<6I", 1, 3, 2, 0, 0, 1)
    at_notes = 64 + 56 * 5
    at_strings = at_notes + len(notes)
    at_symbols = -(-(at_strings + len(strings)) // 8) * 8
    at_table, at_entries = at_symbols + len(symbols), at_symbols + len(symbols) + len(table)
    entries = b"".join(struct.pack("<2Q", *entry) for entry in (
        (4, at_table), (5, at_strings), (6, at_symbols), (10, len(strings)), (30, 8), (0x6ffffffb, 0x8000001), (29, 1), (0, 0)))
    end = at_entries + len(entries)
    headers = ((1, 5, 0, end), (2, 6, at_entries, len(entries)), (4, 4, at_notes, len(notes)), (0x6474e551, 6, 0, 0),
               (0x6474e552, 4, 0, 64))
    front = b"\x7fELF\2\1\1" + bytes(9) + struct.pack("<2HI3QI6H", file_type, 62, 1, 0, 64, 0, 0, 64, 56, 5, 64, 0, 0)
    front += b"".join(struct.pack("<2I6Q", kind, flags, at, at, at, size, size, align) for kind, flags, at, size in headers)
    return (front + notes + strings).ljust(at_symbols, b"\0") + symbols + table + entries


def archive_members(files):
    """Members for archives: of each a name and its bytes."""
    named = [(name.replace(" ", "_").encode(), content) for name, content in sorted(files.items()) if len(content) < 20000]
    return named + [(b"a_name_of_more_bytes_than_sixteen.o", files["small.o"]), (b"text", b"no file of this kind\n"),
                    (b"empty", b"")]
