"""A second implementation of what `elfsee show` must list without a budget, from the rules: for the scripts in this
directory. It is written for clarity alone, and holds whole files. Names of numbers are those of docs/FORMAT.md;
listed_files.py has archives and many files."""

import os
import re
import struct

import made_archives
from applied import Refused, load, refuse_where, strings_of, symbols_of
from looked_up import Scope, check_overlaps, hashed_count
from testing import TOP

SYMTAB, RELA, DYNAMIC, NOTE, REL, DYNSYM, RELR = 2, 4, 6, 7, 9, 11, 19
# Of each type of section with relocation entries the bytes of one.
RELOCATIONS = {RELA: 24, REL: 16, RELR: 8}
VERDEF, VERNEED, VERSYM = 0x6ffffffd, 0x6ffffffe, 0x6fffffff
P_LOAD, P_DYNAMIC, P_NOTE = 1, 2, 4
T_STRTAB, T_SYMTAB, T_STRSZ, WITH_STRINGS = 5, 6, 10, (1, 14, 15, 29)
# The tags of a table of relocation entries: its address, its size, and what says which entries it has.
LOCATED = [((36, 35, 37), {8: RELR}), ((17, 18, 19), {16: REL}), ((7, 8, 9), {24: RELA}), ((23, 2, 20), {7: RELA, 17: REL})]
X86_64, NUMBERS, BASE, HIDDEN = 62, 1024, 1, 0x8000
PARTS = ("header", "sections", "segments", "symbols", "relocs", "notes", "dynamic", "versions")
MAGIC = b"\x7fELF"
LETTERS = "W1 A2 X4 M10 S20 I40 L80 O100 G200 T400 C800".split()
GNU_LETTERS = "R200000 D1000000 l10000000 E80000000".split()
PAGE = os.path.join(TOP, "docs", "FORMAT.md")


def names_on_page():
    """Of each field the names of its numbers: those of every listing, those defined by GNU, and those of it for x86-64."""
    with open(PAGE, encoding="utf-8") as file:
        part = file.read().split("## Names of numbers")[1].split("\n## ")[0]
    fields = {}
    for field, plain, gnu in re.findall(r"^\| (?!Field)([^|]*?) \| ([^|]*\d+[^|]*?) \| *([^|]*?) *\|$", part, re.M):
        every, _, machine = gnu.partition("; on x86-64 ")
        if every.endswith(" on x86-64"):
            every, machine = "", every[:-len(" on x86-64")]
        fields[field] = [{int(number): name for name, number in (pair.split("=") for pair in filter(None, text.split(", ")))}
                         for text in (plain, every, machine)]
    return fields


NAMES = names_on_page()


class Wish:
    """The options of a listing. `given` are the names by which rows are selected, or None for all rows."""

    def __init__(self, parts=PARTS[:7], headers=4096, cap=256, gnu=False, versions=False, by_segments=False, texts=None):
        self.parts, self.headers, self.cap, self.gnu, self.versions = parts, headers, cap, gnu, versions
        self.by_segments, self.given, self.texts = by_segments, texts, None
        if texts is not None:
            self.cap = max(max(map(len, texts)), 256 if versions else 1)
            self.texts = set(texts) if not versions else {parted(text) for text in texts}

    def has(self, row):
        """Whether a row is one of those that are selected."""
        return self.texts is None or row.is_one_of(self.texts, self.versions)

    def words(self):
        """The words of a command line."""
        words = ["--headers", str(self.headers)] if self.headers != 4096 else []
        is_told = len(self.parts) == 1 and (self.texts is None or self.parts != ("symbols",))
        words += ["--only", self.parts[0]] if is_told else []
        words += ["--names", str(self.cap)] if self.texts is None and self.cap != 256 else []
        return words + [word for word, is_so in (("--gnu", self.gnu), ("--versions", self.versions),
                                                 ("--by-segments", self.by_segments)) if is_so]

    def is_for_all_rows(self):
        """Whether `check` has these options too."""
        return self.texts is None and not self.versions


def parted(text):
    """A name, the version or None, and whether that has to be the default one."""
    name, sign, version = text.partition(b"@")
    is_default = version.startswith(b"@")
    return name, version[is_default:] if sign else None, is_default


class Row:
    """A line, and of one that ends in a name that name: its bytes with whether these are all, and its version."""

    def __init__(self, front, name=None, behind=""):
        self.name, self.version, self.is_default = name, None, False
        self.text = front + ("" if name is None else shown(name)) + behind

    def with_version(self, version, is_default):
        self.version, self.is_default = version, is_default
        self.text += ("@@" if is_default else "@") + shown(version)
        return self

    def is_one_of(self, texts, versions):
        if self.name is None or not self.name[1]:
            return False
        if not versions:
            return self.name[0] in texts
        version = self.version[0] if self.version is not None and self.version[1] else None
        return any(name == self.name[0] and (wanted is None or wanted == version and (self.is_default or not is_default))
                   for name, wanted, is_default in texts)


def shown(name):
    """A name as it is in a line."""
    content, is_whole = name
    return made_archives.spelt(content).decode() + ("" if is_whole else "\\+")


def name_at(content, strings, index, at, cap):
    """The name at an index of strings, at most a given number of bytes of it, and whether that is all; `at` is what holds the index."""
    if strings.size == 0 and index == 0:
        return b"", True
    refuse_where(index >= strings.size, at, "name-outside")
    start = strings.offset + index
    there = bytes(content[start:min(start + cap + 1, strings.offset + strings.size)])
    end = there.find(b"\0")
    refuse_where(end < 0 and len(there) <= cap, at, "name-unended")
    return (there[:end], True) if end >= 0 else (there[:cap], False)


class Segment:
    """A program header."""

    def __init__(self, content, at):
        self.at = at
        (self.type, self.flags, self.offset, self.vaddr, self.paddr, self.filesz, self.memsz,
         self.align) = struct.unpack_from("<2I6Q", content, at)
        self.size = self.filesz


class Strings:
    """A range of strings."""

    def __init__(self, offset, size):
        self.offset, self.size = offset, size


def without_section_headers(content):
    """A file with zeros for what its header says about section headers."""
    content = bytearray(content)
    if len(content) >= 64:
        content[40:48], content[60:64] = bytes(8), bytes(4)
    return bytes(content)


class Listing:
    """The rows of a file, until a refusal."""

    def __init__(self, content, wish):
        self.content, self.wish, self.cap = content, wish, wish.cap

    def named(self, field, number, otherwise):
        plain, gnu, machine = NAMES[field]
        name = plain.get(number)
        if name is None and self.wish.gnu:
            name = gnu.get(number) or self.machine == X86_64 and machine.get(number)
        return name or otherwise % number

    def rows(self):
        check_header(self.content)
        self.machine, = struct.unpack_from("<H", self.content, 18)
        parts = self.wish.parts
        if "header" in parts:
            yield self.header_row()
        if parts == ("header",):
            return
        self.content = without_section_headers(self.content) if self.wish.by_segments else self.content
        self.headers = load(self.content, self.wish.headers)
        self.read_segments()
        for part in PARTS[1:]:
            if part in parts:
                yield from getattr(self, "rows_of_" + part)()

    def read_segments(self):
        phoff, = struct.unpack_from("<Q", self.content, 32)
        phnum, = struct.unpack_from("<H", self.content, 56)
        self.segments = [Segment(self.content, phoff + 56 * index) for index in range(phnum)]
        if self.wish.by_segments and {"segments", "symbols", "relocs", "notes", "dynamic"} & set(self.wish.parts):
            check_overlaps(self.segments)

    def header_row(self):
        kind, machine = struct.unpack_from("<2H", self.content, 16)
        entry, phoff, shoff, flags = struct.unpack_from("<3QI", self.content, 24)
        phnum, _, shnum, names = struct.unpack_from("<4H", self.content, 56)
        return Row("H %-4s %5d %016x %016x %016x %08x %5d %5d %5d" % (
            self.named("type of an H line", kind, "%04x"), machine, entry, phoff, shoff, flags, phnum, shnum, names))

    def rows_of_sections(self):
        names, = struct.unpack_from("<H", self.content, 62)
        for index, header in enumerate(self.headers):
            name = (b"", True)
            start, = struct.unpack_from("<I", self.content, header.at)
            address, = struct.unpack_from("<Q", self.content, header.at + 16)
            if names:
                name = name_at(self.content, self.headers[names], start, header.at, self.cap)
            yield Row("S %5d %-13s %-12s %016x %016x %016x %08x %08x " % (
                index, self.named("type of an S line", header.type, "%08x"), self.letters(header.flags), address,
                header.offset, header.size, header.link, header.info), name)

    def letters(self, flags):
        known = LETTERS + (GNU_LETTERS if self.wish.gnu else [])
        bits = {letter[0]: int(letter[1:], 16) for letter in known if letter[0] != "l" or self.machine == X86_64}
        text = "".join(letter for letter, bit in bits.items() if flags & bit)
        text += "?" if flags & ~sum(bits.values()) else ""
        return text if len(text) <= 12 else text[:11] + "?"

    def rows_of_segments(self):
        for index, header in enumerate(self.segments):
            may = "".join(letter if header.flags & bit else "-" for letter, bit in (("R", 4), ("W", 2), ("X", 1)))
            yield Row("P %5d %-8s %s %016x %016x %016x %016x %016x %016x" % (
                index, self.named("type of a P line", header.type, "%08x"), may, header.offset, header.vaddr, header.paddr,
                header.filesz, header.memsz, header.align))

    def rows_of_symbols(self):
        if not self.headers and (self.wish.by_segments or self.wish.gnu):
            yield from self.rows_of_hashed()
        for index, header in enumerate(self.headers):
            if header.type not in (SYMTAB, DYNSYM) or not header.size:
                continue
            header.check_rows()
            strings = strings_of(self.headers, header)
            versions = self.versions_of(index)
            for symbol in range(header.size // 24):
                at = header.offset + 24 * symbol
                place, = struct.unpack_from("<H", self.content, at + 6)
                row = self.symbol(index, symbol, at, strings)
                yield versions.put(row, symbol, place) if versions else row

    def rows_of_hashed(self):
        """The rows of the symbols that the hash table of the dynamic entries covers."""
        scope = Scope(self.content, self.wish.headers)
        if scope.refusal is not None:
            if scope.refusal.args[1] != "no-hash":
                raise scope.refusal
            return
        for symbol in range(hashed_count(scope)):
            yield self.symbol(scope.index, symbol, scope.symbols.offset + 24 * symbol, scope.strings)

    def symbol(self, index, symbol, at, strings):
        """The row of the symbol at an offset."""
        name, info, other, place, value, size = struct.unpack_from("<I2BH2Q", self.content, at)
        return Row("Y %5d %10d %016x %016x %-7s %-6s %-9s %-5s " % (
            index, symbol, value, size, self.named("type of a Y line", info & 15, "%7d"),
            self.named("binding", info >> 4, "%6d"), self.named("visibility", other & 3, "%9d"),
            self.named("place", place, "%5d")), name_at(self.content, strings, name, at, self.cap))

    def rows_of_relocs(self):
        if not self.headers and (self.wish.by_segments or self.wish.gnu):
            check_overlaps(self.segments)
            yield from self.rows_by_dynamic_entries()
        for index, header in enumerate(self.headers):
            if header.size and (header.type == RELA or self.wish.gnu and header.type in RELOCATIONS):
                header.check_rows(RELOCATIONS[header.type])
                yield from (self.rows_of_relr if header.type == RELR else self.rows_of_entries)(index, header)

    def rows_of_entries(self, index, header):
        linked = symbols_of(self.headers, header)
        versions = self.versions_of(header.link) if linked and linked[0].size else None
        for at in range(header.offset, header.offset + header.size, RELOCATIONS[header.type]):
            offset, kind, symbol = struct.unpack_from("<Q2I", self.content, at)
            kind = self.named("type of an R line", kind, "#%d") if self.machine == X86_64 else "#%d" % kind
            addend = struct.unpack_from("<q", self.content, at + 16)[0] if header.type == RELA else None
            row = self.relocation(index, offset, kind, symbol, addend)
            if symbol == 0:
                yield Row(row, (b"", True))
                continue
            refuse_where(linked is None, at, "bad-link")
            refuse_where(symbol >= linked[0].size // 24, at, "symbol-index")
            place = linked[0].offset + 24 * symbol
            name, _, _, where = struct.unpack_from("<I2BH", self.content, place)
            row = Row(row, name_at(self.content, linked[1], name, place, self.cap))
            yield versions.put(row, symbol, where) if versions else row

    def rows_of_relr(self, index, header):
        """An even word is an address; each bit of an odd one, but the lowest, is one of the 63 words after those before."""
        behind = None
        for at in range(header.offset, header.offset + header.size, 8):
            word, = struct.unpack_from("<Q", self.content, at)
            refuse_where(word % 2 and behind is None, at, "relr")
            bits = [bit for bit in range(63) if word >> 1 + bit & 1]
            for address in [behind + 8 * bit for bit in bits] if word % 2 else [word]:
                refuse_where(address > (1 << 64) - 8, at, "relr")
                yield Row(self.relocation(index, address, "RELR", 0, None), (b"", True))
            behind = behind + 504 if word % 2 else word + 8

    def rows_by_dynamic_entries(self):
        """The rows of the tables that the entries of the first program header of dynamic entries locate."""
        index, header = next(((index, each) for index, each in enumerate(self.segments) if each.type == P_DYNAMIC), (0, None))
        first = {tag: (at, value) for at, tag, value in reversed(entries_of(self.content, header))} if header else {}
        for tags, types in LOCATED:
            (at, address), size, row = first.get(tags[0], (None, None)), first.get(tags[1]), first.get(tags[2])
            if at is None or size and size[1] == 0:
                continue
            refuse_where(size is None, at, "unmapped")
            refuse_where(row is None, at, "entry-size")
            refuse_where(row[1] not in types, row[0], "entry-size")
            kind = types[row[1]]
            refuse_where(size[1] % RELOCATIONS[kind], size[0], "size-not-whole")
            table = Strings(self.mapped(address, size[1], at), size[1])
            if kind == RELR:
                yield from self.rows_of_relr(index, table)
            else:
                yield from self.rows_of_located(index, table, kind, self.located_symbols(first))

    def rows_of_located(self, index, table, kind, symbols):
        for at in range(table.offset, table.offset + table.size, RELOCATIONS[kind]):
            offset, number, symbol = struct.unpack_from("<Q2I", self.content, at)
            name = self.named("type of an R line", number, "#%d") if self.machine == X86_64 else "#%d" % number
            addend = struct.unpack_from("<q", self.content, at + 16)[0] if kind == RELA else None
            row = self.relocation(index, offset, name, symbol, addend)
            refuse_where(symbol and symbols is None, at, "bad-link")
            refuse_where(symbol and symbol >= symbols[0].size // 24, at, "symbol-index")
            place = symbols[0].offset + 24 * symbol if symbol else at
            start, = struct.unpack_from("<I", self.content, place)
            yield Row(row, name_at(self.content, symbols[1], start, place, self.cap) if symbol else (b"", True))

    def located_symbols(self, first):
        """The symbols, up to the end of their segment, and their strings, if dynamic entries locate both."""
        if not {T_SYMTAB, T_STRTAB, T_STRSZ} <= set(first):
            return None
        (at, address), (strings_at, strings) = first[T_SYMTAB], first[T_STRTAB]
        for segment in self.segments:
            if segment.type == P_LOAD and segment.vaddr <= address < segment.vaddr + segment.filesz:
                refuse_where(segment.offset + segment.filesz > len(self.content), segment.at, "table-outside")
                rest = Strings(segment.offset + address - segment.vaddr, segment.filesz - (address - segment.vaddr))
                return rest, Strings(self.mapped(strings, first[T_STRSZ][1], strings_at), first[T_STRSZ][1])
        raise Refused(at, "unmapped")

    @staticmethod
    def relocation(index, offset, kind, symbol, addend):
        """An R line up to its name."""
        addend = "-" if addend is None else "%s%016x" % ("-" if addend < 0 else "+", abs(addend))
        return "R %5d %016x %-10s %08x %-17s " % (index, offset, kind, symbol, addend)

    def rows_of_notes(self):
        if self.headers:
            tables = [(index, header, struct.unpack_from("<Q", self.content, header.at + 48)[0])
                      for index, header in enumerate(self.headers) if header.type == NOTE]
        else:
            tables = [(index, header, header.align) for index, header in enumerate(self.segments) if header.type == P_NOTE]
        for index, table, align in tables:
            for _, head, name, content in notes_of(self.content, table, align):
                name = name.split(b"\0")[0]
                cut = (name[:self.cap], len(name) <= self.cap)
                yield Row("N %5d %08x %08x %08x " % (index, head[2], head[0], head[1]), cut,
                          " " + content[:32].hex() + ("\\+" if len(content) > 32 else ""))

    def rows_of_dynamic(self):
        if self.headers:
            tables = [header for header in self.headers if header.type == DYNAMIC and header.size]
        else:
            tables = [header for header in self.segments if header.type == P_DYNAMIC and header.size]
        for table in tables:
            if self.headers:
                table.check_rows(16)
                strings = strings_of(self.headers, table)
            rows = entries_of(self.content, table)
            for index, (at, tag, value) in enumerate(rows):
                name = (b"", True)
                if tag in WITH_STRINGS:
                    held = strings if self.headers else self.strings_by_segments(rows, at)
                    name = name_at(self.content, held, value, at, self.cap)
                yield Row("D %5d %-16s %016x " % (index, self.named("tag", tag, "%016x"), value), name)

    def strings_by_segments(self, rows, at):
        """The strings that dynamic entries locate, requested at one of them."""
        first = {tag: value for _, tag, value in reversed(rows)}
        refuse_where(T_STRTAB not in first or T_STRSZ not in first, at, "unmapped")
        return Strings(self.mapped(first[T_STRTAB], first[T_STRSZ], at), first[T_STRSZ])

    def mapped(self, address, size, at):
        """Where the first segment that has so many bytes at an address has them in the file, requested at an entry."""
        for segment in self.segments:
            if segment.type == P_LOAD and segment.vaddr <= address and address + size <= segment.vaddr + segment.filesz:
                offset = segment.offset + address - segment.vaddr
                refuse_where(offset + size > len(self.content), segment.at, "table-outside")
                return offset
        raise Refused(at, "unmapped")

    # Versions.

    def rows_of_versions(self):
        for kind in (VERDEF, VERNEED):
            for index, header in enumerate(self.headers):
                if header.type == kind and header.size:
                    strings = self.checked_strings(header)
                    for word, number, flags, value, name, at in records_of(self.content, header):
                        yield Row("V %5d %-4s %5d %04x %08x " % (index, word, number, flags, value),
                                  name_at(self.content, strings, name, at, self.cap))
        for index, header in enumerate(self.headers):
            if header.type == VERSYM and header.size:
                yield from self.rows_of_words(index, header)

    def rows_of_words(self, index, header):
        header.check_rows(2)
        linked = symbols_of(self.headers, header) if header.link else None
        refuse_where(linked is None, header.at, "bad-link")
        names = self.names_of_numbers()
        for symbol in range(linked[0].size // 24):
            refuse_where(symbol >= header.size // 2, header.at, "version-cut")
            at = header.offset + 2 * symbol
            word, = struct.unpack_from("<H", self.content, at)
            yield Row("X %5d %10d %5d %s " % (index, symbol, word % HIDDEN, "H" if word >= HIDDEN else "-"),
                      self.name_of_number(names, word % HIDDEN, at))

    def checked_strings(self, header):
        header.check_inside()
        return strings_of(self.headers, header)

    def names_of_numbers(self):
        """Of each number the strings and the index of its name, with the record; the walks go to their ends."""
        names = {}
        for kind in (VERDEF, VERNEED):
            header = next((header for header in self.headers if header.type == kind), None)
            if header is None or not header.size:
                continue
            strings = self.checked_strings(header)
            for word, number, flags, _, name, at in records_of(self.content, header):
                if word == "NEED" or word == "DEF" and not flags & BASE:
                    names.setdefault(number % HIDDEN, (strings, name, at))
        return names

    def name_of_number(self, names, number, at):
        if number < 2:
            return b"", True
        refuse_where(number not in names, at, "version-index")
        return name_at(self.content, *names[number], self.cap)

    def versions_of(self, index):
        """The versions of the symbols of a table that has some, by the index of its section; or None."""
        if not self.wish.versions:
            return None
        header = next((header for header in self.headers if header.type == VERSYM and header.link == index), None)
        return Versions(self, header) if header else None


class Versions:
    """What follows the names of a symbol table."""

    def __init__(self, listing, header):
        self.listing, self.header = listing, header
        if header.size:
            header.check_rows(2)
            refuse_where(header.link == 0, header.at, "bad-link")
        self.names = listing.names_of_numbers()

    def put(self, row, symbol, place):
        refuse_where(symbol >= self.header.size // 2, self.header.at, "version-cut")
        at = self.header.offset + 2 * symbol
        word, = struct.unpack_from("<H", self.listing.content, at)
        if word % HIDDEN < 2:
            return row
        return row.with_version(self.listing.name_of_number(self.names, word % HIDDEN, at), place != 0 and word < HIDDEN)


def records_of(content, table):
    """The records of a table of versions: word, number, flags, hash, the index of the name, and the record that has it."""
    return (definitions_of if table.type == VERDEF else needs_of)(content, table)


def definitions_of(content, table):
    place, led_by, met = 0, table.at, 0
    while True:
        at = table.offset + place
        refuse_where(place + 20 > table.size or met >= table.size // 20, led_by, "version-cut")
        version, flags, number, _, value, first, behind = struct.unpack_from("<4H3I", content, at)
        refuse_where(version != 1, at, "version")
        refuse_where(number % HIDDEN >= NUMBERS, at, "version-index")
        refuse_where(place + first + 8 > table.size, at, "version-cut")
        met += 1
        yield "DEF", number, flags, value, struct.unpack_from("<I", content, at + first)[0], at + first
        if not behind:
            return
        place, led_by = place + behind, at


def needs_of(content, table):
    place, led_by, met = 0, table.at, 0
    while True:
        at = table.offset + place
        refuse_where(place + 16 > table.size or met >= table.size // 16, led_by, "version-cut")
        version, _, file, first, behind = struct.unpack_from("<2H3I", content, at)
        refuse_where(version != 1, at, "version")
        met += 1
        yield "FILE", 0, 0, 0, file, at
        inner, inner_led = place + first, at
        while True:
            there = table.offset + inner
            refuse_where(inner + 16 > table.size or met >= table.size // 16, inner_led, "version-cut")
            value, flags, number, name, further = struct.unpack_from("<I2H2I", content, there)
            refuse_where(number % HIDDEN >= NUMBERS, there, "version-index")
            met += 1
            yield "NEED", number, flags, value, name, there
            if not further:
                break
            inner, inner_led = inner + further, there
        if not behind:
            return
        place, led_by = place + behind, at


def notes_of(content, table, align):
    """The notes of a section or segment: the place of each, its head, the bytes of its name, its descriptor."""
    size, place, step = table.size, 0, 8 if align == 8 else 4
    if not size:
        return
    refuse_where(table.offset + size > len(content), table.at, "table-outside")
    while place < size:
        at = table.offset + place
        rest = content[at:table.offset + size]
        if len(rest) < 12 and not any(rest):
            return
        refuse_where(len(rest) < 12, at, "note-cut")
        head = struct.unpack_from("<3I", rest)
        end = place + 12 + head[0]
        refuse_where(end > size, at, "note-cut")
        name, there = bytes(rest[12:12 + head[0]]), b""
        if head[1]:
            start = -(-end // step) * step
            end = start + head[1]
            refuse_where(end > size, at, "note-cut")
            there = bytes(content[table.offset + start:table.offset + end])
        yield at, head, name, there
        place = min(-(-end // step) * step, size)


def entries_of(content, table):
    """The dynamic entries of a section or segment up to the first that ends them: place, tag and value."""
    refuse_where(table.size % 16, table.at, "size-not-whole")
    refuse_where(table.offset + table.size > len(content), table.at, "table-outside")
    rows = []
    for at in range(table.offset, table.offset + table.size, 16):
        rows.append((at, *struct.unpack_from("<2Q", content, at)))
        if rows[-1][1] == 0:
            break
    return rows


def check_header(content):
    """The checks of the file header that come before its line."""
    refuse_where(len(content) < 64, len(content), "short")
    for at, wanted, cause in ((0, MAGIC, "not-elf"), (4, b"\2", "class"), (5, b"\1", "data"), (6, b"\1", "version")):
        refuse_where(content[at:at + len(wanted)] != wanted, at, cause)


def report(content, wish):
    """The lines of a file that are selected, and the refusal that ends them, or None."""
    lines = []
    try:
        for row in Listing(content, wish).rows():
            if wish.has(row):
                lines.append(row.text)
    except Refused as refusal:
        return lines + ["! %016x %s" % refusal.args], refusal
    return lines, None
