"""The files of a link: what counts of objects, shared libraries and archives. For the second implementation of
`elfsee resolve`; it is written for clarity alone, and holds whole files."""

import re
import struct

from applied import IDENT, STRTAB, Header, Refused, load, refuse_where
from linked_keys import ABSOLUTE, BSS, COMMON, DEFINITION, FUNCTION, OTHER, REFERENCE, Symbol

SYMTAB, NOBITS, DYNAMIC, DYNSYM, GROUP, SYMTAB_SHNDX = 2, 8, 6, 11, 17, 18
VERDEF, VERNEED, VERSYM = 0x6FFFFFFD, 0x6FFFFFFE, 0x6FFFFFFF
GLOBAL, WEAK, UNIQUE = 1, 2, 10
ABS, COMMONS, XINDEX = 0xFFF1, (0xFFF2, 0xFF02), 0xFFFF
NEEDED, SONAME = 1, 14
BASE, HIDDEN, NUMBERS = 1, 0x8000, 1024
REL, DYN, X86_64 = 1, 3, 62
MAGIC, THIN = b"!<arch>\n", b"!<thin>\n"
IN_GROUP = 0x200
LINKONCE, SLIM = b".gnu.linkonce.", b"__gnu_lto_slim"


def text_at(content, strings, index, at):
    """The name at an index of a string table, or the refusal at what has the index."""
    if index == 0 and strings.size == 0:
        return b""
    refuse_where(index >= strings.size, at, "name-outside")
    end = content.find(b"\0", strings.offset + index, strings.offset + strings.size)
    refuse_where(end < 0, at, "name-unended")
    return content[strings.offset + index:end]


def checked_strings(headers, index, at):
    """The string table of an index."""
    refuse_where(index == 0 or index >= len(headers), at, "bad-link")
    refuse_where(headers[index].type != STRTAB, headers[index].at, "not-strings")
    headers[index].check_inside()
    return headers[index]


class ElfFile:
    """An object or a shared library: its headers and the table of its symbols."""

    def __init__(self, content, most, wanted):
        self.content = content
        load_identification(content)
        kind, machine = struct.unpack_from("<HH", content, 16)
        refuse_where(kind != wanted, 0x10, "type")
        refuse_where(machine != X86_64, 0x12, "machine")
        self.headers = load(content, most)
        self.table = self.first(DYNSYM if kind == DYN else SYMTAB)
        self.strings = None
        if self.table is not None and self.table.size:
            self.strings = self.checked_symbols(self.table)

    def first(self, kind):
        """The first section of a type, or None."""
        return next((header for header in self.headers if header.type == kind), None)

    def checked_symbols(self, table):
        """The strings of a table of symbols."""
        table.check_rows()
        return checked_strings(self.headers, table.link, table.at)

    def section_name(self, header):
        names, = struct.unpack_from("<H", self.content, 62)
        return text_at(self.content, self.headers[names], struct.unpack_from("<I", self.content, header.at)[0], header.at) if names else b""

    def symbols(self):
        """The index, the place, the name and the fields of each symbol from sh_info on that is not local and has a name."""
        if self.strings is None:
            return
        for index in range(self.table.info, self.table.size // 24):
            at = self.table.offset + 24 * index
            name, info, other, section, value, size = struct.unpack_from("<IBBHQQ", self.content, at)
            if info >> 4 in (GLOBAL, WEAK, UNIQUE):
                text = text_at(self.content, self.strings, name, at)
                refuse_where(text == SLIM, at, "lto")
                if text:
                    yield index, text, info, other, section, value, size

    def nature(self, info, section, size):
        """The nature of a definition, by its type, its section and its size."""
        if info % 16 in (2, 10):
            return FUNCTION
        if section == ABS:
            return ABSOLUTE
        if section < min(len(self.headers), 0xFF00):
            header = self.headers[section]
            if header.type == NOBITS and header.flags & 2 and size:
                return BSS
        return OTHER


def load_identification(content):
    """The checks of the length and the identification of a file."""
    refuse_where(len(content) < 64, len(content), "short")
    for at, wanted, cause in IDENT:
        refuse_where(content[at:at + len(wanted)] != wanted, at, cause)


class Object(ElfFile):
    """An object: its symbols, of which `known` says what sections are dropped."""

    def __init__(self, content, most, known, has_groups=True):
        super().__init__(content, most, REL)
        self.dropped = self.sections = set()
        if not has_groups:
            return
        self.dropped = self.dropped_sections(known)
        names = [(index, self.section_name(header)) for index, header in enumerate(self.headers)]
        self.sections = {name for index, name in names if index not in self.dropped and re.fullmatch(rb"[A-Za-z0-9_]+", name)}

    def dropped_sections(self, known):
        """The sections of which an earlier file or group has the signature or the name."""
        dropped = set()
        for index, header in enumerate(self.headers):
            if header.type == GROUP:
                words, mark = self.group(header)
                if words and words[0] & 1:
                    mark = (GROUP, mark())
                    if mark in known:
                        dropped.update(words[1:])
                    known.add(mark)
                continue
            name = self.section_name(header)
            if name.startswith(LINKONCE) and not header.flags & IN_GROUP:
                if (LINKONCE, name) in known:
                    dropped.add(index)
                known.add((LINKONCE, name))
        return dropped

    def group(self, header):
        """The words of a group, and a call for its signature."""
        refuse_where(header.size % 4, header.at, "size-not-whole")
        header.check_inside()
        table = self.headers[header.link] if header.link < len(self.headers) else None
        refuse_where(table is None or table.type not in (SYMTAB, DYNSYM), header.at, "bad-link")
        strings = self.checked_symbols(table) if table.size else None
        refuse_where(header.info >= table.size // 24, header.at, "symbol-index")
        words = struct.unpack_from(f"<{header.size // 4}I", self.content, header.offset)
        return words, lambda: self.signature(table.offset + 24 * header.info, strings)

    def signature(self, at, strings):
        name, info, _, section = struct.unpack_from("<IBBH", self.content, at)
        text = text_at(self.content, strings, name, at)
        if not text and info % 16 == 3 and section < len(self.headers):
            return self.section_name(self.headers[section])
        return text

    def events(self):
        """The names of the keys and the symbol, for each that counts."""
        for _, text, info, other, section, value, size in self.symbols():
            is_gone = 0 < section < 0xFF00 and section in self.dropped
            is_weak, is_default = info >> 4 == WEAK, other % 4 == 0
            if section == 0 or is_gone:
                symbol = Symbol(REFERENCE, is_weak, is_default=is_default, is_gone=is_gone)
            elif section in COMMONS:
                symbol = Symbol(COMMON, is_weak, size, is_default=is_default)
            else:
                symbol = Symbol(DEFINITION, is_weak, size, ABSOLUTE if section == ABS else OTHER, value, is_default)
            yield keys_of(text, symbol.sort), symbol

    def first_of(self, wanted):
        """Whether the first symbol of a name is a definition, not weak and no function."""
        for index in range(self.table.info, self.table.size // 24) if self.strings else ():
            at = self.table.offset + 24 * index
            name, info, _, section = struct.unpack_from("<IBBH", self.content, at)
            if info >> 4 in (GLOBAL, WEAK, UNIQUE) and whole(self.content, self.strings, name) == wanted:
                return info >> 4 != WEAK and info % 16 not in (2, 10) and section != 0 and section not in COMMONS
        return False


def whole(content, strings, index):
    """A name, or None if it is malformed."""
    try:
        return text_at(content, strings, index, 0)
    except Refused:
        return None


def keys_of(text, sort=DEFINITION):
    """The names of the keys that a name of an object or of an index is."""
    name, _, version = text.partition(b"@")
    if not name or not version.startswith(b"@"):
        return [text]
    return [name + version] if sort == REFERENCE else [name + version, name]


class SharedLibrary(ElfFile):
    """A shared library: its name, what it needs, and its symbols with their versions."""

    def __init__(self, content, most):
        super().__init__(content, most, DYN)
        self.soname, self.needed = None, []
        self.read_dynamic()
        self.versions = self.first(VERSYM)
        self.defined, self.wanted = {}, {}
        if self.versions is not None and self.versions.size:
            self.versions.check_rows(2)
        if self.versions is not None and self.table is not None:
            self.read_definitions()
            self.read_needs()

    def read_dynamic(self):
        header = self.first(DYNAMIC)
        if header is None or not header.size:
            return
        header.check_rows(16)
        strings = checked_strings(self.headers, header.link, header.at)
        for at in range(header.offset, header.offset + header.size, 16):
            tag, value = struct.unpack_from("<2Q", self.content, at)
            if tag == 0:
                break
            if tag == NEEDED:
                self.needed.append(text_at(self.content, strings, value, at))
            elif tag == SONAME and self.soname is None:
                self.soname = text_at(self.content, strings, value, at)

    def records(self, kind, size):
        """The header and the strings of the first section of version records of a kind, or None, and how many records fit it."""
        header = self.first(kind)
        if header is None or not header.size:
            return None
        header.check_inside()
        return header, checked_strings(self.headers, header.link, header.at), header.size // size

    def read_definitions(self):
        found = self.records(VERDEF, 20)
        if found is None:
            return
        header, strings, most = found
        place, led_by = 0, header.at
        for left in range(most, -1, -1):
            refuse_where(place + 20 > header.size or not left, led_by, "version-cut")
            at = header.offset + place
            version, flags, number, _, _, first, behind = struct.unpack_from("<4H3I", self.content, at)
            refuse_where(version != 1, at, "version")
            refuse_where(number % HIDDEN >= NUMBERS, at, "version-index")
            refuse_where(place + first + 8 > header.size, at, "version-cut")
            there = at + first
            name = text_at(self.content, strings, struct.unpack_from("<I", self.content, there)[0], there)
            if not flags & BASE:
                self.defined.setdefault(number % HIDDEN, name)
            if not behind:
                return
            place, led_by = place + behind, at

    def read_needs(self):
        found = self.records(VERNEED, 16)
        if found is None:
            return
        header, strings, left = found
        place, led_by = 0, header.at
        while True:
            refuse_where(place + 16 > header.size or not left, led_by, "version-cut")
            at = header.offset + place
            version, _, _, first, behind = struct.unpack_from("<2H3I", self.content, at)
            refuse_where(version != 1, at, "version")
            left = self.read_versions(header, strings, place + first, at, left - 1)
            if not behind:
                return
            place, led_by = place + behind, at

    def read_versions(self, header, strings, place, led_by, left):
        """The versions of a need; gives how many records may follow."""
        while True:
            refuse_where(place + 16 > header.size or not left, led_by, "version-cut")
            at = header.offset + place
            _, _, number, name, behind = struct.unpack_from("<I2H2I", self.content, at)
            refuse_where(number % HIDDEN >= NUMBERS, at, "version-index")
            left -= 1
            self.wanted.setdefault(number % HIDDEN, text_at(self.content, strings, name, at))
            if not behind:
                return left
            place, led_by = place + behind, at

    def events(self):
        for index, text, info, _, section, value, size in self.symbols():
            nature = self.nature(info, section, size)
            sort = REFERENCE if section == 0 else DEFINITION
            yield self.names(index, text, sort, nature), Symbol(sort, info >> 4 == WEAK, size if nature == BSS else 0, nature, value)

    def names(self, index, text, sort, nature):
        if self.versions is None:
            return [text]
        place = self.versions.offset + 2 * index
        refuse_where(2 * index >= self.versions.size, self.versions.at, "version-cut")
        word, = struct.unpack_from("<H", self.content, place)
        number, is_hidden = word % HIDDEN, bool(word & HIDDEN)
        if not is_hidden and (number < 2 or nature == ABSOLUTE):
            return [text]
        if sort == REFERENCE:
            refuse_where(number not in self.wanted, place, "version-index")
            return [text + b"@" + self.wanted[number]]
        refuse_where(number > 1 and number not in self.defined, place, "version-index")
        full = text + b"@" + (self.defined[number] if number > 1 else b"")
        return [full] if is_hidden else [full, text]


class Member:
    """A member of an archive: the offsets of its header and of its data, their size, and its name."""

    def __init__(self, at, start, size, name):
        self.at, self.start, self.size, self.name = at, start, size, name


class Archive:
    """An archive: its members and, if asked for, the entries of its index, each a name and the number of a member."""

    def __init__(self, content, has_index):
        self.content, self.members, self.entries = content, list(members_of(content)), []
        if has_index and self.members:
            self.read_index()

    def is_file(self, number):
        return self.content[self.members[number].at:][:16].rstrip(b" ") not in (b"/", b"//", b"/SYM64/")

    def data(self, number):
        member = self.members[number]
        return self.content[member.start:member.start + member.size]

    def read_index(self):
        first = self.members[0]
        width = {b"/": 4, b"/SYM64/": 8}.get(self.content[8:24].rstrip(b" "))
        refuse_where(width is None, 8, "no-index")
        data = self.content[first.start:first.start + first.size]
        refuse_where(len(data) < width, 8, "index-cut")
        count = int.from_bytes(data[:width], "big")
        refuse_where(width + count * width > len(data), 8, "index-cut")
        numbers = {member.at: number for number, member in enumerate(self.members)}
        place = width + count * width
        for index in range(count):
            at = width + width * index
            offset = int.from_bytes(data[at:at + width], "big")
            end = data.find(b"\0", place)
            refuse_where(end < 0, 8, "index-cut")
            refuse_where(offset not in numbers, first.start + at, "index-member")
            self.entries.append((data[place:end], numbers[offset]))
            place = end + 1


def members_of(content):
    """The members of an archive in order."""
    at, table = 8, None
    while at < len(content):
        head = content[at:at + 60]
        size = re.fullmatch(rb"([0-9]{1,10}) *", head[48:58])
        refuse_where(len(head) < 60 or head[58:] != b"`\n" or not size, at, "member-cut")
        start, size = at + 60, int(size[1])
        refuse_where(start + size > len(content), at, "member-cut")
        end = start + size
        bsd = re.fullmatch(rb"#1/([0-9]{1,13}) *", head[:16])
        if bsd:
            refuse_where(int(bsd[1]) > size, at, "member-cut")
            start += int(bsd[1])
        yield Member(at, start, end - start, lambda head=head, at=at, start=start, table=table: name_of(content, head[:16], at, start, table))
        if table is None and head[:16] == b"//".ljust(16):
            table = (at + 60, size)
        at = end + size % 2


def name_of(content, field, at, start, table):
    """The name of a member by its field, or the refusal at its header."""
    if re.fullmatch(rb"#1/[0-9]{1,13} *", field):
        return content[at + 60:start].rstrip(b"\0")
    long = re.fullmatch(rb"/([0-9]{1,15}) *", field)
    if not long:
        place = field.find(b"/")
        return field[:place] if place > 0 else field.rstrip(b" ")
    refuse_where(table is None or int(long[1]) >= table[1], at, "name-outside")
    end = content.find(b"\n", table[0] + int(long[1]), table[0] + table[1])
    refuse_where(end < 0, at, "name-unended")
    return re.sub(rb"/\Z", b"", content[table[0] + int(long[1]):end])


__all__ = ["Archive", "Header", "Object", "Refused", "SharedLibrary", "keys_of"]
