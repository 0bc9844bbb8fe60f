"""A second implementation of what `elfsee apply` must answer, from the rules: for the scripts in this
directory. It is written for clarity alone, and reads whole files. looked_up.py has the same for a lookup."""

import struct

SYMBOL_TABLES, STRTAB, RELA, NO_BYTES, COMPRESSED = (2, 11), 3, 4, (0, 8), 0x800
# The types of symbols from the first on that is specific to a system, and the one of those that names an indirect function.
OF_SYSTEM, INDIRECT = 10, 10
# Of each type that is applied: its bytes, what is in its formula, and between what bounds a value fits. G is the
# address of the symbol's entry in the global offset table, T that of the entry of its offset from the thread pointer.
SIGNED = (-2 ** 31, 2 ** 31)
TYPES = {
    0: (0, "", None),
    1: (8, "S", None),
    2: (4, "SP", SIGNED),
    4: (4, "LP", SIGNED),
    9: (4, "GP", SIGNED),
    10: (4, "S", (0, 2 ** 32)),
    11: (4, "S", SIGNED),
    12: (2, "S", (-2 ** 15, 2 ** 16)),
    14: (1, "S", (-2 ** 7, 2 ** 8)),
    22: (4, "TP", SIGNED),
    24: (8, "SP", None),
    41: (4, "GP", SIGNED),
    42: (4, "GP", SIGNED),
}
TABLES = {"G": "got", "T": "tpgot"}
IDENT = ((0, b"\x7fELF", "not-elf"), (4, b"\2", "class"), (5, b"\1", "data"), (6, b"\1", "version"))


class Refused(Exception):
    """An offset and the word of a cause."""


def refuse_where(is_so, at, cause):
    if is_so:
        raise Refused(at, cause)


class Header:
    """A section header of a file."""

    def __init__(self, content, at):
        self.at, self.length = at, len(content)
        (_, self.type, self.flags, _, self.offset, self.size, self.link, self.info, _,
         self.entry) = struct.unpack_from("<IIQQQQIIQQ", content, at)

    def check_inside(self):
        refuse_where(self.offset + self.size > self.length, self.at, "table-outside")

    def check_rows(self, entry=24):
        refuse_where(self.entry != entry, self.at, "entry-size")
        refuse_where(self.size % entry, self.at, "size-not-whole")
        self.check_inside()


def load(content, most):
    """The section headers of a file, in which a given number of are allowed."""
    length = len(content)
    refuse_where(length < 64, length, "short")
    for at, wanted, cause in IDENT:
        refuse_where(content[at:at + len(wanted)] != wanted, at, cause)
    phoff, shoff = struct.unpack_from("<QQ", content, 32)
    phentsize, phnum, shentsize, shnum, names = struct.unpack_from("<5H", content, 54)
    for is_so, at, cause in (
            (phnum == 0xffff, 0x38, "extended-numbering"), (names == 0xffff, 0x3e, "extended-numbering"),
            (shnum == 0 and shoff, 0x3c, "extended-numbering"), (shnum > most, 0x3c, "too-many-headers"),
            (phnum > most, 0x38, "too-many-headers"), (shnum and shentsize != 64, 0x3a, "entry-size"),
            (phnum and phentsize != 56, 0x36, "entry-size"),
            (shnum and shoff + 64 * shnum > length, 0x28, "table-outside"),
            (phnum and phoff + 56 * phnum > length, 0x20, "table-outside"),
            (shnum and names >= shnum, 0x3e, "bad-link")):
        refuse_where(is_so, at, cause)
    headers = [Header(content, shoff + 64 * index) for index in range(shnum)]
    if shnum and names:
        refuse_where(headers[names].type != STRTAB, headers[names].at, "not-strings")
        headers[names].check_inside()
    return headers


def symbols_of(headers, table):
    """The symbol table of a section of entries with its strings, or None if it has none."""
    if table.link >= len(headers) or headers[table.link].type not in SYMBOL_TABLES:
        return None
    symbols = headers[table.link]
    if symbols.size == 0:
        return symbols, None
    symbols.check_rows()
    return symbols, strings_of(headers, symbols)


def strings_of(headers, table):
    """The string table of a section."""
    refuse_where(table.link == 0 or table.link >= len(headers), table.at, "bad-link")
    strings = headers[table.link]
    refuse_where(strings.type != STRTAB, strings.at, "not-strings")
    strings.check_inside()
    return strings


def is_named(content, strings, index, at, wanted):
    """Whether the name at an index of a string table is the requested one; `at` is its symbol."""
    if strings.size == 0 and index == 0:
        return False
    refuse_where(index >= strings.size, at, "name-outside")
    start = strings.offset + index
    there = content[start:min(start + len(wanted) + 1, strings.offset + strings.size)]
    refuse_where(len(there) <= len(wanted) and wanted.startswith(there), at, "name-unended")
    return there == wanted + b"\0"


class Layout:
    """The addresses that words give."""

    def __init__(self, words):
        self.sections, self.named = {}, {"def": [], "plt": [], "got": [], "tpgot": []}
        for word in words:
            sort, rest = word.split(":", 1)
            key, address = rest.rsplit("=", 1)
            if sort == "at":
                self.sections[int(key)] = int(address, 16)
            else:
                self.named[sort].append((key.encode("utf-8", "surrogateescape"), int(address, 16)))


class Section:
    """A section of a file that is written with a layout."""

    def __init__(self, content, index, layout):
        self.content, self.index, self.layout = content, index, layout

    def named(self, strings, at, items):
        index, = struct.unpack_from("<I", self.content, at)
        for wanted, address in items:
            if is_named(self.content, strings, index, at, wanted):
                return address
        return None

    def symbol_value(self, strings, at, entry):
        _, info, _, place, value, _ = struct.unpack_from("<IBBHQQ", self.content, at)
        if info % 16 >= OF_SYSTEM and (place == 0xfff1 or 0 < place < 0xff00):
            found = self.named(strings, at, self.layout.named["plt"]) if info % 16 == INDIRECT else None
            refuse_where(found is None, entry, "unsupported")
            return found
        if place == 0xfff1:
            return value
        if place in (0, 0xfff2):
            found = self.named(strings, at, self.layout.named["def"])
            refuse_where(found is None and not (place == 0 and info >> 4 == 2), entry, "undefined")
            return found or 0
        refuse_where(place >= 0xff00 or place not in self.layout.sections, entry, "unplaced")
        return self.layout.sections[place] + value

    def patch(self, at, linked, size):
        """What an entry stores, and where; nothing for one of type NONE."""
        offset, kind, symbol, addend = struct.unpack_from("<QIIq", self.content, at)
        refuse_where(kind not in TYPES, at, "unsupported")
        width, formula, span = TYPES[kind]
        table = self.layout.named[TABLES[formula[0]]] if formula[:1] in TABLES else None
        refuse_where(table == [], at, "unsupported")
        if not width:
            return 0, b""
        refuse_where(offset + width > size, at, "place-outside")
        refuse_where(table is not None and not symbol, at, "unsupported")
        value = self.value(at, linked, symbol, formula) if symbol else 0
        if "P" in formula:
            refuse_where(self.index not in self.layout.sections, at, "unplaced")
            value -= self.layout.sections[self.index] + offset
        value = (value + addend) % 2 ** 64
        if span:
            refuse_where(span[1] <= value < 2 ** 64 + span[0], at, "overflow")
        return offset, struct.pack("<Q", value)[:width]

    def value(self, at, linked, symbol, formula):
        refuse_where(linked is None, at, "bad-link")
        symbols, strings = linked
        refuse_where(symbol >= symbols.size // 24, at, "symbol-index")
        place = symbols.offset + 24 * symbol
        if formula[0] in TABLES:
            found = self.named(strings, place, self.layout.named[TABLES[formula[0]]])
            refuse_where(found is None, at, "unsupported")
            return found
        if "L" in formula:
            found = self.named(strings, place, self.layout.named["plt"])
            if found is not None:
                return found
        return self.symbol_value(strings, place, at)


def answer(content, words, most=65279):
    """The status and the bytes for a section and items: `words` are those after FILE."""
    try:
        return 0, applied(bytes(content), int(words[0]), Layout(words[1:]), most)
    except Refused as refusal:
        return 1, b"! %016x %s\n" % (refusal.args[0], refusal.args[1].encode())


def applied(content, index, layout, most):
    headers = load(content, most)
    kind, machine = struct.unpack_from("<HH", content, 16)
    refuse_where(kind != 1, 0x10, "not-rel")
    refuse_where(machine != 62, 0x12, "not-rel")
    refuse_where(index == 0 or index >= len(headers), 0x3c, "bad-link")
    header, text = headers[index], bytearray()
    refuse_where(header.flags & COMPRESSED, header.at, "unsupported")
    if header.type not in NO_BYTES:
        header.check_inside()
        text = bytearray(content[header.offset:header.offset + header.size])
    section = Section(content, index, layout)
    for table in headers:
        if table.type == RELA and table.info == index and table.size:
            table.check_rows()
            linked = symbols_of(headers, table)
            for at in range(table.offset, table.offset + table.size, 24):
                offset, stored = section.patch(at, linked, len(text))
                text[offset:offset + len(stored)] = stored
    return bytes(text)
