"""Objects and what ld makes of them, read by their headers with nothing of the program's, for tests/machine/against_ld.py."""

import collections
import re
import struct
import subprocess
import sys

SECONDS = 60
# The types that are applied (psABI, Relocation Types), with how many bytes each stores.
TYPES = {0: ("NONE", 0), 1: ("64", 8), 2: ("PC32", 4), 4: ("PLT32", 4), 9: ("GOTPCREL", 4), 10: ("32", 4),
         11: ("32S", 4), 12: ("16", 2), 14: ("8", 1), 22: ("GOTTPOFF", 4), 24: ("PC64", 8),
         41: ("GOTPCRELX", 4), 42: ("REX_GOTPCRELX", 4)}
PLT32, GOTTPOFF = 4, 22
# Those that take an entry of the global offset table: that of the symbol, or of its offset from the thread pointer.
TABLE_TYPES = {9: "got", GOTTPOFF: "tpgot", 41: "got", 42: "got"}
# What a layout of words holds.
SECTIONS, NAMES, NAME_BYTES = 64, 32, 255
SHT_RELA, SHT_NOBITS, SHT_SYMTAB = 4, 8, 2
SHF_MERGE, SHF_COMPRESSED = 0x10, 0x800
UNDEF, COMMON, FIRST_RESERVED = 0, 0xfff2, 0xff00
STT_SECTION, STT_IFUNC = 3, 10
ET_DYN, PT_TLS = 3, 7
GLOB_DAT, JUMP_SLOT, RELATIVE, TPOFF64, IRELATIVE = 6, 7, 8, 18, 37


def run(words, **how):
    return subprocess.run(words, stdout=subprocess.PIPE, stderr=subprocess.PIPE, timeout=SECONDS,
                          stdin=subprocess.DEVNULL, check=False, **how)


def must(words):
    done = run(words)
    if done.returncode:
        sys.exit("tests/machine/against_ld.py: %s: %s" % (" ".join(words), done.stderr.decode()[:2000]))


Section = collections.namedtuple("Section", "name type flags addr offset size link info align entry")
Symbol = collections.namedtuple("Symbol", "name info other place value size")
Entry = collections.namedtuple("Entry", "at offset kind symbol addend")


class Elf:
    """An ELF64 little-endian file."""

    def __init__(self, path):
        self.path = path
        with open(path, "rb") as file:
            self.bytes = file.read()
        self.headers = shoff = struct.unpack_from("<Q", self.bytes, 40)[0]
        count, names = struct.unpack_from("<HH", self.bytes, 60)
        headers = [struct.unpack_from("<IIQQQQIIQQ", self.bytes, shoff + 64 * i) for i in range(count)]
        self.sections = [Section(self.string(headers[names][4] + header[0]), *header[1:])
                         for header in headers]
        self.symbols = {}

    def string(self, at):
        return self.bytes[at:self.bytes.index(b"\0", at)].decode("utf-8", "surrogateescape")

    def section_bytes(self, section):
        return self.bytes[section.offset:section.offset + section.size]

    def symbols_of(self, index):
        """The symbols of a table of symbols."""
        if index not in self.symbols:
            table = self.sections[index]
            strings = self.sections[table.link].offset
            self.symbols[index] = [
                Symbol(self.string(strings + name), *more)
                for name, *more in struct.iter_unpack("<IBBHQQ", self.section_bytes(table))]
        return self.symbols[index]

    def all_symbols(self):
        for index, section in enumerate(self.sections):
            if section.type == SHT_SYMTAB:
                return self.symbols_of(index)
        return []

    def entries_for(self, index):
        """The relocation entries for a section, each with its symbol."""
        for section in self.sections:
            if section.type == SHT_RELA and section.info == index:
                symbols = self.symbols_of(section.link)
                for row in range(section.size // 24):
                    at = section.offset + 24 * row
                    offset, kind, symbol, addend = struct.unpack_from("<QIIq", self.bytes, at)
                    yield Entry(at, offset, kind, symbols[symbol] if symbol else None, addend)


class Linked(Elf):
    """A linked file, with the addresses that its map and its symbols give."""

    def __init__(self, path, map_path, how=()):
        super().__init__(path)
        self.placed = places_of(map_path)
        self.names = {}
        for symbol in self.all_symbols():
            if symbol.place != UNDEF or symbol.value:
                self.names.setdefault(symbol.name, []).append(symbol)
        self.outputs = {section.name: section for section in self.sections}
        self.linkage, self.indirect = self.linkage_entries()
        self.is_shared = "-shared" in how
        self.is_anywhere = struct.unpack_from("<H", self.bytes, 16)[0] == ET_DYN
        self.loaded = list(self.dynamic_entries())
        self.threads = self.thread_segment()
        self.table = self.table_entries()

    def symbol(self, name):
        """The symbol of a name that all objects see, or None if there is none or are several."""
        found = self.names.get(name, [])
        wide = [symbol for symbol in found if symbol.info >> 4]
        found = wide or found
        return found[0] if len({symbol.value for symbol in found}) == 1 else None

    def linkage_entries(self):
        """Of each name its entry in the procedure linkage table: the one that jumps by the slot that
        is filled for the name at the start of the program. Of each function that then says what fills
        a slot, by its address, the entries that jump by one."""
        slots = {}
        for section in self.sections:
            if section.name.startswith((".plt", ".iplt")):
                text, size = self.section_bytes(section), section.entry or 8
                for at in range(0, len(text) - 5):
                    if text[at:at + 2] == b"\xff\x25" and at % size in (0, 4):
                        rest, = struct.unpack_from("<i", text, at + 2)
                        slots[section.addr + at + 6 + rest] = section.addr + at - at % size
        filled = [it for it in self.dynamic_entries() if it[0] in slots]
        indirect = collections.defaultdict(list)
        for slot, kind, _, addend in filled:
            if kind == IRELATIVE:
                indirect[addend % 2 ** 64].append(slots[slot])
        return {name: slots[slot] for slot, kind, name, _ in filled if kind in (GLOB_DAT, JUMP_SLOT)}, indirect

    def dynamic_entries(self):
        """The entries that a loader applies: place, type, symbol's name and addend."""
        for section in self.sections:
            if section.type == SHT_RELA:
                symbols = self.symbols_of(section.link) if section.link else []
                for slot, kind, symbol, addend in struct.iter_unpack("<QIIq", self.section_bytes(section)):
                    yield slot, kind, symbols[symbol].name if symbol else "", addend

    def thread_segment(self):
        """Where the thread-local storage begins, and how far its end is from there."""
        phoff, = struct.unpack_from("<Q", self.bytes, 32)
        for at in range(phoff, phoff + 56 * struct.unpack_from("<H", self.bytes, 56)[0], 56):
            kind, _, _, start, _, _, size, align = struct.unpack_from("<IIQQQQQQ", self.bytes, at)
            if kind == PT_TLS:
                return start, size + -size % max(align, 1)
        return 0, 0

    def table_entries(self):
        """What each entry of the global offset table holds when the program runs: of a name, or of no name, a value or an
        offset from the beginning of the thread-local storage."""
        held = {}
        for section in self.sections:
            if section.name == ".got":
                for at, (number,) in enumerate(struct.iter_unpack("<Q", self.section_bytes(section))):
                    held[section.addr + 8 * at] = [("", "got", number),
                                                   ("", "tpgot", (number + self.threads[1]) % 2 ** 64)]
        for slot, kind, name, addend in self.dynamic_entries():
            sort = {GLOB_DAT: "got", RELATIVE: "got", TPOFF64: "tpgot"}.get(kind)
            if slot in held:
                held[slot] = [(name, sort, 0 if name else addend % 2 ** 64)] if sort else []
        found = collections.defaultdict(list)
        for slot, contents in held.items():
            for content in contents:
                found[content].append(slot)
        return found


def places_of(map_path):
    """Of each section of each object, by the object's path and the section's name: the addresses that
    the map gives, with the output section and the size. A discarded section is not among them."""
    with open(map_path, encoding="utf-8", errors="surrogateescape") as file:
        text = file.read()
    text = text[text.index("Linker script and memory map"):]
    # A long name is on a line of its own.
    text = re.sub(r"^( ?\S+)\n +(?=0x)", r"\1 ", text, flags=re.M)
    placed, output = collections.defaultdict(list), None
    for line in text.split("\n"):
        found = re.match(r"( ?)(\S+) +0x([0-9a-f]{16}) +0x([0-9a-f]+)(?: (\S.*))?$", line)
        if found and not found[1]:
            output = found[2]
        elif found and found[5]:
            placed[found[5], found[2]].append((int(found[3], 16), output, int(found[4], 16)))
    return placed
