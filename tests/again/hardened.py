"""A second implementation of what `elfsee traits` must answer without a budget, from the rules: for the scripts in this
directory. It is written for clarity alone, and holds whole files."""

import struct

from applied import Refused, load, refuse_where
from looked_up import ALPHA, check_overlaps
from reported import MAGIC, Segment, entries_of, name_at, notes_of, shown, without_section_headers

LOAD, DYNAMIC, INTERP, NOTE, STACK, RELRO = 1, 2, 3, 4, 0x6474e551, 0x6474e552
HASH, STRTAB, SYMTAB, STRSZ, SONAME, RPATH, TEXTREL, BIND_NOW, RUNPATH, FLAGS = 4, 5, 6, 10, 14, 15, 22, 24, 29, 30
GNU_HASH, FLAGS_1, VERSYM, VERDEF, VERNEED = 0x6ffffef5, 0x6ffffffb, 0x6ffffff0, 0x6ffffffc, 0x6ffffffe
OF_FLAGS_TEXTREL, OF_FLAGS_BIND_NOW, OF_FLAGS_1_NOW, OF_FLAGS_1_PIE = 4, 8, 1, 0x8000000
EXECUTES, WRITES, X86_64, PROPERTIES, X86_FEATURES = 1, 2, 62, 5, 0xc0000002
COLUMNS = ("kind", "relro", "stack", "pages", "text", "cet", "canary", "fortify", "path")
# The bytes of a symbol's name that are read.
NAME_BYTES = 63
HARDENED_KINDS = ("exec", "pie", "static", "lib")
STACK_NAME, HAS_CODE, EXECUTABLE_BY_DEFAULT = b".note.GNU-stack\0", 4, (62, 3)


class Table:
    """A range of the file."""

    def __init__(self, offset, size):
        self.offset, self.size = offset, size


class Traits:
    """How a file is hardened, or the refusal."""

    def __init__(self, content, most):
        self.begin(content, most)
        symbols = self.symbols()
        cet = self.cet()
        canary, fortify = self.of_symbols(*symbols)
        has_none = not self.segments
        stack = stack_of_object(content, most) if self.type == 1 else "-" if has_none else self.stack()
        self.words = (self.kind(), "-" if has_none else self.relro(), stack,
                      "-" if has_none else self.pages(), "-" if has_none else self.text(), cet, canary, fortify, self.path())

    def begin(self, content, most):
        """The checks of headers and dynamic entries."""
        load(without_section_headers(content), most)
        self.content, self.buckets = without_section_headers(content), 0
        self.type, self.machine = struct.unpack_from("<2H", self.content, 16)
        phoff, = struct.unpack_from("<Q", self.content, 32)
        phnum, = struct.unpack_from("<H", self.content, 56)
        self.segments = [Segment(self.content, phoff + 56 * index) for index in range(phnum)]
        if self.first_segment(DYNAMIC) is not None:
            check_overlaps(self.segments)
        self.rows = self.dynamic_rows()

    def first_segment(self, kind):
        return next((segment for segment in self.segments if segment.type == kind), None)

    def dynamic_rows(self):
        """Of each tag the first entry: its place and its value."""
        table, rows = self.first_segment(DYNAMIC), {}
        for at, tag, value in entries_of(self.content, table) if table and table.size else ():
            rows.setdefault(tag, (at, value))
        return rows

    def value(self, tag):
        return self.rows[tag][1] if tag in self.rows else 0

    # The columns that headers and entries give.

    def kind(self):
        has_interp = self.first_segment(INTERP) is not None
        if self.type == 3:
            if SONAME in self.rows:
                return "lib"
            if has_interp:
                return "pie"
            return "static" if self.value(FLAGS_1) & OF_FLAGS_1_PIE else "lib"
        if self.type == 2:
            return "exec" if has_interp else "static"
        return {1: "object", 4: "core"}.get(self.type, "other")

    def relro(self):
        if self.first_segment(RELRO) is None:
            return "none"
        is_full = (BIND_NOW in self.rows or self.value(FLAGS) & OF_FLAGS_BIND_NOW or self.value(FLAGS_1) & OF_FLAGS_1_NOW)
        return "full" if is_full else "partial"

    def stack(self):
        if self.kind() == "core":
            return "-"
        segment = self.first_segment(STACK)
        return "exec" if segment is None or segment.flags & EXECUTES else "nx"

    def pages(self):
        both = EXECUTES | WRITES
        return "wx" if any(segment.type == LOAD and segment.flags & both == both for segment in self.segments) else "w^x"

    def text(self):
        return "patch" if TEXTREL in self.rows or self.value(FLAGS) & OF_FLAGS_TEXTREL else "fixed"

    def path(self):
        return "runpath" if RUNPATH in self.rows else "rpath" if RPATH in self.rows else "-"

    # Notes.

    def cet(self):
        feature = self.features()
        words = [word for bit, word in ((1, "ibt"), (2, "shstk")) if feature & bit]
        return "+".join(words) or "-"

    def features(self):
        """The word of x86's features in the first list of properties; other machines have none."""
        for segment in self.segments:
            if segment.type != NOTE or self.machine != X86_64:
                continue
            step = 8 if segment.align == 8 else 4
            for at, head, name, properties in notes_of(self.content, segment, segment.align):
                if head[2] == PROPERTIES and name == b"GNU\0":
                    behind = at - segment.offset + 12 + head[0]
                    return feature_of(segment.offset + -(-behind // step) * step, properties)
        return 0

    # Symbols.

    def of_symbols(self, symbols, count, strings):
        """What the names of the symbols after the first say."""
        canary, fortify = "-", "-"
        for index in range(1, count):
            at = symbols.offset + 24 * index
            start, _, _, place = struct.unpack_from("<I2BH", self.content, at)
            name, is_whole = name_at(self.content, strings, start, at, NAME_BYTES)
            if not is_whole:
                continue
            if name in (b"__stack_chk_fail", b"__stack_chk_guard"):
                canary = "canary"
            elif place == 0 and name.startswith(b"__") and name.endswith(b"_chk"):
                fortify = "fortify"
        return canary, fortify

    def symbols(self):
        """The dynamic symbols, how many of them the hash table describes, and their strings."""
        tag = next((tag for tag in (GNU_HASH, HASH) if tag in self.rows), None)
        if tag is None:
            return None, 0, None
        at, address = self.rows[tag]
        table = self.rest(at, address)
        is_gnu = tag == GNU_HASH
        refuse_where(table.size < (16 if is_gnu else 8) or self.machine == ALPHA and not is_gnu, at, "hash-shape")
        refuse_where(not {SYMTAB, STRTAB, STRSZ} <= self.rows.keys(), at, "unmapped")
        symbols = self.rest(*self.rows[SYMTAB])
        strings = self.strings()
        if VERSYM in self.rows and {VERDEF, VERNEED} & self.rows.keys():
            # A lookup by names with versions goes by these tables too.
            for other in (VERSYM, VERDEF, VERNEED):
                if other in self.rows:
                    self.rest(*self.rows[other])
        room = symbols.size // 24
        if is_gnu:
            count = self.gnu_count(at, table, room, rows_before(strings.offset, symbols.offset, table.offset, room))
        else:
            count = self.sysv_count(at, table, room)
        return symbols, count, strings

    def rest(self, at, address):
        """What is left of a segment from an address on."""
        for segment in self.segments:
            if segment.type == LOAD and segment.vaddr <= address < segment.vaddr + segment.filesz:
                refuse_where(segment.offset + segment.filesz > len(self.content), segment.at, "table-outside")
                return Table(segment.offset + address - segment.vaddr, segment.filesz - (address - segment.vaddr))
        raise Refused(at, "unmapped")

    def strings(self):
        (at, address), size = self.rows[STRTAB], self.value(STRSZ)
        for segment in self.segments:
            if segment.type == LOAD and segment.vaddr <= address and address + size <= segment.vaddr + segment.filesz:
                offset = segment.offset + address - segment.vaddr
                refuse_where(offset + size > len(self.content), segment.at, "table-outside")
                return Table(offset, size)
        raise Refused(at, "unmapped")

    def sysv_count(self, at, table, room):
        nbucket, nchain = struct.unpack_from("<2I", self.content, table.offset)
        refuse_where(nbucket == 0 or 8 + 4 * nbucket + 4 * nchain > table.size, at, "hash-shape")
        return min(nchain, room)

    def gnu_count(self, at, table, room, before):
        """The symbols before the first that the table knows, and those up to the end of the highest chain. A table with
        no symbol says nothing if that first is 1: then there are those before their strings."""
        nbucket, first, nbloom, shift = struct.unpack_from("<4I", self.content, table.offset)
        self.buckets = nbucket
        chains = 16 + 8 * nbloom + 4 * nbucket
        refuse_where(nbucket == 0 or nbloom == 0 or nbloom & nbloom - 1 or shift >= 32 or chains > table.size, at, "hash-shape")
        highest = max(struct.unpack_from("<%dI" % nbucket, self.content, table.offset + 16 + 8 * nbloom))
        if highest < first:
            return max(before if first == 1 else 0, min(first, room))
        index = highest
        while index < room and chains + 4 * (index - first) + 4 <= table.size:
            word, = struct.unpack_from("<I", self.content, table.offset + chains + 4 * (index - first))
            index += 1
            if word & 1:
                return index
        return room


def stack_of_object(content, most):
    """The stack of a relocatable file, by its sections."""
    try:
        headers = load(content, most)
    except Refused:
        return "-"
    names, = struct.unpack_from("<H", content, 62)
    table = content[headers[names].offset:][:headers[names].size] if headers and names else b""
    for header in headers:
        start, = struct.unpack_from("<I", content, header.at)
        if table[start:start + len(STACK_NAME)] == STACK_NAME:
            return "exec" if header.flags & HAS_CODE else "nx"
    machine, = struct.unpack_from("<H", content, 18)
    return "exec" if machine in EXECUTABLE_BY_DEFAULT else "-"


def rows_before(strings, symbols, table, room):
    """How many symbols have room before their strings; none with the hash table between, or without room."""
    rows = max(strings - symbols, 0) // 24
    return 0 if symbols < table < strings or rows > room else rows


def feature_of(at, properties):
    """The word of x86's features among properties, of which all have to be whole."""
    place, found = 0, None
    while place < len(properties):
        refuse_where(place + 8 > len(properties), at + place, "note-cut")
        kind, size = struct.unpack_from("<2I", properties, place)
        refuse_where(place + 8 + size > len(properties), at + place, "note-cut")
        if kind == X86_FEATURES and found is None:
            found, = struct.unpack_from("<I", properties, place + 8) if size == 4 else (0,)
        place += 8 + -(-size // 8) * 8
    return found or 0


def cost(content, most=4096):
    """How many bytes the traits of a file may read: what its segments do, and for a relocatable file its header again, its
    section headers, and 64 bytes of each name."""
    asked = segments_cost(content, most)
    try:
        if Traits(content, most).type != 1:
            return asked
    except Refused:
        return asked
    shnum, names = struct.unpack_from("<2H", content, 60)
    try:
        # The section of the names is checked after the headers were read.
        load(content[:62] + bytes(2) + content[64:] if names < shnum else content, most)
    except Refused:
        return asked + 64
    return asked + 64 + (64 + 64) * shnum


def segments_cost(content, most):
    """Of the segments: the header, the program headers, the dynamic entries twice, the notes and the list of properties, the
    words of the hash table, and its symbols with 64 bytes of each name."""
    content, asked = without_section_headers(content), 64
    try:
        load(content, most)
        phoff, = struct.unpack_from("<Q", content, 32)
        phnum, = struct.unpack_from("<H", content, 56)
    except Refused:
        return asked
    segments = [Segment(content, phoff + 56 * index) for index in range(phnum)]
    asked += 56 * phnum
    dynamic = next((segment for segment in segments if segment.type == DYNAMIC), None)
    if dynamic and dynamic.size % 16 == 0 and dynamic.offset + dynamic.size <= len(content):
        asked += 2 * dynamic.size
    notes = [segment.size for segment in segments if segment.type == NOTE and segment.offset + segment.size <= len(content)]
    return asked + sum(notes) + max(notes, default=0) + symbols_cost(content, most)


def symbols_cost(content, most):
    """How many bytes the hash table and the symbols that it describes may read."""
    traits = Traits.__new__(Traits)
    try:
        traits.begin(content, most)
        symbols = traits.symbols()
    except Refused:
        return 16
    if symbols[0] is None:
        return 0
    return 16 + 4 * traits.buckets + 4 * symbols[1] + max(0, symbols[1] - 1) * (24 + 64)


def line(words, path):
    return "T %-6s %-7s %-5s %-5s %-5s %-9s %-6s %-7s %-7s %s\n" % (*words, shown((path, True)))


def told(path, content, most=4096, required=()):
    """What `traits` writes of a file, and its status; `required` has pairs of a column and a word, or words with `|`."""
    if content[:4] != MAGIC:
        return "", 0
    try:
        words = Traits(content, most).words
    except Refused as refusal:
        return "C %-12s %016x %s %s\n" % ("refused", *refusal.args, shown((path, True))), 1
    text = line(words, path)
    of_columns = dict(zip(COLUMNS, words))
    lacking = []
    if words[0] in HARDENED_KINDS:
        lacking = [column for column, word in required if of_columns[column] not in word.split("|")]
    return text + "".join(f"! {column}={of_columns[column]}\n" for column in lacking), int(bool(lacking))
