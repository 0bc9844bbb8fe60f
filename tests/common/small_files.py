"""Small ELF files of tables that are mostly in order, but point to one another at random, for the scripts in this
directory: two version tables of one symbol table, tables over one another, tables of no bytes, links to section 0,
addresses in two segments. Some have names, notes and tables that are longer than what is read at once. The same
random generator gives the same file."""

import struct

# Names for all tables. Of 63 bytes of a name traits look at all.
NAMES = [b"", b"one", b"name", b"FIRST", b"SECOND", b"__stack_chk_fail", b"__a_chk", b"_chk", b"__chk", b"name@FIRST",
         bytes(range(1, 11)), bytes(range(11, 70)), b"__" + 57 * b"a" + b"_chk", b"__" + 58 * b"b" + b"_chk", b"\\", b"data",
         b"local"]
STRINGS = b"\0".join(NAMES)
STARTS = [STRINGS.index(b"\0" + name + b"\0") + 1 for name in NAMES[1:-3]] + [0, 0, 2, len(STRINGS) - 11, len(STRINGS) - 5]
# Bytes of a name that ends a table of strings, and how many rows long tables have: near what is read at once.
LENGTHS = (0, 3, 3, 3, 62, 63, 64, 65, 127, 128, 129, 255, 256, 257, 1000, 4095, 4096, 4097, 4160, 5000)
LONG = {"symbols": (169, 170, 171, 340, 341, 680), "entries": (169, 170, 171, 256, 257, 341), "relr": (511, 512, 513, 1025),
        "words": (170, 341, 680, 2048, 2049), "dynamic": (250, 256, 300), "buckets": (1000, 1023, 1024, 1025),
        "chain": (60, 300, 1024)}
# Numbers of types of sections, the bytes of a row if a table has rows, and to what the section links.
TYPES = {"symbols": (2, 11), "entries": (4,), "rel": (9,), "relr": (19,), "words": (0x6fffffff,), "definitions": (0x6ffffffd,), "needs": (0x6ffffffe,),
         "strings": (3,), "notes": (7,), "dynamic": (6,), "sysv": (5,), "gnu": (0x6ffffff6,)}
ROWS = {"symbols": 24, "entries": 24, "rel": 16, "relr": 8, "words": 2, "dynamic": 16}
OF_STRINGS = ("symbols", "definitions", "needs", "dynamic")
TAGS = {"sysv": 4, "strings": 5, "symbols": 6, "gnu": 0x6ffffef5, "words": 0x6ffffff0, "definitions": 0x6ffffffc,
        "needs": 0x6ffffffe}
# Tags of entries that say how a file is linked and hardened, and values for them.
TRAITS, VALUES = (1, 14, 15, 22, 24, 29, 30, 0x6ffffffb), (0, 1, 4, 5, 8, 16, 1 << 27, 1 << 27 | 1, len(STRINGS))
FLAGS = (0, 2, 0x7f7, 0xff7, 0x2007f7, 0x200ff7, 0x1200ff7, 0x4000ff7, 0x4200ff7, 0x10000ff7, 1 << 31, (1 << 64) - 1)
SEGMENTS = (2, 3, 4, 0x6474e551, 0x6474e551, 0x6474e552, 6)


class SmallFile:
    """A file that is made by a generator of chance."""

    def __init__(self, chance):
        self.chance, self.one, self.below = chance, chance.choice, chance.randrange

    def mostly(self, value, *others):
        """A value, seldom one of some others in its place."""
        return value if self.chance.random() < (0.9998 if self.is_long else 0.985) else self.one(others)

    def start(self):
        """The index of a name."""
        return self.mostly(self.one(STARTS + [len(STRINGS) + 1] * self.has_tail), len(STRINGS) - 2, len(STRINGS),
                           len(STRINGS) + 1 + self.tail, (1 << 32) - 1)

    def count(self, kind, otherwise):
        """How many rows a table has."""
        return self.one(LONG[kind]) if self.is_long and self.chance.random() < 0.6 else otherwise

    # The bytes of each kind of table.

    def symbols(self):
        text = self.mostly(bytes(24), b"")
        for _ in range(self.count("symbols", self.below(1, 6))):
            text += struct.pack("<IBBH", self.start(), self.one((0, 1, 2, 0x10, 0x12, 0x1a, 0x22, 0xa1, 0xf5)), self.below(4),
                                self.one((0, 0, 1, 2, 0xfff1, 0xfff2, 0xff02)))
            text += struct.pack("<QQ", self.one((0, 64, 1 << 63)), self.below(9))
        return text

    def entries(self):
        text = b""
        for _ in range(self.count("entries", self.below(5))):
            symbol = self.mostly(self.one((0, 1, 1, 2, 2)), 3, 4, 7, 1 << 31)
            text += struct.pack("<QIIq", self.below(64), self.one((0, 1, 2, 8, 42, 43)), symbol, self.one((0, 1, -1, -1 << 63)))
        return text

    def rel(self):
        entries = self.entries()
        return b"".join(entries[at:at + 16] for at in range(0, len(entries), 24))

    def relr(self):
        text = b""
        for _ in range(self.count("relr", self.below(6))):
            address = self.mostly(self.one((0, 64, 64, 4096, 1 << 63)), *((1 << 64) - less for less in (2, 6, 8, 16, 512, 520)))
            bits = self.one((1, 3, 1 << 63 | 1, self.below(1 << 64) | 1, (1 << 64) - 1))
            text += struct.pack("<Q", self.one((address, bits, bits)) if text else self.mostly(address, bits))
        return text

    def words(self):
        text = b""
        for _ in range(self.count("words", self.mostly(8, 0, 1, 2, 3, 4))):
            number = self.one((0, 1, 2, 2, 3, 0x8001, 0x8002, 0x8003))
            text += struct.pack("<H", self.mostly(number, 4, 5, 6, 1023, 1024, 0x7fff))
        return text

    def definitions(self):
        count, text = self.below(1, 4), b""
        for index in range(count):
            behind = 28 if index + 1 < count else self.mostly(0, 28, 1)
            number = self.mostly(self.one((index + 2, index + 2, index + 2, 2, 3, 0x8002, 0x8003)), 1023, 1024, 0x83ff, 0x8400)
            text += struct.pack("<4H", self.mostly(1, 0, 2), self.one((0, 0, 0, 1, 2)), number, 1)
            text += struct.pack("<3I", 0, self.mostly(20, 0, 21, 24, 28), behind)
            text += struct.pack("<2I", self.start(), self.one((0, 8)))
        return text

    def needs(self):
        files, text = self.below(1, 3), b""
        for file in range(files):
            count = self.below(1, 3)
            behind = 16 + 16 * count if file + 1 < files else self.mostly(0, 16, 1)
            text += struct.pack("<2H3I", self.mostly(1, 0), count, self.start(), self.mostly(16, 0, 1), behind)
            for index in range(count):
                number = self.one((2, 3, 4, 5, 0x8003, 1))
                text += struct.pack("<I2H2I", 0, 0, number, self.start(), 16 if index + 1 < count else 0)
        return text

    def strings(self):
        if self.chance.random() < 0.03:
            return b""
        tail = b"\0" + self.tail * b"t" if self.has_tail else b""
        return STRINGS[:self.mostly(len(STRINGS), 0, 1, 16)] + tail + b"\0" * (self.chance.random() < 0.8)

    def properties(self):
        text = b""
        for _ in range(self.below(4)):
            size = self.one((4, 0, 8, 5)) if self.chance.random() < 0.3 else 4
            size = self.one((4080, 4088, 5000)) if self.is_long and self.chance.random() < 0.3 else size
            text += struct.pack("<2I", self.one((0xc0000002, 0xc0000002, 1, 0xc0008002)), size)
            text += bytes(self.one((0, 1, 2, 3, 4, 255)) for _ in range(size)) + self.mostly(bytes(-size % 8), b"")
        return text

    def notes(self):
        text, align = b"", 8 if self.align == 8 else 4
        for _ in range(self.below(4)):
            name = self.one((b"GNU\0", b"GNU\0", b"GNU", b"GNU\0\0", b"", b"any name\0", b"\0NU\0", b"GNUX"))
            content = self.one((self.properties(), self.properties(), b"", b"\1" * 33))
            if self.is_long and self.chance.random() < 0.3:
                name, content = self.one(((name, 4500 * b"\2"), (self.tail * b"n" + b"\0", content)))
            text += struct.pack("<3I", len(name), len(content), self.one((5, 5, 5, 1, 0))) + name
            text += bytes(-len(text) % align) + content if content else b""
            text += bytes(-len(text) % align)
        return text + self.mostly(b"", bytes(4), bytes(11), bytes(12), b"\1")

    def sysv(self):
        nbucket, nchain = self.mostly(self.one((1, 2)), 0), self.mostly(self.count("chain", self.below(12)), 1 << 31)
        text = struct.pack("<2I", nbucket, nchain)
        return text + b"".join(struct.pack("<I", self.below(8)) for _ in range(nbucket + nchain % (1 << 31)))

    def gnu(self):
        nbucket, first = self.mostly(self.one((1, 2, 3)), 0), self.one((0, 1, 1, 2, 3, 9))
        nbloom, nbucket = self.mostly(self.one((1, 2)), 0, 3), self.count("buckets", nbucket)
        text = struct.pack("<4I", nbucket, first, nbloom, self.one((6, 6, 6, 6, 6, 6, 31, 32))) + bytes(8 * nbloom)
        text += b"".join(struct.pack("<I", self.one((0, first, first + 1, first + 2, 1, 5))) for _ in range(nbucket))
        even = 0xfffffffe if self.is_long else 0xffffffff
        return text + b"".join(struct.pack("<I", self.below(1 << 32) & even) for _ in range(self.count("chain", self.below(6))))

    def dynamic(self, end=0):
        """Entries with the addresses of tables, and some that set traits."""
        rows = [(tag, self.places[name][0] + self.base) for name, tag in TAGS.items()
                if name in self.places and self.chance.random() < 0.92]
        if rows and self.chance.random() < 0.2:
            # An address near the end of what is loaded, or of none.
            odd = self.below(len(rows))
            rows[odd] = (rows[odd][0], self.base + self.one((end, end - 1, end - 8, end - 16, end - 24, 1 << 12, 1 << 63)))
        size = len(STRINGS) + self.has_tail * (1 + self.tail)
        rows += [(10, size + self.mostly(0, 1, -1, 400, 1 << 63))] * (self.chance.random() < 0.98)
        rows += [(99, 1)] * self.count("dynamic", 0)
        rows += [(tag, self.one(VALUES)) for tag in TRAITS if self.chance.random() < 0.25]
        self.chance.shuffle(rows)
        rows.insert(self.one((len(rows),) * 8 + (0, 3, 1)), (0, 0))
        return b"".join(struct.pack("<2Q", tag, value % (1 << 64)) for tag, value in rows)

    # The file.

    def content(self):
        """A file with both kinds of headers, or with one of them, or with none."""
        self.align, self.base = self.one((4, 4, 8, 1)), self.one((0, 0, 0x1000, 0x400000, 1 << 63))
        self.is_long, self.has_tail, self.tail = self.chance.random() < 0.06, self.chance.random() < 0.3, self.one(LENGTHS)
        kinds = [kind for kind in TYPES if kind != "dynamic"
                 for _ in range(self.one((1, 1, 2) if kind in ("strings", "symbols") else (0, 1, 1, 1, 2)))]
        self.chance.shuffle(kinds)
        phnum = self.one((0, 4, 5, 6, 8))
        tables, self.places, text = [], {}, b""
        for kind in kinds + ["dynamic"] * self.one((0, 1, 1, 1, 1, 1)):
            place = 64 + 56 * phnum + len(text)
            part = self.dynamic(place + 16 * self.below(8, 16)) if kind == "dynamic" else getattr(self, kind)()
            part += bytes(-len(part) % 8) * (self.chance.random() < 0.7)
            size = len(part) // ROWS.get(kind, 1) * ROWS.get(kind, 1)
            tables.append((kind, place, size))
            self.places.setdefault(kind, (place, size))
            text += part
        end = 64 + 56 * phnum + len(text)
        headers = self.program_headers(phnum, end)
        sections = self.section_headers(tables) if self.chance.random() < 0.75 else b""
        shnum = len(sections) // 64
        names = self.mostly(1 + kinds.index("strings"), 0, 1) if shnum else 0
        front = b"\x7fELF\2\1\1" + bytes(9)
        front += struct.pack("<2HI", self.one((3, 3, 3, 2, 1, 4, 0)), self.one((62,) * 8 + (183, 0x9026)), 1)
        front += struct.pack("<3QI", 0, 64 if phnum else 0, end if shnum else 0, 0)
        return front + struct.pack("<6H", 64, 56, phnum, 64, shnum, names) + headers + text + sections

    def program_headers(self, count, end):
        wanted = [(1, 0, end)]
        wanted += [(kind, *self.places[name]) for kind, name in ((2, "dynamic"), (4, "notes")) if name in self.places]
        ranges = [(0, 0), (0, 64), (0, end), *self.places.values()]
        for _ in range(8):
            kind, own = self.mostly(self.one(SEGMENTS), 1), {2: "dynamic", 4: "notes"}
            one = self.one(ranges)
            wanted.append((kind, *(self.mostly(self.places.get(own[kind], (0, 0)), one) if kind in own else one)))
        wanted = wanted[:count]
        if self.chance.random() < 0.3:
            self.chance.shuffle(wanted)
        text = b""
        for kind, offset, size in wanted:
            address, held = (self.base + offset) % (1 << 64), size + self.mostly(0, 1, -1) * (size > 0)
            text += struct.pack("<2I6Q", kind, self.below(8), offset, address, 0, held, self.mostly(size, 0), self.align)
        return text

    def section_headers(self, tables):
        rows = [(None, 0, 0), *tables]
        if self.chance.random() < 0.1:
            rows[0] = self.one(tables + [row for row in tables if row[0] == "symbols"] * 8)
        links = {kind: [index for index, row in enumerate(rows) if row[0] == kind] for kind in TYPES}
        text = b""
        for kind, place, size in rows:
            wanted = links["strings" if kind in OF_STRINGS else "symbols"]
            row = ROWS.get(kind, 4)
            size = self.mostly(size, 0, max(0, size - row), size + row, size + 1)
            size = min(size, self.one((size,) * 8 + (0, row, 2 * row))) if kind in ("words", "symbols") else size
            entry = self.mostly(ROWS.get(kind, 0), 0, 1, 2, 8, 16, 24)
            if size == 0 and self.chance.random() < 0.3:
                # Nothing of a table of no bytes is read.
                place, entry = self.one((place, 1 << 63, (1 << 64) - 1)), self.one((entry, 1))
            text += struct.pack("<2I", self.start(), self.one(TYPES[kind]) if kind else 0)
            text += struct.pack("<4Q", self.one(FLAGS), 0, place, size)
            text += struct.pack("<2I", self.mostly(self.one(wanted), 0, self.below(len(rows) + 1)), self.below(len(rows)))
            text += struct.pack("<2Q", self.align, entry)
        return text


def small_file(chance):
    return SmallFile(chance).content()
