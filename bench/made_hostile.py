#!/usr/bin/env python3
"""Makes the hostile ELF files over which bench/hostile_files runs.

    bench/made_hostile.py FOLDER

It makes them in a directory and prints the name and the description of each. All are ELF64,
little-endian; the bytes are the same each time. Together they take some 80 MB of disk; one has a
length of 64 GB and takes no room, if the file system can do that. Those of the last two kinds are made for
a lookup, and for a section that is written with its relocations applied.
"""

import collections
import os
import struct
import sys

sys.dont_write_bytecode = True
from made_files import FILE_HEADER, IDENTIFICATION, RELOCATION, SECTION_HEADER, SYMBOL, X86_64

SEGMENT = struct.Struct("<IIQQQQQQ")
ENTRY = struct.Struct("<QQ")
NOTE = struct.Struct("<III")
VERSION_NEED = struct.Struct("<HHIII")
REL, DYN = 1, 3
PROGBITS, SYMTAB, STRTAB, RELA, HASH, DYNAMIC, NOTES, DYNSYM = 1, 2, 3, 4, 5, 6, 7, 11
VERNEED, VERSYM = 0x6FFFFFFE, 0x6FFFFFFF
PT_LOAD, PT_DYNAMIC = 1, 2
DT_NULL, DT_NEEDED, DT_STRTAB, DT_STRSZ = 0, 1, 5, 10
GLOBAL_FUNCTION = 0x12
ABSOLUTE = 0xFFF1
# What is after the file header begins here.
FIRST = FILE_HEADER.size
MANY = 65000
MORE_HEADERS = ("--headers", "65279")

# A file: its name, what is in it, the options that elfsee gets besides its usual ones, its pieces by
# their offsets, and its length if it is longer than they are; and what elfsee is to do with it,
# with the words that come after the file.
Hostile = collections.namedtuple("Hostile", "name says options pieces length command words",
                                 defaults=("show", ()))


def header(kind=REL, phoff=0, phnum=0, shoff=0, shnum=0):
    return FILE_HEADER.pack(IDENTIFICATION, kind, X86_64, 1, 0, phoff, shoff, 0, 64,
                            56 if phnum else 0, phnum, 64 if shnum else 0, shnum, 0)


def section(kind=0, offset=0, size=0, link=0, info=0, entry=0, align=8):
    return SECTION_HEADER.pack(0, kind, 0, 0, offset, size, link, info, align, entry)


def symbols_section(offset, size, link, kind=SYMTAB):
    return section(kind, offset, size, link, 1, SYMBOL.size)


def symbol(name=1, value=0, index=ABSOLUTE):
    return SYMBOL.pack(name, GLOBAL_FUNCTION, 0, index, value, 0)


def named(rows):
    """Symbol 0, and rows - 1 symbols after it that share a name."""
    return bytes(SYMBOL.size) + symbol() * (rows - 1)


def padded(content):
    return content + bytes(-len(content) % 8)


def file(name, says, contents, sections, options=(), length=0, **fields):
    """A file with contents after the file header, and section headers after those. `sections`
    gives the section headers after section 0, by the offsets of the contents."""
    places, at = [], FIRST
    for content in contents:
        places.append(at)
        at += len(padded(content))
    headers = [section(), *sections(*places)]
    fields = {"shoff": at, "shnum": len(headers), **fields}
    pieces = {0: header(**fields) + b"".join(map(padded, contents)) + b"".join(headers)}
    return Hostile(name, says, list(options), pieces, length)


def of_symbols(name, says, symbols, strings, count=1, **more):
    """A file whose one symbol table has a given number of section headers."""
    def sections(symbols_at, strings_at):
        table = symbols_section(symbols_at, len(symbols), count + 1)
        return [table] * count + [section(STRTAB, strings_at, len(strings))]
    return file(name, says, [symbols, strings], sections, **more)


def with_relocations(name, says, entries, count=1, **more):
    """A file whose one table of relocation entries has a given number of section headers. They refer to
    two symbols."""
    symbols, strings = named(2), b"\0main\0"

    def sections(symbols_at, strings_at, entries_at):
        table = section(RELA, entries_at, len(entries), 1, 3, RELOCATION.size)
        return [symbols_section(symbols_at, len(symbols), 2),
                section(STRTAB, strings_at, len(strings)), section(PROGBITS, FIRST, 48),
                *[table] * count]
    return file(name, says, [symbols, strings, entries], sections, **more)


def of_notes(name, says, notes, count=1):
    def sections(at):
        return [section(NOTES, at, len(notes), align=4)] * count
    return file(name, says, [notes], sections)


def many_rows():
    """Symbol tables that say more than their files have."""
    thousand = bytes(SYMBOL.size) + b"".join(symbol(1, row) for row in range(1, 1000))
    yield of_symbols(
        "shared_symbols",
        "65,000 section headers share one table of 1,000 symbols: 65 million rows in 4 MB",
        thousand, b"\0a\0", MANY, options=MORE_HEADERS)
    begin = SYMBOL.size * 171
    yield file(
        "sparse", "a symbol table of 64 GB of zeros in a file that takes no room on disk", [],
        lambda: [symbols_section(begin, (2 ** 36 - begin) // SYMBOL.size * SYMBOL.size, 2),
                 section(STRTAB, FIRST, 8)],
        length=2 ** 36)
    yield file(
        "entries_of_one_byte", "a symbol table of 16 MB whose entries have one byte",
        [bytes(2 ** 24)],
        lambda at: [section(SYMTAB, at, 2 ** 24, 2, 0, 1), section(STRTAB, FIRST, 8)])
    yield file(
        "entries_of_no_byte", "a symbol table whose entries have no byte", [bytes(48)],
        lambda at: [section(SYMTAB, at, 48, 2, 0, 0), section(STRTAB, FIRST, 8)])
    yield file(
        "linked_to_itself", "a symbol table that is its own string table", [bytes(2400)],
        lambda at: [symbols_section(at, 2400, 1)])
    yield file(
        "table_over_headers", "three symbol tables over the section headers that describe them", [],
        lambda: [*[symbols_section(FIRST, 288, 4)] * 3, section(STRTAB, FIRST, 320)])


def long_names():
    """Names that are long, share their bytes, have no end, or would act on a terminal."""
    yield of_symbols("long_name", "one symbol with a name of 10 MB",
                     named(2), b"\0" + b"n" * 10_000_000 + b"\0")
    yield of_symbols("long_name_shared", "10,000 symbols share a name of 1 MB",
                     named(10_000), b"\0" + b"n" * 1_000_000 + b"\0")
    yield of_symbols(
        "names_in_one_another",
        "100,000 symbols whose names are the tails of one string of 100,000 bytes",
        b"".join(symbol(row, row) for row in range(100_000)), b"\0" + b"n" * 99_998 + b"\0")
    yield of_symbols(
        "name_without_end",
        "a name with no zero byte before the end of a string table of 10 MB",
        named(2), b"\0" + b"n" * 10_000_000)
    yield of_symbols("control_characters", "names that would clear a terminal and set its title",
                     named(2), b"\0\x1b[2J\x1b]0;title\x07\x9b31m\0")


def numbers():
    """Numbers that wrap, or lie far outside."""
    top = 2 ** 64
    yield file(
        "size_near_2_to_64", "a symbol table with a size of 2^64 - 16", [bytes(48)],
        lambda at: [symbols_section(at, top - 16, 2), section(STRTAB, FIRST, 8)])
    yield file(
        "offset_near_2_to_64", "a symbol table at 2^64 - 8, whose end wraps into the file",
        [bytes(48)], lambda at: [symbols_section(top - 8, 24, 2), section(STRTAB, FIRST, 8)])
    yield Hostile("headers_near_2_to_64", "65,000 section headers at 2^64 - 64",
                  list(MORE_HEADERS), {0: header(shoff=top - 64, shnum=MANY)}, 0)
    yield Hostile(
        "headers_past_the_end",
        "65,000 program headers in a file of 64 KB, which ends long before them",
        list(MORE_HEADERS), {0: header(phoff=1, phnum=MANY), 65535: b"\0"}, 0)
    yield Hostile("cut_in_the_header", "the first 63 bytes of a file header", [],
                  {0: header()[:63]}, 0)
    entries = (ENTRY.pack(DT_NEEDED, 1) + ENTRY.pack(DT_STRTAB, top - 16)
               + ENTRY.pack(DT_STRSZ, top - 1) + ENTRY.pack(DT_NULL, 0))
    segments = (SEGMENT.pack(PT_LOAD, 5, 0, 0, 0, top - 1, top - 1, 1)
                + SEGMENT.pack(PT_DYNAMIC, 6, FIRST + 112, 0, 0, 64, 64, 8))
    yield Hostile(
        "strings_near_2_to_64",
        "dynamic entries whose strings are at 2^64 - 16, without section headers", [],
        {0: header(kind=DYN, phoff=FIRST, phnum=2) + segments + entries}, 0)


def entries_and_notes():
    """Hostile relocation entries, notes, dynamic entries and versions."""
    yield with_relocations(
        "shared_relocations",
        "65,000 section headers share one table of 1,000 relocation entries",
        b"".join(RELOCATION.pack(row, (1 << 32) + 2, 0) for row in range(1000)), MANY,
        options=MORE_HEADERS)
    yield with_relocations(
        "relocation_to_nowhere", "a relocation entry against symbol 4,294,967,295 of two",
        RELOCATION.pack(0, (0xFFFFFFFF << 32) + 1, 0))
    yield of_notes("empty_notes", "a million notes without name and descriptor, in 12 MB",
                   NOTE.pack(0, 0, 1) * 1_000_000)
    yield of_notes("shared_notes", "4,000 section headers share a table of 10,000 notes",
                   (NOTE.pack(4, 8, 1) + b"GNU\0" + bytes(8)) * 10_000, 4000)
    yield of_notes("note_of_4_gb",
                   "a note whose name and descriptor have 4,294,967,295 bytes each",
                   NOTE.pack(0xFFFFFFFF, 0xFFFFFFFF, 1) + bytes(1000))
    yield dynamic_without_end()
    yield versions_in_a_circle()


def dynamic_without_end():
    size, library = 16_000_000, b"\0" + b"l" * 65536 + b"\0"
    entries_at = FIRST + 2 * SEGMENT.size
    segments = (SEGMENT.pack(PT_LOAD, 5, 0, 0, 0, 2 ** 25, 2 ** 25, 1)
                + SEGMENT.pack(PT_DYNAMIC, 6, entries_at, entries_at, 0, size, size, 8))
    entries = (ENTRY.pack(DT_STRTAB, entries_at + size) + ENTRY.pack(DT_STRSZ, len(library))
               + ENTRY.pack(DT_NEEDED, 1) * 999_998)
    return file(
        "dynamic_without_end",
        "a million dynamic entries that name the same library of 64 KB, and no last one",
        [segments, entries, library],
        lambda _, at, strings_at: [section(DYNAMIC, at, size, 2, 0, ENTRY.size),
                                   section(STRTAB, strings_at, len(library))],
        kind=DYN, phoff=FIRST, phnum=2)


def versions_in_a_circle():
    strings = b"\0main\0"
    return file(
        "versions_in_a_circle",
        "symbol versions whose list of needs goes in a circle of length 0",
        [named(1000), strings, b"\2\0" * 1000, VERSION_NEED.pack(1, 0xFFFF, 1, 0, 0)],
        lambda symbols_at, strings_at, versions_at, needs_at: [
            symbols_section(symbols_at, 24000, 2, DYNSYM),
            section(STRTAB, strings_at, len(strings)),
            section(VERSYM, versions_at, 2000, 1, 0, 2),
            section(VERNEED, needs_at, 16, 2, 0xFFFFFFFF, 0)],
        kind=DYN)


def words_of(*numbers):
    return b"".join(map(struct.Struct("<I").pack, numbers))


def of_hash(name, says, table, wanted, symbols=named(2), strings=b"\0a\0"):
    """A library with a hash table in which a name is looked up."""
    made = file(
        name, says, [table, symbols, strings],
        lambda table_at, symbols_at, strings_at: [
            section(HASH, table_at, len(table), 2, 0, 4),
            symbols_section(symbols_at, len(symbols), 3, DYNSYM),
            section(STRTAB, strings_at, len(strings))],
        kind=DYN)
    return made._replace(command="find", words=(wanted,))


def lookups():
    """Hash tables that are made for one lookup in them."""
    count, length = 1_000_003, 4000
    # Each symbol's chain continues far from it, and each name differs from the requested one at its end.
    around = words_of(*((row + 380_011) % count for row in range(count)))
    far = b"".join(symbol(1 + row * 7919 % 60_000) for row in range(1, count))
    yield of_hash(
        "chain_through_all",
        "a chain through a million symbols, none near the last, whose names differ from the wanted"
        " one in its last byte of 4,001",
        words_of(1, count, 1) + around, "n" * length + "x", bytes(SYMBOL.size) + far,
        b"\0" + b"n" * (60_000 + length) + b"\0")
    yield of_hash("chain_in_a_circle", "a chain from a symbol to itself",
                  words_of(1, 2, 1, 0, 1), "b")
    yield of_hash("no_buckets", "a hash table of no bucket", words_of(0, 2, 0, 1), "a")
    yield of_hash("chains_past_the_table",
                  "a hash table of 20 bytes that says it has 4,294,967,295 chains",
                  words_of(1, 0xFFFFFFFF, 1, 0, 0), "a")


def of_entries(name, says, content, entries, words, count=1, strings=b"\0a\0", **more):
    """An object whose section 1 has relocation entries against one undefined symbol."""
    symbols = bytes(SYMBOL.size) + symbol(1, 0, 0)

    def sections(content_at, entries_at, symbols_at, strings_at):
        table = section(RELA, entries_at, len(entries), 2, 1, RELOCATION.size)
        return [section(PROGBITS, content_at, len(content)), symbols_section(symbols_at, 48, 3),
                section(STRTAB, strings_at, len(strings)), *[table] * count]
    made = file(name, says, [content, entries, symbols, strings], sections, **more)
    return made._replace(command="apply", words=("1", *words))


def applied_sections():
    """Sections whose relocations are many, or in an order that is dear."""
    size, absolute, given = 2_000_000, (1 << 32) + 1, "def:a=0x401000"
    falling = b"".join(RELOCATION.pack(size - 8 - 6 * row, absolute, row) for row in range(300_000))
    yield of_entries("falling_offsets",
                     "300,000 relocation entries whose offsets fall, for a section of 2 MB",
                     bytes(size), falling, (given,))
    yield of_entries(
        "shared_entries",
        "65,000 section headers share one table of 1,000 relocation entries, all for one section",
        bytes(8000),
        b"".join(RELOCATION.pack(8 * row, absolute, row) for row in range(1000)), (given,), MANY,
        options=MORE_HEADERS)
    long_name = b"n" * 255
    yield of_entries(
        "names_like_the_layouts",
        "100,000 relocation entries against a symbol whose name differs from 31 names of the layout"
        " in its last bytes alone", bytes(800_000),
        b"".join(RELOCATION.pack(8 * row, absolute, 0) for row in range(100_000)),
        tuple(f"def:{'n' * 253}{row:02}=0x{row:x}" for row in range(31))
        + (f"def:{'n' * 255}=0x401000",), strings=b"\0" + long_name + b"\0")
    yield of_entries("place_near_2_to_64", "a relocation entry for the offset 2^64 - 4", bytes(48),
                     RELOCATION.pack(2 ** 64 - 4, absolute, 0), (given,))


def hostile_files():
    yield from many_rows()
    yield from long_names()
    yield from numbers()
    yield from entries_and_notes()
    yield from lookups()
    yield from applied_sections()


def make_file(folder, hostile):
    path = os.path.join(folder, hostile.name)
    with open(path, "wb") as out:
        for at, piece in hostile.pieces.items():
            out.seek(at)
            out.write(piece)
        if hostile.length:
            out.truncate(hostile.length)
    return path


if __name__ == "__main__":
    if len(sys.argv) != 2:
        sys.exit("made_hostile.py FOLDER")
    for each in hostile_files():
        make_file(sys.argv[1], each)
        print(f"{each.name}: {each.says}")
