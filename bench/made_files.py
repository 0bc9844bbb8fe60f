#!/usr/bin/env python3
"""Makes the ELF files over which bench/against_peers measures.

    bench/made_files.py FOLDER [ROWS [SECTIONS]]

It makes them in a directory and prints the path of each. Each is a relocatable file for x86-64, in ELF64,
little-endian; the same numbers give the same bytes.
"""

import collections
import os
import random
import struct
import sys

ROWS, SECTIONS = 300000, 28000
FILE_HEADER = struct.Struct("<16sHHIQQQIHHHHHH")
SECTION_HEADER = struct.Struct("<IIQQQQIIQQ")
SYMBOL = struct.Struct("<IBBHQQ")
RELOCATION = struct.Struct("<QQq")
IDENTIFICATION = b"\x7fELF\x02\x01\x01".ljust(16, b"\0")
REL, X86_64, CURRENT = 1, 62, 1
NULL, PROGBITS, SYMTAB, STRTAB, RELA = 0, 1, 2, 3, 4
ALLOC_EXECINSTR = 6
GLOBAL_FUNCTION = 0x12
# R_X86_64_64, R_X86_64_PC32, R_X86_64_PLT32.
RELOCATION_TYPES = (1, 2, 4)
# Eight names lie in each of these, each the tail of the one before.
EIGHT_NAMES = "read_the_very_next_symbol_of_group_%06d"
# Among the symbols in order, every so often a name like these are mixed.
NEIGHBOURS = 64

Section = collections.namedtuple("Section", "name kind content link info entry_size")


def section(name, kind, content=b"", link=0, info=0, entry_size=0):
    return Section(name, kind, content, link, info, entry_size)


def string_table(names):
    """A string table with these names one after another, and the index of each."""
    indices, at = [], 1
    for name in names:
        indices.append(at)
        at += len(name) + 1
    return ("\0" + "".join(name + "\0" for name in names)).encode(), indices


def own_names(count):
    """A string table of a given number of names, 13 to 35 bytes long, and the index of each."""
    return string_table(["%06d" % number + "_named_and_by_itself_alone_always"[:7 + number % 23]
                         for number in range(count)])


def shared_names(count):
    """A string table of a given number of names of which eight lie in one another, and the indexes, mixed
    among neighbours: so do linkers leave names that they merged at their ends."""
    wholes = [EIGHT_NAMES % group for group in range(-(-count // 8))]
    content, starts = string_table(wholes)
    indices = []
    for whole, start in zip(wholes, starts):
        indices.append(start)
        indices += [start + at + 1 for at, letter in enumerate(whole) if letter == "_"]
    mixer, mixed = random.Random(1), []
    for first in range(0, count, NEIGHBOURS):
        neighbours = indices[first:min(first + NEIGHBOURS, count)]
        mixer.shuffle(neighbours)
        mixed += neighbours
    return content, mixed


def object_file(sections):
    """A relocatable with these sections after section 0, and their names last."""
    names, indices = string_table([each.name for each in sections] + [".shstrtab"])
    sections = [section("", NULL), *sections, section(".shstrtab", STRTAB, names)]
    headers, contents, at = [], [], FILE_HEADER.size
    for each, name in zip(sections, [0] + indices):
        flags = ALLOC_EXECINSTR if each.kind == PROGBITS else 0
        place, alignment = (0, 0) if each.kind == NULL else (at, 8)
        headers.append(SECTION_HEADER.pack(name, each.kind, flags, 0, place, len(each.content),
                                           each.link, each.info, alignment, each.entry_size))
        contents.append(each.content + b"\0" * (-len(each.content) % 8))
        at += len(contents[-1])
    header = FILE_HEADER.pack(IDENTIFICATION, REL, X86_64, CURRENT, 0, 0, at, 0, FILE_HEADER.size,
                              0, 0, SECTION_HEADER.size, len(sections), len(sections) - 1)
    return b"".join([header, *contents, *headers])


def object_of_symbols(names, targets=()):
    """A relocatable whose symbols after symbol 0 have these names, a string table and an index
    for each, and with a relocation entry for each symbol that targets names."""
    strings, indices = names
    symbols = [SYMBOL.pack(0, 0, 0, 0, 0, 0)] + [
        SYMBOL.pack(index, GLOBAL_FUNCTION, 0, 1, 16 * row, 16)
        for row, index in enumerate(indices)]
    sections = [section(".text", PROGBITS, bytes(16 * len(symbols))),
                section(".symtab", SYMTAB, b"".join(symbols), 3, 1, SYMBOL.size),
                section(".strtab", STRTAB, strings)]
    if targets:
        entries = [RELOCATION.pack(8 * row, (target << 32) + RELOCATION_TYPES[row % 3], -4)
                   for row, target in enumerate(targets)]
        sections.append(
            section(".rela.text", RELA, b"".join(entries), 2, 1, RELOCATION.size))
    return object_file(sections)


def contents(rows, sections):
    """The name and the bytes of each file."""
    own = own_names(rows - 1)
    in_order = list(range(rows))
    scattered = random.Random(2).sample(in_order, rows)
    yield "own_names.o", object_of_symbols(own)
    yield "shared_names.o", object_of_symbols(shared_names(rows - 1))
    yield "relocs_in_order.o", object_of_symbols(own, in_order)
    yield "relocs_scattered.o", object_of_symbols(own, scattered)
    yield "many_sections.o", object_file([
        section(".text.function_%05d" % number, PROGBITS) for number in range(sections - 2)])


def make_files(folder, rows=ROWS, sections=SECTIONS):
    """Makes the files in a directory, and gives the path of each."""
    paths = []
    for name, content in contents(rows, sections):
        paths.append(os.path.join(folder, name))
        with open(paths[-1], "wb") as file:
            file.write(content)
    return paths


if __name__ == "__main__":
    if len(sys.argv) not in (2, 3, 4):
        sys.exit("made_files.py FOLDER [ROWS [SECTIONS]]")
    print("\n".join(make_files(sys.argv[1], *map(int, sys.argv[2:]))))
