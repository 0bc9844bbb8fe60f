#!/usr/bin/env python3
"""Compares what `elfsee apply` writes with what the linker `ld` writes for the same addresses.

    tests/machine/against_ld.py [--program PROGRAM] [--keep FOLDER]

Objects are made here with gcc, g++ and as: optimised code for fixed and for any addresses, tables
of pointers, jump tables of switches, calls through the procedure linkage table, references through
the global offset table, offsets from the thread pointer, weak and common symbols, indirect
functions, debug information, data of 8, 16, 32 and 64 bits; and the members of the C and C++ libraries that static
programs use, for fixed and for any addresses, are those of this machine. `ld` links them at the addresses of a
linker script: each section by itself at an address chosen here, or all together starting at
one address, as a program, a shared library or a program for any address. The map of the link and
the symbols of the linked file give the address of each section and each name, the contents of its global
offset table, and the symbols of its entries.

Each section of each object whose entries are all of types that elfsee supports is then written by
`elfsee apply`, which is given exactly those addresses, in a file if they are too many for arguments, and
must be byte for byte what the linked file has there. A section that the linker does not make
by applying entries alone is left out; how many are left out, and why, is printed at the end. One that is
compressed must be refused. Then values at the edges of each type are stored by both:
if ld takes a value elfsee writes the same bytes, and if ld says that it does not fit elfsee
says `overflow`. For 8 and 16 bits ld also takes values down to -2^8 and -2^16, which the psABI
does not have; elfsee refuses them. Last come refusals: an address too far, no definition, no
address of a section, no entry of an indirect function.

It needs Python 3 and from Debian gcc, g++ and binutils, and is no part of ./check. Without PROGRAM the
repository's own is tested, and built first if it is not built. With --keep the objects and linked
files stay in FOLDER. At the first difference it stops with status 1; otherwise the last line says what was
compared, and the status is 0.
"""

import collections
import os
import shutil
import struct
import sys
import tempfile

sys.dont_write_bytecode = True
sys.path.insert(0, os.path.join(os.path.dirname(os.path.realpath(__file__)), "..", "common"))
from linked_files import (COMMON, FIRST_RESERVED, NAMES, NAME_BYTES, PLT32, SECTIONS, SHF_COMPRESSED, SHF_MERGE,
                          SHT_NOBITS, STT_IFUNC, STT_SECTION, TABLE_TYPES, TYPES, UNDEF, Elf, Linked, must, run)
from linked_sources import ABSOLUTE, LINKS, STATIC_CODE, link, make_objects, static_program
from testing import option_reader, program_of

# Sections that ld writes anew from what all objects have.
REWRITTEN = (".eh_frame", ".note.gnu.property", ".stab", ".stabstr")


class Difference(Exception):
    """What elfsee and ld do not agree on."""


# ---------------------------------------------------------------------------
# What is compared.

class Left(Exception):
    """Why a section is left out."""


def place_of(linked, obj, said_path, index):
    """The address of an object's section, and its output section."""
    section = obj.sections[index]
    found = linked.placed.get((said_path, section.name), [])
    same = [i for i, it in enumerate(obj.sections) if it.name == section.name]
    if not found:
        raise Left("it is not linked, or names one that is not")
    if len(found) != len(same) or found[same.index(index)][2] != section.size:
        raise Left("the map does not have its address, or that of one that it names")
    address, output, _ = found[same.index(index)]
    return address, linked.outputs.get(output)


def items_for(linked, obj, said_path, index, entries, wanted):
    """The words that give elfsee the addresses that a section's entries need, where ld has these bytes."""
    place = place_of(linked, obj, said_path, index)[0]
    sections, definitions, linkage, tables = {index: place}, {}, {}, {"got": {}, "tpgot": {}}
    for entry in entries:
        symbol = entry.symbol
        if entry.kind == 0 or symbol is None:
            continue
        if is_indirect(symbol) and entry.kind not in TABLE_TYPES:
            linkage[symbol.name] = indirect_entry(linked, obj, said_path, symbol)
        elif entry.kind in TABLE_TYPES:
            stored, = struct.unpack_from("<i", wanted, entry.offset)
            referred = (place + entry.offset + stored - entry.addend) % 2 ** 64
            slot = slot_of(linked, obj, said_path, entry, referred)
            if tables[TABLE_TYPES[entry.kind]].setdefault(symbol.name, slot) != slot:
                raise Left("it refers to two symbols of one name")
        elif entry.kind == PLT32 and symbol.name in linked.linkage:
            linkage[symbol.name] = linked.linkage[symbol.name]
        elif symbol.place in (UNDEF, COMMON):
            value = value_of(linked, symbol)
            if value is not None:
                definitions[symbol.name] = value
            elif entry.kind == PLT32 and linked.is_anywhere:
                raise Left("its call of what nobody defines goes through a table entry without a name")
        elif symbol.place < FIRST_RESERVED:
            sections[symbol.place] = address_of(linked, obj, said_path, symbol)
    named = {"def": definitions, "plt": linkage, **tables}
    if any(len(name.encode("utf-8", "surrogateescape")) > NAME_BYTES for names in named.values() for name in names):
        raise Left("it names a symbol of more than 255 bytes")
    return (["at:%d=0x%x" % pair for pair in sections.items()]
            + ["%s:%s=0x%X" % (sort, *pair) for sort, names in named.items() for pair in names.items()])


def is_indirect(symbol):
    """Whether a symbol is an indirect function that its object defines."""
    return symbol.info & 15 == STT_IFUNC and symbol.place not in (UNDEF, COMMON)


def indirect_entry(linked, obj, said_path, symbol):
    """The linkage table entry of an indirect function of an object: that of its name, or the one that jumps to what the
    function at its value names."""
    if symbol.info >> 4 and symbol.name in linked.linkage:
        return linked.linkage[symbol.name]
    place, _ = place_of(linked, obj, said_path, symbol.place)
    return entry_at(linked, place + symbol.value)


def entry_at(linked, address):
    found = linked.indirect.get(address % 2 ** 64, [])
    if len(found) != 1:
        raise Left("the linked file does not have the linkage table entry of an indirect function")
    return found[0]


def given_as(items, path):
    """The words that give items: themselves if they fit as arguments, otherwise a file that has them, in another
    order."""
    sorts = collections.Counter(item.split(":")[0] for item in items)
    if sorts["at"] <= SECTIONS and all(count <= NAMES for sort, count in sorts.items() if sort != "at"):
        return items
    with open(path, "w", encoding="utf-8", errors="surrogateescape") as file:
        file.writelines(item + "\n" for item in reversed(items))
    return ["--layout", path]


def slot_of(linked, obj, said_path, entry, referred):
    """The address of the entry in the linked file's global offset table that holds what an entry is for. Where several
    hold it, as of names of one place, it is the one that ld refers to."""
    symbol, sort = entry.symbol, TABLE_TYPES[entry.kind]
    if not symbol.name:
        raise Left("it takes a table entry of a symbol without a name")
    if sort == "tpgot" and not linked.is_shared:
        raise Left("ld writes other instructions where an offset from the thread pointer is known")
    slots = linked.table[symbol.name, sort, 0] if symbol.info >> 4 else []
    if not slots:
        value = table_value(linked, obj, said_path, symbol, sort)
        slots = linked.table["", sort, value]
    if len(slots) > 1 and referred in slots:
        return referred
    if len(slots) != 1:
        raise Left("the linked file's table does not say which entry is a symbol's")
    return slots[0]


def table_value(linked, obj, said_path, symbol, sort):
    """What the table entry of a symbol holds that no loader looks up by name."""
    if symbol.info >> 4:
        return value_of(linked, symbol) or 0
    place = address_of(linked, obj, said_path, symbol)
    return (place + symbol.value - (linked.threads[0] if sort == "tpgot" else 0)) % 2 ** 64


def value_of(linked, symbol):
    """The value that the linked file has for an undefined or common symbol; None for a weak one that it
    does not have."""
    found = linked.symbol(symbol.name)
    if found is None:
        if symbol.info >> 4 == 2 and symbol.name not in linked.names:
            return None
        raise Left("the linked file has not one symbol of a name that it needs")
    return entry_at(linked, found.value) if found.info & 15 == STT_IFUNC else found.value


def address_of(linked, obj, said_path, symbol):
    """The address of the section where a symbol is, which must be what the linked file has."""
    if obj.sections[symbol.place].flags & SHF_MERGE:
        raise Left("it refers into a section whose constants are merged")
    address, _ = place_of(linked, obj, said_path, symbol.place)
    if symbol.info >> 4 and symbol.info & 15 != STT_SECTION:
        found = linked.symbol(symbol.name)
        if found is None or found.value != (address + symbol.value) % 2 ** 64:
            raise Left("it names a symbol of its own that another object's definition replaces")
    return address


def check_kind(section, entries):
    """Leaves out the sections that the linker does not make by applying entries of known types."""
    if section.type in (SHT_NOBITS, 0) or not section.size:
        raise Left("it has no bytes")
    if section.type not in (1, 7, 14, 15, 16):
        raise Left("it is a table for the linker, and not linked")
    if section.flags & SHF_MERGE:
        raise Left("its constants are merged")
    if section.name in REWRITTEN:
        raise Left("ld writes it anew: " + section.name)
    if any(entry.kind not in TYPES for entry in entries):
        raise Left("it has entries of other types")


def differs(wanted, got):
    both = enumerate(zip(wanted, got))
    at = next((i for i, (one, other) in both if one != other), min(len(wanted), len(got)))
    return "they differ first at 0x%x: ld has %s, elfsee %s (%d and %d bytes)" % (
        at, wanted[at:at + 8].hex(), got[at:at + 8].hex(), len(wanted), len(got))


class Compared:
    """What was compared, and what was left out."""

    def __init__(self, program):
        self.program = program
        self.sections = self.plain = 0
        self.entries = collections.Counter()
        self.left = collections.Counter()
        self.through_linkage = self.through_table = self.lists = self.indirect = self.compressed = 0

    def object(self, linked, path, said_path):
        obj = Elf(path)
        for index, section in enumerate(obj.sections):
            try:
                self.section(linked, obj, said_path, index, section)
            except Left as why:
                self.left[str(why)] += 1

    def section(self, linked, obj, said_path, index, section):
        entries = list(obj.entries_for(index))
        if section.flags & SHF_COMPRESSED:
            line = "! %016x unsupported" % (obj.headers + 64 * index)
            refused(self.program, ["apply", obj.path, str(index)], line, "the section %s" % section.name)
            self.compressed += 1
            return
        check_kind(section, entries)
        address, output = place_of(linked, obj, said_path, index)
        if output is None or output.type == SHT_NOBITS:
            raise Left("its output section has no bytes")
        if any(address <= place < address + section.size for place, *_ in linked.loaded):
            raise Left("a loader writes into it")
        at = output.offset + (address - output.addr) % 2 ** 64
        wanted = linked.bytes[at:at + section.size]
        items = items_for(linked, obj, said_path, index, entries, wanted)
        given = given_as(items, obj.path + ".layout")
        words = ["apply", "--headers=65279", obj.path, str(index), *given]
        done = run([self.program, *words])
        if done.returncode or done.stderr or done.stdout != wanted:
            raise Difference("section %d (%s) of %s, linked in %s: status %d, %s; %s\n  elfsee %s" % (
                index, section.name, said_path, linked.path, done.returncode, done.stderr.decode().strip(),
                differs(wanted, done.stdout), " ".join(words)))
        self.sections += bool(entries)
        self.lists += given is not items
        self.plain += not entries
        self.entries.update(TYPES[entry.kind][0] for entry in entries)
        self.indirect += sum(bool(entry.symbol) and is_indirect(entry.symbol) for entry in entries)
        self.through_linkage += sum(item.startswith("plt:") for item in items)
        self.through_table += sum(item.startswith(("got:", "tpgot:")) for item in items)

    def told(self):
        types = ", ".join("%d %s" % (self.entries[name], name) for name, _ in TYPES.values())
        for why, count in self.left.most_common():
            print("left out %d sections: %s" % (count, why))
        print("%d linkage table entries were given, and %d global offset table entries"
              % (self.through_linkage, self.through_table))
        print("%d sections took their items from a file" % self.lists)
        print("%d entries name indirect functions of their own object; %d compressed sections are refused"
              % (self.indirect, self.compressed))
        print("%d sections with entries and %d without are those of ld; entries: %s"
              % (self.sections, self.plain, types))


# ---------------------------------------------------------------------------
# Values at the edges of types, and refusals.

def edges(width):
    """Numbers where a field of a given number of bits begins or ends to hold a value."""
    for edge in (0, 2 ** (width - 1), 2 ** width, -2 ** (width - 1), -2 ** width):
        for value in (edge - 1, edge, edge + 1):
            yield value % 2 ** 64


def is_ours(name, value):
    """Whether ld takes a value that the psABI does not have for the type."""
    width = {"8": 8, "16": 16}.get(name)
    return width is not None and 2 ** 64 - 2 ** width <= value < 2 ** 64 - 2 ** (width - 1)


def refused(program, words, line, what):
    """Checks that arguments are refused with a line, status 1, and nothing else."""
    done = run([program, *words])
    if (done.returncode, done.stdout, done.stderr) != (1, line.encode() + b"\n", b""):
        raise Difference("%s: wanted status 1 and %r, got %d, %r, %r"
                         % (what, line, done.returncode, done.stdout, done.stderr))


def try_edges(folder, program):
    """Of each type that can overflow, values at its edges, stored by ld and by elfsee."""
    tried = 0
    for number, (name, width) in TYPES.items():
        if width == 0 or number in TABLE_TYPES:
            continue
        source, path = os.path.join(folder, "edge.s"), os.path.join(folder, "edge_%s.o" % name)
        with open(source, "w", encoding="ascii") as file:
            file.write(".data\n.byte 1, 2, 3\n.reloc ., R_X86_64_%s, value - 2\n.fill %d, 1, 0xee\n.byte 4\n"
                       % (name, width))
        must(["as", "-o", path, source])
        obj = Elf(path)
        index = section_named(obj, ".data")
        entry, = obj.entries_for(index)
        away = 0x600000 + entry.offset if name in ("PC32", "PLT32", "PC64") else 0
        for value in edges(8 * width):
            try_edge(folder, program, path, index, entry, name, (value + 2 + away) % 2 ** 64, value)
            tried += 1
    return tried


def try_edge(folder, program, path, index, entry, name, defined, value):
    out = os.path.join(folder, "edge.out")
    done = run(["ld", "-o", out, "-e", "0", "--section-start=.data=0x600000",
                "--defsym=value=0x%x" % defined, path])
    words = ["apply", path, str(index), "at:%d=0x600000" % index, "def:value=0x%x" % defined]
    what = "a value of 0x%x for the type %s" % (value, name)
    if done.returncode or is_ours(name, value):
        if done.returncode and b"relocation truncated to fit" not in done.stderr:
            sys.exit("tests/machine/against_ld.py: ld: %s" % done.stderr.decode())
        refused(program, words, "! %016x overflow" % entry.at, what)
        return
    linked = Elf(out)
    wanted = next(linked.section_bytes(it) for it in linked.sections if it.name == ".data")
    got = run([program, *words])
    if got.returncode or got.stderr or got.stdout != wanted:
        raise Difference("%s: status %d; %s" % (what, got.returncode, differs(wanted, got.stdout)))


TABLE_EDGES = """
    .data
    .byte 1, 2, 3
    .reloc ., R_X86_64_%s, symbol + 0x%x
    .fill 4, 1, 0xee
    .byte 4
    .section .tdata, "awT", @progbits
    .quad 0
    .globl symbol
symbol: .quad 5
"""


def try_table_edges(folder, program):
    """Of each type that takes a table entry, values at its edges: the addend takes the entry's address there."""
    tried = 0
    for number, sort in TABLE_TYPES.items():
        name, _ = TYPES[number]
        slot, away = None, 0
        # The first link says where the entry is.
        for value in [None, *edges(32)]:
            addend = 0 if value is None else (value - away) % 2 ** 64
            path, out = os.path.join(folder, "table_%s.o" % name), os.path.join(folder, "table_edge.out")
            text = TABLE_EDGES % (name, addend)
            with open(path + ".s", "w", encoding="ascii") as file:
                file.write(text if sort == "tpgot" else text.replace('.section .tdata, "awT", @progbits', ""))
            must(["as", "-o", path, path + ".s"])
            map_path = out + ".map"
            done = run(["ld", "-shared", "-z", "norelro", "--no-relax", "-Map", map_path, "-o", out, path])
            if done.returncode and b"relocation truncated to fit" not in done.stderr:
                sys.exit("tests/machine/against_ld.py: ld: %s" % done.stderr.decode())
            obj = Elf(path)
            index = section_named(obj, ".data")
            entry, = obj.entries_for(index)
            if value is None:
                linked = Linked(out, map_path, ["-shared"])
                slot, = linked.table["symbol", sort, 0]
                start = linked.outputs[".data"].addr
                away = slot - start - entry.offset
                continue
            try_table_edge(program, path, out, index, entry, done, "%s:symbol=0x%x" % (sort, slot), start)
            tried += 1
    return tried


def try_table_edge(program, path, out, index, entry, done, item, start):
    words = ["apply", path, str(index), "at:%d=0x%x" % (index, start), item]
    what = "an addend of %#x for the type %s" % (entry.addend, TYPES[entry.kind][0])
    if done.returncode:
        refused(program, words, "! %016x overflow" % entry.at, what)
        return
    linked = Elf(out)
    wanted = next(linked.section_bytes(it) for it in linked.sections if it.name == ".data")
    got = run([program, *words])
    if got.returncode or got.stderr or got.stdout != wanted:
        raise Difference("%s: status %d; %s" % (what, got.returncode, differs(wanted, got.stdout)))


def section_named(obj, name):
    return next(index for index, section in enumerate(obj.sections) if section.name == name)


def refusals_of(obj, text, far):
    """Items with which the assembler's code is refused: what they are, the entry and the cause."""
    entries = list(obj.entries_for(text))

    def first(is_it):
        return next(entry.at for entry in entries if is_it(entry))

    at, away = ["at:%d=0x400000" % text], ["at:%d=0x410000" % far]
    absolute = ["def:absolute=0x40"]
    named, jump = first(lambda entry: entry.symbol.place == far), first(lambda entry: entry.kind == 2)
    undefined = first(lambda entry: entry.symbol.name == "absolute")
    return [
        ("a section too far", at + ["at:%d=0x7fff00000000" % far] + absolute, jump, "overflow"),
        ("a section just too far", at + ["at:%d=0x80400100" % far] + absolute, jump, "overflow"),
        ("no address of another section", at + absolute, named, "unplaced"),
        ("no address of the section itself", away + absolute, entries[0].at, "unplaced"),
        ("no item at all", [], entries[0].at, "unplaced"),
        ("no definition", at + away, undefined, "undefined"),
        ("another name's definition", at + away + ["def:absolut=0x40", "plt:absolute=0x40"],
         undefined, "undefined"),
        ("a definition that is too far", at + away + ["def:absolute=0x100000000"], undefined, "overflow"),
        ("a section above 4 GB", ["at:%d=0x4000000000" % text, "at:%d=0x4000001000" % far] + absolute,
         first(lambda entry: entry.kind in (10, 11)), "overflow"),
    ]


def try_refusals(folder, program):
    """Addresses that are too far or are not given; of the one that is too far ld says so, too."""
    path = os.path.join(folder, "data.o")
    obj = Elf(path)
    text, far = section_named(obj, ".text"), section_named(obj, "far_text")
    cases = refusals_of(obj, text, far)
    for what, items, place, cause in cases:
        refused(program, ["apply", path, str(text), *items], "! %016x %s" % (place, cause), what)
    done = run(["ld", "-o", os.path.join(folder, "far.out"), "-e", "0", "--section-start=.text=0x400000",
                "--section-start=far_text=0x7fff00000000",
                *["--defsym=%s=0x%x" % pair for pair in ABSOLUTE.items()], path])
    if not done.returncode or b"relocation truncated to fit" not in done.stderr:
        raise Difference("ld links the section that is too far")
    return len(cases) + try_indirect(folder, program)


def try_indirect(folder, program):
    """Of each section whose entries name indirect functions: all addresses but those of their entries."""
    path, tried = os.path.join(folder, "indirect.o"), 0
    obj = Elf(path)
    items = ["at:%d=0x%x" % (index, 0x400000 + 0x1000 * index) for index in range(1, len(obj.sections))]
    names = {symbol.name for symbol in obj.all_symbols() if symbol.name}
    items += ["def:%s=0x500000" % name for name in sorted(names)[:NAMES]]
    for index, _ in enumerate(obj.sections):
        first = next((it for it in obj.entries_for(index) if it.kind != 0 and it.symbol and is_indirect(it.symbol)), None)
        if first:
            refused(program, ["apply", path, str(index), *items], "! %016x unsupported" % first.at, "no entry")
            tried += 1
    return tried


def compare(folder, program):
    compared = Compared(program)
    make_objects(folder)
    for name, objects, how, start, *kind in LINKS:
        linked, paths = link(folder, name, objects, how, start, *kind)
        for path in paths:
            if path.endswith(".o"):
                compared.object(linked, path, path)
    for name in STATIC_CODE:
        for kind in ("-static -no-pie", "-static-pie"):
            for linked, path, said_path in static_program(folder, name, kind):
                compared.object(linked, path, said_path)
    values = try_edges(folder, program) + try_table_edges(folder, program)
    refusals = try_refusals(folder, program)
    print("%d values at the edges of types are taken, stored and refused as by ld" % values)
    print("%d refusals are those that are wanted" % refusals)
    compared.told()
    all_types = all(compared.entries[name] for name, _ in TYPES.values())
    return 0 if compared.sections and all_types and compared.indirect and compared.compressed else 1


def main():
    reader = option_reader(__doc__)
    reader.add_argument("--keep")
    words = reader.parse_args()
    program = program_of(words)
    missing = [tool for tool in ("gcc", "g++", "as", "ld", "ar") if not shutil.which(tool)]
    if missing:
        sys.exit("tests/machine/against_ld.py: not installed: " + " ".join(missing))
    folder = words.keep or tempfile.mkdtemp()
    os.makedirs(folder, exist_ok=True)
    try:
        return compare(folder, program)
    except Difference as said:
        print("FAILED %s" % said)
        return 1
    finally:
        if not words.keep:
            shutil.rmtree(folder)


if __name__ == "__main__":
    sys.exit(main())
