"""The lines of a listing, made from the rows that the library's module for Python returns. The columns and the names
of numbers are those of docs/FORMAT.md."""

import os
import re

from testing import TOP

X86_64 = 62
FLAGS = {"W": 1, "A": 2, "X": 4, "M": 16, "S": 32, "I": 64, "L": 128, "O": 256, "G": 512, "T": 1024, "C": 2048}


def names_of_numbers():
    """Of each field that the page names: the number's names."""
    with open(os.path.join(TOP, "docs", "FORMAT.md"), encoding="utf-8") as file:
        part = file.read().split("## Names of numbers")[1].split("\n## ")[0]
    rows = re.findall(r"^\| (?!Field)([^|]*?) \| ([^|]*=\d+[^|]*?) \|[^|]*\|$", part, re.M)
    return {field: {int(number): name for name, number in (pair.split("=") for pair in names.split(", "))}
            for field, names in rows}


NAMES = names_of_numbers()


def named(field, number, otherwise):
    return NAMES[field].get(number, otherwise % number)


def spelt(name, cap):
    text = "".join("\\\\" if byte == 92 else chr(byte) if 32 <= byte < 127 else "\\x%02x" % byte
                   for byte in name[:cap])
    return text + ("\\+" if len(name) > cap else "")


def flags_of(flags):
    letters = "".join(letter for letter, bit in FLAGS.items() if flags & bit)
    return letters + ("?" if flags & ~sum(FLAGS.values()) else "")


def header_lines(file, cap):
    row = file.header
    yield "H %-4s %5d %016x %016x %016x %08x %5d %5d %5d" % (
        named("type of an H line", row.type, "%04x"), row.machine, row.entry, row.phoff, row.shoff,
        row.flags, row.phnum, row.shnum, row.shstrndx)


def section_lines(file, cap):
    for row in file.sections():
        yield "S %5d %-13s %-12s %016x %016x %016x %08x %08x %s" % (
            row.index, named("type of an S line", row.type, "%08x"), flags_of(row.flags), row.addr,
            row.offset, row.size, row.link, row.info, spelt(row.name, cap))


def segment_lines(file, cap):
    for row in file.segments():
        may = "".join(letter if row.flags & bit else "-" for letter, bit in (("R", 4), ("W", 2), ("X", 1)))
        yield "P %5d %-8s %s %016x %016x %016x %016x %016x %016x" % (
            row.index, named("type of a P line", row.type, "%08x"), may, row.offset, row.vaddr, row.paddr,
            row.filesz, row.memsz, row.align)


def symbol_lines(file, cap):
    for row in file.symbols():
        yield "Y %5d %10d %016x %016x %-7s %-6s %-9s %-5s %s" % (
            row.table, row.index, row.value, row.size, named("type of a Y line", row.type, "%7d"),
            named("binding", row.binding, "%6d"), named("visibility", row.visibility, "%9d"),
            named("place", row.section, "%5d"), spelt(row.name, cap))


def relocation_lines(file, cap):
    machine = file.header.machine
    for row in file.relocations():
        kind = named("type of an R line", row.type, "#%d") if machine == X86_64 else "#%d" % row.type
        yield "R %5d %016x %-10s %08x %s%016x %s" % (
            row.table, row.offset, kind, row.symbol, "-" if row.addend < 0 else "+", abs(row.addend),
            spelt(row.name, cap))


def note_lines(file, cap):
    for row in file.notes():
        yield "N %5d %08x %08x %08x %s %s" % (
            row.table, row.type, row.namesz, row.descsz, spelt(row.name, cap),
            row.desc[:32].hex() + ("\\+" if row.descsz > 32 else ""))


def dynamic_lines(file, cap):
    for row in file.dynamic():
        yield "D %5d %-16s %016x %s" % (
            row.index, named("tag", row.tag % (1 << 64), "%016x"), row.value, spelt(row.string or b"", cap))


# Of each part of a listing, by its number, the lines that its rows make.
LINES = {1: header_lines, 2: section_lines, 4: segment_lines, 8: symbol_lines, 16: relocation_lines,
         32: note_lines, 64: dynamic_lines}
