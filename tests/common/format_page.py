"""The tables of docs/FORMAT.md, and what a line may be by them."""

import os
import re
import struct
import sys

from testing import TOP

PAGE = os.path.join(TOP, "docs", "FORMAT.md")
# The forms of the page's tables, as patterns for what is in the columns.
NAME = rb"(?:[ -\[\]-~]|\\\\|\\x(?:[01][0-9a-f]|7f|[89a-f][0-9a-f]))*(?:\\\+)?"
FORMS = [
    (r"text: a name, or (\w+) hexadecimal digits", lambda of: rb"(?:[A-Z_0-9]+|[0-9a-f]{%d}) *" % of),
    (r"hexadecimal", lambda of: rb"[0-9a-f]{%d}" % of),
    (r"decimal(?:, grows)?", lambda of: rb" *(?:0|[1-9][0-9]*)"),
    (r"text: letters, which may be none", lambda of: rb"W?A?X?M?S?I?L?O?G?T?C?R?D?l?E?\?? *"),
    (r"`R` or `-`, `W` or `-`, `X` or `-`", lambda of: rb"[R-][W-][X-]"),
    (r"text: a name; or decimal", lambda of: rb"(?:[A-Z]+ *| *[0-9]+)"),
    (r"text: a name, or `#` and decimal; grows", lambda of: rb"(?:[A-Z_0-9]+|#[0-9]+) *"),
    (r"text: a name", lambda of: rb"[A-Z]+ *"),
    (r"`H` or `-`", lambda of: rb"[H-]"),
    (r"`\+` or `-`, and 16 hexadecimal digits; or `-`", lambda of: rb"(?:[+-][0-9a-f]{16}|- {16})"),
    (r"name", lambda of: NAME),
    (r"name; space; hexadecimal digits, two a byte, then `\\\+` where there are more",
     lambda of: NAME + rb" (?:(?:[0-9a-f]{2}){0,32}|[0-9a-f]{64}\\\+)"),
    (r"word", lambda of: rb"[a-z^+-]+ *"),
    (r"text", lambda of: rb"[a-z]+ *"),
]
NUMBERS = {"four": 4, "eight": 8}


def form_of(text, width):
    """The pattern of a form that the page names, in columns of this width."""
    for form, pattern in FORMS:
        found = re.fullmatch(form, text)
        if found:
            of = found[1] if found.groups() else width
            return pattern(int(NUMBERS.get(of, of) or 0))
    sys.exit(f"tests/machine/format.py: the page has a form that is not known here: {text}")


def tables_of(page):
    """Of each letter the drawing, and the fields below it: columns, name and form."""
    kinds = {}
    for part in re.split(r"^## ", page, flags=re.M)[1:]:
        letter = re.match(r"(\S): ", part)
        if letter:
            drawing, _, fields = re.search(r"```text\n(.*?)\n```", part, re.S)[1].partition("\n\n")
            rows = re.findall(r"^(\d+)(-?)(\d*) {2,}(.*?) {2,}(.*?)(?: {2,}.*)?$", fields, re.M)
            rows = [(str(number), first, dash, last if dash else first, name, form)
                    for number, (first, dash, last, name, form) in enumerate(rows, 2)]
            kinds[letter[1]] = drawing.split("\n"), [("1", "1", "", "1", "letter", "")] + rows
    return kinds


def pattern_of(letter, rows):
    """What a line of a kind looks like by its table. A field that grows may be longer."""
    pattern, at = re.escape(letter.encode()), 1
    for _, first, dash, last, _, form in rows[1:]:
        assert int(first) == at + 2, (letter, first)
        width = int(last) - int(first) + 1 if last else None
        more = b"," if "grows" in form else b""
        shape = form_of(form, width)
        if width is None:
            pattern += b" (" + shape + b")"
        elif more:
            pattern += b" (?=[^\n]{%d,})(" % width + shape + b")"
        else:
            pattern += b" (?=(.{%d}))(?:(?=%s(?: |$)).{%d})" % (width, shape, width)
        at = int(last) if last else at
    return re.compile(pattern)


def odd_names():
    """Names that are hard to spell, or to read back."""
    every = bytes(range(1, 256))
    yield from (b"", b" ", b"  two  spaces  ", b"\\", b"\\\\", b"\\+", b"a\\x41", b"\\x", b"+", b"tab\t",
                "\u00e4\u20ac".encode(), b"\x1b[2J\x1b]0;title\x07", every, every[::-1])
    for size in (255, 256, 257, 4000):
        yield from (b"n" * size, b"\\" * size, b" " * size, b"\xff" * size, b"n" * (size - 1) + b"\\")


def odd_versions(indices):
    """Definitions with these names, needs with them, and the versions of as many symbols: hidden ones
    that are defined, and others that are needed."""
    last = len(indices) - 1
    definitions = b"".join(struct.pack("<4H5I", 1, 0xfffe, 2 + row, 1, 2 ** 32 - 1, 20, 28 * (row < last), index, 0)
                           for row, index in enumerate(indices))
    needs = struct.pack("<HHIII", 1, len(indices), indices[5], 16, 0) + b"".join(
        struct.pack("<IHHII", row, row, 0x8000 + 1023 - row, index, 16 * (row < last))
        for row, index in enumerate(indices))
    versions = struct.pack("<%dH" % len(indices), 0, *(0x8002 + row if row % 2 else 1023 - row
                                                       for row in range(1, len(indices))))
    return definitions, needs, versions


def write_odd_file(path):
    """A file whose sections, symbols, relocation entries, dynamic entries and versions have those names;
    its relocation entries have long types, and of dynamic entries there are more than five digits can number."""
    names, indices, strings = list(odd_names()), [], b"\0"
    for name in names:
        indices.append(len(strings))
        strings += name + b"\0"
    symbols = b"".join(struct.pack("<IBBHQQ", index, 0x9d, 3, 0xff05, 2 ** 64 - 1, row)
                       for row, index in enumerate(indices))
    relocations = b"".join(struct.pack("<QQq", row, (row << 32) + kind, -2 ** 63 + row)
                           for kind in (999999999, 1000000000, 2 ** 32 - 1) for row in range(len(names)))
    entries = b"".join(struct.pack("<QQ", 1, indices[row % 12]) for row in range(100_050))
    header = struct.Struct("<IIQQQQIIQQ")
    relocations_at = 64 + len(symbols)
    entries_at = relocations_at + len(relocations)
    strings_at = entries_at + len(entries)
    # One bucket, whose chain goes through all symbols but the first.
    table = struct.pack("<%dI" % (3 + len(names)), 1, len(names), 1, 0, *range(2, len(names)), 0)
    table_at = strings_at + len(strings)
    sections = [header.pack(*[0] * 10), header.pack(0, 2, 0, 0, 64, len(symbols), 2, 0, 8, 24),
                header.pack(0, 3, 0, 0, strings_at, len(strings), 0, 0, 1, 0),
                header.pack(0, 4, 0, 0, relocations_at, len(relocations), 1, 0, 8, 24),
                header.pack(0, 6, 0, 0, entries_at, len(entries), 2, 0, 8, 16),
                header.pack(0, 5, 0, 0, table_at, len(table), 1, 0, 4, 4)]
    at, versions = table_at + len(table), odd_versions(indices)
    for kind, link, size, content in zip((0x6ffffffd, 0x6ffffffe, 0x6fffffff), (2, 2, 1), (0, 0, 2), versions):
        sections.append(header.pack(0, kind, 0, 0, at, len(content), link, 0, 4, size))
        at += len(content)
    sections += [header.pack(index, 0x60000000, 2 ** 64 - 1 >> row, *[0] * 7)
                 for row, index in enumerate(indices)]
    with open(path, "wb") as file:
        file.write(struct.pack("<16sHHIQQQIHHHHHH", b"\x7fELF\2\1\1", 0xff00, 65535, 1, 0, 0, at, 0,
                               64, 0, 0, 64, len(sections), 2))
        file.write(symbols + relocations + entries + strings + table + b"".join(versions) + b"".join(sections))
