"""The files of tests/gate/callers.py."""

import itertools
import os
import struct

import changed_files
import versioned
from callers_cases.counted import file_content

FOLDERS = ("/usr/bin", "/usr/lib/x86_64-linux-gnu", "/usr/sbin", "/usr/lib/gcc")
MOST_BYTES = 3000000


def files_of_the_machine(count):
    """A given number of ELF64 little-endian files of the machine, spread over all."""
    found = []
    for top in FOLDERS:
        for folder, _, names in os.walk(top):
            for path in (os.path.join(folder, name) for name in names):
                if os.path.isfile(path) and not os.path.islink(path) and os.path.getsize(path) <= MOST_BYTES:
                    with open(path, "rb") as file:
                        if file.read(6) == b"\x7fELF\x02\x01":
                            found.append(path)
    found.sort()
    return found[::max(1, len(found) // count)][:count]


def without_sections(path, folder):
    """A copy of a file without section headers: its program headers give its tables."""
    copy = os.path.join(folder, "without_sections")
    with open(path, "rb") as file, open(copy, "wb") as to:
        to.write(changed_files.without_sections(file.read()))
    return copy


def long_names(folder):
    """An object whose symbols have names of all bytes, and of as many as are shown, one less and more."""
    path, names = os.path.join(folder, "long_names.o"), [bytes(range(1, 256)), b" ", b"\\", b"a\\+"]
    names += [b"n" * length for length in (255, 256, 257, 4095, 4096, 4097, 70000)]
    strings = b"\0" + b"".join(name + b"\0" for name in names)
    starts = list(itertools.accumulate((len(name) + 1 for name in names), initial=1))[:-1]
    symbols = bytes(24) + b"".join(struct.pack("<IBBHQQ", at, 0x12, 0, 0xfff1, at, 0) for at in starts)
    headers = (bytes(64) + struct.pack("<IIQQQQIIQQ", 0, 2, 0, 0, 64 + 192, len(symbols), 2, 1, 8, 24)
               + struct.pack("<IIQQQQIIQQ", 0, 3, 0, 0, 256 + len(symbols), len(strings), 0, 0, 1, 0))
    front = b"\x7fELF\2\1\1".ljust(16, b"\0") + struct.pack("<HHIQQQIHHHHHH", 1, 62, 1, 0, 0, 64, 0, 64, 56, 0,
                                                             64, 3, 0)
    with open(path, "wb") as file:
        file.write(front + headers + symbols + strings)
    return path


def odd_libraries(folder):
    """A copy of /bin/ls whose library has an odd name, and one whose section headers lie after 16 MiB."""
    content, odd, far = file_content("/bin/ls"), os.path.join(folder, "odd_name"), os.path.join(folder, "far_headers")
    with open(odd, "wb") as file:
        file.write(content.replace(b"libc.so.6\0", b"\x1b[2J\\\xff.so\0"))
    (shoff,), (shnum,) = struct.unpack_from("<Q", content, 40), struct.unpack_from("<H", content, 60)
    with open(far, "wb") as file:
        file.write(content[:40] + struct.pack("<Q", 20 << 20) + content[48:])
        file.seek(20 << 20)
        file.write(content[shoff:shoff + 64 * shnum])
    return [odd, far]


def section_header(kind, offset, size, link, entry=0):
    """A section header; relocation entries are those of section 4."""
    return struct.pack("<IIQQQQIIQQ", 0, kind, 0, 0, offset, size, link, 4 if kind == 4 else 0, 8, entry)


def many_rows(folder):
    """An object with tables of more rows than one call of the library gives: 5,000 symbols of all types and
    bindings, 4,096 relocation entries, 4,097 dynamic entries, which name the last string of their table."""
    path, last = os.path.join(folder, "many_rows.o"), b"the last string"
    strings = b"\0first\0" + last + b"\0"
    tags = [1, 14, 15, 29, 4, 30, 12, 5]
    tables = [
        b"".join(struct.pack("<IBBHQQ", (0, 1, 7)[at % 3], at % 256, at % 4, 0xfff1, at, 5 * at) for at in range(5000)),
        b"".join(struct.pack("<QQq", 3 * at, (at % 5000) << 32 | at % 43, at - 2000) for at in range(4096)),
        b"".join(struct.pack("<qQ", tags[at % 8], 7 if at % 8 < 4 else at) for at in range(4096)) + bytes(16),
        strings]
    starts = list(itertools.accumulate((len(table) for table in tables), initial=64 + 5 * 64))
    headers = bytes(64) + b"".join(
        section_header(kind, start, len(table), link, entry)
        for (kind, link, entry), start, table in zip(((2, 4, 24), (4, 1, 24), (6, 4, 16), (3, 0, 0)), starts, tables))
    front = b"\x7fELF\2\1\1".ljust(16, b"\0") + struct.pack("<HHIQQQIHHHHHH", 1, 62, 1, 0, 0, 64, 0, 64, 56, 0,
                                                             64, 5, 0)
    with open(path, "wb") as file:
        file.write(front + headers + b"".join(tables))
    return path


def two_string_tables(folder):
    """A file without sections whose dynamic entries place two string tables, with entries that name the last
    string of the first one: its NUL is the table's last byte."""
    path, first, second = os.path.join(folder, "two_string_tables"), b"\0first.so.1\0", b"\0second.so.2-and-more\0"
    at = 64 + 2 * 56
    entries = [(1, 1), (5, 0x1000 + at + 128), (10, len(first)), (5, 0x1000 + at + 128 + len(first)), (10, len(second)),
               (15, 1), (29, 1), (0, 0)]
    table = b"".join(struct.pack("<qQ", *entry) for entry in entries)
    content = table + first + second
    segments = struct.pack("<IIQQQQQQ", 1, 4, 0, 0x1000, 0, at + len(content), at + len(content), 4096)
    segments += struct.pack("<IIQQQQQQ", 2, 4, at, 0x1000 + at, 0, len(table), len(table), 8)
    front = b"\x7fELF\2\1\1".ljust(16, b"\0") + struct.pack("<HHIQQQIHHHHHH", 3, 62, 1, 0, 64, 0, 0, 64, 56, 2,
                                                             64, 0, 0)
    with open(path, "wb") as file:
        file.write(front + segments + content)
    return path


def dynamic_entries(entries, strings):
    """A shared library without sections that has these dynamic entries, and of the tags that give where these strings
    are."""
    at = 64 + 2 * 56
    size = 16 * (len(entries) + 3)
    tagged = [*entries, (5, 0x1000 + at + size), (10, len(strings)), (0, 0)]
    content = b"".join(struct.pack("<qQ", *entry) for entry in tagged) + strings
    segments = struct.pack("<IIQQQQQQ", 1, 4, 0, 0x1000, 0, at + len(content), at + len(content), 4096)
    segments += struct.pack("<IIQQQQQQ", 2, 4, at, 0x1000 + at, 0, size, size, 8)
    front = b"\x7fELF\2\1\1".ljust(16, b"\0") + struct.pack("<HHIQQQIHHHHHH", 3, 62, 1, 0, 64, 0, 0, 64, 56, 2,
                                                             64, 0, 0)
    return front + segments + content


def shared_entries(sections, entries):
    """A shared object of a given number of DYNAMIC sections, all of which are one table of a given number of entries."""
    at = 64 + 64 * (2 + sections)
    table = struct.pack("<qQ", 21, 0) * (entries - 1) + bytes(16)
    headers = bytes(64) + section_header(3, at + len(table), 1, 0) + section_header(6, at, len(table), 1, 16) * sections
    front = b"\x7fELF\2\1\1".ljust(16, b"\0") + struct.pack("<HHIQQQIHHHHHH", 3, 62, 1, 0, 0, 64, 0, 64, 56, 0,
                                                             64, 2 + sections, 0)
    return front + headers + table + b"\0"


def many_tables(tables):
    """An object of a given number of symbol tables of one symbol each, every second section, between empty sections."""
    at = 64 + 64 * (2 + 2 * tables)
    pair = section_header(2, at, 24, 1, 24) + bytes(64)
    headers = bytes(64) + section_header(3, at + 24, 5, 0) + pair * tables
    front = b"\x7fELF\2\1\1".ljust(16, b"\0") + struct.pack("<HHIQQQIHHHHHH", 1, 62, 1, 0, 0, 64, 0, 64, 56, 0,
                                                             64, 2 + 2 * tables, 0)
    return front + headers + struct.pack("<IBBHQQ", 1, 0, 0, 0xfff1, 7, 0) + b"\0one\0"


def versioned_files(folder):
    """Objects with symbol versions: one that is whole, with fewer versions than symbols, and with a number that none has."""
    paths = []
    for name, words in (("versioned", versioned.WORDS), ("few_versions", versioned.WORDS[:3]), ("no_version", (0, 2, 9, 2))):
        paths.append(os.path.join(folder, name))
        with open(paths[-1], "wb") as file:
            file.write(versioned.versioned(words))
    return paths
