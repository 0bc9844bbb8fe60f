"""Changed copies of ELF files: bytes, fields, headers, tables or the length are changed by a generator, so that the
same generator over the same files gives the same copies."""

import struct

NUMBERS = (0, 1, 2, 3, 4, 7, 8, 16, 23, 24, 25, 0x38, 0x40, 0x7f, 0xff, 0x1000, 0xfeff, 0xff00,
           0xfff1, 0xffff, 1 << 31, (1 << 32) - 1, 1 << 32, 1 << 62, (1 << 63) - 1, 1 << 63,
           (1 << 64) - 24, (1 << 64) - 16, (1 << 64) - 8, (1 << 64) - 1)
HEADER_FIELDS = ((16, 2), (18, 2), (32, 8), (40, 8), (54, 2), (56, 2), (58, 2), (60, 2), (62, 2))
SECTION_FIELDS = ((0, 4), (4, 4), (8, 8), (16, 8), (24, 8), (32, 8), (40, 4), (44, 4), (48, 8), (56, 8))
SECTION_TYPES = (2, 3, 4, 5, 6, 7, 8, 9, 11, 19)
TABLE_TYPES = (2, 3, 4, 5, 9, 11, 19)
SEGMENT_FIELDS = ((0, 4), (4, 4), (8, 8), (16, 8), (32, 8), (40, 8), (48, 8))


def put(content, at, width, number):
    if 0 <= at and at + width <= len(content):
        content[at:at + width] = struct.pack("<Q", number % (1 << 64))[:width]


def without_sections(content):
    """A file without section headers: its program headers give its tables."""
    content = bytearray(content)
    put(content, 40, 8, 0)
    put(content, 60, 4, 0)
    return bytes(content)


def number(rng, size):
    """A number that is likely to be near a bound."""
    if rng.random() < 0.3:
        return rng.randrange(size + 64)
    if rng.random() < 0.2:
        return size + rng.randrange(-64, 64)
    return rng.choice(NUMBERS)


def change_table(rng, content, types):
    """One number in a table of one of some types."""
    shoff, = struct.unpack_from("<Q", content, 40)
    count, = struct.unpack_from("<H", content, 60)
    tables = []
    for at in range(shoff, min(shoff + 64 * count, len(content) - 63), 64):
        kind, = struct.unpack_from("<I", content, at + 4)
        if kind in types:
            tables.append(struct.unpack_from("<QQ", content, at + 24))
    if tables:
        offset, size = rng.choice(tables)
        width = rng.choice((1, 2, 4, 4, 8))
        value = rng.randrange(40) if rng.random() < 0.5 else number(rng, len(content))
        put(content, offset + width * rng.randrange(min(size, len(content)) // width + 1), width, value)


def change(rng, content, types):
    """One change of a file."""
    size = len(content)
    if rng.random() < 0.4:
        change_table(rng, content, types)
        return
    shoff, = struct.unpack_from("<Q", content, 40)
    phoff, = struct.unpack_from("<Q", content, 32)
    phnum, shnum = struct.unpack_from("<H", content, 56)[0], struct.unpack_from("<H", content, 60)[0]
    section = shoff + 64 * rng.randrange(max(1, shnum))
    segment = phoff + 56 * rng.randrange(max(1, phnum))
    kind = rng.randrange(10)
    if kind == 0:
        at, width = rng.choice(HEADER_FIELDS)
        put(content, at, width, number(rng, size))
    elif kind in (1, 2):
        at, width = rng.choice(SECTION_FIELDS)
        put(content, section + at, width, number(rng, size))
    elif kind == 3:
        put(content, section + 4, 4, rng.choice(SECTION_TYPES))
    elif kind == 4:
        at, width = rng.choice(SEGMENT_FIELDS)
        put(content, segment + at, width, number(rng, size))
    elif kind == 5:
        put(content, segment, 4, rng.choice((1, 2, 4)))
    elif kind == 6:
        for _ in range(rng.randrange(1, 64)):
            content[rng.randrange(size)] = rng.randrange(256)
    elif kind == 7:
        del content[rng.randrange(64, size + 1):]
    elif kind == 8:
        # Without its section headers, as a program that was stripped of them.
        for at, width in ((40, 8), (58, 2), (60, 2), (62, 2)):
            put(content, at, width, 0)
    else:
        # All section headers alike.
        if 0 <= section and section + 64 <= size:
            for index in range(shnum):
                at = shoff + 64 * index
                if at + 64 <= size:
                    content[at:at + 64] = content[section:section + 64]


def changed(rng, content, types=TABLE_TYPES):
    """A copy with one change or some, tables of some types more often than others. If it gets shorter than a file
    header, that is the last."""
    copy = bytearray(content)
    for _ in range(rng.choice((1, 1, 1, 2, 3, 5))):
        if len(copy) >= 64:
            change(rng, copy, types)
    return copy
