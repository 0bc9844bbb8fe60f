"""Makes objects of some hundred bytes with symbol versions, for what no usual file of a machine has: names of more bytes
than a lookup gives, numbers without a name, and fewer versions than symbols.
"""

import itertools
import struct

# Of the versions that are defined: the flags, the number, and the name. The last is hidden, and has no other bit.
LONG = b"V" * 300
DEFINITIONS = ((1, 1, b"versioned.so"), (0, 2, b"SHORT_1"), (0, 3, LONG), (0, 0x8000, b"HIDDEN_0"))
# The file of which a version is needed, its number and its name.
NEEDED = (b"needed.so", 4, b"NEEDED_1")
NAMES = (b"", b"one", b"two", b"three")
# The words of the symbols' versions: the last is hidden.
WORDS = (0, 2, 3, 0x8002)


def hash_of(name):
    """The hash of the gABI."""
    value = 0
    for byte in name:
        value = (value << 4) + byte
        high = value & 0xf0000000
        value = (value ^ high >> 24) & ~high & 0xffffffff
    return value


def versioned(words=WORDS):
    """An object with a symbol of each name, these words of versions, definitions and a need. The sections: 1 has the
    strings, 2 the symbols, 3 the versions of symbols, 4 the definitions, 5 the needs, 6 the hash table."""
    texts = [*NAMES[1:], *(name for _, _, name in DEFINITIONS), NEEDED[0], NEEDED[2]]
    starts = dict(zip(texts, itertools.accumulate((len(text) + 1 for text in texts), initial=1)))
    strings = b"\0" + b"".join(text + b"\0" for text in texts)
    symbols = bytes(24) + b"".join(struct.pack("<IBBHQQ", starts[name], 0x12, 0, 0xfff1, at, 0)
                                   for at, name in enumerate(NAMES[1:]))
    defined = b"".join(
        struct.pack("<HHHHIIIII", 1, flags, number, 1, hash_of(name), 20, 0 if at == len(DEFINITIONS) else 28,
                    starts[name], 0)
        for at, (flags, number, name) in enumerate(DEFINITIONS, 1))
    needed = struct.pack("<HHIII", 1, 1, starts[NEEDED[0]], 16, 0)
    needed += struct.pack("<IHHII", hash_of(NEEDED[2]), 0, NEEDED[1], starts[NEEDED[2]], 0)
    chains = (1, len(NAMES), 1, 0, *range(2, len(NAMES)), 0)
    # Of each section its type, bytes, link, info, and the size of an entry.
    sections = ((3, strings, 0, 0, 0), (11, symbols, 1, 1, 24),
                (0x6fffffff, struct.pack("<%dH" % len(words), *words), 2, 0, 2),
                (0x6ffffffd, defined, 1, len(DEFINITIONS), 0), (0x6ffffffe, needed, 1, 1, 0),
                (5, struct.pack("<%dI" % len(chains), *chains), 2, 0, 4))
    headers, content, first = bytes(64), b"", 64 + 64 * (len(sections) + 1)
    for kind, table, link, info, entry in sections:
        content += bytes(-len(content) % 8)
        headers += struct.pack("<IIQQQQIIQQ", 0, kind, 0, 0, first + len(content), len(table), link, info, 8, entry)
        content += table
    front = b"\x7fELF\2\1\1".ljust(16, b"\0") + struct.pack("<HHIQQQIHHHHHH", 3, 62, 1, 0, 0, 64, 0, 64, 56, 0, 64,
                                                             len(sections) + 1, 1)
    return front + headers + content
