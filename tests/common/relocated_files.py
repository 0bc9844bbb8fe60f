"""Small files with relocation entries without addends (sections of type REL) and relative ones (RELR), well-formed and
malformed, by their names; and such as are linked here, if there are linkers that pack them."""

import os
import shutil
import struct
import subprocess

RELA, REL, RELR = 4, 9, 19
# Of each type of section the bytes of an entry and the section that it links to: 1 has the symbols, 2 their strings.
TYPES = {RELA: (24, 1), REL: (16, 1), RELR: (8, 0), 2: (24, 2), 3: (0, 0), 11: (24, 2), 0x6ffffffd: (0, 2), 0x6fffffff: (2, 1)}
END = 1 << 64
STRINGS = b"\0f\0long_name\0"
SYMBOLS = bytes(24) + struct.pack("<IBBHQQ", 1, 0x12, 0, 0, 0, 0) + struct.pack("<IBBHQQ", 3, 0x11, 0, 1, 0x1000, 8)
DEFINITION = struct.pack("<4H3I2I", 1, 0, 2, 1, 0, 20, 0, 1, 0)


def words(*numbers):
    return struct.pack(f"<{len(numbers)}Q", *numbers)


def entries(*rows):
    """Entries, each an offset, a type and a symbol."""
    return b"".join(struct.pack("<Q2I", *row) for row in rows)


def file_of(*tables, machine=62, kind=3):
    """A file with a symbol table in section 1, its strings in 2, and tables after them: each a type, its bytes, and of its section
    header what is not as it should be."""
    tables = [(11, SYMBOLS, {}), (3, STRINGS, {}), *((*table, {})[:3] for table in tables)]
    headers, content, at = bytes(64), b"", 64 * (len(tables) + 2)
    for number, data, odd in tables:
        entry, link = TYPES[number]
        has = {"offset": at + len(content), "size": len(data), "link": link, "entry": entry, **odd}
        headers += struct.pack("<2I4Q2I2Q", 0, number, 2, 0, has["offset"], has["size"], has["link"], 0, 8, has["entry"])
        content += data + bytes(-len(data) % 8)
    front = struct.pack("<16s2HI3QI6H", b"\x7fELF\2\1\1", kind, machine, 1, 0, 0, 64, 0, 64, 0, 0, 64, len(tables) + 1, 0)
    return front + headers + content


def made_files():
    """Files by their names."""
    packed, full = (RELR, words(0x1000, 0b1011, 1, 1 << 63 | 1, 0x900, 3)), END - 1
    rel, rela = (REL, entries((8, 8, 0), (16, 6, 1), (24, 1, 2))), (RELA, entries((32, 6, 1)) + words(END - 4))
    every = (packed, rel, rela, (RELR, words(0x4000)))
    versions = ((0x6ffffffd, DEFINITION), (0x6fffffff, struct.pack("<3H", 0, 2, 0x8002)))
    return {
        "all": file_of(*every), "of another machine": file_of(*every, machine=183), "an object": file_of(*every, kind=1),
        "versions": file_of(*every, *versions), "too few versions": file_of(rel, (0x6fffffff, bytes(4)), versions[0]),
        # Words: bitmaps without an address before, and addresses whose eight bytes end past the last one.
        "a bitmap first": file_of((RELR, words(3))), "an empty bitmap first": file_of((RELR, words(1, 0x1000))),
        "an empty bitmap": file_of((RELR, words(0x1000, 1, 3, 0, 1))), "full bitmaps": file_of((RELR, words(0, full, full, 8, full))),
        "falling words": file_of((RELR, words(0x2000, 0x1000, 0x1000, 3, 0x1004, 0x1001))),
        "the last address": file_of((RELR, words(END - 8, 1, 1, 0))), "after the last address": file_of((RELR, words(END - 8, 3, 0))),
        "an address too far": file_of((RELR, words(8, END - 6, 16))), "the last even word": file_of((RELR, words(END - 2))),
        "bits up to the end": file_of((RELR, words(END - 512, full, 1))), "a bit too far": file_of((RELR, words(END - 504, full))),
        "bits after the end": file_of((RELR, words(END - 16, 1, 1, 1 << 63 | 1))),
        # Section headers.
        "words cut": file_of((RELR, words(0x1000, 3), {"size": 12})), "words of 4 bytes": file_of((RELR, words(0x1000), {"entry": 4})),
        "words outside": file_of((RELR, words(0x1000), {"size": 1 << 40})),
        "words of no size": file_of((RELR, words(0), {"entry": 0, "size": 9})),
        "no words": file_of((RELR, b"", {"offset": full, "entry": 3}), (REL, b"", {"offset": full, "link": 9, "entry": 3})),
        "words with a link": file_of((*packed, {"link": 99})), "words in front": file_of((RELR, b"", {"offset": 0, "size": 64})),
        "entries cut": file_of((*rel, {"size": 24})), "entries of 24": file_of((*rel, {"entry": 24})),
        "entries outside": file_of((*rel, {"offset": full})),
        # Symbols.
        "no symbols": file_of((*rel, {"link": 0})), "a link to strings": file_of((*rel, {"link": 2})),
        "a link outside": file_of((*rel, {"link": 4})), "a symbol outside": file_of((REL, entries((0, 8, 0), (0, 6, 3)))),
        "only symbol 0": file_of((REL, entries((0, 8, 0), (1, 8, 0)), {"link": 0})),
        "odd symbols": file_of((REL, entries((0, 8, 0)), {"link": 4}), (11, SYMBOLS, {"entry": 16})),
        "a name outside": file_of((REL, entries((0, 8, 1), (0, 6, 3)), {"link": 4}), (2, SYMBOLS + struct.pack("<I20x", 99))),
        # More rows than are read at once.
        "many words": file_of((RELR, words(*(word for at in range(700) for word in (0x10000 * at, 2 << at % 63 | 1, 3))))),
        "many entries": file_of((REL, entries(*((8 * row, row % 40, row % 3) for row in range(900)))), (*rel, {"size": 16})),
    }


SOURCE = r"""
extern int other(void), weak(void) __attribute__((weak)); int data; __thread int local;
int *own[200] = { [0 ... 66] = &data, [130] = &data, [199] = &data }; int (*places[])(void) = { other, weak };
int calls(int x) { return other() + *own[x] + places[x & 1]() + local; }
"""
# Arguments of each linker: relative entries are packed, and none has an addend.
LINKERS = {"ld": ["-z", "pack-relative-relocs"], "ld.lld": ["-z", "rel", "--pack-dyn-relocs=relr"]}


def linked_files(folder):
    """Libraries by the names of their linkers, those that are there; none without gcc."""
    files, target = {}, os.path.join(folder, "relocated.o")
    if shutil.which("gcc"):
        subprocess.run(["gcc", "-c", "-fPIC", "-xc", "-o", target, "-"], input=SOURCE.encode(), check=True)
        for linker, options in LINKERS.items():
            path = target[:-1] + linker
            if shutil.which(linker) and subprocess.run([linker, "-shared", "-Bsymbolic", *options, "-o", path, target], check=False,
                                                       capture_output=True).returncode == 0:
                with open(path, "rb") as file:
                    files[linker] = file.read()
    return files
