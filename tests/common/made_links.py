"""Generated inputs of links: relocatable files, archives with an index, and random jobs of both."""

import struct

import made_archives

WEAK, GLOBAL, UNIQUE = 2, 1, 10
UNDEF, TEXT, DATA, ABS, COMMON, LARGE_COMMON = 0, 1, 2, 0xfff1, 0xfff2, 0xff02
NOTYPE, OBJECT, FUNC, SECTION, IFUNC = 0, 1, 2, 3, 10
PROGBITS, SYMTAB, STRTAB, RELA, DYNAMIC, NOBITS, DYNSYM, GROUP = 1, 2, 3, 4, 6, 8, 11, 17
VERDEF, VERNEED, VERSYM = 0x6FFFFFFD, 0x6FFFFFFE, 0x6FFFFFFF
NEEDED, SONAME, DYN, BSS = 1, 14, 3, 3
R_64 = 1
IN_GROUP, ALLOC_WRITE, ALLOC_EXEC = 0x200, 3, 6


class Strings:
    """A string table; names that are alike are there once."""

    def __init__(self):
        self.content, self.places = bytearray(b"\0"), {b"": 0}

    def place(self, name):
        if name not in self.places:
            self.places[name] = len(self.content)
            self.content += name + b"\0"
        return self.places[name]


class Symbol:
    """A symbol of a relocatable file."""

    def __init__(self, name, section=UNDEF, binding=GLOBAL, kind=NOTYPE, value=0, size=0, visibility=0):
        self.name, self.section, self.binding, self.kind = name, section, binding, kind
        self.value, self.size, self.visibility = value, size, visibility

    def packed(self, strings):
        return struct.pack("<IBBHQQ", strings.place(self.name), self.binding << 4 | self.kind, self.visibility, self.section,
                           self.value, self.size)


def relocatable(symbols, groups=(), sections=()):
    """A relocatable file: sections 1 and 2 are its text, with a reference to each undefined symbol, and its data, then come
    those of groups, each of a name and a flag word with one section of its own, and the given ones, by their names. Symbols
    of a group's section are given by a section of `in_group` and its index."""
    strings, names = Strings(), Strings()
    wanted = [index for index, symbol in enumerate(symbols) if symbol.section == UNDEF]
    headers = [(b"", 0, 0, b"", 0, 0, 0), (b".text", PROGBITS, ALLOC_EXEC, bytes(64 + 8 * len(wanted)), 0, 0, 0),
               (b".data", PROGBITS, ALLOC_WRITE, bytes(64), 0, 0, 0)]
    table = 4 + 2 * len(groups) + len(sections)
    rows = [bytes(24)]
    for index, (signature, flags) in enumerate(groups):
        place = 3 + 2 * index
        headers.append((b".group", GROUP, 0, struct.pack("<2I", flags, place + 1), table, len(rows), 4))
        headers.append((b".text." + signature, PROGBITS, ALLOC_EXEC | IN_GROUP, bytes(16), 0, 0, 0))
        rows.append(Symbol(signature, place + 1, 0).packed(strings))
    headers += [(name, PROGBITS, ALLOC_WRITE, bytes(8), 0, 0, 0) for name in sections]
    local = len(rows)
    rows += [symbol.packed(strings) for symbol in symbols]
    entries = [struct.pack("<2Qq", 8 * place, (local + index) << 32 | R_64, 0) for place, index in enumerate(wanted)]
    headers.append((b".rela.text", RELA, 0, b"".join(entries), table, 1, 24))
    headers.append((b".symtab", SYMTAB, 0, b"".join(rows), table + 1, local, 24))
    headers.append((b".strtab", STRTAB, 0, bytes(strings.content), 0, 0, 0))
    headers.append((b".shstrtab", STRTAB, 0, None, 0, 0, 0))
    return laid_out(headers, names)


def laid_out(headers, names, file_type=1):
    """The bytes of a file of a type with these sections; the last has their names. One without bytes has a size instead."""
    places = [names.place(header[0]) for header in headers]
    content, at, rows = bytearray(64), 64, []
    for place, (_, kind, flags, data, link, info, entry) in zip(places, headers):
        data = bytes(names.content) if data is None else data
        size = data if kind == NOBITS else len(data)
        rows.append(struct.pack("<2I4Q2I2Q", place, kind, flags, 0, at if kind else 0, size, link, info, 8 if kind else 0, entry))
        content += b"" if kind == NOBITS else data + bytes(-size % 8)
        at = len(content)
    content[:64] = struct.pack("<16sHHIQQQIHHHHHH", b"\x7fELF\2\1\1", file_type, 62, 1, 0, 0, len(content), 0, 64, 0, 0, 64, len(rows), len(rows) - 1)
    return bytes(content + b"".join(rows))


def shared_library(symbols, soname=None, needed=(), versions=(), needed_versions=()):
    """A shared library: sections 1, 2 and 3 are its text, its data and its data without bytes. A symbol whose name has an `@`
    has that version: a definition one of `versions`, the default one after two, a reference one of `needed_versions`."""
    strings, names = Strings(), Strings()
    rows, indexes = [bytes(24)], [0]
    for symbol in symbols:
        name, _, version = symbol.name.partition(b"@")
        number = 1
        if version and symbol.section == UNDEF:
            number = needed_versions.index(version) + 2 + len(versions)
        elif version:
            number = versions.index(version.lstrip(b"@")) + 2 | (0 if version.startswith(b"@") else 0x8000)
        indexes.append(number)
        rows.append(Symbol(name, symbol.section, symbol.binding, symbol.kind, symbol.value, symbol.size).packed(strings))
    entries = [(NEEDED, strings.place(name)) for name in needed]
    entries += [] if soname is None else [(SONAME, strings.place(soname))]
    dynamic = b"".join(struct.pack("<2Q", *entry) for entry in [*entries, (0, 0)])
    headers = [(b"", 0, 0, b"", 0, 0, 0), (b".text", PROGBITS, ALLOC_EXEC, bytes(64), 0, 0, 0),
               (b".data", PROGBITS, ALLOC_WRITE, bytes(64), 0, 0, 0), (b".bss", NOBITS, ALLOC_WRITE, 64, 0, 0, 0),
               (b".dynsym", DYNSYM, 2, b"".join(rows), 5, 1, 24)]
    records = version_records([soname or b"base", *versions], strings)
    needs = need_records(needed_versions, 2 + len(versions), strings)
    headers += [(b".dynstr", STRTAB, 2, bytes(strings.content), 0, 0, 0), (b".dynamic", DYNAMIC, ALLOC_WRITE, dynamic, 5, 0, 16)]
    if versions or needed_versions:
        headers.append((b".gnu.version", VERSYM, 2, struct.pack(f"<{len(indexes)}H", *indexes), 4, 0, 2))
    if versions:
        headers.append((b".gnu.version_d", VERDEF, 2, records, 5, len(versions) + 1, 0))
    if needed_versions:
        headers.append((b".gnu.version_r", VERNEED, 2, needs, 5, len(needed_versions), 0))
    return laid_out([*headers, (b".shstrtab", STRTAB, 0, None, 0, 0, 0)], names, DYN)


def version_records(versions, strings):
    """Definitions of versions, the first of which is the file's own name."""
    records = b""
    for number, version in enumerate(versions):
        is_last = number == len(versions) - 1
        records += struct.pack("<4H3I", 1, int(number == 0), number + 1, 1, sysv_hash(version), 20, 0 if is_last else 28)
        records += struct.pack("<2I", strings.place(version), 0)
    return records


def need_records(versions, first, strings):
    """Needs of versions, with the indexes from the first on: of two files, the first of which has all but the last version."""
    split = max(1, len(versions) - 1)
    files = [(b"libneeded.so.1", versions[:split], first), (b"libneeded.so.2", versions[split:], first + split)]
    files, records = [each for each in files if each[1]], b""
    for place, (file, names, number) in enumerate(files):
        is_last = place == len(files) - 1
        records += struct.pack("<2H3I", 1, len(names), strings.place(file), 16, 0 if is_last else 16 + 16 * len(names))
        for index, name in enumerate(names):
            records += struct.pack("<I2H2I", sysv_hash(name), 0, number + index, strings.place(name), 0 if index == len(names) - 1 else 16)
    return records


def sysv_hash(name):
    value = 0
    for byte in name:
        value = (value << 4) + byte
        top = value & 0xF0000000
        value = (value ^ top >> 24) & 0x0FFFFFFF
    return value


def in_group(index):
    """The section of a group of an index."""
    return 4 + 2 * index


def archive(members, entries, width=4):
    """An archive with an index: members are names with their bytes, entries are names with the number of a member, from 0."""
    names = b"".join(name + b"\0" for name, _ in entries)
    size = width + width * len(entries) + len(names)
    places, at = [], 8 + 60 + size + size % 2
    for name, data in members:
        places.append(at)
        at += 60 + len(data) + len(data) % 2
    numbers = [len(entries), *(places[number] for _, number in entries)]
    index = b"".join(number.to_bytes(width, "big") for number in numbers) + names
    return made_archives.MAGIC + made_archives.member(b"/" if width == 4 else b"/SYM64/", index) + b"".join(
        made_archives.member(name + b"/", data) for name, data in members)


# Random jobs.

PLAIN_NAMES = [b"f%d" % number for number in range(12)] + [b"_start", b"etext", b"__start_kept"]
NAMES = PLAIN_NAMES + [b"v@@V1", b"v@V1", b"w@@V2"]


def random_symbol(rng, groups, names):
    """A symbol of any sort and one of some names; `groups` is how many groups the file has."""
    name, binding = rng.choice(names), rng.choice((GLOBAL, GLOBAL, GLOBAL, WEAK, UNIQUE))
    sort = rng.randrange(10)
    if sort < 4:
        # An assembler gives no reference a default version.
        return Symbol(name.replace(b"@@", b"@"), UNDEF, WEAK if binding == WEAK else GLOBAL)
    if sort == 4 and b"@" not in name:
        return Symbol(name, COMMON, GLOBAL, OBJECT, 8, rng.choice((4, 8, 16)))
    if sort == 5 and groups:
        return Symbol(name, in_group(rng.randrange(groups)), binding if binding != UNIQUE else GLOBAL, FUNC)
    if sort == 6:
        return Symbol(name, ABS, GLOBAL, NOTYPE, rng.randrange(3))
    visibility = rng.choice((0, 0, 0, 2, 3)) if binding != UNIQUE else 0
    section = rng.choice((TEXT, DATA))
    kind = OBJECT if section == DATA or binding == UNIQUE else rng.choice((FUNC, NOTYPE))
    return Symbol(name, section, binding, kind, rng.randrange(32), 4, visibility)


def random_object(rng, names):
    """A file of a few symbols, each name once, and the names that it defines."""
    groups = [(b"g%d" % rng.randrange(3), rng.choice((1, 1, 1, 0))) for _ in range(rng.choice((0, 0, 1, 2)))]
    chosen = {}
    for _ in range(rng.randrange(1, 7)):
        symbol = random_symbol(rng, len(groups), names)
        chosen.setdefault(symbol.name.partition(b"@")[0], symbol)
    sections = [b"kept"] if rng.random() < 0.2 else []
    defined = [symbol.name for symbol in chosen.values() if symbol.section not in (UNDEF, COMMON)]
    commons = [symbol.name for symbol in chosen.values() if symbol.section == COMMON]
    return relocatable(list(chosen.values()), groups, sections), defined + commons


def random_archive(rng, names):
    members, entries = [], []
    for number in range(rng.randrange(1, 6)):
        data, defined = random_object(rng, names)
        members.append((b"m%d.o" % number, data))
        entries += [(name, number) for name in defined]
    return archive(members, entries, rng.choice((4, 4, 4, 8)))


def random_library(rng, names, libraries):
    """A shared library that may need others, with versions or without."""
    versions, needed_versions = rng.choice(([], [], [b"V1", b"V2"])), rng.choice(([], [], [b"V1"], [b"V1", b"V2"]))
    chosen = {}
    for _ in range(rng.randrange(1, 6)):
        name, binding = rng.choice(names).partition(b"@")[0], rng.choice((GLOBAL, GLOBAL, WEAK))
        sort = rng.randrange(7)
        if sort == 0:
            symbol = Symbol(name, UNDEF, binding)
        elif sort == 1:
            symbol = Symbol(name, BSS, binding, OBJECT, 0, rng.choice((4, 16)))
        elif sort == 2:
            symbol = Symbol(name, DATA, binding, OBJECT, 0, 8)
        elif sort == 3:
            symbol = Symbol(name, LARGE_COMMON, binding, OBJECT, 0, 4)
        else:
            symbol = Symbol(name, TEXT, binding, FUNC, 0, 4)
        if versions and symbol.section != UNDEF and rng.random() < 0.7:
            symbol.name += rng.choice((b"@", b"@@", b"@@")) + rng.choice(versions)
        if needed_versions and symbol.section == UNDEF and rng.random() < 0.7:
            symbol.name += b"@" + rng.choice(needed_versions)
        chosen.setdefault(name, symbol)
    soname = rng.choice((None, *libraries))
    needed = [name for name in libraries if rng.random() < 0.3]
    return shared_library(list(chosen.values()), soname, needed, versions, needed_versions)


def random_words(rng, files, depth=0):
    """Words of a link over the files of a job."""
    words = []
    for _ in range(rng.randrange(1, 5)):
        chance = rng.random()
        if chance < 0.2 and depth < 2:
            words += [b"--start-group", *random_words(rng, files, depth + 1), b"--end-group"]
        elif chance < 0.3:
            words += [b"--whole-archive", rng.choice(files), b"--no-whole-archive"]
        elif chance < 0.35 and any(name.endswith(b".so") for name in files):
            words.append(rng.choice((b"--as-needed", b"--as-needed", b"--no-as-needed")))
        elif chance < 0.4:
            words += [b"-u", rng.choice(NAMES[:12])]
        else:
            words.append(rng.choice(files))
    return words


def random_words_of_libraries(rng, files):
    """Words of a link, most of which are shared libraries, that are taken as needed or in any case."""
    libraries, others = [name for name in files if name.endswith(b".so")], [name for name in files if not name.endswith(b".so")]
    words = []
    for _ in range(rng.randrange(2, 8)):
        chance = rng.random()
        if chance < 0.3:
            words.append(rng.choice((b"--as-needed", b"--as-needed", b"--no-as-needed")))
        elif chance < 0.7:
            words.append(rng.choice(libraries))
        elif chance < 0.8:
            group = [rng.choice(libraries), rng.choice(files), rng.choice(libraries)]
            words += [b"--start-group", *group[:rng.randrange(1, 4)], b"--end-group"]
        else:
            words.append(rng.choice(others))
    return words


def random_job_of_libraries(rng, names):
    """Files by their names, and words over them, most of which are shared libraries."""
    files, _ = random_job(rng, names, libraries=rng.randrange(2, 6))
    return files, [b"o0.o", *random_words_of_libraries(rng, sorted(files))]


def random_job(rng, names=NAMES, depth=2, libraries=0):
    """Files by their names, and words over them, with groups of at most this depth and so many shared libraries."""
    files = {b"o%d.o" % number: random_object(rng, names)[0] for number in range(rng.randrange(1, 4))}
    files.update({b"l%d.a" % number: random_archive(rng, names) for number in range(rng.randrange(1, 4))})
    sonames = [b"s%d.so" % number for number in range(libraries)]
    files.update({name: random_library(rng, names, sonames) for name in sonames})
    return files, [b"o0.o", *random_words(rng, sorted(files), 2 - depth)]
