"""Rows of readelf and of `elfsee show`, for tests/machine/against_readelf.py. Each reader gives a list of dictionaries, all
of whose values are texts or numbers; `line` is the row's line in elfsee's listing."""

import re

from readelf_names import is_copied
from readelf_words import (STRING_WORDS, VERSION_FLAGS, NotUnderstood, dynamic_value, letters_as_elfsee,
                           note_type_number, relocation_tables, tag_number)

HEX16 = "([0-9a-f]{16})"
HEX8 = "([0-9a-f]{8})"
ELFSEE_SECTION = re.compile(
    r"S +(\d+) (.{13}) (.{12}) %s %s %s %s %s (.*)" % (HEX16, HEX16, HEX16, HEX8, HEX8))
ELFSEE_SEGMENT = re.compile(
    r"P +(\d+) (.{8}) ([R-][W-][X-]) " + " ".join([HEX16] * 6))
ELFSEE_SYMBOL = re.compile(
    r"Y +(\d+) +(\d+) %s %s (.{7}) (.{6}) (.{9}) (.{5}) (.*)" % (HEX16, HEX16))

# The type's field grows only for a number of ten digits.
ELFSEE_RELOCATION = re.compile(
    r"R +(\d+) %s (.{10}|#\d{10}) %s (?:([+-])%s|- {16}) (.*)" % (HEX16, HEX8, HEX16))

ELFSEE_NOTE = re.compile(
    r"N +(\d+) %s %s %s (.*) ((?:[0-9a-f]{2}){0,32})((?:\\\+)?)" % (HEX8, HEX8, HEX8))
ELFSEE_DYNAMIC = re.compile(r"D +(\d+) (.{16}) %s (.*)" % HEX16)

ELFSEE_VERSION = re.compile(r"V +(\d+) (DEF |FILE|NEED) +(\d+) ([0-9a-f]{4}) %s (.*)" % HEX8)
ELFSEE_SYMBOL_VERSION = re.compile(r"X +(\d+) +(\d+) +(\d+) ([H-]) (.*)")

READELF_SECTION = re.compile(
    r" *\[ *(\d+)\] (.*?) +(SYMTAB SECTION INDICES|[0-9a-f]{8}: <unknown>|\S+)"
    r" +([0-9a-f]{16}) +([0-9a-f]+) +([0-9a-f]+) +([0-9a-f]+) +([A-Za-z]*) +(\d+) +(\d+) +(\d+) *")
READELF_SEGMENT = re.compile(
    r" +(\S.*?) +0x([0-9a-f]+) 0x([0-9a-f]+) 0x([0-9a-f]+) 0x([0-9a-f]+) 0x([0-9a-f]+)"
    r" ([R ][W ][E ]) (?:0x)?([0-9a-f]+) *")
READELF_TABLE = re.compile(r"Symbol table '(.*)' contains (\d+) entr(?:y|ies):")
# Between visibility and index are the other bits of st_other, in brackets.
READELF_SYMBOL = re.compile(
    r" *(\d+): ([0-9a-f]{16}) +(0x[0-9a-f]+|\d+) (<.*?>: \d+|\S+) +(<.*?>: \d+|\S+) +(\S+) +"
    r"(?:\[.*?\] +)?(bad section index\[ *\d+\]|OS \[0x[0-9a-f]+\]|\S+) (.*)")
READELF_RELOCATION_TABLE = re.compile(
    r"Relocation section .* at offset (0x[0-9a-f]+|0) contains (\d+) entr(?:y|ies):")
# The info holds the symbol's number and the type's.  What follows depends on the symbol:
# for symbol 0 the addend alone, otherwise the symbol's value, its name and the addend, if there is one.  For an
# indirect function its name and a pair of brackets replace the value.
READELF_RELOCATION = re.compile(
    r"([0-9a-f]{16})  ([0-9a-f]{8})([0-9a-f]{8}) (unrecognized: [0-9a-f]+|\S+) *(.*)")
READELF_ADDEND_ALONE = re.compile(r"(-?)([0-9a-f]+)")
READELF_SYMBOL_AND_ADDEND = re.compile(
    r"(?:[0-9a-f]{16}|\?\?\(\) *|(?P<again>.+)\(\) *(?=(?P=again) [+-] [0-9a-f]+$)) ?"
    r"(?P<name>.*) (?P<sign>[+-]) (?P<addend>[0-9a-f]+)")
READELF_SYMBOL_ALONE = re.compile(
    r"(?:[0-9a-f]{16}|\?\?\(\) *|(?P<again>.+)\(\) *(?=(?P=again)$)) ?(?P<name>.*)")
# Of compact entries readelf prints how many addresses they give, and then these.
READELF_ADDRESSES = re.compile(r"  (\d+) offsets?")
READELF_ADDRESS = re.compile("([0-9a-f]{16})")

READELF_NOTES_OF_SECTION = re.compile(r"Displaying notes found in: (.*)")
READELF_NOTES_OF_SEGMENT = re.compile(
    r"Displaying notes found at file offset 0x([0-9a-f]+) with length 0x([0-9a-f]+):")
READELF_NOTE = re.compile(r"  (.*) 0x([0-9a-f]{8,})\t([^\t]*)(?:\t(.*))?")
READELF_BUILD_ID = re.compile(r" *Build ID: ([0-9a-f]*)")
READELF_DYNAMIC = re.compile(r" 0x([0-9a-f]{16}) \((.*?)\) *(.*)")
READELF_STRING = re.compile(r"([A-Z][a-z ]+): \[(.*)\]")
READELF_VERSIONS = re.compile(
    r"Version (symbols|definition|needs) section '(.*)' contains (\d+) entr(?:y|ies):")
READELF_VERSIONS_PLACE = re.compile(r" Addr: 0x[0-9a-f]+  Offset: 0x([0-9a-f]+)  Link: (\d+) \(.*\)")
READELF_DEFINITION = re.compile(
    r"  (?:0x[0-9a-f]{4,}|000000): Rev: \d+  Flags: (.*?)  Index: (\d+)  Cnt: \d+  Name: (.*)")
READELF_PARENT = re.compile(r"  0x[0-9a-f]{4,}: Parent \d+: .*")
READELF_NEEDED_FILE = re.compile(
    r"  (?:0x[0-9a-f]{4,}|000000): Version: \d+  File: (.*)  Cnt: \d+")
READELF_NEEDED_VERSION = re.compile(
    r"  0x[0-9a-f]{4,}:   Name: (.*)  Flags: (.*?)  Version: (\d+)")
READELF_SYMBOL_VERSIONS = re.compile(r"  ([0-9a-f]{3,}):(.*)")
READELF_SYMBOL_VERSION = re.compile(r" *([0-9a-f]+)([h ])\((.*?)\) *")


def matched(pattern, line):
    match = pattern.fullmatch(line)
    if match is None:
        raise NotUnderstood(line)
    return match.groups()


def rows_of_elfsee(kind, lines):
    """The rows of a listing without a refusal."""
    read = {"sections": elfsee_section, "segments": elfsee_segment, "symbols": elfsee_symbol,
            "relocs": elfsee_relocation, "notes": elfsee_note, "dynamic": elfsee_dynamic,
            "versions": elfsee_version}[kind]
    rows = []
    for number, line in enumerate(lines, 1):
        row = read(line)
        row["line"] = number
        rows.append(row)
    return rows


def elfsee_section(line):
    index, kind, letters, address, offset, size, link, info, name = matched(ELFSEE_SECTION, line)
    return {
        "index": int(index), "type": kind.rstrip(), "flags": letters.rstrip(),
        "address": int(address, 16), "offset": int(offset, 16), "size": int(size, 16),
        "link": int(link, 16), "info": int(info, 16), "name": name,
    }


def elfsee_segment(line):
    groups = matched(ELFSEE_SEGMENT, line)
    index, kind, flags = groups[:3]
    offset, virtual, physical, in_file, in_memory, align = [int(text, 16) for text in groups[3:]]
    return {
        "index": int(index), "type": kind.rstrip(), "flags": flags, "offset": offset,
        "virtual address": virtual, "physical address": physical, "file size": in_file,
        "memory size": in_memory, "alignment": align,
    }


def elfsee_symbol(line):
    table, index, value, size, kind, bind, seen, place, name = matched(ELFSEE_SYMBOL, line)
    return {
        "table": int(table), "index": int(index), "value": int(value, 16),
        "size": int(size, 16), "type": kind.strip(), "binding": bind.strip(),
        "visibility": seen.rstrip(), "section": place.strip(), "name": name,
    }


def elfsee_relocation(line):
    table, offset, kind, symbol, sign, addend, name = matched(ELFSEE_RELOCATION, line)
    if sign == "-" and int(addend, 16) == 0:
        raise NotUnderstood(line)
    return {
        "table": int(table), "offset": int(offset, 16), "type": kind.rstrip(), "symbol": int(symbol, 16),
        "addend": signed(sign, addend) if sign else NO_ADDEND, "name": name,
    }


def elfsee_note(line):
    # The size of the name is one that readelf does not show.
    header, kind, _name_size, size, name, digits, more = matched(ELFSEE_NOTE, line)
    size = int(size, 16)
    if len(digits) != 2 * min(size, 32) or (more != "") != (size > 32):
        raise NotUnderstood(line)
    return {
        "header": int(header), "type": int(kind, 16), "data size": size, "owner": name,
        "descriptor": digits + more,
    }


def elfsee_dynamic(line):
    index, tag, value, name = matched(ELFSEE_DYNAMIC, line)
    return {
        "index": int(index), "tag": tag_number(tag.rstrip()), "word": tag.rstrip(),
        "value": int(value, 16), "string": name,
    }


def elfsee_version(line):
    if line.startswith("V"):
        section, kind, number, flags, digits, name = matched(ELFSEE_VERSION, line)
        return {
            "table": int(section), "kind": kind.rstrip(), "number": int(number),
            "flags": int(flags, 16), "hash": int(digits, 16), "name": name,
        }
    section, symbol, number, hidden, name = matched(ELFSEE_SYMBOL_VERSION, line)
    return {
        "table": int(section), "kind": "symbol", "symbol": int(symbol), "number": int(number),
        "hidden": hidden == "H", "name": name, "after the symbol": None,
    }


# The addend of an entry that has none.
NO_ADDEND = "none"


def signed(sign, digits):
    return -int(digits, 16) if sign == "-" else int(digits, 16)


def readelf_sections(text):
    rows = []
    for line in text.split("\n"):
        match = READELF_SECTION.fullmatch(line)
        if match is None:
            continue
        (index, name, kind, address, offset, size, _entry, letters, link, info,
         _align) = match.groups()
        rows.append({
            "index": int(index), "name": name, "type": kind, "address": int(address, 16),
            "offset": int(offset, 16), "size": int(size, 16),
            "flags": letters_as_elfsee(letters), "link": int(link), "info": int(info),
        })
    return rows


def readelf_segments(text):
    rows = []
    for line in text.split("\n"):
        match = READELF_SEGMENT.fullmatch(line)
        if match is None:
            continue
        kind, offset, virtual, physical, in_file, in_memory, flags, align = match.groups()
        rows.append({
            # readelf prints no index: its rows are counted.
            "index": len(rows), "type": kind, "offset": int(offset, 16),
            "virtual address": int(virtual, 16), "physical address": int(physical, 16),
            "file size": int(in_file, 16), "memory size": int(in_memory, 16),
            "flags": flags.replace(" ", "-").replace("E", "X"), "alignment": int(align, 16),
        })
    return rows


def readelf_symbols(text, sections):
    """The rows of all symbol tables.  readelf names a table and does not number it,
    but goes through the sections in their order, so the tables are distinguished by
    readelf's own list of sections.  Empty tables are left out on both sides."""
    tables = iter([row for row in sections if row["type"] in ("SYMTAB", "DYNSYM") and row["size"]])
    rows = []
    table = None
    left = 0
    for line in text.split("\n"):
        title = READELF_TABLE.fullmatch(line)
        if title is not None and left == 0:
            left = int(title.group(2))
            table = next(tables, None) if left else None
            if left and (table is None or table["name"] != title.group(1)):
                raise NotUnderstood(line)
            continue
        match = READELF_SYMBOL.fullmatch(line) if left else None
        if match is None:
            continue
        left -= 1
        index, value, size, kind, bind, seen, place, name = match.groups()
        rows.append({
            "table": table["index"], "index": int(index), "value": int(value, 16),
            "size": int(size, 16 if size.startswith("0x") else 10), "type": kind,
            "binding": bind, "visibility": seen, "section": place, "name": name,
            "dynamic": table["type"] == "DYNSYM",
        })
    return rows


def unlisted_tables(sections):
    """The tables of relocation entries of which readelf prints the title alone: those linked
    with a section that holds no symbols (without any link they are listed)."""
    types = {row["index"]: row["type"] for row in sections}
    return {row["index"] for row in sections if row["type"] in relocation_tables() and row["link"] != 0
            and types.get(row["link"], "SYMTAB") not in ("SYMTAB", "DYNSYM")}


def nameless_text(symbol, section_names):
    """What readelf prints in a relocation's row for a symbol without a name: the name
    of its section for a section symbol.  The symbol is a row of readelf's own list."""
    if symbol["type"] != "SECTION":
        return "<null>"
    place = symbol["section"]
    if place.isdigit() or place == "UND":
        return section_names.get(0 if place == "UND" else int(place))
    return {"ABS": "ABS", "COM": "COMMON"}.get(place)


def readelf_relocation(table, machine, symbols, section_names, line):
    """The row of an entry with or without an addend; None for a line that is none."""
    has_addend = table["type"] == "RELA"
    match = READELF_RELOCATION.fullmatch(line)
    if match is None:
        return None
    offset, symbol, number, word, rest = match.groups()
    row = {
        "table": table["index"], "offset": int(offset, 16), "type": word,
        "number": int(number, 16), "machine": machine, "symbol": int(symbol, 16), "addend": NO_ADDEND,
        "name": "", "nameless": None, "dynamic": False, "copied": False,
    }
    if row["symbol"] == 0:
        if has_addend:
            row["addend"] = signed(*matched(READELF_ADDEND_ALONE, rest))
        elif rest:
            raise NotUnderstood(line)
        return row
    match = (READELF_SYMBOL_AND_ADDEND if has_addend else READELF_SYMBOL_ALONE).fullmatch(rest)
    if match is None:
        raise NotUnderstood(line)
    if has_addend:
        row["addend"] = signed(match.group("sign"), match.group("addend"))
    row["name"] = match.group("name")
    own = symbols.get((table["link"], row["symbol"]))
    if own is not None:
        row["dynamic"] = own["dynamic"]
        row["copied"] = is_copied(own)
        row["nameless"] = nameless_text(own, section_names)
    return row


def readelf_address(table, line):
    """The row of an address of a table of compact entries; None for a line that is none."""
    match = READELF_ADDRESS.fullmatch(line)
    return None if match is None else {
        "table": table["index"], "offset": int(match.group(1), 16), "type": "RELR", "number": None, "machine": None,
        "symbol": 0, "addend": NO_ADDEND, "name": "", "nameless": None, "dynamic": False, "copied": False}


def readelf_relocations(text, sections, symbols, machine):
    """The rows of all tables of relocation entries, distinguished as symbol tables are, but by their offsets:
    in these titles readelf cuts long names.  It lists the tables of REL and RELR entries
    too, which elfsee does with --gnu alone."""
    tables = iter([row for row in sections if row["type"] in ("RELA", "REL", "RELR")
                   and row["size"]])
    symbols = {(row["table"], row["index"]): row for row in symbols}
    section_names = {row["index"]: row["name"] for row in sections}
    unlisted = unlisted_tables(sections)
    rows = []
    table, is_listed = None, False
    left = 0
    for line in text.split("\n"):
        title = READELF_RELOCATION_TABLE.fullmatch(line) if left == 0 else None
        if title is not None:
            table = next(tables, None)
            offset, entries = title.groups()
            if table is None or table["offset"] != int(offset, 16):
                raise NotUnderstood(line)
            is_listed = table["type"] in relocation_tables() and table["index"] not in unlisted
            left = int(entries) if is_listed and table["type"] != "RELR" else 0
            continue
        addresses = READELF_ADDRESSES.fullmatch(line) if left == 0 and is_listed else None
        if addresses is not None:
            left = int(addresses.group(1))
        elif left:
            row = (readelf_address(table, line) if table["type"] == "RELR"
                   else readelf_relocation(table, machine, symbols, section_names, line))
            rows += [row] if row is not None else []
            left -= row is not None
    return rows


def readelf_notes(text, sections, segments):
    """The rows of all tables of notes.  Above those of a section readelf has the section's
    name, above those of a segment its offset and size; both go through the headers in
    their order, and leave out those of size 0."""
    sections = iter([row for row in sections if row["type"] == "NOTE" and row["size"]])
    segments = iter([row for row in segments if row["type"] == "NOTE" and row["file size"]])
    rows = []
    table = None
    for line in text.split("\n"):
        title = READELF_NOTES_OF_SECTION.fullmatch(line)
        if title is not None:
            table = next(sections, None)
            if table is None or table["name"].rstrip() != title.group(1).rstrip():
                raise NotUnderstood(line)
            continue
        title = READELF_NOTES_OF_SEGMENT.fullmatch(line)
        if title is not None:
            table = next(segments, None)
            place = tuple(int(digits, 16) for digits in title.groups())
            if table is None or place != (table["offset"], table["file size"]):
                raise NotUnderstood(line)
            continue
        match = READELF_NOTE.fullmatch(line) if table is not None else None
        if match is None:
            continue
        owner, size, words, about = match.groups()
        build_id = READELF_BUILD_ID.fullmatch(about or "")
        rows.append({
            "header": table["index"], "type": note_type_number(words),
            "data size": int(size, 16), "owner": owner,
            "descriptor": None if build_id is None else build_id.group(1),
        })
    return rows


def readelf_dynamic(text):
    rows = []
    for line in text.split("\n"):
        match = READELF_DYNAMIC.fullmatch(line)
        if match is None:
            continue
        digits, word, shown_value = match.groups()
        tag = int(digits, 16)
        string = READELF_STRING.fullmatch(shown_value)
        is_string = string is not None and STRING_WORDS.get(word) == string.group(1)
        rows.append({
            # readelf prints no index: its rows are counted.
            "index": len(rows), "tag": tag, "word": word,
            "value": dynamic_value(tag, word, shown_value),
            "string": string.group(2) if is_string else "",
        })
    return rows


def version_flags(words):
    """The flags of a version by readelf's words; None if these do not give them all."""
    numbers = [VERSION_FLAGS.get(word) for word in words.split(" | ")]
    return None if None in numbers else sum(numbers)


def version_hash(name):
    """The System V hash of a name that readelf printed."""
    value = 0
    for byte in name.encode("latin-1"):
        value = (value << 4) + byte
        value = (value ^ (value >> 28 << 4)) & 0xfffffff
    return value


def readelf_version(table, line):
    """The row of a definition, a needed file or a needed version; None for a parent."""
    row = {"table": table["index"], "kind": "FILE", "number": 0, "flags": 0, "hash": 0}
    if READELF_PARENT.fullmatch(line) is not None:
        return None
    needed = READELF_NEEDED_FILE.fullmatch(line)
    if needed is not None:
        return {**row, "name": needed.group(1)}
    found = READELF_NEEDED_VERSION.fullmatch(line)
    if found is not None:
        name, flags, number = found.groups()
        kind = "NEED"
    else:
        flags, number, name = matched(READELF_DEFINITION, line)
        kind = "DEF"
    return {**row, "kind": kind, "number": int(number), "flags": version_flags(flags),
            "hash": version_hash(name), "name": name}


def readelf_symbol_versions(table, symbols, line):
    """The rows of a line with up to four versions of symbols."""
    first, rest = matched(READELF_SYMBOL_VERSIONS, line)
    at = 0
    while at < len(rest):
        found = READELF_SYMBOL_VERSION.match(rest, at)
        if found is None:
            raise NotUnderstood(line)
        number, hidden, name = found.groups()
        symbol = int(first, 16)
        yield {
            "table": table["index"], "kind": "symbol", "symbol": symbol, "number": int(number, 16),
            "hidden": hidden == "h", "name": "" if int(number, 16) < 2 else name,
            "after the symbol": symbols.get((table["link"], symbol)),
        }
        first, at = "%x" % (symbol + 1), found.end()


def readelf_versions(text, sections, symbols):
    """The rows of all definitions, then of all needs, then of all versions of symbols. readelf goes
    through the sections in their order and names a section; its offset gives it again."""
    types = {"definition": "VERDEF", "needs": "VERNEED", "symbols": "VERSYM"}
    tables = iter([row for row in sections if row["type"] in types.values()])
    symbols = {(row["table"], row["index"]): row["name"] for row in symbols}
    rows = {kind: [] for kind in types}
    kind = table = None
    for line in text.split("\n"):
        title = READELF_VERSIONS.fullmatch(line)
        if title is not None:
            kind, table = title.group(1), next(tables, None)
            if table is None or (table["type"], table["name"]) != (types[kind], title.group(2)):
                raise NotUnderstood(line)
        elif line == "":
            kind = None
        elif kind is not None and line.startswith(" Addr: "):
            place = matched(READELF_VERSIONS_PLACE, line)
            if (int(place[0], 16), int(place[1])) != (table["offset"], table["link"]):
                raise NotUnderstood(line)
        elif kind == "symbols":
            rows[kind] += readelf_symbol_versions(table, symbols, line)
        elif kind is not None:
            rows[kind] += filter(None, [readelf_version(table, line)])
    return rows["definition"] + rows["needs"] + rows["symbols"]
