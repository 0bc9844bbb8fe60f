"""A second implementation of how many bytes of a file a listing may read, from the rules."""

import struct

import made_archives
from applied import Refused, load, refuse_where, symbols_of
from listed_files import sort_of
from reported import (DYNAMIC, DYNSYM, MAGIC, NOTE, P_DYNAMIC, P_NOTE, REL, RELA, RELR, SYMTAB, VERDEF, VERNEED, VERSYM,
                      Listing, check_header, without_section_headers)

# Of each type of section with rows the bytes of a row, and what a row reads besides its name; the words of RELR have none.
ROWS = {SYMTAB: (24, 24), DYNSYM: (24, 24), RELA: (24, 48), REL: (16, 40), RELR: (8, 8), DYNAMIC: (16, 16)}


def passes(check):
    try:
        check()
    except Refused:
        return False
    return True


def is_inside(table, content):
    return table.offset + table.size <= len(content)


def cost(content, wish):
    """The most that a listing reads."""
    if not passes(lambda: check_header(content)) or wish.parts == ("header",):
        return 64 if len(content) >= 64 else 0
    content = without_section_headers(content) if wish.by_segments else content
    shoff, = struct.unpack_from("<Q", content, 40)
    _, phnum, _, shnum, names = struct.unpack_from("<5H", content, 54)
    name = 64 * -(-(wish.cap + 1) // 64)
    try:
        listing = Listing(content, wish)
        listing.content, listing.headers = content, load(content, wish.headers)
        headers = listing.headers
    except Refused:
        # Checks after the reading of section headers point at one of them.
        return 64 + 64 * shnum * (shnum <= wish.headers and shoff + 64 * shnum <= len(content))
    asked = 64 + 64 * shnum
    if "sections" in wish.parts and names:
        asked += shnum * name
    # The dynamic entries; the hash table and the symbols; four tables of relocation entries: each as large as the file.
    located = ("symbols" in wish.parts) * 2 + ("relocs" in wish.parts) * 4
    is_located = not headers and located and (wish.gnu or wish.by_segments)
    if "segments" in wish.parts or not headers and {"notes", "dynamic"} & set(wish.parts) or is_located:
        asked += 56 * phnum
    walks = walk_cost(headers, content, 28, 16)
    for index, header in enumerate(headers):
        asked += section_cost(content, wish, headers, index, header, name, walks)
    if not headers:
        try:
            listing.read_segments()
        except Refused:
            return asked
        asked += sum(segment_cost(content, wish, segment, name) for segment in listing.segments)
    return asked + ((1 + located) * (len(content) + len(content) // 16 * (32 + name)) if is_located else 0)


def section_cost(content, wish, headers, index, header, name, walks):
    kinds = {"symbols": (SYMTAB, DYNSYM), "relocs": (RELA, REL, RELR) if wish.gnu else (RELA,), "dynamic": (DYNAMIC,)}
    if header.type in ROWS and any(header.type in types for part, types in kinds.items() if part in wish.parts) and header.size:
        size, of_row = ROWS[header.type]
        if not passes(lambda: header.check_rows(size)):
            return 0
        count = header.size // size
        if header.type == RELR:
            return count * of_row
        asked = count * (of_row + name)
        table = index if header.type in (SYMTAB, DYNSYM) else header.link
        has_versions = any(other.type == VERSYM and other.link == table for other in headers)
        return asked + (count * (2 + name) + walks if wish.versions and header.type != DYNAMIC and has_versions else 0)
    if header.type == NOTE and "notes" in wish.parts:
        return header.size if is_inside(header, content) else 0
    if "versions" not in wish.parts:
        return 0
    if header.type in (VERDEF, VERNEED) and is_inside(header, content):
        size, of_row = (20, 28) if header.type == VERDEF else (16, 16)
        return header.size // size * (of_row + name)
    if header.type == VERSYM and header.size:
        rows = words_rows(headers, header)
        return rows * (2 + name) + walks if rows is not None else 0
    return 0


def words_rows(headers, header):
    """How many rows a table of symbol versions has; None if its checks do not pass."""
    try:
        header.check_rows(2)
        linked = symbols_of(headers, header) if header.link else None
        refuse_where(linked is None, header.at, "bad-link")
        return min(header.size // 2, linked[0].size // 24)
    except Refused:
        return None


def walk_cost(headers, content, of_definition, of_need):
    """What the walks over the first definitions and the first needs read."""
    asked = 0
    for kind, size, of_record in ((VERDEF, 20, of_definition), (VERNEED, 16, of_need)):
        header = next((header for header in headers if header.type == kind), None)
        if header is not None and is_inside(header, content):
            asked += header.size // size * of_record
    return asked


def segment_cost(content, wish, segment, name):
    if segment.type == P_NOTE and "notes" in wish.parts:
        return segment.size if is_inside(segment, content) else 0
    if segment.type == P_DYNAMIC and "dynamic" in wish.parts and segment.size % 16 == 0 and is_inside(segment, content):
        return segment.size // 16 * (32 + name)
    return 0


def archive_cost(content, wish):
    """The most that an archive reads: its magic string, and of each member the header, a long name, the first bytes of its
    data, and what the listing of an ELF file reads."""
    asked, long_name = 8 + 64, 64 * -(-(wish.cap + 2) // 64)
    for _, data in made_archives.walked(content, wish.cap)[0]:
        asked += 60 + long_name + 4 + (cost(data, wish) if data[:4] == MAGIC else 0)
    return asked + long_name


def asked_by(command, content, wish, has_members):
    """The most that a command reads from a file; `list` and `check` first the bytes that say what it is, which `check` does
    not read again of an archive; without members `check` reads a file header."""
    if command in ("show", "archive"):
        return cost(content, wish) if command == "show" else archive_cost(content, wish)
    sort = sort_of(content, has_members)
    if sort == "archive" and command == "check":
        return archive_cost(content, wish)
    first = 64 if command == "check" and not has_members else 8
    return first + (archive_cost(content, wish) if sort == "archive" else cost(content, wish) if sort == "elf" else 0)
