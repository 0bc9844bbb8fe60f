"""Files of a program as a loader sees them: their headers, their dynamic entries and the interpreter that one names; for the
second implementation of `elfsee needs`. It is written for clarity alone, and holds whole files."""

import re
import struct

from applied import Refused, load, refuse_where
from looked_up import Scope

NULL, NEEDED, STRTAB, STRSZ, SONAME, RPATH, RUNPATH, FLAGS_1 = 0, 1, 5, 10, 14, 15, 29, 0x6FFFFFFB
NODEFLIB, PIE = 0x800, 0x8000000
LOAD, DYNAMIC, INTERP = 1, 2, 3
EXEC, DYN = 2, 3
MOST_OBJECTS, TEXT_BYTES = 512, 4096
# Texts of all objects together, and how many of them and of needs there are.
ALL_TEXT_BYTES, ALL_TEXTS = MOST_OBJECTS * 8192, MOST_OBJECTS * 64
# A token: its name in braces, or such that no further byte of a name follows.
TOKEN = re.compile(rb"\$(?:\{(ORIGIN|LIB|PLATFORM)\}|(ORIGIN|LIB|PLATFORM)(?![0-9A-Za-z_]))")


class OpenScope(Scope):
    """The tables that a lookup searches; the counts of the hash table are checked at a lookup."""

    def check_counts(self):
        pass

    def rows(self, segment):
        self.entries = super().rows(segment)
        return self.entries


class BySegments:
    """A file as a loader sees it: what is of section headers in its header counts as zeros."""

    def __init__(self, content, most):
        hidden = bytearray(content)
        if len(hidden) >= 64:
            hidden[40:48], hidden[60:64] = bytes(8), bytes(4)
        self.content = bytes(hidden)
        load(self.content, most)
        self.scope = OpenScope(self.content, most)
        if self.scope.refusal:
            if self.scope.refusal.args[1] != "no-hash":
                raise self.scope.refusal
            self.scope = None

    def check_counts(self):
        """The check of the hash table's counts, which each lookup makes."""
        Scope.check_counts(self.scope)


class Texts:
    """How much room there is for the texts of all objects."""

    def __init__(self):
        self.bytes = self.texts = self.needs = 0

    def keep(self, text, at):
        refuse_where(self.bytes + len(text) > ALL_TEXT_BYTES or self.texts >= ALL_TEXTS, at, "too-long")
        self.bytes, self.texts = self.bytes + len(text), self.texts + 1

    def keep_need(self, at):
        refuse_where(self.needs >= ALL_TEXTS, at, "too-long")
        self.needs += 1


def whole_text(content, start, size, index, at):
    """The whole name at an index of strings, or the refusal at what describes it."""
    if size == 0 and index == 0:
        return b""
    refuse_where(index >= size, at, "name-outside")
    there = content[start + index:min(start + index + TEXT_BYTES + 1, start + size)]
    end = there.find(b"\0")
    refuse_where(end < 0 and len(there) <= TEXT_BYTES, at, "name-unended")
    refuse_where(end < 0, at, "too-long")
    return there[:end]


def segments_of(content):
    """The place and the fields of each program header."""
    phoff, = struct.unpack_from("<Q", content, 32)
    phnum, = struct.unpack_from("<H", content, 56)
    return [(phoff + 56 * index, struct.unpack_from("<2I5Q", content, phoff + 56 * index)) for index in range(phnum)]


class Links:
    """What the dynamic entries of a file say about how it is linked."""

    def __init__(self, content, texts):
        self.needs, self.soname, self.rpath, self.runpath, self.flags_1 = [], None, None, None, 0
        headers = segments_of(content)
        self.content, self.loads = content, [(at, header) for at, header in headers if header[0] == LOAD]
        found = next(((at, header) for at, header in headers if header[0] == DYNAMIC), None)
        self.is_dynamic = found is not None
        if found is None:
            return
        at, (_, _, offset, _, _, size, _) = found
        if size:
            refuse_where(size % 16, at, "size-not-whole")
            refuse_where(offset + size > len(content), at, "table-outside")
        rows = []
        for place in range(offset, offset + size, 16):
            rows.append((place, *struct.unpack_from("<2Q", content, place)))
            if rows[-1][1] == NULL:
                break
        first = {tag: value for _, tag, value in reversed(rows)}
        self.address, self.size, self.flags_1 = first.get(STRTAB), first.get(STRSZ), first.get(FLAGS_1, 0)
        for place, tag, value in rows:
            if tag not in (NEEDED, SONAME, RPATH, RUNPATH):
                continue
            text = self.text(place, value)
            texts.keep(text, place)
            if tag == NEEDED:
                texts.keep_need(place)
                self.needs.append((place, text))
            elif tag == SONAME:
                self.soname = text if self.soname is None else self.soname
            elif tag == RPATH:
                self.rpath = text if self.rpath is None else self.rpath
            else:
                self.runpath = text if self.runpath is None else self.runpath

    def text(self, at, index):
        """The text at an index of the strings that the entries locate."""
        refuse_where(self.address is None or self.size is None, at, "unmapped")
        for place, (_, _, offset, vaddr, _, filesz, _) in self.loads:
            if vaddr <= self.address and self.address + self.size <= vaddr + filesz:
                start = offset + self.address - vaddr
                refuse_where(start + self.size > len(self.content), place, "table-outside")
                return whole_text(self.content, start, self.size, index, at)
        raise Refused(at, "unmapped")


def is_listed(content):
    """Whether a file among many has lines: an ELF64 file that a loader takes, or whose headers are refused."""
    if content[:5] != b"\x7fELF\2":
        return False
    try:
        content = BySegments(content, TEXT_BYTES).content
    except Refused:
        return True
    kind, = struct.unpack_from("<H", content, 16)
    return kind in (EXEC, DYN) and any(header[0] == DYNAMIC for _, header in segments_of(content))


def machine_of(content):
    return struct.unpack_from("<H", content, 18)[0]


def is_for(content, machine):
    """Whether a library of at least 64 bytes that begins as an ELF file is one that a program of a machine may load."""
    return content[4] == 2 and machine_of(content) == machine


def check_identity(content):
    """What is checked of a library before its headers."""
    refuse_where(content[5] != 1, 5, "data")
    refuse_where(content[6] != 1, 6, "version")
    refuse_where(content[7] not in (0, 3) or content[7] == 0 and content[8] != 0 or any(content[9:16]), 7, "unsupported")
    refuse_where(struct.unpack_from("<I", content, 20)[0] != 1, 20, "version")
    refuse_where(struct.unpack_from("<H", content, 16)[0] not in (EXEC, DYN), 16, "unsupported")


def check_kind(content, links):
    """What is checked of a library after all else."""
    is_program = struct.unpack_from("<H", content, 16)[0] == EXEC or links.flags_1 & PIE
    refuse_where(is_program or not links.is_dynamic, 16, "unsupported")


def interpreter_of(content):
    """The path of the interpreter that a file names, or None."""
    for at, (kind, _, offset, _, _, size, _) in segments_of(content):
        if kind == INTERP:
            refuse_where(offset + size > len(content), at, "table-outside")
            refuse_where(not 2 <= size <= TEXT_BYTES, at, "name-unended")
            text = content[offset:offset + size]
            refuse_where(text[-1] != 0, at, "name-unended")
            return text[:text.index(b"\0")]
    return None


def is_interpreter(there, machine):
    """Whether a file that was opened is one that the system can start a program of a machine by."""
    content = there.content
    if content is None or not there.mode & 0o111 or len(content) < 20 or content[:6] != b"\x7fELF\x02\x01":
        return False
    return struct.unpack_from("<H", content, 16)[0] in (EXEC, DYN) and machine_of(content) == machine


def replaced(text, origin):
    """A text with its tokens replaced; a `$` of no token stands for itself."""
    values = {b"ORIGIN": origin, b"LIB": b"lib/x86_64-linux-gnu", b"PLATFORM": b"x86_64"}
    return TOKEN.sub(lambda found: values[found[1] or found[2]], text)


def parts(text, separators=b":"):
    return [folder or b"." for folder in re.split(b"[" + separators + b"]", text)] if text else []
