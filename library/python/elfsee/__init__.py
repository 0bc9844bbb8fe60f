"""Lists ELF64 files, looks up names in them, applies relocations, writes segments as a loader leaves them, and reads
their rows, by the library elfsee.

    import elfsee

    with elfsee.File("/bin/ls") as file:
        print([entry.string for entry in file.dynamic() if entry.tag == elfsee.DynamicTag.NEEDED])
        for symbol in file.symbols():
            if symbol.type == elfsee.SymbolType.FUNC:
                print(elfsee.spelt(symbol.name), hex(symbol.value))
        print(file.text(elfsee.SEGMENTS), end="")

A file may come from anybody: for any bytes, each call returns an answer or raises one of the exceptions below.

NAMES ARE BYTES, as they are in the file: ELF does not define an encoding. If you need a str,
`name.decode("utf-8", "surrogateescape")` never fails, and the same arguments encode it back. A
name that is an argument may be bytes or str; a str is encoded so. A name may contain bytes that act on a
terminal: print `spelt(name)`.

MEMORY. A path is read into memory, and bytes are taken as they are; any other buffer (bytearray,
memoryview, mmap) is copied. So nobody can change a file while a call runs. A file that is cut short
while its mapping is copied raises OSError. Of paths only regular files are opened, and opening never waits.

THREADS. A File may be used by several threads at once: it is not written to. An iterator belongs to
one thread at a time. The library's calls run without the interpreter's lock.

THE LIBRARY is loaded from the path in the environment variable ELFSEE_LIBRARY, otherwise from the directory of
this module, where a wheel has it, otherwise from library/out if this module is the repository's, otherwise from
where the system keeps its libraries. If it is not found, ImportError says so.

NUMBERS of the standards have names: SymbolType.FUNC, DynamicTag.NEEDED. Rows hold plain numbers, including those
that have no name: compare them, or convert one by SymbolType(number) if it is known.
"""

from __future__ import annotations

import ctypes
import ctypes.util
import enum
import errno
import operator
import os
import pickle
import stat
import struct
import types
from array import array
from collections import abc
from typing import (TYPE_CHECKING, Any, Callable, Dict, Iterable, Iterator, List, Mapping, NamedTuple, Optional,
                    Sequence, Tuple, Union)

from ._numbers import (DynamicFlag, DynamicFlag1, DynamicTag, FileType, Machine, RelocationType, SectionFlag,
                       SectionType, SegmentFlag, SegmentType, SpecialSection, SymbolBinding, SymbolType,
                       SymbolVisibility)

if TYPE_CHECKING:
    import mmap

__all__ = [
    "ALL", "DYNAMIC", "HEADER", "JMPREL", "NOTES", "REL", "RELA", "RELOCS", "RELR", "SECTIONS", "SEGMENTS", "SYMBOLS", "VERSIONS",
    "Absent", "Cause", "Dynamic", "File", "Full", "Header", "ImageItems", "Lacking", "Layout", "Listing", "Located",
    "Lookup", "Member", "Missing", "Note", "Refused", "Relocation", "Resolved", "Section", "Segment", "Symbol", "SymbolVersion", "Unapplied",
    "VERSION", "Version", "VersionOfSymbol", "spelt",
]
# The numbers of the standards, and the words of causes.
__all__ += [
    "DT_NEEDED", "DT_NULL", "DT_RPATH", "DT_RUNPATH", "DT_SONAME", "DT_STRSZ", "DT_STRTAB", "DynamicFlag",
    "DynamicFlag1", "DynamicTag", "FileType", "Machine", "RelocationType", "SectionFlag", "SectionType",
    "SegmentFlag", "SegmentType", "SpecialSection", "SymbolBinding", "SymbolType", "SymbolVisibility",
    "word_of",
]

# The parts of a listing; VERSIONS is one only with the names defined by GNU.
HEADER, SECTIONS, SEGMENTS, SYMBOLS, RELOCS, NOTES, DYNAMIC, VERSIONS = (1 << bit for bit in range(8))
ALL = 127
# The tables of relocations that dynamic entries locate, in the order in which a loader applies them.
RELR, REL, RELA, JMPREL = range(4)
# The range of each limit, and its default.
MOST_HEADERS, MOST_NAME, MOST_NUMBER = 65279, 4096, (1 << 64) - 1
DEFAULT_HEADERS, DEFAULT_NAME = 4096, 256
# Section types, and the tags of dynamic entries whose value is a string (gABI).
SHT_SYMTAB, SHT_RELA, SHT_DYNAMIC, SHT_NOBITS, SHT_DYNSYM = 2, 4, 6, 8, 11
SHT_GNU_VERDEF, SHT_GNU_VERNEED, SHT_GNU_VERSYM = 0x6ffffffd, 0x6ffffffe, 0x6fffffff
DT_NULL, DT_NEEDED, DT_STRTAB, DT_STRSZ, DT_SONAME, DT_RPATH, DT_RUNPATH = 0, 1, 5, 10, 14, 15, 29
STRING_TAGS = frozenset((DT_NEEDED, DT_SONAME, DT_RPATH, DT_RUNPATH))
# The number of rows that one call of the library fetches.
BATCH = 4096

Name = Union[str, bytes]
# Addresses by names; a mapping of one kind of name is not one of another.
Named = Union[Mapping[str, int], Mapping[bytes, int], Mapping[Name, int]]
# A path, or a buffer with the file's bytes.
Source = Union[str, "os.PathLike[str]", bytes, bytearray, memoryview, "mmap.mmap", "array[Any]"]
Numbers = Tuple[int, ...]
# Where a string table begins in the file, and where it ends.
Places = Tuple[int, int]


class Cause(enum.IntEnum):
    """Why a file is refused. `word_of` has the word that a listing shows for it."""

    SHORT = 1
    NOT_ELF = 2
    BAD_CLASS = 3
    BAD_DATA = 4
    BAD_VERSION = 5
    EXTENDED_NUMBERING = 6
    TOO_MANY_HEADERS = 7
    ENTRY_SIZE = 8
    TABLE_OUTSIDE = 9
    BAD_LINK = 10
    NOT_STRINGS = 11
    SIZE_NOT_WHOLE = 12
    NAME_OUTSIDE = 13
    NAME_UNENDED = 14
    NOTE_CUT = 15
    NO_HASH = 16
    HASH_SHAPE = 17
    HASH_INDEX = 18
    HASH_CYCLE = 19
    UNSUPPORTED = 20
    OVERFLOW = 21
    NOT_REL = 22
    UNPLACED = 23
    UNDEFINED = 24
    PLACE_OUTSIDE = 25
    SYMBOL_INDEX = 26
    TOO_LONG = 27
    BUDGET = 28
    UNMAPPED = 29
    VERSION_CUT = 32
    VERSION_INDEX = 33
    THIN = 34
    NOT_ARCHIVE = 35
    MEMBER_CUT = 36
    LOAD_OVERLAP = 37
    RELR = 38
    NOT_IMAGE = 39
    LOAD_ALIGN = 40
    REPEAT = 41
    TABLE_WRITTEN = 42


# ---------------------------------------------------------------------------
# The declarations of the library's header, in the terms of ctypes.

_U8, _U16, _U32, _U64, _I64 = (ctypes.c_uint8, ctypes.c_uint16, ctypes.c_uint32, ctypes.c_uint64,
                               ctypes.c_int64)
_OK, _REFUSED, _ABSENT, _FULL, _BAD_CALL = range(5)


def _struct(name: str, *fields: Tuple[Any, str]) -> Any:
    """A struct of C: for each type the names of its fields, one after another."""
    return type(name, (ctypes.Structure,), {
        "_fields_": [(field, kind) for kind, names in fields for field in names.split()]})


_Limits = _struct("elfsee_limits", (_U16, "headers name"), (_U32, "has_budget"), (_U64, "budget"))
_End = _struct("elfsee_end", (_U64, "at written asked"), (_U32, "cause none"))
_Listing = _struct("elfsee_listing", (_U16, "parts flags"))
_Text = _struct("elfsee_text", (ctypes.c_char_p, "bytes"), (ctypes.c_size_t, "len"))
_Symbol = _struct("elfsee_symbol", (_U64, "value size"), (_U32, "name"), (_U16, "section"),
                  (_U8, "info other"))
_Found = _struct("elfsee_found", (_Symbol, "symbol"), (_U32, "index steps"), (_U16, "section none"),
                 (_U32, "none_behind"))
_Range = _struct("elfsee_range", (_U64, "at len"))
_Resolved = _struct("elfsee_resolved", (_Symbol, "symbol"), (_U64, "index tried"), (_Range, "version"),
                    (_U32, "has_version is_hidden is_cut"), (_U16, "section words number none"),
                    (_U32, "none_behind"))
_Item = _struct("elfsee_item", (_U64, "address"), (ctypes.c_char_p, "name"),
                (ctypes.c_size_t, "name_len"), (_U32, "kind index"))
_Job = _struct("elfsee_job", (ctypes.POINTER(_Item), "items"), (ctypes.c_size_t, "items_len"),
               (_U32, "section none"))
_LentSection = _struct("elfsee_lent_section", (_U16, "index"), (_U64, "address"))
_LentName = _struct("elfsee_lent_name", (ctypes.c_char_p, "name"), (ctypes.c_size_t, "name_len"), (_U64, "address"))
_Layout = _struct("elfsee_layout", (ctypes.POINTER(_LentSection), "sections"), (ctypes.c_size_t, "sections_len"),
                  *(pair for sort in ("definitions", "linkage", "table", "thread")
                    for pair in ((ctypes.POINTER(_LentName), sort), (ctypes.c_size_t, sort + "_len"))))
_Missing = _struct("elfsee_missing", (_U32, "helpful section relocation name_len is_cut"), (_U8 * 256, "name"))
_ImageItem = _struct("elfsee_image_item", (_U32, "kind"), (_U64, "key value"))
_Copied = _struct("elfsee_copied", (_U32, "index digits"), (ctypes.c_char_p, "bytes"), (ctypes.c_size_t, "bytes_len"))
_ImageItems = _struct("elfsee_image_items", (ctypes.POINTER(_ImageItem), "numbers"), (ctypes.c_size_t, "numbers_len"),
                      (ctypes.POINTER(_Copied), "copies"), (ctypes.c_size_t, "copies_len"), (_U32, "partial none"))
_Lacking = _struct("elfsee_lacking", (_U64, "at place"), (_U32, "type symbol cause none"))
_Header = _struct("elfsee_header", (_U64, "entry phoff shoff"), (_U32, "version flags"),
                  (_U16, "type machine ehsize phentsize phnum shentsize shnum shstrndx"),
                  (_U8 * 16, "ident"))
_Section = _struct("elfsee_section", (_U64, "flags addr offset size addralign entsize"),
                   (_U32, "name type link info"))
_Segment = _struct("elfsee_segment", (_U64, "offset vaddr paddr filesz memsz align"),
                   (_U32, "type flags"))
_Relocation = _struct("elfsee_relocation", (_U64, "offset info"), (_I64, "addend"))
_ShortRelocation = _struct("elfsee_short_relocation", (_U64, "offset info"))
_Dynamic = _struct("elfsee_dynamic", (_I64, "tag"), (_U64, "value"))
_VersionWord = _struct("elfsee_version_word", (_U16, "number is_hidden"))
_VersionRecord = _struct("elfsee_version_record", (_U64, "at named_at"), (_U32, "name hash"), (_U16, "number flags"),
                         (_U32, "kind"))
_VersionRecords = _struct("elfsee_version_records", (_U64, "at size place from owner left strings_at strings_len"),
                          (_U32, "kind none"))
_Rows = _struct("elfsee_rows", (_U64, "at count index entry strings_at strings_len"))
_Notes = _struct("elfsee_notes", (_U64, "at left align"), (_U32, "header none"))
_Note = _struct("elfsee_note", (_U64, "at name_at desc_at"), (_U32, "namesz descsz type header"))
_Members = _struct("elfsee_members", (_U64, "at"), (_Range, "names"), (_U32, "has_names none"))
_Member = _struct("elfsee_member", (_U64, "at"), (_Range, "content name"), (_U32, "is_cut none"))
STRUCTS = (_Limits, _End, _Listing, _Text, _Symbol, _Range, _Found, _Resolved, _Item, _Job, _LentSection, _LentName,
           _Layout, _Missing, _ImageItem, _Copied, _ImageItems, _Lacking, _Header, _Section, _Segment, _Relocation,
           _ShortRelocation, _Dynamic, _VersionWord, _VersionRecord, _VersionRecords, _Rows, _Notes, _Note, _Members,
           _Member)

# The same as formats of `struct`, for the rows that are read in batches.
_SYMBOL_FORM, _RELOCATION_FORM, _DYNAMIC_FORM, _WORD_FORM = "=QQIHBB", "=QQq", "=qQ", "=HH"
_LACKING_FORM = "=QQIIII"
# Of each size of the rows that dynamic entries locate, the call that reads them, and their form.
_LOCATED_FORMS = {24: ("next_relocations", "=QQq"), 16: ("next_short_relocations", "=QQ"), 8: ("next_relative_words", "=Q")}

# A c_char_p borrows the bytes of a `bytes` object, which never change and are never at NULL.
_FILE = (ctypes.c_char_p, ctypes.c_size_t)
_ROOM = _OUT = (ctypes.c_void_p, ctypes.c_size_t)


def _to(kind: Any) -> Any:
    return ctypes.POINTER(kind)


_ASKED = (_to(_Listing), ctypes.c_size_t)
_TABLE = (*_FILE, _to(_Limits), _U16, *_ROOM, _to(_Rows), _to(_End))
_STEP = (*_FILE, _to(_Limits), _to(_U64), _to(_Rows), *_OUT, _to(_End))
_CALLS: Mapping[str, Tuple[Any, ...]] = {
    "version": (_U32,),
    "cause_word": (ctypes.c_size_t, _U32, *_OUT),
    "room": (_U64, *_FILE, _U16),
    "cost": (_U64, _U64, _to(_Limits)),
    "show": (_U32, *_FILE, _to(_Limits), _U16, *_ROOM, *_OUT, _to(_End)),
    "list": (_U32, *_FILE, _to(_Limits), *_ASKED, *_ROOM, *_OUT, _to(_End)),
    "list_names": (_U32, *_FILE, _to(_Limits), *_ASKED, _to(_Text), ctypes.c_size_t, *_ROOM, *_OUT, _to(_End)),
    "find": (_U32, *_FILE, _to(_Limits), *_ROOM, *_FILE, _to(_Found), _to(_End)),
    "look_up": (_U32, *_FILE, _to(_Limits), _U32, *_FILE, *_FILE, *_ROOM, _to(_Resolved), _to(_End)),
    "apply_lent": (_U32, *_FILE, _to(_Limits), _U16, _to(_Layout), *_ROOM, *_OUT, _to(_Missing), _to(_End)),
    "image": (_U32, *_FILE, _to(_Limits), _U16, _to(_ImageItems), *_ROOM, *_OUT, *_OUT, _to(_End)),
    "next_lacking": (_U32, *_FILE, _to(_Limits), _to(_ImageItems), *_ROOM, _to(_U64), *_OUT, _to(_End)),
    "header": (_U32, *_FILE, _to(_Header), _to(_End)),
    "section": (_U32, *_FILE, _U16, _to(_Section), _to(_End)),
    "section_bytes": (_U32, *_FILE, _U16, _to(_Range), _to(_End)),
    "segment": (_U32, *_FILE, _U16, _to(_Segment), _to(_End)),
    "section_names": (_U32, *_FILE, _to(_Limits), *_ROOM, _to(_Range), _to(_End)),
    "symbols": (_U32, *_TABLE),
    "hashed_symbols": (_U32, *_FILE, _to(_Limits), _U32, *_ROOM, _to(_Rows), _to(_End)),
    "located_relocations": (_U32, *_FILE, _to(_Limits), _U32, *_ROOM, _to(_Rows), _to(_End)),
    "next_relocations": (ctypes.c_size_t, *_FILE, _to(_Rows), *_OUT),
    "next_short_relocations": (ctypes.c_size_t, *_FILE, _to(_Rows), *_OUT),
    "next_relative_words": (ctypes.c_size_t, *_FILE, _to(_Rows), *_OUT),
    "relocations": (_U32, *_TABLE),
    "version_words": (_U32, *_TABLE),
    "version_records": (_U32, *_FILE, _to(_Limits), _U16, *_ROOM, _to(_VersionRecords), _to(_End)),
    "next_version_record": (_U32, *_FILE, _to(_VersionRecords), _to(_VersionRecord), _to(_End)),
    "dynamic_within": (_U32, *_FILE, _to(_Limits), _U16, *_ROOM, _to(_U64), _to(_Rows), _to(_End)),
    "next_symbols_within": (ctypes.c_size_t, *_STEP),
    "next_relocations_within": (ctypes.c_size_t, *_STEP),
    "next_dynamic_within": (ctypes.c_size_t, *_STEP),
    "next_version_words_within": (ctypes.c_size_t, *_STEP),
    "name": (_U32, *_FILE, _to(_Range), _U64, _to(_Range), _to(_End)),
    "notes": (_U32, *_FILE, _U16, _to(_Notes), _to(_End)),
    "segment_notes": (_U32, *_FILE, _U16, _to(_Notes), _to(_End)),
    "segment_dynamic_within": (_U32, *_FILE, _to(_Limits), _U16, _to(_U64), _to(_Rows), _to(_End)),
    "mapped": (_U32, *_FILE, _U64, _U64, _to(_Range), _to(_End)),
    "next_note": (_U32, *_FILE, _to(_Notes), _to(_Note), _to(_End)),
    "members": (_U32, *_FILE, _to(_Members), _to(_End)),
    "next_member": (_U32, *_FILE, _to(_Members), _to(_Member), _to(_End)),
}


def _places() -> Iterator[str]:
    """The paths where the library may be, in the order in which they are tried."""
    if os.environ.get("ELFSEE_LIBRARY"):
        yield os.environ["ELFSEE_LIBRARY"]
        return
    here = os.path.dirname(os.path.abspath(__file__))
    # In the repository this is library/python/elfsee.
    library = os.path.dirname(os.path.dirname(here))
    is_there = os.path.exists(os.path.join(library, "elfsee.h"))
    for folder in (here, os.path.join(library, "out")) if is_there else (here,):
        for name in ("libelfsee.so.0", "libelfsee.so"):
            yield os.path.join(folder, name)
    yield "libelfsee.so.0"
    found = ctypes.util.find_library("elfsee")
    if found:
        yield found


def _loaded() -> ctypes.CDLL:
    """The library, with the types of its calls."""
    sought: List[str] = []
    for place in _places():
        if os.path.isabs(place) and not os.path.exists(place):
            sought.append(place + ": is not there")
            continue
        try:
            library = ctypes.CDLL(place)
            break
        except OSError as error:
            sought.append(str(error))
    else:
        raise ImportError("the library elfsee is not found; sought: " + "; ".join(sought))
    for name, (result, *arguments) in _CALLS.items():
        call = getattr(library, "elfsee_" + name)
        call.restype, call.argtypes = result, arguments
    return library


_library = _loaded()
# The library's version: its three numbers.
VERSION: Tuple[int, ...] = tuple(_library.elfsee_version() >> bits & 255 for bits in (16, 8, 0))
if VERSION[0] != 0:
    raise ImportError("the library elfsee has version %d.%d.%d, this module is for 0" % VERSION)


# ---------------------------------------------------------------------------
# How a name is escaped.

def _encoded(name: Name) -> bytes:
    """Returns the bytes of a name. bytes() would also accept a number, or a list of numbers: neither is a name."""
    if isinstance(name, str):
        return name.encode("utf-8", "surrogateescape")
    if isinstance(name, (bytes, bytearray, memoryview)):
        return bytes(name)
    raise TypeError("a name is a str or bytes, and not %s" % type(name).__name__)


def spelt(name: Name) -> str:
    """Returns a name escaped as in a listing: a backslash is doubled, and a byte that is not a printable ASCII
    character is \\x and two hexadecimal digits. So nothing of it acts on a terminal."""
    text = _encoded(name)
    return "".join("\\\\" if byte == 92 else chr(byte) if 32 <= byte < 127 else "\\x%02x" % byte for byte in text)


# ---------------------------------------------------------------------------
# What is raised.

def word_of(cause: int) -> str:
    """Returns the word of a cause, as in a listing's last line; empty for a number that is not a cause."""
    out = ctypes.create_string_buffer(32)
    length: int = _library.elfsee_cause_word(_within("cause", cause, 0, (1 << 32) - 1), out, len(out))
    return ctypes.string_at(out, length).decode("ascii")


class Refused(Exception):
    """The file is malformed, or the read budget is exhausted: `cause` says why, `word` the same as
    a word ("table-outside"), `offset` where in the file."""

    def __init__(self, cause: int, offset: int) -> None:
        super().__init__(cause, offset)
        self.cause: int = Cause(cause) if cause in Cause.__members__.values() else cause
        self.offset: int = operator.index(offset)
        self.word: str = word_of(cause)

    def __str__(self) -> str:
        return "%s at 0x%x" % (self.word or "cause %d" % self.cause, self.offset)


class Missing(NamedTuple):
    """What a layout lacks: the relocation type of the entry that was refused, and the name of its symbol, or the
    first 255 bytes of it if `is_cut` says that it has more. One of the items in `helpful` would help:
    "sections", for the section of index `section`, or a field of `Layout` for that name. No item can have an empty
    name, or one that is cut."""

    helpful: Tuple[str, ...]
    section: Optional[int]
    relocation: int
    name: bytes
    is_cut: bool


class Unapplied(Refused):
    """A section is refused, as for `Refused`; `missing` is what its layout lacks, or None if no address would
    help, or the budget is too small to find that out."""

    def __init__(self, cause: int, offset: int, missing: Optional[Missing] = None) -> None:
        super().__init__(cause, offset)
        self.missing: Optional[Missing] = missing


class Full(Exception):
    """An answer is longer than was allowed."""


class Absent(LookupError):
    """The file has no such section or segment, or that one holds no such rows."""


# ---------------------------------------------------------------------------
# Results. Fields have the standard's names (gABI, Object Files). `index` is a field if there is one,
# and not the method of a tuple.

class Header(NamedTuple):
    """The file header."""

    type: int
    machine: int
    version: int
    entry: int
    phoff: int
    shoff: int
    flags: int
    ehsize: int
    phentsize: int
    phnum: int
    shentsize: int
    shnum: int
    shstrndx: int
    ident: bytes


class Section(NamedTuple):
    """A section header. `offset` and `size` are as in the file, and may be outside it."""

    index: int  # type: ignore[assignment]
    name: bytes
    type: int
    flags: int
    addr: int
    offset: int
    size: int
    link: int
    info: int
    addralign: int
    entsize: int


class Segment(NamedTuple):
    """A program header. `offset` and `filesz` are as in the file, and may be outside it."""

    index: int  # type: ignore[assignment]
    type: int
    flags: int
    offset: int
    vaddr: int
    paddr: int
    filesz: int
    memsz: int
    align: int


class Symbol(NamedTuple):
    """A symbol: `section` is where it is defined (st_shndx), `index` its own place in `table`, its
    section of symbols."""

    name: bytes
    value: int
    size: int
    section: int
    info: int
    other: int
    table: int
    index: int  # type: ignore[assignment]

    @property
    def type(self) -> int:
        """Its type, such as STT_FUNC: the low four bits of st_info."""
        return self.info & 15

    @property
    def binding(self) -> int:
        """Its binding, such as STB_GLOBAL: the high four bits of st_info."""
        return self.info >> 4

    @property
    def visibility(self) -> int:
        """Its visibility, such as STV_HIDDEN: the low two bits of st_other."""
        return self.other & 3


class Relocation(NamedTuple):
    """A relocation entry, with the name of its symbol, which is empty for symbol 0. `index` is its
    place in `table`, a section."""

    offset: int
    type: int
    symbol: int
    addend: int
    name: bytes
    table: int
    index: int  # type: ignore[assignment]


class Note(NamedTuple):
    """A note: its name up to the first NUL, and its descriptor. `namesz` and
    `descsz` are the sizes in the file, that of the name with its NUL. `table` is its section,
    or its segment if the file has no sections."""

    name: bytes
    type: int
    desc: bytes
    namesz: int
    descsz: int
    table: int


class Dynamic(NamedTuple):
    """A dynamic entry. `string` is what NEEDED, SONAME, RPATH and RUNPATH name, otherwise None. `index`
    is its place in `table`, a section, or a segment if the file has no sections."""

    tag: int
    value: int
    string: Optional[bytes]
    table: int
    index: int  # type: ignore[assignment]


class Version(NamedTuple):
    """A version that the file defines, a file of which it needs versions, or a version that it needs of the
    preceding file: `kind` is 1, 2 or 3. `number` is below 32,768, and `is_hidden` its highest bit; for a file the
    number is 0, as are its flags and its hash. `table` is its section."""

    name: bytes
    kind: int
    number: int
    is_hidden: bool
    flags: int
    hash: int
    table: int


class VersionOfSymbol(NamedTuple):
    """The version of a symbol: its number, below 32,768, and its name, which is empty for 0 and 1. `is_hidden` says
    that a name alone does not find the symbol. `table` is the section of symbol versions, `symbols` that of the
    symbols, and `index` the symbol's there."""

    name: bytes
    number: int
    is_hidden: bool
    table: int
    symbols: int
    index: int  # type: ignore[assignment]


class Member(NamedTuple):
    """A member of an archive. `at` is the offset of its header, `offset` that of its data, and `content`
    are these bytes of the archive, not copied: `File(member.content)` is the file that they are. If the
    name is at the beginning of the data, as BSD's `ar` writes it, they begin after it. `is_cut` says that
    its name has more bytes than the 4,096 of `name`."""

    name: bytes
    at: int
    offset: int
    size: int
    is_cut: bool
    content: memoryview


class Lookup(NamedTuple):
    """The result of a lookup: the symbol, or None; and how many names were compared."""

    symbol: Optional[Symbol]
    steps: int


class SymbolVersion(NamedTuple):
    """The version of a symbol: its name, or the first 256 bytes of it if `is_cut` says that it has
    more; empty if its number is 0 or 1. `is_hidden` says that a name alone does not find it.
    `table` is the section of symbol versions, or in a lookup by segments a program header."""

    name: bytes
    number: int
    is_hidden: bool
    is_cut: bool
    table: int


class Resolved(NamedTuple):
    """The result of a loader's lookup: the symbol, or None; its version, or None if the file has no
    versions of symbols; and how many symbols were tried."""

    symbol: Optional[Symbol]
    version: Optional[SymbolVersion]
    tried: int


class Listing(NamedTuple):
    """A listing: its lines; the refusal in its last line, or None; and how many bytes of the
    file were read."""

    text: str
    refused: Optional[Refused]
    asked: int


# Flags of a loader's lookup and of a listing.
_BY_SEGMENTS, _DEFAULT_ONLY, _GNU, _JSON, _NAME_VERSIONS = 1, 2, 4, 8, 16

_NOTHING: Mapping[Any, int] = types.MappingProxyType({})


class Layout(NamedTuple):
    """Addresses for `File.apply`: of sections by their index; by the symbol's name, of symbols that
    the file does not define, and of symbols' entries: in the procedure linkage table, in the global
    offset table, and, for their offsets from the thread pointer, in the global offset table. Any number of
    them; names have 1 to 255 bytes."""

    sections: Mapping[int, int] = _NOTHING
    define: Named = _NOTHING
    entries: Named = _NOTHING
    table: Named = _NOTHING
    thread: Named = _NOTHING


class ImageItems(NamedTuple):
    """What the image of a segment depends on besides the file. Symbols are indexes of the dynamic symbols; those of
    `modules`, `values` and `offsets` may be 0, for the object itself."""

    # The load address: an address in memory less that in the file.
    base: int = 0
    # The address that a symbol is bound to, and the same for calls, if that is another.
    symbols: Mapping[int, int] = _NOTHING
    calls: Mapping[int, int] = _NOTHING
    # Of the object that a symbol is bound in its module id, the symbol's value there, and the symbol's offset from the
    # thread pointer.
    modules: Mapping[int, int] = _NOTHING
    values: Mapping[int, int] = _NOTHING
    offsets: Mapping[int, int] = _NOTHING
    # What the resolver at an address of the file answers.
    resolvers: Mapping[int, int] = _NOTHING
    # The bytes of the object that a copied symbol is bound to.
    copies: Mapping[int, bytes] = types.MappingProxyType({})
    # The first word of a static TLS descriptor.
    descriptor: Optional[int] = None
    # Whether an entry that lacks an item changes nothing, and a symbol that another object may define lacks its item
    # also if it is weak, or defined here; otherwise the image is refused.
    partial: bool = False


class Lacking(NamedTuple):
    """A relocation entry that lacks an item: `cause` is UNDEFINED for one of its symbol, UNPLACED for one of the
    file."""

    offset: int
    address: int
    type: int
    symbol: int
    cause: Cause


class Located(NamedTuple):
    """A relocation that dynamic entries locate, in the table RELR, REL, RELA or JMPREL. One of RELR has no type, no
    symbol and no addend, and one of REL no addend."""

    table: int
    offset: int
    type: Optional[int]
    symbol: int
    addend: Optional[int]


# ---------------------------------------------------------------------------
# Checks that are made here, since C would cut a number or take bytes as they are.

def _within(what: str, number: int, least: int, most: int) -> int:
    """Returns a number in its range. What is not an integer, such as a float or a str, raises TypeError."""
    whole = operator.index(number)
    if not least <= whole <= most:
        raise ValueError("%s is %d, and not %d to %d" % (what, whole, least, most))
    return whole


def _flags_of(**flags: Tuple[bool, int]) -> int:
    """Returns the sum of the flags that are on. On is True, or 1."""
    return sum(flag * _within(what, on, 0, 1) for what, (on, flag) in flags.items())


def _name_bytes(name: Name, most: int) -> bytes:
    text = _encoded(name)
    if len(text) > most or b"\0" in text:
        raise ValueError("a name has at most %d bytes, and no NUL" % most)
    return text


def _content(source: Source) -> bytes:
    """Returns the bytes of a path, or of a buffer."""
    if isinstance(source, (str, os.PathLike)):
        return _read(source)
    if type(source) is bytes:
        return source
    view = memoryview(source)
    if isinstance(view.obj, (bytes, bytearray, array)):
        return bytes(view)
    if not view.c_contiguous:
        raise BufferError("a buffer that is no bytes, bytearray or array lies in one piece")
    return _copied(pickle.PickleBuffer(view).raw())


def _regular(path: Union[str, "os.PathLike[str]"], mode: int) -> None:
    """Raises OSError if a mode is not a regular file's."""
    if stat.S_ISDIR(mode):
        raise IsADirectoryError(errno.EISDIR, os.strerror(errno.EISDIR), os.fspath(path))
    if not stat.S_ISREG(mode):
        raise OSError(errno.EINVAL, "Not a regular file", os.fspath(path))


def _read(path: Union[str, "os.PathLike[str]"]) -> bytes:
    """Returns the bytes of a regular file. Nothing else is opened, as opening a device may do something; if a pipe or a
    device replaces the file between the two calls, opening it does not wait, and none of it is read."""
    _regular(path, os.stat(path).st_mode)
    opened = os.open(path, os.O_RDONLY | os.O_CLOEXEC | os.O_NONBLOCK | os.O_NOCTTY)
    with open(opened, "rb") as file:
        _regular(path, os.fstat(opened).st_mode)
        content: Optional[bytes] = file.read()
    if content is None:
        raise BlockingIOError(errno.EAGAIN, os.strerror(errno.EAGAIN), os.fspath(path))
    return content


def _copied(content: memoryview) -> bytes:
    """Returns the bytes of a buffer that may be a mapped file. The kernel copies them, through a pipe: if the file is
    truncated meanwhile, the call fails, and the process does not end."""
    parts, done = [], 0
    source, sink = os.pipe()
    try:
        os.set_blocking(sink, False)
        while done < len(content):
            count = os.write(sink, content[done:done + 65536])
            parts.append(os.read(source, count))
            done += count
    except OSError as fault:
        if fault.errno != errno.EFAULT:
            raise
        raise OSError(errno.EFAULT, "The mapped file was cut short") from None
    finally:
        os.close(source)
        os.close(sink)
    return b"".join(parts)


def _limits_of(headers: int, name_cap: int, budget: Optional[int]) -> Any:
    most = 0 if budget is None else _within("budget", budget, 0, MOST_NUMBER)
    return _Limits(_within("headers", headers, 1, MOST_HEADERS), _within("name_cap", name_cap, 1, MOST_NAME),
                   budget is not None, most)


def _texts_of(names: Iterable[Name]) -> Tuple[Any, int]:
    """Names as the library borrows them: in ascending byte order. One name is not a list of its characters."""
    if isinstance(names, (str, bytes, bytearray, memoryview)):
        raise TypeError("names is a list of names, and not one of them")
    texts = [(text, len(text)) for text in sorted({_name_bytes(name, MOST_NAME) for name in names})]
    return (_Text * max(1, len(texts)))(*(texts or [(b"", 0)])), len(texts)


def _layout_of(layout: Layout) -> Any:
    """A layout as the library borrows it: each list in ascending order."""
    if not isinstance(layout, Layout) or not all(isinstance(each, abc.Mapping) for each in layout):
        raise TypeError("a layout is a Layout of mappings")
    numbers = sorted((_within("a section", index, 0, 65535), _within("an address", address, 0, MOST_NUMBER))
                     for index, address in layout.sections.items())
    lists: List[Any] = [(_LentSection * max(1, len(numbers)))(*numbers), len(numbers)]
    named: Sequence[Named] = (layout.define, layout.entries, layout.table, layout.thread)
    for addresses in named:
        names = sorted((_name_bytes(name, 255), _within("an address", address, 0, MOST_NUMBER))
                       for name, address in addresses.items())
        rows = [(name, len(name), address) for name, address in names]
        lists += [(_LentName * max(1, len(rows)))(*rows), len(rows)]
    return _Layout(*lists)


# The fields of a layout, in the order of the bits of what would help.
_SORTS = ("sections", "define", "entries", "table", "thread")


def _image_items_of(items: ImageItems) -> Any:
    """Returns the items in the form of C. Raises ValueError for a number outside its range."""
    fixed = [(0, 0, items.base)] + ([] if items.descriptor is None else [(1, 0, items.descriptor)])
    kinds = (items.symbols, items.calls, items.modules, items.values, items.offsets, items.resolvers)
    numbers = fixed + [(kind, key, given[key]) for kind, given in enumerate(kinds, 2) for key in sorted(given)]
    for _, *each in numbers:
        for number in each:
            _within("a number of an item", number, 0, MOST_NUMBER)
    copies = [(_within("a symbol", index, 0, (1 << 32) - 1), 0, content, len(content))
              for index, content in sorted(items.copies.items())]
    return _ImageItems((_ImageItem * len(numbers))(*numbers), len(numbers), (_Copied * len(copies))(*copies), len(copies),
                       items.partial, 0)


def _relative_addresses(words: Iterable[int], at: int) -> Iterator[int]:
    """Returns the addresses of the relative relocations that words at an offset of the file say (gABI, Relative
    Relocation Table)."""
    following: Optional[int] = None
    for word in words:
        if word % 2 == 0:
            addresses, following = [word], word + 8
        elif following is None:
            raise Refused(Cause.RELR, at)
        else:
            addresses = [following + 8 * bit for bit in range(63) if word >> (bit + 1) & 1]
            following += 504
        for address in addresses:
            if address > MOST_NUMBER - 7:
                raise Refused(Cause.RELR, at)
            yield address
        at += 8


def _missing_of(told: Any) -> Optional[Missing]:
    """Returns what a layout lacks, or None if no address would help."""
    if not told.helpful:
        return None
    helpful = tuple(sort for bit, sort in enumerate(_SORTS) if told.helpful >> bit & 1)
    return Missing(helpful, told.section if told.helpful == 1 else None, told.relocation,
                   bytes(told.name[:told.name_len]), told.is_cut != 0)


def _always(strings: Places) -> Callable[[int], Places]:
    """Returns a function that gives one string table for the entry at any offset."""
    def told(_: int) -> Places:
        return strings
    return told


class _Asked:
    """Counts the bytes of the file that one call of a File reads, over all tables that it reads."""

    def __init__(self, budget: Optional[int]) -> None:
        self.count = _U64(0)
        self.most = MOST_NUMBER if budget is None else budget

    def left(self) -> int:
        """Returns how many bytes may still be read."""
        return self.most - int(self.count.value)

    def leave(self, left: int) -> None:
        """Sets how many bytes may still be read."""
        self.count.value = self.most - left

    def take(self, size: int, at: int) -> None:
        """Counts bytes that are read for what is at an offset of the file."""
        left = self.left() - size
        if left < 0:
            raise Refused(Cause.BUDGET, at)
        self.leave(left)


class File:
    """A file in memory, and its limits.

    `source` is a path (str or os.PathLike), or the file's bytes. `headers` is the maximum number of section
    headers, and of program headers: 1 to 65,279. `budget` is how many bytes each
    call may read, such as a listing, a lookup, an applied section, or all rows of one iterator: any number
    if it is None. For rows their own bytes count, those of their headers and of their names.
    `longest_name` is how long a name of a row may be: names in rows are never cut, and one that is
    longer raises Full.

    Every call except `close` raises Refused if the file is malformed or the budget is exhausted,
    ValueError if an argument is outside its range or the file is closed, and TypeError if it has another
    type. A path that is not a regular file raises OSError. Rows are given up to the fault, and then it is
    raised: at the same place and for the same cause as in a listing of that
    part that shows all names whole. A listing that cuts a name reads no further: if such a name
    does not end in its string table, the listing continues, and here the fault is raised.
    """

    def __init__(self, source: Source, *,
                 headers: int = DEFAULT_HEADERS, budget: Optional[int] = None,
                 longest_name: int = 65536) -> None:
        self._limits = _limits_of(headers, DEFAULT_NAME, budget)
        self._headers: int = self._limits.headers
        self._budget: Optional[int] = None if budget is None else self._limits.budget
        self._longest = _within("longest_name", longest_name, 1, 1 << 62)
        self._content: Optional[bytes] = _content(source)
        self._room: int = _library.elfsee_room(self._content, len(self._content), self._headers)
        self._sections: Optional[Sequence[Numbers]] = None
        self._shared: Any = None

    def __enter__(self) -> "File":
        return self

    def __exit__(self, *_: object) -> None:
        self.close()

    def close(self) -> None:
        """Releases the file's bytes. A second call does nothing."""
        self._content, self._sections, self._shared = None, None, None

    # -----------------------------------------------------------------------
    # Calls of the library.

    @property
    def data(self) -> bytes:
        """Returns the file's bytes."""
        if self._content is None:
            raise ValueError("the file is closed")
        return self._content

    def _lent(self) -> Tuple[Any, int]:
        """Returns room for one call: threads that share a file share no room."""
        return ctypes.create_string_buffer(self._room), self._room

    def _unwritten(self) -> Tuple[Any, int]:
        """Returns room for the calls that write nothing to it, which open rows: it is the same for all."""
        if self._shared is None:
            self._shared = ctypes.create_string_buffer(self._room)
        return self._shared, self._room

    def _call(self, name: str, *arguments: Any) -> Tuple[int, Any]:
        """Returns the status of a call, OK or ABSENT or FULL, and how it ended."""
        data, end = self.data, _End()
        status = getattr(_library, "elfsee_" + name)(data, len(data), *arguments, end)
        if status == _REFUSED:
            raise Refused(end.cause, end.at)
        if status == _BAD_CALL:
            raise ValueError("elfsee_%s takes no such arguments" % name)
        return status, end

    # -----------------------------------------------------------------------
    # Listings, lookups, applied sections.

    def cost(self, name_cap: int = DEFAULT_NAME) -> int:
        """Returns how many bytes a listing of a file of this length reads at most, for any bytes."""
        cost: int = _library.elfsee_cost(len(self.data), _limits_of(self._headers, name_cap, self._budget))
        return cost

    def show(self, parts: Optional[int] = None, name_cap: int = DEFAULT_NAME, most: int = 1 << 30, *,
             gnu: bool = False, by_segments: bool = False, json: bool = False, versions: bool = False,
             names: Optional[Iterable[Name]] = None) -> Listing:
        """Lists some parts, or all, with `name_cap` bytes of a name. The listing is what the program elfsee
        prints, byte for byte, and a refusal is its last line: this does not raise Refused. `gnu`, `by_segments`,
        `json` and `versions` are the program's options of these names: numbers defined by GNU have names,
        and the symbol versions are a part; tables are found by the program headers; each line is a JSON
        object; with `gnu`, a symbol's version follows its name. With `names` only those rows are
        listed, of the symbols or of the part that is one of SYMBOLS, RELOCS and VERSIONS, whose name is one
        of them: as many bytes of a name are compared as the longest of them has, and with `versions`, when
        each may be NAME@VERSION or NAME@@VERSION, at least `name_cap`. Full is raised if the listing has more
        than `most` bytes. If the memory does not suffice, it is made four times as large and the listing begins
        anew."""
        flags = _flags_of(by_segments=(by_segments, _BY_SEGMENTS), gnu=(gnu, _GNU), json=(json, _JSON),
                          versions=(versions, _NAME_VERSIONS))
        chosen = None if names is None else _texts_of(names)
        if parts is None:
            parts = SYMBOLS if chosen else ALL + VERSIONS if gnu else ALL
        limits = _limits_of(self._headers, name_cap, self._budget)
        listing, end = _Listing(_within("parts", parts, 0, 65535), flags), _End()
        most = _within("most", most, 0, 1 << 62)
        length = min(most, (1 << 16) + len(self.data) // 4)
        while True:
            out = ctypes.create_string_buffer(max(length, 1))
            status = self._listed(limits, listing, chosen, out, length, end)
            if status != _FULL:
                break
            if length == most:
                raise Full("the listing has more than %d bytes" % most)
            length = min(most, 4 * length)
        if status == _BAD_CALL:
            raise ValueError("a listing takes no such arguments")
        refused = Refused(end.cause, end.at) if status == _REFUSED else None
        return Listing(ctypes.string_at(out, end.written).decode("ascii"), refused, end.asked)

    def _listed(self, limits: Any, listing: Any, chosen: Optional[Tuple[Any, int]], out: Any, length: int,
                end: Any) -> int:
        """Writes a listing into `out` and returns the status."""
        data, lent, asked = self.data, (*self._lent(), out, length, end), (listing, ctypes.sizeof(listing))
        status: int
        if chosen:
            status = _library.elfsee_list_names(data, len(data), limits, *asked, *chosen, *lent)
        elif listing.flags:
            status = _library.elfsee_list(data, len(data), limits, *asked, *lent)
        else:
            status = _library.elfsee_show(data, len(data), limits, listing.parts, *lent)
        return status

    def text(self, parts: Optional[int] = None, name_cap: int = DEFAULT_NAME, most: int = 1 << 30, *,
             gnu: bool = False, by_segments: bool = False, json: bool = False, versions: bool = False,
             names: Optional[Iterable[Name]] = None) -> str:
        """Returns the text of `show`."""
        return self.show(parts, name_cap, most, gnu=gnu, by_segments=by_segments, json=json, versions=versions,
                         names=names).text

    def find(self, name: Name) -> Lookup:
        """Looks up a name in the file's own SysV hash table: returns the first symbol of that name in its
        chain, with any version and place. A name has at most 4,096 bytes and no NUL."""
        text, found = _name_bytes(name, MOST_NAME), _Found()
        status, _ = self._call("find", self._limits, *self._lent(), text, len(text), found)
        if status == _ABSENT:
            return Lookup(None, found.steps)
        row = found.symbol
        return Lookup(Symbol(text, row.value, row.size, row.section, row.info, row.other,
                             found.section, found.index), found.steps)

    def look_up(self, name: Name, version: Optional[Name] = None, *, default_only: bool = False,
                by_segments: bool = False) -> Resolved:
        """Looks up a name as glibc's dynamic loader does, alone or with a version: returns the first symbol of
        the name's chain, in the file's GNU hash table or otherwise in its SysV one, that has the name, is
        exported and whose version matches. Without a version a symbol is found that is not
        hidden; with `default_only` the version must be the symbol's default one. `by_segments` uses
        the program headers even if there are section headers. Name and version have at most 4,096
        bytes and no NUL, and the version is not empty."""
        text, wanted = _name_bytes(name, MOST_NAME), _name_bytes(b"" if version is None else version, MOST_NAME)
        if version is not None and not wanted:
            raise ValueError("a version has a byte; None asks for no version")
        found, flags = _Resolved(), _flags_of(by_segments=(by_segments, _BY_SEGMENTS),
                                              default_only=(default_only, _DEFAULT_ONLY))
        status, _ = self._call("look_up", self._limits, flags, text, len(text), wanted, len(wanted),
                               *self._lent(), found)
        if status == _ABSENT:
            return Resolved(None, None, found.tried)
        row, at = found.symbol, found.version.at
        symbol = Symbol(text, row.value, row.size, row.section, row.info, row.other, found.section,
                        found.index)
        if not found.has_version:
            return Resolved(symbol, None, found.tried)
        told = wanted or self.data[at:at + found.version.len]
        return Resolved(symbol, SymbolVersion(told, found.number, found.is_hidden != 0, found.is_cut != 0,
                                              found.words), found.tried)

    def apply(self, section: int, layout: Layout = Layout()) -> bytes:
        """Returns the bytes of a section of a relocatable file for x86-64, with its relocations applied for
        these addresses. Raises Unapplied if it is refused, with what the layout lacks; ValueError
        if a name or a number of the layout is outside its range, or two names are the same."""
        lent, missing, section = _layout_of(layout), _Missing(), _within("section", section, 0, 65535)
        # A section that is longer than the file is refused, so this is room enough.
        length = self._size_in_file(section)
        out = ctypes.create_string_buffer(max(1, length))
        try:
            status, end = self._call("apply_lent", self._limits, section, lent, *self._lent(), out, length, missing)
        except Refused as refused:
            raise Unapplied(refused.cause, refused.offset, _missing_of(missing)) from None
        if status == _FULL:
            raise Full("the section has more than %d bytes" % length)
        return ctypes.string_at(out, end.written)

    def image(self, segment: int, items: ImageItems = ImageItems(), *, most: int = 1 << 30,
              window: int = 1 << 20) -> bytes:
        """Returns the bytes of a LOAD segment of an executable or a shared object for x86-64 as a loader leaves them.
        Raises Refused if an entry lacks an item, unless the items are partial; Full if there are more than `most`;
        ValueError if a number of the items is outside its range. It takes `window` bytes of memory besides; with less
        than the segment has, the entries are read more than once."""
        given, segment = _image_items_of(items), _within("segment", segment, 0, 65535)
        length = min(self._size_in_memory(segment), _within("most", most, 0, 1 << 62))
        space = max(16, min(length, _within("window", window, 16, 1 << 62)))
        out, part = ctypes.create_string_buffer(max(1, length)), ctypes.create_string_buffer(space)
        status, end = self._call("image", self._limits, segment, given, *self._lent(), part, space, out, length)
        if status == _FULL:
            raise Full("the segment has more than %d bytes" % length)
        return ctypes.string_at(out, end.written)

    def _size_in_memory(self, segment: int) -> int:
        """Returns how many bytes a segment has in memory by its program header, which is not checked; 0 if it is
        outside the file, which image reports."""
        header = _Header()
        self._call("header", header)
        at = header.phoff + 56 * segment + 40
        return int.from_bytes(self.data[at:at + 8], "little") if at < len(self.data) else 0

    def lacking(self, items: ImageItems = ImageItems()) -> Iterator[Lacking]:
        """Returns the relocation entries that lack an item, in the order in which a loader applies them. All entries
        are read for each BATCH of them."""
        given, index = _image_items_of(items), _U64(0)
        size = struct.calcsize(_LACKING_FORM)
        out = ctypes.create_string_buffer(size * BATCH)
        while True:
            before = int(index.value)
            status, _ = self._call("next_lacking", self._limits, given, *self._lent(), index, out, BATCH)
            if status == _ABSENT:
                return
            rows = ctypes.string_at(out, size * (int(index.value) - before))
            for at, place, kind, symbol, cause, _ in struct.iter_unpack(_LACKING_FORM, rows):
                yield Lacking(at, place, kind, symbol, Cause(cause))

    def _size_in_file(self, section: int) -> int:
        """Returns how many bytes of the file a section has; none if it is refused, which apply reports."""
        row = _Section()
        try:
            status, _ = self._call("section", section, row)
        except Refused:
            return 0
        size: int = row.size
        return min(size, len(self.data)) if status == _OK and row.type != SHT_NOBITS else 0

    # -----------------------------------------------------------------------
    # Headers.

    @property
    def header(self) -> Header:
        """Returns the file header."""
        row = _Header()
        self._call("header", row)
        return Header(row.type, row.machine, row.version, row.entry, row.phoff, row.shoff, row.flags,
                      row.ehsize, row.phentsize, row.phnum, row.shentsize, row.shnum, row.shstrndx,
                      bytes(row.ident))

    def _names_of_sections(self) -> Places:
        """Returns where the string table of the section names is; it has no bytes if there is none. This
        runs the checks with which every listing of headers begins."""
        names = _Range()
        status, _ = self._call("section_names", self._limits, *self._unwritten(), names)
        return (0, 0) if status == _ABSENT else (names.at, names.at + names.len)

    def _section_rows(self, asked: _Asked) -> Sequence[Numbers]:
        """Returns all section headers, as numbers in the order of `Section` after its name; the place in the
        string table of the names is the first."""
        if self._sections is None:
            self._names_of_sections()
        header = self.header
        asked.take(64 * header.shnum, header.shoff)
        if self._sections is None:
            row = _Section()
            rows: List[Numbers] = []
            for index in range(header.shnum):
                self._call("section", index, row)
                rows.append((row.name, row.type, row.flags, row.addr, row.offset, row.size, row.link,
                             row.info, row.addralign, row.entsize))
            self._sections = tuple(rows)
        return self._sections

    def sections(self) -> Iterator[Section]:
        """Returns the section headers in their order, including section 0."""
        strings, header, asked = self._names_of_sections(), self.header, _Asked(self._budget)
        for index, (name, *numbers) in enumerate(self._section_rows(asked)):
            place = header.shoff + 64 * index
            text = self._name(strings, name, place) if header.shstrndx else b""
            asked.take(len(text) + 1, place)
            yield Section(index, text, *numbers)

    def content(self, section: int) -> Optional[bytes]:
        """Returns the bytes of a section; None if its type is NOBITS or NULL, which has no bytes in the
        file. Raises Absent if the file has no such section."""
        found, section = _Range(), _within("section", section, 0, 65535)
        status, _ = self._call("section_bytes", section, found)
        if status == _OK:
            _Asked(self._budget).take(found.len, found.at)
            return self.data[found.at:found.at + found.len]
        if section >= self.header.shnum:
            raise Absent("there is no section %d" % section)
        return None

    def segments(self) -> Iterator[Segment]:
        """Returns the program headers in their order."""
        self._names_of_sections()
        row, header, asked = _Segment(), self.header, _Asked(self._budget)
        for index in range(header.phnum):
            asked.take(56, header.phoff + 56 * index)
            self._call("segment", index, row)
            yield Segment(index, row.type, row.flags, row.offset, row.vaddr, row.paddr, row.filesz,
                          row.memsz, row.align)

    # -----------------------------------------------------------------------
    # Tables.

    def _tables(self, section: Optional[int], kinds: Sequence[int], asked: _Asked) -> Sequence[int]:
        """Returns the requested section, or all sections of some types."""
        if section is not None:
            return [_within("section", section, 0, 65535)]
        return [index for index, row in enumerate(self._section_rows(asked)) if row[1] in kinds]

    def _opened(self, call: str, table: int, *counts: Any) -> Any:
        """Returns a table's rows, after its checks."""
        rows = _Rows()
        status, _ = self._call(call, self._limits, table, *self._unwritten(), *counts, rows)
        if status == _ABSENT:
            raise Absent("%d holds no %s" % (table, call.split("_")[0]))
        return rows

    def _batches(self, call: str, rows: Any, form: str, asked: _Asked) -> Iterator[Iterator[Numbers]]:
        """Returns the rows that are left, in batches. Each must be used up before the next is requested."""
        data, end, size = self.data, _End(), struct.calcsize(form)
        step = getattr(_library, "elfsee_" + call + "_within")
        most = max(1, min(BATCH, rows.count))
        out = ctypes.create_string_buffer(size * most)
        count = most
        while count == most:
            count = step(data, len(data), self._limits, asked.count, rows, out, most, end)
            # Over a memoryview the interpreter could crash, when an exception that holds this frame is collected.
            yield struct.iter_unpack(form, ctypes.string_at(out, size * count))
        if end.cause:
            raise Refused(end.cause, end.at)

    def _name(self, strings: Places, offset: int, entry: int) -> bytes:
        """Returns the name at an offset of the string table from the first of two places to the other, which
        the library gave; a fault is that of the entry at `entry`."""
        start, (first, last) = strings[0] + offset, strings
        end = self.data.find(0, start, min(last, start + self._longest + 1))
        if end >= 0:
            return self.data[start:end]
        name = _Range()
        try:
            self._call("name", _Range(first, last - first), offset, name)
        except Refused as refused:
            raise Refused(refused.cause, entry) from None
        if name.len > self._longest:
            raise Full("a name has more than %d bytes" % self._longest)
        return self.data[name.at:name.at + name.len]

    def symbols(self, section: Optional[int] = None) -> Iterator[Symbol]:
        """Returns the symbols of a section, or of all symbol tables in the order of the sections, including symbol
        0. Raises Absent if that section holds none."""
        asked = _Asked(self._budget)
        for table in self._tables(section, (SHT_SYMTAB, SHT_DYNSYM), asked):
            yield from self._symbols_of(table, asked)

    def _symbols_of(self, table: int, asked: _Asked) -> Iterator[Symbol]:
        yield from self._symbols_from(self._opened("symbols", table), table, asked)

    def _symbols_from(self, rows: Any, table: int, asked: _Asked) -> Iterator[Symbol]:
        data, find, longest = self.data, self.data.find, self._longest + 1
        make: Callable[..., Any] = tuple.__new__
        strings, at, index = (rows.strings_at, rows.strings_at + rows.strings_len), rows.at, 0
        first, last = strings
        for batch in self._batches("next_symbols", rows, _SYMBOL_FORM, asked):
            left = asked.left()
            for value, size, name, section, info, other in batch:
                # `_name`, without a call if all is well.
                start = first + name
                stop = start + longest
                end = find(0, start, stop if stop < last else last)
                text = data[start:end] if end >= 0 else self._name(strings, name, at + 24 * index)
                left -= len(text) + 1
                if left < 0:
                    raise Refused(Cause.BUDGET, at + 24 * index)
                yield make(Symbol, (text, value, size, section, info, other, table, index))
                index += 1
            asked.leave(left)

    def hashed_symbols(self, *, by_segments: bool = False) -> Iterator[Symbol]:
        """Returns the symbols of the file's hash table, among which a loader looks up names, including symbol 0:
        found as `look_up` finds them, so also in a file without section headers, and counted by the hash table.
        Their `table` is 0."""
        rows, asked = _Rows(), _Asked(self._budget)
        flags = _flags_of(by_segments=(by_segments, _BY_SEGMENTS))
        _, end = self._call("hashed_symbols", self._limits, flags, *self._lent(), rows)
        asked.take(end.asked, 0)
        yield from self._symbols_from(rows, 0, asked)

    def relocations(self, section: Optional[int] = None) -> Iterator[Relocation]:
        """Returns the relocation entries of a section, or of all RELA sections in their order. Raises Absent if that
        section holds none, also for one of type REL, whose entries are not read."""
        asked = _Asked(self._budget)
        for table in self._tables(section, (SHT_RELA,), asked):
            yield from self._relocations_of(table, asked)

    def _relocations_of(self, table: int, asked: _Asked) -> Iterator[Relocation]:
        rows = self._opened("relocations", table)
        # What an empty table links to is not read.
        if not rows.count:
            return
        at, index, name_of = rows.at, 0, self._symbol_names(table, asked)
        make: Callable[..., Any] = tuple.__new__
        for batch in self._batches("next_relocations", rows, _RELOCATION_FORM, asked):
            left = asked.left()
            for offset, info, addend in batch:
                symbol = info >> 32
                name = b""
                if symbol:
                    name = name_of(symbol, at + 24 * index)
                    left -= 24 + len(name) + 1
                    if left < 0:
                        raise Refused(Cause.BUDGET, at + 24 * index)
                yield make(Relocation, (offset, info & 0xffffffff, symbol, addend, name, table, index))
                index += 1
            asked.leave(left)

    def located_relocations(self, table: Optional[int] = None) -> Iterator[Located]:
        """Returns the relocations of a table, RELR, REL, RELA or JMPREL, that the dynamic entries locate, found by the
        program headers alone; or of all four, in the order in which a loader applies them. Their symbols are those of
        `hashed_symbols(by_segments=True)`."""
        for each in range(4) if table is None else (_within("table", table, 0, 3),):
            rows = _Rows()
            status, _ = self._call("located_relocations", self._limits, each, *self._lent(), rows)
            if status == _OK:
                yield from self._located_in(each, rows)

    def _located_in(self, table: int, rows: Any) -> Iterator[Located]:
        call, form = _LOCATED_FORMS[rows.entry]
        at, batches = rows.at, self._rows_of(call, rows, form)
        if rows.entry == 8:
            for address in _relative_addresses((word for (word,) in batches), at):
                yield Located(table, address, None, 0, None)
            return
        for offset, info, *addend in batches:
            yield Located(table, offset, info & 0xffffffff, info >> 32, addend[0] if addend else None)

    def _rows_of(self, call: str, rows: Any, form: str) -> Iterator[Numbers]:
        """Returns the rows that are left."""
        data, size, step = self.data, struct.calcsize(form), getattr(_library, "elfsee_" + call)
        out = ctypes.create_string_buffer(size * BATCH)
        while True:
            count = step(data, len(data), rows, out, BATCH)
            if not count:
                return
            yield from struct.iter_unpack(form, ctypes.string_at(out, size * count))

    def _symbol_names(self, table: int, asked: _Asked) -> Callable[[int, int], bytes]:
        """Returns a function that names the symbol of an index, for an entry at an offset, in a table of entries."""
        sections = self._sections if self._sections is not None else self._section_rows(asked)
        link = sections[table][6]
        symbols: Any = None
        if link < len(sections) and sections[link][1] in (SHT_SYMTAB, SHT_DYNSYM):
            symbols = self._opened("symbols", link)
        unpack, content = struct.Struct("<I").unpack_from, self.data
        strings = (symbols.strings_at, symbols.strings_at + symbols.strings_len) if symbols else (0, 0)

        def name_of(symbol: int, entry: int) -> bytes:
            if symbols is None:
                raise Refused(Cause.BAD_LINK, entry)
            if symbol >= symbols.count:
                raise Refused(Cause.SYMBOL_INDEX, entry)
            at = symbols.at + 24 * symbol
            return self._name(strings, unpack(content, at)[0], at)

        return name_of

    def versions(self, section: Optional[int] = None) -> Iterator[Version]:
        """Returns the version definitions of a section, or its needs; or the definitions of all sections, and then
        all needs, as the lines V of a listing. Raises Absent if that section holds neither."""
        asked = _Asked(self._budget)
        if section is not None:
            yield from self._versions_of(_within("section", section, 0, 65535), asked)
            return
        for kind in (SHT_GNU_VERDEF, SHT_GNU_VERNEED):
            for table in self._tables(None, (kind,), asked):
                yield from self._versions_of(table, asked)

    def _versions_of(self, table: int, asked: _Asked) -> Iterator[Version]:
        records, row = _VersionRecords(), _VersionRecord()
        status, _ = self._call("version_records", self._limits, table, *self._unwritten(), records)
        if status == _ABSENT:
            raise Absent("%d holds no versions" % table)
        strings = (records.strings_at, records.strings_at + records.strings_len)
        while self._call("next_version_record", records, row)[0] == _OK:
            name = self._name(strings, row.name, row.named_at)
            asked.take((28 if row.kind == 1 else 16) + len(name) + 1, row.at)
            yield Version(name, row.kind, row.number & 32767, row.number > 32767, row.flags, row.hash, table)

    def symbol_versions(self, section: Optional[int] = None) -> Iterator[VersionOfSymbol]:
        """Returns the versions of the symbols of a section, in their order, or of all sections of them, as the lines
        X of a listing. The name of a version is that of the first definition with its number, or else of the first
        need: of the first section of each. Raises Absent if that section holds none."""
        asked = _Asked(self._budget)
        tables = self._tables(section, (SHT_GNU_VERSYM,), asked)
        names = self._version_names(asked) if tables else {}
        for table in tables:
            rows, index, link = self._opened("version_words", table), 0, self._section_rows(asked)[table][6]
            for batch in self._batches("next_version_words", rows, _WORD_FORM, asked):
                for number, hidden in batch:
                    if number > 1 and number not in names:
                        raise Refused(Cause.VERSION_INDEX, rows.at + 2 * index)
                    yield VersionOfSymbol(names.get(number, b"") if number > 1 else b"", number, hidden != 0, table, link,
                                          index)
                    index += 1
            self._all_have_words(table, link, index)

    def _version_names(self, asked: _Asked) -> Dict[int, bytes]:
        """Returns the names of the numbers of versions."""
        names: Dict[int, bytes] = {}
        for kind in (SHT_GNU_VERDEF, SHT_GNU_VERNEED):
            for table in self._tables(None, (kind,), asked)[:1]:
                for version in self._versions_of(table, asked):
                    if version.kind == 3 or (version.kind == 1 and not version.flags & 1):
                        names.setdefault(version.number, version.name)
        return names

    def _all_have_words(self, table: int, link: int, count: int) -> None:
        """Refuses a table of symbol versions that has fewer than there are symbols; an empty one has none."""
        header = _Section()
        self._call("section", table, header)
        if header.size and self._opened("symbols", link).count > count:
            raise Refused(Cause.VERSION_CUT, self.header.shoff + 64 * table)

    def notes(self) -> Iterator[Note]:
        """Returns the notes of all sections, or in a file without sections of all segments."""
        asked = _Asked(self._budget)
        sections = self._section_rows(asked)
        call, headers = ("notes", len(sections)) if sections else ("segment_notes", self.header.phnum)
        for table in range(headers):
            notes, note = _Notes(), _Note()
            if self._call(call, table, notes)[0] == _OK:
                while self._call("next_note", notes, note)[0] == _OK:
                    asked.take(12 + note.namesz + note.descsz, note.at)
                    name = self.data[note.name_at:note.name_at + note.namesz].split(b"\0", 1)[0]
                    desc = self.data[note.desc_at:note.desc_at + note.descsz]
                    yield Note(name, note.type, desc, note.namesz, note.descsz, table)

    def members(self) -> Iterator[Member]:
        """Returns the members of an archive, such as a static library, in their order. The index of symbols, with
        the name `/`, and the table of names, `//`, are members too."""
        members, member, asked = _Members(), _Member(), _Asked(self._budget)
        self._call("members", members)
        content = memoryview(self.data)
        while self._call("next_member", members, member)[0] == _OK:
            name, (at, size) = member.name, (member.content.at, member.content.len)
            asked.take(60 + name.len, member.at)
            yield Member(self.data[name.at:name.at + name.len], member.at, at, size, member.is_cut != 0,
                         content[at:at + size])

    def mapped(self, address: int, size: int) -> Optional[int]:
        """Returns the file offset of `size` bytes at an address, by the first LOAD program header that holds
        them all among the bytes that it has in the file; None if none does."""
        found = _Range()
        status, _ = self._call("mapped", _within("address", address, 0, MOST_NUMBER),
                               _within("size", size, 0, MOST_NUMBER), found)
        at: int = found.at
        return at if status == _OK else None

    def dynamic(self, section: Optional[int] = None) -> Iterator[Dynamic]:
        """Returns the dynamic entries of a section, or of all of them, up to and including the first with tag NULL.
        In a file without sections those of its segments. Raises Absent if that section holds none."""
        asked = _Asked(self._budget)
        tables = self._tables(section, (SHT_DYNAMIC,), asked)
        if section is None and not self._sections:
            for table in range(self.header.phnum):
                rows = _Rows()
                if self._call("segment_dynamic_within", self._limits, table, asked.count, rows)[0] == _OK:
                    yield from self._entries(rows, table, self._mapped_strings(rows, asked), asked)
            return
        for table in tables:
            rows = self._opened("dynamic_within", table, asked.count)
            strings = _always((rows.strings_at, rows.strings_at + rows.strings_len))
            yield from self._entries(rows, table, strings, asked)

    def _entries(self, rows: Any, table: int, strings: Callable[[int], Places],
                 asked: _Asked) -> Iterator[Dynamic]:
        """Returns the dynamic entries of a table; `strings` gives the string table for the entry at an offset."""
        at, index = rows.at, 0
        for batch in self._batches("next_dynamic", rows, _DYNAMIC_FORM, asked):
            for tag, value in batch:
                entry, text = at + 16 * index, None
                if tag in STRING_TAGS:
                    text = self._name(strings(entry), value, entry)
                    asked.take(len(text) + 1, entry)
                yield Dynamic(tag, value, text, table, index)
                index += 1

    def _mapped_strings(self, rows: Any, asked: _Asked) -> Callable[[int], Places]:
        """Returns a function that gives the string table of a segment's dynamic entries, which its first entries of
        two tags place in memory, for the entry at an offset."""
        again = _Rows(rows.at, rows.count, 0, rows.entry, 0, 0)
        first: Dict[int, int] = {}
        for batch in self._batches("next_dynamic", again, _DYNAMIC_FORM, asked):
            for tag, value in batch:
                if tag in (DT_STRTAB, DT_STRSZ):
                    first.setdefault(tag, value)
        found: List[Places] = []

        def strings(entry: int) -> Places:
            if not found:
                place = self.mapped(first[DT_STRTAB], first[DT_STRSZ]) if len(first) == 2 else None
                if place is None:
                    raise Refused(Cause.UNMAPPED, entry)
                found.append((place, place + first[DT_STRSZ]))
            return found[0]

        return strings
