"""The numbers of the standards, by their names: those of the gABI (Object Files), of the psABI for x86-64, and
those defined by GNU. A name lacks its prefix here: SymbolType.FUNC is STT_FUNC. Types of relocation entries keep
theirs, as some have a digit after it. Each is an int: rows hold plain numbers, including those that have no name
here."""

from __future__ import annotations

import enum

__all__ = [
    "DynamicFlag", "DynamicFlag1", "DynamicTag", "FileType", "Machine", "RelocationType", "SectionFlag",
    "SectionType", "SegmentFlag", "SegmentType", "SpecialSection", "SymbolBinding", "SymbolType",
    "SymbolVisibility",
]


class FileType(enum.IntEnum):
    """Types of object files: `Header.type`, e_type (gABI, ELF Header)."""

    NONE = 0
    REL = 1
    EXEC = 2
    DYN = 3
    CORE = 4


class Machine(enum.IntEnum):
    """Machines that have files of this class: `Header.machine`, e_machine (gABI, ELF Header)."""

    NONE = 0
    MIPS = 8
    PPC64 = 21
    S390 = 22
    SPARCV9 = 43
    IA_64 = 50
    X86_64 = 62
    AARCH64 = 183
    RISCV = 243
    BPF = 247
    LOONGARCH = 258


class SectionType(enum.IntEnum):
    """Types of sections: `Section.type`, sh_type (gABI, Sections), and those defined by GNU."""

    NULL = 0
    PROGBITS = 1
    SYMTAB = 2
    STRTAB = 3
    RELA = 4
    HASH = 5
    DYNAMIC = 6
    NOTE = 7
    NOBITS = 8
    REL = 9
    SHLIB = 10
    DYNSYM = 11
    INIT_ARRAY = 14
    FINI_ARRAY = 15
    PREINIT_ARRAY = 16
    GROUP = 17
    SYMTAB_SHNDX = 18
    RELR = 19
    GNU_ATTRIBUTES = 0x6ffffff5
    GNU_HASH = 0x6ffffff6
    GNU_LIBLIST = 0x6ffffff7
    GNU_VERDEF = 0x6ffffffd
    GNU_VERNEED = 0x6ffffffe
    GNU_VERSYM = 0x6fffffff
    X86_64_UNWIND = 0x70000001


class SectionFlag(enum.IntFlag):
    """Flags of sections: `Section.flags`, sh_flags (gABI, Sections)."""

    WRITE = 1
    ALLOC = 2
    EXECINSTR = 4
    MERGE = 16
    STRINGS = 32
    INFO_LINK = 64
    LINK_ORDER = 128
    OS_NONCONFORMING = 256
    GROUP = 512
    TLS = 1024
    COMPRESSED = 2048


class SpecialSection(enum.IntEnum):
    """Indexes that are not a section's: `Symbol.section`, st_shndx, and e_shstrndx (gABI, Sections)."""

    UNDEF = 0
    LORESERVE = 0xff00
    ABS = 0xfff1
    COMMON = 0xfff2
    XINDEX = 0xffff


class SymbolType(enum.IntEnum):
    """Types of symbols: `Symbol.type`, of st_info (gABI, Symbol Table), and the one defined by GNU."""

    NOTYPE = 0
    OBJECT = 1
    FUNC = 2
    SECTION = 3
    FILE = 4
    COMMON = 5
    TLS = 6
    GNU_IFUNC = 10


class SymbolBinding(enum.IntEnum):
    """Bindings of symbols: `Symbol.binding`, of st_info (gABI, Symbol Table), and the one defined by GNU."""

    LOCAL = 0
    GLOBAL = 1
    WEAK = 2
    GNU_UNIQUE = 10


class SymbolVisibility(enum.IntEnum):
    """Visibilities of symbols: `Symbol.visibility`, of st_other (gABI, Symbol Table)."""

    DEFAULT = 0
    INTERNAL = 1
    HIDDEN = 2
    PROTECTED = 3


class SegmentType(enum.IntEnum):
    """Types of segments: `Segment.type`, p_type (gABI, Program Header), and those defined by GNU."""

    NULL = 0
    LOAD = 1
    DYNAMIC = 2
    INTERP = 3
    NOTE = 4
    SHLIB = 5
    PHDR = 6
    TLS = 7
    GNU_EH_FRAME = 0x6474e550
    GNU_STACK = 0x6474e551
    GNU_RELRO = 0x6474e552
    GNU_PROPERTY = 0x6474e553


class SegmentFlag(enum.IntFlag):
    """Flags of segments: `Segment.flags`, p_flags (gABI, Program Header)."""

    X = 1
    W = 2
    R = 4


class RelocationType(enum.IntEnum):
    """Types of relocation entries for x86-64: `Relocation.type`, of r_info (psABI, Relocation Types)."""

    R_X86_64_NONE = 0
    R_X86_64_64 = 1
    R_X86_64_PC32 = 2
    R_X86_64_GOT32 = 3
    R_X86_64_PLT32 = 4
    R_X86_64_COPY = 5
    R_X86_64_GLOB_DAT = 6
    R_X86_64_JUMP_SLOT = 7
    R_X86_64_RELATIVE = 8
    R_X86_64_GOTPCREL = 9
    R_X86_64_32 = 10
    R_X86_64_32S = 11
    R_X86_64_16 = 12
    R_X86_64_PC16 = 13
    R_X86_64_8 = 14
    R_X86_64_PC8 = 15
    R_X86_64_DTPMOD64 = 16
    R_X86_64_DTPOFF64 = 17
    R_X86_64_TPOFF64 = 18
    R_X86_64_TLSGD = 19
    R_X86_64_TLSLD = 20
    R_X86_64_DTPOFF32 = 21
    R_X86_64_GOTTPOFF = 22
    R_X86_64_TPOFF32 = 23
    R_X86_64_PC64 = 24
    R_X86_64_GOTOFF64 = 25
    R_X86_64_GOTPC32 = 26
    R_X86_64_GOT64 = 27
    R_X86_64_GOTPCREL64 = 28
    R_X86_64_GOTPC64 = 29
    R_X86_64_GOTPLT64 = 30
    R_X86_64_PLTOFF64 = 31
    R_X86_64_SIZE32 = 32
    R_X86_64_SIZE64 = 33
    R_X86_64_GOTPC32_TLSDESC = 34
    R_X86_64_TLSDESC_CALL = 35
    R_X86_64_TLSDESC = 36
    R_X86_64_IRELATIVE = 37
    R_X86_64_RELATIVE64 = 38
    R_X86_64_GOTPCRELX = 41
    R_X86_64_REX_GOTPCRELX = 42


class DynamicTag(enum.IntEnum):
    """Tags of dynamic entries: `Dynamic.tag`, d_tag (gABI, Dynamic Section), and those defined by GNU."""

    NULL = 0
    NEEDED = 1
    PLTRELSZ = 2
    PLTGOT = 3
    HASH = 4
    STRTAB = 5
    SYMTAB = 6
    RELA = 7
    RELASZ = 8
    RELAENT = 9
    STRSZ = 10
    SYMENT = 11
    INIT = 12
    FINI = 13
    SONAME = 14
    RPATH = 15
    SYMBOLIC = 16
    REL = 17
    RELSZ = 18
    RELENT = 19
    PLTREL = 20
    DEBUG = 21
    TEXTREL = 22
    JMPREL = 23
    BIND_NOW = 24
    INIT_ARRAY = 25
    FINI_ARRAY = 26
    INIT_ARRAYSZ = 27
    FINI_ARRAYSZ = 28
    RUNPATH = 29
    FLAGS = 30
    PREINIT_ARRAY = 32
    PREINIT_ARRAYSZ = 33
    SYMTAB_SHNDX = 34
    RELRSZ = 35
    RELR = 36
    RELRENT = 37
    GNU_PRELINKED = 0x6ffffdf5
    GNU_CONFLICTSZ = 0x6ffffdf6
    GNU_LIBLISTSZ = 0x6ffffdf7
    CHECKSUM = 0x6ffffdf8
    PLTPADSZ = 0x6ffffdf9
    MOVEENT = 0x6ffffdfa
    MOVESZ = 0x6ffffdfb
    FEATURE_1 = 0x6ffffdfc
    POSFLAG_1 = 0x6ffffdfd
    SYMINSZ = 0x6ffffdfe
    SYMINENT = 0x6ffffdff
    GNU_HASH = 0x6ffffef5
    TLSDESC_PLT = 0x6ffffef6
    TLSDESC_GOT = 0x6ffffef7
    GNU_CONFLICT = 0x6ffffef8
    GNU_LIBLIST = 0x6ffffef9
    CONFIG = 0x6ffffefa
    DEPAUDIT = 0x6ffffefb
    AUDIT = 0x6ffffefc
    PLTPAD = 0x6ffffefd
    MOVETAB = 0x6ffffefe
    SYMINFO = 0x6ffffeff
    VERSYM = 0x6ffffff0
    RELACOUNT = 0x6ffffff9
    RELCOUNT = 0x6ffffffa
    FLAGS_1 = 0x6ffffffb
    VERDEF = 0x6ffffffc
    VERDEFNUM = 0x6ffffffd
    VERNEED = 0x6ffffffe
    VERNEEDNUM = 0x6fffffff
    AUXILIARY = 0x7ffffffd
    FILTER = 0x7fffffff


class DynamicFlag(enum.IntFlag):
    """Flags in the value of the tag FLAGS (gABI, Dynamic Section)."""

    ORIGIN = 1
    SYMBOLIC = 2
    TEXTREL = 4
    BIND_NOW = 8
    STATIC_TLS = 16


class DynamicFlag1(enum.IntFlag):
    """Flags in the value of the tag FLAGS_1, defined by GNU."""

    NOW = 1
    GLOBAL = 2
    GROUP = 4
    NODELETE = 8
    INITFIRST = 32
    NOOPEN = 64
    ORIGIN = 128
    INTERPOSE = 1024
    NODEFLIB = 2048
    NODUMP = 4096
    PIE = 0x8000000
