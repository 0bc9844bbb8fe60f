"""The words of readelf and of `elfsee show` for numbers, for tests/machine/against_readelf.py. Where `elfsee` has a word
for a number `readelf` has the same one, except for a few. If it has none it prints the number, and the functions give
every text that `readelf` may have for that number."""

import collections
import re

SECTION_TYPES = {
    "NULL": 0, "PROGBITS": 1, "SYMTAB": 2, "STRTAB": 3, "RELA": 4, "HASH": 5, "DYNAMIC": 6,
    "NOTE": 7, "NOBITS": 8, "REL": 9, "SHLIB": 10, "DYNSYM": 11, "INIT_ARRAY": 14,
    "FINI_ARRAY": 15, "PREINIT_ARRAY": 16, "GROUP": 17, "SYMTAB_SHNDX": 18,
}
SECTION_TYPE_AS_READELF = {"SYMTAB_SHNDX": "SYMTAB SECTION INDICES"}
# Section types that only `readelf` names: what a run of them begins with, its first
# number and its words (`-` for a number without one).  From 0x60000000 on the same
# number has another meaning, and so another word, from system to system, and from
# 0x70000000 on from machine to machine.
SECTION_TYPE_RUNS = (
    ("", 19, "RELR"),
    ("", 0x60000000, "VMS_TRACE"),
    ("", 0x6fff4700, "GNU_INCREMENTAL_INPUTS"),
    ("LLVM_", 0x6fff4c00, "ODRTAB LINKER_OPTIONS - ADDRSIG DEPENDENT_LIBRARIES SYMPART PART_EHDR"
     " PART_PHDR BB_ADDR_MAP_V0 CALL_GRAPH_PROFILE BB_ADDR_MAP OFFLOADING LTO"),
    ("", 0x6ffffff0, "VERSYM"),
    ("", 0x6ffffff5, "GNU_ATTRIBUTES GNU_HASH GNU_LIBLIST CHECKSUM"),
    ("", 0x6ffffffc, "VERDEF VERDEF VERNEED VERSYM"),
    ("SUNW_", 0x6fffffee, "ancillary capchain capinfo symsort tlssort LDYNSYM dof cap SIGNATURE"
     " ANNOTATE DEBUGSTR DEBUG move COMDAT syminfo verdef verneed versym"),
    ("", 0x70000001, "X86_64_UNWIND"),
    ("", 0x70000001, "CSKY_ATTRIBUTES"),
    ("", 0x70000003, "AARCH64_ATTRIBUTES"),
    ("", 0x70000003, "RISCV_ATTRIBUTES"),
    ("", 0x70000003, "MSP430_ATTRIBUTES"),
    ("ARM_", 0x70000001, "EXIDX PREEMPTMAP ATTRIBUTES DEBUGOVERLAY OVERLAYSECTION"),
    ("C6000_", 0x70000001, "UNWIND PREEMPTMAP ATTRIBUTES"),
    ("IA_64_", 0x70000000, "EXT UNWIND"),
    ("PARISC_", 0x70000000, "EXT UNWIND DOC ANNOT DLKM - - - SYMEXTN STUBS"),
    ("MIPS_", 0x70000000, "LIBLIST MSYM CONFLICT GPTAB UCODE DEBUG REGINFO PACKAGE PACKSYM RELD"
     " - IFACE CONTENT OPTIONS - - SHDR FDESC EXTSYM DENSE PDESC LOCSYM AUXSYM OPTSYM LOCSTR"
     " LINE RFDESC DELTASYM DELTAINST DELTACLASS DWARF DELTADECL SYMBOL_LIB EVENTS TRANSLATE"
     " PIXIE XLATE XLATE_DEBUG WHIRL EH_REGION XLATE_OLD PDR_EXCEPTION ABIFLAGS XHASH"),
    ("", 0x7ffffffd, "AUXILIARY - FILTER"),
)


def words_by_number(runs):
    """The words of some runs, a list for each number that has any."""
    words = collections.defaultdict(list)
    for prefix, first, run_words in runs:
        for number, word in enumerate(run_words.split(), first):
            if word != "-":
                words[number].append(prefix + word)
    return words


MORE_SECTION_TYPES = words_by_number(SECTION_TYPE_RUNS)

SEGMENT_TYPES = {
    "NULL": 0, "LOAD": 1, "DYNAMIC": 2, "INTERP": 3, "NOTE": 4, "SHLIB": 5, "PHDR": 6, "TLS": 7,
}
MORE_SEGMENT_TYPES = {
    0x6474e550: ["GNU_EH_FRAME"],
    0x6474e551: ["GNU_STACK"],
    0x6474e552: ["GNU_RELRO"],
    0x6474e553: ["GNU_PROPERTY"],
    0x6474e554: ["GNU_SFRAME"],
    0x65a3dbe5: ["OPENBSD_MUTABLE"],
    0x65a3dbe6: ["OPENBSD_RANDOMIZE"],
    0x65a3dbe7: ["OPENBSD_WXNEEDED"],
    0x65a3dbe8: ["OPENBSD_NOBTCFI"],
    0x65a3dbe9: ["OPENBSD_SYSCALLS"],
    0x65a41be6: ["OPENBSD_BOOTDATA"],
    0x70000000: ["AARCH64_ARCHEXT", "ARCHEXT", "REGINFO", "S390_PGSTE", "PARISC_ARCHEXT",
                 "IA_64_ARCHEXT", "C6000_PHATTR"],
    0x70000001: ["EXIDX", "RTPROC", "UNWIND", "PARISC_UNWIND", "IA_64_UNWIND"],
    0x70000002: ["AARCH64_MEMTAG_MTE", "OPTIONS", "PARISC_WEAKORDER"],
    0x70000003: ["RISCV_ATTRIBUTES", "ABIFLAGS"],
}

SYMBOL_TYPES = {
    "NOTYPE": 0, "OBJECT": 1, "FUNC": 2, "SECTION": 3, "FILE": 4, "COMMON": 5, "TLS": 6,
}
MORE_SYMBOL_TYPES = {
    8: ["RELC"], 9: ["SRELC"], 10: ["IFUNC", "AMDGPU_HSA_KERNEL"], 11: ["HP_OPAQUE"],
    12: ["HP_STUB"], 13: ["THUMB_FUNC", "REGISTER", "PARISC_MILLI"],
}
BINDINGS = {"LOCAL": 0, "GLOBAL": 1, "WEAK": 2}
MORE_BINDINGS = {10: ["UNIQUE"]}

PLACES = {"UND": 0, "ABS": 0xfff1, "COM": 0xfff2}
MORE_PLACES = {
    0xff00: ["ANSI_COM"],
    0xff02: ["LARGE_COM"],
    0xff03: ["SCOM"],
    0xff04: ["SUND"],
}

# Relocation types have names in elfsee for the machine x86-64 alone, those of readelf
# without what they all begin with; any other number is `#` and the number.
X86_64 = 62
MIPS = 8
RELOCATION_TYPES = {
    "NONE": 0, "64": 1, "PC32": 2, "PLT32": 4, "COPY": 5, "GLOB_DAT": 6, "JUMP_SLOT": 7,
    "RELATIVE": 8, "32": 10, "32S": 11, "16": 12, "8": 14, "PC64": 24,
}

# Note types by readelf's words, without what it says of them in brackets.  The same number
# has other words under other owners.
NOTE_TYPES = {
    "NT_VERSION": 1, "NT_ARCH": 2, "OPEN": 0x100, "func": 0x101, "NT_GNU_ABI_TAG": 1,
    "NT_GNU_HWCAP": 2, "NT_GNU_BUILD_ID": 3, "NT_GNU_GOLD_VERSION": 4,
    "NT_GNU_PROPERTY_TYPE_0": 5, "NT_GNU_BUILD_ATTRIBUTE_OPEN": 0x100,
    "NT_GNU_BUILD_ATTRIBUTE_FUNC": 0x101, "NT_STAPSDT": 3, "GO BUILDID": 4,
    "FDO_PACKAGING_METADATA": 0xcafe1a7e,
}

DYNAMIC_TAGS = dict(enumerate(
    "NULL NEEDED PLTRELSZ PLTGOT HASH STRTAB SYMTAB RELA RELASZ RELAENT STRSZ SYMENT INIT FINI"
    " SONAME RPATH SYMBOLIC REL RELSZ RELENT PLTREL DEBUG TEXTREL JMPREL BIND_NOW INIT_ARRAY"
    " FINI_ARRAY INIT_ARRAYSZ FINI_ARRAYSZ RUNPATH FLAGS".split()))
# What readelf has before a string that elfsee shows too.
STRING_WORDS = {"NEEDED": "Shared library", "SONAME": "Library soname", "RPATH": "Library rpath",
                "RUNPATH": "Library runpath"}
# The words of flags, from the lowest bit on.
FLAG_WORDS = {
    30: "ORIGIN SYMBOLIC TEXTREL BIND_NOW STATIC_TLS",
    0x6ffffffb: "NOW GLOBAL GROUP NODELETE LOADFLTR INITFIRST NOOPEN ORIGIN DIRECT TRANS INTERPOSE"
    " NODEFLIB NODUMP CONFALT ENDFILTEE DISPRELDNE DISPRELPND NODIRECT IGNMULDEF NOKSYMS NOHDR"
    " EDITED NORELOC SYMINTPOSE GLOBAUDIT SINGLETON STUB PIE KMOD WEAKFILTER NOCOMMON",
}

# The flags of a version by readelf's words; of others it gives only that there are some.
VERSION_FLAGS = {"none": 0, "BASE": 1, "WEAK": 2, "INFO": 4}

# What elfsee has names for with --gnu, besides its other names, and the words of readelf that
# are others.  If the byte of the system is another than GNU's, readelf has a number for an
# indirect function and for a symbol that is one for the whole process.
GNU_SECTION_TYPES = {
    "RELR": 19, "GNU_ATTRIBS": 0x6ffffff5, "GNU_HASH": 0x6ffffff6, "GNU_LIBLIST": 0x6ffffff7,
    "VERDEF": 0x6ffffffd, "VERNEED": 0x6ffffffe, "VERSYM": 0x6fffffff,
    "X86_64_UNWIND": 0x70000001,
}
GNU_SEGMENT_TYPES = {
    "EH_FRAME": 0x6474e550, "STACK": 0x6474e551, "RELRO": 0x6474e552, "PROPERTY": 0x6474e553,
    "SFRAME": 0x6474e554,
}
GNU_RELOCATION_TYPES = dict(zip(
    "GOT32 GOTPCREL PC16 PC8 DTPMOD64 DTPOFF64 TPOFF64 TLSGD TLSLD DTPOFF32 GOTTPOFF TPOFF32"
    " GOTOFF64 GOTPC32 GOT64 GOTPCREL64 GOTPC64 GOTPLT64 PLTOFF64 SIZE32 SIZE64 GOTPC_TLSD"
    " TLSD_CALL TLSDESC IRELATIVE RELATIVE64 PC32_BND PLT32_BND GOTPCRELX REX_GOTPCX VTINHERIT"
    " VTENTRY".split(), [3, 9, 13, *range(15, 24), *range(25, 43), 250, 251]))
RELOCATION_TYPE_AS_READELF = {
    "GOTPC_TLSD": "GOTPC32_TLSDESC", "TLSD_CALL": "TLSDESC_CALL", "REX_GOTPCX": "REX_GOTPCRELX",
    "VTINHERIT": "GNU_VTINHERIT", "VTENTRY": "GNU_VTENTRY",
}
GNU_TAGS = {number: word for first, words in (
    (32, "PREINIT_ARRAY PREINIT_ARRAYSZ SYMTAB_SHNDX RELRSZ RELR RELRENT"),
    (0x6ffffdf4, "GNU_FLAGS_1 GNU_PRELINKED GNU_CONFLICTSZ GNU_LIBLISTSZ CHECKSUM PLTPADSZ MOVEENT"
     " MOVESZ FEATURE POSFLAG_1 SYMINSZ SYMINENT"),
    (0x6ffffef5, "GNU_HASH TLSDESC_PLT TLSDESC_GOT GNU_CONFLICT GNU_LIBLIST CONFIG DEPAUDIT AUDIT"
     " PLTPAD MOVETAB SYMINFO"),
    (0x6ffffff0, "VERSYM"),
    (0x6ffffff9, "RELACOUNT RELCOUNT FLAGS_1 VERDEF VERDEFNUM VERNEED VERNEEDNUM"),
    (0x7ffffffd, "AUXILIARY USED FILTER"),
) for number, word in enumerate(words.split(), first)}
# The words that `elfsee show` is given, the letters of flags that it has, and the names of
# segments as readelf has them.
SHOW_WORDS = []
LETTERS = "WAXMSILOGTC"
SEGMENT_TYPE_AS_READELF = {}


def name_gnu_numbers():
    """From here on `elfsee show --gnu` is compared."""
    global LETTERS  # pylint: disable=global-statement
    SHOW_WORDS.append("--gnu")
    LETTERS += "RDlE"
    SECTION_TYPES.update(GNU_SECTION_TYPES)
    SECTION_TYPE_AS_READELF["GNU_ATTRIBS"] = "GNU_ATTRIBUTES"
    SEGMENT_TYPES.update(GNU_SEGMENT_TYPES)
    SEGMENT_TYPE_AS_READELF.update({word: "GNU_" + word for word in GNU_SEGMENT_TYPES})
    SYMBOL_TYPES["IFUNC"] = 10
    BINDINGS["UNIQUE"] = 10
    PLACES["LCOM"] = 0xff02
    RELOCATION_TYPES.update(GNU_RELOCATION_TYPES)
    DYNAMIC_TAGS.update(GNU_TAGS)


def show_versions():
    """From here on `elfsee show --versions` is compared."""
    SHOW_WORDS.append("--versions")


def relocation_tables():
    """The types of the tables whose relocation entries are compared."""
    return ("RELA", "REL", "RELR") if "--gnu" in SHOW_WORDS else ("RELA",)


def are_versions_shown():
    """Whether the versions after the names of symbols are compared."""
    return "--versions" in SHOW_WORDS


def c_hex(number):
    """A number as C's `%#x` has it: nought has no 0x."""
    return "%#x" % number if number else "0"


def section_type_words(text):
    """The texts that readelf may have for the section type to which elfsee gives this name."""
    if text in SECTION_TYPES:
        return [SECTION_TYPE_AS_READELF.get(text, text)]
    number = int(text, 16)
    if number != 0x70000001 and number in SECTION_TYPES.values():
        return []
    words = list(MORE_SECTION_TYPES.get(number, []))
    if 0x60000000 <= number <= 0x6fffffff:
        words.append("LOOS+" + c_hex(number - 0x60000000))
    elif 0x70000000 <= number <= 0x7fffffff:
        words.append("LOPROC+" + c_hex(number - 0x70000000))
    elif number >= 0x80000000:
        words.append("LOUSER+" + c_hex(number - 0x80000000))
    else:
        words.append("%08x: <unknown>" % number)
    return words


def segment_type_words(text):
    """The same for segments, whose texts readelf cuts after 14 letters."""
    if text in SEGMENT_TYPES:
        word = SEGMENT_TYPE_AS_READELF.get(text, text)
        return [word, word[:14].rstrip()]
    number = int(text, 16)
    if number in SEGMENT_TYPES.values():
        return []
    words = list(MORE_SEGMENT_TYPES.get(number, []))
    if 0x60000000 <= number <= 0x6fffffff:
        words.append("LOOS+" + c_hex(number - 0x60000000))
        if 0x6474e555 <= number <= 0x6474f554:
            words.append("GNU_MBIND+" + c_hex(number - 0x6474e555))
    elif 0x70000000 <= number <= 0x7fffffff:
        words.append("LOPROC+" + c_hex(number - 0x70000000))
    else:
        words.append("<unknown>: %x" % number)
    return words + [word[:14].rstrip() for word in words]


def nibble_words(text, words, more):
    """The same for a symbol's type or binding, a word or a decimal in elfsee."""
    if text in words and words[text] not in more:
        return [text]
    number = words[text] if text in words else int(text)
    if text not in words and number in words.values():
        return []
    return more.get(number, []) + [
        form % number
        for form in ("<OS specific>: %d", "<processor specific>: %d", "<unknown>: %d")
    ]


def place_words(text):
    """The same for a symbol's section index."""
    if text in PLACES:
        return [text, *MORE_PLACES.get(PLACES[text], [])]
    number = int(text)
    if number >= 0xff00:
        forms = ("PRC[0x%04x]", "OS [0x%04x]", "RSV[0x%04x]")
        return MORE_PLACES.get(number, []) + [form % number for form in forms]
    return ["%d" % number, "bad section index[%3d]" % number]


def same_relocation_type(ours, word, number, machine):
    """Whether a relocation type of elfsee is readelf's number and, if elfsee has a
    word for it, readelf's word."""
    if number is None:
        return ours == word
    if machine == X86_64 and number in RELOCATION_TYPES.values():
        full = "R_X86_64_" + RELOCATION_TYPE_AS_READELF.get(ours, ours)
        # readelf cuts a word after 22 letters.
        return RELOCATION_TYPES.get(ours) == number and word in (full, full[:22])
    return ours == "#%d" % number


def note_type_number(words):
    """The number of a note type that readelf has these words for."""
    unknown = re.fullmatch(r"Unknown note type: \((0x[0-9a-f]+)\)", words)
    if unknown is not None:
        return int(unknown.group(1), 16)
    word = words.split(" (")[0]
    if word not in NOTE_TYPES:
        raise NotUnderstood(words)
    return NOTE_TYPES[word]


def tag_number(text):
    """The number of a tag from elfsee's text for it, which is its name if it has one."""
    for number, word in DYNAMIC_TAGS.items():
        if word == text:
            return number
    number = int(text, 16)
    if number in DYNAMIC_TAGS or len(text) != 16:
        raise NotUnderstood(text)
    return number


def flags_number(words, tag):
    """The number of the flags that readelf has these words for."""
    names = FLAG_WORDS[tag].split()
    number = 0
    for word in words.split():
        if word not in names:
            raise NotUnderstood(words)
        number |= 1 << names.index(word)
    return number


def dynamic_value(tag, word, text):
    """The value of a dynamic entry by readelf's text for it; None if the text does not
    give it: it shows a string in its place, or has a form of a system's or machine's own."""
    if re.fullmatch(r"0x[0-9a-f]+", text):
        return int(text, 16)
    if re.fullmatch(r"[0-9]+( \(bytes\))?", text):
        return int(text.split(" ")[0])
    if word == "PLTREL" and text in ("REL", "RELA"):
        return {"RELA": 7, "REL": 17}[text]
    if tag in FLAG_WORDS:
        return flags_number(text[len("Flags:"):] if text.startswith("Flags:") else text, tag)
    if tag < 0x60000000 and word not in STRING_WORDS and text != "":
        raise NotUnderstood(text)
    return None


def letters_as_elfsee(letters):
    """readelf's section letters as elfsee has them: all that elfsee has no letter
    for become one `?` at the end.  Both go through the bits from the lowest up."""
    known = "".join(letter for letter in letters if letter in LETTERS)
    return known + ("?" if known != letters else "")


class NotUnderstood(Exception):
    """A line of a listing that has no form known here."""
