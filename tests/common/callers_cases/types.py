"""Cases of tests/gate/callers.py: the module's constants, types, and structs."""

import ast
import enum
import os
import re
import shutil
import subprocess
import sys
import typing

import declared
import made_archives
from callers_cases.counted import LIBRARY, file_content, run
from testing import TOP

# The prefix of the names of an enumeration in the C library's header; types of relocation entries have it.
PREFIXES = {"FileType": "ET_", "Machine": "EM_", "SectionType": "SHT_", "SectionFlag": "SHF_", "SpecialSection": "SHN_",
            "SymbolType": "STT_", "SymbolBinding": "STB_", "SymbolVisibility": "STV_", "SegmentType": "PT_",
            "SegmentFlag": "PF_", "RelocationType": "", "DynamicTag": "DT_", "DynamicFlag": "DF_",
            "DynamicFlag1": "DF_1_"}
# The rows of names in docs/FORMAT.md, and which enumeration has them.
NAMED = {"type of an H line": "FileType", "type of an S line": "SectionType", "type of a P line": "SegmentType",
         "type of a Y line": "SymbolType", "binding": "SymbolBinding", "visibility": "SymbolVisibility",
         "place": "SpecialSection", "type of an R line": "RelocationType", "tag": "DynamicTag"}
# Names that are shorter in a listing.
SHORTER = {"UND": "UNDEF", "COM": "COMMON"}


def check_constants(counts, elfsee):
    """The module's enumerations and the crate's constants have the names and numbers of the C library's header, and
    all that a listing has names for by the standards."""
    kinds = {name: each for name, each in vars(elfsee._numbers).items()
             if isinstance(each, type) and issubclass(each, enum.Enum)}
    counts.same("enumerations", sorted(PREFIXES), sorted(kinds))
    counts.same("enumerations that are exported", [], sorted(name for name in kinds if name not in elfsee.__all__
                                                             or getattr(elfsee, name) is not kinds[name]))
    ours = {PREFIXES[kind] + name: int(member) for kind in PREFIXES for name, member in kinds[kind].__members__.items()}
    counts.check("constants that are held", len(ours) > 200, len(ours))
    with open(os.path.join(LIBRARY, "rust", "src", "abi.rs"), encoding="utf-8") as file:
        text = file.read()
    theirs = {name: int(number, 0) for name, number in re.findall(r"^pub const (\w+): [iu]\d+ = (\w+);$", text, re.M)}
    counts.same("constants in Rust", ours, theirs)
    counts.same("each constant in Rust is read", text.count("pub const "), len(theirs))
    with open(os.path.join(TOP, "docs", "FORMAT.md"), encoding="utf-8") as file:
        rows = dict(re.findall(r"^\| ([\w ]+) \| (\w+=\d+(?:, \w+=\d+)*) \|", file.read(), re.M))
    for row, kind in NAMED.items():
        front = "R_X86_64_" if kind == "RelocationType" else PREFIXES[kind]
        listed = {front + SHORTER.get(name, name): int(number)
                  for name, number in re.findall(r"(\w+)=(\d+)", rows[row])}
        counts.same("names of %s" % row, {}, {name: at for name, at in listed.items() if ours.get(name) != at})
    check_numbers_of_c(counts, ours)


def check_numbers_of_c(counts, ours):
    """The names and numbers are those of the C library's header."""
    if not os.path.exists("/usr/include/elf.h"):
        print("not run: the constants beside elf.h, which is missing")
        return
    text = file_content("/usr/include/elf.h").decode("latin-1")
    found = re.findall(r"^#\s*define\s+(\w+)\s+(?:(0x[0-9a-fA-F]+|\d+)|\(1U? << (\d+)\))", text, re.M)
    theirs = {name.upper(): int(number, 0) if number else 1 << int(bit) for name, number, bit in found}
    others = {name: (number, theirs.get(name)) for name, number in ours.items() if theirs.get(name) != number}
    counts.same("numbers of elf.h", {}, others)


def is_of(value, hint):
    """Whether a value is of the type that is declared for a field."""
    if typing.get_origin(hint) is typing.Union:
        return any(is_of(value, each) for each in typing.get_args(hint))
    return type(value) is hint or hint is type(None) and value is None or isinstance(value, hint)


def check_types(counts, elfsee, folder):
    """The module gives the type of each argument and of each answer, and these are true of rows; mypy takes it and a
    program that uses it, if it is there."""
    content = file_content("/bin/ls")
    archive = elfsee.File(made_archives.MAGIC + made_archives.member(b"ls/", content))
    file, wrong = elfsee.File(content), {}
    for row in [file.header, file.show(), *file.sections(), *file.segments(), *file.symbols(), *file.relocations(),
                *file.notes(), *file.dynamic(), *file.versions(), *file.symbol_versions(), *archive.members()]:
        hints = typing.get_type_hints(type(row))
        wrong.setdefault(type(row).__name__, []).extend(
            (name, getattr(row, name)) for name in row._fields if not is_of(getattr(row, name), hints[name]))
    kinds = ("Header", "Listing", "Section", "Segment", "Symbol", "Relocation", "Note", "Dynamic", "Version",
             "VersionOfSymbol", "Member")
    counts.same("types of rows", dict.fromkeys(kinds, []), wrong)
    sources = os.path.join(LIBRARY, "python", "elfsee")
    counts.check("py.typed", os.path.exists(os.path.join(sources, "py.typed")))
    for name in sorted(os.listdir(sources)):
        if name.endswith(".py"):
            check_annotations(counts, os.path.join(sources, name))
    check_mypy(counts, sources, folder)


def check_annotations(counts, path):
    """Each function of a source gives the types of its arguments and of its answer; a lambda takes no default, which
    no type gives; a field that hides a method of a tuple says so."""
    source = file_content(path).decode()
    lines, hidden = source.split("\n"), set(dir(tuple))
    for node in ast.walk(ast.parse(source)):
        place = "%s:%d" % (path, getattr(node, "lineno", 0))
        if isinstance(node, (ast.FunctionDef, ast.Lambda)):
            given = node.args
            every = [*given.posonlyargs, *given.args, *given.kwonlyargs, given.vararg, given.kwarg]
            bare = [each.arg for each in every if each and each.annotation is None and each.arg != "self"]
            told = isinstance(node, ast.Lambda) or node.returns is not None and not bare
            counts.check("types at " + place, told and (not given.defaults or isinstance(node, ast.FunctionDef)), bare)
        if isinstance(node, ast.AnnAssign) and isinstance(node.target, ast.Name) and node.target.id in hidden:
            counts.check("a hidden method at " + place, lines[node.lineno - 1].endswith("  # type: ignore[assignment]"))


# What a caller writes, with types: each of them is the one that mypy has to see.
TYPED = '''from __future__ import annotations

import pathlib
from typing import Dict, List, Optional, Tuple

import elfsee
from elfsee import DynamicTag, SymbolType


def told(path: pathlib.Path) -> Tuple[List[str], Dict[int, bytes]]:
    with elfsee.File(path, budget=10_000_000) as file:
        functions: List[str] = [elfsee.spelt(row.name) for row in file.symbols() if row.type == SymbolType.FUNC]
        names: Dict[int, bytes] = {section.index: section.name for section in file.sections()}
        needed: List[Optional[bytes]] = [entry.string for entry in file.dynamic() if entry.tag == DynamicTag.NEEDED]
        place: Optional[int] = file.mapped(0x1000, 8)
        addresses: Dict[str, int] = {"callee": 0x402000}
        section: bytes = file.apply(1, elfsee.Layout(sections={1: 0x401000}, define=addresses))
        found: Optional[elfsee.Symbol] = file.find("call").symbol
        listing: elfsee.Listing = file.show(elfsee.SEGMENTS)
        refused: Optional[elfsee.Refused] = listing.refused
        print(needed, place, section, found, file.cost(), refused and refused.cause == elfsee.Cause.BUDGET)
        return functions, names


def members(content: bytes) -> List[elfsee.File]:
    return [elfsee.File(member.content) for member in elfsee.File(content).members()]
'''


def check_mypy(counts, sources, folder):
    user = os.path.join(folder, "typed.py")
    with open(user, "w", encoding="ascii") as file:
        file.write(TYPED)
    compile(TYPED, user, "exec")
    mypy = [sys.executable, "-m", "mypy"] if run(sys.executable, "-m", "mypy", "--version")[0] == 0 else \
        ["mypy"] if shutil.which("mypy") else None
    if mypy is None:
        print("not run: mypy, which is missing")
        return
    environment = dict(os.environ, MYPYPATH=os.path.dirname(sources), MYPY_CACHE_DIR=os.path.join(folder, "mypy"))
    for name, words in (("the module", ["-p", "elfsee"]), ("a typed program", [user])):
        done = subprocess.run([*mypy, "--strict", *words], cwd=folder, env=environment, capture_output=True,
                              check=False)
        counts.check("mypy --strict over " + name, done.returncode == 0, done.stdout)


def structs_of(lines):
    """Lines of `STRUCT FIELD OFFSET SIZE`, without order."""
    return sorted(line for line in lines if line)


def check_declared(counts, elfsee):
    """What the module and the crate declare is what the header declares: each call, its arguments and its answer, each
    struct, its fields, their offsets and sizes; and the numbers with names. A width that differs is found."""
    header = file_content(os.path.join(LIBRARY, "elfsee.h")).decode()
    raw = file_content(os.path.join(LIBRARY, "rust", "src", "raw.rs")).decode()
    counts.same("what Python declares", [], declared.wrong_in_python(elfsee, header))
    counts.same("what Rust declares", [], declared.wrong_in_rust(raw, header))
    calls, structs, numbers = (each(header) for each in (declared.calls_of_header, declared.structs_of_header,
                                                         declared.numbers_of_header))
    counts.same("calls and structs that are read", (header.count("struct elfsee_end *end);") + header.count("(void);"), len(structs)),
                (sum(1 for _, given in calls.values() if not given or given[-1][1] == "end"), header.count("\nstruct elfsee_")))
    causes = {name: numbers.get(name) for name in elfsee.Cause.__members__}
    counts.same("numbers of causes", causes, {name: int(cause) for name, cause in elfsee.Cause.__members__.items()})
    parts = {name: numbers[name] for name in ("HEADER", "SECTIONS", "SEGMENTS", "SYMBOLS", "RELOCS", "NOTES", "DYNAMIC", "VERSIONS", "ALL")}
    counts.same("numbers of parts", parts, {name: getattr(elfsee, name) for name in parts})
    for old, new, wrong in (("uint16_t parts, uint8_t *room", "uint8_t parts, uint8_t *room", "elfsee_show: parts"),
                            ("uint64_t elfsee_cost", "uint32_t elfsee_cost", "elfsee_cost: the answer"),
                            ("struct elfsee_found *found", "struct elfsee_range *found", "elfsee_find: found"),
                            ("    int64_t tag;", "    uint64_t tag;", "struct elfsee_dynamic: tag"),
                            ("    uint8_t ident[16];", "    uint8_t ident[24];", "struct elfsee_header: ident")):
        other = header.replace(old, new)
        counts.same("a declaration that differs in Python", (True, True),
                    (other != header, wrong in declared.wrong_in_python(elfsee, other)))
        counts.same("a declaration that differs in Rust", [wrong.split(":")[0]], declared.wrong_in_rust(raw, other))


def check_structs(counts, elfsee, folder, layout_in_rust):
    """The structs of both callers lie as C has them, and as the header is read here."""
    if not shutil.which("gcc"):
        print("not run: the structs' layout, as gcc is missing")
        return
    path = os.path.join(folder, "layout")
    subprocess.run(["gcc", "-I", LIBRARY, "-o", path, os.path.join(LIBRARY, "layout.c")], check=True)
    wanted = structs_of(run(path)[1].decode().split("\n"))
    got = []
    for kind in elfsee.STRUCTS:
        got.append("%s . 0 %d" % (kind.__name__, elfsee.ctypes.sizeof(kind)))
        got += ["%s %s %d %d" % (kind.__name__, name, getattr(kind, name).offset, getattr(kind, name).size)
                for name, _ in kind._fields_]
    counts.same("structs in Python", wanted, structs_of(got))
    header = file_content(os.path.join(LIBRARY, "elfsee.h")).decode()
    counts.same("structs of the header", wanted, declared.lines_of_layouts(declared.structs_of_header(header)))
    if layout_in_rust:
        counts.same("structs in Rust", wanted, structs_of(run(layout_in_rust)[1].decode().split("\n")))
