"""Cases of tests/gate/library.py: what the library exports and imports, its header, and how structs are laid out."""

import glob
import os
import re
import shutil

import declared
from library_cases.header import LIBRARY, read, run, same, write
from testing import TOP

# What the shared library may take of the C library.
TAKEN = {"memcpy", "memmove", "memset", "memcmp", "bcmp"}


def check_symbols(counts, built):
    """What the libraries export and import."""
    of_header = set(re.findall(r"^(?:uint32_t|uint64_t|size_t) (elfsee_\w+)\(", read(LIBRARY, "elfsee.h"), re.M))
    has = run(["nm", "-D", "--defined-only", built.shared]).stdout.decode()
    # The version itself is an absolute symbol.
    lines = [line for line in has.splitlines() if not re.search(r" A ELFSEE_0(@@ELFSEE_0)?$", line)]
    defined = {line.split()[2].split("@")[0] for line in lines}
    counts.case("the shared library has what the header has", same(sorted(of_header), sorted(defined)))
    counts.case("it has functions alone", same({"T"}, {line.split()[1] for line in lines}))
    wants = run(["nm", "-D", "--undefined-only", built.shared]).stdout.decode()
    wanted = {line.split()[-1].split("@")[0] for line in wants.splitlines()}
    counts.case("it wants no memory and nothing of the system", same([], sorted(wanted - TAKEN)))
    has = run(["nm", "-g", "--defined-only", built.archive]).stdout.decode()
    names = {line.split()[2] for line in has.splitlines() if len(line.split()) == 3}
    counts.case("the archive has no other names", same(sorted(of_header), sorted(names)))
    kinds = {line.split()[1] for line in run(["nm", "--defined-only", built.archive]).stdout.decode().splitlines()
             if len(line.split()) == 3}
    counts.case("it has no data that is written", same([], sorted(kinds & set("bBdDcC"))))
    code = run(["objdump", "-d", "--no-show-raw-insn", built.shared]).stdout.decode()
    asks = re.findall(r"\t(?:syscall|sysenter|int +\$0x80)\b", code)
    counts.case("it has no instruction that asks the system", same([], asks))
    said = run(["readelf", "-dW", built.shared]).stdout.decode() + run(["readelf", "-lW", built.shared]).stdout.decode()
    for name, form in (("its name", r"SONAME.*\[libelfsee\.so\.0\]"), ("bound at once", r"FLAGS_1.*NOW"),
                       ("its tables are read only", r"GNU_RELRO"), ("no stack that runs", r"GNU_STACK.* RW ")):
        counts.case(f"the shared library: {name}", "" if re.search(form, said) else "it is not so")


# Each standard of both languages, by the compilers' words, and the other arguments of each compiler.
STANDARDS = {"c": ("c89", "c99", "c11", "c17", "c2x"),
             "c++": ("c++98", "c++03", "c++11", "c++14", "c++17", "c++20")}
WARNINGS = ("-Wall", "-Wextra", "-pedantic", "-Wshadow", "-Wconversion", "-Werror")


def check_header(counts, built):
    """The header by itself, as each standard of C and of C++, by two compilers."""
    header = read(LIBRARY, "elfsee.h")
    structs = re.findall(r"^struct elfsee_(\w+) \{", header, re.M)
    source = os.path.join(built.room, "header.c")
    # Each struct is named; in C++ also as a type, which a call of that name does not hide.
    named = "".join(f"struct elfsee_{name} a_{name};\n" for name in structs)
    typed = "".join(f"elfsee::{name} *as_{name} = &a_{name};\n" for name in structs)
    write(source, ("#include <elfsee.h>\n#include <elfsee.h>\n" + named + "#ifdef __cplusplus\n" + typed
                   + "#endif\nint main(void) { return elfsee_version() == 0; }\n").encode())
    for language, compilers in (("c", ("gcc", "clang")), ("c++", ("g++", "clang++"))):
        for compiler in compilers:
            if not shutil.which(compiler):
                print(f"skipped the header with {compiler}: it is not here")
                continue
            for standard in STANDARDS[language]:
                path = os.path.join(built.room, "header")
                done = run([compiler, "-x", language, f"-std={standard}", *WARNINGS, f"-I{LIBRARY}", "-o", path, source,
                            "-x", "none", built.shared, f"-Wl,-rpath,{os.path.dirname(built.shared)}"])
                said = done.stderr.decode() or ("" if run([path]).returncode == 0 else "it does not run")
                counts.case(f"the header, {compiler} -std={standard}", said[:500])


# A later library of the next name, which has one call and another version.
LATER = "unsigned elfsee_version(void) { return 0x010000; }\n"
# What uses one of the two, and the program that uses both of these.
USES = "unsigned elfsee_version(void);\nunsigned %s(void) { return elfsee_version(); }\n"
BOTH = ("unsigned of_this(void), of_later(void);\n"
        "int main(void) { return of_this() >> 16 == 0 && of_later() >> 16 == 1 ? 0 : 1; }\n")


def check_versions(counts, built):
    """Each symbol has the version of the library's name, so that a later library can be in the same process."""
    told = run(["readelf", "--dyn-syms", "-W", built.shared]).stdout.decode()
    versions = set(re.findall(r" (?:FUNC|NOTYPE) .* (?!UND)\w+ elfsee_\w+?(@.*)?$", told, re.M))
    counts.case("each symbol has the version ELFSEE_0", same({"@@ELFSEE_0"}, versions))
    room = os.path.join(built.room, "two_versions")
    os.mkdir(room)
    shutil.copy(built.shared, os.path.join(room, "libelfsee.so.0"))
    shared = ["gcc", "-shared", "-fPIC", f"-Wl,-rpath,{room}", "-o"]
    sources = {"later": LATER, "this": USES % "of_this", "that": USES % "of_later", "both": BOTH}
    for name, text in sources.items():
        write(os.path.join(room, name + ".c"), text.encode())
    write(os.path.join(room, "later.map"), read(LIBRARY, "elfsee.map").replace("ELFSEE_0", "ELFSEE_1").encode())
    for words in ([*shared, "libelfsee.so.1", "later.c", "-Wl,-soname,libelfsee.so.1,--version-script,later.map"],
                  [*shared, "libthis.so", "this.c", "libelfsee.so.0"],
                  [*shared, "libthat.so", "that.c", "libelfsee.so.1"],
                  ["gcc", f"-Wl,-rpath,{room}", "-o", "both", "both.c", "libthis.so", "libthat.so"],
                  ["gcc", f"-Wl,-rpath,{room}", "-o", "turned", "both.c", "libthat.so", "libthis.so"]):
        done = run(words, cwd=room)
        if done.returncode != 0:
            counts.case("libraries of two versions", done.stderr.decode()[:500])
            return
    for name in ("both", "turned"):
        done = run([os.path.join(room, name)])
        counts.case(f"libraries of two versions in one process: {name}", same(0, done.returncode))


SIZES = {"u8": 1, "u16": 2, "u32": 4, "u64": 8, "i64": 8, "usize": 8}
# A struct that the crate reads as bytes, field by field, as many as it knows; and one that is a slice there.
AS_BYTES = {"elfsee_listing": [("parts", "u16"), ("flags", "u16")], "elfsee_text": [("bytes", "usize"), ("len", "usize")]}


def structs_of_crate():
    """The structs of the crates that C knows, by the names of the header, each with its fields and their types."""
    structs = {}
    for path in sorted(each for name in ("elf_archive", "elf_capi", "elf_image", "elf_layout", "elf_record", "elf_table")
                       for each in glob.glob(os.path.join(TOP, "crates", name, "src/*.rt"))):
        source = re.sub(r"\s*//[^\n]*", "", read(path))
        for word, body in re.findall(r"#\[repr\(C\)\][^{;]*?\bstruct (\w+)[^{;]*\{(.*?)\n\}", source, re.S):
            name = "elfsee_" + declared.IN_C.get(word, word.lower())
            fields = re.findall(r"(?:pub(?:\(crate\))? )?(\w+): ([^,\n]+),", body)
            structs[name] = [(declared.record_field_in_c(field), of) for field, of in fields if not field.startswith("ident_")]
            # The identification is the last field in C, and in the crate several, of bytes, at the end.
            ident = [of for field, of in fields if field.startswith("ident_")]
            if ident and fields[-1][0].startswith("ident_") and all(re.fullmatch(r"u8|\[u8; \d+\]", of) for of in ident):
                size = sum(int(of[5:-1]) if of.startswith("[") else 1 for of in ident)
                structs[name].append(("ident", f"[u8; {size}]"))
    return structs | AS_BYTES


def laid_out(structs, name):
    """The fields of a struct of the crate as C lays them out: offsets and sizes, a slice as a pointer and a
    length; and its alignment and size."""
    at, widest, fields = 0, 1, []
    for field, of in structs[name]:
        array = re.fullmatch(r"\[(\w+); (\d+)\]", of)
        if of.startswith("&"):
            parts = [(field, 8, 8), (field + "_len", 8, 8)]
        elif array:
            parts = [(field, SIZES[array[1]] * int(array[2]), SIZES[array[1]])]
        elif of in SIZES:
            parts = [(field, SIZES[of], SIZES[of])]
        else:
            _, alignment, size = laid_out(structs, "elfsee_" + declared.IN_C.get(of, of.lower()))
            parts = [(field, size, alignment)]
        for word, size, alignment in parts:
            at += -at % alignment
            fields.append((word, at, size))
            at, widest = at + size, max(widest, alignment)
    return fields, widest, at + -at % widest


def check_layout(counts, built):
    path, said = built.program("library/layout.c")
    if path is None:
        counts.case("how the structs are laid out", said)
        return
    wanted = {}
    for line in run([path]).stdout.decode().splitlines():
        struct_name, field, offset, size = line.split()
        wanted.setdefault(struct_name, []).append((field, int(offset), int(size)))
    of_header = set(re.findall(r"^struct (\w+) \{", read(LIBRARY, "elfsee.h"), re.M))
    counts.case("each struct of the header is laid out", same(sorted(of_header), sorted(wanted)))
    structs = structs_of_crate()
    asked = read(TOP, "crates", "elf_capi", "src", "asked.rt")
    known = int(re.search(r"KNOWN_BYTES: usize = (\d+);", asked)[1])
    places = sorted(map(int, re.findall(r"u16_at\(asked, (\d+)\)", asked)))
    fields, _, size = laid_out(structs, "elfsee_listing")
    counts.case("the bytes of a listing are read where the header has them", same([known, *places], [size, *[at for _, at, _ in fields]]))
    for name, fields in wanted.items():
        if name not in structs:
            counts.case(f"{name} is in the crate", f"it has {sorted(structs)}")
            continue
        got, _, size = laid_out(structs, name)
        # `type` is no name of a field in the crate's language.
        if any(field == "type" for field, _, _ in fields):
            got = [("type" if field == "kind" else field, at, width) for field, at, width in got]
        counts.case(f"{name} is laid out as in the crate", same(fields, [(".", 0, size), *got]))
