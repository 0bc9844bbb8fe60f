"""The declarations of library/elfsee.h, and those of the callers in Python and Rust for the same.

The header is parsed here, without a compiler: each call with the types of its arguments and of its result, each
struct with its fields, their types, offsets and sizes, and each number with a name. Types are written as in C, such as
`uint16_t`, `const uint8_t *` or `struct elfsee_rows *`.
"""

import ctypes
import re

SIZES = {"uint8_t": 1, "uint16_t": 2, "uint32_t": 4, "uint64_t": 8, "int64_t": 8, "size_t": 8}
# The types of the crate in C's words.
OF_RUST = {"u8": "uint8_t", "u16": "uint16_t", "u32": "uint32_t", "u64": "uint64_t", "i64": "int64_t", "usize": "size_t"}
# The structs that have another name in the crates, in which other things have the short one.
IN_C = {"LookupFields": "found", "CallerLimits": "limits", "CallerItem": "item", "ByteRange": "range", "RowPosition": "rows",
        "NotePosition": "notes", "MemberPosition": "members", "MemberRow": "member", "CallerLayout": "layout",
        "CallerMissing": "missing", "LentSection": "lent_section", "LentName": "lent_name",
        "CallerImageItems": "image_items", "NumberItem": "image_item", "CopyItem": "copied", "LackingRow": "lacking",
        "ShortEntry": "short_relocation", "CallEnd": "end", "ApplyCall": "job", "Versym": "version_word",
        "VersionRecordPosition": "version_records", "RecordRow": "version_record", "Ehdr": "header", "Shdr": "section",
        "Phdr": "segment", "Sym": "symbol", "Rela": "relocation", "Dyn": "dynamic"}
# Fields that C calls `kind` too; each other `kind` of the crate is C's `type`.
KINDS = ("elfsee_item", "elfsee_image_item", "elfsee_version_record", "elfsee_version_records")


# Fields of the records that C gives another name; the others lose what is before the first `_`.
OF_RECORDS = {"st_shndx": "section", "d_un": "value"}


def record_field_in_c(field):
    """The name in C of a field of a record, as `sh_flags`; that of another field is the same."""
    return OF_RECORDS.get(field) or re.sub(r"^(?:e|sh|p|st|r|d)_", "", field)


def without_comments(text):
    return re.sub(r"/\*.*?\*/|//[^\n]*", " ", text, flags=re.S)


# ---------------------------------------------------------------------------
# The header.

def typed(text):
    """The type and the name of a declaration, as `const uint8_t *file`."""
    kind, name = re.fullmatch(r"\s*(.*?[\s*])(\w+)\s*", text, re.S).groups()
    return re.sub(r"\s*\*", " *", " ".join(kind.split())), name


def calls_of_header(text):
    """Of each call the type of its answer, and the types and names of its arguments."""
    found = re.findall(r"^([a-z0-9_]+) (elfsee_\w+)\(([^;{}]*)\);", without_comments(text), re.M)
    return {name: (answer, [] if given.strip() == "void" else [typed(each) for each in given.split(",")])
            for answer, name, given in found}


def structs_of_header(text):
    """Of each struct its fields: a type, a name, and how many of them where it is an array, else None."""
    structs = {}
    for name, body in re.findall(r"^struct (elfsee_\w+) \{(.*?)^\};", without_comments(text), re.M | re.S):
        structs[name] = []
        for line in filter(str.strip, body.split(";")):
            first, *others = line.split(",")
            count = re.search(r"\[(\d+)\]", first)
            kind, field = typed(re.sub(r"\[\d+\]", "", first))
            structs[name] += [(kind, each.strip(), int(count[1]) if count else None) for each in (field, *others)]
    return structs


def numbers_of_header(text):
    """The numbers that have names, without `ELFSEE_` before them."""
    numbers = {}
    for body in re.findall(r"^enum \{(.*?)\};", without_comments(text), re.M | re.S):
        last = -1
        for each in filter(str.strip, body.split(",")):
            name, _, number = (part.strip() for part in each.partition("="))
            last = numbers[name.removeprefix("ELFSEE_")] = int(number) if number else last + 1
    return numbers


def size_of(kind, structs):
    """The size and the alignment of a type, as the psABI for x86-64 has them."""
    if kind.endswith("*"):
        return 8, 8
    if kind in SIZES:
        return SIZES[kind], SIZES[kind]
    rows = layout_of(kind.removeprefix("struct "), structs)
    return rows[0][2], max(size_of(each, structs)[1] for each, _, _ in structs[kind.removeprefix("struct ")])


def layout_of(name, structs):
    """The whole of a struct and then its fields: a name, an offset and a size."""
    rows, at, most = [], 0, 1
    for kind, field, count in structs[name]:
        size, align = size_of(kind, structs)
        at, most = -(-at // align) * align, max(most, align)
        rows.append((field, at, size * (count or 1)))
        at += size * (count or 1)
    return [(".", 0, -(-at // most) * most), *rows]


def lines_of_layouts(structs):
    """The lines `STRUCT FIELD OFFSET SIZE` of library/layout.c, by the header alone."""
    return sorted("%s %s %d %d" % (name, *row) for name in structs for row in layout_of(name, structs))


# ---------------------------------------------------------------------------
# The module for Python.

def fits_in_python(kind, given):
    """Whether a type of ctypes is that of C. Bytes that are lent may be of any kind, and those of a `bytes` object are
    never written."""
    if kind.endswith(" *"):
        if given is ctypes.c_void_p:
            return True
        if given is ctypes.c_char_p:
            return kind == "const uint8_t *"
        of = kind.removeprefix("const ").removesuffix(" *")
        return issubclass(given, ctypes._Pointer) and fits_in_python(of, given._type_)
    if kind.startswith("struct "):
        return issubclass(given, ctypes.Structure) and given.__name__ == kind.removeprefix("struct ")
    is_signed = kind.startswith("int")
    kinds = [each for each in vars(ctypes).values() if isinstance(each, type) and issubclass(each, ctypes._SimpleCData)]
    return given in kinds and given._type_ in ("bhilq" if is_signed else "BHILQ") and ctypes.sizeof(given) == SIZES[kind]


def wrong_in_python(elfsee, text):
    """What the module declares otherwise than the header, in words."""
    calls, structs, wrong = calls_of_header(text), structs_of_header(text), []
    for name, (answer, *given) in elfsee._CALLS.items():
        wanted = calls.get("elfsee_" + name)
        if wanted is None or len(given) != len(wanted[1]):
            wrong.append("elfsee_%s: as many arguments" % name)
            continue
        places = [(answer, wanted[0], "the answer"), *((each, *one) for each, one in zip(given, wanted[1]))]
        wrong += ["elfsee_%s: %s" % (name, what) for each, kind, what in places if not fits_in_python(kind, each)]
    by_name = {kind.__name__: kind for kind in elfsee.STRUCTS}
    wrong += ["struct %s: is there" % name for name in set(structs) ^ set(by_name)]
    for name in set(structs) & set(by_name):
        fields = by_name[name]._fields_
        if [field for field, _ in fields] != [field for _, field, _ in structs[name]]:
            wrong.append("struct %s: its fields" % name)
            continue
        for (field, given), (kind, _, count) in zip(fields, structs[name]):
            of = given._type_ if count and issubclass(given, ctypes.Array) else given
            if not fits_in_python(kind, of) or (count or 1) != getattr(given, "_length_", 1):
                wrong.append("struct %s: %s" % (name, field))
        rows = [(".", 0, ctypes.sizeof(by_name[name])), *((field, getattr(by_name[name], field).offset,
                                                           getattr(by_name[name], field).size) for field, _ in fields)]
        if rows != layout_of(name, structs):
            wrong.append("struct %s: offsets and sizes" % name)
    return wrong


# ---------------------------------------------------------------------------
# The crate for Rust.

def in_c(kind):
    """A type of the crate in C's words, and how many of them where it is an array."""
    kind = kind.strip()
    if array := re.fullmatch(r"\[(\w+); (\d+)\]", kind):
        return in_c(array[1])[0], int(array[2])
    if pointer := re.fullmatch(r"\*(const|mut) (\w+)", kind):
        return ("const " if pointer[1] == "const" else "") + in_c(pointer[2])[0] + " *", None
    return OF_RUST.get(kind) or "struct elfsee_" + re.sub(r"(?<=.)(?=[A-Z])", "_", kind).lower(), None


def field_in_c(struct, field):
    return "type" if field == "kind" and struct not in KINDS else field


def wrong_in_rust(raw, text):
    """What library/rust/src/raw.rs declares otherwise than the header, in words."""
    raw, calls, structs, wrong = without_comments(raw), calls_of_header(text), structs_of_header(text), []
    ours = {}
    for name, given, answer in re.findall(r"^    pub fn (elfsee_\w+)\((.*?)\) -> (\w+);", raw, re.M | re.S):
        pairs = [each.split(":") for each in filter(str.strip, given.split(","))]
        ours[name] = in_c(answer)[0], [(in_c(kind)[0], argument.strip()) for argument, kind in pairs]
    wrong += ["%s: is there" % name for name in set(calls) ^ set(ours)]
    wrong += [name for name in set(calls) & set(ours) if calls[name] != ours[name]]
    theirs = {}
    for front, name, body in re.findall(r"((?:^#\[[^\n]*\]\n)*)^pub struct (\w+) \{(.*?)^\}", raw, re.M | re.S):
        struct = in_c(name)[0].removeprefix("struct ")
        if "#[repr(C)]" not in front:
            wrong.append("struct %s: repr(C)" % struct)
        pairs = re.findall(r"pub (\w+): ([^,;]+(?:; \d+\])?),", body)
        theirs[struct] = [(in_c(kind)[0], field_in_c(struct, field), in_c(kind)[1]) for field, kind in pairs]
    wrong += ["struct %s: is there" % name for name in set(structs) ^ set(theirs)]
    wrong += ["struct %s" % name for name in set(structs) & set(theirs) if structs[name] != theirs[name]]
    numbers = numbers_of_header(text)
    wrong += ["%s: its number" % name for name, number in re.findall(r"^pub const (\w+): u32 = (\d+);", raw, re.M)
              if numbers.get(name) != int(number)]
    return sorted(wrong)
