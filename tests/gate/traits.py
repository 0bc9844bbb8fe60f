#!/usr/bin/env python3
"""Compares `elfsee traits` with `readelf`, and if it is installed with `hardening-check`.

    tests/gate/traits.py [--program PROGRAM] [--hardening PROGRAM] [--quick] [--time FOLDER] [FOLDER OR FILE..]

Each column of a T line is computed once more from `readelf -hSlWdn --dyn-syms`: the kind from the file's type,
SONAME, INTERP and the flag PIE; relro from GNU_RELRO with BIND_NOW or NOW; stack and pages from the flags of segments;
text from TEXTREL; cet from the x86 features of the notes; canary and fortify from the dynamic symbols; rpath from the
entries. The stack of a relocatable file is that of its first section named `.note.GNU-stack`. Without arguments all files of the machine that begin as ELF files do are compared, except those of /proc, /sys
and /dev. A file that elfsee refuses has a C line, with the place and the cause: it is counted and reported, and no row is
compared. `readelf` uses section headers if there are some, and elfsee segments, as a loader does: for a file without a
DYNAMIC segment, or without a hash table, what readelf has by its sections is left out, and the file is reported.

--hardening names `hardening-check` of Debian's package devscripts (without the option the one on the path, if there is
one): its words for PIE, canary, relro, immediate binding and control flow are compared with the columns too, over
files that are programs and libraries. What it says differently by its own rules is reported in one line for each rule,
with the number of files.

First come generated files: what `--require` finds lacking and the status, directories and lists, files of other kinds,
short, refused and unread ones, `--max-read`, `--json`, paths that cannot be named, programs that export nothing (by gcc).
--quick runs only these, as ./check does.
--time measures `traits --require relro=full,stack=nx,pages=w^x FOLDER` and `check FOLDER`, five runs of each, and
requires that it takes at most twice as long. It needs Python 3, and Debian's binutils if files of the machine are
compared. The last line is `N passed, N failed`."""

import collections
import concurrent.futures
import json
import os
import re
import shutil
import struct
import subprocess
import sys
import tempfile
import time

sys.dont_write_bytecode = True
sys.path.insert(0, os.path.join(os.path.dirname(os.path.realpath(__file__)), "..", "common"))
from machine_files import elf_files
from made_archives import spelt
from testing import Counts, option_reader, program_of

MAGIC = b"\x7fELF"
COLUMNS = ("kind", "relro", "stack", "pages", "text", "cet", "canary", "fortify", "rpath")
ROW = re.compile(rb"T (.{6}) (.{7}) (.{5}) (.{5}) (.{5}) (.{9}) (.{6}) (.{7}) (.{7}) (.*)", re.S)
REFUSED = re.compile(rb"C (\S+) +(?:([0-9a-f]{16} [a-z0-9-]+)|-) (.*)", re.S)
GUARDS = {"__stack_chk_fail", "__stack_chk_guard"}


def run(program, *words, given=b"", **more):
    """Standard output, the exit status and standard error of `traits`."""
    done = subprocess.run([program, "traits", *words], input=given, stdout=subprocess.PIPE, stderr=subprocess.PIPE,
                          timeout=1200, **more)
    return done.stdout, done.returncode, done.stderr


# ---------------------------------------------------------------------------
# The columns by the words of `readelf`.

def readelf(path):
    words = ["readelf", "-hSlWdn", "--dyn-syms", "--", path]
    done = subprocess.run(words, stdin=subprocess.DEVNULL, stdout=subprocess.PIPE, stderr=subprocess.PIPE, timeout=300,
                          env={**os.environ, "LC_ALL": "C"})
    return done.stdout.decode("latin-1"), done.stderr.decode("latin-1")


def segments_of(text):
    """Type and flags of each program header."""
    found = re.search(r"^Program Headers:\n +Type [^\n]*\n(.*?)(?:\n\n|\n Section to Segment|\Z)", text, re.S | re.M)
    rows = []
    for line in found[1].split("\n") if found else []:
        row = re.match(r"  (\S+) +0x\w+ 0x\w+ 0x\w+ 0x\w+ 0x\w+ (.)(.)(.) ", line)
        if row:
            rows.append((row[1], row[2] + row[3] + row[4]))
    return rows


def entries_of(text):
    """The dynamic entries: tag and what is after it."""
    return re.findall(r"^ 0x\w{16} \((\S+)\) *(.*)$", text, re.M)


def symbols_of(text):
    """The names of the dynamic symbols, each with whether it is undefined."""
    found = re.search(r"^Symbol table '[^\n]*\n[^\n]*\n(.*?)(?:\n\n|\Z)", text, re.S | re.M)
    rows = []
    for line in found[1].split("\n") if found else []:
        row = re.match(r" *(\d+): \w+ +\w+ +\S+ +\S+ +\S+ +(?:\[.*?\] +)?(\S+) (\S+)", line)
        if row and row[1] != "0":
            rows.append((row[3].split("@")[0], row[2] == "UND"))
    return rows


def stack_of_object(text, machine):
    """The stack of a relocatable file, by its sections."""
    section = re.search(r"^  \[ *\d+\] \.note\.GNU-stack +\S+ +\w+ \w+ \w+ \w+ +([A-Za-z]*) +\d+ +\d+ +\d+$", text, re.M)
    if section:
        return "exec" if "X" in section[1] else "nx"
    return "exec" if "X86-64" in machine or "80386" in machine else "-"


def kind_of(file_type, types, tags, flags_1):
    if file_type == "DYN":
        if "SONAME" in tags:
            return "lib"
        if "INTERP" in types:
            return "pie"
        return "static" if "PIE" in flags_1 else "lib"
    if file_type == "EXEC":
        return "exec" if "INTERP" in types else "static"
    return {"REL": "object", "CORE": "core"}.get(file_type, "other")


def columns_of(path, text):
    """The columns, and whether there are dynamic entries by a segment."""
    file_type = re.search(r"^  Type: +(\S+)", text, re.M)[1]
    machine = re.search(r"^  Machine: +(.*)$", text, re.M)[1]
    segments = segments_of(text)
    types = [segment for segment, _ in segments]
    is_dynamic = "DYNAMIC" in types
    entries = entries_of(text) if is_dynamic else []
    tags = {tag for tag, _ in entries}
    flags = " ".join(more for tag, more in entries if tag == "FLAGS").split()
    flags_1 = " ".join(more for tag, more in entries if tag == "FLAGS_1").split()
    now = "BIND_NOW" in tags or "BIND_NOW" in flags or "NOW" in flags_1
    row = {"kind": kind_of(file_type, types, tags, flags_1)}
    if segments:
        stacks = [flag for segment, flag in segments if segment == "GNU_STACK"]
        row["relro"] = ("full" if now else "partial") if "GNU_RELRO" in types else "none"
        row["stack"] = "exec" if not stacks or "E" in stacks[0] else "nx"
        row["pages"] = "wx" if any(s == "LOAD" and "W" in f and "E" in f for s, f in segments) else "w^x"
        row["text"] = "patch" if "TEXTREL" in tags or "TEXTREL" in flags else "fixed"
    else:
        row.update(relro="-", stack="-", pages="-", text="-")
    if file_type == "REL":
        row["stack"] = stack_of_object(text, machine)
    feature = re.search(r"x86 feature: ([^\n]*)", text) if "X86-64" in machine and "NOTE" in types else None
    words = [word.lower() for word in re.findall(r"IBT|SHSTK", feature[1])] if feature else []
    row["cet"] = "+".join(words) or "-"
    symbols = symbols_of(text) if is_dynamic and tags & {"HASH", "GNU_HASH"} else []
    row["canary"] = "canary" if any(name in GUARDS for name, _ in symbols) else "-"
    row["fortify"] = "fortify" if any(undefined and name.startswith("__") and name.endswith("_chk")
                                      and name not in GUARDS for name, undefined in symbols) else "-"
    row["rpath"] = "runpath" if "RUNPATH" in tags else "rpath" if "RPATH" in tags else "-"
    return row


# ---------------------------------------------------------------------------
# The files of the machine.

def told_of(program, paths):
    """By path: the row, or the text of the C line."""
    given = b"".join(os.fsencode(path) + b"\0" for path in paths)
    out, _, errors = run(program, "--headers", "65279", "--files0-from", "-", given=given)
    if errors:
        sys.exit(f"tests/gate/traits.py: standard error: {errors!r}")
    found = {}
    for line in out.split(b"\n")[:-1]:
        row, refused = ROW.fullmatch(line), REFUSED.fullmatch(line)
        if row:
            found[row[10]] = dict(zip(COLUMNS, (cell.rstrip().decode() for cell in row.groups()[:9])))
        elif refused:
            found[refused[3]] = (refused[2] or refused[1]).decode()
        else:
            found[line] = "no line"
    return found


def hardening_words(program, path):
    done = subprocess.run([program, "--", path], stdin=subprocess.DEVNULL, stdout=subprocess.PIPE,
                          stderr=subprocess.DEVNULL, timeout=600, env={**os.environ, "LC_ALL": "C"})
    return dict(re.findall(r"^ ([A-Z][^:\n]*): ([^\n]*)$", done.stdout.decode("latin-1"), re.M))


def compare_hardening(row, words, rules):
    """What hardening-check says otherwise; a rule of its own that differs is counted in `rules`."""
    wrong = []

    def same(what, mine, its):
        if mine != its:
            wrong.append(f"{what}: elfsee {mine}, hardening-check {its}")

    if row["kind"] not in ("exec", "pie", "static", "lib") or "Read-only relocations" not in words:
        return wrong
    # A file without program headers has `-`.
    has_relro = row["relro"] in ("full", "partial")
    same("relro", has_relro, words["Read-only relocations"] == "yes")
    if has_relro:
        same("now", row["relro"] == "full", words["Immediate binding"] == "yes")
    pie = words["Position Independent Executable"]
    same("fixed addresses", pie == "no, normal executable!", row["kind"] == "exec" or
         (row["kind"] == "static" and pie == "no, normal executable!"))
    if pie.startswith("yes") and row["kind"] == "lib":
        rules["a library with a PHDR segment, or a static one without PIE, is a program to it"] += 1
    if pie.startswith("no, regular") and row["kind"] in ("pie", "static"):
        rules["a program without a PHDR segment is a library to it"] += 1
    canary = words["Stack protected"].startswith("yes")
    if canary != (row["canary"] == "canary"):
        rules["it takes symbols of .symtab, and functions that are needed alone, for the canary"] += 1
    fortify = words["Fortify Source functions"].startswith("yes")
    if fortify != (row["fortify"] == "fortify"):
        rules["it knows some functions of the C library by name, and takes symbols of .symtab, for fortify"] += 1
    return wrong


def compare(path, told, hardening):
    """What disagrees in one file, and the rules of hardening-check that were met."""
    rules = collections.Counter()
    if told is None:
        return ["no line"], rules
    text, errors = readelf(path)
    if isinstance(told, str):
        return [], rules
    wanted = columns_of(path, text)
    wrong = [f"{column}: elfsee {told[column]}, readelf {wanted[column]}" for column in COLUMNS
             if told[column] != wanted[column]]
    if wrong and errors:
        wrong.append("readelf: " + errors.split("\n")[0])
    if hardening:
        wrong += compare_hardening(told, hardening_words(hardening, path), rules)
    return wrong, rules


def is_64(path):
    with open(path, "rb") as file:
        front = file.read(6)
    return front[4:6] == b"\2\1"


def check_machine(counts, program, places, hardening):
    if not shutil.which("readelf"):
        print("skipped: no readelf, so no file of the machine is compared")
        return
    paths = sorted(elf_files(places or ["/"]))
    told = told_of(program, paths)
    refused, kinds, rules, gone = collections.Counter(), collections.Counter(), collections.Counter(), 0
    with concurrent.futures.ThreadPoolExecutor(os.cpu_count() or 1) as pool:
        rows = [told.get(spelt(os.fsencode(path))) for path in paths]
        answers = pool.map(compare, paths, rows, [hardening] * len(paths))
        for path, row, (wrong, met) in zip(paths, rows, answers):
            # A file may be removed while the others are compared.
            if not os.path.exists(path):
                gone += 1
                continue
            rules.update(met)
            if isinstance(row, str):
                refused[row if not is_64(path) else f"{row} {path}"] += 1
            else:
                kinds[row["kind"]] += 1
            counts.check(path, [], wrong)
    for rule, count in sorted(rules.items()):
        print(f"{count} files: {rule}")
    for line, count in sorted(refused.items()):
        print(f"{count} refused: {line}")
    print(f"{len(paths)} files, {gone} removed meanwhile,", ", ".join(f"{count} {kind}" for kind, count in sorted(kinds.items())))


# ---------------------------------------------------------------------------
# Made files.

def program_header(kind, flags, offset=0, size=0, address=0):
    return struct.pack("<IIQQQQQQ", kind, flags, offset, address, address, size, size, 8)


def made(file_type=3, headers=(), entries=(), machine=62):
    """A file of some program headers, with one of dynamic entries if there are such."""
    headers = list(headers)
    count = len(headers) + bool(entries)
    end = 64 + 56 * count
    if entries:
        headers.append(program_header(2, 6, end, 16 * len(entries), end))
    front = MAGIC + b"\2\1\1" + bytes(9) + struct.pack(
        "<HHIQQQIHHHHHH", file_type, machine, 1, 0, 64 if count else 0, 0, 0, 64, 56, count, 64, 0, 0)
    return front + b"".join(headers) + b"".join(struct.pack("<QQ", *entry) for entry in entries)


def object_of(sections, machine=62, names=True):
    """A relocatable file of some sections, each a name and flags, and of their names."""
    strings = b"\0" + b"".join(name + b"\0" for name, _ in sections)
    at, start, headers = 64 + len(strings), 1, [bytes(64)]
    for name, flags in sections:
        headers.append(struct.pack("<IIQQQQIIQQ", start, 1, flags, 0, 64, 0, 0, 0, 1, 0))
        start += len(name) + 1
    headers.append(struct.pack("<IIQQQQIIQQ", 0, 3, 0, 0, 64, len(strings), 0, 0, 1, 0))
    return MAGIC + b"\2\1\1" + bytes(9) + struct.pack(
        "<HHIQQQIHHHHHH", 1, machine, 1, 0, 0, at, 0, 64, 0, 0, 64, len(headers),
        len(headers) - 1 if names else 0) + strings + b"".join(headers)


def put(top, files):
    for name, content in files.items():
        path = os.path.join(top, name)
        os.makedirs(os.path.dirname(path), exist_ok=True)
        with open(path, "wb") as file:
            file.write(content)


def line(kind, relro, stack, pages, text, cet, canary, fortify, rpath, path):
    return f"T {kind:6} {relro:7} {stack:5} {pages:5} {text:5} {cet:9} {canary:6} {fortify:7} {rpath:7} {path}"


INTERP, LOAD, STACK, RELRO = 3, 1, 0x6474e551, 0x6474e552
PIE = made(headers=[program_header(INTERP, 4), program_header(STACK, 6), program_header(RELRO, 4)],
           entries=[(24, 0), (29, 1), (0, 0)])
PIE_WORDS = ("pie", "full", "nx", "w^x", "fixed", "-", "-", "-", "runpath")
WEAK = made(2, [program_header(LOAD, 7, 0, 64)])
WEAK_WORDS = ("static", "none", "exec", "wx", "fixed", "-", "-", "-", "-")
OBJECT = made(1)
OBJECT_WORDS = ("object", "-", "exec", "-", "-", "-", "-", "-", "-")


STACKS = (
    ("nx", object_of([(b".text", 6), (b".note.GNU-stack", 0)])),
    ("exec", object_of([(b".note.GNU-stack", 4)])),
    ("exec", object_of([(b".note.GNU-stack", 4)], machine=183)),
    ("nx", object_of([(b".note.GNU-stack", 3), (b".note.GNU-stack", 4)])),
    ("exec", object_of([(b".note.GNU-stac", 0), (b".note.GNU-stack2", 0)])),
    ("exec", object_of([(b".note.GNU-stack", 0)], names=False)),
    ("exec", object_of([], machine=3)),
    ("-", object_of([(b".text", 6)], machine=183)),
    ("-", object_of([(b".note.GNU-stack", 0)])[:-1]),
)


def check_stacks(counts, program, top):
    """The stack of a relocatable file, and what it reads."""
    for index, (stack, content) in enumerate(STACKS):
        put(top, {"o": content})
        words = ("object", "-", stack, *OBJECT_WORDS[3:])
        counts.check(f"object {index}", (line(*words, f"{top}/o") + "\n").encode(), run(program, f"{top}/o")[0])
    put(top, {"o": STACKS[1][1]})
    words = ("object", "-", "exec", *OBJECT_WORDS[3:])
    # Both reads of the file header, three section headers, and two names.
    for budget, wanted in (("352", (line(*words, f"{top}/o") + "\n").encode()),
                           ("351", f"C refused      0000000000000041 budget {top}/o\n".encode())):
        counts.check(f"object within {budget}", wanted, run(program, "--max-read", budget, f"{top}/o")[0])


def check_rows(counts, program, top):
    """One line for each ELF file, in the order of the names, whatever else is there."""
    put(top, {"a/pie": PIE, "a/weak": WEAK, "b.o": OBJECT, "empty": b"", "text": b"no file of this kind\n",
              "short": MAGIC + bytes(30), "cut": PIE[:100], "z/last": PIE})
    wanted = [line(*PIE_WORDS, f"{top}/a/pie"), line(*WEAK_WORDS, f"{top}/a/weak"), line(*OBJECT_WORDS, f"{top}/b.o"),
              f"C refused      0000000000000020 table-outside {top}/cut",
              f"C refused      0000000000000022 short {top}/short", line(*PIE_WORDS, f"{top}/z/last")]
    out, status, errors = run(program, top)
    counts.check("a directory", ("\n".join(wanted) + "\n", 1, b""), (out.decode(), status, errors))
    given = f"{top}/z/last\0{top}/text\0{top}/b.o\0".encode()
    out, status, errors = run(program, f"{top}/a/weak", "--files0-from", "-", given=given)
    counts.check("a path, then a list", ("\n".join([wanted[1], wanted[5], wanted[2]]) + "\n", 0, b""),
                 (out.decode(), status, errors))
    with open(f"{top}/a/pie", "rb") as file:
        done = subprocess.run([program, "traits", "-"], stdin=file, stdout=subprocess.PIPE, timeout=60)
    counts.check("standard input", (line(*PIE_WORDS, "-") + "\n", 0), (done.stdout.decode(), done.returncode))


def check_required(counts, program, top):
    """Each word that is lacking has a line, in their order, and the status is 1; objects lack nothing."""
    weak, pie = f"{top}/a/weak", f"{top}/a/pie"
    rows = {
        "relro=full,stack=nx,pages=w^x": ("! relro=none\n! stack=exec\n! pages=wx", 1),
        "stack=nx,relro=full": ("! stack=exec\n! relro=none", 1),
        "stack=exec,relro=full,text=fixed,cet=ibt": ("! relro=none\n! cet=-", 1),
        "pages=w^x": ("! pages=wx", 1),
        "kind=pie": ("! kind=static", 1),
        "text=fixed,kind=static": (None, 0),
        "cet=ibt": ("! cet=-", 1),
        "canary=canary": ("! canary=-", 1),
        "fortify=fortify": ("! fortify=-", 1),
        "path=-": (None, 0),
        "rpath=-": (None, 0),
        "rpath=rpath|runpath": ("! path=-", 1),
        "kind=pie|lib": ("! kind=static", 1),
        "kind=pie|static,stack=nx|-": ("! stack=exec", 1),
        "kind=static|pie": (None, 0),
    }
    for words, (lack, status) in rows.items():
        wanted = line(*WEAK_WORDS, weak) + "\n" + (lack + "\n" if lack else "")
        out, got, errors = run(program, "--require", words, weak)
        counts.check(f"--require {words}", (wanted, status, b""), (out.decode(), got, errors))
    out, status, _ = run(program, "--require", "relro=full,stack=nx,pages=w^x", pie, f"{top}/b.o")
    counts.check("what nothing lacks", (line(*PIE_WORDS, pie) + "\n" + line(*OBJECT_WORDS, f"{top}/b.o") + "\n", 0),
                 (out.decode(), status))
    out, status, _ = run(program, "--require", "path=-", pie, weak)
    counts.check("the status is the largest",
                 (line(*PIE_WORDS, pie) + "\n! path=runpath\n" + line(*WEAK_WORDS, weak) + "\n", 1),
                 (out.decode(), status))


def check_objects(counts, program, top):
    """--json: the same with each column under its name."""
    out, status, _ = run(program, "--json", "--require", "stack=nx", f"{top}/a/weak", f"{top}/cut")
    rows = [json.loads(text) for text in out.decode().splitlines()]
    wanted = [{"line": "T", **dict(zip(COLUMNS, WEAK_WORDS)), "path": f"{top}/a/weak"},
              {"line": "!", "trait": "stack=exec"},
              {"line": "C", "state": "refused", "place": 0x20, "cause": "table-outside",
               "path": f"{top}/cut"}]
    counts.check("--json", (wanted, 1), (rows, status))


def check_unread(counts, program, top):
    """What cannot be opened or named is reported, and the rest continues."""
    gone, odd = f"{top}/gone", os.fsencode(top) + b"/odd\n\\name"
    with open(odd, "wb") as file:
        file.write(PIE)
    out, status, _ = run(program, gone, odd)
    counts.check("what is gone, and an odd name",
                 (f"C unread       - {gone}\n" + line(*PIE_WORDS, f"{top}/odd\\x0a\\\\name") + "\n", 3),
                 (out.decode(), status))
    os.remove(odd)
    pipe, link = f"{top}/pipe", f"{top}/link"
    os.mkfifo(pipe)
    os.symlink(f"{top}/a/pie", link)
    out, status, _ = run(program, pipe, link)
    counts.check("a pipe and a link", (f"C unread       - {pipe}\n" + line(*PIE_WORDS, link) + "\n", 3),
                 (out.decode(), status))
    os.remove(pipe)
    os.remove(link)
    with open(os.fsencode(top) + b"/\xff", "wb") as file:
        file.write(PIE)
    out, status, _ = run(program, f"{top}/a", top)
    counts.check("a name that is no text is counted in the last line", (b"C unnamed               1", 3),
                 (out.rstrip(b"\n").split(b"\n")[-1], status))
    out, status, _ = run(program, "--json", gone, f"{top}/a", top)
    rows = out.decode().splitlines()
    counts.check("what is gone and what can't be named as objects",
                 (f'{{"line":"C","state":"unread","path":"{gone}"}}', '{"line":"C","state":"unnamed","count":1}', 3),
                 (rows[0], rows[-1], status))
    os.remove(os.fsencode(top) + b"/\xff")


def check_budgets(counts, program, top):
    """--max-read holds for each file: what a file costs, and one byte less."""
    path = f"{top}/a/pie"
    # The file header, four program headers, and three dynamic entries twice.
    cost = 64 + 4 * 56 + 2 * 3 * 16
    out, status, _ = run(program, "--max-read", str(cost), path, path)
    counts.check("--max-read with just enough", (2 * (line(*PIE_WORDS, path) + "\n"), 0), (out.decode(), status))
    out, status, _ = run(program, "--max-read", str(cost - 1), path, path)
    counts.check("--max-read with a byte less", (True, 1),
                 (re.fullmatch(rb"(C refused +[0-9a-f]{16} budget .*\n){2}", out) is not None, status))
    out, status, _ = run(program, "--headers", "3", path)
    counts.check("--headers", (f"C refused      0000000000000038 too-many-headers {path}\n", 1), (out.decode(), status))


def check_words(counts, program, top):
    """Words that no column has are refused, and so is a command without a file."""
    rows = {"relro=ful": "relro=ful", "relro": "relro", "=": "=", "": "", "relro=full,": "", "Relro=full": "Relro=full",
            "stack=nx ,pages=wx": "stack=nx ", "pages=wx,stack=no,relro": "stack=no", "kind=pie|": "kind=pie|",
            "kind=|pie": "kind=|pie", "kind=pie|nx": "kind=pie|nx", "kind=pie|kind=lib": "kind=pie|kind=lib",
            "kind=\x1b[2J\n\\é": "kind=\\x1b[2J\\x0a\\\\\\xc3\\xa9"}
    for words, named in rows.items():
        out, status, errors = run(program, "--require", words, f"{top}/a/pie")
        counts.check(f"--require {words!r}", (b"", 2, f"elfsee: unknown trait: {named}\n".encode()), (out, status, errors))
    out, status, errors = run(program)
    counts.check("no file", (b"", 2), (out, status))


def check_compiled(counts, program, top):
    """A program that exports nothing has a hash table in which no symbol is found; its guards and checked calls are reported."""
    if not shutil.which("gcc"):
        print("skipped: no gcc, so no program that exports nothing is made")
        return
    source, target = f"{top}/exports.c", f"{top}/exports"
    with open(source, "w", encoding="ascii") as file:
        file.write("#include <string.h>\nint main(int n, char **w) { char s[8]; strcpy(s, w[n - 1]); return s[0]; }\n")
    for style in ("gnu", "sysv", "both"):
        words = ["-O2", "-U_FORTIFY_SOURCE", "-D_FORTIFY_SOURCE=2", "-fstack-protector-all", f"-Wl,--hash-style={style}"]
        subprocess.run(["gcc", *words, "-o", target, source], check=True, capture_output=True)
        out, status, _ = run(program, "--require", "canary=canary,fortify=fortify", target)
        row = ROW.fullmatch(out.rstrip(b"\n"))
        counts.check(f"a program with a hash table of style {style}", ("canary", "fortify", 0),
                     (row and row[7].rstrip().decode(), row and row[8].rstrip().decode(), status))
    os.remove(source)
    os.remove(target)


def check_made(counts, program):
    with tempfile.TemporaryDirectory() as top:
        check_rows(counts, program, top)
        check_stacks(counts, program, top)
        check_required(counts, program, top)
        check_objects(counts, program, top)
        check_unread(counts, program, top)
        check_budgets(counts, program, top)
        check_words(counts, program, top)
        check_compiled(counts, program, top)


def check_time(counts, program, folder):
    """At most twice the time of `check` over the same, by the quickest of five runs."""
    words = {"traits": ["--require", "relro=full,stack=nx,pages=w^x"], "check": []}
    best = {}
    for _ in range(5):
        for command, options in words.items():
            start = time.monotonic()
            subprocess.run([program, command, *options, folder], stdout=subprocess.DEVNULL, stderr=subprocess.DEVNULL,
                           timeout=1200)
            best[command] = min(best.get(command, 1e9), time.monotonic() - start)
    print(f"{folder}: traits {best['traits']:.3f} s, check {best['check']:.3f} s")
    counts.check("traits takes at most twice the time of check", True, best["traits"] <= 2 * best["check"])


def main():
    parser = option_reader(__doc__)
    parser.add_argument("--hardening", default=shutil.which("hardening-check"))
    parser.add_argument("--quick", action="store_true")
    parser.add_argument("--time")
    parser.add_argument("places", nargs="*")
    arguments = parser.parse_args()
    program = program_of(arguments)
    counts = Counts()
    check_made(counts, program)
    if arguments.time:
        check_time(counts, program, arguments.time)
    if not arguments.quick:
        check_machine(counts, program, arguments.places, arguments.hardening)
    print(f"{counts.passed} passed, {counts.failed} failed")
    sys.exit(1 if counts.failed else 0)


if __name__ == "__main__":
    main()
