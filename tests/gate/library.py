#!/usr/bin/env python3
"""Calls the library from C, and compares what it answers with the program.

    tests/gate/library.py [--all] [--files N] [--copies N] [--seed N] [--jobs N] [--program PROGRAM] [--library FOLDER]

Over fixtures, ELF files of the machine, objects that gcc makes here, files that are not ELF and changed
copies of all these: a listing is byte for byte the program's, with the same refusal, with any room it is
given, and a prefix of it if there is too little; a lookup and a section that is written are the program's;
all rows, read one by one, are the rows of the listing, also for copies without section headers; the members of an
archive, also of odd ones, are the lines that the program lists; images of segments, what they lack, and the relocations
that dynamic entries locate are the program's. With a budget of as
many bytes as a listing or a lookup read it answers the same, and with one less it is refused. All caller's buffers
are next to pages that cannot be touched (tests/common/library_cases/calls.c). --all takes every ELF file of the machine
below /usr, and 10,000 changed copies, which takes an hour; N jobs compare N files at once.

Then: calls with numbers outside their ranges, with no room, with structs of any numbers, under the
compiler's sanitizers (tests/common/library_cases/bounds.c); how much of the stack each call touches
(tests/common/library_cases/stack.c); threads that call at once (tests/common/library_cases/threads.c); the rows of an object of thousands of
tables, which take at most twice the time that libelf takes, if it is installed (tests/common/library_cases/tables.c); which symbols
the shared library exports and imports, that a later one can be in the same process, and that it has no system call
instruction; the header as each standard of C and C++; the layout of the structs, in C (library/layout.c) and in the
crate; and the example, examples/lookup.c.

The library is built first if it is not built; FOLDER has it if it was built elsewhere, as libelfsee.a and
libelfsee.so.0. It needs Python 3 and, from Debian, gcc, g++, binutils and libelf-dev: if gcc makes no program
it says so, and tries nothing. Each case is one line; the last line is `N passed, N failed`.
"""

import multiprocessing
import os
import random
import re
import shutil
import sys
import tempfile

sys.dont_write_bytecode = True
sys.path[:0] = [os.path.join(os.path.dirname(os.path.realpath(__file__)), "..", name) for name in ("common", "again", "../bench")]
import asked_of_files
import changed_files
import images
import made_archives
import made_files as made_objects
from library_cases.compared import Built, Calls, Compared, items_of, words_to_resolve
from library_cases.files import asked_of, files_of_machine, fixtures, made_files, names_of_rows, texts_of
from library_cases.header import (CHOSEN, FLAGS, LIBRARY, MOST_HEADERS, OPTIONS, PARTS, STYLES, constants_of_header,
                                  read, run, same, write)
from library_cases.symbols import check_header, check_layout, check_symbols, check_versions
from testing import TOP, Counts, built as built_by, option_reader, program_of

STACK_BYTES = 65536
# Of a listing with versions after names.
LISTING_STACK_BYTES = 98304
# A given number of files of the machine are taken, and copies changed, if --all is not given.
FILES, COPIES, ALL_COPIES = 60, 200, 10000
# Larger files only take longer to copy.
MOST_BYTES = 400000


# ---------------------------------------------------------------------------
# The cases.

def compare_file(counts, compared, path, name):
    """Whole listings, lookups, sections and rows of a file."""
    names, sections = asked_of(path)
    wrong = compared.show(path) or compared.rows(path)
    for options in OPTIONS:
        wrong = wrong or compared.list(path, options)
    for each in [*names[::len(names) // 10 + 1], b"no_such_name", b"main"]:
        wrong = wrong or compared.find(path, each)
    texts = texts_of(path)
    for text in [*texts, b"no_such_name", b"main@GLIBC_2.2.5"]:
        wrong = wrong or compared.resolve(path, text) or compared.resolve(path, text, by_segments=True)
    for part, options in CHOSEN:
        wrong = wrong or compared.names(path, part, options, names_of_rows(texts, names, options))
    wrong = wrong or compared.hashed(path) or compared.hashed(path, by_segments=True)
    for words in sections[::len(sections) // 10 + 1] or [["1", "at:1=0x1000"]]:
        wrong = wrong or compared.apply(path, words) or compared.place(path, words)
        # A layout with less, so that something is missing.
        wrong = wrong or compared.place(path, words[:len(words) // 2 + 1])
    wrong = wrong or compared.versions(path)
    counts.case(f"{name}: a listing, {len(names)} names, {len(texts)} of a loader, {len(sections)} sections", wrong)


def compare_segments(counts, compared, folder, path):
    """The listing and the rows of a copy without section headers."""
    copy = os.path.join(folder, f"without_sections-{os.getpid()}")
    with open(path, "rb") as file, open(copy, "wb") as to:
        to.write(changed_files.without_sections(file.read()))
    wrong = compared.show(copy) or compared.rows(copy) or compared.list(copy, ["--gnu", "--json"])
    for text in [*texts_of(path), b"no_such_name"]:
        wrong = wrong or compared.resolve(copy, text)
    wrong = wrong or compared.hashed(copy)
    counts.case(f"{path.replace(folder, '')} without section headers", wrong)


def compare_images(counts, compared, folder, paths):
    """Images of the worked file of tests/gate/images.py, and of files; what they lack, and the relocations that dynamic
    entries locate."""
    path = os.path.join(folder, "image")
    for name, changes, words, segment, wanted in images.CASES:
        content = bytearray(images.small_file())
        for at, change in changes.items():
            content[at:at + len(change)] = change
        write(path, content)
        wrong = ""
        for window in (16, 40, 4096):
            wrong = wrong or compared.image(path, segment, list(words), window, wanted)
        counts.case(f"image: {name}", wrong or compared.lacking(path, list(words), 1) or compared.located(path))
    for each in paths:
        write(path, changed_files.without_sections(open(each, "rb").read()))
        wrong = compared.lacking(path, [], 5) or compared.lacking(path, ["base=0x1000"], 4096) or compared.located(path)
        for segment in range(12):
            for words in (["--leave", "base=0x7f0000000000"], ["base=0x7f0000000000"]):
                wrong = wrong or compared.image(path, segment, words, 1 << 16)
        counts.case(f"{each}: images", wrong)


def compare_asked(counts, compared, path, name):
    """The bytes that calls say they read."""
    names, sections = asked_of(path)
    wrong = compared.asked(path, ("show", MOST_HEADERS, 256), (127,))
    for each in [*names[::len(names) // 3 + 1], b"no_such_name"]:
        wrong = wrong or compared.asked(path, ("find", MOST_HEADERS), (each.hex(),))
    for text in [*texts_of(path)[::4], b"no_such_name"]:
        for by_segments in (False, True):
            wrong = wrong or compared.asked(path, ("resolve", MOST_HEADERS), words_to_resolve(text, by_segments))
    for by_segments in (0, 1):
        wrong = wrong or compared.asked(path, ("hashed", MOST_HEADERS), (by_segments,))
    wrong = wrong or compared.asked(path, ("names", MOST_HEADERS, 256), (8, STYLES["--gnu"] + STYLES["--versions"],
                                                                       b"no_such_name@VERSION".hex()))
    for words in sections[::len(sections) // 3 + 1]:
        wrong = wrong or compared.asked(path, ("apply", MOST_HEADERS), (words[0], items_of(words[1:])))
        wrong = wrong or compared.asked(path, ("place", MOST_HEADERS), (words[0], items_of(words[1:])))
    counts.case(f"{name}: bytes requested", wrong)


def compare_limits(counts, compared, path):
    """A listing within other limits."""
    size = os.path.getsize(path)
    for headers, name in ((1, 256), (5, 1), (65279, 4096), (4096, 3)):
        counts.case(f"{headers} headers, {name} bytes of a name", compared.show(path, headers, name)
                    or compared.list(path, ["--gnu", "--json"], headers, name))
    for budget in (0, 63, 64, 65, size // 2, size, 2 * size, 2 ** 63 - 1):
        counts.case(f"a budget of {budget} bytes", compared.show(path, budget=budget))


def compare_sample(counts, compared, path):
    status, text = compared.program_says(["sample"])
    numbers, got = compared.calls.ask("show", 4096, 256, "-", 127, path)
    counts.case("the sample", same((status, text), (numbers and numbers[0], got)))


def compare_archives(counts, compared, folder, paths):
    """The members of archives that are made up, of the machine's, and of changed copies of both."""
    rng, path, made = random.Random(1), os.path.join(folder, "archive"), made_archives.odd_archives()
    for name, content in made.items():
        write(path, content)
        counts.case(f"members: {name}", compared.members(path))
    for each in paths:
        counts.case(f"members of {each}", compared.members(each))
    sources = [*made.values(), *(open(each, "rb").read() for each in paths if os.path.getsize(each) <= MOST_BYTES)]
    wrong = ""
    for index in range(COPIES):
        write(path, made_archives.changed(rng, rng.choice(sources)))
        wrong = wrong or compared.members(path) and f"copy {index}: {compared.members(path)}"
    counts.case(f"members of {COPIES} changed copies", wrong)


class Recorded(Counts):
    """The cases of a process, in order, which another one counts."""

    def __init__(self):
        super().__init__()
        self.cases = []

    def case(self, name, wrong=""):
        self.cases.append((name, wrong))


def begin_job(program, path, causes):
    """What a process compares with: calls of its own."""
    global of_job
    of_job = Compared(program, Calls(path), causes)


def cases_of(work):
    """The cases that come of a function and what it takes."""
    recorded = Recorded()
    work[0](recorded, of_job, *work[1:])
    return recorded.cases


def spread(counts, compared, jobs, works):
    """Does some work, each a function and its arguments, in several processes, and counts their cases in order."""
    if jobs == 1:
        for work in works:
            work[0](counts, compared, *work[1:])
        return
    given = compared.program, compared.calls.path, compared.causes
    with multiprocessing.get_context("fork").Pool(jobs, begin_job, given) as pool:
        for cases in pool.imap(cases_of, works):
            for name, wrong in cases:
                counts.case(name, wrong)


def changed_copies(counts, compared, folder, files, count, seed):
    """Changed copies of files: what is wrong with the first of them, and all are counted as one case."""
    rng, path, wrong = random.Random(seed), os.path.join(folder, f"copy-{seed}"), ""
    sources = [(each, *asked_of(each), texts_of(each)) for each in files if os.path.getsize(each) <= MOST_BYTES]
    rich = [source for source in sources if source[1] or source[2] or source[3]] or sources
    for index in range(count):
        source, names, sections, texts = rng.choice(rich if index % 2 else sources)
        with open(source, "rb") as file:
            content = changed_files.changed(rng, file.read())
        with open(path, "wb") as file:
            file.write(content)
        words = rng.choice(sections or [["1", "at:1=0x1000"]])
        wrong = (compared.show(path) or compared.list(path, OPTIONS[index % len(OPTIONS)])
                 or compared.find(path, rng.choice(names or [b"main"]))
                 or compared.resolve(path, rng.choice(texts or [b"main"]), rng.random() < 0.5)
                 or compared.apply(path, words) or compared.place(path, words[:rng.randrange(1, len(words) + 1)])
                 or compared.names(path, *CHOSEN[index % len(CHOSEN)],
                                   names_of_rows(texts, names, CHOSEN[index % len(CHOSEN)][1]))
                 or compared.hashed(path, by_segments=index % 2 == 0)
                 or compared.versions(path) or (compared.rows(path) if index % 4 == 0 else ""))
        if wrong:
            kept = os.path.join(tempfile.gettempdir(), f"elfsee-copy-{seed}-{index}")
            shutil.copy(path, kept)
            wrong = f"copy {index} of {source}, kept as {kept}: {wrong}"
            break
    counts.case(f"{count} changed copies, from seed {seed}", wrong)


def check_parts(counts, compared, path):
    """Each part of the header is the program's part of that name; all together are the listing."""
    constants = constants_of_header("ELFSEE_HEADER")
    for name in (*PARTS, "all"):
        numbers, text = compared.calls.ask("show", MOST_HEADERS, 256, "-", constants["ELFSEE_" + name.upper()], path)
        words = ["show", "--headers", str(MOST_HEADERS), *(["--only", name] if name in PARTS else []), "--", path]
        status, wanted = compared.program_says(words)
        counts.case(f"the part {name}", same((status, wanted), (numbers and numbers[0], text)))
    numbers, text = compared.calls.ask("list", MOST_HEADERS, 256, "-", constants["ELFSEE_VERSIONS"], STYLES["--gnu"], path)
    wanted = compared.program_says(["show", "--gnu", "--only", "versions", "--headers", str(MOST_HEADERS), "--", path])
    counts.case("the part versions", same(wanted, (numbers and numbers[0], text)))
    parts = {"ELFSEE_" + name.upper() for name in (*PARTS, "all", "versions")}
    counts.case("the parts are the header's", same(parts, set(constants)))


def check_items(counts, compared, folder):
    """Each kind of item is the program's of that kind: entries of four kinds, each with an item of its own."""
    source, path = os.path.join(folder, "entries.s"), os.path.join(folder, "entries.o")
    with open(source, "w", encoding="ascii") as file:
        file.write("mov a@GOTPCREL(%rip), %rax\nmov b@GOTTPOFF(%rip), %rcx\ncall c@PLT\ncall d\n")
    done = run(["gcc", "-c", "-o", path, source])
    items = ["at:1=0x401000", "got:a=0x402000", "tpgot:b=0x403000", "plt:c=0x404000", "def:d=0x405000"]
    wrong = done.stderr.decode() or compared.apply(path, ["1", *items]) or compared.place(path, ["1", *items])
    for at in range(len(items)):
        less = ["1", *items[:at], *items[at + 1:]]
        wrong = wrong or compared.apply(path, less) or compared.place(path, less)
    # More items than a job has, of each sort.
    many = [f"at:{at}=0x{at:x}000" for at in range(2, 300)]
    many += [f"{sort}:n{at}=0x{at:x}" for sort in ("def", "plt", "got", "tpgot") for at in range(100)]
    wrong = wrong or compared.place(path, ["1", *items, *many]) or compared.place(path, ["1", *many])
    counts.case("a section with items of each kind, and with one less", wrong)


def check_causes(counts, calls):
    """Compares the words of the causes with the header's names and the page's words."""
    numbers, text = calls.ask("words")
    if numbers is None:
        counts.case("the words of the causes", text)
        return {}
    words = dict(enumerate(line.split(" ", 1)[1] for line in text.decode().splitlines()))
    words = {number: word for number, word in words.items() if word}
    names = {number: name for name, number in constants_of_header("ELFSEE_SHORT").items()}
    wanted = {number: name[7:].lower().replace("_", "-").replace("bad-class", "class").replace("bad-data", "data")
              .replace("bad-version", "version") for number, name in names.items()}
    counts.case("the words of the causes are the header's", same(wanted, words))
    page = read(TOP, "docs/FORMAT.md")
    told = set(re.findall(r"`([a-z][a-z-]*)`", page[page.index("The words of the causes:"):].split("\n## ")[0]))
    counts.case("they are the words of a listing", same(sorted(told | {"budget"}), sorted(set(words.values()))))
    version = re.search(r"^library_version = (\d+)\.(\d+)\.(\d+)$", read(TOP, "Makefile"), re.M)
    number = sum(int(part) << shift for part, shift in zip(version.groups(), (16, 8, 0)))
    counts.case("the version", same(number, numbers[5]))
    return words


def check_bounds(counts, built, target, library, tries):
    path, said = built.program("tests/common/library_cases/bounds.c", "-g", "-fsanitize=address,undefined",
                               "-fno-sanitize-recover=undefined")
    if path is None:
        print(f"skipped calls outside their bounds: the compiler has no sanitizers here: {said[:200]}")
        return
    done = run([path, target, library, str(tries)])
    text = done.stdout.decode()
    for line in text.splitlines():
        if re.match(r"ok |FAILED |try ", line):
            if line.startswith("ok "):
                counts.case(line[3:])
            elif line.startswith("FAILED "):
                counts.case(line[7:], "it is not so")
            else:
                print(line)
    wrong = "" if done.returncode == 0 and re.search(r"^\d+ passed, 0 failed$", text, re.M) else (
        f"status {done.returncode}: {done.stderr.decode()[:3000]}")
    counts.case("the sanitizers say nothing", wrong)


def check_stack(counts, built, files):
    path, said = built.program("tests/common/library_cases/stack.c")
    if path is None:
        counts.case("the stack", said)
        return
    done = run([path, *files])
    counts.case("the stack is measured", "" if done.returncode == 0 else f"status {done.returncode}")
    for call, most in re.findall(r"^(\w+) (\d+)$", done.stdout.decode(), re.M):
        limit = LISTING_STACK_BYTES if call == "list" else STACK_BYTES
        counts.case(f"{most} bytes of stack: {call}", "" if int(most) < limit else f"more than {limit}")


def check_threads(counts, built, files):
    path, said = built.program("tests/common/library_cases/threads.c", "-pthread")
    done = run([path, *files]) if path else None
    wrong = said if done is None else "" if done.returncode == 0 else done.stdout.decode()[:300]
    counts.case("four threads at once list the same", wrong)


# An object of a given number of tables of relocation entries, and of other sections; how often both go over it, and how often
# that is tried again where other work of the machine may be at fault.
TABLES, OTHERS, RUNS, TRIES = 13643, 14715, 15, 3


def check_tables(counts, built, folder):
    """All rows of an object of many sections take at most twice the time of libelf, which checks little of it."""
    if run(["gcc", "-fsyntax-only", "-include", "gelf.h", "-x", "c", os.devnull]).returncode != 0:
        print("skipped the time of rows beside libelf: libelf-dev is not here")
        return
    path, said = built.program("tests/common/library_cases/tables.c", "-Wl,--no-as-needed", "-lelf")
    if path is None:
        counts.case("rows beside libelf", said)
        return
    entries = made_objects.RELOCATION.pack(0, (1 << 32) + 2, -4) + made_objects.RELOCATION.pack(8, (2 << 32) + 4, 8)
    symbols = b"".join(made_objects.SYMBOL.pack(name, 18, 0, 3, 16 * name, 16) for name in (0, 1, 2))
    made = os.path.join(folder, "many_tables.o")
    write(made, made_objects.object_file([
        made_objects.section(".symtab", made_objects.SYMTAB, symbols, 2, 1, made_objects.SYMBOL.size),
        made_objects.section(".strtab", made_objects.STRTAB, b"\0a\0"),
        *[made_objects.section(".text", made_objects.PROGBITS, bytes(16)) for _ in range(OTHERS)],
        *[made_objects.section(".rela.text", made_objects.RELA, entries, 1, 3, made_objects.RELOCATION.size)
          for _ in range(TABLES)]]))
    for left in reversed(range(TRIES)):
        done = run([path, made, str(RUNS)])
        words = done.stdout.split()
        if done.returncode != 0 or len(words) != 4:
            counts.case("rows are those of libelf", f"status {done.returncode}: {done.stdout[:200]}")
            return
        library, libelf = map(float, words[2:])
        if library <= 2 * libelf or left == 0:
            break
    counts.case("rows are those of libelf", same([TABLES + 1, 2 * TABLES + 3], list(map(int, words[:2]))))
    counts.case(f"rows of {TABLES + 1} tables in {library:.4f} s, libelf in {libelf:.4f}",
                "" if library <= 2 * libelf else f"{library / libelf:.2f} times as long")


# ---------------------------------------------------------------------------
# The man page and the example.

def check_page(counts, built):
    """The man page has each name of the header, and no other; its examples are C."""
    page, header = read(TOP, "man/elfsee.3"), read(LIBRARY, "elfsee.h")
    for what, form in (("constant", r"\bELFSEE_[A-Z_]+\b"), ("function and struct", r"\belfsee_[a-z_]+\b")):
        wanted = set(re.findall(form, re.sub(r"/\*.*?\*/", "", header, flags=re.S))) - {"ELFSEE_H"}
        got = set(re.findall(form, page)) - {"elfsee_c"}
        counts.case(f"the man page has each {what}", same(sorted(wanted), sorted(got)))
    whole, part = re.findall(r"^\.Bd -literal.*?\n(.*?)^\.Ed", page.replace("\\e", "\\"), re.S | re.M)
    source = os.path.join(built.room, "page.c")
    with open(source, "w", encoding="utf-8") as file:
        file.write(whole + "static void part(const uint8_t *file, size_t file_len, struct elfsee_limits limits,\n"
                   "    uint8_t *room, size_t room_len, struct elfsee_end end) {\n" + part + "}\n"
                   "void (*const of_page)(const uint8_t *, size_t, struct elfsee_limits, uint8_t *, size_t,\n"
                   "    struct elfsee_end) = part;\n")
    done = run(["gcc", *FLAGS, "-c", "-o", source + ".o", source])
    counts.case("the man page's examples are C", done.stderr.decode()[:2000])


def check_example(counts, built, compared, library):
    """Compares the example with what the program finds."""
    path, said = built.program("examples/lookup.c")
    if path is None:
        counts.case("the example", said)
        return
    lines = compared.program_says(["find", library, "call"])[1].split()
    value, size = int(lines[3], 16), int(lines[4], 16)
    base = 0x7f0000000000
    for name, words, wanted in (
            ("finds a name", [library, "call", hex(base)], (0, f"call is at {hex(base + value)}, {size} bytes\n", "")),
            ("without a base", [library, "call"], (0, f"call is at {hex(value)}, {size} bytes\n", "")),
            ("lacks a name", [library, "calls"], (1, "calls is not there\n", "")),
            ("lacks what is not defined", [library, "other"], (1, "other is not there\n", "")),
            ("reports a name that is too long", [library, "n" * 4097],
             (2, "", f"lookup: {'n' * 4097}: a name and a version have at most 4,096 bytes\n")),
            ("reports what is no ELF file", ["/etc/passwd", "call"], (2, "", "lookup: /etc/passwd: not-elf at 0x0\n")),
            ("reports an empty file", ["/dev/null", "call"], (2, "", "lookup: /dev/null: short at 0x0\n")),
            ("reports that there is no file", ["/nonexistent", "call"], (2, "", "lookup: /nonexistent: it cannot be read\n"))):
        done = run([path, *words])
        counts.case(f"the example {name}", same(wanted, (done.returncode, done.stdout.decode(), done.stderr.decode())))


def check_calls(counts, built, program, folder, given):
    """All that is compared with the program."""
    target, library, others = made_files(folder)
    path, said = built.program("tests/common/library_cases/calls.c")
    if path is None:
        counts.case("a program that calls the library", said)
        return
    calls = Calls(path)
    compared = Compared(program, calls, check_causes(counts, calls))
    samples, compiled = fixtures(folder), asked_of_files.compiled_objects(folder)
    members = asked_of_files.members_of_libraries(folder, 300 if given.all else 10)
    machine = files_of_machine()
    if not given.all:
        machine = machine[::len(machine) // given.files + 1]
    compare_sample(counts, compared, samples[0])
    check_parts(counts, compared, "/bin/ls")
    check_items(counts, compared, folder)
    for path in [*samples, *others, target, library, *compiled]:
        compare_file(counts, compared, path, os.path.basename(path))
    compare_limits(counts, compared, library)
    compare_images(counts, compared, folder, [library, "/bin/ls", *others[:2]])
    compare_archives(counts, compared, folder, asked_of_files.static_libraries()[:FILES])
    works = [(compare_file, path, path.replace(folder, "")) for path in [*members, *machine]]
    works += [(compare_segments, folder, path) for path in [library, *machine[::3]]]
    works += [(compare_asked, path, path.replace(folder, ""))
              for path in [*samples, *others, target, library, *compiled, *machine[::10]]]
    copied = [*samples, target, library, *compiled, *members, *machine]
    count = given.copies or (ALL_COPIES if given.all else COPIES)
    works += [(changed_copies, folder, copied, count // given.jobs, given.seed + at) for at in range(given.jobs)]
    spread(counts, compared, given.jobs, works)
    calls.end()
    check_bounds(counts, built, target, library, 100000 if given.all else 5000)
    archive = os.path.join(folder, "archive")
    write(archive, made_archives.odd_archives()["name of 4097 bytes"])
    check_stack(counts, built, [*samples, target, library, archive, *compiled, *machine[:FILES]])
    check_threads(counts, built, [target, library, *machine[:5]])
    check_tables(counts, built, folder)
    check_example(counts, built, compared, library)


def main():
    reader = option_reader(__doc__)
    reader.add_argument("--all", action="store_true")
    reader.add_argument("--files", type=int, default=FILES)
    reader.add_argument("--copies", type=int)
    reader.add_argument("--seed", type=int, default=1)
    reader.add_argument("--jobs", type=int, default=1)
    reader.add_argument("--library")
    given = reader.parse_args()
    counts = Counts()
    missing = [tool for tool in ("gcc", "nm", "objdump", "readelf") if not shutil.which(tool)]
    if missing:
        print(f"skipped the library: {', '.join(missing)} is not here")
        print("0 passed, 0 failed")
        return 0
    program = program_of(given)
    folder = os.path.abspath(given.library or built_by("library/build"))
    with tempfile.TemporaryDirectory() as room:
        built = Built(folder, room)
        check_header(counts, built)
        check_symbols(counts, built)
        check_versions(counts, built)
        check_layout(counts, built)
        check_page(counts, built)
        files = os.path.join(room, "files")
        os.mkdir(files)
        check_calls(counts, built, program, files, given)
    return counts.end()


if __name__ == "__main__":
    sys.exit(main())
