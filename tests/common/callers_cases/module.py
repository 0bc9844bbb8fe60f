"""Cases of tests/gate/callers.py: the module for Python alone, its arguments, files, threads, memory and wheel."""

import mmap
import os
import re
import shutil
import socket
import struct
import subprocess
import sys
import threading
import time
import zipfile

import listed_rows
import versioned
from callers_cases.counted import LIBRARY, file_content, run
from callers_cases.files import many_tables, shared_entries
from callers_cases.listings import compare_applied, refusal_line, words_to_layout
from testing import TOP


def check_arguments(counts, elfsee, path):
    """What is outside its range is refused, before it is read."""
    file, layout = elfsee.File(path), elfsee.Layout
    bad = {
        "a name with NUL": lambda: file.find(b"a\0b"),
        "a long name": lambda: file.find("n" * 4097),
        "a long name of a loader": lambda: file.look_up("n" * 4097),
        "a long version": lambda: file.look_up("n", "n" * 4097),
        "a version with NUL": lambda: file.look_up("n", b"a\0"),
        "a version of no bytes": lambda: file.look_up("n", ""),
        "the bytes of section 65536": lambda: file.content(65536),
        "a section of index 65536": lambda: file.apply(1, layout({65536: 0})),
        "a name twice": lambda: file.apply(1, layout(define={"n": 0, b"n": 0})),
        "a name that is no text twice": lambda: file.apply(1, layout(define={"\udcff": 0, b"\xff": 0})),
        "a definition with NUL": lambda: file.apply(1, layout(define={"a\0": 0})),
        "a definition without a name": lambda: file.apply(1, layout(define={"": 0})),
        "a name of 256 bytes": lambda: file.apply(1, layout(entries={"n" * 256: 0})),
        "an address of 65 bits": lambda: file.apply(1, layout({1: 1 << 64})),
        "an address below 0": lambda: file.apply(1, layout({1: -1})),
        "section 65536": lambda: file.apply(65536),
        "symbols of section -1": lambda: list(file.symbols(-1)),
        "no headers": lambda: elfsee.File(path, headers=0),
        "65,280 headers": lambda: elfsee.File(path, headers=65280),
        "no bytes of a name": lambda: file.text(name_cap=0),
        "4,097 bytes of a name": lambda: file.text(name_cap=4097),
        "part 65536": lambda: file.text(65536),
        "versions without names of the GNU system": lambda: file.text(elfsee.VERSIONS, json=True),
        "part 256 in a style": lambda: file.text(256, gnu=True),
        "versions after names without those of the GNU system": lambda: file.text(versions=True),
        "rows of an empty name": lambda: file.text(names=[""]),
        "rows of a long name": lambda: file.text(names=["n" * 4097]),
        "rows of a name with NUL": lambda: file.text(names=["a\0b"]),
        "rows of an empty version": lambda: file.text(names=["n@"], gnu=True, versions=True),
        "rows of names of two parts": lambda: file.text(elfsee.SYMBOLS + elfsee.RELOCS, names=["n"]),
        "versions of names without those of the GNU system": lambda: file.text(elfsee.VERSIONS, names=["n"]),
        "a budget below 0": lambda: elfsee.File(path, budget=-1),
    }
    for name, call in bad.items():
        counts.raises(name, ValueError, call)
    many = layout({index: 0 for index in range(1, 300)}, *({"n%d" % index: 0 for index in range(300)} for _ in range(4)))
    counts.raises("a layout of any size", elfsee.Unapplied, lambda: file.apply(1, many))
    counts.raises("versions of no section", elfsee.Absent, lambda: list(file.versions(0)))
    counts.raises("versions of no symbols", elfsee.Absent, lambda: list(file.symbol_versions(0)))
    counts.raises("no bytes for a text", elfsee.Full, lambda: file.text(most=0))
    counts.raises("few bytes for a text", elfsee.Full, lambda: file.text(most=90))
    counts.raises("rows of no symbols", elfsee.Absent, lambda: list(file.symbols(0)))
    counts.raises("the bytes of no section", elfsee.Absent, lambda: file.content(65535))
    counts.raises("rows past the sections", elfsee.Absent, lambda: list(file.relocations(65535)))
    counts.raises("a file that is a number", TypeError, lambda: elfsee.File(7))
    file.close()
    file.close()
    counts.raises("a closed file", ValueError, file.text)
    symbol = elfsee.Symbol(b"", 0, 0, 0, 0xaa, 0xfe, 0, 0)
    counts.same("the parts of a symbol's bytes", (10, 10, 2), (symbol.type, symbol.binding, symbol.visibility))
    # As many headers are allowed as by the program where nobody says how many.
    with elfsee.File(many_tables(2047)) as most:
        counts.same("4,096 headers", 2047, sum(1 for _ in most.symbols()))
        # A listing has as many bytes as are allowed, however often it is begun anew, and no more.
        text = most.text()
        counts.check("a listing longer than the room it is begun with", len(text) > (1 << 16) + len(most.data) // 4)
        counts.same("as many bytes as a listing has", text, most.text(most=len(text)))
        counts.raises("a byte less than a listing has", elfsee.Full, lambda: most.text(most=len(text) - 1))
        counts.check("a cost by how much of a name is shown", most.cost(1) < most.cost() < most.cost(4096))
    for length in (65536, 65537):
        long_name = bytearray(many_tables(1)[:-5] + b"\0" + b"n" * length + b"\0")
        struct.pack_into("<Q", long_name, 64 + 64 + 32, length + 2)
        with elfsee.File(long_name) as named:
            if length > 65536:
                counts.raises("a name of %d bytes" % length, elfsee.Full, lambda: next(named.symbols()))
            else:
                counts.same("a name of %d bytes" % length, length, len(next(named.symbols()).name))
    for budget, fits in ((5, True), (4, False)):
        with elfsee.File(many_tables(1), budget=budget) as file:
            told = refusal_of(elfsee, lambda: file.content(1)).word
            counts.same("a section's bytes within %d" % budget, ("" if fits else "budget", b"\0one\0" if fits else None),
                        (told, file.content(1) if fits else None))
    # Of a member its header and its name count.
    archive = b"!<arch>\n" + b"%-16s%-12d%-6d%-6d%-8s%-10d`\n" % (b"a/", 0, 0, 0, b"100644", 4) + b"text"
    for budget, told in ((61, ""), (60, "budget")):
        with elfsee.File(archive, budget=budget) as file:
            counts.same("members within %d" % budget, told, refusal_of(elfsee, lambda: list(file.members())).word)
    more = bytearray(many_tables(2048))
    struct.pack_into("<H", more, 60, 4097)
    refused = refusal_of(elfsee, lambda: list(elfsee.File(more).sections()))
    counts.check("4,097 headers", refused.cause is elfsee.Cause.TOO_MANY_HEADERS, refused)
    counts.same("what is reported of 4,097 headers, and of a cause without a name", ("too-many-headers at 0x3c", "cause 99 at 0x1f"),
                (str(refused), str(elfsee.Refused(99, 31))))
    counts.raises("a file that is not there", FileNotFoundError, lambda: elfsee.File(path + ".no"))


def check_kinds(counts, elfsee, path):
    """What has another type than declared is refused by TypeError, and taken for nothing else."""
    file, layout = elfsee.File(path), elfsee.Layout
    bad = {
        "a number that is spelt": lambda: elfsee.spelt(7),
        "numbers that are spelt": lambda: elfsee.spelt([1, 2]),
        "nothing that is spelt": lambda: elfsee.spelt(None),
        "a number for a name": lambda: file.find(7),
        "numbers for a name": lambda: file.find([65, 66]),
        "a number for a loader's name": lambda: file.look_up(7),
        "a number for a version": lambda: file.look_up("n", 7),
        "0 for a version": lambda: file.look_up("n", 0),
        "an empty list for a version": lambda: file.look_up("n", []),
        "a text for a flag of a lookup": lambda: file.look_up("n", by_segments="x"),
        "nothing for a flag of a lookup": lambda: file.look_up("n", default_only=None),
        "a text for a flag of a listing": lambda: file.text(gnu="x"),
        "a fraction for a flag of a listing": lambda: file.text(json=1.0),
        "a text for a flag of symbols": lambda: list(file.hashed_symbols(by_segments="x")),
        "a name for names": lambda: file.text(names="memcpy"),
        "bytes for names": lambda: file.text(names=b"memcpy"),
        "a number for names": lambda: file.text(names=7),
        "a number among names": lambda: file.text(names=["n", 7]),
        "a text for parts": lambda: file.text("symbols"),
        "a fraction for parts": lambda: file.text(8.0),
        "a fraction for a name's bytes": lambda: file.text(name_cap=5.0),
        "a fraction for the most": lambda: file.text(most=1000.0),
        "a fraction for a cost": lambda: file.cost(5.5),
        "a text for a section": lambda: list(file.symbols("1")),
        "a fraction for a section": lambda: list(file.versions(1.0)),
        "a text for a section's bytes": lambda: file.content("1"),
        "a fraction for an address": lambda: file.mapped(0.0, 1),
        "a text for a size": lambda: file.mapped(0, "1"),
        "a section that is applied by its name": lambda: file.apply(".text"),
        "a mapping for a layout": lambda: file.apply(1, {1: 0}),
        "a tuple for a layout": lambda: file.apply(1, ({}, {}, {}, {}, {})),
        "a list for sections": lambda: file.apply(1, layout([(1, 0)])),
        "a list for definitions": lambda: file.apply(1, layout(define=[("n", 0)])),
        "a text for a section's index": lambda: file.apply(1, layout({"1": 0})),
        "a fraction for an address of a section": lambda: file.apply(1, layout({1: 0.5})),
        "a number for a name of a layout": lambda: file.apply(1, layout(define={7: 0})),
        "a text for headers": lambda: elfsee.File(path, headers="9"),
        "a fraction for headers": lambda: elfsee.File(path, headers=9.5),
        "a text for a budget": lambda: elfsee.File(path, budget=""),
        "a fraction for a budget": lambda: elfsee.File(path, budget=0.0),
        "a fraction for the longest name": lambda: elfsee.File(path, longest_name=9.0),
        "an open file": lambda: [elfsee.File(one) for one in [open(path, "rb")]],
        "nothing for a file": lambda: elfsee.File(None),
        "a text for a cause": lambda: elfsee.word_of("budget"),
        "a text for a refusal's cause": lambda: elfsee.Refused("budget", 0),
        "a text for a refusal's offset": lambda: elfsee.Refused(1, "0"),
    }
    for name, call in bad.items():
        counts.raises(name, TypeError, call)
    counts.raises("a flag of 2", ValueError, lambda: file.text(gnu=2))
    counts.same("flags that are 1", file.text(gnu=True), file.text(gnu=1))
    counts.same("names in other buffers", [elfsee.spelt(b"a\\")] * 2, [elfsee.spelt(bytearray(b"a\\")), elfsee.spelt(memoryview(b"a\\"))])


# What is no regular file, in a process of its own: a wait, or memory without end, ends that alone.
OPENING = """
import resource, sys, elfsee
resource.setrlimit(resource.RLIMIT_AS, (1 << 30, 1 << 30))
for path in sys.argv[1:]:
    try:
        print(len(elfsee.File(path).data))
    except OSError as error:
        print(type(error).__name__, error.filename == path)
"""
# A mapping whose file is cut short, and then a memoryview of it, and one whose file is whole.
MAPPING = """
import mmap, os, sys, elfsee
with open(sys.argv[1], "r+b") as file:
    whole = file.read()
    with mmap.mmap(file.fileno(), 0) as mapped:
        print(elfsee.File(mapped).data == whole, elfsee.File(memoryview(mapped)[64:]).data == whole[64:])
        os.truncate(file.fileno(), 5000)
        for source in (mapped, memoryview(mapped), memoryview(mapped).cast("I")):
            try:
                print(len(elfsee.File(source).data))
            except OSError as error:
                print(error.strerror)
            source = None
"""


def check_opened(counts, elfsee, folder):
    """Only regular files are opened, and nothing is waited for; a mapped file that is cut short is an error."""
    pipe, link, bound = (os.path.join(folder, name) for name in ("a_pipe", "a_link", "a_socket"))
    os.mkfifo(pipe)
    os.symlink("/bin/ls", link)
    with socket.socket(socket.AF_UNIX) as listens:
        listens.bind(bound)
        environment = dict(os.environ, PYTHONPATH=os.path.join(LIBRARY, "python"))
        words = [sys.executable, "-B", "-c"]
        try:
            done = subprocess.run([*words, OPENING, pipe, "/dev/zero", "/dev/null", bound, folder, link], env=environment,
                                  stdin=subprocess.DEVNULL, capture_output=True, timeout=60, check=False).stdout
        except subprocess.TimeoutExpired:
            done = b"it waits"
    no, size = "OSError True", os.path.getsize("/bin/ls")
    counts.same("what is no regular file", [no, no, no, no, "IsADirectoryError True", str(size)],
                done.decode().split("\n")[:-1])
    copy = os.path.join(folder, "mapped")
    shutil.copyfile("/bin/ls", copy)
    done = subprocess.run([*words, MAPPING, copy], env=environment, capture_output=True, check=False)
    cut = "The mapped file was cut short"
    counts.same("a mapped file that is cut short", (0, ["True True", cut, cut, cut]),
                (done.returncode, done.stdout.decode().split("\n")[:-1]))
    # Between the look at a path and its opening another file may take its place.
    stat_of, os.stat = os.stat, lambda *_, **__: stat_of("/bin/ls")
    try:
        counts.raises("a pipe that takes a file's place", OSError, lambda: elfsee.File(pipe))
    finally:
        os.stat = stat_of
    with open("/bin/ls", "rb") as file, mmap.mmap(file.fileno(), 0, access=mmap.ACCESS_READ) as mapped:
        content, text = bytes(mapped), elfsee.File("/bin/ls").text()
        for name, buffer in (("mmap", mapped), ("part of an mmap", memoryview(mapped)[:]),
                             ("array of C", (elfsee.ctypes.c_char * len(content)).from_buffer_copy(content))):
            counts.same("an %s" % name, text, elfsee.File(buffer).text())
            buffer = None
        counts.same("an empty array of C", b"", elfsee.File((elfsee.ctypes.c_char * 0)()).data)
        counts.raises("every second byte of a mapping", BufferError, lambda: elfsee.File(memoryview(mapped)[::2]))
    counts.same("every second byte of bytes", content[::2], elfsee.File(memoryview(content)[::2]).data)


# A refusal amid rows that is kept in a frame which its traceback holds: a cycle, for the collector.
KEEPING = """
import gc, sys, elfsee

def refusal_of(call):
    try:
        call()
    except elfsee.Refused as refused:
        return refused

def keep(path):
    with elfsee.File(path) as file:
        refused = refusal_of(lambda: list(file.symbol_versions()))
    return refused.word

for _ in range(20):
    print(keep(sys.argv[1]))
    gc.collect()
"""


def check_collected(counts, path):
    """Refusals that the interpreter collects end no process."""
    done = subprocess.run([sys.executable, "-B", "-c", KEEPING, path], env=dict(os.environ, PYTHONPATH=os.path.join(LIBRARY, "python")),
                          capture_output=True, check=False)
    counts.same("refusals that are collected", (0, b"version-index\n" * 20, b""), (done.returncode, done.stdout, done.stderr))


def check_versioned(counts, elfsee, program, paths):
    """Versions whose names are long, or whose numbers are 0 and hidden; each has the name that the file gives it, and
    if it gives none, or not to each symbol, the refusal is the listing's."""
    defined, needed = versioned.DEFINITIONS, versioned.NEEDED
    with elfsee.File(paths[0]) as file:
        rows = [(row.name, row.kind, row.number, row.is_hidden, row.flags) for row in file.versions()]
        wanted = [(name, 1, number & 32767, number > 32767, flags) for flags, number, name in defined]
        counts.same("versions that are made", [*wanted, (needed[0], 2, 0, False, 0), (needed[2], 3, needed[1], False, 0)],
                    rows)
        names = [b"", defined[1][2], versioned.LONG, defined[1][2]]
        counts.same("versions of symbols that are made", list(zip(names, (0, 2, 3, 2), (False, False, False, True))),
                    [(row.name, row.number, row.is_hidden) for row in file.symbol_versions()])
        for version, name, is_cut in ((None, versioned.LONG[:256], True), (versioned.LONG, versioned.LONG, False)):
            found = file.look_up("two", version).version
            counts.same("a version of 300 bytes", (name, is_cut, 3), (found.name, found.is_cut, found.number))
        counts.same("a version of 256 of them", None, file.look_up("two", versioned.LONG[:256]).symbol)
    for path, word in zip(paths[1:], ("version-cut", "version-index")):
        with elfsee.File(path) as file:
            refused = refusal_of(elfsee, lambda: list(file.symbol_versions()))
        told = run(program, "show", "--gnu", "--only", "versions", "--", path)[1].decode().split("\n")[-2]
        counts.same("the refusal of %s" % path, (told, word), (refusal_line(refused), refused.word))


class Pointers:
    """The library after the module, with each pointer that a call is given checked."""

    def __init__(self, elfsee):
        self.library, self.ctypes, self.calls, self.nulls = elfsee._library, elfsee.ctypes, 0, []

    def is_null(self, given, kind):
        """Whether an argument, or a pointer in a struct that it passes, is NULL."""
        if given is None or isinstance(given, int) and kind is self.ctypes.c_void_p and given == 0:
            return True
        if isinstance(given, self.ctypes.Array):
            return self.ctypes.addressof(given) == 0 or any(self.is_null(each, None) for each in given
                                                            if isinstance(each, self.ctypes.Structure))
        if isinstance(given, self.ctypes.Structure):
            lent = [each for name, _ in given._fields_ if hasattr(given, name + "_len") and name != "name"
                    for each in getattr(given, name)[:getattr(given, name + "_len")]]
            fields = ((name, of, getattr(given, name)) for name, of in given._fields_)
            return any(self.is_null(each, None) for each in lent) or any(not value if issubclass(of, self.ctypes._Pointer) else value is None
                       for _, of, value in fields)
        return False

    def __getattr__(self, name):
        call = getattr(self.library, name)

        def looked(*given):
            self.calls += 1
            self.nulls += [name for each, kind in zip(given, call.argtypes) if self.is_null(each, kind)]
            return call(*given)
        return looked


def check_pointers(counts, elfsee, paths):
    """The module never hands NULL to the library, also if there is nothing to hand."""
    library, looked = elfsee._library, Pointers(elfsee)
    elfsee._library = looked
    try:
        for content in [b"", b"\x7fELF", *map(file_content, paths)]:
            file, layout = elfsee.File(content), elfsee.Layout({1: 0}, {"a": 1}, {"a": 2}, {"a": 3}, {"a": 4})
            for call in (lambda: file.header, lambda: file.text(), lambda: file.show(0, most=0), file.cost,
                         lambda: list(file.sections()), lambda: list(file.segments()),
                         lambda: list(file.symbols()), lambda: list(file.relocations()),
                         lambda: list(file.notes()), lambda: list(file.dynamic()), lambda: file.mapped(0, 0),
                         lambda: file.find(b""), lambda: file.find("call"), lambda: file.apply(1),
                         lambda: file.text(names=[]), lambda: file.text(names=["a", "call"], gnu=True, versions=True),
                         lambda: list(file.hashed_symbols()), lambda: list(file.hashed_symbols(by_segments=True)),
                         lambda: file.look_up(b""), lambda: file.look_up("call", "FIRST"), lambda: file.content(1),
                         lambda: file.apply(1, layout), lambda: list(file.versions()),
                         lambda: list(file.symbol_versions()), lambda: elfsee.word_of(0)):
                try:
                    call()
                except (elfsee.Refused, elfsee.Full, elfsee.Absent):
                    pass
    finally:
        elfsee._library = library
    counts.same("pointers that are NULL", [], sorted(set(looked.nulls)))
    counts.check("calls whose pointers were looked at", looked.calls > 50, looked.calls)


def empty_tables():
    """A file whose symbols, relocation entries, dynamic entries, words, notes and definitions have no bytes, at offset
    2^63, as has the string table."""
    kinds = (3, 2, 4, 6, 0x6fffffff, 7, 0x6ffffffd)
    headers = bytes(64) + b"".join(
        struct.pack("<IIQQQQIIQQ", 0, kind, 0, 0, 1 << 63, 0, 1, 2 if kind == 4 else 0, 8,
                    {2: 24, 4: 24, 6: 16, 0x6fffffff: 2}.get(kind, 0)) for kind in kinds)
    return b"\x7fELF\2\1\1".ljust(16, b"\0") + struct.pack("<HHIQQQIHHHHHH", 1, 62, 1, 0, 0, 64, 0, 64, 56, 0, 64,
                                                            1 + len(kinds), 0) + headers


def check_empty(counts, elfsee):
    """What has no rows is at its header's offset, with a count of 0, as the header of C says; the name at 0 of a string
    table without bytes is 0, 0, wherever the table begins. In Python such tables have no rows, and no fault."""
    library, content, far, ctypes = elfsee._library, empty_tables(), 1 << 63, elfsee.ctypes
    end, room, limits = elfsee._End(), ctypes.create_string_buffer(64 * 9), elfsee._Limits(9, 256, 0, 0)
    for call, section, strings in (("symbols", 2, far), ("relocations", 3, 0), ("version_words", 5, 0)):
        rows = elfsee._Rows()
        status = getattr(library, "elfsee_" + call)(content, len(content), limits, section, room, len(room), rows, end)
        counts.same("%s without rows" % call, (0, far, 0, strings, 0),
                    (status, rows.at, rows.count, rows.strings_at, rows.strings_len))
    notes, records = elfsee._Notes(), elfsee._VersionRecords()
    status = library.elfsee_notes(content, len(content), 6, notes, end)
    counts.same("notes without bytes", (0, far, 0), (status, notes.at, notes.left))
    status = library.elfsee_version_records(content, len(content), limits, 7, room, len(room), records, end)
    counts.same("definitions without bytes", (0, far, 0), (status, records.at, records.size))
    for at, length in ((far, 0), (far, 10), (len(content), 1), (64, 0), (0, 0)):
        name = elfsee._Range(7, 7)
        status = library.elfsee_name(content, len(content), elfsee._Range(at, length), 0, name, end)
        counts.same("the name in %d bytes at %d" % (length, at), (0, 0, 0), (status, name.at, name.len))
    with elfsee.File(content) as file:
        counts.same("rows of tables without bytes", [], [*file.symbols(), *file.relocations(), *file.dynamic(), *file.notes(),
                                                         *file.versions(), *file.symbol_versions()])


def check_small_files(counts, elfsee, path):
    """Files of few bytes are short, buffers are taken, and a budget ends a call."""
    with open(path, "rb") as file:
        content = file.read()
    for length in range(64):
        file = elfsee.File(content[:length])
        counts.same("%d bytes" % length, "! %016x short\n" % length, file.text())
        for call in (lambda: file.header, lambda: list(file.sections()), lambda: list(file.notes()),
                     lambda: file.find("x"), lambda: file.look_up("x"), lambda: file.content(0),
                     lambda: file.apply(1)):
            counts.raises("a call over %d bytes" % length, elfsee.Refused, call)
    text = elfsee.File(content).text()
    for buffer in (bytearray(content), memoryview(content)):
        counts.same("a %s" % type(buffer).__name__, text, elfsee.File(buffer).text())
    limited = elfsee.File(content, budget=64)
    counts.same("a budget of a file header", elfsee.Cause.BUDGET, limited.show().refused.cause)
    nothing = elfsee.File(content, budget=0)
    counts.same("a budget of no byte", "! %016x budget\n" % 0, nothing.text())
    for call in (lambda: nothing.find("x"), lambda: nothing.look_up("x"), lambda: nothing.apply(1)):
        counts.same("a call within no byte", elfsee.Cause.BUDGET, refusal_of(elfsee, call).cause)
    check_asked(counts, elfsee, content)
    counts.same("one header", elfsee.Cause.TOO_MANY_HEADERS,
                elfsee.File(content, headers=1).show().refused.cause)
    counts.check("the cost", elfsee.File(content).show().asked <= elfsee.File(content).cost())
    counts.raises("a name that is too long", elfsee.Full,
                  lambda: [list(f.symbols()) for f in [elfsee.File(content, longest_name=3)]])


def refusal_of(elfsee, call):
    """The refusal of a call, or one without a cause if it has an answer."""
    try:
        call()
    except elfsee.Refused as refused:
        return refused
    return elfsee.Refused(0, 0)


def check_asked(counts, elfsee, content):
    """A listing says how many bytes it read: a budget of as many is enough, and one less is not."""
    whole = elfsee.File(content).show()
    again = elfsee.File(content, budget=whole.asked).show()
    counts.same("the same within what was requested", whole, again)
    less = elfsee.File(content, budget=whole.asked - 1).show()
    counts.same("not within one byte less", elfsee.Cause.BUDGET, less.refused and less.refused.cause)
    counts.same("a file header asks for its bytes", 64, elfsee.File(content).show(elfsee.HEADER).asked)


def check_entries(counts, elfsee, program, folder):
    """Each kind of item goes to the entries of its own kind: of one name in two tables the addresses differ."""
    source, path = os.path.join(folder, "entries.s"), os.path.join(folder, "entries.o")
    with open(source, "w", encoding="ascii") as file:
        file.write("mov a@GOTPCREL(%rip), %rax\nmov b@GOTTPOFF(%rip), %rcx\ncall c@PLT\ncall d\n")
    subprocess.run(["as", "-o", path, source], check=True)
    items = ["got:a=0x402000", "tpgot:b=0x403000", "plt:c=0x404000", "def:d=0x405000"]
    with elfsee.File(path) as file:
        compare_applied(counts, elfsee, program, path, file, [["1", "at:1=0x401000", *items]])
        counts.check("a section with items of each kind", len(file.apply(1, words_to_layout(elfsee, ["at:1=0x401000", *items]))) > 20)
        for at in range(len(items)):
            lacking = ["at:1=0x401000", *items[:at], *items[at + 1:]]
            compare_applied(counts, elfsee, program, path, file, [["1", *lacking]])


class Meeting:
    """The library after the module: a call for a listing or a lookup continues once two threads are in it, and the
    memory that each passes is recorded."""

    def __init__(self, elfsee):
        self.library, self.ctypes = elfsee._library, elfsee.ctypes
        self.barrier, self.lent = threading.Barrier(2, timeout=20), []

    def __getattr__(self, name):
        call = getattr(self.library, name)

        def met(*given):
            self.lent.append({self.ctypes.addressof(each) for each in given if isinstance(each, self.ctypes.Array)})
            self.barrier.wait()
            return call(*given)
        return met if name in ("elfsee_show", "elfsee_find") else call


def check_rooms(counts, elfsee, path):
    """No memory is passed to two calls at once: not the room, and nothing that is written."""
    library, met = elfsee._library, Meeting(elfsee)
    with elfsee.File(path) as file:
        for call in (lambda: file.show(elfsee.HEADER), lambda: refusal_of(elfsee, lambda: file.find("no_such_name"))):
            met.lent.clear()
            elfsee._library = met
            threads = [threading.Thread(target=call) for _ in range(2)]
            try:
                for thread in threads:
                    thread.start()
                for thread in threads:
                    thread.join()
            finally:
                elfsee._library = library
            counts.same("two calls at once", [1, 1], [len(lent) > 0 for lent in met.lent])
            counts.same("memory that is lent twice", set(), set.intersection(*met.lent) if met.lent else None)


def budget_of(call, most):
    """How many bytes the rows of a call take: the least budget with which it is not refused, and whether it is refused
    for lack of one with a byte less."""
    low, high = -1, most
    while high - low > 1:
        middle = (low + high) // 2
        try:
            for _ in call(middle):
                pass
            high = middle
        except Exception as refused:  # pylint: disable=broad-except
            if getattr(refused, "word", "") != "budget":
                raise
            low = middle
    return high


def versions_of(elfsee, file, headers):
    """The calls for symbol versions and for the symbols of the hash table, their rows and what these take; the headers
    are visited for each type of section, and for each section of words."""
    versions, words, hashed = list(file.versions()), list(file.symbol_versions()), []
    records = sum((28 if row.kind == 1 else 16) + len(row.name) + 1 for row in versions)
    members = [("versions", versions, 2 * headers + records),
               ("symbol_versions", words, headers + (3 * headers + records + 2 * len(words) if words else 0))]
    rows, end, room = elfsee._Rows(), elfsee._End(), elfsee.ctypes.create_string_buffer(1 << 16)
    status = elfsee._library.elfsee_hashed_symbols(file.data, len(file.data), file._limits, 0, room, len(room), rows, end)
    if status == 0:
        hashed = list(file.hashed_symbols())
        members.append(("hashed_symbols", hashed, end.asked + sum(24 + len(row.name) + 1 for row in hashed)))
    return members


def check_budgets(counts, elfsee, paths):
    """A budget counts all rows of a call, with their headers and names, over all tables; with it they are the same."""
    def names(rows):
        return sum(len(row.name) + 1 for row in rows)

    for path in paths:
        with elfsee.File(path) as file:
            headers = 64 * file.header.shnum
            symbols, entries, sections = list(file.symbols()), list(file.dynamic()), list(file.sections())
            members = [("symbols", symbols, headers + 24 * len(symbols) + names(symbols)),
                       # Opened and read, and without sections visited once more for their strings.
                       ("dynamic", entries, headers + (32 if headers else 48) * len(entries)
                        + sum(len(entry.string) + 1 for entry in entries if entry.string is not None)),
                       ("sections", sections, headers + names(sections)),
                       ("segments", list(file.segments()), 56 * file.header.phnum)]
            notes = list(file.notes())
            if headers and notes:
                members.append(("notes", notes, headers + sum(12 + note.namesz + note.descsz for note in notes)))
            members += versions_of(elfsee, file, headers) if headers else []
        for call, rows, wanted in members:
            def within(budget, call=call):
                with elfsee.File(path, budget=budget) as file:
                    return list(getattr(file, call)())
            counts.same("the bytes of %s of %s" % (call, path), wanted, budget_of(within, 4 * wanted + 4))
            counts.same("%s of %s within their budget" % (call, path), rows, within(wanted))
    with elfsee.File(shared_entries(3998, 60000), budget=1000000) as file:
        before = time.monotonic()
        refused = refusal_of(elfsee, lambda: list(file.dynamic()))
        counts.same("entries that are shared", ("budget", True), (refused.word, time.monotonic() - before < 5))
    # Rows take their own time, and not that of all sections for each table.
    with elfsee.File(many_tables(20000), headers=65279) as file:
        before = time.monotonic()
        counts.same("many tables", 20000, sum(1 for _ in file.symbols()))
        counts.check("many tables in time", time.monotonic() - before < 5)


def check_words(counts, elfsee):
    """The words of the causes are those of docs/FORMAT.md, each cause with one of its own."""
    with open(os.path.join(TOP, "docs", "FORMAT.md"), encoding="utf-8") as file:
        part = file.read().split("The words of the causes:")[1].split("\n\n")[1]
    words = {elfsee.word_of(cause) for cause in elfsee.Cause}
    counts.same("words of causes", set(re.findall(r"`([a-z-]+)`", part)), words)
    counts.same("as many words as causes", len(elfsee.Cause), len(words))
    names = {cause: re.sub("^bad-(?=class|data|version)", "", cause.name.lower().replace("_", "-")) for cause in elfsee.Cause}
    counts.same("a cause has the word that it is named by", names, {cause: elfsee.word_of(cause) for cause in elfsee.Cause})
    counts.same("no cause", ["", ""], [elfsee.word_of(0), elfsee.word_of(max(elfsee.Cause) + 1)])


def check_spelt(counts, elfsee, program, path):
    """Names are escaped as in a listing, without its cap: of an object whose symbols' names have all bytes, each as
    the program prints it if it does not cut it."""
    lines = run(program, "show", "--only", "symbols", "--names", "4096", "--", path)[1].decode().split("\n")
    names = [symbol.name for symbol in elfsee.File(path, longest_name=1 << 20).symbols()]
    counts.same("each byte but NUL in a name", set(range(1, 256)), {byte for name in names for byte in name})
    for line, name in zip(lines, names):
        cut = "\\+" if len(name) > 4096 else ""
        counts.same("spelt by the program", line[84:], elfsee.spelt(name[:4096]) + cut)
    for name in (b"", b"name", bytes(range(256)), b"\\x41\\+", "\u00e4".encode()):
        counts.same("spelt %r" % name, listed_rows.spelt(name, 256), elfsee.spelt(name))
        counts.same("spelt str %r" % name, listed_rows.spelt(name, 256),
                    elfsee.spelt(name.decode("utf-8", "surrogateescape")))


def check_threads(counts, elfsee, path):
    """Threads that share a file get the same bytes."""
    with elfsee.File(path) as file:
        wanted, got = (file.text(), len(list(file.symbols()))), []

        def work():
            for _ in range(20):
                got.append((file.text(), len(list(file.symbols()))))
        threads = [threading.Thread(target=work) for _ in range(4)]
        for thread in threads:
            thread.start()
        for thread in threads:
            thread.join()
    counts.check("four threads", len(got) == 80 and all(each == wanted for each in got))


def check_places(counts, library, folder):
    """The library is found next to the module, and if it is nowhere an error says so."""
    here = os.path.join(folder, "beside")
    os.mkdir(here)
    shutil.copytree(os.path.join(LIBRARY, "python", "elfsee"), os.path.join(here, "elfsee"),
                    ignore=shutil.ignore_patterns("__pycache__"))
    words = [sys.executable, "-B", "-c", "import elfsee; print(elfsee._library._name)"]
    environment = {name: text for name, text in os.environ.items() if name != "ELFSEE_LIBRARY"}
    nowhere = dict(environment, ELFSEE_LIBRARY=os.path.join(here, "none"))
    done = subprocess.run(words, cwd=here, env=nowhere, capture_output=True, check=False)
    counts.check("no library", b"ImportError" in done.stderr and b"none" in done.stderr, done.stderr)
    beside = os.path.join(here, "elfsee", "libelfsee.so.0")
    shutil.copy(library, beside)
    done = subprocess.run(words, cwd=here, env=environment, capture_output=True, check=False)
    counts.same("a library beside the module", beside + "\n", done.stdout.decode())
    done = subprocess.run(words, cwd=here, env=nowhere, capture_output=True, check=False)
    counts.check("no library at the given path, and one next to the module", b"ImportError" in done.stderr and not done.stdout, done)
    if not shutil.which("gcc"):
        print("not run: a library of another version, as gcc is missing")
        return
    source, other = os.path.join(here, "other.c"), os.path.join(here, "other.so")
    names = re.findall(r"^    \"(\w+)\": \(_U|^    \"(\w+)\": \(ctypes", file_content(os.path.join(here, "elfsee", "__init__.py")).decode(), re.M)
    with open(source, "w", encoding="utf-8") as file:
        file.writelines("unsigned elfsee_%s(void) { return 0x10203; }\n" % (one or two) for one, two in names)
    subprocess.run(["gcc", "-shared", "-fPIC", "-o", other, source], check=True)
    done = subprocess.run(words, cwd=here, env=dict(environment, ELFSEE_LIBRARY=other), capture_output=True, check=False)
    counts.check("a library of another version", b"ImportError: the library elfsee has version 1.2.3, this module is for 0" in done.stderr, done)


def check_wheel(counts, library, folder):
    """pip makes a wheel of the module with the library in it and installs that, with no network and no other package;
    twice it is the same. What is installed is the module, typed, and uses its own library."""
    if run(sys.executable, "-m", "pip", "--version")[0] != 0:
        print("not run: the wheel, as pip is missing")
        return
    pip, wheels, there = [sys.executable, "-m", "pip", "--disable-pip-version-check"], [], os.path.join(folder, "site")
    source = os.path.join(LIBRARY, "python")
    for name in ("first_wheel", "second_wheel"):
        at = os.path.join(folder, name)
        done = subprocess.run([*pip, "wheel", "--no-index", "--wheel-dir", at, source], stdin=subprocess.DEVNULL,
                              capture_output=True, check=False)
        counts.same("the wheel is made", (0, b""), (done.returncode, b"" if done.returncode == 0 else done.stderr))
        wheels += [os.path.join(at, each) for each in os.listdir(at)] if os.path.isdir(at) else []
    if len(wheels) != 2:
        return
    counts.same("the wheel's name", os.path.basename(wheels[0]), "elfsee-0.1.0-py3-none-linux_x86_64.whl")
    counts.check("the wheel is the same twice", file_content(wheels[0]) == file_content(wheels[1]))
    module = sorted(name for name in os.listdir(os.path.join(source, "elfsee")) if name != "__pycache__")
    with zipfile.ZipFile(wheels[0]) as wheel:
        packed = {name: wheel.read(name) for name in wheel.namelist()}
    wanted = {"elfsee/" + name: file_content(os.path.join(source, "elfsee", name)) for name in module}
    wanted["elfsee/libelfsee.so.0"] = file_content(library)
    counts.same("what the wheel has", wanted, {name: packed[name] for name in packed if name.startswith("elfsee/")})
    done = subprocess.run([*pip, "install", "--no-index", "--quiet", "--target", there, source],
                          stdin=subprocess.DEVNULL, capture_output=True, check=False)
    counts.same("the module is installed", 0, done.returncode)
    environment = {name: text for name, text in os.environ.items() if name != "ELFSEE_LIBRARY"}
    done = subprocess.run([sys.executable, "-B", "-c", "import elfsee; print(elfsee._library._name)"], cwd="/",
                          env=dict(environment, PYTHONPATH=there), capture_output=True, check=False)
    counts.same("it uses its own library", os.path.join(there, "elfsee", "libelfsee.so.0") + "\n", done.stdout.decode())
