"""Made cases of tests/gate/needs.py: which file a name is. Tokens, what is passed over and what ends the search, one file by two names,
and libraries without default directories."""

import os
import socket
import struct

from needs_cases.common import FLAGS_1, NEEDED, bytes_of, entry_at, found, missing, refused, segment_at

DYNAMIC = 2


def run(cases):
    tokens(cases)
    passed_over(cases)
    identities(cases)
    kinds(cases)
    same_files(cases)
    without_defaults(cases)
    tries(cases)


def tokens(cases):
    f = cases.folder
    # Of each needed name the file to which it leads, below the directory of the program; None for a name as it is.
    for name, leads in (("$ORIGIN/sub/libt.so", "sub/libt.so"), ("${ORIGIN}/sub/libt.so", "sub/libt.so"), ("lib$PLATFORM.so", "libx86_64.so"),
                        ("lib${PLATFORM}x.so", "libx86_64x.so"), ("lib$PLATFORMx.so", "lib$PLATFORMx.so"), ("lib$NONE.so", "lib$NONE.so"),
                        ("lib${PLATFORM.so", "lib${PLATFORM.so"), ("lib$.so", "lib$.so"), ("lib${NONE}.so", "lib${NONE}.so"),
                        ("lib$$PLATFORM.so", "lib$x86_64.so"), ("lib$PLATFORM_.so", "lib$PLATFORM_.so")):
        lib = cases.library("made/lib.so", soname=name)
        top = cases.library("top.so", lib)
        target = cases.copy(lib, leads)
        cases.check(f"a needed name: {name}", ["--default", f, top], [found(0, None, top), found(1, 0, target)])
        os.remove(target)
        wanted = f"{f}/{leads}" if "/" in name else leads
        cases.check(f"a missing name: {name}", ["--default", f, top], [found(0, None, top), missing(1, 0, wanted)], 1)
    lib = cases.library("made/lib.so", soname="$LIB/libt.so")
    top = cases.library("top.so", lib)
    cases.copy(lib, "lib/x86_64-linux-gnu/libt.so")
    cases.check("a needed name: $LIB", [top], [found(0, None, top), found(1, 0, "lib/x86_64-linux-gnu/libt.so")], cwd=f)
    # Directories: of RUNPATH, of --library-path, whose `$ORIGIN` is FILE's, and of --default, which has no tokens.
    lib = cases.library("dirs/$NONE/libt.so", soname="libt.so")
    for text in ("$ORIGIN/dirs/$NONE", "${ORIGIN}/dirs/$NONE", f"{f}/dirs/$NONE"):
        top = cases.library("top.so", lib, f"-Wl,-rpath,{text}")
        cases.check(f"RUNPATH {text}", ["--default", "", top], [found(0, None, top), found(1, 0, lib)])
    top = cases.library("top.so", lib)
    for text in ("$ORIGIN/dirs/$NONE", f"{f}/none;$ORIGIN/dirs/$NONE:{f}/none", "$ORIGIN/none;${ORIGIN}/dirs/$NONE"):
        cases.check(f"--library-path {text}", ["--library-path", text, "--default", "", top], [found(0, None, top), found(1, 0, lib)])
    cases.check("--default with a token", ["--default", "$ORIGIN/dirs/$NONE", top], [found(0, None, top), missing(1, 0, "libt.so")], 1)
    between = cases.library("sub/libbetween.so", lib, soname="libbetween.so")
    outer = cases.library("outer.so", between)
    cases.check("--library-path has the directory of FILE", ["--library-path", "$ORIGIN/sub:$ORIGIN/dirs/$NONE", "--default", "", outer],
                [found(0, None, outer), found(1, 0, between), found(2, 1, lib)])


class Search:
    """A library that is searched for in `first` and then in `last`."""

    def __init__(self, cases, name):
        self.cases, self.first = cases, cases.path(f"{name}/first")
        os.makedirs(self.first)
        self.lib = cases.library(f"{name}/last/libs.so", soname="libs.so")
        self.top = cases.library(f"{name}/top.so", self.lib)
        self.file = self.first + "/libs.so"

    def words(self):
        return ["--library-path", self.first, "--default", os.path.dirname(self.lib), self.top]

    def is_skipped(self, what, **more):
        self.cases.check(f"{what} is passed over", self.words(), [found(0, None, self.top), found(1, 0, self.lib)], **more)

    def is_found(self, what):
        self.cases.check(f"{what} is found", self.words(), [found(0, None, self.top), found(1, 0, self.file)])

    def is_refused(self, what, place, cause):
        self.cases.check(f"{what} is refused", self.words(), [found(0, None, self.top), refused(1, 0, place, cause, self.file)], 1)

    def write(self, content):
        with open(self.file, "wb") as file:
            file.write(content)


def passed_over(cases):
    """What can't be opened is passed over; all else ends the search."""
    search = Search(cases, "over")
    search.is_skipped("no file")
    os.symlink("libs.so", search.file)
    search.is_skipped("a link to itself")
    os.remove(search.file)
    with socket.socket(socket.AF_UNIX) as there:
        here = os.getcwd()
        os.chdir(search.first)
        there.bind("libs.so")
        os.chdir(here)
        search.is_skipped("a socket")
    os.remove(search.file)
    os.mkdir(search.file)
    search.is_refused("a directory", 0, "short")
    os.rmdir(search.file)
    os.mkfifo(search.file)
    search.is_refused("a pipe", 0, "short")
    os.remove(search.file)
    os.symlink("/dev/null", search.file)
    search.is_refused("a device", 0, "short")
    os.remove(search.file)
    for what in ("/proc/self/mem", "/proc/self/maps"):
        if os.path.exists(what):
            os.symlink(what, search.file)
            search.is_refused(f"{what}, whose bytes can't be read", 0, "short")
            os.remove(search.file)
    plain = bytes_of(search.lib)
    for size in (0, 4, 19, 20, 63):
        search.write(plain[:size])
        search.is_refused(f"a file of {size} bytes", size, "short")
        search.write(b"x" * size)
        search.is_refused(f"a text of {size} bytes", size, "short")
    for content in (b"x" * 64, b"\x7fELG" + plain[4:], b"\x7eELF" + plain[4:]):
        search.write(content)
        search.is_refused("a file that is no ELF file", 0, "not-elf")
    # Of needs that come after one that is refused each is still searched for.
    name = cases.library("over/last/libother.so", soname="libother.so")
    both = cases.library("over/both.so", search.lib, name)
    cases.check("a need after one that is refused", [*search.words()[:-1], both],
                [found(0, None, both), refused(1, 0, 0, "not-elf", search.file), found(2, 0, name)], 1)


def identities(cases):
    """The first bytes of a file, beside a machine and a class that are others."""
    search = Search(cases, "identity")
    plain = bytes_of(search.lib)

    def write(changes):
        data = bytearray(plain)
        for at, byte in changes.items():
            data[at] = byte
        search.write(data)

    for what, changes in (("class 32", {4: 1}), ("no class", {4: 0}), ("another machine", {18: 183}), ("machine 15934", {19: 62}),
                          ("big-endian", {5: 2, 18: 0, 19: 62}), ("class 32 with a wrong version", {4: 1, 6: 9}),
                          ("another machine with a wrong system", {18: 183, 7: 9})):
        write(changes)
        search.is_skipped(what)
    for what, changes, place, cause in (
            ("big-endian with bytes of the machine", {5: 2}, 5, "data"), ("no encoding", {5: 0, 6: 9}, 5, "data"), ("version 9", {6: 9, 7: 9}, 6, "version"),
            ("system 9", {7: 9}, 7, "unsupported"), ("system 1", {7: 1, 20: 9}, 7, "unsupported"), ("version 1 of system 0", {8: 1}, 7, "unsupported"),
            ("byte 9", {9: 1}, 7, "unsupported"), ("byte 15", {15: 255}, 7, "unsupported"), ("version 2 after the type", {20: 2, 16: 1}, 20, "version"),
            ("version 257", {21: 1}, 20, "version"), ("relocatable", {16: 1}, 16, "unsupported"), ("a core", {16: 4, 54: 9}, 16, "unsupported"),
            ("no type", {16: 0}, 16, "unsupported"), ("type 259", {17: 1}, 16, "unsupported")):
        write(changes)
        search.is_refused(what, place, cause)
    for what, changes in (("system 3", {7: 3}), ("version 1 of system 3", {7: 3, 8: 1})):
        write(changes)
        search.is_found(what)
    # FILE itself is not asked this.
    for what, changes in (("system 9", {7: 9, 8: 1, 15: 1}), ("version 2", {20: 2}), ("relocatable", {16: 1}), ("EXEC", {16: 2})):
        top = cases.copy(search.top, "identity/changed.so", *((at, bytes([byte])) for at, byte in changes.items()))
        cases.check(f"FILE: {what}", ["--default", os.path.dirname(search.lib), top], [found(0, None, top), found(1, 0, search.lib)])


def kinds(cases):
    """Programs are no libraries; this is found after all other faults."""
    search = Search(cases, "kinds")
    plain = bytes_of(search.lib)
    pie = cases.library("kinds/flagged.so", "-Wl,-z,nodefaultlib", soname="libs.so")
    flagged = bytes_of(pie)
    flags = entry_at(flagged, FLAGS_1) + 8
    dynamic = segment_at(plain, DYNAMIC)

    def changed(data, *changes):
        data = bytearray(data)
        for at, form, number in changes:
            struct.pack_into(form, data, at, number)
        search.write(data)

    changed(plain, (16, "<H", 2))
    search.is_refused("EXEC", 16, "unsupported")
    changed(flagged, (flags, "<Q", 0x8000000))
    search.is_refused("a program for any address", 16, "unsupported")
    changed(flagged, (flags, "<Q", 0x8000001))
    search.is_refused("a program for any address that binds at once", 16, "unsupported")
    changed(flagged, (flags, "<Q", 0xF7FFFFFF))
    search.is_found("each other flag")
    changed(plain, (dynamic, "<I", 0))
    search.is_refused("no dynamic segment", 16, "unsupported")
    changed(plain, (16, "<H", 2), (dynamic + 32, "<Q", 17))
    search.is_refused("EXEC with a dynamic segment of 17 bytes", dynamic, "size-not-whole")
    changed(plain, (16, "<H", 2), (54, "<H", 9))
    search.is_refused("EXEC with program headers of 9 bytes", 0x36, "entry-size")
    for what, changes in (("for any address", [(entry_at(flagged, FLAGS_1) + 8, "<Q", 0x8000000)]), ("no dynamic segment", [(dynamic, "<I", 0)])):
        top = cases.copy(pie if "address" in what else search.lib, "kinds/changed.so", *changes)
        cases.check(f"FILE: {what}", [top], [found(0, None, top)])


def same_files(cases):
    """A file that is an object already, by another name."""
    f = cases.path("same")
    lib = cases.library("same/liba.so", text="int f(void) { return 0; }\n", soname="liba.so", maps="V1 { global: f; };\n")
    other = cases.library("same/libb.so", text="int f(void) { return 0; }\n", soname="libb.so", maps="V1 { global: f; };\n")
    top = cases.library("same/top.so", lib, other)
    user = cases.library("same/libuser.so", other, text="extern int f(void); int user(void) { return f(); }\n", soname="libuser.so")
    asks = cases.library("same/asks.so", lib, user, "-Wl,--no-as-needed", other)
    cases.check("two files", ["--default", f, top], [found(0, None, top), found(1, 0, lib), found(2, 0, other)])
    for what, make in (("a link", lambda: os.symlink("liba.so", other)), ("the same file", lambda: os.link(lib, other))):
        os.remove(other)
        make()
        cases.check(f"{what} of an object", ["--default", f, top], [found(0, None, top), found(1, 0, lib)])
        # Versions of a file by the other name are those of the object.
        cases.check(f"versions of {what}", ["--default", f, asks], [found(0, None, asks), found(1, 0, lib), found(2, 0, user)])
        # A name that led to an object is one of its names: no path is tried for it again.
        cases.check(f"names of {what}", ["--default", f, "--max-tries", "3", asks], [found(0, None, asks), found(1, 0, lib), found(2, 0, user)])
    # An object of the same file that is refused is none that is found.
    plain = bytes_of(lib)
    cases.copy(lib, "same/liba.so", (6, b"\2"))
    cases.check("a link of an object that is refused", ["--default", f, top],
                [found(0, None, top), refused(1, 0, 6, "version", lib), refused(2, 0, 6, "version", other)], 1)
    with open(lib, "wb") as file:
        file.write(plain)
    # FILE by another name; it has no name by which it was needed.
    os.makedirs(f + "/self")
    os.symlink(top, f + "/self/liba.so")
    cases.check("FILE by another name", ["--library-path", f + "/self", "--default", f, top], [found(0, None, top), found(1, 0, other)])


def without_defaults(cases):
    """DF_1_NODEFLIB: its needs are not searched for in the default directories; those of other objects are."""
    f = cases.path("nodef")
    lib = cases.library("nodef/libn.so", soname="libn.so")
    top = cases.library("nodef/top.so", lib, "-Wl,-z,nodefaultlib")
    cases.check("no default directories", ["--default", f, top], [found(0, None, top), missing(1, 0, "libn.so")], 1)
    cases.check("--library-path", ["--library-path", f, "--default", "", top], [found(0, None, top), found(1, 0, lib)])
    plain = cases.library("nodef/plain.so", top, lib)
    cases.check("needs of another object", ["--default", f, plain], [found(0, None, plain), found(1, 0, top), found(2, 0, lib)])
    runs = cases.library("nodef/runs.so", lib, "-Wl,-z,nodefaultlib", f"-Wl,-rpath,{f}")
    cases.check("RUNPATH", ["--default", "/none", runs], [found(0, None, runs), found(1, 0, lib)])


def tries(cases):
    """--max-tries: each directory with a name, and each name with a slash, is a try."""
    f = cases.path("tries")
    lib = cases.library("tries/last/libt.so", soname="libt.so")
    slash = cases.library("tries/last/slash.so")
    top = cases.library("tries/top.so", lib, slash, f"-Wl,-rpath,{f}/a:{'x' * 256}:{f}/b")
    place = [entry_at(bytes_of(top), NEEDED, count) for count in (0, 1)]
    # A path of more bytes than a path may have is a try too.
    words = ["--library-path", f"{'long/' * 900}", "--default", f"{f}/d:{f}/last"]
    lines = [found(0, None, top), found(1, 0, lib), found(2, 0, slash)]
    for most in (7, 8, 100000):
        cases.check(f"{most} tries", [*words, "--max-tries", most, top], lines)
    for most in (6, 0, 1, 5):
        cut = lines[:2] if most == 6 else lines[:1]
        cases.check(f"{most} tries", [*words, "--max-tries", most, top], [*cut, f"! {place[most == 6]:016x} too-many-paths"], 1)
        cases.check(f"{most} tries, and symbols", [*words, "--symbols", "--max-tries", most, top],
                    [*cut, f"! {place[most == 6]:016x} too-many-paths"], 1)
