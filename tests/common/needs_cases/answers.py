"""Made cases of tests/gate/needs.py: many files, --problems and --unused."""

import os

from needs_cases.common import bytes_of, found, missing, refused, segment_at

DYNAMIC = 2


def run(cases):
    problems(cases)
    many(cases)
    unused(cases)


def problems(cases):
    """Only the lines that make the status 1."""
    f = cases.path("problems")
    lib = cases.library("problems/liba.so", text="int f(void) { return 0; }\n", soname="liba.so", maps="V1 { global: f; };\n")
    gone = cases.library("problems/gone/libgone.so", soname="libgone.so")
    text = ("const char path[] __attribute__((section(\".interp\"))) = \"/none/ld.so\";"
            "extern int weak(void) __attribute__((weak)), f(void), none(void); int both(void) { return f() + none() + weak(); }\n")
    top = cases.library("problems/top.so", lib, text="extern int f(void); int top(void) { return f(); }\n")
    both = cases.library("problems/both", lib, gone, text=text)
    words = ["--problems", "--default", f]
    cases.check("no problem", [*words, top], [])
    cases.check("no problem with symbols", [*words, "--symbols", top], [])
    cases.check("problems", [*words, both], [missing(2, 0, "libgone.so"), "I missing  /none/ld.so"], 1)
    status, text, errors = cases.run([*words, "--symbols", both])
    lines = [line[:2] + line[19:] if line.startswith("B ") else line for line in text.splitlines()]
    if (status, lines, errors) != (1, [missing(2, 0, "libgone.so"), "I missing  /none/ld.so", "B unbound  -     -          none"], ""):
        cases.fail(f"problems of symbols: {status} {text!r} {errors!r}")
    cases.library("problems/liba.so", text="int f(void) { return 0; }\n", soname="liba.so")
    cases.check("versions that are missing", [*words, top], ["U     0     1 bare     V1"], 1)
    cases.check("they as objects", [*words, "--json", top], ['{"line":"U","object":0,"provider":1,"state":"bare","version":"V1"}'], 1)
    cases.check("too many paths", [*words, "--max-tries", "0", top],
                [f"! {int.from_bytes(bytes_of(top)[segment_at(bytes_of(top), DYNAMIC) + 8:][:8], 'little'):016x} too-many-paths"], 1)
    lib = cases.copy(lib, "problems/liba.so", (6, b"\2"))
    cases.check("a library that is refused", [*words, top], [refused(1, 0, 6, "version", lib)], 1)


def many(cases):
    """More than one file, and directories: each that a loader takes has a line of its path."""
    f = cases.path("many")
    lib = cases.library("many/liba.so", soname="liba.so")
    top = cases.library("many/sub/top.so", lib)
    other = cases.copy(lib, "many/sub/other.so")
    first = [f"@ {top}", found(0, None, top), found(1, 0, lib)]
    cases.check("two files", ["--default", f, top, lib], [*first, f"@ {lib}", found(0, None, lib)])
    cases.check("one file twice", ["--default", f, top, top], first * 2)
    lost = [f"@ {top}", found(0, None, top), missing(1, 0, "liba.so")]
    cases.check("two files, one with a problem", ["--default", "/none", lib, top], [f"@ {lib}", found(0, None, lib), *lost], 1)
    cases.check("problems of two files", ["--problems", "--default", "/none", lib, top], [lost[0], lost[2]], 1)
    cases.check("no problems of two files", ["--problems", "--default", f, lib, top], [])
    cases.check("a directory", ["--default", f, f + "/sub"], [f"@ {other}", found(0, None, other), *first])
    # Files that a loader does not take have no line, and those whose headers are refused do.
    with open(f + "/sub/text", "wb") as file:
        file.write(b"text\n" * 20)
    cases.copy(lib, "many/sub/object.o", (16, "<H", 1))
    cases.copy(lib, "many/sub/core", (16, "<H", 4))
    cases.copy(lib, "many/sub/static", (segment_at(bytes_of(lib), DYNAMIC), "<I", 0))
    broken = cases.copy(lib, "many/sub/broken.so", (6, b"\2"))
    wrong = [f"@ {broken}", refused(0, None, 6, "version", broken)]
    cases.check("a directory with others", ["--default", f, f + "/sub"], [*wrong, f"@ {other}", found(0, None, other), *first], 1)
    cases.check("problems of a directory", ["--problems", "--default", f, f + "/sub"], wrong, 1)
    cases.check("a file that no loader takes", ["--default", f, f + "/sub/text", top], first)
    # The limit of paths is that of each file.
    cases.check("tries of each file", ["--default", f, "--max-tries", "1", top, top], first * 2)
    # Objects, whose paths need no escapes here.
    row = '{"line":"L","index":0,"needed_by":"-","state":"found","path":"%s"}'
    cases.check("as objects", ["--json", lib, other],
                [line for path in (lib, other) for line in ('{"line":"@","path":"%s"}' % path, row % path)])
    with open(f + "/list", "wb") as file:
        file.write(os.fsencode(top) + b"\0" + os.fsencode(lib) + b"\0")
    if cases.is_whole:
        cases.check("a list of files", ["--default", f, "--files0-from", f + "/list"], [*first, f"@ {lib}", found(0, None, lib)])


def unused(cases):
    """Libraries that FILE needs, and of which it uses nothing."""
    f = cases.path("unused")
    used = cases.library("unused/libused.so", text="int f(void) { return 0; }\n", soname="libused.so")
    idle = cases.library("unused/libidle.so", text="int idle(void) { return 0; } int f(void) { return 1; }\n", soname="libidle.so")
    data = cases.library("unused/libdata.so", text="int data[9] = {1};\n", soname="libdata.so")
    below = cases.library("unused/libbelow.so", idle, used, text="extern int idle(void); int below(void) { return idle(); }\n", soname="libbelow.so")
    text = "extern int f(void); int top(void) { return f(); }\n"

    def line(index, needer, path):
        return found(index, needer, path).replace("found ", "unused")

    top = cases.library("unused/top.so", used, idle, text=text)
    lines = [found(0, None, top), found(1, 0, used), found(2, 0, idle)]
    cases.check("a library that is not used", ["--unused", "--default", f, top], [*lines, line(2, 0, idle)])
    cases.check("it is no problem", ["--unused", "--problems", "--default", f, top], [])
    row = '{"line":"L","index":%s,"state":"%s",%s"path":"%s"}'
    by = '"by":"default",'
    cases.check("it as an object", ["--unused", "--json", "--default", f, top],
                [row % ('0,"needed_by":"-"', "found", "", top), row % ('1,"needed_by":0', "found", by, used),
                 row % ('2,"needed_by":0', "found", by, idle), row % ('2,"needed_by":0', "unused", by, idle)])
    top = cases.library("unused/other.so", idle, used, text=text)
    lines = [found(0, None, top), found(1, 0, idle), found(2, 0, used)]
    cases.check("the one that comes second", ["--unused", "--default", f, top], [*lines, line(2, 0, used)])
    # Of a library that another one needs, and that FILE uses, that is the one that is used.
    top = cases.library("unused/deep.so", below, idle, text=text)
    lines = [found(0, None, top), found(1, 0, below), found(2, 0, idle), found(3, 1, used)]
    cases.check("a library that only others use", ["--unused", "--default", f, top], [*lines, line(1, 0, below)])
    # Data that is copied is defined by FILE then, and comes from the library.
    program = cases.linked(cases.path("unused/copies"), "extern int data[9]; void _start(void) { data[0] = 2; }\n", "-no-pie", "-fno-pic", data, idle,
                           "-Wl,--dynamic-linker,/none/ld.so")
    lines = [found(0, None, program), found(1, 0, data), found(2, 0, idle), "I missing  /none/ld.so"]
    cases.check("data that is copied", ["--unused", "--default", f, program], [*lines, line(2, 0, idle)], 1)
    gone = cases.library("unused/gone/libgone.so", soname="libgone.so")
    top = cases.library("unused/lacks.so", gone, used, text=text)
    cases.check("a library that is missing", ["--unused", "--default", f, top], [found(0, None, top), missing(1, 0, "libgone.so"), found(2, 0, used)], 1)
