"""Made cases of tests/gate/needs.py: the interpreter of a program."""

import os
import struct

from needs_cases.common import DEBUG, NEEDED, bytes_of, entry_at, found, missing, refused, segment_at

INTERP = 3


def run(cases):
    own = cases.library("ld/ld.so", soname="libld.so")
    os.chmod(own, 0o755)
    program = cases.executable("program", interpreter=own)
    there, gone = f"I found    {own}", f"I missing  {own}"

    def check(what, last, status):
        cases.check(what, [program], [found(0, None, program), last], status)

    check("an interpreter", there, 0)
    cases.check("no interpreter", [own], [found(0, None, own)])
    for mode in (0o100, 0o010, 0o001):
        os.chmod(own, 0o600 | mode)
        check(f"an interpreter of mode {mode:o}", there, 0)
    os.chmod(own, 0o666)
    check("one that is not executable", gone, 1)
    os.chmod(own, 0o755)
    plain = bytes_of(own)
    for what, changes, is_found in (
            ("another machine", {18: 183}, False), ("class 32", {4: 1}, False), ("big-endian", {5: 2}, False), ("no type", {16: 0}, False),
            ("relocatable", {16: 1}, False), ("EXEC", {16: 2}, True), ("a core", {16: 4}, False), ("no magic number", {0: 0x7E}, False),
            ("another system", {7: 9}, True)):
        cases.copy(own, "ld/ld.so", *((at, bytes([byte])) for at, byte in changes.items()))
        check(f"an interpreter: {what}", there if is_found else gone, not is_found)
        with open(own, "wb") as file:
            file.write(plain)
    for what, text in (("text", b"#!/bin/sh\n" * 9), ("empty", b""), ("its first 19 bytes", plain[:19])):
        with open(own, "wb") as file:
            file.write(text)
        check(f"an interpreter: {what}", gone, 1)
    os.remove(own)
    check("no such interpreter", gone, 1)
    cases.check("one as an object", ["--json", program], ['{"line":"L","index":0,"needed_by":"-","state":"found","path":"%s"}' % program,
                                                         '{"line":"I","state":"missing","path":"%s"}' % own], 1)
    for make, what in ((os.mkdir, "a directory"), (os.mkfifo, "a pipe")):
        make(own)
        check(f"an interpreter: {what}", gone, 1)
        (os.rmdir if what == "a directory" else os.remove)(own)
    os.symlink("other", own)
    check("a link to nothing", gone, 1)
    with open(cases.path("ld/other"), "wb") as file:
        file.write(plain)
    os.chmod(cases.path("ld/other"), 0o755)
    check("a link to an interpreter", there, 0)
    os.remove(own)
    os.rename(cases.path("ld/other"), own)
    cases.check("one as an object", ["--json", program], ['{"line":"L","index":0,"needed_by":"-","state":"found","path":"%s"}' % program,
                                                         '{"line":"I","state":"found","path":"%s"}' % own])
    paths(cases, program, own)
    needed(cases, own)
    libraries(cases, program)


def paths(cases, program, own):
    """The path that a program header gives, and its faults, which come after all others."""
    data = bytes_of(program)
    at = segment_at(data, INTERP)
    offset, size = struct.unpack_from("<Q", data, at + 8)[0], struct.unpack_from("<Q", data, at + 32)[0]

    def check(what, changes, *lines, status=1):
        path = cases.copy(program, "changed", *changes)
        cases.check(what, [path], [line.replace("FILE", path) for line in lines], status)

    first = found(0, None, "FILE")
    ends = refused(0, None, at, "name-unended", "FILE")
    check("a path up to its first zero byte", [(offset + size - 2, b"\0")], first, f"I missing  {own[:-1]}")
    check("an empty path", [(offset, b"\0")], first, "I missing  ")
    check("a path that does not end", [(offset + size - 1, b"x")], ends)
    check("a path that ends before its last byte", [(offset + 1, b"\0"), (offset + size - 1, b"x")], ends)
    check("a path of a byte", [(at + 32, "<Q", 1)], ends)
    check("a path of no byte", [(at + 32, "<Q", 0)], ends)
    check("a path of more than 4,096 bytes", [(at + 32, "<Q", 4097)], ends)
    check("a path outside", [(at + 8, "<Q", len(data) - size + 1)], refused(0, None, at, "table-outside", "FILE"))
    check("no program header of an interpreter", [(at, "<I", 0)], first, status=0)
    soname = entry_at(data, 5)
    check("another fault comes first", [(offset + size - 1, b"x"), (soname, "<Q", DEBUG)],
          refused(0, None, entry_at(data, 0x6FFFFEF5), "unmapped", "FILE"))
    # Relative paths are the current directory's.
    relative = cases.executable("relative", interpreter="ld/ld.so")
    cases.check("a relative path", [relative], [found(0, None, relative), "I found    ld/ld.so"], cwd=cases.folder)
    cases.check("a relative path elsewhere", [relative], [found(0, None, relative), "I missing  ld/ld.so"], 1, cwd="/")


def needed(cases, own):
    """The interpreter is an object if it is needed by its path or its SONAME, and is not searched for then."""
    other = cases.library("other/libld.so", soname="libld.so")
    program = cases.executable("needs", other, interpreter=own)
    lines = [found(0, None, program), found(1, 0, own), f"I found    {own}"]
    cases.check("needed by its SONAME", ["--library-path", cases.path("other"), program], lines)
    cases.check("needed by its SONAME, no path tried", ["--max-tries", "0", program], lines)
    row = '{"line":"L","index":1,"needed_by":0,"state":"found","by":"%s","path":"%s"}'
    status, text, _ = cases.run(["--json", "--library-path", cases.path("other"), program])
    if status or text.splitlines()[1:2] != [row % ("known", own)]:
        cases.fail(f"needed by its SONAME, as an object: {text!r}")
    # The name is that of a file beside the interpreter whose SONAME is another.
    os.chmod(own, 0o644)
    cases.check("one that is missing has no SONAME", ["--library-path", cases.path("other"), program],
                [found(0, None, program), found(1, 0, other), f"I missing  {own}"], 1)
    os.chmod(own, 0o755)
    nameless = cases.library("nameless/ld.so")
    os.chmod(nameless, 0o755)
    program = cases.executable("slash", nameless, interpreter=nameless)
    lines = [found(0, None, program), found(1, 0, nameless), f"I found    {nameless}"]
    cases.check("needed by its path", ["--max-tries", "0", program], lines)
    # A record of versions whose file is the interpreter, which no entry names.
    versions = cases.library("versions/ld.so", text="int f(void) { return 0; }\n", soname="libld.so", maps="V1 { global: f; };\n")
    os.chmod(versions, 0o755)
    program = cases.executable("unnamed", versions, interpreter=versions, text="extern int f(void); void _start(void) { f(); }\n")
    changed = cases.copy(program, "changed", (entry_at(bytes_of(program), NEEDED), "<Q", DEBUG))
    cases.check("versions of the interpreter, which no entry names", [changed], [found(0, None, changed), f"I found    {versions}"])
    os.chmod(versions, 0o644)
    cases.check("versions of one that is missing", [changed], [found(0, None, changed), f"I missing  {versions}", "U     0 -     nofile   V1"], 1)


def libraries(cases, program):
    """The line comes after all objects, and a refused file has none."""
    lib = cases.library("lib/libi1.so", soname="libi1.so")
    own = cases.path("ld/ld.so")
    user = cases.executable("user", lib, interpreter=own)
    cases.check("after all objects", ["--default", cases.path("lib"), user], [found(0, None, user), found(1, 0, lib), f"I found    {own}"])
    cases.check("after a library that is missing", ["--default", cases.path("none"), user],
                [found(0, None, user), missing(1, 0, "libi1.so"), f"I found    {own}"], 1)
    data = bytes_of(program)
    broken = cases.copy(program, "broken", (segment_at(data, 2) + 32, "<Q", 17))
    cases.check("a refused program", [broken], [refused(0, None, segment_at(data, 2), "size-not-whole", broken)], 1)
