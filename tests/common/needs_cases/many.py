"""Generated cases of tests/gate/needs.py: many files, many objects, and long names and paths."""

import json
import os
import resource
import struct
import subprocess
from pathlib import Path

from needs_cases.libraries import compile_library, compile_text, entry_at, lines_are
from needs_cases.tried import MANY_STACK_BYTES, STACK_BYTES, TRIED, bindings, elfsee, fail, objects


def is_problem(line):
    """Whether a line, in columns or as an object, makes the status 1."""
    if line.startswith("{"):
        row = json.loads(line)
        letter, state = row["line"], row.get("state")
    else:
        begin = {"I": 2, "L": 14, "U": 14, "B": 19}.get(line[0], 0)
        letter, state = line[0], line[begin : begin + 8].strip()
    return letter in "!U" or (letter in "ILB" and state in ("missing", "refused", "unbound", "nover"))


def in_turn(words, paths, problems):
    """What `needs` prints of some files, by what it prints of each alone."""
    status, text = 0, ""
    for path in paths:
        code, alone, errors = elfsee(*words, str(path))
        if errors:
            fail(f"{path} alone: {errors}")
        lines = [line for line in alone.splitlines(True) if not problems or is_problem(line)]
        head = json.dumps({"line": "@", "path": str(path)}, separators=(",", ":")) if "--json" in words else f"@ {path}"
        status, text = max(status, code), text + (head + "\n" + "".join(lines) if lines else "")
    return status, text, ""


def made_files(folder):
    """Many files: each program and library has its path and then its own lines, others have none; and only problems."""
    f = folder / "files"
    lib = compile_library(f, "lib/libp.so", soname="libp.so")
    compile_text(f, "lib/libgone.so", "int gone(void) { return 1; }\n", "-Wl,-soname,libgone.so")
    whole = compile_library(f, "all/a.so", f"-L{f}/lib", "-lp")
    gone = compile_text(f, "all/b/gone.so", "extern int gone(void); int own(void) { return gone(); }\n", f"-L{f}/lib", "-lgone")
    os.remove(f / "lib/libgone.so")
    data = whole.read_bytes()
    listed = {"all/c.so": data[:0x36] + b"\1" + data[0x37:], "all/d.so": data[:5] + b"\2" + data[6:], "all/e": b"\x7fELF\2"}
    others = {"all/f": data[:4] + b"\1" + data[5:], "all/g": b"text\n", "all/h": b"", "all/i": b"x" * 64,
              "all/j.o": data[:16] + b"\1" + data[17:], "all/k": data[:16] + b"\4" + data[17:]}
    for name, bytes_ in {**listed, **others}.items():
        (f / name).write_bytes(bytes_)
    phoff, = struct.unpack_from("<Q", data, 32)
    still = bytearray(data)
    for i in range(struct.unpack_from("<H", data, 56)[0]):
        if struct.unpack_from("<I", data, phoff + 56 * i)[0] == 2:
            struct.pack_into("<I", still, phoff + 56 * i, 0)
    (f / "all/l").write_bytes(still)
    found = sorted([whole, gone, *(f / name for name in listed)], key=lambda path: str(path).encode())
    for options in ([], ["--symbols"], ["--json"], ["--symbols", "--json"]):
        words = [*options, "--default", f"{f}/lib"]
        for problems in (False, True):
            more = ["--problems"] if problems else []
            wanted = in_turn(words, found, problems)
            for what, paths in (("a directory", [str(f / "all")]), ("files", [str(f / name) for name in others] + [str(path) for path in found])):
                got = elfsee(*words, *more, *paths)
                if got != wanted or wanted[0] != 1:
                    fail(f"{what} with {words} {more}: {got} in place of {wanted}")
            listing = f / "listing"
            listing.write_bytes(b"\0".join(str(path).encode() for path in found))
            got = elfsee(*words, *more, "--files0-from", str(listing))
            if got != wanted:
                fail(f"--files0-from with {words} {more}: {got} in place of {wanted}")
            # Alone there is no line of the path.
            alone = elfsee(*words, *more, str(gone))
            if alone[1] != "".join(line + "\n" for line in elfsee(*words, str(gone))[1].splitlines() if not problems or is_problem(line)) or alone[0] != 1:
                fail(f"one file with {words} {more}: {alone}")
    got = elfsee("--problems", "--symbols", "--default", f"{f}/lib", str(whole), str(lib))
    if got != (0, "", ""):
        fail(f"no problem: {got}")
    got = elfsee("--default", f"{f}/lib", str(whole), f"{f}/none")
    wanted = in_turn(["--default", f"{f}/lib"], [whole], False)[1] + f"C unread   - {f}/none\n"
    if got[0] != 3 or got[2] or [line.split() for line in got[1].splitlines()] != [line.split() for line in wanted.splitlines()]:
        fail(f"a file that is not there: {got} in place of {wanted!r}")
    # Each has its own budget, from which the headers are taken that decide whether it is listed.
    size = 64 + 56 * struct.unpack_from("<H", data, 56)[0]
    least, most = 0, 1 << 20
    while most - least > 1:
        middle = (least + most) // 2
        least, most = (middle, most) if elfsee("--max-read", str(middle), "--default", f"{f}/lib", str(whole))[0] else (least, middle)
    head = f"@ {whole}\n" + elfsee("--default", f"{f}/lib", str(whole))[1]
    for budget, same in ((most + size, True), (most + size - 1, False)):
        code, text, errors = elfsee("--max-read", str(budget), "--default", f"{f}/lib", str(whole), str(whole))
        if (text == head + head and code == 0) != same or errors:
            fail(f"a budget of {budget} for each: {code} {text!r} {errors!r}")


def made_names(folder):
    """A SONAME that is not the file's name: an object is known by the name that it was needed by, and by that."""
    f = f"{folder}/so"
    compile_library(folder, "so/libfile.so")
    compile_library(folder, "so/libname.so")
    tops = [compile_library(folder, f"top{a}.so", f"-L{f}", f"-l:lib{a}.so", f"-l:lib{b}.so") for a, b in (("file", "name"), ("name", "file"))]
    compile_library(folder, "so/libfile.so", soname="libname.so")
    lines_are("known by its SONAME", ["--default", f, str(tops[0])], [(None, "found", str(tops[0])), (0, "found", f"{f}/libfile.so")], 0)
    lines_are("a name before that SONAME", ["--default", f, str(tops[1])],
              [(None, "found", str(tops[1])), (0, "found", f"{f}/libname.so"), (0, "found", f"{f}/libfile.so")], 0)


def made_many(folder):
    """Libraries each of which needs the next, with DT_RPATH: 512 are listed, and the next is reported; on little stack."""
    f = f"{folder}/many"
    compile_library(folder, "many/libm000.so")
    data = compile_library(folder, "many/first.so", f"-L{f}", "-l:libm000.so", "-Wl,--disable-new-dtags", "-Wl,-rpath,$ORIGIN").read_bytes()
    if data.count(b"libm000.so\0") != 1:
        return fail("a name that occurs once")
    for i in range(513):
        Path(f"{f}/libm{i:03}.so").write_bytes(data.replace(b"libm000.so\0", b"libm%03d.so\0" % min(i + 1, 512)))
    for words in ([], ["--symbols"]):
        for first in (0, 1):
            # Of those from 0 on the last that is listed is 511, and one more is needed; from 1 on the last needs itself.
            wanted = "".join(f"L {i:5} {'-    ' if i == 0 else f'{i - 1:5}'} found    - {f}/libm{first + i:03}.so\n" for i in range(512))
            wanted += f"! {entry_at(data, 1):016x} too-many-objects\n" if first == 0 else ""
            path = f"{f}/libm{first:03}.so"
            for paths, wanted, most in (([path], wanted, STACK_BYTES), ([path, path], f"@ {path}\n{wanted}" * 2, MANY_STACK_BYTES)):
                stack = (most, most)
                call = ["env", "-i", TRIED.program, "needs", *words, "--default", "", *paths]
                done = subprocess.run(call, capture_output=True, timeout=120, preexec_fn=lambda: resource.setrlimit(resource.RLIMIT_STACK, stack))
                if done.returncode != 1 - first or done.stdout.decode() != wanted or done.stderr:
                    fail(f"512 objects from {first} on, {len(paths)} files {words}: {done.returncode} {done.stdout[-300:]!r} {done.stderr!r}")
    # In a table each is one level below the one that needs it.
    rows = [f"{i:5} {'  ' * i}libm{i:03}.so [rpath] {f}/libm{i:03}.so" for i in range(1, 512)]
    rows = ["index name [by] path", f"    0 {f}/libm000.so", *rows, "", f"0x{entry_at(data, 1):x}: more objects are needed than are listed", ""]
    tree = elfsee("--table", "--default", "", f"{f}/libm000.so")
    if tree != (1, "\n".join(rows), ""):
        fail(f"a tree of 512 levels: {tree[0]} {tree[1][-300:]!r} {tree[2]!r}")
    # The answer ends if there are too many, though the program asks for a symbol.
    compile_library(folder, "many/asks.so", f"-L{f}", "-l:libm001.so", "-Wl,-rpath,$ORIGIN", before="int asked(void);\n", answer="asked()")
    alone, ended = elfsee("--default", "", f"{f}/asks.so"), elfsee("--symbols", "--default", "", f"{f}/asks.so")
    if "too-many-objects\n" not in alone[1][-20:] or ended != alone:
        fail(f"symbols after too many objects: {ended[0]} {ended[1][-300:]!r}")


def made_many_paths(folder):
    """As many libraries, each of which finds the next by its own DT_RUNPATH, so that each path and each text is kept: with long
    ones. With --symbols each asks for a symbol that the last of them has, so that all of them are open."""
    f = f"{folder}/{'long' * 30}"
    os.mkdir(f)
    compile_text(Path(f), "libn511.so", "int last(void) { return 0; }\n", "-Wl,-soname,libn511.so")
    data = compile_text(Path(f), "first.so", "extern int last(void); int own(void) { return last(); }\n", f"-L{f}", "-ln511",
                        f"-Wl,-rpath,$ORIGIN:/{'none' * 40}").read_bytes()
    if data.count(b"libn511.so\0") != 1:
        return fail("a name that occurs once")
    for i in range(511):
        Path(f"{f}/libn{i:03}.so").write_bytes(data.replace(b"libn511.so\0", b"libn%03d.so\0" % (i + 1)))
    wanted = [(i, None if i == 0 else i - 1, "found", f"{f}/libn{i:03}.so") for i in range(512)]
    code, text, errors = elfsee("--symbols", "--default", "", f"{f}/libn000.so")
    lines = text.splitlines()
    if code or objects("\n".join(lines[:512])) != wanted or errors:
        return fail(f"512 objects with long paths: {code} {text[-300:]!r} {errors!r}")
    rows = bindings(text)[1]
    if [(row[0], row[2], row[3], row[5]) for row in rows] != [(i, "bound", 511, "last") for i in range(511)]:
        fail(f"512 objects with a symbol of the last: {len(rows)} {rows[:2]}")
