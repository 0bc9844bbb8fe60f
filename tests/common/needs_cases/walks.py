"""Generated cases of tests/gate/needs.py: which objects are found, budgets, options, faults, and how many paths are tried."""

import json
import os
import re
import resource
import shutil
import subprocess
import sys
import tempfile
import time
from pathlib import Path

from needs_cases.common import PLAIN
from needs_cases.libraries import compile_library, compile_text, entry_at, lines_are, states_of_objects
from needs_cases.tried import TRIED, elfsee, fail, objects


def made_budgets(folder):
    """With a budget that is enough the answer is the whole one; one byte less ends it, after whole lines, in a file's place."""
    f = str(folder / "b")
    for words in (["--default", f"{f}/v2", f"{f}/ver.so"], ["--default", f, f"{f}/top12.so"], ["--default", f"{f}/v1", f"{f}/ver.so"]):
        whole = elfsee("--symbols", *words)
        least, enough = 0, 1 << 20
        while least < enough:
            budget = (least + enough) // 2
            if elfsee("--symbols", "--max-read", str(budget), *words) == whole:
                enough = budget
            else:
                least = budget + 1
        for more in (0, 1, 4095, 4096, 1 << 30, (1 << 63) - 1 - enough):
            got = elfsee("--symbols", "--max-read", str(enough + more), *words)
            if got != whole:
                fail(f"a budget of {enough} and {more} more: {got}")
        for less in (1, 2, 100):
            code, text, errors = elfsee("--symbols", "--max-read", str(enough - less), *words)
            front, _, last = text[:-1].rpartition("\n")
            if code != 1 or errors or not whole[1].startswith(front + "\n") or not re.fullmatch(r"! [0-9a-f]{16} budget", last):
                fail(f"a budget of {enough} less {less}: {code} {text!r} {errors!r}")
            elif int(last[2:18], 16) >= max(os.path.getsize(row[3]) for row in objects("\n".join(
                    line for line in text.splitlines() if line.startswith("L")))):
                fail(f"a budget of {enough} less {less}: {last} is in no file")


def made_walk(folder):
    """Objects that need one another: who first needed which, by whose RPATH it is found, a name with a slash, an empty
    directory, a cycle, one that is missing, and a symbol of one of them."""
    f, old = f"{folder}/w", "-Wl,--disable-new-dtags"
    allow = "-Wl,--allow-shlib-undefined"
    os.makedirs(f"{f}/dirs")
    slash = compile_library(folder, "w/sub/libw0.so")
    compile_library(folder, "w/a/libw1.so", soname="libw1.so")
    compile_library(folder, "w/gone/libwgone.so", soname="libwgone.so")
    compile_library(folder, "w/b/libw3.so", f"-L{f}/a", "-lw1", f"-L{f}/gone", "-lwgone", allow, soname="libw3.so", before="int asked(void) { return 1; }\n")
    compile_library(folder, "w/b/libw2.so", f"-L{f}/b", "-lw3", allow, soname="libw2.so")
    compile_library(folder, "w/a/libw1.so", f"-L{f}/b", "-lw2", allow, old, "-Wl,-rpath,$ORIGIN/../b", soname="libw1.so")
    top = compile_library(folder, "w/top.so", f"-L{f}/a", "-lw1", str(slash), allow, old, "-Wl,-rpath,$ORIGIN/dirs:$ORIGIN/a",
                          before="int asked(void);\n", answer="asked()")
    code, text, errors = elfsee("--symbols", "--default", "/none", str(top))
    paths = [("-    ", str(top)), ("    0", f"{f}/a/libw1.so"), ("    0", str(slash)), ("    1", f"{f}/a/../b/libw2.so"),
             ("    3", f"{f}/a/../b/libw3.so"), ("    4", "libwgone.so")]
    wanted = "".join(f"L {index:5} {needer} {'missing' if path == 'libwgone.so' else 'found  '}  - {path}\n"
                     for index, (needer, path) in enumerate(paths))
    if code != 1 or errors or re.sub(r"\d+ bound        4 +\d+ asked", "bound", text) != wanted + "B     0          bound\n":
        fail(f"objects that need one another: {code} {text!r} in place of {wanted!r} {errors!r}")


def made(folder):
    """Made libraries: directories, RPATH, RUNPATH, $ORIGIN, names, cycles, another machine, another root."""
    lib = compile_library
    f = str(folder)
    old = "-Wl,--disable-new-dtags"
    new = "-Wl,--enable-new-dtags"
    lib(folder, "one/libz1.so", soname="libz1.so")
    lib(folder, "two/libz1.so", soname="libz1.so")
    one, two = f"-L{f}/one", f"-L{f}/two"
    top = lib(folder, "plain.so", one, "-lz1")
    none = f"{f}/none"
    lines_are("no directory", ["--default", none, str(top)], [(None, "found", str(top)), (0, "missing", "libz1.so")], 1)
    lines_are("the default", ["--default", f"{f}/two", str(top)], [(None, "found", str(top)), (0, "found", f"{f}/two/libz1.so")], 0)
    lines_are("the path of libraries first", ["--library-path", f"{f}/one", "--default", f"{f}/two", str(top)],
              [(None, "found", str(top)), (0, "found", f"{f}/one/libz1.so")], 0)
    rpath = lib(folder, "rpath.so", one, "-lz1", old, "-Wl,-rpath," + f"{f}/two")
    lines_are("RPATH before the path of libraries", ["--library-path", f"{f}/one", str(rpath)],
              [(None, "found", str(rpath)), (0, "found", f"{f}/two/libz1.so")], 0)
    runpath = lib(folder, "runpath.so", one, "-lz1", new, "-Wl,-rpath," + f"{f}/two")
    lines_are("RUNPATH after the path of libraries", ["--library-path", f"{f}/one", str(runpath)],
              [(None, "found", str(runpath)), (0, "found", f"{f}/one/libz1.so")], 0)
    lines_are("RUNPATH", ["--default", none, str(runpath)],
              [(None, "found", str(runpath)), (0, "found", f"{f}/two/libz1.so")], 0)
    # The name of the library is made the directories of DT_RPATH, besides those of DT_RUNPATH.
    both = lib(folder, "both.so", one, "-lz1", new, f"-Wl,-rpath,{f}/one", soname=f"{f}/two")
    data = bytearray(both.read_bytes())
    at = entry_at(data, 14)
    data[at] = 15
    both.write_bytes(data)
    lines_are("RPATH beside RUNPATH", ["--default", none, str(both)],
              [(None, "found", str(both)), (0, "found", f"{f}/one/libz1.so")], 0)
    origin = lib(folder, "sub/origin.so", one, "-lz1", new, "-Wl,-rpath,$ORIGIN/../two:/x")
    lines_are("$ORIGIN", ["--default", none, str(origin)],
              [(None, "found", str(origin)), (0, "found", f"{f}/sub/../two/libz1.so")], 0)
    link = folder / "link.so"
    link.symlink_to(origin)
    lines_are("$ORIGIN by a link", ["--default", none, str(link)],
              [(None, "found", str(link)), (0, "found", f"{os.path.realpath(f)}/sub/../two/libz1.so")], 0)
    lib(folder, "mid/libmid.so", one, "-lz1", soname="libmid.so")
    outer = lib(folder, "outer_run.so", f"-L{f}/mid", "-lmid", new, f"-Wl,-rpath,{f}/mid:{f}/two", "-Wl,--allow-shlib-undefined")
    lines_are("RUNPATH serves for no other", ["--default", none, str(outer)],
              [(None, "found", str(outer)), (0, "found", f"{f}/mid/libmid.so"), (1, "missing", "libz1.so")], 1)
    outer = lib(folder, "outer_r.so", f"-L{f}/mid", "-lmid", old, f"-Wl,-rpath,{f}/mid:{f}/two", "-Wl,--allow-shlib-undefined")
    lines_are("RPATH serves for others", ["--default", none, str(outer)],
              [(None, "found", str(outer)), (0, "found", f"{f}/mid/libmid.so"), (1, "found", f"{f}/two/libz1.so")], 0)
    lib(folder, "c/libb.so", soname="libb.so")
    lib(folder, "c/liba.so", f"-L{f}/c", "-lb", soname="liba.so")
    lib(folder, "c/libb.so", f"-L{f}/c", "-la", soname="libb.so")
    lines_are("a cycle", ["--default", f"{f}/c", f"{f}/c/liba.so"],
              [(None, "found", f"{f}/c/liba.so"), (0, "found", f"{f}/c/libb.so")], 0)
    shutil.copy(f"{f}/one/libz1.so", f"{f}/other.so")
    data = bytearray(Path(f"{f}/other.so").read_bytes())
    data[18:20] = (183).to_bytes(2, "little")
    (folder / "arm").mkdir()
    (folder / "arm/libz1.so").write_bytes(data)
    lines_are("another machine is passed over", ["--library-path", f"{f}/arm", "--default", f"{f}/two", str(top)],
              [(None, "found", str(top)), (0, "found", f"{f}/two/libz1.so")], 0)
    data[18:20] = (62).to_bytes(2, "little")
    data[6] = 9
    (folder / "bad").mkdir()
    (folder / "bad/libz1.so").write_bytes(data)
    code, text, _ = elfsee("--default", f"{f}/bad", str(top))
    if code != 1 or f"L     1     0 refused  0000000000000006 version {f}/bad/libz1.so\n" not in text:
        fail(f"a library that is refused: {code} {text!r}")
    (folder / "root/lib").mkdir(parents=True)
    shutil.copy(f"{f}/one/libz1.so", f"{f}/root/lib/libz1.so")
    lines_are("another root", ["--root", f"{f}/root", "--default", "/lib", str(top)],
              [(None, "found", str(top)), (0, "found", f"{f}/root/lib/libz1.so")], 0)
    lines_are("a directory that ends in a slash", ["--default", f"{f}/one/", str(top)],
              [(None, "found", str(top)), (0, "found", f"{f}/one//libz1.so")], 0)
    code, text, _ = elfsee("--max-read", "64", str(top))
    if code != 1 or " budget " not in text:
        fail(f"a budget: {code} {text!r}")


def made_options(folder):
    """Each option reaches the run: --headers, --max-read, --json, --root for a name with a slash; and FILE may be `-`."""
    f, none = f"{folder}/o", f"{folder}/none"
    lib = compile_library(folder, "o/libo1.so", soname="libo1.so")
    top = compile_library(folder, "o/top.so", f"-L{f}", "-lo1")
    place = ["--default", f]
    both = [(None, "found", str(top)), (0, "found", str(lib))]
    code, text, _ = elfsee(*place, "--headers", "1", str(top))
    if code != 1 or not re.fullmatch(r"L     0 -     refused  [0-9a-f]{16} too-many-headers \S+/top.so\n", text):
        fail(f"--headers: {code} {text!r}")
    code, text, _ = elfsee(*place, "--symbols", "--json", str(compile_text(folder / "o", "asks.so", "extern int none(void); int asks(void) { return none(); }\n",
                                                                         f"-L{f}", "-lo1")))
    if code != 1 or states_of_objects(text) != [("L", "found"), ("L", "found"), ("B", "unbound")]:
        fail(f"--json: {code} {text!r}")
    code, text, _ = elfsee("--json", "--default", none, str(top))
    if code != 1 or states_of_objects(text) != [("L", "found"), ("L", "missing")]:
        fail(f"--json and a library that is missing: {code} {text!r}")
    with open(top, "rb") as given:
        done = subprocess.run([TRIED.program, "needs", *place, "-"], stdin=given, capture_output=True, timeout=60, env=PLAIN)
    if done.returncode != 0 or objects(done.stdout.decode()) != [(0, None, "found", "-"), (1, 0, "found", str(lib))]:
        fail(f"standard input: {done}")
    # If the budget has no room for a library, that library is refused: it is not skipped, and not missing.
    costs = []
    for budget in range(0, 8000, 16):
        code, text, _ = elfsee(*place, "--max-read", str(budget), str(top))
        costs += [budget] if code == 0 else []
        wanted = (r"L     0 -     found    - \S+\nL     1     0 (?:found    -|refused  [0-9a-f]{16} budget) \S+/libo1.so\n"
                  r"|L     0 -     refused  [0-9a-f]{16} budget \S+\n")
        if not re.fullmatch(wanted, text) or (code == 0) != (" budget " not in text):
            fail(f"--max-read {budget}: {code} {text!r}")
    if not costs or costs[0] < 200:
        fail(f"--max-read: enough are {costs[:3]}")
    # One that is refused has no needs, also if it is refused when it is opened for lookups.
    refused = 0
    for budget in range(0, 6000, 48):
        code, text, _ = elfsee(*place, "--symbols", "--max-read", str(budget), str(top))
        if text.startswith("L     0 -     refused "):
            refused += 1
            if len([line for line in text.splitlines() if line.startswith("L")]) != 1 or code != 1:
                fail(f"--symbols --max-read {budget}: {code} {text!r}")
    if refused < 10:
        fail(f"--symbols --max-read: refused {refused}")
    # A name with a slash is a path, and is below another root too.
    slashed = compile_library(folder, "o/sub/libo2.so")
    top = compile_library(folder, "o/slash.so", str(slashed))
    lines_are("a name with a slash", ["--default", none, str(top)], [(None, "found", str(top)), (0, "found", str(slashed))], 0)
    root = f"{folder}/oroot"
    lines_are("a name with a slash that is not there below another root", ["--root", root, "--default", f"{f}/sub", str(top)],
              [(None, "found", str(top)), (0, "missing", str(slashed))], 1)
    os.makedirs(f"{root}{f}/sub")
    shutil.copy(slashed, f"{root}{slashed}")
    lines_are("a name with a slash below another root", ["--root", root, "--default", none, str(top)],
              [(None, "found", str(top)), (0, "found", f"{root}{slashed}")], 0)


def made_others(folder):
    """A library that may not be read, programs of another machine, and libraries that are missing twice."""
    f = f"{folder}/p"
    lib = compile_library(folder, "p/libp1.so", soname="libp1.so")
    top = compile_library(folder, "p/top.so", f"-L{f}", "-lp1")
    # One that may not be read is skipped; root may read each.
    os.mkdir(f"{f}/secret")
    shutil.copy(lib, f"{f}/secret/libp1.so")
    os.chmod(f"{f}/secret/libp1.so", 0)
    os.chmod(folder, 0o755)
    reader = {"user": 65534} if os.getuid() == 0 else {}
    if sys.version_info >= (3, 9):
        with tempfile.NamedTemporaryFile(suffix=".elfsee") as copy:
            shutil.copyfile(TRIED.program, copy.name)
            os.chmod(copy.name, 0o755)
            copy.file.close()
            done = subprocess.run([copy.name, "needs", "--library-path", f"{f}/secret", "--default", f, str(top)], capture_output=True,
                                  timeout=60, env=PLAIN, **reader)
        if done.returncode or objects(done.stdout.decode()) != [(0, None, "found", str(top)), (1, 0, "found", str(lib))] or done.stderr:
            fail(f"a library that may not be read: {done}")
    # The program's machine decides which file fits.
    for name in ("libp1.so", "top.so"):
        data = bytearray(Path(f"{f}/{name}").read_bytes())
        data[18:20] = (183).to_bytes(2, "little")
        Path(f"{f}/arm").mkdir(exist_ok=True)
        Path(f"{f}/arm/{name}").write_bytes(data)
    lines_are("a program of another machine", ["--default", f"{f}:{f}/arm", f"{f}/arm/top.so"],
              [(None, "found", f"{f}/arm/top.so"), (0, "found", f"{f}/arm/libp1.so")], 0)
    # A name that is missing is an object once, whoever needs it.
    compile_library(folder, "p/gone/libgone.so", soname="libgone.so")
    for name in ("libp2.so", "libp3.so"):
        compile_library(folder, f"p/{name}", f"-L{f}/gone", "-lgone", soname=name)
    top = compile_library(folder, "p/twice.so", f"-L{f}", "-lp2", "-lp3", "-Wl,--allow-shlib-undefined")
    lines_are("missing twice", ["--default", f, str(top)],
              [(None, "found", str(top)), (0, "found", f"{f}/libp2.so"), (0, "found", f"{f}/libp3.so"), (1, "missing", "libgone.so")], 1)
    # DT_RPATH of the object that needed the one that needed the one that needs it, with that object's directory.
    old = "-Wl,--disable-new-dtags"
    compile_library(folder, "p/deep/c/libd4.so", soname="libd4.so")
    compile_library(folder, "p/deep/b/libd3.so", f"-L{f}/deep/c", "-ld4", soname="libd3.so")
    compile_library(folder, "p/deep/b/libd2.so", f"-L{f}/deep/b", "-ld3", "-Wl,--allow-shlib-undefined", soname="libd2.so")
    compile_library(folder, "p/deep/a/libd1.so", f"-L{f}/deep/b", "-ld2", "-Wl,--allow-shlib-undefined", old, "-Wl,-rpath,$ORIGIN/../b:$ORIGIN/../c",
                    soname="libd1.so")
    top = compile_library(folder, "p/chain.so", f"-L{f}/deep/a", "-ld1", "-Wl,--allow-shlib-undefined")
    paths = [f"{f}/deep/a/libd1.so", f"{f}/deep/a/../b/libd2.so", f"{f}/deep/a/../b/libd3.so", f"{f}/deep/a/../c/libd4.so"]
    lines_are("RPATH of one between", ["--default", f"{f}/deep/a", str(top)],
              [(None, "found", str(top)), *((at, "found", path) for at, path in enumerate(paths))], 0)
    # The lookup tables are malformed: the object is refused, even if no lookup is made.
    data = bytearray(lib.read_bytes())
    at = entry_at(data, 0x6ffffef5) + 8
    data[at:at + 8] = b"\xff" * 8
    os.mkdir(f"{f}/broken")
    Path(f"{f}/broken/libp1.so").write_bytes(data)
    for words in ([], ["--symbols"]):
        code, text, _ = elfsee(*words, "--default", f"{f}/broken", f"{f}/top.so")
        if code != 1 or not re.search(rf"^L     1     0 refused  [0-9a-f]{{16}} unmapped {f}/broken/libp1.so$", text, re.M):
            fail(f"a hash table outside the file, {words}: {code} {text!r}")


def made_faults(folder):
    """A path at which no file can be is passed over; where the system opens no more files the answer ends, and nothing is missing."""
    f = f"{folder}/q"
    lib = compile_library(folder, "q/libq3.so", soname="libq3.so")
    for name, needed in (("libq2.so", "-lq3"), ("libq1.so", "-lq2")):
        compile_library(folder, f"q/{name}", f"-L{f}", needed, soname=name)
    top = compile_library(folder, "q/top.so", f"-L{f}", "-lq1")
    os.mkdir(f"{f}/loop")
    os.symlink("libq1.so", f"{f}/loop/libq1.so")
    found = [(None, "found", str(top)), *((at, "found", f"{f}/libq{at + 1}.so") for at in range(3))]
    for what, place in (("that is no directory", str(lib)), ("with too many links", f"{f}/loop"), ("that is too long", f"{f}/{'n' * 256}")):
        lines_are(f"a path {what} is passed over", ["--library-path", place, "--default", f, str(top)], found, 0)
    whole = elfsee("--symbols", "--default", f, str(top))
    faults = 0
    for most in range(5, 12):
        done = subprocess.run([TRIED.program, "needs", "--symbols", "--default", f, str(top)], capture_output=True, timeout=60, env=PLAIN,
                              preexec_fn=lambda: resource.setrlimit(resource.RLIMIT_NOFILE, (most, most)))
        got = (done.returncode, done.stdout.decode(), done.stderr.decode())
        if got != whole:
            faults += 1
            if got[0] != 3 or got[2] != "elfsee: cannot open\n" or not whole[1].startswith(got[1]):
                fail(f"{most} open files: {got}")
    if whole[0] or not 1 <= faults < 7:
        fail(f"few open files: {faults} faults, else {whole}")


def made_tries(folder):
    """Each directory with a name, and each name with a slash, is a try: one more than may be ends the answer, soon."""
    f = f"{folder}/t"
    compile_library(folder, "t/libt000.so")
    data = compile_library(folder, "t/first.so", f"-L{f}", "-l:libt000.so", "-Wl,--disable-new-dtags", f"-Wl,-rpath,{'a:' * 1899}$ORIGIN").read_bytes()
    if data.count(b"libt000.so\0") != 1:
        return fail("a name that occurs once")
    for i in range(150):
        Path(f"{f}/libt{i:03}.so").write_bytes(data.replace(b"libt000.so\0", b"libt%03d.so\0" % min(i + 1, 149)))
    # Library i + 1 is in the last directory of the first text of those that are searched for library i, which is its own.
    tried = 100000 // 1900
    before = time.monotonic()
    code, text, errors = elfsee("--default", "", f"{f}/libt000.so")
    took = time.monotonic() - before
    lines = text.splitlines()
    if code != 1 or errors or len(lines) != tried + 2 or lines[-1] != f"! {entry_at(data, 1):016x} too-many-paths" or took > 10:
        fail(f"150 libraries with 1,900 directories each: {code} {len(lines)} lines {lines[-1:]} {errors!r} in {took:.1f} s")
    ended = elfsee("--symbols", "--default", "", f"{f}/libt000.so")
    if ended != (code, text, errors):
        fail(f"symbols after too many paths: {ended[0]} {ended[1][-300:]!r}")
    # With exactly as many as are needed the answer is whole; what is skipped unopened counts too, and so does a name with a slash.
    compile_library(folder, "t/libu.so", soname="libu.so")
    slashed = compile_library(folder, "t/sub/libs.so")
    top = compile_library(folder, "t/top.so", f"-L{f}", "-lu", str(slashed))
    words = ["--library-path", f"{'n' * 5000}:{f}/none:{f}", "--default", ""]
    whole = elfsee(*words, str(top))
    for tries, lines in ((4, None), (5, None), ((1 << 63) - 1, None), (3, 2), (2, 1), (0, 1)):
        got, wanted = elfsee(*words, "--max-tries", str(tries), str(top)), whole
        if lines is not None:
            at = entry_at(top.read_bytes(), 1) + 16 * (lines - 1)
            wanted = (1, "".join(line + "\n" for line in whole[1].splitlines()[:lines]) + f"! {at:016x} too-many-paths\n", "")
        if got != wanted or whole[0]:
            fail(f"--max-tries {tries}: {got} in place of {wanted}")
    as_object = json.loads(elfsee("--json", "--default", "", f"{f}/libt000.so")[1].splitlines()[-1])
    if as_object != {"line": "!", "place": entry_at(data, 1), "cause": "too-many-paths"}:
        fail(f"too many paths as an object: {as_object}")
