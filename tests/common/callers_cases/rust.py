"""Cases of tests/gate/callers.py: the crate for Rust beside the module for Python."""

import itertools
import os
import re
import shutil
import subprocess
import tarfile

import looked_up
from callers_cases.counted import LIBRARY, asked_of, file_content, run
from callers_cases.listings import CHOSEN, PARTS, STYLES, names_of_rows, texts_of, words_to_layout
from testing import TOP


def members_in_rust(elfsee, content):
    """The lines that the crate's example prints of an archive."""
    lines = []
    try:
        for member in elfsee.File(content).members():
            lines.append("A %d %d %d %d %s" % (member.at, member.offset, member.size, member.is_cut, member.name.hex()))
            if bytes(member.content[:4]) == b"\x7fELF":
                lines += elfsee.File(member.content).text(elfsee.HEADER).split("\n")[:-1]
    except elfsee.Refused as refused:
        lines.append("! %s" % refused)
    return lines


def compiled_in_rust(counts, library, folder):
    """The programs in Rust, by their names; none without rustc."""
    if not (shutil.which("cc") and shutil.which("rustc") and run("rustc", "--version")[0] == 0):
        print("not run: what is in Rust, as rustc is missing, or cc with which it links")
        return {}
    rustc = ["rustc", "--edition", "2021", "-O", "-D", "warnings"]
    crate = os.path.join(LIBRARY, "rust", "src", "lib.rs")
    subprocess.run([*rustc, "--crate-type", "rlib", "--crate-name", "elfsee", "-L", library, "-l",
                    "static=elfsee", crate, "--out-dir", folder], check=True)
    linked = ["--extern", "elfsee=" + os.path.join(folder, "libelfsee.rlib")]
    sources = [os.path.join(LIBRARY, "rust", "examples", "calls.rs"),
               os.path.join(LIBRARY, "rust", "examples", "images.rs"),
               os.path.join(LIBRARY, "rust", "examples", "layout.rs"),
               os.path.join(TOP, "examples", "relocate.rs")]
    for source in sources:
        subprocess.run([*rustc, *linked, source, "--out-dir", folder], check=True)
    bad_calls = os.path.join(folder, "bad_calls")
    subprocess.run([*rustc, "--test", *linked, os.path.join(LIBRARY, "rust", "tests", "bad_calls.rs"), "-o",
                    bad_calls], check=True)
    status, out = run(bad_calls)
    counts.check("bad calls in Rust", status == 0, out.decode())
    if shutil.which("rustdoc"):
        status, out = run("rustdoc", "--test", "--edition", "2021", "--crate-name", "elfsee", *linked, crate)
        ran = re.search(rb"test result: ok\. (\d+) passed; 0 failed; 0 ignored", out)
        counts.check("the examples of the crate's pages", status == 0 and ran and int(ran[1]) > 15, out)
    else:
        print("not run: the examples of the crate's pages, as rustdoc is missing")
    return {os.path.basename(source)[:-3]: os.path.join(folder, os.path.basename(source)[:-3])
            for source in sources}


def numbers_of(elfsee, file):
    """The rows of a file as the crate's example prints them."""
    header = file.header
    yield "H %d %d %d %s" % (header.type, header.machine, header.entry, header.ident.hex())
    for row in file.sections():
        yield "S %d %d %d %d %s" % (row.index, row.type, row.offset, row.size, row.name.hex())
    for row in file.segments():
        yield "P %d %d %d %d" % (row.index, row.type, row.offset, row.filesz)
    for row in file.symbols():
        yield "Y %d %d %d %d %d %d %d %d %s" % (row.table, row.value, row.size, row.section, row.info, row.type,
                                                row.binding, row.other, row.name.hex())


def other_numbers(elfsee, file):
    """Of each other kind of row the lines that the crate's example prints of it, and whether none is left out:
    the crate names no symbol of an entry and no string, whose faults end the module's rows."""
    makers = {
        "R": lambda: ("R %d %d %d %d %d" % (row.table, row.offset, row.type, row.symbol, row.addend)
                      for row in file.relocations()),
        "N": lambda: ("N %d %d %d %s %s" % (row.table, row.type, row.namesz, row.name.hex(), row.desc.hex())
                      for row in file.notes()),
        "D": lambda: ("D %d %d %d" % (row.table, row.tag, row.value) for row in file.dynamic()),
    }
    for kind, maker in makers.items():
        lines, is_whole = [], True
        try:
            for line in maker():
                lines.append(line)
        except elfsee.Refused:
            is_whole = False
        yield kind, lines, is_whole


def named_in_rust(elfsee, file):
    """Of each kind of row with a name the lines that the crate's example prints for it, and of the refusal that ends
    them."""
    has_sections = file.data[60:62] != bytes(2)
    makers = {
        "sections": lambda: ("S %d %d %s" % (row.index, row.type, elfsee.spelt(row.name)) for row in file.sections()),
        "segments": lambda: ("P %d %d" % (row.index, row.type) for row in file.segments()),
        "symbols": lambda: ("Y %d %d %s" % (row.table, row.visibility, elfsee.spelt(row.name))
                            for row in file.symbols()),
        "dynamic": lambda: ("D %d %d %s" % (row.table, row.tag, elfsee.spelt(row.string or b""))
                            for row in file.dynamic()),
    }
    for kind, maker in makers.items():
        lines = []
        try:
            for line in maker():
                lines.append(line)
        except elfsee.Refused as refused:
            # Of strings of a segment that lie nowhere the example has another refusal.
            if kind == "dynamic" and not has_sections:
                continue
            lines.append("! %s" % refused)
        yield kind, lines


def told_of_lookup(elfsee, file, name):
    """What the crate's example prints for a lookup."""
    try:
        found = file.find(name)
    except elfsee.Refused as refused:
        return "! %s\n" % refused
    row = found.symbol
    if row is None:
        return "absent %d\n" % found.steps
    return "%d %d %d %d\n" % (row.table, row.index, row.value, found.steps)


def told_of_loader(elfsee, file, text, by_segments):
    """What the crate's example prints for a loader's lookup."""
    name, version, is_default = looked_up.parted(text)
    try:
        found = file.look_up(name, version, default_only=is_default, by_segments=by_segments)
    except elfsee.Refused as refused:
        return "! %s\n" % refused
    row, version = found.symbol, found.version
    if row is None:
        return "absent %d\n" % found.tried
    line = "%d %d %d %d" % (row.table, row.index, row.value, found.tried)
    if version:
        line += " %d %d %d %d %s" % (version.table, version.number, version.is_hidden, version.is_cut,
                                     version.name.hex())
    return line + "\n"


def told_of_contents(elfsee, file):
    """What the crate's example prints for the bytes of sections: how many each has, and their sum."""
    lines = []
    try:
        for index in range(file.header.shnum):
            content = file.content(index)
            lines.append("%d none" % index if content is None else "%d %d %d" % (index, len(content), sum(content)))
    except elfsee.Refused as refused:
        lines.append("! %s" % refused)
    return "".join(line + "\n" for line in lines)


def told_of_hashed(elfsee, file, by_segments):
    """The lines that the crate's example prints of the symbols of the hash table."""
    lines = []
    try:
        for row in file.hashed_symbols(by_segments=by_segments):
            lines.append("%d %d %d %s\n" % (row.value, row.size, row.section, row.name.hex()))
    except elfsee.Refused as refused:
        lines.append("! %s\n" % refused)
    return "".join(lines)


def compare_in_rust(counts, elfsee, calls, program, path, names):
    """The crate's listing is the program's; its rows are the module's."""
    counts.same("text in Rust of %s" % path, run(program, "show", "--", path), run(calls, "show", path))
    for options in STYLES:
        counts.same("text in Rust of %s %s" % (path, " ".join(options)), run(program, "show", *options, "--", path),
                    run(calls, "list", path, *(option[2:] for option in options)))
    for part in PARTS:
        counts.same("%s in Rust of %s" % (part, path), run(program, "show", "--only", part, "--", path),
                    run(calls, "show", path, part))
    with elfsee.File(path) as file:
        counts.same("bytes requested in Rust of %s" % path, "%d\n" % file.show().asked,
                    run(calls, "asked", path)[1].decode())
    status, out = run(calls, "rows", path)
    rows, wanted = out.decode().split("\n")[:-1], []
    with elfsee.File(path, longest_name=1 << 30) as file:
        try:
            for line in numbers_of(elfsee, file):
                wanted.append(line)
        except elfsee.Refused as refused:
            counts.same("refusal in Rust of %s" % path, refused.word, rows[-1].split()[1])
            counts.same("status in Rust of %s" % path, 1, status)
        others = list(other_numbers(elfsee, file)) if status == 0 else []
    with elfsee.File(path, longest_name=1 << 30) as file:
        for kind, lines in named_in_rust(elfsee, file):
            counts.same("named %s in Rust of %s" % (kind, path), lines,
                        run(calls, "named", path, kind)[1].decode().split("\n")[:-1])
    counts.same("rows in Rust of %s" % path, wanted, rows[:len(wanted)])
    for kind, lines, is_whole in others:
        got = [row for row in rows if row.startswith(kind)]
        counts.same("%s rows in Rust of %s" % (kind, path), lines, got if is_whole else got[:len(lines)])
    for name in names:
        with elfsee.File(path) as file:
            told = told_of_lookup(elfsee, file, name)
        counts.same("lookup in Rust of %s" % name, told, run(calls, "find", path, name)[1].decode())
    with elfsee.File(path) as file:
        for text, by_segments in itertools.product(texts_of(file.data)[:7], (False, True)):
            told = told_of_loader(elfsee, file, text, by_segments)
            words = ["resolve", path, text, *["by-segments"] * by_segments]
            counts.same("a loader's lookup in Rust of %r" % text, told, run(calls, *words)[1].decode())
        for part, options in CHOSEN:
            names = names_of_rows(texts_of(file.data), options)
            wanted = run(program, "show", "--only", part, *options, *("--name=" + name for name in names), "--", path)
            counts.same("rows in Rust of %s of %s" % (names, path), wanted,
                        run(calls, "names", path, part, *(option[2:] for option in options), *names))
        for words in ([], ["by-segments"]):
            counts.same("symbols in Rust of the hash table of %s" % path, told_of_hashed(elfsee, file, bool(words)),
                        run(calls, "hashed", path, *words)[1].decode())
        counts.same("bytes of sections in Rust of %s" % path, told_of_contents(elfsee, file),
                    run(calls, "contents", path)[1].decode())
        compare_versions_in_rust(counts, elfsee, calls, path, file)
        for section, *words in asked_of(file.data)[1]:
            for some in (words, words[:len(words) // 2]):
                counts.same("section %s in Rust of %s" % (section, path), told_of_place(elfsee, file, section, some),
                            run(calls, "place", path, section, *some)[1].decode())


def told_of_place(elfsee, file, section, words):
    """What the crate's example prints for a section in a borrowed layout."""
    try:
        return file.apply(int(section), words_to_layout(elfsee, words)).hex() + "\n"
    except elfsee.Unapplied as refused:
        missing = refused.missing
        told = "nothing" if missing is None else "%s %s %d %s %d" % (
            "none" if missing.section is None else missing.section,
            "".join("01"[field in missing.helpful] for field in ("define", "entries", "table", "thread")),
            missing.relocation, missing.name.hex(), missing.is_cut)
        return "! %s, %s\n" % (refused, told)


def compare_versions_in_rust(counts, elfsee, calls, path, file):
    """The crate's versions are the module's."""
    status, out = run(calls, "versions", path)
    got, wanted = out.decode().split("\n")[:-1], []
    try:
        for row in file.versions():
            names_it = row.kind == 3 or row.kind == 1 and not row.flags & 1
            wanted.append("V %d %d %d %d %d %d %d %s" % (row.table, row.kind, row.number, row.is_hidden, row.flags,
                                                       row.hash, names_it, row.name.hex()))
        for row in file.symbol_versions():
            wanted.append("X %d %d %d" % (row.table, row.number, row.is_hidden))
    except elfsee.Refused:
        wanted = [line for line in wanted if line[0] == "V"]
        counts.same("versions before a refusal in Rust of %s" % path, wanted, got[:len(wanted)])
        return
    counts.same("versions in Rust of %s" % path, (0, wanted), (status, got))


# What the crate's package must contain, besides what cargo puts there.
PACKED = {"Cargo.toml", "LIBRARY.md", "build.rs", "rustfmt.toml", "examples/calls.rs", "examples/layout.rs",
          "tests/bad_calls.rs"}


def check_package(counts, library, folder):
    """cargo packs the crate and builds it from that alone; a program that uses what is packed finds an installed
    library by pkg-config, and says what to do if there is none."""
    if not (shutil.which("cargo") and run("cargo", "--version")[0] == 0):
        print("not run: the crate's package, as cargo is missing")
        return
    top, target = os.path.join(folder, "crate"), os.path.join(folder, "target")
    shutil.copytree(os.path.join(LIBRARY, "rust"), os.path.join(top, "library", "rust"),
                    ignore=shutil.ignore_patterns("target", "Cargo.lock"))
    os.mkdir(os.path.join(top, "docs"))
    shutil.copy(os.path.join(TOP, "docs", "LIBRARY.md"), os.path.join(top, "docs"))
    environment = {name: text for name, text in os.environ.items() if not name.startswith(("ELFSEE_", "PKG_CONFIG"))}
    environment["CARGO_TARGET_DIR"] = target
    done = subprocess.run(["cargo", "package", "--offline", "--allow-dirty"], cwd=os.path.join(top, "library", "rust"),
                          env=dict(environment, ELFSEE_LIBRARY_DIR=library), stdin=subprocess.DEVNULL,
                          capture_output=True, check=False)
    counts.check("the crate is packed and built", done.returncode == 0, done.stderr)
    if done.returncode != 0:
        return
    with tarfile.open(os.path.join(target, "package", "elfsee-0.1.0.crate")) as crate:
        names = {name.split("/", 1)[1] for name in crate.getnames()}
        crate.extractall(os.path.join(folder, "packed"))
    sources = {"src/" + name for name in os.listdir(os.path.join(LIBRARY, "rust", "src"))}
    counts.same("what the package lacks", set(), (PACKED | sources) - names)
    user = os.path.join(folder, "user")
    os.makedirs(os.path.join(user, "src"))
    texts = {"Cargo.toml": '[package]\nname = "user"\nversion = "0.1.0"\nedition = "2021"\n[dependencies]\n'
                           'elfsee = { path = "../packed/elfsee-0.1.0" }\n',
             "src/main.rs": 'fn main() {\n    println!("{:x}", elfsee::version());\n}\n',
             "elfsee.pc": "libdir=%s\n\nName: elfsee\nDescription: d\nVersion: 0.1.0\nLibs: -lelfsee\n" % library}
    for name, text in texts.items():
        with open(os.path.join(user, name), "w", encoding="utf-8") as file:
            file.write(text)
    command = ["cargo", "run", "--offline", "--quiet"]
    lost = subprocess.run(command, cwd=user, env=dict(environment, PKG_CONFIG="false"), stdin=subprocess.DEVNULL,
                          capture_output=True, check=False)
    counts.check("no library is found", lost.returncode != 0 and b"ELFSEE_LIBRARY_DIR may name" in lost.stderr,
                 lost.stderr)
    if not shutil.which("pkg-config"):
        print("not run: the crate with pkg-config, which is missing")
        return
    done = subprocess.run(command, cwd=user, env=dict(environment, PKG_CONFIG_PATH=user), stdin=subprocess.DEVNULL,
                          capture_output=True, check=False)
    counts.same("the crate finds an installed library", (0, b"100\n"),
                (done.returncode, done.stdout or done.stderr[-300:]))


def check_spaces(counts, library, folder):
    """If PREFIX has a space, pkg-config prints arguments that a shell takes unchanged: a program in C is built with them,
    and runs."""
    if not (shutil.which("pkg-config") and shutil.which("make") and shutil.which("gcc")):
        print("not run: a space in PREFIX, as pkg-config, make or gcc is missing")
        return
    top, prefix = os.path.join(folder, "checkout"), os.path.join(folder, "a prefix  with spaces")
    shutil.copytree(LIBRARY, os.path.join(top, "library"), ignore=shutil.ignore_patterns("out", "target", "__pycache__"))
    shutil.copytree(library, os.path.join(top, "library", "out"), symlinks=True)
    shutil.copytree(os.path.join(TOP, "man"), os.path.join(top, "man"))
    shutil.copy(os.path.join(TOP, "Makefile"), top)
    done = subprocess.run(["make", "-o", "library", "install-library", "PREFIX=" + prefix, "pythondir=", "LDCONFIG=true"],
                          cwd=top, stdin=subprocess.DEVNULL, capture_output=True, check=False)
    counts.same("the library is installed where a space is", (0, b""), (done.returncode, done.stderr))
    environment = dict(os.environ, PKG_CONFIG_PATH=os.path.join(prefix, "lib", "pkgconfig"), LD_LIBRARY_PATH=os.path.join(prefix, "lib"))
    made = os.path.join(folder, "of_spaces")
    command = 'eval "gcc $1 $(pkg-config --cflags --libs elfsee) -o $2" && "$2" /bin/ls'
    done = subprocess.run(["sh", "-c", command, "sh", os.path.join(TOP, "examples", "first.c"), made], env=environment,
                          stdin=subprocess.DEVNULL, capture_output=True, check=False)
    counts.same("a program with that library", (0, b"", True), (done.returncode, done.stderr, b"libc.so.6\n" in done.stdout))


def check_relocate(counts, program, relocate, folder):
    """A linker's step: the section is the one that the program writes for the addresses it gives."""
    source, out = os.path.join(folder, "step.s"), os.path.join(folder, "step.bin")
    with open(source, "w", encoding="ascii") as file:
        file.write("call callee\nlea there(%rip), %rax\nret\n.data\nthere: .quad there, callee\n")
    step = source[:-2] + ".o"
    subprocess.run(["as", "-o", step, source], check=True)
    for index, name in ((1, ".text"), (3, ".data")):
        status, told = run(relocate, step, name, "0x401000", out, "callee=0x402000")
        places = {name: address for address, name in (line.split() for line in told.decode().split("\n")[:-1])}
        items = ["at:1=0x" + places[".text"], "at:3=0x" + places[".data"], "def:callee=0x402000"]
        counts.same("relocate.rs of %s" % name, run(program, "apply", step, str(index), *items),
                    (status, file_content(out)))
    counts.same("relocate.rs without a definition", 1, run(relocate, step, ".text", "0x401000", out)[0])
    counts.same("relocate.rs without its words", 1, run(relocate)[0])
