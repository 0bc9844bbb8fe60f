#!/usr/bin/env python3
"""Compares the rows of some names with those among all rows.

    tests/gate/rows_by_name.py [--program PROGRAM] [--quick] [FOLDER OR FILE..]

For each ELF file below the directories, or without one those below /usr/bin and /usr/lib, the symbols, the
relocation entries and with `--gnu` the symbol versions are listed by some of their names: a few that are
there, one that is a prefix of another, one of a byte more, and one twice. The output of `--name` and `--name-list`
must be what is left of the listing with `--names M` without the lines of other names, M being the
bytes of the longest name, with the same status and the same refusal after it; also within a read budget
and with `--json`. The same for the archives there, whose members have their lines. With `--versions` symbols
and relocation entries are listed by names alone, with a version, with a default one, and with a prefix of
one; M is then no less than 256. The symbols that `--defined`, `--undefined` and `--dynamic` show, alone, together
and with a name, must be those of the listing whose column says so, or whose section is a dynamic symbol table;
relocation entries are all shown. With `--quick` only some files are used. Lists with odd lines come next: which names
they have, and which are refused. Then a
file of 300,000 symbols is made: one of its names may take no longer than all rows do, and 10,000 names at
most twice as long. It needs Python 3. The last line is `N passed, N failed`."""

import glob
import json
import os
import random
import re
import resource
import struct
import subprocess
import sys
import tempfile

sys.dont_write_bytecode = True
sys.path.insert(0, os.path.join(os.path.dirname(os.path.realpath(__file__)), "..", "common"))
from testing import Counts, option_reader, program_of

HEX8, HEX16 = rb"[0-9a-f]{8} ", rb"[0-9a-f]{16} "
FRONTS = {
    b"Y": re.compile(rb"Y .{5} .{10} " + HEX16 * 2 + rb".{7} .{6} .{9} .{5} "),
    b"R": re.compile(rb"R .{5} " + HEX16 + rb"\S+ +" + HEX8 + rb"(?:[+-]" + HEX16 + rb"|- {17})"),
    b"V": re.compile(rb"V .{5} .{4} .{5} .{4} .{8} "),
    b"X": re.compile(rb"X .{5} .{10} .{5} . "),
}
PLAIN = re.compile(rb"[!-\[\]-~]{1,4096}")
PARTS = (("symbols",), ("relocs",), ("relocs", "--gnu"), ("versions", "--gnu"))
counts = Counts()
check = counts.quiet_case


def listed(program, path, part, *options):
    """The lines of a part of a file, or of each member of an archive, and the status."""
    with open(path, "rb") as file:
        command = "archive" if file.read(8) == b"!<arch>\n" else "show"
    run = subprocess.run([program, command, "--only", *part, *options, path], stdout=subprocess.PIPE, stderr=subprocess.PIPE)
    return run.stdout.splitlines(keepends=True), run.returncode


def name_of(line):
    """The name in which a line ends, or none if it is a refusal."""
    front = FRONTS[line[:1]].match(line) if line[:1] in FRONTS else None
    return None if front is None else line[front.end() : -1]


def is_kept(line, names):
    """Whether a line is shown if rows are selected by these names."""
    if line[:1] != b"{":
        return line[:1] in b"!A" or name_of(line) in names
    row = json.loads(line)
    return row["line"] in "!A" or (row["name"].encode() in names and not row.get("cut"))


def files(places):
    """The files in some places that begin as ELF files or archives do, each once."""
    seen = set()
    for place in places:
        walk = [(os.path.dirname(place) or ".", [], [os.path.basename(place)])] if os.path.isfile(place) else os.walk(place)
        for folder, _, names in walk:
            for path in sorted(os.path.join(folder, name) for name in names):
                try:
                    real = os.stat(path)
                    if os.path.islink(path) or (real.st_dev, real.st_ino) in seen or not os.path.isfile(path):
                        continue
                    seen.add((real.st_dev, real.st_ino))
                    with open(path, "rb") as file:
                        if file.read(4) in (b"\x7fELF", b"!<ar"):
                            yield path
                except OSError:
                    continue


def some_names(lines, chance):
    """Some names to look for, of those that have only characters that are printed unescaped."""
    there = sorted({name for name in map(name_of, lines) if name and PLAIN.fullmatch(name) and not name.endswith(b"\\+")})
    if not there:
        return [b"main"]
    names = chance.sample(there, min(3, len(there)))
    longest = max(names, key=len)
    return names + [longest + b"x", names[0]] + ([longest[:-1]] if len(longest) > 1 else [])


def compare(program, path, part, chance):
    """Compares the rows of some names of a part of a file with those among all rows."""
    all_lines, _ = listed(program, path, part, "--names", "4096")
    # A name of a byte more would show a name whole that is to be cut: in every other case it is left out.
    names = some_names(all_lines, chance)
    if chance.random() < 0.5:
        names = [name for name in names if len(name) < max(map(len, names))] or names
    names = [name for name in names if not name.startswith(b"-")] or [b"main"]
    most = max(map(len, names))
    words = [word for name in names for word in ("--name", name.decode())]
    with tempfile.NamedTemporaryFile() as lent:
        lent.write(b"\n".join(names + [b""] + names[:1]))
        lent.flush()
        budget = str(chance.randrange(max(1, 2 * os.stat(path).st_size)))
        for how, options, beside in (
            ("--name", words, []),
            ("--name-list", ["--name-list", lent.name], []),
            ("--json --name-list", ["--name-list", lent.name], ["--json"]),
            (f"--max-read {budget} --name", words, ["--max-read", budget]),
        ):
            lines, status = listed(program, path, part, "--names", str(most), *beside)
            wanted = b"".join(line for line in lines if is_kept(line, names))
            rows, ended = listed(program, path, part, *options, *beside)
            wrong = "" if b"".join(rows) == wanted else f"{len(rows)} lines for {wanted.count(10)}"
            check(f"{path}: {part[0]} by {how} {b' '.join(names).decode()}", wrong or (ended != status and f"status {ended} for {status}"))


def fits(row, text):
    """Whether a row, as an object, matches a text NAME, NAME@VERSION or NAME@@VERSION."""
    name, sign, version = text.partition("@")
    if row.get("cut") or row["name"] != name:
        return False
    if not sign:
        return True
    if "version" not in row or row.get("version_cut"):
        return False
    if version[:1] == "@":
        return row["default"] and row["version"] == version[1:]
    return row["version"] == version


def some_texts(rows, chance):
    """Some texts to look for: names alone, with their versions, and with what is none of them."""
    plain = [row for row in rows if PLAIN.fullmatch(row["name"].encode()) and row["name"][0] not in "-@" and "@" not in row["name"]]
    versioned = [row for row in plain if "version" in row and not row.get("version_cut")]
    texts = [row["name"] for row in chance.sample(plain, min(2, len(plain)))]
    for row in chance.sample(versioned, min(3, len(versioned))):
        sign = chance.choice(("@", "@@"))
        texts += [row["name"] + sign + row["version"], row["name"] + "@" + row["version"][:-1] + "x"]
    return texts or ["main@V"]


def compare_versions(program, path, part, chance):
    """Compares the rows that texts with versions match with those among all rows."""
    how = ("--gnu", "--versions")
    first = [json.loads(line) for line in listed(program, path, part, *how, "--json")[0]]
    texts = some_texts([row for row in first if row["line"] in "YR"], chance)
    most = str(max(256, *map(len, texts)))
    rows = [json.loads(line) for line in listed(program, path, part, *how, "--json", "--names", most)[0]]
    lines, status = listed(program, path, part, *how, "--names", most)
    kept = [row["line"] in "!A" or any(fits(row, text) for text in texts) for row in rows]
    words = [word for text in texts for word in ("--name", text)]
    for beside, wanted in (([], lines), (["--json"], listed(program, path, part, *how, "--json", "--names", most)[0])):
        wanted = b"".join(line for line, stands in zip(wanted, kept) if stands)
        got, ended = listed(program, path, part, *how, *beside, *words)
        wrong = "" if b"".join(got) == wanted else f"{len(got)} lines for {wanted.count(10)}"
        check(f"{path}: {part[0]} with versions by {' '.join(texts)}", wrong or (ended != status and f"status {ended} for {status}"))


def shown_by(row, dynamic, filters, names):
    """Whether a row, as an object, is shown under some filters; `dynamic` has the indexes of the dynamic tables."""
    if row["line"] != "Y":
        return True
    return (("--defined" not in filters or row["place"] != "UND") and ("--undefined" not in filters or row["place"] == "UND")
            and ("--dynamic" not in filters or row["table"] in dynamic) and (not names or row["name"] in names))


def compare_filters(program, path, chance):
    """Compares the symbols that filters show, in each format, with those among all of a file."""
    with open(path, "rb") as file:
        if file.read(4) != b"\x7fELF":
            return
    sections = [json.loads(line) for line in listed(program, path, ("sections",), "--json")[0]]
    dynamic = {row["index"] for row in sections if row["line"] == "S" and row["type"] == "DYNSYM"}
    rows = [json.loads(line) for line in listed(program, path, ("symbols",), "--json", "--names", "4096")[0]]
    plain = [row["name"] for row in rows if row["line"] == "Y" and PLAIN.fullmatch(row["name"].encode()) and row["name"][:1] != "-"]
    name = chance.choice(plain) if plain else "main"
    for filters in (["--defined"], ["--undefined"], ["--dynamic"], ["--dynamic", "--defined"], ["--undefined", "--dynamic"]):
        for names in ([], [name]):
            for how in ([], ["--json"], ["--gnu", "--versions"]):
                size = ["--names", str(max(256, len(name)) if "--versions" in how else len(name))] if names else []
                lines, status = listed(program, path, ("symbols",), *how, *size)
                facts = [json.loads(line) for line in listed(program, path, ("symbols",), "--json", "--names", "4096")[0]]
                wanted = b"".join(line for line, row in zip(lines, facts) if shown_by(row, dynamic, filters, names))
                words = [*filters, *how, *(word for text in names for word in ("--name", text))]
                run = subprocess.run([program, "show", *words, path], stdout=subprocess.PIPE, stderr=subprocess.PIPE)
                wrong = "" if run.stdout == wanted else f"{run.stdout.count(10)} lines for {wanted.count(10)}"
                check(f"{path}: {' '.join(words)}", wrong or (run.returncode != status and f"status {run.returncode} for {status}"))
    every = listed(program, path, ("relocs",))
    check(f"{path}: relocs are not filtered", listed(program, path, ("relocs",), "--undefined") != every and "other rows")


def try_filters(program):
    """Filters of a file with a fault in a symbol that is not shown, of a table, and both at once."""
    with tempfile.TemporaryDirectory() as folder:
        path = os.path.join(folder, "few")
        bytes_of = bytearray(made(4))
        # The first symbol, which is undefined, and the third have a name outside the string table.
        for at, filters, wanted in ((64, "--defined", 0), (64 + 48, "--undefined", 1)):
            changed = bytes(bytes_of[:at]) + struct.pack("<I", 9999) + bytes(bytes_of[at + 4 :])
            with open(path, "wb") as file:
                file.write(changed)
            run = subprocess.run([program, "show", filters, path], stdout=subprocess.PIPE, stderr=subprocess.PIPE)
            lines = run.stdout.splitlines()
            ended = b"! %016x name-outside" % at
            check(f"{filters} with a fault at {at}", (run.returncode, len(lines), lines[-1:]) != (1, wanted + 1, [ended]) and str(lines))
        with open(path, "wb") as file:
            file.write(bytes_of)
        for option, wanted in (("--undefined", 1), ("--defined", 3)):
            run = subprocess.run([program, "show", "--table", option, path], stdout=subprocess.PIPE, stderr=subprocess.PIPE)
            rows = run.stdout.splitlines()[1:]
            check(f"--table {option}", len(rows) != wanted and str(rows))
        told = b"error: the argument '--defined' cannot be used with '--undefined'"
        for command in ("show", "archive", "list"):
            run = subprocess.run([program, command, "--undefined", "--defined", path], stdout=subprocess.PIPE, stderr=subprocess.PIPE)
            check(f"{command} with two filters", (run.returncode, run.stdout, run.stderr.startswith(told)) != (2, b"", True) and str(run))
        shown = subprocess.run([program, "show", "--defined", path], stdout=subprocess.PIPE).stdout
        run = subprocess.run([program, "list", "--defined", path], stdout=subprocess.PIPE)
        check("list with a filter", run.stdout != b"@ " + path.encode() + b"\n" + shown and str(run.stdout))
        run = subprocess.run([program, "list", "--dynamic", path], stdout=subprocess.PIPE)
        check("list without a row that is shown", run.stdout != b"@ " + path.encode() + b"\n" and str(run.stdout))


def try_lists(program):
    """Lists of names: which they have, and which are refused before the file is opened."""
    with tempfile.TemporaryDirectory() as folder:
        path, names = os.path.join(folder, "few"), os.path.join(folder, "names")
        with open(path, "wb") as file:
            file.write(made(4))
        for text, wanted in (
            (b"", []),
            (b"\n\n", []),
            (b"symbol_1", [b"symbol_1"]),
            (b"symbol_1\n", [b"symbol_1"]),
            (b"\nsymbol_2\n\nsymbol_1\nsymbol_2", [b"symbol_1", b"symbol_2"]),
            (b"symbol_1\r\nsymbol_2\n", [b"symbol_2"]),
            (b"symbol_\nsymbol_22\n", []),
            (b" symbol_1\n", []),
            (b"\xff\nsymbol_3", [b"symbol_3"]),
            (b"a" * 4096 + b"\nsymbol_1", [b"symbol_1"]),
        ):
            with open(names, "wb") as file:
                file.write(text)
            rows, status = listed(program, path, ("symbols",), "--name-list", names)
            wrong = [name_of(row) for row in rows] != wanted and f"{rows} for {wanted}"
            # A list without a name asks for nothing.
            check(f"list {text[-40:]}", wrong or (status != (0 if text.strip(b"\n") else 2) and f"status {status}"))
            rows, status = listed(program, path, ("symbols",), "--name-list", names, "--name", "symbol_3")
            wrong = [name_of(row) for row in rows] != sorted({*wanted, b"symbol_3"}) and f"{rows} beside symbol_3"
            check(f"list {text[-40:]} and a word", wrong or (status and f"status {status}"))
        for text, told in (
            (b"a" * 4097, b"elfsee: bad name\n"),
            (b"symbol_1\nsym\0bol\n", b"elfsee: bad name\n"),
            (b"", b"elfsee: no names\n"),
            (b"\n\n", b"elfsee: no names\n"),
            (None, b"elfsee: cannot read names\n"),
        ):
            if text is None:
                os.unlink(names)
            else:
                with open(names, "wb") as file:
                    file.write(text)
            for command, of in (("show", path), ("archive", path), ("show", os.path.join(folder, "nothing"))):
                run = subprocess.run([program, command, "--name-list", names, of], stdout=subprocess.PIPE, stderr=subprocess.PIPE)
                got = (run.returncode, run.stdout, run.stderr)
                check(f"{command} by a bad list", got != (2, b"", told) and str(got))
        # With versions a line with an empty name or an empty version is none that can be looked for.
        for text in (b"symbol_1@\n", b"symbol_1\n@VERSION\n"):
            with open(names, "wb") as file:
                file.write(text)
            for words, wanted in ((["--versions"], (2, b"elfsee: bad name\n")), ([], (0, b""))):
                run = subprocess.run([program, "show", "--gnu", *words, "--name-list", names, path],
                                     stdout=subprocess.PIPE, stderr=subprocess.PIPE)
                got = (run.returncode, run.stderr)
                check(f"show --gnu {words} by the list {text}", got != wanted and str(got))
        with open(names, "wb") as file:
            file.truncate(67_108_865)
        run = subprocess.run([program, "show", "--name-list", names, path], stdout=subprocess.PIPE, stderr=subprocess.PIPE)
        got = (run.returncode, run.stdout, run.stderr)
        check("show by a list that is too large", got != (2, b"", b"elfsee: names too large\n") and str(got))


def made(count):
    """An ELF file with a table of a given number of symbols, of names that are all different."""
    names, symbols = bytearray(1), bytearray(24)
    for i in range(1, count):
        symbols += struct.pack("<IBBHQQ", len(names), 0x12, 0, 0xFFF1, i, 1)
        names += b"symbol_%d\0" % i
    symbols_at, strings_at = 64, 64 + len(symbols)
    sections_at = strings_at + len(names)
    header = b"\x7fELF\x02\x01\x01" + bytes(9)
    header += struct.pack("<HHIQQQIHHHHHH", 1, 62, 1, 0, 0, sections_at, 0, 64, 0, 0, 64, 3, 0)
    sections = bytes(64)
    sections += struct.pack("<IIQQQQIIQQ", 0, 2, 0, 0, symbols_at, len(symbols), 2, 1, 8, 24)
    sections += struct.pack("<IIQQQQIIQQ", 0, 3, 0, 0, strings_at, len(names), 0, 0, 1, 0)
    return bytes(header + symbols + names + sections)


def processor(words):
    """What a run takes of the processor, its output thrown away."""
    begin = resource.getrusage(resource.RUSAGE_CHILDREN)
    subprocess.run(words, stdout=subprocess.DEVNULL, check=True)
    end = resource.getrusage(resource.RUSAGE_CHILDREN)
    return end.ru_utime + end.ru_stime - begin.ru_utime - begin.ru_stime


def seconds(runs, is_enough):
    """What each run takes of the processor, the least of its turns, in which one follows the other: at least five, then
    until it is enough, at most a hundred, since a busy machine makes some turns longer."""
    least = [processor(words) for words in runs]
    for turn in range(1, 100):
        if turn >= 5 and is_enough(*least):
            break
        least = [min(took, processor(words)) for took, words in zip(least, runs)]
    return least


def measure(program):
    """Measures rows by name in a file of many symbols."""
    with tempfile.TemporaryDirectory() as folder:
        path, names = os.path.join(folder, "many"), os.path.join(folder, "names")
        with open(path, "wb") as file:
            file.write(made(300_000))
        with open(names, "wb") as file:
            file.write(b"".join(b"symbol_%d\n" % (i * 29) for i in range(1, 10_001)))
        show = [program, "show", "--only", "symbols"]
        runs = [*show, path], [*show, "--name", "symbol_299999", path], [*show, "--name-list", names, path]
        every, one, many = seconds(runs, lambda every, one, many: one <= every * 1.1 and many <= every * 2)
    print(f"300,000 symbols: all {every:.3f} s, by one name {one:.3f} s, by 10,000 names {many:.3f} s", flush=True)
    check("one name takes no longer than all rows", one > every * 1.1 and f"{one:.3f} s")
    check("10,000 names take no more than twice as long as all rows", many > every * 2 and f"{many:.3f} s")


def main():
    words = option_reader(__doc__)
    words.add_argument("--quick", action="store_true")
    words.add_argument("places", nargs="*", default=["/usr/bin", "/usr/lib"])
    asked = words.parse_args()
    if asked.quick:
        asked.places = ["/bin/ls", "/bin/sh", *glob.glob("/usr/lib/*/libc.so.6"), *glob.glob("/usr/lib/*/crt1.o"),
                        *glob.glob("/usr/lib/*/libpthread.a"), *glob.glob("/usr/lib/*/libm.so.6")]
    program = program_of(asked)
    chance = random.Random(58)
    for path in files(asked.places):
        for part in PARTS:
            compare(program, path, part, chance)
        for part in PARTS[:2]:
            compare_versions(program, path, part, chance)
        compare_filters(program, path, chance)
    try_filters(program)
    try_lists(program)
    measure(program)
    return counts.end()


if __name__ == "__main__":
    sys.exit(main())
