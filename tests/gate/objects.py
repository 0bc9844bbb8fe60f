#!/usr/bin/env python3
"""Compares the JSON objects that the program prints with its lines.

    tests/gate/objects.py [--program PROGRAM] [--quick | --all] [FILE..]

Each file is listed twice, with --json and without: whole, cut, with --gnu, by the program headers, and within
a budget; archives too, and all files are checked. Each line of text is taken apart by the tables of docs/FORMAT.md,
and its object, as Python's JSON reader returns it, must have the same fields, in that order. So are the answers of
lookups of a few names, in each of the ways of `find`, and what some files need. Of the lines of one kind of a listing the first 1,000 are so
compared, and each fiftieth after them; with --all each. Without FILE these are some of the system, and files
that are made here: names of all bytes, relocation entries without addends, notes, a table of symbol versions, files that are
refused, and an archive; and
then each ELF file and archive of the machine once, in one of two ways, within a budget of 20,000 bytes: each object is read,
and of each kind the first ten and each hundredth are compared with their lines. With --all the machine's files are
listed whole; --quick takes one in ten, as ./check does. The examples of the page must be JSON; if there is a jq, it must read all except those of the machine.

It needs Python 3.9 or newer. The last line is `N passed, N failed`.
"""

import json
import os
import re
import shutil
import subprocess
import sys
import tempfile

sys.dont_write_bytecode = True
sys.path.insert(0, os.path.join(os.path.dirname(os.path.realpath(__file__)), "..", "common"))
import format_page as page
import relocated_files
from testing import Claims, option_reader, program_of

WAYS = [[], ["--gnu"], ["--names", "3"], ["--gnu", "--by-segments"], ["--max-read", "3000"], ["--headers", "2"]]
FINDS = [[], ["--gnu"], ["--gnu", "--by-segments"], ["--max-read", "700"], ["--headers", "2"]]
NAMES = ["strcmp", "memcpy@GLIBC_2.2.5", "inflate", "no such \"name\"", "  two  spaces  ", "a\\x41", "\\" * 256, "n" * 4000,
         "\x1b[2J\x1b]0;title\x07"]
# How an object of a program can be found; FILE itself and what is missing have no such member.
FOUND_BY = ["path", "known", "rpath", "library-path", "runpath", "cache", "default"]
EACH = "--all" in sys.argv
MACHINE = ["/usr/bin", "/usr/sbin", "/usr/lib", "/usr/libexec", "/opt", "/usr/local"]
MACHINE_WAYS = [["--gnu"], []] if EACH else [["--gnu", "--max-read", "20000"], ["--max-read", "20000"]]
SYSTEM = ["/bin/ls", "/usr/lib/x86_64-linux-gnu/libc.so.6", "/usr/lib/x86_64-linux-gnu/libz.so.1", "/bin/sh",
          "/usr/lib/x86_64-linux-gnu/crt1.o", "/etc/passwd", "/usr/lib/x86_64-linux-gnu/libc_nonshared.a"]


def whole(text):
    """A name as it is escaped, and whether it is cut: the mark follows an even number of backslashes."""
    found = re.fullmatch(r"((?:[^\\]|\\\\|\\x[0-9a-f]{2})*)(\\\+)?", text)
    return found[1], bool(found[2])


def value_of(form, text):
    """The value that a field of the page's form has in an object."""
    if form == "hexadecimal":
        return int(text, 16)
    if form.startswith("decimal"):
        return int(text)
    digits = re.fullmatch(r"text: a name, or (\w+) hexadecimal digits", form)
    if digits:
        many = page.NUMBERS.get(digits[1]) or int(digits[1])
        return int(text, 16) if re.fullmatch(r"[0-9a-f]{%d} *" % many, text) else text.rstrip(" ")
    if form == "text: a name; or decimal":
        return int(text) if re.fullmatch(r" *\d+", text) else text.rstrip(" ")
    if form == "text: a name, or `#` and decimal; grows":
        return int(text[1:]) if text.startswith("#") else text.rstrip(" ")
    if form.startswith("`+` or `-`"):
        return int(text, 16)
    return text.rstrip(" ")


def fields_of(kinds, patterns, line):
    """The members that a line's object must have, in order."""
    letter = line[0]
    if letter in "CLBIU":
        return {"C": checked, "L": listed, "B": bound, "I": interpreted, "U": needed_version}[letter](line)
    if letter == "!" and "=" in line:
        return [("line", "!"), ("trait", line[2:])]
    members = [("line", letter)]
    groups = patterns[letter].fullmatch(line.encode())
    if groups is None:
        raise ValueError(f"no line of the page: {line}")
    groups = iter(groups.groups())
    for _, _, _, _, name, form in kinds[letter][1][1:]:
        text = next(groups)
        while text is None:
            text = next(groups)
        text = text.decode()
        if form.startswith("`+` or `-`") and text.rstrip(" ") == "-":
            continue
        if form == "name":
            spelt, cut = whole(text)
            members += [(name, spelt)] + ([("cut", True)] if cut else [])
        elif name == "name and descriptor":
            front, _, shown = text.rpartition(" ")
            spelt, cut = whole(front)
            members += [("name", spelt)] + ([("cut", True)] if cut else [])
            members.append(("descriptor", shown.replace("\\+", "")))
        else:
            members.append((name, value_of(form, text)))
    return members


def checked(line):
    """The members of the object of a file among many."""
    state, rest = line[2:14].rstrip(" "), line[15:]
    if state == "unnamed":
        return [("line", "C"), ("state", state), ("count", int(rest))]
    if state == "refused":
        place, cause, path = rest.split(" ", 2)
        return [("line", "C"), ("state", state), ("place", int(place, 16)), ("cause", cause), ("path", path)]
    return [("line", "C"), ("state", state), ("path", rest[2:])]


def listed(line):
    """The members of the object of a program's object."""
    needer, state, rest = line[8:13].rstrip(" "), line[14:22].rstrip(" "), line[23:]
    members = [("line", "L"), ("index", int(line[2:7])), ("needed_by", needer if needer == "-" else int(needer)), ("state", state)]
    if state == "refused":
        place, cause, path = rest.split(" ", 2)
        return members + [("place", int(place, 16)), ("cause", cause), ("path", path)]
    return members + [("path", rest[2:])]


def interpreted(line):
    """The members of the object of a program's interpreter."""
    return [("line", "I"), ("state", line[2:10].rstrip(" ")), ("path", line[11:])]


def needed_version(line):
    """The members of the object of a version that is needed."""
    provider = line[8:13].rstrip(" ")
    return [("line", "U"), ("object", int(line[2:7])), ("provider", provider if provider == "-" else int(provider)),
            ("state", line[14:22].rstrip(" ")), ("version", line[23:])]


def without_by(members):
    """The members of an object without how it was found, which a line of text does not say: a word before the path."""
    if len(members) > 1 and members[0] == ["line", "L"] and members[-2][0] == "by" and members[-2][1] in FOUND_BY:
        return members[:-2] + members[-1:]
    return members


def bound(line):
    """The members of the object of a symbol that others need: the version is what is after the last `@`, if one is there."""
    definer, definition = ("-" if text[0] == "-" else int(text) for text in (line[28:33], line[34:44]))
    members = [("line", "B"), ("object", int(line[2:7])), ("symbol", int(line[8:18])), ("state", line[19:27].rstrip(" ")),
               ("definer", definer), ("definition", definition)]
    name, sign, version = line[45:].rpartition("@")
    return members + ([("name", name), ("version", version)] if sign else [("name", version)])


def sampled(lines, first, step):
    """The indexes of the lines that are read: of each kind the first ones, and some after them."""
    met = {}
    for index, line in enumerate(lines):
        row = met[line[0]] = met.get(line[0], 0) + 1
        if EACH or row <= first or row % step == 0:
            yield index


def compare(counts, program, kinds, patterns, words, first=1000, step=50):
    """Runs the program in both ways and holds one against the other."""
    runs = [subprocess.run([program, *words[:1], *more, *words[1:]], capture_output=True, check=False)
            for more in ([], ["--json"])]
    lines, objects = (run.stdout.decode("ascii").split("\n") for run in runs)
    is_so = runs[0].returncode == runs[1].returncode and runs[0].stderr == runs[1].stderr
    if "--max-read" in words and runs[0].returncode == 1:
        objects = objects[:len(lines)]
    counts.check(" ".join(words), is_so and len(lines) == len(objects) and lines[-1] == objects[-1] == "",
                 f"{len(lines)} lines, {len(objects)} objects")
    for index in sampled(lines[:min(len(lines), len(objects)) - 1], first, step):
        line, text = lines[index], objects[index]
        members = without_by([list(member) for member in json.loads(text, object_pairs_hook=list)])
        wanted = [list(member) for member in fields_of(kinds, patterns, line)]
        counts.check(" ".join(words), members == wanted and " " not in re.sub(r'"(?:[^"\\]|\\.)*"', "", text),
                     f"{line}: {text}, wanted {wanted}")
    if first < 1000:
        counts.check(f"JSON of {words[-1]}", all(map(json.loads, objects[:-1])))
    elif shutil.which("jq"):
        read = subprocess.run(["jq", "-c", "."], input=runs[1].stdout, capture_output=True, check=False)
        counts.check("jq " + " ".join(words), read.returncode == 0 and read.stdout.count(b"\n") == len(objects) - 1)


def machine_files(step=1):
    """The ELF files and archives of the machine, each once; or those among one in so many of its files."""
    paths = sorted(os.path.join(here, name) for top in MACHINE for here, _, names in os.walk(top) for name in names)
    for path in sorted({os.path.realpath(path) for path in paths[::step]}):
        try:
            with open(path, "rb") as file:
                front = file.read(8) if os.path.isfile(path) else b""
        except OSError:
            continue
        if front[:6] == b"\x7fELF\x02\x01":
            yield "show", path
        elif front == b"!<arch>\n":
            yield "archive", path


def sweep(counts, program, kinds, patterns, step):
    """Each file of the machine, or one in so many, in one way or the other."""
    for row, (command, path) in enumerate(machine_files(step)):
        compare(counts, program, kinds, patterns, [command, *MACHINE_WAYS[row % 2], path], 10, 100)


def examples(counts):
    """The page's objects are JSON, each with its letter first."""
    with open(page.PAGE, encoding="utf-8") as file:
        shown = re.search(r"```json\n(.*?)```", file.read(), re.S)[1].splitlines()
    for line in shown:
        counts.check("an example of the page", next(iter(json.loads(line))) == "line", line)


def main():
    reader = option_reader(__doc__)
    reader.add_argument("--all", action="store_true")
    reader.add_argument("--quick", action="store_true")
    reader.add_argument("files", metavar="FILE", nargs="*")
    given = reader.parse_args()
    words, program = given.files, program_of(given)
    with open(page.PAGE, encoding="utf-8") as file:
        kinds = page.tables_of(file.read())
    patterns = {letter: page.pattern_of(letter, rows) for letter, (_, rows) in kinds.items() if letter != "C"}
    counts = Claims()
    examples(counts)
    with tempfile.TemporaryDirectory() as folder:
        files = [name for name in words or SYSTEM if os.path.exists(name)]
        if not words:
            files += made(folder)
        for file in files:
            for way in WAYS:
                compare(counts, program, kinds, patterns, ["show", *way, file])
            if file.endswith(".a"):
                for way in WAYS + [["--only", "members"]]:
                    compare(counts, program, kinds, patterns, ["archive", *way, file])
            for way in FINDS:
                for name in NAMES:
                    compare(counts, program, kinds, patterns, ["find", *way, file, name])
        for file in ("/bin/ls", "/usr/lib/x86_64-linux-gnu/libc.so.6", "/etc/passwd"):
            for way in ([], ["--symbols"], ["--symbols", "--default", "/none"]):
                if os.path.exists(file):
                    compare(counts, program, kinds, patterns, ["needs", *way, file])
        compare(counts, program, kinds, patterns, ["sample"])
        compare(counts, program, kinds, patterns, ["check", *files, os.path.join(folder, "missing \"\\")])
        compare(counts, program, kinds, patterns, ["check", folder])
        for way in ([], ["--require", "relro=full,stack=nx,cet=ibt"], ["--max-read", "700"]):
            compare(counts, program, kinds, patterns, ["traits", *way, *files, folder])
    if not words:
        sweep(counts, program, kinds, patterns, 10 if given.quick else 1)
    sys.exit(counts.end())


def made(folder):
    """Files that are made here: odd names, a cut file, and names of files that are odd themselves."""
    path, relocated = os.path.join(folder, "odd"), os.path.join(folder, "relocated")
    page.write_odd_file(path)
    with open(relocated, "wb") as file:
        file.write(relocated_files.made_files()["versions"])
    with open(os.path.join(folder, "a \"b\\"), "wb") as file:
        file.write(b"\x7fELF\x01")
    with open(os.path.join(folder.encode(), b"\xff"), "wb") as file:
        file.write(b"\x7fELF")
    return [path, relocated]


if __name__ == "__main__":
    main()
