#!/usr/bin/env python3
"""Compares `elfsee list` of many files with what `show` and `archive` print for each of them alone.

    tests/gate/lists.py [--program PROGRAM] [--quick] [--name NAME] [FOLDER OR FILE..]

After the line `@ PATH` of an ELF file must come what `show` of it prints, after that of an archive, with --members,
what `archive` prints, each object with its path and member; other files have nothing, and those that cannot be read a
line `C`. With names the line of a member comes only before a line of its own, the line of a path before the first line
that is shown, and a file of which none is shown has none.

First come generated files: refused and short ones, archives, budgets, objects of JSON, statuses, files that vanish, odd
names, and eight processes that write to one pipe. --quick runs only these, as ./check does. Without it follow a
directory of 200,000 files, and the files below /usr/lib, or the directories and files that are given: all that have the
magic number or the magic string of an archive, and the rows of --name (`deflateInit_`), with the files in which
`nm -A` and `nm -AD` find its definition and its uses. It needs Python 3, and
Debian's binutils for the last. The last line is `N passed, N failed`."""

import collections
import json
import os
import re
import subprocess
import sys
import tempfile
import time

sys.dont_write_bytecode = True
sys.path.insert(0, os.path.join(os.path.dirname(os.path.realpath(__file__)), "..", "common"))
from machine_files import in_order
from made_archives import spelt
from testing import Counts, option_reader, program_of

MAGIC, ARCHIVE = b"\x7fELF", b"!<arch>\n"


def run(program, *words, given=b"", **more):
    """Standard output, the exit status and standard error."""
    done = subprocess.run([program, *words], input=given, stdout=subprocess.PIPE, stderr=subprocess.PIPE, timeout=1200,
                          **more)
    return done.stdout, done.returncode, done.stderr


def tree(top, files):
    for name, content in files.items():
        path = os.path.join(top, name)
        os.makedirs(os.path.dirname(path), exist_ok=True)
        with open(path, "wb") as file:
            file.write(content)


def header(length=64):
    """The prefix of a file header of a relocatable file with nothing else."""
    return (MAGIC + b"\2\1\1" + bytes(9) + b"\1\0\x3e\0\1\0\0\0" + bytes(40))[:length]


def archive(*members):
    """An archive of members, each a name and its bytes."""
    text = ARCHIVE
    for name, content in members:
        text += b"%-16s%-12d%-6d%-6d%-8s%-10d`\n" % (name + b"/", 0, 0, 0, b"100644", len(content))
        text += content + b"\n" * (len(content) % 2)
    return text


def sort_of(path):
    """What a file is by its first bytes."""
    with open(path, "rb") as file:
        front = file.read(8)
    return "elf" if front.startswith(MAGIC) else "archive" if front == ARCHIVE else "foreign"


def before_lines(program, path, out):
    """What an archive lists by names, without the lines of members that no line of theirs follows."""
    lines = out.splitlines(True)
    of_members = run(program, "archive", "--only", "members", "--", path)[0].splitlines()
    own = len(lines) - 1 if of_members and of_members[-1].startswith(b"!") else len(lines)
    is_member = [line.startswith((b"A ", b'{"line":"A"')) for line in lines] + [True]
    return b"".join(line for number, line in enumerate(lines)
                    if not is_member[number] or number + 1 < own and not is_member[number + 1])


def located(program, path, out, members):
    """The same objects with the path of their file and, of the rows of an archive's member, the name of its line."""
    lines, member = out.splitlines(True), b""
    of_members = run(program, "archive", "--only", "members", "--", path)[0].splitlines() if members else []
    own = len(lines) - 1 if of_members and of_members[-1].startswith(b"!") else len(lines)
    placed = b',"path":"%s"' % spelt(path).replace(b"\\", b"\\\\").replace(b'"', b'\\"')
    for number, line in enumerate(lines):
        row = json.loads(line)
        if row["line"] == "A":
            member = b""
        lines[number] = line[:11] + placed + (b"" if number == own else member) + line[11:]
        if row["line"] == "A":
            member = b',"member":' + json.dumps(row["name"]).encode() + (b',"member_cut":true' if row.get("cut") else b"")
    return b"".join(lines)


def told(program, path, words, members):
    """What `list` is to write of a file, and its status, by `show` or `archive` of it alone."""
    sort = sort_of(path)
    if sort == "foreign" or sort == "archive" and not members:
        return b"", 0
    out, status, _ = run(program, "show" if sort == "elf" else "archive", *words, "--", path)
    if b"--name" in words and sort == "archive":
        out = before_lines(program, path, out)
    if b"--name" in words and not out:
        return b"", status
    if b"--json" in words:
        out = located(program, path, out, sort == "archive")
    line = b'{"line":"@","path":"%s"}\n' % spelt(path).replace(b"\\", b"\\\\").replace(b'"', b'\\"')
    return (line if b"--json" in words else b"@ " + spelt(path) + b"\n") + out, status


def check_files(counts, program, what, paths, words=(), members=False, cwd=None):
    """Paths that are listed together have what each of them has alone."""
    here = os.getcwd()
    os.chdir(cwd or here)
    each = [told(program, path, words, members) for path in paths]
    os.chdir(here)
    given = b"".join(path + b"\0" for path in paths)
    out, status, errors = run(program, "list", *words, *(["--members"] if members else []), "--files0-from", "-", given=given,
                              cwd=cwd)
    counts.check(f"{what}, standard error", b"", errors)
    counts.check(f"{what}, status", max((status for _, status in each), default=0), status)
    wanted = b"".join(text for text, _ in each)
    if out == wanted:
        counts.check(what, wanted, out)
        return
    at = next((number for number, (one, other) in enumerate(zip(wanted, out)) if one != other), min(len(wanted), len(out)))
    counts.check(f"{what}, at byte {at}", wanted[max(at - 200, 0):at + 200], out[max(at - 200, 0):at + 200])


def made(program, top):
    """A directory of made files: of each sort, refused ones, archives of hostile members, names that are odd."""
    with open(program, "rb") as file:
        whole = file.read()
    library = archive((b"a.o", header()), (b"b.txt", b"text"), (b"c.o", header()))
    tree(top, {b"a": header(), b"b": header(60), b"c": b"text\n", b"d": b"", b"e": MAGIC[:3], b"f.a": library,
               b"g.a": archive((b"a.o", header()), (b"bad.o", MAGIC + b"\1" + header()[5:]), (b"c.o", header())),
               b"h.a": library + b"x", b"i.a": library[:-1], b"j.a": ARCHIVE, b"k.a": ARCHIVE[:7], b"l.a": b"!<thin>\n",
               b"m \\ \x7f": header(), b"n\"": header(), b"o": MAGIC + b"\1" + header()[5:], b"p/q": whole[:4096],
               b"p/r": whole, b"z": header(),
               b"n \"\\.a": archive((b"q\"\\ \x01.o", whole), (b"bad.o", MAGIC + b"\1" + header()[5:])) + b"x"})
    return sorted(path for path in in_order(top))


def check_made(counts, program, top):
    paths = made(program, top)
    for words in ((), (b"--json",), (b"--json", b"--names", b"3"), (b"--only", b"header"), (b"--only", b"symbols", b"--gnu"),
                  (b"--by-segments",)):
        for members in (False, True):
            check_files(counts, program, f"made files, {words} {members}", paths, words, members)
            if words in ((), (b"--json",)):
                named = (*words, b"--name", b"main", b"--name", b"no such name")
                check_files(counts, program, f"made files by names, {named} {members}", paths, named, members)
    for path in paths:
        for members in (False, True):
            check_files(counts, program, f"{path} alone", [path], (), members)
            check_files(counts, program, f"{path} alone by a name", [path], (b"--name", b"read"), members)
    out, status, _ = run(program, "list", "--members", top)
    listed, _, _ = run(program, "list", "--members", "--files0-from", "-", given=b"\0".join(paths))
    counts.check("a directory and a list of it", (listed, 1), (out, status))


def check_names(counts, program, top):
    """A file of which nothing is shown has no line, whatever comes before and after it."""
    tree(top, {b"a": header(), b"b": header(60), b"c": header()})
    out, status, _ = run(program, "list", "--name", "x", b"a", b"b", b"c", cwd=top)
    counts.check("names, and one file refused", (b"@ b\n! 000000000000003c short\n", 1), (out, status))
    out, status, _ = run(program, "list", "--name", "x", b"a", b"c", cwd=top)
    counts.check("names of none", (b"", 0), (out, status))
    out, status, _ = run(program, "list", "--only", "notes", b"a", b"c", cwd=top)
    counts.check("no names, and nothing to list", (b"@ a\n@ c\n", 0), (out, status))


def check_members(counts, program, top):
    """By names the line of a member comes only before a line of its own: a row, or the line of its refusal."""
    with open(program, "rb") as file:
        whole = file.read()
    tree(top, {b"a.a": archive((b"a.o", header()), (b"b.o", whole), (b"c.txt", b"text"), (b"d.o", header())),
               b"n.a": archive((b"a.o", header())), b"r.a": archive((b"a.o", header()), (b"bad.o", header(60))) + b"x",
               b"w.a": archive((b"a.o", header())) + b"x"})
    row = run(program, "show", "--name", "write", program)[0]
    out, status, _ = run(program, "list", "--members", "--name", "write", b"a.a", b"n.a", b"r.a", b"w.a", cwd=top)
    of_members = [run(program, "archive", "--name", "write", name, cwd=top)[0].splitlines(True) for name in (b"a.a", b"r.a")]
    wanted = b"@ a.a\n" + of_members[0][1] + row + b"@ r.a\n" + b"".join(of_members[1][1:])
    wanted += b"@ w.a\n! %016x member-cut\n" % (os.path.getsize(os.path.join(top, b"w.a")) - 1)
    counts.check("rows are there", True, row.startswith(b"Y "))
    counts.check("members by names", (wanted, 1), (out, status))
    tree(top, {b"names": b"no such name\nwrite"})
    words = ("list", "--members", "--name-list")
    counts.check("members by a list of names", (wanted, 1, b""), run(program, *words, "names", b"a.a", b"n.a", b"r.a", b"w.a", cwd=top))
    counts.check("a list of names that is missing", (b"", 2, b"elfsee: cannot read names\n"), run(program, *words, "missing", b"a.a", cwd=top))
    out, status, _ = run(program, "list", "--members", "--name", "x", b"a.a", b"n.a", cwd=top)
    counts.check("members by names of none", (b"", 0), (out, status))
    with open("/dev/full", "wb") as full:
        done = subprocess.run([program, "list", "--members", "--name", "write", "a.a"], stdout=full, stderr=subprocess.PIPE, cwd=top,
                              check=False)
    counts.check("members by names on a full disk", (3, b"elfsee: write fault\n"), (done.returncode, done.stderr))
    tree(top, {b"long.a": ARCHIVE + b"%-16s%-12d%-6d%-6d%-8s%-10d`\n" % (b"#1/4096", 0, 0, 0, b"100644", 4096 + len(whole))
               + 4096 * b"\xff" + whole})
    path = b"/".join([b"\x01" * 250] * 16) + b"/long.a"
    deep = os.open(top, os.O_RDONLY)
    for part in path.split(b"/")[:-1]:
        os.mkdir(part, dir_fd=deep)
        below = os.open(part, os.O_RDONLY, dir_fd=deep)
        os.close(deep)
        deep = below
    with open(os.path.join(top, b"long.a"), "rb") as file:
        hidden = os.open(b"long.a", os.O_WRONLY | os.O_CREAT, dir_fd=deep)
        os.write(hidden, file.read())
        os.close(hidden)
    os.close(deep)
    longest = (b"--name", b"y" * 4096, b"--name", b"write")
    for words in (longest, (b"--json", *longest)):
        out, status, errors = run(program, "list", *words, "--members", "--files0-from", "-", given=path, cwd=top)
        alone, _, _ = run(program, "list", *words, "--members", b"long.a", cwd=top)
        if b"--json" in words:
            counts.check("the longest path is in each row", True, all(line.count(b'"path":"') == 1 for line in out.splitlines()))
            out, alone = (re.sub(rb'(?m)^({"line":"[^@]"),"path":"[^"]*"', rb"\1", text) for text in (out, alone))
        counts.check("the longest lines that are held", (alone.splitlines()[1:], 0, b""), (out.splitlines()[1:], status, errors))
        counts.check("the longest lines that are deferred are printed", 2 + len(row.splitlines()), len(out.splitlines()))


def check_budget(counts, program, top):
    """The bytes that say what a file is count towards its budget, and the budget is that of each file."""
    tree(top, {b"a": header(), b"t": b"text", b"l.a": archive((b"a.o", header()))})
    for budget in (0, 3, 4, 67, 68, 132):
        words = ["--max-read", str(budget)]
        out, status, _ = run(program, "list", *words, b"a", b"a", cwd=top)
        less = budget if budget < 4 else budget - 4
        shown, alone, _ = run(program, "show", "--max-read", str(less), b"a", cwd=top)
        counts.check(f"a budget of {budget}", (2 * (b"@ a\n" + shown), alone), (out, status))
    out, status, _ = run(program, "list", "--members", "--max-read", "7", b"l.a", cwd=top)
    counts.check("a budget that has not the magic string", (b"@ l.a\n! 0000000000000000 budget\n", 1), (out, status))
    for budget in (8, 16, 76, 80, 144, 1000):
        out, status, _ = run(program, "list", "--members", "--max-read", str(budget), b"l.a", cwd=top)
        shown, alone, _ = run(program, "archive", "--max-read", str(budget - 8), b"l.a", cwd=top)
        counts.check(f"an archive's budget of {budget}", (b"@ l.a\n" + shown, alone), (out, status))
    out, status, _ = run(program, "list", "--max-read", "3", b"t", cwd=top)
    counts.check("a budget too small to recognize a text", 1, status)


def check_gone(counts, program, top):
    """Files that are not there, or may not be read, have the line that `check` prints for them, and the rest continues."""
    tree(top, {b"a": header(), b"z": header(), b"secret": header()})
    os.chmod(os.path.join(top, b"secret"), 0)
    shown, _, _ = run(program, "show", b"a", cwd=top)
    out, status, errors = run(program, "list", b"a", b"gone", b"z", cwd=top)
    counts.check("a file that is not there", (b"@ a\n" + shown + b"C unread       - gone\n@ z\n" + shown, 3, b""),
                 (out, status, errors))
    out, status, _ = run(program, "list", "--name", "x", b"gone", b"a", cwd=top)
    counts.check("a file that is not there, by names", (b"C unread       - gone\n", 3), (out, status))
    worker = subprocess.Popen([program, "list", "--files0-from", "-"], stdin=subprocess.PIPE, stdout=subprocess.PIPE, cwd=top)
    worker.stdin.write(b"a\0")
    worker.stdin.flush()
    time.sleep(0.3)
    os.remove(os.path.join(top, b"z"))
    out, _ = worker.communicate(b"z\0a\0", timeout=60)
    counts.check("a file that vanishes", (b"@ a\n" + shown + b"C unread       - z\n@ a\n" + shown, 3), (out, worker.returncode))
    tree(top, {b"bad\xff": header()})
    out, status, _ = run(program, "list", b".", cwd=top)
    counts.check("a name that is no text", (b"C unnamed               1", 3), (out.splitlines()[-1], status))
    out, status, _ = run(program, "list", "--json", "--only", "notes", b"gone", b".", cwd=top)
    lines = [b'{"line":"C","state":"unread","path":"gone"}', b'{"line":"C","state":"unnamed","count":1}']
    counts.check("what can't be read and named as objects", (lines, 3), ([out.splitlines()[0], out.splitlines()[-1]], status))
    with open("/dev/full", "wb") as full:
        done = subprocess.run([program, "list", "a"], stdout=full, stderr=subprocess.PIPE, cwd=top, check=False)
    counts.check("a full disk", (3, b"elfsee: write fault\n"), (done.returncode, done.stderr))


def check_pipes(counts, program, top):
    """What eight processes write to one pipe are whole lines: those of one process, eight times each."""
    tree(top, {b"%s%05d" % (b"n" * (number * 37 % 180), number): header() if number % 3 else b"text" for number in range(6000)})
    paths = b"\0".join(sorted(os.listdir(top)))
    for words in (("check",), ("check", "--json"), ("list", "--only", "header"), ("traits",)):
        alone, _, _ = run(program, *words, "--files0-from", "-", given=paths, cwd=top)
        with tempfile.TemporaryFile() as listed:
            listed.write(paths)
            listed.flush()
            reading, writing = os.pipe()
            workers = []
            for _ in range(8):
                own = open(f"/proc/self/fd/{listed.fileno()}", "rb")
                workers.append(subprocess.Popen([program, *words, "--files0-from", "-"], stdin=own, stdout=writing, cwd=top))
                own.close()
            os.close(writing)
            with os.fdopen(reading, "rb") as pipe:
                together = pipe.read()
            for worker in workers:
                worker.wait(60)
        wanted = collections.Counter({line: 8 * count for line, count in collections.Counter(alone.splitlines(True)).items()})
        got = collections.Counter(together.splitlines(True))
        counts.check(f"eight processes over one pipe, {' '.join(words)}: lines that are none", [], sorted(got - wanted)[:3])
        counts.check(f"eight processes over one pipe, {' '.join(words)}: lines that are missing", [], sorted(wanted - got)[:3])
        with tempfile.TemporaryFile() as file:
            subprocess.run([program, *words, "--files0-from", "-"], input=paths, stdout=file, cwd=top, check=False)
            file.seek(0)
            counts.check(f"a file and a pipe, {' '.join(words)}", alone, file.read())


def check_many(counts, program, top):
    """A directory of 200,000 files: each has its line, in the order of names."""
    for number in range(200000):
        with open(os.path.join(top, b"%06d" % number), "wb") as file:
            file.write(header() if number % 100 == 0 else b"")
    shown, _, _ = run(program, "show", b"000000", cwd=top)
    out, status, _ = run(program, "list", ".", cwd=top)
    counts.check("a directory of 200,000 files", (b"".join(b"@ ./%06d\n%s" % (number, shown) for number in range(0, 200000, 100)), 0), (out, status))
    out, status, _ = run(program, "list", "--name", "x", ".", cwd=top)
    counts.check("a directory of 200,000 files, by a name of none", (b"", 0), (out, status))


def nm_files(words, paths):
    """The files in which nm finds a symbol, and whether each defines it or uses it."""
    found = set()
    done = subprocess.run(["nm", *words, *paths], stdout=subprocess.PIPE, stderr=subprocess.DEVNULL, check=False)
    return done.stdout


def cut(name, most):
    """The name of a member as a listing by names has it: cut at the length of the longest of these."""
    return spelt(name[:most]) + (b"\\+" if len(name) > most else b"")


def check_nm(counts, program, name, paths):
    """Who defines a symbol and who uses it, as nm has it, and the time of both."""
    begun = time.monotonic()
    texts = nm_files(["-A"], paths) + nm_files(["-AD"], paths)
    nm_took = time.monotonic() - begun
    wanted = set()
    for line in texts.splitlines():
        found = re.fullmatch(rb"(.*?):(?:(.*):)?[0-9a-f]* +(\S) " + re.escape(name) + rb"(?:@.*)?", line)
        if found:
            wanted.add((spelt(found[1]), cut(found[2] or b"", len(name)), found[3] in b"Uwv"))
    begun = time.monotonic()
    out, _, _ = run(program, "list", "--name", name, "--members", "--files0-from", "-",
                    given=b"".join(path + b"\0" for path in paths))
    took = time.monotonic() - begun
    got, path, member = set(), b"", b""
    for line in out.splitlines():
        if line.startswith(b"@ "):
            path, member = line[2:], b""
        elif line.startswith(b"A "):
            member = line.split(None, 4)[4]
        elif line.startswith(b"Y "):
            got.add((path, member, b" UND " in line))
    counts.check(f"definers and users of {name!r}", sorted(wanted), sorted(got))
    counts.check(f"the time of it: nm {nm_took:.2f} s, list {took:.2f} s", True, took <= nm_took / 2)
    print(f"{len(wanted)} symbols {name.decode()} in {len(paths)} files: nm -A and -AD {nm_took:.2f} s, list {took:.2f} s")


def check_machine(counts, program, arguments):
    paths = []
    for place in arguments.places or ["/usr/lib"]:
        place = place.encode()
        for path in in_order(place) if os.path.isdir(place) else [place]:
            try:
                if sort_of(path) != "foreign":
                    paths.append(path)
            except OSError:
                pass
    for begin in range(0, len(paths), 50):
        some = paths[begin:begin + 50]
        for part in (b"header", b"sections", b"dynamic"):
            check_files(counts, program, f"{part} of files from {some[0]!r} on", some, (b"--only", part), True)
        check_files(counts, program, f"names in files from {some[0]!r} on", some, (b"--name", arguments.name.encode()), True)
    check_nm(counts, program, arguments.name.encode(), paths)


def main():
    parser = option_reader(__doc__)
    parser.add_argument("--quick", action="store_true", help="the made cases alone")
    parser.add_argument("--name", default="deflateInit_")
    parser.add_argument("places", nargs="*")
    arguments = parser.parse_args()
    program = program_of(arguments)
    counts = Counts()
    cases = (check_made, check_names, check_members, check_budget, check_gone, check_pipes)
    for case in cases if arguments.quick else (*cases, check_many):
        with tempfile.TemporaryDirectory() as top:
            case(counts, program, top.encode())
    if not arguments.quick:
        check_machine(counts, program, arguments)
    print(f"{counts.passed} passed, {counts.failed} failed")
    return counts.failed != 0


if __name__ == "__main__":
    sys.exit(main())
