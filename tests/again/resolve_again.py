#!/usr/bin/env python3
"""Compares `elfsee resolve` with a second implementation of the rules (tests/again/resolved.py), over generated jobs and
changed copies of their files.

    tests/again/resolve_again.py [--program PROGRAM] [--quick] [--jobs N] [--copies N]

Without PROGRAM ./build makes it. --quick takes 150 jobs and 150 copies, instead of 1,500 and 3,000. Jobs have objects with
references, commons, weak, absolute and unique definitions, visibilities, versions, groups of which one is kept, archives
with an index of either size, whole archives and groups within groups; as many have shared libraries for the most part, also
after `--as-needed`. One job has a key for each order of three kinds of symbols, others for each pair of symbols of objects and
one of a shared library, with versions or without. Libraries need one another in each combination, and groups are begun
again with their inputs in each order. With `--problems` only the lines come that make the status 1, and those of the files that they name; of a link that
is refused the refusal, and the files that are missing or refused. In each copy some bytes of one file differ: of its headers,
its tables, its index. Then come archives that are malformed, limits at their edges, roots that libraries and the paths of
scripts are below, and budgets of all sizes. The last line is `N passed, N failed`, and the status is 0 only if none failed
and one passed."""

import itertools
import os
import random
import struct
import subprocess
import sys
import tempfile

sys.dont_write_bytecode = True
sys.path.insert(0, os.path.join(os.path.dirname(os.path.realpath(__file__)), "..", "common"))
import made_archives  # pylint: disable=wrong-import-position
import made_links  # pylint: disable=wrong-import-position
import resolved  # pylint: disable=wrong-import-position
from made_links import (ABS, BSS, COMMON, DATA, FUNC, OBJECT, TEXT, UNDEF, VERDEF, VERNEED, WEAK, Symbol, archive, relocatable, shared_library)  # pylint: disable=wrong-import-position
from testing import Counts, option_reader, program_of  # pylint: disable=wrong-import-position

SMALL = ["--keys", "2000", "--key-bytes", "100000", "--index", "2000", "--rows", "500", "--headers", "200"]
# What a symbol can be of an object.
SORTS = {
    "reference": lambda name: Symbol(name), "weak reference": lambda name: Symbol(name, UNDEF, WEAK),
    "common of 4": lambda name: Symbol(name, COMMON, 1, OBJECT, 8, 4), "common of 8": lambda name: Symbol(name, COMMON, 1, OBJECT, 8, 8),
    "weak definition": lambda name: Symbol(name, TEXT, WEAK, FUNC), "definition": lambda name: Symbol(name, DATA, 1, OBJECT, 0, 4),
    "absolute 1": lambda name: Symbol(name, ABS, 1, 0, 1), "absolute 2": lambda name: Symbol(name, ABS, 1, 0, 2),
    "hidden reference": lambda name: Symbol(name, UNDEF, 1, 0, 0, 0, 2), "nothing": lambda name: None,
}


class Jobs(Counts):
    """Jobs in a directory, by the program and by the second implementation."""

    def __init__(self, program, folder):
        super().__init__()
        self.program = program
        os.chdir(folder)

    def run(self, words, options=()):
        done = subprocess.run([self.program, "resolve", *(options or SMALL), "--", *words], capture_output=True, timeout=60,
                              check=False, env={"PATH": "/usr/bin:/bin", "LC_ALL": "C"})
        return done.stdout.splitlines(), done.returncode, done.stderr

    def write(self, files):
        for name, content in files.items():
            with open(name, "wb") as file:
                file.write(content)

    def compare(self, what, files, words):
        """Writes the files of a job and compares both answers."""
        self.write(files)
        lines, status = resolved.answer(words, 200)
        got = self.run(words)
        self.check(what, (lines, status, b""), got)
        self.check(f"{what}: problems", (problems_of(lines), status, b""), self.run(words, [*SMALL, "--problems"]))
        return got

    def three_kinds(self):
        """A key for each order of three kinds of symbols, in one job of three objects."""
        chosen = list(itertools.product(SORTS, repeat=3))
        files = {}
        for place in range(3):
            symbols = [SORTS[sorts[place]](b"k%d" % number) for number, sorts in enumerate(chosen)]
            files[b"t%d.o" % place] = relocatable([symbol for symbol in symbols if symbol])
        self.compare(f"{len(chosen)} orders of three kinds", files, [b"-e", b"0", *sorted(files)])

    def needed_names(self):
        """A library that is taken as needed, of which an object or another library, before it, refers to a name, and which others name
        as needed: one that is part of the link, and one that is taken as needed itself."""
        references = {"none": [], "weak": [Symbol(b"f", UNDEF, WEAK)], "strong": [Symbol(b"f")]}
        definer = shared_library([Symbol(b"f", TEXT, 1, FUNC, 0, 4)], b"b.so")
        for (by_object, of_object), (by_library, of_library) in itertools.product(references.items(), repeat=2):
            for first, between in itertools.product(([], [b"b.so"], [b"c.so"], [b"other.so", b"b.so"]), repeat=2):
                files = {b"o.o": relocatable(of_object), b"a.so": shared_library(of_library, b"a.so", first),
                         b"c.so": shared_library([Symbol(b"g", TEXT, 1, FUNC, 0, 4)], b"c.so", between), b"b.so": definer}
                for words in ([b"a.so", b"--as-needed", b"c.so", b"b.so"], [b"c.so", b"a.so", b"--as-needed", b"b.so"],
                              [b"--as-needed", b"a.so", b"c.so", b"--no-as-needed", b"a.so", b"--as-needed", b"b.so"]):
                    words = [b"-e", b"0", b"o.o", *words]
                    self.compare(f"{by_object} reference of an object, {by_library} of a library, {first}, {between}: {words}", files, words)

    def default_versions(self):
        """A key for each pair of symbols of two objects and one of a library between them, with a version, a default one or none. Then
        each symbol of an object before each of a library that is taken as needed."""
        own = [(name, sort) for name in (b"%s", b"%s@V1", b"%s@@V1")
               for sort in ("reference", "weak reference", "common of 4", "weak definition", "definition")]
        shared = [(name, symbol) for name in (b"%s", b"%s@V1", b"%s@@V1")
                  for symbol in ((TEXT, 1, FUNC), (TEXT, WEAK, FUNC), (DATA, 1, OBJECT), (BSS, 1, OBJECT), (UNDEF, 1, 0))]

        def of_library(library, key):
            name, (section, binding, kind) = library
            return Symbol((name if section else name.replace(b"@@", b"@")) % key, section, binding, kind, 0, 8 if section else 0)

        chosen = list(itertools.product(own, shared, own))
        for order in itertools.permutations((b"a.o", b"l.so", b"b.o")):
            for begin in range(0, len(chosen), 300):
                files = {b"a.o": [], b"l.so": [], b"b.o": []}
                for number, (first, library, last) in enumerate(chosen[begin:begin + 300]):
                    key = b"k%d" % number
                    files[b"a.o"].append(SORTS[first[1]](first[0] % key))
                    files[b"b.o"].append(SORTS[last[1]](last[0] % key))
                    files[b"l.so"].append(of_library(library, key))
                written = {name: relocatable(files[name]) for name in (b"a.o", b"b.o")}
                written[b"l.so"] = shared_library(files[b"l.so"], b"l.so", (), [b"V1"], [b"V1"])
                self.compare(f"versions from {begin} on of {order}", written, [b"-e", b"0", *order])
        for (name, sort), library in itertools.product(own, shared):
            files = {b"a.o": relocatable([SORTS[sort](name % b"f")]),
                     b"l.so": shared_library([of_library(library, b"f")], b"l.so", (), [b"V1"], [b"V1"])}
            self.compare(f"{sort} of {name} and {library} as needed", files, [b"-e", b"0", b"a.o", b"--as-needed", b"l.so"])

    def rounds(self):
        """Groups that are begun again: each input needs one that may be before it, and the last a library that is taken as needed."""
        def needing(name, needed):
            return relocatable([Symbol(name, TEXT), Symbol(needed)])
        files = {b"o.o": relocatable([Symbol(b"first")]), b"1.a": archive([(b"m.o", needing(b"first", b"second"))], [(b"first", 0)]),
                 b"2.a": archive([(b"m.o", needing(b"second", b"third")), (b"n.o", needing(b"third", b"fourth"))], [(b"third", 1), (b"second", 0)]),
                 b"3.so": shared_library([Symbol(b"fourth", TEXT, 1, FUNC, 0, 4)], b"3.so"),
                 b"4.so": shared_library([Symbol(b"fourth", TEXT, 1, FUNC, 0, 4), Symbol(b"first")], b"4.so")}
        for order in itertools.permutations((b"1.a", b"2.a", b"3.so", b"4.so")):
            for words in ([b"--as-needed", b"-(", *order, b"-)"], [b"-(", b"--as-needed", *order, b"-)", b"3.so"], [b"--as-needed", *order],
                          [b"--as-needed", b"-(", order[0], b"-(", *order[1:3], b"-)", order[3], b"-)"],
                          [b"-(", b"--as-needed", *order[:2], b"-)", b"--no-as-needed", b"-(", *order[2:], b"o.o", b"-)"]):
                self.compare(f"rounds of {words}", files, [b"-e", b"0", b"o.o", *words])
        for order in itertools.permutations((b"4.so", b"same.so", b"1.a", b"2.a")):
            for words in ([b"--as-needed", b"-(", *order, b"-)"], [b"--as-needed", b"-(", order[0], b"-(", *order[1:], b"-)", b"-)"]):
                same = {**files, b"same.so": shared_library([Symbol(b"fourth", DATA, 1, OBJECT, 0, 8)], b"4.so")}
                self.compare(f"rounds of two of one name: {words}", same, [b"-e", b"0", b"o.o", *words])

    def versions_of_each(self):
        """Two libraries of which the second lacks records of versions: those of the first are not its own."""
        symbols = [Symbol(b"f@@V1", TEXT, 1, FUNC, 0, 4), Symbol(b"g@V2")]
        defined, other = (shared_library(symbols, name, (), [b"V1"], [b"V2", b"V3"]) for name in (b"d.so", b"e.so"))
        for kind, name in ((VERDEF, "definitions"), (VERNEED, "needs")):
            lacking = bytearray(other)
            at = lacking.index(struct.pack("<I", kind), int.from_bytes(lacking[40:48], "little"))
            lacking[at:at + 4] = struct.pack("<I", 1)
            files = {b"o.o": relocatable([Symbol(b"f"), Symbol(b"g", TEXT)]), b"d.so": defined, b"e.so": bytes(lacking)}
            for words in ([b"d.so", b"e.so"], [b"e.so", b"d.so"], [b"--as-needed", b"d.so", b"e.so"]):
                self.compare(f"a library without version {name}: {words}", files, [b"-e", b"0", b"o.o", *words])
        for count in (0, 1, 3, 65535):
            for kind, width, field in ((VERDEF, 2, 6), (VERNEED, 2, 2), (VERDEF, 4, 16), (VERNEED, 4, 12)):
                changed_file = bytearray(defined)
                at = changed_file.index(struct.pack("<I", kind), int.from_bytes(changed_file[40:48], "little"))
                record = int.from_bytes(changed_file[at + 20:at + 28], "little") + field
                changed_file[record:record + width] = count.to_bytes(width, "little")
                files = {b"o.o": relocatable([Symbol(b"f"), Symbol(b"g", TEXT)]), b"d.so": bytes(changed_file)}
                self.compare(f"{count} at {field} of a record of type {kind:x}", files, [b"-e", b"0", b"o.o", b"d.so"])

    def random_jobs(self, rng, count):
        for number in range(count):
            files, words = made_links.random_job(rng, libraries=3 * (number % 2))
            self.compare(f"job {number}: {b' '.join(words).decode()}", files, words)

    def jobs_of_libraries(self, rng, count):
        """Links most of whose files are shared libraries, that share few names."""
        for number in range(count):
            files, words = made_links.random_job_of_libraries(rng, made_links.NAMES[:rng.choice((3, 5, 8))])
            self.compare(f"libraries of job {number}: {b' '.join(words).decode()}", files, words)

    def changed_copies(self, rng, count):
        for number in range(count):
            files, words = made_links.random_job(rng, libraries=3 * (number % 2))
            name = rng.choice(sorted(set(words) & set(files)))
            files[name] = changed(rng, files[name])
            self.compare(f"copy {number} of {name.decode()}: {b' '.join(words).decode()}", files, words)

    def malformed(self):
        """Archives whose index or whose members are malformed."""
        for name, content in malformed_archives():
            self.compare(name, {b"a.o": relocatable([Symbol(b"f1"), Symbol(b"f2")]), b"l.a": content}, [b"a.o", b"l.a", b"a.o"])

    def limits(self):
        """Each limit, with exactly as much as a job needs, and with one less."""
        files = {b"a.o": relocatable([Symbol(b"first"), Symbol(b"second")]),
                 b"l.a": archive([(b"m.o", relocatable([Symbol(b"first", TEXT)]))], [(b"first", 0), (b"other", 0)])}
        words = [b"a.o", b"l.a"]
        whole = self.compare("a job without limits", files, words)
        needs = {"--keys": 4, "--key-bytes": 6 + 5 + 6 + 5, "--index": 2, "--rows": 3}
        for limit, least in needs.items():
            sure = ["--keys", "100", "--key-bytes", "1000", "--index", "100", "--rows", "100", "--headers", "100"]
            place = sure.index(limit) + 1
            for value, is_enough in ((least, True), (least - 1, False)):
                # The tables of a file have as many bytes as the names.
                if limit == "--key-bytes":
                    continue
                sure[place] = str(value)
                lines, status, _ = self.run(words, sure)
                word = b"too-many-keys" if limit == "--keys" else b"too-many-rows"
                is_so = (lines, status) == whole[:2] if is_enough else status == 1 and lines[-1].split()[-1] == word
                self.quiet_case(f"{limit} {value}", "" if is_so else repr(lines[-3:]))

    def roots(self):
        """Links with a root of the linker's directories: libraries and scripts below it, beside it, and linked into it."""
        here, place = os.fsencode(os.getcwd()), b"/lib/x86_64-linux-gnu"
        below = b"root" + place
        os.makedirs(below)
        os.mkdir("root_2")
        os.symlink("root", "linked")
        os.symlink(here + b"/root_2/liboutside.so", below + b"/libaway.so")
        library = archive([(b"m.o", relocatable([Symbol(b"f1", TEXT)]))], [(b"f1", 0)])
        self.write({b"a.o": relocatable([Symbol(b"f1")]), below + b"/libf1.a": library, b"root_2/libf1.a": library,
                    below + b"/libabsolute.so": b"GROUP ( %s/libf1.a )\n" % place, b"root_2/libequals.so": b"INPUT ( =%s/libf1.a )\n" % place,
                    b"root_2/libmarked.so": b"INPUT ( $SYSROOT%s/libf1.a )\n" % place, b"root_2/itself.so": b"INPUT ( %s/root_2/libf1.a )\n" % here,
                    b"root_2/liboutside.so": b"INPUT ( %s/root_2/libf1.a )\n" % here})
        jobs = [[b"-lf1"], [b"-labsolute"], [below + b"/libabsolute.so"], [b"-laway"], [b"-Lroot_2", b"-lequals"], [b"-Lroot_2", b"-lmarked"]]
        for words in [*jobs, [b"-Lroot_2", b"-loutside"]]:
            for root in (b"root", here + b"/root/", b"linked"):
                self.compare_root([b"--sysroot=" + root, b"a.o", *words])
            self.compare_root([b"--sysroot=root_2", b"a.o", *words, b"--sysroot=root"])
        for words in jobs:
            for none in (b"--sysroot=", b"--sysroot=/"):
                self.compare_root([b"--sysroot=root", b"a.o", *words, none])
        self.compare_root([b"--sysroot=root_2/itself.so", b"a.o", b"root_2/itself.so"])

    def compare_root(self, words):
        self.compare(b" ".join(words).decode(), {}, words)

    def budgets(self, rng, count):
        """Within any budget the answer is whole, or the lines up to a refusal for lack of budget."""
        for number in range(count):
            files, words = made_links.random_job(rng)
            whole = self.compare(f"budgets of job {number}", files, words)
            for budget in sorted({0, 1, 63, 64, *(rng.randrange(12000) for _ in range(8))}):
                lines, status, _ = self.run(words, [*SMALL, "--max-read", str(budget)])
                rows = [line for line in whole[0] if line[:1] in b"IW"]
                # An object has a header of 64 bytes, so a smaller budget is never enough for one.
                may_end = budget >= 64 or not any(row.split()[2] in (b"object", b"member") for row in lines_of(b"I", whole[0]))
                is_so = may_end and (lines, status) == whole[:2] or status == 1 and lines[-1].endswith(b" budget") \
                    and are_front(lines[:-1], rows)
                self.quiet_case(f"budget {budget} of job {number}", "" if is_so else repr(lines[-2:]))


def problems_of(lines):
    """Of the lines of a link those that make its status 1, and those of the files that they name."""
    named, kept, fails = set(), [], False
    for line in lines:
        letter, *fields = line.split(maxsplit=4)
        if letter == b"G":
            fails = fields[0] in (b"undef", b"order", b"multiple")
        if letter in (b"G", b"M", b"O") and fails:
            kept.append(line)
            named.update(fields[1:3] if letter == b"G" else fields[:1])
    rows = [line.split(maxsplit=4) for line in lines if line.startswith(b"I")]
    named.update([archive for _, row, _, archive, *_ in rows if row in named])
    shown = [line for line, (_, row, kind, *_) in zip(lines_of(b"I", lines), rows) if row in named or kind in (b"missing", b"refused")]
    return shown + kept + lines_of(b"!", lines)


def lines_of(letter, lines):
    return [line for line in lines if line.startswith(letter)]


def are_front(lines, rows):
    """Whether lines are the first ones of some rows, but that a file may be refused."""
    return all(line == row or line.split()[2:3] == [b"refused"] and line.split()[:2] == row.split()[:2] for line, row in zip(lines, rows))


def changed(rng, content):
    """A copy with a few bytes changed, most of them in what tells the sizes of tables, or cut."""
    copy = bytearray(content)
    for _ in range(rng.randrange(1, 4)):
        copy[rng.choice((rng.randrange(len(copy)), -1 - rng.randrange(min(700, len(copy))), rng.randrange(min(300, len(copy)))))] = \
            rng.choice((0, 1, 2, 3, 17, 0x40, 0x60, 0x80, 0xff, rng.randrange(256)))
    return bytes(copy[:rng.randrange(len(copy) + 1)] if rng.random() < 0.1 else copy)


def malformed_archives():
    """Archives, by what is odd in each."""
    data = relocatable([Symbol(b"f1", TEXT), Symbol(b"f3")])
    member = made_archives.member
    front, behind = made_archives.MAGIC, member(b"m.o/", data)

    def indexed(*numbers, names=b"f1\0", name=b"/", width=4, size=None):
        index = b"".join(number.to_bytes(width, "big") for number in numbers) + names
        return front + made_archives.header(name, b"%d" % (len(index) if size is None else size)) + index + b"\n" * (len(index) % 2) + behind

    at = 8 + 60 + 12
    yield "a whole index", indexed(1, at)
    yield "an index of 64 bits", indexed(1, 8 + 60 + 20, name=b"/SYM64/", width=8)
    yield "no index", front + behind
    yield "no member", front
    yield "an index alone", front + member(b"/", bytes(4))
    yield "a table of names first", front + member(b"//", b"a/\n") + behind
    yield "a thin archive", b"!<thin>\n" + behind
    yield "no count", front + member(b"/", b"\0\0\0") + behind
    yield "an empty index", front + member(b"/", b"") + behind
    yield "an offset between members", indexed(1, at + 2)
    yield "the offset of the index", indexed(1, 8)
    yield "an offset of 0", indexed(1, 0)
    yield "an offset past the end", indexed(1, 2 ** 32 - 1)
    yield "the largest count", indexed(2 ** 32 - 1, at)
    yield "the largest count of 64 bits", indexed(2 ** 64 - 1, 8 + 60 + 20, name=b"/SYM64/", width=8)
    yield "one entry too many", indexed(2, at)
    yield "no name", indexed(1, at - 4, names=b"")
    yield "a name without its end", indexed(1, at, names=b"f1!")
    yield "an empty name", indexed(1, at, names=b"\0..")
    yield "bytes after the names", indexed(1, at + 4, names=b"f1\0more")
    yield "a name twice", indexed(2, at + 8, at + 8, names=b"f1\0f1\0\0")
    yield "a member that lacks its entry", archive([(b"m.o", relocatable([Symbol(b"f3")]))], [(b"f1", 0)])
    yield "a member that is its own reason", archive([(b"m.o", relocatable([Symbol(b"f1")]))], [(b"f1", 0), (b"f1", 0)])
    yield "a member of zeros", archive([(b"m.o", bytes(100))], [(b"f1", 0)])
    yield "a member of no bytes", archive([(b"m.o", b"")], [(b"f1", 0)])
    yield "a member for another machine", archive([(b"m.o", data[:18] + b"\3" + data[19:])], [(b"f1", 0)])
    yield "a shared library as a member", archive([(b"m.o", data[:16] + b"\3" + data[17:])], [(b"f1", 0)])
    yield "a name of 5,000 bytes", archive([(b"m.o", relocatable([Symbol(b"n" * 5000, TEXT), Symbol(b"f1", TEXT)]))], [(b"n" * 5000, 0), (b"f1", 0)])
    yield "intermediate code alone", archive([(b"m.o", relocatable([Symbol(b"__gnu_lto_slim", COMMON, 1, OBJECT, 1, 1)]))], [(b"f1", 0)])
    yield "a long name of a member", front + member(b"/", struct_index(b"f1", 8 + 60 + 12 + 60 + 22)) + member(b"//", b"a_name_of_many_bytes/\n") + member(b"/0", data)
    yield "a long name past its table", front + member(b"/", struct_index(b"f1", 8 + 60 + 12 + 60 + 22)) + member(b"//", b"a_name_of_many_bytes/\n") + member(b"/99", data)
    yield "a name at the start of the data", front + member(b"/", struct_index(b"f1", 8 + 60 + 12)) + made_archives.bsd_member(b"a name.o", data, 4)


def struct_index(name, place):
    """An index of one entry, of 12 bytes."""
    return b"\0\0\0\1" + place.to_bytes(4, "big") + name + bytes(4 - len(name))


def main():
    reader = option_reader(__doc__)
    reader.add_argument("--quick", action="store_true")
    reader.add_argument("--jobs", type=int)
    reader.add_argument("--copies", type=int)
    given = reader.parse_args()
    count = given.jobs if given.jobs is not None else 150 if given.quick else 1500
    copies = given.copies if given.copies is not None else 150 if given.quick else 3000
    program, rng = program_of(given), random.Random(2040)
    with tempfile.TemporaryDirectory() as folder:
        jobs = Jobs(program, folder)
        jobs.three_kinds()
        jobs.malformed()
        jobs.limits()
        jobs.roots()
        jobs.needed_names()
        jobs.default_versions()
        jobs.rounds()
        jobs.versions_of_each()
        jobs.random_jobs(rng, count)
        jobs.jobs_of_libraries(rng, count)
        jobs.changed_copies(rng, copies)
        jobs.budgets(rng, 5 if given.quick else 50)
        os.chdir("/")
    return jobs.end()


if __name__ == "__main__":
    sys.exit(main())
