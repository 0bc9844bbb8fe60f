#!/usr/bin/env python3
"""Runs `elfsee resolve` over hostile links: it must end in time, with the whole answer or with a refusal.

    tests/again/hostile_links.py [--program PROGRAM] [--quick]

Without PROGRAM ./build makes it. An object, an archive and a shared library are cut at each byte, or with --quick at every
29th. A small link is resolved with each read budget and with each value of --keys, --key-bytes, --index, --rows and
--headers, up to what it needs, or with --quick every 17th of the larger ones: it is refused, or answered as with no limit.
Then come groups within 10,000 others, with many rounds, names of 1 MB, indexes that claim more entries than there are bytes,
odd names of members, thin archives, and scripts that name themselves. Where the second implementation (tests/again/resolved.py)
has an answer, it is the same. The last line is `N passed, N failed`, and the status is 0 only if none failed and one passed."""

import os
import subprocess
import sys
import tempfile

sys.dont_write_bytecode = True
sys.path.insert(0, os.path.join(os.path.dirname(os.path.realpath(__file__)), "..", "common"))
import made_archives  # pylint: disable=wrong-import-position
from made_links import (COMMON, FUNC, OBJECT, TEXT, UNDEF, WEAK, Symbol, archive, relocatable, shared_library)  # pylint: disable=wrong-import-position
from resolve_again import SMALL, Jobs, are_front  # pylint: disable=wrong-import-position
from testing import option_reader, program_of  # pylint: disable=wrong-import-position

SECONDS = 20
ENOUGH = {"--keys": 100, "--key-bytes": 4000, "--index": 100, "--rows": 100, "--headers": 100}


class Hostile(Jobs):
    """Hostile links in a directory."""

    def __init__(self, program, folder, step):
        super().__init__(program, folder)
        self.step = step

    def run(self, words, options=()):
        try:
            done = subprocess.run([self.program, "resolve", *(options or SMALL), "--", *words], capture_output=True, timeout=SECONDS,
                                  check=False, env={"PATH": "/usr/bin:/bin", "LC_ALL": "C"})
        except subprocess.TimeoutExpired:
            return [f"not ended after {SECONDS} seconds".encode()], None, b""
        return done.stdout.splitlines(), done.returncode, done.stderr

    def cut(self):
        """Each file of a link, cut."""
        files, words = small_link()
        for name, content in files.items():
            for length in [*range(0, len(content), self.step), len(content) - 1]:
                self.compare(f"{name.decode()} cut at {length}", {**files, name: content[:length]}, words)

    def limited(self):
        """A link with each budget, and with each value of each limit."""
        files, words = small_link()
        self.write(files)
        whole = self.run(words, options_of(ENOUGH))
        self.check("a small link", 0, whole[1])
        self.bounded(words, whole, "--max-read", 12000, b"budget", self.step)
        for limit, word in (("--keys", b"keys"), ("--key-bytes", b"keys"), ("--index", b"rows"), ("--rows", b"rows"), ("--headers", b"headers")):
            self.bounded(words, whole, limit, ENOUGH[limit], b"too-many-" + word, self.step if limit == "--key-bytes" else 1)

    def bounded(self, words, whole, limit, most, word, step):
        """From some value of a limit on, which is not the first, the answer is whole, and before that a refusal for lack of it."""
        is_enough, rows = False, [line for line in whole[0] if line[:1] in b"IW"]
        first = 0 if limit == "--max-read" else 1
        for value in [*range(first, most, step), most]:
            got = self.run(words, [*options_of({**ENOUGH, limit: value})])
            is_whole = got == whole and value > first
            is_refused = got[1] == 1 and got[0][-1].split()[-1] == word and are_front(got[0][:-1], rows)
            self.quiet_case(f"{limit} {value}", "" if is_whole or is_refused and not is_enough else repr(got)[-300:])
            is_enough = is_enough or is_whole
        self.quiet_case(f"{limit} {most} is enough", "" if is_enough else "refused")

    def groups(self):
        """Groups within others give what one gives, and rounds go on as long as they find something."""
        first = relocatable([Symbol(b"f0")])
        self.write({b"o.o": first, b"a.a": chain(200, 0), b"b.a": chain(200, 1)})
        whole = self.run([b"-e", b"0", b"-(", b"o.o", b"a.a", b"b.a", b"-)"])
        self.check("rounds in turn", (1, 200), (whole[1], sum(line[:1] == b"W" for line in whole[0])))
        for depth in (100, 10000):
            inner = [b"o.o", b"a.a", b"b.a"]
            self.check(f"{depth} groups", whole, self.run([b"-e", b"0", *[b"-("] * depth, *inner, *[b"-)"] * depth]))
            self.check(f"{depth} groups without ends", whole, self.run([b"-e", b"0", *[b"-("] * depth, *inner]))
            self.check(f"{depth} ends of no groups", whole, self.run([b"-e", b"0", *[b"-)"] * depth, b"-(", *inner, b"-)"]))
        self.check("many passes", 0, self.run([b"-e", b"0", b"p.o", b"p.a"])[1] if self.write(backwards(1500)) else 0)
        self.compare("passes", backwards(200), [b"-e", b"0", b"p.o", b"p.a"])

    def names(self):
        """Names of 1 MB, of symbols and of members."""
        name, limits = b"n" * 2 ** 20, options_of({**ENOUGH, "--key-bytes": 2 ** 22})
        data = relocatable([Symbol(name, TEXT)])
        self.write({b"o.o": relocatable([Symbol(name)]), b"l.a": archive([(b"m.o", data)], [(name, 0)])})
        lines, status, _ = self.run([b"-e", b"0", b"o.o", b"l.a"], limits)
        self.check("a symbol of 1 MB", (4 + 1, 0, [b"W     2     0 " + name, b"G defined      2     0 " + name]), (len(lines), status, lines[3:]))
        self.check("a symbol of 1 MB and few bytes", b"too-many-keys", self.run([b"-e", b"0", b"o.o", b"l.a"])[0][-1].split()[-1])
        for what, content in named_archives(relocatable([Symbol(b"f1", TEXT)])):
            self.compare(what, {b"a.o": relocatable([Symbol(b"f1")]), b"l.a": content}, [b"-e", b"0", b"a.o", b"l.a"])

    def indexes(self):
        """Indexes that claim more entries than there are bytes, or name members that are none."""
        data = relocatable([Symbol(b"f1", TEXT)])
        for width, name in ((4, b"/"), (8, b"/SYM64/")):
            for claimed in sorted({0, 1, 2, 3, 4, *(2 ** power + more for power in (16, 24, 31, 32, 40, 61, 62, 63) for more in (-1, 0, 1)), 2 ** 64 - 1}):
                if claimed >= 256 ** width:
                    continue
                for member in (8 + 60 + 3 * width, 0, 8, 9, 256 ** width - 1):
                    index = b"".join(number.to_bytes(width, "big") for number in (claimed, member, member)) + b"f1\0f2\0" + bytes(2)
                    content = made_archives.MAGIC + made_archives.member(name, index) + made_archives.member(b"m.o/", data)
                    self.compare(f"an index of {8 * width} bits that claims {claimed} entries of {member}",
                                 {b"a.o": relocatable([Symbol(b"f1")]), b"l.a": content}, [b"a.o", b"l.a"])

    def scripts(self):
        """Scripts that name themselves, once or many times, or begin groups without number."""
        for what, text in (("once", b"INPUT(s)"), ("twice", b"INPUT(s s)"), ("2,000 times", b"INPUT(" + b"s " * 2000 + b")"),
                           ("in groups", b"GROUP(s) " * 400), ("after groups", b"GROUP() " * 400 + b"INPUT(s)"),
                           ("as needed", b"INPUT(" + b"AS_NEEDED(" * 300 + b"s" + b")" * 301)):
            self.write({b"s": text})
            lines, status, _ = self.run([b"-e", b"0", b"s"], options_of({**ENOUGH, "--rows": 16384}))
            self.check(f"a script that names itself {what}", (1, b"script"), (status, lines[-1].split()[-1]))


def options_of(limits):
    return [word for limit, value in limits.items() for word in (limit, str(value))]


def small_link():
    """Files of a link with all that a link can have, and its words."""
    files = {b"a.o": relocatable([Symbol(b"f1"), Symbol(b"f2", COMMON, 1, OBJECT, 8, 4), Symbol(b"f3", TEXT, WEAK, FUNC), Symbol(b"f4", UNDEF, WEAK)],
                                 [(b"g1", 1)], [b"kept"]),
             b"l.a": archive([(b"m.o", relocatable([Symbol(b"f1", TEXT), Symbol(b"f5")], [(b"g1", 1)])), (b"n.o", relocatable([Symbol(b"f2", TEXT, 1, OBJECT)]))],
                             [(b"f1", 0), (b"f2", 1)]),
             b"s.so": shared_library([Symbol(b"f5@@V1", TEXT, 1, FUNC), Symbol(b"f6", UNDEF)], b"s.so", [b"t.so"], [b"V1"])}
    return files, [b"a.o", b"l.a", b"--as-needed", b"s.so"]


def chain(count, place):
    """An archive with every other member of a chain, of which each needs the next."""
    members = [(b"m%d.o" % number, relocatable([Symbol(b"f%d" % number, TEXT), Symbol(b"f%d" % (number + 1))])) for number in range(count)]
    return archive(members[place::2], [(b"f%d" % number, place) for place, number in enumerate(range(place, count, 2))])


def backwards(count):
    """An archive that takes a pass over its index for each member, and an object that needs the last."""
    members = [(b"m%d.o" % number, relocatable([Symbol(b"f%d" % number, TEXT), *([Symbol(b"f%d" % (number - 1))] if number else [])])) for number in range(count)]
    return {b"p.o": relocatable([Symbol(b"f%d" % (count - 1))]), b"p.a": archive(members, [(b"f%d" % number, number) for number in range(count)])}


def named_archives(data):
    """Archives whose members have odd names."""
    member, front = made_archives.member, made_archives.MAGIC

    def indexed(*rest):
        before = rest[:-1]
        index = b"\0\0\0\1" + (8 + 60 + 12 + sum(map(len, before))).to_bytes(4, "big") + b"f1\0\0"
        return front + member(b"/", index) + b"".join(rest)

    yield "a table of names without an end", indexed(member(b"//", b"long_name.o"), member(b"/0", data))
    yield "a table of names without bytes", indexed(member(b"//", b""), member(b"/0", data))
    yield "a name of 4,000 bytes", indexed(member(b"//", b"n" * 4000 + b"/\n"), member(b"/0", data))
    yield "a name at the end of the table", indexed(member(b"//", b"a/\n"), member(b"/3", data))
    yield "the largest number of a name", indexed(member(b"//", b"a/\n"), member(b"/999999999999999", data))
    yield "a name and no table", indexed(member(b"/0", data))
    yield "a table after its member", indexed(member(b"/0", data)) + member(b"//", b"a/\n")
    yield "a name of sixteen bytes", indexed(member(b"0123456789abcdef", data))
    yield "a name of spaces", indexed(member(b"", data))
    yield "a BSD name", indexed(made_archives.bsd_member(b"a name of BSD.o", data, 5))
    yield "a BSD name of 3,000 bytes", indexed(made_archives.bsd_member(b"b" * 3000, data))
    yield "a BSD name of NULs", indexed(made_archives.bsd_member(b"", data, 8))
    yield "a BSD name of all bytes", indexed(member(b"#1/%d" % len(data), data))
    yield "a BSD name past the data", indexed(member(b"#1/99999", data))
    yield "the index of BSD", front + made_archives.bsd_member(b"__.SYMDEF SORTED", bytes(8), 4) + made_archives.bsd_member(b"a.o", data, 1)
    yield "thin", b"!<thin>\n" + indexed(member(b"m.o/", data))[8:]
    yield "thin, without members", b"!<thin>\n"


def main():
    reader = option_reader(__doc__)
    reader.add_argument("--quick", action="store_true")
    given = reader.parse_args()
    program = program_of(given)
    with tempfile.TemporaryDirectory() as folder:
        links = Hostile(program, folder, 29 if given.quick else 1)
        for part in (links.cut, links.limited, links.groups, links.names, links.indexes, links.scripts):
            part()
        os.chdir("/")
    return links.end()


if __name__ == "__main__":
    sys.exit(main())
