#!/usr/bin/env python3
"""Counts the system calls of the built program.

    tests/gate/system_calls.py [--program PROGRAM]

The program is run over sparse files that are made here, most of whose tables are past 4 GB, and each of
its system calls is observed by ptrace: which file is looked at, opened and closed, when its
length is sought, each read with its offset and its size, each write with its size, each large
allocation. The expected calls are computed from the rules in docs/ARCHITECTURE.md: a listing asks for whole rows of
up to 4,096 bytes, and for no byte of a table twice. With a read budget each of these is one call. Without one, what
lies in one page of 4,096 bytes is read by that page, and the last 8,192 pages are kept.

PROGRAM is the built program (./build makes it if none is given). It needs only Python 3.
If the system lets no process trace another, it says so, and counts nothing. The last line is
`N passed, N failed`.
"""

import ctypes
import errno
import fcntl
import os
import platform
import resource
import signal
import struct
import subprocess
import sys
import tempfile

sys.dont_write_bytecode = True
sys.path.insert(0, os.path.join(os.path.dirname(os.path.realpath(__file__)), "..", "common"))
from made_archives import MAGIC, bsd_member, member, small_elf
from testing import Counts, option_reader, program_of

# The numbers of calls on x86-64, and the requests of ptrace.
READ, WRITE, SEEK, MAP, BREAK, PREAD = {0, 19, 295}, {1, 18, 20, 296}, {8}, {9}, {12}, {17}
OPEN, CLOSE, STAT = {2, 257}, {3}, {4, 6, 262, 332}
# What begins a process or becomes another program: clone, fork, vfork, execve, execveat, clone3.
START = {56, 57, 58, 59, 322, 435}
TRACE_ME, NEXT_CALL, SET_OPTIONS, CALL_INFO = 0, 24, 0x4200, 0x420E
SYSGOOD_AND_EXITKILL = 1 | 1 << 20
ANONYMOUS = 0x20
# How a process ends that cannot be traced, or cannot become the program.
NOT_TRACED, NOT_STARTED = 77, 78
FAR, FARTHER, HEADERS = 0x110000000, 0x120000000, 0x140000000
PAGE, BUFFER = 4096, 65536
# How many pages are kept, how many places for their indexes there are at first, and how many of each page.
KEPT, PLACES, PLACES_OF_PAGE = 8192, 256, 4
# How many are kept if there are too few addresses for these, and such a limit on them, in bytes.
FEWER, ADDRESSES = 1024, 24 << 20
BUDGET = ("--max-read", "1000000000000")

counts = Counts()
check = counts.case


# ---------------------------------------------------------------------------
# A run whose calls are observed.

class Untraced(Exception):
    """The system lets no process trace another."""


def ptrace(request, pid, address=0, data=0):
    trace = ctypes.CDLL(None, use_errno=True).ptrace
    trace.restype = ctypes.c_long
    trace.argtypes = [ctypes.c_long, ctypes.c_long, ctypes.c_void_p, ctypes.c_void_p]
    return trace(request, pid, address, data)


def ended(status):
    """How a process ended: its status, or its signal below 0."""
    return os.WEXITSTATUS(status) if os.WIFEXITED(status) else -os.WTERMSIG(status)


def text_at(pid, address):
    """The text that is at an address of a process, up to its NUL."""
    with open(f"/proc/{pid}/mem", "rb", buffering=0) as memory:
        memory.seek(address)
        return memory.read(256).split(b"\0")[0].decode(errors="replace")


class Run:
    """The system calls of the program over one file, and how it ended."""

    def __init__(self, program, words, path=None, full=False, piped=False, addresses=None):
        self.path, self.files, self.opened, self.late, self.end = path, set(), [], 0, 0
        self.looks, self.opens, self.seeks, self.reads, self.writes, self.maps = 0, 0, 0, [], [], []
        # Files that are open, the most of them at one time, and how often the file was closed.
        self.held, self.most, self.closes = set(), 0, 0
        # How many bytes were read from all files at offsets, and how often a program was started.
        self.asked, self.started = 0, 0
        if piped:
            reading, writing = os.pipe()
            fcntl.fcntl(writing, fcntl.F_SETPIPE_SZ, 1 << 20)
            out = os.fdopen(writing, "wb")
        else:
            out = open("/dev/full", "wb") if full else tempfile.TemporaryFile()
        with out:
            pid = os.fork()
            if pid == 0:
                start(program, words, out, addresses)
            self.status = self.follow(pid)
            self.text = b""
            if not full and not piped:
                out.seek(0)
                self.text = out.read()
        if piped:
            with os.fdopen(reading, "rb") as pipe:
                self.text = pipe.read()

    def follow(self, pid):
        """Goes from call to call of a process up to its end, and answers its status."""
        _, status = os.waitpid(pid, 0)
        if not os.WIFSTOPPED(status):
            if ended(status) == NOT_TRACED:
                raise Untraced
            sys.exit("tests/gate/system_calls.py: the program does not start")
        if ptrace(SET_OPTIONS, pid, 0, SYSGOOD_AND_EXITKILL) != 0:
            os.kill(pid, signal.SIGKILL)
            raise Untraced
        info, entered = ctypes.create_string_buffer(128), None
        passed_on = 0
        while True:
            ptrace(NEXT_CALL, pid, 0, passed_on)
            _, status = os.waitpid(pid, 0)
            if not os.WIFSTOPPED(status):
                return ended(status)
            stop = os.WSTOPSIG(status)
            passed_on = 0 if stop in (signal.SIGTRAP, signal.SIGTRAP | 0x80) else stop
            if stop != signal.SIGTRAP | 0x80:
                continue
            if ptrace(CALL_INFO, pid, len(info), ctypes.addressof(info)) < 0:
                os.kill(pid, signal.SIGKILL)
                raise Untraced
            if info.raw[0] == 1:
                entered = struct.unpack_from("<7Q", info.raw, 24)
            elif info.raw[0] == 2 and entered:
                self.count(pid, entered[0], entered[1:], struct.unpack_from("<q", info.raw, 24)[0])

    def count(self, pid, call, words, answer):
        """Counts a call by its number, its words and its answer."""
        self.asked += words[2] if call in PREAD else 0
        self.started += call in START
        if call in OPEN or call in STAT:
            told = text_at(pid, words[call in (257, 262, 332)])
            self.opened += [told] if call in OPEN else []
            self.held |= {answer} if call in OPEN and answer >= 0 else set()
            self.most = max(self.most, len(self.held))
            if self.path and told == self.path:
                self.looks += call in STAT
                self.opens += call in OPEN
                self.files |= {answer} if call in OPEN else set()
        elif call in CLOSE:
            self.closes += words[0] in self.files
            self.files.discard(words[0])
            self.held.discard(words[0])
        elif call in SEEK and words[0] in self.files:
            self.seeks += 1
        elif call in PREAD and words[0] in self.files:
            self.reads.append((words[3], words[2]))
        elif call in READ and words[0] in self.files:
            self.reads.append(("the current offset", words[2]))
        elif call in WRITE and words[0] == 1:
            self.writes.append(answer)
        elif call in MAP and words[3] & ANONYMOUS:
            self.maps.append(words[1])
            self.late += bool(self.files)
        elif call in BREAK:
            # It may be called to give memory back too.
            self.late += bool(self.files) and answer > self.end
            self.end = answer


def start(program, words, out, addresses):
    """In the process that is to be traced: becomes the program, which has so many bytes of addresses, if that is limited."""
    nothing = os.open(os.devnull, os.O_RDWR)
    os.dup2(nothing, 0)
    os.dup2(out.fileno(), 1)
    os.dup2(nothing, 2)
    status = NOT_TRACED
    try:
        if ptrace(TRACE_ME, 0) == 0:
            status = NOT_STARTED
            if addresses:
                resource.setrlimit(resource.RLIMIT_AS, (addresses, addresses))
            os.execve(program, [program, *words], {})
    finally:
        os._exit(status)


# ---------------------------------------------------------------------------
# Files.

def file_header(kind=1, segments=0, sections=0):
    """The file header: section headers are at HEADERS, program headers after it."""
    return b"\x7fELF\2\1\1" + bytes(9) + struct.pack(
        "<2HI3QI6H", kind, 62, 0, 0, 64 if segments else 0, HEADERS if sections else 0, 0, 0,
        56 if segments else 0, segments, 64 if sections else 0, sections, 0)


def section(kind, at, size, link=0, info=0, entry=0):
    return struct.pack("<2I4Q2I2Q", 0, kind, 0, 0, at, size, link, info, 0, entry)


def symbol(name):
    return struct.pack("<IBBHQQ", name, 0x12, 0, 0xFFF1, 0, 0)


def half(offset, value):
    """A relocation entry that stores a value of 16 bits."""
    return struct.pack("<QIIq", offset, 12, 0, value)


def made(folder, name, sections, parts, kind=1):
    """Makes a file of sections and of bytes at offsets; its path. Between them are zeros that take no room."""
    path = os.path.join(folder, name)
    with open(path, "wb") as file:
        file.write(file_header(kind, sections=len(sections) + 1))
        for at, data in [*parts.items(), (HEADERS, bytes(64) + b"".join(sections))]:
            file.seek(at)
            file.write(data)
    return path


def pages(at, size, most=PAGE):
    """The reads that go over a range, as large as they may be."""
    return [(at + done, min(most, size - done)) for done in range(0, size, most)]


def head_of(sections):
    """The reads that every listing begins with: the file header and the section headers."""
    return [(0, 64), *pages(HEADERS, 64 * (sections + 1))]


def by_pages(asked, length, most=KEPT):
    """The reads of a file of this length for what is asked of it without a read budget, if so many pages are kept."""
    reads, kept, places, following = [], [], [0] * PLACES, 0
    for at, size in asked:
        place, begin = at // PAGE % len(places), at - at % PAGE
        held = kept[places[place]] if places[place] < len(kept) else (0, 0)
        if held[0] <= at and at + size <= sum(held):
            continue
        if at + size > begin + PAGE:
            reads.append((at, size))
            continue
        page = (begin, min(PAGE, length - begin))
        reads.append(page)
        if len(kept) < most:
            if len(kept) >= len(places) // PLACES_OF_PAGE:
                places += [0] * len(places)
                for index, (start, _) in enumerate(kept):
                    places[start // PAGE % len(places)] = index
                place = at // PAGE % len(places)
            places[place] = len(kept)
            kept.append(page)
        else:
            places[place] = following % most
            kept[following % most] = page
            following = following % most + 1
    return reads


def within(reads, at, size):
    return [read for read in reads if at <= read[0] < at + size]


# ---------------------------------------------------------------------------
# Cases.

def first_difference(wanted, got):
    if wanted == got:
        return ""
    at = next((i for i, (one, other) in enumerate(zip(wanted, got)) if one != other), min(len(wanted), len(got)))
    few = slice(at, at + 3)
    return f"wanted {len(wanted)}, got {len(got)}; from number {at + 1} on wanted {wanted[few]}, got {got[few]}"


class Cases:
    def __init__(self, program, folder):
        self.program, self.folder = program, folder

    def run(self, name, path, *words):
        """Runs a command over a file, which is looked at once, opened once, and whose length is sought once.
        After the opening no memory is requested from the system."""
        run = Run(self.program, list(words), path)
        got = (run.status, run.looks, run.opens, run.seeks, run.late)
        wrong = "" if got == (0, 1, 1, 1, 0) else "wanted (0, 1, 1, 1, 0), got " + str(got)
        check(f"{name}: status, looks at the path, opens, seeks, memory after the opening", wrong)
        return run

    def reads(self, name, path, asked, *words):
        """The reads of a run, each with its offset and its size, without a read budget and with one."""
        wanted = by_pages(asked, os.path.getsize(path))
        run = self.run(f"{name}, with a budget", path, words[0], *BUDGET, *words[1:])
        check(f"{name}, with a budget: {len(asked)} reads", first_difference(asked, run.reads))
        run = self.run(name, path, *words)
        check(f"{name}: {len(wanted)} reads", first_difference(wanted, run.reads))
        return run

    def page_faults(self, *words):
        """How many pages of memory a run used for the first time."""
        process = subprocess.Popen([self.program, *words], stdin=subprocess.DEVNULL, stdout=subprocess.DEVNULL)
        return os.wait4(process.pid, 0)[2].ru_minflt

    def headers(self):
        path = made(self.folder, "headers", [section(1, 0, 0)] * 4095, {})
        run = self.reads("4,096 section headers", path, head_of(4095), "show", "--only", "sections", path)
        large = [size for size in run.maps if size >= 64 * 4096]
        check("one piece of memory for the header store, and one for the pages of a file", "" if len(large) == 2 else str(large))
        run = self.run("as many headers as there can be", path, "show", "--headers", "65279", "--only", "header", path)
        large = [size for size in run.maps if 64 * 65279 <= size < 64 * 65279 + 2 * PAGE]
        check("one piece of memory for 65,279 headers", "" if len(large) == 1 else str(run.maps))
        few, many = (self.page_faults("show", "--headers", number, "--only", "header", path) for number in ("1", "65279"))
        check("memory for headers that are not loaded is not written to", "" if many - few < 300 else f"{many - few} pages")
        path = os.path.join(self.folder, "segments")
        with open(path, "wb") as file:
            file.write(file_header(2, segments=4096) + struct.pack("<2I6Q", 1, 4, 0, 0, 0, 0, 0, 0) * 4096)
        self.reads("4,096 program headers", path, [(0, 64), *pages(64, 56 * 4096)], "show", "--only", "segments", path)
        self.reads("a file header", path, [(0, 64)], "show", "--only", "header", path)

    def folders(self):
        """A directory is opened once for each 20,480 names, or 576 KiB of them, and no memory is requested from the system then."""
        for name, count, wanted in (("%05d", 20_480, 1), ("%05d", 20_481, 2), ("n" * 250 + "%05d", 2_314, 1), ("n" * 250 + "%05d", 2_315, 2)):
            folder = os.path.join(self.folder, f"{count} names")
            os.mkdir(folder)
            for number in range(count):
                os.close(os.open(os.path.join(folder, name % number), os.O_CREAT | os.O_WRONLY, 0o644))
            run = Run(self.program, ["check", folder], folder + "/")
            check(f"{count} names in a directory: status, opens of it, lines, memory after the opening",
                  first_difference((0, wanted, count, 0), (run.status, run.opens, run.text.count(b"\n"), run.late)))

    def unopened(self):
        """The sample and the version open no file but those that the loader opens, and wrong words do not so much as look at one."""
        for name, words in (("the sample", ["sample"]), ("the version", ["version"])):
            opened = [path for path in Run(self.program, words).opened if "/ld.so." not in path and ".so" not in path]
            check(f"{name} opens no file", str(opened) if opened else "")
        path = os.path.join(self.folder, "headers")
        for words in (["show", "--names", "0", path], ["find", path, ""], ["apply", path, "1", "x"]):
            run = Run(self.program, words, path)
            got = (run.status, run.looks, run.opens)
            check(f"wrong words, {words[0]}: status, looks at the path, opens", "" if got == (2, 0, 0) else str(got))

    def tables(self):
        """Tables without names, past 4 GB: rows are read as many as 4,096 bytes hold, in one call each."""
        path = made(self.folder, "relocs", [section(4, FAR, 240000, entry=24)], {})
        wanted = head_of(1) + pages(FAR, 240000, 170 * 24)
        self.reads("10,000 relocation entries", path, wanted, "show", "--only", "relocs", path)
        path = made(self.folder, "dynamic", [section(6, FAR, 160000, link=2, entry=16), section(3, FARTHER, 1)],
                    {FAR: struct.pack("<2Q", 24, 0) * 10000})
        self.reads("10,000 dynamic entries", path, head_of(2) + pages(FAR, 160000), "show", "--only", "dynamic", path)

    def notes(self):
        """Notes whose heads, names and shown bytes of a descriptor are 4,096 bytes, with 1,048,576 bytes more."""
        step, parts = PAGE + (1 << 20), {}
        note = struct.pack("<3I", 4052, 32 + (1 << 20), 1) + b"n" * 4051 + b"\0" + b"\xff" * 32
        for number in range(10):
            parts[FAR + number * step] = note
        path = made(self.folder, "notes", [section(7, FAR, 10 * step)], parts)
        wanted = head_of(1) + [(at, PAGE) for at in parts]
        run = self.reads("notes with long descriptors", path, wanted, "show", "--only", "notes", path)
        check("10 notes are listed", "" if run.text.count(b"\n") == 10 else repr(run.text[:200]))

    def names(self):
        """6,000 symbols whose names follow one another, past 4 GB."""
        names = [b"symbol_%036d" % number for number in range(6000)]
        strings = b"\0" + b"".join(name + b"\0" for name in names)
        symbols = b"".join(symbol(1 + 44 * number) for number in range(6000))
        path = made(self.folder, "symbols",
                    [section(2, FAR, len(symbols), link=2, entry=24), section(3, FARTHER, len(strings))],
                    {FAR: symbols, FARTHER: strings})
        run = self.run("6,000 symbols with names", path, "show", *BUDGET, "--only", "symbols", path)
        rows, found = within(run.reads, FAR, len(symbols)), within(run.reads, FARTHER, len(strings))
        check("6,000 symbols: reads of rows", first_difference(pages(FAR, len(symbols), 170 * 24), rows))
        # A name reads 64 bytes first, then twice as much as before, up to a page.
        wanted, at, size = [], FARTHER + 1, 64
        while at < FARTHER + len(strings):
            wanted.append((at, min(size, FARTHER + len(strings) - at)))
            at, size = at + size, min(2 * size, PAGE)
        check(f"6,000 names: {len(wanted)} reads", first_difference(wanted, found))
        run, length = self.run("6,000 symbols by pages", path, "show", "--only", "symbols", path), os.path.getsize(path)
        check("6,000 symbols by pages: reads of rows", first_difference(by_pages(rows, length), within(run.reads, FAR, len(symbols))))
        check("6,000 symbols by pages: reads of names", first_difference(by_pages(found, length), within(run.reads, FARTHER, len(strings))))
        lines = [len(line) + 1 for line in run.text.split(b"\n")[:-1]]
        check("6,000 symbols: writes", first_difference(filled(lines), run.writes))
        run = self.run("6,000 symbols in a table", path, "show", "--table", "--only", "symbols", path)
        columns, *rows = run.text.split(b"\n")[:-1]
        rows = [len(row) + 1 for row in rows]
        check("6,000 symbols in a table: writes", first_difference(filled_rows(rows, [len(columns), 1]), run.writes))

    def scattered_names(self):
        """18,000 symbols, whose names are in 9,000 pages, each in the page after that of the one before it."""
        strings = b"".join((b"\0name_%04d" % number).ljust(PAGE, b"\0") for number in range(9000))
        symbols = b"".join(symbol(1 + PAGE * (number % 9000)) for number in range(18000))
        path = made(self.folder, "scattered",
                    [section(2, FAR, len(symbols), link=2, entry=24), section(3, FARTHER, len(strings))],
                    {FAR: symbols, FARTHER: strings})
        asked = self.run("names in 9,000 pages", path, "show", *BUDGET, "--only", "symbols", path).reads
        wanted = by_pages(asked, os.path.getsize(path))
        run = self.run("names in 9,000 pages by pages", path, "show", "--only", "symbols", path)
        check(f"names in 9,000 pages: {len(wanted)} reads", first_difference(wanted, run.reads))
        again = len(wanted) - len(set(wanted))
        check(f"names in 9,000 pages: {again} pages are read once more", "" if 8000 < again < 10000 else str(again))

    def few_addresses(self):
        """Twice as many symbols as pages with their names, of which all are kept, or not all, if there are few addresses."""
        for count in (1000, 1500):
            strings = b"".join((b"\0name_%04d" % number).ljust(PAGE, b"\0") for number in range(count))
            symbols = b"".join(symbol(1 + PAGE * (number % count)) for number in range(2 * count))
            path = made(self.folder, f"scattered_{count}",
                        [section(2, FAR, len(symbols), link=2, entry=24), section(3, FARTHER, len(strings))],
                        {FAR: symbols, FARTHER: strings})
            asked = self.run(f"names in {count} pages", path, "show", *BUDGET, "--only", "symbols", path).reads
            wanted = by_pages(asked, os.path.getsize(path), FEWER)
            run = Run(self.program, ["show", "--only", "symbols", path], path, addresses=ADDRESSES)
            check(f"names in {count} pages, with few addresses: {len(wanted)} reads",
                  first_difference(wanted, run.reads) or (run.status and f"status {run.status}"))
            is_other = (len(by_pages(asked, os.path.getsize(path))) < len(wanted)) == (count > FEWER)
            check(f"names in {count} pages: as many reads with all pages, or fewer", "" if is_other else "no difference")

    def hardened_names(self):
        """The names of 1,002 symbols of a library, each in a page of its own: once names have shown all traits that names show,
        `traits` reads no more of them."""
        names = [b"__stack_chk_fail", b"__memcpy_chk", *(b"name_%04d" % number for number in range(1000))]
        strings = b"".join(name.ljust(PAGE, b"\0") for name in (b"\0" + names[0], *names[1:]))
        offsets = [1, *(PAGE * number for number in range(1, len(names)))]
        tags = FAR - PAGE
        dynamic = struct.pack("<12Q", 4, FAR + PAGE * 16, 6, FAR, 5, FARTHER, 10, len(strings), 11, 24, 0, 0)
        segments = struct.pack("<2I6Q", 1, 4, 0, 0, 0, FARTHER + len(strings), FARTHER + len(strings), PAGE)
        segments += struct.pack("<2I6Q", 2, 4, tags, tags, tags, len(dynamic), len(dynamic), 8)
        path = os.path.join(self.folder, "hardened")
        for order, least, most in ((range(len(names)), 2, 2), (range(len(names) - 1, -1, -1), 1000, 1002)):
            symbols = bytes(24) + b"".join(struct.pack("<IBBHQQ", offsets[place], 0x12, 0, 0, 0, 0) for place in order)
            table = struct.pack("<2I", 1, 1 + len(names))
            with open(path, "wb") as file:
                for at, data in ((0, file_header(3, segments=2) + segments), (tags, dynamic), (FAR, symbols), (FAR + PAGE * 16, table),
                                 (FARTHER, strings)):
                    file.seek(at)
                    file.write(data)
            run = Run(self.program, ["traits", *BUDGET, path], path)
            found = within(run.reads, FARTHER, len(strings))
            wrong = "" if run.status == 0 and b"canary" in run.text and least <= len(found) <= most else f"{run.status} {len(found)} {run.text}"
            check(f"traits by {len(names)} names, the {'last' if order[0] else 'first'} two show both: reads of names", wrong)

    def long_names(self):
        """100 symbols with names of 4,096 bytes."""
        strings = b"\0" + (b"n" * 4096 + b"\0") * 100
        symbols = b"".join(symbol(1 + 4097 * number) for number in range(100))
        path = made(self.folder, "long_names",
                    [section(2, FAR, len(symbols), link=2, entry=24), section(3, FARTHER, len(strings))],
                    {FAR: symbols, FARTHER: strings})
        run = self.run("names of 4,096 bytes", path, "show", *BUDGET, "--names", "4096", "--only", "symbols", path)
        found = within(run.reads, FARTHER, len(strings))
        ends = [FARTHER + 1, *(at + size for at, size in found)]
        wrong = first_difference(ends, [*(at for at, _ in found), FARTHER + len(strings)])
        check("names of 4,096 bytes: each read begins where the last ended", wrong)
        check("names of 4,096 bytes: no more than two reads a name", "" if len(found) <= 200 else str(len(found)))
        run, wanted = self.run("names of 4,096 bytes by pages", path, "show", "--names", "4096", "--only", "symbols", path), by_pages(found, os.path.getsize(path))
        check("names of 4,096 bytes by pages: reads", first_difference(wanted, within(run.reads, FARTHER, len(strings))))
        # A line has 256 bytes, which the unescaped bytes at the beginning of a name fill. Where it has no room for five
        # bytes more, as a byte of a name may take, it is written, and begun anew.
        lines = [len(line) + 1 for line in run.text.split(b"\n")[:-1]]
        pieces = [size for line in lines for size in (min(line, 256), *(size for _, size in pages(0, line - 256, 252)))]
        check("names of 4,096 bytes: writes", first_difference(filled(pieces), run.writes))

    def sections(self):
        """A section with three entries, in order and not: in one pass by pages, otherwise by windows of 64 bytes."""
        name, halves = "a section in one pass", [half(1000, 1), half(500000, 2), half(999998, 3)]
        path = self.object_of("in_order", 1000000, halves)
        bytes_read = [read for one, other in ((0, 1000), (1000, 500000), (500000, 999998), (999998, 1000000))
                      for read in pages(FARTHER + one, other - one)]
        run = self.reads(name, path, head_of(2) + [(FAR, 72)] * 2 + bytes_read, "apply", path, "1")
        check(f"{name}: writes", first_difference(filled([size for _, size in bytes_read]), run.writes))
        name, halves = "a section by windows", [half(1000, 1), half(127998, 3), half(50000, 2)]
        path = self.object_of("turned", 128000, halves)
        windows = [read for window in pages(FARTHER, 128000, 64) for read in ((FAR, 72), window)]
        asked = head_of(2) + [(FAR, 72)] + windows
        run = self.run(f"{name}, with a budget", path, "apply", *BUDGET, path, "1")
        check(f"{name}, with a budget: reads", first_difference(sorted(asked), sorted(run.reads)))
        run = self.run(name, path, "apply", path, "1")
        check(f"{name}: reads", first_difference(by_pages(asked, os.path.getsize(path)), run.reads))
        check(f"{name}: writes", first_difference(filled([64] * 2000), run.writes))

    def object_of(self, name, size, halves):
        """An object whose section 1 has a given number of zero bytes, and section 2 entries for it."""
        return made(self.folder, name, [section(1, FARTHER, size), section(4, FAR, 24 * len(halves), info=1, entry=24)],
                    {FAR: b"".join(halves), FARTHER + size - 1: bytes(1)})

    def checks(self):
        """A check of a file looks at it, opens it, seeks its length, reads what its listing reads, and closes it."""
        def checked(name, path, wanted, *words):
            run = self.run(f"check of {name}, with a budget", path, "check", *BUDGET, *words, path)
            check(f"check of {name}, with a budget: {len(wanted)} reads", first_difference(wanted, run.reads))
            run = self.run(f"check of {name}", path, "check", *words, path)
            check(f"check of {name}: reads", first_difference(by_pages(wanted, os.path.getsize(path)), run.reads))
            check(f"check of {name}: closed once", "" if run.closes == 1 else str(run.closes))
        relocs = os.path.join(self.folder, "relocs")
        checked("10,000 relocation entries", relocs, head_of(1) + pages(FAR, 240000, 170 * 24))
        checked("a file header", relocs, [(0, 64)], "--only", "header")
        path = os.path.join(self.folder, "front")
        for content, wanted in ((b"t" * 9999, [(0, 64)]), (b"t" * 63, [(0, 4)]), (b"\x7fELF", [(0, 4)]), (b"tex", []), (b"", [])):
            with open(path, "wb") as file:
                file.write(content)
            # It begins with the magic number, so it is refused.
            if content[:1] == b"\x7f":
                run = Run(self.program, ["check", path], path)
                got = (run.status, run.looks, run.opens, run.seeks, run.late, run.reads, run.closes)
                check("check of a magic number alone", first_difference((1, 1, 1, 1, 0, wanted, 1), got))
            else:
                checked(f"{len(content)} bytes of text", path, wanted)
        self.checks_of_many(path)

    def checks_of_many(self, path):
        """One file after another is open; a list is read as it comes, and stays open meanwhile."""
        run = self.run("a file among others", path, "check", "/dev/null", path, "/dev/null")
        check("one file is open at a time", "" if run.most == 1 else str(run.most))
        listed = os.path.join(self.folder, "list")
        with open(listed, "wb") as file:
            file.write((path.encode() + b"\0") * 3)
        run = Run(self.program, ["check", "--files0-from", listed], path)
        got = (run.status, run.looks, run.opens, run.seeks, run.late, run.closes, run.most)
        check("a list of a file three times: looks, opens, seeks, memory, closes, files at one time",
              first_difference((0, 3, 3, 3, 0, 3, 2), got))
        run = Run(self.program, ["check", "--files0-from", listed], listed)
        check("a list: opens, its reads, closes", first_difference((1, 2, 1), (run.opens, len(run.reads), run.closes)))

    def pieces(self):
        """The output for many files goes to a pipe in whole lines of at most 4,096 bytes, to a file in those of 65,536."""
        listed, names = os.path.join(self.folder, "listed"), [b"/dev/null/" + b"n" * (number * 37 % 200) for number in range(1500)]
        with open(listed, "wb") as file:
            file.write(b"\0".join(names))
        for words in (["check"], ["list", "--json"], ["traits"]):
            for piped, room in ((True, PAGE), (False, BUFFER)):
                run = Run(self.program, [*words, "--files0-from", listed], piped=piped)
                wanted, held = [], 0
                for line in run.text.splitlines(True):
                    if held + len(line) > room:
                        wanted.append(held)
                        held = 0
                    held += len(line)
                check(f"{' '.join(words)} of 1,500 paths to a {'pipe' if piped else 'file'}: status, lines, writes",
                      first_difference([3, 1500, *wanted, held], [run.status, run.text.count(b"\n"), *run.writes]))
        # A line that has no room goes in several.
        long = b"/" + b"\x01" * 4000
        with open(listed, "wb") as file:
            file.write(b"/dev/null/a\0" + long + b"\0/dev/null/b")
        run = Run(self.program, ["check", "--files0-from", listed], piped=True)
        lines = [len(line) for line in run.text.splitlines(True)]
        last = lines[1] % PAGE
        check("a line of more than 4,096 bytes to a pipe: writes",
              first_difference([lines[0], *[PAGE] * (lines[1] // PAGE), last + lines[2]], run.writes))

    def archives(self):
        """Of an archive the magic string, each member's header and a name outside it, and the first bytes of data are read, and
        of an ELF file what its listing reads, from its offset."""
        path = os.path.join(self.folder, "archive")
        parts = [MAGIC, member(b"//", b"a_name_of_more_than_16_bytes/\n"), member(b"text/", b"text"), member(b"/0", small_elf()),
                 bsd_member(b"other", b"txt", 3), member(b"last/", b"")]
        with open(path, "wb") as file:
            file.write(b"".join(parts))
        at = [sum(map(len, parts[:count])) for count in range(len(parts))]
        elf, names = at[3] + 60, at[1] + 60
        heads = [(0, 8), (at[1], 60), (names, 4), (at[2], 60), (at[2] + 60, 4), (at[3], 60), (names, 30), (elf, 4)]
        rest = [(at[4], 60), (at[4] + 60, 8), (at[5], 60)]
        for words, listed in ((["--only", "sections"], [(elf, 64), (elf + 64, 128)]), (["--only", "header"], [(elf, 64)])):
            self.reads(f"an archive, {words[1]}", path, heads + listed + rest, "archive", *words, path)
        first = [(0, 8), (at[1], 60), (at[2], 60), (at[3], 60), (names, 30), *rest]
        self.reads("an archive, its members alone", path, first, "archive", "--only", "members", path)
        with open(path, "wb") as file:
            file.write(MAGIC + member(b"a/", b"x") * 2000)
        run = self.reads("2,000 members", path, [(0, 8), *((8 + 62 * number, 60) for number in range(2000))],
                         "archive", "--only", "members", path)
        check("2,000 members: writes", first_difference(filled([44] * 2000), run.writes))
        check("2,000 members: closed once", "" if run.closes == 1 else str(run.closes))

    def needs(self):
        """For what a program needs nothing is run, and no more is read from all files together than the budget. What the system's
        loader asks for when elfsee itself is started does not count."""
        path, before = "/bin/sh", Run(self.program, ["version"]).asked
        for words in (["needs"], ["needs", "--symbols"]):
            name = " ".join(words)
            run = Run(self.program, [*words, path])
            wrong = "" if (run.status, run.started) == (0, 0) and run.asked > before + 1000 else f"{run.status} {run.started} {run.asked}"
            check(f"{name}: no program is started", wrong)
            for budget in (0, 64, 100, *range(700, 7000, 350), 20000, 100000):
                run = Run(self.program, [*words, "--max-read", str(budget), path])
                over = run.asked - before - budget
                check(f"{name}: {budget} bytes of all files", "" if over <= 0 and run.started == 0 else f"{over} more, {run.started} started")

    def failing_output(self):
        """If the output fails it is not written to again."""
        headers, symbols, section, archive = (os.path.join(self.folder, name) for name in ("headers", "symbols", "in_order", "archive"))
        for words in (["show", "--only", "header", headers], ["show", "--only", "symbols", symbols], ["find", symbols, "n"],
                      ["apply", section, "1"], ["check", headers, symbols], ["archive", "--only", "members", archive],
                      ["sample"], ["version"]):
            run = Run(self.program, words, full=True)
            check(f"a full disk, {' '.join(words[:-1]) or words[0]}: status, writes",
                  first_difference((3, [-errno.ENOSPC]), (run.status, run.writes)))

    def lookups(self):
        """A name after 99 others in a chain: a word, a symbol and a name for each step."""
        strings = b"\0" + b"".join(b"n%04d\0" % number for number in range(101))
        symbols = b"".join(symbol(1 + 6 * number) for number in range(101))
        words = FAR + PAGE
        table = struct.pack("<104I", 1, 101, 1, 0, *range(2, 101), 0)
        path = made(self.folder, "chain",
                    [section(5, words, len(table), link=2, entry=4), section(2, FAR, len(symbols), link=3, entry=24),
                     section(3, FARTHER, len(strings))], {FAR: symbols, words: table, FARTHER: strings})
        wanted = head_of(3) + [(words, 4), (words + 4, 4), (words + 8, 4)]
        for index in range(1, 101):
            wanted += [(FAR + 24 * index, 24), (FARTHER + 1 + 6 * index, 6), (words + 12 + 4 * index, 4)]
        self.reads("a lookup of 100 steps", path, wanted[:-1], "find", path, "n0100")


def filled(puts, room=BUFFER):
    """The writes of a buffer that is written if the next text does not fit."""
    writes, held = [], 0
    for size in puts:
        if held + size > room:
            writes.append(held)
            held = 0
        held += size
    return writes + [held]


def filled_rows(puts, first):
    """The writes of a table: of each full buffer, in which a row has two bytes more, by pages."""
    writes, texts, held = [], first, 0
    for size in puts + [BUFFER]:
        if held + size + 2 > BUFFER:
            writes, texts, held = writes + filled(texts, PAGE), [], 0
        texts, held = texts + [size], held + size + 2
    return writes


def main():
    program = program_of(option_reader(__doc__).parse_args())
    skipped = False
    with tempfile.TemporaryDirectory() as folder:
        cases = Cases(program, folder)
        try:
            if platform.machine() != "x86_64":
                raise Untraced
            for case in (cases.headers, cases.unopened, cases.tables, cases.notes, cases.names,
                         cases.scattered_names, cases.hardened_names, cases.few_addresses, cases.long_names, cases.sections, cases.lookups, cases.folders, cases.checks, cases.pieces, cases.archives, cases.needs, cases.failing_output):
                case()
        except Untraced:
            print("skipped the counts of calls: this system lets no process trace another")
            skipped = True
    sys.exit(counts.end(skipped))


if __name__ == "__main__":
    main()
