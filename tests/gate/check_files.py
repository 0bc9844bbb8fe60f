#!/usr/bin/env python3
"""Checks many files in one run, and compares each line with what `show` prints for that file alone.

    tests/gate/check_files.py [--program PROGRAM] [--all] [--only PART] [--cases | --quick] [FOLDER OR FILE..]

Without arguments the files below /usr and /etc are checked, by `elfsee check` of the directories themselves and
once more by a list on standard input. Each file must have one line, in the order of its name; a line says
`ok` if `show` of that file ends with status 0, `no-elf` if the file does not begin with the magic
number, and otherwise what the last line of `show` says; and `list` of a file must print what `show` prints, or
`archive`. By default these run only for every ELF file, every name that ends in `.a`, and one other file in fifty;
with --all they run for each.

Then files that vanish, change and cannot be read, directories that may not be read, a loop of symbolic links,
directories that are nested too deeply, long and odd names, a directory of 200,000 names, a nest of large ones, and a
million paths on standard input: each has its line, and the rest continues. The example that draws such lines is run
too. --cases runs only these, and --quick those of them that take no time, as ./check does. It needs Python 3. The last
line is `N passed, N failed`."""

import ctypes
import errno
import fcntl
import os
import pty
import re
import select
import shutil
import socket
import stat
import struct
import subprocess
import sys
import tempfile
import time
import xml.etree.ElementTree

sys.dont_write_bytecode = True
sys.path.insert(0, os.path.join(os.path.dirname(os.path.realpath(__file__)), "..", "common"))
from machine_files import in_order
from made_archives import spelt
from testing import TOP, Counts, option_reader, program_of

LINE = re.compile(rb"C (ok|no-elf|unread|memory) +- (.*)|C (refused) +([0-9a-f]{16} [a-z-]+) (.*)", re.S)
MAGIC = b"\x7fELF"
ARCHIVE = b"!<arch>\n"
DEPTH = 64


def run(program, *words, given=b"", command="check", **more):
    """Standard output, the exit status and standard error of a command."""
    done = subprocess.run([program, command, *words], input=given, stdout=subprocess.PIPE,
                          stderr=subprocess.PIPE, timeout=1200, **more)
    return done.stdout, done.returncode, done.stderr


def rows(out):
    """Of each line its state, its place with the cause, and its path as it is escaped."""
    for line in out.split(b"\n")[:-1]:
        found = LINE.fullmatch(line)
        yield (found[1] or found[3], found[4], found[2] if found[1] else found[5]) if found else (b"?", None, line)


def shown(program, only, path):
    """The row that `show` of one file gives."""
    with open(path, "rb") as file:
        front = file.read(4)
    if front != MAGIC:
        return b"no-elf", None
    done = subprocess.run([program, "show", *only, "--", path], stdin=subprocess.DEVNULL, stdout=subprocess.PIPE,
                          stderr=subprocess.PIPE, timeout=300)
    if done.returncode == 0:
        return b"ok", None
    if done.returncode == 1:
        return b"refused", done.stdout.rstrip(b"\n").split(b"\n")[-1][2:]
    return b"unread", None


def check_listing(counts, program, only, path):
    """After the line of its path `list` of a file is what `show` of it writes, of an archive what `archive` does."""
    with open(path, "rb") as file:
        front = file.read(8)
    command = "archive" if front == ARCHIVE else "show" if front[:4] == MAGIC else None
    only = only or ["--only", "dynamic"]
    listed, status, _ = run(program, "--members", *only, "--", path, command="list")
    text, alone, _ = run(program, *only, "--", path, command=command) if command else (b"", 0, b"")
    counts.check(f"the listing of {path!r}", True, (listed, status) == ((b"@ " + spelt(path) + b"\n" if command else b"") + text, alone))


def check_machine(counts, program, arguments):
    places = [place.encode() for place in arguments.places or ["/usr", "/etc"]]
    only = ["--only", arguments.only] if arguments.only else []
    out, status, errors = run(program, *only, "--", *places)
    counts.check("standard error", b"", errors)
    lines = list(rows(out))
    unnamed = lines.pop() if lines and lines[-1][2].startswith(b"C unnamed") else None
    paths = [path for place in places for path in (in_order(place) if os.path.isdir(place) else [place])]
    counts.check("the paths in their order", [spelt(path) for path in paths], [line[2] for line in lines])
    states = {line[0] for line in lines}
    wanted = 3 if states & {b"unread", b"memory"} or unnamed else 1 if b"refused" in states else 0
    counts.check("the status of the whole", wanted, status)
    for number, (path, line) in enumerate(zip(paths, lines)):
        if arguments.all or line[0] in (b"ok", b"refused") or number % 50 == 0 or path.endswith(b".a"):
            try:
                counts.check(f"the line of {path!r}", shown(program, only, path), line[:2])
                check_listing(counts, program, only, path)
            except PermissionError:
                counts.check(f"the line of {path!r}", (b"unread", None), line[:2])
    given = b"".join(path + b"\0" for path in paths)
    listed, listed_status, _ = run(program, *only, "--files0-from", "-", given=given)
    counts.check("the same by a list", [line for line in out.split(b"\n") if not line.startswith(b"C unnamed")],
                 listed.split(b"\n"))
    counts.check("the same status by a list", wanted if not unnamed else listed_status, listed_status)
    elf = sum(state in (b"ok", b"refused") for state, _, _ in lines)
    print(f"{len(lines)} files, {elf} of them ELF files")


def tree(top, files):
    for name, content in files.items():
        path = os.path.join(top, name)
        os.makedirs(os.path.dirname(path), exist_ok=True)
        with open(path, "wb") as file:
            file.write(content)


def header(length=64):
    """The prefix of a file header of a relocatable file with nothing else."""
    return (MAGIC + b"\2\1\1" + bytes(9) + b"\1\0\x3e\0\1\0\0\0" + bytes(40))[:length]


def texts(out):
    return [b" ".join(part for part in (state, place, path) if part is not None) for state, place, path in rows(out)]


def check_order(counts, program, top):
    names = [b"a", b"a-", b"a.", b"aa", b"B", b"b/x", b"b/y/z", b"b0", b"\xc3\xa9", b"back\\slash", b"esc\x1b[2J",
             b"new\nline", b"\x7f", b" "]
    tree(top, {name: header() for name in names})
    out, status, _ = run(program, b".", cwd=top)
    wanted = [b"ok ./" + spelt(os.path.relpath(path, top)) for path in in_order(top)]
    counts.check("names in their order", wanted, texts(out))
    counts.check("names in their order, status", 0, status)
    out, _, _ = run(program, b"b", b"b/", b"a", cwd=top)
    counts.check("directories and files as given", [b"ok b/x", b"ok b/y/z", b"ok b/x", b"ok b/y/z", b"ok a"], texts(out))


def check_every_byte(counts, program, top):
    """Paths with each byte that UTF-8 has, given in a directory, as words and by a list."""
    code_points = [*range(1, 0x80), *range(0x80, 0xc0), *range(0xc0, 0x800, 0x40), 0x800, *range(0x1000, 0x10000, 0x1000),
                   0x10000, *range(0x40000, 0x110000, 0x40000)]
    names = sorted(chr(code).encode() for code in code_points if code not in (0x2e, 0x2f) and not 0xd800 <= code < 0xe000)
    seen = {byte for name in names for byte in name} | {0x2e, 0x2f}
    counts.check("each byte of UTF-8", {*range(1, 0xf5)} - {0xc0, 0xc1}, seen)
    tree(top, {b"d/" + name: header() for name in names})
    wanted = [b"ok d/" + spelt(name) for name in names]
    counts.check("each byte in a directory's names", wanted, texts(run(program, b"d", cwd=top)[0]))
    paths = [b"d/" + name for name in names]
    counts.check("each byte in words", wanted, texts(run(program, b"--", *paths, cwd=top)[0]))
    out, status, _ = run(program, b"--files0-from", b"-", given=b"\0".join(paths), cwd=top)
    counts.check("each byte in a list", (wanted, 0), (texts(out), status))


def check_many_names(counts, program, top):
    """More names in a directory than are kept at once."""
    tree(top, {b"n%d" % (number * 7919 % 5000): header(number % 65) for number in range(5000)})
    out, status, errors = run(program, top)
    counts.check("5,000 names, standard error", b"", errors)
    counts.check("5,000 names", [spelt(path) for path in in_order(top)], [path for _, _, path in rows(out)])
    counts.check("5,000 names, status", 1, status)


def empty_files(folder, names):
    os.makedirs(folder, exist_ok=True)
    for name in names:
        os.close(os.open(os.path.join(folder, name), os.O_CREAT | os.O_WRONLY, 0o644))


def check_large_folder(counts, program, top):
    """A directory of 200,000 names: each once and in order, in at most three times what a list of them takes."""
    empty_files(os.path.join(top, b"large"), (b"%d.file" % (number * 7919 % 200_000) for number in range(200_000)))
    paths = list(in_order(os.path.join(top, b"large")))
    took = {}
    for what, words, given in (("folder", [os.path.join(top, b"large")], b""),
                               ("list", [b"--files0-from", b"-"], b"".join(path + b"\0" for path in paths))):
        for turn in range(3):
            begun = time.monotonic()
            out, status, _ = run(program, *words, given=given)
            took[what] = min(took.get(what, 1e9), time.monotonic() - begun)
        counts.check(f"200,000 names, by a {what}", [spelt(path) for path in paths], [path for _, _, path in rows(out)])
        counts.check(f"200,000 names, by a {what}, status", 0, status)
    said = ", ".join(f"{what} {seconds:.2f} s" for what, seconds in took.items())
    counts.check(f"the time of 200,000 names: {said}", True, took["folder"] <= 3 * took["list"])


def check_long_names(counts, program, top):
    """More names of 255 bytes than are kept at once, which begin alike."""
    folder = os.path.join(top, b"long")
    empty_files(folder, (b"n" * 250 + b"%05d" % (number * 7919 % 6000) for number in range(6000)))
    out, _, _ = run(program, folder)
    counts.check("6,000 long names", [spelt(path) for path in in_order(folder)], [path for _, _, path in rows(out)])


def check_nest(counts, program, top):
    """A directory of many names in another, eight deep: each name once, in order, and no more memory for it."""
    folder = top
    for level in range(8):
        folder = os.path.join(folder, b"%02d" % level)
        empty_files(folder, (b"%05d of many names" % (number * 7919 % 12_000) for number in range(12_000)))
    worker = subprocess.Popen([program, "check", top], stdout=subprocess.PIPE)
    held = 0
    out = b""
    for part in iter(lambda: worker.stdout.read(65_536), b""):
        out += part
        held = max(held, memory_of(worker) if worker.poll() is None and part else 0)
    counts.check("a nest of many names, status", 0, worker.wait(timeout=60))
    counts.check("a nest of many names", [spelt(path) for path in in_order(top)], [path for _, _, path in rows(out)])
    counts.check(f"memory of a nest of many names, {held} KiB", True, held < 8192)


def check_small_nest(counts, program, top):
    """Three directories in one another, each with so many long names after the next one that they are not all pending at once."""
    folder = top
    for count in (2320, 2320, 1500):
        folder = os.path.join(folder, b"a")
        empty_files(folder, (b"n" * 250 + b"%05d" % number for number in range(count)))
    out, status, _ = run(program, top)
    counts.check("a nest of long names", [spelt(path) for path in in_order(top)], [path for _, _, path in rows(out)])
    counts.check("a nest of long names, status", 0, status)


def check_folder_fault(counts, program, top):
    """A directory that is opened and then cannot be read, as that of the networks of a process that has ended, is reported."""
    worker = subprocess.Popen(["true"])
    os.waitid(os.P_PID, worker.pid, os.WEXITED | os.WNOWAIT)
    folder = b"/proc/%d/net" % worker.pid
    try:
        os.close(os.open(folder, os.O_RDONLY | os.O_DIRECTORY))
    except OSError:
        print("not tried: a directory that can't be read")
        worker.wait()
        return
    try:
        os.listdir(folder)
        print("not tried: a directory that can't be read")
    except OSError:
        out, status, errors = run(program, folder, cwd=top)
        counts.check("a directory that can't be read", (b"C unread       - " + folder + b"\n", 3, b""), (out, status, errors))
    worker.wait()


class Statement(ctypes.Structure):
    """A statement of a filter of system calls (`struct sock_filter` of linux/filter.h)."""
    _fields_ = [("code", ctypes.c_ushort), ("jt", ctypes.c_ubyte), ("jf", ctypes.c_ubyte), ("k", ctypes.c_uint32)]


class Filter(ctypes.Structure):
    """A filter of system calls (`struct sock_fprog`)."""
    _fields_ = [("len", ctypes.c_ushort), ("filter", ctypes.POINTER(Statement))]


# The numbers of calls on x86-64, and those of linux/prctl.h and linux/seccomp.h.
GETDENTS, SECCOMP = 217, 317
NO_NEW_PRIVS, SET_FILTER, NEW_LISTENER, ASK, ALLOW = 38, 1, 8, 0x7FC00000, 0x7FFF0000
RECEIVE, ANSWER, GO_ON = 0xC0502100, 0xC0182101, 1


def ask_before_reading():
    """Makes each later reading of a directory by this process wait for an answer, and returns where it asks, or -1."""
    libc = ctypes.CDLL(None, use_errno=True)
    statements = (Statement * 4)(Statement(0x20, 0, 0, 0), Statement(0x15, 0, 1, GETDENTS), Statement(0x06, 0, 0, ASK),
                                 Statement(0x06, 0, 0, ALLOW))
    libc.prctl(NO_NEW_PRIVS, 1, 0, 0, 0)
    return libc.syscall(SECCOMP, SET_FILTER, NEW_LISTENER, ctypes.byref(Filter(4, statements)))


def run_asking(program, words, faults, top):
    """Standard output and the status of a command of which some readings of directories fail, and how many it made.

    `faults` has the error of each that fails, by its number from 1. Returns None if the system asks nobody."""
    ours, theirs = socket.socketpair()
    with tempfile.TemporaryFile() as out, ours, theirs:
        child = os.fork()
        if child == 0:
            try:
                os.dup2(out.fileno(), 1)
                os.chdir(top)
                asked = ask_before_reading()
                socket.send_fds(theirs, [b"y" if asked >= 0 else b"n"], [asked] if asked >= 0 else [])
                if asked >= 0:
                    os.close(asked)
                    os.execv(program, [program, *words])
            finally:
                os._exit(99)
        _, places, _, _ = socket.recv_fds(ours, 1, 1)
        readings = 0
        if places:
            poll = select.poll()
            poll.register(places[0], select.POLLIN)
            while poll.poll(60_000)[0][1] & select.POLLIN:
                readings += 1
                question = bytearray(80)
                fcntl.ioctl(places[0], RECEIVE, question)
                fault = faults.get(readings, 0)
                answer = struct.pack("<QqiI", struct.unpack_from("<Q", question)[0], 0, -fault, 0 if fault else GO_ON)
                fcntl.ioctl(places[0], ANSWER, bytearray(answer))
            os.close(places[0])
        status = os.waitstatus_to_exitcode(os.waitpid(child, 0)[1])
        out.seek(0)
        return (out.read(), status, readings) if places else None


def check_readings(counts, program, top):
    """A directory that takes several readings: if one fails, whichever it is, the directory is reported and the rest
    goes on; one that is interrupted is made again, and no name is lost."""
    empty_files(os.path.join(top, b"d"), (b"n" * 250 + b"%03d" % number for number in range(400)))
    tree(top, {b"a": header(), b"z": header()})
    words = ["check", "a", "d", "z"]
    whole = run_asking(program, words, {}, top)
    if whole is None:
        print("not tried: readings of a folder that fail")
        return
    out, status, readings = whole
    wanted = [b"ok a"] + [b"no-elf d/" + b"n" * 250 + b"%03d" % number for number in range(400)] + [b"ok z"]
    counts.check("a folder that is read in turns", (wanted, 0), (texts(out), status))
    counts.check(f"several readings, of which the last has no names: {readings}", True, readings >= 4)
    for number in range(1, readings + 1):
        out, status, made = run_asking(program, words, {number: errno.EIO}, top)
        counts.check(f"reading {number} of a folder fails", ([b"ok a", b"unread d", b"ok z"], 3, number), (texts(out), status, made))
        out, status, made = run_asking(program, words, {number: errno.ENOMEM}, top)
        counts.check(f"there is no memory for reading {number} of a folder", ([b"ok a", b"memory d", b"ok z"], 3, number),
                     (texts(out), status, made))
        out, status, made = run_asking(program, words, {number: errno.EINTR}, top)
        counts.check(f"reading {number} of a folder is interrupted", (wanted, 0, readings + 1), (texts(out), status, made))


def on_terminals(program, words, out_too, top):
    """What a run writes to a terminal that is its standard error, and its standard output too or not."""
    ours, theirs = pty.openpty()
    shown = b""
    with tempfile.TemporaryFile() as out:
        worker = subprocess.Popen([program, *words], stdin=subprocess.DEVNULL, stdout=theirs if out_too else out,
                                  stderr=theirs, cwd=top)
        os.close(theirs)
        try:
            for part in iter(lambda: os.read(ours, 65_536), b""):
                shown += part
        except OSError:
            pass  # The other end is closed.
        os.close(ours)
        worker.wait(timeout=60)
        out.seek(0)
        return shown.replace(b"\r\n", b"\n"), out.read()


def check_terminal(counts, program, top):
    """The progress of a run is shown on a terminal that gets no lines, and is erased at the end."""
    empty_files(os.path.join(top, b"t"), (b"%04d" % number for number in range(1500)))
    lines, _, _ = run(program, b"t", cwd=top)
    # Files without a byte have lines in a check alone.
    for words, wanted in ((["check"], lines), (["list"], b""), (["list", "--name", "x"], b""), (["traits"], b"")):
        shown, out = on_terminals(program, [*words, b"t"], False, top)
        counts.check(f"how far it is, on a terminal, {words}", (b"\r512 files\r1024 files\r" + b" " * 26 + b"\r", wanted), (shown, out))
    shown, _ = on_terminals(program, ["check", b"t"], True, top)
    counts.check("lines on a terminal", lines, shown)


def check_passes(counts, program, top):
    """A directory that is read in passes: a name that is no text counts once, and no progress is shown if there is no terminal."""
    tree(top, {b"t/n%03d" % number: header() for number in range(700)} | {b"t/bad\xff": header(), b"t/\xfe": header()})
    out, status, errors = run(program, b"t", cwd=top)
    wanted = [b"ok t/n%03d" % number for number in range(700)] + [b"? C unnamed               2"]
    counts.check("700 names and two that are no text", (wanted, 3, b""), (texts(out), status, errors))
    # Names of 255 bytes, of which a pass keeps 2,314: two passes, and then three.
    for count in (2315, 4700):
        folder = os.path.join(top, b"%d" % count)
        empty_files(folder, [b"n" * 250 + b"%05d" % number for number in range(count)] + [b"bad\xff", b"\xfe"])
        out, status, errors = run(program, folder)
        told = [line.rsplit(b"n", 1)[-1] for line in texts(out)]
        wanted = [b"%05d" % number for number in range(count)] + [b"amed               2"]
        counts.check(f"{count} long names and two that are no text", (wanted, 3, b""), (told, status, errors))


def check_long_paths(counts, program, top):
    """Files whose paths have 4,094 to 4,098 bytes: one of 4,096 or more cannot be opened, and is not left out untold."""
    place = os.open(top, os.O_RDONLY)
    for level in [b"d" * 250] * 16:
        os.mkdir(level, dir_fd=place)
        below = os.open(level, os.O_RDONLY, dir_fd=place)
        os.close(place)
        place = below
    front = b"./" + b"/".join([b"d" * 250] * 16) + b"/"
    for length in range(4094, 4099):
        with os.fdopen(os.open(b"%d" % length + b"f" * (length - len(front) - 4), os.O_CREAT | os.O_WRONLY, dir_fd=place),
                       "wb") as file:
            file.write(header())
    out, status, errors = run(program, b".", cwd=top)
    told = [(line.split(b" ", 1)[0], len(line.split(b" ", 1)[1])) for line in texts(out)]
    counts.check("files with long paths", ([(b"ok", 4094), (b"ok", 4095)], 3, b""), (told[:2], status, errors))
    unnamed = [int(line.split()[2]) for line in out.splitlines() if line.startswith(b"C unnamed ")]
    counts.check("a line or a count for each of the rest", 3, sum(state == b"unread" for state, _ in told) + sum(unnamed))
    for length, state in ((4095, b"ok"), (4096, b"unread"), (4097, b"unread")):
        path = front + b"%d" % length + b"f" * (length - len(front) - 4)
        out, status, _ = run(program, path, cwd=top)
        counts.check(f"a path of {length} bytes that is given", ([state + b" " + path], 0 if state == b"ok" else 3),
                     (texts(out), status))
    out, status, _ = run(program, b"." + b"/" * 4095, cwd=top)
    counts.check("a directory's path of 4,096 bytes", ([b"unread ." + b"/" * 4095], 3), (texts(out), status))
    os.close(place)
    shutil.rmtree(os.path.join(top, b"d" * 250))


def check_kinds(counts, program, top):
    """What is neither a file nor a directory is skipped in a directory; given, a pipe and a socket are not opened."""
    tree(top, {b"t/f": header()})
    os.mkfifo(os.path.join(top, b"t/a pipe"))
    here = os.getcwd()
    os.chdir(os.path.join(top, b"t"))
    with socket.socket(socket.AF_UNIX) as bound:
        bound.bind(b"a socket")
    os.chdir(here)
    if os.geteuid() == 0:
        os.mknod(os.path.join(top, b"t/a device"), stat.S_IFCHR | 0o600, os.makedev(1, 3))
    os.symlink(b"f", os.path.join(top, b"t/a link"))
    os.symlink(b".", os.path.join(top, b"t/another link"))
    out, status, _ = run(program, b"t", cwd=top)
    counts.check("other kinds in a directory", ([b"ok t/f"], 0), (texts(out), status))
    out, status, _ = run(program, b"t/a pipe", b"t/a socket", b"t/f", cwd=top)
    counts.check("other kinds that are given", ([b"unread t/a pipe", b"unread t/a socket", b"ok t/f"], 3), (texts(out), status))
    out, status, _ = run(program, b"/dev/null", b"t/a link", b"t/another link", cwd=top)
    counts.check("a device and links that are given", ([b"no-elf /dev/null", b"ok t/a link", b"ok t/another link/f"], 0),
                 (texts(out), status))
    out, status, _ = run(program, b"t//", b"t/.", b"t/f/", b"missing/", cwd=top)
    counts.check("slashes at the end", ([b"ok t//f", b"ok t/./f", b"unread t/f/", b"unread missing/"], 3), (texts(out), status))


def check_lists(counts, program, top):
    """The last entry of a list, and a list whose fault meets one of the output."""
    tree(top, {b"good": header()})
    for length in (65535, 65536, 65537, 70000):
        out, status, _ = run(program, b"--files0-from", b"-", given=b"good\0" + b"y" * length, cwd=top)
        wanted = [b"ok good", b"unread " + b"y" * length] if length < 65536 else [b"ok good", b"? C unnamed               1"]
        counts.check(f"a last entry of {length} bytes", (wanted, 3), (texts(out), status))
    for last in (b"good", b"good\0"):
        out, status, _ = run(program, b"--files0-from", b"-", given=b"good\0" + last, cwd=top)
        counts.check("a last entry with NUL and without", ([b"ok good"] * 2, 0), (texts(out), status))
    for name, told in ((b"missing", b"elfsee: cannot open\n"), (b".", b"elfsee: read fault\n")):
        out, status, errors = run(program, b"--files0-from", name, b"good", cwd=top)
        counts.check(f"a list {name!r} after a file", ([b"ok good"], 3, told), (texts(out), status, errors))
        with open("/dev/full", "wb") as full:
            done = subprocess.run([program, "check", "--files0-from", name, "good"], stdout=full, stderr=subprocess.PIPE,
                                  cwd=top)
        counts.check(f"a list {name!r} and a full disk", (3, told), (done.returncode, done.stderr))


def check_fronts(counts, program, top):
    tree(top, {b"%02d" % length: header(length) for length in range(65)})
    out, _, _ = run(program, top)
    wanted = [b"no-elf" if length < 4 else b"refused %016x short" % length if length < 64 else b"ok" for length in range(65)]
    counts.check("each front of a header", [state + b" " + os.path.join(top, b"%02d" % length)
                                            for length, state in enumerate(wanted)], texts(out))
    out, _, _ = run(program, b"--max-read", b"3", os.path.join(top, b"63"), os.path.join(top, b"03"))
    counts.check("the same within three bytes", [b"refused 0000000000000000 budget", b"no-elf"],
                 [line.rsplit(b" ", 1)[0] for line in texts(out)])


def archive(*members):
    """An archive of members, each a name and its bytes."""
    text = ARCHIVE
    for name, content in members:
        text += b"%-16s%-12d%-6d%-6d%-8s%-10d`\n" % (name + b"/", 0, 0, 0, b"100644", len(content))
        text += content + b"\n" * (len(content) % 2)
    return text


def first_fault(program, words, path):
    """The row of an archive by the first line of a refusal that `archive` of it writes: that of a member is counted from its data."""
    done = subprocess.run([program, "archive", *words, "--", path], stdout=subprocess.PIPE, check=False)
    lines = done.stdout.split(b"\n")[:-1]
    number = next((number for number, line in enumerate(lines) if line.startswith(b"! ")), None)
    if number is None:
        return b"ok"
    _, place, cause = lines[number].split(b" ")
    last = number == len(lines) - 1 and cause in (b"budget", b"member-cut", b"name-outside", b"name-unended", b"thin")
    start = 0 if last else next(int(line.split()[2], 16) for line in reversed(lines[:number]) if line.startswith(b"A "))
    return b"refused %016x %s" % (start + int(place, 16), cause)


def check_members(counts, program, top):
    """Archives with --members have the first fault in order, counted from their first byte; without they are no ELF files."""
    good, bad = (b"a.o", header()), (b"bad.o", MAGIC + b"\1" + header()[5:])
    made = {b"bad.a": archive(good, bad, good), b"both.a": archive(good, bad) + b"x" * 60, b"cut.a": archive(good) + b"x" * 60,
            b"empty.a": ARCHIVE, b"good.a": archive(good, (b"t.txt", b"text"), good), b"short.a": archive(good, (b"s.o", header(9)), bad),
            b"thin.a": b"!<thin>\n", b"tiny.a": ARCHIVE[:7]}
    tree(top, made)
    names = sorted(made)
    out, status, _ = run(program, *names, cwd=top)
    counts.check("archives without --members", ([b"no-elf " + name for name in names], 0), (texts(out), status))
    out, status, _ = run(program, b"--members", *names, cwd=top)
    wanted = [b"refused 00000000000000c4 class bad.a", b"refused 00000000000000c4 class both.a", b"refused 0000000000000084 member-cut cut.a",
              b"ok empty.a", b"ok good.a", b"refused 00000000000000c9 short short.a",
              b"refused 0000000000000000 thin thin.a", b"no-elf tiny.a"]
    counts.check("archives with --members", (wanted, 1), (texts(out), status))
    # Whatever the budget, which the magic string is read within once.
    for name in names[:7]:
        for words in ((), (b"--only", b"symbols"), *((b"--max-read", b"%d" % most) for most in range(0, 500, 13))):
            out, _, _ = run(program, b"--members", *words, name, cwd=top)
            fault = first_fault(program, words, os.path.join(top, name))
            counts.check(f"{name!r} with --members, {words}", [fault + b" " + name], texts(out))
    tree(top, {b"%02d" % length: header(length) for length in range(65)})
    fronts = [b"%02d" % length for length in range(65)]
    plain, _, _ = run(program, *fronts, cwd=top)
    out, _, _ = run(program, b"--members", *fronts, cwd=top)
    counts.check("fronts of a header with --members", texts(plain), texts(out))


def check_links(counts, program, top):
    tree(top, {b"t/f": header(), b"t/below/g": b"text\n"})
    os.symlink(b"..", os.path.join(top, b"t/below/loop"))
    os.symlink(b"f", os.path.join(top, b"t/link"))
    os.symlink(b"t", os.path.join(top, b"to"))
    os.symlink(b"self", os.path.join(top, b"t/self"))
    os.mkfifo(os.path.join(top, b"t/pipe"))
    out, status, _ = run(program, b"t", cwd=top)
    counts.check("a loop of links", [b"no-elf t/below/g", b"ok t/f"], texts(out))
    counts.check("a loop of links, status", 0, status)
    out, status, _ = run(program, b"to", b"t/link", b"t/pipe", b"t/self", b"missing", cwd=top)
    counts.check("links that are given", [b"no-elf to/below/g", b"ok to/f", b"ok t/link", b"unread t/pipe",
                                          b"unread t/self", b"unread missing"], texts(out))
    counts.check("links that are given, status", 3, status)


def check_depth(counts, program, top):
    path = top
    for level in range(DEPTH + 1):
        path = os.path.join(path, b"d")
        os.mkdir(path)
        tree(path, {b"f": header()})
    out, status, _ = run(program, b".", cwd=top)
    below = [b"./" + b"d/" * level for level in range(DEPTH + 1)]
    wanted = [b"unread " + below[DEPTH][:-1]] + [b"ok " + folder + b"f" for folder in reversed(below[1:DEPTH])]
    counts.check("directories that are too deep", wanted, texts(out))
    counts.check("directories that are too deep, status", 3, status)


def check_unnamed(counts, program, top):
    tree(top, {b"bad\xff": header(), b"good": header(), b"x" * 255: header()})
    out, status, _ = run(program, b".", cwd=top)
    counts.check("a name that is no text", [b"ok ./good", b"ok ./" + b"x" * 255, b"? C unnamed               1"], texts(out))
    counts.check("a name that is no text, status", 3, status)
    given = b"bad\xff\0good\0" + b"y" * 70000 + b"\0" + b"good\0\0" + b"z" * 5000 + b"\0good"
    out, status, _ = run(program, b"--files0-from", b"-", given=given, cwd=top)
    counts.check("entries that can't be named", [b"ok good", b"ok good", b"unread ", b"unread " + b"z" * 5000, b"ok good",
                                                 b"? C unnamed               2"], texts(out))
    counts.check("entries that can't be named, status", 3, status)


def check_unread(counts, program, top):
    """Files and directories that may not be read: as root may read all, the program runs as another user then."""
    tree(top, {b"a": header(), b"f/x": header(), b"z": header(), b"g/b": header(), b"g/c": header()})
    for path, mode in ((b"a", 0), (b"f", 0), (b"g/b", 0), (b"", 0o755)):
        os.chmod(os.path.join(top, path), mode)
    other = {"user": 65534, "group": 65534, "extra_groups": []} if os.geteuid() == 0 else {}
    if other:
        program = shutil.copy(program, os.path.join(top.decode(), "program"))
        os.chmod(program, 0o755)
    out, status, _ = run(program, b"a", b"f", b"f/x", b"g", b"z", cwd=top, **other)
    counts.check("what may not be read", [b"unread a", b"unread f", b"unread f/x", b"unread g/b", b"ok g/c", b"ok z"],
                 texts(out))
    counts.check("what may not be read, status", 3, status)
    out, _, _ = run(program, b"--files0-from", b"-", given=b"a\0f\0z\0", cwd=top, **other)
    counts.check("what may not be read, by a list", [b"unread a", b"unread f", b"ok z"], texts(out))
    out, _, _ = run(program, b"f/", cwd=top, **other)
    counts.check("what may not be read, with a slash", [b"unread f/"], texts(out))
    out, _, _ = run(program, b".", cwd=top, **other)
    counts.check("what may not be read, in a directory", [b"unread ./a", b"unread ./f", b"unread ./g/b", b"ok ./g/c"],
                 texts(out)[:4])
    os.chmod(os.path.join(top, b"f"), 0o700)


def check_changes(counts, program, top):
    """Files that vanish and change while a list is read: each has its line, and the rest continues."""
    tree(top, {b"here": header(), b"grows": header(10)})
    path = [os.path.join(top, name) + b"\0" for name in (b"here", b"gone", b"grows")]
    worker = subprocess.Popen([program, "check", "--files0-from", "-"], stdin=subprocess.PIPE, stdout=subprocess.PIPE)
    worker.stdin.write(path[0] + path[2])
    worker.stdin.flush()
    os.remove(os.path.join(top, b"here"))
    tree(top, {b"grows": header()})
    worker.stdin.write(path[0] * 3 + path[2] + path[1])
    out, _ = worker.communicate(timeout=60)
    lines = texts(out)
    counts.check("files that change, lines", 7, len(lines))
    counts.check("files that change, the last", [b"unread " + path[0][:-1]] * 1 + [b"ok " + path[2][:-1], b"unread " + path[1][:-1]],
                 lines[-3:])
    counts.check("files that change, status", 3, worker.returncode)


def check_scan(counts, program, top):
    """The example that counts and draws the lines: each state, each cause, and those without a name."""
    tree(top, {b"t/%d" % number: header() for number in range(12)})
    tree(top, {b"t/cut": header(60), b"t/other": header(60), b"t/text": b"C refused\n", b"t/bad\xff": header(),
               b"t/refused - ok": MAGIC + b"\1" + header()[5:]})
    lines, _, _ = run(program, b"t", b"missing", cwd=top)
    done = subprocess.run([os.path.join(TOP, "examples", "scan.py"), "drawn.svg"], input=lines + b"no line\n",
                          stdout=subprocess.PIPE, cwd=top, check=False)
    wanted = [b"12 ok", b"1 no-elf", b"2 refused short", b"1 refused class", b"1 unnamed", b"1 unread"]
    counts.check("the example's rows", wanted, [line.strip() for line in done.stdout.splitlines()])
    drawn = xml.etree.ElementTree.parse(os.path.join(top, b"drawn.svg").decode()).getroot()
    texts_drawn = [element.text for element in drawn if element.tag.endswith("text")]
    counts.check("the example's picture", [text for row in wanted for text in reversed(row.decode().split(" ", 1))],
                 texts_drawn)
    done = subprocess.run([os.path.join(TOP, "examples", "scan.py")], stdin=subprocess.DEVNULL, stderr=subprocess.PIPE,
                          check=False)
    counts.check("the example without a picture", True, done.returncode == 1 and b"PICTURE.svg" in done.stderr)


def memory_of(worker):
    """The most memory that a running program has held, in KiB; 0 if it has ended meanwhile."""
    with open(f"/proc/{worker.pid}/status", "rb") as file:
        found = re.search(rb"VmHWM:\s+(\d+) kB", file.read())
    return int(found[1]) if found else 0


def check_million(counts, program, top):
    """A million paths on standard input, in no more memory than a tenth of them."""
    tree(top, {b"f": header()})
    held = []
    for number in (100_000, 1_000_000):
        with tempfile.TemporaryFile() as out:
            worker = subprocess.Popen([program, "check", "--files0-from", "-"], stdin=subprocess.PIPE, stdout=out, cwd=top)
            worker.stdin.write(b"f\0" * number)
            worker.stdin.flush()
            # The list has not ended, so the program waits for more of it.
            held.append(memory_of(worker))
            worker.stdin.close()
            counts.check(f"{number} paths, status", 0, worker.wait(timeout=600))
            out.seek(0)
            line = b"C ok           - f\n"
            counts.check(f"{number} paths", number * line, out.read())
    counts.check(f"memory of a million paths, {held} KiB", True, held[1] < 4096 and held[1] <= held[0] + 512)


def check_words(counts, program, top):
    out, status, errors = run(program, cwd=top)
    counts.check("no path", (b"", 2, b"error: the following required arguments were not provided:\n  <PATH>\n"),
                 (out, status, errors[:errors.find(b"\n\n") + 1]))
    out, status, errors = run(program, b"--files0-from", b"missing", cwd=top)
    counts.check("a list that is missing", (b"", 3, b"elfsee: cannot open\n"), (out, status, errors))
    out, status, errors = run(program, b"--files0-from", b".", cwd=top)
    counts.check("a list that is a directory", (b"", 3, b"elfsee: read fault\n"), (out, status, errors))
    with open("/dev/full", "wb") as full:
        done = subprocess.run([program, "check", "."], stdout=full, stderr=subprocess.PIPE, cwd=top)
    counts.check("a full disk", (3, b"elfsee: write fault\n"), (done.returncode, done.stderr))


# The cases that take long: without them all take some seconds.
LONG = (check_large_folder, check_long_names, check_nest, check_million)


def main():
    parser = option_reader(__doc__)
    parser.add_argument("--all", action="store_true")
    parser.add_argument("--only")
    parser.add_argument("--cases", action="store_true", help="the made cases alone")
    parser.add_argument("--quick", action="store_true", help="the made cases alone, without those that take long")
    parser.add_argument("places", nargs="*")
    arguments = parser.parse_args()
    program = program_of(arguments)
    counts = Counts()
    for case in (check_order, check_every_byte, check_many_names, check_passes, check_large_folder, check_long_names, check_nest, check_small_nest, check_folder_fault,
                 check_readings, check_long_paths, check_kinds, check_lists, check_terminal, check_fronts, check_members, check_links, check_depth, check_unnamed,
                 check_unread, check_changes, check_scan, check_million, check_words):
        if arguments.quick and case in LONG:
            continue
        with tempfile.TemporaryDirectory() as top:
            tree(top.encode(), {b"0": header()}) if case is check_words else None
            case(counts, program, top.encode())
    if not arguments.cases and not arguments.quick:
        check_machine(counts, program, arguments)
    print(f"{counts.passed} passed, {counts.failed} failed")
    return counts.failed != 0


if __name__ == "__main__":
    sys.exit(main())
