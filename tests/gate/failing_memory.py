#!/usr/bin/env python3
"""Makes each allocation of the program fail, in turn, until none fails.

    tests/gate/failing_memory.py [--program PATH]

A small library replaces the C library's allocator. It counts the program's allocations, makes
the one with a given number fail, and writes the count and the bytes that were requested. For each allocation
that fails the program must end with status 3, with `elfsee: out of memory` on standard error and nothing
on standard output, or give the whole answer: memory is requested after the last argument, and for each command whose
name is compared with an unknown one, without which an answer is possible. If none fails it answers as it
does without the library. Then files of very different sizes are listed, looked up in and applied: the allocations
stay the same, in number and in bytes, and each additional header that is allowed costs 64 more bytes. It needs gcc;
if there is none it says so, and tries nothing. The last line is `N passed, N failed`."""

import os
import subprocess
import sys
import tempfile

sys.dont_write_bytecode = True
sys.path.insert(0, os.path.join(os.path.dirname(os.path.realpath(__file__)), "..", "common"))
from made_archives import MAGIC, member
from testing import Counts, option_reader, program_of

OUTPUT_BYTES = 65536
# As many as the addresses for `apply` take at most.
LAYOUT_BYTES = 40000
# What is requested for the arguments, with all commands and options, and what of it is held at one time: less than these
# numbers of bytes. A list that grows is requested anew each time.
WORDS_BYTES, WORDS_HELD = 272000, 156000
# The pages of a file that are kept if there is no read budget, each with its offset, its length and four indexes.
PAGES_BYTES = 8192 * (4096 + 16 + 4 * 2)
OUT_OF_MEMORY = b"elfsee: out of memory\n"
LIBRARY = r"""
#define _GNU_SOURCE
#include <dlfcn.h>
#include <fcntl.h>
#include <malloc.h>
#include <stdio.h>
#include <stdlib.h>
#include <unistd.h>

static long refused = -1, count;
static unsigned long bytes, held, most;

__attribute__((constructor)) static void begin(void) {
    char *number = getenv("REFUSED");
    if (number) refused = atol(number);
}

__attribute__((destructor)) static void end(void) {
    char *name = getenv("COUNTED"), line[64];
    int file = name ? open(name, O_WRONLY | O_CREAT | O_TRUNC, 0600) : -1;
    if (file >= 0) {
        (void)!write(file, line, snprintf(line, sizeof line, "%ld %lu %lu\n", count, bytes, most));
        close(file);
    }
}

static int is_refused(size_t size) {
    bytes += size;
    return count++ == refused;
}

/* The bytes that are held once something was allocated; what it replaces is held until then. */
static void *kept(void *made, unsigned long before) {
    held += malloc_usable_size(made);
    if (held > most) most = held;
    held -= before;
    return made;
}

void *malloc(size_t size) {
    static void *(*next)(size_t);
    if (!next) next = dlsym(RTLD_NEXT, "malloc");
    return is_refused(size) ? NULL : kept(next(size), 0);
}

void free(void *old) {
    static void (*next)(void *);
    if (!next) next = dlsym(RTLD_NEXT, "free");
    held -= malloc_usable_size(old);
    next(old);
}

void *realloc(void *old, size_t size) {
    static void *(*next)(void *, size_t);
    if (!next) next = dlsym(RTLD_NEXT, "realloc");
    if (is_refused(size)) return NULL;
    unsigned long before = malloc_usable_size(old);
    return kept(next(old, size), before);
}
"""
SOURCE = "extern int other(int);\nint table[%d] = {1};\nint call(int x) { return other(x) + table[0]; }\n"

counts = Counts()
check = counts.case


class Trial:
    """The program after the library, in a directory of its own."""

    def __init__(self, program, folder):
        self.program = program
        self.library = os.path.join(folder, "refusing.so")
        self.counts = os.path.join(folder, "counts")
        # The most bytes that the last run held at one time.
        self.most = 0
        source = os.path.join(folder, "refusing.c")
        with open(source, "w", encoding="ascii") as file:
            file.write(LIBRARY)
        subprocess.run(["gcc", "-shared", "-fPIC", "-O1", "-o", self.library, source, "-ldl"], check=True)

    def plain(self, words):
        """What the program answers without the library."""
        done = subprocess.run([self.program, *words], stdin=subprocess.DEVNULL, capture_output=True, check=False)
        return done.returncode, done.stdout, done.stderr

    def run(self, words, refused=None):
        """What it answers with one request refused, or none; and the requests and their bytes."""
        settings = {**os.environ, "LD_PRELOAD": self.library, "COUNTED": self.counts}
        if refused is not None:
            settings["REFUSED"] = str(refused)
        if os.path.exists(self.counts):
            os.unlink(self.counts)
        done = subprocess.run(
            [self.program, *words], stdin=subprocess.DEVNULL, capture_output=True, check=False, env=settings, timeout=60)
        counts = None
        if os.path.exists(self.counts):
            with open(self.counts, encoding="ascii") as file:
                *counts, self.most = map(int, file.read().split())
                counts = tuple(counts)
        return (done.returncode, done.stdout, done.stderr), counts


def refuse_each(trial, name, words, told=()):
    """Makes each allocation fail in turn until the answer is the one without a failure. `told` are other answers that may report
    lack of memory."""
    whole = trial.plain(words)
    answer, counts = trial.run(words)
    if answer != whole or not counts or not counts[0]:
        check(name, f"another answer with the library, or no request counted: {answer!r:.200}, {counts}")
        return
    spared = 0
    for number in range(counts[0]):
        answer, _ = trial.run(words, number)
        spared += answer == whole
        if answer not in ((3, b"", OUT_OF_MEMORY), whole, *told):
            check(name, f"request {number} of {counts[0]} refused: {answer!r:.200}")
            return
    answer, _ = trial.run(words, counts[0])
    wrong = "" if answer == whole else f"none refused: {answer!r:.200}"
    if spared == counts[0]:
        wrong = "lack of memory was never reported"
    check(f"{name}: each of {counts[0]} requests, {spared} of them spared", wrong)


def same_requests(trial, name, small, large):
    """Compares the requests of two runs over files of very different sizes."""
    first, second = trial.run(small)[1], trial.run(large)[1]
    said = "" if first and first == second else f"{first} requests and bytes for the small one, {second} for the large"
    check(f"{name}: {first}", said)


def made_files(folder):
    """A small and a large object, and two libraries with hash tables as the system's loader reads them."""
    many = {"few files": 3, "many files": 30_000}
    for name, count in many.items():
        os.mkdir(os.path.join(folder, name))
        for number in range(count):
            os.close(os.open(os.path.join(folder, name, str(number)), os.O_CREAT | os.O_WRONLY, 0o644))
    paths = {**{name: os.path.join(folder, name) for name in many}, "items": os.path.join(folder, "items"), "bad items": os.path.join(folder, "bad_items")}
    for name, last in (("items", "def:table=0x403000"), ("bad items", "def:other=0x1")):
        with open(paths[name], "w", encoding="ascii") as file:
            file.writelines(f"{item}\n" for item in ("at:1=0x401000", "def:other=0x402000", "plt:other=0x404000", last))
            file.writelines(f"got:n{number}=0x1\n" for number in range(1000))
    for name, count in (("list", 1), ("many", 1000)):
        paths[name] = os.path.join(folder, name)
        with open(paths[name], "wb") as file:
            file.write((os.fsencode(os.path.join(folder, "small.o")) + b"\0") * count)
    for name, count in (("small", 1), ("large", 1_000_000)):
        source = os.path.join(folder, name + ".c")
        with open(source, "w", encoding="ascii") as file:
            file.write(SOURCE % count)
            if name == "large":
                file.writelines(f"int name_{number}(void) {{ return {number}; }}\n" for number in range(5000))
        paths[name] = os.path.join(folder, name + ".o")
        subprocess.run(["gcc", "-c", "-O1", "-fPIC", "-o", paths[name], source], check=True)
        paths[name + " library"] = os.path.join(folder, "lib" + name + ".so")
        subprocess.run(["gcc", "-shared", "-nostdlib", "-Wl,--hash-style=sysv", "-o", paths[name + " library"],
                        paths[name]], check=True)
        paths[name + " archive"] = os.path.join(folder, name + ".a")
        with open(paths[name], "rb") as one, open(paths[name + " archive"], "wb") as file:
            file.write(MAGIC + member(b"text/", b"text") * min(count, 50_000) + member(b"one.o/", one.read()))
    return paths


def try_all(trial, paths):
    """Each command with each request refused, and with files of other sizes."""
    small, large = paths["small"], paths["large"]
    libraries = paths["small library"], paths["large library"]
    items = ["at:1=0x401000", "def:other=0x402000", "def:table=0x403000", "plt:other=0x404000"]
    refuse_each(trial, "a listing", ["show", small])
    refuse_each(trial, "a listing with all options", ["show", "--headers", "64", "--names=1", "--max-read", "9999999",
                                                      "--only", "symbols", small])
    refuse_each(trial, "the sample", ["sample"])
    refuse_each(trial, "a lookup", ["find", libraries[0], "call"])
    refuse_each(trial, "a lookup as a loader does it", ["find", "--gnu", "--by-segments", libraries[0], "call"])
    refuse_each(trial, "the listing of an archive", ["archive", paths["small archive"]])
    refuse_each(trial, "an archive with all options", ["archive", "--headers", "64", "--names=1", "--max-read", "9999999", "--gnu",
                                                       "--by-segments", "--only", "symbols", paths["small archive"]])
    same_requests(trial, "archives", ["archive", paths["small archive"]], ["archive", paths["large archive"]])
    refuse_each(trial, "an applied section", ["apply", small, "1", *items])
    # If there is no memory for it nothing is reported, and the refusal stays.
    status, out, _ = trial.plain(["apply", small, "1"])
    refuse_each(trial, "what would help", ["apply", "--explain", small, "1"], [(status, out, b"")])
    refuse_each(trial, "an applied section with the items of a file", ["apply", "--layout", paths["items"], small, "1"])
    refuse_each(trial, "a line that is reported", ["apply", "--layout", paths["bad items"], small, "1"])
    same_requests(trial, "sections applied with the items of a file", ["apply", "--layout", paths["items"], small, "1"],
                  ["apply", "--layout", paths["items"], large, "3"])
    refuse_each(trial, "the bytes of a section", ["bytes", small, "1"])
    same_requests(trial, "the bytes of sections", ["bytes", small, "1"], ["bytes", large, "1"])
    refuse_each(trial, "rows of some names", ["show", "--name", "call", "--name-list", paths["items"], small])
    refuse_each(trial, "rows of some names of an archive", ["archive", "--name-list", paths["items"], paths["small archive"]])
    same_requests(trial, "rows of some names", ["show", "--name-list", paths["items"], small],
                  ["show", "--name-list", paths["items"], large])
    refuse_each(trial, "a check of a directory", ["check", paths["few files"]])
    same_requests(trial, "checks of directories", ["check", paths["few files"]], ["check", paths["many files"]])
    walk = trial.run(["check", paths["few files"]])[1][1] - trial.run(["show", small])[1][1]
    check("the walk over a directory, with the room of a list: less than 4,300,000 bytes",
          "" if 2_000_000 < walk < 4_300_000 else f"{walk} bytes")
    refuse_each(trial, "a file that is refused", ["show", os.path.join(os.path.dirname(small), "small.c")])
    refuse_each(trial, "an item that is none", ["apply", small, "1", "at:0=0x1"])
    for name, *words in (("an unknown command", "list"), ("no file", "show"), ("no name", "find", small),
                         ("a number out of its range", "show", "--names", "0", small)):
        refuse_each(trial, name, words)
    refuse_each(trial, "the version", ["version"])
    refuse_each(trial, "help", ["--help"])
    refuse_each(trial, "no words", [])
    folder = os.path.join(os.path.dirname(small), "folder")
    os.mkdir(folder)
    os.link(small, os.path.join(folder, "file"))
    refuse_each(trial, "a file that is checked", ["check", small])
    refuse_each(trial, "a directory that is checked", ["check", folder], [(3, b"C memory       - %s\n" % folder.encode(), b"")])
    refuse_each(trial, "a list of files", ["check", "--files0-from", paths["list"]])
    refuse_each(trial, "files that are refused, unread and no ELF files", ["check", "missing", paths["items"], paths["small archive"]])
    same_requests(trial, "files that are checked", ["check", small], ["check", large])
    same_requests(trial, "lists of files", ["check", "--files0-from", paths["list"]],
                  ["check", "--files0-from", paths["many"]])
    same_requests(trial, "listings", ["show", small], ["show", large])
    same_requests(trial, "lookups", ["find", libraries[0], "call"], ["find", libraries[1], "call"])
    same_requests(trial, "applied sections", ["apply", small, "1", *items], ["apply", large, "3", *items])
    least, most = trial.run(["show", "--headers", "00001", small])[1], trial.run(["show", "--headers", "65279", small])[1]
    wrong = "" if most[0] == least[0] and most[1] - least[1] == 64 * 65278 else f"{least} and {most}"
    check("a header that is permitted costs 64 bytes", wrong)
    rest = least[1] - 64 - OUTPUT_BYTES - LAYOUT_BYTES - PAGES_BYTES
    wrong = "" if 0 < rest < WORDS_BYTES else f"{rest} bytes beside them"
    check(f"the headers, one buffer for the output, one layout, the pages of a file, and less than {WORDS_BYTES:,} bytes for the words", wrong)
    trial.run(["version"])
    rest = trial.most - LAYOUT_BYTES
    check(f"one layout, and less than {WORDS_HELD:,} bytes at one time for the words", "" if 0 < rest < WORDS_HELD else f"{rest} bytes beside it")


def main():
    program = program_of(option_reader(__doc__).parse_args())
    with tempfile.TemporaryDirectory() as folder:
        try:
            trial, paths = Trial(program, folder), made_files(folder)
        except (OSError, subprocess.CalledProcessError):
            print("skipped the requests for memory: gcc makes no library and no object here")
            print("0 passed, 0 failed")
            sys.exit(0)
        try_all(trial, paths)
    sys.exit(counts.end())


if __name__ == "__main__":
    main()
