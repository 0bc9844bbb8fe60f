"""Compares the results of dlsym and dlvsym in a C program for the names of a library with those of `elfsee find --gnu` and
looked_up.py: the second part of the script against_hash."""

import collections
import mmap
import multiprocessing
import os
import signal
import struct
import subprocess
import tempfile

import changed_files
import looked_up

# Reads texts NAME and NAME@VERSION, a line each; then loads the library that its word names, and answers a line for
# each: its address less that at which the library was loaded, in hexadecimal, or a hyphen. The library's own code
# finds no terminal and no input. With a second word it looks that one name up, and says nothing.
CODE = r"""
#define _GNU_SOURCE
#include <dlfcn.h>
#include <fcntl.h>
#include <link.h>
#include <stdio.h>
#include <stdlib.h>
#include <string.h>
#include <unistd.h>

static void *address_of(void *library, char *text)
{
    char *version = strchr(text, '@');
    if (!version)
        return dlsym(library, text);
    *version++ = 0;
    return dlvsym(library, text, version);
}

int main(int count, char **words)
{
    if (count == 3) {
        void *library = dlopen(words[1], RTLD_LAZY | RTLD_LOCAL);
        _exit(!library || !address_of(library, words[2]));
    }
    char *texts = NULL;
    size_t room = 0;
    if (getdelim(&texts, &room, 0, stdin) < 0)
        return 2;
    FILE *out = fdopen(dup(1), "w");
    int nothing = open("/dev/null", O_RDWR);
    for (int at = 0; at < 3; at++)
        dup2(nothing, at);
    void *library = dlopen(words[1], RTLD_LAZY | RTLD_LOCAL);
    struct link_map *loaded;
    if (!library || dlinfo(library, RTLD_DI_LINKMAP, &loaded)) {
        fprintf(out, "! %s\n", dlerror());
        fflush(out);
        _exit(1);
    }
    for (char *text = strtok(texts, "\n"); text; text = strtok(NULL, "\n")) {
        dlerror();
        void *address = address_of(library, text);
        if (dlerror())
            fputs("-\n", out);
        else
            fprintf(out, "%lx\n", (unsigned long)address - loaded->l_addr);
    }
    fflush(out);
    _exit(0);
}
"""
SECONDS = 60
# The most headers that `elfsee find` allows if none are given.
HEADERS = 4096
# Copies without section headers are made of libraries that are no larger.
COPIED_BYTES = 16 << 20
ABS, TLS, IFUNC, UNIQUE = 0xFFF1, 6, 10, 10


def compiled(folder):
    """The C program."""
    source, program = os.path.join(folder, "loaded.c"), os.path.join(folder, "loaded")
    with open(source, "w", encoding="ascii") as file:
        file.write(CODE)
    subprocess.run(["gcc", "-O1", "-o", program, source, "-ldl"], check=True)
    return program


class NotLoaded(Exception):
    """The library cannot be loaded, and why."""


def loaded(program, library, texts):
    """Of each text the address that dlsym or dlvsym gives, less that of the library, or None."""
    folder = os.path.dirname(program)
    process = subprocess.Popen([program, library], stdin=subprocess.PIPE, stdout=subprocess.PIPE, cwd=folder,
                               stderr=subprocess.DEVNULL, env={"HOME": folder}, start_new_session=True)
    try:
        said, _ = process.communicate(b"\n".join(texts) + b"\n", timeout=SECONDS)
    except subprocess.TimeoutExpired:
        # The library may have started processes too, which are of the same group.
        os.killpg(process.pid, signal.SIGKILL)
        process.wait()
        raise NotLoaded("it takes too long") from None
    lines = said.decode("ascii", "replace").splitlines()
    if process.returncode != 0 or len(lines) != len(texts):
        raise NotLoaded(lines[0][2:] if lines and lines[0][:1] == "!" else f"it ends with status {process.returncode}")
    return [None if line == "-" else int(line, 16) for line in lines]


class Library:
    """A library with what can be looked up in it."""

    def __init__(self, path):
        self.path = path
        with open(path, "rb") as file:
            self.content = mmap.mmap(file.fileno(), 0, access=mmap.ACCESS_READ)
        self.scope = looked_up.Scope(self.content, HEADERS)
        self.counted = collections.Counter()
        self.left_out = set()

    def texts(self):
        """Each name that can be looked up, its names with a version, and some of which the library has none."""
        told = looked_up.versions_in(self.scope)
        others = sorted(set(told.values()))
        names, texts = {}, []
        for name, index in looked_up.symbols_in(self.scope):
            if b"@" in name or b"\n" in name or len(name) > 2000 or not name.isascii():
                self.counted["names that a line of the C program does not have"] += 1
                continue
            names.setdefault(name, []).append(index)
        for count, (name, indices) in enumerate(names.items()):
            self.leave_out(name, indices)
            texts.append(name)
            own = {told[number] for number in map(self.number, indices) if number in told}
            texts += [name + b"@" + version for version in sorted(own)]
            if others and count % 4 == 0:
                texts.append(name + b"@" + others[count // 4 % len(others)])
            if own and count % 4 == 1:
                texts.append(name + b"@@" + min(own))
            if count % 8 == 2:
                texts.append(name + b"@GLIBC_2.99")
                texts += [other for other in (name + b"_", name[:-1]) if other and other not in names]
        return texts

    def number(self, index):
        if self.scope.words is None:
            return 0
        return struct.unpack_from("<H", self.content, self.scope.words.offset + 2 * index)[0] % 0x8000

    def leave_out(self, name, indices):
        """Keeps the names whose symbols a loader gives another address than the table's."""
        for index in indices:
            _, info, _, place = struct.unpack_from("<I2BH", self.content, self.scope.symbols.offset + 24 * index)
            kinds = (("absolute", place == ABS), ("thread-local", info & 15 == TLS), ("indirect", info & 15 == IFUNC))
            for kind in (kind for kind, is_so in kinds if is_so):
                self.left_out.add(name)
                self.counted[f"names of {kind} symbols, not asked of the loader"] += 1
                return

    def has_address(self, offset):
        """Whether an address less that of the library is in it."""
        phoff, = struct.unpack_from("<Q", self.content, 32)
        phnum, = struct.unpack_from("<H", self.content, 56)
        for at in range(phoff, phoff + 56 * phnum, 56):
            kind, _, _, vaddr, _, _, memsz = struct.unpack_from("<2I5Q", self.content, at)
            if kind == 1 and vaddr <= offset < vaddr + memsz:
                return True
        return False

    def wrong_address(self, lookup, found, offset):
        """What is wrong with an answer of the rules, compared with that of dlsym or dlvsym."""
        if found is None:
            if offset is None or not self.has_address(offset):
                self.counted["absent here, found in another library" if offset is not None else "absent"] += 1
                return ""
            return f"the loader finds {offset:x}, the rules find nothing"
        at = self.scope.symbols.offset + 24 * found
        _, info, _, _, value = struct.unpack_from("<I2BHQ", self.content, at)
        if offset == value:
            self.counted["found at one address"] += 1
            return ""
        if info >> 4 == UNIQUE and offset is not None and not self.has_address(offset):
            self.counted["unique symbols that the loader takes of another library"] += 1
            return ""
        return f"the rules find {value:x} in symbol {found}, the loader {offset if offset is None else hex(offset)}"


def answer_of(program, path, text, cost, by_segments=False):
    """The program's status and answer; with a cost it may read no more bytes."""
    limit = [] if cost is None else ["--max-read", str(cost)]
    view = ["--by-segments"] if by_segments else []
    done = subprocess.run([program, "find", "--gnu", *view, *limit, "--", path, text],
                          stdin=subprocess.DEVNULL, capture_output=True, check=False, timeout=SECONDS)
    return done.returncode, done.stdout, done.stderr


def compared_library(task):
    """Compares a given number of lookups in one library; answers what was counted, and what is wrong."""
    path, program, loader, most, folder = task
    library = Library(path)
    if library.scope.refusal is not None:
        return path, collections.Counter({"libraries without a table that can be looked in": 1}), []
    texts = library.texts()
    if most and len(texts) > most:
        texts = [texts[index * len(texts) // most] for index in range(most)]
    wrong = []
    asked = [text for text in texts if b"@@" not in text and text.split(b"@")[0] not in library.left_out]
    try:
        addresses = dict(zip(asked, loaded(loader, path, asked))) if asked else {}
        library.counted["libraries that are loaded"] += 1
    except NotLoaded as why:
        addresses = {}
        library.counted["libraries that cannot be loaded"] += 1
        wrong.append(f"left out, {why}")
    copy = copied(library, folder) if program else None
    for count, text in enumerate(texts):
        lookup = looked_up.Lookup(library.scope, *looked_up.parted(text))
        if text in addresses:
            try:
                said = library.wrong_address(lookup, lookup.found(), addresses[text])
            except looked_up.Refused as refusal:
                said = f"the rules refuse it: {refusal.args}"
            library.counted["lookups beside dlsym and dlvsym"] += 1
            wrong += [f"{text!r}: {said}"] if said else []
        if program:
            without = None
            if copy is not None and count % 2:
                # Half of these in the library itself, whose section headers are to count for nothing.
                without = (path, copy[1]) if count % 8 in (1, 7) else copy
            wrong += wrong_answer(program, library, without, text, count % 4 < 2)
    return path, library.counted, wrong


def copied(library, folder):
    """A copy of a library without section headers, with its scope; None of a large one."""
    if len(library.content) > COPIED_BYTES:
        return None
    content = changed_files.without_sections(bytes(library.content))
    with tempfile.NamedTemporaryFile(dir=folder, delete=False) as file:
        file.write(content)
    return file.name, looked_up.Scope(content, HEADERS)


def wrong_answer(program, library, copy, text, is_limited):
    """What is wrong with an answer of the program, compared with the rules."""
    path, scope = copy or (library.path, library.scope)
    status, lines, cost = looked_up.answer(scope.content, text, scope=scope)
    is_viewed = copy is not None and path == library.path
    got = answer_of(program, path, text, cost if is_limited else None, is_viewed)
    how = " by the program headers" if is_viewed else " in copies without section headers" if copy else ""
    library.counted["lookups by elfsee" + how] += 1
    if got == (status, lines, b""):
        return []
    return [f"{text!r}{how}: the rules say {status}, {lines!r}, elfsee {got!r}"]


def compared(program, paths, most, processes=4):
    """Compares lookups in some libraries, and prints what is wrong; answers how many were compared and how many are
    wrong. Without a program only the rules are compared with the loader."""
    counted, failures = collections.Counter(), 0
    with tempfile.TemporaryDirectory() as folder:
        loader = compiled(folder)
        tasks = [(path, program, loader, most, folder) for path in paths]
        with multiprocessing.Pool(processes) as pool:
            for path, of_one, wrong in pool.imap_unordered(compared_library, tasks):
                counted += of_one
                for line in wrong:
                    print(f"{path}: {line}", flush=True)
                    failures += not line.startswith("left out")
    for what, count in sorted(counted.items()):
        print(f"{count:9,} {what}")
    return sum(count for what, count in counted.items() if what.startswith("lookups")), failures
