"""Made cases of tests/gate/needs.py: the loader's cache."""

import os
import random
import shutil
import struct

import loader_caches
import needed
from needs_cases.common import NEEDED, bytes_of, entry_at, found, missing

X86_64 = loader_caches.X86_64
SHAPES = ("new", "old", "both")


class Library:
    """A library in a directory that is searched only by a cache, and one that needs it."""

    def __init__(self, cases, name):
        self.cases, self.name, self.cache = cases, name, cases.path("cache")
        self.lib = cases.library(f"hidden/{name}", soname=name)
        self.top = cases.library(f"top_{name}", self.lib)

    def write(self, content):
        with open(self.cache, "wb") as file:
            file.write(content)

    def words(self, *more):
        return ["--cache", self.cache, *more, self.top]

    def is_found(self, what, *more):
        self.cases.check(what, self.words(*more), [found(0, None, self.top), found(1, 0, self.lib)])

    def is_missing(self, what, *more):
        self.cases.check(what, self.words(*more), [found(0, None, self.top), missing(1, 0, self.name)], 1)


def run(cases):
    library = Library(cases, "libk1.so.01")
    path = os.fsencode(library.lib)
    rows = [(b"libk1.so.1", b"/no", 0x803, 0), (b"libk1.so.1", path), (b"libk0.so", b"/no"), (b"libk2.so.9", b"/no"), (b"libk1.so.10", b"/no")]
    for shape in SHAPES:
        library.write(loader_caches.made(rows, shape))
        library.is_found(f"a cache, {shape}")
        library.is_missing(f"with --default, {shape}", "--default", cases.path("none"))
        library.is_missing(f"with --no-cache, {shape}", "--no-cache")
        if shape != "old":
            library.write(loader_caches.made([(b"libk1.so.1", b"/no", X86_64, 1), (b"libk1.so.1", b"/no", X86_64, 1 << 63), *rows], shape))
            library.is_found(f"entries for processors, {shape}")
        library.write(loader_caches.made([(b"libk1.so.1", b"/no"), *rows], shape))
        library.is_missing(f"the first of two entries, which leads nowhere, {shape}")
        library.write(loader_caches.made([rows[0], *rows[2:]], shape))
        library.is_missing(f"no entry of the machine, {shape}")
        damaged(library, loader_caches.made(rows, shape), shape)
        if cases.is_whole:
            budgets(cases, library, shape)
    row = '"by":"cache","path":"%s"' % library.lib
    library.write(loader_caches.made(rows, "new"))
    status, text, _ = cases.run(library.words("--json"))
    if status or row not in text:
        cases.fail(f"an object of a cache: {text!r}")
    library.is_found("one try", "--max-tries", "1")
    cases.check("no try", library.words("--max-tries", "0"),
                [found(0, None, library.top), f"! {entry_at(bytes_of(library.top), NEEDED):016x} too-many-paths"], 1)
    orders(cases, path)
    shapes(library, rows)
    places(cases, library)
    search_order(cases, library)


def budgets(cases, library, shape):
    """What is read of a cache counts: one that is enough for all gives the whole answer, and each smaller one ends it."""
    whole, enough = cases.run(library.words()), None
    for budget in range(0, 12000, 251):
        status, text, errors = got = cases.run(library.words("--max-read", budget))
        enough = budget if got == whole and enough is None else enough
        if errors or got != whole and (status != 1 or " budget" not in text or enough is not None):
            cases.fail(f"a budget of {budget} and a cache, {shape}: {got}")
    if enough is None or enough < os.path.getsize(library.lib) // 100:
        cases.fail(f"budgets and a cache, {shape}: {enough} is enough")


def orders(cases, path):
    """Names that are equal by their numbers, and such as are not."""
    for name, key, is_found in (
            ("libo.so.1", "libo.so.001", True), ("libo.so.1", "libo.so.4294967297", True), ("libo.so.2147483648", "libo.so.6442450944", True),
            ("libo.so.1", "libo.so.10", False), ("libo.so.1", "libo.so.1.0", False), ("libo1.so", "libo01.so", True), ("libo.so", "libo.so.", False),
            ("libo.so.0", "libo.so.", False), ("libo.so.0", "libo.so.00", True)):
        library = Library(cases, name)
        # Other keys on both sides, in the order of the loader.
        rows = [(other, b"/no") for other in (b"liba.so.1", b"libo.so.0x", b"libo.so.3000000000", b"libo.so.7", b"libz9.so", b"lib\xff.so", b"lib9.so", b"zz")]
        for shape in SHAPES:
            library.write(loader_caches.made([*rows, (key.encode(), os.fsencode(library.lib))], shape))
            (library.is_found if is_found else library.is_missing)(f"{name} by {key}, {shape}")


def damaged(library, plain, shape):
    """Caches with changed words or cut: what is found is what the second implementation finds."""
    chance = random.Random(8)
    for number in range(40):
        data = bytearray(plain)
        for _ in range(chance.randrange(1, 4)):
            at = chance.randrange(0, len(data) - 4, 4)
            data[at:at + 4] = struct.pack("<I", chance.choice([0, 1, at, len(plain), X86_64, 0x7FFFFFFF, 0xFFFFFFFF, chance.randrange(len(plain))]))
        data = data[:chance.choice([len(data), len(data), chance.randrange(len(data) + 1)])]
        library.write(data)
        status, text = needed.answer(library.top, symbols=False, cache=os.fsencode(library.cache))
        library.cases.check(f"a damaged cache, {shape}, {number}", library.words(), text.decode().splitlines(), status)
    library.write(plain)


def shapes(library, rows):
    """Headers that count and that do not."""
    new, old = (loader_caches.made(rows, shape) for shape in ("new", "old"))
    for byte, is_found in ((0, True), (2, True), (6, True), (254, True), (1, False), (3, False), (4, False), (5, False)):
        library.write(new[:28] + bytes([byte]) + new[29:])
        (library.is_found if is_found else library.is_missing)(f"byte 28 is {byte}")
    count, = struct.unpack_from("<I", new, 20)
    most = (len(new) - 48) // 24
    for what, data, is_found in (
            ("of no byte", b"", False), ("of 48 bytes", new[:48], False), ("of another version", new[:19] + b"2" + new[20:], False),
            ("with too many entries", new[:20] + struct.pack("<I", most + 1) + new[24:], False),
            ("with the most entries", new[:20] + struct.pack("<I", 0xFFFFFFFF) + new[24:], False),
            ("with no entries", new[:20] + bytes(4) + new[24:], False), ("that ends in a path", new[:-1], True),
            ("old, of another version", b"ld.so-1.8.0" + old[11:], False),
            ("old, with too many entries", old[:12] + struct.pack("<I", 0x15555555) + old[16:], False), ("old, of 16 bytes", old[:16], False)):
        library.write(data)
        (library.is_found if is_found else library.is_missing)(f"a cache {what}")
    # A key that is outside ends the search; a value that is outside is none, and the next entry counts.
    middle = (count - 1) // 2
    key = struct.pack("<I", 0x7FFFFFFF)
    library.write(new[:48 + 24 * middle + 4] + key + new[48 + 24 * middle + 8:])
    library.is_missing("a key outside")
    path = os.fsencode(library.lib)
    for shape in SHAPES:
        data = loader_caches.made([(b"libk1.so.1", b"/first"), (b"libk1.so.1", path)], shape)
        start = data.index(b"/first")
        base = loader_caches.Cache(data).strings
        data = data.replace(struct.pack("<I", start - base), key, 1)
        library.write(data)
        library.is_found(f"a value outside, {shape}")


def places(cases, library):
    """Where the cache is: another file, below another root, none."""
    top, none = library.top, cases.path("none")
    cases.check("a cache that does not exist", ["--cache", none, top], [], 3, "elfsee: cannot open\n")
    root = cases.path("root")
    os.makedirs(root + "/etc")
    os.makedirs(root + "/opt")
    shutil.copy(library.lib, root + "/opt/libk.so")
    lost = [found(0, None, top), missing(1, 0, library.name)]
    cases.check("no cache below a root", ["--root", root, top], lost, 1)
    content = loader_caches.made([(b"libk1.so.1", b"/opt/libk.so")], "new")
    cache = root + "/etc/ld.so.cache"
    with open(cache, "wb") as file:
        file.write(content)
    there = [found(0, None, top), found(1, 0, root + "/opt/libk.so")]
    cases.check("a cache below a root", ["--root", root, top], there)
    library.write(content)
    os.remove(cache)
    cases.check("another file, whose paths are below the root", ["--root", root, "--cache", library.cache, top], there)
    os.symlink("/opt/cache", cache)
    cases.check("a link to nothing", ["--root", root, top], lost, 1)
    shutil.copy(library.cache, root + "/opt/cache")
    cases.check("an absolute link below the root", ["--root", root, top], there)
    os.remove(cache)
    for make in (os.mkfifo, os.mkdir):
        make(cache)
        cases.check("a pipe or a directory in place of a cache", ["--root", root, top], lost, 1)
        (os.remove if make is os.mkfifo else os.rmdir)(cache)
    library.write(loader_caches.made([(b"libk1.so.1", os.fsencode("hidden/" + library.name))], "new"))
    cases.check("a relative path", ["--cache", library.cache, top], [found(0, None, top), found(1, 0, "hidden/" + library.name)], cwd=cases.folder)


def search_order(cases, library):
    """The cache comes after RUNPATH and before the default directories; its one path may be passed over."""
    other = cases.library(f"run/{library.name}", soname=library.name)
    runs = cases.library("runs.so", library.lib, f"-Wl,-rpath,{os.path.dirname(other)}")
    library.write(loader_caches.made([(library.name.encode(), os.fsencode(library.lib))], "new"))
    words = ["--cache", library.cache]
    cases.check("RUNPATH before a cache", [*words, runs], [found(0, None, runs), found(1, 0, other)])
    cases.check("--library-path before a cache", [*words, "--library-path", os.path.dirname(other), library.top],
                [found(0, None, library.top), found(1, 0, other)])
    root = cases.path("order")
    for place in ("lib/x86_64-linux-gnu", "opt", "lib"):
        os.makedirs(f"{root}/{place}", exist_ok=True)
        shutil.copy(library.lib, f"{root}/{place}/{library.name}")
    nodef = cases.library("nodef.so", library.lib, "-Wl,-z,nodefaultlib")

    def check(what, value, by_cache, of_nodef):
        library.write(loader_caches.made([(library.name.encode(), value.encode())], "new"))
        for top, path in ((library.top, by_cache), (nodef, of_nodef)):
            line = missing(1, 0, library.name) if path is None else found(1, 0, f"{root}{path}/{library.name}")
            cases.check(what, [*words, "--root", root, top], [found(0, None, top), line], int(path is None))

    check("a cache before default directories", f"/opt/{library.name}", "/opt", "/opt")
    check("a path that is passed over", f"/none/{library.name}", "/lib/x86_64-linux-gnu", None)
    # No path below a default directory is that of a library without such; a directory whose name only begins like one is none.
    check("a path below a default directory", f"/lib/{library.name}", "/lib", None)
    check("a path below one with a slash more", f"/opt/../lib/{library.name}", "/opt/../lib", "/opt/../lib")
    os.makedirs(f"{root}/library")
    shutil.copy(library.lib, f"{root}/library/{library.name}")
    check("a directory that begins like one", f"/library/{library.name}", "/library", "/library")
