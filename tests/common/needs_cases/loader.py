"""What glibc's loader prints for the programs of the machine, beside the answers of `elfsee needs`."""

import os
import re
import stat
import struct
import subprocess
import tempfile
import time
from pathlib import Path

from needs_cases.common import LOADER, PLAIN
from needs_cases.tried import TRIED, bindings, elfsee, fail, lines_of, objects


def loader_says(path, library=False):
    """The objects by the loader: each needed name with its path, None if it is not found, in order; or None."""
    env = dict(PLAIN, LD_TRACE_LOADED_OBJECTS="1")
    try:
        call = [LOADER, path] if library else [path]
        done = subprocess.run(call, capture_output=True, timeout=60, env=env, stdin=subprocess.DEVNULL)
    except (OSError, subprocess.TimeoutExpired):
        return None
    if done.returncode not in (0, 1):
        return None
    rows = []
    for line in done.stdout.decode("utf-8", "surrogateescape").splitlines():
        line = line.strip()
        named = re.fullmatch(r"(.*) => (.*) \(0x[0-9a-f]+\)", line)
        bare = re.fullmatch(r"(.*) \(0x[0-9a-f]+\)", line)
        missing = re.fullmatch(r"(.*) => not found", line)
        if missing:
            rows.append((missing.group(1), None))
        elif named:
            rows.append((named.group(1), named.group(2)))
        elif bare:
            if not bare.group(1).startswith("linux-vdso"):
                rows.append((bare.group(1), bare.group(1)))
        elif line != "statically linked":
            return None
    return rows


def interpreter(path):
    """The interpreter that a program names."""
    with open(path, "rb") as file:
        head = file.read(64)
        if len(head) < 64 or head[:6] != b"\x7fELF\x02\x01":
            return None
        phoff, = struct.unpack_from("<Q", head, 32)
        phnum, = struct.unpack_from("<H", head, 56)
        for i in range(phnum):
            file.seek(phoff + 56 * i)
            row = file.read(56)
            if struct.unpack_from("<I", row)[0] == 3:
                offset, = struct.unpack_from("<Q", row, 8)
                size, = struct.unpack_from("<Q", row, 32)
                file.seek(offset)
                return file.read(size).split(b"\0")[0].decode()
    return None


def agrees(told, wanted, real):
    """Whether objects are the loader's, which lists itself if it is needed, and else last, by the path that started it."""
    plain = lambda rows: [row for row in rows if os.path.realpath(row[1]) != real]
    count = len(told) - len(plain(told))
    return plain(told) == plain(wanted) and count <= 1 and len(wanted) - len(plain(wanted)) >= count


def versions_by_loader(path, library):
    """What the loader says of versions: of each object the files and versions that it needs and that are not found, except weak
    needs; or None."""
    call, env = [LOADER, path] if library else [path], dict(PLAIN, LD_TRACE_LOADED_OBJECTS="1", LD_VERBOSE="1")
    try:
        done = subprocess.run(call, capture_output=True, timeout=60, env=env, stdin=subprocess.DEVNULL)
    except (OSError, subprocess.TimeoutExpired):
        return None
    rows, needer = [], None
    for line in done.stdout.decode("utf-8", "surrogateescape").partition("Version information:\n")[2].splitlines():
        found = re.fullmatch(r"\t\t(\S+) \((.*)\) (\[WEAK\] )?=> (.*)", line)
        if found is None:
            needer = os.path.realpath(line.strip()[:-1])
        elif found.group(4) == "not found" and not found.group(3):
            rows.append((needer, *found.group(1, 2)))
    return rows


def same_as_loader(path, library=False):
    """Whether the objects, their paths and the versions that are missing are the loader's: the word for it; None if the loader says
    nothing."""
    said = loader_says(path, library)
    if said is None:
        return None
    interp = LOADER if library else interpreter(path)
    wanted = [("missing", name) if found is None else ("found", found) for name, found in said]
    # A library that is missing is searched for again, and reported again, for each object that needs it; here it is an object once.
    wanted = [row for place, row in enumerate(wanted) if row[0] == "found" or row not in wanted[:place]]
    plain = [(state, re.sub(r"/glibc-hwcaps/[^/]+", "", name)) for state, name in wanted]
    real = os.path.realpath(interp) if interp else None
    status, text, errors = elfsee(path)
    rows = objects(lines_of("L", text))
    others = [line for line in text.splitlines() if line[:2] not in ("L ", "I ", "U ")]
    if rows is None or status not in (0, 1) or errors or others or lines_of("I", text) != (f"I found    {interp}\n" if not library else ""):
        fail(f"{path}: status {status} {text!r} {errors!r}")
        return "failed"
    told = [(state, name) for _, _, state, name in rows[1:]]
    lacks = sorted((os.path.realpath(rows[int(line[2:7])][3]), line[23:]) for line in lines_of("U", text).splitlines())
    # Versions of a library that is missing are not found; here the library is missing, and that is all.
    versions = versions_by_loader(path, library)
    versions = versions and sorted((needer, version) for needer, file, version in versions if ("missing", file) not in wanted)
    if lacks != versions:
        fail(f"{path}: the versions {lacks} and by the loader {versions}")
        return "failed"
    if agrees(told, wanted, real):
        return "same"
    if plain != wanted and agrees(told, plain, real):
        return "hwcaps"
    fail(f"{path}: {told} and by the loader {wanted}")
    return "failed"


def sort_of(path):
    """What a file is: a program, a library, one that sets a user or a group, or another."""
    try:
        kind = os.stat(path)
        with open(path, "rb") as file:
            head = file.read(64)
    except OSError:
        return "other"
    if not stat.S_ISREG(kind.st_mode) or len(head) < 64 or head[:6] != b"\x7fELF\x02\x01" or head[18:20] != b"\x3e\0":
        return "other"
    if kind.st_mode & (stat.S_ISUID | stat.S_ISGID):
        return "setid"
    if interpreter(path) is not None:
        return "program" if os.access(path, os.X_OK) else "other"
    return "library" if head[16:18] == b"\3\0" and File(path).dynamic else "other"


def programs(every):
    """Programs and libraries, and how many files are left out, by why."""
    found, left = [], {}
    paths = sorted(Path("/usr/bin").iterdir())
    if every:
        paths += sorted(Path("/usr/sbin").iterdir())
        paths += sorted(Path(folder) / name for folder, _, names in os.walk("/usr/lib") for name in names)
    seen = set()
    for path in paths:
        if path.is_symlink() and (not every or os.path.realpath(path) in seen or "/usr/lib/" in str(path)):
            continue
        sort = sort_of(path)
        if sort in ("program", "library") and os.path.realpath(path) not in seen:
            found.append((str(path), sort == "library"))
        elif sort not in ("program", "library"):
            left[sort] = left.get(sort, 0) + 1
        seen.add(os.path.realpath(path))
    if not every:
        found = [row for row in found if not row[1]]
        return found[:: max(1, len(found) // 40)], left
    return found, left


class File:
    """The dynamic symbols of a file with their versions, by its section headers, and its dynamic entries by its segments."""

    def __init__(self, path):
        self.data = Path(path).read_bytes()
        phoff, shoff = struct.unpack_from("<QQ", self.data, 32)
        phnum, _, shnum = struct.unpack_from("<HHH", self.data, 56)
        self.dynamic = any(struct.unpack_from("<I", self.data, phoff + 56 * i)[0] == 2 for i in range(phnum))
        self.sections = [struct.unpack_from("<IIQQQQIIQQ", self.data, shoff + 64 * i) for i in range(shnum)] if shoff else []

    def section(self, kind):
        for _, type_, _, _, offset, size, link, info, _, _ in self.sections:
            if type_ == kind:
                return offset, size, link, info
        return None

    def named_numbers(self):
        """The numbers that definitions and needs of versions name."""
        numbers = set()
        for kind, fields, auxiliary in ((0x6FFFFFFD, "<HHHHIII", None), (0x6FFFFFFE, "<HHIII", "<IHHII")):
            found = self.section(kind)
            at = found[0] if found else None
            for _ in range(found[3] if found else 0):
                row = struct.unpack_from(fields, self.data, at)
                if auxiliary is None:
                    numbers.add(row[2] & 0x7FFF)
                else:
                    place = at + row[3]
                    for _ in range(row[1]):
                        other = struct.unpack_from(auxiliary, self.data, place)
                        numbers.add(other[2] & 0x7FFF)
                        place += other[4]
                at += row[-1]
        return numbers

    def takes_unnamed(self, name):
        """Whether it defines a name by a symbol that is not hidden and whose number names no version, so that a loader takes it."""
        table, words = self.section(11), self.section(0x6FFFFFFF)
        if table is None or words is None:
            return False
        strings = self.sections[table[2]][4]
        named = self.named_numbers() - {0, 1}
        for i in range(1, table[1] // 24):
            st_name, _, _, shndx, _, _ = struct.unpack_from("<IBBHQQ", self.data, table[0] + 24 * i)
            start = strings + st_name
            if shndx == 0 or self.data[start:self.data.index(b"\0", start)] != name.encode():
                continue
            word, = struct.unpack_from("<H", self.data, words[0] + 2 * i)
            if not word & 0x8000 and word & 0x7FFF not in named:
                return True
        return False


def loader_binds(path, folder):
    """What the loader binds if it binds all at once and runs nothing: of each file and name the files that define it; and
    what it finds undefined."""
    told = Path(folder) / "told"
    env = dict(PLAIN, LD_TRACE_LOADED_OBJECTS="1", LD_WARN="yes", LD_BIND_NOW="yes", LD_DEBUG="bindings", LD_DEBUG_OUTPUT=str(told))
    try:
        done = subprocess.run([path], capture_output=True, timeout=60, env=env, stdin=subprocess.DEVNULL)
    except (OSError, subprocess.TimeoutExpired):
        return None
    bound, undefined = {}, set()
    for file in Path(folder).glob("told.*"):
        for line in file.read_text("utf-8", "surrogateescape").splitlines():
            found = re.search(r"binding file (.*) \[\d+\] to (.*) \[\d+\]: (?:normal|protected) symbol `(.*)'(?: \[(.*)\])?$", line)
            if found:
                asks, defines, name, version = found.groups()
                key = (os.path.realpath(asks), name + ("@" + version if version else ""))
                bound.setdefault(key, set()).add(os.path.realpath(defines))
        file.unlink()
    for line in done.stderr.decode("utf-8", "surrogateescape").splitlines():
        found = re.search(r"(?:undefined symbol: (\S+)(?:, version (\S+))?|symbol (\S+), version (\S+) not defined in .*)\s+\((.*)\)", line)
        if found:
            undefined.add((os.path.realpath(found.group(5)), found.group(1) or found.group(3)))
    return bound, undefined


def binds_as_loader(path):
    """How many symbols are bound as the loader binds them, and how many it binds to one without a version; None if it says
    nothing."""
    with tempfile.TemporaryDirectory() as folder:
        said = loader_binds(path, folder)
    if said is None or not said[0]:
        return None
    bound, undefined = said
    status, text, errors = elfsee("--symbols", path)
    known, rows, others = bindings(text)
    if status not in (0, 1) or errors or others:
        fail(f"{path}: bindings: status {status} {others[:3]} {errors!r}")
        return 0, 0
    if (status == 0) != all(row[2] in ("bound", "weak") for row in rows):
        fail(f"{path}: bindings: status {status}")
    compared = unnamed = 0
    # If the address of a function is needed, a loader takes the program's own entry for it, whose symbol is undefined.
    asked = {(os.path.realpath(known[object_]), name) for object_, _, _, _, _, name in rows}
    for object_, symbol, state, definer, _, name in rows:
        asks = os.path.realpath(known[object_])
        wanted = bound.get((asks, name))
        if wanted and all((file, name) in asked for file in wanted):
            continue
        if wanted is None:
            if state == "bound" and (asks, name.split("@")[0]) in undefined:
                fail(f"{path}: {asks} {name} is bound, and undefined by the loader")
            continue
        if state == "bound" and os.path.realpath(known[definer]) in wanted:
            compared += 1
        elif "@" in name and any(File(file).takes_unnamed(name.split("@")[0]) for file in wanted):
            unnamed += 1
        else:
            fail(f"{path}: {asks} {name}: {state} {known.get(definer)}, and by the loader {sorted(wanted)}")
    return compared, unnamed


# Runs a program, and gives its most memory in kilobytes: what the kernel reports for a child begins with that of who forked it.
MEMORY = r"""
#include <stdio.h>
#include <sys/resource.h>
#include <sys/wait.h>
#include <unistd.h>
int main(int count, char **words) {
    struct rusage used;
    pid_t child = fork();
    if (child == 0) { execv(words[1], words + 1); _exit(127); }
    wait4(child, 0, 0, &used);
    return fprintf(stderr, "%ld\n", used.ru_maxrss) < 0;
}
"""


def timed(call):
    """How long a call takes, in seconds, and what it writes to its standard error."""
    start = time.monotonic()
    done = subprocess.run(call, stdin=subprocess.DEVNULL, stdout=subprocess.DEVNULL, stderr=subprocess.PIPE, env=PLAIN)
    return time.monotonic() - start, done.stderr


def measured(paths, folder):
    """All programs by elfsee and by `ldd -r`: seconds of each, and the most memory of one of the former."""
    (Path(folder) / "memory.c").write_text(MEMORY)
    memory = str(Path(folder) / "memory")
    subprocess.run(["gcc", "-O1", "-o", memory, memory + ".c"], check=True, capture_output=True)
    ours = theirs = most = 0
    for path in paths:
        seconds, told = timed([memory, TRIED.program, "needs", "--symbols", path])
        ours, most = ours + seconds, max(most, int(told.split()[-1]))
        theirs += timed(["ldd", "-r", path])[0]
    if ours > 3 * theirs or most > 8 * 1024:
        fail(f"{ours:.1f} s by elfsee, {theirs:.1f} s by ldd -r, {most} KB")
    print(f"{len(paths)} programs of /usr/bin: {ours:.1f} s by elfsee, {theirs:.1f} s by ldd -r, {most} KB of memory at most")
