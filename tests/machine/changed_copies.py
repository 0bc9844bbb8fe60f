#!/usr/bin/env python3
"""Runs the program on changed copies of the machine's files, and checks that each run stays within its bounds.

    tests/machine/changed_copies.py [--program PATH] [--copies N] [--seed N] [--keep FOLDER]

Each copy is an ELF file with bytes, fields, headers, tables or its length changed, by a generator with
a seed: the same seed and the same files give the same copies. The files are those of the
machine, members of its static libraries, and objects and libraries that gcc makes here; half of the
copies are of files with a hash table or with relocation entries. Each is listed whole within a read
budget, some with --gnu, a name of the file is looked up, and a section with relocation entries written. A run must
end by itself with status 0 or 1 and nothing on standard error, and its answer must have the right form: a
refusal's line is its last, and for a section the bytes or the line are those that
applied.py computes. No run takes longer than a second for each 10 MB that it may read;
and each must need no more memory, to a megabyte, than the first file unchanged. What a
smaller budget shows is a prefix of that, and the line of the budget. A copy that fails is kept in
FOLDER. It takes some minutes, and is no part of ./check. It needs Python 3 and, for the files that are
made or extracted, gcc and binutils. Without --program the repository's own is used, and built first if it is not.
"""

import os
import random
import re
import resource
import struct
import subprocess
import sys
import tempfile
import time

sys.dont_write_bytecode = True
sys.path[:0] = [os.path.join(os.path.dirname(os.path.realpath(__file__)), "..", name) for name in ("common", "again")]
import applied
import asked_of_files
import changed_files
from testing import option_reader, program_of

FOLDERS = ("/usr/bin", "/usr/lib", "/lib", "/usr/sbin")
# Larger files only take longer to copy.
MOST_BYTES = 400000
BUDGET = 10000000
# With --gnu a word of 8 bytes may make 63 lines.
GNU_BUDGET = 300000
SECONDS = 1.0
# The start of a process on a busy machine is no part of what is measured.
START_SECONDS = 1.0
MEGABYTE = 1 << 20
REFUSED = re.compile(rb"! [0-9a-f]{16} [a-z-]+\n")
FOUND = re.compile(rb"Y [^\n]*\nF found {2,11}[0-9]{1,10}\n")
ABSENT = re.compile(rb"F absent {1,10}[0-9]{1,10}\n")
# A given number of members of static libraries.
MEMBERS = 300


class Source:
    """A file that is copied, with names that can be looked up in it and sections that can be written."""

    def __init__(self, path):
        self.path = path
        content = self.content()
        try:
            names = asked_of_files.names_to_find(content)
            sections = asked_of_files.sections_to_apply(content)
        except (ValueError, IndexError, struct.error):
            names, sections = [], []
        # Few of many, so that this process stays small and starts others quickly.
        self.names = names[::len(names) // 20 + 1]
        self.sections = sections[::len(sections) // 20 + 1]

    def content(self):
        with open(self.path, "rb") as file:
            return file.read()


def sources(folder):
    """All files that are copied."""
    made = asked_of_files.compiled_objects(folder) + asked_of_files.members_of_libraries(folder, MEMBERS)
    return [Source(path) for path in originals() + made if os.path.getsize(path) <= MOST_BYTES]


def originals():
    """The ELF64 little-endian files of the machine that are not too large, by their names."""
    found = []
    for top in FOLDERS:
        for folder, _, names in os.walk(top):
            for name in names:
                path = os.path.join(folder, name)
                try:
                    if os.path.islink(path) or not 64 <= os.path.getsize(path) <= MOST_BYTES:
                        continue
                    with open(path, "rb") as file:
                        if file.read(6) == b"\x7fELF\x02\x01":
                            found.append(path)
                except OSError:
                    continue
    return sorted(found)


def run(program, words, megabytes, seconds=60):
    """Runs the program in so much memory; gives its status, its output, its error line and seconds."""
    def limit():
        resource.setrlimit(resource.RLIMIT_AS, (megabytes * MEGABYTE, megabytes * MEGABYTE))

    began = time.monotonic()
    try:
        done = subprocess.run([program] + words, stdin=subprocess.DEVNULL, capture_output=True,
                              preexec_fn=limit, timeout=seconds, check=False)
    except subprocess.TimeoutExpired:
        return "hangs", b"", b"", float(seconds)
    return done.returncode, done.stdout, done.stderr, time.monotonic() - began


def memory(program, path):
    """How many megabytes of addresses the program needs to list a file, its start included."""
    for megabytes in range(1, 64):
        status, _, _, _ = run(program, ["show", "--headers", "65279", path], megabytes)
        if status == 0:
            return megabytes
    sys.exit("%s is not listed" % path)


def wrong_run(status, text, said, seconds, most=SECONDS):
    if status not in (0, 1):
        return "status %s, %r" % (status, said[:200])
    if said:
        return "it says %r" % said[:200]
    if seconds > most + START_SECONDS:
        return "%.1f seconds" % seconds
    return ""


def wrong_front(cut, status, whole):
    """What is wrong with a listing within a smaller budget."""
    if status == 0 or cut == whole:
        return "" if cut == whole else "another listing within a smaller budget"
    lines = cut.splitlines(keepends=True)
    if not lines[-1].endswith(b" budget\n"):
        return "another refusal within a smaller budget"
    return "" if whole.startswith(b"".join(lines[:-1])) else "no front within a smaller budget"


def header_of(content, index):
    """A section header of a copy, or None if it is not in it."""
    at, = struct.unpack_from("<Q", content, 40)
    if index >= struct.unpack_from("<H", content, 60)[0] or at + 64 * index + 64 > len(content):
        return None
    return struct.unpack_from("<IIQQQQIIQQ", content, at + 64 * index)


def bytes_of_apply(content, words):
    """The bound of what `apply` reads from a copy."""
    index, count, entries = int(words[0]), struct.unpack_from("<H", content, 60)[0], 0
    for section in range(count):
        header = header_of(content, section)
        if header and header[1] == 4 and header[7] == index:
            entries += min(header[5], len(content)) // 24
    header = header_of(content, index)
    size = 0 if header is None or header[1] in (0, 8) else header[5]
    names = [word.split(":")[1].rsplit("=")[0] for word in words[1:] if not word.startswith("at:")]
    compared = sum(64 * ((len(name) + 64) // 64) for name in names)
    most = min(size, len(content))
    return 64 + 64 * count + (1 + (most + 63) // 64) * entries * (48 + compared) + most


class Tries:
    """Runs of all commands on copies, and what came of them."""

    def __init__(self, program, megabytes, rng):
        self.program, self.megabytes, self.rng = program, megabytes, rng
        self.ended, self.slowest = {}, 0.0

    def run(self, words, asked):
        most = SECONDS * max(1.0, asked / 1e7)
        status, text, said, seconds = run(self.program, words, self.megabytes, 60 + most)
        self.ended[words[0], status] = self.ended.get((words[0], status), 0) + 1
        self.slowest = max(self.slowest, seconds)
        return status, text, wrong_run(status, text, said, seconds, most)

    def show(self, path, is_cut):
        gnu, budget = self.rng.choice((([], BUDGET), (["--gnu"], GNU_BUDGET)))
        words = ["show", "--headers", "65279", "--max-read", str(budget), *gnu, path]
        status, text, wrong = self.run(words, BUDGET)
        if not wrong and status == 1 and not REFUSED.fullmatch(text[text.rfind(b"\n", 0, -1) + 1:]):
            wrong = "no line of a refusal"
        if not wrong and is_cut:
            words[4] = str(self.rng.choice((0, 63, 64, 1000, 5000, 20000, self.rng.randrange(budget))))
            cut_status, cut, wrong = self.run(words, BUDGET)
            wrong = wrong or wrong_front(cut, cut_status, text)
        return wrong and "show: " + wrong

    def find(self, path, content, source):
        name = self.rng.choice(source.names) if source.names else b"main"
        steps = len(content) // 4
        asked = 76 + 64 * 65279 + steps * (28 + 64 * ((len(name) + 64) // 64))
        status, text, wrong = self.run(["find", "--headers", "65279", "--", path, name], asked)
        forms = (FOUND,) if status == 0 else (ABSENT, REFUSED)
        if not wrong and not any(form.fullmatch(text) for form in forms):
            wrong = "status %d with %r" % (status, text[:200])
        return wrong and "find %r: %s" % (name, wrong)

    def apply(self, path, content, source):
        words = list(self.rng.choice(source.sections)) if source.sections else ["1", "at:1=0x1000"]
        if self.rng.random() < 0.3:
            words = [word.replace("def:", self.rng.choice(("def:", "plt:", "got:", "tpgot:"))) for word in words]
        if self.rng.random() < 0.1:
            del words[self.rng.randrange(1, len(words) + 1):]
        asked = bytes_of_apply(content, words) if len(content) >= 64 else 0
        status, text, wrong = self.run(["apply", "--headers", "65279", path, *words], asked)
        wanted = applied.answer(content, words)
        if not wrong and (status, text) != wanted:
            wrong = "status %s with %r, and not %s with %r" % (status, text[:80], wanted[0], wanted[1][:80])
        return wrong and "apply %s: %s" % (" ".join(words), wrong)


def main():
    parser = option_reader(__doc__)
    parser.add_argument("--copies", type=int, default=10000)
    parser.add_argument("--seed", type=int, default=1)
    parser.add_argument("--keep", default=None)
    given = parser.parse_args()
    program = program_of(given)
    folder = given.keep or tempfile.mkdtemp()
    os.makedirs(folder, exist_ok=True)
    rng = random.Random(given.seed)
    files = sources(folder)
    rich = [source for source in files if source.names or source.sections]
    if not files:
        sys.exit("no ELF64 file was found")
    tries = Tries(program, memory(program, "/bin/true"), rng)
    failures = 0
    for index in range(given.copies):
        source = rng.choice(rich if rich and index % 2 else files)
        content = changed_files.changed(rng, source.content())
        path = os.path.join(folder, "copy")
        with open(path, "wb") as file:
            file.write(content)
        wrong = (tries.show(path, index % 4 == 0) or tries.find(path, content, source)
                 or tries.apply(path, content, source))
        if wrong:
            failures += 1
            kept = os.path.join(folder, "copy-%d" % index)
            os.rename(path, kept)
            print("FAILED %s, of %s: %s" % (kept, source.path, wrong), flush=True)
    for (command, status), count in sorted(tries.ended.items()):
        print("%s: %d with status %s" % (command, count, status))
    print("%d copies of %d files, %d of them with a hash table or relocation entries; the slowest run took "
          "%.2f s, all within %d MB of addresses"
          % (given.copies, len(files), len(rich), tries.slowest, tries.megabytes))
    print("%d passed, %d failed" % (given.copies - failures, failures))
    return 1 if failures else 0


if __name__ == "__main__":
    sys.exit(main())
