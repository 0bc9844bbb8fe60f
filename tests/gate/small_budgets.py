#!/usr/bin/env python3
"""Runs `check --members` and `list --members` within each budget from 0 to 200 bytes and without one, over files of each
length from 0 to 200 that begin as an ELF file, as an archive, as a thin archive or as neither, `check` and `list` with
the same up to 80 bytes, and `traits` up to 144. Compares each answer with that of a second implementation of the rules:
which bytes are read in which order, and what the file is by them. Options: --program PROGRAM.
"""

import bisect
import concurrent.futures
import os
import subprocess
import sys
import tempfile

sys.dont_write_bytecode = True
sys.path[:0] = [os.path.join(os.path.dirname(os.path.realpath(__file__)), "..", name) for name in ("common", "again")]
import hardened
from applied import Refused
from reported import MAGIC, Wish, report
from testing import option_reader, program_of

MOST = 200
RELOCATABLE = 1  # ET_REL, at 16
HEADER = MAGIC + b"\2\1\1" + bytes(9) + b"\1\0\x3e\0\1\0\0\0" + bytes(40)
ARCHIVE, THIN = b"!<arch>\n", b"!<thin>\n"
TEXT = (b"hello world\n" * 17)[:MOST]


def member(name, content):
    return b"%-16s%-12d%-6d%-6d%-8s%-10d`\n" % (name, 0, 0, 0, b"100644", len(content)) + content


# Of each kind the longest file, of which each other one is a prefix: of the archives one has a member that is refused and
# one that is no ELF file, the other such a one and a whole ELF file.
KINDS = {"elf": HEADER + bytes(MOST - 64), "refused": ARCHIVE + member(b"a.o/", HEADER[:12]) + member(b"b/", TEXT[:60]),
         "whole": ARCHIVE + member(b"a/", b"text") + member(b"b.o/", HEADER) + b"\n" * 4,
         "thin": THIN + member(b"a.o/", HEADER) + bytes(68), "text": TEXT}
LISTED = report(HEADER, Wish())[0]


class Reader:
    """A file of which so many bytes may be read; no limit where that is None. `asked` is what was read after each read."""

    def __init__(self, content, most):
        self.content, self.left, self.asked = content, most, [0]

    def __len__(self):
        return len(self.content)

    def read(self, at, size):
        if self.left is not None:
            if size > self.left:
                raise Refused(at, "budget")
            self.left -= size
        self.asked.append(self.asked[-1] + size)
        return self.content[at:at + size]


def decided(file, members):
    """What a file is, by four of its first bytes, or if archives are looked into by eight."""
    if len(file) < 4:
        return "other"
    front = file.read(0, 8 if members and len(file) >= 8 else 4)
    if front[:4] == MAGIC:
        return "elf"
    return {ARCHIVE: "archive", THIN: "thin"}.get(front, "other")


def lines_of_elf(file):
    """The listing of an ELF file, which reads its file header alone: it has nothing else."""
    if len(file) < 64:
        raise Refused(len(file), "short")
    if file.read(0, 64)[:4] != MAGIC:
        raise Refused(0, "not-elf")
    return LISTED


def members_of(file):
    """The members of an archive of which the magic string was read: of each its name, its place and its size."""
    at = 8
    while at < len(file):
        if len(file) < at + 60:
            raise Refused(at, "member-cut")
        head = file.read(at, 60)
        size = int(head[48:58])
        if len(file) < at + 60 + size:
            raise Refused(at, "member-cut")
        yield head[:16].decode().rstrip("/ "), at + 60, size
        at += 60 + size + size % 2


def lines_of_members(file, lines):
    """The listing of an archive, put after some lines. Returns whether a member is refused."""
    refused = False
    for number, (name, at, size) in enumerate(members_of(file)):
        lines.append("A %5d %016x %016x %s" % (number, at, size, name))
        if size < 4 or file.read(at, 4) != MAGIC:
            continue
        if size < 64:
            refused = True
            lines.append("! %016x short" % size)
            continue
        file.read(at, 64)
        lines += LISTED
    return refused


def check_members(file):
    """Reads an archive up to its first fault."""
    for _, at, size in members_of(file):
        if size < 4 or file.read(at, 4) != MAGIC:
            continue
        if size < 64:
            raise Refused(at + size, "short")
        file.read(at, 64)


def checked(path, file, members):
    state, fault = "ok", None
    try:
        kind = decided(file, members) if members or len(file) < 64 else "elf"
        if kind == "thin":
            raise Refused(0, "thin")
        if kind == "elf":
            lines_of_elf(file)
        elif kind == "archive":
            check_members(file)
        else:
            state = "no-elf"
    except Refused as refusal:
        state, fault = ("no-elf", None) if refusal.args[1] == "not-elf" else ("refused", refusal.args)
    return "C %-12s %s %s\n" % (state, "%016x %s" % fault if fault else "-", path), 1 if fault else 0


def listed(path, file, members):
    lines, fault = ["@ " + path], False
    try:
        kind = decided(file, members)
        if kind in ("thin", "other"):
            return "", 0
        if kind == "elf":
            lines += lines_of_elf(file)
        else:
            # The magic string is read once more.
            file.read(0, 8)
            fault = lines_of_members(file, lines)
    except Refused as refusal:
        fault = True
        lines.append("! %016x %s" % refusal.args)
    return "".join(line + "\n" for line in lines), 1 if fault else 0


def hardening(path, file, members):
    try:
        if len(file) < 64 and decided(file, False) == "other":
            return "", 0
        lines_of_elf(file)
        if file.content[16] == RELOCATABLE:
            file.read(0, 64)  # once more, for its section headers
    except Refused as refusal:
        if refusal.args[1] == "not-elf":
            return "", 0
        return "C %-12s %016x %s %s\n" % ("refused", *refusal.args, path), 1
    return hardened.told(path.encode(), file.content)


# Each command with its second implementation, whether members are read, and the largest budget and file.
COMMANDS = [(["check"], checked, False, 80), (["check", "--members"], checked, True, MOST), (["list"], listed, False, 80),
            (["list", "--members"], listed, True, MOST), (["traits"], hardening, False, 144)]


def answers_of(answer, path, content, members):
    """The answers about a file, and the smallest budget of each but the first."""
    whole = Reader(content, None)
    last = answer(path, whole, members)
    costs = whole.asked[1:]
    return costs, [answer(path, Reader(content, cost - 1), members) for cost in costs] + [last]


def compared(program, words, budgets, paths, top):
    """What is wrong with the answers of a command within a budget, or None; `budgets` are those from which on the answers
    about each path are others."""
    most = int(words[-1]) if "--max-read" in words else sys.maxsize
    done = subprocess.run([program, *words, *paths], stdout=subprocess.PIPE, stderr=subprocess.PIPE, cwd=top, text=True,
                          check=False)
    each = [answers[bisect.bisect_right(costs, most)] for costs, answers in budgets]
    wanted = ("".join(text for text, _ in each), max(status for _, status in each), "")
    if (done.stdout, done.returncode, done.stderr) == wanted:
        return None
    pairs = zip(wanted[0].splitlines(), done.stdout.splitlines())
    wrong = next((pair for pair in pairs if pair[0] != pair[1]), (wanted[1:], (done.returncode, done.stderr)))
    return f"FAILED {' '.join(words)}: wanted {wrong[0]!r}, got {wrong[1]!r}"


def main():
    program = program_of(option_reader(__doc__).parse_args())
    files = {"%s%03d" % (kind, size): content[:size] for kind, content in KINDS.items() for size in range(MOST + 1)}
    passed = failed = 0
    with tempfile.TemporaryDirectory() as top, concurrent.futures.ThreadPoolExecutor(os.cpu_count()) as pool:
        for path, content in files.items():
            with open(os.path.join(top, path), "wb") as file:
                file.write(content)
        runs = []
        for words, answer, members, largest in COMMANDS:
            paths = [path for path, content in files.items() if len(content) <= largest]
            budgets = [answers_of(answer, path, files[path], members) for path in paths]
            for most in (None, *range(largest + 1)):
                limit = [] if most is None else ["--max-read", str(most)]
                runs.append(pool.submit(compared, program, words + limit, budgets, paths, top))
        for wrong in (run.result() for run in runs):
            passed, failed = passed + (wrong is None), failed + (wrong is not None)
            if wrong:
                print(wrong)
    print(f"{passed} passed, {failed} failed")
    return 1 if failed or not passed else 0


if __name__ == "__main__":
    sys.exit(main())
