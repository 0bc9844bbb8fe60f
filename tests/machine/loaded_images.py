#!/usr/bin/env python3
"""Compares `image` with the memory of programs, as glibc's loader leaves it before the first initializer is called.

    tests/machine/loaded_images.py --program PROGRAM [--most N] [FILE..]

Each program is started and stopped where the loader tells debuggers that all objects are relocated, the second call
of _dl_debug_state. Each LOAD segment of each object of it is compared with `image --leave` by the base alone: those
that are not writable, byte for byte; the others outside of the places of `image --missing` and of what the loader
writes for itself: the dynamic entries, two words at DT_PLTGOT, its own variables, and at most 16 words of libc.
Without arguments the programs are those of /usr/bin, at most N of them, 30 if none is given. It needs Python 3, and
is skipped where a process may not be traced. The last line is `N passed, N failed`."""

import argparse
import ctypes
import os
import signal
import struct
import subprocess
import sys

LIBC = ctypes.CDLL(None, use_errno=True)
LIBC.ptrace.argtypes = (ctypes.c_long, ctypes.c_long, ctypes.c_void_p, ctypes.c_void_p)
LIBC.ptrace.restype = ctypes.c_long
TRACEME, POKETEXT, CONT, KILL, GETREGS, SETREGS = 0, 4, 7, 8, 12, 13
RIP = 16
PAGE = 4096
# How many words of libc its loader sets.
LIBC_WORDS = 16


class Traced(Exception):
    """A process may not be traced here."""


def trace(request, process, address=None, data=None):
    """A request to the kernel."""
    if LIBC.ptrace(request, process, address, data) < 0:
        raise Traced(os.strerror(ctypes.get_errno()))


class Object:
    """A file that is loaded, with what its headers and dynamic entries say."""

    def __init__(self, path):
        self.path = path
        with open(path, "rb") as file:
            self.data = file.read()
        at, count = struct.unpack_from("<Q", self.data, 32)[0], struct.unpack_from("<H", self.data, 56)[0]
        self.segments = [struct.unpack_from("<IIQQQQQQ", self.data, at + 56 * i) for i in range(count)]
        self.loads = [(i, s) for i, s in enumerate(self.segments) if s[0] == 1]
        self.dynamic = next((s for s in self.segments if s[0] == 2), None)
        self.tags = {}
        if self.dynamic:
            for at in range(self.dynamic[2], self.dynamic[2] + self.dynamic[5], 16):
                tag, value = struct.unpack_from("<QQ", self.data, at)
                self.tags.setdefault(tag, value)

    def offset(self, address):
        """The offset of an address in the file."""
        return next(address - s[3] + s[2] for _, s in self.loads if s[3] <= address < s[3] + s[5])

    def symbol(self, index):
        """The fields of a dynamic symbol."""
        return struct.unpack_from("<IBBHQQ", self.data, self.offset(self.tags[6]) + 24 * index)

    def address_of(self, name):
        """The value of a dynamic symbol."""
        strings = self.offset(self.tags[5])
        for index in range(1, (self.tags[5] - self.tags[6]) // 24):
            at = strings + self.symbol(index)[0]
            if self.data[at:at + len(name) + 1] == name + b"\0":
                return self.symbol(index)[4]
        return None


def words_of(process):
    """The auxiliary vector of a process."""
    with open(f"/proc/{process}/auxv", "rb") as file:
        data = file.read()
    return dict(struct.iter_unpack("<QQ", data))


def read(process, address, size):
    """Bytes of a process."""
    with open(f"/proc/{process}/mem", "rb") as file:
        file.seek(address)
        return file.read(size)


def stopped(path):
    """A process of a program, stopped once its objects are relocated; None if it has no such loader."""
    process = os.fork()
    if process == 0:
        try:
            trace(TRACEME, 0)
            null = os.open("/dev/null", os.O_RDWR)
            for descriptor in range(3):
                os.dup2(null, descriptor)
            os.execve(path, [path], {"LD_BIND_NOW": "1"})
        finally:
            os._exit(127)
    if not os.WIFSTOPPED(os.waitpid(process, 0)[1]):
        return None
    base = words_of(process).get(7, 0)
    loader = next((name for start, name in mappings(process) if start == base), None)
    found = Object(loader).address_of(b"_dl_debug_state") if loader else None
    if found is None:
        end(process)
        return None
    place = base + found
    word = struct.unpack("<Q", read(process, place, 8))[0]
    for _turn in range(2):
        trace(POKETEXT, process, place, word & ~0xff | 0xcc)
        trace(CONT, process)
        if not os.WIFSTOPPED(os.waitpid(process, 0)[1]):
            return None
        step_back(process, place, word)
        if _turn == 0:
            single_step(process)
    return process


def step_back(process, place, word):
    """Puts back the byte of a breakpoint, and the process before it."""
    trace(POKETEXT, process, place, word)
    registers = (ctypes.c_ulonglong * 27)()
    trace(GETREGS, process, None, ctypes.addressof(registers))
    registers[RIP] = place
    trace(SETREGS, process, None, ctypes.addressof(registers))


def single_step(process):
    """Makes a process take one instruction."""
    trace(9, process)
    os.waitpid(process, 0)


def end(process):
    """Ends a process."""
    os.kill(process, signal.SIGKILL)
    os.waitpid(process, 0)


def mappings(process):
    """The address and the path of each file that is mapped from its start."""
    with open(f"/proc/{process}/maps", encoding="utf-8", errors="surrogateescape") as file:
        for line in file:
            fields = line.rstrip("\n").split(None, 5)
            if len(fields) == 6 and fields[5].startswith("/") and int(fields[2], 16) == 0:
                yield int(fields[0].split("-")[0], 16), fields[5]


def left_out(program, loaded, base):
    """The ranges of addresses of a file that are not compared."""
    done = subprocess.run([program, "image", "--missing", loaded.path, f"base={base % (1 << 64):#x}"],
                          stdout=subprocess.PIPE, check=False)
    for line in done.stdout.decode().splitlines():
        fields = line.split()
        width = {"COPY": loaded.symbol(int(fields[4]))[5], "TLSDESC": 16}.get(fields[3], 8)
        yield int(fields[2], 16), width
    if loaded.dynamic:
        yield loaded.dynamic[3], loaded.dynamic[5]
    if 3 in loaded.tags:
        yield loaded.tags[3] + 8, 16


def compare(program, process, loaded, base, is_loader):
    """What differs in a file that is loaded: of each segment a line."""
    ranges = list(left_out(program, loaded, base))
    for index, segment in loaded.loads:
        address, size, writable = segment[3], segment[6], segment[1] & 2
        done = subprocess.run([program, "image", "--leave", loaded.path, str(index), f"base={base % (1 << 64):#x}"],
                              stdout=subprocess.PIPE, check=False)
        if done.returncode != 0 or len(done.stdout) != size:
            yield f"segment {index}: status {done.returncode}, {done.stdout[:60]!r}"
            continue
        if writable and is_loader:
            continue
        image, memory = bytearray(done.stdout), bytearray(read(process, base + address, size))
        if writable:
            for first, width in ranges:
                low, high = max(first - address, 0), min(first + width - address, size)
                if low < high:
                    image[low:high] = memory[low:high]
        differ = sorted({i // 8 for i in range(size) if image[i] != memory[i]}) if image != memory else []
        most = LIBC_WORDS if writable and os.path.basename(loaded.path).startswith("libc.so") else 0
        if len(differ) > most:
            places = " ".join(f"{address + 8 * i:x}" for i in differ[:12])
            yield f"segment {index}: {len(differ)} words differ: {places}"


def main():
    reader = argparse.ArgumentParser(description=__doc__, formatter_class=argparse.RawDescriptionHelpFormatter)
    reader.add_argument("--program", required=True)
    reader.add_argument("--most", type=int, default=30)
    reader.add_argument("files", nargs="*")
    given = reader.parse_args()
    paths = given.files or sorted(os.path.join("/usr/bin", name) for name in os.listdir("/usr/bin"))
    passed = failed = programs = 0
    for path in paths:
        if programs >= given.most:
            break
        try:
            with open(path, "rb") as file:
                if file.read(5) != b"\x7fELF\2" or os.path.islink(path) or os.stat(path).st_mode & 0o6000:
                    continue
            process = stopped(path)
        except (OSError, Traced) as fault:
            print(f"skipped {path}: {fault}")
            continue
        if process is None:
            continue
        programs += 1
        loader = words_of(process).get(7, 0)
        for start, name in list(mappings(process)):
            if read(process, start, 4) != b"\x7fELF":
                continue
            loaded = Object(name)
            base = start - loaded.loads[0][1][3] // PAGE * PAGE
            wrong = list(compare(given.program, process, loaded, base, start == loader))
            passed, failed = passed + (not wrong), failed + bool(wrong)
            for line in wrong:
                print(f"FAILED {path}: {name}: {line}")
        end(process)
    print(f"{passed} passed, {failed} failed")
    return 1 if failed else 0


sys.exit(main())
