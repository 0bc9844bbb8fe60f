"""Loader's caches, as ldconfig writes them: made ones, and the path that one gives for a name, computed a second time by the rules
of the GNU loader (glibc, elf/dl-cache.c), for the scripts beside this module."""

import functools
import struct

NEW_MAGIC, OLD_MAGIC = b"glibc-ld.so.cache1.1", b"ld.so-1.7.0"
X86_64 = 0x303
TEXT_BYTES = 4096
DIGITS = b"0123456789"


def signed(number):
    """The low 32 bits as a signed number."""
    return (number + 0x80000000) % 0x100000000 - 0x80000000


def compare(left, right):
    """Less than, equal to or greater than 0, as one name compares with another, character by character."""
    i = j = 0
    left, right = left + b"\0", right + b"\0"
    while left[i]:
        if left[i] in DIGITS and right[j] in DIGITS:
            first, i = run(left, i)
            second, j = run(right, j)
            if first != second:
                return signed(first - second)
        elif left[i] in DIGITS:
            return 1
        elif right[j] in DIGITS:
            return -1
        elif left[i] != right[j]:
            break
        else:
            i, j = i + 1, j + 1
    return byte(left[i]) - byte(right[j])


def byte(value):
    return value - 256 if value > 127 else value


def run(text, at):
    """The number of the digits at an index, and the index after them."""
    number = 0
    while text[at] in DIGITS:
        number, at = signed(10 * number + text[at] - 48), at + 1
    return number, at


class Cache:
    """The entries of a cache, each with its flags, its key, its value and its hwcap."""

    def __init__(self, content):
        self.content, self.entries, self.strings = content, [], 0
        if self.has_new(0):
            self.take_new(0)
        elif content[:11] == OLD_MAGIC and len(content) > 16:
            count, = struct.unpack_from("<I", content, 12)
            end = 16 + 12 * count
            if end > len(content):
                return
            if self.has_new(-(-end // 8) * 8):
                self.take_new(-(-end // 8) * 8)
            else:
                self.strings = end
                self.entries = [(*struct.unpack_from("<3I", content, at), 0) for at in range(16, end, 12)]

    def has_new(self, at):
        header = self.content[at:at + 48]
        return len(header) == 48 and header.startswith(NEW_MAGIC) and (header[28] == 0 or header[28] & 3 == 2)

    def take_new(self, at):
        count, = struct.unpack_from("<I", self.content, at + 20)
        if at + 48 + 24 * count <= len(self.content):
            self.strings = at
            self.entries = [tuple(struct.unpack_from("<3IIQ", self.content, at + 48 + 24 * i)[k] for k in (0, 1, 2, 4)) for i in range(count)]

    def text(self, offset):
        at = self.strings + offset
        return self.content[at:at + TEXT_BYTES].split(b"\0")[0] if at < len(self.content) else None

    def order(self, name, index):
        key = self.text(self.entries[index][1])
        return None if key is None else compare(name, key)

    def path(self, name):
        """The path that the cache gives for a name, or None."""
        left, right = 0, len(self.entries) - 1
        while left <= right:
            middle = (left + right) // 2
            order = self.order(name, middle)
            if order is None:
                return None
            if order == 0:
                return self.first(name, middle, right)
            if order < 0:
                left = middle + 1
            else:
                right = middle - 1
        return None

    def first(self, name, middle, right):
        while middle > 0 and self.order(name, middle - 1) == 0:
            middle -= 1
        while middle <= right and self.order(name, middle) == 0:
            flags, _, value, hwcap = self.entries[middle]
            if flags == X86_64 and hwcap == 0 and self.text(value) is not None:
                return self.text(value)
            middle += 1
        return None


def made(rows, shape):
    """A cache of these rows, each a name, a path, and its flags and hwcap where they are not the usual: of the shape `new`, of `old`,
    or `both`, an old one without entries of these names and with a new one after it."""
    rows = [(*row, X86_64, 0)[:4] if len(row) == 2 else row for row in rows]
    rows.sort(key=functools.cmp_to_key(lambda a, b: compare(b[0], a[0])))
    if shape == "both":
        old = OLD_MAGIC + b"\0" + struct.pack("<I", 3) + bytes(36)
        return old + bytes(-len(old) % 8) + made(rows, "new")
    size, base = (24, 48 + 24 * len(rows)) if shape == "new" else (12, 0)
    entries, strings = b"", b""
    for name, path, flags, hwcap in rows:
        key = base + len(strings)
        strings += name + b"\0"
        entries += struct.pack("<3I", flags, key, base + len(strings))
        entries += struct.pack("<IQ", 0, hwcap) if size == 24 else b""
        strings += path + b"\0"
    if shape == "new":
        return NEW_MAGIC + struct.pack("<2IB19x", len(rows), len(strings), 2) + entries + strings
    return OLD_MAGIC + b"\0" + struct.pack("<I", len(rows)) + entries + strings
