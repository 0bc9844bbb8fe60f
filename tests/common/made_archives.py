"""Generated archives, for tests: what an archive consists of, odd ones, and what each lists."""

import re
import struct

MAGIC = b"!<arch>\n"
NAME_TABLE = b"//".ljust(16)


def header(name, size, mark=b"`\n"):
    return name.ljust(16) + b"0           0     0     644     " + size.ljust(10) + mark


def member(name, content):
    return header(name, b"%d" % len(content)) + content + b"\n" * (len(content) % 2)


def bsd_member(name, content, nuls=0):
    """A member with its name at the beginning of its data, and a given number of NULs after it."""
    front = name + bytes(nuls)
    return member(b"#1/%d" % len(front), front + content)


def small_elf():
    """An ELF file of two section headers, the second of a type that only the GNU system names."""
    sections = bytes(64) + struct.pack("<IIQQQQIIQQ", 0, 0x6ffffff6, 0, 0, 0, 0, 0, 0, 0, 0)
    return struct.pack("<16sHHIQQQIHHHHHH", b"\x7fELF\2\1\1", 1, 62, 1, 0, 0, 64, 0, 64, 0, 0, 64, 2, 0) + sections


def odd_archives():
    """Archives, and what is none, by what is odd in each."""
    long_name, table = b"n" * 4095 + b"/\n", member(b"//", b"one.o/\ntwo.o\n/\n\nlast/")
    whole = MAGIC + member(b"/", b"\0\0\0\0") + table + member(b"/0", b"odd") + member(b"a b.o/", b"")
    archives = {
        "nothing": b"", "seven bytes": MAGIC[:7], "no member": MAGIC, "thin": b"!<thin>\n" + member(b"a/", b""),
        "other magic": b"!<arch>\r" + member(b"a/", b""), "whole": whole, "no padding": MAGIC + member(b"a/", b"odd")[:-1],
        "mark": MAGIC + header(b"a/", b"0", b"``"), "no size": MAGIC + header(b"a/", b""),
        "size of letters": MAGIC + header(b"a/", b"x"), "size with a hole": MAGIC + header(b"a/", b"0 0"),
        "negative size": MAGIC + header(b"a/", b"-1"), "size with a space first": MAGIC + header(b"a/", b" 0"),
        "largest size": MAGIC + header(b"a/", b"9999999999"), "a byte too many": MAGIC + header(b"a/", b"1"),
        "spaces": MAGIC + member(b"", b"x"), "an ELF file": MAGIC + member(b"a/", small_elf()),
        "name with spaces": MAGIC + member(b"a b  c", b""), "sixteen bytes": MAGIC + member(b"0123456789abcdef", b""),
        "bytes of any kind": MAGIC + member(b"\0\\\xff\n", b""), "slash and no number": MAGIC + member(b"/x", b""),
        "number and no table": MAGIC + member(b"/0", b""), "number and letters": MAGIC + table + member(b"/1x", b""),
        "largest number": MAGIC + table + member(b"/999999999999999", b""), "two tables": MAGIC + table
        + member(b"//", b"other/\n") + member(b"/0", b""), "table after": MAGIC + member(b"/0", b"") + table,
        "empty table": MAGIC + member(b"//", b"") + member(b"/0", b""), "archive in one": MAGIC + member(b"a.a/", whole),
        "symbols of 64 bits": MAGIC + member(b"/SYM64/", bytes(8)) + member(b"a/", b""),
        "refused, and the next": MAGIC + member(b"a/", small_elf()[:63]) + member(b"b/", small_elf()),
    }
    for offset in range(len(b"one.o/\ntwo.o\n/\n\nlast/") + 2):
        archives[f"name at {offset}"] = MAGIC + table + member(b"/%d" % offset, b"")
    for length in range(0, len(whole), 7):
        archives[f"cut at {length}"] = whole[:length]
    for length in range(4093, 4101):
        names = member(b"//", b"n" * length + b"/\n" + long_name)
        archives[f"name of {length} bytes"] = MAGIC + names + member(b"/0", b"") + member(b"/%d" % (length + 2), b"")
        names = member(b"//", b"n" * length)
        archives[f"name of {length} bytes without an end"] = MAGIC + names + member(b"/0", b"") + member(b"/9", b"")
        for nuls in range(4):
            archives[f"BSD name of {length} bytes and {nuls}"] = MAGIC + bsd_member(b"n" * length, b"x", nuls)
        archives[f"BSD name of {length} bytes with NULs inside"] = MAGIC + bsd_member(b"n" * length + bytes(3) + b"n", b"")
    archives.update(bsd_archives())
    return archives


def bsd_archives():
    """Archives with names at the beginning of the data, by what is odd in each."""
    behind = member(b"b/", b"")
    archives = {
        "BSD name": MAGIC + member(b"#1/20", b"a_long_name_as_of_BSD" + b"content"),
        "BSD index": MAGIC + bsd_member(b"__.SYMDEF SORTED", bytes(8), 4) + bsd_member(b"a name.o", small_elf(), 4),
        "BSD name of no bytes": MAGIC + member(b"#1/0", b"xy") + behind,
        "BSD name of all bytes": MAGIC + member(b"#1/2", b"ab") + behind,
        "BSD name past the data": MAGIC + behind + member(b"#1/3", b"ab") + behind,
        "BSD name past the file": MAGIC + member(b"#1/4096", b"ab"),
        "BSD name of NULs": MAGIC + bsd_member(b"", b"xy", 3) + behind,
        "BSD name with NULs inside": MAGIC + bsd_member(b"a\0\0b", b"", 2) + behind,
        "BSD name of two slashes": MAGIC + bsd_member(b"//", b"a/\n") + member(b"/0", b""),
        "BSD name of a number": MAGIC + bsd_member(b"/0", b"") + behind,
        "BSD ELF file": MAGIC + bsd_member(b"elf.o", small_elf(), 3) + behind,
        "BSD ELF file in the name": MAGIC + bsd_member(b"\x7fELF", b"\x7fELG") + behind,
    }
    for digits in (b"2", b"02", b"0000000000002", b"00000000000002", b"2x", b"x", b"", b" 2", b"1 2", b"-2", b"9999999999999"):
        archives[f"BSD name of '{digits.decode()}' bytes"] = MAGIC + member(b"#1/" + digits, b"ab") + behind
    for field in (b"#1", b"#1 /2", b"#2/2", b"!1/2", b"#1-2", b"1/2", b" #1/2"):
        archives[f"nearly BSD's: {field.decode()}"] = MAGIC + member(field, b"ab") + behind
    for name in range(3):
        for size in range(3):
            archives[f"BSD name of {name}, data of {size}"] = MAGIC + bsd_member(b"n" * name, b"d" * size) + behind
    return archives


def spelt(name):
    """A name as the lines escape it."""
    return b"".join(b"\\\\" if byte == 0x5c else bytes([byte]) if 0x20 <= byte <= 0x7e else b"\\x%02x" % byte
                    for byte in name)


def shown(name, cap):
    return spelt(name[:cap]) + (b"\\+" if len(name) > cap else b"")


class Fault(Exception):
    """There is no member at an offset, or its name is malformed."""


def name_of(field, content, table, cap):
    """What is shown of a member's name, and the data after it if it is at their beginning."""
    bsd, long = re.fullmatch(rb"#1/([0-9]{1,13}) *", field), re.fullmatch(rb"/([0-9]{1,15}) *", field)
    if bsd:
        size = int(bsd[1])
        if size > len(content):
            raise Fault("member-cut")
        return shown(content[:min(size, cap + 2)].rstrip(b"\0"), cap), content[size:]
    if not long:
        place = field.find(b"/")
        return shown(field[:place] if place > 0 else field.rstrip(b" "), cap), content
    offset = int(long[1])
    if table is None or offset >= len(table):
        raise Fault("name-outside")
    front = table[offset:offset + cap + 2]
    if b"\n" in front:
        return shown(re.sub(rb"/\Z", b"", front[:front.index(b"\n")]), cap), content
    if len(front) < cap + 2:
        raise Fault("name-unended")
    return shown(front, cap), content


def walked(archive, cap=63):
    """The members of an archive by the rules, a second time: of each its line and its data; and the cause and the
    offset of what ends the walk before the file does, or None."""
    if len(archive) < 8 or archive[:8] != MAGIC:
        return [], ("short" if len(archive) < 8 else "thin" if archive[:8] == b"!<thin>\n" else "not-archive", 0)
    found, at, table = [], 8, None
    while at < len(archive):
        head = archive[at:at + 60]
        size = re.fullmatch(rb"([0-9]{1,10}) *", head[48:58])
        if len(head) < 60 or head[58:] != b"`\n" or not size or at + 60 + int(size[1]) > len(archive):
            return found, ("member-cut", at)
        content = archive[at + 60:at + 60 + int(size[1])]
        try:
            name, data = name_of(head[:16], content, table, cap)
        except Fault as fault:
            return found, (str(fault), at)
        end = at + 60 + len(content)
        found.append((b"A %5d %016x %016x %s\n" % (len(found), end - len(data), len(data), name), data))
        if table is None and head[:16] == NAME_TABLE:
            table = content
        at = end + len(content) % 2
    return found, None


def changed(rng, content):
    """A copy with a few bytes changed, most of them in the headers of members, or cut."""
    copy, ends = bytearray(content), [at.end() for at in re.finditer(b"`\n", content)]
    for _ in range(rng.randrange(5)):
        at = rng.choice(ends) - rng.randrange(1, 61) if ends and rng.random() < 0.8 else rng.randrange(len(copy) + 1)
        if 0 <= at < len(copy):
            copy[at] = rng.choice(b"0123456789  //`\n#-\0\xff")
    return bytes(copy[:rng.randrange(len(copy) + 1)] if rng.random() < 0.2 else copy)
