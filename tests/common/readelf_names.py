"""Names as readelf and `elfsee show` print them, for tests/machine/against_readelf.py."""

import re

from readelf_words import are_versions_shown

# The caps that `elfsee show` has if none are given: on headers, and on the bytes
# of a name that are shown.
HEADERS = 4096
NAME_BYTES = 256


def unspelt(text):
    """The bytes of a name that elfsee printed, and whether it was cut."""
    out = bytearray()
    at = 0
    while at < len(text):
        if text[at] != "\\":
            out.append(ord(text[at]))
            at += 1
        elif text.startswith("\\\\", at):
            out.append(0x5c)
            at += 2
        elif text.startswith("\\x", at):
            out.append(int(text[at + 2:at + 4], 16))
            at += 4
        elif text[at:] == "\\+":
            return bytes(out), True
        else:
            raise ValueError("a name that elfsee does not print")
    return bytes(out), False


def as_readelf(name):
    """A name as readelf prints it in the C locale: `^A` for the byte 1 and so on.
    (Its output is read byte by byte, so other bytes are themselves.)"""
    text = ""
    for byte in name:
        if byte < 0x20 or byte == 0x7f:
            text += "^" + chr((byte + 0x40) & 0xff)
        else:
            text += chr(byte)
    return text


def same_name(ours, theirs, filled=False):
    """Whether a name of elfsee is readelf's.

    A whole name has at most the cap's bytes.  A cut one has exactly as many, and
    they are a prefix of a longer name.  Where readelf fills the name's column with
    spaces those at the end mean nothing."""
    try:
        name, cut = unspelt(ours)
    except ValueError:
        return False
    front = as_readelf(name)
    if cut:
        longer = theirs.startswith(front) and len(theirs) > len(front)
        return longer and len(name) == NAME_BYTES
    if filled:
        front, theirs = front.rstrip(" "), theirs.rstrip(" ")
    return theirs == front and len(name) <= NAME_BYTES


def same_section_name(ours, theirs):
    """If a file has no table of section names readelf says so in place of a name."""
    if ours == "" and theirs in ("<no-strings>", "<none>"):
        return True
    return same_name(ours, theirs, filled=True)


# What comes after the name of a symbol: its version, and in readelf's list of symbols the number of a needed one.
VERSIONED_NAME = re.compile(r"(.*?)(@@?[^@]+?)?(?: \(\d+\))?", re.DOTALL)


def same_versioned_name(ours, theirs):
    """Whether both the name of a symbol and the version after it are readelf's, which has none
    after a symbol that is called as its version."""
    mine, behind = VERSIONED_NAME.fullmatch(ours).groups()
    other, version = VERSIONED_NAME.fullmatch(theirs).groups()
    return same_name(mine, other) and (behind == version or (version is None and behind.lstrip("@") == mine))


def is_copied(symbol):
    """Whether a row of readelf's symbols is of a defined symbol of a needed version, which has a number there."""
    return symbol["section"] != "UND" and re.search(r"[^@]@[^@]+ \(\d+\)$", symbol["name"]) is not None


def with_two_signs(text):
    """A name followed by one sign and a version, with two signs."""
    return re.sub(r"@([^@]+)$", r"@@\1", text)


def same_symbol_name(ours, theirs, symbol_type, dynamic, section_name):
    """Whether a symbol's names agree.

    In a dynamic table readelf adds the symbol's version, `@NAME (2)` or
    `@@NAME`.  For a section symbol without a name of its own it prints the
    section's; elfsee prints the empty name that the symbol has."""
    if same_name(ours, theirs):
        return True
    if symbol_type == "SECTION" and ours == "":
        if section_name == "<no-strings>":
            return theirs in ("<no-strings>", "<corrupt>")
        return section_name is not None and theirs == section_name
    if not dynamic:
        return False
    if are_versions_shown():
        return same_versioned_name(ours, theirs)
    versioned = re.fullmatch(r"(.*?)@@?[^@ ]+(?: \(\d+\))?", theirs, re.DOTALL)
    return versioned is not None and same_name(ours, versioned.group(1))


def same_relocation_name(ours, theirs, dynamic, nameless):
    """Whether the names of an entry's symbol agree; `nameless` is what readelf prints
    for that symbol if it has no name of its own, which elfsee leaves empty."""
    if same_name(ours, theirs) or (ours == "" and theirs == nameless):
        return True
    if not dynamic:
        return False
    if are_versions_shown():
        return same_versioned_name(ours, theirs)
    versioned = re.fullmatch(r"(.*?)@@?[^@ ]+", theirs, re.DOTALL)
    return versioned is not None and same_name(ours, versioned.group(1))


def same_version_behind(ours, theirs):
    """Whether what readelf has after the name of a symbol is the version that elfsee has: `@NAME`
    if it is hidden, else `@@NAME`; and `@NAME (NUMBER)` if it is one of the needed.

    After a symbol that is called as its version readelf has none, nor for the numbers 0 and 1, but
    if the file's own definition, whose number is 1, has another name than the symbol."""
    found = re.fullmatch(r".*?(@@?)([^@]+?)(?: \((\d+)\))?", theirs, re.DOTALL)
    if found is None:
        return ours["number"] < 2 or same_name(ours["name"], theirs)
    marks, name, number = found.groups()
    if number is None:
        return marks == ("@" if ours["hidden"] else "@@") and same_name(ours["name"], name)
    return marks == "@" and int(number) == ours["number"] and same_name(ours["name"], name)


def same_owner(ours, theirs):
    """Whether a note's names agree.  Of the owners that begin with GA, or with a mark of
    theirs, readelf shows what their letters mean and not the letters."""
    if theirs == "(NONE)":
        return ours == ""
    attribute = re.match(r"(GA)?[*$!+]", ours)
    if attribute is not None:
        return theirs.startswith(attribute.group())
    return same_name(ours, theirs, filled=True)
