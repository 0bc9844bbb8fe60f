"""The versions that objects of a program need and that others define, by their segments: for the second implementation of
`elfsee needs`."""

import struct

from applied import Refused, is_named, refuse_where
from looked_up import NUMBERS, T_VERDEF, T_VERNEED, T_VERSYM, Records
from needed_files import whole_text

WEAK = 2


class NeededVersion:
    """A version that an object needs: the file's name, the version's name, its hash, and whether the need is weak."""

    def __init__(self, file, name, value, is_weak):
        self.file, self.name, self.hash, self.is_weak = file, name, value, is_weak


def records_of(file, tag):
    """The table of records that a dynamic entry locates, or None."""
    scope = file.scope
    if tag not in scope.entries:
        return None
    return Records(scope.rest(scope.entries[tag]), scope.strings)


def needed_versions(file):
    """Each version that a file needs, in the order of its records."""
    table = records_of(file, T_VERNEED)
    if table is None or not table.size:
        return
    content, strings = file.content, table.strings
    place, led_by, met, most = 0, table.at, 0, table.size // 16
    while True:
        at = table.offset + place
        refuse_where(place + 16 > table.size or met >= most, led_by, "version-cut")
        version, _, file_name, first, behind = struct.unpack_from("<2H3I", content, at)
        refuse_where(version != 1, at, "version")
        met += 1
        name = whole_text(content, strings.offset, strings.size, file_name, at)
        inner, led_by = place + first, at
        while True:
            there = table.offset + inner
            refuse_where(inner + 16 > table.size or met >= most, led_by, "version-cut")
            value, flags, number, version_name, further = struct.unpack_from("<I2H2I", content, there)
            refuse_where(number % 0x8000 >= NUMBERS, there, "version-index")
            met += 1
            yield NeededVersion(name, whole_text(content, strings.offset, strings.size, version_name, there), value, flags & WEAK != 0)
            if not further:
                break
            inner, led_by = inner + further, there
        if not behind:
            return
        place, led_by = place + behind, at


def defines(file, table, wanted):
    """Whether one of the definitions is the version that is needed; each before it is read."""
    content, strings = file.content, table.strings
    place, led_by, met = 0, table.at, 0
    while table.size:
        at = table.offset + place
        refuse_where(place + 20 > table.size or met >= table.size // 20, led_by, "version-cut")
        version, _, number, _, value, first, behind = struct.unpack_from("<4H3I", content, at)
        refuse_where(version != 1, at, "version")
        refuse_where(number % 0x8000 >= NUMBERS, at, "version-index")
        refuse_where(place + first + 8 > table.size, at, "version-cut")
        met += 1
        name, = struct.unpack_from("<I", content, at + first)
        if value == wanted.hash and is_named(content, strings, name, at + first, wanted.name):
            return True
        if not behind:
            break
        place, led_by = place + behind, at
    return False


def state_in(file, wanted):
    """The state of a version that is needed of a file that is found; None if there is nothing to say."""
    entries = file.scope.entries
    if T_VERDEF not in entries:
        return None if T_VERSYM in entries else "bare"
    try:
        is_there = defines(file, records_of(file, T_VERDEF), wanted)
    except Refused:
        return "refused"
    return None if is_there or wanted.is_weak else "nover"
