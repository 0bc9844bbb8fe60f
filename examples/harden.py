#!/usr/bin/env python3
"""Prints how each program and library in a directory is hardened, one line each.

    examples/harden.py FOLDER

    /usr/bin/ls: relro full, bind now, stack plain, paths none, text fixed, missing none

`relro` is full if the loader makes the whole linkage table read-only; `stack executable`
and `text written` (relocations in code) are undesirable; `missing` names the libraries that
are needed and that are in no directory where the loader looks. Paths and names are escaped as elfsee escapes
names, so that none of them acts on a terminal. For a file that is malformed, that cannot be read, or that has a name
of more than 4,096 bytes, the cause is printed, and the others follow; the same for one that has more dynamic entries
than a program has, or names more places than are worth a look. The exit status is 1 if there is such a file, or one
that misses a library.
"""

import functools
import itertools
import os
import signal
import sys
from typing import List, Optional, Sequence, Tuple

sys.path.insert(0, os.path.join(os.path.dirname(os.path.abspath(__file__)), "..", "library", "python"))
import elfsee
from elfsee import DynamicFlag, DynamicFlag1, DynamicTag, FileType, SegmentFlag, SegmentType

FOLDERS = ("/lib64", "/usr/lib64", "/lib", "/usr/lib", "/usr/local/lib")
# How many bytes of one file may be read, and of one name, how many dynamic entries it may have, and in how many
# places its libraries may be: the files are not trusted.
BUDGET, LONGEST_NAME, MOST_ENTRIES, MOST_PLACES = 100000000, 4096, 1000, 100000


class TooMany(Exception):
    """A file has more of something than a program has."""


@functools.lru_cache(maxsize=None)
def library_folders() -> List[str]:
    """Where the loader looks for libraries: its usual directories, and those that its configuration names."""
    folders, more = list(FOLDERS), "/etc/ld.so.conf.d"
    for name in sorted(os.listdir(more)) if os.path.isdir(more) else []:
        with open(os.path.join(more, name), encoding="utf-8", errors="surrogateescape") as lines:
            folders += [line.strip() for line in lines if line.startswith("/")]
    return folders


def value_of(entries: Sequence[elfsee.Dynamic], tag: int) -> int:
    return next((entry.value for entry in entries if entry.tag == tag), 0)


def texts_of(entries: Sequence[elfsee.Dynamic], *tags: int) -> List[str]:
    return [os.fsdecode(entry.string) for entry in entries if entry.tag in tags and entry.string is not None]


def missing_libraries(path: str, entries: Sequence[elfsee.Dynamic], paths: Sequence[str]) -> List[str]:
    """The needed libraries that are neither in the paths of the file nor where the loader looks."""
    origin = os.path.dirname(os.path.abspath(path))
    folders = [folder.replace("${ORIGIN}", origin).replace("$ORIGIN", origin) for folder in paths] + library_folders()
    names = texts_of(entries, DynamicTag.NEEDED)
    return [name for name in names if not any(os.path.exists(os.path.join(folder, name)) for folder in folders)]


def told_of(path: str, file: elfsee.File) -> Tuple[str, List[str]]:
    """The line for a file, and whether it misses a library."""
    segments = {segment.type: segment for segment in file.segments()}
    entries = list(itertools.islice(file.dynamic(), MOST_ENTRIES + 1))
    if len(entries) > MOST_ENTRIES:
        raise TooMany("it has more than %d dynamic entries" % MOST_ENTRIES)
    flags = value_of(entries, DynamicTag.FLAGS)
    now = any(entry.tag == DynamicTag.BIND_NOW for entry in entries) or flags & DynamicFlag.BIND_NOW \
        or value_of(entries, DynamicTag.FLAGS_1) & DynamicFlag1.NOW
    written = any(entry.tag == DynamicTag.TEXTREL for entry in entries) or flags & DynamicFlag.TEXTREL
    stack = segments.get(SegmentType.GNU_STACK)
    found = texts_of(entries, DynamicTag.RPATH, DynamicTag.RUNPATH)
    folders = sum(each.count(":") + 1 for each in found) + len(library_folders())
    if folders * sum(entry.tag == DynamicTag.NEEDED for entry in entries) > MOST_PLACES or folders > MOST_PLACES:
        raise TooMany("its libraries may be in more than %d places" % MOST_PLACES)
    paths = [folder for each in found for folder in each.split(":")]
    missing = missing_libraries(path, entries, paths)
    relro = "none" if SegmentType.GNU_RELRO not in segments else "full" if now else "partial"
    return "relro %s, bind %s, stack %s, paths %s, text %s, missing %s" % (
        relro, "now" if now else "lazy", "executable" if not stack or stack.flags & SegmentFlag.X else "plain",
        elfsee.spelt(":".join(paths)) or "none", "written" if written else "fixed",
        " ".join(map(elfsee.spelt, missing)) or "none"), missing


def checked(path: str) -> Tuple[Optional[str], bool]:
    """The line for a path, if it is a program or a library, and whether that is a fault."""
    try:
        if os.path.islink(path) or not os.path.isfile(path):
            return None, False
        with open(path, "rb") as file:
            if file.read(4) != b"\x7fELF":
                return None, False
        with elfsee.File(path, budget=BUDGET, longest_name=LONGEST_NAME) as file:
            if file.header.type not in (FileType.EXEC, FileType.DYN):
                return None, False
            told, missing = told_of(path, file)
            return told, bool(missing)
    except elfsee.Refused as refused:
        return "refused: %s" % refused, True
    except (elfsee.Full, TooMany) as much:
        return "refused: %s" % much, True
    except OSError as error:
        return "cannot be read: %s" % error.strerror, True
    except MemoryError:
        return "cannot be read: there is no memory for it", True


def main(top: str) -> int:
    faults = 0
    for folder, _, names in sorted(os.walk(top)):
        for path in (os.path.join(folder, name) for name in sorted(names)):
            told, is_fault = checked(path)
            if told:
                print("%s: %s" % (elfsee.spelt(path), told))
            faults += is_fault
    return 1 if faults else 0


if __name__ == "__main__":
    signal.signal(signal.SIGPIPE, signal.SIG_DFL)
    sys.exit(main(sys.argv[1]) if len(sys.argv) == 2 else __doc__)
