"""The crates of a tree, from crates.txt, and whether the library of one is newer than its sources."""

import collections
import os
import re

PARTS = ("src", "specs", "proofs")
FUNCTION = re.compile(r"^\s*(?:pub(?:\(crate\))? )?(?:const )?fn ", re.M)

# How many bytes of source are proved in a second, if nothing was measured.
BYTES_A_SECOND = 1000

# A crate: its name, what it uses, which of that are crates of the tree, the seconds that its proof takes, and
# how many functions it has.
Crate = collections.namedtuple("Crate", "name uses below weight functions")


def files_of(folder):
    for here, _, names in os.walk(folder):
        for name in names:
            yield os.path.join(here, name)


def seconds_of(top):
    """What the proof of each crate took when it was measured."""
    with open(os.path.join(top, "packaging", "seconds"), encoding="utf-8") as file:
        rows = [line.split() for line in file if not line.startswith("#")]
    return {name: float(seconds) for name, seconds in rows}


def crates_of(top, last):
    """The crates on which one depends, all of them, the lowest first, and itself."""
    lines, seconds = {}, seconds_of(top)
    with open(os.path.join(top, "crates.txt"), encoding="utf-8") as file:
        for line in file:
            name, colon, below = line.partition("#")[0].partition(":")
            if colon:
                lines[name.split()[0]] = below.split()
    wanted = [last]
    for name in wanted:
        wanted += [each for each in lines[name] if each in lines and each not in wanted]
    for name in lines:
        if name in wanted:
            size = sum(map(os.path.getsize, sources_of(top, name)))
            functions = 0
            for path in files_of(os.path.join(top, "crates", name, "src")):
                with open(path, encoding="utf-8") as source:
                    functions += len(FUNCTION.findall(source.read()))
            below = [each for each in lines[name] if each in lines]
            yield Crate(name, lines[name], below, seconds.get(name, size / BYTES_A_SECOND), functions)


def newest(paths):
    return max((os.stat(path).st_mtime for path in paths), default=0)


def sources_of(top, name):
    """All files that a proof of a crate reads of the crate itself."""
    return [path for part in PARTS for path in files_of(os.path.join(top, "crates", name, part))]
