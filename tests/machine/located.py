#!/usr/bin/env python3
"""Tests the symbols and relocation entries that a loader finds in the files of a machine, against readelf.

    tests/machine/located.py [--program PROGRAM] [PATH...]

For each program and library below PATH (/usr/bin and /usr/lib without any) the rows of
`elfsee show --gnu --by-segments --only symbols` are compared with those of `readelf -D -s`: number, value,
size, type, binding, visibility, place and name. Of a GNU hash table without a chain, which does not say how
many symbols there are, readelf lists those before its first symbol alone: these are compared. Then the rows
of relocation entries are compared with those of `readelf -D -r`: offset, symbol's number, name, and addend.
readelf has relative relocations in another place of its order; they are compared apart.

It needs only Python 3 and readelf. The last line is `N passed, N failed`.
"""

import json
import os
import re
import subprocess
import sys

sys.dont_write_bytecode = True
sys.path[:0] = [os.path.join(os.path.dirname(os.path.realpath(__file__)), "..", "common")]
from machine_files import elf_files
from readelf_rows import READELF_SYMBOL
from testing import Counts, option_reader, program_of

PLACES = ("/usr/bin", "/usr/lib")
HEADER = re.compile("'(.*)' relocation section at offset")
ADDRESS = re.compile("[0-9a-f]{16}")
SECONDS = 300

counts = Counts()


def programs_and_libraries(places):
    for path in elf_files(places):
        with open(path, "rb") as file:
            head = file.read(18)
        # ELFCLASS64, ELFDATA2LSB; ET_EXEC or ET_DYN.
        if head[4:6] == b"\2\1" and head[16:17] in (b"\2", b"\3"):
            yield path


def rows_of_elfsee(program, part, path):
    words = [program, "show", "--gnu", "--by-segments", "--only", part, "--names", "4096", "--json", path]
    answer = subprocess.run(words, capture_output=True, timeout=SECONDS)
    return [json.loads(line) for line in answer.stdout.splitlines()]


def lines_of_readelf(option, path):
    environment = dict(os.environ, LC_ALL="C")
    answer = subprocess.run(["readelf", "-D", option, "-W", path], capture_output=True, timeout=SECONDS, env=environment)
    return answer.stdout.decode("latin1").splitlines()


def word_of(text, name):
    """A word of readelf, or for a number of another system its name in GNU's."""
    return name if text == "<OS specific>: 10" else text


def same_symbol(row, line):
    """A line of readelf has the same symbol; after the name it has the version."""
    index, value, size, kind, binding, visibility, place, name = READELF_SYMBOL.fullmatch(line).groups()
    other = {"index": int(index), "value": int(value, 16), "size": int(size, 0), "type": word_of(kind, "IFUNC"),
             "binding": word_of(binding, "UNIQUE"), "visibility": visibility, "place": place, "name": name.partition("@")[0]}
    return {**row, "place": str(row["place"]), "name": row["name"].partition("@")[0]} == {"line": "Y", "table": row["table"], **other}


def other_symbol(program, path):
    rows = rows_of_elfsee(program, "symbols", path)
    if any(row["line"] != "Y" for row in rows):
        return f"symbols are refused: {rows[-1]}"
    lines = [line for line in lines_of_readelf("-s", path) if READELF_SYMBOL.fullmatch(line)]
    if len(lines) != len(rows) and len(lines) > 1:
        return f"{len(rows)} symbols, readelf has {len(lines)}"
    return next((f"{row} and {line}" for row, line in zip(rows, lines) if not same_symbol(row, line)), "")


def rows_of_readelf(path):
    """The addresses of relative relocations, and of all others the offset, the symbol's number and the line."""
    relative, others, is_relative = [], [], False
    for line in lines_of_readelf("-r", path):
        header = HEADER.search(line)
        words = line.split()
        if header:
            is_relative = header[1] == "RELR"
        elif words and ADDRESS.fullmatch(words[0]):
            if is_relative or len(words) == 1:
                relative.append(int(words[0], 16))
            else:
                others.append((int(words[0], 16), int(words[1], 16) >> 32, line))
    return relative, others


def same_entry(row, other):
    offset, symbol, line = other
    if (row["offset"], row["symbol"]) != (offset, symbol) or row["name"] not in line:
        return False
    addend = row.get("addend")
    return addend is None or line.split()[-1] in (format(abs(addend), "x"), format(addend % 2**64, "x"), "-%x" % -addend)


def other_entry(program, path):
    rows = rows_of_elfsee(program, "relocs", path)
    relative, others = rows_of_readelf(path)
    if any(row["line"] != "R" for row in rows):
        return f"refused: {rows[-1]}"
    if [row["offset"] for row in rows[:len(relative)]] != relative:
        return "other relative relocations"
    entries = rows[len(relative):]
    if len(entries) != len(others):
        return f"{len(entries)} entries, readelf has {len(others)}"
    return next((f"{row} and {other}" for row, other in zip(entries, others) if not same_entry(row, other)), "")


def main():
    reader = option_reader(__doc__)
    reader.add_argument("paths", nargs="*")
    given = reader.parse_args()
    program = program_of(given)
    for path in programs_and_libraries(given.paths or PLACES):
        counts.case(path, other_symbol(program, path) or other_entry(program, path))
    sys.exit(counts.end())


if __name__ == "__main__":
    main()
