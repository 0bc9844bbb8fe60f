"""Lines of a listing as numbers, for tests/gate/library.py."""

import re

from library_cases.header import read
from testing import TOP

# Of each kind of line its fields: a number to a base, a name or a number of a row of the page's table, a text.
FIELDS = {
    "H": ["type of an H line", 10, 16, 16, 16, 16, 10, 10, 10],
    "S": [10, "type of an S line", "flags", 16, 16, 16, 16, 16, "text"],
    "P": [10, "type of a P line", "permissions", 16, 16, 16, 16, 16, 16],
    "Y": [10, 10, 16, 16, "type of a Y line", "binding", "visibility", "place", "text"],
    "R": [10, 16, "type of an R line", 16, "addend"],
    "D": [10, "tag", 16, "text"],
}
# Numbers that have no name are printed to this base.
BASES = {"type of an H line": 16, "type of an S line": 16, "type of a P line": 16, "tag": 16}
FLAGS_SHOWN = [(1, "W"), (2, "A"), (4, "X"), (16, "M"), (32, "S"), (64, "I"), (128, "L"), (256, "O"), (512, "G"),
               (1024, "T"), (2048, "C")]


def names_of_numbers():
    """The tables of docs/FORMAT.md: of each row the name of a number."""
    page = read(TOP, "docs/FORMAT.md")
    rows = re.findall(r"^\| ([\w ]+) \| (\w+=\d+(?:, \w+=\d+)*) \|[^|\n]*\|$", page, re.M)
    return {row: {int(number): name for name, number in re.findall(r"(\w+)=(\d+)", names)} for row, names in rows}


def names_of_relocations():
    """The names of the types of relocations in docs/FORMAT.md, those defined by GNU too, by their numbers."""
    row = re.search(r"^\| type of an R line \| (.*) \|$", read(TOP, "docs/FORMAT.md"), re.M)[1]
    return {int(number): name for name, number in re.findall(r"(\w+)=(\d+)", row)}


def number_of(field, text, tables):
    """A field of a line as a number, if it is one."""
    if field in ("text", "permissions", "flags"):
        return text
    if field == "addend":
        return int(text, 16)
    if isinstance(field, int):
        return int(text, field)
    for number, name in tables[field].items():
        if name == text:
            return number
    return int(text.lstrip("#"), BASES.get(field, 10))


def columns_of_page():
    """Of each kind of line the columns of its fields, as docs/FORMAT.md has them, from 0."""
    page, columns = read(TOP, "docs/FORMAT.md"), {}
    for kind, section in re.findall(r"^## (\w): (.*?)(?=^## )", page, re.S | re.M):
        found = re.findall(r"^(\d+)(-?)(\d*) {2,}\w", section, re.M)
        columns[kind] = [(0, 1)] + [(int(at) - 1, int(end or (10 ** 6 if dash else at))) for at, dash, end in found]
    return columns


def plain_row(line, tables, columns):
    """A line of a listing as the numbers that it gives; of a relocation entry without its symbol's name."""
    line = line.decode()
    if line[:1] == "N":
        return ["N", int(line[2:7]), *(int(line[at:at + 8], 16) for at in (8, 17, 26)), line[35:]]
    fields = FIELDS.get(line[:1])
    if fields is None:
        return [line]
    row, wider = [line[0]], 0
    for (at, end), field in zip(columns[line[0]][1:], fields):
        at, end = at + wider, end + wider
        while end < len(line) and line[end] != " ":
            wider, end = wider + 1, end + 1
        text = line[at:end]
        row.append(number_of(field, text if field == "text" else text.strip(), tables))
    return row


def shown_row(line):
    """A row that was read, as the numbers of its listing."""
    words = line.decode().split(" ")
    kind = words[0]
    counts = {"H": 13, "S": 10, "P": 9, "Y": 8, "R": 5, "D": 3, "N": 4}
    if kind not in counts:
        return words
    count = counts[kind]
    numbers, text = list(map(int, words[1:1 + count])), " ".join(words[1 + count:])
    if kind == "H":
        return ["H", *numbers[:9]]
    if kind == "S":
        index, of, flags, addr, offset, size, link, info, _, _ = numbers
        return ["S", index, of, flags_shown(flags), addr, offset, size, link, info, text]
    if kind == "P":
        index, of, flags, *rest = numbers
        may = "".join(letter if flags & bit else "-" for bit, letter in ((4, "R"), (2, "W"), (1, "X")))
        return ["P", index, of, may, *rest]
    if kind == "D":
        numbers[1] %= 2 ** 64
    return [kind, *numbers] + ([text] if kind != "R" else [])


def flags_shown(flags):
    letters = "".join(letter for bit, letter in FLAGS_SHOWN if flags & bit)
    return letters + ("?" if flags & ~sum(bit for bit, _ in FLAGS_SHOWN) else "")
