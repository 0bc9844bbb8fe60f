"""Reads a listing, as bytes, into rows: a letter and fields, numbers as numbers, texts as texts, names as
bytes with whether they are whole. A line of `check` is its state, its place and its cause, which are None if
the file is not refused, and its path; the last one may be the word `unnamed` and a number. docs/FORMAT.md describes
the columns; tests/machine/format.py runs this module."""

import re

# Fields by their kinds and widths: d decimal, x hexadecimal, a addend (None if there is none), t text,
# n name, c descriptor. A comma after a width: the field grows.
FORMS = {"H": "t4 d5 x16 x16 x16 x8 d5 d5 d5",
         "S": "d5 t13 t12 x16 x16 x16 x8 x8 n",
         "P": "d5 t8 t3 x16 x16 x16 x16 x16 x16",
         "Y": "d5 d10, x16 x16 t7 t6 t9 t5 n",
         "R": "d5 x16 t10, x8 a17 n",
         "N": "d5 x8 x8 x8 n c",
         "D": "d5, t16 x16 n",
         "V": "d5 t4 d5 x4 x8 n",
         "X": "d5 d10, d5 t1 n",
         "A": "d5, x16 x16 n",
         "F": "t6 d10",
         "!": "x16 t1,"}
BYTES = {"d": "[ 0-9]{%s}", "x": "[0-9a-f]{%s}", "a": "[+-][0-9a-f]{16}|- {16}", "t": "[ -~]{%s}",
         "n": r"(?:[^\\]|\\\\|\\x[0-9a-f]{2})*(?:\\\+)?", "c": r"(?:[0-9a-f]{2})*(?:\\\+)?"}


def line_of(letter, form):
    fields = "".join(" (" + BYTES[field[0]].replace("%s", field[1:]) + ")" for field in form.split())
    return re.compile((re.escape(letter) + fields).encode())


LINES = {letter: line_of(letter, form) for letter, form in FORMS.items()}
CHECKED = re.compile(f"C ([ -~]{{12}}) (?:-|([0-9a-f]{{16}}) ([a-z-]+)) ({BYTES['n']})".encode())
UNNAMED = re.compile(b"C (unnamed) {6}([ 0-9]{10,})")
ESCAPE = re.compile(rb"\\(\\|\+|x..)")


def name_of(text):
    """The bytes that a name of a listing stands for, and whether they are the whole name."""
    whole = True

    def byte(escape):
        nonlocal whole
        if escape[1] == b"+":
            whole = False
            return b""
        return b"\\" if escape[1] == b"\\" else bytes.fromhex(escape[1][1:].decode())

    return ESCAPE.sub(byte, text), whole


def field_of(form, text):
    if form[0] == "d":
        return int(text)
    if form[0] in "xa":
        return None if text[:2] == b"- " else int(text, 16)
    if form[0] == "n":
        return name_of(text)
    if form[0] == "c":
        return bytes.fromhex(text.removesuffix(b"\\+").decode()), not text.endswith(b"+")
    return text.decode().strip()


def checked_of(line):
    """The fields of a line of `check`."""
    found = UNNAMED.fullmatch(line)
    if found:
        return "unnamed", int(found[2])
    found = CHECKED.fullmatch(line)
    if found is None:
        raise ValueError(line)
    state, place, cause, path = found.groups()
    return (state.decode().strip(), int(place, 16) if place else None, cause.decode() if cause else None,
            name_of(path))


def rows(lines):
    """The rows of a listing, or of `check`: of each line its letter and its fields. Lines of an unknown
    letter are skipped, as a later version may have them."""
    for line in lines:
        letter, line = line[:1].decode(), line.removesuffix(b"\n")
        if letter == "C":
            yield letter, *checked_of(line)
        elif letter in FORMS:
            found = LINES[letter].fullmatch(line)
            if found is None:
                raise ValueError(line)
            yield letter, *map(field_of, FORMS[letter].split(), found.groups())
