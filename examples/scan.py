#!/usr/bin/env python3
"""Draws the result of a check of many files: how many of them are malformed, and why.

    elfsee check FOLDER.. | examples/scan.py PICTURE.svg

It reads the lines of `elfsee check`, prints a row with a number for each state and for each cause, and draws the
same as bars. The length of a bar is the logarithm of its number, so that one file is visible next to thousands.
Other lines are skipped. It needs only Python 3; docs/PERFORMANCE.md has a picture that it drew."""

import math
import re
import sys

# A file's state, its cause if it is refused; of the last line the number of files without a name.
LINE = re.compile(rb"C ([a-z-]+) +(?:- |[0-9a-f]{16} ([a-z-]+) |(\d+)$)")
WIDTH, LEFT, RIGHT, ROW = 640, 190, 80, 22
FINE, AT_FAULT = "#3a6ea5", "#b03030"


def counted(lines):
    """How many files there are of each state and, if they are refused, of each cause: those that are fine first,
    and the most first."""
    numbers = {}
    for line in lines:
        found = LINE.match(line.rstrip(b"\n"))
        if found:
            state, cause, number = (part.decode() if part else "" for part in found.groups())
            what = f"{state} {cause}".strip()
            numbers[what] = numbers.get(what, 0) + int(number or 1)
    return sorted(numbers.items(), key=lambda row: (not is_fine(row[0]), -row[1], row[0]))


def is_fine(what):
    return what in ("ok", "no-elf")


def bar(place, what, number, most):
    """A bar with its name to the left of it and its number to the right."""
    length = (WIDTH - LEFT - RIGHT) * math.log1p(number) / math.log1p(most)
    top = 10 + place * ROW
    return (f'<text x="{LEFT - 8}" y="{top + 13}" text-anchor="end">{what}</text>'
            f'<rect x="{LEFT}" y="{top}" width="{length:.1f}" height="{ROW - 6}" '
            f'fill="{FINE if is_fine(what) else AT_FAULT}"/>'
            f'<text x="{LEFT + length + 6:.1f}" y="{top + 13}">{number:,}</text>')


def picture(rows):
    height = 14 + ROW * len(rows)
    most = max((number for _, number in rows), default=1)
    bars = [bar(place, what, number, most) for place, (what, number) in enumerate(rows)]
    return "\n".join([f'<svg xmlns="http://www.w3.org/2000/svg" width="{WIDTH}" height="{height}" '
                      'font-family="sans-serif" font-size="13">',
                      f'<rect width="{WIDTH}" height="{height}" fill="#ffffff"/>', *bars, "</svg>", ""])


def main():
    if len(sys.argv) != 2:
        sys.exit(__doc__)
    rows = counted(sys.stdin.buffer)
    for what, number in rows:
        print(f"{number:8} {what}")
    with open(sys.argv[1], "w", encoding="utf-8") as file:
        file.write(picture(rows))


if __name__ == "__main__":
    main()
