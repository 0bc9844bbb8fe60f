#!/usr/bin/env python3
"""Tests `elfsee explain`: what causes and states mean.

    tests/gate/explanations.py [--program PROGRAM]

Each cause that the sources know, and each state of docs/FORMAT.md's lines, has one explanation, in lines of at most
80 columns. What it says of a cause is what the man page says in CAUSES, word by word, before what to do about it. Words
are explained in the order of the arguments; of an unknown one a message has the one most like it, and nothing else is
printed. Without PROGRAM the program is built. The last line counts what passed.
"""

import os
import re
import subprocess
import sys

sys.dont_write_bytecode = True
sys.path.insert(0, os.path.join(os.path.dirname(os.path.realpath(__file__)), "..", "common"))
from testing import TOP, Counts, option_reader, program_of

STATES = {"ok", "refused", "no-elf", "unread", "memory", "unnamed", "found", "missing", "unused", "nofile", "bare",
          "nover", "bound", "weak", "unbound", "absent", "unneeded", "same", "defined", "weakdef", "common", "shared",
          "multiple", "order", "undef", "linker"}
ENDS_OF_NEEDS = {"too-many-objects", "too-many-paths"}
TO_DO = " What to do: "


def run(program, *words):
    done = subprocess.run([program, "explain", *words], stdin=subprocess.DEVNULL, capture_output=True, check=False,
                          timeout=60)
    return done.returncode, done.stdout.decode(), done.stderr.decode()


def explanations_in(text):
    """By word: what it means, its lines joined."""
    found = {}
    word = None
    for line in text.splitlines():
        if not line.startswith("    "):
            word = line
            found[word] = ""
        else:
            found[word] = f"{found[word]} {line.strip()}".strip()
    return found


def plain(line):
    """The text of a line of the man page's source, without macros."""
    line = line.replace("\\&", "")
    if not line.startswith("."):
        return line
    name, *rest = line[1:].split()
    text = ""
    if name == "Nm":
        rest.insert(0, "elfsee")
    dashed = name == "Fl"
    for word in rest:
        if word in ("Cm", "Fl", "Ar"):
            dashed = word == "Fl"
        elif word == "Ns":
            text = text.rstrip(" ") + "\0"
        elif word in (",", ".", ";", ":"):
            text = text.rstrip(" ") + word + " "
        else:
            text += ("-" if dashed else "") + word + " "
            dashed = False
    return text.replace("\0", "").rstrip(" ")


def of_man_page():
    """By cause: the text of the man page."""
    with open(os.path.join(TOP, "man/elfsee.1"), encoding="utf-8") as file:
        page = re.search(r"^\.Sh CAUSES\n(.*?)^\.Sh ", file.read(), re.M | re.S)[1]
    found = {}
    for item in re.split(r"^\.It Li ", page, flags=re.M)[1:]:
        word, _, body = item.partition("\n")
        lines = re.split(r"^\.(?:El|Ss)\b", body, maxsplit=1, flags=re.M)[0].splitlines()
        found[word] = " ".join(" ".join(map(plain, lines)).split())
    return found


def causes_of_sources():
    with open(os.path.join(TOP, "crates/elf_format/src/rows.rt"), encoding="utf-8") as file:
        rows = re.search(r"CAUSE_WORDS: \[&str; \d+\] = \[(.*?)\];", file.read(), re.S)[1]
    with open(os.path.join(TOP, "crates/elf_resolve/src/link_faults.rt"), encoding="utf-8") as file:
        links = re.search(r"^pub fn link_cause_word.*?^}", file.read(), re.M | re.S)[0]
    return set(re.findall(r'"([\w-]+)"', rows + links))


def main():
    program = program_of(option_reader(__doc__).parse_args())
    counts = Counts()
    status, text, errors = run(program)
    counts.check("the status without words", (0, ""), (status, errors))
    found = explanations_in(text)
    counts.check("words", causes_of_sources() | ENDS_OF_NEEDS | STATES, set(found))
    counts.check("one explanation a word", len(found), sum(not line.startswith(" ") for line in text.splitlines()))
    counts.check("columns", [], [line for line in text.splitlines() if len(line) > 80])
    for word, said in of_man_page().items():
        counts.check(f"the man page on {word}", said, found.get(word, "").partition(TO_DO)[0])
        counts.check(f"what to do about {word}", True, TO_DO in found.get(word, ""))
    for word, said in found.items():
        counts.check(word, (0, {word: said}, ""), (lambda got: (got[0], explanations_in(got[1]), got[2]))(run(program, word)))
    status, text, errors = run(program, "unbound", "short")
    counts.check("in the order of the words", (0, ["unbound", "short"], ""), (status, list(explanations_in(text)), errors))
    for word, nearest in (("table-outsid", "table-outside"), ("hash-cyle", "hash-cycle"), ("overflwo", "overflow"),
                          ("unbond", "unbound"), ("not-elff", "not-elf")):
        wanted = f"elfsee: no such cause: {word}; did you mean {nearest}?\n"
        counts.check(f"explain {word}", (2, "", wanted), run(program, word))
        counts.check(f"explain short {word}", (2, "", wanted), run(program, "short", word))
    status, text, errors = run(program, "sh\x1bort\n")
    counts.check("no byte acts on a terminal", (2, "", False), (status, text, "\x1b" in errors))
    return counts.end()


if __name__ == "__main__":
    sys.exit(main())
