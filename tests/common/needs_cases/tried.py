"""The program that tests/gate/needs.py tries, its answers, and the count of what failed."""

import re
import subprocess

from needs_cases.common import PLAIN

# The stack that is promised, for one file and for many.
STACK_BYTES = 160 * 1024
MANY_STACK_BYTES = 192 * 1024


class Tried:
    """The program that is tried, and how many cases failed."""

    program, failures = None, 0


TRIED = Tried()


def fail(words):
    TRIED.failures += 1
    print(f"failed: {words}")


def elfsee(*words, env=None):
    done = subprocess.run([TRIED.program, "needs", *words], capture_output=True, timeout=120, env=env or PLAIN)
    return done.returncode, done.stdout.decode("utf-8", "surrogateescape"), done.stderr.decode()


def objects(text):
    """The L lines: index, needer, state, path."""
    rows = []
    for line in text.splitlines():
        found = re.fullmatch(r"L ([ \d]{5}) (-    |[ \d]{5}) (found   |missing |refused |unused  ) (- |[0-9a-f]{16} \S+ )(.*)", line)
        if not found:
            return None
        index, needer, state, _, path = found.groups()
        rows.append((int(index), None if needer[0] == "-" else int(needer), state.strip(), path))
    return rows


def lines_of(letter, text):
    return "".join(line + "\n" for line in text.splitlines() if line.startswith(letter + " "))


def bindings(text):
    """The L lines' objects by index, and the B lines: object, symbol, state, definer, definition, name."""
    known, rows, others = {}, [], []
    for line in text.splitlines():
        found = re.fullmatch(r"B ([ \d]{5}) ([ \d]{10}) (bound   |weak    |unbound |nover   |refused ) (-    |[ \d]{5}) (-         |[ \d]{10}) (.*)", line)
        if found:
            index = lambda text: None if text[0] == "-" else int(text)
            object_, symbol, state, definer, definition, name = found.groups()
            rows.append((int(object_), int(symbol), state.strip(), index(definer), index(definition), name))
        elif line.startswith("I found "):
            pass
        elif line.startswith("L "):
            row = objects(line)
            if row is None:
                others.append(line)
            else:
                known[row[0][0]] = row[0][3]
        else:
            others.append(line)
    return known, rows, others
