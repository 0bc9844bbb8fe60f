"""What the cases of tests/gate/callers.py share."""

import itertools
import os
import struct
import subprocess

import asked_of_files
from testing import TOP, Claims

LIBRARY = os.path.join(TOP, "library")


class Counts(Claims):
    """How many things were compared with others, and how many of them disagreed."""

    def same(self, name, wanted, got):
        if isinstance(wanted, list) and wanted != got:
            # The first that differ.
            wanted, got = next(pair for pair in itertools.zip_longest(wanted, got) if pair[0] != pair[1])
        self.check(name, wanted == got, "wanted %.300r, got %.300r" % (wanted, got))

    def raises(self, name, kind, call):
        try:
            call()
        except kind:
            self.passed += 1
        except Exception as error:
            self.check(name, False, "wanted %s, got %r" % (kind.__name__, error))
        else:
            self.check(name, False, "wanted %s" % kind.__name__)


def run(*words):
    """The status and the output of a command."""
    done = subprocess.run(words, stdin=subprocess.DEVNULL, stdout=subprocess.PIPE,
                          stderr=subprocess.PIPE, check=False)
    return done.returncode, done.stdout


def asked_of(content):
    """Names to look up and sections to write, of a file that is well made."""
    try:
        names = asked_of_files.names_to_find(content)
        sections = asked_of_files.sections_to_apply(content)
    except (ValueError, IndexError, struct.error, StopIteration):
        return [], []
    names = [name.decode("ascii") for name in names[::len(names) // 4 + 1]]
    return names + (["no_such_name"] if names else []), sections[::len(sections) // 4 + 1]


def spelt(name):
    """A name as it is in a listing."""
    return "".join("\\\\" if byte == 0x5c else chr(byte) if 0x20 <= byte <= 0x7e else "\\x%02x" % byte
                   for byte in name)


def file_content(path):
    with open(path, "rb") as file:
        return file.read()
