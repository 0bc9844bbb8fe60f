"""The constants of library/elfsee.h, and what the cases of tests/gate/library.py share."""

import os
import re
import subprocess

from testing import TOP

LIBRARY = os.path.join(TOP, "library")
FLAGS = ["-std=c99", "-pedantic", "-Wall", "-Wextra", "-Werror", "-O1", f"-I{LIBRARY}"]
MOST_HEADERS = 65279
PARTS = ("header", "sections", "segments", "symbols", "relocs", "notes", "dynamic")


def same(wanted, got):
    return "" if wanted == got else f"wanted {str(wanted)[:300]}, got {str(got)[:300]}"


def read(*path):
    with open(os.path.join(*path), encoding="utf-8") as file:
        return file.read()


def constants_of_header(first):
    """The constants of the header's enumeration that begins with this one: their numbers by their names."""
    text = re.sub(r"/\*.*?\*/", "", read(LIBRARY, "elfsee.h"), flags=re.S)
    body = re.search(r"enum \{\s*(%s = .*?)\};" % first, text, re.S)[1]
    constants, number = {}, -1
    for name, given in re.findall(r"(ELFSEE_\w+)(?: = (\d+))?", body):
        constants[name] = number = int(given) if given else number + 1
    return constants


STATUSES, ITEMS = constants_of_header("ELFSEE_OK"), constants_of_header("ELFSEE_SECTION")
OK, REFUSED, ABSENT = (STATUSES["ELFSEE_" + name] for name in ("OK", "REFUSED", "ABSENT"))
BUDGET = constants_of_header("ELFSEE_SHORT")["ELFSEE_BUDGET"]
# The flags of a listing by the options of the program, and some sets of options.
STYLES = {f"--{name.lower().replace('_', '-')}": constants_of_header("ELFSEE_BY_SEGMENTS")["ELFSEE_" + name]
          for name in ("BY_SEGMENTS", "GNU", "JSON")}
STYLES["--versions"] = constants_of_header("ELFSEE_BY_SEGMENTS")["ELFSEE_NAME_VERSIONS"]
OPTIONS = [["--gnu"], ["--by-segments"], ["--json"], ["--gnu", "--by-segments", "--json"], ["--gnu", "--versions"],
           ["--gnu", "--versions", "--by-segments", "--json"]]
# Parts of which rows are listed by names, with options.
CHOSEN = [("symbols", []), ("symbols", ["--gnu", "--versions"]), ("relocs", ["--json"]),
          ("relocs", ["--gnu", "--versions", "--json"]), ("versions", ["--gnu"])]
# The items of a command line, as the header has them.
KINDS = {"at": ITEMS["ELFSEE_SECTION"], "def": ITEMS["ELFSEE_DEFINE"], "plt": ITEMS["ELFSEE_ENTRY"],
         "got": ITEMS["ELFSEE_TABLE"], "tpgot": ITEMS["ELFSEE_THREAD"]}


def run(words, **options):
    return subprocess.run(words, stdin=subprocess.DEVNULL, capture_output=True, check=False, **options)


def write(path, content):
    with open(path, "wb") as file:
        file.write(content)
