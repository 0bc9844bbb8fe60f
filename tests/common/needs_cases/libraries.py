"""Libraries that gcc makes, and the comparison of what is printed of them."""

import json
import re
import struct
import subprocess

from needs_cases.tried import bindings, elfsee, fail, objects


def compile_text(folder, name, text, *words):
    source = folder / "made.c"
    target = folder / name
    target.parent.mkdir(parents=True, exist_ok=True)
    source.write_text(text)
    subprocess.run(["gcc", "-shared", "-fPIC", "-nostdlib", "-Wl,--no-as-needed", "-o", str(target), str(source), *words],
                   check=True, capture_output=True)
    return target


def binds(what, words, wanted, status, versions=()):
    """The B lines of object 0: name to state and definer; and the lines of versions."""
    code, text, errors = elfsee("--symbols", *words)
    known, rows, others = bindings(text)
    got = {name: (state, definer) for object_, _, state, definer, _, name in rows if object_ == 0}
    if code != status or got != wanted or errors or others != list(versions):
        fail(f"{what}: status {code}, {got} in place of {status}, {wanted}; {others[:2]} {errors!r}")


def table_at(data, tag):
    """The file offset of the table whose address a dynamic entry has: in what gcc makes the tables of a loader have the addresses
    of their offsets."""
    return struct.unpack_from("<Q", data, entry_at(data, tag) + 8)[0]


def compile_library(folder, name, *words, soname=None, answer="0", before=""):
    source = folder / "made.c"
    source.write_text(before + "int made_" + re.sub(r"\W", "_", name) + "(void) { return " + answer + "; }\n")
    target = folder / name
    target.parent.mkdir(parents=True, exist_ok=True)
    call = ["gcc", "-shared", "-fPIC", "-nostdlib", "-Wl,--no-as-needed", "-o", str(target), str(source), *words]
    if soname:
        call.append("-Wl,-soname," + soname)
    subprocess.run(call, check=True, capture_output=True)
    return target


def lines_are(what, words, wanted, status):
    code, text, errors = elfsee(*words)
    rows = objects(text)
    got = rows and [(needer, state, path) for _, needer, state, path in rows]
    if code != status or got != wanted or errors:
        fail(f"{what}: status {code}, {got} in place of {status}, {wanted}; {text!r} {errors!r}")


def states_of_objects(text):
    """Letter and state of each line that is an object of JSON; None if one is none."""
    try:
        return [(row["line"], row["state"]) for row in map(json.loads, text.splitlines())]
    except (ValueError, KeyError):
        return None


def entry_at(data, tag):
    """The file offset of the first dynamic entry of a tag."""
    phoff, = struct.unpack_from("<Q", data, 32)
    for i in range(struct.unpack_from("<H", data, 56)[0]):
        type_, _, offset = struct.unpack_from("<IIQ", data, phoff + 56 * i)
        if type_ == 2:
            while struct.unpack_from("<Q", data, offset)[0] != tag:
                offset += 16
            return offset
