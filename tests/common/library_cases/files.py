"""The files of tests/gate/library.py, and what is requested of them."""

import os
import re
import struct
import subprocess

import asked_of_files
import looked_up
from library_cases.header import MOST_HEADERS, read
from testing import TOP

FOLDERS = ("/usr",)
HASHED = "extern int other(int);\nstatic int table[40] = {1};\nint call(int x) { return other(x) + table[x & 7]; }\n"
PLAIN = ["-c", "-O1", "-fPIC", "-fcf-protection=none", "-fno-asynchronous-unwind-tables"]


def fixtures(folder):
    """The files of the worked examples, as they are in their crate; the first is the sample."""
    paths, source = [], os.path.join(TOP, "crates/elf_fixtures/src")
    for name in sorted(os.listdir(source), reverse=True):
        for word, content in re.findall(r"^static (\w+): \[u8; \d+\] = \[(.*?)\];", read(source, name), re.S | re.M):
            paths.append(os.path.join(folder, word.lower()))
            with open(paths[-1], "wb") as file:
                file.write(bytes(int(byte, 0) for byte in content.replace("\n", " ").split(",") if byte.strip()))
    return sorted(paths, key=lambda path: not path.endswith("/one_symbol_table"))


def made_files(folder):
    """An object with its library, files that are no ELF file, and one with a name of each byte."""
    source = os.path.join(folder, "call.c")
    with open(source, "w", encoding="ascii") as file:
        file.write(HASHED)
    target, library = os.path.join(folder, "call.o"), os.path.join(folder, "libcall.so")
    subprocess.run(["gcc", *PLAIN, "-o", target, source], check=True)
    subprocess.run(["gcc", "-shared", "-nostdlib", "-Wl,--hash-style=sysv", "-o", library, target], check=True)
    others = {"empty": b"", "text": b"no object file\n" * 20, "zeros": bytes(64), "cut": open(target, "rb").read()[:60]}
    for name, content in others.items():
        with open(os.path.join(folder, name), "wb") as file:
            file.write(content)
    return target, library, [os.path.join(folder, name) for name in others]


def files_of_machine():
    """All ELF64 little-endian files below the directories."""
    found = []
    for top in FOLDERS:
        for here, _, names in os.walk(top):
            for path in (os.path.join(here, name) for name in names):
                try:
                    if os.path.islink(path) or not os.path.isfile(path) or "\n" in path:
                        continue
                    with open(path, "rb") as file:
                        if file.read(6) == b"\x7fELF\x02\x01":
                            found.append(path)
                except OSError:
                    continue
    return sorted(found)


def asked_of(path):
    """Names that are looked up in a file, and sections of it that are written."""
    with open(path, "rb") as file:
        content = file.read()
    try:
        names, sections = asked_of_files.names_to_find(content), asked_of_files.sections_to_apply(content)
    except (ValueError, IndexError, struct.error):
        names, sections = [], []
    return names, sections


def texts_of(path):
    """What is looked up in a file as a loader does: names of its symbols, alone and with names of its versions."""
    with open(path, "rb") as file:
        content = file.read()
    try:
        scope = looked_up.Scope(content, MOST_HEADERS)
        if scope.refusal:
            return []
        names = [name for name, _ in looked_up.symbols_in(scope) if name.isascii() and b"@" not in name]
        versions = [name for name in looked_up.versions_in(scope).values() if name.isascii() and name]
    except (ValueError, IndexError, struct.error, looked_up.Refused):
        return []
    texts = []
    for at, name in enumerate(names[::len(names) // 6 + 1]):
        version = versions[at % len(versions)] if versions else b"FIRST"
        texts += [name, name + b"@" + version, name + b"@@" + version]
    return list(filter(looked_up.parted, texts))


def names_of_rows(texts, names, options):
    """Names of which rows are listed: of a file's symbols, with versions if those follow names, and
    names of versions; among them such as no row has."""
    has_versions = "--versions" in options
    named = texts if has_versions else [text.split(b"@")[0] for text in texts]
    versions = [] if has_versions else [text.split(b"@")[-1] for text in texts if b"@" in text]
    chosen = {*named[:20], *names[:20], *versions[:10], b"no_such_name"}
    return sorted(name for name in chosen if name.isascii() and looked_up.parted(name))
