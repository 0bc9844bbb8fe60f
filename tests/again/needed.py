#!/usr/bin/env python3
"""A second implementation of what `elfsee needs` must answer without a budget, from the rules. It is written for
clarity alone, and holds whole files. Its modules are needed_files.py, needed_versions.py, needed_symbols.py,
loader_caches.py and rooted.py.

usage: tests/again/needed.py [needs] [OPTION]... PATH...

The options are those of `elfsee needs`, with the value as the next word or after `=`: --library-path, --default,
--root, --cache, --max-tries, --headers, and without a value --no-cache, --symbols, --unused, --json, --problems."""

import json
import os
import sys

sys.dont_write_bytecode = True
sys.path.insert(0, os.path.join(os.path.dirname(os.path.realpath(__file__)), "..", "common"))
import needed_files  # pylint: disable=wrong-import-position
import needed_symbols  # pylint: disable=wrong-import-position
import needed_versions  # pylint: disable=wrong-import-position
from applied import Refused, refuse_where  # pylint: disable=wrong-import-position
from listed_files import looked_at  # pylint: disable=wrong-import-position
from listed_rows import spelt  # pylint: disable=wrong-import-position
from loader_caches import Cache  # pylint: disable=wrong-import-position
from needed_files import MOST_OBJECTS, TEXT_BYTES, BySegments, Links, Texts, parts, replaced  # pylint: disable=wrong-import-position
from rooted import Opened, Root, SystemFault  # pylint: disable=wrong-import-position

MOST_TRIES = 100000
DEFAULT = "/lib/x86_64-linux-gnu:/usr/lib/x86_64-linux-gnu:/lib64:/usr/lib64:/lib:/usr/lib"
SYSTEM_CACHE = b"/etc/ld.so.cache"
# Directories of the default that a loader searches only if there is no directory of the other name.
IF_NO_OTHER = {b"/lib64": b"/lib/x86_64-linux-gnu", b"/usr/lib64": b"/usr/lib/x86_64-linux-gnu"}


class TooManyPaths(Exception):
    """One more path was to be tried than may be."""


class TooManyObjects(Exception):
    """One more object was needed than may be."""


class Options:
    """What the command line says, as bytes; None for the directories and the cache of the system."""

    def __init__(self, library=b"", default=None, root=None, cache=None, no_cache=False, most=4096, tries=MOST_TRIES):
        self.library, self.default, self.root, self.cache = library, default, root, cache
        self.has_cache, self.most, self.tries = default is None and not no_cache, most, tries


class Known:
    """An object of a program: the names that lead to it, its path, and the directory that stands for `$ORIGIN`."""

    def __init__(self, needer, name, path, by=None):
        self.needer, self.names, self.path, self.by = needer, [name], path, by
        self.refusal, self.links, self.file, self.identity, self.interpreter = None, None, None, None, None
        self.origin = path and directory_of(path)

    def read(self, there, most, texts, is_sought=True):
        """Reads a library. The first bytes of one that is not searched for, as the interpreter, are not looked at again."""
        try:
            if is_sought:
                needed_files.check_identity(there.content)
            self.identity = there.identity
            file = BySegments(there.content, most)
            links = Links(file.content, texts)
            needed_files.check_kind(file.content, links)
            self.file, self.links = file, links
        except Refused as refusal:
            self.refusal = refusal

    def read_program(self, there, most, texts):
        """Reads FILE, and which interpreter it names."""
        try:
            self.identity = there.identity
            file = BySegments(there.content, most)
            links = Links(file.content, texts)
            self.interpreter = needed_files.interpreter_of(file.content)
            self.file, self.links = file, links
        except Refused as refusal:
            self.refusal = refusal

    def is_called(self, name):
        return name in self.names or self.links is not None and self.links.soname == name


class Program:
    """A program with its objects."""

    def __init__(self, path, options):
        self.options, self.root, self.texts = options, Root(options.root), Texts()
        self.rows, self.status, self.is_ended, self.tries, self.leads = [], 0, False, 0, {}
        self.cache = Cache(self.cache_bytes()) if options.has_cache else Cache(b"")
        self.objects = [self.program(path)]
        self.add_object(0, path)
        self.machine = needed_files.machine_of(self.content) if len(self.content) >= 20 else None
        self.find_interpreter()
        self.find_all()
        if not self.is_ended:
            self.add_interpreter()
            self.add_versions()

    # FILE, its interpreter and the cache.

    def program(self, path):
        inside = self.root.within(path)
        if inside is None:
            place = b"/dev/stdin" if path == b"-" else path
            there, origin = Root().open(place), os.path.dirname(os.path.realpath(place))
        else:
            there = self.root.open(inside)
            origin = b"/" + b"/".join(self.root.resolved(inside)[:-1]) if there else None
        if not isinstance(there, Opened):
            raise SystemFault()
        self.content = there.content
        known = Known(None, None, path)
        known.origin = origin
        known.read_program(there, self.options.most, self.texts)
        return known

    def find_interpreter(self):
        path = self.objects[0].interpreter
        self.interpreter, self.interpreter_name = None, None
        if path is None:
            return
        there = self.root.open(path)
        if there is None or not needed_files.is_interpreter(there, self.machine):
            return
        self.interpreter = there
        try:
            self.interpreter_name = Links(BySegments(there.content, self.options.most).content, Texts()).soname
        except Refused:
            pass

    def is_interpreter(self, name):
        return self.interpreter is not None and name in (self.objects[0].interpreter, self.interpreter_name)

    def cache_bytes(self):
        if self.options.cache is not None:
            there = Root().open(self.options.cache)
            if not isinstance(there, Opened):
                raise SystemFault()
            return there.content
        there = self.root.open(SYSTEM_CACHE)
        return there.content if isinstance(there, Opened) else b""

    # The objects.

    def find_all(self):
        for index, known in enumerate(self.objects):
            for at, text in known.links.needs if known.links else ():
                try:
                    self.follow(index, replaced(text, known.origin))
                except TooManyObjects:
                    return self.end(at, "too-many-objects")
                except TooManyPaths:
                    return self.end(at, "too-many-paths")

    def end(self, at, cause):
        self.is_ended = True
        self.add_refusal(Refused(at, cause))

    def follow(self, needer, name):
        """Finds the object to which a needed name leads."""
        if name in self.leads:
            return
        index = next((index for index, other in enumerate(self.objects) if other.is_called(name)), None)
        if index is None:
            index = self.add(needer, name)
        self.leads[name] = index
        if name not in self.objects[index].names:
            self.objects[index].names.append(name)

    def add(self, needer, name):
        """The index of the object that has a name which none had; a new one, or one that is known by another name."""
        if self.is_interpreter(name):
            found = self.objects[0].interpreter, "path" if b"/" in name else "known", self.interpreter
        else:
            found = self.find(needer, name)
        if isinstance(found, int):
            return found
        if len(self.objects) >= MOST_OBJECTS:
            raise TooManyObjects()
        known = Known(needer, name, *(found[:2] if found else (None,)))
        if found and isinstance(found[2], Refused):
            known.refusal = found[2]
        elif found:
            known.read(found[2], self.options.most, self.texts, found[2] is not self.interpreter)
        self.objects.append(known)
        self.add_object(len(self.objects) - 1, self.root.shown(known.path) if found else name)
        return len(self.objects) - 1

    # Where a library is searched for.

    def find(self, needer, name):
        """The path of the first file that ends the search, how it was found, and the file or its refusal; the index of an object; or None."""
        for by, path in self.paths(needer, name):
            self.tries += 1
            if self.tries > self.options.tries:
                raise TooManyPaths()
            if len(self.root.shown(path)) >= TEXT_BYTES:
                continue
            there = self.root.open(path)
            if there is None:
                continue
            try:
                if not self.fits(there):
                    continue
            except Refused as refusal:
                return path, by, refusal
            same = next((index for index, other in enumerate(self.objects) if other.links and other.identity == there.identity), None)
            return (path, by, there) if same is None else same
        return None

    def fits(self, there):
        """Whether a file is for the program's machine; one that is no library at all is refused."""
        refuse_where(there.content is None, 0, "short")
        refuse_where(len(there.content) < 64, len(there.content), "short")
        refuse_where(there.content[:4] != b"\x7fELF", 0, "not-elf")
        return needed_files.is_for(there.content, self.machine)

    def paths(self, needer, name):
        if b"/" in name:
            yield "path", name
            return
        for by, folder in self.folders(needer):
            yield by, b"%s/%s" % (folder, name)
        cached, is_bare = self.cache.path(name), self.objects[needer].links.flags_1 & needed_files.NODEFLIB
        if cached is not None and not (is_bare and any(cached.startswith(folder + b"/") for folder in self.defaults())):
            yield "cache", cached
        for folder in () if is_bare else self.defaults():
            yield "default", b"%s/%s" % (folder, name)

    def folders(self, needer):
        """How each directory is found, with the directory, up to those of the cache."""
        known = self.objects[needer]
        if known.links.runpath is None:
            above = known
            while above is not None:
                if above.links and above.links.runpath is None and above.links.rpath is not None:
                    yield from (("rpath", replaced(folder, above.origin)) for folder in parts(above.links.rpath))
                above = self.objects[above.needer] if above.needer is not None else None
        yield from (("library-path", replaced(folder, self.objects[0].origin)) for folder in parts(self.options.library, b":;"))
        if known.links.runpath is not None:
            yield from (("runpath", replaced(folder, known.origin)) for folder in parts(known.links.runpath))

    def defaults(self):
        if self.options.default is not None:
            return parts(self.options.default)
        return [folder for folder in parts(DEFAULT.encode())
                if folder not in IF_NO_OTHER or not self.root.is_directory(IF_NO_OTHER[folder])]

    # The lines.

    @staticmethod
    def or_hyphen(number):
        return "-" if number is None else number

    def add_line(self, text, is_problem, **members):
        members = {key: value for key, value in members.items() if value is not None}
        self.rows.append((text, is_problem, {"line": text[0], **members}))
        self.status = 1 if is_problem else self.status

    def add_refusal(self, refusal):
        self.add_line("! %016x %s" % refusal.args, True, place=refusal.args[0], cause=refusal.args[1])

    def needed_by_file(self):
        """The object to which each entry of FILE leads."""
        known = self.objects[0]
        return [self.leads[replaced(text, known.origin)] for _, text in known.links.needs] if known.links else []

    def add_unused(self):
        for index in needed_symbols.unused(self):
            known = self.objects[index]
            path = spelt(self.root.shown(known.path), 4 * TEXT_BYTES)
            self.add_line("L %5d %5d unused   - %s" % (index, known.needer, path), False, index=index, needed_by=known.needer, state="unused",
                          by=known.by, path=path)

    def add_object(self, index, path):
        known = self.objects[index]
        state = "refused" if known.refusal else "missing" if known.path is None else "found"
        place, cause = known.refusal.args if known.refusal else (None, None)
        needer, path = "-" if known.needer is None else "%5d" % known.needer, spelt(path, len(path))
        refusal = "-" if place is None else "%016x %s" % (place, cause)
        self.add_line("L %5d %-5s %-8s %s %s" % (index, needer, state, refusal, path), state != "found", index=index,
                      needed_by=self.or_hyphen(known.needer), state=state, place=place, cause=cause, by=known.by, path=path)

    def tree(self):
        """The rows of the objects in a table: each below the one that first needed it, by the indices on the way to it."""
        def way(index):
            needer = self.objects[index].needer
            return [index] if needer is None else [*way(needer), index]

        rows = [b"index name [by] path"]
        for known in sorted((row[2] for row in self.rows if row[2]["line"] == "L" and row[2]["state"] != "unused"),
                            key=lambda known: way(known["index"])):
            index, by, state, path = known["index"], known.get("by"), known["state"], known["path"]
            name = spelt(self.objects[index].names[0], 4 * TEXT_BYTES) if index else path
            notes = f" [{by}]" if by else ""
            notes += f" [refused at 0x{known['place']:x}: {known['cause']}]" if state == "refused" else " [missing]" if state == "missing" else ""
            rows.append(f"{index:5} {'  ' * (len(way(index)) - 1)}{name}{notes}{' ' + path if by else ''}".encode())
        return rows

    def add_interpreter(self):
        path = self.objects[0].interpreter
        if path is None:
            return
        state, path = "missing" if self.interpreter is None else "found", self.root.shown(path)
        path = spelt(path, len(path))
        self.add_line("I %-8s %s" % (state, path), state == "missing", state=state, path=path)

    def add_versions(self):
        for index, known in enumerate(self.objects):
            if known.file is None or known.file.scope is None:
                continue
            try:
                for wanted in needed_versions.needed_versions(known.file):
                    self.add_version(index, wanted)
            except Refused as refusal:
                self.add_refusal(refusal)

    def add_version(self, index, wanted):
        provider = self.leads.get(wanted.file)
        if provider is None:
            state = None if self.is_interpreter(wanted.file) else "nofile"
        else:
            file = self.objects[provider].file
            state = needed_versions.state_in(file, wanted) if file is not None and file.scope is not None else None
        if state is None:
            return
        name = spelt(wanted.name, len(wanted.name))
        self.add_line("U %5d %s %-8s %s" % (index, "-    " if provider is None else "%5d" % provider, state, name), True, object=index,
                      provider=self.or_hyphen(provider), state=state, version=name)

    def written(self, is_json=False, is_problems=False):
        rows = [row for row in self.rows if row[1] or not is_problems]
        return "".join((json.dumps(row[2], separators=(",", ":")) if is_json else row[0]) + "\n" for row in rows).encode()


def directory_of(path):
    return os.path.dirname(path) or (b"/" if path.startswith(b"/") else b".")


def program(path, symbols=True, unused=False, **words):
    """The program with all its lines."""
    answered = Program(os.fsencode(path), Options(**words))
    if symbols and not answered.is_ended:
        needed_symbols.bind(answered)
    if unused and not answered.is_ended:
        answered.add_unused()
    return answered


def answer(path, library=b"", default=None, symbols=True, **words):
    """The status and the bytes."""
    answered = program(path, symbols, library=library, default=default, **words)
    return answered.status, answered.written()


def of_many(paths, is_json, is_problems, symbols, words):
    """The status and the bytes for more than one file, or for directories."""
    statuses, written = [0], b""
    for path, is_file in (each for path in paths for each in looked_at(path)):
        with open(path, "rb") as file:
            if not is_file or not needed_files.is_listed(file.read()):
                continue
        answered = program(path, symbols, **words)
        lines, name = answered.written(is_json, is_problems), spelt(path, len(path))
        if lines:
            row = json.dumps({"line": "@", "path": name}, separators=(",", ":")) if is_json else "@ " + name
            written += row.encode() + b"\n" + lines
        statuses.append(answered.status)
    return max(statuses), written


def main():
    words, kept, paths = sys.argv[1:], {}, []
    keys = {"--library-path": "library", "--default": "default", "--root": "root", "--cache": "cache", "--max-tries": "tries",
            "--headers": "most"}
    words = words[1:] if words[:1] == ["needs"] else words
    if not words or "--help" in words:
        print(__doc__)
        return 0
    while words:
        word, equals, value = words.pop(0).partition("=")
        if word in keys:
            value = value if equals else words.pop(0)
            kept[keys[word]] = int(value) if word in ("--max-tries", "--headers") else os.fsencode(value)
        elif word == "--max-read":
            print("needed.py has no budget", file=sys.stderr)
            return 2
        elif word.startswith("--"):
            kept[word[2:].replace("-", "_")] = True
        else:
            paths.append(os.fsencode(word))
    is_json, is_problems, symbols = (kept.pop(key, False) for key in ("json", "problems", "symbols"))
    try:
        if len(paths) > 1 or os.path.isdir(paths[0]):
            status, written = of_many(paths, is_json, is_problems, symbols, kept)
        else:
            answered = program(paths[0], symbols, **kept)
            status, written = answered.status, answered.written(is_json, is_problems)
    except SystemFault:
        print("elfsee: cannot open", file=sys.stderr)
        return 3
    sys.stdout.buffer.write(written)
    return status


if __name__ == "__main__":
    sys.exit(main())
