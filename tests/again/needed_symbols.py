"""Which object each symbol of a program comes from: for the second implementation of `elfsee needs`. It takes lookups in one file
from looked_up.py."""

import struct

from applied import Refused, is_named, refuse_where
from listed_rows import spelt
from looked_up import Lookup, hashed_count
from needed_files import whole_text

UNDEFINED, WEAK, ASKED_BINDINGS = 0, 2, (1, 2, 10)
RELA, RELASZ, COPY = 7, 8, 5


def bind(program):
    """Adds the lines of all symbols."""
    objects = [(index, known) for index, known in enumerate(program.objects) if known.file and known.file.scope]
    for index, known in objects:
        try:
            bind_object(program, objects, index, known)
        except Refused as refusal:
            program.add_refusal(refusal)


def bind_object(program, objects, index, known):
    known.file.check_counts()
    for symbol in range(1, hashed_count(known.file.scope)):
        sought = Sought(known.file, symbol)
        if not sought.is_one:
            continue
        state, definer, found = bound(program, objects, sought)
        name, version = spelt(sought.name, len(sought.name)), sought.version
        version = None if version is None else spelt(version, len(version))
        text = "B %5d %10d %-8s %s %s %s" % (
            index, symbol, state, "-    " if definer is None else "%5d" % definer,
            "-" + 9 * " " if found is None else "%10d" % found, name if version is None else name + "@" + version)
        program.add_line(text, state not in ("bound", "weak"), object=index, symbol=symbol, state=state, definer=program.or_hyphen(definer),
                         definition=program.or_hyphen(found), name=name, version=version)


def unused(program):
    """The index of each object that is found, that an entry of FILE needs, and that defines nothing that FILE asks for: of its
    undefined symbols in all objects, of its copied data in those after it."""
    objects = [(index, known) for index, known in enumerate(program.objects) if known.file and known.file.scope]
    used, file = set(), program.objects[0].file
    try:
        if file is not None and file.scope is not None:
            file.check_counts()
            asked = (Sought(file, symbol) for symbol in range(1, hashed_count(file.scope)))
            used = {bound(program, objects, sought)[1] for sought in asked if sought.is_one}
            used |= {bound(program, objects[1:], Sought(file, symbol, True))[1] for symbol in copied(file)}
    except Refused:
        pass
    for index in program.needed_by_file():
        if program.objects[index].file is not None and index not in used:
            yield index


def copied(file):
    """The symbols of the relocations that copy data."""
    scope = file.scope
    if RELA not in scope.entries or RELASZ not in scope.entries:
        return
    table = scope.exact(scope.entries[RELA], scope.entries[RELASZ][1])
    for at in range(table.offset, table.offset + table.size - 23, 24):
        _, kind, symbol, _ = struct.unpack_from("<QIIq", scope.content, at)
        if kind == COPY:
            yield symbol


def bound(program, objects, sought):
    for index, known in objects:
        try:
            found = Definer(known.file, sought).found()
        except Refused:
            return "refused", index, None
        if found is not None:
            return "bound", index, found
    if sought.is_weak:
        return "weak", None, None
    return "nover" if lacks(program, sought) else "unbound", None, None


def lacks(program, sought):
    """Whether the object of which a version is needed defines versions, and not that one."""
    if sought.needed is None:
        return False
    name = sought.needed()
    called = next((known for known in program.objects if known.is_called(name)), None)
    if called is None or called.file is None or called.file.scope is None:
        return False
    scope = called.file.scope
    if scope.words is None or scope.definitions is None:
        return False
    lookup = Lookup(scope, b"", sought.version, False)
    try:
        strings = scope.definitions.strings
        return not {number for number, name, at in
                    (lookup.definitions(scope.definitions) if scope.definitions.size else ())
                    if is_named(scope.content, strings, name, at, sought.version)}
    except Refused:
        return False


class Definer(Lookup):
    """A lookup that passes over undefined symbols."""

    def __init__(self, file, sought):
        super().__init__(file.scope, sought.name, sought.version, False)
        file.check_counts()

    def answers(self, index):
        if not super().answers(index):
            return False
        return struct.unpack_from("<H", self.content, self.scope.symbols.offset + 24 * index + 6)[0] != UNDEFINED


class Sought:
    """What a symbol imports; or one that is copied, which is defined."""

    def __init__(self, file, index, is_copied=False):
        scope = file.scope
        at = scope.symbols.offset + 24 * index
        name, info, _, place, _, _ = struct.unpack_from("<I2BH2Q", scope.content, at)
        self.is_one = (place == UNDEFINED or is_copied) and info >> 4 in ASKED_BINDINGS and name != 0
        self.is_weak, self.version, self.needed = info >> 4 == WEAK, None, None
        if not self.is_one:
            return
        self.name = whole_text(scope.content, scope.strings.offset, scope.strings.size, name, at)
        self.is_one = self.name != b""
        if not self.is_one or scope.words is None:
            return
        refuse_where(index >= scope.words_count, scope.words.at, "version-cut")
        word = scope.words.offset + 2 * index
        number = struct.unpack_from("<H", scope.content, word)[0] % 0x8000
        if number >= 2:
            self.read_version(scope, number, word)

    def read_version(self, scope, number, word):
        lookup = Lookup(scope, b"", None, False)
        for table, walk in ((scope.definitions, lookup.definitions), (scope.needs, lookup.needs)):
            for found, name, at in walk(table) if table is not None and table.size else ():
                if found == number:
                    strings = table.strings
                    self.version = whole_text(scope.content, strings.offset, strings.size, name, at)
                    if lookup.file_at is not None:
                        self.needed = lambda: self.needed_name(scope, strings, lookup.file_at)
                    return
        raise Refused(word, "version-index")

    @staticmethod
    def needed_name(scope, strings, at):
        """The name of the needed file of a record."""
        index, = struct.unpack_from("<I", scope.content, at + 4)
        return whole_text(scope.content, strings.offset, strings.size, index, at)
