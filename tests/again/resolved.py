#!/usr/bin/env python3
"""A second implementation of what `elfsee resolve` must answer without a budget, from the rules. It is written for
clarity alone, and holds whole files. Its modules are linked_words.py, linked_inputs.py and linked_keys.py.

usage: tests/again/resolved.py [resolve] [OPTION]... -- WORD...

The options are --headers, --keys, --key-bytes, --index and --rows, with the value as the next word or after `=`."""

import os
import re
import sys

sys.dont_write_bytecode = True
sys.path.insert(0, os.path.join(os.path.dirname(os.path.realpath(__file__)), "..", "common"))
from applied import Refused  # pylint: disable=wrong-import-position
from linked_inputs import MAGIC, THIN, Archive, Object, SharedLibrary, keys_of  # pylint: disable=wrong-import-position
from linked_keys import COMMON, DEF, DEFWEAK, NONE, UNDEF, Keys  # pylint: disable=wrong-import-position
from linked_words import BadWord, Words  # pylint: disable=wrong-import-position
from made_archives import spelt  # pylint: disable=wrong-import-position

OF_LINKER = set(b"""_GLOBAL_OFFSET_TABLE_ _PROCEDURE_LINKAGE_TABLE_ _TLS_MODULE_BASE_ __bss_start _edata edata _end end __etext
_etext etext __executable_start __ehdr_start __preinit_array_start __preinit_array_end __init_array_start __init_array_end
__fini_array_start __fini_array_end __rela_iplt_start __rela_iplt_end __tdata_start""".split())


class Row:
    """A file of the link: its kind, for a member its archive and number, its path, and for which key it was taken."""

    def __init__(self, index, path, archive=None, number=None):
        self.index, self.path, self.archive, self.number = index, path, archive, number
        self.kind, self.reason = "refused", None


class Opened:
    """An input that is in the link, or an archive, or a library that is not needed so far; `offers` are the names that it
    has: of each the text, and the number of the member in an archive."""

    def __init__(self, row, offers=(), archive=None):
        self.row, self.offers, self.archive, self.taken, self.library = row, list(offers), archive, set(), None


class Link:
    """The files of a link, and the keys that they make."""

    def __init__(self, words, most=65279):
        self.words, self.most, self.keys, self.rows, self.refusal = words, most, Keys(), [], None
        self.known, self.sections, self.libraries, self.listed, self.archives, self.spare = set(), set(), {}, [], [], []
        self.is_missing = self.has_library = False

    def run(self):
        for name in self.words.named():
            self.keys.ask(name)
        try:
            for each in self.inputs(self.words.inputs):
                self.visit(each, False)
        except Refused as refusal:
            self.refusal = refusal.args
        self.keys.settle()

    def inputs(self, inputs):
        """Inputs to visit, in mutable boxes: what was opened of each stays for further rounds."""
        return [self.inputs(each) if isinstance(each, list) else [each, None] for each in inputs]

    def is_group(self, box):
        return not box or isinstance(box[0], list)

    def visit(self, box, is_again):
        if self.is_group(box):
            return self.visit_group(box, is_again)
        word, opened = box
        if opened is None:
            box[1] = opened = self.open(*word)
        elif isinstance(opened, list):
            for each in opened:
                self.visit(each, True)
            return None
        elif opened is not True:
            if opened.archive is not None:
                self.passes(opened)
            elif opened.library is not None:
                self.ask_library(opened, True)
        return None

    def visit_group(self, boxes, is_again):
        while True:
            before = self.keys.undefined
            for each in boxes:
                self.visit(each, is_again)
            is_again = True
            if self.keys.undefined == before:
                return

    def row(self, path, archive=None, number=None):
        row = Row(len(self.rows), path, archive, number)
        self.rows.append(row)
        return row

    def open(self, word, is_static, is_whole, as_needed):
        """Takes an input for the first time. Gives what further rounds need of it: True for nothing."""
        path = self.words.found(word, is_static)
        if path is None:
            self.row(word).kind = "missing"
            self.is_missing = True
            return True
        with open(path, "rb") as file:
            content = file.read()
        if content[:4] == b"\x7fELF":
            return self.open_elf(path, content, as_needed)
        if content[:8] == THIN:
            self.row(path)
            raise Refused(0, "thin")
        if content[:8] == MAGIC:
            return self.open_archive(path, content, is_whole)
        inputs = self.words.script(content, path, is_static, is_whole, as_needed)
        if inputs is None:
            self.row(path)
            raise Refused(0, "script")
        boxes = self.inputs(inputs)
        for each in boxes:
            self.visit(each, False)
        return boxes or True

    def open_elf(self, path, content, as_needed):
        row = self.row(path)
        if content[16:18] == b"\3\0":
            library = SharedLibrary(content, self.most)
            opened = Opened(row)
            opened.library, opened.as_needed = library, as_needed
            opened.name = path if library.soname is None else library.soname
            return self.ask_library(opened, False)
        self.take_object(row, Object(content, self.most, self.known))
        row.kind = "object"
        return True

    def take_object(self, row, file):
        self.sections |= file.sections
        for names, symbol in file.events():
            self.keys.take_own(names, symbol, row.index)

    def ask_library(self, opened, is_again):
        """Takes a shared library, unless it is in the link or not needed."""
        row = opened.row
        if opened.name in self.libraries:
            row.kind = "same"
            return True
        self.has_library = True
        if not is_again:
            self.listed += [(name, opened) for name in opened.library.needed]
            # Of one that is in the link already no symbol is read.
            opened.events = list(opened.library.events())
            self.spare.append(opened)
        if opened.as_needed and not self.is_needed(opened):
            row.kind = "unneeded"
            return opened
        row.kind = "shared"
        self.libraries[opened.name] = opened
        for names, symbol in opened.events:
            self.keys.take_shared(names, symbol, row.index)
        opened.library = None
        return True

    def is_needed(self, opened):
        is_listed = self.is_listed(opened.name, len(self.listed))
        return any(self.keys.needs(names, symbol, is_listed) for names, symbol in opened.events if symbol.sort == "definition")

    def is_listed(self, name, most):
        """Whether a library that is in the link, or is itself so listed, names a library as needed."""
        return any(each == name and (by.library is None or not by.as_needed or self.is_listed(by.name, place))
                   for place, (each, by) in enumerate(self.listed[:most]))

    def open_archive(self, path, content, is_whole):
        row = self.row(path)
        archive = Archive(content, not is_whole)
        row.kind = "archive"
        opened = Opened(row, archive.entries, archive)
        if is_whole:
            for number in range(len(archive.members)):
                if archive.is_file(number):
                    self.take_member(opened, number, None)
            return True
        opened.entries = [(text, keys_of(text), number) for text, number in archive.entries]
        self.archives.append(opened)
        for _, names, _ in opened.entries:
            for name in names:
                self.keys.of(name)
        self.passes(opened)
        return opened

    def passes(self, opened):
        while True:
            before = self.keys.undefined
            for text, names, number in opened.entries:
                self.ask_entry(opened, text, names, number)
            if self.keys.undefined == before:
                return

    def ask_entry(self, opened, text, names, number):
        if number in opened.taken:
            return
        key = next((key for key in map(self.keys.of, names) if key.state != NONE), None)
        if key is None or not (key.state == UNDEF and not key.is_gone or key.state == COMMON and self.defines(opened, number, text)):
            return
        opened.taken.add(number)
        self.take_member(opened, number, key)

    def defines(self, opened, number, text):
        """Whether the first symbol of a name in a member is a definition, not weak and no function: not of one that is refused."""
        try:
            return Object(opened.archive.data(number), self.most, set(), False).first_of(text)
        except Refused:
            return False

    def take_member(self, opened, number, key):
        member = opened.archive.members[number]
        row = self.row(b"", opened.row.index, number)
        row.reason = key and (key.row, key.name)
        row.path = member.name()
        try:
            self.take_object(row, Object(opened.archive.data(number), self.most, self.known))
        except Refused as refusal:
            raise Refused(refusal.args[0] + member.start, refusal.args[1]) from refusal
        row.kind = "member"

    # What is printed.

    def offers(self):
        """Of each name that an archive or an unneeded library has, the rows and the numbers of members."""
        found = {}
        for opened in self.archives:
            for _, names, number in opened.entries:
                for name in names:
                    found.setdefault(name, []).append((opened.row.index, number))
        for opened in self.spare:
            if opened.row.kind == "unneeded":
                for names, symbol in opened.events:
                    for name in names if symbol.sort == "definition" else ():
                        found.setdefault(name, []).append((opened.row.index, None))
        return found

    def is_of_linker(self, name):
        if name in OF_LINKER or name == b"_DYNAMIC" and (self.words.has_dynamic or self.has_library) \
                or name == b"__tls_get_addr" and not self.words.is_shared:
            return True
        bounds = re.fullmatch(rb"__(?:start|stop)_([A-Za-z0-9_]+)", name)
        return bool(bounds) and bounds[1] in self.sections

    def state(self, key, offered):
        if key.is_shared:
            return "shared"
        if key.state == DEF:
            return "multiple" if key.further else "defined"
        if key.state in (DEFWEAK, COMMON):
            return "weakdef" if key.state == DEFWEAK else "common"
        if self.is_of_linker(key.name):
            return "linker"
        if key.state != UNDEF:
            return "weak"
        if not key.is_asked:
            return "unused"
        return "order" if offered else "undef"

    def lines(self):
        """The lines, and the status."""
        lines, status = [], 1 if self.is_missing else 0
        for row in self.rows:
            lines.append(b"I %s %-8s %s %s %s" % (column(row.index), row.kind.encode(), column(row.archive), column(row.number), spelt(row.path)))
            if row.reason and row.kind != "refused":
                lines.append(b"W %s %s %s" % (column(row.index), column(row.reason[0]), spelt(row.reason[1])))
        if self.refusal:
            return lines + [b"! %016x %s" % (self.refusal[0], self.refusal[1].encode())], 1
        offers = self.offers()
        for key in self.keys.met:
            if not key.is_own:
                continue
            offered = offers.get(key.name, [])
            state = self.state(key, offered)
            definer = key.row if key.state in (COMMON, DEF, DEFWEAK) else None
            referrer = key.weak_reference if key.reference is None else key.reference
            lines.append(b"G %-8s %s %s %s" % (state.encode(), column(definer), column(referrer), spelt(key.name)))
            if state == "multiple":
                lines += [b"M %s %s" % (column(row), spelt(key.name)) for row in key.further]
            if state in ("order", "undef", "weak"):
                lines += [b"O %s %s %s" % (column(row), column(number), spelt(key.name)) for row, number in offered]
            status = max(status, int(state in ("undef", "order", "multiple")))
        return lines, status


def column(number):
    return b"-    " if number is None else b"%5d" % number


def answer(words, most=65279):
    """The lines and the status of a command line, without the command."""
    link = Link(Words(words), most)
    link.run()
    return link.lines()


def has_input(inputs):
    """Whether there is an input among these and in their groups."""
    return any(not isinstance(step, list) or has_input(step) for step in inputs)


def main(words):
    words = words[1:] if words[:1] == [b"resolve"] else words
    place = words.index(b"--")
    try:
        if not has_input(Words(words[place + 1:]).inputs):
            print("elfsee: no input files", file=sys.stderr)
            return 2
        lines, status = answer(words[place + 1:])
    except BadWord as bad:
        print("elfsee: word", os.fsdecode(bad.args[0]), file=sys.stderr)
        return 2
    sys.stdout.buffer.write(b"".join(line + b"\n" for line in lines))
    return status


if __name__ == "__main__":
    sys.exit(main([os.fsencode(word) for word in sys.argv[1:]]))
