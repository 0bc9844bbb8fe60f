#!/usr/bin/env python3
"""Compares what `elfsee show` lists with what `readelf` lists, field by field.

    tests/machine/against_readelf.py [--program PATH] [--kind KIND]... [--gnu] [--versions] [--all] [FILE...]

KIND is sections, segments, symbols, relocs, notes, dynamic or, with --gnu, versions;
without it all are compared.  Without FILE files of this machine are taken: executables,
shared libraries, objects and files for other machines, some hundreds in all and
always the same ones on the same machine; with --all every ELF file below /usr.

If notes or dynamic entries are compared, so are copies without section headers: of
the given files, or of every shared library of this machine.  There both programs use
the program headers, and `elfsee` must list the same notes and the same dynamic entries
as it does by the sections.

`elfsee` and `readelf` are two independent programs, so a field on which they agree
is hardly wrong in both.  `readelf` shows more
than `elfsee` does (entry sizes, alignments, parents of versions) and names more
numbers; what only one of them shows is not compared.  With --gnu it compares `elfsee show --gnu`,
whose names are then readelf's, except those that are shorter.  Of a note it compares the owner,
the type and the size of the descriptor, and of a build ID the descriptor; of a dynamic
entry the tag, and the value or the string.  Of a version
it compares the number, flags and name and, for a symbol's, what is after the symbol's name
in readelf's list of symbols; its hash, which readelf does not show, is compared with the hash
of that name. With --versions too it compares `elfsee show --gnu --versions`: what is after the name
of a symbol, in symbols and relocation entries, must be what readelf has there, except for two kinds of symbols: one
with the same name as its version, after which readelf has nothing; and a defined one of a needed version, a program's
copy of a library's variable, for which readelf has one `@` and elfsee two, as it shows whether a version is hidden and
not where it is defined. The dynamic symbols with a name must be those that `nm -D --with-symbol-versions`
lists, except the same two kinds.  The relocations
of 64-bit MIPS files are not compared: `elfsee` does not support their layout.

Without --program the repository's own program is compared, and built first if it
is not built.  It needs Python 3 and Debian's binutils, takes some minutes, and is no part
of ./check.  The last line counts what was compared, and the disagreements.

Exit status: 0 if at least one file was compared and nothing disagrees, 1
if something disagrees or no file could be compared, 2 if the arguments are
invalid or a program is missing.
"""

import collections
import os
import re
import shutil
import struct
import subprocess
import sys
import tempfile

sys.dont_write_bytecode = True
sys.path.insert(0, os.path.join(os.path.dirname(os.path.realpath(__file__)), "..", "common"))
from readelf_names import (HEADERS, VERSIONED_NAME, is_copied, same_name, same_owner, same_relocation_name,
                           same_section_name, same_symbol_name, same_version_behind, unspelt, with_two_signs)
from readelf_rows import (readelf_dynamic, readelf_notes, readelf_relocations, readelf_sections, readelf_segments,
                          readelf_symbols, readelf_versions, rows_of_elfsee, unlisted_tables)
from readelf_words import (BINDINGS, DYNAMIC_TAGS, MIPS, MORE_BINDINGS, MORE_SYMBOL_TYPES, SHOW_WORDS, SYMBOL_TYPES,
                           NotUnderstood, are_versions_shown, name_gnu_numbers, nibble_words, place_words,
                           same_relocation_type, section_type_words, segment_type_words, show_versions)
from testing import option_reader, program_of

KINDS = ("sections", "segments", "symbols", "relocs", "notes", "dynamic")
GNU_KINDS = (*KINDS, "versions")
READELF_OPTION = {"sections": "-SW", "segments": "-lW", "symbols": "-sW", "relocs": "-rW",
                  "notes": "-nW", "dynamic": "-dW", "versions": "-VW"}
# A given number of files of each sort are taken if none are named, none larger than this.
FILES_OF_A_SORT = 90
LARGEST_FILE = 32 * 1024 * 1024
# Of one file and kind no more disagreements than this are printed (all are counted).
PRINTED_OF_A_FILE = 20
SECONDS = 300


# ---------------------------------------------------------------------------
# Comparing rows.

def agrees(kind, field, ours, theirs, section_names):
    """Whether one field of a row agrees."""
    mine, other = ours[field], theirs[field]
    if kind == "sections":
        if field == "type":
            return other in section_type_words(mine)
        if field == "name":
            return same_section_name(mine, other)
    if kind == "segments" and field == "type":
        return other in segment_type_words(mine)
    if kind == "symbols":
        if field == "type":
            return other in nibble_words(mine, SYMBOL_TYPES, MORE_SYMBOL_TYPES)
        if field == "binding":
            return other in nibble_words(mine, BINDINGS, MORE_BINDINGS)
        if field == "section":
            return other in place_words(mine)
        if field == "name":
            section = int(ours["section"]) if ours["section"].isdigit() else None
            if are_versions_shown() and is_copied(theirs):
                other = with_two_signs(other)
            return same_symbol_name(
                mine, other, ours["type"], theirs["dynamic"], section_names.get(section))
    if kind == "relocs":
        if field == "type":
            return same_relocation_type(mine, other, theirs["number"], theirs["machine"])
        if field == "name":
            if are_versions_shown() and theirs["copied"]:
                other = with_two_signs(other)
            return same_relocation_name(mine, other, theirs["dynamic"], theirs["nameless"])
    if kind == "notes":
        if field == "owner":
            return same_owner(mine, other)
        if field == "descriptor" and other is not None:
            return same_descriptor(mine, other)
    if kind == "dynamic":
        if field == "word":
            return mine == DYNAMIC_TAGS.get(ours["tag"], "%016x" % ours["tag"]) and (
                mine == other or ours["tag"] not in DYNAMIC_TAGS)
        if field == "string":
            return same_name(mine, other)
    if kind == "versions":
        if field == "name":
            return same_name(mine, other)
        if field == "after the symbol" and other is not None:
            return same_version_behind(ours, other)
    return other is None or mine == other


def same_descriptor(ours, theirs):
    """Whether the digits of a descriptor are readelf's, or the first 32 bytes of them."""
    return ours == (theirs if len(theirs) <= 64 else theirs[:64] + "\\+")


def shown(value):
    return "%#x" % value if isinstance(value, int) else repr(value)


def differing(line, field, mine, other):
    return "line %d, %s: elfsee %s, readelf %s" % (line, field, mine, other)


def compare_rows(kind, ours, theirs, section_names):
    """The disagreements between two lists of rows."""
    found = []
    for mine, other in zip(ours, theirs):
        for field in mine if mine.get("kind") == other.get("kind") else ("kind",):
            if field == "line":
                continue
            try:
                good = agrees(kind, field, mine, other, section_names)
            except ValueError:
                good = False
            if not good:
                found.append(
                    differing(mine["line"], field, shown(mine[field]), shown(other[field])))
    if len(ours) != len(theirs):
        line = min(len(ours), len(theirs)) + 1
        found.append(differing(line, "number of rows", len(ours), len(theirs)))
    return found


# ---------------------------------------------------------------------------
# Running the two programs.

Answer = collections.namedtuple("Answer", "status text errors")


def run(words):
    """Runs a program; its output is taken byte by byte, one letter for each."""
    environment = dict(os.environ, LC_ALL="C")
    try:
        done = subprocess.run(
            words, stdin=subprocess.DEVNULL, stdout=subprocess.PIPE, stderr=subprocess.PIPE,
            env=environment, timeout=SECONDS, check=False)
    except subprocess.TimeoutExpired:
        return Answer(None, "", "no answer in %d seconds" % SECONDS)
    return Answer(done.returncode, done.stdout.decode("latin-1"), done.stderr.decode("latin-1"))


def plain(path):
    """A path that no program takes for an option."""
    return os.path.join(".", path) if path.startswith("-") else path


class Readelf:
    """readelf's answers for one file, each requested once."""

    def __init__(self, program, path):
        self.program = program
        self.path = path
        self.answers = {}

    def answer(self, kind):
        if kind not in self.answers:
            self.answers[kind] = run([self.program, READELF_OPTION[kind], plain(self.path)])
        return self.answers[kind]

    def content(self, kind):
        """Whether it listed the file and had nothing to say against it."""
        answer = self.answer(kind)
        if kind == "relocs" and unlisted_tables(self.sections()):
            return False
        return answer.status == 0 and answer.errors == "" and "<corrupt" not in answer.text

    def sections(self):
        return readelf_sections(self.answer("sections").text)

    def rows(self, kind):
        text = self.answer(kind).text
        if kind == "segments":
            return readelf_segments(text)
        sections = self.sections()
        if kind == "symbols":
            return readelf_symbols(text, sections)
        if kind == "relocs":
            symbols = readelf_symbols(self.answer("symbols").text, sections)
            return readelf_relocations(text, sections, symbols, machine_of(file_head(self.path)))
        if kind == "notes":
            return readelf_notes(text, sections, readelf_segments(self.answer("segments").text))
        if kind == "dynamic":
            return readelf_dynamic(text)
        if kind == "versions":
            symbols = readelf_symbols(self.answer("symbols").text, sections)
            return readelf_versions(text, sections, symbols)
        return sections


# ---------------------------------------------------------------------------
# Refusals.

def file_head(path):
    with open(path, "rb") as file:
        return file.read(64)


def machine_of(head):
    return int.from_bytes(head[18:20], "little")


def names_retain(head):
    """Whether readelf has the letter R for such a file: if its system is GNU or FreeBSD."""
    return head[7] in (3, 9)


def without_retain(rows):
    """Rows of sections with the mark of an unknown flag for the letter R."""
    for row in rows:
        if "R" in row["flags"]:
            row["flags"] = row["flags"].replace("R", "").rstrip("?") + "?"
    return rows


def cause_to_expect(head):
    """The cause with which elfsee must refuse a file, for any output of readelf,
    read from the file header; None for a 64-bit little-endian file with as many
    headers as elfsee takes."""
    if len(head) < 64:
        return "short"
    if head[:4] != b"\x7fELF":
        return "not-elf"
    if head[4] != 2:
        return "class"
    if head[5] != 1:
        return "data"
    section_offset, = struct.unpack_from("<Q", head, 40)
    segments, = struct.unpack_from("<H", head, 56)
    sections, names = struct.unpack_from("<HH", head, 60)
    if 0xffff in (segments, names) or (sections == 0 and section_offset != 0):
        return "extended-numbering"
    if sections > HEADERS or segments > HEADERS:
        return "too-many-headers"
    return None


def judge_refusal(line, refusal, expected, readelf, kind):
    """What is wrong with a refusal: a list of one text, or of none."""
    cause = refusal.split(" ")[-1]
    if expected is not None:
        if cause == expected:
            return []
        return ["line %d, refusal: elfsee %s, the file's header asks for %s" % (
            line, cause, expected)]
    if not readelf.content(kind):
        return []
    return ["line %d, refusal: elfsee %s, readelf lists it without complaint" % (line, cause)]


# ---------------------------------------------------------------------------
# One file.

class Count:
    def __init__(self):
        self.files = 0
        self.copies = 0
        self.refused = 0
        self.disagreements = 0
        self.rows = dict.fromkeys(GNU_KINDS, 0)
        self.fields = 0


def split_listing(answer):
    """elfsee's lines, and the refusal that ends them or None."""
    lines = answer.text.split("\n")
    if lines.pop() != "":
        raise NotUnderstood("a listing whose last line has no end")
    refusal = lines.pop() if lines and lines[-1].startswith("! ") else None
    return lines, refusal


# What came of one kind of one file: the disagreements, the refusal's line or None,
# and whether rows were compared.
Result = collections.namedtuple("Result", "found refusal compared")


def compare_kind(program, path, kind, readelf, count):
    """Compares one kind of one file."""
    head = file_head(path)
    expected = cause_to_expect(head)
    if kind == "relocs" and expected is None and machine_of(head) == MIPS:
        return Result([], None, False)
    answer = run([program, "show", *SHOW_WORDS, "--only", kind, plain(path)])
    if answer.status not in (0, 1) or answer.errors != "":
        text = "elfsee ended with status %s: %s" % (answer.status, answer.errors.strip())
        return Result([text], None, False)
    try:
        lines, refusal = split_listing(answer)
        if (refusal is not None) != (answer.status == 1):
            text = "elfsee ended with status %d, refusal %s" % (answer.status, refusal)
            return Result([text], refusal, False)
        if refusal is not None:
            found = judge_refusal(len(lines) + 1, refusal, expected, readelf, kind)
            return Result(found, refusal, False)
        if expected is not None:
            return Result(["elfsee lists what is to be refused as " + expected], None, False)
        ours = rows_of_elfsee(kind, lines)
        theirs = readelf.rows(kind)
        if kind == "sections" and not names_retain(head):
            ours = without_retain(ours)
        if kind == "relocs":
            unlisted = unlisted_tables(readelf.sections())
            ours = [row for row in ours if row["table"] not in unlisted]
    except NotUnderstood as line:
        return Result(["not understood: %s" % line], None, False)
    names = {}
    if kind == "symbols":
        names = {row["index"]: row["name"] for row in readelf.sections()}
    count.rows[kind] += len(ours)
    count.fields += sum(1 for mine, other in zip(ours, theirs)
                        for field in mine if field != "line" and other.get(field) is not None)
    found = compare_rows(kind, ours, theirs, names)
    if kind == "symbols" and are_versions_shown():
        found += nm_differs(path, ours, theirs)
    return Result(found, None, True)


def nm_differs(path, ours, theirs):
    """How the dynamic symbols with a name differ from those that nm lists, names with versions alone."""
    dynamic = {row["table"] for row in theirs if row["dynamic"]}
    copied = {(row["table"], row["index"]) for row in theirs if is_copied(row)}
    mine = collections.Counter(
        whole_name(row["name"].replace("@@", "@") if (row["table"], row["index"]) in copied else row["name"])
        for row in ours if row["table"] in dynamic and row["name"] and row["type"] not in ("SECTION", "FILE"))
    if None in mine:
        return []
    answer = run(["nm", "-D", "--with-symbol-versions", plain(path)])
    listed = collections.Counter(line[19:] for line in answer.text.split("\n") if len(line) > 19)
    return (["nm lacks %r" % name for name in mine - listed] + ["nm has %r" % name for name in listed - mine])


def whole_name(name):
    """The bytes of a name with its version, a letter for each, but that a symbol that is called as its
    version has none; None if one of the two is cut."""
    plain_name, behind = VERSIONED_NAME.fullmatch(name).groups()
    if behind is not None and behind.lstrip("@") == plain_name:
        name = plain_name
    return None if "\\+" in name else unspelt(name)[0].decode("latin-1")


def report_disagreements(path, kind, found):
    for text in found[:PRINTED_OF_A_FILE]:
        print("%s: %s, %s" % (path, kind, text))
    if len(found) > PRINTED_OF_A_FILE:
        print("%s: %s, and %d more" % (path, kind, len(found) - PRINTED_OF_A_FILE))


def report_refusals(path, refusals):
    """One line for each refusal, though it may be that of several kinds."""
    for line in sorted(set(refusals.values())):
        kinds = ", ".join(kind for kind in refusals if refusals[kind] == line)
        print("%s: refused (%s): %s" % (path, kinds, line))


def compare_listings(programs, path, called, kinds, count):
    """Compares some kinds of a file; answers whether any were."""
    program, readelf_program = programs
    readelf = Readelf(readelf_program, path)
    refusals = {}
    compared = False
    for kind in kinds:
        result = compare_kind(program, path, kind, readelf, count)
        report_disagreements(called, kind, result.found)
        count.disagreements += len(result.found)
        compared = compared or result.compared
        if result.refusal is not None:
            refusals[kind] = result.refusal
    report_refusals(called, refusals)
    count.refused += 1 if refusals else 0
    return compared


def compare_file(programs, path, kinds, count):
    count.files += 1 if compare_listings(programs, path, path, kinds, count) else 0


# ---------------------------------------------------------------------------
# Copies without section headers.

def listed_rows(program, path, kind):
    """The rows that elfsee lists; None if it refuses the file."""
    answer = run([program, "show", *SHOW_WORDS, "--only", kind, plain(path)])
    if answer.status != 0:
        return None
    return rows_of_elfsee(kind, split_listing(answer)[0])


def inside(section, segment):
    """Whether a section's bytes are among a segment's."""
    begin, end = segment["offset"], segment["offset"] + segment["file size"]
    return section["size"] > 0 and begin <= section["offset"] and (
        section["offset"] + section["size"] <= end)


def notes_by_segments(sections, segments, notes):
    """The notes that program headers are to list, by the sections that their segments
    hold, in the order of their offsets."""
    rows = []
    for segment in [row for row in segments if row["type"] == "NOTE"]:
        held = [row for row in sections if row["type"] == "NOTE" and inside(row, segment)]
        for section in sorted(held, key=lambda row: row["offset"]):
            rows += [dict(row, header=segment["index"]) for row in notes
                     if row["header"] == section["index"]]
    return rows


def dynamic_by_segments(sections, segments, dynamic):
    """The dynamic entries that program headers are to list; None if they describe
    another table than the section headers do."""
    tables = [[(row["offset"], size(row)) for row in rows if row["type"] == "DYNAMIC" and size(row)]
              for rows, size in ((sections, lambda row: row["size"]),
                                 (segments, lambda row: row["file size"]))]
    return dynamic if tables[0] == tables[1] and len(tables[0]) <= 1 else None


# The kinds of which program headers give too, and what they are to list by the rows of the
# original: its sections, its program headers, its notes or dynamic entries.
ROWS_BY_SEGMENTS = {"notes": notes_by_segments, "dynamic": dynamic_by_segments}


def without_sections(path, copy):
    """Writes a copy of a file whose header describes no sections."""
    with open(path, "rb") as file:
        contents = bytearray(file.read())
    contents[40:48] = bytes(8)
    contents[60:64] = bytes(4)
    with open(copy, "wb") as file:
        file.write(contents)


def differences(wanted, listed):
    """The differences between the rows of a copy and those of the original."""
    texts = [[sorted((key, value) for key, value in row.items() if key != "line") for row in rows]
             for rows in (wanted, listed)]
    for number, pair in enumerate(zip(*texts), 1):
        if pair[0] != pair[1]:
            return ["line %d: by sections %s, by program headers %s" % (number, *pair)]
    if len(wanted) != len(listed):
        return ["%d rows by sections, %d by program headers" % (len(wanted), len(listed))]
    return []


def compare_copy(programs, path, kinds, count):
    """Compares what elfsee lists of a file without section headers with what it lists of
    the file, and with what readelf lists of the copy."""
    kinds = [kind for kind in kinds if kind in ROWS_BY_SEGMENTS]
    if not kinds or cause_to_expect(file_head(path)) is not None:
        return
    original = {kind: listed_rows(programs[0], path, kind)
                for kind in ("sections", "segments", *kinds)}
    if None in original.values() or original["sections"] == []:
        return
    called = path + " without section headers"
    with tempfile.TemporaryDirectory() as folder:
        copy = os.path.join(folder, "copy")
        without_sections(path, copy)
        told = False
        for kind in kinds:
            wanted = ROWS_BY_SEGMENTS[kind](
                original["sections"], original["segments"], original[kind])
            if wanted is None:
                continue
            told = True
            listed = listed_rows(programs[0], copy, kind)
            found = ["refused"] if listed is None else differences(wanted, listed)
            report_disagreements(called, kind, found)
            count.disagreements += len(found)
        if told and compare_listings(programs, copy, called, kinds, count):
            count.copies += 1


# ---------------------------------------------------------------------------
# Choosing files.

def is_elf(path):
    """Whether it is a plain file of a fitting size that begins as an ELF file does."""
    try:
        if os.path.islink(path) or not os.path.isfile(path):
            return False
        if os.path.getsize(path) > LARGEST_FILE:
            return False
        with open(path, "rb") as file:
            return file.read(4) == b"\x7fELF"
    except OSError:
        return False


def files_below(folder):
    for here, folders, names in os.walk(folder):
        folders.sort()
        for name in sorted(names):
            yield os.path.join(here, name)


def spread(paths, most):
    """At most a given number of the paths, from the whole length of their sorted list."""
    paths = sorted(paths)
    if len(paths) <= most:
        return paths
    return [paths[i * len(paths) // most] for i in range(most)]


def cross_folders():
    """The directories of libraries for other machines, as /usr/aarch64-linux-gnu."""
    try:
        names = sorted(os.listdir("/usr"))
    except OSError:
        return []
    return [os.path.join("/usr", name) for name in names if "-linux-" in name]


def shared_libraries():
    """Every shared library of this machine, in a stable order."""
    return [path for path in files_below("/usr/lib")
            if re.search(r"\.so(\.|$)", os.path.basename(path)) and is_elf(path)]


def real_files():
    """Files of every sort that this machine has, in a stable order."""
    executables = list(files_below("/usr/bin"))
    libraries, starts, objects, foreign = [], [], [], []
    for path in files_below("/usr/lib"):
        name = os.path.basename(path)
        if "crt" in name and name.endswith(".o"):
            starts.append(path)
        elif name.endswith((".o", ".ko")):
            objects.append(path)
        elif ".so" in name or name.endswith(".debug"):
            libraries.append(path)
    for folder in cross_folders():
        foreign += [path for path in files_below(folder) if not path.endswith(".a")]
    chosen = []
    for paths in (executables, libraries, starts, objects, foreign):
        chosen += spread([path for path in paths if is_elf(path)], FILES_OF_A_SORT)
    return chosen


def all_files():
    """Every ELF file below /usr, of any size."""
    for path in files_below("/usr"):
        if not os.path.islink(path) and os.path.isfile(path):
            with open(path, "rb") as file:
                if file.read(4) == b"\x7fELF":
                    yield path


# ---------------------------------------------------------------------------
# The command line.

def command_line():
    parser = option_reader(__doc__)
    parser.add_argument("--kind", action="append", choices=GNU_KINDS,
                        help="compare this kind alone (may be given again)")
    parser.add_argument("--gnu", action="store_true",
                        help="compare the names of numbers of the GNU system too, and versions")
    parser.add_argument("--versions", action="store_true",
                        help="with --gnu, compare the versions after names too, and with nm's")
    parser.add_argument("--all", action="store_true",
                        help="without FILE, take every ELF file below /usr")
    parser.add_argument("files", nargs="*", metavar="FILE",
                        help="without one, real files of this machine are taken")
    given = parser.parse_args()
    if not given.gnu and given.kind and "versions" in given.kind:
        parser.error("the kind versions wants --gnu")
    if given.versions and not given.gnu:
        parser.error("--versions wants --gnu")
    return given


def programs_for(given):
    """The two programs' paths; ends with 2 if one is missing."""
    readelf = shutil.which("readelf")
    if readelf is None:
        sys.stderr.write("readelf is missing; install it: apt-get install binutils\n")
        sys.exit(2)
    return program_of(given), readelf


def main():
    # Names may hold any bytes, and what is printed of them must not end the run.
    sys.stdout.reconfigure(errors="backslashreplace")
    given = command_line()
    programs = programs_for(given)
    if given.gnu:
        name_gnu_numbers()
    if given.versions:
        show_versions()
    kinds = [kind for kind in (GNU_KINDS if given.gnu else KINDS)
             if given.kind is None or kind in given.kind]
    count = Count()
    for path in given.files or (all_files() if given.all else real_files()):
        if os.path.isfile(path):
            compare_file(programs, path, kinds, count)
        else:
            count.disagreements += 1
            print("%s: no plain file" % path)
    for path in filter(os.path.isfile, given.files or shared_libraries()):
        compare_copy(programs, path, kinds, count)
    rows = ", ".join("%d %s" % (count.rows[kind], kind) for kind in kinds)
    print("%d files and %d copies compared (%s; %d fields), %d refused, %d disagreements" % (
        count.files, count.copies, rows, count.fields, count.refused, count.disagreements))
    return 0 if count.files > 0 and count.disagreements == 0 else 1


if __name__ == "__main__":
    sys.exit(main())
