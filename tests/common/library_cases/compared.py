"""Programs that call the library, and its answers beside those of the program, for tests/gate/library.py."""

import os
import re
import struct
import subprocess
import tempfile

import changed_files
import looked_up
from library_cases.header import (ABSENT, BUDGET, FLAGS, KINDS, MOST_HEADERS, OK, REFUSED, STYLES, constants_of_header,
                                  run, same)
from library_cases.numbers import columns_of_page, names_of_numbers, names_of_relocations, plain_row, shown_row
from testing import TOP


def numbers_and_copies(words):
    """The items of the command `image`, as calls.c takes them."""
    kinds, numbers, copies = ("base", "desc", "sym", "call", "mod", "dtp", "tp", "ires"), [], []
    for word in words:
        key, value = word.rsplit("=", 1)
        kind, _, key = key.partition(":")
        if kind == "copy":
            copies.append(f"{key}:{value}")
        else:
            numbers.append(f"{kinds.index(kind)}:{int(key or '0', 0):x}:{int(value, 0):x}")
    return ",".join(numbers) or "-", ",".join(copies) or "-"


class Built:
    """The library's files, and a directory for what is made with them."""

    def __init__(self, folder, room):
        self.archive = os.path.join(folder, "libelfsee.a")
        self.shared = os.path.join(folder, "libelfsee.so.0")
        self.room = room

    def program(self, source, *words, compiler="gcc"):
        """Makes a program of a source of the repository; gives its path, or None and what the compiler says."""
        path = os.path.join(self.room, os.path.basename(source).split(".")[0])
        done = run([compiler, *FLAGS, *words, "-o", path, os.path.join(TOP, source), self.archive])
        return (path, "") if done.returncode == 0 else (None, done.stderr.decode()[:2000])


class Calls:
    """The program that calls the library as its input says, line by line."""

    def __init__(self, path):
        self.path, self.process = path, None

    def ask(self, *words):
        """An answer: its status, cause, offset, bytes written, asked and cost, and its text; or None and what
        was wrong."""
        if self.process is None:
            self.process = subprocess.Popen([self.path], stdin=subprocess.PIPE, stdout=subprocess.PIPE)
        self.process.stdin.write(b" ".join(os.fsencode(str(word)) for word in words) + b"\n")
        self.process.stdin.flush()
        line = self.process.stdout.readline().decode().strip()
        if not re.fullmatch(r"\d+(?: \d+){6}", line):
            status = self.process.wait()
            self.process = None
            return None, line or f"it ends with status {status}"
        *numbers, size = map(int, line.split())
        return numbers, self.process.stdout.read(size)

    def end(self):
        if self.process is not None:
            self.process.stdin.close()
            self.process.wait()


class Compared:
    """Compares the library's answers with the program's."""

    def __init__(self, program, calls, causes):
        self.program, self.calls, self.causes = program, calls, causes
        self.tables, self.columns = names_of_numbers(), columns_of_page()
        self.relocations = names_of_relocations()

    def program_says(self, words):
        done = run([self.program, *words])
        return done.returncode, done.stdout

    def line_of(self, numbers):
        """The line of a refusal."""
        return b"! %016x %s\n" % (numbers[2], self.causes.get(numbers[1], "?").encode())

    def show(self, path, headers=MOST_HEADERS, name=256, budget="-", parts=127):
        numbers, text = self.calls.ask("show", headers, name, budget, parts, path)
        if numbers is None:
            return f"show: {text}"
        words = ["show", "--headers", str(headers), "--names", str(name)]
        words += ["--max-read", str(budget)] if budget != "-" else []
        status, wanted = self.program_says([*words, "--", path])
        wrong = same((status, wanted), (numbers[0], text)) if budget == "-" else ""
        if budget != "-":
            wrong = self.cut_wrong(path, status, numbers, text, wanted)
        if not wrong and numbers[0] == REFUSED and not text.endswith(self.line_of(numbers)):
            wrong = f"the refusal is {self.line_of(numbers)}, the last line {text[-60:]}"
        if not wrong and numbers[0] == OK and numbers[1:3] != [0, 0]:
            wrong = "a cause or an offset where nothing is refused"
        if not wrong and (numbers[3] != len(text) or numbers[4] > numbers[5]):
            wrong = f"{numbers} for {len(text)} bytes"
        return wrong and f"show: {wrong}"

    def list(self, path, options, headers=MOST_HEADERS, name=256, budget="-"):
        """The listing in a style, which is what the program prints with these of its options, however long the
        struct is."""
        flags = sum(STYLES[option] for option in options)
        parts = 255 if "--gnu" in options else 127
        words = ["show", *options, "--headers", str(headers), "--names", str(name)]
        words += ["--max-read", str(budget)] if budget != "-" else []
        wanted = self.program_says([*words, "--", path])
        for _ in range(4):
            numbers, text = self.calls.ask("list", headers, name, budget, parts, flags, path)
            if numbers is None:
                return f"list: {text}"
            wrong = same(wanted, (numbers[0], text)) if budget == "-" else same(wanted[0], numbers[0])
            # What a file's length bounds are listings without versions after names.
            if wrong or numbers[3] != len(text) or (numbers[4] > numbers[5] and "--versions" not in options):
                return f"list {' '.join(options)}: {wrong or numbers}"
        return ""

    def names(self, path, part, options, names):
        """The rows of some names alone, which are what the program prints with these names and options."""
        flags = sum(STYLES[option] for option in options)
        number = constants_of_header("ELFSEE_HEADER")["ELFSEE_" + part.upper()]
        lent = ",".join(name.hex() for name in sorted(names)) or "-"
        numbers, text = self.calls.ask("names", MOST_HEADERS, 256, "-", number, flags, lent, path)
        if numbers is None:
            return f"names of {part}: {text}"
        words = ["show", *options, "--headers", str(MOST_HEADERS), "--only", part]
        words += ["--name=" + os.fsdecode(name) for name in names] or ["--name=\1"]
        wanted = self.program_says([*words, "--", path])
        wrong = same(wanted, (numbers[0], text))
        return wrong and f"names of {part} {' '.join(options)}, {names}: {wrong}"

    def hashed(self, path, by_segments=False):
        """Compares the symbols of the hash table with those that tests/again/looked_up.py finds."""
        with open(path, "rb") as file:
            content = file.read()
        numbers, text = self.calls.ask("hashed", MOST_HEADERS, "-", int(by_segments), path)
        if numbers is None:
            return f"symbols of the hash table: {text}"
        scope = looked_up.Scope(changed_files.without_sections(content) if by_segments else content, MOST_HEADERS)
        if scope.refusal:
            wanted = REFUSED, "! %016x %s\n" % scope.refusal.args
            return same(wanted, (numbers[0], self.line_of(numbers).decode())) and f"hashed: {wanted}, {numbers}"
        lines = []
        for name, (at, info, other, place, value, size) in looked_up.hashed_symbols(scope):
            told = "!" if name is None else spelt(name[:256]) + "\\+" * (len(name) > 256)
            lines.append(f"{value} {size} {info} {other} {place} {at} {told}\n")
        wrong = same((OK, "".join(lines)), (numbers[0], text.decode()))
        return wrong and f"symbols of the hash table: {wrong}"

    def image(self, path, segment, words, window, wanted=None):
        """Compares the image of a segment with the program's, or with its first eight words or the line of the refusal."""
        partial, *given = (1, *words[1:]) if words[:1] == ["--leave"] else (0, *words)
        numbers, text = self.calls.ask("image", MOST_HEADERS, "-", segment, partial, window, *numbers_and_copies(given), path)
        if numbers is None:
            return f"image: {text}"
        said = self.line_of(numbers) if numbers[0] == REFUSED else text
        if wanted is None:
            leave, items = words[:1] * partial, given
            done = run([self.program, "image", "--headers", str(MOST_HEADERS), *leave, path, str(segment), *items])
            return same((done.returncode, done.stdout), (numbers[0], said)) and f"image of {segment}: {len(said)} bytes"
        if numbers[0] == OK:
            said = " ".join(f"{word:x}" for word in struct.unpack_from("<8Q", text)).encode()
        return same(wanted, said.decode().rstrip("\n"))

    def lacking(self, path, words, each):
        """Compares the entries that lack an item with the lines of the program, but for the names of types."""
        numbers, text = self.calls.ask("lacking", MOST_HEADERS, "-", each, *numbers_and_copies(words), path)
        if numbers is None:
            return f"lacking: {text}"
        done = run([self.program, "image", "--headers", str(MOST_HEADERS), "--missing", path, *words])
        if numbers[0] == REFUSED:
            return same((done.returncode, done.stdout), (1, self.line_of(numbers)))
        lines = [line.split(" ") for line in text.decode().split("\n")[:-1]]
        said = [(at, place, symbol, self.causes[int(cause)]) for at, place, _, symbol, cause in lines]
        wanted = [(line[2:18], line[19:35], *line[46:].split()) for line in done.stdout.decode().split("\n")[:-1]]
        return same((ABSENT, wanted), (numbers[0], said))

    def located(self, path):
        """Compares the places, the symbols and the addends of the relocations that dynamic entries locate with a listing by
        the program headers; one of the four tables may be words, whose first is the place of its first row."""
        numbers, text = self.calls.ask("located", MOST_HEADERS, "-", path)
        if numbers is None:
            return f"located: {text}"
        listed = run([self.program, "show", "--headers", str(MOST_HEADERS), "--gnu", "--only", "relocs", path]).stdout.decode()
        said = [line.split(" ") for line in text.decode().split("\n")[:-1]]
        wanted = [(line[8:24], int(line[36:44], 16), line[45:62]) for line in listed.split("\n") if line.startswith("R ")]
        rows = [(place, int(symbol), "-" + " " * 16 if addend == "-" else f"{'-' if int(addend) < 0 else '+'}{abs(int(addend)):016x}")
                for _, place, kind, symbol, addend in said if kind != "-"]
        relative = [line for line in listed.split("\n") if line[25:29] == "RELR"]
        is_refused, wanted = "\n! " in "\n" + listed, wanted[len(relative):]
        # A fault of a word or of a name ends the listing alone.
        wrong = "" if is_refused else same(bool(relative), any(kind == "-" for _, _, kind, _, _ in said))
        return wrong or same(wanted, rows[:len(wanted)] if is_refused else rows)

    def cut_wrong(self, path, status, numbers, text, wanted):
        """What is wrong with a listing within a budget, compared with the program's: each is whole, or a prefix of whole
        lines with the line of the budget."""
        whole = self.program_says(["show", "--headers", str(MOST_HEADERS), "--", path])[1]
        for who, said in (("library", text), ("program", wanted)):
            last = said.rfind(b"\n", 0, -1) + 1
            if said != whole and not (said.endswith(b" budget\n") and whole.startswith(said[:last])):
                return f"the {who}'s is no front of the listing"
        return same(status, numbers[0])

    def find(self, path, name, budget="-"):
        numbers, text = self.calls.ask("find", MOST_HEADERS, budget, name.hex() or "-", path)
        if numbers is None:
            return f"find {name!r}: {text}"
        status, wanted = self.program_says(["find", "--headers", str(MOST_HEADERS), "--", path, name])
        if numbers[0] == REFUSED:
            said = 1, self.line_of(numbers)
        elif numbers[0] == ABSENT:
            said = 1, b"F absent %10d\n" % int(text.split()[8])
        else:
            said = 0, self.found_lines(text, name)
        return same((status, wanted), said) and f"find {name!r}: {same((status, wanted), said)}"

    def found_lines(self, text, name):
        """The lines of `find` for a symbol."""
        section, index, value, size, info, other, place, _, steps, *_ = map(int, text.split())
        kind, binding = self.named("type of a Y line", info & 15), self.named("binding", info >> 4)
        line = "Y %5d %10d %016x %016x %-7s %-6s %-9s %5s %s\nF found  %10d\n" % (
            section, index, value, size, kind, binding, self.named("visibility", other & 3),
            self.named("place", place, 5), spelt(name), steps)
        return re.sub(r"(?<=\s)(UND|ABS|COM)", r"\1", line).encode()

    def named(self, row, number, width=None):
        names = self.tables[row]
        if number in names:
            return names[number].ljust(width or 0)
        return str(number).rjust(width or {"type of a Y line": 7, "binding": 6}[row])

    def resolve(self, path, text, by_segments=False):
        """A loader's lookup of NAME, NAME@VERSION or NAME@@VERSION."""
        numbers, told = self.calls.ask("resolve", MOST_HEADERS, "-", *words_to_resolve(text, by_segments), path)
        if numbers is None:
            return f"a loader's lookup of {text!r}: {told}"
        options = ["--by-segments"] if by_segments else []
        wanted = self.program_says(["find", "--gnu", *options, "--headers", str(MOST_HEADERS), "--", path, text])
        if numbers[0] == REFUSED:
            said = 1, self.line_of(numbers)
        elif numbers[0] == ABSENT:
            said = 1, b"F absent %10d\n" % int(told.split()[8])
        else:
            said = 0, resolved_lines(told.decode(), text, self.machine_of(path))
        return same(wanted, said) and f"a loader's lookup of {text!r}, {options}: {same(wanted, said)}"

    def machine_of(self, path):
        with open(path, "rb") as file:
            return struct.unpack("<H", file.read(20)[18:])[0]

    def apply(self, path, words, budget="-"):
        """`words` are those after FILE: a section and items."""
        numbers, text = self.calls.ask("apply", MOST_HEADERS, budget, words[0], items_of(words[1:]), path)
        if numbers is None:
            return f"apply {words}: {text}"
        wanted = self.program_says(["apply", "--headers", str(MOST_HEADERS), path, *words])
        said = (numbers[0], text) if numbers[0] != REFUSED else (1, self.line_of(numbers))
        return same(wanted, said) and f"apply {' '.join(words)[:200]}: {same(wanted, said)}"

    def place(self, path, words, budget="-"):
        """The same in a borrowed layout, compared with the program's with a file of items; if it is refused, what the
        layout lacks is what `--explain` gives."""
        numbers, text = self.calls.ask("place", MOST_HEADERS, budget, words[0], items_of(words[1:]), path)
        if numbers is None:
            return f"apply_lent {words}: {text}"
        with tempfile.NamedTemporaryFile("w", encoding="utf-8", errors="surrogateescape") as items:
            items.write("".join(word + "\n" for word in words[1:]))
            items.flush()
            done = run([self.program, "apply", "--headers", str(MOST_HEADERS), "--explain", "--layout", items.name, path,
                        words[0]])
        if numbers[0] != REFUSED:
            said, wanted = (numbers[0], text), (done.returncode, done.stdout)
        else:
            said = 1, self.line_of(numbers) + self.explained(text.decode())
            # The value that does not fit is explained by the program alone.
            wanted = done.returncode, done.stdout + (b"" if done.stdout.endswith(b" overflow\n") else done.stderr)
        return same(wanted, said) and f"apply_lent {' '.join(words)[:200]}: {same(wanted, said)}"

    def explained(self, text):
        """What is missing, as the program gives it."""
        helpful, section, relocation, is_cut, digits = text.split(" ")
        if helpful == "0":
            return b"" if text == "0 0 0 0 " else b"numbers where nothing is missing\n"
        name, help_of = spelt(bytes.fromhex(digits)) + "\\+" * int(is_cut), {"2": "def", "4": "plt", "8": "got", "16": "tpgot"}
        front = "elfsee: " + self.relocations.get(int(relocation), relocation) + (f" to {name}" if name else "")
        if helpful == "1":
            return f"{front}: at:{section}=ADDR would help\n".encode()
        if not digits or is_cut == "1":
            return f"{front}: no item can name it\n".encode()
        if helpful == "6":
            return f"{front}: plt:{name}=ADDR or def:{name}=ADDR would help\n".encode()
        return f"{front}: {help_of[helpful]}:{name}=ADDR would help\n".encode()

    def asked(self, path, front, back):
        """What a call says about the bytes that it read: with a budget of as many it answers the same, with one
        less it is refused; if a section is refused in a borrowed layout, less may be said about what that lacks.
        A section is refused too if what may be read is more than the budget. Of its arguments the budget comes
        between these."""
        numbers, text = self.calls.ask(*front, "-", *back, path)
        if numbers is None:
            return f"{front[0]}: {text}"
        asked = numbers[4]
        again = self.calls.ask(*front, asked, *back, path)
        wrong = same((numbers, text), again) if front[0] not in ("apply", "place") else ""
        if not wrong and asked > 0:
            less, told = self.calls.ask(*front, asked - 1, *back, path)
            refused = less is not None and (less[:2] == [REFUSED, BUDGET] or (
                # To find out what is missing it was too little.
                front[0] == "place" and less[:3] == numbers[:3] and told == b"0 0 0 0 "))
            if not refused or less[4] >= asked:
                wrong = f"{asked} bytes are requested, and with a budget of one less it answers {less}"
        return wrong and f"{' '.join(map(str, front + back))}: {wrong}"

    def rows(self, path):
        """Compares all rows, read one by one, with those of the listing."""
        numbers, text = self.calls.ask("rows", path)
        if numbers is None:
            return f"rows: {text}"
        status, listing = self.program_says(["show", "--headers", str(MOST_HEADERS), "--", path])
        wanted = [plain_row(line, self.tables, self.columns) for line in listing.split(b"\n")[:-1]]
        got = [shown_row(line) for line in text.split(b"\n")]
        rest = got.pop()
        if status == 0 and numbers[0] == OK and rest == [""]:
            return first_difference(wanted, got)
        if status == 0:
            return f"rows: the listing ends with status {status}, the rows with {numbers[:3]} after {rest}"
        # The first fault of a listing may be one that no row has, as that of a relocation entry's name.
        few = min(len(wanted) - 1, len(got))
        return first_difference(wanted[:few], got[:few])

    def versions(self, path):
        """Compares the lines of symbol versions, of rows read one by one, with those of the listing."""
        numbers, text = self.calls.ask("versions", path)
        if numbers is None:
            return f"versions: {text}"
        status, listing = self.program_says(["show", "--gnu", "--only", "versions", "--headers", str(MOST_HEADERS),
                                             "--names", "4096", "--", path])
        if status == 0:
            return same((OK, listing), (numbers[0], text)) and f"versions: {same(listing, text)}"
        # After a fault of the listing no line is reported; a row that was begun is not whole.
        whole = listing[:listing.rfind(b"\n", 0, -1) + 1]
        front = text[:text.rfind(b"\n") + 1]
        return "" if front.startswith(whole) else f"versions: wanted {whole[-200:]}, got {front[-200:]}"

    def members(self, path):
        """Compares the members of an archive, read one by one, with the lines that the program lists."""
        numbers, text = self.calls.ask("members", path)
        if numbers is None:
            return f"members: {text}"
        wanted = self.program_says(["archive", "--only", "members", "--names", "4096", "--", path])
        said = numbers[0], text + (self.line_of(numbers) if numbers[0] == REFUSED else b"")
        return same(wanted, said) and f"members: {same(wanted, said)}"


def words_to_resolve(text, by_segments):
    """The query of NAME, NAME@VERSION or NAME@@VERSION, in the form of the program that calls the library."""
    name, version, is_default = looked_up.parted(text)
    return by_segments + 2 * is_default, name.hex(), (version or b"").hex() or "-"


def resolved_lines(told, text, machine):
    """The lines of `find --gnu` for a symbol that was found."""
    section, index, value, size, info, other, place, _, tried, *_ = map(int, told.split()[:9])
    none, none_behind, has_version, is_hidden, is_cut, words, number = map(int, told.split()[9:16])
    name, version, _ = looked_up.parted(text)
    places = {**looked_up.PLACES, 0xff02: "LCOM"} if machine == 62 else looked_up.PLACES
    lines = "Y %5d %10d %016x %016x %-7s %-6s %-9s %-5s %s\n" % (
        section, index, value, size, looked_up.TYPES.get(info & 15, "%7d" % (info & 15)),
        looked_up.BINDINGS.get(info >> 4, "%6d" % (info >> 4)), looked_up.VISIBILITIES[other & 3],
        places.get(place, "%5d" % place), spelt(name))
    if has_version:
        told_name = spelt(version or bytes.fromhex("".join(told.split()[16:])))
        lines += "X %5d %10d %5d %s %s%s\n" % (words, index, number, "-H"[is_hidden], told_name, "\\+" * is_cut)
    elif is_hidden or is_cut or words or number:
        lines += "a version without versions\n"
    return (lines + "F found  %10d\n" % tried).encode() + b"none is not 0\n" * (none or none_behind)


def items_of(words):
    """Items of a layout as the program that calls the library takes them."""
    items = []
    for word in words:
        kind, rest = word.split(":", 1)
        key, address = rest.rsplit("=", 1)
        index, name = (key, "-") if kind == "at" else ("0", key.encode().hex())
        items.append(f"{KINDS[kind]}:{index}:{name}:{address[2:]}")
    return ",".join(items) or "-"


def first_difference(wanted, got):
    for one, other in zip(wanted, got):
        if one != other:
            return f"rows: wanted {one}, got {other}"
    return "" if len(wanted) == len(got) else f"rows: wanted {len(wanted)}, got {len(got)}"


def spelt(name):
    """A name as it is in a listing."""
    return "".join("\\\\" if byte == 0x5c else chr(byte) if 0x20 <= byte <= 0x7e else "\\x%02x" % byte
                   for byte in name)
