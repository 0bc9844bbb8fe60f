#!/usr/bin/env python3
"""Compares what is said about the command line and about listings with what the program has.

    tests/gate/one_truth.py [--program PROGRAM] [--sources FOLDER]
    tests/gate/one_truth.py --write

From the program's sources it takes the commands, the options with their ranges and defaults, the parts,
the items of a layout with their limits, the words of the causes, the exit statuses with their
lines, the names of numbers, the types of relocations that are supported, and the limits. With those it compares
the help that the program prints, the man page, the completions and docs/FORMAT.md. The lists of commands and options
in docs/COMMANDS.md are made from them: --write makes them anew, and does no more.
One sentence says what `find` answers, the same in the help, the man page, README.md
and those two pages; and if a page says that it is the symbol that a loader picks, it must name the exceptions.
Each link of a page to a file or a heading of the repository must lead there.
The version that the program prints must be that of the library, of both pages, of Makefile, of the Debian
packages and of the Rust crate. Each thing that is missing or too much is named, with its place.

PROGRAM is the built program (without it ./build builds it); FOLDER is the directory of the sources, if
they are not those of this repository. It needs Python 3. The last line is `N passed, N failed`.
"""

import os
import re
import subprocess
import sys

sys.dont_write_bytecode = True
sys.path.insert(0, os.path.join(os.path.dirname(os.path.realpath(__file__)), "..", "common"))
from testing import TOP, option_reader, program_of

# Causes that only one command reports.
OF_COMMAND = {
    "find": {"no-hash", "hash-shape", "hash-index", "hash-cycle"},
    "apply": {"unsupported", "overflow", "not-rel", "unplaced", "undefined", "place-outside"},
}
# Where the names of numbers are: the beginning of a constant's name, the row of the page's table.
NAMES = {"ET": "type of an H line", "SHT": "type of an S line", "PT": "type of a P line",
         "STT": "type of a Y line", "STB": "binding", "STV": "visibility", "SHN": "place",
         "R_X86_64": "type of an R line", "DT": "tag"}
# Where the limits are that the man page lists: for each item the constants, in its order, and what is
# subtracted from them.
LIMITS = {
    "Headers": [("elf_options/src/caps.rt", "MAX_HEADERS", 0)],
    "Names": [("elf_options/src/caps.rt", "MAX_NAME", 0), ("elf_options/src/row_names.rt", "MOST_BYTES", 0)],
    "Descriptors of notes": [("elf_format/src/note_rows.rt", "SHOWN_DESCRIPTOR", 0)],
    "Numbers of symbol versions": [("elf_record/src/version_numbers.rt", "VERSION_NUMBERS", 1)],
    "Items as arguments": [("elf_layout/src/layout.rt", "MOST_SECTIONS", 0), ("elf_layout/src/layout.rt", "NAMES", 0),
                           ("elf_layout/src/named.rt", "ITEM_NAME_BYTES", 0)],
    "Directories": [("elf_walk/src/walk.rt", "DEPTH", 0)],
    "Paths": [("elf_walk/src/path.rt", "PATH_BYTES", 1), ("elfsee/src/many.rt", "LIST_BYTES", 1)],
}
# What a relocation's value begins with, and the item that it needs.
BASES = {"Symbol": "", "Linkage": "", "Table": "got:", "Thread": "tpgot:"}
# What a page says of a symbol that a loader picks, and what has to follow.
AS_LOADER = re.compile(r"(?:a loader of the GNU system|a GNU loader|glibc's dynamic loader) (?:takes|finds|picks)[^.]*")
EXCEPTIONS = ("but for", "except")
OF_LOADERS = ("FORMAT", "COMMANDS", "PROMISES", "GNU")
# What is made in docs/COMMANDS.md is between these lines.
MADE = re.compile(r"(<!-- Made by tests/gate/one_truth.py --write. -->\n)(.*?)(<!-- The end of what was made. -->\n)", re.S)


def read(*path):
    with open(os.path.join(*path), encoding="utf-8") as file:
        return file.read()


def one(pattern, text, what):
    found = re.search(pattern, text, re.S | re.M)
    if not found:
        sys.exit(f"tests/gate/one_truth.py: {what} is not found")
    return found[1]


class Counts:
    def __init__(self):
        self.passed, self.failed = 0, 0

    def same(self, what, place, wanted, got):
        """Compares what the program has with what a place says: sets, or words with values."""
        for thing in sorted(set(wanted) | set(got)):
            if thing not in got:
                self.fail(f"{place}: {what} '{thing}' is missing")
            elif thing not in wanted:
                self.fail(f"{place}: {what} '{thing}' is too much")
            elif isinstance(wanted, dict) and wanted[thing] != got[thing]:
                self.fail(f"{place}: {what} '{thing}' is {got[thing]}, the program has {wanted[thing]}")
            else:
                self.passed += 1

    def fail(self, said):
        print(f"FAILED {said}")
        self.failed += 1


# ---------------------------------------------------------------------------
# What the program has.

def words_of_commands(body):
    """The arguments that commands take: the name of each, its kind with what follows it, and its help."""
    return re.findall(r'ArgSpec \{\s*name: "([\w-]+)",\s*short: .*?,\n\s*alias: .*?,\n\s*kind: ArgKind::(\w+)(.*?),\n\s*help: "([^"]*)",\n', body)


def options_of(body):
    """The range and the default of each option that is described for the command line."""
    options = {}
    for name, kind, behind, told in words_of_commands(body):
        if kind in ("Flag", "Value", "Repeated", "Number", "Count", "Filled"):
            span = re.search(r"igned\((\d+), (\d+)\)", behind.replace("_", ""))
            default = re.search(r'"(.*?)"', behind) if kind == "Count" else re.search(r"\[default: (\d+)\]", told)
            # `--headers` of resolve has another default than that of the others, which come first.
            options.setdefault(name, (f"{span[1]} to {span[2]}" if span else None, default[1] if default else None))
    return options


def set_of(words, sets):
    """The bits of a set of commands: a number, a name, or several of these after each other."""
    bits = 0
    for word in words.split(" | "):
        bits |= int(word) if word.isdigit() else set_of(sets[word], sets)
    return bits


def lists_of(sources):
    """The lists of docs/COMMANDS.md: the commands with their arguments, and the options of the same commands together."""
    cli = os.path.join(sources, "crates/elf_cli/src")
    sets = dict(re.findall(r"const (\w+): u16 = ([^;]+);", read(cli, "command_sets.rt")))
    commands = re.findall(r'CommandSpec \{\s*name: "(\w+)",.*?alias: (.*?),\s*bit: (\w+),\s*about: "([^"]*)"',
                          read(cli, "commands.rt"), re.S)
    # Those of `needs` and `resolve` have names, which the table has in their places.
    of_two = read(cli, "needs_arguments.rt") + read(cli, "resolve_arguments.rt")
    named = dict(re.findall(r"const (\w+): ArgSpec = (.*?^\});", of_two, re.S | re.M))
    table = re.sub(r"^    ([A-Z_]+),$", lambda entry: named[entry[1]] + ",", read(cli, "arguments.rt"), flags=re.M)
    arguments = re.findall(r'ArgSpec \{\s*name: "([\w-]+)",\s*short: (.*?),\n\s*alias: (.*?),\n\s*kind: ArgKind::(\w+)(.*?),\n'
                           r'\s*help: "([^"]*)",\n\s*commands: ([A-Z_| ]+),', table.replace("\\n\\", " \\"))
    usage, options = {name: "" for name, *_ in commands}, {}
    for name, letter, alias, kind, more, told, words in arguments:
        told = re.sub(r"\\\n\s*", "", told)
        having = [command for command, _, bit, _ in commands if set_of(words, sets) & set_of(bit, sets)]
        others = [command for command in usage if command not in having]
        of = ", ".join(having) if len(others) > 2 else f"all commands but {' and '.join(others)}"
        if kind in ("Needed", "Index", "Optional", "Any"):
            for command in having:
                usage[command] += {"Any": f" [{name}]...", "Optional": f" [{name}]"}.get(kind, f" {name}")
            continue
        quoted = re.search(r'"(\w+)"', more)
        value = {"Flag": "", "Number": " N", "Count": " N"}.get(kind)
        if value is None and not quoted:
            sys.exit(f"tests/gate/one_truth.py: the value of an argument of kind {kind} has no name")
        value = f" {quoted[1]}" if value is None else value
        if kind == "Count":
            told += f" [default: {quoted[1]}]"
        letter = f"`-{letter[6]}`, " if letter != "None" else ""
        alias = f", `--{alias[6:-2]}{value}`" if alias != "None" else ""
        options.setdefault(of, []).append(f"- {letter}`--{name}{value}`{alias}: {told}\n")
    named = {name: f", `elfsee {alias[6:-2]}`" if alias != "None" else "" for name, alias, *_ in commands}
    rows = "".join(f"- `elfsee {name}{usage[name]}`{named[name]}: {about}\n" for name, _, _, about in commands)
    return rows + "".join(f"\nOptions of {of}:\n\n{''.join(lines)}" for of, lines in options.items())


def causes_of(sources, commands):
    rows = one(r"CAUSE_WORDS: \[&str; \d+\] = \[(.*?)\];", read(sources, "crates/elf_format/src/rows.rt"),
               "the table of cause words")
    words = set(re.findall(r'"([\w-]+)"', rows))
    for command, of_it in OF_COMMAND.items():
        if command not in commands:
            words -= of_it
    return words


def link_causes_of(sources):
    """The causes that only `resolve` has."""
    words = one(r"^pub fn link_cause_word(.*?)^}", read(sources, "crates/elf_resolve/src/link_faults.rt"), "the words of the causes of links")
    return set(re.findall(r'"([\w-]+)"', words))


def items_of(sources):
    """For each item's prefix how many a layout holds, its index's range, and its name's length."""
    spelled = read(sources, "crates/elf_layout/src/spelled.rt")
    named = read(sources, "crates/elf_layout/src/named.rt")
    layout = read(sources, "crates/elf_layout/src/layout.rt")
    most = {name: one(rf"^const {name}: usize = (\d+);", layout, name) for name in ("MOST_SECTIONS", "NAMES")}
    last = one(r"const LAST_INDEX: u64 = ([\d_]+);", spelled, "the largest index").replace("_", "")
    size = one(r"const ITEM_NAME_BYTES: usize = (\d+);", named, "the length of a name")
    fronts = re.findall(r'behind\(\w+, "(\w+:)"\)', spelled)
    index, name = (most["MOST_SECTIONS"], f"1 to {last}"), (most["NAMES"], f"1 to {size} bytes")
    return {front: index if front == "at:" else name for front in fronts}


def endings_of(sources):
    """The exit statuses, each with its lines on standard error."""
    endings = []
    for path in ("crates/elf_cli/src/exit_lines.rt", "crates/elfsee/src/task_end.rt", "crates/elfsee/src/resolve.rt"):
        endings += re.findall(r'ExitLine = \((\d+), "(.+?)"\);', read(sources, path))
    # A run that has no fault gives 0 or 1, and no line.
    statuses = {"0": set(), "1": set()}
    # Those about a list of items, or of names: one line, and what is said of a line of the list.
    of_lists = read(sources, "crates/elfsee/src/layouts.rt")
    endings += re.findall(r'LayoutFileFault::\w+ => \((\d+), "(.+?)"\),', of_lists)
    of_names = read(sources, "crates/elfsee/src/names.rt")
    endings += re.findall(r'NamesFault::\w+ => \((\d+), "(.+?)"\),', of_names)
    of_words = read(sources, "crates/elf_cli/src/program_arguments.rt")
    endings.append(("2", one(r'const UNKNOWN_TRAIT: &\[u8\] = b"(.*): ";', of_words, "the line about a required trait")))
    of_links = read(sources, "crates/elfsee/src/resolve.rt")
    endings.append(("2", one(r'line: line_of\(b"(.*) "\)', of_links, "the line about an argument of a linker") + " WORD"))
    for status, line in endings:
        statuses.setdefault(status, set()).add(line)
    return statuses


def lines_of_lists(sources):
    """What standard error has about a line of a list of items."""
    of_lists = read(sources, "crates/elfsee/src/layouts.rt")
    return {f"elfsee: {what} in line N" for what in re.findall(r'report_line\(alloc, errors, "(.*?)", line\)', of_lists)}


def limits_of(sources):
    """The limits that the man page lists: the numbers of each item."""
    limits = {}
    for item, constants in LIMITS.items():
        limits[item] = []
        for path, name, less in constants:
            text = read(sources, "crates", path)
            value = one(rf"^(?:pub(?:\(crate\))? )?const {name}: \w+ = ([\d_]+);", text, f"{name} of {path}")
            limits[item].append(int(value.replace("_", "")) - less)
    return limits


def types_of(sources):
    """The types of relocations that are supported, by the item that they need."""
    text = read(sources, "crates/elf_reloc/src/relocation_types.rt")
    types = {item: set() for item in BASES.values()}
    for name, base in re.findall(r"R_X86_64_(\w+) => \(\s*\d,\s*\w+::(\w+),", text):
        types[BASES[base]].add(name)
    types[""].add("NONE")
    return types


def known_types_of(sources):
    """The types of relocations that have names."""
    text = "".join(read(sources, "crates/elf_record/src", name) for name in ("numbers.rt", "gnu_numbers.rt"))
    return set(re.findall(r"pub const R_X86_64_(\w+): u32", text))


def names_of(sources, numbers):
    """For each row of the page's table the names with their numbers, for the constants of a file."""
    text = read(sources, "crates/elf_record/src", numbers)
    values = {name: int(value.replace("_", ""), 0)
              for name, value in re.findall(r"pub const (\w+): u\d+ = (\w+);", text)}
    tables = {row: {} for row in NAMES.values()}
    folder = os.path.join(sources, "crates/elf_format/src")
    row = re.compile(r'\(\s*([A-Z]\w+)(?: as u64)?,\s*"(\w+)",?\s*\)')
    for name in sorted(os.listdir(folder)):
        for constant, text in row.findall(read(folder, name)):
            prefix = next(prefix for prefix in NAMES if constant.startswith(prefix + "_"))
            if constant in values:
                tables[NAMES[prefix]][text] = values[constant]
    return tables


def columns_of_links(sources):
    """The columns of the lines of `resolve`, which has no table."""
    lines = set()
    for body in re.findall(r"^(?:pub\S* )?fn .*?^\}", read(sources, "crates/elf_resolve/src/row_lines.rt"), re.S | re.M):
        for letter, last, rest in re.findall(r'begin_named::<R>\(.*?, b"(\w)", b"(\w+)"\);(.*)', body, re.S):
            lines.add(f"{letter}  {' '.join(re.findall(r'put_[a-z]+::<R>[(].*?, b.([a-z_]+).', rest) + [last])}")
    return lines


class Truth:
    """What the program's sources have."""

    def __init__(self, sources):
        body = ""
        for crate in ("elf_cli", "elf_requests"):
            folder = os.path.join(sources, "crates", crate, "src")
            if not os.path.isdir(folder):
                sys.exit(f"tests/gate/one_truth.py: the sources have no crate {crate}")
            body += "".join(read(folder, name) for name in sorted(os.listdir(folder)) if "tests" not in name)
        self.commands = set(re.findall(r'CommandSpec \{\s*name: "(\w+)"', body))
        self.options = options_of(body)
        parts = one(r"static PARTS: (.*?)^\];", body, "the parts")
        self.parts = set(re.findall(r'"(\w+)"', parts)) - {"members"}
        self.items = items_of(sources)
        self.causes, self.link_causes = causes_of(sources, self.commands), link_causes_of(sources)
        self.limits = limits_of(sources)
        self.types, self.known_types = types_of(sources), known_types_of(sources)
        self.endings = endings_of(sources)
        # The help paraphrases these.
        self.pages_endings = dict(self.endings)
        self.pages_endings["2"] = self.endings["2"] | lines_of_lists(sources)
        self.names = names_of(sources, "numbers.rt")
        self.gnu_names = names_of(sources, "gnu_numbers.rt")
        headings = one(r"const HEADINGS.*?= \[(.*?)^\];", read(sources, "crates/elf_format/src/table_writer.rt"), "the headings")
        # Each letter, and the columns of its lines; those of objects are a tree in a table.
        self.columns = {f"{letter}  {' '.join(names.split())}" for letter, names in re.findall(r"b'(.)' as u64,\s*\"(.*?)\"", headings)
                        if letter != "L"} | {"L  index needed_by state place cause path"} | columns_of_links(sources)
        # The other names of options and of commands.
        self.aliases = set(re.findall(r'ArgSpec \{\s*name: "[\w-]+",\s*short: .*?,\n\s*alias: Some\("(.*?)"\)', body))
        self.command_aliases = set(re.findall(r'command: CommandName::\w+,\s*alias: Some\("(.*?)"\)', body))
        # Options without a value.
        self.flags = {name for name, kind, *_ in words_of_commands(body) if kind == "Flag"}
        self.valued = set(self.options) - self.flags
        # What has a value by another name.
        self.valued_aliases = self.aliases & set(re.findall(r'alias: Some\("([\w-]+)"\),\s*kind: ArgKind::(?!Flag)', body))


# ---------------------------------------------------------------------------
# What is said.

def help_of(program, *words):
    done = subprocess.run([program, *words], stdout=subprocess.PIPE, stderr=subprocess.PIPE,
                          stdin=subprocess.DEVNULL, check=False)
    return done.returncode, done.stdout.decode(), done.stderr.decode()


def options_said(text):
    """Options with ranges and defaults, from a text in which each begins a paragraph of its own."""
    options = {}
    for said in re.split(r"^ *(?:-\w, )?(?=--[a-z])", text, flags=re.M)[1:]:
        name = re.match(r"--([\w-]+)", said)[1]
        said = " ".join(said.split("\n\n")[0].split())
        span = re.search(r"(\d+) to (\d+)", said)
        default = re.search(r"\[default: (\d+)\]", said)
        # An explanation of an option below the list of options begins with it too.
        options.setdefault(name, (f"{span[1]} to {span[2]}" if span else None, default[1] if default else None))
    options.pop("help", None)
    return options


def check_help(counts, truth, program):
    status, out, text = help_of(program, "--help")
    counts.same("status", "elfsee --help", {"2"}, {str(status)})
    counts.same("standard output", "elfsee --help", set(), {out} - {""})
    listed = one(r"^Commands:\n(.*?)\n\n", text, "the commands in help")
    counts.same("command", "elfsee --help", truth.commands | {"help"},
                set(re.findall(r"^  (\w+)", listed, re.M)))
    counts.same("status", "elfsee --help", set(truth.endings),
                set(re.findall(r"^  (\d)  ", text[text.index("Exit status:"):], re.M)))
    counts.same("number of lines above 40", "elfsee --help", {0}, {max(0, text.count("\n") - 40)})
    counts.same("other name of a command", "elfsee --help", truth.command_aliases, set(re.findall(r"\[alias: (\w+)\]", listed)))
    said, columns, aliases = {}, set(), set()
    for command in sorted(truth.commands):
        _, _, more = help_of(program, "help", command)
        aliases.update(re.findall(r"\[alias:\s+--([\w-]+)\]", more))
        wide = {line for line in more.split("\n") + text.split("\n") if len(line) > 80}
        counts.same("line of more than 80 columns", f"elfsee help {command}", set(), wide)
        options = options_said("\n".join(line.strip() for line in more.split("\n")))
        said = {**options, **said}
        parts = re.search(r"\[possible values: (.*?)\]", " ".join(more.split()))
        if "only" in options:
            own = {"members"} if command == "archive" else set()
            counts.same("part", f"elfsee help {command}", truth.parts | own, set(parts[1].split(", ")))
        ends = more.split("\nColumns")
        columns.update(re.findall(r"^  ([A-Z]  \w.*)$", ends[1], re.M) if len(ends) == 2 else [])
    counts.same("option", "elfsee help COMMAND", truth.options, said)
    counts.same("columns", "elfsee help COMMAND", truth.columns, columns)
    counts.same("other name", "elfsee help COMMAND", truth.aliases, aliases)


def check_help_of_items(counts, truth, program):
    """The items in the help of `apply`: their prefixes, how many of each, and the range of an index."""
    place = "elfsee help apply"
    _, _, text = help_of(program, "help", "apply")
    counts.same("item", place, set(truth.items), set(re.findall(r"^  (\w+:)\w+=ADDR", text, re.M)))
    counts.same("item", f"{place}, ITEM", set(truth.items), set(re.findall(r"(\w+:)\w+=ADDR", one(
        r"^ *\[ITEM\]\.\.\.(.*)$", text, "ITEM in help"))))
    limits = {" ".join(it) for it in re.findall(r"(\d+) (sections|of each other type)", text)}
    sections, *others = [most for most, _ in truth.items.values()]
    wanted = {f"{sections} sections"} | {f"{most} of each other type" for most in others}
    counts.same("limit", place, wanted, limits)
    counts.same("index", place, {truth.items["at:"][1]}, set(re.findall(r"INDEX, (\d+ to \d+)", text)))


def items_said(text, pattern):
    """From a text in which each item begins a paragraph of its own: how many, and the range."""
    items = {}
    for said in re.split(pattern, text, flags=re.M)[1:]:
        said = " ".join(said.split())
        span = re.search(r"(\d+) to (\d+)( bytes)?", said)
        most = re.search(r"At most (\d+)", said)
        items[re.match(r"\w+:", said)[0]] = (most[1], span[0]) if span and most else None
    return items


def item_options(page):
    """The options of the man page: those that begin an item."""
    options = {}
    for item in re.split(r"^\.It ", page, flags=re.M)[1:]:
        name = re.match(r"(?:Fl \w , )?Fl -([\w-]+)", item)
        if name:
            span, default = re.search(r"(\d+) to (\d+)", item), re.search(r"default is (\d+)", item)
            options[name[1]] = (f"{span[1]} to {span[2]}" if span else None, default[1] if default else None)
    return options


def section_of(page, title):
    return one(rf"^\.Sh {title}\n(.*?)^\.Sh ", page, f"{title} of the man page")


def check_man(counts, truth, page):
    synopsis = section_of(page, "SYNOPSIS")
    counts.same("command", "man page, SYNOPSIS", truth.commands | {"help"},
                set(re.findall(r"^\.Cm (\w+)", synopsis, re.M)))
    counts.same("option", "man page, SYNOPSIS", set(truth.options),
                set(re.findall(r"Fl -([\w-]+)", synopsis)))
    about = section_of(page, "DESCRIPTION")
    items = items_said(about.split("\n.Ss ")[0], r"^\.It Li (?=\w+:)")
    counts.same("item", "man page, DESCRIPTION", truth.items, items)
    counts.same("command", "man page, DESCRIPTION", truth.commands | {"help"},
                set(re.findall(r"^\.It Cm (\w+)", about, re.M)))
    counts.same("option", "man page, DESCRIPTION", truth.options, item_options(about))
    counts.same("other name", "man page, DESCRIPTION", truth.aliases, set(re.findall(r"^\.It .* , Fl -([\w-]+)", about, re.M)) - set(truth.options))
    counts.same("other name of a command", "man page, DESCRIPTION", truth.command_aliases, set(re.findall(r"^\.It Cm \w+ , (\w+)", about, re.M)))
    only = one(r"^\.It Fl o , Fl -only Ar PART\n(.*?)^\.It ", about, "--only of the man page")
    counts.same("part", "man page, --only", truth.parts | {"archive", "members"}, set(re.findall(r"^\.Cm (\w+)", only, re.M)))
    counts.same("cause", "man page, CAUSES", truth.causes | truth.link_causes,
                set(re.findall(r"^\.It Li ([\w-]+)", section_of(page, "CAUSES"), re.M)))
    check_types(counts, truth, section_of(page, "CAUSES"))
    items = re.split(r"^\.It ?\n", section_of(page, "LIMITS"), flags=re.M)[1:]
    said = {item.split(":")[0]: [int(number) for number in re.findall(r"\d+", item.split("\n.El")[0])]
            for item in items}
    counts.same("limit", "man page, LIMITS", truth.limits, said)
    items = re.split(r"^\.It (\d)\n", section_of(page, "EXIT STATUS"), flags=re.M)[1:]
    said = {status: set(re.findall(r"elfsee: [\w -]*\w", item))
            for status, item in zip(items[::2], items[1::2])}
    counts.same("status", "man page, EXIT STATUS", set(truth.endings), set(said))
    for status, lines in said.items():
        counts.same(f"line of status {status}", "man page", truth.pages_endings.get(status, set()), lines)


def check_types(counts, truth, causes):
    """The types that the cause `unsupported` says are supported: without an item, and with one of each type."""
    said = one(r"^\.It Li unsupported\n.*?^Supported are (.*?)^\(psABI ", causes, "the types of `unsupported`")
    told = {item: set() for item in truth.types}
    for part in said.split(";"):
        item = re.search(r"^\.Li (\w+:)", part, re.M)
        told[item[1] if item else ""] |= set(re.findall(r"\b[A-Z0-9_]+\b", part)) & truth.known_types
    for item, types in truth.types.items():
        counts.same("type", f"man page, unsupported {item}".strip(), types, told[item])


def words_of(*texts):
    return {word for text in texts for word in re.findall(r"[\w-]+", text)}


def options_in(text):
    return set(re.findall(r"--[\w-]+", text)) - {"--help"}


def check_bash(counts, truth, text):
    listing = {f"--{name}" for name in truth.options}
    offered = re.findall(r"'(show sample[\w ]* help)'", text)
    counts.same("command", "bash", truth.commands | {"help"}, words_of(*offered))
    helped = one(r"^ *help\).*compgen -W '(.*?)'", text, "the commands after help of bash")
    counts.same("command", "bash, after help", truth.commands, words_of(helped))
    counts.same("item", "bash", set(truth.items), set(re.findall(r"\b\w+:(?= |')", one(
        r"^(_elfsee_items.*?^\})", text, "the items of bash"))))
    own = one(r"(^_elfsee_options.*?^\})", text, "the options of bash")
    counts.same("option", "bash", listing, options_in(own))
    valued = one(r"^ *(--[^)]*)\) skip=1", text, "the options with a value of bash")
    counts.same("option with a value", "bash", {f"--{name}" for name in truth.valued | truth.valued_aliases},
                options_in(valued))
    counts.same("part", "bash", truth.parts, words_of(one(r"parts='(.*?)'", text, "parts")))


def check_zsh(counts, truth, text):
    items = one(r"items=\((.*?)\n    \)", text, "the items of zsh").replace("\\:", ":")
    counts.same("item", "zsh", set(truth.items), set(re.findall(r"'(\w+:):", items)))
    counts.same("item", "zsh, its form", set(truth.items), set(re.findall(r"(\w+:)\w+=ADDR'", items)))
    commands = one(r"commands=\((.*?)\n    \)", text, "the commands of zsh")
    counts.same("command", "zsh", truth.commands | {"help"}, set(re.findall(r"'(\w+):", commands)))
    counts.same("option with a value", "zsh", {f"--{name}" for name in truth.valued},
                set(re.findall(r"(?:'\*?|,)(--[\w-]+)=", text)))
    counts.same("option without a value", "zsh", {f"--{name}" for name in truth.flags},
                set(re.findall(r"(?:'|,)(--[\w-]+)(?:}')?\[", text)) - {"--help"})
    parts = one(r"parts=\((.*?)\n    \)", text, "the parts of zsh")
    counts.same("part", "zsh", truth.parts, set(re.findall(r"'(\w+):", parts)))


def check_fish(counts, truth, text):
    commands = truth.commands | {"help"}
    known = one(r"^set -l commands (.*?)$", text, "the commands of fish")
    counts.same("command", "fish", commands, words_of(known))
    counts.same("command", "fish, offered", commands, set(re.findall(r'commands" -a (\w+)', text)))
    helped = one(r"^complete .*from help;.* -a '(.*?)'", text, "the commands after help of fish")
    counts.same("command", "fish, after help", truth.commands, words_of(helped))
    offered = re.findall(r"wants_item -a (\w+:) -d '.*?, (\w+:)\w+=ADDR'", text)
    counts.same("item", "fish", set(truth.items), {front for front, form in offered if front == form})
    counts.same("option with a value", "fish", truth.valued,
                set(re.findall(r"-l ([\w-]+) -[xr]", text)))
    counts.same("option without a value", "fish", truth.flags | {"help"},
                set(re.findall(r"-l ([\w-]+) -d", text)))
    valued = one(r"contains -- \$word (.*?)$", text, "the options with a value of fish")
    counts.same("option with a value", "fish", {f"--{name}" for name in truth.valued | truth.valued_aliases},
                options_in(valued))
    parts = set(re.findall(r"^(?:set -l parts ')?(\w+)\\t", text, re.M))
    counts.same("part", "fish", truth.parts, parts)


def check_format(counts, truth, page):
    said = one(r"words of the causes:\n\n(.*?)\n\n", page, "the causes of docs/FORMAT.md")
    counts.same("cause", "docs/FORMAT.md", truth.causes, set(re.findall(r"`([\w-]+)`", said)))
    said = one(r"Besides the causes of one file there are (.*?)\.\n", page, "the causes of links in docs/FORMAT.md")
    counts.same("cause of a link", "docs/FORMAT.md", truth.link_causes, set(re.findall(r"`([\w-]+)`", said)))
    for column, table in enumerate((truth.names, truth.gnu_names)):
        for row, names in table.items():
            cells = one(rf"^\| {row} \| (.*?) \|$", page, f"{row} of docs/FORMAT.md").split(" |")
            pairs = re.findall(r"(\w+)=(\d+)(?=$|[,;]| on )", cells[column])
            got = {name: int(value) for name, value in pairs}
            counts.same(f"name ({row})", "docs/FORMAT.md", names, got)


def check_commands(counts, sources, page):
    place = "docs/COMMANDS.md"
    wanted, got = lists_of(sources), MADE.search(page)
    counts.same("row", place, set(wanted.split("\n")), set(got[2].split("\n")) if got else set())
    if got and got[2] != wanted:
        counts.fail(f"{place}: the lists are not as tests/gate/one_truth.py --write makes them")
    statuses = one(r"^## How it ends\n(.*)", page, "the statuses of docs/COMMANDS.md")
    counts.same("status", place, set(endings_of(sources)), set(re.findall(r"^\| (\d) \| ", statuses, re.M)))


def write_commands(sources):
    path = os.path.join(TOP, "docs/COMMANDS.md")
    page = read(path)
    with open(path, "w", encoding="utf-8") as file:
        file.write(MADE.sub(lambda found: found[1] + lists_of(sources) + found[3], page))


def check_found(counts, program):
    """The sentence that says what `find` answers: each page has that of the help, and no other. Lists that are made
    from the help are not read."""
    _, _, text = help_of(program, "help", "find")
    said = " ".join(one(r"^(The answer is the first .*?)\n\n", text, "what find answers in help").split())
    for place in ("man/elfsee.1", "README.md", "docs/FORMAT.md", "docs/COMMANDS.md"):
        page = " ".join(MADE.sub("", read(TOP, place)).split())
        counts.same("sentence", place, {said}, set(re.findall(r"The answer is the first .*?\.(?= )", page)))
        counts.same("claim", place, set(), set(re.findall(r"as a (?:loader|dynamic linker) does", page)))
    for place in ("man/elfsee.1", "README.md", *(f"docs/{name}.md" for name in OF_LOADERS)):
        said = AS_LOADER.findall(" ".join(MADE.sub("", read(TOP, place)).split()))
        counts.same("claim", place, set(), {claim for claim in said if not any(word in claim for word in EXCEPTIONS)})
        if not said:
            counts.fail(f"{place}: it does not say whose symbol `find --gnu` answers")


def check_version(counts, program, sources):
    """The version that the program prints is the one in each other place that has it."""
    status, out, _ = help_of(program, "version")
    told = re.fullmatch(r"elfsee (\d+\.\d+\.\d+)\n", out)
    counts.same("status", "elfsee version", {"0"}, {str(status)})
    version = told[1] if told else out
    digits = one(r"^    0x(\w+)$", read(sources, "crates/elfsee_c/src/version.rt"), "elfsee_version")
    number = int(digits.replace("_", ""), 16)
    places = {"elfsee_version": ".".join(str(number >> bits & 255) for bits in (16, 8, 0))}
    for place, pattern in (("Makefile", r"^library_version = (\S+)$"),
                           ("packaging/debian/changelog", r"\Aelfsee \((.*?)\)"),
                           ("CHANGELOG.md", r"^## (\d+\.\d+\.\d+)"),
                           ("library/rust/Cargo.toml", r'^version = "(.*?)"$'),
                           ("library/python/pyproject.toml", r'^version = "(.*?)"$'),
                           ("man/elfsee.1", r"^\.Ql elfsee (\S+)")):
        places[place] = one(pattern, read(TOP, place), f"the version of {place}")
    for place, said in places.items():
        counts.same("version", place, {version}, {said})


def anchors_of(page):
    """The anchors of the headings of a page, as GitHub makes them."""
    plain = re.sub(r"^```.*?^```", "", page, flags=re.S | re.M)
    return {re.sub(r"[^\w -]", "", title.lower()).replace(" ", "-") for title in re.findall(r"^#+ (.*)$", plain, re.M)}


def check_links(counts):
    """Each link of a page leads to a file, and to a heading if it names one."""
    done = subprocess.run(["find", ".", "-name", "*.md", "-not", "-path", "./.git/*", "-not", "-path", "*/out/*"], cwd=TOP,
                          stdout=subprocess.PIPE, check=True, text=True)
    for page in sorted(os.path.relpath(path) for path in done.stdout.split()):
        plain = re.sub(r"^```.*?^```", "", read(TOP, page), flags=re.S | re.M)
        for link in sorted(set(re.findall(r"\]\(([^)\s:]+)\)", plain))):
            path, _, anchor = link.partition("#")
            path = os.path.normpath(os.path.join(TOP, os.path.dirname(page), path)) if path else os.path.join(TOP, page)
            if not os.path.exists(path):
                counts.fail(f"{page}: {link} leads to no file")
            elif anchor and path.endswith(".md") and anchor not in anchors_of(read(path)):
                counts.fail(f"{page}: {link} leads to no heading")
            else:
                counts.passed += 1


def check_crates(counts):
    """Each crate is in crates.txt after those that it depends on: ./build uses that order."""
    rows = [line.partition("#")[0].partition(":") for line in read(TOP, "crates.txt").splitlines()]
    rows = [(name.split()[0], below.split()) for name, colon, below in rows if colon]
    names = [name for name, _ in rows]
    for place, (name, below) in enumerate(rows):
        late = [each for each in below if each in names[place:]]
        if late:
            counts.fail(f"crates.txt: {name} is before {', '.join(late)}")
        else:
            counts.passed += 1


def main():
    reader = option_reader(__doc__)
    reader.add_argument("--sources", default=TOP)
    reader.add_argument("--write", action="store_true")
    words = reader.parse_args()
    if words.write:
        write_commands(words.sources)
        return 0
    program = program_of(words)
    counts, truth = Counts(), Truth(words.sources)
    check_help(counts, truth, program)
    check_help_of_items(counts, truth, program)
    check_found(counts, program)
    check_version(counts, program, words.sources)
    check_crates(counts)
    check_links(counts)
    check_man(counts, truth, read(TOP, "man/elfsee.1"))
    check_bash(counts, truth, read(TOP, "completions/elfsee.bash"))
    check_zsh(counts, truth, read(TOP, "completions/_elfsee"))
    check_fish(counts, truth, read(TOP, "completions/elfsee.fish"))
    check_format(counts, truth, read(TOP, "docs/FORMAT.md"))
    check_commands(counts, words.sources, read(TOP, "docs/COMMANDS.md"))
    print(f"{counts.passed} passed, {counts.failed} failed")
    return 0 if counts.passed and not counts.failed else 1


if __name__ == "__main__":
    sys.exit(main())
