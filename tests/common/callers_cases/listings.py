"""Cases of tests/gate/callers.py: what the module for Python returns, beside what the program prints."""

import itertools
import json
import os
import random
import re
import struct
import subprocess

import changed_files
import listed_rows
import looked_up
from callers_cases.counted import asked_of, run, spelt

CAP = 4096
PARTS = ("header", "sections", "segments", "symbols", "relocs", "notes", "dynamic")
STYLES = (["--gnu"], ["--by-segments"], ["--json"], ["--gnu", "--by-segments", "--json"], ["--gnu", "--versions"])
# Parts of which rows are listed by names, with options.
CHOSEN = (("symbols", []), ("symbols", ["--gnu", "--versions"]), ("relocs", ["--json"]), ("versions", ["--gnu"]))
COMMANDS = {"at": "sections", "def": "define", "plt": "entries", "got": "table", "tpgot": "thread"}


def words_to_layout(elfsee, words):
    """The layout that the items of a command line give."""
    layout = {field: {} for field in COMMANDS.values()}
    for word in words:
        kind, rest = word.split(":", 1)
        key, address = rest.rsplit("=", 1)
        layout[COMMANDS[kind]][int(key) if kind == "at" else key] = int(address, 16)
    return elfsee.Layout(**layout)


def refusal_line(refused):
    return "! %016x %s" % (refused.offset, refused.word)


def rows_as_lines(elfsee, file, part):
    """The lines that a part's rows make, and the line of the refusal that ends them."""
    lines = []
    try:
        lines.extend(itertools.islice(listed_rows.LINES[part](file, CAP), 3000000))
    except elfsee.Refused as refused:
        return lines_of(listed_rows.LINES[part], elfsee, file) + [refusal_line(refused)]
    except elfsee.Full:
        return lines_of(listed_rows.LINES[part], elfsee, file) + ["full"]
    return lines


def lines_of(maker, elfsee, file):
    """The lines before a refusal."""
    lines = []
    try:
        for line in maker(file, CAP):
            lines.append(line)
    except (elfsee.Refused, elfsee.Full):
        pass
    return lines


def compare_rows(counts, elfsee, path, file):
    """The rows of each part make the listing of that part. A name of which a listing shows a prefix
    alone may be a fault as a whole, so that the rows end there."""
    for part in listed_rows.LINES:
        got = rows_as_lines(elfsee, file, part)
        wanted = file.text(part, CAP).split("\n")[:-1]
        if got and len(got) <= len(wanted) and wanted[len(got) - 1].endswith("\\+"):
            got, wanted = got[:-1], wanted[:len(got) - 1]
        counts.same("rows of part %d of %s" % (part, path), wanted, got)


def compare_text(counts, elfsee, program, path, file, *options):
    status, out = run(program, "show", *options, "--", path)
    listing = file.show() if not options else file.show(getattr(elfsee, options[1].upper()), int(options[3]))
    counts.same("text of %s %s" % (path, " ".join(options)), out.decode("ascii"), listing.text)
    counts.same("status of %s" % path, status, 1 if listing.refused else 0)
    if listing.refused:
        counts.same("refusal of %s" % path, listing.text.split("\n")[-2], refusal_line(listing.refused))


def compare_styles(counts, elfsee, program, path, file):
    """The listing in each style is what the program prints with the options of the same names."""
    for options in STYLES:
        words = {option[2:].replace("-", "_"): True for option in options}
        status, out = run(program, "show", *options, "--", path)
        listing = file.show(**words)
        counts.same("text of %s %s" % (path, " ".join(options)), (status, out.decode("ascii")),
                    (1 if listing.refused else 0, listing.text))
    out = run(program, "show", "--gnu", "--only", "versions", "--", path)[1].decode("ascii")
    counts.same("versions of %s" % path, out, file.text(elfsee.VERSIONS, gnu=True))
    objects = [json.loads(line) for line in file.text(json=True).splitlines()]
    counts.check("objects of %s" % path, all(next(iter(each)) == "line" for each in objects))


def names_of_rows(texts, options):
    """Names of which rows are listed: with versions if those follow names, otherwise alone, and names of versions."""
    named = [text if "--versions" in options else text.split(b"@")[0] for text in texts]
    return sorted({name.decode() for name in [*named, *(text.split(b"@")[-1] for text in texts)]})


def compare_names(counts, elfsee, program, path, file, texts):
    """The rows of some names are what the program prints with these names."""
    for part, options in CHOSEN:
        names = names_of_rows(texts, options)
        words = {option[2:].replace("-", "_"): True for option in options}
        status, out = run(program, "show", "--only", part, *options, *("--name=" + name for name in names), "--", path)
        listing = file.show(getattr(elfsee, part.upper()), names=reversed(names), **words)
        counts.same("rows of %s of %s" % (names, path), (status, out.decode("ascii")),
                    (1 if listing.refused else 0, listing.text))
    rows = [line for line in file.text(names=[]).splitlines() if line[0] != "!"]
    counts.same("rows of no names of %s" % path, [], rows)


def compare_hashed(counts, elfsee, path, file):
    """The symbols of the hash table are those that tests/again/looked_up.py finds."""
    for by_segments in (False, True):
        content = changed_files.without_sections(file.data) if by_segments else file.data
        scope, got, refusal = looked_up.Scope(content, 4096), [], None
        try:
            for row in file.hashed_symbols(by_segments=by_segments):
                got.append((row.name, (row.value, row.size, row.section, row.info, row.other)))
        except elfsee.Refused as refused:
            refusal = (refused.offset, refused.word)
        if scope.refusal:
            counts.same("the refusal of the hash table of %s" % path, scope.refusal.args, refusal)
            continue
        wanted = [(name, (value, size, place, info, other))
                  for name, (_, info, other, place, value, size) in looked_up.hashed_symbols(scope)]
        if refusal:
            # A name that is none ends the rows.
            counts.check("a symbol without a name of %s" % path, wanted[len(got)][0] is None)
            wanted = wanted[:len(got)]
        counts.same("symbols of the hash table of %s" % path, wanted, got)


def compare_lookups(counts, elfsee, program, path, file, names):
    """A lookup gives the line and the steps that the program prints, or its refusal."""
    for name in names:
        status, out = run(program, "find", "--", path, name)
        try:
            found = file.find(name)
        except elfsee.Refused as refused:
            counts.same("lookup in %s" % path, (status, out.decode()), (1, refusal_line(refused) + "\n"))
            continue
        lines = "F %-6s %10d\n" % ("found" if found.symbol else "absent", found.steps)
        if found.symbol:
            single = type("Single", (), {"symbols": lambda self: [found.symbol]})()
            lines = next(listed_rows.symbol_lines(single, 1 << 20)) + "\n" + lines
        counts.same("lookup of %r in %s" % (name, path), (status, out.decode()),
                    (0 if found.symbol else 1, lines))


def texts_of(content):
    """The queries of a loader in a file that is well-formed: a name alone, with a version, with the default one."""
    try:
        scope = looked_up.Scope(content, 4096)
        if scope.refusal:
            return [b"main"]
        names = [name for name, _ in looked_up.symbols_in(scope) if name.isascii() and b"@" not in name]
        told = [name for name in looked_up.versions_in(scope).values() if name and name.isascii()] or [b"FIRST"]
    except (ValueError, IndexError, struct.error, looked_up.Refused):
        return [b"main"]
    texts = [b"no_such_name"]
    for at, name in enumerate(names[::len(names) // 3 + 1]):
        texts += [name, name + b"@" + told[at % len(told)], name + b"@@" + told[-1 - at % len(told)]]
    return list(filter(looked_up.parted, texts))


def resolved_lines(found, by_machine):
    """The lines of a loader's lookup, as `find --gnu` prints them."""
    lines = "F %-6s %10d\n" % ("found" if found.symbol else "absent", found.tried)
    row, version = found.symbol, found.version
    if version:
        name = spelt(version.name) + "\\+" * version.is_cut
        lines = "X %5d %10d %5d %s %s\n" % (version.table, row.index, version.number, "-H"[version.is_hidden],
                                            name) + lines
    if row:
        places = {**looked_up.PLACES, 0xff02: "LCOM"} if by_machine == 62 else looked_up.PLACES
        lines = "Y %5d %10d %016x %016x %-7s %-6s %-9s %-5s %s\n" % (
            row.table, row.index, row.value, row.size, looked_up.TYPES.get(row.type, "%7d" % row.type),
            looked_up.BINDINGS.get(row.binding, "%6d" % row.binding), looked_up.VISIBILITIES[row.visibility],
            places.get(row.section, "%5d" % row.section), spelt(row.name)) + lines
    return lines


def compare_resolved(counts, elfsee, program, path, file, texts):
    """A loader's lookup gives the lines that the program prints, or its refusal."""
    for text, by_segments in itertools.product(texts, (False, True)):
        options = ["--by-segments"] if by_segments else []
        status, out = run(program, "find", "--gnu", *options, "--", path, text)
        name, version, is_default = looked_up.parted(text)
        try:
            found = file.look_up(name, version, default_only=is_default, by_segments=by_segments)
            got = 0 if found.symbol else 1, resolved_lines(found, file.header.machine)
        except elfsee.Refused as refused:
            got = 1, refusal_line(refused) + "\n"
        counts.same("a loader's lookup of %r %s in %s" % (text, options, path), (status, out.decode()), got)


def compare_contents(counts, elfsee, path, file):
    """The bytes of a section are those that its header gives; of NOBITS and NULL there are none."""
    try:
        rows = list(file.sections())
    except elfsee.Refused:
        return
    for row in rows:
        wanted = None if row.type in (0, 8) else file.data[row.offset:row.offset + row.size]
        is_outside = row.type not in (0, 8) and row.offset + row.size > len(file.data)
        try:
            got = file.content(row.index)
        except elfsee.Refused as refused:
            wanted, got = is_outside, refused.cause == elfsee.Cause.TABLE_OUTSIDE
        counts.same("the bytes of section %d of %s" % (row.index, path), wanted, got)


def compare_applied(counts, elfsee, program, path, file, asked):
    """An applied section is the program's, or has its refusal."""
    for section, *words in asked:
        status, out = run(program, "apply", "--", path, section, *words)
        try:
            got = 0, file.apply(int(section), words_to_layout(elfsee, words))
        except elfsee.Refused as refused:
            got = 1, (refusal_line(refused) + "\n").encode()
        counts.same("section %s of %s" % (section, path), (status, out), got)
        compare_missing(counts, elfsee, program, path, file, section, words[:len(words) // 2])


def compare_missing(counts, elfsee, program, path, file, section, words):
    """What a layout lacks is what the program explains."""
    told = subprocess.run([program, "apply", "--explain", "--", path, section, *words], stdin=subprocess.DEVNULL,
                          capture_output=True, check=False).stderr.decode()
    try:
        file.apply(int(section), words_to_layout(elfsee, words))
        got = ""
    except elfsee.Unapplied as refused:
        got = help_of(elfsee, refused.missing) if refused.missing else ""
    counts.same("what section %s of %s lacks" % (section, path), told[told.rfind(": ") + 2:] if told else "", got)


def help_of(elfsee, missing):
    """What would help, as the program says it."""
    words = {field: word for word, field in COMMANDS.items()}
    if missing.section is not None:
        return "at:%d=ADDR would help\n" % missing.section
    if not missing.name or missing.is_cut:
        return "no item can name it\n"
    items = ["%s:%s=ADDR" % (words[field], elfsee.spelt(missing.name)) for field in missing.helpful]
    return " or ".join(reversed(items)) + " would help\n"


def lines_of_versions(elfsee, file):
    """The lines V and X of a listing, of rows; and whether they end with a refusal."""
    lines, kinds = [], {1: "DEF ", 2: "FILE", 3: "NEED"}
    try:
        for row in file.versions():
            lines.append("V %5d %s %5d %04x %08x %s\n" % (row.table, kinds[row.kind], row.number + 32768 * row.is_hidden,
                                                          row.flags, row.hash, elfsee.spelt(row.name)))
        for row in file.symbol_versions():
            lines.append("X %5d %10d %5d %s %s\n" % (row.table, row.index, row.number, "-H"[row.is_hidden],
                                                     elfsee.spelt(row.name)))
    except elfsee.Refused as refused:
        return lines, refusal_line(refused)
    return lines, None


def compare_versions(counts, elfsee, program, path, file):
    """The rows of symbol versions are the lines of the listing."""
    status, out = run(program, "show", "--gnu", "--only", "versions", "--names", "4096", "--", path)
    lines, refusal = lines_of_versions(elfsee, file)
    if refusal:
        # The names of all numbers are found before the first X line.
        few = len([line for line in lines if line[0] == "V"])
        wanted = out.decode("ascii").splitlines(keepends=True)
        counts.same("versions before a refusal of %s" % path, (1, wanted[:few]), (status, lines[:few]))
    else:
        counts.same("rows of versions of %s" % path, (0, out.decode("ascii")), (status, "".join(lines)))


def compare_file(counts, elfsee, program, path, are_parts_listed):
    with elfsee.File(path) as file:
        compare_text(counts, elfsee, program, path, file)
        for part in PARTS:
            if are_parts_listed:
                compare_text(counts, elfsee, program, path, file, "--only", part, "--names", "5")
        compare_styles(counts, elfsee, program, path, file)
        compare_versions(counts, elfsee, program, path, file)
        compare_rows(counts, elfsee, path, file)
        names, sections = asked_of(file.data)
        compare_lookups(counts, elfsee, program, path, file, names)
        compare_resolved(counts, elfsee, program, path, file, texts_of(file.data))
        compare_names(counts, elfsee, program, path, file, texts_of(file.data))
        compare_hashed(counts, elfsee, path, file)
        compare_contents(counts, elfsee, path, file)
        compare_applied(counts, elfsee, program, path, file, sections)


def compare_copies(counts, elfsee, program, paths, folder, words):
    """Changed copies of files: their text, rows, lookups and sections."""
    rng, copies = random.Random(words.seed), []
    for number in range(words.copies):
        original = rng.choice(paths)
        with open(original, "rb") as file:
            content = file.read()
        copy = os.path.join(folder, "copy_%d" % number)
        with open(copy, "wb") as file:
            file.write(changed_files.changed(rng, content))
        copies.append(copy)
        names, sections = asked_of(content)
        with elfsee.File(copy) as file:
            compare_text(counts, elfsee, program, copy, file)
            compare_styles(counts, elfsee, program, copy, file)
            compare_rows(counts, elfsee, copy, file)
            compare_lookups(counts, elfsee, program, copy, file, names[-2:])
            compare_resolved(counts, elfsee, program, copy, file, texts_of(content)[-2:])
            compare_names(counts, elfsee, program, copy, file, texts_of(content)[-4:])
            compare_hashed(counts, elfsee, copy, file)
            compare_contents(counts, elfsee, copy, file)
            compare_applied(counts, elfsee, program, copy, file, sections[:2])
    return copies


def members_as_lines(elfsee, content):
    """The lines of the members of an archive, and of the refusal that ends them."""
    lines, index = [], 0
    try:
        for index, member in enumerate(elfsee.File(content).members()):
            lines.append("A %5d %016x %016x %s%s" % (index, member.offset, member.size, spelt(member.name),
                                                     "\\+" if member.is_cut else ""))
            told = re.fullmatch(rb"#1/([0-9]{1,13}) *", content[member.at:member.at + 16])
            assert member.offset == member.at + 60 + (int(told[1]) if told else 0) and len(member.content) == member.size
            assert member.content == content[member.offset:member.offset + member.size]
    except elfsee.Refused as refused:
        lines.append(refusal_line(refused))
    return lines
