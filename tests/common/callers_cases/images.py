"""Cases of tests/gate/callers.py: images of segments, what they lack, and the relocations that dynamic entries locate, in
Python and Rust, beside what the program prints."""

import os
import struct
import sys

import changed_files
from callers_cases.counted import file_content, run
from callers_cases.listings import refusal_line
from testing import TOP

sys.path.append(os.path.join(TOP, "tests", "gate"))
import images  # noqa: E402

FIELDS = {"sym": "symbols", "call": "calls", "mod": "modules", "dtp": "values", "tp": "offsets", "ires": "resolvers",
          "copy": "copies"}
# Changes of the worked file: words and tables of each form, some of which are refused.
TURNED = {"a last address": (0x150, struct.pack("<QQ", 2 ** 64 - 8, 3)), "an address past the last": (0x150, struct.pack("<Q", 2 ** 64 - 2)),
          "a word of bits first": (0x150, struct.pack("<Q", 5)), "no table": (0x2b0, struct.pack("<Q", 99)),
          "entries without addends": (0x2f0, struct.pack("<6Q", 17, 0x160, 18, 0x30, 19, 16)),
          "rows of another size": (0x318, struct.pack("<Q", 23)), "calls without addends": (0x358, struct.pack("<Q", 17))}


def items_of(elfsee, words, partial=False):
    """The items of a command line."""
    given = {field: {} for field in FIELDS.values()}
    for word in words:
        key, value = word.rsplit("=", 1)
        kind, _, key = key.partition(":")
        if kind in ("base", "desc"):
            given[{"base": "base", "desc": "descriptor"}[kind]] = int(value, 0)
        else:
            given[FIELDS[kind]][int(key, 0)] = bytes.fromhex(value) if kind == "copy" else int(value, 0)
    return elfsee.ImageItems(**given, partial=partial)


def image_of(elfsee, content, segment, items, **options):
    """The image in Python, or the line of the refusal."""
    try:
        return elfsee.File(content).image(segment, items, **options)
    except elfsee.Refused as refused:
        return refusal_line(refused)


def check_worked(counts, elfsee, rust, folder):
    """The worked cases of tests/gate/images.py, with windows of several sizes."""
    path = os.path.join(folder, "worked")
    for name, changes, words, segment, wanted in images.CASES:
        content = bytearray(images.small_file())
        for at, change in changes.items():
            content[at:at + len(change)] = change
        got = {image_of(elfsee, bytes(content), segment, items_of(elfsee, words), window=size) for size in (16, 24, 64, 4096)}
        shown = [one if isinstance(one, str) else " ".join("%x" % word for word in struct.unpack_from("<8Q", one)) for one in got]
        counts.same("image in Python, %s" % name, [wanted], shown)
        if rust:
            with open(path, "wb") as file:
                file.write(content)
            said = run(rust, "image", path, "16", str(segment), *words)[1].decode().strip()
            one = got.pop()
            place, _, word = one[2:].partition(" ") if isinstance(one, str) else ("", "", "")
            counts.same("image in Rust, %s" % name, "! %s at 0x%x" % (word, int(place, 16)) if word else one.hex(), said)


def located_lines(elfsee, content):
    """The relocations that dynamic entries locate, up to the refusal."""
    rows = []
    try:
        for row in elfsee.File(content).located_relocations():
            rows.append(row)
    except elfsee.Refused as refused:
        rows.append(refusal_line(refused))
    return rows


def compare_located(counts, elfsee, program, rust, path, content, name):
    """The rows are those of the listing of a file without section headers, but for names."""
    with open(path, "wb") as file:
        file.write(changed_files.without_sections(content))
    listed = run(program, "show", "--gnu", "--by-segments", "--only", "relocs", path)[1].decode().split("\n")[:-1]
    rows = located_lines(elfsee, content)
    lines = [row if isinstance(row, str) else "%016x %s %08x %s" % (
        row.offset, row.type is None, row.symbol, "-" + " " * 16 if row.addend is None else
        ("-" if row.addend < 0 else "+") + "%016x" % abs(row.addend)) for row in rows]
    told = [line if line.startswith("!") else "%s %s %s" % (line[8:24], line[25:35].strip() == "RELR", line[36:62])
            for line in listed]
    # A fault of a name ends the listing alone.
    if told and told[-1].startswith("!") and lines[-1:] != told[-1:]:
        told, lines = told[:-1], lines[:len(told) - 1]
    counts.same("located relocations, %s" % name, told, lines)
    if rust:
        said = run(rust, "located", path)[1].decode().split("\n")[:-1]
        wanted = ["%d %d %s %d %s" % tuple(row) for row in rows if not isinstance(row, str)]
        counts.same("located relocations in Rust, %s" % name, (wanted, len(rows)), (said[:len(wanted)], len(said)))


def check_images(counts, elfsee, program, rust, folder, paths):
    """Images, what they lack, and located relocations of files."""
    check_worked(counts, elfsee, rust, folder)
    path = os.path.join(folder, "image")
    for name, (at, change) in {"no change": (0, b"\x7f"), **TURNED}.items():
        content = bytearray(images.small_file())
        content[at:at + len(change)] = change
        compare_located(counts, elfsee, program, rust, path, bytes(content), name)
    for each in paths:
        content = file_content(each)
        compare_located(counts, elfsee, program, rust, path, content, each)
        file = elfsee.File(content)
        try:
            lacking = ["%016x %016x %d %d %s" % (*row[:4], elfsee.word_of(row.cause)) for row in file.lacking()]
        except elfsee.Refused as refused:
            lacking = [refusal_line(refused)]
        status, out = run(program, "image", "--missing", each)
        lines = out.decode().split("\n")[:-1]
        told = [line if line.startswith("!") else "%s %s" % (line[2:35], " ".join(line[46:].split())) for line in lines]
        # The program prints the type's name.
        ours = [line if line.startswith("!") else " ".join(line.split(" ")[:2] + line.split(" ")[3:]) for line in lacking]
        counts.same("what %s lacks" % each, told, ours)
        if rust:
            said = run(rust, "lacking", each, "3")[1].decode().split("\n")[:-1]
            counts.check("what %s lacks in Rust" % each, len(said) == len(lacking), (said[:3], lacking[:3]))
        for segment in [row.index for row in file.segments() if row.type == 1] if status == 0 else []:
            words = ["base=0x7f0000000000"]
            whole = run(program, "image", "--leave", each, str(segment), *words)[1]
            got = image_of(elfsee, content, segment, items_of(elfsee, words, partial=True))
            counts.check("segment %d of %s" % (segment, each), got == whole, len(whole))
            if rust:
                said = run(rust, "image", each, "4096", str(segment), "--leave", *words)[1].decode().strip()
                counts.check("segment %d of %s in Rust" % (segment, each), said == whole.hex(), said[:100])
