#!/usr/bin/env python3
"""Compares what the library answers to Python and to Rust with what the program prints.

    tests/gate/callers.py [--program PROGRAM] [--library FOLDER] [--files N] [--copies N] [--seed N]

It uses files of the machine, objects and libraries that gcc makes here, and copies of both that are
changed by a generator with a seed: the text that the module library/python/elfsee
returns is what the program prints, each of its rows makes the line of the listing, and refusals have
the listing's cause and place; lookups, applied sections and images of segments are the program's. The crate library/rust
must give the same rows as the module. The members of archives, also of odd ones, are those that the
program lists. The structs of both have the layout of C, and what both declare is what library/elfsee.h declares. Arguments
outside their ranges or of other types are refused, files of few bytes end well, and the module passes no NULL to the
library. It opens only regular files and waits for none, and a mapped file that is truncated ends no process. Names of the
standards' numbers are those of the C library's elf.h, the module's types are right, pip makes and installs its wheel, and
cargo its package. The two examples are run, also on files that are made to break them, and the programs of docs/LIBRARY.md and README.md.

PROGRAM and FOLDER (with libelfsee.so.0 and libelfsee.a) are the repository's own if they are not
given, and are built first if they are not built. It needs Python 3.9 or newer; without gcc, rustc, rustdoc, cargo,
pip, mypy or elf.h it leaves out what needs them, and says so. The last line is
`N passed, N failed`.
"""

import os
import sys
import tempfile

sys.dont_write_bytecode = True
sys.path[:0] = [os.path.join(os.path.dirname(os.path.realpath(__file__)), "..", name) for name in ("common", "again")]
import asked_of_files
import made_archives
from callers_cases.counted import LIBRARY, Counts, asked_of, file_content, run
from callers_cases.files import (files_of_the_machine, long_names, many_rows, two_string_tables, versioned_files,
                                 without_sections)
from callers_cases.images import check_images
from callers_cases.listings import compare_copies, compare_file, members_as_lines
from callers_cases.module import (check_arguments, check_budgets, check_collected, check_empty, check_entries,
                                  check_kinds, check_opened, check_places, check_pointers, check_rooms,
                                  check_small_files, check_spelt, check_threads, check_versioned, check_wheel,
                                  check_words)
from callers_cases.pages import check_harden, check_images_of_page, check_page, check_readme, check_tables_of_page
from callers_cases.rust import (check_package, check_relocate, check_spaces, compare_in_rust, compiled_in_rust,
                                members_in_rust)
from callers_cases.types import check_constants, check_declared, check_structs, check_types
from testing import built, option_reader, program_of


def compare_archives(counts, elfsee, program, calls, folder):
    """The members that the module and the crate give are those that the program lists; each is a file."""
    archive, one = os.path.join(folder, "archive"), os.path.join(folder, "member")
    made = made_archives.odd_archives()
    for path in asked_of_files.static_libraries()[:10]:
        made[path] = file_content(path)
    for name, content in made.items():
        with open(archive, "wb") as file:
            file.write(content)
        lines = run(program, "archive", "--only", "members", "--names", "4096", "--", archive)[1]
        counts.same("members of %s" % name, lines.decode().split("\n")[:-1], members_as_lines(elfsee, content))
        if calls:
            counts.same("members in Rust of %s" % name, members_in_rust(elfsee, content),
                        run(calls, "members", archive)[1].decode().split("\n")[:-1])
    content = made_archives.MAGIC + made_archives.member(b"ls/", file_content("/bin/ls"))
    member = next(elfsee.File(content).members())
    with open(one, "wb") as file:
        file.write(member.content)
    counts.same("text of a member", run(program, "show", "--", one)[1].decode(), elfsee.File(member.content).text())
    file = elfsee.File(content)
    members = file.members()
    file.close()
    counts.raises("members of a closed file", ValueError, lambda: next(members))


def check_all(counts, program, library, folder, words):
    os.environ["ELFSEE_LIBRARY"] = shared = os.path.join(library, "libelfsee.so.0")
    sys.path.insert(0, os.path.join(LIBRARY, "python"))
    import elfsee
    made = asked_of_files.compiled_objects(folder)
    fixtures = [*made, long_names(folder), without_sections("/bin/ls", folder), many_rows(folder),
                two_string_tables(folder)]
    versions = versioned_files(folder)
    rust = compiled_in_rust(counts, library, folder)
    if rust:
        check_package(counts, library, folder)
    check_declared(counts, elfsee)
    check_structs(counts, elfsee, folder, rust.get("layout"))
    check_page(counts, program, library, folder, bool(rust))
    check_images_of_page(counts, library, folder, bool(rust))
    check_tables_of_page(counts)
    check_readme(counts)
    check_words(counts, elfsee)
    check_spelt(counts, elfsee, program, fixtures[len(made)])
    check_constants(counts, elfsee)
    check_types(counts, elfsee, folder)
    check_arguments(counts, elfsee, made[0] if made else "/bin/ls")
    check_kinds(counts, elfsee, made[0] if made else "/bin/ls")
    check_opened(counts, elfsee, folder)
    check_collected(counts, versions[2])
    check_versioned(counts, elfsee, program, versions)
    check_small_files(counts, elfsee, "/bin/ls")
    check_empty(counts, elfsee)
    check_pointers(counts, elfsee, [*made, *fixtures[-4:], "/bin/ls"])
    check_threads(counts, elfsee, "/bin/ls")
    check_rooms(counts, elfsee, "/bin/ls")
    check_budgets(counts, elfsee, ["/bin/ls", *fixtures[-3:], versions[0]])
    check_images(counts, elfsee, program, rust.get("images"), folder, ["/bin/ls", *made[:2], *versions[:1]])
    check_places(counts, shared, folder)
    check_wheel(counts, shared, folder)
    check_spaces(counts, library, folder)
    compare_archives(counts, elfsee, program, rust.get("calls"), folder)
    machine, fixtures = files_of_the_machine(words.files), fixtures + versions
    for path in fixtures + machine:
        compare_file(counts, elfsee, program, path, path in fixtures)
    small = [path for path in fixtures + machine if os.path.getsize(path) < 200000]
    copies = compare_copies(counts, elfsee, program, small, folder, words)
    for path in fixtures + machine[::4] if rust else []:
        compare_in_rust(counts, elfsee, rust["calls"], program, path, asked_of(file_content(path))[0])
    for path in copies[::4] if rust else []:
        compare_in_rust(counts, elfsee, rust["calls"], program, path, ["choose", "no_such_name"])
    if made:
        check_entries(counts, elfsee, program, folder)
        check_harden(counts, folder)
        if rust:
            check_relocate(counts, program, rust["relocate"], folder)
    else:
        print("not run: the examples, as gcc is missing")


def main():
    parser = option_reader(__doc__)
    parser.add_argument("--library", help="the directory of the library; library/build makes it")
    parser.add_argument("--files", type=int, default=40, help="so many files of the machine")
    parser.add_argument("--copies", type=int, default=400, help="so many changed copies")
    parser.add_argument("--seed", type=int, default=1, help="what the changes begin with")
    words = parser.parse_args()
    program = program_of(words)
    library = words.library or built("library/build")
    counts = Counts()
    with tempfile.TemporaryDirectory() as folder:
        check_all(counts, program, os.path.abspath(library), folder, words)
    return counts.end()


if __name__ == "__main__":
    sys.exit(main())
