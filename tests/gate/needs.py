#!/usr/bin/env python3
"""Compares `elfsee needs` with what glibc's loader prints for the programs of the machine, and tries generated files.

usage: tests/gate/needs.py [--program PROGRAM] [--quick | --machine]

Without PROGRAM ./build makes it. The loader is run by LD_TRACE_LOADED_OBJECTS=1 and the program, which then does not
run, or, for a library, its own program with that; elfsee itself runs nothing. --quick tries only the generated files, as
./check does. Without --machine some forty
programs of /usr/bin are taken; with it all programs of /usr/bin and /usr/sbin and all programs and libraries below
/usr/lib, and then it also measures: over the programs of /usr/bin `needs --symbols` takes at most three times the time of
`ldd -r`, and at most 8 MB each. Objects and their paths are the loader's, and so is which versions are missing, by
LD_VERBOSE=1. For some programs (with --machine 200) the bindings of symbols are compared with what the loader prints by
LD_DEBUG=bindings if it binds all at once and runs nothing: for each undefined symbol that it binds the same object defines
it. It binds only those that relocations name. The path of the loader itself is compared with links followed.

The generated files are tried by the modules in tests/common/needs_cases, most of them byte for byte: versions that are missing,
interpreters, which file a name is, caches, other roots, many files.

What the rules leave out is counted: programs that set a user or a group, for which the loader ignores these variables;
scripts and other files; libraries in directories for processor types; and symbols for which the loader takes one that is
not hidden and whose number names no version, if a version is needed, which is looked up here without elfsee. Nothing else
may differ. If gcc makes no library, the generated libraries are
left out, and it says so. The last line has the counts; the status is 0 if nothing failed."""

from pathlib import Path
import os
import shutil
import subprocess
import sys
import tempfile

sys.dont_write_bytecode = True
sys.path[:0] = [os.path.join(os.path.dirname(os.path.realpath(__file__)), "..", name) for name in ("common", "again")]
from needs_cases import answers, caches, files, interpreters, roots, versions
from needs_cases.common import Cases
from needs_cases.loader import binds_as_loader, measured, programs, same_as_loader
from needs_cases.many import made_files, made_many, made_many_paths, made_names
from needs_cases.symbols import made_names_of_symbols, made_symbols, made_unused
from needs_cases.tried import TRIED, elfsee, fail
from needs_cases.walks import made, made_budgets, made_faults, made_options, made_others, made_tries, made_walk
from testing import option_reader, program_of


def made_cases(folder):
    """The cases of each module: what is printed, byte for byte."""
    for module in (versions, interpreters, files, caches, roots, answers):
        cases = Cases(TRIED.program, str(folder / module.__name__.rpartition(".")[2]))
        module.run(cases)
        TRIED.failures += cases.failures
        print(f"{module.__name__.rpartition('.')[2]}: {cases.passed} cases passed, {cases.failures} failed")


def main():
    words = option_reader(__doc__)
    words.add_argument("--quick", action="store_true")
    words.add_argument("--machine", action="store_true")
    given = words.parse_args()
    every = given.machine
    TRIED.program = program_of(given)
    found, left = ([], {}) if given.quick else programs(every)
    counts = {}
    for path, library in found:
        same = same_as_loader(path, library) or "silent"
        counts[same] = counts.get(same, 0) + 1
    bound = unnamed = 0
    named = [path for path, library in found if not library]
    for path in named[:: max(1, len(named) // (200 if every else 20))][: 200 if every else 20]:
        compared = binds_as_loader(path) or (0, 0)
        bound, unnamed = bound + compared[0], unnamed + compared[1]
    with tempfile.TemporaryDirectory() as folder:
        if shutil.which("gcc"):
            try:
                made(Path(folder))
                made_symbols(Path(folder))
                made_names_of_symbols(Path(folder))
                made_budgets(Path(folder))
                made_walk(Path(folder))
                made_names(Path(folder))
                made_many(Path(folder))
                made_many_paths(Path(folder))
                made_options(Path(folder))
                made_others(Path(folder))
                made_faults(Path(folder))
                made_tries(Path(folder))
                made_cases(Path(folder))
                made_files(Path(folder))
                made_unused(Path(folder))
                if every:
                    measured([path for path in named if path.startswith("/usr/bin/")], folder)
            except subprocess.CalledProcessError as error:
                fail(f"made libraries: {error.stderr.decode()[-300:]}")
        else:
            print("skipped: made libraries, since there is no gcc")
    code, text, errors = elfsee("/etc/hostname")
    if code != 1 or not text.startswith("L     0 -     refused  "):
        fail(f"no ELF file: {code} {text!r} {errors!r}")
    code, text, errors = elfsee("/no/such/file")
    if code != 3 or text or errors != "elfsee: cannot open\n":
        fail(f"no file: {code} {text!r} {errors!r}")
    if os.path.exists("/etc/ld.so.preload"):
        print("left out: what /etc/ld.so.preload names, which a loader adds to each program")
    print(f"left out by the rules: {counts.get('hwcaps', 0)} files by kinds of processors, "
          f"{left.get('setid', 0)} that set a user or a group, {left.get('other', 0)} scripts and others, {unnamed} symbols by one without a version")
    print(f"files beside the loader: {counts.get('same', 0)}, of which it says nothing: {counts.get('silent', 0)}, "
          f"symbols bound as by it: {bound}, failed: {TRIED.failures}")
    return 1 if TRIED.failures else 0


if __name__ == "__main__":
    sys.exit(main())
