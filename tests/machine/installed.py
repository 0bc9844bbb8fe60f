#!/usr/bin/env python3
"""Goes through all steps of a user, in a clean clone.

    tests/machine/installed.py [--program PROGRAM] [--library FOLDER] [--without-package]
    tests/machine/installed.py --pages [--program PROGRAM]

It clones the repository, builds and installs the program into a directory (`make`, `make install`), then
the library too (`make library`, `make install`), finds and shows the man pages, builds the example with the
installed library, loads the completions in each shell, compares what is said with what the program
has, builds, installs, tries and removes the Debian packages, and removes what was installed
(`make uninstall`). Then it runs each command in README.md, in the man page and in docs/, and
compares its output with what the page shows.

`make` proves the program from nothing; README.md says how long that takes. --program takes a
program that is built already from the same sources, --library the directory library/out with the library,
and --without-package leaves the packages out, which only root can install. --pages runs only the commands
in README.md, in the man page and in docs/, in seconds if the program is built.

The output in the documents was printed on Debian 12, with the versions below. If the machine has
other versions, only the shape of those lines is compared, and the script says so.

It needs the Rattle toolchain, or --program, and from Debian: apt-get install git make man-db mandoc bash
bash-completion zsh fish python3 binutils gcc pkg-config build-essential debhelper dh-python lintian. It is no
part of ./check.
Each case is one line; the last line is `N passed, N failed`.
"""

import os
import re
import shutil
import site
import subprocess
import sys
import tempfile

sys.dont_write_bytecode = True
sys.path.insert(0, os.path.join(os.path.dirname(os.path.realpath(__file__)), "..", "common"))
from page_commands import other_versions, shape
from testing import TOP, option_reader, program_of

NEEDED = ["git", "make", "man", "mandoc", "bash", "zsh", "fish", "as", "ld", "awk", "gcc", "pkg-config",
          "dpkg-query"]
VERSIONS = {"coreutils": "9.1-1", "libc6-dev": "2.36-9+deb12u14", "binutils": "2.40-2"}
# Commands of the documents that are named there and not run here, for what they take or change.
NOT_RUN = ("./check", "apt-get ", "bench/", "/usr/bin/python3 bench/", "rt ", "cd ", "make", "sudo ", "tests/",
           "packaging/", "library/", "git ")
CALL = """\t.file "call.c"
\t.text
\t.globl caller
\t.type caller, @function
caller:
\tcall callee
\tret
\t.size caller, .-caller
"""


class Counts:
    def __init__(self):
        self.passed, self.failed = 0, 0

    def case(self, name, is_so, said=""):
        if is_so:
            self.passed += 1
            print(f"ok {name}", flush=True)
        else:
            self.failed += 1
            print(f"FAILED {name}: {said}", flush=True)

    def runs(self, name, words, **options):
        """A case that a command ends with status 0; gives what it wrote."""
        done = subprocess.run(words, stdin=subprocess.DEVNULL, stdout=subprocess.PIPE,
                              stderr=subprocess.STDOUT, check=False, **options)
        text = done.stdout.decode("utf-8", "replace")
        self.case(name, done.returncode == 0, f"status {done.returncode}\n{text[-3000:]}")
        return text


def read(*path):
    with open(os.path.join(*path), encoding="utf-8") as file:
        return file.read()


# ---------------------------------------------------------------------------
# The walk.

def cloned(counts, room, built):
    clone = os.path.join(room, "elfsee")
    counts.runs("a clean clone", ["git", "clone", "-q", TOP, clone])
    if built:
        program = os.path.join(clone, "crates/elfsee/out/elfsee")
        os.makedirs(os.path.dirname(program))
        shutil.copy(built, program)
    return clone


def check_unproved(counts, room):
    """An answer without proofs, in a clone where nothing is built, also of a file at a path that is not absolute."""
    clone = os.path.join(room, "unproved")
    counts.runs("one more clean clone", ["git", "clone", "-q", TOP, clone])
    shutil.copy("/bin/true", room)
    done = subprocess.run([os.path.join(clone, "elfsee"), "--try", "show", "--only", "header", "true"], cwd=room,
                          stdin=subprocess.DEVNULL, capture_output=True, check=False, text=True)
    counts.case("an answer without proofs", done.returncode == 0 and done.stdout.startswith("H "), done.stderr[-3000:])
    counts.case("it says so", done.stderr.count("\n") == 1 and "not proved" in done.stderr, done.stderr[-3000:])


def installed(counts, clone, room, library):
    """Builds and installs into a directory, first the program alone; gives its path."""
    prefix = os.path.join(room, "installed")
    counts.runs("make", ["make"], cwd=clone)
    counts.runs("make install", ["make", "install", f"PREFIX={prefix}"], cwd=clone)
    wanted = {"bin/elfsee": 0o755, "share/man/man1/elfsee.1": 0o644,
              "share/bash-completion/completions/elfsee": 0o644, "share/zsh/site-functions/_elfsee": 0o644,
              "share/fish/vendor_completions.d/elfsee.fish": 0o644}
    counts.case("what is installed", files_below(prefix) == wanted, files_below(prefix))
    if library:
        shutil.copytree(library, os.path.join(clone, "library/out"), symlinks=True, copy_function=shutil.copy)
    counts.runs("make library", ["make", "library"], cwd=clone)
    counts.runs("make install, with the library", ["make", "install", f"PREFIX={prefix}"], cwd=clone)
    wanted.update({path: 0o644 for path in (
        "include/elfsee.h", "lib/libelfsee.a", "lib/libelfsee.so", "lib/libelfsee.so.0", "lib/pkgconfig/elfsee.pc",
        "share/man/man3/elfsee.3", *modules_below(prefix))})
    counts.case("what is installed then", files_below(prefix) == wanted, files_below(prefix))
    staged = os.path.join(room, "staged")
    into = [f"DESTDIR={staged}", "PREFIX=/usr"]
    counts.runs("make install with DESTDIR", ["make", "install", *into], cwd=clone)
    there = {f"usr/{path}": mode for path, mode in wanted.items() if path not in modules_below(prefix)}
    there.update({f"usr/{path}": 0o644 for path in modules_below("/usr")})
    counts.case("what is staged", files_below(staged) == there, files_below(staged))
    counts.runs("make uninstall with DESTDIR", ["make", "uninstall", *into], cwd=clone)
    counts.case("nothing of it is left", not files_below(staged), files_below(staged))
    return prefix


def modules_below(prefix):
    """The files of the module for Python below a prefix."""
    folder = os.path.relpath(site.getsitepackages([prefix])[-1], prefix)
    return [f"{folder}/elfsee/{name}" for name in ("__init__.py", "_numbers.py", "py.typed")]


def files_below(folder):
    """Of each file below a directory its permissions."""
    paths = [os.path.join(here, name) for here, _, names in os.walk(folder) for name in names]
    return {os.path.relpath(path, folder): os.stat(path).st_mode & 0o777 for path in paths}


def check_man_page(counts, prefix):
    pages = os.path.join(prefix, "share/man")
    found = counts.runs("the man page is found", ["man", "-M", pages, "-w", "elfsee"])
    counts.case("the man page is the installed one", found.strip() == f"{pages}/man1/elfsee.1", found)
    shown = counts.runs("the man page is shown", ["man", "-M", pages, "-P", "cat", "elfsee"])
    counts.case("the man page has its sections", all(title in shown for title in
                ("SYNOPSIS", "CAUSES", "EXIT STATUS", "EXAMPLES", "LIMITS", "PROMISES")))
    found = counts.runs("the library's man page is found", ["man", "-M", pages, "-w", "3", "elfsee"])
    counts.case("it is the installed one", found.strip() == f"{pages}/man3/elfsee.3", found)
    for page in (f"{pages}/man1/elfsee.1", f"{pages}/man3/elfsee.3"):
        check_page(counts, page)


def check_page(counts, page):
    for words in (["man", "--warnings", "-P", "cat", "-l", page], ["mandoc", "-Tlint", page]):
        done = subprocess.run(words, stdin=subprocess.DEVNULL, stdout=subprocess.PIPE, stderr=subprocess.PIPE,
                              env=dict(os.environ, LC_ALL="C", MANWIDTH="80"), check=False)
        said = done.stderr + (done.stdout if words[0] == "mandoc" else b"")
        name = f"{os.path.basename(page)}: {' '.join(words[:2])} says nothing"
        counts.case(name, done.returncode == 0 and not said, said)


def check_library(counts, clone, prefix, room):
    """Makes the example with the installed library, shared and static, with the flags of pkg-config."""
    environment = dict(os.environ, PKG_CONFIG_PATH=f"{prefix}/lib/pkgconfig", LD_LIBRARY_PATH=f"{prefix}/lib")
    told = counts.runs("pkg-config knows the library", ["pkg-config", "--cflags", "--libs", "elfsee"], env=environment)
    wanted = [f"-I{prefix}/include", f"-L{prefix}/lib", "-lelfsee"]
    counts.case("pkg-config says where it is", told.split() == wanted, told)
    shared = f"{prefix}/lib/libelfsee.so.0"
    for name, words in (("shared", told.split()), ("static", [*told.split()[:1], f"{prefix}/lib/libelfsee.a"])):
        path = os.path.join(room, f"lookup-{name}")
        counts.runs(f"the example is made, {name}", ["gcc", "-o", path, f"{clone}/examples/lookup.c", *words])
        said = counts.runs(f"the example runs, {name}", [path, shared, "elfsee_find", "0x10000"], env=environment)
        found = re.fullmatch(r"elfsee_find is at 0x[1-9a-f][0-9a-f]{4}, \d+ bytes\n(?:its version is \w+\n)?", said)
        counts.case(f"the example finds, {name}", found, said)


def check_module(counts, prefix):
    """The module for Python if it is installed, with the library that is installed."""
    environment = dict(os.environ, PYTHONPATH=site.getsitepackages([prefix])[-1], LD_LIBRARY_PATH=f"{prefix}/lib")
    environment.pop("ELFSEE_LIBRARY", None)
    text = ("import elfsee; print(elfsee.__file__, elfsee._library._name, "
            "any(entry.tag == elfsee.DynamicTag.NEEDED for entry in elfsee.File('/bin/ls').dynamic()))")
    said = counts.runs("the module is found", [sys.executable, "-B", "-c", text], env=environment, cwd="/")
    wanted = f"{prefix}/{modules_below(prefix)[0]} libelfsee.so.0 True\n"
    counts.case("it uses the installed library", said == wanted, said)


# ---------------------------------------------------------------------------
# The commands of the documents.

def shell_examples(text):
    """The commands of a text after `$ `, each with the lines that follow it."""
    command, output = None, []
    for line in [*text.split("\n"), "$ "]:
        if line.startswith("$ "):
            if command is not None:
                while output and output[-1] == "":
                    output.pop()
                yield command, output
            command, output = line[2:], []
        elif command is not None and not output and line.startswith("> "):
            command += "\n" + line[2:]
        elif command is not None:
            output.append(line)


def examples_of_markdown(text):
    """Examples of the text blocks, and commands of the shell blocks."""
    for kind, block in re.findall(r"^```(\w*)\n(.*?)^```", text, re.S | re.M):
        if kind == "text" and re.search(r"^\$ ", block, re.M):
            yield from shell_examples(block)
        elif kind == "sh":
            for command in block.strip().split("\n"):
                yield command, None


def examples_of_man(text):
    for block in re.findall(r"^\.Bd -literal.*?\n(.*?)^\.Ed", text, re.S | re.M):
        plain = block.replace("\\\n", "").replace("\\e", "\\").replace("\\&", "")
        yield from shell_examples(plain)


def check_command(counts, place, command, output, folder, environment, others):
    name = f"{place}: {command.splitlines()[0]}"
    if output is None and command.startswith(NOT_RUN):
        path = command.split()[0]
        if "/" in path:
            is_there = os.access(os.path.join(folder, path), os.X_OK)
            counts.case(f"{name} (is there)", is_there, "it is no program")
        return
    done = subprocess.run(["bash", "-c", command], stdin=subprocess.DEVNULL, stdout=subprocess.PIPE,
                          stderr=subprocess.STDOUT, cwd=folder, env=environment, timeout=60, check=False)
    got = done.stdout.decode("utf-8", "replace").split("\n")
    while got and got[-1] == "":
        got.pop()
    if output is None:
        counts.case(name, done.returncode == 0, f"status {done.returncode}")
    elif got != output and others:
        counts.case(f"{name} (its shape)", shape(got) == shape(output), f"wanted {output}, got {got}")
    else:
        counts.case(name, got == output, f"wanted {output}, got {got}")


def make_examples(folder):
    """The files that the man page speaks of: an object with a relocation entry against symbol 2a, under odd
    names too, a file that is cut, and what is listed whole or is no ELF file."""
    os.makedirs(os.path.join(folder, "tree"))
    path = os.path.join(folder, "call.o")
    subprocess.run(["as", "-o", path, "-"], input=CALL.encode(), check=True)
    shutil.copy(path, os.path.join(folder, "good.o"))
    with open(path, "r+b") as file:
        file.seek(0xC0 + 12)
        file.write(b"\x2a")
    with open(path, "rb") as file:
        content = file.read()
    for name, part in [(b"call.o", content), (b"\x1b[2J.o", content), (b"\xff", content),
                       (b"cut", content[:60]), (b"empty", b"")]:
        with open(os.path.join(os.fsencode(folder), b"tree", name), "wb") as file:
            file.write(part)
    shutil.copy("/bin/true", os.path.join(folder, "tree"))
    with open(os.path.join(folder, "tree", "text"), "w", encoding="ascii") as file:
        file.write("no object file\n")


def check_commands(counts, clone, prefix, room):
    others = list(other_versions(VERSIONS))
    if others:
        print(f"other versions than the documents' ({', '.join(others)}):"
              " of what differs the shape is compared")
    environment = dict(os.environ, LC_ALL="C", PATH=os.path.join(prefix, "bin") + ":" + os.environ["PATH"])
    folder = os.path.join(room, "examples")
    make_examples(folder)
    for command, output in examples_of_man(read(clone, "man/elfsee.1")):
        check_command(counts, "man page", command, output, folder, environment, others)
    # tests/gate/cookbook.py makes the files that these two speak of.
    pages = ["README.md", "CONTRIBUTING.md", *sorted(f"docs/{name}" for name in os.listdir(f"{clone}/docs")
                                                     if name.endswith(".md") and name not in ("COOKBOOK.md", "RESOLVE.md"))]
    for page in pages:
        for command, output in examples_of_markdown(read(clone, page)):
            check_command(counts, page, command, output, clone, environment, others)


def check_pages(counts, built):
    """Runs the commands of the documents alone, by a program that is built, in a clean clone."""
    with tempfile.TemporaryDirectory() as room:
        clone, prefix = cloned(counts, room, built), os.path.join(room, "installed")
        os.makedirs(os.path.join(prefix, "bin"))
        shutil.copy(built, os.path.join(prefix, "bin", "elfsee"))
        check_commands(counts, clone, prefix, room)
    print(f"{counts.passed} passed, {counts.failed} failed")
    return 0 if counts.passed and not counts.failed else 1


# ---------------------------------------------------------------------------

def main():
    reader = option_reader(__doc__)
    reader.add_argument("--library")
    reader.add_argument("--without-package", action="store_true")
    reader.add_argument("--pages", action="store_true")
    words = reader.parse_args()
    counts = Counts()
    if words.pages:
        return check_pages(counts, program_of(words))
    missing = [tool for tool in NEEDED if not shutil.which(tool)]
    if missing:
        sys.exit(f"tests/machine/installed.py: missing: {', '.join(missing)}")
    with tempfile.TemporaryDirectory() as room:
        check_unproved(counts, room)
        clone = cloned(counts, room, words.program)
        prefix = installed(counts, clone, room, words.library)
        program = os.path.join(prefix, "bin/elfsee")
        check_man_page(counts, prefix)
        check_library(counts, clone, prefix, room)
        check_module(counts, prefix)
        tests = os.path.join(clone, "tests")
        counts.runs("completions in each shell", [f"{tests}/machine/completions.py", f"{prefix}/share"])
        counts.runs("what is said is what there is", [f"{tests}/gate/one_truth.py", "--program", program])
        counts.runs("the page of the command line", [f"{tests}/gate/command_lines", "--program", program])
        check_commands(counts, clone, prefix, room)
        counts.runs("the page of the format", [f"{tests}/machine/format.py", "--program", program, "/usr/bin"])
        if not words.without_package:
            counts.runs("the packages, built, installed, tried and removed", [f"{tests}/machine/package"])
        counts.runs("make uninstall", ["make", "uninstall", f"PREFIX={prefix}"], cwd=clone)
        counts.case("nothing is left", not files_below(prefix), files_below(prefix))
    print(f"{counts.passed} passed, {counts.failed} failed")
    return 0 if counts.passed and not counts.failed else 1


if __name__ == "__main__":
    sys.exit(main())
