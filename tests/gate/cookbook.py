#!/usr/bin/env python3
"""Runs each command of docs/COOKBOOK.md and docs/RESOLVE.md over files that it makes, and compares what is printed with the
page: the words of the linker and the loader, and what elfsee prints. Runs those of README.md too, with the program as ./elfsee.

    tests/gate/cookbook.py [--program PROGRAM]

./build makes the program if none is given. If gcc is not installed, it says so, and tries nothing. On a machine
whose packages are of other versions than the page's only the shape of the lines is compared: numbers and
blanks count as one. Each case is one line; the last line is `N passed, N failed`.
"""

import os
import re
import shutil
import subprocess
import sys
import tempfile

sys.dont_write_bytecode = True
sys.path.insert(0, os.path.join(os.path.dirname(os.path.realpath(__file__)), "..", "common"))
from page_commands import other_versions, shape
from testing import TOP, option_reader, program_of

# Each page, and in which directory its commands run.
PAGES = {"README.md": ".", "docs/COOKBOOK.md": ".", "docs/RESOLVE.md": "links"}
# Each section of this one has a command.
WHOLE_PAGE = "docs/COOKBOOK.md"
VERSIONS = {"gcc-12": "12.2.0-14+deb12u1", "binutils": "2.40-2", "libc6-dev": "2.36-9+deb12u14", "coreutils": "9.1-1",
            "libpcre2-8-0": "10.42-1"}

SOURCES = {
    "app.c": "int area(int); int main(void) { return area(2); }\n",
    "main.cpp": "int area(int); int main(void) { return area(2); }\n",
    "square.c": "int area(int side) { return side * side; }\n",
    "pic.c": "int area(int side) { return side * side; }\n",
    "hidden.c": '__attribute__((visibility("hidden"))) int area(int side) { return side * side; }\n',
    "wants.c": '__asm__(".symver area, area@V2"); int area(int); int main(void) { return area(2); }\n',
    "circle.c": "int area(int radius) { return 3 * radius * radius; }\n",
    "counter.c": "int counter; int next(void) { return ++counter; }\n",
    "other.c": "int other(void) { return 0; }\n",
    "direct.c": "int table[9]; int main(void) { return (int)(long)table; }\n",
    "near.s": '.globl main\nmain: movl far, %eax\n ret\n.section .note.GNU-stack,"",@progbits\n',
    "go.s": ".globl go\ngo: ret\n",
    "inner.c": "int inner(void) { return 1; }\n",
    "outer.c": "int inner(void); int outer(void) { return inner(); }\n",
    "both.c": "int outer(void); int inner(void); int main(void) { return outer() + inner(); }\n",
    "thread.c": "__thread int state;\n",
    "plain.c": "extern int state; int main(void) { return state; }\n",
    "text.o": "no object\n",
    "V1": "V1 { area; };\n",
    "V2": "V2 { area; };\n",
}
MAKE = """set -e
mkdir parts older
gcc -c counter.c app.c main.cpp square.c wants.c both.c thread.c plain.c near.s go.s
gcc -fPIC -c pic.c hidden.c
gcc -fno-pie -c direct.c
gcc -flto -c -o lto.o square.c
ar rcD parts/libsquare.a square.o
gcc -shared -o libhidden.so hidden.o
gcc -s -shared -Wl,--version-script=V1 -Wl,-soname=libshape.so -o libshape.so pic.o
gcc -s -shared -Wl,--version-script=V2 -Wl,-soname=libshape.so -o newer.so pic.o
gcc -fPIC -s -shared -o libinner.so inner.c
gcc -fPIC -s -shared -o libouter.so outer.c libinner.so
gcc -fPIC -s -shared -o older/libinner.so other.c
gcc -o both both.o libouter.so libinner.so
head -c 100 app.o >cut.o
gcc -o draw app.o newer.so
mkdir links
gcc -c -o links/main.o main.cpp
cp app.o square.o links
gcc -c -o links/circle.o circle.c
cd links
ar rcD libsquare.a square.o
ar rcD libcircle.a circle.o
gcc -shared -o libsquare.so square.o
gcc -shared -o libcircle.so circle.o
"""


def examples(text):
    """The commands of each section of a page, in order, with the lines that they print."""
    for section in text.split("\n## "):
        heading, _, rest = section.partition("\n")
        found = []
        for block in re.findall(r"^```text\n(.*?)^```", rest, re.S | re.M):
            for line in block.rstrip("\n").split("\n"):
                if line.startswith("$ "):
                    found.append((line[2:], []))
                else:
                    found[-1][1].append(line)
        yield heading, found


def functions(text):
    """The functions of the shell that a page begins with, one a line."""
    return "".join(line + "\n" for block in re.findall(r"^```sh\n(.*?)^```", text, re.S | re.M)
                   for line in block.splitlines() if re.match(r"\w+\(\) \{ .*\}\Z", line))


def make_files(room):
    for name, text in SOURCES.items():
        with open(os.path.join(room, name), "w", encoding="ascii") as file:
            file.write(text)
    subprocess.run(["bash", "-c", MAKE], cwd=room, check=True, stdout=subprocess.DEVNULL, stderr=subprocess.DEVNULL)


def run(command, room, environment):
    done = subprocess.run(["bash", "-c", command], stdin=subprocess.DEVNULL, stdout=subprocess.PIPE,
                          stderr=subprocess.STDOUT, cwd=room, env=environment, timeout=60, check=False)
    return done.stdout.decode("utf-8", "replace").rstrip("\n").split("\n") if done.stdout else []


def main():
    given = option_reader(__doc__).parse_args()
    if not shutil.which("gcc"):
        print("tests/gate/cookbook.py: gcc is not installed, so nothing was tried")
        print("0 passed, 0 failed")
        return 0
    program = program_of(given)
    passed = failed = 0
    exact = not any(other_versions(VERSIONS))
    if not exact:
        print("gcc, binutils, the C library or coreutils are of other versions than the page's:"
              " the shape of the lines is compared")
    with tempfile.TemporaryDirectory() as room:
        make_files(room)
        os.symlink(os.path.realpath(program), os.path.join(room, "elfsee"))
        environment = {"PATH": f"{room}:{os.environ['PATH']}", "LC_ALL": "C"}
        for page, folder in PAGES.items():
            with open(os.path.join(TOP, page), encoding="utf-8") as file:
                text = file.read()
            sections = list(examples(text))
            for heading, found in sections[1:]:
                if page == WHOLE_PAGE and not any(command.startswith("elfsee ") for command, _ in found):
                    print(f"FAILED {heading}: no command of elfsee")
                    failed += 1
            for heading, command, wanted in [(heading, *one) for heading, found in sections for one in found]:
                got = run(functions(text) + command, os.path.join(room, folder), environment)
                if got == wanted or not exact and shape(got) == shape(wanted):
                    print(f"ok      {heading}: {command}")
                    passed += 1
                else:
                    print(f"FAILED {heading}: {command}\n  wanted {wanted}\n  got    {got}")
                    failed += 1
    print(f"{passed} passed, {failed} failed")
    return 0 if passed and not failed else 1


if __name__ == "__main__":
    sys.exit(main())
