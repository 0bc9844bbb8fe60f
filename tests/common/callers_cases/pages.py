"""Cases of tests/gate/callers.py: the programs of the pages, and an example in Python."""

import os
import re
import shutil
import subprocess
import sys

from callers_cases.counted import LIBRARY, run
from callers_cases.files import dynamic_entries, odd_libraries, shared_entries
from testing import TOP


def check_harden(counts, folder):
    """The lines of harden.py for programs that are linked for it."""
    here = os.path.join(folder, "harden")
    os.mkdir(here)
    source = os.path.join(here, "main.c")
    with open(source, "w", encoding="ascii") as file:
        file.write("int main(void) { return 0; }\n")
    nothing = "-Wl,-z,norelro -Wl,-z,lazy -z execstack -Wl,-rpath,/opt/none"
    for name, words in (("full", "-Wl,-z,relro,-z,now"), ("nothing", nothing)):
        subprocess.run(["gcc", source, "-o", os.path.join(here, name), *words.split()], check=True)
    with open(os.path.join(here, "full"), "rb") as whole, open(os.path.join(here, "short"), "wb") as file:
        content = whole.read()
        file.write(content[:3000])
    for name, lost in ((b"lost", b"lost.so.6\0"), (b"lost\x1b[2J\xff", b"\x1b[2J\\\xff.so\0")):
        with open(os.path.join(os.fsencode(here), name), "wb") as file:
            file.write(content.replace(b"libc.so.6\0", lost))
    # Files that are made against it: more entries than a program has, and more places than are worth a look.
    for name, entries in (("many_entries", [(21, 0)] * 2000), ("many_places", [(29, 1)] + [(1, 1)] * 200)):
        with open(os.path.join(here, name), "wb") as file:
            file.write(dynamic_entries(entries, b"\0" + b":" * 2000 + b"\0"))
    # Tables that share their entries: all of them would take a minute, and hundreds of megabytes.
    for name, count in (("shared", 3998), ("few_shared", 40)):
        with open(os.path.join(here, name), "wb") as file:
            file.write(shared_entries(count, 60000))
    longest = ["-shared", "-nostdlib", "-Wl,-z,relro,-z,now,-soname," + "n" * 4097]
    subprocess.run(["gcc", source, "-o", os.path.join(here, "longest"), *longest], check=True)
    status, out = run(sys.executable, "-B", os.path.join(TOP, "examples", "harden.py"), here)
    wanted = {
        "few_shared": "refused: it has more than 1000 dynamic entries",
        "full": "relro full, bind now, stack plain, paths none, text fixed, missing none",
        "longest": "refused: a name has more than 4096 bytes",
        "lost": "relro full, bind now, stack plain, paths none, text fixed, missing lost.so.6",
        "lost\\x1b[2J\\xff": "relro full, bind now, stack plain, paths none, text fixed, missing \\x1b[2J\\\\\\xff.so",
        "many_entries": "refused: it has more than 1000 dynamic entries",
        "many_places": "refused: its libraries may be in more than 100000 places",
        "nothing": "relro none, bind lazy, stack executable, paths /opt/none, text fixed, missing none",
        "shared": "refused: it has more than 1000 dynamic entries",
        "short": "refused: table-outside at 0x28",
    }
    counts.same("harden.py", (1, ["%s/%s: %s" % (here, *each) for each in wanted.items()]),
                (status, out.decode().split("\n")[:-1]))


def blocks_of_page(page):
    """The programs of a page, by their languages, in their order."""
    with open(os.path.join(TOP, page), encoding="utf-8") as file:
        blocks = re.findall(r"^```(python|c|rust)\n(.*?)^```$", file.read(), re.M | re.S)
    return {language: [text for name, text in blocks if name == language] for language, _ in blocks}


def check_page(counts, program, library, folder, has_rust):
    """The first programs of docs/LIBRARY.md, of which that in C is examples/first.c, print the libraries that a listing has,
    escaped as there; for a file that is not ELF or not there they print a message, and continue with the next."""
    blocks, commands = blocks_of_page("docs/LIBRARY.md"), {}
    with open(os.path.join(TOP, "examples", "first.c"), encoding="utf-8") as file:
        blocks["c"] = [file.read()]
    for language, ending in (("python", "py"), ("c", "c"), ("rust", "rs")):
        with open(os.path.join(folder, "first." + ending), "w", encoding="utf-8") as file:
            file.write(blocks[language][0])
    environment = dict(os.environ, PYTHONPATH=os.path.join(LIBRARY, "python"))
    for text in blocks["python"][1:]:
        done = subprocess.run([sys.executable, "-B", "-c", text], env=environment, stdout=subprocess.DEVNULL,
                              stderr=subprocess.PIPE, check=False)
        counts.same("the page's other program in Python", b"", done.stderr)
    commands["python"] = [sys.executable, "-B", os.path.join(folder, "first.py")]
    if shutil.which("gcc"):
        commands["c"] = [os.path.join(folder, "first_c")]
        subprocess.run(["gcc", "-Wall", "-Wextra", "-Werror", "-I" + LIBRARY, os.path.join(folder, "first.c"),
                        os.path.join(library, "libelfsee.a"), "-o", *commands["c"]], check=True)
    if has_rust:
        commands["rust"] = [os.path.join(folder, "first")]
        subprocess.run(["rustc", "--edition", "2021", "-O", "--extern", "elfsee=" + folder + "/libelfsee.rlib",
                        os.path.join(folder, "first.rs"), "-o", *commands["rust"]], check=True)
        for text in blocks["rust"][1:]:
            other = os.path.join(folder, "other")
            with open(other + ".rs", "w", encoding="utf-8") as file:
                file.write(text)
            subprocess.run(["rustc", "--edition", "2021", "-O", "--extern", "elfsee=" + folder + "/libelfsee.rlib",
                            other + ".rs", "-o", other], check=True)
            counts.same("the page's other program in Rust", (0, True), (run(other)[0], bool(run(other)[1])))
    for path in ("/bin/ls", *odd_libraries(folder)):
        listed = run(program, "show", "--only", "dynamic", path)[1].decode().split("\n")
        wanted = "".join(line[42:] + "\n" for line in listed if line[8:].startswith("NEEDED "))
        for language, command in commands.items():
            done = subprocess.run([*command, path], env=environment, capture_output=True, check=False)
            counts.same("the page's program in %s, %s" % (language, path), (0, wanted),
                        (done.returncode, done.stdout.decode()))
    needed = subprocess.run([*commands["python"], "/bin/ls"], env=environment, capture_output=True, check=False).stdout
    odd = os.path.join(os.fsencode(folder), b"odd\x1b[2J\xff")
    shutil.copy("/etc/passwd", odd)
    for language, command in commands.items():
        done = subprocess.run([*command, odd, "/bin/ls", os.path.join(folder, "gone"), "/bin/ls"], env=environment,
                              capture_output=True, check=False)
        told = re.fullmatch(rb"first: %s: not-elf at 0x0\nfirst: %s/gone: [^\n]*\n" % (
            re.escape(os.fsencode(folder) + rb"/odd\x1b[2J\xff"), re.escape(os.fsencode(folder))), done.stderr)
        counts.check("the page's program in %s, of files that are no ELF file or not there" % language,
                     done.returncode == 1 and done.stdout == 2 * needed and told, done)


def check_images_of_page(counts, library, folder, has_rust):
    """The programs of docs/LIBRARY.md that write images, of which that in C is examples/image.c, print the same."""
    blocks, answers = blocks_of_page("docs/LIBRARY.md"), {}
    environment = dict(os.environ, PYTHONPATH=os.path.join(LIBRARY, "python"))
    texts = {language: next(text for text in blocks[language] if "lacking(" in text) for language in ("python", "rust")}
    libc = re.search(r'"(/lib/\S*libc[^"]*)"', texts["python"])[1]
    if not os.path.exists(libc):
        print("not run: the programs that write images, as %s is missing" % libc)
        return
    done = subprocess.run([sys.executable, "-B", "-c", texts["python"]], env=environment, capture_output=True, check=False)
    answers["python"] = done.stdout.decode().split("\n")[:-1]
    path = os.path.join(folder, "image_of_page")
    if shutil.which("gcc"):
        subprocess.run(["gcc", "-Wall", "-Wextra", "-Werror", "-I" + LIBRARY, os.path.join(TOP, "examples", "image.c"),
                        os.path.join(library, "libelfsee.a"), "-o", path], check=True)
        lines = run(path, "/bin/ls", libc)[1].decode().split("\n")[:-1]
        answers["c"] = [line for line in lines if not line.startswith("missing: ")]
        counts.check("the program that writes images names what is missing", len(lines) > len(answers["c"]), lines)
    if has_rust:
        with open(path + ".rs", "w", encoding="utf-8") as file:
            file.write(texts["rust"])
        subprocess.run(["rustc", "--edition", "2021", "-O", "--extern", "elfsee=" + folder + "/libelfsee.rlib", path + ".rs",
                        "-o", path], check=True)
        answers["rust"] = run(path)[1].decode().split("\n")[:-1]
    for language, lines in answers.items():
        counts.same("the images of the page in %s" % language, (answers["python"], True),
                    (lines, any(not line.endswith(" 0") for line in lines)))


def check_tables_of_page(counts):
    """The tables of docs/LIBRARY.md have each command and option of the program, as its completions do, and each call and
    flag of the header; they name no other."""
    with open(os.path.join(TOP, "docs", "LIBRARY.md"), encoding="utf-8") as file:
        page = file.read()
    with open(os.path.join(LIBRARY, "elfsee.h"), encoding="utf-8") as file:
        header = re.sub(r"/\*.*?\*/", "", file.read(), flags=re.S)
    with open(os.path.join(TOP, "completions", "elfsee.bash"), encoding="utf-8") as file:
        options = re.findall(r"^    ((?:\w+ \| )*\w+)\) set -- (--.*) ;;$", file.read(), re.M)
    asked, done = (re.search(r"^## %s\n\n(.*?)^## " % head, page, re.M | re.S)[1]
                   for head in ("What can be asked", "What the program does, and the library"))
    # Without the other names that two of them have.
    commands = {word for words, _ in options for word in words.split(" | ")} - {"deps", "hardening"} | {"explain", "version"}
    wanted = {option for _, words in options for option in words.split()}
    firsts = "\n".join(re.findall(r"^\| (.*?) \|", done, re.M))
    counts.same("options of the program in the page's table", sorted(wanted), sorted(set(re.findall(r"--\w[\w-]*", done))))
    named = {words.split(" ")[0] for words in re.findall(r"`(\w+)[ `]", firsts)}
    counts.same("commands of the program in the page's table", sorted(commands), sorted(named & commands))
    counts.same("words in the page's table that are no command", [], sorted(named - commands))
    # Calls of one kind may share a row: `elfsee_symbols`; so for `relocations`.
    kin = "".join("`elfsee_%s``elfsee_next_%s`" % (word, word) for word in re.findall(r"so for ([^|]*)", asked)[0].replace(
        "`", "").split(", ")) + "".join("`elfsee_next_%s_within`" % word for word in ("relocations", "dynamic", "version_words"))
    calls = set(re.findall(r"^(?:uint32_t|uint64_t|size_t) (elfsee_\w+)\(", header, re.M))
    told = set(re.findall(r"\belfsee_\w+", asked + kin + done + "`elfsee_cause_word`"))
    structs = {"elfsee_" + name for name in re.findall(r"^struct elfsee_(\w+) \{", header, re.M)}
    counts.same("calls of the header in the page's tables", sorted(calls), sorted(told & calls))
    counts.same("names of no call in the page's tables", [], sorted(told - calls - structs))
    flags = set(re.findall(r"\bELFSEE_[A-Z_]+", done))
    counts.same("flags in the page's table that the header has not", [], sorted(flags - set(re.findall(r"\bELFSEE_[A-Z_]+", header))))


def check_readme(counts):
    """The lines of README run in Python."""
    environment = dict(os.environ, PYTHONPATH=os.path.join(LIBRARY, "python"))
    done = subprocess.run([sys.executable, "-B", "-c", blocks_of_page("README.md")["python"][0]], env=environment,
                          capture_output=True, check=False)
    counts.same("README's lines in Python", (0, b""), (done.returncode, done.stderr))
