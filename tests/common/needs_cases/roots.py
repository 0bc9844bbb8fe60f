"""Made cases of tests/gate/needs.py: another root, in which paths lead where they lead for a process whose root it is."""

import os
import shutil

from needs_cases.common import found, missing, refused


class Small:
    """A root with programs and libraries, and beside it the same library outside, which no path within leads to."""

    def __init__(self, cases):
        self.cases, self.root = cases, cases.path("root")
        for place in ("usr/bin", "usr/lib/x86_64-linux-gnu", "opt/app/bin", "opt/app/lib", "etc"):
            os.makedirs(f"{self.root}/{place}")
        os.symlink("usr/lib", f"{self.root}/lib")
        self.lib = cases.library("outside/libr.so", soname="libr.so")
        self.ld = cases.library("outside/ld.so", soname="ld.so")
        os.chmod(self.ld, 0o755)

    def put(self, path, source=None):
        target = self.root + path
        os.makedirs(os.path.dirname(target), exist_ok=True)
        shutil.copy(source or self.lib, target)
        return target

    def link(self, path, target):
        os.makedirs(os.path.dirname(self.root + path), exist_ok=True)
        if os.path.islink(self.root + path):
            os.remove(self.root + path)
        os.symlink(target, self.root + path)

    def check(self, what, file, lines, *words, status=0, **more):
        self.cases.check(what, ["--root", self.root, "--no-cache", *words, file], lines, status, **more)


def run(cases):
    small = Small(cases)
    defaults(cases, small)
    links(cases, small)
    origins(cases, small)
    interpreters(cases, small)
    directories(cases, small)


def defaults(cases, small):
    """Default directories of the root, not of this system; `lib64` only without a directory of the other name."""
    top = cases.library("top.so", small.lib)
    small.check("no library", top, [found(0, None, top), missing(1, 0, "libr.so")], status=1)
    for path in ("/usr/lib/libr.so", "/usr/lib/x86_64-linux-gnu/libr.so"):
        target = small.put(path)
        shown = f"{small.root}{path.replace('/usr/lib', '/lib')}"
        small.check(f"the default {path}", top, [found(0, None, top), found(1, 0, shown)])
        os.remove(target)
    target = small.put("/usr/lib64/libr.so")
    small.put("/lib64/libr.so")
    lost = [found(0, None, top), missing(1, 0, "libr.so")]
    small.check("lib64 beside a directory of the other name", top, lost, status=1)
    small.check("lib64 of --default", top, [found(0, None, top), found(1, 0, small.root + "/lib64/libr.so")], "--default", "/lib64")
    # Each of both is searched if its own other directory is none: a link within the root that leads to one is a directory.
    os.remove(small.root + "/lib")
    for target, is_found in (("/usr/lib", False), ("/none", True), ("usr/bin", True), ("../usr/lib", False)):
        small.link("/lib", target)
        lines = [found(0, None, top), found(1, 0, small.root + "/lib64/libr.so")] if is_found else lost
        small.check(f"lib64 beside a link to {target}", top, lines, status=int(not is_found))
    os.remove(small.root + "/lib64/libr.so")
    os.rename(small.root + "/usr/lib/x86_64-linux-gnu", small.root + "/usr/lib/other")
    small.check("usr/lib64", top, [found(0, None, top), found(1, 0, small.root + "/usr/lib64/libr.so")])
    with open(small.root + "/usr/lib/x86_64-linux-gnu", "wb"):
        pass
    small.check("usr/lib64 beside a file", top, [found(0, None, top), found(1, 0, small.root + "/usr/lib64/libr.so")])
    os.remove(small.root + "/usr/lib/x86_64-linux-gnu")
    os.rename(small.root + "/usr/lib/other", small.root + "/usr/lib/x86_64-linux-gnu")
    small.check("usr/lib64 beside a directory of the other name", top, lost, status=1)
    shutil.rmtree(small.root + "/lib64")
    shutil.rmtree(small.root + "/usr/lib64")
    small.link("/lib", "usr/lib")


def links(cases, small):
    """Links and `..` do not leave the root."""
    top = cases.library("top.so", small.lib)
    there = small.put("/opt/app/lib/libreal.so")
    own = small.root + "/lib/libr.so"
    lost = [found(0, None, top), missing(1, 0, "libr.so")]
    outside = cases.path("outside")
    for target, is_found in (("/opt/app/lib/libreal.so", True), ("../../opt/app/lib/libreal.so", True), ("../../../../../opt/app/lib/libreal.so", True),
                             ("/../../opt/./app//lib/libreal.so", True), (there, False), (small.lib, False), ("../../../outside/libr.so", False),
                             ("libr.so", False), ("/lib/../usr/lib/libr.so", False), ("/opt/app/lib/libreal.so/", False),
                             ("/opt/app/lib/libreal.so/../libreal.so", False), ("/opt/app/lib/libreal.so/.", False), ("/opt/none/../app/lib/libreal.so", False)):
        small.link("/usr/lib/libr.so", target)
        small.check(f"a link to {target}", top, [found(0, None, top), found(1, 0, own)] if is_found else lost, status=int(not is_found))
    # Of a chain of links forty are followed, and no more: the directory /lib is one too, and /usr/lib is searched after it.
    small.link("/usr/lib/libr.so", "/links/1")
    for count, path in ((38, own), (39, small.root + "/usr/lib/libr.so"), (40, None)):
        for number in range(1, count + 1):
            small.link(f"/links/{number}", f"/links/{number + 1}" if number < count else "/opt/app/lib/libreal.so")
        small.check(f"{count + 2} links", top, [found(0, None, top), found(1, 0, path)] if path else lost, status=int(path is None))
    # Directories: `..` after a link is that of where it leads, and above the root is the root.
    small.link("/link", "/opt/app/bin")
    small.put("/opt/app/lib/libr.so")
    for text in ("/link/../lib", "/../../opt/app/lib", "/opt/app/bin/../../../../opt/app/lib", "/link/../bin/./../lib/"):
        runs = cases.library("runs.so", small.lib, f"-Wl,-rpath,{text}")
        small.check(f"RUNPATH {text}", runs, [found(0, None, runs), found(1, 0, f"{small.root}{text}/libr.so")], "--default", "")
        small.check(f"--library-path {text}", top, [found(0, None, top), found(1, 0, f"{small.root}{text}/libr.so")], "--library-path", text)
    small.check("a directory outside", top, lost, "--library-path", outside, "--default", "", status=1)
    small.check("a relative directory", top, [found(0, None, top), found(1, 0, "outside/libr.so")], "--library-path", "outside", "--default", "", cwd=cases.folder)
    # One file by two paths is one object; a directory and a text end the search there too.
    os.remove(small.root + "/usr/lib/libr.so")
    os.mkdir(small.root + "/usr/lib/libr.so")
    small.check("a directory", top, [found(0, None, top), refused(1, 0, 0, "short", own)], status=1)
    os.rmdir(small.root + "/usr/lib/libr.so")
    other = cases.library("outside/libq.so", soname="libq.so")
    two = cases.library("two.so", small.lib, other)
    small.put("/usr/lib/libr.so")
    small.link("/usr/lib/libq.so", "/usr/lib/libr.so")
    small.check("one file by two paths", two, [found(0, None, two), found(1, 0, own)])
    os.remove(small.root + "/usr/lib/libq.so")
    os.remove(small.root + "/usr/lib/libr.so")


def origins(cases, small):
    """`$ORIGIN` of a program below the root is its directory there, with links followed; of a library that of its path."""
    program = cases.library("program", small.lib, "-Wl,-rpath,$ORIGIN/../lib")
    small.put("/opt/app/bin/program", program)
    lib = f"{small.root}/opt/app/bin/../lib/libr.so"
    for path, target in (("/opt/app/bin/program", None), ("/usr/bin/program", "/opt/app/bin/program"), ("/usr/bin/again", "../bin/program"),
                         ("/usr/bin/../bin/program", None), ("//usr/bin/program", None), ("/../opt/app/bin/program", None)):
        if target:
            small.link(path, target)
        small.check(f"$ORIGIN of {path}", small.root + path, [found(0, None, small.root + path), found(1, 0, lib)], "--default", "")
    # The directory of a link is none of this system; one that leads outside leads to the root's own.
    small.link("/usr/bin/outer", "../../../../opt/app/bin/program")
    small.check("a link above the root", small.root + "/usr/bin/outer", [found(0, None, small.root + "/usr/bin/outer"), found(1, 0, lib)], "--default", "")
    small.link("/usr/bin/lost", small.root + "/opt/app/bin/program")
    small.check("a link to a path of this system", small.root + "/usr/bin/lost", [], status=3, errors="elfsee: cannot open\n")
    # One that is not below the root is as it is, and so is its directory, which is then looked for below the root.
    outer = cases.library("outer/bin/program", small.lib, "-Wl,-rpath,$ORIGIN/../lib")
    small.check("a program outside", outer, [found(0, None, outer), missing(1, 0, "libr.so")], "--default", "", status=1)
    origin = os.path.dirname(os.path.realpath(outer))
    there = small.put(f"{os.path.dirname(origin)}/lib/libr.so")
    os.makedirs(small.root + origin)
    small.check("its directory below the root", outer, [found(0, None, outer), found(1, 0, f"{small.root}{origin}/../lib/libr.so")], "--default", "")
    os.remove(there)
    # A library by a link: its directory is that of the path.
    mid = cases.library("outside/libmid.so", small.lib, "-Wl,-rpath,$ORIGIN/mid", soname="libmid.so")
    user = cases.library("user.so", mid)
    small.put("/opt/app/lib/libmid.so", mid)
    small.put("/usr/lib/mid/libr.so")
    small.link("/usr/lib/libmid.so", "/opt/app/lib/libmid.so")
    small.check("$ORIGIN of a library", user,
                [found(0, None, user), found(1, 0, small.root + "/lib/libmid.so"), found(2, 1, small.root + "/lib/mid/libr.so")])
    # A name with a slash, a token in it, and one that is relative.
    for name, path in (("/opt/app/lib/libr.so", small.root + "/opt/app/lib/libr.so"), ("$ORIGIN/../lib/libr.so", lib),
                       ("outside/libr.so", "outside/libr.so")):
        named = cases.library("outside/named.so", soname=name)
        small.put("/opt/app/bin/named", cases.library("named", named))
        file = small.root + "/opt/app/bin/named"
        small.check(f"the name {name}", file, [found(0, None, file), found(1, 0, path)], cwd=cases.folder)


def interpreters(cases, small):
    """The interpreter is looked for below the root."""
    program = cases.executable("outside/start", interpreter="/lib/ld.so")
    target = small.put("/usr/bin/start", program)
    line, shown = found(0, None, target), f"{small.root}/lib/ld.so"
    small.check("no interpreter", target, [line, f"I missing  {shown}"], status=1)
    small.put("/usr/lib/x86_64-linux-gnu/ld.so", small.ld)
    small.link("/usr/lib/ld.so", "/lib/x86_64-linux-gnu/ld.so")
    small.check("an interpreter by an absolute link", target, [line, f"I found    {shown}"])
    small.link("/usr/lib/ld.so", small.ld)
    small.check("a link to one outside", target, [line, f"I missing  {shown}"], status=1)
    small.link("/usr/lib/ld.so", "x86_64-linux-gnu/ld.so")
    outer = cases.executable("outside/needs", small.ld, interpreter="/lib/ld.so")
    small.check("a program outside", outer, [found(0, None, outer), found(1, 0, shown), f"I found    {shown}"], "--max-tries", "0")


def directories(cases, small):
    """Other ways to write the root; a FILE that only begins like one below it."""
    top = small.put("/usr/bin/top.so", cases.library("top.so", small.lib))
    small.put("/usr/lib/libr.so")
    name = os.path.basename(small.root)
    cases.check("a relative root", ["--root", name, "--no-cache", f"{name}/usr/bin/top.so"],
                [found(0, None, f"{name}/usr/bin/top.so"), found(1, 0, f"{name}/lib/libr.so")], cwd=cases.folder)
    os.symlink(small.root, cases.path("linked"))
    linked = cases.path("linked")
    cases.check("a link to a root", ["--root", linked, "--no-cache", f"{linked}/usr/bin/top.so"],
                [found(0, None, f"{linked}/usr/bin/top.so"), found(1, 0, f"{linked}/lib/libr.so")])
    cases.check("a program of the root by another path", ["--root", linked, "--no-cache", top], [found(0, None, top), found(1, 0, f"{linked}/lib/libr.so")])
    beside = cases.library("root2/top.so", small.lib)
    small.check("a directory that begins like the root", beside, [found(0, None, beside), found(1, 0, small.root + "/lib/libr.so")])
    cases.check("a root that does not exist", ["--root", cases.path("none"), "--no-cache", top], [found(0, None, top), missing(1, 0, "libr.so")], 1)
