"""Random roots for tests/again/needs_again.py: libraries and programs with random needs, RPATH and RUNPATH, in random directories of small
roots with links, files that are no libraries, and loader's caches."""

import os
import shutil

import loader_caches

DIRECTORIES = ["/lib", "/usr/lib", "/opt/x", "/opt/x/y", "/lib/x86_64-linux-gnu", "/usr/lib/x86_64-linux-gnu", "/lib64", "/usr/lib64",
               "/bin", "/etc", "/srv/deep/er"]
ODD = ["/opt/link", "/none", "/opt/x/../x", "/../opt/x", "/bin/..//lib/.", "$ORIGIN/../lib", "$ORIGIN", "${ORIGIN}/y", "/$LIB", "/usr/$LIB",
       "$NONE", "/opt/$NO", "$ORIGIN/../opt/link", "relative"]
LINKS = ["/lib", "x", "../usr/lib", "/none", "link", "../../../usr/lib", "/opt/x/y/.."]


class Pool:
    """Libraries that define versions, three of one name, and such as need them; programs with an interpreter."""

    def __init__(self, cases, chance):
        self.cases, self.chance = cases, chance
        self.libraries = [self.plain(name, name, f"V1 {{ global: f{name}; }};\n") for name in "abcd"]
        self.libraries += [self.plain("b", "b2", "V2 { global: fb; };\n"), self.plain("b", "b3", None)]
        for name in "ef":
            self.libraries.append(self.user(f"{name}/lib{name}.so", self.chance.sample(self.libraries[:4], 2), soname=f"lib{name}.so"))
        self.programs = [self.program(f"program{number}") for number in range(8)]

    def plain(self, name, folder, maps):
        return self.cases.library(f"{folder}/lib{name}.so", text=f"int f{name}(void) {{ return 0; }}\n", soname=f"lib{name}.so", maps=maps)

    def user(self, name, needs, **more):
        return self.cases.library(name, *needs, *self.words(), text="extern int fb(void); int user(void) { return fb(); }\n", **more)

    def program(self, name):
        needs = self.chance.sample(self.libraries, 4)
        text = "extern int fa(void) __attribute__((weak)), fb(void) __attribute__((weak)); void _start(void) { if (fa) fa(); if (fb) fb(); }\n"
        return self.cases.executable(name, *needs, *self.words(), "-Wl,--unresolved-symbols=ignore-all", interpreter=self.chance.choice(["/lib/ld.so", "/lib/liba.so", "/ld.so"]), text=text)

    def words(self):
        text = ":".join(self.chance.choice(DIRECTORIES + ODD) for _ in range(self.chance.choice([0, 1, 1, 2])))
        words = [self.chance.choice(["-Wl,--enable-new-dtags", "-Wl,--disable-new-dtags"]), "-Wl,-rpath," + text] if text else []
        return words + self.chance.choice([[], [], ["-Wl,-z,nodefaultlib"]])


def put(chance, source, target, root):
    """A copy of a library in a root, a link to one, or a file that is none."""
    kind, name = chance.random(), os.path.basename(source)
    if kind < 0.5:
        shutil.copy(source, target)
    elif kind < 0.75:
        os.makedirs(root + "/store", exist_ok=True)
        shutil.copy(source, f"{root}/store/{name}")
        os.symlink(chance.choice([f"/store/{name}", "../" * chance.randrange(5) + f"store/{name}", f"/opt/../store/{name}",
                                  f"{root}/store/{name}", name]), target)
    elif kind < 0.8:
        os.mkdir(target)
    elif kind < 0.85:
        with open(target, "wb") as file:
            file.write(b"text" * chance.choice([0, 1, 15, 16, 17]))
    else:
        with open(source, "rb") as file:
            data = bytearray(file.read())
        data[chance.choice([0, 4, 5, 6, 7, 8, 9, 16, 18, 20, 54])] = chance.choice([0, 1, 2, 3, 4, 9])
        with open(target, "wb") as file:
            file.write(data)


def cache_of(chance, directories):
    names = [f"lib{name}.so" for name in "abcdefz"]
    rows = []
    for name in (chance.choice(names) for _ in range(chance.randrange(1, 9))):
        row = name.encode(), f"{chance.choice(directories)}/{name}".encode()
        rows.append(row + ((chance.choice([0x303, 0x803, 3]), 0) if chance.random() < 0.2 else ()))
    content = bytearray(loader_caches.made(rows, chance.choice(["new", "old", "both"])))
    if chance.random() < 0.3:
        content[chance.randrange(len(content))] = chance.choice([0, 1, 2, 255, chance.randrange(256)])
    return bytes(content)


def make(pool, chance, root):
    """Makes a root, and gives the words of a command line for a program in it."""
    there = [directory for directory in DIRECTORIES if directory in ("/bin", "/etc") or chance.random() < 0.8]
    for directory in there:
        os.makedirs(root + directory, exist_ok=True)
    there = [directory for directory in DIRECTORIES if os.path.isdir(root + directory)]
    for _ in range(16):
        source = chance.choice(pool.libraries)
        target = f"{root}{chance.choice(there)}/{os.path.basename(source)}"
        if not os.path.lexists(target):
            put(chance, source, target, root)
    if chance.random() < 0.6:
        os.makedirs(root + "/opt", exist_ok=True)
        os.symlink(chance.choice(LINKS), root + "/opt/link")
    if chance.random() < 0.8:
        with open(root + "/etc/ld.so.cache", "wb") as file:
            file.write(cache_of(chance, there + ["/opt/link", "/none"]))
    if chance.random() < 0.7:
        target = root + chance.choice(["/ld.so", "/lib/ld.so"])
        os.makedirs(os.path.dirname(target), exist_ok=True)
        shutil.copy(pool.libraries[3], target)
        os.chmod(target, chance.choice([0o755, 0o755, 0o755, 0o644]))
    path = f"{chance.choice(there)}/program"
    shutil.copy(chance.choice(pool.programs), root + path)
    if chance.random() < 0.3:
        os.symlink(chance.choice([path, ".." + path, "/bin/.." + path]), root + "/bin/linked")
        path = "/bin/linked"
    library = chance.choice(["", "", "/opt/x", "/opt/link:/lib", "$ORIGIN;/srv/deep/er", chance.choice(DIRECTORIES + ODD)])
    words = [("root", root)] + ([("library-path", library)] if library else [])
    if chance.random() < 0.1:
        words.append(("max-tries", chance.randrange(20)))
    return words, root + path
