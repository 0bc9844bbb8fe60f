"""The files of the machine, for tests that go over them."""

import os
import stat


def elf_files(places):
    """The files in some places that begin as ELF files do, each once. Of / the directories of the kernel are left out."""
    seen = set()
    for place in places:
        if os.path.isfile(place):
            yield place
        for folder, below, names in os.walk(place):
            if folder == "/":
                below[:] = [name for name in below if name not in ("proc", "sys", "dev")]
            for name in names:
                path = os.path.join(folder, name)
                try:
                    status = os.lstat(path)
                    if not os.path.isfile(path) or os.path.islink(path) or (status.st_dev, status.st_ino) in seen:
                        continue
                    seen.add((status.st_dev, status.st_ino))
                    with open(path, "rb") as file:
                        if file.read(4) == b"\x7fELF":
                            yield path
                except OSError:
                    pass


def in_order(folder):
    """The files below a directory in the order of their names, without links; names that are no text are left out."""
    for name in sorted(os.listdir(folder)):
        try:
            name.decode()
        except UnicodeDecodeError:
            continue
        path = os.path.join(folder, name)
        mode = os.lstat(path).st_mode
        if stat.S_ISDIR(mode):
            yield from in_order(path)
        elif stat.S_ISREG(mode):
            yield path
