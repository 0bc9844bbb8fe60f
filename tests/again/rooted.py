"""Paths below another root, resolved as a process resolves them whose root that directory is: for the second implementation of
`elfsee needs`. Links are followed here, one component after the other, so that nothing outside the root is looked at."""

import errno
import os
import stat

MOST_LINKS = 40
# A path that fails for one of these reasons is passed over; any other reason is a fault of the system.
PASSED_OVER = (errno.ENOENT, errno.ENOTDIR, errno.EACCES, errno.EPERM, errno.ELOOP, errno.ENAMETOOLONG)


class SystemFault(Exception):
    """A file could not be opened, and nothing is known about it."""


class Unreadable:
    """What is at a path and can be opened, but is no regular file or has bytes that cannot be read."""

    def __init__(self, identity):
        self.content, self.identity, self.mode = None, identity, 0


class Opened:
    """A regular file: its bytes, its device with its number, and its mode."""

    def __init__(self, content, identity, mode):
        self.content, self.identity, self.mode = content, identity, mode


class Root:
    """A root: a directory, or None for that of this process."""

    def __init__(self, directory=None):
        self.directory = directory

    def shown(self, path):
        """A path as it is printed."""
        return self.directory + path if self.directory is not None and path.startswith(b"/") else path

    def within(self, path):
        """What follows the root in the path of a file that is below it, or None."""
        if self.directory is not None and path.startswith(self.directory + b"/"):
            return path[len(self.directory):]
        return None

    def resolved(self, path):
        """The path within the root without links, `.` and `..`."""
        rest, taken, links = path.split(b"/"), [], 0
        while rest:
            part = rest.pop(0)
            if part in (b"", b"."):
                continue
            if part == b"..":
                del taken[-1:]
                continue
            here = self.host(taken + [part])
            mode = os.lstat(here).st_mode
            if stat.S_ISLNK(mode):
                links += 1
                if links > MOST_LINKS:
                    raise OSError(errno.ELOOP, "too many links")
                target = os.readlink(here)
                taken = [] if target.startswith(b"/") else taken
                rest = target.split(b"/") + rest
            elif rest and not stat.S_ISDIR(mode):
                raise OSError(errno.ENOTDIR, "no directory")
            else:
                taken.append(part)
        return taken

    def host(self, parts):
        return self.directory + b"/" + b"/".join(parts)

    def place(self, path):
        """Where a path leads, for this process."""
        if self.directory is None or not path.startswith(b"/"):
            return path
        return self.host(self.resolved(path))

    def is_directory(self, path):
        try:
            return stat.S_ISDIR(os.stat(self.place(path)).st_mode)
        except OSError:
            return False

    def open(self, path):
        """What is at a path: None where it is passed over."""
        try:
            path.decode()
        except UnicodeDecodeError:
            return None
        try:
            return opened(self.place(path))
        except OSError as error:
            if error.errno in PASSED_OVER:
                return None
            raise SystemFault() from error


def opened(place):
    """What can be opened at a path, for this process; None for a socket."""
    status = os.stat(place)
    identity = (status.st_dev, status.st_ino)
    if stat.S_ISSOCK(status.st_mode):
        return None
    if not stat.S_ISREG(status.st_mode):
        return Unreadable(identity)
    file = os.open(place, os.O_RDONLY | os.O_CLOEXEC)
    try:
        length = os.lseek(file, 0, os.SEEK_END)
        content = whole(file, length)
    except OSError:
        content = b""
        length = -1
    finally:
        os.close(file)
    return Opened(content, identity, status.st_mode) if len(content) == length else Unreadable(identity)


def whole(file, length):
    content = b""
    while len(content) < length:
        more = os.pread(file, length - len(content), len(content))
        if not more:
            break
        content += more
    return content
