"""Makes the wheel of this module, with the shared library in it, for pip (PEP 517, and PEP 427 for the wheel).

It wants Python alone and fetches nothing. The library is that of ELFSEE_LIBRARY, else library/out/libelfsee.so.0,
which library/build proves and builds first where it is not built. Of the same files the wheel has the same bytes.
The wheel is for Linux on x86-64: the library is, and wants x86-64-v2. It is no manylinux wheel, since these promise
to run on each x86-64.
"""

import base64
import hashlib
import os
import re
import subprocess
import zipfile

HERE = os.path.dirname(os.path.abspath(__file__))
LIBRARY = "libelfsee.so.0"
TAG = "py3-none-linux_x86_64"


def _project():
    """The fields of pyproject.toml that are texts."""
    with open(os.path.join(HERE, "pyproject.toml"), encoding="utf-8") as file:
        part = file.read().split("[project]\n")[1].split("\n[")[0]
    return dict(re.findall(r'^([a-z-]+) = "(.*)"$', part, re.M))


def _library():
    """Where the shared library is."""
    named = os.environ.get("ELFSEE_LIBRARY")
    if named:
        return named
    build = os.path.join(os.path.dirname(HERE), "build")
    if not os.path.exists(build):
        raise SystemExit("the library elfsee is built in its repository alone; ELFSEE_LIBRARY may name a built one")
    done = subprocess.run([build], stdin=subprocess.DEVNULL, stdout=subprocess.PIPE, check=True)
    return os.path.join(os.fsdecode(done.stdout.rstrip(b"\n")), LIBRARY)


def _content(path):
    with open(path, "rb") as file:
        return file.read()


def _files(project, folder):
    """The wheel's files but the record of them: of each its name and its bytes."""
    module = os.path.join(HERE, "elfsee")
    for name in sorted(os.listdir(module)):
        if name == "py.typed" or name.endswith(".py"):
            yield "elfsee/" + name, _content(os.path.join(module, name))
    yield "elfsee/" + LIBRARY, _content(_library())
    yield folder + "/METADATA", ("Metadata-Version: 2.1\nName: %s\nVersion: %s\nSummary: %s\nRequires-Python: %s\n" % (
        project["name"], project["version"], project["description"], project["requires-python"])).encode()
    yield folder + "/WHEEL", ("Wheel-Version: 1.0\nGenerator: elfsee\nRoot-Is-Purelib: false\nTag: %s\n" % TAG).encode()


def get_requires_for_build_wheel(config_settings=None):
    """What has to be installed first: nothing."""
    return []


def build_wheel(wheel_directory, config_settings=None, metadata_directory=None):
    """Makes the wheel in a directory, and returns its name."""
    project = _project()
    front = "%s-%s" % (project["name"], project["version"])
    name, folder, record = "%s-%s.whl" % (front, TAG), front + ".dist-info", []
    with zipfile.ZipFile(os.path.join(wheel_directory, name), "w", zipfile.ZIP_DEFLATED) as wheel:

        def put(path, content):
            entry = zipfile.ZipInfo(path)
            entry.external_attr, entry.compress_type = 0o100644 << 16, zipfile.ZIP_DEFLATED
            wheel.writestr(entry, content)

        for path, content in _files(project, folder):
            digest = base64.urlsafe_b64encode(hashlib.sha256(content).digest()).rstrip(b"=").decode()
            record.append("%s,sha256=%s,%d\n" % (path, digest, len(content)))
            put(path, content)
        path = folder + "/RECORD"
        put(path, "".join([*record, path + ",,\n"]).encode())
    return name


def build_sdist(sdist_directory, config_settings=None):
    """There is no archive of sources: the library's sources are the whole repository."""
    raise NotImplementedError("the library elfsee is built in its repository; pip wheel makes what can be installed")
