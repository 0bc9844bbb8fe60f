"""The commands of pages and what they print, for tests that run them."""

import re
import subprocess


def shape(lines):
    """Lines without their numbers."""
    return [re.sub(r"[0-9a-f]+", "0", re.sub(r" +", " ", line)) for line in lines]


def other_versions(versions):
    """The packages whose versions are not these, with which a page was made."""
    for name, wanted in versions.items():
        done = subprocess.run(["dpkg-query", "-W", "-f", "${Version}", name], stdout=subprocess.PIPE,
                              stderr=subprocess.DEVNULL, text=True, check=False)
        if done.stdout != wanted:
            yield f"{name} {done.stdout or '(none)'}"
