#!/usr/bin/env python3
"""Tries the completions in the shells that they are for.

    tests/machine/completions.py [FOLDER]

In bash and zsh a terminal is opened, a line is typed, and all completions that the shell offers
are put into the line and printed; in fish its own command gives the same. A shell that is not
installed counts as failed. FOLDER is where completions are installed (share/ of `make
install`'s PREFIX): then each shell finds them there by itself. Otherwise those of the repository are read.

It needs Python 3, and from Debian bash, bash-completion, zsh and fish; it is no part of ./check. The
last line is `N passed, N failed`.
"""

import os
import pty
import re
import select
import shutil
import subprocess
import sys
import tempfile
import time

TOP = os.path.dirname(os.path.dirname(os.path.dirname(os.path.realpath(__file__))))
OWN = os.path.join(TOP, "completions")
COMMANDS = {"show", "sample", "find", "apply", "bytes", "image", "check", "list", "traits", "needs", "resolve", "archive", "explain", "version", "help"}
PARTS = {"header", "sections", "segments", "symbols", "relocs", "notes", "dynamic", "versions"}
OPTIONS = {"--headers", "--names", "--max-read", "--only", "--gnu", "--by-segments", "--json", "--table", "--help"}
NAMED = {"--versions", "--name", "--name-list", "--defined", "--undefined", "--dynamic", "--at", "--address"}
APPLYING = {"--headers", "--max-read", "--layout", "--explain", "--help"}
ITEMS = {"at:", "def:", "plt:", "got:", "tpgot:"}
FILES = {"a file", "object.o", "folder"}
# What is typed, and what it is completed with.
CASES = [
    ("elfsee ", COMMANDS),
    ("elfsee s", {"show", "sample"}),
    ("elfsee x", set()),
    ("elfsee show ", FILES),
    ("elfsee show o", {"object.o"}),
    ("elfsee show folder/", {"folder/inner"}),
    ("elfsee show object.o ", set()),
    ("elfsee show --", OPTIONS | NAMED),
    ("elfsee show object.o --", OPTIONS | NAMED),
    ("elfsee sample --", OPTIONS | {"--versions"}),
    ("elfsee sample ", set()),
    ("elfsee show --names 5 --n", {"--name", "--name-list"}),
    ("elfsee show --name f --n", {"--name", "--name-list", "--names"}),
    ("elfsee archive --name-list f --n", {"--name", "--names"}),
    ("elfsee show --name f ", FILES),
    ("elfsee show --name ", set()),
    ("elfsee show --name-list o", {"object.o"}),
    ("elfsee show --names 5 --h", {"--headers", "--help"}),
    ("elfsee show --only ", PARTS),
    ("elfsee sample --only ", PARTS),
    ("elfsee archive --only ", PARTS | {"members"}),
    ("elfsee show --only s", {"sections", "segments", "symbols"}),
    ("elfsee show --only=s", {"sections", "segments", "symbols"}),
    ("elfsee show --gnu --only v", {"versions"}),
    ("elfsee show --names ", set()),
    ("elfsee show --headers 9 ", FILES),
    ("elfsee show --only notes ", FILES),
    ("elfsee show --only=notes ", FILES),
    ("elfsee show -- ", FILES),
    ("elfsee find ", FILES),
    ("elfsee find o", {"object.o"}),
    ("elfsee find object.o ", set()),
    ("elfsee find --", {"--headers", "--max-read", "--gnu", "--by-segments", "--json", "--table", "--help"}),
    ("elfsee find --headers 9 ", FILES),
    ("elfsee a", {"apply", "archive"}),
    ("elfsee apply ", FILES),
    ("elfsee apply o", {"object.o"}),
    ("elfsee apply object.o ", set()),
    ("elfsee apply --", APPLYING),
    ("elfsee apply --headers ", set()),
    ("elfsee apply --headers 9 ", FILES),
    ("elfsee apply --headers=9 object.o ", set()),
    ("elfsee apply object.o 1 ", ITEMS),
    ("elfsee apply object.o 1 d", {"def:"}),
    ("elfsee apply object.o 1 at:1=0x10 ", ITEMS),
    ("elfsee apply object.o 1 at:1=0x10 p", {"plt:"}),
    ("elfsee apply object.o 1 at:1=0x10 g", {"got:"}),
    ("elfsee apply object.o 1 t", {"tpgot:"}),
    ("elfsee apply object.o 1 x", set()),
    ("elfsee apply object.o 1 def:m", set()),
    ("elfsee apply object.o 1 def:p", set()),
    ("elfsee apply object.o 1 at:1=0x10 def:p=0x20 d", {"def:"}),
    ("elfsee apply object.o 1 --", APPLYING),
    ("elfsee apply --layout o", {"object.o"}),
    ("elfsee apply --headers 9 object.o 1 ", ITEMS),
    ("elfsee apply -- object.o 1 ", ITEMS),
    ("elfsee c", {"check"}),
    ("elfsee check ", FILES),
    ("elfsee check object.o ", FILES),
    ("elfsee check --", OPTIONS | {"--members", "--files0-from"}),
    ("elfsee l", {"list"}),
    ("elfsee list ", FILES),
    ("elfsee list --", OPTIONS | NAMED | {"--members", "--files0-from"}),
    ("elfsee traits --", {"--headers", "--max-read", "--require", "--json", "--table", "--files0-from", "--help"}),
    ("elfsee needs --", {"--headers", "--max-read", "--max-tries", "--library-path", "--default", "--root", "--cache", "--no-cache", "--symbols", "--unused", "--problems", "--json", "--table", "--files0-from", "--help"}),
    ("elfsee check --files0-from o", {"object.o"}),
    ("elfsee check --names 5 o", {"object.o"}),
    ("elfsee v", {"version"}),
    ("elfsee version ", set()),
    ("elfsee version --", {"--help"}),
    ("elfsee help ", COMMANDS - {"help"}),
    ("elfsee help show ", set()),
]
ENVIRONMENT = {"PATH": os.environ["PATH"], "TERM": "dumb", "LC_ALL": "C.UTF-8", "COLUMNS": "400",
               "LINES": "40"}
# Put all that the line is completed with into it: a key of each shell's.
ALL = {"bash": "\x1b*", "zsh": "\x18a"}
START = {
    "bash": ["bash", "--noprofile", "--norc", "-i"],
    "zsh": ["zsh", "-f", "-i"],
}
READY = {
    "bash": "bind 'set enable-bracketed-paste off'; bind 'set bell-style none'; . {bash}",
    "zsh": "setopt no_prompt_cr no_beep; fpath=({folder} $fpath); autoload -U compinit; "
           "compinit -D -u; zle -C all-matches complete-word _generic; bindkey '^Xa' all-matches; "
           "zstyle ':completion:all-matches::::' completer _all_matches _complete; "
           "zstyle ':completion:all-matches:*' insert true",
}


def environment(home, folder):
    """With a directory of installed completions, and the program that is installed with it."""
    own = dict(ENVIRONMENT, HOME=home, PS1="", PS2="")
    if folder:
        own.update(XDG_DATA_DIRS=folder, PATH=os.path.join(os.path.dirname(folder), "bin") + ":" + own["PATH"])
    return own


class Terminal:
    """A shell at a terminal."""

    def __init__(self, words, home, folder):
        self.child, self.end = pty.fork()
        if self.child == 0:
            os.chdir(home)
            os.execvpe(words[0], words, environment(home, folder))

    def type(self, text):
        os.write(self.end, text.encode())

    def until(self, word, seconds=20):
        """All that is printed up to a word."""
        text, stop = "", time.monotonic() + seconds
        while not re.search(word, text):
            left = stop - time.monotonic()
            if left <= 0 or not select.select([self.end], [], [], left)[0]:
                break
            try:
                text += os.read(self.end, 65536).decode("utf-8", "replace")
            except OSError:
                break
        return text

    def close(self):
        os.close(self.end)
        os.waitpid(self.child, 0)


def told(terminal, shell, line, number):
    """The words of a line with all its completions put in, after those that were typed."""
    print_words = "\x01printf '{%s}' ; printf '<%s>' \x05; echo end''-"
    terminal.type(line + ALL[shell] + print_words + f"{number}\r")
    text = terminal.until(rf"end-{number}\s")
    text = text.replace("\r", "")
    found = re.search(r"\{\}((?:<[^<>]*>)*)end-%d" % number, text)
    return re.findall(r"<([^<>]*)>", found[1]) if found else None


def completions_of(words, line):
    """What a typed line was completed with, by the words that came of it."""
    typed = line.split()
    if not line.endswith(" "):
        last = typed.pop()
        words = words[len(typed):]
        return {word for word in words if word != last}
    return set(words[len(typed):])


def plain(word, line):
    """A completion as the cases have it: without the equals sign or the option before it."""
    if "=" in line.split(" ")[-1]:
        word = word.split("=", 1)[-1]
    return word.rstrip(" =/")


def shell_of_terminal(shell, folder, home):
    """A function that completes a line in a shell at a terminal."""
    terminal = Terminal(START[shell], home, folder)
    bash = "/usr/share/bash-completion/bash_completion" if folder else os.path.join(OWN, "elfsee.bash")
    zsh = OWN
    if folder:
        zsh = f"{folder}/zsh/site-functions {folder}/zsh/vendor-completions"
    terminal.type(READY[shell].format(bash=bash, folder=zsh) + "; echo ready''-now\r")
    terminal.until("ready-now")
    count = iter(range(1, 10000))
    return terminal, lambda line: told(terminal, shell, line, next(count))


def fish_completions(folder, home, line):
    script = "complete -C $argv[1]" if folder else "source $argv[2]; complete -C $argv[1]"
    options = [] if folder else ["--no-config"]
    done = subprocess.run(["fish", *options, "-c", script, line, os.path.join(OWN, "elfsee.fish")],
                          stdout=subprocess.PIPE, stdin=subprocess.DEVNULL, cwd=home, check=False,
                          env=environment(home, folder))
    return [row.split("\t")[0] for row in done.stdout.decode().split("\n") if row]


def tried(shell, folder, home):
    """Of each case what the shell completes it with."""
    if shell == "fish":
        for line, wanted in CASES:
            yield line, wanted, {plain(word, line) for word in fish_completions(folder, home, line)}
        return
    terminal, complete = shell_of_terminal(shell, folder, home)
    for line, wanted in CASES:
        words = complete(line)
        yield line, wanted, words if words is None else {
            plain(word, line) for word in completions_of(words, line)} - {""}
    terminal.close()


def main(words):
    folder = os.path.realpath(words[0]) if words else None
    passed = failed = 0
    with tempfile.TemporaryDirectory() as home:
        os.mkdir(os.path.join(home, "folder"))
        for name in ("a file", "object.o", "folder/inner"):
            with open(os.path.join(home, name), "w", encoding="ascii"):
                pass
        for shell in ("bash", "zsh", "fish"):
            if not shutil.which(shell):
                print(f"FAILED {shell}: it is not installed")
                failed += 1
                continue
            for line, wanted, got in tried(shell, folder, home):
                # If no argument can follow zsh offers the options that are left.
                left = OPTIONS | {"-h"} if shell == "zsh" and not wanted and line.endswith(" ") else set()
                if got is not None and (got == wanted or wanted < got <= left):
                    passed += 1
                else:
                    failed += 1
                    print(f"FAILED {shell}, '{line}': wanted {sorted(wanted)}, got {got and sorted(got)}")
    print(f"{passed} passed, {failed} failed")
    return 0 if passed and not failed else 1


if __name__ == "__main__":
    sys.exit(main(sys.argv[1:]))
