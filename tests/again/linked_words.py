"""The words of a link: its inputs in their order, the folders that `-l` looks in, and what is asked for by name. For the
second implementation of `elfsee resolve`."""

import os
import re

SYSTEM = [b"/usr/local/lib/x86_64-linux-gnu", b"/lib/x86_64-linux-gnu", b"/usr/lib/x86_64-linux-gnu", b"/usr/local/lib64", b"/lib64",
          b"/usr/lib64", b"/usr/local/lib", b"/lib", b"/usr/lib"]
STATIC, DYNAMIC = ("static", "Bstatic", "dn", "non_shared"), ("Bdynamic", "dy", "call_shared")
PASSED = ("a", "A", "architecture", "assert", "audit", "auxiliary", "compress-debug-sections", "ctf-share-types", "depaudit",
          "dependency-file", "dynamic-linker", "dynamic-list", "error-handling-script", "exclude-libs",
          "export-dynamic-symbol", "export-dynamic-symbol-list", "f", "F", "filter", "fini", "flto-partition", "fuse-ld",
          "gpsize", "h", "hash-size", "hash-style", "I", "ignore-unresolved-symbol", "init", "m", "Map", "max-cache-size",
          "o", "O", "oformat", "orphan-handling", "out-implib", "output", "P", "plugin", "plugin-opt", "retain-symbols-file",
          "rpath", "rpath-link", "section-start", "soname", "sort-section", "spare-dynamic-tags", "sysroot", "task-link",
          "trace-symbol", "unresolved-symbols", "version-exports-section", "version-script", "y", "Y", "z")
REFUSED = ("r", "i", "Ur", "relocatable", "T", "script", "dT", "default-script", "c", "mri-script", "b", "format", "wrap",
           "defsym", "require-defined", "start-lib", "just-symbols", "R", "nostdlib")
SCRIPT_BYTES = 4096
# The beginnings of long options that may have one hyphen, and begin with the letter of another option.
LONG = ("eh-frame-hdr", "export-dynamic", "emit-relocs", "embedded-relocs", "enable-", "end-group", "error-", "exclude-libs",
        "ld-generated-", "unique", "unresolved-symbols", "undefined-version", "littleendian")


class BadWord(Exception):
    """A word that is not done, or a folder below another root."""


class Input:
    """A file of a link, with what holds at its place; its path is None if there is no file."""

    def __init__(self, word, path, is_whole, as_needed):
        self.word, self.path, self.is_whole, self.as_needed = word, path, is_whole, as_needed


class Words:
    """What the words of a linker say."""

    def __init__(self, words):
        self.folders, self.asked, self.entry, self.has_dynamic = [], [], b"_start", False
        self.root = b""
        self.is_shared = False
        self.static, self.whole, self.needed, self.pushed = False, False, False, None
        self.inputs, self.open = [], []
        self.sought = []
        self.read(list(words))
        self.folders += [self.root + folder for folder in SYSTEM]

    def read(self, words):
        while words:
            word = words.pop(0)
            name = re.sub(rb"\A--?", b"", word).decode("utf-8", "surrogateescape")
            if not word.startswith(b"-") or word == b"-":
                self.add(word)
            elif word.startswith(b"--sysroot="):
                self.root = word.partition(b"=")[2]
                self.root = b"" if self.root == b"/" else self.root
            elif word in (b"-(", b"--start-group", b"-start-group"):
                self.open.append(self.inputs)
                self.inputs = []
            elif word in (b"-)", b"--end-group", b"-end-group"):
                self.close()
            elif not self.is_state(name) and not self.is_asked(word, name, words):
                self.pass_over(word, name, words)
        while self.open:
            self.close()

    def close(self):
        if self.open:
            group, self.inputs = self.inputs, self.open.pop()
            self.inputs.append(group)

    def is_state(self, name):
        if name in STATIC or name in DYNAMIC:
            self.static = name in STATIC
        elif name in ("whole-archive", "no-whole-archive"):
            self.whole = name == "whole-archive"
        elif name in ("as-needed", "no-as-needed"):
            self.needed = name == "as-needed"
        elif name == "push-state":
            self.pushed = (self.whole, self.needed, self.static, self.pushed)
        elif name == "pop-state":
            if self.pushed:
                self.whole, self.needed, self.static, self.pushed = self.pushed
        elif name in ("shared", "Bshareable"):
            self.is_shared = self.has_dynamic = True
        elif name in ("pie", "pic-executable"):
            self.has_dynamic = True
        else:
            return False
        return True

    def is_asked(self, word, name, words):
        """Whether the word is an input, a folder or a symbol; words after it are taken."""
        for letter, long in (("l", "library"), ("L", "library-path"), ("u", "undefined"), ("e", "entry")):
            value = None
            if name == long:
                value = words.pop(0) if words else b""
            elif name.startswith(long + "="):
                value = word[word.index(b"=") + 1:]
            elif word.startswith(b"-" + letter.encode()) and not word.startswith(b"--") and not name.startswith(LONG):
                value = word[2:] or (words.pop(0) if words else b"")
            if value is not None:
                self.ask(letter, value)
                return True
        return False

    def ask(self, letter, value):
        if letter == "l":
            self.add(b"-l" + value)
        elif letter == "u":
            self.asked.append(value)
        elif letter == "e":
            self.entry = value
        else:
            if value.startswith((b"=", b"$SYSROOT")):
                raise BadWord(b"-L" + value)
            self.folders.append(value)

    def pass_over(self, word, name, words):
        plain = name.partition("=")[0]
        if plain in REFUSED or word.startswith(b"-T") or word.startswith(b"-R"):
            raise BadWord(word)
        if plain in PASSED and "=" not in name and words:
            words.pop(0)

    def add(self, word):
        self.inputs.append((word, self.static, self.whole, self.needed))

    def named(self):
        """The symbols that words ask for."""
        address = re.fullmatch(rb"[0-9]+|0[xX][0-9a-fA-F]+", self.entry)
        return self.asked + ([] if address else [self.entry])

    def found(self, word, is_static):
        """The path of an input, or None."""
        if not word.startswith(b"-l"):
            return word if os.path.exists(word) else None
        name = word[2:]
        if name.startswith(b":"):
            names = [name[1:]]
        else:
            names = ([] if is_static else [b"lib" + name + b".so"]) + [b"lib" + name + b".a"]
        paths = [folder + b"/" + each for folder in self.folders for each in names]
        return next((path for path in paths if os.path.isfile(path)), None)

    def script(self, content, path, static, whole, needed):
        """The inputs of a script; None for one that has other words."""
        if len(content) > SCRIPT_BYTES:
            return None
        text = re.sub(rb"/\*.*?\*/", b" ", content, flags=re.S)
        tokens = re.findall(rb"[(),;]|[^\s(),;]+", text)
        return Script(self, tokens, path, (static, whole)).inputs(needed)


class Script:
    """The words of a linker script."""

    def __init__(self, words, tokens, path, held):
        self.words, self.tokens, self.path, self.held = words, tokens, path, held

    def inputs(self, needed):
        found = []
        while self.tokens:
            token = self.tokens.pop(0)
            if token == b";":
                continue
            if token not in (b"GROUP", b"INPUT", b"OUTPUT_FORMAT") or self.take() != b"(":
                return None
            inner = self.listed(needed)
            if inner is None:
                return None
            if token == b"GROUP":
                found.append(inner)
            elif token == b"INPUT":
                found += inner
        return found

    def take(self):
        return self.tokens.pop(0) if self.tokens else None

    def listed(self, needed):
        found = []
        while True:
            token = self.take()
            if token is None or token == b"(":
                return None
            if token == b")":
                return found
            if token == b"AS_NEEDED":
                inner = self.listed(True) if self.take() == b"(" else None
                if inner is None:
                    return None
                found += inner
            elif token not in (b",", b";"):
                found.append((self.placed(token), *self.held, needed))

    def placed(self, token):
        """A path of a script: below the root, as it is, in the folders, or beside the script."""
        root = self.words.root
        if token.startswith((b"=", b"$SYSROOT")):
            return root + token.removeprefix(b"=").removeprefix(b"$SYSROOT")
        if token.startswith(b"/") and root and os.path.exists(root):
            real = os.path.realpath(root)
            if os.path.realpath(self.path).startswith(real.rstrip(b"/") + b"/"):
                return root + token
        if token.startswith((b"-l", b"/")) or os.path.exists(token):
            return token
        paths = [folder + b"/" + token for folder in self.words.folders] + [os.path.join(os.path.dirname(self.path), token)]
        return next((path for path in paths if os.path.exists(path)), token)
