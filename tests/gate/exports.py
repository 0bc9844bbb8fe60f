#!/usr/bin/env python3
"""Holds what is said about the calls of the library against the exports of its crate.

    tests/gate/exports.py
    tests/gate/exports.py --write

Of each export of elfsee_c there are its name, the structs that it takes, the statuses with which it may end, from the
definitions of the words of its contract, and these words. The tables of docs/LIBRARY.md and of the man page have the
calls by their statuses; --write makes both anew, and does no more.
With the exports are compared: what the crate's own comment says a call returns; the declarations of library/elfsee.h
and the statuses that the comment of each call names there; the synopsis of the man page and the statuses that it names
in the paragraph of each call; and the row of docs/PROMISES.md with the call, which names its contract's word. Each text
is then turned: a name, a struct, a status or a promise is changed, and that must be found.

It needs Python 3, and nothing that is built. The last line is `N passed, N failed`.
"""

import glob
import os
import re
import sys

sys.dont_write_bytecode = True
sys.path.insert(0, os.path.join(os.path.dirname(os.path.realpath(__file__)), "..", "common"))
import declared
from testing import TOP

STATUSES = ("OK", "REFUSED", "ABSENT", "FULL", "BAD_CALL")
PAGE, MAN, HEADER, PROMISES = "docs/LIBRARY.md", "man/elfsee.3", "library/elfsee.h", "docs/PROMISES.md"
# What is made is between these lines.
MADE = {PAGE: ("<!-- Made by tests/gate/exports.py --write. -->\n", "<!-- The end of what was made. -->\n"),
        MAN: ('.\\" Made by tests/gate/exports.py --write.\n', '.\\" The end of what was made.\n')}
# Structs that the crate takes as bytes, and as slices.
AS_BYTES = {"listing": "listing", "names": "text"}


def read(*path):
    with open(os.path.join(TOP, *path), encoding="utf-8") as file:
        return file.read()


# ---------------------------------------------------------------------------
# The exports of the crate.

def definitions():
    """The definitions that contracts of the library cite, by their names."""
    found = {}
    for path in glob.glob(os.path.join(TOP, "crates", "elf_*", "specs", "*.antt")):
        crate = path.split(os.sep)[-3]
        if crate in ("elf_capi", "elf_archive"):
            text = re.sub(r"^ *--[^\n]*\n", "", read(path), flags=re.M)
            for each in re.split(r"\n\n+", text):
                if name := re.match(r"(?:abbrev |unfoldable )?(?:pub )?(?:record )?([A-Z]\w*)\b", each):
                    found[name[1]] = each
    return found


def statuses_of(words, known):
    """The statuses that a contract of these words allows, by the definitions."""
    left, met, numbers, reading = list(words), [], set(), None
    while left:
        word = left.pop(0)
        if word in met or word not in known:
            continue
        met.append(word)
        body = known[word]
        numbers |= {int(number) for number in re.findall(r"\bstatus ≡ (\d)", body)}
        # The first definition of what is read decides whether there may be none.
        if reading is None and (none := re.search(r"\(Ok None\) =(.*)", body)):
            reading = none[1].strip() != "⊥"
        left += re.findall(r"\b[A-Z]\w*", body)
    if reading is False:
        numbers.discard(2)
    # An opening with no number that can be invalid.
    if any(re.search(r"^\w+ \w+ None = ⊥", known.get(word, ""), re.M) for word in words):
        numbers.discard(4)
    return tuple(STATUSES[number] for number in sorted(numbers))


class Export:
    """An export: its arguments and its answer in C's words, its structs, its promise, and what its comment says."""

    def __init__(self, source, doc, name, given, answer, contract, known):
        self.name, self.answer = name, declared.OF_RUST[answer]
        self.arguments = [each for one in re.findall(r"(\w+): ([^:]+?)(?:,\s*(?=\w+:)|,?\s*$)", given.strip())
                          for each in self.argument(*one)]
        self.structs = [kind.split("elfsee_")[1].split(" ")[0] for kind, _ in self.arguments if "struct" in kind]
        imported = {word.split(" as ")[-1]: word.split(" as ")[0]
                    for place, words in re.findall(r"ghost use Rattle\.elf_([\w.]*)\.\{([^}]*)\};", source)
                    if ".declared." not in place or place.endswith(".TheVariants") for word in words.split(", ")}
        words = list(dict.fromkeys(imported[word] for word in re.findall(r"[^\W\d]\w*", contract) if word in imported))
        self.words = [word for word in words if word[0].isupper()] or words[:1]
        self.statuses = statuses_of(self.words, known)
        said = re.search(r"^Returns 0 (.*?)(?:\n\n|\Z)", doc, re.M | re.S)
        self.said = said and tuple(STATUSES[int(number)] for number in sorted(
            {"0", *re.findall(r"(?:,|and|;) ([1-4]),? (?:if|at|after|for|with|also)", " ".join(said[1].split()))}))

    @staticmethod
    def argument(name, kind):
        """An argument as C has it, in one or two arguments."""
        name = {"asked": "listing"}.get(name, name) if kind == "&[u8]" else name
        lent = re.fullmatch(r"&(mut )?(\[)?(?:&\[u8\]|(\w+)(?:<'_>)?)\]?", kind)
        if not lent:
            return [(declared.OF_RUST[kind], name)]
        of = lent[3] or name
        const = "" if lent[1] else "const "
        if of == "u8" and name not in AS_BYTES:
            word = "uint8_t"
        elif of == "u64":
            word = "uint64_t"
        else:
            word = "struct elfsee_" + (AS_BYTES.get(name) if of in ("u8", name) else declared.IN_C.get(of, of.lower()))
        return [(f"{const}{word} *", name)] + ([("size_t", name + "_len")] if lent[2] else [])


def exports():
    known, found = definitions(), {}
    for path in sorted(glob.glob(os.path.join(TOP, "crates/elfsee_c/src/*.rt"))):
        source = read(path)
        for doc, name, given, answer, contract in re.findall(
                r"((?:^///[^\n]*\n)+)#\[unsafe\(no_mangle\)\]\npub extern \"C\" fn (\w+)\((.*?)\) -> (\w+)\n(.*?)^\{", source,
                re.M | re.S):
            doc = re.sub(r"^/// ?", "", doc, flags=re.M)
            contract = re.sub(r"//[^\n]*", "", contract)
            found[name] = Export(source, doc, name, given, answer, contract, known)
    return dict(sorted(found.items()))


# ---------------------------------------------------------------------------
# What is made.

def by_statuses(found):
    """The names of the calls by the statuses with which they may end."""
    names = {}
    for export in found.values():
        names.setdefault(export.statuses, []).append(export.name)
    return sorted(names.items())


def made_page(found):
    rows = "".join("| %s | %s |\n" % (", ".join(statuses) or "a number", ", ".join(f"`{name}`" for name in names))
                   for statuses, names in by_statuses(found))
    return f"| Ends with | Calls |\n|---|---|\n{rows}"


def made_man(found):
    text = ".Bl -tag -width Ds\n"
    for statuses, names in by_statuses(found):
        if statuses:
            text += ".It " + " , ".join("Dv ELFSEE_" + word for word in statuses) + "\n"
            text += " ,\n".join(".Fn " + name for name in names) + "\n"
    return text + ".El\n"


def between(text, place):
    first, last = MADE[place]
    return text.index(first) + len(first), text.index(last)


def write(found):
    for place, made in ((PAGE, made_page(found)), (MAN, made_man(found))):
        text = read(place)
        begin, end = between(text, place)
        with open(os.path.join(TOP, place), "w", encoding="utf-8") as file:
            file.write(text[:begin] + made + text[end:])


# ---------------------------------------------------------------------------
# What is compared. Each gives what is wrong, in words.

def wrong_in_crate(found):
    return [f"{name}: its comment returns {export.said}, its contract allows {export.statuses}"
            for name, export in found.items() if export.said is not None and export.said != export.statuses]


def differs(export, answer, given):
    """Whether a declaration is not the export's. A room that is only read may be declared as one that is written."""
    same = [(kind, "uint8_t *" if argument == "room" else kind) for kind, argument in export.arguments]
    names = [argument for _, argument in export.arguments]
    return answer != export.answer or len(given) != len(same) or any(
        kind not in both or argument not in (name, "index", "record", "listing", "job", "asked")
        for (kind, argument), both, name in zip(given, same, names))


def named_statuses(text):
    return tuple(word for word in STATUSES if re.search(rf"(?<!not )\b(?:ELFSEE_)?{word}\b", text))


def wrong_in_header(found, text):
    calls, wrong = declared.calls_of_header(text), []
    wrong += [f"{name}: is declared" for name in sorted(set(calls) ^ set(found))]
    wrong += [f"{name}: its declaration" for name in calls if name in found and differs(found[name], *calls[name])]
    # The last comment before a call is about it and those that follow without one.
    told, before = {}, ""
    for comment, name in re.findall(r"/\*(.*?)\*/|^(?:uint32_t|uint64_t|size_t) (elfsee_\w+)\(", text, re.M | re.S):
        if not name:
            before = comment
        told[name] = before
    for name, export in found.items():
        said = told.get(name, "")
        # One that says only that it is as another is as that one.
        others = {word for other in re.findall(r"elfsee_\w+", said) if other in found and other != name
                  for word in named_statuses(told.get(other, ""))}
        if export.statuses and not set(named_statuses(said)) <= set(export.statuses):
            wrong.append(f"{name}: its comment has {named_statuses(said)}, its contract allows {export.statuses}")
        elif export.statuses and not set(export.statuses) <= set(named_statuses(said)) | others:
            wrong.append(f"{name}: its comment has {named_statuses(said)}, its contract allows {export.statuses}")
    return wrong


def wrong_in_man(found, text):
    wrong, calls = [], {}
    synopsis = text[text.index(".Sh SYNOPSIS"):text.index(".Sh DESCRIPTION")]
    for answer, name, given in re.findall(r"^\.Ft (\w+)\n\.Fo (\w+)\n(.*?)^\.Fc", synopsis, re.M | re.S):
        calls[name] = answer, [declared.typed(each) for each in re.findall(r'^\.Fa "(.*)"$', given, re.M)]
    for answer, name, given in re.findall(r"^\.Ft (\w+)\n\.Fn (\w+) (.*)$", synopsis, re.M):
        calls[name] = answer, [declared.typed(each) for each in re.findall(r'"(.*?)"', given)]
    wrong += [f"{name}: is in the synopsis" for name in sorted(set(calls) ^ set(found))]
    wrong += [f"{name}: its declaration" for name in calls if name in found and differs(found[name], *calls[name])]
    body = text[text.index(".Sh DESCRIPTION"):text.index(".Ss Room, out and limits")]
    told = {}
    for heads, said in re.findall(r"^\.It (Fn elfsee_[^\n]*)\n(.*?)(?=^\.It |^\.El)", body, re.M | re.S):
        told |= {name: said for name in re.findall(r"elfsee_\w+", heads)}
    wrong += [f"{name}: is described" for name in sorted(set(told) ^ set(found))]
    wrong += [f"{name}: its paragraph has {named_statuses(told[name])}, its contract allows {found[name].statuses}"
              for name in told if name in found and not set(named_statuses(told[name])) <= {*found[name].statuses, "OK"}]
    return wrong + ([] if text[slice(*between(text, MAN))] == made_man(found) else ["the table of statuses: write it anew"])


def wrong_in_page(found, text):
    begin, end = between(text, PAGE)
    return [] if text[begin:end] == made_page(found) else ["the table of calls: write it anew"]


def wrong_in_promises(found, text):
    """Each call is in a row about the library that names the first word of its contract, but for those of every call."""
    section = re.search(r"^## The library\n(.*?)^## ", text, re.M | re.S)[1]
    rows, wrong = re.findall(r"^\| (.*?) \| (.*)$", section, re.M), []
    for name, export in found.items():
        contracts = " ".join(contract for _, contract in rows if f"`{name}`" in contract)
        if not contracts:
            wrong.append(f"{name}: has a row")
        words = [word for word in export.words if word in definitions() and word not in ("ReturnsRead", "ReturnsOpened")]
        wrong += [f"{name}: its row names {word}" for word in words[:1] if f"`{word}`" not in contracts]
    return wrong


CHECKS = {HEADER: wrong_in_header, MAN: wrong_in_man, PAGE: wrong_in_page, PROMISES: wrong_in_promises}
# What is turned in a text, and what is then wrong.
TURNED = [
    (HEADER, "elfsee_section_bytes(", "elfsee_section_content(", "elfsee_section_bytes: is declared"),
    (HEADER, "struct elfsee_found *found", "struct elfsee_range *found", "elfsee_find: its declaration"),
    (HEADER, "OK; ABSENT after the last; REFUSED\n * with ELFSEE_NOTE_CUT", "OK; FULL after the last; REFUSED\n * with ELFSEE_NOTE_CUT",
     "elfsee_next_note: its comment"),
    (HEADER, "OK, or REFUSED if its checks fail", "OK, or ABSENT if its checks fail", "elfsee_header: its comment"),
    (MAN, '.Fa "struct elfsee_found *found"', '.Fa "struct elfsee_range *found"', "elfsee_find: its declaration"),
    (MAN, ".Fo elfsee_mapped\n", ".Fo elfsee_unmapped\n", "elfsee_mapped: is in the synopsis"),
    (MAN, ".Dv ELFSEE_ABSENT\nif no program header holds them;", ".Dv ELFSEE_FULL\nif no program header holds them;",
     "elfsee_mapped: its paragraph"),
    (MAN, ".It Dv ELFSEE_OK , Dv ELFSEE_REFUSED\n", ".It Dv ELFSEE_OK\n", "the table of statuses"),
    (PAGE, "| OK, REFUSED, BAD_CALL | `elfsee_hashed_symbols`", "| OK, REFUSED, BAD_CALL | `elfsee_hashed`", "the table of calls"),
    (PAGE, "| OK, REFUSED | ", "| OK | ", "the table of calls"),
    (PROMISES, "`elfsee_find`: `HasLookup`", "`elfsee_find`: `HasListing`", "elfsee_find: its row names HasLookup"),
    (PROMISES, "`elfsee_mapped`, below it", "`elfsee_map`, below it", "elfsee_mapped: has a row"),
]


def main():
    found = exports()
    if sys.argv[1:] == ["--write"]:
        write(found)
        return 0
    if sys.argv[1:]:
        sys.exit(__doc__)
    results = [("exports are found", [] if len(found) > 40 else [f"{len(found)}"]), ("comments of the crate", wrong_in_crate(found))]
    results += [(place, wrong(found, read(place))) for place, wrong in CHECKS.items()]
    for place, old, new, wanted in TURNED:
        text = read(place)
        wrong = CHECKS[place](found, text.replace(old, new))
        told = any(each.startswith(wanted) for each in wrong)
        results.append((f"{place}, turned: {wanted}", [] if old in text and told else [f"{wrong}"]))
    failed = 0
    for what, wrong in results:
        failed += bool(wrong)
        print("\n".join(f"FAILED {what}: {each}" for each in wrong) or f"ok {what}")
    print(f"{len(results) - failed} passed, {failed} failed")
    return 1 if failed else 0


if __name__ == "__main__":
    sys.exit(main())
