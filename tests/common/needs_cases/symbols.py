"""Generated cases of tests/gate/needs.py: the symbols of libraries, and where they are defined."""

import json
import re
import struct
import subprocess
from pathlib import Path

from needs_cases.libraries import binds, compile_text, entry_at, table_at
from needs_cases.tried import bindings, elfsee, fail


def made_symbols(folder):
    """Made libraries whose symbols are bound: two that define one name, weak symbols, versions, refused and hostile ones."""
    f = str(folder / "b")
    make = lambda name, text, *words: compile_text(folder / "b", name, text, *words)
    (folder / "b").mkdir()
    make("libone.so", "int f(void) { return 1; } int g(void) { return 1; }\n", "-Wl,-soname,libone.so")
    make("libtwo.so", "int f(void) { return 2; } int h(void) { return 2; }\n", "-Wl,-soname,libtwo.so")
    text = "extern int f(void), g(void), h(void); int top(void) { return f() + g() + h(); }\n"
    top = make("top12.so", text, f"-L{f}", "-lone", "-ltwo")
    place = ["--default", f]
    binds("the first of two", [*place, str(top)], {"f": ("bound", 1), "g": ("bound", 1), "h": ("bound", 2)}, 0)
    top = make("top21.so", text, f"-L{f}", "-ltwo", "-lone")
    binds("in the other order", [*place, str(top)], {"f": ("bound", 1), "g": ("bound", 2), "h": ("bound", 1)}, 0)
    make("libsoft.so", "int f(void) __attribute__((weak)); int f(void) { return 4; }\n", "-Wl,-soname,libsoft.so")
    for names, definer in ((("soft", "one"), 1), (("one", "soft"), 1)):
        top = make("soft.so", "extern int f(void); int top(void) { return f(); }\n", f"-L{f}", *(f"-l{name}" for name in names))
        binds(f"weak and strong, {names[0]} first", [*place, str(top)], {"f": ("bound", definer)}, 0)
    own = make("own.so", "int f(void) { return 3; } extern int h(void); int own(void) { return f() + h(); }\n", f"-L{f}", "-ltwo")
    binds("what it defines itself it does not ask for", [*place, str(own)], {"h": ("bound", 1)}, 0)
    weak = make("weak.so", "extern int w(void) __attribute__((weak)); extern int f(void); int top(void) { return f() + (w ? w() : 0); }\n",
                f"-L{f}", "-lone")
    binds("a weak symbol that none defines", [*place, str(weak)], {"w": ("weak", None), "f": ("bound", 1)}, 0)
    none = make("none.so", "extern int w(void), f(void); int top(void) { return f() + w(); }\n", f"-L{f}", "-lone")
    binds("a symbol that none defines", [*place, str(none)], {"w": ("unbound", None), "f": ("bound", 1)}, 1)
    (folder / "b/one.map").write_text("V1 { global: f; local: *; };\n")
    (folder / "b/two.map").write_text("V1 { global: old; local: *; }; V2 { global: f; } V1;\n")
    make("v2/libver.so", "int f(void) { return 2; } int old(void) { return 1; }\n", "-Wl,-soname,libver.so", f"-Wl,--version-script,{f}/two.map")
    make("v1/libver.so", "int f(void) { return 1; }\n", "-Wl,-soname,libver.so", f"-Wl,--version-script,{f}/one.map")
    ver = make("ver.so", "extern int f(void), old(void); int top(void) { return f() + old(); }\n", f"-L{f}/v2", "-lver")
    binds("versions", ["--default", f"{f}/v2", str(ver)], {"f@V2": ("bound", 1), "old@V1": ("bound", 1)}, 0)
    binds("a version that the library lacks", ["--default", f"{f}/v1", str(ver)], {"f@V2": ("nover", None), "old@V1": ("unbound", None)}, 1,
          ["U     0     1 nover    V2"])
    # A hash table without a bucket: lookups in it are refused, and each line says so.
    data = bytearray(Path(f"{f}/libone.so").read_bytes())
    phoff, = struct.unpack_from("<Q", data, 32)
    for i in range(struct.unpack_from("<H", data, 56)[0]):
        type_, _, offset = struct.unpack_from("<IIQ", data, phoff + 56 * i)
        if type_ == 2:
            for at in range(offset, len(data), 16):
                tag, value = struct.unpack_from("<QQ", data, at)
                if tag == 0x6ffffef5:
                    data[value:value + 4] = b"\0\0\0\0"
                if tag == 0:
                    break
    (folder / "b/bad").mkdir()
    (folder / "b/bad/libone.so").write_bytes(data)
    code, text, errors = elfsee("--symbols", "--library-path", f"{f}/bad", "--default", f, str(folder / "b/top12.so"))
    known, rows, others = bindings(text)
    got = {name: (state, definer) for object_, _, state, definer, _, name in rows if object_ == 0}
    if code != 1 or got != {"f": ("refused", 1), "g": ("refused", 1), "h": ("refused", 1)} or [line[19:] for line in others] != ["hash-shape"]:
        fail(f"lookups that are refused: {code} {text!r}")
    # Any byte of a library may be another, and what is read stays within the budget.
    import random
    chance = random.Random(60)
    plain = Path(f"{f}/v2/libver.so").read_bytes()
    (folder / "b/hostile").mkdir()
    for _ in range(60):
        data = bytearray(plain)
        for _ in range(chance.randrange(1, 6)):
            data[chance.randrange(64, 0x600)] = chance.randrange(256)
        (folder / "b/hostile/libver.so").write_bytes(data)
        code, text, errors = elfsee("--symbols", "--max-read", "200000", "--default", f"{f}/hostile", str(ver))
        if code not in (0, 1) or errors:
            fail(f"a hostile library: {code} {text!r} {errors!r}")
    for budget in range(0, 4000, 97):
        code, text, errors = elfsee("--symbols", "--max-read", str(budget), "--default", f"{f}/v2", str(ver))
        rows = bindings(text)[1]
        if errors or code not in (0, 1) or (code == 0 and len(rows) != 2) or (code == 1) != (" budget" in text):
            fail(f"a budget of {budget}: {code} {text!r} {errors!r}")


def made_names_of_symbols(folder):
    """Symbols with an empty name, and names and versions as members of objects."""
    f = str(folder / "b")
    data = bytearray((folder / "b/none.so").read_bytes())
    symbols, strings = table_at(data, 6), table_at(data, 5)
    place = next(at for at in range(symbols, symbols + 240, 24)
                 if data[strings + struct.unpack_from("<I", data, at)[0]:][:2] == b"w\0")
    start, = struct.unpack_from("<I", data, place)
    both = {"w": ("unbound", None), "f": ("bound", 1)}
    for what, name, wanted, status in (("as it is", start, both, 1), ("empty at the end of another", start + 1, {"f": ("bound", 1)}, 0),
                                       ("none", 0, {"f": ("bound", 1)}, 0)):
        struct.pack_into("<I", data, place, name)
        changed = folder / "b/nameless.so"
        changed.write_bytes(data)
        binds(f"a symbol whose name is {what}", ["--default", f, str(changed)], wanted, status)
    code, text, errors = elfsee("--symbols", "--json", "--default", f"{f}/v2", f"{f}/ver.so")
    rows = [json.loads(line) for line in text.splitlines()]
    got = sorted((row["name"], row.get("version"), row["definer"]) for row in rows if row["line"] == "B")
    if code or errors or got != [("f", "V2", 1), ("old", "V1", 1)]:
        fail(f"names and versions as members: {code} {got} {errors!r}")
    data = (folder / "b/none.so").read_bytes().replace(b"\0w\0", b"\0@\0")
    (folder / "b/at.so").write_bytes(data)
    code, text, errors = elfsee("--symbols", "--json", "--default", f, f"{f}/at.so")
    rows = [json.loads(line) for line in text.splitlines()]
    got = sorted((row["name"], row.get("version"), row["state"]) for row in rows if row["line"] == "B")
    if code != 1 or errors or got != [("@", None, "unbound"), ("f", None, "bound")]:
        fail(f"a name that is a sign: {code} {got} {errors!r}")


def made_unused(folder):
    """Libraries that a program names itself and of which it uses nothing: no symbol, and no data that it copies."""
    f = folder / "unused"
    lib = {name: compile_text(f, f"lib{name}.so", text, f"-Wl,-soname,lib{name}.so", *words) for name, text, words in (
        ("fun", "int fun(void) { return 1; }\n", ()), ("var", "int var = 5;\n", ()), ("idle", "int idle(void) { return 1; } int var = 6;\n", ()),
        ("deep", "int deep(void) { return 1; }\n", ()), ("over", "extern int deep(void); int over(void) { return deep(); }\n", (f"-L{f}", "-ldeep")))}
    (f / "main.c").write_text("extern int fun(void), deep(void), var; void _start(void) { fun(); var++; }\n")
    call = ["gcc", "-nostdlib", "-no-pie", "-fno-pic", "-Wl,--no-as-needed", f"-Wl,-rpath-link,{f}", "-o", str(f / "main"), str(f / "main.c"), f"-L{f}"]
    subprocess.run([*call, "-lover", "-lfun", "-lvar", "-lidle"], check=True, capture_output=True)
    main, words = str(f / "main"), ["--default", str(f)]
    plain, symbols = elfsee(*words, main), elfsee("--symbols", *words, main)
    unused = f"L     1     0 unused   - {lib['over']}\n" + f"L     4     0 unused   - {lib['idle']}\n"
    for more, before in (([], plain), (["--symbols"], symbols)):
        got = elfsee("--unused", *more, *words, main)
        if got != (0, before[1] + unused, "") or before[0]:
            fail(f"unused {more}: {got} in place of {before[1] + unused!r}")
    got = elfsee("--unused", "--problems", *words, main)
    if got != (0, "", ""):
        fail(f"unused and only problems: {got}")
    got = elfsee("--unused", *words, main, str(lib["over"]))
    wanted = f"@ {main}\n{plain[1]}{unused}@ {lib['over']}\n" + elfsee(*words, str(lib["over"]))[1]
    if got != (0, wanted, ""):
        fail(f"unused of two files: {got} in place of {wanted!r}")
    rows = [json.loads(line) for line in elfsee("--unused", "--json", *words, main)[1].splitlines()]
    if rows[-1] != {"line": "L", "index": 4, "needed_by": 0, "state": "unused", "by": "default", "path": str(lib["idle"])}:
        fail(f"unused as an object: {rows[-1]}")
    # Relocation entries where no segment has any: the line of the refusal is the last, and nothing is called unused.
    data = bytearray(Path(main).read_bytes())
    at = entry_at(data, 7)
    struct.pack_into("<Q", data, at + 8, 0x7000000000)
    (f / "bad").write_bytes(data)
    for more, before in (([], elfsee(*words, str(f / "bad"))), (["--symbols"], elfsee("--symbols", *words, str(f / "bad")))):
        code, text, errors = elfsee("--unused", *more, *words, str(f / "bad"))
        if code != 1 or errors or not text.startswith(before[1]) or not re.fullmatch(r"! [0-9a-f]{16} unmapped\n", text[len(before[1]):]):
            fail(f"relocation entries that are not in the file {more}: {code} {text!r} {errors!r}")
