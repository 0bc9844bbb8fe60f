"""What tests/machine/against_ld.py links: sources, how objects are made of them, and the links."""

import collections
import os
import random
import re

from linked_files import Elf, Linked, must, run

C_CODE = r"""
typedef int (*step)(int);
extern int outside(int), shared(int, step), shared_too(void), maybe(void) __attribute__((weak));
extern long table_of_others[], place_of_others;
int common_number; long common_table[20]; char common_text[3];
static int add(int x) { return x + common_number; }
static int twice(int x) { return outside(x) * 2; }
int chosen(int x) { return x ^ (int)common_table[x & 15]; }
__attribute__((weak)) int replaced(int x) { return x - 1; }
__attribute__((weak)) int not_replaced(int x) { return x - 2; }
step steps[] = { add, twice, chosen, not_replaced, outside };
/* Their entries name a definition that another object's replaces. */
__attribute__((section(".data.replaced"))) step others[] = { replaced, add };
__attribute__((noinline, section(".text.replaced")))
int other(int x) { return replaced(x) + others[x & 1](x); }
const char *const words[] = { "one", "two", "three", "four", "one and more" };
static const struct { const char *name; step run; long *at; } rows[] = {
    { "add", add, &common_table[3] }, { "twice", twice, table_of_others + 2 },
    { "place", chosen, &place_of_others } };
int select(int x, int y) {
    switch (x) {
    case 0: return add(y); case 1: return twice(y) + 3; case 2: return chosen(y) * 5;
    case 3: return outside(y - 1); case 4: return y * y; case 5: return (int)table_of_others[y & 3];
    case 6: return shared(y, add); case 7: return steps[y & 3](x); case 8: return words[y & 3][x & 1];
    case 9: return shared_too() - shared(y, twice);
    default: return maybe ? maybe() : -1; }
}
int through(int x) { return shared(x, 0) + shared_too() * outside(x); }
int walk(int n) {
    int sum = 0;
    for (unsigned i = 0; i < sizeof rows / sizeof *rows; i++)
        sum += rows[i].run(n) + rows[i].name[n & 1] + (int)*rows[i].at;
    return sum + select(n, sum) + other(n) + not_replaced(n) + common_text[n & 1];
}
"""

OTHER_C_CODE = r"""
int walk(int), select(int, int), common_number;
long table_of_others[4] = { 1, 2, 3, 4 }, place_of_others = (long)0x1122334455667788;
long *inner[] = { table_of_others + 1, &place_of_others, table_of_others + 3 };
int outside(int x) { return select(x, (int)place_of_others) + (int)*inner[x & 1]; }
int replaced(int x) { return walk(x) + 7; }
__attribute__((noinline, cold)) static int rare(int x) { return select(9, x); }
int begin(void) { return common_number ? rare(3) : walk(1) + outside(2); }
"""

SHARED_C_CODE = """
long shared_place = 5;
int shared(int x, int (*with)(int)) { return with(x) + (int)shared_place; }
int shared_too(void) { return (int)shared_place; }
"""

TABLE_C_CODE = r"""
#define OFFSET __attribute__((tls_model("initial-exec")))
extern __thread int far_thread OFFSET; extern __thread char weak_thread OFFSET __attribute__((weak));
static __thread int near_thread OFFSET = 7;
__thread long own_thread OFFSET; long own_place, *const own_pointer = &own_place;
extern long table_of_others[]; int outside(int), shared(int, int (*)(int)); extern int nobody __attribute__((weak));
static int near(int x) { return x + near_thread; }
int reach(int x) {
    far_thread += x; near_thread ^= (int)own_thread; own_thread -= near_thread;
    return outside(x) + (int)table_of_others[x & 3] + shared(x, near) + (int)(own_place -= far_thread)
        + (&nobody ? nobody : 3);
}
int (*reached(int x))(int) { return x & 1 ? outside : x & 2 ? near : reach; }
"""
INDIRECT_C_CODE = r"""
typedef int (*step)(int);
static int one(int x) { return x + 1; }
static int two(int x) { return x + 2; }
int which;
static step choose(void) { return which ? one : two; }
static step choose_far(void) { return which & 2 ? one : two; }
static step choose_hidden(void) { return which & 4 ? two : one; }
static int near(int) __attribute__((ifunc("choose")));
int far(int) __attribute__((ifunc("choose_far")));
int hidden(int) __attribute__((ifunc("choose_hidden"), visibility("hidden")));
__attribute__((target_clones("avx2", "default"))) int cloned(int x) { return x * 7 / (x | 1); }
static step own = near;
step indirect_steps[] = { near, far, hidden, cloned, one };
int reach_indirect(int x) {
    return near(x) + far(x) * hidden(x) + cloned(x) + own(x) + indirect_steps[x & 3](x);
}
step pick_indirect(int x) { return x & 1 ? near : x & 2 ? far : x & 4 ? hidden : cloned; }
void set_indirect(int x) { own = x ? near : one; indirect_steps[2] = hidden; }
"""
INDIRECT_TOO_C_CODE = r"""
struct { unsigned words[4]; } __cpu_model; unsigned __cpu_features2[4];
int __cpu_indicator_init(void) { return 0; }
int far(int), hidden(int) __attribute__((visibility("hidden"))), cloned(int);
int (*const far_steps[])(int) = { far, hidden, cloned };
int call_indirect(int x) { return far(x) + hidden(x) + cloned(x); }
void *place_of_indirect(int x) { return x ? (void *)far : (void *)hidden; }
"""
THREAD_C_CODE = "__thread int before = 1; __thread int far_thread = 5; __thread char last[3];\n"

PLUS_WORDS = "-fno-exceptions -fno-rtti -fno-threadsafe-statics"
PLUS_HEADER = r"""
extern "C" int outside(int); extern "C" int shared(int, int (*)(int));
struct Shape {
    virtual int area() const { return 0; }
    virtual int edge(int x) { return x; }
    virtual ~Shape();
};
template <class T, int N> struct Grid : Shape {
    T cells[N];
    int area() const override { int sum = 0; for (T cell : cells) sum += (int)cell; return sum; }
    int edge(int x) override { return outside(x) + N; }
};
inline int counted(int x) { static int count = 3; return count += outside(x); }
"""
PLUS_CODE = PLUS_HEADER + r"""
Shape::~Shape() {}
void operator delete(void *, unsigned long) noexcept {}
extern "C" {
    void *__dso_handle;
    int common_number;
    int __cxa_atexit(void (*)(void *), void *, void *) { return 0; }
}
Grid<char, 9> small; Grid<long, 5> large; Shape plain;
Shape *const all[] = { &small, &large, &plain };
extern "C" int select(int x, int y) {
    return all[(unsigned)x % 3]->edge(y) + counted(y) + all[(unsigned)y % 3]->area();
}
extern "C" int walk(int x) { return select(x, counted(x)) + shared(x, outside); }
"""
PLUS_TOO_CODE = PLUS_HEADER + r"""
extern Grid<char, 9> small;
Grid<char, 9> another; Grid<short, 4> third;
int (*const counters[])(int) = { counted, outside };
int measure(Shape &shape, int x) {
    return shape.area() + counters[x & 1](x) + small.area() + another.edge(x);
}
"""

ASSEMBLER = r"""
    .text
    .globl start, small_value, wide_value
start:
    call near
    jmp far_away
    movl $near, %eax
    movq $near, %rax
    movabsq $far_away, %rax
    lea near(%rip), %rcx
    mov absolute, %edx
    call missing@PLT
    .weak missing
near:
    ret
    .reloc near, R_X86_64_NONE, start
    .data
bytes: .byte small_value, small_value + 1, small_value - 3, tiny
halves: .short wide_value, wide_value + 0x1234, tiny - 200
words: .long near, far_away - 7, bytes + 4, absolute
signed: .reloc ., R_X86_64_32S, near + 12
    .long 0
    .reloc ., R_X86_64_32S, low_negative
    .long 0
quads: .quad near, far_away + 0x100000000, bytes, negative, missing
away: .long near - ., far_away - away, missing - . + 0x10
    .quad near - ., bytes - away, negative - .
    .reloc ., R_X86_64_PC64, far_away - 0x1000
    .quad 0
odd: .byte 7
    .quad start
    .byte 9
    .long start - .
overlapping:
    .reloc ., R_X86_64_64, near
    .reloc . + 2, R_X86_64_16, wide_value
    .reloc . + 4, R_X86_64_32, bytes
    .quad 0
falling:
    .reloc . + 8, R_X86_64_32, near
    .reloc ., R_X86_64_32, bytes
    .quad 0, 0
    .section .rodata, "a"
    .balign 64
    .fill 63, 1, 0xcc
    .quad falling
    .fill 57, 1, 0xdd
    .short wide_value
last: .quad last
    .section far_text, "ax"
far_away: leave
    jmp start
    .comm room, 40, 8
    .data
    .quad room, room + 32
"""
ABSOLUTE = {"small_value": 0x7a, "wide_value": 0xed00, "tiny": 2 ** 64 - 5, "absolute": 0x40,
            "negative": 2 ** 64 - 2 ** 40, "low_negative": 2 ** 64 - 2 ** 31}

# How an object is made: its name, its source and the compiler's words.
OBJECTS = {
    "fixed.o": ("code.c", "-O2 -fno-pic -mcmodel=small -fcommon"),
    "fixed_other.o": ("other.c", "-O2 -fno-pic -mcmodel=small -fcommon"),
    "fixed_parts.o": ("code.c", "-O2 -fno-pic -fcommon -ffunction-sections -fdata-sections"),
    "slow.o": ("code.c", "-O0 -fno-pic -fno-common -g"),
    "slow_other.o": ("other.c", "-O1 -fno-pic -fcommon -g -gno-column-info"),
    "any.o": ("code.c", "-O2 -fPIC -fcommon -ffunction-sections"),
    "any_other.o": ("other.c", "-O2 -fPIC -fcommon -ffunction-sections -fdata-sections"),
    "hidden.o": ("code.c", "-O2 -fPIC -fcommon -fvisibility=hidden -ffunction-sections"),
    "hidden_other.o": ("other.c", "-O3 -fPIC -fcommon -fvisibility=hidden"),
    "merged.o": ("code.c", "-O2 -fno-pic -fcommon -fmerge-constants"),
    "kernel.o": ("code.c", "-O2 -fno-pic -mcmodel=kernel -mno-red-zone -fcommon"),
    "kernel_other.o": ("other.c", "-Os -fno-pic -mcmodel=kernel -mno-red-zone -fcommon"),
    "plus.o": ("plus.cc", "-O2 -fno-pic " + PLUS_WORDS),
    "plus_any.o": ("plus.cc", "-O2 -fPIC -ffunction-sections " + PLUS_WORDS),
    "plus_too.o": ("plus_too.cc", "-O2 -fno-pic " + PLUS_WORDS),
    "shared.o": ("shared.c", "-O2 -fPIC"),
    "shared_fixed.o": ("shared.c", "-O2 -fno-pic"),
    "table.o": ("table.c", "-O2 -fPIC -ffunction-sections"),
    "table_slow.o": ("table.c", "-O0 -fPIC -fcf-protection -Wa,-mrelax-relocations=no"),
    "thread.o": ("thread.c", "-O2 -fPIC"),
    "indirect.o": ("indirect.c", "-O2 -fno-pic"),
    "indirect_too.o": ("indirect_too.c", "-O2 -fno-pic"),
    "indirect_slow.o": ("indirect.c", "-O0 -fno-pic -g -ffunction-sections -fdata-sections"),
    "indirect_any.o": ("indirect.c", "-O2 -fPIC -ffunction-sections"),
    "indirect_any_too.o": ("indirect_too.c", "-O2 -fPIC"),
    "packed.o": ("code.c", "-O1 -fno-pic -fcommon -g -gz"),
    "data.o": ("data.s", ""),
}
# What is linked: its name, its objects, and from where on: each section by itself, or all together.
APART, TOGETHER = "apart", "together"
LINKS = [
    ("fixed", ["fixed.o", "fixed_other.o", "shared_fixed.o"], APART, 0x400000),
    ("fixed_together", ["fixed.o", "fixed_other.o", "shared_fixed.o"], TOGETHER, 0x10000),
    ("parts", ["fixed_parts.o", "fixed_other.o", "shared_fixed.o"], APART, 0x20000000),
    ("slow", ["slow.o", "slow_other.o", "shared_fixed.o"], TOGETHER, 0x70000000),
    ("any", ["any.o", "any_other.o", "shared.o"], APART, 0x7000_0000_0000),
    ("hidden", ["hidden.o", "hidden_other.o", "shared.o"], APART, 0xffff_8000_0000_0000),
    ("hidden_together", ["hidden.o", "hidden_other.o", "shared.o"], TOGETHER, 0x1000),
    ("merged", ["merged.o", "fixed_other.o", "shared_fixed.o"], TOGETHER, 0x400000),
    ("kernel", ["kernel.o", "kernel_other.o", "shared.o"], APART, 0xffff_ffff_8000_0000),
    ("kernel_together", ["kernel.o", "kernel_other.o", "shared.o"], TOGETHER, 0xffff_ffff_f000_0000),
    ("plus", ["plus.o", "fixed_other.o", "shared_fixed.o"], APART, 0x400000),
    ("plus_any", ["plus_any.o", "hidden_other.o", "shared.o"], TOGETHER, 0x5555_0000_0000),
    ("plus_too", ["plus.o", "plus_too.o", "fixed_other.o", "shared_fixed.o"], TOGETHER, 0x400000),
    ("data", ["data.o"], APART, 0x8000),
    ("data_together", ["data.o"], TOGETHER, 0x400000),
    ("indirect", ["indirect.o", "indirect_too.o"], APART, 0x400000),
    ("indirect_together", ["indirect.o", "indirect_too.o"], TOGETHER, 0x400000),
    ("indirect_slow", ["indirect_slow.o", "indirect_too.o"], TOGETHER, 0x10000000),
    ("indirect_any", ["indirect_any.o", "indirect_any_too.o"], TOGETHER, 0x7000_0000_0000),
    ("indirect_shared", ["indirect_any.o", "indirect_any_too.o"], TOGETHER, 0, "-shared"),
    ("indirect_pie", ["indirect_any.o", "indirect_any_too.o"], TOGETHER, 0, "-pie"),
    ("packed", ["packed.o", "fixed_other.o", "shared_fixed.o"], TOGETHER, 0x400000),
    ("table", ["table.o", "thread.o", "any.o", "any_other.o", "shared.o"], TOGETHER, 0x400000),
    ("table_shared", ["table.o", "thread.o", "any.o", "any_other.o", "shared.o"], TOGETHER, 0, "-shared"),
    ("table_slow_shared", ["table_slow.o", "thread.o", "any.o", "any_other.o"], TOGETHER, 0x10000, "-shared"),
    ("table_through_linkage", ["table.o", "any.o", "any_other.o", "libshared.so"], TOGETHER, 0, "-shared"),
    ("hidden_shared", ["hidden.o", "hidden_other.o", "table.o", "shared.o"], TOGETHER, 0, "-shared"),
    ("plus_shared", ["plus_any.o", "any_other.o", "shared.o"], TOGETHER, 0, "-shared"),
    ("table_pie", ["table.o", "thread.o", "any.o", "any_other.o", "shared.o"], TOGETHER, 0, "-pie"),
    ("table_slow_pie", ["table_slow.o", "thread.o", "hidden.o", "hidden_other.o", "libshared.so"], TOGETHER, 0, "-pie"),
    ("plus_pie", ["plus_any.o", "hidden_other.o", "libshared.so"], TOGETHER, 0, "-pie"),
    ("through_linkage", ["fixed.o", "fixed_other.o", "libshared.so"], TOGETHER, 0x400000),
    ("any_through_linkage", ["any.o", "any_other.o", "libshared.so"], TOGETHER, 0x600000),
    ("plus_through_linkage", ["plus.o", "fixed_other.o", "libshared.so"], TOGETHER, 0x800000),
]


def write_sources(folder):
    for name, text in (("code.c", C_CODE), ("other.c", OTHER_C_CODE), ("shared.c", SHARED_C_CODE),
                       ("table.c", TABLE_C_CODE), ("thread.c", THREAD_C_CODE),
                       ("indirect.c", INDIRECT_C_CODE), ("indirect_too.c", INDIRECT_TOO_C_CODE),
                       ("plus.cc", PLUS_CODE), ("plus_too.cc", PLUS_TOO_CODE), ("data.s", ASSEMBLER)):
        with open(os.path.join(folder, name), "w", encoding="ascii") as file:
            file.write(text)


def make_objects(folder):
    """Compiles each source as the table says, without constants that ld would merge, if the table
    does not say otherwise."""
    write_sources(folder)
    for name, (source, words) in OBJECTS.items():
        compiler = "g++" if source.endswith(".cc") else "gcc"
        must([compiler, "-c", "-fno-merge-constants", "-fno-asynchronous-unwind-tables", *words.split(),
              "-o", os.path.join(folder, name), os.path.join(folder, source)])
    must(["gcc", "-shared", "-o", os.path.join(folder, "libshared.so"), os.path.join(folder, "shared.o")])


def apart_script(paths, start, chance):
    """A script for ld that puts each section of each object at an address of its own."""
    lines, address = [], start
    for path in paths:
        obj = Elf(path)
        for section in obj.sections:
            if section.flags & 2 and section.size and section.type in (1, 8, 14, 15):
                address += -address % max(section.align, 1)
                lines.append("  .at_%x 0x%x : { KEEP(%s(%s)) }" % (address, address, path, section.name))
                address += section.size + chance.choice((1, 64, 4096, 65537, 0x20000))
        lines.append("  .common_%x 0x%x (NOLOAD) : { %s(COMMON) }" % (address, address + 256, path))
        address += 0x10000
    lines.append("  /DISCARD/ : { *(.note.GNU-stack .note.gnu.property .comment) }")
    return "SECTIONS {\n%s\n}\n" % "\n".join(lines)


def link(folder, name, objects, how, start, *kind):
    """Links objects, and gives the linked file."""
    out, map_path = os.path.join(folder, name + ".out"), os.path.join(folder, name + ".map")
    paths = [os.path.join(folder, it) for it in objects]
    words = ["ld", "-o", out, "-Map", map_path, "-e", "0", "--no-relax", "-z", "noexecstack", "-z", "lazy",
             "-z", "norelro", "--no-warn-rwx-segments"]
    words += ["--defsym=%s=0x%x" % pair for pair in ABSOLUTE.items()] if not kind else kind
    if 2 ** 31 <= start < 2 ** 64 - 2 ** 31:
        # The address 0 is too far for a call of what nobody defines.
        words.append("--defsym=maybe=0x%x" % (start + 0x123))
    if how == APART:
        script = os.path.join(folder, name + ".script")
        with open(script, "w", encoding="utf-8") as file:
            file.write(apart_script(paths, start, random.Random(name)))
        words += ["-T", script]
    else:
        words += ["-Ttext-segment=0x%x" % start]
    must([*words, *paths])
    return Linked(out, map_path, kind), paths


STATIC_CODE = {
    "static.c": """#include <stdio.h>
#include <stdlib.h>
int main(int n, char **words)
{ qsort(words, n, 8, (void *)puts); return printf("%f %s", n * 1.5, *words); }
""",
    "static.cc": """#include <iostream>
#include <map>
#include <string>
int main(int n, char **words)
{ std::map<std::string, int> counts; while (n--) counts[words[n]]++;
  for (auto &it : counts) std::cout << it.first << it.second << '\\n'; }
""",
}


def static_program(folder, name, kind):
    """A static program, with the members of the libraries that it takes: each with its path here, and
    the path that the map has."""
    source, out = os.path.join(folder, name), os.path.join(folder, name + kind + ".out")
    map_path, members = os.path.join(folder, name + kind + ".map"), os.path.join(folder, name + ".members")
    with open(source, "w", encoding="ascii") as file:
        file.write(STATIC_CODE[name])
    must(["g++" if name.endswith("cc") else "gcc", "-O2", *kind.split(), "-o", out, source,
          "-Wl,--no-relax,-z,lazy,-Map=" + map_path])
    linked = Linked(out, map_path)
    os.makedirs(members, exist_ok=True)
    taken = collections.defaultdict(set)
    for place, _ in linked.placed:
        found = re.fullmatch(r"(.*\.a)\((.*)\)", place)
        if found:
            taken[found[1]].add(found[2])
        elif os.path.isfile(place):
            yield linked, place, place
    for library, names in taken.items():
        listed = run(["ar", "t", library]).stdout.decode().split("\n")
        # Of two members of one name it is not known which was taken.
        for member in sorted(it for it in names if listed.count(it) == 1):
            path = os.path.join(members, member)
            with open(path, "wb") as file:
                file.write(run(["ar", "p", library, member]).stdout)
            yield linked, path, "%s(%s)" % (library, member)
