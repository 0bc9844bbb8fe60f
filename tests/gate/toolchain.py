#!/usr/bin/env python3
"""Shows a bug of the kit's compiler, and that tests/gate/stack_probes.py finds it.

    tests/gate/toolchain.py

The kit's clang compiles tests/common/lost_r11.c wrongly: it puts a test before the loop that touches the pages of a large
stack frame, and that loop overwrites register r11, which the test has set. The program is compiled and run here. It
prints whether the answer is wrong, which is no failure: tests/gate/stack_probes.py must find the function
if it is wrong, and find nothing if it is right. So that this is known for a later compiler too, it also looks at
such functions as they are made today, which are below, and at correct ones.

It needs objdump (Debian: binutils); if there is none it says so and looks at nothing. The last line is
`N passed, N failed`, and the status is 0 only if nothing failed.
"""

import os
import shutil
import subprocess
import sys
import tempfile

GATE = os.path.dirname(os.path.realpath(__file__))
ARGUMENTS = (1, 2, 3, 4, 5, 6)
RIGHT = 1 ^ 2 ^ 3 ^ 4
# Runs the function in a process of its own, which may not survive it.
RUN = """
import ctypes, sys
lost = ctypes.CDLL(sys.argv[1]).lost
lost.restype, lost.argtypes = ctypes.c_long, [ctypes.c_long] * 6
print(lost(*map(int, sys.argv[2:])))
"""
# The loop that touches the pages, as the compiler writes it.
PROBE = """
    movq %rsp, %r11
    subq $65536, %r11
1:  subq $4096, %rsp
    movq $0, (%rsp)
    cmpq %r11, %rsp
    jne 1b
"""
END = """
    addq $65536, %rsp
    ret
"""
# Functions that set r11 before the loop, by what does it; each is to be found.
FAULTY = {
    "a copy": "movq %r10, %r11\n xorq %rcx, %r11\n cmpq %r9, %r11\n jne 2f\n ret\n2:" + PROBE + "movq %r11, (%rsp)" + END,
    "32 bits": "movl (%rdi), %r11d\n testl %r11d, %r11d\n jne 2f\n ret\n2:" + PROBE + "movl %r11d, (%rsp)" + END,
    "a byte": "movb (%rdi), %r11b\n" + PROBE + "movb %r11b, (%rsp)" + END,
    "an address": "leaq 8(%rdi), %r11\n" + PROBE + "movq (%r11), %rax" + END,
    "a pop": "pushq %rdi\n popq %r11\n" + PROBE + "movq %r11, (%rsp)" + END,
}
# Functions that set it afterwards, never, or touch no pages; none is to be found.
SOUND = {
    "a value after the loop": PROBE + "movq %rdi, %r11\n movq %r11, (%rsp)" + END,
    "a value in another register": "movq %rdi, %r10\n" + PROBE + "movq %r10, (%rsp)" + END,
    "a value that is only compared": "cmpq %r11, %rdi\n" + PROBE + END,
    "no pages": "movq %rdi, %r11\n movq %r11, %rax\n ret\n",
}


class Kit:
    """The kit's compiler and linker, with a directory for what they make."""

    def __init__(self, folder):
        page = subprocess.run(["rt", "doc"], text=True, stdout=subprocess.PIPE, check=True).stdout.strip()
        self.tools, self.folder = os.path.join(os.path.dirname(page), "toolchain", "bin"), folder

    def shared(self, name, source, *words):
        """A source as a shared library."""
        made = os.path.join(self.folder, name)
        subprocess.run([os.path.join(self.tools, "clang"), *words, "-c", "-o", made + ".o", source], check=True)
        subprocess.run([os.path.join(self.tools, "ld.lld"), "-shared", "-o", made + ".so", made + ".o"], check=True)
        return made + ".so"

    def assembled(self, name, text):
        """A function that is written in the assembler's language."""
        source = os.path.join(self.folder, name + ".s")
        with open(source, "w", encoding="ascii") as file:
            file.write(".globl lost\n.type lost, @function\nlost:\n" + text)
        return self.shared(name, source)


def is_found(file):
    """Whether tests/gate/stack_probes.py finds a function of a file."""
    done = subprocess.run([os.path.join(GATE, "stack_probes.py"), file], text=True, stdout=subprocess.PIPE, check=False)
    return "lost probes the stack" in done.stdout and done.returncode == 1


def main():
    if not shutil.which("objdump"):
        print("skipped: there is no objdump\n0 passed, 0 failed")
        return 0
    cases = []
    with tempfile.TemporaryDirectory() as folder:
        kit = Kit(folder)
        file = kit.shared("compiled", os.path.join(GATE, "..", "common", "lost_r11.c"), "-O2", "-fPIC", "-fno-inline",
                          "-fstack-clash-protection")
        done = subprocess.run([sys.executable, "-c", RUN, file, *map(str, ARGUMENTS)], text=True, stdout=subprocess.PIPE,
                              check=False)
        is_wrong = done.stdout.strip() != str(RIGHT)
        print("the kit's compiler %s" % ("loses r11: %s is the answer, and not %d" % (done.stdout.strip() or "none", RIGHT)
                                         if is_wrong else "no longer loses r11 in tests/common/lost_r11.c"))
        cases.append(("what the compiler makes of lost_r11.c", is_found(file) == is_wrong))
        for number, (name, text) in enumerate(FAULTY.items()):
            cases.append(("r11 is lost: " + name, is_found(kit.assembled("faulty%d" % number, text))))
        for number, (name, text) in enumerate(SOUND.items()):
            cases.append(("nothing is lost: " + name, not is_found(kit.assembled("sound%d" % number, text))))
    for name, is_so in cases:
        print(("ok " if is_so else "FAILED ") + name)
    failed = sum(not is_so for _, is_so in cases)
    print("%d passed, %d failed" % (len(cases) - failed, failed))
    return 1 if failed else 0


if __name__ == "__main__":
    sys.exit(main())
