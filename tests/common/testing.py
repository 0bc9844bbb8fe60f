"""What the tests share: the repository, its program, the options that each test has, and the count of its cases."""

import argparse
import os
import subprocess
import sys

TOP = os.path.dirname(os.path.dirname(os.path.dirname(os.path.realpath(__file__))))


def option_reader(description):
    """A reader of the command line of a test, with the option for the program."""
    reader = argparse.ArgumentParser(description=description, formatter_class=argparse.RawDescriptionHelpFormatter)
    reader.add_argument("--program", metavar="PROGRAM", help="the program to test; without it ./build makes it")
    return reader


def built(*words):
    """What a script of the repository, such as ./build, makes and prints the path of. Without it nothing can be tested: status 2."""
    done = subprocess.run([os.path.join(TOP, words[0]), *words[1:]], stdin=subprocess.DEVNULL, stdout=subprocess.PIPE, text=True,
                          check=False)
    if done.returncode != 0:
        print(f"{words[0]} failed, so nothing was tested", file=sys.stderr)
        sys.exit(2)
    return done.stdout.strip()


def program_of(given):
    """The path of the program that the command line names, or of the repository's own, which is built if it is not."""
    program = os.path.realpath(given.program or built("build"))
    if not os.access(program, os.X_OK):
        print(f"there is no program at {program}", file=sys.stderr)
        sys.exit(2)
    return program


class Counts:
    """How many cases passed and failed."""

    def __init__(self):
        self.passed, self.failed = 0, 0

    def case(self, name, wrong=""):
        """Counts a case and prints it; `wrong` says what is not as it has to be, and is empty if nothing is."""
        if not wrong:
            print(f"ok {name}", flush=True)
        self.quiet_case(name, wrong)

    def quiet_case(self, name, wrong):
        """Counts a case, and prints it if it failed."""
        if wrong:
            self.failed += 1
            print(f"FAILED {name}: {wrong}", flush=True)
        else:
            self.passed += 1

    def check(self, what, wanted, got):
        """Compares what a case gives with what is wanted."""
        self.quiet_case(what, "" if wanted == got else f"wanted {wanted!r:.600}, got {got!r:.600}")

    def end(self, is_skipped=False):
        """Prints the counts. Gives the exit status, which is 0 if none failed and one passed, or nothing could be tried here."""
        print(f"{self.passed} passed, {self.failed} failed")
        return 0 if not self.failed and (self.passed or is_skipped) else 1


class Claims(Counts):
    """The same of claims, of which many may fail: the first are printed."""

    def check(self, name, is_so, said=""):
        if is_so:
            self.passed += 1
        else:
            self.failed += 1
            if self.failed <= 50:
                print(f"FAILED {name}: {said}")
