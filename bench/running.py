"""Runs a program quietly, and returns its time, its peak memory and its system calls."""

import collections
import ctypes
import datetime
import os
import platform
import re
import subprocess
import sys
import time

READS = ("read", "pread64", "readv", "preadv", "lseek")
ENVIRONMENT = dict(os.environ, LC_ALL="C", DEBUGINFOD_URLS="")
QUIET = [(os.POSIX_SPAWN_OPEN, 0, os.devnull, os.O_RDONLY, 0),
         (os.POSIX_SPAWN_OPEN, 1, os.devnull, os.O_WRONLY, 0),
         (os.POSIX_SPAWN_OPEN, 2, os.devnull, os.O_WRONLY, 0)]

# Wall seconds, and user and system seconds.
Run = collections.namedtuple("Run", "wall processor")


TOP = os.path.dirname(os.path.dirname(os.path.abspath(__file__)))
# What a page has around a measured text that is written into it.
BEGIN = "<!-- Measured, down to the end. -->"
END = "<!-- The end of what was measured. -->"


def in_memory():
    """Where many small files are made: a directory in memory if there is one, otherwise None."""
    return "/dev/shm" if os.access("/dev/shm", os.W_OK) else None


def put_into(path, text):
    """Puts a measured text between the markers of a page."""
    with open(path, encoding="utf-8") as file:
        before, rest = file.read().split(BEGIN)
        _, after = rest.split(END)
    with open(path, "w", encoding="utf-8") as file:
        file.write(f"{before}{BEGIN}\n\n{text}\n{END}{after}")


def built_program():
    """The path of the repository's own program, which is built first if it is not built."""
    done = subprocess.run([os.path.join(TOP, "build")], stdin=subprocess.DEVNULL, stdout=subprocess.PIPE, check=False)
    if done.returncode != 0:
        sys.exit("the program was not built")
    return os.fsdecode(done.stdout.rstrip(b"\n"))


def commit():
    """The commit that is measured."""
    told = subprocess.run(["git", "-C", TOP, "rev-parse", "--short=8", "HEAD"],
                          stdout=subprocess.PIPE, stderr=subprocess.DEVNULL, check=False)
    return os.fsdecode(told.stdout.strip()) or "unknown"


def version(path):
    """The line in which a program gives its version."""
    text = subprocess.run([path, "--version"], stdout=subprocess.PIPE, check=False).stdout
    lines = text.decode("utf-8", "replace").split("\n")
    return next((line.strip() for line in lines if re.search(r"\d\.\d", line)), "unknown")


def from_system(path, word):
    """What a file of the system says after a word and a colon."""
    with open(path, encoding="ascii", errors="replace") as lines:
        return next((line.split(":")[1].strip() for line in lines if line.startswith(word)), "")


def facts(programs, load):
    """When, on which machine and with which other programs it was measured."""
    memory = int(from_system("/proc/meminfo", "MemTotal").split()[0]) * 1024 / 1e9
    now = datetime.datetime.now(datetime.timezone.utc)
    return [
        "- Begun on %s UTC, at a load average of %.1f." % (now.strftime("%Y-%m-%d %H:%M"), load),
        "- Machine: %d cores of %s, %.0f GB of memory, %s %s." % (
            len(os.sched_getaffinity(0)), from_system("/proc/cpuinfo", "model name"), memory,
            platform.system(), platform.release()),
        "- Programs: %s." % "; ".join(version(path) for path in programs)]


def instructions(words, text=os.devnull, statuses=(0,)):
    """How many instructions a program and what it starts take, by valgrind's callgrind; its output goes into a file."""
    with open(text, "wb") as out:
        told = subprocess.run(["valgrind", "--tool=callgrind", "--trace-children=yes",
                               "--callgrind-out-file=/dev/null", *words], stdin=subprocess.DEVNULL,
                              stdout=out, stderr=subprocess.PIPE, env=ENVIRONMENT, check=False)
    found = re.findall(rb"Collected : (\d+)", told.stderr)
    if told.returncode not in statuses or not found:
        sys.exit(f"{words[0]} ends with status {told.returncode}: {os.fsdecode(told.stderr[-300:])}")
    return sum(map(int, found))


def run_once(words):
    began = time.perf_counter()
    process = os.posix_spawn(words[0], words, ENVIRONMENT, file_actions=QUIET)
    _, _, usage = os.wait4(process, 0)
    return Run(time.perf_counter() - began, usage.ru_utime + usage.ru_stime)


def runs_in_turn(words_of, count):
    """A given number of runs of each program, the programs taking turns."""
    runs = {name: [] for name in words_of}
    for _ in range(count):
        for name, words in words_of.items():
            runs[name].append(run_once(words))
    return runs


def best_runs(words_of, count):
    """The best of a given number of runs of each program, the programs taking turns."""
    runs = runs_in_turn(words_of, count)
    return {name: Run(min(run.wall for run in of_one), min(run.processor for run in of_one))
            for name, of_one in runs.items()}


def adopt_orphans():
    """From now on a process whose parent has ended is a child of this one."""
    set_child_subreaper = 36
    if ctypes.CDLL(None).prctl(set_child_subreaper, 1, 0, 0, 0) != 0:
        sys.exit("processes without a parent cannot be adopted")


def peak_memory(words):
    """The most bytes of memory that a run held. The system counts among them what the process
    held that started it; so a small shell starts it, and leaves it to this one."""
    shell = os.posix_spawn("/bin/sh", ["sh", "-c", '"$@" &', "sh", *words], ENVIRONMENT,
                           file_actions=QUIET)
    os.waitpid(shell, 0)
    _, _, usage = os.wait4(-1, 0)
    return usage.ru_maxrss * 1024


def system_calls(strace, words, room):
    """How many system calls a run makes, and how many of them read or seek."""
    path = os.path.join(room, "calls")
    run_once([strace, "-f", "-c", "-o", path, *words])
    counts = {}
    with open(path, encoding="ascii") as lines:
        for columns in map(str.split, lines):
            if len(columns) >= 5 and columns[3].isdigit() and columns[-1] != "total":
                counts[columns[-1]] = int(columns[3])
    return sum(counts.values()), sum(counts.get(name, 0) for name in READS)


def listed(words):
    """The exit status of a listing, how many lines it has, and the last of them."""
    done = subprocess.run(words, stdin=subprocess.DEVNULL, stdout=subprocess.PIPE,
                          stderr=subprocess.DEVNULL, env=ENVIRONMENT, check=False)
    last = done.stdout[-4096:].decode("ascii", "replace").rstrip("\n").split("\n")[-1]
    return done.returncode, done.stdout.count(b"\n"), last
