"""The built program: where it is, and runs of it that are timed or whose instructions are counted."""

import hashlib
import os
import re
import subprocess
import sys
from typing import NamedTuple

TOP = os.path.dirname(os.path.dirname(os.path.abspath(__file__)))
PROGRAM = os.path.join(TOP, "crates", "query_cli", "out", "query_cli")

# A process is charged with the memory of the one that it was forked from, and a script may hold whole feeds. So a small one
# starts the program, and tells what it took.
LAUNCHER = """
import os, sys, time
start = time.monotonic()
child = os.fork()
if child == 0:
    try:
        os.execv(sys.argv[2], sys.argv[2:])
    finally:
        os._exit(126)
_, status, used = os.wait4(child, 0)
clock = time.monotonic() - start
told = os.waitstatus_to_exitcode(status), clock, used.ru_utime, used.ru_stime, used.ru_maxrss * 1024
os.write(int(sys.argv[1]), " ".join(map(str, told)).encode())
"""


class Cost(NamedTuple):
    """What a run took: seconds on the clock, seconds of the processor in the program and in the system for it, and peak
    memory in bytes."""

    clock: float
    user: float
    system: float
    memory: int

    @property
    def processor(self):
        return self.user + self.system


def prepare(words):
    """Takes `--product BIN` off a script's words, which names the program; without it, builds the program. Answers the
    other words."""
    global PROGRAM
    product, words = option(words, "--product")
    if product:
        PROGRAM = os.path.abspath(product)
    else:
        build()
    return words


def option(words, name):
    """The value of an option, None where it isn't there, and the words without it."""
    if name not in words:
        return None, words
    place = words.index(name)
    return words[place + 1], words[:place] + words[place + 2 :]


def flag(words, name):
    """Whether a word is there, and the words without it."""
    return name in words, [word for word in words if word != name]


def build():
    """Builds the program where need be, and stops where it can't."""
    subprocess.run([os.path.join(TOP, "deltanet"), "build"], stdin=subprocess.DEVNULL, stdout=subprocess.DEVNULL)
    if not os.access(PROGRAM, os.X_OK):
        sys.exit("bench: the program isn't built")


def cheapest(runs, call):
    """What the cheapest of several runs took, by the time of the processor. `call` makes one."""
    return min((call() for _ in range(runs)), key=lambda cost: cost.processor)


def gauge(runs, is_counted):
    """What runs are measured by, a function of what `run_command` is given, and its unit: microseconds of the processor, of
    the cheapest of so many runs, or instructions."""
    def microseconds(*given):
        return cheapest(runs, lambda: run_command(*given)).processor * 1e6

    return (instructions, "instructions") if is_counted else (microseconds, "us")


def run(folder, words, head, end):
    """Runs `deltanet run` with these words, as `run_command` does."""
    return run_command(folder, ["run", *words], head, end)


def launch(words, out, program=None):
    """Starts `deltanet`, or another program, with these words from a small process. Answers its status and what it took."""
    reader, writer = os.pipe()
    launcher = [sys.executable, "-I", "-S", "-c", LAUNCHER, str(writer)]
    subprocess.run([*launcher, program or PROGRAM, *words], stdin=subprocess.DEVNULL, stdout=out, pass_fds=[writer])
    os.close(writer)
    with open(reader, "rb") as it:
        status, clock, user, system, memory = it.read().split()
    return int(status), Cost(float(clock), float(user), float(system), int(memory))


def count(words, out, program=None):
    """The same under valgrind's cachegrind: its status and how many instructions it took, which other work on the machine
    doesn't change."""
    counter = ["valgrind", "--tool=cachegrind", "--cache-sim=no", "--cachegrind-out-file=/dev/null"]
    done = subprocess.run([*counter, program or PROGRAM, *words], stdin=subprocess.DEVNULL, stdout=out, stderr=subprocess.PIPE,
                          text=True)
    counted = re.search(r"I\s+refs:\s+([\d,]+)", done.stderr)
    if not counted:
        sys.exit(f"bench: valgrind failed: {done.stderr[-500:]}")
    return done.returncode, int(counted[1].replace(",", ""))


def run_command(folder, words, head, end, program=None):
    """Runs `deltanet`, or another program, with these words, and stops where it fails or its report hasn't this head and
    this end. Answers what it took. The report is left in the folder."""
    report = os.path.join(folder, "report")
    with open(report, "wb") as out:
        status, cost = launch(words, out, program)
    check(report, status, words, head, end)
    return cost


def check(report, status, words, head, end):
    """Stops where a run failed, or where its report hasn't this head and this end."""
    size = os.path.getsize(report)
    with open(report, "rb") as it:
        first = it.read(len(head))
        it.seek(max(0, size - len(end)))
        last = it.read()
    if status != 0 or first != head or last != end:
        sys.exit(f"bench: a wrong report, status {status}; words {' '.join(words)}")


def sum_of(folder):
    """The hash of the last report."""
    with open(os.path.join(folder, "report"), "rb") as it:
        return hashlib.file_digest(it, "sha256").hexdigest()


def instructions(folder, words, head, end, program=None):
    """How many instructions a run takes. The report is checked as by `run_command`."""
    report = os.path.join(folder, "report")
    with open(report, "wb") as out:
        status, counted = count(words, out, program)
    check(report, status, words, head, end)
    return counted
