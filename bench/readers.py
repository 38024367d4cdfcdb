#!/usr/bin/env python3
"""Jobs that ask beside one that applies: how long its N updates take, and how many positions a second the others fix.

The network is a ring of 64 routers, and each update sets a prefix that no other one sets; the feed of m0 is a named pipe. Eight
scripts ask `path` again and again. Where m0's feed is the only one, these jobs read what its job shows; where another job has a
feed of one update, all pin at the lock. Without scripts the same is measured beside it.

Usage: bench/readers.py [--product BIN] [--processors P] [RUNS [N]]
       runs of each (1), of which the fastest counts, and N (100000), at most 8388608
       BIN: the program, where it isn't to be built; P: how many processors the runs may use (all)
"""

import os
import re
import subprocess
import sys
import tempfile

import program
from jobs import Pipe, feed_lines, write
from prefixes import MAIN, frame
from ring import write_network

ROUTERS = 64
READERS = 8
LINES = 60000  # how many queries each script has
QUERY = "path m0 10.0.0.1"


def told(report):
    """The positions of each job's queries, in order of the jobs and of the lines."""
    jobs = report.split(b"\njob ")[1:]
    return [[int(at) for at in re.findall(rb"^line \d+ at (\d+) path", job, re.MULTILINE)] for job in jobs]


def rate(positions, count, seconds):
    """How many positions below the last one a job fixed in a second, if updates go by evenly."""
    within = [at for at in positions if at < count]
    if len(within) < len(positions):
        return len(within) / seconds
    return len(within) / (seconds * max(within[-1], 1) / count)


def measure(folder, count, readers, at_lock):
    """Seconds until m0's updates are taken, and how many positions a second the scripts' jobs fix together."""
    applied = Pipe(folder, "m0.pipe", b"".join(frame(j, MAIN) for j in range(count)))
    write(folder, "ask", f"{QUERY}\n" * LINES)
    with open(os.path.join(folder, "m1.fpm"), "wb") as out:
        out.write(frame(count, MAIN))
    feeds = [f"m0={folder}/m0.pipe", *([f"m1={folder}/m1.fpm"] if at_lock else [])]
    words = [program.PROGRAM, "run", os.path.join(folder, "topology.toml"), *feeds, *[f"@{folder}/ask"] * readers]
    report = os.path.join(folder, "report")
    with open(report, "wb") as out:
        child = subprocess.Popen(words, stdin=subprocess.DEVNULL, stdout=out)
        applied.let_go()
        applied.wait(child)
        status = child.wait()
    with open(report, "rb") as it:
        came = it.read()
    if status != 0 or applied.thread.is_alive() or not came.startswith(feed_lines([count, *([1] if at_lock else [])])):
        sys.exit(f"bench: a wrong report, status {status}; words {' '.join(words)}")
    asked = told(came)[:readers]
    if any(len(positions) != LINES or positions != sorted(positions) for positions in asked):
        sys.exit("bench: not each query has a position, or they fall")
    return applied.seconds, sum(rate(positions, count, applied.seconds) for positions in asked)


def best(folder, count, readers, at_lock, runs):
    return min(measure(folder, count, readers, at_lock) for _ in range(runs))


def main():
    words = sys.argv[1:]
    while words and words[0] in ("--product", "--processors"):
        option, value = words[:2]
        words = words[2:]
        if option == "--product":
            program.PROGRAM = os.path.abspath(value)
        else:
            os.sched_setaffinity(0, sorted(os.sched_getaffinity(0))[: int(value)])
    runs = int(words[0]) if words else 1
    count = int(words[1]) if len(words) > 1 else 100000
    if not 0 < count <= 2**23:
        sys.exit("readers.py: N is at most 8388608")
    if "--product" not in sys.argv:
        program.build()
    print(f"{len(os.sched_getaffinity(0))} processors")
    with tempfile.TemporaryDirectory() as folder:
        write_network(folder, [], ROUTERS)
        alone, _none = best(folder, count, 0, False, runs)
        print(f"{count} updates, nobody asks: {alone:.3f} s", flush=True)
        for at_lock, name in ((False, "what is shown"), (True, "the lock")):
            seconds, pins = best(folder, count, READERS, at_lock, runs)
            print(
                f"{count} updates, {READERS} jobs ask by {name}: {seconds:.3f} s, {seconds / alone:.2f} times as long; "
                f"{pins:.0f} positions a second",
                flush=True,
            )


if __name__ == "__main__":
    main()
