#!/usr/bin/env python3
"""Jobs side by side: time of N updates dealt out to 1, 2, 4, 16 and 64 jobs of one feed each, beside one job that takes
all of the same feeds; and how long a job's updates take while other jobs ask queries. User time, that of the program itself,
is told apart from system time, in which callers are put to sleep and woken.

The network is a ring of 64 routers, and each update sets a prefix that no other one sets. For the second part each of two
scripts takes half of N prefixes and then asks a hundred queries, while a third job applies N updates more; all feeds are
named pipes, so that it is seen when a job has taken all of one but its last 64 KiB. Without asking the same is measured
beside it.

Usage: bench/jobs.py [--product BIN] [--processors P] [RUNS [N]]
       runs of each (1), of which the cheapest counts, and N (64000), a multiple of 64, at most 8388608
       BIN: the program, where it isn't to be built; P: how many processors the runs may use (all)
"""

import os
import subprocess
import sys
import tempfile
import threading
import time

import program
from prefixes import MAIN, frame
from ring import write_feeds, write_network

ROUTERS = 64
JOBS = (1, 2, 4, 16, 64)
ASKED = 100  # how many queries each asking script has
QUERY = "reach m0 m1"


def write(folder, name, text):
    with open(os.path.join(folder, name), "w") as out:
        out.write(text)


def feed_lines(counts):
    """What the report tells of the feeds of m0, m1 and so on, with so many updates each."""
    lines = (f"feed {i + 1} m{i} updates {count} skipped 0 refused 0 end\n" for i, count in enumerate(counts))
    return f"{''.join(lines)}history {sum(counts)}\n".encode()


# ---- jobs that apply


def measure_jobs(folder, jobs, count, runs):
    """What a run costs whose feeds are jobs of their own, and one whose only job takes all of them; they run turn about."""
    write_feeds(folder, count, lambda j: frame(j, MAIN), jobs)
    write(folder, "all", "".join(f"take m{i} all\n" for i in range(jobs)))
    feeds = [os.path.join(folder, "topology.toml"), *(f"m{i}={folder}/m{i}.fpm" for i in range(jobs))]
    head = feed_lines([count // jobs] * jobs)
    ends = "".join(f"job {j + 1}\n" for j in range(jobs))
    apart, alone = [], []
    for _ in range(runs):
        apart.append(program.run(folder, feeds, head, f"{ends}done\n".encode()))
        alone.append(program.run(folder, [*feeds, f"@{folder}/all"], head, b"job 1\ndone\n"))
    return [min(costs, key=lambda cost: cost.processor) for costs in (apart, alone)]


def told(cost):
    return f"{cost.clock:.3f} s, user {cost.user:.3f} s, system {cost.system:.3f} s"


def measure_applying(folder, count, runs):
    for jobs in JOBS:
        apart, alone = measure_jobs(folder, jobs, count, runs)
        print(
            f"{jobs} jobs, {count} updates: {told(apart)}; one job with all: {told(alone)}; "
            f"clock of one over that of {jobs}: {alone.clock / apart.clock:.2f}, "
            f"user time of {jobs} over that of one: {apart.user / alone.user:.2f}, "
            f"user and system: {apart.processor / alone.processor:.2f}",
            flush=True,
        )


# ---- a job that applies while others ask


class Pipe:
    """A named pipe that gives a feed, from a thread of its own, once it is let go."""

    def __init__(self, folder, name, content):
        self.path, self.content, self.seconds = os.path.join(folder, name), content, None
        self.free = threading.Event()
        if os.path.exists(self.path):
            os.remove(self.path)
        os.mkfifo(self.path)
        self.thread = threading.Thread(target=self.give, daemon=True)
        self.thread.start()

    def give(self):
        with open(self.path, "wb", buffering=0) as out:
            self.free.wait()
            start = time.monotonic()
            left = memoryview(self.content)
            while left:
                left = left[out.write(left[: 2**16]) :]
        self.seconds = time.monotonic() - start

    def let_go(self):
        self.free.set()

    def wait(self, child):
        """Waits until all is taken, or the program has ended."""
        while self.thread.is_alive() and child.poll() is None:
            self.thread.join(0.1)


def measure_beside(folder, count, asked, one=None):
    """Seconds until m0's updates are taken, after two other jobs have taken half as many each and begun to ask."""
    half = count // 2
    frames = [b"".join(frame(j, MAIN) for j in range(first, past)) for first, past in ((0, half), (half, 2 * half))]
    first, second = (Pipe(folder, f"m{i + 1}.pipe", frames[i]) for i in range(2))
    applied = Pipe(folder, "m0.pipe", b"".join(frame(j, MAIN) for j in range(2 * half, 2 * half + count)))
    for i in (1, 2):
        write(folder, f"ask{i}", f"take m{i} all\n" + f"{QUERY}\n" * asked)
    words = [f"m{i}={folder}/m{i}.pipe" for i in range(3)] + [f"@{folder}/ask{i}" for i in (1, 2)]
    words = [one or program.PROGRAM, "run", os.path.join(folder, "topology.toml"), *words]
    report = os.path.join(folder, "report")
    with open(report, "wb") as out:
        child = subprocess.Popen(words, stdin=subprocess.DEVNULL, stdout=out)
        for pipe in (first, second):
            pipe.let_go()
        for pipe in (first, second):
            pipe.wait(child)
        applied.let_go()
        applied.wait(child)
        status = child.wait()
    with open(report, "rb") as it:
        came = it.read()
    head = feed_lines([count, half, half])
    answers = came.count(f" {QUERY}\n".encode())
    if status != 0 or applied.thread.is_alive() or not came.startswith(head) or answers != 2 * asked:
        sys.exit(f"bench: a wrong report, status {status}; words {' '.join(words)}")
    return applied.seconds


def measure_asking(folder, count, runs):
    alone = min(measure_beside(folder, count, 0) for _ in range(runs))
    beside = min(measure_beside(folder, count, ASKED) for _ in range(runs))
    print(
        f"{count} updates over {count} prefixes: {alone:.3f} s; beside two jobs that ask {ASKED} queries each: "
        f"{beside:.3f} s; ratio {beside / alone:.2f}",
        flush=True,
    )


def main():
    processors, words = program.option(sys.argv[1:], "--processors")
    words = program.prepare(words)
    if processors:
        os.sched_setaffinity(0, sorted(os.sched_getaffinity(0))[: int(processors)])
    runs = int(words[0]) if words else 1
    count = int(words[1]) if len(words) > 1 else 64000
    if count % ROUTERS or not 0 < count <= 2**23:
        sys.exit("jobs.py: N is a multiple of 64, at most 8388608")
    print(f"{len(os.sched_getaffinity(0))} processors")
    with tempfile.TemporaryDirectory() as folder:
        write_network(folder, [], ROUTERS)
        measure_applying(folder, count, runs)
        measure_asking(folder, count, runs)


if __name__ == "__main__":
    main()
