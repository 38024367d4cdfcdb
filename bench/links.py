#!/usr/bin/env python3
"""Time of a link that goes down and comes up, where a million atoms use it, beside a scan of the same rows by `blackholes`.

N distinct prefixes of m0 go on to m1 over l0, in a ring of eight routers, each an atom of its own. At the end of a run
l0 goes down and comes up again so many times, each followed by a `path` over it, which shows what it did and takes next to
nothing. What the run takes more than one without these lines is shared among them: `down` and `up` read the same rows.
The scan is `blackholes m1`, of which one line is printed. All runs have one processor, since a scan has as many as there
are and a link's entry has one.

It prints what an update takes on this machine, both times, and what is held to: a link's time where an update takes a
microsecond, at most 20 ms, and its ratio to the scan, at most 1. Ends with 1 where one isn't held.

Usage: bench/links.py [--product BIN] [RUNS [N]]   runs of each script (3), of which the cheapest counts, and N (1000000), at
       most 16777216. BIN: the program, where it isn't to be built
"""

import contextlib
import os
import sys
import tempfile
from typing import NamedTuple

import program
from prefixes import MAIN, frame
from queries import rows_of
from ring import ROUTERS, words, write_feeds, write_network

COUNT = 1_000_000
TURNS = 20  # how often the link goes down and comes up
SCANS = 40
MOST_MS, MOST_RATIO = 20, 1
LINK, ROUTER = "l0", "m0"
PATH = f"path {ROUTER} 0.0.0.1"
DOWN = ([f"down {LINK}", PATH], [f"hops {ROUTER}", f"end linkdown {LINK}"])
UP = ([f"up {LINK}", PATH], [f"hops {ROUTER} m1", "end noroute"])
SCAN = "blackholes m1"
HOLES = ["at m1 noroute", "0.0.0.0-255.255.255.255"]


class Times(NamedTuple):
    """Seconds of the processor: of an update, of a link that goes down or comes up, and of the scan."""

    update: float
    link: float
    scan: float

    @property
    def scaled(self):
        """The milliseconds of a link where an update takes a microsecond."""
        return self.link * 1e3 / (self.update * 1e6)

    @property
    def ratio(self):
        return self.link / self.scan


# ---- the report that is due


def head(count, links):
    """The head of the report; after the feeds' updates the history has so many entries of links."""
    counts = [count] + [0] * (ROUTERS - 1)
    feeds = "".join(f"feed {i + 1} m{i} updates {n} skipped 0 refused 0 end\n" for i, n in enumerate(counts))
    return f"{feeds}history {count + links}\n".encode()


def end_of_turns(count, turns):
    """The end of the report: the entries of the links, and what is told of each line."""
    entries, told, line = [], [], ROUTERS
    for place in range(1, 2 * turns + 1):
        (said, asked), answer = DOWN if place % 2 else UP
        position = count + place
        entries.append(f"{position} job 1 {said}")
        told += [f"line {line + 1} at {position} {said}", f"line {line + 2} at {position} {asked}", *answer]
        line += 2
    return "\n".join([*entries, "job 1", *told, "done\n"]).encode()


def end_of_scans(count, scans):
    told = [line for k in range(1, scans + 1) for line in (f"line {ROUTERS + k} at {count} {SCAN}", *HOLES)]
    return "\n".join(["job 1", *told, "done\n"]).encode()


# ---- what it takes


@contextlib.contextmanager
def on_one_processor():
    all_of_them = os.sched_getaffinity(0)
    os.sched_setaffinity(0, {min(all_of_them)})
    try:
        yield
    finally:
        os.sched_setaffinity(0, all_of_them)


def write_input(folder, count):
    """Writes the feeds, of which m0's has all prefixes. Answers the folder."""
    write_feeds(folder, 0, None)
    with open(os.path.join(folder, f"{ROUTER}.fpm"), "wb") as out:
        out.writelines(frame(j, MAIN) for j in range(count))
    return folder


def measure(folder, count, runs, one=None):
    """What it takes over the feeds in a folder, by the least times of so many runs of each script."""
    def least(lines, first, last):
        write_network(folder, lines)
        given = folder, ["run", *words(folder)], first, last, one
        return program.cheapest(runs, lambda: program.run_command(*given)).processor

    with on_one_processor():
        none = least([], head(count, 0), b"job 1\ndone\n")
        turns = least((DOWN[0] + UP[0]) * TURNS, head(count, 2 * TURNS), end_of_turns(count, TURNS))
        scans = least([SCAN] * SCANS, head(count, 0), end_of_scans(count, SCANS))
    return Times(none / count, (turns - none) / (2 * TURNS), (scans - none) / SCANS)


def main():
    given = program.prepare(sys.argv[1:])
    runs = int(given[0]) if given else 3
    count = int(given[1]) if len(given) > 1 else COUNT
    if not 0 < count <= 2**24:
        sys.exit("links.py: N is from 1 to 16777216")
    with tempfile.TemporaryDirectory() as folder:
        write_input(folder, count)
        times = measure(folder, count, runs)
    if min(times.link, times.scan) <= 0:
        sys.exit("links.py: so few prefixes take no time that can be told from the rest of a run")
    print(f"{count} prefixes over the link, {rows_of(count)} rows: an update {times.update * 1e6:.3f} us")
    print(f"down or up: {times.link * 1e3:.2f} ms; {SCAN}: {times.scan * 1e3:.2f} ms")
    print(f"where an update takes a microsecond: {times.scaled:.2f} ms, at most {MOST_MS}")
    print(f"over the scan: {times.ratio:.2f}, at most {MOST_RATIO}")
    return 1 if times.scaled > MOST_MS or times.ratio > MOST_RATIO else 0


if __name__ == "__main__":
    sys.exit(main())
