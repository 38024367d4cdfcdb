#!/usr/bin/env python3
"""Time of the queries that all processors answer, over N distinct prefixes dealt out to 64 routers in a ring, on 1, 2 and
4 processors.

Each query is asked several times at the end of a run, and its time is what the run takes more by the clock than one that
asks nothing on as many processors. The answers are those of `queries.py`, and compared.

Usage: bench/scans.py [--product BIN] [RUNS [N]]   runs of each script (3), of which the fastest counts, and N (100000)
       BIN: the program, where it isn't to be built
"""

import os
import sys
import tempfile

import program
import queries
from prefixes import MAIN, frame
from ring import words, write_feeds, write_network

ROUTERS = 64
PROCESSORS = (1, 2, 4)
QUERIES = ("reach m0 m1", "blackholes m0", "without l0 loops")
ASKED = 16  # how often each query is asked in a run


def seconds(folder, count, query, answer, runs):
    """The least time by the clock of a run that asks this query several times, or nothing."""
    times = ASKED if query else 0
    write_network(folder, [query] * times, ROUTERS)
    due = queries.expected(count, ROUTERS, query, answer, times)
    return min(program.run(folder, words(folder, ROUTERS), *due).clock for _ in range(runs))


def main():
    given = program.prepare(sys.argv[1:])
    runs = int(given[0]) if given else 3
    count = int(given[1]) if len(given) > 1 else 100000
    count -= count % ROUTERS
    free = sorted(os.sched_getaffinity(0))
    answers = queries.answers(count, ROUTERS)
    rows = queries.rows_of(count)
    least = {}
    with tempfile.TemporaryDirectory() as folder:
        write_feeds(folder, count, lambda j: frame(j, MAIN), ROUTERS)
        for processors in PROCESSORS:
            if processors > len(free):
                print(f"{processors} processors: there aren't as many")
                continue
            os.sched_setaffinity(0, free[:processors])
            none = seconds(folder, count, "", "", runs)
            for query in QUERIES:
                took = (seconds(folder, count, query, answers[query], runs) - none) / ASKED
                least.setdefault(query, took)
                print(
                    f"{processors} processors, {rows} rows: {query}: {took * 1000:.1f} ms, "
                    f"{least[query] / took:.2f} times as fast as on one",
                    flush=True,
                )


if __name__ == "__main__":
    main()
