#!/usr/bin/env python3
"""Time and peak memory of N distinct prefixes over 1,024 routers in a ring, of which 64 have feeds, each at the same distance
from the next: what a network costs whose other routers do nothing.

Usage: bench/wide.py [--product BIN] [RUNS [N]]    runs (1), of which the cheapest counts, and N (100000), a multiple of 64
       BIN: the program, where it isn't to be built
"""

import os
import sys
import tempfile

from prefixes import MAIN, frame
from program import cheapest, prepare, run
from ring import write_network

ROUTERS, FEEDS = 1024, 64
APART = ROUTERS // FEEDS


def write_files(folder, count):
    """Topology, feeds and script. Answers the words of the run and the head and the end of its report."""
    names = [f"m{i * APART}" for i in range(FEEDS)]
    write_network(folder, [], ROUTERS)
    for i, name in enumerate(names):
        with open(os.path.join(folder, f"{name}.fpm"), "wb") as out:
            out.writelines(frame(j, MAIN) for j in range(i, count, FEEDS))
    with open(os.path.join(folder, "script"), "w") as out:
        out.writelines(f"take {name} all\n" for name in names)
        out.write("path m0 0.0.0.1\n")
    words = [os.path.join(folder, "topology.toml"), *(f"{name}={folder}/{name}.fpm" for name in names), f"@{folder}/script"]
    feeds = "".join(f"feed {i + 1} {name} updates {count // FEEDS} skipped 0 refused 0 end\n" for i, name in enumerate(names))
    end = f"line {FEEDS + 1} at {count} path m0 0.0.0.1\nhops m0 m1\nend noroute\ndone\n"
    return words, f"{feeds}history {count}\n".encode(), end.encode()


def main():
    given = prepare(sys.argv[1:])
    runs = int(given[0]) if given else 1
    count = int(given[1]) if len(given) > 1 else 100000
    count -= count % FEEDS
    with tempfile.TemporaryDirectory() as folder:
        files = write_files(folder, count)
        cost = cheapest(runs, lambda: run(folder, *files))
    print(
        f"{ROUTERS} routers, {FEEDS} feeds, {count} prefixes: {cost.clock:.3f} s, {cost.processor:.3f} s of the processor, "
        f"{cost.processor / count * 1e6:.2f} us an update, peak {cost.memory / 2**20:.1f} MiB, "
        f"{cost.memory / count:.0f} bytes an update"
    )


if __name__ == "__main__":
    main()
