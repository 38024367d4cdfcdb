#!/usr/bin/env python3
"""Time and peak memory of deltanet over feeds of N distinct prefixes in all, dealt out to eight routers in a ring.

Each frame sets a route of a prefix that no other frame has, so tables and history grow by one a frame. Each feed is
also read with its routes in another table, which are decoded and skipped: reading and decoding alone.

Usage: bench/prefixes.py [--product BIN] [RUNS] [N]..
       runs of each feed (1), of which the cheapest counts, and the N (25000 50000 100000), at most 16777216, multiples of 8
       BIN: the program, where it isn't to be built
"""

import struct
import sys
import tempfile

from program import cheapest, prepare, run
from ring import ROUTERS, words, write_feeds, write_network

MAIN, OTHER = 254, 100
MULTIPLIER = 2654435761  # odd, so that different j below 2^24 give different prefixes
BYTES_OF_FRAME = 64


def prefix(j):
    """The address of prefix j, whose length is 24."""
    return j * MULTIPLIER % 2**24 << 8


def frame(j, table):
    """A frame that sets prefix j, metric 20, over interface 2 with a gateway, in the layout that write_route has."""
    message = struct.pack("<IHHII", 60, 24, 0x0501, 0, 0)
    message += struct.pack("<BBBBBBBBI", 2, 24, 0, 0, table, 11, 0, 1, 0)
    message += struct.pack("<HH", 8, 1) + struct.pack(">I", prefix(j))
    message += struct.pack("<HH", 8, 5) + bytes([192, 0, 2, 1])
    message += struct.pack("<HHI", 8, 4, 2)
    message += struct.pack("<HHI", 8, 6, 20)
    return struct.pack(">BBH", 1, 1, 4 + len(message)) + message


def expected(count, table):
    """The head and the end of the report. Prefix 0, 0.0.0.0/24, is m0's alone."""
    each = count // ROUTERS
    updates, skipped = (each, 0) if table == MAIN else (0, each)
    feeds = "".join(f"feed {i + 1} m{i} updates {updates} skipped {skipped} refused 0 end\n" for i in range(ROUTERS))
    history = count if table == MAIN else 0
    first = "1 feed 1 m0 set 0.0.0.0/24 metric 20 to m1 by l0\n" if table == MAIN else "job 1\n"
    hops = "m0 m1" if table == MAIN else "m0"
    end = f"line 9 at {history} path m0 0.0.0.1\nhops {hops}\nend noroute\ndone\n"
    return f"{feeds}history {history}\n{first}".encode(), end.encode()


def measure(folder, count, table, runs):
    write_feeds(folder, count, lambda j: frame(j, table))
    return cheapest(runs, lambda: run(folder, words(folder), *expected(count, table)))


def main():
    given = prepare(sys.argv[1:])
    runs = int(given[0]) if given else 1
    counts = [int(word) for word in given[1:]] or [25000, 50000, 100000]
    if any(n % ROUTERS or not 0 < n <= 2**24 for n in counts):
        sys.exit("prefixes.py: N is a multiple of 8, at most 16777216")
    times = []
    with tempfile.TemporaryDirectory() as folder:
        write_network(folder, ["path m0 0.0.0.1"])
        for n in counts:
            size = n * BYTES_OF_FRAME
            alone = measure(folder, n, OTHER, runs).processor
            cost = measure(folder, n, MAIN, runs)
            times.append(cost.processor / n)
            print(
                f"{n} prefixes: {cost.clock:.3f} s, {cost.processor:.3f} s of the processor, {times[-1] * 1e6:.3f} us an update, "
                f"peak {cost.memory / 2**20:.1f} MiB, {cost.memory / n:.0f} bytes an update, "
                f"{size / cost.processor / 1e6:.1f} MB/s; reading and decoding alone {size / alone / 1e6:.1f} MB/s",
                flush=True,
            )
    print(f"time of an update at {counts[-1]} over that at {counts[0]}: {times[-1] / times[0]:.2f}")


if __name__ == "__main__":
    main()
