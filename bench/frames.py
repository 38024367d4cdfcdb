#!/usr/bin/env python3
"""Time and peak memory of deltanet over feeds of N, 2N and 4N frames.

Each frame sets the same route again, so the table stays one route long and the history grows by one entry
a frame. The reading of a feed is linear in its bytes: the time of a frame at 4N is to be that at N.

Usage: bench/frames.py [--product BIN] [N] [RUNS]
       N frames (250,000) and runs of each feed (3), of which the cheapest counts
       BIN: the program, where it isn't to be built
"""

import os
import sys
import tempfile

from program import TOP, cheapest, prepare, run

EXAMPLE = os.path.join(TOP, "examples", "first-path")
ENTRY = b"feed 1 r1 set 10.0.0.0/8 metric 20 to r2 by a\n"


def expected(count):
    """The head and the end of the report, as the report's format has them."""
    head = b"feed 1 r1 updates %d skipped 0 refused 0 end\nhistory %d\n1 %s" % (count, count, ENTRY)
    end = b"%d %sjob 1\nline 2 at %d path r1 10.1.2.3\nhops r1 r2\nend noroute\ndone\n" % (count, ENTRY, count)
    return head, end


def write_feed(folder, frame, count):
    with open(os.path.join(folder, f"{count}.fpm"), "wb") as out:
        for done in range(0, count, 10000):
            out.write(frame * min(10000, count - done))


def words_of(folder, count):
    """The words of the run of a feed that `write_feed` has written."""
    return [os.path.join(EXAMPLE, "topology.toml"), f"r1={folder}/{count}.fpm", "@" + os.path.join(EXAMPLE, "script")]


def measure(folder, frame, count, runs):
    write_feed(folder, frame, count)
    best = cheapest(runs, lambda: run(folder, words_of(folder, count), *expected(count)))
    os.remove(os.path.join(folder, f"{count}.fpm"))
    return best


def main():
    given = prepare(sys.argv[1:])
    n = int(given[0]) if given else 250000
    runs = int(given[1]) if len(given) > 1 else 3
    with open(os.path.join(EXAMPLE, "r1.fpm"), "rb") as it:
        frame = it.read()
    rows = []
    with tempfile.TemporaryDirectory() as folder:
        for count in (n, 2 * n, 4 * n):
            cost = measure(folder, frame, count, runs)
            rows.append((cost.processor, cost.memory))
            print(
                f"{count} frames: {cost.clock:.3f} s, {cost.processor:.3f} s of the processor, "
                f"{cost.processor / count * 1e6:.3f} us a frame, peak {cost.memory / 2**20:.1f} MiB, "
                f"{cost.memory / count:.0f} bytes a frame",
                flush=True,
            )
    (first, low), (last, high) = rows[0], rows[-1]
    print(f"time of a frame at {4 * n} over that at {n}: {last / 4 / first:.2f}")
    print(f"peak memory at {4 * n} over that at {n}: {high / low:.2f}")


if __name__ == "__main__":
    main()
