#!/usr/bin/env python3
"""Time and peak memory of deltanet over N updates of nested prefixes, and how many atoms they make.

Eight routers in a ring; update j is router j mod 8's, of a prefix of 8 to 24 bits at a scattered address, with the metrics
0 to 3 in turn; every fifth route is local, and the others go on to the next router. At the end the script asks for a
path and for what the last update changed, which this file works out by itself.

Usage: bench/updates.py [--product BIN] [RUNS] [N]..
       runs of each feed (1), of which the cheapest counts, and the N (500 1000 2000 4000)
       BIN: the program, where it isn't to be built
"""

import struct
import sys
import tempfile

from program import cheapest, prepare, run
from ring import ROUTERS, words, write_feeds, write_network

MULTIPLIER = 2654435761
ADDRESS = 0x00000001


def update(j):
    """Update j: its router, first address, length, metric, and whether it is local."""
    length = 8 + j % 17
    base = j * MULTIPLIER % 2**32 >> (32 - length) << (32 - length)
    return j % ROUTERS, base, length, j % 4, j % 5 == 4


def frame(j):
    """The frame of update j, in the layout that write_route has."""
    _, base, length, metric, local = update(j)
    message = struct.pack("<BBBBBBBBI", 2, length, 0, 0, 254, 11, 0, 2 if local else 1, 0)
    message += struct.pack("<HH", 8, 1) + struct.pack(">I", base)
    if not local:
        message += struct.pack("<HH", 8, 5) + bytes([192, 0, 2, 1]) + struct.pack("<HHI", 8, 4, 2)
    message += struct.pack("<HHI", 8, 6, metric)
    message = struct.pack("<IHHII", 16 + len(message), 24, 0x0501, 0, 0) + message
    return struct.pack(">BBH", 1, 1, 4 + len(message)) + message


def address(a):
    return ".".join(str(a >> shift & 255) for shift in (24, 16, 8, 0))


def target(table, router, a):
    """What a table, from (length, base, metric) to whether it is local, does with an address, as it is printed."""
    covering = [key for key in table if key[1] <= a < key[1] + 2 ** (32 - key[0])]
    if not covering:
        return "noroute"
    key = min(covering, key=lambda key: (-key[0], key[2]))
    return "local" if table[key] else f"to m{(router + 1) % ROUTERS} by l{router}"


def path_lines(tables):
    hops, router = ["m0"], 0
    while len(hops) <= ROUTERS:
        end = target(tables[router], router, ADDRESS)
        if not end.startswith("to "):
            return f"hops {' '.join(hops)}\nend {end}\n"
        router = (router + 1) % ROUTERS
        hops.append(f"m{router}")
    return f"hops {' '.join(hops)}\nend loop\n"


def delta_lines(before, after, router):
    """The changes between two tables of a router, from one end of a prefix to the next."""
    ends = {0} | {end for length, base, _ in after for end in (base, base + 2 ** (32 - length))}
    bounds = sorted(end for end in ends if end < 2**32) + [2**32]
    runs = []
    for low, high in zip(bounds, bounds[1:]):
        targets = target(before, router, low), target(after, router, low)
        if targets[0] == targets[1]:
            continue
        if runs and runs[-1][1] == low and runs[-1][2] == targets:
            runs[-1][1] = high
        else:
            runs.append([low, high, targets])
    lines = [f"m{router} {address(low)}-{address(high - 1)} {was} -> {now}\n" for low, high, (was, now) in runs]
    return "".join(lines) or "none\n"


def expected(count):
    """The head and the end of the report, and how many atoms there are."""
    tables = [{} for _ in range(ROUTERS)]
    bounds = {0}
    order = [j for i in range(ROUTERS) for j in range(i, count, ROUTERS)]
    for j in order:
        router, base, length, metric, local = update(j)
        before = dict(tables[router]) if j == order[-1] else None
        tables[router][(length, base, metric)] = local
        bounds |= {base, base + 2 ** (32 - length)} - {2**32}
    last = order[-1] % ROUTERS
    feeds = [len(range(i, count, ROUTERS)) for i in range(ROUTERS)]
    head = "".join(f"feed {i + 1} m{i} updates {feeds[i]} skipped 0 refused 0 end\n" for i in range(ROUTERS))
    end = f"line 9 at {count} path m0 {address(ADDRESS)}\n{path_lines(tables)}"
    end += f"line 10 at {count} delta\n{delta_lines(before, tables[last], last)}done\n"
    return (head + f"history {count}\n").encode(), end.encode(), len(bounds)


def main():
    given = prepare(sys.argv[1:])
    runs = int(given[0]) if given else 1
    counts = [int(word) for word in given[1:]] or [500, 1000, 2000, 4000]
    if any(n < ROUTERS for n in counts):
        sys.exit("updates.py: N is at least 8")
    times = []
    with tempfile.TemporaryDirectory() as folder:
        write_network(folder, [f"path m0 {address(ADDRESS)}", "delta"])
        for n in counts:
            write_feeds(folder, n, frame)
            head, end, atoms = expected(n)
            cost = cheapest(runs, lambda: run(folder, words(folder), head, end))
            times.append(cost.processor / n)
            print(
                f"{n} updates, {atoms} atoms: {cost.clock:.3f} s, {cost.processor:.3f} s of the processor, "
                f"{times[-1] * 1e6:.2f} us an update, peak {cost.memory / 2**20:.1f} MiB, {cost.memory / n:.0f} bytes an update",
                flush=True,
            )
    print(f"time of an update at {counts[-1]} over that at {counts[0]}: {times[-1] / times[0]:.2f}")


if __name__ == "__main__":
    main()
