#!/usr/bin/env python3
"""Time of each query over N distinct prefixes in all, dealt out to routers in a ring, by the row.

A row is an interval between two ends of prefixes. Each query is asked at the end of a run so often that it goes over some
ten millions of rows, and its time is what the run takes more than one that asks nothing, by the query and the row: so what the
updates take, which is never twice the same, weighs little. Runs over the different N come turn about, so that whatever else
the machine does meets all of them. The answers are worked out here and compared.

Usage: bench/queries.py [--product BIN] [--instructions] [--routers W] [RUNS] [N]..
       runs of each script (1), of which the cheapest counts, and the N (10000 100000), multiples of 64, at most 16777216
       BIN: the program, where it isn't to be built
       --routers: over W routers alone, 8 or 64
       --instructions: counts instructions, by valgrind, in place of the time of the processor. Where their ratio is 1 and that of
       time isn't, a row isn't more work: more of it is missing in the processor's caches
"""

import sys
import tempfile
from contextlib import ExitStack

from prefixes import MAIN, frame, prefix
from program import flag, gauge, option, prepare
from ring import words, write_feeds, write_network

ROWS = 40_000_000  # over how many rows a query goes in a run whose time is measured
SLOW = {"without l0 loops": 10}  # a query that looks at every router in each row goes over so many times fewer
WIDTHS = (8, 64)
LAST = 2**32 - 1


def dotted(a):
    return ".".join(str(a >> shift & 255) for shift in (24, 16, 8, 0))


def runs_of(bases):
    """The runs of prefixes of length 24, merged, as pairs of both ends."""
    merged = []
    for base in sorted(bases):
        if merged and merged[-1][1] + 1 == base:
            merged[-1][1] = base + 255
        else:
            merged.append([base, base + 255])
    return merged


def beside(runs):
    """The runs of all other addresses."""
    low, others = 0, []
    for lo, hi in runs:
        if low < lo:
            others.append([low, lo - 1])
        low = hi + 1
    return others + ([[low, LAST]] if low <= LAST else [])


def lines_of(runs):
    return "".join(f"{dotted(lo)}-{dotted(hi)}\n" for lo, hi in runs) or "none\n"


def rows_of(count):
    """How many intervals the ends of so many prefixes make."""
    ends = {0} | {prefix(j) for j in range(count)} | {prefix(j) + 256 for j in range(count)}
    return len(ends - {LAST + 1})


def answers(count, routers):
    """Each query with its answer: m0's prefixes go on to m1 over l0, and end there without a route."""
    first = runs_of(prefix(j) for j in range(0, count, routers))
    reached, others = lines_of(first), lines_of(beside(first))
    return {
        "path m0 0.0.0.1": "hops m0 m1\nend noroute\n",
        "reach m0 m1": reached,
        "uses l0": f"from m0\n{reached}from m1\nnone\n",
        "waypoint m0 m1 m2": reached,
        "blackholes m0": f"at m0 noroute\n{others}at m1 noroute\n{reached}",
        "loops": "none\n",
        "without l0 reach m0 m1": "none\n",
        "without l0 blackholes m0": f"at m0 noroute\n{others}at m0 linkdown l0\n{reached}",
        "without l0 loops": "none\n",
    }


def times_of(count, query, is_counted):
    """How often a query is asked in a run: once where instructions are counted."""
    if not query:
        return 0
    return 1 if is_counted else max(4, ROWS // SLOW.get(query, 1) // rows_of(count))


def expected(count, routers, query, answer, times):
    """The head of the report, and the end with the answers."""
    feeds = "".join(f"feed {i + 1} m{i} updates {count // routers} skipped 0 refused 0 end\n" for i in range(routers))
    asked = (f"line {routers + 1 + k} at {count} {query}\n{answer}" for k in range(times))
    return f"{feeds}history {count}\n".encode(), f"job 1\n{''.join(asked)}done\n".encode()


def cost_of(folder, count, routers, query, answer, measured, times):
    write_network(folder, [query] * times, routers)
    return measured(folder, ["run", *words(folder, routers)], *expected(count, routers, query, answer, times))


def cheapest_of(runs, costs):
    """Of several costs, each worked out so many times, and all of them in turn, the least of each."""
    return [min(each) for each in zip(*([cost() for cost in costs] for _ in range(runs)))]


def measure(folders, routers, runs, measured, is_counted):
    """What each query takes by the row, for each count, whose feeds stand in a folder."""
    def added(folder, count, query, answer, none):
        times = times_of(count, query, is_counted)
        return (cost_of(folder, count, routers, query, answer, measured, times) - none) / times / rows_of(count)

    bare = [lambda f=folder, n=count: cost_of(f, n, routers, "", "", measured, 0) for count, folder in folders.items()]
    nones = dict(zip(folders, cheapest_of(runs, bare)))
    told = {count: answers(count, routers) for count in folders}
    costs = {}
    for query in next(iter(told.values())):
        asked = [lambda f=folder, n=count, q=query: added(f, n, q, told[n][q], nones[n]) for count, folder in folders.items()]
        costs[query] = dict(zip(folders, cheapest_of(runs, asked)))
        yield query, costs[query]


def measure_ring(routers, counts, runs, measured, unit, is_counted):
    """Prints what each query takes over so many routers, and how much more a row costs where there are most."""
    with ExitStack() as stack:
        folders = {count: stack.enter_context(tempfile.TemporaryDirectory()) for count in counts}
        for count, folder in folders.items():
            write_feeds(folder, count, lambda j: frame(j, MAIN), routers)
        for query, costs in measure(folders, routers, runs, measured, is_counted):
            for count, cost in costs.items():
                print(f"{routers} routers, {count} prefixes, {rows_of(count)} rows: {query}: {cost:.4f} {unit} a row")
            if query not in ("loops", "path m0 0.0.0.1"):  # neither looks at all rows
                ratio = costs[counts[-1]] / costs[counts[0]]
                print(f"{routers} routers, {query}: a row at {counts[-1]} over one at {counts[0]}: {ratio:.2f}", flush=True)


def main():
    is_counted, given = flag(prepare(sys.argv[1:]), "--instructions")
    width, given = option(given, "--routers")
    measured, unit = gauge(1, is_counted)
    runs = int(given[0]) if given else 1
    counts = [int(word) for word in given[1:]] or [10000, 100000]
    if any(n % max(WIDTHS) or not 0 < n <= 2**24 for n in counts):
        # 10,000 and 100,000 are rounded down to whole shares.
        counts = [n - n % max(WIDTHS) for n in counts]
    for routers in [int(width)] if width else WIDTHS:
        measure_ring(routers, counts, runs, measured, unit, is_counted)


if __name__ == "__main__":
    main()
