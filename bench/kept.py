#!/usr/bin/env python3
"""What it costs to keep the loops of the network from update to update, and to ask for them after each.

The first part needs a second program, which keeps none: of the same sources, but that `Standing::advance` of `version_store`
doesn't call `keep`. What its instructions, and its time, are less than the program's is what keeping costs. The inputs are
distinct prefixes of 8 routers in a ring, where no address ever goes round, and those of `bgp.py`, where some do now and then,
since a prefix comes to one router after the other.

The second part sets N distinct prefixes in a ring, and then sends M of them the other way round, one after the other, with
`loops` asked after each. What this takes more than the N prefixes alone is compared with the same without asking.

Usage: bench/kept.py [--product BIN] [--without BIN] [--instructions] [RUNS [N [M]]]
       runs of each (1), of which the cheapest counts, N (100000), a multiple of 64, and M (10000), at most N
       BIN: the program, where it isn't to be built; the one that keeps no loops, without which the first part is left out
       --instructions: compares instructions, counted by valgrind, in place of the time of the processor
"""

import os
import struct
import sys
import tempfile

import bgp
import prefixes
import program
from program import flag, gauge, option, prepare
from ring import words, write_feeds, write_network

WIDTHS = (8, 64)
BACK = 3  # the interface to the router before


# ---- what keeping costs


def distinct(folder, count):
    """Distinct prefixes of eight routers: how many updates, the words, the head and the end of the report."""
    count -= count % prefixes.ROUTERS
    write_network(folder, ["path m0 0.0.0.1"])
    write_feeds(folder, count, lambda j: prefixes.frame(j, prefixes.MAIN))
    return count, ["run", *words(folder)], *prefixes.expected(count, prefixes.MAIN)


def measure_keeping(count, without, measured, unit):
    for name in ("distinct", *bgp.INPUTS):
        with tempfile.TemporaryDirectory() as folder:
            made, *given = distinct(folder, count) if name == "distinct" else bgp.write_input(folder, name, count)
            kept, bare = (measured(folder, *given, one) for one in (program.PROGRAM, without))
        print(f"{name}, {made} updates: {kept / made:.2f} {unit} an update, {bare / made:.2f} without keeping: "
              f"keeping is {(kept - bare) / kept:.3f} of it", flush=True)


# ---- what asking costs


def frame_back(j):
    """The frame of prefix j with the same metric over the other link."""
    frame = prefixes.frame(j, prefixes.MAIN)
    place = frame.index(struct.pack("<HHI", 8, 4, 2))
    return frame[:place] + struct.pack("<HHI", 8, 4, BACK) + frame[place + 8 :]


def write_changes(folder, routers, count, changes):
    """Feeds of so many prefixes, then of so many changes, by turns."""
    def frame(j):
        return prefixes.frame(j, prefixes.MAIN) if j < count else frame_back(j - count)
    write_feeds(folder, count + changes, frame, routers)


def script_of(routers, count, changes, is_asked):
    """Lines that take the prefixes, and then the changes one by one, with `loops` after each where it is asked."""
    lines = [f"take m{i} {count // routers}" for i in range(routers)]
    for j in range(changes):
        lines += [f"take m{j % routers} 1", *(["loops"] if is_asked else [])]
    return lines


def expected(routers, count, changes, lines):
    """The head and the end of the report."""
    feeds = [len(range(i, count + changes, routers)) for i in range(routers)]
    head = "".join(f"feed {i + 1} m{i} updates {n} skipped 0 refused 0 end\n" for i, n in enumerate(feeds))
    end = f"line {len(lines)} at {count + changes} {lines[-1]}\nnone\ndone\n" if lines[-1] == "loops" else "job 1\ndone\n"
    return f"{head}history {count + changes}\n".encode(), end.encode()


def cost_of_changes(folder, routers, count, changes, is_asked, measured):
    write_changes(folder, routers, count, changes)
    lines = script_of(routers, count, changes, is_asked)
    with open(os.path.join(folder, "script"), "w") as out:
        out.writelines(f"{line}\n" for line in lines)
    return measured(folder, ["run", *words(folder, routers)], *expected(routers, count, changes, lines))


def measure_asking(count, changes, measured, unit):
    for routers in WIDTHS:
        with tempfile.TemporaryDirectory() as folder:
            write_network(folder, [], routers)
            table = cost_of_changes(folder, routers, count, 0, False, measured)
            bare = cost_of_changes(folder, routers, count, changes, False, measured) - table
            asked = cost_of_changes(folder, routers, count, changes, True, measured) - table
        print(f"{routers} routers, {count} prefixes, {changes} updates: {asked / changes:.2f} {unit} an update with loops "
              f"asked after it, {bare / changes:.2f} without: {asked / bare:.2f}", flush=True)


def main():
    given = prepare(sys.argv[1:])
    without, given = option(given, "--without")
    is_counted, given = flag(given, "--instructions")
    measured, unit = gauge(int(given[0]) if given else 1, is_counted)
    count = int(given[1]) if len(given) > 1 else 100000
    count -= count % max(WIDTHS)
    changes = int(given[2]) if len(given) > 2 else 10000
    if without:
        measure_keeping(count, without, measured, unit)
    measure_asking(count, changes, measured, unit)


if __name__ == "__main__":
    main()
