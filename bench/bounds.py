#!/usr/bin/env python3
"""What the program is held to, row by row, turn about with another program that prints the same and isn't proved.

Usage: bench/bounds.py PROGRAM PEER [ROW[:INPUT]..] [--old PROGRAM] [--copies PROGRAM] [--rounds N] [--instructions]
       PROGRAM, PEER: two programs that print the same reports
       ROW: a word below (all), with `:INPUT` for one of its lines alone, as bgp-5:mesh
       --old: another program, which runs turn about with both: its ratios are told, and those of PROGRAM over it
       --copies: a program that holds copies, without which the row `copies` is left out
       --rounds: rounds (5). The least and the median of their ratios are told; the median has to hold
       --instructions: counts instructions by valgrind, once each, in place of seconds of the processor, where a row can

    bgp-5, bgp-6      inputs like those of a provider's network, 10^5 and 10^6 updates, over the peer
    make-5, make-6    the input of `make N`, as files and as the command, over the peer
    growth            time from 10^5 to 10^6 updates of such inputs, as a power of the number of updates
    memory-5          peak memory at 10^5 updates of all of these, over the peer
    memory-6          the same of those of a provider's network at 10^6 updates
    beside            updates beside two jobs that ask a hundred `reach` each, over without, by the clock
    reach             a query that follows addresses, with and without a link down, over the peer, by instructions
    holes             `blackholes`, and `loops` with a link down, the same
    copies            updates with a copy of what stands after every hundredth, eight of them held, over without
    links             a link that a million atoms use goes down or comes up, over a `blackholes` of the same rows
    links-ms          the same in milliseconds, where an update takes a microsecond
    frames            a million frames of one route, over the older program
    wide              1,024 routers of which 64 have feeds, 10^5 prefixes, over the older program
    metrics           an update of a prefix that has up to 40,000 metrics, over one of a prefix that has up to 5,000
    cycles            an update of a router on 4,000 kept cycles, over one on 1,000
    loops             `loops` over 8,000 cycles, by the cycle, over the same over 2,000; with no link down, and with one

It prints a table, and ends with 0 where all that was measured holds, and else with 1. Where reports differ, or a run
fails, it ends at once. Inputs are made by code, by seed; they take up to 2 GB in the folder for temporary files.
"""

import math
import os
import signal
import sys
import tempfile
from collections.abc import Callable
from typing import NamedTuple

import bgp
import inputs
import jobs
import links
from program import flag, option
from ring import write_network
from turns import (ALONE, ITSELF, OLD, PEER, Bench, Case, Programs, each, head, line_of, power, quotient, shown,
                   verdict)

FEW, MANY = 10**5, 10**6
WIDTHS = (8, 64)
FOLLOWING = ("reach m0 m1", "uses l0", "waypoint m0 m1 m2")
DOWN = "without l1 "  # the link after the one over which m0's addresses go
QUERIES = {
    "reach": [*FOLLOWING, *(DOWN + query for query in FOLLOWING)],
    "holes": ["blackholes m0", "without l0 blackholes m0", "without l0 loops"],
}
ASKED = 4  # how often a query is asked in a run whose instructions are counted
METRICS = (5000, 40000)
CYCLES, CHANGED = (1000, 4000), 10000
ROUND, ASKED_ROUND = (2000, 8000), 20
LOOPS = ("loops", "without l0 loops")
BESIDE = 64000


class Row(NamedTuple):
    """A bound, what it is of, and how often a round is needed: None for as often as is asked for."""

    bound: float
    cases: Callable[[Bench], list[Case]]
    rounds: int | None = None


# ---- over the peer


def provider(count):
    """How the inputs like those of a provider's network are made, by name."""
    return {name: (inputs.of_provider, name, count) for name in bgp.INPUTS}


def made(count):
    """How the input of `make N` is made, as files and as the command."""
    return {"files": (inputs.made, count), "command": (inputs.of_command, count)}


def all_files(count):
    return {**provider(count), "make": (inputs.made, count)}


def whole(makes, cost=Bench.cost, over=PEER):
    """What runs over these inputs take."""
    def cases(bench):
        return [Case(name, lambda one, make=make: cost(bench, one, bench.input(*make)), over)
                for name, make in makes.items()]
    return cases


def asked(queries):
    """What one query takes over prefixes dealt out to routers in a ring, by instructions."""
    def cost(bench, one, routers, query):
        more, less = (bench.input(inputs.with_query, FEW, routers, lines) for lines in ((query,) * ASKED, ()))
        return each(bench.instructions(one, more), bench.instructions(one, less), ASKED)

    def cases(bench):
        return [Case(f"{query}, {routers} routers", lambda one, r=routers, q=query: cost(bench, one, r, q))
                for routers in WIDTHS for query in queries]
    return cases


# ---- over itself


def growth(bench):
    def of(one, name):
        few, many = (bench.input(inputs.of_provider, name, count) for count in (FEW, MANY))
        return power(few.updates, many.updates, bench.cost(one, few), bench.cost(one, many))
    return [Case(name, lambda one, name=name: of(one, name), ITSELF) for name in bgp.INPUTS]


def beside(bench):
    folder = tempfile.mkdtemp(dir=bench.folder)
    write_network(folder, [], jobs.ROUTERS)

    def of(one):
        alone, asking = (jobs.measure_beside(folder, BESIDE, count, one) for count in (0, jobs.ASKED))
        return asking / alone
    return [Case(f"{BESIDE} updates", of, ITSELF)]


def with_copies(bench, one, run):
    """What a run takes by the program that takes copies, over what it takes without."""
    bench.compare(run, bench.programs.copies)
    return bench.cost(bench.programs.copies, run) / bench.cost(one, run)


def a_link(of):
    """A number of what it takes that a link goes down or comes up."""
    def cost(bench, one):
        times = links.measure(bench.input(links.write_input, links.COUNT), links.COUNT, 1, one)
        return of(times) if min(times) > 0 else math.nan
    return lambda bench: [Case(f"{links.COUNT} prefixes", lambda one: cost(bench, one), ALONE)]


def metrics(bench):
    def of(one):
        few, many = (bench.input(inputs.with_metrics, count) for count in METRICS)
        return bench.cost(one, many) / many.updates / (bench.cost(one, few) / few.updates)
    return [Case("come in one order, and go in another", of, ITSELF)]


def cycles(bench):
    def of_one(one, count, changes):
        more, less = (bench.input(inputs.with_changes, count, changes, times) for times in (CHANGED, 0))
        return each(bench.cost(one, more), bench.cost(one, less), CHANGED)

    def of(one, changes):
        few, many = (of_one(one, count, changes) for count in CYCLES)
        return quotient(many, few)
    return [Case(f"updates {name}", lambda one, name=name: of(one, name), ITSELF) for name in inputs.CHANGES]


def loops(bench):
    times = 1 if bench.is_counted else ASKED_ROUND

    def by_cycle(one, count, query):
        more, less = (bench.input(inputs.with_cycles, count, lines) for lines in ((query,) * times, ()))
        return each(bench.cost(one, more), bench.cost(one, less), times * count)

    def of(one, query):
        few, many = (by_cycle(one, count, query) for count in ROUND)
        return quotient(many, few)
    return [Case(query, lambda one, query=query: of(one, query), ITSELF) for query in LOOPS]


ROWS = {
    "bgp-5": Row(2.7, whole(provider(FEW))),
    "bgp-6": Row(3.5, whole(provider(MANY))),
    "make-5": Row(2.1, whole(made(FEW))),
    "make-6": Row(2.5, whole(made(MANY))),
    "growth": Row(1.15, growth),
    "memory-5": Row(1.3, whole(all_files(FEW), Bench.memory), 1),
    "memory-6": Row(1.8, whole(provider(MANY), Bench.memory), 1),
    "beside": Row(1.5, beside),
    "reach": Row(1.5, asked(QUERIES["reach"]), 1),
    "holes": Row(2.6, asked(QUERIES["holes"]), 1),
    "copies": Row(3, whole(all_files(FEW), with_copies, ALONE)),
    "links": Row(links.MOST_RATIO, a_link(lambda times: times.ratio)),
    "links-ms": Row(links.MOST_MS, a_link(lambda times: times.scaled)),
    "frames": Row(0.75, whole({"1,000,000 frames": (inputs.of_frames, MANY)}, over=OLD)),
    "wide": Row(0.5, whole({"100,000 prefixes": (inputs.of_wide, FEW)}, over=OLD)),
    "metrics": Row(2, metrics),
    "cycles": Row(1.5, cycles),
    "loops": Row(1.5, loops),
}
NEEDED = {"copies": "copies", "frames": "old", "wide": "old"}  # which other program a row needs
IN_SECONDS = "beside", "links", "links-ms"  # whose instructions say nothing


def measure(bench, word):
    """Measures a row, or one of its lines, and prints it. Answers whether all of it holds."""
    name, _, only = word.partition(":")
    row, need = ROWS[name], NEEDED.get(name)
    if need and not getattr(bench.programs, need):
        print(f"{name}: left out, there is no --{need}", file=sys.stderr)
        return True
    cases = [case for case in row.cases(bench) if only in ("", case.name)]
    if not cases:
        sys.exit(f"bounds.py: {name} has no {only}")
    return all([measure_case(bench, name, case) for case in cases])


def measure_case(bench, name, case):
    row = ROWS[name]
    ratios = bench.ratios(case, 1 if bench.is_counted and name not in IN_SECONDS else row.rounds)
    print(shown(line_of(name, case.name, row.bound, ratios)), flush=True)
    return verdict(ratios.product, row.bound) == "yes"


def parse(given):
    """The programs, the rows, how many rounds, and whether instructions are counted."""
    named = {}
    for name in ("old", "copies", "rounds"):
        named[name], given = option(given, f"--{name}")
    is_counted, given = flag(given, "--instructions")
    rows = given[2:] or list(ROWS)
    if len(given) < 2 or any(word.partition(":")[0] not in ROWS for word in rows):
        sys.exit(__doc__)
    paths = [path and os.path.abspath(path) for path in (*given[:2], named["old"], named["copies"])]
    return Programs(*paths), rows, int(named["rounds"] or 5), is_counted


def main():
    programs, rows, rounds, is_counted = parse(sys.argv[1:])
    signal.signal(signal.SIGTERM, lambda *_: sys.exit("bounds.py: ended"))  # so that no input is left behind
    print(f"{os.cpu_count()} processors, load {os.getloadavg()[0]:.1f}; {rounds} rounds\n\n{head()}", flush=True)
    with tempfile.TemporaryDirectory() as folder:
        bench = Bench(folder, programs, rounds, is_counted)
        holds = [measure(bench, word) for word in rows]
    print(f"\nload at the end {os.getloadavg()[0]:.1f}")
    sys.exit(not all(holds))


if __name__ == "__main__":
    main()
