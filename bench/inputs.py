"""Inputs of the measurements against bounds, made by code, by seed where there is chance in them.

Each function writes topology, feeds and scripts into a folder, and answers a run of them.
"""

import itertools
import os
import random
import struct
from typing import NamedTuple

import bgp
import frames
import prefixes
import queries
import wide
from ring import words, write_feeds, write_network

METRIC, EDGE, NEXT = 20, 1, 2  # in a ring, the interfaces of the edge and to the next router
MULTIPLIER = 2654435761
PREFIX = 10 << 24, 8  # the one that has many metrics
LAYER = 20  # routers in each layer of the network with cycles
MOST_CYCLES = LAYER**3
ELSEWHERE = 2**31  # addresses from here on go round no cycle
LOCAL_ROUTE = struct.Struct("<IHHII BBBBBBBBI HH4s HHI")


class Run(NamedTuple):
    """The words of a run, and how many updates it has."""

    words: list[str]
    updates: int


def write(folder, name, lines):
    with open(os.path.join(folder, name), "w") as out:
        out.writelines(f"{line}\n" for line in lines)


# ---- whole runs


def of_provider(folder, name, count):
    """One of the inputs like those of a provider's network."""
    updates, given, _, _ = bgp.write_input(folder, name, count)
    return Run(given, updates)


def local_frame(base, length, metric):
    """A frame that sets a route of the router itself, without a gateway."""
    address = base.to_bytes(4, "big")
    message = LOCAL_ROUTE.pack(44, 24, 0x0501, 0, 0, 2, length, 0, 0, 254, 11, 0, 2, 0, 8, 1, address, 8, 6, metric)
    return struct.pack(">BBH", 1, 1, 4 + len(message)) + message


def made_frame(j):
    """Update j of `make N`."""
    length = 8 + j % 17
    base = j * MULTIPLIER % 2**32 >> (32 - length) << (32 - length)
    if j % 5 == 4:
        return local_frame(base, length, j % 4)
    return bgp.set_frame(base, length, j % 4, NEXT)


def made(folder, count):
    """The input of `make N` as files."""
    write_network(folder, ["loops"])
    write_feeds(folder, count, made_frame)
    return Run(["run", *words(folder)], count)


def of_command(folder, count):
    """The command `make N` itself, which needs no file."""
    return Run(["make", str(count)], count)


def of_wide(folder, count):
    """Prefixes of 64 feeds among 1,024 routers."""
    count -= count % wide.FEEDS
    given, _, _ = wide.write_files(folder, count)
    return Run(["run", *given], count)


def of_frames(folder, count):
    """So many frames, each of which sets the same route again, and the script of `examples/first-path`."""
    with open(os.path.join(frames.EXAMPLE, "r1.fpm"), "rb") as it:
        frames.write_feed(folder, it.read(), count)
    return Run(["run", *frames.words_of(folder, count)], count)


# ---- queries


def with_query(folder, count, routers, lines):
    """Distinct prefixes dealt out to routers in a ring, and then these lines."""
    count -= count % max(queries.WIDTHS)
    write_network(folder, lines, routers)
    write_feeds(folder, count, lambda j: prefixes.frame(j, prefixes.MAIN), routers)
    return Run(["run", *words(folder, routers)], count)


# ---- metrics


def with_metrics(folder, count):
    """One prefix with so many metrics, which come in one order and go in another."""
    source = random.Random(f"metrics {count}")
    come, go = (source.sample(range(count), count) for _ in range(2))
    frames = [bgp.set_frame(*PREFIX, metric, NEXT) for metric in come]
    frames += [bgp.deletion_frame(*PREFIX, metric) for metric in go]
    write_network(folder, ["loops"])
    write_feeds(folder, 0, None)
    with open(os.path.join(folder, "m0.fpm"), "wb") as out:
        out.writelines(frames)
    return Run(["run", *words(folder)], len(frames))


# ---- cycles


class Rounds:
    """Cycles from m0 through one router of each of three layers, each with a prefix of its own of 24 bits."""

    def __init__(self, count):
        """So many cycles, each through others of the 8,000 triples, by chance."""
        source = random.Random("cycles")
        layers = [range(1 + LAYER * k, 1 + LAYER * (k + 1)) for k in range(3)]
        self.ways = [(0, *triple) for triple in source.sample(list(itertools.product(*layers)), MOST_CYCLES)[:count]]
        self.links = self.pairs(layers)
        self.interfaces = {pair: place + 2 for place, pair in enumerate(self.links)}
        self.frames = [[] for _ in range(1 + 3 * LAYER)]
        for k, way in enumerate(self.ways):
            for router in (*way[1:], 0):
                self.set(k, router)

    @staticmethod
    def pairs(layers):
        """Each link from a router to one of the next layer."""
        steps = itertools.pairwise([range(1), *layers, range(1)])
        return [pair for here, there in steps for pair in itertools.product(here, there)]

    def set(self, k, router):
        """Sets the prefix of cycle k at one of its routers, to the next one."""
        way = self.ways[k]
        after = way[(way.index(router) + 1) % len(way)]
        self.frames[router].append(bgp.set_frame(k << 8, 24, METRIC, self.interfaces[router, after]))

    def change_elsewhere(self, times):
        """m0 sets so many prefixes that go round no cycle."""
        self.frames[0] += [bgp.set_frame(ELSEWHERE + (k << 8), 24, METRIC, EDGE) for k in range(times)]

    def break_and_mend(self, times):
        """m0 deletes a prefix that goes round a cycle and sets it again, so that there are so many updates."""
        source = random.Random(f"mended {len(self.ways)}")
        for _ in range(times // 2):
            k = source.randrange(len(self.ways))
            self.frames[0].append(bgp.deletion_frame(k << 8, 24, METRIC))
            self.set(k, 0)

    def write(self, folder, lines):
        """Writes it: m0's routes come last, so that each closes a cycle. Then come these lines."""
        routers = range(len(self.frames))
        names = ", ".join(f'"m{i}"' for i in routers)
        links = [f'[[link]]\nname = "l{place}"\nends = ["m{one}:{place + 2}", "m{other}:{place + 2}"]'
                 for place, (one, other) in enumerate(self.links)]
        write(folder, "topology.toml", [f"routers = [{names}]", *links, f'[[edge]]\nat = "m0:{EDGE}"'])
        for router, frames in enumerate(self.frames):
            with open(os.path.join(folder, f"m{router}.fpm"), "wb") as out:
                out.writelines(frames)
        write(folder, "script", [*(f"take m{i} all" for i in (*routers[1:], 0)), *lines])
        return Run(["run", *words(folder, len(self.frames))], sum(map(len, self.frames)))


CHANGES = {"elsewhere": Rounds.change_elsewhere, "that break a cycle and mend it": Rounds.break_and_mend}


def with_cycles(folder, count, lines):
    """So many cycles, and then these lines."""
    return Rounds(count).write(folder, lines)


def with_changes(folder, count, changes, times):
    """So many cycles, and then so many updates of m0, which is on all of them, and `loops`."""
    rounds = Rounds(count)
    CHANGES[changes](rounds, times)
    return rounds.write(folder, ["loops"])
