#!/usr/bin/env python3
"""Time, memory and growth over inputs like those of a provider's network: N updates, in four ways.

Prefixes come by length as in a full table of the Internet, and six of ten are sought inside another. Each leaves the network at
one router, an edge there, and every other router sends it on by a way of least cost.

    mesh   16 routers, each joined to two earlier ones, the better joined the likelier; all prefixes are set at all routers, and
           then deleted, in another order
    ring   64 routers in a ring with chords; half of the updates set all prefixes, and the others withdraw some, set them again,
           move their exits, and set and delete routes of a worse metric
    tree   64 routers, of which 16 are joined to four each of the others; as in the mesh
    failover
           16 routers as in the mesh; a quarter of the updates set all prefixes, and then one link after the other fails and
           comes back: where that changes a router's way, it sets the prefix anew, or deletes it where no way is left

The script takes the feeds by turns, so that a prefix's updates at all routers stand near each other, and asks for `loops` at
the end. There are none.

Usage: bench/bgp.py [--product BIN] [--beside BIN] [RUNS] [N]..
       runs of each (1), of which the cheapest counts, and the N (10000 100000)
       BIN: the program, where it isn't to be built; another one that prints the same, which runs turn about with it
"""

import heapq
import math
import os
import random
import struct
import sys
import tempfile

import program
from program import option, prepare, run_command, sum_of

# How many prefixes of each length a full table has, in hundreds.
LENGTHS = {8: 0.16, 9: 0.13, 10: 0.4, 11: 1, 12: 3, 13: 5.8, 14: 12, 15: 20, 16: 135, 17: 82, 18: 138, 19: 250, 20: 430, 21: 500,
           22: 1100, 23: 970, 24: 5750}
METRIC, WORSE = 20, 200
EDGE = 1  # the interface at which a prefix leaves the network
MOST_TURNS = 20000  # at most so many turns of takes
SET = struct.Struct("<IHHII BBBBBBBBI HH4s HH4s HHI HHI")
DELETION = struct.Struct("<IHHII BBBBBBBBI HH4s HHI")


def set_frame(base, length, metric, interface):
    """A frame that sets a route with a gateway, in the layout that write_route has."""
    message = SET.pack(60, 24, 0x0501, 0, 0, 2, length, 0, 0, 254, 11, 0, 1, 0, 8, 1, base.to_bytes(4, "big"),
                       8, 5, b"\xc0\0\2\1", 8, 4, interface, 8, 6, metric)
    return struct.pack(">BBH", 1, 1, 4 + len(message)) + message


def deletion_frame(base, length, metric):
    """A frame that deletes the route of a prefix and metric."""
    message = DELETION.pack(44, 25, 0x0100, 0, 0, 2, length, 0, 0, 254, 11, 0, 0, 0, 8, 1, base.to_bytes(4, "big"), 8, 6, metric)
    return struct.pack(">BBH", 1, 1, 4 + len(message)) + message


def prefixes(source, count):
    """So many prefixes, each a base and a length."""
    lengths, weights = zip(*LENGTHS.items())
    seen, found = set(), []
    while len(found) < count:
        length = source.choices(lengths, weights)[0]
        address = source.randrange(2**24, 2**32 - 2**29)
        around = source.choices(found, k=8) if found and source.random() < 0.6 else []
        for base, shorter in around:
            if shorter < length:
                address = base + source.randrange(2 ** (32 - shorter))
                break
        prefix = address >> (32 - length) << (32 - length), length
        if prefix not in seen:
            seen.add(prefix)
            found.append(prefix)
    return found


# ---- networks


def mesh(source, routers):
    pairs, ends = [], [0]
    for router in range(1, routers):
        for far in {source.choice(ends), source.choice(ends)}:
            pairs.append((far, router))
            ends += [far, router]
    return pairs


def ring(source, routers):
    chords = [(i, (i + routers // 2) % routers) for i in range(0, routers, 4)]
    return list({tuple(sorted(pair)): None for pair in [(i, (i + 1) % routers) for i in range(routers)] + chords})


def tree(source, routers):
    tops = routers // 4
    return [((leaf + k) % tops, leaf) for leaf in range(tops, routers) for k in range(4)]


class Network:
    """Routers with links between these pairs. A link's place decides its interfaces, and each has a cost by chance."""

    def __init__(self, source, routers, pairs):
        self.routers, self.pairs = routers, pairs
        self.beside = [[] for _ in range(routers)]
        for place, (one, other) in enumerate(pairs):
            cost = source.randrange(10, 100)
            self.beside[one].append((other, place + 2, cost))
            self.beside[other].append((one, place + 2, cost))

    def text(self):
        lines = ["routers = [" + ", ".join(f'"m{i}"' for i in range(self.routers)) + "]"]
        for place, (one, other) in enumerate(self.pairs):
            lines.append(f'[[link]]\nname = "l{place}"\nends = ["m{one}:{place + 2}", "m{other}:{place + 2}"]')
        lines += [f'[[edge]]\nat = "m{i}:{EDGE}"' for i in range(self.routers)]
        return "\n".join(lines) + "\n"

    def ways(self, exit, down=None):
        """The interface at which each router sends on what leaves the network at one of them, None where there is no way
        without the link that is down."""
        costs, interfaces, waiting = {exit: 0}, [None] * self.routers, [(0, exit)]
        interfaces[exit] = EDGE
        while waiting:
            cost, router = heapq.heappop(waiting)
            if cost > costs[router]:
                continue
            for far, interface, more in self.beside[router]:
                if interface != down and cost + more < costs.get(far, math.inf):
                    costs[far], interfaces[far] = cost + more, interface
                    heapq.heappush(waiting, (cost + more, far))
        return interfaces


# ---- updates


class Feeds:
    """The routers' feeds, and the script that takes them by turns."""

    def __init__(self, routers):
        self.frames = [[] for _ in range(routers)]
        self.taken = [0] * routers
        self.takes = []
        self.count = 0

    def add(self, router, frame):
        self.frames[router].append(frame)
        self.count += 1

    def end_turn(self):
        """What came since the last turn is taken."""
        for router, frames in enumerate(self.frames):
            if len(frames) > self.taken[router]:
                self.takes.append(f"take m{router} {len(frames) - self.taken[router]}\n")
                self.taken[router] = len(frames)


class Updates:
    """The updates of a network by chance, about so many in all."""

    def __init__(self, source, network, count, share):
        self.source, self.network, self.count = source, network, count
        self.feeds = Feeds(network.routers)
        self.ways = [network.ways(exit) for exit in range(network.routers)]
        self.prefixes = prefixes(source, max(1, count // share // network.routers))
        self.exits = [source.randrange(network.routers) for _ in self.prefixes]
        turns = max(1, MOST_TURNS // network.routers)
        self.each = -(-2 * len(self.prefixes) // turns)
        self.events = 0

    def end_event(self):
        self.events += 1
        if self.events % self.each == 0:
            self.feeds.end_turn()

    def in_any_order(self, change):
        order = list(range(len(self.prefixes)))
        self.source.shuffle(order)
        for k in order:
            change(k)
            self.end_event()
        self.feeds.end_turn()

    def set(self, k, exit=None):
        """Sets a prefix at all routers, or where it leaves elsewhere than before, at those that change their way."""
        before = None if exit is None else self.ways[self.exits[k]]
        self.exits[k] = self.exits[k] if exit is None else exit
        for router, interface in enumerate(self.ways[self.exits[k]]):
            if before is None or before[router] != interface:
                self.feeds.add(router, set_frame(*self.prefixes[k], METRIC, interface))

    def delete(self, k):
        for router in range(self.network.routers):
            self.feeds.add(router, deletion_frame(*self.prefixes[k], METRIC))

    def change_way(self, k, before, after):
        """Sets a prefix anew, or deletes it, at the routers whose way changes."""
        for router, (old, new) in enumerate(zip(before[self.exits[k]], after[self.exits[k]])):
            if new is None and old is not None:
                self.feeds.add(router, deletion_frame(*self.prefixes[k], METRIC))
            elif new != old:
                self.feeds.add(router, set_frame(*self.prefixes[k], METRIC, new))

    def set_and_delete(self):
        self.in_any_order(self.set)
        self.in_any_order(self.delete)

    def change_again_and_again(self):
        self.in_any_order(self.set)
        withdrawn, worse = set(), set()
        while self.feeds.count < self.count:
            self.change_one(self.source.randrange(len(self.prefixes)), withdrawn, worse)
            self.end_event()
        self.feeds.end_turn()

    def fail_and_come_back(self):
        self.in_any_order(self.set)
        order = sorted(range(len(self.prefixes)), key=lambda k: self.prefixes[k])
        links, down = range(2, 2 + len(self.network.pairs)), None
        while self.feeds.count < self.count:
            down = self.source.choice(links) if down is None else None
            ways = [self.network.ways(exit, down) for exit in range(self.network.routers)]
            for k in order:
                self.change_way(k, self.ways, ways)
            self.ways = ways
            self.feeds.end_turn()

    def change_one(self, k, withdrawn, worse):
        chance = self.source.random()
        if k in withdrawn:
            withdrawn.remove(k)
            self.set(k)
        elif chance < 0.35:
            withdrawn.add(k)
            self.delete(k)
        elif chance < 0.9:
            self.set(k, self.source.randrange(self.network.routers))
        else:
            router = self.source.randrange(self.network.routers)
            one = (k, router)
            frame = deletion_frame if one in worse else set_frame
            self.feeds.add(router, frame(*self.prefixes[k], WORSE, *([] if one in worse else [EDGE])))
            worse.symmetric_difference_update({one})


# Routers, the links between them, which part of the updates sets all prefixes, and what comes.
INPUTS = {
    "mesh": (16, mesh, 2, Updates.set_and_delete),
    "ring": (64, ring, 2, Updates.change_again_and_again),
    "tree": (64, tree, 2, Updates.set_and_delete),
    "failover": (16, mesh, 4, Updates.fail_and_come_back),
}


def write_input(folder, name, count):
    """Writes topology, feeds and script, and answers how many updates there are, the words of the run, and the head and the
    end of the report."""
    routers, pairs, share, change = INPUTS[name]
    source = random.Random(f"{name} {count}")
    updates = Updates(source, Network(source, routers, pairs(source, routers)), count, share)
    change(updates)
    feeds = updates.feeds
    with open(os.path.join(folder, "topology.toml"), "w") as out:
        out.write(updates.network.text())
    for router, frames in enumerate(feeds.frames):
        with open(os.path.join(folder, f"m{router}.fpm"), "wb") as out:
            out.writelines(frames)
    with open(os.path.join(folder, "script"), "w") as out:
        out.writelines([*feeds.takes, "loops\n"])
    parts = [f"m{i}={folder}/m{i}.fpm" for i in range(routers)]
    words = [os.path.join(folder, "topology.toml"), *parts, f"@{folder}/script"]
    sizes = map(len, feeds.frames)
    head = "".join(f"feed {i + 1} m{i} updates {size} skipped 0 refused 0 end\n" for i, size in enumerate(sizes))
    end = f"line {len(feeds.takes) + 1} at {feeds.count} loops\nnone\ndone\n"
    return feeds.count, ["run", *words], f"{head}history {feeds.count}\n".encode(), end.encode()


def measure(folder, given, runs, programs):
    """The least costs of the programs, which run turn about. Their reports have to be the same."""
    rounds = []
    for _ in range(runs):
        costs, sums = [], set()
        for one in programs:
            costs.append(run_command(folder, *given, one))
            sums.add(sum_of(folder))
        if len(sums) > 1:
            sys.exit("bench: the reports differ")
        rounds.append(costs)
    return [min(costs, key=lambda cost: cost.processor) for costs in zip(*rounds)]


def tell(name, count, costs):
    cost = costs[0]
    line = (f"{name}, {count} updates: {cost.processor:.3f} s of the processor, {cost.processor / count * 1e6:.2f} us an update, "
            f"peak {cost.memory / 2**20:.1f} MiB")
    for other in costs[1:]:
        line += (f"; the other: {other.processor:.3f} s, {other.memory / 2**20:.1f} MiB; over that: time "
                 f"{cost.processor / other.processor:.2f}, memory {cost.memory / other.memory:.2f}")
    print(line, flush=True)


def main():
    given = prepare(sys.argv[1:])
    other, given = option(given, "--beside")
    runs = int(given[0]) if given else 1
    counts = [int(word) for word in given[1:]] or [10000, 100000]
    programs = [program.PROGRAM, *([other] if other else [])]
    for name in INPUTS:
        seen = []
        for count in counts:
            with tempfile.TemporaryDirectory() as folder:
                made, *files = write_input(folder, name, count)
                costs = measure(folder, files, runs, programs)
            tell(name, made, costs)
            seen.append((made, costs))
        for place, one in enumerate(programs if len(seen) > 1 else []):
            (least, first), (most, last) = seen[0], seen[-1]
            exponent = math.log(last[place].processor / first[place].processor) / math.log(most / least)
            who = "the other" if place else "the program"
            print(f"{name}, {who}: growth from {least} to {most} updates as a power {exponent:.2f}", flush=True)


if __name__ == "__main__":
    main()
