"""The readers of feeds and topologies against the program, over inputs made by chance; skipped where it isn't built."""

from __future__ import annotations

import os
import random
import shutil
import subprocess
import tempfile
import unittest

from feed_help import (TOP, TRIANGLE, attribute, data, delete_route, frame, message, number, read, set_route)

from frames import SETTABLE_TYPES, UNICAST, Feed, Route, Skipped, decode
from network import Network, TopologyFault, parse_topology

PROGRAM = os.path.join(TOP, "crates", "query_cli", "out", "query_cli")
ROUTERS = [f"m{place}" for place in range(64)]
REAL = [read(os.path.join(TRIANGLE, f"r{place}.fpm"))[:3000] for place in (1, 2, 3)] + [
    read(data(name)) for name in ("second.fpm", "nexthops.fpm", "older.fpm", "namespaces.fpm")]
MORE = [attribute(0x8009, bytes(8)), attribute(22, b""), attribute(21, b"ab"), attribute(30, number(3)),
        attribute(19, b""), attribute(18, b"abcdef") + attribute(4, number(2)), attribute(15, number(9)),
        attribute(15, number(254)) + attribute(4, number(2)), b"\1\0\0", b"\3\0\1\0"]


def turned(text: bytes, source: random.Random, most: int) -> bytes:
    """A text with some bytes changed."""
    turned_text = bytearray(text)
    for _ in range(source.randrange(most)):
        turned_text[source.randrange(len(text))] = source.choice((0, 1, 4, 8, 254, 255, source.randrange(256)))
    return bytes(turned_text)


def some_message(source: random.Random) -> bytes:
    """A message near to every rule."""
    made = source.choice((
        set_route("10.0.0.0/8", source.choice((1, 2, 3, 4)), source.choice((None, 20, 0)),
                  source.choice((None, "192.0.2.1")), route_type=source.choice((1, 1, 1, 2, 3, 6, 7, 8)),
                  table=source.choice((0, 254, 254, 100)), tos=source.choice((0, 0, 0, 16))),
        delete_route("10.0.0.0/8", source.choice((None, 20)), route_type=source.choice((0, 1))),
        message(24, attribute(1, bytes(4)), source.randrange(40)),
        message(source.choice((24, 25)), b"", source.choice((0, 8))),
        set_route("10.0.0.0/8", None, more=source.choice(MORE)),
        message(104, b""), message(24, b"\1\0", family=10), set_route("10.0.0.1/8"), b"\x14\0\0\0\x18\0" + bytes(14)))
    return turned(made, source, 2) if source.random() < 0.4 else made


def some_feed(place: int, source: random.Random) -> bytes:
    if place % 3 == 0:
        return turned(source.choice(REAL), source, 25)
    frames = [frame(*(some_message(source) for _ in range(source.randrange(4))), bytes(source.choice((0, 0, 3, 7))),
                    kind=2 if source.random() < 0.05 else 1) for _ in range(60)]
    end = source.choice((b"", b"", b"\0", b"\1\1\0\2", b"\1", frames[0][:-1]))
    return b"".join(frames) + end


def topology() -> str:
    """Links of all kinds, and an edge for each router."""
    lines = ["routers = [" + ", ".join(f'"{router}"' for router in ROUTERS) + "]"]
    for place in range(0, 64, 2):
        lines += ["[[link]]", f'name = "l{place}"', f'ends = ["m{place}:2", "m{place + 1}:3"]',
                  f"unnumbered = {'true' if place % 4 else 'false'}"]
    for router in ROUTERS:
        lines += ["[[edge]]", f'at = "{router}:1"']
    return "\n".join(lines) + "\n"


def operation(network: Network, router: str, route: Route) -> str:
    """An update as the report's history has it."""
    metric = "" if route.metric is None else f" metric {route.metric}"
    if not route.is_set:
        return f"clear {route.prefix}{metric}"
    return f"set {route.prefix}{metric} {target(network, router, route)}"


def target(network: Network, router: str, route: Route) -> str:
    if route.route_type == 2:
        return "local"
    if route.route_type != UNICAST:
        return f"dropped {SETTABLE_TYPES[route.route_type]}"
    port = network.port(router, route.interface)
    if port.far is not None and (route.gateway is not None or port.unnumbered):
        return f"to {port.far} by {port.link}"
    return f"{'onlink' if route.gateway is None else 'exit'} {route.interface}"


def report(network: Network, folder: str) -> list[str]:
    """The report of a run without a script, as the tools' readers have it."""
    feeds: list[str] = []
    history: list[str] = []
    for place, router in enumerate(network.routers, 1):
        updates, skipped, refused = 0, 0, []
        with open(os.path.join(folder, router), "rb") as file:
            feed = Feed(file)
            for one in feed:
                decoded = decode(one, lambda index, router=router: network.port(router, index) is not None)
                if decoded.refused is not None:
                    refused.append(f"refused offset {one.offset} message {decoded.refused.at} cause "
                                   f"{decoded.refused.number} {decoded.refused.cause}")
                    continue
                skipped += sum(isinstance(each, Skipped) for each in decoded.messages)
                updates += len(decoded.updates)
                history += [f"feed {place} {router} {operation(network, router, route)}" for route in decoded.updates]
        feeds.append(f"feed {place} {router} updates {updates} skipped {skipped} refused {len(refused)} {feed.end}")
        feeds += refused
    entries = [f"{place} {entry}" for place, entry in enumerate(history, 1)]
    return [*feeds, f"history {len(history)}", *entries, *(f"job {place + 1}" for place in range(64)), "done"]


def by_feed(printed: list[str]) -> list[str]:
    """The report with the entries of its history feed by feed, each feed's in the order in which they stand. Each feed
    is a job, and jobs run side by side, so that the whole order is another one each time."""
    first = next(place for place, line in enumerate(printed) if line.startswith("history ")) + 1
    past = first + int(printed[first - 1].split(" ")[1])
    entries = [line.split(" ", 1)[1] for line in printed[first:past]]
    entries.sort(key=lambda entry: int(entry.split(" ")[1]))
    return [*printed[:first], *(f"{place} {entry}" for place, entry in enumerate(entries, 1)), *printed[past:]]


def positions(printed: list[str]) -> list[str]:
    """The numbers of the history's entries, as printed."""
    return [line.split(" ", 1)[0] for line in printed if line[0].isdigit()]


@unittest.skipUnless(os.access(PROGRAM, os.X_OK), "the program isn't built")
class Program(unittest.TestCase):
    def setUp(self) -> None:
        self.folder = tempfile.mkdtemp()
        self.addCleanup(shutil.rmtree, self.folder)

    def write(self, name: str, text: bytes) -> None:
        with open(os.path.join(self.folder, name), "wb") as file:
            file.write(text)

    def run_program(self, *words: str) -> list[str]:
        done = subprocess.run([PROGRAM, "run", *words], cwd=self.folder, capture_output=True, text=True, check=False)
        return done.stdout.splitlines()

    def test_feeds(self) -> None:
        for seed in range(3):
            source = random.Random(seed)
            self.write("topology", topology().encode())
            for place, router in enumerate(ROUTERS):
                self.write(router, some_feed(place, source))
            printed = self.run_program("topology", *(f"{router}={router}" for router in ROUTERS))
            self.assertGreater(sum(line.startswith("refused") for line in printed), 500)
            due = report(parse_topology(topology().encode()), self.folder)
            self.assertEqual(by_feed(printed), due)
            self.assertEqual(positions(printed), positions(due))

    def test_topologies(self) -> None:
        source = random.Random(16)
        base = read(os.path.join(TRIANGLE, "topology.toml")).decode()
        for _ in range(100):
            text = list(base)
            for _ in range(source.randrange(1, 4)):
                at = source.randrange(len(text))
                text[at:at + source.randrange(2)] = source.choice(("", *"rabe123:\"[]=\n, #{}'\\"))
            self.write("topology", "".join(text).encode())
            try:
                parse_topology("".join(text).encode())
                expected = ["history 0", "done"]
            except TopologyFault as fault:
                expected = [fault.error_line()]
            self.assertEqual(self.run_program("topology"), expected, "".join(text))


if __name__ == "__main__":
    unittest.main()
