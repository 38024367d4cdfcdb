"""The decoder of feeds: against the program's stored reports, cause by cause, and on input that nobody sends."""

from __future__ import annotations

import io
import os
import random
import unittest

from feed_help import (TOP, TRIANGLE, address, attribute, data, delete_route, frame, message, number, read, set_route)

import frames
from frames import Cutter, Feed, Frame, Prefix, Refused, Route, Skipped, decode
from network import Network, read_topology


def decode_one(text: bytes, has_interface=None) -> frames.Decoded:
    feed = Feed(io.BytesIO(text))
    found = [decode(one, has_interface) for one in feed]
    assert len(found) == 1 and str(feed.end) == "end"
    return found[0]


def cause(text: bytes, has_interface=None) -> tuple[int, str] | None:
    refused = decode_one(text, has_interface).refused
    return None if refused is None else (refused.at, refused.cause)


def target(network: Network, router: str, route: Route) -> str:
    """What the report says of a route that is set."""
    if route.route_type == 2:
        return "local"
    if route.route_type != 1:
        return f"dropped {frames.SETTABLE_TYPES[route.route_type]}"
    port = network.port(router, route.interface)
    if port.far and (route.gateway is not None or port.unnumbered):
        return f"to {port.far} by {port.link}"
    return f"{'exit' if route.gateway is not None else 'onlink'} {route.interface}"


class Reports(unittest.TestCase):
    """The decoder gives what the program printed of the examples."""

    def check_example(self, folder: str, routers: list[str]) -> None:
        network = read_topology(os.path.join(folder, "topology.toml"))
        report = read(os.path.join(folder, "report.txt")).decode().splitlines()
        for place, router in enumerate(routers, 1):
            line = next(line for line in report if line.startswith(f"feed {place} "))
            history = [line.split(f" feed {place} {router} ")[1] for line in report
                       if f" feed {place} {router} " in line]
            with open(os.path.join(folder, f"{router}.fpm"), "rb") as file:
                feed = Feed(file)
                found = [decode(one, lambda index: network.port(router, index) is not None) for one in feed]
            updates = [update for one in found for update in one.updates]
            skipped = sum(isinstance(one, Skipped) for each in found if each.refused is None for one in each.messages)
            refused = sum(each.refused is not None for each in found)
            self.assertEqual(line, f"feed {place} {router} updates {len(updates)} skipped {skipped} "
                                   f"refused {refused} {feed.end}")
            self.assertEqual(history, [self.operation(network, router, update) for update in updates])

    def operation(self, network: Network, router: str, route: Route) -> str:
        metric = "" if route.metric is None else f" metric {route.metric}"
        if route.is_set:
            return f"set {route.prefix}{metric} {target(network, router, route)}"
        return f"clear {route.prefix}{metric}"

    def test_first_path(self) -> None:
        self.check_example(os.path.join(TOP, "examples", "first-path"), ["r1"])

    def test_triangle(self) -> None:
        self.check_example(TRIANGLE, ["r1", "r2", "r3"])


class Messages(unittest.TestCase):
    """Each cause, and the order in which causes decide."""

    def test_a_route(self) -> None:
        route = decode_one(frame(set_route("10.0.0.0/8", 3, 7, "192.0.2.1"))).updates[0]
        self.assertEqual((route.is_set, route.prefix, route.metric, route.interface, route.gateway),
                         (True, Prefix(10 << 24, 8), 7, 3, "192.0.2.1"))
        self.assertFalse(route.is_connected)

    def test_absent_metrics(self) -> None:
        self.assertEqual(decode_one(frame(set_route("10.0.0.0/8", 3, None))).updates[0].metric, 0)
        self.assertIsNone(decode_one(frame(delete_route("10.0.0.0/8", None))).updates[0].metric)

    def test_default_route_without_destination(self) -> None:
        route = decode_one(frame(message(25, b"", 0))).updates[0]
        self.assertEqual(str(route.prefix), "0.0.0.0/0")

    def test_lengths(self) -> None:
        good = set_route("10.0.0.0/8")
        for text, at in ((bytes(4), 0), (bytes(12), 0), (b"\x0f" + bytes(19), 0), (b"\xff" + bytes(31), 0),
                         (good + bytes(4), len(good)), (good + bytes(15), len(good))):
            self.assertEqual(cause(frame(text)), (at, "BadLength"))
        self.assertIsNone(cause(frame(good, bytes(3))))
        self.assertIsNone(cause(frame()))
        self.assertEqual(cause(frame(b"\x14\0\0\0\x18" + bytes(15))), (0, "Short"))

    def test_attributes(self) -> None:
        for bad in (b"\3\0\1\0", b"\xff\0\x63\0", attribute(1, b"abc"), attribute(6, b""), attribute(15, bytes(8))):
            self.assertEqual(cause(frame(message(24, bad))), (0, "BadAttr"))
        self.assertEqual(cause(frame(set_route("10.0.0.0/8", more=attribute(4, b"ab")))), (0, "BadAttr"))
        self.assertIsNone(cause(frame(message(25, attribute(1, bytes(4)) + attribute(4, b"ab")))))
        self.assertIsNone(cause(frame(set_route("10.0.0.0/8", more=b"\1\0\0"))))

    def test_last_of_a_repeated_attribute(self) -> None:
        text = frame(set_route("10.0.0.0/8", more=attribute(4, number(9)) + attribute(0x8000 | 1, address("11.0.0.0"))))
        route = decode_one(text).updates[0]
        self.assertEqual((str(route.prefix), route.interface), ("11.0.0.0/8", 9))

    def test_skipped(self) -> None:
        for text, why in ((message(104, b""), "OtherType"), (message(24, b"\1\0\0\0", family=10), "OtherFamily"),
                          (set_route("10.0.0.0/8", table=100), "OtherTable"),
                          (set_route("10.0.0.0/8", more=attribute(15, number(1000))), "OtherTable")):
            decoded = decode_one(frame(text))
            self.assertIsNone(decoded.refused)
            self.assertEqual([one.why for one in decoded.messages], [why])
        self.assertEqual(len(decode_one(frame(set_route("10.0.0.0/8", table=0))).updates), 1)
        main = set_route("10.0.0.0/8", table=9, more=attribute(15, number(254)))
        self.assertEqual(len(decode_one(frame(main)).updates), 1)

    def test_causes_of_a_route(self) -> None:
        multipath = attribute(0x8009, bytes(8))
        for text, expected in (
                (message(24, attribute(1, bytes(4)), 33), "BadPrefixLength"),
                (set_route("10.0.0.0/8", tos=16), "SourceOrTos"), (set_route("10.0.0.0/8", source=8), "SourceOrTos"),
                (message(24, b"", 8), "NoDestination"), (set_route("10.0.0.1/8"), "HostBits"),
                (delete_route("10.0.0.1/8"), "HostBits"), (set_route("10.0.0.0/8", route_type=3), "RouteType"),
                (set_route("10.0.0.0/8", None, more=multipath), "Multipath"),
                (set_route("10.0.0.0/8", more=multipath + attribute(22, b"")), "Multipath"),
                (set_route("10.0.0.0/8", more=attribute(21, b"ab")), "Encap"),
                (set_route("10.0.0.0/8", more=attribute(19, b"")), "Encap"),
                (set_route("10.0.0.0/8", None, more=attribute(30, number(4))), "NextHopId"),
                (set_route("10.0.0.0/8", None), "NoInterface")):
            self.assertEqual(cause(frame(text)), (0, expected))
        self.assertIsNone(cause(frame(set_route("10.0.0.0/8", None, route_type=6))))
        self.assertIsNone(cause(frame(message(25, attribute(1, bytes(4)) + multipath, route_type=3))))

    def test_unknown_interface(self) -> None:
        known = {2}.__contains__
        self.assertEqual(cause(frame(set_route("10.0.0.0/8", 3)), known), (0, "UnknownInterface"))
        self.assertIsNone(cause(frame(set_route("10.0.0.0/8", 2)), known))
        self.assertIsNone(cause(frame(set_route("10.0.0.0/8", 3, route_type=2)), known))
        self.assertIsNone(cause(frame(set_route("10.0.0.0/8", 3))))

    def test_the_first_refused_message_refuses_the_frame(self) -> None:
        bad = set_route("10.0.0.0/8", None)
        decoded = decode_one(frame(delete_route("10.0.0.0/8"), bad, set_route("10.0.0.1/8")))
        self.assertEqual((decoded.refused.at, decoded.refused.cause, decoded.updates), (44, "NoInterface", []))
        self.assertEqual(len(decoded.messages), 1)

    def test_other_types_of_frames(self) -> None:
        self.assertEqual(cause(frame(set_route("10.0.0.0/8"), kind=2)), (0, "FrameType"))


class Ends(unittest.TestCase):
    """How feeds end."""

    def end(self, text: bytes) -> tuple[int, str]:
        feed = Feed(io.BytesIO(text))
        return len(list(feed)), str(feed.end)

    def test_ends(self) -> None:
        good = frame(set_route("10.0.0.0/8"))
        self.assertEqual(self.end(b""), (0, "end"))
        self.assertEqual(self.end(good + good), (2, "end"))
        self.assertEqual(self.end(good + b"\1"), (1, f"cutshort {len(good)}"))
        self.assertEqual(self.end(good + good[:-1]), (1, f"cutshort {len(good)}"))
        self.assertEqual(self.end(good + b"\0" + good), (1, f"lost {len(good)} BadVersion"))
        self.assertEqual(self.end(good + b"\1\1\0\3" + good), (1, f"lost {len(good)} BadFrameLength"))
        self.assertEqual(self.end(b"\1\1\0"), (0, "cutshort 0"))

    def test_too_long(self) -> None:
        good = frame(set_route("10.0.0.0/8"))
        longest = frames.LONGEST_FEED
        try:
            frames.LONGEST_FEED = 2 * len(good)
            self.assertEqual(self.end(good * 2), (2, "end"))
            self.assertEqual(self.end(good * 3), (2, "toolong"))
            frames.LONGEST_FEED = len(good) + 1
            self.assertEqual(self.end(good * 2), (1, "toolong"))
            self.assertEqual(self.end(good + b"\0" + good), (1, f"lost {len(good)} BadVersion"))
        finally:
            frames.LONGEST_FEED = longest

    def test_a_failing_file(self) -> None:
        class Failing(io.RawIOBase):
            def read(self, _size: int = -1) -> bytes:
                raise OSError("a worn disk")
        feed = Feed(Failing())
        self.assertEqual((list(feed), str(feed.end)), ([], "readfault"))

    def test_pieces_of_any_size(self) -> None:
        text = read(os.path.join(TRIANGLE, "r1.fpm"))
        whole = list(Feed(io.BytesIO(text)))
        for size in (1, 3, 57, 1000):
            cutter = Cutter()
            found = [one for at in range(0, len(text), size) for one in cutter.feed(text[at:at + size])]
            self.assertEqual(found, whole)
            self.assertEqual((cutter.frames, str(cutter.finish())), (129, "end"))


class Hostile(unittest.TestCase):
    """Input that nobody sends: always an answer, never a fault of the decoder."""

    def take(self, text: bytes) -> None:
        feed = Feed(io.BytesIO(text))
        for one in feed:
            decoded = decode(one, lambda index: index < 5)
            for each in decoded.messages:
                self.assertIsInstance(each, (Route, Skipped))
        self.assertIsNotNone(feed.end)

    def test_random_bytes(self) -> None:
        source = random.Random(16)
        for _ in range(300):
            self.take(source.randbytes(source.randrange(200)))
            payload = source.randbytes(source.randrange(120))
            decode(Frame(1, 0, 1, payload))
            decode(Frame(1, 0, 1, b"\x40\0\0\0\x18\0" + payload))

    def test_real_bytes_turned(self) -> None:
        source = random.Random(17)
        real = read(data("second.fpm"))
        for _ in range(300):
            text = bytearray(real)
            for _ in range(source.randrange(1, 6)):
                text[source.randrange(len(text))] = source.choice((0, 1, 4, 255, source.randrange(256)))
            self.take(bytes(text[:source.randrange(len(text))]))


class Usual(unittest.TestCase):
    """The messages that most frames have are read in one go, and alike."""

    @staticmethod
    def by_attributes(payload: bytes, has_interface) -> frames.Decoded:
        messages: list = []
        for one in frames.read_messages(payload, has_interface):
            if isinstance(one, Refused):
                return frames.Decoded(messages, one)
            messages.append(one)
        return frames.Decoded(messages)

    def test_spoiled_or_whole_they_are_read_alike(self) -> None:
        source = random.Random(3)
        with open(os.path.join(TRIANGLE, "r1.fpm"), "rb") as file:
            payloads = [one.payload for one in Feed(file)]
        usual = 0
        for payload in source.sample(payloads, 60):
            for _ in range(8):
                spoiled = bytearray(payload)
                for place in source.sample(range(len(payload)), source.choice((0, 1, 2))):
                    spoiled[place] = source.choice((0, 1, 2, 8, 24, 25, 255, spoiled[place] ^ 1 << source.randrange(8)))
                text = bytes(spoiled)
                for has_interface in (None, lambda index: index % 2 == 0):
                    self.assertEqual(decode(Frame(1, 0, 1, text), has_interface), self.by_attributes(text, has_interface),
                                     text.hex())
                    usual += (frames._usual_route(text, has_interface) or frames._usual_change(text, has_interface)) is not None
        self.assertGreater(usual, 200)


class StoredFeeds(unittest.TestCase):
    """Recordings of FRR 8.4.4 that are not in the profile."""

    def causes(self, name: str) -> list[str]:
        with open(data(name), "rb") as file:
            return [one.refused.cause for one in map(decode, Feed(file)) if one.refused is not None]

    def test_multipath(self) -> None:
        self.assertEqual(self.causes("second.fpm"), ["Multipath"] * 2)

    def test_next_hop_objects(self) -> None:
        self.assertEqual(self.causes("nexthops.fpm"), ["NextHopId"] * 4)

    def test_older_module(self) -> None:
        with open(data("older.fpm"), "rb") as file:
            updates = [update for one in map(decode, Feed(file)) for update in one.updates]
        self.assertEqual({update.metric for update in updates}, {0, 10, 11, 20, 25, 26, 35, 41, 50, 55, 56, 65, None})

    def test_a_refused_route_is_read_as_far_as_it_goes(self) -> None:
        with open(data("second.fpm"), "rb") as file:
            refused = [one.refused for one in map(decode, Feed(file)) if one.refused is not None]
        self.assertEqual([str(one.route.prefix) for one in refused if isinstance(one, Refused)],
                         ["10.3.0.0/24", "10.255.0.3/32"])


if __name__ == "__main__":
    unittest.main()
