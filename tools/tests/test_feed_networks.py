"""The tools over recorded networks that give wrong answers without a word from the program: each is told."""

from __future__ import annotations

import json
import os
import shutil
import tempfile
import unittest
from datetime import datetime, timedelta

from feed_help import TESTS, Ran, connected, delete_route, frame, set_route, tool

from network import parse_topology

NETWORKS = os.path.join(TESTS, "data", "networks")
EXAMPLES = os.path.join(TESTS, "..", "..", "examples")
MADE = os.path.join(TESTS, "data", "made")


def kinds(ran: Ran) -> list[str]:
    """The kinds of what `check` found."""
    return [] if ran.out.startswith("nothing found") else [line.split(" ")[0] for line in ran.lines()]


class Network(unittest.TestCase):
    """A test with a copy of one of the networks."""

    name = ""

    def setUp(self) -> None:
        folder = tempfile.mkdtemp()
        self.addCleanup(shutil.rmtree, folder)
        self.folder = os.path.join(folder, "network")
        shutil.copytree(os.path.join(NETWORKS, self.name), self.folder)
        self.feeds = [f"{name.split('.')[0]}={name}" for name in sorted(os.listdir(self.folder))
                      if name.endswith(".1.fpm")]

    def run_tool(self, name: str, *words: str) -> Ran:
        return tool(name, *words, folder=self.folder)

    def write(self, name: str, text: str | bytes) -> str:
        with open(os.path.join(self.folder, name), "wb") as file:
            file.write(text if isinstance(text, bytes) else text.encode())
        return name

    def guess(self) -> Ran:
        """Writes the guessed topology to a file."""
        ran = self.run_tool("topology", *self.feeds)
        self.write("topology.toml", ran.out)
        return ran


class Segment(Network):
    """Three routers on one segment, over which 10.77.0.0/16 loops."""

    name = "lan"

    def test_topology_says_that_the_segment_is_no_link(self) -> None:
        ran = self.guess()
        self.assertEqual((ran.status, parse_topology(ran.out.encode()).links), (1, []))
        self.assertIn("r1:4 is written as an edge: connected 10.0.0.0/24; 10.0.0.0/24 is connected at r2:4, r3:4 too",
                      ran.err)

    def test_check_tells_the_segment_and_the_routes_over_it(self) -> None:
        self.guess()
        ran = self.run_tool("check", "topology.toml", *self.feeds)
        self.assertEqual(kinds(ran), ["shared-segment"] + 3 * ["gateway-inside"])
        self.assertIn("shared-segment topology.toml r1:4 r2:4 r3:4: 10.0.0.0/24 is connected at 3 routers", ran.out)
        self.assertIn("gateway-inside topology.toml r3:4: 3 routes leave at this edge, the first to 10.1.0.0/24, by the "
                      "gateways 10.0.0.1, 10.0.0.2 in a prefix that is connected at r1:4, r2:4 too", ran.out)

    def test_a_link_of_two_of_the_three(self) -> None:
        self.write("two.toml", 'routers = ["r1", "r2", "r3"]\n[[link]]\nname = "a"\nends = ["r1:4", "r2:4"]\n'
                   + "".join(f'[[edge]]\nat = "{end}"\n' for end in ("r3:4", "r1:3", "r2:3", "r3:3")))
        self.assertEqual(kinds(self.run_tool("check", "two.toml", *self.feeds)), ["shared-segment", "gateway-inside"])

    def addresses(self, **routers: str) -> list[str]:
        """Words that give each router an address, as `ip -j address` prints it."""
        words = []
        for router, address in routers.items():
            told = [{"ifname": "lan", "addr_info": [{"family": "inet", "local": address}, {"family": "inet6", "local": "::1"}]}]
            words += ["--addresses", f"{router}={self.write(f'{router}.addresses', json.dumps(told))}"]
        return words

    def test_whose_address_a_gateway_is(self) -> None:
        self.guess()
        words = self.addresses(r1="10.0.0.1", r2="10.0.0.2", r3="10.0.0.3")
        ran = self.run_tool("check", "topology.toml", *self.feeds, *words)
        self.assertEqual(kinds(ran), ["shared-segment"] + 3 * ["gateway-inside"])
        ran = self.run_tool("check", "topology.toml", *self.feeds, *self.addresses(r1="10.0.0.1", r2="10.0.0.4"))
        self.assertIn("r1:4: 3 routes leave at this edge, the first to 10.2.0.0/24, by the gateways 10.0.0.2, 10.0.0.3 in a "
                      "prefix that is connected at r3:4 too", ran.out)

    def test_a_gateway_of_all_that_is_none_of_them(self) -> None:
        """A network for management: three routers with one gateway, which isn't recorded."""
        self.write("topology.toml", 'routers = ["r1", "r2", "r3"]\n'
                   + "".join(f'[[edge]]\nat = "r{n}:2"\n' for n in (1, 2, 3)))
        for n in (1, 2, 3):
            self.write(f"r{n}", frame(connected("192.168.0.0/24", 2)) + frame(set_route("0.0.0.0/0", 2, gateway="192.168.0.1"))
                       + frame(set_route(f"10.{n}.0.0/16", None, route_type=6)))
        words = ("topology.toml", "r1=r1", "r2=r2", "r3=r3")
        self.assertEqual(kinds(self.run_tool("check", *words)), ["shared-segment"] + 3 * ["gateway-inside"])
        own = self.addresses(r1="192.168.0.11", r2="192.168.0.12", r3="192.168.0.13")
        self.assertEqual(kinds(self.run_tool("check", *words, *own)), [])
        self.assertIn("entry 1 has no addr_info", self.run_tool("check", *words, "--addresses", f"r1={self.write('x', '[1]')}").err)

    def test_a_segment_of_hosts_alone_is_no_slip(self) -> None:
        self.write("topology.toml", 'routers = ["r1", "r2", "r3"]\n'
                   + "".join(f'[[edge]]\nat = "r{n}:2"\n[[edge]]\nat = "r{n}:3"\n' for n in (1, 2, 3)))
        for n in (1, 2, 3):
            self.write(f"r{n}", frame(connected("172.17.0.0/16", 2)) + frame(connected(f"10.{n}.0.0/24", 3)))
        self.assertEqual(kinds(self.run_tool("check", "topology.toml", "r1=r1", "r2=r2", "r3=r3")), [])


class Anew(Network):
    """A cable of r1 and r2 that was taken away, and another with new interfaces in its place."""

    name = "anew"

    def test_ends_are_paired_as_they_lived(self) -> None:
        ran = self.guess()
        links = parse_topology(ran.out.encode()).links
        self.assertEqual([link.ends for link in links], [[("r1", 4), ("r2", 4)], [("r1", 5), ("r2", 5)]])
        self.assertEqual((ran.status, ran.err), (0, ""))
        self.assertEqual(kinds(self.run_tool("check", "topology.toml", *self.feeds)), [])

    def test_links_are_named_after_their_interfaces(self) -> None:
        names = [word for n in (1, 2) for word in ("--links", f"r{n}=r{n}.links.json")]
        ran = self.run_tool("topology", *self.feeds, *names)
        self.assertEqual([link.name for link in parse_topology(ran.out.encode()).links], ["r1-r2", "wire"])

    def test_without_times_the_order_decides(self) -> None:
        for n in (1, 2):
            os.remove(os.path.join(self.folder, f"r{n}.1.fpm.times"))
        self.assertEqual(len(parse_topology(self.guess().out.encode()).links), 2)

    def test_clocks_that_differ(self) -> None:
        """r2's clock is eight seconds ahead, so that by the times its first interface outlives r1's."""
        path = os.path.join(self.folder, "r2.1.fpm.times")
        with open(path, encoding="ascii") as file:
            moments = [line.split(" ", 1) for line in file]
        self.write("r2.1.fpm.times", "".join(f"{datetime.fromisoformat(time) + timedelta(seconds=8)} {rest}".replace(" ", "T", 1)
                                             for time, rest in moments))
        self.assertEqual(len(parse_topology(self.guess().out.encode()).links), 2)

    def test_a_topology_of_the_time_before_wants_a_link(self) -> None:
        old = self.write("old.toml", 'routers = ["r1", "r2"]\n[[link]]\nname = "wire"\nends = ["r1:4", "r2:4"]\n'
                                     '[[edge]]\nat = "r1:3"\n[[edge]]\nat = "r2:3"\n')
        ran = self.run_tool("check", old, *self.feeds)
        self.assertEqual(kinds(ran), 2 * ["unknown-interface"])
        self.assertEqual(ran.out.count('add a link of the ends "r1:5" and "r2:5", which both have 10.0.12.0/30 connected'), 2)

    def test_edges_in_place_of_the_second_link(self) -> None:
        edges = self.write("edges.toml", 'routers = ["r1", "r2"]\n[[link]]\nname = "wire"\nends = ["r1:4", "r2:4"]\n'
                           + "".join(f'[[edge]]\nat = "{end}"\n' for end in ("r1:3", "r1:5", "r2:3", "r2:5")))
        ran = self.run_tool("check", edges, *self.feeds)
        self.assertEqual(kinds(ran), ["no-link"])
        self.assertIn("no-link edges.toml r1:5 r2:5: both are edges, but 10.0.12.0/30 is connected", ran.out)

    def test_one_end_made_anew(self) -> None:
        """r1's interface 2 becomes 9 while r2's stays: a topology can have one of the two links."""
        self.write("r1", b"".join(map(frame, (connected("10.0.0.0/30", 2), set_route("10.2.0.0/24", 2, gateway="10.0.0.2"),
                                              delete_route("10.0.0.0/30"), delete_route("10.2.0.0/24"),
                                              connected("10.0.0.0/30", 9),
                                              set_route("10.2.0.0/24", 9, gateway="10.0.0.2")))))
        self.write("r2", frame(connected("10.0.0.0/30", 2)) + frame(connected("10.2.0.0/24", 3)))
        self.feeds = ["r1=r1", "r2=r2"]
        for told, moments in (("10.0.0.0/30 was connected here for a part of the time and at r1:9 for another, while r2:2 "
                               "stayed", ((0, 2), (20, 4), (25, 6))),
                              ("which of them was joined with this one isn't known", ())):
            for router, own in (("r1", moments), ("r2", ((0, 2), (60, 2)))):
                self.write(f"{router}.times", "".join(f"2026-11-27T12:00:{second:02}+00:00 9 {frames}\n"
                                                      for second, frames in own if moments and second < 60))
            ran = self.guess()
            self.assertEqual((ran.status, [link.ends for link in parse_topology(ran.out.encode()).links]),
                             (1, [[("r1", 9), ("r2", 2)]]))
            self.assertIn("topology: r1:2 is written as an edge: connected 10.0.0.0/30; ", ran.err)
            self.assertIn(told, ran.err)
            found = self.run_tool("check", "topology.toml", *self.feeds)
            self.assertEqual(kinds(found), ["gateway-inside"])
            self.assertIn("gateway-inside topology.toml r1:2: 1 routes leave at this edge, the first to 10.2.0.0/24, by "
                          "the gateway 10.0.0.2 in a prefix that is connected at r2:2 too", found.out)


class Again(Network):
    """Two sessions of r2, in the second one 10.9.0.0/24 goes back to r1."""

    name = "again"

    def test_check_tells_the_later_session(self) -> None:
        self.guess()
        ran = self.run_tool("check", "topology.toml", *self.feeds)
        self.assertEqual(kinds(ran), ["later-session"])
        self.assertIn("later-session r2=r2.1.fpm: this session ended at 2026-11-30T17:33:21.044+00:00 (zebra ended the "
                      "session, whole), and r2.2.fpm beside it is a later one", ran.out)
        self.assertEqual(kinds(self.run_tool("check", "topology.toml", "r1=r1.1.fpm", "r2=r2.2.fpm")), [])

    def test_a_session_that_ended_while_others_went_on(self) -> None:
        self.guess()
        for name in ("r2.2.fpm", "r2.2.fpm.times"):
            os.remove(os.path.join(self.folder, name))
        self.assertEqual(kinds(self.run_tool("check", "topology.toml", *self.feeds)), [])
        with open(os.path.join(self.folder, "r1.1.fpm.times"), encoding="ascii") as file:
            lines = file.read().splitlines()
        self.write("r1.1.fpm.times", f"{lines[0]}\n2026-11-30T17:33:32.000+00:00 308 5\n")
        ran = self.run_tool("check", "topology.toml", *self.feeds)
        self.assertEqual(kinds(ran), ["ended-early"])
        self.assertIn("frames of other feeds came until 2026-11-30T17:33:32.000+00:00", ran.out)

    def test_a_moment_after_the_end(self) -> None:
        before = self.run_tool("frames", "r2.1.fpm", "--at", "17:33:17")
        self.assertEqual((before.status, before.lines()[1:], before.err), (0, ["take r2 5"], ""))
        after = self.run_tool("frames", "r2.1.fpm", "--at", "17:33:36")
        self.assertEqual((after.status, after.lines()[1:]), (1, ["take r2 7"]))
        self.assertIn("7 frames, all of a session that ended at 2026-11-30T17:33:21.044+00:00 (zebra ended the session, "
                      "whole); r2.2.fpm goes on from 2026-11-30T17:33:29.282+00:00", after.out)
        self.assertIn("frames: r2 at 2026-11-30T17:33:36.000+00:00: all of a session that ended", after.err)

    def test_a_later_session_where_the_end_is_not_told(self) -> None:
        with open(os.path.join(self.folder, "r2.1.fpm.times"), encoding="ascii") as file:
            self.write("r2.1.fpm.times", "".join(line for line in file if " end " not in line))
        self.assertEqual(self.run_tool("frames", "r2.1.fpm", "--at", "17:33:25").status, 0)
        ran = self.run_tool("frames", "r2.1.fpm", "--at", "17:33:36")
        self.assertEqual(ran.status, 1)
        self.assertIn("all of a session after which another began; r2.2.fpm goes on from", ran.err)


class Quiet(unittest.TestCase):
    """Networks that are right: nothing is found. The made one has a feed with refused frames and broken ends."""

    def test_examples(self) -> None:
        for name, feeds in (("triangle-ospf", ("r1=r1.fpm", "r2=r2.fpm", "r3=r3.fpm")),
                            ("live-triangle", ("r1=r1.1.fpm", "r2=r2.1.fpm", "r3=r3.1.fpm"))):
            ran = tool("check", "topology.toml", *feeds, folder=os.path.join(EXAMPLES, name))
            self.assertEqual(kinds(ran), [], ran.out)
            self.assertEqual(tool("topology", *feeds, folder=os.path.join(EXAMPLES, name)).status, 0)

    def test_networks_made_by_hand(self) -> None:
        """Their feeds have no connected routes, so their links can't be looked at."""
        for name, due in (("first-path", 2 * ["no-feed"]), ("data-centre", [])):
            folder = os.path.join(EXAMPLES, name)
            feeds = [f"{name[:-4]}={name}" for name in os.listdir(folder) if name.endswith(".fpm")]
            self.assertEqual(kinds(tool("check", "topology.toml", *feeds, folder=folder)), due)

    def test_the_network_made_by_chance(self) -> None:
        feeds = [f"{name[:-4]}={name}" for name in os.listdir(MADE) if name.endswith(".fpm")]
        found = set(kinds(tool("check", "topology.toml", *feeds, folder=MADE)))
        self.assertLessEqual(found, {"no-feed", "refused", "broken-end", "older-module", "no-mark", "several-sessions"})


if __name__ == "__main__":
    unittest.main()
