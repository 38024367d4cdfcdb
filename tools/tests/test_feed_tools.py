"""The tools over stored feeds: each silent slip is found, and moments, guesses and stale routes are right."""

from __future__ import annotations

import json
import os
import shutil
import subprocess
import sys
import tempfile
import unittest

from feed_help import TOOLS, TRIANGLE, Ran, attribute, connected, data, delete_route, frame, read, set_route, tool

from network import parse_topology

FEEDS = ["r1=r1.fpm", "r2=r2.fpm", "r3=r3.fpm"]


class InFolder(unittest.TestCase):
    """A test with a folder of its own, where the triangle's files are."""

    def setUp(self) -> None:
        self.folder = tempfile.mkdtemp()
        self.addCleanup(shutil.rmtree, self.folder)
        for name in ("r1.fpm", "r2.fpm", "r3.fpm", "topology.toml"):
            shutil.copy(os.path.join(TRIANGLE, name), self.folder)

    def write(self, name: str, text: bytes | str) -> str:
        with open(os.path.join(self.folder, name), "wb") as file:
            file.write(text if isinstance(text, bytes) else text.encode())
        return name

    def topology(self) -> str:
        return read(os.path.join(self.folder, "topology.toml")).decode()

    def run_tool(self, name: str, *words: str) -> Ran:
        return tool(name, *words, folder=self.folder)


class Check(InFolder):
    def found(self, *words: str) -> dict[str, list[str]]:
        """The findings by kind; the status says whether there are some."""
        ran = self.run_tool("check", *words)
        self.assertEqual(ran.err, "")
        lines = [] if ran.out.startswith("nothing found") else ran.lines()
        self.assertEqual(ran.status, 1 if lines else 0)
        kinds: dict[str, list[str]] = {}
        for line in lines:
            kinds.setdefault(line.split(" ")[0], []).append(line)
        return kinds

    def test_nothing(self) -> None:
        self.assertEqual(self.found("topology.toml", *FEEDS), {})

    def test_two_interface_numbers_swapped(self) -> None:
        text = self.topology().replace("r1:2", "r1:0").replace("r1:3", "r1:2").replace("r1:0", "r1:3")
        found = self.found(self.write("swapped.toml", text), *FEEDS)
        self.assertEqual(list(found), ["link-ends"])
        self.assertEqual(len(found["link-ends"]), 2)
        self.assertIn("link a: its two ends share no connected prefix: r1:3 has 10.0.13.0/30, r2:2 has 10.0.12.0/30; "
                      "r1:3 shares one with r3:3, r2:2 shares one with r1:2", found["link-ends"][0])

    def test_two_feeds_swapped(self) -> None:
        found = self.found("topology.toml", "r1=r2.fpm", "r2=r1.fpm", "r3=r3.fpm")
        self.assertEqual([line.split(":")[0] for line in found["other-router"]],
                         ["other-router r1=r2.fpm", "other-router r2=r1.fpm"])
        self.assertEqual(len(found["file-name"]), 2)
        self.assertIn("give this file as r2=r2.fpm", found["other-router"][0])

    def test_feeds_swapped_whose_names_say_nothing(self) -> None:
        for name, other in (("r1", "one"), ("r2", "two"), ("r3", "three")):
            os.rename(os.path.join(self.folder, f"{name}.fpm"), os.path.join(self.folder, other))
        found = self.found("topology.toml", "r1=two", "r2=three", "r3=one")
        self.assertEqual(len(found["other-router"]), 3)
        self.assertNotIn("file-name", found)

    def test_feeds_swapped_of_routers_with_one_link(self) -> None:
        self.write("left", frame(connected("10.0.0.0/30", 2)) + frame(connected("10.1.0.0/24", 5)))
        self.write("right", frame(connected("10.0.0.0/30", 2)) + frame(connected("10.2.0.0/24", 6)))
        self.write("two.toml", 'routers = ["r1", "r2"]\n[[link]]\nname = "a"\nends = ["r1:2", "r2:2"]\n'
                               '[[edge]]\nat = "r1:5"\n[[edge]]\nat = "r2:6"\n')
        self.assertEqual(self.found("two.toml", "r1=left", "r2=right"), {})
        self.assertEqual(len(self.found("two.toml", "r1=right", "r2=left")["other-router"]), 2)

    def test_one_recording_for_two_routers(self) -> None:
        found = self.found("topology.toml", "r1=r1.fpm", "r2=r2.fpm", "r3=r1.fpm")
        self.assertIn("same-recording r3=r1.fpm: it has the same bytes as r1=r1.fpm", found["same-recording"][0])

    def test_router_without_feed(self) -> None:
        found = self.found("topology.toml", "r1=r1.fpm", "r3=r3.fpm")
        self.assertEqual(list(found), ["no-feed"])
        self.assertIn("no-feed topology.toml r2: this router has no feed", found["no-feed"][0])

    def test_router_that_the_topology_lacks(self) -> None:
        self.assertIn("r9=r2.fpm", self.found("topology.toml", "r9=r2.fpm")["unknown-router"][0])

    def test_interface_that_the_topology_lacks(self) -> None:
        found = self.found(self.write("less.toml", self.topology().replace('[[edge]]\nat = "r2:4"\n', "")), *FEEDS)
        self.assertEqual(list(found), ["unknown-interface"])
        self.assertIn("unknown-interface r2=r2.fpm frame 3, offset 112: ", found["unknown-interface"][0])
        self.assertIn('or an [[edge]] at "r2:4"', found["unknown-interface"][0])

    def test_link_left_out(self) -> None:
        text = self.topology().replace('[[link]]\nname = "a"\nends = ["r1:2", "r2:2"]\n',
                                       '[[edge]]\nat = "r1:2"\n[[edge]]\nat = "r2:2"\n')
        found = self.found(self.write("less.toml", text), *FEEDS)
        self.assertEqual(list(found), ["no-link"])
        self.assertIn("no-link less.toml r1:2 r2:2: both are edges, but 10.0.12.0/30", found["no-link"][0])

    def test_numbered_link_marked_unnumbered(self) -> None:
        text = self.topology().replace('"r2:2"]', '"r2:2"]\nunnumbered = true')
        self.assertEqual(list(self.found(self.write("marked.toml", text), *FEEDS)), ["link-numbered"])

    def test_older_module(self) -> None:
        found = self.found("topology.toml", f"r1={data('older.fpm')}")
        self.assertIn("28 routes with another metric than 20, the first 10.0.12.0/30 metric 0, and 1 deletions without",
                      found["older-module"][0])
        self.assertNotIn("several-sessions", found)

    def test_sessions_of_one_zebra_joined(self) -> None:
        joined = self.write("joined", read(data("first.fpm")) + read(data("second.fpm")))
        found = self.found("topology.toml", f"r1={joined}")
        self.assertIn("several-sessions r1=joined frame 13, offset 828: routes that stand are sent again",
                      found["several-sessions"][0])
        self.assertIn("`head -c 828`, `tail -c +829`", found["several-sessions"][0])

    def test_sessions_of_two_zebras_joined(self) -> None:
        joined = self.write("joined", read(data("second.fpm")) + read(data("restarted.fpm")))
        found = self.found("topology.toml", f"r1={joined}")
        self.assertIn("several-sessions r1=joined frame 32, offset 2672: another zebra begins to send",
                      found["several-sessions"][0])

    def test_sessions_without_deletions_joined(self) -> None:
        """As a newer zebra sends: a change is a set alone, and one route may come again."""
        table = [set_route(f"10.{n}.0.0/16", gateway="10.0.12.2") for n in range(10)]
        change = set_route("10.3.0.0/16", 3, gateway="10.0.13.2")
        session = b"".join(map(frame, [*table, change, table[5], table[6]]))
        self.write("one", session)
        self.assertNotIn("several-sessions", self.found("topology.toml", "r1=one"))
        self.write("two", session + b"".join(map(frame, table)))
        found = self.found("topology.toml", "r1=two")["several-sessions"][0]
        self.assertIn(f"several-sessions r1=two frame 14, offset {len(session)}: routes that stand are sent again", found)

    def test_single_sessions(self) -> None:
        for name in ("first.fpm", "second.fpm", "restarted.fpm", "nexthops.fpm", "older.fpm"):
            found = self.found("topology.toml", f"r1={data(name)}")
            self.assertNotIn("several-sessions", found)
            self.assertNotIn("several-senders", found)

    def test_namespaces_as_vrfs_in_one_stream(self) -> None:
        found = self.found("topology.toml", f"r1={data('namespaces.fpm')}")
        self.assertIn("2 senders take turns", found["several-senders"][0])
        self.assertNotIn("several-sessions", found)

    def test_session_that_broke_inside_a_frame_joined(self) -> None:
        joined = self.write("joined", read(data("first.fpm"))[:800] + read(data("second.fpm")))
        found = self.found("topology.toml", f"r1={joined}")
        self.assertTrue("broken-end" in found or "refused" in found)

    def test_next_hop_objects(self) -> None:
        found = self.found("topology.toml", f"r1={data('nexthops.fpm')}")
        self.assertIn("10 messages of next-hop objects are skipped", found["next-hop-objects"][0])
        self.assertIn("no fpm use-next-hop-groups", found["next-hop-objects"][0])
        self.assertIn("4 frames are refused as NextHopId", found["refused"][0])

    def test_multipath(self) -> None:
        found = self.found("topology.toml", f"r1={data('second.fpm')}")
        self.assertIn("refused r1=", found["refused"][0])
        self.assertIn("maximum-paths 1", found["refused"][0])

    def test_ends(self) -> None:
        self.write("cut", read(data("first.fpm"))[:-3])
        self.write("lost", read(data("first.fpm")) + b"GET / HTTP/1.1")
        self.write("empty", b"")
        found = self.found("topology.toml", "r1=cut", "r2=lost", "r3=empty")
        self.assertEqual([line.split(":")[0] for line in found["broken-end"]],
                         ["broken-end r1=cut offset 720", "broken-end r2=lost offset 828"])
        self.assertIn("r3=empty", found["empty"][0])

    def test_files_that_are_no_feeds(self) -> None:
        for begin, told in ((b"\x1f\x8b\x08\0", "this is packed with gzip; no frame of it is read: unpack it"),
                            (b"\xd4\xc3\xb2\xa1\2\0", "this is a packet capture;"),
                            (b"routers = []\n", "this is a text, which begins 'routers = []';"),
                            (b"\0\0", "this is no recording of zebra's, by its first byte;")):
            self.write("other", begin)
            found = self.found("topology.toml", "r1=other", "r2=r2.fpm", "r3=r3.fpm")
            self.assertIn(f"other-file r1=other: {told}", found["other-file"][0])
            why = self.run_tool_alone("why", "run", "topology.toml", "r1=other")
            what = told.partition(";")[0]
            self.assertIn(f"frames: other: {what}: ", self.run_tool("frames", "other").err)
            self.assertIn(f"names an interface: {what}: ", self.run_tool("topology", "r1=other").err)
            self.assertIn(f"note: part 1: r1=other: {what}; the report ends this feed in lost 0", why)

    def run_tool_alone(self, name: str, *words: str) -> str:
        return subprocess.run([f"{TOOLS}/{name}", *words], cwd=self.folder, capture_output=True, text=True,
                              check=False).stdout

    def test_names_that_are_near(self) -> None:
        ran = self.run_tool("check", "topology.toml", "PE1.lon=r1.fpm")
        self.assertIn("'PE1.lon' isn't a router's name (1 to 32 of a to z, 0 to 9, _ and -); pe1-lon would be one", ran.err)

    def test_findings_for_a_program(self) -> None:
        ran = self.run_tool("check", "--json", "topology.toml", "r1=r1.fpm", "r3=r3.fpm")
        self.assertEqual([(one["kind"], one["where"]) for one in json.loads(ran.out)], [("no-feed", "topology.toml r2")])
        self.assertEqual((ran.status, self.run_tool("check", "topology.toml", *FEEDS, "--json").out), (1, "[]\n"))

    def test_errors(self) -> None:
        bad = self.write("bad.toml", "routers = [")
        for words, told in (((bad,), "check: bad.toml: line 1: top: NotToml"),
                            (("none.toml",), "check: none.toml: No such"),
                            (("topology.toml", "r1=none"), "check: none: No such"),
                            (("topology.toml", "r1"), "check: r1: this isn't ROUTER=FILE"),
                            (("topology.toml", "r1=r1.fpm", "r1=r2.fpm"), "r1 has a feed already"),
                            ((), "usage: check")):
            ran = self.run_tool("check", *words)
            self.assertEqual((ran.status, ran.out), (1, ""))
            self.assertIn(told, ran.err)


class Topology(InFolder):
    def test_triangle(self) -> None:
        ran = self.run_tool("topology", *FEEDS)
        network = parse_topology(ran.out.encode())
        drawn = parse_topology(self.topology().encode())
        self.assertEqual(ran.status, 0)
        self.assertEqual(network.routers, drawn.routers)
        self.assertEqual({frozenset(link.ends) for link in network.links},
                         {frozenset(link.ends) for link in drawn.links})
        self.assertEqual(set(network.edges), set(drawn.edges))
        self.assertIn("# r1:2 and r2:2 both have 10.0.12.0/30 connected.", ran.out)
        self.write("made.toml", ran.out)
        self.assertEqual(self.run_tool("check", "made.toml", *FEEDS).out, "nothing found in 3 feeds\n")

    def test_names_of_interfaces(self) -> None:
        names = f"r1={data('r1.links.json')}"
        ran = self.run_tool("topology", f"r1={data('first.fpm')}", "r3=r3.fpm", "--links", names)
        self.assertIn("# r1:3 (c) and r3:3 both have 10.0.13.0/30 connected.", ran.out)
        self.assertIn("# r1:5 (stub): connected 10.1.0.0/24, in no other feed.", ran.out)
        self.assertIn('name = "r1-r3"', ran.out)
        self.assertIn("r1:4 (hosts)", ran.out)
        self.assertIn("topology: r1:2 (a) is written as an edge: connected 10.0.12.0/30; it leads to 10.0.12.2",
                      ran.err)

    def test_a_prefix_that_three_routers_have(self) -> None:
        for router in ("x", "y", "z"):
            self.write(router, frame(connected("10.0.0.0/24", 2)))
        ran = self.run_tool("topology", "x=x", "y=y", "z=z")
        self.assertEqual(parse_topology(ran.out.encode()).links, [])
        self.assertIn("10.0.0.0/24 is connected at y:2, z:2 too, so it is no link of two routers", ran.err)

    def test_an_interface_with_two_partners(self) -> None:
        self.write("x", frame(connected("10.0.1.0/24", 2)) + frame(connected("10.0.2.0/24", 2)))
        self.write("y", frame(connected("10.0.1.0/24", 2)))
        self.write("z", frame(connected("10.0.2.0/24", 2)))
        ran = self.run_tool("topology", "x=x", "y=y", "z=z")
        self.assertEqual(parse_topology(ran.out.encode()).links, [])
        self.assertIn("it shares prefixes with y:2, z:2", ran.err)

    def test_loopbacks_with_the_same_address_are_no_link(self) -> None:
        for router in ("x", "y"):
            self.write(router, frame(connected("10.9.9.9/32", 1)))
        self.assertEqual(len(parse_topology(self.run_tool("topology", "x=x", "y=y").out.encode()).edges), 2)

    def test_long_names(self) -> None:
        routers = ["a" * 32, "b" * 32]
        for router in routers:
            self.write(router, frame(connected("10.0.0.0/30", 2)))
        ran = self.run_tool("topology", *(f"{router}={router}" for router in routers))
        self.assertEqual([link.name for link in parse_topology(ran.out.encode()).links], ["link-1"])

    def test_interface_that_no_topology_can_have(self) -> None:
        self.write("x", frame(connected("10.0.0.0/8", 0)) + frame(set_route("11.0.0.0/8", 2 ** 31)))
        self.write("y", frame(connected("10.0.0.0/8", 2)))
        ran = self.run_tool("topology", "x=x", "y=y")
        self.assertEqual(parse_topology(ran.out.encode()).edges, [("y", 2)])
        self.assertIn("x:2147483648: no topology can have an interface of this number", ran.err)

    def test_links_that_are_none(self) -> None:
        for text, told in (("{", "line 1: this isn't what"), ("[" * 20000, "this isn't what"),
                           ("{}", "this isn't a list"),
                           ("\udcff".encode("utf-8", "surrogateescape"), "this isn't what"),
                           ('[{"ifindex": 1, "ifname": "a\\nb"}]', "entry 1 has no ifindex and ifname")):
            ran = self.run_tool("topology", "r1=r1.fpm", "--links", f"r1={self.write('links', text)}")
            self.assertEqual((ran.status, ran.out), (1, ""))
            self.assertIn(f"topology: links: {told}", ran.err)


class Frames(InFolder):
    def test_lines(self) -> None:
        ran = self.run_tool("frames", data("second.fpm"))
        self.assertEqual((ran.status, len(ran.lines()), ran.lines()[-1]), (1, 32, "end"))
        self.assertEqual(ran.lines()[0], "1 offset 0 set 10.0.13.0/30 metric 20 kernel interface 3 table main")
        self.assertEqual(ran.lines()[8], "9 offset 488 skipped OtherFamily (NEWROUTE of IPv6)")
        self.assertEqual(ran.lines()[25], "26 offset 1984 delete 10.0.23.0/30 metric 20 table main; "
                         "set 10.0.23.0/30 metric 20 ospf via 10.0.12.2 interface 2 table main")
        self.assertEqual(ran.lines()[26], "27 offset 2092 refused message 44 cause 9 Multipath (set 10.3.0.0/24 "
                         "metric 20 ospf table main); not applied: delete 10.3.0.0/24 metric 20 table main")
        self.assertEqual(self.run_tool("frames", "r1.fpm").status, 0)

    def test_with_a_topology(self) -> None:
        ran = self.run_tool("frames", data("first.fpm"), "--topology", "topology.toml", "--router", "r1")
        self.assertIn("3 offset 112 refused message 0 cause 13 UnknownInterface", ran.out)

    def test_moments_by_bytes(self) -> None:
        """The bytes are those noted while the example was recorded, and the frames those of its script."""
        ran = self.run_tool("frames", "r1.fpm", "--bytes", "836", "--bytes", "1216", "--bytes", "1217", "--bytes", "3")
        self.assertEqual(ran.status, 0)
        self.assertEqual([line for line in ran.lines() if not line.startswith("#")], ["take r1 14", "take r1 6"])
        self.assertIn("# r1 by byte 3: 0 frames\n# nothing to take: no frame came since", ran.out)

    def test_moments_by_time(self) -> None:
        self.write("r1.1.fpm", read(data("first.fpm")))
        self.write("r1.1.fpm.times", read(data("first.fpm.times")))
        for time, takes in (("+0.5", ["take r1 5"]), ("+3600", ["take r1 12"]), ("12:27:47.303", ["take r1 10"]),
                            ("2026-11-27T12:27:46.5", ["take r1 7"]), ("2026-11-27 13:27:46.5+01:00", ["take r1 7"]),
                            ("2020-01-01", []), ("08:27:50-04:00", ["take r1 10"])):
            ran = self.run_tool("frames", "r1.1.fpm", "--at", time)
            self.assertEqual((ran.status, [line for line in ran.lines() if line[0] != "#"]), (0, takes), time)
        two = self.run_tool("frames", "r1.1.fpm", "--at", "+0.5", "--at", "+3600")
        self.assertEqual([line for line in two.lines() if line[0] != "#"], ["take r1 5", "take r1 7"])
        near = self.run_tool("frames", "r1.1.fpm", "--at", "12:27:47.0")
        self.assertIn("7 frames, or up to 10, which are told of at 2026-11-27T12:27:47.303+00:00", near.out)
        self.assertNotIn("or up to", self.run_tool("frames", "r1.1.fpm", "--at", "12:27:50").out)

    def test_times_that_are_none(self) -> None:
        self.write("r1.1.fpm", read(data("first.fpm")))
        for text, told in ((b"now 1 1\n", "line 1: this isn't"), (b"\xff\n", "line 1: this isn't"),
                           (b"", "it has no whole line"),
                           (b"2026-11-27T12:27:45+00:00 5 5\n2026-11-27T12:27:46+00:00 4 5\n", "line 2: bytes or"),
                           (b"2026-11-27T12:27:45 5 5\n", "line 1: this isn't"),
                           (b"2026-11-27T12:27:45+00:00 5 5 end \n", "line 1: this isn't"),
                           (b"2026-11-27T12:27:45+00:00 5 5 end so\n2026-11-27T12:27:46+00:00 6 6\n", "line 2: it stands")):
            self.write("r1.1.fpm.times", text)
            ran = self.run_tool("frames", "r1.1.fpm", "--at", "+1")
            self.assertEqual((ran.status, ran.out), (1, ""))
            self.assertIn(f"frames: r1.1.fpm.times: {told}", ran.err)

    def test_errors(self) -> None:
        for words, told in ((("none",), "frames: none: No such file"),
                            (("r1.fpm", "--at", "12:00"), "r1.fpm.times: No such"),
                            (("r1.fpm", "--bytes", "-3"), "usage: frames"),
                            (("r1.fpm", "--bytes", "x"), "usage: frames"),
                            (("r1.fpm", "--router", "R"), ""), (("topology.toml",), "")):
            ran = self.run_tool("frames", *words)
            self.assertNotIn("Traceback", ran.err)
            self.assertIn(told, ran.err)
        self.write("r1.fpm.times", b"2026-11-27T12:27:45+00:00 5 5\n")
        for time in ("soon", "+inf", "+1e300", "25:00", ""):
            ran = self.run_tool("frames", "r1.fpm", "--at", time)
            self.assertEqual((ran.status, "this is no time" in ran.err), (1, True), time)

    def test_a_reader_that_goes_away(self) -> None:
        feed = self.write("long", read(os.path.join(TRIANGLE, "r1.fpm")) * 40)
        words = f'"{sys.executable}" "{TOOLS}/frames" "{feed}" | head -n 1'
        done = subprocess.run(["bash", "-c", words], cwd=self.folder, capture_output=True, text=True, check=False)
        self.assertEqual((done.stdout.count("\n"), done.stderr), (1, ""))


    def run_in_shell(self, words: str) -> subprocess.CompletedProcess:
        return subprocess.run(["bash", "-c", words], cwd=self.folder, capture_output=True, text=True, check=False,
                              env={**os.environ, "FRAMES": f"{TOOLS}/frames", "STALE": f"{TOOLS}/stale"})

    def test_outputs_that_cannot_be_written(self) -> None:
        full = self.run_in_shell('"$FRAMES" r1.fpm >/dev/full')
        self.assertEqual((full.returncode, full.stderr), (1, "frames: No space left on device\n"))
        closed = self.run_in_shell('"$FRAMES" r1.fpm >&-')
        self.assertEqual((closed.returncode, closed.stderr), (0, ""))

    def test_names_of_files_that_are_no_text(self) -> None:
        with open(os.path.join(self.folder.encode(), b"\xff"), "wb") as file:
            file.write(b"\1")
        ran = self.run_in_shell("\"$STALE\" $'\\xff'; \"$FRAMES\" $'\\xfe'")
        self.assertEqual((ran.returncode, ran.stdout), (1, "\\udcff cutshort 0: what came after isn't read\n"))
        self.assertEqual(ran.stderr, "frames: \\udcfe: No such file or directory\n")


class StaleRoutes(InFolder):
    def test_multipath_until_a_single_path_comes(self) -> None:
        ran = self.run_tool("stale", "r1.fpm", data("second.fpm"))
        name = data("second.fpm")
        self.assertEqual((ran.status, ran.lines()), (1, [
            f"{name} frame 27 offset 2092 Multipath 10.3.0.0/24 metric 20 until frame 30",
            f"{name} frame 28 offset 2220 Multipath 10.255.0.3/32 metric 20 until frame 31"]))

    def test_nothing_refused(self) -> None:
        self.assertEqual(self.run_tool("stale", "r1.fpm", "r2.fpm"), Ran(0, "", ""))

    def test_with_a_topology(self) -> None:
        ran = self.run_tool("stale", "--topology", "topology.toml", f"r1={data('first.fpm')}")
        self.assertEqual(ran.lines(), [f"r1={data('first.fpm')} frame 3 offset 112 UnknownInterface 10.1.0.0/24 "
                                       "metric 20 to the end"])

    def test_what_settles_a_route(self) -> None:
        multipath = attribute(0x8009, bytes(8))
        bad = frame(delete_route("10.0.0.0/8", 20), set_route("10.0.0.0/8", None, 30, more=multipath))
        for after, until in (([set_route("10.0.0.0/8", metric=20)], {20: 2}),
                             ([delete_route("10.0.0.0/8", None)], {20: 2, 30: 2}),
                             ([delete_route("10.0.0.0/8", 30), delete_route("10.0.0.0/9")], {30: 2}),
                             ([set_route("10.0.0.0/8", metric=30), delete_route("10.0.0.0/8")], {30: 2, 20: 3})):
            self.write("feed", bad + b"".join(frame(message) for message in after))
            self.assertEqual(self.run_tool("stale", "feed").lines(), [
                f"feed frame 1 offset 0 Multipath 10.0.0.0/8 metric {metric} "
                + (f"until frame {until[metric]}" if metric in until else "to the end") for metric in (20, 30)])

    def test_routes_that_cannot_be_read(self) -> None:
        self.write("feed", frame(bytes(8)) + frame(b"", kind=2) + b"\1")
        ran = self.run_tool("stale", "feed")
        self.assertEqual((ran.status, ran.lines()), (1, [
            "feed frame 1 offset 0 BadLength a route that can't be read, to the end",
            "feed frame 2 offset 12 FrameType a route that can't be read, to the end",
            "feed cutshort 16: what came after isn't read"]))


class AllTools(unittest.TestCase):
    NAMES = ("record", "frames", "topology", "check", "stale", "moments", "expect", "watch")

    def test_help(self) -> None:
        for name in self.NAMES:
            ran = tool(name, "--help")
            self.assertEqual((ran.status, ran.out.startswith(f"usage: {name}"), ran.err), (0, True, ""))

    def test_wrong_words(self) -> None:
        for name in self.NAMES:
            ran = tool(name, "--wrong")
            self.assertEqual((ran.status, ran.out), (1, ""))
            self.assertNotIn("Traceback", ran.err)

    def test_folders_in_place_of_files(self) -> None:
        for words in (("frames", "."), ("stale", "."), ("check", "."), ("check", "topology.toml", "r1=."),
                      ("topology", "r1=.")):
            ran = tool(*words)
            self.assertEqual((ran.status, ran.out, ran.err), (1, "", f"{words[0]}: .: Is a directory\n"))


if __name__ == "__main__":
    unittest.main()
