"""VRFs as routers of their own, and routers that replace by prefix: what feeds and reports mean with them, and what each
tool says of them. The reports are made by the plain evaluator, or by hand."""

from __future__ import annotations

import contextlib
import io
import json
import os
import random
import re
import shutil
import tempfile
import unittest
from pathlib import Path
from unittest import mock

from feed_help import (TOP, Ran, attribute, connected, data, delete_route, frame, load_tool, number, plain_program, read,
                       set_route, tool)

RANDOM_RUNS = load_tool("../.ci/random-runs")
CASES = load_tool("../.ci/cases")
DRAW = load_tool("draw")

# The tools have put their folders of modules on the path.
import due  # noqa: E402
import evaluator  # noqa: E402
import frames  # noqa: E402
import reading  # noqa: E402
import run_words  # noqa: E402
from brief import Brief  # noqa: E402
from due import Ended, faults_of  # noqa: E402
from evaluator import changes, tables_after  # noqa: E402
from frames import Feed, Route, Skipped, decode  # noqa: E402
from layout import layout  # noqa: E402
from network import Network, parse_topology, read_topology  # noqa: E402
from plain_report import report_of  # noqa: E402
from report import Entry, Prefix, ReportError, Target, parse_report  # noqa: E402

EXAMPLE = os.path.join(TOP, "examples", "vrfs")
FEEDS = [f"{name}={name}.fpm" for name in ("pe", "core", "red-ce", "blue-ce")]
LINKS = [word for name in ("pe", "core", "red-ce", "blue-ce") for word in ("--links", f"{name}={name}.links.json")]
RING = read(os.path.join(TOP, "examples", "first-path", "topology.toml")).decode()
VRF = '[[vrf]]\nrouter = "r1"\ntable = 10\nname = "v1"\n[[link]]\nname = "d"\nends = ["v1:5", "r2:5"]\n'
GATEWAY = "192.0.2.1"


def mark(router: str) -> str:
    return f'[[router]]\nname = "{router}"\nreplace = "prefix"\n'


class InFolder(unittest.TestCase):
    """A test with a folder of its own, where the ring has a VRF of r1 and a link from it to r2."""

    def setUp(self) -> None:
        self.folder = tempfile.mkdtemp()
        self.addCleanup(shutil.rmtree, self.folder)
        self.write("topology.toml", RING + VRF)

    def write(self, name: str, text: bytes | str) -> str:
        Path(self.folder, name).write_bytes(text if isinstance(text, bytes) else text.encode())
        return name

    def feed(self, name: str, *messages: bytes) -> str:
        return self.write(name, b"".join(map(frame, messages)))

    def run_tool(self, name: str, *words: str) -> Ran:
        return tool(name, *words, folder=self.folder)

    def lines(self, name: str, *words: str) -> list[str]:
        ran = self.run_tool(name, *words)
        self.assertEqual((ran.status, ran.err), (0, ""))
        return ran.lines()

    def report(self, *words: str, script: str = "") -> str:
        """Writes the report of a run over this folder's topology."""
        self.write("script", script)
        ran = self.run_tool("plain", "run", "topology.toml", *words, *(["@script"] if script else []))
        self.assertIn(ran.status, (0, 1))
        self.write("report", ran.out)
        return ran.out


class Cases(unittest.TestCase):
    """The cases that were worked out by hand, by the plain evaluator of the tools."""

    def test_cases(self) -> None:
        seen = 0
        for case in CASES.read_cases():
            if not re.search("VRF|table|metric|replaces|marks|routers", case.name):
                continue
            with tempfile.TemporaryDirectory() as folder:
                for name, text in case.files.items():
                    Path(folder, name).write_bytes(text)
                for text in case.each[1]:
                    if case.each[0]:
                        Path(folder, case.each[0]).write_bytes(text)
                    for command in case.commands:
                        ran = tool("plain", *command.words, folder=folder)
                        self.assertEqual(ran.status, command.status, (case.name, command.words))
                        self.assertTrue(any(CASES.is_due(ran.out.encode(), lines) for lines in command.due),
                                        (case.name, command.words, ran.out))
                        seen += 1
        self.assertGreaterEqual(seen, 70)


class Example(unittest.TestCase):
    """The stored network of two VRFs."""

    def test_the_stored_report(self) -> None:
        words = ["run", "topology.toml", *FEEDS, "@script"]
        with contextlib.chdir(EXAMPLE):
            made = report_of(read_topology("topology.toml"), run_words.read_words(words), "")
        text = read(os.path.join(EXAMPLE, "report.txt"))
        self.assertEqual((made[0], "".join(f"{line}\n" for line in made[1])), (0, text.decode()))
        self.assertEqual(faults_of(words, EXAMPLE, Ended(0, text), None), [])
        for old, new in ((b" pe-red set 10.0.1.0/30", b" pe set 10.0.1.0/30"), (b" pe-blue clear", b" pe-red clear"),
                         (b"hops red-ce\nend exit 4", b"hops red-ce pe-red core\nend exit 3")):
            self.assertNotEqual(faults_of(words, EXAMPLE, Ended(0, text.replace(old, new)), None), [])

    def test_the_topology(self) -> None:
        ran = tool("topology", "--vrfs", *FEEDS, *LINKS, folder=EXAMPLE)
        self.assertEqual((ran.status, ran.out), (0, read(os.path.join(EXAMPLE, "topology.toml")).decode()))
        self.assertEqual(tool("check", "topology.toml", *FEEDS, folder=EXAMPLE).out, "nothing found in 4 feeds\n")

    def test_what_its_readme_shows(self) -> None:
        """Each text in code that is an answer's line is one of the report."""
        readme, report = (read(os.path.join(EXAMPLE, name)).decode() for name in ("README.md", "report.txt"))
        shown = re.findall(r"`((?:hops|end) [^`]+)`", readme)
        self.assertGreaterEqual(len(shown), 8)
        for line in shown:
            self.assertIn(line, report.splitlines())
        script = read(os.path.join(EXAMPLE, "script")).decode().splitlines()
        for rows in re.findall(r"^\| (`.*?) \| ", readme, re.MULTILINE):
            for query in re.findall("`([^`]+)`", rows.partition(" after the next")[0].partition(" after the last")[0]):
                self.assertIn(query, script)


class Decoding(unittest.TestCase):
    def decoded(self, text: bytes, tables=()) -> list:
        found = [decode(one, tables=tables) for one in Feed(io.BytesIO(text))]
        return [message for one in found for message in one.messages]

    def test_tables(self) -> None:
        wide = set_route("10.0.0.0/8", table=0, more=attribute(15, number(256)))
        for text, table in ((set_route("10.0.0.0/8"), 254), (set_route("10.0.0.0/8", table=0), 254),
                            (set_route("10.0.0.0/8", table=10), 10), (wide, 256), (delete_route("10.0.0.0/8", table=10), 10),
                            (set_route("10.0.0.0/8", table=10, more=attribute(15, number(0))), 254)):
            read_all, = self.decoded(frame(text), frames.OTHER_TABLES)
            self.assertEqual((type(read_all), read_all.table), (Route, table))
            own, = self.decoded(frame(text), {table})
            self.assertEqual(own, read_all)
            other, = self.decoded(frame(text), {11})
            if table == 254:
                self.assertEqual(other, read_all)
            else:
                self.assertEqual((type(other), other.why, other.table, other.route), (Skipped, "OtherTable", table, read_all))

    def test_what_is_passed_over_is_not_refused(self) -> None:
        """A table that isn't read comes before all that is looked at after it."""
        bad = frame(set_route("10.0.0.1/8", table=10))
        decoded = [decode(one, tables=tables) for tables in ((), {10}) for one in Feed(io.BytesIO(bad))]
        self.assertEqual([one.refused and one.refused.cause for one in decoded], [None, "HostBits"])

    def test_usual_forms(self) -> None:
        """Read in one go or attribute by attribute, of whatever table."""
        for messages in ((set_route("10.0.0.0/8", gateway=GATEWAY, table=10),), (connected("10.0.0.0/8", 2, table=10),),
                         (delete_route("10.0.0.0/8", table=10),),
                         (delete_route("10.0.0.0/8", table=10), set_route("10.0.0.0/8", table=12)),
                         (delete_route("10.0.0.0/8", table=0), set_route("10.0.0.0/8", gateway=GATEWAY, table=12))):
            for tables in ((), {10}, {10, 12}, frames.OTHER_TABLES):
                text = frame(*messages)
                self.assertEqual(self.decoded(text, tables), list(frames.read_messages(text[4:], None, tables)))


class Marks(unittest.TestCase):
    """Random histories, against the words of the definition: where a router is marked, a set drops all routes of its prefix."""

    @staticmethod
    def does(entries: list[Entry], router: str, address: int, is_marked: bool) -> str:
        routes: list[Entry] = []
        for entry in (entry for entry in entries if entry.router == router):
            goes_all = is_marked if entry.target is not None else entry.metric is None
            routes = [one for one in routes if one.prefix != entry.prefix or not (goes_all or one.metric == entry.metric)]
            routes += [entry] if entry.target is not None else []
        covering = sorted((-one.prefix.length, one.metric, str(one.target)) for one in routes if one.prefix.covers(address))
        return covering[0][2] if covering else "noroute"

    def test_targets_and_changes(self) -> None:
        chance = random.Random(14)
        different = 0
        for _ in range(80):
            entries = []
            for position in range(1, 16):
                length = chance.choice((0, 8, 9, 32))
                prefix = Prefix(chance.choice((0, 10 << 24, 2**32 - 1)) >> (32 - length) << (32 - length), length)
                target = Target(chance.choice(("local", "exit 1", "exit 2"))) if chance.random() < 0.7 else None
                metric = chance.choice((0, 5, 20) if target else (None, 0, 5, 20))
                entries.append(Entry(position, 1, chance.choice(("r1", "v1")), prefix, metric, target))
            first = chance.randrange(15)
            for router, marked in (("r1", {"r1"}), ("v1", {"r1"}), ("v1", {"r1", "v1"})):
                found = list(changes(entries, first, 15, [router], marked))
                for address in (0, 1, 10 << 24, (10 << 24) + 2**23, 2**32 - 1):
                    was, now = (self.does(entries[:count], router, address, router in marked) for count in (first, 15))
                    tables = tables_after(entries, 15, marked)
                    self.assertEqual(now, str(tables[router].target(address)) if router in tables else "noroute")
                    told = [(str(one.before), str(one.after)) for one in found if one.low <= address <= one.high]
                    self.assertEqual(told, [] if was == now else [(was, now)])
                    different += now != self.does(entries, router, address, router not in marked)
        self.assertGreater(different, 100)


class TwoEvaluators(unittest.TestCase):
    """What would be wrong in an evaluator is found by the one of .ci/random-runs."""

    def differing(self, *patches) -> int:
        """Of how many runs the report of the tools' evaluator, changed so, isn't as due. Each fourth asks after each frame what
        has changed."""
        found = 0
        for run in range(4, 124, 4):
            network, feeds, scripts, files, words = RANDOM_RUNS.made_run(run)
            with tempfile.TemporaryDirectory() as folder, contextlib.chdir(folder), contextlib.ExitStack() as changed:
                for name, text in files.items():
                    Path(name).write_bytes(text)
                for patch in patches:
                    changed.enter_context(patch)
                said = run_words.read_words(["run", *words])
                made = report_of(read_topology("topology"), said, "", random.Random(run))[1]
                text = "".join(f"{line}\n" for line in made)
            try:
                RANDOM_RUNS.judge(text, network, feeds, scripts)
            except RANDOM_RUNS.Differs:
                found += 1
        return found

    def test_wrong_ones_are_found(self) -> None:
        read_all = reading.Reading.decode

        def to_the_device(self, one):
            decoded = read_all(self, one)
            return decoded._replace(messages=[message._replace(table=254) if isinstance(message, Route) else message
                                              for message in decoded.messages])

        def by_own_ends(network: Network, router: str, route: Route) -> str:
            """The interface is looked for at the route's own router alone."""
            own = network.tables(router).get(route.table, router)
            ends = [end for link in network.links for end in link.ends] + network.edges
            is_own = route.route_type != 1 or (own, route.interface) in ends
            return target(network, router, route) if is_own else f"onlink {route.interface}"

        target, by_mark = due.target, evaluator.Table.apply

        def by_key(self, entry):
            self.replaces_prefix = False
            return by_mark(self, entry)

        def by_marks_of_all(entries, position, marked=()):
            """A mark holds for all VRFs too."""
            return tables_after(entries, position, {*marked, *(f"v{place}" for place in range(9) if marked)})

        self.assertEqual(self.differing(), 0)
        for patches in ((mock.patch("reading.Reading.decode", to_the_device),), (mock.patch("due.target", by_own_ends),),
                        (mock.patch("evaluator.Table.apply", by_key),),
                        (mock.patch("queries.tables_after", by_marks_of_all),
                         mock.patch("evaluator.tables_after", by_marks_of_all))):
            self.assertGreater(self.differing(*patches), 0)


class Reports(InFolder):
    HEAD = "feed 1 r1 updates 2 skipped 0 refused 0 end\nfeed 2 r2 updates 1 skipped 0 refused 0 end\nhistory 3\n"
    SETS = ("1 feed 1 v1 set 10.0.0.0/8 metric 20 to r2 by d\n2 feed 2 r2 set 10.0.0.0/8 metric 20 exit 1\n"
            "3 feed 1 r1 set 11.0.0.0/8 metric 20 to r2 by d\n")
    TEXT = f"{HEAD}{SETS}job 1\njob 2\ndone\n"

    def test_entries_of_a_vrf(self) -> None:
        report = parse_report("report", self.TEXT.encode())
        self.assertEqual([(entry.feed, entry.router) for entry in report.entries], [(1, "v1"), (2, "r2"), (1, "r1")])
        self.assertEqual(report.printed_lines(), self.TEXT.splitlines())
        brief = Brief("report", self.TEXT.encode())
        self.assertEqual((brief.names(), report.names()), ({"r1", "r2", "v1"}, {"r1", "r2", "v1"}))
        self.assertEqual([brief.feed_of(router).router for router in ("r1", "v1", "r2")], ["r1", "r1", "r2"])
        self.assertEqual((brief.feed_of("r3"), brief.device_of("v1"), brief.device_of("r3")), (None, "r1", "r3"))
        self.assertEqual([entry.position for entry in brief.entries_of_feed(brief.feeds[0])], [1, 3])
        self.assertEqual([entry.position for entry in brief.entries_of("v1")], [1])

    def test_entries_that_cannot_be(self) -> None:
        """A router with a feed in another's, a VRF in two feeds, a feed that isn't there."""
        for old, new in (("1 feed 1 v1", "1 feed 1 r2"), ("2 feed 2 r2", "2 feed 2 v1"), ("1 feed 1 v1", "1 feed 3 v1")):
            text = self.TEXT.replace(old, new).encode()
            self.assertRaises(ReportError, parse_report, "report", text)
            self.assertRaises(ReportError, Brief, "report", text)


class Look(InFolder):
    def setUp(self) -> None:
        super().setUp()
        self.feed("r1", set_route("10.0.0.0/8", 2, gateway=GATEWAY, table=10), set_route("11.0.0.0/8", 5, gateway=GATEWAY),
                  set_route("12.0.0.0/8", 2, gateway=GATEWAY), set_route("12.0.0.0/8", 3, 5, GATEWAY),
                  delete_route("12.0.0.0/8", 5))
        self.feed("r2", set_route("0.0.0.0/0", 1, gateway=GATEWAY))
        self.report("r1=r1", "r2=r2", script="take r1 all\npath v1 10.0.0.1\ndelta\n")

    def test_ways(self) -> None:
        """A route by an interface of another table leaves by that one's end."""
        self.assertEqual(self.lines("look", "report", "way", "all", "v1", "10.0.0.1", "--topology", "topology.toml"), [
            "10.0.0.1 from v1 at 6 of 6", "v1  10.0.0.0/8 metric 20 to r2 by a (entry 1) (r1:2 - r2:2)",
            "r2  0.0.0.0/0 metric 20 exit 1 (entry 6)", "end exit 1"])
        self.assertEqual(self.lines("look", "report", "way", "all", "r1", "11.0.0.1", "--topology", "topology.toml")[1],
                         "r1  11.0.0.0/8 metric 20 to r2 by d (entry 2) (v1:5 - r2:5)")
        self.assertEqual(self.lines("look", "report", "way", "1", "v1", "10.0.0.1")[1],
                         "v1  10.0.0.0/8 metric 20 to r2 by a (entry 1)")

    def test_meanings_of_noroute(self) -> None:
        self.assertIn("noroute: none of the 1 in its table covers 9.0.0.1", self.lines("look", "report", "way", "1", "v1", "9.0.0.1")[1])
        self.assertIn("noroute: none of its updates is taken yet: its first update is entry 1",
                      self.lines("look", "report", "way", "0", "v1", "10.0.0.1")[1])
        self.write("topology.toml", RING + VRF + '[[vrf]]\nrouter = "r3"\ntable = 1\nname = "v3"\n'
                   '[[vrf]]\nrouter = "r1"\ntable = 1\nname = "v2"\n')
        for router, why in (("v3", "no feed of its device r3 in this run"), ("v2", "the feed of its device r1 has no update of it"),
                            ("r3", "no feed in this run")):
            lines = self.lines("look", "report", "way", "all", router, "10.0.0.1", "--topology", "topology.toml")
            self.assertEqual(lines[1], f"{router}  noroute: {why}")

    def test_marks(self) -> None:
        """Without a topology it is said where a mark would make another answer."""
        way = ("look", "report", "way", "all", "r1", "12.0.0.1")
        by_key = ["12.0.0.1 from r1 at 6 of 6", "r1  12.0.0.0/8 metric 20 to r2 by a (entry 3)",
                  "r2  0.0.0.0/0 metric 20 exit 1 (entry 6)", "end exit 1"]
        self.assertEqual(self.lines(*way), by_key + ['note: r1: sets of several metrics came; where the topology says replace = '
                                                     '"prefix" of it, it has no route here: give --topology'])
        self.assertEqual(len(self.lines(*way, "--topology", "topology.toml")), 4)
        # Where the same stands either way nothing is said.
        self.assertEqual(len(self.lines("look", "report", "way", "3", "r1", "12.0.0.1")), 4)
        self.assertNotIn("note", "".join(self.lines("look", "report", "changes", "0", "3")))
        self.assertIn("note: sets of several metrics came of r1; where", self.lines("look", "report", "changes", "4", "5")[-1])
        self.write("marked.toml", RING + VRF + mark("r1"))
        marked = ("--topology", "marked.toml")
        self.assertEqual(self.lines(*way, *marked)[1:], ["r1  noroute: none of the 1 in its table covers 12.0.0.1", "end noroute"])
        self.assertEqual(self.lines("look", "report", "changes", "4", "5", *marked),
                         ["r1 12.0.0.0-12.255.255.255 to r3 by c -> noroute"])
        self.assertEqual(self.lines("look", "report", "where", "r1", "12.0.0.0/8", *marked), [
            "3 set 12.0.0.0/8 metric 20 to r2 by a: new", "4 set 12.0.0.0/8 metric 5 to r3 by c: takes the place of entry 3",
            "5 clear 12.0.0.0/8 metric 5: takes away entry 4", "at the end of the history 12.0.0.0/8 has no route"])

    def test_topologies_of_another_run(self) -> None:
        for text, why in ((RING + VRF.replace('"v1"', '"v2"').replace("v1:", "v2:"), "it has no router v1"),
                          (RING + VRF.replace('router = "r1"', 'router = "r2"').replace('"r2:5"', '"r3:5"'), "v1 is no VRF of r1"),
                          (RING + VRF.replace("r2:5", "r3:5"), "it has no link d from r1 to r2"),
                          (RING.replace('"r2", ', '"r9", ').replace("r2:", "r9:")
                           + VRF.replace("r2:", "r9:").replace("v1", "r2").replace("10", "11"), "r2 is a VRF, and")):
            self.write("other.toml", text)
            ran = self.run_tool("look", "report", "way", "all", "r1", "10.0.0.1", "--topology", "other.toml")
            self.assertEqual(ran.status, 1)
            self.assertIn(f"{why}", ran.err)

    def test_names_of_interfaces(self) -> None:
        """They are the device's."""
        self.feed("r1", set_route("10.0.0.0/8", 1, table=10))
        self.report("r1=r1", script="take r1 all\npath v1 10.0.0.1\n")
        self.write("links", '[{"ifindex": 1, "ifname": "lan"}]')
        self.assertIn("onlink 1 (entry 1) (lan)", self.lines("look", "report", "way", "1", "v1", "10.0.0.1", "--links", "r1=links")[1])
        self.assertIn("    end onlink 1 (lan)", self.lines("look", "report", "answers", "--links", "r1=links"))


class Stale(InFolder):
    BAD = set_route("10.0.0.0/8", None, table=10)

    def test_tables(self) -> None:
        """A refused route of a VRF leaves its own table stale alone; where the table isn't read nothing is refused."""
        self.feed("r1", self.BAD, set_route("10.0.0.0/8"), set_route("10.0.0.0/8", table=10))
        self.assertEqual(self.lines("stale", "r1"), [])
        ran = self.run_tool("stale", "--topology", "topology.toml", "r1=r1")
        self.assertEqual((ran.status, ran.lines()), (1, ["r1=r1 frame 1 offset 0 NoInterface 10.0.0.0/8 metric 20 table 10 until frame 3"]))
        self.report("r1=r1")
        words = ("look", "report", "way", "1", "{}", "10.0.0.1", "--topology", "topology.toml", "--feed", "r1=r1")
        for router, note in (("v1", "v1: 10.0.0.0/8 metric 20 is stale here: frame 1 at offset 0 is refused (NoInterface), and "
                              "frame 3 sends it again"),
                             ("r1", "r1: 1 frames of its feed refused, none of them about this address here")):
            self.assertEqual(self.lines(*(word.format(router) for word in words))[-1], f"note: {note}")
        # Without the topology the table of v1 isn't known.
        self.assertEqual(self.lines("look", "report", "way", "1", "v1", "10.0.0.1", "--feed", "r1=r1")[-1],
                         "note: v1: 1 frame of the feed of r1 refused (NoInterface); its routes may be stale, see tools/stale")

    def test_marks(self) -> None:
        """In a table that replaces by prefix a set of any metric makes a route as sent."""
        self.feed("r1", set_route("10.0.0.0/8", None, 5), set_route("10.0.0.0/8", 2, 20))
        for text, until in ((RING, "to the end"), (RING + VRF + mark("v1"), "to the end"), (RING + mark("r1"), "until frame 2")):
            self.write("topology.toml", text)
            ran = self.run_tool("stale", "--topology", "topology.toml", "r1=r1")
            self.assertEqual(ran.lines(), [f"r1=r1 frame 1 offset 0 NoInterface 10.0.0.0/8 metric 5 {until}"])

    def test_a_vrf_has_no_feed(self) -> None:
        self.feed("v1", self.BAD)
        for words in (("stale", "--topology", "topology.toml", "v1=v1"), ("frames", "--topology", "topology.toml", "v1")):
            self.assertIn("there is no router v1 in it that has a feed", self.run_tool(*words).err)


class Frames(InFolder):
    def test_tables(self) -> None:
        self.feed("r1", set_route("10.0.0.0/8", 5, gateway=GATEWAY, table=10), delete_route("10.0.0.0/8", table=11),
                  set_route("10.0.0.0/8", 2, table=0), set_route("10.0.0.0/33", 2, table=10))
        due_lines = ["1 offset 0 {}set 10.0.0.0/8 metric 20 ospf via 192.0.2.1 interface 5 table 10{}",
                     "2 offset 64 skipped OtherTable (delete 10.0.0.0/8 metric 20 table 11)",
                     "3 offset 112 set 10.0.0.0/8 metric 20 ospf interface 2 table main"]
        self.assertEqual(self.lines("frames", "r1"), [due_lines[0].format("skipped OtherTable (", ")"), *due_lines[1:],
                                                      "4 offset 168 skipped OtherTable (NEWROUTE of table 10)", "end"])
        ran = self.run_tool("frames", "r1", "--topology", "topology.toml")
        self.assertEqual(ran.lines(), [due_lines[0].format("", " (v1)"), *due_lines[1:],
                                       "4 offset 168 refused message 0 cause 4 BadPrefixLength", "end"])


class Check(InFolder):
    def found(self, *words: str) -> dict[str, list[str]]:
        """The findings by kind, those of routers without a feed left out."""
        ran = self.run_tool("check", *words)
        self.assertEqual(ran.err, "")
        kinds: dict[str, list[str]] = {}
        for line in ran.lines():
            kinds.setdefault(line.split(" ")[0], []).append(line)
        for kind in ("no-feed", "nothing"):
            kinds.pop(kind, None)
        return kinds

    def test_tables_that_no_vrf_has(self) -> None:
        self.feed("r1", set_route("10.0.0.0/8", 5, gateway=GATEWAY, table=10), set_route("11.0.0.0/8", 2, gateway=GATEWAY),
                  set_route("12.0.0.0/8", 2, table=11), delete_route("12.0.0.0/8", table=11),
                  set_route("12.0.0.0/33", 2, table=0, more=attribute(15, number(1000))))
        found = self.found("topology.toml", "r1=r1")
        self.assertEqual(list(found), ["no-vrf"])
        self.assertEqual(found["no-vrf"], [
            "no-vrf r1=r1 frame 3, offset 128: 2 routes of table 11 are passed over, the first to 12.0.0.0/8: topology.toml has no "
            'VRF of r1 with this table; its VRFs have the tables 10 (v1): add [[vrf]] with router = "r1", table = 11 and a name, '
            "as `tools/topology --vrfs` guesses, unless no question is about that table",
            "no-vrf r1=r1 frame 5, offset 232: 1 routes of table 1000 are passed over: topology.toml has no VRF of r1 with this "
            'table; its VRFs have the tables 10 (v1): add [[vrf]] with router = "r1", table = 1000 and a name, as '
            "`tools/topology --vrfs` guesses, unless no question is about that table"])
        self.write("plain.toml", RING)
        self.assertEqual([line.partition(";")[0].split(": ")[1] for line in self.found("plain.toml", "r1=r1")["no-vrf"]], [
            "1 routes of table 10 are passed over, the first to 10.0.0.0/8", "2 routes of table 11 are passed over, the first to "
            "12.0.0.0/8", "1 routes of table 1000 are passed over"])

    def test_changes_without_a_deletion(self) -> None:
        """By table: the device's and its VRF's are marked each by itself."""
        change = [set_route("10.0.0.0/8", 2, 20), set_route("10.0.0.0/8", 2, 5)]
        of_vrf = [set_route("10.0.0.0/8", 2, 20, table=10), set_route("10.0.0.0/8", 2, 5, table=10)]
        for name, messages in (("r1", change), ("v1", of_vrf)):
            self.feed("f", *messages)
            found = self.found("topology.toml", "r1=f")
            self.assertEqual(sorted(found), ["no-mark", "older-module"])
            self.assertEqual(found["no-mark"], [
                f"no-mark r1=f frame 2, offset 56: 1 sets change the metric of a route of {name} that stands, the first "
                "10.0.0.0/8 from metric 20 to 5, and none is deleted first: the route before stays beside it, and may win: let the "
                f'topology say that a set replaces all of its prefix: [[router]] with name = "{name}" and replace = "prefix"'])
            self.assertIn(f"or let the topology say that {name} replaces by prefix", found["older-module"][0])
            self.write("marked.toml", RING + VRF + mark(name))
            self.assertEqual(self.found("marked.toml", "r1=f"), {})
            self.write("other.toml", RING + VRF + mark({"r1": "v1", "v1": "r1"}[name]))
            self.assertEqual(sorted(self.found("other.toml", "r1=f")), ["no-mark", "older-module"])

    def test_changes_that_are_none(self) -> None:
        """The same metric again, another prefix, a deletion before, or one in the same frame: no route stays beside another."""
        for frames_of_feed in ((frame(set_route("10.0.0.0/8")), frame(set_route("10.0.0.0/8", 3))),
                               (frame(set_route("10.0.0.0/8")), frame(set_route("10.0.0.0/9", metric=5))),
                               (frame(set_route("10.0.0.0/8")), frame(set_route("10.0.0.0/8", metric=5, table=10))),
                               (frame(set_route("10.0.0.0/8")), frame(delete_route("10.0.0.0/8", None)),
                                frame(set_route("10.0.0.0/8", metric=5))),
                               (frame(set_route("10.0.0.0/8")),
                                frame(delete_route("10.0.0.0/8"), set_route("10.0.0.0/8", metric=5)),
                                frame(set_route("11.0.0.0/8", metric=5)), frame(set_route("11.0.0.0/8", metric=6)))):
            self.write("f", b"".join(frames_of_feed))
            self.assertNotIn("no-mark", self.found("topology.toml", "r1=f"))

    def test_a_recording_of_the_older_module(self) -> None:
        self.write("guessed.toml", self.run_tool("topology", f"r1={data('older.fpm')}").out)
        self.assertEqual(read_topology(os.path.join(self.folder, "guessed.toml")).marked, {"r1"})
        self.assertEqual(self.found("guessed.toml", f"r1={data('older.fpm')}"), {})
        self.write("unmarked.toml", read(os.path.join(self.folder, "guessed.toml")).decode().replace("prefix", "key"))
        found = self.found("unmarked.toml", f"r1={data('older.fpm')}")
        self.assertIn("16 sets change the metric of a route of r1 that stands, the first 10.0.23.0/30 from metric 55 to 25",
                      found["no-mark"][0])

    def test_an_interface_at_another_router_of_its_device(self) -> None:
        self.feed("r1", connected("10.0.0.0/30", 5, table=10), connected("10.0.1.0/30", 2))
        self.feed("r2", connected("10.0.0.0/30", 5), connected("10.0.1.0/30", 2))
        self.assertEqual(self.found("topology.toml", "r1=r1", "r2=r2"), {})
        self.write("other.toml", RING.replace("r1:2", "v1:2") + VRF.replace("v1:5", "r1:5"))
        found = self.found("other.toml", "r1=r1", "r2=r2")
        self.assertEqual(list(found), ["other-vrf"])
        self.assertEqual(found["other-vrf"], [
            "other-vrf other.toml v1:2: 10.0.1.0/30 is connected there in the main table of r1, which is r1: what comes in there "
            'would be looked up by v1: write it as "r1:2"',
            "other-vrf other.toml r1:5: 10.0.0.0/30 is connected there in table 10 of r1, which is v1: what comes in there would "
            'be looked up by r1: write it as "v1:5"'])

    def test_other_findings_of_vrfs(self) -> None:
        self.feed("r1", connected("10.0.0.0/30", 5, table=10), set_route("10.9.0.0/24", 9, gateway=GATEWAY, table=10),
                  connected("10.0.7.0/30", 7, table=10))
        self.feed("r2", connected("10.0.3.0/30", 5), connected("10.0.7.0/30", 7))
        found = self.found("topology.toml", "r1=r1", "r2=r2", "v1=r1")
        self.assertIn("link d: its two ends share no connected prefix: v1:5 has 10.0.0.0/30, r2:5 has 10.0.3.0/30",
                      "".join(found["link-ends"]))
        self.assertIn("topology.toml has no v1:9, so", "".join(found["unknown-interface"]))
        self.assertIn('add a link of the ends "v1:7" and "r2:7", which both have 10.0.7.0/30', "".join(found["unknown-interface"]))
        self.assertEqual(found["unknown-router"], [
            "unknown-router v1=r1: v1 is a VRF of r1, in whose feed its routes come: give the feed as r1=r1"])

    def test_swapped_feeds(self) -> None:
        """A feed's place shows by the links of its VRFs too."""
        self.write("two.toml", 'routers = ["r1", "r2"]\n' + VRF.replace('"r2:5"', '"r2:6"'))
        self.feed("left", connected("10.0.0.0/30", 5, table=10))
        self.feed("right", connected("10.0.0.0/30", 6))
        self.assertEqual(self.found("two.toml", "r1=left", "r2=right"), {})
        self.assertNotEqual(self.found("two.toml", "r1=right", "r2=left"), {})


class Topology(InFolder):
    def guess(self, *words: str, status: int = 0) -> tuple[Ran, Network]:
        ran = self.run_tool("topology", *words)
        self.assertEqual(ran.status, status, ran.err)
        return ran, parse_topology(ran.out.encode())

    def test_vrfs_are_asked_for(self) -> None:
        self.feed("r1", connected("10.0.0.0/30", 5, table=10), connected("10.0.1.0/30", 2))
        self.feed("r2", connected("10.0.0.0/30", 5), connected("10.0.1.0/30", 2))
        ran, alone = self.guess("r1=r1", "r2=r2")
        self.assertEqual(ran.err, "topology: r1=r1: routes of other tables are passed over (10); --vrfs writes a VRF for each\n")
        self.assertEqual((alone.vrfs, [link.ends for link in alone.links]), ([], [[("r1", 2), ("r2", 2)]]))
        ran, network = self.guess("--vrfs", "r1=r1", "r2=r2")
        self.assertEqual(network.routers, ["r1", "r2", "r1-10"])
        self.assertEqual([link.ends for link in network.links], [[("r1", 2), ("r2", 2)], [("r1-10", 5), ("r2", 5)]])
        self.assertIn("# r1 has table 10: 1 routes set or deleted, the first 10.0.0.0/30 in frame 1; interfaces: r1-10:5.\n[[vrf]]\n"
                      'router = "r1"\ntable = 10\nname = "r1-10"\n', ran.out)
        self.assertEqual(ran.err, "")

    def test_names(self) -> None:
        """After the VRF, where `ip -j -d link` says it, else after the table; none is taken twice."""
        self.feed("x", *(connected(f"10.0.{table}.0/30", table, table=table) for table in (9, 10, 11)))
        long = "n" * 32
        self.feed(long, connected("10.0.0.0/30", 5, table=10))
        self.feed("x-9", connected("10.9.0.0/30", 5))
        self.write("links", json.dumps([{"ifindex": 7, "ifname": "Red", "linkinfo": {"info_kind": "vrf", "info_data": {"table": 10}}},
                                        {"ifindex": 8, "ifname": "b.1", "linkinfo": {"info_kind": "vrf", "info_data": {"table": 11}}},
                                        {"ifindex": 5, "ifname": "eth5", "linkinfo": {"info_kind": "vlan"}}]))
        _, network = self.guess("--vrfs", "x=x", f"{long}={long}", "x-9=x-9", "--links", "x=links")
        self.assertEqual([(vrf.table, vrf.name) for vrf in network.vrfs],
                         [(9, "vrf-9"), (10, "x-red"), (11, "x-11"), (10, "vrf-10")])

    def test_a_table_of_no_interface(self) -> None:
        """Policy routing has tables too."""
        self.feed("r1", set_route("0.0.0.0/0", 2, gateway=GATEWAY, table=100), connected("10.0.0.0/30", 2))
        ran, network = self.guess("--vrfs", "r1=r1")
        self.assertEqual(network.edges, [("r1", 2)])
        self.assertIn("topology: r1-100 is written as a VRF: r1 has table 100: 1 routes set or deleted, the first 0.0.0.0/0 in frame "
                      "1; interfaces: none, so it may be a table of policy routing, and no VRF", ran.err)

    def test_marks(self) -> None:
        """The older module is one of the whole device."""
        self.feed("r1", connected("10.0.0.0/30", 5, metric=0, table=10))
        _, network = self.guess("--vrfs", "r1=r1")
        self.assertEqual(network.marked, {"r1", "r1-10"})
        self.feed("r1", connected("10.0.0.0/30", 5), delete_route("10.0.0.0/30", None))
        self.assertEqual(self.guess("r1=r1")[1].marked, {"r1"})
        self.feed("r1", connected("10.0.0.0/30", 5), set_route("10.0.0.0/30", 5, 3, table=10))
        self.assertEqual(self.guess("r1=r1")[1].marked, set())

    def test_networks_with_the_same_addresses(self) -> None:
        """Two customers with one prefix each between the same devices are told apart by their tables' numbers; otherwise it
        isn't known which is which."""
        for other, status in ((20, 0), (30, 1)):
            self.feed("r1", connected("10.0.0.0/30", 5, table=10), connected("10.0.0.0/30", 6, table=20))
            self.feed("r2", connected("10.0.0.0/30", 7, table=other), connected("10.0.0.0/30", 8, table=10))
            _, network = self.guess("--vrfs", "r1=r1", "r2=r2", status=status)
            self.assertEqual([link.ends for link in network.links],
                             [] if status else [[("r1-10", 5), ("r2-10", 8)], [("r1-20", 6), ("r2-20", 7)]])

    def test_a_cable_between_two_tables_of_a_device(self) -> None:
        self.feed("r1", connected("10.0.0.0/30", 5, table=10), connected("10.0.0.0/30", 6))
        _, network = self.guess("--vrfs", "r1=r1")
        self.assertEqual([link.ends for link in network.links], [[("r1-10", 5), ("r1", 6)]])
        self.write("guessed.toml", self.run_tool("topology", "--vrfs", "r1=r1").out)
        self.assertEqual(self.run_tool("check", "guessed.toml", "r1=r1").out, "nothing found in 1 feeds\n")

    def test_an_interface_without_a_prefix(self) -> None:
        """It is of the table whose routes go by it."""
        self.feed("r1", set_route("10.0.0.0/8", 5, table=10), set_route("11.0.0.0/8", 6, table=10), set_route("11.0.0.0/8", 6))
        self.assertEqual(self.guess("--vrfs", "r1=r1")[1].edges, [("r1-10", 5), ("r1", 6)])


class Drawings(InFolder):
    def setUp(self) -> None:
        super().setUp()
        self.feed("r1", set_route("10.0.0.0/8", 2, gateway=GATEWAY, table=10), set_route("11.0.0.0/8", 5, gateway=GATEWAY))
        self.report("r1=r1", script="take r1 all\npath v1 10.0.0.1\nuses a\n")

    def test_a_way_by_another_tables_interface(self) -> None:
        lines = self.lines("draw", "topology.toml", "report", "all", "v1", "10.0.0.1")
        text = "\n".join(line.strip() for line in lines)
        self.assertIn('"r1" -- "v1" [label="table 10", color=gray, penwidth=8, len=0.5];', text)
        self.assertRegex(text, r'"r1" -- "r2" \[label="a\\nhop 1".*dir=forward')
        self.assertIn('"v1" [color=red', text)
        self.assertRegex(text, r'"r3" \[label="r3\\nno feed", style=dashed\]')

    def test_pictures(self) -> None:
        for shown in (("all", "v1", "10.0.0.1"), ("line", "2"), ("all", "r1", "11.0.0.1")):
            ran = self.run_tool("draw", "--svg", "topology.toml", "report", *shown)
            self.assertEqual((ran.status, ran.err), (0, ""))
            self.assertEqual(ran.out.count("<polygon"), 1)
            self.assertEqual(ran.out.count('stroke="#eceff1"'), 1)

    def test_a_way_that_comes_back(self) -> None:
        self.write("topology.toml", 'routers = ["r1"]\n[[vrf]]\nrouter = "r1"\ntable = 10\nname = "v1"\n'
                   '[[link]]\nname = "x"\nends = ["v1:5", "r1:6"]\n')
        self.feed("r1", set_route("10.0.0.0/8", 6, gateway=GATEWAY, table=10), set_route("10.1.0.0/16", 5, gateway=GATEWAY, table=10))
        self.report("r1=r1", script="take r1 all\nloops\npath v1 10.0.0.1\nuses x\n")
        for shown, arrows in ((("line", "2"), 1), (("line", "3"), 1), (("line", "4"), 2), (("all", "v1", "10.0.0.1"), 1)):
            ran = self.run_tool("draw", "--svg", "topology.toml", "report", *shown)
            self.assertEqual((ran.status, ran.err, ran.out.count("<polygon")), (0, "", arrows))
        self.assertIn("end loop: at v1 again", self.lines("look", "report", "way", "all", "v1", "10.0.0.1"))

    def test_vrfs_stand_beside_their_device(self) -> None:
        network = read_topology(os.path.join(EXAMPLE, "topology.toml"))
        spots = layout(network)
        self.assertEqual(list(spots), network.routers)
        for vrf in network.vrfs:
            near = min((other for other in network.devices), key=lambda one: (spots[one][0] - spots[vrf.name][0]) ** 2
                       + (spots[one][1] - spots[vrf.name][1]) ** 2)
            self.assertEqual(near, "pe")
        self.assertEqual(len(set(spots.values())), len(network.routers))
        many = parse_topology(('routers = ["r"]\n' + "".join(
            f'[[vrf]]\nrouter = "r"\ntable = {place}\nname = "v{place}"\n' for place in range(1, 40))).encode())
        self.assertEqual(len(set(layout(many).values())), 40)


class OverTime(InFolder):
    def test_links_of_a_vrf(self) -> None:
        """A link goes down where the connected routes of a VRF's interface go."""
        self.feed("r1.fpm", connected("10.0.0.0/30", 5, table=10), delete_route("10.0.0.0/30", table=10),
                  connected("10.0.0.0/30", 5, table=10))
        self.write("r1.fpm.times", "".join(f"2026-11-27T12:00:0{second}+00:00 {56 * second} {second}\n" for second in range(4)))
        lines = self.lines("moments", "topology.toml", "r1=r1.fpm", "--link-states", "--print-script", "--ask", "path v1 10.0.0.1")
        self.assertEqual([line for line in lines if line.startswith(("down", "up"))], ["down d", "up d"])
        self.write("monitor", "[2026-11-27T12:00:02] 5: eth5: <BROADCAST,UP> mtu\n")
        lines = self.lines("moments", "topology.toml", "r1=r1.fpm", "--monitor", "r1=monitor", "--print-script")
        self.assertIn("down d", lines)

    def test_answers(self) -> None:
        self.feed("r1.fpm", connected("10.0.0.0/30", 5, table=10), set_route("11.0.0.0/8", 5, gateway=GATEWAY, table=10))
        self.write("r1.fpm.times", "2026-11-27T12:00:00+00:00 0 0\n2026-11-27T12:00:01+00:00 56 1\n2026-11-27T12:00:02+00:00 120 2\n")
        program = plain_program(self.addCleanup)
        lines = self.lines("moments", "topology.toml", "r1=r1.fpm", "--ask", "path v1 11.0.0.1", "--program", program)
        self.assertEqual(lines, ["12:00:01.000 hops v1", "12:00:01.000 end noroute", "12:00:02.000 hops v1 r2",
                                 "12:00:02.000 end noroute"])
        self.write("script", "take r1 all\npath v1 11.0.0.1\n#= hops v1 r2\n#= end noroute\n")
        self.assertEqual(self.lines("expect", "--program", program, "run", "topology.toml", "r1=r1.fpm", "@script"),
                         ["1 answers as expected"])
        with mock.patch.dict(os.environ, {"DELTANET": program}):
            told = self.lines("watch", "--runs", "1", "run", "topology.toml", "r1=r1.fpm", "@script")
        self.assertEqual([line.partition(" ")[2] for line in told], ["path v1 11.0.0.1", "   hops v1 r2", "   end noroute"])


if __name__ == "__main__":
    unittest.main()
