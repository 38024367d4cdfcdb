"""Links that go down and come up, in the tools: `look`, `draw`, `expect`, `watch`, `why`, `moments`, over the plain
evaluator."""

from __future__ import annotations

import contextlib
import json
import os
import re
import tempfile
import unittest
from datetime import datetime, timedelta
from pathlib import Path
from unittest import mock
from xml.etree import ElementTree

from feed_help import TESTS, TOP, Ran, connected, delete_route, frame, load_tool, plain_program, read, set_route, tool

from link_states import changes_of, down_at, turns_of_feed, turns_of_monitor
from network import parse_topology, read_topology
from plain_report import report_of
from report import read_report
from run_words import read_words
from times import Moment
from test_feed_live import kernel_ways
from test_links import HEAD, RING, REPORT, SCRIPT, SETS

LIVE = os.path.join(TOP, "examples", "live-triangle")
FEEDS = ["r1=r1.1.fpm", "r2=r2.1.fpm", "r3=r3.1.fpm"]
MONITORED = os.path.join(TESTS, "data", "monitored-links")
SVG = "{http://www.w3.org/2000/svg}"


def setUpModule() -> None:
    patch = mock.patch.dict(os.environ, DELTANET=plain_program(unittest.addModuleCleanup))
    patch.start()
    unittest.addModuleCleanup(patch.stop)


class InFolder(unittest.TestCase):
    def setUp(self) -> None:
        self.folder = self.enterContext(tempfile.TemporaryDirectory())

    def write(self, name: str, text: str | bytes) -> str:
        Path(self.folder, name).write_bytes(text if isinstance(text, bytes) else text.encode())
        return name

    def run_tool(self, name: str, *words: object) -> Ran:
        ran = tool(name, *map(str, words), folder=self.folder)
        self.assertNotIn("Traceback", ran.err)
        return ran

    def lines(self, name: str, *words: object) -> list[str]:
        ran = self.run_tool(name, *words)
        self.assertEqual((0, ""), (ran.status, ran.err))
        return ran.lines()


class Look(InFolder):
    def setUp(self) -> None:
        super().setUp()
        self.write("report", REPORT)
        self.write("topology", RING)

    def test_a_way_over_a_link_that_is_down(self) -> None:
        r1, r2 = ("r1  10.0.0.0/8 metric 20 to r2 by a (entry 1)", "r2  10.0.0.0/8 metric 20 to r3 by b (entry 2)")
        self.assertEqual(self.lines("look", "report", "way", 4, "r1", "10.0.0.1"),
                         ["10.0.0.1 from r1 at 4 of 5", r1, f"{r2}, and b is down (entry 4)", "end linkdown b"])
        self.assertEqual(self.lines("look", "report", "way", 5, "r1", "10.0.0.1")[2:],
                         [r2, "r3  10.0.0.0/8 metric 20 exit 1 (entry 3)", "end exit 1"])
        self.assertEqual(self.lines("look", "--topology", "topology", "report", "way", 4, "r1", "10.0.0.1")[2],
                         f"{r2}, and b is down (entry 4) (r2:3 - r3:2)")

    def test_changes(self) -> None:
        run = "r2 10.0.0.0-10.255.255.255"
        first = [f"{run} noroute -> linkdown b", "r3 10.0.0.0-10.255.255.255 noroute -> exit 1"]
        for span, due in (((3, 4), [f"{run} to r3 by b -> linkdown b"]), ((4, 5), [f"{run} linkdown b -> to r3 by b"]),
                          ((3, 5), ["none"]), ((1, 4), first)):
            self.assertEqual(self.lines("look", "report", "changes", *span), due)

    def test_summary_and_answers(self) -> None:
        told = self.lines("look", "report")
        self.assertIn("links: 1 down, 1 up; down at the end: none", told)
        self.assertIn("report: whole, 5 entries, 1 jobs, 3 answers", told)
        answers = self.lines("look", "report", "answers")
        self.assertEqual(answers[:4], ["job 1", "line 4 at 4 down b", "line 5 at 4 reach r1 r3", "    none"])
        self.assertEqual(answers[6:], ["line 7 at 5 up b", "line 8 at 5 delta",
                                       "    r2 10.0.0.0-10.255.255.255 linkdown b -> to r3 by b"])
        data = json.loads("\n".join(self.lines("look", "report", "--json")))
        self.assertEqual([(one["line"], one["link"], one["is_down"], one["position"]) for one in data["links"]],
                         [(4, "b", True, 4), (7, "b", False, 5)])
        self.assertEqual(len(data["answers"]), 3)

    def test_lines_that_did_nothing(self) -> None:
        self.write("report", "history 1\n1 job 1 down a\njob 1\nline 1 down zz\nunknown link zz\nline 2 at 1 down a\n"
                             "line 3 full up a\ndone\n")
        self.assertEqual(self.lines("look", "report")[1:], [
            "links: 1 down, 0 up; down at the end: a", "links: job 1 line 1 down zz did nothing: unknown link zz",
            "links: job 1 line 3 up a did nothing: the history is full"])

    def test_where_and_another_topology(self) -> None:
        self.assertEqual(self.lines("look", "report", "where", "r2", "10.0.0.0/8")[0],
                         "2 set 10.0.0.0/8 metric 20 to r3 by b: new")
        self.write("other", RING.replace(b'"b"', b'"d"'))
        self.write("report", "history 1\n1 job 1 down b\njob 1\nline 1 at 1 down b\ndone\n")
        ran = self.run_tool("look", "--topology", "other", "report", "changes", 0, 1)
        self.assertEqual(ran.status, 1)
        self.assertIn("it has no link b, of which report says down b", ran.err)


class Draw(InFolder):
    def setUp(self) -> None:
        super().setUp()
        self.write("report", REPORT)
        self.write("topology", RING)

    def dotted(self, *words: object) -> tuple[int, list[str]]:
        picture = ElementTree.fromstring("\n".join(self.lines("draw", "--svg", "topology", *words)))
        dashed = [path for path in picture.iter(SVG + "path") if path.get("stroke-dasharray")]
        return len(dashed), [text.text for text in picture.iter(SVG + "text")]

    def test_a_link_that_is_down_is_dotted(self) -> None:
        for words in (("report", 4, "r1", "10.0.0.1"), ("report", "line", 5)):
            count, texts = self.dotted(*words)
            self.assertEqual((count, texts.count("b (down)")), (1, 1), words)
        count, texts = self.dotted("report", 5, "r1", "10.0.0.1")
        self.assertEqual((count, "b" in texts), (0, True))
        count, texts = self.dotted("report", "4-5", "r1", "10.0.0.1")
        self.assertEqual((count, "end linkdown b" in " ".join(texts)), (1, True))

    def test_beside_one_of_without(self) -> None:
        self.write("report", f"{HEAD}history 4\n{SETS}4 job 1 down b\njob 1\nline 4 at 4 down b\n"
                             "line 5 at 4 without a path r1 10.0.0.1\nhops r1\nend linkdown a\ndone\n")
        count, texts = self.dotted("report", "line", 5)
        self.assertEqual((count, "a (down)" in texts, "b (down)" in texts), (2, True, True))

    def test_in_a_graph(self) -> None:
        lines = self.lines("draw", "topology", "report", 4, "r1", "10.0.0.1")
        self.assertTrue(any('"r2" -- "r3" [label="b (down)"' in line and "style=dotted" in line for line in lines), lines)
        self.assertIn("linkdown b", "\n".join(lines))
        self.assertNotIn("(down)", "\n".join(self.lines("draw", "topology", "report", 5, "r1", "10.0.0.1")))


class Runs(InFolder):
    def setUp(self) -> None:
        super().setUp()
        self.write("topology", RING)
        for number, interface in ((1, 2), (2, 3), (3, 1)):
            self.write(f"f{number}", frame(set_route("10.0.0.0/8", interface, gateway="192.0.2.1")))

    WORDS = ("run", "topology", "r1=f1", "r2=f2", "r3=f3", "@script")

    def why(self) -> tuple[int, list[str]]:
        with contextlib.chdir(self.folder):
            return load_tool("why").explain(list(self.WORDS))

    def test_a_gate(self) -> None:
        expected = SCRIPT.replace("reach r1 r3\n", "reach r1 r3\n#= none\n") + "path r1 10.0.0.1\n#= ..\n#= end exit 1\n"
        self.write("script", expected)
        self.assertEqual(self.lines("expect", *self.WORDS), ["2 answers as expected"])
        self.write("script", "down b\n" + expected)
        self.write("script", expected.replace("up b", "up zz"))
        ran = self.run_tool("expect", *self.WORDS)
        self.assertEqual((ran.status, ran.lines()[-2:]), (1, ["job 1 line 8, up zz: unknown link zz", "1 of 2 answers differ"]))
        self.write("script", "down b\n#= none\nloops\n")
        ran = self.run_tool("expect", *self.WORDS)
        self.assertIn("script:2: a line of an answer stands under its query", ran.err)

    def test_a_watch(self) -> None:
        self.write("script", "take r1 all\ntake r2 all\ndown b\ndown zz\npath r1 10.0.0.1\n")
        told = [line.partition(" ")[2] for line in self.lines("watch", "--runs", 1, *self.WORDS)]
        self.assertEqual(told, ["down zz", "   unknown link zz", "path r1 10.0.0.1", "   hops r1 r2", "   end linkdown b"])

    def test_why_a_line_is_refused(self) -> None:
        for text, line, rule in ((b"down", 1, "down wants LINK"), (b"up a b", 1, "up wants LINK"),
                                 (b"loops\ndown A", 2, "a link's name is"), (b"dwon a", 1, "(did you mean down?)")):
            self.write("script", text)
            status, told = self.why()
            self.assertEqual((status, told[0]), (1, f"error script 4 line {line} 1 BadLine"))
            self.assertIn(rule, told[2])
        self.write("script", "down zz\n up\tb \r\n")
        self.assertEqual(self.why()[0], 0)
        self.write("script", "up b" + " " * 1_021)
        self.assertEqual(self.why()[1][0], "error script 4 line 1 1 BadLine")


class OverTime(unittest.TestCase):
    """The recorded triangle: link a fails at 12:54:45 and is back at 12:55:05."""

    def moments(self, *words: str) -> list[str]:
        ran = tool("moments", "topology.toml", *FEEDS, *words, folder=LIVE)
        self.assertEqual((ran.status, ran.err), (0, ""))
        return ran.lines()

    def test_what_fails_before_the_routers_say_so(self) -> None:
        due = ["12:54:31.103 hops r1 r2", "12:54:31.103 end onlink 5", "12:54:45.477 down a", "12:54:45.477 hops r1",
               "12:54:45.477 end linkdown a", "12:54:45.478 hops r1 r3 r2", "12:54:45.478 end onlink 5", "12:55:05.580 up a",
               "12:55:07.700 hops r1 r2", "12:55:07.700 end onlink 5"]
        words = ("--ask", "path r1 10.2.0.9", "--from", "12:54:31")
        self.assertEqual(self.moments("--link-states", *words), due)
        self.assertEqual(self.moments(*words), [line for line in due if "a" not in line.split()[1:] and "linkdown" not in line
                                                and line != "12:54:45.477 hops r1"])
        told = [json.loads(line) for line in self.moments("--link-states", "--json", *words)]
        self.assertEqual([one["lines"][1] for one in told], ["end onlink 5", "end linkdown a", "end onlink 5", "end onlink 5"])

    def test_the_script(self) -> None:
        """A link changes behind what came before that time, and before the frames that tell of it."""
        lines = self.moments("--link-states", "--print-script", "--from", "12:54:40", "--to", "12:55:05.580")
        self.assertEqual(lines[:8], ["# 2026-11-27T12:54:45.477+00:00", "take r1 12", "take r2 10", "take r3 15", "down a",
                                     "loops", "# 2026-11-27T12:54:45.477+00:00", "take r2 5"])
        self.assertEqual(lines[lines.index("up a") - 1:], ["# 2026-11-27T12:55:05.580+00:00", "up a", "loops",
                                                           "# 2026-11-27T12:55:05.580+00:00", "take r2 2", "take r3 1",
                                                           "loops"])
        at = self.moments("--link-states", "--print-script", "--at", "12:55:00", "--at", "12:55:20")
        self.assertEqual([line for line in at if line[0] != "t"], ["# 2026-11-27T12:55:00.000+00:00", "down a", "loops",
                                                                   "# 2026-11-27T12:55:20.000+00:00", "up a", "loops"])

    def test_several_scripts(self) -> None:
        """A script that begins while a link is down takes it down first."""
        due = self.moments("--link-states", "--json")
        with mock.patch.object(load_tool("moments"), "MOST_LINES", 12):
            self.assertEqual(self.moments("--link-states", "--json"), due)

    def test_by_a_monitor(self) -> None:
        """It says to the millisecond what the file of times tells of up to a second later."""
        with tempfile.TemporaryDirectory() as folder:
            path = os.path.join(folder, "r1.monitor")
            Path(path).write_text(
                "[2026-11-27T12:54:45.301000] 2: a@if2: <BROADCAST,MULTICAST> mtu 1500 qdisc noqueue state DOWN group default\n"
                "[2026-11-27T12:55:05.200000] 2: a@if2: <BROADCAST,MULTICAST,UP,LOWER_UP> mtu 1500 qdisc noqueue state UP\n")
            lines = self.moments("--monitor", f"r1={path}", "--ask", "path r1 10.2.0.9", "--from", "12:54:40")
            self.assertEqual(lines[:3], ["12:54:45.301 down a", "12:54:45.301 hops r1", "12:54:45.301 end linkdown a"])
            self.assertIn("12:55:05.200 up a", lines)
            for text in ("2: a: <UP>\n", "[yesterday] 2: a: <UP>\n", "\0\n"):
                Path(path).write_text(text)
                ran = tool("moments", "topology.toml", *FEEDS, "--monitor", f"r1={path}", folder=LIVE)
                self.assertEqual((ran.status, ran.out), (1, ""))
                self.assertIn("r1.monitor: line 1: this isn't what `ip -ts -o monitor link` prints", ran.err)

    def test_a_query_is_asked(self) -> None:
        ran = tool("moments", "topology.toml", *FEEDS, "--ask", "down a", folder=LIVE)
        self.assertEqual(ran.status, 1)
        self.assertIn("'down a' is no query", ran.err)


class Example(unittest.TestCase):
    """The recorded triangle while its link fails: the stored report is the plain evaluator's."""

    def test_the_stored_report(self) -> None:
        words = ["run", "topology.toml", *FEEDS, "@failing.script"]
        with contextlib.chdir(LIVE):
            made = report_of(read_topology("topology.toml"), read_words(words), "")
        self.assertEqual((0, read(os.path.join(LIVE, "failing.report.txt")).decode()),
                         (made[0], "".join(f"{line}\n" for line in made[1])))

    def test_ways_of_the_kernels(self) -> None:
        """Before the link fails, when all routers know of it, and when it is used again."""
        report = read_report(os.path.join(LIVE, "failing.report.txt"))
        ways = kernel_ways()
        seen = 0
        for moment, position in enumerate((41, 69, 94)):
            for answer in report.answers:
                words = answer.query.split()
                if answer.position == position and words[0] == "path":
                    routers, end = ways[moment, words[1], words[2]]
                    self.assertEqual(answer.lines, [f"hops {' '.join(routers)}", f"end {end}"])
                    seen += 1
        self.assertEqual(seen, 6)

    def test_what_its_readme_shows(self) -> None:
        report = read_report(os.path.join(LIVE, "failing.report.txt"))
        shown = re.findall(r"^\| (\d+) \| .* \| `(hops .*)`, `(end .*)` \|$",
                           read(os.path.join(LIVE, "README.md")).decode(), re.MULTILINE)
        self.assertEqual(len(shown), 5)
        for position, *lines in shown:
            self.assertIn((int(position), "path r3 10.1.0.9", lines),
                          [(answer.position, answer.query, answer.lines) for answer in report.answers])


class States(InFolder):
    BEGIN = datetime.fromisoformat("2026-12-01T14:03:14+00:00")

    def at(self, seconds: float) -> datetime:
        return self.BEGIN + timedelta(seconds=seconds)

    def test_what_ip_monitor_prints(self) -> None:
        """As iproute2 6.1 printed it of two ends of a cable: both come up, one is set down and up again, and the cable goes."""
        turns = list(turns_of_monitor("r1", MONITORED, self.BEGIN.tzinfo))
        self.assertEqual({turn.end for turn in turns}, {("r1", 2), ("r1", 3)})
        network = parse_topology(b'routers = ["r1", "r2"]\n[[link]]\nname = "x"\nends = ["r1:2", "r2:2"]\n')
        changes = [(round((change.time - self.BEGIN).total_seconds(), 3), sorted(change.down))
                   for change in changes_of(network, turns)]
        self.assertEqual(changes, [(0.019, ["x"]), (0.019, []), (0.33, ["x"]), (0.654, []), (0.891, ["x"])])

    def test_connected_routes_of_a_feed(self) -> None:
        """An interface is down while it has no connected prefix, a link while one of its ends is."""
        frames = [frame(connected("10.0.0.0/30", 2)), frame(connected("10.0.1.0/30", 2)), frame(delete_route("10.0.0.0/30")),
                  frame(delete_route("10.0.1.0/30"), set_route("10.0.1.0/30", 3, gateway="10.0.2.1")),
                  frame(connected("10.0.0.0/30", 2)), frame(delete_route("10.0.0.0/30"))]
        self.write("feed", b"".join(frames))
        moments = [Moment(self.at(place), 0, place) for place in range(6)]
        turns = list(turns_of_feed("r1", os.path.join(self.folder, "feed"), moments))
        self.assertEqual([(turn.time, turn.is_down) for turn in turns],
                         [(self.at(1), False), (self.at(4), True), (self.at(5), False)])
        network = parse_topology(RING)
        self.assertEqual([down_at(changes_of(network, turns), self.at(second)) for second in (0, 3.9, 4, 4.9, 5)],
                         [frozenset(), frozenset(), frozenset("a"), frozenset("a"), frozenset()])


if __name__ == "__main__":
    unittest.main()
