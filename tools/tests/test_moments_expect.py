"""Answers over time, and the gate that compares answers with those expected. The program is the built one, or where it
isn't there the plain evaluator."""

from __future__ import annotations

import json
import os
import re
import shutil
import tempfile
import unittest
from unittest import mock

from feed_help import TESTS, TOP, Ran, load_tool, plain_program, read, tool

from report import parse_answers, parse_report

LIVE = os.path.join(TOP, "examples", "live-triangle")
FEEDS = ["r1=r1.1.fpm", "r2=r2.1.fpm", "r3=r3.1.fpm"]
AGAIN = os.path.join(TESTS, "data", "networks", "again")
BUILT = os.path.join(TOP, "crates", "query_cli", "out", "query_cli")


def setUpModule() -> None:
    is_built = os.access(BUILT, os.X_OK)
    named = os.environ.get("DELTANET") or (BUILT if is_built else plain_program(unittest.addModuleCleanup))
    patch = mock.patch.dict(os.environ, DELTANET=named)
    patch.start()
    unittest.addModuleCleanup(patch.stop)


class InFolder(unittest.TestCase):
    origin = LIVE

    def setUp(self) -> None:
        folder = tempfile.mkdtemp()
        self.addCleanup(shutil.rmtree, folder)
        self.folder = os.path.join(folder, "network")
        shutil.copytree(self.origin, self.folder)

    def write(self, name: str, text: str) -> str:
        with open(os.path.join(self.folder, name), "w", encoding="utf-8") as file:
            file.write(text)
        return name

    def run_tool(self, name: str, *words: str) -> Ran:
        return tool(name, *words, folder=self.folder)


class OverTime(InFolder):
    def moments(self, *words: str) -> Ran:
        ran = self.run_tool("moments", "topology.toml", *FEEDS, *words)
        self.assertNotIn("Traceback", ran.err)
        return ran

    def test_loops_while_the_network_moves(self) -> None:
        ran = self.moments()
        self.assertEqual((ran.status, ran.err, ran.lines()), (0, "", [
            "12:54:23.303 none", "12:54:45.477 cycle r2 r3 least 10.0.12.0 addresses 261",
            "12:54:45.478 cycle r2 r3 least 10.0.12.0 addresses 4", "12:54:46.529 none"]))
        self.assertEqual(self.moments("--settled").lines(), ["12:54:24.487 none"])

    def test_a_way_that_goes_round_a_failed_link(self) -> None:
        ran = self.moments("--settled", "--ask", "path  r1 10.2.0.9")
        self.assertEqual(ran.lines(), ["12:54:24.487 hops r1 r2", "12:54:24.487 end onlink 5", "12:54:46.529 hops r1 r3 r2",
                                       "12:54:46.529 end onlink 5", "12:55:07.700 hops r1 r2", "12:55:07.700 end onlink 5"])
        self.assertEqual(self.moments("--settled", "--ask", "path r1 10.2.0.9", "--from", "12:54:46", "--to",
                                      "12:55").lines(), ["12:54:46.529 hops r1 r3 r2", "12:54:46.529 end onlink 5"])

    def test_times_are_those_of_the_script_of_the_example(self) -> None:
        """The moments at which the kernels were asked, in any order of the words; each answer is told."""
        asked = [word for query in ("path r1 10.2.0.9", "path r1 10.3.0.9") for word in ("--ask", query)]
        ran = self.moments(*asked, "--at", "12:55:20", "--at", "12:54:40", "--at", "12:55:00")
        self.assertEqual([line for line in ran.lines() if "10.2.0.9" in line], [
            "12:54:40.000 path r1 10.2.0.9: hops r1 r2", "12:54:40.000 path r1 10.2.0.9: end onlink 5",
            "12:55:00.000 path r1 10.2.0.9: hops r1 r3 r2", "12:55:00.000 path r1 10.2.0.9: end onlink 5",
            "12:55:20.000 path r1 10.2.0.9: hops r1 r2", "12:55:20.000 path r1 10.2.0.9: end onlink 5"])
        script = self.moments("--print-script", "--at", "12:54:40", "--at", "12:55:00", "--at", "12:55:20", "--ask", "delta")
        takes = [line for line in read(os.path.join(LIVE, "script")).decode().splitlines() if line.startswith("take")]
        self.assertEqual([line for line in script.lines() if line.startswith("take")], takes)

    def test_several_runs_for_a_long_script(self) -> None:
        queries = [word for _ in range(3) for word in ("--ask", "path r1 10.2.0.9", "--ask", "loops")]
        due = self.moments("--json", *queries).lines()
        with mock.patch.object(load_tool("moments"), "MOST_LINES", 12):
            self.assertEqual(self.moments("--json", *queries).lines(), due)
        self.assertEqual(json.loads(due[1]), {"time": "2026-11-27T12:54:23.303+00:00", "query": "loops", "position": 12,
                                              "lines": ["none"]})

    def test_refused_frames_are_told(self) -> None:
        with open(os.path.join(self.folder, "topology.toml"), encoding="utf-8") as file:
            self.write("topology.toml", file.read().replace('[[edge]]\nat = "r1:5"\n', ""))
        ran = self.moments()
        self.assertEqual((ran.status, ran.lines()[-1]), (1, "12:54:46.529 none"))
        self.assertIn("moments: r1: 1 frames refused, end: its routes may be stale", ran.err)

    def test_recorders_that_were_stopped_one_after_another(self) -> None:
        for router, second, end in (("r1", "23.000", "stopped here, whole"), ("r2", "23.900", "zebra ended the session, whole")):
            with open(os.path.join(self.folder, f"{router}.1.fpm.times"), encoding="ascii") as file:
                lines = file.read()
            frames = lines.split()[-1]
            self.write(f"{router}.1.fpm.times", f"{lines}2026-11-27T12:55:{second}+00:00 9999 {frames} end {end}\n")
        ran = self.moments("--at", "12:55:23.5")
        self.assertEqual((ran.status, ran.err), (0, ""))
        ran = self.moments("--at", "12:55:24")
        self.assertEqual((ran.status, ran.out), (1, ""))
        self.assertIn("r2=r2.1.fpm says nothing after 2026-11-27T12:55:23.900+00:00", ran.err)

    def test_errors(self) -> None:
        for words, told in ((["--ask", "take r1 1"], "is no query"), (["--ask", " "], "is no query"),
                            (["--ask", "pth r1"], "moments: error script 4 line 5 1 BadLine"),
                            (["--at", "noon"], "noon: this is no time"), (["--program", "/none"], "/none: there is no such")):
            ran = self.moments(*words)
            self.assertEqual((ran.status, ran.out), (1, ""), words)
            self.assertIn(told, ran.err)
        os.remove(os.path.join(self.folder, "r2.1.fpm.times"))
        self.assertIn("r2.1.fpm.times: No such file", self.moments().err)


class TwoSessions(InFolder):
    """Before r2's zebra began anew 10.9.0.9 ended at r2, and afterwards it loops between the two."""

    origin = AGAIN

    def setUp(self) -> None:
        super().setUp()
        self.write("topology.toml", tool("topology", "r1=r1.1.fpm", "r2=r2.1.fpm", folder=self.folder).out)

    WORDS = ("topology.toml", "r1=r1.1.fpm", "r2=r2.1.fpm", "--ask", "path r1 10.9.0.9")

    def test_each_time_is_asked_of_the_session_that_tells_of_it(self) -> None:
        ran = self.run_tool("moments", *self.WORDS, "--at", "17:33:17", "--at", "17:33:36")
        self.assertEqual((ran.status, ran.err, ran.lines()), (0, "", [
            "17:33:17.000 hops r1 r2", "17:33:17.000 end exit 3", "17:33:36.000 hops r1 r2 r1", "17:33:36.000 end loop"]))
        self.assertEqual(self.run_tool("moments", *self.WORDS).lines()[1::2], [
            "17:33:10.899 end exit 3", "17:33:21.029 end noroute", "17:33:29.282 end loop"])

    def test_no_answer_where_no_session_tells_of_a_time(self) -> None:
        ran = self.run_tool("moments", *self.WORDS, "--at", "17:33:25")
        self.assertEqual((ran.status, ran.out), (1, ""))
        self.assertIn("r2=r2.1.fpm says nothing after 2026-11-30T17:33:21.044+00:00 (zebra ended the session, whole) until "
                      "r2.2.fpm begins at 2026-11-30T17:33:29.282+00:00, so it wasn't asked at 2026-11-30T17:33:25", ran.err)
        ran = self.run_tool("moments", *self.WORDS, "--at", "17:33:10.5")
        self.assertIn("r1=r1.1.fpm says nothing before 2026-11-30T17:33:10.763+00:00, so", ran.err)
        os.remove(os.path.join(self.folder, "r2.2.fpm"))
        ran = self.run_tool("moments", *self.WORDS, "--at", "17:33:17", "--at", "17:33:36")
        self.assertEqual((ran.status, ran.lines()), (1, ["17:33:17.000 hops r1 r2", "17:33:17.000 end exit 3"]))
        self.assertIn("r2=r2.1.fpm says nothing after 2026-11-30T17:33:21.044+00:00 (zebra ended the session, whole), so",
                      ran.err)

    def test_a_later_session_alone(self) -> None:
        ran = self.run_tool("moments", "topology.toml", "r1=r1.1.fpm", "r2=r2.2.fpm", "--at", "17:33:36")
        self.assertEqual((ran.status, ran.err, ran.out), (0, "", "17:33:36.000 cycle r1 r2 least 10.9.0.0 addresses 256\n"))


class Gate(InFolder):
    origin = AGAIN
    SCRIPT = ("take r1 all\ntake r2 all\nloops\n#= none\n  # a comment\npath r1 10.9.0.9\n\t#= hops r1 r2\n#=end exit 3\n"
              "reach r1 r2\n#= ..\n#= 10.9.0.0-10.9.0.255\n#= ..\npath r1 10.1.0.9\n")

    def setUp(self) -> None:
        super().setUp()
        self.write("topology.toml", tool("topology", "r1=r1.1.fpm", "r2=r2.1.fpm", folder=self.folder).out)
        self.write("first.script", "take r1 all\ntake r2 5\n" + self.SCRIPT.partition("take r2 all\n")[2])
        self.write("script", self.SCRIPT)

    def test_answers_as_expected(self) -> None:
        ran = self.run_tool("expect", "run", "topology.toml", "r1=r1.1.fpm", "r2=r2.1.fpm", "@first.script")
        self.assertEqual((ran.status, ran.out, ran.err), (0, "3 answers as expected\n", ""))

    def test_a_loop_closes_the_gate(self) -> None:
        words = ("run", "topology.toml", "r1=r1.1.fpm", "r2=r2.2.fpm", "@script")
        ran = self.run_tool("expect", *words)
        self.assertEqual((ran.status, ran.err, ran.lines()), (1, "", [
            "script:3 at 8: loops", "- none", "+ cycle r1 r2 least 10.9.0.0 addresses 256",
            "script:6 at 8: path r1 10.9.0.9", "- hops r1 r2", "- end exit 3", "+ hops r1 r2 r1", "+ end loop",
            "2 of 3 answers differ"]))
        told = json.loads(self.run_tool("expect", "--json", *words).out)
        self.assertEqual((told["expected"], told["faults"], len(told["differing"])), (3, [], 2))
        self.assertEqual(told["differing"][0], {"script": "script", "line": 3, "query": "loops", "position": 8,
                                                "expected": ["none"],
                                                "came": ["cycle r1 r2 least 10.9.0.0 addresses 256"]})

    def test_a_written_report(self) -> None:
        words = ("topology.toml", "r1=r1.1.fpm", "r2=r2.2.fpm", "@script")
        self.write("report", tool("plain", "run", *words, folder=self.folder).out)
        self.assertEqual(self.run_tool("expect", "--report", "report", "script").lines()[-1], "2 of 3 answers differ")
        self.write("other", "loops\n#= none\n")
        ran = self.run_tool("expect", "--report", "report", "other")
        self.assertEqual((ran.status, ran.out), (1, ""))
        self.assertIn("report: job 1 has no answer to line 1, loops, of other", ran.err)
        self.assertIn("it has 1 jobs, and there are 2 scripts", self.run_tool("expect", "--report", "report", "script",
                                                                              "script").err)

    def test_broken_feeds_close_the_gate(self) -> None:
        with open(os.path.join(self.folder, "r2.1.fpm"), "ab") as file:
            file.write(b"\1")
        ran = self.run_tool("expect", "run", "topology.toml", "r1=r1.1.fpm", "r2=r2.1.fpm", "@first.script")
        self.assertEqual((ran.status, ran.lines()), (1, [
            "r2: 0 frames refused, cutshort 404: no answer that goes through it can be relied on", "0 of 3 answers differ"]))

    def test_a_gate_that_expects_nothing_is_closed(self) -> None:
        self.write("script", "take r1 all\nloops\n")
        words = ("run", "topology.toml", "r1=r1.1.fpm", "@script")
        ran = self.run_tool("expect", *words)
        self.assertEqual((ran.status, ran.out, ran.err),
                         (1, "", "expect: no script has a line that begins with #=, so nothing is expected\n"))
        for text, told in (("#= none\nloops\n", "script:1: a line of an answer stands under its query"),
                           ("loops\ntake r1 all\n#= none\n", "script:3: a line of an answer stands under its query"),
                           ("lops\n#= none\n", "expect: error script 2 line 1 1 BadLine")):
            self.write("script", text)
            ran = self.run_tool("expect", *words)
            self.assertEqual((ran.status, ran.out), (1, ""))
            self.assertIn(told, ran.err)
        self.assertEqual(self.run_tool("expect", "script").status, 1)

    def test_the_sample_of_the_documents(self) -> None:
        def after(heading: str, fence: str, *names: str) -> str:
            text = read(os.path.join(TOP, *names)).decode().partition(heading)[2]
            return text.partition(f"\n{fence}\n")[2].partition("\n```\n")[0] + "\n"

        script = after("**To stop a bad change**", "```", "README.md")
        came = after("\n# A gate in a change", "```text", "docs", "READING-ANSWERS.md")
        self.write("expected", script)
        ran = self.run_tool("expect", "run", "topology.toml", "r1=r1.1.fpm", "r2=r2.2.fpm", "@expected")
        self.assertEqual((ran.status, ran.out), (1, came))

    def test_any_lines(self) -> None:
        meets = load_tool("expect").meets
        for expected, came, due in (([".."], [], True), (["a", ".."], ["a"], True), ([".."], ["a", "b"], True),
                                    (["..", "a"], ["a", "b"], False), (["a", "..", "a"], ["a"], False),
                                    (["..", "b", "..", "c", ".."], ["a", "b", "d", "c"], True),
                                    (["..", "c", "..", "b", ".."], ["a", "b", "d", "c"], False),
                                    (["a"], ["a", "b"], False), ([".."] * 40 + ["x"], ["a"] * 40000, False)):
            self.assertEqual(meets(expected, came), due, expected)


class Answers(unittest.TestCase):
    def test_answers_without_the_history_are_the_same(self) -> None:
        for name in ("first-path", "triangle-ospf", "live-triangle", "data-centre"):
            text = read(os.path.join(TOP, "examples", name, "report.txt"))
            whole, short = parse_report(name, text), parse_answers(name, text)
            self.assertEqual((short.feeds, short.jobs, short.answers, short.length, short.entries),
                             (whole.feeds, whole.jobs, whole.answers, len(whole.entries), []))


if __name__ == "__main__":
    unittest.main()
