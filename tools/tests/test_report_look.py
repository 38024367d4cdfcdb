"""`look` and the plain evaluator below it, against what the program printed and against the definitions."""

from __future__ import annotations

import io
import json
import random
import re
import subprocess
import sys
import tempfile
import unittest
from pathlib import Path
from unittest import mock

TOOLS = Path(__file__).resolve().parent.parent
DATA = TOOLS / "tests" / "data"
EXAMPLES = TOOLS.parent / "examples"
sys.path.insert(0, str(TOOLS / "lib"))

import frames
import progress
from brief import Brief
from cidr import prefixes_of
from evaluator import Table, changes, tables_after, way
from network import read_topology
from report import Entry, Prefix, ReportError, Target, address_text, read_address, read_prefix, read_report

# Each stored report with its topology.
REPORTS = {path: read_topology(str(path.with_name("topology.toml")))
           for path in (*sorted(EXAMPLES.glob("*/report.txt")), DATA / "made" / "report.txt")}
REPORTS[DATA / "odd.report"] = read_topology(str(DATA / "odd.toml"))


def look(*words: object) -> tuple[int, str, str]:
    """Status, output and errors of the tool."""
    came = subprocess.run([sys.executable, TOOLS / "look", *map(str, words)], capture_output=True, text=True)
    return came.returncode, came.stdout, came.stderr


class PrintedAnswers(unittest.TestCase):
    """The answers that the program printed are those of the plain evaluator."""

    def test_paths(self) -> None:
        seen = 0
        for path, network in REPORTS.items():
            report = read_report(str(path))
            for answer in report.answers:
                words = answer.query.split()
                if words[0] != "path" or answer.position is None:
                    continue
                tables = tables_after(report.entries, answer.position, network.marked)
                found = way(tables, words[1], read_address(words[2]), len(network.routers))
                lines = ["hops " + " ".join(hop.router for hop in found.hops), f"end {found.end()}"]
                self.assertEqual(lines, answer.lines, f"{path}, line {answer.line}")
                seen += 1
        self.assertGreaterEqual(seen, 39)

    def test_deltas(self) -> None:
        seen = 0
        for path, network in REPORTS.items():
            report = read_report(str(path))
            for answer in report.answers:
                if answer.query != "delta":
                    continue
                found = changes(report.entries, max(0, answer.position - 1), answer.position, network.routers, network.marked)
                lines = [f"{change.router} {address_text(change.low)}-{address_text(change.high)}"
                         f" {change.before} -> {change.after}" for change in found]
                self.assertEqual(lines or ["none"], answer.lines, f"{path}, line {answer.line}")
                seen += 1
        self.assertGreaterEqual(seen, 5)

    def test_look_way_ends_as_the_answers(self) -> None:
        """The tool itself: the same routers up to where a loop closes, and the same end. Two reports are enough."""
        for path in (EXAMPLES / "triangle-ospf" / "report.txt", DATA / "odd.report"):
            for answer in read_report(str(path)).answers:
                words = answer.query.split()
                if words[0] != "path" or answer.position is None:
                    continue
                status, out, _ = look(path, "way", answer.position, words[1], words[2])
                lines = [line for line in out.splitlines()[1:] if not line.startswith(("note:", " "))]
                hops = [line.split()[0] for line in lines[:-1]]
                printed = answer.lines[0].split()[1:]
                self.assertEqual(0, status)
                self.assertEqual(printed[:len(hops)], hops)
                self.assertEqual(answer.lines[1], lines[-1].split(":")[0])


class Definitions(unittest.TestCase):
    """Random histories over a few prefixes, against the words of the definitions."""

    def setUp(self) -> None:
        self.random = random.Random(20)

    def entry(self, position: int) -> Entry:
        length = self.random.choice([0, 1, 8, 9, 24, 31, 32])
        base = self.random.choice([0, 10 << 24, 128 << 24, 2**32 - 1]) >> (32 - length) << (32 - length)
        metric = self.random.choice([None, 0, 5, 20])
        target = Target(self.random.choice(["local", "exit 1", "exit 2"]))
        if self.random.random() < 0.4:
            return Entry(position, 1, "r1", Prefix(base, length), metric, None)
        return Entry(position, 1, "r1", Prefix(base, length), metric or 0, target)

    @staticmethod
    def plain_target(entries: list[Entry], address: int) -> str:
        """A list of routes, folded; those that cover the address; the longest prefix, then the least metric."""
        routes: list[Entry] = []
        for entry in entries:
            any_metric = entry.target is None and entry.metric is None
            routes = [route for route in routes
                      if route.prefix != entry.prefix or not (any_metric or route.metric == entry.metric)]
            if entry.target is not None:
                routes.append(entry)
        covering = [route for route in routes if route.prefix.covers(address)]
        covering.sort(key=lambda route: (-route.prefix.length, route.metric))
        return str(covering[0].target) if covering else "noroute"

    def test_targets_and_changes(self) -> None:
        addresses = [0, 1, 2**24, 10 << 24, (10 << 24) + 255, (10 << 24) + 256, 128 << 24, 2**32 - 2, 2**32 - 1]
        for _ in range(60):
            entries = [self.entry(position) for position in range(1, 13)]
            first = self.random.randrange(13)
            found = list(changes(entries, first, 12, ["r1"]))
            for address in addresses:
                was, now = self.plain_target(entries[:first], address), self.plain_target(entries, address)
                self.assertEqual(now, str(tables_after(entries, 12)["r1"].target(address)))
                told = [(str(change.before), str(change.after)) for change in found
                        if change.low <= address <= change.high]
                self.assertEqual([] if was == now else [(was, now)], told)
            for one, next_one in zip(found, found[1:]):
                self.assertLess(one.high, next_one.low)
                touch = one.high + 1 == next_one.low
                self.assertFalse(touch and (one.before, one.after) == (next_one.before, next_one.after))

    def test_an_empty_table(self) -> None:
        self.assertIsNone(Table().best(0))
        self.assertEqual([], list(changes([], 0, 0, ["r1"])))


class Ways(unittest.TestCase):
    """What `look way` says of each hop."""

    def way(self, *words: object) -> list[str]:
        status, out, err = look(DATA / "odd.report", "--topology", DATA / "odd.toml", "way", *words)
        self.assertEqual((0, ""), (status, err))
        return out.splitlines()

    def test_the_deciding_entry(self) -> None:
        self.assertEqual([
            "10.2.0.1 from line at 6 of 10",
            "line  10.0.0.0/8 metric 110 to r2 by a (entry 1) (line:2 - r2:2)",
            "r2    10.0.0.0/8 metric 20 to r3 by b (entry 4) (r2:3 - r3:2)",
            "r3    noroute: no feed in this run",
            "end noroute",
            "note: line: 1 frame of its feed refused (Multipath); its routes may be stale, see tools/stale",
            "note: line: its feed ended in 'cutshort 700'; what came after isn't here",
        ], self.way(6, "line", "10.2.0.1"))

    def test_a_route_beside_it(self) -> None:
        lines = self.way(2, "line", "10.2.0.1")
        self.assertEqual("line  10.0.0.0/8 metric 20 exit 1 (entry 2)", lines[1])
        self.assertEqual("      beside it: metric 110 to r2 by a (entry 1)", lines[2])

    def test_the_meanings_of_noroute(self) -> None:
        self.assertIn("noroute: nothing of its feed is taken yet: its first update is entry 4",
                      self.way(3, "r2", "10.2.0.1")[1])
        self.assertIn("noroute: none of the 1 in its table covers 11.0.0.1", self.way(4, "r2", "11.0.0.1")[1])
        self.assertIn("noroute: no feed in this run", self.way(10, "r4", "11.0.0.1")[1])

    def test_a_router_without_a_feed(self) -> None:
        """In the first example r1 has a feed and r2 none; the program prints `end noroute` as for any other cause."""
        status, out, _ = look(EXAMPLES / "first-path" / "report.txt", "way", "all", "r1", "10.1.2.3")
        self.assertEqual((0, "r2  noroute: no feed in this run"), (status, out.splitlines()[2]))

    def test_a_loop(self) -> None:
        entries = [Entry(1, 1, "r1", Prefix(0, 0), 0, Target("to r2 by a", "r2", "a")),
                   Entry(2, 2, "r2", Prefix(0, 0), 0, Target("to r1 by a", "r1", "a"))]
        tables = tables_after(entries, 2)
        self.assertEqual(["r1", "r2", "r1"], [hop.router for hop in way(tables, "r1", 7).hops])
        self.assertEqual(["r1", "r2", "r1", "r2"], [hop.router for hop in way(tables, "r1", 7, 3).hops])
        self.assertTrue(way(tables, "r1", 7).is_loop and way(tables, "r1", 7, 3).is_loop)
        status, out, _ = look(EXAMPLES / "triangle-ospf" / "report.txt", "way", 46, "r1", "10.2.0.1")
        self.assertEqual("end loop: at r1 again", out.splitlines()[-1])


class Entries(unittest.TestCase):
    """What `look where` says of a prefix."""

    def test_sets_and_clears(self) -> None:
        words = ("where", "line", "10.0.0.0/8")
        status, out, _ = look(DATA / "odd.report", "--topology", DATA / "odd.toml", *words)
        self.assertEqual(0, status)
        self.assertEqual([
            "1 set 10.0.0.0/8 metric 110 to r2 by a: new",
            "2 set 10.0.0.0/8 metric 20 exit 1: new",
            "6 clear 10.0.0.0/8 metric 20: takes away entry 2",
            "7 set 10.0.0.0/8 metric 110 to r2 by a: says the same as entry 1",
            "8 set 10.0.0.0/8 metric 5 local: new",
            "9 clear 10.0.0.0/8: takes away entry 7 and takes away entry 8",
            "at the end of the history 10.0.0.0/8 has no route",
        ], out.splitlines())
        alone = look(DATA / "odd.report", *words)[1]
        self.assertEqual(alone.removeprefix(out), "note: sets of several metrics came; where the topology says replace = "
                         '"prefix" of line, each took the place of those before: give --topology\n')

    def test_wider_prefixes(self) -> None:
        _, out, _ = look(DATA / "odd.report", "where", "r2", "10.0.0.0/24")
        self.assertIn("wider prefixes in its entries: 10.0.0.0/9, 10.0.0.0/8, 0.0.0.0/0", out)


class Words(unittest.TestCase):
    """Wrong words and broken reports: status 1, one line that says where, and no traceback."""

    def refused(self, *words: object) -> str:
        status, _, err = look(*words)
        self.assertEqual(1, status, err)
        self.assertNotIn("Traceback", err)
        return err

    def test_words(self) -> None:
        report = EXAMPLES / "first-path" / "report.txt"
        for words in (["way", 2, "r1", "10.0.0.1"], ["way", "x", "r1", "10.0.0.1"], ["way", 1, "r3", "10.0.0.1"],
                      ["way", 1, "r1", "10.0.0.01"], ["way", 1, "r1"], ["changes", 1, 0], ["where", "r1", "10.0.0.1"],
                      ["where", "r1", "10.0.0.1/8"], ["which"], ["answers", "x"]):
            self.refused(report, *words)
        self.assertIn("nowhere", self.refused("nowhere", "changes", 0, 0))
        self.assertIn("r9", self.refused(report, "--topology", EXAMPLES / "first-path" / "topology.toml",
                                         "way", 1, "r9", "10.0.0.1"))
        other = self.refused(report, "--topology", DATA / "odd.toml", "way", 1, "r1", "10.0.0.1")
        self.assertIn("another run's", other)

    def test_an_error_line_is_no_report(self) -> None:
        self.assertIn("tools/why", self.refused(self.written("error topology link 2 7 EndTwice\n"), "changes", 0, 0))

    def written(self, text: str) -> Path:
        import tempfile
        folder = tempfile.TemporaryDirectory()
        self.addCleanup(folder.cleanup)
        path = Path(folder.name) / "report"
        path.write_bytes(text.encode())
        return path

    def test_broken_reports(self) -> None:
        whole = (DATA / "odd.report").read_text()
        read_report(str(self.written(whole)))
        for cut in range(len(whole)):
            with self.assertRaises(ReportError):
                read_report(str(self.written(whole[:cut])))
        for old, new in (("history 10", "history 9"), ("history 10", "history 11"), ("5 feed 2 r2", "5 feed 2 line"),
                         ("metric 5 local", "metric 5 here"), ("10.0.0.0/9", "10.0.0.1/9"), ("refused 1", "refused 2"),
                         ("job 2", "job 3"), ("done\n", "done\ndone\n"), ("line 1 at 2", "line 1 at 11")):
            with self.assertRaises(ReportError, msg=new) as caught:
                read_report(str(self.written(whole.replace(old, new, 1))))
            self.assertRegex(str(caught.exception), r"report:\d+: ")

    def test_a_reader_that_goes_away(self) -> None:
        words = [sys.executable, TOOLS / "look", EXAMPLES / "triangle-ospf" / "report.txt", "changes", "0", "297"]
        for _ in range(3):
            process = subprocess.Popen(words, stdout=subprocess.PIPE, stderr=subprocess.PIPE)
            process.stdout.close()
            self.assertEqual(b"", process.stderr.read())
            process.stderr.close()
            self.assertIn(process.wait(), (0, 1))

    def test_help(self) -> None:
        status, out, _ = look("--help")
        self.assertEqual(0, status)
        self.assertTrue(re.search("--topology", out))


class Stale(unittest.TestCase):
    """Whether a route is stale at a position, where the feed is given: in a recording two frames are refused as multipath."""

    FEED = DATA / "feed" / "second.fpm"

    def setUp(self) -> None:
        folder = tempfile.TemporaryDirectory()
        self.addCleanup(folder.cleanup)
        self.folder = Path(folder.name)
        topology = subprocess.run([TOOLS / "topology", f"r1={self.FEED}"], capture_output=True, text=True).stdout
        (self.folder / "topology.toml").write_text(topology)
        report = subprocess.run([TOOLS / "plain", "run", self.folder / "topology.toml", f"r1={self.FEED}"],
                                capture_output=True, text=True)
        (self.folder / "report").write_text(report.stdout)
        with open(self.FEED, "rb") as file:
            updates = [len(frames.decode(frame).updates) for frame in frames.Feed(file)]
        self.after = {frame: sum(updates[:frame]) for frame in range(len(updates) + 1)}

    def notes(self, position: int, address: str) -> list[str]:
        status, out, err = look(self.folder / "report", "way", position, "r1", address, "--feed", f"r1={self.FEED}")
        self.assertEqual((status, err), (0, ""))
        return [line.removeprefix("note: r1: ") for line in out.splitlines() if line.startswith("note: ")]

    def test_stale_from_the_refused_frame_to_the_next_of_its_route(self) -> None:
        """10.3.0.0/24 is refused in frame 27 and sent again in frame 30."""
        told = ("10.3.0.0/24 metric 20 {} stale here: frame 27 at offset 2092 is refused (Multipath), and frame 30 sends it "
                "again")
        none = ["2 frames of its feed refused, none of them about this address here"]
        self.assertEqual(self.notes(self.after[25], "10.3.0.1"), none)
        self.assertEqual(self.notes(self.after[26], "10.3.0.1"), [told.format("may be")])
        self.assertEqual(self.notes(self.after[29], "10.3.0.1"), [told.format("is")])
        self.assertEqual(self.notes(self.after[30], "10.3.0.1"), none)
        self.assertEqual(self.notes(self.after[29], "10.2.0.1"), none)

    def test_a_feed_of_another_run(self) -> None:
        status, _out, err = look(self.folder / "report", "way", "all", "r1", "10.3.0.1", "--feed",
                                 f"r1={DATA / 'feed' / 'nexthops.fpm'}")
        self.assertEqual(status, 1)
        self.assertIn("4 of its frames are refused, and 2 in", err)


class Short(unittest.TestCase):
    """A report in a few lines, and answers in prefixes."""

    def test_summary(self) -> None:
        status, out, _ = look(EXAMPLES / "triangle-ospf" / "report.txt")
        lines = out.splitlines()
        self.assertEqual((status, lines[0].partition(": ")[2]), (0, "whole, 297 entries, 1 jobs, 17 answers"))
        self.assertEqual(lines[1:], [
            "feed r1: 163 updates, none refused, read to its end", "feed r2: 79 updates, none refused, read to its end",
            "feed r3: 55 updates, none refused, read to its end",
            "path: 7 onlink, 3 exit, 1 noroute, 1 loop, 1 dropped blackhole, 1 dropped prohibit",
            "path: line 10 at 46 path r1 10.2.0.1: hops r1 r3 r1 r3; end loop", "delta: 3 with changes"])

    def test_summary_of_refusals(self) -> None:
        _, out, _ = look(DATA / "made" / "report.txt")
        self.assertIn("\nfeed r1: 20 updates, none refused, ends in cutshort 1040, so what came after is missing\n", out)
        self.assertIn("\nfeed r4: 31 updates, 1 frames refused (1 RouteType), so its routes may be stale, read to", out)
        self.assertIn("path: 11 onlink, 4 noroute, 4 exit, 1 loop, 1 local, 1 dropped blackhole, 1 with an unknown name\n", out)

    def test_answers_in_prefixes(self) -> None:
        path = EXAMPLES / "data-centre" / "report.txt"
        _, out, _ = look(path, "answers")
        self.assertIn("line 7 at 10 reach border servers\n    10.20.0.0/16\n", out)
        _, out, _ = look(path, "answers", "--own", "10.20.0.0/16", "--own", "10.16.0.0/12", "--own", "192.0.2.0/24")
        self.assertIn("line 7 at 10 reach border servers\n    all of 10.20.0.0/16\n    of 10.16.0.0/12 10.20.0.0/16\n"
                      "    none of 192.0.2.0/24\n", out)
        self.assertEqual(look(path, "answers", "--own", "10.0.0.1/8")[0], 1)

    def test_prefixes_of_a_run_are_its_addresses(self) -> None:
        source = random.Random(7)
        runs = [(0, 2**32 - 1), (0, 0), (2**32 - 1, 2**32 - 1), (1, 2**32 - 2)]
        runs += [tuple(sorted(source.randrange(2 ** source.choice((4, 16, 32))) for _ in range(2))) for _ in range(500)]
        for low, high in runs:
            parts = list(prefixes_of((low, high)))
            self.assertEqual((parts[0].base, parts[-1].last), (low, high))
            self.assertTrue(all(one.last + 1 == two.base for one, two in zip(parts, parts[1:])))
            self.assertLessEqual(len(parts), 62)
            self.assertTrue(all(one.base % (1 << (32 - one.length)) == 0 for one in parts))

    def test_times(self) -> None:
        """The times that a script has from `moments --print-script` stand behind the positions."""
        folder = EXAMPLES / "live-triangle"
        words = (folder / "report.txt", "--script", folder / "script")
        self.assertIn("\ntimes: from 2026-11-27T12:54:40.000+00:00 to 2026-11-27T12:55:20.000+00:00\n", look(*words)[1])
        self.assertIn("\nline 15 at 68 path r1 10.2.0.9 (2026-11-27T12:55:00.000+00:00)\n", look(words[0], "answers", *words[1:])[1])
        told = json.loads(look(*words, "--json")[1])
        self.assertEqual(told["answers"][0]["time"], "2026-11-27T12:54:40.000+00:00")
        plain = look(EXAMPLES / "first-path" / "report.txt", "--script", EXAMPLES / "first-path" / "script")
        self.assertEqual(plain, look(EXAMPLES / "first-path" / "report.txt"))

    def test_names_of_interfaces(self) -> None:
        folder = EXAMPLES / "live-triangle"
        names = ("--links", f"r2={folder / 'r2.links.json'}")
        self.assertIn("onlink 5 (entry 16) (stub)", look(folder / "report.txt", "way", 68, "r1", "10.2.0.9", *names)[1])
        self.assertIn("hops r1 r2\n    end onlink 5 (stub)\n", look(folder / "report.txt", "answers", *names)[1])

    def test_data(self) -> None:
        told = json.loads(look(EXAMPLES / "first-path" / "report.txt", "--json")[1])
        self.assertEqual((told["entries"], told["feeds"][0]["router"], told["answers"]), (1, "r1", [
            {"job": 1, "line": 2, "position": 1, "query": "path r1 10.1.2.3", "lines": ["hops r1 r2", "end noroute"]}]))


class Histories(unittest.TestCase):
    """A history that is looked through is as strictly read as one that is taken apart."""

    def test_broken_histories(self) -> None:
        whole = (EXAMPLES / "first-path" / "report.txt").read_text()
        Brief("report", whole.encode())
        for old, new in (("history 1", "history 2"), ("1 feed 1 r1", "2 feed 1 r1"), ("1 feed 1 r1", "1 feed 2 r1"),
                         ("to r2 by a", "to r2"), ("set 10", "put 10"), ("metric 20 to", "metric to"), ("done\n", "")):
            with self.assertRaises(ReportError, msg=new) as caught:
                Brief("report", whole.replace(old, new, 1).encode())
            self.assertRegex(str(caught.exception), r"report:\d+: ")

    def test_entries_are_the_same(self) -> None:
        for path in REPORTS:
            report, brief = read_report(str(path)), Brief.read(str(path))
            self.assertEqual((brief.length, brief.names()), (len(report.entries), report.names()))
            for address in {entry.prefix.base for entry in report.entries[:40]}:
                self.assertEqual(brief.entries_about(address),
                                 [entry for entry in report.entries if entry.prefix.covers(address)])
            for router in report.names():
                self.assertEqual(list(brief.entries_of(router)),
                                 [entry for entry in report.entries if entry.router == router])

    def test_entries_that_are_near_or_many(self) -> None:
        """Those of a prefix are found by its first octet, or, where many have it, by looking at each line."""
        with mock.patch("brief.MOST_NEAR", 0):
            self.test_entries_are_the_same()

    def test_a_history_in_several_pieces(self) -> None:
        with mock.patch("brief.LINES_AT_ONCE", 1):
            self.test_broken_histories()
            self.test_entries_are_the_same()


class Progress(unittest.TestCase):
    def test_only_a_terminal_is_told(self) -> None:
        for is_terminal, due in ((True, "\r\033[Kname: 50 percent\r\033[K"), (False, "")):
            errors = io.StringIO()
            errors.isatty = lambda told=is_terminal: told
            with mock.patch("sys.stderr", errors), mock.patch("progress.PATIENCE", -1.0):
                teller = progress.Teller("name", 200)
                teller.tell(100)
                teller.tell(150)
                teller.end()
                teller.end()
            self.assertEqual(errors.getvalue(), due)


    def test_a_reader_of_each_entry_tells(self) -> None:
        errors = io.StringIO()
        errors.isatty = lambda: True
        with mock.patch("sys.stderr", errors), mock.patch("progress.PATIENCE", -1.0), mock.patch("progress.PAUSE", -1.0), (
                mock.patch("report.ENTRIES_BETWEEN_TELLING", 100)):
            read_report(str(EXAMPLES / "triangle-ospf" / "report.txt"))
        self.assertRegex(errors.getvalue(), r"report\.txt: 33 percent.*: 67 percent.*\r\033\[K$")


class Texts(unittest.TestCase):
    def test_prefixes(self) -> None:
        self.assertEqual(Prefix(10 << 24, 8), read_prefix("10.0.0.0/8"))
        for text in ("10.0.0.0", "10.0.0.0/33", "10.0.0.1/8", "10.0.0.0/08", "10.0.0/8", "256.0.0.0/8", "01.0.0.0/8"):
            self.assertIsNone(read_prefix(text), text)


if __name__ == "__main__":
    unittest.main()
