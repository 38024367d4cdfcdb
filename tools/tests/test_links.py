"""Links that go down and come up in the history: what they mean, how reports with them are read and judged.

The reports are made by hand from the definitions, or by the plain evaluator for inputs made by chance."""

from __future__ import annotations

import contextlib
import os
import random
import re
import tempfile
import unittest
from pathlib import Path
from unittest import mock

from feed_help import TOP, load_tool, read, set_route, frame

FUZZ = load_tool("dev/fuzz")
RANDOM_RUNS = load_tool("../.ci/random-runs")

# The tools have put their folder of modules on the path.
import run_words  # noqa: E402
from brief import Brief  # noqa: E402
from chance import made_case  # noqa: E402
from due import Ended, report_faults  # noqa: E402
from evaluator import changes, downs_after  # noqa: E402
from network import parse_topology, read_topology  # noqa: E402
from plain_report import report_of  # noqa: E402
from queries import answer_lines  # noqa: E402
from report import LinkEntry, ReportError, parse_answers, parse_report, read_entry  # noqa: E402

RING = read(os.path.join(TOP, "examples", "first-path", "topology.toml"))
NETWORK = parse_topology(RING)
OVER = [set_route("10.0.0.0/8", 2, gateway="192.0.2.1"), set_route("10.0.0.0/8", 3, gateway="192.0.2.1"),
        set_route("10.0.0.0/8", 1, gateway="192.0.2.1")]
# r1 sends 10.0.0.0/8 over a to r2, r2 over b to r3, and r3 out.
HEAD = """\
feed 1 r1 updates 1 skipped 0 refused 0 end
feed 2 r2 updates 1 skipped 0 refused 0 end
feed 3 r3 updates 1 skipped 0 refused 0 end
"""
SETS = """\
1 feed 1 r1 set 10.0.0.0/8 metric 20 to r2 by a
2 feed 2 r2 set 10.0.0.0/8 metric 20 to r3 by b
3 feed 3 r3 set 10.0.0.0/8 metric 20 exit 1
"""
TAKES = "take r1 all\ntake r2 all\ntake r3 all\n"
SCRIPT = TAKES + "down b\nreach r1 r3\ndelta\nup b\ndelta\n"
REPORT = f"""\
{HEAD}history 5
{SETS}4 job 1 down b
5 job 1 up b
job 1
line 4 at 4 down b
line 5 at 4 reach r1 r3
none
line 6 at 4 delta
r2 10.0.0.0-10.255.255.255 to r3 by b -> linkdown b
line 7 at 5 up b
line 8 at 5 delta
r2 10.0.0.0-10.255.255.255 linkdown b -> to r3 by b
done
"""


class InFolder(unittest.TestCase):
    """A run over the three feeds, or without them, and these scripts."""

    def setUp(self) -> None:
        self.folder = self.enterContext(tempfile.TemporaryDirectory())
        self.write("topology", RING)
        for number, message in enumerate(OVER, 1):
            self.write(f"f{number}", frame(message))

    def write(self, name: str, text: str | bytes) -> str:
        path = Path(self.folder, name)
        path.write_bytes(text if isinstance(text, bytes) else text.encode())
        return str(path)

    def words(self, scripts: tuple[str, ...], has_feeds: bool = True) -> list[str]:
        for number, text in enumerate(scripts, 1):
            self.write(f"script{number}", text)
        feeds = ["r1=f1", "r2=f2", "r3=f3"] if has_feeds else []
        return ["run", "topology", *feeds, *(f"@script{number}" for number in range(1, len(scripts) + 1))]

    def faults(self, report: str, *scripts: str, has_feeds: bool = True, **limit: int) -> list[str]:
        return report_faults(self.words(scripts, has_feeds), self.folder, Ended(0, report.encode()), **limit)

    def plain(self, *scripts: str, has_feeds: bool = True) -> str:
        said = run_words.read_words(self.words(scripts, has_feeds))
        return "".join(f"{line}\n" for line in report_of(NETWORK, said, self.folder)[1])


class ByHand(InFolder):
    """Reports as the definitions have them."""

    def test_down_and_up(self) -> None:
        self.assertEqual([], self.faults(REPORT, SCRIPT))
        self.assertEqual(REPORT, self.plain(SCRIPT))

    def test_twice_down_and_twice_up(self) -> None:
        """The second and the fourth entry change nothing but the history."""
        script = TAKES + "down b\ndelta\ndown b\ndelta\nup b\ndelta\nup b\ndelta\n"
        report = f"""\
{HEAD}history 7
{SETS}4 job 1 down b
5 job 1 down b
6 job 1 up b
7 job 1 up b
job 1
line 4 at 4 down b
line 5 at 4 delta
r2 10.0.0.0-10.255.255.255 to r3 by b -> linkdown b
line 6 at 5 down b
line 7 at 5 delta
none
line 8 at 6 up b
line 9 at 6 delta
r2 10.0.0.0-10.255.255.255 linkdown b -> to r3 by b
line 10 at 7 up b
line 11 at 7 delta
none
done
"""
        self.assertEqual([], self.faults(report, script))
        self.assertEqual(report, self.plain(script))

    def test_a_link_that_is_down_before_its_route_comes(self) -> None:
        report = """\
feed 1 r2 updates 1 skipped 0 refused 0 end
history 4
1 job 1 up b
2 job 1 down b
3 feed 1 r2 set 10.0.0.0/8 metric 20 to r3 by b
4 job 1 up b
job 1
line 1 at 1 up b
line 2 at 1 delta
none
line 3 at 2 down b
line 4 at 2 delta
none
line 6 at 3 delta
r2 10.0.0.0-10.255.255.255 noroute -> linkdown b
line 7 at 3 blackholes r2
at r2 noroute
0.0.0.0-9.255.255.255
11.0.0.0-255.255.255.255
at r2 linkdown b
10.0.0.0-10.255.255.255
line 8 at 3 uses b
from r2
none
from r3
none
line 9 at 4 up b
line 10 at 4 delta
r2 10.0.0.0-10.255.255.255 linkdown b -> to r3 by b
done
"""
        text = "up b\ndelta\ndown b\ndelta\ntake r2 1\ndelta\nblackholes r2\nuses b\nup b\ndelta\n"
        self.write("script1", text)
        words = ["run", "topology", "r2=f2", "@script1"]
        self.assertEqual([], report_faults(words, self.folder, Ended(0, report.encode())))
        # A delta by what the routes alone say, of a set and of the link that comes up.
        for old, new in (("noroute -> linkdown b", "noroute -> to r3 by b"),
                         ("r2 10.0.0.0-10.255.255.255 linkdown b -> to r3 by b", "none")):
            wrong = report.replace(old, new)
            self.assertNotEqual(wrong, report)
            self.assertEqual(1, len(report_faults(words, self.folder, Ended(0, wrong.encode()))))

    def test_an_unknown_link(self) -> None:
        """It makes no entry, and the next line goes on."""
        report = """\
history 1
1 job 1 down a
job 1
line 1 down zz
unknown link zz
line 2 at 0 delta
none
line 3 at 1 down a
done
"""
        text = "down zz\ndelta\ndown a\n"
        self.assertEqual([], self.faults(report, text, has_feeds=False))
        self.assertEqual(report, self.plain(text, has_feeds=False))
        for wrong in (report.replace("line 1 down", "line 1 at 0 down"), report.replace("unknown link zz\n", ""),
                      report.replace("link zz", "link a"), report.replace("unknown link zz", "unknown router zz"),
                      report.replace("history 1\n1 job 1 down a", "history 2\n1 job 1 down zz\n2 job 1 down a"),
                      report.replace("line 1 down zz\nunknown link zz\n", "")):
            self.assertNotEqual(wrong, report)
            self.assertNotEqual([], self.faults(wrong, text, has_feeds=False), wrong)

    def test_a_full_history(self) -> None:
        """The job goes on, and a query after it is answered at the history's end."""
        report = """\
history 1
1 job 1 down a
job 1
line 1 at 1 down a
line 2 full up a
line 3 at 1 delta
none
done
"""
        text = "down a\nup a\ndelta\n"
        self.assertEqual([], self.faults(report, text, has_feeds=False, limit=1))
        for limit, wrong in ((2, report), (1, report.replace("full up", "at 1 up")), (1, report.replace("full up", "at 2 up")),
                             (1, report.replace("at 1 down", "full down")), (1, report.replace("line 2 full up a\n", "")),
                             (1, report.replace("at 1 delta", "at 0 delta")), (1, report.replace("full up a", "full down a")),
                             (1, report.replace("full up a\n", "full up a\nunknown link a\n"))):
            self.assertNotEqual([], self.faults(wrong, text, has_feeds=False, limit=limit), wrong)

    def test_a_link_that_is_down_and_one_of_without(self) -> None:
        text = TAKES + "down b\nwithout a path r1 10.0.0.1\nwithout b path r1 10.0.0.1\npath r1 10.0.0.1\n"
        told = self.plain(text).partition("\njob 1\n")[2].splitlines()
        self.assertEqual(told[1:], ["line 5 at 4 without a path r1 10.0.0.1", "hops r1", "end linkdown a",
                                    "line 6 at 4 without b path r1 10.0.0.1", "hops r1 r2", "end linkdown b",
                                    "line 7 at 4 path r1 10.0.0.1", "hops r1 r2", "end linkdown b", "done"])

    def test_a_cycle_goes_and_comes_with_its_link(self) -> None:
        self.write("f3", frame(set_route("10.0.0.0/8", 3, gateway="192.0.2.1")))
        told = self.plain(TAKES + "loops\ndown c\nloops\nup c\nloops\n").partition("\njob 1\n")[2].splitlines()
        cycle = "cycle r1 r2 r3 least 10.0.0.0 addresses 16777216"
        self.assertEqual([line for line in told if not line.startswith("line")], [cycle, "none", cycle, "done"])

    def test_two_jobs_and_one_link(self) -> None:
        """Either may be first, and the answers are those of the order that is printed."""
        texts = "down b\ndelta\n", "up b\ndelta\n"
        for first, second in ((1, 2), (2, 1)):
            history = [f"{first} job 1 down b", f"{second} job 2 up b"]
            report = "\n".join(["history 2", *sorted(history), "job 1", f"line 1 at {first} down b", f"line 2 at {first} delta",
                                "none", "job 2", f"line 1 at {second} up b", f"line 2 at {second} delta", "none", "done\n"])
            self.assertEqual([], self.faults(report, *texts, has_feeds=False))
            other = report.replace(f"line 1 at {first}", f"line 1 at {second}", 1)
            self.assertNotEqual([], self.faults(other, *texts, has_feeds=False))


class Wrong(InFolder):
    """Reports that no run may print."""

    def test_each_is_found(self) -> None:
        """An answer that ignores the link, a delta by the routes alone, an entry that is told and not made, and others."""
        changed = "r2 10.0.0.0-10.255.255.255 to r3 by b -> linkdown b"
        for old, new in (("reach r1 r3\nnone", "reach r1 r3\n10.0.0.0-10.255.255.255"), (changed, "none"),
                         ("linkdown b -> to r3 by b", "noroute -> to r3 by b"),
                         ("history 5", "history 4"), ("5 job 1 up b", "5 job 1 up a"), ("5 job 1 up b", "5 job 2 up b"),
                         ("5 job 1 up b", "5 job 1 down b"), ("line 4 at 4", "line 4 at 3"), ("line 4 at 4", "line 4 at 5"),
                         ("line 7 at 5", "line 7 full"), ("line 7 at 5 up b\n", ""), ("line 7 at 5 up b", "line 7 at 5 down b"),
                         ("line 5 at 4", "line 5 at 3"), ("line 5 at 4", "line 5 at 5"), ("line 4 at 4", "line 4"),
                         ("line 4 at 4 down b\n", "line 4 at 4 down b\nnone\n")):
            self.assertIn(old, REPORT)
            self.assertNotEqual([], self.faults(REPORT.replace(old, new, 1), SCRIPT), (old, new))

    def test_an_entry_that_an_earlier_query_saw(self) -> None:
        """A link's entry at the position of an earlier query: that query would have seen it, and its line comes after it."""
        text = TAKES + "reach r1 r3\ndown b\n"
        report = (f"{HEAD}history 4\n{SETS}4 job 1 down b\njob 1\nline 4 at 3 reach r1 r3\n10.0.0.0-10.255.255.255\n"
                  "line 5 at 4 down b\ndone\n")
        self.assertEqual([], self.faults(report, text))
        for answer in ("10.0.0.0-10.255.255.255", "none"):
            wrong = report.replace("line 4 at 3 reach r1 r3\n10.0.0.0-10.255.255.255", f"line 4 at 4 reach r1 r3\n{answer}")
            self.assertEqual(["job 1 line 4, reach r1 r3: at 4, due from 3 to 3"], self.faults(wrong, text))

    def test_the_order_of_a_jobs_lines(self) -> None:
        """Its link lines and what it takes stand in the history in the order of its lines."""
        text = "take r1 all\ndown b\ntake r2 all\nup b\ntake r3 all\n"
        entries = ["feed 1 r1 set 10.0.0.0/8 metric 20 to r2 by a", "job 1 down b",
                   "feed 2 r2 set 10.0.0.0/8 metric 20 to r3 by b", "job 1 up b", "feed 3 r3 set 10.0.0.0/8 metric 20 exit 1"]

        def report(order: tuple[int, ...]) -> str:
            lines = [f"{place} {entries[one]}" for place, one in enumerate(order, 1)]
            told = [f"line 2 at {order.index(1) + 1} down b", f"line 4 at {order.index(3) + 1} up b"]
            return "\n".join([HEAD + "history 5", *lines, "job 1", *told, "done\n"])

        self.assertEqual([], self.faults(report((0, 1, 2, 3, 4)), text))
        for order in ((1, 0, 2, 3, 4), (0, 2, 1, 3, 4), (0, 1, 3, 2, 4), (0, 1, 2, 4, 3)):
            self.assertNotEqual([], self.faults(report(order), text), order)

    def test_reports_that_are_none(self) -> None:
        for old, new in (("4 job 1 down b", "4 job 0 down b"), ("4 job 1 down b", "4 job 1 down B"),
                         ("4 job 1 down b", "4 job 1 linkdown b"), ("4 job 1 down b", "5 job 1 down b"),
                         ("4 job 1 down b", "4 job 1 down b c"), ("line 4 at 4 down b\n", "line 4 at 4 down b\nhops r1\n"),
                         ("line 4 at 4", "line 4 at 9"), ("line 4 at 4 down b", "line 4 full down b\nunknown link b")):
            with self.assertRaises(ReportError, msg=new):
                parse_report("report", REPORT.replace(old, new, 1).encode())


class Reading(InFolder):
    def test_what_a_report_says(self) -> None:
        report = parse_report("report", REPORT.encode())
        self.assertEqual(report.entries[3], LinkEntry(4, 1, "b", True))
        self.assertEqual([(one.line, one.position, one.query) for one in report.link_lines], [(4, 4, "down b"), (7, 5, "up b")])
        self.assertEqual([one.line for one in report.answers], [5, 6, 8])
        self.assertEqual(report.printed_lines(), REPORT.splitlines())
        short = parse_answers("report", REPORT.encode())
        self.assertEqual((short.told, short.length, short.entries), (report.told, 5, []))
        self.assertEqual(read_entry(7, "job 64 up n"), LinkEntry(7, 64, "n", False))

    def test_looked_through(self) -> None:
        brief = Brief("report", REPORT.encode())
        self.assertEqual(brief.link_entries, parse_report("report", REPORT.encode()).entries[3:])
        self.assertEqual([brief.downs_at(position) for position in (3, 4, 5)], [{}, {"b": 4}, {}])
        self.assertEqual(len(brief.entries_about(10 << 24)), 3)
        for wrong in (REPORT.replace("4 job 1 down b", "6 job 1 down b"), REPORT.replace("4 job 1 down b", "4 job 1 down")):
            self.assertRaises(ReportError, Brief, "report", wrong.encode())

    def test_since_when_a_link_is_down(self) -> None:
        entries = [LinkEntry(place, 1, link, is_down) for place, (link, is_down) in enumerate(
            (("a", True), ("b", False), ("a", True), ("a", False), ("b", True), ("a", True)), 1)]
        self.assertEqual([downs_after(entries, position) for position in range(7)],
                         [{}, {"a": 1}, {"a": 1}, {"a": 1}, {}, {"b": 5}, {"b": 5, "a": 6}])


class Meaning(unittest.TestCase):
    """Random histories, against the words of the definitions, address by address."""

    ADDRESSES = (0, 1, 2**24, 10 << 24, (10 << 24) + 255, (10 << 24) + 256, 128 << 24, 2**32 - 2, 2**32 - 1)
    TARGETS = {"r1": ("to r2 by a", "to r3 by c", "exit 1"), "r2": ("to r1 by a", "to r3 by b", "local"),
               "r3": ("to r2 by b", "to r1 by c", "dropped blackhole")}

    def entry(self, chance: random.Random, position: int) -> str:
        if chance.random() < 0.4:
            return f"job 1 {chance.choice(('down', 'up'))} {chance.choice('abc')}"
        length = chance.choice((0, 1, 8, 9, 24, 32))
        base = chance.choice(self.ADDRESSES) >> (32 - length) << (32 - length)
        prefix = ".".join(str(base >> shift & 255) for shift in (24, 16, 8, 0)) + f"/{length}"
        router = chance.choice(list(self.TARGETS))
        if chance.random() < 0.25:
            return f"feed {router[1]} {router} clear {prefix}"
        return f"feed {router[1]} {router} set {prefix} metric {chance.choice((5, 20))} {chance.choice(self.TARGETS[router])}"

    @staticmethod
    def does(entries: list[str], router: str, address: int) -> str:
        """Texts alone: the routes folded, the best one, and whether the last word about its link was that it is down."""
        routes: dict[tuple[int, int, int], str] = {}
        last: dict[str, str] = {}
        for words in (text.split() for text in entries):
            if words[0] == "job":
                last[words[3]] = words[2]
            elif words[2] == router:
                first, length = words[4].split("/")
                numbers = [int(part) for part in first.split(".")]
                base = numbers[0] << 24 | numbers[1] << 16 | numbers[2] << 8 | numbers[3]
                if words[3] == "clear":
                    routes = {key: target for key, target in routes.items() if key[:2] != (-int(length), base)}
                else:
                    routes[-int(length), base, int(words[6])] = " ".join(words[7:])
        covering = [key for key in routes if key[1] <= address < key[1] + 2 ** (32 + key[0])]
        if not covering:
            return "noroute"
        target = routes[min(covering, key=lambda key: (key[0], key[2]))]
        link = target.partition(" by ")[2]
        return f"linkdown {link}" if last.get(link) == "down" else target

    def test_ends_and_changes(self) -> None:
        chance = random.Random(13)
        for _ in range(60):
            texts = [self.entry(chance, position) for position in range(1, 15)]
            entries = [read_entry(position, text) for position, text in enumerate(texts, 1)]
            first = chance.randrange(14)
            found = {router: list(changes(entries, first, 14, [router])) for router in self.TARGETS}
            for router, address in ((router, address) for router in self.TARGETS for address in self.ADDRESSES):
                was, now = self.does(texts[:first], router, address), self.does(texts, router, address)
                told = [(str(one.before), str(one.after)) for one in found[router] if one.low <= address <= one.high]
                self.assertEqual([] if was == now else [(was, now)], told, texts)
                lines = answer_lines(NETWORK, entries, 14, "path " + router + " " + ".".join(
                    str(address >> shift & 255) for shift in (24, 16, 8, 0)))
                hops = lines[0].split()[1:]
                for near, far in zip(hops, hops[1:]):
                    self.assertTrue(self.does(texts, near, address).startswith(f"to {far} by "))
                if lines[1] != "end loop":
                    self.assertEqual(f"end {self.does(texts, hops[-1], address)}", lines[1])


class ByChance(unittest.TestCase):
    def test_made_reports(self) -> None:
        """Of runs by chance, with link lines in their scripts: right reports in any order pass. A report that leaves out what
        a link's entry does is found where an answer tells of it."""
        chance, reports, entries, blind, seen = random.Random(11), 0, 0, 0, 0
        for number in range(1, 81):
            case = made_case(number, 64)
            with tempfile.TemporaryDirectory() as folder, contextlib.chdir(folder):
                FUZZ.write_files(case, folder)
                if FUZZ.WHY.explain(case.words)[0]:
                    continue
                said = run_words.read_words(case.words)
                network = read_topology(os.path.join(folder, said.topology))
                status, lines = report_of(network, said, folder, chance)
                text = "".join(f"{line}\n" for line in lines)
                self.assertEqual([], FUZZ.judge(case, folder, Ended(status, text.encode())), number)
                reports += 1
                entries += len(re.findall(r"^\d+ job \d+ (?:down|up) ", text, re.MULTILINE))
                with (mock.patch("queries.downs_after", return_value={}),
                      mock.patch("evaluator.downs_after", return_value={})):
                    other = "".join(f"{line}\n" for line in report_of(network, said, folder, random.Random(1))[1])
                same = "".join(f"{line}\n" for line in report_of(network, said, folder, random.Random(1))[1])
                blind += other != same
                seen += other != same and FUZZ.judge(case, folder, Ended(status, other.encode())) != []
        self.assertGreater(reports, 20)
        self.assertGreater(entries, 40)
        self.assertGreater(blind, 5)
        self.assertEqual(blind, seen)

    def test_two_evaluators(self) -> None:
        """Reports of the tools' evaluator, in any order of the jobs, are right for the one of .ci/random-runs; with the
        position of a link line changed they aren't."""
        entries = lines = 0
        for number in range(2, 34):
            network, feeds, scripts, files, words = RANDOM_RUNS.made_run(number)
            with tempfile.TemporaryDirectory() as folder, contextlib.chdir(folder):
                for name, text in files.items():
                    Path(name).write_bytes(text)
                said = run_words.read_words(["run", *words])
                made = report_of(read_topology("topology"), said, "", random.Random(number))[1]
                text = "".join(f"{line}\n" for line in made)
            RANDOM_RUNS.judge(text, network, feeds, scripts)
            entries += len(re.findall(r"^\d+ job ", text, re.MULTILINE))
            told = list(re.finditer(r"^line \d+ at (\d+) (?:down|up) ", text, re.MULTILINE))
            lines += len(told)
            for match in told[:3]:
                other = text[:match.start(1)] + str(int(match[1]) + 1) + text[match.end(1):]
                with self.assertRaises(RANDOM_RUNS.Differs):
                    RANDOM_RUNS.judge(other, network, feeds, scripts)
        self.assertGreater(entries, 100)
        self.assertEqual(entries, lines)


if __name__ == "__main__":
    unittest.main()
