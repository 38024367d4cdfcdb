"""Every query, answered plainly: over stored reports as the program printed it, and over small networks worked out by
hand. Where reports with further queries are stored, they are compared as they stand."""

from __future__ import annotations

import os
import subprocess
import sys
import unittest
from pathlib import Path

TOOLS = Path(__file__).resolve().parent.parent
EXAMPLES = TOOLS.parent / "examples"
DATA = TOOLS / "tests" / "data"
PROGRAM = Path(os.environ.get("DELTANET", TOOLS.parent / "crates" / "query_cli" / "out" / "query_cli"))
sys.path.insert(0, str(TOOLS / "lib"))

from network import Network, parse_topology, read_topology
from queries import answer_lines, unknown_name
from report import Entry, read_prefix, read_report, read_target

RING = parse_topology((EXAMPLES / "first-path" / "topology.toml").read_bytes())


def sets(*told: str) -> list[Entry]:
    """Entries of `ROUTER PREFIX METRIC TARGET`, or `ROUTER PREFIX clear`."""
    entries = []
    for position, text in enumerate(told, 1):
        router, prefix, metric, *target = text.split(" ", 3)
        number = None if metric == "clear" else int(metric)
        what = read_target(target[0]) if target else None
        entries.append(Entry(position, 1, router, read_prefix(prefix), number, what))
    return entries


ROUND = ("r1 10.0.0.0/8 20 to r2 by a", "r2 10.0.0.0/8 20 to r3 by b", "r3 10.0.0.0/8 20 exit 1")


class StoredReports(unittest.TestCase):
    def test_every_answer(self) -> None:
        stored = [(path, path.parent / "topology.toml") for path in sorted(EXAMPLES.glob("*/report.txt"))]
        seen = 0
        stored.append((DATA / "odd.report", DATA / "odd.toml"))
        stored.append((DATA / "made" / "report.txt", DATA / "made" / "topology.toml"))
        for path, topology in stored:
            report, network = read_report(str(path)), read_topology(str(topology))
            for answer in report.answers:
                with self.subTest(report=path, line=answer.line):
                    unknown = unknown_name(network, answer.query.split(" "))
                    self.assertEqual(answer.position is None, unknown is not None)
                    seen += 1
                    if unknown:
                        self.assertEqual([unknown], answer.lines)
                        continue
                    lines = answer_lines(network, report.entries, answer.position, answer.query)
                    self.assertEqual(lines, answer.lines)
        self.assertGreaterEqual(seen, 50)

    @unittest.skipUnless(PROGRAM.exists(), "the program isn't built")
    def test_the_made_report(self) -> None:
        """The stored report of the made-up network is the program's own."""
        words = [PROGRAM, "run", "topology.toml", "r1=r1.fpm", "r3=r3.fpm", "r4=r4.fpm", "@script"]
        came = subprocess.run(words, cwd=DATA / "made", capture_output=True)
        self.assertEqual((1, (DATA / "made" / "report.txt").read_bytes()), (came.returncode, came.stdout))


class ByHand(unittest.TestCase):
    def asked(self, entries: list[Entry], query: str, network: Network = RING) -> list[str]:
        self.assertIsNone(unknown_name(network, query.split(" ")))
        return answer_lines(network, entries, len(entries), query)

    def test_round_to_the_exit(self) -> None:
        entries = sets(*ROUND)
        self.assertEqual(["10.0.0.0-10.255.255.255"], self.asked(entries, "reach r1 r3"))
        self.assertEqual(["none"], self.asked(entries, "reach r3 r1"))
        self.assertEqual(["0.0.0.0-255.255.255.255"], self.asked(entries, "reach r2 r2"))
        self.assertEqual(["from r1", "10.0.0.0-10.255.255.255", "from r2", "none"], self.asked(entries, "uses a"))
        self.assertEqual(["hops r1 r2 r3", "end exit 1"], self.asked(entries, "path r1 10.0.0.0"))
        self.assertEqual(["none"], self.asked(entries, "loops"))
        self.assertEqual(["at r1 noroute", "0.0.0.0-9.255.255.255", "11.0.0.0-255.255.255.255"],
                         self.asked(entries, "blackholes r1"))

    def test_a_loop(self) -> None:
        entries = sets(*ROUND, "r2 10.1.0.0/16 20 to r1 by a")
        self.assertEqual(["cycle r1 r2 least 10.1.0.0 addresses 65536"], self.asked(entries, "loops"))
        self.assertEqual(["hops r1 r2 r1 r2", "end loop"], self.asked(entries, "path r1 10.1.2.3"))
        self.assertEqual(["10.0.0.0-10.0.255.255", "10.2.0.0-10.255.255.255"], self.asked(entries, "reach r1 r3"))
        self.assertEqual(["10.0.0.0-10.255.255.255"], self.asked(entries, "reach r1 r2"))
        self.assertEqual(["none"], self.asked(entries, "without a loops"))
        self.assertEqual(["r2 10.1.0.0-10.1.255.255 to r3 by b -> to r1 by a"], self.asked(entries, "delta"))
        cleared = sets(*ROUND, "r2 10.1.0.0/16 20 to r1 by a", "r2 10.1.0.0/16 clear")
        self.assertEqual(["r2 10.1.0.0-10.1.255.255 to r1 by a -> to r3 by b"], self.asked(cleared, "delta"))
        self.assertEqual(["none"], self.asked(cleared, "loops"))

    def test_two_loops(self) -> None:
        """All three go round for one prefix; two of them, later in the topology's order, for a lower one."""
        entries = sets("r1 10.0.0.0/8 20 to r2 by a", "r2 10.0.0.0/8 20 to r3 by b", "r3 10.0.0.0/8 20 to r1 by c",
                       "r2 10.0.0.0/24 20 to r3 by b", "r3 10.0.0.0/24 20 to r2 by b")
        self.assertEqual(["cycle r2 r3 least 10.0.0.0 addresses 256",
                          "cycle r1 r2 r3 least 10.0.1.0 addresses 16776960"], self.asked(entries, "loops"))

    def test_links_down(self) -> None:
        entries = sets(*ROUND)
        self.assertEqual(["none"], self.asked(entries, "without b reach r1 r3"))
        self.assertEqual(["at r1 noroute", "0.0.0.0-9.255.255.255", "11.0.0.0-255.255.255.255", "at r2 linkdown b",
                          "10.0.0.0-10.255.255.255"], self.asked(entries, "without b blackholes r1"))
        self.assertEqual(["hops r1", "end linkdown a"], self.asked(entries, "without b,a path r1 10.0.0.1"))
        self.assertEqual(["from r1", "none", "from r2", "none"], self.asked(entries, "without a uses a"))

    def test_a_waypoint(self) -> None:
        entries = sets(*ROUND)
        self.assertEqual(["none"], self.asked(entries, "waypoint r1 r3 r2"))
        slips = entries + sets(*ROUND, "r1 10.9.0.0/24 20 to r3 by c")[3:]
        self.assertEqual(["10.9.0.0-10.9.0.255"], self.asked(slips, "waypoint r1 r3 r2"))
        for through in ("r1", "r3"):
            self.assertEqual(["none"], self.asked(slips, f"waypoint r1 r3 {through}"))

    def test_the_order_of_holes(self) -> None:
        entries = sets("r2 10.0.0.0/24 20 dropped prohibit", "r2 10.0.1.0/24 20 dropped blackhole",
                       "r2 10.0.2.0/24 20 to r3 by b", "r2 10.0.3.0/24 20 to r1 by a", "r2 10.0.4.0/24 20 local",
                       "r2 0.0.0.0/0 20 dropped unreachable", "r2 10.0.5.0/24 20 onlink 1")
        lines = self.asked(entries, "without a,b blackholes r2")
        self.assertEqual(["at r2 dropped blackhole", "at r2 dropped unreachable", "at r2 dropped prohibit",
                          "at r2 linkdown a", "at r2 linkdown b"], [line for line in lines if line.startswith("at ")])

    def test_nothing_yet(self) -> None:
        self.assertEqual(["none"], self.asked([], "delta"))
        self.assertEqual(["at r1 noroute", "0.0.0.0-255.255.255.255"], self.asked([], "blackholes r1"))

    def test_unknown_names(self) -> None:
        for query, line in (("path r9 10.0.0.1", "unknown router r9"), ("uses z", "unknown link z"),
                            ("without z reach r9 r1", "unknown link z"), ("without a reach r1 r9", "unknown router r9"),
                            ("waypoint r1 r8 r9", "unknown router r8")):
            self.assertEqual(line, unknown_name(RING, query.split(" ")))


if __name__ == "__main__":
    unittest.main()
