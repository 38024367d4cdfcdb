"""The documents on answers and refusals say what the reports and the tools say."""

from __future__ import annotations

import re
import subprocess
import sys
import unittest
from pathlib import Path

TOOLS = Path(__file__).resolve().parent.parent
TOP = TOOLS.parent
EXAMPLES = TOP / "examples"
sys.path.insert(0, str(TOOLS / "lib"))

import frames
import network
import script
from network import read_topology
from queries import answer_lines
from report import Entry, read_prefix, read_target
from test_links import REPORT as LINK_REPORT

READING = (TOP / "docs" / "READING-ANSWERS.md").read_text()
IF_IT_SAYS = (TOP / "docs" / "IF-IT-SAYS.md").read_text()
PROGRAM_PART = READING.partition("\n# The further queries\n")[0]


def blocks(text: str) -> list[str]:
    return re.findall(r"^```\n(.*?)^```$", text, re.MULTILINE | re.DOTALL)


class Samples(unittest.TestCase):
    def test_commands(self) -> None:
        """Each command that is shown with its output, run in the folder of the recorded triangle."""
        shown = [block for block in blocks(READING) if block.startswith("$ tools/look ")]
        self.assertGreaterEqual(len(shown), 3)
        for block in shown:
            command, _, output = block.partition("\n")
            words = [sys.executable, TOOLS / "look", *command.removeprefix("$ tools/look ").split()]
            came = subprocess.run(words, cwd=EXAMPLES / "triangle-ospf", capture_output=True, text=True)
            self.assertEqual((0, output), (came.returncode, came.stdout), command)

    def test_answers(self) -> None:
        """Each answer of the first part is one that the program printed. The unknown name is no example's."""
        printed = "\n".join(path.read_text() for path in EXAMPLES.glob("*/report.txt"))
        shown = [block for block in blocks(PROGRAM_PART) if re.match(r"line \d+ at ", block)]
        self.assertGreaterEqual(len(shown), 5)
        for block in shown:
            self.assertIn("\n" + block, printed)

    def test_the_entries_of_a_replacing_frame(self) -> None:
        block = next(block for block in blocks(READING) if block.startswith("66 feed 1"))
        self.assertIn("\n" + block, (EXAMPLES / "triangle-ospf" / "report.txt").read_text())


class FurtherQueries(unittest.TestCase):
    """The samples of the second part, by the plain answers over the triangle that it speaks of."""

    ROUND = ("r1 10.0.0.0/8 to r2 by a", "r2 10.0.0.0/8 to r3 by b", "r3 10.0.0.0/8 exit 1")
    # What some samples have beside these three routes.
    MORE = {"loops": "r2 10.1.0.0/16 to r1 by a", "waypoint": "r1 10.9.0.0/24 to r3 by c"}

    @staticmethod
    def entry(position: int, text: str) -> Entry:
        router, prefix, target = text.split(" ", 2)
        return Entry(position, 1, router, read_prefix(prefix), 20, read_target(target))

    def test_samples(self) -> None:
        triangle = read_topology(str(EXAMPLES / "first-path" / "topology.toml"))
        samples = blocks(READING.removeprefix(PROGRAM_PART).partition("\n# A gate in a change process\n")[0])
        self.assertIn(len(samples), (0, 7), "samples were added, or the second part was taken out in part")
        for block in samples:
            if re.match(r"line \d+ at \d+ down ", block):
                # A script that takes a link down and up: its report is worked out in test_links.
                self.assertIn("\n" + block, LINK_REPORT)
                continue
            head, *lines = block.splitlines()
            match = re.fullmatch(r"line \d+ at (\d+) (.*)", head)
            words = match[2].split()
            told = [*self.ROUND, self.MORE[words[0]]] if words[0] in self.MORE else self.ROUND
            entries = [self.entry(place, text) for place, text in enumerate(told, 1)]
            self.assertEqual(len(entries), int(match[1]), head)
            self.assertEqual(answer_lines(triangle, entries, len(entries), match[2]), lines, head)


class Refusals(unittest.TestCase):
    def rows(self) -> set[tuple[str, str]]:
        return set(re.findall(r"^\| (\d+) \| `(\w+)` \|", IF_IT_SAYS, re.MULTILINE))

    def test_every_cause(self) -> None:
        for causes in (network.CAUSES, script.CAUSES, frames.CAUSES):
            for name, number in causes.items():
                self.assertIn((str(number), name), self.rows())

    def test_every_error_line(self) -> None:
        formats = (TOP / "docs" / "FORMATS.md").read_text().partition("\n## Error lines\n")[2]
        lines = re.findall(r"^\| \d \| `(error [^`]+)` \|", formats, re.MULTILINE)
        self.assertGreaterEqual(len(lines), 11)
        for line in lines:
            self.assertIn(f"`{line}`", IF_IT_SAYS)

    def test_every_end_and_status(self) -> None:
        for end in ("end", "cutshort O", "lost O BadVersion", "lost O BadFrameLength", "toolong", "readfault"):
            self.assertIn(f"| `{end}` |", IF_IT_SAYS)
        for status in (*range(8), 70):
            self.assertIn(f"\n| {status} | ", IF_IT_SAYS.partition("\n## Exit statuses\n")[2])


if __name__ == "__main__":
    unittest.main()
