"""`draw`: the network's parts, the way, and words that are wrong."""

from __future__ import annotations

import json
import shutil
import subprocess
import sys
import tempfile
import unittest
from pathlib import Path
from xml.etree import ElementTree

TOOLS = Path(__file__).resolve().parent.parent
DATA = TOOLS / "tests" / "data"
EXAMPLES = TOOLS.parent / "examples"
TRIANGLE = EXAMPLES / "triangle-ospf"
SVG = "{http://www.w3.org/2000/svg}"


def draw(*words: object) -> tuple[int, str, str]:
    """Status, output and errors of the tool."""
    came = subprocess.run([sys.executable, TOOLS / "draw", *map(str, words)], capture_output=True, text=True)
    return came.returncode, came.stdout, came.stderr


class Drawings(unittest.TestCase):
    def drawn(self, *words: object) -> list[str]:
        status, out, err = draw(*words)
        self.assertEqual((0, ""), (status, err))
        if shutil.which("dot"):
            subprocess.run(["dot", "-Tdot"], input=out, text=True, check=True, capture_output=True)
        return [line.strip() for line in out.splitlines()]

    def test_a_network(self) -> None:
        lines = self.drawn(TRIANGLE / "topology.toml")
        self.assertEqual("graph network {", lines[0])
        self.assertIn('"r1" -- "r2" [label="a", taillabel="2", headlabel="2"];', lines)
        self.assertIn('"r2" -- "r2:4" [style=dotted];', lines)
        self.assertNotIn("red", " ".join(lines))

    def test_a_way(self) -> None:
        lines = self.drawn(TRIANGLE / "topology.toml", TRIANGLE / "report.txt", 109, "r1", "172.16.3.1")
        text = "\n".join(lines)
        self.assertIn('"r1" -- "r2" [label="a\\nhop 1", taillabel="2", headlabel="2", color=red', text)
        self.assertIn('"r2" -- "r3" [label="b\\nhop 2", taillabel="3", headlabel="2", color=red', text)
        self.assertIn('"r3" -- "r1" [label="c", taillabel="3", headlabel="3"];', lines)
        self.assertIn('label="dropped blackhole"', text)
        self.assertIn('label="172.16.3.1 from r1 at 109 of 297";', lines)

    def test_directions(self) -> None:
        """Link b of the topology goes from r2 to r3, and link c from r3 to r1."""
        there = "\n".join(self.drawn(TRIANGLE / "topology.toml", TRIANGLE / "report.txt", 62, "r1", "10.2.0.1"))
        self.assertRegex(there, r'"r3" -- "r1" \[label="c\\nhop 1".*dir=back')
        self.assertRegex(there, r'"r2" -- "r3" \[label="b\\nhop 2".*dir=back')
        round_and_round = "\n".join(
            self.drawn(TRIANGLE / "topology.toml", TRIANGLE / "report.txt", 46, "r1", "10.2.0.1"))
        self.assertRegex(round_and_round, r'"r3" -- "r1" \[label="c\\nhop 1, 2".*dir=both')

    def test_a_router_without_a_feed(self) -> None:
        lines = self.drawn(DATA / "odd.toml", DATA / "odd.report", "all", "r2", "10.200.0.1")
        self.assertIn('"r4" [label="r4\\nno feed", style=dashed];', lines)
        self.assertIn('"r3" [label="r3\\nno feed", style=dashed, color=red, fontcolor=red, penwidth=2.5];', lines)


class Pictures(unittest.TestCase):
    """SVG: a text that is well formed, and shows what it has to."""

    def drawn(self, *words: object) -> ElementTree.Element:
        status, out, err = draw("--svg", *words)
        self.assertEqual((0, ""), (status, err))
        return ElementTree.fromstring(out)

    def texts(self, picture: ElementTree.Element) -> list[str]:
        return [element.text for element in picture.iter(SVG + "text")]

    def arrows(self, picture: ElementTree.Element) -> int:
        return len(list(picture.iter(SVG + "polygon")))

    def places(self, picture: ElementTree.Element) -> list[tuple[str, str]]:
        return [(circle.get("cx"), circle.get("cy")) for circle in picture.iter(SVG + "circle")]

    def test_a_network(self) -> None:
        picture = self.drawn(TRIANGLE / "topology.toml")
        texts = self.texts(picture)
        self.assertLessEqual({"r1", "r2", "r3", "a", "b", "c", "4"}, set(texts))
        self.assertEqual(self.arrows(picture), 0)
        bare = self.drawn("--no-labels", TRIANGLE / "topology.toml")
        self.assertEqual(sorted(self.texts(bare))[1:], ["r1", "r2", "r3"])

    def test_two_moments_side_by_side(self) -> None:
        report = TRIANGLE / "report.txt"
        picture = self.drawn(TRIANGLE / "topology.toml", report, 46, "r1", "10.2.0.1", report, 85, "r1", "10.3.0.1")
        texts, places = self.texts(picture), self.places(picture)
        self.assertIn("10.2.0.1 from r1 at 46 of 297", texts)
        self.assertIn("end loop", texts)
        self.assertIn("10.3.0.1 from r1 at 85 of 297", texts)
        # Two hops each, and where the second way ends at the edge r3:4, which is drawn once, an arrow too.
        self.assertEqual((self.arrows(picture), texts.count("onlink 4")), (5, 1))
        self.assertEqual(places[:3], places[3:])
        self.assertEqual(places[:3], self.places(self.drawn(TRIANGLE / "topology.toml")))

    def test_a_difference(self) -> None:
        """What one moment alone has is blue or red, what both have grey."""
        live = EXAMPLES / "live-triangle"
        ways = self.drawn(live / "topology.toml", live / "report.txt", "41-68", "r1", "10.2.0.9")
        answers = self.drawn(live / "topology.toml", live / "report.txt", "line", "5-15")
        for picture in (ways, answers):
            colours = [arrow.get("fill") for arrow in picture.iter(SVG + "polygon")]
            # The direct hop before, the two hops after, and the end at r2's edge, which both have.
            self.assertEqual(sorted(colours), ["#1565c0", "#37474f", "#c62828", "#c62828"])
        self.assertIn("blue: 10.2.0.9 from r1 at 41 of 92", self.texts(ways))
        self.assertIn("red: hops r1 r3 r2", self.texts(answers))
        circles = [circle.get("stroke") for circle in ways.iter(SVG + "circle")]
        self.assertEqual(sorted(circles), ["#37474f", "#37474f", "#c62828"])
        # The same moment twice has no blue and no red hop.
        same = self.drawn(live / "topology.toml", live / "report.txt", "68-68", "r1", "10.2.0.9")
        self.assertEqual([arrow.get("fill") for arrow in same.iter(SVG + "polygon")], ["#37474f", "#37474f", "#37474f"])
        # An end of the moment before alone, at a router, stands in blue.
        gone = self.drawn(TRIANGLE / "topology.toml", TRIANGLE / "report.txt", "13-85", "r1", "10.2.0.1")
        blue = [text.text for text in gone.iter(SVG + "text") if text.get("fill") == "#1565c0"]
        self.assertIn("noroute", blue)

    def test_answers(self) -> None:
        folder = EXAMPLES / "data-centre"
        for line, arrows, due in ((8, 2, "loops at 10 of 13"), (7, 3, "10.20.0.0/16"), (18, 3, "10.20.9.0/24"),
                                  (23, 2, "inside (down)"), (22, 0, "linkdown inside"), (9, 2, "end loop"),
                                  (12, 0, "delta at 11 of 13")):
            picture = self.drawn(folder / "topology.toml", folder / "report.txt", "line", line)
            self.assertEqual(self.arrows(picture), arrows, line)
            self.assertIn(due, self.texts(picture))

    def test_a_router_without_a_feed_is_dashed(self) -> None:
        picture = self.drawn(DATA / "odd.toml", DATA / "odd.report", "all", "r2", "10.200.0.1")
        dashed = [circle for circle in picture.iter(SVG + "circle") if circle.get("stroke-dasharray")]
        self.assertEqual(len(dashed), 2)

    def test_parallel_links_are_told_apart(self) -> None:
        with tempfile.NamedTemporaryFile("w", suffix=".toml") as file:
            file.write('routers = ["x", "y"]\n' + "".join(
                f'[[link]]\nname = "l{n}"\nends = ["x:{n}", "y:{n}"]\n' for n in (1, 2, 3)))
            file.flush()
            paths = [path.get("d") for path in self.drawn(file.name).iter(SVG + "path")]
        self.assertEqual((len(paths), len(set(paths))), (3, 3))

    def test_a_strip(self) -> None:
        lines = [{"time": f"2026-11-27T12:00:{second:02}+00:00", "query": query, "position": 1, "lines": told}
                 for second, query, told in ((0, "loops", ["none"]), (0, "path r1 10.0.0.1", ["hops r1", "end noroute"]),
                                             (5, "loops", ["cycle r1 r2 least 10.0.0.0 addresses 1"]), (7, "loops", ["none"]))]
        with tempfile.NamedTemporaryFile("w") as file:
            file.write("".join(json.dumps(line) + "\n" for line in lines))
            file.flush()
            status, out, err = draw("--strip", file.name)
        self.assertEqual((status, err), (0, ""))
        picture = ElementTree.fromstring(out)
        self.assertEqual([box.get("fill") for box in picture.iter(SVG + "rect")][1:],
                         ["#2e7d32", "#c62828", "#2e7d32", "#ef6c00"])
        self.assertEqual(self.texts(picture), ["loops", "12:00:00", "12:00:05", "12:00:07", "path r1 10.0.0.1", "12:00:00"])

    def test_pictures_of_the_documents(self) -> None:
        """They are what the tool draws of the examples."""
        live, centre = EXAMPLES / "live-triangle", EXAMPLES / "data-centre"
        for name, folder, words in (("failed-link", live, ("line", 5, "report.txt", "line", 15)),
                                    ("difference", live, ("line", "5-15")),
                                    ("passing-loop", live, (41, "r2", "10.1.0.9", "report.txt", 60, "r2", "10.1.0.9")),
                                    ("loop", centre, ("line", 8, "report.txt", "line", 22))):
            came = subprocess.run([sys.executable, TOOLS / "draw", "--svg", "topology.toml", "report.txt", *map(str, words)],
                                  capture_output=True, text=True, cwd=folder)
            self.assertEqual(came.stdout, (TOOLS.parent / "docs" / "pictures" / f"{name}.svg").read_text())


class Words(unittest.TestCase):
    def test_refused(self) -> None:
        triangle, report = TRIANGLE / "topology.toml", TRIANGLE / "report.txt"
        for words in ([], ["nowhere"], [report], [triangle, report], [triangle, report, 1, "r9", "10.0.0.1"],
                      [triangle, report, 298, "r1", "10.0.0.1"], [triangle, triangle, 1, "r1", "10.0.0.1"],
                      [DATA / "odd.toml", report, 1, "r2", "10.0.0.1"],
                      [triangle, DATA / "odd.report", 1, "r2", "10.0.0.1"], [triangle, report, "line", 8],
                      [triangle, report, 1, "r1", "10.0.0.1", report, 2, "r1", "10.0.0.1"], ["--strip", report],
                      ["--svg", triangle, report, "line", 1], ["--svg", triangle, report, "line"],
                      [triangle, report, "1-2", "r1", "10.0.0.1"], ["--svg", triangle, report, "1-", "r1", "10.0.0.1"],
                      ["--svg", triangle, report, "1-2-3", "r1", "10.0.0.1"],
                      ["--strip", report, triangle]):
            status, out, err = draw(*words)
            self.assertEqual((1, ""), (status, out), words)
            self.assertTrue(err and "Traceback" not in err, err)

    def test_help(self) -> None:
        self.assertEqual(0, draw("--help")[0])


if __name__ == "__main__":
    unittest.main()
