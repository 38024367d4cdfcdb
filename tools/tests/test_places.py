"""What docs/PROOFS.md and docs/DEFINITIONS.md name is in the crates, and `places` finds what isn't."""

from __future__ import annotations

import os
import tempfile
import unittest
from pathlib import Path

from feed_help import TOP, load_tool

PLACES = load_tool("dev/places")
CRATES = Path(TOP) / "crates"
PROOFS = (Path(TOP) / "docs" / "PROOFS.md").read_text()
CODE = """\
impl Thing {
    /// Does it.
    pub fn make(&self) -> u32
        requires few { self.now < 3 }
        ensures value { result ≡ 1 }
        ensures { result ≡ self.now }
    {
        1
    }

    fn other()
    {}
}
"""
ROW = "| What it makes. | `Thing::make`: `value` | `thing/src/thing.rt:3` |\n"


class TheDocuments(unittest.TestCase):
    def test_proofs(self) -> None:
        rows = list(PLACES.rows(PROOFS))
        self.assertGreater(len(rows), 80)
        self.assertEqual(len(rows), sum(line.startswith("| ") and ".rt:" in line for line in PROOFS.splitlines()))
        self.assertEqual([], [fault for row in rows for fault in PLACES.faults(row, CRATES)],
                         "tools/dev/places --mend sets the lines anew")

    def test_definitions(self) -> None:
        text = (Path(TOP) / "docs" / "DEFINITIONS.md").read_text()
        self.assertEqual([], list(PLACES.missing_definitions(text, CRATES)))
        wrong = "| `IsLawful`, `IsNowhereDefined` | `Lawful` | The law. |\n"
        self.assertEqual(["DEFINITIONS.md:1: `IsNowhereDefined`: no crate has such a definition"],
                         list(PLACES.missing_definitions(wrong, CRATES)))


class Faults(unittest.TestCase):
    def setUp(self) -> None:
        folder = tempfile.TemporaryDirectory()
        self.addCleanup(folder.cleanup)
        self.crates = Path(folder.name)
        os.makedirs(self.crates / "thing" / "src")
        (self.crates / "thing" / "src" / "thing.rt").write_text(CODE)

    def faults(self, text: str) -> list[str]:
        (row,) = PLACES.rows(text)
        return list(PLACES.faults(row, self.crates))

    def test_right(self) -> None:
        self.assertEqual([], self.faults(ROW))
        self.assertEqual([], self.faults(ROW.replace("`value`", "`-`")))

    def test_wrong(self) -> None:
        self.assertEqual(["thing/src/thing.rt:4: none of make stands there"], self.faults(ROW.replace(":3`", ":4`")))
        self.assertEqual(["`few`: no contract of make has such a clause"], self.faults(ROW.replace("`value`", "`few`")))
        self.assertEqual(["`-`: no contract of other has such a clause"],
                         self.faults(ROW.replace("Thing::make", "other").replace("value", "-").replace(":3`", ":11`")))
        self.assertEqual(["`gone`: these crates have no such function"],
                         self.faults(ROW.replace("`: `", "`, `gone`: `", 1)))
        self.assertIn("thing/src/gone.rt: there is no such file", self.faults(ROW.replace("thing.rt", "gone.rt")))

    def test_mended(self) -> None:
        self.assertEqual(ROW, PLACES.mended(ROW.replace(":3`", ":9`"), self.crates))
        self.assertEqual(ROW, PLACES.mended(ROW, self.crates))


if __name__ == "__main__":
    unittest.main()
