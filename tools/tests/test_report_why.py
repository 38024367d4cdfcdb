"""`why` reaches the error line that the program prints, for a table of words and files.

Where the program is built its own error lines are compared too; `.ci/program` compares some of them on its own.
"""

from __future__ import annotations

import importlib.machinery
import importlib.util
import os
import subprocess
import sys
import tempfile
import unittest
from pathlib import Path

TOOLS = Path(__file__).resolve().parent.parent
FIRST_PATH = TOOLS.parent / "examples" / "first-path"
PROGRAM = Path(os.environ.get("DELTANET", TOOLS.parent / "crates" / "query_cli" / "out" / "query_cli"))

def load_tool() -> object:
    """The tool as a module: a process for each of the many cases below would take most of the time."""
    sys.dont_write_bytecode = True
    loader = importlib.machinery.SourceFileLoader("why_tool", str(TOOLS / "why"))
    module = importlib.util.module_from_spec(importlib.util.spec_from_loader("why_tool", loader))
    loader.exec_module(module)
    return module


WHY = load_tool()

# The tool has put its folder of modules on the path.
import script

MANY = "routers = [" + ", ".join(f'"r{number}"' for number in range(1, 65)) + "]\n"
MANY_FEEDS = [f"r{number}=nowhere" for number in range(1, 65)]
AFTER_A = 'routers = ["r1", "r2"]\n[[link]]\nname = "a"\nends = ["r1:2", "r2:2"]\n'
VRF = '[[vrf]]\nrouter = "r1"\ntable = 10\nname = "v1"\n'
LONG_LINE = b" " * 1_015 + b"take r1 1"

# Files beside those of the first example, whose names are the texts' own.
FILES: dict[str, bytes] = {"empty": b"", "none": b"path r1 10.0.0.1\n", "many.toml": MANY.encode()}

# The words, the error line, and what the place says.
WORDS: list[tuple[list[str], str, str]] = [
    ([], "error words", "no words"),
    (["--help", "run"], "error words", "word 1: --help"),
    (["help"], "error words", "word 1: help"),
    (["runs", "topology.toml"], "error words", "word 1: runs"),
    (["--", "run", "topology.toml"], "error words", "word 1: --"),
    (["run"], "error words", "run"),
    (["run", "--"], "error words", "run --"),
    (["run", "--help"], "error words", "word 2: --help"),
    (["run", "--fast", "topology.toml"], "error words", "word 2: --fast"),
    (["run", "topology.toml", "-r=r1.fpm"], "error words", "word 3: -r=r1.fpm"),
    (["run", "topology.toml", "x", "-5"], "error words", "word 4: -5"),
    (["run", "topology.toml", "--", "--", "r1=r1.fpm"], "error part 1 BadPart", "part 1: --"),
    (["run", "topology.toml", "--", "-r=r1.fpm"], "error part 1 UnknownRouter", "part 1: -r=r1.fpm"),
    (["run", "topology.toml", "-"], "error part 1 BadPart", "part 1: -"),
    (["run", "-"], "error read topology", "-: No such file or directory"),
    (["run", "topology.toml", "r1=r1.fpm", "x"], "error part 2 BadPart", "part 2: x"),
    (["run", "topology.toml", ""], "error part 1 BadPart", "part 1: "),
    (["run", "topology.toml", "@"], "error part 1 BadPart", "part 1: @"),
    (["run", "topology.toml", "r1="], "error part 1 BadPart", "part 1: r1="),
    (["run", "topology.toml", "Core=r1.fpm"], "error part 1 BadPart", "part 1: Core=r1.fpm"),
    (["run", "nowhere.toml", "=f"], "error part 1 BadPart", "part 1: =f"),
    (["run", "topology.toml", *["@none"] * 65], "error part 65 TooMany", "part 65: @none"),
    (["run", "topology.toml", *["@none"] * 64, "@"], "error part 65 BadPart", "part 65: @"),
    (["run", "topology.toml", "@script", "@"], "error part 2 BadPart", "part 2: @"),
    (["run", "many.toml", *MANY_FEEDS, "r65=nowhere"], "error part 65 TooMany", "part 65: r65=nowhere"),
    (["run", "many.toml", *MANY_FEEDS, "x"], "error part 65 BadPart", "part 65: x"),
    (["run", "topology.toml", "r9=r1.fpm"], "error part 1 UnknownRouter", "part 1: r9=r1.fpm"),
    (["run", "topology.toml", "r1=r1.fpm", "r1=r1.fpm"], "error part 2 RouterTwice", "part 2: r1=r1.fpm"),
    (["run", "topology.toml", "r1=a", "@nowhere", "r9=a"], "error part 3 UnknownRouter", "part 3: r9=a"),
    (["run", "nowhere.toml", "r1=r1.fpm"], "error read topology", "nowhere.toml: No such file or directory"),
    (["run", ""], "error read topology", "an empty name: No such file or directory"),
    (["run", "."], "error read topology", ".: Is a directory"),
    (["run", "topology.toml", "r1=r1.fpm", "@nowhere"], "error read part 2", "nowhere: No such file or directory"),
    (["run", "topology.toml", "@.", "r1=nowhere"], "error read part 1", ".: Is a directory"),
    (["run", "topology.toml", "r1=nowhere"], "error read part 1", "part 1: r1=nowhere: No such file or directory"),
    (["run", "topology.toml", "r1=."], "", ""),
    (["run", "topology.toml", "r1=empty", "r2=r1.fpm"], "", ""),
    (["run", "topology.toml", "r1=r1.fpm", "@script"], "", ""),
    (["run", "topology.toml"], "", ""),
    (["run", "topology.toml", "r1=r1.fpm", "@none", "@script", "@none"], "", ""),
    (["run", "topology.toml", *["@none"] * 64], "", ""),
    (["run", "topology.toml", "@script", "@script"], "error script 1 line 1 2 TakeUnknown", "script:1: take r1 all"),
    (["run", "topology.toml", "r1=r1.fpm", "@script", "@script"], "error script 3 line 1 3 TakenTwice", "script:1: take"),
    (["run", "topology.toml", "r1=r1.fpm", "@script", "@nowhere"], "error read part 3", "nowhere: No such file"),
    (["run", "topology.toml", *["@none"] * 64, "r1=r1.fpm"], "error jobs TooMany", "64 scripts and 1 feed that"),
    (["run", "topology.toml", *["@none"] * 63, "@script", "r1=r1.fpm"], "", ""),
    (["run", "many.toml", *MANY_FEEDS, "@none"], "error jobs TooMany", "1 script and 64 feeds"),
    (["run", "many.toml", *MANY_FEEDS], "error read part 1", "part 1: r1=nowhere"),
    (["run", "many.toml", *MANY_FEEDS[:63], "@none"], "error read part 1", "part 1: r1=nowhere"),
]

# A topology, its part, entry and cause, and the place: the line, the column where it is told, and the line's text.
TOPOLOGIES: list[tuple[str | bytes, str, str]] = [
    ("routers = [", "top 0 1 NotToml", ":1: routers = ["),
    ('routers = ["r1"]\nlink = \n', "top 0 1 NotToml", ":2:8: link ="),
    ('routers = ["r1"]\n[[link]\nname = "a"\n', "top 0 1 NotToml", ":2:7: [[link]"),
    ("routers = []\nrouters = []\n", "top 0 1 NotToml", ":2:13: routers = []"),
    (b'routers = ["r1"] # \xff\n', "top 0 1 NotToml", r':1: routers = ["r1"] # \xff'),
    ("routers = [99999999999999999999]\n", "top 0 1 NotToml", ""),
    ("routers = []\nnodes = []\n", "top 0 2 UnknownKey", ":2: nodes = []"),
    ("nodes = []\n", "top 0 2 UnknownKey", ":1: nodes = []"),
    ("routers = []\n[[links]]\nname = 1\n", "top 0 2 UnknownKey", ":2: [[links]]"),
    ("\n", "top 0 3 MissingKey", ""),
    ('routers = "r1"\n', "top 0 3 MissingKey", ':1: routers = "r1"'),
    ('routers = ["R"]\nlink = 1\n', "top 0 3 MissingKey", ":2: link = 1"),
    ('routers = []\n[edge]\nat = "r1:1"\n', "top 0 3 MissingKey", ":2: [edge]"),
    ('routers = ["r1", 2]\n', "routers 2 3 MissingKey", ':1: routers = ["r1", 2]'),
    ('routers = [\n  "r1", # one\n  "R",\n  2,\n]\n', "routers 2 4 BadName", ':3: "R",'),
    ('routers = [""]\n', "routers 1 4 BadName", ""),
    ('routers = ["abcdefghijklmnopqrstuvwxyz_-01234"]\n', "routers 1 4 BadName", ""),
    ('routers = ["r1", "r2", "r1", "R"]\n', "routers 3 5 TwiceNamed", ""),
    ('routers = [\n"r1",\n["r2", "r3"],\n"r1"]\n', "routers 2 3 MissingKey", ':3: ["r2", "r3"],'),
    ("routers = [" + '"x", ' * 1 + ", ".join(f'"n{n}"' for n in range(1024)) + "]\n", "routers 1025 9 TooMany", ""),
    (AFTER_A + "[[link]]\nends = 1\nweight = 1\n", "link 2 2 UnknownKey", ":7: weight = 1"),
    (AFTER_A + '[[link]]\nname = "A"\n', "link 2 3 MissingKey", ":5: [[link]]"),
    (AFTER_A + '[[link]]\nname = "A"\nends = ["r1:1", 2]\n', "link 2 3 MissingKey", ':7: ends = ["r1:1", 2]'),
    (AFTER_A + '[[link]]\nname = "A"\nends = ["r1:1", "r2:1"]\nunnumbered = 1\n', "link 2 3 MissingKey",
     ":8: unnumbered = 1"),
    (AFTER_A + '[[link]]\nname = "A"\nends = ["r1", "r2:1"]\n', "link 2 4 BadName", ':6: name = "A"'),
    (AFTER_A + '[[link]]\nname = "a"\nends = ["r1", "r2:1"]\n', "link 2 5 TwiceNamed", ':6: name = "a"'),
    (AFTER_A + '[[link]]\nname = "b"\nends = ["r1:0", "r1:2"]\n', "link 2 6 BadEnd", ':7: ends = ["r1:0", "r1:2"]'),
    (AFTER_A + '[[link]]\nname = "b"\nends = ["r1:2", "r3:1"]\n', "link 2 6 BadEnd", ""),
    (AFTER_A + '[[link]]\nname = "b"\nends = ["r1:2", "r2:2147483648"]\n', "link 2 6 BadEnd", ""),
    (AFTER_A + '[[link]]\nname = "b"\nends = ["r1:2", "r1:3"]\n', "link 2 8 SelfLink", ":7: ends"),
    (AFTER_A + '[[link]]\nname = "b"\nends = ["r1:2", "r2:2147483647"]\n', "link 2 7 EndTwice", ":7: ends"),
    (AFTER_A + "[[edge]]\nto = \"r1:1\"\n", "edge 1 2 UnknownKey", ":6: to ="),
    (AFTER_A + "[[edge]]\nat = 1\n", "edge 1 3 MissingKey", ":6: at = 1"),
    (AFTER_A + '[[edge]]\nat = "r1:01"\n', "edge 1 6 BadEnd", ":6: at ="),
    (AFTER_A + '[[edge]]\nat = "r1:+1"\n', "edge 1 6 BadEnd", ""),
    (AFTER_A + '[[edge]]\nat = "r2:2"\n', "edge 1 7 EndTwice", ':6: at = "r2:2"'),
    (AFTER_A + '[[edge]]\nat = "r1:1"\n[[edge]]\nat = "r1:1"\n', "edge 2 7 EndTwice", ':8: at = "r1:1"'),
    (AFTER_A + "edge = [1]\n", "link 1 2 UnknownKey", ":5: edge = [1]"),
    ('routers = ["r1"]\n[vrf]\n', "top 0 3 MissingKey", ":2: [vrf]"),
    (AFTER_A + VRF + "device = 1\n", "vrf 1 2 UnknownKey", ":9: device = 1"),
    (AFTER_A + VRF.replace("10", "true"), "vrf 1 3 MissingKey", ":7: table = true"),
    (AFTER_A + VRF.replace("v1", "r1"), "vrf 1 5 TwiceNamed", ':8: name = "r1"'),
    (AFTER_A + VRF.replace("r1", "r9"), "vrf 1 13 NoSuchRouter", ':6: router = "r9"'),
    (AFTER_A + VRF.replace("10", "254"), "vrf 1 14 BadTable", ":7: table = 254"),
    (AFTER_A + VRF + VRF.replace("v1", "v2"), "vrf 2 15 TableTwice", ":11: table = 10"),
    (AFTER_A + VRF + '[[edge]]\nat = "v1:2"\n', "edge 1 7 EndTwice", ':10: at = "v1:2"'),
    (AFTER_A + VRF + '[[edge]]\nat = "v2:2"\n', "edge 1 6 BadEnd", ':10: at = "v2:2"'),
    (AFTER_A + '[[router]]\nname = "r3"\n', "router 1 13 NoSuchRouter", ':6: name = "r3"'),
    (AFTER_A + '[[router]]\nname = "r1"\nreplace = "all"\n', "router 1 11 BadReplace", ':7: replace = "all"'),
    (AFTER_A + '[[router]]\nname = "r1"\n' * 2, "router 2 12 TwiceMarked", ':8: name = "r1"'),
    (AFTER_A + VRF + '[[router]]\nname = "v1"\nreplace = "prefix"\n', "", ""),
    ('edge = [1]\nrouters = []\n', "edge 1 3 MissingKey", ""),
    ("\ufeff" + AFTER_A, "", ""),
    ("\ufeff" + AFTER_A + "[[edge]]\nat = 1\n", "edge 1 3 MissingKey", ":6: at = 1"),
    ('routers = ["r1", "r2"]\nlink = [\n  {\n    name = "a", # {\n    ends = ["r1:2", "r2:2"],\n  },\n]\n', "", ""),
    ('routers = ["r\\x31", "r1"]\nlink = [{name = "a",}]\n', "routers 2 5 TwiceNamed", ""),
    ('routers = ["\\e"]\n', "routers 1 4 BadName", ""),
    ("routers = [07:30, 2020-01-01T07:30Z]\n", "routers 1 3 MissingKey", ""),
    ('routers = ["a", "a"]\nlink = [{name = "a",, }]\n', "top 0 1 NotToml", ":2:"),
    ('routers = ["""a""", \'\'\'b,}\'\'\', "c"]\nlink = [{\n}]\n', "routers 2 4 BadName", ""),
    ('routers = []\n#' + " " * 16_777_216, "top 0 10 TooLong", ""),
]

# A script of a run with a feed of r1, its line and cause, and what the third line names.
SCRIPTS: list[tuple[bytes, str, str]] = [
    (b"take r1 0", "line 1 1 BadLine", "'0'"),
    (b"take r1 01\n", "line 1 1 BadLine", "'01'"),
    (b"\n\ntake r1 4294967296\n", "line 3 1 BadLine", "4294967295"),
    (b"take Rx all", "line 1 1 BadLine", "'Rx'"),
    (b"take r1 all all", "line 1 1 BadLine", "take ROUTER N"),
    (b"TAKE r1 all", "line 1 1 BadLine", "'TAKE'"),
    (b"tkae r1 all", "line 1 1 BadLine", "did you mean take?"),
    (b"path r1 r9", "line 1 1 BadLine", "'r9'"),
    (b"path r1", "line 1 1 BadLine", "path wants ROUTER ADDRESS"),
    (b"path r1 10.1.2", "line 1 1 BadLine", "'10.1.2'"),
    (b"path r1 10.1.2.256", "line 1 1 BadLine", "'10.1.2.256'"),
    (b"path r1 10.1.2.03", "line 1 1 BadLine", "'10.1.2.03'"),
    (b"path r1 10.1.2.3.4", "line 1 1 BadLine", ""),
    (b"path r_1 10.1.2.3\npath \xff 10.1.2.3", "line 2 1 BadLine", "xff"),
    (b"delta x", "line 1 1 BadLine", "delta wants nothing"),
    (b"delta\nDelta", "line 2 1 BadLine", "'Delta'"),
    (b"take r3 all\ntake r1 x", "line 1 2 TakeUnknown", "r3 has none"),
    (b"take r9 all\n", "line 1 2 TakeUnknown", "r9 has none"),
    (b"take r1 all\nwhat\ntake r3 all", "line 2 1 BadLine", "'what'"),
    (b"# a note\n\n take\tr1  7 \r\npath\r\tr9\t10.1.2.3\n delta\t", "", ""),
    (b"#" + b"x" * 2_000, "", ""),
    (LONG_LINE, "", ""),
    (LONG_LINE + b" ", "line 1 1 BadLine", "1024 bytes"),
    (b"\n" * 65_536, "", ""),
    (b"\n" * 65_536 + b"#", "line 65537 4 TooManyLines", "65536 lines"),
    (b"#" * 16_777_216, "", ""),
    (b"#" * 16_777_216 + b"\n", "line 0 5 TooLong", "16777216 bytes"),
]


class ErrorLines(unittest.TestCase):
    def setUp(self) -> None:
        self.folder = tempfile.TemporaryDirectory()
        self.addCleanup(self.folder.cleanup)
        for name in ("topology.toml", "r1.fpm", "script"):
            (Path(self.folder.name) / name).write_bytes((FIRST_PATH / name).read_bytes())
        for name, text in FILES.items():
            (Path(self.folder.name) / name).write_bytes(text)

    def write(self, name: str, text: str | bytes) -> None:
        (Path(self.folder.name) / name).write_bytes(text.encode() if isinstance(text, str) else text)

    def why(self, words: list[str | bytes]) -> list[str]:
        """What the tool says; its status has to fit."""
        before = os.getcwd()
        os.chdir(self.folder.name)
        try:
            status, lines = WHY.explain([os.fsdecode(word) for word in words])
        finally:
            os.chdir(before)
        self.assertEqual(0 if lines[0].startswith("no error line") else 1, status)
        return lines

    def check(self, words: list[str], error_line: str, place: str, rule: str = "") -> None:
        lines = self.why(words)
        if error_line:
            self.assertEqual(error_line, lines[0])
            self.assertEqual(3, len(lines))
            self.assertIn(place, lines[1])
            self.assertIn(rule, lines[2])
        else:
            self.assertTrue(lines[0].startswith("no error line"), lines)
        if PROGRAM.exists():
            came = subprocess.run([PROGRAM, *words], cwd=self.folder.name, capture_output=True)
            printed = came.stdout.decode().splitlines()
            self.assertEqual([error_line] if error_line else "done", printed if error_line else printed[-1])

    def test_words(self) -> None:
        for words, error_line, place in WORDS:
            with self.subTest(words=words[:6]):
                self.check(words, error_line, place)

    def test_topologies(self) -> None:
        for text, fault, place in TOPOLOGIES:
            with self.subTest(text=text[:200]):
                self.write("one.toml", text)
                self.check(["run", "one.toml"], fault and f"error topology {fault}", "one.toml" + place)

    def test_scripts(self) -> None:
        for text, fault, rule in SCRIPTS:
            with self.subTest(text=text[:60]):
                self.write("one", text)
                place = f"one:{fault.split()[1]}: " if fault and " 0 5 " not in fault else "one"
                words = ["run", "topology.toml", "r1=r1.fpm", "@one"]
                self.check(words, fault and f"error script 2 {fault}", place, rule)

    def test_further_queries(self) -> None:
        taken = (b"reach r1 r2", b"uses a", b"loops", b"blackholes r9", b"waypoint r1 r2 r3",
                 b"without a path r1 0.0.0.0", b"without a,b reach r1 r2")
        refused = (b"reach r1", b"uses A", b"loops r1", b"waypoint r1 r2", b"without a delta", b"without", b"without a",
                   b"without a without b loops", b"without a, loops", b"without a take r1 all", b"with a loops")
        feeds = script.Feeds(["r1"], set())
        for line in taken:
            script.read_script(line, feeds)
        for line in refused:
            with self.assertRaises(script.ScriptFault, msg=line) as caught:
                script.read_script(line, feeds)
            self.assertEqual("BadLine", caught.exception.cause)

    def test_words_that_are_not_text(self) -> None:
        self.assertEqual("error words", self.why(["run", "topology.toml", b"r1=\xff"])[0])

    def test_notes(self) -> None:
        os.mkfifo(Path(self.folder.name) / "pipe")
        lines = self.why(["run", "topology.toml", "r1=.", "r2=empty", "r3=pipe"])
        self.assertIn("note: part 1: r1=.: a folder", lines[1])
        self.assertIn("note: part 2: r2=empty: the file is empty", lines[2])
        self.assertIn("note: part 3: r3=pipe: a named pipe", lines[3])

    def test_the_earlier_holder_is_named(self) -> None:
        self.write("one.toml", AFTER_A + '[[edge]]\nat = "r2:2"\n')
        lines = self.why(["run", "one.toml"])
        self.assertEqual(["error topology edge 1 7 EndTwice", 'one.toml:6: at = "r2:2"',
                          "an interface stands in one link or edge only; r2:2 stands in link a already"], lines)

    def test_vrfs_have_no_feed(self) -> None:
        self.write("one.toml", AFTER_A + VRF)
        self.write("one", "take v1 all\n")
        self.assertEqual(self.why(["run", "one.toml", "r1=r1.fpm", "v1=r1.fpm"]), [
            "error part 2 UnknownRouter", "part 2: v1=r1.fpm",
            "a VRF has no feed; v1 is one of r1, in whose feed its routes come: r1=FILE"])
        self.assertEqual(self.why(["run", "one.toml", "r1=r1.fpm", "@one"]), [
            "error script 2 line 1 2 TakeUnknown", "one:1: take v1 all", "a script takes from routers that have a feed in this "
            "run (r1), and v1 is a VRF, whose routes come in the feed of r1"])

    def test_single_brackets(self) -> None:
        self.write("one.toml", 'routers = ["r1"]\n[[edge]]\nat = "r1:1"\n[edge]\nat = "r1:2"\n')
        lines = self.why(["run", "one.toml"])
        self.assertEqual(["error topology top 0 1 NotToml", "one.toml:4:6: [edge]"], lines[:2])
        self.assertTrue(lines[2].endswith("; write [[edge]] with two brackets"))

    def test_without_tomllib(self) -> None:
        """An older Python says so, in each tool over reports."""
        self.write("tomllib.py", "raise ModuleNotFoundError('No module', name='tomllib')\n")
        for tool in ("why", "look", "draw"):
            came = subprocess.run([sys.executable, TOOLS / tool, "run"], capture_output=True, text=True,
                                  env={**os.environ, "PYTHONPATH": self.folder.name})
            self.assertEqual((1, ""), (came.returncode, came.stdout))
            self.assertIn("tomllib", came.stderr)
            self.assertNotIn("Traceback", came.stderr)

    def test_the_command(self) -> None:
        """The tool as it is called: the same lines, on standard output, and the status."""
        cases = (([], 1, b"error words"), (["run", "topology.toml", "r1=r1.fpm"], 0, b"no error line"),
                 (["run", "topology.toml", b"r1=\xff"], 1, b"error words"))
        for words, status, first in cases:
            came = subprocess.run([TOOLS / "why", *words], cwd=self.folder.name, capture_output=True)
            self.assertEqual((status, b""), (came.returncode, came.stderr))
            self.assertTrue(came.stdout.startswith(first))

    def test_help(self) -> None:
        self.assertTrue(subprocess.run([TOOLS / "why", "--help"], capture_output=True).stdout.startswith(b"usage"))

    def test_any_bytes_as_a_topology(self) -> None:
        """No traceback, whatever stands there."""
        for text in (b"\x00", b"[" * 5_000, b"a." * 3_000, b'"' * 7, b"routers = [" + b"[" * 300, b"\xef\xbb\xbf",
                     b"routers = [" + b"9" * 5_000 + b"]", b"routers = ['''\n\n", b"link = [{}]\nrouters = ['a']",
                     b"routers = 1979-13-01", b"\r", b"[link]\n[[link]]\n"):
            self.write("one.toml", text)
            with self.subTest(text=text[:40]):
                self.assertTrue(self.why(["run", "one.toml"])[0].startswith("error topology "))


if __name__ == "__main__":
    unittest.main()
