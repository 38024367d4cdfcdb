"""`fuzz` and `hostile`: right reports pass, and planted wrong ones are found.

The stored reports of the examples are the program's own. Of a run whose script takes every feed the report is fixed to
the byte, so each change of it has to be found. Runs of several jobs have many right reports; some are made here, by a
plain run of one job after the other."""

from __future__ import annotations

import contextlib
import os
import random
import subprocess
import sys
import tempfile
import unittest
from pathlib import Path
from unittest import mock

from feed_help import TOP, load_tool, read

FUZZ = load_tool("dev/fuzz")
HOSTILE = load_tool("dev/hostile")
GROWTHS = load_tool("dev/refuse-growths")

# The tools have put their folder of modules on the path.
import run_words  # noqa: E402
from chance import frame, frames_of, made_case, spoiled_feed  # noqa: E402
from due import Ended, faults_of  # noqa: E402
from network import read_topology  # noqa: E402
from plain_report import report_of  # noqa: E402
from queries import answer_lines  # noqa: E402
from report import parse_report  # noqa: E402
from trials import GROUPS, ONE_ROUTE, RING, Trial, set_route  # noqa: E402

MADE = os.path.join(TOP, "tools", "tests", "data", "made")
CENTRE = os.path.join(TOP, "examples", "data-centre")
STORED = (
    (CENTRE, 0, ["run", "topology.toml", *(f"{name}={name}.fpm" for name in
                                           ("border", "core1", "core2", "firewall", "servers")), "@script"]),
    (os.path.join(TOP, "examples", "first-path"), 0, ["run", "topology.toml", "r1=r1.fpm", "@script"]),
    (MADE, 1, ["run", "topology.toml", "r1=r1.fpm", "r3=r3.fpm", "r4=r4.fpm", "@script"]),
)


def plain_report(words: list[str], folder: str, chance: random.Random | None = None) -> Ended:
    """A right report: the jobs one after the other, or mixed by chance."""
    said = run_words.read_words(words)
    status, lines = report_of(read_topology(os.path.join(folder, said.topology)), said, folder, chance)
    return Ended(status, "".join(f"{line}\n" for line in lines).encode())


def changed(source: random.Random, text: bytes) -> bytes:
    """A report with another digit, or a line left out, twice, or in another's place."""
    lines = text.split(b"\n")
    first, second = source.randrange(len(lines) - 1), source.randrange(len(lines) - 1)
    place = source.choice([place for place, letter in enumerate(text) if chr(letter).isdigit()])
    return source.choice((
        text[:place] + b"%d" % ((text[place] - 47) % 10) + text[place + 1:],
        text[:place] + b"0" + text[place:],
        b"\n".join(lines[:first] + lines[first + 1:]),
        b"\n".join(lines[:first] + lines[first:first + 1] + lines[first:]),
        b"\n".join(lines[:first] + lines[second:second + 1] + lines[first + 1:]),
        text[:source.randrange(len(text))],
    ))


class StoredRuns(unittest.TestCase):
    def test_right_reports(self) -> None:
        for folder, status, words in STORED:
            ended = Ended(status, read(os.path.join(folder, "report.txt")))
            self.assertEqual([], faults_of(words, folder, ended, None), folder)

    def test_each_change_is_found(self) -> None:
        source = random.Random(5)
        for folder, status, words in STORED:
            text = read(os.path.join(folder, "report.txt"))
            for _ in range(60):
                wrong = changed(source, text)
                if wrong != text and faults_of(words, folder, Ended(status, wrong), None) == []:
                    self.fail(f"{folder}: a wrong report passes:\n{wrong.decode()}")

    def test_statuses(self) -> None:
        folder, status, words = STORED[0]
        text = read(os.path.join(folder, "report.txt"))
        for other in (-11, -6, 1, 5, 6, 7, 8, 101):
            self.assertNotEqual([], faults_of(words, folder, Ended(other, text), None))
        self.assertNotEqual([], faults_of(words, folder, Ended(status, text, b"thread panicked"), None))

    def test_error_lines(self) -> None:
        line = "error script 2 line 3 2 TakeUnknown"
        self.assertEqual([], faults_of([], ".", Ended(4, f"{line}\n".encode()), line))
        for status, text in ((3, f"{line}\n"), (4, line), (4, f"{line}\n\n"), (4, ""), (4, "error words\n"), (0, "")):
            self.assertNotEqual([], faults_of([], ".", Ended(status, text.encode()), line))


class TwoJobs(unittest.TestCase):
    """A script that takes r1's two updates one by one, beside r2's feed, which is a job of its own."""

    def setUp(self) -> None:
        self.folder = self.enterContext(tempfile.TemporaryDirectory())
        for name, text in (("topology", RING.encode()), ("script", b"take r1 1\npath r1 10.0.0.1\ntake r1 1\ndelta\n"),
                           ("f1", ONE_ROUTE + frame([set_route(0x0B000000, 8)])),
                           ("f2", frame([set_route(0x0A000000, 8, 3)]))):
            Path(self.folder, name).write_bytes(text)

    def faults(self, history: list[int], path_at: int, delta_at: int) -> list[str]:
        """Of a report whose history has these feeds' updates in turn, with answers at these positions, all else
        being right."""
        waiting = {1: ["10.0.0.0/8", "11.0.0.0/8"], 2: ["10.0.0.0/8"]}
        way = {1: "to r2 by a", 2: "to r3 by b"}
        lines = ["feed 1 r1 updates 2 skipped 0 refused 0 end", "feed 2 r2 updates 1 skipped 0 refused 0 end",
                 f"history {len(history)}"]
        for place, feed in enumerate(history, 1):
            lines.append(f"{place} feed {feed} r{feed} set {waiting[feed].pop(0)} metric 20 {way[feed]}")
        entries = parse_report("made", "\n".join([*lines, "done\n"]).encode()).entries
        network = read_topology(os.path.join(self.folder, "topology"))
        lines += ["job 1", f"line 2 at {path_at} path r1 10.0.0.1"]
        lines += answer_lines(network, entries, path_at, "path r1 10.0.0.1")
        lines += [f"line 4 at {delta_at} delta", *answer_lines(network, entries, delta_at, "delta"), "job 2", "done\n"]
        words = ["run", "topology", "r1=f1", "@script", "r2=f2"]
        return faults_of(words, self.folder, Ended(0, "\n".join(lines).encode()), None)

    def test_each_order_is_right(self) -> None:
        for history, path_at, delta_at in (([1, 1, 2], 1, 2), ([1, 1, 2], 1, 3), ([1, 2, 1], 1, 3), ([1, 2, 1], 2, 3),
                                           ([2, 1, 1], 2, 3)):
            self.assertEqual([], self.faults(history, path_at, delta_at))

    def test_positions_that_cannot_be(self) -> None:
        for history, path_at, delta_at in (([1, 1, 2], 0, 2), ([1, 1, 2], 2, 2), ([1, 1, 2], 1, 1), ([2, 1, 1], 1, 3),
                                           ([1, 2, 1], 3, 3), ([1, 2, 1], 2, 2)):
            self.assertEqual(1, len(self.faults(history, path_at, delta_at)), (history, path_at, delta_at))

    def test_histories_that_cannot_be(self) -> None:
        self.assertNotEqual([], self.faults([1, 1], 1, 2))
        self.assertNotEqual([], self.faults([1, 2], 1, 2))


class MadeRuns(unittest.TestCase):
    def test_made_reports(self) -> None:
        """Runs by chance, of up to four scripts: right reports pass, changed ones mostly don't, since a position may
        be another where jobs run side by side."""
        source, reports, found = random.Random(7), 0, 0
        with mock.patch.object(run_words, "MOST_SCRIPTS", 64):
            for number in range(1, 61):
                case = made_case(number, 64)
                with tempfile.TemporaryDirectory() as folder:
                    FUZZ.write_files(case, folder)
                    with contextlib.chdir(folder):
                        if FUZZ.WHY.explain(case.words)[0]:
                            continue
                    ended = plain_report(case.words, folder)
                    self.assertEqual([], FUZZ.judge(case, folder, ended), number)
                    wrong = Ended(ended.status, changed(source, ended.text))
                    reports += 1
                    found += bool(FUZZ.judge(case, folder, wrong))
        self.assertGreater(reports, 15)
        self.assertGreaterEqual(found, reports - 3)

    def test_a_number_fixes_a_run(self) -> None:
        for number in range(20):
            self.assertEqual(made_case(number, 64), made_case(number, 64))
        self.assertNotEqual(made_case(1, 64), made_case(2, 64))

    def test_feeds_are_spoiled(self) -> None:
        feed = read(os.path.join(TOP, "examples", "triangle-ospf", "r1.fpm"))[:4_000]
        self.assertEqual(feed[:sum(map(len, frames_of(feed)))], b"".join(frames_of(feed)))
        spoiled = {spoiled_feed(random.Random(number), feed, {"r1": feed}) for number in range(60)}
        self.assertGreater(len(spoiled), 50)
        for number in range(200):
            spoiled_feed(random.Random(number), b"", {"r1": b""})


class Programs(unittest.TestCase):
    """The tools as they are called, on programs that are wrong."""

    def program(self, text: str) -> str:
        folder = self.enterContext(tempfile.TemporaryDirectory())
        os.chmod(folder, 0o755)
        path = os.path.join(folder, "program")
        Path(path).write_text(f"#!/bin/sh\n{text}\n")
        os.chmod(path, 0o755)
        return path

    def fuzz(self, product: str, *words: str) -> tuple[int, str]:
        self.kept = self.enterContext(tempfile.TemporaryDirectory())
        came = subprocess.run([sys.executable, os.path.join(TOP, "tools", "dev", "fuzz"), "--product", product, "--keep",
                               self.kept, "--runs", "6", "--most-wrong", "2", *words], capture_output=True, text=True)
        self.assertEqual("", came.stderr)
        return came.returncode, came.stdout

    def test_one_that_crashes(self) -> None:
        status, told = self.fuzz(self.program("kill -SEGV $$"))
        self.assertEqual(1, status)
        self.assertIn("status -11", told)
        self.assertIn("2 WRONG", told)

    def test_one_that_hangs(self) -> None:
        status, told = self.fuzz(self.program("exec sleep 60"), "--seconds", "0.2")
        self.assertEqual(1, status)
        self.assertIn("it didn't end within the time", told)

    def test_one_that_always_refuses(self) -> None:
        """What is kept is enough to do the run again."""
        status, told = self.fuzz(self.program("echo error words; exit 2"))
        self.assertEqual(1, status)
        again = next(line for line in told.splitlines() if "again: " in line).partition("again: ")[2]
        came = subprocess.run(["/bin/sh", "-c", again], capture_output=True, text=True)
        self.assertEqual((2, "error words\n"), (came.returncode, came.stdout))
        folder = sorted(os.listdir(self.kept))[0]
        self.assertIn("topology", os.listdir(os.path.join(self.kept, folder)))

    def test_no_program(self) -> None:
        for tool in ("fuzz", "hostile"):
            came = subprocess.run([sys.executable, os.path.join(TOP, "tools", "dev", tool), "--product", "nowhere"],
                                  capture_output=True, text=True)
            self.assertEqual((1, ""), (came.returncode, came.stdout))
            self.assertIn("nowhere: there is no such program", came.stderr)

    def test_hostile_finds(self) -> None:
        """A program that says nothing, whatever it is given, is wrong on each trial of these groups but those where
        status 6 is due and no text is compared. A reader that takes all is one of the wrong ones."""
        came = subprocess.run([sys.executable, os.path.join(TOP, "tools", "dev", "hostile"), "files", "outputs", "--product",
                               self.program("exit 6")], capture_output=True, text=True)
        self.assertEqual((1, ""), (came.returncode, came.stderr))
        self.assertIn("hostile: 12 trials, 6 WRONG", came.stdout)

    def test_hostile_stops_what_hangs(self) -> None:
        child = HOSTILE.Child(self.program("exec sleep 60"), ".", 0.2)
        ended, _ = child.run(Trial("hangs", []))
        self.assertTrue(child.is_late)
        self.assertEqual(-9, ended.status)

    def test_hostile_reads(self) -> None:
        """What comes through a pipe is kept where the reader takes all; where it goes away, writing fails."""
        for output, text, status, due in (("reads singly", "printf %03000d 0", 0, b"0" * 3_000),
                                          ("leaves", "exec yes", -13, b""), ("leaves late", "exec yes", -13, b"")):
            ended, _ = HOSTILE.Child(self.program(text), ".", 60).run(Trial(output, [], output=output))
            self.assertEqual((status, due), (ended.status, ended.text), output)

    def test_groups(self) -> None:
        """Each group of small files makes its trials; the large ones are left to the tool."""
        with tempfile.TemporaryDirectory() as folder:
            for group in ("files", "outputs", "slow-pipes", "cut-feeds", "all-feeds", "little-memory"):
                self.assertGreaterEqual(len(list(GROUPS[group](folder))), 2)


class RefusedGrowths(unittest.TestCase):
    """How a run may end in which a growth of memory was refused."""

    def test_each_case_is_judged(self) -> None:
        for name, made in GROWTHS.CASES.items():
            with self.subTest(name), tempfile.TemporaryDirectory() as place:
                folder = Path(place)
                words, error = made(folder), GROWTHS.ERRORS.get(name)
                if error is None:
                    due = plain_report(["run", *words], place)
                else:
                    due = Ended(3, f"{error}\n".encode())
                self.assertEqual(GROWTHS.judge(due, words, folder, error), [])
                self.assertEqual(GROWTHS.judge(Ended(7, b""), words, folder, error), [])
                for wrong in (Ended(7, due.text), Ended(7, b"", b"?"), Ended(0, b""), Ended(-11, b""), Ended(1, due.text)):
                    self.assertNotEqual(GROWTHS.judge(wrong, words, folder, error), [])


if __name__ == "__main__":
    unittest.main()
