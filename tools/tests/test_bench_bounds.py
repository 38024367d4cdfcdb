"""The measurements against bounds: the same seed makes the same inputs, in which there is what they are made for, and
ratios, verdicts and the table come out of what programs took."""

from __future__ import annotations

import contextlib
import importlib
import io
import math
import os
import subprocess
import sys
import tempfile
import unittest
from collections.abc import Callable
from types import ModuleType
from typing import NamedTuple
from unittest import mock

from feed_help import TOP, plain_program, read

BENCH = os.path.join(TOP, "bench")


def load_bench(*names: str) -> list[ModuleType]:
    """Modules of `bench/`. Some there have names that modules of the tools have, which stay what they are."""
    own = {name.removesuffix(".py") for name in os.listdir(BENCH)}
    before = {name: sys.modules.pop(name) for name in own & sys.modules.keys()}
    with mock.patch.object(sys, "path", [BENCH, *sys.path]):
        loaded = [importlib.import_module(name) for name in names]
    for name in own & sys.modules.keys():
        del sys.modules[name]
    sys.modules.update(before)
    return loaded


bounds, inputs, turns = load_bench("bounds", "inputs", "turns")
ALONE, ITSELF, OLD, PEER = turns.ALONE, turns.ITSELF, turns.OLD, turns.PEER
Case, Programs, Ratios = turns.Case, turns.Programs, turns.Ratios

ALL = Programs("ours", "peer", "old", "copies")


def files_of(folder: str) -> dict[str, bytes]:
    """The files of a folder, in which its own name doesn't count."""
    return {name: read(os.path.join(folder, name)) for name in sorted(os.listdir(folder))}


class InputCase(unittest.TestCase):
    """Inputs in a folder of the test's own."""

    def setUp(self) -> None:
        self.folder = self.enterContext(tempfile.TemporaryDirectory())

    def made(self, make: Callable[..., NamedTuple], *given: object) -> tuple[NamedTuple, str]:
        """A run over an input, and its folder."""
        folder = tempfile.mkdtemp(dir=self.folder)
        return make(folder, *given), folder

    def answer(self, run: NamedTuple) -> list[str]:
        """The lines of the report of the plain evaluator."""
        done = subprocess.run([plain_program(self.addCleanup), *run.words], capture_output=True, text=True)
        self.assertEqual(done.returncode, 0, done.stdout[-500:])
        return done.stdout.splitlines()


class Inputs(InputCase):
    def test_the_same_seed_makes_the_same_files(self) -> None:
        for make, *given in ((inputs.of_provider, "failover", 1000), (inputs.with_metrics, 50), (inputs.made, 100),
                             (inputs.with_cycles, 5, ("loops",)), (inputs.with_query, 640, 8, ("uses l0",))):
            with self.subTest(make=make.__name__):
                (_, one), (_, other) = self.made(make, *given), self.made(make, *given)
                self.assertEqual(files_of(one), files_of(other))

    def test_reports_tell_of_as_many_updates_as_the_run(self) -> None:
        for make, *given in ((inputs.of_provider, "failover", 400), (inputs.of_provider, "mesh", 400),
                             (inputs.made, 80), (inputs.with_query, 128, 8, ("reach m0 m1",)),
                             (inputs.with_metrics, 20), (inputs.with_changes, 3, "elsewhere", 4)):
            with self.subTest(make=make.__name__):
                run, _ = self.made(make, *given)
                self.assertIn(f"history {run.updates}", self.answer(run))

    def test_a_failing_link_changes_ways_and_none_goes_round_in_the_end(self) -> None:
        run, _ = self.made(inputs.of_provider, "failover", 800)
        report = self.answer(run)
        self.assertEqual(report[-2:], ["none", "done"])
        self.assertGreaterEqual(run.updates, 800)
        sets, first = [line.split() for line in report if " set " in line], {}
        moved = 0
        for words in sets:
            way = words[-1]
            moved += first.setdefault((words[3], words[5]), way) != way
        self.assertGreater(moved, 0)

    def test_so_many_cycles_go_round_each_with_its_prefix(self) -> None:
        run, _ = self.made(inputs.with_cycles, 7, ("loops",))
        cycles = [line for line in self.answer(run) if line.startswith("cycle ")]
        self.assertEqual(len({line.split(" least ")[0] for line in cycles}), 7)
        self.assertTrue(all(line.startswith("cycle m0 ") and line.endswith(" addresses 256") for line in cycles))
        self.assertEqual([f"least 0.0.{k}.0" in cycles[k] for k in range(7)], [True] * 7)

    def test_changes_leave_the_cycles(self) -> None:
        for changes in inputs.CHANGES:
            run, _ = self.made(inputs.with_changes, 4, changes, 6)
            self.assertEqual(run.updates, 4 * 4 + 6)
            self.assertEqual(sum(line.startswith("cycle ") for line in self.answer(run)), 4, changes)

    def test_all_metrics_come_and_go(self) -> None:
        run, _ = self.made(inputs.with_metrics, 30)
        report = self.answer(run)
        for word in ("set", "clear"):
            metrics = [int(line.split()[7]) for line in report if f" {word} 10.0.0.0/8 metric " in line]
            self.assertEqual(sorted(metrics), list(range(30)))
            self.assertNotEqual(metrics, sorted(metrics))

    def test_the_generated_input_has_each_fifth_route_local(self) -> None:
        run, _ = self.made(inputs.made, 16)
        report = self.answer(run)
        self.assertIn("1 feed 1 m0 set 0.0.0.0/8 metric 0 to m1 by l0", report)
        self.assertEqual(sum(line.endswith(" local") for line in report), 3)

    def test_a_query_with_a_link_down_is_answered(self) -> None:
        lines = [query for queries in bounds.QUERIES.values() for query in queries]
        run, _ = self.made(inputs.with_query, 128, 8, tuple(lines))
        report = self.answer(run)
        for place, query in enumerate(lines):
            self.assertIn(f"line {9 + place} at 128 {query}", report)
        reached = report.index("line 9 at 128 reach m0 m1")
        beside = report.index("line 12 at 128 without l1 reach m0 m1")
        self.assertNotEqual(report[reached + 1], "none")
        self.assertEqual(report[reached + 1], report[beside + 1])


class RatiosOfRounds(unittest.TestCase):
    ROUNDS = [{"ours": 6.0, "peer": 2.0, "old": 12.0}, {"ours": 8.0, "peer": 4.0, "old": 4.0}]

    def test_over_the_peer(self) -> None:
        self.assertEqual(turns.ratios_of(self.ROUNDS, PEER, ALL), Ratios([3, 2], [6, 1], [0.5, 2]))

    def test_over_the_older_program(self) -> None:
        self.assertEqual(turns.ratios_of(self.ROUNDS, OLD, ALL), Ratios([0.5, 2], [], []))

    def test_a_cost_that_is_a_ratio(self) -> None:
        self.assertEqual(turns.ratios_of(self.ROUNDS, ITSELF, ALL), Ratios([6, 8], [12, 4], [0.5, 2]))
        self.assertEqual(turns.ratios_of(self.ROUNDS, ALONE, ALL), Ratios([6, 8], [], []))

    def test_without_an_older_program(self) -> None:
        self.assertEqual(turns.ratios_of(self.ROUNDS, PEER, Programs("ours", "peer")), Ratios([3, 2], [], []))

    def test_a_round_that_says_nothing_is_left_out(self) -> None:
        rounds = [{"ours": -1.0, "peer": 2.0, "old": 1.0}, {"ours": math.nan, "peer": 2.0, "old": 1.0}, *self.ROUNDS]
        self.assertEqual(turns.ratios_of(rounds, PEER, ALL).product, [3, 2])
        self.assertTrue(math.isnan(turns.quotient(-3.0, -1.0)))
        self.assertTrue(math.isnan(turns.quotient(2.0, 0.0)))

    def test_growth_is_a_power(self) -> None:
        self.assertAlmostEqual(turns.power(10, 1000, 5.0, 500.0), 1)
        self.assertAlmostEqual(turns.power(10, 1000, 5.0, 50.0), 0.5)

    def test_the_median_has_to_hold(self) -> None:
        said = {(1, 1.5, 9): "yes", (1, 1.6, 9): "in the least round", (1.6, 2): "no", (): "unclear"}
        self.assertEqual({ratios: turns.verdict(list(ratios), 1.5) for ratios in said}, said)

    def test_a_line_has_a_cell_for_each_word_of_the_head(self) -> None:
        for ratios in (Ratios([3, 2], [6, 1], [0.5, 2]), Ratios([3, 2], [], []), Ratios([], [], [])):
            self.assertEqual(len(turns.line_of("bgp-5", "mesh", 2.7, ratios)), len(turns.HEAD))
        self.assertEqual(turns.line_of("bgp-5", "mesh", 2.7, Ratios([3, 2], [6, 1], [0.5, 2])),
                         ("bgp-5", "mesh", "2.7", "2.00", "2.50", "yes", "1.00", "3.50", "1.250"))


class Turns(unittest.TestCase):
    def test_programs_run_turn_about(self) -> None:
        ran: list[str] = []
        case = Case("any", lambda one: ran.append(one) or 1.0, PEER)
        turns.Bench("", ALL, 2, False).ratios(case)
        self.assertEqual(ran, ["ours", "peer", "old"] * 2)

    def test_what_is_of_the_product_alone_runs_nothing_else(self) -> None:
        ran: list[str] = []
        case = Case("any", lambda one: ran.append(one) or 1.0, ALONE)
        turns.Bench("", ALL, 2, False).ratios(case, 1)
        self.assertEqual(ran, ["ours"])

    def test_an_input_is_written_once(self) -> None:
        with tempfile.TemporaryDirectory() as folder:
            bench = turns.Bench(folder, ALL, 1, False)
            runs = [bench.input(inputs.of_command, count) for count in (3, 3, 4)]
        self.assertEqual([run.words for run in runs], [["make", "3"], ["make", "3"], ["make", "4"]])
        self.assertEqual(len(bench.inputs), 2)


class ScriptCase(InputCase):
    """The script over programs that print one line, or others."""

    def program(self, name: str, line: str, status: int = 0) -> str:
        path = os.path.join(self.folder, name)
        with open(path, "w", encoding="utf-8") as file:
            file.write(f"#!/bin/sh\necho {line}\nexit {status}\n")
        os.chmod(path, 0o755)
        return path

    def run_script(self, *given: str) -> tuple[object, list[str]]:
        out, status = io.StringIO(), None
        small = {"make-5": bounds.Row(2.1, bounds.whole(bounds.made(64))),
                 "memory-5": bounds.Row(1.3, bounds.whole(bounds.all_files(640), turns.Bench.memory))}
        with (contextlib.redirect_stdout(out), contextlib.redirect_stderr(io.StringIO()),
              mock.patch.dict(bounds.ROWS, small), mock.patch("sys.argv", ["bounds.py", *given])):
            try:
                bounds.main()
            except SystemExit as end:
                status = end.code
        return status, [line for line in out.getvalue().splitlines() if line.startswith("| ")]


class Script(ScriptCase):
    def test_a_table_of_the_rows_that_are_asked_for(self) -> None:
        ours, peer = self.program("ours", "done"), self.program("peer", "done")
        status, table = self.run_script(ours, peer, "make-5", "memory-5", "--rounds", "1", "--old", peer)
        self.assertIn(status, (0, 1, False, True))
        self.assertEqual([line.split(" | ")[:2] for line in table[1:]],
                         [["| make-5", "files"], ["| make-5", "command"],
                          *(["| memory-5", name] for name in ("mesh", "ring", "tree", "failover", "make"))])

    def test_a_line_of_a_row_alone(self) -> None:
        ours = self.program("ours", "done")
        _, table = self.run_script(ours, ours, "make-5:command", "--rounds", "1")
        self.assertEqual([line.split(" | ")[1] for line in table[1:]], ["command"])
        self.assertEqual(self.run_script(ours, ours, "make-5:mesh")[0], "bounds.py: make-5 has no mesh")

    def test_another_report_ends_it(self) -> None:
        ours, peer = self.program("ours", "done"), self.program("peer", "otherwise")
        status, _ = self.run_script(ours, peer, "make-5")
        self.assertTrue(str(status).startswith("bench: the reports differ"), status)

    def test_a_run_that_fails_ends_it(self) -> None:
        ours, peer = self.program("ours", "done"), self.program("peer", "done", 7)
        status, _ = self.run_script(ours, peer, "make-5")
        self.assertTrue(str(status).startswith("bench: status 7"), status)

    def test_a_row_that_needs_another_program_is_left_out(self) -> None:
        ours = self.program("ours", "done")
        self.assertEqual(self.run_script(ours, ours, "wide", "copies"), (False, ["| " + " | ".join(turns.HEAD) + " |"]))

    def test_words_that_it_does_not_know(self) -> None:
        for given in ((), ("ours",), ("ours", "peer", "nothing")):
            self.assertEqual(self.run_script(*given)[0], bounds.__doc__)


class Links(ScriptCase):
    """`links.py` over the plain evaluator, which is no program to be measured: its report has to be the one that is due."""

    def run_links(self, product: str) -> subprocess.CompletedProcess[str]:
        words = [sys.executable, os.path.join(BENCH, "links.py"), "--product", product, "1", "64"]
        return subprocess.run(words, capture_output=True, text=True)

    def test_the_report_is_compared(self) -> None:
        ran = self.run_links(plain_program(self.addCleanup))
        self.assertNotIn("a wrong report", ran.stderr)
        self.assertTrue(ran.stderr.startswith("links.py: so few prefixes") or "down or up: " in ran.stdout, ran)
        ran = self.run_links(self.program("ours", "done"))
        self.assertEqual((ran.returncode, ran.stdout), (1, ""))
        self.assertIn("bench: a wrong report, status 0", ran.stderr)

    def test_its_rows_run_the_product_alone(self) -> None:
        with mock.patch.object(bounds.links, "COUNT", 64):
            _, table = self.run_script(plain_program(self.addCleanup), "no-peer", "links", "links-ms", "--rounds", "1")
        self.assertEqual([line.split(" | ")[:3] for line in table[1:]],
                         [["| links", "64 prefixes", "1"], ["| links-ms", "64 prefixes", "20"]])

    def test_what_is_held_to(self) -> None:
        times = bounds.links.Times(update=2e-6, link=0.03, scan=0.04)
        self.assertAlmostEqual(times.scaled, 15)
        self.assertAlmostEqual(times.ratio, 0.75)


if __name__ == "__main__":
    unittest.main()
