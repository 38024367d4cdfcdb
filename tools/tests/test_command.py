"""The script `deltanet`: what it answers itself, what it says of a program that is older than its sources, what stands on
standard error beside a run; and the evaluator and the watch that it starts."""

from __future__ import annotations

import os
import shutil
import signal
import subprocess
import tempfile
import unittest

from feed_help import TESTS, TOP, TOOLS, frame, read, set_route

EXAMPLES = os.path.join(TOP, "examples")
FIRST = ["run", "topology.toml", "r1=r1.fpm", "@script"]
PLAIN = os.path.join(TOOLS, "plain")
WATCH = os.path.join(TOOLS, "watch")


class Checkout(unittest.TestCase):
    """A checkout of the script and the tools, with one source and a program that prints its words and ends with a status."""

    def setUp(self) -> None:
        folder = tempfile.TemporaryDirectory()
        self.addCleanup(folder.cleanup)
        self.top = os.path.join(folder.name, "top")
        self.out = os.path.join(self.top, "crates", "query_cli", "out")
        self.source = os.path.join(self.top, "crates", "query_cli", "src", "main.rt")
        os.makedirs(os.path.dirname(self.source))
        shutil.copy(os.path.join(TOP, "deltanet"), self.top)
        os.symlink(TOOLS, os.path.join(self.top, "tools"))
        for path in (self.source, os.path.join(self.top, "crates.txt")):
            with open(path, "w", encoding="ascii"):
                pass
        self.bin = os.path.join(folder.name, "bin")
        os.mkdir(self.bin)

    def build(self, text: str = 'echo "ran $*"', mark: bool = True) -> None:
        os.makedirs(self.out, exist_ok=True)
        program = os.path.join(self.out, "query_cli")
        with open(program, "w", encoding="ascii") as file:
            file.write(f"#!/usr/bin/env bash\n{text}\n")
        os.chmod(program, 0o755)
        if mark:
            with open(os.path.join(self.out, "deltanet.built"), "w", encoding="ascii"):
                pass
        for path in (self.source, os.path.join(self.top, "crates.txt")):
            os.utime(path, (1, 1))

    def run_script(self, *words: str, folder: str = os.path.join(EXAMPLES, "first-path"),
                   **more: object) -> subprocess.CompletedProcess[str]:
        """Runs the script where there is no rt."""
        paths = [path for path in os.environ["PATH"].split(os.pathsep) if not os.path.exists(os.path.join(path, "rt"))]
        return subprocess.run([os.path.join(self.top, "deltanet"), *words], capture_output=True, text=True, cwd=folder,
                              env=dict(os.environ, PATH=os.pathsep.join([self.bin, *paths])), timeout=60, **more)


class Itself(Checkout):
    def test_help_needs_no_program(self) -> None:
        for word in ("help", "--help", "-h"):
            ran = self.run_script(word)
            self.assertEqual((ran.returncode, ran.stderr), (0, ""))
            self.assertIn("deltanet run TOPOLOGY [ROUTER=FEED | @SCRIPT]..", ran.stdout)
        ran = self.run_script()
        self.assertEqual((ran.returncode, ran.stdout), (2, ""))
        self.assertIn("deltanet run TOPOLOGY", ran.stderr)

    def test_version(self) -> None:
        self.assertEqual(self.run_script("--version").stdout.splitlines()[1:], ["program: not built", "kit: rt isn't there"])
        self.build()
        self.assertRegex(self.run_script("--version").stdout, "\nprogram: proved and built 20..-..-.. ..:..\n")
        os.utime(self.source)
        self.assertRegex(self.run_script("version").stdout,
                         "built 20..-..-.. ..:..; since then crates/query_cli/src/main.rt has changed\n")

    def test_a_program_that_is_older_than_a_source(self) -> None:
        ran = self.run_script(*FIRST)
        self.assertEqual((ran.returncode, ran.stdout), (70, ""))
        self.assertEqual(ran.stderr.splitlines(), [
            "deltanet: the program isn't built, and rt, the command of the Rattle kit, isn't there to build it",
            "deltanet: --unproved answers without it"])
        self.build()
        self.assertEqual(self.run_script("--no-check", *FIRST).stderr, "")
        os.utime(self.source)
        ran = self.run_script(*FIRST)
        self.assertEqual((ran.returncode, ran.stdout), (70, ""))
        self.assertEqual(ran.stderr.splitlines(), [
            "deltanet: crates/query_cli/src/main.rt is newer than the program, and rt, the command of the Rattle kit, isn't "
            "there to build it", "deltanet: --as-built runs the program as it is",
            "deltanet: --unproved answers without it"])

    def test_as_built(self) -> None:
        ran = self.run_script("--as-built", *FIRST)
        self.assertEqual((ran.returncode, ran.stderr), (70, "deltanet: --as-built: the program isn't built\n"))
        self.build()
        self.assertEqual(self.run_script("--as-built", "--no-check", *FIRST).stderr, "")
        os.utime(self.source)
        ran = self.run_script("--as-built", "--no-check", *FIRST)
        self.assertEqual((ran.returncode, ran.stdout), (0, f"ran {' '.join(FIRST)}\n"))
        self.assertRegex(ran.stderr, "^deltanet: runs the program of 20.* as it is: crates/query_cli/src/main.rt is newer\n$")

    def test_as_built_without_a_mark(self) -> None:
        self.build(mark=False)
        self.assertIn("no build has marked it as proved", self.run_script("--as-built", *FIRST).stderr)

    def test_build_runs_nothing(self) -> None:
        self.build()
        ran = self.run_script("build")
        self.assertEqual((ran.returncode, ran.stdout, ran.stderr), (0, "", ""))


class Beside(Checkout):
    """What stands on standard error beside a run."""

    def test_findings_before_a_run(self) -> None:
        self.build()
        ran = self.run_script(*FIRST)
        self.assertEqual((ran.returncode, ran.stdout), (0, f"ran {' '.join(FIRST)}\n"))
        self.assertEqual([line.split(":")[:2] for line in ran.stderr.splitlines()],
                         [["deltanet", " check"], ["deltanet", " check"]])
        self.assertIn("deltanet: check: no-feed topology.toml r2: this router has no feed", ran.stderr)

    def test_no_finding_no_word(self) -> None:
        self.build()
        feeds = [f"r{n}=r{n}.1.fpm" for n in (1, 2, 3)]
        ran = self.run_script("run", "topology.toml", *feeds, folder=os.path.join(EXAMPLES, "live-triangle"))
        self.assertEqual((ran.returncode, ran.stderr), (0, ""))

    def test_a_pipe_is_left_to_the_program(self) -> None:
        self.build('cat "${3#*=}"')
        with tempfile.TemporaryDirectory() as folder:
            pipe = os.path.join(folder, "pipe")
            os.mkfifo(pipe)
            writer = subprocess.Popen(["sh", "-c", f"echo whole >'{pipe}'"])
            ran = self.run_script("run", "topology.toml", f"r1={pipe}")
            writer.wait(10)
        self.assertEqual((ran.stdout, ran.stderr), ("whole\n", ""))

    def test_large_feeds_are_not_looked_at(self) -> None:
        self.build()
        with tempfile.TemporaryDirectory() as folder:
            with open(os.path.join(folder, "large"), "wb") as file:
                file.truncate(2 ** 25)
            ran = self.run_script("run", "topology.toml", f"r1={folder}/large")
        self.assertIn("the feeds have 33554432 bytes, so they aren't looked at first", ran.stderr)

    def test_why_at_error_lines(self) -> None:
        self.build('echo "error read topology"; exit 5')
        ran = self.run_script("run", "nowhere.toml", "r1=r1.fpm")
        self.assertEqual((ran.returncode, ran.stdout), (5, "error read topology\n"))
        self.assertEqual(ran.stderr.splitlines(), [
            "deltanet: error read topology", "deltanet: nowhere.toml: No such file or directory",
            "deltanet: the file has to be there and readable"])
        self.build('echo "feed 1 r1 updates 0 skipped 0 refused 0 readfault"; exit 5')
        self.assertEqual(self.run_script("--no-check", *FIRST).stderr, "")

    def test_statuses_are_the_programs(self) -> None:
        for status in (0, 1, 6, 7):
            self.build(f"exit {status}")
            ran = self.run_script("--no-check", *FIRST)
            self.assertEqual((ran.returncode, ran.stderr), (status, ""))
        self.build("cat")
        self.assertEqual(self.run_script("--no-check", *FIRST, input="from outside").stdout, "from outside")

    def test_a_signal_ends_the_program_too(self) -> None:
        self.build('echo "$$"; exec sleep 100')
        run = subprocess.Popen([os.path.join(self.top, "deltanet"), "--no-check", *FIRST], stdout=subprocess.PIPE, text=True)
        program = int(run.stdout.readline())
        run.send_signal(signal.SIGTERM)
        self.assertEqual(run.wait(10), 128 + signal.SIGTERM)
        run.stdout.close()
        with self.assertRaises(ProcessLookupError):
            os.kill(program, 0)


class Unproved(Checkout):
    def test_the_examples(self) -> None:
        for name, feeds in (("first-path", ["r1=r1.fpm"]), ("triangle-ospf", [f"r{n}=r{n}.fpm" for n in (1, 2, 3)]),
                            ("live-triangle", [f"r{n}=r{n}.1.fpm" for n in (1, 2, 3)])):
            folder = os.path.join(EXAMPLES, name)
            ran = self.run_script("--unproved", "run", "topology.toml", *feeds, "@script", folder=folder)
            self.assertEqual((ran.returncode, ran.stdout), (0, read(os.path.join(folder, "report.txt")).decode()))
            self.assertIn("plain: this report is worked out in Python and not proved", ran.stderr)

    def test_every_query_and_two_jobs(self) -> None:
        folder = os.path.join(EXAMPLES, "data-centre")
        feeds = [f"{name}={name}.fpm" for name in ("border", "core1", "core2", "firewall", "servers")]
        ran = self.run_script("--unproved", "run", "topology.toml", *feeds, "@script", folder=folder)
        self.assertEqual(ran.stdout, read(os.path.join(folder, "report.txt")).decode())
        with tempfile.NamedTemporaryFile("w", suffix=".script") as script:
            script.write("path r1 10.1.2.3\npath r9 10.1.2.3\n")
            script.flush()
            ran = self.run_script("--unproved", *FIRST, f"@{script.name}")
        self.assertEqual(ran.stdout.splitlines()[-7:], [
            "job 2", "line 1 at 1 path r1 10.1.2.3", "hops r1 r2", "end noroute", "line 2 path r9 10.1.2.3",
            "unknown router r9", "done"])

    def test_refused_and_broken(self) -> None:
        ran = self.run_script("--unproved", "run", "topology.toml", "r9=r1.fpm")
        self.assertEqual((ran.returncode, ran.stdout), (2, "error part 1 UnknownRouter\n"))
        self.assertIn("deltanet: a feed is of a router of the topology", ran.stderr)
        with tempfile.NamedTemporaryFile() as feed:
            feed.write(read(os.path.join(EXAMPLES, "first-path", "r1.fpm"))[:-1])
            feed.flush()
            ran = self.run_script("--unproved", "run", "topology.toml", f"r1={feed.name}")
        self.assertEqual((ran.returncode, ran.stdout.splitlines()[0]),
                         (1, "feed 1 r1 updates 0 skipped 0 refused 0 cutshort 0"))


class Watching(unittest.TestCase):
    """Feeds that grow, with the plain evaluator in the program's place."""

    def setUp(self) -> None:
        self.folder = tempfile.mkdtemp()
        self.addCleanup(shutil.rmtree, self.folder)
        shutil.copy(os.path.join(EXAMPLES, "first-path", "topology.toml"), self.folder)
        self.write("script", b"take r1 all\npath r1 10.1.2.3\npath r1 11.0.0.1\n")
        self.write("r1.1.fpm", frame(set_route("10.0.0.0/8", 2, gateway="10.0.12.2")))

    def write(self, name: str, text: bytes, mode: str = "wb") -> None:
        with open(os.path.join(self.folder, name), mode) as file:
            file.write(text)

    def watch(self, *words: str) -> subprocess.Popen:
        return subprocess.Popen([WATCH, "--every", "0.1", *words, "run", "topology.toml", "r1=r1.1.fpm", "@script"],
                                cwd=self.folder, stdout=subprocess.PIPE, stderr=subprocess.PIPE, text=True,
                                env=dict(os.environ, DELTANET=PLAIN))

    def test_only_changes_are_told(self) -> None:
        with self.watch() as watch:
            told = [watch.stdout.readline().strip() for _ in range(6)]
            self.assertEqual([told[0][9:], *told[1:3], told[3][9:], *told[4:]],
                             ["path r1 10.1.2.3", "hops r1 r2", "end noroute", "path r1 11.0.0.1", "hops r1", "end noroute"])
            self.write("r1.1.fpm", frame(set_route("11.0.0.0/8", 3, gateway="10.0.13.2"))[:-1], "ab")
            said = [watch.stderr.readline() for _ in range(2)]
            self.write("r1.1.fpm", b"\0", "ab")
            told = [watch.stdout.readline().strip() for _ in range(3)]
            self.assertEqual([told[0][9:], *told[1:]], ["path r1 11.0.0.1", "hops r1 r3", "end noroute"])
            self.write("r1.2.fpm", b"\1")
            self.assertEqual((watch.wait(20), watch.stdout.read()), (1, ""))
            self.assertIn("watch: r1.2.fpm has come: a new session", watch.stderr.read())
        self.assertRegex("".join(said), "watch: ..:..:.. r1: 0 frames refused, cutshort 64\n$")

    def test_errors(self) -> None:
        self.write("script", b"take r9 all\n")
        with self.watch("--runs", "1") as watch:
            self.assertEqual((watch.wait(20), watch.stdout.read()), (1, ""))
            self.assertIn("watch: error script 2 line 1 2 TakeUnknown", watch.stderr.read())
        for words in (["--every", "0", "run", "t"], ["--every", "x", "run", "t"], [], ["go"]):
            ran = subprocess.run([WATCH, *words], capture_output=True, text=True, check=False)
            self.assertEqual((ran.returncode, ran.stdout, "usage: watch" in ran.stderr), (1, "", True))


if __name__ == "__main__":
    unittest.main()
