"""What the script `deltanet` tells while it builds, over an `rt` that proves nothing: it says each crate at its time."""

from __future__ import annotations

import os
import shutil
import subprocess
import tempfile
import unittest

from feed_help import TOP

CRATES = """# a comment: it names no crate
low:
left may_wait=3: low serde
right: low
other:
small:
query_cli: left right
"""
WEIGHTS = """# a comment of 4
low 6
left 4
right 2
query_cli 3
small 0.1
gone 5
"""

# A line of the steps is when a crate ends, its name, and what is said of it: nothing where it was kept. A step is told
# while the script sleeps, and wakes it, so that it tells of each one.
RT = """#!/usr/bin/env bash
await() { until [ -e "$FAKE/waits" ]; do "$SLEEP" 0.01; done; }
if [ "$1" = run ]; then
    echo 'echo "ran $*"; exit 3' >out/query_cli
    chmod +x out/query_cli
    touch out/query_cli.stamp
    exit 3
fi
echo "rt: chose 4 at a time"
while read -r seconds name said; do
    await
    echo "$seconds" >"$FAKE/clock"
    printf '== %s\\n%s' "$name" "${said:+so far: 0 of 1$'\\n'$said$'\\n'}"
    rm "$FAKE/waits"
done <"$FAKE/steps"
await
touch "$FAKE/ends"
exit "$(cat "$FAKE/status")"
"""
SLEEP = """#!/usr/bin/env bash
touch "$FAKE/waits"
until [ ! -e "$FAKE/waits" ] || [ -e "$FAKE/ends" ]; do "$SLEEP" 0.01; done
[ ! -e "$FAKE/ends" ] || "$SLEEP" 0.05
"""
DATE = """#!/usr/bin/env bash
cat "$FAKE/clock"
"""
NPROC = """#!/usr/bin/env bash
cat "$FAKE/processors"
"""
PROVED = "logic=proved functions=1"


class Build(unittest.TestCase):
    """A repository of six crates, and commands beside it that the script finds in place of the true ones."""

    def setUp(self) -> None:
        folder = tempfile.TemporaryDirectory()
        self.addCleanup(folder.cleanup)
        self.top = os.path.join(folder.name, "top")
        self.fake = os.path.join(folder.name, "fake")
        os.makedirs(os.path.join(self.top, "crates", "query_cli", "src"))
        os.makedirs(os.path.join(self.top, "tools", "lib"))
        os.makedirs(self.fake)
        for name in ("deltanet", "tools/lib/build_progress.awk"):
            shutil.copy(os.path.join(TOP, name), os.path.join(self.top, name))
        for name, text in (("top/crates.txt", CRATES), ("top/tools/lib/build-weights", WEIGHTS),
                           ("top/crates/query_cli/src/main.rt", ""), ("fake/clock", "0"), ("fake/processors", "4"),
                           ("fake/rt", RT), ("fake/sleep", SLEEP), ("fake/date", DATE), ("fake/nproc", NPROC)):
            path = os.path.join(folder.name, name)
            with open(path, "w") as file:
                file.write(text)
            if name.startswith("fake"):
                os.chmod(path, 0o755)

    def run_script(self, *steps: str, status: int = 0, **files: str) -> subprocess.CompletedProcess[str]:
        """Runs the script over crates that end in these steps, each as `SECONDS NAME SAID`."""
        said = {"steps": "".join(step + "\n" for step in steps), "status": str(status), **files}
        for name, text in said.items():
            with open(os.path.join(self.fake, name), "w") as file:
                file.write(text)
        paths = os.pathsep.join((self.fake, os.environ["PATH"]))
        sleep = shutil.which("sleep") or "/bin/sleep"
        return subprocess.run([os.path.join(self.top, "deltanet"), "run", "topology"], capture_output=True, text=True,
                              env=dict(os.environ, PATH=paths, FAKE=self.fake, SLEEP=sleep), timeout=60)

    def told(self, ran: subprocess.CompletedProcess[str]) -> list[str]:
        return [line.removeprefix("deltanet: ") for line in ran.stderr.splitlines()]

    def test_each_crate_counts_by_its_weight(self) -> None:
        """A crate that isn't in the table counts as the median, 3; the longest chain is 6, 4 and 3."""
        ran = self.run_script(f"60 small {PROVED}", f"600 other {PROVED}", f"1200 low {PROVED}", f"1320 right {PROVED}",
                              f"2000 left {PROVED}", f"2600 query_cli {PROVED}")
        self.assertEqual(self.told(ran), [
            "building the program with its proofs (not timed yet)",
            "1 of 6 crates are proved, 0 percent of the work",
            "2 of 6 crates are proved, 17 percent of the work, some 33 min left",
            "3 of 6 crates are proved, 50 percent of the work, some 23 min left",
            "4 of 6 crates are proved, 61 percent of the work, some 14 min left",
            "5 of 6 crates are proved, 83 percent of the work, some 10 min left",
            "6 of 6 crates are proved, 100 percent of the work",
            "linking the program",
        ])
        self.assertEqual((ran.stdout, ran.returncode), ("ran run topology\n", 3))
        again = self.run_script(status=1)
        self.assertEqual((again.stdout, again.stderr, again.returncode), ("ran run topology\n", "", 3))

    def test_one_processor_takes_the_sum(self) -> None:
        ran = self.run_script(f"1200 low {PROVED}", f"1201 right {PROVED}", processors="1")
        self.assertEqual(self.told(ran)[1:3], [
            "1 of 6 crates are proved, 33 percent of the work, some 40 min left",
            "2 of 6 crates are proved, 44 percent of the work, some 25 min left",
        ])

    def test_crates_kept_from_before_tell_nothing_of_the_time(self) -> None:
        ran = self.run_script("1 low", "2 other", f"1200 left {PROVED}")
        self.assertEqual(self.told(ran)[1:4], [
            "1 of 6 crates are proved, 33 percent of the work",
            "2 of 6 crates are proved, 49 percent of the work",
            "3 of 6 crates are proved, 71 percent of the work, some 15 min left",
        ])

    def test_a_crate_that_fails_is_not_done(self) -> None:
        ran = self.run_script(f"60 low {PROVED}", "90 left error", "90 summary left: failed (1)", status=1)
        self.assertEqual(self.told(ran)[1:3], [
            "1 of 6 crates are proved, 33 percent of the work, some 1 min left",
            "1 of 6 crates are proved, 33 percent of the work, some 2 min left",
        ])
        self.assertIn("not proved, so not built; the whole log is", ran.stderr)
        self.assertEqual((ran.stdout, ran.returncode), ("", 70))

    def test_the_stored_weights_are_numbers(self) -> None:
        with open(os.path.join(TOP, "tools", "lib", "build-weights")) as file:
            rows = [line.split() for line in file if not line.startswith("#")]
        self.assertEqual(len(rows), len({name for name, _ in rows}))
        for _, weight in rows:
            self.assertGreater(float(weight), 0)


if __name__ == "__main__":
    unittest.main()
