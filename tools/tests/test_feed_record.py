"""The recorder, with real sockets on the loopback: nothing is overwritten, nothing that came is lost."""

from __future__ import annotations

import os
import shutil
import signal
import socket
import struct
import subprocess
import sys
import tempfile
import time
import unittest

from feed_help import TOOLS, TRIANGLE, read, tool

from times import read_times

FEED = read(os.path.join(TRIANGLE, "r1.fpm"))


class Recording(unittest.TestCase):
    def setUp(self) -> None:
        self.folder = tempfile.mkdtemp()
        self.addCleanup(shutil.rmtree, self.folder)
        self.recorder, self.port = self.start()

    def start(self, *, before: str = "") -> tuple[subprocess.Popen, int]:
        """A recorder at a port that the system chooses."""
        words = f'{before} exec "{sys.executable}" "{TOOLS}/record" r1 127.0.0.1:0 "{self.folder}"'
        recorder = subprocess.Popen(["bash", "-c", words], stderr=subprocess.PIPE, text=True)
        self.addCleanup(self.end, recorder)
        line = recorder.stderr.readline()
        self.assertIn("record r1: listening at 127.0.0.1:", line)
        return recorder, int(line.rpartition(":")[2])

    def end(self, recorder: subprocess.Popen) -> str:
        """Stops a recorder, as Ctrl-C does; what it said."""
        if recorder.stderr.closed:
            return ""
        recorder.send_signal(signal.SIGINT)
        said = recorder.stderr.read()
        recorder.stderr.close()
        recorder.wait(10)
        return said

    def connect(self) -> socket.socket:
        return socket.create_connection(("127.0.0.1", self.port), 10)

    def path(self, name: str) -> str:
        return os.path.join(self.folder, name)

    def wait_for(self, name: str, size: int) -> None:
        """Waits until a file has some size; what comes is to be in the file at once."""
        end = time.monotonic() + 10
        while time.monotonic() < end:
            if os.path.exists(self.path(name)) and os.path.getsize(self.path(name)) >= size:
                return
            time.sleep(0.01)
        self.fail(f"{name} has no {size} bytes")

    def test_sessions_one_after_another(self) -> None:
        for count, text in enumerate((FEED, FEED[:400], FEED[:100]), 1):
            with self.connect() as session:
                session.sendall(text)
                self.wait_for(f"r1.{count}.fpm", len(text))
                if count == 2:
                    # A session that breaks: the other side is told by a reset.
                    session.setsockopt(socket.SOL_SOCKET, socket.SO_LINGER, struct.pack("ii", 1, 0))
                if count == 3:
                    said = self.end(self.recorder)
        self.assertEqual(self.recorder.returncode, 0)
        self.assertEqual([read(self.path(f"r1.{count}.fpm")) for count in (1, 2, 3)], [FEED, FEED[:400], FEED[:100]])
        self.assertIn("r1.1.fpm: zebra ended the session: 9420 bytes, 129 frames, whole", said)
        self.assertIn("r1.2.fpm: the session broke (Connection reset by peer): 400 bytes, 6 frames, cut short inside "
                      "the frame at byte 348", said)
        self.assertIn("r1.3.fpm: stopped here: 100 bytes, 1 frames, cut short inside the frame at byte 56", said)
        self.assertTrue(said.endswith("record r1: stopped\n"))
        moments = read_times(self.path("r1.1.fpm.times"))
        self.assertEqual((moments[0].bytes, moments[-1].bytes, moments[-1].frames), (0, 9420, 129))
        self.assertEqual([read_times(self.path(f"r1.{count}.fpm.times"))[-1].end for count in (1, 2, 3)],
                         ["zebra ended the session, whole",
                          "the session broke (Connection reset by peer), cut short inside the frame at byte 348",
                          "stopped here, cut short inside the frame at byte 56"])

    def test_times_come_at_most_once_a_second(self) -> None:
        with self.connect() as session:
            begin = time.monotonic()
            for at in range(0, 800, 40):
                session.sendall(FEED[at:at + 40])
                time.sleep(0.02)
            # Nothing more comes, and still the last bytes are told when the second is over.
            self.wait_for("r1.1.fpm.times", 100)
            self.assertLess(time.monotonic() - begin, 5)
        self.end(self.recorder)
        moments = read_times(self.path("r1.1.fpm.times"))
        self.assertEqual((moments[-1].bytes, moments[-1].frames), (800, 13))
        self.assertEqual([bool(moment.end) for moment in moments], [False, False, False, True])
        self.assertGreaterEqual((moments[2].time - moments[1].time).total_seconds(), 0.9)

    def test_nothing_is_overwritten(self) -> None:
        for name in ("r1.1.fpm", "r1.2.fpm.times"):
            with open(self.path(name), "wb") as file:
                file.write(b"before")
        os.symlink("nowhere", self.path("r1.3.fpm"))
        with self.connect() as session:
            session.sendall(FEED)
            self.wait_for("r1.4.fpm", len(FEED))
        self.end(self.recorder)
        self.assertEqual((read(self.path("r1.1.fpm")), read(self.path("r1.2.fpm.times"))), (b"before", b"before"))
        self.assertEqual(sorted(os.listdir(self.folder)),
                         ["r1.1.fpm", "r1.2.fpm.times", "r1.3.fpm", "r1.4.fpm", "r1.4.fpm.times"])

    def test_two_sessions_at_once(self) -> None:
        with self.connect() as first, self.connect() as second:
            first.sendall(FEED[:500])
            self.wait_for("r1.1.fpm", 500)
            second.sendall(FEED)
            self.wait_for("r1.2.fpm", len(FEED))
            first.sendall(FEED[500:600])
            self.wait_for("r1.1.fpm", 600)
            said = self.end(self.recorder)
        self.assertEqual((read(self.path("r1.1.fpm")), read(self.path("r1.2.fpm"))), (FEED[:600], FEED))
        self.assertIn("two routers send to this port", said)

    def test_what_is_no_session_of_zebra(self) -> None:
        with self.connect():
            pass
        with self.connect() as session:
            session.sendall(b"GET / HTTP/1.1\r\n\r\n" + bytes(100000))
            self.wait_for("r1.1.fpm", 100018)
        said = self.end(self.recorder)
        self.assertIn("ended without a byte", said)
        self.assertIn("r1.1.fpm: lost 0 BadVersion: from there on it isn't frames as zebra sends them", said)
        self.assertEqual(read_times(self.path("r1.1.fpm.times"))[-1].frames, 0)

    def test_a_full_disk(self) -> None:
        self.end(self.recorder)
        self.recorder, self.port = self.start(before="ulimit -f 4;")
        with self.connect() as session:
            session.sendall(FEED)
            self.recorder.wait(10)
        said = self.recorder.stderr.read()
        self.assertIn("r1.1.fpm: File too large; the recording ends here", said)
        self.assertEqual((self.recorder.returncode, "Traceback" in said), (1, False))
        self.assertEqual(read(self.path("r1.1.fpm")), FEED[:4096])


class Words(unittest.TestCase):
    def test_errors(self) -> None:
        for words, told in ((("R", "127.0.0.1:0", "."), "record: 'R' isn't a router's name"),
                            (("r1", "127.0.0.1", "."), "this isn't ADDRESS:PORT"),
                            (("r1", "127.0.0.1:x", "."), "this isn't ADDRESS:PORT"),
                            (("r1", "localhost:2620", "."), "localhost:2620: can't listen there"),
                            (("r1", "127.0.0.1:65536", "."), "this isn't ADDRESS:PORT"),
                            (("r1", "1.2.3:4", "."), "can't listen"),
                            (("r1", "192.0.2.1:2620", "."), "192.0.2.1:2620: can't listen there: Cannot assign"),
                            (("r1", "127.0.0.1:0", "topology.toml"), "topology.toml: File exists")):
            ran = tool("record", *words)
            self.assertEqual((ran.status, ran.out), (1, ""))
            self.assertIn(told, ran.err)


if __name__ == "__main__":
    unittest.main()
