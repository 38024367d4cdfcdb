"""The network that was recorded live: its answers are the kernels', and the tools still say what the document shows."""

from __future__ import annotations

import json
import os
import re
import tempfile
import unittest
from unittest import mock

from feed_help import TOP, plain_program, read, tool

LIVE = os.path.join(TOP, "examples", "live-triangle")
FEEDS = ["r1=r1.1.fpm", "r2=r2.1.fpm", "r3=r3.1.fpm"]
MOMENTS = ["quiet.kernel", "failed.kernel", "back.kernel"]


def text(name: str) -> str:
    return read(os.path.join(LIVE, name)).decode()


def kernel_ways() -> dict[tuple[int, str, str], tuple[list[str], str]]:
    """By moment, first router and address: the routers of the way by the kernels' words, and where it ends."""
    said: dict[tuple[int, str, str], re.Match] = {}
    owners: dict[str, str] = {}
    for moment, name in enumerate(MOMENTS):
        for line in text(name).splitlines():
            match = re.match(r"(r\d) (\S+) (?:via (\S+) )?dev (\S+) src (\S+) ", line)
            said[moment, match[1], match[2]] = match
            owners[match[5]] = match[1]
    ways = {}
    for moment, first, address in said:
        routers = [first]
        while gateway := said[moment, routers[-1], address][3]:
            routers.append(owners[gateway])
        names = {one["ifname"]: one["ifindex"] for one in json.loads(text(f"{routers[-1]}.links.json"))}
        ways[moment, first, address] = routers, f"onlink {names[said[moment, routers[-1], address][4]]}"
    return ways


class Answers(unittest.TestCase):
    def test_answers_are_the_kernels(self) -> None:
        ways = kernel_ways()
        report = text("report.txt").splitlines()
        positions: list[str] = []
        answers = 0
        for place, line in enumerate(report):
            match = re.fullmatch(r"line \d+ at (\d+) path (r\d) (\S+)", line)
            if match is None:
                continue
            if match[1] not in positions:
                positions.append(match[1])
            routers, end = ways[positions.index(match[1]), match[2], match[3]]
            self.assertEqual(report[place + 1:place + 3], [f"hops {' '.join(routers)}", f"end {end}"], line)
            answers += 1
        self.assertEqual((len(positions), answers), (3, 18))

    def test_the_failed_link_is_seen(self) -> None:
        ways = kernel_ways()
        self.assertEqual([ways[moment, "r1", "10.2.0.9"][0] for moment in range(3)],
                         [["r1", "r2"], ["r1", "r3", "r2"], ["r1", "r2"]])


class Steps(unittest.TestCase):
    """The steps of the document, from the recordings on."""

    def test_topology(self) -> None:
        names = [word for router in ("r1", "r2", "r3") for word in ("--links", f"{router}={router}.links.json")]
        ran = tool("topology", *FEEDS, *names, folder=LIVE)
        self.assertEqual((ran.status, ran.out, ran.err), (0, text("topology.toml"), ""))

    def test_check(self) -> None:
        self.assertEqual(tool("check", "topology.toml", *FEEDS, folder=LIVE).out, "nothing found in 3 feeds\n")

    def test_moments(self) -> None:
        """The take lines for the times at which the kernels were asked are those of the script."""
        takes = [line for line in text("script").splitlines() if line.startswith("take ")]
        for router in ("r1", "r2", "r3"):
            times = [word for time in ("12:54:40", "12:55:00", "12:55:20") for word in ("--at", time)]
            ran = tool("frames", f"{router}.1.fpm", *times, folder=LIVE)
            self.assertEqual([line for line in ran.lines() if line[0] != "#"],
                             [line for line in takes if line.startswith(f"take {router} ")])
            self.assertNotIn("or up to", ran.out)

    def test_the_script_is_the_one_for_these_times(self) -> None:
        ways = re.findall("'(r\\d [0-9.]+)'", read(os.path.join(TOP, "docs", "FIRST-ANSWER.md")).decode())
        words = [word for way in ways for word in ("--ask", f"path {way}")]
        words += [word for time in ("12:54:40", "12:55:00", "12:55:20") for word in ("--at", time)]
        ran = tool("moments", "topology.toml", *FEEDS, *words, "--print-script", folder=LIVE)
        self.assertEqual((ran.status, ran.out), (0, text("script")))

    def test_outputs_that_the_document_shows(self) -> None:
        document = read(os.path.join(TOP, "docs", "FIRST-ANSWER.md")).decode()
        swapped = tool("check", "topology.toml", "r1=r2.1.fpm", "r2=r1.1.fpm", "r3=r3.1.fpm", folder=LIVE).lines()[2]
        frames = tool("frames", "r1.1.fpm", folder=LIVE).lines()[17:19]
        topology, script = text("topology.toml").splitlines()[:21], text("script").splitlines()[:5]
        for shown in (topology, [swapped], frames, script):
            self.assertIn("```\n" + "\n".join(shown) + "\n```", document)

    def test_answers_over_time_that_the_document_shows(self) -> None:
        document = read(os.path.join(TOP, "docs", "FIRST-ANSWER.md")).decode()
        plain = plain_program(self.addCleanup)
        path = ("--ask", "path r1 10.2.0.9")
        for words in ((), ("--settled", *path), ("--link-states", *path, "--from", "12:54:45", "--to", "12:54:46")):
            with mock.patch.dict(os.environ, DELTANET=plain):
                ran = tool("moments", "topology.toml", *FEEDS, *words, folder=LIVE)
            self.assertIn(f"```\n{ran.out}```", document)
            if not words:
                self.assertIn(f"```\n{ran.out}```", read(os.path.join(TOP, "README.md")).decode())

    def test_the_strip_that_the_document_shows(self) -> None:
        queries = [word for query in ("loops", "path r1 10.2.0.9", "blackholes r3") for word in ("--ask", query)]
        with mock.patch.dict(os.environ, DELTANET=plain_program(self.addCleanup)):
            told = tool("moments", "topology.toml", *FEEDS, "--from", "12:54:31", "--json", *queries, folder=LIVE).out
        with tempfile.NamedTemporaryFile("w") as file:
            file.write(told)
            file.flush()
            drawn = tool("draw", "--strip", file.name).out
        self.assertEqual(drawn, read(os.path.join(TOP, "docs", "pictures", "strip.svg")).decode())


if __name__ == "__main__":
    unittest.main()
