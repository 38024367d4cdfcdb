"""Large, slow and broken inputs of the program, each with the status and text that it has to come to.

Each group writes its files into a folder and yields one trial after the other; a trial is run before the next is made.
"""

from __future__ import annotations

import os
import struct
from collections.abc import Callable, Iterator
from dataclasses import dataclass, field
from pathlib import Path

from chance import attribute, frame, message

LONGEST_FEED = 2 ** 30
LONGEST_TEXT = 2 ** 24
PIECE = 2 ** 15
RING = ('routers = ["r1", "r2", "r3"]\n[[link]]\nname = "a"\nends = ["r1:2", "r2:2"]\n'
        '[[link]]\nname = "b"\nends = ["r2:3", "r3:2"]\n[[edge]]\nat = "r1:1"\n')


@dataclass
class Trial:
    """A run: its name, its words after `run`, the status that is due, and the text: one of these, or where there is
    none, a report that is judged by the tools' own evaluator."""

    name: str
    words: list[str]
    status: int = 0
    texts: tuple[bytes, ...] = ()
    # The named pipes that are written byte by byte while it runs, and what comes in them.
    pipes: dict[str, bytes] = field(default_factory=dict)
    # Where the text goes: "file", "full" (/dev/full), "closed" (nowhere), or a pipe whose reader is "gone", "leaves"
    # after a byte, "leaves late" in the middle, or "reads singly", byte by byte.
    output: str = "file"
    # Whether it is run as a user who may not read all, where the tool itself is run as root.
    as_nobody: bool = False
    # Bytes of address space that it may have; then status 7 with no text is as good as what is due.
    memory: int | None = None
    # Threads that it may have.
    threads: int | None = None


def set_route(base: int, length: int, interface: int = 2) -> bytes:
    """A message that sets a route through a gateway at an interface."""
    attributes = [attribute(1, struct.pack(">I", base)), attribute(5, b"\xc0\0\2\1"),
                  attribute(4, struct.pack("<I", interface)), attribute(6, struct.pack("<I", 20))]
    return message(24, attributes, length)


ONE_ROUTE = frame([set_route(0x0A000000, 8)])


def lines(*text: str) -> bytes:
    return "".join(f"{line}\n" for line in text).encode()


def one_feed(told: str, *more: str) -> bytes:
    """The report of a run with r1's feed alone and without an update."""
    return lines(f"feed 1 r1 {told}", *more, "history 0", "job 1", "done")


def write(folder: str, name: str, text: bytes | str) -> None:
    Path(folder, name).write_bytes(text if isinstance(text, bytes) else text.encode())


# ---- feeds


def sparse_feed(folder: str, name: str, size: int, begin: bytes = b"") -> None:
    """A feed of this size: what it begins with, then frames of one message that is skipped, as long as they are."""
    head = struct.pack(">BBH", 1, 1, PIECE) + struct.pack("<IH", PIECE - 4, 16)
    with open(os.path.join(folder, name), "wb") as file:
        file.write(begin)
        for place in range(len(begin), size, PIECE):
            file.seek(place)
            file.write(head[:size - place])
        file.truncate(size)


def longest_feeds(folder: str) -> Iterator[Trial]:
    write(folder, "topology", RING)
    most = LONGEST_FEED // PIECE
    for name, size, begin, status, told in (
            ("a feed of 2^30 bytes", LONGEST_FEED, b"", 0, f"updates 0 skipped {most} refused 0 end"),
            ("one byte more", LONGEST_FEED + 1, b"", 1, f"updates 0 skipped {most} refused 0 toolong"),
            ("a frame that goes on past 2^30 bytes", LONGEST_FEED + 4, b"\1\1\0\4", 1,
             f"updates 0 skipped {most - 1} refused 0 toolong"),
            ("framing lost in a feed of more", LONGEST_FEED + 5, b"\1\1\0\4\0", 1,
             "updates 0 skipped 0 refused 0 lost 4 BadVersion")):
        sparse_feed(folder, "feed", size, begin)
        yield Trial(name, ["topology", "r1=feed"], status, (one_feed(told),))
    os.remove(os.path.join(folder, "feed"))
    yield Trial("a feed of zeros that never ends", ["topology", "r1=/dev/zero"], 1,
                (one_feed("updates 0 skipped 0 refused 0 lost 0 BadVersion"),))


def many_frames(folder: str) -> Iterator[Trial]:
    write(folder, "topology", RING)
    count = 2 ** 20
    write(folder, "feed", b"\1\1\0\4" * count)
    yield Trial("2^20 frames of 4 bytes", ["topology", "r1=feed"], 0, (one_feed("updates 0 skipped 0 refused 0 end"),))
    write(folder, "feed", b"\1\2\0\4" * count)
    refused = (f"refused offset {place} message 0 cause 14 FrameType" for place in range(0, 4 * count, 4))
    yield Trial("2^20 refused frames of 4 bytes", ["topology", "r1=feed"], 1,
                (one_feed(f"updates 0 skipped 0 refused {count} end", *refused),))


def ring_of(count: int) -> str:
    """So many routers, each with an edge at its interface 2."""
    names = ", ".join(f'"r{place}"' for place in range(1, count + 1))
    edges = "".join(f'[[edge]]\nat = "r{place}:2"\n' for place in range(1, count + 1))
    return f"routers = [{names}]\n{edges}"


def all_feeds(folder: str) -> Iterator[Trial]:
    write(folder, "topology", ring_of(64))
    for place in range(1, 65):
        write(folder, f"f{place}", b"".join(frame([set_route(place << 24 | low << 8, 24)]) for low in range(40)))
    feeds = [f"r{place}=f{place}" for place in range(1, 65)]
    write(folder, "script", "take r1 20\nloops\npath r1 1.0.0.1\ntake r64 all\nblackholes r64\ndelta\n")
    yield Trial("64 feeds at once", ["topology", *feeds])
    yield Trial("64 feeds and a script that takes two", ["topology", *feeds, "@script"])
    yield Trial("64 feeds, and no thread beside the first", ["topology", *feeds], threads=1, as_nobody=True)
    for place in range(1, 65):
        write(folder, f"f{place}", b"".join(frame([set_route(place << 24 | low << 8, 24)]) for low in range(1_000)))
    yield Trial("64 feeds at once, 1,000 updates each", ["topology", *feeds])


def cut_feeds(folder: str) -> Iterator[Trial]:
    """A frame that ends in the middle of each of its fields: 64 feeds, cut after 0 to 63 bytes."""
    write(folder, "topology", ring_of(64))
    for begin, name in ((b"", "a feed cut at each byte"), (ONE_ROUTE, "a feed cut at each byte of its second frame")):
        for place in range(64):
            write(folder, f"f{place + 1}", begin + ONE_ROUTE[:place])
        yield Trial(name, ["topology", *(f"r{place}=f{place}" for place in range(1, 65))], 1)


# ---- scripts


def long_scripts(folder: str) -> Iterator[Trial]:
    write(folder, "topology", RING)
    write(folder, "feed", ONE_ROUTE)
    words = ["topology", "@script"]
    most = 65_536
    answer = "path r1 10.0.0.1\nhops r1\nend noroute"
    write(folder, "script", "path r1 10.0.0.1\n" * most)
    told = (f"line {line} at 0 {answer}" for line in range(1, most + 1))
    yield Trial("a script of 65,536 lines", words, 0, (lines("history 0", "job 1", *told, "done"),))
    write(folder, "script", "path r1 10.0.0.1\n" * most + "#")
    yield Trial("one line more", words, 4, (lines("error script 1 line 65537 4 TooManyLines"),))
    write(folder, "script", "take r1 1\n" * most)
    history = ("feed 1 r1 updates 1 skipped 0 refused 0 end", "history 1",
               "1 feed 1 r1 set 10.0.0.0/8 metric 20 to r2 by a", "job 1", "done")
    yield Trial("65,536 lines that take", ["topology", "r1=feed", "@script"], 0, (lines(*history),))
    write(folder, "script", "#" * LONGEST_TEXT)
    empty = (lines("history 0", "job 1", "done"),)
    yield Trial("a script of 2^24 bytes", words, 0, empty)
    write(folder, "script", "#" * (LONGEST_TEXT + 1))
    yield Trial("one byte more of a script", words, 4, (lines("error script 1 line 0 5 TooLong"),))
    line = "without " + ",".join(["a"] * 505)
    write(folder, "script", line + " " * (1_018 - len(line)) + " loops")
    query = f"{line} loops"
    yield Trial("a line of 1,024 bytes", words, 0, (lines("history 0", "job 1", f"line 1 at 0 {query}", "none", "done"),))
    write(folder, "script", line + " " * (1_019 - len(line)) + " loops")
    yield Trial("a line of 1,025 bytes", words, 4, (lines("error script 1 line 1 1 BadLine"),))


# ---- topologies


def topology_of(routers: int, links: int, edges: int) -> str:
    """So many of each; links lie between a router and the next, and a router has 16 edges."""
    text = ["routers = [" + ", ".join(f'"r{place}"' for place in range(routers)) + "]"]
    for place in range(links):
        ends = f'"r{place % 1_024}:{100 + place}", "r{(place + 1) % 1_024}:{100 + place}"'
        text.append(f'[[link]]\nname = "l{place}"\nends = [{ends}]')
    text += [f'[[edge]]\nat = "r{place % 1_024}:{1 + place // 1_024}"' for place in range(edges)]
    return "\n".join(text) + "\n"


def vrfs_of_one(count: int) -> str:
    """A device with so many VRFs; each has an edge at an interface of the device, and replaces by prefix."""
    text = ['routers = ["r0"]']
    text += [f'[[vrf]]\nrouter = "r0"\ntable = {place + 1_000}\nname = "v{place}"' for place in range(count)]
    text += [f'[[edge]]\nat = "v{place}:{place + 1}"' for place in range(count)]
    text += [f'[[router]]\nname = "v{place}"\nreplace = "prefix"' for place in range(count)]
    return "\n".join(text) + "\n"


def large_topologies(folder: str) -> Iterator[Trial]:
    empty = (lines("history 0", "done"),)
    most = topology_of(1_024, 4_096, 16_384)
    for name, text, status, texts in (
            ("1,024 routers, 4,096 links, 16,384 edges", most, 0, empty),
            ("one router more", topology_of(1_025, 4_096, 16_384), 3, (lines("error topology routers 1025 9 TooMany"),)),
            ("one link more", topology_of(1_024, 4_097, 16_384), 3, (lines("error topology link 4097 9 TooMany"),)),
            ("one edge more", topology_of(1_024, 4_096, 16_385), 3, (lines("error topology edge 16385 9 TooMany"),)),
            ("1,024 routers, 1,023 of them VRFs of one", vrfs_of_one(1_023), 0, empty),
            ("one VRF more", vrfs_of_one(1_024), 3, (lines("error topology vrf 1024 9 TooMany"),)),
            ("a topology of 2^24 bytes", most + "#" * (LONGEST_TEXT - len(most)), 0, empty),
            ("one byte more of a topology", most + "#" * (LONGEST_TEXT + 1 - len(most)), 3,
             (lines("error topology top 0 10 TooLong"),)),
            ("a million lists in each other", "routers = " + "[" * 10 ** 6, 3, (lines("error topology top 0 1 NotToml"),)),
            ("a million tables in each other", "a." * 10 ** 6 + "a = 1\n", 3,
             (lines("error topology top 0 1 NotToml"), lines("error topology top 0 2 UnknownKey"))),
            ("a million keys", "".join(f"k{place} = 1\n" for place in range(10 ** 6)), 3,
             (lines("error topology top 0 2 UnknownKey"),)),
            ("a million links without a name", "routers = []\n" + "[[link]]\n" * 10 ** 6, 3,
             (lines("error topology link 1 3 MissingKey"),)),
            ("a million numbers as routers", "routers = [" + "1," * 10 ** 6 + "]\n", 3,
             (lines("error topology routers 1 3 MissingKey"),))):
        write(folder, "topology", text)
        yield Trial(name, ["topology"], status, texts)
    write(folder, "topology", most)
    write(folder, "feed", b"".join(frame([set_route(low << 8, 24, 100)]) for low in range(4_096)))
    write(folder, "script", "take r0 all\nloops\nblackholes r0\nreach r1023 r0\n")
    sets = (f"{low + 1} feed 1 r0 set 0.{low >> 8}.{low & 255}.0/24 metric 20 to r1 by l0" for low in range(4_096))
    report = lines("feed 1 r0 updates 4096 skipped 0 refused 0 end", "history 4096", *sets, "job 1",
                   "line 2 at 4096 loops", "none", "line 3 at 4096 blackholes r0", "at r0 noroute",
                   "0.16.0.0-255.255.255.255", "at r1 noroute", "0.0.0.0-0.15.255.255",
                   "line 4 at 4096 reach r1023 r0", "none", "done")
    yield Trial("queries over 1,024 routers and 4,096 prefixes", ["topology", "r0=feed", "@script"], 0, (report,))


# ---- files, pipes, output


def files_of_other_kinds(folder: str) -> Iterator[Trial]:
    write(folder, "topology", RING)
    write(folder, "feed", ONE_ROUTE)
    write(folder, "locked", ONE_ROUTE)
    os.chmod(os.path.join(folder, "locked"), 0)
    yield Trial("a directory as a feed", ["topology", "r1=."], 5,
                (one_feed("updates 0 skipped 0 refused 0 readfault"),))
    yield Trial("a directory as a script", ["topology", "r1=feed", "@."], 5, (lines("error read part 2"),))
    yield Trial("a directory as the topology", ["."], 5, (lines("error read topology"),))
    yield Trial("a feed that may not be read", ["topology", "r1=locked"], 5, (lines("error read part 1"),),
                as_nobody=True)
    yield Trial("a name of 5,000 letters", ["topology", "r1=" + "x" * 5_000], 5, (lines("error read part 1"),))


def slow_pipes(folder: str) -> Iterator[Trial]:
    write(folder, "topology", RING)
    script = b"take r1 1\npath r1 10.0.0.1\n"
    feed = ONE_ROUTE * 3
    due = (lines("feed 1 r1 updates 3 skipped 0 refused 0 end", "history 3",
                 *(f"{place} feed 1 r1 set 10.0.0.0/8 metric 20 to r2 by a" for place in (1, 2, 3)), "job 1",
                 "line 2 at 1 path r1 10.0.0.1", "hops r1 r2", "end noroute", "done"),)
    write(folder, "script", script)
    yield Trial("a feed byte by byte", ["topology", "r1=pipe", "@script"], 0, due, {"pipe": feed})
    yield Trial("a feed, a script and the topology byte by byte", ["pipe1", "r1=pipe2", "@pipe3"], 0, due,
                {"pipe1": RING.encode(), "pipe2": feed, "pipe3": script})
    yield from many_pipes(folder)
    yield Trial("a pipe whose writer goes away within a frame", ["topology", "r1=pipe"], 1,
                (one_feed("updates 0 skipped 0 refused 0 cutshort 0"),), {"pipe": ONE_ROUTE[:63]})


def many_pipes(folder: str) -> Iterator[Trial]:
    write(folder, "many", ring_of(64))
    feeds = {f"many{place}": b"".join(frame([set_route(place << 24 | low << 8, 24)]) for low in range(3))
             for place in range(1, 65)}
    parts = [f"r{place}=many{place}" for place in range(1, 65)]
    yield Trial("64 feeds at once, each byte by byte", ["many", *parts], pipes=feeds)


def broken_outputs(folder: str) -> Iterator[Trial]:
    write(folder, "topology", RING)
    write(folder, "script", "path r1 10.0.0.1\n" * 2_000)
    words = ["topology", "@script"]
    yield Trial("a report to a full disk", words, 6, (b"",), output="full")
    yield Trial("an error line to a full disk", ["nowhere"], 6, (b"",), output="full")
    yield Trial("a reader that is gone", words, 6, (b"",), output="gone")
    yield Trial("a reader that goes away after a byte", words, 6, (b"",), output="leaves")
    yield Trial("no standard output", words, 6, (b"",), output="closed")
    told = (f"line {line} at 0 path r1 10.0.0.1\nhops r1\nend noroute" for line in range(1, 2_001))
    yield Trial("a reader that takes single bytes", words, 0, (lines("history 0", "job 1", *told, "done"),),
                output="reads singly")
    write(folder, "script", "path r1 10.0.0.1\n" * 20_000)
    yield Trial("a reader that goes away after 100,000 bytes", words, 6, (b"",), output="leaves late")


def little_memory(folder: str) -> Iterator[Trial]:
    """More and more address space, from little more than a run needs that refuses its words."""
    write(folder, "topology", ring_of(8))
    for place in range(1, 9):
        write(folder, f"f{place}", b"".join(frame([set_route(place << 24 | low << 8, 24)]) for low in range(5_000)))
    words = ["topology", *(f"r{place}=f{place}" for place in range(1, 9))]
    for step in (0, 1, 4, 16, 64, 256, 1_024, 4_096, 16_384):
        yield Trial(f"{step} MiB more than a run without words has", words, memory=step * 2 ** 20)


GROUPS: dict[str, Callable[[str], Iterator[Trial]]] = {
    "longest-feeds": longest_feeds, "many-frames": many_frames, "all-feeds": all_feeds, "cut-feeds": cut_feeds,
    "long-scripts": long_scripts, "large-topologies": large_topologies, "files": files_of_other_kinds,
    "slow-pipes": slow_pipes, "outputs": broken_outputs, "little-memory": little_memory,
}
