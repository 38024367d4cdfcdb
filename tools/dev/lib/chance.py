"""Runs of `deltanet` made by chance: networks, feeds, scripts and words, most of them sound and some spoiled.

A number fixes a run. The feeds are made here, or are cut from recordings of FRR; then bits are turned, bytes cut or
put in, frames doubled, lengths changed, streams joined.
"""

from __future__ import annotations

import struct
from collections.abc import Callable
from dataclasses import dataclass, field
from pathlib import Path
from random import Random

from frames import Cutter
from network import MAIN_TABLE, Network, parse_topology
from report import address_text

TOP = Path(__file__).resolve().parents[3]
RECORDED = ("triangle-ospf", "live-triangle", "data-centre", "vrfs")
MOST_FRAMES = 30
MOST_LINES = 14
MOST_MADE_SCRIPTS = 4

BASES = (0, 0x0A000000, 0x0A000080, 0x0A000100, 0x0A010000, 0x0A020000, 0xAC100300, 0x80000000, 0xFFFFFF00, 0xFFFFFFFF)
LENGTHS = (0, 1, 8, 8, 16, 16, 24, 24, 25, 31, 32)
METRICS = (None, 0, 20, 20, 2 ** 32 - 1)
TABLES = (1, 10, 253, 255, 256, 2 ** 32 - 1)
ODD_BYTES = (0, 1, 2, 3, 4, 5, 8, 15, 16, 24, 25, 28, 32, 33, 127, 128, 253, 254, 255)
# What may stand at a key of a topology, mostly not where it does.
ODD_VALUES = ("0", "1", "254", "4294967296", "1e1", "true", '"key"', '"all"', '"r1"', '"v-10"', '"r9"', '"R"', '"r1:1"', '"v-10:1"',
              "[]", '["r1:2", "v-10:3"]')
ODD_LETTERS = "rab019:\"'[]=\n, #{}\\\t\r-@./\x00\xe9"


@dataclass
class Case:
    """The words of a run, from `run` on, and the files that they name."""

    words: list[str]
    files: dict[str, bytes] = field(default_factory=dict)


@dataclass
class Draft:
    """A run before it is spoiled: its network, and the bytes of each router's feed."""

    network: Network
    topology: bytes
    feeds: dict[str, bytes]


def made_case(number: int, most_scripts: int) -> Case:
    """The run of this number, with at most so many scripts."""
    source = Random(number)
    draft = recorded_draft(source) if source.random() < 0.3 else made_draft(source)
    topology = spoiled_topology(source, draft.topology) if source.random() < 0.15 else draft.topology
    files = {"topology": topology}
    parts = []
    for router, feed in draft.feeds.items():
        files[f"{router}.fpm"] = spoiled_feed(source, feed, draft.feeds) if source.random() < 0.4 else feed
        parts.append(f"{router}={router}.fpm")
    for place, script in enumerate(made_scripts(source, draft, most_scripts)):
        files[f"script{place}"] = spoiled_text(source, script) if source.random() < 0.08 else script
        parts.append(f"@script{place}")
    source.shuffle(parts)
    # A part that begins with - is taken for an option, but after --.
    marks = ["--"] if any(part.startswith("-") for part in parts) and source.random() < 0.9 else []
    words = ["run", "topology", *marks, *parts]
    return Case(spoiled_words(source, words) if source.random() < 0.08 else words, files)


# ---- networks and feeds


def recorded_draft(source: Random) -> Draft:
    """A network of the examples with pieces of its recordings."""
    folder = TOP / "examples" / source.choice(RECORDED)
    topology = (folder / "topology.toml").read_bytes()
    feeds = {path.name.split(".")[0]: some_frames(source, path.read_bytes()) for path in sorted(folder.glob("*.fpm"))}
    return Draft(parse_topology(topology), topology, feeds)


def some_frames(source: Random, feed: bytes) -> bytes:
    """Some frames of a recording that follow each other."""
    frames = frames_of(feed)
    count = source.randint(1, MOST_FRAMES)
    first = source.randrange(max(1, len(frames) - count + 1))
    return b"".join(frames[first:first + count])


def frames_of(feed: bytes) -> list[bytes]:
    return [feed[frame.offset:frame.end] for frame in Cutter().feed(feed)]


def made_draft(source: Random) -> Draft:
    """A network of one to six devices, some with VRFs, and a feed for most of them."""
    devices = [name for name in ("r1", "r2", "a", "-", "x_9", "n" * 32) if source.random() < 0.8] or ["r1"]
    device_of = dict(zip(devices, devices))
    taken = dict.fromkeys(devices, 0)

    def new_end(router: str) -> str:
        taken[device_of[router]] += source.choice((1, 1, 1, 300))
        return f"{router}:{taken[device_of[router]]}"

    lines = ["routers = [" + ", ".join(f'"{name}"' for name in devices) + "]"]
    for table in source.sample(TABLES, source.choice((0, 0, 1, 2))):
        device, name = source.choice(devices), f"v-{table}"
        device_of[name] = device
        lines += ["[[vrf]]", f'router = "{device}"', f"table = {table}", f'name = "{name}"']
    names = list(device_of)
    for place in range(source.randrange(2 * len(names)) if len(names) > 1 else 0):
        ends = ", ".join(f'"{new_end(router)}"' for router in source.sample(names, 2))
        lines += ["[[link]]", f'name = "l{place}"', f"ends = [{ends}]"]
        lines += [f"unnumbered = {source.choice(('true', 'false'))}"] if source.random() < 0.5 else []
    for router in names:
        lines += ["[[edge]]", f'at = "{new_end(router)}"'] if source.random() < 0.7 else []
    for router in names:
        replace = source.choice((['replace = "prefix"'], ['replace = "prefix"'], ['replace = "key"'], []))
        lines += ["[[router]]", f'name = "{router}"', *replace] if source.random() < 0.15 else []
    text = ("\n".join(lines) + "\n").encode()
    network = parse_topology(text)
    feeds = {router: made_feed(source, network, router) for router in devices if source.random() < 0.85}
    return Draft(network, text, feeds)


def made_feed(source: Random, network: Network, router: str) -> bytes:
    """Sets and deletions of prefixes that lie in each other, and some other messages."""
    interfaces = network.interfaces(router) or [1]
    tables = [MAIN_TABLE, *network.tables(router)]
    frames = []
    for _ in range(source.randrange(MOST_FRAMES)):
        messages = [made_message(source, interfaces, tables) for _ in range(source.choice((1, 1, 1, 2, 3, 0)))]
        frames.append(frame(messages, bytes(source.choice((0, 0, 0, 1, 3)))))
    return b"".join(frames)


def made_message(source: Random, interfaces: list[int], tables: list[int]) -> bytes:
    if source.random() < 0.08:
        return odd_message(source)
    length = source.choice(LENGTHS)
    base = source.choice(BASES) >> (32 - length) << (32 - length)
    attributes = [attribute(1, struct.pack(">I", base))]
    metric = source.choice(METRICS)
    attributes += [] if metric is None else [attribute(6, struct.pack("<I", metric))]
    table = source.choice(tables) if source.random() < 0.97 else source.choice(TABLES)
    attributes += [attribute(15, struct.pack("<I", table))] if table > 255 else []
    byte = 0 if table > 255 else table
    if source.random() < 0.3:
        return message(25, attributes, length, table=byte)
    attributes += [attribute(5, b"\xc0\0\2\1")] if source.random() < 0.7 else []
    attributes += [attribute(4, struct.pack("<I", source.choice(interfaces)))]
    source.shuffle(attributes)
    return message(24, attributes, length, table=byte, kind=source.choice((1, 1, 1, 1, 1, 2, 6, 7, 8)))


def odd_message(source: Random) -> bytes:
    """A message that is skipped or refused."""
    odd = attribute(source.choice((9, 15, 18, 19, 21, 22, 30)), source.choice((bytes(4), b"\xfe\0\0\0", b"", bytes(7))))
    return message(source.choice((16, 24, 24, 25, 104)), [odd], source.choice((0, 0, 0, 8, 33)),
                   family=source.choice((2, 2, 10)), table=source.choice((254, 254, 0, 10, 100)),
                   kind=source.choice((1, 3, 6)))


def attribute(number: int, payload: bytes) -> bytes:
    return struct.pack("<HH", 4 + len(payload), number) + payload + bytes(-len(payload) % 4)


def message(number: int, attributes: list[bytes], length: int, family: int = 2, table: int = 254,
            kind: int = 1) -> bytes:
    body = struct.pack("<8BI", family, length, 0, 0, table, 11, 0, kind, 0) + b"".join(attributes)
    return struct.pack("<IHHII", 16 + len(body), number, 0x0501, 0, 0) + body


def frame(messages: list[bytes], padding: bytes = b"") -> bytes:
    payload = b"".join(messages) + padding
    return struct.pack(">BBH", 1, 1, 4 + len(payload)) + payload


# ---- scripts


def made_scripts(source: Random, draft: Draft, most: int) -> list[bytes]:
    """Scripts that share the feeds among them; one may take another's by chance."""
    count = min(most, source.choice((0, 1, 1, 2, 3, MOST_MADE_SCRIPTS)))
    shares: list[list[str]] = [[] for _ in range(count)]
    for router in draft.feeds:
        if shares and source.random() < 0.85:
            source.choice(shares).append(router)
    if count > 1 and source.random() < 0.03:
        shares[0] += shares[1]
    return [made_script(source, draft.network, share) for share in shares]


def made_script(source: Random, network: Network, takes: list[str]) -> bytes:
    lines = []
    for _ in range(source.randrange(MOST_LINES)):
        if source.random() < 0.25:
            lines.append(f"{source.choice(('down', 'down', 'up'))} {made_link(source, network)}")
        elif takes and source.random() < 0.5:
            router = source.choice(network.routers if source.random() < 0.01 else takes)
            lines.append(f"take {router} {source.choice((1, 1, 2, 3, 7, 'all', 2 ** 32 - 1))}")
        else:
            lines.append(made_query(source, network))
        if source.random() < 0.1:
            lines.append(source.choice(("", "# a note", " \t\r", "#")))
    return (source.choice(("\n", "\n", "\r\n", " \n\t")).join(lines) + source.choice(("", "\n", "\n\n"))).encode()


def made_query(source: Random, network: Network) -> str:
    def router() -> str:
        return "r99" if source.random() < 0.02 else source.choice(network.routers)

    def link() -> str:
        return made_link(source, network)

    address = source.choice(BASES) + source.choice((0, 1, 127, 128, 255, 256, 65_535, 2 ** 24))
    query = source.choice((
        "delta", "loops", f"path {router()} {address_text(address % 2 ** 32)}", f"reach {router()} {router()}",
        f"uses {link()}", f"blackholes {router()}", f"waypoint {router()} {router()} {router()}"))
    if query == "delta" or source.random() < 0.6:
        return query
    return f"without {','.join(link() for _ in range(source.randint(1, 3)))} {query}"


def made_link(source: Random, network: Network) -> str:
    """The name of a link, now and then of one that isn't there."""
    return "l99" if not network.links or source.random() < 0.02 else source.choice(network.links).name


# ---- what spoils


def spoiled_feed(source: Random, feed: bytes, feeds: dict[str, bytes]) -> bytes:
    """The feed with one to four changes."""
    others = list(feeds.values())
    for _ in range(source.choice((1, 1, 1, 2, 4))):
        feed = source.choice(SPOILERS)(source, feed) if source.random() < 0.9 else feed + source.choice(others)
    return feed


def turn_bits(source: Random, feed: bytes) -> bytes:
    turned = bytearray(feed)
    for _ in range(source.randint(1, 6) if turned else 0):
        turned[source.randrange(len(turned))] ^= 1 << source.randrange(8)
    return bytes(turned)


def put_odd_byte(source: Random, feed: bytes) -> bytes:
    return write_at(feed, source.randrange(len(feed) + 1), bytes([source.choice(ODD_BYTES)]))


def cut_bytes(source: Random, feed: bytes) -> bytes:
    place = source.randrange(len(feed) + 1)
    return feed[:place] + feed[place + source.choice((1, 2, 4, 16, 64)):]


def insert_bytes(source: Random, feed: bytes) -> bytes:
    place = source.randrange(len(feed) + 1)
    return feed[:place] + source.randbytes(source.choice((1, 2, 4, 16))) + feed[place:]


def cut_end(source: Random, feed: bytes) -> bytes:
    return feed[:source.randrange(len(feed) + 1)]


def double_frame(source: Random, feed: bytes) -> bytes:
    return with_frame(source, feed, lambda one: one + one)


def drop_frame(source: Random, feed: bytes) -> bytes:
    return with_frame(source, feed, lambda one: b"")


def change_frame_length(source: Random, feed: bytes) -> bytes:
    length = source.choice((0, 3, 4, 5, 19, 20, 65_535, source.randrange(65_536)))
    return with_frame(source, feed, lambda one: write_at(one, 2, struct.pack(">H", length)))


def change_frame_type(source: Random, feed: bytes) -> bytes:
    return with_frame(source, feed, lambda one: write_at(one, source.randrange(2), bytes([source.choice(ODD_BYTES)])))


def change_message_length(source: Random, feed: bytes) -> bytes:
    def changed(one: bytes) -> bytes:
        length = source.choice((0, 15, 16, 27, 28, 29, len(one) - 4, len(one) - 3, len(one) - 5, 2 ** 32 - 1))
        return write_at(one, 4, struct.pack("<I", length & 0xFFFFFFFF))

    return with_frame(source, feed, changed)


def change_attribute(source: Random, feed: bytes) -> bytes:
    """Another length or type of the first attribute of a frame's first message, or of what stands in its place."""
    number = struct.pack("<H", source.choice((0, 3, 4, 5, 7, 8, 9, 12, 15, 18, 30, 0x8001, 0x4006, 65_535)))
    return with_frame(source, feed, lambda one: write_at(one, source.choice((32, 34, 40, 42, 48, 50)), number))


def with_frame(source: Random, feed: bytes, change: Callable[[bytes], bytes]) -> bytes:
    """The feed with one of its frames changed."""
    frames = frames_of(feed)
    if not frames:
        return feed
    place = source.randrange(len(frames))
    rest = feed[sum(map(len, frames)):]
    return b"".join(frames[:place]) + change(frames[place]) + b"".join(frames[place + 1:]) + rest


def write_at(text: bytes, place: int, written: bytes) -> bytes:
    return text[:place] + written + text[place + len(written):] if place + len(written) <= len(text) else text


SPOILERS = (turn_bits, turn_bits, put_odd_byte, cut_bytes, insert_bytes, cut_end, double_frame, drop_frame,
            change_frame_length, change_frame_type, change_message_length, change_attribute)


def spoiled_topology(source: Random, text: bytes) -> bytes:
    """A topology with some letters or lines changed, or with another value at one of its keys."""
    lines = text.split(b"\n")
    keys = [place for place, line in enumerate(lines) if b" = " in line]
    if not keys or source.random() < 0.5:
        return spoiled_text(source, text)
    place = source.choice(keys)
    lines[place] = lines[place].partition(b" = ")[0] + b" = " + source.choice(ODD_VALUES).encode()
    return b"\n".join(lines)


def spoiled_text(source: Random, text: bytes) -> bytes:
    """A topology or script with some letters or lines changed."""
    for _ in range(source.choice((1, 1, 2, 3))):
        place = source.randrange(len(text) + 1)
        lines = text.split(b"\n")
        line = source.randrange(len(lines))
        text = source.choice((
            text[:place] + source.choice(ODD_LETTERS).encode() + text[place + source.randrange(2):],
            text[:place] + text[place + source.choice((1, 2, 8)):],
            text[:place] + source.randbytes(source.choice((1, 3))) + text[place:],
            b"\n".join(lines[:line] + lines[line + 1:]),
            b"\n".join(lines[:line + 1] + lines[line:]),
            b"\n".join(lines[:line] + [lines[line] + b" " * source.choice((1, 1_024))] + lines[line + 1:]),
            b"\n".join(lines[:line] + [source.choice(lines)] + lines[line + 1:]),
        ))
    return text


def spoiled_words(source: Random, words: list[str]) -> list[str]:
    """The words with one more, one less, one twice, or a slip in one of them."""
    words = list(words)
    place = source.randrange(len(words))
    letter = source.randrange(len(words[place]) + 1)
    change = source.randrange(5)
    if change == 0:
        del words[place]
    elif change == 1:
        words.insert(place, words[place])
    elif change == 2:
        words.insert(place, source.choice((
            "", "-", "--", "-x", "--help", "@", "=", "r1=", "@nowhere", "r1=nowhere", "r1=.", "@.", ".", "r9=topology",
            "v-10=topology", "r1=topology", "@topology", "x", "run", "\udcff", "r1=\udcff", "R1=x", "n=\N{SNOWMAN}",
            "n" * 33 + "=x")))
    elif change == 3:
        words[place] = words[place][:letter] + source.choice("r=@-./ \xe9") + words[place][letter:]
    else:
        words[place] = words[place][:letter] + words[place][letter + 1:]
    return words
