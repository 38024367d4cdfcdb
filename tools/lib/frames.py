"""Decoder of a feed: frames of FRR's Forwarding Plane Manager, and the rtnetlink messages in them.

It reads exactly what docs/FORMATS.md says: the same refusals, with the same causes and places, the same messages
skipped, the same ends of a feed. It is not proved; the program has readers of its own. A feed is streamed: nothing
here holds more of it than a frame and one piece of the file.
"""

from __future__ import annotations

import ipaddress
import struct
from collections.abc import Callable, Container, Iterator
from dataclasses import dataclass, field
from functools import lru_cache
from typing import BinaryIO, NamedTuple

LONGEST_FEED = 2 ** 30
PIECE = 1 << 16

FRAME_HEADER = 4
NETLINK = 1
NEW_ROUTE, DELETE_ROUTE = 24, 25
NEW_NEXTHOP, DELETE_NEXTHOP = 104, 105
IPV4 = 2
# Of tables: the main one, and all others.
MAIN_TABLE = 254
OTHER_TABLES = range(1, 2 ** 32)
UNICAST = 1

CAUSES = {
    "BadLength": 1, "Short": 2, "BadAttr": 3, "BadPrefixLength": 4, "SourceOrTos": 5, "NoDestination": 6,
    "HostBits": 7, "RouteType": 8, "Multipath": 9, "Encap": 10, "NextHopId": 11, "NoInterface": 12,
    "UnknownInterface": 13, "FrameType": 14, "BadVersion": 15, "BadFrameLength": 16,
}

DST, OIF, GATEWAY, PRIORITY, MULTIPATH, TABLE, VIA = 1, 4, 5, 6, 9, 15, 18
NEWDST, ENCAP_TYPE, ENCAP, NH_ID = 19, 21, 22, 30

SETTABLE_TYPES = {1: "unicast", 2: "local", 6: "blackhole", 7: "unreachable", 8: "prohibit"}
PROTOCOLS = {2: "kernel", 3: "boot", 4: "static", 11: "zebra", 186: "bgp", 187: "isis", 188: "ospf", 189: "rip",
             190: "ripng", 191: "nhrp", 192: "eigrp", 193: "ldp", 194: "sharp", 195: "pbr", 196: "zstatic",
             197: "openfabric", 198: "srte"}
KERNEL = 2
MESSAGE_TYPES = {16: "NEWLINK", 17: "DELLINK", 20: "NEWADDR", 21: "DELADDR", 24: "NEWROUTE", 25: "DELROUTE",
                 28: "NEWNEIGH", 29: "DELNEIGH", 104: "NEWNEXTHOP", 105: "DELNEXTHOP"}
FAMILIES = {2: "IPv4", 7: "bridge", 10: "IPv6", 28: "MPLS"}

# Whether a router has an interface of this number. Without a topology nothing is known of interfaces.
HasInterface = Callable[[int], bool]


class Prefix(NamedTuple):
    """A range of addresses: its lowest address and the number of leading bits that all of them share."""

    address: int
    length: int

    def __str__(self) -> str:
        return f"{_dotted(self.address.to_bytes(4, 'big'))}/{self.length}"

    def covers(self, address: int) -> bool:
        return address >> (32 - self.length) == self.address >> (32 - self.length)

    def has_host_bits(self) -> bool:
        return self.address & ((1 << (32 - self.length)) - 1) != 0


class Frame(NamedTuple):
    """A whole frame. Frames count from 1, offsets from the start of the feed; `kind` is the frame's type."""

    number: int
    offset: int
    kind: int
    payload: bytes

    @property
    def end(self) -> int:
        """The offset right after the frame."""
        return self.offset + FRAME_HEADER + len(self.payload)


@dataclass(frozen=True, slots=True)
class FeedEnd:
    """How a feed ends: end, cutshort, lost, toolong or readfault, with its place where it has one."""

    kind: str
    offset: int | None = None
    cause: str | None = None

    def __str__(self) -> str:
        """As the program's report prints it."""
        return " ".join(str(word) for word in (self.kind, self.offset, self.cause) if word is not None)


class Route(NamedTuple):
    """A message that sets or deletes a route; `at` is its place in the payload.

    A deletion without a metric, None, is of all routes of the prefix. `gateway` is None where there is neither a
    GATEWAY nor a VIA. `sender` is the netlink port that zebra wrote into the message, `table` the number of the routing
    table, 0 counting as the main one.
    """

    at: int
    is_set: bool
    prefix: Prefix
    metric: int | None
    route_type: int
    protocol: int
    gateway: str | None
    interface: int | None
    sender: int
    table: int = MAIN_TABLE

    @property
    def is_connected(self) -> bool:
        """Whether it says that the prefix is the segment at the interface itself, by zebra's or the kernel's word."""
        return (self.is_set and self.route_type == UNICAST and self.protocol == KERNEL
                and self.gateway is None and self.interface is not None)


@dataclass(frozen=True, slots=True)
class Skipped:
    """A message that concerns no IPv4 table that is read: `why` is OtherType, OtherFamily or OtherTable. With the last come
    the table, and what could be read of the route, None where its prefix couldn't."""

    at: int
    why: str
    what: str
    message_type: int
    sender: int
    table: int | None = None
    route: Route | None = None


@dataclass(frozen=True, slots=True)
class Refused:
    """A message that is refused. `route` is what could be read of it, None where its prefix couldn't."""

    at: int
    cause: str
    route: Route | None = None

    @property
    def number(self) -> int:
        return CAUSES[self.cause]


Message = Route | Skipped | Refused


class Cutter:
    """Cuts a stream that comes in pieces into frames, until the framing is lost."""

    def __init__(self) -> None:
        self._rest = b""
        self._at = 0
        self._offset = 0
        self._number = 0
        self.lost: FeedEnd | None = None

    @property
    def frames(self) -> int:
        """How many whole frames have come."""
        return self._number

    def feed(self, piece: bytes) -> Iterator[Frame]:
        """The frames that are whole with this piece. They must all be taken before the next piece comes."""
        if self.lost is None:
            self._rest, self._at = self._rest[self._at:] + piece, 0
        while self.lost is None:
            frame = self._next()
            if frame is None:
                return
            yield frame

    def finish(self) -> FeedEnd:
        """How the stream ends, where nothing comes after what was fed."""
        if self.lost is not None:
            return self.lost
        return FeedEnd("cutshort", self._offset) if self._at < len(self._rest) else FeedEnd("end")

    def _next(self) -> Frame | None:
        rest, at = self._rest, self._at
        left = len(rest) - at
        if left and rest[at] != 1:
            self._lose("BadVersion")
            return None
        if left < FRAME_HEADER:
            return None
        length = rest[at + 2] << 8 | rest[at + 3]
        if length < FRAME_HEADER:
            self._lose("BadFrameLength")
            return None
        if left < length:
            return None
        self._number += 1
        frame = Frame(self._number, self._offset, rest[at + 1], rest[at + FRAME_HEADER:at + length])
        self._at = at + length
        self._offset += length
        return frame

    def _lose(self, cause: str) -> None:
        self.lost = FeedEnd("lost", self._offset, cause)
        self._rest, self._at = b"", 0


@dataclass
class Feed:
    """The frames of a file, read once; `end` is there when the last frame has been given."""

    file: BinaryIO
    end: FeedEnd | None = None
    _cutter: Cutter = field(default_factory=Cutter)

    def __iter__(self) -> Iterator[Frame]:
        left = LONGEST_FEED
        while left > 0:
            try:
                piece = self.file.read(min(PIECE, left))
            except OSError:
                self.end = FeedEnd("readfault")
                return
            if not piece:
                break
            left -= len(piece)
            yield from self._cutter.feed(piece)
            if self._cutter.lost is not None:
                break
        self.end = self._cutter.finish()
        if left == 0 and self._cutter.lost is None and self.file.read(1):
            self.end = FeedEnd("toolong")


class Decoded(NamedTuple):
    """What a frame comes to: its routes and skipped messages in order, or the refusal of the whole frame.

    Where it is refused, `messages` are those that stand before the refused one; the program counts none of them.
    """

    messages: list[Route | Skipped]
    refused: Refused | None = None

    @property
    def updates(self) -> list[Route]:
        """The updates that the program takes from the frame: none where it is refused."""
        if self.refused is not None:
            return []
        return [message for message in self.messages if isinstance(message, Route)]


# What most frames are: one message with these attributes in this order, each of four bytes. The size of the payload, how it
# is unpacked, and what stands in it whatever the route: the size, the type, the family, no source length and type of service,
# and the heads of the attributes.
NO_SOURCE = bytes(2)
HOST_BITS = [(1 << (32 - length)) - 1 for length in range(33)]
HEADS = {kind: struct.pack("<HH", 8, kind) for kind in (DST, PRIORITY, GATEWAY, OIF)}
USUAL = {
    44: (struct.Struct("<IH6xIBB2sBBxB4x4s4s4sI"), (44, DELETE_ROUTE, IPV4, NO_SOURCE, HEADS[DST], HEADS[PRIORITY])),
    52: (struct.Struct("<IH6xIBB2sBBxB4x4s4s4sI4sI"),
         (52, NEW_ROUTE, IPV4, NO_SOURCE, HEADS[DST], HEADS[PRIORITY], HEADS[OIF])),
    60: (struct.Struct("<IH6xIBB2sBBxB4x4s4s4sI4s4s4sI"),
         (60, NEW_ROUTE, IPV4, NO_SOURCE, HEADS[DST], HEADS[PRIORITY], HEADS[GATEWAY], HEADS[OIF])),
}
# A change is mostly a deletion of the usual form, and then a set.
DELETION = 44


def _usual_change(payload: bytes, has_interface: HasInterface | None,
                  tables: Container[int] = ()) -> list[Route | Skipped] | None:
    """The two routes of a payload that is a deletion and a set of the usual forms, both accepted; None of all others."""
    if len(payload) - DELETION not in USUAL:
        return None
    first = _usual_route(payload[:DELETION], None, tables)
    second = None if first is None else _usual_route(payload[DELETION:], has_interface, tables, DELETION)
    return None if second is None else [first, second]


def _usual_route(payload: bytes, has_interface: HasInterface | None, tables: Container[int] = (),
                 at: int = 0) -> Route | None:
    """The route of a payload that is one message of the usual forms and is accepted; None of all others, which are read
    attribute by attribute. `at` is its place in the frame's payload."""
    form = USUAL.get(len(payload))
    if form is None:
        return None
    size, kind, sender, family, length, source, table, protocol, route_type, head, address, next_head, metric, *rest = (
        form[0].unpack(payload))
    table = table or MAIN_TABLE
    if (size, kind, family, source, head, next_head, *rest[::2]) != form[1] or length > 32:
        return None
    if table != MAIN_TABLE and table not in tables:
        return None
    prefix = Prefix(int.from_bytes(address, "big"), length)
    if prefix.address & HOST_BITS[length]:
        return None
    if kind == DELETE_ROUTE:
        return Route(at, False, prefix, metric, route_type, protocol, None, None, sender, table)
    interface = rest[-1]
    if route_type != UNICAST or has_interface is not None and not has_interface(interface):
        return None
    gateway = _dotted(rest[1]) if len(rest) == 4 else None
    return Route(at, True, prefix, metric, UNICAST, protocol, gateway, interface, sender, table)


def decode(frame: Frame, has_interface: HasInterface | None = None, tables: Container[int] = ()) -> Decoded:
    """What a frame comes to. Without `has_interface` no interface is unknown. Of routes those of the main table are read,
    and those of these tables."""
    if frame.kind == NETLINK and (usual := _usual_route(frame.payload, has_interface, tables)) is not None:
        return Decoded([usual])
    if frame.kind == NETLINK and (change := _usual_change(frame.payload, has_interface, tables)) is not None:
        return Decoded(change)
    if frame.kind != NETLINK:
        return Decoded([], Refused(0, "FrameType"))
    messages: list[Route | Skipped] = []
    for message in read_messages(frame.payload, has_interface, tables):
        if isinstance(message, Refused):
            return Decoded(messages, message)
        messages.append(message)
    return Decoded(messages)


def read_messages(payload: bytes, has_interface: HasInterface | None = None,
                  tables: Container[int] = ()) -> Iterator[Message]:
    """All messages of a payload, each by itself: it goes on after a refused one, as long as lengths allow."""
    at = 0
    while len(payload) - at >= 4:
        left = len(payload) - at
        length = int.from_bytes(payload[at:at + 4], "little") if left >= 16 else 0
        if left < 16 or length < 16 or length > left:
            yield Refused(at, "BadLength")
            return
        yield _read_message(payload[at:at + length], at, has_interface, tables)
        at += _rounded(length)


def _read_message(text: bytes, at: int, has_interface: HasInterface | None, tables: Container[int]) -> Message:
    """One message of at least 16 bytes. Its checks stand in the order in which they decide."""
    message_type, sender = struct.unpack_from("<4xH6xI", text)
    if message_type not in (NEW_ROUTE, DELETE_ROUTE):
        what = MESSAGE_TYPES.get(message_type, f"message of type {message_type}")
        return Skipped(at, "OtherType", what, message_type, sender)
    if len(text) < 28:
        return Refused(at, "Short")
    is_set = message_type == NEW_ROUTE
    family, length, source_length, tos = text[16:20]
    if family != IPV4:
        what = f"{MESSAGE_TYPES[message_type]} of {FAMILIES.get(family, f'family {family}')}"
        return Skipped(at, "OtherFamily", what, message_type, sender)
    attributes = _read_attributes(text[28:], is_set)
    if attributes is None:
        return Refused(at, "BadAttr")
    route = _read_route(text, at, attributes) if length <= 32 else None
    table = _table(text, attributes)
    if table != MAIN_TABLE and table not in tables:
        what = f"{MESSAGE_TYPES[message_type]} of table {table}"
        return Skipped(at, "OtherTable", what, message_type, sender, table, route)
    if length > 32:
        return Refused(at, "BadPrefixLength")
    cause = _refusal(route, source_length, tos, attributes, has_interface)
    if cause is not None or route is None:
        return Refused(at, cause or "NoDestination", route)
    return route


def _read_route(text: bytes, at: int, attributes: dict[int, bytes]) -> Route | None:
    """What a message says of a route; None where its prefix has a length and no address."""
    message_type, sender = struct.unpack_from("<4xH6xI", text)
    length, protocol, route_type = text[17], text[21], text[23]
    if DST not in attributes and length > 0:
        return None
    is_set = message_type == NEW_ROUTE
    prefix = Prefix(int.from_bytes(attributes.get(DST, bytes(4)), "big"), length)
    metric = _number(attributes, PRIORITY, 0 if is_set else None)
    interface = _number(attributes, OIF, None) if is_set else None
    return Route(at, is_set, prefix, metric, route_type, protocol, _gateway(attributes), interface, sender,
                 _table(text, attributes))


def _table(text: bytes, attributes: dict[int, bytes]) -> int:
    """The number of a route's table: that of the attribute, or else of the fixed part; 0 counts as the main one."""
    return _number(attributes, TABLE, text[20]) or MAIN_TABLE


def _refusal(route: Route | None, source_length: int, tos: int, attributes: dict[int, bytes],
             has_interface: HasInterface | None) -> str | None:
    """The first cause to refuse a message whose attributes and prefix length are sound; None where it stands."""
    if source_length != 0 or tos != 0:
        return "SourceOrTos"
    if route is None:
        return "NoDestination"
    if route.prefix.has_host_bits():
        return "HostBits"
    if not route.is_set:
        return None
    if route.route_type not in SETTABLE_TYPES:
        return "RouteType"
    if MULTIPATH in attributes:
        return "Multipath"
    if NEWDST in attributes or ENCAP_TYPE in attributes or ENCAP in attributes:
        return "Encap"
    if NH_ID in attributes:
        return "NextHopId"
    if route.route_type != UNICAST:
        return None
    if route.interface is None:
        return "NoInterface"
    if has_interface is not None and not has_interface(route.interface):
        return "UnknownInterface"
    return None


def _read_attributes(text: bytes, is_set: bool) -> dict[int, bytes] | None:
    """The attributes by type, of a repeated one the last; None where one of them is broken."""
    numbers = (DST, PRIORITY, TABLE, OIF) if is_set else (DST, PRIORITY, TABLE)
    attributes: dict[int, bytes] = {}
    at = 0
    while len(text) - at >= 4:
        length, attribute_type = struct.unpack_from("<HH", text, at)
        if length < 4 or length > len(text) - at:
            return None
        attribute_type &= 0x3FFF
        if attribute_type in numbers and length != 8:
            return None
        attributes[attribute_type] = text[at + 4:at + length]
        at += _rounded(length)
    return attributes


def _number(attributes: dict[int, bytes], attribute_type: int, absent: int | None) -> int | None:
    value = attributes.get(attribute_type)
    return absent if value is None else int.from_bytes(value, "little")


def _gateway(attributes: dict[int, bytes]) -> str | None:
    """The next hop's address as text. Its form decides nothing, so an odd one is printed byte by byte."""
    address = attributes.get(GATEWAY)
    if address is None and VIA in attributes:
        address = attributes[VIA][2:]
    if address is None:
        return None
    if len(address) == 4:
        return _dotted(address)
    return str(ipaddress.IPv6Address(address)) if len(address) == 16 else address.hex() or "empty"


@lru_cache(maxsize=2**12)
def _dotted(address: bytes) -> str:
    return ".".join(map(str, address))


def _rounded(length: int) -> int:
    return (length + 3) & ~3
