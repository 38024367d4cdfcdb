"""The topology file: routers, VRFs, links, edges and marks, or its first fault.

The rules and the order of the faults are those of docs/FORMATS.md. The program has a proved reader of its own; this
one is not proved and serves the tools alone.
"""

from __future__ import annotations

import re
import tomllib
from collections.abc import Container
from dataclasses import dataclass, field
from functools import lru_cache
from typing import Any

from toml_newer import in_older_toml

LONGEST_FILE = 16_777_216
MOST_ROUTERS = 1_024
MOST_LINKS = 4_096
MOST_EDGES = 16_384
LARGEST_INTERFACE = 2_147_483_647
LARGEST_TABLE = 4_294_967_295
MAIN_TABLE = 254

NAME = re.compile(r"[a-z0-9_-]{1,32}", re.ASCII)
END = re.compile(r"([a-z0-9_-]{1,32}):([1-9][0-9]{0,9})", re.ASCII)

CAUSES = {
    "NotToml": 1, "UnknownKey": 2, "MissingKey": 3, "BadName": 4, "TwiceNamed": 5,
    "BadEnd": 6, "EndTwice": 7, "SelfLink": 8, "TooMany": 9, "TooLong": 10,
    "BadReplace": 11, "TwiceMarked": 12, "NoSuchRouter": 13, "BadTable": 14, "TableTwice": 15,
}
# What stands at the top, and the lists among it that may be absent.
TOP_KEYS = ("routers", "vrf", "link", "edge", "router")
SECTIONS = TOP_KEYS[1:]
# How a router replaces routes: those of the prefix and metric that is set, or all of the prefix.
BY_KEY, BY_PREFIX = "key", "prefix"

# A router's name and the number of one of its interfaces.
End = tuple[str, int]


class TopologyFault(Exception):
    """The first fault of a topology file.

    `part` is top, routers, vrf, link, edge or router; `entry` counts from 1 within the part and is 0 at the top; `number` and
    `cause` are those of the program's error line; `why` says in words what is wrong; `line` is the line of the file
    where the entry begins, or where TOML breaks, as far as it is known, and `column` likewise.
    """

    def __init__(self, part: str, entry: int, cause: str, why: str,
                 line: int | None = None, column: int | None = None) -> None:
        super().__init__(why)
        self.part = part
        self.entry = entry
        self.cause = cause
        self.number = CAUSES[cause]
        self.why = why
        self.line = line
        self.column = column

    def error_line(self) -> str:
        """The line that the program prints for this fault."""
        return f"error topology {self.part} {self.entry} {self.number} {self.cause}"

    def __str__(self) -> str:
        place = "" if self.line is None else f"line {self.line}: "
        entry = "" if self.entry == 0 else f" {self.entry}"
        return f"{place}{self.part}{entry}: {self.cause}: {self.why}"


@dataclass(frozen=True)
class Vrf:
    """Another routing table of a device, which is a router of its own name; its routes come in the device's feed."""

    name: str
    device: str
    table: int


@dataclass(frozen=True)
class Link:
    """A link between two routers; `ends` has two ends, in the order of the file."""

    name: str
    ends: list[End]
    unnumbered: bool = False


@dataclass(frozen=True)
class Port:
    """What an interface of a router is: the end of a link to `far`, or an edge, where `link` and `far` are None."""

    link: str | None = None
    far: str | None = None
    unnumbered: bool = False

    @property
    def is_edge(self) -> bool:
        return self.link is None


@dataclass
class Network:
    """Routers, links and edges, each in the order of the file. The routers are the devices and, after them, the VRFs; those
    that are marked replace by prefix."""

    routers: list[str]
    links: list[Link]
    edges: list[End]
    vrfs: list[Vrf] = field(default_factory=list)
    marked: frozenset[str] = frozenset()
    _ports: dict[End, Port] = field(default_factory=dict, repr=False, compare=False)
    _devices: dict[str, str] = field(default_factory=dict, repr=False, compare=False)

    def __post_init__(self) -> None:
        self._devices.update((vrf.name, vrf.device) for vrf in self.vrfs)
        for link in self.links:
            first, second = link.ends
            self._ports[self.at_device(first)] = Port(link.name, second[0], link.unnumbered)
            self._ports[self.at_device(second)] = Port(link.name, first[0], link.unnumbered)
        for end in self.edges:
            self._ports[self.at_device(end)] = Port()

    @property
    def devices(self) -> list[str]:
        """The routers that may have a feed."""
        return self.routers[:len(self.routers) - len(self.vrfs)]

    def device_of(self, router: str) -> str:
        """The device whose routing table a router is; a device is its own."""
        return self._devices.get(router, router)

    def at_device(self, end: End) -> End:
        """The same interface, named by its device: a device and its VRFs share one space of numbers."""
        return self.device_of(end[0]), end[1]

    def tables(self, device: str) -> dict[int, str]:
        """The VRFs of a device by their tables' numbers."""
        return {vrf.table: vrf.name for vrf in self.vrfs if vrf.device == device}

    def table_of(self, router: str) -> int:
        """The number of a router's table, in the feed of its device."""
        return next((vrf.table for vrf in self.vrfs if vrf.name == router), MAIN_TABLE)

    def port(self, router: str, index: int) -> Port | None:
        """What the interface `index` of a router's device is; None where the topology doesn't have it."""
        return self._ports.get(self.at_device((router, index)))

    def interfaces(self, router: str) -> list[int]:
        """The numbers of the interfaces of the router's device, in ascending order."""
        return sorted(index for name, index in self._ports if name == self.device_of(router))


def text_of(end: End) -> str:
    """An end as the topology file writes it."""
    return f"{end[0]}:{end[1]}"


def is_interface(index: int) -> bool:
    """Whether a topology can have an interface of this number."""
    return 1 <= index <= LARGEST_INTERFACE


def is_name(text: str) -> bool:
    """Whether a text is a name: 1 to 32 of a to z, 0 to 9, _ and -."""
    return NAME.fullmatch(text) is not None


def nearest_name(text: str) -> str:
    """A name near to a text that isn't one, in words for an error."""
    name = re.sub(r"[^a-z0-9_-]+", "-", text.lower()).strip("-")[:32]
    return f"; {name} would be one" if is_name(name) and name != text else ""


def read_topology(path: str) -> Network:
    """Reads a topology file. Raises TopologyFault with its first fault, or OSError."""
    with open(path, "rb") as file:
        return parse_topology(file.read(LONGEST_FILE + 1))


@lru_cache(maxsize=4)
def parse_topology(text: bytes) -> Network:
    """What the bytes of a topology file say; the last few are kept. Raises TopologyFault with the first fault."""
    if len(text) > LONGEST_FILE:
        raise TopologyFault("top", 0, "TooLong", f"the file has more than {LONGEST_FILE} bytes")
    document = _read_document(text)
    _check_top(document)
    reader = _EntryReader(text.decode())
    devices = [reader.router(entry, value) for entry, value in enumerate(document["routers"], 1)]
    vrfs, links, edges, marks = ([read(entry, value) for entry, value in enumerate(document.get(key, []), 1)]
                                 for key, read in zip(SECTIONS, (reader.vrf, reader.link, reader.edge, reader.mark)))
    marked = frozenset(router for router, replace in marks if replace == BY_PREFIX)
    return Network(devices + [vrf.name for vrf in vrfs], links, edges, vrfs, marked)


def line_of_entry(text: str, part: str, entry: int) -> int | None:
    """The line on which an entry of a part begins, where it is written in the usual way (`[[link]]`)."""
    if part == "routers":
        begins = [line for line, words in enumerate(text.split("\n"), 1) if re.match(r"\s*routers\s*=", words)]
        return begins[0] if begins else None
    head = re.compile(r"\s*\[\[\s*" + part + r"\s*\]\]")
    begins = [line for line, words in enumerate(text.split("\n"), 1) if head.match(words)]
    return begins[entry - 1] if 0 < entry <= len(begins) else None


def _read_document(text: bytes) -> dict[str, Any]:
    """The TOML document, or NotToml with the place that tomllib names."""
    try:
        decoded = text.decode()
    except UnicodeDecodeError as error:
        line = text.count(b"\n", 0, error.start) + 1
        raise TopologyFault("top", 0, "NotToml", f"byte {error.start} of the file isn't UTF-8", line) from None
    decoded = decoded.removeprefix("\ufeff")
    try:
        document = _read_either(decoded)
    except RecursionError:
        raise TopologyFault("top", 0, "NotToml", "lists or tables are nested too deeply") from None
    except ValueError as error:
        raise _not_toml(str(error), decoded) from None
    if _has_wide_number(document):
        raise TopologyFault("top", 0, "NotToml", "a number is wider than 64 bits")
    return document


def _read_either(text: str) -> dict[str, Any]:
    """The document of a text, which may have what came with TOML 1.1; tomllib knows TOML 1.0."""
    try:
        return tomllib.loads(text)
    except ValueError as error:
        try:
            return tomllib.loads(in_older_toml(text))
        except ValueError:
            raise error from None


def _has_wide_number(document: dict[str, Any]) -> bool:
    """Whether some whole number is one that Python takes and TOML doesn't."""
    waiting: list[Any] = [document]
    while waiting:
        value = waiting.pop()
        if isinstance(value, dict):
            waiting.extend(value.values())
        elif isinstance(value, list):
            waiting.extend(value)
        elif isinstance(value, int) and not -2 ** 63 <= value < 2 ** 63:
            return True
    return False


def _not_toml(said: str, text: str) -> TopologyFault:
    """tomllib's words, with the line and column that stand at their end taken out of them."""
    place = re.search(r" \(at line (\d+), column (\d+)\)$", said)
    if place:
        return TopologyFault("top", 0, "NotToml", said[:place.start()], int(place[1]), int(place[2]))
    said = said.removesuffix(" (at end of document)")
    return TopologyFault("top", 0, "NotToml", f"{said}, at the end of the file", max(1, len(text.splitlines())))


def _check_top(document: dict[str, Any]) -> None:
    for key in document:
        if key not in TOP_KEYS:
            raise TopologyFault("top", 0, "UnknownKey", f"the key {key!r} isn't one of {', '.join(TOP_KEYS)}")
    if not isinstance(document.get("routers"), list):
        raise TopologyFault("top", 0, "MissingKey", "routers, a list of names, is absent or no list")
    for key in SECTIONS:
        if not isinstance(document.get(key, []), list):
            raise TopologyFault("top", 0, "MissingKey", f"{key} is no list; write [[{key}]] with two brackets")


class _EntryReader:
    """Reads the entries in order, and knows the names and ends that came before."""

    def __init__(self, text: str) -> None:
        self.text = text
        # Each router with its device.
        self.routers: dict[str, str] = {}
        self.tables: dict[End, str] = {}
        self.links: set[str] = set()
        # Each interface, named by its device, with its holder and how it is written there.
        self.ends: dict[End, tuple[str, str]] = {}
        self.marks: set[str] = set()

    def fault(self, part: str, entry: int, cause: str, why: str) -> TopologyFault:
        return TopologyFault(part, entry, cause, why, line_of_entry(self.text, part, entry))

    def router(self, entry: int, value: Any) -> str:
        if entry > MOST_ROUTERS:
            raise self.fault("routers", entry, "TooMany", f"there are more than {MOST_ROUTERS} routers")
        if not isinstance(value, str):
            raise self.fault("routers", entry, "MissingKey", f"{value!r} isn't a text in quotes")
        self._check_name("routers", entry, value, self.routers)
        self.routers[value] = value
        return value

    def vrf(self, entry: int, value: Any) -> Vrf:
        if len(self.routers) >= MOST_ROUTERS:
            raise self.fault("vrf", entry, "TooMany", f"routers and VRFs together are more than {MOST_ROUTERS}")
        self._check_keys("vrf", entry, value, ("router", "table", "name"))
        device, table, name = value.get("router"), value.get("table"), value.get("name")
        for key, text in (("router", device), ("name", name)):
            if not isinstance(text, str):
                raise self.fault("vrf", entry, "MissingKey", f"{key}, a text, is absent or no text")
        if not isinstance(table, int) or isinstance(table, bool):
            raise self.fault("vrf", entry, "MissingKey", "table, a whole number, is absent or none")
        self._check_name("vrf", entry, name, self.routers)
        if self.routers.get(device) != device:
            raise self.fault("vrf", entry, "NoSuchRouter", f"{device!r} isn't in routers")
        if not 1 <= table <= LARGEST_TABLE or table == MAIN_TABLE:
            why = f"{table} isn't from 1 to {LARGEST_TABLE}, or is {MAIN_TABLE}, the main table's, which is {device} itself"
            raise self.fault("vrf", entry, "BadTable", why)
        if (device, table) in self.tables:
            earlier = self.tables[device, table]
            raise self.fault("vrf", entry, "TableTwice", f"table {table} of {device} is VRF {earlier} already")
        self.tables[device, table] = name
        self.routers[name] = device
        return Vrf(name, device, table)

    def link(self, entry: int, value: Any) -> Link:
        if entry > MOST_LINKS:
            raise self.fault("link", entry, "TooMany", f"there are more than {MOST_LINKS} links")
        self._check_keys("link", entry, value, ("name", "ends", "unnumbered"))
        name, ends, unnumbered = value.get("name"), value.get("ends"), value.get("unnumbered", False)
        if not isinstance(name, str):
            raise self.fault("link", entry, "MissingKey", "name, a text, is absent or no text")
        if not (isinstance(ends, list) and len(ends) == 2 and all(isinstance(end, str) for end in ends)):
            raise self.fault("link", entry, "MissingKey", "ends, a list of two texts, is absent or something else")
        if not isinstance(unnumbered, bool):
            raise self.fault("link", entry, "MissingKey", "unnumbered is neither true nor false")
        self._check_name("link", entry, name, self.links)
        self.links.add(name)
        first, second = (self._end("link", entry, end) for end in ends)
        if first[0] == second[0]:
            raise self.fault("link", entry, "SelfLink", f"both ends of link {name} are at router {first[0]}")
        for end in (first, second):
            self._take_end("link", entry, end, f"link {name}")
        return Link(name, [first, second], unnumbered)

    def edge(self, entry: int, value: Any) -> End:
        if entry > MOST_EDGES:
            raise self.fault("edge", entry, "TooMany", f"there are more than {MOST_EDGES} edges")
        self._check_keys("edge", entry, value, ("at",))
        if not isinstance(value.get("at"), str):
            raise self.fault("edge", entry, "MissingKey", "at, a text such as \"r1:4\", is absent or no text")
        end = self._end("edge", entry, value["at"])
        self._take_end("edge", entry, end, "an edge")
        return end

    def mark(self, entry: int, value: Any) -> tuple[str, str]:
        """A router, and how it replaces routes."""
        self._check_keys("router", entry, value, ("name", "replace"))
        name, replace = value.get("name"), value.get("replace", BY_KEY)
        for key, text in (("name", name), ("replace", replace)):
            if not isinstance(text, str):
                raise self.fault("router", entry, "MissingKey", f"{key}, a text, is absent or no text")
        self._check_name("router", entry, name)
        if name not in self.routers:
            raise self.fault("router", entry, "NoSuchRouter", f"{name} is neither in routers nor a VRF's name")
        if name in self.marks:
            raise self.fault("router", entry, "TwiceMarked", f"an earlier entry is of {name}")
        if replace not in (BY_KEY, BY_PREFIX):
            raise self.fault("router", entry, "BadReplace", f"{replace!r} is neither \"{BY_KEY}\" nor \"{BY_PREFIX}\"")
        self.marks.add(name)
        return name, replace

    def _check_keys(self, part: str, entry: int, value: Any, known: tuple[str, ...]) -> None:
        if not isinstance(value, dict):
            raise self.fault(part, entry, "MissingKey", f"the entry is no table; write [[{part}]]")
        for key in value:
            if key not in known:
                raise self.fault(part, entry, "UnknownKey", f"the key {key!r} isn't one of {', '.join(known)}")

    def _check_name(self, part: str, entry: int, name: str, taken: Container[str] = ()) -> None:
        if not is_name(name):
            why = f"{name!r} isn't 1 to 32 of a to z, 0 to 9, _ and -{nearest_name(name)}"
            raise self.fault(part, entry, "BadName", why)
        if name in taken:
            raise self.fault(part, entry, "TwiceNamed", f"an earlier one is named {name}")

    def _end(self, part: str, entry: int, text: str) -> End:
        match = END.fullmatch(text)
        if match is None or int(match[2]) > LARGEST_INTERFACE:
            why = f"{text!r} isn't ROUTER:NUMBER with a number from 1 to {LARGEST_INTERFACE}"
            raise self.fault(part, entry, "BadEnd", why)
        if match[1] not in self.routers:
            raise self.fault(part, entry, "BadEnd", f"{match[1]} is neither in routers nor a VRF's name")
        return match[1], int(match[2])

    def _take_end(self, part: str, entry: int, end: End, holder: str) -> None:
        """Notes an interface, whichever router of its device it is written at."""
        at_device, text = (self.routers[end[0]], end[1]), text_of(end)
        if at_device in self.ends:
            earlier, written = self.ends[at_device]
            shared = "" if written == text else f" as {written}: {at_device[0]} and its VRFs share their interfaces"
            raise self.fault(part, entry, "EndTwice", f"{text} stands in {earlier} already{shared}")
        self.ends[at_device] = holder, text
