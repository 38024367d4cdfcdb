"""What one pass over a feed shows of its router and of the recording: interfaces, connected prefixes, odd signs.

It is asked without a topology, so no interface is unknown here. What it keeps grows with the interfaces and the
connected prefixes of the router, not with the length of the recording.
"""

from __future__ import annotations

import hashlib
import os
from bisect import bisect_left
from collections import defaultdict
from collections.abc import Callable, Container, Mapping
from concurrent.futures import ProcessPoolExecutor
from dataclasses import dataclass, field

from command import ToolError
from frames import (DELETE_NEXTHOP, KERNEL, MAIN_TABLE, NEW_NEXTHOP, OTHER_TABLES, UNICAST, Decoded, Feed, FeedEnd, Frame,
                    Prefix, Route, Skipped, decode)
from network import End, is_interface
from progress import Progress
from times import Moment, read_times

# The metric that zebra's module dplane_fpm_nl gives to every route.
MODULE_METRIC = 20
# Routes that are kept in mind to see that a session begins anew. A walk of the table repeats them all, so some do.
MOST_KEPT = 100_000
# Bytes of feeds from which on they are read side by side.
SIDE_BY_SIDE = 1 << 22
# Prefixes and gateways kept of one interface.
MOST_OF_INTERFACE = 1_000


@dataclass
class Sighting:
    """How often something was seen, and where first."""

    count: int = 0
    frame: int = 0
    offset: int = 0
    what: str = ""

    def see(self, frame: Frame, what: object) -> None:
        if self.count == 0:
            self.frame, self.offset, self.what = frame.number, frame.offset, str(what)
        self.count += 1

    def place(self) -> str:
        return f"frame {self.frame}, offset {self.offset}"


@dataclass
class Stay:
    """A time through which a prefix is connected at an interface: the frame with which it begins, and the one with
    which it ends, None where it lasts to the end of the feed."""

    begin: int
    end: int | None = None


@dataclass
class Interface:
    """What a feed says of an interface: the prefixes connected there and when, and the gateways used there; the tables that
    have these prefixes, and those that have any route by it, each in the order in which they had."""

    used: Sighting = field(default_factory=Sighting)
    connected: dict[Prefix, list[Stay]] = field(default_factory=dict)
    gateways: dict[str, Sighting] = field(default_factory=dict)
    connected_in: list[int] = field(default_factory=list)
    used_in: list[int] = field(default_factory=list)

    @property
    def table(self) -> int:
        """The table that it belongs to: of those that have its prefixes, or its routes, the main one, or else the first."""
        tables = self.connected_in or self.used_in
        return MAIN_TABLE if MAIN_TABLE in tables or not tables else tables[0]


@dataclass
class TableSigns:
    """What the routes of one table show: how many there are, and whether they are changed without a deletion before. `mixed`
    are sets of another metric than the route has that stands, `announced` sets in whose frame the one before is deleted."""

    routes: Sighting = field(default_factory=Sighting)
    mixed: Sighting = field(default_factory=Sighting)
    announced: int = 0


@dataclass
class Survey:
    """What one pass over a device's feed shows; `vrfs` are the device's by their tables."""

    router: str
    path: str
    vrfs: Mapping[int, str] = field(default_factory=dict)
    frames: int = 0
    updates: int = 0
    end: FeedEnd = FeedEnd("end")
    digest: str = ""
    interfaces: dict[int, Interface] = field(default_factory=lambda: defaultdict(Interface))
    refused: dict[str, Sighting] = field(default_factory=lambda: defaultdict(Sighting))
    other_metrics: Sighting = field(default_factory=Sighting)
    deletions_without_metric: Sighting = field(default_factory=Sighting)
    next_hop_objects: Sighting = field(default_factory=Sighting)
    tables: dict[int, TableSigns] = field(default_factory=lambda: defaultdict(TableSigns))
    other_tables: dict[int, Sighting] = field(default_factory=lambda: defaultdict(Sighting))
    senders: dict[int, Sighting] = field(default_factory=dict)
    sender_changes: int = 0
    begun_anew: Sighting = field(default_factory=Sighting)
    moments: list[Moment] = field(default_factory=list)

    @property
    def name(self) -> str:
        """The feed as the words of the command name it."""
        return f"{self.router}={self.path}"

    @property
    def routers(self) -> list[str]:
        """The device and its VRFs."""
        return [self.router, *self.vrfs.values()]

    @property
    def is_of_older_module(self) -> bool:
        """Whether it was sent as the older module does: by metrics of each protocol, with deletions of all metrics."""
        return self.other_metrics.count > 0 or self.deletions_without_metric.count > 0

    def router_of(self, table: int) -> str:
        return self.vrfs.get(table, self.router)

    def end_of(self, index: int) -> End:
        """An interface that the feed names, at the router that it belongs to."""
        return self.router_of(self.interfaces[index].table), index

    def has_connected(self) -> bool:
        """Whether any prefix was ever connected anywhere."""
        return any(interface.connected for interface in self.interfaces.values())

    def connected(self, interface: int) -> set[Prefix]:
        """The prefixes that were ever connected at an interface."""
        return set(self.interfaces[interface].connected) if interface in self.interfaces else set()

    def seconds(self, frame: int | None) -> float:
        """When a frame came, as far as the file of times tells; None stands for what comes after the last."""
        place = len(self.moments) if frame is None else bisect_left(self.moments, frame, key=lambda moment: moment.frames)
        return self.moments[place].time.timestamp() if place < len(self.moments) else float("inf")


class _Walks:
    """Sees that zebra sends a whole table again, as it does where a session begins.

    Within a session zebra repeats connected routes, but hardly others. Where a change comes as a deletion and a set in
    one frame, a set without a deletion of a route that stands is no change. A newer zebra sends changes without
    deletions, and may repeat a route; so there it takes a walk, in the order of prefixes, that repeats half of what
    stands.
    """

    def __init__(self) -> None:
        self.kept: dict[Prefix, int] = {}
        self.paired = 0
        self.repeated = Sighting()
        self.changed = Sighting()
        self._last: Prefix | None = None
        self._begin: Frame | None = None
        self._kept_at_begin = 0
        self._same: list[Prefix] = []

    def take(self, frame: Frame, updates: list[Route]) -> None:
        if len(updates) == 1 and updates[0].is_set:
            self._take_set(frame, updates[0])
        elif updates:
            self._take_change(updates)

    def begun_anew(self) -> Sighting:
        """Where the table comes again, if it does."""
        signs = [self.repeated] if self.repeated.count else []
        if self.changed.count and self.paired:
            signs.append(self.changed)
        return min(signs, key=lambda sign: sign.frame, default=Sighting())

    def _take_change(self, updates: list[Route]) -> None:
        self._last = None
        for route in updates:
            if not route.is_set:
                self.kept.pop(route.prefix, None)
            else:
                self.paired += 1
                self._keep(route)

    def _take_set(self, frame: Frame, route: Route) -> None:
        if self._last is None or self._begin is None or route.prefix <= self._last:
            self._begin, self._kept_at_begin, self._same = frame, len(self.kept), []
        self._last = route.prefix
        if route.protocol == KERNEL:
            return
        before = self.kept.get(route.prefix)
        if before == _content(route):
            self._same.append(route.prefix)
            if len(self._same) >= max(2, self._kept_at_begin / 2):
                self.repeated.see(self._begin, self._same[0])
        elif before is not None:
            self.changed.see(self._begin, route.prefix)
        self._keep(route)

    def _keep(self, route: Route) -> None:
        if route.protocol != KERNEL and (len(self.kept) < MOST_KEPT or route.prefix in self.kept):
            self.kept[route.prefix] = _content(route)


def _content(route: Route) -> int:
    return hash((route.metric, route.route_type, route.protocol, route.gateway, route.interface))


class _Metrics:
    """Sees routes that are set anew with another metric, and whether the one before is deleted with that."""

    def __init__(self, signs: TableSigns) -> None:
        self.signs = signs
        self.standing: dict[Prefix, int | None] = {}

    def take(self, frame: Frame, updates: list[Route]) -> None:
        deleted = set()
        for route in updates:
            before = self.standing.get(route.prefix)
            if not route.is_set:
                deleted.add(route.prefix)
                if route.metric in (None, before):
                    self.standing.pop(route.prefix, None)
                continue
            if route.prefix in deleted:
                self.signs.announced += 1
            elif before not in (None, route.metric):
                self.signs.mixed.see(frame, f"{route.prefix} from metric {before} to {route.metric}")
            if len(self.standing) < MOST_KEPT or route.prefix in self.standing:
                self.standing[route.prefix] = route.metric


class _Stays:
    """Follows at which interface each prefix of a table is connected."""

    def __init__(self, survey: Survey) -> None:
        self.interfaces = survey.interfaces
        self.standing: dict[Prefix, tuple[int, Stay]] = {}

    def take(self, frame: Frame, updates: list[Route]) -> None:
        for route in updates:
            held = self.standing.get(route.prefix)
            if held is not None and (not route.is_connected or held[0] != route.interface):
                held[1].end = frame.number
                del self.standing[route.prefix]
                held = None
            if route.is_connected and held is None:
                self._begin(frame, route.prefix, route.interface)
                _note(self.interfaces[route.interface].connected_in, route.table)

    def _begin(self, frame: Frame, prefix: Prefix, interface: int) -> None:
        connected = self.interfaces[interface].connected
        if prefix in connected or len(connected) < MOST_OF_INTERFACE:
            stays = connected.setdefault(prefix, [])
            if len(stays) == MOST_OF_INTERFACE:
                stays.pop()
            stays.append(Stay(frame.number))
            self.standing[prefix] = (interface, stays[-1])


class _DigestedFile:
    """A file whose bytes are digested as they are read."""

    def __init__(self, file) -> None:
        self._file = file
        self.digest = hashlib.sha256()

    def read(self, size: int) -> bytes:
        piece = self._file.read(size)
        self.digest.update(piece)
        return piece


def surveys(feeds: list[tuple[str, str]], vrfs_of: Callable[[str], Mapping[int, str]] = lambda _device: {},
            has_all: bool = False) -> list[Survey]:
    """Reads feeds, each once; several large ones side by side. On a terminal it tells how far it is. Read are the tables of
    the device's VRFs beside the main one, or all."""
    size = sum(os.path.getsize(path) for _router, path in feeds if os.path.isfile(path))
    asked = [(router, path, vrfs_of(router), OTHER_TABLES if has_all else None) for router, path in feeds]
    if len(feeds) < 2 or size < SIDE_BY_SIDE:
        return [survey(*words) for words in asked]
    with ProcessPoolExecutor(min(len(feeds), os.cpu_count() or 1)) as pool:
        return list(pool.map(survey, *zip(*asked)))


def survey(router: str, path: str, vrfs: Mapping[int, str] | None = None, tables: Container[int] | None = None) -> Survey:
    """Reads a feed once: of its routes those of the main table and of the VRFs, or of these tables. Raises OSError where it
    can't be opened."""
    result = Survey(router, path, vrfs or {})
    followed: dict[int, _Table] = {}
    last_sender: int | None = None
    with open(path, "rb") as opened:
        file = _DigestedFile(opened)
        feed = Feed(Progress(file, path))  # type: ignore[arg-type]
        for frame in feed:
            decoded = decode(frame, tables=result.vrfs if tables is None else tables)
            updates = decoded.updates
            _take_frame(result, frame, decoded, updates)
            last_sender = _take_senders(result, frame, decoded, last_sender)
            for table in dict.fromkeys(route.table for route in updates):
                if table not in followed:
                    followed[table] = _Table(result, table)
                followed[table].take(frame, [route for route in updates if route.table == table])
    result.end = feed.end or FeedEnd("end")
    result.digest = file.digest.hexdigest()
    result.begun_anew = min((anew for one in followed.values() if (anew := one.walks.begun_anew()).count),
                            key=lambda anew: anew.frame, default=Sighting())
    result.moments = moments_beside(path)
    return result


class _Table:
    """What is followed of one table's routes."""

    def __init__(self, survey: Survey, table: int) -> None:
        self.signs = survey.tables[table]
        self.metrics, self.walks, self.stays = _Metrics(self.signs), _Walks(), _Stays(survey)

    def take(self, frame: Frame, updates: list[Route]) -> None:
        for route in updates:
            self.signs.routes.see(frame, route.prefix)
        self.metrics.take(frame, updates)
        self.walks.take(frame, updates)
        self.stays.take(frame, updates)


def moments_beside(path: str) -> list[Moment]:
    """What the file of times beside a recording says; nothing where there is none that can be read."""
    try:
        return read_times(f"{path}.times")
    except (OSError, ToolError):
        return []


def _take_frame(result: Survey, frame: Frame, decoded: Decoded, updates: list[Route]) -> None:
    result.frames += 1
    result.updates += len(updates)
    for message in decoded.messages:
        if isinstance(message, Skipped) and message.message_type in (NEW_NEXTHOP, DELETE_NEXTHOP):
            result.next_hop_objects.see(frame, message.what)
        if isinstance(message, Skipped) and message.table is not None and decoded.refused is None:
            result.other_tables[message.table].see(frame, "" if message.route is None else message.route.prefix)
    refused = decoded.refused
    if refused is not None:
        result.refused[refused.cause].see(frame, "" if refused.route is None else refused.route.prefix)
    for route in updates:
        _take_route(result, frame, route)


def _take_route(result: Survey, frame: Frame, route: Route) -> None:
    if route.metric is None:
        result.deletions_without_metric.see(frame, route.prefix)
    elif route.metric != MODULE_METRIC:
        result.other_metrics.see(frame, f"{route.prefix} metric {route.metric}")
    if not route.is_set or route.route_type != UNICAST or route.interface is None:
        return
    interface = result.interfaces[route.interface]
    interface.used.see(frame, route.prefix)
    _note(interface.used_in, route.table)
    if route.gateway is None:
        return
    gateway = interface.gateways.get(route.gateway)
    if gateway is None and len(interface.gateways) < MOST_OF_INTERFACE:
        gateway = interface.gateways[route.gateway] = Sighting()
    if gateway is not None:
        gateway.see(frame, route.prefix)


def _note(tables: list[int], table: int) -> None:
    if table not in tables and len(tables) < MOST_OF_INTERFACE:
        tables.append(table)


def _take_senders(result: Survey, frame: Frame, decoded: Decoded, last: int | None) -> int | None:
    for message in decoded.messages:
        if message.sender == last:
            continue
        if last is not None:
            result.sender_changes += 1
        last = message.sender
        if last not in result.senders and len(result.senders) < MOST_OF_INTERFACE:
            result.senders[last] = Sighting()
            result.senders[last].see(frame, "")
    return last


def holders(surveys: list[Survey]) -> dict[Prefix, list[End]]:
    """For each connected prefix the interfaces that have it, at their routers. A /32 is no segment, so none is among them."""
    found: dict[Prefix, list[End]] = defaultdict(list)
    for one in surveys:
        for index in filter(is_interface, sorted(one.interfaces)):
            for prefix in one.interfaces[index].connected:
                if prefix.length < 32:
                    found[prefix].append(one.end_of(index))
    return found
