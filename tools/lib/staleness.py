"""Which routes a refused frame leaves stale, and until when.

A refused frame changes no table, though the router did what it says. So a route that it sets or deletes stands as it was
before, until an accepted frame sets or deletes the same route: same table, same prefix, same metric. In a table that replaces
by prefix any set of the prefix does.
"""

from __future__ import annotations

from collections import defaultdict, deque
from collections.abc import Callable
from dataclasses import dataclass, field

from command import ToolError
from frames import MAIN_TABLE, NETLINK, Decoded, Feed, Frame, Prefix, Refused, Route, Skipped, read_messages
from reading import Reading

# Refused frames that are held at a time, while it isn't known when their routes are as sent again.
MOST_HELD = 200_000


# A prefix in a table.
Place = tuple[int, Prefix]
# A route's place and metric; a deletion without a metric is of all metrics, None.
Key = tuple[Place, int | None]


@dataclass
class Stale:
    """A refused frame and its routes: for each that was set or deleted again the frame with which it was. `taken` and
    `until_taken` are how many updates of the feed come before these frames."""

    frame: int
    offset: int
    cause: str
    keys: list[Key]
    is_readable: bool
    taken: int = 0
    until: dict[Key, int] = field(default_factory=dict)
    until_taken: dict[Key, int] = field(default_factory=dict)

    def is_settled(self) -> bool:
        return self.is_readable and len(self.until) == len(self.keys)

    def lines(self, name: str) -> list[str]:
        begin = f"{name} frame {self.frame} offset {self.offset} {self.cause}"
        lines = []
        for key in self.keys:
            until = self.until.get(key)
            (table, prefix), metric = key
            route = f"{prefix} {'all metrics' if metric is None else f'metric {metric}'}"
            route += "" if table == MAIN_TABLE else f" table {table}"
            lines.append(f"{begin} {route} " + ("to the end" if until is None else f"until frame {until}"))
        if not self.is_readable:
            lines.append(f"{begin} a route that can't be read, to the end")
        return lines


class Watch:
    """Follows a feed, and tells each refused frame once it is known until when its routes are stale."""

    def __init__(self, name: str, reading: Reading, tell: Callable[[Stale], None]) -> None:
        self.name = name
        self.reading = reading
        self.tell = tell
        self.found = 0
        self._taken = 0
        self._held: deque[Stale] = deque()
        self._open: dict[Key, list[Stale]] = defaultdict(list)
        self._metrics: dict[Place, set[int | None]] = defaultdict(set)

    def take(self, frame: Frame) -> None:
        decoded = self.reading.decode(frame)
        if decoded.refused is not None:
            self._refuse(frame, decoded.refused)
        for route in decoded.updates:
            self._settle(route, frame.number)
        self._taken += len(decoded.updates)
        while self._held and self._held[0].is_settled():
            self.tell(self._held.popleft())

    def finish(self) -> None:
        """Tells what is stale to the end of the feed."""
        while self._held:
            self.tell(self._held.popleft())

    def _refuse(self, frame: Frame, refused: Refused) -> None:
        self.found += 1
        keys, is_readable = routes_of(frame, self.reading)
        stale = Stale(frame.number, frame.offset, refused.cause, keys, is_readable, self._taken)
        self._held.append(stale)
        if len(self._held) > MOST_HELD:
            self.finish()
            raise ToolError(f"{self.name}: more than {MOST_HELD} refused frames are stale at once, so none after frame "
                            f"{frame.number} is looked at; docs/RECORDING.md has settings that avoid refusals")
        for key in keys:
            self._open[key].append(stale)
            self._metrics[key[0]].add(key[1])

    def _settle(self, route: Route, number: int) -> None:
        """An accepted update makes its route as sent; a deletion without metric all routes of its prefix, and so does a set in
        a table that replaces by prefix."""
        place = route.table, route.prefix
        metrics = self._metrics.get(place)
        if metrics is None:
            return
        is_of_all = route.metric is None or route.is_set and route.table in self.reading.marked
        settled = set(metrics) if is_of_all else metrics & {route.metric}
        for metric in settled:
            for stale in self._open.pop((place, metric)):
                stale.until[place, metric] = number
                stale.until_taken[place, metric] = self._taken
        metrics -= settled
        if not metrics:
            del self._metrics[place]


def routes_of(frame: Frame, reading: Reading) -> tuple[list[Key], bool]:
    """The routes that a refused frame would have set or deleted; False where some of it can't be read."""
    if frame.kind != NETLINK:
        return [], False
    keys: dict[Key, None] = {}
    is_readable = True
    for message in read_messages(frame.payload, tables=reading.vrfs):
        route = message.route if isinstance(message, Refused) else message
        if isinstance(route, Route):
            keys[(route.table, route.prefix), route.metric] = None
        elif not isinstance(message, Skipped):
            is_readable = False
    return list(keys), is_readable


def stale_routes(name: str, path: str, reading: Reading) -> list[Stale]:
    """The refused frames of a feed."""
    found: list[Stale] = []
    watch = Watch(name, reading, found.append)
    with open(path, "rb") as file:
        for frame in Feed(file):
            watch.take(frame)
    watch.finish()
    return found


@dataclass(frozen=True)
class Doubt:
    """Whether the routes that a router has for an address, in its table of the feed, are stale after so many updates of the
    feed."""

    name: str
    table: int
    taken: int
    address: int
    least_length: int

    def lines(self, found: list[Stale]) -> list[str]:
        """A line for each route of a refused frame that may decide about the address and isn't as sent. A refused frame has
        no updates, so where it is the next in the feed it can't be told whether it was taken."""
        return [self._line(stale, key) for stale in found for key in stale.keys
                if self._concerns(key) and stale.taken <= self.taken and not self._is_settled(stale, key)]

    def _concerns(self, key: Key) -> bool:
        table, prefix = key[0]
        return table == self.table and prefix.covers(self.address) and prefix.length >= self.least_length

    def _is_settled(self, stale: Stale, key: Key) -> bool:
        return key in stale.until_taken and stale.until_taken[key] < self.taken

    def _line(self, stale: Stale, key: Key) -> str:
        (_table, prefix), metric = key
        is_sure = stale.taken < self.taken
        until = f"frame {stale.until[key]} sends it again" if key in stale.until else "it isn't sent again"
        return (f"{self.name}: {prefix} {'of all metrics' if metric is None else f'metric {metric}'} "
                f"{'is' if is_sure else 'may be'} stale here: frame {stale.frame} at offset {stale.offset} is refused "
                f"({stale.cause}), and {until}")
