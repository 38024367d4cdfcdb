"""A second, plain evaluator over the history of a report.

It shares no code with the program, which keeps atoms and labels from update to update: here a router's table is the
routes themselves, an address takes the longest prefix and then the least metric, and a way is followed hop by hop.
So where both agree, a slip of one of them isn't the reason.
"""

from __future__ import annotations

from bisect import bisect_left, bisect_right
from dataclasses import dataclass, field
from typing import Container, Iterable, Iterator, Sequence

from report import NO_ROUTE, Entry, HistoryEntry, LinkEntry, Prefix, Target

LAST_ADDRESS = 2**32 - 1
# The bits of an address that a prefix of each length fixes, from the longest on.
FIXED_BITS = tuple((length, LAST_ADDRESS >> (32 - length) << (32 - length)) for length in range(32, -1, -1))


@dataclass(frozen=True)
class Route:
    """A route that stands in a table, and the position of the entry that set it."""

    prefix: Prefix
    metric: int
    target: Target
    position: int


@dataclass
class Table:
    """The routes of one router: for each prefix, one route of each metric. On a router that replaces by prefix one that is
    set takes the place of all of its prefix. `is_mixed` is whether this ever made a difference: whether one came beside
    routes of other metrics."""

    replaces_prefix: bool = False
    by_prefix: dict[Prefix, dict[int, Route]] = field(default_factory=dict)
    is_mixed: bool = False

    def apply(self, entry: Entry) -> list[Route]:
        """Does what an entry says, and answers the routes that it took away or put another in place of."""
        metrics = self.by_prefix.setdefault(entry.prefix, {})
        is_set = entry.target is not None
        if is_set and metrics.keys() - {entry.metric}:
            self.is_mixed = True
        if entry.metric is None or is_set and self.replaces_prefix:
            gone = list(metrics.values())
            metrics.clear()
        else:
            gone = [metrics.pop(entry.metric)] if entry.metric in metrics else []
        if is_set:
            metrics[entry.metric] = Route(entry.prefix, entry.metric, entry.target, entry.position)
        if not metrics:
            del self.by_prefix[entry.prefix]
        return gone

    def routes(self) -> list[Route]:
        return [route for metrics in self.by_prefix.values() for route in metrics.values()]

    def best(self, address: int) -> Route | None:
        """The route that an address takes: of the longest prefix that covers it, the one of the least metric."""
        for length, bits in FIXED_BITS:
            metrics = self.by_prefix.get((address & bits, length))  # such a pair is equal to the Prefix
            if metrics:
                return metrics[min(metrics)]
        return None

    def target(self, address: int) -> Target:
        route = self.best(address)
        return NO_ROUTE if route is None else route.target


def shown(target: Target, down: Container[str]) -> Target:
    """What becomes of an address where these links are down: a target over one of them is no way on."""
    if target.router is None or target.link not in down:
        return target
    return Target(f"linkdown {target.link}", None, target.link)


@dataclass(frozen=True)
class Hop:
    """A router of a way, the route that it has for the address, if any, and what it does with it."""

    router: str
    route: Route | None
    target: Target


@dataclass
class Way:
    """The routers of a way in order, and whether it loops: then its last router was met before."""

    hops: list[Hop]
    is_loop: bool

    def end(self) -> str:
        """The end as an answer prints it."""
        return "loop" if self.is_loop else str(self.hops[-1].target)


@dataclass(frozen=True)
class Change:
    """A run of addresses, both ends included, that a router treats otherwise than before."""

    router: str
    low: int
    high: int
    before: Target
    after: Target


class Everyone:
    """All routers, where they are taken to replace by prefix."""

    def __contains__(self, _router: object) -> bool:
        return True


def tables_after(entries: Sequence[HistoryEntry], position: int, marked: Container[str] = ()) -> dict[str, Table]:
    """The table of each router that the first entries, up to the position, speak of. The marked routers replace by prefix."""
    tables: dict[str, Table] = {}
    for entry in entries[:position]:
        if isinstance(entry, Entry):
            if entry.router not in tables:
                tables[entry.router] = Table(entry.router in marked)
            tables[entry.router].apply(entry)
    return tables


def downs_after(entries: Sequence[HistoryEntry], position: int) -> dict[str, int]:
    """The links that are down after the first entries, up to the position, each with the entry by which it went down."""
    down: dict[str, int] = {}
    for entry in entries[:position]:
        if isinstance(entry, LinkEntry) and entry.is_down:
            down.setdefault(entry.link, entry.position)
        elif isinstance(entry, LinkEntry):
            down.pop(entry.link, None)
    return down


def way(tables: dict[str, Table], router: str, address: int, most_hops: int | None = None,
        down: Container[str] = ()) -> Way:
    """The way of an address from a router, with these links down.

    A router does the same with an address each time, so a router that is met again means a loop. The program goes on
    until it has made as many hops as there are routers; `most_hops` is that number, for the list that it prints.
    Without it the list ends where a router is met again.
    """
    hops = [_hop(tables, router, address, down)]
    met = {router}
    while hops[-1].target.router is not None:
        following = hops[-1].target.router
        if most_hops is not None and len(hops) > most_hops:
            return Way(hops, True)
        hops.append(_hop(tables, following, address, down))
        if most_hops is None and following in met:
            return Way(hops, True)
        met.add(following)
    return Way(hops, most_hops is not None and len(hops) > most_hops)


def _hop(tables: dict[str, Table], router: str, address: int, down: Container[str]) -> Hop:
    table = tables.get(router)
    route = None if table is None else table.best(address)
    return Hop(router, route, NO_ROUTE if route is None else shown(route.target, down))


@dataclass(frozen=True)
class _Side:
    """A router's table at a moment, and the links that are down then."""

    table: Table
    down: frozenset[str]

    def target(self, address: int) -> Target:
        return shown(self.table.target(address), self.down)

    def over(self, links: frozenset[str]) -> set[Prefix]:
        """The prefixes that have a route over one of these links."""
        return {prefix for prefix, metrics in self.table.by_prefix.items()
                if any(route.target.router is not None and route.target.link in links for route in metrics.values())}


def changes(entries: Sequence[HistoryEntry], first: int, last: int, routers: Iterable[str],
            marked: Container[str] = ()) -> Iterator[Change]:
    """What differs between the moment after `first` entries and that after `last`, for these routers in this order. The
    marked ones replace by prefix.

    Runs that touch and have the same two targets are one.
    """
    before, after = tables_after(entries, first, marked), tables_after(entries, last, marked)
    was_down, is_down = (frozenset(downs_after(entries, position)) for position in (first, last))
    touched: dict[str, set[Prefix]] = {}
    for entry in entries[first:last]:
        if isinstance(entry, Entry):
            touched.setdefault(entry.router, set()).add(entry.prefix)
    for router in routers:
        old, new = _Side(before.get(router, Table()), was_down), _Side(after.get(router, Table()), is_down)
        named = touched.get(router, set()) | old.over(was_down ^ is_down) | new.over(was_down ^ is_down)
        if named:
            yield from _joined(_differences(router, old, new, named))


def _differences(router: str, old: _Side, new: _Side, touched: set[Prefix]) -> Iterator[Change]:
    """Piece by piece. Between two neighbouring ends of prefixes all addresses are treated alike, and only addresses
    of a prefix that an entry named, or that has a route over a link that went down or came up, can be treated otherwise
    than before."""
    begins = {begin for side in (old, new) for prefix in side.table.by_prefix
              for begin in (prefix.base, prefix.last + 1)}
    begins.update(begin for prefix in touched for begin in (prefix.base, prefix.last + 1))
    ordered = sorted(begins)
    for prefix in _outermost(touched):
        inside = ordered[bisect_left(ordered, prefix.base):bisect_right(ordered, prefix.last + 1)]
        for low, following in zip(inside, inside[1:]):
            was, now = old.target(low), new.target(low)
            if was != now:
                yield Change(router, low, following - 1, was, now)


def _outermost(prefixes: set[Prefix]) -> Iterator[Prefix]:
    """The prefixes that lie in no other of these, in order of address."""
    end = -1
    for prefix in sorted(prefixes):
        if prefix.base > end:
            yield prefix
            end = prefix.last


def _joined(pieces: Iterable[Change]) -> Iterator[Change]:
    """The same changes, touching ones of the same two targets as one."""
    held: Change | None = None
    for piece in pieces:
        if held is not None and (held.high + 1, held.before, held.after) == (piece.low, piece.before, piece.after):
            held = Change(held.router, held.low, piece.high, held.before, held.after)
            continue
        if held is not None:
            yield held
        held = piece
    if held is not None:
        yield held
