"""Every query of a script, answered plainly over the history of a report: the lines that the program has to print.

The addresses are cut at the ends of all prefixes that stand in a table. Between two neighbouring ends every router
treats all addresses alike, so one address of each piece is followed for all of it. This is slow beside the program,
and so short that it can be compared with docs/FORMATS.md by eye. It serves the tests, which compare it with printed
reports.
"""

from __future__ import annotations

from collections.abc import Callable, Iterable, Iterator, Sequence
from dataclasses import dataclass, field
from functools import cached_property

from evaluator import LAST_ADDRESS, NO_ROUTE, Table, changes, downs_after, shown, tables_after
from network import Network
from report import HistoryEntry, Target, address_text, read_address

Run = tuple[int, int]

# The causes of a hole, in the order in which they are told; links that are down come after them.
CAUSES = ("noroute", "dropped blackhole", "dropped unreachable", "dropped prohibit")

# Which words of a query, or of a line that takes a link down or up, are names, and of what.
NAMES = {"path": ("router",), "reach": ("router", "router"), "uses": ("link",), "loops": (), "delta": (),
         "blackholes": ("router",), "waypoint": ("router", "router", "router"), "down": ("link",), "up": ("link",)}


@dataclass
class Snapshot:
    """A network after the first entries of a history, with these links down beside those that the entries took down."""

    network: Network
    entries: Sequence[HistoryEntry]
    position: int
    down: frozenset[str] = frozenset()
    tables: dict[str, Table] = field(init=False)

    def __post_init__(self) -> None:
        self.tables = tables_after(self.entries, self.position, self.network.marked)
        self.down = self.down | frozenset(downs_after(self.entries, self.position))

    @cached_property
    def pieces(self) -> list[Run]:
        """Runs of addresses that every router treats alike, in order."""
        prefixes = {prefix for table in self.tables.values() for prefix in table.by_prefix}
        ends = {0, LAST_ADDRESS + 1} | {end for prefix in prefixes for end in (prefix.base, prefix.last + 1)}
        ordered = sorted(ends)
        return [(low, following - 1) for low, following in zip(ordered, ordered[1:])]

    def following(self, router: str, address: int) -> Target:
        """What a router does with an address, a route over a link that is down being no way on."""
        table = self.tables.get(router)
        return shown(NO_ROUTE if table is None else table.target(address), self.down)

    def walk(self, router: str, address: int) -> tuple[list[str], Target | None]:
        """The routers of a way and its end; None is a loop: as many hops as the topology has routers."""
        hops = [router]
        while True:
            target = self.following(hops[-1], address)
            if target.router is None:
                return hops, target
            if len(hops) > len(self.network.routers):
                return hops, None
            hops.append(target.router)

    def runs(self, holds: Callable[[int], bool]) -> list[Run]:
        """The addresses for which something holds, as runs that don't touch."""
        return list(joined(piece for piece in self.pieces if holds(piece[0])))


def joined(runs: Iterable[Run]) -> Iterator[Run]:
    """Runs in order, touching ones as one."""
    held: Run | None = None
    for low, high in runs:
        if held is not None and held[1] + 1 == low:
            held = (held[0], high)
            continue
        if held is not None:
            yield held
        held = (low, high)
    if held is not None:
        yield held


def run_text(run: Run) -> str:
    return f"{address_text(run[0])}-{address_text(run[1])}"


def run_lines(runs: list[Run]) -> list[str]:
    return [run_text(run) for run in runs] or ["none"]


def unknown_name(network: Network, words: list[str]) -> str | None:
    """The line that tells the first unknown name of a query or link line, from the left; None where all are known."""
    routers, links = set(network.routers), {link.name for link in network.links}
    names: list[tuple[str, str]] = []
    if words[0] == "without":
        names, words = [("link", name) for name in words[1].split(",")], words[2:]
    names += zip(NAMES[words[0]], words[1:])
    for kind, name in names:
        if name not in (routers if kind == "router" else links):
            return f"unknown {kind} {name}"
    return None


def answer_lines(network: Network, entries: Sequence[HistoryEntry], position: int, query: str) -> list[str]:
    """The lines of the answer to a query whose names are all known."""
    words = query.split(" ")
    down: frozenset[str] = frozenset()
    if words[0] == "without":
        down, words = frozenset(words[1].split(",")), words[2:]
    snapshot = Snapshot(network, entries, position, down)
    return ANSWERS[words[0]](snapshot, *words[1:])


def path(snapshot: Snapshot, router: str, address: str) -> list[str]:
    hops, end = snapshot.walk(router, read_address(address))
    return ["hops " + " ".join(hops), f"end {'loop' if end is None else end}"]


def reach(snapshot: Snapshot, router: str, to: str) -> list[str]:
    return run_lines(snapshot.runs(lambda address: to in snapshot.walk(router, address)[0]))


def waypoint(snapshot: Snapshot, router: str, to: str, through: str) -> list[str]:
    def slips_past(address: int) -> bool:
        hops, _ = snapshot.walk(router, address)
        return to in hops and through not in hops[:hops.index(to) + 1]

    return run_lines(snapshot.runs(slips_past))


def uses(snapshot: Snapshot, name: str) -> list[str]:
    link = next(link for link in snapshot.network.links if link.name == name)
    lines = []
    for router, _ in link.ends:
        def goes_over(address: int) -> bool:
            target = snapshot.following(router, address)
            return target.router is not None and target.link == name

        lines += [f"from {router}", *run_lines(snapshot.runs(goes_over))]
    return lines


def loops(snapshot: Snapshot) -> list[str]:
    """Each cycle with its least address and the number of its addresses."""
    found: dict[tuple[str, ...], tuple[int, int]] = {}
    for low, high in snapshot.pieces:
        for cycle in cycles_of(snapshot, low):
            least, count = found.get(cycle, (low, 0))
            found[cycle] = (least, count + high - low + 1)
    order = {router: place for place, router in enumerate(snapshot.network.routers)}
    ordered = sorted(found.items(), key=lambda told: (told[1][0], order[told[0][0]]))
    return [f"cycle {' '.join(cycle)} least {address_text(least)} addresses {count}"
            for cycle, (least, count) in ordered] or ["none"]


def cycles_of(snapshot: Snapshot, address: int) -> Iterator[tuple[str, ...]]:
    """The cycles of an address; each begins with its first router in the topology's order, which is met first."""
    told: set[str] = set()
    for router in snapshot.network.routers:
        hops, end = snapshot.walk(router, address)
        if end is None and router in hops[1:] and router not in told:
            cycle = tuple(hops[:hops.index(router, 1)])
            told.update(cycle)
            yield cycle


def blackholes(snapshot: Snapshot, router: str) -> list[str]:
    holes: dict[tuple[str, Target], list[Run]] = {}
    for piece in snapshot.pieces:
        hops, end = snapshot.walk(router, piece[0])
        if end is not None and end.text.startswith(("noroute", "dropped", "linkdown")):
            holes.setdefault((hops[-1], end), []).append(piece)
    order = {name: place for place, name in enumerate(snapshot.network.routers)}
    links = {link.name: place for place, link in enumerate(snapshot.network.links)}

    def rank(hole: tuple[str, Target]) -> tuple[int, int]:
        last, end = hole
        return order[last], len(CAUSES) + links[end.link] if end.link else CAUSES.index(end.text)

    lines = []
    for last, end in sorted(holes, key=rank):
        lines += [f"at {last} {end}", *run_lines(list(joined(holes[last, end])))]
    return lines or ["none"]


def delta(snapshot: Snapshot) -> list[str]:
    before = max(0, snapshot.position - 1)
    found = changes(snapshot.entries, before, snapshot.position, snapshot.network.routers, snapshot.network.marked)
    return [f"{change.router} {run_text((change.low, change.high))} {change.before} -> {change.after}"
            for change in found] or ["none"]


ANSWERS: dict[str, Callable[..., list[str]]] = {
    "path": path, "reach": reach, "uses": uses, "loops": loops, "blackholes": blackholes, "waypoint": waypoint,
    "delta": delta,
}
