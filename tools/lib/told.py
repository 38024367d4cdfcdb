"""A way in words: what decided each hop, and why a hop has no route.

The program's answer is `noroute` in three cases that an operator must not mix up: the router has no route for the
address, nothing of its feed was taken yet, or it has no feed in this run at all.
"""

from __future__ import annotations

from dataclasses import dataclass
from typing import Iterator

from brief import Brief
from command import ToolError
from evaluator import Everyone, Hop, Table, Way, tables_after, way
from network import End, Link, Network, text_of
from report import address_text, read_address


@dataclass
class Moment:
    """A report up to a position of its history: the tables there as far as they have routes for one address, and the links
    that are down, each with the entry by which it went down."""

    report: Brief
    position: int
    address: int
    tables: dict[str, Table]
    down: dict[str, int]
    # The tables where all routers replace by prefix, if no topology says which do, and it may make a difference.
    otherwise: dict[str, Table] | None = None

    @staticmethod
    def of(report: Brief, word: str, address: int) -> Moment:
        position = read_position(report, word)
        entries = [entry for entry in report.entries_about(address) if entry.position <= position]
        tables = tables_after(entries, len(entries), report.marked)
        moment = Moment(report, position, address, tables, report.downs_at(position))
        if report.network is None and any(table.is_mixed for table in tables.values()):
            moment.otherwise = tables_after(entries, len(entries), Everyone())
        return moment

    def way(self, router: str) -> Way:
        return way(self.tables, router, self.address, down=self.down)

    def unsure(self, hops: list[Hop]) -> Iterator[str]:
        """Which routers of a way have another route for the address, should the topology mark them to replace by prefix."""
        for hop in hops if self.otherwise is not None else ():
            route = self.otherwise[hop.router].best(self.address) if hop.router in self.otherwise else hop.route
            if route != hop.route:
                other = "no route" if route is None else f"{route.prefix} metric {route.metric} {route.target}"
                yield (f"{hop.router}: sets of several metrics came; where the topology says replace = \"prefix\" of it, it "
                       f"has {other} here: give --topology")

    def why_no_route(self, router: str) -> str:
        """Which of the meanings of `noroute` this one has."""
        feed = self.report.feed_of(router)
        if feed is None:
            device = self.report.device_of(router)
            return "no feed in this run" if device == router else f"no feed of its device {device} in this run"
        first, table = None, Table(router in self.report.marked)
        for entry in self.report.entries_of(router):
            first = first or entry.position
            if entry.position > self.position:
                break
            table.apply(entry)
        is_vrf = feed.router != router
        if first is None:
            return f"the feed of its device {feed.router} has no update of it" if is_vrf else "its feed has no updates"
        if first > self.position:
            return (f"{'none of its updates' if is_vrf else 'nothing of its feed'} is taken yet: "
                    f"its first update is entry {first}")
        routes = len(table.routes())
        if routes == 0:
            return "its table is empty here"
        return f"none of the {routes} in its table covers {address_text(self.address)}"


def take_topology(report: Brief, network: Network, path: str) -> None:
    """Takes a topology, read from `path`, as that of the report's run. It may be: it has the report's routers, VRFs and links,
    and each route over a link goes to the link's far end."""
    for router, number in report.owners.of.items():
        device = report.owners.feeds[number].router
        if router not in network.routers:
            raise ToolError(f"{path}: it has no router {router}, whose feed is in {report.path}: another run's?")
        if network.device_of(router) != device:
            what = f"no VRF of {device}, in whose feed" if router != device else "a VRF, and"
            raise ToolError(f"{path}: in it {router} is {what} {report.path} has updates of it: another run's?")
    links = {link.name: link for link in network.links}
    for router, far, name in sorted(report.ways_on):
        link = links.get(name)
        near = None if link is None else near_end(link, far)
        if near is None or network.device_of(near[0]) != network.device_of(router):
            raise ToolError(f"{path}: it has no link {name} from {router} to {far}, by which"
                            f" {report.path} has routes: another run's?")
    for entry in report.link_entries:
        if entry.link not in links:
            raise ToolError(f"{path}: it has no link {entry.link}, of which {report.path} says {entry}: another run's?")
    report.network = network


def near_end(link: Link, far: str) -> End | None:
    """The end of a link by which one comes to a router at the other; None where the router is at neither."""
    first, second = link.ends
    return first if far == second[0] else second if far == first[0] else None


def ends_to(link: Link, far: str) -> tuple[str, str]:
    """The two ends of a link as texts, that of the router that it leads to last."""
    near, there = sorted(link.ends, key=lambda end: end[0] == far)
    return text_of(near), text_of(there)


def read_position(report: Brief, word: str) -> int:
    """A position of the history, by its number or as `all`."""
    length = report.length
    if word == "all":
        return length
    if not (word.isascii() and word.isdigit()) or int(word) > length:
        raise ToolError(f"{report.path}: {word!r} is no position of its history: a number from 0 to {length}, or all")
    return int(word)


def read_address_word(word: str) -> int:
    address = read_address(word)
    if address is None:
        raise ToolError(f"{word!r} is no address: four numbers from 0 to 255 without leading zeros, parted by dots")
    return address


def decided_by(moment: Moment, hop: Hop) -> str:
    """The route that decided a hop, and the entry that set it; where its link is down, the entry that took it down too."""
    route = hop.route
    words = f"{route.prefix} metric {route.metric} {route.target} (entry {route.position})"
    if hop.target == route.target:
        return words
    return f"{words}, and {hop.target.link} is down (entry {moment.down[hop.target.link]})"


def beside(moment: Moment, hop: Hop) -> Iterator[str]:
    """The routes of the same prefix with a greater metric. The older module of FRR leaves such routes behind."""
    metrics = moment.tables[hop.router].by_prefix[hop.route.prefix]
    for metric in sorted(metrics):
        if metric != hop.route.metric:
            other = metrics[metric]
            yield f"beside it: metric {metric} {other.target} (entry {other.position})"


def warnings(report: Brief, routers: list[str]) -> Iterator[str]:
    """What makes answers that go through these routers doubtful."""
    for router in dict.fromkeys(routers):
        feed = report.feed_of(router)
        if feed is None:
            continue
        whose = "its feed" if feed.router == router else f"the feed of {feed.router}"
        if feed.refused:
            causes = ", ".join(dict.fromkeys(refused.cause for refused in feed.refused))
            frames = "1 frame" if len(feed.refused) == 1 else f"{len(feed.refused)} frames"
            yield f"{router}: {frames} of {whose} refused ({causes}); its routes may be stale, see tools/stale"
        if feed.end != "end":
            yield f"{router}: {whose} ended in '{feed.end}'; what came after isn't here"
