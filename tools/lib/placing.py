"""Whether the feeds stand at the right routers: which feed fits which router of a topology.

A topology names no prefixes. But two feeds share a prefix at one interface each where a link joins these interfaces,
so a feed's place shows by its links: give a feed to a router, follow the router's links, and the feeds at the far
ends are settled too, and so on.
"""

from __future__ import annotations

from collections import defaultdict, deque
from dataclasses import dataclass

from network import End, Network
from survey import Survey, holders

# Which router each feed is of: a feed is named here by the router that the user gave it to.
Assignment = dict[str, str]

# Beginnings that are tried, so that a large network with slips in it is still looked at in seconds.
MOST_BEGINNINGS = 2_048
# A prefix that more interfaces have (a wide segment, an address used everywhere) shows no link.
MOST_HOLDERS = 16


@dataclass
class Sharing:
    """Which interfaces of two routers share a connected prefix. They are named by their devices, whose feeds they are in."""

    partners: dict[End, set[End]]

    @staticmethod
    def of(surveys: list[Survey]) -> Sharing:
        devices = {router: one.router for one in surveys for router in one.routers}
        partners: dict[End, set[End]] = defaultdict(set)
        for ends in holders(surveys).values():
            if len(ends) <= MOST_HOLDERS:
                for router, index in ends:
                    partners[devices[router], index].update(
                        (devices[other], far) for other, far in ends if other != router)
        return Sharing(partners)

    def share(self, first: End, second: End) -> bool:
        return second in self.partners.get(first, ())


@dataclass(frozen=True)
class Fit:
    """How well feeds fit: the links whose ends share a prefix, and the interfaces that the topology doesn't have."""

    links: int
    unknown: int

    def is_better_than(self, other: Fit) -> bool:
        """More links fit; or as many, and every interface is known now where some weren't."""
        return self.links > other.links or (self.links == other.links and self.unknown == 0 < other.unknown)


class Placing:
    """The feeds at the routers of a topology."""

    def __init__(self, network: Network, surveys: list[Survey]) -> None:
        self.network = network
        self.surveys = {one.router: one for one in surveys}
        self.sharing = Sharing.of(surveys)
        self.given: Assignment = {router: router for router in self.surveys}
        # The ends of links between two devices, which are named by these.
        ends = [[network.at_device(end) for end in link.ends] for link in network.links if not link.unnumbered]
        self.links = [(first, second) for first, second in ends if first[0] != second[0]]
        self.links_of: dict[str, list[tuple[End, End]]] = defaultdict(list)
        for link in self.links:
            for device, _index in link:
                self.links_of[device].append(link)

    def fit(self, places: Assignment) -> Fit:
        """How well the feeds fit with each at its place."""
        feeds = {router: feed for feed, router in places.items()}
        links = 0
        for link in self.links:
            (first, first_index), (second, second_index) = link
            if first in feeds and second in feeds:
                links += self.sharing.share((feeds[first], first_index), (feeds[second], second_index))
        unknown = sum(self.network.port(router, index) is None
                      for feed, router in places.items() for index in self.surveys[feed].interfaces)
        return Fit(links, unknown)

    def better(self) -> Assignment | None:
        """The places where the feeds fit best, where these aren't those that were given."""
        best, best_fit = None, self.fit(self.given)
        fed_links = sum(all(router in self.surveys for router, _index in link) for link in self.links)
        if best_fit == Fit(fed_links, 0):
            return None
        beginnings = [(feed, router) for feed in self.surveys for router in self.network.devices if feed != router]
        for feed, router in beginnings[:MOST_BEGINNINGS]:
            places = self._fill(self._follow(feed, router))
            fit = self.fit(places)
            if fit.is_better_than(best_fit):
                best, best_fit = places, fit
        return best

    def _follow(self, feed: str, router: str) -> Assignment:
        """What follows for other feeds where one feed is of a certain router."""
        found: Assignment = {feed: router}
        taken = {router}
        waiting = deque([feed])
        while waiting:
            near = waiting.popleft()
            for link in self.links_of[found[near]]:
                here, there = link if link[0][0] == found[near] else link[::-1]
                fits = [end[0] for end in self.sharing.partners.get((near, here[1]), ()) if end[1] == there[1]]
                if len(fits) == 1 and fits[0] not in found and there[0] not in taken:
                    found[fits[0]] = there[0]
                    taken.add(there[0])
                    waiting.append(fits[0])
        return found

    def _fill(self, found: Assignment) -> Assignment:
        """The other feeds stay where they were given; those whose router is taken go to the routers left free."""
        places = dict(found)
        taken = set(places.values())
        for feed in self.given:
            if feed not in places and feed not in taken:
                places[feed] = feed
                taken.add(feed)
        free = [router for router in self.given if router not in taken]
        for feed in self.given:
            if feed not in places and free:
                places[feed] = free.pop(0)
        return places
