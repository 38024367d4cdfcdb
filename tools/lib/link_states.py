"""When links went down and came up in a recording, by what is known of the interfaces at their ends.

A feed tells it by its connected routes: an interface whose last one goes is down from that frame on. A new session tells
only of what is up then, so an interface that went down between two sessions isn't seen. `ip -ts -o monitor link` tells it of
a router by the kernel's own word and to the millisecond. A link is down while one of its ends is.
"""

from __future__ import annotations

import re
from bisect import bisect_left
from collections import Counter
from collections.abc import Iterable, Iterator, Mapping
from dataclasses import dataclass
from datetime import datetime, tzinfo

from command import ToolError
from network import End, Network
from survey import Interface, survey
from times import Moment

# A line that `ip -ts -o monitor link` prints: the time, whether the interface is gone, its number, its flags. One that is up
# and has a carrier has the flag LOWER_UP, and UP.
MONITORED = re.compile(rb"\[(\d{4}-\d\d-\d\dT\d\d:\d\d:\d\d(?:\.\d+)?)\] (Deleted )?(\d+): [^<]*<([A-Z0-9_,-]*)>.*")


@dataclass(frozen=True)
class Turn:
    """An end of a link, named by its device, goes down or comes up."""

    time: datetime
    end: End
    is_down: bool


@dataclass(frozen=True)
class Change:
    """A time at which links went down or came up, and all that are down from then on."""

    time: datetime
    down: frozenset[str]


def turns_of_feed(router: str, path: str, moments: list[Moment], vrfs: Mapping[int, str] | None = None) -> Iterator[Turn]:
    """What a feed tells of its device's interfaces, by routes of the main table and of its VRFs, at the times at which its
    frames were told of."""
    for index, interface in survey(router, path, vrfs).interfaces.items():
        for frame, is_down in _turns_of(interface):
            place = bisect_left(moments, frame, key=lambda moment: moment.frames)
            if place < len(moments):
                yield Turn(moments[place].time, (router, index), is_down)


def _turns_of(interface: Interface) -> Iterator[tuple[int, bool]]:
    """The frames with which an interface comes to have a connected prefix, and to have none any more, in order."""
    steps: Counter[int] = Counter()
    for stay in (stay for stays in interface.connected.values() for stay in stays):
        steps[stay.begin] += 1
        if stay.end is not None:
            steps[stay.end] -= 1
    standing = 0
    for frame in sorted(steps):
        before, standing = standing, standing + steps[frame]
        if (before > 0) != (standing > 0):
            yield frame, standing == 0


def turns_of_monitor(router: str, path: str, zone: tzinfo | None) -> Iterator[Turn]:
    """What a file says that `ip -ts -o monitor link` wrote on a router, whose times are of this zone."""
    with open(path, "rb") as file:
        lines = file.read().split(b"\n")
    for number, line in enumerate(lines, 1):
        match = MONITORED.fullmatch(line)
        if match is None:
            if line.strip():
                raise ToolError(f"{path}: line {number}: this isn't what `ip -ts -o monitor link` prints")
            continue
        flags = match[4].split(b",")
        is_down = match[2] is not None or not (b"UP" in flags and b"LOWER_UP" in flags) or b"NO-CARRIER" in flags
        yield Turn(datetime.fromisoformat(match[1].decode()).replace(tzinfo=zone), (router, int(match[3])), is_down)


def changes_of(network: Network, turns: Iterable[Turn]) -> list[Change]:
    """When which links of a network are down, in order of time. Ends count as up until it is said otherwise."""
    ends: set[End] = set()
    changes: list[Change] = []
    for turn in sorted(turns, key=lambda one: one.time):
        ends = ends | {turn.end} if turn.is_down else ends - {turn.end}
        down = frozenset(link.name for link in network.links if ends.intersection(map(network.at_device, link.ends)))
        if down != (changes[-1].down if changes else frozenset()):
            changes.append(Change(turn.time, down))
    return changes


def down_at(changes: list[Change], time: datetime) -> frozenset[str]:
    """The links that are down at a time, what happens at that time included."""
    before = [change for change in changes if change.time <= time]
    return before[-1].down if before else frozenset()
