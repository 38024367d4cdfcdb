"""Which interfaces stand at one segment at one time, by the prefixes connected there and by when they were.

An interface that is made anew has another number, and the prefix of the one before. So ends are paired as they lived: by
their order, where two routers had as many and the files of times beside the recordings don't deny it; else by these times.
"""

from __future__ import annotations

from collections import defaultdict
from collections.abc import Iterator
from dataclasses import dataclass, field

from command import told
from frames import Prefix
from network import End, text_of
from survey import Survey, holders
from times import LONGEST_SILENCE

# A stay of a prefix at an interface, from second to second.
Span = tuple[float, float]


@dataclass
class Segment:
    """A prefix that several interfaces have: the pairs of ends that stood there with nobody else, and the other ends,
    each with what hinders a link."""

    prefix: Prefix
    ends: list[End]
    pairs: list[tuple[End, End]] = field(default_factory=list)
    hindered: dict[End, str] = field(default_factory=dict)

    @property
    def routers(self) -> list[str]:
        return list(dict.fromkeys(router for router, _index in self.ends))

    @property
    def is_shared(self) -> bool:
        """Whether more than two routers stand there at a time, as far as it is known."""
        return len(self.routers) > 2 and bool(self.hindered)


def segments(surveys: list[Survey]) -> Iterator[Segment]:
    """The segments that more than one interface has, in the order of their prefixes."""
    by_router = {router: one for one in surveys for router in one.routers}
    for prefix, ends in sorted(holders(surveys).items()):
        for part in _parts(ends, by_router):
            if len(part) > 1:
                yield _segment(prefix, part, by_router)


def _parts(ends: list[End], surveys: dict[str, Survey]) -> list[list[End]]:
    """The ends that may be at one segment: all that have the prefix. Where a device has it in several tables, these may be
    networks of their own with the same addresses: then those of each number, if each has two devices."""
    by_table: dict[int, list[End]] = defaultdict(list)
    for end in ends:
        by_table[surveys[end[0]].interfaces[end[1]].table].append(end)
    if len(by_table) < 2 or len({surveys[router].router for router, _index in ends}) == len(ends):
        return [ends]
    are_apart = all(len({surveys[router].router for router, _index in part}) == 2 for part in by_table.values())
    return list(by_table.values()) if are_apart else [ends]


def _segment(prefix: Prefix, ends: list[End], surveys: dict[str, Survey]) -> Segment:
    segment = Segment(prefix, ends)
    by_router: dict[str, list[End]] = defaultdict(list)
    for end in ends:
        by_router[end[0]].append(end)
    for own in by_router.values():
        own.sort(key=lambda end: surveys[end[0]].interfaces[end[1]].connected[prefix][0].begin)
    if len(by_router) == 1:
        return segment
    has_times = all(surveys[router].moments for router in by_router)
    if len(by_router) == 2 and len(set(map(len, by_router.values()))) == 1:
        pairs = list(zip(*by_router.values()))
        if not has_times or all(_meet(*(_spans(prefix, end, surveys[end[0]]) for end in pair)) for pair in pairs):
            segment.pairs = pairs
            return segment
    if has_times:
        _pair_by_times(segment, surveys)
    if not segment.pairs and not segment.hindered:
        _pair_by_order(segment, list(by_router.values()))
    return segment


def _pair_by_times(segment: Segment, surveys: dict[str, Survey]) -> None:
    """Pairs ends that stood there at one time. Says nothing where no two did: the clocks differ."""
    spans = {end: _spans(segment.prefix, end, surveys[end[0]]) for end in segment.ends}
    partners = {end: [other for other in segment.ends if other[0] != end[0] and _meet(spans[end], spans[other])]
                for end in segment.ends}
    if not any(partners.values()):
        return
    two_routers = len(segment.routers) == 2
    for end in segment.ends:
        near = partners[end]
        if len({router for router, _index in near}) > 1 or not two_routers and not near:
            others = told(text_of(other) for other in segment.ends if other != end)
            segment.hindered[end] = f"{segment.prefix} is connected at {others} too, so it is no link of two routers"
            continue
        last = max(near, key=lambda other: spans[other][-1], default=None)
        back = None if last is None else max(partners[last], key=lambda other: spans[other][-1])
        if last is None or back != end:
            stayed = f", while {text_of(last)} stayed" if last else ""
            later = told(text_of(other) for other in segment.ends if other[0] == end[0] and other != end)
            segment.hindered[end] = (f"{segment.prefix} was connected here for a part of the time and at {later} for "
                                     f"another{stayed}; a topology has a link's end at one of them")
        elif (last, end) not in segment.pairs:
            segment.pairs.append((end, last))


def _spans(prefix: Prefix, end: End, survey: Survey) -> list[Span]:
    return [(survey.seconds(stay.begin), survey.seconds(stay.end))
            for stay in survey.interfaces[end[1]].connected[prefix]]


def _meet(first: list[Span], second: list[Span]) -> bool:
    """Whether two ends stood there together for longer than the files of times can err."""
    together = sum(max(0.0, min(one[1], other[1]) - max(one[0], other[0])) for one in first for other in second)
    return together > LONGEST_SILENCE.total_seconds()


def _pair_by_order(segment: Segment, by_router: list[list[End]]) -> None:
    """The first with the first, and so on; where one router had more interfaces, the last with the last alone."""
    if len(by_router) > 2:
        for end in segment.ends:
            others = told(text_of(other) for other in segment.ends if other != end)
            segment.hindered[end] = f"{segment.prefix} is connected at {others} too, so it is no link of two routers"
        return
    first, second = by_router
    if len(first) == len(second):
        segment.pairs = list(zip(first, second))
        return
    segment.pairs = [(first[-1], second[-1])]
    for end in first[:-1] + second[:-1]:
        others = told(text_of(other) for other in segment.ends if other[0] != end[0])
        segment.hindered[end] = (f"{segment.prefix} is connected at {others} too, and which of them was joined with this "
                                 "one isn't known without files of times")
