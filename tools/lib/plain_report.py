"""A report as the plain evaluator has it, in one of the orders that the program may choose."""

from __future__ import annotations

from collections.abc import Iterator, Sequence
from itertools import accumulate
from random import Random

from due import Asked, Job, feed_due, jobs_due, status_due
from network import Network
from queries import answer_lines, unknown_name
from report import HistoryEntry, read_entry
from run_words import RunWords


def report_of(network: Network, said: RunWords, folder: str, chance: Random | None = None) -> tuple[int, Iterator[str]]:
    """The status and the lines of a report over files in a folder. The jobs come one after another; by chance, their
    entries are mixed, and each query pins where it may."""
    feeds = [feed_due(network, folder, number, part) for number, part in enumerate(said.feeds, 1)]
    jobs = jobs_due(network, said, folder, feeds)
    places, history = merged(jobs, chance)
    begins = [0, *accumulate(len(job.entries) for job in jobs)] if chance is None else [0] * len(jobs)
    told = [told_lines(network, history, job, own, begin, chance) for job, own, begin in zip(jobs, places, begins)]
    return status_due(feeds), _lines([line for feed in feeds for line in feed.lines], history, told)


def _lines(feeds: list[str], history: list[HistoryEntry], jobs: list[Iterator[str]]) -> Iterator[str]:
    yield from feeds
    yield f"history {len(history)}"
    for entry in history:
        yield f"{entry.position} {entry.words}"
    for number, lines in enumerate(jobs, 1):
        yield f"job {number}"
        yield from lines
    yield "done"


def merged(jobs: Sequence[Job], chance: Random | None) -> tuple[list[list[int]], list[HistoryEntry]]:
    """The positions that each job's entries have in one history, and this history."""
    owners = [number for number, job in enumerate(jobs) for _ in job.entries]
    if chance is not None:
        chance.shuffle(owners)
    places: list[list[int]] = [[] for _ in jobs]
    history: list[HistoryEntry] = []
    for position, number in enumerate(owners, 1):
        history.append(read_entry(position, jobs[number].entries[len(places[number])]))
        places[number].append(position)
    return places, history


def told_lines(network: Network, history: Sequence[HistoryEntry], job: Job, places: Sequence[int], begin: int,
               chance: Random | None) -> Iterator[str]:
    """What is printed of a job whose entries stand at these places, its first query not before `begin`."""
    last = begin
    for asked in job.asked:
        unknown = unknown_name(network, asked.query.split(" "))
        if unknown is not None:
            yield f"line {asked.line} {asked.query}"
            yield unknown
            continue
        last = places[asked.before] if asked.is_link else pinned(asked, places, last, len(history), chance)
        yield f"line {asked.line} at {last} {asked.query}"
        if not asked.is_link:
            yield from answer_lines(network, history, last, asked.query)


def pinned(asked: Asked, places: Sequence[int], last: int, length: int, chance: Random | None) -> int:
    """Where a query pins, after a line of its job with this position: the first place that it may have, or one by chance."""
    least = max([last, *places[:asked.before][-1:]])
    most = places[asked.before] - 1 if asked.before < len(places) else length
    return least if chance is None else chance.randint(least, most)
