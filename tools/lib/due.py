"""What a run of `deltanet` has to print for some words and files, and what is wrong with what it printed.

Where the words, the topology or a script are refused, the text is one error line. Otherwise it is a report, in which
the feeds' lines are known, and the history and the answers are not: jobs run side by side. So a report is judged. Its
history is a shuffle of the feeds' updates and the scripts' link lines, each job's own in the order of its lines; each
position fits what its job had taken, down and up; and each answer is the one that the plain evaluator gives over the
entries that it names.

The rules are those of docs/FORMATS.md. Nothing here is shared with the program, and nothing is proved.
"""

from __future__ import annotations

import os
import re
from collections.abc import Iterator, Sequence
from dataclasses import dataclass, field

from frames import SETTABLE_TYPES, UNICAST, Feed, Route, Skipped
from network import Network, read_topology
from queries import answer_lines, unknown_name
from reading import Reading
from report import Answer, HistoryEntry, LinkLine, Report, ReportError, link_words, parse_report
from run_words import FeedPart, RunWords, read_words
from script import LINK_VERBS

# The exit status of each error line, by the words that follow `error`.
STATUSES = {"words": 2, "part": 2, "jobs": 2, "topology": 3, "script": 4, "read": 5}
# The entries that a history has at most. No run has as many: links go down and come up no more there.
LONGEST_HISTORY = 2 ** 32 - 1


@dataclass(frozen=True)
class Ended:
    """How a run ended: its exit status, below 0 where a signal ended it, and what it printed."""

    status: int
    text: bytes
    errors: bytes = b""


@dataclass
class FeedDue:
    """What a feed comes to: its lines in the report, and the updates of each of its frames as the history prints
    them, none where the frame is refused."""

    lines: list[str]
    frames: list[list[str]]
    is_clean: bool
    is_read: bool


@dataclass(frozen=True)
class Asked:
    """A line of a script of which something is told: its number, its words, and how many entries of its job come before it.
    `is_link` is whether it takes a link down or up, which makes an entry where the topology has the link."""

    line: int
    query: str
    before: int
    is_link: bool = False


@dataclass
class Job:
    """What a job does: its entries in order, as the history prints them after their positions, and what it is asked."""

    entries: list[str] = field(default_factory=list)
    asked: list[Asked] = field(default_factory=list)


def faults_of(words: Sequence[str], folder: str, ended: Ended, refusal: str | None) -> list[str]:
    """What is wrong with a run of these words, from `run` on, in a folder. `refusal` is the error line that is due,
    None where a report is."""
    if not 0 <= ended.status <= 7:
        return [f"the run ended with status {ended.status}, which is none of 0 to 7"]
    wrong = [f"something on standard error: {ended.errors[:200]!r}"] if ended.errors else []
    if refusal is not None:
        return wrong + refusal_faults(refusal, ended)
    return wrong + report_faults(words, folder, ended)


def refusal_faults(refusal: str, ended: Ended) -> list[str]:
    """What is wrong with a run that has to print this error line."""
    wrong = []
    status = STATUSES[refusal.split()[1]]
    if ended.status != status:
        wrong.append(f"status {ended.status}, due {status}")
    if ended.text != f"{refusal}\n".encode():
        wrong.append(f"came {ended.text[:200]!r}, due {refusal!r}")
    return wrong


def report_faults(words: Sequence[str], folder: str, ended: Ended, limit: int = LONGEST_HISTORY) -> list[str]:
    """What is wrong with a run that has to print a report, whose history may have so many entries."""
    try:
        report = parse_report("report", ended.text)
    except ReportError as error:
        return [f"status {ended.status}, due a report; {error}"]
    wrong = list(first_difference("the report", ended.text.decode("utf-8", "replace").split("\n")[:-1],
                                  report.printed_lines()))
    said = read_words(list(words))
    network = read_topology(os.path.join(folder, said.topology))
    feeds = [feed_due(network, folder, number, part) for number, part in enumerate(said.feeds, 1)]
    jobs = jobs_due(network, said, folder, feeds)
    status = status_due(feeds)
    if ended.status != status:
        wrong.append(f"status {ended.status}, due {status}")
    wrong += feed_faults(report, feeds)
    wrong += history_faults(report, jobs, len(report.entries) == limit)
    return wrong or list(told_faults(network, report, jobs))


def status_due(feeds: Sequence[FeedDue]) -> int:
    if not all(feed.is_read for feed in feeds):
        return 5
    return 0 if all(feed.is_clean for feed in feeds) else 1


def feed_due(network: Network, folder: str, number: int, part: FeedPart) -> FeedDue:
    """What a feed comes to, by the decoder of the tools."""
    frames: list[list[str]] = []
    refused: list[str] = []
    skipped = 0
    head = f"feed {number} {part.router}"
    reading = Reading.of(network, part.router)
    path = os.path.join(folder, part.file)
    if os.path.isdir(path):
        return FeedDue([f"{head} updates 0 skipped 0 refused 0 readfault"], [], False, False)
    with open(path, "rb", buffering=0) as file:
        feed = Feed(file)
        for frame in feed:
            decoded = reading.decode(frame)
            frames.append([f"feed {number} {reading.vrfs.get(route.table, part.router)} "
                           f"{operation(network, part.router, route)}" for route in decoded.updates])
            if decoded.refused is not None:
                refused.append(f"refused offset {frame.offset} message {decoded.refused.at} cause"
                               f" {decoded.refused.number} {decoded.refused.cause}")
                continue
            skipped += sum(isinstance(message, Skipped) for message in decoded.messages)
    updates = sum(map(len, frames))
    line = f"{head} updates {updates} skipped {skipped} refused {len(refused)} {feed.end}"
    is_clean = not refused and feed.end.kind == "end"
    return FeedDue([line, *refused], frames, is_clean, feed.end.kind != "readfault")


def operation(network: Network, router: str, route: Route) -> str:
    """An update of a device's feed as the history prints it after its router."""
    metric = "" if route.metric is None else f" metric {route.metric}"
    if not route.is_set:
        return f"clear {route.prefix}{metric}"
    return f"set {route.prefix}{metric} {target(network, router, route)}"


def target(network: Network, router: str, route: Route) -> str:
    """What a route that is set does with its addresses. Its interface is any of the device's, whichever its table is."""
    if route.route_type != UNICAST:
        return "local" if route.route_type == 2 else f"dropped {SETTABLE_TYPES[route.route_type]}"
    port = network.port(router, route.interface)
    if port.far is not None and (route.gateway is not None or port.unnumbered):
        return f"to {port.far} by {port.link}"
    is_exit = port.is_edge and route.gateway is not None
    return f"{'exit' if is_exit else 'onlink'} {route.interface}"


def jobs_due(network: Network, said: RunWords, folder: str, feeds: Sequence[FeedDue]) -> list[Job]:
    """The jobs of a run in order: the scripts', and then one for each feed that no script takes."""
    frames = {part.router: list(feed.frames) for part, feed in zip(said.feeds, feeds)}
    links = {link.name for link in network.links}
    jobs = []
    for number, script in enumerate(said.scripts, 1):
        with open(os.path.join(folder, script.file), "rb") as file:
            jobs.append(script_job(number, file.read(), frames, links))
    return jobs + [Job([update for frame in rest for update in frame]) for rest in frames.values()]


def script_job(number: int, text: bytes, frames: dict[str, list[list[str]]], links: set[str]) -> Job:
    """What the script of a job of this number does: its lines in order, and then the rest of each feed that they name. What
    it takes is taken away from `frames`, its feeds included."""
    job = Job()
    named: dict[str, list[list[str]]] = {}
    for line, words in script_lines(text):
        if words[0] != "take":
            is_link = words[0] in LINK_VERBS
            job.asked.append(Asked(line, " ".join(words), len(job.entries), is_link))
            if is_link and words[1] in links:
                job.entries.append(f"job {number} {link_words(words[0] == 'down', words[1])}")
            continue
        rest = named.setdefault(words[1], frames[words[1]])
        count = len(rest) if words[2] == "all" else int(words[2])
        job.entries += [update for frame in rest[:count] for update in frame]
        del rest[:count]
    for router, rest in named.items():
        job.entries += [update for frame in rest for update in frame]
        del frames[router]
    return job


def script_lines(text: bytes) -> Iterator[tuple[int, list[str]]]:
    """The lines of an accepted script that say something, with their numbers."""
    for number, line in enumerate(text.split(b"\n"), 1):
        words = [word.decode("utf-8", "replace") for word in re.split(rb"[ \t\r]+", line) if word]
        if words and not words[0].startswith("#"):
            yield number, words


def feed_faults(report: Report, feeds: Sequence[FeedDue]) -> Iterator[str]:
    came = [line for feed in report.feeds for line in feed.printed_lines()]
    yield from first_difference("feeds", came, [line for feed in feeds for line in feed.lines])


def history_faults(report: Report, jobs: Sequence[Job], is_full: bool) -> Iterator[str]:
    """That the history is a shuffle of the jobs' entries; where it is full, of the first ones of each. No two jobs have a
    feed in common, and a link's entry names its job, so the entries of a job are those that its lines give."""
    due = {entry: job for job, one in enumerate(jobs) for entry in one.entries}
    came: list[list[str]] = [[] for _ in jobs]
    for entry in report.entries:
        if entry.words not in due:
            yield f"history {entry.position}: {entry.words} is no update of a feed, and no link line of a script"
            return
        came[due[entry.words]].append(entry.words)
    for number, (one, entries) in enumerate(zip(jobs, came), 1):
        wanted = one.entries[:len(entries)] if is_full else one.entries
        yield from first_difference(f"the history of job {number}", entries, wanted)


def told_faults(network: Network, report: Report, jobs: Sequence[Job]) -> Iterator[str]:
    """What is wrong with what is told of the jobs under a history that is right."""
    if len(report.jobs) != len(jobs):
        yield f"{len(report.jobs)} jobs, due {len(jobs)}"
        return
    due = {entry: number for number, job in enumerate(jobs, 1) for entry in job.entries}
    places: dict[int, list[int]] = {number: [] for number in range(1, len(jobs) + 1)}
    for entry in report.entries:
        places[due[entry.words]].append(entry.position)
    for number, job in enumerate(jobs, 1):
        told = [one for one in report.told if one.job == number]
        came = [f"line {one.line} {one.query}" for one in told]
        wrong = list(first_difference(f"the lines of job {number}", came,
                                      [f"line {asked.line} {asked.query}" for asked in job.asked]))
        yield from wrong
        if not wrong:
            yield from job_faults(network, report.entries, places[number], list(zip(job.asked, told)))


def job_faults(network: Network, entries: Sequence[HistoryEntry], places: Sequence[int],
               told: Sequence[tuple[Asked, Answer | LinkLine]]) -> Iterator[str]:
    """What is wrong with what is told of a job, whose entries stand at these places of the history."""
    last = 0
    for asked, one in told:
        where = f"job {one.job} line {asked.line}, {asked.query}"
        unknown = unknown_name(network, asked.query.split(" "))
        if unknown is not None:
            if one.position is not None:
                yield f"{where}: a position, and {unknown}"
            yield from first_difference(where, one.lines, [unknown])
        elif asked.is_link:
            yield from link_faults(where, one, places[asked.before:asked.before + 1])
        elif one.position is None:
            yield f"{where}: no position"
        else:
            before, after = places[:asked.before], places[asked.before:]
            least, most = max([last, *before[-1:]]), after[0] - 1 if after else len(entries)
            if not least <= one.position <= most:
                yield f"{where}: at {one.position}, due from {least} to {most}"
                continue
            last = one.position
            yield from first_difference(where, one.lines, answer_lines(network, entries, last, asked.query))


def link_faults(where: str, one: Answer | LinkLine, place: Sequence[int]) -> Iterator[str]:
    """What is wrong with what is told of a link that goes down or comes up. Its entry stands at this place; where it has
    none the history was full. That it stands behind all that its job was told before is seen at the queries: they stand
    before the next entry of their job."""
    if not isinstance(one, LinkLine):
        yield f"{where}: an answer"
    elif one.is_full == bool(place) or [one.position] != [*place, None][:1]:
        came = "full" if one.is_full else f"at {one.position}"
        yield f"{where}: {came}, due {f'at {place[0]}' if place else 'full'}"


def first_difference(what: str, came: Sequence[str], due: Sequence[str]) -> Iterator[str]:
    """The first line that isn't as it has to be, if there is one."""
    if list(came) == list(due):
        return
    place = next((place for place, pair in enumerate(zip(came, due)) if pair[0] != pair[1]), min(len(came), len(due)))
    yield f"{what}, line {place + 1}: came {list(came[place:place + 1])}, due {list(due[place:place + 1])}"
