"""A written report of `deltanet run`, read back.

The layout is that of docs/FORMATS.md. The reader is strict: a report that breaks off, or whose numbers don't fit
together, is refused with its file and line, since answers over half a history would be wrong in silence.
"""

from __future__ import annotations

import re
import sys
from dataclasses import dataclass, field
from functools import lru_cache
from typing import Iterable, Iterator, NamedTuple

from progress import Teller

NAME = r"[a-z0-9_-]{1,32}"
PREFIX = r"\d+\.\d+\.\d+\.\d+/\d+"
END = r"end|cutshort \d+|lost \d+ (?:BadVersion|BadFrameLength)|toolong|full|readfault"

FEED_LINE = re.compile(rf"feed (\d+) ({NAME}) updates (\d+) skipped (\d+) refused (\d+) ({END})", re.ASCII)
REFUSED_LINE = re.compile(r"refused offset (\d+) message (\d+) cause (\d+) ([A-Za-z]+)", re.ASCII)
HISTORY_LINE = re.compile(r"history (\d+)", re.ASCII)
LINK_ENTRY_LINE = re.compile(rf"(\d+) job ([1-9]\d*) (down|up) ({NAME})", re.ASCII)
ENTRY_LINE = re.compile(
    rf"(\d+) feed (\d+) ({NAME}) (?:set ({PREFIX}) metric (\d+) (.+)|clear ({PREFIX})(?: metric (\d+))?)", re.ASCII
)
HISTORY_OF_TEXT = re.compile(rb"^history (\d+)\n", re.MULTILINE)
JOB_LINE = re.compile(r"job (\d+)", re.ASCII)
# What is printed of a `down` or `up` line; of what else is printed of a line of a script.
LINK_LINE = re.compile(rf"line (\d+)(?: at ([1-9]\d*)| (full))? (down|up) ({NAME})", re.ASCII)
ANSWERED_LINE = re.compile(r"line (\d+) at (\d+) (.+)", re.ASCII)
UNKNOWN_LINE = re.compile(r"line (\d+) ([a-z].*)", re.ASCII)
OCTET = r"(0|[1-9][0-9]{0,2})"
ADDRESS = re.compile(rf"{OCTET}\.{OCTET}\.{OCTET}\.{OCTET}")
LENGTHS = {str(length): length for length in range(33)}
# Entries after which it is told again, on a terminal, how far a reader is.
ENTRIES_BETWEEN_TELLING = 1 << 12
# What a target looks like, without names for its parts.
TARGET_TEXT = (rf"noroute|local|dropped (?:blackhole|unreachable|prohibit)|(?:exit|onlink) \d+|to {NAME} by {NAME}"
               rf"|linkdown {NAME}")
TARGET = re.compile(
    rf"noroute|local|dropped (?:blackhole|unreachable|prohibit)|(?:exit|onlink) (?P<interface>\d+)"
    rf"|to (?P<router>{NAME}) by (?P<link>{NAME})|linkdown (?P<down>{NAME})",
    re.ASCII,
)


class ReportError(Exception):
    """What is wrong with a report: its file, the line (from 1), and why."""

    def __init__(self, path: str, line: int, why: str) -> None:
        super().__init__(f"{path}:{line}: {why}")


class Prefix(NamedTuple):
    """The addresses that share the first `length` bits of `base`."""

    base: int
    length: int

    @property
    def last(self) -> int:
        """The highest address of the prefix."""
        return self.base + (1 << (32 - self.length)) - 1

    def covers(self, address: int) -> bool:
        return self.base <= address <= self.last

    def __str__(self) -> str:
        return f"{address_text(self.base)}/{self.length}"


@dataclass(frozen=True)
class Target:
    """What a router does with an address, as it is printed.

    `router` and `link` are there where it hands the address on, `link` alone where that link is down, and `interface`
    where the address leaves the network or ends on a segment.
    """

    text: str
    router: str | None = None
    link: str | None = None
    interface: int | None = None

    def __str__(self) -> str:
        return self.text


NO_ROUTE = Target("noroute")


class Entry(NamedTuple):
    """One update of the history. It sets a route where it has a target, and clears otherwise. Its router is the feed's, or a
    VRF of that.

    A clear without a metric takes away all routes of the prefix. A tuple and not a dataclass, since a history may have
    millions of entries.
    """

    position: int
    feed: int
    router: str
    prefix: Prefix
    metric: int | None
    target: Target | None

    def __str__(self) -> str:
        """The operation as the report prints it."""
        if self.target is not None:
            return f"set {self.prefix} metric {self.metric} {self.target}"
        return f"clear {self.prefix}" + ("" if self.metric is None else f" metric {self.metric}")

    @property
    def words(self) -> str:
        """The entry as the history prints it after its position."""
        return f"feed {self.feed} {self.router} {self}"


class LinkEntry(NamedTuple):
    """An entry of the history by which a link goes down or comes up; a job's line of a script made it."""

    position: int
    job: int
    link: str
    is_down: bool

    def __str__(self) -> str:
        """What happens to the link, as scripts and reports say it."""
        return link_words(self.is_down, self.link)

    @property
    def words(self) -> str:
        """The entry as the history prints it after its position."""
        return f"job {self.job} {self}"


# What a history has: updates of routers, and links that go down and come up.
HistoryEntry = Entry | LinkEntry


def link_words(is_down: bool, link: str) -> str:
    return f"{'down' if is_down else 'up'} {link}"


@dataclass(frozen=True)
class Refused:
    """A refused frame: where it begins in its feed, where its refused message begins in it, and the cause."""

    offset: int
    message: int
    number: int
    cause: str

    def __str__(self) -> str:
        return f"refused offset {self.offset} message {self.message} cause {self.number} {self.cause}"


@dataclass
class Feed:
    """What is printed of one feed."""

    number: int
    router: str
    updates: int
    skipped: int
    refused_count: int
    end: str
    refused: list[Refused] = field(default_factory=list)

    def printed_lines(self) -> list[str]:
        """The lines that tell of it in a report."""
        head = f"feed {self.number} {self.router} updates {self.updates} skipped {self.skipped}"
        return [f"{head} refused {self.refused_count} {self.end}", *map(str, self.refused)]


@dataclass
class Answer:
    """What is printed of one query line of a script; `position` is None where a name of the query is unknown."""

    job: int
    line: int
    position: int | None
    query: str
    lines: list[str] = field(default_factory=list)

    def printed_lines(self) -> list[str]:
        """The lines that tell of it in a report."""
        place = "" if self.position is None else f" at {self.position}"
        return [f"line {self.line}{place} {self.query}", *self.lines]


@dataclass
class LinkLine:
    """What is printed of a `down` or `up` line of a script: the position of its entry, None where the topology doesn't have
    the link, which `lines` then says, or where the history was full."""

    job: int
    line: int
    link: str
    is_down: bool
    position: int | None
    is_full: bool = False
    lines: list[str] = field(default_factory=list)

    @property
    def query(self) -> str:
        """The words of the script's line."""
        return link_words(self.is_down, self.link)

    def printed_lines(self) -> list[str]:
        """The lines that tell of it in a report."""
        place = " full" if self.is_full else "" if self.position is None else f" at {self.position}"
        return [f"line {self.line}{place} {self.query}", *self.lines]


@dataclass
class Report:
    """A whole report; `length` is that of its history, also where the entries weren't read."""

    path: str
    feeds: list[Feed] = field(default_factory=list)
    entries: list[HistoryEntry] = field(default_factory=list)
    jobs: list[int] = field(default_factory=list)
    told: list[Answer | LinkLine] = field(default_factory=list)
    length: int = 0

    @property
    def answers(self) -> list[Answer]:
        """What is told of queries."""
        return [one for one in self.told if isinstance(one, Answer)]

    @property
    def link_lines(self) -> list[LinkLine]:
        """What is told of links that were to go down or come up."""
        return [one for one in self.told if isinstance(one, LinkLine)]

    def feed_of(self, router: str) -> Feed | None:
        """The feed of a device; it has at most one in a run."""
        return next((feed for feed in self.feeds if feed.router == router), None)

    def printed_lines(self) -> list[str]:
        """All its lines, as they have to be printed."""
        lines = [line for feed in self.feeds for line in feed.printed_lines()]
        lines.append(f"history {len(self.entries)}")
        lines += [f"{entry.position} {entry.words}" for entry in self.entries]
        for job in self.jobs:
            lines.append(f"job {job}")
            lines += [line for one in self.told if one.job == job for line in one.printed_lines()]
        return [*lines, "done"]

    def names(self) -> set[str]:
        """The routers that the report names: those with a feed, those with updates, and those that some route leads to."""
        named = {feed.router for feed in self.feeds}
        named.update(entry.router for entry in self.entries if isinstance(entry, Entry))
        named.update(entry.target.router for entry in self.entries
                     if isinstance(entry, Entry) and entry.target and entry.target.router)
        return named


def read_address(text: str) -> int | None:
    """The address that a dotted quad writes, without leading zeros; None where it is none."""
    match = ADDRESS.fullmatch(text)
    if match is None:
        return None
    first, second, third, fourth = (int(octet) for octet in match.groups())
    if max(first, second, third, fourth) > 255:
        return None
    return first << 24 | second << 16 | third << 8 | fourth


@lru_cache(maxsize=2**16)
def address_text(address: int) -> str:
    return ".".join(str(address >> shift & 255) for shift in (24, 16, 8, 0))


def read_prefix(text: str) -> Prefix | None:
    """The prefix `ADDRESS/LENGTH`; None where it is none, or where a bit past its length is set."""
    address, _, length_text = text.partition("/")
    base, length = read_address(address), LENGTHS.get(length_text)
    if base is None or length is None or base % (1 << (32 - length)) != 0:
        return None
    return Prefix(base, length)


def read_target(text: str) -> Target | None:
    """The target that a text says; None where it says none."""
    match = TARGET.fullmatch(text)
    if match is None:
        return None
    interface = match["interface"]
    link = match["link"] or match["down"]
    return Target(text, match["router"], link, None if interface is None else int(interface))


_kept_prefix = lru_cache(maxsize=2**20)(read_prefix)
_kept_target = lru_cache(maxsize=2**16)(read_target)


def read_entry(position: int, text: str) -> HistoryEntry:
    """The entry at a position, from its words after the position: `feed K ROUTER OP`, or `job J down LINK`."""
    link = LINK_ENTRY_LINE.fullmatch(f"{position} {text}")
    if link is not None:
        return LinkEntry(position, int(link[2]), link[4], link[3] == "down")
    match = ENTRY_LINE.fullmatch(f"{position} {text}")
    metric = match[5] or match[8]
    return Entry(position, int(match[2]), match[3], _kept_prefix(match[4] or match[7]),
                 None if metric is None else int(metric), None if match[6] is None else _kept_target(match[6]))


def read_report(path: str) -> Report:
    """Reads a report from a file, or from standard input where the path is `-`. Raises ReportError or OSError."""
    if path == "-":
        return _Reader("standard input", sys.stdin.buffer.read()).report()
    with open(path, "rb") as file:
        return parse_report(path, file.read())


def end_of_history(text: bytes, begin: int) -> int | None:
    """Where a history that begins there ends: at the first line behind it that is `job 1` or, where there is none, `done`."""
    places = [text.find(line, begin - 1) for line in (b"\njob 1\n", b"\ndone\n")]
    return min((place + 1 for place in places if place >= 0), default=None)


def parse_answers(path: str, text: bytes) -> Report:
    """A report's feeds and answers without its history, whose length alone is read; in a small part of the time."""
    history = HISTORY_OF_TEXT.search(text)
    following = history and end_of_history(text, history.end())
    if history is None or following is None:
        return parse_report(path, text)
    reader = _Reader(path, text[:history.start()] + b"history 0\n" + text[following:])
    reader.longest = int(history[1])
    return reader.report()


def parse_report(path: str, text: bytes) -> Report:
    """The report that a text says; the path is named in errors. Raises ReportError."""
    return _Reader(path, text).report()


class Owners:
    """Of which feed each router's updates come: a device's of its own, a VRF's of its device's. A report doesn't say whose a
    VRF is; its first update does."""

    def __init__(self, feeds: Iterable[Feed]) -> None:
        self.feeds = {feed.number: feed for feed in feeds}
        self.of = {feed.router: feed.number for feed in self.feeds.values()}

    def may_be(self, feed: int, router: str) -> bool:
        """Whether an update of this feed may be of this router."""
        return feed in self.feeds and self.of.setdefault(router, feed) == feed

    def feed_of(self, router: str) -> Feed | None:
        """The feed in which a router's updates come; None where none came, and it has no feed of its own."""
        return self.feeds.get(self.of.get(router, 0))


class _Reader:
    """Reads the lines of a report in order. Prefixes and targets are kept once each, since the same ones come often."""

    def __init__(self, path: str, text: bytes) -> None:
        self.path = path
        self.lines = text.decode("utf-8", "replace").split("\n")
        self.is_whole = self.lines.pop() == "" and bool(self.lines)
        self.place = 0
        self.prefixes: dict[str, Prefix | None] = {}
        self.targets: dict[str, Target | None] = {}
        self.longest: int | None = None

    def wrong(self, why: str) -> ReportError:
        """The error of the line that was read last."""
        return ReportError(self.path, max(1, self.place), why)

    def peek(self) -> str:
        """The next line; the report ends with `done`, so one has to be there."""
        if self.place == len(self.lines):
            raise ReportError(self.path, max(1, self.place), "the report breaks off here: it ends with a line 'done'")
        return self.lines[self.place]

    def take(self) -> str:
        line = self.peek()
        self.place += 1
        return line

    def report(self) -> Report:
        self.check_begin()
        report = Report(self.path)
        while self.peek().startswith("feed "):
            report.feeds.append(self.feed(len(report.feeds) + 1))
        self.read_history(report)
        report.length = len(report.entries) if self.longest is None else self.longest
        while JOB_LINE.fullmatch(self.peek()):
            self.read_job(report)
        if self.take() != "done" or self.place != len(self.lines) or not self.is_whole:
            raise self.wrong("this isn't the line that stands here in a report")
        return report

    def check_begin(self) -> None:
        if not self.lines:
            raise ReportError(self.path, 1, "the file is empty: no report")
        if self.lines[0].startswith("error "):
            raise ReportError(self.path, 1, f"this is the error line {self.lines[0]!r} and no report; ask tools/why")

    def feed(self, number: int) -> Feed:
        match = FEED_LINE.fullmatch(self.take())
        if match is None or int(match[1]) != number:
            raise self.wrong(f"this isn't the line of feed {number}")
        feed = Feed(number, match[2], int(match[3]), int(match[4]), int(match[5]), match[6])
        for _ in range(feed.refused_count):
            feed.refused.append(self.refused())
        return feed

    def refused(self) -> Refused:
        match = REFUSED_LINE.fullmatch(self.take())
        if match is None:
            raise self.wrong("a line of a refused frame has to stand here, by the count in its feed's line")
        return Refused(int(match[1]), int(match[2]), int(match[3]), match[4])

    def read_history(self, report: Report) -> None:
        match = HISTORY_LINE.fullmatch(self.take())
        if match is None:
            raise self.wrong("the line 'history N' has to stand here")
        owners = Owners(report.feeds)
        teller = Teller(self.path, int(match[1]))
        for position in range(1, int(match[1]) + 1):
            report.entries.append(self.entry(position, owners))
            if position % ENTRIES_BETWEEN_TELLING == 0:
                teller.tell(position)
        teller.end()

    def entry(self, position: int, owners: Owners) -> HistoryEntry:
        line = self.take()
        match = ENTRY_LINE.fullmatch(line)
        if match is None:
            return self.link_entry(position, line)
        if int(match[1]) != position:
            raise self.wrong(f"this isn't entry {position} of the history")
        feed, router = int(match[2]), match[3]
        if not owners.may_be(feed, router):
            raise self.wrong(f"no line above says that feed {feed} is of {router}, or of a device whose VRF that is")
        if match[4] is None:
            metric = None if match[8] is None else int(match[8])
            return Entry(position, feed, router, self.prefix(match[7]), metric, None)
        return Entry(position, feed, router, self.prefix(match[4]), int(match[5]), self.target(match[6]))

    def link_entry(self, position: int, line: str) -> LinkEntry:
        match = LINK_ENTRY_LINE.fullmatch(line)
        if match is None or int(match[1]) != position:
            raise self.wrong(f"this isn't entry {position} of the history")
        return LinkEntry(position, int(match[2]), match[4], match[3] == "down")

    def prefix(self, text: str) -> Prefix:
        prefix = _kept(self.prefixes, text, read_prefix)
        if prefix is None:
            raise self.wrong(f"{text} is no prefix")
        return prefix

    def target(self, text: str) -> Target:
        target = _kept(self.targets, text, read_target)
        if target is None:
            raise self.wrong(f"{text!r} is nothing that a route does with its addresses")
        return target

    def read_job(self, report: Report) -> None:
        job = len(report.jobs) + 1
        if self.take() != f"job {job}":
            raise self.wrong(f"this isn't the line of job {job}")
        report.jobs.append(job)
        while self.is_told(self.peek()):
            report.told.append(self.told(job, report.length))

    def told(self, job: int, longest: int) -> Answer | LinkLine:
        line = self.take()
        match = LINK_LINE.fullmatch(line)
        one = self.answer(job, line) if match is None else LinkLine(
            job, int(match[1]), match[5], match[4] == "down", None if match[2] is None else int(match[2]),
            match[3] is not None)
        if one.position is not None and one.position > longest:
            raise self.wrong(f"the history has {longest} entries, so none of it stands at {one.position}")
        one.lines.extend(self.answer_lines())
        if isinstance(one, LinkLine):
            is_known = one.position is not None or one.is_full
            if one.lines != ([] if is_known else [f"unknown link {one.link}"]):
                raise self.wrong(f"below {one.printed_lines()[0]!r} stands another line than there has to be")
        return one

    @staticmethod
    def answer(job: int, line: str) -> Answer:
        match = ANSWERED_LINE.fullmatch(line)
        if match is not None:
            return Answer(job, int(match[1]), int(match[2]), match[3])
        match = UNKNOWN_LINE.fullmatch(line)
        return Answer(job, int(match[1]), None, match[2])

    def answer_lines(self) -> Iterator[str]:
        """The lines up to the next line of a script, job or the end. No line of an answer looks like one of these."""
        while not (self.is_told(self.peek()) or JOB_LINE.fullmatch(self.peek()) or self.peek() == "done"):
            yield self.take()

    @staticmethod
    def is_told(line: str) -> bool:
        return ANSWERED_LINE.fullmatch(line) is not None or UNKNOWN_LINE.fullmatch(line) is not None


def _kept(kept: dict, text: str, read):
    """What `read` makes of the text, made once."""
    if text not in kept:
        kept[text] = read(text)
    return kept[text]
