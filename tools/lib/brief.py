"""A report whose history is looked through and not taken apart: for questions about one address or one prefix, and
for what stands around the history. A million entries take a second or two.

Each line of the history is looked at for its form and its position. Entries that are asked for are read as in report.py.
"""

from __future__ import annotations

import re
import sys
from collections.abc import Iterable, Iterator
from functools import cached_property

from evaluator import downs_after
from network import Network
from progress import Teller
from report import (HISTORY_OF_TEXT, NAME, PREFIX, TARGET_TEXT, Entry, Feed, HistoryEntry, LinkEntry, Owners, Report,
                    ReportError, address_text, end_of_history, parse_answers, parse_report, read_entry)

# An entry, with its feed and router, which an entry of a link hasn't.
FORM = re.compile(rf"^\d+ (?:(feed \d+ {NAME}) (?:set {PREFIX} metric \d+ (?:to {NAME} by {NAME}|{TARGET_TEXT})"
                  rf"|clear {PREFIX}(?: metric \d+)?)|job [1-9]\d* (?:down|up) {NAME})\n".encode(), re.MULTILINE)
# Of an entry of a link: what stands after its position. No other entry has it.
OF_LINK = re.compile(rf" (job \d+ (?:down|up) {NAME})\n".encode())
# Of an entry of this form that leads on: its router, the next one and the link.
LEADS_ON = re.compile(rb" feed \d+ (\S+ set )\S+ metric \d+ (to [^\n]+)\n")
LINES_AT_ONCE = 1 << 16
# Entries whose first octet is that of a prefix asked for, up to which they are found by this octet.
MOST_NEAR = 1 << 16


class Brief:
    """A report: its feeds and what is told of its jobs, and its history as text. `network` is the topology of its run, where
    that is known: it says which routers replace by prefix, and whose VRFs are those that no update is of."""

    network: Network | None = None

    def __init__(self, path: str, text: bytes) -> None:
        self.path = path
        self.text = text
        self.report: Report = parse_answers(path, text)
        match = HISTORY_OF_TEXT.search(text)
        self.begin = match.end()
        self.end = end_of_history(text, self.begin)
        self.owners = Owners(self.feeds)
        self._check_history()

    @staticmethod
    def read(path: str) -> Brief:
        """Raises ReportError or OSError."""
        if path == "-":
            return Brief("standard input", sys.stdin.buffer.read())
        with open(path, "rb") as file:
            return Brief(path, file.read())

    def _check_history(self) -> None:
        """That each line is an entry at its position, of a router of its feed. Where one isn't the strict reader says which."""
        known = {b""}
        teller = Teller(self.path, len(self.text))
        count = 0
        at = self.begin
        while at < self.end:
            teller.tell(at)
            stop = self._line_end(at)
            lines = self.text[at:stop].splitlines()
            formed = FORM.findall(self.text, at, stop)
            numbered = all(map(bytes.startswith, lines, map(b"%d ".__mod__, range(count + 1, count + len(lines) + 1))))
            if len(formed) != len(lines) or not numbered or not all(map(self._is_owned, set(formed) - known)):
                parse_report(self.path, self.text)
                raise ReportError(self.path, 1, "its history isn't one")
            known.update(formed)
            count += len(lines)
            at = stop
        teller.end()
        if count != self.report.length:
            parse_report(self.path, self.text)

    def _is_owned(self, said: bytes) -> bool:
        """Whether `feed K ROUTER` may stand in an entry."""
        _feed, number, router = said.decode("ascii").split(" ")
        return self.owners.may_be(int(number), router)

    def _line_end(self, at: int) -> int:
        """The end of a line, a good many lines further on."""
        end = self.text.find(b"\n", min(at + 64 * LINES_AT_ONCE, self.end) - 1, self.end)
        return self.end if end < 0 else end + 1

    @property
    def feeds(self) -> list[Feed]:
        return self.report.feeds

    @property
    def length(self) -> int:
        return self.report.length

    def feed_of(self, router: str) -> Feed | None:
        """The feed in which a router's updates come."""
        if self.network is not None:
            return self.report.feed_of(self.network.device_of(router))
        return self.owners.feed_of(router)

    def device_of(self, router: str) -> str:
        """The device of a router, as far as it is known; else the router itself."""
        if self.network is not None:
            return self.network.device_of(router)
        feed = self.feed_of(router)
        return router if feed is None else feed.router

    @property
    def marked(self) -> frozenset[str]:
        """The routers that are known to replace by prefix."""
        return frozenset() if self.network is None else self.network.marked

    @cached_property
    def entries(self) -> list[HistoryEntry]:
        """All entries, taken apart."""
        return parse_report(self.path, self.text).entries

    @cached_property
    def link_entries(self) -> list[LinkEntry]:
        """The entries by which links go down and come up."""
        found = OF_LINK.finditer(self.text, self.begin, self.end)
        begins = ((match, self.text.rfind(b"\n", 0, match.start()) + 1) for match in found)
        return [read_entry(int(self.text[begin:match.start()]), match[1].decode("ascii")) for match, begin in begins]

    def downs_at(self, position: int) -> dict[str, int]:
        """The links that are down after so many entries, each with the entry by which it went down."""
        before = [entry for entry in self.link_entries if entry.position <= position]
        return downs_after(before, len(before))

    @cached_property
    def ways_on(self) -> set[tuple[str, str, str]]:
        """Over which links routes lead: the router, the next one, the link."""
        found = set(LEADS_ON.findall(self.text, self.begin, self.end))
        said = [(near.split(), on.split()) for near, on in found]
        return {(near[0].decode(), on[1].decode(), on[3].decode()) for near, on in said}

    def names(self) -> set[str]:
        """The routers that the report names: those with a feed, those with updates, and those that some route leads to."""
        return set(self.owners.of) | {far for _near, far, _link in self.ways_on}

    def entries_about(self, address: int) -> list[Entry]:
        """The updates of prefixes that cover an address."""
        bases = (f"{address_text(address >> (32 - length) << (32 - length))}/{length}" for length in range(33))
        return list(self._entries(bases))

    def entries_of(self, router: str, prefixes: Iterable[str] = ()) -> Iterator[Entry]:
        """A router's updates, of these prefixes or of all."""
        return self._entries(prefixes, router)

    def entries_of_feed(self, feed: Feed) -> Iterator[Entry]:
        """The updates of a feed, its device's and those of VRFs."""
        return self._entries((), feed=str(feed.number))

    def _entries(self, prefixes: Iterable[str], router: str = NAME, feed: str = r"\d+") -> Iterator[Entry]:
        asked = list(prefixes)
        wanted = "|".join(map(re.escape, asked)) or PREFIX
        form = re.compile(rf"^(\d+) (feed {feed} {router} (?:set|clear) (?:{wanted})(?: [^\n]*)?)\n".encode(), re.MULTILINE)
        near = self._lines_with({prefix.partition(".")[0] for prefix in asked}) if asked else None
        found = form.finditer(self.text, self.begin, self.end) if near is None else (
            form.match(self.text, at, self.end) for at in near)
        for match in filter(None, found):
            yield read_entry(int(match[1]), match[2].decode("ascii"))

    def _lines_with(self, octets: set[str]) -> list[int] | None:
        """Where the entries begin whose prefix has one of these first octets; None where they are many."""
        begins = []
        for word in (f" {octet}.".encode() for octet in octets):
            at = self.text.find(word, self.begin, self.end)
            while at >= 0:
                begins.append(self.text.rfind(b"\n", 0, at) + 1)
                if len(begins) > MOST_NEAR:
                    return None
                at = self.text.find(word, at + 1, self.end)
        return sorted(begins)
