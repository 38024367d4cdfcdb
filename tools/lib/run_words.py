"""The words of `deltanet run`, judged as the program judges them, and why they are refused.

The rules are those of docs/FORMATS.md, section The command.
"""

from __future__ import annotations

import os
from dataclasses import dataclass, field

from network import Network, is_name, nearest_name

MOST_FEEDS = 64
MOST_SCRIPTS = 64
MOST_JOBS = 64


class Refused(Exception):
    """The first thing that the program refuses: its error line, the place in a file or among the words, and the rule
    that was broken, in one sentence."""

    def __init__(self, error_line: str, place: str, rule: str) -> None:
        super().__init__(error_line)
        self.error_line = error_line
        self.place = place
        self.rule = rule


@dataclass(frozen=True)
class FeedPart:
    """A feed of a run: its part's number from 1, its router and its file."""

    part: int
    router: str
    file: str


@dataclass(frozen=True)
class ScriptPart:
    """A script of a run: its part's number from 1, and its file."""

    part: int
    file: str


@dataclass
class RunWords:
    """What the words of a run say."""

    topology: str
    feeds: list[FeedPart] = field(default_factory=list)
    scripts: list[ScriptPart] = field(default_factory=list)


def read_words(words: list[str]) -> RunWords:
    """The run that the words after the program's name say. Raises Refused."""
    for number, word in enumerate(words, 1):
        if not _is_text(word):
            raise _words_refused(number, word, "words are texts in UTF-8, and this one isn't")
    if not words:
        raise Refused("error words", "no words", "a command begins with run and names a topology")
    if words[0] != "run":
        raise _words_refused(1, words[0], "the first word is the command, and the only one that reads files is run")
    plain = _plain_words(words)
    if not plain:
        raise Refused("error words", " ".join(words), "after run stands the topology's file")
    said = RunWords(plain[0])
    for part, word in enumerate(plain[1:], 1):
        _add_part(said, part, word)
    return said


def _is_text(word: str) -> bool:
    try:
        os.fsencode(word).decode()
    except UnicodeDecodeError:
        return False
    return True


def _words_refused(number: int, word: str, rule: str) -> Refused:
    return Refused("error words", f"word {number}: {word}", rule)


def _plain_words(words: list[str]) -> list[str]:
    """The words after `run`, without the first `--`, before which none may look like an option."""
    plain: list[str] = []
    for number, word in enumerate(words[1:], 2):
        if word == "--":
            return plain + words[number:]
        if word.startswith("-") and word != "-":
            rule = "a word that begins with - is an option, and there is none; after -- it is taken as it is"
            raise _words_refused(number, word, rule)
        plain.append(word)
    return plain


def _add_part(said: RunWords, part: int, word: str) -> None:
    """Adds one part; what is wrong with a part comes before there being too many of its kind."""
    if word.startswith("@"):
        if word == "@":
            raise _part_refused(part, word, "BadPart", "after @ stands a script's file")
        if len(said.scripts) == MOST_SCRIPTS:
            raise _part_refused(part, word, "TooMany", f"a run has at most {MOST_SCRIPTS} scripts")
        said.scripts.append(ScriptPart(part, word[1:]))
        return
    router, equals, file = word.partition("=")
    if not equals:
        raise _part_refused(part, word, "BadPart", "a part is ROUTER=FILE, or @FILE for a script")
    if not is_name(router):
        rule = (f"before = stands a router's name, 1 to 32 of a to z, 0 to 9, _ and -, and {router!r} isn't one"
                f"{nearest_name(router)}")
        raise _part_refused(part, word, "BadPart", rule)
    if not file:
        raise _part_refused(part, word, "BadPart", "after = stands the feed's file")
    if len(said.feeds) == MOST_FEEDS:
        raise _part_refused(part, word, "TooMany", f"a run has at most {MOST_FEEDS} feeds")
    said.feeds.append(FeedPart(part, router, file))


def _part_refused(part: int, word: str, cause: str, rule: str) -> Refused:
    return Refused(f"error part {part} {cause}", part_place(part, word), rule)


def part_place(part: int, word: str) -> str:
    return f"part {part}: {word}"


def check_routers(said: RunWords, network: Network) -> None:
    """That each feed's router is in the topology, is no VRF and has no other feed, in the order of the feeds. Raises
    Refused."""
    fed: dict[str, int] = {}
    for feed in said.feeds:
        place = part_place(feed.part, f"{feed.router}={feed.file}")
        device = network.device_of(feed.router)
        if device != feed.router:
            rule = f"a VRF has no feed; {feed.router} is one of {device}, in whose feed its routes come: {device}=FILE"
            raise Refused(f"error part {feed.part} UnknownRouter", place, rule)
        if feed.router not in network.devices:
            listed = _listed(network.devices)
            rule = f"a feed is of a router of the topology; {feed.router} isn't among its routers, {listed}"
            raise Refused(f"error part {feed.part} UnknownRouter", place, rule)
        if feed.router in fed:
            rule = f"a router has one feed; part {fed[feed.router]} is a feed of {feed.router} already"
            raise Refused(f"error part {feed.part} RouterTwice", place, rule)
        fed[feed.router] = feed.part


def check_jobs(said: RunWords, taken: set[str]) -> None:
    """That there are few enough jobs: each script is one, and so is each feed that no script takes. Raises Refused."""
    untaken = [feed.router for feed in said.feeds if feed.router not in taken]
    jobs = len(said.scripts) + len(untaken)
    if jobs > MOST_JOBS:
        place = f"{_counted(len(said.scripts), 'script')} and {_counted(len(untaken), 'feed')} that none of them takes"
        rule = f"a run has at most {MOST_JOBS} jobs, and these are {jobs}: let a script take one feed more"
        raise Refused("error jobs TooMany", place, rule)


def _counted(count: int, noun: str) -> str:
    return f"{count} {noun}" if count == 1 else f"{count} {noun}s"


def _listed(names: list[str]) -> str:
    """Some names, so many that a line stays readable."""
    shown = ", ".join(names[:12])
    return (shown or "none") + (f" and {len(names) - 12} more" if len(names) > 12 else "")
