"""A script, judged as the program judges it, and why a line of it is refused.

The rules are those of docs/FORMATS.md, section Scripts.
"""

from __future__ import annotations

import re
from collections.abc import Mapping
from dataclasses import dataclass, field
from difflib import get_close_matches

from network import is_name
from report import read_address

LONGEST_SCRIPT = 16_777_216
MOST_LINES = 65_536
LONGEST_LINE = 1_024
MOST_FRAMES = 4_294_967_295

CAUSES = {"BadLine": 1, "TakeUnknown": 2, "TakenTwice": 3, "TooManyLines": 4, "TooLong": 5}

# What stands after the verb of each query.
QUERIES = {
    "path": ("ROUTER", "ADDRESS"), "reach": ("ROUTER", "ROUTER"), "uses": ("LINK",), "loops": (),
    "blackholes": ("ROUTER",), "waypoint": ("ROUTER", "ROUTER", "ROUTER"), "delta": (),
}
LINK_VERBS = ("down", "up")


class ScriptFault(Exception):
    """The first fault of a script: its line, 0 for the whole, its cause, and the rule that was broken."""

    def __init__(self, line: int, cause: str, rule: str, text: bytes = b"") -> None:
        super().__init__(rule)
        self.line = line
        self.cause = cause
        self.number = CAUSES[cause]
        self.rule = rule
        self.text = text


class BadLine(Exception):
    """Why a line is no line of a script."""


@dataclass(frozen=True)
class Feeds:
    """The routers that have a feed in this run, those whose feed an earlier script takes, and the VRFs with their devices."""

    fed: list[str]
    taken: set[str]
    devices: Mapping[str, str] = field(default_factory=dict)


def read_script(text: bytes, feeds: Feeds) -> set[str]:
    """The routers from whose feeds a script takes. Raises ScriptFault."""
    if len(text) > LONGEST_SCRIPT:
        raise ScriptFault(0, "TooLong", f"a script has at most {LONGEST_SCRIPT} bytes")
    lines = text.split(b"\n")
    if lines[-1] == b"":
        lines.pop()
    taken: set[str] = set()
    for number, line in enumerate(lines, 1):
        if number > MOST_LINES:
            raise ScriptFault(number, "TooManyLines", f"a script has at most {MOST_LINES} lines", line)
        router = _read_line(number, line, feeds)
        if router is not None:
            taken.add(router)
    return taken


def _read_line(number: int, line: bytes, feeds: Feeds) -> str | None:
    """The router that a line takes from, if it is a line that takes."""
    words = [word.decode("utf-8", "backslashreplace") for word in re.split(rb"[ \t\r]+", line) if word]
    if not words or words[0].startswith("#"):
        return None
    try:
        if len(line) > LONGEST_LINE:
            raise BadLine(f"a line has at most {LONGEST_LINE} bytes, and this one has {len(line)}")
        if words[0] in LINK_VERBS:
            _check_link_line(words)
            return None
        if words[0] != "take":
            _check_query(words)
            return None
        router = _taken_router(words)
    except BadLine as bad:
        raise ScriptFault(number, "BadLine", str(bad), line) from None
    if router not in feeds.fed:
        rule = f"a script takes from routers that have a feed in this run ({', '.join(feeds.fed) or 'none has'})"
        device = feeds.devices.get(router)
        why = "has none" if device is None else f"is a VRF, whose routes come in the feed of {device}"
        raise ScriptFault(number, "TakeUnknown", f"{rule}, and {router} {why}", line)
    if router in feeds.taken:
        rule = f"one script takes from a feed, and an earlier one takes {router}'s"
        raise ScriptFault(number, "TakenTwice", rule, line)
    return router


def _taken_router(words: list[str]) -> str:
    if len(words) != 3:
        raise BadLine("take wants a router and a number of frames, or all: take ROUTER N")
    if words[2] != "all" and not _is_count(words[2]):
        raise BadLine(f"take wants a number of frames from 1 to {MOST_FRAMES} without leading zeros, or all, and not"
                      f" {words[2]!r}")
    _check_operand("ROUTER", words[1])
    return words[1]


def _is_count(word: str) -> bool:
    return re.fullmatch(r"[1-9][0-9]{0,9}", word) is not None and int(word) <= MOST_FRAMES


def _check_link_line(words: list[str]) -> None:
    if len(words) != 2:
        raise BadLine(f"{words[0]} wants LINK after it, and here stand {len(words) - 1} words")
    _check_operand("LINK", words[1])


def _check_query(words: list[str]) -> None:
    if words[0] == "without":
        words = _after_without(words)
    verb, operands = words[0], words[1:]
    if verb not in QUERIES:
        raise BadLine(_unknown_verb(verb))
    wanted = QUERIES[verb]
    if len(operands) != len(wanted):
        raise BadLine(f"{verb} wants {' '.join(wanted) or 'nothing'} after it, and here stand {len(operands)} words")
    for kind, word in zip(wanted, operands):
        _check_operand(kind, word)


def _after_without(words: list[str]) -> list[str]:
    """The query after `without LINK,LINK..`."""
    if len(words) < 3:
        raise BadLine("without wants links and a query: without LINK,LINK.. QUERY")
    for name in words[1].split(","):
        _check_operand("LINK", name)
    if words[2] in ("without", "delta"):
        raise BadLine(f"after without stands a query other than delta and without, and not {words[2]}")
    return words[2:]


def _unknown_verb(verb: str) -> str:
    known = ["take", *LINK_VERBS, *QUERIES, "without"]
    close = get_close_matches(verb, known, 1)
    hint = f" (did you mean {close[0]}?)" if close else ""
    return f"a line begins with {', '.join(known)} or #, and not with {verb[:40]!r}{hint}"


def _check_operand(kind: str, word: str) -> None:
    if kind == "ADDRESS":
        if read_address(word) is None:
            raise BadLine(f"an address is four numbers from 0 to 255 without leading zeros, parted by dots, and"
                          f" {word[:40]!r} isn't")
    elif not is_name(word):
        raise BadLine(f"a {kind.lower()}'s name is 1 to 32 of a to z, 0 to 9, _ and -, and {word[:40]!r} isn't one")
