"""Where in a topology's text a fault stands. tomllib gives no places of values, so the usual ways of writing them are
looked for; of another way the line where the entry begins is told, or none."""

from __future__ import annotations

import re

from network import TOP_KEYS, TopologyFault

KNOWN_KEYS = {"top": TOP_KEYS, "vrf": ("router", "table", "name"), "link": ("name", "ends", "unnumbered"), "edge": ("at",),
              "router": ("name", "replace")}
KEY_OF_CAUSE = {"BadName": "name", "TwiceNamed": "name", "BadEnd": "ends", "EndTwice": "ends", "SelfLink": "ends",
                "BadReplace": "replace", "TwiceMarked": "name", "NoSuchRouter": "name", "BadTable": "table",
                "TableTwice": "table"}
# The same where a part has another key for it.
KEY_OF_PART = {("edge", "BadEnd"): "at", ("edge", "EndTwice"): "at", ("vrf", "NoSuchRouter"): "router"}
TOKEN = re.compile(r"#[^\n]*|\"(?:[^\"\\\n]|\\.)*\"|'[^'\n]*'|[\[\]{},]|[^\s\[\]{},#\"']+")
KEY = re.compile(r"\s*(?:\"([^\"]*)\"|'([^']*)'|([A-Za-z0-9_-]+))\s*[=.]|\s*\[\[?\s*\"?([A-Za-z0-9_-]+)")


def line_of(text: str, fault: TopologyFault) -> int | None:
    """The line, from 1, that a fault is about; None where it isn't known."""
    lines = text.split("\n")
    if fault.part == "top":
        return fault.line or _line_at_top(lines, fault)
    if fault.part == "routers":
        return _line_of_router(text, fault.entry) or fault.line
    if fault.line is None:
        return None
    return _line_in_entry(lines, fault) or fault.line


def _key_of(line: str) -> str | None:
    """The key that a line begins with, or the one of its header."""
    match = KEY.match(line)
    return next((name for name in match.groups() if name is not None), None) if match else None


def _line_at_top(lines: list[str], fault: TopologyFault) -> int | None:
    """The first key at the top that has no meaning, or the one whose value is of another type."""
    for number, line in enumerate(lines, 1):
        key = _key_of(line)
        if key is not None and _is_about(fault, key, KNOWN_KEYS["top"]):
            return number
    return None


def _is_about(fault: TopologyFault, key: str, known: tuple[str, ...]) -> bool:
    """Whether a fault of a key is about this one: the fault says an unknown key in quotes, and begins with another."""
    if key not in known:
        return fault.cause == "UnknownKey" and repr(key) in fault.why
    return fault.cause == "MissingKey" and re.match(rf"{key}\b", fault.why) is not None


def _line_in_entry(lines: list[str], fault: TopologyFault) -> int | None:
    """The line of the key that a fault of an entry is about, from the entry's header to the next header."""
    wanted = KEY_OF_PART.get((fault.part, fault.cause)) or KEY_OF_CAUSE.get(fault.cause)
    for number in range(fault.line + 1, len(lines) + 1):
        line = lines[number - 1]
        if line.lstrip().startswith("["):
            return None
        key = _key_of(line)
        if key is not None and (key == wanted or _is_about(fault, key, KNOWN_KEYS[fault.part])):
            return number
    return None


def _line_of_router(text: str, entry: int) -> int | None:
    """The line of an entry of `routers`: its place in the list, by commas outside of inner brackets."""
    begin = re.search(r"^[ \t]*routers[ \t]*=", text, re.MULTILINE)
    if begin is None:
        return None
    depth, place = 0, 1
    for token in TOKEN.finditer(text, begin.end()):
        word = token[0]
        if word.startswith("#"):
            continue
        if word in "]}":
            depth -= 1
        elif depth == 1 and word == ",":
            place += 1
        elif depth == 1 and place == entry:
            return text.count("\n", 0, token.start()) + 1
        if word in "[{":
            depth += 1
        if depth == 0:
            return None
    return None
