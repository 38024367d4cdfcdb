"""TOML 1.1 said in TOML 1.0, as far as a topology needs it.

The program reads TOML 1.1, Python's tomllib 1.0. What 1.1 added is: line breaks, comments and a last comma within an
inline table, the escapes \\e and \\xHH in texts, and times without seconds. All of it can be said in 1.0.
"""

from __future__ import annotations

import re
from dataclasses import dataclass, field

TOKEN = re.compile(
    r"\"\"\"(?:[^\\]|\\.)*?\"{3,5}(?!\")|'''.*?'{3,5}(?!')|\"(?:[^\"\\\n]|\\[^\n])*\"|'[^'\n]*'"
    r"|#[^\n]*|[\[\]{},\n]|[^\[\]{},\n\"'#]+|.",
    re.DOTALL,
)
ESCAPE = re.compile(r"\\(x[0-9A-Fa-f]{2}|.)", re.DOTALL)
SHORT_TIME = re.compile(r"(?<![0-9:])([0-9]{2}:[0-9]{2})(?![0-9:])")
CONTROL = re.compile(r"[\x00-\x08\x0a-\x1f\x7f]")


class NoToml(Exception):
    """The text is no TOML of any version, and would seem so after a change."""


def in_older_toml(text: str) -> str:
    """The same document without what came with TOML 1.1, or the text as it is where it is no TOML anyway. Lines within
    inline tables are joined."""
    writer = _Writer()
    try:
        for match in TOKEN.finditer(text.replace("\r\n", "\n")):
            writer.take(match[0])
    except NoToml:
        return text
    return "".join(writer.said)


@dataclass
class _Writer:
    """Writes a document token by token. It knows the brackets that are open, the place of the last token that isn't
    blank, and whether a line was joined since then."""

    said: list[str] = field(default_factory=list)
    brackets: list[str] = field(default_factory=list)
    last: int | None = None
    is_joined: bool = False

    def take(self, token: str) -> None:
        if token in ("\"", "'"):
            raise NoToml  # a text that isn't closed on its line
        within_table = bool(self.brackets) and self.brackets[-1] == "{"
        if token in "[{":
            self.brackets.append(token)
        elif token in "]}" and self.brackets:
            self.brackets.pop()
        if within_table and (token == "\n" or token.startswith("#")):
            self.join(token)
            return
        if token == "}" and within_table:
            self.drop_last_comma()
        if token.strip():
            if self.is_joined and token.lstrip().startswith(("=", ".")):
                raise NoToml  # a key and its = stand on one line
            self.is_joined = False
            self.last = len(self.said)
        self.said.append(_older(token))

    def join(self, token: str) -> None:
        """Writes a blank in place of a comment or the end of a line."""
        ends_open = self.last is not None and self.said[self.last].rstrip().endswith(("=", "."))
        if ends_open or CONTROL.search(token[1:]):
            raise NoToml  # a value stands on the line of its =; a comment has no control characters
        self.is_joined = True
        self.said.append(" ")

    def drop_last_comma(self) -> None:
        if self.last is not None and self.said[self.last] == ",":
            self.said[self.last] = " "


def _older(token: str) -> str:
    if token.startswith("\""):
        return ESCAPE.sub(_older_escape, token)
    if token.startswith(("'", "#")):
        return token
    return SHORT_TIME.sub(r"\1:00", token)


def _older_escape(match: re.Match[str]) -> str:
    letter = match[1]
    if letter == "e":
        return "\\u001B"
    return f"\\u00{letter[1:]}" if letter.startswith("x") and len(letter) == 3 else match[0]
