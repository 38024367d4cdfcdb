"""Runs of addresses as prefixes, and how much of a prefix runs have."""

from __future__ import annotations

import re
from collections.abc import Iterable, Iterator
from dataclasses import dataclass

from report import Prefix, read_address

Run = tuple[int, int]

RUN_LINE = re.compile(r"(\d+\.\d+\.\d+\.\d+)-(\d+\.\d+\.\d+\.\d+)", re.ASCII)


def read_run(line: str) -> Run | None:
    """The run that a line of an answer says; None where it says another thing."""
    match = RUN_LINE.fullmatch(line)
    if match is None:
        return None
    low, high = read_address(match[1]), read_address(match[2])
    return None if low is None or high is None or low > high else (low, high)


def prefixes_of(run: Run) -> Iterator[Prefix]:
    """The fewest prefixes that have a run's addresses and no others."""
    low, high = run
    while low <= high:
        length = 32
        while length > 0 and low % (1 << (33 - length)) == 0 and low + (1 << (33 - length)) - 1 <= high:
            length -= 1
        yield Prefix(low, length)
        low += 1 << (32 - length)


@dataclass(frozen=True)
class Share:
    """How much of a prefix some runs have: those of its addresses that they have."""

    prefix: Prefix
    runs: list[Run]

    @staticmethod
    def of(prefix: Prefix, runs: Iterable[Run]) -> Share:
        return Share(prefix, [(max(low, prefix.base), min(high, prefix.last)) for low, high in runs
                              if low <= prefix.last and high >= prefix.base])

    def __str__(self) -> str:
        """all, none, or the part in prefixes."""
        if not self.runs:
            return f"none of {self.prefix}"
        if self.runs == [(self.prefix.base, self.prefix.last)]:
            return f"all of {self.prefix}"
        return f"of {self.prefix} " + " ".join(str(part) for run in self.runs for part in prefixes_of(run))


def runs_as_prefixes(runs: list[Run], own: list[Prefix]) -> list[str]:
    """Runs in prefixes, a line each; or for each own prefix how much of it they have."""
    if own:
        return [str(Share.of(prefix, runs)) for prefix in own]
    return [str(prefix) for run in runs for prefix in prefixes_of(run)]
