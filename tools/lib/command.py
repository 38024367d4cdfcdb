"""What all tools share at their edge: words, errors, exit status.

A tool ends with 0, or with 1 where something is wrong; what is wrong goes to standard error, after the tool's name.
A reader of standard output that goes away early ends the tool quietly.
"""

from __future__ import annotations

import argparse
import io
import os
import signal
import sys
from collections.abc import Callable, Iterable

from network import Network, TopologyFault, is_name, nearest_name, read_topology


# How many of a list are told in a line.
MOST_TOLD = 3


class ToolError(Exception):
    """Something that the user has to put right; its text names the file and the place."""


class Words(argparse.ArgumentParser):
    """The words of a tool. Wrong words end it with status 1, as every other fault does."""

    def error(self, message: str) -> None:  # type: ignore[override]
        self.print_usage(sys.stderr)
        print(f"{self.prog}: {message}", file=sys.stderr)
        sys.exit(1)


def run(name: str, main: Callable[[], int]) -> None:
    """Runs a tool and ends the process with its status."""
    _prepare_output()
    try:
        status = main()
        sys.stdout.flush()
    except BrokenPipeError:
        _drop_output()
        status = 1
    except KeyboardInterrupt:
        signal.signal(signal.SIGINT, signal.SIG_DFL)
        os.kill(os.getpid(), signal.SIGINT)
        status = 1
    except ToolError as error:
        status = _fail(name, str(error))
    except OSError as error:
        place = f"{error.filename}: " if error.filename else ""
        status = _fail(name, f"{place}{error.strerror or error}")
    sys.exit(status)


def _prepare_output() -> None:
    """Names of files may have bytes that are no text, and standard output may be closed: neither ends a tool."""
    if sys.stdout is None:
        sys.stdout = open(os.devnull, "w", encoding="utf-8")
    if isinstance(sys.stdout, io.TextIOWrapper):
        sys.stdout.reconfigure(errors="backslashreplace")


def _drop_output() -> None:
    """What is still to be written can't be. Python would try it once more at its end, and complain."""
    if isinstance(sys.stdout, io.TextIOWrapper):
        os.dup2(os.open(os.devnull, os.O_WRONLY), sys.stdout.fileno())


def _fail(name: str, message: str) -> int:
    try:
        sys.stdout.flush()
    except OSError:
        _drop_output()
    print(f"{name}: {message}", file=sys.stderr)
    return 1


def told(things: Iterable[object]) -> str:
    """The first few of a list, and how many more there are."""
    words = [str(thing) for thing in things]
    more = f" and {len(words) - MOST_TOLD} more" if len(words) > MOST_TOLD else ""
    return ", ".join(words[:MOST_TOLD]) + more


def read_named_topology(path: str) -> Network:
    """A topology file, or an error that names the file, the place and the program's error line."""
    try:
        return read_topology(path)
    except TopologyFault as fault:
        raise ToolError(f"{path}: {fault} ({fault.error_line()})") from None


def router_and_file(words: str) -> tuple[str, str]:
    """Splits ROUTER=FILE at its first =. The error says what is wrong with the words."""
    router, equals, file = words.partition("=")
    if not equals or not file:
        raise ToolError(f"{words}: this isn't ROUTER=FILE")
    if not is_name(router):
        raise ToolError(f"{words}: {router!r} isn't a router's name (1 to 32 of a to z, 0 to 9, _ and -)"
                        f"{nearest_name(router)}")
    return router, file


def routers_and_files(all_words: list[str]) -> list[tuple[str, str]]:
    """Several ROUTER=FILE, no two of one router."""
    pairs = [router_and_file(words) for words in all_words]
    seen: set[str] = set()
    for router, file in pairs:
        if router in seen:
            raise ToolError(f"{router}={file}: {router} has a feed already; one session of one router is one feed")
        seen.add(router)
    return pairs
