"""What the tests of the feed's tools share: places, made frames, and runs of a tool."""

from __future__ import annotations

import contextlib
import functools
import importlib.machinery
import importlib.util
import io
import os
import struct
import sys
import tempfile
from collections.abc import Callable
from dataclasses import dataclass
from unittest import mock

TESTS = os.path.dirname(os.path.realpath(__file__))
TOOLS = os.path.dirname(TESTS)
TOP = os.path.dirname(TOOLS)
DATA = os.path.join(TESTS, "data", "feed")
TRIANGLE = os.path.join(TOP, "examples", "triangle-ospf")
sys.path.insert(0, os.path.join(TOOLS, "lib"))

import command  # noqa: E402


@dataclass
class Ran:
    """How a tool ended, and what it printed."""

    status: int
    out: str
    err: str

    def lines(self) -> list[str]:
        return self.out.splitlines()


def tool(name: str, *words: str, folder: str = TRIANGLE) -> Ran:
    """Runs a tool in a folder. It runs in this process: a hundred processes would take most of the tests' time."""
    out, err = io.StringIO(), io.StringIO()
    status: int | str | None = None
    main = load_tool(name).main
    with (contextlib.chdir(folder), contextlib.redirect_stdout(out), contextlib.redirect_stderr(err),
          mock.patch("sys.argv", [name, *words])):
        try:
            command.run(name, main)
        except SystemExit as end:
            status = end.code
    return Ran(0 if status is None else int(status), out.getvalue(), err.getvalue())


def plain_program(add_cleanup: Callable[..., object]) -> str:
    """A program that is the plain evaluator, without what it says on standard error."""
    folder = tempfile.TemporaryDirectory()
    add_cleanup(folder.cleanup)
    path = os.path.join(folder.name, "plain")
    with open(path, "w", encoding="utf-8") as file:
        file.write(f'#!/bin/sh\nexec "{TOOLS}/plain" "$@" 2>/dev/null\n')
    os.chmod(path, 0o755)
    return path


@functools.cache
def load_tool(name: str):
    """A tool as a module."""
    loader = importlib.machinery.SourceFileLoader(f"tool_{os.path.basename(name)}", os.path.join(TOOLS, name))
    module = importlib.util.module_from_spec(importlib.util.spec_from_loader(loader.name, loader))
    sys.modules[loader.name] = module
    loader.exec_module(module)
    return module


def data(name: str) -> str:
    """The path of a stored input."""
    return os.path.join(DATA, name)


def read(path: str) -> bytes:
    with open(path, "rb") as file:
        return file.read()


def frame(*messages: bytes, kind: int = 1) -> bytes:
    """A frame of messages, each but the last filled up to a multiple of 4."""
    payload = b""
    for message in messages:
        payload += bytes(-len(payload) % 4) + message
    return struct.pack(">BBH", 1, kind, 4 + len(payload)) + payload


def attribute(number: int, payload: bytes) -> bytes:
    return struct.pack("<HH", 4 + len(payload), number) + payload + bytes(-len(payload) % 4)


def address(text: str) -> bytes:
    return bytes(int(part) for part in text.split("."))


def number(value: int) -> bytes:
    return struct.pack("<I", value)


def message(message_type: int, attributes: bytes, length: int = 8, *, family: int = 2, source: int = 0, tos: int = 0,
            table: int = 254, protocol: int = 188, route_type: int = 1, flags: int = 0x0501, sender: int = 7) -> bytes:
    """A message as rtnetlink has it."""
    body = struct.pack("<8BI", family, length, source, tos, table, protocol, 0, route_type, 0) + attributes
    return struct.pack("<IHHII", 16 + len(body), message_type, flags, 0, sender) + body


def set_route(prefix: str, interface: int | None = 2, metric: int | None = 20, gateway: str | None = None,
              more: bytes = b"", **fields: int) -> bytes:
    """A message that sets a route."""
    base, _, length = prefix.partition("/")
    attributes = attribute(1, address(base))
    attributes += b"" if metric is None else attribute(6, number(metric))
    attributes += b"" if gateway is None else attribute(5, address(gateway))
    attributes += b"" if interface is None else attribute(4, number(interface))
    return message(24, attributes + more, int(length), **fields)


def delete_route(prefix: str, metric: int | None = 20, **fields: int) -> bytes:
    """A message that deletes a route."""
    base, _, length = prefix.partition("/")
    attributes = attribute(1, address(base)) + (b"" if metric is None else attribute(6, number(metric)))
    return message(25, attributes, int(length), **fields)


def connected(prefix: str, interface: int, **fields: int) -> bytes:
    """A message that sets a connected route, as zebra does."""
    return set_route(prefix, interface, protocol=2, **fields)
