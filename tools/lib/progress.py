"""How far a tool is in a large file, told on a terminal."""

from __future__ import annotations

import os
import sys
import time

# Seconds before anything is told, and between two lines.
PATIENCE, PAUSE = 1.0, 0.5


class Teller:
    """Tells how much of so many bytes is done, where standard error is a terminal and it takes its time."""

    def __init__(self, name: str, size: int) -> None:
        self._name = name
        self._size = size if sys.stderr and sys.stderr.isatty() else 0
        self._due = time.monotonic() + PATIENCE
        self._has_told = False

    def tell(self, done: int) -> None:
        if self._size and time.monotonic() >= self._due:
            self._due = time.monotonic() + PAUSE
            self._print(f"{self._name}: {100 * done // self._size} percent")
            self._has_told = True

    def end(self) -> None:
        """Takes the line away."""
        if self._has_told:
            self._has_told = False
            self._print("")

    def _print(self, text: str) -> None:
        print(f"\r\033[K{text}", end="", file=sys.stderr, flush=True)


class Progress:
    """A file that tells how much of it was read."""

    def __init__(self, file, path: str) -> None:
        self._file = file
        self._read = 0
        self._teller = Teller(path, os.path.getsize(path) if os.path.isfile(path) else 0)

    def read(self, size: int = -1) -> bytes:
        piece = self._file.read(size)
        self._read += len(piece)
        if piece:
            self._teller.tell(self._read)
        else:
            self._teller.end()
        return piece
