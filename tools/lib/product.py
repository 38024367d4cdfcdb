"""The program, as the tools run it."""

from __future__ import annotations

import os
import subprocess
from dataclasses import dataclass

from command import ToolError

TOP = os.path.dirname(os.path.dirname(os.path.dirname(os.path.realpath(__file__))))


@dataclass(frozen=True)
class Product:
    """The command that runs the program, to which the words are added."""

    command: list[str]

    @staticmethod
    def found(program: str | None = None) -> Product:
        """The program that is named, or the one of the variable DELTANET, or the script `deltanet`, which builds it where
        need be."""
        named = program or os.environ.get("DELTANET")
        if not named:
            return Product([os.path.join(TOP, "deltanet"), "--no-check"])
        if not os.access(named, os.X_OK):
            raise ToolError(f"{named}: there is no such program; ./deltanet build makes it")
        return Product([os.path.abspath(named)])

    def run(self, words: list[str], stderr: int | None = None) -> subprocess.CompletedProcess[bytes]:
        return subprocess.run([*self.command, *words], stdin=subprocess.DEVNULL, stdout=subprocess.PIPE, stderr=stderr)
