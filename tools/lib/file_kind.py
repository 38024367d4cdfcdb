"""What a file is that is no feed, by its first bytes."""

from __future__ import annotations

import os
import stat

# How a file begins, what it is, and what to do with it.
BEGINNINGS = (
    (b"\x1f\x8b", "packed with gzip", "unpack it, or hand it over unpacked: ROUTER=<(zcat FILE)"),
    (b"\xfd7zXZ\0", "packed with xz", "unpack it, or hand it over unpacked: ROUTER=<(xzcat FILE)"),
    (b"\x28\xb5\x2f\xfd", "packed with zstd", "unpack it, or hand it over unpacked: ROUTER=<(zstdcat FILE)"),
    (b"BZh", "packed with bzip2", "unpack it, or hand it over unpacked: ROUTER=<(bzcat FILE)"),
    (b"\xd4\xc3\xb2\xa1", "a packet capture", "record the session itself, with tools/record"),
    (b"\xa1\xb2\xc3\xd4", "a packet capture", "record the session itself, with tools/record"),
    (b"\x4d\x3c\xb2\xa1", "a packet capture", "record the session itself, with tools/record"),
    (b"\x0a\x0d\x0d\x0a", "a packet capture", "record the session itself, with tools/record"),
)
LONGEST = 256
SHOWN = 40


def what_else(path: str) -> tuple[str, str] | None:
    """What a file is, and what to do, where it begins as no feed does. A pipe isn't opened."""
    if not stat.S_ISREG(os.stat(path).st_mode):
        return None
    with open(path, "rb") as file:
        return what_else_begins(file.read(LONGEST))


def what_else_begins(text: bytes) -> tuple[str, str] | None:
    if not text or text[0] == 1:
        return None
    for begin, what, to_do in BEGINNINGS:
        if text.startswith(begin):
            return what, to_do
    if all(32 <= byte < 127 or byte in b"\t\r\n" for byte in text):
        line = text.partition(b"\n")[0].decode("ascii").strip()
        return f"a text, which begins {line[:SHOWN]!r}", "give the recording: perhaps two words stand in the wrong order"
    return "no recording of zebra's, by its first byte", "record again, with tools/record"
