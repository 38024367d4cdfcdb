"""The file of times beside a recording: how many bytes and whole frames had come at which time.

A feed itself carries no time. `tools/record` writes FEED.times, a line of three words each: the time with the offset
of its zone, the bytes, the whole frames. A line says what had come by then; what comes within a second of the line
before is told by the line at the end of that second. The last line has after these `end`, and how the session ended;
where it lacks, the recorder was ended by force.
"""

from __future__ import annotations

import os
import re
from dataclasses import dataclass
from datetime import datetime, timedelta

from command import ToolError


# How long after it came a piece may be told of: the second between two lines, and a little for a busy machine.
LONGEST_SILENCE = timedelta(seconds=1.5)
# How the end of a session is told of that the user ended.
STOPPED = "stopped here"
# The name of a recording, as `tools/record` gives it: the router and the number of the session.
RECORDING = re.compile(r"(.+)\.([1-9][0-9]*)\.fpm")


@dataclass(frozen=True, slots=True)
class Moment:
    """What had come by a time; `end` says how the session ended then, and is empty while it goes on."""

    time: datetime
    bytes: int
    frames: int
    end: str = ""

    def line(self) -> str:
        end = f" end {self.end}" if self.end else ""
        return f"{time_text(self.time)} {self.bytes} {self.frames}{end}\n"


def time_text(time: datetime) -> str:
    """A time as all tools print it."""
    return time.isoformat(timespec="milliseconds")


def now() -> datetime:
    """The time of this machine's zone."""
    return datetime.now().astimezone()


def read_times(path: str) -> list[Moment]:
    """The moments of a file of times, in its order. A last line without its line feed is passed over."""
    with open(path, "rb") as file:
        lines = file.read().split(b"\n")[:-1]
    moments: list[Moment] = []
    for number, line in enumerate(lines, 1):
        moment = _read_line(line)
        if moment is None:
            raise ToolError(f"{path}: line {number}: this isn't TIME BYTES FRAMES")
        if moments and moments[-1].end:
            raise ToolError(f"{path}: line {number}: it stands after the session's end; is it joined from several files?")
        if moments and (moment.bytes < moments[-1].bytes or moment.frames < moments[-1].frames):
            raise ToolError(f"{path}: line {number}: bytes or frames fall; is it joined from several files?")
        moments.append(moment)
    if not moments:
        raise ToolError(f"{path}: it has no whole line")
    return moments


def _read_line(line: bytes) -> Moment | None:
    try:
        words, end, how = line.decode("ascii").partition(" end ")
        parts = words.split(" ")
        time = datetime.fromisoformat(parts[0])
        if len(parts) != 3 or time.tzinfo is None or not (parts[1].isdigit() and parts[2].isdigit()) or end and not how:
            return None
        return Moment(time, int(parts[1]), int(parts[2]), how)
    except ValueError:
        return None


def parse_time(words: str, begin: datetime) -> datetime:
    """A time that a user names. What it leaves out, the day and the zone, is that of the recording's begin.

    `+SECONDS` counts from the begin.
    """
    try:
        if words.startswith("+"):
            return begin + timedelta(seconds=float(words[1:]))
        if not re.match(r"[0-9]{4}-", words):
            words = f"{begin.date().isoformat()}T{words}"
        time = datetime.fromisoformat(words.replace(" ", "T"))
    except (ValueError, OverflowError):
        raise ToolError(f"{words}: this is no time; write 14:05:09, 2026-11-27T14:05:09 or +SECONDS") from None
    return time if time.tzinfo is not None else time.replace(tzinfo=begin.tzinfo)


def later_recording(path: str) -> str | None:
    """The recording of the same router's next session, where it lies beside this one."""
    folder, name = os.path.split(path)
    match = RECORDING.fullmatch(name)
    if match is None:
        return None
    later = os.path.join(folder, f"{match[1]}.{int(match[2]) + 1}.fpm")
    return later if os.path.isfile(later) else None
