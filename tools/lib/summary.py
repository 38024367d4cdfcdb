"""What stands in a report, in a few lines: its feeds, what was refused, and the answers that tell of trouble."""

from __future__ import annotations

import re
from collections import Counter
from collections.abc import Callable, Iterator
from dataclasses import asdict

from cidr import Run, read_run, runs_as_prefixes
from report import Answer, Feed, LinkLine, Prefix, Report, read_address

CYCLE = re.compile(r"cycle (.+) least (\S+) addresses (\d+)")
# The comment by which `moments --print-script` says the time of the lines below it.
TIME_COMMENT = re.compile(r"#\s*(\d{4}-\d\d-\d\dT[\d:.]+(?:[+-]\d\d:\d\d|Z)?)\s*")
# The time of a line of a job's script: by job and line.
Times = dict[tuple[int, int], str]
# Lines of one kind of trouble that are told.
MOST_TOLD = 8


def times_of(scripts: list[str]) -> Times:
    """The times that the texts of a run's scripts, in their order, say of their lines."""
    times: Times = {}
    for job, text in enumerate(scripts, 1):
        time = ""
        for number, line in enumerate(text.split("\n"), 1):
            match = TIME_COMMENT.fullmatch(line)
            time = match[1] if match else time
            if time and not line.startswith("#"):
                times[job, number] = time
    return times


def time_of(answer: Answer | LinkLine, times: Times) -> str:
    """The time of a line of a script, to be put behind its position; nothing where none is known."""
    time = times.get((answer.job, answer.line))
    return "" if time is None else f" ({time})"


def summary(report: Report, times: Times) -> Iterator[str]:
    answers = f"{len(report.jobs)} jobs, {len(report.answers)} answers"
    yield f"{report.path}: whole, {report.length} entries, {answers}"
    for feed in report.feeds:
        yield feed_line(feed)
    kinds = Counter(kind_of(answer.query) for answer in report.answers)
    told = [times[answer.job, answer.line] for answer in report.answers if (answer.job, answer.line) in times]
    if told:
        yield f"times: from {told[0]} to {told[-1]}"
    yield from link_summary(report, times)
    yield from (f"{kind}: {line}" for kind in kinds for line in kind_lines(report, kind, times))


def link_summary(report: Report, times: Times) -> Iterator[str]:
    """How often links went down and came up by lines of scripts, which of them last, and the lines that did nothing."""
    done = sorted((one for one in report.link_lines if one.position is not None), key=lambda one: one.position)
    if done:
        counts = Counter(one.query.split()[0] for one in done)
        left = sorted(name for name, is_down in {one.link: one.is_down for one in done}.items() if is_down)
        yield f"links: {counts['down']} down, {counts['up']} up; down at the end: {', '.join(left) or 'none'}"
    for one in report.link_lines:
        if one.position is None:
            why = "the history is full" if one.is_full else one.lines[0]
            yield f"links: job {one.job} line {one.line}{time_of(one, times)} {one.query} did nothing: {why}"


def feed_line(feed: Feed) -> str:
    causes = Counter(refused.cause for refused in feed.refused)
    refused = ", ".join(f"{count} {cause}" for cause, count in causes.items())
    told = f"{feed.refused_count} frames refused ({refused}), so its routes may be stale" if causes else "none refused"
    end = "read to its end" if feed.end == "end" else f"ends in {feed.end}, so what came after is missing"
    return f"feed {feed.router}: {feed.updates} updates, {told}, {end}"


def kind_of(query: str) -> str:
    words = query.split()
    return words[2] if words[0] == "without" else words[0]


def kind_lines(report: Report, kind: str, times: Times) -> Iterator[str]:
    """How many answers of a kind of query there are, by what they say, and those that tell of loops or holes."""
    answers = [answer for answer in report.answers if kind_of(answer.query) == kind]
    unknown = [answer for answer in answers if answer.position is None]
    answers = [answer for answer in answers if answer.position is not None]
    says = Counter(short(kind, answer) for answer in answers)
    told = ", ".join(f"{count} {what}" for what, count in says.most_common())
    yield told + (f", {len(unknown)} with an unknown name" if unknown else "")
    trouble = [answer for answer in answers if is_trouble(kind, answer)]
    for answer in trouble[:MOST_TOLD]:
        place = f"line {answer.line} at {answer.position}{time_of(answer, times)}"
        yield f"{place} {answer.query}: {'; '.join(answer.lines[:2])}" + (
            f" and {len(answer.lines) - 2} lines more" if len(answer.lines) > 2 else "")
    if len(trouble) > MOST_TOLD:
        yield f"and {len(trouble) - MOST_TOLD} more"


def short(kind: str, answer: Answer) -> str:
    """An answer in a word or two."""
    if kind == "path":
        end = answer.lines[-1].removeprefix("end ")
        return end if end.startswith("dropped") else end.split()[0]
    if answer.lines == ["none"]:
        return "none"
    if kind == "loops":
        cycles = [CYCLE.fullmatch(line) for line in answer.lines]
        return f"with {len(cycles)} cycles"
    return "with addresses" if kind != "delta" else "with changes"


def is_trouble(kind: str, answer: Answer) -> bool:
    """Whether an answer tells of a loop, or of addresses that vanish or slip past a waypoint."""
    if kind == "path":
        return answer.lines[-1] == "end loop"
    return kind in ("loops", "waypoint") and answer.lines != ["none"]


def answer_lines(answer: Answer | LinkLine, own: list[Prefix], names: dict[tuple[str, int], str], times: Times,
                 device_of: Callable[[str], str]) -> Iterator[str]:
    """An answer with its runs as prefixes, or how much they have of one's own, and with the names of interfaces, which are
    those of a router's device."""
    yield answer.printed_lines()[0] + time_of(answer, times)
    held: list[Run] = []
    last = ""
    for line in answer.lines:
        run = read_run(line)
        if run is not None:
            held.append(run)
            continue
        yield from (f"    {text}" for text in runs_as_prefixes(held, own if held else []))
        held = []
        words = line.split()
        last = words[-1] if words[0] == "hops" else last
        name = names.get((device_of(last), int(words[2]))) if words[0] == "end" and words[-1].isdigit() else None
        yield f"    {cycle_line(line, own)}" + ("" if name is None else f" ({name})")
    yield from (f"    {text}" for text in runs_as_prefixes(held, own if held else []))


def as_data(report: Report, times: Times) -> dict[str, object]:
    """A report without its history, for a program."""
    return {"entries": report.length, "feeds": [
        {"router": feed.router, "updates": feed.updates, "skipped": feed.skipped, "end": feed.end,
         "refused": [{"offset": one.offset, "message": one.message, "cause": one.cause} for one in feed.refused]}
        for feed in report.feeds], "answers": [with_time(one, times) for one in report.answers],
        "links": [with_time(one, times) for one in report.link_lines]}


def with_time(one: Answer | LinkLine, times: Times) -> dict[str, object]:
    time = times.get((one.job, one.line))
    return asdict(one) | ({} if time is None else {"time": time})


def cycle_line(line: str, own: list[Prefix]) -> str:
    """A cycle's line tells its lowest address alone; where one's own prefix has it, that is said."""
    match = CYCLE.fullmatch(line)
    if match is None:
        return line
    least = read_address(match[2])
    return line + "".join(f" (in {prefix})" for prefix in own if least is not None and prefix.covers(least))
