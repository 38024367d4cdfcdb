"""What a picture shows of an answer: the cycles of loops, ways of the addresses that it names, where they vanish."""

from __future__ import annotations

from brief import Brief
from cidr import Run, prefixes_of, read_run
from command import ToolError
from network import Network
from picture import CYCLES, Hop, Panel
from report import Answer, address_text, read_address
from summary import CYCLE
from told import Moment

# Runs of an answer for which the way of one address each is drawn, and lines that stand above the picture.
MOST_WAYS = 6
MOST_LINES = 8


def answer_panel(network: Network, report: Brief, line: str, unfed: set[str]) -> Panel:
    """The panel of the first answer to a line of a script."""
    answer = next((one for one in report.report.answers if str(one.line) == line and one.position is not None), None)
    if answer is None:
        raise ToolError(f"{report.path}: it has no answer to a line {line} of a script")
    lines = [text if (run := read_run(text)) is None else run_text(run) for text in answer.lines]
    more = [f"and {len(lines) - MOST_LINES} lines more"] if len(lines) > MOST_LINES else []
    panel = Panel(f"{answer.query} at {answer.position} of {report.length}", lines[:MOST_LINES] + more, unfed=unfed)
    panel.down = set(report.downs_at(answer.position))
    words = answer.query.split()
    if words[0] == "without":
        panel.down, words = panel.down | set(words[1].split(",")), words[2:]
    shower = SHOWERS.get(words[0])
    if shower is not None:
        shower(panel, report, answer, words)
    panel.marked &= set(network.routers)
    return panel


def run_text(run: Run) -> str:
    parts = [str(prefix) for prefix in prefixes_of(run)]
    return " ".join(parts) if len(parts) <= 3 else f"{address_text(run[0])}-{address_text(run[1])}"


def show_path(panel: Panel, report: Brief, answer: Answer, words: list[str]) -> None:
    routers = answer.lines[0].split()[1:]
    end = answer.lines[1].removeprefix("end ")
    if end == "loop":
        routers = routers[:next(place for place in range(1, len(routers)) if routers[place] in routers[:place]) + 1]
    else:
        panel.ends.append((routers[-1], end))
    show_way(panel, report, answer, routers, read_address(words[2]))


def show_loops(panel: Panel, report: Brief, answer: Answer, _words: list[str]) -> None:
    for place, match in enumerate(filter(None, map(CYCLE.fullmatch, answer.lines))):
        routers = match[1].split()
        show_way(panel, report, answer, [*routers, routers[0]], read_address(match[2]), CYCLES[place % len(CYCLES)])


def show_reach(panel: Panel, report: Brief, answer: Answer, words: list[str]) -> None:
    """Of some runs the way of the first address, up to the router that is reached."""
    first, to = words[1:3]
    panel.marked |= {first, to}
    for run in list(filter(None, map(read_run, answer.lines)))[:MOST_WAYS]:
        found = Moment.of(report, str(answer.position), run[0]).way(first)
        routers = [hop.router for hop in found.hops]
        if to in routers:
            show_way(panel, report, answer, routers[:routers.index(to) + 1], run[0])


def show_uses(panel: Panel, report: Brief, answer: Answer, words: list[str]) -> None:
    """An arrow over the link at each end where some address goes over it."""
    router = ""
    for line in answer.lines:
        if line.startswith("from "):
            router = line.split()[1]
        elif line != "none":
            ways_on = [far for near, far, link in sorted(report.ways_on) if (near, link) == (router, words[1])]
            hops = [Hop(router, far, words[1], "") for far in ways_on]
            panel.hops += [hop for hop in hops if hop not in panel.hops]


def show_holes(panel: Panel, _report: Brief, answer: Answer, words: list[str]) -> None:
    panel.marked.add(words[1])
    for line in answer.lines:
        if line.startswith("at "):
            _at, router, cause = line.split(" ", 2)
            panel.ends.append((router, cause))


def show_way(panel: Panel, report: Brief, answer: Answer, routers: list[str], address: int,
             colour: str = CYCLES[0]) -> None:
    """The hops between routers that follow one another, over the links that the routes for the address name."""
    tables = Moment.of(report, str(answer.position), address).tables
    panel.marked |= set(routers)
    for number, (near, far) in enumerate(zip(routers, routers[1:]), 1):
        hop = Hop(near, far, tables[near].target(address).link, str(number), colour)
        panel.hops += [] if hop in panel.hops else [hop]


SHOWERS = {"path": show_path, "loops": show_loops, "reach": show_reach, "waypoint": show_reach, "uses": show_uses,
           "blackholes": show_holes}
