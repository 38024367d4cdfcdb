"""Pictures of a network as SVG: panels side by side over one layout, and strips of answers over time."""

from __future__ import annotations

import math
from dataclasses import dataclass, field, replace
from html import escape

from layout import Place, layout
from network import End, Link, Network, Vrf

WAY, BEFORE, DOWN, PLAIN, FAINT, BAND = "#c62828", "#1565c0", "#9e9e9e", "#37474f", "#90a4ae", "#eceff1"
CYCLES = ("#c62828", "#6a1b9a", "#ef6c00", "#00695c", "#283593")
RADIUS, STUB, MARGIN, LINE = 20, 34, 90, 16


@dataclass(frozen=True)
class Hop:
    """A step of a way over a link, as an arrow with a text."""

    near: str
    far: str
    link: str
    text: str
    colour: str = WAY


@dataclass
class Panel:
    """What one picture shows over the network: hops, what becomes of addresses at routers, links that are down. Ends and
    marked routers are red where `colours` has no other colour for them."""

    title: str
    lines: list[str] = field(default_factory=list)
    hops: list[Hop] = field(default_factory=list)
    ends: list[tuple[str, str]] = field(default_factory=list)
    down: set[str] = field(default_factory=set)
    marked: set[str] = field(default_factory=set)
    unfed: set[str] = field(default_factory=set)
    colours: dict[str | tuple[str, str], str] = field(default_factory=dict)


def difference(before: Panel, after: Panel) -> Panel:
    """Two moments in one picture: what both have in grey, what the moment before alone has in blue, after alone in red."""
    panel = Panel("Two moments, blue and then red", unfed=before.unfed & after.unfed, down=before.down | after.down)
    for colour, one in (("blue", before), ("red", after)):
        panel.lines += [f"{colour}: {one.title}", *(f"{colour}: {line}" for line in one.lines)]
    was, now = ({(hop.near, hop.far, hop.link) for hop in one.hops} for one in (before, after))
    for hop, seen, colour in [(hop, now, BEFORE) for hop in before.hops] + [(hop, was, WAY) for hop in after.hops]:
        step = (hop.near, hop.far, hop.link)
        if step not in seen:
            panel.hops.append(replace(hop, colour=colour))
        elif colour == WAY:
            panel.hops.append(replace(hop, colour=PLAIN))
    panel.ends = after.ends + [end for end in before.ends if end not in after.ends]
    panel.marked = before.marked | after.marked
    for what, was_there, is_there in [(end, end in before.ends, end in after.ends) for end in panel.ends] + [
            (router, router in before.marked, router in after.marked) for router in panel.marked]:
        panel.colours[what] = WAY if not was_there else PLAIN if is_there else BEFORE
    return panel


class Picture:
    """Draws panels of one network."""

    def __init__(self, network: Network, has_labels: bool = True) -> None:
        self.network = network
        self.has_labels = has_labels
        self.size = 150 * math.sqrt(max(2, len(network.devices) + len(network.vrfs) / 3))
        self.spots = {router: (MARGIN + x * self.size, MARGIN + y * self.size)
                      for router, (x, y) in layout(network).items()}
        self.middle = MARGIN + self.size / 2
        self.beside = _beside(network)

    def svg(self, panels: list[Panel]) -> str:
        width = self.size + 2 * MARGIN
        head = LINE * (2 + max(len(panel.lines) for panel in panels))
        parts = [f'<svg xmlns="http://www.w3.org/2000/svg" viewBox="0 0 {width * len(panels):.0f} {width + head:.0f}" '
                 'font-family="sans-serif" font-size="12">',
                 '<rect width="100%" height="100%" fill="white"/>']
        for place, panel in enumerate(panels):
            parts.append(f'<g transform="translate({place * width:.0f} 0)">')
            parts.append(_text(10, LINE + 2, panel.title, PLAIN, 'font-weight="bold"'))
            parts += [_text(10, LINE * (2 + number) + 2, line, PLAIN) for number, line in enumerate(panel.lines)]
            parts.append(f'<g transform="translate(0 {head:.0f})">')
            parts += self._panel(panel)
            parts.append("</g></g>")
        return "\n".join([*parts, "</svg>"]) + "\n"

    def _panel(self, panel: Panel) -> list[str]:
        parts = [self._belonging(vrf) for vrf in self.network.vrfs]
        parts += [part for link in self.network.links for part in self._link(link, panel)]
        parts += [part for end in self.network.edges for part in self._edge(end, panel)]
        parts += [part for router in self.network.routers for part in self._router(router, panel)]
        at_edges = {(router, f"{kind} {index}") for router, index in self.network.edges for kind in ("exit", "onlink")}
        notes = [end for end in panel.ends if end not in at_edges]
        return parts + [self._note(end, panel.colours.get(end, WAY), sum(other[0] == end[0] for other in notes[:place]))
                        for place, end in enumerate(notes)]

    def _belonging(self, vrf: Vrf) -> str:
        """A broad band from a VRF to its device."""
        (x1, y1), (x2, y2) = self.spots[vrf.device], self.spots[vrf.name]
        return (f'<line x1="{x1:.1f}" y1="{y1:.1f}" x2="{x2:.1f}" y2="{y2:.1f}" stroke="{BAND}" '
                f'stroke-width="{RADIUS}" stroke-linecap="round"/>')

    def _link(self, link: Link, panel: Panel) -> list[str]:
        (first, first_index), (second, second_index) = link.ends
        is_down = link.name in panel.down
        style = f'stroke="{DOWN if is_down else FAINT}" stroke-width="2"' + (' stroke-dasharray="3 5"' if is_down else "")
        start, bend, stop = self._curve(link, first, second)
        parts = [f'<path d="{_path(start, bend, stop)}" fill="none" {style}/>']
        if self.has_labels:
            name = f"{link.name} (down)" if is_down else link.name
            parts.append(_text(*_off(_on(start, bend, stop, 0.5), 0, -6), name, DOWN if is_down else PLAIN, MIDDLE))
            parts += [_text(*_on(start, bend, stop, at), str(index), FAINT, f'{MIDDLE} font-size="9"')
                      for at, index in ((0.2, first_index), (0.8, second_index))]
        hops = [hop for hop in panel.hops if hop.link == link.name]
        return parts + [part for turn, hop in enumerate(hops) for part in self._hop(link, hop, turn)]

    def _hop(self, link: Link, hop: Hop, turn: int) -> list[str]:
        start, bend, stop = self._curve(link, hop.near, hop.far, 16 + 8 * turn)
        ahead, tip = _on(start, bend, stop, 0.80), _on(start, bend, stop, 0.86)
        path = f'<path d="{_path(start, bend, tip)}" fill="none" stroke="{hop.colour}" stroke-width="2.5"/>'
        return [path, _arrow(ahead, tip, hop.colour),
                _text(*_off(_on(start, bend, stop, 0.62), 0, 4), hop.text, hop.colour, f'{MIDDLE} font-weight="bold"')]

    def _curve(self, link: Link, near: str, far: str, more: float = 0) -> tuple[Place, Place, Place]:
        """From one router to another, with a bend that is another one for each link beside it. A route of another table of
        the near end's device begins at its own router; one that comes back to that, at the near end."""
        if near == far:
            near = next(end[0] for end in link.ends if end[0] != far)
        (x1, y1), (x2, y2) = self.spots[near], self.spots[far]
        length = max(math.hypot(x2 - x1, y2 - y1), 1e-9)
        side = 1 if far == link.ends[1][0] else -1
        bend = 24 * self.beside[link.name] * side + more
        middle = ((x1 + x2) / 2 - (y2 - y1) / length * bend, (y1 + y2) / 2 + (x2 - x1) / length * bend)
        return (x1, y1), middle, (x2, y2)

    def _edge(self, end: End, panel: Panel) -> list[str]:
        """An edge as a stub; an address that leaves or ends there shows it in red with what becomes of it."""
        router, index = end
        text = next((text for at, text in panel.ends if at == router and text in (f"exit {index}", f"onlink {index}")), "")
        colour = panel.colours.get((router, text), WAY)
        if not text and not self.has_labels:
            return []
        x, y = self.spots[router]
        own = [other for name, other in self.network.edges if name == router]
        turn = (own.index(index) - (len(own) - 1) / 2) * min(0.7, 4 / len(own))
        away = math.atan2(y - self.middle, x - self.middle) + turn
        tip = x + math.cos(away) * (RADIUS + STUB), y + math.sin(away) * (RADIUS + STUB)
        style = f'stroke="{colour}" stroke-width="2.5"' if text else f'stroke="{FAINT}" stroke-dasharray="2 3"'
        label = _off(tip, math.cos(away) * 10, math.sin(away) * 10 + 4)
        parts = [f'<line x1="{x:.1f}" y1="{y:.1f}" x2="{tip[0]:.1f}" y2="{tip[1]:.1f}" {style}/>',
                 _text(*label, text or str(index), colour if text else FAINT, f'{MIDDLE} font-size="{12 if text else 9}"')]
        return [*parts, _arrow((x, y), tip, colour)] if text else parts

    def _router(self, router: str, panel: Panel) -> list[str]:
        x, y = self.spots[router]
        is_met = router in panel.marked
        colour = panel.colours.get(router, WAY) if is_met else PLAIN
        dashes = ' stroke-dasharray="4 3"' if router in panel.unfed else ""
        circle = (f'<circle cx="{x:.1f}" cy="{y:.1f}" r="{RADIUS}" fill="white" stroke="{colour}" '
                  f'stroke-width="{2.5 if is_met else 1.5}"{dashes}/>')
        size = 12 if len(router) <= 5 else 9
        return [circle, _text(x, y + 4, router, colour, f'{MIDDLE} font-size="{size}"')]

    def _note(self, end: tuple[str, str], colour: str, above: int) -> str:
        """What becomes of addresses at a router, below it and below so many other notes."""
        router, text = end
        x, y = self.spots[router]
        return _text(x, y + RADIUS + 14 + LINE * above, text, colour, f'{MIDDLE} font-weight="bold"')


MIDDLE = 'text-anchor="middle"'


def _beside(network: Network) -> dict[str, float]:
    """For each link how far it is bent, where several join the same two routers."""
    between: dict[frozenset[str], list[str]] = {}
    for link in network.links:
        between.setdefault(frozenset(end[0] for end in link.ends), []).append(link.name)
    return {name: place - (len(names) - 1) / 2 for names in between.values() for place, name in enumerate(names)}


def _on(start: Place, bend: Place, stop: Place, at: float) -> Place:
    """A place on the curve through the bend's control point."""
    rest = 1 - at
    return tuple(rest * rest * one + 2 * rest * at * two + at * at * three  # type: ignore[return-value]
                 for one, two, three in zip(start, bend, stop))


def _off(place: Place, dx: float, dy: float) -> Place:
    return place[0] + dx, place[1] + dy


def _path(start: Place, bend: Place, stop: Place) -> str:
    return f"M{start[0]:.1f} {start[1]:.1f} Q{bend[0]:.1f} {bend[1]:.1f} {stop[0]:.1f} {stop[1]:.1f}"


def _arrow(start: Place, tip: Place, colour: str) -> str:
    turn = math.atan2(tip[1] - start[1], tip[0] - start[0])
    wings = [(tip[0] - 10 * math.cos(turn + wing), tip[1] - 10 * math.sin(turn + wing)) for wing in (0.45, -0.45)]
    points = " ".join(f"{x:.1f},{y:.1f}" for x, y in [tip, *wings])
    return f'<polygon points="{points}" fill="{colour}"/>'


def _text(x: float, y: float, text: str, colour: str, more: str = "") -> str:
    halo = 'stroke="white" stroke-width="3" paint-order="stroke"'
    return f'<text x="{x:.1f}" y="{y:.1f}" fill="{colour}" {halo} {more}>{escape(text)}</text>'


@dataclass(frozen=True)
class Spell:
    """A time, in seconds, through which an answer held."""

    begin: float
    end: float
    at: str
    lines: list[str]

    @property
    def colour(self) -> str:
        text = " ".join(self.lines)
        if "cycle " in text or "end loop" in text:
            return "#c62828"
        if any(word in text for word in ("noroute", "dropped", "linkdown")):
            return "#ef6c00"
        return "#2e7d32"


def strip(rows: dict[str, list[Spell]]) -> str:
    """A strip for each query: red where it told of a loop, orange of a hole, green else."""
    spells = [spell for row in rows.values() for spell in row]
    begin, end = min(spell.begin for spell in spells), max(spell.end for spell in spells)
    scale = 700 / max(end - begin, 1e-3)
    parts = [f'<svg xmlns="http://www.w3.org/2000/svg" viewBox="0 0 940 {46 * len(rows) + 40}" font-family="sans-serif" '
             'font-size="12">', '<rect width="100%" height="100%" fill="white"/>']
    for place, (query, row) in enumerate(rows.items()):
        top = 20 + 46 * place
        parts.append(_text(10, top + 16, query, PLAIN))
        for spell in row:
            left, width = 220 + (spell.begin - begin) * scale, max((spell.end - spell.begin) * scale, 2)
            told = escape(f"{spell.at} {'; '.join(spell.lines)}")
            parts.append(f'<rect x="{left:.1f}" y="{top}" width="{width:.1f}" height="22" fill="{spell.colour}" '
                         f'stroke="white" stroke-width="0.5"><title>{told}</title></rect>')
        texts, free = [], 0.0
        for spell in row:
            left = 220 + (spell.begin - begin) * scale
            if left >= free:
                texts.append(_text(left, top + 35, spell.at, PLAIN, 'font-size="9"'))
                free = left + 52
        parts += texts
    return "\n".join([*parts, "</svg>"]) + "\n"
