"""Where routers stand in a picture: by the topology alone, so that two pictures of a network can be laid side by side."""

from __future__ import annotations

import math

from network import Network

Place = tuple[float, float]

# Steps for a small network; a large one gets as many as a second or two allow.
MOST_STEPS = 300
MOST_WORK = 2_000_000

# How far a VRF stands from its device, as a part of what two linked routers do, and how far VRFs are turned from each other.
VRF_SHARE = 0.4
VRF_TURN = 0.9
MOST_TURNS = 14


def layout(network: Network) -> dict[str, Place]:
    """A place in the unit square for each router: links pull, all else pushes apart, from a circle in the file's order. VRFs
    stand beside their device."""
    devices = network.devices
    count = max(1, len(devices))
    number = {device: place for place, device in enumerate(devices)}
    spots = [(math.cos(2 * math.pi * place / count), math.sin(2 * math.pi * place / count)) for place in range(count)]
    ends = {tuple(sorted(number[network.device_of(end[0])] for end in link.ends)) for link in network.links}
    links = sorted((first, second) for first, second in ends if first != second)
    distance = 2 / math.sqrt(count)
    steps = min(MOST_STEPS, max(2, MOST_WORK // (count * count)))
    for step in range(steps):
        spots = _moved(spots, links, distance, 0.2 * (1 - step / steps))
    spots = spots[:len(devices)]
    if network.vrfs:
        spots += _beside(network, dict(zip(devices, spots)), VRF_SHARE * distance)
    return dict(zip(network.routers, _fitted(spots)))


def _beside(network: Network, spots: dict[str, Place], away: float) -> list[Place]:
    """The places of the VRFs: around their device's, each on the side of the routers that its links lead to, or away from the
    middle of all."""
    middle = [sum(axis) / len(spots) for axis in zip(*spots.values())]
    turns: dict[str, list[float]] = {device: [] for device in spots}
    found = []
    for vrf in network.vrfs:
        x, y = spots[vrf.device]
        far = [spots[network.device_of(there[0])] for link in network.links for here, there in (link.ends, link.ends[::-1])
               if here[0] == vrf.name and network.device_of(there[0]) != vrf.device]
        dx, dy = (sum(axis) for axis in zip(*((x2 - x, y2 - y) for x2, y2 in far))) if far else (x - middle[0], y - middle[1])
        turn = _free_turn(math.atan2(dy, dx), turns[vrf.device])
        turns[vrf.device].append(turn)
        found.append((x + math.cos(turn) * away, y + math.sin(turn) * away))
    return found


def _free_turn(wanted: float, taken: list[float]) -> float:
    """The turn that is wanted, or the nearest one that is apart from those taken; where there is no room any."""
    for step in range(MOST_TURNS):
        turn = wanted + (step + 1) // 2 * (VRF_TURN if step % 2 else -VRF_TURN)
        if all(math.cos(turn - other) <= math.cos(VRF_TURN * 0.99) for other in taken[:MOST_TURNS]):
            return turn
    return wanted + len(taken)


def _moved(spots: list[Place], links: list[tuple[int, int]], distance: float, most: float) -> list[Place]:
    """One step, of at most so much for each router (Fruchterman and Reingold 1991)."""
    pushes = [_push(spots, place, distance) for place in range(len(spots))]
    for first, second in links:
        (x1, y1), (x2, y2) = spots[first], spots[second]
        pull = math.hypot(x2 - x1, y2 - y1) / distance
        dx, dy = (x2 - x1) * pull, (y2 - y1) * pull
        pushes[first] = pushes[first][0] + dx, pushes[first][1] + dy
        pushes[second] = pushes[second][0] - dx, pushes[second][1] - dy
    moved = []
    for (x, y), (dx, dy) in zip(spots, pushes):
        length = math.hypot(dx, dy)
        share = 0.0 if length == 0 else min(length, most) / length
        moved.append((x + dx * share, y + dy * share))
    return moved


def _push(spots: list[Place], place: int, distance: float) -> Place:
    x, y = spots[place]
    sum_x = sum_y = 0.0
    for other, (x2, y2) in enumerate(spots):
        if other != place:
            dx, dy = x - x2, y - y2
            square = max(dx * dx + dy * dy, 1e-6)
            sum_x += dx / square
            sum_y += dy / square
    return sum_x * distance * distance, sum_y * distance * distance


def _fitted(spots: list[Place]) -> list[Place]:
    """The same places, moved and stretched into the unit square."""
    left, top = min(x for x, _ in spots), min(y for _, y in spots)
    width = max(max(x for x, _ in spots) - left, max(y for _, y in spots) - top, 1e-9)
    return [((x - left) / width, (y - top) / width) for x, y in spots]
