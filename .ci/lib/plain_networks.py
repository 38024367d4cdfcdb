"""Small networks, the routes that their routers tell, and the answer to each query: a plain evaluator that shares nothing
with the program and nothing with the tools.

It keeps each router's table, cuts the addresses at the ends of all prefixes, and follows the first address of each
interval.
"""

import struct
from dataclasses import dataclass

ADDRESSES = 2**32
MAIN = 254
DROPS = {6: "blackhole", 7: "unreachable", 8: "prohibit"}
UNICAST, LOCAL = 1, 2
SPARE = 1000  # an interface that no route names, and neither the next

# What a router does: ("noroute",), ("local",), ("dropped", WORD), ("exit", I), ("onlink", I), ("to", ROUTER, LINK) or
# ("linkdown", LINK), with routers and links by their places.
NO_ROUTE = ("noroute",)


def dotted(address):
    return ".".join(str(address >> shift & 255) for shift in (24, 16, 8, 0))


def undotted(text):
    return sum(int(part) << shift for part, shift in zip(text.split("."), (24, 16, 8, 0)))


# ---- messages


@dataclass(frozen=True)
class Route:
    """A route's message: what is set, or the prefix and metric that are deleted."""

    is_deletion: bool
    base: int
    length: int
    metric: int | None
    kind: int = 0
    has_gateway: bool = False
    interface: int | None = None
    table: int = MAIN
    table_byte: int = MAIN  # what stands in the fixed part, 0 counting as main; where it isn't the table, an attribute says it

    def message(self):
        route = struct.pack("<BBBBBBBBI", 2, self.length, 0, 0, self.table_byte, 11, 0, self.kind, 0)
        if (self.table_byte or MAIN) != self.table:
            route += attribute(15, struct.pack("<I", self.table))
        route += attribute(1, struct.pack(">I", self.base))
        if self.has_gateway:
            route += attribute(5, bytes([192, 0, 2, 1]))
        if self.interface is not None:
            route += attribute(4, struct.pack("<I", self.interface))
        if self.metric is not None:
            route += attribute(6, struct.pack("<I", self.metric))
        return struct.pack("<IHHII", 16 + len(route), 25 if self.is_deletion else 24, 0x0501, 0, 0) + route


def attribute(kind, payload):
    return struct.pack("<HH", 4 + len(payload), kind) + payload


def frame_of(routes):
    payload = b"".join(route.message() for route in routes)
    return struct.pack(">BBH", 1, 1, 4 + len(payload)) + payload


# ---- networks


class Network:
    """Devices r0, r1, .., then their VRFs v0, v1, .., links l0, l1, .. between two (router, interface) each, and edges. A
    router is a device or a VRF, by its place; one that is marked replaces by prefix."""

    def __init__(self, chance):
        count = chance.randint(1, 6)
        self.device_of = list(range(count))
        self.table_of = [MAIN] * count
        for _ in range(chance.choice([0, 0, 1, 2, 4])):
            device, table = chance.randrange(count), chance.choice([1, 10, 10, 253, 255, 256, ADDRESSES - 1])
            if self.router_by(device, table) is None:
                self.device_of.append(device)
                self.table_of.append(table)
        self.devices = [f"r{i}" for i in range(count)]
        self.routers = self.devices + [f"v{i}" for i in range(len(self.device_of) - count)]
        share = chance.choice([0, 0.5, 1])
        self.marks = {router: chance.random() < 0.7 for router in range(len(self.routers)) if chance.random() < share}
        self.interfaces = [0] * count
        self.links = []
        for _ in range(chance.randint(0, 2 * count) if len(self.routers) > 1 else 0):
            first, second = chance.sample(range(len(self.routers)), 2)
            self.links.append((self.new_end(first), self.new_end(second), chance.random() < 0.3))
        self.edges = [self.new_end(router) for router in range(len(self.routers)) if chance.random() < 0.7]

    def new_end(self, router):
        """A new interface of the router's device."""
        self.interfaces[self.device_of[router]] += 1
        return router, self.interfaces[self.device_of[router]]

    def router_by(self, device, table):
        """The router that this table of a device is; None where it is none."""
        found = [router for router, own in enumerate(self.table_of) if (self.device_of[router], own) == (device, table)]
        return found[0] if found else None

    def replaces_prefix(self, router):
        return self.marks.get(router, False)

    def add_spare_link(self):
        """A link between interfaces that no route names, and its name."""
        self.links.append(((0, SPARE), (len(self.routers) - 1, SPARE + 1), False))
        return f"l{len(self.links) - 1}"

    def link_names(self):
        return [f"l{number}" for number in range(len(self.links))]

    def text(self):
        names = ", ".join(f'"{name}"' for name in self.devices)
        lines = [f"routers = [{names}]"]
        for router in range(len(self.devices), len(self.routers)):
            lines += ["[[vrf]]", f'router = "{self.devices[self.device_of[router]]}"', f"table = {self.table_of[router]}",
                      f'name = "{self.routers[router]}"']
        for number, (first, second, is_unnumbered) in enumerate(self.links):
            ends = ", ".join(f'"{self.routers[router]}:{interface}"' for router, interface in (first, second))
            lines += ["[[link]]", f'name = "l{number}"', f"ends = [{ends}]"]
            lines += ["unnumbered = true"] if is_unnumbered else []
        for router, interface in self.edges:
            lines += ["[[edge]]", f'at = "{self.routers[router]}:{interface}"']
        for router, is_by_prefix in self.marks.items():
            lines += ["[[router]]", f'name = "{self.routers[router]}"']
            lines += ['replace = "prefix"'] if is_by_prefix else ['replace = "key"'] * (router % 2)
        return "\n".join(lines) + "\n"

    def target(self, device, route):
        """What a route that a device sets does, in whichever of its tables: all of its interfaces are looked at."""
        if route.kind == LOCAL:
            return ("local",)
        if route.kind in DROPS:
            return "dropped", DROPS[route.kind]
        for number, (first, second, is_unnumbered) in enumerate(self.links):
            for near, far in ((first, second), (second, first)):
                if self.is_at(device, route.interface, near) and (route.has_gateway or is_unnumbered):
                    return "to", far[0], number
        if route.has_gateway and any(self.is_at(device, route.interface, end) for end in self.edges):
            return "exit", route.interface
        return "onlink", route.interface

    def is_at(self, device, interface, end):
        return (device, interface) == (self.device_of[end[0]], end[1])

    def printed(self, target):
        if target[0] == "to":
            return f"to {self.routers[target[1]]} by l{target[2]}"
        if target[0] == "linkdown":
            return f"linkdown l{target[1]}"
        return " ".join(str(word) for word in target)


# ---- the evaluator


@dataclass(frozen=True)
class Update:
    """An entry of a device's feed, by its place: a route of one of its tables, whose router that is."""

    device: int
    router: int
    route: Route


@dataclass(frozen=True)
class LinkEntry:
    """An entry by which a link goes down or comes up, of a script's job by its place."""

    job: int
    link: int
    is_down: bool

    def words(self):
        return f"{'down' if self.is_down else 'up'} l{self.link}"


def downs_after(history):
    """The links that are down: those whose last entry says so."""
    last = {entry.link: entry.is_down for entry in history if isinstance(entry, LinkEntry)}
    return {link for link, is_down in last.items() if is_down}


def shown(target, down):
    """What becomes of an address at a router with these links down."""
    return ("linkdown", target[2]) if target[0] == "to" and target[2] in down else target


def tables_after(network, history):
    """Each router's table, from (base, length, metric) to what is done, after these updates and entries of links."""
    tables = [{} for _ in network.routers]
    for entry in (entry for entry in history if isinstance(entry, Update)):
        table, route = tables[entry.router], entry.route
        goes_all = network.replaces_prefix(entry.router) if not route.is_deletion else route.metric is None
        for key in list(table):
            if key[:2] == (route.base, route.length) and (goes_all or key[2] == (route.metric or 0)):
                del table[key]
        if not route.is_deletion:
            table[route.base, route.length, route.metric or 0] = network.target(entry.device, route)
    return tables


def best(table, address):
    covering = [key for key in table if key[0] <= address < key[0] + 2 ** (32 - key[1])]
    return table[min(covering, key=lambda key: (-key[1], key[2]))] if covering else NO_ROUTE


def intervals(tables):
    """The addresses, cut at both ends of each prefix, as (first, past)."""
    ends = {0, ADDRESSES}
    for table in tables:
        for base, length, _ in table:
            ends |= {base, base + 2 ** (32 - length)}
    ordered = sorted(ends)
    return list(zip(ordered, ordered[1:]))


class Moment:
    """What each router does with each address after a history, with some links down beside those that it took down."""

    def __init__(self, network, history, down=()):
        down = downs_after(history).union(down)
        self.count = len(network.routers)
        tables = tables_after(network, history)
        self.rows = intervals(tables)
        self.does = []
        for first, _ in self.rows:
            self.does.append([shown(best(table, first), down) for table in tables])

    def walk(self, row, router):
        """The routers of a walk, and what the last does, or a loop."""
        hops = [router]
        while len(hops) <= self.count:
            target = self.does[row][hops[-1]]
            if target[0] != "to":
                return hops, target
            hops.append(target[1])
        return hops, ("loop",)

    def runs(self, passes):
        """The lines of the runs of the addresses whose row passes."""
        found = []
        for row, (first, past) in enumerate(self.rows):
            if passes(row) and found and found[-1][1] == first:
                found[-1][1] = past
            elif passes(row):
                found.append([first, past])
        return [f"{dotted(first)}-{dotted(past - 1)}" for first, past in found] or ["none"]


def path(network, moment, router, address):
    row = max(row for row, (first, _) in enumerate(moment.rows) if first <= undotted(address))
    hops, end = moment.walk(row, network.routers.index(router))
    return ["hops " + " ".join(network.routers[hop] for hop in hops), "end " + network.printed(end)]


def reach(network, moment, start, arrival):
    first, last = network.routers.index(start), network.routers.index(arrival)
    return moment.runs(lambda row: last in moment.walk(row, first)[0])


def waypoint(network, moment, start, arrival, waypoint):
    first, last, by = (network.routers.index(name) for name in (start, arrival, waypoint))

    def misses(row):
        hops = moment.walk(row, first)[0]
        return last in hops and by not in hops[: hops.index(last) + 1]

    return moment.runs(misses)


def uses(network, moment, link):
    number, lines = int(link[1:]), []
    for router, _ in network.links[number][:2]:
        lines += [f"from {network.routers[router]}"]
        lines += moment.runs(lambda row: moment.does[row][router][::2] == ("to", number))
    return lines


def loops(network, moment):
    cycles = {}
    for row, (first, past) in enumerate(moment.rows):
        for router in range(moment.count):
            hops, target = [router], moment.does[row][router]
            while target[0] == "to" and target[1] not in hops:
                hops.append(target[1])
                target = moment.does[row][target[1]]
            if target[:2] == ("to", router) and min(hops) == router:
                least, number = cycles.get(tuple(hops), (first, 0))
                cycles[tuple(hops)] = least, number + past - first
    found = sorted(cycles.items(), key=lambda cycle: (cycle[1][0], cycle[0][0]))
    return [
        f"cycle {' '.join(network.routers[hop] for hop in hops)} least {dotted(least)} addresses {number}"
        for hops, (least, number) in found
    ] or ["none"]


def blackholes(network, moment, router):
    walks = [moment.walk(row, network.routers.index(router)) for row in range(len(moment.rows))]
    causes = ["noroute"] + [f"dropped {word}" for word in DROPS.values()]
    causes += [f"linkdown l{number}" for number in range(len(network.links))]
    ends = [(hops[-1], network.printed(target)) for hops, target in walks]
    lines = []
    for end in sorted({end for end in ends if end[1] in causes}, key=lambda end: (end[0], causes.index(end[1]))):
        lines += [f"at {network.routers[end[0]]} {end[1]}"] + moment.runs(lambda row: ends[row] == end)
    return lines or ["none"]


def delta(network, history):
    before, after = tables_after(network, history[:-1]), tables_after(network, history)
    was_down, is_down = downs_after(history[:-1]), downs_after(history)
    lines = []
    for name, old, new in zip(network.routers, before, after):
        found = []
        for first, past in intervals([old, new]):
            change = shown(best(old, first), was_down), shown(best(new, first), is_down)
            if change[0] == change[1]:
                continue
            if found and found[-1][1:] == [first, change]:
                found[-1][1] = past
            else:
                found.append([first, past, change])
        for first, past, change in found:
            was, now = (network.printed(target) for target in change)
            lines.append(f"{name} {dotted(first)}-{dotted(past - 1)} {was} -> {now}")
    return lines or ["none"]


VERBS = {"path": path, "reach": reach, "waypoint": waypoint, "uses": uses, "loops": loops, "blackholes": blackholes}


def answer(network, history, words):
    """The lines of the answer to a query after a history."""
    if words[0] == "delta":
        return delta(network, history)
    down = ()
    if words[0] == "without":
        down, words = {int(name[1:]) for name in words[1].split(",")}, words[2:]
    return VERBS[words[0]](network, Moment(network, history, down), *words[1:])
