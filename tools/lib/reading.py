"""How a device's feed is read: by a topology, or without one."""

from __future__ import annotations

from collections.abc import Mapping
from dataclasses import dataclass, field

from frames import MAIN_TABLE, Decoded, Frame, HasInterface, decode
from network import Network


@dataclass(frozen=True)
class Reading:
    """The interfaces of a device, its VRFs by their tables, and the tables in which a set takes the place of all routes of its
    prefix. Without a topology no interface is unknown, and the main table alone is read."""

    has_interface: HasInterface | None = None
    vrfs: Mapping[int, str] = field(default_factory=dict)
    marked: frozenset[int] = frozenset()

    @staticmethod
    def of(network: Network | None, device: str) -> Reading:
        if network is None:
            return Reading()
        vrfs = network.tables(device)
        marked = frozenset(table for table, router in {MAIN_TABLE: device, **vrfs}.items() if router in network.marked)
        return Reading(lambda index: network.port(device, index) is not None, vrfs, marked)

    def decode(self, frame: Frame) -> Decoded:
        return decode(frame, self.has_interface, self.vrfs)
