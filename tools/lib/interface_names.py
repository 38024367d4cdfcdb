"""The names and addresses of interfaces, as `ip -j link` and `ip -j address` print them."""

from __future__ import annotations

import json
import re

from command import ToolError, router_and_file
from network import End

# What Linux takes as the name of an interface, as far as it is readable in a comment.
INTERFACE_NAME = re.compile(r"[!-~]{1,15}")


def read_interface_names(words: list[str]) -> dict[End, str]:
    """The names of interfaces from files that `ip -j link` wrote, each as ROUTER=FILE."""
    names: dict[End, str] = {}
    for word in words:
        router, path = router_and_file(word)
        for entry, interface in enumerate(_read_json(path), 1):
            index = interface.get("ifindex") if isinstance(interface, dict) else None
            name = interface.get("ifname") if isinstance(interface, dict) else None
            if not isinstance(index, int) or not isinstance(name, str) or not INTERFACE_NAME.fullmatch(name):
                raise ToolError(f"{path}: entry {entry} has no ifindex and ifname as `ip -j link` prints them")
            names[router, index] = name
    return names


def read_vrf_names(words: list[str]) -> dict[tuple[str, int], str]:
    """The names of VRFs by router and table, from files that `ip -j -d link` wrote, each as ROUTER=FILE. Without -d there are
    none."""
    names: dict[tuple[str, int], str] = {}
    for router, path in map(router_and_file, words):
        for interface in _read_json(path):
            info = interface.get("linkinfo") if isinstance(interface, dict) else None
            told = info.get("info_data") if isinstance(info, dict) and info.get("info_kind") == "vrf" else None
            table = told.get("table") if isinstance(told, dict) else None
            if isinstance(table, int) and isinstance(interface.get("ifname"), str):
                names[router, table] = interface["ifname"]
    return names


def _read_json(path: str) -> list:
    with open(path, "rb") as file:
        text = file.read()
    try:
        document = json.loads(text)
    except json.JSONDecodeError as error:
        raise ToolError(f"{path}: line {error.lineno}: this isn't what `ip -j link` prints: {error.msg}") from None
    except (ValueError, RecursionError):
        raise ToolError(f"{path}: this isn't what `ip -j link` prints") from None
    if not isinstance(document, list):
        raise ToolError(f"{path}: this isn't a list, as `ip -j link` prints")
    return document


def read_addresses(words: list[str]) -> dict[str, set[str]]:
    """The IPv4 addresses of routers from files that `ip -j address` wrote, each as ROUTER=FILE."""
    addresses: dict[str, set[str]] = {}
    for word in words:
        router, path = router_and_file(word)
        own = addresses.setdefault(router, set())
        for entry, interface in enumerate(_read_json(path), 1):
            told = interface.get("addr_info") if isinstance(interface, dict) else None
            if not isinstance(told, list) or not all(isinstance(one, dict) for one in told):
                raise ToolError(f"{path}: entry {entry} has no addr_info as `ip -j address` prints it")
            own.update(one["local"] for one in told if one.get("family") == "inet" and isinstance(one.get("local"), str))
    return addresses
