"""The topology file: what it says, and each of its faults in the order in which they decide."""

from __future__ import annotations

import os
import unittest

from feed_help import TRIANGLE

from network import Link, Network, Port, TopologyFault, Vrf, line_of_entry, parse_topology, read_topology

TWO = 'routers = ["r1", "r2"]\n'
LINK = '[[link]]\nname = "a"\nends = ["r1:2", "r2:2"]\n'
EDGE = '[[edge]]\nat = "r1:1"\n'
VRF = '[[vrf]]\nrouter = "r1"\ntable = 10\nname = "v1"\n'
MARK = '[[router]]\nname = "r1"\nreplace = "prefix"\n'


def fault(text: str | bytes) -> str:
    """The program's error line for a text, or `none`."""
    try:
        parse_topology(text if isinstance(text, bytes) else text.encode())
    except TopologyFault as found:
        return found.error_line().removeprefix("error topology ")
    return "none"


class Networks(unittest.TestCase):
    def test_the_example(self) -> None:
        network = read_topology(os.path.join(TRIANGLE, "topology.toml"))
        self.assertEqual(network.routers, ["r1", "r2", "r3"])
        self.assertEqual(network.links[1], Link("b", [("r2", 3), ("r3", 2)], False))
        self.assertEqual(network.edges[0], ("r1", 4))
        self.assertEqual(network.port("r3", 2), Port("b", "r2", False))
        self.assertTrue(network.port("r2", 1).is_edge)
        self.assertIsNone(network.port("r2", 9))
        self.assertEqual(network.interfaces("r1"), [1, 2, 3, 4])

    def test_small_ones(self) -> None:
        self.assertEqual(parse_topology(b"routers = []"), Network([], [], []))
        self.assertEqual(fault(TWO + LINK + EDGE), "none")
        self.assertTrue(parse_topology((TWO + LINK + "unnumbered = true").encode()).links[0].unnumbered)

    def test_vrfs(self) -> None:
        """A VRF is a router; its interfaces are its device's, whichever of the two an end is written at."""
        text = (TWO + MARK + LINK + '[[link]]\nname = "d"\nends = ["v1:5", "r2:5"]\n[[link]]\nname = "x"\n'
                'ends = ["r1:7", "v1:8"]\n[[edge]]\nat = "v1:1"\n' + VRF)
        network = parse_topology(text.encode())
        self.assertEqual((network.routers, network.devices), (["r1", "r2", "v1"], ["r1", "r2"]))
        self.assertEqual(network.vrfs, [Vrf("v1", "r1", 10)])
        self.assertEqual([network.device_of(router) for router in network.routers], ["r1", "r2", "r1"])
        self.assertEqual((network.tables("r1"), network.tables("r2"), network.tables("v1")), ({10: "v1"}, {}, {}))
        self.assertEqual([network.table_of(router) for router in network.routers], [254, 254, 10])
        for router in ("r1", "v1"):
            self.assertEqual(network.port(router, 2), Port("a", "r2"))
            self.assertEqual(network.port(router, 5), Port("d", "r2"))
            self.assertEqual((network.port(router, 7), network.port(router, 8)), (Port("x", "v1"), Port("x", "r1")))
            self.assertTrue(network.port(router, 1).is_edge)
            self.assertEqual(network.interfaces(router), [1, 2, 5, 7, 8])
        self.assertEqual(network.port("r2", 5), Port("d", "v1"))
        self.assertIsNone(network.port("r2", 7))

    def test_marks(self) -> None:
        """A device's mark doesn't hold for its VRF, and `key` is the same as none."""
        for text, marked in ((MARK, {"r1"}), (MARK.replace("r1", "v1"), {"v1"}), (MARK.replace("prefix", "key"), set()),
                             ('[[router]]\nname = "r1"\n', set()), (MARK + MARK.replace("r1", "v1"), {"r1", "v1"})):
            self.assertEqual(parse_topology((TWO + VRF + text).encode()).marked, marked)


class Faults(unittest.TestCase):
    def test_the_whole_file(self) -> None:
        self.assertEqual(fault(b"routers = []" + b" " * 16_777_216), "top 0 10 TooLong")
        for text in (b"\xff", b"routers = [", b"x = " + b"[" * 3000, b"x = " + b"9" * 5000, b"a = 1\na = 2"):
            self.assertEqual(fault(text), "top 0 1 NotToml")

    def test_what_the_program_reads_as_toml(self) -> None:
        self.assertEqual(fault("\ufeffrouters = []"), "none")
        self.assertEqual(fault('routers = ["a"]\nedge = [{at = "a:1",\n}]'), "none")
        self.assertEqual(fault('routers = ["\\x61"]'), "none")
        self.assertEqual(fault('routers = ["\\e"]'), "routers 1 4 BadName")
        self.assertEqual(fault("routers = []\nx = 99999999999999999999"), "top 0 1 NotToml")

    def test_the_top(self) -> None:
        self.assertEqual(fault(""), "top 0 3 MissingKey")
        self.assertEqual(fault('nodes = ["r1"]'), "top 0 2 UnknownKey")
        self.assertEqual(fault('router = ["r1"]'), "top 0 3 MissingKey")
        self.assertEqual(fault('routers = "r1"'), "top 0 3 MissingKey")
        self.assertEqual(fault(TWO + '[link]\nname = "a"'), "top 0 3 MissingKey")
        self.assertEqual(fault(TWO + "edge = 4\nother = 1"), "top 0 2 UnknownKey")

    def test_routers(self) -> None:
        self.assertEqual(fault('routers = ["r1", 2]'), "routers 2 3 MissingKey")
        for name in ("", "Core", "r 1", "a" * 33, "r1\\n", "\u0661"):
            self.assertEqual(fault(f'routers = ["{name}"]'), "routers 1 4 BadName")
        self.assertEqual(fault('routers = ["r1", "r2", "r1"]'), "routers 3 5 TwiceNamed")
        many = ", ".join(f'"r{number}"' for number in range(1025))
        self.assertEqual(fault(f"routers = [{many}]"), "routers 1025 9 TooMany")

    def test_links(self) -> None:
        for text, expected in (
                (TWO + "link = [4]", "3 MissingKey"), (TWO + LINK + "nmae = 1", "2 UnknownKey"),
                (TWO + '[[link]]\nends = ["r1:2", "r2:2"]', "3 MissingKey"),
                (TWO + LINK.replace(', "r2:2"', ""), "3 MissingKey"),
                (TWO + LINK + 'unnumbered = "no"', "3 MissingKey"), (TWO + LINK.replace('"a"', '"A"'), "4 BadName"),
                (TWO + LINK.replace("r2:2", "r3:2"), "6 BadEnd"), (TWO + LINK.replace("r2:2", "r2:02"), "6 BadEnd"),
                (TWO + LINK.replace("r2:2", "r2:0"), "6 BadEnd"), (TWO + LINK.replace("r2:2", "r2"), "6 BadEnd"),
                (TWO + LINK.replace("r2:2", "r2:2147483648"), "6 BadEnd"),
                (TWO + LINK.replace("r2:2", "r1:2"), "8 SelfLink")):
            self.assertEqual(fault(text), f"link 1 {expected}")
        self.assertEqual(fault(TWO + LINK + LINK), "link 2 5 TwiceNamed")
        self.assertEqual(fault(TWO + LINK + LINK.replace('"a"', '"b"')), "link 2 7 EndTwice")
        self.assertEqual(fault(TWO + LINK.replace("r2:2", "r2:2147483647")), "none")

    def test_edges(self) -> None:
        for text, expected in ((TWO + "edge = [4]", "3 MissingKey"), (TWO + EDGE + "on = 1", "2 UnknownKey"),
                               (TWO + "[[edge]]", "3 MissingKey"), (TWO + EDGE.replace("r1", "r9"), "6 BadEnd"),
                               (TWO + LINK + EDGE.replace(":1", ":2"), "7 EndTwice")):
            self.assertEqual(fault(text), f"edge 1 {expected}")
        self.assertEqual(fault(TWO + EDGE + EDGE), "edge 2 7 EndTwice")

    def test_faults_of_vrfs(self) -> None:
        for text, expected in (
                ("vrf = [4]", "3 MissingKey"), (VRF + "device = 1", "2 UnknownKey"),
                (VRF.replace("table = 10\n", ""), "3 MissingKey"),
                (VRF.replace('"r1"', "1"), "3 MissingKey"), (VRF.replace('"v1"', "1"), "3 MissingKey"),
                (VRF.replace("10", '"10"'), "3 MissingKey"), (VRF.replace("10", "1e1"), "3 MissingKey"),
                (VRF.replace("10", "true"), "3 MissingKey"), (VRF.replace("v1", "V1").replace("r1", "r9"), "4 BadName"),
                (VRF.replace("v1", "r2").replace("r1", "r9"), "5 TwiceNamed"),
                (VRF.replace("r1", "R1").replace("10", "0"), "13 NoSuchRouter"), (VRF.replace("r1", "v1"), "13 NoSuchRouter"),
                *((VRF.replace("10", number), "14 BadTable") for number in ("0", "-1", "254", "4294967296"))):
            self.assertEqual(fault(TWO + text), f"vrf 1 {expected}", text)
        self.assertEqual(fault(TWO + VRF.replace("10", "4294967295") + VRF.replace("v1", "v2").replace("10", "1")), "none")
        self.assertEqual(fault(TWO + VRF + VRF), "vrf 2 5 TwiceNamed")
        self.assertEqual(fault(TWO + VRF + VRF.replace("v1", "v2")), "vrf 2 15 TableTwice")
        self.assertEqual(fault(TWO + VRF + VRF.replace("v1", "v2").replace("r1", "r2")), "none")
        self.assertEqual(fault(TWO + VRF + VRF.replace("v1", "v2").replace("r1", "v1")), "vrf 2 13 NoSuchRouter")
        self.assertEqual(fault(TWO + "[[link]]\n" + VRF.replace("10", "0")), "vrf 1 14 BadTable")
        many = ", ".join(f'"r{number}"' for number in range(1023))
        self.assertEqual(fault(f"routers = [{many}]\n{VRF}"), "none")
        self.assertEqual(fault(f"routers = [{many}]\n{VRF}[[vrf]]"), "vrf 2 9 TooMany")

    def test_ends_of_vrfs(self) -> None:
        link = LINK.replace('"a"', '"b"')
        for text, expected in ((link.replace("r1:2", "v1:2").replace("r2:2", "r2:3"), "link 2 7 EndTwice"),
                               (link.replace("r1:2", "v1:5").replace("r2:2", "r1:5"), "link 2 7 EndTwice"),
                               (link.replace("r1:2", "v1:5").replace("r2:2", "v1:6"), "link 2 8 SelfLink"),
                               (link.replace("r1:2", "v1:5").replace("r2:2", "r1:6"), "none"),
                               (link.replace("r1:2", "v2:5").replace("r2:2", "r2:6"), "link 2 6 BadEnd"),
                               ('[[edge]]\nat = "v1:2"', "edge 1 7 EndTwice"), ('[[edge]]\nat = "v1:3"', "none")):
            self.assertEqual(fault(TWO + VRF + LINK + text), expected, text)

    def test_faults_of_marks(self) -> None:
        for text, expected in (
                ("router = [4]", "3 MissingKey"), (MARK + "on = 1", "2 UnknownKey"), ("[[router]]", "3 MissingKey"),
                (MARK.replace('"prefix"', "true"), "3 MissingKey"), (MARK.replace("r1", "R1"), "4 BadName"),
                (MARK.replace("r1", "r9").replace("prefix", "x"), "13 NoSuchRouter"),
                (MARK.replace("prefix", "x"), "11 BadReplace"),
                (MARK.replace("prefix", "Key"), "11 BadReplace")):
            self.assertEqual(fault(TWO + text), f"router 1 {expected}", text)
        self.assertEqual(fault(TWO + MARK + MARK.replace("prefix", "x")), "router 2 12 TwiceMarked")
        self.assertEqual(fault(TWO + MARK + "[[edge]]"), "edge 1 3 MissingKey")

    def test_places(self) -> None:
        with self.assertRaises(TopologyFault) as caught:
            parse_topology((TWO + LINK + EDGE + EDGE).encode())
        self.assertEqual((caught.exception.line, str(caught.exception)),
                         (7, "line 7: edge 2: EndTwice: r1:1 stands in an edge already"))
        with self.assertRaises(TopologyFault) as caught:
            parse_topology(b'routers = ["r1"]\n[[link]]\nname = a')
        self.assertEqual((caught.exception.line, caught.exception.column), (3, 8))
        with self.assertRaises(TopologyFault) as caught:
            parse_topology((TWO + VRF + LINK + '[[edge]]\nat = "v1:2"\n').encode())
        self.assertEqual(str(caught.exception), "line 9: edge 1: EndTwice: v1:2 stands in link a already as r1:2: r1 and its "
                         "VRFs share their interfaces")
        self.assertEqual(line_of_entry(TWO + LINK, "link", 1), 2)
        self.assertIsNone(line_of_entry(TWO + LINK, "link", 2))


if __name__ == "__main__":
    unittest.main()
