#!/usr/bin/env python3
"""Tries tests/pkt_model, the interpreter of the language pkt, on packets of which the outcome was worked out by hand from docs/users/pkt.md.

Usage: tests/tools/pkt_model_test.py   (needs no program and no compiler; less than a second)
"""
import pathlib
import tempfile
import unittest

import paths  # noqa: F401

from command import TOP
from model import captures, pipelines
from model.machine import Env, Input, Pool, Port, Ring, run
from pkt_model.machine import Open, Source, SourceWorld
from pkt_model.reader import Fault, read, six

EXAMPLES = TOP / "examples"
PRELUDE = (TOP / "tools/pkt/prelude.pkt").read_text()
ENDS = "020000000b0b 020000000a0a"
# A datagram from 192.168.0.1 to 192.168.0.199 with a time to live of 64; its header's checksum is b861.
HEAD = "4500 0073 0000 4000 4011 b861 c0a80001 c0a800c7"
PLAIN = f"{ENDS} 0800 {HEAD}"
TAGGED = f"{ENDS} 8100 2005 0800 {HEAD}"
TWICE = f"{ENDS} 88a8 0007 8100 2005 0800 {HEAD}"
# Its header has one word of options; TCP from 1000 to 80.
OPTIONS = f"{ENDS} 0800 4600 002c 0000 0000 4006 0000 0a000001 0a000002 01010101 03e80050 00000001 00000002 5002 2000 1234 0000"
TABLE = {(0x0A000000, 8): 1, (0xC0A80000, 16): 2}


def data_of(text: str) -> bytes:
    """The bytes that hexadecimal digits spell."""
    return bytes.fromhex(text.replace(" ", ""))


def world_of(text: str, rings: tuple[str, ...] = (), pools: tuple[int, int] = (8, 8), queue: int = 8, ports: int = 3, room: int = 2176) -> SourceWorld:
    """A pipeline of ports with this program, and of rings with theirs."""
    segments = 4 if room < 2176 else 1
    env = Env(
        [Pool(pools[0], 0, room), Pool(pools[1], 0, 0)],
        [TABLE],
        [Ring(4, (0, 0, 0, 0, 0, 64)) for _ in rings],
        [Port(0, segments, queue) for _ in range(ports)],
    )
    return SourceWorld(env, [Source(read(it, PRELUDE)) for it in [*[text] * ports, *rings]])


def sent(text: str, *frames: str, port: int = 0, **more: object) -> list[list[str]]:
    """What each port sends of frames that come at one, in hexadecimal digits."""
    world = world_of(text, **more)  # type: ignore[arg-type]
    inputs = [Input([], "whole") for _ in world.env.ports]
    inputs[port] = Input([(0, 0, data_of(frame)) for frame in frames], "whole")
    return [[data.hex() for _, _, data in records] for records in run(world, inputs).sent]


class Headers(unittest.TestCase):
    """Which headers are found, and what happens if they are not."""

    def passes(self, condition: str, frame: str) -> bool:
        """Whether a frame meets a condition."""
        return sent(f"need {condition} send 0", frame)[0] == [data_of(frame).hex()]

    def test_presence(self) -> None:
        for condition in ("eth", "ipv4", "eth/ipv4", "eth.type == 0x0800", "not vlan", "not tcp", "ipv4.proto == 17", "not udp"):
            self.assertTrue(self.passes(condition, PLAIN), condition)
        self.assertTrue(self.passes("udp", PLAIN + "0000000000080000"))
        self.assertFalse(self.passes("udp", PLAIN + "00000000000800"))
        self.assertFalse(self.passes("ipv4", PLAIN[:-2]))

    def test_no_header_no_comparison(self) -> None:
        for condition in ("tcp.dport != 80", "tcp.dport == tcp.dport", "vlan.vid in 0..4095", "tcp.seq"):
            self.assertFalse(self.passes(condition, PLAIN), condition)
        self.assertTrue(self.passes("not tcp.dport != 80", PLAIN))

    def test_what_was_answered_stays(self) -> None:
        self.assertFalse(self.passes("ipv4", TAGGED))
        self.assertTrue(self.passes("vlan and ipv4.ttl == 64", TAGGED))
        self.assertTrue(self.passes("not ipv4 and vlan and ipv4", TAGGED))
        self.assertTrue(self.passes("qinq/vlan/ipv4", TWICE))
        self.assertFalse(self.passes("vlan", TWICE))
        self.assertEqual(sent("need ipv4 eth.type = 0 need ipv4 and not arp send 0", PLAIN)[0], [data_of(PLAIN.replace("0800", "0000")).hex()])

    def test_options(self) -> None:
        for condition in ("tcp.dport == 80", "l4.sport == 1000", "tcp.flags & 0x12 == 2", "ipv4.ihl == 6"):
            self.assertTrue(self.passes(condition, OPTIONS), condition)
        self.assertFalse(self.passes("tcp", OPTIONS.replace("4600", "4400")))
        self.assertFalse(self.passes("tcp", OPTIONS.replace("4600", "4700")))

    def test_otherwise(self) -> None:
        self.assertEqual(sent("tcp.dport = 1 send 0", PLAIN), [[], [], []])
        self.assertEqual(sent("ports 3 otherwise send 2 tcp.dport = 1 send 0", PLAIN)[2], [data_of(PLAIN).hex()])
        self.assertEqual(sent("otherwise send port cut 100 send 0", PLAIN)[0], [data_of(PLAIN).hex()])

    def test_first_segment_alone(self) -> None:
        self.assertEqual(sent("segments 4 need eth and not ipv4 send 0", PLAIN, room=160)[0], [data_of(PLAIN).hex()])

    def test_options_and_little_room(self) -> None:
        with self.assertRaises(Open):
            sent("need tcp send 0", OPTIONS + "00" * 1956)
        self.assertEqual(len(sent("need tcp send 0", OPTIONS + "00" * 1954)[0]), 1)


class Numbers(unittest.TestCase):
    """Numbers and conditions."""

    def holds(self, condition: str) -> bool:
        """Whether a condition holds of a packet from port 2."""
        return sent(f"ports 3 if {condition} {{ send 0 }}", PLAIN, port=2)[0] != []

    def test_numbers(self) -> None:
        for condition in (
            "1 + 2 * 3 == 7",
            "1 << 4 + 1 == 32",
            "6 & 3 | 8 == 10",
            "0 - 1 == 0xffffffffffffffff",
            "~0 >> 60 == 15",
            "1 << 63 << 1 == 0",
            "port == 2",
            "192.0.2.1 == 0xc0000201",
            "02:00:00:00:00:0a == 0x02000000000a",
            "length == 34 and length in 30..34 and 35 > length",
            "ipv4.dst in 192.168.0.0/16 and not ipv4.dst in 192.168.1.0/24",
            "ipv4.ttl in {1, 64} and ipv4.ttl in 64..64 and not ipv4.ttl in 65..255",
            "ipv4.pieces == 0 and ipv4.flags == 2 and ipv4.vhl == 0x45 and ipv4.dscp == 0",
            "1 == 2 and 1 == 2 or 1 == 1",
            "not 1 == 2 and 5",
            "ipv4.dst in 0xc0a80000/16 and eth.src in 02:00:00:00:00:00/24 and not eth.src in 03:00:00:00:00:00/8",
            "2001:db8::1 == 2001:db8:0:0:0:0:0:1 and ::1 in ::/127 and not ::2 in ::/127 and 1:: in 0:0:0:0::/0",
        ):
            self.assertTrue(self.holds(condition), condition)
        self.assertFalse(self.holds("0"))

    def test_assignments(self) -> None:
        text = "let a = 5 a += 3 a *= 2 a -= 1 a <<= 4 a ^= 1 a |= 2 a &= 0xf3 ipv4.id = a eth.src = 02:00:00:00:00:01 + a send 0"
        frame = data_of(PLAIN.replace("020000000a0a", "0200000000f4").replace("0073 0000", "0073 00f3"))
        self.assertEqual(sent(text, PLAIN)[0], [frame.hex()])

    def test_sets_and_defs(self) -> None:
        text = "set IN = {192.168.0.0/16, 10.0.0.1} set T = {IN, 8.8.8.8} table R = 0 def f(a, b) { let x = a + b count c ipv4.id = x } "
        self.assertEqual(len(sent(text + "need ipv4.src in IN and not ipv4.src in {8.8.8.8} and ipv4.dst in T send 0", PLAIN)[0]), 1)
        frame = data_of(PLAIN.replace("0073 0000", "0073 0005"))
        self.assertEqual(sent(text + "let x = 2 f(x, 3) need x == 2 send 0", PLAIN)[0], [frame.hex()])

    def test_files(self) -> None:
        with tempfile.TemporaryDirectory() as name:
            folder = pathlib.Path(name)
            (folder / "sub").mkdir()
            (folder / "net.pkt").write_text('include "sub/more.pkt"\ndef out(a) { ipv4.ttl = a }')
            (folder / "sub/more.pkt").write_text('set IN = {10.0.0.0/8}\ninclude "../net.pkt"\nconst HOPS = 9')
            text = 'include "net.pkt" include "net.pkt" need ipv4.src in IN out(HOPS) send port'
            plain = "need ipv4.src in 10.0.0.0/8 ipv4.ttl = 9 send port"
            self.assertEqual(str(read(text, PRELUDE, folder).block[0]), str(read(plain, PRELUDE).block[0]))
            self.assertEqual(str(read(text, PRELUDE, folder).block[1].body), str(read(plain, PRELUDE).block[1:2]))
            self.assertRaises(Fault, read, text, PRELUDE)

    def test_addresses(self) -> None:
        for text, wanted in {"::1.2.3.4": 0x1020304, "1:2:3:4:5:6:7.8.9.10": 0x1000200030004000500060708090A, "1::8.0.0.2": (1 << 112) + 0x8000002}.items():
            self.assertEqual(six(text), wanted)
        self.assertRaises(Fault, six, "1::2::1.2.3.4")

    def test_lookup(self) -> None:
        self.assertEqual([len(it) for it in sent("ports 3 let hop = lookup 0 ipv4.dst else drop send hop", PLAIN)], [0, 0, 1])
        self.assertEqual([len(it) for it in sent("let hop = lookup 0 8.8.8.8 else send 0 drop", PLAIN)], [1, 0, 0])

    def test_texts_that_are_none(self) -> None:
        for text in ("send", "if ipv4 send 0", "let in = 5", "x @ 5", "send (1 == 1) + 1", "let x = 017", "let x = 10.0.0.01"):
            with self.assertRaises(Fault, msg=text):
                read(text, PRELUDE)


class Sums(unittest.TestCase):
    """`mend`."""

    def test_of_the_header(self) -> None:
        wanted = PLAIN.replace("4011 b861", "3f11 b961")
        self.assertEqual(sent("mend ipv4.ttl -= 1 send 0", PLAIN)[0], [data_of(wanted).hex()])
        self.assertEqual(sent("ipv4.ttl -= 1 send 0", PLAIN)[0], [data_of(PLAIN.replace("4011", "3f11")).hex()])

    def test_of_what_follows(self) -> None:
        # 10.0.0.1 becomes 10.0.0.2 and the port 81: 1234 is two less; the checksum of the header was 0, and is ffff - 1.
        wanted = OPTIONS.replace("0a000001", "0a000002").replace("0050", "0051").replace("1234", "1232").replace("4006 0000", "4006 fffe")
        self.assertEqual(sent("mend ipv4.src += 1 mend tcp.dport = 81 send 0", OPTIONS)[0], [data_of(wanted).hex()])

    def test_of_udp(self) -> None:
        datagram = PLAIN + "0035 0035 0008 {}"
        for old, new in (("0000", "0000"), ("0001", "ffff"), ("1001", "1000")):
            self.assertEqual(sent("mend udp.sport += 1 send 0", datagram.format(old))[0], [data_of(datagram.format(new).replace("0035", "0036", 1)).hex()])


    def test_of_one_that_another_covers(self) -> None:
        # The inner word becomes 2 more and its checksum 2 less: the outer checksum, 1234, stays.
        text = "header mine { a:16 s:16 } after udp if udp.dport == 53 sum s mend mine.a += 2 send 0"
        datagram = PLAIN + "0035 0035 000c 1234 {}"
        self.assertEqual(sent(text, datagram.format("0001 fffe"))[0], [data_of(datagram.format("0003 fffc")).hex()])
        # Without that checksum it is 2 less.
        self.assertEqual(sent(text.replace(" sum s", ""), datagram.format("0001 fffe"))[0], [data_of(datagram.replace("1234", "1232").format("0003 fffe")).hex()])


class Packets(unittest.TestCase):
    """Packets that are made, sent or queued, and dropped."""

    def test_clones(self) -> None:
        text = "ports 2 clone c from 1 else send port truncate c 14 send c to 1 send 0"
        self.assertEqual(sent(text, PLAIN), [[data_of(PLAIN).hex()], [data_of(PLAIN)[:14].hex()], []])
        self.assertEqual(sent(text, PLAIN, pools=(8, 0)), [[data_of(PLAIN).hex()], [], []])

    def test_blocks_drop_what_they_made(self) -> None:
        text = "if eth { clone c from 1 } if eth { clone d from 1 } send 0"
        self.assertEqual([len(it) for it in sent(text, PLAIN, pools=(8, 1))], [1, 0, 0])

    def test_lists_that_are_full(self) -> None:
        text = "ports 2 clone c from 1 send c to 1 clone d from 1 send d to 1 else { free d send 0 } send 1"
        self.assertEqual([len(it) for it in sent(text, PLAIN, queue=2)], [1, 1, 0])
        self.assertEqual([len(it) for it in sent("send ipv4.ttl else send 0", PLAIN)], [1, 0, 0])
        self.assertEqual([len(it) for it in sent("send ipv4.ttl", PLAIN)], [0, 0, 0])

    def test_chains(self) -> None:
        text = "new h from 0 push eth { type = 7 } on h chain h before this need eth.type == 7 send 0"
        self.assertEqual(sent(text, "0102")[0], ["00" * 12 + "0007" + "0102"])

    def test_rings(self) -> None:
        self.assertEqual(sent("queue 0", "0102", rings=("ports 3 send port + 1",)), [[], ["0102"], []])

    def test_loops(self) -> None:
        self.assertEqual(sent("while vlan { pop vlan } send 0", TAGGED)[0], [data_of(PLAIN).hex()])
        self.assertEqual([len(it) for it in sent("let i = 0 while i < 256 { i += 1 } send 0", PLAIN)], [1, 0, 0])
        world = world_of("let i = 0 while i < 257 { i += 1 } send 0")
        self.assertEqual(run(world, [Input([(0, 0, b"")], "whole")] + [Input([], "whole")] * 2).report.splitlines()[-1], "cut 1")


class Bytes(unittest.TestCase):
    """Bytes that come and go."""

    def test_tags(self) -> None:
        self.assertEqual(sent("push vlan { pcp = 1 vid = 5 } send 0", PLAIN)[0], [data_of(TAGGED).hex()])
        self.assertEqual(sent("pop vlan send 0", TAGGED)[0], [data_of(PLAIN).hex()])
        self.assertEqual(sent("pop qinq/vlan send 0", TWICE)[0], [data_of(PLAIN).hex()])
        self.assertEqual(sent("need vlan push qinq { vid = 7 } send 0", TAGGED)[0], [data_of(TWICE).hex()])
        self.assertEqual(sent("pop eth/vlan send 0", TAGGED)[0], [data_of(HEAD).hex()])

    def test_headers(self) -> None:
        text = "cut 14 push eth { dst = 02:00:00:00:0b:0b src = 02:00:00:00:0a:0a } ipv4 { len = 54 ttl = 64 proto = 4 src = 10.0.0.1 dst = 10.0.0.2 } send 0"
        # 4500 + 0036 + 4004 + 0a00 + 0001 + 0a00 + 0002 = 993d
        outer = f"{ENDS} 0800 4500 0036 0000 0000 4004 66c2 0a000001 0a000002"
        self.assertEqual(sent(text, PLAIN)[0], [data_of(outer + HEAD).hex()])

    def test_headroom(self) -> None:
        self.assertEqual([len(it) for it in sent(f"{'push eth { } ' * 9} send 0", PLAIN)], [1, 0, 0])
        self.assertEqual([len(it) for it in sent(f"{'push eth { } ' * 10} send 0", PLAIN)], [0, 0, 0])
        self.assertEqual([len(it) for it in sent(f"cut 14 {'push eth { } ' * 10} send 0", PLAIN)], [1, 0, 0])

    def test_options_go_with_their_header(self) -> None:
        self.assertEqual(sent("pop ipv4 send 0", OPTIONS)[0], [(data_of(OPTIONS)[:14] + data_of(OPTIONS)[38:]).hex()])
        self.assertEqual(sent("pop ipv4 send 0", data_of(OPTIONS)[:37].hex())[0], [])

    def test_truncate_and_cut(self) -> None:
        self.assertEqual(sent("truncate 15 need not ipv4 cut 14 send 0", PLAIN)[0], ["45"])


class Examples(unittest.TestCase):
    """The interpreter sends what scapy says (tests/program/by_scapy.py, tests/program/tasks_by_scapy.py): it and the examples were written independently."""

    def test_examples(self) -> None:
        folders = [it for it in sorted(EXAMPLES.iterdir()) if (it / f"{it.name}.toml").exists() and list(it.glob("*.pkt"))]
        for folder in folders:
            known = pipelines.settings((folder / f"{folder.name}.toml").read_bytes())
            assert isinstance(known, tuple)
            _, env, nodes = known
            sources = [(folder / node.node).with_suffix(".pkt") for node in nodes]
            texts = [source.read_text() if source.exists() else "drop" for source in sources]
            world = SourceWorld(env, [Source(read(text, PRELUDE)) for text in texts])
            ports = nodes[: len(env.ports)]
            done = run(world, [Input(captures.read((folder / node.reads).read_bytes()).records, "whole") for node in ports])
            expected = [folder / ("expected.pcap" if len(ports) == 1 else f"expected{k}.pcap") for k in range(len(ports))]
            for records, path in zip(done.sent, expected):
                self.assertEqual(records, captures.read(path.read_bytes()).records, path)
        self.assertGreater(len(folders), 11)

    def test_tasks(self) -> None:
        tasks = sorted((EXAMPLES / "tasks").glob("*.pkt"))
        for task in tasks:
            expected = sorted(it for it in task.parent.glob(f"{task.stem}*.pcap") if it.stem.rstrip("0123456789") == task.stem)
            world = world_of(task.read_text(), ports=len(expected), pools=(64, 64), queue=32)
            given = captures.read((task.parent / "in.pcap").read_bytes()).records
            done = run(world, [Input(given, "whole"), *[Input([], "whole")] * (len(expected) - 1)])
            for records, path in zip(done.sent, expected):
                self.assertEqual(records, captures.read(path.read_bytes()).records, path)
        self.assertGreater(len(tasks), 9)


if __name__ == "__main__":
    unittest.main()
