#!/usr/bin/env python3
"""Tries the parts of the language's compiler, tools/pkt: words and grammar, headers, errors and their places, registers, layout, and what
compiled programs send. The checker and the machine are those of tests/model.

Usage: tests/tools/pkt_test.py   (needs no program; some seconds)
"""
import functools
import ipaddress
import operator
import pathlib
import random
import re
import struct
import subprocess
import sys
import tempfile
import time
import unittest

from paths import TOP

from model import programs, rules
from model.machine import Env, Input, Pool, Port, Ring, World, run
from pkt_model.machine import Source, SourceWorld
from pkt_model.reader import read
from pkt.compiler import compile_text, compiled, error_text, parse
from pkt.filtering import require_filter
from pkt.headers import Headers, Span
from pkt.graph import Graph, Instruction
from pkt.lexer import words_of
from pkt.parser import Parser
from pkt.peephole import shorten
from pkt.prove.command import lacks, unreached
from pkt.reach import BIGGEST, Value, leave_out, reached
from pkt.state import SOMEBODY, SOMEBODY_THE_REST, Packet, State
from pkt.syntax import Compare, Field, Number, SourceError
from pkt.ways import Unit, Way

PRELUDE = (TOP / "tools/pkt/prelude.pkt").read_text()
ROUTES = {(0x0A000000, 8): 1, (0xC0000200, 24): 0}
ENV = Env([Pool(64, 0, 2176), Pool(64, 0, 0)], [ROUTES], [Ring(32, (0, 0, 0, 0, 0, 64))], [Port(0, 1, 32), Port(0, 1, 32), Port(0, 1, 32)])
FREES = programs.assemble(b"free p0\nexit\n")
SENDS = programs.assemble(b"tx p0,r0,d\nexit\nd: free p0\nexit\n")


def count(source: str) -> int:
    """How many instructions a program is compiled to."""
    return len(programs.assemble(compile_text(source).encode()))


def refused(source: str) -> tuple[int, int] | None:
    """The label and the rule at which the checker refuses the compiled program, or nothing."""
    program = programs.assemble(compile_text(source).encode())
    assert isinstance(program, list), program
    entry = rules.entry_row(ENV, 0)
    rows = rules.infer(ENV, program, entry)
    return None if rows is not None else (-1, 0)


def sent(source: str, *frames: bytes) -> list[list[bytes]]:
    """What each port sends for frames received at port 0; the checker must accept the program."""
    assert refused(source) is None, "refused"
    program = programs.assemble(compile_text(source).encode())
    world = World(ENV, [program, FREES, FREES, FREES], frozenset())
    records = [(0, 0, frame) for frame in frames]
    done = run(world, [Input(records, "whole"), Input([], "whole"), Input([], "whole")])
    return [[record[2] for record in port] for port in done.sent]


def checksum(data: bytes) -> int:
    """An Internet checksum."""
    total = sum(int.from_bytes((data + b"\0")[k : k + 2], "big") for k in range(0, len(data), 2))
    while total >> 16:
        total = (total & 0xFFFF) + (total >> 16)
    return total ^ 0xFFFF


def ipv4(proto: int, payload: bytes, options: bytes = b"", ttl: int = 64, src: str = "10.0.0.1", dst: str = "192.0.2.7") -> bytes:
    """An IPv4 packet."""
    ends = b"".join(bytes(map(int, it.split("."))) for it in (src, dst))
    head = struct.pack(">BBHHHBBH", 0x45 + len(options) // 4, 0, 20 + len(options) + len(payload), 1, 0, ttl, proto, 0) + ends + options
    return head[:10] + struct.pack(">H", checksum(head)) + head[12:] + payload


def udp(sport: int, dport: int, data: bytes = b"", src: str = "10.0.0.1", dst: str = "192.0.2.7", options: bytes = b"", summed: bool = True) -> bytes:
    """An Ethernet frame of a UDP datagram."""
    body = struct.pack(">HHHH", sport, dport, 8 + len(data), 0) + data
    ends = b"".join(bytes(map(int, it.split("."))) for it in (src, dst))
    value = checksum(ends + struct.pack(">HH", 17, len(body)) + body) or 0xFFFF
    body = body[:6] + struct.pack(">H", value if summed else 0) + body[8:]
    return eth(ipv4(17, body, options, src=src, dst=dst))


def tcp(flags: int, dport: int, options: bytes = b"", dst: str = "192.0.2.7") -> bytes:
    """An Ethernet frame of a TCP segment."""
    return eth(ipv4(6, struct.pack(">HHIIBBHHH", 4000, dport, 1, 2, 0x50, flags, 9, 0, 0), options, dst=dst))


def eth(payload: bytes, kind: int = 0x0800) -> bytes:
    """An Ethernet frame."""
    return bytes.fromhex("02000000000b02000000000a") + kind.to_bytes(2, "big") + payload


def tagged(frame: bytes, tag: int = 7, kind: int = 0x8100) -> bytes:
    """A frame with one tag more."""
    return frame[:12] + struct.pack(">HH", kind, tag) + frame[12:]


def six(kind: int, payload: bytes, end: int = 1) -> bytes:
    """An Ethernet frame with IPv6 from 2001:db8::end to 2001:db8::2."""
    ends = bytes.fromhex("20010db8") + bytes(11) + bytes([end]) + bytes.fromhex("20010db8") + bytes(11) + b"\2"
    return eth(struct.pack(">IHBB", 6 << 28, len(payload), kind, 64) + ends + payload, 0x86DD)


def segment6(dport: int, end: int = 1) -> bytes:
    """A TCP segment for such a packet."""
    data, ends = struct.pack(">HHIIBBHHH", 5, dport, 1, 2, 0x50, 2, 9, 0, 0), six(6, b"", end)[22:54]
    return data[:16] + struct.pack(">H", checksum(ends + struct.pack(">II", len(data), 6) + data)) + data[18:]


class Words(unittest.TestCase):
    def test_words(self) -> None:
        found = [(kind, at.word, at.line, at.column) for kind, at in words_of("if x == 0x1f # why\n  1..5 02:00:00:00:00:0a 10.0.0.1/8")]
        self.assertEqual(found[:3], [("name", "if", 1, 1), ("name", "x", 1, 4), ("sign", "==", 1, 6)])
        self.assertEqual([it[:2] for it in found[4:]][:3], [("number", "1"), ("sign", ".."), ("number", "5")])
        self.assertEqual([it[1] for it in found[7:]], ["02:00:00:00:00:0a", "10.0.0.1", "/", "8", "the end of the text"])

    def test_signs_bind_as_the_page_says(self) -> None:
        parser = Parser("1 | 2 ^ 3 & 4 << 1 + 2 * 3", Headers())
        self.assertEqual(parser.constant(), 1 | (2 ^ (3 & (4 << (1 + 2 * 3)))))

    def test_constants_wrap_at_64_bits(self) -> None:
        self.assertEqual(Parser("0 - 1", Headers()).constant(), (1 << 64) - 1)
        self.assertEqual(Parser("~0 >> 60", Headers()).constant(), 15)

    def test_a_prefix_and_a_range(self) -> None:
        (need,) = parse("need ipv4.dst in 192.0.2.0/24").statements
        self.assertIsInstance(need.condition, Compare)
        self.assertEqual(need.condition.right, Number(need.at, 0xC00002))
        (need,) = parse("need ipv4.ttl in 2..9").statements
        self.assertEqual([need.condition.left.sign, need.condition.right.sign], [">=", "<="])
        self.assertEqual(need.condition.left.left, Field(need.at, "ipv4", "ttl"))


class HeaderRules(unittest.TestCase):
    def setUp(self) -> None:
        self.headers = parse("drop").headers

    def test_fields(self) -> None:
        self.assertEqual(self.headers["ipv4"].fields["ttl"], Span(64, 8))
        self.assertEqual(self.headers["ipv4"].fields["pieces"], Span(50, 14))
        self.assertEqual({name: it.size for name, it in self.headers.items() if name in ("eth", "arp", "ipv6", "tcp", "vxlan")},
                         {"eth": 14, "arp": 28, "ipv6": 40, "tcp": 20, "vxlan": 8})

    def test_what_follows(self) -> None:
        self.assertEqual(self.headers.looked_for("vxlan"), {"vxlan", "udp", "ipv4", "ipv6", "eth"})
        self.assertEqual([self.headers.tried(name) for name in ("ipv4", "mpls", "tcp")], [["eth"], ["eth"], ["ipv4", "ipv6"]])
        self.assertIn("vlan", self.headers["tcp"].before)
        self.assertEqual(self.headers.after("udp"), {"vxlan"})
        self.assertEqual(self.headers["ipv4"].sizes[0x4F], 60)

    def test_checksums(self) -> None:
        at = self.headers["ipv4"].at
        self.assertEqual(self.headers.covering(Field(at, "ipv4", "src")), ["tcp", "udp"])
        self.assertTrue(self.headers["udp"].optional)


class Errors(unittest.TestCase):
    def said(self, source: str) -> str:
        with self.assertRaises(SourceError) as caught:
            compile_text(source)
        return error_text(caught.exception, "x.pkt", source)

    def test_places_and_cures(self) -> None:
        wanted = {
            "let x = 1\nsend y": "x.pkt:2:6: y is no variable here",
            "send prt": "help: did you mean port? else let prt = .. makes one",
            "\ufeffsend 0": "help: save the file without this byte-order mark",
            "ipv4.tll = 5": "x.pkt:1:6: ipv4 has no field tll",
            "send port send port": "x.pkt:1:11: control never comes here: the statement before it ends the program",
            "if ipv4 {\n  if arp { drop }\n}\nsend port": "x.pkt:2:12: control never comes here: what was asked before decides it",
            "need eth/tcp": "x.pkt:1:10: tcp cannot follow eth",
            "clone c from 1\neth.type = 5\nsend port": "x.pkt:2:1: the bytes of the packet cannot be written here: c (line 1) shares them",
            "ports 2\nsend 2": "x.pkt:2:6: there is no port 2: the program has 2",
            "mend eth.src = 5": "x.pkt:1:1: no checksum covers eth.src",
            "mend eth.dst = 5": "help: assign without `mend`",
            "mend l4.sport = 5": "help: if tcp { mend tcp.sport = .. } else if udp { mend udp.sport = .. }",
            "mend ipv4.sum = 5": "x.pkt:1:1: ipv4.sum is the checksum itself",
            "let x = length": "x.pkt:1:9: the length is only compared with a constant",
            "send c to 1": "x.pkt:1:6: there is no packet c here",
            "let c = 1\nclone c from 0": "x.pkt:2:1: c is a variable already",
            "const eth = 5": "x.pkt:1:7: eth is a header already",
            "need length + 1 == 5": "x.pkt:1:6: the length is only compared with a constant",
            "let x = (eth.type == 5) + 1": "x.pkt:1:10: a condition is where a number is expected",
            "need eth.type else { let x = 1 }": "x.pkt:1:1: what is after this `else` has to end the program",
            "while 1 { new h from 0 chain h before this }": "x.pkt:1:1: `chain` cannot be in a loop",
            "header mine { a:3 } after eth if eth.type == 5": "x.pkt:1:8: the 3 bits of mine do not make whole bytes",
            "push vlan { type = 5 }": "x.pkt:1:6: vlan.type is what stood in eth",
            "segments 2\ntruncate 64": "x.pkt:2:1: a packet of several segments cannot be truncated",
            "let x = 1\nlet x = 2": "x.pkt:2:1: x is a variable already",
            "ports 2 clone c from 1 if port { free c } send c to 1": "x.pkt:1:43: c may be gone here",
            "need x ==": "x.pkt:1:10: a number or a condition is expected here, and the text ends here",
            "x = 1 ?": "x.pkt:1:7: no word begins with '?'",
            "if tcp.dport = 5 { drop }":
                "x.pkt:1:14: '{' is expected here, and this is '='\n    if tcp.dport = 5 { drop }\n                 ^\n  help: compare with ==",
            "if ipv4.src == 10.0.0.0/8 { drop }": "help: a prefix comes after `in`",
            "drop;": "help: no sign ends a statement",
            "if tcp.dport in 80, 443 { drop }": "help: a list is within braces: x in {1, 2}",
            "if tcp.dport in [80, 443] { drop }": "help: a list is within braces, x in {1, 2}",
            "if tcp.dport in {80 443} { drop }": "help: a comma is between two items",
            "if tcp drop": "help: what belongs to it is within braces",
            "if tcp.flags.syn { drop }": "help: a field has no parts",
            "if ipv4.src in 10.0.0/8 { drop }": "an IPv4 address has four parts",
            "if ipv4 { drop } }": "help: no block is open here",
            "if ipv4.ttl < -1 { drop }": "x.pkt:1:15: a number or a condition is expected here, and this is '-'\n    if ipv4.ttl < -1 { drop }\n"
                                         "                  ^\n  help: numbers are unsigned",
            "ipv4.ttl--": "help: write x -= 1",
            "drop 'late'": "help: a text is within double quotes",
            "let next = 5": "help: take another name",
            "free this": "help: drop, which drops all packets",
            "queue SLOW": "x.pkt:1:7: there is no ring SLOW\n    queue SLOW\n          ^^^^\n  help: ring SLOW = 0, before it, names one",
            "let x = 5 cut x": "help: const x = .. makes one",
            "cut ipv4.ihl": "help: if x == 1 { .. } else if x == 2 { .. }",
            "let x = 1 << eth.type": "help: if x == 1 { .. } else if x == 2 { .. }",
            "need tcp.flags == SYN": "and const SYN = .. a constant",
            "if tcp {\n  drop": "x.pkt:2:7: a statement is expected here, and the text ends here",
            "accept": "help: statements begin with let, if, while",
            "send (1 == 1) + 1": "x.pkt:1:7: a condition is where a number is expected",
            "need tcp.dport == 80 or 443": "x.pkt:1:25: 443 alone is a condition that never changes",
            "need 80 and tcp": "help: x in {1, 2} compares x with each",
            "const WEB = 80\nconst TLS = 443\nneed tcp.dport == WEB or TLS": "x.pkt:3:26: TLS alone is a condition that never changes",
            "port UP = 0\nport DOWN = 1\nneed port == UP or DOWN": "x.pkt:3:20: DOWN alone is a condition that never changes",
            "need ipv6.src in ::1..::5": "x.pkt:1:18: IPv6 addresses have no range\n",
            "need ipv6.src == ::1.2.3.256": "x.pkt:1:18: ::1.2.3.256 is no IPv6 address",
            "send 3": "help: ports 4",
            "ports 2\nsend 64": "help: the ports are 0 to 1",
            "clone c from 1\nsend c": "x.pkt:2:6: c is a packet, and no number\n    send c\n         ^\n  help: send c to 1, or queue c to 0",
            "need ipv4.ttl in 9..2": "x.pkt:1:18: no number is from 9 to 2\n",
            "need ipv4.ttl == 300": "x.pkt:1:18: ipv4.ttl has 8 bits, and is at most 255: this is 300",
            "ipv4.ttl = 300": "help: 44 are its lowest 8 bits",
            "need 70000 > udp.sport": "x.pkt:1:6: udp.sport has 16 bits",
            "push vlan { vid = 4096 }": "x.pkt:1:19: vlan.vid has 12 bits",
            "header h { a:8 = 256 }": "x.pkt:1:18: a has 8 bits, and 256 needs more",
            "const A = 1 - 2": "x.pkt:1:11: the calculation of A leaves 0 to 2^64 - 1, and would be cut to 64 bits",
            "given headroom 64\ngiven headroom 32": "x.pkt:2:7: `given` has headroom already",
            "given eth\ngiven eth/ipv4": "x.pkt:2:7: `given` has a path already",
            "push tcp { sum = auto }": "x.pkt:1:6: tcp.sum covers more than the header, and `auto` is of the header alone",
            "push udp { len = 8 sum = auto }": "help: sum = 0 where that means that there is none",
            "header h { a:16 = auto b:16 } sum a payload": "x.pkt:1:8: a covers more than the header, and `auto` is of the header alone",
            "header h { a:16 = auto b:16 = auto }": "x.pkt:1:8: a and b are both `auto`, and each would count the other",
            "push ipv4 { len = 20 id = auto }": "x.pkt:1:6: sum and id are both `auto`",
            "push ipv4 { ttl = 9 }": "x.pkt:1:6: ipv4.len is not named, and would be 0",
            "need ipv4.src in 10.0.0.0/33": "x.pkt:1:27: the prefix has at most 32 bits, and this is 33",
            "need ipv4.src in 02:00:00:00:00:00/24": "x.pkt:1:18: the address has 48 bits, and the field before `in` 32",
            "let x = eth.src >> 8\nneed x in 5/8": "x.pkt:2:11: how many bits has this number?",
            "need ipv6.src == 1": "x.pkt:1:18: an IPv6 address is expected here",
            "need ipv6.src < ::1": "x.pkt:1:6: IPv6 addresses are compared with == and !=",
            "let x = ipv6.src": "x.pkt:1:9: an IPv6 address is only compared with == and !=",
            "need ipv6.src == 1::2::3": "x.pkt:1:18: 1::2::3 is no IPv6 address",
            "if ipv4 { drop }\nelif ipv6 { drop }": "x.pkt:2:1: no statement begins with 'elif'\n    elif ipv6 { drop }\n    ^^^^\n  help: write `else if`",
            "if eth.src == 02:00:00:00:00 { drop }": "help: an Ethernet address has six groups",
            "header o { k:32 } length v * 4 for v:8 in 1..9\nheader p { x:32 } after o if o.k == 3\nneed tcp.dport == 1 and p.x == 3":
                "x.pkt:3:1: p is after two headers whose lengths vary",
        }
        for source, text in wanted.items():
            with self.subTest(source):
                self.assertIn(text, self.said(source))
        self.assertIn("help: write before `clone`, or free the clone first", self.said("clone c from 1\neth.type = 5"))
        self.assertIn("help: write before `clone`, or free the clone first", self.said("clone c from 1\npush vlan { vid = 5 }"))
        for source in ("clone c from 1\npush eth { type = 5 }", "clone c from 1\npush eth { type = 5 } on c", "given shared\npush eth { type = 5 }"):
            self.assertIn("help: push before `clone`, or chain the headers before it: new h from 0, push .. on h, chain h before this", self.said(source))
        self.assertIn("\n    send y\n         ^\n", self.said("let x = 1\nsend y"))

    def test_a_ninth_number(self) -> None:
        names = "abcdefgh"
        source = "".join(f"let {it} = eth.type + {k}\n" for k, it in enumerate(names)) + "eth.src = " + " + ".join(names) + "\nsend port"
        self.assertIn("this needs a ninth number: a, b, c, d, e, f, g, port are held", self.said(source))
        self.assertIn("one holds two: let both = udp.sport << 16 | udp.dport", self.said(source))
        both = "let both = udp.sport << 16 | udp.dport\nudp.sport = both\nudp.dport = both >> 16\nsend port"
        self.assertEqual(sent(both, udp(1, 2, summed=False))[0], [udp(2, 1, summed=False)])

    def test_too_many_instructions(self) -> None:
        said = self.said("let x = port\n" + "".join(f"x = (x << 1) ^ eth.type ^ {k}\n" for k in range(400)) + "eth.src = x\nsend port")
        self.assertRegex(said, r"the program has 1\d\d\d instructions, and 1,024 are possible; this line takes \d")

    def test_errors_of_declarations_and_statements(self) -> None:
        """Each error has the place where what is wrong begins; what is just within a limit compiles."""
        inside = "header g { kind:16 sum:16 } after eth if eth.type == 5 sum sum payload\nheader odd { a:8 } after g if 1\n"
        beside = "header a { x:16 sum:16 } after eth if eth.type == 5 sum sum payload\nheader b { y:16 sum:16 } after eth if eth.type > 4 sum sum over a.x\n"
        news = "".join(f"new h{k} from 0\n" for k in range(7))
        wanted = {
            f"{inside}header h {{ x:16 }} after odd if 1\neth.dst = 1\nmend h.x = 5": "5:1: the words of the checksum of g begin at other bytes",
            f"{beside}\nmend a.x = 1": "4:1: b and a are side by side, and a checksum covers both",
            "header h { a:8 b:16 c:8 sum:16 } after eth if eth.type == 5 sum sum\n\nmend h.b = 5": "3:1: h.b is neither within one 16-bit word",
            "header h { a:4 b:64 c:4 }": "1:8: the field b does not lie within 8 bytes",
            "header h { a:8 b@4:8 }": "1:8: the field b goes past the end of the header",
            "header h { a:8 } after udp if ipv4.ttl == 5": "1:31: the condition after udp is about fields of udp and constants",
            "header h { v:8 a:8 } length v for v:8 in 1..3": "1:8: a length of h is less than the 2 bytes of its fields",
            "header h { a:8 = auto }": "1:8: a is `auto`, and no 16-bit word of the header",
            "header h { a:8 s:16 b:8 } sum s": "1:8: the checksum s is one 16-bit word of the header",
            "header h { a:8 a:8 }": "1:16: a is there twice",
            "header h { a_hi:8 a:128 }": "1:19: a_hi is there twice",
            "header h { a:128 a:8 }": "1:18: a is there twice",
            "header h { a:8 b:8=3 c@8:8=5 }": "1:8: b and c have bits in common, and `push` would write both",
            "header h { a:128 = 5 }": "1:20: an IPv6 address is expected here",
            "header h { a:128 = need } push h { a_lo = 1 }": "1:32: h.a_hi is not named, and would be 0",
            "header h { a:8 } after h if h.a == 1": "1:24: a header does not follow itself",
            "header h { a:8 } length w for v:8 in 1..3": "1:25: a length is calculated from its own variable and constants",
            "header h { a:16 } length a for a:8 in 2..3": "1:32: a is here the first 8 bits of h, which its field a is not",
            "header h { a:8 } length v for v:8 in 5..256": "1:41: the last value is from 5 to 255, and this is 256",
            "header h { a:8 }\nneed eth/h": "2:10: h cannot follow eth",
            f"{news}\nnew h from 0": "9:1: this needs a ninth packet",
            "segments 64\nnew h from 0\nchain h before this": "3:1: a packet has at most 64 segments",
            "new h from 0\nwhile tcp { free h }": "2:1: a round of this loop ends without a packet that it began with",
            "need ipv4.src + 1 in 10/8": "1:22: how many bits has this number?",
            "otherwise send ipv4.ttl": "1:11: after `otherwise` is `drop`",
            "otherwise drop\notherwise drop": "2:1: otherwise is declared twice",
            "given ipv4": "1:7: a given path begins at byte 0",
            "given eth/ipv4/tcp": "1:7: a given path begins at byte 0, and each header but the last has one length",
            "ipv4.ttl = 017": "1:12: 017 begins with 0",
            "need ipv4.src == 10.0.0.017": "1:18: 017 begins with 0",
            "need ipv4.src == 10.0.0.256": "1:18: a part of an address is at most 255",
            "need ipv6.src < ::1": "1:6: IPv6 addresses are compared with == and !=",
            "push vlan { vid = 1 vid = 2 }": "1:21: vid is given twice",
            "push vlan { vid = auto }": "1:6: vlan.vid is no 16-bit word of the header",
            "header h { a:8 b@0:4 }\npush h { a = 1 b = 2 }": "2:6: h.b and h.a have bits in common",
            "mend 5 = 1": "1:6: a field is expected here, and '5' is none",
            "let x = 1\nmend x = 2": "2:6: `mend` assigns to a field",
            "port = 1": "1:1: port is where the packet came from, and is not assigned to",
            "let x = ipv4.ttl << 64": "1:21: a shift goes by a constant from 0 to 63",
            "ports 9": "1:7: the number of ports is from 1 to 8, and this is 9",
            "segments 65": "1:10: the number of segments is from 1 to 64, and this is 65",
            "ring R = 8": "1:10: the ring is from 0 to 7, and this is 8",
            "cut 65536": "1:5: the count is from 0 to 65,535, and this is 65,536",
            "truncate 4097": "1:10: the length is from 0 to 4,096, and this is 4,097",
        }
        for source, text in wanted.items():
            with self.subTest(source):
                self.assertEqual(self.said(source + "\nsend port").removeprefix("x.pkt:")[: len(text)], text)
        for source in (news, "segments 63\nnew h from 0\nchain h before this", "header h { v:8 a:8 } length v for v:8 in 2..3", "ports 8\nsegments 64",
                       "header h { a:8 b@0:4 }\npush h { b = 2 }", "header h { a:4 b:56 c:4 }", "let x = ipv4.ttl << 63", "cut 65535", "truncate 4096"):
            with self.subTest(source):
                self.assertGreater(count(source + "\nsend port"), 0)


class Slips(unittest.TestCase):
    """Usual slips of those who know other languages: the place, the cure, and that the text compiles when the cure was applied."""

    SLIPS = (
        ("if (tcp.dport == 80 && ipv4) { drop; }\nsend port", "1:22", "write `and`", "if tcp.dport == 80 and ipv4 { drop }\nsend port"),
        ("// don't\nsend port", "1:1: no statement begins with '/'", "a comment begins with #", "# don't\nsend port"),
        ("int x = 5;\nsend port", "1:1: no statement begins with 'int'", "let x = .. makes a variable", "let x = 5\nsend port"),
        ("return send(port);", "1:1", "send port, ends the program", "send port"),
        ("if ipv4->ttl < 2 { drop }\nsend port", "1:9", "a field has a dot", "if ipv4.ttl < 2 { drop }\nsend port"),
        ("let x = ipv4.len % 8\nsend port", "1:18: no word begins with '%'", "x & 7 is the rest of x by 8", "let x = ipv4.len & 7\nsend port"),
        ("let x = ipv4.ttl > 5 ? 1 : 0\nsend port", "1:18", "if c { x = 1 } else { x = 0 }", "let x = 0\nif ipv4.ttl > 5 { x = 1 }\nsend port"),
        ("switch ipv4.proto { }\nsend port", "1:1", "if x == 1 { .. } else if x == 2 { .. }",
         "if ipv4.proto == 1 { drop } else if ipv4.proto == 2 { drop }\nsend port"),
        ("while vlan { pop vlan break }\nsend port", "1:23", "the condition of `while` ends a loop", "while vlan { pop vlan }\nsend port"),
        ("need tcp.dport == 0b11\nsend port", "1:19: 0b11 is no number", "decimal, or hexadecimal", "need tcp.dport == 0x3\nsend port"),
        ("need tcp.dport == 0X50\nsend port", "1:19: 0X50 is no number", "as 0x1f", "need tcp.dport == 0x50\nsend port"),
        ("need tcp.dport == 80u\nsend port", "1:19: 80u is no number", "only digits", "need tcp.dport == 80\nsend port"),
        ("need tcp.dport == 017\nsend port", "1:19: 017 begins with 0", "write 17, or 0xf where it was octal", "need tcp.dport == 0xf\nsend port"),
        ("need tcp.dport in {80, 08}\nsend port", "1:24: 08 begins with 0", "write 8", "need tcp.dport in {0, 80, 8}\nsend port"),
        ("need ipv4.src == 010.0.0.1\nsend port", "1:18: 010 begins with 0", "write 10.0.0.1", "need ipv4.src in {10.0.0.1, 0.0.0.0}\nsend port"),
        ("need tcp.dport in {1,024..65,535}\nsend port", "1:22: 024 begins with 0", "a number has no comma within it",
         "need tcp.dport in 1024..65535\nsend port"),
        ("eth.src = 020000000001\nsend port", "1:11: 020000000001 begins with 0", "an Ethernet address has colons",
         "eth.src = 02:00:00:00:00:01\nsend port"),
        ("need tcp.flags & SYN\nsend port", "1:18: SYN is no variable here", "const SYN = 2", "const SYN = 2\nneed tcp.flags & SYN\nsend port"),
        ("need eth.type == ETH_P_IP\nsend port", "1:18", "const ETH_P_IP = 0x0800", "const ETH_P_IP = 0x0800\nneed eth.type == ETH_P_IP\nsend port"),
        ("need ntohs(tcp.dport) == 80\nsend port", "1:6: ntohs", "a field is a number already: leave ntohs out", "need tcp.dport == 80\nsend port"),
        ("need 1 < ipv4.ttl < 5\nsend port", "1:6", "as in 1 < x and x < 5", "need 1 < ipv4.ttl and ipv4.ttl < 5\nsend port"),
        ("if IPv4 { drop }\nsend port", "1:4: IPv4 is no variable here", "did you mean ipv4?", "if ipv4 { drop }\nsend port"),
        ("if ip6 { drop }\nsend port", "1:4: ip6 is no variable here", "did you mean ipv6?", "if ipv6 { drop }\nsend port"),
        ("header H { a:8 }\nif h { drop }\nsend port", "2:4: h is no variable here", "did you mean H?", "header H { a:8 }\nif H { drop }\nsend port"),
        ("need udp.payload == 5\nsend port", "1:10", "header mine { a:8 } after udp if udp.sport == 5",
         "header mine { a:8 } after udp if udp.sport == 5\nneed mine.a == 5\nsend port"),
        ("mend vxlan.vni = 5\nsend port", "1:1", "declare one of your own for the same bytes",
         "header vx { flags:32 word:32 } after udp if udp.dport == 4789\nmend vx.word = 5 << 8\nsend port"),
        ("while vlan { new h from 0 chain h before this pop vlan }\nsend port", "1:1", "chain before the loop",
         "while vlan { pop vlan }\nnew h from 0 chain h before this\nsend port"),
        ("queue this 0", "1:7", "queue this to 0", "queue this to 0"),
        ("clone c from 1\nqueue c 0\nsend port", "2:7", "queue c to 0", "clone c from 1\nqueue c to 0\nsend port"),
        ("ipv4.sum = auto\nsend port", "1:12", "auto is the checksum of a pushed header", "ipv4.sum = 0\nsend port"),
        ("vlan.pop()\nsend port", "1:6", "pop vlan", "pop vlan\nsend port"),
        ("decap vlan\nsend port", "1:1", "pop vlan takes a header out", "pop vlan\nsend port"),
        ("count dns += 1\nsend port", "1:11", "count web counts by 1", "count dns\nsend port"),
        ("let u8 x = 5\nsend port", "1:8", "a variable has no type: let x = 0", "let x = 5\nsend port"),
        ("drop unless tcp", "1:6", "if not c { .. }", "if not tcp { drop }"),
        ("if ipv4.ttl =< 5 { drop }\nsend port", "1:13", "or <= and >=", "if ipv4.ttl <= 5 { drop }\nsend port"),
        ("def f(a b) { vlan.vid = a vlan.pcp = b }\nf(5, 1)\nsend port", "1:9", "a comma is between two of them",
         "def f(a, b) { vlan.vid = a vlan.pcp = b }\nf(5, 1)\nsend port"),
        ("def f(a, b) { vlan.vid = a vlan.pcp = b }\nf(5 1)\nsend port", "2:5", "a comma is between two of them",
         "def f(a, b) { vlan.vid = a vlan.pcp = b }\nf(5, 1)\nsend port"),
        ("def f(a) { vlan.vid = a }\nf(5,)\nsend port", "2:5: one more is expected here", "leave the comma before it out",
         "def f(a) { vlan.vid = a }\nf(5)\nsend port"),
        ("push vlan { vid = auto }\nsend port", "1:6: vlan.vid is no 16-bit word", "vid = 0", "push vlan { vid = 0 }\nsend port"),
        ("header h { a:8 = auto b:8 }\nsend port", "1:8: a is `auto`, and no 16-bit word", "it has 16 bits",
         "header h { a:16 = auto b:8 }\nsend port"),
        ("header h { version:2 words:6 } length words * 4 for words:6 in 1..15\nsend port", "1:53: words is here the first 6 bits of h",
         "v & 15 are the last 4", "header h { version:2 words:6 } length (v & 63) * 4 for v:8 in 1..15\nsend port"),
        ("const NET = 10.0.0.0/8\nneed ipv4.src in NET\nsend port", "1:21: a prefix or a range is no number", "set NET = {10.0.0.0/8",
         "set NET = {10.0.0.0/8}\nneed ipv4.src in NET\nsend port"),
        ("const WEB = 80..90\nneed tcp.dport in WEB\nsend port", "1:15: a prefix or a range is no number", "x in WEB",
         "set WEB = {80..90}\nneed tcp.dport in WEB\nsend port"),
        ("ring SLOW\nqueue SLOW", "2:1: '=' is expected here", "ring SLOW = 0", "ring SLOW = 0\nqueue SLOW"),
        ("const X\nsend port", "2:1: '=' is expected here", "const X = 1", "const X = 1\nsend port"),
        ("send 0 and 1", "1:8", "a clone is sent to a second port", "ports 2\nclone c from 1\nsend c to 1\nsend 0"),
        ("send 0 or drop", "1:8", "send 0 else { .. }", "send 0 else drop"),
        ("need tcp or else drop\nsend port", "1:13", "need c else drop", "need tcp else drop\nsend port"),
        ("let x = (ipv4.ttl + 1\nsend port", "2:1", "the ( in line 1, column 9 is open", "let x = (ipv4.ttl + 1)\nsend port"),
        ("let my-port = 80\nsend port", "1:7: '=' is expected here", "no dash: my_port", "let my_port = 80\nsend port"),
        ("header my-tag { a:8 }\nsend port", "1:10", "no dash: my_tag", "header my_tag { a:8 }\nsend port"),
        ("count my-dns\nsend port", "1:9", "no dash: my_dns", "count my_dns\nsend port"),
        ("const A = 5\nlet x = A - up-link\nsend x", "2:13: up is no variable here", "no dash: up_link", "const A = 5\nport up_link = 5\nsend A - up_link"),
        ("if length > 1500 bytes { drop }\nsend port", "1:18", "a number has no unit", "if length > 1500 { drop }\nsend port"),
        ("truncate 64 bytes\nsend port", "1:13", "a number has no unit", "truncate 64\nsend port"),
        ("let x = 1.5\nsend port", "1:10", "a number is a whole one", "let x = 1\nsend port"),
        ("need tcp.dport in 80:90\nsend port", "1:21", "a range comes after `in`", "need tcp.dport in 80..90\nsend port"),
        ("need tcp.dport in 80...90\nsend port", "1:23", "a range comes after `in`", "need tcp.dport in 80..90\nsend port"),
        ("need tcp.dport in {80; 443}\nsend port", "1:22", "a comma is between two items", "need tcp.dport in {80, 443}\nsend port"),
        ("if tcp.dport eq 80 { drop }\nsend port", "1:14", "compare with ==", "if tcp.dport == 80 { drop }\nsend port"),
        ("if tcp.dport is 80 { drop }\nsend port", "1:14", "compare with ==", "if tcp.dport == 80 { drop }\nsend port"),
        ("if tcp.dport <> 80 { drop }\nsend port", "1:15", "<> is !=", "if tcp.dport != 80 { drop }\nsend port"),
        ("need ipv4 or drop\nsend port", "1:14", "need c else drop", "need ipv4 else drop\nsend port"),
        ("not udp\nsend port", "1:1: no statement begins with 'not'", "if not udp { drop }", "if not udp { drop }\nsend port"),
        ("chain input { drop }", "1:7: there is no packet input here", "statements stand alone", "drop"),
        ("const bit<16> WEB = 80\nsend port", "1:10", "a constant has no type", "const WEB = 80\nsend port"),
        ("const u16 WEB = 80\nsend port", "1:11", "a constant has no type: const WEB = 1", "const WEB = 80\nsend port"),
        ("bit<16> x = 5\nsend port", "1:1", "let x = .. makes a variable", "let x = 5\nsend port"),
        ("def f(new) { vlan.vid = new }\nf(5)\nsend port", "1:7: the name of a parameter", "take another name", "def f(to) { vlan.vid = to }\nf(5)\nsend port"),
        ("ports: 4\nsend 0", "1:6: the number of ports is expected here", "leave the : out", "ports 4\nsend 0"),
        ("otherwise { drop }\nsend port", "1:11", "otherwise drop", "otherwise drop\nsend port"),
        ("table ROUTES = 0\nlet h = lookup(ROUTES, ipv4.dst)\nsend h", "2:15", "let x = lookup ROUTES ipv4.dst",
         "table ROUTES = 0\nlet h = lookup ROUTES ipv4.dst\nsend h"),
        ("table ROUTES = 0\nlet h = ROUTES.get(ipv4.dst)\nsend h", "2:9", "let x = lookup ROUTES ipv4.dst",
         "table ROUTES = 0\nlet h = lookup ROUTES ipv4.dst\nsend h"),
        ("header h { a:8 } after udp\nsend port", "2:1: 'if' is expected here", "after udp if udp.dport == 7", "header h { a:8 } after udp if udp.dport == 7\nsend port"),
        ("header h { a:8 } length v * 4 for v in 1..3\nsend port", "1:37", "for v:8 in 5..15", "header h { a:8 } length v * 4 for v:8 in 1..3\nsend port"),
        ("header h { a:8 len:8 } length v * 4 for v:16 in 0x0601..0x1106\nsend port", "1:57", "0x0601..0x0606 in one, 0x1101..0x1106 in another",
         "header h { a:8 len:8 } length (v & 255) * 4 for v:16 in 0x0601..0x0606\nsend port"),
        ("header h { name:512 }\nsend port", "1:8", "a field has at most 64 bits", "header h { name:64 more:64 }\nsend port"),
        ("push vlan { vid == 5 }\nsend port", "1:17", "an = is before the value", "push vlan { vid = 5 }\nsend port"),
        ("eth.dst = ff:ff:ff:ff:ff\nsend port", "1:11", "an Ethernet address has six groups", "eth.dst = ff:ff:ff:ff:ff:ff\nsend port"),
        ("include <net.pkt>\nsend port", "1:1", 'include "net.pkt"', "send port"),
        ("send eth0", "1:6", "port eth0 = 0, before it, names a port", "port eth0 = 0\nsend eth0"),
        ("let x = f(1)\nsend port", "1:9", "nothing that is called gives a number", "def f(a) { drop }\nf(1)"),
        ("table R = 0\nlet x = lookup R ipv6.dst\nsend x", "2:18: a table has addresses of 32 bits", "ipv6.dst_hi >> 32",
         "ports 4\ntable R = 0\nlet x = lookup R ipv6.dst_hi >> 32\nsend x"),
        ("let h = hash(ipv4.src, ipv4.dst)\nsend 0", "1:9", "h = ipv4.src ^ ipv4.dst", "ports 4\nlet h = ipv4.src ^ ipv4.dst\nh ^= h >> 16\nsend h & 3"),
        ("if random() < 5 { drop }\nsend port", "1:4", "ipv4.id & 15 == 0", "if ipv4.id & 15 == 0 { drop }\nsend port"),
        ("let t = now()\nsend port", "1:9", "no program knows the time", "send port"),
        ("let c = checksum(ipv4.src)\nsend port", "1:9", "mend updates one", "mend ipv4.ttl = 5\nsend port"),
        ("header mss { kind:8 } after tcp if tcp.off > 5 length tcp.off * 4 for v:8 in 5..15\nsend port", "1:55", "one header for each: after tcp if tcp.off == 6",
         "header mss { kind:8 } after tcp if tcp.off == 6\nif mss.kind == 2 { drop }\nsend port"),
        ("need hdr.ipv4.ttl > 1\nsend port", "1:6: there is no header hdr", "write ipv4 without hdr.", "need ipv4.ttl > 1\nsend port"),
        ("if ipv4.isValid() { drop }\nsend port", "1:9", "if ipv4 { .. }", "if ipv4 { drop }\nsend port"),
        ("ipv4.dstAddr = 1\nsend port", "1:6: ipv4 has no field dstAddr", "did you mean ipv4.dst?", "ipv4.dst = 1\nsend port"),
        ("ipv6.ttl -= 1\nsend port", "1:6", "did you mean ipv6.hops?", "ipv6.hops -= 1\nsend port"),
        ("need udp.port == 53\nsend port", "1:10", "udp.sport or udp.dport", "need udp.sport == 53 or udp.dport == 53\nsend port"),
        ("need tcp.syn\nsend port", "1:10", "did you mean tcp.flags & 2?", "need tcp.flags & 2\nsend port"),
        ("if tcp.ack { drop }\nsend port", "1:4: tcp.ack is a number, and no flag", "tcp.flags & 16 is the flag",
         "if tcp.flags & 16 { drop }\nsend port"),
        ("need tcp.flags & 2 and not tcp.ack\nsend port", "1:28: tcp.ack is", "tcp.ack != 0 asks for the number",
         "need tcp.flags & 2 and not tcp.ack == 0\nsend port"),
        ("need ipv4.src & 255.255.255.0 == 10.0.0.1\nsend port", "1:34: the number beside it has no such bits: this is 10.0.0.1",
         "ipv4.src in 10.0.0.0/24 compares its first 24 bits", "need ipv4.src in 10.0.0.0/24\nsend port"),
        ("if eth.dst & ff:ff:ff:00:00:00 != 01:00:5e:00:00:01 { drop }\nsend port", "1:35", "eth.dst in 01:00:5e:00:00:00/24",
         "if not eth.dst in 01:00:5e:00:00:00/24 { drop }\nsend port"),
        ("need vlan.vid & 0xfffff == 0x1000\nsend port", "1:28: the number beside it is at most 4,095", "its values are from 0 to 4,095",
         "need vlan.vid & 0xfff == 0x100\nsend port"),
        ("need ipv4.src >> 24 == 10.0.0.0\nsend port", "1:24: the number beside it is at most 255: this is 10.0.0.0", "its values are from 0 to 255",
         "need ipv4.src >> 24 == 10\nsend port"),
        ("need ipv4.tos & 3 != 4\nsend port", "1:22: the number beside it is at most 3", "its values are from 0 to 3", "need ipv4.tos & 3 != 3\nsend port"),
        ("need ~ipv4.ttl == 0xfe\nsend port", "1:19: the number beside it is at least", "^ 0xff those of this number", "need ipv4.ttl ^ 0xff == 0xfe\nsend port"),
        ("if ~tcp.flags { drop }\nsend port", "1:5: this number is never 0", "x & 2 == 0 asks whether a bit is clear", "if tcp.flags & 2 == 0 { drop }\nsend port"),
        ("if tcp.flags | 2 { drop }\nsend port", "1:4: this number is never 0", "x & 2 asks for a bit", "if tcp.flags & 2 { drop }\nsend port"),
        ("if tcp.flags & 2 | 16 { drop }\nsend port", "1:4: this number is never 0", "& binds closer than |", "if tcp.flags & (2 | 16) { drop }\nsend port"),
        ("if tcp.flags & 0x200 { drop }\nsend port", "1:16: tcp.flags has 8 bits, and 0x200 has none of them", "2 SYN", "if tcp.flags & 2 { drop }\nsend port"),
        ("if ipv4.flags & 0x2000 { drop }\nsend port", "1:17: ipv4.flags has 3 bits", "1 says that more fragments follow", "if ipv4.flags & 1 { drop }\nsend port"),
        ("need not 0x2000 & ipv4.frag\nsend port", "1:10: ipv4.frag has 13 bits", "need ipv4.pieces == 0", "need ipv4.pieces == 0\nsend port"),
        ("vlan.pcp &= 8\nsend port", "1:13: vlan.pcp has 3 bits, and 8 has none of them", "at most 7", "vlan.pcp &= 4\nsend port"),
        ("let x = ipv4.tos >> 8\nsend port", "1:21: ipv4.tos has 8 bits, and none of them is left", "at most 255", "let x = ipv4.tos >> 7\nsend port"),
        ("need port == 80\nsend port", "1:14: the number beside it is at most 7: this is 80", "l4.dport == 80 asks for a port of TCP", "need l4.dport == 80\nsend port"),
        ("if ipv4.ttl - 5 < 0 { drop }\nsend port", "1:19: no number is below 0", "ask x < 5 before x - 5", "if ipv4.ttl < 5 { drop }\nsend port"),
        ("if vlan.vid >= 0 { drop }\nsend port", "1:16: every number is at least 0", "if vlan { .. } asks for the header", "if vlan { drop }\nsend port"),
        ("const WEB = 80\nif WEB { ipv4.tos = 1 }\nsend port", "2:4: WEB alone is a condition that never changes", "x == WEB compares x with it",
         "const WEB = 80\nif tcp.dport == WEB { ipv4.tos = 1 }\nsend port"),
        ("const DEBUG = 2\nif not (DEBUG) { count a }\nsend port", "2:9: DEBUG alone is a condition that never changes: it is 2, and only 0 and 1",
         "DEBUG != 0 makes a switch of it", "const DEBUG = 2\nif DEBUG & 2 and tcp { count a }\nif not (DEBUG & 2) { count b }\nif DEBUG != 0 { count a }\nsend port"),
        ("const SYN = 2\nneed tcp and SYN\nsend port", "2:14: SYN alone is a condition", "SYN != 0 makes a switch of it", "const SYN = 1\nneed tcp and SYN\nsend port"),
        ("let x = ipv4.ttl << 8 + ipv4.tos\nsend port", "1:21", "+ and - bind closer than <<: (x << 8) + y", "let x = (ipv4.ttl << 8) + ipv4.tos\nsend port"),
        ("if tcp.dport != 80 or tcp.dport != 443 { drop }\nsend port", "1:36: each number is other than 80 or other than 443",
         "x != 80 and x != 443, or not x in {80, 443}", "if tcp.dport != 80 and tcp.dport != 443 { drop }\nsend port"),
        ("if not ipv4.proto == 6 or not ipv4.proto == 17 { drop }\nsend port", "1:45: each number is other", "not x in {6, 17}",
         "if not ipv4.proto in {6, 17} { drop }\nsend port"),
        ("need ipv4 and 80 == tcp.dport and tcp.dport == 443\nsend port", "1:48: no number is 80 and 443", "x == 80 or x == 443, or x in {80, 443}",
         "need ipv4 and tcp.dport in {80, 443}\nsend port"),
        ("header h { a:8 } after udp if udp.dport == 7 after udp if udp.dport == 8\nsend port", "1:52: h follows udp already",
         "after udp if udp.sport == 1 or ..", "header h { a:8 } after udp if udp.dport == 7 or udp.dport == 8\nneed h\nsend port"),
        ("header h { a:16 b:16 } after udp if udp.dport == 7 sum a sum b\nsend port", "1:58: h has `sum` already", "a second header for the same bytes",
         "header h { a:16 b:16 } after udp if udp.dport == 7 sum a\nheader h2 { a:16 b:16 } after udp if udp.dport == 7 sum b\nsend port"),
        ("header h { type:16 b:8 } after eth if eth.type == 5 next type\nsend port", "1:58: the field type of a tag is the last one", "next b names the last one",
         "header h { b:8 type:16 } after eth if eth.type == 5 next type\nsend port"),
        ("header h { a:8 type:16 } after eth if eth.type == 5 next a\nsend port", "1:58: the field a of a tag is the last one", "next type names",
         "header h { a:8 type:16 } after eth if eth.type == 5 next type\nsend port"),
        ("header h { a:16 b:16 } after eth if eth.type in {5, 6} next b\nsend port", "1:37: a tag follows eth", "after eth if eth.type == 0x8100, with no `or`",
         "header h { a:16 b:16 } after eth if eth.type == 0x8100 next b\nsend port"),
        ("header g { v:8 b:8 } after eth if eth.type == 5 length v * 2 for v:8 in 1..3\nheader h { a:8 c:8 } after g if g.b == 6 next c\nsend port",
         "2:33: a tag follows g, whose length varies", "leave `next` out",
         "header g { v:8 b:8 } after eth if eth.type == 5 length v * 2 for v:8 in 1..3\nheader h { a:8 c:8 } after g if g.b == 6\nsend port"),
        ("header h { a:16 b:16 } after ipv4 if ipv4.proto == 5 next b\nsend port", "1:38: a tag follows ipv4", "leave `next` out",
         "header h { a:16 b:16 } after ipv4 if ipv4.proto == 5\nsend port"),
        ("header h { a:8 b:128 } after eth if eth.type == 5 sum b\nsend port", "1:55: b has 128 bits", "b_hi and b_lo are its halves",
         "header h { a:16 b:128 } after eth if eth.type == 5 sum a\nsend port"),
        ("header h { a:8 b:128 } after eth if eth.type == 5 next b\nsend port", "1:56: b has 128 bits", "b_hi and b_lo are its halves",
         "header h { a:8 b:128 } after eth if eth.type == 5\nsend port"),
        ("need tcp.dport in 0..65536\nsend port", "1:22: tcp.dport has 16 bits", "a range, which has both its ends", "need tcp.dport in 0..65535\nsend port"),
        ("if ipv4.ihl > 20 { drop }\nsend port", "1:15: ipv4.ihl has 4 bits", "it counts 4 bytes: 5 are 20 bytes", "if ipv4.ihl > 5 { drop }\nsend port"),
        ("if ipv4.flags == 0x40 { drop }\nsend port", "1:18", "and 2 forbids them", "if ipv4.flags == 2 { drop }\nsend port"),
        ("if (ntohs(eth.type) == 0x0800) { drop }\nsend port", "1:5: ntohs is no variable", "leave ntohs out", "if (eth.type == 0x0800) { drop }\nsend port"),
        ("XDP_PASS", "1:1", "send port sends the packet", "send port"),
        ("if tcp.flags & 2 and 16 { drop }\nsend port", "1:22", "x & 3 == 3 asks for two bits", "if tcp.flags & 18 == 18 { drop }\nsend port"),
        ("let n = 0\nif tcp { n += 1 }\nif n > 100 { drop }\nsend port", "3:14: control never comes here", "begins anew with each packet",
         "if tcp { drop }\nsend port"),
        ("let p = tcp.dport\nneed p == 80\nif p == 443 { drop }\nsend port", "3:15: control never comes here", "ask another question before",
         "let p = tcp.dport\nneed p in {80, 443}\nif p == 443 { drop }\nsend port"),
        ("need ipv4 else\nsend port", "2:1: this belongs to the `else` in line 1", "else { .. }", "need ipv4 else { send port }"),
        ("if ipv4 {\n  if udp { drop } else\n  udp.sport = 5\n}\nsend port", "3:3: this belongs to the `else` in line 2", "the line of `else`",
         "if ipv4 {\n  if tcp { drop } else\n    ipv4.tos = 5\n}\nsend port"),
        ("if tcp { drop }\nelse\n  if udp { count a }\n  else\n  count b\nsend port", "5:3: this belongs to the `else` in line 4", "within braces",
         "if tcp { drop }\nelse\n  if udp { count a }\n  else\n    count b\nsend port"),
        ("if tcp { drop } else\n  eth.src = 1\n    eth.dst = 2\nsend port", "3:5: this does not belong to the `else` in line 1", "else { .. }",
         "if tcp { drop }\n  else\n  eth.src = 1\neth.dst = 2\nsend port"),
        ("if tcp { drop } else\n    eth.src = 1\n    eth.dst = 2\nsend port", "3:5: this does not belong to the `else` in line 1", "else { .. }",
         "if tcp { drop } else {\n    eth.src = 1\n    eth.dst = 2\n}\nsend port"),
        ("table R = 0\nlet h = lookup R ipv6.dst\nsend h", "2:18: a table has addresses of 32 bits", "if ipv6.dst in 2001:db8::/32",
         "let h = 0\nif ipv6.dst in 2001:db8::/32 { h = 1 }\nsend h"),
        ("let h = lookup 0 eth.dst\nsend h", "1:18: a table has addresses of 32 bits, and this has 48", "number & 0xffffffff is its last 32 bits",
         "let h = lookup 0 eth.dst & 0xffffffff\nlet j = lookup 0 ipv6.src_lo\nsend h"),
        ("arp.sha = 10.0.0.1\nsend port", "1:11: arp.sha has 48 bits, and 10.0.0.1 is an IPv4 address of 32", "an Ethernet address has colons",
         "arp.spa = 10.0.0.1\nsend port"),
        ("need 10.0.0.1 == eth.src\nsend port", "1:6: eth.src has 48 bits", "as in 02:00:00:00:00:01", "need 02:00:00:00:00:01 == eth.src\nsend port"),
        ("need ip.src == 10.0.0.1\nsend port", "1:6: there is no header ip", "did you mean ipv4?", "need ipv4.src == 10.0.0.1\nsend port"),
        ("need dns.id == 5\nsend port", "1:6", "header dns { a:8 } after udp if udp.dport == 7",
         "header dns { id:16 } after udp if udp.dport == 53\nneed dns.id == 5\nsend port"),
        ("need dport == 53\nsend port", "1:6: dport is no variable here", "did you mean tcp.dport or udp.dport or l4.dport?", "need l4.dport == 53\nsend port"),
        ("push vlan\nsend port", "2:1", "push vlan { pcp = 1 }", "push vlan { pcp = 1 }\nsend port"),
        ("push vlan { vid: 5 }\nsend port", "1:16", "an = is before the value", "push vlan { vid = 5 }\nsend port"),
        ("tcp dport 80 drop", "1:1: tcp cannot be assigned to", "if tcp.dport == 80 { drop }", "if tcp.dport == 80 { drop }"),
        ("need tcp.dport in 80-90\nsend port", "1:19", "a range has two dots", "need tcp.dport in 80..90\nsend port"),
        ("need tcp.dport == {80, 443}\nsend port", "1:19", "x in {1, 2}", "need tcp.dport in {80, 443}\nsend port"),
        ("need tcp.dport == 80..90\nsend port", "1:21: no statement begins with '..'", "a range comes after `in`", "need tcp.dport in 80..90\nsend port"),
        ("if tcp.dport not in {80} { drop }\nsend port", "1:14", "not x in {1, 2}", "if not tcp.dport in {80} { drop }\nsend port"),
        ("if ipv4.src in 10/8 { drop }\nsend port", "1:16: the first 8 of 32 bits of 10 are all 0", "as in 10.0.0.0/8",
         "if ipv4.src in 10.0.0.0/8 { drop }\nsend port"),
        ("need eth.dst == 02-00-00-00-00-01\nsend port", "1:17: 02-00-00-00-00-01 is no number", "02:00:00:00:00:01",
         "need eth.dst == 02:00:00:00:00:01\nsend port"),
        ("need eth.dst == 0200.0000.0001\nsend port", "1:17", "an Ethernet address has colons", "need eth.dst == 02:00:00:00:00:01\nsend port"),
        ("if ipv4.ttl == 1:\n    drop\nsend port", "1:17", "within braces", "if ipv4.ttl == 1 { drop }\nsend port"),
        ("if ipv4.ttl == 1 AND tcp { drop }\nsend port", "1:18", "write and, in small letters", "if ipv4.ttl == 1 and tcp { drop }\nsend port"),
        ("reject", "1:1", "write drop", "drop"),
        ("dorp\nsend port", "1:1", "did you mean drop?", "drop"),
        ("ipv4.tll -= 1\nsend port", "1:6", "did you mean ipv4.ttl?", "ipv4.ttl -= 1\nsend port"),
        ("cosnt A = 5\nsend A", "1:1", "const", "const A = 0\nsend A"),
        ("Drop", "1:1", "write drop, in small letters", "drop"),
        ("drop bad\nsend port", "1:6", 'drop "why"', 'need tcp else drop "bad"\nsend port'),
        ("send port 1", "1:11: no statement begins with '1'", "send 1 is one", "ports 2\nsend 1"),
        ("ports = 4\nsend 0", "1:7: the number of ports is expected here", "leave the = out", "ports 4\nsend 0"),
        ("ring SLOW = 0\nsend SLOW", "2:6: SLOW is a ring", "queue SLOW", "ring SLOW = 0\nqueue SLOW"),
        ("let h = lookup ipv4.dst\nsend 0", "1:16", "table ROUTES = 0", "table ROUTES = 0\nlet h = lookup ROUTES ipv4.dst\nsend 0"),
        ("let h = lookup 0 ipv4.dst else { h = 0 }\nsend 0", "1:34", "the `else` part has no h", "let h = lookup 0 ipv4.dst else { drop }\nsend 0"),
        ("clone this from 1\nsend port", "1:7", "the new packet has a name of its own", "clone c from 1\nsend port"),
        ("clone c from 1\nc.truncate(64)\nsend port", "2:1", "truncate c 64", "clone c from 1\ntruncate c 64\nsend port"),
        ("if ipv4 { const X = 5 }\nsend port", "1:11: no statement begins with 'const'", "outside of all blocks", "const X = 5\nsend port"),
        ("const X = ipv4.ttl\nsend port", "1:11", "let X = ..", "let X = ipv4.ttl\nsend port"),
        ("need ipv4 drop\nsend port", "2:1", "`need c` drops by itself", "need ipv4 else drop\nsend port"),
        ("header h { a:8, b:8 }\nsend port", "1:15", "blanks before the next one", "header h { a:8 b:8 }\nsend port"),
        ("header h { a:0 b:8 }\nsend port", "1:8: the field a has no bits", "1 to 64 bits", "header h { a:1 b:7 }\nsend port"),
        ("header h { a:3 }\nsend port", "1:8", "rest:5", "header h { a:3 rest:5 }\nsend port"),
        ("header h { a:8 } after udp if dport == 5\nsend port", "1:31", "after udp if udp.dport == 1",
         "header h { a:8 } after udp if udp.dport == 1\nsend port"),
        ("count(dns)\nsend port", "1:1: no statement begins with 'count'", "without quotes and parentheses", "count dns\nsend port"),
        ("need tcp.dport in {80, 443,}\nsend port", "1:28", "no comma at its end", "need tcp.dport in {80, 443}\nsend port"),
        ("f(1)\ndef f(x) { drop }", "1:1: no statement begins with 'f'", "def f() { .. }, before it", "def f(x) { drop }\nf(1)"),
        ("need ipv6.src_hi in 2001:db8::/32\nsend port", "1:21", "name the whole field", "need ipv6.src in 2001:db8::/32\nsend port"),
        ("if ipv4 { drop } else ipv6 { drop }\nsend port", "1:23", "write `else if`", "if ipv4 { drop } else if ipv6 { drop }\nsend port"),
        ("if ipv4 { drop } else: drop\nsend port", "1:22", "a block is within braces", "if ipv4 { drop } else { send 0 }"),
        ("if ipv4.ttl == 1) { drop }\nsend port", "1:17", "no parenthesis is open here", "if ipv4.ttl == 1 { drop }\nsend port"),
        ("vlan = 5\nsend port", "1:1: vlan cannot be assigned to", "its fields can: pcp, dei, vid", "vlan.vid = 5\nsend port"),
        ("mend ipv4.src := 1\nsend port", "1:15", "ipv4.src = 1", "mend ipv4.src = 1\nsend port"),
        ("let ipv4.ttl = 5\nsend port", "1:9", "without let", "ipv4.ttl = 5\nsend port"),
        ('table R = "r.txt"\nsend port', "1:11: the table is expected here", "its number", "table R = 0\nsend port"),
        ("const S = {80}\nsend port", "1:11", "set S = {1, 2}", "set S = {80}\nsend port"),
        ("if ipv4 { let x = ipv4.len }\nif x > 99 { drop }\nsend port", "2:4: x is no variable here", "x ended with its block: let x = 0 before that block",
         "let x = 0\nif ipv4 { x = ipv4.len }\nif x > 99 { drop }\nsend port"),
        ("header h { a:8 }\nextend h after udp if udp.dport == 5\nif h.a == 1 { drop }\nsend port", "2:8: h follows no header", "header h { .. } after udp if ..",
         "header h { a:8 } after udp if udp.dport == 5\nif h.a == 1 { drop }\nsend port"),
        ("let y = 5\ndef f() { ipv4.tos = y }\nf()\nsend port", "2:22", "a parameter may have it", "let y = 5\ndef f(a) { ipv4.tos = a }\nf(y)\nsend port"),
        ("header dns id:16\nsend port", "1:12", "header dns { a:8 }", "header dns { id:16 }\nsend port"),
        ("header dns { id = 16 }\nsend port", "1:17", "as in a:8", "header dns { id:16 }\nsend port"),
        ("cut\nsend port", "2:1", "missing before `send`", "cut 14\nsend port"),
        ("drop \u201cwhy\u201d", "1:6: no word begins with '\u201c'", "plain double quotes", 'drop "why"'),
        ("def f() { drop ? }\nsend port", "1:16: no word begins with '?'", "if c {", "def f() { drop }\nsend port"),
        ("header n { k:32 } after gre if gre.type == 1\nheader h { a:8 } after n\nneed h\nsend port", "3:1: 'if' is expected here", "after udp if 1, where nothing decides",
         "header n { k:32 } after gre if gre.type == 1\nheader h { a:8 } after n if 1\nneed h\nsend port"),
        ("ports 2\nclone c from 1\nnew h from 0\npush eth { } on h\nchain h before c\nsend c to 1\nsend port", "5:16: 'this' is expected here, and this is 'c'",
         "a clone of it can go on as it was", "ports 2\nclone c from 1\nsend c to port\nnew h from 0\npush eth { } on h\nchain h before this\nsend 1"),
        ("push eth { } zeros { x = 0 }\nsend port", "1:14: a header is expected here, and 'zeros' is none", "header zeros { a:8 } after udp if udp.dport == 7",
         "header zeros { x:32 }\npush eth { } zeros { x = 0 }\nsend port"),
        ("iflen p0,14,d\nadj p0,14\nd: exit", "1:1: no statement begins with 'iflen'", "dpv filter FILE.dpv IN OUT runs it", "cut 14\nsend port"),
        ("mirror 1\nsend port", "1:1: no statement begins with 'mirror'", "clone c from 1, and send c to 1", "ports 2\nclone c from 1\nsend c to 1\nsend port"),
        ("recompute ipv4.sum\nsend port", "1:1", "sum = auto makes the checksum of a pushed header", "mend ipv4.ttl = 64\nsend port"),
        ("pad 60\nsend port", "1:1", "no statement adds bytes at the end of a packet", "send port"),
        ("need tcp.dst == 80\nsend port", "1:10: tcp has no field dst", "did you mean tcp.dport?", "need tcp.dport == 80\nsend port"),
        ("if ipv4.options { drop }\nsend port", "1:9", "did you mean ipv4.ihl > 5, and a header after ipv4, which begins after the options?", "if ipv4.ihl > 5 { drop }\nsend port"),
        ("need tcp.options\nsend port", "1:10", "header mine { kind:8 size:8 } after tcp if tcp.off > 5, the first option",
         "header mine { kind:8 size:8 } after tcp if tcp.off > 5\nneed mine.kind == 2\nsend port"),
        ("header p { kind:8 size:8 corr:16 } after eth if eth.type == 0x88f7 after udp if udp.dport == 319\nif udp {}\nif p { mend p.corr += 5 }\nsend port",
         "3:8: no checksum covers p.corr where it is after eth", "if udp { mend p.corr = .. } else { p.corr = .. }",
         "header p { kind:8 size:8 corr:16 } after eth if eth.type == 0x88f7 after udp if udp.dport == 319\n"
         "if udp { if p { mend p.corr += 5 } } else if p { p.corr += 5 }\nsend port"),
        ("mend ipv6.flow = 5\nsend port", "1:1: no checksum covers ipv6.flow\n", "assign without `mend`", "ipv6.flow = 5\nsend port"),
        ("header s { sport:16 dport:16 } after ipv4 if ipv4.proto == 132 after ipv6 if ipv6.next == 132\nif s { mend s.dport = 9 }\nsend port",
         "2:8: no checksum covers s.dport\n", "assign without `mend`",
         "header s { sport:16 dport:16 } after ipv4 if ipv4.proto == 132 after ipv6 if ipv6.next == 132\nif s { s.dport = 9 }\nsend port"),
        ("ipv4.tos = 5\nmend ipv4.sum = 0\nsend port", "2:1: ipv4.sum is the checksum itself", "`mend` of what it covers updates it, and ipv4.sum = .. writes it",
         "mend ipv4.tos = 5\nsend port"),
        ("if ipv4.len > 1500 { fragment }\nsend port", "1:22: no statement begins with 'fragment'", "no program splits a packet", "if ipv4.len > 1500 { drop }\nsend port"),
        ("need ipv4.frag_offset == 0\nsend port", "1:11: ipv4 has no field frag_offset", "did you mean ipv4.frag?", "need ipv4.frag == 0\nsend port"),
        ("rate 1000 pps\nsend port", "1:1: no statement begins with 'rate'", "or knows the time, as a rate needs; ipv4.id & 15 == 0 is true of one packet in 16",
         "if ipv4.id & 15 == 0 { drop }\nsend port"),
        ("swap eth.src eth.dst\nsend port", "1:1: no statement begins with 'swap'", "let a = eth.src, and then eth.src = eth.dst and eth.dst = a, exchange",
         "let a = eth.src\neth.src = eth.dst\neth.dst = a\nsend port"),
        ("need udp.payload[2] == 5\nsend port", "1:17: no word begins with '['", "header mine { a:16 b:8 } after udp if 1 names the bytes after udp",
         "header mine { a:16 b:8 } after udp if 1\nneed mine.b == 5\nsend port"),
        ("header h { a_hi:64 a_lo:64 } after ipv6 if ipv6.next == 43\nneed h.a == ::1\nsend port", "2:8: h has no field a", "a:128 in the declaration has both halves",
         "header h { a:128 } after ipv6 if ipv6.next == 43\nneed h.a == ::1\nsend port"),
        ("eth.dst = ipv6.dst & 0xffff\nsend port", "1:11: an IPv6 address is only compared", "ipv6.dst_hi and ipv6.dst_lo are its halves, which are numbers",
         "eth.dst = ipv6.dst_lo & 0xffff\nsend port"),
        ("let x = 2001:db8::1\nsend port", "1:9: an IPv6 address is only compared", "const A = 2001:db8::1 names an address", "const A = 2001:db8::1\nneed ipv6.src == A\nsend port"),
        ("need ipv4 else count other drop\nsend port", "1:1", "in braces if it is more than that: else { count web drop }", "need ipv4 else { count other drop }\nsend port"),
        ("ports 2\nclone c from 1\npush vlan { vid = 5 } on c\nsend c to 1\nsend port", "3:1", "then the clone is what goes on as it was",
         "ports 2\nclone c from 1\nsend c to port\nnew h from 0\npush eth { } vlan { } on h\nchain h before this\nsend 1"),
    )

    def test_each_cure_helps(self) -> None:
        for source, place, cure, mended in self.SLIPS:
            with self.subTest(source):
                with self.assertRaises(SourceError) as caught:
                    compile_text(source)
                said = error_text(caught.exception, "x.pkt", source)
                self.assertIn("x.pkt:" + place, said)
                self.assertIn(cure, said.partition("\n  help: ")[2])
                self.assertGreater(count(mended), 0)


class Limits(unittest.TestCase):
    """Texts of any size end soon, in a program or in an error with a place, without deep calls."""

    def test_long_and_deep_texts(self) -> None:
        addresses = [f"10.{k >> 8}.{k & 255}.1" for k in range(20_000)]
        texts = {
            "a number has at most 64 bits": f"let x = {'9' * 4400}\nsend x",
            "a part of an address": f"let x = 1.2.3.{'1' * 4400}\nsend x",
            "more than 40 parentheses": f"let x = {'(' * 6000}1{')' * 6000}\nsend x",
            "more than 40 parentheses and `not`": f"need {'not ' * 20_000}eth\nsend port",
            "more than 40 parentheses and ~": f"let x = {'~' * 20_000}port\nsend x",
            "more than 1,024 `else if`": "if port == 7 { drop }" + "".join(f" else if eth.type == {k} {{ drop }}" for k in range(20_000)),
            "more than 40 blocks": "if eth.type == 5 { " * 5000 + "drop" + " }" * 5000,
            "a list has at most 1,024 items": f"need ipv4.src in {{{', '.join(addresses)}}}\nsend port",
            "more than 1,024 operators": f"need {' or '.join(f'ipv4.src == {it}' for it in addresses)}\nsend port",
            "more than 200 operators": f"let x = {' + '.join(['port'] * 20_000)}\nsend x",
            "more than 4,096 statements": "let x = 1\n" + "x += port\n" * 50_000 + "send x",
            "more than 32 headers": "header h0 { a:8 } after eth if eth.type == 5\n"
                                    + "".join(f"header h{k} {{ a:8 }} after h{k - 1} if h{k - 1}.a == 1\n" for k in range(1, 1500)),
            "these headers have 70,000 bytes": f"push {'eth { } ' * 5000}send port",
            "more than 16,384 operators and items": f"set S = {{{', '.join(map(str, range(1000)))}}}\ndef f(a) {{ if a in S {{ drop }} }}\n"
                                                    + "f(tcp.dport)\nif tcp.dport in S { drop }\n" * 300 + "send port",
            "the program has 4": "push eth { dst = eth.src } ipv4 { len = ipv4.len } udp { len = ipv4.len }\n" * 200 + "send port",
            "the program has": "".join(f"while eth.type == {k} {{ eth.type += 1 }}\n" for k in range(250)) + "send port",
        }
        limit = sys.getrecursionlimit()
        for wanted, text in texts.items():
            with self.subTest(wanted):
                begun = time.process_time()
                with self.assertRaises(SourceError) as caught:
                    compile_text(text)
                self.assertIn(wanted, error_text(caught.exception, "x.pkt", text))
                self.assertGreater(caught.exception.at.line, 0)
                self.assertLess(time.process_time() - begun, 10)
        self.assertEqual(sys.getrecursionlimit(), limit)

    def test_long_sums_within_parentheses(self) -> None:
        """200 operators in a row, within parentheses at the left end of 200 others, and so on."""
        def nested(word: str, first: str, depth: int) -> str:
            more = f" {word} {first}" * 200
            for _ in range(depth):
                first = f"({first}{more})"
            return first

        total = nested("+", "eth.type", 5)
        for text in (
            f"eth.src = {total}\nsend port",
            f"let v = 1\nv -= {total}\nsend v",
            f"if eth.src < {total} {{ drop }}\nsend port",
            f"push eth {{ dst = ~{total} }}\nsend port",
            f"header h {{ v:8 }} after eth if 1 length {nested('+', 'v', 39)} for v:8 in 1..3\nheader g {{ a:8 }} after h if 1\nif g {{ drop }}\nsend port",
        ):
            with self.subTest(text[:20]):
                begun = time.process_time()
                self.assertLessEqual(count(text), 1_024)
                self.assertLess(time.process_time() - begun, 10)

    def test_numbers_that_nobody_reads(self) -> None:
        """They are left out at once, not one after another."""
        begun = time.process_time()
        self.assertLess(count(f"if {' + '.join(['eth.type'] * 180)} in {{1..5, 10.0.0.0/8}} {{ drop }}\nsend port"), 1_024)
        self.assertLess(time.process_time() - begun, 3)

    def test_many_headers(self) -> None:
        """A header after many others, headers that are extended, and headers that may come one after another in many ways."""
        begin = "".join(f"header h{k} {{ a:8 }} after eth if eth.type == {k}\n" for k in range(400))
        wide = begin + "header z { b:8 } " + " ".join(f"after h{k} if h{k}.a == 1" for k in range(400)) + "\nif z.b == 1 { drop }\nsend port"
        extended = begin + "".join(f"extend h{k} after arp if arp.op == {k}\n" for k in range(400)) + "send port"
        ways = "header h0 { a:8 } after eth if eth.type == 5\n"
        for k in range(1, 15):
            ways += "".join(f"header x{k}y{w} {{ a:8 }} after h{k - 1} if h{k - 1}.a == {w}\n" for w in range(4))
            ways += f"header h{k} {{ a:8 }} " + " ".join(f"after x{k}y{w} if x{k}y{w}.a == 1" for w in range(4)) + "\n"
        for text in (wide, extended, ways + "if h3.a == 1 { drop }\nsend port"):
            begun = time.process_time()
            self.assertGreater(count(text), 0)
            self.assertLess(time.process_time() - begun, 10)

    def test_what_is_just_possible(self) -> None:
        deep = "".join(f"if eth.type > {k} {{\n" for k in range(40)) + "drop" + " }" * 40 + "\nsend port"
        chain = "if port == 7 { drop }" + "".join(f" else if eth.type == {k} {{ drop }}" for k in range(900)) + "\nsend port"
        listed = f"need ipv4.src in {{{', '.join(f'10.0.{k >> 8}.{k & 255}' for k in range(1000))}}}\nsend port"
        terms = f"let x = {' + '.join(['port'] * 200)}\nsend x"
        within = f"let x = {'(' * 40}port{' + 1)' * 40}\nif x == 40 {{ if tcp.dport == 5 {{ drop }} }}\nsend port"
        for text in (deep, chain, listed, terms, within):
            self.assertLess(count(text), 1025)


class Knowledge(unittest.TestCase):
    def test_groups_are_those_of_the_checker(self) -> None:
        state = State()
        state.share(1, 0)
        self.assertEqual((state.packets[0].sharers, state.packets[1].sharers), ({1}, {0}))
        state.share(2, 0)
        state.leave(1)
        self.assertEqual(state.packets[0].sharers, {2})
        state.dissolve(2)
        self.assertEqual(state.packets[0].sharers, {SOMEBODY})
        state.share(1, 0)
        self.assertEqual(state.packets[1].sharers, {SOMEBODY})

    def test_what_is_known_on_both_ways(self) -> None:
        mine, yours = State(), State()
        mine.packets[0], yours.packets[0] = Packet(frozenset(), 128, 34), Packet(frozenset({SOMEBODY_THE_REST}), 100, 14, 2)
        mine.learn(Span(96, 16), 0x0800)
        mine.join(yours)
        self.assertEqual((mine.packets[0], mine.bits), (Packet(frozenset({SOMEBODY_THE_REST}), 100, 14, 2), {}))
        self.assertEqual(Packet(frozenset({1})).joined(Packet()).sharers, {SOMEBODY})

    def test_bits(self) -> None:
        state = State()
        state.learn(Span(12, 8), 0xAB)
        self.assertEqual(state.known(Span(8, 16)), (0x0FF0, 0x0AB0))
        state.overwrite(Span(8, 4))
        self.assertEqual(state.known(Span(8, 16)), (0xF0, 0xB0))


class Layout(unittest.TestCase):
    def test_equal_ends_are_one(self) -> None:
        ends = [Instruction("store", ("p0", "5", "1", "r0"), 1, next=Instruction("free", ("p0",), 1, next=Instruction("exit"))) for _ in range(2)]
        second = Instruction("jeq", ("r0", "2"), 1, target=ends[0], next=ends[1])
        graph = Graph(Instruction(next=Instruction("jeq", ("r0", "1"), 1, target=ends[0], next=second)))
        shorten(graph)
        self.assertEqual([it.word for it in graph.order()], ["store", "free", "exit"])

    def test_equal_ends_are_one_where_packets_share_bytes(self) -> None:
        source = "ports 2\nheader label { value:32 }\nnew mark from 0\npush label { value = 7 } on mark\nclone copy from 1\nchain mark before this\n"
        self.assertEqual(count(source + "send copy to port else drop\nsend 1"), 18)

    def test_a_round_of_a_loop_goes_back_at_once(self) -> None:
        lines = compile_text("while length < 54 {\n  if ipv4.ttl == 1 { ipv4.tos = 1 } else { ipv4.id = 2 }\n}\nsend port").splitlines()
        jumps = [it for label, it in zip(lines, lines[1:]) if label.endswith(":") and it.split()[0] == "jmp"]
        self.assertEqual(jumps, [])
        self.assertGreater(sum("jmp L1 " in it for it in lines), 1)

    def test_lengths_are_asked_once(self) -> None:
        text = compile_text("need arp or ipv4\nsend port")
        self.assertEqual(text.count("iflen"), 2)
        self.assertEqual(compile_text("need ipv4.ttl > 1\nsend port").count("iflen"), 1)
        self.assertIn("iflen p0,34", compile_text("need ipv4.ttl > 1\nsend port"))

    def test_cures_for_long_programs_make_them_shorter(self) -> None:
        for rule in ("if ipv4.src in 10.0.0.0/8 { mend ipv4.src = 198.51.100.1 }", "if tcp.dport == 22 { drop }", "if udp { mend udp.dport = 53 }",
                     "if tcp { mend tcp.sport = 1 } else if udp { mend udp.sport = 1 }", "if l4.sport == 5 { ipv4.tos = 1 }"):
            sizes = [count(f"{cure} {rule} send port") for cure in ("", "need ipv4", "need ipv4.ihl == 5", "need ipv4.vhl == 0x45")]
            self.assertEqual(sizes, sorted(sizes, reverse=True), rule)
            self.assertLess(sizes[-1], sizes[1], rule)

    def test_the_length_is_asked_before_what_is_behind_it(self) -> None:
        rules = "".join(f"if ipv4.src in 10.{k}.0.0/16 and tcp.dport == {k} {{ drop }}\n" for k in range(5)) + "send port"
        for cure in ("need ipv4.vhl == 0x45\n", "if ipv4 { need ipv4.vhl == 0x45 }\n"):
            self.assertLess(count(cure + rules), count(rules) // 2 + 1)
            self.assertEqual(sent(cure + rules, *(tcp(2, 3, options, dst="192.0.2.7") for options in (b"", bytes(4))))[0], [tcp(2, 3)])

    def test_what_changes_nothing_takes_no_instruction(self) -> None:
        self.assertEqual(count("new h from 0\ncut h 0\ncut 0\ntruncate h 4096\nsend port"), count("new h from 0\nsend port"))

    def test_the_order_of_tests_does_not_matter(self) -> None:
        for number, most in ((24, 245), (100, 855)):
            rules = [(f"ipv4.dst == 10.0.0.{k}", f"tcp.dport == {1000 + k}") for k in range(number)]
            sizes = [count("".join(f"if {' and '.join(rule[::order])} {{ drop }}\n" for rule in rules) + "send port") for order in (1, -1)]
            self.assertLess(max(sizes), most)
            self.assertLess(max(sizes) - min(sizes), 5)

    def test_rules_behind_tags_look_once_for_their_headers(self) -> None:
        tags, rules = "if qinq {}\nif vlan {}\n", "".join(f"if ipv4.dst == 192.0.2.{k} and tcp.dport == {k} {{ drop }}\n" for k in range(20))
        self.assertLess(count("if vlan {}\n" + rules + "send port"), 430)
        self.assertLess(count(tags + rules + "send port"), 760)
        frames = [tcp(2, port, options, dst=f"192.0.2.{end}") for port, end in ((7, 7), (7, 8), (19, 19)) for options in (b"", bytes(8))]
        given = [change(it) for it in frames for change in (lambda it: it, tagged, lambda it: tagged(it, 5, 0x88A8), lambda it: tagged(tagged(it), 5, 0x88A8))]
        self.assertEqual(sent(tags + rules + "send port", *given)[0], given[8:16])
        again = "if ipv4.ttl == 64 { ipv4.tos = 1 }\nif vlan.vid == 7 { drop }\nsend port"
        few = "".join(rules.splitlines(keepends=True)[:4])
        self.assertEqual(len(sent("if port == 1 { if vlan { } }\n" + few + again, *given)[0]), 18)

    def test_variables_in_other_registers_share_what_follows(self) -> None:
        head = """if qinq {}
if vlan {}
let a = 0
let p = 0
if ipv4 { a = ipv4.dst }
if tcp { p = tcp.dport } else if udp { p = udp.dport }
"""
        rules = [f"if a == 192.0.2.{k} and p == {k} {{ drop }}\n" for k in range(20)]
        sizes = [count(head + "".join(rules[:number]) + "send port") for number in (10, 20)]
        self.assertLessEqual(sizes[1] - sizes[0], 30)
        frames = [tcp(2, port, options, dst=f"192.0.2.{end}") for port, end in ((7, 7), (7, 8), (19, 19)) for options in (b"", bytes(8))]
        given = [change(it) for it in frames for change in (lambda it: it, tagged, lambda it: tagged(it, 5, 0x88A8), lambda it: tagged(tagged(it), 5, 0x88A8))]
        self.assertEqual(sent(head + "".join(rules) + "send port", *given)[0], given[8:16])

    def test_registers_are_moved_in_an_order_that_keeps_their_numbers(self) -> None:
        for before, after, moves in (({"a": 1, "b": 2, "c": 3}, {"a": 2, "b": 3, "c": 4}, ["r4,r3", "r3,r2", "r2,r1"]),
                                     ({"a": 1, "b": 2}, {"a": 2, "b": 1}, []), ({"a": 1, "b": 2}, {"a": 1, "b": 2}, [])):
            first = Instruction()
            way = Way(unit=Unit(parse("send port")), last=first, variables=before, bounds={r: 10 + r for r in range(8)})
            way.move_to(after)
            found, it = list[str](), first.next
            while it is not None:
                found, it = [*found, ",".join(it.operands)], it.next
            self.assertEqual((found, way.variables), (moves, after if moves else before))
            self.assertEqual([way.bounds[r] for r in way.variables.values()], [11, 12, 13][: len(before)])

    def test_a_header_is_not_looked_for_early_where_that_matters(self) -> None:
        rules = "if ipv4.dst == 1.2.3.4 and udp.dport == 53 { drop }\n"
        frame = udp(5, 53, dst="192.0.2.7")
        no_udp = frame[:23] + b"\5" + frame[24:]
        source = f"{rules}if ipv4.ttl == 64 {{ ipv4.proto = 17 }}\n{rules}if udp.dport == 53 {{ drop }}\nsend port"
        self.assertEqual(sent(source, no_udp, frame, tcp(2, 53))[0], [])
        self.assertEqual(sent(source.replace("ipv4.proto = 17", "ipv4.tos = 17"), no_udp)[0], [no_udp[:15] + b"\x11" + no_udp[16:]])

    def test_neighbouring_constants_are_written_together(self) -> None:
        text = compile_text("eth.dst = 1\neth.src = 2\nsend port")
        self.assertIn("set r1,0x10000 ", text)
        self.assertEqual(text.count("store"), 2)

    def test_each_instruction_has_its_line(self) -> None:
        lines = compile_text("# a comment\nneed ipv4.ttl > 1 # expired\nsend port").splitlines()
        self.assertTrue(lines[0].startswith("# Built from"))
        notes = ("# 2: need ipv4.ttl > 1 # expired", "# 3: send port", "# what is held is dropped")
        self.assertTrue(all(any(note in it for note in notes) for it in lines[1:] if ":" != it[-1]))


class Programs(unittest.TestCase):
    """What compiled programs send, of packets whose outcome is plain."""

    def test_a_header_is_guarded_by_touching_it(self) -> None:
        frame = udp(5, 53)
        self.assertEqual(sent("need udp.dport == 53\nsend port", frame, frame[:41], b"\2", eth(b"", 0x0806))[0], [frame])
        self.assertEqual(sent("if udp.dport != 53 { drop }\nsend port", frame[:41], b"")[0], [frame[:41], b""])

    def test_prefixes_count_from_the_first_bit(self) -> None:
        def frame(source: str, target: str) -> bytes:
            ends = b"".join(ipaddress.IPv6Address(it).packed for it in (source, target))
            return eth(struct.pack(">IHBB", 0x60000000, 0, 59, 64) + ends, 0x86DD)

        here, there, none = frame("2001:db8::7", "::1"), frame("2001:db9::7", "2001:db8::7"), eth(ipv4(1, bytes(8)))
        for condition, wanted in {
            "ipv6.src_hi in 0x20010db800000000/32": [here], "ipv6.src in 2001:db8::/32": [here], "ipv6.src in 2001:db8::/31": [here, there],
            "ipv6.src in 2001:db8:0:0::/127": [], "ipv6.src in 2001:db8::6/127": [here], "ipv6.src in ::/0": [here, there],
            "ipv6.dst == ::0.0.0.1": [here], "ipv6.src in 2001:db8::10.0.0.0/96": [here], "ipv6.src in {2001:db9:0:0:0:0:0.0.0.7}": [there],
            "ipv6.dst == ::1": [here], "ipv6.dst != ::1": [there], "ipv6.dst in {::2, 2001:db8::/64, fe80::/10}": [there],
            "eth.src in 02:00:00:00:00:00/24": [here, there, none], "eth.src in 03:00:00:00:00:00/8": [], "ipv4.src in 10.0.0.0/8": [none],
            "ipv4.src in 0/0": [none], "ipv6.flow in 0xfffff/0": [here, there], "ipv6.src != ipv6.dst and ipv6.dst == ME": [here],
        }.items():
            self.assertEqual(sent(f"const ME = ::1\nneed {condition}\nsend port", here, there, none)[0], wanted, condition)
        self.assertEqual(sent("ipv6.src = ipv6.dst ipv6.dst = 2001:db8:1:2:3:4:5:6\nsend port", here)[0], [frame("::1", "2001:db8:1:2:3:4:5:6")])
        self.assertEqual(sent("push ipv6 { len = 0 next = 59 hops = 64 src = ::7 dst = ipv6.src }\ncut 40 send port", here)[0], [here])
        self.assertEqual(sent("push ipv6 { len = 0 next = 59 hops = 64 src = ::7 dst = ipv6.src }\ntruncate 40 send port", here)[0],
                         [frame("::7", "2001:db8::7")[14:]])

    def test_each_header_that_may_come_before_is_looked_for(self) -> None:
        far = eth(struct.pack(">IHBB", 0x60000000, 20, 6, 64) + bytes(32) + struct.pack(">HHIIBBHHH", 4000, 22, 1, 2, 0x50, 2, 9, 0, 0), 0x86DD)
        web, near = far[:56] + b"\0\x50" + far[58:], tcp(2, 22)
        rule, tags = "if tcp.dport == 22 { drop }\nsend port", "if qinq { }\nif vlan { }\n"
        self.assertEqual(sent(rule, far, web, near, far[:-1], tagged(far))[0], [web, far[:-1], tagged(far)])
        self.assertEqual(sent(tags + rule, far, web, *(tagged(it) for it in (far, web, near)), tagged(tagged(near), 9, 0x88A8))[0], [web, tagged(web)])
        self.assertEqual(sent("need ipv6\n" + rule, far, near, web)[0], [web])

    def test_otherwise(self) -> None:
        frame = udp(5, 53)
        self.assertEqual(sent("otherwise send 2\nports 3\nudp.dport = 7\nsend 0", frame[:30])[2], [frame[:30]])

    def test_options(self) -> None:
        frames = [tcp(2, 22, bytes(4 * k)) for k in range(11)]
        self.assertEqual(sent("need tcp.dport == 22 and tcp.flags == 2\nsend port", *frames, *[it[:-1] for it in frames])[0], frames)
        for segments in ("segments 4\n", ""):
            changed = [it[:-18] + b"\0\x50" + it[-16:] for it in frames]
            self.assertEqual(sent(segments + "tcp.dport = 80\nsend port", *frames)[0], changed)

    def test_tags(self) -> None:
        frame = udp(5, 53)
        self.assertEqual(sent("while vlan { pop vlan }\nsend port", tagged(tagged(frame)))[0], [frame])
        self.assertEqual(sent("push vlan { vid = 7 }\nsend port", frame, tagged(frame, 9))[0], [tagged(frame), tagged(tagged(frame, 9))])
        self.assertEqual(sent("if qinq { pop qinq/vlan }\nsend port", tagged(tagged(frame), 9, 0x88A8))[0], [frame])
        self.assertEqual(sent("need qinq\npush vlan { vid = qinq.vid }\nsend port", tagged(frame, 9, 0x88A8))[0], [tagged(tagged(frame, 9), 9, 0x88A8)])
        self.assertEqual(sent("if vlan { need ipv4.ttl == 64 vlan.vid += 1 }\nsend port", tagged(frame, 0xEFFF))[0], [tagged(frame, 0xE000)])

    def test_mend(self) -> None:
        here, there = udp(5, 53, b"abc"), udp(5, 53, b"abc", src="198.51.100.1")
        source = "mend ipv4.src = 198.51.100.1\nsend port"
        self.assertEqual(sent(source, here, udp(5, 53, summed=False), udp(5, 53, b"abc", options=bytes(8)))[0],
                         [there, udp(5, 53, src="198.51.100.1", summed=False), udp(5, 53, b"abc", options=bytes(8), src="198.51.100.1")])
        less = eth(ipv4(1, bytes(8), ttl=63))
        self.assertEqual(sent("mend ipv4.ttl -= 1\nsend port", eth(ipv4(1, bytes(8))))[0], [less])
        no_sum = next(k for k in range(65536) if udp(k, 53)[40:42] == b"\xff\xff")
        self.assertEqual(sent("mend udp.sport = %d\nsend port" % no_sum, udp(5, 53))[0], [udp(no_sum, 53)])

    def test_mends_in_a_row_update_a_checksum_once(self) -> None:
        rows = {
            "mend ipv4.src = 198.51.100.1\nmend ipv4.dst = ipv4.src ^ 5\nmend ipv4.src += 1": True, "mend udp.sport = udp.dport\nmend udp.dport = 9": True,
            "mend ipv4.ttl -= 1\nmend ipv4.dscp = 10\nmend ipv4.id = 0": True, "mend mine.a = 0\nmend mine.b = 0xffff\nmend mine.a -= 1": True,
            "mend udp.sport = 7\nmend udp.dport = udp.sum": False, "mend ipv4.ttl = 9\nmend ipv4.src = 1.2.3.4": False,
            "mend own.a = 3\nmend own.both = 5": False, "mend ipv4.src = 1.2.3.4\nmend ipv4.dst = 10.0.0.9": True, "mend ipv4.tos = 1\nmend ipv4.id = udp.sum": False,
            "mend early.a = 5\nmend early.b = 6": True, "mend early.a = 5\nmend early.kind = 6": False,
        }
        heads = """header mine { a:16 b:16 } after udp if udp.dport == 53
            header own { a:16 sum:16 both@0:32 } after udp if udp.dport == 53 sum sum
            header early { kind:16 a:16 b:16 } after eth if eth.type == 0x88b5
            header late { x:16 sum:16 } after early if early.kind == 5 sum sum over early.kind early.a early.b
            """
        zero = next(k for k in range(65536) if udp(k, 53, bytes(4))[40:42] == b"\xff\xff")
        frames = [udp(5, 53, b"abcdef"), udp(5, 53, b"abcdef", options=bytes(4)), udp(5, 53, bytes(4), summed=False), udp(zero, 53, bytes(4)), tcp(2, 80),
                  udp(5, 53, b"\xff\xff\0\0")[:40] + b"\xff\xff\xff\xff\xff\xff", eth(bytes.fromhex("0005000100020003fff4"), 0x88B5), six(17, bytes(12))]
        for text, is_once in rows.items():
            with self.subTest(text):
                together, apart = (f"{heads}otherwise send port\n{text.replace(chr(10), it)}\nsend port" for it in ("\n", "\ncount here\n"))
                self.assertEqual(sent(together, *frames), sent(apart, *frames))
                self.assertEqual(count(together) < count(apart) - text.count("\n") * 5, is_once)
        held = "".join(f"let {it} = ipv4.{field}\n" for it, field in zip("abcd", ("tos", "id", "ttl", "proto")))
        text = f"{held}mend udp.sport = udp.dport\nmend udp.dport = (a ^ b) + ((c & d) ^ (a | b))\nipv4.id = a + b + c + d\nsend 0"
        self.assertEqual(sent(text, frames[0]), sent(text.replace("\nmend udp.dport", "\ncount here\nmend udp.dport"), frames[0]))

    def test_bits_are_taken_out_by_a_constant_that_is_wider_than_the_field(self) -> None:
        self.assertEqual(sent("const SYN = 2\ntcp.flags &= ~SYN\nsend port", tcp(0x12, 80))[0], [tcp(0x10, 80)])
        here, there = (eth(ipv4(1, bytes(8))[:6] + it + ipv4(1, bytes(8))[8:]) for it in (b"\x40\5", b"\0\5"))
        self.assertEqual(sent("ipv4.flags &= ~2\nsend port", here)[0], [there])
        self.assertEqual(sent("vlan.vid &= 0xff00\nsend port", tagged(here, 0xe123))[0], [tagged(here, 0xe100)])

    def test_a_sum_that_is_added_holds_no_part_of_it(self) -> None:
        names, frame = "abcde", udp(5, 53)
        head = "".join(f"let {it} = eth.type + {k}\n" for k, it in enumerate(names))
        for sign in "+-^|&":
            inside = "+" if sign == "-" else sign
            source = f"{head}let s = 0\ns {sign}= (a & 1) {inside} (b & 3) {inside} (c & 15)\neth.src = s\neth.dst = a + b + c + d + e\nsend port"
            value = {"+": 0 + 1 + 2, "-": -(0 + 1 + 2), "^": 0 ^ 1 ^ 2, "|": 0 | 1 | 2, "&": 0}[sign] & (1 << 48) - 1
            wanted = (5 * 0x800 + 10).to_bytes(6, "big") + value.to_bytes(6, "big") + frame[12:]
            self.assertEqual(sent(source, frame)[0], [wanted], sign)
        for sign, value in (("+", 9 - 1 + 7 - 3 + 2), ("-", -(9 - 1 + 7 - 3 + 2))):
            source = f"{head}let s = 64\ns {sign}= 9 - (b & 1) + 7 - (d & 3) + (c & 15)\neth.src = s\neth.dst = a + b + c + d + e\nsend port"
            self.assertEqual(sent(source, frame)[0], [(5 * 0x800 + 10).to_bytes(6, "big") + (64 + value).to_bytes(6, "big") + frame[12:]], sign)

    def test_else_in_the_line_before(self) -> None:
        """Layouts of `else` that say what the text means."""
        for source in ("need ipv4 else\n  drop", "need ipv4\nelse drop", "need ipv4 else # why\n\n    drop # so", "if ipv4 { drop } else\nif ipv6 { drop }",
                       "if tcp { drop }\n   else\n   if udp { count a }", "need ipv4\n   else\n   drop", "need ipv4 and\n     udp else\n  drop",
                       "need ipv4 else\n{ drop }", "if tcp { drop } else\n    eth.src = 1\neth.dst = 2", "if ipv4 {\n  need tcp else\n    drop\n  ipv4.tos = 1\n}",
                       "def f() {\n  if tcp { drop } else\n    eth.src = 1\n}\nif ipv4 {\n    f()\n    eth.dst = 2\n}"):
            with self.subTest(source):
                self.assertGreater(count(source + "\nsend port"), 0)

    def test_what_a_constant_may_be(self) -> None:
        """Comparisons and masks with constants that do leave a choice."""
        for source in ("need ipv4.src & 255.255.255.0 == 10.0.0.0", "need ~tcp.flags & 2", "vlan.vid &= 0xff00", "const OFF = 0\nneed not ipv4.tos & OFF",
                       "const LEAST = 0\nneed ipv4.ttl >= LEAST", "need ipv4.ttl in 0..9", "need ipv4.src in 0.0.0.0/0", "need ipv4.ttl + 1 == 256",
                       "need 0 < ipv4.ttl and ipv4.tos <= 0", "const LEVEL = 4\nif LEVEL & 4 { ipv4.tos = 1 }", "need port == 7", "need ~ipv4.tos == ~3",
                       "need ipv4.ttl * 4 + 3 == 1023 and ipv4.tos | 4 == 7", "let x = 0 - 1\nneed x == ~0", "need (ipv4.src ^ ipv4.dst) & 1",
                       "const A = 5\nconst B = 5\nneed ipv4.ttl != A or ipv4.ttl != B", "need ipv4.ttl != 5 or ipv4.tos != 6", "need ipv4.ttl == 5 or ipv4.ttl == 6",
                       "def less(n) { if n { mend ipv4.ttl -= n } }\nless(0) less(2)", "def say(n) { if n > 1 { count more } else if n { count few } }\nsay(0) say(1) say(2)",
                       "const PORTS = 8\nports 8\nneed port < PORTS", "need tcp.dport >= 0 and tcp.dport <= 1023", "need 0 <= vlan.pcp and vlan.pcp < 4",
                       "let x = ipv4.ttl\nneed x >= 0 and x <= 5"):
            with self.subTest(source):
                self.assertGreater(count(source + "\nsend port"), 0)

    def test_constants_switch_off_what_is_behind_and_and_or(self) -> None:
        web, mail = tcp(2, 80), tcp(2, 25)
        for first in ("if ON and tcp.dport == 80 { drop }", "if tcp.dport == 80 and ON { drop }",
                      "if tcp { if ipv4 and (ON or not OFF) and tcp.dport == 80 { drop } }",
                      "if MODE == 1 and tcp.dport == 80 { drop } else if MODE == 2 and tcp.dport == 25 { drop }", "while ON and vlan { pop vlan }"):
            for on in (0, 1):
                source = f"const ON = {on}\nconst OFF = {1 - on}\nconst MODE = {1 if on else 3}\n{first}\nsend port"
                self.assertEqual(sent(source.replace("not OFF", "0 == OFF"), web, mail)[0], [mail] if on and "80" in first else [web, mail], source)
        for source in ("if tcp { if udp and ipv4 { drop } }\nsend port", "const ON = 1\nneed tcp\nif ON and udp { drop }\nsend port"):
            with self.assertRaisesRegex(SourceError, "control never comes here"):
                compile_text(source)

    def test_a_sum_is_folded_in_its_register(self) -> None:
        rng, frame = random.Random(9), eth(bytes(8) + bytes(range(8)), 0x88B5)
        held = "".join(f"let {it} = mine.{it}\n" for it in "abcdef")
        fields = "header mine { value:64 a:8 b:8 c:8 d:8 e:8 f:8 } after eth if eth.type == 0x88b5\n"
        source = fields + held + "let s = mine.value\ns = (s & 0xffff) + (s >> 16)\nmine.value = s\neth.dst = a + b + c + d + e + f\nsend 0"
        for value in (0, 0xFFFF, 0x1FFFF, *(rng.getrandbits(64) for _ in range(4))):
            wanted = (15).to_bytes(6, "big") + frame[6:14] + ((value & 0xFFFF) + (value >> 16)).to_bytes(8, "big") + frame[22:]
            self.assertEqual(sent(source, frame[:14] + value.to_bytes(8, "big") + frame[22:])[0], [wanted])
        steps = {"(s & 0xffff) + (s >> 16)": lambda s: (s & 0xFFFF) + (s >> 16), "s + s": lambda s: s + s, "(s >> 3) - s": lambda s: (s >> 3) - s,
                 "(s << 1 ^ s) + 5": lambda s: (s << 1 ^ s) + 5, "s + (s >> 1) + (s >> 2)": lambda s: s + (s >> 1) + (s >> 2),
                 "(s + (s << 2)) ^ 7": lambda s: s + (s << 2) ^ 7, "s * 5 - s": lambda s: s * 4, "(s ^ 1) + (s ^ 2) * 3": lambda s: (s ^ 1) + (s ^ 2) * 3}
        for text, step in steps.items():
            value = rng.getrandbits(62)
            given, wanted = (frame[:14] + (it % 2**64).to_bytes(8, "big") + frame[22:] for it in (value, step(value)))
            self.assertEqual(sent(f"{fields}let s = mine.value\ns = {text}\nmine.value = s\nsend 0", given)[0], [wanted], text)

    def test_products_with_constants(self) -> None:
        rng, text = random.Random(4), "header mine { value:64 short:16 } after eth if eth.type == 0x88b5\n"
        for factor in (0x9E3779B1, 0x9E3779B97F4A7C15, 2**64 - 1, 2**63 - 1, 0xFFFF, 0xFF << 56, 1 << 63, 15, *(rng.getrandbits(64) for _ in range(8))):
            value, short = rng.getrandbits(64), rng.getrandbits(16)
            here, there = (eth(struct.pack(">QH", it, short), 0x88B5) for it in (value, (value * factor ^ short * factor) % 2**64))
            source = f"{text}mine.value = mine.value * {factor} ^ mine.short * {factor}\nsend port"
            self.assertEqual(sent(source, here)[0], [there], hex(factor))
        # 19 bits of this one are 1, and the differences of 11 powers of 2 make it.
        self.assertLess(count("let h = ipv4.src * 0x9e3779b1\nipv4.dst = h\nsend port"), 40)

    def test_mend_of_64_bits(self) -> None:
        head = struct.pack(">IHBB", 0x60000000, 8, 17, 64)
        ends = [bytes.fromhex("20010db8000000000000000000000001"), bytes.fromhex("20010db8000000010000000000000002")]

        def frame(src: bytes) -> bytes:
            body = struct.pack(">HHHH", 1, 2, 8, 0)
            value = checksum(src + ends[1] + struct.pack(">II", 8, 17) + body)
            return eth(head + src + ends[1] + body[:6] + struct.pack(">H", value), 0x86DD)

        after = bytes.fromhex("fd00000000000099") + ends[0][8:]
        self.assertEqual(sent("need ipv6\nmend ipv6.src_hi = 0xfd00000000000099\nsend port", frame(ends[0]))[0], [frame(after)])

    def test_mend_leaves_what_is_after_an_extension_header(self) -> None:
        def frame(source: int, extension: bytes) -> bytes:
            body = extension + struct.pack(">HHHH", 1, 2, 8, 0x1234)
            return eth(struct.pack(">IHBB", 0x60000000, len(body), 0 if extension else 17, 64) + source.to_bytes(16, "big") + bytes(16) + body, 0x86DD)

        for extension, after in ((b"", "1233"), (bytes([17, 0, 1, 4, 0, 0, 0, 0]), "1234")):
            wanted = frame(8, extension)[:-2] + bytes.fromhex(after)
            self.assertEqual(sent("mend ipv6.src_lo += 1\nsend port", frame(7, extension))[0], [wanted])
        self.assertEqual(sent("need ipv6.next in {6, 17, 58}\nmend ipv6.src_lo += 1\nsend port", frame(7, bytes([17, 0, 1, 4, 0, 0, 0, 0])))[0], [])

    def test_mend_of_what_two_checksums_cover(self) -> None:
        """A checksum that covers another one counts what changes in it: of a quoted packet, and of one in a tunnel."""
        quoted = """
header quoted { vhl:8 tos:8 len:16 id:16 pieces:16 ttl:8 proto:8 sum:16 src:32 dst:32 } after icmp if icmp.type == 3
       length (v & 15) * 4 for v:8 in 0x45..0x4f sum sum
header inner { sport:16 dport:16 len:16 sum:16 } after quoted if quoted.proto == 17 and quoted.pieces & 0x1fff == 0
       sum sum payload over quoted.src quoted.dst inner.len optional
"""

        def error(inner: bytes) -> bytes:
            message = bytes([3, 1, 0, 0, 0, 0, 0, 0]) + inner[14:]
            return eth(ipv4(1, message[:2] + struct.pack(">H", checksum(message)) + message[4:]))

        for options in (b"", bytes(8)):
            for summed in (True, False):
                here, there, port = (error(udp(it, 53, b"abc", src, options=options, summed=summed))
                                     for it, src in ((7, "10.0.0.1"), (7, "198.51.100.1"), (9, "10.0.0.1")))
                self.assertEqual(sent(quoted + "need ipv4.ihl == 5 mend quoted.src = 198.51.100.1\nsend port", here)[0], [there])
                self.assertEqual(sent(quoted + "need ipv4.ihl == 5 and inner mend inner.sport = 9\nsend port", here)[0], [port])
        tunnel = """
header inside { dst:48 src:48 type:16 } after vxlan if vxlan.flags == 8
header quoted { vhl:8 tos:8 len:16 id:16 pieces:16 ttl:8 proto:8 sum:16 src:32 dst:32 } after inside if inside.type == 0x0800 sum sum
need ipv4.ihl == 5 mend quoted.ttl -= 1
send port"""
        for summed in (True, False):
            here, there = (udp(1, 4789, bytes([8, 0, 0, 0, 0, 0, 9, 0]) + eth(ipv4(1, bytes(8), ttl=it)), summed=summed) for it in (64, 63))
            self.assertEqual(sent(tunnel, here)[0], [there])

    def test_headers_behind_one_after_options(self) -> None:
        """A header after TCP or UDP after IPv4 options has one copy, at an offset in a register, and not one for each length."""
        relay = """
header bootp { op:8 htype:8 hlen:8 hops:8 xid:32 secs:16 flags:16 ciaddr:32 yiaddr:32 siaddr:32 giaddr:32 } after udp if udp.dport == 67
header cookie { rest:8 } after bootp if bootp.secs == 5
if bootp.op == 1 {
    need bootp.hops < 16
    mend bootp.hops += 1
    if bootp.giaddr == 0 { mend bootp.giaddr = 192.0.2.254 }
    if cookie.rest == 9 { cookie.rest = 8 }
}
send port"""
        self.assertLess(count(relay), 300)

        def data(hops: int, giaddr: int, secs: int = 0, rest: int = 9) -> bytes:
            return struct.pack(">BBBBIHHIIII", 1, 1, 6, hops, 7, secs, 0, 0, 0, 0, giaddr) + bytes([rest, 3])

        for options in (b"", bytes(4), bytes(24), bytes(40)):
            for summed in (True, False):
                before = data(3, 0), data(3, 5), data(16, 5), data(3, 0)[:27], data(3, 5)[:28]
                after = data(4, 0xC00002FE), data(4, 5), data(3, 0)[:27], data(4, 5)[:28]
                frames, wanted = ([udp(68, 67, it, options=options, summed=summed) for it in some] for some in (before, after))
                self.assertEqual(sent(relay, *frames)[0], wanted)
            last = udp(68, 67, data(3, 5, 5), options=options, summed=False)
            wanted = [udp(68, 67, data(4, 5, 5, 8), options=options, summed=False), last[:-2].replace(b"\1\1\6\3", b"\1\1\6\4")]
            self.assertEqual(sent(relay, last, last[:-2])[0], wanted)

    def test_pushed_headers(self) -> None:
        inner = ipv4(1, bytes(8))
        source = """need ipv4
let size = ipv4.len
cut 14
push eth { dst = 1 src = 2 } ipv4 { len = size + 24 ttl = 9 id = port src = 1.2.3.4 dst = 5.6.7.8 } gre { type = 0x0800 }
send port"""
        outer = struct.pack(">BBHHHBBH", 0x45, 0, len(inner) + 24, 0, 0, 9, 47, 0) + bytes([1, 2, 3, 4, 5, 6, 7, 8])
        outer = outer[:10] + struct.pack(">H", checksum(outer)) + outer[12:]
        wanted = (1).to_bytes(6, "big") + (2).to_bytes(6, "big") + b"\x08\0" + outer + b"\0\0\x08\0" + inner
        self.assertEqual(sent(source, eth(inner))[0], [wanted])
        self.assertEqual(sent("need gre\npop ipv4/gre\nsend port", wanted)[0], [wanted[:14] + inner])

    def test_pushed_values_that_need_many_registers(self) -> None:
        """Where eight registers are too few, each value is calculated when it is written."""
        source = """need ipv4
let size = ipv4.len
let tos = ipv4.tos
let hops = ipv4.ttl
let id = ipv4.id
let to = eth.dst
let me = eth.src
cut 14
push eth { dst = me src = to type = 0x0800 } ipv4 { tos = tos len = size + 20 id = id ttl = hops proto = 4 src = 1.2.3.4 dst = 5.6.7.8 }
send port"""
        inner = ipv4(1, bytes(8))
        outer = struct.pack(">BBHHHBBH", 0x45, 0, len(inner) + 20, 1, 0, 64, 4, 0) + bytes([1, 2, 3, 4, 5, 6, 7, 8])
        outer = outer[:10] + struct.pack(">H", checksum(outer)) + outer[12:]
        self.assertEqual(sent(source, eth(inner))[0], [eth(b"")[6:12] + eth(b"")[:6] + b"\x08\0" + outer + inner])
        fields = "tos = ipv4.tos ttl = ipv4.ttl id = ipv4.id len = ipv4.len + 50"
        source = f"push eth {{ dst = 1 src = 2 }} ipv4 {{ {fields} }}\n"
        source += "udp { sport = ipv4.src ^ ipv4.dst & 0xffff len = ipv4.len + 30 } vxlan { vni = 5 }\nsend port"
        outer = struct.pack(">BBHHHBBHQ", 0x45, 0, len(inner) + 50, 1, 0, 64, 17, 0, 0)
        outer = outer[:10] + struct.pack(">H", checksum(outer)) + outer[12:]
        rest = struct.pack(">HHHHII", (0x0A000001 ^ 0x0207) & 0xFFFF, 4789, len(inner) + 30, 0, 0x08000000, 0x500)
        self.assertEqual(sent(source, eth(inner))[0], [struct.pack(">HIHIH", 0, 1, 0, 2, 0x0800) + outer + rest + eth(inner)])

    def test_a_pushed_product_with_0(self) -> None:
        frame = bytes.fromhex("450000000000000040007aff") + bytes(8) + eth(b"")
        self.assertEqual(sent("push ipv4 { len = eth.type * 0 ttl = 64 }\nsend port", eth(b""))[0], [frame])

    def test_constants_beside_a_field_that_is_pushed(self) -> None:
        frame = eth(b"x" * 46)
        self.assertEqual(sent("header h { a:20 b:4 = 5 }\npush h { a = eth.type }\nsend port", frame)[0], [b"\0\x80\x05" + frame])
        self.assertEqual(sent("header h { a:4 = 9 b:40 c:4 = 5 }\npush h { b = eth.dst }\nsend port", frame)[0], [bytes.fromhex("9000000000b5") + frame])

    def test_fields_that_no_load_has_alone(self) -> None:
        frames = [b"\0\0\0\0\0\5", b"\1\2\3\4\5\6", b"\1\2\3\4\5\6\7", b"\1\2\3\4\5\6\7\7\7"]
        wanted = [it[:5] + bytes([it[5] + 1]) + it[6:] for it in frames]
        self.assertEqual(sent("header h { a:48 }\nneed h.a in {5, 0x010203040506}\nh.a += 1\nsend port", *frames)[0], wanted)
        self.assertEqual(sent("header h { a:4 b:40 c:4 }\nh.b = 0x1234567890\nsend port", b"\xf0\0\0\0\0\5")[0], [bytes.fromhex("f12345678905")])
        self.assertEqual(sent("header h { a:3 b:20 c:1 }\nneed h.b == 0 h.b -= 1\nsend port", b"\xe0\0\1", b"\xe0\1\1")[0], [b"\xff\xff\xff"])

    def test_headers_longer_than_any_packet(self) -> None:
        source = "header o { k:8 } after eth if eth.type == 5 length v * {} for v:8 in 9..12\nheader p { x:32 } after o if o.k < 20\n"
        for factor in (1, 400, 6000, 70_000, 1 << 50):
            frame = eth(b"\x0a" * 14, 5)
            self.assertEqual(sent(source.replace("{}", str(factor)) + "need not p\nsend port", frame)[0], [frame] * (factor != 1), factor)

    def test_a_length_that_varies_is_popped_whole(self) -> None:
        frame = eth(ipv4(17, b"payload", bytes(12)))
        self.assertEqual(sent("pop ipv4\nsend port", frame, frame[:45])[0], [frame[:14] + b"payload"])

    def test_packets(self) -> None:
        frame = udp(5, 53, bytes(100))
        self.assertEqual(sent("ports 2\nclone c from 1\ntruncate c 64\nsend c to 1\nsend 0", frame, b"x")[:2], [[frame, b"x"], [frame[:64], b"x"]])
        self.assertEqual(sent("new h from 0\npush eth { type = 5 } on h\nchain h before this\nsend port", b"abc")[0], [bytes(12) + b"\0\5abc"])
        self.assertEqual(sent("clone c from 1\nfree c\neth.type = 5\nsend port", eth(b"x"))[0], [eth(b"x", 5)])
        self.assertEqual(sent("cut 3\nsend port", b"abcd", b"ab")[0], [b"d"])

    def test_lookup(self) -> None:
        source = "ports 3\nlet hop = lookup 0 ipv4.dst else send 2\nsend hop"
        frames = [udp(1, 2, dst="10.1.1.1"), udp(1, 2, dst="192.0.2.1"), udp(1, 2, dst="8.8.8.8")]
        self.assertEqual(sent(source, *frames), [[frames[1]], [frames[0]], [frames[2]]])

    def test_numbers(self) -> None:
        def value(expression: str) -> int:
            text = "let a = eth.dst & 0xffff\nlet b = eth.src\nheader wide { value:64 } after eth if eth.type == 0x0800\n"
            (frame,) = sent(f"{text}wide.value = {expression}\nsend port", eth(bytes(8)))[0]
            return int.from_bytes(frame[14:22], "big")

        a, b = 0x000B, 0x02000000000A
        for text, wanted in {
            "a * 7 + b": a * 7 + b, "a - b": (a - b) % (1 << 64), "~a >> 3": ((1 << 64) - 1 - a) >> 3, "(b ^ a) << 20": (b ^ a) << 20 & (1 << 64) - 1,
            "a * 0 + 5": 5, "1000 * a": 1000 * a, "b & 0xff00 | a": b & 0xFF00 | a, "10 - a": (10 - a) % (1 << 64),
        }.items():
            with self.subTest(text):
                self.assertEqual(value(text), wanted)

    def test_comparisons_of_64_bits(self) -> None:
        source = "let a = 0 - eth.dst\nlet b = 0 - eth.src\nif a {sign} b {{ eth.type = 1 }} else {{ eth.type = 0 }}\nsend port"
        values = [(1, 1), (1, 2), (2, 1), (0, 1), (1, 0), (0, 0)]
        for sign, holds in {"<": operator.lt, "<=": operator.le, ">": operator.gt, ">=": operator.ge, "!=": operator.ne}.items():
            frames = [a.to_bytes(6, "big") + b.to_bytes(6, "big") + b"\0\0" for a, b in values]
            wanted = [int(holds(-a % (1 << 64), -b % (1 << 64))) for a, b in values]
            self.assertEqual([it[13] for it in sent(source.format(sign=sign), *frames)[0]], wanted, sign)

    def test_loops_end_after_256_rounds(self) -> None:
        source = "let k = 0\nwhile k < {n} {{ k += 1 }}\nsend port"
        self.assertEqual(sent(source.format(n=256), b"a")[0], [b"a"])
        self.assertEqual(sent(source.format(n=257), b"a")[0], [])
        self.assertEqual(sent("while port == 0 { }\nif eth { send port }\nsend port", b"a")[0], [])

    def test_given(self) -> None:
        env = ENV._replace(rings=[Ring(32, (2, 128, 0, 34, 0, 1))])
        program = programs.assemble(compile_text("given eth/ipv4\nneed ipv4.ttl > 1\nmend ipv4.ttl -= 1\nsend 0").encode())
        self.assertIsNotNone(rules.infer(env, program, rules.entry_row(env, 3)))
        self.assertIsNone(rules.infer(ENV, program, rules.entry_row(ENV, 3)))

    def test_what_was_refused_once(self) -> None:
        """Programs that the checker refused, or that sent other bytes, when they were tried at random."""
        for source in [
            "need tcp.dport != 443 else { clone c1 from 1 send 0 }\nif qinq/ipv4/tcp { }\nsend port",
            "push vlan { vid = udp.sum }\nsend port",
            "push vlan { dei = ipv4.frag & l4.dport }\nsend port",
            "let h = 0\nif ipv4 { h = ipv4.src  if l4 { h ^= l4.sport } }\nsend port",
        ]:
            with self.subTest(source):
                self.assertIsNone(refused(source))


class ByHand(unittest.TestCase):
    """Whole programs whose output was worked out by hand: both the compiled program and the interpreter of tests/pkt_model send it."""

    def both(self, source: str, frames: list[bytes], *wanted: list[bytes]) -> None:
        """Tries a program on frames at port 0; what the ports send, the first ones first."""
        sources = [Source(read(it, PRELUDE)) for it in (source, "drop", "drop", "drop")]
        done = run(SourceWorld(ENV, sources), [Input([(0, 0, frame) for frame in frames], "whole"), Input([], "whole"), Input([], "whole")])
        by_model = [[record[2] for record in port] for port in done.sent]
        everything = [*wanted, *[[]] * (3 - len(wanted))]
        self.assertEqual((sent(source, *frames), by_model), (everything, everything), source)

    def test_a_header_is_not_looked_for_early_where_another_search_can_tell(self) -> None:
        frame, inner = udp(5, 53), tagged(udp(5, 53), 9)
        service = tagged(frame, 9, 0x88A8)
        rows = "if port == 1 and vlan.vid == 5 { drop }\nif port == 1 and vlan.vid == 6 { drop }\n"
        self.both(rows + "if ipv4.ttl == 64 { drop }\nsend port", [frame, inner], [inner])
        self.both(rows.replace("vlan", "qinq") + "push vlan { vid = 7 }\nsend port", [service], [tagged(service)])
        self.both(rows.replace("vlan", "qinq") + "if vlan.vid == 9 { drop }\nsend port", [inner, tagged(inner, 9, 0x88A8)], [tagged(inner, 9, 0x88A8)])
        self.both("if eth { pop eth/vlan }\nif qinq.vid == 7 { }\nif qinq.pcp == 2 { }\nsend port", [tagged(inner, 9, 0x88A8)])
        self.both("if port == 0 { mend ipv4.ttl -= 1 }\nif vlan.vid == 5 { drop }\nif vlan.vid == 6 { drop }\nsend port", [inner])
        both_present = """header a { x:16 } after eth if eth.type >= 0x800
header b { y:8 } after eth if eth.type > 0x100
header c { z:8 } after a if a.x > 9 after b if b.y > 5
"""
        self.both(both_present + rows.replace("vlan.vid", "b.y") + "need c.z == 3\nsend port", [eth(b"\1\2\3"), eth(b"\7\3\4")], [eth(b"\1\2\3")])

    def test_tcp_behind_hop_by_hop_options(self) -> None:
        begin = """header options6 { next:8 len:8 rest:48 } after ipv6 if ipv6.next == 0 length ((v & 255) + 1) * 8 for v:16 in 0x0600..0x0604
extend tcp after options6 if options6.next == 6
if options6 {}
"""
        def frame(k: int, dport: int, end: int = 1) -> bytes:
            return six(6, segment6(dport, end), end) if k < 0 else six(0, bytes([6, k]) + bytes(6 + 8 * k) + segment6(dport, end if k < 5 else 1), end)

        frames = [frame(k, dport) for k in range(-1, 6) for dport in (22, 23)]
        self.both(begin + "if tcp.dport == 22 { drop }\nsend port", frames, [frame(k, dport) for k in range(-1, 6) for dport in (22, 23) if dport > 22 or k > 4])
        self.both(begin + "if tcp.dport == 22 { mend tcp.dport = 7 }\nsend port", frames,
                  [frame(k, 7 if dport == 22 and k < 5 else dport) for k in range(-1, 6) for dport in (22, 23)])
        self.both(begin + "need ipv6\nmend ipv6.src_lo = 0xff\nsend port", frames, [frame(k, dport, 255) for k in range(-1, 6) for dport in (22, 23)])

    def test_mend_where_tcp_comes_after_ipv6(self) -> None:
        """Both headers are found, as the type changes between, and TCP follows the one that begins last. It is looked for before the checksum of
        IPv4 is updated, which has the bits of `ipv6.next` here."""
        source = "if ipv4 {}\neth.type = 0x8100\nif vlan {}\nif ipv6 {}\nmend ipv4.src = 1.2.3.4\nsend port"
        head = struct.pack(">BBHHHBBH", 0x45, 0, 0x86DD, 0, 0, 64, 17, 0x0605) + bytes([10, 0, 0, 1, 10, 0, 0, 2])
        frame = eth(head + bytes(range(100)))
        more = 0x0102 + 0x0304 + 0xFFFF - 0x0A00 + 0xFFFF - 0x0001
        wanted = bytearray(frame)
        wanted[12:14], wanted[26:30] = b"\x81\0", bytes([1, 2, 3, 4])
        for at in (24, 74):
            total = 0xFFFF - int.from_bytes(frame[at : at + 2], "big") + more
            while total >> 16:
                total = (total & 0xFFFF) + (total >> 16)
            wanted[at : at + 2] = struct.pack(">H", 0xFFFF - total)
        self.both(source, [frame], [bytes(wanted)])

    def test_what_the_next_header_asks_of_a_pushed_one(self) -> None:
        """A constant may stand before the field; the field may be a second name of others, or one with a checksum."""
        frame = eth(b"")
        for declared, pushed, wanted in (
            ("header g { a:8 b:8 } header h { x:8 } after g if 5 == g.b", "push g { a = 1 } h { x = 3 }", b"\1\5\3"),
            ("header g { a:8=0x21 b:8 c@4:8 } header h { x:8 } after g if g.c == 0x56", "push g { } h { x = 3 }", b"\x25\x60\3"),
            ("header g { a:16=auto b:16 } header h { x:8 } after g if g.a == 5", "push g { b = 1 } h { x = 3 }", b"\0\5\0\1\3"),
        ):
            with self.subTest(declared):
                self.both(f"{declared}\n{pushed}\nsend port", [frame], [wanted + frame])

    def test_two_tags_and_their_priorities(self) -> None:
        inner = eth(ipv4(17, bytes(8)))
        frame = tagged(tagged(inner, 0x501E), 0xA0C8, 0x88A8)
        self.both("need qinq/vlan\nlet p = qinq.pcp\nqinq.pcp = vlan.pcp\nvlan.pcp = p\nvlan.dei ^= 1\nsend port", [frame],
                  [tagged(tagged(inner, 0xA01E), 0x40C8, 0x88A8)])
        self.both("need qinq/vlan\nlet p = qinq.pcp\npop qinq\nvlan.pcp = p\nsend port", [frame], [tagged(inner, 0xB01E)])
        self.both("push qinq { pcp = 7 vid = 0xabc }\nneed qinq/vlan\nvlan.vid += 4095\nsend port", [tagged(inner, 0x5000)],
                  [tagged(tagged(inner, 0x5FFF), 0xEABC, 0x88A8)])
        self.both("need qinq/vlan\npop qinq/vlan\nsend port", [frame], [inner])
        self.both("if vlan.vid in 0x100/4 { send port }", [tagged(inner, it) for it in (0xFF, 0x100, 0x1FF, 0x200)], [tagged(inner, it) for it in (0x100, 0x1FF)])

    def test_tags_with_a_length_or_a_sum(self) -> None:
        long = "header tag { v:8 a:8 type:16 } after eth if eth.type == 0x88b5 length 4 + (v & 3) * 4 for v:8 in 0x40..0x43 next type\n"
        frames = [eth(bytes([0x40 + k, 1, 8, 6]) + bytes(4 * k) + b"rest", 0x88B5) for k in range(5)]
        self.both(long + "otherwise send port\npop tag\nsend port", frames, [*[eth(b"rest", 0x0806)] * 4, frames[4]])
        summed = "header tag { a:16 sum:16 = auto type:16 } after eth if eth.type == 0x88b5 next type\n"
        for source, a in (("push tag { a = 5 }", 5), ("push tag { a = eth.dst sum = auto }", 0xB)):
            with self.subTest(source):
                tag = struct.pack(">HHH", a, checksum(struct.pack(">HH", a, 0x0806)), 0x0806)
                self.both(f"{summed}{source}\nsend port", [eth(b"rest", 0x0806)], [eth(tag + b"rest", 0x88B5)])
        self.both("header tag { type:16 = auto } after eth if eth.type == 0x88b5 next type\npush tag { }\nsend port", [eth(b"rest", 0x0806)],
                  [eth(b"\x08\6rest", 0x88B5)])
        self.both("header tag { a:16 type:16 } next type\npush tag { a = 5 type = 6 }\nsend port", [eth(b"rest")], [b"\0\5\0\6" + eth(b"rest")])

    def test_values_that_push_writes_by_default(self) -> None:
        for declared, pushed, wanted in (
            ("header h { a:8 b:128 = 2001:db8::1 c:8 = 7 }", "push h { a = 1 }", "01 20010db8 00000000 00000000 00000001 07"),
            ("header h { a:128 = need b:8 = 7 }", "push h { a = ::5 }", "00000000 00000000 00000000 00000005 07"),
            ("header h { a:8 b:8 c@8:8 = 5 d:8 = 1 }", "push h { a = 1 }", "01 05 01"),
            ("header h { a:8 b:8 c@8:8 = 5 }", "push h { b = eth.dst }", "00 0b"),
            ("header h { a:16 b:16 c@16:16 = auto }", "push h { a = 5 }", "0005 fffa"),
            ("header h { a:16 b:16 c@16:16 = auto }", "push h { a = eth.dst b = 3 }", "000b 0003"),
        ):
            with self.subTest(declared):
                frame = eth(b"rest")
                self.both(f"{declared}\n{pushed}\nsend port", [frame], [bytes.fromhex(wanted) + frame])

    def test_paths_whose_last_header_comes_first(self) -> None:
        declared = """header c { z:32 } after eth if eth.type == 0x88b5
header a { x:16 } after c if c.z != 0
header b { y:16 } after eth if eth.type == 0x88b5 after a if a.x != 0
otherwise send port
"""
        frame = eth(bytes(range(1, 9)) + b"rest", 0x88B5)
        self.both(declared + "if b { if a { pop a/b } }\nsend port", [frame], [frame])
        self.both(declared + "if a { pop a/b }\nsend port", [frame], [frame[:18] + b"rest"])
        before = "header one { x:8 }\nheader two { y:8 type:16 } after one if 1\nheader tag { z:16 type:16 } after two if two.type == 5 next type\n"
        self.both(before + "otherwise send port\nif length > 8 { pop two/tag }\nsend port", [b"\1\2\0\5\1\2\3\4end"], [b"\1\2\0\5\1\2\3\4end"])
        self.both(before + "otherwise send port\npop tag\nsend port", [b"\1\2\0\5\1\2\3\4end"], [b"\1\2\3\4end"])

    def test_gre_with_keys_and_sums(self) -> None:
        inner = eth(ipv4(17, bytes(8)))
        def frame(flags: int, more: str) -> bytes:
            return eth(ipv4(47, struct.pack(">HH", flags, 0x6558) + bytes.fromhex(more) + inner))

        keys = [frame(0x2000, "00000005"), frame(0x2000, "00000006"), frame(0x2000, "ffffffff"), frame(0xA000, "0001000000000005"), frame(0, "")]
        source = """header key { value:32 } after gre if gre.flags & 0xb000 == 0x2000
header both { sum:16 zero:16 value:32 } after gre if gre.flags & 0xb000 == 0xa000
ports 3
if key.value == 5 or both.value == 5 { send 1 }
if key.value >= 0xffffffff { pop eth/ipv4/gre/key send 2 }
if not key and not both and gre { pop eth/ipv4/gre send 0 }"""
        self.both(source, keys, [inner], [keys[0], keys[3]], [inner])

    def test_sums_over_odd_lengths(self) -> None:
        def odd(a: int, c: int) -> bytes:
            data = bytes([a, 2, 3, c, 0, 0, 5])
            return eth(data[:4] + struct.pack(">H", checksum(data)) + data[6:], 0x88B5)

        begin = "header odd { a:8 b:16 c:8 sum:16 d:8 } after eth if eth.type == 0x88b5 sum sum\n"
        push = "push odd { a = 1 b = 0x203 c = 4 sum = auto d = 5 }\npush eth { dst = 02:00:00:00:00:0b src = 02:00:00:00:00:0a type = 0x88b5 }\nsend port"
        self.both(begin + "cut 14\n" + push, [eth(b"xyz")], [odd(1, 4) + b"xyz"])
        self.both(begin + "need odd\nmend odd.a = 255\nmend odd.c = 0\nsend port", [odd(1, 4)], [odd(255, 0)])
        def echo(kind: int, number: int) -> bytes:
            data = struct.pack(">BBHHH", kind, 0, 0, 7, number) + b"odd"
            return eth(ipv4(1, data[:2] + struct.pack(">H", checksum(data)) + data[4:]))

        self.both("need icmp\nmend icmp.type = 0\nmend icmp.seq += 1\nsend port", [echo(8, 9)], [echo(0, 10)])
        for field, at, value in (("flags", 6, 0xA000), ("frag", 6, 0x1ABC), ("ecn", 0, 0x4503), ("dscp", 0, 0x45B8)):
            head = bytearray(ipv4(17, bytes(8)))
            head[at : at + 2], head[10:12] = value.to_bytes(2, "big"), bytes(2)
            head[10:12] = checksum(bytes(head[:20])).to_bytes(2, "big")
            number = {"flags": 5, "frag": 0x1ABC, "ecn": 3, "dscp": 0x2E}[field]
            self.both(f"need ipv4.vhl == 0x45\nmend ipv4.{field} = {number}\nsend port", [eth(ipv4(17, bytes(8)))], [eth(bytes(head))])

    def test_nested_conditions_and_sets(self) -> None:
        source = """set NETS = {10.0.0.0/8, 192.168.1.0..192.168.1.9, 172.16.0.5}
set DOORS = {1..3, 80}
if (ipv4.src in NETS and (udp.dport in DOORS or tcp.dport in DOORS) or not ipv4 and not arp) and not (udp.sport == 9 or tcp.sport == 9) { drop }
send port"""
        for near, ends in ((True, ("10.9.9.9", "192.168.1.9", "172.16.0.5")), (False, ("192.168.1.10", "172.16.0.4", "11.0.0.0"))):
            frames = [udp(sport, dport, src=end) for end in ends for dport in (0, 1, 3, 4, 80) for sport in (9, 10)]
            kept = [it for k, it in enumerate(frames) if not (near and k % 2 and k // 2 % 5 in (1, 2, 4))]
            self.both(source, frames, kept)
        self.both(source, [eth(bytes(28), 0x0806), eth(bytes(28), 0x1234)], [eth(bytes(28), 0x0806)])

    def test_a_def_in_a_def_and_numbers(self) -> None:
        source = """def inc(n) { ipv4.ttl += n }
def twice(n) { inc(n) let m = n + 1 inc(m) }
def wrap(x) { let n = x twice(n) inc(x) }
let n = 100
need ipv4
wrap(2)
ipv4.tos = n
ipv4.id = ipv4.ttl | 3 ^ ipv4.tos & 12 << 1 + 2 * 2
ipv4.proto -= 18
send port"""
        head = bytearray(ipv4(17, bytes(8)))
        head[8], head[1], head[9] = 64 + 2 + 3 + 2, 100, 255
        head[4:6] = ((64 + 7) | (3 ^ (100 & (12 << (1 + 2 * 2))))).to_bytes(2, "big")
        self.both(source, [eth(ipv4(17, bytes(8)))], [eth(bytes(head))])
        frame = eth(ipv4(17, bytes(8)))
        for vid in range(6):
            frame = tagged(frame, vid)
        left = tagged(tagged(eth(ipv4(17, bytes(8))), 0), 0x8001)
        self.both("let n = 0\nneed eth\nwhile vlan and n < 4 { pop vlan n += 1 }\nif vlan { vlan.pcp = n }\nsend port", [frame], [left])

    def test_names_clones_and_chains(self) -> None:
        frames = [udp(5, 53, dst=it) for it in ("10.0.0.1", "192.0.2.1", "9.9.9.9")]
        source = """ports 3
table ROUTES = 0
pool CLONES = 1
port UP = 2
clone copy from CLONES else drop
truncate copy 20
send copy to UP
let hop = lookup ROUTES ipv4.dst else { send UP }
send hop"""
        self.both(source, frames, [frames[1]], [frames[0]], [frames[0][:20], frames[1][:20], frames[2][:20], frames[2]])
        mark = "header mark { id:16 door:16 }\nnew h from 0\npush mark { id = 0xbeef door = port } on h\nchain h before this\nsend port"
        self.both(mark, [b"abc"], [b"\xbe\xef\0\0abc"])

    def test_a_stack_that_is_pushed(self) -> None:
        head = struct.pack(">BBHHHBBH", 0x45, 0, 48, 0, 0, 9, 4, 0) + bytes([1, 2, 3, 4, 5, 6, 7, 8])
        tags = bytes.fromhex("02000000000b 02000000000a 88a8 0009 8100 6008 0800")
        source = """cut 14
push eth { dst = 02:00:00:00:00:0b src = 02:00:00:00:00:0a } qinq { vid = 9 } vlan { pcp = 3 vid = 8 }
     ipv4 { len = 48 ttl = 9 proto = 4 src = 1.2.3.4 dst = 5.6.7.8 }
send port"""
        self.both(source, [eth(ipv4(17, bytes(8)))], [tags + head[:10] + struct.pack(">H", checksum(head)) + head[12:] + ipv4(17, bytes(8))])

    def test_all_comparisons_of_64_bits(self) -> None:
        ends = (0, 1, (1 << 63) - 1, 1 << 63, (1 << 63) + 1, (1 << 64) - 1)
        pairs = [(a, b) for a in ends for b in ends][:30]
        frames = [eth(struct.pack(">IHBBQQQQ", 6 << 28, 0, 59, 64, a, 0, b, 0), 0x86DD) for a, b in pairs]
        signs = {"<": operator.lt, "<=": operator.le, ">": operator.gt, ">=": operator.ge, "==": operator.eq, "!=": operator.ne}
        for sign, holds in signs.items():
            self.both(f"if ipv6.src_hi {sign} ipv6.dst_hi {{ send port }}", frames, [it for it, pair in zip(frames, pairs) if holds(*pair)])
            self.both(f"if ipv6.src_hi {sign} 1 << 63 {{ send port }}", frames, [it for it, pair in zip(frames, pairs) if holds(pair[0], 1 << 63)])

    def test_checksums_at_the_ends_of_their_range(self) -> None:
        """The complement of 0xffff is 0, and that of 0 is 0xffff; a carry may come twice, as in 0x8000 + 0x8000 + 0xffff."""
        begin = "header h { a:16 b:16 c:16 sum:16=auto }\n"
        for fields, kind, wanted in (
            ("a = 0xffff", 0, "ffff 0000 0000 0000"), ("a = 0", 0, "0000 0000 0000 ffff"), ("a = 0xffff b = 0xffff", 0, "ffff ffff 0000 0000"),
            ("a = 0x8000 b = 0x8000 c = 1", 0, "8000 8000 0001 fffd"), ("a = 0x8000 b = 0x8000 c = eth.type", 0xFFFF, "8000 8000 ffff fffe"),
            ("c = eth.type", 0, "0000 0000 0000 ffff"), ("c = eth.type", 0xFFFF, "0000 0000 ffff 0000"), ("a = 1 c = eth.type", 0xFFFF, "0001 0000 ffff fffe"),
            ("c = eth.type", 0x1234, "0000 0000 1234 edcb"),
        ):
            self.both(f"{begin}push h {{ {fields} }}\nsend port", [eth(b"", kind)], [bytes.fromhex(wanted) + eth(b"", kind)])
            one = "header one { x:8 }\npush one { x = 7 }"
            self.both(f"{begin}{one} h {{ {fields} }}\nsend port", [eth(b"", kind)], [b"\7" + bytes.fromhex(wanted) + eth(b"", kind)])

    def test_a_field_that_a_checksum_counts_twice(self) -> None:
        """The checksum of g is of the header, of what follows it, and of h.f once more: ~(1 + 5 + 5), and ~(1 + 3 + 3) after it."""
        source = """header h { f:16 } after eth if eth.type == 0x9999
header g { kind:16 sum:16 } after eth if eth.type == 0x88b5 sum sum payload over h.f
extend h after g if g.kind == 1
if g {}
mend h.f = 3
send port"""
        self.both(source, [eth(bytes.fromhex("0001 fff4 0005"), 0x88B5)], [eth(bytes.fromhex("0001 fff8 0003"), 0x88B5)])
        # Where h has a sum too, that of g counts it: ~(1 + 5 + 0xfffa + 5), and ~(1 + 3 + 0xfffc + 3) after it.
        source = source.replace("{ f:16 }", "{ f:16 sum:16 }").replace("0x9999", "0x9999 sum sum payload")
        self.both(source, [eth(bytes.fromhex("0001 fff9 0005 fffa"), 0x88B5)], [eth(bytes.fromhex("0001 fffb 0003 fffc"), 0x88B5)])

    def test_tests_beside_one_another(self) -> None:
        """What an earlier test leaves open by one value is asked again."""
        frames = {k: eth(ipv4(17, bytes(8), ttl=k)) for k in (0, 1, 4, 5, 6, 255)}
        for rules, kept in {
            "need ipv4.ttl >= 5\nif ipv4.ttl < 6 { drop }\nsend port": (6, 255), "if ipv4.ttl == 5 { drop }\nif ipv4.ttl == 0 { drop }\nsend port": (1, 4, 6, 255),
            "if ipv4.ttl < 5 { if ipv4.ttl == 4 { send port } drop }\nif ipv4.ttl < 6 { send port }": (4, 5),
            "if ipv4.ttl == 0 { drop }\nif ipv4.ttl < 2 { send port }": (1,), "if ipv4.ttl > 5 and ipv4.ttl < 255 { send port }": (6,),
            "if ipv4.ttl <= 5 { if ipv4.ttl >= 5 { send port } }": (5,), "if ipv4.ttl != 4 { if ipv4.ttl == 5 or ipv4.ttl == 4 { send port } }": (5,),
        }.items():
            self.both(rules, list(frames.values()), [frames[k] for k in kept])
        lengths = [bytes(k) for k in (59, 60, 61, 62)]
        for rules, least, most in (("need length >= 60\nif length < 61 { send port }", 60, 60), ("if length > 60 { drop }\nif length >= 60 { send port }", 60, 60),
                                   ("need length > 59\nif length > 60 { drop }\nsend port", 60, 60), ("if length < 62 { if length > 60 { send port } }", 61, 61)):
            self.both(rules, lengths, [it for it in lengths if least <= len(it) <= most])

    def test_what_is_known_of_bytes_moves_with_them(self) -> None:
        bytes_of = "header two { x:8 y:8 }\nheader four { p:8 q:8 r:8 s:8 }\nheader one { a:8 }\n"
        self.both(bytes_of + "need two.x == 5\ncut 1\nif two.y == 5 { drop }\nsend port", [b"\5\1\2", b"\5\1\5", b"\6\1\2"], [b"\1\2"])
        self.both(bytes_of + "need two.y == 5\ncut 1\nif two.y == 5 { drop }\nsend port", [b"\5\5\2", b"\5\5\5"], [b"\5\2"])
        self.both(bytes_of + "need four.s == 5\npush one { a = 1 }\nif four.r == 5 { drop }\nsend port", [b"\1\2\3\5", b"\1\5\3\5"], [b"\1\1\2\3\5"])
        self.both(bytes_of + "need four.q == 5\npush one { a = 1 }\nneed four.r == 5\nif four.q == 5 { drop }\nsend port", [b"\1\5\0\0", b"\5\5\0\0"], [b"\1\1\5\0\0"])
        # What is written to another packet says nothing of this one.
        frame = eth(b"abc")
        for rule in ("if eth.type == 5 { drop }\nsend port", "if eth.type == 0x0800 { send port }", "if eth.dst == 0 { drop }\nsend port"):
            self.both(f"new h from 0\npush eth {{ type = 5 }} on h\n{rule}", [frame], [frame])
        self.both("need eth.type == 0x0800\nnew h from 0\npush eth { type = 5 } on h\nneed eth.type == 0x0800\nsend port", [frame], [frame])
        full = eth(ipv4(17, bytes(8)))
        self.both("need eth.type == 0x0800\nnew h from 0\npush eth { type = 5 } on h\nif ipv4.src in 8.0.0.0/16 { drop }\nsend port", [full], [full])

    def test_what_is_known_of_bytes_ends_where_others_come(self) -> None:
        frame = eth(ipv4(17, bytes(8)))
        self.both("need eth.type == 0x0800\nnew h from 0\npush eth { type = 5 } on h\nchain h before this\nif eth.type == 5 { send port }",
                  [frame], [bytes(12) + b"\0\5" + frame])
        self.both("let kind = eth.type\nneed kind == 0x0800\nnew h from 0\npush eth { type = 5 } on h\nchain h before this\neth.dst = eth.type\nsend port",
                  [frame], [bytes(5) + b"\5" + bytes(6) + b"\0\5" + frame])
        self.both("header ov { a:64 b:16 c:32 }\nneed vlan\npop vlan\nif ov.b == 0x8100 { drop }\nif ov.c == 0x0a0800 { send port }", [tagged(frame)], [frame])
        self.both("header ov { a:32 b:16 }\nneed eth.dst == 02:00:00:00:00:0b\npop eth\nif ov.b == 11 { drop }\nsend port", [frame], [frame[14:]])
        self.both("need eth.type == 0x0800\npush vlan { vid = 7 }\nneed eth.type == 0x8100 and vlan.type == 0x0800\nsend port", [frame], [tagged(frame)])

    def test_a_clone_has_the_bytes_of_the_packet_alone(self) -> None:
        """After IPv4 options too, where a header was found."""
        frames = [tcp(2, 22, bytes(4 * k)) for k in (0, 1, 3, 10)]
        for rule in ("clone c from 1\nsend c to 1", "clone c from 1\ntruncate c 60\nsend c to 1", "clone c from 1\ncut c 14\nsend c to 1"):
            copies = [it[:60] if "60" in rule else it[14:] if "14" in rule else it for it in frames]
            self.both(f"ports 2\nneed tcp.dport == 22\n{rule}\nif tcp.sport == 4000 {{ send port }}", [*frames, *(it[:-1] for it in frames)], frames, copies)

    def test_a_clone_that_is_cut_has_the_rest_alone(self) -> None:
        self.both("ports 2\nclone c from 1\ncut c 2\nsend c to 1\nsend port", [b"abcd"], [b"abcd"], [b"cd"])

    def test_a_prefix_of_half_an_ipv6_address(self) -> None:
        inside, outside = six(17, bytes(8), 7), bytearray(six(17, bytes(8), 7))
        outside[14 + 8 + 7] = 1
        self.both("need ipv6.src in 2001:db8::/64\nsend port", [inside, bytes(outside)], [inside])

    def test_the_greatest_values_of_numbers(self) -> None:
        frames = {k: eth(ipv4(17, bytes(8), ttl=k)) for k in (2, 4, 7, 64)}
        for number, kept in {"(ipv4.ttl & 4 | 3) == 7": (4, 7), "(ipv4.ttl & 4 ^ 3) == 7": (4, 7), "(ipv4.ttl & 4) + 3 == 7": (4, 7), "(ipv4.ttl & 4) << 1 == 8": (4, 7),
                             "(ipv4.ttl & 3) * 3 == 9": (7,), "(ipv4.ttl | 3) >> 1 == 3": (4, 7), "(ipv4.ttl ^ 5) < 3": (4, 7), "port | 8 == 8": (2, 4, 7, 64),
                             "(ipv4.ttl & ipv4.len) == 4": (4, 7), "ipv4.ttl + ipv4.id == 5": (4,), "(ipv4.ttl | ipv4.id) == 5": (4,), "(ipv4.ttl ^ ipv4.id) == 6": (7,),
                             "ipv4.ttl - ipv4.id == 3": (4,), "ipv4.version == 4 and ipv4.ihl == 5": (2, 4, 7, 64)}.items():
            self.both(f"if {number} {{ send port }}", list(frames.values()), [frames[k] for k in kept])
        self.both("let p = ipv4.ttl + 1\nif p == 5 { if p >= 5 { send port } }", list(frames.values()), [frames[4]])
        self.both("let p = ipv4.ttl + 1\nif p < 6 { if p >= 5 { send port } }", list(frames.values()), [frames[4]])
        for first, rest in ((1, 7), (3, 13), (7, 1), (1, 31), (9, 55)):
            known = [((1 << first) - 1 << rest | value).to_bytes((first + rest) // 8, "big") for value in (0, 1)]
            self.both(f"header h {{ a:{first} b:{rest} }}\nneed h.b == 1\nsend port", known, known[1:])
        self.assertGreater(count("let hop = lookup 0 ipv4.dst\nif hop == 0xffffff { drop }\nsend port"), 0)
        # Port 2 is the first one that is not there.
        self.both("ports 2\nsend ipv4.ttl & 2 else { send 1 }", [frames[4], frames[2]], [frames[4]], [frames[2]])
        self.both("ports 2\nlet to = ipv4.ttl & 2\nsend to else { send 1 }", [frames[64], frames[7]], [frames[64]], [frames[7]])

    def test_a_pushed_number_takes_the_place_of_a_default(self) -> None:
        frame = eth(b"")
        self.both("push vxlan { flags = 0 vni = 5 }\nsend port", [frame], [bytes.fromhex("0000000000000500") + frame])
        self.both("push tcp { off = 6 flags = 2 }\nsend port", [frame], [bytes(12) + b"\x60\2" + bytes(6) + frame])
        self.both("push ipv6 { version = 9 len = 1 next = 59 hops = 2 }\nsend port", [frame], [b"\x90\0\0\0\0\1\x3b\2" + bytes(32) + frame])

    def test_a_header_after_options_that_is_cut_short_is_absent(self) -> None:
        for options in (b"", bytes(4), bytes(8), bytes(40)):
            whole, short = tcp(2, 22, options), tcp(2, 22, options)[:-1]
            self.both("if l4.dport == 22 { if tcp.flags == 2 { drop } }\nsend port", [whole, short], [short])
            # The checksum of TCP stays where TCP is absent; that of IPv4 does not.
            there = eth(ipv4(6, whole[-20:], options, src="198.51.100.1"))
            self.both("mend ipv4.src = 198.51.100.1\nsend port", [short, whole[:-12]], [there[:-1], there[:-12]])

    def test_an_assignment_after_what_a_checksum_is_over(self) -> None:
        begin, frame = "header h { a:16 sum:16 } after eth if eth.type == 5 sum sum over eth.type eth.dst\n", eth(b"", 9)
        self.both(begin + "eth.src = 1\nsend port", [frame], [frame[:6] + bytes(5) + b"\1" + frame[12:]])
        self.both(begin + "eth.type += 1\nsend port", [frame], [frame[:12] + b"\0\x0a"])

    def test_of_two_headers_at_one_byte_the_first_clause_decides(self) -> None:
        source = """header a { x:16 } after eth if eth.type >= 0x800
header b { y:8 } after eth if eth.type > 0x100
header c { z:8 } after b if b.y > 5 after a if a.x > 9
if b {}
if a {}
need c.z == 3
send port"""
        frames = [eth(bytes.fromhex(it)) for it in ("070304", "010303", "070403", "060300")]
        self.both(source, frames, [frames[0], frames[3]])


class Passed(unittest.TestCase):
    """Ways past what is decided on them, and what the proof says of instructions that no packet reaches."""

    def test_a_test_that_an_earlier_one_decides_is_passed_by(self) -> None:
        program = compile_text("if ipv4.ttl < 5 { ipv4.tos = 1 }\nif ipv4.ttl < 3 { ipv4.id = 1 }\nsend port")
        self.assertEqual(len(re.findall(r"jlt r\d,3,", program)), 1)
        self.assertIn("jlt r2,5,", program)
        self.assertLess(program.index("jlt r2,5,"), program.index("store p0,15,1"))

    def test_no_way_leads_past_the_head_of_a_loop(self) -> None:
        frame = tagged(tagged(eth(ipv4(17, bytes(8)))))
        source = "ipv4.tos = 0\nsend port"
        self.assertEqual(sent("if eth.type < 0x8847 {\n  while vlan { pop vlan }\n  " + source + "\n}", frame)[0], [eth(ipv4(17, bytes(8)))])

    def test_a_far_register_is_within_the_lengths(self) -> None:
        source = "header m { a:8 b:8 } after eth if eth.type == 5 length 2 + (v - 64) * 4 for v:8 in 64..68\nheader n { c:8 } after m if m.b == 1\n"
        frames = [eth(bytes([64 + k, 1]) + bytes(4 * k) + bytes([9]), 5) for k in range(6)]
        self.assertEqual(sent(source + "if n.c == 9 { drop }\nsend port", *frames)[0], frames[5:])

    def test_lines_that_no_packet_reaches(self) -> None:
        text = "# Built\n        set r1,1    # 3: x\nL1:\n        set r1,2    # count a: 4: y\n        exit    # what is held is dropped\n"
        self.assertEqual(unreached(text, {0, 1, 2}), [])
        said = unreached(text, {0})
        self.assertEqual(said[0], "no packet reaches 2 of 3 instructions: line 4 has 1, the end has 1")
        self.assertIn("help: ", said[1])


class Reached(unittest.TestCase):
    """What no packet reaches, which is left out, and the note on it."""

    LENGTHS = "header h { a:8 b:8 } after eth if eth.type == 5\n  length {}\nheader p { x:32 } after h if 1\nif p.x == 3 { drop }\nsend port"

    def test_bits_without_a_length(self) -> None:
        """Bits on which a length does not depend take no instructions; a last value that the bits cannot exceed takes no test."""
        same = (("(v >> 4) * 4 - 12 for v:8 in 0x50..0xff", "v * 4 - 12 for v:4 in 5..15"), ("(v & 0xf0) + 4 for v:8 in 0..0x7f", "v * 16 + 4 for v:4 in 0..7"),
                ("(v >> 1) + 2 & 6 for v:8 in 0..5", "v + 2 & 6 for v:7 in 0..2"), ("v * 0 + 8 for v:8 in 0..255", "8 for v:1 in 0..1"))
        for one, other in same:
            with self.subTest(one):
                self.assertEqual(*(programs.assemble(compile_text(self.LENGTHS.replace("{}", it)).encode()) for it in (one, other)))
        self.assertNotIn(",16,", compile_text(self.LENGTHS.replace("{}", same[0][0])))

    @unittest.skipIf(lacks(), "python3-z3 is not installed")
    def test_several_values_of_the_shortest_length_are_proved(self) -> None:
        from pkt.prove.decide import prove
        source = self.LENGTHS.replace("{}", "(v >> 1) * 2 for v:8 in 2..7")
        self.assertEqual(prove(source, compile_text(source), seconds=60).verdict, "proved")

    def test_lengths_of_some_bits(self) -> None:
        """Lengths that grow by different numbers, of bits without the last one or two."""
        for formula, bits, size in (("(v >> 1) + (v >> 3) + 4 for v:8 in 0..15", 15, lambda v: (v >> 1) + (v >> 3) + 4), ("(v >> 2) * 4 + 2 for v:8 in 4..19", 255, lambda v: (v >> 2) * 4 + 2)):
            given = [bytes(12) + b"\0\5" + bytes([v]) + bytes(at - 1) + b"\0\0\0\3" + bytes(20) for v in range(24) for at in range(2, 24)]
            left = [it for it in given if it[14] > bits or not (4 <= it[14] <= 19 or bits == 15) or it[14 + size(it[14]) :][:4] != b"\0\0\0\3"]
            with self.subTest(formula):
                self.assertLess(len(left), len(given))
                self.assertEqual(sent(self.LENGTHS.replace("{}", formula), *given)[0], left)

    def test_what_is_known_of_a_number_holds_after_each_instruction(self) -> None:
        rng, work = random.Random(5), {"and": operator.and_, "or": operator.or_, "xor": operator.xor, "shr": operator.rshift, "shl": operator.lshift,
                                       "add": operator.add, "sub": operator.sub}
        for _ in range(3_000):
            numbers = [rng.getrandbits(rng.choice((4, 8, 16, 64))) for _ in range(3)]
            mask = ~functools.reduce(operator.or_, (numbers[0] ^ it for it in numbers)) & rng.getrandbits(64)
            others = frozenset(it for it in (rng.getrandbits(4), numbers[0] + 1) if it not in numbers)
            value = Value(min(numbers), max(numbers), mask, numbers[0] & mask, others).tidy()
            wider = value.join(Value(low=rng.getrandbits(6)).tidy())
            word, c = rng.choice(list(work)), rng.getrandbits(rng.choice((3, 16)))
            c = c % 64 if word in ("shl", "shr") else c
            for it in numbers:
                self.assertTrue(value.can_be(it) and wider.can_be(it), (value, it))
                self.assertTrue(value.after(word, c).can_be(work[word](it, c) & BIGGEST), (value, word, c, it))

    def test_what_earlier_tests_decide_is_left_out(self) -> None:
        begin = "need ipv4\nif ipv4.ttl == 5 { drop }\nif ipv4.src == 10.0.0.1 { drop }\n"
        for condition in ("ipv4.src == 10.0.0.1", "ipv4.ttl == 5", "ipv4.proto == 6 and ipv4.src == 10.0.0.1"):
            for more in ("", "ipv4.id = 7\n", "let a = ipv4.dst\nif a == 5 { count five }\n"):
                self.assertNotIn("store p0,15,1", compile_text(f"{begin}{more}if {condition} {{ ipv4.tos = 1 }}\nsend port"), condition)
        for change in ("ipv4.ttl -= 1", "push eth { src = 1 dst = 2 type = 0x0800 }\ncut 14\nneed ipv4\nipv4.ttl = ipv4.tos"):
            self.assertIn("store p0,15,1", compile_text(f"{begin}{change}\nif ipv4.ttl == 5 {{ ipv4.tos = 1 }}\nsend port"), change)

    def test_bounds_that_the_checker_needs_stay(self) -> None:
        source = (TOP / "tests/pkt_tasks/ext_filter.pkt").read_text()
        self.assertIsNone(refused(source))
        self.assertRegex(compile_text(source), r"jlt r\d,33,")
        self.assertIsNone(refused("ports 2\nlet p = ipv4.tos & 1\nif p < 2 { send p else send 0 }"))

    def test_an_end_that_no_packet_reaches_comes_once(self) -> None:
        graph = Graph(Instruction("iflen", ("p0", "1"), 1))
        graph.first.next, graph.first.target = Instruction("iflen", ("p0", "1"), 1), Instruction("exit")
        graph.first.next.next, graph.first.next.target = Instruction("exit"), Instruction("store", ("p0", "1", "1", "r0"), 1, next=Instruction("exit"))
        self.assertTrue(leave_out(graph))
        self.assertFalse(leave_out(graph))
        self.assertEqual([it.word for it in reached(graph).states], ["iflen", "exit", "iflen", "exit"])

    def test_the_note(self) -> None:
        source = "if ipv4.ttl < 5 {\n drop\n}\nlet a = ipv4.ttl\nif a < 5 {\n count low\n eth.type = 1\n}\nsend port\n"
        self.assertEqual(compiled(source).note, "no packet reaches line 6 and line 7: 3 instructions are left out")
        self.assertEqual(compiled(source.replace("a < 5", "a < 6")).note, "")
        way = "let way = ipv4.src & 3\nsend way"
        self.assertEqual(compiled(way).note, "line 2 sends to port 0 alone, as no `ports 4` says that there are more")
        self.assertEqual([compiled(it).note for it in (f"ports 4\n{way}", f"{way}\nports 1", "send port", "send 0")], [""] * 4)
        with tempfile.TemporaryDirectory() as folder:
            path = pathlib.Path(folder, "x.pkt")
            path.write_text(source)
            done = subprocess.run([sys.executable, TOP / "tools/pkt", path], capture_output=True, text=True)
        self.assertEqual((done.returncode, done.stdout), (0, compile_text(source, "x.pkt")))
        self.assertEqual(done.stderr, f"{path}: note: no packet reaches line 6 and line 7: 3 instructions are left out\n")


    def test_notes_on_what_is_seldom_meant(self) -> None:
        pppoe = "header pppoe { a:16 session:16 length:16 proto:16 } after eth if eth.type == 0x8864\nextend ipv4 after pppoe if pppoe.proto == 0x21"
        wanted = {
            "ipv4.ttl -= 1": "line 1: ipv4.sum stays as it was; mend ipv4.ttl = .. updates what covers ipv4.ttl",
            "eth.src = 5\nl4.dport = 80": "line 2: the checksum of TCP or UDP stays as it was; mend tcp.dport = .. updates that of TCP",
            "set A = {10.1.2.3/8}\nneed ipv4.src in A and not ipv4.dst in A": "line 1: the bits of 10.1.2.3 after the first 8 do not count",
            "need ipv6.src in 2001:db8::1/32": "line 1: the bits of 2001:db8::1 after the first 32 do not count",
            "need ipv4.frag & 0x3fff == 0": "line 1: ipv4.frag has 13 bits, and 0x3fff has more; ipv4.pieces has the bit for more fragments",
            "need ipv4.ttl - 5 > 0": "line 1: a difference is a great number where it would be below 0",
            "need ipv4.ttl > 3\nneed ipv4.ttl - 5 > 0": "line 2: a difference is a great number where it would be below 0",
            "need ipv4.ihl - 6 > 0": "line 1: a difference is a great number where it would be below 0",
            "let a = ipv4.ttl + 1\nipv4.ttl = a": "line 2: ipv4.sum stays as it was",
            "clone c from 0": "line 1: c is never sent, and is dropped at the end of its block",
            "def f() { new h from 0 push eth { } on h }\nf()": "line 1: h is never sent",
            "def f() { fnord }": "line 1: f is used nowhere, so its block was not read",
            "cut 14\npush eth { } ipv4 { len = ipv4.len ttl = 9 }": "line 2: ipv4 is read after line 1 took the Ethernet header off, and is no longer",
            "pop eth\nif tcp.dport == 80 { drop }": "line 2: tcp is read after line 1 took the Ethernet header off",
            "pop eth/ipv4/gre\nif gre.type == 3 { drop }": "line 2: gre is read after line 1 took gre off",
            "push eth { } ipv4 { len = 20 }": "line 1: ipv4.ttl is not named, and is 0: the next router drops such a packet",
            "push eth { } ipv4 { len = 20 ttl = 9 }": "line 1: ipv4.proto is not named, and is 0, as nothing pushed after it says what it carries",
            "header m { a:8 }\npush eth { } ipv6 { len = 1 hops = 9 } m { a = 5 }": "line 2: ipv6.next is not named, and is 0, as nothing",
            "tcp.sum = 0\nmend ipv4.src = 5": "line 1: `mend` updates tcp.sum, and calculates none from 0",
            "let p = tcp.dport\nports 4\nif ipv4 { send p }": "line 3: tcp.dport is the port of a program on a host",
            "need tcp.seq - tcp.ack > 1000": "line 1: a difference is a great number where it would be below 0, as numbers are unsigned; x > y + 5",
            "need ipv4 or tcp or udp and l4.dport == 53": "line 1: `and` binds closer than `or`: this is tcp or (udp and ..)",
            "if ipv4.src == 5 { drop }\nwhile vlan { pop vlan }": "line 2: vlan is looked for after the rule in line 1, which tagged packets pass by",
            "if ipv4 and ipv4.proto == 6 { mend tcp.dport = 80 }": "line 1: a later fragment has no tcp, and is dropped here; if tcp { .. } in place",
            "if eth.dst & 1 == 1 { drop }": "line 1: 1 is the last bit of eth.dst; eth.dst & 01:00:00:00:00:00",
            "push mpls { ttl = 64 }": "line 1: mpls is put at the front of the packet, with no eth before it; cut 14 and push eth { .. } mpls { .. }",
            "push qinq { vid = 1 } vlan { vid = 2 }": "line 1: qinq is put before the Ethernet header, with the headers pushed with it; a tag that",
            "new h from 0\npush vlan { } on h\nsend h to 0": "line 2: vlan is put at the front of h, with no eth before it; push eth { .. } vlan { .. } on h",
            f"{pppoe}\nneed ipv4": "line 2: pppoe is named nowhere else, so ipv4 is never looked for after it; if pppoe {} looks for it, before ipv4",
            "header h { a:8 } after eth if eth.type == 5 after vlan if vlan.type == 5\nneed h": "line 1: vlan is named nowhere else, so h is never",
            "header h { a:8 } after eth if eth.type == 5 after udp if udp.dport == 5\nif h { drop }\nif udp.sport == 5 { drop }":
                "line 1: udp is looked for later than h, which is never looked for after it; if udp {} looks for it, before h is used",
            "if tcp { mend ipv4.dscp = 46\nipv6.class = 184 }": "line 2: no packet that comes here has ipv6, and all are dropped; if ipv6 { .. } around this lets",
            "otherwise send port\nif udp { tcp.window = 5 }": "line 2: no packet that comes here has tcp, and `otherwise` gets them all",
            "if udp.dport == 53 and not ipv4.src in 10.0.0.0/8 {\n  let a = 5\n  mend ipv4.ttl = a\n}":
                "line 1: `not` holds for packets without ipv4 too, which are dropped in line 3; `ipv4 and not ..` passes them by",
            "if not ipv4.ttl > 1 { mend ipv4.ttl = 9 }": "line 1: `not` holds for packets without ipv4 too, which are dropped here",
            "let k = 0\nif tcp.dport == 7 { k = ipv4.src drop }\nif ipv4.src == k { drop }": "line 2: nothing reads k before the program ends",
        }
        for source, text in wanted.items():
            with self.subTest(source):
                self.assertTrue(compiled(source + "\nsend port").note.startswith(text), compiled(source + "\nsend port").note)
        for source in ("need tcp.flags & ~2 == 0", "const M = 0xffff\nneed vlan.vid & M", "mend ipv4.ttl -= 1", "ipv4.ttl -= 1\nipv4.sum = 0", "let a = ipv4.src\nipv4.src = ipv4.dst\nipv4.dst = a", "ipv6.hops -= 1",
                       "need ipv4.src in 10.0.0.0/8", "need ipv4.src in 0.0.0.0/0", "need ipv4.ttl - 5 == 1", "clone c from 0\nsend c to 0",
                       "new h from 0\npush eth { } on h\nchain h before this", "def f() { drop }\nif tcp { f() }", "clone c from 0\nfree c",
                       "let a = udp.sport\nlet b = udp.dport\nudp.sport = b\nudp.dport = a", "let a = l4.sport\nl4.sport = l4.dport\nl4.dport = a",
                       "ipv4.src ^= ipv4.dst\nipv4.dst ^= ipv4.src\nipv4.src ^= ipv4.dst", "const GATEWAY = 192.0.2.1\nneed ipv4.dst in GATEWAY/24",
                       "push eth { } ipv4 { len = 36 ttl = 9 src = 1 dst = 2 } udp { len = 16 } vxlan { }\nudp.sport = 5", "need ipv4.ihl - 5 > 0",
                       "push mpls { ttl = 9 }\npush eth { }", "push mpls { bottom = 1 }\npush eth { type = 0x8847 }\nmpls.ttl = 64", "push vlan { vid = 2 }\npush qinq { vid = 1 }", "push mpls { ttl = 9 }\nif tcp { queue 0 }", pppoe,
                       "let n = ipv4.len\ncut 14\npush eth { } ipv4 { len = n ttl = 9 proto = 4 }\nneed ipv4", "push eth { } ipv4 { len = 28 ttl = 9 } udp { len = 8 }", "push eth { } ipv6 { len = 8 hops = 9 }\nipv6.next = 60", "if eth.type == 0x88b5 { cut 14 }\nneed eth.type == 5\npop eth\nneed ipv4",
                       "pop eth/ipv4/udp/vxlan\nneed ipv4.ttl > 5", "udp.sum = 0\nmend udp.dport = 5", "ipv4.sum = 0\nmend tcp.dport = 5", "need tcp or (udp and l4.dport == 5)",
                       "need tcp.seq > tcp.ack\nneed tcp.seq - tcp.ack > 9", "if vlan {}\nif ipv4.src == 5 { drop }\nif vlan { pop vlan }",
                       "if ipv4 { send port }\nif vlan.vid == 5 { drop }", "if eth.src == 5 { drop }\nif vlan { pop vlan }", "if ipv4.ttl < 2 { drop }\npush vlan { vid = 5 }",
                       "if ipv4.proto == 6 { mend ipv4.src = 5 }", "if ipv4.proto == 6 and tcp { mend tcp.dport = 5 }", "otherwise send 0\nif ipv4.proto == 6 { mend tcp.dport = 5 }",
                       "if ipv4.proto == 6 and ipv4.frag == 0 { mend tcp.dport = 5 }", "need eth.src & 1", "need eth.dst & 01:00:00:00:00:00", "while vlan { pop vlan }",
                       f"{pppoe}\nif pppoe.session == 5 {{ drop }}\nneed ipv4", f"{pppoe}\nif pppoe {{}}\nmend ipv4.ttl -= 1",
                       "header h { a:8 } after ipv4 if ipv4.proto == 200 after ipv6 if ipv6.next == 200\nneed h",
                       "need ipv4.len >= 28\nneed ipv4.len - 28 < 512", "need ipv4.len > 40 and ipv4.len - 40 < 100",
                       "if ipv4 and not ipv4.ttl > 1 { mend ipv4.ttl = 9 }", "if icmp and not ipv4.ttl > 1 { mend ipv4.ttl = 9 }", "if not ipv4.ttl > 1 { drop }",
                       "if not ipv4.ttl > 1 { if icmp { mend ipv4.ttl = 9 } }", "otherwise send port\nif not ipv4.ttl > 1 { mend ipv4.ttl = 9 }",
                       "if not ipv4.ttl > 1 { if not ipv4 { drop }\nmend ipv4.ttl = 9 }", "def f() { mend ipv4.ttl = 9 }\nif arp { f() }\nelse { f() }",
                       "ports 2\nlet k = 0\nif tcp.dport == 7 { k = 1 send k }", "let k = 0\nwhile k < 3 { k += 1 if tcp { k = 3 } }", "if tcp { ipv4.tos = 5 }\nif ipv6 { ipv6.class = 5 }\nipv4.sum = 0",
                       "tcp.sum = 0\nmend ipv4.src = 5\ntcp.sum = 7", "cut 4\nif tcp.dport == 80 { drop }"):
            with self.subTest(source):
                self.assertEqual(compiled(source + "\nsend port").note, "")
        ends = {"if tcp { count web }": "line 1: no packet is sent: all are dropped at the end of the text", "if tcp { count web }\ndrop": "", "drop": "",
                "otherwise send port\nif tcp { drop }": "", "queue 0": "",
                "": "line 1: no packet is sent: all are dropped at the end of the text", "const A = 1\nset B = {1}": "line 2: no packet is sent: all", "otherwise send port": ""}
        for source, text in ends.items():
            self.assertEqual(compiled(source).note[: len(text) or None], text)
        rules = "".join(f"need not ipv4.src in 10.0.0.{k}/24\n" for k in range(1, 3)) + "".join(f"ipv4.tos = {k}\n" for k in range(20))
        self.assertEqual(compiled(rules + "send port").note.splitlines()[-1], "12 notes more")


    def test_dpv_filter_runs_what_wants_no_more_than_it_has(self) -> None:
        """Blocks that constants switch off want nothing."""
        for source in ("const SLOW = 0\nif SLOW { queue 0 }\nsend port", "const LAB = 1\nif LAB { send port } else { queue 0 }",
                       "const COPY = 0\nif tcp { if COPY and udp { clone c from 2\nsend c to port } }\nsend port"):
            require_filter(parse(source, None))
            with self.assertRaises(SourceError):
                require_filter(parse(source.translate({48: "1", 49: "0"}), None))
        require_filter(parse("given headroom 128\nsend port", None))
        with self.assertRaises(SourceError) as found:
            require_filter(parse("given headroom 129\nsend port", None))
        self.assertEqual((found.exception.at.line, found.exception.at.column), (1, 7))


class Names(unittest.TestCase):
    """Sets, statements with a name, files that are included, names of numbers, counters, and further headers before a known one."""

    def test_sets(self) -> None:
        source = "set IN = {10.0.0.0/8, 192.168.0.0/16}\nset ALL = {IN, 172.16.0.1..172.16.0.9}\nset WEB = {80, 443}\n"
        frames = [tcp(2, port, dst=it) for port in (22, 80) for it in ("10.1.1.1", "192.168.3.4", "172.16.0.5", "172.16.0.10")]
        self.assertEqual(sent(source + "need ipv4.dst in IN and tcp.dport in WEB\nsend port", *frames)[0], frames[4:6])
        self.assertEqual(sent(source + "need ipv4.dst in ALL and not tcp.dport in {WEB, 5}\nsend port", *frames)[0], frames[:3])
        self.assertEqual(count(source + "need ipv4.dst in IN send port"), count("need ipv4.dst in {10.0.0.0/8, 192.168.0.0/16} send port"))

    def test_defs(self) -> None:
        frame = udp(5, 53)
        source = "def out(a) { mend ipv4.src = a }\ndef less(n) { let x = n + 1 if ipv4.ttl < x { drop } ipv4.ttl -= n }\nlet x = 3\n"
        self.assertEqual(sent(source + "out(198.51.100.1)\nsend port", frame)[0], [udp(5, 53, src="198.51.100.1")])
        self.assertEqual(sent(source + "less(x) less(2)\nif x == 3 { send port }", frame)[0], [frame[:22] + bytes([59]) + frame[23:]])
        self.assertEqual(sent("def reply(p) { send p else drop }\nports 3\nreply(ipv4.ttl & 1)\n", frame)[0], [frame])
        self.assertEqual(count("def f(a) { mend ipv4.src = a }\nf(5)\nsend port"), count("mend ipv4.src = 5\nsend port"))

    def test_names(self) -> None:
        source = "table ROUTES = 0\npool CLONES = 1\nport UP = 2\nring SLOW = 0\nports 3\n"
        frame = udp(5, 53, dst="10.1.1.1")
        self.assertEqual(sent(source + "clone c from CLONES\nsend c to UP\nlet hop = lookup ROUTES ipv4.dst\nsend hop", frame), [[], [frame], [frame]])
        self.assertIn("enq p0,0", compile_text(source + "if port == UP { drop }\nqueue SLOW"))
        # These words are names elsewhere.
        self.assertEqual(sent("let count = 1\nlet set = 2\nlet table = count + set\ncount += 1\nif table == 3 and count == 2 { send port }", frame)[0], [frame])

    def test_further_headers_before(self) -> None:
        source = """header pppoe { vt:8 code:8 session:16 length:16 proto:16 } after eth if eth.type == 0x8864
extend ipv4 after pppoe if pppoe.proto == 0x21
"""
        inner, less = (ipv4(1, bytes(8), ttl=it) for it in (64, 63))
        frame = eth(bytes.fromhex("1100000100320021") + inner, 0x8864)
        rule = "if ipv4 { mend ipv4.ttl -= 1 }\nsend port"
        self.assertEqual(sent(source + "if pppoe { }\n" + rule, frame, eth(inner))[0], [frame[:22] + less, eth(less)])
        self.assertEqual(sent(source + rule, frame, eth(inner))[0], [frame, eth(less)])
        self.assertEqual(sent(source + "need pppoe/ipv4\npop pppoe\neth.type = 0x0800\nsend port", frame)[0], [eth(inner)])

    def test_counters(self) -> None:
        source = "if udp.dport == 53 { count dns } else if udp { count other }\nif udp.sport == 5 { count dns drop }\nsend port"
        text = compile_text(source)
        program = programs.assemble(text.encode())
        world = World(ENV, [program, FREES, FREES, FREES], frozenset())
        frames = [udp(5, 53), udp(6, 53), udp(5, 54), udp(6, 7), udp(8, 9), tcp(2, 53)]
        run(world, [Input([(0, 0, frame) for frame in frames], "whole"), Input([], "whole"), Input([], "whole")])
        notes = [it.split("# ")[1] for it in text.splitlines()[1:] if not it.endswith(":")]
        counts = {name: sum(ran for note, (ran, _, _) in zip(notes, world.tally[0]) if note.startswith(f"count {name}: ")) for name in ("dns", "other")}
        self.assertEqual(counts, {"dns": 4, "other": 3})
        # A length that a later statement needs is not tested before a counter.
        self.assertRegex(compile_text("need length > 20\ncount here\nneed length > 40\nsend port"), r"iflen p0,21[^\n]*\n *add r0,0[^\n]*\n *iflen p0,41")

    def test_files_that_are_included(self) -> None:
        with tempfile.TemporaryDirectory() as name:
            folder = pathlib.Path(name)
            (folder / "sub").mkdir()
            (folder / "net.pkt").write_text('include "sub/more.pkt"\ninclude "net.pkt"\ndef out(a) {\n    mend ipv4.src = a\n}\n')
            (folder / "sub/more.pkt").write_text('set IN = {10.0.0.0/8}\ninclude "../net.pkt"\n')
            text = compile_text('include "net.pkt"\nif ipv4.src in IN { out(1.2.3.4) }\nsend port', "x.pkt", folder)
            plain = compile_text("if ipv4.src in 10.0.0.0/8 { mend ipv4.src = 1.2.3.4 }\nsend port")
            self.assertEqual([it.split("#")[0] for it in text.splitlines()], [it.split("#")[0] for it in plain.splitlines()])
            self.assertIn("# net.pkt:4: mend ipv4.src = a", text)
            self.assertIn("# 2: if ipv4.src in IN", text)
            for file, source, wanted in (
                ("drop", 'include "a.pkt"', "a.pkt:1:1: an included file has only declarations"),
                ("\nconst A = B", 'include "a.pkt"', "a.pkt:2:11: a constant is expected here"),
                ("", 'include "b.pkt"', "x.pkt:1:9: " + str(folder / "b.pkt") + " cannot be read: No such file or directory"),
                ("def f() {\n  mend eth.src = 5\n}", 'include "a.pkt"\nf()', "a.pkt:2:3: no checksum covers eth.src\n      mend eth.src = 5"),
                ("\ndef f() {\n  drop", 'include "a.pkt"\nf()', "a.pkt:2:9: the block of f has no end\n    def f() {"),
                ("def f() {\n  clone c from 1\n  eth.type = 5\n}", 'include "a.pkt"\nf()\nsend port', f"c ({folder / 'a.pkt'}:2) shares them"),
                ("\nconst A = (5", 'include "a.pkt"\nsend A', f"the ( in {folder / 'a.pkt'}:2, column 11 is open"),
            ):
                (folder / "a.pkt").write_text(file)
                with self.assertRaises(SourceError) as caught:
                    compile_text(source, "x.pkt", folder)
                self.assertIn(wanted, error_text(caught.exception, "x.pkt", source))

    def test_errors(self) -> None:
        wanted = {
            "set A = 5": "1:9: '{' is expected here",
            "set A = {eth.type}": "1:10: a constant is expected here",
            "set A = {5}\nlet x = A": "2:9: A is a set, and no number",
            "set A = {10.0.0.0/8}\nneed ipv4.ttl in A": "the address has 32 bits, and the field before `in` 8",
            "table A = 4": "1:11: the table is from 0 to 3, and this is 4",
            "table A = 0\nclone c from A": "2:14: A is a table, and a pool is expected here",
            "table A = 0\nlet x = A": "2:9: A is a table, and no number",
            "def f(a) { f(a) }\nf(1)": "1:12: f is used in itself",
            "def f(a) { drop }\nf(1, 2)": "2:1: f(a) has 1 numbers, and here are 2",
            "def f() { drop": "the block of f has no end",
            "def f(a) { need ipv4.ttl in a }\nset a = {1, 2}\nf(7)": "3:1: a is a set, and a parameter of f",
            "def f() { ipv4.tos = b }\ndef g(b) { f() }\ng(5)": "1:22: b is no variable here",
            "def f() { send x }\nlet x = 1\nf()": "1:16: x is no variable here",
            "def f(a) { clone c from 0 ipv4.id = a }\nf(1)": "c (line 1) shares them",
            "extend ipv4 after udp if udp.dport == 5": "1:19: ipv4 cannot follow udp, which it comes before",
            "extend eth after vlan if vlan.vid == 5": "1:18: eth cannot follow vlan",
            "extend ipv4 after eth if eth.type == 5": "ipv4 follows eth already",
            'include "x.pkt"': "1:9: a text that is no file includes none",
            "truncate ipv4.len + 14": "1:10: `truncate` keeps a constant number of bytes",
        }
        for source, text in wanted.items():
            with self.subTest(source):
                with self.assertRaises(SourceError) as caught:
                    compile_text(source)
                self.assertIn(text, error_text(caught.exception, "x.pkt", source))


class Page(unittest.TestCase):
    """What docs/users/pkt.md says of headers and of its first program."""

    def setUp(self) -> None:
        self.page = (TOP / "docs/users/pkt.md").read_text()

    def test_the_known_headers(self) -> None:
        field = re.compile(r"(?<![\w@])(\w+):(\d+(?:=\w+)?)")
        rows = dict(re.findall(r"(?m)^\| `(\w+)` \| ([^;|]*)", self.page[self.page.index("### The known headers") :]))
        texts = dict(re.findall(r"(?m)^header (\w+) +\{([^}]*)\}", (TOP / "tools/pkt/prelude.pkt").read_text()))
        self.assertEqual({name: field.findall(text) for name, text in rows.items()}, {name: field.findall(text) for name, text in texts.items()})

    def test_the_examples_of_statements(self) -> None:
        text = self.page[self.page.index("## Examples of statements") :]
        self.assertLess(count(text.split("```")[1]), 400)

    def test_a_header_between_two(self) -> None:
        text = next(it for it in self.page.split("```") if "let size = ipv4.len" in it)
        (frame,) = sent(f"need ipv4\n{text}\nsend port", eth(ipv4(1, bytes(8))))[0]
        self.assertEqual(frame[34:], ipv4(1, bytes(8)))
        self.assertEqual((checksum(frame[14:34]), frame[12:14], len(frame)), (0, b"\x08\0", 62))

    def test_a_clone_beside_a_changed_packet(self) -> None:
        text = next(it for it in self.page.split("```") if "clone keep from 1" in it)
        frame = eth(ipv4(1, bytes(8)))
        self.assertEqual(sent(text, frame)[:2], [[frame], [tagged(frame, 900)]])

    def test_the_payload_after_options(self) -> None:
        text = next(it for it in self.page.split("```") if "header rest { off:4" in it)
        for words in range(4, 16):
            head = lambda source: source.to_bytes(2, "big") + bytes(10) + bytes([words << 4]) + bytes(7 + max(0, 4 * words - 20))
            frames = [eth(ipv4(6, head(source) + first)) for source in (22, 2222) for first in (b"SSH-", b"SSH", b"HTTP")]
            self.assertEqual(sent(text, *frames)[0], [it for k, it in enumerate(frames) if k != 3 or words < 5])

    def test_the_first_program(self) -> None:
        program = (TOP / "examples/nat/nat.pkt").read_text()
        self.assertIn(f"```\n{program}```\n", self.page)
        self.assertIn('node = "nat.dpv"\nin = "in.pcap"\nout = "out.pcap"\n', self.page)


class Command(unittest.TestCase):
    def test_build(self) -> None:
        with tempfile.TemporaryDirectory() as name:
            path = pathlib.Path(name, "drop.pkt")
            path.write_text("drop\n")
            run = subprocess.run([str(TOP / "dpv"), "build", str(path)], capture_output=True, text=True)
            self.assertEqual((run.returncode, run.stderr), (0, ""))
            self.assertEqual(run.stdout, compile_text("drop\n", "drop.pkt"))
            path.write_text("dropp\n")
            run = subprocess.run([str(TOP / "dpv"), "build", str(path)], capture_output=True, text=True)
            self.assertEqual((run.returncode, run.stdout), (1, ""))
            self.assertIn("drop.pkt:1:1: no statement begins with 'dropp'", run.stderr)
            path.write_bytes(b"drop\n# caf\xe9\n")
            run = subprocess.run([str(TOP / "dpv"), "build", str(path)], capture_output=True, text=True)
            self.assertEqual((run.returncode, run.stderr), (3, f"{path}:2: this line is no UTF-8 text\n  help: save the file as UTF-8\n"))
            run = subprocess.run([str(TOP / "dpv"), "build", name + "/none.pkt"], capture_output=True, text=True)
            self.assertEqual(run.returncode, 3)
            path.write_text("drop\n")
            with open("/dev/full", "w", encoding="utf-8") as full:
                run = subprocess.run([str(TOP / "dpv"), "build", str(path)], stdout=full, stderr=subprocess.PIPE, text=True)
            self.assertEqual((run.returncode, run.stderr), (3, "the program cannot be written: No space left on device\n"))


if __name__ == "__main__":
    unittest.main()
