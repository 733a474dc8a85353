#!/usr/bin/env python3
"""Makes the captures of the examples: the inputs, and the expected outputs.

Usage: make_captures.py [FOLDER]    (by default the folder of this file)
The expected outputs are computed here from the protocols alone, on the fields of each packet: a header is built again with changed fields,
and its checksum is summed over the whole header. No node program is read, and dpv is not run.
"""
import ipaddress
import pathlib
import struct
import sys
from dataclasses import dataclass, replace

from strip.make import checksum

ROUTES = {"10.0.0.0/8": 1, "10.1.0.0/16": 2, "10.1.2.128/25": 0, "192.0.2.0/24": 0, "198.51.100.7/32": 2, "203.0.113.0/24": 9}
HOST_A, HOST_B, ALL = bytes.fromhex("02000000000a"), bytes.fromhex("02000000000b"), b"\xff" * 6
ICMP, TCP, UDP, GRE = 1, 6, 17, 47


@dataclass(frozen=True)
class Ip:
    """An IPv4 packet, and the bytes after it in its frame."""

    source: str
    to: str
    protocol: int
    payload: bytes
    hops: int = 64
    options: bytes = b""
    fragment: int = 0
    number: int = 1
    trailer: bytes = b""

    def spelled(self) -> bytes:
        words = 5 + len(self.options) // 4
        length = 4 * words + len(self.payload)
        addresses = ipaddress.ip_address(self.source).packed + ipaddress.ip_address(self.to).packed
        head = struct.pack(">BBHHHBBH", 0x40 + words, 0, length, self.number, self.fragment, self.hops, self.protocol, 0)
        head += addresses + self.options
        return head[:10] + struct.pack(">H", checksum(head)) + head[12:] + self.payload


@dataclass(frozen=True)
class Frame:
    """An Ethernet frame with its tags, each a number of 16 bits after the type 0x8100."""

    payload: object
    kind: int = 0x0800
    to: bytes = HOST_B
    source: bytes = HOST_A
    tags: tuple[int, ...] = ()

    def spelled(self) -> bytes:
        tags = b"".join(struct.pack(">HH", 0x8100, tag) for tag in self.tags)
        payload = self.payload.spelled() if isinstance(self.payload, Ip) else self.payload
        frame = self.to + self.source + tags + struct.pack(">H", self.kind) + payload
        return frame + getattr(self.payload, "trailer", b"")


def padded(frame: Frame) -> Frame:
    """With zeros after an IPv4 packet, up to the 60 bytes that Ethernet requires."""
    missing = 60 - len(frame.spelled())
    return replace(frame, payload=replace(frame.payload, trailer=b"\0" * missing)) if missing > 0 else frame


def transport(ip: Ip, ports: tuple[int, int], data: bytes, flags: int = 0x18) -> Ip:
    """With a TCP segment or a UDP datagram and its checksum."""
    if ip.protocol == TCP:
        segment, place = struct.pack(">HHIIBBHHH", *ports, 1000, 2000, 0x50, flags, 65535, 0, 0) + data, 16
    else:
        segment, place = struct.pack(">HHHH", *ports, 8 + len(data), 0) + data, 6
    pseudo = ipaddress.ip_address(ip.source).packed + ipaddress.ip_address(ip.to).packed
    value = checksum(pseudo + struct.pack(">BBH", 0, ip.protocol, len(segment)) + segment)
    return replace(ip, payload=segment[:place] + struct.pack(">H", value) + segment[place + 2:])


def summed(ip: Ip) -> Ip:
    """With the checksum of its TCP segment or UDP datagram, which a datagram may lack."""
    place = {TCP: 16, UDP: 6}.get(ip.protocol)
    if place is None or ip.fragment or ip.protocol == UDP and ip.payload[6:8] == b"\0\0":
        return ip
    body = ip.payload[:place] + b"\0\0" + ip.payload[place + 2:]
    pseudo = ipaddress.ip_address(ip.source).packed + ipaddress.ip_address(ip.to).packed
    value = checksum(pseudo + struct.pack(">BBH", 0, ip.protocol, len(body)) + body)
    return replace(ip, payload=body[:place] + struct.pack(">H", value or 0xFFFF) + body[place + 2:])


def opening(source: str, to: str, port: int, flags: int = 2, **fields: object) -> Frame:
    """A TCP segment with these flags; by default one that opens a connection."""
    return padded(Frame(transport(Ip(source, to, TCP, b"", **fields), (50000, port), b"", flags)))


def tcp(source: str, to: str, ports: tuple[int, int], data: bytes = b"", **fields: object) -> Frame:
    return padded(Frame(transport(Ip(source, to, TCP, b"", **fields), ports, data)))


def udp(source: str, to: str, ports: tuple[int, int], data: bytes = b"", **fields: object) -> Frame:
    return padded(Frame(transport(Ip(source, to, UDP, b"", **fields), ports, data)))


def ping(source: str, to: str, kind: int = 8, **fields: object) -> Frame:
    body = struct.pack(">BBHHH", kind, 0, 0, 7, 1) + bytes(range(48))
    return padded(Frame(Ip(source, to, ICMP, body[:2] + struct.pack(">H", checksum(body)) + body[4:], **fields)))


def arp(source: str, asked: str) -> Frame:
    body = struct.pack(">HHBBH", 1, 0x0800, 6, 4, 1) + HOST_A + ipaddress.ip_address(source).packed
    return Frame((body + b"\0" * 6 + ipaddress.ip_address(asked).packed).ljust(46, b"\0"), kind=0x0806, to=ALL)


LABEL = bytes.fromhex("0a0b0c0d")
RUNT = b"\x02\0\0\0\0\x0b\x02\0\0"
QUERY = struct.pack(">HHHHHH", 0x2026, 0x0100, 1, 0, 0, 0) + b"\7example\3com\0" + struct.pack(">HH", 1, 1)
WEB = b"GET / HTTP/1.1\r\nHost: example.com\r\n\r\n"


def mixed() -> list[object]:
    """Traffic of two hosts: frames, and a runt."""
    return [
        arp("192.0.2.1", "192.0.2.2"),
        ping("192.0.2.1", "192.0.2.2"),
        ping("192.0.2.2", "192.0.2.1", kind=0, hops=2),
        udp("192.0.2.1", "192.0.2.53", (40000, 53), QUERY),
        tcp("198.51.100.9", "192.0.2.80", (40001, 80), WEB, hops=1),
        tcp("198.51.100.9", "192.0.2.80", (40002, 443), WEB, hops=255),
        ping("198.51.100.9", "192.0.2.80", hops=0),
        RUNT,
        tcp("192.0.2.80", "198.51.100.9", (80, 40001), b"HTTP/1.1 200 OK\r\n\r\n", hops=63),
    ]


def spelled(frame: object) -> bytes:
    return frame if isinstance(frame, bytes) else frame.spelled()


def ip_of(frame: object) -> Ip | None:
    """The IPv4 packet of a frame that has one."""
    return frame.payload if isinstance(frame, Frame) and isinstance(frame.payload, Ip) and not frame.tags else None


def one_hop_less(frame: Frame) -> Frame | None:
    """As a router sends it on, or nothing where it has expired."""
    ip = frame.payload
    return replace(frame, payload=replace(ip, hops=ip.hops - 1)) if ip.hops > 1 else None


# ---- the output of each example: for a frame, the port and the frame that is sent, or several, or none


def vlan_pop(frame: object) -> list[tuple[int, object]]:
    if isinstance(frame, Frame) and frame.tags:
        return [(0, replace(frame, tags=frame.tags[1:]))]
    return [(0, frame)]


def vlan_push(frame: object) -> list[tuple[int, object]]:
    return [(0, replace(frame, tags=(100, *frame.tags)))] if isinstance(frame, Frame) else []


def ttl(frame: object) -> list[tuple[int, object]]:
    if ip_of(frame) is None:
        return [(0, frame)]
    less = one_hop_less(frame)
    return [(0, less)] if less else []


def routed(frame: object) -> list[tuple[int, object]]:
    ip = ip_of(frame)
    if ip is None:
        return []
    prefixes = [(ipaddress.ip_network(text), hop) for text, hop in ROUTES.items()]
    found = [(net.prefixlen, hop) for net, hop in prefixes if ipaddress.ip_address(ip.to) in net]
    less = one_hop_less(frame)
    if not found or max(found)[1] > 2 or less is None:
        return []
    port = max(found)[1]
    return [(port, replace(less, to=bytes([2, 0, 0, 0, 1, port]), source=bytes([2, 0, 0, 0, 0, port])))]


def acl(frame: object) -> list[tuple[int, object]]:
    if isinstance(frame, Frame) and frame.kind == 0x0806 and not frame.tags:
        return [(0, frame)]
    ip = ip_of(frame)
    if ip is None or ip.options or ip.fragment & 0x3FFF:
        return []
    if ip.protocol == ICMP:
        return [(0, frame)]
    source, to = struct.unpack(">HH", ip.payload[:4])
    if ip.protocol == TCP and ipaddress.ip_address(ip.to) in ipaddress.ip_network("192.0.2.0/24") and to in (80, 443):
        return [(0, frame)]
    return [(0, frame)] if ip.protocol == UDP and 53 in (source, to) else []


def mirror(frame: object) -> list[tuple[int, object]]:
    return [(1, frame), (0, frame)]


def multicast(frame: object) -> list[tuple[int, object]]:
    return [(0, frame), (1, LABEL + spelled(frame))]


def forward(frame: object) -> list[tuple[int, object]]:
    return [(1, frame)]


def splitter(frame: object) -> list[tuple[int, object]]:
    ip = ip_of(frame)
    if ip is None:
        return [(0, frame)]
    numbers = [int(ipaddress.ip_address(ip.source)), int(ipaddress.ip_address(ip.to))]
    if ip.protocol in (TCP, UDP) and not ip.options:
        numbers += struct.unpack(">HH", ip.payload[:4])
    port = 0
    for number in numbers:
        for place in range(0, 32, 2):
            port ^= number >> place & 3
    return [(port, frame)]


def gre(frame: object) -> list[tuple[int, object]]:
    ip = ip_of(frame)
    if ip is None:
        return []
    inner = struct.pack(">HH", 0, 0x0800) + ip.spelled()
    outer = Ip("198.51.100.1", "198.51.100.2", GRE, inner, fragment=0x4000, number=0, trailer=ip.trailer)
    return [(0, Frame(outer, to=bytes.fromhex("020000000102"), source=bytes.fromhex("020000000001")))]


def stages(frame: object) -> list[tuple[int, object]]:
    less = one_hop_less(frame) if ip_of(frame) else None
    return [(0, replace(less, to=bytes([2, 0, 0, 0, 1, 0]), source=bytes([2, 0, 0, 0, 0, 0])))] if less else []


def syn(frame: object) -> list[tuple[int, object]]:
    ip = ip_of(frame)
    if ip is not None and ip.protocol == TCP and not ip.fragment & 0x1FFF and len(ip.payload) >= 20:
        to, flags = struct.unpack(">H", ip.payload[2:4])[0], ip.payload[13]
        if ipaddress.ip_address(ip.to) in ipaddress.ip_network("192.0.2.0/24") and flags & 0x12 == 2 and to not in (80, 443):
            return []
    return [(0, frame)]


def nat(frame: object) -> list[tuple[int, object]]:
    ip = ip_of(frame)
    if ip is None or ipaddress.ip_address(ip.source) not in ipaddress.ip_network("10.0.0.0/8"):
        return [(0, frame)]
    return [(0, replace(frame, payload=summed(replace(ip, source="198.51.100.1"))))]


def tap(frame: object) -> list[tuple[int, object]]:
    return [(1, spelled(frame)[:64]), (0, frame)]


# ---- inputs


def tagged() -> list[object]:
    return [replace(frame, tags=tags) if isinstance(frame, Frame) else frame
            for frame, tags in zip(mixed(), [(7,), (7,), (), (100, 7), (0x2064,), (), (1,), (), (4095,)])]


def to_be_filtered() -> list[object]:
    return mixed() + [
        tcp("203.0.113.5", "192.0.2.80", (50000, 22)),
        tcp("203.0.113.5", "198.51.100.80", (50001, 80), WEB),
        udp("203.0.113.5", "192.0.2.1", (53, 40000), QUERY),
        udp("203.0.113.5", "192.0.2.1", (123, 123), bytes(48)),
        tcp("203.0.113.5", "192.0.2.80", (50002, 443), WEB, options=b"\x94\x04\0\0"),
        udp("203.0.113.5", "192.0.2.53", (40000, 53), QUERY, fragment=0x2000),
        ping("203.0.113.5", "192.0.2.80"),
        replace(tcp("203.0.113.5", "192.0.2.80", (50003, 443), WEB), tags=(7,)),
        padded(Frame(Ip("203.0.113.5", "192.0.2.80", GRE, bytes(24)))),
    ]


def to_be_routed() -> list[list[object]]:
    return [
        [ping("192.0.2.1", "10.9.9.9"), udp("192.0.2.1", "10.1.2.3", (1, 2), b"x"), ping("192.0.2.1", "10.1.2.200"), arp("192.0.2.1", "192.0.2.254"),
         tcp("192.0.2.1", "198.51.100.7", (4, 5), hops=1), tcp("192.0.2.1", "198.51.100.7", (4, 5), hops=2)],
        [ping("10.9.9.9", "192.0.2.1", hops=255), ping("10.9.9.9", "8.8.8.8"), ping("10.9.9.9", "203.0.113.1"), RUNT],
        [udp("10.1.2.3", "10.0.0.1", (2, 1), b"y"), udp("10.1.2.3", "10.1.255.255", (2, 1), b"z"), ping("198.51.100.7", "198.51.100.8"),
         udp("10.1.2.3", "192.0.2.255", (2, 1), options=b"\1\1\1\0")],
    ]


def flows() -> list[object]:
    frames = [mixed()[0], RUNT]
    for k in range(6):
        frames += [tcp(f"10.0.0.{k}", "192.0.2.80", (41000 + k, 443), WEB), tcp("192.0.2.80", f"10.0.0.{k}", (443, 41000 + k), b"ok")]
        frames.append(ping(f"10.0.{k}.1", "192.0.2.80"))
    return frames + [udp("10.0.0.1", "192.0.2.53", (40000, 53), QUERY, options=b"\1\1\1\0")]


def opened() -> list[object]:
    return mixed() + [
        opening("203.0.113.5", "192.0.2.80", 22),
        opening("203.0.113.5", "192.0.2.80", 80),
        opening("203.0.113.5", "192.0.2.80", 443, options=b"\x94\x04\0\0"),
        opening("203.0.113.5", "192.0.2.80", 23, options=b"\x94\x04\0\0"),
        opening("203.0.113.5", "192.0.2.80", 23, options=bytes(40)),
        opening("203.0.113.5", "192.0.2.80", 22, flags=0x12),
        opening("203.0.113.5", "192.0.2.80", 22, flags=0x10),
        opening("203.0.113.5", "198.51.100.80", 22),
        opening("203.0.113.5", "192.0.2.80", 22, fragment=0x2000),
        opening("203.0.113.5", "192.0.2.80", 22, fragment=0x0007),
        opening("203.0.113.5", "192.0.2.80", 22, flags=0xC2),
        replace(opening("203.0.113.5", "192.0.2.80", 22), tags=(7,)),
        Frame(Ip("203.0.113.5", "192.0.2.80", TCP, struct.pack(">HHII", 50000, 22, 1000, 0), options=bytes(4))),
    ]


def to_be_translated() -> list[object]:
    unsummed = udp("10.0.0.2", "192.0.2.53", (40000, 53), QUERY)
    plain = replace(unsummed.payload, payload=unsummed.payload.payload[:6] + b"\0\0" + unsummed.payload.payload[8:])
    return mixed() + [
        tcp("10.0.0.1", "192.0.2.80", (40001, 80), WEB),
        tcp("10.255.255.255", "192.0.2.80", (40001, 443), WEB, hops=1),
        udp("10.0.0.2", "192.0.2.53", (40000, 53), QUERY),
        replace(unsummed, payload=plain),
        ping("10.1.2.3", "192.0.2.1"),
        udp("10.0.0.2", "192.0.2.53", (40000, 53), QUERY, options=b"\1\1\1\0"),
        tcp("10.0.0.1", "192.0.2.80", (40001, 80), WEB, options=bytes(40)),
        padded(Frame(Ip("10.0.0.3", "192.0.2.80", UDP, bytes(range(24)), fragment=0x0009))),
        udp("11.0.0.2", "192.0.2.53", (40000, 53), QUERY),
        replace(udp("10.0.0.2", "192.0.2.53", (40000, 53), QUERY), tags=(7,)),
        # the checksum of this datagram becomes 0, which is written as 0xffff
        Frame(summed(Ip("10.0.0.9", "192.0.2.53", UDP, struct.pack(">HHHH", port_for_no_sum(), 53, 8, 1)))),
    ]


def port_for_no_sum() -> int:
    """The port from which an empty datagram of 198.51.100.1 to port 53 of 192.0.2.53 has a sum of 0xffff."""
    fixed = sum(struct.unpack(">8H", ipaddress.ip_address("198.51.100.1").packed + ipaddress.ip_address("192.0.2.53").packed + struct.pack(">4H", UDP, 8, 53, 8)))
    return 0xFFFF - fixed % 0xFFFF


# What becomes of a frame, on all ports or port by port, the frames that come in at each port, and how many ports there are.
EXAMPLES = {
    "vlan_pop": (vlan_pop, [tagged()], 1),
    "vlan_push": (vlan_push, [tagged()], 1),
    "ttl": (ttl, [mixed()], 1),
    "acl": (acl, [to_be_filtered()], 1),
    "gre": (gre, [mixed()], 1),
    "stages": (stages, [mixed()], 1),
    "mirror": (mirror, [mixed()], 2),
    "multicast": ([multicast, forward], [mixed()[:5], mixed()[5:]], 2),
    "syn": (syn, [opened()], 1),
    "nat": (nat, [to_be_translated()], 1),
    "tap": (tap, [mixed()], 2),
    "splitter": (splitter, [flows()], 4),
    "router": (routed, to_be_routed(), 3),
}


def capture(records: list[tuple[int, bytes]]) -> bytes:
    """A classic capture: records with their times in quarters of a second."""
    text = struct.pack("<IHHIIII", 0xA1B2C3D4, 2, 4, 0, 0, 262144, 1)
    for quarter, data in records:
        text += struct.pack("<IIII", 1700000000 + quarter // 4, 250000 * (quarter % 4), len(data), len(data)) + data
    return text


def name(kind: str, port: int, ports: int) -> str:
    return f"{kind}.pcap" if ports == 1 else f"{kind}{port}.pcap"


def make(folder: pathlib.Path) -> None:
    (folder / "none.pcap").write_bytes(capture([]))
    for example, (reported, inputs, ports) in EXAMPLES.items():
        makers = reported if isinstance(reported, list) else [reported] * len(inputs)
        sent: list[list[tuple[int, bytes]]] = [[] for _ in range(ports)]
        longest = max(len(frames) for frames in inputs)
        # A record of each port in turn; all that are first come at the same time, and so on.
        for k in range(longest):
            for maker, frames in zip(makers, inputs):
                for port, frame in maker(frames[k]) if k < len(frames) else []:
                    sent[port].append((k, spelled(frame)))
        for port, frames in enumerate(inputs):
            (folder / example / name("in", port, len(inputs))).write_bytes(capture([(k, spelled(f)) for k, f in enumerate(frames)]))
        for port, records in enumerate(sent):
            (folder / example / name("expected", port, ports)).write_bytes(capture(records))


if __name__ == "__main__":
    make(pathlib.Path(sys.argv[1]) if len(sys.argv) > 1 else pathlib.Path(__file__).resolve().parent)
