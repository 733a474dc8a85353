#!/usr/bin/env python3
"""Computes with scapy what the examples must send, and compares it with their stored captures. Run by hand, with scapy installed.

Usage: tests/program/by_scapy.py
scapy parses each record of the input captures, changes fields by their names, and builds the packet and its checksums again. The result has
to equal `expected*.pcap` of the folder: the same records in the same order, with the times of the inputs. No node program is read, and dpv
is not run: `tests/program/examples.py` compares what dpv writes with the same captures. Prints a line for each folder, and exits with 1 if one
differs."""
import ipaddress
import itertools
import pathlib
import sys
from collections.abc import Callable, Iterator
from typing import NamedTuple

from scapy.all import ARP, GRE, ICMP, IP, TCP, UDP, Dot1Q, Ether, Packet, Raw, RawPcapReader, raw

EXAMPLES = pathlib.Path(__file__).resolve().parents[2] / "examples"
ROUTES = {"10.0.0.0/8": 1, "10.1.0.0/16": 2, "10.1.2.128/25": 0, "192.0.2.0/24": 0, "198.51.100.7/32": 2, "203.0.113.0/24": 9}
WEB = ipaddress.ip_network("192.0.2.0/24")


class Record(NamedTuple):
    """A record's time and bytes."""

    time: tuple[int, int]
    data: bytes


# The port that a packet goes out of, and its bytes.
Sent = tuple[int, bytes]


def records(path: pathlib.Path) -> list[Record]:
    """The records of a capture."""
    return [Record((meta.sec, meta.usec), data) for data, meta in RawPcapReader(str(path))]


def has_ipv4(data: bytes) -> bool:
    """Whether a frame is one of an IPv4 packet, with its whole header."""
    return len(data) >= 34 and Ether(data).type == 0x0800


def with_one_hop_less(frame: Packet) -> Packet | None:
    """A frame with the time to live of its IPv4 packet decremented, or none if that makes it 0."""
    if frame[IP].ttl <= 1:
        return None
    frame[IP].ttl -= 1
    del frame[IP].chksum
    return frame


def strip_tag(data: bytes) -> Iterator[Sent]:
    """vlan_pop: without the outer tag."""
    frame = Ether(data) if len(data) >= 18 else None
    if frame is not None and frame.type == 0x8100:
        tag = frame[Dot1Q]
        data = raw(Ether(dst=frame.dst, src=frame.src, type=tag.type)) + raw(tag.payload)
    yield 0, data


def put_tag(data: bytes) -> Iterator[Sent]:
    """vlan_push: with a tag of VLAN 100."""
    if len(data) >= 14:
        frame = Ether(data)
        tagged = Ether(dst=frame.dst, src=frame.src) / Dot1Q(vlan=100, type=frame.type)
        yield 0, raw(tagged) + data[14:]


def take_a_hop(data: bytes) -> Iterator[Sent]:
    """ttl: decrements the time to live of IPv4."""
    if not has_ipv4(data):
        yield 0, data
    elif (frame := with_one_hop_less(Ether(data))) is not None:
        yield 0, raw(frame)


def port_of(address: str) -> int | None:
    """The hop of the longest prefix that holds an address."""
    nets = [ipaddress.ip_network(route) for route in ROUTES]
    held = [net for net in nets if ipaddress.ip_address(address) in net]
    return ROUTES[str(max(held, key=lambda net: net.prefixlen))] if held else None


def route(data: bytes) -> Iterator[Sent]:
    """router: out of the port that the table names, between new Ethernet addresses."""
    frame = with_one_hop_less(Ether(data)) if has_ipv4(data) else None
    port = port_of(frame[IP].dst) if frame is not None else None
    if port is not None and port < 3:
        frame.src, frame.dst = f"02:00:00:00:00:0{port}", f"02:00:00:00:01:0{port}"
        yield port, raw(frame)


def is_let_through(frame: Packet, length: int) -> bool:
    """The verdict of acl's rules on a frame."""
    if frame.type == 0x0806:
        return ARP in frame
    if frame.type != 0x0800 or length < 38:
        return False
    ip = frame[IP]
    if ip.version != 4 or ip.ihl != 5 or ip.frag != 0 or ip.flags.MF:
        return False
    if TCP in ip:
        return ipaddress.ip_address(ip.dst) in WEB and ip[TCP].dport in (80, 443)
    return ICMP in ip or (UDP in ip and 53 in (ip[UDP].sport, ip[UDP].dport))


def let_through(data: bytes) -> Iterator[Sent]:
    """acl: as it is, or not at all."""
    if len(data) >= 14 and is_let_through(Ether(data), len(data)):
        yield 0, data


def mirror(data: bytes) -> Iterator[Sent]:
    """mirror: at both ports."""
    yield from ((0, data), (1, data))


def split(data: bytes) -> Iterator[Sent]:
    """splitter: to the port that the flow's addresses and ports give, in either direction."""
    number = 0
    if len(data) >= 38 and Ether(data).type == 0x0800:
        ip = Ether(data)[IP]
        number = int(ipaddress.ip_address(ip.src)) ^ int(ipaddress.ip_address(ip.dst))
        above = ip.payload
        if ip.ihl == 5 and ip.proto in (6, 17):
            number ^= int.from_bytes(raw(above)[:2], "big") ^ int.from_bytes(raw(above)[2:4], "big")
    digits = [number >> shift & 3 for shift in range(0, 32, 2)]
    port = 0
    for digit in digits:
        port ^= digit
    yield port, data


def tunnel(data: bytes) -> Iterator[Sent]:
    """gre: within an outer IPv4 packet. Padding of the frame stays after it."""
    if has_ipv4(data) and (length := Ether(data)[IP].len) < 65_512:
        ether = Ether(dst="02:00:00:00:01:02", src="02:00:00:00:00:01")
        ends = {"src": "198.51.100.1", "dst": "198.51.100.2"}
        outer = ether / IP(**ends, id=0, flags="DF", ttl=64, len=length + 24) / GRE(proto=0x0800)
        yield 0, raw(outer) + data[14:]


def three_stages(data: bytes) -> Iterator[Sent]:
    """stages: one hop less, and then to the next hop."""
    frame = with_one_hop_less(Ether(data)) if has_ipv4(data) else None
    if frame is not None:
        frame.src, frame.dst = "02:00:00:00:00:00", "02:00:00:00:01:00"
        yield 0, raw(frame)


def multicast(data: bytes) -> Iterator[Sent]:
    """multicast, port 0: to port 1 after four bytes, and back."""
    yield from ((1, raw(Raw(b"\x0a\x0b\x0c\x0d") / Raw(data))), (0, data))


def back_to_port_1(data: bytes) -> Iterator[Sent]:
    """multicast, port 1: as it is."""
    yield 1, data


def tcp_of(data: bytes) -> TCP | None:
    """The TCP header of a frame whose IPv4 packet has the whole of it."""
    ip = Ether(data)[IP] if has_ipv4(data) else None
    is_there = ip is not None and ip.proto == 6 and ip.frag == 0 and len(data) >= 14 + 4 * ip.ihl + 20
    return ip[TCP] if is_there else None


def screen(data: bytes) -> Iterator[Sent]:
    """syn: drops what opens a connection to the network of the web servers, except to their ports."""
    header = tcp_of(data)
    opens = header is not None and header.flags.S and not header.flags.A
    if not (opens and ipaddress.ip_address(Ether(data)[IP].dst) in WEB and header.dport not in (80, 443)):
        yield 0, data


def translate(data: bytes) -> Iterator[Sent]:
    """nat: packets from within are sent under one address, with all checksums computed again."""
    if has_ipv4(data) and ipaddress.ip_address(Ether(data)[IP].src) in ipaddress.ip_network("10.0.0.0/8"):
        frame = Ether(data)
        frame[IP].src = "198.51.100.1"
        del frame[IP].chksum
        if TCP in frame:
            del frame[TCP].chksum
        if UDP in frame and frame[UDP].chksum:
            del frame[UDP].chksum
        data = raw(frame)
    yield 0, data


def tap(data: bytes) -> Iterator[Sent]:
    """tap: whole, and its first 64 bytes at port 1."""
    yield from ((0, data), (1, data[:64]))


# What each port of an example does with a record; the ports that the list lacks have none.
DONE: dict[str, list[Callable[[bytes], Iterator[Sent]]]] = {
    "vlan_pop": [strip_tag],
    "vlan_push": [put_tag],
    "ttl": [take_a_hop],
    "router": [route, route, route],
    "acl": [let_through],
    "mirror": [mirror],
    "splitter": [split],
    "gre": [tunnel],
    "stages": [three_stages],
    "syn": [screen],
    "nat": [translate],
    "tap": [tap],
    "multicast": [multicast, back_to_port_1],
}


def is_as_stored(name: str) -> bool:
    """Whether scapy's packets are those of the stored captures: record k of each port comes before record k + 1 of any."""
    folder, ports = EXAMPLES / name, DONE[name]
    inputs = [records(path) for path in sorted(folder.glob("in*.pcap"))]
    stored = [records(path) for path in sorted(folder.glob("expected*.pcap"))]
    made: list[list[Record]] = [[] for _ in stored]
    for rounds in itertools.zip_longest(*inputs):
        for done, record in zip(ports, rounds):
            for port, data in done(record.data) if record else ():
                made[port].append(Record(record.time, data))
    wrong = [f"port {k}, record {n}" for k, pair in enumerate(zip(made, stored)) for n, (a, b) in enumerate(itertools.zip_longest(*pair)) if a != b]
    count = sum(len(it) for it in made)
    print(f"examples/{name}: {count} packets, " + (f"not as stored: {wrong[0]}" if wrong else "as stored"))
    return not wrong and count > 0


if __name__ == "__main__":
    sys.exit(0 if all([is_as_stored(name) for name in DONE]) else 1)
