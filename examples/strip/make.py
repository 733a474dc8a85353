#!/usr/bin/env python3
"""Makes in.pcap: seven bridged frames, each an Ethernet frame inside an outer Ethernet header, and a runt.

The outer header has the type 0x6558 (transparent Ethernet bridging); inside are ARP, ICMP, DNS over UDP, TCP and an
IPv6 neighbor solicitation, with checksums. The last record is a runt of 9 bytes. Usage: make.py OUT
"""
import struct
import sys

OUTER = bytes.fromhex("02000000fe01" "02000000fe02" "6558")
HOST_A, HOST_B = bytes.fromhex("02000000000a"), bytes.fromhex("02000000000b")
IP_A, IP_B = bytes([192, 0, 2, 1]), bytes([192, 0, 2, 2])
IP6_A = bytes.fromhex("20010db8000000000000000000000001")
IP6_B = bytes.fromhex("ff0200000000000000000001ff000002")


def checksum(data: bytes) -> int:
    """The Internet checksum of the bytes."""
    data += b"\0" * (len(data) % 2)
    total = sum(struct.unpack(f">{len(data) // 2}H", data))
    while total >> 16:
        total = (total & 0xFFFF) + (total >> 16)
    return ~total & 0xFFFF


def ethernet(to: bytes, source: bytes, kind: int, payload: bytes) -> bytes:
    """An Ethernet frame, padded to 60 bytes."""
    return (to + source + struct.pack(">H", kind) + payload).ljust(60, b"\0")


def ipv4(source: bytes, to: bytes, protocol: int, payload: bytes) -> bytes:
    """An IPv4 packet."""
    head = struct.pack(">BBHHHBBH4s4s", 0x45, 0, 20 + len(payload), 1, 0, 64, protocol, 0, source, to)
    return head[:10] + struct.pack(">H", checksum(head)) + head[12:] + payload


def with_sum(source: bytes, to: bytes, protocol: int, segment: bytes, place: int) -> bytes:
    """A TCP, UDP or ICMPv6 segment with its checksum at a place."""
    if len(source) == 4:
        pseudo = source + to + struct.pack(">BBH", 0, protocol, len(segment))
    else:
        pseudo = source + to + struct.pack(">II", len(segment), protocol)
    value = checksum(pseudo + segment)
    return segment[:place] + struct.pack(">H", value) + segment[place + 2:]


def arp(operation: int, source: bytes, ip: bytes, to: bytes, asked: bytes) -> bytes:
    """An ARP packet."""
    return struct.pack(">HHBBH", 1, 0x0800, 6, 4, operation) + source + ip + to + asked


def icmp(kind: int, data: bytes) -> bytes:
    """An ICMP echo request or reply."""
    body = struct.pack(">BBHHH", kind, 0, 0, 7, 1) + data
    return body[:2] + struct.pack(">H", checksum(body)) + body[4:]


def udp(source: bytes, to: bytes, ports: tuple[int, int], data: bytes) -> bytes:
    """A UDP datagram."""
    return with_sum(source, to, 17, struct.pack(">HHHH", *ports, 8 + len(data), 0) + data, 6)


def tcp(source: bytes, to: bytes, ports: tuple[int, int], flags: int, data: bytes = b"") -> bytes:
    """A TCP segment."""
    return with_sum(source, to, 6, struct.pack(">HHIIBBHHH", *ports, 1000, 0, 0x50, flags, 65535, 0, 0) + data, 16)


def neighbor_solicitation() -> bytes:
    """An IPv6 packet that asks for a neighbor."""
    body = struct.pack(">BBHI", 135, 0, 0, 0) + IP6_A[:15] + b"\2" + b"\1\1" + HOST_A
    body = with_sum(IP6_A, IP6_B, 58, body, 2)
    return struct.pack(">IHBB", 6 << 28, len(body), 58, 255) + IP6_A + IP6_B + body


def frames() -> list[bytes]:
    """The inner frames."""
    question = struct.pack(">HHHHHH", 0x2026, 0x0100, 1, 0, 0, 0) + b"\7example\3com\0" + struct.pack(">HH", 1, 1)
    return [
        ethernet(b"\xff" * 6, HOST_A, 0x0806, arp(1, HOST_A, IP_A, b"\0" * 6, IP_B)),
        ethernet(HOST_A, HOST_B, 0x0806, arp(2, HOST_B, IP_B, HOST_A, IP_A)),
        ethernet(HOST_B, HOST_A, 0x0800, ipv4(IP_A, IP_B, 1, icmp(8, bytes(range(56))))),
        ethernet(HOST_A, HOST_B, 0x0800, ipv4(IP_B, IP_A, 1, icmp(0, bytes(range(56))))),
        ethernet(HOST_B, HOST_A, 0x0800, ipv4(IP_A, IP_B, 17, udp(IP_A, IP_B, (40000, 53), question))),
        ethernet(HOST_B, HOST_A, 0x0800, ipv4(IP_A, IP_B, 6, tcp(IP_A, IP_B, (40001, 80), 0x02))),
        ethernet(bytes.fromhex("3333ff000002"), HOST_A, 0x86DD, neighbor_solicitation()),
    ]


def main() -> None:
    records = [OUTER + frame for frame in frames()] + [OUTER[:9]]
    with open(sys.argv[1], "wb") as out:
        out.write(struct.pack("<IHHIIII", 0xA1B2C3D4, 2, 4, 0, 0, 262144, 1))
        for k, record in enumerate(records):
            out.write(struct.pack("<IIII", 1700000000 + k // 4, 250000 * (k % 4), len(record), len(record)) + record)


if __name__ == "__main__":
    main()
