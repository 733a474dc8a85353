"""Ethernet frames of every header that the prelude of the language knows, whole, cut, padded and damaged, made with struct alone."""
import struct
from random import Random

BROADCAST = bytes.fromhex("ffffffffffff")
HOSTS = (0x0A010203, 0x0A020304, 0xC0000250, 0xC0000207, 0xC6336407, 0xCB007109, 0x08080808, 0x0A000005, 0xCB007101, 0xFFFFFFFF, 0)
PORTS = (22, 53, 80, 443, 4789, 8080, 0, 65_535)
SIX = (bytes.fromhex("20010db8000000000000000000000001"), bytes.fromhex("fe800000000000000000000000000002"), bytes(16))
FAMILIES = ("tcp", "udp", "icmp", "gre", "vxlan", "esp")
# Lengths of frames at which something may end.
EDGES = (0, 1, 12, 13, 14, 15, 17, 18, 19, 22, 26, 33, 34, 35, 36, 37, 38, 41, 42, 46, 50, 53, 54, 55, 58, 60, 64, 74, 78, 94, 100)


def folded(data: bytes) -> int:
    """The one's complement sum of the 16-bit words of some bytes; an odd byte counts as the high one of a word."""
    padded = data + bytes(len(data) % 2)
    total = sum(struct.unpack(f">{len(padded) // 2}H", padded))
    while total >> 16:
        total = (total & 0xFFFF) + (total >> 16)
    return total


def checksum(data: bytes) -> int:
    """The Internet checksum of some bytes."""
    return folded(data) ^ 0xFFFF


def address(rng: Random) -> bytes:
    """An Ethernet address."""
    return rng.choice((b"\2\0\0\0\0" + bytes([rng.randrange(16)]), BROADCAST, rng.randbytes(6)))


def payload(rng: Random) -> bytes:
    """Some bytes, odd lengths among them; now and then as many as nearly fill a buffer."""
    return rng.randbytes(rng.choice((0, 1, 7, 8, 20, 21, rng.randrange(64), rng.randrange(1500) if rng.random() < 0.1 else 4)))


def tcp(rng: Random, ends: bytes) -> bytes:
    """A TCP segment between addresses, often with options, now and then with the maximum segment size."""
    mss = rng.choice((1460, 9000, 536, rng.randrange(65_536)))
    options = rng.choice((b"", b"", b"\2\4" + struct.pack(">H", mss), b"\2\4" + struct.pack(">H", mss) + b"\1\1\4\2", b"\1" * 4 * rng.randrange(11)))
    flags = rng.choice((0x02, 0x12, 0x10, 0x18, 0x11, 0x04, rng.randrange(256)))
    words = (5 + len(options) // 4) << 4
    if rng.random() < 0.05:
        words = rng.randrange(256)
    sport, dport = (rng.choice((*PORTS, rng.randrange(65_536))) for _ in range(2))
    head = struct.pack(">HHIIBBHHH", sport, dport, rng.getrandbits(32), rng.getrandbits(32), words, flags, rng.randrange(65_536), 0, rng.choice((0, 1)))
    segment = head + options + payload(rng)
    summed = checksum(ends + struct.pack(">BBH", 0, 6, len(segment)) + segment)
    return segment[:16] + struct.pack(">H", summed) + segment[18:]


def udp(rng: Random, ends: bytes, data: bytes | None = None, dport: int | None = None) -> bytes:
    """A UDP datagram between addresses: with a checksum, without one, or with one that is 0 and so sent as 0xffff."""
    data = payload(rng) if data is None else data
    dport = rng.choice((*PORTS, rng.randrange(65_536))) if dport is None else dport
    length = 8 + len(data)
    without = struct.pack(">HHHH", 0, dport, length, 0) + data
    pseudo = ends + struct.pack(">BBH", 0, 17, length)
    sport, kind = rng.choice((*PORTS, rng.randrange(65_536))), rng.randrange(4)
    if kind == 0:
        sport = checksum(pseudo + without)
    datagram = struct.pack(">H", sport) + without[2:]
    summed = (checksum(pseudo + datagram) or 0xFFFF) if kind != 1 else 0
    return datagram[:6] + struct.pack(">H", summed) + datagram[8:]


def icmp(rng: Random) -> bytes:
    """An ICMP message, most often an echo request; an error quotes a packet."""
    kind = rng.choice((8, 8, 0, 3, 3, 11, rng.randrange(256)))
    data = ipv4(rng, 1)[: rng.choice((28, 28, 36, 1500))] if kind in (3, 11) and rng.random() < 0.8 else payload(rng)
    message = struct.pack(">BBHHH", kind, rng.choice((0, 0, 1)), 0, rng.randrange(65_536), rng.randrange(65_536)) + data
    return message[:2] + struct.pack(">H", checksum(message)) + message[4:]


def above(rng: Random, family: str, ends: bytes, deep: int) -> tuple[int, bytes]:
    """The protocol's number and its payload."""
    if family == "tcp":
        return 6, tcp(rng, ends)
    if family == "udp":
        return 17, udp(rng, ends)
    if family == "icmp":
        return 1, icmp(rng)
    if family == "gre":
        flags = rng.choice((0, 0, 0, 0x2000, 0x8000, rng.randrange(65_536)))
        inner = ipv4(rng, deep + 1) if rng.random() < 0.7 else payload(rng)
        return 47, struct.pack(">HH", flags, rng.choice((0x0800, 0x0800, 0x6558, 0x86DD))) + inner
    if family == "vxlan":
        head = struct.pack(">II", rng.choice((0x08000000, 0x08000000, rng.getrandbits(32))), rng.choice((100, 7, rng.getrandbits(24))) << 8)
        return 17, udp(rng, ends, head + frame(rng, deep + 1), 4789)
    return 50, rng.randbytes(rng.randrange(40))


def family_of(rng: Random, deep: int) -> str:
    """A protocol; tunnels within tunnels are rare."""
    return rng.choice(FAMILIES if deep == 0 or rng.random() < 0.1 else ("tcp", "udp", "icmp", "esp"))


def ipv4(rng: Random, deep: int) -> bytes:
    """An IPv4 packet, with options of any length, whole or a fragment; now and then with a length or a version that is wrong."""
    words = rng.choice((5, 5, 5, rng.randrange(5, 16)))
    ends = struct.pack(">II", *(rng.choice((*HOSTS, rng.getrandbits(32))) for _ in range(2)))
    proto, data = above(rng, family_of(rng, deep), ends, deep)
    pieces = rng.choice((0, 0, 0, 0, 0x4000, 0x4000, 0x2000, rng.randrange(65_536)))
    length = 4 * words + len(data)
    version = 0x40 | words
    if rng.random() < 0.04:
        version = rng.choice((0x44, 0x40, 0x65, 0x35, rng.randrange(256)))
    ttl = rng.choice((64, 255, 2, 1, 0, rng.randrange(256)))
    head = struct.pack(">BBHHHBBH", version, rng.randrange(256), length & 0xFFFF, rng.randrange(65_536), pieces, ttl, proto, 0) + ends
    head += bytes([1]) * (4 * words - 20)
    summed = checksum(head) if rng.random() < 0.95 else rng.choice((0, 0xFFFF, rng.randrange(65_536)))
    return head[:10] + struct.pack(">H", summed) + head[12:] + data


def ipv6(rng: Random, deep: int) -> bytes:
    """An IPv6 packet, now and then with hop-by-hop options."""
    ends = rng.choice((*SIX, rng.randbytes(16))) + rng.choice((*SIX, rng.randbytes(16)))
    family = rng.choice(("tcp", "udp", "other"))
    proto, data = (rng.choice((58, 0, 44, 59)), payload(rng)) if family == "other" else above_ipv6(rng, family, ends)
    if rng.random() < 0.15:
        words = rng.choice((0, 0, 1, 2, 3, 4))
        proto, data = 0, bytes([proto, words]) + bytes(6 + 8 * words) + data
    return struct.pack(">IHBB", 0x60000000 | rng.getrandbits(28), len(data), proto, rng.choice((64, 255, 2, 1, 0))) + ends + data


def above_ipv6(rng: Random, family: str, ends: bytes) -> tuple[int, bytes]:
    """What an IPv6 packet carries; a pseudo header of IPv6 has the same sum as this one, as lengths are below 65,536."""
    return (6, tcp(rng, ends)) if family == "tcp" else (17, udp(rng, ends))


def arp(rng: Random) -> bytes:
    """An ARP message."""
    head = struct.pack(">HHBBH", 1, 0x0800, 6, 4, rng.choice((1, 2, rng.randrange(65_536))))
    return head + address(rng) + rng.randbytes(4) + address(rng) + rng.randbytes(4) + rng.choice((b"", bytes(18)))


def mpls(rng: Random, deep: int) -> bytes:
    """A stack of one to four labels, and an IPv4 packet."""
    count = rng.choice((1, 1, 2, 3, 4))
    entries = [rng.getrandbits(20) << 12 | rng.randrange(8) << 9 | rng.choice((64, 1, 0, 255)) for _ in range(count)]
    entries[-1] |= 1 << 8
    return b"".join(struct.pack(">I", entry) for entry in entries) + ipv4(rng, deep)


def within(rng: Random, deep: int) -> tuple[int, bytes]:
    """An Ethernet type, and what such a frame carries."""
    kind = rng.random()
    if kind < 0.7:
        return 0x0800, ipv4(rng, deep)
    if kind < 0.8:
        return 0x86DD, ipv6(rng, deep)
    if kind < 0.87:
        return 0x0806, arp(rng)
    if kind < 0.93:
        return rng.choice((0x8847, 0x8847, 0x8848)), mpls(rng, deep)
    return rng.choice((0x88B5, 0x88B5, rng.randrange(65_536))), bytes([rng.choice((0x40, 0x41, 0x43, 0x44))]) + payload(rng)


def frame(rng: Random, deep: int = 0) -> bytes:
    """A frame, with no tag, one or more."""
    kind, data = within(rng, deep)
    for number in range(rng.choice((0, 0, 0, 0, 1, 1, 2, 3))):
        data = struct.pack(">HH", rng.choice((5, 100, rng.randrange(65_536))), kind) + data
        kind = 0x8100 if number == 0 or rng.random() < 0.3 else rng.choice((0x88A8, 0x88A8, 0x9100))
    return address(rng) + address(rng) + struct.pack(">H", kind) + data


def cut_or_changed(rng: Random, data: bytes) -> bytes:
    """A frame as it may come: whole, padded to 60 bytes, cut somewhere, or with a byte changed."""
    kind = rng.random()
    if kind < 0.55:
        return data
    if kind < 0.65:
        return data.ljust(60, b"\0")
    if kind < 0.9:
        return data[: rng.choice((rng.choice(EDGES), rng.randrange(len(data) + 1), rng.randrange(min(len(data), 120) + 1)))]
    at = rng.randrange(min(len(data), 60))
    return data[:at] + bytes([rng.choice((data[at] ^ 1 << rng.randrange(8), rng.randrange(256)))]) + data[at + 1 :]


def frames(rng: Random, count: int) -> list[bytes]:
    """Makes frames."""
    return [cut_or_changed(rng, frame(rng)) for _ in range(count)]
