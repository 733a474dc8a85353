"""Tasks of routers and of ends of tunnels, for tests/tools/pkt_tasks.py: what each sends for a frame, byte by byte, and frames made by scapy.

A frame is taken apart by offsets. Headers that are cut short are not there, as in docs/users/pkt.md."""
import ipaddress
import struct
from collections.abc import Callable, Iterable, Iterator

from scapy.all import ICMP, IP, UDP, IPv6, Packet, Raw, raw
from scapy.layers.inet6 import ICMPv6ND_NS, ICMPv6NDOptSrcLLAddr

from edge_tasks import ETHER, Sent, network, number, patched, sums_over, transport, within

ME6, CLIENT = ipaddress.ip_address("2001:db8::1").packed, ipaddress.ip_address("2001:db8::7").packed


def udp_to(data: bytes, door: int, size: int) -> int:
    """Where the payload of UDP to a port begins, if it has that many bytes; else 0."""
    proto, top = transport(data)
    return top + 8 if proto == 17 and number(data, top + 2, 2) == door and len(data) >= top + 8 + size else 0


# What each task sends for a frame


def gtpu_in(data: bytes) -> Iterator[Sent]:
    """Takes what a GTP-U tunnel carries out of it."""
    at = udp_to(data, 2152, 8)
    if not at or network(data)[0] != 0x0800 or data[30:34] != bytes([192, 0, 2, 1]):
        yield 0, data
        return
    flags, end = data[at], at + 8
    if data[at + 1] != 255 or flags not in range(0x30, 0x38) or number(data, at + 4, 4) != 7:
        return
    if flags & 4:
        if len(data) < end + 8 or data[end + 3] != 0x85 or data[end + 4] != 1 or data[end + 7]:
            return
        end += 8
    elif flags & 3:
        end += 4
    kind = {4: b"\x08\x00", 6: b"\x86\xdd"}.get(data[end] >> 4) if len(data) > end else None
    if kind:
        yield 0, data[:12] + kind + data[end:]


def srv6_end(data: bytes) -> Iterator[Sent]:
    """The next of up to three segments becomes the destination."""
    here = ipaddress.ip_address("fc00::1").packed
    if network(data)[0] != 0x86DD or data[20] != 43 or data[38:54] != here or len(data) < 78 or data[56] != 4:
        yield 0, data
        return
    left = data[57]
    if data[21] > 1 and left <= data[58] and (left == 1 and data[55] >= 2 or left == 2 and data[55] >= 4 and len(data) >= 94):
        segment = data[46 + 16 * left : 62 + 16 * left]
        yield 0, data[:21] + bytes([data[21] - 1]) + data[22:38] + segment + data[54:57] + bytes([left - 1]) + data[58:]


def nat64_err(data: bytes) -> Iterator[Sent]:
    """An ICMP error about UDP becomes one of ICMPv6, with both checksums."""
    quote, client = data[42:], bytes([192, 0, 2, 1])
    is_error = transport(data) == (1, 34) and len(quote) >= 28 and (data[34] == 11 or data[34:36] == b"\3\3")
    if not is_error or data[22] < 2 or data[30:34] != client or quote[0] != 0x45 or quote[12:16] != client or quote[9] != 17:
        return
    if number(quote, 6, 2) & 0x1FFF or not number(quote, 26, 2):
        return
    router, target = (b"\0\x64\xff\x9b" + bytes(8) + it for it in (data[26:30], quote[16:20]))
    size, kind = number(data, 16, 2), b"\3\0" if data[34] == 11 else b"\1\4"
    # Both checksums are carried on: the words that were covered give way to those that are.
    before = bytes(12) + quote[12:20] + bytes(24) + quote[20:28]
    datagram = patched(before, 12, CLIENT + target, [(50, True)])[44:] + quote[28:]
    inner = struct.pack(">IHBB", 6 << 28, (size - 48) & 0xFFFF, 17, quote[8]) + CLIENT + target
    ends = router + CLIENT + struct.pack(">II", size, 58)
    old = bytes(2) + data[36:38] + data[34:36] + data[38:42] + quote[:20] + quote[26:28]
    new = kind + bytes(4) + inner + datagram[6:8] + ends
    total = patched(old.ljust(4 + len(new), b"\0"), 4, new, [(2, False)])[2:4]
    outer = struct.pack(">IHBB", 6 << 28, size, 58, data[22] - 1) + router + CLIENT
    yield 0, data[:6] + bytes.fromhex("02000000006486dd") + outer + kind + total + bytes(4) + inner + datagram


def ndp_answer(data: bytes) -> Iterator[Sent]:
    """Answers a neighbour solicitation."""
    is_asked = transport(data) == (58, 54) and len(data) >= 86 and data[54:56] == b"\x87\0" and data[62:78] == ME6 and data[78:80] == b"\1\1"
    if is_asked and data[21] == 255 and number(data, 18, 2) == 32 and data[22:38] != bytes(16):
        me = bytes.fromhex("020000000001")
        sums = sums_over(data, 22)
        for at, new in ((58, b"\x60\0\0\0"), (54, b"\x88\0"), (78, b"\2\1" + me), (38, data[22:38]), (22, ME6)):
            data = patched(data, at, new, sums)
        yield 0, data[6:12] + me + data[12:]


def ptp_corr(data: bytes) -> Iterator[Sent]:
    """Adds to the correction of a PTP event message."""
    over_udp = udp_to(data, 319, 16)
    at = over_udp or (14 if len(data) >= 30 and number(data, 12, 2) == 0x88F7 else 0)
    if at and data[at + 1] & 15 == 2 and data[at] & 15 < 4:
        new = (number(data, at + 8, 8) + (1500 << 16)) % 2**64
        data = patched(data, at + 8, new.to_bytes(8, "big"), sums_over(data, at + 8) if over_udp else ())
    yield 0, data


TASKS: dict[str, Callable[[bytes], Iterable[Sent]]] = {it.__name__: it for it in (gtpu_in, srv6_end, nat64_err, ndp_answer, ptp_corr)}


def gtp(flags: int, kind: int, tunnel: int, inner: Packet) -> Packet:
    """GTP-U with a sequence number, or with the container of a PDU session."""
    more = {0: b"", 2: b"\0\1\0\0", 4: b"\0\0\0\x85\1\x10\x09\0"}[flags & 6]
    return UDP(sport=2152, dport=2152) / Raw(struct.pack(">BBHI", flags, kind, len(more) + len(inner), tunnel) + more + raw(inner))


def kinds() -> Iterator[Packet]:
    """Packets with these headers."""
    inner = IP(src="10.0.0.1", dst="10.0.0.2") / UDP(sport=1, dport=2) / Raw(b"abc")
    for it in (inner, IPv6(src="2001:db8::5") / UDP(sport=1, dport=2)):
        for flags, kind, tunnel in ((0x30, 255, 7), (0x32, 255, 7), (0x34, 255, 7), (0x30, 1, 7), (0x30, 255, 8)):
            yield from (within(words, dst="192.0.2.1") / gtp(flags, kind, tunnel, it) for words in (0, 1))
    segments = b"".join(ipaddress.ip_address(f"2001:db8:{k}::1").packed for k in "abcd")
    for count in range(1, 5):
        for left in range(count):
            head = bytes([4, 2 * count, 4, left, count - 1, 0, 0, 0]) + segments[: 16 * count]
            yield from (IPv6(src="2001:db8::1", dst="fc00::1", nh=43, hlim=hops) / Raw(head + raw(inner)) for hops in (64, 1))
    for words, sums in ((0, {}), (1, {}), (0, {"chksum": 0})):
        quoted = raw(within(words, src="192.0.2.1", dst="198.51.100.7", ttl=1) / UDP(sport=5000, dport=33434, **sums) / Raw(b"abcd"))
        yield from (IP(src="203.0.113.1", dst="192.0.2.1", ttl=60) / ICMP(type=kind, code=code) / Raw(quoted) for kind, code in ((11, 0), (3, 3), (3, 0), (5, 0)))
    for source, target, hops in (("fe80::aa", "2001:db8::1", 255), ("::", "2001:db8::1", 255), ("fe80::aa", "2001:db8::2", 255), ("fe80::aa", "2001:db8::1", 64)):
        yield IPv6(src=source, dst="ff02::1:ff00:1", hlim=hops) / ICMPv6ND_NS(tgt=target) / ICMPv6NDOptSrcLLAddr(lladdr="02:00:00:00:00:aa")
    for kind, now in ((0, 5 << 16), (1, 2**64 - 1), (11, 0)):
        message = struct.pack(">BBHIQ", kind, 2, 44, 0, now) + bytes(28)
        yield from (ip / UDP(sport=319, dport=319, **sums) / Raw(message) for ip in (IP(), within(1), IPv6()) for sums in ({}, {"chksum": 0}))
        yield Raw(message)


def frames() -> list[bytes]:
    """Frames for these tasks, some padded, and all of these cut too."""
    whole = [raw(ETHER)[:12] + b"\x88\xf7" + raw(it) if type(it) is Raw else raw(ETHER / it) for it in kinds()]
    padded = [it + bytes(3) for it in whole]
    cut = [it[:size] for it in whole for size in (len(it) - 1, len(it) * 2 // 3, len(it) // 2, 33, 53, 61)]
    return whole + padded + cut
