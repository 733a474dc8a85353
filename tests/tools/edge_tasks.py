"""Tasks at the edge of a network, for tests/tools/pkt_tasks.py: what each sends for a frame, byte by byte, and frames made by scapy.

A frame is taken apart by offsets. Headers that are cut short are not there, as in docs/users/pkt.md."""
import ipaddress
import struct
from collections.abc import Callable, Iterable, Iterator

from scapy.all import ICMP, IP, LLC, SNAP, TCP, UDP, Dot1Q, Dot3, Ether, IPv6, Packet, Raw, raw
from scapy.contrib.geneve import GENEVE
from scapy.contrib.mpls import MPLS
from scapy.layers.inet import IPOption
from scapy.layers.inet6 import (
    ICMPv6EchoRequest, ICMPv6ND_NS, ICMPv6ND_RA, ICMPv6ND_Redirect, IPv6ExtHdrDestOpt, IPv6ExtHdrFragment, IPv6ExtHdrHopByHop, PadN,
)
from scapy.layers.l2 import Dot1AD

Sent = tuple[int, bytes]
BELOW, ABOVE = "02:00:00:00:00:0a", "02:00:00:00:00:0b"
ETHER = Ether(dst=ABOVE, src=BELOW)


def number(data: bytes, at: int, size: int) -> int:
    """A number of some bytes."""
    return int.from_bytes(data[at : at + size], "big")


def network(data: bytes, skips_tag: bool = False) -> tuple[int, int]:
    """The kind of what follows Ethernet, or a tag, and where it begins; 0 if the frame is too short for its header."""
    at = 14
    if skips_tag and len(data) >= 18 and number(data, 12, 2) == 0x8100:
        at = 18
    kind = number(data, at - 2, 2) if len(data) >= 14 else 0
    return (kind if len(data) >= at + {0x0800: 20, 0x86DD: 40}.get(kind, 0) else 0), at


def transport(data: bytes, skips_tag: bool = False) -> tuple[int, int]:
    """The protocol over IPv4 or IPv6, and where it begins; 0 where there is none, or a later fragment."""
    kind, at = network(data, skips_tag)
    if kind == 0x0800 and data[at] in range(0x45, 0x50) and not number(data, at + 6, 2) & 0x1FFF:
        proto, top = data[at + 9], at + 4 * (data[at] & 15)
    elif kind == 0x86DD:
        proto, top = data[at + 6], at + 40
    else:
        return 0, 0
    size = {6: 20, 17: 8, 1: 8 if kind == 0x0800 else 1 << 20, 58: 4 if kind == 0x86DD else 1 << 20}.get(proto, 1 << 20)
    return (proto, top) if len(data) >= top + size else (0, 0)


def folded(total: int) -> int:
    """A sum of words, folded."""
    while total >> 16:
        total = (total & 0xFFFF) + (total >> 16)
    return total


def patched(data: bytes, at: int, new: bytes, sums: Iterable[tuple[int, bool]] = ()) -> bytes:
    """Other bytes, in whole words, and checksums carried on (RFC 1624); one that is optional stays 0, and is never made 0."""
    out = bytearray(data)
    first, end = at - at % 2, at + len(new) + (at + len(new)) % 2
    old = [number(out, k, 2) for k in range(first, end, 2)]
    out[at : at + len(new)] = new
    change = sum(number(out, k, 2) for k in range(first, end, 2)) + sum(it ^ 0xFFFF for it in old)
    for place, optional in sums:
        before = number(out, place, 2)
        if optional and not before:
            continue
        after = folded((before ^ 0xFFFF) + change) ^ 0xFFFF
        out[place : place + 2] = struct.pack(">H", after or 0xFFFF if optional else after)
    return bytes(out)


def sums_over(data: bytes, at: int, skips_tag: bool = False) -> list[tuple[int, bool]]:
    """The checksum of what is over IPv4 or IPv6, for a change of the words it covers."""
    proto, top = transport(data, skips_tag)
    return [(top + {6: 16, 17: 6, 1: 2, 58: 2}[proto], proto == 17)] if proto in (6, 17, 58) or proto == 1 and at >= top else []


def is_within(data: bytes, at: int, size: int, *nets: str) -> bool:
    """Whether an address of a frame is in one of these networks."""
    return any(ipaddress.ip_address(bytes(data[at : at + size])) in ipaddress.ip_network(net) for net in nets)


# What each task sends for a frame


def vlan_map(data: bytes) -> Iterator[Sent]:
    """Other tags."""
    kind = number(data, 12, 2) if len(data) >= 14 else 0
    if kind == 0x88A8 and len(data) >= 18:
        if number(data, 14, 2) & 0xFFF == 200:
            is_30 = number(data, 16, 2) == 0x8100 and len(data) >= 22 and number(data, 18, 2) & 0xFFF == 30
            yield 0, data[:16] + data[20:] if is_30 else data
    elif kind == 0x8100 and len(data) >= 18:
        vid = number(data, 14, 2) & 0xFFF
        if vid == 10:
            yield 0, data[:14] + struct.pack(">H", number(data, 14, 2) & 0x1000 | 5 << 13 | 110) + data[16:]
        elif vid == 20:
            yield 0, data[:12] + data[16:]
    elif len(data) >= 14:
        yield 0, data[:12] + b"\x81\0\0\1" + data[12:]


def ext_filter(data: bytes) -> Iterator[Sent]:
    """No Telnet over IPv6."""
    kind, at = network(data, True)
    if kind == 0x86DD:
        proto, top = data[at + 6], at + 40
        if proto == 0 and len(data) >= top + 8 and data[top] == 6 and data[top + 1] <= 3:
            proto, top = 6, top + 8 * data[top + 1] + 8
        elif proto == 44 and len(data) >= top + 8 and data[top] == 6:
            if number(data, top + 2, 2) >> 3:
                return
            proto, top = 6, top + 8
        if proto == 6 and len(data) >= top + 20 and number(data, top + 2, 2) == 23:
            return
    yield 0, data


def mss6(data: bytes) -> Iterator[Sent]:
    """Smaller segments over IPv6."""
    proto, top = transport(data, True)
    if network(data, True)[0] == 0x86DD and proto == 6 and data[top + 13] & 2:
        words, at = data[top + 12] >> 4, 0
        if words > 5 and len(data) >= top + 24 and data[top + 20 : top + 22] == b"\2\4":
            at = top + 22
        elif words > 6 and len(data) >= top + 26 and data[top + 20 : top + 24] == b"\1\1\2\4":
            at = top + 24
        if at and number(data, at, 2) > 1220:
            data = patched(data, at, struct.pack(">H", 1220), [(top + 16, False)])
    yield 0, data


def groups(data: bytes) -> Iterator[Sent]:
    """Multicast to the address of its group."""
    kind, at = network(data)
    if kind == 0x0800 and is_within(data, 30, 4, "224.0.0.0/4"):
        is_known = is_within(data, 30, 4, "224.0.0.0/24", "239.1.0.0/16")
        if not is_known or data[:6] != b"\x01\x00\x5e" + bytes([data[31] & 0x7F]) + data[32:34]:
            return
    if kind == 0x86DD and data[38] == 0xFF:
        scope = data[39] & 15
        if data[:6] != b"\x33\x33" + data[50:54] or scope not in (2, 5) or scope == 2 and data[21] not in (1, 255):
            return
    yield 0, data


def ping_both(data: bytes) -> Iterator[Sent]:
    """Answers to pings."""
    (kind, at), (proto, top) = network(data, True), transport(data, True)
    is_ping = proto in (1, 58) and data[top : top + 2] == (b"\x08\0" if proto == 1 else b"\x80\0")
    if not is_ping or not is_within(data, *((at + 16, 4, "192.0.2.1/32") if proto == 1 else (at + 24, 16, "2001:db8::1/128"))):
        return
    data = patched(data, top, b"\0" if proto == 1 else b"\x81", [(top + 2, False)])
    size, begin = (4, at + 12) if proto == 1 else (16, at + 8)
    ends = data[begin + size : begin + 2 * size] + data[begin : begin + size]
    data = data[:begin] + ends + data[begin + 2 * size :]
    if proto == 58:
        data = data[: at + 7] + b"\x40" + data[at + 8 :]
    yield 0, data[6:12] + data[:6] + data[12:]


def near_only(data: bytes) -> Iterator[Sent]:
    """Routing from neighbours alone."""
    (kind, at), (proto, top) = network(data), transport(data)
    ports = (number(data, top, 2), number(data, top + 2, 2))
    is_routing = proto == 6 and 179 in ports or proto == 17 and ports[1] in (3784, 3785)
    if not is_routing or data[at + (8 if kind == 0x0800 else 7)] == 255:
        yield 0, data


def http_words(data: bytes) -> Iterator[Sent]:
    """No page of the administrator."""
    proto, top = transport(data)
    if proto == 6 and number(data, top + 2, 2) == 80 and data[top + 12] >> 4 in (5, 8):
        if data[top + 4 * (data[top + 12] >> 4) :].startswith(b"GET /admin"):
            return
    yield 0, data


def congested(data: bytes) -> Iterator[Sent]:
    """Packets that met congestion."""
    kind, at = network(data, True)
    if kind == 0x0800:
        if data[at + 1] & 3 in (1, 2):
            data = patched(data, at + 1, bytes([data[at + 1] | 3]), [(at + 10, False)])
        elif not data[at + 1] & 3 and is_within(data, at + 12, 4, "10.9.0.0/16"):
            return
    elif kind == 0x86DD and data[at + 1] >> 4 & 3 in (1, 2):
        data = data[: at + 1] + bytes([data[at + 1] | 0x30]) + data[at + 2 :]
    yield 0, data


def pieces(data: bytes) -> Iterator[Sent]:
    """Fragments that no attack needs."""
    if network(data)[0] == 0x0800:
        carried = number(data, 16, 2) - 4 * (data[14] & 15)
        offset, more = number(data, 20, 2) & 0x1FFF, data[20] >> 5 & 1
        if data[23] == 6 and (offset == 1 or not offset and more and carried % (1 << 64) < 20):
            return
        if (8 * offset + carried) % (1 << 64) > 65515:
            return
    yield 0, data


def napt(data: bytes) -> Iterator[Sent]:
    """Other addresses and ports."""
    (kind, at), (proto, top) = network(data, True), transport(data, True)
    if kind == 0x0800 and data[at] == 0x45 and proto in (6, 17):
        inside, outside = (17, 1000, 40000), (17, 40000, 1000)
        if proto == 6:
            inside, outside = (6, 2000, 40001), (6, 40001, 2000)
        for own, new, address, port, (_, old, other) in (
            (bytes([10, 0, 0, 7]), bytes([198, 51, 100, 7]), at + 12, top, inside),
            (bytes([198, 51, 100, 7]), bytes([10, 0, 0, 7]), at + 16, top + 2, outside),
        ):
            if data[address : address + 4] == own and number(data, port, 2) == old:
                data = patched(data, port, struct.pack(">H", other), sums_over(data, port, True))
                yield 0, patched(data, address, new, [(at + 10, False), *sums_over(data, address, True)])
                return
    yield 0, data


def npt6(data: bytes) -> Iterator[Sent]:
    """Another prefix with the same sum."""
    if network(data)[0] == 0x86DD and is_within(data, 22, 16, "2001:db8:a::/48"):
        subnet = folded(number(data, 28, 2) + 0xA - 0xB + 0xFFFF)
        data = data[:22] + bytes.fromhex("20010db8000b") + struct.pack(">H", 0 if subnet == 0xFFFF else subnet) + data[30:]
    yield 0, data


def ra_guard(data: bytes) -> Iterator[Sent]:
    """No advertisements of routers."""
    if network(data)[0] == 0x86DD:
        proto, top = data[20], 54
        if proto == 60 and len(data) >= 62 and data[54] == 58 and data[55] <= 7:
            proto, top = 58, 62 + 8 * data[55]
        if proto == 58 and len(data) >= top + 4 and data[top] in (134, 137) or proto == 44 and len(data) >= 62 and data[54] == 58:
            return
    yield 0, data


def wire_out(data: bytes) -> Iterator[Sent]:
    """In a pseudowire."""
    if len(data) <= 1500:
        labels = raw(MPLS(label=16, cos=5, s=0, ttl=64)) + raw(MPLS(label=1048575, cos=0, s=1, ttl=2))
        yield 1, raw(Ether(dst="02:00:00:00:01:02", src="02:00:00:00:01:01", type=0x8847)) + labels + b"\0\0\x12\x34" + data


def wire_in(data: bytes) -> Iterator[Sent]:
    """Out of a pseudowire."""
    at = 14
    while len(data) >= at + 4 and number(data, 12, 2) == 0x8847:
        entry, at = number(data, at, 4), at + 4
        if entry >> 8 & 1:
            if entry >> 12 == 1048575 and len(data) >= at + 4 and not data[at] >> 4:
                yield 2, data[at + 4 :]
            return


def trunk(data: bytes) -> Iterator[Sent]:
    """One port for each tag."""
    if len(data) < 18 or number(data, 12, 2) != 0x8100:
        yield 0, data
        return
    vid = number(data, 14, 2) & 0xFFF
    if vid == 0 or 99 <= vid <= 102:
        yield (vid - 99 if vid else 0), data[:12] + data[16:]


def geneve_in(data: bytes) -> Iterator[Sent]:
    """Out of Geneve."""
    proto, top = transport(data)
    at = top + 8
    if network(data)[0] != 0x0800 or data[14] != 0x45 or proto != 17 or number(data, top + 2, 2) != 6081 or len(data) < at + 8 or data[at] > 10:
        return
    end = at + 8 + 4 * data[at]
    if not data[at + 1] >> 6 and number(data, at + 2, 2) == 0x6558 and number(data, at + 4, 3) == 5 and len(data) >= end:
        yield 0, data[end:]


def snap(data: bytes) -> Iterator[Sent]:
    """Ethernet II in place of SNAP."""
    if len(data) >= 22 and number(data, 12, 2) < 1501 and data[14:20] == b"\xaa\xaa\x03\0\0\0":
        data = data[:12] + data[20:]
    yield 0, data


def guest(data: bytes) -> Iterator[Sent]:
    """What guests may do."""
    (kind, _), (proto, top) = network(data), transport(data)
    ports = (number(data, top, 2), number(data, top + 2, 2))
    if kind == 0x0806 and len(data) >= 42:
        yield 0, data
    elif kind == 0x86DD:
        if proto == 58 and 133 <= data[top] <= 136:
            yield 0, data
    elif proto == 17 and ports[1] in (53, 67) and ports[0] != 67:
        yield 0, data
    elif kind == 0x0800 and not is_within(data, 30, 4, "10.0.0.0/8", "172.16.0.0/12", "192.168.0.0/16", "169.254.0.0/16"):
        if proto == 6 and ports[1] in (80, 443) or proto == 17 and ports[1] == 443 or proto == 1 and data[top] == 8 and len(data) <= 128:
            yield 0, data


def erspan_out(data: bytes) -> Iterator[Sent]:
    """A copy of each SYN in ERSPAN."""
    yield 0, data
    proto, top = transport(data)
    if proto == 6 and data[top + 13] & 2 and len(data) >= 64:
        outer = Ether(dst="02:00:00:00:01:02", src="02:00:00:00:01:01") / IP(src="192.0.2.1", dst="192.0.2.2", id=0, flags=2, len=100, proto=47)
        yield 1, raw(outer) + struct.pack(">HHIHHI", 0x1000, 0x88BE, 0, 0x1000, 9, 0) + data[:64]


def score(data: bytes) -> Iterator[Sent]:
    """Marks for what attacks have in common."""
    (kind, at), (proto, top), marks, door = network(data, True), transport(data, True), 0, 0
    if kind == 0x0800:
        marks += 100 * (data[at + 12 : at + 16] == data[at + 16 : at + 20]) + 10 * (data[at + 8] < 5)
        marks += 20 * (data[at] & 15 > 5) + 15 * (number(data, at + 6, 2) & 0x3FFF > 0)
    elif kind == 0x86DD:
        marks += 10 * (data[at + 7] < 5)
    if proto in (6, 17):
        door = number(data, top + 2, 2)
    if proto == 6:
        marks += 50 * (data[top + 13] & 3 == 3) + 5 * (number(data, top + 14, 2) == 0)
    elif proto == 17:
        marks += 5 * (number(data, top + 6, 2) == 0) + 60 * (number(data, top + 4, 2) < 8)
    marks += 3 * (1 if door in (22, 23, 3389) else 2 if 1 <= door <= 1023 else 3 if door else 0)
    if marks < 35:
        yield int(marks >= 15), data


TASKS: dict[str, Callable[[bytes], Iterable[Sent]]] = {
    it.__name__: it for it in (
        vlan_map, ext_filter, mss6, groups, ping_both, near_only, http_words, congested, pieces, napt, npt6, ra_guard, wire_out, wire_in, trunk, geneve_in,
        snap, guest, erspan_out, score,
    )
}  # fmt: skip


def six(**fields: object) -> IPv6:
    """An IPv6 header in the networks of the tasks."""
    return IPv6(**{"src": "2001:db8:a:1::5", "dst": "2001:db8::1", **fields})


def within(words: int, **fields: object) -> IP:
    """An IPv4 header with this many words of options."""
    return IP(options=[IPOption(b"\1" * (4 * words))] if words else [], **fields)


def kinds() -> Iterator[Packet]:
    """Packets of each kind, without Ethernet."""
    fill = Raw(bytes(range(24)))
    for words in (0, 1, 9, 10):
        for sport, dport in ((1000, 53), (2000, 80), (53, 40000), (443, 40001), (67, 68), (68, 67), (5, 3784), (179, 9), (9, 443)):
            for ends in (("10.0.0.7", "203.0.113.5"), ("203.0.113.5", "198.51.100.7")):
                yield within(words, src=ends[0], dst=ends[1], tos=words & 3, ttl=255 - (dport & 1)) / UDP(sport=sport, dport=dport) / fill
                yield within(words, src=ends[0], dst=ends[1], tos=2, ttl=255) / TCP(sport=sport, dport=dport) / fill
        for options in ([], [("Timestamp", (1, 2)), ("NOP", None), ("NOP", None)], [("MSS", 9)]):
            for text in (b"GET /admin", b"GET /adm", b"GET /index", b"POST /admin"):
                yield within(words, dst="203.0.113.9") / TCP(sport=9, dport=80, options=options) / Raw(text)
        yield within(words, src="10.9.1.1", dst="192.0.2.1") / ICMP(id=5, seq=6) / fill
        yield within(words, src="10.9.1.1", dst="203.0.113.1", tos=1) / ICMP(id=5, seq=6) / fill
        yield within(words, src="10.0.0.7", dst="203.0.113.5") / UDP(sport=1000, dport=1, chksum=0) / fill
        for frag, flags in ((0, 1), (1, 0), (1, 1), (8189, 0), (8190, 0)):
            yield within(words, src="10.0.0.7", dst="203.0.113.5", frag=frag, flags=flags, proto=6) / fill
            yield within(words, src="10.0.0.7", dst="198.51.100.7", frag=frag, flags=flags) / UDP(sport=1000, dport=40000) / Raw(b"x")
    for end in ("224.0.0.5", "224.0.1.5", "239.1.129.3", "239.2.0.1", "169.254.0.1"):
        yield IP(dst=end) / UDP(sport=5, dport=53)
    for words in (0, 1, 5, 10, 11):
        for number_, flags in ((5, 0), (5, 0x40), (5, 0x80), (6, 0)):
            options = bytes(4 * words)
            head = GENEVE(optionlen=words, oam=flags >> 7, critical=flags >> 6 & 1, proto=0x6558, vni=number_)
            yield IP(dst="192.0.2.1") / UDP(sport=5, dport=6081, chksum=0) / Raw(raw(head)[:8] + options + raw(ETHER / ICMP()))


def kinds6() -> Iterator[Packet]:
    """IPv6 packets of each kind."""
    fill = Raw(bytes(range(24)))
    for size in (2, 10, 18, 26, 34, 58, 66):
        pad = [PadN(optdata=bytes(size))]
        for port in (22, 23):
            yield six() / IPv6ExtHdrHopByHop(options=pad) / TCP(dport=port)
        for message in (ICMPv6ND_RA(), ICMPv6ND_NS(), ICMPv6ND_Redirect(), ICMPv6EchoRequest()):
            yield six() / IPv6ExtHdrDestOpt(options=pad) / message
    for offset, more in ((0, 1), (5, 0)):
        for top in (TCP(dport=23), TCP(dport=24), UDP(dport=23), ICMPv6ND_RA()):
            yield six() / IPv6ExtHdrFragment(offset=offset, m=more, id=7) / top
    for size in (1219, 1220, 1221, 1460, 65535):
        for flags in ("S", "SA", "A"):
            for options in ([("MSS", size)], [("NOP", None), ("NOP", None), ("MSS", size)], [("NOP", None), ("MSS", size), ("NOP", None)], []):
                yield six(tc=2) / TCP(flags=flags, dport=179, options=options) / fill
    for hops in (1, 64, 255):
        for end in ("ff02::1", "ff05::2", "ff0e::5", "ff12::1:3", "2001:db8::1", "2001:db8::2"):
            yield six(dst=end, hlim=hops, tc=1) / ICMPv6EchoRequest(data=b"ping", id=4)
            yield six(dst=end, hlim=hops) / UDP(sport=5, dport=3784) / fill
    for subnet in (0, 1, 2, 0xFFFE, 0xFFFF, 0x1234):
        yield six(src=f"2001:db8:a:{subnet:x}::9") / UDP(sport=5, dport=6) / fill
    yield from (six() / it for it in (ICMPv6ND_RA(), ICMPv6ND_NS(), ICMPv6ND_Redirect(), TCP(dport=23), TCP(sport=179, dport=5)))


def frames() -> list[bytes]:
    """Frames for these tasks: untagged and tagged, to group addresses, some padded, and all of these cut too."""
    both = [*kinds(), *kinds6()]
    made: list[Packet] = [ETHER / it for it in both] + [ETHER / Dot1Q(vlan=5, prio=3) / it for it in both[::3]]
    for it in both:
        if it.dst.startswith(("224.", "239.")):
            low = bytes(map(int, it.dst.split(".")))
            made += [Ether(dst=f"01:00:5e:{low[1] & 0x7F:02x}:{low[2]:02x}:{low[3]:02x}") / it, Ether(dst=f"01:00:5e:{low[1]:02x}:{low[2]:02x}:{low[3]:02x}") / it]
        elif it.dst.startswith("ff"):
            low = ipaddress.ip_address(it.dst).packed[12:]
            made.append(Ether(dst="33:33:" + ":".join(f"{part:02x}" for part in low)) / it)
    ping = IP(src="10.1.1.1", dst="192.0.2.1") / ICMP(id=7) / Raw(b"data")
    made += [ETHER / Dot1Q(vlan=vid, prio=prio, id=dei) / ping for vid in (0, 1, 10, 20, 30, 98, 99, 100, 102, 103, 4095) for prio, dei in ((0, 0), (6, 1))]
    made += [ETHER / Dot1AD(vlan=outer) / Dot1Q(vlan=vid) / ping for outer in (200, 201) for vid in (30, 31)] + [ETHER / Dot1AD(vlan=200) / ping]
    for labels in ((1048575,), (16, 1048575), (16, 17, 1048575), (16,)):
        for first in (0, 1):
            stack = b"".join(raw(MPLS(label=it, s=int(k == len(labels) - 1), ttl=9)) for k, it in enumerate(labels))
            made.append(ETHER / Raw(b"") if not labels else Ether(raw(ETHER)[:12] + b"\x88\x47" + stack + bytes([first << 4, 0, 0, 1]) + raw(ETHER / ping)))
    made += [Dot3(dst=ABOVE, src=BELOW) / LLC(dsap=sap, ssap=0xAA, ctrl=3) / SNAP(OUI=oui, code=0x0800) / ping for sap in (0xAA, 0x42) for oui in (0, 1)]
    whole = [raw(it) for it in made]
    padded = [it.ljust(60, b"\0") for it in whole if len(it) < 60]
    cut = [it[:size] for it in whole for size in (len(it) - 1, len(it) * 2 // 3, len(it) // 2, 17)] + [raw(ETHER / ping)[:size] for size in range(1, 46)]
    return whole + padded + cut
