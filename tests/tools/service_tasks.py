"""Tasks of services and guards, for tests/tools/pkt_tasks.py: what each sends for a frame, byte by byte, and frames made by scapy.

A frame is taken apart by offsets. Headers that are cut short are not there, as in docs/users/pkt.md."""
import ipaddress
import struct
from collections.abc import Callable, Iterable, Iterator

from scapy.all import ICMP, IP, TCP, UDP, IPOption, IPv6, Packet, Raw, raw

from edge_tasks import ETHER, Sent, network, number, transport, within

COOKIE, SHARED = 0x2112A442, bytes([192, 0, 2, 18])


# What each task sends for a frame


def stun(data: bytes) -> Iterator[Sent]:
    """The address and the port that a binding request came from."""
    request = struct.pack(">HHI", 1, 0, COOKIE)
    if network(data)[0] != 0x0800 or transport(data) != (17, 34) or number(data, 36, 2) != 3478 or data[42:50] != request or len(data) < 62:
        yield 0, data
        return
    door, client = number(data, 34, 2), number(data, 26, 4)
    message = struct.pack(">HHI", 0x0101, 12, COOKIE) + data[50:62] + struct.pack(">HHHHI", 0x20, 8, 1, door ^ 0x2112, client ^ COOKIE)
    ends = {"src": str(ipaddress.ip_address(data[30:34])), "dst": str(ipaddress.ip_address(data[26:30]))}
    yield 0, data[6:12] + data[:6] + b"\x08\0" + raw(IP(id=0, ttl=64, **ends) / UDP(sport=3478, dport=door, chksum=0) / Raw(message))


def ssh_elsewhere(data: bytes) -> Iterator[Sent]:
    """No banner of SSH from another port than 22."""
    proto, top = transport(data)
    if proto == 6 and (top == 34 or network(data)[0] == 0x86DD):
        first = top + 4 * (data[top + 12] >> 4)
        if first >= top + 20 and data[first : first + 4] == b"SSH-" and number(data, top, 2) != 22:
            return
    yield 0, data


def source_route(data: bytes) -> Iterator[Sent]:
    """No options that name routers, and none that are cut short or have no length."""
    at, end = 34, 14 + 4 * (data[14] & 15) if network(data)[0] == 0x0800 else 0
    while at < end:
        if len(data) < at + 2 or data[at] in (131, 137):
            return
        size = end - at if data[at] == 0 else 1 if data[at] == 1 else data[at + 1]
        if not size:
            return
        at += size
    if len(data) >= end:
        yield 0, data


def map_e(data: bytes) -> Iterator[Sent]:
    """Packets for a shared address, by the set of ports that their port is in."""
    if network(data)[0] != 0x0800 or data[30:34] != SHARED:
        yield 0, data
        return
    top = 14 + 4 * (data[14] & 15)
    is_first = data[14] in range(0x45, 0x50) and not number(data, 20, 2) & 0x1FFF
    door = number(data, top + 2, 2) if is_first and data[23] in (6, 17) and len(data) >= top + 4 else 0
    if transport(data) == (1, top) and data[top] == 0:
        door = number(data, top + 4, 2)
    if door >= 4096:
        psid = door >> 6 & 63
        customer = struct.pack(">II", 0x20010DB8, 0x120000 | psid << 8) + b"\0\0" + SHARED + struct.pack(">H", psid)
        outer = struct.pack(">IHBB", 6 << 28, number(data, 16, 2), 4, 64) + ipaddress.ip_address("2001:db8:ffff::1").packed + customer
        yield 0, bytes.fromhex("020000000055 020000000001 86dd") + outer + data[14:]


TASKS: dict[str, Callable[[bytes], Iterable[Sent]]] = {it.__name__: it for it in (stun, ssh_elsewhere, source_route, map_e)}


def kinds() -> Iterator[Packet]:
    """Packets with these headers."""
    for kind, size, cookie, door in ((1, 0, COOKIE, 3478), (0x101, 0, COOKIE, 3478), (1, 4, COOKIE, 3478), (1, 0, COOKIE + 1, 3478), (1, 0, COOKIE, 3479)):
        request = Raw(struct.pack(">HHI", kind, size, cookie) + bytes(range(12)))
        yield from (ip / UDP(sport=54321, dport=door) / request for ip in (IP(src="203.0.113.9", dst="192.0.2.1"), within(1), IPv6()))
    for words in range(11):
        for source, first in ((2222, b"SSH-2.0"), (22, b"SSH-2.0"), (2222, b"SSH"), (2222, b"HTTP/1.1")):
            head = TCP(sport=source, dport=9, options=[("NOP", None)] * (4 * words)) / Raw(first)
            yield from (ip / head for ip in (IP(), IPv6(), *([within(2)] if words == 3 else [])))
    yield from (IP(frag=frag) / TCP(sport=9, dataofs=words) / Raw(b"SSH-") for frag, words in ((0, 4), (0, 0), (0, 15), (9, 5)))
    for text in ("83070401020304 00", "01010101", "0707040000000000", "070b04838383838383838300", "01890304", "00830304", "44000101", "44010183", "94040000", "94ff0000", "01010183"):
        yield IP(options=IPOption(bytes.fromhex(text))) / UDP()
    yield from (within(words) / UDP() for words in (1, 5, 10))
    for frag in (0, 9):
        for inner in (UDP(dport=5000), TCP(dport=4095), TCP(dport=65535), ICMP(type=0, id=4100), ICMP(type=8, id=4100), ICMP(type=0, id=9), Raw(b"abcd")):
            yield from (IP(dst=target, frag=frag) / inner for target in ("192.0.2.18", "192.0.2.19"))
    yield from (within(words, dst="192.0.2.18") / UDP(dport=9999) for words in (1, 10))


def frames() -> list[bytes]:
    """Frames for these tasks, some padded, and all of these cut too."""
    whole = [raw(ETHER / it) for it in kinds()]
    padded = [it + bytes(3) for it in whole]
    cut = [it[:size] for it in whole for size in (len(it) - 1, len(it) * 2 // 3, len(it) // 2, 33, 35, 39)]
    return whole + padded + cut
