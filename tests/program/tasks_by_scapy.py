#!/usr/bin/env python3
"""Computes with scapy what the programs of examples/tasks must send, and compares it with the stored captures. Run by hand, with scapy
installed.

Usage: tests/program/tasks_by_scapy.py [--write]
One capture, in.pcap, is the input of all of them: tunnels, labels, calls, pings, tags, and the same cut short. --write makes it again, and
also the expected captures, NAME.pcap, or NAME0.pcap and NAME1.pcap for two ports. No node program is read, and dpv is not run:
`tests/program/examples.py` compares what dpv writes with the same captures. Prints a line for each task; exits with 1 if one differs."""
import ipaddress
import pathlib
import random
import struct
import sys
from collections.abc import Callable, Iterator

from scapy.all import ARP, GRE, ICMP, IP, TCP, UDP, Dot1Q, Ether, IPv6, Packet, Raw, RawPcapReader, raw
from scapy.contrib.mpls import MPLS
from scapy.layers.inet import IPOption
from scapy.layers.inet6 import ICMPv6EchoRequest
from scapy.layers.vxlan import VXLAN

TASKS = pathlib.Path(__file__).resolve().parents[2] / "examples" / "tasks"
Sent = tuple[int, bytes]
HEADS = {TCP: (6, 20), UDP: (17, 8), ICMP: (1, 8), GRE: (47, 4)}


# What comes in


def within(words: int, **fields: object) -> IP:
    """An IPv4 header with this many words of options."""
    return IP(options=[IPOption(b"\1" * (4 * words))] if words else [], **fields)


def inputs() -> list[bytes]:
    """Frames of each kind, whole and cut."""
    chance = random.Random(7)
    ether = Ether(dst="02:00:00:00:00:0b", src="02:00:00:00:00:0a")
    inner = Ether(dst="02:00:00:00:00:02", src="02:00:00:00:00:01") / IP(src="10.1.1.1", dst="10.1.1.2") / ICMP(id=7)
    frames: list[Packet] = [ether / ARP(), ether / Raw(b"")]
    for words in (0, 1, 5, 10):
        for vni, flags, port in ((100, 8, 4789), (7, 8, 4789), (100, 0, 4789), (100, 8, 4790)):
            frames.append(ether / within(words, dst="192.0.2.1") / UDP(sport=50000, dport=port, chksum=0) / VXLAN(vni=vni, flags=flags) / inner)
        for kind, flags, end in ((0x0800, {}, "192.0.2.1"), (0x6558, {}, "192.0.2.1"), (0x0800, {"key_present": 1, "key": 5}, "192.0.2.1"), (0x0800, {}, "192.0.2.2")):
            frames.append(ether / within(words, dst=end) / GRE(proto=kind, **flags) / inner[IP])
        for port in (5060, 9999, 10000, 15000, 19999, 20000, 53, 123, 80):
            data = Raw(chance.randbytes(chance.randrange(0, 200)))
            frames.append(ether / within(words, src="203.0.113.9", dst="192.0.2.53", tos=chance.choice([0, 0xB8, 0xBB, 3])) / UDP(sport=chance.choice([53, 4000]), dport=port) / data)
        for end, code in (("192.0.2.1", 0), ("192.0.2.1", 1), ("192.0.2.9", 0)):
            frames.append(ether / within(words, src="10.0.0.7", dst=end, ttl=3) / ICMP(code=code, id=9, seq=1) / Raw(bytes(56)))
        frames += [ether / within(words, dst="192.0.2.1") / ICMP(type=kind) for kind in (0, 3, 5, 11)]
        for address in ("10.9.9.9", "192.168.255.1", "203.0.113.7", "203.0.113.8", "203.0.113.15", "203.0.113.16", "8.8.8.8"):
            for port in (22, 443, 8000, 8999, 9000, 1023, 1024):
                frames.append(ether / within(words if port == 22 else 0, src=address, dst="192.0.2.80") / TCP(sport=chance.choice([1024, 1023]), dport=port))
        for size in (536, 1360, 1361, 1460, 65535):
            for flags in ("S", "SA", "A"):
                frames.append(ether / within(words, dst="192.0.2.80") / TCP(flags=flags, options=[("MSS", size), ("NOP", None), ("NOP", None), ("SAckOK", b"")]))
        frames.append(ether / within(words, dst="192.0.2.80") / TCP(flags="S", options=[("NOP", None), ("MSS", 1460)]))
        frames.append(ether / within(words, dst="192.0.2.80", frag=5, proto=6) / Raw(chance.randbytes(40)))
    for labels in range(1, 4):
        stack: Packet = MPLS(label=labels, s=int(labels == 1), ttl=9)
        for k in range(1, labels):
            stack = stack / MPLS(label=100 + k, s=int(k == labels - 1), ttl=9)
        frames.append(ether / stack / inner[IP])
    for hops in (0, 1, 2, 255):
        far = IPv6(src="2001:db8::1:2", dst="2001:db8:1::3:4", hlim=hops)
        frames += [ether / far / UDP(sport=1, dport=2), ether / Dot1Q(vlan=5) / far / TCP(dport=80), ether / far / ICMPv6EchoRequest()]
        frames.append(ether / Dot1Q(vlan=6) / IP(src="10.1.2.3", dst="192.0.2.1", ttl=hops) / UDP(dport=53))
    for far in (IPv6(src="2001:db8::1:2", dst="2001:db8:1::3:4"), IPv6(src="2001:db8::53", dst="2001:db8::1")):
        for ports in ((53, 4000), (4000, 53), (4000, 80)):
            frames.append(ether / far / UDP(sport=ports[0], dport=ports[1]) / Raw(bytes(range(120))))
        for size in (1220, 1361, 1440):
            for flags in ("S", "SA", "A"):
                frames.append(ether / far / TCP(flags=flags, options=[("MSS", size), ("NOP", None), ("NOP", None), ("SAckOK", b"")]))
        frames.append(ether / far / TCP(flags="S", options=[("NOP", None), ("MSS", 1460)]))
    whole = [raw(it) for it in frames]
    cut = [it[: chance.randrange(len(it))] for it in whole for _ in range(2)]
    return whole + cut


# What scapy sees in a frame


def ip_of(data: bytes) -> IP | None:
    """The IPv4 header of an untagged frame."""
    return Ether(data)[IP] if len(data) >= 34 and data[12:14] == b"\x08\0" else None


def top_of(data: bytes, kind: type[Packet]) -> Packet | None:
    """The header of a kind after IPv4, if it is whole."""
    ip, (number, size) = ip_of(data), HEADS[kind]
    if ip is None or ip.version != 4 or ip.ihl < 5 or ip.proto != number or ip.frag or len(data) < 14 + 4 * ip.ihl + size:
        return None
    return kind(data[14 + 4 * ip.ihl :])


def reached(data: bytes, kind: type[Packet]) -> tuple[Packet, int] | None:
    """The header of a kind after IPv4 or IPv6, if it is whole, and where it begins."""
    number, size = HEADS[kind]
    if len(data) >= 54 + size and data[12:14] == b"\x86\xdd" and data[20] == number:
        return kind(data[54:]), 54
    ip, top = ip_of(data), top_of(data, kind)
    return (top, 14 + 4 * ip.ihl) if ip is not None and top is not None else None


def is_in(address: str, *nets: str) -> bool:
    """Whether an address is in one of these networks."""
    return any(ipaddress.ip_address(address) in ipaddress.ip_network(net) for net in nets)


def carried(old: int, before: bytes, after: bytes) -> int:
    """A checksum after some words that it covers have changed (RFC 1624); for a cut packet no more can be known."""
    words = struct.unpack(f">{len(before) // 2}H", before), struct.unpack(f">{len(after) // 2}H", after)
    total = (old ^ 0xFFFF) + sum(it ^ 0xFFFF for it in words[0]) + sum(words[1])
    while total >> 16:
        total = (total & 0xFFFF) + (total >> 16)
    return total ^ 0xFFFF


def mended(data: bytes, at: int, new: bytes) -> bytes:
    """A frame with other bytes, and the checksums of IPv4, TCP, UDP and ICMPv6 updated by the changed words."""
    out, place, ip = bytearray(data), at & ~1, ip_of(data)
    out[at : at + len(new)] = new
    changed = slice(place, at + len(new) + (at + len(new)) % 2)
    start = 14 + 4 * ip.ihl if ip is not None else 54
    if ip is not None and at < 34:
        out[24:26] = carried(ip.chksum, data[changed], out[changed]).to_bytes(2, "big")
    is_pseudo = 26 <= at < 34 if ip is not None else 22 <= at < 54
    number = (ip.proto if not ip.frag and ip.version == 4 and ip.ihl >= 5 else None) if ip is not None else data[20]
    field = {6: (16, 20), 17: (6, 8), 58: (2, 4)}.get(number) if is_pseudo or at >= start else None
    if number == 1 and at >= start:
        field = 2, 8
    if number == 58 and ip is not None:
        field = None
    if field and len(data) >= start + field[1]:
        where = slice(start + field[0], start + field[0] + 2)
        old = int.from_bytes(data[where], "big")
        if old or number != 17:
            value = carried(old, data[changed], out[changed])
            out[where] = (value or (0xFFFF if number == 17 else 0)).to_bytes(2, "big")
    return bytes(out)


# What each task sends for a frame: the port and the bytes


def vxlan_end(data: bytes) -> Iterator[Sent]:
    udp, ip = top_of(data, UDP), ip_of(data)
    start = 14 + 4 * ip.ihl + 8 if ip is not None else 0
    if udp is not None and ip.dst == "192.0.2.1" and udp.dport == 4789 and len(data) >= start + 8:
        head = VXLAN(data[start:])
        if head.vni == 100 and int(head.flags) == 8:
            yield 0, data[start + 8 :]


def gre_end(data: bytes) -> Iterator[Sent]:
    gre, ip = top_of(data, GRE), ip_of(data)
    if gre is not None and ip.dst == "192.0.2.1" and data[14 + 4 * ip.ihl :][:4] == raw(GRE(proto=0x0800))[:4]:
        yield 0, data[:14] + data[14 + 4 * ip.ihl + 4 :]


def mpls_pop(data: bytes) -> Iterator[Sent]:
    if len(data) < 14 or Ether(data).type != 0x8847:
        yield 0, data
        return
    rest = data[14:]
    while len(rest) >= 4 and not MPLS(rest[:4]).s:
        rest = rest[4:]
    kept = len(rest) >= 4
    yield 0, data[:12] + (b"\x08\0" + rest[4:] if kept else b"\x88\x47" + rest)


def mark(data: bytes) -> Iterator[Sent]:
    ip, udp = ip_of(data), top_of(data, UDP)
    if ip is not None and udp is not None and (udp.dport == 5060 or 10000 <= udp.dport <= 19999):
        data = mended(data, 15, bytes([46 << 2 | ip.tos & 3]))
    elif ip is not None and ip.tos >> 2 == 46:
        data = mended(data, 15, bytes([ip.tos & 3]))
    yield 0, data


def answer(data: bytes) -> Iterator[Sent]:
    ping, ip = top_of(data, ICMP), ip_of(data)
    if ping is not None and ip.dst == "192.0.2.1" and ping.type == 8 and ping.code == 0:
        start, ends = 14 + 4 * ip.ihl, data[26:34]
        data = mended(data, 26, ends[4:] + ends[:4])
        data = mended(mended(data, 22, b"\x40"), start, b"\0")
        yield 0, data[6:12] + data[:6] + data[12:]


def hop_limit(data: bytes) -> Iterator[Sent]:
    at = 18 if data[12:14] == b"\x81\0" and len(data) >= 18 else 14
    if len(data) >= at + 40 and data[at - 2 : at] == b"\x86\xdd":
        if IPv6(data[at:]).hlim <= 1:
            return
        data = data[: at + 7] + bytes([data[at + 7] - 1]) + data[at + 8 :]
    yield 0, data


def ranges(data: bytes) -> Iterator[Sent]:
    ip, tcp, udp, icmp = ip_of(data), top_of(data, TCP), top_of(data, UDP), top_of(data, ICMP)
    if ip is None or ip.frag:
        return
    passes = tcp is not None and is_in(ip.src, "10.0.0.0/8", "192.168.0.0/16") and (tcp.dport in (22, 80, 443) or 8000 <= tcp.dport <= 8999)
    passes = passes or tcp is not None and is_in(ip.src, "203.0.113.8/29") and tcp.sport >= 1024 > tcp.dport
    passes = passes or udp is not None and not {udp.dport, udp.sport}.isdisjoint({53, 123})
    if passes or icmp is not None and icmp.type in (0, 3, 8, 11):
        yield 0, data


def mirror_dns(data: bytes) -> Iterator[Sent]:
    udp = reached(data, UDP)
    yield 0, data
    if udp is not None and 53 in (udp[0].sport, udp[0].dport):
        yield 1, data[:128]


def mss_clamp(data: bytes) -> Iterator[Sent]:
    tcp = reached(data, TCP)
    if tcp is not None and tcp[0].flags.S and data[tcp[1] + 12] >> 4 > 5:
        at = tcp[1] + 20
        kind, size, value = struct.unpack(">BBH", data[at : at + 4]) if len(data) >= at + 4 else (0, 0, 0)
        if (kind, size) == (2, 4) and value > 1360:
            data = mended(data, at + 2, (1360).to_bytes(2, "big"))
    yield 0, data


def anonymise(data: bytes) -> Iterator[Sent]:
    if ip_of(data) is not None:
        data = mended(mended(data, 28, bytes([data[28], 0])), 32, bytes([data[32], 0]))
    elif len(data) >= 54 and data[12:14] == b"\x86\xdd":
        data = mended(mended(data, 30, bytes(8)), 46, bytes(8))
    yield 0, data


def balance(data: bytes) -> Iterator[Sent]:
    ip, number = ip_of(data), 0
    if ip is not None:
        number = int(ipaddress.ip_address(ip.src)) ^ int(ipaddress.ip_address(ip.dst)) ^ ip.proto
        start = 14 + 4 * ip.ihl
        if ip.ihl >= 5 and ip.version == 4 and ip.proto in (6, 17) and not ip.frag and len(data) >= start + 4:
            number ^= int.from_bytes(data[start : start + 2], "big") ^ int.from_bytes(data[start + 2 : start + 4], "big")
        number ^= number >> 16
        number ^= number >> 8
    yield (number & 255) * 3 >> 8, data


DONE: dict[str, tuple[Callable[[bytes], Iterator[Sent]], int]] = {
    **{it.__name__: (it, 1) for it in (vxlan_end, gre_end, mpls_pop, mark, answer, hop_limit, ranges, mss_clamp, anonymise)},
    "mirror_dns": (mirror_dns, 2),
    "balance": (balance, 3),
}


def is_summed(data: bytes) -> bool:
    """Whether scapy gets the same bytes when it computes all checksums of a whole frame again."""
    frame = Ether(data)
    for layer in (IP, TCP, UDP, ICMP):
        if layer in frame and not (layer is UDP and not frame[UDP].chksum):
            del frame[layer].chksum
    return raw(frame) == data


def capture(records: list[tuple[int, bytes]]) -> bytes:
    """A capture of records, each with its second."""
    text = struct.pack("<IHHIIII", 0xA1B2C3D4, 2, 4, 0, 0, 262144, 1)
    return text + b"".join(struct.pack("<IIII", 1700000000 + k, 0, len(data), len(data)) + data for k, data in records)


def file_of(name: str, port: int, ports: int) -> pathlib.Path:
    """Where the capture of a port is."""
    return TASKS / (f"{name}.pcap" if ports == 1 else f"{name}{port}.pcap")


def main() -> int:
    if "--write" in sys.argv:
        (TASKS / "in.pcap").write_bytes(capture(list(enumerate(inputs()))))
    given = [data for data, _ in RawPcapReader(str(TASKS / "in.pcap"))]
    failed = 0
    for name, (task, ports) in DONE.items():
        sent: list[list[tuple[int, bytes]]] = [[] for _ in range(ports)]
        for k, data in enumerate(given):
            for port, out in task(data):
                sent[port].append((k, out))
        for port, records in enumerate(sent):
            if "--write" in sys.argv:
                file_of(name, port, ports).write_bytes(capture(records))
            failed += file_of(name, port, ports).read_bytes() != capture(records)
        changed = [(k, out) for records in sent for k, out in records if not given[k].startswith(out) and len(out) >= 34]
        # The first third was not cut: there scapy computes all checksums again.
        wrong = [k for k, out in changed if k < len(given) // 3 and is_summed(given[k]) and not is_summed(out)]
        failed += len(wrong)
        print(f"tasks/{name}: {sum(map(len, sent))} packets, {len(changed)} of them changed" + (f", wrong checksums: {wrong}" if wrong else ""))
    return 1 if failed else 0


if __name__ == "__main__":
    sys.exit(main())
