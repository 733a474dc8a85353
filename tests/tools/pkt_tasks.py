#!/usr/bin/env python3
"""Compiles programs of real tasks, runs them by tests/model, and compares what they send with what scapy says.

Usage: tests/tools/pkt_tasks.py [NAME ..]   (needs scapy, and no program; without scapy it says so and passes)
The frames are those of tests/program/tasks_by_scapy.py and each task's own, or those of edge_tasks.py, router_tasks.py and service_tasks.py: options, tags, fragments, padding, and
the same cut short. A reference knows nothing of the compiler: it takes frames apart and builds them, with scapy or byte by byte. The programs
are in tests/pkt_tasks. Prints a line for each task; exits with 1 if one differs."""
import ipaddress
import pathlib
import struct
import sys
from collections.abc import Callable, Iterable, Iterator

from paths import TOP

try:
    from scapy.all import ARP, GRE, ICMP, IP, TCP, UDP, Dot1Q, Ether, IPv6, Packet, Raw, raw
    from scapy.contrib.mpls import MPLS
    from scapy.layers.dhcp import BOOTP, DHCP
    from scapy.layers.dns import DNS, DNSQR
    from scapy.layers.inet6 import ICMPv6EchoRequest
    from scapy.layers.l2 import Dot1AD
    from scapy.layers.ppp import PPPoE
    from scapy.layers.vxlan import VXLAN
except ImportError:
    print("pkt_tasks: skipped, as scapy is not installed")
    sys.exit(0)

import edge_tasks
import router_tasks
import service_tasks
from model import programs, rules
from model.machine import Env, Input, Pool, Port, Ring, World, run
from tasks_by_scapy import inputs, ip_of, is_in, mended, reached, top_of
from pkt.compiler import compile_text

FOLDER = TOP / "tests/pkt_tasks"
PORTS = 4
ENV = Env([Pool(64, 0, 2176), Pool(64, 0, 0)], [{}], [Ring(4, (0, 0, 0, 0, 0, 64))], [Port(0, 1, 32)] * PORTS)
DROPS = programs.assemble(b"free p0\nexit\n")
Sent = tuple[int, bytes]
ETHER = Ether(dst="02:00:00:00:00:0b", src="02:00:00:00:00:0a")


def checksum(data: bytes) -> int:
    """An Internet checksum."""
    total = sum(struct.unpack(f">{(len(data) + 1) // 2}H", data + bytes(len(data) % 2)))
    while total >> 16:
        total = (total & 0xFFFF) + (total >> 16)
    return total ^ 0xFFFF


def kind(data: bytes) -> int:
    """The Ethernet type, or -1."""
    return int.from_bytes(data[12:14], "big") if len(data) >= 14 else -1


def six_of(data: bytes) -> IPv6 | None:
    """The IPv6 header of an untagged frame."""
    return IPv6(data[14:]) if kind(data) == 0x86DD and len(data) >= 54 else None


def start(data: bytes) -> int:
    """Where what IPv4 carries begins, in a frame that has IPv4."""
    return 14 + 4 * (data[14] & 15)


# What each task sends for a frame


def firewall(data: bytes) -> Iterator[Sent]:
    """Ranges and sets, for IPv4 and IPv6."""
    tcp, udp, ip, six = reached(data, TCP), reached(data, UDP), ip_of(data), six_of(data)
    if tcp and (tcp[0].dport == 22 or 6000 <= tcp[0].dport <= 6063):
        return
    if udp and 33434 <= udp[0].dport <= 33534:
        return
    if ip is not None and is_in(ip.src, "10.0.0.0/8", "172.16.0.0/12"):
        return
    if six is not None and is_in(six.src, "2001:db8::/48", "fe80::/10"):
        return
    yield 0, data


def dnat(data: bytes) -> Iterator[Sent]:
    """Another target address and port."""
    tcp, ip = top_of(data, TCP), ip_of(data)
    if tcp is not None and ip.dst == "192.0.2.80" and tcp.dport == 8000:
        data = mended(data, 30, bytes([10, 0, 0, 8]))
        data = mended(data, start(data) + 2, (80).to_bytes(2, "big"))
    yield 0, data


def nat_error(data: bytes) -> Iterator[Sent]:
    """Quoted addresses of ICMP errors, with every checksum made again."""
    ip = ip_of(data)
    if ip is None or data[14] != 0x45 or ip.proto != 1 or ip.frag or len(data) < 62 or data[34] != 3 or data[42] != 0x45 or ip.dst != "198.51.100.1":
        yield 0, data
        return
    out, inside = bytearray(data), bytes([10, 0, 0, 7])
    quoted = data[42:]
    out[30:34] = inside
    out[24:26] = bytes(2)
    out[24:26] = checksum(out[14:34]).to_bytes(2, "big")
    has_udp = quoted[9] == 17 and not int.from_bytes(quoted[6:8], "big") & 0x1FFF and len(quoted) >= 28
    out[54:58] = inside
    out[52:54] = bytes(2)
    out[52:54] = checksum(out[42:62]).to_bytes(2, "big")
    if has_udp and quoted[26:28] != bytes(2):
        total = (int.from_bytes(quoted[26:28], "big") ^ 0xFFFF) + sum(0xFFFF - it for it in struct.unpack(">2H", quoted[12:16])) + sum(struct.unpack(">2H", inside))
        while total >> 16:
            total = (total & 0xFFFF) + (total >> 16)
        out[68:70] = ((total ^ 0xFFFF) or 0xFFFF).to_bytes(2, "big")
    # The checksum of a message that is cut stays as wrong as it was.
    wrong = checksum(data[34:])
    out[36:38] = bytes(2)
    total = checksum(out[34:]) + (wrong ^ 0xFFFF) if wrong else checksum(out[34:])
    out[36:38] = ((total & 0xFFFF) + (total >> 16)).to_bytes(2, "big")
    yield 0, bytes(out)


def pppoe_in(data: bytes) -> Iterator[Sent]:
    """Without PPPoE."""
    if kind(data) == 0x8864 and len(data) >= 22 and data[20:22] in (b"\0\x21", b"\0\x57"):
        data = data[:12] + (b"\x08\0" if data[21] == 0x21 else b"\x86\xdd") + data[22:]
    yield 0, data


def pppoe_out(data: bytes) -> Iterator[Sent]:
    """In PPPoE of session 7."""
    ip = ip_of(data)
    if ip is not None:
        yield 0, raw(Ether(dst=data[:6], src=data[6:12], type=0x8864) / PPPoE(sessionid=7, len=ip.len + 2)) + b"\0\x21" + data[14:]


def vxlan_in(data: bytes) -> Iterator[Sent]:
    """The inner frame, by its network to a port."""
    udp = reached(data, UDP)
    if udp is None or udp[0].dport != 4789 or len(data) < udp[1] + 16:
        return
    vni = VXLAN(data[udp[1] + 8 :]).vni
    if data[udp[1] + 8] == 8 and vni in (7, 100):
        yield int(vni == 100), data[udp[1] + 16 :]


def vxlan_out(data: bytes) -> Iterator[Sent]:
    """In VXLAN of network 100."""
    ip = ip_of(data)
    if ip is not None and ip.len <= 1400:
        size = ip.len + 14
        outer = Ether(dst="02:00:00:00:01:02", src="02:00:00:00:01:01") / IP(src="198.51.100.1", dst="198.51.100.2", id=0, len=size + 36, flags=2, proto=17)
        yield 0, raw(outer) + raw(UDP(sport=49152, dport=4789, len=size + 16, chksum=0)) + raw(VXLAN(vni=100, flags=8)) + data


def gre_key(data: bytes) -> Iterator[Sent]:
    """What GRE with the key 5 carries."""
    gre, ip = top_of(data, GRE), ip_of(data)
    if gre is not None and data[start(data) :][:4] == b"\x20\0\x08\0" and data[start(data) + 4 :][:4] == (5).to_bytes(4, "big"):
        yield 0, data[:14] + data[start(data) + 8 :]


def ipip_out(data: bytes) -> Iterator[Sent]:
    """IPv4 in IPv4."""
    ip = ip_of(data)
    if ip is not None and ip.len <= 1480:
        yield 0, data[:14] + raw(IP(src="198.51.100.1", dst="198.51.100.2", id=0, len=ip.len + 20, ttl=64, proto=4)) + data[14:]


def ipip_in(data: bytes) -> Iterator[Sent]:
    """The inner IPv4 of IPv4."""
    ip = ip_of(data)
    if ip is not None and ip.version == 4 and ip.ihl >= 5 and ip.proto == 4 and ip.frag == 0 and len(data) >= start(data):
        data = data[:14] + data[start(data) :]
    yield 0, data


def mpls_swap(data: bytes) -> Iterator[Sent]:
    """Another label, one hop less."""
    if kind(data) == 0x8847 and len(data) >= 18:
        entry = MPLS(data[14:18])
        if entry.ttl <= 1 or entry.label != 1:
            return
        yield 1, data[:14] + raw(MPLS(label=2001, cos=entry.cos, s=entry.s, ttl=entry.ttl - 1)) + data[18:]


def mpls_push(data: bytes) -> Iterator[Sent]:
    """A label by the network."""
    ip = ip_of(data)
    if ip is not None and is_in(ip.dst, "192.0.2.0/24"):
        data = data[:12] + b"\x88\x47" + raw(MPLS(label=77, s=1, ttl=ip.ttl)) + data[14:]
    yield 0, data


def ecmp(data: bytes) -> Iterator[Sent]:
    """One of four ports by the flow, of IPv4 and IPv6."""
    ip, six, number = ip_of(data), six_of(data), 0
    ports = reached(data, TCP) or reached(data, UDP)
    if ip is not None:
        number = int(ipaddress.ip_address(ip.src)) ^ int(ipaddress.ip_address(ip.dst))
    elif six is not None:
        for address in (six.src, six.dst):
            value = int(ipaddress.ip_address(address))
            number ^= value >> 64 ^ value & (1 << 64) - 1
    top = ports[1] if ports else None
    proto = ip.proto if ip is not None and not ip.frag and ip.version == 4 and ip.ihl >= 5 else six.nh if six is not None else 0
    if top is None and proto in (6, 17):
        at = start(data) if ip is not None else 54
        top = at if len(data) >= at + 4 else None
    if top is not None:
        number ^= int.from_bytes(data[top : top + 2], "big") ^ int.from_bytes(data[top + 2 : top + 4], "big")
    number ^= number >> 32
    number &= 0xFFFFFFFF
    number ^= number >> 16
    number ^= number >> 8
    yield number & 3, data


def sixto4_out(data: bytes) -> Iterator[Sent]:
    """IPv6 in IPv4, to the address that 2002::/16 has."""
    six = six_of(data)
    if six is not None and is_in(six.dst, "2002::/16") and six.plen <= 1400:
        end = ipaddress.ip_address(six.dst).packed[2:6]
        outer = IP(src="198.51.100.1", dst=str(ipaddress.IPv4Address(end)), id=0, len=six.plen + 60, ttl=64, proto=41)
        yield 0, data[:12] + b"\x08\0" + raw(outer) + data[14:]


def sixto4_in(data: bytes) -> Iterator[Sent]:
    """The IPv6 in IPv4."""
    ip = ip_of(data)
    if ip is not None and data[14] == 0x45 and ip.proto == 41 and ip.frag == 0 and len(data) >= 74:
        yield 0, data[:12] + b"\x86\xdd" + data[34:]


def dhcp_guard(data: bytes) -> Iterator[Sent]:
    """No answers of DHCP servers."""
    udp = reached(data, UDP)
    if not (udp and udp[0].sport in (67, 547)):
        yield 0, data


def ntp_guard(data: bytes) -> Iterator[Sent]:
    """NTP only in client and server mode."""
    udp = reached(data, UDP)
    if udp and udp[0].dport == 123 and len(data) >= udp[1] + 9 and data[udp[1] + 8] & 7 not in (3, 4):
        return
    yield 0, data


def dns_label(data: bytes) -> Iterator[Sent]:
    """No question for names that begin with `evil`."""
    udp = reached(data, UDP)
    if udp and udp[0].dport == 53 and len(data) >= udp[1] + 25 and data[udp[1] + 20 : udp[1] + 25] == b"\4evil":
        return
    yield 0, data


def siit(data: bytes) -> Iterator[Sent]:
    """UDP over IPv6 as UDP over IPv4 (RFC 7915), without extension headers."""
    six = six_of(data)
    if six is None or six.nh != 17 or len(data) < 62 or not is_in(six.src, "64:ff9b::/96") or not is_in(six.dst, "64:ff9b::/96") or six.hlim <= 1:
        return
    ends = [ipaddress.ip_address(it).packed[12:] for it in (six.src, six.dst)]
    head = IP(src=str(ipaddress.IPv4Address(ends[0])), dst=str(ipaddress.IPv4Address(ends[1])), id=0, flags=2, len=six.plen + 20, ttl=six.hlim - 1, proto=17)
    # The prefix 64:ff9b:: of both addresses leaves the sum of the pseudo header.
    old = int.from_bytes(data[60:62], "big")
    total = (old ^ 0xFFFF) + 2 * (0xFFFF - 0x64) + 2 * (0xFFFF - 0xFF9B)
    while total >> 16:
        total = (total & 0xFFFF) + (total >> 16)
    new = ((total ^ 0xFFFF) or 0xFFFF) if old else 0
    yield 0, raw(Ether(dst=ETHER.src, src=ETHER.dst, type=0x0800)) + raw(head) + data[54:60] + new.to_bytes(2, "big") + data[62:]


def time_exceeded(data: bytes) -> Iterator[Sent]:
    """ICMP time exceeded for what has no hop left: the header and eight bytes of it."""
    ip = ip_of(data)
    if ip is None or data[14] != 0x45 or ip.ttl > 1 or len(data) < 42:
        return
    quoted = data[14:42]
    message = bytes([11, 0, 0, 0, 0, 0, 0, 0]) + quoted
    message = message[:2] + checksum(message).to_bytes(2, "big") + message[4:]
    yield 0, raw(Ether(dst=ETHER.src, src=ETHER.dst, type=0x0800)) + raw(IP(src="192.0.2.254", dst=ip.src, id=0, ttl=64, proto=1, len=56)) + message


def qinq_out(data: bytes) -> Iterator[Sent]:
    """A service tag on tagged frames."""
    if kind(data) == 0x8100 and len(data) >= 18:
        data = data[:12] + b"\x88\xa8" + struct.pack(">H", 0xA064) + data[12:]
    yield 0, data


def remark(data: bytes) -> Iterator[Sent]:
    """Best effort for what is not from within, of IPv4 and IPv6, also tagged."""
    at = 12
    if data[12:14] == b"\x88\xa8" and len(data) >= 18:
        at = 16
    if data[at : at + 2] == b"\x81\0" and len(data) >= at + 6:
        at += 4
    out = bytearray(data)
    if data[at : at + 2] == b"\x08\0" and len(data) >= at + 22:
        if not is_in(str(ipaddress.IPv4Address(data[at + 14 : at + 18])), "10.0.0.0/8") and data[at + 3] & 0xFC:
            old, new = data[at + 2] << 8 | data[at + 3], data[at + 2] << 8 | data[at + 3] & 3
            total = (int.from_bytes(data[at + 12 : at + 14], "big") ^ 0xFFFF) + (old ^ 0xFFFF) + new
            while total >> 16:
                total = (total & 0xFFFF) + (total >> 16)
            out[at + 3], out[at + 12 : at + 14] = new & 0xFF, (total ^ 0xFFFF).to_bytes(2, "big")
    elif data[at : at + 2] == b"\x86\xdd" and len(data) >= at + 42 and not is_in(str(ipaddress.IPv6Address(data[at + 10 : at + 26])), "2001:db8:a::/48"):
        value = int.from_bytes(data[at + 2 : at + 4], "big") & ~(0x3F << 6)
        out[at + 2 : at + 4] = value.to_bytes(2, "big")
    yield 0, bytes(out)


def arp_reply(data: bytes) -> Iterator[Sent]:
    """The answer to who has 192.0.2.1."""
    if kind(data) == 0x0806 and len(data) >= 42:
        ask = ARP(data[14:42])
        if ask.op == 1 and ask.pdst == "192.0.2.1" and data[14:20] == b"\0\1\x08\0\6\4":
            me = "02:00:00:00:00:01"
            yield 0, raw(Ether(dst=data[6:12], src=me, type=0x0806) / ARP(op=2, hwsrc=me, psrc="192.0.2.1", hwdst=ask.hwsrc, pdst=ask.psrc)) + data[42:]


def pmtu(data: bytes) -> Iterator[Sent]:
    """What is longer than 600 bytes leaves at port 1, fragments at port 2."""
    ip = ip_of(data)
    is_piece = ip is not None and (ip.frag or ip.flags.MF)
    yield 2 if is_piece else 1 if len(data) > 600 else 0, data


def tcp_reset_guard(data: bytes) -> Iterator[Sent]:
    """No flags that no system sends: SYN and FIN, none, or all."""
    tcp = reached(data, TCP)
    if tcp:
        flags = data[tcp[1] + 13]
        if flags & 3 == 3 or flags & 0x3F in (0, 0x3F):
            return
    yield 0, data


TASKS: dict[str, Callable[[bytes], Iterable[Sent]]] = {
    it.__name__: it for it in (
        firewall, dnat, nat_error, pppoe_in, pppoe_out, vxlan_in, vxlan_out, gre_key, ipip_out, ipip_in, mpls_swap, mpls_push, ecmp, sixto4_out, sixto4_in,
        dhcp_guard, ntp_guard, dns_label, siit, time_exceeded, qinq_out, remark, arp_reply, pmtu, tcp_reset_guard,
    )
}  # fmt: skip


def frames() -> list[bytes]:
    """Frames for all tasks: those of tests/program/tasks_by_scapy.py and more, some padded, and all of these cut too."""
    inner = IP(src="10.0.0.7", dst="203.0.113.5", id=9) / UDP(sport=1000, dport=2000) / Raw(b"abcdefgh")
    more: list[Packet] = [ETHER / ARP(op=op, psrc="192.0.2.9", pdst=end) for op in (1, 2) for end in ("192.0.2.1", "192.0.2.2")]
    for quoted in (inner, IP(raw(inner)[:28] + b""), IP(src="10.0.0.7", dst="203.0.113.5") / TCP(sport=5, dport=6), IP(src="1.2.3.4", frag=5, proto=17) / Raw(bytes(16))):
        for code in (0, 1):
            more.append(ETHER / IP(src="203.0.113.5", dst="198.51.100.1") / ICMP(type=3, code=code) / Raw(raw(quoted)))
    no_sum = IP(src="10.0.0.7", dst="203.0.113.5") / UDP(sport=1, dport=2, chksum=0) / Raw(b"abc")
    more.append(ETHER / IP(src="203.0.113.5", dst="198.51.100.1") / ICMP(type=3) / Raw(raw(no_sum)))
    more += [Ether(raw(ETHER)[:12] + struct.pack(">H", 0x8864) + raw(PPPoE(sessionid=7)) + struct.pack(">H", proto) + raw(inner)) for proto in (0x21, 0x57, 0xC021)]
    more += [ETHER / IP(dst="192.0.2.9") / inner, ETHER / IP(raw(IP(dst="192.0.2.9", ihl=7, proto=4, len=28 + len(inner))) + bytes([1] * 8) + raw(inner))]
    more += [ETHER / IP(dst="192.0.2.9", proto=41) / IPv6(src="2002:c000:201::1", dst="2001:db8::5") / UDP(sport=5, dport=6)]
    more += [ETHER / IPv6(src="2001:db8::5", dst=end) / UDP(sport=5, dport=6) / Raw(b"xyz") for end in ("2002:c000:201::1", "2002:a00:1::", "2001:db8::9")]
    more += [ETHER / IPv6(src="64:ff9b::10.0.0.1", dst=end, hlim=hops) / UDP(sport=5, dport=6) / Raw(b"xyz") for end in ("64:ff9b::192.0.2.1", "2001:db8::1") for hops in (1, 9)]
    more += [ETHER / IPv6(src=f"2001:db8:{k}::5", dst="2001:db8:9::1", tc=0xB8) / TCP(sport=5, dport=port) for k in ("0", "a", "b") for port in (22, 80, 6010, 6064)]
    more += [ETHER / IPv6(src="2001:db8:c::5") / UDP(sport=sport, dport=dport) / Raw(b"\x17" * 12) for sport, dport in ((547, 546), (123, 123), (9, 33434), (9, 33535))]
    more += [ETHER / IPv6(src="2001:db8:c::5", dst="fe80::1") / ICMPv6EchoRequest(data=b"ping")]
    for source, target in ((68, 67), (67, 68)):
        more.append(ETHER / IP(src="0.0.0.0", dst="255.255.255.255") / UDP(sport=source, dport=target) / BOOTP() / DHCP(options=[("message-type", 1), "end"]))
    more += [ETHER / IP(src="192.0.2.5") / UDP(sport=9, dport=123) / Raw(bytes([mode]) + bytes(47)) for mode in (0x17, 0x1B, 0x23, 0x24, 0x2A)]
    more += [ETHER / IP(src="192.0.2.5") / UDP(sport=9, dport=53) / DNS(rd=1, qd=DNSQR(qname=name)) for name in ("evil.example", "evil2.example", "good.evil", "evil")]
    more += [ETHER / IP(src="192.0.2.5", dst="192.0.2.77", ttl=ttl, tos=tos) / TCP(flags=flags) for ttl in (0, 1, 2) for tos in (0, 0xB8, 3) for flags in ("S", "SF", "", "FSRPAU")]
    more += [ETHER / Dot1AD(vlan=9) / Dot1Q(vlan=5) / it for it in (inner, IPv6(src="2001:db8:b::1", tc=0xFC) / UDP())]
    more += [ETHER / Dot1Q(vlan=5) / it for it in (inner, IP(src="192.0.2.5", tos=0x48) / UDP(), IPv6(src="2001:db8:b::1", tc=0xFF) / UDP())]
    more += [ETHER / MPLS(label=label, cos=3, s=1, ttl=ttl) / inner for label in (1, 2) for ttl in (0, 1, 2, 255)]
    more += [ETHER / IP(dst="192.0.2.9", flags=flags, frag=frag) / UDP() / Raw(bytes(size)) for flags in (0, 1) for frag in (0, 9) for size in (0, 560, 1200)]
    whole = [raw(it) for it in more]
    padded = [it.ljust(60, b"\0") for it in whole if len(it) < 60]
    cut = [it[:size] for it in whole for size in (len(it) - 1, len(it) * 2 // 3, len(it) // 2, 33, 34, 38)]
    return whole + padded + cut + inputs()


def sent(name: str, given: list[bytes]) -> list[list[Sent]]:
    """What the compiled program of a task sends for each frame; tests/model checks it first."""
    node = programs.assemble(compile_text((FOLDER / f"{name}.pkt").read_text()).encode())
    assert isinstance(node, list) and rules.infer(ENV, node, rules.entry_row(ENV, 0)) is not None, "the checker refuses the program"
    world = World(ENV, [node, *[DROPS] * PORTS], frozenset())
    done = run(world, [Input([(k, 0, data) for k, data in enumerate(given)], "whole"), *[Input([], "whole")] * (PORTS - 1)])
    found: list[list[Sent]] = [[] for _ in given]
    for port, records in enumerate(done.sent):
        for k, _, data in records:
            found[k].append((port, data))
    return found


def main() -> int:
    """Compares all tasks, or those that are named."""
    groups = [(TASKS, frames()), *((it.TASKS, it.frames()) for it in (edge_tasks, router_tasks, service_tasks))]
    tasks, failed = {name: task for group, _ in groups for name, task in group.items()}, 0
    for name in sys.argv[1:] or tasks:
        given = next(own for group, own in groups if name in group)
        came = sent(name, given)
        wrong = [k for k, data in enumerate(given) if sorted(tasks[name](data)) != came[k]]
        changed = sum(1 for data, out in zip(given, came) for _, it in out if it != data)
        print(f"pkt_tasks/{name}: {len(given)} frames, {sum(map(len, came))} sent, {changed} of them changed, {len(wrong)} otherwise", flush=True)
        for k in wrong[:2]:
            print(f"  frame  {given[k].hex()}\n  scapy  {[(port, it.hex()) for port, it in tasks[name](given[k])]}\n  came   {[(port, it.hex()) for port, it in came[k]]}")
        failed += len(wrong)
    return 1 if failed else 0


if __name__ == "__main__":
    sys.exit(main())
