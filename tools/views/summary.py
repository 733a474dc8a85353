"""What a record is, in the words of tcpdump: its VLAN tags, addresses, ports and protocol."""
PROTOCOLS = {1: "ICMP", 2: "IGMP", 6: "TCP", 17: "UDP", 47: "GRE", 50: "ESP", 58: "ICMP6", 132: "SCTP"}
WITH_PORTS = (6, 17)
IPV4, ARP, IPV6 = 0x0800, 0x0806, 0x86DD
# The Ethernet types of VLAN tags, of which a record has up to two.
TAGS = (b"\x81\x00", b"\x88\xa8")


def word_at(data: bytes, at: int) -> int:
    """Two bytes as a number; what is missing counts as 0."""
    return int.from_bytes(data[at:at + 2].ljust(2, b"\0"), "big")


def untagged(record: bytes) -> tuple[list[int], bytes]:
    """The numbers of a record's VLANs, and what follows its addresses and its VLAN tags: its Ethernet type, and what has that type."""
    vlans, rest = [], record[12:]
    while len(vlans) < 2 and rest[:2] in TAGS and len(rest) >= 4:
        vlans.append(word_at(rest, 2) % 4096)
        rest = rest[4:]
    return vlans, rest


def address(data: bytes) -> str:
    """An address: of IPv6 with all its parts, or of IPv4."""
    if len(data) == 4:
        return ".".join(map(str, data))
    return ":".join(f"{word_at(data, at):x}" for at in range(0, 16, 2))


def protocol(number: int, header: bytes, is_first: bool) -> str:
    """A protocol, and its ports if it is TCP or UDP and has them: a later fragment has none."""
    name = PROTOCOLS.get(number, f"protocol {number}")
    if number in WITH_PORTS and is_first and len(header) >= 4:
        return f"{name} {word_at(header, 0)} > {word_at(header, 2)}"
    return name


def payload(ethertype: int, body: bytes) -> str:
    """What follows an Ethernet type."""
    if ethertype == ARP:
        return "ARP"
    if ethertype == IPV4:
        if len(body) < 20:
            return "IP cut short"
        then = protocol(body[9], body[4 * (body[0] % 16):], word_at(body, 6) % 8192 == 0)
        return f"IP {address(body[12:16])} > {address(body[16:20])} {then}"
    if ethertype == IPV6:
        if len(body) < 40:
            return "IP6 cut short"
        return f"IP6 {address(body[8:24])} > {address(body[24:40])} {protocol(body[6], body[40:], True)}"
    return f"ethertype 0x{ethertype:04x}"


def summary(record: bytes) -> str:
    """What a record is."""
    if len(record) < 14:
        return "no Ethernet header"
    vlans, rest = untagged(record)
    tags = "".join(f"vlan {vlan} " for vlan in vlans)
    return tags + ("cut short" if len(rest) < 2 else payload(word_at(rest, 0), rest[2:]))
