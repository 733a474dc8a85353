"""What random programs of the language pkt declare: headers of their own, and further places for known headers."""
from random import Random

from pkt_model.reader import read
from pkt_model.syntax import Header

Lines = list[str]

# What each header may ask of the one that it follows, so that it is there now and then.
ASKED: dict[str, tuple[str, ...]] = {
    "eth": ("eth.type == 0x88b5", "eth.type == 0x88b5", "0x88b5 == eth.type", "eth.type in {0x88b5, 0x0800}"),
    "vlan": ("vlan.type == 0x88b5", "vlan.vid != 5"),
    "ipv4": ("ipv4.proto == 50", "ipv4.proto in {6, 17}", "ipv4.ttl > 1", "ipv4.proto == 17 and ipv4.frag == 0", "ipv4.tos & 1"),
    "ipv6": ("ipv6.next == 17", "ipv6.hops != 1"),
    "udp": ("udp.dport == 53", "udp.sport != 53", "udp.sum != 0"),
    "tcp": ("tcp.flags & 2", "tcp.dport == 80"),
    "gre": ("gre.type == 0x0800", "gre.flags == 0"),
    "": ("",),
}
# Where headers of a program's own may begin, the likely places more often.
PLACES = ("eth", "eth", "vlan", "ipv4", "ipv4", "ipv6", "udp", "tcp", "gre", "")
# The known headers that may follow one of the program's own.
FURTHER = ("ipv4", "ipv6", "tcp", "udp", "udp", "icmp", "l4", "gre", "arp", "vxlan")
# The IPv4 header that an ICMP error quotes, and a header after it.
QUOTED = """header quoted { vhl:8 tos:8 len:16 id:16 pieces:16 ttl:8 proto:8 sum:16 src:32 dst:32 } after icmp if icmp.type == 3
       length (v & 15) * 4 for v:8 in 0x45..0x4f sum sum
header inner { sport:16 dport:16 len:16 sum:16 } after quoted if quoted.proto == 17 and quoted.pieces & 0x1fff == 0
       sum sum payload over quoted.src quoted.dst inner.len optional
"""
# The hop-by-hop options of IPv6, with TCP or UDP after them.
OPTIONS6 = """header options6 {{ next:8 len:8 rest:48 }} after ipv6 if ipv6.next == 0
       length ((v & 255) + 1) * 8 for v:16 in {first:#06x}..{first:#06x} + 3
extend {name} after options6 if options6.next == {proto}
"""


def fields_of(rng: Random) -> tuple[Lines, int]:
    """The fields of a header, and how many bits they have. Every third header is narrow: its bits share the bytes of one load."""
    fields, at, is_narrow = Lines(), 0, rng.random() < 0.35
    for number in range(rng.choice((2, 2, 3) if is_narrow else (1, 2, 3, 4))):
        count = rng.choice((1, 3, 4, 5, 12, 20) if is_narrow else (8, 8, 16, 16, 32, 48, 64, 4, 3, 13, 20, 24, 40))
        count = min(count, 64 - at % 8)
        constant = f"={rng.getrandbits(count)}"
        default = rng.choice(("", *([constant] * 2 if is_narrow else ("", "")), constant, "=auto" if count == 16 and at % 16 == 0 else ""))
        default = "" if default == "=auto" and "=auto" in " ".join(fields) else default
        fields.append(f"f{number}:{count}{default}")
        at += count
    if at % 8:
        fields.append(f"pad:{8 - at % 8}{rng.choice(('', f'={rng.getrandbits(8 - at % 8)}'))}")
        at += 8 - at % 8
    return fields, at


def asked_of_own(rng: Random, header: Header) -> str:
    """What a header may ask of one of the program's own: most often what holds for most bytes."""
    name, bits = rng.choice([(name, bits.count) for name, bits in header.fields.items()])
    field, value = f"{header.name}.{name}", rng.getrandbits(bits)
    return rng.choice((f"{field} != {value}", f"{field} != {value}", f"{field} == {value}", f"{field} in 0..{value}", f"not ({field} == 1)"))


def after(rng: Random, places: Lines, headers: dict[str, Header]) -> str:
    """The `after` clauses of a header."""
    asks = {name: rng.choice(ASKED[name]) if name in ASKED else asked_of_own(rng, headers[name]) for name in dict.fromkeys(places)}
    return "".join(f" after {name} if {asked}" for name, asked in asks.items() if name)


def own_header(rng: Random, name: str, places: Lines, headers: dict[str, Header]) -> str:
    """A header of the program's own, which may follow one or more others."""
    fields, at = fields_of(rng)
    texts = list(fields)
    if rng.random() < 0.3:
        begin = rng.randrange(at)
        texts.append(f"second@{begin}:{min(rng.choice((1, 4, 8, 11)), at - begin)}")
    kind, last = rng.random(), fields[-1].split(":")[0]
    if kind < 0.25 and {*places} <= {"eth", "vlan"} and ":16" in fields[-1]:
        asks = "".join(f" after {it} if {it}.type == 0x88b5" for it in dict.fromkeys(places))
        return f"header {name} {{ {' '.join(texts)} }}{asks} next {last}"
    text = f"header {name} {{ {' '.join(texts)} }}{after(rng, places, headers)}"
    if kind < 0.4:
        return f"{text} length {own_length(rng, at // 8, places)}"
    return text if kind < 0.75 else text + own_sum(rng, fields, headers)


def own_length(rng: Random, size: int, places: Lines) -> str:
    """A formula of a length: few values, or as many as IPv4 has where such a header may be."""
    if places[0] in ("eth", "ipv4") and rng.random() < 0.2:
        return f"{size} + (v & 15) * {rng.choice((1, 2, 4))} for v:8 in 0x45..0x4f"
    return f"{size} + ({rng.choice(('v & 3', 'v & 3', 'v & 63', 'v - 64'))}) * {rng.choice((1, 2, 4, 4, 8, 100, 30_000))} for v:8 in 0x40..0x43"


def own_sum(rng: Random, fields: Lines, headers: dict[str, Header]) -> str:
    """A checksum of a header of the program's own, where one of its fields can have it."""
    at = 0
    for text in fields:
        name, count = text.split("=")[0].split(":")
        if "=auto" in " ".join(fields) and "=auto" not in text:
            at += int(count)
            continue
        if "=auto" in text:
            return f" sum {name}{rng.choice(('', ' optional'))}"
        if int(count) == 16 and at % 16 == 0:
            own = [f" over {it}.{field}" for it, header in headers.items() if it.startswith("mine") for field in header.fields if field not in header.wide]
            over = rng.choice(("", "", " over ipv4.src ipv4.dst", " over eth.src", " over ipv4.ttl", " over ipv6.src", *own[:2]))
            return f" sum {name}{rng.choice(('', ' payload'))}{over}{rng.choice(('', ' optional'))}"
        at += int(count)
    return ""


def before(name: str, headers: dict[str, Header]) -> set[str]:
    """A header, and all that may come before it."""
    found, pending = set[str](), [name]
    while pending:
        it = pending.pop()
        pending += [other for other in headers[it].after if other not in found]
        found.add(it)
    return found


def extended(rng: Random, name: str, headers: dict[str, Header]) -> str:
    """A known header that may follow one of the program's own too, if none comes before itself then."""
    fit = [it for it in FURTHER if it not in before(name, headers) and name not in headers[it].after]
    return f"extend {rng.choice(fit)} after {name} if {asked_of_own(rng, headers[name])}\n" if fit else ""


def own_headers(rng: Random, prelude: str) -> str:
    """One to three headers of the program's own, and what else may follow them."""
    text = ""
    for number in range(rng.choice((1, 1, 2, 2, 3))):
        headers = read(text, prelude).headers
        own = [f"mine{k}" for k in range(number)]
        places = [rng.choice((*PLACES, *own * 6)) for _ in range(rng.choice((1, 1, 1, 2, 2, 3)))]
        text += own_header(rng, f"mine{number}", [it for it in places if it] or [""], headers) + "\n"
        if rng.random() < 0.25:
            text += extended(rng, f"mine{number}", read(text, prelude).headers)
    return text


def declared(rng: Random, prelude: str) -> str:
    """The headers that a program declares; most often none."""
    text = own_headers(rng, prelude) if rng.random() < 0.3 else ""
    text += QUOTED if rng.random() < 0.1 else ""
    if rng.random() < 0.06:
        name, proto = rng.choice((("tcp", 6), ("udp", 17)))
        text += OPTIONS6.format(name=name, proto=proto, first=proto << 8)
    return text
