"""Numbers and conditions of the language pkt, at random."""
import re
from random import Random

from pkt_model.syntax import Header

# Values at which the frames that are made take one way or another.
OFTEN: dict[str, tuple[str, ...]] = {
    "eth.type": ("0x0800", "0x0806", "0x86dd", "0x8100", "0x88a8", "0x8847", "0x88b5"),
    "vlan.type": ("0x0800", "0x86dd", "0x8100", "0x8847"),
    "vlan.vid": ("5", "100"),
    "qinq.vid": ("5", "100"),
    "ipv4.proto": ("1", "6", "17", "47"),
    "ipv4.ihl": ("5", "6", "15"),
    "ipv4.vhl": ("0x45", "0x46"),
    "ipv4.frag": ("0",),
    "ipv4.pieces": ("0",),
    "ipv4.ttl": ("1", "2", "64"),
    "ipv4.src": ("10.1.2.3", "192.0.2.80", "203.0.113.9"),
    "ipv4.dst": ("10.0.0.5", "192.0.2.7", "8.8.8.8"),
    "ipv6.next": ("6", "17", "58"),
    "ipv6.hops": ("1", "64"),
    "tcp.dport": ("80", "22", "443"),
    "tcp.flags": ("2", "18", "16"),
    "udp.dport": ("53", "4789", "80"),
    "l4.dport": ("80", "443", "53"),
    "icmp.type": ("8", "0", "3"),
    "mpls.bottom": ("0", "1"),
    "arp.op": ("1", "2"),
    "gre.type": ("0x0800",),
}
NETS = ("10.0.0.0/8", "192.0.2.0/24", "203.0.113.9/32", "0.0.0.0/0", "8.0.0.0/6")
LENGTHS = (0, 1, 13, 14, 34, 40, 42, 54, 60, 64, 74, 100, 128, 1500)
# How often a header is chosen.
WEIGHTS = {"eth": 6, "vlan": 4, "qinq": 2, "mpls": 2, "arp": 1, "ipv4": 12, "ipv6": 2, "tcp": 6, "udp": 5, "icmp": 2, "icmp6": 1, "l4": 2, "gre": 2, "vxlan": 1}


# A constant, and a field.
CONSTANT, FIELD = re.compile(r"[0-9][0-9a-fx.:]*|K[0-9]+"), re.compile(r"[a-z][a-z0-9_]*\.[a-z][a-z0-9_]*")
ZEROS = ("0", "0x0", "0.0.0.0", "00:00:00:00:00:00")
SIXES = ("2001:db8::1", "2001:db8::", "fe80::2", "::", "::1", "2001:db8:1:2:3:4:5:6")


class Numbers:
    """Makes numbers and conditions over headers, variables and constants. Of headers that were asked for here it makes more."""

    def __init__(self, rng: Random, headers: dict[str, Header]) -> None:
        self.rng, self.headers = rng, headers
        self.variables: list[str] = []
        self.constants: dict[str, int] = {}
        self.likely: list[str] = []
        # The sets by the bits of their numbers.
        self.sets: dict[int, list[str]] = {}

    def chance(self, part: float) -> bool:
        """Whether something that happens so often happens now."""
        return self.rng.random() < part

    def header(self) -> str:
        """A header."""
        if self.likely and self.chance(0.6):
            return self.rng.choice(self.likely)
        names = list(self.headers)
        if self.likely and self.chance(0.8):
            names = [name for name in names if name in self.likely or not {*self.headers[name].after}.isdisjoint(self.likely)]
        return self.rng.choices(names, [WEIGHTS.get(name, 5) for name in names])[0]

    def field(self) -> str:
        """A field of a header, most often one that frames vary."""
        header = self.header()
        names = list(self.headers[header].fields)
        often = [name for name in names if f"{header}.{name}" in OFTEN]
        return f"{header}.{self.rng.choice(often if often and self.chance(0.4) else names)}"

    def width(self, field: str) -> int:
        """How many bits a field has."""
        header, name = field.split(".")
        return self.headers[header].fields[name].count

    def literal(self, bits: int) -> str:
        """A number, spelled in some way."""
        rng = self.rng
        value = rng.choice((0, 1, 2, 5, 80, 255, 256, (1 << bits) - 1, rng.getrandbits(bits), rng.getrandbits(bits))) & (1 << bits) - 1
        fit = [name for name, number in self.constants.items() if number < 1 << bits]
        if fit and self.chance(0.1):
            return rng.choice(fit)
        if bits == 32 and self.chance(0.6):
            return ".".join(str(value >> shift & 255) for shift in (24, 16, 8, 0))
        if bits == 48 and self.chance(0.6):
            return ":".join(f"{value >> shift & 255:02x}" for shift in range(40, -1, -8))
        return hex(value) if self.chance(0.3) else str(value)

    def value_for(self, field: str) -> str:
        """A constant that a field may be compared with or assigned."""
        if field in OFTEN and self.chance(0.75):
            return self.rng.choice(OFTEN[field])
        return self.literal(self.width(field) if self.chance(0.99) else 64)

    def fitting(self, field: str, number: str) -> str:
        """A number that a field may be assigned or compared with: a constant is one of its values."""
        return self.value_for(field) if CONSTANT.fullmatch(number) else number

    def number(self, deep: int) -> str:
        """A number."""
        rng, kind = self.rng, self.rng.random()
        if deep == 0 or kind < 0.4:
            return self.simple()
        if kind < 0.5:
            return self.shifted(self.number(deep - 1))
        if kind < 0.56:
            return f"{rng.choice((2, 3, 4, 5, 10, 256, 1000, 65_537))} * {self.number(0)}"
        if kind < 0.6:
            return f"~{self.number(0)}"
        left, right = self.number(deep - 1), self.number(deep - 1)
        return f"({left} {rng.choice('+-&|^')} {right})" if self.chance(0.8) else f"{left} {rng.choice('+-&|^')} {right}"

    def shifted(self, number: str) -> str:
        """A number that is shifted; to the right by less than all its bits."""
        sign, by = self.rng.choice(("<<", ">>")), self.rng.choice((1, 2, 4, 8, 16, 31, 32, 63, 0))
        bits = 2 if "port" in number else min((self.width(it) for it in FIELD.findall(number)), default=64)
        return f"({number} {sign} {by % bits if sign == '>>' else by})"

    def simple(self) -> str:
        """A field, a variable, the port, or a constant."""
        kind = self.rng.random()
        if kind < 0.25 and self.variables:
            return self.rng.choice(self.variables)
        if kind < 0.3:
            return "port"
        return self.literal(self.rng.choice((4, 8, 16, 32, 48, 64))) if kind < 0.5 else self.field()

    def condition(self, deep: int) -> str:
        """A condition."""
        kind = self.rng.random()
        if deep and kind < 0.3:
            return f"{self.condition(deep - 1)} {self.rng.choice(('and', 'or'))} {self.condition(deep - 1)}"
        if deep and kind < 0.38:
            return f"({self.condition(deep - 1)} {self.rng.choice(('and', 'or'))} {self.condition(deep - 1)})"
        if deep and kind < 0.46:
            return f"not ({self.condition(deep - 1)})" if self.chance(0.6) else f"not {self.test()}"
        return self.test()

    def test(self) -> str:
        """A condition without `and`, `or` and `not`."""
        rng, kind = self.rng, self.rng.random()
        if kind < 0.22:
            return self.path()
        if kind < 0.3:
            return self.compared("length", str(rng.choice((*LENGTHS, rng.randrange(200)))))
        if kind < 0.34:
            return rng.choice((f"{rng.choice(LENGTHS[1:])} {self.comparison()} length", "length in 40..60", "length in {54, 60..64}"))
        if kind < 0.37:
            return self.compared("port", str(rng.randrange(3)))
        if kind < 0.42:
            number = self.number(1)
            return rng.choice((self.field(), f"{self.field()} & {self.literal(8)}", self.field() if CONSTANT.fullmatch(number) else number))
        if kind < 0.55:
            return self.membership()
        if kind < 0.85:
            field = self.field()
            return self.compared(field, self.value_for(field))
        left, right = self.number(1), self.number(1)
        if FIELD.fullmatch(left):
            right = self.fitting(left, right)
        elif FIELD.fullmatch(right):
            left = self.fitting(right, left)
        return self.compared(left, right)

    def compared(self, left: str, right: str) -> str:
        """A comparison; no number is below 0, and every one at least 0."""
        signs = {left in ZEROS: ("<", ">="), right in ZEROS: (">", "<=")}.get(True, ())
        return f"{left} {self.rng.choice(('==', '!=', *signs)) if signs else self.comparison()} {right}"

    def comparison(self) -> str:
        """A sign."""
        return self.rng.choice(("==", "!=", "<", ">", "<=", ">="))

    def membership(self) -> str:
        """What lies in some values, a range or a prefix."""
        rng, field = self.rng, self.field()
        wide = [f"{name}.{it}" for name, header in self.headers.items() for it in header.wide if name in self.likely or self.chance(0.1)]
        if wide and self.chance(0.4):
            return self.of_wide(rng.choice(wide))
        if (named := self.sets.get(self.width(field))) and self.chance(0.7):
            return rng.choice((f"{field} in {named[0]}", f"{field} in {{{named[-1]}, {self.value_for(field)}}}"))
        if self.width(field) == 32 and self.chance(0.6):
            return f"{field} in {rng.choice(NETS)}"
        if self.chance(0.15):
            return f"{field} in {rng.getrandbits(self.width(field)):#x}/{rng.randrange(self.width(field) + 1)}"
        if self.chance(0.1) and self.variables:
            return f"{rng.choice(self.variables)} in {{{self.field()}, {self.literal(16)}}}"
        items = [self.item(field) for _ in range(rng.choice((1, 2, 2, 3)))]
        return f"{field} in {items[0]}" if len(items) == 1 and self.chance(0.5) else f"{field} in {{{', '.join(items)}}}"

    def of_wide(self, field: str) -> str:
        """A condition about an IPv6 address."""
        rng = self.rng
        sixes = [rng.choice(SIXES) for _ in range(2)]
        items = ", ".join(f"{six}/{rng.choice((0, 10, 32, 64, 65, 128))}" if self.chance(0.6) else six for six in sixes)
        other = field.replace("src", "dst") if "src" in field else sixes[0]
        compared = f"{field} {rng.choice(('==', '!='))} {rng.choice((sixes[1], other))}"
        return rng.choice((f"{field} in {{{items}}}", f"{field} in {items.split(',')[0]}", compared))

    def item(self, field: str) -> str:
        """A value or a range."""
        if self.chance(0.6):
            return self.value_for(field)
        low, high = sorted(self.rng.getrandbits(self.width(field)) for _ in range(2))
        return f"{low}..{high}"

    def path(self) -> str:
        """A header, or headers that follow one another."""
        name = self.header()
        return name if self.chance(0.7) else "/".join(self.way_to(name))

    def way_to(self, name: str) -> list[str]:
        """Headers that follow one another, up to this one."""
        way = [name]
        while self.headers[way[0]].after and not (len(way) > 1 and self.chance(0.3)):
            way.insert(0, self.rng.choice(list(self.headers[way[0]].after)))
        return way
