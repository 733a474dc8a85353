"""Headers: their fields, how long they are, and which may follow which."""
from __future__ import annotations

from collections.abc import Iterable
from dataclasses import dataclass, field, replace
from itertools import combinations
from typing import NamedTuple

from .syntax import And, Compare, Field, Name, Node, Number, Place, parts, require


class Start(NamedTuple):
    """Where a header begins: so many bytes after the packet's first one, or after the offset in a register."""

    is_far: bool
    byte: int


class Span(NamedTuple):
    """Bits of a header or of a packet: the first one, and how many; those of a packet that are far begin after the offset in a register."""

    bit: int
    bits: int
    is_far: bool = False

    @property
    def end(self) -> int:
        """The first bit after them."""
        return self.bit + self.bits

    @property
    def bytes(self) -> range:
        """The bytes that have one of the bits."""
        return range(self.bit // 8, (self.end + 7) // 8)

    @property
    def largest(self) -> int:
        """The largest value."""
        return (1 << self.bits) - 1

    @property
    def is_word(self) -> bool:
        """Whether they are one 16-bit word of a header, as a checksum is."""
        return self.bits == 16 and self.bit % 16 == 0

    def moved(self, count: int) -> Span:
        """The same bits, `count` bytes further."""
        return self._replace(bit=self.bit + 8 * count)

    def after(self, start: Start) -> Span:
        """The same bits of a header that begins there."""
        return Span(self.bit + 8 * start.byte, self.bits, start.is_far)

    def meets(self, other: Span) -> bool:
        """Whether both have a bit."""
        return self.is_far == other.is_far and self.bit < other.end and other.bit < self.end


@dataclass
class Header:
    """A header. `wide` has the halves of fields of 128 bits, `needed` the fields that each `push` names. `follows` has the condition for each
    header that it may follow; `before` has it and all that may come before it. The value of its first `bits` gives its length, in `sizes` and
    by a formula. Its checksum `sum` may cover what follows it, `over` fields of others, and be 0. Of the known headers no two that follow the
    same one can both be present."""

    name: str
    at: Place
    before: frozenset[str] = frozenset()
    fields: dict[str, Span] = field(default_factory=dict)
    wide: dict[str, tuple[str, str]] = field(default_factory=dict)
    defaults: dict[str, int | None] = field(default_factory=dict)
    needed: tuple[str, ...] = ()
    follows: dict[str, Node] = field(default_factory=dict)
    depth: int = 0
    is_known: bool = False
    size: int = 0
    bits: int = 0
    sizes: dict[int, int] = field(default_factory=dict)
    formula: Node | None = None
    next: str = ""
    next_at: Place | None = None
    sum: str = ""
    payload: bool = False
    over: tuple[Field, ...] = ()
    optional: bool = False


class Headers(dict[str, Header]):
    """All headers of a text by name, in order of declaration."""

    def extend(self, name: str, other: str, condition: Node) -> None:
        """Lets a header follow another one too."""
        self[name] = replace(self[name], follows={**self[name].follows, other: condition}, is_known=False)
        more = self[other].before
        for it, header in self.items():
            if name in header.before and not more <= header.before:
                self[it] = replace(header, before=header.before | more, is_known=False)

    def in_order(self, names: Iterable[str]) -> list[str]:
        """Names in order of declaration, each once."""
        wanted = set(names)
        return [name for name in self if name in wanted]

    def after(self, name: str) -> set[str]:
        """All headers that may come after a header."""
        return {other for other, it in self.items() if other != name and name in it.before}

    def tried(self, name: str) -> list[str]:
        """The headers that one may follow, in the order in which they are looked for if none was found, without those that are absent if one
        before them is."""
        found: list[str] = []
        for other in self[name].follows:
            if self.required(other).isdisjoint(found):
                found.append(other)
        return found

    def required(self, name: str) -> frozenset[str]:
        """A header, and those without which it is absent."""
        known: dict[str, frozenset[str]] = {}
        for it in sorted(self[name].before, key=lambda it: len(self[it].before)):
            follows = [known[other] for other in self[it].follows]
            known[it] = frozenset.intersection(*follows) | {it} if follows else frozenset({it})
        return known[name]

    def looked_for(self, name: str) -> set[str]:
        """A header, and all that are looked for if none before it was found."""
        found, pending = set[str](), [name]
        while pending:
            it = pending.pop()
            if it not in found:
                found.add(it)
                pending += self.tried(it)
        return found

    def may_overlap(self, one: str, other: str) -> bool:
        """Whether two headers may have the same bytes: both are present, and come after two that may follow the same header, or begin at byte 0."""
        if one == other or self[one].is_known and self[other].is_known:
            return False
        pairs = [(self[a].follows, self[b].follows) for a in self[one].before for b in self[other].before if a != b]
        return any(not a and not b or any(may_both_hold(a[it], b[it]) for it in a.keys() & b.keys()) for a, b in pairs)

    def covering(self, target: Field) -> list[str]:
        """The headers whose checksum is over a field of another header."""
        return [name for name, it in self.items() if target in it.over]


def asked_of(condition: Node) -> dict[str, int]:
    """The fields that must have a certain value for a condition about one header to hold."""
    match condition:
        case And(_, left, right):
            return asked_of(left) | asked_of(right)
        case Compare(_, "==", Field(_, _, name), Number(_, value)) | Compare(_, "==", Number(_, value), Field(_, _, name)):
            return {name: value}
    return {}


def may_both_hold(one: Node, other: Node) -> bool:
    """Whether two conditions about one header want no different values of a field."""
    asked, wanted = asked_of(one), asked_of(other)
    return all(asked[name] == wanted[name] for name in asked.keys() & wanted.keys())


def check(header: Header, headers: Headers) -> None:
    """Refuses a meaningless declaration."""
    at, size = header.at, header.size
    for name, span in header.fields.items():
        require(span.bits, at, f"the field {name} has no bits", "a field has 1 to 64 bits, or 128")
        require(span.bits <= 64 and len(span.bytes) <= 8, at, f"the field {name} does not lie within 8 bytes",
                "a field has at most 64 bits: two or more fields have the rest" if span.bits > 64 else "split it into two")
        require(span.end <= 8 * size, at, f"the field {name} goes past the end of the header", f"the header has {8 * size} bits, and the first one is 0")
    for other, condition in header.follows.items():
        for it in parts(condition):
            is_own = not isinstance(it, Name) and (not isinstance(it, Field) or it.header == other)
            field = it.name if isinstance(it, Name) and it.name in headers[other].fields else next(iter(headers[other].fields))
            require(is_own, it.at, f"the condition after {other} is about fields of {other} and constants",
                    f"after {other} if {other}.{field} == 1 says where {header.name} is; what else matters is asked where {header.name} is used")
    require(min(header.sizes.values()) >= size, at, f"a length of {header.name} is less than the {size} bytes of its fields",
            "the range after `in` begins with a greater number")
    automatic = [name for name, value in header.defaults.items() if value is None]
    require(len(automatic) < 2, at, f"{' and '.join(automatic)} are both `auto`, and each would count the other", "leave one of them out")
    clash = next((pair for pair in combinations(header.defaults, 2) if header.fields[pair[0]].meets(header.fields[pair[1]])), ())
    require(not clash, at, f"{' and '.join(clash)} have bits in common, and `push` would write both", "leave one of the values out")
    cure = "it has 16 bits, and an even number of bytes before it"
    for name in automatic:
        require(header.fields[name].is_word, at, f"{name} is `auto`, and no 16-bit word of the header", f"a checksum is one: {cure}")
    is_plain = header.sum not in automatic or not (header.payload or header.over)
    require(is_plain, at, f"{header.sum} covers more than the header, and `auto` is of the header alone", "leave `= auto` out")
    require(not header.sum or header.fields[header.sum].is_word, at, f"the checksum {header.sum} is one 16-bit word of the header", cure)
    if header.next:
        check_tag(header, header.fields[header.next], headers)


def check_tag(header: Header, own: Span, headers: Headers) -> None:
    """Refuses a tag whose last field cannot replace the last field before it."""
    is_last = own.end == 8 * header.size and own.bits % 8 == 0
    at, last = header.next_at or header.at, last_of(header, 0)
    require(is_last, at, f"the field {header.next} of a tag is the last one, of whole bytes",
            f"next {last} names the last one" if last else "a last field, as type:16, says what follows the tag; a header without `next` may end otherwise")
    for other, condition in header.follows.items():
        require(not headers[other].bits, condition.at, f"a tag follows {other}, whose length varies: its last field need not be right before the tag",
                f"leave `next` out, or declare one header for each length of {other}")
        name, asked = last_of(headers[other], own.bits), asked_of(condition)
        cure = f"after {other} if {other}.{name} == 0x8100, with no `or`, no range and no other field; leave `next` out where it is no tag"
        none = f"no field of {own.bits} bits ends {other}: leave `next` out, and `push` puts {header.name} in front"
        is_type = [headers[other].fields[it] for it in asked] == [headers[other].fields[name]] if name else False
        fault = f"a tag follows {other} where its last field, as wide as {header.next}, has one certain value"
        require(is_type, condition.at, fault, cure if name else none)


def last_of(header: Header, bits: int) -> str:
    """The last field of a header, of this number of bits or, where it is 0, of whole bytes; else nothing."""
    return next((name for name, it in header.fields.items() if it.end == 8 * header.size and (it.bits == bits if bits else it.bits % 8 == 0)), "")
