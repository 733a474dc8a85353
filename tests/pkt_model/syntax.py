"""What a text of the language pkt consists of (docs/users/pkt.md)."""
from __future__ import annotations

from dataclasses import dataclass, field
from typing import dataclass_transform


@dataclass_transform(frozen_default=True)
class Part:
    """A part of a text."""

    def __init_subclass__(cls) -> None:
        dataclass(frozen=True)(cls)


# fmt: off
# Numbers. `width` has the bits of an address, and else 0. `Arrival` is the number of the port or ring that the packet came from, `Complement`
# has all 64 bits turned. `Wide` is an IPv6 address, in two halves.
class Constant(Part): value: int; width: int = 0  # noqa: E302, E701, E702
class Variable(Part): name: str
class Field(Part): header: str; name: str  # noqa: E702
class Length(Part): pass
class Arrival(Part): pass
class Binary(Part): operator: str; left: Number; right: Number
class Complement(Part): inner: Number
class Wide(Part): high: Number; low: Number
Number = Constant | Variable | Field | Length | Arrival | Binary | Complement | Wide  # noqa: E305

# Conditions. `Truth` is a number that is not 0, `Present` are headers that are all found, looked for in turn.
class Truth(Part): number: Number  # noqa: E302
class Compare(Part): operator: str; left: Number; right: Number
class Present(Part): path: tuple[str, ...]
class Both(Part): left: Condition; right: Condition
class Either(Part): left: Condition; right: Condition
class Negated(Part): inner: Condition
Condition = Truth | Compare | Present | Both | Either | Negated  # noqa: E305

# Statements. `Inline` are those of a `def`. `otherwise` is the `else` part. The packet itself has no name, and is None; a field that is None is `auto`.
class Let(Part): name: str; number: Number  # noqa: E302
class Lookup(Part): name: str; table: int; number: Number; otherwise: Block | None
class Assign(Part): target: Variable | Field; number: Number; mends: bool = False
class AssignWide(Part): first: Assign; second: Assign
class If(Part): condition: Condition; then: Block; otherwise: Block | None
class While(Part): condition: Condition; body: Block
class Need(Part): condition: Condition; otherwise: Block | None
class Drop(Part): pass
class Send(Part): packet: str | None; port: Number; otherwise: Block | None
class Queue(Part): packet: str | None; ring: int; otherwise: Block | None
class Clone(Part): name: str; pool: int; otherwise: Block | None
class New(Part): name: str; pool: int; otherwise: Block | None
class Free(Part): name: str
class Chain(Part): name: str
class Pushed(Part): header: str; fields: dict[str, Number | None]
class Push(Part): headers: list[Pushed]; on: str | None
class Pop(Part): path: tuple[str, ...]
class Cut(Part): packet: str | None; count: int
class Truncate(Part): packet: str | None; count: int
class Count(Part): name: str
class Inline(Part): body: Block
Statement = Let | Lookup | Assign | AssignWide | If | While | Need | Drop | Send | Queue | Clone | New | Free | Chain | Push | Pop | Cut | Truncate | Count | Inline  # noqa: E305
Block = list[Statement]
# fmt: on


class Bits(Part):
    """A field of a header: its first bit, how many it has, and what `push` writes where nothing is said; `auto` is no number. A needed one is
    named by each `push`."""

    at: int
    count: int
    default: int | None
    is_alias: bool
    is_needed: bool = False


class Extent(Part):
    """How the first bits of a header say its length in bytes."""

    number: Number
    name: str
    bits: int
    values: range


class Sum(Part):
    """The field that has an Internet checksum, whether that covers what follows the header, the fields that it covers beside, and whether 0
    says that there is none."""

    field: str
    has_payload: bool
    over: tuple[Field, ...]
    is_optional: bool


@dataclass
class Header:
    """A header: its fields, the headers that it follows and when, and its clauses."""

    name: str
    fields: dict[str, Bits]
    after: dict[str, Condition]
    extent: Extent | None = None
    next: str | None = None
    sum: Sum | None = None
    # The halves of fields of 128 bits.
    wide: dict[str, tuple[str, str]] = field(default_factory=dict)

    @property
    def size(self) -> int:
        """How many bytes its fields take."""
        return sum(bits.count for bits in self.fields.values() if not bits.is_alias) // 8

    @property
    def last(self) -> str:
        """The name of its last field."""
        return [name for name, bits in self.fields.items() if not bits.is_alias][-1]


@dataclass
class Program:
    """A text that was read: its headers in order of declaration, its statements, and what else it declares: `headroom` and `length` are those
    that its ring gives at least. `lines` has the line of each statement, from 1, by its identity."""

    headers: dict[str, Header]
    block: Block
    lines: dict[int, int] = field(default_factory=dict)
    ports: int = 1
    segments: int = 1
    otherwise: Block | None = None
    is_for_ring: bool = False
    given: tuple[str, ...] = ()
    headroom: int = 128
    length: int = 0
