"""The parts of a text. Each knows its place in the text, which is ignored when two parts are compared."""
import re
from collections.abc import Iterator
from dataclasses import dataclass, field
from pathlib import Path as File
from typing import Any, NamedTuple, dataclass_transform

BIGGEST = (1 << 64) - 1
THIS, PORT = "this", "port"
# What the names in a `def` end with, each time that it is used: a sign that no text has, and a number.
PRIME = "\u2032"
OWN = re.compile(PRIME + "[0-9]+")
# What a message says of the word after the last one, and what it says instead.
AT_END = re.compile("and (?:this is )?'the end of the text'(?: is none)?|no (statement) begins with 'the end of the text'")


def at_end(found: re.Match[str]) -> str:
    """The words for a text that ends too early."""
    return f"{'a statement is expected here, ' if found[1] else ''}and the text ends here"


class Place(NamedTuple):
    """A word of the text: its line and column, counted from 1."""

    line: int
    column: int
    word: str


class Row(NamedTuple):
    """A line of a text: the file that it is in, none for the program itself, its number there, from 1, and its text."""

    path: File | None
    number: int
    text: str

    @property
    def place(self) -> str:
        """What a message calls it."""
        return f"{self.path}:{self.number}" if self.path else f"line {self.number}"


class SourceError(Exception):
    """An error of the source: its place, the fault, and a cure. `row` is its line where that is in another file."""

    def __init__(self, at: Place, message: str, cure: str = "", row: Row | None = None) -> None:
        super().__init__(message)
        self.at, self.message, self.cure, self.row = at, AT_END.sub(at_end, OWN.sub("", message)), cure, row


class NoRegister(SourceError):
    """A place of the source where all registers are in use."""


def require(holds: object, at: Place, message: str, cure: str = "") -> None:
    """Raises an error of the source unless something holds."""
    if not holds:
        raise SourceError(at, message, cure)


@dataclass_transform(frozen_default=True)
@dataclass(frozen=True)
class Node:
    """A part of the text."""

    at: Place = field(compare=False, repr=False)

    def __init_subclass__(cls) -> None:
        dataclass(frozen=True)(cls)


Block = tuple[Node, ...]
Path = tuple[str, ...]

# fmt: off
# Numbers. `width` has the bits of an address, and else 0; one that `wraps` was cut to 64 bits, one that
# `is_masked` is the result of an &. `Bits` are bits of the packet that the compiler reads for its own use, `Wide` is an IPv6 address in two
# halves, which the parser takes apart.
class Numeric(Node): pass  # noqa: E302, E701
class Number(Numeric):  # noqa: E302
    value: int
    width: int = field(default=0, compare=False)
    wraps: bool = field(default=False, compare=False)
    is_masked: bool = field(default=False, compare=False)
class Wide(Numeric): high: Node; low: Node
class Name(Numeric): name: str
class Field(Numeric): header: str; name: str  # noqa: E702
class Bits(Numeric): bit: int; bits: int
class Length(Numeric): pass
class Binary(Numeric): sign: str; left: Node; right: Node

# Conditions. `Found`: each header of a path is present.
class Compare(Node): sign: str; left: Node; right: Node
class Found(Node): path: Path
class Not(Node): condition: Node
class And(Node): left: Node; right: Node
class Or(Node): left: Node; right: Node

# Statements. `Inline` are those of a `def`, where it is used. `fallback` is the `else` part; a port that is an int is a ring;
# a pushed value that is None is `auto`.
class Let(Node): name: str; value: Node
class Lookup(Node): name: str; table: int; key: Node; fallback: Block | None
class Assign(Node): target: Name | Field; value: Node
class Mend(Node): target: Field; value: Node
class If(Node): condition: Node; body: Block; fallback: Block
class While(Node): condition: Node; body: Block
class Need(Node): condition: Node; fallback: Block | None; body: Block = ()
class Drop(Node): pass
class Send(Node): packet: str; port: Node | int; fallback: Block | None
class Clone(Node): name: str; pool: int; fallback: Block | None
class New(Node): name: str; pool: int; fallback: Block | None
class Free(Node): packet: str
class Chain(Node): packet: str
class Pushed(Node): header: str; values: tuple[tuple[str, Node | None], ...]
class Push(Node): headers: tuple[Pushed, ...]; packet: str
class Pop(Node): path: Path
class Cut(Node): packet: str; count: int
class Truncate(Node): packet: str; count: int
class Count(Node): name: str
class Inline(Node): body: Block
# fmt: on


def children(it: Any) -> tuple[Any, ...]:
    """What a node or a tuple consists of."""
    if isinstance(it, Node):
        return tuple(value for value in vars(it).values() if not isinstance(value, Place))
    return it if isinstance(it, tuple) else ()


def parts(it: Any) -> Iterator[Node]:
    """A node and all nodes in it, or all nodes in a tuple."""
    pending = [it]
    while pending:
        part = pending.pop()
        if isinstance(part, Node):
            yield part
        pending += reversed(children(part))


def has(it: Any, *kinds: type[Node]) -> bool:
    """Whether a node of one of these kinds is in it."""
    return any(isinstance(part, kinds) for part in parts(it))


def goes_on(it: Node | Block) -> bool:
    """Whether control can reach the end of a statement, or of a block whose statements it can reach."""
    while it:
        if isinstance(it, tuple):
            it = it[-1]
        elif isinstance(it, Inline):
            it = it.body
        elif isinstance(it, If):
            if goes_on(it.body):
                return True
            it = it.fallback
        elif isinstance(it, Send) and it.packet == THIS and it.fallback is not None:
            it = it.fallback
        else:
            return not isinstance(it, Drop) and not (isinstance(it, Send) and it.packet == THIS)
    return True
