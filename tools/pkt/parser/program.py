"""What the parser makes of a text: a program; and what it keeps of a `def` and of an item after `in`."""
from dataclasses import dataclass, field
from typing import NamedTuple

from ..headers import Headers
from ..syntax import Block, Node, Number, Path, Place, Row


class Item(NamedTuple):
    """An item after `in`: a number, the first and the last number of a range, or a constant and how many of its bits are a prefix."""

    at: Place
    number: Node
    last: Number | None = None
    depth: int | None = None


class Function(NamedTuple):
    """A `def`: its name, its parameters, and where its block begins."""

    at: Place
    parameters: tuple[str, ...]
    begin: int


@dataclass
class Program:
    """A text: its declarations, its statements and its lines. `headroom`, `length`, `given` and `is_shared` are what the ring of a program declares,
    `clauses` are the headers that follow others, each with the place of the other in its `after`."""

    headers: Headers
    ports: int = 1
    has_ports: bool = False
    segments: int = 1
    otherwise: Node | None = None
    given_at: Place | None = None
    is_shared: bool = False
    headroom: int = 128
    length: int = 0
    given: Path = ()
    statements: Block = ()
    rows: list[Row] = field(default_factory=list)
    notes: dict[Place, str] = field(default_factory=dict)
    clauses: list[tuple[str, Place]] = field(default_factory=list)

    @property
    def is_for_ring(self) -> bool:
        """Whether a ring has it: it says what is given."""
        return self.given_at is not None
