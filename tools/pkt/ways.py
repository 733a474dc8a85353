"""Paths through the program: each appends instructions at its end, and paths join."""
from __future__ import annotations

from collections import Counter, defaultdict
from collections.abc import Callable, Iterable, Iterator, Set
from dataclasses import dataclass, field, replace
from functools import cache, cached_property
from typing import Any, Generic, Self, TypeVar

from .graph import Instruction
from .headers import Header, Headers, Span, Start
from .parser import Program
from .state import EVERYTHING, NOTHING, OFFSET, Needs, State
from .syntax import THIS, Assign, Field, Found, If, Mend, Name, Need, Node, Place, Pop, Push, children, parts, require

# Limits of a program before it is shortened: far beyond any that fits afterwards.
MAX_BLOCKS, MAX_APPENDED = 6_000, 16_000
TOO_MUCH = "`need` what most packets have, or find it out once for all; a prefix or a table in place of a list of addresses"


class Unit:
    """What all paths of a program share: facts `needs` after the current statement, statements `reached`, by their places those that were `served` with
    all headers that they need and those `lacking` one, with its name, headers `near` that need a constant place,
    whether `mend` statements in a row update checksums together, and whether the values of pushed headers are calculated in turn."""

    def __init__(self, program: Program, is_together: bool = True, is_in_turn: bool = False) -> None:
        self.program, self.headers, self.needs, self.blocks, self.reached = program, program.headers, NOTHING, 0, set[int]()
        self.is_together, self.is_in_turn = is_together, is_in_turn
        self.served, self.lacking = set[Place](), dict[Place, str]()
        self.known: dict[int, tuple[Any, Needs]] = {}
        self.known_from: dict[int, tuple[Any, list[Needs]]] = {}
        self.appended = 0
        used = self.needs_of(program.statements) | self.needs_of(program.otherwise)
        self.used_headers = {name for name in self.headers if (name, False) in used}
        tags = {it.headers[0].header for it in parts(program.statements) if isinstance(it, Push) and self.tag_follows(it)}
        self.searched = self.used_headers | tags
        self.near = {name for it in parts(program.statements) if isinstance(it, (Pop, Push)) for name in self.headers_of(it)}

    def needs_of(self, it: Any, first: int = 0) -> Needs:
        """The needs of a part of the text, or of a block from one of its statements on; computed once."""
        if isinstance(it, tuple):
            return self.needs_from(it)[first]
        pending = [it]
        while id(it) not in self.known:
            part = pending[-1]
            left = [other for other in nodes_of(part) if id(other) not in self.known]
            if left:
                pending += left
                continue
            self.known[id(part)] = part, self.own_needs(part).union(*(self.known[id(other)][1] for other in nodes_of(part)))
            pending.pop()
        return self.known[id(it)][1]

    def needs_from(self, block: tuple[Any, ...]) -> list[Needs]:
        """The needs of a block from each of its statements on, and none at its end."""
        if id(block) not in self.known_from:
            found = [NOTHING]
            for it in reversed(block):
                found.append(found[-1] | self.needs_of(it))
            self.known_from[id(block)] = block, found[::-1]
        return self.known_from[id(block)][1]

    def own_needs(self, it: Any) -> Needs:
        """The needs of a part without those of the parts in it."""
        if not isinstance(it, Node):
            return NOTHING
        names = set(self.headers_of(it))
        found = {(other, True) for name in names for other in self.headers[name].before}
        absent = {(other, False) for name in names for other in self.headers.looked_for(name)}
        return Needs({*([it.name] if isinstance(it, Name) else [it] if isinstance(it, Field) else []), *found, *absent})

    def used_in(self, it: Node) -> Counter[str]:
        """The headers that the conditions of an `if` or a `need` use, each as often as there are conditions that do."""
        found, rest = Counter[str](), (it,)
        while len(rest) == 1 and isinstance(rest[0], (If, Need)):
            found.update({name for part in parts(rest[0].condition) for name in self.headers_of(part)})
            rest = rest[0].fallback if isinstance(rest[0], If) else ()
        return found

    def used_in_row(self, block: tuple[Node, ...], first: int) -> Counter[str]:
        """The headers that the conditions of statements in a row use."""
        found = Counter[str]()
        for it in block[first:]:
            if not isinstance(it, (If, Need)):
                break
            found += self.used_in(it)
        return found

    def lengths_asked(self, it: Any) -> set[str]:
        """The headers with a field in a part of the text that has bits of those that give their length."""
        asked = ((self.headers[part.header], part.name) for part in parts(it) if isinstance(part, Field))
        return {header.name for header, name in asked if header.bits and header.fields[name].meets(Span(0, header.bits))}

    @cached_property
    def written(self) -> set[Field]:
        """The fields that the program assigns to, and the checksums that it updates."""
        found = set[Field]()
        for it in parts(self.program.statements):
            if isinstance(it, Assign) and isinstance(it.target, Field):
                found.add(it.target)
            if isinstance(it, Mend):
                names = {it.target.header, *self.headers.covering(it.target)}
                names |= {name for other in names for name in self.headers[other].before}
                found |= {it.target, *(Field(it.at, name, self.headers[name].sum) for name in names if self.headers[name].sum)}
        return found

    def changes_searches(self, name: str) -> bool:
        """Whether the program may look for a header that comes after this one, and find it elsewhere if this one was looked for before. It does not
        where it looks for this one first, and at most one of those that it may follow is present."""
        for other in self.headers.after(name) & self.searched:
            search = self.headers.looked_for(other)
            between = [self.headers[it] for it in search if it != name and name in self.headers[it].before]
            if name not in search or any(len(it.follows) > 1 and not it.is_known for it in between):
                return True
        return False

    @cache
    def is_early(self, name: str) -> bool:
        """Whether a header may be looked for earlier than where it is used: that changes no other search, and no assignment of the program can change
        what this one finds."""
        if self.changes_searches(name):
            return False
        before, spans = self.headers[name].before, self.asked_for(name)
        all_known = all(self.headers[other].is_known for other in before)
        for it in self.written:
            other = self.headers[it.header]
            is_behind = it.header not in before and all_known and other.is_known and not other.before.isdisjoint(self.headers[name].follows)
            if not is_behind and (it.header not in before or any(self.may_change(it, *asked) for asked in spans)):
                return False
        return True

    def may_change(self, it: Field, name: str, span: Span) -> bool:
        """Whether an assignment to a field may change bits of a header."""
        if it.header == name:
            return self.headers[name].fields[it.name].meets(span)
        return self.headers.may_overlap(it.header, name)

    def asked_for(self, name: str) -> set[tuple[str, Span]]:
        """The bits, each with its header, on which it depends whether and where a header is found."""
        before = self.headers[name].before
        asked = {part for other in before for part in parts(tuple(self.headers[other].follows.values())) if isinstance(part, Field)}
        lengths = {(it, Span(0, self.headers[it].bits)) for it in before if self.headers[it].bits}
        return {(it.header, self.headers[it.header].fields[it.name]) for it in asked} | lengths

    @cached_property
    def joined(self) -> set[int]:
        """The `mend` statements, by identity, of which the next statement can update the checksums too."""
        blocks = [self.program.statements, *(it for part in parts(self.program.statements) for it in children(part) if isinstance(it, tuple))]
        pairs = [pair for block in blocks for pair in zip(block, block[1:])] if self.is_together else []
        return {id(one) for one, other in pairs if isinstance(one, Mend) and isinstance(other, Mend) and self.is_joined(one, other)}

    def is_joined(self, one: Mend, other: Mend) -> bool:
        """Whether two assignments are of one header and change the same checksums, which lie after it if they are in other headers; the second one
        reads nothing else, and changes nothing that decides where those are."""
        own, over = self.headers[one.target.header], self.headers.covering(one.target)
        fields = [one.target, other.target, *(part for part in parts(other.value) if isinstance(part, Field))]
        is_after = all(it == own.name or self.headers[it].is_known or [*self.headers[it].follows] == [own.name] for it in over)
        if not is_after or any(it.header != own.name for it in fields) or self.headers.covering(other.target) != over:
            return False
        spans, target = [own.fields[it.name] for it in fields], own.fields[other.target.name]
        asked = [span for name in over for header, span in self.asked_for(name) if header == own.name]
        return not any(target.meets(it) for it in asked) and not (own.sum and any(own.fields[own.sum].meets(it) for it in spans))

    def decides(self, own: Header, names: list[str], found: dict[str, Start | None]) -> bool:
        """Whether the checksum of a header that was found may decide which of others are found, so that they are looked for before it is updated."""
        start = found[own.name]
        if not own.sum or start is None:
            return False
        kept = own.fields[own.sum]
        for header, span in self.asked_now(names, found):
            other = found.get(header)
            if header == own.name or other is None or other.is_far != start.is_far:
                is_same = span.meets(kept) if header == own.name else self.headers.may_overlap(own.name, header)
            else:
                is_same = kept.after(start).meets(span.after(other))
            if is_same:
                return True
        return False

    def asked_now(self, names: list[str], found: dict[str, Start | None]) -> set[tuple[str, Span]]:
        """The bits, each with its header, that a search for headers asks for, given those that were looked for."""
        asked, pending, done = set[tuple[str, Span]](), list(names), {*found}
        while pending:
            it = self.headers[pending.pop()]
            if it.name in done:
                continue
            done.add(it.name)
            before = [name for name in it.follows if found.get(name)] or self.headers.tried(it.name)
            pending += before
            fields = [part for name in before for part in parts(it.follows[name]) if isinstance(part, Field)]
            asked |= {(part.header, self.headers[part.header].fields[part.name]) for part in fields}
            asked |= {(name, Span(0, self.headers[name].bits)) for name in before if self.headers[name].bits}
        return asked

    def headers_of(self, it: Node) -> Iterable[str]:
        """The headers that a node itself uses."""
        match it:
            case Field(_, header):
                return [header]
            case Found(_, path) | Pop(_, path):
                return path
            case Push():
                return self.tag_follows(it)
            case Mend(_, target):
                return self.headers.covering(target)
        return []

    def tag_follows(self, it: Push) -> list[str]:
        """The headers that a tag which is pushed alone may follow."""
        header = self.headers[it.headers[0].header]
        return list(header.follows) if it.packet == THIS and len(it.headers) == 1 and header.next else []


def nodes_of(it: Any) -> list[Any]:
    """The nodes that a part of the text consists of, those in its tuples too."""
    found: list[Any] = []
    pending = [*children(it)]
    while pending:
        part = pending.pop()
        if isinstance(part, Node):
            found.append(part)
        elif isinstance(part, tuple):
            pending += part
    return found


W = TypeVar("W", bound="Way")


class Join(Generic[W]):
    """A place of the program that several paths lead to, and the facts needed from there on."""

    def __init__(self, needs: Needs = EVERYTHING) -> None:
        self.needs, self.ways = needs, list[W]()

    def begin(self) -> Iterator[W]:
        """A path for each kind of state that arrives here, with the facts that these have in common."""
        firsts, groups = dict[object, W](), defaultdict[object, list[W]](list)
        for way in self.ways:
            way.forget(self.needs)
            way.move_to(firsts.setdefault(way.signature(), way).registers())
            groups[way.signature(), frozenset(way.registers().items())].append(way)
        for first, *others in groups.values():
            if len(self.ways) > 1:
                first.unite(others)
            yield first


def paths(step: Callable[[Join[W]], None], needs: Needs = EVERYTHING) -> Iterator[W]:
    """The paths on which a step leads to its join."""
    join = Join[W](needs)
    step(join)
    return join.begin()


@dataclass
class Way(State):
    """A place in the program, at which instructions are appended. `at` is the current statement. `constants` are bytes of a packet that are
    still to be written through a register, each with its line."""

    unit: Unit = field(kw_only=True)
    last: Instruction = field(default_factory=Instruction)
    at: Place = Place(0, 0, "")
    constants: dict[int, tuple[int, int]] = field(default_factory=dict)
    constants_of: tuple[int, int] = 0, 0

    @property
    def headers(self) -> Headers:
        """The headers of the program."""
        return self.unit.headers

    def emit(self, word: str, *operands: object, to: Join[Self] | None = None) -> Self:
        """Appends an instruction; returns the path to its jump target, if it leads to a join."""
        self.flush()
        self.append(word, *operands)
        there = self
        if to is not None:
            there = self.copy()
            to.ways.append(there)
            self.last.target = there.last = Instruction()
        if (p := self.last.packet) in self.packets:
            self.packets[p] = self.packets[p].after(word, self.last.count)
        return there

    def drop(self) -> None:
        """The end of the program: all packets are dropped."""
        self.flush()
        self.last.left = self.at.line
        for p in sorted(self.held.values()):
            self.last.next = self.last = Instruction("free", (f"p{p}",))
        self.last.next = Instruction("exit")

    def append(self, word: str, *operands: object, line: int | None = None) -> None:
        """Appends an instruction as it is."""
        groups = tuple(sorted((p, *it.clones()) for p, it in self.packets.items() if it.sharers and it.clones()))
        self.unit.appended += 1
        require(self.unit.appended <= MAX_APPENDED, self.at, "the program has too many instructions", TOO_MUCH)
        it = Instruction(word, tuple(map(str, operands)), self.at.line if line is None else line, groups)
        self.last.next = self.last = it

    def jump(self, join: Join[Self]) -> None:
        """Ends this path."""
        join.ways.append(self)

    def unite(self, others: list[Self]) -> None:
        """This way goes on with what it has in common with others."""
        self.unit.blocks += 1
        require(self.unit.blocks <= MAX_BLOCKS, self.at, "the program has too many ways", TOO_MUCH)
        label = Instruction()
        for way in (self, *others):
            way.flush()
            way.last.next, way.last.left = label, way.at.line
        self.last = label
        for way in others:
            self.join(way)

    def move_to(self, registers: dict[str, int]) -> None:
        """Moves the variables and the offset to other registers, unless some would have to change places."""
        left, moves = {name: (r, registers[name]) for name, r in self.registers().items() if r != registers[name]}, dict[str, tuple[int, int]]()
        while free := [name for name, (_, to) in left.items() if to not in {r for r, _ in left.values()}]:
            moves[free[0]] = left.pop(free[0])
        for name, (r, to) in ({} if left else moves).items():
            self.emit("mov", f"r{to}", f"r{r}")
            self.loaded = {it: other for it, other in self.loaded.items() if other != to}
            self.bounds[to] = self.bounds[r]
            if name == OFFSET:
                self.far = replace(self.far, register=to)
            else:
                self.variables[name] = to

    def put(self, packet: int, at: int, data: bytes, register: int) -> None:
        """Constant bytes of a packet. They are written before the next instruction, together with those beside them."""
        if self.constants_of[0] != packet:
            self.flush()
        self.constants_of = packet, register
        self.constants |= {at + k: (byte, self.at.line) for k, byte in enumerate(data)}

    def flush(self) -> None:
        """Writes the constant bytes, in pieces as large as possible."""
        data, (packet, register), self.constants = self.constants, self.constants_of, {}
        for at, width in pieces(data):
            value = int.from_bytes(bytes(data[at + k][0] for k in range(width)), "big")
            self.append("set", f"r{register}", f"{value:#x}", line=data[at][1])
            self.append("store", f"p{packet}", at, width, f"r{register}", line=data[at][1])


def pieces(places: Iterable[int], skipped: Set[int] = frozenset()) -> Iterator[tuple[int, int]]:
    """The places and widths of the loads or stores for these bytes, as wide as possible; none begins at a byte that may be skipped."""
    left = sorted(places)
    while left:
        at = left[0]
        width = next(w for w in (8, 4, 2, 1) if left[w - 1 : w] == [at + w - 1])
        if at not in skipped:
            yield at, width
        del left[: 1 if at in skipped else width]
