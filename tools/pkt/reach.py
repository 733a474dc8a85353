"""Reachability: the code that no packet reaches, by what earlier tests of the same bytes, registers and lengths said; it is left out.

Each instruction has a few states, one for each way that leads there; when there are more, some are joined. Nothing is known at the start of a loop."""
from __future__ import annotations

from collections import Counter
from collections.abc import Iterator
from dataclasses import dataclass, field
from functools import reduce
from typing import NamedTuple

from .graph import TESTS, WRITES, Graph, Instruction
from .liveness import registers_read

# How many states an instruction has at most, how many values a fact excludes, and how many instructions are looked at.
MAX_STATES, MAX_OTHERS, MAX_INSTRUCTIONS = 4, 12, 3_000
BIGGEST = (1 << 64) - 1


class Value(NamedTuple):
    """What is known of a number: the least and the greatest value, bits with their values, and values that it has not."""

    low: int = 0
    high: int = BIGGEST
    mask: int = 0
    bits: int = 0
    others: frozenset[int] = frozenset()

    def tidy(self) -> Value:
        """The same, with what bounds and bits say of each other."""
        low, high = max(self.low, self.bits), min(self.high, self.bits | ~self.mask & BIGGEST)
        while low in self.others:
            low += 1
        while high in self.others:
            high -= 1
        same = ~((1 << (low ^ high).bit_length()) - 1) & BIGGEST if low <= high else 0
        return Value(low, high, self.mask | same, self.bits | high & same, self.others)

    def meet(self, other: Value) -> Value:
        """What is known by both together."""
        others = frozenset(sorted(self.others | other.others)[:MAX_OTHERS])
        return Value(max(self.low, other.low), min(self.high, other.high), self.mask | other.mask, self.bits | other.bits, others).tidy()

    def join(self, other: Value) -> Value:
        """What is known on both of two ways."""
        if self == other:
            return self
        mask = self.mask & other.mask & ~(self.bits ^ other.bits)
        others = frozenset(it for it in self.others | other.others if not self.can_be(it) and not other.can_be(it))
        return Value(min(self.low, other.low), max(self.high, other.high), mask, self.bits & mask, others)

    def can_be(self, value: int) -> bool:
        """Whether a value is possible."""
        return self.low <= value <= self.high and not (value ^ self.bits) & self.mask and value not in self.others

    def after(self, word: str, c: int) -> Value:
        """The number after an instruction with a constant."""
        if word == "and":
            mask = self.mask | ~c & BIGGEST
            return Value(0, min(self.high, c), mask, self.bits & c).tidy()
        if word == "or":
            return Value(max(self.low, c), BIGGEST, self.mask | c, self.bits | c).tidy()
        if word == "xor":
            return Value(0, BIGGEST, self.mask, (self.bits ^ c) & self.mask).tidy()
        if word == "shr":
            return Value(self.low >> c, self.high >> c, self.mask >> c | ~(BIGGEST >> c) & BIGGEST, self.bits >> c).tidy()
        if word == "shl" and self.high << c <= BIGGEST:
            return Value(self.low << c, self.high << c, (self.mask << c | (1 << c) - 1) & BIGGEST, self.bits << c).tidy()
        if word == "add" and self.high + c <= BIGGEST:
            return Value(self.low + c, self.high + c)
        if word == "sub" and self.low >= c:
            return Value(self.low - c, self.high - c)
        return Value()


def exactly(c: int) -> Value:
    """A constant."""
    return Value(c, c, BIGGEST, c)


class Source(NamedTuple):
    """Where a number is from: bytes of a packet, and the constants that instructions applied to them."""

    packet: str
    at: int
    width: int
    steps: tuple[tuple[str, int], ...] = ()


@dataclass
class State:
    """What is known on a way: of registers, each with its source if it has one, of the numbers of sources, and of lengths; and the packets that are held."""

    registers: dict[str, tuple[Source | None, Value]] = field(default_factory=dict)
    sources: dict[Source, Value] = field(default_factory=dict)
    lengths: dict[str, tuple[int, int]] = field(default_factory=dict)
    held: frozenset[str] = frozenset({"p0"})

    def copy(self) -> State:
        """A copy."""
        return State(dict(self.registers), dict(self.sources), dict(self.lengths), self.held)

    def join(self, other: State) -> State:
        """What is known on both of two ways."""
        registers = {r: (it[0] if it[0] == other.registers[r][0] else None, it[1].join(other.registers[r][1]))
                     for r, it in self.registers.items() if r in other.registers}
        sources = {it: v.join(other.sources[it]) for it, v in self.sources.items() if it in other.sources}
        lengths = {p: (min(low, other.lengths[p][0]), max(high, other.lengths[p][1])) for p, (low, high) in self.lengths.items() if p in other.lengths}
        return State(registers, sources, lengths, self.held)

    def value(self, operand: str) -> Value:
        """What is known of a register, or a constant."""
        return self.registers.get(operand, (None, Value()))[1] if operand[0] == "r" else exactly(int(operand, 0))

    def set(self, register: str, source: Source | None, value: Value) -> None:
        """Gives a register a number."""
        known = [self.sources[source]] if source in self.sources else []
        self.registers[register] = source, reduce(Value.meet, known, value)

    def learn(self, register: str, value: Value) -> bool:
        """Takes what a test says of a register, and of all that is from the same bytes. Returns whether that is possible."""
        source, value = self.registers.get(register, (None, Value()))[0], value.meet(self.value(register))
        if value.low > value.high or value.bits & ~value.mask or (value.low == value.high and not value.can_be(value.low)):
            return False
        self.registers[register] = source, value
        if source is not None:
            self.sources[source] = value
            for other, (origin, _) in list(self.registers.items()):
                if origin == source:
                    self.registers[other] = source, value
            return self.learn_bytes(source, value)
        return True

    def learn_bytes(self, source: Source, value: Value) -> bool:
        """Takes the bits of a number as those of its bytes. Returns whether that is possible."""
        mask, bits = value.mask, value.bits
        for word, c in reversed(source.steps):
            if word == "and":
                mask, bits = mask & c, bits & c
            elif word == "shr":
                mask, bits = mask << c, bits << c
            else:
                return True
        for k in range(source.width):
            shift = 8 * (source.width - 1 - k)
            byte = Value(0, 255, ~255 & BIGGEST | mask >> shift & 255, bits >> shift & 255)
            key = Source(source.packet, source.at + k, 1)
            old = self.sources.get(key, Value(0, 255))
            if (old.bits ^ byte.bits) & old.mask & byte.mask:
                return False
            self.sources[key] = old.meet(byte)
        return True

    def loaded(self, source: Source) -> Value:
        """What is known of bytes."""
        value, first = Value(0, 256**source.width - 1), ~(256**source.width - 1) & BIGGEST
        mask, bits = first, 0
        for k in range(source.width):
            byte = self.sources.get(Source(source.packet, source.at + k, 1), Value(0, 255, ~255 & BIGGEST))
            shift = 8 * (source.width - 1 - k)
            mask, bits = mask | (byte.mask & 255) << shift, bits | byte.bits << shift
        return value.meet(Value(0, BIGGEST, mask, bits))

    def overwrite(self, packet: str, begin: int = 0, end: int = 1 << 20) -> None:
        """Bytes of a packet change."""
        def is_changed(it: Source | None) -> bool:
            return it is not None and it.packet == packet and it.at < end and begin < it.at + it.width
        self.sources = {it: v for it, v in self.sources.items() if not is_changed(it)}
        self.registers = {r: (None if is_changed(it) else it, v) for r, (it, v) in self.registers.items()}

    def move(self, packet: str, count: int) -> None:
        """The bytes of a packet have other places."""
        def moved(it: Source) -> Source:
            return it._replace(at=it.at + count) if it.packet == packet else it
        self.sources = {moved(it): v for it, v in self.sources.items()}
        self.registers = {r: (it and moved(it), v) for r, (it, v) in self.registers.items()}
        if packet in self.lengths:
            low, high = self.lengths[packet]
            self.lengths[packet] = max(0, low + count), max(0, high + count)


def ways(it: Instruction, state: State) -> Iterator[tuple[Instruction, State]]:
    """The successors that an instruction has from a state, each with its own."""
    there, here = state.copy(), state.copy()
    if it.word in TESTS:
        jumps, goes_on = tested(it, there, here)
    else:
        jumps, goes_on = it.target is not None, it.next is not None
        change(it, here)
    if it.target is not None and jumps:
        yield it.target, there
    if it.next is not None and goes_on:
        yield it.next, here


def tested(it: Instruction, there: State, here: State) -> tuple[bool, bool]:
    """Whether a test may hold, and whether it may not; the states learn what it says."""
    name, last = it.operands
    if it.word == "iflen":
        low, high = there.lengths.get(name, (0, BIGGEST))
        there.lengths[name], here.lengths[name] = (low, min(high, it.count - 1)), (max(low, it.count), high)
        return low < it.count, it.count <= high
    if it.word == "jeq" and last[0] != "r":
        c = int(last, 0)
        value = there.value(name)
        can = value.can_be(c) and there.learn(name, exactly(c))
        return can, here.learn(name, Value(others=frozenset({c})))
    if it.word == "jlt":
        c = int(last, 0)
        return c > 0 and there.learn(name, Value(high=c - 1)), here.learn(name, Value(low=c))
    return True, True


def change(it: Instruction, state: State) -> None:
    """What an instruction changes where control goes on after it."""
    word, operands = it.word, it.operands
    if word in WRITES:
        calculate(word, operands, state)
    elif word == "store":
        state.overwrite(operands[0], int(operands[1]), int(operands[1]) + int(operands[2]))
    elif word in ("adj", "prepend"):
        state.move(operands[0], it.count if word == "prepend" else -it.count)
        state.overwrite(operands[0], -(1 << 20), it.count if word == "prepend" else 0)
    elif word in ("storex", "trim", "append"):
        state.overwrite(operands[0])
        low, high = state.lengths.get(operands[0], (0, BIGGEST))
        state.lengths[operands[0]] = (max(0, low - it.count) if word == "trim" else low), high if word == "storex" or high == BIGGEST else high + it.count
    elif word in ("alloc", "clone"):
        state.held |= {operands[0]}
        state.lengths[operands[0]] = (0, 0) if word == "alloc" else state.lengths.get(operands[1], (0, BIGGEST))
        state.overwrite(operands[0])
    elif word in ("free", "tx", "enq", "chain"):
        gone = operands[1 if word == "chain" else 0]
        state.held -= {gone}
        state.overwrite(gone)
        state.lengths.pop(gone, None)


def calculate(word: str, operands: tuple[str, ...], state: State) -> None:
    """What an instruction makes of a register."""
    register, last = operands[0], operands[-1]
    if word == "load":
        source = Source(operands[1], int(operands[2]), int(operands[3]))
        state.set(register, source, state.loaded(source))
    elif word == "loadx":
        state.set(register, None, Value(0, 256 ** int(last) - 1))
    elif word == "lookup":
        state.set(register, None, Value(0, (1 << 24) - 1))
    elif word == "mov":
        state.registers[register] = state.registers.get(last, (None, Value()))
    elif word == "set":
        state.set(register, None, exactly(int(last, 0)))
    elif last[0] == "r":
        a, b = state.value(register), state.value(last)
        high = {"and": min(a.high, b.high), "add": a.high + b.high}.get(word, BIGGEST)
        state.set(register, None, Value(0, high) if high <= BIGGEST else Value())
    else:
        source, value = state.registers.get(register, (None, Value()))
        state.set(register, source and source._replace(steps=(*source.steps, (word, int(last, 0)))), value.after(word, int(last, 0)))


class Reached(NamedTuple):
    """The instructions that packets may reach, each with its states, and the successors to which control may go from each."""

    states: dict[Instruction, list[State]]
    ways: set[tuple[Instruction, Instruction]]


def reached(graph: Graph) -> Reached:
    """What packets may reach. Registers that nobody reads are forgotten."""
    order, read = graph.order(), registers_read(graph)
    heads = {it.target for it in order if it.word == "jmp"}
    found = Reached({graph.first: [State()]}, set())
    for it in order:
        for state in found.states.get(it, []):
            for other, after in ways(it, state):
                found.ways.add((it, other))
                known = found.states.setdefault(other, [])
                if other in heads:
                    after = State(held=after.held)
                after.registers = {r: it for r, it in after.registers.items() if r in read[other]}
                if after not in known and len(known) == MAX_STATES:
                    known[-1] = known[-1].join(after)
                elif after not in known:
                    known.append(after)
    return found


def lines_unreached(graph: Graph) -> Counter[int]:
    """The lines of the source of whose instructions no packet reaches any, each with their number."""
    order = graph.order()
    if len(order) > MAX_INSTRUCTIONS:
        return Counter()
    states = reached(graph).states
    alive = {it.line for it in states}
    return Counter(it.line for it in order if it.word and it.line not in alive)


def leave_out(graph: Graph) -> bool:
    """Leaves out what no packet reaches, and numbers that nobody reads; returns whether there was any."""
    order = graph.order()
    if len(order) > MAX_INSTRUCTIONS:
        return False
    found, bounds, read, changed = reached(graph), registers_bounded(order), registers_read(graph, is_strict=True), False
    for it in order:
        is_unread = it.word in WRITES and it.target is None and it.next is not None and it.operands[0] not in read[it.next]
        if it in found.states and not it.counter and (is_unread or turns(it, found, bounds)):
            changed = True
            if is_unread or it.word in ("jeq", "jlt") and it.operands[0] not in bounds:
                it.next = it.next if is_unread or (it, it.next) in found.ways else it.target
                it.word, it.operands, it.target = "", (), None
            else:
                end = ending(found.states[it][0])
                it.target, it.next = (it.target if (it, it.target) in found.ways else end), (it.next if (it, it.next) in found.ways else end)
    return changed


def turns(it: Instruction, found: Reached, bounds: set[str]) -> bool:
    """Whether a test has an answer that no packet gives, and something to leave out for it: the test itself, if the checker learns no bound from it,
    or else an instruction after it."""
    dead = [other for other in (it.target, it.next) if it.word in TESTS and other and (it, other) not in found.ways]
    if len(dead) != 1 or it.target is it.next:
        return False
    is_free = it.word in ("jeq", "jlt") and it.operands[0] not in bounds
    return is_free or dead[0] not in found.states and not is_ending(dead[0])


def registers_bounded(order: list[Instruction]) -> set[str]:
    """The registers whose bounds the checker may need: those that are offsets or ports, and what these are calculated from."""
    found = {name for it in order if it.word in ("loadx", "storex", "tx") for name in it.operands[1:] if name[0] == "r"}
    size = 0
    while size != len(found):
        size = len(found)
        found |= {name for it in order if it.word in WRITES and it.operands[0] in found for name in it.operands if name[0] == "r"}
    return found


def is_ending(it: Instruction | None) -> bool:
    """Whether all packets are dropped from an instruction on, and nothing else."""
    while it and it.word == "free":
        it = it.next
    return it is not None and it.word == "exit"


def ending(state: State) -> Instruction:
    """The end of the program: all packets are dropped."""
    end = Instruction("exit")
    for p in sorted(state.held, reverse=True):
        end = Instruction("free", (p,), next=end)
    return end
