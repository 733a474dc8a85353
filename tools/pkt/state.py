"""The facts at one place of the program, on the paths that lead there."""
from __future__ import annotations

from collections import Counter
from copy import copy
from dataclasses import dataclass, field, replace
from typing import Self

from .headers import Span, Start
from .syntax import PORT, THIS, Field

# The facts that later statements need: variables, fields, and headers with True if found, False if absent. ALL stands for every fact.
Needs = frozenset[str | Field | tuple[str, bool]]
ALL = "*"
NOTHING, EVERYTHING = Needs(), Needs({ALL})

# Who shares the buffers of a packet: registers of packets, somebody permanently, or somebody those after the first one.
SOMEBODY, SOMEBODY_THE_REST = -1, -2
# Bits that moved further back than this byte are forgotten.
MAX_KNOWN = 1_024
# Where a header begins that is at the offset in the register.
FAR = Start(True, 0)
# The name of the offset among the variables.
OFFSET = "$offset"
# The factors by which instructions with a count change the headroom of a packet and the length of its first segment.
MOVES = {"prepend": (-1, 1), "adj": (1, -1), "append": (0, 1), "trim": (0, -1)}


@dataclass(frozen=True)
class Packet:
    """The facts about a packet: who shares its buffers, its least headroom, the least length of its first segment, the most segments."""

    sharers: frozenset[int] = frozenset()
    headroom: int = 128
    first: int = 0
    segments: int = 1

    def clones(self) -> set[int]:
        """The registers of packets that share its buffers, if nobody else does."""
        return {p for p in self.sharers if p >= 0}

    def after(self, word: str, count: int) -> Packet:
        """The facts about a packet after an instruction, at most those of the checker; after a test, those where it does not jump."""
        if word not in MOVES:
            return replace(self, **{"iflen": {"first": max(self.first, count)}, "ifhead": {"headroom": max(self.headroom, count)}}.get(word, {}))
        headroom, first = MOVES[word]
        return replace(self, headroom=self.headroom + headroom * count, first=max(0, self.first + first * count))

    def joined(self, other: Packet) -> Packet:
        """The facts about a packet on both of two paths, as in the checker."""
        sharers = self.sharers | other.sharers
        if self.sharers != other.sharers and max(sharers) >= 0:
            sharers = frozenset({SOMEBODY})
        return Packet(sharers, min(self.headroom, other.headroom), min(self.first, other.first), max(self.segments, other.segments))


@dataclass(frozen=True)
class Far:
    """Headers at an offset in a register: the zeros after the packet, the base of the offset, the bytes that are there, the possible values that
    give the length of the header before them, each with this length, its name, the bits that gave the offset, and whether they changed since then."""

    padding: int = 0
    base: int = 0
    size: int = 0
    lengths: tuple[tuple[int, int], ...] = ()
    register: int | None = None
    before: str = ""
    span: Span = Span(0, 0)
    is_old: bool = False

    def may_meet(self, near: Span) -> bool:
        """Whether bits at a constant place may be at the offset in the register too."""
        return any(near.end > 8 * (self.base + size) for _, size in self.lengths)


NEAR = Far()


@dataclass
class State:
    """The facts about registers, packets, and the bytes of the packet."""

    held: dict[str, int] = field(default_factory=lambda: {THIS: 0})
    packets: dict[int, Packet] = field(default_factory=lambda: {0: Packet()})
    found: dict[str, Start | None] = field(default_factory=dict)  # where headers begin that were looked for; none for those that are absent
    bits: dict[tuple[bool, int], int] = field(default_factory=dict)  # the known bits of the packet, each by whether it is far, and its number
    loaded: dict[Span, int] = field(default_factory=dict)  # the register that has these bits of the packet
    variables: dict[str, int] = field(default_factory=lambda: {PORT: 0})
    bounds: dict[int, int] = field(default_factory=lambda: {0: 0})
    pins: Counter[int] = field(default_factory=Counter)  # how many operands of the statement are in a register
    far: Far = NEAR
    sharer: tuple[str, int] = "", 0  # who came to share the bytes of the packet, and in which line

    def copy(self) -> Self:
        """A copy that is independent of this one."""
        other = copy(self)
        vars(other).update((name, copy(it)) for name, it in vars(self).items() if isinstance(it, (dict, set)))
        return other

    def signature(self) -> tuple[object, ...]:
        """The part of the state that must be equal where paths join, and no moves make equal."""
        return *(frozenset(it.items()) for it in (self.held, self.found)), frozenset(self.registers()), self.far.padding, self.far.base, self.far.before

    def registers(self) -> dict[str, int]:
        """The registers of the variables, and of the offset."""
        return self.variables | ({OFFSET: self.far.register} if self.far.register is not None else {})

    def know(self, register: int, **news: object) -> None:
        """Sets the facts about a packet."""
        self.packets[register] = replace(self.packets[register], **news)  # type: ignore[arg-type]

    def used(self) -> set[int]:
        """The registers in use: by variables, operands and offsets."""
        return {r for r in (*self.variables.values(), *(+self.pins), self.far.register) if r is not None}

    def forget(self, needs: Needs) -> None:
        """Keeps only the needed facts."""
        self.pins = Counter()
        if ALL not in needs:
            self.found = {name: at for name, at in self.found.items() if (name, at is not None) in needs}
            self.variables = {name: r for name, r in self.variables.items() if name in needs or name.startswith("$")}

    def join(self, other: State) -> None:
        """Keeps only the facts of both paths."""
        self.packets = {p: it.joined(other.packets[p]) for p, it in self.packets.items()}
        lengths = tuple(sorted({*self.far.lengths, *other.far.lengths}))
        self.far = replace(self.far, size=min(self.far.size, other.far.size), lengths=lengths, is_old=self.far.is_old or other.far.is_old)
        self.bits = dict(self.bits.items() & other.bits.items())
        self.loaded = dict(self.loaded.items() & other.loaded.items())
        self.bounds = {r: max(b, other.bounds[r]) for r, b in self.bounds.items() if r in other.bounds}
        self.sharer = self.sharer if self.sharer[0] else other.sharer

    def begins(self, name: str) -> int:
        """The byte at which a header that was found begins; if it is far, after the offset in the register."""
        start = self.found[name]
        assert start is not None
        return start.byte

    def is_far(self, name: str) -> bool:
        """Whether a header was found at the offset in the register."""
        start = self.found.get(name)
        return start is not None and start.is_far

    def places(self, name: str) -> list[int]:
        """The byte at which a header that was found begins, for each offset that the register may have."""
        offsets = [self.far.base + size for _, size in self.far.lengths] or [0]
        return [self.begins(name) + self.is_far(name) * offset for offset in offsets]

    def known(self, span: Span) -> tuple[int, int]:
        """The known bits, and their values."""
        mask = value = 0
        for bit in range(span.bit, span.end):
            mask, value = mask << 1 | ((span.is_far, bit) in self.bits), value << 1 | self.bits.get((span.is_far, bit), 0)
        return mask, value

    def learn(self, span: Span, value: int) -> None:
        """Records the value of bits."""
        self.bits |= {(span.is_far, bit): value >> span.end - 1 - bit & 1 for bit in range(span.bit, span.end)}

    def overwrite(self, span: Span) -> None:
        """Records that bits changed, and forgets the other bits of their bytes, and those at the offset in the register that may be the same."""
        def may_be_same(it: Span) -> bool:
            return it.is_far != span.is_far and self.far.may_meet(span if it.is_far else it)
        self.loaded = {it: r for it, r in self.loaded.items() if not it.meets(span) and not may_be_same(it)}
        for bit in range(8 * span.bytes.start, 8 * span.bytes.stop):
            self.bits.pop((span.is_far, bit), None)
        if self.far.lengths and (span.is_far or self.far.may_meet(span)):
            self.bits = {(is_far, bit): it for (is_far, bit), it in self.bits.items() if not may_be_same(Span(bit, 1, is_far))}
        if self.far.span.meets(span):
            self.far = replace(self.far, is_old=True)

    def move(self, count: int, start: int = 0) -> None:
        """Records that the bytes from start on moved count bytes up, and that those before it changed."""
        self.loaded = {it.moved(count): r for it, r in self.loaded.items() if it.bit >= 8 * start}
        low, high = 8 * start, 8 * (MAX_KNOWN - count)
        self.bits = {(is_far, bit + 8 * count): it for (is_far, bit), it in self.bits.items() if low <= bit < high}

    def share(self, p: int, q: int) -> None:
        """Records that p is a clone of q."""
        self.packets[p] = self.packets[q]
        group = {p, q, *self.packets[q].sharers}
        for k in group if min(group) >= 0 else (p, q):
            self.know(k, sharers=frozenset(group - {k} if min(group) >= 0 else {SOMEBODY}))

    def leave(self, p: int) -> None:
        """Records that p is freed, and empty."""
        for k in self.packets.pop(p).clones():
            self.know(k, sharers=self.packets[k].sharers - {p})

    def dissolve(self, p: int, is_shared: bool = False) -> None:
        """Records that those that share the buffers of p do so permanently, or that somebody shares them."""
        if is_shared or self.packets[p].clones():
            for k in {p, *self.packets[p].clones()}:
                self.know(k, sharers=frozenset({SOMEBODY}))
