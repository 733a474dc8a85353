"""A program of the language pkt on a symbolic packet: the interpreter of tests/pkt_model, on numbers that are not known."""
from __future__ import annotations

from copy import copy

from model.machine import BACKWARD
from pkt_model.machine import OPTIONS_ROOM, Source, SourceRun

from .numbers import Unknown, number, val
from .packets import Outside, Seg, copied, fresh
from .paths import Bounded, Left, Path
from .terms import Cond, Val, concat, const, extend, lt, part


class NotGiven(Exception):
    """A packet that does not come, since the ring declares otherwise."""


class SymbolicRun(SourceRun):
    """A run on a path. `tight` has, for each header that was found and may have options, when they have no room, and when there are none."""

    def __init__(self, path: Path, source: Source, packet: list[Seg], port: Val, rounds: int) -> None:
        super().__init__(Outside(path), source, packet, number(port))
        self.path, self.bound, self.is_new = path, rounds, True
        self.clones, self.sent_clone, self.after_options, self.tight = set[str](), False, False, list[tuple[Cond, Cond]]()

    def fork(self, path: Path) -> SymbolicRun:
        """A copy on a path of its own."""
        it = copy(self)
        it.path, it.world = path, self.world.fork(path)
        it.this, it.named = self.this and copied(self.this), {name: copied(packet) for name, packet in self.named.items()}
        for name in ("variables", "clones", "stack", "found", "before", "absent", "tight"):
            setattr(it, name, copy(getattr(self, name)))
        return it

    def step(self) -> bool:
        """One statement, or what a ring gives. Returns whether there are more."""
        if self.is_new:
            self.is_new = False
            self.give_headers()
            return True
        return bool(self.stack) and super().step()

    def end_round(self) -> None:
        if self.rounds == self.bound < BACKWARD:
            raise Bounded
        super().end_round()

    # Headers

    def give_headers(self) -> None:
        """The headers that the ring gives are there: packets without them do not come."""
        place, before = 0, None
        for name in self.program.given:
            header = self.known[name]
            if before and not self.holds(header.after[before]) or place is None or self.length(self.first) < place + header.size:
                raise NotGiven
            self.found[name] = place
            if before:
                self.before[name] = before
            self.is_found(name)
            place, before = self.end_of(name), name

    def is_found(self, name: str) -> None:
        """Where a header that was found has options, and less room is after the packet than they may need, the packet may be dropped."""
        header = self.known[name]
        if header.extent is None:
            return
        values = header.extent.values
        plain = [k for k in values if self.number(header.extent.number, {header.extent.name: k}) == header.size]
        if plain != list(values)[: len(plain)]:
            raise Left(f"options of {name}")
        first = val(self.bits(8 * self.found[name], header.extent.bits))
        self.tight.append((lt(self.this[-1].tail, const(OPTIONS_ROOM)), lt(first, const(values[0] + len(plain)))))

    def has_options(self, name: str, end: int | None) -> None:
        if end not in (None, self.found[name] + self.known[name].size):
            self.after_options = True
            self.is_found(name)

    def may_drop(self, path: Path) -> bool:
        """Whether less room was after the packet than options may need, so that it may be dropped."""
        return any(path.branch(is_tight) and not path.branch(has_none) for is_tight, has_none in self.tight)

    # Bytes

    def length(self, segment: Seg) -> int | Unknown:
        return number(segment.len)

    def bits(self, at: int, count: int) -> int | Unknown:
        begin, end = at // 8, -(-(at + count) // 8)
        return number(extend(part(self.first.get(self.path, begin, end - begin), 8 * end - at - count, count)))

    def put_bits(self, at: int, count: int, value: int | Unknown) -> None:
        begin, size, low = at // 8, -(-(at + count) // 8) - at // 8, -(at + count) % 8
        old = self.first.get(self.path, begin, size)
        new = concat(part(old, 0, low), part(val(value), 0, count), part(old, low + count, 8 * size - low - count))
        self.first.put(self.path, begin, new, size)

    def insert(self, segment: Seg, at: int, data: list[int | Unknown]) -> bool:
        if number(segment.room) < len(data):
            return False
        segment.insert(at, [part(val(it), 0, 8) for it in data])
        return True

    def remove(self, segment: Seg, begin: int, end: int) -> None:
        segment.remove(begin, end)

    def keep(self, segment: Seg, count: int) -> None:
        segment.keep(self.path, count)

    # What is outside

    def is_shared(self) -> bool:
        return self.after_options and (self.sent_clone or not self.clones.isdisjoint(self.named))

    def cloned(self, name: str, _pool: int) -> list[Seg]:
        self.clones.add(name)
        return copied(self.packet(None))

    def new(self, name: str, _pool: int) -> list[Seg]:
        self.clones.discard(name)
        return [fresh(self.world.allocs)]

    def hop(self, table: int, address: int | Unknown) -> int | Unknown | None:
        hop = self.world.hop(table, part(val(address), 0, 32))
        return None if hop is None else number(hop)

    def hands(self, kind: str, name: str | None, to: int | Unknown) -> bool:
        """Beside what the interpreter does it notes that a clone was sent."""
        is_taken = super().hands(kind, name, to)
        self.sent_clone |= is_taken and name in self.clones
        return is_taken

    def is_full(self, kind: str, packet: list[Seg], to: int | Unknown) -> bool:
        return self.world.is_full(kind, packet, val(to))
