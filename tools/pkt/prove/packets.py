"""Segments of symbolic packets, and what runs on them can be seen to do."""
from __future__ import annotations

from copy import copy
from typing import NamedTuple

from .paths import Left, Path
from .terms import Val, add, const, leaf, less, lt, part, sub

ZERO = const(0, 8)


class Seg:
    """Bytes: those of `head`; then, if there is an origin, those of the packet that came, from `base` on; the last `extra` are zeros that were
    appended. `len` counts all; `room` and `tail` are what is free before and after."""

    def __init__(self, origin: int | None, length: Val, room: Val, tail: Val) -> None:
        self.head, self.origin, self.base, self.extra = list[Val](), origin, 0, 0
        self.len, self.room, self.tail = length, room, tail

    def copy(self) -> Seg:
        """A copy."""
        it = copy(self)
        it.head = list(self.head)
        return it

    def from_origin(self, at: int) -> Val:
        """A byte of the packet that came."""
        if self.origin is None:
            raise Left("a byte outside the packet")
        return part(leaf("byte", (self.origin, at), 8), 0, 8)

    def reach(self, n: int) -> None:
        """Takes the first n bytes into `head`."""
        while len(self.head) < n:
            self.head.append(self.from_origin(self.base))
            self.base += 1

    def is_appended(self, path: Path, at: int) -> bool:
        """Whether a byte was appended."""
        return bool(self.extra) and not path.branch(lt(const(at), less(self.len, self.extra)))

    def byte(self, path: Path, at: int) -> Val:
        """A byte."""
        if self.is_appended(path, at):
            return ZERO
        return self.head[at] if at < len(self.head) else self.from_origin(self.base + at - len(self.head))

    def get(self, path: Path, at: int, count: int) -> Val:
        """Bytes as one number of 8 * count bits."""
        out: Val = ()
        for k in reversed(range(count)):
            out += self.byte(path, at + k)
        return part(out, 0, 8 * count)

    def put(self, path: Path, at: int, v: Val, count: int) -> None:
        """Writes a number of so many bytes."""
        if any([self.is_appended(path, at + k) for k in range(count)]):
            raise Left("a write to appended bytes")
        self.reach(at + count)
        self.head[at : at + count] = [part(v, 8 * k, 8) for k in reversed(range(count))]

    def insert(self, at: int, data: list[Val]) -> None:
        """Puts bytes in."""
        self.reach(at)
        self.head[at:at] = data
        self.len, self.room = add(self.len, const(len(data))), less(self.room, len(data))

    def remove(self, begin: int, end: int) -> None:
        """Takes bytes out."""
        self.reach(end)
        del self.head[begin:end]
        self.len, self.room = less(self.len, end - begin), add(self.room, const(end - begin))

    def append(self, path: Path, n: int) -> None:
        """Zeros after the bytes."""
        self.settle(path)
        if self.origin is None:
            self.head += [ZERO] * n
        elif len(self.head) > path.range(self.len)[0]:
            raise Left("bytes are appended where it is not known what was cut")
        else:
            self.extra += n
        self.len, self.tail = add(self.len, const(n)), less(self.tail, n)

    def trim(self, path: Path, n: int) -> None:
        """Cuts the last n bytes."""
        self.len, self.tail = less(self.len, n), add(self.tail, const(n))
        if self.origin is None:
            del self.head[len(self.head) - n :]
        else:
            self.extra -= min(n, self.extra)
            self.settle(path)

    def keep(self, path: Path, n: int) -> None:
        """Cuts all after the first n bytes."""
        if path.branch(lt(const(n), self.len)):
            self.tail = add(self.tail, sub(self.len, const(n)))
            self.ends_at(n)
            self.extra = 0

    def settle(self, path: Path) -> None:
        """Takes a length that has become known."""
        n = path.value(self.len)
        if self.origin is not None and n is not None and not self.extra:
            self.ends_at(n)

    def ends_at(self, n: int) -> None:
        """There are n bytes, all of them known."""
        self.reach(n)
        del self.head[n:]
        self.origin, self.len = None, const(n)


def symbolic(k: int) -> Seg:
    """Segment k of the packet that comes."""
    return Seg(k, *(leaf("num", (name, k), 12) for name in ("length", "room", "tail")))


def fresh(k: int) -> Seg:
    """The empty segment of allocation call k."""
    return Seg(None, const(0), const(128), leaf("num", ("newtail", k), 12))


def copied(packet: list[Seg]) -> list[Seg]:
    """A copy of a packet."""
    return [seg.copy() for seg in packet]


class Event(NamedTuple):
    """What can be seen from outside: `alloc` of so many buffers of a pool, `tx` to a port or `enq` to a ring; whether it failed; and else what was sent."""

    kind: str
    to: Val
    failed: bool
    packet: list[Seg] | None = None


class Outside:
    """The world of a run: pools, tables and lists, which answer freely, and what can be seen of the run."""

    def __init__(self, path: Path) -> None:
        self.path, self.events = path, list[Event]()
        self.allocs = self.hands = self.cuts = 0

    def fork(self, path: Path) -> Outside:
        """A copy on a path of its own."""
        it = copy(self)
        it.path, it.events = path, list(self.events)
        return it

    def give_up(self, packet: list[Seg]) -> None:
        """A packet is dropped, which nobody sees."""

    def takes(self, pool: int, number: int) -> bool:
        """Whether so many buffers of a pool are given."""
        self.allocs += 1
        self.events.append(Event(f"alloc of {number}", const(pool), self.path.branch(("is", "refused", self.allocs))))
        return not self.events[-1].failed

    def is_full(self, kind: str, packet: list[Seg], to: Val) -> bool:
        """Whether a list does not take a packet."""
        self.hands += 1
        is_full = self.path.branch(("is", "full", self.hands))
        self.events.append(Event(kind, to, is_full, None if is_full else packet))
        return is_full

    def hop(self, table: int, address: Val) -> Val | None:
        """What a table has for an address."""
        return self.path.known.hop(table, address) if self.path.branch(("hit", table, address)) else None
