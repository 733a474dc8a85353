"""A node program on a symbolic packet: the machine of tests/model, on numbers that are not known. Bounds are the checker's part."""
from __future__ import annotations

from copy import copy
from operator import index

from model import machine
from model.machine import BACKWARD, Instr

from .numbers import Unknown, number, val
from .packets import Outside, Seg, copied, fresh
from .paths import Bounded, Left, Path, Undecided
from .terms import Val, add, const, extend, ite, less, lt, part

# The instructions of which a path may have more than one answer.
ASKS = {"alloc", "clone", "ifhead", "iftail", "iflen", "iflast", "tx", "enq", "jeq", "jlt", "lookup", "load", "store", "loadx", "storex", "append", "trim"}


class NodeRun(machine.NodeRun):
    """A run. Each `do_` is an instruction, which says whether it jumps; `seen` has the numbers of those that ran on some path."""

    def __init__(self, path: Path, program: list[Instr], packet: list[Seg], port: Val, rounds: int, seen: set[int]) -> None:
        super().__init__(Outside(path), program, packet, number(port))
        self.path, self.rounds, self.seen = path, rounds, seen
        self.at = self.backward = 0

    def fork(self, path: Path) -> NodeRun:
        """A copy on a path of its own."""
        it = copy(self)
        it.path, it.numbers, it.world, it.packets = path, list(self.numbers), self.world.fork(path), [packet and copied(packet) for packet in self.packets]
        return it

    def step(self) -> bool:
        """One instruction, and those after it that ask nothing. Returns whether there are more."""
        while self.one():
            if self.program[self.at].word in ASKS:
                return True
        return False

    def one(self) -> bool:
        """One instruction. Returns whether there are more."""
        word, args = self.program[self.at]
        self.seen.add(self.at)
        if word == "exit":
            if self.packets != machine.NO_PACKETS:
                raise Left("a packet is held at exit")
            return False
        if word in ("iflen", "iflast") and self.skips_trim(word, *args):
            self.at += 2
        elif not getattr(self, f"do_{word}")(*args):
            self.at += 1
        elif args[-1] > self.at:
            self.at = args[-1]
        elif self.backward == BACKWARD:
            return False
        else:
            self.at, self.backward = args[-1], self.backward + 1
            if self.backward > self.rounds:
                raise Bounded
        return True

    def skips_trim(self, word: str, p: int, n: int, to: int) -> bool:
        """`iflast p,n,L`, `trim p,k`, `L:` is one step without a fork: the new length is one of two."""
        if to != self.at + 2 or self.program[self.at + 1].word != "trim" or self.program[self.at + 1].args[0] != p:
            return False
        seg, k = self.packet(p)[0 if word == "iflen" else -1], self.program[self.at + 1].args[1]
        self.seen.add(self.at + 1)
        c = lt(seg.len, const(n))
        if self.path.decide(c) is not None or seg.origin is None or seg.extra or n < k:
            return False
        if self.path.is_known:
            raise Undecided
        low, high = self.path.range(seg.len)
        seg.tail, seg.len = ite(c, seg.tail, add(seg.tail, const(k))), ite(c, seg.len, less(seg.len, k))
        self.path.spans[self.path.known.val(seg.len)] = min(low, n - k) if low < n - k else n - k, max(min(high, n - 1), high - k)
        seg.settle(self.path)
        return True

    # Packets

    def do_alloc(self, p: int, pool: int, _to: int) -> bool:
        is_given = self.world.takes(pool, 1)
        self.packets[p] = [fresh(self.world.allocs)] if is_given else None
        return not is_given

    def do_clone(self, p: int, q: int, pool: int, _to: int) -> bool:
        is_given = self.world.takes(pool, len(self.packet(q)))
        self.packets[p] = copied(self.packet(q)) if is_given else None
        return not is_given

    def do_prepend(self, p: int, n: int) -> None:
        self.packet(p)[0].insert(0, [const(0, 8)] * n)

    def do_adj(self, p: int, n: int) -> None:
        self.packet(p)[0].remove(0, n)

    def do_append(self, p: int, n: int) -> None:
        self.packet(p)[-1].append(self.path, n)

    def do_trim(self, p: int, n: int) -> None:
        self.packet(p)[-1].trim(self.path, n)

    def do_ifhead(self, p: int, n: int, _to: int) -> bool:
        return number(self.packet(p)[0].room) < n

    def do_iftail(self, p: int, n: int, _to: int) -> bool:
        return number(self.packet(p)[-1].tail) < n

    def do_iflen(self, p: int, n: int, _to: int) -> bool:
        return number(self.packet(p)[0].len) < n

    def do_iflast(self, p: int, n: int, _to: int) -> bool:
        return number(self.packet(p)[-1].len) < n

    def hand(self, kind: str, p: int, to: Val) -> bool:
        """Hands a packet on. Returns whether the list was full."""
        is_full = self.world.is_full(kind, self.packet(p), to)
        self.packets[p] = self.packets[p] if is_full else None
        return is_full

    def do_tx(self, p: int, r: int, _to: int) -> bool:
        return self.hand("tx", p, val(self.numbers[r]))

    def do_enq(self, p: int, ring: int, _to: int) -> bool:
        return self.hand("enq", p, const(ring))

    # Numbers

    def do_load(self, r: int, p: int, off: int | Unknown, w: int) -> None:
        self.numbers[r] = number(extend(self.packet(p)[0].get(self.path, index(off), w)))

    def do_store(self, p: int, off: int | Unknown, w: int, r: int) -> None:
        self.packet(p)[0].put(self.path, index(off), val(self.numbers[r]), w)

    def do_lookup(self, r: int, table: int, s: int, _to: int) -> bool:
        hop = self.world.hop(table, part(val(self.numbers[s]), 0, 32))
        self.numbers[r] = self.numbers[r] if hop is None else number(hop)
        return hop is None
