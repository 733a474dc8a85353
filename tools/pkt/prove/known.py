"""What is known of the unknowns: some bits and answers on a path, all of them under one packet."""
from __future__ import annotations

from collections.abc import Iterator
from itertools import chain
from random import Random
from typing import Any

import z3

from .ask import hit, hop
from .terms import (
    LEAVES, Atom, Cond, Linear, Val, add, atom, atoms_in, bitwise, concat, const, eq, extend, fold, folded, from_lin, inverted, ite, join, known, lin, lt,
    more, negated, part, residue, shr, whole, zero_form,
)

RANDOM = Random(1)


class Known:
    """Replaces what is known on a path: bits of atoms, and answers of conditions."""

    def __init__(self) -> None:
        self.bits: dict[Atom, tuple[int, int]] = {}
        self.facts: dict[Cond, bool] = {}
        self.memo: dict[Atom, Val] = {}

    def fork(self) -> Known:
        """A copy that learns its own; what both know now they may remember together."""
        it = Known()
        it.bits, it.facts, it.memo = dict(self.bits), dict(self.facts), self.memo
        return it

    def learn_eq(self, v: Val, value: int) -> None:
        """A number has this value."""
        at = 0
        for a, x, w, inv in v:
            ones = (1 << w) - 1
            bits, at = (value >> at ^ (-1 if inv else 0)) & ones, at + w
            if a is not None:
                mask, old = self.bits.get(a, (0, 0))
                self.bits[a] = (mask | ones << x, old & ~(ones << x) | bits << x)
        self.memo = {}

    def val(self, v: Val) -> Val:
        """A number in which what is known is replaced."""
        out = []
        for it in v:
            a, x, w, inv = it
            if a is None:
                out.append(it)
            else:
                found = part(self.atom(a), x, w)
                out += inverted(found) if inv else found
        return join(out)

    def atom(self, a: Atom) -> Val:
        """An atom in which what is known is replaced."""
        if a in self.memo:
            return self.memo[a]
        v = self.leaf(a) if a.kind in LEAVES else self.rebuilt(a)
        mask, value = self.bits.get(a, (0, 0))
        if mask:
            bits = (const(value >> k, 1) if mask >> k & 1 else part(v, k, 1) for k in range(a.width))
            v = concat(*bits, part(v, a.width, 64 - a.width))
        self.memo[a] = v
        return v

    def leaf(self, a: Atom) -> Val:
        """A leaf."""
        return whole(a)

    def linear(self, d: Any, c: int, exact: bool) -> tuple[Linear, int]:
        """A linear form, likewise."""
        out: Linear = {}
        for (a, x, w), coef in d:
            e, f = lin(part(self.atom(a), x, w), exact)
            more(out, e, coef)
            c += coef * f
        return out, c

    def rebuilt(self, a: Atom) -> Val:
        """An atom from what it consists of."""
        kind, args = a.kind, a.args
        if kind == "sum":
            return from_lin(*self.linear(*args), is_known=args[2])
        if kind == "f1":
            v = self.atom(args[0])
            return add(extend(part(v, 0, 16)), shr(v, 16))
        if kind == "fold":
            return folded(*residue(*self.linear(args[0], args[1], True)), args[2] and zero_form(self.val(args[2])))
        if kind == "foldx":
            return fold(self.val(args[0]))
        if kind == "bit":
            return extend(bitwise(args[0], self.val(args[1]), self.val(args[2])))
        if kind == "hop":
            return self.hop(args[0], self.val(args[1]))
        cond = self.cond(args[0])
        return ite(cond, *map(self.val, args[1:])) if not isinstance(cond, bool) else self.val(args[1 if cond else 2])

    def hop(self, table: int, address: Val) -> Val:
        """What a table has for an address."""
        return whole(atom("hop", (table, address), 0, 0xFFFFFF))

    def cond(self, c: Cond) -> Cond:
        """A condition in which what is known is replaced."""
        if isinstance(c, bool):
            return c
        if c[0] == "not":
            return negated(self.cond(c[1]))
        if c in self.facts:
            return self.facts[c]
        if c[0] == "hit":
            new = self.hit(c[1], self.val(c[2]))
        elif c[0] == "is":
            return self.free(c)
        else:
            new = (eq if c[0] == "eq" else lt)(self.val(c[1]), self.val(c[2]))
        if new != c and not isinstance(new, bool) and (yes := new[1] if new[0] == "not" else new) in self.facts:
            return self.facts[yes] != (new[0] == "not")
        return new

    def hit(self, table: int, address: Val) -> Cond:
        """Whether a table has an address."""
        return "hit", table, address

    def free(self, c: Cond) -> Cond:
        """The answer to what is free."""
        return c


class Model(Known):
    """A packet and all other unknowns, from z3 (or all 0)."""

    def __init__(self, z: Any = None, leaves: dict[Atom, int] | None = None, answers: dict[Cond, bool] | None = None) -> None:
        super().__init__()
        self.z, self.leaves, self.answers = z, {} if leaves is None else leaves, answers or {}

    def value(self, v: Val) -> int:
        """The value of a number."""
        found = known(self.val(v))
        assert found is not None
        return found

    def holds(self, c: Cond) -> bool:
        """Whether a condition holds."""
        return self.cond(c)

    def ask(self, term: Any) -> Any:
        """What the model of z3 says."""
        return self.z.eval(term, model_completion=True)

    def leaf(self, a: Atom) -> Val:
        if a not in self.leaves:
            self.leaves[a] = 0 if self.z is None or a.z is None else self.ask(a.z).as_long()
        return const(self.leaves[a])

    def hop(self, table: int, address: Val) -> Val:
        return const(0 if self.z is None else self.ask(hop(table)(z3.BitVecVal(known(address), 32))).as_long())

    def hit(self, table: int, address: Val) -> bool:
        return self.z is not None and z3.is_true(self.ask(hit(table)(z3.BitVecVal(known(address), 32))))

    def free(self, c: Cond) -> bool:
        return self.answers.get(c, False)

    def answered(self, c: Cond, answer: bool) -> Model:
        """The same packet with an answer to a condition that is free."""
        it = Model(self.z, self.leaves, {**self.answers, c: answer})
        it.memo = self.memo
        return it

    def near(self, c: Cond, others: list[Cond], tries: int) -> Model | None:
        """A packet near this one that meets a condition and others; None if the search fails. It tries a word, what a constant asks for, and bytes by
        chance."""
        made = (Model(self.z, self.leaves | leaves, self.answers) for leaves in chain(self.words(c), self.fitting(c), self.chances(c, tries)))
        return next((it for it in made if it.holds(c) and all(map(it.holds, others))), None)

    def words(self, c: Cond) -> Iterator[dict[Atom, int]]:
        """Words of the packet that give a folded sum the value that a condition wants."""
        if c[0] != "eq" or known(c[2]) is None or len(c[1]) != 1 or c[1][0][0].kind != "fold" or c[1][0][1:3] != (0, 16):
            return
        a, value = c[1][0][0], known(c[2]) ^ (0xFFFF if c[1][0][3] else 0)
        d = {key[0]: coef for key, coef in a.args[0] if key[0].kind == "byte" and key[1:] == (0, 8)}
        lack = value - self.linear(a.args[0], a.args[1], True)[1]
        for lower, coef in d.items():
            for upper, other in d.items():
                if other == coef * 256 % 0xFFFF and upper is not lower:
                    word = (self.value(whole(upper)) << 8 | self.value(whole(lower))) + lack * pow(coef, -1, 0xFFFF)
                    yield from ({upper: it >> 8, lower: it & 255} for it in {word % 0xFFFF, word % 0xFFFF or 0xFFFF})

    def fitting(self, c: Cond) -> Iterator[dict[Atom, int]]:
        """Values of what is compared with a constant, with which a condition holds."""
        kind, v, other = it if (it := c[1] if c[0] == "not" else c)[0] in ("eq", "lt") else ("", (), ())
        k = known(other) if kind else None
        if k is None or any(a is not None and a.kind not in LEAVES for a, _, _, _ in v):
            return
        want = {("eq", False): k, ("eq", True): k ^ 1, ("lt", False): max(k - 1, 0), ("lt", True): k}[kind, c[0] == "not"]
        found = dict[Atom, int]()
        for a, first, bits, is_inverted in v:
            mask = (1 << bits) - 1
            if a is not None:
                found[a] = found.get(a, self.value(whole(a))) & ~(mask << first) | ((want ^ -is_inverted) & mask) << first
            want >>= bits
        yield found

    def chances(self, c: Cond, tries: int) -> Iterator[dict[Atom, int]]:
        """Other values of the bytes that a condition is about."""
        leaves = sorted({leaf for a in atoms_in(c) for leaf in a.leaves}, key=lambda it: it.id)
        for k in range(tries):
            yield {leaf: RANDOM.getrandbits(leaf.width) for leaf in leaves if k % 2 or RANDOM.random() < 0.3}
