"""Random numbers over random packets: what tools/pkt/prove makes of them, what it knows, and what z3 is asked have the value that Python calculates.
Needs z3, and the folder tools on the path."""
from collections.abc import Callable
from random import Random
from typing import Any

import z3

from pkt.prove.ask import of_atom, of_val
from pkt.prove.known import Known, Model
from pkt.prove.numbers import number, val
from pkt.prove.terms import Atom, atom, const, eq, extend, lt, part, range_of, whole, width_of
from pkt_model.arithmetic import BINARY, MASK, folded

# A number as a function of the leaves, which may be known or not.
Expression = Callable[[list[Any]], Any]
LEAVES = [*(atom("byte", (0, k), 0, 255) for k in range(8)), atom("num", ("n",), 0, 4095)]
CONSTANTS = (0, 1, 255, 0xFFFF, 0x10000, MASK)


def expression(rng: Random, depth: int) -> Expression:
    """A random number, as deep as this."""
    if depth == 0:
        k, c = rng.randrange(8), rng.choice((*CONSTANTS, rng.getrandbits(16), rng.getrandbits(64)))
        return rng.choice((lambda it: it[k], lambda it: it[8], lambda _: c, lambda it: it[k] << 8 | it[7 - k]))
    left, right = expression(rng, depth - 1), expression(rng, rng.randrange(depth))
    kind, k = rng.choice((*BINARY, *BINARY, "fold", "step", "around", "not", "low", "less")), rng.choice((1, 4, 8, 16, 17, 32, 48))
    c = rng.choice((2, 3, 256, 65535, rng.getrandbits(32)))
    if kind in ("<<", ">>", "*"):
        return lambda it: BINARY[kind](left(it), c if kind == "*" else k)
    if kind in BINARY:
        return lambda it: BINARY[kind](left(it), right(it))
    others: dict[str, Expression] = {
        "fold": lambda it: folded(left(it)),
        "around": lambda it: around(sum(it[at] << 8 | it[at + 1] for at in range(0, 2 * (k % 3 + 2), 2)) + c % 3),
        "step": lambda it: (left(it) & 0xFFFF) + (left(it) >> 16) & MASK,
        "not": lambda it: ~left(it) & MASK,
        "low": lambda it: left(it) & (1 << k) - 1,
        "less": lambda it: (left(it) + 0xFFFF + right(it)) - right(it) & MASK,
    }
    return others[kind]


def around(total: Any) -> Any:
    """One step of folding that adds the bits above 16 to all bits, as some programs do."""
    return total + (total >> 16) & 0x1FFFF


def some_known(rng: Random, values: dict[Atom, int]) -> Known:
    """What knows some bits of some leaves."""
    known = Known()
    for a, value in values.items():
        if rng.random() < 0.3:
            count = rng.randrange(1, a.width + 1)
            at = rng.randrange(a.width - count + 1)
            known.learn_eq(((a, at, count, False),), value >> at & (1 << count) - 1)
    return known


def check(count: int, seed: int) -> str:
    """Tries this many numbers; returns what is wrong with the first one that is, if there is one."""
    rng, unknown = Random(seed), [number(whole(a)) for a in LEAVES]
    for k in range(count):
        values = {a: rng.choice((0, a.high, rng.getrandbits(a.width))) for a in LEAVES}
        first, second = expression(rng, rng.randrange(1, 6)), expression(rng, rng.randrange(1, 4))
        (v, x), (w, y) = ((extend(val(it(unknown))), it(list(values.values())) & MASK) for it in (first, second))
        model, known = Model(leaves=dict(values)), some_known(rng, values)
        if rng.random() < 0.3:
            known.learn_eq(v, x)
        right = [width_of(v) == 64, range_of(v)[0] <= x <= range_of(v)[1]]
        right += [model.value(it) == wanted for it, wanted in ((v, x), (w, y), (known.val(v), x), (known.val(w), y), (part(v, 3, 20), x >> 3 & 0xFFFFF))]
        for c, holds in ((eq(v, w), x == y), (lt(v, w), x < y), (eq(v, const(x)), True), (lt(v, const(y)), x < y), (lt(const(y), v), y < x)):
            right += [model.holds(c) == holds, model.holds(known.cond(c)) == holds]
        if k % 20 == 0:
            pairs = [(of_atom(a), z3.BitVecVal(value, a.width)) for a, value in values.items()]
            right.append(z3.simplify(z3.substitute(of_val(v), *pairs)).as_long() == x)
        if not all(right):
            return f"number {k} of seed {seed}: {v}, {w} with {values}: {right}"
    return ""
