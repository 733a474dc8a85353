"""Numbers and conditions for z3."""
from functools import cache
from typing import Any

import z3

from .terms import LEAVES, Atom, Cond, Val


@cache
def hop(table: int) -> Any:
    """What a table has for an address."""
    return z3.Function(f"hop{table}", z3.BitVecSort(32), z3.BitVecSort(24))


@cache
def hit(table: int) -> Any:
    """Whether a table has an address."""
    return z3.Function(f"hit{table}", z3.BitVecSort(32), z3.BoolSort())


@cache
def of_val(v: Val) -> Any:
    """A number."""
    parts = []
    for a, x, w, inv in v:
        t = z3.BitVecVal(x, w) if a is None else z3.Extract(x + w - 1, x, of_atom(a)) if w < a.width else of_atom(a)
        parts.append(~t if inv else t)
    return parts[0] if len(parts) == 1 else z3.Concat(*reversed(parts))


@cache
def of_cond(c: Cond) -> Any:
    """A condition."""
    if isinstance(c, bool):
        return z3.BoolVal(c)
    if c[0] == "not":
        return z3.Not(of_cond(c[1]))
    if c[0] in ("eq", "lt"):
        return (z3.ULT if c[0] == "lt" else lambda v, w: v == w)(of_val(c[1]), of_val(c[2]))
    return hit(c[1])(of_val(c[2])) if c[0] == "hit" else z3.Bool("_".join(map(str, c)))


def of_atom(a: Atom) -> Any:
    """An atom."""
    if a.z is None:
        a.z = made(a.kind, a.args, a.width)
    return a.z


def made(kind: str, args: Any, width: int) -> Any:
    """An atom of this many bits."""
    if kind in LEAVES:
        return z3.BitVec("_".join(map(str, (kind, *args))), width)
    if kind == "sum":
        return linear(args[0], args[1], width)
    if kind == "f1":
        return resized(step(resized(of_atom(args[0]), 64)), width)
    if kind == "fold":
        d = [(key, coef - 0xFFFF if coef > 0x7FFF else coef) for key, coef in args[0]]
        least = sum(coef * ((1 << key[2]) - 1) for key, coef in d if coef < 0)
        t = fold(linear(d, (args[1] + least) % 0xFFFF - least, 64))
        t = z3.If(t == 0, z3.BitVecVal(0xFFFF, 16), t)
        return t if args[2] is None else z3.If(of_val(args[2]) == 0, z3.BitVecVal(0, 16), t)
    if kind == "foldx":
        return fold(of_val(args[0]))
    if kind == "bit":
        x, y = map(of_val, args[1:])
        return {"and": x & y, "or": x | y, "xor": x ^ y}[args[0]]
    if kind == "hop":
        return hop(args[0])(of_val(args[1]))
    return resized(z3.If(of_cond(args[0]), of_val(args[1]), of_val(args[2])), width)


def resized(t: Any, bits: int) -> Any:
    """The lowest bits of a number, or the number with zeros above."""
    return z3.Extract(bits - 1, 0, t) if t.size() > bits else z3.ZeroExt(bits - t.size(), t) if t.size() < bits else t


def linear(d: Any, c: int, bits: int) -> Any:
    """A linear form with this number of bits: negative terms as inverted parts, for fewer carries."""
    terms = []
    for (a, x, w), coef in d:
        c += coef * ((1 << w) - 1) if coef < 0 else 0
        t, k = resized(of_val(((a, x, w, coef < 0),)), bits), abs(coef)
        terms.append(t << (k.bit_length() - 1) if k & k - 1 == 0 else t * z3.BitVecVal(k, bits))
    return sum(terms, z3.BitVecVal(c, bits))


def step(t: Any) -> Any:
    """One step of folding."""
    return (t & 0xFFFF) + z3.LShR(t, 16)


def fold(t: Any) -> Any:
    """All steps of folding 64 bits."""
    for _ in range(5):
        t = step(t)
    return resized(t, 16)
