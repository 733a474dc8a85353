"""Numbers over one symbolic packet, in a canonical form, so that equal numbers are mostly the same object.

A Val is a tuple of pieces, the lowest bits first: (None, constant, width, False), or bits [low, low + width) of an atom, perhaps inverted.
Atoms are interned. Leaves: `byte` (origin, index), `num` (a name: port, length of the first segment, ..). Others: `sum` (a linear form
modulo 2^64), `f1` (one step of folding a one's complement sum), `fold` (all of it), `bit` (and, or, xor of two unknown parts), `hop`, `ite`.

A folded sum of X is 0 if X is 0, and else the one number from 1 to 0xffff that is X modulo 0xffff; so its canonical form is X modulo 0xffff
and, unless X is known to be above 0, X itself, for the question whether it is 0.

Conditions are True, False, ("eq", v, w), ("lt", v, w), ("hit", table, address), ("is", name, ..), and ("not", condition).
"""
from __future__ import annotations

from collections.abc import Iterator
from typing import Any

ONES, LEAVES, FOLDS = (1 << 64) - 1, ("byte", "num"), ("f1", "fold", "foldx")
Piece = tuple[Any, int, int, bool]
Val = tuple[Piece, ...]
Cond = Any
Linear = dict[tuple[Any, int, int], int]


class Atom:
    """An interned unknown of some bits, from `low` to `high`; it is heavy if folded sums are in it, with which z3 is slow."""

    __slots__ = ("kind", "args", "width", "low", "high", "id", "z", "leaves", "is_heavy")

    def __init__(self, kind: str, args: tuple, low: int, high: int) -> None:
        self.kind, self.args, self.low, self.high = kind, args, low, high
        self.width, self.id, self.z = high.bit_length(), len(ATOMS), None
        inner = set(atoms_in(args))
        self.leaves: frozenset[Atom] = frozenset([self] if kind in LEAVES else ()).union(*(it.leaves for it in inner))
        self.is_heavy = kind in FOLDS or any(it.is_heavy or kind == "bit" and it.kind not in LEAVES for it in inner)

    def __repr__(self) -> str:
        return f"{self.kind}{self.id}"


ATOMS: dict[tuple, Atom] = {}


def atom(kind: str, args: tuple, low: int, high: int) -> Atom:
    """The one atom of this kind and these arguments."""
    key = kind, args
    if key not in ATOMS:
        ATOMS[key] = Atom(kind, args, low, high)
    return ATOMS[key]


def atoms_in(it: object) -> Iterator[Atom]:
    """The atoms of a number, a condition, or arguments."""
    if isinstance(it, Atom):
        yield it
    elif isinstance(it, tuple):
        for part_ in it:
            yield from atoms_in(part_)


# Numbers as pieces

def join(pieces: Any) -> Val:
    """A Val of pieces in their normal form."""
    out: list[Piece] = []
    for it in pieces:
        a, low, w, inv = it
        if w == 0:
            continue
        if out:
            b, low0, w0, inv0 = out[-1]
            if a is None and b is None:
                out[-1] = (None, low0 | low << w0, w0 + w, False)
                continue
            if a is not None and a is b and inv == inv0 and low0 + w0 == low:
                out[-1] = (a, low0, w0 + w, inv)
                continue
        out.append(it)
    return tuple(out)


def const(value: int, width: int = 64) -> Val:
    """A constant."""
    return ((None, value & (1 << width) - 1, width, False),)


def whole(a: Atom, width: int = 64) -> Val:
    """All of an atom, with zeros above."""
    return join([(a, 0, a.width, False), (None, 0, width - a.width, False)])


def leaf(kind: str, args: tuple, bits: int) -> Val:
    """A leaf with this many bits."""
    return whole(atom(kind, args, 0, (1 << bits) - 1))


def width_of(v: Val) -> int:
    """How many bits a number has."""
    return sum(it[2] for it in v)


def cut(piece: Piece, low: int, w: int) -> Val:
    """Bits of a piece. Of a sum, the lowest ones depend on its coefficients modulo 2^w only."""
    a, at, width, inv = piece
    if a is None:
        return ((None, at >> low & (1 << w) - 1, w, False),)
    if a.kind == "sum" and at + low == 0 and w < width:
        found = from_lin(dict(a.args[0]), a.args[1], w)
        if found is not None:
            return inverted(part(found, 0, w)) if inv else part(found, 0, w)
    return ((a, at + low, w, inv),)


def part(v: Val, low: int, w: int) -> Val:
    """Bits of a Val; zeros beyond its end."""
    out: list[Piece] = []
    at, end = 0, low + w
    for it in v:
        begin, stop = max(at, low), min(at + it[2], end)
        if begin < stop:
            out += [it] if stop - begin == it[2] else cut(it, begin - at, stop - begin)
        at += it[2]
    if at < end:
        out.append((None, 0, end - max(at, low), False))
    return join(out)


def extend(v: Val, width: int = 64) -> Val:
    """A number with this many bits."""
    return part(v, 0, width)


def concat(*vals: Val) -> Val:
    """Vals one above another, the lowest first."""
    return join([it for v in vals for it in v])


def inverted(v: Val) -> Val:
    """All bits turned."""
    return join([(a, x ^ (1 << w) - 1, w, False) if a is None else (a, x, w, not inv) for a, x, w, inv in v])


def known(v: Val) -> int | None:
    """The value of a constant, or None."""
    return v[0][1] if len(v) == 1 and v[0][0] is None else 0 if not v else None


def shl(v: Val, bits: int) -> Val:
    """A number shifted to the left."""
    return concat(const(0, bits), part(v, 0, 64 - bits))


def shr(v: Val, bits: int) -> Val:
    """A number shifted to the right."""
    return part(v, bits, 64)


def ends(v: Val, is_split: bool) -> Iterator[int]:
    """Where pieces end, and with `is_split` where the bits of a constant change."""
    at = 0
    for a, x, w, _ in v:
        if a is None and is_split:
            yield from (at + k for k in range(1, w) if (x >> k ^ x >> k - 1) & 1)
        at += w
        yield at


def aligned(v: Val, w: Val, is_split: bool = False) -> Iterator[tuple[Val, Val]]:
    """Pairs of parts of two Vals that have the same bits; with `is_split`, constants are all zeros or all ones."""
    at = 0
    for end in sorted({*ends(v, is_split), *ends(w, is_split)}):
        yield part(v, at, end - at), part(w, at, end - at)
        at = end


def bitwise(op: str, v: Val, w: Val) -> Val:
    """`and`, `or` or `xor`."""
    out: list[Piece] = []
    for a, b in aligned(v, w, True):
        ones = (1 << width_of(a)) - 1
        if known(a) is not None:
            a, b = b, a
        if len(a) > 1 or len(b) > 1 or known(b) not in (None, 0, ones):
            out += bitwise(op, a, b)
        elif known(b) is not None:
            out += (a if known(b) == 0 else inverted(a)) if op == "xor" else b if (op == "and") == (known(b) == 0) else a
        elif a == b:
            out += const(0, width_of(a)) if op == "xor" else a
        else:
            key = sorted((a, b), key=lambda it: [(piece[0].id, *piece[1:]) for piece in it])
            out.append((atom("bit", (op, *key), 0, ones), 0, width_of(a), False))
    return join(out)


def range_of(v: Val) -> tuple[int, int]:
    """The least and the greatest value that the form of a number allows."""
    low = high = at = 0
    for a, x, w, inv in v:
        if a is None:
            l = h = x
        else:
            l, h = (a.low >> x, a.high >> x) if x + w == a.width else (0, (1 << w) - 1)
            if inv:
                l, h = (1 << w) - 1 - h, (1 << w) - 1 - l
        low, high, at = low + (l << at), high + (h << at), at + w
    return low, high


def ite(cond: Cond, v: Val, w: Val) -> Val:
    """v if a condition holds, else w."""
    if v == w or isinstance(cond, bool):
        return v if v == w or cond else w
    (low, high), (l, h) = range_of(v), range_of(w)
    return whole(atom("ite", (cond, v, w), min(low, l), max(high, h)))


# Linear forms: {(atom, low, width): coefficient} and a constant

def lin(v: Val, exact: bool = False) -> tuple[Linear, int]:
    """The linear form of a Val modulo 2^64, or with `exact` over the integers."""
    d: Linear = {}
    c = at = 0
    for a, x, w, inv in v:
        k, at = 1 << at, at + w
        if a is None:
            c += x * k
            continue
        if inv:
            c, k = c + ((1 << w) - 1) * k, -k
        if a.kind == "sum" and x == 0 and (w == a.width and (a.args[2] or not exact) or at == 64 and not exact):
            c += more(d, dict(a.args[0]), k) + a.args[1] * k
        else:
            more(d, {(a, x, w): 1}, k)
    return d, c


def more(d: Linear, e: Linear, k: int) -> int:
    """Adds k times a linear form to another one; returns 0."""
    for key, coef in e.items():
        d[key] = d.get(key, 0) + coef * k
    return 0


def tidy(d: Linear, modulus: int, signed: bool) -> Linear:
    """A linear form with the fewest parts of each atom: cut where coefficients change, then merged."""
    atoms: dict[Atom, list[tuple[int, int, int]]] = {}
    for (a, x, w), coef in d.items():
        atoms.setdefault(a, []).append((x, w, coef))
    out: Linear = {}
    for a, parts in sorted(atoms.items(), key=lambda it: it[0].id):
        cuts = sorted({p for x, w, _ in parts for p in (x, x + w)})
        merged: list[tuple[int, int, int]] = []
        for x, end in zip(cuts, cuts[1:]):
            w, coef = end - x, sum(coef << x - begin for begin, size, coef in parts if begin <= x and end <= begin + size) % modulus
            if coef and signed:
                w = min(w, modulus.bit_length() - (coef & -coef).bit_length())
            if coef and merged and merged[-1][0] + merged[-1][1] == x and (merged[-1][2] << merged[-1][1]) % modulus == coef:
                merged[-1] = (merged[-1][0], merged[-1][1] + w, merged[-1][2])
            elif coef:
                merged.append((x, w, coef))
        out |= {(a, x, w): coef - modulus if signed and coef > modulus // 2 else coef for x, w, coef in merged}
    return out


def span(d: Linear, c: int) -> tuple[int, int]:
    """The least and the greatest value of a linear form over the integers."""
    low = high = c
    for key, coef in d.items():
        bounds = [coef * it for it in range_of(((*key, False),))]
        low, high = low + min(bounds), high + max(bounds)
    return low, high


def from_lin(d: Linear, c: int, bits: int = 64, is_known: bool = False) -> Val | None:
    """The Val of 64 bits that is a linear form modulo 2^bits, if its range says so; else a new atom, of 64 bits only. With `is_known`, it is
    known to be the form over the integers."""
    size, d = 1 << bits, tidy(d, 1 << bits, True)
    special = one_step(d, c % size, size) or (end_around(d, c % size) if bits == 64 else None)
    if special is not None:
        return special
    low, high = span(d, c if is_known else c % size)
    if is_known:
        low, high = (max(0, min(it, size - 1)) for it in (low, high))
    else:
        shift = low // size * size
        is_known = high - shift < size
        c, low, high = c % size - (shift if is_known else 0), low - shift, high - shift
    if not d:
        return const(c)
    found = packed(d, c) if is_known else None
    if found is not None:
        return found
    if not is_known:
        low, high = 0, size - 1
    return whole(atom("sum", (tuple(d.items()), c, is_known), low, high)) if bits == 64 or is_known else None


def one_step(d: Linear, c: int, size: int) -> Val | None:
    """s + (s >> 16), where each has its 16 lowest bits alone: one step of folding; else None."""
    if c == 0 and len(d) == 2 and size >= 1 << 16 and set(d.values()) == {1}:
        (a, x, w), (b, y, u) = d
        if a is b and x == 0 and y == w == 16 and u == a.width - 16 and a.kind in ("sum", "f1"):
            found = step(a)
            return found if range_of(found)[1] < size else None
    return None


def end_around(d: Linear, c: int) -> Val | None:
    """s + (s >> 16) for a number s of at most 0x1fffe: its lowest 16 bits are s folded, and the bit above them is that of s; else None."""
    for (a, x, w), coef in d.items():
        if x != 16 or w != a.width - 16 or a.high > 0x1FFFE:
            continue
        rest = {key: n for key, n in d.items() if key != (a, x, w)}
        is_sum = a.kind == "sum" and a.args[2] and coef == 1 and a.args[1] == c and dict(a.args[0]) == rest
        if is_sum or a.kind == "f1" and coef == 0x10001 and c == 0 and rest == {(a, 0, 16): 1}:
            return extend(concat(part(fold(whole(a)), 0, 16), ((a, x, w, False),)))
    return None


def packed(d: Linear, c: int) -> Val | None:
    """A linear form whose parts stand at bits of their own."""
    rest = c - sum(-coef * ((1 << key[2]) - 1) for key, coef in d.items() if coef < 0)
    if any(coef & coef - 1 if coef > 0 else -coef & -coef - 1 for coef in d.values()) or not 0 <= rest <= ONES:
        return None
    out: list[Piece] = []
    at = 0
    for shift, key, coef in sorted(((abs(coef).bit_length() - 1, key, coef) for key, coef in d.items()), key=lambda it: it[0]):
        end = shift + key[2]
        if shift < at or end > 64 or rest >> shift & (1 << key[2]) - 1:
            return None
        out += [(None, rest >> at & (1 << shift - at) - 1, shift - at, False), (*key, coef < 0)]
        at = end
    return join([*out, (None, rest >> at, 64 - at, False)])


def combined(v: Val, m: int, w: Val = (), n: int = 0) -> Val:
    """m * v + n * w."""
    (d, c), (e, f) = lin(v), lin(w)
    d = {key: coef * m for key, coef in d.items()}
    more(d, e, n)
    return from_lin(d, c * m + f * n)


def add(v: Val, w: Val) -> Val:
    """v + w."""
    return combined(v, 1, w, 1)


def sub(v: Val, w: Val) -> Val:
    """v - w."""
    return combined(v, 1, w, -1)


def mul(v: Val, k: int) -> Val:
    """v * k."""
    return combined(v, k)


def less(v: Val, n: int) -> Val:
    """v - n, where v is known to be at least n."""
    d, c = lin(v, True)
    return from_lin(d, c - n, is_known=True)


# One's complement sums

def step(a: Atom) -> Val:
    """One step of folding the number of an atom: its lowest 16 bits and the higher ones."""
    top = a.high >> 16
    high = max(top + (a.high & 0xFFFF), top - 1 + 0xFFFF)
    return fold(whole(a)) if high <= 0xFFFF else whole(atom("f1", (a,), int(a.low > 0), high))


def fold(v: Val) -> Val:
    """A one's complement sum, folded to 16 bits."""
    if range_of(v)[1] <= 0xFFFF:
        return v
    while v[0][0] is not None and v[0][0].kind == "f1" and v == whole(v[0][0]):
        v = whole(v[0][0].args[0])
    if v[0][0] is not None and v[0][0].kind == "sum" and not v[0][0].args[2]:
        return whole(atom("foldx", (v,), 0, 0xFFFF))
    return folded(*residue(*lin(v, True)), None if range_of(v)[0] > 0 else zero_form(v))


def folded(d: Linear, c: int, zero: Val | None) -> Val:
    """A folded sum in its canonical form."""
    if zero == ():
        return const(0)
    if not d and zero is None:
        return const(c or 0xFFFF)
    return whole(atom("fold", (tuple(d.items()), c, zero), 0 if zero else 1, 0xFFFF))


def zero_form(v: Val) -> Val | None:
    """Parts that are all 0 exactly if a number is 0, in a canonical order; None if it never is."""
    found, todo = set[Piece](), list(v)
    while todo:
        a, x, w, inv = it = todo.pop()
        is_whole = a is not None and x == 0 and w == a.width and not inv
        kind, args = (a.kind, a.args) if is_whole else ("", ())
        if a is None and x or kind == "fold" and args[2] is None:
            return None
        if kind in ("f1", "fold"):
            todo += whole(args[0]) if kind == "f1" else args[2]
        elif kind == "sum" and args[2]:
            least = args[1] + sum(coef * ((1 << key[2]) - 1) for key, coef in args[0] if coef < 0)
            if least > 0:
                return None
            if least < 0:
                found.add(it)
            else:
                todo += [(*key, coef < 0) for key, coef in args[0]]
        elif a is not None:
            found.add(it)
    for it in list(found):
        a = it[0]
        if a.kind == "sum" and it == (a, 16, a.width - 16, False) and a.args[2] and it in found:
            lower, all_ = zero_form(part(whole(a), 0, 16)), zero_form(whole(a))
            if lower is not None and set(lower) <= found:
                if all_ is None:
                    return None
                found = found - set(lower) - {it} | set(all_)
    return join(sorted(found, key=lambda it: (it[0].id, it[3], it[1], it[2])))


def residue(d: Linear, c: int) -> tuple[Linear, int]:
    """A linear form modulo 0xffff, without folded sums in it."""
    out: Linear = {}
    todo = list(d.items())
    while todo:
        (a, x, w), coef = todo.pop()
        if (x, w) == (0, a.width) and a.kind in ("f1", "fold"):
            e, f = lin(whole(a.args[0]), True) if a.kind == "f1" else (dict(a.args[0]), a.args[1])
        elif (x, w) == (16, a.width - 16) and a.kind == "sum" and a.args[2]:
            # The bits above 16 are all bits without the lowest 16, shifted by 16: times 1.
            (lower, g), e = lin(part(whole(a), 0, 16), True), dict(a.args[0])
            more(e, lower, -1)
            f = a.args[1] - g
        else:
            more(out, {(a, x, w): 1}, coef)
            continue
        todo += [(key, coef * n) for key, n in e.items()]
        c += coef * f
    return tidy(out, 0xFFFF, False), c % 0xFFFF


# Conditions

def negated(c: Cond) -> Cond:
    """That a condition does not hold."""
    return not c if isinstance(c, bool) else c[1] if c[0] == "not" else ("not", c)


def alone(v: Val) -> tuple[Val, int]:
    """A sum of one part and a constant as these two; of another number all, and 0."""
    a = v[0][0]
    if a is None or a.kind != "sum" or v != whole(a) or not a.args[2] or len(a.args[0]) != 1 or a.args[0][0][1] != 1:
        return v, 0
    return extend(((*a.args[0][0][0], False),)), a.args[1]


def eq(v: Val, w: Val) -> Cond:
    """v == w."""
    (low, high), (l, h) = range_of(v), range_of(w)
    if v == w or high < l or h < low:
        return v == w
    if known(v) is not None:
        v, w = w, v
    rest, c = alone(v)
    if known(w) is not None and c:
        return eq(rest, const(known(w) - c)) if known(w) >= c else False
    left, right = [], []
    for a, b in aligned(v, w):
        if a != b:
            if known(a) is not None:
                a, b = b, a
            if known(a) is not None:
                return False
            if known(b) is not None and a[0][3]:
                a, b = inverted(a), inverted(b)
            left.append(a)
            right.append(b)
    a, b = concat(*left), concat(*right)
    return ("eq", b, a) if known(b) is None and repr(a) > repr(b) else ("eq", a, b)


def lt(v: Val, w: Val) -> Cond:
    """v < w."""
    (low, high), (l, h) = range_of(v), range_of(w)
    if v == w or low >= h or high < l:
        return v != w and high < l
    if known(v) is not None:
        return negated(lt(w, const(known(v) + 1))) if known(v) < ONES else False
    rest, c = alone(v)
    if known(w) is not None and c:
        return lt(rest, const(known(w) - c)) if known(w) > c else False
    return ("lt", v, w)
