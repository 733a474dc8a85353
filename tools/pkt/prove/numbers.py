"""Numbers that are not known, with the operators of Python's: so the interpreters of tests/ run on them."""
from __future__ import annotations

from collections.abc import Callable
from functools import partial
from typing import ClassVar

from .paths import Path
from .terms import Val, add, bitwise, const, eq, extend, fold, inverted, known, lt, mul, shl, shr, sub


class Unknown:
    """A number of 64 bits that is not known. A comparison asks the path that runs, which may fork there."""

    path: ClassVar[Path]

    def __init__(self, v: Val) -> None:
        self.v = extend(v)

    def __eq__(self, other: object) -> bool:
        return self.path.branch(eq(self.v, val(other)))

    def __lt__(self, other: int | Unknown) -> bool:
        return self.path.branch(lt(self.v, val(other)))

    def __gt__(self, other: int | Unknown) -> bool:
        return self.path.branch(lt(val(other), self.v))

    def __le__(self, other: int | Unknown) -> bool:
        return not self > other

    def __ge__(self, other: int | Unknown) -> bool:
        return not self < other

    def __invert__(self) -> int | Unknown:
        return number(inverted(self.v))

    def __index__(self) -> int:
        return self.path.concrete(self.v, 300)

    def folded(self) -> int | Unknown:
        """The number as a one's complement sum of 16 bits."""
        return number(fold(self.v))


def val(x: int | Unknown) -> Val:
    """A number in its symbolic form."""
    return x.v if isinstance(x, Unknown) else const(x)


def number(v: Val) -> int | Unknown:
    """A number in its symbolic form as one that Python calculates with."""
    value = known(v)
    return Unknown(v) if value is None else value


def calculates(name: str, work: Callable[[Val, Val], Val]) -> None:
    """Gives unknown numbers an operator, with a number on either side."""
    setattr(Unknown, f"__{name}__", lambda self, other: number(work(self.v, val(other))))
    setattr(Unknown, f"__r{name}__", lambda self, other: number(work(val(other), self.v)))


OPERATORS: dict[str, Callable[[Val, Val], Val]] = {
    "add": add, "sub": sub, "and": partial(bitwise, "and"), "or": partial(bitwise, "or"), "xor": partial(bitwise, "xor"),
    "mul": lambda v, w: mul(w, known(v)) if known(w) is None else mul(v, known(w)),
    "lshift": lambda v, w: shl(v, known(w)), "rshift": lambda v, w: shr(v, known(w)),
}  # fmt: skip
for word, work in OPERATORS.items():
    calculates(word, work)
