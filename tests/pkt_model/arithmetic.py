"""Unsigned numbers of 64 bits, and Internet checksums."""
import operator
from collections.abc import Callable

MASK = (1 << 64) - 1
BINARY: dict[str, Callable[[int, int], int]] = {
    "+": lambda a, b: (a + b) & MASK,
    "-": lambda a, b: (a - b) & MASK,
    "*": lambda a, b: (a * b) & MASK,
    "<<": lambda a, b: (a << b) & MASK,
    ">>": operator.rshift,
    "&": operator.and_,
    "|": operator.or_,
    "^": operator.xor,
}
COMPARE: dict[str, Callable[[int, int], bool]] = {
    "==": operator.eq,
    "!=": operator.ne,
    "<": operator.lt,
    ">": operator.gt,
    "<=": operator.le,
    ">=": operator.ge,
}


def words(data: list[int]) -> list[int]:
    """The 16-bit words of some bytes; an odd byte counts as the high one of a word."""
    padded = [*data, *[0] * (len(data) % 2)]
    return [padded[at] << 8 | padded[at + 1] for at in range(0, len(padded), 2)]


def folded(total: int) -> int:
    """A one's complement sum of 16 bits: the higher bits are added to the lowest 16 until there are none. A number that is not known knows how."""
    if not isinstance(total, int):
        return total.folded()
    while total >> 16:
        total = (total & 0xFFFF) + (total >> 16)
    return total


def checksum(data: list[int]) -> int:
    """The Internet checksum of some bytes (RFC 1071)."""
    return 0xFFFF - folded(sum(words(data)))
