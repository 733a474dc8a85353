"""Bits of headers within bytes, and the headers that parts of a text name."""
from collections.abc import Iterator
from functools import reduce

from .arithmetic import checksum
from .syntax import Binary, Bits, Both, Compare, Complement, Condition, Constant, Either, Field, Header, Negated, Number, Truth


def bits_at(data: bytes | bytearray, at: int, count: int) -> int:
    """Reads `count` bits at bit `at`; the first bit of a byte is its highest."""
    end = at + count
    whole = int.from_bytes(data[at // 8 : -(-end // 8)], "big")
    return whole >> -end % 8 & (1 << count) - 1


def put_bits(data: bytearray | list[int], at: int, count: int, value: int) -> None:
    """Writes the lowest `count` bits of a value at bit `at`, into bytes or numbers below 256."""
    first, last = at // 8, -(-(at + count) // 8)
    shift = -(at + count) % 8
    mask = (1 << count) - 1 << shift
    whole = joined(data[first:last]) & ~mask | value << shift & mask
    data[first:last] = [whole >> 8 * k & 255 for k in reversed(range(last - first))]


def joined(data: bytearray | list[int]) -> int:
    """The number that some bytes spell."""
    return reduce(lambda number, byte: number << 8 | byte, data)


def fields_in(part: Number | Condition) -> Iterator[Field]:
    """The fields of a number, or of a condition."""
    if isinstance(part, Field):
        yield part
    elif isinstance(part, Binary | Compare | Both | Either):
        yield from fields_in(part.left)
        yield from fields_in(part.right)
    elif isinstance(part, Complement | Negated):
        yield from fields_in(part.inner)
    elif isinstance(part, Truth):
        yield from fields_in(part.number)


def asked_of(header: Header, before: str) -> dict[str, int]:
    """The values that a header asks of the fields of the header that it follows."""
    asked: dict[str, int] = {}
    parts = [header.after[before]] if before in header.after else []
    while parts:
        part = parts.pop()
        if isinstance(part, Both):
            parts += [part.right, part.left]
        elif isinstance(part, Compare) and part.operator == "==":
            for field, value in ((part.left, part.right), (part.right, part.left)):
                if isinstance(field, Field) and isinstance(value, Constant):
                    asked.setdefault(field.name, value.value)
    return asked


def followers(headers: dict[str, Header]) -> dict[str, frozenset[str]]:
    """For each header, all headers that follow it, directly or not."""
    found: dict[str, frozenset[str]] = {}

    def of(name: str) -> frozenset[str]:
        if name not in found:
            direct = [header.name for header in headers.values() if name in header.after]
            found[name] = frozenset(direct).union(*(of(follower) for follower in direct))
        return found[name]

    return {name: of(name) for name in headers}


def written(header: Header, values: dict[str, int | None], asked: dict[str, int]) -> list[int]:
    """The bytes of a pushed header: a field without a value is what the next header asks for, or its default."""
    data, summed = [0] * header.size, list[Bits]()
    given = {name: bits.default for name, bits in header.fields.items() if bits.default != 0 and name not in asked}
    for name, value in (*[it for it in (given | asked).items() if it[0] not in values], *values.items()):
        bits: Bits = header.fields[name]
        summed = [it for it in summed if it.at >= bits.at + bits.count or bits.at >= it.at + it.count]
        if value is None:
            summed.append(bits)
        put_bits(data, bits.at, bits.count, 0 if value is None else value)
    for bits in summed:
        put_bits(data, bits.at, bits.count, checksum(data))
    return data


def words_of(bits: Bits, header: Header) -> range:
    """The bytes of the 16-bit words of a header in which a field has bits."""
    return range(bits.at // 16 * 2, min(-(-(bits.at + bits.count) // 16) * 2, header.size))
