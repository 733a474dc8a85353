"""What values a number of the text can have whatever the packet is, and the errors for constants that it never is."""
import ipaddress

from .cures import MASKED
from .headers import Headers
from .reach import BIGGEST, Value, exactly
from .syntax import PORT, And, Binary, Compare, Field, Name, Node, Not, Number, Or, SourceError, require

# How far operators that lie in one another are looked at, and the greatest number that `port` is.
MAX_DEPTH, MAX_PORT = 40, 7
WORDS = {"&": "and", "|": "or", "^": "xor", "<<": "shl", ">>": "shr", "+": "add", "-": "sub"}


def values_of(it: Node, headers: Headers, depth: int = 0) -> Value:
    """What a number can be."""
    match it:
        case Number(_, value):
            return exactly(value)
        case Field(_, header, name):
            return Value(0, headers[header].fields[name].largest).tidy()
        case Name(_, name) if name == PORT:
            return Value(0, MAX_PORT).tidy()
        case Binary(_, sign, left, right) if depth < MAX_DEPTH:
            return result(sign, values_of(left, headers, depth + 1), values_of(right, headers, depth + 1))
    return Value()


def least_of(it: Node, headers: Headers) -> int:
    """The least value of a number; of a field in the first bits of its header, the least with which the header is found."""
    header = headers[it.header] if isinstance(it, Field) else None
    span = header.fields[it.name] if header and isinstance(it, Field) else None
    if header and span and header.sizes and span.end <= header.bits:
        return min(value >> header.bits - span.end & span.largest for value in header.sizes)
    return values_of(it, headers).low


def result(sign: str, a: Value, b: Value) -> Value:
    """What the result of an operation can be."""
    if a.low == a.high and sign in "&|^+*":
        a, b = b, a
    if b.low == b.high and sign in WORDS:
        return a.after(WORDS[sign], b.low).tidy()
    if sign == "*" and a.high * b.high <= BIGGEST:
        return Value(a.low * b.low, a.high * b.high).tidy()
    if sign == "+" and a.high + b.high <= BIGGEST:
        return Value(a.low + b.low, a.high + b.high).tidy()
    clear = a.mask & ~a.bits, b.mask & ~b.bits
    if sign == "&":
        return Value(0, min(a.high, b.high), clear[0] | clear[1] | a.bits & b.bits, a.bits & b.bits).tidy()
    if sign == "|":
        return Value(max(a.low, b.low), BIGGEST, clear[0] & clear[1] | a.bits | b.bits, a.bits | b.bits).tidy()
    return Value(0, BIGGEST, a.mask & b.mask, (a.bits ^ b.bits) & a.mask & b.mask).tidy() if sign == "^" else Value()


def require_leaves(sign: str, left: Node, right: Node, headers: Headers) -> None:
    """Refuses an operation with a constant that makes 0 of every value of a number: bits that it has not, or a shift past all that it has."""
    if isinstance(left, Number) and sign == "&":
        left, right = right, left
    if not isinstance(right, Number) or isinstance(left, Number) or not right.value or sign not in ("&", ">>"):
        return
    value, own = values_of(left, headers), left if isinstance(left, Field) else None
    called = f"{own.header}.{own.name}" if own else "the number before it"
    fault = f"{called} has {value.high.bit_length()} bits, and {f'{right.at.word} has none of them' if sign == '&' else 'none of them is left'}"
    cure = MASKED.get(called, "") if own and sign == "&" else ""
    require(not value.high or result(sign, value, exactly(right.value)).high, right.at, fault, cure or f"{called} is at most {value.high:,}")


def require_can_be(sign: str, left: Node, right: Node, headers: Headers) -> None:
    """Refuses the comparison of a number that is no field with a constant that it never is."""
    if isinstance(left, Number):
        left, right = right, left
    if not isinstance(right, Number) or not isinstance(left, (Binary, Name)):
        return
    value, it = values_of(left, headers), right.value
    # All ports are below the number of ports.
    is_within = value.low <= it <= value.high + (isinstance(left, Name) and sign not in ("==", "!="))
    can_be = value.can_be(it) if sign in ("==", "!=") else is_within
    if not can_be:
        is_most = f"at most {value.high:,}" if it > value.high else f"at least {value.low:,}"
        fault = f"the number beside it {f'has no such bits' if is_within else f'is {is_most}'}: this is {right.at.word}"
        raise SourceError(right.at, fault, cure_of_never(left, right, value, headers))


def require_unsigned(sign: str, left: Node, right: Node) -> None:
    """Refuses the question whether a number is below 0, or not."""
    zero, sign = (right, sign) if isinstance(right, Number) else (left, {">": "<", "<=": ">="}.get(sign, ""))
    if isinstance(zero, Number) and zero.value == 0 and zero.at.word[0].isdigit() and sign in ("<", ">="):
        other = left if zero is right else right
        header = f"; if {other.header} {{ .. }} asks for the header" if isinstance(other, Field) else ""
        fault = "no number is below 0" if sign == "<" else "every number is at least 0"
        raise SourceError(zero.at, fault, f"numbers are unsigned: ask x < 5 before x - 5{header}")


def test_of(it: Node) -> tuple[str, Node, Number] | None:
    """The sign, the number and the constant of a condition that is a number's being, or not being, a constant."""
    if isinstance(it, Not):
        inner = test_of(it.condition)
        return ("==" if inner[0] == "!=" else "!=", *inner[1:]) if inner else None
    if not isinstance(it, Compare) or it.sign not in ("==", "!="):
        return None
    left, right = (it.right, it.left) if isinstance(it.left, Number) else (it.left, it.right)
    return (it.sign, left, right) if isinstance(right, Number) else None


def require_choice(word: str, left: Node, right: Node) -> None:
    """Refuses x != 1 or x != 2, of which one always holds, and x == 1 and x == 2."""
    one, other = test_of(left.right if isinstance(left, And if word == "and" else Or) else left), test_of(right)
    sign = "==" if word == "and" else "!="
    if one and other and one[0] == other[0] == sign and one[1] == other[1] and one[2].value != other[2].value:
        first, second = one[2].at.word, other[2].at.word
        fault = f"no number is {first} and {second}" if sign == "==" else f"each number is other than {first} or other than {second}"
        other_word, contrary = ("or", "") if word == "and" else ("and", "not ")
        cure = f"x {sign} {first} {other_word} x {sign} {second}, or {contrary}x in {{{first}, {second}}}"
        raise SourceError(other[2].at, fault, cure)


def cure_of_never(left: Node, right: Number, value: Value, headers: Headers) -> str:
    """The cure for a constant that a number never is."""
    if isinstance(left, Name):
        return f"port is where the packet came from, from 0 to {MAX_PORT}; l4.dport == {right.value} asks for a port of TCP or UDP"
    match left:
        case Binary(_, "^", other, Number(_, mask)) if mask == BIGGEST:
            most = values_of(other, headers).high
            return f"~ inverts all 64 bits, and ^ {most:#x} those of this number" if most < BIGGEST else f"~{right.at.word} is the constant"
        case Binary(_, "&", Field(_, header, name), Number(_, mask)):
            bits, depth = headers[header].fields[name].bits, mask.bit_count()
            if depth <= bits and mask == ((1 << depth) - 1) << bits - depth and right.value >> bits == 0:
                return f"{header}.{name} in {address(right.value & mask, bits)}/{depth} compares its first {depth} bits"
    bits = f", and have no bits but {value.bits | ~value.mask & BIGGEST:#x}" if value.mask else ""
    return f"its values are from {value.low:,} to {value.high:,}{bits}"


def address(value: int, bits: int) -> str:
    """A constant as wide as an address, in its form."""
    if bits == 32:
        return str(ipaddress.IPv4Address(value))
    return ":".join(f"{value >> shift & 255:02x}" for shift in range(40, -1, -8)) if bits == 48 else f"{value:#x}"


def require_open(it: Node, headers: Headers) -> None:
    """Refuses a number as a condition that is never 0, whatever the packet is."""
    if isinstance(it, Binary):
        value = values_of(it, headers)
        is_inverted = it.sign == "^" and isinstance(it.right, Number) and it.right.value == BIGGEST
        is_mask = it.sign == "|" and isinstance(it.left, Binary) and it.left.sign == "&"
        cure = "& binds closer than |: x & (2 | 16) asks for one of several bits" if is_mask else "x & 2 asks for a bit"
        cure = "x & 2 == 0 asks whether a bit is clear, and not c is the contrary" if is_inverted else cure
        require(value.can_be(0), it.at, "this number is never 0, so the condition always holds", cure)
