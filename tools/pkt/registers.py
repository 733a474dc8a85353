"""Register allocation, and the lowering of numbers: loads, stores and arithmetic."""
from dataclasses import dataclass

from .headers import Span, Start
from .state import ALL, SOMEBODY_THE_REST
from .syntax import BIGGEST, THIS, Binary, Bits, Field, Name, Node, NoRegister, Number, parts, require
from .ways import Way, pieces

INSTRUCTIONS = {"+": "add", "-": "sub", "&": "and", "|": "or", "^": "xor", "<<": "shl", ">>": "shr"}
# How many bits a field of whole bytes has that is stored without a load.
WIDTHS = (8, 16, 32, 48, 64)


@dataclass
class Value:
    """An operand: a constant, or a register. `own`: nobody else needs the register. `span`: the bits of the packet that were loaded into it."""

    constant: int = 0
    register: int | None = None
    own: bool = False
    span: Span | None = None
    field: Field | None = None

    def __str__(self) -> str:
        return str(self.constant) if self.register is None else f"r{self.register}"

    @property
    def r(self) -> int:
        """The register that it is in."""
        assert self.register is not None
        return self.register


def fresh(way: Way) -> Value:
    """A register for an operand; if all are in use, a loaded value that is not needed is forgotten."""
    free = sorted({*range(8)} - way.used())
    names = ", ".join(sorted(it for it in way.variables if not it.startswith("$")))
    if not free:
        held = f"{names} are held, and" if names else "eight are held of"
        raise NoRegister(way.at, f"this needs a ninth number: {held} what is calculated here",
                         "variables end with their block, and port where it is no more used; one holds two: let both = udp.sport << 16 | udp.dport")
    needed = {span_of(way, it) for it in way.unit.needs if isinstance(it, Field) and way.found.get(it.header) is not None}
    wanted = {r for it, r in way.loaded.items() if it in needed}
    register = min(free, key=lambda r: (r in way.loaded.values()) + (r in wanted))
    unload(way, register)
    way.pins[register] += 1
    way.bounds[register] = BIGGEST
    return Value(register=register, own=True)


def unload(way: Way, register: int) -> None:
    """Forgets which bits of the packet a register has."""
    way.loaded = {it: r for it, r in way.loaded.items() if r != register}


def release(way: Way, value: Value) -> None:
    """Releases an operand."""
    if value.register is not None:
        way.pins[value.register] -= 1


def own(way: Way, value: Value) -> Value:
    """Copies a value to a register that may be changed, or takes the register if the value is not needed in it."""
    is_last = value.register is not None and way.loaded.get(value.span) == value.register and way.pins[value.register] == 1
    if is_last and (value.field is None or not way.unit.needs & {ALL, value.field} or len(way.used()) == 8):
        unload(way, value.r)
        value.own = True
    if value.own:
        return value
    target = fresh(way)
    copy_to(way, target, value)
    release(way, value)
    return target


def copy_to(way: Way, target: Value, value: Value) -> None:
    """Sets a register to a value."""
    if value.register != target.r:
        way.emit("set" if value.register is None else "mov", target, value)
    way.bounds[target.r] = bound_of(way, value)


def bound_of(way: Way, value: Value) -> int:
    """The greatest value of an operand."""
    return value.constant if value.register is None else way.bounds[value.register]


def in_register(way: Way, value: Value) -> Value:
    """The value in a register."""
    return own(way, value) if value.register is None else value


def span_of(way: Way, it: Field) -> Span:
    """The place of a field whose header was found."""
    start = way.found[it.header]
    assert start is not None
    return way.headers[it.header].fields[it.name].after(start)


def window_of(way: Way, span: Span, packet: int) -> tuple[int, int, int] | None:
    """The place and the width of a load with the bits, and their distance from its end; none if no load within the packet has them all."""
    low, high = span.bytes.start, span.bytes.stop
    limit = way.far.size if span.is_far else way.packets[packet].first
    for width in (1, 2, 4, 8):
        start = max(0, high - width) if high - width < low else low
        if high - width <= start <= low and start + width <= limit:
            return start, width, 8 * (start + width) - span.end
    return None


def access(way: Way, word: str, packet: int, start: Start, width: int, value: Value) -> None:
    """A load or a store, at a constant offset or at one in a register."""
    place: list[object] = [f"p{packet}", start.byte, width]
    if start.is_far:
        word, place = word + "x", [f"p{packet}", f"r{way.far.register}", start.byte + way.far.base, width]
    way.emit(word, *([value, *place] if word.startswith("load") else [*place, value]))


def load(way: Way, span: Span, field: Field | None = None, into: int | None = None) -> Value:
    """The bits of the packet, highest first."""
    if span in way.loaded and into is None:
        way.pins[way.loaded[span]] += 1
        return Value(register=way.loaded[span], span=span, field=field)
    window = window_of(way, span, way.held[THIS])
    value = Value(register=fresh(way).r if into is None else into, span=span, field=field)
    if window is None:
        load_pieces(way, span, value)
        above, shift = 8 * len(span.bytes), -span.end % 8
    else:
        start, width, shift = window
        access(way, "load", way.held[THIS], Start(span.is_far, start), width, value)
        above = 8 * width
    if shift:
        way.emit("shr", value, shift)
    if above - shift > span.bits:
        way.emit("and", value, f"{span.largest:#x}")
    way.bounds[value.r] = span.largest
    if into is None:
        way.loaded[span] = value.r
    return value


def load_pieces(way: Way, span: Span, value: Value) -> None:
    """Loads bytes that are three, or five to seven, in pieces that have no other byte."""
    for at, width in pieces(span.bytes):
        if at == span.bytes.start:
            access(way, "load", way.held[THIS], Start(span.is_far, at), width, value)
            continue
        part = fresh(way)
        way.emit("shl", value, 8 * width)
        access(way, "load", way.held[THIS], Start(span.is_far, at), width, part)
        way.emit("or", value, part)
        release(way, part)


def may_write(way: Way, packet: int, cure: str = "") -> None:
    """Refuses a write to shared bytes."""
    name, line = way.sharer
    who = f"{name} ({way.unit.program.rows[line].place}) shares them" if name else "the ring hands it over shared"
    cure = cure or ("write before `clone`, or free the clone first" if name else "have the ring declare share = 2")
    is_alone = way.packets[packet].sharers <= {SOMEBODY_THE_REST}
    require(is_alone, way.at, f"the bytes of the packet cannot be written here: {who}", cure)


def bytes_written(way: Way, span: Span, packet: int) -> range:
    """The bytes that a store of these bits writes."""
    if span.bit % 8 == 0 and span.bits in WIDTHS:
        return span.bytes
    window = window_of(way, span, packet)
    return range(window[0], window[0] + window[1]) if window else span.bytes


def store(way: Way, span: Span, value: Value, packet: int | None = None, known: dict[int, int] | None = None) -> None:
    """Writes the low bits of a value, and releases the value. `known` has bytes of the packet whose values are known."""
    packet = way.held[THIS] if packet is None else packet
    may_write(way, packet)
    if span.bit % 8 or span.bits not in WIDTHS:
        store_bits(way, span, value, packet, known or {})
    elif value.register is None and not span.is_far:
        scratch = fresh(way)
        way.put(packet, span.bytes.start, (value.constant & span.largest).to_bytes(span.bits // 8, "big"), scratch.r)
        release(way, scratch)
    else:
        store_bytes(way, span, value, packet)
    if packet == way.held.get(THIS):
        way.overwrite(span)
        if value.register is None:
            way.learn(span, value.constant & span.largest)


def store_bytes(way: Way, span: Span, value: Value, packet: int) -> None:
    """Writes whole bytes."""
    value = in_register(way, value)
    width = 4 if span.bits == 48 else span.bits // 8
    access(way, "store", packet, Start(span.is_far, span.bytes.stop - width), width, value)
    if span.bits == 48:
        value = own(way, value)
        way.emit("shr", value, 32)
        access(way, "store", packet, Start(span.is_far, span.bytes.start), 2, value)
    release(way, value)


def store_bits(way: Way, span: Span, value: Value, packet: int, known: dict[int, int]) -> None:
    """Writes some bits of a window and keeps the others."""
    found = window_of(way, span, packet)
    if found is None:
        return store_pieces(way, span, value, packet, known)
    start, width, shift = found
    others = (1 << 8 * width) - 1 ^ span.largest << shift
    rest, window = Value(), range(start, start + width)
    if known.keys() >= {*window}:
        rest.constant = int.from_bytes(bytes(known[k] for k in window), "big") & others
    else:
        rest = fresh(way)
        access(way, "load", packet, Start(span.is_far, start), width, rest)
        apply(way, rest, "&", Value(others))
    value = shifted(way, value, span, shift)
    if rest.register is None:
        rest, value = own(way, value) if rest.constant else in_register(way, value), rest
    apply(way, rest, "|", value)
    access(way, "store", packet, Start(span.is_far, start), width, rest)
    release(way, rest)
    release(way, value)


def store_pieces(way: Way, span: Span, value: Value, packet: int, known: dict[int, int]) -> None:
    """Writes some bits of bytes that are three, or five to seven, in pieces that have no other byte."""
    for at, width in pieces(span.bytes):
        first, end = max(span.bit, 8 * at), min(span.end, 8 * (at + width))
        part = Value(value.constant >> span.end - end)
        if value.register is not None:
            part = fresh(way)
            copy_to(way, part, value)
            apply(way, part, ">>", Value(span.end - end))
        piece = Span(first, end - first, span.is_far)
        if piece.bits == 8 * width:
            store_bytes(way, piece, part, packet)
        else:
            store_bits(way, piece, part, packet, known)
    release(way, value)


def shifted(way: Way, value: Value, span: Span, shift: int) -> Value:
    """The low bits of a value, shifted to their place in a window."""
    if value.register is None:
        return Value((value.constant & span.largest) << shift)
    if bound_of(way, value) > span.largest or shift:
        value = own(way, value)
        apply(way, value, "&", Value(span.largest))
        apply(way, value, "<<", Value(shift))
    return value


def evaluate(way: Way, it: Node) -> Value:
    """A number; the headers of its fields were found. The operations at its left end are done one after another."""
    chain = list[tuple[str, Node]]()
    while isinstance(it, Binary) and not bits_of(way, it):
        is_swapped = isinstance(it.left, Number) and it.sign in "+&|^*"
        chain.append((it.sign, it.left if is_swapped else it.right))
        it = it.right if is_swapped else it.left
    value = operand(way, it)
    for sign, right in reversed(chain):
        if sign == "*" and isinstance(right, Number):
            value = multiply(way, value, right.value)
        else:
            value = operate(way, own(way, value), sign, right)
    return value


def operand(way: Way, it: Node) -> Value:
    """A number without operations that are calculated."""
    if span := bits_of(way, it):
        return load(way, span, it if isinstance(it, Field) else None)
    match it:
        case Number(_, value):
            return Value(value)
        case Name(_, name):
            way.pins[way.variables[name]] += 1
            return Value(register=way.variables[name])
    raise AssertionError(it)


def bits_of(way: Way, it: Node) -> Span | None:
    """The bits of the packet that a number stands for: those of a field, or its first ones."""
    match it:
        case Bits(_, bit, bits):
            return Span(bit, bits)
        case Field():
            return span_of(way, it)
        case Binary(_, ">>", Field() as field, Number(_, count)) if count < span_of(way, field).bits:
            return span_of(way, field)._replace(bits=span_of(way, field).bits - count)
    return None


def operate(way: Way, left: Value, sign: str, right: Node) -> Value:
    """An operation on a register that may be changed."""
    value = evaluate(way, right)
    apply(way, left, sign, value)
    release(way, value)
    return left


def apply(way: Way, left: Value, sign: str, value: Value) -> None:
    """An operation with an operand on a register that may be changed; none if it changes nothing."""
    m, n = way.bounds[left.r], bound_of(way, value)
    possible = (1 << m.bit_length()) - 1
    if value.register is None and (value.constant & possible == possible if sign == "&" else value.constant == 0):
        return
    way.emit(INSTRUCTIONS[sign], left, value)
    bits = (1 << max(m, n).bit_length()) - 1
    bounds = {"+": m + n, "-": BIGGEST, "&": min(m, n), "|": bits, "^": bits, "<<": m << min(n, 64), ">>": m >> min(n, 64)}
    way.bounds[left.r] = min(bounds[sign], BIGGEST)


def summands(factor: int) -> list[tuple[int, str]]:
    """The powers of 2 that a factor is the sum of, by their exponents, the greatest one first, each with its sign. Where that makes at least four fewer,
    a run of bits that are 1 is the next bit less the lowest of them; then the greatest value of the product is not known."""
    plain, signed, left, k = [(k, "+") for k in reversed(range(64)) if factor >> k & 1], list[tuple[int, str]](), factor, 0
    while left:
        sign = 0 if left % 2 == 0 else -1 if left % 4 == 3 else 1
        signed += [(k, "+" if sign > 0 else "-")] if sign else []
        left, k = (left - sign) >> 1, k + 1
    return signed[::-1] if len(signed) + 4 <= len(plain) and k <= 64 else plain


def multiply(way: Way, left: Value, factor: int) -> Value:
    """A product with a constant, by shifts."""
    powers = summands(factor)
    if not powers:
        release(way, left)
        return Value(0)
    if len(powers) == 1:
        total = own(way, left)
        apply(way, total, "<<", Value(powers[0][0]))
        return total
    bound, total = bound_of(way, left), fresh(way)
    copy_to(way, total, left)
    for (shift, sign), (lower, _) in zip(powers, [*powers[1:], (0, "")]):
        if shift != powers[0][0]:
            apply(way, total, sign, left)
        apply(way, total, "<<", Value(shift - lower))
    release(way, left)
    is_sum = all(sign == "+" for _, sign in powers)
    way.bounds[total.r] = min(bound * factor, BIGGEST) if is_sum else BIGGEST
    return total


def assign(way: Way, target: Name, it: Node) -> None:
    """An assignment to a variable. The operations at the left end are done in its register, unless it is used later."""
    register = Value(register=way.variables[target.name], own=True)
    left, chain = it, list[Binary]()
    while isinstance(left, Binary) and left.sign != "*" and not isinstance(left.left, Number):
        chain.append(left)
        left = left.left
    # The innermost right side is computed before the register changes, so it may use the variable if the left side is the variable.
    late = chain[:-1] if left == target else chain
    again = [part for part in late if target in parts(part.right)]
    # So may one other right side, which is computed first, as in s = (s & 0xffff) + (s >> 16).
    before = own(way, evaluate(way, again[0].right)) if left == target and len(again) == 1 else None
    if again and before is None or left != target and target in parts(left):
        left, chain = it, []
    if isinstance(left, Field) and span_of(way, left) not in way.loaded:
        load(way, span_of(way, left), into=register.register)
    else:
        value = evaluate(way, left)
        copy_to(way, register, value)
        release(way, value)
    for part in reversed(chain):
        if before is not None and part is again[0]:
            apply(way, register, part.sign, before)
            release(way, before)
        else:
            operate(way, register, part.sign, part.right)
