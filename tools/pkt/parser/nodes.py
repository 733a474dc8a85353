"""Makes nodes of others: comparisons, prefixes, and operations, which are evaluated at once where they are constant."""
from ..cures import BITS
from ..syntax import BIGGEST, PORT, And, Binary, Compare, Field, Found, Length, Name, Node, Not, Number, Numeric, Or, SourceError, Wide, require
from .grammar import COMPARISONS, EACH, INNER, OPERATORS


def as_side(node: Node) -> Node:
    """A side of a comparison."""
    cure = "`and`, `or` and `not` join conditions, as in 1 < x and x < 5; `if` decides by them"
    if isinstance(node, Found):
        cure = f"{node.path[-1]} alone asks whether the header is there; its fields are numbers"
    require(isinstance(node, Numeric), node.at, "a condition is where a number is expected", cure)
    return node


def as_number(node: Node) -> Node:
    """A node that must be a number of at most 64 bits, other than the length."""
    if isinstance(node, Wide):
        halves = " and ".join(f"{it.header}.{it.name}" for it in (node.high, node.low) if isinstance(it, Field))
        cure = f"{halves} are its halves, which are numbers" if halves else "const A = 2001:db8::1 names an address, and ipv6.src_hi is half of one, a number"
        raise SourceError(node.at, "an IPv6 address is only compared with == and !=, looked for by `in`, and assigned", cure)
    require(not isinstance(node, Length), node.at, "the length is only compared with a constant", "no instruction has it as a number, but ipv4.len is one")
    return as_side(node)


def as_condition(node: Node) -> Node:
    """A number as a condition: that it is not 0."""
    if isinstance(node, Field) and node.name in BITS.get(node.header, {}):
        name, bit = f"{node.header}.{node.name}", BITS[node.header][node.name]
        raise SourceError(node.at, f"{name} is a number, and no flag", f"{node.header}.flags & {bit} is the flag; {name} != 0 asks for the number")
    return compared("!=", node, Number(node.at, 0)) if isinstance(node, Numeric) else node


def compared(sign: str, left: Node, right: Node) -> Node:
    """A comparison; the length is on its left."""
    if isinstance(right, Length):
        left, right, sign = right, left, COMPARISONS[sign]
    if isinstance(left, Length) and not isinstance(right, Number):
        as_number(left)
    if isinstance(left, Wide) or isinstance(right, Wide):
        return compared_wide(sign, as_wide(left), as_wide(right))
    if isinstance(left, Length) and sign in ("==", "!="):
        equal = And(left.at, Compare(left.at, ">=", left, right), Compare(left.at, "<=", left, right))
        return equal if sign == "==" else Not(left.at, equal)
    return Compare(left.at, sign, as_side(left), as_side(right))


def as_wide(node: Node) -> Wide:
    """A node that must be an IPv6 address."""
    if not isinstance(node, Wide):
        raise SourceError(node.at, "an IPv6 address is expected here", "as ipv6.src, 2001:db8::1 or ::")
    return node


def compared_wide(sign: str, left: Wide, right: Wide) -> Node:
    """A comparison of IPv6 addresses, by their halves."""
    require(sign in ("==", "!="), left.at, "IPv6 addresses are compared with == and !=", "ipv6.src in 2001:db8::/32")
    return (And if sign == "==" else Or)(left.at, Compare(left.at, sign, left.high, right.high), Compare(left.at, sign, left.low, right.low))


def in_prefix(left: Node, right: Node, depth: int, bits: int) -> Node:
    """Whether the first bits of a number are those of a constant."""
    if isinstance(left, Wide):
        right = as_wide(right)
        high = in_prefix(left.high, right.high, min(depth, 64), 64)
        return high if depth <= 64 else And(left.at, high, in_prefix(left.low, right.low, depth - 64, 64))
    if bits - depth == 64:
        return Compare(left.at, ">=", left, Number(right.at, 0))
    shift = Number(right.at, bits - depth)
    return Compare(left.at, "==", combined(">>", left, shift), Number(right.at, constant_of(right) >> shift.value))


def combined(sign: str, left: Node, right: Node) -> Node:
    """An operation, evaluated at once if both sides are constant."""
    left, right = as_number(left), as_number(right)
    by = right.value if isinstance(right, Number) else None
    is_sum = isinstance(right, Binary) and right.sign in "+-"
    cure = f"+ and - bind closer than {sign}: (x {sign} 8) + y" if is_sum else EACH if by is None else ""
    require(sign not in ("<<", ">>") or by is not None and by < 64, right.at, "a shift goes by a constant from 0 to 63", cure)
    require(sign != "*" or isinstance(left, Number) or by is not None, right.at, "one side of a product is a constant", EACH)
    if isinstance(left, Number) and by is not None:
        value = OPERATORS[sign](left.value, by)
        return Number(left.at, value & BIGGEST, wraps=left.wraps or value != value & BIGGEST, is_masked=sign == "&")
    return Binary(left.at, sign, left, right)


def added(sign: str, left: Node, right: Node) -> Node:
    """The operation of `left += right`. Each part of a sum on the right is taken in turn, so that none has to be held: x + (a - b) is x + a - b."""
    taken = list[tuple[str, Node]]()
    while isinstance(right, Binary) and (inner := INNER.get(sign + right.sign)):
        taken.append((inner, right.right))
        right = right.left
    found = combined(sign, left, right)
    for inner, part in reversed(taken):
        found = combined(inner, found, part)
    return found


def substituted(formula: Node, value: Node) -> Node:
    """A formula with a value in place of its variable."""
    chain = list[Binary]()
    while isinstance(formula, Binary):
        chain.append(formula)
        formula = formula.left
    found = value if isinstance(formula, Name) else formula
    for it in reversed(chain):
        found = combined(it.sign, found, substituted(it.right, value))
    return found


def constant_of(node: Node, cure: str = "") -> int:
    """The value of a number that must be constant."""
    if not isinstance(node, Number):
        cure = cure or (f"const {node.at.word} = .. makes one" if isinstance(node, Name) and node.at.word != PORT else EACH)
        raise SourceError(node.at, f"a constant is expected here, and {node.at.word!r} is none", cure)
    return node.value


def without_zeros(word: str) -> str:
    """What to write for a number that begins with 0, or for an address with such a part."""
    parts = [part.lstrip("0") or "0" for part in word.split(".")]
    is_octal = len(parts) == 1 and parts != ["0"] and len(word) < 12 and not {*word} & {"8", "9"}
    other = f", or {int(word, 8):#x} where it was octal" if is_octal else ""
    cure = {3: "; a number has no comma within it", 12: "; an Ethernet address has colons"}.get(len(word), "") if len(parts) == 1 else ""
    return f"write {'.'.join(parts)[:20]}{other}{cure}"
