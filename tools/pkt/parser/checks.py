"""What is refused or noted in the conditions, operations and prefixes of a text, once their sides are known."""
from ..cures import COUNTED, MASKED
from ..headers import Span
from ..syntax import And, Binary, Field, Found, Name, Node, Number, Or, Place, Wide, require
from ..values import least_of, require_can_be, require_choice, require_leaves, require_open, require_unsigned
from .grammar import COMPARISONS, UNDER
from .nodes import as_condition, combined, compared, constant_of
from .program import Item
from .state import ParserState


class Checks(ParserState):
    """Makes conditions and operations of sides that were read."""

    def as_condition(self, node: Node) -> Node:
        """A condition of the text, which does not hold for every number, and asks something of the packet or is a switch."""
        require_open(node, self.headers)
        self.note_group(node)
        if isinstance(node, Number) and self.names.get(node.at.word) != "a parameter":
            self.require_switch(node, node.value < 2, f"x == {node.at.word} compares x with it")
        return as_condition(node)

    def require_switch(self, it: Number, is_switch: bool, cure: str) -> None:
        """Refuses a constant as a condition, unless it switches a part on or off, or is some bits of one, as DEBUG & 2."""
        is_level = it.at.word in self.constants and it.value > 1
        why = f": it is {it.value:,}, and only 0 and 1 are switches" if is_level else ""
        cure += f"; {it.at.word} != 0 makes a switch of it" if is_level else ""
        require(is_switch or it.is_masked, it.at, f"{it.at.word} alone is a condition that never changes{why}", cure)

    def note_order(self, sign: str, left: Node, right: Node, at: Place) -> None:
        """Notes `tcp or udp and c` without parentheses, which is `tcp or (udp and c)`."""
        last, first = left.right if isinstance(left, Or) else left, right
        while isinstance(first, And):
            first = first.left
        if sign == "or" and isinstance(right, And) and at.word != "(" and isinstance(last, Found) and isinstance(first, Found):
            one, other = last.path[-1], first.path[-1]
            self.notes[at] = f"`and` binds closer than `or`: this is {one} or ({other} and ..), and ({one} or {other}) and .. is the other"

    def calculated(self, sign: str, left: Node, right: Node) -> Node:
        """An operation of the text, of which something is left."""
        require_leaves(sign, left, right, self.headers)
        it, mask = (right, left) if isinstance(right, Field) else (left, right)
        if sign == "&" and isinstance(it, Field) and isinstance(mask, Number) and mask.value > self.span_of(it).largest:
            name, is_written = f"{it.header}.{it.name}", mask.at.word.lower() in (str(mask.value), f"{mask.value:#x}")
            more = f"{name} has {self.span_of(it).bits} bits, and {mask.at.word} has more; {MASKED.get(name, 'those are always 0')}"
            self.notes |= {mask.at: more} if is_written else {}
        return combined(sign, left, right)

    def joined(self, sign: str, left: Node, right: Node) -> Node:
        """A comparison or two conditions joined by a word."""
        if sign in COMPARISONS:
            if sign not in (">=", "<=") or not self.begins_range(right if isinstance(left, Number) else left):
                require_unsigned(sign, left, right)
            if sign not in ("==", "!="):
                self.note_difference(left, right)
            self.note_group(left)
            return self.compared(sign, left, right)
        for side in (left, right):
            # A constant with a name, of 0 or 1, may switch a part off.
            if isinstance(side, Number):
                is_switch = side.value < 2 and self.names.get(side.at.word) in ("a constant", "a parameter")
                is_bit = isinstance(left, Binary) and left.sign == "&"
                cure = "x & 3 == 3 asks for two bits, x & 3 for one of them" if is_bit else "x in {1, 2} compares x with each"
                self.require_switch(side, is_switch, cure)
        require_choice(sign, left, right)
        return (And if sign == "and" else Or)(left.at, self.as_condition(left), self.as_condition(right))

    def begins_range(self, it: Node) -> bool:
        """Whether `and x <` is next, after x >= 0: both are a range, as those write it that generate rules."""
        words = [it.header, ".", it.name] if isinstance(it, Field) else [it.at.word]
        following = [self.place(k).word for k in range(len(words) + 2)]
        return following[:-1] == ["and", *words] and following[-1] in ("<", "<=")

    def note_difference(self, left: Node, right: Node) -> None:
        """Notes the order of a difference, unless it cannot be below 0 or the text has asked before how great the number is."""
        for it, other in ((left, right), (right, left)):
            if isinstance(it, Binary) and it.sign == "-" and isinstance(it.right, Number):
                asked = self.limits.get(it.left, -1) + 1 if isinstance(it.left, (Field, Name)) else 0
                self.notes |= {it.at: UNDER.format("x > 5", "x - 5 > 0")} if max(asked, least_of(it.left, self.headers)) < it.right.value else {}
            elif isinstance(it, Binary) and it.sign == "-" and all(isinstance(side, (Field, Name)) for side in (it.left, it.right)):
                self.notes |= {} if frozenset((it.left, it.right)) in self.ordered else {it.at: UNDER.format("x > y + 5", "x - y > 5")}
            elif isinstance(other, Number) and isinstance(it, (Field, Name)):
                self.limits[it] = max(other.value, self.limits.get(it, 0))
        if isinstance(left, (Field, Name)) and isinstance(right, (Field, Name)):
            self.ordered.add(frozenset((left, right)))

    def note_group(self, it: Node) -> None:
        """Notes eth.dst & 1, which is not the bit of group addresses."""
        match it:
            case Binary(_, "&", Field(_, "eth", "dst"), Number(at, 1)) if at.word in ("1", "0x1", "0x01"):
                self.notes[at] = "1 is the last bit of eth.dst; eth.dst & 01:00:00:00:00:00 asks for the bit of groups, the last one of its first byte"

    def prefix_bits(self, left: Node, right: Node) -> int:
        """How many bits the numbers have whose first ones are a prefix: those of the field, or of the address."""
        bits = 128 if isinstance(left, Wide) else self.span_of(left).bits if isinstance(left, Field) else 0
        of_address = 128 if isinstance(right, Wide) else right.width if isinstance(right, Number) else 0
        if not isinstance(right, Wide):
            constant_of(right)
        require(bits or of_address, right.at, "how many bits has this number? A prefix counts from the first one", "compare with >> and ==")
        fits = not bits or not of_address or bits == of_address
        cure = "name the whole field, as in ipv6.src" if of_address == 128 else "write the prefix as wide as the field"
        require(fits, right.at, f"the address has {of_address} bits, and the field before `in` {bits}", cure)
        if isinstance(left, Field):
            self.require_fits(left, right)
        return bits or of_address

    def refuse_short(self, item: Item, bits: int) -> None:
        """Refuses a prefix of a number that has no bits so far in front, as in 10/8."""
        depth, value = item.depth or 0, item.number
        is_short = isinstance(value, Number) and not value.width and value.value and 0 < depth < bits and value.value >> bits - depth == 0
        fault = f"the first {depth} of {bits} bits of {item.number.at.word} are all 0"
        require(not is_short, item.number.at, fault, "a prefix begins with an address, as in 10.0.0.0/8, or has all its digits, as in 0x0a000000/8")

    def note_rest(self, item: Item, bits: int) -> None:
        """Notes a prefix whose constant is written with bits after its depth; GATEWAY/24 is the net of an address that has a name."""
        number, depth = item.number, item.depth or 0
        value = number.value if isinstance(number, Number) else 0
        if isinstance(number, Wide) and isinstance(number.high, Number) and isinstance(number.low, Number):
            value = number.high.value << 64 | number.low.value
        if depth and value & (1 << bits - depth) - 1 and number.at.word not in self.names:
            self.notes[number.at] = f"the bits of {number.at.word} after the first {depth} do not count"

    def span_of(self, it: Field) -> Span:
        """The bits of a field within its header."""
        return self.headers[it.header].fields[it.name]

    def require_fits(self, it: Node, value: Node) -> None:
        """Refuses a constant that no value of a field is."""
        if isinstance(it, Field) and isinstance(value, Number):
            span, name = self.span_of(it), f"{it.header}.{it.name}"
            low = value.value & span.largest
            cure = f"{low} are its lowest {span.bits} bits" if low else f"the greatest one is {span.largest}, also in a range, which has both its ends"
            cure = COUNTED.get(name) or MASKED.get(name) or cure
            cure = "it is below 0, and was cut to 64 bits; a range has two dots: x in 1..5" if value.wraps else cure
            is_own = value.width != 32 or span.bits != 48
            fault = f"{name} has 48 bits, and {value.at.word} is an IPv4 address of 32"
            require(is_own, value.at, fault, "an Ethernet address has colons, as in 02:00:00:00:00:01")
            require(value.value <= span.largest, value.at, f"{name} has {span.bits} bits, and is at most {span.largest:,}: this is {value.value:,}", cure)

    def compared(self, sign: str, left: Node, right: Node) -> Node:
        """A comparison of sides that fit one another."""
        self.require_fits(left, right)
        self.require_fits(right, left)
        require_can_be(sign, left, right, self.headers)
        return compared(sign, left, right)
