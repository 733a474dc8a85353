"""Reads expressions: operators, conditions, the items after `in`, and operands."""
import ipaddress
from dataclasses import replace

from ..cures import CURES, LOOKUP
from ..lexer import RESERVED, require_word
from ..syntax import BIGGEST, PORT, And, Field, Found, Length, Name, Node, Not, Number, Or, Place, SourceError, Wide, require
from .checks import Checks
from .grammar import FOREIGN, LEVELS, LIMITS, MAX_DIGITS, MAX_ITEMS, MAX_OPERATORS, NOT, NO_NUMBERS, NUMBERED, NUMBERS
from .nodes import as_number, as_side, combined, constant_of, in_prefix, without_zeros
from .program import Item


class Expressions(Checks):
    """Reads numbers and conditions."""

    def condition(self) -> Node:
        """A condition."""
        return self.as_condition(self.operation())

    def number(self) -> Node:
        """A number."""
        return as_number(self.operation(NUMBERS))

    def constant(self) -> int:
        """A constant number."""
        return constant_of(self.number())

    def limited(self, what: str, least: int = 0, limit: int = 0) -> int:
        """A constant within limits, or the name of what it numbers."""
        if self.kind == "name" and self.place().word in self.numbered:
            kind, number = self.numbered[self.place().word]
            require(kind == what, self.place(), f"{self.place().word} is a {kind}, and a {what} is expected here")
            self.take()
            return number
        is_known = what not in ("table", "pool", "ring") or self.kind != "name" or self.place().word in {*self.names, *RESERVED}
        require(is_known, self.place(), f"there is no {what} {self.place().word}", f"{what} {self.place().word} = 0, before it, names one")
        cure = f"leave the {self.place().word} out" if self.sees("=", ":") else "write its number, as 0 for the first one; the pipeline file says what is in it"
        is_number = self.kind != "string" and not self.sees("=", ":", "{")
        require(is_number, self.place(), f"the {what} is expected here, and this is {self.place().word!r}", cure)
        at, value, limit = self.place(), constant_of(self.number(), NUMBERED.get(what, "")), limit or LIMITS[what]
        require(least <= value <= limit, at, f"the {what} is from {least} to {limit:,}, and this is {value:,}")
        return value

    def operation(self, level: int = 0) -> Node:
        """An expression of operators that bind at least as close as those of the level."""
        if level == len(LEVELS):
            return self.operand()
        if level == NOT and self.sees("not"):
            with self.nested("parentheses and `not`"):
                return Not(self.take(), self.as_condition(self.operation(level)))
        node, count = self.operation(level + 1), 0
        while self.sees(*LEVELS[level]):
            count += 1
            limit = MAX_OPERATORS if level >= NUMBERS else MAX_ITEMS
            cure = "let x = .. has a part of it; a prefix or a table has many addresses"
            require(count <= limit, self.place(), f"more than {limit:,} operators in a row", cure)
            self.count_operators(1)
            sign = self.take().word
            if sign == "in":
                node = self.items(as_side(node))
            else:
                at, right = self.place(), self.operation(level + 1)
                self.note_order(sign, node, right, at)
                node = (self.joined if level < NUMBERS else self.calculated)(sign, node, right)
        return node

    def items(self, left: Node) -> Node:
        """The items after `in`: a comparison for each."""
        node: Node | None = None
        listed = self.listed()
        self.count_operators(len(listed))
        for item in listed:
            test = self.is_item(left, item)
            node = Or(left.at, node, test) if node else test
        assert node is not None
        return node

    def listed(self) -> list[Item]:
        """The items of a list, of a set, or one item."""
        if not self.may("{"):
            return self.item()
        found = self.item()
        while self.may(","):
            found += self.item()
            fault = f"a list has at most {MAX_ITEMS:,} items: each takes an instruction"
            require(len(found) <= MAX_ITEMS, self.place(), fault, "a prefix, or `lookup` in a table")
        self.take("}")
        return found

    def item(self) -> list[Item]:
        """One item: a number, a range, or a prefix; or all items of a set."""
        if self.kind == "name" and self.place().word in self.sets:
            return list(self.sets[self.take().word])
        right = as_side(self.operation(NUMBERS))
        if self.may(".."):
            require(not isinstance(right, Wide), right.at, "IPv6 addresses have no range", "a prefix, as 2001:db8::/32")
            low, high = Number(right.at, constant_of(right)), Number(self.place(), self.constant())
            require(low.value <= high.value, low.at, f"no number is from {low.value:,} to {high.value:,}", "the smaller one comes first")
            return [Item(right.at, low, last=high)]
        if self.may("/"):
            at, depth = self.place(), self.constant()
            return [Item(at, right, depth=depth)]
        return [Item(right.at, right)]

    def is_item(self, left: Node, item: Item) -> Node:
        """Whether a number is an item."""
        if item.last is not None:
            return And(left.at, self.compared(">=", left, item.number), self.compared("<=", left, item.last))
        if item.depth is not None:
            bits = self.prefix_bits(left, item.number)
            require(item.depth <= bits, item.at, f"the prefix has at most {bits} bits, and this is {item.depth}", "a prefix is as in 10.0.0.0/8")
            self.refuse_short(item, bits)
            self.note_rest(item, bits)
            return in_prefix(left, item.number, item.depth, bits)
        return self.compared("==", left, item.number)

    def operand(self) -> Node:
        """A number without operators, a path, or an expression in parentheses."""
        at = self.place()
        if self.kind == "ip6":
            return self.ipv6()
        if self.kind in ("number", "ip", "ethernet"):
            width = {"ip": 32, "ethernet": 48}.get(self.kind, 0)
            return Number(at, self.literal(), width)
        if self.sees("~", "("):
            with self.nested("parentheses and ~"):
                if self.take().word == "~":
                    return combined("^", self.operand(), Number(at, BIGGEST))
                node = self.operation()
                if self.sees("("):
                    self.refuse_unknown()
                self.take(")", "" if self.sees(",") else f"the ( in {self.rows[at.line].place}, column {at.column} is open")
                return node
        if self.may("length"):
            return Length(at)
        require(not self.sees("-"), at, "a number or a condition is expected here, and this is '-'", "numbers are unsigned: 0 - 1 is 2^64 - 1")
        require(self.kind != "end", at, f"a number or a condition is expected here, and this is {at.word!r}", "what is before it is not whole")
        require_word(self.kind == "name", at, f"a number or a condition is expected here, and this is {at.word!r}", self.kind)
        return self.named(at)

    def named(self, at: Place) -> Node:
        """What a name stands for: a field, a path, a constant or a variable."""
        if at.word in self.headers:
            return self.field() if self.place(1).word == "." else Found(at, self.path())
        if at.word in self.constants:
            return replace(self.constants[at.word], at=self.take())
        if self.place(1).word == ".":
            raise SourceError(at, f"there is no header {at.word}", self.cure_of_header(at.word))
        is_number = self.names.get(at.word) not in NO_NUMBERS
        require(is_number, at, f"{at.word} is {self.names.get(at.word)}, and no number", NO_NUMBERS.get(self.names.get(at.word, ""), "").format(at.word))
        cure = CURES.get(at.word) or f"a number or a condition is missing before `{at.word}`"
        cure = "need c else drop" if at.word in ("drop", "send", "else") and self.words[self.next - 1][1].word in ("and", "or") else cure
        require(at.word not in RESERVED - {PORT}, at, f"a number or a condition is expected here, and this is {at.word!r}", cure)
        if self.names.get(at.word) != "a variable":
            self.unknown.append(at)
        return Name(self.take(), at.word if at.word == PORT else at.word + self.suffix)

    def cure_of_header(self, word: str) -> str:
        """The cure for a name before a dot that is no header."""
        if self.names.get(word) == "a table":
            return LOOKUP.replace("ROUTES", word)
        if self.names.get(word) == "a packet":
            return f"fields are those of the packet of the program; truncate {word} 64, send {word} to 1 and free {word} are statements"
        if self.place(2).word in self.headers:
            return f"write {self.place(2).word} without {word}."
        return "port is where the packet came from, and length how many bytes it has" if word in FOREIGN else self.known_headers(word)

    def ipv6(self) -> Wide:
        """An IPv6 address."""
        at = self.take()
        try:
            value = int(ipaddress.IPv6Address(at.word))
        except ValueError:
            raise SourceError(at, f"{at.word} is no IPv6 address", "it has eight groups of up to four digits, or one :: for groups of 0") from None
        return Wide(at, Number(at, value >> 64), Number(at, value & BIGGEST))

    def literal(self) -> int:
        """The value of a literal."""
        kind, at = self.kind, self.take()
        padded = next((part for part in at.word.split(".") if part.isdigit() and part[0] == "0" != part), "")
        if padded and not self.sees(":"):
            raise SourceError(at, f"{padded[:20]} begins with 0, and is octal in some languages", without_zeros(at.word))
        if kind == "ip":
            digits = [int(part[:4]) for part in at.word.split(".")]
            require(max(digits) <= 255, at, "a part of an address is at most 255", "write each of the four parts as 0 to 255")
            return int.from_bytes(bytes(digits), "big")
        is_hex = kind == "ethernet" or at.word.startswith("0x")
        digits = at.word.replace(":", "").removeprefix("0x").lstrip("0") or "0"
        value = int(digits, 16 if is_hex else 10) if len(digits) <= MAX_DIGITS else BIGGEST + 1
        require(value <= BIGGEST, at, "a number has at most 64 bits", f"the greatest one is {BIGGEST}")
        return value

    def field(self) -> Field | Wide:
        """A header's field; one of 128 bits is two."""
        header = self.header_name()
        self.take(".")
        name = self.field_name(header.word)
        high, low = self.headers[header.word].wide.get(name, ("", ""))
        return Wide(header, Field(header, header.word, high), Field(header, header.word, low)) if high else Field(header, header.word, name)
