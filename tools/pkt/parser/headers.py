"""Reads the declarations of headers: their fields, their clauses, and `extend`."""
from collections.abc import Callable
from itertools import pairwise

from ..cures import FIELD
from ..headers import Header, Span, check
from ..syntax import Field, Name, Node, Number, Place, Wide, parts, require
from .expressions import Expressions
from .grammar import ASSIGNMENTS, MAX_HEADERS, NUMBERS, OTHER_LENGTH
from .nodes import as_wide, combined, constant_of, substituted
from .program import Program


class HeaderDeclarations(Expressions):
    """Reads `header` and `extend`."""

    def declare_extend(self, _: Program) -> None:
        at = self.header_name()
        self.take("after")
        other = self.header_name()
        header = self.headers[at.word]
        cure = f"write the first clause where it is declared: header {at.word} {{ .. }} after {other.word} if .."
        require(bool(header.follows) or header.is_known, at, f"{at.word} follows no header, so it is at byte 0", cure)
        is_free = at.word not in self.headers[other.word].before and header.follows
        require(is_free, other, f"{at.word} cannot follow {other.word}, which it comes before", "declare a header with another name for the inner one")
        require(other.word not in self.headers[at.word].follows, other, f"{at.word} follows {other.word} already",
                f"a header of your own may follow {other.word} too, with another name")
        self.take("if")
        condition = self.condition()
        self.unknown = []
        self.headers.extend(at.word, other.word, condition)
        self.clauses.append((at.word, other))
        check(self.headers[at.word], self.headers)

    def declare_header(self, _: Program) -> None:
        at = self.name("a header", cure="header mine { a:8 }")
        self.declare(at, at.word, "a header")
        header = Header(at.word, at)
        self.fields(header)
        self.headers[at.word] = header
        said = set[str]()
        while self.sees("after", "length", "next", "sum"):
            clause = self.take()
            is_new = clause.word == "after" or clause.word not in said
            cure = "one of each is enough: a second header for the same bytes has another one"
            require(is_new, clause, f"{at.word} has `{clause.word}` already", cure)
            said.add(clause.word)
            CLAUSES[clause.word](self, header)
        header.depth = 1 + max((self.headers[other].depth for other in header.follows), default=0)
        require(header.depth <= MAX_HEADERS, at, f"more than {MAX_HEADERS} headers follow one another", "declare several of them as one header")
        check(header, self.headers)
        header.before = frozenset({header.name}).union(*(self.headers[other].before for other in header.follows))
        self.unknown = []

    def fields(self, header: Header) -> None:
        """The fields of a header."""
        self.take("{", f"the fields are within braces: header {header.name} {{ a:8 }}")
        total = 0
        while not self.may("}"):
            name = self.name("a field", may_be_reserved=True, cure=FIELD)
            require(name.word not in {**header.fields, **header.wide}, name, f"{name.word} is there twice", "take another name")
            alias = self.constant() if self.may("@") else None
            self.take(":", FIELD)
            bits, first = constant_of(self.number(), FIELD), total if alias is None else alias
            total += bits if alias is None else 0
            if bits == 128:
                self.halves(header, name, first)
            else:
                header.fields[name.word] = Span(first, bits)
            if self.may("="):
                self.default(header, name.word, bits)
        cure = f"a last field, as rest:{-total % 8}, fills them" if total else "a header has at least one field"
        require(total and total % 8 == 0, header.at, f"the {total} bits of {header.name} do not make whole bytes", cure)
        header.size = total // 8
        header.sizes = {0: header.size}

    def default(self, header: Header, name: str, bits: int) -> None:
        """What `push` writes to a field by default, or that each `push` names it."""
        at, names = self.place(), header.wide.get(name, (name,))
        if self.may("need"):
            header.needed += names
        elif name in header.wide:
            value = as_wide(self.operation(NUMBERS))
            header.defaults |= dict(zip(names, map(constant_of, (value.high, value.low))))
        else:
            header.defaults[name] = default = None if self.may("auto") else self.constant()
            require(not default or default <= header.fields[name].largest, at, f"{name} has {bits} bits, and {default} needs more")

    def halves(self, header: Header, name: Place, first: int) -> None:
        """The two halves of a field of 128 bits, which are fields too."""
        names = f"{name.word}_hi", f"{name.word}_lo"
        for number, half in enumerate(names):
            require(half not in header.fields, name, f"{half} is there twice")
            header.fields[half] = Span(first + 64 * number, 64)
        header.wide[name.word] = names

    def clause_after(self, header: Header) -> None:
        other = self.header_name()
        require(other.word != header.name, other, "a header does not follow itself", "declare a second one with another name")
        cure = f"after {other.word} if {other.word}.{next(iter(self.headers[other.word].fields))} == 1 or .. has all its conditions"
        require(other.word not in header.follows, other, f"{header.name} follows {other.word} already", cure)
        self.take("if")
        header.follows[other.word] = self.condition()
        self.clauses.append((header.name, other))

    def clause_length(self, header: Header) -> None:
        header.formula = formula = self.number()
        self.take("for")
        named = self.name("a variable")
        variable = named.word
        self.take(":")
        header.bits = self.limited("number of bits", 1, 16)
        is_other = header.fields.get(variable, Span(0, header.bits)) != Span(0, header.bits)
        fault = f"{variable} is here the first {header.bits} bits of {header.name}, which its field {variable} is not"
        require(not is_other, named, fault, "take another name, as v:8: v & 15 are the last 4 of 8 bits")
        self.take("in")
        low = self.constant()
        self.take("..")
        at, high, most = self.place(), self.constant(), min(low + 255, (1 << header.bits) - 1)
        cure = f"{variable} has {header.bits} bits" if high >> header.bits else self.cure_of_range(low, high) if high > most else "the smaller one comes first"
        require(low <= high <= most, at, f"the last value is from {low:,} to {most:,}, and this is {high:,}", cure)
        for it in parts(formula):
            is_own = not isinstance(it, Field) and (not isinstance(it, Name) or it.name == variable)
            require(is_own, it.at, "a length is calculated from its own variable and constants", OTHER_LENGTH)
        header.sizes = {value: constant_of(substituted(formula, Number(header.at, value))) for value in range(low, high + 1)}
        self.leave_bits_out(header, Name(named, variable))

    def leave_bits_out(self, header: Header, first: Name) -> None:
        """Leaves out the last of the first bits, on which the length does not depend, as (v >> 4) * 4 depends on four of eight."""
        sizes, bits = header.sizes, header.bits
        while bits > 1 and all(sizes.get(value ^ 1) == size for value, size in sizes.items()):
            sizes, bits = {value >> 1: size for value, size in sizes.items()}, bits - 1
        if bits < header.bits:
            header.formula = formula_of(sizes, first) or substituted(header.formula, combined("<<", first, Number(header.at, header.bits - bits)))
            header.sizes, header.bits = sizes, bits

    def cure_of_range(self, low: int, high: int) -> str:
        """The cure for a range of more than 256 values, of which the last eight bits are the length, and what is before them one number for each header."""
        first, last = (low & 255, high & 255) if low & 255 <= high & 255 else (0, 255)
        ranges = f"{low & ~255 | first:#06x}..{low & ~255 | last:#06x} in one, {high & ~255 | first:#06x}..{high & ~255 | last:#06x} in another"
        return f"a range has at most 256 values, and each takes instructions: declare one header for each number before the length, with {ranges}"

    def clause_next(self, header: Header) -> None:
        header.next_at, header.next = self.place(), self.clause_field(header)

    def clause_field(self, header: Header) -> str:
        """The field that a clause names, which is one and no two halves."""
        at, name = self.place(), self.field_name(header.name)
        require(name in header.fields, at, f"{name} has 128 bits, and is two fields here", f"{name}_hi and {name}_lo are its halves")
        return name

    def clause_sum(self, header: Header) -> None:
        header.sum, header.payload, header.over = self.clause_field(header), self.may("payload"), ()
        is_over = self.may("over")
        # A field and the sign of an assignment are the statement after the declaration.
        while is_over and (not header.over or self.sees_header(".") and self.place(3).word not in ASSIGNMENTS):
            it = self.field()
            header.over += (it.high, it.low) if isinstance(it, Wide) else (it,)  # type: ignore[assignment]
        header.optional = self.may("optional")


def formula_of(sizes: dict[int, int], first: Name) -> Node | None:
    """A formula for lengths that grow by the same number with each value, or nothing."""
    (low, size), steps = next(iter(sizes.items())), {other - one for one, other in pairwise(sizes.values())}
    step = steps.pop() if len(steps) == 1 else 0
    if step < 1:
        return None
    rest, product = size - low * step, combined("*", first, Number(first.at, step))
    return combined("+" if rest >= 0 else "-", product, Number(first.at, abs(rest)))


# What reads the clauses of a header.
CLAUSES: dict[str, Callable[[HeaderDeclarations, Header], None]] = {
    "after": HeaderDeclarations.clause_after, "length": HeaderDeclarations.clause_length, "next": HeaderDeclarations.clause_next,
    "sum": HeaderDeclarations.clause_sum,
}  # fmt: skip
