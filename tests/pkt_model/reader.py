"""Reads a text of the language pkt by the grammar of docs/users/pkt.md. It checks the grammar alone: names and types are the compiler's part."""
import re
from collections.abc import Callable
from dataclasses import replace
from functools import lru_cache
from pathlib import Path as File
from typing import NamedTuple, TypeVar

from .arithmetic import BINARY, MASK
from .syntax import (
    Arrival, Assign, AssignWide, Binary, Bits, Block, Both, Chain, Clone, Compare, Complement, Condition, Constant, Count, Cut, Drop, Either, Extent, Field,
    Free, Header, If, Inline, Length, Let, Lookup, Need, Negated, New, Number, Pop, Present, Program, Push, Pushed, Queue, Send, Statement, Sum, Truncate, Truth,
    Variable, While, Wide,
)

RESERVED = frozenset(
    "after and auto chain clone const cut drop else free given header if in length let lookup mend need new next not on "
    "optional or otherwise over pop port ports push queue segments send sum this truncate while".split()
)
TOKEN = re.compile(
    r"""(?P<blank>[ \t\r\n]+|\#[^\n]*)
    |(?P<six>(?:[0-9a-fA-F:]*::(?:[0-9a-fA-F]+:)*|(?:[0-9a-fA-F]{1,4}:){6})[0-9]+\.[0-9]+\.[0-9]+\.[0-9]+
    |(?:[0-9a-fA-F]{1,4}:){7}[0-9a-fA-F]{1,4}|[0-9a-fA-F:]*::[0-9a-fA-F:]*)
    |(?P<ether>[0-9a-fA-F]{2}(?::[0-9a-fA-F]{2}){5}(?![0-9a-zA-Z_:]))
    |(?P<dotted>[0-9]+\.[0-9]+\.[0-9]+\.[0-9]+)
    |(?P<hex>0[xX][0-9a-fA-F]+)
    |(?P<decimal>[0-9]+)
    |(?P<name>[A-Za-z_][A-Za-z0-9_]*)
    |(?P<string>"[^"\n]*")
    |(?P<sign>\.\.|<<=|>>=|<<|>>|==|!=|<=|>=|\+=|-=|\*=|&=|\|=|\^=|[-+*&|^~<>=(){},./:@])""",
    re.VERBOSE,
)
# The operators of numbers, those that bind least first.
LEVELS = (("|",), ("^",), ("&",), ("<<", ">>"), ("+", "-"), ("*",))
COMPARISONS = ("==", "!=", "<=", ">=", "<", ">")
ASSIGNMENTS = {sign + "=": sign for sign in ("+", "-", "*", "&", "|", "^", "<<", ">>")}
CONDITIONS = Truth | Compare | Present | Both | Either | Negated
Read = TypeVar("Read")


class Fault(Exception):
    """A text that the grammar does not have."""


class Token(NamedTuple):
    """A word of the text, and the folder of the file that it is in."""

    kind: str
    text: str
    line: int
    folder: File | None = None


def value_of(kind: str, text: str) -> int:
    """The number that a word spells."""
    if kind == "ether":
        return int(text.replace(":", ""), 16)
    if kind == "dotted":
        parts = [int(part) for part in text.split(".")]
        if max(parts) > 255 or text != ".".join(map(str, parts)):
            raise Fault(f"no address: {text}")
        return int.from_bytes(bytes(parts), "big")
    if kind == "decimal" and text[0] == "0" != text:
        raise Fault(f"a number that begins with 0: {text}")
    return int(text, 16 if kind == "hex" else 10)


def six(text: str) -> int:
    """The number of an IPv6 address; `::` are the groups of 0 that lack, and the last two groups may be an IPv4 address."""
    if "." in text:
        end = value_of("dotted", text[text.rindex(":") + 1 :])
        text = f"{text[: text.rindex(':') + 1]}{end >> 16:x}:{end & 0xFFFF:x}"
    ends = [[int(group, 16) for group in end.split(":") if group] for end in text.split("::")]
    groups = ends[0] + [0] * (8 - sum(map(len, ends))) + ends[1] if len(ends) == 2 else ends[0]
    if len(ends) > 2 or len(groups) != 8 or max(groups) > 0xFFFF:
        raise Fault(f"no address: {text}")
    return int.from_bytes(b"".join(group.to_bytes(2, "big") for group in groups), "big")


def tokens(text: str, folder: File | None = None) -> list[Token]:
    """The words of a text in a folder, and an end."""
    found, at, line = [], 0, 1
    while at < len(text):
        match = TOKEN.match(text, at)
        if match is None or match.lastgroup is None:
            raise Fault(f"line {line}: {text[at]!r}")
        if match.lastgroup != "blank":
            found.append(Token(match.lastgroup, match[0], line, folder))
        line += match[0].count("\n")
        at = match.end()
    return [*found, Token("end", "", line)]


class Reader:
    """Reads words, one after another."""

    def __init__(self, text: str, headers: dict[str, Header], folder: File | None = None) -> None:
        self.tokens, self.at, self.included = tokens(text, folder), 0, set[File]()
        self.constants: dict[str, Constant | Wide] = {}
        # Where the items of each set begin; the parameters of each `def`, and where its block begins; what its names end with where it is used.
        self.sets: dict[str, int] = {}
        self.functions: dict[str, tuple[list[str], int]] = {}
        self.suffix, self.inlined = "", 0
        self.program = Program(dict(headers), [])

    @property
    def token(self) -> Token:
        """The next word."""
        return self.tokens[self.at]

    def fault(self, what: str) -> Fault:
        """What is wrong here."""
        return Fault(f"line {self.token.line}: {what}, not {self.token.text!r}")

    def take(self) -> Token:
        """Reads the next word."""
        self.at += 1
        return self.tokens[self.at - 1]

    def takes(self, *texts: str) -> bool:
        """Reads the next words if they are these, and says whether."""
        here = self.tokens[self.at : self.at + len(texts)]
        if tuple(token.text for token in here) != texts or any(token.kind == "string" for token in here):
            return False
        self.at += len(texts)
        return True

    def want(self, text: str) -> None:
        """Reads a required word."""
        if not self.takes(text):
            raise self.fault(f"{text!r} is wanted")

    def word(self) -> str:
        """A name, reserved or not."""
        if self.token.kind != "name":
            raise self.fault("a name is wanted")
        return self.take().text

    def name(self) -> str:
        """A name that is not reserved."""
        if self.token.text in RESERVED:
            raise self.fault("a name is wanted")
        return self.word()

    def each(self, end: str, read: Callable[[], Read]) -> list[Read]:
        """A list up to a closing sign, with or without commas."""
        found = []
        while not self.takes(end):
            if self.token.kind == "end":
                raise self.fault(f"{end!r} is wanted")
            found.append(read())
            self.takes(",")
        return found

    # Numbers

    def number(self, level: int = 0) -> Number:
        """A number."""
        found = self.expression(level)
        if isinstance(found, CONDITIONS):
            raise self.fault("a number is wanted before this")
        return found

    def expression(self, level: int = 0) -> Number | Condition:
        """A number, or a condition in parentheses."""
        if level == len(LEVELS):
            return self.primary()
        left = self.expression(level + 1)
        while self.token.text in LEVELS[level] and self.token.kind == "sign":
            if isinstance(left, CONDITIONS):
                raise self.fault("a number is wanted before this")
            left = Binary(self.take().text, left, self.number(level + 1))
        return left

    def primary(self) -> Number | Condition:
        """A number without an operator on two, or a condition in parentheses."""
        if self.takes("~"):
            inner = self.primary()
            if isinstance(inner, CONDITIONS):
                raise self.fault("a number is wanted before this")
            return Complement(inner)
        if self.takes("("):
            found = self.condition_or_number()
            self.want(")")
            return found
        if self.takes("length"):
            return Length()
        if self.takes("port"):
            return Arrival()
        if self.token.kind in ("decimal", "hex", "dotted", "ether"):
            token = self.take()
            return Constant(value_of(token.kind, token.text), {"dotted": 32, "ether": 48}.get(token.kind, 0))
        if self.token.kind == "six":
            value = six(self.take().text)
            return Wide(Constant(value >> 64), Constant(value & MASK))
        return self.named()

    def named(self) -> Number | Condition:
        """A field, a constant, a variable, or a path of headers."""
        name = self.name()
        if self.takes("."):
            return self.field_of(name)
        if name in self.program.headers:
            return Present(self.path(name))
        if name in self.constants:
            return self.constants[name]
        return Variable(name + self.suffix)

    def field_of(self, header: str) -> Field | Wide:
        """A field of a header; one of 128 bits is two."""
        name = self.word()
        halves = self.program.headers[header].wide.get(name) if header in self.program.headers else None
        return Wide(Field(header, halves[0]), Field(header, halves[1])) if halves else Field(header, name)

    def path(self, first: str | None = None) -> tuple[str, ...]:
        """Headers with `/` between them."""
        names = [self.name() if first is None else first]
        while self.takes("/"):
            names.append(self.name())
        return tuple(names)

    def constant(self) -> int:
        """A number that is known."""
        return known(self.number())

    # Conditions

    def condition(self) -> Condition:
        """A condition."""
        found = self.condition_or_number()
        return found if isinstance(found, CONDITIONS) else Truth(found)

    def condition_or_number(self) -> Number | Condition:
        """What `or` joins."""
        left = self.conjunction()
        while self.takes("or"):
            left = Either(truth(left), truth(self.conjunction()))
        return left

    def conjunction(self) -> Number | Condition:
        """What `and` joins."""
        left = self.negation()
        while self.takes("and"):
            left = Both(truth(left), truth(self.negation()))
        return left

    def negation(self) -> Number | Condition:
        """A test, or the contrary of one."""
        if self.takes("not"):
            return Negated(truth(self.negation()))
        left = self.expression()
        if isinstance(left, CONDITIONS):
            return left
        if self.token.kind == "sign" and self.token.text in COMPARISONS:
            return compared(self.take().text, left, self.number())
        return self.membership(left) if self.takes("in") else left

    def membership(self, left: Number) -> Condition:
        """The items after `in`: one comparison for each."""
        lists = self.each("}", lambda: self.items(left)) if self.takes("{") else [self.items(left)]
        items = [item for listed in lists for item in listed]
        found = items[0]
        for item in items[1:]:
            found = Either(found, item)
        return found

    def items(self, left: Number) -> list[Condition]:
        """An item, or those of a set, which are read once more."""
        if self.token.kind != "name" or self.token.text not in self.sets:
            return [self.item(left)]
        begin = self.sets[self.take().text]
        end, self.at = self.at, begin
        found = [item for listed in self.each("}", lambda: self.items(left)) for item in listed]
        self.at = end
        return found

    def item(self, left: Number) -> Condition:
        """A number, a range, or a prefix of 32 bits."""
        first = self.number()
        if self.takes(".."):
            return Both(Compare(">=", left, first), Compare("<=", left, Constant(self.constant())))
        if self.takes("/"):
            return self.in_prefix(left, first, self.constant(), self.width(left, first))
        return compared("==", left, first)

    def width(self, left: Number, first: Number) -> int:
        """How many bits the numbers have whose first ones are a prefix."""
        if isinstance(left, Wide):
            return 128
        if isinstance(left, Field):
            return self.program.headers[left.header].fields[left.name].count
        return first.width if isinstance(first, Constant) else 0

    def in_prefix(self, left: Number, first: Number, depth: int, width: int) -> Condition:
        """Whether the first bits of a number are those of a constant."""
        if isinstance(left, Wide) and isinstance(first, Wide):
            high = self.in_prefix(left.high, first.high, min(depth, 64), 64)
            return Both(high, self.in_prefix(left.low, first.low, depth - 64, 64)) if depth > 64 else high
        if width - depth == 64:
            return Compare(">=", left, Constant(0))
        return Compare("==", Binary(">>", left, Constant(width - depth)), Constant(known(first) >> width - depth))

    # Declarations

    def read(self) -> Program:
        """The whole text."""
        while self.token.kind != "end":
            if not self.declaration():
                self.program.block.append(self.statement())
        return self.program

    def declaration(self) -> bool:
        """Reads a declaration if one is next, and says whether."""
        if self.takes("const"):
            name = self.name()
            self.want("=")
            value = self.number()
            self.constants[name] = value if isinstance(value, Constant | Wide) else Constant(known(value))
        elif self.takes("ports"):
            self.program.ports = self.constant()
        elif self.takes("segments"):
            self.program.segments = self.constant()
        elif self.takes("otherwise"):
            self.program.otherwise = [self.statement()]
        elif self.takes("given"):
            self.given()
        elif self.takes("header"):
            header = self.header()
            self.program.headers[header.name] = header
        elif self.token.text == "include" and self.tokens[self.at + 1].kind == "string":
            self.include()
        else:
            return self.naming()
        return True

    def include(self) -> None:
        """The text of a file, once, in place of its name."""
        self.take()
        name = self.take()
        if name.folder is None:
            raise Fault("a text in no folder includes no file")
        path = (name.folder / name.text.strip('"')).resolve()
        if path not in self.included:
            self.included.add(path)
            self.tokens[self.at : self.at] = tokens(path.read_text(encoding="utf-8"), path.parent)[:-1]

    def naming(self) -> bool:
        """Reads the declaration of a set, a `def`, a name of a number or a further header before one, if one is next, and says whether."""
        kind, (word, after) = self.token.text, self.tokens[self.at + 1 : self.at + 3] if self.at + 2 < len(self.tokens) else [self.token] * 2
        if word.kind != "name" or kind not in ("set", "def", "table", "pool", "ring", "port", "extend") or kind == "port" and after.text != "=":
            return False
        self.take()
        name = self.name()
        if kind == "set":
            self.want("=")
            self.want("{")
            self.sets[name] = self.at
            self.skip()
        elif kind == "def":
            self.want("(")
            self.functions[name] = self.each(")", self.name), self.at
            self.want("{")
            self.skip()
        elif kind == "extend":
            self.want("after")
            other = self.name()
            self.want("if")
            header = self.program.headers[name]
            self.program.headers[name] = replace(header, after={**header.after, other: self.condition()})
        else:
            self.want("=")
            self.constants[name] = Constant(self.constant())
        return True

    def skip(self) -> None:
        """Reads to the closing brace."""
        deep = 1
        while deep:
            deep += (self.token.text == "{") - (self.token.text == "}")
            if self.take().kind == "end":
                raise self.fault("'}' is wanted")

    def given(self) -> None:
        """What a ring declares; of what the program does, only the path says something."""
        self.program.is_for_ring = True
        if self.takes("headroom"):
            self.program.headroom = self.constant()
        elif self.takes("length"):
            self.program.length = self.constant()
        elif not self.takes("shared"):
            self.program.given = self.path()

    def header(self) -> Header:
        """A header."""
        header = Header(self.name(), {}, {})
        self.want("{")
        at = 0
        while not self.takes("}"):
            at += self.field(header, at)
        while self.clause(header):
            pass
        return header

    def field(self, header: Header, at: int) -> int:
        """A field of a header, which begins at this bit where nothing else is said. The bits that it takes."""
        name = self.word()
        is_alias = self.takes("@")
        begin = self.constant() if is_alias else at
        self.want(":")
        count = self.constant()
        default, is_needed = self.default()
        if count == 128:
            header.wide[name] = f"{name}_hi", f"{name}_lo"
            halves = (default.high, default.low) if isinstance(default, Wide) else (Constant(0), Constant(0))
            for number, half in enumerate(halves):
                header.fields[header.wide[name][number]] = Bits(begin + 64 * number, 64, known(half), is_alias, is_needed)
        else:
            header.fields[name] = Bits(begin, count, None if default is None else known(default), is_alias, is_needed)
        return 0 if is_alias else count

    def default(self) -> tuple[Number | None, bool]:
        """What a push writes where nothing is said, none if it is `auto`; and whether each push says it."""
        if not self.takes("="):
            return Constant(0), False
        if self.takes("need"):
            return Constant(0), True
        return None if self.takes("auto") else self.number(), False

    def clause(self, header: Header) -> bool:
        """Reads a clause of a header if one is next, and says whether."""
        if self.takes("after"):
            name = self.name()
            self.want("if")
            header.after[name] = self.condition()
        elif self.takes("length"):
            header.extent = self.extent()
        elif self.takes("next"):
            header.next = self.word()
        elif self.takes("sum"):
            header.sum = self.sum()
        else:
            return False
        return True

    def extent(self) -> Extent:
        """How a header says its length."""
        number = self.number()
        self.want("for")
        name = self.name()
        self.want(":")
        bits = self.constant()
        self.want("in")
        low = self.constant()
        self.want("..")
        return Extent(number, name, bits, range(low, self.constant() + 1))

    def sum(self) -> Sum:
        """What a checksum covers."""
        field, has_payload, over = self.word(), self.takes("payload"), []
        if self.takes("over"):
            # A field and the sign of an assignment are a statement.
            while self.token.kind == "name" and self.tokens[self.at + 1].text == "." and self.tokens[self.at + 3].text not in ("=", *ASSIGNMENTS):
                header = self.name()
                self.want(".")
                covered = self.field_of(header)
                over += [covered.high, covered.low] if isinstance(covered, Wide) else [covered]
        return Sum(field, has_payload, tuple(over), self.takes("optional"))

    # Statements

    def block(self) -> Block:
        """Statements in braces."""
        self.want("{")
        return self.each("}", self.statement)

    def block_or_statement(self) -> Block:
        """A block, or one statement."""
        return self.block() if self.token.text == "{" else [self.statement()]

    def otherwise(self) -> Block | None:
        """What is after `else`, or None."""
        return self.block_or_statement() if self.takes("else") else None

    def statement(self) -> Statement:
        """A statement."""
        line, following = self.token.line, self.tokens[min(self.at + 1, len(self.tokens) - 1)]
        read = STATEMENTS.get(self.token.text) if self.token.kind == "name" else None
        if read is None and self.token.text == "count" and following.kind == "name":
            self.take()
            statement: Statement = Count(self.name())
        elif read is None and self.token.text in self.functions and following.text == "(":
            statement = self.call()
        elif read is None:
            statement = self.assignment(False)
        else:
            self.take()
            statement = read(self)
        self.program.lines[id(statement)] = line
        return statement

    def call(self) -> Statement:
        """The statements of a `def`, whose names are its own."""
        parameters, begin = self.functions[self.take().text]
        self.want("(")
        values = self.each(")", self.number)
        if len(values) != len(parameters):
            raise self.fault(f"{len(parameters)} numbers are wanted before this")
        end, constants, suffix = self.at, self.constants, self.suffix
        self.inlined += 1
        self.at, self.constants, self.suffix = begin, dict(constants), f"'{self.inlined}"
        lets: Block = []
        for name, value in zip(parameters, values):
            if isinstance(value, Constant | Wide):
                self.constants[name] = value
            else:
                lets.append(Let(name + self.suffix, value))
        body = self.block()
        self.at, self.constants, self.suffix = end, constants, suffix
        return Inline([*lets, *body])

    def let(self) -> Statement:
        """A new variable."""
        name = self.name() + self.suffix
        self.want("=")
        if not self.takes("lookup"):
            return Let(name, self.number())
        table = self.constant()
        return Lookup(name, table, self.number(), self.otherwise())

    def assignment(self, mends: bool) -> Statement:
        """Another value for a variable or a field."""
        name = self.name()
        target = self.field_of(name) if self.takes(".") else Variable(name + self.suffix)
        if isinstance(target, Wide):
            self.want("=")
            value = self.number()
            if not isinstance(value, Wide):
                raise self.fault("an IPv6 address is wanted before this")
            return AssignWide(Assign(target.high, value.high, mends), Assign(target.low, value.low, mends))
        sign = self.take().text
        if sign == "=":
            return Assign(target, self.number(), mends)
        if sign not in ASSIGNMENTS:
            raise self.fault(f"an assignment to {name} is wanted before this")
        return Assign(target, Binary(ASSIGNMENTS[sign], target, self.number()), mends)

    def if_(self) -> Statement:
        """One of two blocks."""
        condition = self.condition()
        return If(condition, self.block(), self.otherwise())

    def while_(self) -> Statement:
        """A loop."""
        condition = self.condition()
        return While(condition, self.block())

    def drop(self) -> Statement:
        """The end of all packets; the text is a comment."""
        if self.token.kind == "string":
            self.take()
        return Drop()

    def packet_to(self) -> str | None:
        """The packet that is sent, if it is named before `to`."""
        if self.takes("this", "to"):
            return None
        if self.token.kind == "name" and self.tokens[self.at + 1].text == "to":
            name = self.name() + self.suffix
            self.want("to")
            return name
        return None

    def send(self) -> Statement:
        """A packet to a transmit list."""
        packet = self.packet_to()
        return Send(packet, self.number(), self.otherwise())

    def queue(self) -> Statement:
        """A packet to a ring."""
        packet = self.packet_to()
        return Queue(packet, self.constant(), self.otherwise())

    def from_pool(self) -> tuple[str, int, Block | None]:
        """A name, the pool, and the `else` part."""
        name = self.name() + self.suffix
        self.want("from")
        return name, self.constant(), self.otherwise()

    def chain(self) -> Statement:
        """A named packet before the packet."""
        name = self.name() + self.suffix
        self.want("before")
        self.want("this")
        return Chain(name)

    def pushed(self) -> Pushed:
        """A header and the fields that are given."""
        header = self.name()
        self.want("{")
        return Pushed(header, dict(field for fields in self.each("}", lambda: self.pushed_field(header)) for field in fields))

    def pushed_field(self, header: str) -> list[tuple[str, Number | None]]:
        """A field and its value; one of 128 bits is two."""
        name = self.word()
        self.want("=")
        value = None if self.takes("auto") else self.number()
        return [*zip(self.program.headers[header].wide[name], (value.high, value.low))] if isinstance(value, Wide) else [(name, value)]

    def push(self) -> Statement:
        """Headers that are put in front."""
        headers = [self.pushed()]
        while self.token.kind == "name" and self.tokens[self.at + 1].text == "{":
            headers.append(self.pushed())
        return Push(headers, self.name() + self.suffix if self.takes("on") else None)

    def packet_and_count(self) -> tuple[str | None, int]:
        """A packet, if one is named, and a number of bytes."""
        name = self.token.text
        if self.takes("this") or self.token.kind != "name" or name in self.constants:
            return None, self.constant()
        return self.name() + self.suffix, self.constant()


STATEMENTS: dict[str, Callable[[Reader], Statement]] = {
    "let": Reader.let,
    "mend": lambda reader: reader.assignment(True),
    "if": Reader.if_,
    "while": Reader.while_,
    "need": lambda reader: Need(reader.condition(), reader.otherwise()),
    "drop": Reader.drop,
    "send": Reader.send,
    "queue": Reader.queue,
    "clone": lambda reader: Clone(*reader.from_pool()),
    "new": lambda reader: New(*reader.from_pool()),
    "free": lambda reader: Free(reader.name() + reader.suffix),
    "chain": Reader.chain,
    "push": Reader.push,
    "pop": lambda reader: Pop(reader.path()),
    "cut": lambda reader: Cut(*reader.packet_and_count()),
    "truncate": lambda reader: Truncate(*reader.packet_and_count()),
}


def compared(sign: str, left: Number, right: Number) -> Condition:
    """A comparison; that of IPv6 addresses is one of each half."""
    if isinstance(left, Wide) and isinstance(right, Wide) and sign in ("==", "!="):
        return (Both if sign == "==" else Either)(Compare(sign, left.high, right.high), Compare(sign, left.low, right.low))
    if isinstance(left, Wide) or isinstance(right, Wide):
        raise Fault(f"{left} {sign} {right}")
    return Compare(sign, left, right)


def truth(found: Number | Condition) -> Condition:
    """A condition; a number is true if it is not 0."""
    return found if isinstance(found, CONDITIONS) else Truth(found)


def known(number: Number) -> int:
    """The value of a number that is made of constants."""
    if isinstance(number, Constant):
        return number.value
    if isinstance(number, Complement):
        return ~known(number.inner) & MASK
    if isinstance(number, Binary):
        return BINARY[number.operator](known(number.left), known(number.right))
    raise Fault(f"{number} is no constant")


@lru_cache
def headers_of(prelude: str) -> dict[str, Header]:
    """The headers that everybody knows."""
    return Reader(prelude, {}).read().headers


def read(text: str, prelude: str, folder: File | None = None) -> Program:
    """A program, with the headers that everybody knows, and perhaps with files of a folder."""
    return Reader(text, headers_of(prelude), folder).read()
