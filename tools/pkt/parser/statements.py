"""Reads statements: blocks, `else` parts, calls of a `def`, pushed headers, assignments, and all others by the table of their syntax."""
from collections.abc import Callable

from ..cures import ALONE, CURES, INSTRUCTIONS, LOOKUP, NODE_PROGRAM, cure_of, meant
from ..lexer import RESERVED, require_word
from ..syntax import (
    PORT, PRIME, THIS, Assign, Block, Clone, Count, Drop, Field, Found, If, Inline, Length, Let, Lookup, Mend, Name, Need, New, Node, Number, Place, Pushed,
    SourceError, Wide, goes_on, require,
)
from ..values import require_leaves
from .expressions import Expressions
from .grammar import ASSIGNMENTS, BRACED, DECLARING, MAX_ITEMS, MAX_STATEMENTS, NO_STATEMENTS, NUMBERS, STATEMENTS, WORDS
from .nodes import added, as_number, as_wide


class Statements(Expressions):
    """Reads statements, and counts them."""

    def packet(self) -> str:
        """The name of a new packet."""
        return self.name("a packet", cure="clone c from 1: the new packet has a name of its own").word + self.suffix

    def packet_held(self) -> str:
        """A packet that exists."""
        is_freed = self.words[self.next - 1][1].word == "free"
        at = self.name("a packet", cure="drop, which drops all packets" if is_freed else "the name is that of a packet that clone or new made")
        cure = ALONE if self.sees("{") else f"`clone {at.word} from 0` or `new {at.word} from 0` makes one, to the end of its block"
        require(self.names.get(at.word) == "a packet", at, f"there is no packet {at.word} here", cure)
        return at.word + self.suffix

    def packet_to(self) -> str:
        """The packet named before `to`, or the packet of the program."""
        if self.place(1).word != "to":
            return THIS
        packet = THIS if self.may(THIS) else self.packet_held()
        self.take("to")
        return packet

    def packet_first(self) -> str:
        """A packet named before a count, or the packet of the program."""
        word = self.place().word
        is_number = word in self.constants or word in self.headers or self.names.get(word) == "a variable" or word in RESERVED
        return self.packet_held() if not self.may(THIS) and self.kind == "name" and not is_number else THIS

    def packet_on(self) -> str:
        """The packet named after `on`, or the packet of the program."""
        return self.packet_held() if self.may("on") else THIS

    def block(self, may_be_one: bool = False) -> Block:
        """Statements in braces, or one after `else`."""
        outside, found = dict(self.names), list[Node]()
        if may_be_one and not self.sees("{"):
            found = [*self.statement()]
        else:
            self.take("{")
            with self.nested("blocks"):
                while not self.may("}"):
                    found += self.statement(tuple(found[-2:]))
            self.below = None
        self.ended |= {word for word, what in self.names.items() if what == "a variable" and word not in outside}
        self.names = outside
        return tuple(found)

    def fallback(self) -> Block | None:
        """An `else` part. The next statement does not stand below one without braces in a later line."""
        before = self.place()
        if not self.may("else"):
            return None
        at, is_one = self.place(), not self.sees("{")
        self.refuse_left(before, at)
        body = self.block(may_be_one=True)
        self.below = (before, self.margin(at)) if is_one and at.line > before.line else None
        return body

    def refuse_left(self, before: Place, at: Place) -> None:
        """Refuses a statement without braces in a line after its `else` that stands further to the right neither than that line nor than the line
        where the statement begins to which the `else` belongs."""
        is_left = all(self.margin(it).startswith(self.margin(at)) for it in (before, self.begun))
        is_below = not self.sees("{") and self.kind != "end" and at.line > before.line
        fault = f"this belongs to the `else` in {self.rows[before.line].place}, and does not stand further to the right"
        require(not is_below or not is_left, at, fault, f"write it in the line of `else`, or within braces: {BRACED}")

    def margin(self, at: Place) -> str:
        """The blanks at the begin of a word's line."""
        text = self.rows[at.line].text
        return text[: len(text) - len(text.lstrip())]

    def refuse_below(self, at: Place) -> None:
        """Refuses a statement that stands below one that alone belongs to an `else`."""
        if self.below is not None:
            before, margin = self.below
            is_first = not self.rows[at.line].text[: at.column - 1].strip()
            is_beside = is_first and at.line > before.line and self.margin(at).startswith(margin)
            fault = f"this does not belong to the `else` in {self.rows[before.line].place}, and stands below what does"
            require(not is_beside, at, fault, f"the `else` has one statement, or several within braces: {BRACED}")
        self.below = None

    def other_block(self) -> Block:
        """An `else` part, which may be absent. The `if` after an `else`, and the one after its `else`, are read one after another."""
        found = list[tuple[Place, Node, Block]]()
        while self.sees("else") and self.place(1).word == "if":
            self.take()
            at = self.begun = self.take()
            condition = self.condition()
            self.refuse_unknown()
            require(len(found) <= MAX_ITEMS, at, f"more than {MAX_ITEMS:,} `else if`: each takes an instruction", "a table: let x = lookup ..")
            found.append((at, condition, self.block()))
        rest = self.fallback() or ()
        for at, condition, body in reversed(found):
            rest = (If(at, condition, body, rest),)
        return rest

    def statement(self, before: Block = ()) -> Block:
        """A statement: its first word gives its kind, and the table the syntax after it. An assignment to an IPv6 address is two."""
        at, outside = self.place(), self.begun
        self.refuse_below(at)
        self.begun = at
        self.statements += 1
        require(self.statements <= MAX_STATEMENTS, at, f"more than {MAX_STATEMENTS:,} statements", "a program has at most 1,024 instructions")
        if self.starts("count"):
            self.take()
            all_of: Block = (Count(at, self.name("a counter", cure=CURES["count"]).word),)
        elif self.kind == "name" and at.word in self.functions and self.place(1).word == "(":
            all_of = (self.call(at),)
        elif self.kind == "name" and self.sees(*STATEMENTS):
            kind, slots = STATEMENTS[self.take().word]
            all_of = (self.let(at) if kind is Let else kind(at, *self.slots(slots)),)
        else:
            all_of = self.assignment(at, self.kind == "name" and self.may("mend"))
        it = all_of[-1]
        if isinstance(it, Drop) and self.kind == "string":
            self.take()
        self.refuse_unknown()
        cure = "delete it, move it up, or end the block before it with }" if self.depth else "delete it, or move it up"
        if [type(part) for part in before] == [Need, Drop] and before[0].at.line == before[1].at.line:
            cure = "`need c` drops by itself what is otherwise; `need c else drop` says it"
        require(goes_on(before), at, "control never comes here: the statement before it ends the program", cure)
        if isinstance(it, (Lookup, Need, Clone, New)) and it.fallback is not None:
            require(not goes_on(it.fallback), at, "what is after this `else` has to end the program",
                    "end it with drop or send, in braces if it is more than that: else { count web drop }")
        if isinstance(it, (Let, Lookup, Clone, New)):
            self.declare(at, it.name.split(PRIME)[0], "a variable" if isinstance(it, (Let, Lookup)) else "a packet")
        self.begun = outside
        return all_of

    def comma_before(self, end: str) -> None:
        """The comma between two items of a list, or the end of it, which is not taken."""
        if not self.sees(end):
            self.take(",", f"a comma is between two of them, and {end} after the last one")
            require(not self.sees(end), self.place(), f"one more is expected here, and this is {end!r}", "leave the comma before it out")

    def call(self, at: Place) -> Inline:
        """The statements of a `def`, with numbers for its parameters: constants, and variables of their own for all others."""
        name, values = self.take().word, list[Node]()
        function = self.functions[name]
        self.take("(")
        while not self.may(")"):
            values.append(self.operation(NUMBERS))
            self.comma_before(")")
        self.refuse_unknown()
        wanted = ", ".join(function.parameters)
        require(len(values) == len(function.parameters), at, f"{name}({wanted}) has {len(function.parameters)} numbers, and here are {len(values)}",
                "each use has a number for each parameter")
        require(name not in self.active, at, f"{name} is used in itself", "`while` repeats statements")
        outside = self.next, self.names, self.constants, self.suffix
        self.inlined += 1
        self.constants = {word: value for word, value in self.constants.items() if self.names[word] != "a parameter"}
        self.names = {word: what for word, what in self.names.items() if what not in ("a variable", "a packet", "a parameter") or word == PORT}
        self.suffix, lets = f"{PRIME}{self.inlined}", list[Node]()
        for word, value in zip(function.parameters, values):
            is_constant = isinstance(value, Number) or isinstance(value, Wide) and isinstance(value.high, Number)
            require(word not in self.names, at, f"{word} is {self.names.get(word)}, and a parameter of {name}", "take another name for one of them")
            self.names[word] = "a parameter" if is_constant else "a variable"
            if is_constant:
                self.constants[word] = value  # type: ignore[assignment]
            else:
                lets.append(Let(value.at, word + self.suffix, as_number(value)))
        self.active.append(name)
        self.used.add(name)
        self.next = function.begin
        body = self.block()
        self.active.pop()
        self.next, self.names, self.constants, self.suffix = outside
        return Inline(at, (*lets, *body))

    def kept(self) -> int:
        """How many bytes `truncate` keeps."""
        at = self.place()
        if not isinstance(self.number_ahead(), Number):
            cure = "if ipv4.len <= 100 { truncate 114 } else .. for the lengths that matter"
            raise SourceError(at, "`truncate` keeps a constant number of bytes: no instruction has a length in a register", cure)
        return self.limited("length")

    def number_ahead(self) -> Node:
        """The number that is next, which is not taken."""
        begin = self.next
        number = self.number()
        self.next, self.unknown = begin, []
        return number

    def slots(self, slots: str) -> list[object]:
        """The parts after the first word of a statement; a word in quotes has no value."""
        found: list[object] = []
        for slot in slots.split():
            if slot[0] == "'":
                self.take(slot[1:])
            else:
                found.append(SLOTS[slot](self) if slot in SLOTS else self.limited(slot))
                self.refuse_unknown()
        return found

    def let(self, at: Place) -> Node:
        """A variable, for a number or what a table has."""
        at_name = self.name("a variable")
        name = at_name.word + self.suffix
        typed = f"a variable has no type: let {self.place().word} = 0" if self.kind == "name" and self.place().line == at.line else f"let {at_name.word} = 0"
        self.take("=", "a field is assigned without let: ipv4.ttl = 64" if self.sees(".") else typed)
        if self.may("lookup"):
            is_call = self.sees("(") and self.place(2).word == ","
            require(not is_call, self.place(), "the table is expected here, and this is '('", LOOKUP)
            self.looked_up, outside = name, self.looked_up
            found = Lookup(at, name, *self.slots("table key fallback"))
            self.looked_up = outside
            return found
        return Let(at, name, self.number())

    def key(self) -> Node:
        """The number that is looked for in a table."""
        number = self.operation(NUMBERS)
        cure = "lookup ROUTES ipv6.dst_hi >> 32 looks for the first 32; if ipv6.dst in 2001:db8::/32 { .. } else if .. has a case for each prefix"
        require(not isinstance(number, Wide), number.at, "a table has addresses of 32 bits, and this one has 128", cure)
        bits = self.span_of(number).bits if isinstance(number, Field) and not number.name.endswith("_lo") else 32
        cure = "number & 0xffffffff is its last 32 bits, and number >> 32 are the first ones"
        require(bits <= 32, number.at, f"a table has addresses of 32 bits, and this has {bits}", cure)
        return as_number(number)

    def pushed(self) -> tuple[Pushed, ...]:
        """Pushed headers, with their fields."""
        found = [self.pushed_header()]
        while self.sees_header("{") or self.place(1).word == "{" and self.names_nothing(self.place()) and self.place().word not in CURES:
            found.append(self.pushed_header())
        return tuple(found)

    def pushed_header(self) -> Pushed:
        """One pushed header, with its fields."""
        header, values = self.header_name(), dict[str, Node | None]()
        self.take("{", f"the fields are within braces: push {header.word} {{ {next(iter(self.headers[header.word].fields))} = 1 }}")
        while not self.may("}"):
            at, name = self.place(), self.field_name(header.word)
            require(name not in values, at, f"{name} is given twice", "one of them is enough")
            self.take("=")
            if name in self.headers[header.word].wide:
                value = as_wide(self.operation(NUMBERS))
                values |= dict(zip(self.headers[header.word].wide[name], (value.high, value.low)))
            else:
                values[name] = None if self.may("auto") else self.number()
                self.require_fits(Field(at, header.word, name), values[name] or Length(at))
            self.may(",")
        self.check_pushed(header, values)
        return Pushed(header, header.word, tuple(values.items()))

    def check_pushed(self, at: Place, values: dict[str, Node | None]) -> None:
        """Refuses a pushed header without a field that it needs, or with a checksum that `auto` is not."""
        header = self.headers[at.word]
        for name in header.needed:
            require(name in values, at, f"{at.word}.{name} is not named, and would be 0", f"name it with its number, as in {name} = 100")
        automatic = [name for name, value in (header.defaults | values).items() if value is None]
        require(len(automatic) < 2, at, f"{' and '.join(automatic)} are both `auto`, and each would count the other", "give one of them a value")
        for name in automatic:
            fault = f"{at.word}.{name} is no 16-bit word of the header, and `auto` is a checksum"
            require(header.fields[name].is_word, at, fault, f"{name} = 0, or another number")
        is_plain = header.sum not in automatic or not (header.payload or header.over)
        cure = f"{header.sum} = 0 where that means that there is none" if header.optional else "push the header, and assign the checksum"
        require(is_plain, at, f"{at.word}.{header.sum} covers more than the header, and `auto` is of the header alone", cure)

    def cure_of_statement(self, first: Place) -> str:
        """The cure for a name that was taken and begins no statement."""
        before = self.words[self.next - 2][1]
        if before.word == "drop" and before.line == first.line and first.word not in CURES:
            return 'a reason is within double quotes: drop "why"'
        if first.word in INSTRUCTIONS:
            return NODE_PROGRAM
        near = meant(first.word, [*STATEMENTS, *DECLARING, *WORDS, "port", *self.functions, *self.names, "mend", "count"], 2)
        other = f"statements begin with {', '.join(STATEMENTS)}, mend, count, or are assignments"
        by_sign = {":": f"write {first.word} = ..", "(": f"def {first.word}() {{ .. }}, before it, gives a block this name"}
        declared = f"as in {WORDS[first.word]}" if first.word in WORDS else ""
        return cure_of(first.word, RESERVED) or declared or f"{f'did you mean {near}? ' if near else ''}{by_sign.get(self.place().word, other)}"

    def cure_of_target(self, first: Place, target: Node) -> str:
        """The cure for what was taken and cannot be assigned to."""
        if not isinstance(target, Found):
            return f"let y = {first.word} makes a variable"
        if self.sees(*ASSIGNMENTS):
            return f"its fields can: {', '.join(self.headers[first.word].fields)}"
        return "write `else if`" if self.words[self.next - 2][1].word == "else" else CURES["rule"]

    def assignment(self, at: Place, mends: bool) -> Block:
        """An assignment to a variable or field."""
        first, fault = self.place(), f"no statement begins with {self.place().word!r}"
        is_name = self.kind == "name" and first.word not in RESERVED - {PORT}
        cure = "mend ipv4.ttl = 64" if mends else NO_STATEMENTS.get(first.word, "a declaration is outside of all blocks")
        require(first.word not in NO_STATEMENTS and not self.declares(), first, fault, cure)
        require_word(is_name, first, f"a field is expected here, and {first.word!r} is none" if mends else fault, self.kind)
        target = self.operand()
        is_assigned = not isinstance(target, Name) or self.sees(*ASSIGNMENTS, "-", "+")
        require(is_assigned, first, fault, self.cure_of_statement(first))
        kind = Mend if mends else Assign
        if isinstance(target, Wide) and isinstance(target.high, Field):
            self.take("=", "an IPv6 address is assigned whole, by =; its halves are numbers, as ipv6.src_lo")
            value = as_wide(self.operation(NUMBERS))
            return kind(at, target.high, value.high), kind(at, target.low, value.low)
        if not isinstance(target, Field) and (mends or not isinstance(target, Name)):
            cure = "mend ipv4.ttl = 64" if mends else self.cure_of_target(first, target)
            raise SourceError(first, "`mend` assigns to a field" if mends else f"{first.word} cannot be assigned to", cure)
        sign = self.place()
        cure = f"{'mend ' if mends else ''}{f'{target.header}.{target.name}' if isinstance(target, Field) else first.word} = 1"
        cure = CURES[sign.word] if sign.word in ("+", "-", "set") else cure
        require(sign.word in ASSIGNMENTS, sign, f"an assignment is expected here, and this is {sign.word!r}", cure)
        self.take()
        value = self.number()
        require(target != Name(at, PORT), at, "port is where the packet came from, and is not assigned to", "let x = port")
        if sign.word != "&=":
            self.require_fits(target, value)
        require_leaves(sign.word[:-1], target, value, self.headers)
        return (kind(at, target, value if sign.word == "=" else added(sign.word[:-1], target, value)),)

    def declares(self) -> bool:
        """Whether a declaration is next."""
        is_port = self.sees("port") and self.words[min(self.next + 1, len(self.words) - 1)][0] == "name" and self.place(2).word == "="
        return self.sees(*DECLARING) or self.starts(*WORDS) or is_port


# What reads the parts of a statement; those that are missing are constants within limits.
SLOTS: dict[str, Callable[[Statements], object]] = {
    "condition": Statements.condition, "block": Statements.block, "other_block": Statements.other_block, "fallback": Statements.fallback,
    "number": Statements.number, "packet": Statements.packet, "packet_to": Statements.packet_to, "packet_held": Statements.packet_held,
    "packet_on": Statements.packet_on, "packet_first": Statements.packet_first, "pushed": Statements.pushed, "path": Statements.path,
    "kept": Statements.kept, "key": Statements.key,
}  # fmt: skip
