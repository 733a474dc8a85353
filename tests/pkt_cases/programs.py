"""Random programs of the language pkt: all statements, in most cases as the page allows them."""
import re
from collections.abc import Callable
from dataclasses import dataclass, field, replace
from random import Random

from pkt_model.reader import read
from pkt_model.syntax import Bits, Header

from .declarations import declared
from .numbers import NETS, SIXES, Numbers

INDENT = "    "
MAX_SEGMENTS = 64
# How deep blocks lie in one another.
DEPTH = 3


@dataclass(frozen=True)
class Setting:
    """What a program may name: the numbers of ports, pools and tables, and for each ring what it takes: any packet, one that is held alone,
    or one with an IPv4 header."""

    ports: int
    segments: int
    pools: int
    tables: int
    rings: tuple[str, ...]
    # The declarations of a ring's program, and whether its packets are shared.
    given: tuple[str, ...] = ()
    is_shared: bool = False


@dataclass
class State:
    """What is known at a place: the named packets, whether clones that are gone share the bytes, and how the packet changed."""

    held: dict[str, str] = field(default_factory=dict)
    is_lost: bool = False
    is_chained: bool = False
    segments: int = 1
    pushed: int = 0
    loops: int = 0

    def may_write(self) -> bool:
        """Whether no clone shares the bytes of the packet."""
        return not self.is_lost and "clone" not in self.held.values()

    def copy(self) -> "State":
        """The same, to be changed."""
        return replace(self, held=dict(self.held))


Lines = list[str]


def indented(lines: Lines) -> Lines:
    """Lines within braces."""
    return [INDENT + line for line in lines]


class Writer:
    """Makes a program."""

    def __init__(self, rng: Random, setting: Setting, headers: dict[str, Header], wild: bool) -> None:
        self.rng, self.setting, self.headers, self.wild = rng, setting, headers, wild
        self.own = [name for name in headers if name.startswith("mine")]
        self.numbers = Numbers(rng, headers)
        # Where a packet is quoted, checksums lie within what others cover.
        self.numbers.likely += ["icmp", "quoted", "inner"] if "quoted" in headers else []
        self.names = 0
        # The parameters of each `def`, and the names of tables, pools, rings and ports by their kind and number.
        self.functions: dict[str, int] = {}
        self.named_numbers: dict[tuple[str, int], str] = {}
        self.left = rng.choice((2, 3, 3, 4, 4, 5, 6, 8, 12, 30, 60) if rng.random() < 0.3 else (2, 3, 3, 4, 4, 5, 6, 8, 12))
        self.is_long = self.left > 12
        self.whiles = rng.choice((0, 0, 1, 1, 2))

    def chance(self, part: float) -> bool:
        """Whether something that happens so often happens now."""
        return self.rng.random() < part

    def name(self, kind: str) -> str:
        """A new name."""
        self.names += 1
        return f"{kind}{self.names}"

    def numbered(self, kind: str, number: int) -> str:
        """The number of a table, a pool, a ring or a port, or its name."""
        name = self.named_numbers.get((kind, number))
        return name if name and self.chance(0.7) else str(number)

    def pool(self) -> str:
        """A pool."""
        return self.numbered("pool", self.rng.randrange(self.setting.pools))

    def number(self, deep: int = 2) -> str:
        """A number."""
        return self.numbers.number(self.rng.randrange(deep + 1))

    def block(self, state: State, deep: int) -> tuple[Lines, bool]:
        """Some statements, and whether they end the program."""
        lines: Lines = []
        variables, held, ends = len(self.numbers.variables), set(state.held), False
        for _ in range(self.rng.choice((1, 1, 2, 3) if deep < DEPTH else (20, 40) if self.is_long else (2, 3, 4, 6))):
            if self.left <= 0:
                break
            self.left -= 1
            made, ends = self.statement(state, deep)
            lines += made
            if ends:
                break
        if not ends and (deep == DEPTH or self.chance(0.2)):
            lines, ends = lines + self.end(state), True
        del self.numbers.variables[variables:]
        for name in [name for name in state.held if name not in held]:
            del state.held[name]
        return lines or ["let " + self.name("v") + " = 1"], ends

    def statement(self, state: State, deep: int) -> tuple[Lines, bool]:
        """A statement that is allowed here, and whether the program ends with it."""
        while True:
            make, weight = self.rng.choice(MAKERS)
            if self.chance(weight):
                made = make(self, state, deep)
                if made is not None:
                    return (self.guarded(made[0]), False) if make in GUARDED else made

    def guarded(self, lines: Lines) -> Lines:
        """Statements, in most cases within an `if` that asks for their headers."""
        words = NAMES.split(" ".join(lines))
        needed = [name for name in self.headers if name in words and name not in self.numbers.likely]
        if not needed or self.chance(0.3):
            return lines
        return [f"if {' and '.join(needed)} {{", *indented(lines), "}"]

    def braces(self, head: str, state: State, deep: int) -> tuple[Lines, bool]:
        """A block in braces."""
        lines, ends = self.block(state, deep - 1)
        return [head + " {", *indented(lines), "}"], ends

    # Numbers and fields

    def let(self, _state: State, _deep: int) -> tuple[Lines, bool] | None:
        """A variable."""
        if len(self.numbers.variables) >= (6 if self.chance(0.05) else 3):
            return None
        name, number = self.name("v"), self.number()
        if "." in number and not self.numbers.likely and self.chance(0.5):
            number = f"eth.{self.rng.choice(list(self.headers['eth'].fields))}"
        self.numbers.variables.append(name)
        return [f"let {name} = {number}"], False

    def assign(self, _state: State, _deep: int) -> tuple[Lines, bool] | None:
        """Another value of a variable."""
        if not self.numbers.variables:
            return None
        name, sign = self.rng.choice(self.numbers.variables), self.rng.choice(("=", "+=", "-=", "&=", "|=", "^=", "*=", "<<=", ">>="))
        if sign in ("*=", "<<=", ">>="):
            return [f"{name} {sign} {self.rng.choice((2, 3, 5, 8, 16))}"], False
        return [f"{name} {sign} {self.number()}"], False

    def may_write(self, state: State) -> bool:
        """Whether a field of the packet may be written."""
        return (state.may_write() and not self.setting.is_shared) or self.wild

    def put(self, state: State, _deep: int) -> tuple[Lines, bool] | None:
        """Another value of a field."""
        if not self.may_write(state):
            return None
        wide = self.wide()
        if wide and self.chance(0.3):
            target = self.rng.choice(wide)
            return [f"{target} = {self.rng.choice((*SIXES, self.rng.choice(wide)))}"], False
        target = self.numbers.field()
        return [f"{target} {self.rng.choice(('=', '=', '=', '+=', '-=', '^='))} {self.value_for(target)}"], False

    def wide(self) -> list[str]:
        """The IPv6 addresses of headers that were looked for."""
        return [f"{name}.{it}" for name in self.numbers.likely for it in self.headers[name].wide]

    def value_for(self, target: str) -> str:
        """What a field is assigned."""
        return self.numbers.value_for(target) if self.chance(0.4) else self.numbers.fitting(target, self.number())

    def mend(self, state: State, _deep: int) -> tuple[Lines, bool] | None:
        """Another value of a field that a checksum covers."""
        fields, wide = self.covered(), self.wide()
        if not self.may_write(state) or not fields:
            return None
        if wide and self.chance(0.3):
            return [f"mend {self.rng.choice(wide)} = {self.rng.choice((*SIXES, self.rng.choice(wide)))}"], False
        likely = [it for it in fields if it.split(".")[0] in self.numbers.likely]
        if self.own and self.chance(0.4):
            likely = [it for it in fields if it.split(".")[0] in self.own] or likely
        target = self.rng.choice(likely if likely and self.chance(0.7) else fields)
        return [f"mend {target} {self.rng.choice(('=', '=', '+=', '-='))} {self.value_for(target)}"], False

    def mends(self, state: State, _deep: int) -> tuple[Lines, bool] | None:
        """Some `mend` of one header in a row, with another statement between them now and then."""
        if not self.may_write(state):
            return None
        fields = self.covered()
        name = self.rng.choice(self.rng.choice(([*self.numbers.likely, "ipv4"], ["ipv4", "ipv4", "ipv6", "udp", *self.own])))
        own = [it for it in fields if it.split(".")[0] == name]
        if not own:
            return None
        lines = [f"mend {it} {self.rng.choice(('=', '+=', '-='))} {self.value_for(it)}" for it in self.rng.choices(own, k=self.rng.choice((2, 2, 3)))]
        if self.chance(0.3):
            lines.insert(1, self.rng.choice((f"let {self.name('w')} = {self.numbers.field()}", f"{self.rng.choice(own)} = {self.value_for(own[0])}")))
        return lines, False

    def resized(self, state: State, _deep: int) -> tuple[Lines, bool] | None:
        """Another length of a header, after one that follows it was looked for, and before it is used again."""
        if not self.may_write(state):
            return None
        name = self.rng.choice(["ipv4", "ipv4", *(it for it in self.headers if self.headers[it].extent)])
        after = [it for it, header in self.headers.items() if name in header.after]
        field = self.rng.choice(("ihl", "ihl", "vhl", "version") if name == "ipv4" else list(self.headers[name].fields))
        change = f"{name}.{field} {self.rng.choice(('=', '=', '^=', '+='))} {self.value_for(f'{name}.{field}')}"
        first, then = (self.rng.choice(after or [name]) for _ in range(2))
        count = [f"if {then} {{", f"{INDENT}count {self.name('n')}", "}"]
        use = self.rng.choice([count, *([f"{then}.{it} += 1"] for it in list(self.headers[then].fields)[:2])])
        return [f"if {first} {{", *indented([change, *use]), "}"], False

    def tried(self, state: State, deep: int) -> tuple[Lines, bool] | None:
        """A packet that is sent with an `else` part, after which the program goes on."""
        if deep == 0 or self.left <= 0 or not self.chance(0.5):
            return None
        there = state.copy()
        head = self.end(state)[0]
        if head.startswith("drop"):
            return None
        state.is_lost = state.is_lost or "clone" in state.held.values()
        there.is_lost = state.is_lost
        lines, ends = self.braces(f"{head} else", there, deep)
        self.join(state, False, there, ends)
        return lines, ends

    def tunnel(self, state: State, _deep: int) -> tuple[Lines, bool] | None:
        """Headers that are put between the Ethernet header and the next one, as the page does it; what is kept lives across that."""
        if not self.may_write(state) or self.left <= 0:
            return None
        state.pushed += 60
        kept, field = self.name("v"), self.rng.choice(("ipv4.len", "ipv4.tos", "ipv4.src", "udp.dport", self.numbers.field()))
        self.numbers.variables.append(kept)
        inner = self.rng.choice(("ipv4", "ipv4", "vlan", "ipv6", "mpls", *self.own))
        lines = [f"let {kept} = {field}", self.rng.choice(("cut 14", "pop eth", "pop eth/vlan"))]
        lines.append(f"push eth {{ {self.pushed_fields('eth')} }} {inner} {{ {self.pushed_fields(inner)} }}".replace("{  }", "{ }"))
        return lines, False

    def lent(self, state: State, deep: int) -> tuple[Lines, bool] | None:
        """A clone that is there while headers are read, and gone before they are written."""
        if len(state.held) >= 5 or not self.may_write(state) or self.setting.pools < 2:
            return None
        name, read = self.name("c"), self.numbers.field()
        asked = [f"if {read} != 1 {{", f"{INDENT}count {self.name('n')}", "}"]
        write = self.mend(state, deep) or self.put(state, deep)
        return [f"clone {name} from {self.numbered('pool', 1)}", *asked, f"free {name}", *(write[0] if write else [])], False

    def covered(self) -> list[str]:
        """The fields that some checksum covers and that are one word of it or more."""
        over = {(it.header, it.name) for header in self.headers.values() if header.sum for it in header.sum.over}
        found = []
        for header in self.headers.values():
            for name, bits in header.fields.items():
                is_fit = bits.at // 16 == (bits.at + bits.count - 1) // 16 or bits.at % 16 == bits.count % 16 == 0
                is_sum = header.sum is not None and touches(bits, header.fields[header.sum.field])
                is_even = bits.at // 16 * 16 + 16 <= header.size * 8
                if is_fit and is_even and not is_sum and (header.sum is not None or (header.name, name) in over):
                    found.append(f"{header.name}.{name}")
        return found

    def lookup(self, state: State, deep: int) -> tuple[Lines, bool] | None:
        """The hop of an address."""
        if not self.setting.tables or len(self.numbers.variables) >= 4:
            return None
        name, table = self.name("hop"), self.rng.randrange(self.setting.tables)
        number = self.rng.choice(("ipv4.dst", "ipv4.src", self.number(1)))
        lines = self.with_else(f"let {name} = lookup {self.numbered('table', table)} {number}", state, deep)
        self.numbers.variables.append(name)
        return lines, False

    # Ways

    def with_else(self, head: str, state: State, deep: int, must_end: bool = True) -> Lines:
        """A statement, with or without an `else`, which ends the program if it must."""
        if self.chance(0.5):
            return [head]
        there = state.copy()
        if self.chance(0.7) or deep == 0 or self.left <= 0:
            return [f"{head} else {self.end(there)[0]}"]
        lines, ends = self.block(there, deep - 1)
        if not ends and (must_end or self.chance(0.5)):
            # The clones of the block are still there.
            there.is_lost = there.is_lost or any(line.startswith("clone ") for line in lines)
            lines += self.end(there)
        return [head + " else {", *indented(lines), "}"]

    def end(self, state: State) -> Lines:
        """A statement that ends the program."""
        kind, this = self.rng.random(), self.rng.choice(("", "", "this to "))
        if kind < 0.25:
            return [self.rng.choice(("drop", 'drop "why"'))]
        if kind < 0.3 and (ring := self.ring(state)) is not None:
            return [f"queue {this}{self.numbered('ring', ring)}"]
        return [f"send {this}{self.port()}"]

    def port(self) -> str:
        """The number of a port, most often of one that is there."""
        kind = self.rng.random()
        if kind < 0.5:
            return "port"
        return self.numbered("port", self.rng.randrange(self.setting.ports)) if kind < 0.85 else f"({self.numbers.field()} & 3)"

    def is_alone(self, state: State) -> bool:
        """Whether the packet shares no buffer, has one segment, and has the headroom that rings require. In a loop, later changes are not known."""
        is_whole = not state.loops and not state.is_chained and state.pushed <= 40 and self.setting.segments == 1
        return not self.setting.is_shared and state.may_write() and is_whole

    def ring(self, state: State) -> int | None:
        """A ring whose fact the packet satisfies."""
        fit = [k for k, takes in enumerate(self.setting.rings) if takes == "any" or takes == "alone" and self.is_alone(state)]
        return self.rng.choice(fit) if fit else None

    def to_ipv4_ring(self, state: State, _deep: int) -> tuple[Lines, bool] | None:
        """A packet with an IPv4 header goes to a ring that asks for one."""
        fit = [k for k, takes in enumerate(self.setting.rings) if takes == "ipv4"]
        if not fit or not self.is_alone(state):
            return None
        return ["if ipv4 {", f"{INDENT}queue {self.numbered('ring', self.rng.choice(fit))}", "}"], False

    def final(self, state: State, _deep: int) -> tuple[Lines, bool] | None:
        """The end of the program, or sending the packet with an `else` part."""
        if not self.chance(0.2):
            return None
        head = self.end(state)[0]
        if head.startswith("drop") or self.chance(0.7):
            return [head], True
        return [f"{head} else {self.end(state)[0]}"], True

    def if_(self, state: State, deep: int) -> tuple[Lines, bool] | None:
        """One of two blocks."""
        if deep == 0:
            return None
        condition = self.numbers.condition(2)
        before, likely = state.copy(), len(self.numbers.likely)
        self.numbers.likely += [name for name in self.headers if name in condition.replace(".", " ").replace("/", " ").split()]
        lines, ends = self.braces(f"if {condition}", state, deep)
        del self.numbers.likely[likely:]
        other_ends = False
        if self.chance(0.4):
            more, other_ends = self.braces(" else", before, deep)
            lines = [*lines[:-1], "}" + more[0], *more[1:]]
        self.join(state, ends, before, other_ends)
        return lines, ends and other_ends

    def join(self, state: State, ends: bool, other: State, other_ends: bool) -> None:
        """What is known after two ways."""
        if ends and not other_ends:
            state.__dict__.update(other.__dict__)
        elif not ends and not other_ends:
            state.is_lost, state.is_chained = state.is_lost or other.is_lost, state.is_chained or other.is_chained
            state.pushed, state.segments = max(state.pushed, other.pushed), max(state.segments, other.segments)

    def rules(self, state: State, _deep: int) -> tuple[Lines, bool] | None:
        """Some rules in a row about the same headers; between them now and then an assignment that changes what is found."""
        rng, headers = self.rng, [self.numbers.header() for _ in range(2)]
        lines: Lines = []
        for _ in range(rng.choice((2, 3, 4))):
            fields = [f"{name}.{rng.choice(list(self.headers[name].fields))}" for name in rng.sample(headers, 2)]
            tests = [self.numbers.compared(field, self.numbers.value_for(field)) for field in fields]
            body = rng.choice((self.end(state)[0], "let w = 1", f"count {self.name('n')}"))
            if self.may_write(state) and self.chance(0.3):
                target = rng.choice(("ipv4.proto", "ipv4.frag", "ipv4.ttl", "eth.type", fields[0]))
                body = f"{target} = {self.numbers.value_for(target)}"
            lines += [f"if {rng.choice((' and ', ' or ')).join(tests)} {{", INDENT + body, "}"]
        return lines, False

    def while_(self, state: State, deep: int) -> tuple[Lines, bool] | None:
        """A loop: over tags, with a counter, or any other."""
        if deep == 0 or self.whiles == 0 or state.loops:
            return None
        self.whiles -= 1
        there = state.copy()
        there.loops = 1
        kind = self.rng.random()
        if kind < 0.3 and self.may_write(state):
            tag = self.rng.choice([name for name, header in self.headers.items() if header.next] + ["mpls"])
            lines = [f"while {tag} {{", f"{INDENT}pop {tag}", "}"]
        elif kind < 0.8:
            name = self.name("i")
            bound = self.rng.choice((1, 2, 3, 5, 300))
            self.numbers.variables.append(name)
            lines, _ = self.braces(f"while {name} < {bound}", there, deep)
            lines = [f"let {name} = 0", *lines[:-1], f"{INDENT}{name} += 1", "}"] if not _ else [f"let {name} = 0", *lines]
        else:
            lines, _ = self.braces(f"while {self.numbers.condition(1)}", there, deep)
        state.is_lost, state.is_chained = state.is_lost or there.is_lost, state.is_chained or there.is_chained
        state.pushed = 1000 if there.pushed > state.pushed else state.pushed
        return lines, False

    def need(self, state: State, deep: int) -> tuple[Lines, bool] | None:
        """A `need`."""
        return self.with_else(f"need {self.numbers.condition(1)}", state, deep), False

    # Packets

    def clone(self, state: State, deep: int) -> tuple[Lines, bool] | None:
        """A clone, and most often a statement that uses it."""
        if len(state.held) >= 5:
            return None
        name = self.name("c")
        lines = self.with_else(f"clone {name} from {self.pool()}", state, deep)
        state.held[name] = "clone"
        if self.chance(0.7):
            lines += self.release(name, state)
        return lines, False

    def new(self, state: State, deep: int) -> tuple[Lines, bool] | None:
        """A new packet, and most often some headers on it and a statement that uses it."""
        if len(state.held) >= 5:
            return None
        name = self.name("n")
        lines = self.with_else(f"new {name} from {self.numbered('pool', 0)}", state, deep)
        state.held[name] = "new"
        if self.chance(0.7):
            lines += self.pushed(f" on {name}")
        if self.chance(0.7):
            lines += self.release(name, state)
        return lines, False

    def release(self, name: str, state: State) -> Lines:
        """A statement that uses a named packet."""
        kind, rng = state.held.pop(name), self.rng
        choice = rng.random()
        if choice < 0.2:
            return [f"free {name}"]
        segments = 2 * state.segments if kind == "clone" else state.segments + 1
        if choice < 0.55 and (not state.loops and segments <= MAX_SEGMENTS or self.wild):
            state.is_lost = state.is_lost or kind == "clone"
            state.is_chained, state.segments = True, segments
            return [f"chain {name} before this"]
        state.is_lost = state.is_lost or kind == "clone"
        ring = self.loose_ring() if choice < 0.65 else None
        head = f"queue {name} to {self.numbered('ring', ring)}" if ring is not None else f"send {name} to {self.port()}"
        if choice < 0.8:
            return [f"{head} else free {name}"]
        return [head] if choice < 0.95 else [f"{head} else {self.end(state)[0]}"]

    def loose_ring(self) -> int | None:
        """A ring that takes any packet."""
        fit = [k for k, takes in enumerate(self.setting.rings) if takes == "any"]
        return self.rng.choice(fit) if fit else None

    def release_held(self, state: State, deep: int) -> tuple[Lines, bool] | None:
        """A statement that uses a packet made before, in the outermost block."""
        if deep < DEPTH or not state.held:
            return None
        return self.release(self.rng.choice(list(state.held)), state), False

    def cut_named(self, state: State, _deep: int) -> tuple[Lines, bool] | None:
        """Fewer bytes of a named packet."""
        if not state.held or self.setting.segments > 1 and not self.wild:
            return None
        name = self.rng.choice(list(state.held))
        if state.is_chained and not self.wild:
            return [f"cut {name} {self.rng.choice((0, 1, 14, 34, 64))}"], False
        return [f"{self.rng.choice(('cut', 'truncate'))} {name} {self.rng.choice((1, 14, 34, 64, 200))}"], False

    # Bytes

    def pushed(self, on: str) -> Lines:
        """Headers that are pushed: such that follow one another, or any."""
        names = self.numbers.way_to(self.numbers.header()) if self.chance(0.6) else [self.numbers.header() for _ in range(self.rng.choice((1, 1, 2)))]
        texts = [f"{name} {{ {self.pushed_fields(name)} }}".replace("{  }", "{ }") for name in names[-3:]]
        return [f"push {' '.join(texts)}{on}"]

    def pushed_fields(self, name: str) -> str:
        """Some fields of a header that is pushed."""
        header = self.headers[name]
        names = [it for it, bits in header.fields.items() if (not bits.is_alias or self.chance(0.3)) and it != header.next]
        if name in self.own and self.chance(0.5):
            return f"{self.rng.choice(names)} = eth.{self.rng.choice(list(self.headers['eth'].fields))}" if names else ""
        part = self.rng.choice((0.2, 0.3, 0.7))
        chosen = [it for it, bits in header.fields.items() if bits.is_needed]
        names = [it for it in names if it not in chosen]
        for it in self.rng.sample(names, sum(1 for _ in names if self.chance(part))):
            if self.wild or not any(touches(header.fields[it], header.fields[other]) for other in chosen):
                chosen.append(it)
        return self.rng.choice((" ", ", ")).join(f"{it} = {self.pushed_value(header, it)}" for it in chosen)

    def pushed_value(self, header: Header, name: str) -> str:
        """The value of a field of a header that is pushed."""
        if header.sum is not None and header.sum.field == name and not header.sum.has_payload and not header.sum.over and self.chance(0.8):
            return "auto"
        field = f"{header.name}.{name}"
        return self.numbers.value_for(field) if self.chance(0.7) else self.numbers.fitting(field, self.numbers.number(1))

    def push(self, state: State, _deep: int) -> tuple[Lines, bool] | None:
        """Headers at the front, or a tag."""
        if not self.may_write(state):
            return None
        if state.held and self.chance(0.2) and (fresh := [name for name, kind in state.held.items() if kind == "new"]):
            return self.pushed(f" on {self.rng.choice(fresh)}"), False
        state.pushed += 60
        if self.chance(0.5):
            tag = self.rng.choice([name for name, header in self.headers.items() if header.next])
            return [f"push {tag} {{ {self.pushed_fields(tag)} }}".replace("{  }", "{ }")], False
        return self.pushed(""), False

    def push_own(self, state: State, _deep: int) -> tuple[Lines, bool] | None:
        """A header of the program's own at the front."""
        if not self.own or not self.may_write(state):
            return None
        state.pushed += 60
        name = self.rng.choice(self.own)
        return [f"push {name} {{ {self.pushed_fields(name)} }}".replace("{  }", "{ }")], False

    def pop(self, state: State, _deep: int) -> tuple[Lines, bool] | None:
        """Headers that are taken out."""
        if not self.may_write(state):
            return None
        name = self.numbers.header()
        way = self.numbers.way_to(name) if self.chance(0.4) else [name]
        if self.chance(0.5):
            return [f"if {'/'.join(way)} {{", f"{INDENT}pop {'/'.join(way)}", "}"], False
        return [f"pop {'/'.join(way)}"], False

    def cut(self, state: State, _deep: int) -> tuple[Lines, bool] | None:
        """Fewer bytes."""
        if self.chance(0.5):
            return [f"cut {self.rng.choice((1, 2, 4, 14, 14, 18, 34, 0))}"], False
        if (state.is_chained or self.setting.segments > 1) and not self.wild:
            return None
        return [f"truncate {self.rng.choice((0, 1, 14, 34, 38, 54, 64, 64, 100))}"], False

    # The whole

    def text(self) -> str:
        """A program."""
        lines = [*self.setting.given]
        if self.setting.ports != 1:
            lines.append(f"ports {self.setting.ports}")
        if self.setting.segments != 1:
            lines.append(f"segments {self.setting.segments}")
        lines += self.names_of_numbers() + self.named()
        for _ in range(self.rng.choice((0, 0, 0, 1, 2))):
            name = self.name("K")
            self.numbers.constants[name] = self.rng.getrandbits(16)
            lines.append(f"const {name} = {self.numbers.constants[name]}")
        if self.chance(0.6):
            lines.append(f"otherwise {self.otherwise()}")
        lines += [f"if {name} {{ }}" for name in self.headers if (name in self.own or name == "options6") and self.chance(0.4)]
        state = State(segments=self.setting.segments)
        made, _ = self.block(state, DEPTH)
        return "\n".join([*lines, *made]) + "\n"

    def named(self) -> Lines:
        """Sets, and `def` with statements that write no packet."""
        lines = []
        for _ in range(self.rng.choice((0, 0, 0, 1, 2))):
            name, field = self.name("S"), self.numbers.field()
            if self.numbers.width(field) == 32:
                items = [self.rng.choice((*NETS, "192.0.2.7", "10.0.0.0..10.255.255.255")) for _ in range(self.rng.choice((1, 2, 3)))]
            else:
                items = [self.numbers.item(field) for _ in range(self.rng.choice((1, 2, 3)))]
            lines.append(f"set {name} = {{{', '.join(items)}}}")
            self.numbers.sets.setdefault(self.numbers.width(field), []).append(name)
        for _ in range(self.rng.choice(FUNCTIONS)):
            lines += self.function()
        return lines

    def names_of_numbers(self) -> Lines:
        """Names of tables, pools, rings and ports."""
        lines = []
        counts = {"table": self.setting.tables, "pool": self.setting.pools, "ring": len(self.setting.rings), "port": self.setting.ports}
        for kind, number in [(kind, number) for kind, count in counts.items() for number in range(count)]:
            if self.chance(0.15):
                self.named_numbers[kind, number] = self.name(kind.upper())
                lines.append(f"{kind} {self.named_numbers[kind, number]} = {number}")
        return lines

    def function(self) -> Lines:
        """A `def` with up to three parameters: it calculates, counts, writes fields and checksums, or uses an earlier one."""
        name, field, count = self.name("f"), self.numbers.field(), self.rng.randrange(4)
        names = [self.name("a") for _ in range(count)]
        outer, self.numbers.variables = self.numbers.variables, list(names)
        body = [f"let c = {self.number()}", f"if {self.numbers.compared('c', self.number(1))} {{"]
        body += [f"{INDENT}count low{name} c ^= {(names or ['5'])[-1]}", "}"]
        self.numbers.variables.append("c")
        if not self.setting.is_shared:
            body += [f"if {field.split('.')[0]} {{", f"{INDENT}{field} += c", "}"] if self.chance(0.5) else []
            body += ["if ipv4 {", f"{INDENT}mend ipv4.src = {(names or ['c'])[0]} mend ipv4.dst += c", "}"] if self.chance(0.3) else []
        if self.functions and self.chance(0.4):
            body.append(self.use_of(self.rng.choice(list(self.functions))))
        self.numbers.variables = outer
        self.functions[name] = count
        return [f"def {name}({', '.join(names)}) {{", *indented(body), "}"]

    def use_of(self, name: str) -> str:
        """The statement that is the block of a `def`."""
        return f"{name}({', '.join(self.number(1) if self.chance(0.5) else self.numbers.simple() for _ in range(self.functions[name]))})"

    def call(self, state: State, _deep: int) -> tuple[Lines, bool] | None:
        """The statements of a `def`, or a counter."""
        if self.chance(0.2):
            return [f"count {self.name('n')}"], False
        if not self.functions or not state.may_write():
            return None
        return [self.use_of(self.rng.choice(list(self.functions)))], False

    def held(self, state: State, _deep: int) -> tuple[Lines, bool] | None:
        """So many variables that a push with many calculated fields has too few registers, unless they are calculated in turn."""
        if not self.may_write(state) or len(self.numbers.variables) > 3:
            return None
        likely = self.rng.sample(("eth.dst", "eth.src", "eth.type", "ipv4.src", "ipv4.len", self.numbers.field()), 6)
        fields = likely[: self.rng.randrange(2, 7 - len(self.numbers.variables))]
        names = [self.name("h") for _ in fields]
        lines = [f"let {name} = {field}" for name, field in zip(names, fields)]
        state.pushed += 60
        header = self.rng.choice(("ipv4", "ipv4", "tcp", "ipv6", "arp", *self.own))
        chosen = [it for it, bits in self.headers[header].fields.items() if not bits.is_alias and it not in ("sum", self.headers[header].next)]
        texts = []
        for it in chosen:
            sums = [f"({self.rng.choice(names)} {self.rng.choice('+-&|^')} {self.numbers.simple()})" for _ in range(3)]
            value = self.rng.choice((*sums, self.rng.choice(names), self.rng.choice(fields)))
            if self.headers[header].fields[it].is_needed or self.chance(0.8):
                texts.append(f"{it} = {value}")
        first = f"eth {{ dst = {names[-1]} src = {names[0]} }} " if self.chance(0.5) else ""
        lines.append(f"push {first}{header} {{ {' '.join(texts)} }}".replace("{  }", "{ }"))
        if self.chance(0.5):
            lines += [f"if eth.type == {names[0]} {{", f"{INDENT}count {self.name('n')}", "}"]
        return lines, False

    def retyped(self, state: State, _deep: int) -> tuple[Lines, bool] | None:
        """Two known headers at one place, since the field that says which one follows changed between two searches."""
        if not self.may_write(state):
            return None
        kinds = {"ipv4": "0x0800", "ipv6": "0x86dd", "arp": "0x0806", "vlan": "0x8100", "mpls": "0x8847", "qinq": "0x88a8"}
        one, other = ("ipv4", "ipv6") if self.chance(0.4) else self.rng.sample([*kinds], 2)
        over = self.rng.choice(("eth", "eth", "eth", "vlan"))
        inner = [f"{over}.type = {kinds[other]}", f"if {other} {{", *indented(self.changes_of(other))]
        if self.chance(0.4):
            inner += indented([f"if {self.rng.choice(('tcp', 'udp', 'l4', 'ipv4', 'vlan'))} {{", f"{INDENT}count {self.name('n')}", "}"])
        above = self.rng.choice((f" and {self.rng.choice(('tcp', 'udp'))}", "", ""))
        return [f"if {one}{above} {{", *indented([*inner, "}"]), "}"], False

    def changes_of(self, name: str) -> Lines:
        """Some assignments to a header in a row, most of them with checksums."""
        fields, wide, lines = self.covered(), list(self.headers[name].wide), Lines()
        likely = [it for it in fields if it.split(".")[0] == name] or fields
        for _ in range(self.rng.choice((1, 2, 2, 3))):
            target, word = self.rng.choice(likely), self.rng.choice(("mend ", "mend ", "mend ", ""))
            if wide and self.chance(0.2):
                lines.append(f"mend {name}.{self.rng.choice(wide)} = {self.rng.choice(SIXES)}")
            else:
                lines.append(f"{word}{target} {self.rng.choice(('=', '=', '+='))} {self.value_for(target)}")
        return lines

    def otherwise(self) -> str:
        """What `otherwise` does."""
        ring = self.loose_ring() if self.chance(0.15) else None
        if ring is not None:
            return f"queue {self.numbered('ring', ring)}"
        return self.rng.choice(("drop", "send port", "send port", "send port", f"send {self.numbered('port', self.rng.randrange(self.setting.ports))}"))


def touches(bits: Bits, other: Bits) -> bool:
    """Whether two fields have bits in common."""
    return bits.at < other.at + other.count and other.at < bits.at + bits.count


FUNCTIONS = (0, 0, 0, 0, 1, 2)
# What parts the words of a statement; and the makers of those that touch headers and make no name.
NAMES = re.compile(r"[^A-Za-z0-9_]+")
GUARDED = (Writer.assign, Writer.put, Writer.mend, Writer.mends, Writer.push, Writer.push_own, Writer.pop)
# The makers of statements, and how often each is chosen.
MAKERS: list[tuple[Callable[[Writer, State, int], tuple[Lines, bool] | None], float]] = [
    (Writer.let, 0.8),
    (Writer.assign, 0.5),
    (Writer.put, 0.9),
    (Writer.mend, 0.9),
    (Writer.lookup, 0.7),
    (Writer.final, 0.3),
    (Writer.to_ipv4_ring, 0.5),
    (Writer.if_, 1.0),
    (Writer.if_, 1.0),
    (Writer.rules, 0.5),
    (Writer.while_, 0.6),
    (Writer.need, 0.4),
    (Writer.clone, 0.5),
    (Writer.new, 0.4),
    (Writer.release_held, 0.5),
    (Writer.cut_named, 0.4),
    (Writer.push, 0.8),
    (Writer.call, 0.5),
    (Writer.push_own, 1.0),
    (Writer.push_own, 1.0),
    (Writer.pop, 0.8),
    (Writer.cut, 0.5),
    (Writer.mends, 0.5),
    (Writer.resized, 0.25),
    (Writer.tried, 0.5),
    (Writer.tunnel, 0.25),
    (Writer.lent, 0.25),
    (Writer.held, 0.12),
    (Writer.retyped, 0.25),
]


def program(rng: Random, setting: Setting, prelude: str, wild: bool) -> str:
    """A program; a wild one writes what the page does not allow now and then."""
    own = declared(rng, prelude)
    return own + Writer(rng, setting, read(own, prelude).headers, wild).text()
