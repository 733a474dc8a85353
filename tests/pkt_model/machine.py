"""What a program of the language pkt does with a packet: docs/users/pkt.md, rule by rule. Buffers, pools, rings and lists are those of tests/model.

It knows no instructions and no registers: headers are looked for when they are touched, and each statement does what the page says. A run goes
statement by statement, and `stack` says where control is. So tools/pkt/prove runs it too, on packets whose bytes are not known: it has numbers,
segments and a world of its own, and replaces the methods under `What a run asks of its packets and of the world`.
"""
from collections.abc import Callable, Iterable, Iterator
from operator import index

from model.machine import BACKWARD, HEADROOM, Buffer, Env, Packet, Segment, World, hop_for

from .arithmetic import BINARY, COMPARE, MASK, folded
from .fields import asked_of, bits_at, fields_in, followers, put_bits, words_of, written
from .syntax import (
    Arrival, Assign, AssignWide, Binary, Block, Both, Chain, Clone, Complement, Condition, Constant, Count, Cut, Drop, Either, Field, Free, Header, If, Inline,
    Length, Let, Lookup, Need, Negated, New, Number, Pop, Present, Program, Push, Pushed, Queue, Send, Sum, Truncate, Truth, Variable, While,
)

# A packet with IPv4 options and less tailroom than this may be dropped once that header was found.
OPTIONS_ROOM = 36
# The key of the number of the port or ring among the variables; no variable has this name.
PORT = "port"


class Ended(Exception):
    """The end of a statement that goes on elsewhere: the stack says where."""


class Open(Exception):
    """The page leaves the outcome of this packet open."""


class Source:
    """A program, and the tables that are computed from it once."""

    def __init__(self, program: Program) -> None:
        self.program = program
        self.followers = followers(program.headers)
        self.order = {name: number for number, name in enumerate(program.headers)}
        self.touched: dict[int, list[str]] = {}
        # The statements that ran, by identity.
        self.reached: set[int] = set()

    def reaches(self, line: int) -> bool:
        """Whether a statement that begins in this line, from 1, ran."""
        return any(self.program.lines.get(statement) == line for statement in self.reached)

    def headers_in(self, part: Number | Condition) -> list[str]:
        """The headers of the fields of a part of the text, in order of declaration."""
        if id(part) not in self.touched:
            self.touched[id(part)] = self.sorted(field.header for field in fields_in(part))
        return self.touched[id(part)]

    def sorted(self, headers: Iterable[str]) -> list[str]:
        """Headers in order of declaration, each once."""
        return sorted(set(headers), key=self.order.__getitem__)


class Asked:
    """What a run asks of its packets and of the world."""

    def __init__(self, world: World, source: Source, packet: Packet, number: int) -> None:
        self.world, self.source, self.program = world, source, source.program
        self.known = self.program.headers
        self.this: Packet | None = packet
        self.named: dict[str, Packet] = {}
        self.variables = {PORT: number}

    def packet(self, name: str | None) -> Packet:
        """A packet that is held."""
        packet = self.this if name is None else self.named[name]
        assert packet is not None
        return packet

    @property
    def first(self) -> Segment:
        """The first segment of the packet."""
        return self.packet(None)[0]

    def length(self, segment: Segment) -> int:
        """How many bytes a segment has."""
        return len(segment.data)

    def bits(self, at: int, count: int) -> int:
        """The number that these bits of the first segment spell."""
        return bits_at(self.first.data, at, count)

    def put_bits(self, at: int, count: int, value: int) -> None:
        """Gives bits of the first segment the lowest ones of a value."""
        put_bits(self.first.data, at, count, value)

    def insert(self, segment: Segment, at: int, data: list[int]) -> bool:
        """Puts bytes into a segment. Returns whether there was room before its bytes."""
        if segment.head < len(data):
            return False
        segment.head -= len(data)
        segment.data[at:at] = bytes(data)
        return True

    def remove(self, segment: Segment, begin: int, end: int) -> None:
        """Takes bytes out of a segment."""
        segment.head += end - begin
        del segment.data[begin:end]

    def keep(self, segment: Segment, count: int) -> None:
        """Cuts all after the first bytes of a segment."""
        segment.tail += max(0, len(segment.data) - count)
        del segment.data[count:]

    def has_options(self, name: str, end: int | None) -> None:
        """A header was found, which ends there: with options it needs room."""
        if end not in (None, self.found[name] + self.known[name].size) and self.packet(None)[-1].tail < OPTIONS_ROOM:
            raise Open

    def is_shared(self) -> bool:
        """Whether a clone has the bytes of the packet too."""
        return self.first.buffer.refs > 1

    def takes(self, pool: int, number: int) -> bool:
        """Whether the program gets this number of buffers."""
        return self.world.takes(pool, number)

    def cloned(self, _name: str, pool: int) -> Packet:
        """A clone of the packet."""
        packet = self.packet(None)
        for segment in packet:
            segment.buffer.refs += 1
        return [Segment(s.head, bytearray(s.data), s.tail, s.buffer, pool) for s in packet]

    def new(self, _name: str, pool: int) -> Packet:
        """An empty packet."""
        return [Segment(HEADROOM, bytearray(), self.world.env.pools[pool].room - HEADROOM, Buffer(pool))]

    def let_go(self, name: str) -> None:
        """Drops a named packet, if it is held."""
        if name in self.named:
            self.world.give_up(self.named.pop(name))

    def hop(self, table: int, address: int) -> int | None:
        """The hop that a table has for an address."""
        return hop_for(self.world.env.tables[table], address)

    def is_full(self, kind: str, packet: Packet, to: int) -> bool:
        """Appends a packet to a transmit list (`tx`) or a ring (`enq`), which is full with one packet fewer than its size. Returns whether it was full."""
        world = self.world
        packets, size = (world.lists[to], world.env.ports[to].queue) if kind == "tx" else (world.rings[to], world.env.rings[to].count)
        if len(packets) >= size - 1:
            return True
        packets.append(packet)
        return False


class Headers(Asked):
    """The answers of the search: which headers were found, where, and after which; and which are not there. Numbers and conditions need it."""

    def forget(self) -> None:
        """No header has been looked for."""
        self.found: dict[str, int] = {}
        self.before: dict[str, str] = {}
        self.absent: set[str] = set()

    def give_headers(self) -> None:
        """Takes the headers that the ring gives as found."""
        place: int | None = 0
        for name in self.program.given:
            self.found[name] = place or 0
            place = self.end_of(name)

    def finds(self, name: str) -> bool:
        """Looks for a header: whether it is there."""
        if name in self.found or name in self.absent:
            return name in self.found
        place = self.place_of(name)
        if place is None or self.length(self.first) < place + self.known[name].size:
            self.absent.add(name)
            return False
        self.found[name] = place
        self.absent -= self.source.followers[name]
        self.is_found(name)
        return True

    def is_found(self, name: str) -> None:
        """A header was found."""
        self.has_options(name, self.end_of(name))

    def ask_anew(self) -> None:
        """Headers after IPv4 options may be looked for again here; if that makes a difference, the outcome is open."""
        kept = self.found, self.before, self.absent
        self.forget()
        if any(self.finds(name) != (name in kept[0]) or self.found.get(name) != kept[0].get(name) for name in [*kept[0], *kept[2]]):
            raise Open
        self.found, self.before, self.absent = kept

    def finds_all(self, names: Iterable[str]) -> bool:
        """Looks for headers until one is not there."""
        return all(self.finds(name) for name in names)

    def place_of(self, name: str) -> int | None:
        """Where a header begins, if it may be there."""
        if not self.known[name].after:
            return 0
        before = self.preceding(name)
        if before is None or not self.holds(self.known[name].after[before]):
            return None
        self.before[name] = before
        end = self.end_of(before)
        self.has_options(before, end)
        return end

    def preceding(self, name: str) -> str | None:
        """The header that another follows: the one that is found and begins last, or the first that its clauses name and that is present."""
        after = list(self.known[name].after)
        last = max((it for it in after if it in self.found), key=self.found.__getitem__, default=None)
        return last or next((it for it in after if self.finds(it)), None)

    def all_before(self, name: str) -> Iterator[str]:
        """The headers before one that is found, the nearest first."""
        while name in self.before:
            name = self.before[name]
            yield name

    def end_of(self, name: str) -> int | None:
        """The end of a header that was found; none if its first bits give no length."""
        header, place = self.known[name], self.found[name]
        if header.extent is None:
            return place + header.size
        value, values = self.bits(8 * place, header.extent.bits), header.extent.values
        if value < values[0] or value > values[-1]:
            return None
        return place + self.number(header.extent.number, {header.extent.name: index(value)})

    def place(self, field: Field) -> tuple[int, int]:
        """The first bit of a field of a header that is found, and how many it has."""
        bits = self.known[field.header].fields[field.name]
        return 8 * self.found[field.header] + bits.at, bits.count

    def get(self, field: Field) -> int:
        """The value of a field."""
        return self.bits(*self.place(field))

    def put(self, field: Field, value: int) -> None:
        """Gives a field the lowest bits of a value."""
        self.put_bits(*self.place(field), value)

    def number(self, it: Number, variables: dict[str, int]) -> int:
        """The value of a number whose headers are all found."""
        if isinstance(it, Constant):
            return it.value
        if isinstance(it, Field):
            return self.get(it)
        if isinstance(it, Binary):
            return BINARY[it.operator](self.number(it.left, variables), self.number(it.right, variables))
        if isinstance(it, Complement):
            return ~self.number(it.inner, variables) & MASK
        if isinstance(it, Length):
            return self.length(self.first)
        return variables[it.name if isinstance(it, Variable) else PORT]

    def holds(self, it: Condition) -> bool:
        """Whether a condition holds."""
        if isinstance(it, Both):
            return self.holds(it.left) and self.holds(it.right)
        if isinstance(it, Either):
            return self.holds(it.left) or self.holds(it.right)
        if isinstance(it, Negated):
            return not self.holds(it.inner)
        if isinstance(it, Present):
            return self.finds_all(it.path)
        if not self.finds_all(self.source.headers_in(it)):
            return False
        if isinstance(it, Truth):
            return self.number(it.number, self.variables) != 0
        return COMPARE[it.operator](self.number(it.left, self.variables), self.number(it.right, self.variables))


class SourceRun(Headers):
    """A program that runs on one packet. Each `do_` is a statement. `stack` has the blocks that control is in, each with its next statement; and
    loops, with 0 before their condition and 1 after their block."""

    def __init__(self, world: World, source: Source, packet: Packet, number: int) -> None:
        super().__init__(world, source, packet, number)
        self.rounds = 0
        self.stack: list[tuple[Block | While, int]] = [(self.program.block, 0)]
        self.forget()

    def go(self) -> None:
        """Runs to its end, and then drops all packets."""
        self.give_headers()
        while self.step():
            pass
        for packet in [*([self.this] if self.this is not None else []), *self.named.values()]:
            self.world.give_up(packet)

    def step(self) -> bool:
        """One statement; or the end of a block, which drops the packets that it made and that are still held. Returns whether there are more."""
        it, at = self.stack.pop()
        try:
            if isinstance(it, While):
                self.go_round(it, at)
            elif at < len(it):
                self.stack.append((it, at + 1))
                self.source.reached.add(id(it[at]))
                DO[type(it[at])](self, it[at])
            else:
                for statement in it:
                    if isinstance(statement, Clone | New):
                        self.let_go(statement.name)
        except Ended:
            pass
        return bool(self.stack)

    def then(self, block: Block | None) -> None:
        """A block, before what comes after this statement."""
        self.stack.append((block or [], 0))

    def ends_by(self, otherwise: Block | None) -> None:
        """Runs the `else` part, and ends the program."""
        self.stack = [(otherwise or [], 0)]
        raise Ended

    def touch(self, headers: Iterable[str]) -> None:
        """Looks for headers; if one is absent, does `otherwise`, which ends the program."""
        if not self.finds_all(headers):
            self.ends_by(self.program.otherwise)

    def value(self, number: Number) -> int:
        """A number; its headers are looked for."""
        self.touch(self.source.headers_in(number))
        return self.number(number, self.variables)

    # Numbers and fields

    def do_let(self, it: Let) -> None:
        self.variables[it.name] = self.value(it.number)

    def do_lookup(self, it: Lookup) -> None:
        hop = self.hop(it.table, self.value(it.number) & 0xFFFFFFFF)
        if hop is None:
            self.ends_by(it.otherwise)
        else:
            self.variables[it.name] = hop

    def do_assign(self, it: Assign) -> None:
        if isinstance(it.target, Variable):
            self.variables[it.target.name] = self.value(it.number)
            return
        self.touch(self.source.sorted([it.target.header, *self.source.headers_in(it.number)]))
        value = self.number(it.number, self.variables)
        if it.mends:
            self.mend(it.target, value)
        else:
            self.put(it.target, value)

    def do_assign_wide(self, it: AssignWide) -> None:
        self.do_assign(it.first)
        self.do_assign(it.second)

    def words_with(self, field: Field) -> list[int]:
        """The 16-bit words of a header that a field has bits in; an odd byte counts as the high one of a word."""
        header, place = self.known[field.header], self.found[field.header]
        span = words_of(header.fields[field.name], header)
        return [self.bits(8 * (place + k), 16) if k + 1 < span.stop else self.bits(8 * (place + k), 8) << 8 for k in span[::2]]

    def mend(self, field: Field, value: int) -> None:
        """Assigns to a field, and keeps the checksums that cover it, or a checksum that changes."""
        old = self.words_with(field)
        self.put(field, value)
        new = self.words_with(field)
        more, changes = sum(new) + 0xFFFF * len(new) - sum(old), dict[str, int]()
        over = next((it.name for it in self.known.values() if it.sum is not None and field in it.sum.over and self.finds(it.name)), None)
        for name in sorted(self.around(field.header, over), key=lambda it: (self.found[it], self.source.order[it]), reverse=True):
            kept = self.known[name].sum
            terms = [more] * ((name == field.header or self.covers(name, field.header)) + (name == over))
            terms += [change for other, change in changes.items() if self.covers(name, other)]
            if kept is not None and terms:
                changes[name] = self.mend_sum(Field(name, kept.field), kept, sum(terms))

    def around(self, *headers: str | None) -> set[str]:
        """Headers that are found, and those before them."""
        return {name for header in headers if header is not None for name in [header, *self.all_before(header)]}

    def covers(self, header: str, other: str) -> bool:
        """Whether the checksum of a header covers another one, which comes after it."""
        kept = self.known[header].sum
        return kept is not None and kept.has_payload and header in self.all_before(other)

    def mend_sum(self, field: Field, kept: Sum, more: int) -> int:
        """Updates a checksum for what changed. Returns what that changes in a sum of words, plus 0xffff."""
        old = self.get(field)
        new = 0xFFFF - folded(0xFFFF - old + more)
        if kept.is_optional:
            new = 0 if old == 0 else 0xFFFF if new == 0 else new
        self.put(field, new)
        return new + 0xFFFF - old

    # Ways through the program

    def do_if(self, it: If) -> None:
        self.then(it.then if self.holds(it.condition) else it.otherwise)

    def do_inline(self, it: Inline) -> None:
        self.then(it.body)

    def do_count(self, _it: Count) -> None:
        """Changes nothing."""

    def do_while(self, it: While) -> None:
        self.forget()
        self.stack.append((it, 0))

    def go_round(self, it: While, at: int) -> None:
        """A loop goes on: 0 before its condition, 1 after its block."""
        if at:
            self.end_round()
            self.do_while(it)
        elif self.holds(it.condition):
            self.stack.append((it, 1))
            self.then(it.body)

    def end_round(self) -> None:
        """A round of a loop is over; after the last that is possible, the program ends."""
        if self.rounds == BACKWARD:
            self.world.cuts += 1
            self.ends_by(None)
        self.rounds += 1

    def do_need(self, it: Need) -> None:
        if not self.holds(it.condition):
            self.ends_by(it.otherwise)

    def do_drop(self, _it: Drop) -> None:
        self.ends_by(None)

    # Packets

    def hands(self, kind: str, name: str | None, to: int) -> bool:
        """Hands a packet to a port or a ring. Returns whether it was taken."""
        if self.is_full(kind, self.packet(name), to):
            return False
        if name is None:
            self.this = None
        else:
            del self.named[name]
        return True

    def handed(self, name: str | None, is_taken: bool, otherwise: Block | None) -> None:
        """What follows an attempt to hand on a packet."""
        if is_taken:
            if name is None:
                self.ends_by(None)
            return
        if name is None and self.is_shared():
            self.ask_anew()
        if otherwise is not None:
            self.then(otherwise)
        elif name is None:
            self.ends_by(None)
        else:
            self.let_go(name)

    def do_send(self, it: Send) -> None:
        port = self.value(it.port)
        comes_back = isinstance(it.port, Arrival) and not self.program.is_for_ring
        self.handed(it.packet, (comes_back or port < self.program.ports) and self.hands("tx", it.packet, port), it.otherwise)

    def do_queue(self, it: Queue) -> None:
        self.handed(it.packet, self.hands("enq", it.packet, it.ring), it.otherwise)

    def do_clone(self, it: Clone) -> None:
        if not self.takes(it.pool, len(self.packet(None))):
            self.ends_by(it.otherwise)
        self.named[it.name] = self.cloned(it.name, it.pool)

    def do_new(self, it: New) -> None:
        if not self.takes(it.pool, 1):
            self.ends_by(it.otherwise)
        self.named[it.name] = self.new(it.name, it.pool)

    def do_free(self, it: Free) -> None:
        self.let_go(it.name)

    def do_chain(self, it: Chain) -> None:
        self.this = self.named.pop(it.name) + self.packet(None)
        self.forget()

    # Bytes

    def do_push(self, it: Push) -> None:
        headers = [self.known[pushed.header] for pushed in it.headers]
        self.touch(self.source.sorted(name for pushed in it.headers for value in pushed.fields.values() if value for name in self.source.headers_in(value)))
        if it.on is None and len(headers) == 1 and headers[0].next is not None and headers[0].after:
            return self.push_tag(headers[0], headers[0].next, self.pushed_values(it.headers[0]))
        asked = [asked_of(after, before.name) for before, after in zip(headers, headers[1:])]
        data: list[int] = []
        for header, pushed, wanted in zip(headers, it.headers, [*asked, {}]):
            data += written(header, self.pushed_values(pushed), wanted)
        self.push(it.on, 0, data)

    def pushed_values(self, it: Pushed) -> dict[str, int | None]:
        """The values of the named fields of a pushed header."""
        return {name: None if value is None else self.number(value, self.variables) for name, value in it.fields.items()}

    def push_tag(self, tag: Header, follows: str, values: dict[str, int | None]) -> None:
        """Inserts a tag after the header that it follows, whose last field then asks for it; what it said, the tag says."""
        before = self.preceding(tag.name)
        end = None if before is None else self.end_of(before)
        if before is None or end is None or self.length(self.first) < end:
            return self.ends_by(self.program.otherwise)
        last = Field(before, self.known[before].last)
        data = written(tag, {**values, follows: self.get(last)}, {})
        self.put(last, asked_of(tag, before)[last.name])
        self.push(None, end, data)

    def push(self, name: str | None, at: int, data: list[int]) -> None:
        """Puts bytes into the first segment of a packet, into which they have to fit before its bytes."""
        if not self.insert(self.packet(name)[0], at, data):
            self.ends_by(None)
        if name is None:
            self.forget()

    def do_pop(self, it: Pop) -> None:
        self.touch(it.path)
        begin, end, last = self.found[it.path[0]], self.end_of(it.path[-1]), self.known[it.path[-1]]
        kept = last.fields[last.next].count if last.next is not None and begin > 0 else 0
        if end is None or end <= begin or 8 * begin < kept or self.length(self.first) < end:
            return self.ends_by(self.program.otherwise)
        if last.next is not None and kept:
            self.put_bits(8 * begin - kept, kept, self.get(Field(last.name, last.next)))
        self.remove(self.first, begin, end)
        self.forget()

    def do_cut(self, it: Cut) -> None:
        segment = self.packet(it.packet)[0]
        if self.length(segment) < it.count:
            if it.packet is None:
                self.ends_by(self.program.otherwise)
            return
        self.remove(segment, 0, it.count)
        if it.packet is None:
            self.forget()

    def do_truncate(self, it: Truncate) -> None:
        self.keep(self.packet(it.packet)[-1], it.count)
        if it.packet is None:
            self.forget()


DO: dict[type, Callable[[SourceRun, object], None]] = {
    Let: SourceRun.do_let,
    Lookup: SourceRun.do_lookup,
    Assign: SourceRun.do_assign,
    AssignWide: SourceRun.do_assign_wide,
    If: SourceRun.do_if,
    While: SourceRun.do_while,
    Need: SourceRun.do_need,
    Drop: SourceRun.do_drop,
    Send: SourceRun.do_send,
    Queue: SourceRun.do_queue,
    Clone: SourceRun.do_clone,
    New: SourceRun.do_new,
    Free: SourceRun.do_free,
    Chain: SourceRun.do_chain,
    Push: SourceRun.do_push,
    Pop: SourceRun.do_pop,
    Cut: SourceRun.do_cut,
    Truncate: SourceRun.do_truncate,
    Count: SourceRun.do_count,
    Inline: SourceRun.do_inline,
}  # type: ignore[dict-item]


class SourceWorld(World):
    """A world in which nodes run programs of the language."""

    def __init__(self, env: Env, sources: list[Source], pattern: frozenset[int] = frozenset()) -> None:
        super().__init__(env, [], pattern)
        self.sources = sources
        self.turns = [0] * len(env.ports)
        self.last = 0

    def turn(self, number: int, record: bytes) -> int:
        """A record at a port, which is counted."""
        self.turns[number] += 1
        self.last = number
        return super().turn(number, record)

    def run_node(self, node: int, packet: Packet, number: int) -> None:
        """A run of the program of a node, ports first, on a packet that came from this port or ring."""
        SourceRun(self, self.sources[node], packet, number).go()
