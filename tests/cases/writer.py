"""Accepted programs, written instruction by instruction with the row at each."""
from random import Random

from model import rules
from model.machine import BIGGEST, Env, Instr, Number

WIDTHS = (1, 2, 4, 8)
LENGTHS = (0, 1, 2, 3, 4, 7, 8, 13, 14, 15, 16, 20, 34, 60, 63, 64, 65, 127, 128, 129, 130, 256, 2047, 2048, 2049, 65_535)
CONSTANTS = (*LENGTHS, 255, 0x0A0B0C0D, 2**32 - 1, 2**32, 2**63, BIGGEST - 1, BIGGEST)
USUAL = {"alloc": 6, "clone": 12, "free": 3, "chain": 9, "resize": 16, "test": 12, "bytes": 22, "number": 12, "branch": 8}
MOVES = {**USUAL, "lookup": 30, "tx": 6, "enq": 6, "flood": 2, "place": 8, "head": 3, "fork": 4, "weaken": 2}
NO_TABLE = {**MOVES, "lookup": 0}


class Writer:
    """Writes a program that is accepted, with its rows. A label that is not placed yet is a negative number."""

    def __init__(self, rng: Random, env: Env, place: int) -> None:
        self.rng, self.env = rng, env
        self.row: rules.Row = rules.entry_row(env, place)
        self.code: list[Instr] = []
        self.rows: list[rules.Row] = []
        self.waiting: dict[int, rules.Row] = {}
        self.heads: dict[int, rules.Row] = {}
        self.placed: dict[int, int] = {}

    def held(self) -> list[int]:
        """The packet registers that hold a packet."""
        return [p for p, fact in enumerate(self.row.facts) if fact is not None]

    def free_register(self) -> int | None:
        """A packet register that is empty, of the first ones mostly."""
        empty = [p for p, fact in enumerate(self.row.facts) if fact is None]
        return self.rng.choice(empty[: self.rng.choice((2, 3, 8))]) if empty else None

    def emit(self, word: str, *args: int) -> None:
        """An instruction that is permitted here; a label is chosen for it if it needs one."""
        instr = Instr(word, (*args, 0) if word in rules.JUMPS else args)
        if rules.local_fault(self.env, self.row, len(self.code), instr, len(self.code) + 2):
            return
        if word in rules.JUMPS:
            instr = Instr(word, (*args, self.label(rules.at_label(self.row, instr))))
        self.code.append(instr)
        self.rows.append(self.row)
        self.row = rules.after(self.env, self.row, instr)

    def label(self, known: rules.Row) -> int:
        """A label that this row may lead to: an earlier one, one that waits, or a new one."""
        behind = [label for label, row in self.heads.items() if rules.entails(known, row)]
        if behind and self.rng.random() < 0.5:
            return self.rng.choice(behind)
        ahead = [label for label, row in self.waiting.items() if rules.are_held_alike(row, known)]
        label = self.rng.choice(ahead) if ahead and self.rng.random() < 0.7 else -1 - len(self.waiting) - len(self.placed)
        self.waiting[label] = rules.common(self.waiting.get(label, known), known)
        return label

    def put_label(self, label: int, from_above: bool) -> None:
        """Places a label that waits, with what is common to all that lead there."""
        row = self.waiting.pop(label)
        self.row = rules.common(self.row, row) if from_above else row
        self.placed[label] = len(self.code)

    def length(self, most: int) -> int:
        """A number of bytes that is mostly at most this one, and often equal to it."""
        fitting = [n for n in LENGTHS if n <= most]
        return self.rng.choice((most, max(most - 1, 0), self.rng.choice(fitting), self.rng.choice(fitting[:12])))

    def constant(self) -> int:
        """A constant."""
        return self.rng.choice((self.rng.choice(CONSTANTS), self.rng.randrange(256), self.rng.randrange(BIGGEST)))

    def any_packet(self) -> int | None:
        """A register that holds a packet."""
        return self.rng.choice(self.held()) if self.held() else None

    def step(self) -> None:
        """One move."""
        moves = MOVES if self.env.tables else NO_TABLE
        move = self.rng.choices(list(moves), list(moves.values()))[0]
        p = self.any_packet()
        if p is not None or move in ("alloc", "number", "branch", "place", "head", "weaken"):
            getattr(self, "move_" + move)(p)

    def move_alloc(self, _p: int | None) -> None:
        target = self.free_register()
        if target is not None:
            self.emit("alloc", target, self.rng.randrange(len(self.env.pools)))

    def move_clone(self, p: int) -> None:
        target = self.free_register()
        if target is not None:
            self.emit("clone", target, p, self.rng.randrange(len(self.env.pools)))

    def move_free(self, p: int) -> None:
        self.emit("free", p)

    def move_chain(self, p: int) -> None:
        self.emit("chain", p, self.rng.choice(self.held()))

    def move_resize(self, p: int) -> None:
        word, part = self.rng.choice((("prepend", "head"), ("adj", "first"), ("append", "tail"), ("trim", "last")))
        self.emit(word, p, self.length(getattr(self.row.facts[p], part)))

    def move_test(self, p: int) -> None:
        self.emit(self.rng.choice(("ifhead", "iftail", "iflen", "iflen", "iflast")), p, self.rng.choice(LENGTHS[:-1]))

    def move_bytes(self, p: int) -> None:
        """A load or a store, often after a test of the length."""
        if self.row.facts[p].first < 8 and self.rng.random() < 0.8:
            self.emit("iflen", p, self.rng.choice((1, 8, 14, 34, 60)))
        r, s, width, first = self.rng.randrange(8), self.rng.randrange(8), self.rng.choice(WIDTHS), self.row.facts[p].first
        off = self.length(max(first - width, 0))
        forms = {"load": (r, p, off, width), "store": (p, off, width, r)}
        left = max(first - width - self.row.bounds[s], 0)
        forms |= {"loadx": (r, p, s, self.length(left), width), "storex": (p, s, self.length(left), width, r)}
        word = self.rng.choice(list(forms))
        self.emit(word, *forms[word])

    def move_number(self, _p: int | None) -> None:
        word = self.rng.choice(("set", "mov", "add", "sub", "and", "or", "xor", "shl", "shr"))
        r, s = self.rng.randrange(8), self.rng.randrange(8)
        if word == "set":
            self.emit(word, r, self.constant())
        elif word == "mov":
            self.emit(word, r, s)
        elif word in ("shl", "shr"):
            self.emit(word, r, self.rng.choice((0, 1, 8, 63, self.rng.randrange(64))))
        else:
            self.emit(word, r, self.rng.choice((Number(s), self.constant())))

    def move_branch(self, _p: int | None) -> None:
        word, r = self.rng.choice(("jeq", "jlt", "jlt", "jmp")), self.rng.randrange(8)
        if word == "jmp":
            if self.waiting:
                self.emit(word)
                self.next_part()
        elif word == "jeq":
            self.emit(word, r, self.rng.choice((Number(self.rng.randrange(8)), self.constant())))
        else:
            self.emit(word, r, max(self.constant(), 1))

    def move_lookup(self, p: int) -> None:
        """Looks up bytes of a packet, an address near a route, or whatever a register has; often the hop is written to the packet."""
        r, s, table = self.rng.randrange(8), self.rng.randrange(8), self.rng.randrange(len(self.env.tables))
        how, first = self.rng.randrange(5), self.row.facts[p].first
        if how < 3 and first < 4:
            self.emit("iflen", p, self.rng.choice((4, 8, 20)))
        if how < 3:
            self.emit("load", s, p, 4 * self.rng.randrange(max(self.row.facts[p].first // 4, 1)), self.rng.choice((4, 4, 4, 8)))
        elif how == 3:
            self.emit("set", s, address_near(self.rng, self.env) + self.rng.choice((0, 1 << 32)))
        self.emit("lookup", r, table, s)
        if self.rng.random() < 0.5:
            self.emit("store", p, self.length(max(self.row.facts[p].first - 4, 0)), 4, r)

    def move_tx(self, p: int) -> None:
        r = self.rng.randrange(8)
        if self.row.bounds[r] >= len(self.env.ports):
            self.emit("set", r, self.rng.randrange(len(self.env.ports)))
        self.emit("tx", p, r)

    def move_enq(self, p: int) -> None:
        if self.env.rings:
            self.enq(p, self.rng.randrange(len(self.env.rings)))

    def enq(self, p: int, ring: int) -> None:
        """Puts a packet in a ring, after tests of what the ring declares."""
        fact, mine = rules.Fact(*self.env.rings[ring].fact), self.row.facts[p]
        for word, part in (("ifhead", "head"), ("iftail", "tail"), ("iflen", "first"), ("iflast", "last")):
            if getattr(mine, part) < getattr(fact, part):
                self.emit(word, p, getattr(fact, part))
        self.emit("enq", p, ring)

    def move_flood(self, p: int) -> None:
        """As many clones of a packet to a ring as it has slots, so that it is full if there are buffers for them."""
        small = [k for k, ring in enumerate(self.env.rings) if ring.count <= 4 and ring.fact[0] == 0]
        ring, pool = self.rng.choice(small or [0]), self.rng.randrange(len(self.env.pools))
        for _ in range(self.env.rings[ring].count if small else 0):
            target = self.free_register()
            if target is not None:
                self.emit("clone", target, p, pool)
                self.enq(target, ring)

    def move_place(self, _p: int | None) -> None:
        fitting = [label for label, row in self.waiting.items() if rules.are_held_alike(row, self.row)]
        if fitting:
            self.put_label(self.rng.choice(fitting), True)

    def move_head(self, _p: int | None) -> None:
        """A label that control may come back to: little is known there."""
        if self.rng.random() < 0.6:
            facts = [fact and fact._replace(head=0, tail=0, first=0, last=0) for fact in self.row.facts]
            bounds = (self.row.bounds[0], *[self.rng.choice((mine, BIGGEST, BIGGEST)) for mine in self.row.bounds[1:]])
            self.row = rules.Row(tuple(facts), bounds)
        label = -1 - len(self.waiting) - len(self.placed)
        self.placed[label], self.heads[label] = len(self.code), self.row

    def move_fork(self, p: int) -> None:
        """Two ways on, which hold the same packets in the end: in one a packet is chained, in the other it is freed."""
        others = [q for q in self.held() if q != p]
        if not others:
            return
        q, other = self.rng.choice(others), -1 - len(self.waiting) - len(self.placed)
        start, self.waiting[other] = self.row, self.row
        self.code.append(Instr("jlt", (self.rng.randrange(8), max(self.constant(), 1), other)))
        self.rows.append(self.row)
        self.waiting[other] = rules.at_label(start, self.code[-1])
        for _ in range(self.rng.randrange(4)):
            self.move_resize(p)
        self.emit("chain", p, q)
        if self.row.facts[q] is not None:
            self.emit("free", q)
        self.emit("jmp")
        if other in self.waiting:
            self.put_label(other, False)
            self.emit("free", q)
            self.move_place(None)
        else:
            self.next_part()

    def move_weaken(self, _p: int | None) -> None:
        """A row that says less than is known."""
        facts = [
            fact and fact._replace(first=fact.first // self.rng.choice((1, 2)), segs=min(64, fact.segs + self.rng.randrange(2)))
            for fact in self.row.facts
        ]
        self.row = rules.Row(tuple(facts), tuple(mine + (mine < BIGGEST) * self.rng.randrange(2) for mine in self.row.bounds))

    def next_part(self) -> None:
        """Goes on where a label waits that control has not come to yet."""
        if self.waiting:
            self.put_label(self.rng.choice(list(self.waiting)), False)

    def end(self) -> None:
        """Sends or frees what is held, on each path."""
        while True:
            while self.held():
                if self.rng.random() < 0.6 and len(self.waiting) < 6 and len(self.code) < 40:
                    move = self.rng.choice((self.move_tx, self.move_tx, self.move_enq))
                    move(self.rng.choice(self.held()))
                else:
                    self.emit("free", self.rng.choice(self.held()))
            self.emit("exit")
            if not self.waiting:
                return
            self.next_part()
            for label in [label for label, row in self.waiting.items() if rules.are_held_alike(row, self.row)]:
                self.put_label(label, True)

    def written(self, moves: int) -> tuple[list[Instr], rules.Rows]:
        """The program and its rows."""
        for _ in range(moves):
            self.step()
        self.end()
        code = [
            Instr(word, (*args[:-1], self.placed[args[-1]])) if word in rules.JUMPS else Instr(word, args) for word, args in self.code
        ]
        return code, self.rows


def address_near(rng: Random, env: Env) -> int:
    """The address of a route, or one that differs in a bit."""
    prefixes = [prefix for table in env.tables for prefix, _ in table]
    return rng.choice(prefixes or [0]) ^ rng.choice((0, 0, 1 << rng.randrange(8), 1 << rng.randrange(32)))


def program(rng: Random, env: Env, place: int) -> tuple[list[Instr], rules.Rows]:
    """A program that is accepted at a port or ring, and rows that it is accepted with."""
    return Writer(rng, env, place).written(rng.choice((1, 2, 3, 4, 6, 6, 10, 10, 16, 40)))
