"""Rows of certificates, the facts after each instruction, and the checker's rules (docs/reference/certificate.md)."""
import struct
from collections.abc import Iterator
from typing import NamedTuple

from .machine import BIGGEST, HEADROOM, Env, Instr, Number

MAX_LENGTH = 65_535
MAX_SEGMENTS = 64
HIGHEST_HOP = 16_777_215
SHARES = (0, 1, 2, *range(8, 16))
ROW = struct.Struct(">B" + "BBHHHHB" * 8 + "8Q")
TARGETS = {"alloc": 1, "clone": 1}
PLACES = {"alloc": (1, "pools"), "clone": (2, "pools"), "lookup": (1, "tables"), "enq": (1, "rings")}


class Fact(NamedTuple):
    """What is known of a packet; a share of at least 8 is the group's name plus 8."""

    share: int
    head: int
    tail: int
    first: int
    last: int
    segs: int


class Row(NamedTuple):
    """What is known before an instruction: of each packet register, and the greatest value of each number register."""

    facts: tuple[Fact | None, ...]
    bounds: tuple[int, ...]


Rows = list[Row | None]
EMPTY = (None,) * 8


def entry_row(env: Env, place: int) -> Row:
    """The row at the entry of a port, or, after those of all ports, of a ring."""
    ports = len(env.ports)
    if place < ports:
        return Row((Fact(2, HEADROOM, 0, 0, 0, env.ports[place].segs), *EMPTY[1:]), (place,) + (0,) * 7)
    return Row((Fact(*env.rings[place - ports].fact), *EMPTY[1:]), (place - ports,) + (0,) * 7)


def group(row: Row, share: int) -> list[int]:
    """The registers of a group."""
    return [p for p, fact in enumerate(row.facts) if fact is not None and fact.share == share]


def is_well_formed(row: Row) -> bool:
    """Whether each group has at least two registers and is named by the least."""
    shares = {fact.share for fact in row.facts if fact is not None and fact.share >= 8}
    return all(len(group(row, share)) >= 2 and group(row, share)[0] == share - 8 for share in shares)


def are_held_alike(row: Row, other: Row) -> bool:
    """Whether the same registers hold packets in two rows, so that they have something in common."""
    return [fact is None for fact in row.facts] == [fact is None for fact in other.facts]


def entails_share(share: int, other: int) -> bool:
    """Whether a share says as much as another."""
    return other == 0 or share == other or (share, other) == (2, 1)


def entails_fact(fact: Fact | None, other: Fact | None) -> bool:
    """Whether a fact says as much as another, groups apart."""
    if fact is None or other is None:
        return fact is other
    least = all(mine >= yours for mine, yours in zip(fact[1:5], other[1:5]))
    return entails_share(fact.share, other.share) and least and fact.segs <= other.segs


def entails(row: Row | None, other: Row | None) -> bool:
    """Whether a row says as much as another."""
    if row is None or other is None:
        return False
    shares = {fact.share for fact in other.facts if fact is not None and fact.share >= 8}
    return row == other or (
        all(map(entails_fact, row.facts, other.facts))
        and all(mine <= yours for mine, yours in zip(row.bounds, other.bounds))
        and all(group(row, share) == group(other, share) for share in shares)
    )


def common(row: Row, other: Row) -> Row | None:
    """What two rows have in common; nothing if a register has a packet in only one of them."""
    if row == other or not are_held_alike(row, other):
        return row if row == other else None
    facts: list[Fact | None] = []
    for fact, yours in zip(row.facts, other.facts):
        if fact is None or fact == yours and fact.share < 8:
            facts.append(fact)
            continue
        share = next(s for s in (fact.share, yours.share, 1, 0) if entails_share(fact.share, s) and entails_share(yours.share, s))
        if share >= 8 and group(row, share) != group(other, share):
            share = 0
        facts.append(Fact(share, *map(min, fact[1:5], yours[1:5]), max(fact.segs, yours.segs)))
    return Row(tuple(facts), tuple(map(max, row.bounds, other.bounds)))


def plus(length: int, n: int) -> int:
    """A sum of lengths."""
    return min(length + n, MAX_LENGTH)


def minus(length: int, n: int) -> int:
    """A difference of lengths."""
    return max(length - n, 0)


def bound(row: Row, x: int) -> int:
    """The greatest value of a number register or constant."""
    return row.bounds[x] if isinstance(x, Number) else x


def with_fact(row: Row, p: int, fact: Fact | None) -> Row:
    """The row with another fact for a register."""
    return row._replace(facts=row.facts[:p] + (fact,) + row.facts[p + 1 :])


def with_bound(row: Row, r: int, value: int) -> Row:
    """The row with another bound for a register, at most the greatest number."""
    return row._replace(bounds=row.bounds[:r] + (min(value, BIGGEST),) + row.bounds[r + 1 :])


def with_shares(row: Row, registers: list[int], share: int) -> Row:
    """The row with this share for some registers."""
    facts = [fact._replace(share=share) if p in registers and fact is not None else fact for p, fact in enumerate(row.facts)]
    return row._replace(facts=tuple(facts))


def dissolved(row: Row, p: int) -> Row:
    """The row with all registers loose that are in the group of one."""
    share = row.facts[p].share
    return with_shares(row, group(row, share), 0) if share >= 8 else row


def after_free(row: Row, p: int) -> Row:
    """The register leaves its group, of which one that is left alone is sole."""
    share = row.facts[p].share
    row = with_fact(row, p, None)
    left = group(row, share) if share >= 8 else []
    return with_shares(row, left, 2 if len(left) == 1 else 8 + left[0]) if left else row


def after_clone(row: Row, p: int, q: int) -> Row:
    """The two are a group, or the new one joins the group of the other, or both are loose."""
    share = row.facts[q].share
    members = [q] if share == 2 else group(row, share) if share >= 8 else []
    row = with_fact(row, p, row.facts[q])
    if not members:
        return with_shares(row, [p, q], 0)
    return with_shares(row, [p, *members], 8 + min(p, *members))


def after_chain(row: Row, p: int, q: int) -> Row:
    """The groups of both are dissolved, then the packets are joined."""
    row = dissolved(dissolved(row, p), q)
    mine, yours = row.facts[p], row.facts[q]
    share = 2 if mine.share == yours.share == 2 else min(mine.share, 1)
    fact = Fact(share, mine.head, yours.tail, mine.first, yours.last, mine.segs + yours.segs)
    return with_fact(with_fact(row, p, fact), q, None)


def after_leave(row: Row, p: int) -> Row:
    """The packet is taken by a list."""
    return with_fact(dissolved(row, p), p, None)


def after_resize(row: Row, word: str, p: int, n: int) -> Row:
    """A packet is longer or shorter at an end."""
    share, head, tail, first, last, segs = row.facts[p]
    one = segs == 1
    if word == "prepend":
        fact = Fact(share, head - n, tail, plus(first, n), plus(last, n) if one else last, segs)
    elif word == "adj":
        fact = Fact(share, plus(head, n), tail, minus(first, n), minus(last, n), segs)
    elif word == "append":
        fact = Fact(share, head, tail - n, plus(first, n) if one else first, plus(last, n), segs)
    else:
        fact = Fact(share, head, plus(tail, n), minus(first, n), minus(last, n), segs)
    return with_fact(row, p, fact)


def after_test(row: Row, word: str, p: int, n: int) -> Row:
    """A packet has at least this much of something."""
    part = {"ifhead": "head", "iftail": "tail", "iflen": "first", "iflast": "last"}[word]
    fact = row.facts[p]
    return with_fact(row, p, fact._replace(**{part: max(getattr(fact, part), n)}))


def after_number(row: Row, word: str, r: int, x: int) -> Row:
    """A number register has a new value."""
    mine, yours = row.bounds[r], bound(row, x)
    values = {
        "set": yours,
        "mov": yours,
        "add": mine + yours,
        "sub": BIGGEST,
        "and": min(mine, yours),
        "or": 2 ** max(mine, yours).bit_length() - 1,
        "xor": 2 ** max(mine, yours).bit_length() - 1,
        "shl": mine << min(x, 64),
        "shr": mine >> min(x, 64),
    }
    return with_bound(row, r, values[word])


def after(env: Env, row: Row, instr: Instr) -> Row:
    """What is known at the next instruction."""
    word, args = instr
    if word == "alloc":
        room = env.pools[args[1]].room
        head = min(HEADROOM, room)
        return with_fact(row, args[0], Fact(2, head, room - head, 0, 0, 1))
    if word in ("prepend", "adj", "append", "trim"):
        return after_resize(row, word, *args)
    if word in ("ifhead", "iftail", "iflen", "iflast"):
        return after_test(row, word, *args[:2])
    if word in ("load", "loadx"):
        return with_bound(row, args[0], 256 ** args[-1] - 1)
    if word == "lookup":
        return with_bound(row, args[0], HIGHEST_HOP)
    if word in ("set", "add", "sub", "and", "or", "xor", "shl", "shr"):
        return after_number(row, word, *args)
    if word == "mov":
        return after_number(row, word, args[0], Number(args[1]))
    others = {"free": after_free, "clone": after_clone, "chain": after_chain, "tx": after_leave, "enq": after_leave}
    packets = {"free": 1, "clone": 2, "chain": 2, "tx": 1, "enq": 1}
    return others[word](row, *args[: packets[word]]) if word in others else row


def at_label(row: Row, instr: Instr) -> Row:
    """What is known where the jump is taken."""
    word, args = instr
    if word == "jeq":
        return with_bound(row, args[0], min(row.bounds[args[0]], bound(row, args[1])))
    if word == "jlt":
        return with_bound(row, args[0], min(row.bounds[args[0]], args[1] - 1))
    return row


JUMPS = {"alloc", "clone", "ifhead", "iftail", "iflen", "iflast", "jmp", "jeq", "jlt", "lookup", "tx", "enq"}


def leads(env: Env, row: Row, label: int, instr: Instr) -> Iterator[tuple[int, Row]]:
    """The successors of an instruction, with their rows."""
    if instr.word not in ("jmp", "exit"):
        yield label + 1, after(env, row, instr)
    if instr.word in JUMPS:
        yield instr.args[-1], at_label(row, instr)


USES = {
    **{word: (0,) for word in ("free", "prepend", "adj", "append", "trim", "ifhead", "iftail", "iflen", "iflast")},
    **{word: (0,) for word in ("store", "storex", "tx", "enq")},
    **{word: (1,) for word in ("clone", "load", "loadx")},
    "chain": (0, 1),
}


def has_enough(row: Row, instr: Instr) -> bool:
    """J6: whether the bytes or the room that the instruction needs are there."""
    word, args = instr
    part = {"prepend": "head", "adj": "first", "append": "tail", "trim": "last"}.get(word)
    if part:
        return args[1] <= getattr(row.facts[args[0]], part)
    if word == "load":
        return args[2] + args[3] <= row.facts[args[1]].first
    if word == "store":
        return args[1] + args[2] <= row.facts[args[0]].first
    if word == "loadx":
        return row.bounds[args[2]] + args[3] + args[4] <= row.facts[args[1]].first
    if word == "storex":
        return row.bounds[args[1]] + args[2] + args[3] <= row.facts[args[0]].first
    return True


def may_write(row: Row, instr: Instr) -> bool:
    """J7: whether no other packet shares the written buffer."""
    word, args = instr
    if word not in ("prepend", "store", "storex", "append"):
        return True
    fact = row.facts[args[0]]
    return fact.share == 2 or fact.share == 1 and (word != "append" or fact.segs == 1)


def may_leave(env: Env, row: Row, instr: Instr) -> bool:
    """J9: whether the port exists, or the packet satisfies what the ring declares."""
    word, args = instr
    if word == "tx":
        return row.bounds[args[1]] < len(env.ports)
    return word != "enq" or entails_fact(row.facts[args[0]], Fact(*env.rings[args[1]].fact))


def local_fault(env: Env, row: Row, label: int, instr: Instr, size: int) -> int:
    """The first of J3 to J10 that fails, or 0."""
    word, args = instr
    operand, parts = PLACES.get(word, (0, "ports"))
    is_there = word not in PLACES or args[operand] < len(getattr(env, parts))
    if not is_there or label + 1 >= size and word not in ("jmp", "exit"):
        return 3
    for at in USES.get(word, ()):
        if row.facts[args[at]] is None:
            return 4
    if word in TARGETS and row.facts[args[0]] is not None or word == "chain" and args[0] == args[1]:
        return 5
    if not has_enough(row, instr):
        return 6
    if not may_write(row, instr):
        return 7
    if word == "chain" and row.facts[args[0]].segs + row.facts[args[1]].segs > MAX_SEGMENTS:
        return 8
    if not may_leave(env, row, instr):
        return 9
    return 10 if word == "exit" and row.facts != EMPTY else 0


def check(env: Env, program: list[Instr], rows: Rows, entry: Row) -> tuple[int, int] | None:
    """The first label and its first rule that fails, or nothing."""
    if len(rows) != len(program):
        return 0, 1
    if not entails(entry, rows[0]):
        return 0, 2
    for label, (instr, row) in enumerate(zip(program, rows)):
        if row is None:
            continue
        rule = local_fault(env, row, label, instr, len(program))
        if rule or not all(entails(known, rows[to]) for to, known in leads(env, row, label, instr)):
            return label, rule or 11
    return None


def is_forward(program: list[Instr]) -> bool:
    """Whether each named label comes after its instruction."""
    return all(instr.word not in JUMPS or instr.args[-1] > label for label, instr in enumerate(program))


def weakened(old: Row, new: Row, constants: list[int]) -> Row:
    """The new row, with 0 for a least number that shrank, and the next constant or the greatest number for a bound that grew."""
    facts = [
        fact and was and fact._replace(**{part: 0 for part in fact._fields[1:5] if getattr(fact, part) < getattr(was, part)})
        for was, fact in zip(old.facts, new.facts)
    ]
    bounds = [
        mine if mine == was else next((c for c in constants if c >= mine), BIGGEST) for was, mine in zip(old.bounds, new.bounds)
    ]
    return Row(tuple(facts), tuple(bounds))


def infer(env: Env, program: list[Instr], entry: Row) -> Rows | None:
    """The rows by one pass over a forward program, where no others say more; of other programs, rows that may suffice, or nothing."""
    rows: Rows = [None] * len(program)
    rows[0] = entry
    forward = is_forward(program)
    constants = sorted({x + d for _, args in program for x in args if not isinstance(x, Number) for d in (-1, 0) if x + d >= 0})
    for passes in range(1 if forward else 200):
        before = list(rows)
        for label, instr in enumerate(program):
            row = rows[label]
            if row is None:
                continue
            if local_fault(env, row, label, instr, len(program)):
                return None
            for to, known in leads(env, row, label, instr):
                was = rows[to]
                met = known if was is None else common(was, known)
                if met is None:
                    return None
                rows[to] = weakened(was, met, constants) if was is not None and passes > 2 and not forward else met
        if rows == before:
            break
    return rows if check(env, program, rows, entry) is None else None


def spelled(rows: Rows, version: int | None = None) -> bytes:
    """The text of a certificate; of version 1 where no row has a group, unless a version is given."""
    has_groups = any(fact is not None and fact.share >= 8 for row in rows if row for fact in row.facts)
    version = version or (2 if has_groups else 1)
    return b"dpv-cert %d\n" % version + b"".join(spelled_row(row) for row in rows)


def spelled_row(row: Row | None) -> bytes:
    """The line of a row."""
    if row is None:
        return b"0" * 306 + b"\n"
    facts: list[int] = []
    for fact in row.facts:
        facts += (0,) * 7 if fact is None else (1, *fact)
    return ROW.pack(1, *facts, *row.bounds).hex().encode() + b"\n"


def decode(data: bytes, size: int) -> Rows | tuple[int, int]:
    """The rows of a certificate text with this number of rows; or the line and cause of its first fault."""
    if data[:11] not in (b"dpv-cert 1\n", b"dpv-cert 2\n"):
        return 1, 1
    rest, rows = data[11:], []
    for line in range(2, size + 2):
        if not rest:
            return line, 4
        text, rest = rest[:307], rest[307:]
        if len(text) < 307 or text[306:] != b"\n" or text[:306].strip(b"0123456789abcdef"):
            return line, 2
        row = decode_row(bytes.fromhex(text[:306].decode()), data[9:10] == b"2")
        if isinstance(row, str):
            return line, 3
        rows.append(row)
    return (size + 2, 4) if rest else rows


def decode_row(data: bytes, has_groups: bool) -> Row | None | str:
    """The row of 153 bytes, or what is wrong."""
    live, *parts = ROW.unpack(data)
    if live == 0:
        return "dead and not zeros" if any(data) else None
    facts: list[Fact | None] = []
    for at in range(0, 56, 7):
        held, *known = parts[at : at + 7]
        if not held and not any(known):
            facts.append(None)
        elif held != 1 or known[0] not in (SHARES if has_groups else SHARES[:3]) or not 1 <= known[5] <= MAX_SEGMENTS:
            return "out of range"
        else:
            facts.append(Fact(*known))
    row = Row(tuple(facts), tuple(parts[56:]))
    return row if live == 1 and is_well_formed(row) else "no group or no flag"
