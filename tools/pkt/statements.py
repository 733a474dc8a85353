"""Lowering of statements: assignments, branches, loops, and packets that are made or sent."""
from __future__ import annotations

import contextlib
import operator
from collections import Counter
from collections.abc import Callable
from dataclasses import replace

from . import checksums, conditions, packets, registers
from .graph import Graph, Instruction
from .headers import Start
from .parser import Program
from .registers import Value
from .state import NEAR, NOTHING, SOMEBODY, Far, Needs, Packet
from .syntax import (
    BIGGEST, PORT, THIS, And, Assign, Block, Chain, Clone, Compare, Count, Cut, Drop, Field, Found, Free, If, Inline, Length, Let, Lookup, Mend, Name,
    Need, New, Node, NoRegister, Not, Number, Or, Pop, Push, Send, Truncate, While, has, parts, require,
)
from .ways import Join, Unit, Way, paths

MAX_PORT = 7
SIGNS = {"==": operator.eq, "!=": operator.ne, "<": operator.lt, ">": operator.gt, "<=": operator.le, ">=": operator.ge}
UNREACHED = "control never comes here: what was asked before decides it"
ASKED = (Name, Field, Found, Length)
ANEW = "delete it; a variable begins anew with each packet, and nothing is kept from one to the next"


def compile_program(program: Program) -> Graph:
    """The instructions of a program. Only where eight registers are too few, checksums are updated one by one, and then also the values of pushed
    headers are calculated in turn."""
    for is_together in (True, False):
        with contextlib.suppress(NoRegister):
            return compile_unit(program, Unit(program, is_together))
    return compile_unit(program, Unit(program, is_together=False, is_in_turn=True))


def compile_unit(program: Program, unit: Unit) -> Graph:
    """The instructions of a program."""
    first = Instruction()
    way, at = Way(unit=unit, last=first), 0
    for name in program.given:
        way.found[name] = Start(False, at)
        at += program.headers[name].size
    sharers = frozenset({SOMEBODY} if program.is_shared else ())
    way.packets[0] = Packet(sharers, program.headroom, max(program.length, at), program.segments)
    way.bounds[0] = MAX_PORT
    needs = unit.needs_of(program.otherwise)
    way.forget(needs | unit.needs_of(program.statements))
    end = Join[Way](needs)
    block([way], program.statements, end)
    for way in end.ways:
        way.drop()
    refuse_unreached(program.statements, unit.reached, counters_of(program.statements))
    note_lacking(program, unit)
    return Graph(first)


def note_lacking(program: Program, unit: Unit) -> None:
    """Notes the statements that need a header which no packet has that comes there."""
    end = "`otherwise` gets them all" if program.otherwise else "all are dropped"
    for at, name in unit.lacking.items():
        if name and at not in unit.served:
            program.notes[at] = f"no packet that comes here has {name}, and {end}; if {name} {{ .. }} around this lets them go on"


def block(ways: list[Way], text: Block, after: Join[Way]) -> None:
    """The paths through a block, after which its variables are gone and its packets dropped."""
    if not ways:
        return
    variables, held, end = set(ways[0].variables), set(ways[0].held), Join[Way](after.needs)
    early = Counter[str]()
    for number, it in enumerate(text):
        # Headers that the conditions of at least two statements in a row use are looked for before the first.
        if isinstance(it, (If, Need)) and not early:
            early = ways[0].unit.used_in_row(text, number)
        unit, follows = ways[0].unit, text[number + 1 : number + 2]
        # What this statement asks of the length of a header, and the next one does not, is better known before the headers after it are looked for.
        asked = unit.lengths_asked(it) - unit.lengths_asked(follows) if isinstance(it, (If, Need)) and follows else set[str]()
        wanted = Counter({name: early[name] for name in early if not asked or asked.isdisjoint(unit.headers.looked_for(name) - {name})})
        later = end.needs | unit.needs_of(text, number)
        ways = [s for way in ways for s in with_early(way, it, wanted, later)]
        early = early - ways[0].unit.used_in(it) if isinstance(it, (If, Need)) else Counter()
        ready = Join[Way](end.needs | ways[0].unit.needs_of(text, number + 1))
        for way in ways:
            for s in paths(lambda done: statement(way, it, done), ready.needs):
                s.at = it.at
                if not any(s.is_far(name) for name in s.found):
                    packets.come_near(s)
                s.jump(ready)
        ways = list(ready.begin())
        if not ways:
            return
    for s in ways:
        s.variables = {name: r for name, r in s.variables.items() if name in variables or name.startswith("$")}
        for name in [name for name in s.held if name not in held]:
            packets.free_packet(s, name)
        s.jump(after)


def body(text: Block | None, join: Join[Way], after: Join[Way]) -> None:
    """A block that paths lead to; if it is an `else` part that is missing, all packets are dropped."""
    if text is None:
        for s in join.ways:
            s.drop()
    elif join.ways:
        join.needs = after.needs | join.ways[0].unit.needs_of(text)
        block(list(join.begin()), text, after)


def counters_of(text: Block) -> set[str]:
    """The variables that get nothing but what is calculated from constants and themselves."""
    found, others = set[str](), set[str]()
    for it in parts(text):
        if not isinstance(it, (Let, Lookup, Assign)):
            continue
        name = it.name if isinstance(it, (Let, Lookup)) else it.target.name
        is_own = not isinstance(it, Lookup) and not has(it, Field) and {part.name for part in parts(it) if isinstance(part, Name)} <= {name}
        (found if is_own else others).add(name)
    return found - others


def refuse_unreached(block: Block, reached: set[int], counters: set[str]) -> None:
    """Refuses statements that control never reaches, except in `else` parts and under conditions that constants decide."""
    for number, it in enumerate(block):
        # The second half of an assignment to an IPv6 address stands at the place of the first.
        is_half = number > 0 and it.at == block[number - 1].at
        require(id(it) in reached or is_half, it.at, UNREACHED, "delete it, or ask another question before")
        while isinstance(it, (If, While)) and decided(it.condition) is None:
            is_counted = all(isinstance(part, Name) and part.name in counters for part in parts(it.condition) if isinstance(part, ASKED))
            require(not is_counted or not it.body or id(it.body[0]) in reached, it.body[0].at if it.body else it.at, UNREACHED, ANEW)
            refuse_unreached(it.body, reached, counters)
            rest = it.fallback if isinstance(it, If) else ()
            if len(rest) != 1 or not isinstance(rest[0], If):
                refuse_unreached(rest, reached, counters)
                break
            it = rest[0]
            require(id(it) in reached, it.at, UNREACHED, "delete it, or ask another question before")


def decided(it: Node) -> bool | None:
    """What the constants of a condition make of it, or nothing."""
    if isinstance(it, Compare) and isinstance(it.left, Number) and isinstance(it.right, Number):
        return SIGNS[it.sign](it.left.value, it.right.value)
    if isinstance(it, Not):
        inner = decided(it.condition)
        return None if inner is None else not inner
    if not isinstance(it, (And, Or)):
        return None
    kind, sides = type(it), list[bool | None]()
    while isinstance(it, kind):
        sides.append(decided(it.right))
        it = it.left
    sides.append(decided(it))
    deciding = kind is Or
    return deciding if deciding in sides else None if None in sides else not deciding


def statement(way: Way, it: Node, after: Join[Way]) -> None:
    """One statement: the headers that it needs are found, or `otherwise` runs."""
    way.unit.reached.add(id(it))
    way.at, missing = it.at, Join[Way]()
    if type(it) in BLOCKS:
        return BLOCKS[type(it)](way, it, after)
    for s in paths(lambda found: touch_needed(way, it, found, missing)):
        s.unit.served.add(it.at)
        s.unit.needs, failed = after.needs, Join[Way]()
        if type(it) in LAST:
            LAST[type(it)](s, it, after, missing)
        else:
            DO[type(it)](s, it, failed)
            s.jump(after)
            body(it.fallback if isinstance(it, (Lookup, Clone, New)) else None, failed, after)
    for s in missing.begin():
        s.unit.lacking[it.at] = next((name for name in names_needed(s, it) if s.found.get(name) is None), "")
        otherwise(s)


def names_needed(way: Way, it: Node) -> list[str]:
    """The headers that a statement names, without its `else` part."""
    if isinstance(it, Pop):
        return list(it.path)
    return conditions.headers_of(way, replace(it, fallback=None) if isinstance(it, (Lookup, Send, Clone, New)) else it)


def touch_needed(way: Way, it: Node, found: Join[Way], missing: Join[Way]) -> None:
    """Looks for the headers that a statement needs."""
    names = names_needed(way, it)
    if not isinstance(it, Push) or not way.unit.tag_follows(it):
        return conditions.touch(way, names, found, missing)
    tag = it.headers[0].header
    for s in paths(lambda there: conditions.touch(way, names, there, missing)):
        before = conditions.header_before(s, tag)
        for t, _ in conditions.first_of(s, [before] if before else s.headers.tried(tag), missing):
            t.jump(found)


def otherwise(way: Way) -> None:
    """The `otherwise` part, for a packet without a header that a statement needs."""
    it, end, way.unit.needs = way.unit.program.otherwise, Join[Way](NOTHING), NOTHING
    if isinstance(it, Send):
        do_send(way, it, end, end)
    else:
        way.drop()


def with_early(way: Way, it: Node, early: Counter[str], later: Needs) -> list[Way]:
    """The paths on which the headers that are often used later were looked for."""
    names = way.headers.in_order(name for name, count in early.items() if count > 1)
    way.at = it.at
    return conditions.find_early(way, it.condition, names, later) if names and isinstance(it, (If, Need)) else [way]


def do_if(way: Way, it: If | Need, after: Join[Way]) -> None:
    """Its blocks; the `if` after an `else` is part of it."""
    ways = [way]
    while ways:
        yes, no = (Join[Way](after.needs | way.unit.needs_of(block)) for block in (it.body, it.fallback))
        for way in ways:
            way.at = it.at
            conditions.decide(way, it.condition, yes, no)
        body(it.body, yes, after)
        rest = it.fallback
        if rest is None or len(rest) != 1 or not isinstance(rest[0], If):
            return body(rest, no, after)
        ways, it = list(no.begin()), rest[0]
        if ways:
            way.unit.reached.add(id(it))


def do_while(way: Way, it: While, after: Join[Way]) -> None:
    """The facts at its start must hold in each round."""
    more = after.needs | way.unit.needs_of((it.condition, it.body))
    enter_round(way, more)
    weaken(way, it)
    way.emit("")
    head, held, variables = way.last, dict(way.held), dict(way.variables)
    yes, again = Join[Way](more), Join[Way](more)
    conditions.decide(way, it.condition, yes, after)
    body(it.body, yes, again)
    for s in again.begin():
        s.at = it.at
        enter_round(s, more)
        is_same = (s.held, s.variables) == (held, variables)
        require(is_same, s.at, "a round of this loop ends without a packet that it began with", "make the packet within the loop")
        s.emit("jmp").last.target = head


def enter_round(way: Way, needs: Needs) -> None:
    """Each round looks for headers again."""
    packets.come_near(way)
    way.forget(needs)
    way.found, way.loaded, way.bits = {}, {}, {}


def weaken(way: Way, it: While) -> None:
    """Forgets the facts that a round may change."""
    require(not has(it.body, Chain), way.at, "`chain` cannot be in a loop: a packet has at most 64 segments", "chain before the loop or after it")
    if has(it.body, Push, Pop, Cut, Truncate):
        for p in way.packets:
            way.know(p, first=0, headroom=0)
    clones = [part for part in parts(it.body) if isinstance(part, Clone)]
    if clones and has(it.body, Send):
        way.dissolve(way.held[THIS], is_shared=True)
        way.sharer = way.sharer if way.sharer[0] else (clones[0].name, clones[0].at.line)
    for part in parts(it.body):
        if isinstance(part, Assign) and isinstance(part.target, Name) and part.target.name in way.variables:
            way.bounds[way.variables[part.target.name]] = BIGGEST


def do_inline(way: Way, it: Inline, after: Join[Way]) -> None:
    block([way], it.body, after)


def do_count(way: Way, it: Count, _: Join[Way]) -> None:
    """An instruction that changes nothing, whose runs are counted."""
    way.emit("add", "r0", 0)
    way.last.counter = it.name


def do_let(way: Way, it: Let, _: Join[Way]) -> None:
    way.variables[it.name] = registers.own(way, registers.evaluate(way, it.value)).r


def do_lookup(way: Way, it: Lookup, no: Join[Way]) -> None:
    key = result = registers.in_register(way, registers.evaluate(way, it.key))
    if not key.own:
        registers.release(way, key)
        result = registers.fresh(way)
    way.emit("lookup", result, it.table, key, to=no)
    way.bounds[result.r] = 0xFFFFFF
    way.variables[it.name] = result.r


def do_assign(way: Way, it: Assign, _: Join[Way]) -> None:
    if isinstance(it.target, Name):
        registers.assign(way, it.target, it.value)
    else:
        registers.store(way, registers.span_of(way, it.target), registers.evaluate(way, it.value))


def do_clone(way: Way, it: Clone, no: Join[Way]) -> None:
    p = packets.free_register(way)
    way.emit("clone", f"p{p}", f"p{way.held[THIS]}", it.pool, to=no)
    way.share(p, way.held[THIS])
    way.held[it.name], way.sharer = p, (it.name, it.at.line)
    if way.far != NEAR:
        way.emit("trim", f"p{p}", way.far.padding)


def do_new(way: Way, it: New, no: Join[Way]) -> None:
    p = packets.free_register(way)
    way.emit("alloc", f"p{p}", it.pool, to=no)
    way.held[it.name], way.packets[p] = p, Packet()


def do_drop(way: Way, it: Drop, after: Join[Way], _: Join[Way]) -> None:
    way.drop()


def do_send(way: Way, it: Send, after: Join[Way], _: Join[Way]) -> None:
    """Hands a packet to a port or a ring."""
    port, failed, there = port_of(way, it), Join[Way](), way
    p, far, found, ports = packets.register_of(way, it.packet), way.far, way.found, way.unit.program.ports
    if it.packet == THIS:
        packets.come_near(way)
        way.at = it.at
    is_entry = it.port == Name(it.at, PORT) and not way.unit.program.is_for_ring
    if port and not is_entry and way.bounds[port.r] >= ports:
        there = way.emit("jlt", port, ports, to=Join())
        there.bounds[port.r] = ports - 1
        way.jump(failed)
    there.emit("tx" if port else "enq", f"p{p}", port or it.port, to=failed)
    there.dissolve(p)
    del there.packets[there.held.pop(it.packet)]
    if it.packet == THIS:
        there.drop()
    else:
        there.jump(after)
    for s in failed.begin():
        not_sent(s, it, far, found, after)


def port_of(way: Way, it: Send) -> Value | None:
    """The port in a register; none for a ring."""
    if isinstance(it.port, int):
        return None
    if isinstance(it.port, Number):
        number, ports = it.port.value, way.unit.program.ports
        cure = f"ports {number + 1}" if number <= MAX_PORT else f"the ports are 0 to {ports - 1}"
        require(number < ports, it.port.at, f"there is no port {number}: the program has {ports}", cure)
    return registers.in_register(way, registers.evaluate(way, it.port))


def not_sent(way: Way, it: Send, far: Far, found: dict[str, Start | None], after: Join[Way]) -> None:
    """The `else` part, which may use headers at the offset in a register again."""
    wanted = after.needs | way.unit.needs_of(it.fallback)
    was_far = any(at is not None and at.is_far and (name, True) in wanted for name, at in found.items())
    if was_far and way.far == NEAR and not way.packets[way.held[THIS]].sharers:
        way.emit("append", f"p{way.held[THIS]}", far.padding)
        way.far, way.found = far, dict(found)
    if it.fallback is not None:
        block([way], it.fallback, after)
    elif it.packet == THIS:
        way.drop()
    else:
        packets.free_packet(way, it.packet)
        way.jump(after)


# What compiles each statement. Those with blocks lead to the place after them; some others do too, and may find that a header is missing; the
# rest go on, and lead to another place where they fail.
BLOCKS: dict[type[Node], Callable[..., None]] = {If: do_if, Need: do_if, While: do_while, Inline: do_inline}
LAST: dict[type[Node], Callable[..., None]] = {
    Send: do_send, Drop: do_drop, Mend: checksums.do_mend, Pop: packets.do_pop, Cut: packets.do_cut,
}  # fmt: skip
DO: dict[type[Node], Callable[..., None]] = {
    Let: do_let, Lookup: do_lookup, Assign: do_assign, Clone: do_clone, New: do_new, Count: do_count, Free: packets.do_free,
    Chain: packets.do_chain, Truncate: packets.do_truncate, Push: packets.do_push,
}  # fmt: skip
