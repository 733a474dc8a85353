"""Peephole optimization: length tests that are made once, as early as possible, and removed where they cannot fail; ways past decided tests."""
from collections.abc import Callable
from typing import NamedTuple

from .graph import HARMLESS, TESTS, WRITES, Graph, Instruction
from .liveness import registers_read
from .reach import leave_out
from .state import Packet
from .tail_merging import unite
from .writer import length_of

ENDLESS = 1 << 64


class Known(NamedTuple):
    """What is known of a register, or of the length of a packet: the least and the greatest value, and the operands of the load that has it."""

    low: int = 0
    high: int = ENDLESS - 1
    source: tuple[str, ...] = ()

    def joined(self, other: "Known") -> "Known":
        """What is known on both of two ways."""
        return Known(min(self.low, other.low), max(self.high, other.high), self.source if self.source == other.source else ())


Facts = dict[str, Known]


def shorten(graph: Graph, limit: int = 1 << 20) -> None:
    """Removes unnecessary instructions, until nothing changes; of more than a limit only equal ones."""
    while unite(graph) or len(graph.order()) <= limit and (widen(graph) or forget_known(graph)):
        pass
    if len(graph.order()) <= limit:
        shorten_by(graph, pass_decided)
        shorten_by(graph, leave_out)


def shorten_by(graph: Graph, work: Callable[[Graph], bool]) -> None:
    """Changes a graph until nothing changes, unless it becomes longer."""
    kept, size = graph.kept(), length_of(graph)
    while work(graph):
        while unite(graph) or widen(graph) or forget_known(graph):
            pass
    if length_of(graph) > size:
        graph.restore(kept)


def pass_decided(graph: Graph) -> bool:
    """Leads each way past the tests that are decided on it, and the loads of what a register has; returns whether any changed. Nothing is known
    at the start of a loop."""
    order, changed = graph.order(), False
    heads = {it.target for it in order if it.word == "jmp"}
    known: dict[Instruction, Facts] = {it: {} for it in (graph.first, *heads) if it}
    for it in order:
        there, after = facts_after(it, known.get(it, {}))
        if it.word != "jmp":
            target, following = decided(it.target, there, heads), decided(it.next, after, heads)
            changed = changed or (target, following) != (it.target, it.next)
            it.target, it.next = target, following
        for other, facts in ((it.target, there), (it.next, after)):
            if other:
                before = known.setdefault(other, facts)
                known[other] = {name: fact.joined(facts[name]) for name, fact in before.items() if name in facts}
    return changed


def decided(it: Instruction | None, facts: Facts, heads: set[Instruction | None]) -> Instruction | None:
    """The first instruction from one on that is no decided test, and no load of what its register has. Loops begin at their heads."""
    while it and len(it.operands) > 1 and it not in heads:
        known = facts.get(it.operands[0], Known())
        value = int(it.operands[1]) if it.operands[1].isdigit() else -1
        if it.word == "load" and known.source == it.operands[1:]:
            it = it.next
        elif it.word not in ("jeq", "jlt", "iflen") or value < 0:
            break
        elif it.word == "jeq" and known.low == known.high == value or it.word != "jeq" and known.high < value:
            it = it.target
        elif it.word == "jeq" and not known.low <= value <= known.high or it.word != "jeq" and known.low >= value:
            it = it.next
        else:
            break
    return it


def facts_after(it: Instruction, facts: Facts) -> tuple[Facts, Facts]:
    """What is known where an instruction jumps, and after it: of greatest values no more than the checker knows."""
    name, last = (it.operands[0], it.operands[-1]) if it.operands else ("", "")
    known, value = facts.get(name, Known()), int(last) if last.isdigit() else -1
    if it.word == "jeq" and value >= 0:
        low = known.low + (known.low == value)
        return facts | {name: known._replace(low=value, high=value)}, facts | {name: known._replace(low=low)}
    if it.word in ("jlt", "iflen") and value >= 0:
        return facts | {name: known._replace(high=min(known.high, value - 1))}, facts | {name: known._replace(low=max(known.low, value))}
    if it.word in TESTS:
        return facts, facts
    if it.word in ("store", "storex"):
        after = {other: fact._replace(source=()) if fact.source[:1] == (name,) else fact for other, fact in facts.items()}
        return after, after
    changed = it.operands[:1] if it.word in WRITES or it.word == "clone" else it.operands
    after = {other: fact for other, fact in facts.items() if other not in changed and fact.source[:1] != (name,)}
    if it.word in ("load", "loadx"):
        after[name] = Known(0, (1 << 8 * value) - 1, it.operands[1:] if it.word == "load" else ())
    return after, after


def widen(graph: Graph) -> bool:
    """Widens length tests to later ones with the same target, and jumps there at once if all do; returns whether any changed."""
    order, read, changed = graph.order()[::-1], registers_read(graph), False
    for packet, end in dict.fromkeys((it.packet, it.target) for it in order if it.word == "iflen"):
        shorter = sure_to_come(order, packet, end, read[end])
        for it in order:
            if it.word == "iflen" and (it.packet, it.target) == (packet, end) and it.count < shorter[it.next]:
                changed = True
                if shorter[it.next] == ENDLESS:
                    it.next = end
                else:
                    it.operands = it.operands[0], str(shorter[it.next])
    return changed


def forget_known(graph: Graph) -> bool:
    """Removes length tests that cannot fail; returns whether there was one. Nothing is known at the start of a loop."""
    order, changed = graph.order(), False
    known: dict[Instruction, dict[int, Packet]] = {it: {} for it in (graph.first, *(it.target for it in order if it.word == "jmp")) if it}
    for it in (it for it in order if it in known):
        here, there = known[it], dict(known[it])
        packet = there.pop(it.packet, Packet())
        if it.word == "iflen" and packet.first >= it.count:
            it.word, it.operands, it.target, changed = "", (), None, True
            there = here
        elif it.word == "clone":
            there[it.packet] = here.get(int(it.operands[1][1:]), Packet())
        elif it.word == "chain":
            there.pop(int(it.operands[1][1:]), None)
        elif it.packet >= 0 and it.word not in ("alloc", "free", "tx", "enq"):
            there[it.packet] = packet.after(it.word, it.count)
        for other, packets in ((it.target, here), (it.next, there)):
            if other:
                before = known.setdefault(other, packets)
                known[other] = {p: fact.joined(packets.get(p, Packet())) for p, fact in before.items()}
    return changed


def sure_to_come(order: list[Instruction], packet: int, end: Instruction, read: set[str]) -> dict[Instruction, int]:
    """For each instruction, the last one first, a length: all paths from there on lead shorter packets to the end, and change nothing read there."""
    shorter = {end: ENDLESS}
    for it in order:
        there, after = shorter.get(it.target, 0) if it.target else ENDLESS, shorter.get(it.next, 0)
        if it.counter or it.word not in HARMLESS or it.word in WRITES and it.operands[0] in read:
            found = 0
        elif it.word == "iflen" and it.packet == packet:
            found = max(it.count, after) if there >= it.count else there
        else:
            found = min(there, after)
        shorter.setdefault(it, found)
    return shorter
