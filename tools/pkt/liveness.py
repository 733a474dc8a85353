"""Liveness: the number registers that are still read."""
from .graph import SETS, WRITES, Graph, Instruction


def registers_read(graph: Graph, is_strict: bool = False) -> dict[Instruction, set[str]]:
    """The live number registers at each instruction; without loops one round finds them. Where it is strict, a number that nobody reads reads none."""
    order, before = graph.order()[::-1], None
    has_loops = any(it.word == "jmp" for it in order)
    read: dict[Instruction, set[str]] = {it: set() for it in order}
    while read != before:
        before = dict(read) if has_loops else read
        for it in order:
            written = {*it.operands[:1]} if it.word in WRITES else set()
            used = {name for name in it.operands[it.word in SETS :] if name[:1] == "r"}
            after = set[str]().union(*(read[other] for other in it.leads_to))
            is_idle = is_strict and not it.target and not it.counter and written and written.isdisjoint(after)
            read[it] = (after - written) | (set() if is_idle else used)
    return read
