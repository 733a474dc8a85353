"""Tail merging: equal ends of paths become one."""
from .graph import TESTS, Graph, Instruction


def unite(graph: Graph) -> bool:
    """Merges equal instructions with equal successors, and removes tests with equal ones; returns whether there were any."""
    same: dict[object, Instruction] = {}
    instead: dict[Instruction | None, Instruction | None] = {None: None}
    for it in reversed(graph.order()):
        it.next, it.target = instead.get(it.next, it.next), instead.get(it.target, it.target)
        is_idle = it.next and (not it.word or it.word in TESTS and it.next is it.target)
        instead[it] = it.next if is_idle else same.setdefault((it.word, it.operands, it.shares, it.counter, it.next, it.target), it)
    for it in instead:
        if it:
            it.target = instead.get(it.target, it.target)
    graph.first = instead[graph.first] or graph.first
    return any(it and it is not other and it.word for it, other in instead.items())
