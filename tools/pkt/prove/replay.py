"""Runs a packet that z3 or the search found through the interpreters of tests/, which know nothing of z3: it confirms a difference, and on
each path it can confirm that both twins say what the interpreters say."""
from __future__ import annotations

from collections import deque
from typing import Any, NamedTuple

from model import machine
from model.machine import Instr
from pkt_model import machine as pkt_machine
from pkt_model.syntax import Program

from .known import Model
from .packets import Event, Seg
from .paths import Path
from .terms import ATOMS, Val, atom, const, leaf, whole

POOLS, ROOM = 8, 2176
# What is handed on: `tx` or `enq`, to which port or ring, and the bytes; none if the list was full.
Handed = tuple[str, int, bytes | None]


class Table(NamedTuple):
    """A table whose routes are all of depth 32, as the model says."""

    model: Model
    number: int

    def __contains__(self, prefix: Any) -> bool:
        return prefix[1] == 32 and self.model.holds(("hit", self.number, const(prefix[0])))

    def __getitem__(self, prefix: Any) -> int:
        return self.model.value(whole(atom("hop", (self.number, const(prefix[0], 32)), 0, 0xFFFFFF)))


class World(pkt_machine.SourceWorld):
    """A world in which the model says which lists are full and which calls are refused."""

    def __init__(self, model: Model, program: Program) -> None:
        self.model, self.handed = model, list[Handed]()
        env = machine.Env([machine.Pool(999, 0, ROOM)] * POOLS, [Table(model, k) for k in range(4)], [machine.Ring(1 << 20, (0,) * 6)] * 8,
                          [machine.Port(0, 64, 1 << 20)] * max(8, program.ports))
        super().__init__(env, [pkt_machine.Source(program)], frozenset(k for k in range(1, 2000) if model.holds(("is", "refused", k))))

    def note(self, kind: str, to: int, packet: machine.Packet) -> bool:
        """Notes what is handed on. Returns whether the list is full."""
        is_full = self.model.holds(("is", "full", len(self.handed) + 1))
        self.handed.append((kind, to, None if is_full else b"".join(bytes(it.data) for it in packet)))
        return is_full


class Node(machine.NodeRun):
    """A node program in such a world."""

    def hand_to(self, p: int, packets: list[machine.Packet] | deque[machine.Packet], size: int) -> bool:
        kind, lists = ("tx", self.world.lists) if any(it is packets for it in self.world.lists) else ("enq", self.world.rings)
        to = next(k for k, it in enumerate(lists) if it is packets)
        return super().hand_to(p, packets, 0 if self.world.note(kind, to, self.packet(p)) else 1 << 30)


class SourceRun(pkt_machine.SourceRun):
    """A source in such a world. What may be dropped for want of room is no reason here to leave the outcome open."""

    def is_full(self, kind: str, packet: machine.Packet, to: int) -> bool:
        return self.world.note(kind, to, packet)

    def has_options(self, name: str, end: int | None) -> None:
        pass


class Case(NamedTuple):
    """A source, its program, the symbolic packet and the number of its port or ring."""

    program: Program
    node: list[Instr]
    packet: list[Seg]
    number: Val


def bytes_of(model: Model, origin: int, begin: int, end: int) -> bytes:
    """Bytes of the packet that came."""
    return bytes(model.value(leaf("byte", (origin, k), 8)) if ("byte", (origin, k)) in ATOMS else 0 for k in range(begin, end))


def data_of(model: Model, packet: list[Seg]) -> bytes:
    """The bytes of a symbolic packet."""
    out = b""
    for it in packet:
        size, head = model.value(it.len) - it.extra, bytes(map(model.value, it.head))
        if it.origin is not None and size > len(head):
            head += bytes_of(model, it.origin, it.base, it.base + size - len(head))
        out += head[:size] + bytes(it.extra)
    return out


def predicted(model: Model, events: list[Event]) -> list[Handed]:
    """What a run hands on, with this packet."""
    handed = [it for it in events if not it.kind.startswith("alloc")]
    return [(it.kind, model.value(it.to), None if it.packet is None else data_of(model, it.packet)) for it in handed]


def ran(model: Model, case: Case, is_node: bool) -> list[Handed] | str:
    """What an interpreter does with the packet that arrived."""
    world, number = World(model, case.program), model.value(case.number)
    packet = [machine.Segment(model.value(it.room), bytearray(bytes_of(model, it.origin, 0, model.value(it.len))), model.value(it.tail), machine.Buffer(0))
              for it in case.packet]
    try:
        if is_node:
            Node(world, case.node, packet, number).go([[0, 0, 0] for _ in case.node])
        else:
            SourceRun(world, world.sources[0], packet, number).go()
    except pkt_machine.Open:
        return "open"
    except machine.Stuck as why:
        return f"stuck: {why}"
    return world.handed


def spelled(handed: list[Handed] | str) -> str:
    """What is handed on, in words."""
    if isinstance(handed, str):
        return handed
    return "; ".join(f"{kind} {to}: " + ("full" if data is None else f"{len(data)} bytes {data.hex()}") for kind, to, data in handed) or "dropped"


def shown(model: Model, case: Case) -> str:
    """A packet on which the two differ, and what both do; nothing if the interpreters do not confirm that."""
    source, other = ran(model, case, False), ran(model, case, True)
    if source in (other, "open"):
        return ""
    data = " | ".join(f"{len(it)} bytes {it.hex()}" for it in (data_of(model, [it]) for it in case.packet))
    free = ", ".join(" ".join(map(str, c[1:])) for c, answer in model.answers.items() if answer)
    return "\n".join([f"    packet from {model.value(case.number)}: {data}" + (f" ({free})" if free else ""),
                      f"    source:  {spelled(source)}", f"    program: {spelled(other)}"])


def checks(path: Path, case: Case, events: list[Event], others: list[Event]) -> int:
    """Runs a packet of a path; raises an exception unless the interpreters do what both twins say. Returns how many runs that were."""
    for model in path.models[-1:]:
        assert all(map(model.holds, path.literals)), "a packet that is not of its path"
        for said, is_node in ((predicted(model, events), False), (predicted(model, others), True)):
            did = ran(model, case, is_node)
            assert did in (said, "open"), f"{'node' if is_node else 'source'} twin: {spelled(said)}\ninterpreter: {spelled(did)}"
    return 2 * len(path.models[-1:])
