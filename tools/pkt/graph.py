"""The program as a graph of instructions."""
from __future__ import annotations

from dataclasses import dataclass

TESTS = {"jeq", "jlt", "iflen", "iflast", "ifhead", "iftail"}
# Instructions that overwrite their first operand without reading it, that write it at all, and that change no packet.
SETS = {"load", "loadx", "set", "mov", "lookup"}
WRITES = {*SETS, "add", "sub", "and", "or", "xor", "shl", "shr"}
HARMLESS = {*WRITES, *TESTS}


@dataclass(eq=False)
class Instruction:
    """An instruction and its line of the source, 0 for none; the instruction after it, and the target of its jump. One without a word means
    the instruction after it. `shares` is the sharing that it relies on, `left` the line of a jump after it, `counter` the name by which its runs
    are counted. A `jmp` starts a round of a loop."""

    word: str = ""
    operands: tuple[str, ...] = ()
    line: int = 0
    shares: object = ()
    left: int = 0
    counter: str = ""
    next: Instruction | None = None
    target: Instruction | None = None

    def text(self, names: dict[Instruction, str]) -> str:
        """The text of the instruction, with these labels."""
        return f"{self.word} {','.join([*self.operands, *([names[self.target]] if self.target else [])])}".rstrip()

    @property
    def packet(self) -> int:
        """The register of its packet, or -1."""
        return int(self.operands[0][1:]) if self.operands and self.operands[0][0] == "p" else -1

    @property
    def count(self) -> int:
        """The number of bytes that it adds to a packet or tests, or 0."""
        return int(self.operands[1]) if len(self.operands) == 2 and self.operands[1].isdigit() else 0

    @property
    def leads_to(self) -> list[Instruction]:
        """Its successors; the one after it is the last."""
        return [it for it in (self.target, self.next) if it]


@dataclass
class Graph:
    """A graph of instructions, given the first one."""

    first: Instruction

    def order(self) -> list[Instruction]:
        """All instructions, each before its successors, except in loops."""
        order, seen, pending = list[Instruction](), {self.first}, [(self.first, iter(self.first.leads_to))]
        while pending:
            it, successors = pending[-1]
            other = next((other for other in successors if other not in seen), None)
            if other:
                seen.add(other)
                pending.append((other, iter(other.leads_to)))
            else:
                order.append(it)
                pending.pop()
        return order[::-1]

    def kept(self) -> list[tuple[Instruction, dict[str, object]]]:
        """All instructions as they are now."""
        return [(it, dict(vars(it))) for it in self.order()]

    def restore(self, kept: list[tuple[Instruction, dict[str, object]]]) -> None:
        """Makes the instructions what they were."""
        for it, parts in kept:
            vars(it).update(parts)
        self.first = kept[0][0]
