"""What a run of a program can cost, as include/dpv.h defines it."""
from typing import NamedTuple

from .machine import Instr
from .programs import FORMS

# What a program that can jump back costs, as a multiple of its length.
ROUNDS = 257


class Cost(NamedTuple):
    """The most instructions of a run, whether the program can jump back, and the first label at which it can, else 0."""

    steps: int
    jumps_back: int
    label: int


def named(instr: Instr) -> list[int]:
    """The label that an instruction names, if it names one."""
    return [instr.args[-1]] if FORMS[instr.word][-1:] == ["L"] else []


def cost_of(program: list[Instr]) -> Cost:
    """The cost of a program: the length of its longest way, each label after the other from the first."""
    for label, instr in enumerate(program):
        if any(to <= label for to in named(instr)):
            return Cost(ROUNDS * len(program), 1, label)
    # (from the first label to the last: how many labels the longest way to it has, 0 if no way leads there)
    reached = [1] + [0] * len(program)
    for label, instr in enumerate(program):
        if reached[label]:
            nexts = named(instr) + ([] if instr.word in ("jmp", "exit") else [label + 1])
            for to in nexts:
                reached[to] = max(reached[to], reached[label] + 1)
    return Cost(max(reached[: len(program)]), 0, 0)
