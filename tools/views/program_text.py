"""Texts of node programs (docs/users/nodes.md), for all that reads one: their lines in parts, their instructions in order, and their numbers."""
import re
from dataclasses import dataclass
from functools import cached_property
from typing import NamedTuple

from node_forms import GREATEST, JUMPS

# What ends a word, and may stand around labels, operands and comments (`is_blank` of dp_lang).
BLANKS = " \t\r"
# How the comment on the first line of a text begins that `dpv build` wrote.
BUILT = "Built from "
NUMERAL, HEX = re.compile("[0-9]+"), re.compile("[0-9a-fA-F]+")


@dataclass(frozen=True)
class Line:
    """A line: its number, from 1, and its text without the blanks at its ends. Its parts have no blanks around them, and each is found once."""

    number: int
    text: str

    @cached_property
    def code(self) -> str:
        """The labels and the instruction."""
        return self.text.partition("#")[0].strip(BLANKS)

    @cached_property
    def comment(self) -> str | None:
        """The comment without the `#`, if there is one."""
        _, mark, comment = self.text.partition("#")
        return comment.strip(BLANKS) if mark else None

    @cached_property
    def labels(self) -> list[str]:
        """The names of its labels. In a faulty text one may be empty."""
        return [name.strip(BLANKS) for name in self.code.split(":")[:-1]]

    @cached_property
    def instruction(self) -> str:
        """The instruction; empty if there is none."""
        return self.code.rpartition(":")[2].strip(BLANKS)

    @cached_property
    def word(self) -> str:
        """The word of the instruction."""
        return re.split(f"[{BLANKS}]", self.instruction, maxsplit=1)[0]

    @cached_property
    def operands(self) -> list[str]:
        """The operands of the instruction: at least one, which is empty if there is none."""
        return [it.strip(BLANKS) for it in self.instruction.removeprefix(self.word).split(",")]


class Instruction(NamedTuple):
    """An instruction: its line; its labels, which may stand in lines before it; and the number of the instruction to which it may jump."""

    line: Line
    labels: list[str]
    target: int | None = None


def line_in(number: int, text: str) -> Line:
    """The line with this number and this text, which may have blanks at its ends."""
    return Line(number, text.strip(BLANKS))


def instructions_in(text: str) -> list[Instruction]:
    """The instructions of a text. The k-th, from 0, is the one whose number in refusals is k."""
    found, labels, places = [], [], {}
    for line in (line_in(number, it) for number, it in enumerate(text.split("\n"), 1)):
        labels += filter(None, line.labels)
        if line.instruction:
            places |= dict.fromkeys(labels, len(found))
            found.append(Instruction(line, labels))
            labels = []
    return [it._replace(target=places.get(it.line.operands[-1])) if it.line.word in JUMPS else it for it in found]


def decimal_in(digits: str) -> int | None:
    """The number of at most 64 bits that decimal digits spell."""
    return number_of(digits, 10) if NUMERAL.fullmatch(digits) else None


def number_in(text: str) -> int | None:
    """The number of at most 64 bits that decimal digits spell, or hexadecimal ones after 0x."""
    if not text.startswith("0x"):
        return decimal_in(text)
    return number_of(text[2:], 16) if HEX.fullmatch(text[2:]) else None


def number_of(digits: str, base: int) -> int | None:
    """The number of at most 64 bits that digits of a base spell. (Python refuses to read thousands of digits.)"""
    digits = digits.lstrip("0") or "0"
    number = int(digits, base) if len(digits) <= 20 else GREATEST + 1
    return number if number <= GREATEST else None
