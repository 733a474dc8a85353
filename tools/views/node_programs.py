"""Programs of nodes with the verdicts on them and their certificates, and how one is listed."""
from itertools import pairwise
from typing import NamedTuple

from certificates import Row, row_in, row_text
from documents import Document
from program_text import Instruction, instructions_in


class Judged(NamedTuple):
    """A program with the verdict on it, and the number of the instruction at which it is refused."""

    node: str
    file: str
    verdict: str
    refused: int | None
    instructions: list[Instruction]
    rows: list[Row]


def judged_in(node: Document) -> Judged:
    """A node of a document."""
    rows = [row_in(line) for line in node["certificate"].splitlines()[1:]]
    return Judged(node["node"], node["file"], node["verdict"], node["refused"], instructions_in(node["program"]), rows)


def shorter(row: Row, before: Row | None) -> str:
    """A row: its difference from the row before, if that is not longer; else all of it."""
    return min(row_text(row, before, "; "), row_text(row, None, "; "), key=len)


def listing_of(judged: Judged) -> str:
    """The verdict on a program and a line for each instruction: its number, its labels and its text as the source has them, and what is known
    before it. The line of a refused one begins with `>`."""
    labels = ["".join(f"{label}: " for label in it.labels) for it in judged.instructions]
    texts = [it.line.instruction for it in judged.instructions]
    wide = max(map(len, labels), default=0)
    wide, text_wide = wide + 1 if wide else 0, max(map(len, texts), default=0) + 2
    width, lines = len(str(max(len(labels) - 1, 0))), [judged.verdict]
    for number, (text, (before, row)) in enumerate(zip(texts, pairwise([None, *judged.rows]))):
        mark = ">" if number == judged.refused else " "
        lines.append(f"{mark} {number:>{width}}  {labels[number]:<{wide}}{text:<{text_wide}}{shorter(row, before)}")
    return "".join(f"{line}\n" for line in lines)
