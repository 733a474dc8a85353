"""Draws a program for `dot` in boxes, with its instructions as the source has them, and arrows for the flow of control."""
from collections.abc import Iterator
from typing import NamedTuple

from certificates import row_text
from node_forms import GREATEST, LAST
from node_programs import Judged
from program_text import Instruction

# What comes after the verdict: the attributes of a picture, of its boxes and of its arrows.
ATTRIBUTES = """";
  labelloc=t;
  fontname=monospace;
  node [shape=box, fontname=monospace, margin="0.05,0.05"];
  edge [fontname=monospace];
"""
ESCAPES = str.maketrans({"<": "&lt;", ">": "&gt;", "&": "&amp;", '"': "&quot;", "\t": " ", "\n": '<BR ALIGN="LEFT"/>'})


class Count(NamedTuple):
    """How often an instruction ran, and its jump was taken: none for one without a condition."""

    ran: int
    taken: int | None


def escaped(text: str) -> str:
    """A text inside an HTML-like label: a newline ends a line, with what is before it to the left."""
    return text.translate(ESCAPES)


def attributes(is_live: bool, is_refused: bool) -> str:
    """The attributes of a box: red if one of its instructions is refused, grey if control never reaches it."""
    if is_refused:
        return ", color=red, penwidth=2"
    return "" if is_live else ", color=grey, fontcolor=grey"


def logarithm(count: int) -> int:
    """The logarithm of a count to base 2, rounded down; 0 for a count of 0."""
    return max(count, 1).bit_length() - 1


class Picture(NamedTuple):
    """A program to be drawn, perhaps with how often each instruction ran. With `all` each basic block is a box; else blocks are joined, if control
    comes to the second only from the first."""

    judged: Judged
    counts: list[Count]
    all: bool

    @property
    def source(self) -> list[Instruction]:
        """Its instructions."""
        return self.judged.instructions

    def is_live(self, number: int) -> bool:
        """Whether control can reach an instruction."""
        return number >= len(self.judged.rows) or self.judged.rows[number].live

    def boxes(self) -> Iterator[range]:
        """The instructions of each box."""
        targets, first = {it.target for it in self.source}, 0
        for last, it in enumerate(self.source):
            following = last + 1
            is_cut = it.target is not None if self.all else self.is_live(last) != self.is_live(following)
            if is_cut or following in targets or following >= len(self.source) or it.line.word in LAST:
                yield range(first, following)
                first = following

    def jumps(self, box: range) -> dict[int, int]:
        """To which instructions those of a box jump, and how often."""
        sums: dict[int, int] = {}
        for number in box:
            target = self.source[number].target
            if target is not None:
                count = self.counts[number] if self.counts else Count(0, 0)
                sums[target] = min(sums.get(target, 0) + (count.ran if count.taken is None else count.taken), GREATEST)
        return sums

    def step(self, number: int) -> str:
        """The line of an instruction: its number, its text and its comment."""
        color, it = ' BGCOLOR="#ff9c9c"' if number == self.judged.refused else "", self.source[number]
        blanks = "&#160;" * (len(str(len(self.source) - 1)) - len(str(number)))
        text, comment = escaped(it.line.instruction), escaped(it.line.comment or "")
        comment = f'<FONT COLOR="#607080"># {comment}</FONT>' if comment else ""
        return f'<TR><TD ALIGN="LEFT"{color}>{blanks}{number}&#160; {text}</TD><TD ALIGN="LEFT"{color}>{comment}</TD></TR>\n'

    def box(self, box: range) -> str:
        """A box: the labels and what is known at its head, a line for each register, and its instructions."""
        first = box[0]
        labels = "".join(f'<TR><TD COLSPAN="2" ALIGN="LEFT"><B>{escaped(label)}:</B></TD></TR>\n' for label in self.source[first].labels)
        known = "".join(
            f'<TR><TD COLSPAN="2" ALIGN="LEFT" BGCOLOR="#e8eef4"><FONT POINT-SIZE="11">{escaped(row_text(row, None, chr(10)))}<BR ALIGN="LEFT"/></FONT></TD></TR>\n'
            for row in self.judged.rows[first:first + 1]
        )
        steps = "".join(self.step(number) for number in box)
        ends = attributes(self.is_live(first), self.judged.refused in box)
        return f'  L{first} [label=<<TABLE BORDER="0" CELLBORDER="0" CELLSPACING="0">\n{labels}{known}{steps}</TABLE>>{ends}];\n'

    def arrow(self, start: int, end: int, style: str, count: int) -> str:
        """An arrow, and if it is counted its count, and its width by the logarithm of that, from 1 to 8 points."""
        label = ""
        if self.counts:
            most = max(counted.ran for counted in self.counts)
            tenths = 10 + min(70 * logarithm(count) // max(logarithm(most), 1), 70)
            label = f', label=" {count}", penwidth={tenths // 10}.{tenths % 10}'
        return f"  L{start} -> L{end} [style={style}{label}];\n"

    def arrows(self, box: range) -> str:
        """The arrows that leave a box: a solid one to the next, and a dashed one to each box to which it jumps."""
        first, last, text = box[0], box[-1], ""
        if self.source[last].line.word not in LAST:
            count = self.counts[last] if self.counts else Count(0, 0)
            text = self.arrow(first, last + 1, "solid", count.ran - (count.taken or 0))
        return text + "".join(self.arrow(first, to, "dashed", count) for to, count in self.jumps(box).items())

    def text(self) -> str:
        """The picture. One of joined boxes is drawn no larger than a page of A4."""
        size = "" if self.all else '  size="7.5,10.9";\n'
        boxes = "".join(self.box(box) + self.arrows(box) for box in self.boxes())
        return f'digraph program {{\n  label="{self.judged.verdict}{ATTRIBUTES}{size}{boxes}}}\n'
