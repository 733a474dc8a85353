"""The programs of a run, as a document has them: how often each instruction ran, and the lines of sources that they are counted for."""
from typing import NamedTuple

from documents import Document
from program_text import BLANKS, BUILT, Line, decimal_in, instructions_in, line_in

# How the first line of a program that `dpv build` wrote goes on after the name.
BY = " by `dpv build`"


class Origin(NamedTuple):
    """A line of a source: of a program that `dpv build` wrote, a line of what it was built from; else its own. `line` is its number, if it has one."""

    file: str
    line: int | None
    text: str
    is_built: bool


class Step(NamedTuple):
    """An instruction: its line, the number of the one to which it may jump, and how often it ran, jumped and was cut."""

    line: Line
    to: int | None
    ran: int
    taken: int
    cut: int

    @property
    def refused(self) -> int:
        """How often it was not done, if it may be refused."""
        return self.taken + self.cut

    @property
    def passed(self) -> int:
        """How often it was done."""
        return self.ran - self.taken - self.cut


class Program(NamedTuple):
    """A node with its program: the name of its file, and of what `dpv build` wrote it from, if it did."""

    node: str
    name: str
    built: str | None
    steps: list[Step]

    @property
    def file(self) -> str:
        """The name of the file with the source."""
        return self.name if self.built is None else self.built


def built_from(first: Line) -> str | None:
    """The name of the file that `dpv build` wrote a program from, if it did, as its first line says."""
    comment = first.comment
    if comment is None or not comment.startswith(BUILT):
        return None
    name, by, _ = comment.removeprefix(BUILT).partition(BY)
    return name if by else None


def program_of(node: Document) -> Program:
    """The program of a node. The lines with instructions have counts."""
    texts = [line["text"] for line in node["lines"]]
    counted = [line for line in node["lines"] if "ran" in line]
    numbers = [[int(line[name]) for name in ("ran", "taken", "cut")] for line in counted]
    steps = [Step(it.line, it.target, *counts) for it, counts in zip(instructions_in("\n".join(texts)), numbers)]
    return Program(node["node"], node["file"], built_from(line_in(1, "".join(texts[:1]))), steps)


def counter_in(comment: str) -> tuple[str, str] | None:
    """The name of the counter that a comment begins with, and what follows: `dns` and `4: count dns` of `count dns: 4: count dns`."""
    name, colon, rest = comment.removeprefix("count ").partition(":")
    if not comment.startswith("count ") or not colon or " " in name:
        return None
    return name, rest.lstrip(BLANKS)


def built_line(comment: str, name: str) -> Origin | None:
    """The line that an instruction was built from, as a comment of `dpv build` says it: `4: send port`, or `net.pkt:4: send port` for a line of a file
    that the one with this name includes."""
    counter = counter_in(comment)
    place, colon, text = (counter[1] if counter else comment).partition(": ")
    file, between, digits = place.rpartition(":")
    line = decimal_in(digits.removeprefix("+"))
    return None if not colon or line is None else Origin(file if between else name, line, text, True)


def origin_of(program: Program, step: Step, before: Origin | None) -> Origin:
    """The line that an instruction is counted for; `before` is that of the instruction before it, which one of a built program without a line
    belongs to."""
    if program.built is None:
        return Origin(program.file, step.line.number, step.line.text, False)
    text = step.line.code if step.line.comment is None else step.line.comment
    return built_line(text, program.file) or before or Origin(program.file, None, text, True)
