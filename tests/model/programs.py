"""Program texts, as docs/users/nodes.md defines them."""
import re
from typing import NamedTuple

from .machine import BIGGEST, Instr, Number

FORMS = {
    word: operands.split()
    for word, operands in {
        "alloc": "p pool L",
        "free": "p",
        "clone": "p p pool L",
        **{word: "p n" for word in ("prepend", "adj", "append", "trim")},
        "chain": "p p",
        **{word: "p n L" for word in ("ifhead", "iftail", "iflen", "iflast")},
        "load": "r p n w",
        "store": "p n w r",
        "loadx": "r p r n w",
        "storex": "p r n w r",
        "set": "r c",
        "mov": "r r",
        **{word: "r x" for word in ("add", "sub", "and", "or", "xor")},
        **{word: "r bits" for word in ("shl", "shr")},
        "jmp": "L",
        "jeq": "r x L",
        "jlt": "r least L",
        "lookup": "r table r L",
        "tx": "p r L",
        "enq": "p pool L",
        "exit": "",
    }.items()
}
RANGES = {
    "n": range(65_536),
    "c": range(BIGGEST + 1),
    "bits": range(64),
    "least": range(1, BIGGEST + 1),
    "pool": range(8),
    "table": range(4),
    "w": (1, 2, 4, 8),
}
BLANKS = " \t\r"
BLANK = re.compile(f"[{BLANKS}]")
ALLOWED = bytes([*b"\t\r", *range(32, 127)])
REGISTERS = {kind: {f"{kind}{k}": Number(k) for k in range(8)} for kind in "pr"}
NAME = re.compile(r"[A-Za-z_][A-Za-z0-9_]{0,30}")
NUMBER = re.compile(r"[0-9]+|0x[0-9A-Fa-f]+")
MOST = 1024


class Fault(NamedTuple):
    """Why a text is not a program."""

    line: int
    cause: int


class Line(NamedTuple):
    """The contents of a line: the labels, and the word and operands of an instruction, if there is one."""

    labels: list[str]
    word: str | None
    operands: list[str]


def cut(text: str) -> Line:
    """The parts of a line without its comment."""
    *labels, rest = text.strip(BLANKS).split(":")
    labels = [label.lstrip(BLANKS) for label in labels]
    rest = rest.lstrip(BLANKS)
    if not rest:
        return Line(labels, None, [])
    word = BLANK.split(rest, maxsplit=1)[0]
    behind = rest[len(word) :].strip(BLANKS)
    return Line(labels, word, [part.strip(BLANKS) for part in behind.split(",")] if behind else [])


def number(text: str) -> int | None:
    """The number that a text spells; of the greatest ones only that they are greater than all others."""
    if not NUMBER.fullmatch(text):
        return None
    base, digits = (16, text[2:]) if text.startswith("0x") else (10, text)
    return int(digits.lstrip("0")[:40] or "0", base)


def operand(kind: str, text: str) -> int | str | Fault:
    """An operand, where a label is its name; or the cause of its fault, with line 0."""
    if kind in REGISTERS:
        return REGISTERS[kind].get(text, Fault(0, 4))
    if kind == "L":
        return text if NAME.fullmatch(text) else Fault(0, 6)
    if kind == "x" and text in REGISTERS["r"]:
        return REGISTERS["r"][text]
    value = number(text)
    return Fault(0, 5) if value is None or value not in RANGES["c" if kind == "x" else kind] else value


class Reader:
    """Reads a text line by line: instructions with the names of labels, the labels given, and where they are used."""

    def __init__(self) -> None:
        self.instrs: list[tuple[int, str, list[int | str]]] = []
        self.labels: dict[str, int] = {}

    def read_line(self, at: int, data: bytes) -> int | None:
        """Takes a line, or returns the least cause of its faults."""
        if data.translate(None, ALLOWED):
            return 1
        labels, word, operands = cut(data.decode().split("#")[0])
        causes = []
        for label in labels:
            causes += [6] if not NAME.fullmatch(label) else [7] if label in self.labels else []
            self.labels.setdefault(label, len(self.instrs))
        if word is None:
            return min(causes, default=None)
        if word not in FORMS:
            return 2
        if len(operands) != len(FORMS[word]):
            return 3
        values = [operand(kind, text) for kind, text in zip(FORMS[word], operands)]
        causes += [value.cause for value in values if isinstance(value, Fault)]
        causes += [9] if len(self.instrs) == MOST else []
        self.instrs.append((at, word, values))
        return min(causes, default=None)

    def resolved(self) -> list[Instr] | Fault:
        """The program, with labels as numbers; or the first line with a label that is not given."""
        program = []
        for at, word, values in self.instrs:
            args = [self.labels.get(value, MOST) if isinstance(value, str) else value for value in values]
            if any(isinstance(value, str) and arg >= len(self.instrs) for value, arg in zip(values, args)):
                return Fault(at, 8)
            kinds = FORMS[word]
            args = [arg if kind == "x" else int(arg) for kind, arg in zip(kinds, args)]
            program.append(Instr(word, tuple(args)))
        return program


def assemble(data: bytes) -> list[Instr] | Fault:
    """The program that a text spells, or its first fault."""
    reader = Reader()
    for at, line in enumerate(data.split(b"\n"), 1):
        cause = reader.read_line(at, line)
        if cause is not None:
            return Fault(at, cause)
    program = reader.resolved()
    return program or Fault(0, 9)


def spelled(program: list[Instr]) -> bytes:
    """The one text of a program."""
    named = {instr.args[-1] for instr in program if FORMS[instr.word][-1:] == ["L"]}
    lines = []
    for label, (word, args) in enumerate(program):
        lines += [f"L{label}:"] if label in named else []
        operands = [shown(kind, arg) for kind, arg in zip(FORMS[word], args)]
        lines.append(f"{word} {','.join(operands)}".rstrip())
    return "".join(line + "\n" for line in lines).encode()


def shown(kind: str, arg: int) -> str:
    """An operand as it is written."""
    if kind in ("p", "r"):
        return f"{kind}{int(arg)}"
    if kind == "L":
        return f"L{arg}"
    return f"r{int(arg)}" if isinstance(arg, Number) else str(arg)
