"""What is said of a text that is no program: which line of it is at fault, and what helps (docs/users/nodes.md)."""
import re
from collections.abc import Callable

from documents import Document
from faulty_files import MARKED, ORDER_MARK, helps, is_capture, line_at, lines_of, meant, place, text_in
from node_forms import FORMS, RANGES, fields_of
from program_text import Line, decimal_in, number_in

# The numbers of the causes.
BAD_BYTE, BAD_WORD, BAD_OPERANDS, BAD_REGISTER, BAD_NUMBER, BAD_LABEL, LABEL_TWICE, LABEL_UNKNOWN, SIZE = range(1, 10)
# Each cause in words.
CAUSES = {
    BAD_BYTE: "there is a byte that no program has",
    BAD_WORD: "no instruction has this name",
    BAD_OPERANDS: "there are too few or too many operands",
    BAD_REGISTER: "an operand is not a register: p0 to p7 for a packet, r0 to r7 for a number",
    BAD_NUMBER: "an operand is not a number, or is out of its range",
    BAD_LABEL: "a label is not a name",
    LABEL_TWICE: "the label was given before",
    LABEL_UNKNOWN: "the label is not given, or no instruction follows it",
    SIZE: "there is no instruction, or there are more than 1024",
}
# Each kind of operand as usage shows it, and in words. Numbers have a range besides.
KINDS = {
    "p": ("PACKET", "a packet register, p0 to p7"),
    "r": ("REGISTER", "a number register, r0 to r7"),
    "w": ("WIDTH", "a width in bytes: 1, 2, 4 or 8"),
    "x": ("REGISTER-OR-NUMBER", "a number register, r0 to r7, or a number"),
    "L": ("LABEL", "the name of a label: a letter or _, then letters, digits or _, at most 31 in all"),
    **{kind: ("NUMBER", f"a number from {least} to {most}") for kind, (least, most) in RANGES.items()},
}
# Words of other languages, and the instruction that each means.
MEANT = {
    "drop": "free", "pass": "tx", "send": "tx", "output": "tx", "enqueue": "enq", "queue": "enq", "ret": "exit", "return": "exit",
    "goto": "jmp", "ja": "jmp", "copy": "clone", "ld": "load", "st": "store", "li": "set",
}
NAME = re.compile("[A-Za-z_][A-Za-z0-9_]{0,30}")
ONLY = helps("a program has 1 to 1024 instructions")


def is_register(letter: str, text: str) -> bool:
    """Whether a text is a register of this letter."""
    return len(text) == 2 and text[0] == letter and text[1] in "01234567"


def cause_of(kind: str, operand: str) -> int | None:
    """What is wrong with an operand of this kind, if anything is."""
    if kind == "L":
        return None if NAME.fullmatch(operand) else BAD_LABEL
    if kind in "pr":
        return None if is_register(kind, operand) else BAD_REGISTER
    number = number_in(operand)
    if kind == "w":
        is_fit = number in (1, 2, 4, 8)
    elif kind == "x":
        is_fit = number is not None or is_register("r", operand)
    else:
        least, most = RANGES[kind]
        is_fit = number is not None and least <= number <= most
    return None if is_fit else BAD_NUMBER


def bad_operand(line: Line, cause: int) -> tuple[str, str] | None:
    """The first operand of a line that has this fault, and the kind that is wanted there. Else the first label that is no name."""
    kinds = [kind for _, kind in fields_of(line.word)]
    bad = [(operand, kind) for operand, kind in zip(line.operands, kinds) if cause_of(kind, operand) == cause]
    bad += [(label, "L") for label in line.labels if cause_of("L", label) is not None]
    return bad[0] if bad else None


def word_help(word: str) -> str:
    """Which instruction may be meant by a word."""
    if word.startswith(("//", ";")):
        return "a comment begins with #"
    if word in MEANT:
        return f"there is no instruction '{word}': {MEANT[word]} does it"
    return f"there is no instruction '{word}'{meant(word, [*FORMS])}"


def instruction_help(line: Line, cause: int) -> str:
    """Which instruction may be meant by the word of a line, or what is wrong with its operands or a label."""
    if line.word not in FORMS:
        return word_help(line.word)
    bad = bad_operand(line, cause)
    if bad is None:
        shown = ",".join(KINDS[kind][0] for _, kind in fields_of(line.word))
        return f"it is written {line.word} {shown}".rstrip()
    operand, kind = bad
    is_number = kind == "r" and decimal_in(operand.removeprefix("+")) is not None
    return f"'{operand}' has to be {KINDS[kind][1]}{'; set puts a number into one' if is_number else ''}"


def strange_help(text: str, number: int) -> str:
    """Which character of the line with this number no program may have; it counts from 1, with the blanks before the line's text."""
    line = lines_of(text)[number - 1]
    at = next((k for k, letter in enumerate(line, 1) if not (" " <= letter <= "~" or letter in "\t\r")), None)
    if at is None:
        return "a program is printable ASCII, blanks, tabs and newlines"
    if (number, at) == (1, 1) and line.startswith(ORDER_MARK):
        return f"the file {MARKED}"
    return f"character {at} is not a printable ASCII character"


def labels_of(text: str) -> dict[str, int]:
    """The labels of a text, each with the first line that gives it."""
    found: dict[str, int] = {}
    lines = [Line(number, line) for number, line in enumerate(lines_of(text), 1)]
    for number, label in ((line.number, label) for line in lines for label in line.labels):
        found.setdefault(label, number)
    return found


def twice_help(text: str, line: Line) -> str:
    """Which label of a line was given before, and where."""
    given = labels_of(text)
    before = [label for label in line.labels if given.get(label, line.number) < line.number]
    return f"'{before[0]}' is the label of line {given[before[0]]}, too" if before else "each label is given once"


def unknown_help(text: str, line: Line) -> str:
    """Which label may be meant by that of a line, its last operand."""
    given, label = labels_of(text), line.operands[-1]
    if label in given:
        return f"no instruction follows the label '{label}' of line {given[label]}"
    return f"no line defines the label '{label}'{meant(label, [*given])}"


def of_line(text: str, line: Line, cause: int) -> str:
    """What helps against a fault of this line of a text."""
    others: dict[int, Callable[[], str]] = {
        BAD_BYTE: lambda: strange_help(text, line.number),
        LABEL_TWICE: lambda: twice_help(text, line),
        LABEL_UNKNOWN: lambda: unknown_help(text, line),
    }
    return others[cause]() if cause in others else instruction_help(line, cause)


def other_help(file: str, document: Document) -> str | None:
    """What helps if a file is given in place of a program that is something else, or is no text."""
    if file.endswith(".pkt"):
        return f"it is a program of the language pkt: dpv build {file} > {file[:-4]}.dpv compiles it"
    if file.endswith(".toml"):
        return f"it is a pipeline file: dpv run {file} runs it"
    if is_capture(document):
        return "it is a capture, and comes after the program: dpv filter PROGRAM IN OUT"
    return None if text_in(document)[1] else "a program is printable ASCII"


def program_help(file: str, document: Document, number: int, cause: int) -> str:
    """The lines that say where in a program's file a fault is, and what helps."""
    other = other_help(file, document)
    if other is not None:
        return place(file, None) + helps(other)
    text = text_in(document)[0]
    line = line_at(text, number)
    return place(file, line) + (ONLY if line is None or cause == SIZE else helps(of_line(text, line, cause)))
