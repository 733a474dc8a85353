"""Reduces a case that has a finding: fewer frames, plain programs, fewer lines."""
import time
from collections.abc import Callable, Iterator
from dataclasses import replace

from .pipelines import Case

PLAIN = "send 0\n"
Holds = Callable[[Case], bool]


def end_of(lines: list[str], at: int) -> int:
    """The line after the statement that begins here."""
    deep, end = 0, at
    while end < len(lines):
        deep += lines[end].count("{") - lines[end].count("}")
        end += 1
        if deep <= 0:
            break
    return end


def end_of_block(lines: list[str], at: int) -> int:
    """The line that closes the block around a line, or the end of the text."""
    deep = 0
    for end in range(at, len(lines)):
        for sign in lines[end]:
            deep += (sign == "{") - (sign == "}")
            if deep < 0:
                return end
    return len(lines)


def smaller_texts(text: str) -> Iterator[str]:
    """The text without a statement, without the braces around a block, without an `else`, or without a part of a condition."""
    lines = text.splitlines()
    for at in range(len(lines)):
        end = end_of(lines, at)
        yield "\n".join([*lines[:at], *lines[end:]]) + "\n"
        if end - at > 1:
            inner = [line for line in lines[at + 1 : end - 1] if line.strip() != "}" and not line.strip().startswith("} else")]
            yield "\n".join([*lines[:at], *inner, *lines[end:]]) + "\n"
        if " else " in lines[at]:
            yield "\n".join([*lines[:at], lines[at].split(" else ")[0], *lines[end:]]) + "\n"
        for sign in (" and ", " or "):
            for part in lines[at].split(sign) if sign in lines[at] else ():
                whole = part if part.lstrip().startswith(("if", "while", "need")) else lines[at].split(" ")[0] + " " + part
                whole += " {" if lines[at].endswith("{") and not whole.endswith("{") else ""
                yield "\n".join([*lines[:at], whole, *lines[at + 1 :]]) + "\n"


def smaller_inputs(case: Case) -> Iterator[Case]:
    """The case with fewer frames."""
    for port, data in enumerate(case.inputs):
        size = len(data)
        while size:
            for at in range(0, len(data), size):
                kept = (*data[:at], *data[at + size :])
                yield replace(case, inputs=(*case.inputs[:port], kept, *case.inputs[port + 1 :]))
            size //= 2


def smaller(case: Case) -> Iterator[Case]:
    """Cases with one thing less."""
    if case.refused:
        yield replace(case, refused=())
    yield from smaller_inputs(case)
    for node, text in enumerate(case.texts):
        if text != PLAIN:
            yield case.with_text(node, PLAIN)
            for less in smaller_texts(text):
                yield case.with_text(node, less)


def shrunk(case: Case, holds: Holds, seconds: float) -> Case:
    """The smallest case with the finding that is found within the time."""
    until = time.monotonic() + seconds
    found = True
    while found:
        found = False
        for less in smaller(case):
            if time.monotonic() >= until:
                return case
            if holds(less):
                case, found = less, True
                break
    return case
