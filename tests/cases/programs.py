"""Programs by the grammar alone, changes to programs, and texts of them."""
import re
from collections.abc import Callable
from random import Random

from model import programs, rules
from model.machine import Env, Instr, Number

from .noise import changed_bytes
from .writer import CONSTANTS, WIDTHS


def any_operand(rng: Random, kind: str, size: int) -> int:
    """An operand of a kind."""
    if kind in ("p", "r"):
        return rng.choice((0, 0, 1, 1, 2, rng.randrange(8)))
    if kind == "L":
        return rng.randrange(size)
    if kind == "x" and rng.random() < 0.5:
        return Number(rng.randrange(8))
    kind = "c" if kind == "x" else kind
    if kind == "w":
        return rng.choice(WIDTHS)
    allowed = programs.RANGES[kind]
    fitting = [c for c in CONSTANTS if c in allowed]
    return rng.choice((rng.choice(fitting), allowed[rng.randrange(min(len_of(allowed), 20))]))


def len_of(allowed: range) -> int:
    """The length of a range, which may be longer than `len` can return."""
    return allowed.stop - allowed.start


def any_instr(rng: Random, size: int) -> Instr:
    """An instruction by the grammar alone."""
    word = rng.choice(list(programs.FORMS))
    return Instr(word, tuple(any_operand(rng, kind, size) for kind in programs.FORMS[word]))


def changed_program(rng: Random, code: list[Instr]) -> list[Instr]:
    """A program with an instruction changed, taken out or put in."""
    code, at = list(code), rng.randrange(len(code))
    how = rng.randrange(4)
    if how == 0 or not code[at].args:
        code[at] = any_instr(rng, len(code))
    elif how == 1 and len(code) > 1:
        del code[at]
        code = [moved(instr, lambda label: min(label - (label > at), len(code) - 1)) for instr in code]
    elif how == 2:
        code = [moved(instr, lambda label: label + (label > at)) for instr in code]
        code.insert(at, any_instr(rng, len(code)))
    else:
        word, args = code[at]
        k = rng.randrange(len(args))
        near = max(0, int(args[k]) + rng.choice((-1, 1)))
        kind = programs.FORMS[word][k]
        fits = near in programs.RANGES[kind] if kind in programs.RANGES else kind == "L" and near < len(code)
        args = (*args[:k], near if fits and rng.random() < 0.6 else any_operand(rng, kind, len(code)), *args[k + 1 :])
        code[at] = Instr(word, args)
    return code


def refused_program(rng: Random, env: Env, code: list[Instr], rows: rules.Rows) -> tuple[list[Instr], rules.Rows]:
    """A program and its rows with an instruction put in that one of the rules J3 to J10 refuses; without it, if none was found."""
    rule, live = rng.randrange(3, 11), [at for at, row in enumerate(rows) if row is not None]
    for _ in range(300):
        at, instr = rng.choice(live), any_instr(rng, len(code) + 1)
        if rules.local_fault(env, rows[at], at, instr, len(code) + 1) == rule:
            code = [moved(it, lambda label: label + (label > at)) for it in code]
            return [*code[:at], instr, *code[at:]], [*rows[:at], rows[at], *rows[at:]]
    return code, rows


def moved(instr: Instr, to: Callable[[int], int]) -> Instr:
    """The instruction with its label moved."""
    return Instr(instr.word, (*instr.args[:-1], to(instr.args[-1]))) if instr.word in rules.JUMPS else instr


def text_of(rng: Random, code: list[Instr]) -> bytes:
    """A text of a program: the one that is printed, or one with blanks, comments, names and numbers as people write them."""
    plain = programs.spelled(code)
    if rng.random() < 0.4:
        return plain
    lines = []
    for line in plain.decode().splitlines():
        blank = lambda: rng.choice(("", "", " ", "\t", "  "))
        line = line.replace(",", blank() + "," + blank())
        line = line.replace(" ", rng.choice((" ", "\t", " \t ")), 1)
        line = re.sub(r"(?<![A-Za-z0-9])[0-9]+", lambda n: f"0x{int(n[0]):X}" if rng.random() < 0.2 else n[0], line)
        line = blank() + line + blank() + rng.choice(("", "", "# L0: exit", "\r"))
        lines.append(line + ("" if line.endswith(":") and rng.random() < 0.3 else "\n"))
    return "".join(lines).replace("L", rng.choice(("L", "_l", "a_name_of_27_letters_or_so_"))).encode()


NEARLY = [
    *(("0x", "0X"), ("0x", "x"), (",", ",,"), (",", ", ,"), (",", " "), (":", " :"), (":", "::"), (":", ""), ("L", "1")),
    *(("L", "L L"), ("L1", "L2"), ("\n", " "), ("\n", "\n#:\n"), ("\n", "\x0b\n"), ("\n", "\r"), ("L", "\u00e9"), ("r", "r0")),
    *(("p0", "p8"), ("p0", "P0"), ("p0", "r0"), ("r0", "p0"), ("0", "0" * 26), ("1", "18446744073709551616"), ("1", "65536")),
    *(("exit", "exit 0"), ("exit", "Exit"), ("exit", "exit,"), ("exit", "L1: L1: exit"), ("free", "free\t"), ("tx", "enq")),
    *(("a", "a_name_that_is_longer_than_allowed"), ("0", "-0"), ("4", "+4")),
]


def changed_text(rng: Random, data: bytes) -> bytes:
    """A program text with a part spelled in a way that is nearly right, or with some bytes changed."""
    old, new = (text.encode() for text in rng.choice(NEARLY))
    places = [at for at in range(len(data)) if data.startswith(old, at)]
    if not places or rng.random() < 0.4:
        return changed_bytes(rng, data)
    at = rng.choice(places)
    return data[:at] + new + data[at + len(old) :]
