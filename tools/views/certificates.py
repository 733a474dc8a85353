"""The rows of certificates, which say what is known before each instruction, and the words of each."""
from itertools import groupby
from typing import NamedTuple

from facts import Fact, change_of
from node_forms import GREATEST

# The bytes of a row: whether it is reached, eight facts, and eight greatest values.
FACT, BOUND, REGISTERS = 11, 8, range(8)


class Row(NamedTuple):
    """What is known before an instruction: nothing is, if it is never reached."""

    live: bool
    facts: tuple[Fact | None, ...]
    bounds: tuple[int, ...]


# The row that says nothing.
UNKNOWN = Row(True, (None,) * len(REGISTERS), (GREATEST,) * len(REGISTERS))


def fact_in(data: bytes) -> Fact | None:
    """The fact that bytes of a certificate spell; none for a register without a packet."""
    head, tail, first, last = (int.from_bytes(data[k:k + 2]) for k in range(2, 10, 2))
    return Fact(data[1], head, tail, first, last, data[10]) if data[0] else None


def row_in(line: str) -> Row:
    """The row that a line of a certificate spells."""
    data = bytes.fromhex(line)
    facts = tuple(fact_in(data[1 + FACT * k:1 + FACT * (k + 1)]) for k in REGISTERS)
    start = 1 + FACT * len(REGISTERS)
    return Row(data[0] == 1, facts, tuple(int.from_bytes(data[start + BOUND * k:start + BOUND * (k + 1)]) for k in REGISTERS))


def greatest_text(registers: list[int], greatest: int) -> str:
    """Which registers have this greatest value: those from one to another."""
    first, last = registers[0], registers[-1]
    name = f"r{first}-r{last}" if first < last else f"r{first}"
    return f"{name} any" if greatest == GREATEST else f"{name} <= {greatest}"


def changes(row: Row, before: Row) -> list[str]:
    """What a row says that another one does not. Registers of which equal greatest values are known stand together, as `r1-r7 <= 0`."""
    packets = [f"p{k} {change_of(row.facts[k], before.facts[k])}" for k in REGISTERS if row.facts[k] != before.facts[k]]
    changed = [now if now != then else None for now, then in zip(row.bounds, before.bounds)]
    runs = [(greatest, list(run)) for greatest, run in groupby(REGISTERS, lambda k: changed[k])]
    return packets + [greatest_text(run, greatest) for greatest, run in runs if greatest is not None]


def row_text(row: Row, before: Row | None, mark: str) -> str:
    """All that a row says, with a mark between two registers; or, after a `+`, what it says that the row before does not, if that is reached."""
    if not row.live:
        return "never reached"
    if before and before.live:
        new = changes(row, before)
        return "+ " + mark.join(new) if new else "as before"
    return mark.join(changes(row, UNKNOWN)) or "nothing known"
