"""Writes the instructions of a program, each with its source line as a comment."""
from collections.abc import Iterator

from .graph import Graph
from .syntax import Place, Row, require

MAX_INSTRUCTIONS, WIDTH = 1_024, 96
ENDS = {"exit", "jmp"}


def lines(graph: Graph) -> Iterator[tuple[str, int | None, str]]:
    """The instructions, each with its line and what it counts, and labels. An instruction is followed by its successor, a jump to it, or a copy of it."""
    order = graph.order()
    targets = {it.target for it in order}
    order = [it for it in order if it.word not in ENDS or it in targets]
    jumps = {it: it.next for it, following in zip(order, [*order[1:], None]) if it.next and it.next is not following}
    targets |= {it for it in jumps.values() if it.word not in ENDS}
    names = {it: f"L{number}" for number, it in enumerate((it for it in order if it in targets), 1)}
    for it in order:
        if it in names:
            yield f"{names[it]}:", None, ""
        yield it.text(names), it.line, it.counter
        if to := jumps.get(it):
            yield to.text(names) if to.word in ENDS else f"jmp {names[to]}", to.line if to.word == "jmp" else it.left or it.line, ""


def length_of(graph: Graph) -> int:
    """How many instructions the text of a program has."""
    return sum(1 for _, line, _ in lines(graph) if line is not None)


def note_of(row: Row, counter: str) -> str:
    """The comment of an instruction: what it counts, and its line."""
    return f"{f'count {counter}: ' if counter else ''}{f'{row.path.name}:' if row.path else ''}{row.number}: {' '.join(row.text.split())[:WIDTH]}"


def write(graph: Graph, rows: list[Row]) -> str:
    """The text of a program."""
    shown, used = list[str](), list[int]()
    for text, line, counter in lines(graph):
        if line is None:
            shown.append(text)
            continue
        note = note_of(rows[line], counter) if line else "what is held is dropped"
        shown.append(f"        {text:<32}# {printable(note)}")
        used.append(line)
    line = max(sorted({*used} - {0}), key=used.count, default=0)
    require(len(used) <= MAX_INSTRUCTIONS, Place(line, 1, ""),
            f"the program has {len(used)} instructions, and {MAX_INSTRUCTIONS:,} are possible; this line takes {used.count(line)}",
            "`need ipv4.vhl == 0x45` before it where packets with options may be dropped, or one length of another header that has many; `need ipv4` "
            "where IPv6 may be dropped; no `if qinq {}` and `if vlan {}` where no such tags come; find out once, and use variables; a header that "
            "is looked for before the first rule is found for all of them")
    return "\n".join(shown) + "\n"


def printable(text: str) -> str:
    """A text, restricted to the bytes that a comment may have."""
    return "".join(it if " " <= it <= "~" else "?" for it in text)
