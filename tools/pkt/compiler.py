"""Compiles a text to a node program."""
import pathlib
from collections import Counter
from functools import lru_cache
from typing import NamedTuple

from .headers import Headers
from .notes import notes_of
from .parser import Parser, Program
from .peephole import shorten
from .reach import lines_unreached
from .statements import compile_program
from .syntax import PORT, Name, Node, Number, Row, Send, SourceError, parts
from .writer import printable, write

PRELUDE = pathlib.Path(__file__).resolve().parent / "prelude.pkt"
# More instructions than a program can have after it was shortened.
MAX_INSTRUCTIONS = 6_000


@lru_cache
def known_headers() -> Headers:
    """The predeclared headers."""
    headers = Parser(PRELUDE.read_text(encoding="utf-8"), Headers()).program().headers
    for header in headers.values():
        header.is_known = True
    return headers


def parse(source: str, folder: pathlib.Path | None = None) -> Program:
    """Parses a text, which may include files of a folder."""
    parser = Parser(source, Headers(known_headers()), folder)
    try:
        return parser.program()
    except SourceError as error:
        raise placed(parser.clearer(error), parser.rows) from None


def placed(error: SourceError, rows: list[Row]) -> SourceError:
    """An error with its place in the file where it is."""
    row = rows[error.at.line] if 0 < error.at.line < len(rows) else None
    if row is not None and row.path is not None:
        error.at, error.row = error.at._replace(line=row.number), row
    return error


class Compiled(NamedTuple):
    """A node program, and the notes on it, each in a line of its own: what no packet reaches, and what is seldom meant."""

    text: str
    note: str


def compile_text(source: str, name: str = "a text", folder: pathlib.Path | None = None) -> str:
    """The node program of a text, which may include files of a folder; raises SourceError."""
    return compiled(source, name, folder, False).text


def compiled(source: str, name: str = "a text", folder: pathlib.Path | None = None, has_note: bool = True, segments: int = 1) -> Compiled:
    """The node program of a text for packets of this number of segments, or what it declares if that is more, and the notes if they are wanted;
    raises SourceError."""
    program = parse(source, folder)
    program.segments = max(program.segments, segments)
    try:
        graph = compile_program(program)
        notes = (note_of(lines_unreached(graph), program.rows), note_of_ports(program), *notes_of(program)) if has_note else ()
        shorten(graph, MAX_INSTRUCTIONS)
        head = f"# Built from {printable(name)} by `dpv build`; docs/users/pkt.md has its language.\n"
        return Compiled(head + write(graph, program.rows), "\n".join(filter(None, notes)))
    except SourceError as error:
        raise placed(error, program.rows) from None


def note_of_ports(program: Program) -> str:
    """The note on packets that are sent to a port by its number, where the text does not say how many ports there are."""
    sends = [it for it in parts(program.statements) if isinstance(it, Send) and isinstance(it.port, Node) and not isinstance(it.port, Number)]
    place = next((program.rows[it.at.line].place for it in sends if it.port != Name(it.at, PORT)), "")
    return f"{place} sends to port 0 alone, as no `ports 4` says that there are more" if place and not program.has_ports else ""


def note_of(lines: Counter[int], rows: list[Row]) -> str:
    """The note on lines that no packet reaches, each with the number of its instructions."""
    shown = [rows[line] for line in sorted(lines) if line]
    places = [row.place for row in shown]
    count = sum(lines[line] for line in lines if line)
    said = f"{', '.join(places[:-1])} and {places[-1]}" if len(places) > 1 else "".join(places)
    return f"no packet reaches {said}: {count} instruction{'s are' if count > 1 else ' is'} left out" if places else ""


def error_text(error: SourceError, name: str, source: str) -> str:
    """The message of an error: its place, its line, and a cure."""
    at, rows = error.at, source.split("\n")
    lines = [f"{error.row.path if error.row else name}:{at.line}:{at.column}: {error.message}"]
    if error.row or 0 < at.line <= len(rows):
        row = (error.row.text if error.row else rows[at.line - 1]).replace("\t", " ")
        lines += [f"    {row}", "    " + " " * (at.column - 1) + "^" * max(1, min(len(at.word), len(row) - at.column + 1))]
    return "\n".join([*lines, *([f"  help: {error.cure}"] if error.cure else [])])
