"""What `dpv filter` gives a program: packets of port 0, of which nothing is known; one port and one pool; no ring and no table."""
from collections.abc import Iterator
from typing import Any

from .compiler import placed
from .parser import Program
from .statements import decided
from .syntax import PORT, Clone, If, Lookup, Name, New, Node, Number, Send, SourceError, While, children

PIPELINE = "a pipeline file may have more ports, pools, rings and tables: `dpv build` makes its node program, and `dpv run` runs it"
GIVEN = "leave `given` out: then the program tests what it needs"


def lacked(it: Node, ports: int) -> str:
    """What a part of a program wants that there is not, in words; nothing if there is all that it wants."""
    match it:
        case Lookup():
            return "has no table"
        case Send(port=int()):
            return "has no ring"
        case Clone(pool=pool) | New(pool=pool) if pool > 0:
            return "has pool 0 alone"
        case Send(port=Node() as port) if ports > 1 and port not in (Name(it.at, PORT), Number(it.at, 0)):
            return "has port 0 alone"
    return ""


def run_parts(it: Any) -> Iterator[Node]:
    """A node and all nodes in it, or all in a tuple, without the blocks that constants switch off."""
    pending = [it]
    while pending:
        part = pending.pop()
        is_on = decided(part.condition) if isinstance(part, (If, While)) else None
        if isinstance(part, (If, While)) and is_on is not None:
            pending += [part.body] if is_on else [part.fallback] if isinstance(part, If) else []
            continue
        if isinstance(part, Node):
            yield part
        pending += reversed(children(part))


def require_filter(program: Program) -> None:
    """Raises an error of the source for the first part of a program that wants more than `dpv filter` gives."""
    error = next((SourceError(it.at, f"dpv filter {lack}", PIPELINE) for it in run_parts(program.statements) if (lack := lacked(it, program.ports))), None)
    if program.given_at and (program.given or program.length or program.headroom > 128):
        error = SourceError(program.given_at, "`given` is for a ring, and dpv filter runs the program for a port", GIVEN)
    if error:
        raise placed(error, program.rows)
