"""The counts of a run: by the lines of its sources, by names, and where packets ended without being sent."""
from collections import Counter
from collections.abc import Iterator
from typing import NamedTuple

from counted_programs import Origin, Program, Step, counter_in, origin_of
from documents import Document
from node_forms import ENDS, GREATEST, SENDS

# What the places where packets ended are called in texts, by their words in documents. For `freed` the line stands in its place.
CAUSES = {
    "oversize": "records longer than the port takes",
    "nobuf": "records that found too few free buffers",
    "left": "left in the ring at the end",
    "freed": "freed",
}


class LineCounts(NamedTuple):
    """A line of a source: how often control came to it, how many packets it sent, and how many were freed since control went on from it to a `free`."""

    origin: Origin
    came: int
    sent: int
    dropped: int


class Place(NamedTuple):
    """A place where packets ended without being sent: the line from which control came to the `free`, if one freed them, and how many."""

    node: str
    why: str
    origin: Origin | None
    packets: int


def frees_from(steps: list[Step]) -> list[int]:
    """For each instruction, and for the end, how many from there on, one after the other, free a packet."""
    frees = [0]
    for step in reversed(steps):
        frees.append(frees[-1] + 1 if ENDS.get(step.line.word) == "freed" else 0)
    return frees[::-1]


def dropped_at(steps: list[Step]) -> list[int]:
    """For each instruction how many packets were freed since control went on from it to a `free`: by its jump, or, at the first of several `free`s,
    because control came there without one."""
    frees = frees_from(steps)
    jumps: Counter[int] = Counter()
    for step in steps:
        jumps[-1 if step.to is None else step.to] += step.taken
    by_jump = [0 if step.to is None else step.taken * frees[step.to] for step in steps]
    is_first = [label == 0 or frees[label - 1] == 0 for label in range(len(steps))]
    return [by_jump[k] + (step.ran - jumps[k]) * frees[k] * is_first[k] for k, step in enumerate(steps)]


def lines_of(program: Program) -> list[LineCounts]:
    """The counts by the lines of the source, in their order; those of included files come last. Control came to a line as often as to the instructions
    in it that do not follow one of the same line."""
    lines: dict[Origin, LineCounts] = {}
    before = None
    for step, dropped in zip(program.steps, dropped_at(program.steps)):
        origin = origin_of(program, step, before)
        came, sent = 0 if origin == before else step.ran, step.passed if step.line.word in SENDS else 0
        _, *so_far = lines.get(origin, LineCounts(origin, 0, 0, 0))
        lines[origin] = LineCounts(origin, so_far[0] + came, so_far[1] + sent, so_far[2] + dropped)
        before = origin
    return sorted(lines.values(), key=lambda it: (it.origin.file != program.file, GREATEST if it.origin.line is None else it.origin.line))


def reported(document: Document) -> Iterator[Place]:
    """The places of a report."""
    for k, port in enumerate(document["ports"]):
        yield from (Place(f"port {k}", why, None, int(port[why])) for why in ("oversize", "nobuf"))
    yield from (Place(f"ring {k}", "left", None, int(ring["left"])) for k, ring in enumerate(document["rings"]))


def places_of(document: Document, programs: list[Program]) -> list[Place]:
    """Where packets of a run ended without being sent, most first: all records that were dropped, all packets that a `free` freed, and all that were
    left in rings."""
    freed = (Place(it.node, "freed", line.origin, line.dropped) for it in programs for line in lines_of(it))
    return sorted((it for it in (*reported(document), *freed) if it.packets > 0), key=lambda it: -it.packets)


def named_in(programs: list[Program]) -> dict[tuple[str, str], int]:
    """The counts that have names, each with its node, in the order of the programs and of the first instruction with each name. A name that stands
    several times in a program is one count."""
    named: dict[tuple[str, str], int] = {}
    for node, step in ((it.node, step) for it in programs for step in it.steps):
        counter = counter_in(step.line.comment or "")
        if counter:
            named[node, counter[0]] = named.get((node, counter[0]), 0) + step.ran
    return named


def say_origin(origin: Origin, own: str) -> str:
    """A line of a source: the name of its file unless that is `own`, its number, and its text."""
    file = f"{origin.file}:" if origin.file != own else ""
    return f"{file}{'' if origin.line is None else f'{origin.line}:'} {origin.text}\n"


def say_line(line: LineCounts, file: str) -> str:
    """A line of a program with its counts, each in a column of ten."""
    return f"{line.came:>10}{line.sent or '':>10}{line.dropped or '':>10}  {say_origin(line.origin, file)}"


def say_lines(program: Program) -> str:
    """The counts by the lines of a source."""
    head = f"{program.node} {program.file}\n      came      sent   dropped\n"
    return head + "".join(say_line(line, program.file) for line in lines_of(program))


def say_place(place: Place) -> str:
    """Where packets ended, and how many."""
    where = say_origin(place.origin, "") if place.origin else f"{CAUSES[place.why]}\n"
    return f"{place.packets:>10}  {place.node} {where}"


def say_refusals(what: str, was: str, numbers: list[int]) -> str:
    """How often each was refused, if it was."""
    return "".join(f"{what} {k} {was} {number}\n" for k, number in enumerate(numbers) if number)
