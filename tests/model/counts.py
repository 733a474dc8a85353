"""The output of `--counts` after a report, as docs/reference/reports.md defines it."""
from . import programs
from .machine import Instr, World
from .pipelines import Node

JUMPS = {word for word, kinds in programs.FORMS.items() if kinds[-1:] == ["L"]} - {"jmp"}


def places(text: bytes) -> dict[int, int]:
    """The label of the instruction in each line, from 1, of a text that is a program."""
    reader = programs.Reader()
    for at, line in enumerate(text.split(b"\n"), 1):
        reader.read_line(at, line)
    return {at: label for label, (at, _word, _values) in enumerate(reader.instrs)}


def lines(text: bytes, program: list[Instr], tally: list[list[int]]) -> list[str]:
    """The lines of a program, each instruction with its counts."""
    labels, shown = places(text), []
    for at, line in enumerate(text.decode().removesuffix("\n").split("\n"), 1):
        if at not in labels:
            shown.append(f"{'':22}{line}" if line else "")
            continue
        word, (ran, taken, cut) = program[labels[at]].word, tally[labels[at]]
        beside = f"{taken}" if word in JUMPS else {"free": "freed", "exit": "ended"}.get(word, "") if ran else ""
        shown.append(f"{ran:>10}{beside:>10}  {line}")
        if cut:
            shown.append(f"{cut:>10}{'cut':>10}")
    return shown


def total(world: World, word: str, number: int | None = None) -> tuple[int, int]:
    """How often the instructions with this word, on this table or ring if one is named, succeeded, and how often they did not."""
    did = refused = 0
    for program, tally in zip(world.programs, world.tally):
        for instr, (ran, taken, cut) in zip(program, tally):
            if instr.word == word and number in (None, *instr.args[1:2]):
                did, refused = did + ran - taken - cut, refused + taken + cut
    return did, refused


def agree(world: World) -> None:
    """Tests that the sums agree with the report, as docs/reference/reports.md says."""
    ports, received = len(world.env.ports), [it.received for it in world.counts]
    for node, (program, tally) in enumerate(zip(world.programs, world.tally)):
        queued = received[node] if node < ports else total(world, "enq", node - ports)[0] - world.left[node - ports]
        ended = sum(ran for instr, (ran, _, _) in zip(program, tally) if instr.word == "exit")
        assert queued == ended + sum(cut for _, _, cut in tally), "node runs"
        assert tally[0][0] == queued or is_looped(program), "first instructions"
    assert sum(cut for tally in world.tally for _, _, cut in tally) == world.cuts, "cuts"
    assert total(world, "tx")[0] == sum(it.sent for it in world.counts), "sent"
    made = sum(received) + total(world, "alloc")[0] + total(world, "clone")[0]
    gone = sum(total(world, word)[0] for word in ("tx", "free", "chain")) + sum(world.left)
    assert made == gone or world.cuts, "packets"


def is_looped(program: list[Instr]) -> bool:
    """Whether a jump leads to the first instruction, which then runs more often than the program does."""
    return any(instr.word in JUMPS | {"jmp"} and instr.args[-1] == 0 for instr in program)


def text(world: World, nodes: list[Node], texts: list[bytes]) -> str:
    """The programs with their counts, the sums for tables and rings, the least free buffers of pools, and what was refused."""
    agree(world)
    shown = []
    for node, program, source, tally in zip(nodes, world.programs, texts, world.tally):
        shown += [f"{node.name} {node.node}", "       ran     taken", *lines(source, program, tally)]
    for table in range(len(world.env.tables)):
        hits, misses = total(world, "lookup", table)
        shown.append(f"table {table} hits {hits} misses {misses}")
    for number, ring in enumerate(world.env.rings):
        shown.append(f"ring {number} waited {world.waited[number]} of {ring.count - 1} full {total(world, 'enq', number)[1]}")
    for number, pool in enumerate(world.env.pools):
        shown.append(f"pool {number} least {world.least[number]} of {pool.count}")
    shown += [f"port {number} full {full}" for number, full in enumerate(world.full) if full]
    shown += [f"pool {number} refused {refused}" for number, refused in enumerate(world.short) if refused]
    return "".join(line + "\n" for line in shown)
