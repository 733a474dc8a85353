"""A record of a trace: what is printed of it, as text or as a public document.

The program prints a record as a document. `arrival` has its number, port, seconds, nanoseconds and length; `turn` how many node runs
there were, how many of them were cut, and the instructions that they ran. An event is a node run of `node` that begins, on a port with
the first `bytes` of the record, or the instruction at `label`, which led on, to a label, out of the node run, or beyond the budget (`way`).
Each has what changed since the event before: `values`, a place in the list below and the number there, and so on; and `packets`, each a
register, followed if it has a packet by length, headroom and tailroom, and by length, references and first bytes of each segment. `stored`
is the register, the offset and the bytes that a store wrote, and `next` of the event before what was there.
"""
from collections.abc import Iterator
from typing import NamedTuple

from documents import Document, plural
from node_forms import ENDS, SENDS
from program_text import Instruction, Line, decimal_in
from selection import Picked
from summary import summary

# The places of values: registers, packets in rings and in transmit lists, and the number of allocation calls.
RING, LIST, CALLS = 8, 16, 24
# The bytes of a segment that are shown.
SHOWN = 16
# What becomes of a record whose packets no instruction sends or frees, by the outcome.
USUAL = {
    "received": "waits in a ring",
    "nobuf": "refused: it got no buffer",
    "oversize": "refused: it is too long for the port",
}
# What stands for an instruction that the sources do not have.
NOTHING = Instruction(Line(0, ""), [])
# The programs of nodes, by their names.
Programs = dict[str, list[Instruction]]


class Shown(NamedTuple):
    """An event as it is printed: the lines before its own, the node, an instruction's label and text, and the lines of what changed."""

    before: list[str]
    node: str
    label: int | None
    text: str | None
    changes: list[str]


def spaced(digits: str) -> str:
    """Bytes in hexadecimal digits, a blank before each."""
    return "".join(f" {digits[at:at + 2]}" for at in range(0, len(digits), 2))


def said_call(number: int, answer: str) -> str:
    """The line of an allocation call."""
    return f"      allocation call {number}: {answer}"


def said_value(place: int, number: int) -> str:
    """The line of a number that changed; a register is also said in hexadecimal digits if these differ."""
    if place < RING:
        return f"      r{place} = {number}" + (f" (0x{number:x})" if number > 9 else "")
    if place < LIST:
        return f"      ring {place - RING}: {number} waiting"
    return f"      port {place - LIST} list: {number} queued"


def said_packet(register: int, *packet: int | str) -> list[str]:
    """The lines of a register's packet: its shape, and a line for each segment."""
    if not packet:
        return [f"      p{register}: none"]
    length, headroom, tailroom, *rest = packet
    segments = list(zip(rest[::3], rest[1::3], rest[2::3]))
    shape = f"{plural(len(segments), 'segment')}, {plural(int(length), 'byte')}, headroom {headroom}, tailroom {tailroom}"
    return [f"      p{register}: {shape}", *(said_segment(int(size), int(refs), str(digits)) for size, refs, digits in segments)]


def said_segment(length: int, refs: int, digits: str) -> str:
    """The line of a segment: its length, how many segments refer to its buffer if there are several, and its first bytes."""
    shared = f", {refs} references" if refs > 1 else ""
    return f"        {plural(length, 'byte')}{shared}" + (":" if length else "") + spaced(digits) + (" .." if length > SHOWN else "")


def instr_at(program: list[Instruction], label: int) -> Instruction:
    """The instruction at a label of a program."""
    return program[label] if label < len(program) else NOTHING


def act_of(event: Document, instr: Instruction) -> str | None:
    """What an instruction did with a packet: freed, sent, or cut with the node run; nothing if it did none of these."""
    if event["way"] == "cut":
        return "cut"
    if ENDS.get(instr.line.word) == "freed":
        return "freed"
    return "sent" if SENDS.get(instr.line.word) == "port" and event["way"] == "on" else None


class Turn:
    """The turn of a record, from event to event."""

    def __init__(self, programs: Programs) -> None:
        self.programs = programs
        self.node = ""
        self.program: list[Instruction] = []
        # The values after the event before, the registers that held a packet then, and the bytes that the next instruction writes.
        self.values = [0] * (CALLS + 1)
        self.held: set[int] = set()
        self.next: list[int | str] = []
        # What became of packets.
        self.became: list[str] = []

    def begin(self, node: str) -> None:
        """A node run begins: its registers are empty until its packet comes."""
        self.node, self.program = node, self.programs.get(node, [])
        self.values[:RING], self.held, self.next = [0] * RING, set(), []

    def changed(self, values: list[int | str]) -> dict[int, int]:
        """The values that changed, by their places. A number above 2^53 is a string."""
        changed = {int(place): int(number) for place, number in zip(values[::2], values[1::2])}
        for place, number in changed.items():
            self.values[place] = number
        return changed

    def fill(self, packets: list[list[int | str]]) -> bool:
        """Notes which registers have a packet. Returns whether one has a new packet."""
        full = {int(register) for register, *packet in packets if packet}
        is_made = not full <= self.held
        self.held = (self.held - {int(register) for register, *_ in packets}) | full
        return is_made

    def stored(self, event: Document) -> list[str]:
        """The line of the bytes that a store wrote, before and after it."""
        before, after = self.next, event.get("stored", [])
        self.next = event.get("next", [])
        if len(before) != 3 or len(after) != 3:
            return []
        return [f"      p{before[0]} at {before[1]}:{spaced(str(before[2]))} ->{spaced(str(after[2]))}"]

    def note(self, event: Document, instr: Instruction) -> None:
        """Notes what an instruction did with a packet, and where."""
        act = act_of(event, instr)
        port = f" to port {self.values[int(instr.line.operands[1][1:])]}" if act == "sent" else ""
        if act:
            self.became.append(f"{act}{port} ({self.node}, {event['label']})")

    def shown(self, event: Document) -> Shown:
        """An event as it is printed. A call before a node run on a packet in a ring was for the record, and refused: else it had run."""
        if "node" in event:
            self.begin(event["node"])
        changed = self.changed(event["values"])
        answer = "made" if self.fill(event["packets"]) else "refused"
        calls = [said_call(changed[CALLS], answer)] if CALLS in changed else []
        numbers = [said_value(place, number) for place, number in changed.items() if place < RING]
        packets = [line for packet in event["packets"] for line in said_packet(*packet)]
        others = [said_value(place, number) for place, number in changed.items() if RING <= place < CALLS]
        changes = [*numbers, *packets, *others, *self.stored(event)]
        if "node" not in event:
            instr = instr_at(self.program, event["label"])
            self.note(event, instr)
            return Shown([], self.node, event["label"], instr.line.text, calls + changes)
        if "bytes" in event:
            return Shown([f"      {summary(bytes.fromhex(event['bytes']))}"], self.node, None, None, calls + changes)
        return Shown([said_call(changed[CALLS], "refused")] if calls else [], self.node, None, None, changes)


class Record:
    """A record as it is printed."""

    def __init__(self, given: Document, programs: Programs) -> None:
        turn = Turn(programs)
        self.number, self.port, seconds, nanos, self.length = given["arrival"]
        self.time = f"{seconds}.{nanos:09}"
        self.events = [turn.shown(event) for event in given["events"]]
        self.outcome = given["outcome"]
        self.turn = given["turn"]
        self.call = turn.changed(given["values"]).get(CALLS)
        self.sends = [(port, packets) for port, packets in enumerate(turn.values[LIST:CALLS]) if packets]
        is_received = self.outcome == "received"
        self.became = ", ".join(turn.became if is_received else ()) or USUAL[self.outcome]
        self.summary = next((event.before[0].strip() for event in self.events if event.before), None) if is_received else None

    def text(self) -> str:
        """The record as text."""
        runs, cuts, steps = self.turn
        lines = [f"record {self.number} port {self.port} time {self.time}, {plural(self.length, 'byte')}"]
        for event in self.events:
            lines += [*event.before, event.node if event.label is None else f"{event.label:>4}  {event.text}", *event.changes]
        calls = [] if self.call is None else [said_call(self.call, "refused")]
        sends = [f"port {port} sends {packets}" for port, packets in self.sends]
        lines += [*calls, f"turn {self.outcome} runs {runs} cuts {cuts} steps {steps}", *sends, f"record {self.number}: {self.became}"]
        return "\n".join(lines) + "\n"

    def document(self) -> Document:
        """The record as a public document."""
        runs, cuts, steps = self.turn
        lines = [[line.strip() for line in it.changes] for it in self.events]
        events = [{"changes": changes, "label": it.label, "node": it.node, "text": it.text} for changes, it in zip(lines, self.events)]
        return {
            "became": self.became, "bytes": self.length, "cuts": cuts, "events": events, "outcome": self.outcome, "port": self.port,
            "record": self.number, "runs": runs, "sends": [{"packets": packets, "port": port} for port, packets in self.sends],
            "steps": steps, "summary": self.summary, "time": self.time,
        }


def acts(record: Document, programs: Programs) -> Iterator[str]:
    """What the instructions of a record did with packets."""
    program: list[Instruction] = []
    for event in record["events"]:
        if "node" in event:
            program = programs.get(event["node"], [])
        elif act := act_of(event, instr_at(program, event["label"])):
            yield act


def is_come_by(record: Document, labels: dict[str, int | None]) -> bool:
    """Whether the instruction at the label of its node ran."""
    label = None
    for event in record["events"]:
        if "node" in event:
            label = labels.get(event["node"])
        elif event["label"] == label:
            return True
    return False


def label_in(program: list[Instruction], word: str) -> int | None:
    """The number of the instruction that a word names, if there is one: by the number itself, or by a label."""
    number = decimal_in(word.removeprefix("+"))
    if number is None:
        return next((k for k, it in enumerate(program) if word in it.labels), None)
    return number if number < len(program) else None


def is_picked(record: Document, programs: Programs, picked: Picked) -> bool:
    """Whether a record passes each test that is given."""
    only = picked.only
    if isinstance(only, int) and only != record["arrival"][0] or only == "refused" and record["outcome"] == "received":
        return False
    if only in ("sent", "freed", "cut") and only not in acts(record, programs):
        return False
    if picked.match and not any("bytes" in event and picked.match.is_in(bytes.fromhex(event["bytes"])) for event in record["events"]):
        return False
    return picked.instr is None or is_come_by(record, {node: label_in(it, picked.instr) for node, it in programs.items()})
