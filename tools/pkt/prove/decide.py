"""Whether a node program does what its source says, for all packets: both run on a symbolic packet, path by path, and what they do is compared.

A difference counts only if the interpreters of tests/ confirm it on the packet."""
from __future__ import annotations

import pathlib
import time
from collections import Counter
from collections.abc import Iterator
from copy import copy
from dataclasses import dataclass, field
from itertools import zip_longest
from typing import NamedTuple

from model.machine import Instr
from model.programs import assemble
from pkt_model.machine import Open, Source
from pkt_model.reader import Fault, read
from pkt_model.syntax import Program

from .known import Model
from .node import NodeRun
from .numbers import Unknown
from .packets import Event, Seg, copied, symbolic
from .paths import Bounded, Explorer, Left, Path, Undecided
from .replay import Case, checks, shown
from .source import NotGiven, SymbolicRun
from .terms import Cond, Val, add, const, eq, leaf, lt, negated

PRELUDE = pathlib.Path(__file__).resolve().parent.parent / "prelude.pkt"


class Different(Exception):
    """A packet on which the two differ, with the reason."""

    def __init__(self, why: str, model: Model) -> None:
        super().__init__(why)
        self.model = model


@dataclass
class Result:
    """The verdict, `why` and the packet; how many paths there are, are left free by the page or are left out, by reason, what z3 was asked and
    did not answer, how many runs the interpreters confirmed, the instructions that ran, and the seconds."""

    verdict: str = "proved"
    why: str = ""
    difference: str = ""
    paths: int = 0
    free: int = 0
    left: Counter[str] = field(default_factory=Counter)
    asked: int = 0
    replayed: int = 0
    seen: set[int] = field(default_factory=set)
    seconds: float = 0

    def line(self) -> str:
        """What is printed."""
        if self.verdict == "proved":
            return f"proved: {self.paths} paths in {self.seconds:.1f} s"
        return f"{self.verdict}: {self.why}" + (f"\n{self.difference}" if self.difference else "")


def arrival(program: Program, segments: int) -> tuple[list[Seg], Val]:
    """A symbolic packet and the number of its port or ring."""
    packet = [symbolic(k) for k in range(segments)]
    packet[0].len, packet[0].room = add(packet[0].len, const(program.length)), const(128)
    if program.is_for_ring:
        packet[0].room = add(leaf("num", ("room",), 11), const(program.headroom))
    return packet, leaf("num", ("port",), 3 if program.is_for_ring else max(3, (program.ports - 1).bit_length()))


def merged(path: Path, packet: list[Seg]) -> list[Seg]:
    """Segments whose bytes are all known are put before those that follow: only the bytes count."""
    out: list[Seg] = []
    for it in copied(packet):
        it.settle(path)
        if out and out[-1].origin is None:
            last = out.pop()
            it.head, it.len = last.head + it.head, add(it.len, const(len(last.head)))
        out.append(it)
    return out


def differences(path: Path, events: list[Event], others: list[Event]) -> Iterator[tuple[str, list[Cond]]]:
    """Each way in which two runs may differ, with the conditions under which they do."""
    for a, b in zip_longest(events, others):
        if a is None or b is None or a.kind != b.kind:
            yield ("one does more" if a is None or b is None else f"{a.kind} and {b.kind}"), []
            return
        yield "the port, the ring or the pool differs", [negated(eq(a.to, b.to))]
        if a.packet is not None and b.packet is not None:
            yield from differing(path, merged(path, a.packet), merged(path, b.packet))


def differing(path: Path, packet: list[Seg], other: list[Seg]) -> Iterator[tuple[str, list[Cond]]]:
    """Each way in which two packets may differ."""
    for x, y in zip_longest(packet, other):
        if x is None or y is None or x.extra or y.extra or None not in (x.origin, y.origin) and x.origin != y.origin:
            yield "segments differ", []
            return
        size = max(len(x.head), len(y.head))
        for it in (x, y):
            it.reach(size if it.origin is not None else len(it.head))
        yield "a length differs", [negated(eq(x.len, y.len))]
        if None not in (x.origin, y.origin) and x.base != y.base:
            yield "what follows differs", [lt(const(size), x.len)]
        yield from (("a byte differs", [negated(eq(a, b)), lt(const(k), x.len)]) for k, (a, b) in enumerate(zip(x.head, y.head)))


def compare(path: Path, events: list[Event], others: list[Event]) -> int:
    """Raises an exception if two runs differ on some packet of a path. Returns how many questions z3 did not answer."""
    found, unanswered = [], 0
    for why, conditions in differences(path, events, others):
        conditions = [path.known.cond(it) for it in conditions]
        if not any(it is False or path.decide(it) is False for it in conditions):
            found.append((why, [it for it in conditions if it is not True]))
    for why, conditions in found:
        for model in path.models:
            if all(map(model.holds, conditions)):
                raise Different(why, model)
    for why, conditions in found:
        for model in path.models[-2:]:
            near = conditions and model.near(conditions[0], [*path.literals, *conditions[1:]], 30)
            if near:
                raise Different(why, near)
    for why, conditions in found:
        model = path.explorer.query_alone([*path.literals, *conditions])
        if model:
            model.answers = path.answers()
            raise Different(why, model)
        unanswered += model is False
    return unanswered


class Proof(NamedTuple):
    """A source and its node program, how many rounds of loops are looked at, whether the interpreters run a packet of each path too, and what was
    found."""

    program: Program
    source: Source
    node: list[Instr]
    rounds: int
    replays: bool
    result: Result


def prove(text: str, node_text: str, rounds: int = 256, seconds: float = 300, replays: bool = False, folder: pathlib.Path | None = None) -> Result:
    """The verdict on a node program and its source, which may include files of a folder, in some seconds of processor time. Of packets in several
    segments, those with one and with two count."""
    begin, result = time.process_time(), Result()
    explorer = Explorer(begin + seconds)
    try:
        program, node = read(text, PRELUDE.read_text(encoding="utf-8"), folder), assemble(node_text.encode())
        if not isinstance(node, list):
            raise Fault(f"the program does not assemble: {node}")
        proof = Proof(program, Source(program), node, rounds, replays, result)
        for segments in range(1, min(program.segments, 2) + 1):
            explorer.run(Twins(proof, Path(explorer), segments))
        if result.left:
            result.verdict, result.why = "open", ", ".join(why if count == 1 else f"{why} ({count} times)" for why, count in result.left.items())
    except (Fault, TimeoutError, RecursionError) as fault:
        kinds = {TimeoutError: "the time is up", RecursionError: "numbers that are too deep in one another"}
        result.verdict, result.why = "open", kinds.get(type(fault), str(fault))
    except Different as difference:
        result.verdict, result.why = "different", str(difference)
    result.paths, result.asked, result.seconds = explorer.paths, explorer.asked, time.process_time() - begin
    return result


class Twins:
    """A source and its program on one path: the source runs first, then its program, and then what they did is compared."""

    def __init__(self, proof: Proof, path: Path, segments: int) -> None:
        self.proof, self.path = proof, path
        packet, number = arrival(proof.program, segments)
        self.case = Case(proof.program, proof.node, packet, number)
        self.run = SymbolicRun(path, proof.source, copied(packet), number, proof.rounds)
        self.other = NodeRun(path, proof.node, copied(packet), number, 16 * proof.rounds, proof.result.seen)
        self.is_source = True

    def fork(self) -> Twins:
        """A copy on a path of its own."""
        it = copy(self)
        it.path = self.path.fork()
        it.run, it.other = (self.run.fork(it.path), self.other) if self.is_source else (self.run, self.other.fork(it.path))
        return it

    def step(self) -> bool:
        """One step of the two. Returns whether there are more."""
        result, Unknown.path = self.proof.result, self.path
        try:
            if self.is_source:
                self.is_source = self.run.step()
                self.follow()
                return True
            if self.other.step():
                return True
            self.end()
        except (Open, NotGiven):
            result.free += 1
        except Bounded:
            result.left[f"bounded: no packet differs within {self.proof.rounds} rounds of loops"] = 1
        except Left as why:
            result.left[str(why)] += 1
        return False

    def follow(self) -> None:
        """The program keeps pace with the source as far as what is known decides, for all paths that begin later."""
        self.path.is_known = goes_on = True
        try:
            while goes_on:
                ahead = self.other.fork(self.path)
                goes_on = ahead.step()
                self.other = ahead if goes_on else self.other
        except (Undecided, Bounded, Left):
            pass
        self.path.is_known, self.other = False, self.other.fork(self.path)

    def end(self) -> None:
        """Compares what they did."""
        proof, events, others = self.proof, self.run.world.events, self.other.world.events
        if len(others) < len(events) and self.run.may_drop(self.path):
            events = events[: len(others)]
        try:
            unanswered = compare(self.path, events, others)
            if unanswered:
                proof.result.left["questions without an answer"] += unanswered
        except Different as difference:
            proof.result.difference = shown(difference.model, self.case)
            if proof.result.difference:
                raise
            proof.result.left[f"a difference that the interpreters do not confirm: {difference}"] += 1
        if proof.replays:
            proof.result.replayed += checks(self.path, self.case, self.run.world.events, others)
