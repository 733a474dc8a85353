#!/usr/bin/env python3
"""Compiles random programs of the language pkt, has `dpv` infer, check and run them, and compares what they send with an interpreter.

Usage: tests/random/fuzz_pkt.py [--seed N] [--cases N | --seconds N] [--jobs N] [--keep FOLDER] [--model | PROGRAM]
       tests/random/fuzz_pkt.py --again FOLDER [--model | PROGRAM]
A case is a pipeline in which each port and each ring has a program of its own, which uses any statement. tools/pkt compiles the programs,
and they run on 10 to 40 frames a port. tests/pkt_model, an interpreter of the source that knows no instruction, works out what each port
sends and what the report says. The same seed makes the same cases with any number of jobs. PROGRAM is by default the one that ./dpv builds;
with --model the checker and the machine of tests/model stand in for it, so nothing needs to be built.

Findings are other bytes, another report, a program that the checker refuses, and a compiler that raises anything but SourceError. A program
that the compiler refuses with an error is no finding: `send 0` takes its place, and the errors are counted by kind. One case in six is wild:
it writes to shared bytes, chains in loops and so on, and the compiler has to refuse that. Statements that control never reaches, as the
compiler says, are removed first; it is a finding if the interpreter reaches one of them. Records whose outcome the page leaves open are left
out. Each finding is reduced and kept in a folder of its own; `--again` runs such a folder once more. The programs of tests/pkt_found, which
once were findings, run before all others. Exits with 1 if there is a finding.
"""
import argparse
import contextlib
import json
import pathlib
import re
import shutil
import sys
import time
from collections import Counter
from collections.abc import Iterator
from dataclasses import dataclass, field, replace
from functools import lru_cache
from random import Random
from typing import NamedTuple, Protocol

import paths  # noqa: F401

from command import TOP, program_of
from fuzz import Place, Sums, all_jobs, own_place, parser_of, shown
from model import captures, programs as assembler, rules
from model.machine import Env, Input, Pool, Port, Ring, Stuck, World, run
from pkt_cases.frames import frames
from pkt_cases.pipelines import FACTS, Case, case, table_of
from pkt_cases.shrinking import PLAIN, end_of_block, shrunk
from pkt_model.machine import Open, Source, SourceWorld
from pkt_model.reader import read
from pkt.compiler import compile_text
from pkt.syntax import SourceError

PRELUDE = (TOP / "tools/pkt/prelude.pkt").read_text()
FOUND = TOP / "tests/pkt_found"
SHRINK_SECONDS = 30.0
WILD = 6
# How the compiler reports a statement that control never reaches, and how many of them are removed from a text.
UNREACHED, MAX_MENDS = "control never comes here", 60


class Outcome(Protocol):
    """How a run ended: its status, what it printed, and the files that it wrote."""

    status: int
    printed: str
    reported: str
    written: dict[str, bytes]


class Modelled(NamedTuple):
    """How a run of tests/model ended."""

    status: int
    printed: str
    reported: str
    written: dict[str, bytes]


class Finding(NamedTuple):
    """What is wrong: its kind, and the text of it."""

    kind: str
    text: str


@dataclass
class Tally(Sums):
    """The errors of the compiler by kind too, the programs that ran, the records left out, and the packets sent."""

    refusals: Counter[str] = field(default_factory=Counter)
    programs: int = 0
    left_out: int = 0
    sent: int = 0


class Refused(NamedTuple):
    """An error of the compiler: its text and its line, from 0."""

    text: str
    line: int

    @property
    def kind(self) -> str:
        """The text without names and numbers."""
        return re.sub(r"\b[a-zA-Z]+[0-9]+\b|[0-9]+", "..", self.text)


@lru_cache(64)
def compiled(text: str) -> str | Refused | Finding:
    """The node program of a text."""
    try:
        return compile_text(text)
    except SourceError as error:
        return Refused(error.message, error.at.line - 1)
    except Exception as error:  # any other exception is a fault of the compiler
        return Finding("breaks", f"the compiler breaks: {error!r}")


def mended(text: str) -> tuple[str, list[tuple[str, int]]]:
    """The text without statements that control never reaches, and each text with the line from which on it lost some, from 0."""
    lost: list[tuple[str, int]] = []
    for _ in range(MAX_MENDS):
        answer = compiled(text)
        if not isinstance(answer, Refused) or not answer.text.startswith(UNREACHED):
            break
        lost.append((text, answer.line))
        lines = text.splitlines()
        text = "\n".join([*lines[: answer.line], *lines[end_of_block(lines, answer.line) :]]) + "\n"
    return text, lost


def wrongly_lost(it: Case, port: int, lost: list[tuple[str, int]]) -> Finding | None:
    """A statement of a port's program that control reaches, although the compiler says that it does not."""
    for text, line in lost:
        if is_in_def(text, line):
            continue
        source = Source(read(text, PRELUDE))
        world = SourceWorld(it.env, [source if node == port else Source(read("drop", PRELUDE)) for node in range(len(it.texts))])
        with contextlib.suppress(Open):
            run(world, [Input(it.records(k) if k == port else [], "whole") for k in range(len(it.env.ports))])
        if source.reaches(line + 1):
            return Finding("unreached", f"control reaches line {line + 1} of\n{text}")
    return None


def is_in_def(text: str, line: int) -> bool:
    """Whether a line, from 0, is in a `def`, which is compiled for each use: control may come there by another one."""
    return next((it.startswith("def ") for it in text.splitlines()[line::-1] if not it.startswith((" ", "}"))), False)


def prepared(it: Case, tally: Tally) -> Case:
    """The case, with a plain program in place of each one that the compiler refuses."""
    for node, text in enumerate(it.texts):
        text, lost = mended(text)
        finding = wrongly_lost(it, node, lost) if node < len(it.env.ports) else None
        if finding is not None:
            tally.findings += 1
            print(f"port {node}: {finding.text}", flush=True)
        answer = compiled(text)
        if isinstance(answer, Refused):
            tally.refusals[answer.kind] += 1
        it = it.with_text(node, PLAIN if isinstance(answer, Refused) else text)
    return it


def expected(it: Case) -> tuple[Case, str, list[bytes], int]:
    """Interprets a case. Returns it without the records whose outcome the page leaves open, the report, the captures, and how many packets are sent."""
    sources = {text: Source(read(text, PRELUDE)) for text in it.texts}
    while True:
        world = SourceWorld(it.env, [sources[text] for text in it.texts], frozenset(it.refused))
        try:
            done = run(world, [Input(it.records(port), "whole") for port in range(len(it.env.ports))])
        except Open:
            it = without_last(it, world)
            continue
        return it, done.report, [captures.written(False, records) for records in done.sent], sum(map(len, done.sent))


def without_last(it: Case, world: SourceWorld) -> Case:
    """The case without the record that came last."""
    port, number = world.last, world.turns[world.last]
    data = it.inputs[port]
    return replace(it, inputs=(*it.inputs[:port], (*data[: number - 1], *data[number:]), *it.inputs[port + 1 :]))


def put(place: Place, it: Case, programs: list[str]) -> list[str]:
    """Writes the files of a case, and returns the words that run it."""
    place.put("it.toml", it.toml().encode())
    for number, text in enumerate(programs):
        place.put(f"n{number}.dpv", text.encode())
    for port in range(len(it.env.ports)):
        place.put(f"i{port}", it.capture(port))
    return ["run", "it.toml", *(["--refuse", ",".join(map(str, it.refused))] if it.refused else [])]


def modelled(it: Case, texts: list[str]) -> Outcome:
    """Checks and runs compiled programs by tests/model."""
    nodes = []
    for place, text in enumerate(texts):
        node = assembler.assemble(text.encode())
        # The model may infer too little for a loop; the machine then finds what goes wrong in a run.
        is_good = isinstance(node, list) and (not rules.is_forward(node) or rules.infer(it.env, node, rules.entry_row(it.env, place)) is not None)
        if not isinstance(node, list) or not is_good:
            return Modelled(1, "", f"node {place} is refused\n{text}", {})
        nodes.append(node)
    try:
        done = run(World(it.env, nodes, frozenset(it.refused)), [Input(it.records(port), "whole") for port in range(len(it.env.ports))])
    except Stuck as stuck:
        return Modelled(1, "", f"{stuck}\n" + "--\n".join(texts), {})
    return Modelled(0, done.report, "", {f"o{port}": captures.written(False, records) for port, records in enumerate(done.sent)})


def judged(place: Place | None, it: Case, tally: Tally) -> Finding | None:
    """Compiles, runs and interprets a case. Returns what is wrong."""
    programs = {text: compiled(text) for text in it.texts}
    for answer in programs.values():
        if isinstance(answer, Finding):
            return answer
        if isinstance(answer, Refused):
            return None
    texts = [text for name in it.texts if isinstance(text := programs[name], str)]
    given = sum(map(len, it.inputs))
    it, report, written, sent = expected(it)
    ended: Outcome = place.run(put(place, it, texts)) if place else modelled(it, texts)
    tally.programs += len(programs.keys() - {PLAIN})
    tally.records += sum(map(len, it.inputs))
    tally.left_out += given - sum(map(len, it.inputs))
    tally.sent += sent
    if ended.status != 0:
        return Finding("refused", f"status {ended.status}: {ended.printed}{ended.reported}")
    for port, data in enumerate(written):
        if (came := ended.written.get(f"o{port}")) != data:
            return Finding("captures", f"port {port}: {difference(data, came or b'')}\nexpected report\n{report}came\n{ended.printed}")
    if without_cuts(ended.printed) != without_cuts(report):
        return Finding("report", f"expected\n{report}came\n{ended.printed}")
    tally.cases["as expected"] += 1
    return None


def without_cuts(report: str) -> str:
    """A report without the count of cut node runs: a compiled program may drop a packet before the loop that would be cut."""
    return re.sub(r"(?m)^cut .*\n", "", report)


def difference(wanted: bytes, came: bytes) -> str:
    """The first record in which two captures differ."""
    mine, yours = captures.read(wanted).records, captures.read(came).records
    number = next((k for k, pair in enumerate(zip(mine, yours)) if pair[0] != pair[1]), min(len(mine), len(yours)))
    said = [f"record of frame {it[number][0]}: {it[number][2].hex()}" if number < len(it) else "no record" for it in (mine, yours)]
    return f"packet {number} of {len(mine)}, {len(yours)} came\n wanted {said[0]}\n came   {said[1]}"


def is_same(place: Place | None, it: Case, kind: str) -> bool:
    """Whether a case has a finding of this kind."""
    try:
        finding = judged(place, it, Tally())
    except Exception:  # a text that is no program any more
        return False
    return finding is not None and finding.kind == kind


def keep(place: Place | None, it: Case, finding: Finding, folder: pathlib.Path) -> None:
    """Reduces a finding, writes it to a folder and prints it."""
    it = shrunk(it, lambda less: is_same(place, less, finding.kind), SHRINK_SECONDS)
    finding = judged(place, it, Tally()) or finding
    shutil.rmtree(folder, ignore_errors=True)
    folder.mkdir(parents=True)
    reported = {"env": it.env[:1] + it.env[2:], "texts": it.texts, "inputs": [[data.hex() for data in port] for port in it.inputs]}
    (folder / "case.json").write_text(json.dumps({**reported, "refused": it.refused, "routes": it.routes}))
    (folder / "finding.txt").write_text(finding.text + "\n")
    for number, text in enumerate(it.texts):
        (folder / f"n{number}.pkt").write_text(text)
    print(f"{folder}: {finding.kind}: {finding.text[:600]}\n" + "\n--\n".join(dict.fromkeys(it.texts)), flush=True)


def kept(folder: pathlib.Path) -> Case:
    """Reads a case from its folder."""
    reported = json.loads((folder / "case.json").read_text())
    pools, rings, ports = reported["env"]
    routes = tuple(reported["routes"])
    facts = [Ring(count, tuple(fact)) for count, fact in rings]
    env = Env([Pool(*pool) for pool in pools], [table_of(routes)] if routes else [], facts, [Port(*port) for port in ports])
    inputs = tuple(tuple(bytes.fromhex(data) for data in port) for port in reported["inputs"])
    return Case(env, tuple(reported["texts"]), inputs, tuple(reported["refused"]), routes)


def work(asked: argparse.Namespace, first: int, until: float) -> Tally:
    """Runs the cases of one job."""
    tally = Tally()
    with place_of(asked.program) as place:
        for number in range(first, asked.cases, asked.jobs):
            if time.monotonic() >= until:
                break
            it = prepared(case(Random(f"{asked.seed} {number}"), PRELUDE, number % WILD == 0), tally)
            finding = judged(place, it, tally)
            if finding is not None:
                tally.findings += 1
                tally.cases[finding.kind] += 1
                keep(place, it, finding, asked.keep / f"{asked.seed}-{number}")
    return tally


@contextlib.contextmanager
def place_of(program: str | None) -> Iterator[Place | None]:
    """A folder to run the program in; none for the model."""
    if program is None:
        yield None
    else:
        with own_place(program) as place:
            yield place


def found_before(program: str | None) -> Tally:
    """Runs the programs that once were findings, on ports whose lists are soon full, and with allocations refused. The compiler has to
    refuse those that begin with `# refused:`, in these words."""
    tally, rng = Tally(), Random("found")
    env = Env([Pool(16, 0, 2176), Pool(2, 0, 0)], [], [Ring(4, FACTS["any"])], [Port(0, 1, queue) for queue in (2, 4, 32)])
    with place_of(program) as place:
        for path in sorted(FOUND.glob("*.pkt")):
            text = path.read_text()
            it = Case(env, (text, text, text, PLAIN), tuple(tuple(frames(rng, 60)) for _ in env.ports), (7, 20, 21))
            answer, wanted = compiled(text), re.match(r"# refused: (.*)", text)
            said = answer.text if isinstance(answer, Refused) else ""
            if wanted or said:
                finding = None if wanted and said == wanted[1] else Finding("refused", f"the compiler says {said!r}")
                tally.refusals[said] += 1
            else:
                finding = judged(place, it, tally)
            if finding is not None:
                tally.findings += 1
                tally.cases[finding.kind] += 1
                print(f"{path}: {finding.kind}: {finding.text}", flush=True)
    return tally


def again(asked: argparse.Namespace) -> int:
    """Runs a finding once more."""
    folder = asked.again.resolve()
    with place_of(asked.program) as place:
        finding = judged(place, kept(folder), Tally())
    print(finding.text if finding else "as it has to be")
    return 1 if finding else 0


def main() -> int:
    """Runs all jobs and prints the counts."""
    description = "Compiles random programs of the language pkt, runs them, and compares what they send with an interpreter."
    parser = parser_of(description, "dpv_pkt_findings")
    parser.add_argument("--model", action="store_true")
    asked = parser.parse_args()
    asked.program, asked.keep = None if asked.model else program_of(asked.program), asked.keep.resolve()
    asked.cases = asked.cases or (sys.maxsize if asked.seconds else 1_000)
    if asked.again:
        return again(asked)
    tally = found_before(asked.program)
    begun = time.monotonic()
    for done in all_jobs(asked, work):
        tally.add(done)
    print(f"fuzz_pkt: seed {asked.seed}, {tally.cases.total()} cases ({shown(tally.cases)}) in {time.monotonic() - begun:.0f} s")
    print(f"fuzz_pkt: {tally.programs} programs, {tally.records} records, {tally.left_out} left out, {tally.sent} packets sent; {tally.findings} findings")
    for text, number in tally.refusals.most_common():
        print(f"fuzz_pkt: the compiler refused {number}: {text}")
    return 1 if tally.findings else 0


if __name__ == "__main__":
    sys.exit(main())
