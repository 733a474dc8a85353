#!/usr/bin/env python3
"""Proves the programs of examples/ and of tests/pkt_tasks: what `tools/pkt` compiles does what the source says, for all packets.

Usage: tests/tools/pkt_prove.py [--seconds N] [--each N] [FILE.pkt ..]   (seconds of processor time: 60 of each process, 25 for each program)
       tests/tools/pkt_prove.py --random N [--seed N] [--each N]         (programs that tests/random/fuzz_pkt.py makes; none may differ)
       tests/tools/pkt_prove.py --planted                                (mistakes in the compiler, each of which must be found; else done last)

Prints how many are proved, and those that are open with the reason. A program with a packet on which source and output differ is a failure.
Skipped where python3-z3 is not installed."""
import argparse
import concurrent.futures
import contextlib
import os
import pathlib
import shutil
import subprocess
import sys
import tempfile
import time
from collections.abc import Iterator
from random import Random
from typing import NamedTuple

from paths import TOP

from pkt.compiler import compile_text
from pkt.prove.command import lacks
from pkt.syntax import SourceError

NUMBERS = 5_000
PROGRAMS = [*sorted(TOP.glob("examples/*/*.pkt")), *sorted(TOP.glob("tests/pkt_tasks/*.pkt"))]


class Planted(NamedTuple):
    """A mistake in the compiler: the file, the text and its replacement, what is wrong then, and a program that has to show it."""

    file: str
    old: str
    new: str
    what: str
    program: str


MINUS = "begin -= kept"
LESS = "if not max(registers.bound_of(way, a), registers.bound_of(way, b)) >> 63:"
PLANTED = (
    Planted("packets.py", MINUS, "begin -= 0", "pop of a tag: the type goes to a wrong offset", "examples/vlan_pop/vlan_pop.pkt"),
    Planted("packets.py", "reversed(range((MAX_BUFFER - it.count).bit_length()))", "reversed(range(11))", "truncate: long packets stay too long",
            "examples/tap/tap.pkt"),
    Planted("packets.py", "it.count + (1 << k), to", "it.count + (1 << k) + (k == 3), to", "truncate: one length is wrong", "examples/tap/tap.pkt"),
    Planted("packets.py", 'way.emit("trim", f"p{way.held[THIS]}", way.far.padding)', "pass", "zeros after the packet stay", "examples/tasks/mark.pkt"),
    Planted("packets.py", "way.move(-it.count, it.count)", "way.move(0, 0)", "what was loaded is not forgotten after cut",
            "let a = eth.type cut 2 if eth.type == a { drop } send port"),
    Planted("checksums.py", "> 0x1FFFE:\n        fold(way, total)", "> 0x2FFFFF:\n        fold(way, total)", "a checksum is not folded",
            "header h { a:16 b:16 c:16 d:16 sum:16 } push h { a = eth.type b = eth.src c = eth.dst d = 5 sum = auto } send port"),
    Planted("checksums.py", 'registers.apply(way, total, "^", Value(0xFFFF))\n    old', 'registers.apply(way, total, "^", Value(0xFFFE))\n    old',
            "the complement of one bit is lost", "examples/ttl/ttl.pkt"),
    Planted("checksums.py", "if header.optional:\n        way.emit", "if False:\n        way.emit", "a UDP checksum of 0 is updated",
            "need udp mend udp.dport = 53 send port"),
    Planted("checksums.py", 'zero.emit("set", total, "0xffff")', "pass", "a UDP checksum becomes 0", "need udp mend udp.dport = 53 send port"),
    Planted("checksums.py", "cover(s, names[1:], own, done)", "s.jump(done)", "only the first checksum over an address",
            "need ipv4.vhl == 0x45 mend ipv4.src = 198.51.100.1 send port"),
    Planted("checksums.py", 'way.emit("jeq", total, 0xFFFF', 'way.emit("jeq", total, 0xFFFE', "a UDP checksum is written without its complement",
            "need ipv4.vhl == 0x45 mend ipv4.src = 198.51.100.1 send port"),
    Planted("conditions.py", "size - shortest) // step\n", "size - shortest) // step and 2\n", "TCP behind options is found one word too early",
            "mend ipv4.src = 198.51.100.1 send port"),
    Planted("conditions.py", "size=t.headers[name].size)", "size=8)\n            name = names[0]", "behind options, UDP is taken for TCP",
            "mend ipv4.src = 198.51.100.1 send port"),
    Planted("conditions.py", 'way.emit("iftail", f"p{p}", padding, to=Join()).drop()',
            'sent = way.emit("iftail", f"p{p}", padding, to=Join())\n    sent.emit("tx", f"p{p}", "r0", to=Join()).drop()\n    sent.emit("exit")',
            "without room for zeros, a packet with options is sent", "if tcp.dport == 22 { drop } send port"),
    Planted("peephole.py", 'it.word != "jeq" and known.low >= value', 'it.word != "jeq" and known.low + 1 >= value', "a way past a test that is not decided",
            "if ipv4.ttl < 5 { drop } if ipv4.ttl < 6 { ipv4.tos = 1 } send port"),
    Planted("conditions.py", 'value += sign == "<="\n    a =', "a =", "< for <=", "if ipv4.ttl <= 5 { drop } send port"),
    Planted("conditions.py", 'way.emit("jeq", t, 0, to=no)\n    way.jump(yes)\n    for s', 'way.emit("jeq", t, 0, to=yes)\n    way.jump(no)\n    for s',
            "a comparison of numbers with the highest bit is turned", "if ipv6.src_hi < ipv6.dst_hi { drop } send port"),
    Planted("conditions.py", LESS, "if True:", "a comparison as of signed numbers", "if ipv6.src_hi < ipv6.dst_hi { drop } send port"),
    Planted("reach.py", "state.overwrite(operands[0], int(operands[1]), int(operands[1]) + int(operands[2]))", "pass", "what is known of bytes outlives a store",
            "if ipv4.tos == 1 { drop } ipv4.tos = ipv4.ttl if ipv4.tos == 1 { drop } send port"),
    Planted("reach.py", "here.learn(name, Value(low=c))", "here.learn(name, Value(low=c + 1))", "one value too few after <",
            "let a = ipv4.ttl if a < 5 { drop } if a == 5 { ipv4.tos = 1 } send port"),
    Planted("reach.py", "it.operands[0] not in read[it.next]", "True", "numbers that are read are left out", "let a = ipv4.ttl ipv4.tos = a send port"),
    Planted("ways.py", "if self.changes_searches(name):", "if False:", "a tag is looked for before a header that may follow it",
            "if port == 1 and vlan.vid == 5 { drop } if port == 1 and vlan.vid == 6 { drop } if ipv4.ttl <= 9 { drop } send port"),
    Planted("conditions.py", "there.learn(span, value)\n    way", "there.learn(span, value ^ 2)\n    way", "a wrong fact after ==",
            "if ipv4.proto == 17 { need udp.dport == 53 } send port"),
)


class Case(NamedTuple):
    """A program, what it is compiled to, its seconds, those after which a process begins none, and the folder of the files that it includes."""

    name: str
    source: str
    text: str
    each: float
    seconds: float = 600
    folder: pathlib.Path | None = None


def decided(case: Case):
    """The verdict on a case; none if it was not begun in time."""
    left = case.seconds - time.process_time()
    if left <= 0:
        return None
    lacks()
    from pkt.prove.decide import prove
    return prove(case.source, case.text, seconds=min(case.each, left), folder=case.folder)


def verdicts(cases: list[Case]):
    """Each case with its verdict, as they end."""
    with concurrent.futures.ProcessPoolExecutor(min(4, os.cpu_count() or 1)) as pool:
        running = {pool.submit(decided, case): case for case in cases}
        for done in concurrent.futures.as_completed(running):
            yield running[done], done.result()


def cases_of(files: list[pathlib.Path], seconds: float, each: float) -> Iterator[Case]:
    """Programs in files."""
    for it in files:
        name, source = str(it.relative_to(TOP)) if it.is_relative_to(TOP) else str(it), it.read_text()
        yield Case(name, source, compile_text(source, it.name, it.parent), each, seconds, it.parent)


def random_cases(number: int, seed: int, each: float) -> Iterator[Case]:
    """Programs by chance that the compiler accepts."""
    lacks()
    from pkt_cases.pipelines import case
    prelude = (TOP / "tools/pkt/prelude.pkt").read_text()
    for k in range(number):
        for source in dict.fromkeys(case(Random(f"{seed} {k}"), prelude, False).texts):
            with contextlib.suppress(SourceError):
                yield Case(f"case {seed} {k}\n{source}", source, compile_text(source), each)


def prove_all(cases: list[Case]) -> int:
    """Proves programs. Returns how many differ."""
    proved, unproved, differ = 0, [], 0
    for case, result in verdicts(cases):
        if result is None or result.verdict == "open":
            unproved.append(f"open: {case.name}: {result.why if result else 'not begun'}")
        elif result.verdict == "different":
            differ += 1
            print(f"{case.name}: {result.line()}", flush=True)
        else:
            proved += 1
    print(*sorted(unproved), sep="\n")
    print(f"pkt_prove: {proved} of {len(cases)} programs proved, {len(unproved)} open, {differ} different")
    return differ


def with_mistake(planted: Planted, source: str) -> str:
    """What a compiler with a mistake makes of a program; raises ValueError if that is not possible."""
    with tempfile.TemporaryDirectory() as folder:
        there = pathlib.Path(folder, "pkt")
        shutil.copytree(TOP / "tools/pkt", there, ignore=shutil.ignore_patterns("__pycache__"))
        text = (there / planted.file).read_text()
        if text.count(planted.old) != 1:
            raise ValueError(f"the text to replace is there {text.count(planted.old)} times")
        (there / planted.file).write_text(text.replace(planted.old, planted.new))
        (there.parent / "x.pkt").write_text(source)
        done = subprocess.run([sys.executable, there, there.parent / "x.pkt"], capture_output=True, text=True)
        if done.returncode:
            raise ValueError(f"the compiler fails: {done.stderr.strip().splitlines()[-1]}")
        return done.stdout


def find_planted(each: float) -> int:
    """Proves programs compiled with mistakes. Returns how many were not found."""
    missed, cases = 0, []
    for it in PLANTED:
        source = (TOP / it.program).read_text() if it.program.endswith(".pkt") else it.program
        try:
            cases.append(Case(it.what, source, with_mistake(it, source), each))
        except ValueError as fault:
            missed += 1
            print(f"{it.what}: {fault}")
    right = {it.source: Case("without a mistake", it.source, compile_text(it.source), each) for it in cases}
    for case, result in verdicts([*cases, *right.values()]):
        if result.verdict != ("proved" if case in right.values() else "different"):
            missed += 1
            print(f"{case.name}: {result.line()}")
    print(f"pkt_prove: {len(PLANTED) - missed} of {len(PLANTED)} planted mistakes found")
    return missed


def numbers_are_right(count: int) -> bool:
    """Tries the numbers that are not known."""
    from pkt_cases.unknowns import check
    wrong = check(count, 1)
    print(wrong or f"pkt_prove: {count} numbers agree with Python and z3")
    return not wrong


def main() -> int:
    """Runs what the command line asks for. Returns the status."""
    parser = argparse.ArgumentParser()
    parser.add_argument("--seconds", type=float, default=60)
    parser.add_argument("--each", type=float, default=25)
    parser.add_argument("--planted", action="store_true")
    parser.add_argument("--random", type=int, default=0)
    parser.add_argument("--seed", type=int, default=1)
    parser.add_argument("files", nargs="*", type=pathlib.Path)
    words = parser.parse_args()
    missing = lacks()
    if missing:
        print(f"pkt_prove: skipped, as {missing} is not installed")
        return 0
    if words.random:
        return 1 if prove_all(list(random_cases(words.random, words.seed, words.each))) else 0
    files = [it.resolve() for it in words.files] or PROGRAMS
    wrong = 0 if words.planted else prove_all(list(cases_of(files, words.seconds, words.each)))
    wrong += 0 if words.files else find_planted(words.each) + (not numbers_are_right(NUMBERS))
    return 1 if wrong else 0


if __name__ == "__main__":
    sys.exit(main())
