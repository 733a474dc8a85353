#!/usr/bin/env python3
"""Lets the built program dpv judge certificates whose rows are spelled here: facts, rows, groups, bounds, and what an environment says of them.

Usage: tests/program/rows.py [PROGRAM]   (the built program; by default the one that ./dpv builds and runs)
Facts and rows that are well formed or not, in both versions of certificates; groups as their registers are freed; the bounds of an entry, of a
constant and of what each width loads, each with the least bound that is accepted and one less; and for an environment of two pools, a table, a
ring and two ports its entries, its rooms and how many parts it has. Prints a line for each case that failed, and a count; exits with 1 if a
case failed.
"""
import pathlib
import struct
import sys
from typing import NamedTuple

import paths  # noqa: F401

from command import asked, fixed, new_folder, report_cases, run_said

Fact = tuple[int, int, int, int, int, int]
BIGGEST = 2**64 - 1
# What is known at the entry of a port whose packets have one segment, and a row that says nothing.
ENTRY: Fact = (2, 128, 0, 0, 0, 1)
DEAD = bytes(153)
# What a row in which a register is no fact, or no group, is refused as.
NO_ROW = "7 BadCert {} line {} cause 3"
ACCEPTED = "accepted"


def row(facts: dict[int, Fact], *bounds: int) -> bytes:
    """A live row: the facts of packet registers, and the bounds of the first number registers."""
    held = [struct.pack(">BBHHHHB", 1, *facts[k]) if k in facts else bytes(11) for k in range(8)]
    return b"\1" + b"".join(held) + struct.pack(">8Q", *bounds, *[0] * (8 - len(bounds)))


def shares(*of: int | None) -> bytes:
    """A row with packets of these shares in the first packet registers."""
    return row({k: (share, 128, 0, 0, 0, 1) for k, share in enumerate(of) if share is not None})


def edited(data: bytes, at: int, byte: int) -> bytes:
    """The bytes, with another value at a place."""
    return data[:at] + bytes([byte]) + data[at + 1 :]


class Case(NamedTuple):
    """A program, with its instructions after one another, the version and the rows of its certificate, and how it is judged."""

    program: str
    version: int
    rows: list[bytes]
    judged: str


FREE, ONE_MORE = "free p0; exit", "free p0; exit; exit"
FREED = row({})


def begun(facts: dict[int, Fact] | bytes, judged: str, version: int = 2) -> Case:
    """A case of the row before `free p0`."""
    return Case(FREE, version, [facts if isinstance(facts, bytes) else row(facts), FREED], judged)


# Facts in p0: those that are well formed are read, and then accepted if the entry entails them.
AT_FIRST, NOT_ENTAILED = NO_ROW.format("port 0", 2), "refused at 0 by J2"
FACTS = [
    begun({0: (2, 128, 10, 14, 14, 1)}, NOT_ENTAILED),
    begun({0: (1, 2, 3, 4, 5, 1)}, NOT_ENTAILED),
    begun({0: (2, 65_535, 0, 0, 0, 64)}, NOT_ENTAILED),
    begun({0: (3, 65_535, 0, 0, 0, 64)}, AT_FIRST),
    begun({0: (0, 65_535, 0, 0, 0, 0)}, AT_FIRST),
    begun({0: (0, 65_535, 0, 0, 0, 65)}, AT_FIRST),
    begun({0: ENTRY}, ACCEPTED),
    begun({0: (9, 128, 0, 0, 0, 1)}, AT_FIRST),
    begun({}, NOT_ENTAILED),
]

# The shares of the first packet registers: a group has at least two registers, and the name of the least; version 1 has no groups.
SHARES = [
    begun(shares(2), ACCEPTED, 1),
    begun(shares(2), ACCEPTED),
    begun(shares(8, 8), AT_FIRST, 1),
    begun(shares(8, 8), NOT_ENTAILED),
    begun(shares(8, None), AT_FIRST, 1),
    begun(shares(8, None), AT_FIRST),
    begun(shares(9, 9), AT_FIRST, 1),
    begun(shares(9, 9), AT_FIRST),
    begun(shares(8, 9), AT_FIRST, 1),
    begun(shares(8, 9), AT_FIRST),
    begun(shares(2, 9, 9, 9), AT_FIRST, 1),
    begun(shares(2, 9, 9, 9), NOT_ENTAILED),
    begun(shares(2, 8, 8, 8), AT_FIRST),
    begun(shares(2, 10, 10, 10), AT_FIRST),
]

# A row that says nothing is well formed only if no register has a fact or a bound.
LATE = NO_ROW.format("port 0", 4)
SAYS_NOTHING = [
    Case(ONE_MORE, 1, [shares(2), FREED, DEAD], ACCEPTED),
    Case(ONE_MORE, 1, [shares(2), FREED, edited(DEAD, 1 + 88 + 8 * 3 + 7, 1)], LATE),
    Case(ONE_MORE, 1, [shares(2), FREED, edited(edited(DEAD, 1 + 11 * 5, 1), 1 + 11 * 5 + 10, 1)], LATE),
]

# Each width: its bytes end with the eight that are there, and what it loads is at most this.
WIDTHS = {1: 255, 2: 65_535, 4: 4_294_967_295, 8: BIGGEST}


def loaded(width: int, greatest: int, more: int, judged: str) -> Case:
    """A case of a number of a width that is loaded from the end of eight bytes, or past it."""
    known = row({0: (2, 128, 0, 8, 0, 1)})
    program = f"iflen p0,8,d; load r1,p0,{8 - width + more},{width}; d: free p0; exit"
    return Case(program, 1, [shares(2), known, row({0: ENTRY}, 0, greatest), row({}, 0, greatest)], judged)


LOADED = [
    it
    for width, greatest in WIDTHS.items()
    for it in (
        loaded(width, greatest, 0, ACCEPTED),
        loaded(width, greatest - 1, 0, "refused at 1 by J11"),
        loaded(width, greatest, 1, "refused at 1 by J6"),
    )
]

# Programs with their inferred certificates: p0 is sole beside the group of p1, p2 and p3, and the registers of this are freed in turn.
THREE = "alloc p1,0,d; append p1,1; clone p2,p1,0,c; clone p3,p1,0,b; "
ENDS = "; free p0; exit; b: free p2; c: free p1; d: free p0; exit"
GROUPS = {
    THREE + "free p3; free p2; store p1,0,1,r1; free p1" + ENDS: ACCEPTED,
    THREE + "free p3; store p1,0,1,r1; free p1; free p2" + ENDS: "not inferred at 5 by J7",
    THREE + "free p1; free p3; store p2,0,1,r1; free p2" + ENDS: ACCEPTED,
    THREE + "free p1; store p2,0,1,r1; free p2; free p3" + ENDS: "not inferred at 5 by J7",
    THREE + "prepend p0,1; free p1; free p2; free p3" + ENDS: ACCEPTED,
    THREE + "prepend p1,1; free p1; free p2; free p3" + ENDS: "not inferred at 4 by J7",
}

# Two pools, of which one has no room, one ring, whose packets may be anything, and two ports, for packets of one and of three segments.
PARTS = """region = 1048576
pool = [{ count = 4, cache = 0, room = 2176 }, { count = 4, cache = 0, room = 0 }]
ring = [{ count = 2, share = 0, head = 0, tail = 0, first = 0, last = 0, segs = 64, node = "free.dpv" }]
port = [
    { pool = 0, segs = 1, queue = 4, node = "free.dpv", in = "none", out = "none" },
    { pool = 0, segs = 3, queue = 4, node = "at", cert = "cert", in = "none", out = "none" },
]
"""
# The same with a table, which is large.
TABLE = PARTS + "[[table]]\nrules = 1\ngroups = 0\nroutes = []\n"
# Eight ports, of which the last has the certificate.
PORT = '[[port]]\npool = 0\nsegs = 1\nqueue = 4\nin = "none"\nout = "none"\n'
EIGHT = "region = 262144\n[[pool]]\ncount = 4\ncache = 0\nroom = 2176\n" + 7 * (PORT + 'node = "free.dpv"\n') + PORT + 'node = "at"\ncert = "cert"\n'

# What is known at an entry, by the word that names it; nothing where there is no such entry.
ENTRIES: dict[str, bytes | None] = {
    "port1": row({0: (2, 128, 0, 0, 0, 3)}, 1),
    "ring0": row({0: (0, 0, 0, 0, 0, 64)}, 0),
    "port2": None,
    "ring1": None,
}

OF_THREE: Fact = (2, 128, 0, 0, 0, 3)


def allocated(pool: int, fact: Fact, judged: str) -> Case:
    """A case of a packet of a pool, of which this is known."""
    known = [row({0: OF_THREE}, 1), row({0: OF_THREE, 1: fact}, 1), row({0: OF_THREE}, 1), row({}, 1)]
    return Case(f"alloc p1,{pool},d; free p1; d: free p0; exit", 1, known, judged)


def at_port(bound: int, judged: str) -> Case:
    """A case of `tx` to the ports up to a bound."""
    known = [row({0: OF_THREE}, bound), row({0: OF_THREE}, bound), row({}, bound), row({0: OF_THREE}, bound), row({}, bound)]
    return Case(f"set r0,{bound}; tx p0,r0,d; exit; d: free p0; exit", 1, known, judged)


def in_part(call: str, after: str, bounds: tuple[int, ...], judged: str) -> Case:
    """A case of a call that names a part, with the instruction after it and the bounds then; p0 is sent by it, or is still there."""
    kept, sent = row({0: OF_THREE}, *bounds), row({}, *bounds)
    return Case(f"{call}; {after}; d: free p0; exit", 1, [row({0: OF_THREE}, 1), sent if after == "exit" else kept, kept, sent], judged)


# At port 1 of the two: the rooms of the pools, and how many parts there are.
OF_PARTS = [
    allocated(0, (2, 128, 2048, 0, 0, 1), ACCEPTED),
    allocated(0, (2, 128, 2049, 0, 0, 1), "refused at 0 by J11"),
    allocated(1, (2, 0, 0, 0, 0, 1), ACCEPTED),
    allocated(1, (2, 0, 1, 0, 0, 1), "refused at 0 by J11"),
    allocated(1, (2, 1, 0, 0, 0, 1), "refused at 0 by J11"),
    allocated(2, (2, 0, 0, 0, 0, 1), "refused at 0 by J3"),
    in_part("enq p0,0,d", "exit", (1,), ACCEPTED),
    in_part("enq p0,1,d", "exit", (1,), "refused at 0 by J3"),
    at_port(1, ACCEPTED),
    at_port(2, "refused at 1 by J9"),
]

OF_TABLE = [
    in_part("lookup r1,0,r0,d", "jmp d", (1, 16_777_215), ACCEPTED),
    in_part("lookup r1,0,r0,d", "jmp d", (1, 16_777_214), "refused at 0 by J11"),
    in_part("lookup r1,1,r0,d", "jmp d", (1, 16_777_215), "refused at 0 by J3"),
]

COPIED, CONSTANT = "mov r1,r0; free p0; exit", "set r1,9; free p0; exit"


def bounded(program: str, first: int, second: int, judged: str, bound: int = 0) -> Case:
    """A case of the bounds of r0 at the entry and of r1 after the first instruction, if r1 is at most `bound` before it."""
    known = [row({0: ENTRY}, first, bound), row({0: ENTRY}, first, second), row({}, first, second)]
    return Case(program, 1, known, judged)


# At port 7 of eight: r0 is at most 7, the other numbers are 0, and only p0 has a packet.
OF_EIGHT = [
    bounded(COPIED, 7, 7, ACCEPTED),
    bounded(COPIED, 6, 7, "refused at 0 by J2"),
    bounded(COPIED, 7, 6, "refused at 0 by J11"),
    bounded(CONSTANT, 7, 9, ACCEPTED),
    bounded(CONSTANT, 7, 8, "refused at 0 by J11"),
    Case(COPIED, 1, [row({0: ENTRY, 7: ENTRY}, 7), row({0: ENTRY}, 7, 7), row({}, 7, 7)], "refused at 0 by J2"),
]


class Tried:
    """The program, and a folder."""

    def __init__(self, program: str, folder: pathlib.Path) -> None:
        self.program, self.folder = program, folder
        for name, text in {"free.dpv": FREE.replace("; ", "\n") + "\n", "parts.toml": PARTS, "table.toml": TABLE, "eight.toml": EIGHT}.items():
            (folder / name).write_text(text)

    def run(self, *words: str) -> tuple[int, str, str]:
        """How a run ends, without the lines after its first."""
        run = run_said([self.program, *words], cwd=self.folder, capture_output=True, text=True, timeout=60)
        return run.returncode, run.stdout, fixed(run.stderr)

    def is_judged(self, words: list[str], node: str, case: Case) -> bool:
        """Whether the last line on a node, or the fault, is as the case says."""
        (self.folder / "at").write_text(case.program.replace("; ", "\n") + "\n")
        rows = "".join(f"{it.hex()}\n" for it in case.rows)
        (self.folder / "cert").write_text(f"dpv-cert {case.version}\n{rows}")
        status, printed, reported = self.run(*words)
        if case.judged.startswith("7 "):
            wanted, came = (3, f"fault: pipeline {case.judged.replace('port 0', node)}\n"), (status, reported)
        else:
            lines = [line for line in printed.splitlines() if line.startswith(f"{node} ")]
            wanted, came = (0 if case.judged == ACCEPTED else 1, f"{node} {case.judged}"), (status, lines[-1] if lines else "")
        if came != wanted:
            print(f"rows: {case.program}, {rows}: expected {wanted}, came {came}")
        return came == wanted

    def is_entry(self, which: str, known: bytes | None) -> bool:
        """Whether this is known at an entry: it is the first row of the certificate that is inferred there."""
        (self.folder / "at").write_text(FREE.replace("; ", "\n") + "\n")
        came = self.run("infer", "parts.toml", which)
        if known is None:
            wanted = (2, "", f"error: the pipeline has no {which[:4]} {which[4]}\n")
        else:
            bound = known[-64:]
            wanted = (0, f"dpv-cert 1\n{known.hex()}\n01{bytes(88).hex()}{bound.hex()}\n", "")
        if came != wanted:
            print(f"rows: entry {which}: expected {wanted}, came {came}")
        return came == wanted


def main() -> int:
    """All of it."""
    program = asked()
    with new_folder() as folder:
        tried = Tried(program, folder)
        alone = FACTS + SHARES + SAYS_NOTHING + LOADED
        passed = [tried.is_judged(["explain-one", "at", "cert"], "port 0", case) for case in alone]
        passed += [tried.is_judged(["explain-one", "at"], "port 0", Case(text, 1, [], judged)) for text, judged in GROUPS.items()]
        passed += [tried.is_judged(["check", "parts.toml"], "port 1", case) for case in OF_PARTS]
        passed += [tried.is_judged(["check", "table.toml"], "port 1", case) for case in OF_TABLE]
        passed += [tried.is_judged(["check", "eight.toml"], "port 7", case) for case in OF_EIGHT]
        passed += [tried.is_entry(which, known) for which, known in ENTRIES.items()]
    return report_cases("rows", passed)


if __name__ == "__main__":
    sys.exit(main())
