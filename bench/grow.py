#!/usr/bin/env python3
"""Counts how what dpv takes grows: with records, with the instructions that a record runs, and with routes.

Usage: bench/grow.py [PROGRAM]   (the built program; by default the one that ./dpv builds and runs)
Machine instructions, as perf or valgrind count them. A count is the difference of two runs, so starting and checking are not in it, but for
the columns that have them. Prints a table for each; a program with N instructions more has N sums of numbers. bench/memory.py has the
memory, and bench/heap.py heaps.
"""
import pathlib
import random
import sys
import tempfile

from engine import SEND, capture, pipeline
from tables import Table, number
from timing import built, instructions

RECORDS = 1_000
LOOKUP = "set r1,0x0a010001\nxor r1,r2\nlookup r3,0,r1,d\ntx p0,r0,d\nexit\nd: free p0\nexit\n"


def counted(words: list[str]) -> int:
    """The instructions of a run."""
    count = instructions(words)
    if count is None:
        sys.exit(f"{' '.join(words)} failed, or neither perf nor valgrind can count it")
    return count


def each(program: str, file: pathlib.Path, folder: pathlib.Path, records: int = RECORDS) -> tuple[float, int]:
    """The instructions of a record, and those of a run without records."""
    counts = []
    for many in (0, records):
        capture(folder / "port0.pcap", many)
        counts.append(counted([program, "run", str(file)]))
    return (counts[1] - counts[0]) / records, counts[0]


def by_records(program: str, folder: pathlib.Path, counts: list[int]) -> Table:
    """A record's cost, by how many records there are."""
    table = Table(["records", "a record that is only sent"], [10])
    for many in counts:
        found, _ = each(program, pipeline(folder, [SEND], None, 0), folder, many)
        table.row(number(many), number(found))
    return table


def by_instructions(program: str, folder: pathlib.Path, counts: list[int]) -> Table:
    """The cost of a record and of the start, by the number of extra instructions of its program, which all run."""
    table = Table(["instructions that a record runs", "a record", "each one more", "start, with the check of the program", "each one more there"], [31])
    first: tuple[float, int] = (0, 0)
    for more in counts:
        lines = "".join(f"add r{1 + k % 3},{k + 1}\n" for k in range(more))
        program_text = f"set r1,0\nset r2,0\nset r3,0\n{lines}{SEND}"
        found = each(program, pipeline(folder, [program_text], None, 0), folder)
        first = found if more == 0 else first
        one, start = ((now - then) / more if more else None for now, then in zip(found, first))
        table.row(number(more + 5), number(found[0]), number(one, 1), number(found[1]), number(start))
    return table


def routes_of(count: int) -> list[str]:
    """This many routes of depths 8 to 32, at random, one of them that of the look-up."""
    draw, found = random.Random(1), {"10.1.0.0/16 1"}
    while len(found) < count:
        depth = draw.choice((8, 16, 20, 24, 24, 24, 24, 28, 32))
        at = draw.getrandbits(32) >> (32 - depth) << (32 - depth)
        found.add(f"{at >> 24}.{at >> 16 & 255}.{at >> 8 & 255}.{at & 255}/{depth} {draw.randrange(8)}")
    return sorted(found)


def by_routes(program: str, folder: pathlib.Path, counts: list[int]) -> Table:
    """The cost of a look-up and of the start, by the number of routes of the table."""
    table = Table(["routes", "a look-up", "start, with all routes added"], [10])
    sent, _ = each(program, pipeline(folder, ["set r1,0\nset r2,0\n" + SEND], None, 0), folder)
    for count in counts:
        file = pipeline(folder, ["set r2,0\n" + LOOKUP], None, 0)
        rows = "".join(f'  "{route}",\n' for route in routes_of(count))
        file.write_text(f"{file.read_text()}[[table]]\nrules = 65536\ngroups = 256\nroutes = [\n{rows}]\n".replace("1048576", "134217728"))
        found, start = each(program, file, folder)
        table.row(number(count), number(found - sent), number(start))
    return table


# How much there is of each: for a table, and for a quick look.
COUNTS = {
    by_records: ([1_000, 10_000, 100_000], [1_000, 2_000]),
    by_instructions: ([0, 16, 64, 256, 1_000], [0, 64]),
    by_routes: ([1, 100, 1_000], [1]),
}


def tables(program: str, is_quick: bool = False) -> list[Table]:
    """All tables."""
    with tempfile.TemporaryDirectory() as name:
        return [table(program, pathlib.Path(name), quick if is_quick else counts) for table, (counts, quick) in COUNTS.items()]


if __name__ == "__main__":
    tables(sys.argv[1] if len(sys.argv) > 1 else built())
