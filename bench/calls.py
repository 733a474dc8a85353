#!/usr/bin/env python3
"""Counts the machine instructions of calls of the heap, the ring, the pool, mbufs and the longest-prefix table, beside DPDK.

Usage: bench/calls.py
It proves and builds the static library of crates/dp_bench and calls it from C (bench/calls/dpv.c), and if DPDK is installed does the same
over DPDK (bench/calls/dpdk.c). An operation's count is the difference of two runs that differ only in the number of rounds, counted by perf
or valgrind: so it includes its share of the loop around it and of the call of a round, and for a look-up that of its random address. Prints
one table: per operation both counts and the ratio. If DPDK cannot be counted, its figures are from another machine, and marked by a star.
It takes ten minutes under valgrind, most of them for the rules.
"""
import functools
import pathlib
import subprocess
import sys
import tempfile

from tables import Table
from timing import dpdk, instructions

TOP = pathlib.Path(__file__).resolve().parent.parent
CALLS = TOP / "bench" / "calls"
CRATE = TOP / "crates" / "dp_bench"
RULES = 60_000

# Per operation its name in the two C programs.
NAMES = """
block heap: malloc and free, 100 blocks out
blocks heap: the same, 10,000 blocks out
ring ring: one in and out
bulk ring: 32 in and out, for each
cached pool: get and put, cache for 256
pools pool: 32 got and put in bulk, for each
uncached pool: get and put, no cache
single the same beside a pool for one lcore
alloc mbuf: alloc and free, cache for 256
clone mbuf: clone and free
front mbuf: prepend and adj of 16 bytes
receive mbuf: receive of 60 bytes and free
lookup lpm: look-up among 60,000 rules
add lpm: add, of 60,000 rules
delete lpm: delete, of 60,000 rules
"""
# The name in our program where it is another, how many rounds more the second run has than the first, how many operations a round is, and
# what the first run is, where it is not the same with 1,000 rounds.
OURS = {"single": "uncached"}
ROUNDS = {"lookup": 100_000, "add": RULES, "delete": RULES}
SHARES = {"bulk": 32, "pools": 32}
FIRST = {"lookup": ("add", RULES), "add": ("add", 0), "delete": ("add", RULES)}

# DPDK's figures of another machine.
TAKEN = {"ring": 36, "bulk": 7, "cached": 41, "uncached": 109, "alloc": 106, "clone": 260, "front": 27, "lookup": 19, "add": 63_000, "delete": 99_000}


def compiled(source: str, folder: pathlib.Path, words: list[str]) -> str:
    """The program of a C file."""
    program = folder / source
    subprocess.run(["cc", "-O2", str(CALLS / f"{source}.c"), "-o", str(program), *words], check=True)
    return str(program)


def library() -> list[str]:
    """The static library, proved and built, and the functions of the C library that it calls."""
    built = subprocess.run(["rt", "lib"], cwd=CRATE, stdout=subprocess.PIPE, text=True)
    if built.returncode != 0:
        sys.exit(built.stdout)
    page = subprocess.run(["rt", "doc"], check=True, stdout=subprocess.PIPE, text=True).stdout.split()[0]
    return [str(CRATE / "out" / "libdp_bench.a"), str(pathlib.Path(page).parent / "c" / "liblibc_c.a")]


@functools.cache
def counted(program: str, name: str, rounds: int) -> int | None:
    """The instructions of a run."""
    return instructions([program, name, str(rounds)])


def between(program: str, name: str, like: str) -> float | None:
    """The instructions of an operation, which is measured as this one of DPDK."""
    rounds, first = ROUNDS.get(like, 10_000), FIRST.get(like)
    low = counted(program, *(first or (name, 1000)))
    high = counted(program, name, rounds if first else rounds + 1000)
    return None if low is None or high is None else (high - low) / (rounds * SHARES.get(like, 1))


def shown(number: float | None, star: str = "") -> str:
    """A count, formatted for the table."""
    return "" if number is None else f"{number:,.0f}{star}" if number >= 100 else f"{number:.1f}{star}"


def tables() -> list[Table]:
    """The table."""
    with tempfile.TemporaryDirectory() as made:
        folder = pathlib.Path(made)
        ours = compiled("dpv", folder, library())
        flags = dpdk()
        theirs = None if flags is None else compiled("dpdk", folder, flags)
        table = Table(["operation", "dpv", "DPDK", "ratio"], [40])
        for name, title in (line.split(" ", 1) for line in NAMES.strip().split("\n")):
            own = between(ours, OURS.get(name, name), name)
            its = None if theirs is None else between(theirs, name, name)
            star = "" if its is not None else "*"
            its = TAKEN.get(name) if its is None else its
            ratio = "" if own is None or its is None else f"{own / its:.2f}"
            table.row(title, shown(own), shown(its, star), ratio)
    return [table]


if __name__ == "__main__":
    tables()
