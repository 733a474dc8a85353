#!/usr/bin/env python3
"""Proves and builds the libraries that a crate depends on, and checks the crate, on all processors.

Usage: tools/prove.py CRATE
Prints how many crates there are, and how many are left as each is done. The toolchain's output goes to standard error. Exits with 1 if one
is not proved. A crate that was proved before, with the same dependencies, is not proved again. `./dpv` calls it.

It runs `rt all check` in the folder of the crate, which works on that crate and those below it, lowest first, with one job for each. A check
that waits for those below it holds a place, so there is one place more than processors, if memory allows. No `rt lib` for each crate: one
of them keeps all others out of the crates below its own until it ends, and nearly all crates have the same ones below them."""
import os
import pathlib
import re
import subprocess
import sys

TOP = pathlib.Path(__file__).resolve().parent.parent
# The memory that a check takes at most, in bytes.
ROOM = 2_000_000_000


def crates_of(crate: str) -> set[str]:
    """The crate and those below it."""
    rows = dict(re.findall(r"^(\w+)[^:\n]*:(.*)$", (TOP / "crates.txt").read_text(), re.M))
    found, left = set(), [crate]
    while left:
        name = left.pop()
        if name in rows and name not in found:
            found.add(name)
            left += rows[name].split()
    return found


def free_memory() -> int:
    """The memory that is free, in bytes."""
    rows = dict(it.split(":") for it in pathlib.Path("/proc/meminfo").read_text().splitlines())
    return 1024 * int(rows["MemAvailable"].split()[0])


def places() -> int:
    """How many checks may run at once."""
    processors = len(os.sched_getaffinity(0))
    return max(1, min(processors + 1, free_memory() // ROOM))


def prove(crate: str) -> int:
    """Proves the crate and those below it, and prints which are done."""
    left = crates_of(crate)
    print(f"{crate}: {len(left)} crates to check", flush=True)
    words = ["rt", "all", "check", "--jobs", str(places())]
    with subprocess.Popen(words, cwd=TOP / "crates" / crate, stdout=subprocess.PIPE, stderr=subprocess.STDOUT, text=True, errors="replace") as started:
        for row in started.stdout:
            print(row, end="", file=sys.stderr, flush=True)
            done = row.removeprefix("== ").strip()
            if row.startswith("== ") and done in left:
                left.remove(done)
                print(f"{crate}: {done} is done, {len(left)} to go", flush=True)
    return 1 if started.returncode else 0


if __name__ == "__main__":
    if len(sys.argv) != 2 or sys.argv[1] not in crates_of(sys.argv[1]):
        sys.exit(__doc__)
    sys.exit(prove(sys.argv[1]))
