#!/usr/bin/env python3
"""Measures the greatest memory and the time of `dpv run` for many records, which two ports send to each other.

Usage: bench/memory.py [PROGRAM WORD ..] [RECORDS ..]   (by default ./dpv run at the top of the repository, and 100000 and 10000000
records of 60 bytes, half of them to each port)
Prints one table: records, seconds, the greatest resident set in kilobytes. The captures take 152 bytes a record while it runs.
"""
import pathlib
import re
import subprocess
import sys
import tempfile
import time

from engine import CROSS, TOP, capture, pipeline
from tables import Table, number

# How many records are made at once.
CHUNK = 10_000
COUNTS = [100_000, 10_000_000]


def repeated(path: pathlib.Path, records: int) -> None:
    """A capture of that many records, a multiple of a chunk."""
    capture(path, CHUNK)
    chunk = path.read_bytes()
    with open(path, "ab") as out:
        for _ in range(records // CHUNK - 1):
            out.write(chunk[24:])


def high_water(pid: int) -> int:
    """The greatest resident set of a process so far, in kilobytes; 0 if it has ended."""
    status = pathlib.Path(f"/proc/{pid}/status").read_text()
    found = re.search(r"^VmHWM:\s*(\d+) kB", status, re.M)
    return int(found.group(1)) if found else 0


def peak(command: list[str]) -> tuple[float, int]:
    """The time of a run, and its greatest memory, which is polled."""
    start = time.perf_counter()
    kilobytes = 0
    with subprocess.Popen(command, stdout=subprocess.DEVNULL) as child:
        while child.poll() is None:
            kilobytes = max(kilobytes, high_water(child.pid))
            time.sleep(0.001)
    if child.returncode != 0:
        sys.exit(f"{' '.join(command)} failed")
    return time.perf_counter() - start, kilobytes


def tables(program: list[str], counts: list[int] = COUNTS) -> list[Table]:
    """The table."""
    table = Table(["records", "seconds", "most memory, kB"], [12])
    with tempfile.TemporaryDirectory() as name:
        folder = pathlib.Path(name)
        command = [*program, str(pipeline(folder, [CROSS, CROSS], None, 0))]
        for count in counts:
            for port in range(2):
                repeated(folder / f"port{port}.pcap", count // 2)
            seconds, kilobytes = peak(command)
            table.row(number(count), number(seconds, 2), number(kilobytes))
    return [table]


def main() -> None:
    counts = [int(word) for word in sys.argv[1:] if word.isdigit()] or COUNTS
    tables([word for word in sys.argv[1:] if not word.isdigit()] or [str(TOP / "dpv"), "run"], counts)


if __name__ == "__main__":
    main()
