#!/usr/bin/env python3
"""Counts the machine instructions of an engine per record, with captures read and written.

Usage: bench/engine.py [PROGRAM WORD ..]   (a program that runs a pipeline file; by default what ./dpv run begins)
A pipeline's count is the difference of two runs, one with twice as many records of 60 bytes, counted by perf or valgrind. Prints two
tables. The first has a line per pipeline: instructions per record, and how many instructions of its program a record runs. The second has
figures derived from these, and from two runs more: a hop through a ring, and an instruction of two programs that load, add, compare and
store, all compared with a pipeline that only sends; what an instruction takes more with --counts; what a port that gets no records costs a
record of another; and a record of two ports compared with one of strip.
"""
import pathlib
import struct
import sys
import tempfile

from tables import Table, number
from timing import TOP, built, instructions

RECORDS = 2_000
POOL = "[[pool]]\ncount = 64\ncache = {cache}\nroom = 2176\n"
PORT = '[[port]]\npool = 0\nsegs = 1\nqueue = 32\nnode = "{node}"\nin = "{place}.pcap"\nout = "{place}.out"\n'
RING = '[[ring]]\ncount = 32\nshare = 0\nhead = 0\ntail = 0\nfirst = 0\nlast = 0\nsegs = 1\nnode = "{node}"\n'

SEND = "tx p0,r0,d\nexit\nd: free p0\nexit\n"
CROSS = "set r1,1\nxor r1,r0\ntx p0,r1,d\nexit\nd: free p0\nexit\n"
WAIT = "enq p0,0,d\nexit\nd: free p0\nexit\n"
STRIP = "iflen p0,14,d\nadj p0,14\ntx p0,r0,d\nexit\nd: free p0\nexit\n"

# Decrements the time to live of an IPv4 packet, and updates its checksum by RFC 1624. 24 instructions run.
ROUTE = """iflen p0,34,d
load r1,p0,12,2
jeq r1,0x0800,a
jmp d
a: load r2,p0,14,1
jeq r2,0x45,b
jmp d
b: load r3,p0,22,1
jlt r3,2,d
sub r3,1
store p0,22,1,r3
load r4,p0,24,2
add r4,0x100
mov r5,r4
shr r5,16
add r4,r5
and r4,0xffff
store p0,24,2,r4
load r6,p0,0,4
load r7,p0,6,4
store p0,6,4,r6
add r7,1
store p0,0,4,r7
jlt r7,1,d
tx p0,r0,d
exit
d: free p0
exit
"""

TTL = (TOP / "examples" / "ttl" / "ttl.dpv").read_text()

# Per pipeline: its ports' programs, its ring's, the cache of its pool, and how many instructions a record runs.
PIPELINES = {
    "sent": ([SEND], None, 0, 2),
    "sent, a pool with a cache for 32": ([SEND], None, 32, 2),
    "strip": ([STRIP], None, 0, 4),
    "through a ring": ([WAIT], SEND, 0, 4),
    "two ports that send to each other": ([CROSS, CROSS], None, 0, 4),
    "a router's 24 instructions": ([ROUTE], None, 0, 24),
    "examples/ttl": ([TTL], None, 0, 25),
}


def capture(path: pathlib.Path, records: int) -> None:
    """A capture of that many IPv4 packets of 60 bytes."""
    frame = bytes(range(12)) + b"\x08\x00\x45" + bytes(7) + b"\x40\x11" + bytes(36)
    head = struct.pack("<IHHIIII", 0xA1B2C3D4, 2, 4, 0, 0, 262144, 1)
    path.write_bytes(head + b"".join(struct.pack("<IIII", 1_700_000_000, k, len(frame), len(frame)) + frame for k in range(records)))


def pipeline(folder: pathlib.Path, ports: list[str], ring: str | None, cache: int) -> pathlib.Path:
    """The file of a pipeline."""
    text = "region = 1048576\n" + POOL.format(cache=cache)
    for k, program in enumerate(ports):
        (folder / f"port{k}.dpv").write_text(program)
        text += PORT.format(node=folder / f"port{k}.dpv", place=folder / f"port{k}")
    if ring is not None:
        (folder / "ring.dpv").write_text(ring)
        text += RING.format(node=folder / "ring.dpv")
    (folder / "pipeline.toml").write_text(text)
    return folder / "pipeline.toml"


def counted(command: list[str], folder: pathlib.Path, ports: int, records: int) -> int:
    """The instructions of a run over captures of that many records in all."""
    for k in range(ports):
        capture(folder / f"port{k}.pcap", records // ports)
    count = instructions(command)
    if count is None:
        sys.exit(f"{' '.join(command)} failed, or neither perf nor valgrind can count it")
    return count


def each(program: list[str], folder: pathlib.Path, title: str, *options: str, records: int = RECORDS) -> float:
    """The instructions of a record of a pipeline, which is run with these options."""
    ports, ring, cache, _ = PIPELINES[title]
    command = [*program, *options, str(pipeline(folder, ports, ring, cache))]
    low, high = (counted(command, folder, len(ports), count) for count in (records, 2 * records))
    return (high - low) / records


def without_records(program: list[str], folder: pathlib.Path, records: int) -> float:
    """The instructions of a record that is only sent, beside a port that gets no records."""
    command = [*program, "--no-in", "1", str(pipeline(folder, [SEND, SEND], None, 0))]
    low, high = (counted(command, folder, 1, count) for count in (records, 2 * records))
    return (high - low) / records


def tables(program: list[str], records: int = RECORDS) -> list[Table]:
    """Both tables."""
    costs, first = {}, Table(["pipeline", "a record", "instructions of its program that run"], [36])
    with tempfile.TemporaryDirectory() as name:
        folder = pathlib.Path(name)
        for title, (_, _, _, steps) in PIPELINES.items():
            costs[title] = each(program, folder, title, records=records)
            first.row(title, number(costs[title]), str(steps))
        sent, ttl = costs["sent"], costs["examples/ttl"]
        derived = {
            "one more hop through a ring": (costs["through a ring"] - sent, 0),
            "an instruction of the router": ((costs["a router's 24 instructions"] - sent) / 22, 1),
            "an instruction of examples/ttl": ((ttl - sent) / 23, 1),
            "the same with `--counts`, more": ((each(program, folder, "examples/ttl", "--counts", records=records) - ttl) / 25, 1),
            "one more port that gets no records, for each record of another": (without_records(program, folder, records) - sent, 0),
            "a record of two ports, in times of one of strip": (costs["two ports that send to each other"] / costs["strip"], 2),
        }
    second = Table(["part", "machine instructions"], [63])
    for title, (cost, places) in derived.items():
        second.row(title, number(cost, places))
    return [first, second]


if __name__ == "__main__":
    tables(sys.argv[1:] or [built(), "run"])
