#!/usr/bin/env python3
"""Runs the built program dpv on programs, pipelines and texts that are made to cost as much as possible, and measures them.

Usage: tests/program/hurt.py [--only TEXT] [PROGRAM]   (by default the program that ./dpv builds and runs; some minutes)
Prints a line for each: its name, the time to load it, the time of a record, and the memory; then for texts and heap scripts. docs/users/limits.md
has the measurements. Exits with 1 if one does not end as expected, or with other numbers of records.
"""
import argparse
import itertools
import os
import pathlib
import resource
import struct
import sys
import tempfile
from dataclasses import dataclass, field
from typing import NamedTuple

import paths  # noqa: F401

from command import program_of
from model.machine import Env, Pool, Port, Ring

FORWARD = ["tx p0,r0,d", "exit", "d: free p0", "exit"]
MOST = 1024
LONGEST = 1_048_576


@dataclass
class Load:
    """A pipeline whose port 0 reads `count` records of `size` bytes. `printed` has to be among what it prints."""

    name: str
    programs: list[list[str]]
    pools: list[tuple[int, int, int]] = field(default_factory=lambda: [(64, 0, 2176)])
    rings: list[int] = field(default_factory=list)
    share: int = 2
    segs: int = 1
    queue: int = 32
    table: str = ""
    count: int = 1
    size: int = 64
    printed: str = ""


class Used(NamedTuple):
    """The time and memory of a run, and how it ended."""

    status: int
    seconds: float
    memory: int
    printed: str


def start(program: str, words: list[str]) -> Used:
    """Runs the program in this folder."""
    write = os.O_WRONLY | os.O_CREAT | os.O_TRUNC
    actions = [(os.POSIX_SPAWN_OPEN, fd, ".printed", write | (fd == 2 and os.O_APPEND), 0o600) for fd in (1, 2)]
    child = os.posix_spawn(program, ["dpv", *words], os.environ, file_actions=actions)
    _, status, used = os.wait4(child, 0)
    printed = pathlib.Path(".printed").read_text(errors="replace")
    return Used(os.waitstatus_to_exitcode(status), used.ru_utime + used.ru_stime, used.ru_maxrss // 1024, printed)


def keys(kind: str, parts: list[dict[str, object]]) -> str:
    """An array of tables."""
    lines = ("".join(f"{key} = {repr(value)}\n" for key, value in part.items()) for part in parts)
    return "".join(f"[[{kind}]]\n{part}" for part in lines)


def put_pipeline(load: Load) -> None:
    """Writes the files of a pipeline, without its captures."""
    for k, lines in enumerate(load.programs):
        pathlib.Path(f"n{k}").write_text("\n".join(lines) + "\n")
    ports = len(load.programs) - len(load.rings)
    fact = {"share": load.share, **dict.fromkeys(("head", "tail", "first", "last"), 0), "segs": load.segs}
    pools = [{"count": count, "cache": cache, "room": room} for count, cache, room in load.pools]
    rings = [{"count": count, **fact, "node": f"n{ports + k}"} for k, count in enumerate(load.rings)]
    port = {"pool": 0, "segs": load.segs, "queue": load.queue}
    nodes = [{**port, "node": f"n{k}", "in": f"i{k}", "out": f"o{k}"} for k in range(ports)]
    sizes = [Ring(count, ()) for count in load.rings]
    env = Env([Pool(*pool) for pool in load.pools], [], sizes, [Port(0, 1, load.queue)] * ports)
    text = f"region = {env.need()}\n" + keys("pool", pools) + load.table + keys("ring", rings) + keys("port", nodes)
    pathlib.Path("it.toml").write_text(text)


def put_captures(load: Load, count: int) -> None:
    """Writes the captures: records at port 0 alone."""
    head = struct.pack("<IHHIIII", 0xA1B2C3D4, 2, 4, 0, 0, 262_144, 1)
    record = struct.pack("<IIII", 1, 2, load.size, load.size) + bytes(range(256)) * (load.size // 256) + bytes(load.size % 256)
    for k in range(len(load.programs) - len(load.rings)):
        with open(f"i{k}", "wb") as file:
            file.write(head)
            for _ in range(count if k == 0 else 0):
                file.write(record)


def filled(begin: list[str], body: list[str], end: list[str], passes: int = 257) -> list[str]:
    """A program of 1,024 instructions that goes this many times through a body, which is repeated; `%` is the number of the repetition."""
    times = (MOST - len(begin) - len(end) - 3) // len(body)
    lines = [line.replace("%", str(k)) for k in range(times) for line in body]
    return [*begin, "set r7,0", f"again: {lines[0]}", *lines[1:], "add r7,1", f"jlt r7,{passes},again", *end]


# Hands the packet back to ring 0, so that the program runs 32 times more in the same turn.
BACK = ["enq p0,0,drop", "exit", "drop: free p0", "exit"]


def looping(name: str, body: list[str], begin: str | None = None, end: list[str] | None = None, **more: object) -> Load:
    """A body that runs as often as the budget of jumps lets it, in each of the 33 node runs of a turn."""
    program = filled([begin] if begin else [], body, end or BACK)
    pools = [(1024, 0, 4096), (1024, 0, 0)]
    whole = {"pools": pools, "rings": [2], "printed": "ring 0 left 1\n", **more}
    return Load(f"33 runs at the budget: {name}", [program, program], **whole)


def chained() -> list[str]:
    """Makes a packet of 64 segments of 4,096 bytes each, and sends it."""
    lines = ["free p0", "alloc p0,0,none", "append p0,3968", "prepend p0,128"]
    for _ in range(63):
        lines += ["alloc p1,0,drop", "append p1,3968", "prepend p1,128", "chain p0,p1"]
    return [*lines, "set r0,0", "tx p0,r0,drop", "exit", "drop: free p0", "none: exit"]


def filling(ring: int, other: int) -> list[str]:
    """Fills a ring with clones, then hands the packet to the other one."""
    body = ["a: clone p1,p0,1,last", f"enq p1,{ring},full"] * 500
    body = [line if k == 0 else line.replace("a: ", "") for k, line in enumerate(body)]
    return [*body, "jmp a", "full: free p1", f"last: enq p0,{other},drop", "exit", "drop: free p0", "exit"]


def shortest_routes() -> list[str]:
    """65,536 routes that are spelled as short as can be, a fourth of them deeper than 24."""
    one, two = range(10), range(10, 100)
    ranges = ((one, one, one), (one, one, two), (one, two, one), (two, one, one))
    wide = [place for three in ranges for place in itertools.product(*three)]
    deep = list(itertools.product(one, one, one))[:256]
    routes = [f"{a}.{b}.{c}.0/24 1" for a, b, c in wide]
    routes += [f"{a}.{b}.{c}.{d}/32 1" for a, b, c in deep for d in range(100)]
    return (routes + [f"{a}.{b}.{c}.{d}/31 1" for a, b, c in deep for d in range(0, 100, 2)])[:65_536]


def table(routes: list[str]) -> str:
    """A table of routes, in one line."""
    return "[[table]]\nrules = 65536\ngroups = 256\nroutes = [" + ",".join(f'"{route}"' for route in routes) + "]\n"


def straight() -> list[str]:
    """Takes a packet and frees it, over and over."""
    lines = [f"a{k}: alloc p1,0,a{k + 1}\nfree p1" for k in range(510)]
    return [*lines, "a510: tx p0,r0,d", "exit", "d: free p0", "exit"]


def loops() -> list[Load]:
    """Programs of 1,024 instructions at the budget of jumps, in 33 node runs a turn."""
    hop = ["lookup r3,0,r2,n%", "n%: add r2,0x9E3779B1"]
    two = ["clone p1,p0,1,drop", "clone p2,p0,1,two", "chain p1,p2", "free p1"]
    clones = {"pools": [(1024, 0, 129), (1024, 0, 0)], "segs": 64, "size": 64}
    return [
        looping("`add`", ["add r1,r2"]),
        looping("`load`", ["load r1,p0,0,8"], "iflen p0,8,drop"),
        looping("`store`", ["store p0,0,8,r1"], "iflen p0,8,drop"),
        looping("`lookup` of scattered addresses", hop, table=table(shortest_routes())),
        looping("`alloc`, `free`", ["alloc p1,0,drop", "free p1"]),
        looping("`append`, `trim` of 3,900 bytes", ["append p0,3900", "trim p0,3900"], "iftail p0,3900,drop", size=1),
        looping("`clone`, `free` of 64 segments", ["clone p1,p0,1,drop", "free p1"], **clones),
        looping(
            "two `clone` of 32 segments, `chain`, `free`", two, None, ["enq p0,0,drop", "exit", "two: free p1", *BACK[2:]],
            **{**clones, "segs": 32, "size": 32, "share": 0},
        ),
    ]


def loads() -> list[Load]:
    """Every pipeline that is run."""
    all_pools = [(8191, 512, 4096)] * 7 + [(8198, 512, 4096)]
    fill = [filling(0, 1), *[filling((k + 1) % 8, (k + 2) % 8) for k in range(8)]]
    fill_pools = [(1000, 0, 129), (64_535, 512, 0)]
    whole = "pool 1 free 64535 of 64535"
    return [
        Load("nothing but `tx`", [FORWARD], count=200_000, printed="sent 200000"),
        Load("510 `alloc`, 510 `free`", [straight()], count=2000, printed="sent 2000"),
        *loops(),
        Load("64 segments, 253,952 bytes", [FORWARD], [(64, 0, 4096)], segs=64, size=253_952, count=500, printed="sent 500"),
        Load("64 segments of 4,096 bytes made and sent", [chained()], [(65, 0, 4096)], count=500, printed="sent 500"),
        Load("8 pools, 65,535 buffers of 4,096 bytes", [FORWARD], all_pools, count=1000, printed="pool 7 free 8198 of 8198"),
        Load("8 rings that fill each other", fill, fill_pools, [65_536] * 8, share=0, count=5, size=1, printed=whole),
        Load("65,536 routes", [FORWARD], table=table(shortest_routes()), printed="sent 1"),
        Load("300 times the route 0.0.0.0/1", [FORWARD], table=table(["0.0.0.0/1 1"] * 300), printed="sent 1"),
    ]


def memory_of(used: Used) -> str:
    """The memory that a run used; it counts at least what this script uses."""
    floor = resource.getrusage(resource.RUSAGE_SELF).ru_maxrss // 1024
    return f"{used.memory} MiB" if used.memory > floor + 1 else f"below {floor + 2} MiB"


def measure(program: str, load: Load) -> bool:
    """Prints what a pipeline takes: to load it, for each record, and of memory. Returns whether it ended as it must."""
    put_pipeline(load)
    put_captures(load, 0)
    empty = start(program, ["run", "it.toml"])
    put_captures(load, load.count)
    full = start(program, ["run", "it.toml"])
    record = (full.seconds - empty.seconds) / load.count
    shown = f"{record:.2f} s" if record > 0.1 else f"{record * 1e6:.1f} us" if record < 1e-3 else f"{record * 1e3:.1f} ms"
    shown = shown if record > 0 else "too short"
    print(f"| {load.name} | {empty.seconds:.2f} s | {shown} | {memory_of(full)} |", flush=True)
    passed = empty.status == full.status == 0 and load.printed in full.printed
    if not passed:
        print(f"it failed: status {empty.status} and {full.status}, {full.printed[:400]!r}")
    return passed


def scripts() -> dict[str, list[str]]:
    """Heap scripts, and the last line that they print."""
    taken = ["malloc 1 0"] * 60_000
    holes = taken[:30_000] + [f"free {k}" for k in range(1, 30_000, 2)]
    return {
        "60,000 `malloc`": taken,
        "60,000 `malloc`, 30,000 `free`": [*taken, *[f"free {k}" for k in range(1, 60_000, 2)]],
        "30,000 elements, 10 `list`": [*holes, *["list"] * 10],
        "15,000 holes, 10,000 `malloc` that fit in none": [*holes, *["malloc 1 4096"] * 10_000],
        "region of 1 GiB, `zmalloc` of all": ["zmalloc 1073741760 0"],
    }


def measure_script(program: str, name: str, lines: list[str]) -> bool:
    """Prints what a heap script takes. Returns whether it ended as it must."""
    pathlib.Path("script").write_text("\n".join([f"region {1 << 30}", *lines, "stats"]) + "\n")
    used = start(program, ["mem", "script"])
    print(f"| {name} | {used.seconds:.2f} s | {memory_of(used)} |", flush=True)
    return used.status == 0 and used.printed.count("\n") > len(lines)


def repeated(part: str) -> str:
    """A part over and over, as often as a text may have it; `%` is the number of the repetition."""
    text, count = [], 0
    left = LONGEST
    while True:
        line = part.replace("%", f"{count:x}")
        left -= len(line)
        if left < 0:
            return "".join(text)
        text.append(line)
        count += 1


def nested(begin: str, inside: str, end: str) -> str:
    """A part within itself as deep as a text may have it."""
    times = (LONGEST - len(inside) - 10) // (len(begin) + len(end))
    return f"a = {begin * times}{inside}{end * times}\n"


ENDS = "tx p0,r0,d\nexit\nd: free p0\nexit\n"


def texts() -> dict[str, tuple[str, str]]:
    """Files that are as long as they may be, and the first line that they end with: pipelines, or programs that are named `.dpv`."""
    keys, no_toml = "fault: pipeline 2 BadKey top 0\n", "fault: pipeline 1 NotToml\n"
    labels = repeated("a%:\n")[: LONGEST - 20_000].rpartition("\n")[0] + "\n"
    last = labels.rsplit("\n", 2)[-2][:-1]
    found = [f"jlt r0,1,{last}"] * 1020 + ["free p0", "exit"]
    return {
        "pipeline of one comment": ("#" * LONGEST, keys),
        "pipeline of one text": (f'a = "{"x" * (LONGEST - 6)}"', keys),
        "pipeline of many keys": (repeated("a% = 1\n"), keys),
        "pipeline of many keys of a table": ("[pool]\n" + repeated("a% = 1\n")[: LONGEST - 8].rpartition("\n")[0], keys),
        "pipeline of many keys with dots": (repeated("a.b% = 1\n"), keys),
        "pipeline of a key with many dots": ("a" + ".a" * (LONGEST // 2 - 3) + " = 1", no_toml),
        "pipeline of many tables": (repeated("[a%]\n"), keys),
        "pipeline of many tables in one another": (repeated("[a.b%.c]\n"), keys),
        "pipeline of many pools": ("region = 4096\n" + "[[pool]]\n" * ((LONGEST - 14) // 9), "fault: pipeline 2 BadKey pool 0\n"),
        "pipeline of a long array": (f"a = [{'1,' * (LONGEST // 2 - 4)}]", keys),
        "pipeline of nested arrays": (nested("[", "", "]"), no_toml),
        "pipeline of nested tables": (nested("{a=", "1", "}"), no_toml),
        "pipeline of open arrays": ("a = " + "[" * (LONGEST - 4), no_toml),
        "pipeline of escapes": ('a = "' + "\\u0041" * ((LONGEST - 6) // 6) + '"', keys),
        "pipeline of newlines": ("\n" * LONGEST, keys),
        "program.dpv of many labels": (repeated("a%:\n")[: LONGEST - len(ENDS)].rpartition("\n")[0] + "\n" + ENDS, ""),
        "program.dpv of many labels in one line": (repeated("a%:")[: LONGEST - len(ENDS)].rpartition(":")[0] + ":" + ENDS, ""),
        "program.dpv of many labels, the last named 1,020 times": (labels + "\n".join(found) + "\n", ""),
        "program.dpv of one comment": (ENDS + "#" * (LONGEST - len(ENDS)), ""),
        "program.dpv of newlines": ("\n" * (LONGEST - len(ENDS)) + ENDS, ""),
        "program.dpv of commas": ("tx " + "," * (LONGEST - 3), "fault: pipeline 6 Asm port 0 line 1 cause 3\n"),
        "program.dpv of digits": ("set r1," + "0" * (LONGEST - len(ENDS) - 9) + "1\n" + ENDS, ""),
    }


def measure_text(program: str, name: str, text: str, first: str) -> bool:
    """Prints what it takes to check a text. Returns whether it ended as it must."""
    put_pipeline(Load(name, [FORWARD]))
    pathlib.Path("n0" if ".dpv" in name else "it.toml").write_text(text)
    used = start(program, ["check", "it.toml"])
    print(f"| {name.replace('.dpv', '')} | {used.seconds:.2f} s | {memory_of(used)} |", flush=True)
    passed = used.printed.startswith(first or "port 0 accepted\n")
    if not passed:
        print(f"it failed: status {used.status}, {used.printed[:200]!r}, {len(text)} bytes")
    return passed


def main() -> int:
    """All of it."""
    parser = argparse.ArgumentParser(description="Measures what is to cost as much as it can.")
    parser.add_argument("program", nargs="?", metavar="PROGRAM")
    parser.add_argument("--only", default="", help="those whose name has this text")
    asked = parser.parse_args()
    program = program_of(asked.program)
    print("| what | without records | a record more | memory |\n|---|---|---|---|")
    home = os.getcwd()
    with tempfile.TemporaryDirectory() as folder:
        os.chdir(folder)
        passed = [measure(program, load) for load in loads() if asked.only in load.name]
        print("\n| text of 1,048,576 bytes | time | memory |\n|---|---|---|")
        passed += [measure_text(program, name, *it) for name, it in texts().items() if asked.only in name]
        print("\n| heap script | time | memory |\n|---|---|---|")
        passed += [measure_script(program, *it) for it in scripts().items() if asked.only in it[0]]
        os.chdir(home)
    return 0 if all(passed) else 1


if __name__ == "__main__":
    sys.exit(main())
