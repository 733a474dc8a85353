#!/usr/bin/env python3
"""Runs the built program dpv on pipelines with one fault: each cause, at each possible place, with each of its numbers.

Usage: tests/program/causes.py [PROGRAM]   (the built program; by default the one that ./dpv builds and runs; some seconds)
The pipeline has the greatest number of parts: 8 pools, 4 tables, 8 rings and 8 ports, and each of its 16 nodes has a program and a
certificate. The expected message of each fault is stated here, case by case; tests/model only writes the certificates. Prints a line for
each case that failed, and a count for each cause; exits with 1 if a case failed.
"""
import copy
import pathlib
import re
import subprocess
import sys
from collections import Counter
from collections.abc import Iterator
from typing import Any, NamedTuple

import paths  # noqa: F401

from command import STRIP, asked, fixed, new_folder
from model import rules
from model.machine import Env, Pool, Port, Ring
from model.programs import assemble

LONGEST = 1_048_576
FACT = {"share": 2, "head": 128, "tail": 0, "first": 0, "last": 0, "segs": 64}
ENV = Env([Pool(4, 0, 2176)] * 8, [{}] * 4, [Ring(4, tuple(FACT.values()))] * 8, [Port(0, 64, 4)] * 8)
NODES = [f"port {k}" for k in range(8)] + [f"ring {k}" for k in range(8)]
# Greatest values, where these are not those of a whole number of 32 bits; of a text or an array of routes nothing.
MOST = {"share": 255, "head": 65_535, "tail": 65_535, "first": 65_535, "last": 65_535, "segs": 255, "rules": 65_536, "groups": 256}
OTHERS = dict.fromkeys(("node", "cert", "in", "out", "routes"))


class Case(NamedTuple):
    """A pipeline, the files that replace its own, and how `dpv check` ends: both outputs are patterns."""

    cause: str
    top: dict[str, Any]
    files: dict[str, bytes]
    status: int
    printed: str
    reported: str


def whole() -> dict[str, Any]:
    """The pipeline without a fault."""
    names = [{"node": "strip.dpv", "cert": f"c{place}"} for place in range(16)]
    ports = [{"pool": 0, "segs": 64, "queue": 4, **names[k], "in": "none", "out": "none"} for k in range(8)]
    return {
        "region": 65_536,
        "pool": [{"count": 4, "cache": 0, "room": 2176} for _ in range(8)],
        "table": [{"rules": 4, "groups": 1, "routes": ["10.0.0.0/8 1", "10.0.0.128/25 2", "11.0.0.0/8 3"]} for _ in range(4)],
        "ring": [{"count": 4, **FACT, **names[8 + k]} for k in range(8)],
        "port": ports,
    }


def changed(kind: str, place: int, **keys: Any) -> dict[str, Any]:
    """The pipeline with other keys in a part; those that are None are missing."""
    top = whole()
    part = {**top[kind][place], **keys}
    top[kind][place] = {key: value for key, value in part.items() if value is not None}
    return top


def shown(value: Any) -> str:
    """A value as TOML has it."""
    if isinstance(value, bool):
        return str(value).lower()
    if isinstance(value, list):
        return "[" + ", ".join(map(shown, value)) + "]"
    return f'"{value}"' if isinstance(value, str) else str(value)


def lines_of(part: dict[str, Any]) -> str:
    """The keys of a part."""
    return "".join(f"{key} = {shown(value)}\n" for key, value in part.items())


def toml_of(top: dict[str, Any]) -> str:
    """The text of a pipeline."""
    arrays = {key: parts for key, parts in top.items() if isinstance(parts, list) and all(isinstance(part, dict) for part in parts)}
    rest = {key: value for key, value in top.items() if key not in arrays}
    return lines_of(rest) + "".join(f"[[{kind}]]\n" + lines_of(part) for kind, parts in arrays.items() for part in parts)


def fault(cause: str, top: dict[str, Any], **files: bytes) -> Case:
    """A case that ends with a fault of the pipeline."""
    return Case(cause.split()[1], top, files, 3, "", re.escape(f"fault: pipeline {cause}\n"))


def no_toml() -> Iterator[Case]:
    """Texts that are not TOML."""
    texts = (b"=", b"region = ", b"# \xff", b"region = 4096\nregion = 4096", b"[[pool]", b"region = 99999999999999999999", b"a = " + b"[" * 81 + b"]" * 81)
    texts += (b"a = {,}", b"a = {b = 1,,}", b"a = {b\n= 1}", b"a = {b =\n1}", b"a = {b = 1\nc = 2}", rb'a = "\xg0"')
    for text in texts:
        yield fault("1 NotToml", {}, **{"it.toml": text})


def newer_toml() -> Iterator[Case]:
    """A text that is TOML since version 1.1: its inline tables have newlines, comments and last commas. Only its port is at fault."""
    pool = b"pool = [{\n  count = 4, # buffers\n  cache = 0,\n  room = 256,\n},]\n"
    port = rb'port = [{pool = 1, segs = 1, queue = 4, node = "\x6e", in = "\e", out = "o", }]'
    yield fault("3 BadEnv 4 0", {}, **{"it.toml": b"region = 4096\n" + pool + port})


def wrong_values(key: str, value: Any) -> list[Any]:
    """Bad values of a key; None means that the key is missing."""
    if key == "routes":
        return [None, 1, "10.0.0.0/8 1", [1], ["10.0.0.0/8 1", True]]
    if isinstance(value, str):
        return [1, True, [], ["a"]] + [None] * (key != "cert")
    most = MOST.get(key, (1 << 32) - 1)
    return [None, "1", True, 1.0, [], [1], -1, most + 1, 1 << 62] + [0] * (key == "rules")


def bad_keys() -> Iterator[Case]:
    """Keys that are missing, unknown, of another type or out of range, in each part; and what is wrong at the top."""
    for region in (None, "4096", 4096.0, True, -4096, 0, 4032, 4097, 1_073_741_888, 1 << 40):
        top = {**whole(), "region": region}
        yield fault("2 BadKey top 0", {key: value for key, value in top.items() if value is not None})
    yield fault("2 BadKey top 0", {})
    for kind in ("pool", "table", "ring", "port"):
        for wrong in (1, "pool", [1], [[]]):
            yield fault("2 BadKey top 0", {**whole(), kind: wrong})
        yield fault("2 BadKey top 0", {"more": 1, **whole()})
        for place, part in enumerate(whole()[kind]):
            for key, value in part.items():
                for wrong in wrong_values(key, value):
                    yield fault(f"2 BadKey {kind} {place}", changed(kind, place, **{key: wrong}))
            yield fault(f"2 BadKey {kind} {place}", changed(kind, place, more=1))


def bad_envs() -> Iterator[Case]:
    """Bad environments."""
    many = {"pool": (0, 9, 255, 256, 300), "table": (5, 255, 256, 300), "ring": (9, 255, 256, 300), "port": (0, 9, 255, 256, 300)}
    for kind, counts in many.items():
        for count in counts:
            top = whole()
            yield fault("3 BadEnv 1 0", {**top, kind: (top[kind] * 40)[:count]})
    pools = ({"count": 0}, {"count": 65_536}, {"count": 999, "cache": 513}, {"count": 5, "cache": 4}, {"room": 4097})
    rings = ({"count": 0}, {"count": 1}, {"count": 3}, {"count": 65_537}, {"count": 131_072}, {"share": 3}, {"share": 8}, {"segs": 0}, {"segs": 65})
    ports = ({"pool": 8}, {"segs": 0}, {"segs": 65}, {"queue": 0}, {"queue": 1}, {"queue": 5}, {"queue": 131_072})
    for number, (kind, faults) in enumerate({"pool": pools, "ring": rings, "port": ports}.items(), 2):
        for place in range(8):
            for keys in faults:
                yield fault(f"3 BadEnv {number} {place}", changed(kind, place, **keys))
    for place in range(8):
        small = changed("pool", 1, room=128)
        small["port"][place]["pool"] = 1
        yield fault(f"3 BadEnv 4 {place}", small)
        yield fault("3 BadEnv 5 0", changed("pool", place, count=65_536 - 7 * 4))


# Pools (their buffers, cache and room), rings (their places, share and segments) and ports (their pool, segments and list) within the limits, at a
# limit, and not within them.
P, MANY, FEW, LEAST, NEXT, NO_POOL = (1, 0, 2176), (65_535, 0, 0), (64, 0, 2176), (1, 0, 129), (1, 0, 128), (0, 0, 0)
R, FULL, NO_RING = (2, 0, 1), (2, 0, 64), (3, 0, 1)
O, WIDE, NO_PORT = (0, 1, 2), (0, 64, 65_536), (9, 0, 0)
BIGGEST = 4_294_967_295
Part = tuple[int, int, int]


class Environment(NamedTuple):
    """The pools, the number of tables, the rings and the ports of an environment, and the cause for which it is refused with the place, if it is."""

    pools: list[Part]
    tables: int
    rings: list[Part]
    ports: list[Part]
    cause: str | None


ENVIRONMENTS = [
    # The numbers of parts.
    Environment([], 0, [], [O], "1 0"),
    Environment(9 * [P], 0, [], [O], "1 0"),
    Environment([P], 5, [], [O], "1 0"),
    Environment([P], 0, 9 * [R], [O], "1 0"),
    Environment([P], 0, [], [], "1 0"),
    Environment([P], 0, [], 9 * [O], "1 0"),
    Environment([P], 0, [], [O], None),
    Environment(8 * [P], 4, 8 * [R], 8 * [O], None),
    # The limits of pools.
    *(Environment([FEW, pool], 0, [], [O], cause) for pool, cause in [
        ((0, 0, 0), "2 1"), ((1, 0, 0), None), ((65_535, 0, 0), "5 0"), ((65_536, 0, 0), "2 1"), ((6, 4, 0), None), ((5, 4, 0), "2 1"), ((768, 512, 0), None),
        ((1000, 513, 0), "2 1"), ((1, 0, 4096), None), ((1, 0, 4097), "2 1"), ((BIGGEST, BIGGEST, BIGGEST), "2 1"),
    ]),
    # The limits of rings.
    *(Environment([LEAST], 0, [FULL, ring], [O], cause) for ring, cause in [
        ((0, 0, 1), "3 1"), ((1, 0, 1), "3 1"), ((2, 2, 1), None), ((3, 0, 1), "3 1"), ((6, 0, 1), "3 1"), ((65_536, 0, 1), None), ((131_072, 0, 1), "3 1"),
        ((2, 3, 1), "3 1"), ((2, 0, 0), "3 1"), ((2, 0, 65), "3 1"), ((2, 0, 64), None),
    ]),
    # The limits of ports.
    *(Environment([LEAST, NEXT], 0, [], [WIDE, port], cause) for port, cause in [
        ((0, 1, 2), None), ((1, 1, 2), "4 1"), ((2, 1, 2), "4 1"), ((BIGGEST, 1, 2), "4 1"), ((0, 0, 2), "4 1"), ((0, 65, 2), "4 1"), ((0, 1, 1), "4 1"),
        ((0, 1, 3), "4 1"), ((0, 1, 131_072), "4 1"),
    ]),
    # The first cause counts, at its first place: the numbers of parts, pools, rings, ports, and the sum of all buffers.
    Environment([NO_POOL], 9, [NO_RING], [NO_PORT], "1 0"),
    Environment([P, NO_POOL, NO_POOL], 0, [NO_RING], [NO_PORT], "2 1"),
    Environment([P, MANY], 0, [R, R, NO_RING, NO_RING], [NO_PORT], "3 2"),
    Environment([P, MANY], 0, [R], [O, O, O, NO_PORT], "4 3"),
    Environment([P, MANY], 0, [R], [O], "5 0"),
    Environment([P, (65_534, 0, 0)], 0, [R], [O], None),
]


def environment(row: Environment) -> dict[str, Any]:
    """The pipeline with these parts, each of whose nodes frees its packets."""
    pools = [dict(zip(("count", "cache", "room"), it)) for it in row.pools]
    rings = [{"count": count, **FACT, "share": share, "head": 0, "segs": segs, "node": "free"} for count, share, segs in row.rings]
    ports = [{**dict(zip(("pool", "segs", "queue"), it)), "node": "free", "in": "none", "out": "none"} for it in row.ports]
    return {"region": 65_536, "pool": pools, "table": row.tables * [{"rules": 1, "groups": 0, "routes": []}], "ring": rings, "port": ports}


def environments() -> Iterator[Case]:
    """Environments at each limit and past it, those that are refused with the first cause."""
    for row in ENVIRONMENTS:
        top, free = environment(row), b"free p0\nexit\n"
        if row.cause is None:
            nodes = [f"{kind} {k}" for kind, parts in (("port", row.ports), ("ring", row.rings)) for k in range(len(parts))]
            yield Case("none", top, {"free": free}, 0, "".join(f"{node} accepted\n" for node in nodes), "")
        else:
            yield fault(f"3 BadEnv {row.cause}", top, free=free)


def bad_tables() -> Iterator[Case]:
    """Routes that a table refuses, at each place."""
    routes = {"10.1.0.0/0 1": 1, "10.1.0.0/33 1": 1, "10.1.0.0/99 1": 1, "10.1.0.0/16 16777216": 2, "10.1.0.0/16 99999999": 2}
    routes |= dict.fromkeys(("", "10.1.0.0", "10.1.0.0/16", "10.1.0.256/16 1", "10.1.0.0/16  1", "10.1.0.0/016 1", "10.1.0.0/16 123456789"), 6)
    for table in range(4):
        for place in range(3):
            for route, cause in [*routes.items()][:: 1 if place == table else 3]:
                known = whole()["table"][table]["routes"]
                known[place] = route
                yield fault(f"4 BadTable {table} {place} {cause}", changed("table", table, routes=known))
            yield fault(f"4 BadTable {table} {place} 4", changed("table", table, routes=["10.0.0.0/8 1"] * place + ["10.0.1.0/25 1"], groups=0))
        for limit in (1, 2):
            yield fault(f"4 BadTable {table} {limit} 3", changed("table", table, rules=limit))
        groups = ["10.0.0.0/25 1", "10.0.0.128/25 1", "10.0.1.0/32 1"]
        yield fault(f"4 BadTable {table} 2 4", changed("table", table, routes=groups))


# Programs at fault, with the line and the cause.
TEXTS = {
    b"exit # \x80\n": (1, 1),
    b"exit\nx: exit # \x80": (2, 1),
    b"exit\n\nexits\n": (3, 2),
    b"jmp a:b": (1, 2),
    b"exit\nfree\n": (2, 3),
    b"free p0,": (1, 3),
    b"exit\nfree p8\n": (2, 4),
    b"mov r0,p0": (1, 4),
    b"exit\nadj p0,65536\n": (2, 5),
    b"add r0,p0": (1, 5),
    b"set r0,": (1, 5),
    b"set r0,0X1": (1, 5),
    b"shl r0,64": (1, 5),
    b"jlt r0,0,a": (1, 5),
    b"exit\n7: exit\n": (2, 6),
    b"a :exit": (1, 6),
    b"a: exit\n\n\na: exit\n": (4, 7),
    b"a:a:exit": (1, 7),
    b"exit\njmp x\n": (2, 8),
    b"exit\njmp x\nx:": (2, 8),
    b"": (0, 9),
    b"# nothing\n": (0, 9),
    b"exit\n" * 1025: (1025, 9),
}


def with_files(place: int, node: str = "strip.dpv", cert: str | None = None) -> dict[str, Any]:
    """The pipeline with other files for a node, where no certificate is named if there is none; without tables, each of which is large."""
    kind, at = ("port", place) if place < 8 else ("ring", place - 8)
    return {**changed(kind, at, node=node, cert=cert), "table": []}


def bad_files() -> Iterator[Case]:
    """Files that cannot be read, or are not a program or a certificate, at each node."""
    lines = strip_cert(0).splitlines(keepends=True)
    zero, one = b"0" * 306 + b"\n", b"1" * 306 + b"\n"
    certs: dict[bytes, tuple[int, int]] = {b"": (1, 1), b"dpv-cert 3\n" + b"".join(lines[1:]): (1, 1), b"dpv-cert 1": (1, 1)}
    for k in range(1, 7):
        certs[b"".join([*lines[:k], lines[k][:-2] + b"\n", *lines[k + 1 :]])] = (k + 1, 2)
        certs[b"".join([*lines[:k], lines[k][:-2] + b"A\n", *lines[k + 1 :]])] = (k + 1, 2)
        certs[b"".join([*lines[:k], one, *lines[k + 1 :]])] = (k + 1, 3)
        certs[b"".join(lines[:k])] = (k + 1, 4)
    certs[b"".join(lines) + b"\n"] = certs[b"".join(lines) + zero] = (8, 4)
    for place, node in enumerate(NODES):
        for name in ("none", "folder", "long"):
            yield fault(f"5 File {node}", with_files(place, name), long=b"#" * (LONGEST + 1))
            yield fault(f"5 File {node}", with_files(place, "strip.dpv", name), long=b"#" * (LONGEST + 1))
        for text, (line, cause) in TEXTS.items():
            yield fault(f"6 Asm {node} line {line} cause {cause}", with_files(place, "bad"), bad=text)
        for text, (line, cause) in certs.items():
            yield fault(f"7 BadCert {node} line {line} cause {cause}", with_files(place, "strip.dpv", "bad"), bad=text)


END = "d: free p0\nexit\n"
# Programs, each with another one that is accepted, whose certificate it gets, and the label and rule by which it is refused. Where there is
# a label d, the packet is freed there.
REFUSED = """
free p0; add r1,1 | free p0; exit | 1 J3
free p1; exit | free p0; exit | 0 J4
alloc p1,0,d; alloc p1,0,e; free p2; e: free p1 | alloc p1,0,d; alloc p2,0,e; free p2; e: free p1 | 1 J5
clone p0,p0,0,d; add r1,1; jmp d | add r2,1; add r1,1; jmp d | 0 J5
chain p0,p0; jmp d | add r1,0; jmp d | 0 J5
iflen p0,14,d; adj p0,15 | iflen p0,14,d; adj p0,14 | 1 J6
iflen p0,14,d; load r1,p0,7,8 | iflen p0,14,d; load r1,p0,6,8 | 1 J6
iflen p0,14,d; sub r1,1; loadx r2,p0,r1,1,8 | iflen p0,14,d; sub r1,1; loadx r2,p0,r2,1,8 | 2 J6
iflen p0,14,d; sub r1,1; storex p0,r1,7,8,r2 | iflen p0,14,d; sub r1,1; storex p0,r2,6,8,r2 | 2 J6
clone p1,p0,0,d; prepend p0,1; free p1 | clone p1,p0,0,d; adj p0,0; free p1 | 1 J7
alloc p1,0,d; chain p0,p1 | alloc p1,0,d; free p1 | 1 J8
set r1,8; tx p0,r1,d; exit | set r1,8; tx p0,r0,d; exit | 1 J9
iflen p0,1,d; adj p0,1; prepend p0,2; enq p0,7,d; exit | iflen p0,1,d; adj p0,1; prepend p0,2; tx p0,r0,d; exit | 3 J9
alloc p1,0,d; exit | alloc p1,0,d; free p1 | 1 J10
set r1,8; add r1,1; jmp d | set r1,7; add r1,1; jmp d | 0 J11
"""


def text_of(line: str) -> str:
    """The program that is written in a line."""
    return line.replace("; ", "\n") + "\n" + (END if re.search(r"[ ,]d\b", line) else "")


def refused_programs() -> Iterator[tuple[str, str, int, int]]:
    """The texts, labels and rules of the programs that are refused."""
    for line in REFUSED.strip().split("\n"):
        text, other, place = line.split(" | ")
        label, rule = place.split(" J")
        yield text_of(text), text_of(other), int(label), int(rule)


def cert_of(text: str, place: int) -> bytes:
    """The certificate that is inferred for a program."""
    rows = rules.infer(ENV, assemble(text.encode()), rules.entry_row(ENV, place))
    return rules.spelled(rows)


def strip_cert(place: int) -> bytes:
    """The certificate of strip at a node."""
    return cert_of((STRIP / "strip.dpv").read_text(), place)


def refused(node: str, label: int, rule: int, top: dict[str, Any], **files: bytes) -> Case:
    """A case that ends with a program that is refused."""
    return Case(f"J{rule}", top, files, 1, re.escape(f"{node} refused at {label} by J{rule}\n"), "")


def spoiled_strip(place: int) -> Iterator[tuple[bytes, int, int]]:
    """Strip's certificate with a row that is dead, wider than it may be, or that of another label; the label and rule that refuse it."""
    rows = rules.decode(strip_cert(place), 6)
    first, second, third = rows[:3]
    wide = first.facts[0]._replace(head=129)
    long = second.facts[0]._replace(first=15)
    others = [
        ([None, *rows[1:]], 0, 2),
        ([rules.with_fact(first, 0, wide), *rows[1:]], 0, 2),
        ([first, rules.with_fact(second, 0, long), *rows[2:]], 0, 11),
        ([*rows[:3], None, *rows[4:]], 2, 11),
        ([*rows[:4], None, rows[5]], 0, 11),
        ([*rows[:5], None], 4, 11),
        ([first, third, second, *rows[3:]], 0, 11),
        ([second, first, *rows[2:]], 0, 2),
        ([*rows[:3], rows[4], rows[3], rows[5]], 0, 11),
    ]
    for spoiled, label, rule in others:
        yield rules.spelled(spoiled), label, rule


def refusals() -> Iterator[Case]:
    """Programs that are refused, or for which there is no certificate, at each node."""
    for place, node in enumerate(NODES):
        for text, other, label, rule in refused_programs():
            yield refused(node, label, rule, with_files(place, "bad", "cert"), bad=text.encode(), cert=cert_of(other, place))
        for cert, label, rule in spoiled_strip(place):
            yield refused(node, label, rule, with_files(place, "strip.dpv", "cert"), cert=cert)
        longer = (STRIP / "strip.dpv").read_bytes().replace(b"adj p0,14", b"adj p0,15")
        yield refused(node, 1, 6, with_files(place, "bad", "cert"), bad=longer, cert=strip_cert(place))
        for lost in (b"exit\n", b"free p0\n", b"adj p0,1\nfree p0\nexit\n", b"free p1\nexit\n"):
            printed = rf"{node} not inferred at [0-9]+ by J[0-9]+\n"
            yield Case("not inferred", with_files(place, "bad"), {"bad": lost}, 1, printed, "")
    few = {**whole(), "table": [], "ring": [], "pool": whole()["pool"][:1], "port": whole()["port"][:1]}
    few["port"][0]["node"], few["port"][0]["cert"] = "bad", "cert"
    for word in ("alloc p1,1,d\nfree p1", "clone p1,p0,1,d\nfree p1", "lookup r1,0,r2,d\nadd r1,1", "enq p0,0,d\nexit"):
        other = word.replace(",1,d", ",0,d") if "p1" in word else word
        yield refused("port 0", 0, 3, copy.deepcopy(few), bad=f"{word}\n{END}".encode(), cert=cert_of(f"{other}\n{END}", 0))


def sound() -> Iterator[Case]:
    """The pipeline itself."""
    yield Case("none", whole(), {}, 0, "".join(f"{node} accepted\n" for node in NODES), "")


def ends_so(program: str, folder: pathlib.Path, case: Case) -> bool:
    """Whether `dpv check` ends as the case says. Other lines may explain the fault after its first line."""
    files = {"it.toml": toml_of(case.top).encode(), **case.files}
    for name, data in files.items():
        (folder / name).write_bytes(data)
    run = subprocess.run([program, "check", "it.toml"], cwd=folder, capture_output=True, text=True, timeout=60)
    reported = fixed(run.stderr)
    passed = run.returncode == case.status and bool(re.fullmatch(case.printed, run.stdout) and re.fullmatch(case.reported, reported))
    if not passed:
        print(f"{case.cause}: expected {case.status}, {case.printed!r}, {case.reported!r}; came {run.returncode}, {run.stdout!r}, {run.stderr!r}")
        print("\n".join(f"--- {name}\n{data.decode(errors='replace')[:600]}" for name, data in files.items()))
    return passed


CASES = (sound, no_toml, newer_toml, bad_keys, bad_envs, environments, bad_tables, bad_files, refusals)


def main() -> int:
    """Runs all cases."""
    program = asked()
    tried: Counter[str] = Counter()
    wrong = 0
    with new_folder() as folder:
        (folder / "folder").mkdir()
        (folder / "strip.dpv").write_bytes((STRIP / "strip.dpv").read_bytes())
        for place in range(16):
            (folder / f"c{place}").write_bytes(strip_cert(place))
        for cases in CASES:
            for case in cases():
                tried[case.cause] += 1
                wrong += not ends_so(program, folder, case)
    print(f"causes: {tried.total()} cases ({', '.join(f'{cause}: {number}' for cause, number in tried.items())}), {wrong} failed")
    return 1 if wrong else 0


if __name__ == "__main__":
    sys.exit(main())
