#!/usr/bin/env python3
"""Compares what the built program dpv makes of pipeline files with answers that were worked out by hand: why they are refused, which files their
nodes have, and what the others hold.

Usage: tests/program/loaded.py [PROGRAM]   (the built program; by default the one that ./dpv builds and runs)
A pipeline with every part, of which one text is changed; pipelines whose files are missing, too long, at fault or refused, with certificates that
are given or inferred; and one with the greatest number of each part. Prints a line for each case that failed, and a count; exits with 1 if a
case failed.
"""
import json
import pathlib
import sys
from typing import NamedTuple

import paths  # noqa: F401

from command import asked, fixed, new_folder, report_cases, run_said
from faults import LONGEST, capture
from judged import NONE, SHORTER, SOLE, STRIP, certificate, is_said
from model import captures

# A pipeline with every part.
EVERY_PART = """region = 10368
[[pool]]
count = 4
cache = 0
room = 2176
[[table]]
rules = 4
groups = 1
routes = ["10.0.0.0/8 1", "10.1.2.128/25 2"]
[[ring]]
count = 8
share = 1
head = 2
tail = 3
first = 4
last = 5
segs = 6
node = "r"
[[port]]
pool = 0
segs = 1
queue = 4
node = "n"
cert = "c"
in = "a"
out = "b"
"""
POOL = "[[pool]]\ncount = 4\ncache = 0\nroom = 2176\n"
# Two ports that receive into the same pool, each with its node and its captures.
TWO_PORTS = f"""region = 10368
{POOL}[[pool]]
count = 4
cache = 0
room = 0
[[port]]
pool = 0
segs = 1
queue = 4
node = "multicast.dpv"
in = "a.pcap"
out = "a.out"
[[port]]
pool = 0
segs = 1
queue = 4
node = "forward.dpv"
in = "b.pcap"
out = "b.out"
"""
# Two pools, and one without keys.
BAD_POOL = f'region = 4096\n{POOL}{POOL}[[pool]]\n[[port]]\npool = 0\nsegs = 1\nqueue = 4\nnode = "n"\ncert = "c"\nin = "a"\nout = "b"\n'

# ---- files that are refused

# Whole texts, and the cause.
WHOLE: list[tuple[bytes, str]] = [
    (b"region = ", "1 NotToml"),
    (b"region = 99999999999999999999", "1 NotToml"),
    (b"# \xff", "1 NotToml"),
    (BAD_POOL.encode(), "2 BadKey pool 2"),
    (b"region = 4096\npool = [1]\n", "2 BadKey top 0"),
    (b"region = 4096\npool = []\n", "3 BadEnv 1 0"),
]
# The route of the pipeline with every part that is changed, and its routes with the two keys before them.
SECOND = "10.1.2.128/25 2"
ROUTES = 'rules = 4\ngroups = 1\nroutes = ["10.0.0.0/8 1", "10.1.2.128/25 2"]'
MANY_ROUTES = 'rules = 9\ngroups = 0\nroutes = [' + 7 * '"10.0.0.0/8 1", ' + '"x"]'
UNREADABLE = "4 BadTable 0 1 6"
# What of the pipeline with every part is replaced, at its first occurrence, and the cause.
CHANGED: list[tuple[str, str, str]] = [
    ("region = 10368", "region = 10369", "2 BadKey top 0"),
    ("region = 10368", "region = 4032", "2 BadKey top 0"),
    ("region = 10368", "region = 1073741888", "2 BadKey top 0"),
    ("region = 10368", 'region = "10368"', "2 BadKey top 0"),
    ("region = 10368", "region = 10368\nmore = 1", "2 BadKey top 0"),
    ("region = 10368", "", "2 BadKey top 0"),
    ("[[pool]]", "[pool]", "2 BadKey top 0"),
    ("[[port]]", "[port]", "2 BadKey top 0"),
    ("cache = 0", "cache = -1", "2 BadKey pool 0"),
    ("cache = 0", "cache = 4294967296", "2 BadKey pool 0"),
    ("cache = 0", "", "2 BadKey pool 0"),
    ("cache = 0", 'cache = 0\ncert = ""', "2 BadKey pool 0"),
    ("rules = 4", "rules = 0", "2 BadKey table 0"),
    ("rules = 4", "rules = 65537", "2 BadKey table 0"),
    ("groups = 1", "groups = 257", "2 BadKey table 0"),
    ('"10.0.0.0/8 1"', "1", "2 BadKey table 0"),
    ("head = 2", "head = 65536", "2 BadKey ring 0"),
    ("share = 1", "share = 256", "2 BadKey ring 0"),
    ("segs = 6", "segs = 256", "2 BadKey ring 0"),
    ('node = "r"', "", "2 BadKey ring 0"),
    ("segs = 1", "segs = 256", "2 BadKey port 0"),
    ('cert = "c"', "cert = 1", "2 BadKey port 0"),
    ('in = "a"', "", "2 BadKey port 0"),
    ("queue = 4", "queue = 4.0", "2 BadKey port 0"),
    # The first bad key counts.
    ("count", "counts", "2 BadKey pool 0"),
    ("node", "nodes", "2 BadKey ring 0"),
    # Environments.
    ("segs = 6", "segs = 65", "3 BadEnv 3 0"),
    ("queue = 4", "queue = 3", "3 BadEnv 4 0"),
    # Routes.
    *((SECOND, it, UNREADABLE) for it in (
        "", "10.1.2/8 1", "10.1.2.3.4/8 1", "10.1.2.256/8 1", "10.1.2.0003/8 1", "10.1.2.3/8  1", "10.1.2.3/8", "10.1.2.3/008 1", "10.1.2.3/8 123456789",
        "10.1.2.3/8 1 ", " 10.1.2.3/8 1", "10.1.2.3/8 +1", "10..2.3/8 1", "10.1.2.3/ 1", "10.1.2.128/25")),
    (SECOND, "10.1.2.128/99 2", "4 BadTable 0 1 1"),
    (ROUTES, MANY_ROUTES, "4 BadTable 0 7 6"),
]

# ---- files of nodes

FORWARD = "tx p0,r0,d\nexit\nd: free p0\nexit\n"
# The certificates of FORWARD and of STRIP at a port.
FORWARD_ROWS, STRIP_ROWS = (SOLE, NONE, SOLE, NONE), (SOLE, "01010200800000000e000001", SHORTER, NONE, SOLE, NONE)
HEAD = f"region = 10368\n{POOL}[[ring]]\ncount = 4\nshare = 0\nhead = 0\ntail = 0\nfirst = 0\nlast = 0\nsegs = 64\n"


def of_nodes(ring: str, port: str) -> str:
    """A pipeline of one ring of any packets and one port, each with the name of a program, and of a certificate after a blank."""
    nodes = ["".join(f'{key} = "{name}"\n' for key, name in zip(("node", "cert"), names.split())) for names in (ring, port)]
    return f'{HEAD}{nodes[0]}[[port]]\npool = 0\nsegs = 1\nqueue = 4\n{nodes[1]}in = "in"\nout = "out"\n'


# Programs of a ring and a port, the words before and after the pipeline file, and the status, what is printed and the fault. Of several nodes the first
# fault counts.
LOST = (1, "port 0 not inferred at 0 by J10\n", "")
NODES: list[tuple[str, str, tuple[str, ...], tuple[int, str, str]]] = [
    ("forward", "strip strip.cert", ("check",), (0, "port 0 accepted\nring 0 accepted\n", "")),
    # (named certificates are not read where one is inferred)
    ("forward nothing", "strip nothing", ("infer", "port0"), (0, certificate(STRIP_ROWS), "")),
    ("strip", "nothing nothing", ("check",), (3, "", "5 File port 0")),
    ("long", "strip", ("check",), (3, "", "5 File ring 0")),
    ("strip", "strip nothing", ("check",), (3, "", "5 File port 0")),
    ("strip", "bad nothing", ("check",), (3, "", "6 Asm port 0 line 1 cause 5")),
    ("strip strip", "strip", ("check",), (3, "", "7 BadCert ring 0 line 1 cause 1")),
    ("strip strip.cert", "strip", ("check",), (1, "ring 0 refused at 0 by J2\n", "")),
    ("strip", "lost", ("check",), LOST),
    ("nothing", "lost strip.cert", ("infer", "port0"), LOST),
]
# What those files hold.
FILES = {
    "forward": FORWARD.encode(),
    "strip": STRIP.encode(),
    # It keeps its packet, so it is refused.
    "lost": b"exit\n",
    "bad": b"adj p0,65536\n",
    "strip.cert": certificate(STRIP_ROWS).encode(),
    # One byte more than a file may have.
    "long": b"#" * (LONGEST + 1),
}


class Named(NamedTuple):
    """A node of a pipeline, its program and its certificate, if it has one."""

    text: str
    node: str
    program: str
    cert: str | None


NAMED = (
    Named(TWO_PORTS, "port 1", "forward.dpv", None),
    Named(EVERY_PART, "ring 0", "r", None),
    Named(EVERY_PART, "port 0", "n", "c"),
)
KEEPS = """  J10: at exit no register holds a packet
  known:  {}
  wanted: p0 empty
  help:   free p0 before it
"""
KNOWN = {"port": "p0 sole, headroom 128, at most 1 segment", "ring": "p0 head sole, headroom 2, tailroom 3, first 4, last 5, at most 6 segments"}


def is_named(program: str, folder: pathlib.Path, case: Named) -> bool:
    """Whether a node has these files: its program keeps its packet, and the line of that and the certificate that refuses it are theirs."""
    for name in ("multicast.dpv", "forward.dpv", "n", "r"):
        (folder / name).write_text("exit\n")
    (folder / "c").write_text(certificate((SOLE,)))
    (folder / "it.toml").write_text(case.text)
    verdict = "not inferred" if case.cert is None else "refused"
    said = f"{case.node} {verdict} at 0 by J10\n{case.program}:1: exit\n" + KEEPS.format(KNOWN[case.node.split()[0]])
    passed = is_said(program, folder, ["explain", "it.toml", case.node.replace(" ", "")], 1, said, "")
    if case.cert is not None:
        (folder / case.cert).unlink()
        run = run_said([program, "explain", "it.toml"], cwd=folder, capture_output=True, text=True, timeout=60)
        missing = f"fault: pipeline 5 File {case.node}\n  file: {case.cert}\n"
        passed = passed and run.returncode == 3 and run.stderr.startswith(missing)
    return passed


def ends_so(program: str, folder: pathlib.Path, text: bytes, words: tuple[str, ...], ends: tuple[int, str, str]) -> bool:
    """Whether a command on a pipeline file ends with this status, prints this and reports this fault."""
    (folder / "it.toml").write_bytes(text)
    run = run_said([program, words[0], "it.toml", *words[1:]], cwd=folder, capture_output=True, text=True, timeout=60)
    # (with status 1 the words for a verdict are on standard error)
    reported = "" if run.returncode == 1 else fixed(run.stderr)
    status, printed, fault = ends
    passed = (run.returncode, run.stdout, reported) == (status, printed, f"fault: pipeline {fault}\n" if fault else "")
    if not passed:
        print(f"loaded: {words} of {text[-400:]!r}: expected {ends}, came {run.returncode}, {run.stdout!r}, {run.stderr!r}")
    return passed


# ---- what pipelines hold

# A program that sends a packet with the hop for its first four bytes in their place, one that sends what has the hop 7 in the last of four tables, and
# one of 1,024 instructions, the greatest number.
HOPS = "iflen p0,4,d\nload r1,p0,0,4\nlookup r2,0,r1,d\nstore p0,0,4,r2\ntx p0,r0,d\nexit\nd: free p0\nexit\n"
SENDS = "iflen p0,4,d\nload r1,p0,0,4\nlookup r2,3,r1,d\njeq r2,7,s\njmp d\ns: tx p0,r0,d\nexit\nd: free p0\nexit\n"
LONGEST_PROGRAM = "add r1,3\n" * 1022 + "free p0\nexit\n"
# The addresses of two records that have a hop, and of one that has none.
NEAR, FAR, AWAY, OTHER = (bytes.fromhex(it) for it in ("0a0102c8", "0a010264", "0b000001", "0a010201"))


LARGE_TABLE = '[[table]]\nrules = 65536\ngroups = 256\nroutes = ["10.1.2.128/25 7"]\n'


def largest() -> str:
    """A pipeline file with the greatest number of each part; eight of its pools have nearly as many buffers as all pools may have."""
    pool = "[[pool]]\ncount = 8191\ncache = 512\nroom = 4096\n"
    ring = '[[ring]]\ncount = 65536\nshare = 0\nhead = 0\ntail = 0\nfirst = 0\nlast = 0\nsegs = 64\nnode = "longest"\n'
    port = '[[port]]\npool = 7\nsegs = 64\nqueue = 65536\nnode = "longest"\nin = "a"\nout = "b"\n'
    return "region = 1073741824\n" + 8 * pool + 4 * LARGE_TABLE + 8 * ring + 8 * port


class Held(NamedTuple):
    """A pipeline, the records of its captures, the files that it writes with their records; and what it holds: the numbers of its
    pools, tables, rings and ports, and of each node its name, its file and its number of instructions."""

    text: str
    read: dict[str, list[bytes]]
    written: dict[str, list[bytes]]
    parts: tuple[int, int, int, int]
    nodes: list[tuple[str, str, int]]


ONE_PORT = '[[port]]\npool = 0\nsegs = 1\nqueue = 4\nnode = "sends"\nin = "a"\nout = "b"\n'
HELD = (
    Held(TWO_PORTS, {"a.pcap": [b"one"], "b.pcap": [b"two", b"three"]}, {"a.out": [b"one"], "b.out": [b"two", b"three"]}, (2, 0, 0, 2),
         [("port 0", "multicast.dpv", 4), ("port 1", "forward.dpv", 4)]),
    Held(EVERY_PART.replace('cert = "c"\n', ""), {"a": [NEAR, FAR, AWAY]}, {"b": [bytes((0, 0, 0, 2)), bytes((0, 0, 0, 1))]}, (1, 1, 1, 1),
         [("port 0", "n", 8), ("ring 0", "r", 4)]),
    Held(f"{TWO_PORTS.split('[[port]]')[0]}{4 * LARGE_TABLE}{ONE_PORT}", {"a": [NEAR, OTHER]}, {"b": [NEAR]}, (2, 4, 0, 1), [("port 0", "sends", 9)]),
    Held(of_nodes("forward", "strip strip.cert"), {"in": [bytes(range(20))]}, {"out": [bytes(range(14, 20))]}, (1, 0, 1, 1),
         [("port 0", "strip", 6), ("ring 0", "forward", 4)]),
)


def records_in(file: pathlib.Path) -> list[bytes]:
    """The bytes of the records of a capture."""
    return [data for _, _, data in captures.read(file.read_bytes()).records]


def is_held(program: str, folder: pathlib.Path, case: Held) -> bool:
    """Whether a pipeline holds this, as a counted run shows it."""
    (folder / "it.toml").write_text(case.text)
    for name, records in case.read.items():
        (folder / name).write_bytes(capture(*records))
    run = run_said([program, "run", "it.toml", "--counts", "--json"], cwd=folder, capture_output=True, text=True, timeout=300)
    doc = json.loads(run.stdout)
    if run.returncode != 0:
        print(f"loaded: {case.text[-300:]}: status {run.returncode}, {run.stderr}")
        return False
    parts = tuple(len(it) for it in (doc["pools"], doc["counts"]["tables"], doc["rings"], doc["ports"]))
    nodes = [(it["node"], it["file"], len(it["instructions"])) for it in doc["counts"]["nodes"]]
    written = {name: records_in(folder / name) for name in case.written}
    passed = (parts, nodes, written) == (case.parts, case.nodes, case.written)
    if not passed:
        print(f"loaded: {case.text[-300:]}: came {parts}, {nodes}, {written}")
    return passed


def is_of_parts(program: str, folder: pathlib.Path) -> list[bool]:
    """The size of a region, and of the pipeline with every part a certificate, what its ring declares, and how many routes its table has: there is room
    for two more."""
    (folder / "two.toml").write_text(TWO_PORTS)
    (folder / "it.toml").write_text(EVERY_PART)
    sizes = run_said([program, "check", "two.toml", "--sizes"], cwd=folder, capture_output=True, text=True, timeout=60).stdout
    shown = f"""ring 0 accepted
  0      tx p0,r0,d  {KNOWN["ring"]}; r0-r7 <= 0
  1      exit        + p0 empty
  2  d:  free p0     + {KNOWN["ring"]}
  3      exit        + p0 empty
"""
    (folder / "more").write_text("11.0.0.0/8 1\n12.0.0.0/8 1\n13.0.0.0/8 1\n")
    full = (3, "", "4 BadTable 0 4 3")
    return [
        f"\n{'region':42}{10_368:>12}\n" in sizes,
        is_said(program, folder, ["infer", "it.toml", "port0"], 0, certificate(FORWARD_ROWS), ""),
        is_said(program, folder, ["show", "it.toml", "ring0"], 0, shown, ""),
        ends_so(program, folder, EVERY_PART.encode(), ("check", "--routes", "0=more"), full),
    ]


def is_largest(program: str, folder: pathlib.Path) -> bool:
    """Whether the pipeline with the greatest number of each part is loaded, with all its nodes, whose programs are as long as their costs."""
    (folder / "it.toml").write_text(largest())
    nodes = [f"{kind} {k}" for kind in ("port", "ring") for k in range(8)]
    said = "".join(f"{node} accepted\n" for node in nodes) + "".join(f"{node} takes at most 1024 instructions\n" for node in nodes)
    turn = f"the turn of a record takes at most {33 * 1024} instructions: 1024 on port 0, {32 * 1024} on packets in rings\n"
    return is_said(program, folder, ["check", "it.toml", "--cost"], 0, said + turn, "")


def main() -> int:
    """All of it."""
    program = asked()
    with new_folder() as folder:
        for name, data in FILES.items():
            (folder / name).write_bytes(data)
        passed = [ends_so(program, folder, text, ("check",), (3, "", cause)) for text, cause in WHOLE]
        passed += [ends_so(program, folder, EVERY_PART.replace(old, new, 1).encode(), ("check",), (3, "", cause)) for old, new, cause in CHANGED]
        passed += [is_named(program, folder, case) for case in NAMED]
        passed += [ends_so(program, folder, of_nodes(ring, port).encode(), words, ends) for ring, port, words, ends in NODES]
        texts = {"multicast.dpv": FORWARD, "forward.dpv": FORWARD, "n": FORWARD, "r": FORWARD, "c": certificate(FORWARD_ROWS)}
        for name, text in texts.items():
            (folder / name).write_text(text)
        passed += is_of_parts(program, folder)
        (folder / "n").write_text(HOPS)
        (folder / "longest").write_text(LONGEST_PROGRAM)
        (folder / "sends").write_text(SENDS)
        passed += [is_held(program, folder, case) for case in HELD] + [is_largest(program, folder)]
    return report_cases("loaded", passed)


if __name__ == "__main__":
    sys.exit(main())
