#!/usr/bin/env python3
"""Runs the built program dpv over a few records, and compares its captures, reports, documents and counts with answers that were worked out by hand.

Usage: tests/program/small_runs.py [PROGRAM]   (the built program; by default the one that ./dpv builds and runs)
A pipeline that sends back what it gets, to a disk that is full after some bytes; one whose transmit list is too small; and one with a table, a ring
that is full and a node run that is cut, whose counts are also read again for a picture. Then a program as `dpv build` writes it, by the lines that
it is built from; a device that cannot be read; and ports that read and write nothing. Prints a line for each case that failed, and a count; exits
with 1 if a case failed.
"""
import json
import os
import pathlib
import re
import sys
import tty
from typing import Any, NamedTuple

import paths  # noqa: F401

from command import STRIP, asked, new_folder, put_library, report_cases, run_said
from faults import HEADER, capture

POOL = "[[pool]]\ncount = {}\ncache = 0\nroom = 2176\n"
PORT = '[[port]]\npool = 0\nsegs = 1\nqueue = {}\nnode = "{}.dpv"\nin = "{}.in"\nout = "{}.out"\n'
RING = '[[ring]]\ncount = 2\nshare = 0\nhead = 0\ntail = 0\nfirst = 0\nlast = 0\nsegs = 1\nnode = "ring.dpv"\n'
TABLE = '[[table]]\nrules = 4\ngroups = 1\nroutes = ["10.0.0.0/8 0"]\n'


def pipeline(name: str, region: int, buffers: int, queue: int, parts: str = "") -> str:
    """A pipeline of one port, whose files have this name."""
    return f"region = {region}\n" + POOL.format(buffers) + parts + PORT.format(queue, name, name, name)


# Pipelines: "back" sends back the two records of 60 bytes that it gets. The list of "twice" takes one packet, and a record of four bytes or more is to
# go out twice. The port of "full" puts two packets into its ring, which takes one; "rings" has a second ring, which gets none.
PIPELINES = {
    "back": pipeline("back", 262_144, 64, 4),
    "twice": pipeline("twice", 65_536, 4, 2),
    "full": pipeline("full", 65_536, 8, 4, TABLE + RING),
    "rings": pipeline("full", 65_536, 8, 4, TABLE + RING + RING.replace("ring.dpv", "drop.dpv")),
    "built": pipeline("built", 65_536, 8, 4),
}
PROGRAMS = {
    "back": "tx p0,r0,drop\nexit\ndrop: free p0\nexit\n",
    "twice": """iflen p0,4,drop # too short
clone p1,p0,0,one
tx p1,r0,first
tx p0,r0,drop
exit
first: free p1
one: tx p0,r0,drop
exit
drop: free p0
exit""",
    "full": """# two to the ring, which takes one

        iflen p0,4,drop
        load r1,p0,0,4
        lookup r2,0,r1,drop     # the hop
        clone p1,p0,0,drop
        enq p1,0,both
again:  enq p0,0,again          # full
        exit
both:   free p1
drop:
        free p0
        exit
""",
    "ring": "tx p0,r0,no\nexit\nno: free p0\nexit",
    "drop": "free p0\nexit\n",
    # A text as `dpv build` writes it.
    "built": """# Built from a.pkt by `dpv build`
        iflen p0,4,L1     # net.pkt:2: need 4 bytes else drop "short"
        load r1,p0,0,4    # 3: if r1 { }
        jeq r1,0,L1       # 3: if r1 { }
        add r0,0          # count all: 4: count all
        tx p0,r0,L1       # 5: send port
        exit              # 5: send port
L1:
        free p0           # what is held is dropped
        exit              # what is held is dropped
""",
}
# The captures: for "full" a record with an address that has a hop, one with an address that has none, and one that is short.
WITH_HOP, WITHOUT, SHORT = b"\x0a\0\0\1", b"\x0b\0\0\1", b"\x0a\0"
BOTH = (b"the first of two records, whose bytes are any, sixty of them", b"and the second of the two: other bytes, and sixty of these..")
RECORDS: dict[str, tuple[bytes, ...]] = {
    "back": BOTH, "twice": (WITH_HOP, SHORT), "full": (WITH_HOP, WITHOUT, SHORT), "more": (WITH_HOP, WITHOUT, SHORT, SHORT, SHORT), "built": (),
}


class Ran(NamedTuple):
    """How a command ended."""

    status: int
    out: str
    err: str


def run(program: str, folder: pathlib.Path, *words: str) -> Ran:
    """Runs a command."""
    done = run_said([program, *words], cwd=folder, capture_output=True, text=True, timeout=60)
    return Ran(done.returncode, done.stdout, done.stderr)


def came(case: str, got: object, wanted: object) -> bool:
    """Whether a case went as it should."""
    if got != wanted:
        print(f"small runs: {case}: expected\n{wanted}\ncame\n{got}")
    return got == wanted


# ---- disks

BACK_REPORT = "port 0 received {} nobuf 0 oversize 0 sent {} input {}\npool 0 free 64 of 64\ncalls {} refused 0\n"
FULL = "fault: output 0\n  file: back.out\n  because: No space left on device (os error 28)\n"
# The size of the disk; how many bytes it took of the 176 of the capture, by how many writes; and how many records the port received and sent. A full disk
# ends a run with the records that it has. Of a disk that is full nothing more is asked, so the error that is reported is its first.
DISKS = [
    (0, 0, 1, (2, 0)), (2, 2, 2, (2, 0)), (23, 23, 2, (2, 0)), (24, 24, 2, (2, 0)), (99, 99, 2, (2, 0)), (100, 100, 2, (2, 1)), (175, 175, 2, (2, 1)),
    (176, 176, 1, (2, 2)),
]


def onto_disks(program: str, folder: pathlib.Path) -> list[bool]:
    """The runs onto disks that are full after some bytes."""
    library, passed = put_library("full", folder), []
    if library is None:
        print("small runs: full disks: NOT TRIED, since there is no C compiler")
        return []
    for left, taken, writes, (received, sent) in DISKS:
        around = dict(os.environ, LD_PRELOAD=str(library), LEFT=str(left), COUNT=str(folder / "count"))
        (folder / "back.out").unlink(missing_ok=True)
        done = run_said([program, "run", "back.toml"], cwd=folder, env=around, capture_output=True, text=True, timeout=60)
        held = (folder / "back.out").read_bytes() if (folder / "back.out").exists() else b""
        got = done.returncode, done.stdout, done.stderr, held, (folder / "count").read_text()
        ends = (3, FULL) if taken < len(capture(*BOTH)) else (0, "")
        report = BACK_REPORT.format(received, sent, "whole", 2)
        passed.append(came(f"a disk of {left} bytes", got, (ends[0], report, ends[1], capture(*BOTH)[:taken], f"{taken} {writes}\n")))
    return passed


def of_lost_device(program: str, folder: pathlib.Path) -> bool:
    """Whether a run says so of a device that gives three bytes, and then an error: a terminal that was closed."""
    reader, writer = os.openpty()
    tty.setraw(writer)
    os.write(writer, HEADER[:3])
    os.close(writer)
    words = [program, "one", str(STRIP / "strip.dpv"), str(STRIP / "strip.cert"), "-", "none.out"]
    done = run_said(words, cwd=folder, stdin=reader, capture_output=True, text=True, timeout=60)
    os.close(reader)
    return came("a device", (done.returncode, done.stderr), (3, "fault: input 0 cause 8\n  file: -\n  because: Input/output error (os error 5)\n"))


# ---- reports

REPORT = "port 0 received 2 nobuf 0 oversize 0 sent 1 input whole\npool 0 free 4 of 4\ncalls 3 refused 0\n"
# Where the packets of "twice" ended, and what it lost.
ENDED = "         1  port 0 twice.dpv:1: iflen p0,4,drop # too short\n         1  port 0 twice.dpv:4: tx p0,r0,drop\n"
LOST = "port 0: its transmit list was full 1 time when a packet came: raise its queue\n"
# The ring is full at the first packet that is cloned, and at each of 256 further attempts.
FULL_REPORT = "port 0 received 3 nobuf 0 oversize 0 sent 1 input whole\nring 0 left 0\npool 0 free 8 of 8\ncalls 4 refused 0\ncut 1\n"
FULL_LOST = """ring 0: it was full 257 times when a packet came: raise its count
1 node run was cut: it took more than 256 backward jumps, and its packets were freed; --counts shows which loop
"""
LISTING = """port 0 full.dpv
       ran     taken
                      # two to the ring, which takes one

         3         1          iflen p0,4,drop
         2                    load r1,p0,0,4
         2         1          lookup r2,0,r1,drop     # the hop
         1         0          clone p1,p0,0,drop
         1         0          enq p1,0,both
       257       256  again:  enq p0,0,again          # full
         1       cut
         0                    exit
         0            both:   free p1
                      drop:
         2     freed          free p0
         2     ended          exit
ring 0 ring.dpv
       ran     taken
         1         0  tx p0,r0,no
         1     ended  exit
         0            no: free p0
         0            exit
table 0 hits 1 misses 1
ring 0 waited 1 of 1 full 257
pool 0 least 6 of 8
"""
TWICE_DOCUMENT = (
    '{"calls":3,"cut":0,"fault":null,"pools":[{"count":4,"free":4,"pool":0,"refused":0}],'
    '"ports":[{"cut_at":null,"full":1,"input":"whole","nobuf":0,"oversize":0,"port":0,"received":2,"sent":1,"truncated":0}],"refused":0,"rings":[]}\n'
)
# The words of a run, and what is printed and reported: everything is reported where the capture goes to standard output. The first record of each
# pipeline is sent.
SAID: list[tuple[list[str], str, str]] = [
    (["back.toml"], BACK_REPORT.format(2, 2, "whole", 2), ""),
    (["twice.toml"], REPORT, LOST),
    (["twice.toml", "--drops"], REPORT + ENDED, LOST),
    (["twice.toml", "--drops", "--out", "0=-"], capture(WITH_HOP).decode("latin-1"), REPORT + ENDED + LOST),
    (["twice.toml", "--json"], TWICE_DOCUMENT, LOST),
    (["full.toml"], FULL_REPORT, FULL_LOST),
    (["full.toml", "--counts"], FULL_REPORT + LISTING, FULL_LOST),
    (["back.toml", "--no-in", "0", "--no-out", "0"], BACK_REPORT.format(0, 0, "whole", 0), ""),
]


def is_said(program: str, folder: pathlib.Path, words: list[str], printed: str, reported: str) -> bool:
    """Whether a run ends with status 0 and says this on both streams; and the file of its output has the records that it sent, if it is written."""
    name = words[0].removesuffix(".toml")
    (folder / f"{name}.out").unlink(missing_ok=True)
    done = run_said([program, "run", *words], cwd=folder, capture_output=True, timeout=60)
    held = (folder / f"{name}.out").read_bytes() if (folder / f"{name}.out").exists() else None
    sent = None if "--out" in words or "--no-out" in words else capture(*(BOTH if name == "back" else (WITH_HOP,)))
    return came(" ".join(words), (done.returncode, done.stdout.decode("latin-1"), done.stderr.decode(), held), (0, printed, reported, sent))


# ---- counts

# The counts in the document of "full".
COUNTS = (
    '"counts":{"nodes":[{"file":"full.dpv","instructions":['
    '{"comment":null,"cut":0,"ends":null,"label":0,"ran":3,"taken":1,"text":"iflen p0,4,drop"},'
    '{"comment":null,"cut":0,"ends":null,"label":1,"ran":2,"taken":null,"text":"load r1,p0,0,4"},'
    '{"comment":"the hop","cut":0,"ends":null,"label":2,"ran":2,"taken":1,"text":"lookup r2,0,r1,drop"},'
    '{"comment":null,"cut":0,"ends":null,"label":3,"ran":1,"taken":0,"text":"clone p1,p0,0,drop"},'
    '{"comment":null,"cut":0,"ends":null,"label":4,"ran":1,"taken":0,"text":"enq p1,0,both"},'
    '{"comment":"full","cut":1,"ends":null,"label":5,"ran":257,"taken":256,"text":"again:  enq p0,0,again"},'
    '{"comment":null,"cut":0,"ends":"ended","label":6,"ran":0,"taken":null,"text":"exit"},'
    '{"comment":null,"cut":0,"ends":"freed","label":7,"ran":0,"taken":null,"text":"both:   free p1"},'
    '{"comment":null,"cut":0,"ends":"freed","label":8,"ran":2,"taken":null,"text":"free p0"},'
    '{"comment":null,"cut":0,"ends":"ended","label":9,"ran":2,"taken":null,"text":"exit"}],'
    '"node":"port 0"},{"file":"ring.dpv","instructions":['
    '{"comment":null,"cut":0,"ends":null,"label":0,"ran":1,"taken":0,"text":"tx p0,r0,no"},'
    '{"comment":null,"cut":0,"ends":"ended","label":1,"ran":1,"taken":null,"text":"exit"},'
    '{"comment":null,"cut":0,"ends":"freed","label":2,"ran":0,"taken":null,"text":"no: free p0"},'
    '{"comment":null,"cut":0,"ends":"ended","label":3,"ran":0,"taken":null,"text":"exit"}],'
    '"node":"ring 0"}],"pools":[{"count":8,"least":6,"pool":0}],'
    '"rings":[{"capacity":1,"full":257,"most":1,"ring":0}],"tables":[{"hits":1,"misses":1,"table":0}]}'
)
# How often packets found each ring of "rings" full, and what its table was asked.
FULL_RINGS, LOOKUPS = [257, 0], [{"hits": 1, "misses": 1, "table": 0}]
# The arrows of the picture of the port's program with these counts: from one instruction to another, the style and the count.
ARROWS = {
    (0, 1, "solid", 2), (0, 8, "dashed", 1), (1, 3, "solid", 1), (1, 8, "dashed", 1), (3, 4, "solid", 1), (3, 8, "dashed", 0),
    (4, 5, "solid", 1), (4, 7, "dashed", 0), (5, 6, "solid", 1), (5, 5, "dashed", 256), (7, 8, "solid", 0),
}
# What is reported where a document, of which this is the text around its counts, has none of the node.
GIVE = "  help: give the document that dpv run FILE --counts --json prints\n"
NO_COUNTS = [("{", "}", "ring1", "it has no counts of ring 1"), ('{"named":{', "}}", "port0", "counts is not an object")]
# Of "full" and two more records that get no buffers: the lines from which control came to a `free`, and how many packets it freed. None stands for a
# record that got no buffers.
PLACES = [(None, 2), (3, 1), (5, 1)]
# The lines of its port's program, how often control came to each, and how many packets it sent and dropped.
LINES = [(3, 3, 0, 1), (4, 2, 0, 0), (5, 2, 0, 1), (6, 1, 0, 0), (7, 1, 1, 0), (8, 257, 0, 0), (9, 0, 0, 0), (10, 0, 0, 0), (12, 2, 0, 0), (13, 2, 0, 0)]
# The lines that "built" is built from, each with its file.
BUILT_LINES = [("a.pkt", 3, "if r1 { }"), ("a.pkt", 4, "count all"), ("a.pkt", 5, "send port"), ("net.pkt", 2, 'need 4 bytes else drop "short"')]


def lines_of(doc: dict[str, Any]) -> list[dict[str, Any]]:
    """The lines of the first program in a document."""
    return doc["lines"][0]["lines"]


def counts(program: str, folder: pathlib.Path) -> list[bool]:
    """The counts as documents, those of two rings, and those that are read again for pictures."""
    made = run(program, folder, "run", "full.toml", "--counts", "--json")
    rings = json.loads(run(program, folder, "run", "rings.toml", "--counts", "--json").out)["counts"]
    passed = [
        came("the document of counts", (made.status, made.err, made.out.count(COUNTS + ',"cut":1,')), (0, FULL_LOST, 1)),
        came("two rings", ([it["full"] for it in rings["rings"]], rings["tables"]), (FULL_RINGS, LOOKUPS)),
    ]
    (folder / "counts.json").write_text(f"{{{COUNTS}}}")
    drawn = run(program, folder, "show", "full.toml", "port0", "--dot", "--calls", "--counts", "counts.json")
    arrows = {(int(first), int(to), style, int(count)) for first, to, style, count in re.findall(r'L(\d+) -> L(\d+) \[style=(\w+), label=" (\d+)"', drawn.out)}
    passed.append(came("a picture with counts", (drawn.status, arrows, drawn.err), (0, ARROWS, "")))
    for before, after, node, because in NO_COUNTS:
        (folder / "other.json").write_text(before + COUNTS + after)
        shown = run(program, folder, "show", "rings.toml", node, "--dot", "--counts", "other.json")
        passed.append(came(because, shown, (3, "", f"fault: file other.json\n  because: {because}\n{GIVE}")))
    return passed


def by_lines(program: str, folder: pathlib.Path) -> list[bool]:
    """Where packets ended, and the counts by lines, of programs as they were written and built."""
    more = json.loads(run(program, folder, "run", "full.toml", "--in", "0=more.in", "--refuse", "5,6", "--source", "--drops", "--json").out)
    built = json.loads(run(program, folder, "run", "built.toml", "--source", "--json").out)
    return [
        came("places", [(it["line"], it["packets"]) for it in more["drops"]], PLACES),
        came("lines", [(it["line"], it["came"], it["sent"], it["dropped"]) for it in lines_of(more)], LINES),
        came("built lines", [(it["file"], it["line"], it["text"]) for it in lines_of(built)], BUILT_LINES),
    ]


def main() -> int:
    """All of it."""
    program = asked()
    with new_folder() as folder:
        for name, text in PIPELINES.items():
            (folder / f"{name}.toml").write_text(text)
        for name, text in PROGRAMS.items():
            (folder / f"{name}.dpv").write_text(text)
        for name, records in RECORDS.items():
            (folder / f"{name}.in").write_bytes(capture(*records))
        passed = onto_disks(program, folder) + [of_lost_device(program, folder)]
        passed += [is_said(program, folder, *case) for case in SAID]
        passed += counts(program, folder) + by_lines(program, folder)
    return report_cases("small_runs", passed)


if __name__ == "__main__":
    sys.exit(main())
