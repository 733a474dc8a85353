#!/usr/bin/env python3
"""Compares what the built program dpv prints about programs with texts that were worked out by hand: explain, show, infer-one, check --cost and trace.

Usage: tests/program/judged.py [PROGRAM]   (the built program; by default the one that ./dpv builds and runs)
Programs that are accepted, that are refused with a certificate or without one, that have code that is never reached, or that are no programs; by
themselves and as the nodes of a pipeline. Prints a line for each case that failed, and a count; exits with 1 if a case failed.
"""
import json
import pathlib
import re
import subprocess
import sys
from typing import NamedTuple

import paths  # noqa: F401

from command import asked, new_folder, report_cases, said, saying
from faults import capture

# A row in which p0 is sole, with a headroom of 128 and one segment, and such rows of a longer and of a shorter packet. Zeros follow.
SOLE, LONGER, SHORTER = "010102008000000000000001", "01010200800000000e000001", "010102008e00000000000001"
# A row that knows of one byte, and one without packets.
ONE_BYTE, NONE = "010102008000000001000001", "01"
STRIP = "iflen p0,14,short\nadj p0,14\ntx p0,r0,short\nexit\nshort: free p0\nexit\n"
PASS = "tx p0,r0,d\nexit\nd: free p0\nexit\n"
LOOPED = "set r1,0\nnext: add r1,1\njlt r1,3,next\njeq r1,3,on\non: jeq r1,4,far\nfar: jmp last\nlast: tx p0,r0,full\nexit\nfull: free p0\nexit\n"
LABELLED = (
    "# front\r\n\tone: two:\tiflen  p0, 14,short # at least # 14\r\nthree:\n\nfour: # of its own\n adj\tp0,14\ntx p0,r0,short\nexit\n"
    "short:last: free p0\nexit"
)
# Rows of another program of as many instructions as STRIP has, and a program that loses its packet.
OTHER, LOST = (SOLE, SOLE, SHORTER, NONE, SOLE, NONE), "exit\n" * 6

# A program that appends to a packet whose last segment is shared, and one that reads at an index of this width.
TAIL = "clone p1,p0,0,d\nalloc p2,0,e\nappend p2,14\nchain p2,p1\niftail p2,4,f\nappend p2,4\nf: free p2\nfree p0\nexit\ne: free p1\nd: free p0\nexit\n"
AT_INDEX = "iflen p0,14,d\nload r2,p0,0,WIDTH\nloadx r1,p0,r2,0,1\nd: free p0\nexit\n"
# A program that writes to a packet that another register shares, none of them p0.
SECOND = "alloc p1,0,d\nappend p1,14\nclone p2,p1,0,e\nstore p1,0,8,r0\nfree p2\ne: free p1\nd: free p0\nexit\n"
J6, J11 = "J6: the packet has the bytes or the room that the instruction needs", "J11: the facts after the instruction satisfy the row of each successor"

# Lines that look like documents, which a name may have.
FORGED = ('{"view":"losses"}', '{"view":"record","x":1}', '{"view":"no","view":[]}', '{"view":"show","nodes":[3]}', r'{"view":"unread","reason":"\ud800"}')


class Case(NamedTuple):
    """A command on node.dpv, with node.cert if there are rows: its status, and what it prints and reports."""

    command: str
    program: str
    rows: tuple[str, ...]
    status: int
    printed: str
    reported: str = ""


def explained(at: str, line: str, rule: str, known: str, wanted: str, cure: str) -> str:
    """The explanation of a program that is refused."""
    return f"port 0 {at}\nnode.dpv:{line}\n  {rule}\n  known:  {known}\n  wanted: {wanted}\n  help:   {cure}\n"


EXPLAINED = (
    Case("explain-one", STRIP, (), 0, "port 0 accepted\n"),
    Case("explain-one", PASS, (ONE_BYTE, NONE, SOLE, NONE), 1, explained(
        "refused at 0 by J2", "1: tx p0,r0,d", "J2: what is known at the entry is enough for the first row",
        "p0 sole, headroom 128, at most 1 segment", "p0 sole, headroom 128, first 1, at most 1 segment", "let dpv infer write the certificate")),
    Case("explain-one", "alloc p1,1,out\nfree p1\nout: free p0\nexit\n", (), 1, explained(
        "not inferred at 0 by J3", "1: alloc p1,1,out", "J3: the pool, the table, the ring and each label exist",
        "the number of pools is 1", "a pool with the number 1, from 0", "declare one more in the pipeline, or name another")),
    Case("explain-one", "tx p0,r0,out\ntx p0,r0,none\nnone: exit\nout: free p0\nexit\n", (), 1, explained(
        "not inferred at 1 by J4", "2: tx p0,r0,none", "J4: each packet register that is used holds a packet",
        "p0 empty", "a packet in p0", "use p0 before it is sent, queued or freed; or put a packet into it by alloc or clone")),
    Case("explain-one", "alloc p0,0,out\nout: free p0\nexit\n", (), 1, explained(
        "not inferred at 0 by J5", "1: alloc p0,0,out", "J5: the target of alloc and clone is empty, and those of chain differ",
        "p0 sole, headroom 128, at most 1 segment", "p0 empty", "free p0 before it, or take another register")),
    Case("explain-one", "# cuts\n\n\tadj p0,14   # a header\ntx p0,r0,d\nexit\nd: free p0\nexit\n", (), 1, explained(
        "not inferred at 0 by J6", "3: adj p0,14   # a header", "J6: the packet has the bytes or the room that the instruction needs",
        "p0 first 0", "p0 first 14", "iflen p0,14,L before it")),
    Case("explain-one", "iflen p0,14,out\nclone p1,p0,0,out\nstore p0,0,8,r0\nfree p1\nout: free p0\nexit\n", (), 1, explained(
        "not inferred at 2 by J7", "3: store p0,0,8,r0", "J7: what it writes is not shared",
        "p0 in group p0, headroom 128, first 14, at most 1 segment", "p0 sole or head sole", "free its clones before it, or write before clone")),
    Case("explain-one", "iflen p0,14,out\nload r1,p0,5,1\ntx p0,r1,out\nexit\nout: free p0\nexit\n", (), 1, explained(
        "not inferred at 2 by J9", "3: tx p0,r1,out", "J9: the port exists, and the packet satisfies what the ring declares",
        "r1 <= 255", "r1 below 1, the number of ports", "jlt r1,1,L before it, and at L the tx")),
    Case("explain-one", "iflen p0,14,short\nadj p0,14\ntx p0,r0,out\nexit\nout: free p0\nexit\nshort:  exit\n", (), 1, explained(
        "not inferred at 6 by J10", "7: short:  exit", "J10: at exit no register holds a packet",
        "p0 sole, headroom 128, at most 1 segment", "p0 empty", "free p0 before it")),
    Case("explain-one", "lookup r2,0,r1,d\nd: free p0\nexit\n", (), 1, explained(
        "not inferred at 0 by J3", "1: lookup r2,0,r1,d", "J3: the pool, the table, the ring and each label exist",
        "the number of tables is 0", "a table with the number 0, from 0", "declare one more in the pipeline, or name another")),
    Case("explain-one", "enq p0,0,d\nexit\nd: free p0\nexit\n", (), 1, explained(
        "not inferred at 0 by J3", "1: enq p0,0,d", "J3: the pool, the table, the ring and each label exist",
        "the number of rings is 0", "a ring with the number 0, from 0", "declare one more in the pipeline, or name another")),
    Case("explain-one", "chain p0,p0\nfree p0\nexit\n", (), 1, explained(
        "not inferred at 0 by J5", "1: chain p0,p0", "J5: the target of alloc and clone is empty, and those of chain differ",
        "both are p0", "two registers", "clone the packet, and chain the clone")),
    Case("explain-one", "iflen p0,14,d\nclone p1,p0,0,d\ntx p0,r0,e\nstore p1,0,1,r1\nfree p1\nexit\ne: free p1\nd: free p0\nexit\n", (), 1, explained(
        "not inferred at 3 by J7", "4: store p1,0,1,r1", "J7: what it writes is not shared",
        "p1 loose, headroom 128, first 14, at most 1 segment", "p1 sole or head sole", "write before clone, or into a packet of its own from alloc")),
    Case("explain-one", TAIL, (), 1, explained(
        "not inferred at 5 by J7", "6: append p2,4", "J7: what it writes is not shared",
        "p2 head sole, headroom 128, tailroom 4, first 14, at most 2 segments", "p2 sole", "append before chain")),
    Case("explain-one", AT_INDEX.replace("WIDTH", "8"), (), 1, explained(
        "not inferred at 2 by J6", "3: loadx r1,p0,r2,0,1", "J6: the packet has the bytes or the room that the instruction needs",
        "p0 first 14", f"p0 first {2**64 - 1} + 1", f"bound the index before it by jlt or and: it can be {2**64 - 1}")),
    Case("explain-one", AT_INDEX.replace("WIDTH", "1"), (), 1, explained(
        "not inferred at 2 by J6", "3: loadx r1,p0,r2,0,1", "J6: the packet has the bytes or the room that the instruction needs",
        "p0 first 14", "p0 first 255 + 1",
        "bound the index before it by jlt or and: it can be 255; iflen p0,256,L would do, too, but sends each shorter packet to L")),
    # The most bytes for which iflen can test: an index of up to 65,533, and two bytes.
    Case("explain-one", "iflen p0,14,d\nload r2,p0,0,2\nand r2,65533\nloadx r1,p0,r2,1,1\nd: free p0\nexit\n", (), 1, explained(
        "not inferred at 3 by J6", "4: loadx r1,p0,r2,1,1", J6, "p0 first 14", "p0 first 65533 + 2",
        "bound the index before it by jlt or and: it can be 65533; iflen p0,65535,L would do, too, but sends each shorter packet to L")),
    Case("explain-one", PASS, (SOLE, NONE, ONE_BYTE, NONE), 1, explained(
        "refused at 0 by J11", "1: tx p0,r0,d", "J11: the facts after the instruction satisfy the row of each successor",
        "p0 sole, headroom 128, at most 1 segment", "at 2, d: p0 sole, headroom 128, first 1, at most 1 segment",
        "let dpv infer write the certificate, or test for more before it")),
    Case("explain-one", "prepend p0,200\nfree p0\nexit\n", (), 1, explained(
        "not inferred at 0 by J6", "1: prepend p0,200", J6, "p0 headroom 128", "p0 headroom 200", "ifhead p0,200,L before it")),
    Case("explain-one", "append p0,4\nfree p0\nexit\n", (), 1, explained(
        "not inferred at 0 by J6", "1: append p0,4", J6, "p0 tailroom 0", "p0 tailroom 4", "iftail p0,4,L before it")),
    Case("explain-one", "trim p0,4\nfree p0\nexit\n", (), 1, explained(
        "not inferred at 0 by J6", "1: trim p0,4", J6, "p0 last 0", "p0 last 4", "iflast p0,4,L before it")),
    Case("explain-one", SECOND, (), 1, explained(
        "not inferred at 3 by J7", "4: store p1,0,8,r0", "J7: what it writes is not shared",
        "p1 in group p1, headroom 128, tailroom 2034, first 14, last 14, at most 1 segment", "p1 sole or head sole", "free its clones before it, or write before clone")),
    Case("explain-one", "free p0\n", (), 1, explained(
        "not inferred at 0 by J3", "1: free p0", "J3: the pool, the table, the ring and each label exist",
        "the number of instructions is 1", "an instruction with the number 1, from 0", "end the program with exit or jmp")),
    # Registers other than p0.
    Case("explain-one", "alloc p1,0,d\nadj p1,4\nfree p1\nd: free p0\nexit\n", (), 1, explained(
        "not inferred at 1 by J6", "2: adj p1,4", J6, "p1 first 0", "p1 first 4", "iflen p1,4,L before it")),
    Case("explain-one", "free p2\nfree p0\nexit\n", (), 1, explained(
        "not inferred at 0 by J4", "1: free p2", "J4: each packet register that is used holds a packet",
        "p2 empty", "a packet in p2", "use p2 before it is sent, queued or freed; or put a packet into it by alloc or clone")),
    Case("explain-one", "clone p1,p0,0,d\nalloc p1,0,e\ne: free p1\nd: free p0\nexit\n", (), 1, explained(
        "not inferred at 1 by J5", "2: alloc p1,0,e", "J5: the target of alloc and clone is empty, and those of chain differ",
        "p1 in group p0, headroom 128, at most 1 segment", "p1 empty", "free p1 before it, or take another register")),
    Case("explain-one", "clone p1,p0,0,d\nfree p0\nexit\nd: free p0\nexit\n", (), 1, explained(
        "not inferred at 2 by J10", "3: exit", "J10: at exit no register holds a packet",
        "p1 sole, headroom 128, at most 1 segment", "p1 empty", "free p1 before it")),
    Case("explain-one", "alloc p1,0,a\na: free p0\nexit\n", (), 1, explained(
        "not inferred at 0 by J11", "1: alloc p1,0,a", J11, "p1 sole, headroom 128, tailroom 2048, at most 1 segment", "at 1, a: p1 empty",
        "free p1 before control goes there, or let this path end with exit: another path arrives with p1 empty")),
    # A row that bounds r1 by less than it is, and a dead row to which control comes.
    Case("explain-one", f"set r1,5\n{PASS}", (SOLE, SOLE, NONE, SOLE, NONE), 1, explained(
        "refused at 0 by J11", "1: set r1,5", J11, "r1 <= 5", "at 1: r1 <= 0", "let dpv infer write the certificate, or test for more before it")),
    Case("explain-one", PASS, (SOLE, "00", SOLE, NONE), 1, explained(
        "refused at 0 by J11", "1: tx p0,r0,d", J11, "control comes there", "at 1: that control never comes there",
        "let dpv infer write the certificate, or test for more before it")),
    Case("explain-one", "\n tx  p0 ,r0,c # sent # out\r\nexit\na:\nb: c:free p0\nexit", (SOLE, NONE, ONE_BYTE, NONE), 1, explained(
        "refused at 0 by J11", "2: tx  p0 ,r0,c # sent # out", "J11: the facts after the instruction satisfy the row of each successor",
        "p0 sole, headroom 128, at most 1 segment", "at 2, a: p0 sole, headroom 128, first 1, at most 1 segment",
        "let dpv infer write the certificate, or test for more before it")),
)
ENTRY = "p0 sole, headroom 128, at most 1 segment"
SHOWN = (
    Case("show-one", STRIP, (), 0, f"""port 0 accepted
  0          iflen p0,14,short  {ENTRY}; r0-r7 <= 0
  1          adj p0,14          + p0 first 14
  2          tx p0,r0,short     + p0 headroom 142, first 0
  3          exit               + p0 empty
  4  short:  free p0            + {ENTRY}
  5          exit               + p0 empty
"""),
    Case("show-one", "clone p1,p0,0,out\nset r1,5\nsub r2,r1\nadd r3,r2\nfree p1\njlt r1,6,out\nout: free p0\nexit\nexit\n", (), 0, f"""port 0 accepted
  0        clone p1,p0,0,out  {ENTRY}; r0-r7 <= 0
  1        set r1,5           + p0 in group p0; p1 in group p0, headroom 128, at most 1 segment
  2        sub r2,r1          + r1 <= 5
  3        add r3,r2          + r2 any
  4        free p1            + r3 any
  5        jlt r1,6,out       + p0 sole; p1 empty
  6  out:  free p0            as before
  7        exit               + p0 empty
  8        exit               never reached
"""),
    Case("show-one", "adj p0,14\ntx p0,r0,full\nexit\nfull: free p0\nexit\n", (), 1, f"""port 0 not inferred at 0 by J6
> 0         adj p0,14      {ENTRY}; r0-r7 <= 0
  1         tx p0,r0,full  + p0 headroom 142
  2         exit           + p0 empty
  3  full:  free p0        + p0 sole, headroom 142, at most 1 segment
  4         exit           + p0 empty
"""),
    Case("show-one", PASS, (SOLE, NONE, ONE_BYTE, NONE), 1, f"""port 0 refused at 0 by J11
> 0      tx p0,r0,d  {ENTRY}; r0-r7 <= 0
  1      exit        + p0 empty
  2  d:  free p0     + p0 sole, headroom 128, first 1, at most 1 segment
  3      exit        + p0 empty
"""),
    # A loop, by a certificate that is inferred; and jumps to the instruction after them.
    Case("show-one", LOOPED, (), 0, f"""port 0 accepted
  0         set r1,0       {ENTRY}; r0-r7 <= 0
  1  next:  add r1,1       + r1 <= 2
  2         jlt r1,3,next  + r1 <= 3
  3         jeq r1,3,on    as before
  4  on:    jeq r1,4,far   as before
  5  far:   jmp last       as before
  6  last:  tx p0,r0,full  as before
  7         exit           + p0 empty
  8  full:  free p0        + {ENTRY}
  9         exit           + p0 empty
"""),
    # An instruction of which all is shorter than what changed from the line before.
    Case("show-one", "clone p1,p0,0,d\njmp f\ne: exit\nf: free p1\nd: free p0\njmp e\n", (), 0, f"""port 0 accepted
  0      clone p1,p0,0,d  {ENTRY}; r0-r7 <= 0
  1      jmp f            + p0 in group p0; p1 in group p0, headroom 128, at most 1 segment
  2  e:  exit             r0-r7 <= 0
  3  f:  free p1          + p0 in group p0, headroom 128, at most 1 segment; p1 in group p0, headroom 128, at most 1 segment
  4  d:  free p0          + p0 sole; p1 empty
  5      jmp e            + p0 empty
"""),
    # An instruction after one that is never reached, of which all is said.
    Case("show-one", "jmp a\nexit\na: free p0\nexit\n", (), 0, f"""port 0 accepted
  0      jmp a    {ENTRY}; r0-r7 <= 0
  1      exit     never reached
  2  a:  free p0  {ENTRY}; r0-r7 <= 0
  3      exit     + p0 empty
"""),
    # Numbers of two digits.
    Case("show-one", "".join(f"set r{k},{k}\n" for k in range(1, 8)) + "set r1,0\n" + PASS, (), 0, f"""port 0 accepted
   0      set r1,1    {ENTRY}; r0-r7 <= 0
   1      set r2,2    + r1 <= 1
   2      set r3,3    + r2 <= 2
   3      set r4,4    + r3 <= 3
   4      set r5,5    + r4 <= 4
   5      set r6,6    + r5 <= 5
   6      set r7,7    + r6 <= 6
   7      set r1,0    + r7 <= 7
   8      tx p0,r0,d  + r1 <= 0
   9      exit        + p0 empty
  10  d:  free p0     + {ENTRY}
  11      exit        + p0 empty
"""),
    # Two labels in a line, and in lines of their own; blanks, tabs and carriage returns; a comment with a second # in it; no newline at the end.
    Case("show-one", LABELLED, (), 0, f"""port 0 accepted
  0  one: two:     iflen  p0, 14,short  {ENTRY}; r0-r7 <= 0
  1  three: four:  adj\tp0,14            + p0 first 14
  2                tx p0,r0,short       + p0 headroom 142, first 0
  3                exit                 + p0 empty
  4  short: last:  free p0              + {ENTRY}
  5                exit                 + p0 empty
"""),
)
ASM = """fault: pipeline 6 Asm port 0 line 2 cause 5
  because: line 2: an operand is not a number, or is out of its range
  at: node.dpv:2: adj p0,65536
  help: '65536' has to be a number from 0 to 65535
"""
# What each command prints about a faulty text.
FAULTY = tuple(Case(command, "exit\nadj p0,65536\n", (), 3, "", ASM) for command in ("explain-one", "show-one", "infer-one"))
INFERRED = (
    Case("infer-one", STRIP, (), 0, "dpv-cert 1\n" + "".join(f"{row:0<306}\n" for row in (SOLE, LONGER, SHORTER, NONE, SOLE, NONE))),
    Case("infer-one", "exit\n", (), 1, "port 0 not inferred at 0 by J10\n",
         "  at: node.dpv:1: exit\n  J10: at exit no register holds a packet\n  known:  p0 sole, headroom 128, at most 1 segment\n"
         "  wanted: p0 empty\n  help:   free p0 before it\n"),
    Case("infer-one", "free p0\n", (), 1, "port 0 not inferred at 0 by J3\n",
         "  at: node.dpv:1: free p0\n  J3: the pool, the table, the ring and each label exist\n  known:  the number of instructions is 1\n"
         "  wanted: an instruction with the number 1, from 0\n  help:   end the program with exit or jmp\n"),
)
UNFIT = "  because: the certificate node.cert does not fit the program node.dpv\n"
RUN = (
    Case("one", STRIP, OTHER, 1, "port 0 refused at 1 by J6\n",
         f"{UNFIT}  help: the program itself is accepted with an inferred certificate: dpv infer-one node.dpv > node.cert\n"),
    Case("one", LOST, OTHER, 1, "port 0 refused at 0 by J10\n", f"{UNFIT}  help: dpv explain-one node.dpv node.cert explains why\n"),
)
POOL = "region = 1048576\n[[pool]]\ncount = 64\ncache = 0\nroom = 2176\n"
PIPELINE = POOL + """[[ring]]
count = 2
share = 2
head = 0
tail = 0
first = 20
last = 0
segs = 64
node = "pass.dpv"
[[port]]
pool = 0
segs = 1
queue = 32
node = "pass.dpv"
cert = "pass.cert"
in = "a"
out = "b"
[[port]]
pool = 0
segs = 1
queue = 32
node = "queue.dpv"
in = "c"
out = "d"
[[port]]
pool = 0
segs = 64
queue = 32
node = "long.dpv"
in = "e"
out = "f"
"""
LONG = "alloc p1,0,out\nappend p1,14\nchain p1,p0\ntx p1,r0,full\nexit\nfull: free p1\nexit\nout: free p0\nexit\n"
NODES = (
    f"""port 0 refused at 0 by J11
pass.dpv:1: tx p0,r0,d
  J11: the facts after the instruction satisfy the row of each successor
  known:  {ENTRY}
  wanted: at 2, d: p0 sole, headroom 128, first 1, at most 1 segment
  help:   let dpv infer write the certificate, or test for more before it
""",
    f"""port 1 not inferred at 0 by J9
queue.dpv:1: enq p0,0,d
  J9: the port exists, and the packet satisfies what the ring declares
  known:  {ENTRY}
  wanted: p0 sole, first 20, at most 64 segments
  help:   test for what is missing before it, or let the ring declare less
""",
    """port 2 not inferred at 2 by J8
long.dpv:3: chain p1,p0
  J8: chained packets have at most 64 segments
  known:  p1 at most 1 segment, p0 at most 64 segments
  wanted: at most 64 together
  help:   let the port or ring take packets of fewer segments
""",
    "ring 0 accepted\n",
)
# The words on this pipeline, the status, what is printed and what is reported.
OF_PIPELINE = (
    (["explain", "case.toml"], 1, "".join(NODES), ""),
    (["explain", "case.toml", "port0"], 1, NODES[0], ""),
    (["explain", "case.toml", "port1"], 1, NODES[1], ""),
    (["explain", "case.toml", "ring0"], 0, NODES[3], ""),
    (["explain", "case.toml", "port3"], 2, "", "error: the pipeline has no port 3\n"),
    (["show", "case.toml", "ring0"], 0, """ring 0 accepted
  0      tx p0,r0,d  p0 sole, first 20, at most 64 segments; r0-r7 <= 0
  1      exit        + p0 empty
  2  d:  free p0     + p0 sole, first 20, at most 64 segments
  3      exit        + p0 empty
""", ""),
    (["show", "case.toml", "ring1"], 2, "", "error: the pipeline has no ring 1\n"),
    (["infer", "case.toml", "port4"], 1, "port 1 not inferred at 0 by J9\n", "  help: dpv explain case.toml port1 explains why\n"),
)

# A pipeline of one port with the program STRIP; the words on it, the status, what is printed and what is reported.
ACCEPTED = """region = 262144
[[pool]]
count = 64
cache = 0
room = 2176
[[port]]
pool = 0
segs = 1
queue = 32
node = "strip.dpv"
in = "a"
out = "b"
"""
OF_ACCEPTED = (
    (["check", "accepted.toml"], 0, "port 0 accepted\n", ""),
    (["check", "accepted.toml", "--json"], 0, '{"fault":null,"nodes":[{"node":"port 0","verdict":"accepted"}]}\n', ""),
    (["infer", "accepted.toml", "port0"], 0, INFERRED[0].printed, ""),
    (["infer", "accepted.toml", "ring0"], 2, "", "error: the pipeline has no ring 0\n"),
)

# Programs, and the most labels along which control goes: through STRIP, PASS and LATE not by the first exit; and COUNT has 7 instructions.
LATE = "iflen p0,14,d\nenq p0,0,d\nexit\nd: free p0\nexit\n"
COUNT = "set r1,0\na: add r1,1\njlt r1,200,a\ntx p0,r0,e\nexit\ne: free p0\nexit\n"
TAKES = {"strip.dpv": (STRIP, "5 instructions"), "pass.dpv": (PASS, "3 instructions"), "to0.dpv": (PASS.replace("tx p0,r0", "enq p0,0"), "3 instructions"),
         "to1.dpv": (PASS.replace("tx p0,r0", "enq p0,1"), "3 instructions"), "to2.dpv": (PASS.replace("tx p0,r0", "enq p0,2"), "3 instructions"),
         "late.dpv": (LATE, "4 instructions"), "drop.dpv": ("free p0\nexit\n", "2 instructions"),
         "count.dpv": (COUNT, f"{257 * 7} instructions: it can jump back at 2")}
RING_OF = "[[ring]]\ncount = 2\nshare = 0\nhead = 0\ntail = 0\nfirst = 0\nlast = 0\nsegs = 1\n"
AGAIN = ": there is no bound for all turns in which a packet runs\n"
# The programs of ports and of rings, and what is said after their costs: a turn is one run of the port's program, then up to 32 of those of rings.
COSTS = (
    (["strip.dpv"], [], "the turn of a record takes at most 5 instructions: 5 on port 0\n"),
    (["pass.dpv", "count.dpv", "strip.dpv"], [], f"the turn of a record takes at most {257 * 7} instructions: {257 * 7} on port 1\n"),
    (["to0.dpv"], ["to1.dpv", "drop.dpv"], "the turn of a record takes at most 99 instructions: 3 on port 0, 96 on packets in rings\n"),
    (["pass.dpv"], ["count.dpv"], f"the turn of a record takes at most {3 + 32 * 257 * 7} instructions: 3 on port 0, {32 * 257 * 7} on packets in rings\n"),
    (["to0.dpv", "strip.dpv"], ["to0.dpv"], f"the turn of a record takes at most 101 instructions: 5 on port 1, 96 on packets in rings\nring 0 leads to itself{AGAIN}"),
    # The first of two ports with the same cost, rings that lead to themselves over two others, and one to which the first ring does not lead.
    (["pass.dpv", "strip.dpv", "strip.dpv"], [], "the turn of a record takes at most 5 instructions: 5 on port 1\n"),
    (["drop.dpv"], ["to1.dpv", "to2.dpv", "to0.dpv"], "the turn of a record takes at most 98 instructions: 2 on port 0, 96 on packets in rings\n"
     + "".join(f"ring {k} leads to itself{AGAIN}" for k in range(3))),
    (["pass.dpv"], ["drop.dpv", "to1.dpv"], f"the turn of a record takes at most 99 instructions: 3 on port 0, 96 on packets in rings\nring 1 leads to itself{AGAIN}"),
    (["strip.dpv"], ["to1.dpv", "late.dpv", "to0.dpv"], "the turn of a record takes at most 133 instructions: 5 on port 0, 128 on packets in rings\n"
     f"ring 0 leads to itself{AGAIN}ring 1 leads to itself{AGAIN}"),
)


def costs(ports: list[str], rings: list[str]) -> tuple[str, str]:
    """A pipeline of these programs, and what is said of each."""
    nodes = [(f"port {k}", name) for k, name in enumerate(ports)] + [(f"ring {k}", name) for k, name in enumerate(rings)]
    text = POOL + "".join(f'{RING_OF}node = "{name}"\n' for name in rings)
    text += "".join(f'[[port]]\npool = 0\nsegs = 1\nqueue = 32\nnode = "{name}"\nin = "a"\nout = "b{k}"\n' for k, name in enumerate(ports))
    return text, "".join(f"{node} accepted\n" for node, _ in nodes) + "".join(f"{node} takes at most {TAKES[name][1]}\n" for node, name in nodes)


def turn_in(said: str) -> dict[str, object]:
    """The turn of a record, as a document has it, from what is said of it."""
    found = re.match(r"the turn of a record takes at most (\d+) instructions: \d+ on port (\d)", said)
    return {"cost": int(found[1]), "loops": [int(it) for it in re.findall(r"^ring (\d) leads to itself", said, re.M)], "port": int(found[2])} if found else {}


def cost_cases(program: str, folder: pathlib.Path) -> list[bool]:
    """What check --cost says of these pipelines, and of one with a refused program only the verdict."""
    for name, (text, _) in TAKES.items():
        (folder / name).write_text(text)
    passed = []
    for ports, rings, lines in COSTS:
        text, first = costs(ports, rings)
        (folder / "cost.toml").write_text(text)
        passed.append(is_said(program, folder, ["check", "cost.toml", "--cost"], 0, first + lines, ""))
        ran = subprocess.run([program, "check", "cost.toml", "--cost", "--json"], cwd=folder, capture_output=True, text=True, timeout=60)
        made, _ = said(ran.stdout)
        passed.append(json.loads(made)["turn"] == turn_in(lines))
        if not passed[-1]:
            print(f"judged: the costs of {ports} and {rings}: {made}")
    sizes, _ = said(subprocess.run([program, "check", "cost.toml", "--sizes"], cwd=folder, capture_output=True, text=True, timeout=60).stdout)
    accepted = "".join(line for line in first.splitlines(keepends=True) if line.endswith(" accepted\n"))
    both = first + lines + sizes.removeprefix(accepted)
    passed.append(sizes.startswith(accepted) and is_said(program, folder, ["check", "cost.toml", "--sizes", "--cost"], 0, both, ""))
    (folder / "lost.dpv").write_text(LOST)
    (folder / "cost.toml").write_text(costs(["strip.dpv"], [])[0].replace("strip", "lost"))
    help_line = "  help: dpv explain cost.toml port0 explains why\n"
    passed.append(is_said(program, folder, ["check", "cost.toml", "--cost"], 1, "port 0 not inferred at 0 by J10\n", help_line))
    return passed


# A program that writes at an index, puts a clone into a ring and sends the rest, the program of the ring, and what a trace says of a packet of 16
# bytes and of one of 17.
WRITES = "set r1,15\nset r2,2\niflen p0,16,d\nstorex p0,r2,3,2,r1\nclone p1,p0,0,d\nenq p1,0,e\ntx p0,r0,d\nexit\ne: free p1\nd: free p0\nexit\n"
BEFORE, AFTER = "00 01 02 03 04 05 06 07 08 09 0a 0b 0c 0d 0e 0f", "00 01 02 03 04 00 0f 07 08 09 0a 0b 0c 0d 0e 0f"


def traced(number: int, size: int, before: str, after: str) -> str:
    """What a trace says of a record of this size, whose first bytes these are, before and after the program wrote to it."""
    shape = f"1 segment, {size} bytes, headroom 128, tailroom {2176 - 128 - size}"
    return f"""record {number} port 0 time 1.000002000, {size} bytes
      ethertype 0x0c0d
port 0
      allocation call {2 * number - 1}: made
      p0: {shape}
        {size} bytes: {before}
   0  set r1,15
      r1 = 15 (0xf)
   1  set r2,2
      r2 = 2
   2  iflen p0,16,d
   3  storex p0,r2,3,2,r1
      p0: {shape}
        {size} bytes: {after}
      p0 at 5: 05 06 -> 00 0f
   4  clone p1,p0,0,d
      allocation call {2 * number}: made
      p0: {shape}
        {size} bytes, 2 references: {after}
      p1: {shape}
        {size} bytes, 2 references: {after}
   5  enq p1,0,e
      p1: none
      ring 0: 1 waiting
   6  tx p0,r0,d
      p0: none
      port 0 list: 1 queued
   7  exit
ring 0
      p0: {shape}
        {size} bytes, 2 references: {after}
      ring 0: 0 waiting
   0  free p0
      p0: none
   1  exit
turn received runs 2 cuts 0 steps 10
port 0 sends 1
record {number}: sent to port 0 (port 0, 6), freed (ring 0, 0)
"""


def is_built(program: str, folder: pathlib.Path) -> bool:
    """Whether the help for a program that `dpv build` seems to have written has the segments of its own port."""
    first, second = costs(["pass.dpv", "pass.dpv"], [])[0].rsplit("[[port]]", 1)
    (folder / "built.toml").write_text(f"{first}[[port]]{second.replace('segs = 1', 'segs = 5').replace('pass', 'built')}")
    (folder / "built.dpv").write_text(f"# Built from x.pkt by `dpv build`.\nadj p0,14\n{PASS}")
    cure = "write segments 5 in its source, as the port takes packets of 5 segments, and build it again"
    said = explained("not inferred at 0 by J6", "2: adj p0,14", J6, "p0 first 0", "p0 first 14", cure).replace("port 0", "port 1").replace("node.dpv", "built.dpv")
    return is_said(program, folder, ["explain", "built.toml", "port1"], 1, said, "")


# A program with a packet that has no bytes, and with the greatest number of one digit and the least of two; and what a trace says of them.
NO_BYTES = "set r1,9\nset r2,10\nalloc p1,0,d\nfree p1\nd: free p0\nexit\n"
SAYS_NO_BYTES = """   0  set r1,9
      r1 = 9
   1  set r2,10
      r2 = 10 (0xa)
   2  alloc p1,0,d
      allocation call 2: made
      p1: 1 segment, 0 bytes, headroom 128, tailroom 2048
        0 bytes
   3  free p1
      p1: none
"""


def says_no_bytes(program: str, folder: pathlib.Path) -> bool:
    """Whether a trace says so of these instructions."""
    (folder / "trace.toml").write_text(costs(["pass.dpv"], [])[0].replace("pass", "no_bytes").replace('"a"', '"in.pcap"'))
    (folder / "no_bytes.dpv").write_text(NO_BYTES)
    run = subprocess.run([program, "trace", "trace.toml", "--records", "1"], cwd=folder, capture_output=True, text=True, timeout=60)
    passed = (run.returncode, run.stderr) == (0, "") and f"\n{SAYS_NO_BYTES}   4  d: free p0\n" in run.stdout
    if not passed:
        print(f"judged: a packet without bytes: status {run.returncode}, printed\n{run.stdout}reported\n{run.stderr}")
    return passed


def trace_cases(program: str, folder: pathlib.Path) -> list[bool]:
    """What a trace says of two records, and of the first if there is no buffer for its clone."""
    texts = {"writes.dpv": WRITES, "drop.dpv": "free p0\nexit\n", "trace.toml": costs(["pass.dpv"], ["drop.dpv"])[0].replace("pass", "writes").replace('"a"', '"in.pcap"')}
    for name, text in texts.items():
        (folder / name).write_text(text)
    (folder / "in.pcap").write_bytes(capture(bytes(range(16)), bytes(range(17))))
    said = traced(1, 16, BEFORE, AFTER) + traced(2, 17, f"{BEFORE} ..", f"{AFTER} ..")
    first, clone, _ = traced(1, 16, BEFORE, AFTER).partition("   4  clone p1,p0,0,d\n")
    refused = f"{first}{clone}      allocation call 2: refused\n   9  d: free p0\n      p0: none\n  10  exit\nturn received runs 1 cuts 0 steps 7\nrecord 1: freed (port 0, 9)\n"
    return [
        is_said(program, folder, ["trace", "trace.toml"], 0, said, ""),
        is_said(program, folder, ["trace", "trace.toml", "--records", "1", "--refuse", "2"], 0, refused, ""),
        says_no_bytes(program, folder),
    ]


def certificate(rows: tuple[str, ...]) -> str:
    """The text of a certificate whose rows begin so."""
    return "dpv-cert 1\n" + "".join(f"{row:0<306}\n" for row in rows)


def is_said(program: str, folder: pathlib.Path, words: list[str], status: int, printed: str, reported: str) -> bool:
    """Whether a command ends so. A report may have more lines than those."""
    run = subprocess.run([program, *words], cwd=folder, capture_output=True, text=True, timeout=60)
    out, err = said(run.stdout, run.stderr)
    passed = (run.returncode, out) == (status, printed) and err.startswith(reported) and bool(err) == bool(reported)
    if not passed:
        print(f"judged: {words}: status {run.returncode}, printed\n{out}reported\n{err}")
    return passed


def is_kept(program: str, folder: pathlib.Path, line: str) -> bool:
    """Whether a line of a name that looks like a document is said as it is."""
    return is_said(program, folder, ["check", f"no\n{line}"], 3, "", f"fault: file no\n{line}\n  because: No such file or directory (os error 2)\n")


def is_judged(program: str, folder: pathlib.Path, case: Case) -> bool:
    """Whether a command on one program ends as its case says."""
    (folder / "node.dpv").write_text(case.program)
    words = [case.command, "node.dpv"]
    if case.rows:
        (folder / "node.cert").write_text(certificate(case.rows))
        words.append("node.cert")
    if case.command == "one":
        words += ["in.pcap", "out.pcap"]
    return is_said(program, folder, words, case.status, case.printed, case.reported)


def main() -> int:
    """All cases."""
    program = asked()
    with new_folder() as folder:
        passed = [is_judged(program, folder, case) for case in (*EXPLAINED, *SHOWN, *FAULTY, *INFERRED, *RUN)]
        files = {"case.toml": PIPELINE, "pass.dpv": PASS, "queue.dpv": PASS.replace("tx p0,r0", "enq p0,0"), "long.dpv": LONG,
                 "pass.cert": certificate((SOLE, NONE, ONE_BYTE, NONE)), "accepted.toml": ACCEPTED, "strip.dpv": STRIP}
        for name, text in files.items():
            (folder / name).write_text(text)
        passed += [is_said(program, folder, *case) for case in (*OF_PIPELINE, *OF_ACCEPTED)]
        passed += [is_kept(program, folder, line) for line in FORGED]
        passed.append(is_built(program, folder))
        passed += cost_cases(program, folder) + trace_cases(saying(program, folder), folder)
    return report_cases("judged", passed)


if __name__ == "__main__":
    sys.exit(main())
