#!/usr/bin/env python3
"""Compares what the built program dpv answers about texts, programs and certificates with tables of answers that were worked out by hand.

Usage: tests/program/verdicts.py [PROGRAM]   (the built program; by default the one that ./dpv builds and runs)
Texts of programs and of certificates, and their faults; which programs are accepted with which certificates, and by which rule others are
refused; for which programs a certificate is inferred, and how it is spelled; which facts entail which others, and what is known after each
kind of instruction. Prints a line for each case that failed, and a count; exits with 1 if a case failed.
"""
import pathlib
import sys
from collections.abc import Callable, Iterator, Sequence
from typing import NamedTuple

import paths  # noqa: F401

from command import asked, new_folder, report_cases, run_said
from model.machine import Pool, Port, Ring
from worlds import COUNT, FORWARD, LOOP, MULTICAST, STRIP, Table, World, any_of, put

# Each of the 32 forms at least once.
ALL_FORMS = (
    "ifhead p0,64,out\niftail p0,4,out\niflen p0,14,out\niflast p0,14,out\nload r1,p0,12,2\nand r1,7\nloadx r2,p0,r1,2,4\nstore p0,0,4,r2\n"
    "storex p0,r1,2,4,r2\nset r3,5\nmov r4,r3\nadd r4,r3\nsub r4,1\nor r3,2\nxor r3,r3\nshl r3,1\nshr r3,1\njeq r3,7,out\njlt r3,2,out\n"
    "lookup r5,0,r2,out\nprepend p0,4\nadj p0,4\nappend p0,2\ntrim p0,2\nclone p1,p0,0,out\nfree p1\nalloc p1,0,out\nchain p1,p0\nenq p1,0,drop\n"
    "exit\ndrop: free p1\nexit\nout: jmp end\nend: tx p0,r0,left\nexit\nleft: free p0\nexit\n"
)
# Clones a packet, frees the clone, and stores to the packet, which is sole again.
RESOLE = "clone p1,p0,0,L7\nfree p1\niflen p0,1,L7\nset r1,7\nstore p0,0,1,r1\ntx p0,r0,L7\nexit\nL7:\nfree p0\nexit\n"
DROP = "free p0\nexit\n"

# A pool, a ring, and a port whose packets have one segment or up to 64; and the same with a table, which takes time to make. Then two ports, and a
# pool whose buffers have no room.
SINGLE = World((Pool(64, 0, 2176),), (Port(0, 1, 32),), (any_of(4),))
CHAINED = SINGLE._replace(ports=(Port(0, 64, 32),))
TABLED, CHAINED_TABLED = SINGLE._replace(tables=(Table(1, 0),)), CHAINED._replace(tables=(Table(1, 0),))
PAIR = World((Pool(4, 0, 2176), Pool(4, 0, 0)), (Port(0, 1, 4), Port(0, 1, 4)))
# A ring whose packets are head sole.
HEADED = SINGLE._replace(rings=(Ring(4, (1, 128, 0, 0, 0, 1)),))

# Texts, each with its line and its cause, or nothing if it is a program.
TEXTS: tuple[tuple[str, tuple[int, int] | None], ...] = (
    # a byte in a comment counts too, and before everything else
    ("exit # \x01", (1, 1)),
    ("exit\n\x7fzz p9,,:", (2, 1)),
    ("exit # \t~\r", None),
    # words
    ("exits", (1, 2)),
    ("Exit", (1, 2)),
    ("jmp a:b", (1, 2)),
    ("exit\nfoo p9", (2, 2)),
    # numbers of operands
    ("exit p0", (1, 3)),
    ("free", (1, 3)),
    ("free p0,", (1, 3)),
    ("jmp", (1, 3)),
    ("a:a: exit 5", (1, 3)),
    # registers
    ("free p8", (1, 4)),
    ("free r0", (1, 4)),
    ("free P0", (1, 4)),
    ("free p00", (1, 4)),
    ("set p0,zz", (1, 4)),
    ("iflen r9,zz,7", (1, 4)),
    # numbers
    ("adj p0,65536", (1, 5)),
    ("adj p0,65535\nexit", None),
    ("alloc p0,8,x", (1, 5)),
    ("lookup r0,4,r1,x", (1, 5)),
    ("enq p0,8,x", (1, 5)),
    ("shl r0,64", (1, 5)),
    ("jlt r0,0,x", (1, 5)),
    ("load r0,p0,0,3", (1, 5)),
    ("set r0,0x", (1, 5)),
    ("set r0,0X1", (1, 5)),
    ("set r0,", (1, 5)),
    ("add r0,p0", (1, 5)),
    ("set r0,18446744073709551616", (1, 5)),
    ("set r0,0xFFFFffffFFFFffff", None),
    ("set r0,000000000000000000000000007", None),
    # labels
    ("jmp 7", (1, 6)),
    ("7: exit", (1, 6)),
    ("a :exit", (1, 6)),
    (": exit", (1, 6)),
    ("_abcdefghijklmnopqrstuvwxyz01234: exit", (1, 6)),
    ("_abcdefghijklmnopqrstuvwxyz0123: exit", None),
    ("a:a: exit", (1, 7)),
    ("a: exit\n\na: exit", (3, 7)),
    ("a: exit\nb: a: 7: exit", (2, 6)),
    ("jmp x", (1, 8)),
    ("  tx p0 , r0,x", (1, 8)),
    ("exit\njmp x\njmp y", (2, 8)),
    ("tx p0,r0,d\nd:", (1, 8)),
    # a fault of a later line's own comes before an unknown label
    ("jmp x\nfree p9", (2, 4)),
    ("", (0, 9)),
    ("# nothing\n\na:\n", (0, 9)),
    # blanks, comments and labels
    ("\t a: b:\texit\r\n jmp b # a\n", None),
    ("tx p0,r0,d\nexit\nd: free p0\nexit", None),
    ("tx p0,r0,d\nexit\nd: free p0\nexit\n", None),
    # a program has at most 1,024 instructions
    ("exit\n" * 1024, None),
    ("exit\n" * 1024 + "# a comment\na: a: exit\nexit", (1026, 7)),
    ("exit\n" * 1024 + "a: exit\n", (1025, 9)),
)

# The rows of a certificate: the digits of the facts of p0, p1 and so on, and the last four of r1's bound. All other digits are zeros.
Rows = tuple[tuple[str, str], ...]
V1, V2, V3 = "dpv-cert 1\n", "dpv-cert 2\n", "dpv-cert 3\n"
SOLE, ONE_BYTE, NONE = "010102008000000000000001", "010102008000000001000001", "01"
OF_STRIP: Rows = tuple((row, "0000") for row in (SOLE, "01010200800000000e000001", "010102008e00000000000001", NONE, SOLE, NONE))
LOOSE_PAIR = "0101000080000000000000010100008000000000000001"
OF_RESOLE: Rows = (
    (SOLE, "0000"),
    ("0101080080000000000000010108008000000000000001", "0000"),
    (SOLE, "0000"),
    (ONE_BYTE, "0000"),
    (ONE_BYTE, "0007"),
    (ONE_BYTE, "0007"),
    (NONE, "0007"),
    (SOLE, "0007"),
    (NONE, "0007"),
)
# In a program that counts to 257 r1 is at most 256 before it grows, and 257 after.
OF_COUNT: Rows = tuple(zip((SOLE, SOLE, SOLE, SOLE, NONE, SOLE, NONE), ("0000", "0100", *["0101"] * 5)))


def spelled(head: str, rows: Rows) -> bytes:
    """The text of a certificate."""
    return (head + "".join(f"{facts:0<206}{bound:0<100}\n" for facts, bound in rows)).encode()


def other(rows: Rows, label: int, digits: str) -> Rows:
    """Rows of which one begins with other digits."""
    return (*rows[:label], (digits, rows[label][1]), *rows[label + 1 :])


STRIPPED, RESOLED = spelled(V1, OF_STRIP), spelled(V2, OF_RESOLE)
SEVEN, FIVE = STRIP + "exit\n", STRIP.removesuffix("exit\n")
# Certificates of a program that cannot be read, with the line and the cause.
CERTIFICATES: tuple[tuple[str, bytes, tuple[int, int]], ...] = (
    # lines are counted
    (SEVEN, STRIPPED, (8, 4)),
    (FIVE, STRIPPED, (7, 4)),
    (STRIP, STRIPPED[:1852], (7, 2)),
    (STRIP, STRIPPED[:1546], (7, 4)),
    (STRIP, STRIPPED[:10], (1, 1)),
    (STRIP, STRIPPED + b"\n", (8, 4)),
    (STRIP, b"", (1, 1)),
    ("exit\n", V3.encode(), (1, 1)),
    ("exit\n", b"dpv-cert 0\n", (1, 1)),
    ("exit\n", b"dpv-cert 2", (1, 1)),
    # a short line is no line
    (STRIP, STRIPPED[:316] + STRIPPED[317:], (2, 2)),
    # groups: version 1 has none
    (RESOLE, spelled(V1, OF_RESOLE), (3, 3)),
    (RESOLE, spelled(V3, OF_RESOLE), (1, 1)),
    # digits
    (STRIP, spelled(V1, other(OF_STRIP, 1, "01010200800000000E000001")), (3, 2)),
    (STRIP, spelled(V1, other(OF_STRIP, 1, "01010200800000000g000001")), (3, 2)),
    (STRIP, spelled(V1, other(OF_STRIP, 4, "010102008000000000000000")), (6, 3)),
    (STRIP, spelled(V1, other(OF_STRIP, 4, "010102008000000000000041")), (6, 3)),
    (STRIP, spelled(V1, other(OF_STRIP, 4, "010103008000000000000001")), (6, 3)),
    (STRIP, spelled(V1, other(OF_STRIP, 4, "010202008000000000000001")), (6, 3)),
    (STRIP, spelled(V1, other(OF_STRIP, 4, "010002008000000000000001")), (6, 3)),
    (STRIP, spelled(V1, other(OF_STRIP, 0, "020102008000000000000001")), (2, 3)),
    (STRIP, spelled(V1, other(OF_STRIP, 0, "000102008000000000000001")), (2, 3)),
    (STRIP, spelled(V1, other(OF_STRIP, 4, "01010200800000000000000A")), (6, 2)),
    # a group has two packets or more, and its least register names it
    (RESOLE, spelled(V2, other(OF_RESOLE, 1, "010108008000000000000001")), (3, 3)),
    (RESOLE, spelled(V2, other(OF_RESOLE, 1, "0101090080000000000000010109008000000000000001")), (3, 3)),
)


# What is asked, what is answered, and what should be.
Cases = Iterator[tuple[str, object, object]]


class Asked(NamedTuple):
    """A program of port 0; its certificate, or another program for whose certificate it is handed in with; and the answer."""

    world: World
    program: str
    cert: bytes | str
    answer: str


def ending(text: str) -> str:
    """A program at whose label d the packet is freed."""
    return f"{text}\nd: free p0\nexit\n"


ACCEPTED = "accepted"
# At the entry, and with a bound below the next: the last digit of line 2 says that r7 is at most 1.
ENTRY_ROW, BOLD = spelled(V1, ((SOLE, "0000"),)), STRIPPED[:316] + b"1" + STRIPPED[317:]
VERDICTS = (
    # strip with its certificate, in both versions, and two others with theirs
    Asked(SINGLE, STRIP, STRIPPED, ACCEPTED),
    Asked(SINGLE, STRIP, spelled(V2, OF_STRIP), ACCEPTED),
    Asked(SINGLE, RESOLE, RESOLED, ACCEPTED),
    Asked(SINGLE, COUNT, spelled(V1, OF_COUNT), ACCEPTED),
    # strip with other rows
    Asked(SINGLE, STRIP, spelled(V1, other(OF_STRIP, 0, "")), "refused at 0 by J2"),
    Asked(SINGLE, STRIP, spelled(V1, other(OF_STRIP, 0, "010102008100000000000001")), "refused at 0 by J2"),
    Asked(SINGLE, STRIP, spelled(V1, other(OF_STRIP, 1, "01010200800000000f000001")), "refused at 0 by J11"),
    Asked(SINGLE, STRIP, spelled(V1, other(OF_STRIP, 3, "")), "refused at 2 by J11"),
    Asked(SINGLE, STRIP, BOLD, "refused at 0 by J11"),
    # a packet is sole again, but not by rows without groups, which version 1 can have
    Asked(SINGLE, RESOLE, spelled(V1, other(OF_RESOLE, 1, LOOSE_PAIR)), "refused at 1 by J11"),
    # programs of one instruction
    Asked(SINGLE, "free p0\n", ENTRY_ROW, "refused at 0 by J3"),
    Asked(SINGLE, "exit\n", ENTRY_ROW, "refused at 0 by J10"),
    Asked(SINGLE, "a: jmp a\n", ENTRY_ROW, ACCEPTED),
    # places that are not there
    Asked(SINGLE, ending("clone p1,p0,1,d\nfree p1"), ending("clone p1,p0,0,d\nfree p1"), "refused at 0 by J3"),
    Asked(TABLED, ending("lookup r1,1,r2,d\nadd r1,1"), ending("lookup r1,0,r2,d\nadd r1,1"), "refused at 0 by J3"),
    Asked(SINGLE, ending("enq p0,1,d\nexit"), ending("enq p0,0,d\nexit"), "refused at 0 by J3"),
    # each rule of an instruction once
    Asked(CHAINED, "free p1\nexit\n", DROP, "refused at 0 by J4"),
    Asked(CHAINED, ending("alloc p1,0,d\nalloc p1,0,e\nfree p2\ne: free p1"), ending("alloc p1,0,d\nalloc p2,0,e\nfree p2\ne: free p1"), "refused at 1 by J5"),
    Asked(
        CHAINED, ending("alloc p1,0,d\nclone p1,p0,0,e\nfree p2\ne: free p1"), ending("alloc p1,0,d\nclone p2,p0,0,e\nfree p2\ne: free p1"), "refused at 1 by J5"
    ),
    Asked(CHAINED, ending("iflen p0,14,d\nadj p0,15"), ending("iflen p0,14,d\nadj p0,14"), "refused at 1 by J6"),
    Asked(CHAINED, ending("iflen p0,14,d\nsub r1,1\nloadx r2,p0,r1,1,8"), ending("iflen p0,14,d\nsub r1,1\nloadx r2,p0,r2,1,8"), "refused at 2 by J6"),
    Asked(CHAINED, ending("clone p1,p0,0,d\nprepend p0,1\nfree p1"), ending("clone p1,p0,0,d\nadj p0,0\nfree p1"), "refused at 1 by J7"),
    Asked(CHAINED, ending("alloc p1,0,d\nchain p0,p1"), ending("alloc p1,0,d\nfree p1"), "refused at 1 by J8"),
    Asked(CHAINED, ending("set r1,1\ntx p0,r1,d\nexit"), ending("set r1,1\ntx p0,r0,d\nexit"), "refused at 1 by J9"),
    Asked(CHAINED, ending("alloc p1,0,d\nexit"), ending("alloc p1,0,d\nfree p1"), "refused at 1 by J10"),
    Asked(
        CHAINED, ending("clone p1,p0,0,d\niflen p0,4,c\nstore p0,0,4,r0\nc: free p1"), ending("alloc p1,0,d\niflen p0,4,c\nstore p0,0,4,r0\nc: free p1"),
        "refused at 0 by J11",
    ),
    # a buffer without room
    Asked(PAIR, ending("alloc p1,1,d\nappend p1,0\nfree p1"), ending("alloc p1,1,d\nappend p1,0\nfree p1"), ACCEPTED),
    Asked(PAIR, ending("alloc p1,1,d\nappend p1,1\nfree p1"), ending("alloc p1,1,d\nappend p1,0\nfree p1"), "refused at 1 by J6"),
)


class Node(NamedTuple):
    """A program, and what is inferred for it: a certificate in any version ("any") or in version 2 ("2"), or none by a rule ("J6") or by any ("no")."""

    program: str
    found: str


# The greatest number, and programs by environment and node.
BIGGEST = 2**64 - 1
INFERRED: tuple[tuple[World, str, tuple[Node, ...]], ...] = (
    (
        SINGLE,
        "port0",
        (
            Node(FORWARD, "any"),
            Node(LOOP, "any"),
            # after one of three packets of a group is sent, the other two are loose: storing to one of them is refused
            Node("iflen p0,1,a\nclone p1,p0,0,a\nclone p2,p0,0,b\nfree p1\nfree p2\nstore p0,0,1,r1\na: free p0\nexit\nb: free p1\nfree p0\nexit\n", "any"),
            Node(
                "iflen p0,1,a\nclone p1,p0,0,a\nclone p2,p0,0,b\ntx p1,r0,c\nfree p2\nstore p0,0,1,r1\na: free p0\nexit\nc: free p2\n"
                "b: free p1\nfree p0\nexit\n",
                "no",
            ),
            Node(
                "iflen p0,1,a\nclone p1,p0,0,a\nclone p2,p0,0,b\ntx p1,r0,c\nfree p2\na: free p0\nexit\nc: free p2\nb: free p1\nfree p0\nexit\n", "any"
            ),
            # loops that clone a packet, free the clone and store to the packet, which is sole again each time
            Node(ending("iflen p0,1,d\nset r1,0\na: store p0,0,1,r1\nclone p1,p0,0,d\nfree p1\nadd r1,1\njlt r1,5,a"), "2"),
            Node(
                "iflen p0,1,d\nset r1,0\na: store p0,0,1,r1\nclone p1,p0,0,d\nclone p2,p0,0,c\nfree p1\nadd r1,1\nfree p2\n"
                "jlt r1,5,a\nd: free p0\nexit\nc: free p1\nstore p0,0,1,r1\njmp d\n",
                "2",
            ),
            Node(ending("iflen p0,1,d\nset r1,0\na: store p0,0,1,r1\nclone p1,p0,0,d\ntx p1,r0,c\njmp a\nc: free p1"), "no"),
            # walks over the options of a header
            Node(
                "iflen p0,60,d\nset r2,20\na: jlt r2,40,w\njmp e\nw: loadx r3,p0,r2,0,1\njeq r3,0,e\njeq r3,1,n\n"
                "loadx r4,p0,r2,1,1\njeq r4,0,e\nadd r2,r4\njmp a\nn: add r2,1\njmp a\ne: tx p0,r0,d\nexit\nd: free p0\nexit\n",
                "any",
            ),
            # searches for a byte
            Node(
                ending("iflen p0,64,d\nset r1,0\na: loadx r2,p0,r1,0,1\njeq r2,126,f\nadd r1,1\njlt r1,64,a\njmp d\nf: tx p0,r0,d\nexit"), "any"
            ),
            # takes a buffer as soon as there is one
            Node("a: alloc p1,0,a\ntx p1,r0,b\nc: free p0\nexit\nb: free p1\njmp c\n", "any"),
            # asks for a buffer three times
            Node(ending("set r1,0\na: alloc p1,0,b\nchain p0,p1\nc: tx p0,r0,d\nexit\nb: add r1,1\njlt r1,3,a\njmp c"), "any"),
            # sends four copies
            Node("set r1,0\na: clone p1,p0,0,d\ntx p1,r0,b\nadd r1,1\njlt r1,4,a\nd: free p0\nexit\nb: free p1\njmp d\n", "any"),
            # takes tags off while there are some
            Node(ending("a: iflen p0,18,d\nload r1,p0,12,2\njeq r1,33024,t\ntx p0,r0,d\nexit\nt: adj p0,4\njmp a"), "any"),
            # puts three labels in front
            Node(ending("set r1,0\na: ifhead p0,4,d\nprepend p0,4\nstore p0,0,4,r1\nadd r1,1\njlt r1,3,a\ntx p0,r0,d\nexit"), "any"),
            # copies bytes to another packet
            Node(
                "iflen p0,64,d\nalloc p1,0,d\nappend p1,64\nset r1,0\na: loadx r2,p0,r1,0,1\nstorex p1,r1,0,1,r2\n"
                "add r1,1\njlt r1,64,a\ntx p1,r0,b\nd: free p0\nexit\nb: free p1\njmp d\n",
                "any",
            ),
            # adds up the words of a header: bounds cannot say that numbers are even
            Node(ending("iflen p0,20,d\nset r1,0\na: loadx r3,p0,r1,0,2\nadd r2,r3\nadd r1,2\njlt r1,20,a"), "J6"),
            # adds them up where a byte more is there
            Node(ending("iflen p0,21,d\nset r1,0\na: loadx r3,p0,r1,0,2\nadd r2,r3\nadd r1,2\njlt r1,20,a"), "any"),
            # counts down: nothing is known of a difference
            Node(ending("iflen p0,16,d\nset r1,16\na: sub r1,1\nloadx r2,p0,r1,0,1\njeq r1,0,d\njmp a"), "J6"),
            # counts down, and cuts the number to its bits
            Node(ending("iflen p0,16,d\nset r1,16\na: sub r1,1\nand r1,15\nloadx r2,p0,r1,0,1\njeq r1,0,d\njmp a"), "any"),
            # goes up to a number from the packet: a test for unequal numbers says nothing about either
            Node(ending("iflen p0,255,d\nload r1,p0,0,1\nset r2,0\na: jeq r2,r1,d\nloadx r3,p0,r2,0,1\nadd r2,1\njmp a"), "J6"),
            # chains four buffers: no number of segments is stable
            Node(ending("set r1,0\na: alloc p1,0,d\nchain p0,p1\nadd r1,1\njlt r1,4,a"), "J8"),
        ),
    ),
    (TABLED, "port0", (Node(ALL_FORMS, "any"),)),
    (SINGLE, "ring0", (Node(LOOP, "any"),)),
    (PAIR, "port0", (Node(MULTICAST, "any"),)),
    (
        CHAINED,
        "port0",
        (
            # no certificate serves, for each rule
            Node("free p0\n", "J3"),
            Node("free p1\nexit\n", "J4"),
            Node("alloc p0,0,d\nd: free p0\nexit\n", "J5"),
            Node("adj p0,1\nfree p0\nexit\n", "J6"),
            Node(ending("clone p1,p0,0,d\nprepend p0,1\nfree p1"), "J7"),
            Node(ending("alloc p1,0,d\nchain p0,p1"), "J8"),
            Node(ending("set r1,1\ntx p0,r1,d\nexit"), "J9"),
            Node("exit\n", "J10"),
            Node("iflen p0,1,d\nfree p0\nd: exit\n", "J11"),
            # jumps to itself
            Node("a: jmp a\n", "any"),
            # a bound that grows up to a test
            Node(COUNT, "any"),
            Node(COUNT.replace("257", "258"), "any"),
            # two of them, one inside the other
            Node("set r1,0\na: set r2,0\nb: add r2,3\njlt r2,50,b\nadd r1,1\njlt r1,9,a\nfree p0\nexit\n", "any"),
            # bytes at an offset that grows
            Node(ending("iflen p0,64,d\nset r1,0\na: loadx r2,p0,r1,0,1\nstorex p0,r1,0,1,r2\nadd r1,1\njlt r1,64,a"), "any"),
            # a packet that gets shorter
            Node(ending("a: iflen p0,14,d\nadj p0,14\njmp a"), "any"),
            # one that gets longer, by a test
            Node(ending("a: ifhead p0,4,d\nprepend p0,4\nstore p0,0,4,r1\njmp a"), "any"),
            # tries until there is a buffer
            Node("a: alloc p1,0,a\nfree p1\nfree p0\nexit\n", "any"),
            # clones until it is refused
            Node(ending("a: clone p1,p0,0,d\nfree p1\njmp a"), "any"),
            # tries until the list takes the packet
            Node("a: tx p0,r0,a\nexit\n", "any"),
            Node("a: enq p0,0,b\nexit\nb: jmp a\n", "any"),
            # back to a label that control had not reached before
            Node("jmp b\na: free p0\nexit\nb: iflen p0,1,a\njmp a\n", "any"),
            # a packet is lost, or taken twice
            Node("a: free p0\njmp a\n", "no"),
            Node(ending("a: alloc p1,0,d\njmp a"), "no"),
            Node("a: adj p0,1\njmp a\n", "no"),
            Node("a: add r0,1\ntx p0,r0,a\nexit\n", "no"),
        ),
    ),
    # look-ups
    (CHAINED_TABLED, "port0", (Node(ending("set r1,5\na: lookup r1,0,r1,d\njmp a"), "any"),)),
)
# Programs of 1,024 or nearly as many instructions, and the numbers of rows and of bytes of their certificates.
LONGEST = (
    ("add r1,3\n" * 1022 + DROP, 1024, 314_379),
    # each label leads back to the first, with its own bound
    ("a: set r1,0\n" + "add r1,3\njlt r1,7,a\n" * 510 + DROP, 1023, 314_072),
    # constants of all sizes, and no test that keeps the bound
    ("a: add r1,1\n" + "".join(f"set r2,{k}000\n" for k in range(1022)) + "jmp a\n", 1024, 314_379),
)
# Programs, and the certificates that are inferred for them.
SPELLED = ((STRIP, STRIPPED), (RESOLE, RESOLED), (COUNT, spelled(V1, OF_COUNT)))


def fact(share: int, head: int = 128, tail: int = 0, first: int = 0, last: int = 0) -> str:
    """The digits of what is known of a packet in one segment."""
    return f"01{share:02x}{head:04x}{tail:04x}{first:04x}{last:04x}01"


# Facts of which the first entails the second; what is known of a packet at the entry; the same loose, and in the group of p0; and no packet.
STRONG, WEAK = fact(2, 128, 10, 14, 14), fact(1, 100, 10, 0, 14)
PORT, LOOSE, OF_P0, EMPTY = fact(2), fact(0), fact(8), 22 * "0"
# Rows: their digits without the zeros at the end. A dead one, and one in which r7 is at most 1.
DEAD, AT_PORT = "", f"01{PORT}"
BOUNDED = f"{AT_PORT:0<305}1"
SOLES, APART, TWO, THREE, ONE_APART = (f"01{''.join(facts)}" for facts in ((PORT,) * 2, (LOOSE,) * 2, (OF_P0,) * 2, (OF_P0,) * 3, (OF_P0, OF_P0, LOOSE)))
# Two rows, and whether the first entails the second.
ENTAILED = (
    (f"01{STRONG}", f"01{WEAK}", True),
    (f"01{WEAK}", f"01{STRONG}", False),
    (f"01{STRONG}", f"01{EMPTY}", False),
    (f"01{EMPTY}", f"01{STRONG}", False),
    (f"01{EMPTY}", f"01{EMPTY}", True),
    (AT_PORT, AT_PORT, True),
    (AT_PORT, DEAD, False),
    (AT_PORT, BOUNDED, True),
    (BOUNDED, AT_PORT, False),
    # groups
    (TWO, TWO, True),
    (TWO, APART, True),
    (APART, TWO, False),
    (SOLES, TWO, False),
    (THREE, ONE_APART, False),
)
# The share of a packet that may have a byte, the second packet of its group, and whether it owns its head: so that it may be written.
OWNERS = ((0, "", False), (1, "", True), (2, "", True), (8, fact(8), False))
# What is known of two packets when the second, of which nothing is known, is chained to the first: whether that is head sole then.
CHAINS = ((0, False), (1, True), (2, True))


class Step(NamedTuple):
    """A program, a label, and what `show` says is known there, beside what is known at the label before it."""

    program: str
    label: int
    known: str
    world: World = SINGLE
    node: str = "port0"


CLONED, OF_GROUP = "clone p1,p0,0,d\n", "in group p0, headroom 128, at most 1 segment"
CLONED_TWICE, UNDONE = f"{CLONED}clone p2,p0,0,c\n", ending("c: free p1")
STEPS = (
    Step(ending("iflen p0,14,d\njmp d"), 1, "+ p0 first 14"),
    Step(ending("adj p0,14\njmp d"), 1, "+ p0 headroom 142"),
    Step(ending("alloc p1,0,d\nfree p1"), 1, "+ p1 sole, headroom 128, tailroom 2048, at most 1 segment"),
    Step(DROP, 1, "+ p0 empty"),
    Step("exit\nd: exit\n", 1, "never reached"),
    # a clone, a free and a send change groups
    Step(ending(f"{CLONED}free p1"), 1, f"+ p0 in group p0; p1 {OF_GROUP}"),
    Step(f"{CLONED}clone p2,p1,0,c\nfree p2\n{UNDONE}", 2, f"+ p2 {OF_GROUP}"),
    Step(f"{CLONED_TWICE}free p0\nclone p0,p2,0,e\nfree p0\ne: free p1\nfree p2\nexit\n{UNDONE}", 4, f"+ p0 {OF_GROUP}; p1 in group p0; p2 in group p0"),
    Step(ending(f"{CLONED}free p1"), 1, "+ p0 loose; p1 loose, headroom 128, at most 1 segment", HEADED, "ring0"),
    Step(ending(f"{CLONED}free p1\nadd r1,0"), 2, "+ p0 sole; p1 empty"),
    Step(ending(f"{CLONED}free p0\nfree p1\nexit"), 2, "+ p0 empty; p1 sole"),
    Step(f"{CLONED_TWICE}free p0\nfree p1\nfree p2\nexit\n{UNDONE}", 3, "+ p0 empty; p1 in group p1; p2 in group p1"),
    Step(f"{CLONED_TWICE}tx p0,r0,e\nfree p1\nfree p2\nexit\ne: free p2\n{UNDONE}", 3, "+ p0 empty; p1 loose; p2 loose"),
    # one that is left of a group is sole; another group stays as it is
    Step(f"{CLONED_TWICE}free p0\nfree p2\nfree p1\nexit\n{UNDONE}", 4, "+ p1 sole; p2 empty"),
    Step(f"{CLONED_TWICE}free p0\nalloc p0,0,e\nclone p3,p0,0,f\nfree p3\nf: free p0\ne: free p1\nfree p2\nexit\n{UNDONE}", 6, "+ p0 sole; p3 empty"),
    # where ways come together, a group stays if both have it with the same registers
    Step(f"{CLONED}jeq r1,0,a\na: free p1\nd: free p0\nexit\n", 2, "as before"),
    Step(f"{CLONED}jeq r1,0,a\nclone p2,p0,0,a\na: free p1\nd: free p0\nexit\n", 3, "+ p0 loose; p1 loose"),
    # the bounds of numbers
    Step(f"set r0,9\n{DROP}", 1, "+ r0 <= 9"),
    Step(f"add r0,{BIGGEST}\n{DROP}", 1, "+ r0 any"),
    Step(f"sub r0,1\n{DROP}", 1, "+ r0 any"),
    Step(f"and r0,7\n{DROP}", 1, "as before"),
    Step(f"or r0,300\n{DROP}", 1, "+ r0 <= 511"),
    Step(f"xor r0,{BIGGEST}\n{DROP}", 1, "+ r0 any"),
    Step(f"shl r0,63\n{DROP}", 1, "as before"),
    Step(f"shr r0,1\n{DROP}", 1, "as before"),
)


class Asking:
    """A program dpv in a folder, where it is asked about one node program after another."""

    def __init__(self, program: str, folder: pathlib.Path) -> None:
        self.program, self.folder = program, folder

    def put(self, world: World, program: str, cert: bytes | None = None, node: str = "port0") -> None:
        """Writes a pipeline with this program for a node; those of all others drop their packets."""
        place = len(world.ports) if node == "ring0" else 0
        nodes = [DROP] * (len(world.ports) + len(world.rings))
        nodes[place] = program
        put(self.folder, world, nodes, {} if cert is None else {place: cert})

    def ask(self, *words: str) -> str:
        """What a command prints, and its fault, if there is one."""
        run = run_said([self.program, *words], cwd=self.folder, capture_output=True, text=True, timeout=600)
        return run.stdout + (run.stderr.partition("\n")[0] if run.stderr.startswith("fault: ") else "")

    def of_program(self, text: str, cert: bytes | None = None) -> str:
        """What is said first of a program by itself."""
        (self.folder / "one.dpv").write_bytes(text.encode("latin-1"))
        (self.folder / "one.cert").write_bytes(cert or b"")
        return self.ask("explain-one", "one.dpv", *["one.cert"] * (cert is not None)).partition("\n")[0]

    def verdict(self, world: World, program: str, cert: bytes, node: str = "port0") -> str:
        """What is answered about a program with a certificate; `accepted` if all nodes are."""
        self.put(world, program, cert, node)
        came = self.ask("check", "it.toml")
        nodes = [f"port {k}" for k in range(len(world.ports))] + [f"ring {k}" for k in range(len(world.rings))]
        return ACCEPTED if came == "".join(f"{it} accepted\n" for it in nodes) else came.removeprefix(f"{node[:-1]} {node[-1]} ").strip()

    def infer(self, world: World, program: str, node: str = "port0") -> str:
        """The certificate that is inferred for a program, or why there is none."""
        self.put(world, program, None, node)
        return self.ask("infer", "it.toml", node)


def of_texts(asking: Asking) -> Cases:
    """The texts of programs and of certificates."""
    for text, fault in TEXTS:
        came = asking.of_program(text)
        if fault is None:
            yield f"the program {text[:60]!r}: {came}", came.startswith("port 0 "), True
        else:
            yield f"the text {text[:60]!r}", came, f"fault: pipeline 6 Asm port 0 line {fault[0]} cause {fault[1]}"
    for program, cert, (line, cause) in CERTIFICATES:
        yield f"a certificate {cert[:60]!r} of {program!r}", asking.of_program(program, cert), f"fault: pipeline 7 BadCert port 0 line {line} cause {cause}"


def of_verdicts(asking: Asking) -> Cases:
    """Programs with certificates."""
    for row in VERDICTS:
        cert = row.cert if isinstance(row.cert, bytes) else asking.infer(row.world, row.cert).encode()
        yield f"{row.program!r} with {row.cert!r}", asking.verdict(row.world, row.program, cert), row.answer


def is_found(asking: Asking, world: World, node: str, row: Node) -> bool:
    """Whether what is inferred is what a row says, and the program is accepted with it."""
    came = asking.infer(world, row.program, node)
    if row.found == "no" or row.found.startswith("J"):
        start, _, rule = came.partition(" by ")
        return start.startswith(f"{node[:-1]} {node[-1]} not inferred at ") and row.found in ("no", rule.strip())
    return came.startswith(f"dpv-cert {row.found if row.found == '2' else ''}") and asking.verdict(world, row.program, came.encode(), node) == ACCEPTED


def of_inferences(asking: Asking) -> Cases:
    """What is inferred."""
    for world, node, rows in INFERRED:
        for row in rows:
            yield f"{row.program!r} of {node}", is_found(asking, world, node, row), True
    for program, count, size in LONGEST:
        cert = asking.infer(SINGLE, program)
        yield f"a long program {program[:30]!r}", (cert.count("\n") - 1, len(cert), asking.verdict(SINGLE, program, cert.encode())), (count, size, ACCEPTED)
    for program, wanted in SPELLED:
        yield f"the certificate of {program!r}", asking.infer(SINGLE, program).encode(), wanted


def answer_at(asking: Asking, instr: str, row: str, after: str) -> str:
    """What is answered if instruction 1 is this one, with this row, and leads to instruction 2 with that row, to which control never comes."""
    cert = V2 + "".join(f"{it:0<306}\n" for it in (AT_PORT, row, after, AT_PORT, NONE))
    return asking.verdict(SINGLE, f"jmp e\n{instr}\nb: jmp b\ne: free p0\nexit\n", cert.encode())


def of_rows(asking: Asking) -> Cases:
    """Which rows entail which, who owns the head of a packet, and what is known after instructions."""
    for row, beside, is_so in ENTAILED:
        yield f"{row} and {beside}", answer_at(asking, "jmp b", row, beside), ACCEPTED if is_so else "refused at 1 by J11"
    for share, second, is_so in OWNERS:
        row = f"01{fact(share, first=1)}{second}"
        yield f"a store to share {share}", answer_at(asking, "store p0,0,1,r0", row, row), ACCEPTED if is_so else "refused at 1 by J7"
    for share, is_so in CHAINS:
        after = f"01{fact(1)[:-2]}02"
        yield f"a chain to share {share}", answer_at(asking, "chain p0,p1", f"01{fact(share)}{LOOSE}", after), ACCEPTED if is_so else "refused at 1 by J11"
    for step in STEPS:
        asking.put(step.world, step.program, None, step.node)
        lines = dict(enumerate(asking.ask("show", "it.toml", step.node).splitlines(), -1))
        yield f"label {step.label} of {step.program!r}", lines.get(step.label, "").rpartition("  ")[2], step.known


def all_hold(asking: Asking, parts: Sequence[Callable[[Asking], Cases]] = (of_texts, of_verdicts, of_inferences, of_rows)) -> list[bool]:
    """Whether each case is as it should be."""
    passed = []
    for part in parts:
        for asks, came, wanted in part(asking):
            passed.append(came == wanted)
            if not passed[-1]:
                print(f"verdicts: {asks}: {str(came)[:300]!r}, and not {str(wanted)[:300]!r}")
    return passed


def main() -> int:
    """All tables."""
    with new_folder() as folder:
        passed = all_hold(Asking(asked(), folder))
    return report_cases("verdicts", passed)


if __name__ == "__main__":
    sys.exit(main())
