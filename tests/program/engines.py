#!/usr/bin/env python3
"""Compares what runs of the built program dpv send and report with scripts that were written by hand.

Usage: tests/program/engines.py [PROGRAM]   (the built program; by default the one that ./dpv builds and runs)
Each script is a pipeline in a region that is exactly as large as it needs, and the records of its ports: what is sent for each, what `dpv run`
reports at the end, and where the script has it how many node runs, cuts and instructions `dpv trace` shows. Then packets that wait in a list while
a writer fails: at each byte, however many it takes at once. Then how many bytes pipelines need. tests/random/fuzz_compiled.py runs the
scripts with a program that has three of their node programs as machine code. Prints a line for each case that failed, and a count; exits with 1
if a case failed.
"""
import json
import os
import pathlib
import re
import resource
import signal
import subprocess
import sys
from collections.abc import Iterator, Sequence
from typing import NamedTuple

import paths  # noqa: F401

from command import asked, fixed, new_folder, put_library, report_cases, run_said
from faults import HEADER, capture
from model.machine import Pool, Port
from worlds import COUNT, FORWARD, LOOP, MULTICAST, STRIP, Table, World, any_of, put

# A pool of 64 buffers, and a port whose packets have one segment; and pools with one, two and four, the last with a transmit list of four slots.
ONE = World((Pool(64, 0, 2176),), (Port(0, 1, 32),))
ONE_BUFFER, TWO_BUFFERS = ONE._replace(pools=(Pool(1, 0, 2176),)), ONE._replace(pools=(Pool(2, 0, 2176),))
SMALL = World((Pool(4, 0, 2176),), (Port(0, 1, 4),))
# A transmit list of two slots, which takes one packet.
SHORT_LIST = ONE._replace(ports=(Port(0, 1, 2),))
# Six buffers of 192 bytes, and a port whose packets have up to four segments; the same with a cache, with eight buffers, and with two ports.
SEGMENTED = World((Pool(6, 0, 192),), (Port(0, 4, 4),))
DOUBLED = SEGMENTED._replace(ports=(Port(0, 4, 4),) * 2)
CACHED, LARGER = SEGMENTED._replace(pools=(Pool(6, 4, 192),)), SEGMENTED._replace(pools=(Pool(8, 0, 192),))
# Four buffers and two ports; and a second pool with buffers without room.
CROSSED = World((Pool(4, 0, 2176),), (Port(0, 1, 4),) * 2)
PAIR = CROSSED._replace(pools=(Pool(4, 0, 2176), Pool(4, 0, 0)))
# Four buffers, a port and a ring with two slots; and a table with two rules.
RINGED = World((Pool(4, 0, 2176),), (Port(0, 1, 2),), (any_of(2),))
ROUTED = RINGED._replace(tables=(Table(4, 1, ("10.0.0.0/8 1", "10.1.2.128/25 2")),))
# Eight pools of eight buffers, all but the last with a cache, four tables, eight rings and eight ports.
EIGHT = World(
    (Pool(8, 4, 2176),) * 7 + (Pool(8, 0, 2176),),
    tuple(Port(k, 1, 2) for k in range(8)),
    (any_of(2),) * 8,
    tuple(Table(1, 0, (f"10.0.0.0/8 {k}",)) for k in range(1, 5)),
)


# What is asked, what came, and what should.
Cases = Iterator[tuple[str, object, object]]


class Turn(NamedTuple):
    """A record that a port receives, the ports to which packets are sent for it and their bytes, and what `dpv trace` says of the turn, if that is asked."""

    record: bytes
    sent: tuple[tuple[int, bytes], ...]
    port: int = 0
    said: str = ""


class Script(NamedTuple):
    """An environment, the programs of its ports and then of its rings, and the records; and what is reported: the numbers of allocation calls and of
    node runs that were cut, and how many packets are left in each ring. Then all buffers are free. `refused` is the call that is refused, from 1."""

    world: World
    nodes: tuple[str, ...]
    turns: tuple[Turn, ...]
    calls: int
    cut: int = 0
    left: tuple[int, ...] = ()
    refused: int = 0


def sends(record: bytes, *sent: bytes, said: str = "") -> Turn:
    """A record of port 0, which sends these."""
    return Turn(record, tuple((0, it) for it in sent), said=said)


def looped(program: str, cuts: int, steps: int, *sent: bytes) -> Script:
    """A program that gets three records: how many node runs of each are cut, how many instructions it runs, and what it sends."""
    turn = sends(bytes([7] * 6), *sent, said=f"received runs 1 cuts {cuts} steps {steps}")
    return Script(ONE, (program,), (turn,) * 3, 3, 3 * cuts)


SEVENS, EIGHTS = bytes([7] * 6), bytes([8] * 6)
RECORD = bytes([0xF0, 0xF1, 2, 3, 4, 0xF5, 0xF6, 0xF7, 0xF8, 0xF9, 10, 11, 12, 13, 14, 15])
FIVE = RECORD[:5]
# Sends the packet and a clone of it.
BOTH = "clone p1,p0,0,no\nadj p1,0\ntx p0,r0,full\ntx p1,r0,second\nexit\nfull: free p0\nsecond: free p1\nexit\nno: free p0\nexit\n"
# Sends four new bytes and then those of the packet.
PREFIXED = (
    "alloc p1,0,no\nappend p1,4\nset r1,0x0a0b0c0d\nstore p1,0,4,r1\nchain p1,p0\ntx p1,r0,full\nexit\nno: free p0\nexit\nfull: free p1\nexit\n"
)
# Sends the packet, and frees its clone; sends the clone, after the packet is freed; or the packet without its first byte if there is no clone.
CLONE_FREED = "clone p1,p0,0,no\ntx p0,r0,full\nfree p1\nexit\nfull: free p1\nno: free p0\nexit\n"
CLONE_SENT = "clone p1,p0,0,no\nfree p0\ntx p1,r0,full\nexit\nfull: free p1\nexit\nno: free p0\nexit\n"
CUT = "iflen p0,1,drop\nadj p0,1\ntx p0,r0,drop\nexit\n"
CLONE_OR_CUT = f"clone p1,p0,0,no\nfree p0\ntx p1,r0,full\nexit\nfull: free p1\nexit\nno: {CUT}drop: free p0\nexit\n"
# Each form without packets. The result is written as eight bytes.
NUMBERS = (
    "iflen p0,64,no\nset r1,18446744073709551615\nadd r1,2\nstore p0,0,8,r1\nset r2,3\nsub r2,5\nstore p0,8,8,r2\n"
    "mov r3,r2\nand r3,65280\nstore p0,16,8,r3\nor r3,15\nstore p0,24,8,r3\nxor r3,r2\nstore p0,32,8,r3\n"
    "shl r3,60\nstore p0,40,8,r3\nshr r2,63\nstore p0,48,8,r2\njeq r1,r3,no\njeq r1,r2,equal\njmp no\n"
    "equal: jlt r1,1,no\njlt r1,2,below\njmp no\nbelow: sub r0,r1\nstore p0,56,8,r0\nset r0,0\ntx p0,r0,no\nexit\nno: free p0\nexit\n"
)
WRAPPED = bytes.fromhex(
    "0000000000000001 fffffffffffffffe 000000000000ff00 000000000000ff0f ffffffffffff00f1 1000000000000000 0000000000000001 ffffffffffffffff"
)
# The first packet goes into the ring; its clone finds the ring full and is sent; a third finds both full.
THREE = (
    "clone p1,p0,0,b\nclone p2,p0,0,a\nenq p0,0,c\nenq p1,0,d\nfree p2\nexit\nd: tx p1,r0,f\ntx p2,r0,g\nexit\n"
    "c: free p0\nf: free p1\ng: free p2\nexit\na: free p1\nb: free p0\nexit\n"
)
# Writes the hop of the first four bytes over them; a packet without a hop is sent as it came.
ROUTE = "iflen p0,4,d\nload r1,p0,0,4\nlookup r2,0,r1,m\nstore p0,0,4,r2\nm: tx p0,r0,d\nexit\nd: free p0\nexit\n"
# Sends the clone with a new packet before it; without a clone, the packet without its first byte; without a new packet, the packet without its last.
THREE_CALLS = (
    "clone p1,p0,0,uncloned\nalloc p2,0,alone\nappend p2,2\nchain p2,p1\nfree p0\ntx p2,r0,full\nexit\nfull: free p2\nexit\n"
    f"alone: free p1\niflast p0,1,drop\ntrim p0,1\ntx p0,r0,drop\nexit\nuncloned: {CUT}drop: free p0\nexit\n"
)
SPIN, COUNT_ON = "a: jmp a\n", COUNT.replace("257", "258")
# Holds three packets and jumps to itself.
HELD_BACK = "clone p1,p0,0,d\nclone p2,p0,0,c\na: jmp a\nc: free p1\nd: free p0\nexit\n"
# Makes a clone and a new packet, and sends or frees each.
BUSY = (
    "clone p1,p0,0,a\ntx p0,r0,b\nalloc p2,0,c\nappend p2,3\nchain p2,p1\ntx p2,r0,d\nexit\n"
    "d: free p2\nexit\nc: free p1\nexit\nb: free p0\nfree p1\nexit\na: free p0\nexit\n"
)
# Sends the packet out of port 1 and a clone of it out of port 0.
TO_BOTH = "clone p1,p0,0,d\nset r1,1\ntx p0,r1,a\ntx p1,r0,b\nexit\na: free p0\nfree p1\nexit\nb: free p1\nexit\nd: free p0\nexit\n"
# The node programs that are compiled, beside COUNT: that of examples/ttl, and one that is cut.
TTL = (
    "iflen p0,34,L24\nload r1,p0,12,2\njeq r1,2048,L4\njmp L24\nL4:\nload r1,p0,22,2\njlt r1,512,L26\nmov r2,r1\nxor r2,65535\nsub r1,256\n"
    "load r3,p0,24,2\nxor r3,65535\nadd r3,r2\nadd r3,r1\nand r3,262143\nmov r4,r3\nshr r4,16\nand r3,65535\nadd r3,r4\nmov r4,r3\nshr r4,16\n"
    "add r3,r4\nxor r3,65535\nstore p0,22,2,r1\nstore p0,24,2,r3\nL24:\ntx p0,r0,L26\nexit\nL26:\nfree p0\nexit\n"
)
SPIN_WITH_CLONE = "clone p1,p0,0,d\na: jmp a\nd: free p0\nexit\n"
MACHINE_CODE = (TTL, COUNT, SPIN_WITH_CLONE)
# IPv4 with a time to live of 64, 63 and 1, another protocol, and a frame that is too short.
ADDRESSES, AFTER = bytes(range(12)), bytes([10, 0, 0, 1, 10, 0, 0, 2])
LIVE, LIVE_63, SPENT = (
    ADDRESSES + bytes([8, 0, 69, 0, 0, 20, 0, 0, 0, 0, ttl, 17, upper, 33]) + AFTER for ttl, upper in ((64, 22), (63, 23), (1, 22))
)
ARP = ADDRESSES + bytes([8, 6, 0, 1, 8, 0, 6, 4, 0, 1] + [0] * 12)
SHORT = bytes([*range(1, 13), 8, 0])


def to_ring(table: int, ring: int) -> str:
    """Writes a table's hop into the packet and puts it into a ring, whose program sends it back."""
    return f"iflen p0,4,d\nload r1,p0,0,4\nlookup r2,{table},r1,d\nstore p0,0,4,r2\nenq p0,{ring},d\nexit\nd: free p0\nexit\n"


def four(program: str, *sent: bytes | None) -> Script:
    """A program that gets the four frames, and what it sends for each."""
    return Script(ONE, (program,), tuple(sends(frame, *[it] * (it is not None)) for frame, it in zip((LIVE, SPENT, ARP, SHORT), sent)), 4)


# Records that are sent, cut, cloned or chained.
FORMS = (
    # fourteen bytes are cut off, and shorter records dropped
    Script(ONE, (STRIP,), (sends(RECORD, bytes([14, 15])), sends(RECORD[:13]), sends(b"")), 3),
    # a clone is freed, or sent
    Script(ONE, (CLONE_FREED,), (sends(RECORD, RECORD),), 2),
    Script(ONE, (CLONE_SENT,), (sends(RECORD, RECORD),), 2),
    # two buffers are enough for many records, one after the other
    Script(TWO_BUFFERS, (CLONE_SENT,), (sends(RECORD, RECORD), sends(RECORD[:3], RECORD[:3]), sends(RECORD[5:], RECORD[5:])), 6),
    # a clone without a buffer is refused
    Script(ONE_BUFFER, (CLONE_OR_CUT,), (sends(RECORD, RECORD[1:]),), 2),
    # a transmit list of two slots takes one packet
    Script(SHORT_LIST, (BOTH,), (sends(RECORD, RECORD),), 2),
    # a new packet before the record's: both segments are written as one record
    Script(ONE, (PREFIXED,), (sends(RECORD[:3], bytes([10, 11, 12, 13, 0xF0, 0xF1, 2])),), 2),
)
# Bytes and numbers.
BYTES = (
    # bytes that were cut off do not show again, before the others and after them
    Script(
        ONE, ("iflen p0,4,no\nadj p0,4\nprepend p0,6\ntx p0,r0,no\nexit\nno: free p0\nexit\n",),
        (sends(RECORD[:7], bytes([0, 0, 0, 0, 0, 0, 4, 0xF5, 0xF6])), sends(RECORD[:3])), 2,
    ),
    Script(
        ONE,
        (
            "iflast p0,2,no\ntrim p0,2\niftail p0,3,no\nappend p0,3\nifhead p0,129,more\nfree p0\nexit\n"
            "more: ifhead p0,128,no\ntx p0,r0,no\nexit\nno: free p0\nexit\n",
        ),
        (sends(FIVE, bytes([0xF0, 0xF1, 2, 0, 0, 0])), sends(RECORD[:1])), 2,
    ),
    # loads bytes 3 and 4 at an offset that byte 2 gives, and stores them at an offset that it gives too
    Script(
        ONE, ("iflen p0,16,no\nload r1,p0,2,1\nand r1,7\nloadx r2,p0,r1,1,2\nstorex p0,r1,4,2,r2\ntx p0,r0,no\nexit\nno: free p0\nexit\n",),
        (sends(RECORD, RECORD[:6] + bytes([3, 4]) + RECORD[8:]),), 1,
    ),
    # numbers wrap
    Script(ONE, (NUMBERS,), (sends(bytes([7] * 64), WRAPPED), sends(bytes([7] * 63))), 2),
)
# Loops, and what waits in rings and lists.
LOOPS = (
    # backward jumps have a budget, and each node run one of its own; a run that is cut frees its packets
    looped(SPIN, 1, 257),
    looped(COUNT, 0, 517, SEVENS),
    looped(COUNT_ON, 1, 515),
    Script(ONE, (HELD_BACK,), (sends(SEVENS, said="received runs 1 cuts 1 steps 259"),), 3, 1),
    # a packet that always goes back into its ring is served 32 times, and is still there at the end
    Script(RINGED, (LOOP, LOOP), (sends(SEVENS, said="received runs 33 cuts 0 steps 66"),), 1, left=(1,)),
    # full rings and lists keep the packet
    Script(RINGED, (THREE, LOOP), (sends(SEVENS, SEVENS),), 3, left=(1,)),
)
# Each call of a turn is refused in turn: none, the new packet, the clone, the record's buffer.
REFUSED = (
    Script(ONE, (THREE_CALLS,), (sends(FIVE, bytes(2) + FIVE),), 3, refused=4),
    Script(ONE, (THREE_CALLS,), (sends(FIVE, FIVE[:4]),), 3, refused=3),
    Script(ONE, (THREE_CALLS,), (sends(FIVE, FIVE[1:]),), 2, refused=2),
    Script(ONE, (THREE_CALLS,), (sends(FIVE, said="nobuf runs 0 cuts 0 steps 0"),), 1, refused=1),
)
FORTH, BACK = (f"set r1,{port}\ntx p0,r1,d\nexit\nd: free p0\nexit\n" for port in (1, 0))
PARTED = (
    sends(SEVENS, SEVENS, bytes(3) + SEVENS),
    sends(bytes([8] * 200)),
    sends(b"", b"", bytes(3)),
    sends(bytes([9] * 250)),
)
NEW, HUNDRED, NINES = bytes([10, 11, 12, 13]), bytes([7] * 100), bytes([9] * 3)
# Several ports, and pools with a cache.
SEVERAL = (
    # each of two ports sends to the other
    Script(CROSSED, (FORTH, BACK), (Turn(SEVENS, ((1, SEVENS),)), Turn(bytes([8] * 7), ((0, bytes([8] * 7)),), 1)), 2),
    # a pool's cache changes nothing that is written; a clone of four segments finds too few buffers
    Script(SEGMENTED, (BUSY,), PARTED, 10),
    Script(CACHED, (BUSY,), PARTED, 10),
    # a record in two segments goes out of both ports, then one is sent back
    Script(DOUBLED, (TO_BOTH, FORWARD), (Turn(HUNDRED, ((0, HUNDRED), (1, HUNDRED))), Turn(NINES, ((1, NINES),), 1)), 3),
    # a packet and its clones go out of two ports; without the first clone, nothing of the record does
    Script(PAIR, (MULTICAST, FORWARD), (Turn(SEVENS, ((0, SEVENS), (1, NEW + SEVENS))),), 4),
    Script(PAIR, (MULTICAST, FORWARD), (sends(SEVENS), Turn(EIGHTS, ((0, EIGHTS), (1, NEW + EIGHTS)))), 7, refused=3),
)
# Programs that are compiled, and one that is not.
SPUN = tuple(sends(it, said="received runs 1 cuts 1 steps 258") for it in (LIVE, SPENT, ARP, SHORT))
COMPILED = (
    four(TTL, LIVE_63, None, ARP, SHORT),
    four(COUNT, LIVE, SPENT, ARP, SHORT),
    Script(ONE, (SPIN_WITH_CLONE,), SPUN, 8, 4),
    four(STRIP, LIVE[14:], SPENT[14:], ARP[14:], b""),
)
# What is played with tables, whose memory takes time.
TO_TEN = bytes([10, 0, 0, 7])
ROUTES = (
    # a table has hops
    Script(
        ROUTED, (ROUTE, LOOP),
        (sends(bytes([10, 1, 2, 200]), bytes([0, 0, 0, 2])), sends(bytes([10, 1, 2, 100]), bytes([0, 0, 0, 1])), sends(bytes([11, 0, 0, 1]), bytes([11, 0, 0, 1]))),
        3,
        left=(0,),
    ),
    # as many pools, tables, rings and ports as there may be: ports have rings and tables of their own
    Script(
        EIGHT, (*(to_ring(k % 4, k) for k in range(8)), *[FORWARD] * 8),
        tuple(Turn(TO_TEN, ((k, bytes([0, 0, 0, k % 4 + 1])),), k, "received runs 2 cuts 0 steps 8") for k in range(8)),
        8,
        left=(0,) * 8,
    ),
)
SCRIPTS = (*FORMS, *BYTES, *LOOPS, *REFUSED, *SEVERAL, *COMPILED, *ROUTES)
# How many bytes a pipeline needs; and whether one of one port opens in a region of this size.
NEEDS = ((ONE, 148_288), (SMALL, 9536))
OPENS = ((SMALL, 9472, False), (SMALL, 9536, True))

# Sends the packet and then six new bytes; or five new bytes, a packet without bytes, and then its own.
SIX = "alloc p1,0,b\nappend p1,6\nset r1,0x0808080808080808\nstore p1,0,4,r1\nstore p1,4,2,r1\n"
SENDS_TWO = f"{SIX}tx p0,r0,a\ntx p1,r0,c\nexit\na: free p0\nc: free p1\nexit\nb: free p0\nexit\n"
FIRST_FIVE = "alloc p1,0,c\nappend p1,5\nset r1,0x07070707\nstore p1,0,4,r1\nstore p1,4,1,r1\n"
SENDS_THREE = f"{FIRST_FIVE}alloc p2,0,b\ntx p1,r0,a\ntx p2,r0,d\ntx p0,r0,c\nexit\na: free p1\nd: free p2\nc: free p0\nexit\nb: free p1\nfree p0\nexit\n"


class Failing(NamedTuple):
    """A pipeline of one port whose program sends several packets for a record, what it sends, and its allocation calls; a writer that takes this many
    bytes at once, and fails after each of these numbers of bytes after the header of the capture."""

    world: World
    program: str
    record: bytes
    sent: tuple[bytes, ...]
    calls: int
    most: int
    left: Sequence[int]


# Three packets end after 21, 37 and 203 bytes: one of one segment, one without bytes, and one of three segments.
THIRD = (LARGER, SENDS_THREE, bytes([9] * 150), (bytes([7] * 5), b"", bytes([9] * 150)), 3)
FAILING = (
    Failing(ONE, SENDS_TWO, SEVENS, (SEVENS, EIGHTS), 2, 8, (30,)),
    *(Failing(*THIRD, most, range(205)) for most in (1, 10, 1000)),
)


def report(world: World, counts: Sequence[tuple[int, int, int, str]], left: Sequence[int], calls: int, refused: int = 0, cut: int = 0) -> str:
    """The report of a run, with what each port received, dropped and sent, and its input."""
    ports = "".join(f"port {k} received {got} nobuf {lost} oversize 0 sent {sent} input {ended}\n" for k, (got, lost, sent, ended) in enumerate(counts))
    rings = "".join(f"ring {k} left {count}\n" for k, count in enumerate(left))
    pools = "".join(f"pool {k} free {pool.count} of {pool.count}\n" for k, pool in enumerate(world.pools))
    return f"{ports}{rings}{pools}calls {calls} refused {refused}\n" + (f"cut {cut}\n" if cut else "")


def expected(script: Script) -> tuple[int, str, list[bytes]]:
    """How a script ends: the status, the report, and the captures that are written."""
    ports = range(len(script.world.ports))
    sent = [[record for turn in script.turns for port, record in turn.sent if port == k] for k in ports]
    lost = [sum(turn.said.startswith("nobuf ") and turn.port == k for turn in script.turns) for k in ports]
    got = [sum(turn.port == k for turn in script.turns) - lost[k] for k in ports]
    counts = [(got[k], lost[k], len(sent[k]), "whole") for k in ports]
    return 0, report(script.world, counts, script.left, script.calls, int(0 < script.refused <= script.calls), script.cut), [capture(*it) for it in sent]


def asked_of(program: str, folder: pathlib.Path, script: Script, command: str, *words: str) -> subprocess.CompletedProcess[str]:
    """How a command on the pipeline of a script ends."""
    refused = ["--refuse", str(script.refused)] if script.refused else []
    return run_said([program, command, "it.toml", *refused, *words], cwd=folder, capture_output=True, text=True, timeout=600)


def ran(program: str, folder: pathlib.Path, script: Script) -> tuple[int, str, list[bytes]]:
    """How a run of a script ends."""
    put(folder, script.world, script.nodes)
    ports = range(len(script.world.ports))
    outs = [folder / f"out{k}.pcap" for k in ports]
    for k in ports:
        outs[k].unlink(missing_ok=True)
        (folder / f"in{k}.pcap").write_bytes(capture(*(turn.record for turn in script.turns if turn.port == k)))
    run = asked_of(program, folder, script, "run")
    return run.returncode, run.stdout + fixed(run.stderr), [out.read_bytes() if out.exists() else b"" for out in outs]


def steps_in(program: str, folder: pathlib.Path, script: Script) -> int:
    """How many instructions a run counts of the script that ran last."""
    counts = json.loads(asked_of(program, folder, script, "run", "--counts", "--json").stdout)["counts"]
    return sum(instr["ran"] for node in counts["nodes"] for instr in node["instructions"])


def played(program: str, folder: pathlib.Path, is_compiled: bool = False) -> Cases:
    """All scripts. A trace interprets all programs, so one with machine code is asked for its counts."""
    for k, script in enumerate(SCRIPTS):
        yield f"script {k}, {script.nodes[0][:60]!r}", ran(program, folder, script), expected(script)
        said = [turn.said for turn in script.turns]
        if all(said) and is_compiled:
            yield f"steps of script {k}", steps_in(program, folder, script), sum(int(it.rpartition(" ")[2]) for it in said)
        elif all(said):
            yield f"turns of script {k}", re.findall(r"(?m)^turn (.*)$", asked_of(program, folder, script, "trace").stdout), said


def whole_in(records: Sequence[bytes], left: int) -> int:
    """How many of these records are whole within this number of bytes after a header."""
    ends = [sum(16 + len(it) for it in records[: k + 1]) for k in range(len(records))]
    return sum(end <= left for end in ends)


def failed(program: str, folder: pathlib.Path, row: Failing, library: str, left: int) -> tuple[int, str, str, bytes]:
    """How a run ends whose output takes this number of bytes after the header, and fails then."""
    hard = resource.getrlimit(resource.RLIMIT_FSIZE)[1]
    around = os.environ | {"LD_PRELOAD": library, "MOST": str(row.most)}
    resource.setrlimit(resource.RLIMIT_FSIZE, (len(HEADER) + left, hard))
    try:
        run = run_said(
            [program, "run", "-U", "it.toml"], cwd=folder, env=around, stdout=subprocess.PIPE, stderr=subprocess.PIPE, text=True, timeout=60, restore_signals=False
        )
    finally:
        resource.setrlimit(resource.RLIMIT_FSIZE, (hard, hard))
    return run.returncode, run.stdout, fixed(run.stderr), (folder / "out0.pcap").read_bytes()


def writers(program: str, folder: pathlib.Path) -> Cases:
    """Writers that fail, and before each row that its packets wait together."""
    library = put_library("short", folder)
    if library is None:
        print("engines: writers that fail NOT TRIED, since there is no C compiler")
        return
    signal.signal(signal.SIGXFSZ, signal.SIG_IGN)
    for row in FAILING:
        put(folder, row.world, (row.program,))
        (folder / "in0.pcap").write_bytes(capture(row.record))
        (folder / "out0.pcap").write_bytes(b"")
        trace = run_said([program, "trace", "it.toml"], cwd=folder, capture_output=True, text=True, timeout=60).stdout
        yield f"what waits, {row.most}", re.findall(r"(?m)^ +port 0 list: (\d+) queued$", trace), [str(k + 1) for k in range(len(row.sent))]
        for left in row.left:
            count, text = whole_in(row.sent, left), capture(*row.sent)[: len(HEADER) + left]
            is_whole = count == len(row.sent)
            said = report(row.world, [(1, 0, count, "whole" if is_whole else "open")], (), row.calls)
            wanted = (0, said, "", text) if is_whole else (3, said, "fault: output 0\n", text)
            yield f"{row.most} bytes at once and {left} in all", failed(program, folder, row, str(library), left), wanted


def sizes(program: str, folder: pathlib.Path) -> Cases:
    """How many bytes pipelines need, and in which regions one opens."""
    for world, size in NEEDS:
        put(folder, world, (FORWARD,))
        said = run_said([program, "check", "it.toml", "--sizes"], cwd=folder, capture_output=True, text=True, timeout=60).stdout
        yield f"the need of {world}", re.findall(r"(?m)^sum +(\d+)$", said), [str(size)]
    for world, size, is_open in OPENS:
        put(folder, world, (FORWARD,), region=size)
        (folder / "in0.pcap").write_bytes(capture(SEVENS))
        run = run_said([program, "run", "it.toml"], cwd=folder, capture_output=True, text=True, timeout=60)
        yield f"a region of {size}", (run.returncode, fixed(run.stderr)), (0, "") if is_open else (3, "fault: region\n")


def hold(cases: Cases) -> list[bool]:
    """Whether each case is as it should be."""
    passed = []
    for asks, came, wanted in cases:
        passed.append(came == wanted)
        if not passed[-1]:
            print(f"engines: {asks}: {str(came)[:400]}, and not {str(wanted)[:400]}")
    return passed


def main() -> int:
    """All of it."""
    program = asked()
    with new_folder() as folder:
        passed = [it for part in (played, writers, sizes) for it in hold(part(program, folder))]
    return report_cases("engines", passed)


if __name__ == "__main__":
    sys.exit(main())
