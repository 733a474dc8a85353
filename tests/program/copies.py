#!/usr/bin/env python3
"""Lets the built program dpv copy captures, by a program that sends each packet: how they are read, and what is written.

Usage: tests/program/copies.py [--most] [PROGRAM]   (the built program; by default the one that ./dpv builds and runs; some seconds)
Captures in both byte orders and units, with faults in their headers and records, and with records whose packets had more bytes; a reader that
fails after each byte; a writer that takes a few bytes a call, and fails after each byte; reads and writes of each small size, and records at
each place across the end of the buffer; and which records are counted where the input or the output fails. A stream that failed must not be
read or written again. With --most also a capture of the most records and one byte more, of 268 megabytes. Prints a line for each case that
failed, and a count; exits with 1 if a case failed.
"""
import argparse
import os
import pathlib
import sys
from collections.abc import Iterator, Mapping
from typing import NamedTuple

import paths  # noqa: F401

from command import new_folder, program_of, put_library, report_cases, run_said
from model.captures import MOST as MOST_RECORDS
from model.captures import written

SEND = "tx p0,r0,drop\nexit\ndrop: free p0\nexit\n"
PIPELINE = """region = 524288
pool = [{{ count = 64, cache = 0, room = {} }}]
port = [{{ pool = 0, segs = 64, queue = 4, node = "send.dpv", in = "none", out = "none/none" }}]
"""
# Pipelines with room for all bytes of a record in one buffer, and for one byte in each.
WIDE, NARROW = "wide.toml", "narrow.toml"
ROOMS = {WIDE: 4096, NARROW: 129}
EIO, EINTR = 5, 4

MICRO = bytes.fromhex("d4c3b2a1 0200 0400 00000000 00000000 00000400 01000000")
NANO = bytes.fromhex("4d3cb2a1 0200 0400 00000000 00000000 00000400 01000000")
EMPTY_RECORD = MICRO + bytes(16)
# A record of 60 bytes at second 1, microsecond 2: a capture of 100 bytes.
BODY = bytes(range(60))
HUNDRED = MICRO + bytes.fromhex("01000000 02000000 3c000000 3c000000") + BODY
# Records of 14, 0 and 60 bytes at second 0, in nanoseconds: a capture of 146 bytes.
THREE_RECORDS = NANO + b"".join(bytes.fromhex(f"00000000 00000000 {size:02x}000000 {size:02x}000000") + BODY[:size] for size in (14, 0, 60))
THREE = [(0, 0, BODY[:14]), (0, 0, b""), (0, 0, BODY)]
# A record of 2 bytes in microseconds, in both byte orders.
LITTLE = bytes.fromhex("d4c3b2a1 0200 0400 00000000 00000000 00000400 01000000 04030201 03000000 02000000 02000000 0506")
BIG = bytes.fromhex("a1b2c3d4 0002 0004 00000000 00000000 00040000 00000001 01020304 00000003 00000002 00000002 0506")


def edited(data: bytes, edits: Mapping[int, int]) -> bytes:
    """The bytes, with other values at some places."""
    return bytes(edits.get(place, byte) for place, byte in enumerate(data))


class Case(NamedTuple):
    """A capture, the pipeline that copies it, how its streams behave, and how the run ends: the status, what is copied, and the lines on standard
    error."""

    name: str
    data: bytes
    status: int
    copy: bytes
    said: str
    pipeline: str = WIDE
    streams: dict[str, int] = {}
    words: tuple[str, ...] = ()


def report(received: int, sent: int, state: str) -> str:
    """The report of a run on this number of records."""
    return f"port 0 received {received} nobuf 0 oversize 0 sent {sent} input {state}\npool 0 free 64 of 64\ncalls {received} refused 0\n"


# What is said of the causes.
CAUSES = {
    1: "no magic number of a pcap file",
    2: "the version is not 2.4",
    3: "the link type is 101 RAW, and not 1 ETHERNET\n"
    "  help: capture on an Ethernet interface: these records have no Ethernet headers",
    4: "the fraction of a record's time is a second or more",
    5: "a record has more than 262144 bytes",
    6: "fewer than the 24 bytes of a header",
    7: "more than 16777216 records",
}


def of_input(cause: int, reason: str = "") -> str:
    """The lines for an input that is refused."""
    return f"fault: input 0 cause {cause}\n  file: -\n  because: {reason or CAUSES[cause]}\n"


def snapped(count: int) -> str:
    """The line on this number of records that are truncated."""
    return f"port 0: {count} record{' was' if count == 1 else 's were'} cut by the capture's snap length: capture with a larger -s\n" if count else ""


def cut_at(place: int) -> str:
    """The line on a capture that is cut in a record that begins here."""
    return f"port 0: its input ends within the record at byte {place}, which is not read\n"


class Read(NamedTuple):
    """A capture, those of its bytes that have other values, and its records; where it is cut or for which cause it is refused then; whether its
    times are in nanoseconds, and how many records are truncated."""

    data: bytes
    edits: dict[int, int]
    records: list[tuple[int, int, bytes]] = []
    cut: int = 0
    cause: int = 0
    is_nano: bool = False
    truncated: int = 0


# Causes for which a header is refused, and bytes of a fraction of a second.
OF_HEADER = (1, 2, 3, 6)
SECOND = {28: 0x40, 29: 0x42, 30: 0x0F}
READ = [
    # Big endian, nanoseconds: a record of 14 bytes at (10, 5).
    Read(
        bytes.fromhex("a1b23c4d 0002 0004 09090909 09090909 09090909 00000001 0000000a 00000005 0000000e 00000063 0102030405060708090a0b0c0d0e"),
        {}, [(10, 5, bytes(range(1, 15)))], is_nano=True, truncated=1,
    ),
    # Little endian, microseconds: a record of 14 bytes at (10, 7), and 3 bytes of one of 20.
    Read(
        MICRO + bytes.fromhex("0a000000 07000000 0e000000 0e000000") + 14 * b"\1" + bytes.fromhex("0b000000 08000000 14000000 14000000 020202"),
        {}, [(10, 7000, 14 * b"\1")], cut=54,
    ),
    # One byte of the header is changed, or two.
    Read(MICRO, {0: 0xD5}, cause=1),
    Read(MICRO, {3: 0xA2}, cause=1),
    Read(MICRO, {4: 3}, cause=2),
    Read(MICRO, {5: 2}, cause=2),
    Read(MICRO, {6: 3}, cause=2),
    Read(MICRO, {20: 101}, cause=3),
    Read(MICRO, {8: 1}),
    Read(MICRO, {12: 1}),
    Read(MICRO, {16: 1}),
    Read(MICRO, {4: 3, 20: 101}, cause=2),
    # A fraction of 1,000,000, a length of 262,145, both of these, and the largest that are accepted.
    Read(EMPTY_RECORD, SECOND, cause=4),
    Read(EMPTY_RECORD, {32: 1, 34: 4}, cause=5),
    Read(EMPTY_RECORD, {**SECOND, 32: 1, 34: 4}, cause=4),
    Read(EMPTY_RECORD, {**SECOND, 28: 0x3F}, [(0, 999_999_000, b"")]),
    Read(EMPTY_RECORD, {34: 4}, cut=24),
    # The longest record that a port takes, whole.
    Read(MICRO + bytes.fromhex("00000000 00000000 00e00300 00e00300") + 253_952 * b"\7", {}, [(0, 0, 253_952 * b"\7")]),
]


def read_so() -> Iterator[Case]:
    """Captures that are read, or refused."""
    for k, row in enumerate(READ):
        count = len(row.records)
        state = "open" if row.cause else f"cut {row.cut}" if row.cut else "whole"
        said = of_input(row.cause) if row.cause else (cut_at(row.cut) if row.cut else "") + snapped(row.truncated)
        copy = b"" if row.cause in OF_HEADER else written(row.is_nano, row.records)
        yield Case(f"READ {k}", edited(row.data, row.edits), 3 if row.cause else 0, copy, report(count, count, state) + said)


class Link(NamedTuple):
    """A header, the bytes of it that have other values, its length, the cause for which it is refused, and the reason; none if it is not."""

    data: bytes
    edits: dict[int, int]
    length: int
    cause: int
    reason: str


LINUX = {20: 113, 23: 4}
LINKS = [
    Link(NANO, {}, 24, 0, ""),
    Link(
        NANO, LINUX, 24, 3,
        "the link type is 113 LINUX_SLL with 1024 in the upper 16 bits, and not 1 ETHERNET alone\n"
        "  help: capture on one Ethernet interface in place of any, or make Ethernet headers of these: editcap -F pcap -T ether -L -C 2 IN OUT",
    ),
    Link(
        MICRO, {23: 4}, 24, 3,
        "the link type is 1 ETHERNET with 1024 in the upper 16 bits, and not 1 ETHERNET alone\n"
        "  help: capture on an Ethernet interface: these bits do not say that each frame ends with a checksum of 4 bytes",
    ),
    Link(NANO, LINUX, 23, 6, ""),
    Link(NANO, {**LINUX, 1: 0}, 24, 1, ""),
    Link(
        bytes.fromhex("a1b2c3d4 0002 0004 00000000 00000000 00000000 00000114 00"), {}, 25, 3,
        "the link type is 276 LINUX_SLL2, and not 1 ETHERNET\n  help: capture on one Ethernet interface in place of any",
    ),
]


def linked() -> Iterator[Case]:
    """Headers with other link types: the whole field counts, in the order of the capture."""
    for k, row in enumerate(LINKS):
        data = edited(row.data, row.edits)[: row.length]
        if row.cause:
            yield Case(f"LINKS {k}", data, 3, b"", report(0, 0, "open") + of_input(row.cause, row.reason))
        else:
            yield Case(f"LINKS {k}", data, 0, data, report(0, 0, "whole"))


class Spelling(NamedTuple):
    """A capture of 42 bytes, those of them that have other values, and those of LITTLE that have in the spelling in which it is written."""

    data: bytes
    edits: dict[int, int]
    spelled: dict[int, int]


LITTLE_NANO, BIG_NANO = {0: 0x4D, 1: 0x3C}, {2: 0x3C, 3: 0x4D}
SPELLINGS = [
    Spelling(LITTLE, {}, {}),
    Spelling(BIG, {}, {}),
    Spelling(LITTLE, LITTLE_NANO, LITTLE_NANO),
    Spelling(BIG, BIG_NANO, LITTLE_NANO),
]
# A record at (1, 2999) in nanoseconds.
AT_2999 = NANO + bytes.fromhex("01000000 b70b0000 02000000 02000000 0506")


def spelled() -> Iterator[Case]:
    """The spellings, and a record that is written at once and in parts."""
    for k, row in enumerate(SPELLINGS):
        yield Case(f"SPELLINGS {k}", edited(row.data, row.edits), 0, edited(LITTLE, row.spelled), report(1, 1, "whole"))
    for pipeline in (WIDE, NARROW):
        yield Case(f"a record in {pipeline}", AT_2999, 0, AT_2999, report(1, 1, "whole"), pipeline)


class Truncated(NamedTuple):
    """The bytes of THREE_RECORDS that have other values, how many bytes come, how many records are read, and how many of them are truncated."""

    edits: dict[int, int]
    length: int
    count: int
    truncated: int


LONG = {36: 200, 82: 200}
TRUNCATED = [
    # A record is truncated if its packet had more bytes than were captured.
    Truncated({36: 14}, 146, 3, 0),
    Truncated({36: 15}, 146, 3, 1),
    Truncated({37: 1}, 146, 3, 1),
    Truncated({36: 13}, 146, 3, 0),
    Truncated({66: 1}, 146, 3, 1),
    Truncated({69: 255}, 146, 3, 1),
    # A record that ends before its captured bytes do was not read, so it is not counted.
    Truncated(LONG, 146, 3, 2),
    Truncated(LONG, 145, 2, 1),
    Truncated(LONG, 86, 2, 1),
    Truncated(LONG, 54, 1, 1),
    Truncated(LONG, 53, 0, 0),
    Truncated(LONG, 24, 0, 0),
]
# Where the records of THREE_RECORDS begin.
BEGIN = (24, 54, 70)


def truncated() -> Iterator[Case]:
    """Truncated records are counted, whether a record is at hand in the buffer or comes in parts."""
    for k, row in enumerate(TRUNCATED):
        is_whole = row.length in (24, 54, 146)
        state, cut = ("whole", "") if is_whole else (f"cut {BEGIN[row.count]}", cut_at(BEGIN[row.count]))
        said = report(row.count, row.count, state) + cut + snapped(row.truncated)
        for most in (1, 16, 54, 146, 200, 256):
            yield Case(f"TRUNCATED {k}", edited(THREE_RECORDS, row.edits)[: row.length], 0, written(True, THREE[: row.count]), said, streams={"MOST": most})


class Failing(NamedTuple):
    """From one number of bytes up to another, without that: of HUNDRED that many come, and then the reader fails; how many records are read, and how
    many bytes are copied."""

    first: int
    last: int
    records: int
    copied: int


FAILING = [Failing(0, 24, 0, 0), Failing(24, 100, 0, 24), Failing(100, 101, 1, 100)]
# Errors, and what is said of them: an interrupted read has failed, too.
ERRORS = {EIO: f"{os.strerror(EIO)} (os error {EIO})", EINTR: "the reader failed"}


def failing() -> Iterator[Case]:
    """A reader that fails after each byte: all records that came whole are copied, and it is not called again."""
    for k, row in enumerate(FAILING):
        for length in range(row.first, row.last):
            for error, reason in ERRORS.items():
                said, streams = report(row.records, row.records, "open") + of_input(8, reason), {"INPUT": length, "ERROR": error}
                yield Case(f"FAILING {k}, {length} bytes, error {error}", HUNDRED, 3, HUNDRED[: row.copied], said, streams=streams)


# How many bytes a writer takes a call. It may fail after any byte of HUNDRED.
TAKEN = (1, 7, 16, 23, 24, 59, 60, 1000)
OUTPUT_FAILED = f"fault: output 0\n  file: -\n  because: {ERRORS[EIO]}\n"
NINES = written(False, [(1, 2000, 46 * b"\x09")])


def taken() -> Iterator[Case]:
    """Writers that take few bytes a call, and fail after each byte: they hold a front of the capture, and are not called again."""
    for most in TAKEN:
        for length in range(101):
            fault = OUTPUT_FAILED if length < 100 else ""
            said = report(1, 0 if fault else 1, "whole") + fault
            yield Case(f"TAKEN {most}, {length} bytes", HUNDRED, 3 if fault else 0, HUNDRED[:length], said, streams={"MOST": most, "OUTPUT": length})
    # The writer fails its fifth call of eight bytes.
    said = report(1, 0, "whole") + OUTPUT_FAILED
    yield Case("nines", NINES, 3, bytes.fromhex("d4c3b2a1 0200 0400 00000000 00000000 00000400 01000000 01000000 02000000"), said, streams={"MOST": 8, "OUTPUT": 32})


def halting() -> Iterator[Case]:
    """Each small number of bytes a call, with and without a buffer for the output; a write that is interrupted, which goes on; and a record that
    lies across the end of the output's buffer, of 65,536 bytes, at each place."""
    for most in range(1, 102):
        yield Case(f"{most} bytes a call", HUNDRED, 0, HUNDRED, report(1, 1, "whole"), streams={"MOST": most}, words=("-U",) if most % 2 else ())
    yield Case("interrupted", HUNDRED, 0, HUNDRED, report(1, 1, "whole"), streams={"MOST": 7, "OUTPUT": 0, "ERROR": EINTR, "AGAIN": 1})
    for held in range(102):
        data = written(False, [(1, 2000, bytes(65_536 - 24 - 16 - held)), (1, 2000, BODY)])
        yield Case(f"{held} bytes left in the buffer", data, 0, data, report(2, 2, "whole"))


# A capture of 93 bytes: records of 3, 0 and 2 bytes, which end at these places, and the head of one of 4. Its bytes are 9.
ENDS = (43, 59, 77)
SIZES = (3, 0, 2, 4)


def nines(order: str) -> bytes:
    """The records in a byte order, and the bytes of the last, too."""
    header = {"little": MICRO, "big": BIG[:24]}[order]
    return header + b"".join(bytes(8) + 2 * size.to_bytes(4, order) + size * b"\x09" for size in SIZES)


def counted() -> Iterator[Case]:
    """The records that are whole in what came and in what was written, where either fails after each byte, or comes in two pieces."""
    said = "progress: port 0: {} records read in all\n"
    for cut in range(94):
        whole = sum(end <= cut for end in ENDS)
        sent = report(4, whole, "whole") + OUTPUT_FAILED
        yield Case(f"{cut} bytes are written", nines("little"), 3, nines("little")[:cut], sent, streams={"OUTPUT": cut, "MOST": 5 + cut % 60})
        for order in ("little", "big"):
            ended = said.format(whole) + report(whole, whole, "open") + of_input(8, ERRORS[EIO])
            copy = nines("little")[: ([24, *ENDS][whole] if cut >= 24 else 0)]
            yield Case(f"{cut} bytes come, {order} endian", nines(order), 3, copy, ended, streams={"INPUT": cut}, words=("--progress",))
            ended = said.format(3) + report(3, 3, "cut 77") + cut_at(77)
            streams = {"FIRST": cut} if cut else {}
            yield Case(f"a piece of {cut} bytes, {order} endian", nines(order)[:93], 0, nines("little")[:77], ended, streams=streams, words=("--progress",))


def ends_so(program: str, case: Case, folder: pathlib.Path, library: pathlib.Path | None) -> bool:
    """Whether a run ends as its case says. Where the streams behave in a way of their own, it needs the library that makes them do so."""
    if case.streams and library is None:
        return True
    around = dict(os.environ)
    if case.streams:
        around |= {"LD_PRELOAD": str(library), **{name: str(number) for name, number in case.streams.items()}}
    (folder / "in.pcap").write_bytes(case.data)
    words = [program, "run", case.pipeline, "--in", "0=-", "--out", "0=-", *case.words]
    with open(folder / "in.pcap", "rb") as given:
        run = run_said(words, cwd=folder, stdin=given, capture_output=True, env=around, timeout=60)
    ended, wanted = (run.returncode, run.stdout, run.stderr.decode()), (case.status, case.copy, case.said)
    if ended != wanted:
        print(f"copies: {case.name}: expected {str(wanted)[:600]}, came {str(ended)[:600]}")
    return ended == wanted


def most_records(program: str, folder: pathlib.Path) -> bool:
    """Whether 16,777,216 records without bytes come, and a byte after them is refused."""
    (folder / "most.pcap").write_bytes(MICRO)
    os.truncate(folder / "most.pcap", 24 + 16 * MOST_RECORDS + 1)
    run = run_said([program, "run", WIDE, "--in", "0=most.pcap", "--no-out", "0"], cwd=folder, capture_output=True, text=True, timeout=600)
    wanted = (3, report(MOST_RECORDS, MOST_RECORDS, "open"), of_input(7).replace("file: -", "file: most.pcap"))
    if (run.returncode, run.stdout, run.stderr) != wanted:
        print(f"copies: the most records: expected {wanted}, came {(run.returncode, run.stdout, run.stderr)}")
    return (run.returncode, run.stdout, run.stderr) == wanted


KINDS = (read_so, linked, spelled, truncated, failing, taken, halting, counted)


def main() -> int:
    """All of it."""
    parser = argparse.ArgumentParser(description="Copies captures.")
    parser.add_argument("program", nargs="?", metavar="PROGRAM")
    parser.add_argument("--most", action="store_true", help="also a capture of the most records")
    asked = parser.parse_args()
    program = program_of(asked.program)
    with new_folder() as folder:
        library = put_library("short", folder)
        if library is None:
            print("copies: streams that fail NOT TRIED, since there is no C compiler")
        (folder / "send.dpv").write_text(SEND)
        for name, room in ROOMS.items():
            (folder / name).write_text(PIPELINE.format(room))
        passed = [ends_so(program, case, folder, library) for kind in KINDS for case in kind()]
        if asked.most:
            passed.append(most_records(program, folder))
    return report_cases("copies", passed)


if __name__ == "__main__":
    sys.exit(main())
