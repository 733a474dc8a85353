#!/usr/bin/env python3
"""Runs the built program dpv on faults, and tests the lines that it prints after the line of the fault.

Usage: tests/program/messages.py [PROGRAM]   (the built program; by default the one that ./dpv builds and runs)
Files that are missing, folders, too long, not readable or writable; captures with each cause, in another format and with other link types;
certificates of other programs; pipelines with each cause; full disks; outputs that are inputs by the same name, by another name, by a link
and from standard input; words of `dpv trace` that name no port; files with routes; and what helps with what a user types first. The words are the system's on this
host (os.strerror), or are given here.
Then the lines of `--progress`, for captures of both byte orders and for runs that stop, and that there are none without it; and those on
records that were dropped or cut. Prints a line for each case that failed, and a count; exits with 1 if a case failed.
"""
import errno
import os
import pathlib
import re
import shutil
import struct
import subprocess
import sys
from collections.abc import Iterator
from typing import NamedTuple

import paths  # noqa: F401

from command import asked, nested_folder, new_folder, report_cases, said, saying
from faults import HEADER, ONE, POOL, capture, make_files, pipeline, run_of

PCAPNG = "it is a pcapng file; editcap -F nsecpcap IN OUT converts it to a capture"
MODIFIED = "it is a modified pcap file; editcap -F pcap IN OUT converts it to a capture"
PACKED_BY = "it is compressed by {0}; {0} -dc IN > OUT unpacks it"
# How compressed files begin.
PACKED = {"gzip": b"\x1f\x8b", "bzip2": b"BZh", "xz": b"\xfd7zXZ\0", "zstd": b"\x28\xb5\x2f\xfd", "lz4": b"\x04\x22\x4d\x18"}
# Files that are no captures, by how they begin, with the cause and the reason.
REST = 30 * b"."
FRONTS = [
    (b"\x0a\x0d\x0d\x0a\x1c\0" + REST, 1, PCAPNG), (b"\x0a\x0d\x0d" + REST, 1, "no magic number of a pcap file"), (b"\x1f\x8b\x08" + REST, 1, PACKED_BY.format("gzip")),
    (b"BZh9" + REST, 1, PACKED_BY.format("bzip2")), (b"\xfd7zXZ\0\0" + REST, 1, PACKED_BY.format("xz")), (b"\xfd7zXZ" + REST, 1, "no magic number of a pcap file"),
    (b"\x28\xb5\x2f\xfd" + REST, 1, PACKED_BY.format("zstd")), (b"\x04\x22\x4d\x18" + REST, 1, PACKED_BY.format("lz4")),
    (b"\xd4\xc3\xb2\xa1\x0a\x0d" + REST, 2, "the version is not 2.4"), (b"", 6, "fewer than the 24 bytes of a header"),
]
NOBODY = 65_534
MILLION = 1_000_000


class Case(NamedTuple):
    """The words after `dpv`, the status, the expected standard error, and whether that has the lines `at` and `help`, which are compared only then."""

    words: list[str]
    status: int
    reported: str
    is_whole: bool = False


def system(number: int) -> str:
    """The system's words for an error."""
    return f"{os.strerror(number)} (os error {number})"


def file(name: str, reason: str) -> str:
    """The lines for a file."""
    return f"fault: file {name}\n  because: {reason}\n"


def clash(output: str, other: str) -> str:
    """The lines for an output that is a file that the run reads."""
    return f"fault: file {output}\n  file: {other}\n  because: the run reads this file, so it is not overwritten\n"


def node(place: str, name: str, reason: str) -> str:
    """The lines for a node's file."""
    return f"fault: pipeline 5 File {place}\n  file: {name}\n  because: {reason}\n"


def of_pipeline(cause: str, reason: str) -> str:
    """The lines for a pipeline."""
    return f"fault: pipeline {cause}\n  because: {reason}\n"


def of_input(port: int, cause: int, name: str, reason: str) -> str:
    """The lines for an input."""
    return f"fault: input {port} cause {cause}\n  file: {name}\n  because: {reason}\n"


def of_output(port: int, name: str, reason: str) -> str:
    """The lines for an output."""
    return f"fault: output {port}\n  file: {name}\n  because: {reason}\n"


def strips(source: str, target: str, reported: str) -> Case:
    """A case of `dpv one`."""
    return Case(["one", "strip.dpv", "strip.cert", source, target], 3, reported)


def files() -> Iterator[Case]:
    """Files that cannot be opened, made or read."""
    missing, folder, long = system(errno.ENOENT), system(errno.EISDIR), "it is longer than 1048576 bytes"
    for words in (["check"], ["run"], ["mem"], ["explain"]):
        yield Case([*words, "none"], 3, file("none", missing))
        yield Case([*words, "folder"], 3, file("folder", folder))
        yield Case([*words, "long.toml"], 3, file("long.toml", long))
    yield Case(["infer", "none", "port0"], 3, file("none", missing))
    yield Case(["show", "none", "port0"], 3, file("none", missing))
    for words in (["infer-one"], ["explain-one"], ["show-one"]):
        yield Case([*words, "none"], 3, node("port 0", "none", missing))
        yield Case([*words, "folder"], 3, node("port 0", "folder", folder))
        yield Case([*words, "long.dpv"], 3, node("port 0", "long.dpv", long))
    yield Case(["explain-one", "strip.dpv", "none"], 3, node("port 0", "none", missing))
    yield Case(["show-one", "strip.dpv", "long.cert"], 3, node("port 0", "long.cert", long))
    yield Case(["one", "none", "none", "none", "none"], 3, node("port 0", "none", missing))
    yield Case(["one", "strip.dpv", "folder", "none", "none"], 3, node("port 0", "folder", folder))
    yield Case(["check", "ring_file.toml"], 3, node("ring 0", "long.dpv", long))
    yield strips("none", "out", file("none", missing))
    yield strips("in.pcap", "none/none", file("none/none", missing))
    yield strips("in.pcap", "folder", file("folder", folder))
    yield Case(["run", "no_other_output.toml"], 3, file("folder", folder))


def closed() -> Iterator[Case]:
    """Files that the user nobody may not read or write, with the program run as nobody."""
    denied = system(errno.EACCES)
    yield Case(["check", "closed"], 3, file("closed", denied))
    yield Case(["infer-one", "closed"], 3, node("port 0", "closed", denied))
    yield strips("closed", "out", file("closed", denied))
    yield strips("in.pcap", "closed", file("closed", denied))


def captures() -> Iterator[Case]:
    """Captures with each cause, and in another format."""
    words = {
        "magic.pcap": (1, "no magic number of a pcap file"),
        "new.pcapng": (1, PCAPNG),
        "modified.pcap": (1, MODIFIED),
        "swapped.pcap": (1, MODIFIED),
        "nearly.xz": (1, "no magic number of a pcap file"),
        "version.pcap": (2, "the version is not 2.4"),
        "link.pcap": (3, "the link type is 101 RAW, and not 1 ETHERNET"),
        "time.pcap": (4, "the fraction of a record's time is a second or more"),
        "large.pcap": (5, "a record has more than 262144 bytes"),
        "short.pcap": (6, "fewer than the 24 bytes of a header"),
        "folder": (8, system(errno.EISDIR)),
    }
    for name, (cause, reason) in words.items():
        yield strips(name, "out", of_input(0, cause, name, reason))
    for tool in PACKED:
        yield strips(f"packed.{tool}", "out", of_input(0, 1, f"packed.{tool}", PACKED_BY.format(tool)))
    for number, (_, cause, reason) in enumerate(FRONTS):
        yield strips(f"front{number}.pcap", "out", of_input(0, cause, f"front{number}.pcap", reason))
    yield Case(["run", "no_header.toml"], 3, of_input(0, 6, "short.pcap", words["short.pcap"][1]))
    yield Case(["run", "no_other_header.toml"], 3, of_input(1, 3, "link.pcap", words["link.pcap"][1]))
    yield Case(["run", "no_bytes.toml"], 3, of_input(1, 8, "folder", system(errno.EISDIR)))
    yield Case(["run", "no_room.toml"], 3, "fault: region\n")


# Link types with their names, and what helps; tests/program/cures.py runs the commands.
HERE, HEADERS = "capture on an Ethernet interface", "make Ethernet headers of these: editcap -F pcap -T ether -L -C 2 IN OUT"
IN_PLACE_OF_ANY, IS_ETHERNET = "capture on one Ethernet interface in place of any", "if each record really is an Ethernet frame: editcap -F pcap -T ether IN OUT"
NO_HEADERS, WIRELESS = f"{HERE}: these records have no Ethernet headers", f"{HERE}, or on a wireless one that is not in monitor mode"
LINKS = {
    **{int(name.split()[0]): (name, NO_HEADERS) for name in ("0 NULL", "9 PPP", "101 RAW", "108 LOOP", "228 IPV4", "229 IPV6")},
    **{int(name.split()[0]): (name, WIRELESS) for name in ("105 IEEE802_11", "127 IEEE802_11_RADIOTAP")},
    **{int(name.split()[0]): (name, f"{IS_ETHERNET}; else {HERE}") for name in ("146", "147 USER", "162 USER", "163")},
    113: ("113 LINUX_SLL", f"{IN_PLACE_OF_ANY}, or {HEADERS}"),
    276: ("276 LINUX_SLL2", IN_PLACE_OF_ANY),
}


def links() -> Iterator[Case]:
    """Captures with other link types, in both byte orders, also of another port and from a pipe; and one that says that frames have checksums."""
    for link, (name, cure) in LINKS.items():
        for order in ("little", "big"):
            file = f"{link}.{order}.pcap"
            reported = of_input(0, 3, file, f"the link type is {name}, and not 1 ETHERNET") + f"  help: {cure}\n"
            yield strips(file, "out", reported)._replace(is_whole=True)
    checksums = "the link type is 1 ETHERNET with 9216 in the upper 16 bits, and not 1 ETHERNET alone"
    cure = "  help: remove the checksums at the ends of the frames: editcap -F pcap -T ether -L -C -4 IN OUT\n"
    yield strips("checksums.pcap", "out", of_input(0, 3, "checksums.pcap", checksums) + cure)._replace(is_whole=True)
    bits = "the link type is 1 ETHERNET with 1 in the upper 16 bits, and not 1 ETHERNET alone"
    cure = "  help: capture on an Ethernet interface: these bits do not say that each frame ends with a checksum of 4 bytes\n"
    yield strips("bits.pcap", "out", of_input(0, 3, "bits.pcap", bits) + cure)._replace(is_whole=True)
    cooked = "the link type is 113 LINUX_SLL with 9216 in the upper 16 bits, and not 1 ETHERNET alone"
    yield strips("cooked.pcap", "out", of_input(0, 3, "cooked.pcap", cooked) + f"  help: {LINKS[113][1]}\n")._replace(is_whole=True)
    raw = of_input(1, 3, "101.big.pcap", "the link type is 101 RAW, and not 1 ETHERNET") + f"  help: {LINKS[101][1]}\n"
    yield Case(["run", "two_links.toml"], 3, raw, is_whole=True)
    yield Case(["trace", "two_links.toml"], 3, raw, is_whole=True)


def unfit() -> Iterator[Case]:
    """Certificates of other programs with as many rows, for programs that are accepted with another one and for one that is not."""
    begins = "  because: the certificate {} does not fit the program {}\n"
    inferred = "  help: the program itself is accepted with an inferred certificate: "
    one = begins.format("bold.cert", "strip.dpv") + f"{inferred}dpv infer-one strip.dpv > bold.cert\n"
    yield Case(["one", "strip.dpv", "bold.cert", "in.pcap", "out"], 1, one, is_whole=True)
    lost = begins.format("strip.cert", "lost6.dpv") + "  help: dpv explain-one lost6.dpv strip.cert explains why\n"
    yield Case(["one", "lost6.dpv", "strip.cert", "in.pcap", "out"], 1, lost, is_whole=True)
    refused = begins.format("bold.cert", "strip.dpv") + f"{inferred}leave out the key cert, or dpv infer refused.toml port0 > bold.cert\n"
    second = begins.format("strip.cert", "strip.dpv") + f"{inferred}leave out the key cert, or dpv infer second.toml port1 > strip.cert\n"
    ring = begins.format("strip.cert", "lost6.dpv") + "  help: dpv explain ring_unfit.toml ring0 explains why\n"
    for command in ("check", "run", "trace"):
        yield Case([command, "refused.toml"], 1, refused, is_whole=True)
        yield Case([command, "second.toml"], 1, second, is_whole=True)
        yield Case([command, "ring_unfit.toml"], 1, ring, is_whole=True)
        yield Case([command, "lost.toml"], 1, "  help: dpv explain lost.toml port0 explains why\n", is_whole=True)
    yield Case(["infer", "ring_unfit.toml", "ring0"], 1, "  help: leave out the key cert, and dpv explain ring_unfit.toml ring0 explains why\n", is_whole=True)
    yield Case(["one", "lost.dpv", "strip.cert", "in.pcap", "out"], 3, of_pipeline("7 BadCert port 0 line 3 cause 4", "line 3: there are too few or too many lines"))


ROUTE = "a route is A.B.C.D/DEPTH HOP, as 10.1.0.0/16 3: DEPTH 1 to 32, HOP at most 16777215"
HALVES = 'DEPTH is 1 to 32, and all addresses are two routes: "0.0.0.0/1 7", "128.0.0.0/1 7"'
NO_NAME, NO_KEY = "line 1: no instruction has this name", "a key is missing, unknown, of the wrong type or out of its range"
IS_PKT = "it is a program of the language pkt: "
# The pipeline files whose routes are refused: the cause, the reason, the line, and what helps.
ROUTES = {
    "rules": ("4 BadTable 0 2 3", "no room for another rule", '12: "12.0.0.0/8 3",', "route 2 is '12.0.0.0/8 3'; rules = 2 is too small for it: raise rules, to at most 65536"),
    "groups": ("4 BadTable 0 1 4", "no group left", '11: "11.0.0.0/25 2",', "route 1 is '11.0.0.0/25 2'; groups = 1 is too small for it: raise groups, to at most 256"),
    "all_groups": ("4 BadTable 0 256 4", "no group left", '266: "11.1.0.0/25 1",', "route 256 is '11.1.0.0/25 1'; groups = 256 is too small for it: no table may have more groups"),
    "all": ("4 BadTable 0 1 1", "the depth is not 1 to 32", '11: "0.0.0.0/0 7",', f"route 1 is '0.0.0.0/0 7'; {HALVES}"),
    "twice": ("4 BadTable 0 2 1", "the depth is not 1 to 32", '12: "10.0.0.0/33 1", "10.0.0.0/33 1",', f"route 2 is '10.0.0.0/33 1'; {ROUTE}"),
}
# The routes of those files, with the numbers of rules and groups.
TABLES = {
    "rules": (2, 0, ["10.0.0.0/8 1", "11.0.0.0/8 2", "12.0.0.0/8 3"]),
    "groups": (9, 1, ["10.0.0.0/25 1", "11.0.0.0/25 2"]),
    "all_groups": (999, 256, [f"10.{k}.0.0/25 1" for k in range(256)] + ["11.1.0.0/25 1"]),
    "all": (9, 0, ["10.0.0.0/8 1", "0.0.0.0/0 7"]),
    "twice": (9, 0, ["10.0.0.0/8 1", "11.0.0.0/8 1", '10.0.0.0/33 1", "10.0.0.0/33 1']),
}
# Programs that are refused, with the reason and the cure as lines after the verdict.
ALONE = "  at: bare.dpv:1: store p0,0,1,r1\n  J6: the packet has the bytes or the room that the instruction needs\n  known:  p0 first 0\n" \
        "  wanted: p0 first 1\n  help:   iflen p0,1,L before it\n"


def helped(cause: str, reason: str, place: str, cure: str) -> str:
    """The lines for a pipeline, with the place and what helps."""
    return f"{of_pipeline(cause, reason)}  at: {place}\n  help: {cure}\n"


def cures() -> Iterator[Case]:
    """What a user types first, and what helps."""
    for name, (cause, reason, line, cure) in ROUTES.items():
        yield Case(["check", f"{name}_full.toml"], 3, helped(cause, reason, f"{name}_full.toml:{line}", cure), is_whole=True)
    later = "4 BadTable 1 1 3", "no room for another rule", 'later.toml:13: routes = ["11.0.0.0/8 2", "10.0.0.0/8 1"]'
    yield Case(["check", "later.toml"], 3, helped(*later, "route 1 is '10.0.0.0/8 1'; rules = 1 is too small for it: raise rules, to at most 65536"), is_whole=True)
    bad = "7 BadCert port 0 line 7 cause 2", "line 7: this is not a line of 306 hexadecimal digits", "bad.cert:7"
    yield Case(["run", "cert.toml"], 3, helped(*bad, "leave out the key cert, or dpv infer cert.toml port0 > bad.cert"), is_whole=True)
    yield Case(["one", "strip.dpv", "bad.cert", "in.pcap", "out"], 3, helped(*bad, "dpv infer-one strip.dpv > bad.cert"), is_whole=True)
    head = "7 BadCert port 0 line 1 cause 1", "line 1: this is not the head of a certificate", "in.pcap:1"
    yield Case(["explain-one", "bare.dpv", "in.pcap"], 3, helped(*head, "none is inferred: dpv explain-one bare.dpv explains why"), is_whole=True)
    yield Case(["run", "bare.toml"], 3, helped(*head, "none is inferred: leave out the key cert, and dpv explain bare.toml port0 explains why"), is_whole=True)
    for words in (["filter", "bare.dpv", "in.pcap", "out"], ["filter", "bare.dpv", "in.pcap", "out", "--segs", "5"], ["infer-one", "bare.dpv"]):
        yield Case(words, 1, ALONE, is_whole=True)
    for name, line, cure in (("capitals", "IFLEN p0,14,d", "there is no instruction 'IFLEN'; did you mean 'iflen'?"), ("other", "SENT", "there is no instruction 'SENT'; did you mean 'set'?")):
        yield Case(["infer-one", f"{name}.dpv"], 3, helped("6 Asm port 0 line 1 cause 2", NO_NAME, f"{name}.dpv:1: {line}", cure), is_whole=True)
    marked = "6 Asm port 0 line 1 cause 1", "line 1: there is a byte that no program has", "marked.dpv:1: \ufeffexit"
    yield Case(["infer-one", "marked.dpv"], 3, helped(*marked, "the file begins with a byte-order mark, which editors do not show: save it without one"), is_whole=True)
    for name, line in (("capital_pool", "2"), ("other_pool", "6")):
        place = f"{name}.toml:{line}: [[POOL]]"
        yield Case(["check", f"{name}.toml"], 3, helped("2 BadKey top 0", NO_KEY, place, "there is no key 'POOL' here; did you mean 'pool'?"), is_whole=True)
    text, word = ("1 NotToml", "the text is not TOML"), ("6 Asm port 0 line 1 cause 2", NO_NAME)
    run_it = "dpv filter a.pkt IN OUT runs it, and dpv build a.pkt > a.dpv compiles it for a pipeline"
    yield Case(["run", "a.pkt"], 3, helped(*text, "a.pkt", f"{IS_PKT}{run_it}"), is_whole=True)
    yield Case(["run", "strip.dpv"], 3, helped(*text, "strip.dpv", "it is a program: dpv filter strip.dpv IN OUT runs it, dpv explain-one strip.dpv judges it, and dpv show-one strip.dpv prints it"), is_whole=True)
    yield Case(["filter", "sound.toml", "in.pcap", "out"], 3, helped(*word, "sound.toml", "it is a pipeline file: dpv run sound.toml runs it"), is_whole=True)
    yield Case(["run", "pkt_node.toml"], 3, helped(*word, "a.pkt", f"{IS_PKT}dpv build a.pkt > a.dpv compiles it"), is_whole=True)


# The files with routes for routed.toml, whose table 0 has a route and room for two, with the words, the cause, the reason, the line, and what helps.
MORE = {
    "rules.txt": b"# more\n\n11.0.0.0/8 2\n10.0.0.0/8 9\n12.0.0.0/8 3\n",
    "all.txt": b"#\r\n0.0.0.0/0 7",
    "kept.txt": b"10.0.0.0/8 7\n",
    "depth.txt": b"10.0.0.0/33 1\n",
    "hop.txt": b"10.0.0.0/8 16777216\n",
    "deep.txt": b"10.0.0.0/25 1\n",
    "blank.txt": b" 10.0.0.0/8 1\n",
    "quoted.txt": b'\n"10.0.0.0/8 1"\n',
    "marked.txt": "\ufeff10.0.0.0/8 1\n".encode(),
    "tab.txt": "# \u00fc\n10.0.0.0/8\t1\n".encode(),
    "return.txt": b"10.0.0.0/8 1\r",
    "delete.txt": b"10.0.0.0/8 1\n11.0.0.0/8 1\x7f\n",
    "latin.txt": b"# \xfc\n10.0.0.0/8 1\n",
    "long.txt": bytes(1_048_577),
}
ROUTED = [
    (["0=rules.txt"], "4 BadTable 0 3 3", "no room for another rule", "rules.txt:5: 12.0.0.0/8 3", "route 3 is '12.0.0.0/8 3'; rules = 2 is too small for it: raise rules, to at most 65536"),
    (["0=kept.txt", "1=none.txt", "0=all.txt"], "4 BadTable 0 2 1", "the depth is not 1 to 32", "all.txt:2: 0.0.0.0/0 7", f"route 2 is '0.0.0.0/0 7'; {HALVES}"),
    (["1=depth.txt", "1=rules.txt"], "4 BadTable 1 0 1", "the depth is not 1 to 32", "depth.txt:1: 10.0.0.0/33 1", f"route 0 is '10.0.0.0/33 1'; {ROUTE}"),
    (["1=rules.txt", "0=hop.txt"], "4 BadTable 0 1 2", "the hop is above 16777215", "hop.txt:1: 10.0.0.0/8 16777216", f"route 1 is '10.0.0.0/8 16777216'; {ROUTE}"),
    (["0=deep.txt"], "4 BadTable 0 1 4", "no group left", "deep.txt:1: 10.0.0.0/25 1", "route 1 is '10.0.0.0/25 1'; groups = 0 is too small for it: raise groups, to at most 256"),
    (["0=blank.txt"], "4 BadTable 0 1 6", "the route is not written A.B.C.D/DEPTH HOP", "blank.txt:1:  10.0.0.0/8 1", f"route 1 is ' 10.0.0.0/8 1'; {ROUTE}"),
    (["0=quoted.txt"], "4 BadTable 0 1 6", "the route is not written A.B.C.D/DEPTH HOP", 'quoted.txt:2: "10.0.0.0/8 1"', f"route 1 is '\"10.0.0.0/8 1\"'; {ROUTE}"),
]


def route_files() -> Iterator[Case]:
    """Files with routes: each cause for which one is refused, files that are no such text, and tables that the pipeline does not have."""
    for command in ("check", "run", "trace"):
        for words, cause, reason, place, cure in ROUTED:
            given = [word for it in words for word in ("--routes", it)]
            yield Case([command, "routed.toml", *given], 3, helped(cause, reason, place, cure), is_whole=True)
        own = [command, "rules_full.toml", "--routes", "0=all.txt"]
        yield Case(own, 3, helped(*ROUTES["rules"][:2], f"rules_full.toml:{ROUTES['rules'][2]}", ROUTES["rules"][3]), is_whole=True)
        cure = "  help: each line is a route, A.B.C.D/DEPTH HOP, or begins with #\n"
        marked = "it begins with a byte-order mark, which editors do not show: save it without one"
        yield Case([command, "routed.toml", "--routes=0=marked.txt"], 3, file("marked.txt", marked) + cure, is_whole=True)
        for name, line in (("tab.txt", 2), ("return.txt", 1), ("delete.txt", 2)):
            yield Case([command, "routed.toml", f"--routes=0={name}"], 3, file(name, f"line {line} has a character that is not printable ASCII") + cure, is_whole=True)
        yield Case([command, "routed.toml", "--routes=1=latin.txt"], 3, file("latin.txt", "it is not UTF-8") + cure, is_whole=True)
        for name, reason in (("none", system(errno.ENOENT)), ("folder", system(errno.EISDIR)), ("long.txt", "it is longer than 1048576 bytes")):
            yield Case([command, "routed.toml", f"--routes=0={name}"], 3, file(name, reason), is_whole=True)
        its = "its tables are the [[table]] of its file, counted from 0"
        yield Case([command, "routed.toml", "--routes=2=kept.txt"], 2, f"error: the pipeline has no table 2: {its}\n")
        yield Case([command, "both.toml", "--routes=0=none.txt"], 2, f"error: the pipeline has no table 0: {its}\n")
        yield Case([command, "text.toml", "--routes", "3=kept.txt"], 3, of_pipeline("1 NotToml", "the text is not TOML"))
        yield Case([command, "none", "--routes=4=none"], 2, "error: '4=none' is not TABLE=FILE: TABLE a digit from 0 to 3, FILE a file with a route on each line\n")


def in_folders() -> Iterator[Case]:
    """Pipeline files in another folder that name files beside them, or files that are nowhere."""
    missing, cure = system(errno.ENOENT), "  help: run dpv in beside\n"
    program, certificate, capture_of = node("port 0", "its.dpv", missing), node("port 0", "its.cert", missing), file("its.pcap", missing)
    for command in ("check", "run", "trace", "explain"):
        yield Case([command, "beside/program.toml"], 3, program + cure, is_whole=True)
        yield Case([command, "beside/cert.toml"], 3, certificate + cure, is_whole=True)
        yield Case([command, "beside/dir.toml"], 3, node("port 0", "its.dir", missing), is_whole=True)
        yield Case([command, "beside/rooted.toml"], 3, node("port 0", "/its.dpv", missing), is_whole=True)
        yield Case([command, "beside/nowhere.toml"], 3, node("port 0", "none", missing), is_whole=True)
    for command in ("run", "trace"):
        yield Case([command, "beside/capture.toml"], 3, capture_of + cure, is_whole=True)
        yield Case([command, "./beside/capture.toml"], 3, capture_of + cure.replace("in ", "in ./"), is_whole=True)
        yield Case([command, "no_input.toml"], 3, file("none", missing), is_whole=True)


def full_disks() -> Iterator[Case]:
    """Outputs that are full, at once or at the end of the run; of two, the first is reported."""
    full = system(errno.ENOSPC)
    yield strips("in.pcap", "/dev/full", of_output(0, "/dev/full", full))
    yield strips("many.pcap", "/dev/full", of_output(0, "/dev/full", full))
    yield Case(["run", "full.toml"], 3, of_output(1, "/dev/full", full))
    yield Case(["run", "both_full.toml"], 3, of_output(0, "/dev/full", full))
    yield Case(["run", "late_full.toml"], 3, of_output(1, "/dev/full", full))


def pipelines() -> Iterator[Case]:
    """Pipelines with each cause; a program that is refused has no reason on standard error."""
    key = "a key is missing, unknown, of the wrong type or out of its range"
    reported = {
        "text": ("1 NotToml", "the text is not TOML"),
        "top": ("2 BadKey top 0", key),
        "port": ("2 BadKey port 0", key),
        "env": ("3 BadEnv 4 0", "port 0 is not within the limits"),
        "pools": ("3 BadEnv 1 0", "there are too few or too many pools, tables, rings or ports"),
        "no_pool": ("3 BadEnv 2 3", "pool 3 is not within the limits"),
        "no_ring": ("3 BadEnv 3 7", "ring 7 is not within the limits"),
        "no_port": ("3 BadEnv 4 1", "port 1 is not within the limits"),
        "many_buffers": ("3 BadEnv 5 0", "the pools have too many buffers in all"),
        "route": ("4 BadTable 0 1 3", "no room for another rule"),
        "depth": ("4 BadTable 0 0 1", "the depth is not 1 to 32"),
        "hop": ("4 BadTable 0 0 2", "the hop is above 16777215"),
        "unread_route": ("4 BadTable 0 0 6", "the route is not written A.B.C.D/DEPTH HOP"),
        "asm": ("6 Asm port 0 line 2 cause 5", "line 2: an operand is not a number, or is out of its range"),
        "cert": ("7 BadCert port 0 line 7 cause 2", "line 7: this is not a line of 306 hexadecimal digits"),
    }
    for name, (cause, reason) in reported.items():
        yield Case(["check", f"{name}.toml"], 3, of_pipeline(cause, reason))
        yield Case(["run", f"{name}.toml"], 3, of_pipeline(cause, reason))
    yield Case(["explain", "text.toml"], 3, of_pipeline(*reported["text"]))
    yield Case(["show", "text.toml", "port0"], 3, of_pipeline(*reported["text"]))


def same_files() -> Iterator[Case]:
    """Outputs that are inputs: by the same name, another name, a link, and the name of another port's input."""
    yield strips("kept.pcap", "kept.pcap", clash("kept.pcap", "kept.pcap"))
    yield strips("kept.pcap", "./folder/../kept.pcap", clash("./folder/../kept.pcap", "kept.pcap"))
    yield strips("kept.pcap", "hard.pcap", clash("hard.pcap", "kept.pcap"))
    yield strips("soft.pcap", "kept.pcap", clash("kept.pcap", "soft.pcap"))
    yield strips("/dev/stdin", "kept.pcap", clash("kept.pcap", "/dev/stdin"))
    yield Case(["run", "crossed.toml"], 3, clash("kept.pcap", "kept.pcap"))
    yield Case(["run", "own_routes.toml", "--routes", "0=kept.txt"], 3, clash("kept.txt", "kept.txt"))


def no_text() -> Iterator[Case]:
    """Words that are not UTF-8, at any place."""
    for words in (["\udcff"], ["check", "\udcff"], ["run", "both.toml", "--refuse", "\udc80"], ["check", "\udcff", "more"]):
        yield Case(words, 2, "error: an argument is not UTF-8\n")


def options() -> Iterator[Case]:
    """Words that are no numbers within their ranges, and words that name no node."""
    for name, least, most, words in (("room", 129, 4096, ("0", "128", "4097", "", "x", "+129")), ("segs", 1, 64, ("0", "65", "", "-1"))):
        for word in words:
            reported = f"error: --{name} '{word}' is not a number from {least} to {most}\n"
            yield Case(["filter", "none", "none", "none", f"--{name}={word}"], 2, reported)
    for word in ("port", "port10", "x", "Port0"):
        yield Case(["infer", "none", word], 2, f"error: '{word}' names no node: port or ring, and one digit\n")
        yield Case(["explain", "none", word], 2, f"error: '{word}' names no node: port or ring, and one digit\n")


def traces() -> Iterator[Case]:
    """Words of `dpv trace` that are not a port or a number of records, or that pick no records, before any file is read; and ports and labels
    that the pipeline does not have."""
    for port in ("8", "256", "", "+1", "-1", "port0"):
        yield Case(["trace", "none", f"--port={port}"], 2, f"error: '{port}' is not a port: a number from 0 to 7\n")
    for count in ("0", "134217729", "", "+1", "-1", "ten"):
        yield Case(["trace", "none", f"--records={count}"], 2, f"error: '{count}' is not a number of records: from 1 to 134217728\n")
    for port in ("2", "7"):
        yield Case(["trace", "none", "--port", port], 3, file("none", system(errno.ENOENT)))
        yield Case(["trace", "both.toml", "--port", port], 2, f"error: the pipeline has no port {port}\n")
    for which in ("late", "0", "", "-1", "134217729"):
        reported = f"error: '{which}' is none of sent, freed, refused and cut, and no number of a record\n"
        yield Case(["trace", "none", f"--only={which}"], 2, reported)
    yield Case(["trace", "both.toml", "--instr", "nowhere"], 2, "error: no program has an instruction 'nowhere'\n")
    for word in ("sho", "short:", "Short"):
        yield Case(["trace-one", "strip.dpv", "strip.cert", "in.pcap", "--instr", word], 2, f"error: no program has an instruction '{word}'\n")
    for number in ("4", "1024"):
        yield Case(["trace", "both.toml", "--instr", number], 2, f"error: no program has an instruction '{number}'\n")
    yield Case(["trace", "no_header.toml", "--only", "sent"], 3, of_input(0, 6, "short.pcap", "fewer than the 24 bytes of a header"))
    yield Case(["trace", "both.toml", "--port", "1", "--records", "1", "--only", "sent", "--instr", "0"], 0, "")
    yield Case(["trace", "both.toml", "--port", "1", "--records", "1"], 0, "")
    for more in ("--only=01", "--instr=+0", "--instr=000000", "--match=::02:00:@0", "--match=02@000000"):
        yield Case(["trace-one", "strip.dpv", "strip.cert", "in.pcap", more], 0, "")
    for pattern in ("256.0.0.1", "1.0.0.0x1", "00@65536", "@0", "00@", "0g@0"):
        yield Case(["trace-one", "none", "none", "none", "--match", pattern], 2, f"error: '{pattern}' is neither an address A.B.C.D nor BYTES@OFFSET, as 0800@12\n")
    for pattern in ("+10.0.0.1", "0800@+12", "10.0.0", "080@12", "0:800@12", f"{17 * '00'}@0"):
        yield Case(["trace", "none", "--match", pattern], 2, f"error: '{pattern}' is neither an address A.B.C.D nor BYTES@OFFSET, as 0800@12\n")
    unmatched = "note: no record of the trace was selected\n"
    for more in (["--only", "99"], ["--match", "ff@60000"], ["--only", "99", "--json"]):
        yield Case(["trace", "both.toml", *more], 0, unmatched)
        yield Case(["trace-one", "strip.dpv", "strip.cert", "in.pcap", *more], 0, unmatched)
    yield Case(["trace", "both.toml", "--instr", "d"], 0, unmatched)
    yield Case(["trace-one", "strip.dpv", "strip.cert", "in.pcap", "--port", "1"], 2, "error: the pipeline has no port 1\n")
    yield Case(["trace-one", "none", "none", "none", "--port", "8"], 2, "error: '8' is not a port: a number from 0 to 7\n")
    yield Case(["trace-one", "strip.dpv", "strip.cert", "none"], 3, file("none", system(errno.ENOENT)))
    # Of several wrong words one is reported; and a trace of no records says so only if some were selected.
    wrong = ["--match=x", "--only=late", "--port=8", "--records=0"]
    for reported in ("'0' is not a number of records: from 1 to 134217728", "'8' is not a port: a number from 0 to 7",
                     "'late' is none of sent, freed, refused and cut, and no number of a record"):
        yield Case(["trace", "none", *wrong], 2, f"error: {reported}\n")
        wrong = wrong[:-1]
    yield Case(["trace-one", "strip.dpv", "strip.cert", "no_records.pcap"], 0, "")
    yield Case(["trace-one", "strip.dpv", "strip.cert", "no_records.pcap", "--only", "1"], 0, unmatched)


def in_all(*counts: int) -> str:
    """The last lines of a run with --progress."""
    return "".join(f"progress: port {port}: {count} records read in all\n" for port, count in enumerate(counts))


def progress() -> Iterator[Case]:
    """Runs with --progress, also ones that stop; if the captures are missing nothing is read."""
    one, step = ["one", "--progress", "strip.dpv", "strip.cert"], f"progress: port 0: {MILLION} records read\n"
    yield Case([*one, "many.pcap", "out"], 0, in_all(2000))
    yield Case([*one, "little.pcap", "/dev/null"], 0, step + in_all(MILLION + 1))
    yield Case([*one, "two_millions.pcap", "/dev/null"], 0, step + step.replace("1", "2") + in_all(2 * MILLION + 1))
    yield Case(["run", "--progress", "million.toml"], 0, step.replace("port 0", "port 1") + in_all(1, MILLION + 1))
    for name in ("little.pcap", "big.pcap"):
        yield Case(["one", *one[2:], name, "/dev/null"], 0, "")
    yield Case([*one, "link.pcap", "out"], 3, in_all(0) + of_input(0, 3, "link.pcap", "the link type is 101 RAW, and not 1 ETHERNET"))
    yield Case([*one, "none", "out"], 3, file("none", system(errno.ENOENT)))
    yield Case(["run", "--progress", "both.toml"], 0, in_all(1, 2))
    yield Case(["run", "late_full.toml", "--progress"], 3, in_all(1, 2) + of_output(1, "/dev/full", system(errno.ENOSPC)))


def drops() -> Iterator[Case]:
    """Runs that reach their end and sent fewer packets than came in, each with its cure."""
    yield Case(["run", "narrow.toml"], 0, "port 0: 1 record is longer than it takes (64 bytes): raise segs or room\n")
    filtered = ["filter", "forward.dpv", "wide.pcap", "out"]
    yield Case([*filtered, "--room", "129"], 0, "port 0: 1 record is longer than it takes (1 byte): raise --segs or --room\n")
    yield Case([*filtered, "--room", "192"], 0, "port 0: 1 record is longer than it takes (64 bytes): raise --segs or --room\n")
    yield Case([*filtered, "--room", "192", "--segs", "2"], 0, "")
    yield Case(["filter", "forward.dpv", "widest.pcap", "out", "--room", "4096", "--segs", "64"], 0, "port 0: 1 record is longer than it takes (253952 bytes): no pipeline may have more\n")
    yield Case([*filtered[:2], "widest.pcap", "out", "--room", "4096"], 0, "port 0: 1 record is longer than it takes (3968 bytes): raise --segs or --room\n")
    yield Case(["one", "strip.dpv", "strip.cert", "widest.pcap", "out"], 0, "port 0: 1 record is longer than it takes (2048 bytes): a pipeline file may give more\n")
    yield Case(["run", "both.toml", "--refuse", "1"], 0, "port 0: 1 record got no buffers: --refuse refused 1 call\n")
    refused = "1 record got no buffers: --refuse refused 2 calls\n"
    yield Case(["run", "both.toml", "--refuse", "1,2"], 0, f"port 0: {refused}port 1: {refused}")
    for name, said in (("full", "port 0: its transmit list was full 1 time when a packet came"), ("empty", "pool 0: alloc or clone got no buffers 1 time")):
        yield Case(["filter", f"{name}.dpv", "one.pcap", "out"], 0, f"{said}: a pipeline file may give more\n")
    yield Case(["run", "empty.toml"], 0, "pool 0: alloc or clone got no buffers 1 time: raise the count of pool 0\n")
    left = "a turn runs 32 packets from rings at most; let programs put fewer into rings for each record"
    yield Case(["run", "looped.toml"], 0, f"ring 0: 1 packet was left at the end: {left}\n")
    # The record has 8 of the 65,535 buffers, each with a byte, and the others come into a ring, of which the record's turn runs 32.
    most = f"ring 0: {65535 - 8 - 32} packets were left at the end: {left}\npool 0: alloc or clone got no buffers 1 time: no pipeline may have more\n"
    yield Case(["run", "most.toml"], 0, most)
    cut = "it took more than 256 backward jumps, and its packets were freed; --counts shows which loop"
    yield Case(["run", "endless.toml"], 0, f"1 node run was cut: {cut}\n")
    snap = "port 0: 1 record was cut by the capture's snap length: capture with a larger -s\n"
    yield Case(["one", "strip.dpv", "strip.cert", "snapped.pcap", "out"], 0, snap)


def nothing_reported() -> Iterator[Case]:
    """Runs without messages; devices are not emptied."""
    yield Case(["one", "strip.dpv", "strip.cert", "in.pcap", "out"], 0, "")
    yield Case(["one", "strip.dpv", "strip.cert", "in.pcap", "/dev/null"], 0, "")
    yield Case(["one", "strip.dpv", "strip.cert", "/dev/null", "/dev/null"], 3, of_input(0, 6, "/dev/null", "fewer than the 24 bytes of a header"))
    yield Case(["run", "both.toml"], 0, "")


def header_of(order: str, link: int) -> bytes:
    """The header of a capture with this link type."""
    return struct.pack("<IHHIIII" if order == "little" else ">IHHIIII", 0xA1B2C3D4, 2, 4, 0, 0, 262144, link)


def make_more(folder: pathlib.Path) -> None:
    """The files that the cases name beside those of tests/program/faults.py."""
    table = '[[table]]\nrules = 1\ngroups = 0\nroutes = ["{}"]\n'
    texts = {
        "pools": pipeline(["none"]).replace(POOL, 9 * POOL),
        "no_pool": pipeline(["none"]).replace(POOL, 3 * POOL + POOL.replace("count = 4", "count = 0")),
        "no_ring": pipeline(["none"], 8 * ["none"])[::-1].replace("segs = 64"[::-1], "segs = 65"[::-1], 1)[::-1],
        "no_port": pipeline(["none", "none"])[::-1].replace("segs = 1"[::-1], "segs = 0"[::-1], 1)[::-1],
        "many_buffers": pipeline(["none"]).replace(POOL, POOL + POOL.replace("count = 4", "count = 65532")),
        "depth": pipeline(["none"], table=table.format("10.0.0.0/33 1")),
        "hop": pipeline(["none"], table=table.format("10.0.0.0/8 16777216")),
        "unread_route": pipeline(["none"], table=table.format("10.0.0.0 1")),
        "routed": pipeline(["none"], table=table.replace("1", "2").format("10.0.0.0/8 1") + "[[table]]\nrules = 9\ngroups = 0\nroutes = []\n"),
        # (the second table has no room for a route that the first one has)
        "later": pipeline(["none"], table=table.format("10.0.0.0/8 1") + table.format('11.0.0.0/8 2", "10.0.0.0/8 1')),
        "late_full": run_of(["one.pcap", "two.pcap"], ["out0", "/dev/full"]),
        "crossed": run_of(["one.pcap", "kept.pcap"], ["kept.pcap", "out1"]),
        "million": run_of(["one.pcap", "big.pcap"], ["/dev/null", "/dev/null"]),
        "two_links": run_of(["one.pcap", "101.big.pcap"], ["out0", "out1"]),
        "narrow": run_of(["wide.pcap"], ["out0"]).replace("room = 2176", "room = 192"),
        "looped": pipeline(["loop.dpv"], ["loop.dpv"]).replace('in = "none"', 'in = "one.pcap"').replace('out = "none/none"', 'out = "out0"'),
        "most": "region = 33554432\n" + POOL.replace("count = 4", "count = 65535").replace("2176", "129")
        + '[[ring]]\ncount = 65536\nshare = 0\nhead = 0\ntail = 0\nfirst = 0\nlast = 0\nsegs = 1\nnode = "drop.dpv"\n'
        + '[[port]]\npool = 0\nsegs = 64\nqueue = 2\nnode = "most.dpv"\nin = "one.pcap"\nout = "out0"\n',
        "endless": run_of(["one.pcap"], ["out0"]).replace("forward.dpv", "endless.dpv"),
        "empty": run_of(["one.pcap"], ["out0"], 262144).replace("forward.dpv", "empty.dpv").replace("count = 4", "count = 64"),
        "ring_unfit": pipeline(["strip.dpv strip.cert"], ["lost6.dpv strip.cert"]),
        "bare": pipeline(["bare.dpv in.pcap"]),
        "capital_pool": pipeline(["strip.dpv"]).replace("[[pool]]", "[[POOL]]"),
        "other_pool": pipeline(["strip.dpv"], table=POOL.replace("pool", "POOL")),
        "pkt_node": pipeline(["a.pkt"]),
        "beside/program": pipeline(["its.dpv"]),
        "beside/cert": pipeline(["strip.dpv its.cert"]),
        "beside/dir": pipeline(["its.dir"]),
        "beside/rooted": pipeline(["/its.dpv"]),
        "beside/nowhere": pipeline(["none"]),
        "own_routes": run_of(["one.pcap"], ["kept.txt"]) + table.replace('"{}"', ""),
        "beside/capture": run_of(["its.pcap"], ["out0"]),
    }
    data = {
        "magic.pcap": b"\0" + ONE[1:],
        "new.pcapng": struct.pack("<IIIHHqI", 0x0A0D0D0A, 28, 0x1A2B3C4D, 1, 0, -1, 28),
        "modified.pcap": struct.pack("<I", 0xA1B2CD34) + ONE[4:],
        "swapped.pcap": struct.pack(">I", 0xA1B2CD34) + ONE[4:],
        "version.pcap": ONE[:6] + b"\5" + ONE[7:],
        "time.pcap": HEADER + struct.pack("<IIII", 1, 1_000_000, 4, 4) + b"data",
        "large.pcap": HEADER + struct.pack("<IIII", 1, 2, 262_145, 262_145),
        "many.pcap": capture(*(2000 * [bytes(60)])),
        "little.pcap": HEADER + (MILLION + 1) * struct.pack("<IIII", 1, 2, 0, 0),
        "two_millions.pcap": HEADER + (2 * MILLION + 1) * struct.pack("<IIII", 1, 2, 0, 0),
        "no_records.pcap": HEADER,
        "big.pcap": struct.pack(">IHHIIII", 0xA1B2C3D4, 2, 4, 0, 0, 262144, 1) + (MILLION + 1) * struct.pack(">IIII", 1, 2, 0, 0),
        "kept.pcap": ONE,
        "closed": ONE,
        "bare.dpv": b"store p0,0,1,r1\nfree p0\nexit\n",
        "capitals.dpv": b"IFLEN p0,14,d\n",
        "other.dpv": b"SENT\n",
        "marked.dpv": "\ufeffexit\n".encode(),
        "a.pkt": b"send port\n",
        **dict.fromkeys(("beside/its.dpv", "beside/its.cert", "beside/its.pcap"), b"something"),
        **{f"packed.{tool}": begin + bytes(30) for tool, begin in PACKED.items()},
        **{f"front{number}.pcap": content for number, (content, _, _) in enumerate(FRONTS)},
        "lost6.dpv": 6 * b"exit\n",
        "loop.dpv": b"enq p0,0,d\nexit\nd: free p0\nexit\n",
        "endless.dpv": b"a: jmp a\n",
        "most.dpv": b"a: " + 255 * b"alloc p1,0,d\nenq p1,0,f\n" + b"jmp a\nf: free p1\nd: free p0\nexit\n",
        "drop.dpv": b"free p0\nexit\n",
        # The list of a port has 31 places, and its pool 64 buffers; one is that of the record.
        "full.dpv": 32 * b"clone p1,p0,0,d\ntx p1,r0,f\n" + b"free p0\nexit\nf: free p1\nd: free p0\nexit\n",
        "empty.dpv": 63 * b"alloc p1,0,d\nchain p0,p1\n" + b"alloc p1,0,d\nfree p1\nd: free p0\nexit\n",
        "wide.pcap": capture(bytes(100)),
        "widest.pcap": capture(bytes(262_144)),
        **MORE,
        "none.txt": b"",
        "snapped.pcap": HEADER + struct.pack("<IIII", 1, 2, 4, 60) + b"data",
        "checksums.pcap": header_of("little", 0x2400_0001),
        "bits.pcap": header_of("little", 0x0001_0001),
        "cooked.pcap": header_of("big", 0x2400_0071),
        "nearly.xz": b"\xfd7zXZ" + bytes([1] * 30),
    }
    data.update((f"{link}.{order}.pcap", header_of(order, link)) for link in LINKS for order in ("little", "big"))
    for name, (rules, groups, routes) in TABLES.items():
        lines = "".join(f'    "{it}",\n' for it in routes)
        texts[f"{name}_full"] = pipeline(["none"], table=f"[[table]]\nrules = {rules}\ngroups = {groups}\nroutes = [\n{lines}]\n")
    (folder / "beside/its.dir").mkdir(parents=True)
    for name, text in texts.items():
        (folder / f"{name}.toml").write_text(text)
    for name, bytes_of in data.items():
        (folder / name).write_bytes(bytes_of)
    (folder / "closed").chmod(0)
    os.link(folder / "kept.pcap", folder / "hard.pcap")
    (folder / "soft.pcap").symlink_to("kept.pcap")


def ends_so(program: str, case: Case, folder: pathlib.Path, user: int | None = None) -> bool:
    """Whether the program ends as the case says, and leaves the kept capture unchanged."""
    with open(folder / "kept.pcap", "rb") as given:
        run = subprocess.run([program, *case.words], cwd=folder, stdin=given, capture_output=True, text=True, timeout=60, user=user)
    kept = (folder / "kept.pcap").read_bytes() == ONE
    # (the line at fault of a text and its cure are tests/program/mistakes.py's)
    whole = said("", run.stderr, folder)[1]
    reported = whole if case.is_whole else re.sub(r"(?m)^  (?:at|help): .*\n", "", whole)
    passed = (run.returncode, reported, kept) == (case.status, case.reported, True)
    if not passed:
        print(f"dpv {' '.join(case.words)}: status {run.returncode}, reported {whole!r} and not {case.reported!r}" + ("" if kept else "; the capture is gone"))
    return passed


def as_nobody(program: str, folder: pathlib.Path) -> list[bool]:
    """Those that need a user who may not read everything."""
    near = shutil.copy(program, folder / "dpv")
    for place in (folder, folder.parent):
        place.chmod(0o755)
    user = NOBODY if os.geteuid() == 0 else None
    return [ends_so(near, case, folder, user) for case in closed()]


def goes_on(program: str, folder: pathlib.Path) -> bool:
    """Whether a run that cannot print its progress reaches its end, and ends with status 3, since what it reports is lost."""
    words = [program, "one", "--progress", "strip.dpv", "strip.cert", "little.pcap", "out"]
    with open("/dev/full", "wb") as full:
        run = subprocess.run(words, cwd=folder, stdout=subprocess.PIPE, stderr=full, text=True, timeout=60)
    passed = run.returncode == 3 and run.stdout.startswith(f"port 0 received {MILLION + 1} ")
    if not passed:
        print(f"dpv one --progress to a full disk: status {run.returncode}, printed {run.stdout!r}")
    return passed


def main() -> int:
    """All of it."""
    program = asked()
    with nested_folder() as folder:
        make_files(folder)
        make_more(folder)
        kinds = (files, captures, links, unfit, cures, route_files, in_folders, full_disks, pipelines, same_files, no_text, options, progress, drops, nothing_reported)
        passed = [ends_so(program, case, folder) for kind in kinds for case in kind()]
        with new_folder() as other:
            said = saying(program, other)
            passed += [ends_so(said, case, folder) for case in traces()]
        passed.append(goes_on(program, folder))
        passed += as_nobody(program, folder)
    return report_cases("messages", passed)


if __name__ == "__main__":
    sys.exit(main())
