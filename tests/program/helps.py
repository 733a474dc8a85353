#!/usr/bin/env python3
"""Tests what the built program dpv says helps, to the byte: with mistakes in programs and pipeline files, and for what a run lost.

Usage: tests/program/helps.py [PROGRAM]   (the built program; by default the one that ./dpv builds and runs)
Programs of one line, or a few, with each kind of mistake; a pipeline with every key, of which each in turn is missing or has a wrong value; and
environments that are none. Then runs that lose packets in each way, at a port, ring and pool that is not the first: the notes, the
places of --drops, the same numbers in the document of --json, and what a trace says of each record. Then the counts of a run by lines and by names.
Prints a line for each case that failed, and a count; exits with 1 if one failed.
"""
import json
import pathlib
import subprocess
import sys

import paths  # noqa: F401

from command import asked, new_folder, ran, report_cases, said, saying
from faults import HEADER, capture
from model.machine import Env, Pool, Port, Ring

# ---- programs

REGISTER, NUMBER = "an operand is not a register: p0 to p7 for a packet, r0 to r7 for a number", "an operand is not a number, or is out of its range"
LABEL, NAME = "has to be the name of a label: a letter or _, then letters, digits or _, at most 31 in all", "no instruction has this name"
FEW, UNKNOWN = "there are too few or too many operands", "the label is not given, or no instruction follows it"
# Programs, each with the line at fault, the cause, its words, and what helps.
PROGRAMS: list[tuple[bytes, int, int, str, str]] = [
    (b"adj p8,1\nexit\n", 1, 4, REGISTER, "'p8' has to be a packet register, p0 to p7"),
    (b"add p1,2\n", 1, 4, REGISTER, "'p1' has to be a number register, r0 to r7"),
    (b"add 5,1\n", 1, 4, REGISTER, "'5' has to be a number register, r0 to r7; set puts a number into one"),
    (b"add +5,1\n", 1, 4, REGISTER, "'+5' has to be a number register, r0 to r7; set puts a number into one"),
    (b"adj p0,x\n", 1, 5, NUMBER, "'x' has to be a number from 0 to 65535"),
    (b"set r0,0x10000000000000000\n", 1, 5, NUMBER, "'0x10000000000000000' has to be a number from 0 to 18446744073709551615"),
    (b"load r1,p0,0,3\n", 1, 5, NUMBER, "'3' has to be a width in bytes: 1, 2, 4 or 8"),
    (b"add r1,x\n", 1, 5, NUMBER, "'x' has to be a number register, r0 to r7, or a number"),
    (b"tx p0,r0,9a\n", 1, 6, "a label is not a name", f"'9a' {LABEL}"),
    (b"9a: exit\n", 1, 6, "a label is not a name", f"'9a' {LABEL}"),
    (b"exit\ntx p0,r0\n", 2, 3, FEW, "it is written tx PACKET,REGISTER,LABEL"),
    (b"exit p0\n", 1, 3, FEW, "it is written exit"),
    (b"loadx r1\n", 1, 3, FEW, "it is written loadx REGISTER,PACKET,REGISTER,NUMBER,WIDTH"),
    (b"add r1\n", 1, 3, FEW, "it is written add REGISTER,REGISTER-OR-NUMBER"),
    (b"// no\n", 1, 2, NAME, "a comment begins with #"),
    (b"exit\n; no\n", 2, 2, NAME, "a comment begins with #"),
    (b"qqqqqqqq\n", 1, 2, NAME, "there is no instruction 'qqqqqqqq'"),
    (b"x\n", 1, 2, NAME, "there is no instruction 'x'"),
    (b"prepned p0,1\n", 1, 2, NAME, "there is no instruction 'prepned'; did you mean 'prepend'?"),
    (b"exit\nfree p0 \xc3\xbc\n", 2, 1, "there is a byte that no program has", "character 9 is not a printable ASCII character"),
    (b"free\tp0 \xc3\xbc\nexit\n", 1, 1, "there is a byte that no program has", "character 9 is not a printable ASCII character"),
    (b"exit\n  free p0 \xc3\xbc\n", 2, 1, "there is a byte that no program has", "character 11 is not a printable ASCII character"),
    (b"exit \r \xc3\xbc\n", 1, 1, "there is a byte that no program has", "character 8 is not a printable ASCII character"),
    (b"exit\n\xef\xbb\xbfexit\n", 2, 1, "there is a byte that no program has", "character 1 is not a printable ASCII character"),
    (b"a: free p0\nb: exit\na: exit\n", 3, 7, "the label was given before", "'a' is the label of line 1, too"),
    (b"a: a: exit\n", 1, 7, "the label was given before", "each label is given once"),
    (b"exit\njmp agan\nagain: exit\n", 2, 8, UNKNOWN, "no line defines the label 'agan'; did you mean 'again'?"),
    (b"jmp zzzzzz\nexit\n", 1, 8, UNKNOWN, "no line defines the label 'zzzzzz'"),
    (b"jmp a\na:\n", 1, 8, UNKNOWN, "no instruction follows the label 'a' of line 2"),
    (b"# " + 1_000_000 * b"x" + b"\nexit\nqqqqqqqq\n", 3, 2, NAME, "there is no instruction 'qqqqqqqq'"),
    (1025 * b"exit\n", 1025, 9, "there is no instruction, or there are more than 1024", "a program has 1 to 1024 instructions"),
]
# Words of other languages, and the instruction that does it.
MEANT = {
    "free": ["drop"], "tx": ["pass", "send", "output"], "enq": ["enqueue", "queue"], "exit": ["ret", "return"], "jmp": ["goto", "ja"], "clone": ["copy"],
    "load": ["ld"], "store": ["st"], "set": ["li"],
}
# Texts that are no programs: what is said after the line of the fault, without its number.
OTHERS: list[tuple[bytes, str, int, int, str]] = [
    (b"# nothing\n", "there is no instruction, or there are more than 1024", 0, 9, "a program has 1 to 1024 instructions"),
    (b"exit\n# \xfc\n", "line 2: there is a byte that no program has", 2, 1, "a program is printable ASCII"),
    (HEADER, "line 1: there is a byte that no program has", 1, 1, "it is a capture, and comes after the program: dpv filter PROGRAM IN OUT"),
]


def asm(line: int, cause: int, reason: str, place: str, cure: str) -> str:
    """What is reported of a program that is not read."""
    return f"fault: pipeline 6 Asm port 0 line {line} cause {cause}\n  because: {reason}\n  at: node.dpv{place}\n  help: {cure}\n"


def programs() -> list[tuple[bytes, str]]:
    """Texts in place of a program, and what is reported of each."""
    meant = [(f"{it} p0\n".encode(), 1, 2, NAME, f"there is no instruction '{it}': {own} does it") for own, all_of in MEANT.items() for it in all_of]
    cases = []
    for data, line, cause, reason, cure in PROGRAMS + meant:
        place = f":{line}: {data.decode().split(chr(10))[line - 1].strip()}"
        cases.append((data, asm(line, cause, f"line {line}: {reason}", place, cure)))
    return cases + [(data, asm(line, cause, reason, "", cure)) for data, reason, line, cause, cure in OTHERS]


# ---- pipelines

REGION, POWER, WORDS = "a multiple of 64 from 4096 to 1073741824", "a power of two from 2 to 65536", "a text in quotes"


def whole(low: int, high: int) -> str:
    """What the value of a key must be that has a number."""
    return f"a whole number from {low} to {high}"


# The keys of each part of a pipeline: the value of each, and what it must be.
PARTS: dict[str, dict[str, tuple[str, str]]] = {
    "top": {"region": ("1048576", REGION)},
    "pool": {"count": ("8", whole(1, 65_535)), "cache": ("0", whole(0, 512)), "room": ("2176", whole(0, 4096))},
    "table": {"rules": ("4", whole(1, 65_536)), "groups": ("1", whole(0, 256)), "routes": ("[]", 'an array of texts, as ["10.0.0.0/8 1"]')},
    "ring": {
        "count": ("8", POWER), "share": ("0", whole(0, 2)), "head": ("0", whole(0, 65_535)), "tail": ("0", whole(0, 65_535)),
        "first": ("0", whole(0, 65_535)), "last": ("0", whole(0, 65_535)), "segs": ("1", whole(1, 64)), "node": ('"n"', WORDS), "cert": ('"c"', WORDS),
    },
    "port": {
        "pool": ("0", whole(0, 7)), "segs": ("1", whole(1, 64)), "queue": ("4", POWER), "node": ('"n"', WORDS), "cert": ('"c"', WORDS), "in": ('"a"', WORDS),
        "out": ('"b"', WORDS),
    },
}
KEY = "a key is missing, unknown, of the wrong type or out of its range"
Line = tuple[str, str, str]


def lines_of() -> list[Line]:
    """The lines of a pipeline with every key: of each its part and its key, none for a header."""
    lines = []
    for part, keys in PARTS.items():
        lines += [] if part == "top" else [(part, "", f"[[{part}]]")]
        lines += [(part, key, f"{key} = {value}") for key, (value, _) in keys.items()]
    return lines


def text_of(lines: list[Line]) -> bytes:
    """A pipeline of these lines."""
    return "".join(f"{text}\n" for _, _, text in lines).encode()


def place_of(lines: list[Line], part: str, key: str) -> str:
    """The place of a key, or else of the header of its part."""
    for wanted in (key, ""):
        for number, (own, name, text) in enumerate(lines, 1):
            if (own, name) == (part, wanted):
                return f"it.toml:{number}: {text}"
    return "it.toml"


def keys() -> list[tuple[bytes, str]]:
    """Pipelines of which a key is missing or has a wrong value, and what is reported of each."""
    all_of, cases = lines_of(), []
    for part, key, _ in all_of:
        if key:
            wanted, fault = PARTS[part][key][1], f"fault: pipeline 2 BadKey {part} 0\n  because: {KEY}\n"
            wrong = [(part, key, f"{key} = -1") if (own, name) == (part, key) else (own, name, text) for own, name, text in all_of]
            cases.append((text_of(wrong), f"{fault}  at: {place_of(wrong, part, key)}\n  help: '{key}' has to be {wanted}\n"))
            gone = [it for it in all_of if it[:2] != (part, key)]
            if key != "cert":
                cases.append((text_of(gone), f"{fault}  at: {place_of(gone, part, key)}\n  help: the key '{key}' is missing: it has to be {wanted}\n"))
    return cases


SEVEN = 6 * b"[[table]]\nrules = 4\ngroups = 1\nroutes = []\n"
RING, PORT = (text_of([it for it in lines_of() if it[0] == part]) for part in ("ring", "port"))
# How captures begin: in both byte orders, with microseconds and nanoseconds; and pcapng.
MAGIC = [bytes.fromhex(it) for it in ("d4c3b2a1", "a1b2c3d4", "4d3cb2a1", "a1b23c4d", "0a0d0d0a")]
# What of the pipeline with every key is replaced, the cause, the reason, the place, and what helps.
CHANGED: list[tuple[bytes, bytes, str, str, str, str]] = [
    (b"[[pool]]", b"[pool]", "2 BadKey top 0", KEY, "", "'pool' has to be given by tables in double brackets, as [[port]]"),
    (b"queue", b"quee", "2 BadKey port 0", KEY, ":23: quee = 4", "there is no key 'quee' here; did you mean 'queue'?"),
    (b"queue", b"zzzz", "2 BadKey port 0", KEY, ":23: zzzz = 4", "there is no key 'zzzz' here"),
    (b"room = 2176", b"room = 4097", "3 BadEnv 2 0", "pool 0 is not within the limits", ":5: room = 4097", f"'room' has to be {whole(0, 4096)}"),
    (b"cache = 0", b"cache = 6", "3 BadEnv 2 0", "pool 0 is not within the limits", ":4: cache = 6", "3 x cache is at most 2 x count"),
    (b"segs = 1", b"segs = 65", "3 BadEnv 3 0", "ring 0 is not within the limits", ":17: segs = 65", f"'segs' has to be {whole(1, 64)}"),
    (b"pool = 0", b"pool = 3", "3 BadEnv 4 0", "port 0 is not within the limits", ":21: pool = 3",
     "pools are counted from 0 (here 1), and a port needs one with a room of at least 129"),
    (b"[[table]]", b"[[pool]]\ncount = 65535\ncache = 0\nroom = 0\n[[table]]", "3 BadEnv 5 0", "the pools have too many buffers in all", "",
     "the counts of all pools together are at most 65535"),
    (b"[[table]]", SEVEN + b"[[table]]", "3 BadEnv 1 0", "there are too few or too many pools, tables, rings or ports", "",
     "pools are 1 to 8 (here 1), tables 0 to 4 (7), rings 0 to 8 (1), ports 1 to 8 (1)"),
    (b"region =", b"# \xfc\nregion =", "1 NotToml", "the text is not TOML", "", "a pipeline file is UTF-8"),
    *((b"region =", it + b"region =", "1 NotToml", "the text is not TOML", "", "it is a capture: dpv filter PROGRAM it.toml OUT runs a program on it") for it in [HEADER, *MAGIC]),
    *((b"region = 1048576", f"region = {it}".encode(), "2 BadKey top 0", KEY, f":1: region = {it}", f"'region' has to be {REGION}") for it in (4100, 4032, 1073741888)),
    *((b"queue = 4", f"queue = {it}".encode(), "3 BadEnv 4 0", "port 0 is not within the limits", f":23: queue = {it}", f"'queue' has to be {POWER}") for it in (1, 131072)),
    # The first of two keys has its greatest value.
    (b"rules = 4\ngroups = 1", b"rules = 65536\ngroups = -1", "2 BadKey table 0", KEY, ":8: groups = -1", f"'groups' has to be {whole(0, 256)}"),
    (b"count = 8\nshare", b"count = 6\nshare", "3 BadEnv 3 0", "ring 0 is not within the limits", ":11: count = 6", f"'count' has to be {POWER}"),
    (RING, SEVEN, "3 BadEnv 1 0", "there are too few or too many pools, tables, rings or ports", "", "pools are 1 to 8 (here 1), tables 0 to 4 (7), rings 0 to 8 (0), ports 1 to 8 (1)"),
    (b"[[pool]]\ncount = 8\ncache = 0\nroom = 2176", b"pool = [1]", "2 BadKey top 0", KEY, ":2: pool = [1]", "'pool' has to be given by tables in double brackets, as [[port]]"),
    (b"routes = []", b"routes = [1]", "2 BadKey table 0", KEY, ":9: routes = [1]", f"'routes' has to be {PARTS['table']['routes'][1]}"),
    # A time, and what TOML has had since 1.1: an inline table on several lines.
    (b"region = 1048576", b"region = 1979-05-27", "2 BadKey top 0", KEY, ":1: region = 1979-05-27", f"'region' has to be {REGION}"),
    (b"queue = 4", b"queue = { a = 1,\nb = 2, }", "2 BadKey port 0", KEY, ":23: queue = { a = 1,", f"'queue' has to be {POWER}"),
    (b"region = 1048576", b"region =", "1 NotToml", "the text is not TOML", ":1: region =",
     "invalid value, expected a string, number, boolean, date-time, array or inline table"),
    # Blanks in a header, quotes around a key, and the second port.
    (b"[[port]]\npool = 0", b"[[ port ]]\npool = 8", "3 BadEnv 4 0", "port 0 is not within the limits", ":21: pool = 8", f"'pool' has to be {whole(0, 7)}"),
    (b"queue = 4", b'"queue" = -4', "2 BadKey port 0", KEY, ':23: "queue" = -4', f"'queue' has to be {POWER}"),
    (PORT, PORT + PORT.replace(b"queue = 4", b"queue = 3"), "3 BadEnv 4 1", "port 1 is not within the limits", ":31: queue = 3", f"'queue' has to be {POWER}"),
    # A word that is near to one key, which is there.
    (b"queue = 4", b"queu = 4\nqueue = 4", "2 BadKey port 0", KEY, ":23: queu = 4", "there is no key 'queu' here"),
    (b"routes = []", b"routes = [\n'10.0.0.0/8 1',\n'10.0.0.0/33 1',\n]", "4 BadTable 0 1 1", "the depth is not 1 to 32", ":11: '10.0.0.0/33 1',",
     "route 1 is '10.0.0.0/33 1'; a route is A.B.C.D/DEPTH HOP, as 10.1.0.0/16 3: DEPTH 1 to 32, HOP at most 16777215"),
]


def pipelines() -> list[tuple[bytes, str]]:
    """Pipeline files, and what is reported of each."""
    text, cases = text_of(lines_of()), keys()
    for old, new, cause, reason, place, cure in CHANGED:
        reported = f"fault: pipeline {cause}\n  because: {reason}\n  at: it.toml{place}\n  help: {cure}\n"
        cases.append((text.replace(old, new, 1), reported))
    return cases


def is_said(program: str, folder: pathlib.Path, words: list[str], data: bytes, reported: str) -> bool:
    """Whether a command reports this of the last file that its words name, with this content."""
    (folder / words[-1]).write_bytes(data)
    run = subprocess.run([program, *words], cwd=folder, capture_output=True, timeout=60)
    came = said("", run.stderr.decode())[1]
    passed = (run.returncode, run.stdout, came) == (3, b"", reported)
    if not passed:
        print(f"helps: {data[-300:]!r}: expected\n{reported}came\n{came}")
    return passed


# ---- runs

FILES = {
    "forward.dpv": "tx p0,r0,d\nexit\nd: free p0\nexit\n",
    "keep.dpv": "enq p0,1,d\nexit\nd: free p0\nexit\n",
    "endless.dpv": "a: jmp a\n",
    "drop.dpv": "free p0\nexit\n",
    # Of the two packets that it puts into a ring with one place, one finds none.
    "twice.dpv": "clone p1,p0,0,d\nenq p1,0,f\njmp n\nf: free p1\nn: enq p0,0,d\nexit\nd: free p0\nexit\n",
    # Of two buffers that it asks for it gets one, and of two packets that it sends one finds no place.
    "lose.dpv": "set r1,1\nalloc p1,1,none\nalloc p2,1,two\nfree p2\ntwo: tx p1,r1,f1\njmp none\nf1: free p1\n"
                "none: tx p0,r1,f0 # to port 1\nexit\nf0: free p0\nexit\n",
}
NARROW, WIDE = 192, 2176


def pool(count: int, room: int) -> str:
    """A pool."""
    return f"[[pool]]\ncount = {count}\ncache = 0\nroom = {room}\n"


def port(own: int, queue: int, node: str, number: int) -> str:
    """A port that has this number."""
    return f'[[port]]\npool = {own}\nsegs = 1\nqueue = {queue}\nnode = "{node}"\nin = "in{number}.pcap"\nout = "out{number}.pcap"\n'


def ring(count: int, node: str) -> str:
    """A ring."""
    return f'[[ring]]\ncount = {count}\nshare = 0\nhead = 0\ntail = 0\nfirst = 0\nlast = 0\nsegs = 1\nnode = "{node}"\n'


RINGS = ring(2, "drop.dpv") + ring(8, "keep.dpv")
# Two ports, of which one reads a capture that is cut, and the other puts all its buffers into the second ring.
KEPT = "region = 262144\n" + pool(8, WIDE) + pool(4, WIDE) + RINGS + port(0, 4, "twice.dpv", 0) + port(1, 4, "keep.dpv", 1)
KEPT_NOTES = """port 0: its input ends within the record at byte 48, which is not read
port 1: 2 records found too few free buffers: raise the count of pool 1
ring 0: it was full 1 time when a packet came: raise its count
ring 1: 4 packets were left at the end: a turn runs 32 packets from rings at most; let programs put fewer into rings for each record
"""
KEPT_DROPS = """         4  ring 1 left in the ring at the end
         2  port 1 records that found too few free buffers
         1  port 0 twice.dpv:5: n: enq p0,0,d
         1  ring 0 drop.dpv:1: free p0
"""
KEPT_PLACES = [("left", "ring 1", None, 4), ("nobuf", "port 1", None, 2), ("freed", "port 0", "twice.dpv 5 n: enq p0,0,d None", 1), ("freed", "ring 0", "drop.dpv 1 free p0 None", 1)]
# Three ports: the first loses packets at the second, which takes no long records, and the third is cut.
LOST = "region = 262144\n" + pool(8, WIDE) + pool(1, WIDE) + pool(8, NARROW) + port(0, 4, "lose.dpv", 0) + port(2, 2, "forward.dpv", 1) + port(0, 4, "endless.dpv", 2)
LOST_NOTES = """port 1: 3 records are longer than it takes (64 bytes): raise segs or room
port 1: its transmit list was full 2 times when a packet came: raise its queue
pool 1: alloc or clone got no buffers 2 times: raise the count of pool 1
2 node runs were cut: each took more than 256 backward jumps, and its packets were freed; --counts shows which loop
port 1: 3 records were cut by the capture's snap length: capture with a larger -s
"""
LOST_DROPS = "         3  port 1 records longer than the port takes\n         2  port 0 lose.dpv:8: none: tx p0,r1,f0 # to port 1\n"
LOST_PLACES = [("oversize", "port 1", None, 3), ("freed", "port 0", "lose.dpv 8 none: tx p0,r1,f0 to port 1", 2)]

# What becomes of the records of these runs, as a trace says it.
GONE, LONG = "sent to port 1 (port 0, 4), freed (port 0, 9)", "refused: it is too long for the port"
BECAME = {
    "kept": ["freed (port 0, 6), freed (ring 0, 0)", *(4 * ["waits in a ring"]), *(2 * ["refused: it got no buffer"])],
    "lost": [GONE, LONG, "cut (port 2, 0)", GONE, LONG, "cut (port 2, 0)", LONG],
}
# The port and the length of each, in the order in which they come.
CAME = {"kept": [(0, 8), *(6 * [(1, 60)])], "lost": [*(2 * [(0, 60), (1, 100), (2, 60)]), (1, 100)]}
# Words after `trace it.toml`, and the numbers of the records that are printed.
PICKED: list[tuple[str, list[str], list[int]]] = [
    ("kept", ["--only", "refused"], [6, 7]), ("kept", ["--only", "freed"], [1]), ("kept", ["--only", "6"], [6]), ("kept", ["--port", "1", "--records", "5"], [1, 2, 3, 4, 5]),
    ("lost", ["--only", "refused"], [2, 5, 7]), ("lost", ["--only", "cut"], [3, 6]), ("lost", ["--only", "sent", "--records", "3"], [1]),
    ("kept", ["--refuse", "1", "--only", "refused"], [1, 6, 7]), ("lost", ["--match", "00@0"], [1, 3, 4, 6]),
    ("lost", ["--instr", "f0"], [1, 4]), ("lost", ["--instr", "9", "--port", "0"], [1, 2]), ("lost", ["--only", "freed", "--instr", "f1"], []),
]


# Three ports, of which one has a list with one place and one a program that `dpv build` seems to have written, and a ring: with the counts of their
# lines, names and drops. Short packets are those of less than 20 bytes.
COUNTED = {
    "two.dpv": "clone p1,p0,0,d # count in: all\niflen p0,20,two\ntx p0,r0,two # count try: the first\ntx p1,r0,one # count try: the second\nexit\n"
               "two: free p0\none: free p1\nexit\nd: free p0\nexit\n",
    "queue.dpv": "enq p0,0,d # count in: all\nexit\nd: free p0\nexit\n",
    "built.dpv": "# Built from x.pkt by `dpv build`; docs/users/pkt.md has its language.\n"
                 "iflen p0,20,d # 1: need eth\nset r1,1\ntx p0,r0,d # 2: send port\nexit\nd: free p0\nexit\n",
    "ring.dpv": "iflen p0,20,d # count a b: this is no name\nset r1,1\nd: free p0\nexit\n",
}
COUNTS_OF = "region = 262144\n" + pool(16, WIDE) + ring(8, "ring.dpv") + port(0, 2, "two.dpv", 0) + port(0, 8, "queue.dpv", 1) + port(0, 8, "built.dpv", 2)
COLUMNS = "      came      sent   dropped\n"
BY_LINES = f"""port 0 two.dpv
{COLUMNS}         5                      1: clone p1,p0,0,d # count in: all
         5                   4  2: iflen p0,20,two
         3         3            3: tx p0,r0,two # count try: the first
         3                   3  4: tx p1,r0,one # count try: the second
         0                      5: exit
         2                      6: two: free p0
         5                      7: one: free p1
         5                      8: exit
         0                      9: d: free p0
         0                      10: exit
port 1 queue.dpv
{COLUMNS}         6         6            1: enq p0,0,d # count in: all
         6                      2: exit
         0                      3: d: free p0
         0                      4: exit
port 2 x.pkt
{COLUMNS}         5                   2  1: need eth
         3         3            2: send port
ring 0 ring.dpv
{COLUMNS}         6                   1  1: iflen p0,20,d # count a b: this is no name
         5                      2: set r1,1
         6                   5  3: d: free p0
         6                      4: exit
port 0 count in 5
port 0 count try 6
port 1 count in 6
         5  ring 0 ring.dpv:3: d: free p0
         4  port 0 two.dpv:2: iflen p0,20,two
         3  port 0 two.dpv:4: tx p1,r0,one # count try: the second
         2  port 2 x.pkt:1: need eth
         1  ring 0 ring.dpv:1: iflen p0,20,d # count a b: this is no name
"""


def is_counted(program: str, folder: pathlib.Path) -> bool:
    """Whether a run prints these counts by lines, names and drops, after its report; and whether a document has the names as well."""
    long, short = bytes(60), bytes(19)
    inputs = [[long, short, long, short, long], [long, long, long, short, long, long], [short, short, long, long, long]]
    (folder / "counted").mkdir()
    texts = {"it.toml": COUNTS_OF, **COUNTED}
    for name, text in texts.items():
        (folder / "counted" / name).write_text(text)
    for number, records in enumerate(inputs):
        (folder / f"counted/in{number}.pcap").write_bytes(capture(*records))
    status, printed, reported = ran(program, folder / "counted", "run", "it.toml", "--source", "--drops")
    _, last, counts = printed.partition("calls 21 refused 0\n")
    _, made, _ = ran(program, folder / "counted", "run", "it.toml", "--source", "--json")
    named = [f"{it['node']} count {it['name']} {it['packets']}" for it in json.loads(made).get("named", [])]
    passed = named == [line for line in BY_LINES.splitlines() if line.startswith("port") and " count " in line]
    passed = passed and (status, counts, reported) == (0, BY_LINES, "port 0: its transmit list was full 3 times when a packet came: raise its queue\n")
    if not passed:
        print(f"helps: counted: expected\n{BY_LINES}came\n{last}{printed}{reported}{named}")
    return passed


def facts(nodes: list[tuple[str, str, str]], ports: int = 1) -> str:
    """What the program prints of a run that is counted by lines: of each node its name, its file, and its program, where an instruction has before it
    how often it ran, jumped and was cut. Of each port's three records two found too few buffers (its fourth number)."""
    port = [0, 0, 0, 2, 0, 0, 4, 3, 1, 0, 0]
    all_of = []
    for node, file, text in nodes:
        lines = []
        for line in text.splitlines():
            numbers, bar, rest = line.partition("| ")
            lines.append({"text": line} if not bar else {**dict(zip(("ran", "taken", "cut"), map(int, numbers.split()))), "text": rest})
        all_of.append({"file": file, "lines": lines, "node": node})
    made = {"counts": False, "drops": True, "lines": True, "nodes": all_of, "pools": [], "ports": ports * [port], "rings": []}
    return json.dumps({"view": "counts", **made}, separators=(",", ":")) + "\n"


# Programs with counts, as the program prints them, and what is said: a jump to itself that is cut, a label before the line that it names, and
# jumps to the first and to the second of two that free; and of a program that `dpv build` wrote, in which one instruction has no line.
CUT = """# two to the ring, which takes one

3 1 0|         iflen p0,4,drop
2 0 0|         load r1,p0,0,4
2 1 0|         lookup r2,0,r1,drop     # the hop
1 0 0|         clone p1,p0,0,drop
1 0 0|         enq p1,0,both
257 256 1| again:  enq p0,0,again          # full
0 0 0|         exit
0 0 0| both:   free p1
drop:
2 0 0|         free p0
2 0 0|         exit
"""
CUT_SAID = f"""port 0 port.dpv
{COLUMNS}         3                   1  3: iflen p0,4,drop
         2                      4: load r1,p0,0,4
         2                   1  5: lookup r2,0,r1,drop     # the hop
         1                      6: clone p1,p0,0,drop
         1         1            7: enq p1,0,both
       257                      8: again:  enq p0,0,again          # full
         0                      9: exit
         0                      10: both:   free p1
         2                      12: free p0
         2                      13: exit
         2  port 0 records that found too few free buffers
         1  port 0 port.dpv:3: iflen p0,4,drop
         1  port 0 port.dpv:5: lookup r2,0,r1,drop     # the hop
"""
WROTE = """# Built from a.pkt by `dpv build`
9 4 0|         iflen p0,4,L1     # net.pkt:2: need 4 bytes else drop "short"
5 0 0|         load\tr1,p0,0,4    # 3: if r1 { }
5 0 0|         jeq r1,0,L1       # 3: if r1 { }
5 0 0|         add r0,0          # count all: 4: count all
0 0 0|         add r0,0          # 18446744073709551616: this has no number, and belongs to the line before
5 2 0|         tx p0, r0, L1     # 5: send port
3 0 0|         exit              # 5: send port
L1:
6 0 0|         free p0           # what is held is dropped
6 0 0|         exit              # what is held is dropped
"""
WROTE_SAID = f"""ring 1 a.pkt
{COLUMNS}         5                      3: if r1 {{ }}
         5                      4: count all
         5         3         2  5: send port
         9                   4  net.pkt:2: need 4 bytes else drop "short"
ring 1 count all 5
         4  ring 1 net.pkt:2: need 4 bytes else drop "short"
         2  ring 1 a.pkt:5: send port
"""


def says_facts() -> list[bool]:
    """Whether this is said of such programs."""
    passed = []
    for line, wanted in ((facts([("port 0", "port.dpv", CUT)]), CUT_SAID), (facts([("ring 1", "a.dpv", WROTE)], 0), WROTE_SAID)):
        passed.append(said(line)[0] == wanted)
        if not passed[-1]:
            print(f"helps: facts: expected\n{wanted}came\n{said(line)[0]}")
    return passed


def snapped(count: int) -> bytes:
    """A capture of this number of records of 100 bytes, of which more was not captured."""
    record = b"".join(number.to_bytes(4, "little") for number in (1, 2, 100, 1500))
    return HEADER + count * (record + bytes(100))


def put_runs(folder: pathlib.Path) -> None:
    """The files of the runs: a folder for each."""
    two = capture(bytes(60), bytes(60))
    inputs = {"kept": [capture(b"a record", bytes(9))[:-1], capture(*(6 * [bytes(60)]))], "lost": [two, snapped(3), two]}
    for name, text in (("kept", KEPT), ("lost", LOST)):
        (folder / name).mkdir()
        (folder / name / "it.toml").write_text(text)
        for file, program in FILES.items():
            (folder / name / file).write_text(program)
        for number, data in enumerate(inputs[name]):
            (folder / name / f"in{number}.pcap").write_bytes(data)


def has_no_room(program: str, folder: pathlib.Path) -> bool:
    """Whether a run whose region is too small says how large one is large enough: one with that goes, and one with 64 bytes less does not; and
    whether --sizes says how much is missing."""
    need = Env([Pool(8, 0, WIDE), Pool(4, 0, WIDE)], [], [Ring(2, ()), Ring(8, ())], [Port(0, 1, 4), Port(1, 1, 4)]).need()
    least = -(-need // 64) * 64
    parts = "(dpv check FILE --sizes shows the parts)"
    wanted = [(3, f"fault: region\n  help: the pools, rings and ports need {need} bytes {parts}: region = {least}\n")] * 2 + [(0, KEPT_NOTES)]
    found = []
    for region in (4096, least - 64, least):
        (folder / "kept/small.toml").write_text(KEPT.replace("262144", str(region)))
        found.append(ran(program, folder / "kept", "run", "small.toml")[::2])
    (folder / "kept/small.toml").write_text(KEPT.replace("262144", "4096"))
    sizes, _ = said(subprocess.run([program, "check", "small.toml", "--sizes"], cwd=folder / "kept", capture_output=True, text=True, timeout=60).stdout)
    passed = found == wanted and sizes.endswith(f"\n{'sum':42}{need:>12}\n{'region':42}{4096:>12}\n{'missing':42}{need - 4096:>12}\n")
    if not passed:
        print(f"helps: no room: expected {wanted}, came {found}, and {need - 4096} missing:\n{sizes}")
    return passed


def places_in(doc: dict[str, list[dict[str, object]]]) -> list[tuple[object, object, object, object]]:
    """The places of a document where packets ended."""
    def line(it: dict[str, object]) -> object:
        return None if it["line"] is None else f"{it['file']} {it['line']} {it['text']} {it['comment']}"

    return [(it["why"], it["node"], line(it), it["packets"]) for it in doc.get("drops", [])]


def runs(program: str, folder: pathlib.Path) -> list[bool]:
    """What is said of the runs that lose packets, as text and as a document."""
    put_runs(folder)
    passed = []
    for name, notes, drops, places in (("kept", KEPT_NOTES, KEPT_DROPS, KEPT_PLACES), ("lost", LOST_NOTES, LOST_DROPS, LOST_PLACES)):
        def run(*words: str, where: str = name) -> tuple[int, str, str]:
            return ran(program, folder / where, "run", "it.toml", *words)

        plain, counted, dropped, both, (status, printed, reported) = run(), run("--counts"), run("--drops"), run("--counts", "--drops"), run("--drops", "--counts", "--json")
        doc = json.loads(printed) if printed else {}
        found = {
            "the notes": plain[::2] == counted[::2] == dropped[::2] == both[::2] == (status, reported) == (0, notes),
            "the places": dropped[1] == plain[1] + drops and both[1] == counted[1] + drops and len(counted[1]) > len(plain[1]),
            "the document": bool(doc) and places_in(doc) == places and [it["full"] for it in doc["rings"]] == [it["full"] for it in doc["counts"]["rings"]] == ([1, 0] if name == "kept" else []),
            "its numbers": [[it[key] for it in doc[part]] for part, key in (("ports", "full"), ("ports", "truncated"), ("pools", "refused"))]
            == ([[0, 0], [0, 0], [0, 0]] if name == "kept" else [[0, 2, 0], [0, 3, 0], [0, 2, 0]]),
        }
        for what, is_so in found.items():
            if not is_so:
                print(f"helps: {name}: {what}: {(plain, dropped, doc)}")
        passed += found.values()
    return [*passed, has_no_room(program, folder)]


def traces(program: str, folder: pathlib.Path) -> list[bool]:
    """What is said of each record of these runs, and which records are picked."""
    passed = []
    for name, words, numbers in [*((name, [], [*range(1, 8)]) for name in BECAME), *PICKED]:
        run = subprocess.run([program, "trace", "it.toml", "--json", *words], cwd=folder / name, capture_output=True, text=True, timeout=60)
        docs = [json.loads(line) for line in run.stdout.splitlines()]
        found = [it.get("record") for it in docs[:-1]] == numbers and docs[-1] == {"fault": None, "printed": len(numbers)}
        came = [(it["port"], it["time"], it["bytes"], it["became"]) for it in docs[:-1]]
        wanted = [(port, "1.000002000", size, said) for (port, size), said in zip(CAME[name], BECAME[name])]
        passed.append(found and (bool(words) or came == wanted))
        if not passed[-1]:
            print(f"helps: {name}: trace {words}: {[(it.get('record'), it.get('became')) for it in docs]}")
    return passed


def is_fault_of_a_run(program: str, folder: pathlib.Path) -> bool:
    """Whether a run, which reads programs by another function than infer-one, reports the fault of a long program, and not lack of memory."""
    (folder / "long.dpv").write_bytes(b"# " + 1_000_000 * b"x" + b"\nexit\nqqqqqqqq\n")
    ran = subprocess.run([program, "filter", "long.dpv", "in.pcap", "out.pcap"], cwd=folder, capture_output=True, text=True, check=False)
    reported = said("", ran.stderr)[1]
    passed = ran.returncode == 3 and reported.startswith("fault: pipeline 6 Asm port 0 line 3 cause 2\n  because: ")
    if not passed:
        print(f"helps: filter of a long program: status {ran.returncode}: {reported[:100]}")
    return passed


def main() -> int:
    """All of it."""
    program = asked()
    with new_folder() as folder:
        passed = [is_said(program, folder, ["infer-one", "node.dpv"], *case) for case in programs()]
        passed += [is_said(program, folder, ["check", "it.toml"], *case) for case in pipelines()]
        passed += runs(program, folder) + traces(saying(program, folder), folder)
        passed += [is_counted(program, folder), *says_facts()]
        passed.append(is_fault_of_a_run(program, folder))
    return report_cases("helps", passed)


if __name__ == "__main__":
    sys.exit(main())
