#!/usr/bin/env python3
"""Runs the built program dpv on faulty words, files and captures.

Usage: tests/program/faults.py [PROGRAM]   (the built program; by default the one that ./dpv builds and runs)
Each case has its own fault and all those that are tested later: words come first, then the pipeline file, its text and its nodes one after
the other, for each the program file and its text, then the certificate's, then the check; then a missing node, then the inputs and then the
outputs, in port order, then the run. So the reported fault shows the order. Then captures that are not separate plain files: an input that
is also an output, an output named twice, standard input and output, a full disk. Then captures of both byte orders and units, the
largest environment, with room and without, and commands whose standard output cannot be written. Prints a line for each case that failed,
and a count; exits with 1 if a case failed.
"""
import pathlib
import struct
import subprocess
import sys
from typing import NamedTuple

import paths  # noqa: F401

from command import STRIP, TOP, asked, fixed, new_folder, report_cases, said, saying

LONGEST = 1_048_576
OPEN = "port 0 received 0 nobuf 0 oversize 0 sent 0 input open\npool 0 free 64 of 64\ncalls 0 refused 0\n"
REFUSED = "port 0 refused at 0 by J11\n"


class Case(NamedTuple):
    """The words after `dpv`, and how the program has to end."""

    words: list[str]
    status: int
    printed: str
    reported: str


def make_files(folder: pathlib.Path) -> None:
    """The files that the cases name."""
    program, cert, capture = ((STRIP / name).read_bytes() for name in ("strip.dpv", "strip.cert", "in.pcap"))
    files = {
        "strip.dpv": program,
        "bad.dpv": b"exit\nadj p0,65536\n",
        "long.dpv": b"#" * LONGEST + b"\n",
        "longest.dpv": program + b"#" * (LONGEST - len(program)),
        "strip.cert": cert,
        "bad.cert": cert[:-2] + b"\n",
        "long.cert": cert + b"0" * (LONGEST + 1 - len(cert)),
        "in.pcap": capture,
        "short.pcap": capture[:23],
        "link.pcap": capture[:20] + b"\x65" + capture[21:],
        "script": b"region 4096\nfree 1\n",
        "long.script": b"\n" * (LONGEST + 1),
        "lost.dpv": b"exit\n",
        "long.toml": b"=" * (LONGEST + 1),
        "bytes.toml": b"# \xff\n",
        "forward.dpv": b"tx p0,r0,d\nexit\nd: free p0\nexit\n",
        "one.pcap": ONE,
        "two.pcap": TWO,
        "same.pcap": ONE,
    }
    head, *rows = cert.splitlines(keepends=True)
    files["bold.cert"] = head + rows[0][:-2] + b"1\n" + b"".join(rows[1:])
    files.update((f"{name}.toml", text.encode()) for name, text in (pipelines() | run_pipelines()).items())
    for name, data in files.items():
        (folder / name).write_bytes(data)
    (folder / "folder").mkdir()


HEADER = struct.pack("<IHHIIII", 0xA1B2C3D4, 2, 4, 0, 0, 262144, 1)


def capture(*records: bytes) -> bytes:
    """A capture of these records."""
    return HEADER + b"".join(struct.pack("<IIII", 1, 2, len(record), len(record)) + record for record in records)


ONE, TWO = capture(b"a record"), capture(b"another record", b"and one more")
POOL = "[[pool]]\ncount = 4\ncache = 0\nroom = 2176\n"
RING = "[[ring]]\ncount = 4\nshare = 0\nhead = 0\ntail = 0\nfirst = 0\nlast = 0\nsegs = 64\n"
PORT = '[[port]]\npool = 0\nsegs = 1\nqueue = 4\nin = "none"\nout = "none/none"\n'
TABLE = '[[table]]\nrules = 1\ngroups = 0\nroutes = ["10.0.0.0/8 1", "10.1.0.0/16 2"]\n'


def node(files: str) -> str:
    """The keys of a node: its program, and its certificate if one is named after a blank."""
    return "".join(f'{key} = "{name}"\n' for key, name in zip(("node", "cert"), files.split()))


def pipeline(ports: list[str], rings: list[str] | None = None, table: str = "") -> str:
    """A pipeline file of these nodes."""
    kinds = [PORT + node(files) for files in ports] + [RING + node(files) for files in rings or []]
    return "region = 10368\n" + POOL + table + "".join(kinds)


def run_of(inputs: list[str], outputs: list[str], region: int = 10368) -> str:
    """A pipeline file of ports that send back what comes in."""
    names = [f'[[port]]\npool = 0\nsegs = 1\nqueue = 4\nnode = "forward.dpv"\nin = "{i}"\nout = "{o}"\n' for i, o in zip(inputs, outputs)]
    return f"region = {region}\n" + POOL + "".join(names)


def run_pipelines() -> dict[str, str]:
    """The pipelines whose captures are at fault, in the order in which faults are looked for, and those that run."""
    late = ["none/none", "none/none"]
    return {
        "no_input": run_of(["none", "none"], late, 9600),
        "no_other_input": run_of(["short.pcap", "none"], late, 9600),
        "no_output": run_of(["short.pcap", "short.pcap"], ["none/none", "folder"], 9600),
        "no_other_output": run_of(["short.pcap", "short.pcap"], ["out0", "folder"], 9600),
        "no_room": run_of(["short.pcap", "short.pcap"], ["out0", "/dev/full"], 9600),
        "no_header": run_of(["short.pcap", "link.pcap"], ["out0", "/dev/full"], 9664),
        "no_other_header": run_of(["one.pcap", "link.pcap"], ["out0", "/dev/full"]),
        "no_bytes": run_of(["one.pcap", "folder"], ["out0", "/dev/full"]),
        "full": run_of(["one.pcap", "two.pcap"], ["out0", "/dev/full"]),
        "both_full": run_of(["one.pcap", "two.pcap"], ["/dev/full", "/dev/full"]),
        "both": run_of(["one.pcap", "two.pcap"], ["out0", "out1"]),
        "same": run_of(["same.pcap"], ["same.pcap"]),
        "twice": run_of(["one.pcap", "two.pcap"], ["twice", "twice"]),
        "streams": run_of(["/dev/stdin"], ["/dev/stdout"]),
    }


def pipelines() -> dict[str, str]:
    """The pipeline files that the cases name, without `.toml`; each has, after its own fault, others that are tested later."""
    sound, late = "strip.dpv strip.cert", ["none", "none"]
    return {
        "sound": pipeline([sound, "strip.dpv"], ["strip.dpv"]),
        "unread": pipeline(["strip.dpv none"], ["strip.dpv folder"]),
        "text": pipeline(late, table=TABLE).replace("count = 4", "counts = 4").replace("region", "[region"),
        "top": pipeline(late, table=TABLE).replace("10368", "10369").replace("count = 4", "counts = 4"),
        "pool": pipeline(late, table=TABLE.replace("rules", "rule")).replace("count = 4", "count = -4"),
        "table": pipeline(late, ["none"], TABLE.replace("rules", "rule")).replace("share = 0", "share = 256"),
        "ring": pipeline(late, ["none", "none"], TABLE).replace("share = 0", "share = 256").replace("segs = 1", "segs = 256"),
        "port": pipeline(late, table=TABLE).replace("segs = 1", "segs = 256"),
        "env": pipeline(late, table=TABLE).replace("room = 2176", "room = 128"),
        "route": pipeline(late, table=TABLE),
        "file": pipeline(["none none", "bad.dpv"]),
        "asm": pipeline(["bad.dpv none", "none"]),
        "cert_file": pipeline(["strip.dpv long.cert", "none"]),
        "cert": pipeline(["strip.dpv bad.cert", "none"]),
        "refused": pipeline(["strip.dpv bold.cert", "none"]),
        "lost": pipeline(["lost.dpv", "none"]),
        "second": pipeline([sound, "strip.dpv strip.cert"], ["none"]),
        "ring_file": pipeline([sound], ["long.dpv"]),
        "ring_lost": pipeline(["strip.dpv"], ["strip.dpv", "lost.dpv"]),
    }


def one(node: str, cert: str, source: str, target: str, ends: tuple[int, str, str]) -> Case:
    """A case of `dpv one`."""
    return Case(["one", node, cert, source, target], *ends)


def node_fault(text: str) -> tuple[int, str, str]:
    """How a run ends that has a fault of its node."""
    return 3, "", f"fault: pipeline {text}\n"


def load_ends() -> dict[str, tuple[int, str, str]]:
    """How the loading of each pipeline file ends, in the order in which faults are looked for."""
    return {
        "none": (3, "", "fault: file none.toml\n"),
        "long": (3, "", "fault: file long.toml\n"),
        "bytes": node_fault("1 NotToml"),
        "text": node_fault("1 NotToml"),
        "top": node_fault("2 BadKey top 0"),
        "pool": node_fault("2 BadKey pool 0"),
        "table": node_fault("2 BadKey table 0"),
        "ring": node_fault("2 BadKey ring 0"),
        "port": node_fault("2 BadKey port 0"),
        "env": node_fault("3 BadEnv 4 0"),
        "route": node_fault("4 BadTable 0 1 3"),
        "file": node_fault("5 File port 0"),
        "asm": node_fault("6 Asm port 0 line 2 cause 5"),
        "cert_file": node_fault("5 File port 0"),
        "cert": node_fault("7 BadCert port 0 line 7 cause 2"),
        "refused": (1, REFUSED, ""),
        "lost": (1, "port 0 not inferred at 0 by J10\n", ""),
        "second": (1, "port 1 refused at 0 by J2\n", ""),
        "ring_file": node_fault("5 File ring 0"),
        "ring_lost": (1, "ring 1 not inferred at 0 by J10\n", ""),
        "unread": node_fault("5 File port 0"),
    }


def check_cases() -> list[Case]:
    """Those of `dpv check`."""
    return [Case(["check", f"{name}.toml"], *end) for name, end in load_ends().items()] + [
        Case(["check", "folder"], 3, "", "fault: file folder\n"),
        Case(["check", "sound.toml"], 0, "port 0 accepted\nport 1 accepted\nring 0 accepted\n", ""),
    ]


def report(*ports: tuple[int, int, str], calls: int = 0) -> str:
    """The report of a pipeline of one pool of four buffers: of each port the records received and sent, and how the input ended."""
    lines = [f"port {k} received {got} nobuf 0 oversize 0 sent {sent} input {state}\n" for k, (got, sent, state) in enumerate(ports)]
    return "".join(lines) + f"pool 0 free 4 of 4\ncalls {calls} refused 0\n"


def run_cases() -> list[Case]:
    """Those of `dpv run`: faults of loading come first, then the inputs in port order, then the outputs, then those of the run."""
    idle = report((0, 0, "open"), (0, 0, "open"))
    ran = report((1, 1, "whole"), (2, 2, "whole"), calls=3)
    ends = {
        "sound": (3, "", "fault: file none\n"),
        "no_input": (3, "", "fault: file none\n"),
        "no_other_input": (3, "", "fault: file none\n"),
        "no_output": (3, "", "fault: file none/none\n"),
        "no_other_output": (3, "", "fault: file folder\n"),
        "no_room": (3, idle, "fault: region\n"),
        "no_header": (3, idle, "fault: input 0 cause 6\n"),
        "no_other_header": (3, idle, "fault: input 1 cause 3\n"),
        "no_bytes": (3, idle, "fault: input 1 cause 8\n"),
        "full": (3, report((1, 1, "whole"), (2, 0, "whole"), calls=3), "fault: output 1\n"),
        "both_full": (3, report((1, 0, "whole"), (2, 0, "whole"), calls=3), "fault: output 0\n"),
        "both": (0, ran, ""),
    }
    return [Case(["run", f"{name}.toml"], *end) for name, end in (load_ends() | ends).items()] + [
        Case(["run", "none", "--refuse", "1"], 3, "", "fault: file none\n"),
        Case(["run", "--refuse=1", "both.toml"], 0, report((1, 0, "whole"), (2, 2, "whole"), calls=3).replace("received 1 nobuf 0", "received 0 nobuf 1").replace("refused 0", "refused 1"), ""),
    ]


def infer_cases() -> list[Case]:
    """Those of `dpv infer`: faults of loading come first, named certificates are not read, and then the node has to be there."""
    cert = (STRIP / "strip.cert").read_text()
    return [
        Case(["infer", "none", "port9"], 3, "", "fault: file none\n"),
        Case(["infer", "text.toml", "port9"], *node_fault("1 NotToml")),
        Case(["infer", "file.toml", "port9"], *node_fault("5 File port 0")),
        Case(["infer", "cert.toml", "port9"], *node_fault("5 File port 1")),
        Case(["infer", "ring_lost.toml", "port0"], 1, "ring 1 not inferred at 0 by J10\n", ""),
        Case(["infer", "sound.toml", "port2"], 2, "", "error: the pipeline has no port 2\n"),
        Case(["infer", "sound.toml", "ring1"], 2, "", "error: the pipeline has no ring 1\n"),
        Case(["infer", "sound.toml", "port0"], 0, cert, ""),
        Case(["infer", "unread.toml", "port0"], 0, cert, ""),
    ]


def looking_cases() -> list[Case]:
    """Those of the commands that look at one program, or at those of a pipeline."""
    cert = (STRIP / "strip.cert").read_text()
    lost = "port 0 not inferred at 0 by J10\n> 0  exit  p0 sole, headroom 128, at most 1 segment; r0-r7 <= 0\n"
    rows = ("p0 sole, headroom 128, at most 1 segment; r0-r7 <= 0", "+ p0 empty", "+ p0 sole, headroom 128, at most 1 segment", "+ p0 empty")
    words = ("    tx p0,r0,d", "    exit      ", "d:  free p0   ", "    exit      ")
    forward = "port 0 accepted\n" + "".join(f"  {k}  {word}  {row}\n" for k, (word, row) in enumerate(zip(words, rows)))
    return [
        Case(["infer-one", "none"], *node_fault("5 File port 0")),
        Case(["infer-one", "long.dpv"], *node_fault("5 File port 0")),
        Case(["infer-one", "bad.dpv"], *node_fault("6 Asm port 0 line 2 cause 5")),
        Case(["infer-one", "lost.dpv"], 1, "port 0 not inferred at 0 by J10\n", ""),
        Case(["infer-one", "strip.dpv"], 0, cert, ""),
        Case(["explain", "none", "port9"], 3, "", "fault: file none\n"),
        Case(["explain", "text.toml", "port9"], *node_fault("1 NotToml")),
        Case(["explain", "sound.toml", "port9"], 2, "", "error: the pipeline has no port 9\n"),
        Case(["explain", "asm.toml", "port0"], *node_fault("6 Asm port 0 line 2 cause 5")),
        Case(["explain", "second.toml", "port0"], 0, "port 0 accepted\n", ""),
        Case(["explain-one", "strip.dpv", "bad.cert"], *node_fault("7 BadCert port 0 line 7 cause 2")),
        Case(["explain-one", "strip.dpv", "strip.cert"], 0, "port 0 accepted\n", ""),
        Case(["show", "none", "port9"], 3, "", "fault: file none\n"),
        Case(["show", "text.toml", "port9"], *node_fault("1 NotToml")),
        Case(["show", "sound.toml", "ring1"], 2, "", "error: the pipeline has no ring 1\n"),
        Case(["show", "cert_file.toml", "port0"], *node_fault("5 File port 0")),
        Case(["show", "lost.toml", "port0"], 1, lost, ""),
        Case(["show-one", "bad.dpv", "none"], *node_fault("6 Asm port 0 line 2 cause 5")),
        Case(["show-one", "strip.dpv", "none"], *node_fault("5 File port 0")),
        Case(["show-one", "forward.dpv"], 0, forward, ""),
    ]


def cases() -> list[Case]:
    """All of them, in the order in which faults are looked for."""
    file = node_fault("5 File port 0")
    asm = node_fault("6 Asm port 0 line 2 cause 5")
    bad_cert = node_fault("7 BadCert port 0 line 7 cause 2")
    refused = (1, REFUSED, "")
    return [
        one("none", "none", "none", "none/none", file),
        one("folder", "none", "none", "none/none", file),
        one("long.dpv", "none", "none", "none/none", file),
        one("bad.dpv", "none", "none", "none/none", asm),
        one("bad.dpv", "bad.cert", "none", "none/none", asm),
        one("strip.dpv", "none", "none", "none/none", file),
        one("strip.dpv", "folder", "none", "none/none", file),
        one("strip.dpv", "long.cert", "none", "none/none", file),
        one("strip.dpv", "bad.cert", "none", "none/none", bad_cert),
        one("strip.dpv", "bold.cert", "none", "none/none", refused),
        one("longest.dpv", "strip.cert", "none", "none/none", (3, "", "fault: file none\n")),
        one("strip.dpv", "strip.cert", "none", "none/none", (3, "", "fault: file none\n")),
        one("strip.dpv", "strip.cert", "short.pcap", "none/none", (3, "", "fault: file none/none\n")),
        one("strip.dpv", "strip.cert", "short.pcap", "folder", (3, "", "fault: file folder\n")),
        one("strip.dpv", "strip.cert", "short.pcap", "/dev/full", (3, OPEN, "fault: input 0 cause 6\n")),
        one("strip.dpv", "strip.cert", "link.pcap", "/dev/full", (3, OPEN, "fault: input 0 cause 3\n")),
        one("strip.dpv", "strip.cert", "folder", "/dev/full", (3, OPEN, "fault: input 0 cause 8\n")),
        Case(["mem", "none"], 3, "", "fault: file none\n"),
        Case(["mem", "folder"], 3, "", "fault: file folder\n"),
        Case(["mem", "long.script"], 3, "", "fault: file long.script\n"),
        Case(["mem", "script"], 3, "", "fault: line 2 bad command\n"),
        *check_cases(),
        *infer_cases(),
        *looking_cases(),
        *run_cases(),
    ]


def ends_so(program: str, case: Case, folder: pathlib.Path) -> bool:
    """Whether the program ends as the case says."""
    run = subprocess.run([program, *case.words], cwd=folder, capture_output=True, text=True, timeout=60)
    printed, reported = said(run.stdout, run.stderr)
    passed = (run.returncode, printed, fixed(reported)) == (case.status, case.printed, case.reported)
    if not passed:
        print(f"dpv {' '.join(case.words)}: status {run.returncode}, printed {printed!r}, reported {reported!r}")
    return passed


def holds(name: str, found: bytes, wanted: bytes) -> bool:
    """Whether a file has the expected contents."""
    if found != wanted:
        print(f"{name}: holds {found!r} and not {wanted!r}")
    return found == wanted


def stream_cases(program: str, folder: pathlib.Path) -> list[bool]:
    """Captures that are not separate plain files: for each case, whether the result is that of docs/reference/captures.md."""
    sent = report((1, 1, "whole"), calls=1)
    streams = subprocess.run([program, "run", "streams.toml"], cwd=folder, input=ONE, capture_output=True, timeout=60)
    return [
        # An output that is an input is not overwritten.
        ends_so(program, Case(["run", "same.toml"], 3, "", "fault: file same.pcap\n"), folder),
        holds("same.pcap", (folder / "same.pcap").read_bytes(), ONE),
        # No file is written by two ports, not even one that does not exist yet.
        ends_so(program, Case(["run", "twice.toml"], 3, "", "fault: file twice\n"), folder),
        holds("twice", b"there" if (folder / "twice").exists() else b"", b""),
        # A pipe is read to its end, and gets the report after the capture.
        holds("standard output", streams.stdout, ONE + sent.encode()),
        holds("standard error", streams.stderr, b""),
    ]


def spelled(order: str, magic: int, length: int, record: bytes) -> bytes:
    """A capture of one record at second 1 and fraction 2, in a byte order."""
    header = struct.pack(order + "IHHIIII", magic, 2, 4, 0, 0, 262144, 1)
    return header + struct.pack(order + "IIII", 1, 2, length, length) + record


def strips(program: str, folder: pathlib.Path, source: bytes, ends: tuple[int, str, str], target: bytes) -> bool:
    """Whether strip ends so on a capture, and this is written."""
    (folder / "source").write_bytes(source)
    passed = ends_so(program, one("strip.dpv", "strip.cert", "source", "target", ends), folder)
    return holds("target", (folder / "target").read_bytes(), target) and passed


def capture_cases(program: str, folder: pathlib.Path) -> list[bool]:
    """Captures of both byte orders and units, whose record strip cuts."""
    record, passed = bytes(range(60)), []
    sent = OPEN.replace("received 0", "received 1").replace("sent 0 input open", "sent 1 input whole").replace("calls 0", "calls 1")
    for magic in (0xA1B2C3D4, 0xA1B23C4D):
        written = spelled("<", magic, 46, record[14:])
        passed += [strips(program, folder, spelled(order, magic, 60, record), (0, sent, ""), written) for order in "<>"]
    return passed


def needed(pools: list[tuple[int, int]], places: list[int]) -> int:
    """The bytes of region that an engine needs, given its pools' buffers and rooms, and the places of its rings and lists."""
    zones = [count * (128 + -(-room // 64) * 64) for count, room in pools] + [4 << count.bit_length() for count, _ in pools]
    return sum(64 + -(-zone // 64) * 64 for zone in zones + [4 * count for count in places])


def largest(region: int, counts: list[int]) -> str:
    """A pipeline with the maximum of everything; port 7 puts its packets into ring 7, whose program sends them there."""
    text = f"region = {region}\n" + "".join(f"[[pool]]\ncount = {count}\ncache = 512\nroom = 4096\n" for count in counts)
    text += 4 * "[[table]]\nrules = 65536\ngroups = 256\nroutes = []\n"
    text += 8 * (RING.replace("count = 4", "count = 65536") + 'node = "forward.dpv"\n')
    for k in range(8):
        program, source = ("queue.dpv" if k == 7 else "forward.dpv"), ("one.pcap" if k in (0, 7) else "empty.pcap")
        text += f'[[port]]\npool = {k}\nsegs = 64\nqueue = 65536\nnode = "{program}"\nin = "{source}"\nout = "largest{k}"\n'
    return text


def largest_cases(program: str, folder: pathlib.Path) -> list[bool]:
    """The largest environment in a region of exactly the bytes that it needs, and in one of 64 fewer."""
    counts = 7 * [8191] + [8198]
    region = needed([(count, 4096) for count in counts], 16 * [65_536])
    (folder / "queue.dpv").write_text("enq p0,7,d\nexit\nd: free p0\nexit\n")
    (folder / "empty.pcap").write_bytes(HEADER)
    (folder / "largest.toml").write_text(largest(region, counts))
    (folder / "too_large.toml").write_text(largest(region - 64, counts))
    rest = "".join(f"ring {k} left 0\n" for k in range(8)) + "".join(f"pool {k} free {n} of {n}\n" for k, n in enumerate(counts))
    line = "port {} received {} nobuf 0 oversize 0 sent {} input {}\n"
    ran = "".join(line.format(k, int(k in (0, 7)), int(k in (0, 7)), "whole") for k in range(8)) + rest + "calls 2 refused 0\n"
    idle = "".join(line.format(k, 0, 0, "open") for k in range(8)) + rest + "calls 0 refused 0\n"
    return [
        ends_so(program, Case(["run", "largest.toml"], 0, ran, ""), folder),
        *(holds(f"largest{k}", (folder / f"largest{k}").read_bytes(), ONE if k in (0, 7) else HEADER) for k in range(8)),
        ends_so(program, Case(["run", "too_large.toml"], 3, idle, "fault: region\n"), folder),
    ]


# What help says of numbers, which are those of docs/reference/reports.md.
HELPS = {"filter": ("from 129 to 4096, 2176 by default", "from 1 to 64, 1 by default\n"), "trace": ("from 1 on; else 10, or all with --only, --instr or --match",)}


def shows_numbers(program: str, command: str, folder: pathlib.Path) -> bool:
    """Whether the help of a command has its numbers."""
    shown = subprocess.run([program, command, "--help"], cwd=folder, capture_output=True, text=True, timeout=60).stdout
    missing = [it for it in HELPS[command] if it not in shown]
    for it in missing:
        print(f"dpv {command} --help does not say {it!r}: {shown}")
    return not missing


def shows_usage(program: str, words: list[str], status: int, folder: pathlib.Path) -> bool:
    """Whether help goes to standard output with status 0, and a fault of the words to standard error with status 2."""
    run = subprocess.run([program, *words], cwd=folder, capture_output=True, text=True, timeout=60)
    shown, silent = (run.stdout, run.stderr) if status == 0 else (run.stderr, run.stdout)
    passed = run.returncode == status and shown != "" and silent == ""
    if not passed:
        print(f"dpv {' '.join(words)}: status {run.returncode}, printed {run.stdout!r}, reported {run.stderr!r}")
    return passed


def is_heard(program: str, words: list[str]) -> bool:
    """Whether a command that cannot write what it prints ends with status 3, and says so."""
    with open("/dev/full", "w") as full:
        run = subprocess.run([program, *words], cwd=TOP / "examples/ttl", stdout=full, stderr=subprocess.PIPE, text=True, timeout=60)
    passed = run.returncode == 3 and run.stderr.endswith("fault: standard output cannot be written\n")
    if not passed:
        print(f"dpv {' '.join(words)} > /dev/full: status {run.returncode}, reported {run.stderr!r}")
    return passed


# Commands in examples/ttl, each of which prints something.
PRINTING = (
    ["--help"], ["run", "--help"], ["check", "ttl.toml"], ["check", "ttl.toml", "--json"], ["check", "ttl.toml", "--sizes"], ["check", "ttl.toml", "--cost"], ["explain", "ttl.toml"],
    ["infer", "ttl.toml", "port0"], ["infer-one", "ttl.dpv"], ["show", "ttl.toml", "port0"], ["show", "ttl.toml", "--dot"],
    ["run", "ttl.toml", "--no-out", "0"], ["run", "ttl.toml", "--no-out", "0", "--counts"], ["run", "ttl.toml", "--no-out", "0", "--json"],
    ["filter", "ttl.dpv", "in.pcap", "/dev/null"], ["trace", "ttl.toml"], ["trace", "ttl.toml", "--json"],
)


def main() -> int:
    """All of it."""
    program = asked()
    strip = ["none", "none", "none", "none"]
    with new_folder() as folder:
        make_files(folder)
        right = (["help"], ["--help"], ["one", "--help"], ["check", "--help"], ["infer", "--help"], ["run", "--help"], ["--version"])
        passed = [shows_usage(program, list(words), 0, folder) for words in right]
        passed += [shows_numbers(program, command, folder) for command in HELPS]
        wrong = ([], ["two"], ["one"], ["one", *strip[1:]], ["one", *strip, "more"], ["one", "--fast", *strip], ["mem"])
        passed += [shows_usage(program, list(words), 2, folder) for words in wrong]
        wrong = (["check"], ["check", "none", "more"], ["infer", "none"], ["infer", "none", "port0", "more"])
        passed += [shows_usage(program, list(words), 2, folder) for words in wrong]
        nodes = ("", "port", "port10", "Port0", "ring-1", "ringx", "port0 ", "pool0", "0")
        passed += [shows_usage(program, [command, "none", name], 2, folder) for command in ("infer", "explain", "show") for name in nodes]
        wrong = (["infer-one"], ["infer-one", "none", "more"], ["trace-one", *strip[1:3]], ["trace-one", *strip], ["explain"], ["explain-one"], ["show", "none"], ["show-one"], ["show-one", "--dots", "none"])
        passed += [shows_usage(program, list(words), 2, folder) for words in wrong]
        wrong = (["run"], ["run", "none", "more"], ["run", "none", "--refuse"], ["run", "none", "--refuse", "1", "--refuse", "2"])
        passed += [shows_usage(program, list(words), 2, folder) for words in wrong]
        lists = ("", "0", ",", "1,", ",1", "1,,2", "1,1", "2,1", "1, 2", "+1", "-1", "0x1", "one", "18446744073709551616")
        passed += [shows_usage(program, ["run", "none", f"--refuse={name}"], 2, folder) for name in lists]
        passed += [ends_so(program, case, folder) for case in cases()]
        passed += stream_cases(program, folder)
        passed += capture_cases(program, folder)
        passed += largest_cases(program, folder)
        passed += [is_heard(program, words) for words in PRINTING]
        passed += [is_heard(saying(program, folder), words) for words in PRINTING if words[0] == "trace"]
    return report_cases("faults", passed)


if __name__ == "__main__":
    sys.exit(main())
