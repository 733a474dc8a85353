#!/usr/bin/env python3
"""Tests the C library of dpv: wrong calls, random pipelines and frames, and the hosts of examples/live.

Usage: tests/library/host.py [--seed N] [--cases N | --seconds N] [--jobs N] [--all] [--library FOLDER | --gate]
FOLDER has libdpv.a and dpv.h, as `./dpv library FOLDER` installs them; by default they are built into a new folder. With --gate the library is
built over the crates as `rt ci` left them, which proves its own crate once more. tests/library/wrong_callers.c runs under the C compiler's
sanitizers, and under valgrind if installed: each call returns what dpv.h says and changes nothing, packed files that are cut at each byte open
no engine, and all memory is freed; also where malloc refuses memory, and for an engine whose pipeline was not loaded. Each byte of two
certificates is set to each digit and some other values, with --all to each value: each text is refused, or the program does what it did.
bench/live/threads.c runs four engines on four threads, with ThreadSanitizer and under valgrind's helgrind: they share nothing, and do the same.
The hosts have to compile without a warning, tests/library/sockets.py runs af_packet.c, and if DPDK is installed, dpdk.c over its net_pcap has to
send for each example the records expected of `dpv run`. tests/library/routes.py has known calls on tables of routes. Then passes are compared with what was worked out by hand, and, for random pipelines,
frames in any order of ports, bursts, changes of routes and look-ups, all that the library returns and all its counts are compared with
tests/model. Prints a line for each finding, and a count; exits with 1 if there is a finding.
"""
import argparse
import concurrent.futures
import contextlib
import itertools
import math
import os
import pathlib
import re
import shutil
import struct
import subprocess
import sys
import tempfile
import threading
import time
import tomllib
from random import Random
from typing import Any, BinaryIO, NamedTuple

import paths  # noqa: F401
import engines
import routes
import sockets
import verdicts

from cases.pipelines import pipeline_files
from command import TOP
from model import captures, costs, machine, pipelines, programs
from over_gate import build
from planted import CRATES
from worlds import World, put, toml_of

HERE = pathlib.Path(__file__).resolve().parent
CROSS = TOP / "examples/live"
# The words with which DPDK needs no privileges, no huge pages and no card.
NO_CARD = ["--no-huge", "--no-pci", "--no-shconf", "--no-telemetry", "-m", "256", "--log-level=1"]


def put_library(folder: pathlib.Path, over_gate: bool) -> None:
    """Puts the library into a folder: as `./dpv library` does, or over the crates as `rt ci` left them."""
    words = [str(TOP / "tools/library"), str(folder)]
    folder.mkdir()
    if over_gate:
        made = CRATES["dp_host"].folder / "out/gate/libdp_host.a"
        made.parent.mkdir(parents=True, exist_ok=True)
        build(CRATES["dp_host"], made)
        words.append(str(made))
    subprocess.run(words, check=True)


def words_of(package: str) -> list[str] | None:
    """The words with which a C program is compiled over a package, where it is installed."""
    if not shutil.which("pkg-config"):
        return None
    flags = subprocess.run(["pkg-config", "--cflags", "--libs", package], capture_output=True, text=True)
    return flags.stdout.split() if flags.returncode == 0 else None


def compile_one(source: str, library: pathlib.Path, target: pathlib.Path, *flags: str) -> None:
    """Builds a program in C over the library."""
    words = ["cc", "-std=c99", "-O1", "-g", "-Wall", "-Wextra", "-Wno-unused-parameter", *flags, f"-I{library}", str(HERE / source)]
    subprocess.run([*words, "-o", str(target), f"-L{library}", "-ldpv"], check=True)


def wrong_callers(library: pathlib.Path, folder: pathlib.Path) -> int:
    """How many runs of the wrong callers failed."""
    words, bad = [str(CROSS / "cross.toml"), "to0.dpv", "to1.dpv"], 0
    ways = [("sanitizers", ["-fsanitize=address,undefined", "-fno-sanitize-recover=all"], [])]
    if shutil.which("valgrind"):
        ways.append(("valgrind", [], ["valgrind", "-q", "--error-exitcode=9", "--leak-check=full"]))
    for name, flags, prefix in ways:
        program = folder / f"wrong_{name}"
        compile_one("wrong_callers.c", library, program, *flags)
        run = subprocess.run([*prefix, str(program), *words], cwd=CROSS, capture_output=True, text=True, timeout=600)
        if run.returncode != 0:
            bad += 1
            print(f"host: wrong callers, {name}: status {run.returncode}\n{run.stdout[-2000:]}{run.stderr[-2000:]}")
    program = folder / "as_cpp"
    subprocess.run(["c++", "-x", "c++", "-Wall", f"-I{library}", "-c", str(HERE / "host_drive.c"), "-o", str(program)], check=True)
    return bad


# What C and C++ programs may ask a compiler to warn of, and the languages.
STRICT = ["-Wall", "-Wextra", "-Wconversion", "-Wsign-conversion", "-Wshadow", "-Wcast-qual", "-Wundef", "-pedantic", "-Werror"]
LANGUAGES = {"c99": ("cc", "gcc", "clang"), "c11": ("cc", "gcc", "clang"), "c++98": ("c++", "g++", "clang++"), "c++17": ("c++", "g++", "clang++")}


# Programs with their certificates, one of each version.
WITH_CERTS = ((verdicts.STRIP, verdicts.STRIPPED), (verdicts.RESOLE, verdicts.RESOLED))


def each_cert(library: pathlib.Path, folder: pathlib.Path) -> int:
    """How many certificates there are of which some byte, set to another value, does harm."""
    program, home, bad = folder / "each_cert", folder / "certs", 0
    compile_one("each_cert.c", library, program)
    home.mkdir()
    for text, cert in WITH_CERTS:
        put(home, engines.SMALL, (text,), {0: cert})
        words = ["it.toml", "n0.dpv", "n0.cert", *["all"] * ("--all" in sys.argv)]
        run = subprocess.run([str(program), *words], cwd=home, capture_output=True, text=True, timeout=600)
        bad += run.returncode != 0
        print(f"host: each byte of a certificate, status {run.returncode}, {run.stdout[-1000:].strip()} {run.stderr[-1000:]}")
    return bad


def strict(library: pathlib.Path, folder: pathlib.Path) -> int:
    """How many compilers warn of dpv.h alone."""
    source, bad = folder / "strict.c", 0
    source.write_text("#include <dpv.h>\nint main(void) { return 0; }\n")
    ways = [(name, language) for language, names in LANGUAGES.items() for name in names if shutil.which(name)]
    for name, language in ways:
        words = [name, "-x", "c++" if language.startswith("c++") else "c", f"-std={language}", *STRICT, f"-I{library}", "-c", str(source)]
        run = subprocess.run([*words, "-o", str(folder / "strict.o")], capture_output=True, text=True)
        if run.returncode != 0:
            bad += 1
            print(f"host: dpv.h by {name} as {language}: {run.stderr[:1000]}")
    print(f"host: dpv.h by {len(ways)} compilers and languages, {bad} findings")
    return bad


def threads(library: pathlib.Path, folder: pathlib.Path) -> int:
    """How many runs of four engines on four threads failed."""
    ways, bad = [("ThreadSanitizer", ["-fsanitize=thread"], [], "router/router.toml", "20000")], 0
    if shutil.which("valgrind"):
        ways.append(("helgrind", [], ["valgrind", "-q", "--tool=helgrind", "--error-exitcode=9"], "live/cross.toml", "500"))
    for name, flags, prefix, pipeline, rounds in ways:
        program, home = folder / f"threads_{name}", TOP / "examples" / pipeline
        compile_one("../../bench/live/threads.c", library, program, "-pthread", *flags)
        run = subprocess.run([*prefix, str(program), home.name, "4", rounds], cwd=home.parent, capture_output=True, text=True, timeout=600)
        if run.returncode != 0:
            bad += 1
            print(f"host: four threads, {name}: status {run.returncode}\n{run.stdout[-2000:]}{run.stderr[-4000:]}")
    print(f"host: four engines on four threads, {' and '.join(way[0] for way in ways)}, {bad} findings")
    return bad


def compile_host(name: str, library: pathlib.Path, folder: pathlib.Path, words: list[str]) -> pathlib.Path:
    """Builds a host of examples/live, with no warning."""
    over = [*words, f"-I{library}", f"-L{library}", "-ldpv"]
    flags = ["-O2", "-Wall", "-Wextra", "-Werror", "-Wno-deprecated-declarations"]
    subprocess.run(["cc", *flags, str(CROSS / f"{name}.c"), "-o", str(folder / name), *over], check=True)
    return folder / name


# A program that puts each frame into a ring, and one that takes a packet out as often as its first byte says before it sends it: at 32 node runs on
# packets of rings for each frame, some wait for many frames.
KEPT = {
    "enter.dpv": b"        iflen p0,14,drop\n        enq p0,0,drop\n        exit\ndrop:   free p0\n        exit\n",
    "wait.dpv": b"""        load r1,p0,0,1
        jlt r1,1,send
        sub r1,1
        store p0,0,1,r1
        enq p0,0,drop
        exit
send:   set r2,0
        tx p0,r2,drop
        exit
drop:   free p0
        exit
""",
    "kept.toml": b"""# node = "gone.dpv"
region = 4194304
pool = [{ count = 2048, cache = 32, room = 512 }]
ring = [{ count = 1024, share = 2, head = 128, tail = 0, first = 14, last = 0, segs = 1, node = "wait.dpv" }]
port = [{ pool = 0, segs = 1, queue = 256, in = "# none", out = "none \\" # none", node = "enter.dpv" }]
""",
}


def lasting(library: pathlib.Path, folder: pathlib.Path) -> int:
    """How many runs over several engines differed from one engine."""
    program, bad, ended = folder / "lasting_drive", 0, 0
    compile_one("lasting_drive.c", library, program, "-fsanitize=address,undefined", "-fno-sanitize-recover=all")
    kept = folder / "kept"
    kept.mkdir()
    for name, data in KEPT.items():
        (kept / name).write_bytes(data)
    found = sorted(it for it in (TOP / "examples").glob("*/*.toml") if it.parent.name != "refused")
    runs = [(it, str(limit), str(5 * limit), "1") for it in found for limit in (8, 100, 3000)]
    runs += [(kept / "kept.toml", str(limit), str(5 * limit), seed, "any") for limit in (8, 100, 1000) for seed in "123"]
    for pipeline, *words in runs:
        run = subprocess.run([str(program), pipeline.name, *words], cwd=pipeline.parent, capture_output=True, text=True, timeout=600)
        number = re.search(r"engines that ended: (\d+)", run.stdout)
        if run.returncode != 0 or number is None or int(number[1]) < 4:
            bad += 1
            print(f"host: lasting, {pipeline.name} {' '.join(words)}: status {run.returncode}\n{run.stdout[-1000:]}{run.stderr[-2000:]}")
        ended += int(number[1]) if number else 0
    print(f"host: {len(runs)} runs over several engines beside one, {ended} engines ended, {bad} findings")
    return bad


# Lines that a host gets as commands, and each as it takes it, or that it is none.
COMMANDS = {
    "stats": "stats",
    "add 0 10.2.0.0/16 1": "add 0 0a020000/16 1",
    "add 3 255.255.255.255/32 16777215  ": "add 3 ffffffff/32 16777215",
    " stats": None,
    "add 0 10.2.0.0/16 1" + 108 * " ": "add 0 0a020000/16 1",
    "add 0 10.2.0.0/16 1" + 110 * " " + "2": None,
    "add 0 10.2.0.0/16 1 2": None,
    "add 0 10.2.0.0/16": None,
    "add 0 10.2.0.256/16 1": None,
    "add 0 10.2.0/16 1": None,
    "add 0 10.2.0.0/16x 1": None,
    "add 0 10.2.0.0/16 1234567890": None,
    "delete 0 10.2.0.0/16": "delete 0 0a020000/16 0",
    "delete 0 10.2.0.0/16 1": None,
    "stats 1": None,
    "": None,
}


def commands(library: pathlib.Path, folder: pathlib.Path) -> int:
    """How many of the lines a host takes otherwise."""
    program = folder / "control_drive"
    compile_one("control_drive.c", library, program, "-fsanitize=address,undefined", "-fno-sanitize-recover=all", "-D_GNU_SOURCE")
    bad = 0
    for line, wanted in COMMANDS.items():
        run = subprocess.run([str(program)], input=f"{line}\n", capture_output=True, text=True, timeout=60)
        said = "control: no command: " if wanted is None else ""
        if (run.returncode, run.stdout) != (0, f"{wanted}\n" if wanted else "") or not run.stderr.startswith(said) or bool(run.stderr) != bool(said):
            bad += 1
            print(f"host: command {line!r}: status {run.returncode}, {run.stdout!r}, {run.stderr!r}")
    print(f"host: {len(COMMANDS)} commands, {bad} findings")
    return bad


# A word of a message, and what a host with --max-cost says of examples/live/cross.toml or of a program that jumps back.
BACK = b"again:  set r1,1\n        jeq r1,2,again\n        free p0\n        exit\n"


def costs_refused(host: pathlib.Path, folder: pathlib.Path, before: list[str], after: list[str]) -> int:
    """How often a host with --max-cost did not say what it should."""
    home, bad = folder / f"costs_{host.name}", 0
    shutil.copytree(CROSS, home)
    (home / "back.dpv").write_bytes(BACK)
    (home / "back.toml").write_text((home / "cross.toml").read_text().replace("to0.dpv", "back.dpv"))
    cases = [
        ("cross.toml", "3", "to1.dpv: a run of it can take 4 instructions, and --max-cost is 3\n"),
        ("back.toml", "1027", "back.dpv: a run of it can take 1028 instructions, and --max-cost is 1027; instruction 1, from 0, can jump back\n"),
        ("cross.toml", "0", "--max-cost 0: it has to be a number from 1 to 4294967295\n"),
        ("cross.toml", "4x", "--max-cost 4x: it has to be a number from 1 to 4294967295\n"),
        ("cross.toml", "4", None),
        ("back.toml", "1028", None),
    ]
    for file, most, wanted in cases:
        run = subprocess.run([str(host), *before, file, "--max-cost", most, *after], cwd=home, capture_output=True, text=True, timeout=60)
        status = (0, 3) if wanted is None else (1, 2)
        if run.returncode not in status or (wanted is not None and not run.stderr.endswith(wanted)):
            bad += 1
            print(f"host: {host.name} {file} --max-cost {most}: status {run.returncode}, {run.stderr[-500:]!r}")
    print(f"host: {host.name} --max-cost, {len(cases)} cases, {bad} findings")
    return bad


def is_refused(host: pathlib.Path, words: list[str], wanted: str) -> bool:
    """Whether a host refuses its words, and says this."""
    run = subprocess.run([str(host), *words], cwd=CROSS, capture_output=True, text=True, timeout=60)
    is_so = run.returncode == 2 and run.stderr.endswith(wanted)
    if not is_so:
        print(f"host: {host.name} {' '.join(words)}: status {run.returncode}, {run.stderr[-500:]!r}")
    return is_so


def records_of(capture: pathlib.Path) -> list[bytes]:
    """The bytes of the records of a capture."""
    return [record[2] for record in captures.read(capture.read_bytes()).records]


def sends_otherwise(host: pathlib.Path, pipeline: pathlib.Path, turns: list[str]) -> str | None:
    """How dpdk.c over net_pcap differs from what is expected of `dpv run` with an example, a frame of each port in turn."""
    ports, home = tomllib.loads(pipeline.read_text())["port"], pipeline.parent
    devices = [f"--vdev=net_pcap{k},rx_pcap={home / port['in']},tx_pcap={home / f'over{k}.pcap'}" for k, port in enumerate(ports)]
    run = subprocess.run([str(host), *NO_CARD, *devices, "--", pipeline.name, *turns, "1", "1000"], cwd=home, capture_output=True, text=True, timeout=60)
    if run.returncode != 0:
        return f"status {run.returncode}, {run.stderr[-1000:]}"
    for k in range(len(ports)):
        expected = home / ("expected.pcap" if len(ports) == 1 else f"expected{k}.pcap")
        if records_of(home / f"over{k}.pcap") != records_of(expected):
            return f"other records at port {k}"
    return None


# Frames that dpdk.c receives at port 0 of examples/live, by their sizes, a second device, and what it says: one is longer than the host takes, or
# shorter than net_tap sends, and the others arrive.
ODD_SIZES = [
    ((60, 70_000, 60), [], ("port 0 received 2 ", "\ntoo long 1\n")),
    ((60, 5, 60, 60), ["--vdev=net_tap1"], ("port 0 received 4 ", " sent 4 unsent 1\n")),
]


def odd_sizes(host: pathlib.Path, folder: pathlib.Path) -> int:
    """How many cases of frames of odd sizes have other counts."""
    bad, has_tap = 0, sockets.can_be_made("tuntap", "add", "mode", "tap")
    if not has_tap:
        print("host: dpdk.c over net_tap NOT TRIED, since this user may not make a network namespace with such a device")
    for sizes, more, wanted in ODD_SIZES if has_tap else ODD_SIZES[:1]:
        heads = [struct.pack("<IIII", 0, 0, size, size) + bytes(size) for size in sizes]
        (folder / "odd.pcap").write_bytes(struct.pack("<IHHIIII", 0xA1B2C3D4, 2, 4, 0, 0, 262144, 1) + b"".join(heads))
        devices = [f"--vdev=net_pcap0,rx_pcap={folder / 'odd.pcap'},tx_pcap={folder / 'odd_out.pcap'}", *more]
        words = [*(sockets.NAMESPACE if more else []), str(host), *NO_CARD, *devices, "--", "cross.toml", "32", "1000"]
        run = subprocess.run(words, cwd=CROSS, capture_output=True, text=True, timeout=60)
        if run.returncode != 0 or not all(it in run.stdout for it in wanted):
            bad += 1
            print(f"host: dpdk.c, frames of {sizes} bytes: status {run.returncode}, {run.stdout[-500:]} {run.stderr[-500:]}")
    return bad


def hosts(library: pathlib.Path, folder: pathlib.Path) -> int:
    """How many of the hosts, and of the examples over DPDK, failed."""
    host = compile_host("af_packet", library, folder, [])
    findings = costs_refused(host, folder, [], ["0=none_such"]) + sockets.run_in_namespace(host)
    findings += not is_refused(host, ["cross.toml", "1=none_such", "1=lo"], "1=lo: port 1 has an interface already\n")
    words = words_of("libdpdk")
    if words is None:
        print("host: dpdk.c NOT TRIED, since DPDK is not installed")
        return findings
    host = compile_host("dpdk", library, folder, words)
    findings += not is_refused(host, [*NO_CARD, "--", "cross.toml"], "there is no device: name one by -a or --vdev\n")
    findings += odd_sizes(host, folder)
    findings += costs_refused(host, folder, [*NO_CARD, "--vdev=net_null0,no-rx=1", "--"], ["1", "1"])
    shutil.copytree(TOP / "examples", folder / "examples")
    found = sorted(it for it in (folder / "examples").glob("*/*.toml") if it.parent.name not in ("refused", "live"))
    for pipeline, turns in itertools.product(found, ([], ["--turns", "1"], ["--turns", "7"])):
        wrong = sends_otherwise(host, pipeline, turns)
        if wrong:
            findings += 1
            print(f"host: dpdk.c, examples/{pipeline.parent.name} {' '.join(turns)}: {wrong}")
    print(f"host: dpdk.c over net_pcap, {len(found)} examples, by one engine and by several, {findings} findings")
    return findings


class Frame(NamedTuple):
    """A frame that a port receives."""

    port: int
    data: bytes

    def spelled(self) -> bytes:
        """The frame as the driver reads it."""
        return struct.pack("<III", 0, self.port, len(self.data)) + self.data


class Change(NamedTuple):
    """A route that is added (1), deleted (2) or looked up (3)."""

    kind: int
    table: int
    address: int
    depth: int
    hop: int

    def spelled(self) -> bytes:
        """The change as the driver reads it."""
        return struct.pack("<IIIII", *self)


class Burst(NamedTuple):
    """Frames that a port receives, passed in together."""

    port: int
    frames: list[bytes]

    def spelled(self) -> bytes:
        """The burst as the driver reads it."""
        return struct.pack("<III", 4, self.port, len(self.frames)) + b"".join(struct.pack("<I", len(data)) + data for data in self.frames)


Step = Frame | Change | Burst


def sized(data: bytes) -> bytes:
    """Bytes after their length."""
    return struct.pack("<I", len(data)) + data


# How many passes the driver's batch has room for.
ROOM = 4


class Case:
    """A pipeline, its files, and what is done with its engine: frames at ports, bursts of them, changes of routes, and look-ups."""

    def __init__(self, files: dict[str, bytes], steps: list[Step]) -> None:
        self.files, self.steps = files, steps
        self.text = self.files["it.toml"]
        names = [name for name in sorted(self.files) if name != "it.toml"]
        self.named = [self.files[name] for name in names]
        self.packed = b"".join(
            struct.pack("<II", len(name.encode()), len(self.files[name])) + name.encode() + self.files[name] for name in names
        )

    @classmethod
    def at_random(cls, rng: Random) -> "Case":
        """A random case."""
        has_tables = rng.random() < 0.05
        files = pipeline_files(rng, rng.random() < 0.85, has_tables).files
        share, number = 0.5 if has_tables else 0.02, rng.choice((0, 1, 5, 20, 60))
        return cls(files, [cls.step(rng, share) for _ in range(number)])

    @classmethod
    def step(cls, rng: Random, share: float) -> Step:
        """A change or a look-up of a route, a burst, or a frame."""
        if rng.random() < share:
            return cls.change(rng)
        frame = cls.frame(rng)
        if rng.random() < 0.9:
            return frame
        return Burst(frame.port, [frame.data, *(cls.frame(rng).data for _ in range(rng.choice((0, 1, 2, 3, 3, 20, 63))))])

    @staticmethod
    def change(rng: Random) -> Change:
        """A change or a look-up of a route, in a table that may not be there."""
        address = int.from_bytes(bytes(rng.choice((0, 0, 0, 1, 10, 128, 255)) for _ in range(4)), "big")
        depth = rng.choice((1, 8, 16, 24, 24, 25, 31, 32, rng.randrange(1, 33), rng.choice((0, 33, 255, 256, 264, 2**32 - 1))))
        hop = rng.choice((0, 1, 2, 255, rng.choice((2**24 - 1, 2**24, 2**32 - 1))))
        return Change(rng.choice((1, 1, 1, 2, 3)), rng.choice((0,) * 12 + (1, 1, 2, 3, 4, 255, 256, 2**32 - 1)), address, depth, hop)

    @staticmethod
    def frame(rng: Random) -> Frame:
        """A frame at a port, which may not be there."""
        size = rng.choice((0, 1, 13, 14, 33, 34, 54, 60, 60, 100, rng.randrange(300), rng.randrange(3000), rng.choice((9000, 40_000))))
        return Frame(rng.choice((0, 0, 0, 1, 1, 2, 3, 7, 8, 300)), rng.randbytes(size) if rng.random() < 0.5 else bytes(size))

    def spelled(self) -> bytes:
        """The case as the driver reads it."""
        files = [self.text, self.packed]
        costs = struct.pack("<I", len(self.named)) + b"".join(sized(data) for data in self.named)
        return b"".join(sized(data) for data in files) + costs + struct.pack("<I", len(self.steps)) + b"".join(step.spelled() for step in self.steps)


def number(stream: BinaryIO, size: int) -> int:
    """The number that comes next."""
    data = stream.read(size)
    if len(data) < size:
        raise EOFError
    return int.from_bytes(data, "little")


def expected(case: Case, reason: str) -> tuple[int, str, pipelines.Pipeline | None]:
    """By which cause a case is not opened and the words of it, or 0 and its pipeline. Of a program with loops any refusal is open."""
    loaded = pipelines.load(lambda name: case.files.get(name), case.text, False, f"{reason}\n")
    if isinstance(loaded, pipelines.Fault):
        text = (loaded[2] or loaded[1]).removesuffix("\n").removeprefix("fault: pipeline ")
        if "not inferred" in text:
            return 18, text, None
        if "refused" in text:
            return 19, text, None
        return 10 + int(text.split()[0]), text, None
    return (3, "the region is too small", None) if loaded.region < loaded.env.need() else (0, "", loaded)


# What the library answers to a text that is no program, and the numbers of a struct that the driver has filled and no call has set.
NO_PROGRAM, UNSET = 31, 0xA5A5A5A5


def cost_of(data: bytes) -> tuple[int, ...]:
    """The answer and the numbers of the cost of a file."""
    program = programs.assemble(data)
    return (NO_PROGRAM, UNSET, UNSET, UNSET) if isinstance(program, programs.Fault) else (0, *costs.cost_of(program))


def differs(case: Case, stream: BinaryIO) -> str | None:
    """Where the library differs from the model."""
    for data in case.named:
        cost = tuple(number(stream, 4) for _ in range(4))
        if cost != cost_of(data):
            return f"cost {cost} and not {cost_of(data)} of {data[:300]!r}"
    cause = number(stream, 4)
    reason = stream.read(number(stream, 4)).decode()
    wanted, words, pipeline = expected(case, reason)
    if (cause, reason) != (wanted, words):
        return f"opened with cause {cause} and {reason!r}, and not {wanted} and {words!r}"
    if pipeline is None:
        return None
    env = pipeline.env._replace(tables=[dict(known) for known in pipeline.env.tables])
    size, world = size_of(stream), machine.World(env, pipeline.programs)
    if size != batch_of(world):
        return f"a batch of {size} and not {batch_of(world)}"
    for k, step in enumerate(case.steps):
        came: Any
        if isinstance(step, Change):
            came, wanted_now = (number(stream, 4), number(stream, 4)), change_in(world, pipelines.limits(case.text), step)
        elif isinstance(step, Burst):
            came, wanted_now = [passed(stream) for _ in step.frames], burst_in(world, step)
        else:
            came, wanted_now = passed(stream), frame_in(world, step.port, step.data)
        if came != wanted_now:
            return f"step {k}, {str(step)[:100]}: {str(came)[:300]} and not {str(wanted_now)[:300]}"
    return numbers_differ(world, stream, pipeline)


# Where dpv_pass_burst begins, and where it ends.
BURST = "    dpv_burst_into(engine, port, frames, count, batch->records,"
BURST_ENDS = "                   &batch->filled);\n"
# What a wrong dpv.h does, and the text of the right one with that in its place: a run of the cases has to find each.
WRONG_HEADERS = {
    "a burst that drops its last frame": (
        BURST,
        f"""    if (count > 1) {{
        count--;
        frames[count].first = frames[count].records = frames[count].answer = 0;
    }}
{BURST}""",
    ),
    "times of a burst exchanged": (
        BURST,
        f"""    for (size_t k = 0; k < count / 2; k++) {{
        uint64_t time = frames[k].time;
        frames[k].time = frames[count - 1 - k].time;
        frames[count - 1 - k].time = time;
    }}
{BURST}""",
    ),
    "frames of a burst exchanged": (
        BURST,
        f"""    for (size_t k = 0; k < count / 2; k++) {{
        struct dpv_frame frame = frames[k], last = frames[count - 1 - k];
        frames[k].bytes = last.bytes;
        frames[k].length = last.length;
        frames[count - 1 - k].bytes = frame.bytes;
        frames[count - 1 - k].length = frame.length;
    }}
{BURST}""",
    ),
    "records of a burst that begin where the first begin": (
        BURST_ENDS,
        f"""{BURST_ENDS}    for (size_t k = 0; k < count; k++)
        for (size_t j = frames[k].records; j-- > 0;)
            batch->records[frames[k].first + j].offset -= batch->records[frames[k].first].offset;
""",
    ),
}


# What the library answers for a cause of a table, and the hop that the driver has before a look-up.
ROUTE_ANSWERS = {0: 0, 1: 25, 2: 26, 3: 27, 4: 28, 5: 29}
BATCH_TOO_SMALL, NO_TABLE, NO_ROUTE, UNTOUCHED = 23, 24, 30, 77


def change_in(world: machine.World, limits: list[dict[str, Any]], step: Change) -> tuple[int, int]:
    """The answer to a change, and the hop of a look-up."""
    if step.table >= len(world.env.tables):
        return NO_TABLE, UNTOUCHED
    known = world.env.tables[step.table]
    if step.kind == 3:
        hop = machine.hop_for(known, step.address)
        return (NO_ROUTE, UNTOUCHED) if hop is None else (0, hop)
    if step.kind == 1:
        cause = pipelines.add_route(known, limits[step.table], step.address, step.depth, step.hop)
    else:
        cause = pipelines.delete_route(known, step.address, step.depth)
    return ROUTE_ANSWERS[cause], UNTOUCHED


def passed(stream: BinaryIO) -> tuple[int, list[tuple[int, bytes]]]:
    """The answer and the records of a frame, as the driver wrote them."""
    return number(stream, 4), [(number(stream, 4), stream.read(number(stream, 4))) for _ in range(number(stream, 8))]


def size_of(stream: BinaryIO) -> tuple[int, int]:
    """The records and bytes of a batch, as the driver wrote them."""
    return number(stream, 8), number(stream, 8)


def batch_of(world: machine.World) -> tuple[int, int]:
    """The records and bytes that a batch needs: no pass sends more packets, or more bytes, than there are buffers."""
    count = sum(pool.count for pool in world.env.pools)
    return count, count * max(pool.room for pool in world.env.pools)


def burst_in(world: machine.World, step: Burst) -> list[tuple[int, list[tuple[int, bytes]]]]:
    """The answers and the records of a burst: those of its frames in turn, as long as the batch has room for a pass."""
    (count, size), records, filled = batch_of(world), 0, 0
    came = []
    for data in step.frames:
        has_room = records + count <= ROOM * count and filled + size <= ROOM * size
        came.append(frame_in(world, step.port, data) if has_room or step.port >= len(world.env.ports) else (BATCH_TOO_SMALL, []))
        records, filled = records + len(came[-1][1]), filled + sum(len(record) for _, record in came[-1][1])
    return came


def frame_in(world: machine.World, port: int, data: bytes) -> tuple[int, list[tuple[int, bytes]]]:
    """The answer and the records of a frame."""
    if port >= len(world.env.ports):
        return 18, []
    before = world.counts[port].received, world.counts[port].nobuf
    world.turn(port, data)
    answer = 0 if world.counts[port].received > before[0] else 1 if world.counts[port].nobuf > before[1] else 2
    return answer, [(to, record) for to in range(len(world.env.ports)) for record in world.drain(to)]


def numbers_differ(world: machine.World, stream: BinaryIO, pipeline: pipelines.Pipeline) -> str | None:
    """Which numbers of the library are not those of the model."""
    wanted: list[int] = []
    for count in world.counts:
        wanted += [count.received, count.nobuf, count.oversize, count.sent]
    wanted += [len(packets) for packets in world.rings]
    for free, pool in zip(world.free, pipeline.env.pools):
        wanted += [free, pool.count]
    turns = sum(count.received + count.nobuf + count.oversize for count in world.counts)
    wanted += [turns, world.calls, world.cuts, len(pipeline.env.pools)]
    came = [number(stream, 8) for _ in wanted]
    return None if came == wanted else f"numbers {came} and not {wanted}"


def hand_in(stream: BinaryIO, data: bytes) -> None:
    """Writes a case, unless the driver has ended."""
    with contextlib.suppress(BrokenPipeError):
        stream.write(data)
        stream.flush()


class Played(NamedTuple):
    """How many cases and steps a driver played, and the finding that ended it."""

    cases: int
    steps: int
    finding: str | None


def played_through(drive: "subprocess.Popen[bytes]", case: Case) -> str | None:
    """Where the library differs from the model in a case that is handed to the driver."""
    assert drive.stdin and drive.stdout
    # (the driver writes while it still reads)
    writer = threading.Thread(target=hand_in, args=(drive.stdin, case.spelled()))
    writer.start()
    try:
        wrong = differs(case, drive.stdout)
    except (EOFError, BrokenPipeError):
        return "the library ended the program"
    except machine.Stuck as stuck:
        wrong = f"an accepted program is stuck: {stuck}"
    writer.join()
    return wrong


def play(program: pathlib.Path, seed: str, numbers: range, until: float) -> Played:
    """Plays these cases through a driver, until the first finding or this time."""
    done, steps = 0, 0
    with subprocess.Popen([str(program)], stdin=subprocess.PIPE, stdout=subprocess.PIPE) as drive:
        assert drive.stdin
        for number in numbers:
            if time.monotonic() > until:
                break
            case = Case.at_random(Random(f"{seed} {number}"))
            wrong = played_through(drive, case)
            done, steps = done + 1, steps + len(case.steps)
            if wrong:
                drive.kill()
                with contextlib.suppress(BrokenPipeError):
                    drive.stdin.close()
                return Played(done, steps, f"case {number} of seed {seed}: {wrong}")
        drive.stdin.close()
        ended = drive.wait()
    return Played(done, steps, f"the driver ended with {ended}" if ended else None)


class ByHand(NamedTuple):
    """A pipeline with its programs, how many records and bytes a batch needs, frames with what the library sends for each, and all numbers at the end:
    received, dropped twice and sent of each port, free buffers and buffers of each pool, and turns, calls, cuts and pools."""

    world: World
    nodes: tuple[str, ...]
    size: tuple[int, int]
    frames: tuple[tuple[Frame, list[tuple[int, bytes]]], ...]
    numbers: tuple[int, ...]


BY_HAND = (
    # a pass hands out what all ports send: a record in two segments out of both ports, then one that is sent back
    ByHand(
        engines.DOUBLED, (engines.TO_BOTH, engines.FORWARD), (6, 1152),
        ((Frame(0, engines.HUNDRED), [(0, engines.HUNDRED), (1, engines.HUNDRED)]), (Frame(1, engines.NINES), [(1, engines.NINES)])),
        (1, 0, 0, 1, 1, 0, 0, 2, 6, 6, 2, 3, 0, 1),
    ),
)


def by_hand(program: pathlib.Path) -> int:
    """How many cases that were worked out by hand end otherwise."""
    bad = 0
    for row in BY_HAND:
        files = {"it.toml": toml_of(row.world).encode()} | {f"n{k}.dpv": text.encode() for k, text in enumerate(row.nodes)}
        case = Case(files, [frame for frame, _ in row.frames])
        wanted = b"".join(struct.pack("<IIII", *cost_of(it)) for it in case.named) + struct.pack("<IIQQ", 0, 0, *row.size)
        for _, sent in row.frames:
            wanted += struct.pack("<IQ", 0, len(sent)) + b"".join(struct.pack("<II", port, len(record)) + record for port, record in sent)
        wanted += struct.pack(f"<{len(row.numbers)}Q", *row.numbers)
        came = subprocess.run([str(program)], input=case.spelled(), capture_output=True, timeout=60).stdout
        if came != wanted:
            bad += 1
            print(f"host: by hand, {row.nodes[0]!r}: {came!r} and not {wanted!r}")
    print(f"host: {len(BY_HAND)} pipelines by hand, {bad} findings")
    return bad


def at_random(asked: Any, library: pathlib.Path, folder: pathlib.Path) -> int:
    """How many cases that were worked out by hand, and how many drivers, found something: there are as many drivers as jobs, which play random cases."""
    program, jobs = folder / "drive", asked.jobs
    compile_one("host_drive.c", library, program, "-fsanitize=undefined", "-fno-sanitize-recover=all")
    findings_by_hand = by_hand(program)
    until = time.monotonic() + asked.seconds if asked.seconds else math.inf
    with concurrent.futures.ProcessPoolExecutor(jobs) as pool:
        waiting = [pool.submit(play, program, asked.seed, range(lane, asked.cases, jobs), until) for lane in range(jobs)]
        all_played = [it.result() for it in waiting]
    findings = [it.finding for it in all_played if it.finding]
    for finding in findings:
        print(f"host: {finding}")
    cases, steps = sum(it.cases for it in all_played), sum(it.steps for it in all_played)
    print(f"host: seed {asked.seed}, {cases} pipelines, {steps} frames, bursts and changes, {len(findings)} findings")
    return findings_by_hand + len(findings)


def wrong_headers(asked: Any, library: pathlib.Path, folder: pathlib.Path) -> int:
    """How many wrong headers were not found by the cases."""
    right, missed = (library / "dpv.h").read_text(), 0
    for k, (title, (old, new)) in enumerate(WRONG_HEADERS.items()):
        include, program = folder / f"wrong{k}", folder / f"drive{k}"
        include.mkdir()
        (include / "dpv.h").write_text(right.replace(old, new))
        words = ["cc", "-std=c99", "-O1", f"-I{include}", str(HERE / "host_drive.c"), "-o", str(program), f"-L{library}", "-ldpv"]
        subprocess.run(words, check=True)
        if right.count(old) != 1 or play(program, asked.seed, range(1000), math.inf).finding is None:
            missed += 1
            print(f"host: {title} is not found")
    print(f"host: {len(WRONG_HEADERS)} wrong headers, {missed} not found")
    return missed


def main() -> int:
    """All of it."""
    parser = argparse.ArgumentParser(description="Plays the C library of dpv.")
    parser.add_argument("--seed", default="1")
    parser.add_argument("--cases", type=int, default=0)
    parser.add_argument("--seconds", type=float, default=0)
    parser.add_argument("--jobs", type=int, default=len(os.sched_getaffinity(0)))
    parser.add_argument("--library", type=pathlib.Path)
    parser.add_argument("--gate", action="store_true")
    parser.add_argument("--all", action="store_true", help="each byte of two certificates to each value")
    asked = parser.parse_args()
    asked.cases = asked.cases or (sys.maxsize if asked.seconds else 1000)
    if not shutil.which("cc"):
        print("host: NOT TRIED, since there is no C compiler")
        return 0
    with tempfile.TemporaryDirectory() as name:
        folder = pathlib.Path(name)
        library = asked.library
        if library is None:
            library = folder / "library"
            put_library(library, asked.gate)
        library = library.resolve()
        findings = sum(it(library, folder) for it in (wrong_callers, each_cert, strict, commands, threads, lasting, hosts))
        findings += at_random(asked, library, folder) + routes.findings(folder / "drive") + wrong_headers(asked, library, folder)
    return 1 if findings else 0


if __name__ == "__main__":
    sys.exit(main())
