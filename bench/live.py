#!/usr/bin/env python3
"""Measures the hosts of examples/live: the engine alone, over DPDK's devices, and over Linux packet sockets, each beside no engine.

Usage: bench/live.py [--library FOLDER] [--seconds N] [--rounds N] [alone] [threads] [dpdk] [lcores] [sockets]   (all five, with windows of 2 seconds)
FOLDER has libdpv.a and dpv.h, as `./dpv library FOLDER` puts them there; by default that is done first.
  alone    dpv_pass with no device: nanoseconds of processor time and, by perf or valgrind, machine instructions for a frame
  threads  engines side by side, one for each of 1, 2 and 4 threads, with no device: nanoseconds of processor time for a frame, and frames a
           second by the clock in all
  dpdk     examples/live/dpdk.c over net_null (frames of zeros, nothing is written) and net_pcap (one capture over and over, what is sent is
           dropped), beside the same host with no engine, and beside a loop as that of DPDK's l2fwd (bench/live/l2fwd.c)
  lcores   the same hosts and the same loop on 1, 2 and 4 lcores, over net_null and over net_ring (frames that circle between two devices), in one
           run: frames a second by the clock, nanoseconds of processor time and, for one lcore by valgrind, machine instructions for a frame
  sockets  examples/live/af_packet.c between two network namespaces with a sender, beside the same host with no engine
The same host with no engine is its source over bench/live/none/dpv.h, which hands each frame across. A host is asked for its numbers twice, and
between them its processor time is taken from /proc, so opening and closing are not in it. Prints a table for each; each figure is the best of
five windows, all hosts in turn in each round, so that a busy moment meets them alike. Of two numbers the first is the host's own and the second
the kernel's. Frames a second of one processor are those of a second of its time, which a machine that others use makes no less. What cannot be
measured here is said.
"""
import argparse
import contextlib
import itertools
import os
import pathlib
import re
import shutil
import signal
import struct
import subprocess
import sys
import tempfile
import time
from collections.abc import Iterator
from typing import NamedTuple

from tables import Table, number
from timing import TOP, dpdk, instructions
from wanted import has, reason

HERE = TOP / "bench/live"
LIVE = TOP / "examples/live"
SIZES = (60, 1500)
LCORES = (1, 2, 4)
NO_CARD = ["--no-huge", "--no-pci", "--no-shconf", "--no-telemetry", "-m", "256", "--log-level=1"]
# A pipeline by its name: its folder, and its file there.
PIPELINES = {
    "two ports that cross": (LIVE, "cross.toml"),
    "examples/ttl": (TOP / "examples/ttl", "ttl.toml"),
    "examples/router": (TOP / "examples/router", "router.toml"),
}


class Windows(NamedTuple):
    """The windows in which a host is measured, how many there are of each host, and whether the instructions of a frame are counted."""

    seconds: float
    rounds: int
    is_counted: bool = True


class Taken(NamedTuple):
    """What a window shows: nanoseconds of processor time a frame, those of its own and those in the kernel."""

    own: float
    kernel: float

    @property
    def total(self) -> float:
        """Both."""
        return self.own + self.kernel


def compiled(source: pathlib.Path, program: pathlib.Path, words: list[str]) -> pathlib.Path:
    """The program of a C file."""
    subprocess.run(["cc", "-O2", "-Wno-deprecated-declarations", str(source), "-o", str(program), *words], check=True)
    return program


def over(library: pathlib.Path) -> list[str]:
    """The compiler's arguments for a host over the library."""
    return [f"-I{library}", f"-L{library}", "-ldpv"]


# ---- the engine alone


def least(words: list[str], home: pathlib.Path, rounds: int) -> list[float]:
    """The least of each number that a program prints."""
    runs = [subprocess.run(words, cwd=home, check=True, capture_output=True, text=True).stdout.split() for _ in range(rounds)]
    return [min(map(float, column)) for column in zip(*runs)]


def alone(library: pathlib.Path, folder: pathlib.Path, windows: Windows) -> Table:
    """The table of dpv_pass with no device."""
    program = str(compiled(HERE / "alone.c", folder / "alone", over(library)))
    table = Table(["pipeline", "bytes", "ns", "machine instructions", "frames a second of one processor"], [24])
    for title, size in itertools.product(PIPELINES, SIZES):
        home, name = PIPELINES[title]
        words = [program, name, str(size)]
        nanos = least([*words, "1000000"], home, windows.rounds)[0]
        counts = [instructions([*words, str(rounds)], str(home)) for rounds in (1_000, 11_000)]
        each = None if None in counts else (counts[1] - counts[0]) / 10_000
        table.row(title, number(size), number(nanos), number(each), number(1e9 / nanos if nanos else None))
    return table


def threads(library: pathlib.Path, folder: pathlib.Path, windows: Windows) -> Table:
    """The table of engines side by side."""
    program = str(compiled(HERE / "threads.c", folder / "threads", ["-pthread", *over(library)]))
    table = Table(["pipeline", "threads", "ns", f"frames a second by the clock ({os.cpu_count()} processors)"], [24])
    for title, count in itertools.product(PIPELINES, LCORES):
        home, name = PIPELINES[title]
        nanos, clocked = least([program, name, str(count), "1000000"], home, windows.rounds)
        table.row(title, str(count), number(nanos), number(1e9 / clocked))
    return table


# ---- hosts that run


class Host:
    """A host that runs, and prints its numbers when it is asked."""

    def __init__(self, words: list[str], home: pathlib.Path, engines: int = 1) -> None:
        self.lines = 2 * engines
        self.run = subprocess.Popen(words, cwd=home, stdout=subprocess.PIPE, stderr=subprocess.STDOUT, text=True)
        self.process = self.run.pid
        while not self.is_ready():
            time.sleep(0.05)

    def is_ready(self) -> bool:
        """Whether it catches SIGUSR1."""
        if self.run.poll() is not None:
            raise EOFError("the host ended")
        caught = re.search(r"^SigCgt:\s*(\w+)", pathlib.Path(f"/proc/{self.process}/status").read_text(), re.M)
        return caught is not None and int(caught[1], 16) >> (signal.SIGUSR1 - 1) & 1 == 1

    def frames(self) -> int:
        """How many frames came so far, at all ports."""
        assert self.run.stdout
        os.kill(self.process, signal.SIGUSR1)
        came, ports = 0, 0
        while ports < self.lines:
            line = self.run.stdout.readline()
            if not line:
                raise EOFError("the host ended")
            found = re.match(r"port \d+ received (\d+)", line)
            if found:
                came, ports = came + int(found[1]), ports + 1
        return came

    def processor(self) -> tuple[float, float]:
        """Seconds of processor time so far: in all, and the part of it that was spent in the kernel."""
        fields = pathlib.Path(f"/proc/{self.process}/stat").read_text().rpartition(")")[2].split()
        user, kernel = int(fields[11]), int(fields[12])
        threads = pathlib.Path(f"/proc/{self.process}/task").iterdir()
        total = sum(int((thread / "schedstat").read_text().split()[0]) for thread in threads) / 1e9
        return total, total * kernel / max(1, user + kernel)

    def window(self, seconds: float) -> Taken:
        """What a window of time shows."""
        frames, (total, kernel) = self.frames(), self.processor()
        time.sleep(seconds)
        more, (total_then, kernel_then) = self.frames(), self.processor()
        came = max(1, more - frames)
        in_kernel = max(0.0, kernel_then - kernel)
        return Taken((total_then - total - in_kernel) / came * 1e9, in_kernel / came * 1e9)

    def end(self) -> None:
        """Ends it."""
        os.kill(self.process, signal.SIGTERM)
        self.run.communicate(timeout=60)


def measured(words: list[str], home: pathlib.Path, seconds: float) -> Taken:
    """What a host takes in a window, after it has run for a moment."""
    host = Host(words, home)
    try:
        time.sleep(0.5)
        return host.window(seconds)
    finally:
        host.end()


def best(ways: dict[str, list[str]], home: pathlib.Path, windows: Windows) -> dict[str, Taken]:
    """For each way the best of some windows, by processor time; each round has all of them."""
    found: dict[str, list[Taken]] = {way: [] for way in ways}
    for _ in range(windows.rounds):
        for way, words in ways.items():
            found[way].append(measured(words, home, windows.seconds))
    return {way: min(taken, key=lambda it: it.total) for way, taken in found.items()}


def sizes() -> list[str]:
    """The columns of sizes."""
    return [f"{number(size)} bytes" for size in SIZES]


# ---- over DPDK


def capture(path: pathlib.Path, size: int, records: int = 512) -> None:
    """A capture of IPv4 packets of this length in bytes."""
    frame = (bytes.fromhex("020000000001020000000101080045000000000000004011") + bytes(size))[:size]
    with open(path, "wb") as out:
        out.write(struct.pack("<IHHIIII", 0xA1B2C3D4, 2, 4, 0, 0, 262144, 1))
        out.writelines(struct.pack("<IIII", k, 0, size, size) + frame for k in range(records))


def over_dpdk(library: pathlib.Path, folder: pathlib.Path, windows: Windows) -> Table | None:
    """The table of hosts over DPDK's devices."""
    flags = dpdk()
    if flags is None or not has("net_pcap"):
        print(f"\nover DPDK: not measured, since {reason('net_pcap' if flags else 'DPDK')}")
        return None
    ours = compiled(LIVE / "dpdk.c", folder / "dpdk", [*flags, *over(library)])
    bare = compiled(LIVE / "dpdk.c", folder / "dpdk_none", [*flags, f"-I{HERE / 'none'}"])
    l2fwd = compiled(HERE / "l2fwd.c", folder / "l2fwd", flags)
    hosts = {"a loop as l2fwd's": (l2fwd, []), "the host, no engine": (bare, ["--", "cross.toml", "32"]), "the host": (ours, ["--", "cross.toml", "32"])}
    table = Table(["device", "host", *sizes()], [10, 22])
    for kind in ("net_null", "net_pcap"):
        found = []
        for size in SIZES:
            capture(folder / "in.pcap", size)
            options = f"size={size}" if kind == "net_null" else f"rx_pcap={folder / 'in.pcap'},infinite_rx=1"
            devices = [f"--vdev={kind}{k},{options}" for k in range(2)]
            found.append(best({title: [str(host), *NO_CARD, "-l", "0", *devices, *rest] for title, (host, rest) in hosts.items()}, LIVE, windows))
        for title in hosts:
            table.row(kind, title, *(number(taken[title].total) for taken in found))
    return table


# ---- on several lcores


def clocked(words: list[str], home: pathlib.Path, engines: int, seconds: float) -> tuple[float, float]:
    """Frames a second by the clock, and nanoseconds of processor time a frame."""
    host = Host(words, home, engines)
    try:
        time.sleep(0.5)
        frames, used, begun = host.frames(), host.processor()[0], time.monotonic()
        time.sleep(seconds)
        came, took = host.frames() - frames, time.monotonic() - begun
        return came / took, (host.processor()[0] - used) / max(1, came) * 1e9
    finally:
        host.end()


def counted(words: list[str], home: pathlib.Path, seconds: float) -> tuple[int, int] | None:
    """The machine instructions and the frames of a run under valgrind, which ends after some seconds."""
    tool = ["valgrind", "--tool=callgrind", "--callgrind-out-file=/dev/null"]
    run = subprocess.Popen([*tool, *words], cwd=home, stdout=subprocess.PIPE, stderr=subprocess.PIPE, text=True)
    time.sleep(seconds)
    run.send_signal(signal.SIGTERM)
    try:
        out, said = run.communicate(timeout=60)
    except subprocess.TimeoutExpired:
        # (the signal came while DPDK was still starting)
        run.kill()
        run.communicate()
        return None
    found = re.search(r"Collected : (\d+)", said)
    return (int(found[1]), sum(int(count) for count in re.findall(r"^port \d+ received (\d+)", out, re.M))) if found else None


def each_frame(words: list[str], home: pathlib.Path) -> str:
    """The machine instructions of a frame: those of a long run, without those of a short one."""
    runs = [counted(words, home, seconds) for seconds in (15, 25)] if shutil.which("valgrind") else [None]
    if None in runs or runs[1][1] <= runs[0][1]:
        return ""
    return f"{(runs[1][0] - runs[0][0]) / (runs[1][1] - runs[0][1]):.0f}"


def of_ring(library: pathlib.Path, folder: pathlib.Path, flags: list[str], kind: str) -> dict[str, tuple[pathlib.Path, list[str]]]:
    """The hosts over devices of a kind, each with its words; those over rings put the frames into them."""
    seed = ["-DSIZE=60", "-include", str(HERE / "seed.h")] if kind == "net_ring" else []
    cross = ["--", "cross.toml", "32"]
    return {
        "a loop as l2fwd's": (compiled(HERE / "l2fwd.c", folder / f"l2fwd_{kind}", [*seed, *flags]), []),
        "the host, no engine": (compiled(LIVE / "dpdk.c", folder / f"bare_{kind}", [*seed, *flags, f"-I{HERE / 'none'}"]), cross),
        "the host": (compiled(LIVE / "dpdk.c", folder / f"dpdk_{kind}", [*seed, *flags, *over(library)]), cross),
    }


def on_lcores(library: pathlib.Path, folder: pathlib.Path, windows: Windows) -> Table | None:
    """The table of hosts on several lcores."""
    flags = dpdk()
    if flags is None:
        print(f"\non several lcores: not measured, since {reason('DPDK')}")
        return None
    columns = [f"{count} lcore{'s' if count > 1 else ''}" for count in LCORES]
    table = Table(["device", "host", *columns, "ns a frame", "machine instructions"], [10, 22])
    for kind in ("net_null", "net_ring"):
        hosts = of_ring(library, folder, flags, kind)
        devices = [f"--vdev={kind}{k}{',size=60' if kind == 'net_null' else ''}" for k in range(2)]
        begun = {(way, count): [str(host), *NO_CARD, "-l", f"0-{count - 1}", *devices, *rest] for count in LCORES for way, (host, rest) in hosts.items()}
        runs = [{it: clocked(words, LIVE, it[1], windows.seconds) for it, words in begun.items()} for _ in range(windows.rounds)]
        for way in hosts:
            most = [max(run[way, count][0] for run in runs) for count in LCORES]
            nanos = [min(run[way, count][1] for run in runs) for count in LCORES]
            count = each_frame(begun[way, 1], LIVE) if windows.is_counted else ""
            table.row(kind, way, *map(number, most), f"{min(nanos):.0f} to {max(nanos):.0f}", count)
    return table


# ---- over packet sockets


def ip(*words: str) -> bool:
    """Runs a command of ip; returns whether it succeeded."""
    return subprocess.run(["ip", *words], capture_output=True).returncode == 0


@contextlib.contextmanager
def namespaces() -> Iterator[bool]:
    """Two hosts and a box between them, if this user may make them."""
    names = ["dpvb_a", "dpvb_b", "dpvb_box"]
    made = shutil.which("ip") is not None and all(ip("netns", "add", name) for name in names)
    try:
        for side in "ab" if made else "":
            ip("link", "add", f"v{side}", "netns", f"dpvb_{side}", "type", "veth", "peer", "name", f"box{side}", "netns", "dpvb_box")
            for place, link in ((f"dpvb_{side}", f"v{side}"), ("dpvb_box", f"box{side}")):
                subprocess.run(["ip", "netns", "exec", place, "sysctl", "-qw", "net.ipv6.conf.all.disable_ipv6=1"], capture_output=True)
                ip("-n", place, "link", "set", link, "up")
        yield made
    finally:
        for name in names:
            ip("netns", "del", name)


def over_sockets(library: pathlib.Path, folder: pathlib.Path, windows: Windows) -> Table | None:
    """The table of hosts over Linux packet sockets."""
    hosts = {
        "`af_packet.c` without an engine": compiled(LIVE / "af_packet.c", folder / "af_packet_none", [f"-I{HERE / 'none'}"]),
        "`af_packet.c`": compiled(LIVE / "af_packet.c", folder / "af_packet", over(library)),
    }
    blast, box, found = compiled(HERE / "blast.c", folder / "blast", []), ["ip", "netns", "exec", "dpvb_box"], []
    with namespaces() as made:
        if not made:
            print("\nover packet sockets: not measured, since this user may not make network namespaces")
            return None
        for size in SIZES:
            sender = subprocess.Popen(["ip", "netns", "exec", "dpvb_a", str(blast), "va", str(size)])
            try:
                ways = {title: [*box, str(host), "cross.toml", "0=boxa", "1=boxb"] for title, host in hosts.items()}
                found.append(best(ways, LIVE, windows))
            finally:
                sender.kill()
                sender.wait()
    table = Table(["host", *sizes()], [32])
    for title in hosts:
        table.row(title, *(f"{number(taken[title].own)} + {number(taken[title].kernel)}" for taken in found))
    return table


PARTS = {"alone": alone, "threads": threads, "dpdk": over_dpdk, "lcores": on_lcores, "sockets": over_sockets}


def library_in(folder: pathlib.Path) -> pathlib.Path:
    """The library, proved and built."""
    subprocess.run([str(TOP / "dpv"), "library", str(folder)], check=True)
    return folder


def tables(library: pathlib.Path, parts: list[str], windows: Windows) -> list[Table | None]:
    """A table of each part, or nothing where it cannot be measured."""
    with tempfile.TemporaryDirectory() as name:
        return [PARTS[part](library.resolve(), pathlib.Path(name), windows) for part in parts]


def main() -> None:
    parser = argparse.ArgumentParser(description="Measures the hosts of examples/live.")
    parser.add_argument("--library", type=pathlib.Path)
    parser.add_argument("--seconds", type=float, default=2)
    parser.add_argument("--rounds", type=int, default=5)
    parser.add_argument("parts", nargs="*", metavar="PART")
    asked = parser.parse_args()
    with tempfile.TemporaryDirectory() as name:
        tables(asked.library or library_in(pathlib.Path(name)), asked.parts or list(PARTS), Windows(asked.seconds, asked.rounds))


if __name__ == "__main__":
    sys.exit(main())
