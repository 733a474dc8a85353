#!/usr/bin/env python3
"""Measures `dpv one` beside other programs that do the same to a capture, and beside `cp`, on captures that it makes.

Usage: bench/one.py [--program PROGRAM] [--rounds N] [--records N]   (the built program that ./dpv runs, 9 rounds, 100000 records of 1,500
bytes, and more of smaller ones)
Two tables. In the first each program takes 14 bytes off each record: dpv with examples/strip, five programs in C and one in Rust (OTHERS has
their sources), and editcap. In the second an 802.1Q tag: dpv with examples/vlan_pop, C over DPDK's mbufs, tcprewrite. What is not here is
named and left out. A time is nanoseconds of processor time for a record, that in the kernel with it, without what a run on a capture of one
record takes: the least of the rounds, each of which runs all programs in turn. A count is machine instructions for a record, those of the
kernel not among them: the difference of two runs. Rows stand by the time of a record of 60 bytes. Exits with 1 where a program writes other
packets than dpv does; what is compared has the times of records, but for net_pcap, which stamps its own, and not the capture's header.
"""
import argparse
import pathlib
import struct
import subprocess
import sys
import tempfile
from typing import NamedTuple

from tables import Table, number
from timing import TOP, best_in_turn, built, dpdk, instructions
from wanted import has, reason

HERE = TOP / "bench"
STRIP = TOP / "examples" / "strip"
TAG = TOP / "examples" / "vlan_pop" / "vlan_pop.dpv"
SIZES = {"60 bytes": [60], "60 to 1,514 bytes": [60, 60, 60, 60, 60, 60, 60, 594, 594, 594, 594, 1514], "1,500 bytes": [1500]}
# The sizes for which machine instructions are counted, and the records of the two runs.
COUNTED = ["60 bytes", "60 to 1,514 bytes"]
COUNTS = (1_200, 13_200)
# How many records there are of each size, in times of those asked for: small ones are more, so that starting matters as little to them.
TIMES = {"60 bytes": 5, "60 to 1,514 bytes": 2, "1,500 bytes": 1}
COLUMNS = ["program", *(f"ns, {size}" for size in SIZES), *(f"instructions, {size}" for size in COUNTED)]
RECORDS, ROUNDS = 100_000, 9


class Other(NamedTuple):
    """A program that is compiled first: its source, what has to be here, and what the linker needs."""

    source: str
    wants: tuple[str, ...]
    libraries: tuple[str, ...] = ()


OTHERS = {
    "C, mmap": Other("one/mapped.c", ("cc",)),
    "C, read and write": Other("one/pieces.c", ("cc",)),
    "C, stdio": Other("one/stdio.c", ("cc",)),
    "Rust": Other("one/strip.rs", ("rustc",)),
    "C, libpcap": Other("one/libpcap.c", ("cc", "libpcap"), ("-lpcap",)),
    "C, mbufs": Other("nodes/nodes.c", ("cc", "DPDK"), ("-lrte_bpf",)),
    "C, net_pcap": Other("one/net_pcap.c", ("cc", "DPDK", "net_pcap")),
}
MBUFS, EDITCAP, TCPREWRITE = "C, mbufs", "editcap", "tcprewrite"
STAMPS_ITS_OWN = ["C, net_pcap"]
Ways = dict[str, list[str]]


def frame_of(size: int, is_tagged: bool) -> bytes:
    """A frame of this length in bytes: an IPv4 packet with its checksum, since tcprewrite corrects a wrong one."""
    front = bytes(range(12)) + (b"\x81\x00\x00\x64\x08\x00" if is_tagged else b"\x08\x00")
    header = struct.pack(">BBHHHBBHII", 0x45, 0, size - len(front), 1, 0, 64, 253, 0, 0x0A000001, 0x0A010001)
    total = sum(struct.unpack(">10H", header))
    total = (total & 0xFFFF) + (total >> 16)
    header = header[:10] + struct.pack(">H", ~(total + (total >> 16)) & 0xFFFF) + header[12:]
    return (front + header + bytes(k & 255 for k in range(size)))[:size]


def make(path: pathlib.Path, records: int, sizes: list[int], is_tagged: bool) -> None:
    """A capture of this number of records, whose sizes repeat in turn."""
    heads = [struct.pack("<II", size, size) + frame_of(size, is_tagged) for size in sizes]
    with open(path, "wb", buffering=1 << 20) as out:
        out.write(struct.pack("<IHHIIII", 0xA1B2C3D4, 2, 4, 0, 0, 262144, 1))
        for k in range(records):
            out.write(struct.pack("<II", 1700000000 + k // 1000000, k % 1000000) + heads[k % len(heads)])


def packets(path: pathlib.Path, has_times: bool = True) -> bytes:
    """What follows the header of a capture, whose snapshot length writers choose; the times of its records with it, or not."""
    capture, parts, at = path.read_bytes(), [], 24
    while not has_times and at < len(capture):
        end = at + 16 + int.from_bytes(capture[at + 8 : at + 12], "little")
        parts.append(capture[at + 8 : end])
        at = end
    return capture[24:] if has_times else b"".join(parts)


def made_in(folder: pathlib.Path) -> dict[str, str]:
    """The other programs, compiled where that can be done."""
    made = {}
    for name, other in OTHERS.items():
        lacking = next((it for it in other.wants if not has(it)), None)
        if lacking:
            print(f"{name}: not measured, since {reason(lacking)}")
            continue
        source, target = str(HERE / other.source), str(folder / pathlib.Path(other.source).stem)
        is_rust, flags = source.endswith(".rs"), (dpdk() or []) if "DPDK" in other.wants else []
        words = ["rustc", "-O", "-C", "opt-level=3"] if is_rust else ["cc", "-O3"]
        subprocess.run([*words, source, "-o", target, *flags, *other.libraries], check=True)
        made[name] = target
    return made


def here(name: str, words: list[str]) -> Ways:
    """A program that is installed, or nothing, which is said."""
    if has(name):
        return {name: words}
    print(f"{name}: not measured, since {reason(name)}")
    return {}


def stripping(program: str, made: dict[str, str], source: str) -> Ways:
    """The programs that take 14 bytes off, each with its words before the name of the capture that it writes."""
    ways: Ways = {"cp": ["cp", source], "dpv": [program, "one", str(STRIP / "strip.dpv"), str(STRIP / "strip.cert"), source]}
    ways |= {name: [it, "strip", "-", source, "--"] if name == MBUFS else [it, source] for name, it in made.items()}
    return ways | here(EDITCAP, ["editcap", "-F", "pcap", "-L", "-C", "14", source])


def popping(program: str, made: dict[str, str], source: str) -> Ways:
    """The programs that take a tag off."""
    cert = pathlib.Path(source).parent / "tag.cert"
    cert.write_text(subprocess.run([program, "infer-one", str(TAG)], check=True, capture_output=True, text=True).stdout)
    ways: Ways = {"cp": ["cp", source], "dpv": [program, "one", str(TAG), str(cert), source]}
    ways |= {MBUFS: [made[MBUFS], "vlan_pop", "-", source, "--"]} if MBUFS in made else {}
    return ways | here(TCPREWRITE, ["tcprewrite", "--enet-vlan=del", "-i", source, "-o"])


class Captures:
    """A folder with the capture that all read, and one that each way writes."""

    def __init__(self, folder: pathlib.Path, ways: Ways, is_tagged: bool) -> None:
        self.source, self.short, self.is_tagged = folder / "in.pcap", folder / "short.pcap", is_tagged
        self.files = {name: folder / f"{k}.pcap" for k, name in enumerate(ways)}
        self.commands = {name: [*words, str(self.files[name])] for name, words in ways.items()}

    def make(self, size: str, records: int) -> None:
        """The capture that all read."""
        make(self.source, records, SIZES[size], self.is_tagged)

    def times(self, size: str, rounds: int) -> dict[str, float]:
        """The least processor time of each way, in seconds, less that of a capture of one record; the longer one comes last in each round."""
        make(self.short, 1, SIZES[size], self.is_tagged)
        starts = {name: [str(self.short) if word == str(self.source) else word for word in words] for name, words in self.commands.items()}
        taken = best_in_turn([(words, self.files[name]) for them in (starts, self.commands) for name, words in them.items()], rounds)
        return {name: whole - start for name, start, whole in zip(starts, taken, taken[len(starts) :])}

    def others(self) -> list[str]:
        """The ways that wrote other packets than dpv."""
        right = {has_times: packets(self.files["dpv"], has_times) for has_times in (True, False)}
        kept = {name: name not in STAMPS_ITS_OWN for name in self.files if name not in ("cp", "dpv")}
        return [name for name, has_times in kept.items() if packets(self.files[name], has_times) != right[has_times]]

    def empty(self) -> None:
        """Removes what was written."""
        for file in self.files.values():
            file.unlink(missing_ok=True)


def nanoseconds(captures: Captures, size: str, records: int, rounds: int) -> dict[str, float]:
    """What a record takes each way; the last runs' captures are kept."""
    captures.make(size, records)
    return {name: taken / records * 1e9 for name, taken in captures.times(size, rounds).items()}


def counted(captures: Captures, size: str) -> dict[str, float | None]:
    """The machine instructions of a record each way, where they can be counted."""
    runs = []
    for records in COUNTS:
        captures.make(size, records)
        runs.append({name: instructions(words) for name, words in captures.commands.items()})
    low, high = runs
    return {name: None if None in (low[name], high[name]) else (high[name] - low[name]) / (COUNTS[1] - COUNTS[0]) for name in low}


def table(folder: pathlib.Path, ways: Ways, is_tagged: bool, records: int, rounds: int) -> Table:
    """The table of these ways."""
    captures, times, faults = Captures(folder, ways, is_tagged), {}, []
    for size in SIZES:
        times[size] = nanoseconds(captures, size, TIMES[size] * records, rounds)
        faults += [f"{name} writes other packets than dpv, {size}" for name in captures.others()]
        captures.empty()
    counts = {size: counted(captures, size) for size in COUNTED}
    found = Table(COLUMNS, [max(map(len, [*OTHERS, *ways]))])
    for name in sorted(ways, key=times["60 bytes"].__getitem__):
        found.row(name, *(number(times[size][name]) for size in SIZES), *(number(counts[size][name]) for size in COUNTED))
    for fault in faults:
        found.fault(fault)
    captures.empty()
    return found


def tables(program: str, records: int = RECORDS, rounds: int = ROUNDS) -> list[Table]:
    """Both tables."""
    with tempfile.TemporaryDirectory() as name:
        folder = pathlib.Path(name)
        made, source = made_in(folder), str(folder / "in.pcap")
        kinds = {False: stripping, True: popping}
        return [table(folder, ways(program, made, source), is_tagged, records, rounds) for is_tagged, ways in kinds.items()]


def main() -> int:
    parser = argparse.ArgumentParser(description="Measures dpv one beside other programs.")
    parser.add_argument("--program")
    parser.add_argument("--rounds", type=int, default=ROUNDS)
    parser.add_argument("--records", type=int, default=RECORDS)
    asked = parser.parse_args()
    found = tables(asked.program or built(), asked.records, asked.rounds)
    return 1 if any(it.faults for it in found) else 0


if __name__ == "__main__":
    sys.exit(main())
