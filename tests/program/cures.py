#!/usr/bin/env python3
"""Tests the commands that dpv names as cures for captures it does not read: runs each on a capture of that kind, and reads what comes out.

Usage: tests/program/cures.py [PROGRAM]
A capture of each kind has an IPv4 and an IPv6 packet. dpv refuses it and names a command of editcap. That command must end with status 0, and what
it writes must be a capture of Ethernet frames with the same packets and times, which dpv reads. Then compressed captures, each with the
command that unpacks it. Exits with 1 at a failure; what needs a tool that is missing is not tested."""
import pathlib
import re
import shlex
import shutil
import struct
import subprocess
import sys

import paths  # noqa: F401

import command

ETHERNET = 1
# The magic numbers of captures, by the nanoseconds of a fraction of a second.
MAGICS = {1000: 0xA1B2C3D4, 1: 0xA1B23C4D}
# Seconds and nanoseconds: whole microseconds, and others.
TIME, FINE = (1_700_000_000, 125_000_000), (1_700_000_000, 125_000_007)
IPV4 = bytes.fromhex("4500001e000100004011f9cc7f0000017f000001") + bytes.fromhex("13880035000a0000abcd")
IPV6 = bytes.fromhex("60000000000a1140") + bytes(15) + b"\1" + bytes(15) + b"\2" + bytes.fromhex("13880035000a0000abcd")
PACKETS = ((0x0800, IPV4), (0x86DD, IPV6))
MACS = bytes.fromhex("020000000002020000000001")


def ethernet(kind: int, packet: bytes) -> bytes:
    """A packet in an Ethernet frame."""
    return MACS + struct.pack(">H", kind) + packet


def cooked(kind: int, packet: bytes) -> bytes:
    """A packet after a header of Linux's captures on all interfaces: packet type, ARP type, length of the address, address, protocol."""
    return struct.pack(">HHH8sH", 0, 1, 6, MACS[6:] + bytes(2), kind) + packet


# Each kind of capture: its link type, and the records that it makes of packets.
KINDS = {
    "cooked": (113, cooked),
    "with checksums": (0x2400_0000 + ETHERNET, lambda kind, packet: ethernet(kind, packet) + b"\xde\xad\xbe\xef"),
    "of a user": (147, ethernet),
}


def write_capture(path: pathlib.Path, link: int, records: list[bytes], time: tuple[int, int] = TIME) -> None:
    """Writes a capture of records with this time."""
    unit = 1 if time[1] % 1000 else 1000
    body = b"".join(struct.pack("<IIII", time[0], time[1] // unit, len(it), len(it)) + it for it in records)
    path.write_bytes(struct.pack("<IHHiIII", MAGICS[unit], 2, 4, 0, 0, 65_535, link) + body)


def read_capture(path: pathlib.Path) -> tuple[int, list[tuple[tuple[int, int], bytes]]]:
    """The link type of a capture, and its records with their times."""
    data, found = path.read_bytes(), []
    magic, *_, link = struct.unpack_from("<IHHiIII", data)
    unit = next((unit for unit, own in MAGICS.items() if own == magic), 0)
    at = 24 if unit else len(data)
    while at < len(data):
        seconds, fraction, length, _ = struct.unpack_from("<IIII", data, at)
        found.append(((seconds, fraction * unit), data[at + 16 : at + 16 + length]))
        at += 16 + length
    return link, found


def cure_named(program: str, source: pathlib.Path) -> list[str] | None:
    """The command of editcap that dpv names for a capture."""
    words = [program, "one", str(command.STRIP / "strip.dpv"), str(command.STRIP / "strip.cert"), source.name, "refused.pcap"]
    ran = subprocess.run(words, cwd=source.parent, capture_output=True, text=True, check=False)
    named = re.search(r"editcap [^;\n]*? IN OUT", command.said("", ran.stderr)[1])
    return shlex.split(named[0]) if ran.returncode == 3 and named else None


def is_cured(program: str, source: pathlib.Path, time: tuple[int, int] = TIME) -> bool:
    """Whether the cure that dpv names for this capture gives the same packets and times in frames, in a capture that dpv reads."""
    words = cure_named(program, source)
    if words is None:
        return False
    into = source.with_suffix(".cured")
    names = {"IN": source.name, "OUT": into.name}
    if subprocess.run([names.get(it, it) for it in words], cwd=source.parent, capture_output=True, check=False).returncode != 0:
        return False
    link, records = read_capture(into)
    wanted = [(time, struct.pack(">H", kind) + packet) for kind, packet in PACKETS]
    words = [program, "one", str(command.STRIP / "strip.dpv"), str(command.STRIP / "strip.cert"), into.name, "out.pcap"]
    return (
        link == ETHERNET
        and [(own, frame[12:]) for own, frame in records] == wanted
        and subprocess.run(words, cwd=source.parent, capture_output=True, check=False).returncode == 0
    )


def converted(program: str, folder: pathlib.Path) -> list[bool]:
    """Captures that editcap converts."""
    passed = []
    for number, (name, (link, record)) in enumerate(KINDS.items()):
        source = folder / f"{number}.pcap"
        write_capture(source, link, [record(*it) for it in PACKETS])
        passed.append(is_cured(program, source))
        if not passed[-1]:
            print(f"cures: a capture {name}: the cure fails")
    frames = folder / "frames.pcap"
    for form, time in (("pcapng", TIME), ("pcapng", FINE), ("modpcap", TIME)):
        write_capture(frames, ETHERNET, [ethernet(*it) for it in PACKETS], time)
        other = folder / f"other.{form}"
        subprocess.run(["editcap", "-F", form, frames.name, other.name], cwd=folder, check=True)
        passed.append(is_cured(program, other, time))
    return passed


def is_unpacked(program: str, folder: pathlib.Path, tool: str) -> bool:
    """Whether dpv names a command for a capture that this tool compressed, and that command gives the capture."""
    whole, packed = folder / "whole.pcap", folder / f"packed.{tool}"
    write_capture(whole, ETHERNET, [ethernet(*it) for it in PACKETS])
    with open(packed, "wb") as into:
        subprocess.run([tool, "-c", whole.name], cwd=folder, stdout=into, stderr=subprocess.DEVNULL, check=True)
    words = [program, "one", str(command.STRIP / "strip.dpv"), str(command.STRIP / "strip.cert"), packed.name, "refused.pcap"]
    ran = subprocess.run(words, cwd=folder, capture_output=True, text=True, check=False)
    named = re.search(rf"it is compressed by {tool}; (\S+ -dc IN > OUT) unpacks it\n", command.said("", ran.stderr)[1])
    if ran.returncode != 3 or named is None:
        return False
    shell = named[1].replace("IN", packed.name).replace("OUT", "unpacked.pcap")
    return subprocess.run(shell, shell=True, cwd=folder, check=False).returncode == 0 and (folder / "unpacked.pcap").read_bytes() == whole.read_bytes()


def main() -> int:
    program, passed = command.asked(), list[bool]()
    with command.new_folder() as folder:
        if shutil.which("editcap"):
            passed += converted(program, folder)
        else:
            print("cures: no editcap: its commands are NOT TRIED")
        for tool in ("gzip", "bzip2", "xz", "zstd", "lz4"):
            if shutil.which(tool):
                passed.append(is_unpacked(program, folder, tool))
                if not passed[-1]:
                    print(f"cures: a capture compressed by {tool}: the cure fails")
            else:
                print(f"cures: no {tool}: its command is NOT TRIED")
    return command.report_cases("cures", passed)


if __name__ == "__main__":
    sys.exit(main())
