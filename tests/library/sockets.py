#!/usr/bin/env python3
"""Tests examples/live/af_packet.c over two pairs of virtual interfaces, in a network namespace of its own.

Usage: tests/library/sockets.py HOST   (the built af_packet)
The host crosses two ports: what comes in at one goes out at the other. Frames have to arrive as they were sent, with all their VLAN tags; none
of another interface may be among them; those that the kernel drops have to be counted; an interface that goes down may not keep the host busy,
and forwards again once it is up; and a signal that comes right before the host waits has to end it. Prints a line for each finding, and a count; exits with 1 if there is a finding. Where this
user may not make namespaces that is said.
"""
import os
import pathlib
import re
import shutil
import signal
import socket
import struct
import subprocess
import sys
import time
from collections.abc import Callable
from typing import NamedTuple

import paths  # noqa: F401

from command import TOP, new_folder, put_library

LIVE = TOP / "examples/live"
# A new namespace; a user other than root gets one with a user namespace.
NAMESPACE = ["unshare", "--net"] if os.geteuid() == 0 else ["unshare", "--map-root-user", "--net"]
# The interfaces of the host, by port, and the other ends of their pairs.
BOX, ENDS = ("box0", "box1"), ("end0", "end1")
# The type of the frames that are sent here.
KIND = 0x88B5
# Of <linux/if_packet.h>: the level and the number of what is said beside a frame, and its bits.
SOL_PACKET, AUXDATA, TAGGED = 263, 8, 0x10
# VLAN tags of frames, outermost first.
TAGS = ((), ((0x8100, 100),), ((0x8100, 0),), ((0x8100, 0xE064),), ((0x88A8, 5), (0x8100, 100)), ((0x8100, 7), (0x8100, 8), (0x8100, 9)))
SIZES = (46, 1492)
# More frames than a socket has room for.
MANY = 20_000


def frame(tags: tuple[tuple[int, int], ...], size: int) -> bytes:
    """A frame with these tags, and a payload of this size."""
    words = b"".join(struct.pack(">HH", *tag) for tag in tags)
    return bytes.fromhex("020000000002020000000001") + words + struct.pack(">H", KIND) + bytes(k % 251 for k in range(size))


def opened(interface: str) -> socket.socket:
    """A packet socket on an interface."""
    end = socket.socket(socket.AF_PACKET, socket.SOCK_RAW, 0)
    end.setsockopt(SOL_PACKET, AUXDATA, 1)
    end.bind((interface, 3))
    end.settimeout(0.5)
    return end


def received(end: socket.socket) -> list[bytes]:
    """The frames that came to a socket, with the tags that the kernel took off."""
    frames = []
    while True:
        try:
            data, beside, _, (_, _, kind, *_) = end.recvmsg(65536, 256)
        except TimeoutError:
            return frames
        said = struct.unpack("=IIIHHHH", beside[0][2][:20])
        if said[0] & TAGGED:
            data = data[:12] + struct.pack(">HH", said[6], said[5]) + data[12:]
        if kind != socket.PACKET_OUTGOING:
            frames.append(data)


class Case(NamedTuple):
    """A host that runs, and the sockets at the other ends."""

    host: subprocess.Popen
    ends: tuple[socket.socket, socket.socket]

    def taken(self) -> float:
        """The processor time of the host so far, in seconds."""
        return int(pathlib.Path(f"/proc/{self.host.pid}/schedstat").read_text().split()[0]) / 1e9

    def crosses(self, frames: list[bytes]) -> bool:
        """Whether frames that come in at port 0 go out at port 1 as they are, and back."""
        for data in frames:
            self.ends[0].send(data)
        came = received(self.ends[1])
        for data in came:
            self.ends[1].send(data)
        return came == frames and received(self.ends[0]) == frames


def tags_arrive(case: Case) -> str | None:
    """Frames with and without VLAN tags."""
    return None if case.crosses([frame(tags, size) for tags in TAGS for size in SIZES]) else "frames do not arrive as they were sent"


def others_stay_away(case: Case) -> str | None:
    """Frames of another interface, which come while the host opens its own."""
    came = received(case.ends[0]) + received(case.ends[1])
    return f"{len(came)} frames of another interface were sent" if came else None


def set_link(interface: str, state: str) -> None:
    """Sets an interface up or down, and waits until it is."""
    subprocess.run(["ip", "link", "set", interface, state], check=True)
    time.sleep(0.2)


def link_returns(case: Case) -> str | None:
    """An interface that goes down and comes up again."""
    set_link(BOX[0], "down")
    before = case.taken()
    time.sleep(1)
    took = case.taken() - before
    set_link(BOX[0], "up")
    if took > 0.02:
        return f"took {took:.2f} seconds of processor time while an interface was down for one second"
    return None if case.crosses([frame((), 46)]) else "no frame arrives after an interface was down"


def drops_are_counted(case: Case) -> str | None:
    """More frames than the host's socket has room for, while the host does not run."""
    case.host.send_signal(signal.SIGSTOP)
    for _ in range(MANY):
        case.ends[0].send(frame((), 46))
    case.host.send_signal(signal.SIGCONT)
    case.host.send_signal(signal.SIGTERM)
    said = case.host.communicate(timeout=20)[0]
    missed, came = re.search(r"^port 0 missed (\d+)$", said, re.M), re.search(r"^port 0 received (\d+) ", said, re.M)
    return None if missed and came and 0 < int(missed[1]) <= MANY - int(came[1]) else f"said of dropped frames: {said}"


def ends_by_itself(case: Case) -> str | None:
    """A signal that comes right before the host waits for frames."""
    try:
        case.host.wait(5)
    except subprocess.TimeoutExpired:
        return "did not end by a signal right before it waits"
    return None


# What is tried: the call that is late, whether another interface is busy meanwhile, and what has to hold.
CASES: list[tuple[str, bool, Callable[[Case], str | None]]] = [
    ("", False, tags_arrive),
    ("bind", True, others_stay_away),
    ("", False, link_returns),
    ("", False, drops_are_counted),
    ("poll", False, ends_by_itself),
]


def is_ready(host: subprocess.Popen) -> bool:
    """Whether the host catches SIGTERM, or has ended."""
    if host.poll() is not None:
        return True
    caught = re.search(r"^SigCgt:\s*(\w+)", pathlib.Path(f"/proc/{host.pid}/status").read_text(), re.M)
    return caught is not None and int(caught[1], 16) >> (signal.SIGTERM - 1) & 1 == 1


def started(host: str, late: str, library: str, is_busy: bool) -> subprocess.Popen:
    """The host, once it forwards; while it starts, frames come to another interface if that is to be busy."""
    words = [host, "cross.toml", *(f"{port}={name}" for port, name in enumerate(BOX))]
    around = {**os.environ, "LATE": late, "LD_PRELOAD": library}
    run = subprocess.Popen(words, cwd=LIVE, env=around, stdout=subprocess.PIPE, stderr=subprocess.DEVNULL, text=True)
    with socket.socket(socket.AF_PACKET, socket.SOCK_RAW, 0) as other:
        other.bind(("lo", 0))
        while not is_ready(run):
            if is_busy:
                other.send(frame((), 46))
            time.sleep(0.001)
    time.sleep(0.2)
    return run


def tried(host: str, late: str, library: str, is_busy: bool, holds: Callable[[Case], str | None]) -> str | None:
    """What is wrong in a case."""
    with opened(ENDS[0]) as first, opened(ENDS[1]) as second:
        with started(host, late, library, is_busy) as run:
            try:
                return holds(Case(run, (first, second)))
            finally:
                run.kill()


def inside(host: str) -> int:
    """All cases, in a namespace with nothing in it. No interface sends a frame of its own."""
    for quiet in pathlib.Path("/proc/sys/net/ipv6/conf").glob("*/disable_ipv6"):
        quiet.write_text("1")
    subprocess.run(["ip", "link", "set", "lo", "up"], check=True)
    for box, end in zip(BOX, ENDS):
        subprocess.run(["ip", "link", "add", box, "type", "veth", "peer", "name", end], check=True)
        subprocess.run(["ip", "link", "set", end, "up"], check=True)
        set_link(box, "up")
    with new_folder() as folder:
        library = put_library("late", folder)
        if library is None:
            sys.exit("sockets: there is no C compiler")
        wrong = [found for case in CASES if (found := tried(host, case[0], str(library), *case[1:]))]
    for found in wrong:
        print(f"sockets: af_packet {found}")
    print(f"sockets: af_packet over virtual interfaces, {len(CASES)} cases, {len(wrong)} findings")
    return 1 if wrong else 0


def can_be_made(*link: str) -> bool:
    """Whether a namespace can be made, and such an interface in it."""
    if not shutil.which("ip") or not shutil.which("unshare"):
        return False
    return subprocess.run([*NAMESPACE, "ip", *link], capture_output=True).returncode == 0


def run_in_namespace(host: pathlib.Path) -> int:
    """The status of the cases in a namespace of their own, or 0 where none can be made."""
    if not can_be_made("link", "add", "type", "veth"):
        print("sockets: af_packet NOT TRIED, since this user may not make network namespaces, or ip is not installed (Debian: iproute2)")
        return 0
    return subprocess.run([*NAMESPACE, sys.executable, __file__, str(host.resolve()), "inside"]).returncode


if __name__ == "__main__":
    sys.exit(inside(sys.argv[1]) if sys.argv[2:] == ["inside"] else run_in_namespace(pathlib.Path(sys.argv[1])))
