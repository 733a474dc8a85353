"""What the benches run that is not in this repository: how each is found, its package in Debian, and what is left out without it."""
import functools
import os
import pathlib
import shutil
import subprocess
from collections.abc import Callable
from typing import NamedTuple


class Wanted(NamedTuple):
    """A thing that a bench runs, and whether it is here."""

    package: str
    without: str
    is_there: Callable[[], bool]


def program(*names: str) -> Callable[[], bool]:
    """A test for programs, all of which are wanted."""
    return lambda: all(shutil.which(name) for name in names)


def compiles(head: str, *words: str) -> bool:
    """Whether a C program with this header can be compiled and linked."""
    if not shutil.which("cc"):
        return False
    text = f"#include <{head}>\nint main(void) {{ return 0; }}\n"
    return subprocess.run(["cc", "-x", "c", "-", "-o", os.devnull, *words], input=text, text=True, capture_output=True).returncode == 0


def of_dpdk(*words: str) -> str:
    """What pkg-config says of DPDK; nothing where one of them is not here."""
    if not shutil.which("pkg-config"):
        return ""
    return subprocess.run(["pkg-config", *words, "libdpdk"], capture_output=True, text=True).stdout.strip()


def has_device() -> bool:
    """Whether DPDK finds its device net_pcap."""
    folder = of_dpdk("--variable=libdir")
    return folder != "" and any(pathlib.Path(folder).glob("dpdk/pmds-*/librte_net_pcap.so*"))


def can_count() -> bool:
    """Whether machine instructions can be counted."""
    if shutil.which("valgrind"):
        return True
    words = ["perf", "stat", "-x,", "-e", "instructions:u", "true"]
    return bool(shutil.which("perf")) and "not supported" not in subprocess.run(words, capture_output=True, text=True).stderr


WANTED = {
    "cc": Wanted("gcc, libc6-dev", "all in C: most rows of `one`, all of `nodes` and `live`", program("cc")),
    "valgrind, or perf": Wanted("valgrind", "`engine`, `nodes`, `grow`, `check`, `calls`, and columns of the others", can_count),
    "rustc": Wanted("rustc", "the row Rust of `one`", program("rustc")),
    "libpcap": Wanted("libpcap-dev", "the row of libpcap of `one`", lambda: compiles("pcap.h", "-lpcap")),
    "DPDK": Wanted("libdpdk-dev, pkg-config", "`nodes`, `dpdk`, `lcores`, two rows of `one`, columns of `heap` and others", lambda: bool(of_dpdk("--libs"))),
    "net_pcap": Wanted("librte-net-pcap23", "the row of net_pcap of `one`, and `dpdk`", has_device),
    "clang for eBPF": Wanted("clang, llvm", "the columns of eBPF of `nodes`", program("clang", "llvm-objcopy")),
    "editcap": Wanted("wireshark-common", "the row of editcap of `one`", program("editcap")),
    "tcprewrite": Wanted("tcpreplay", "the row of tcprewrite of `one`", program("tcprewrite")),
    "ip, run by root": Wanted("iproute2", "`sockets`", lambda: bool(shutil.which("ip")) and os.geteuid() == 0),
    "rt": Wanted("not there: it is the toolchain of this repository", "`check`, `calls`, compiled nodes, and what has to be built first", program("rt")),
}


@functools.cache
def has(name: str) -> bool:
    """Whether this is here."""
    return WANTED[name].is_there()


def reason(name: str) -> str:
    """Why what wants this is left out."""
    return f"{name} is not here (Debian: {WANTED[name].package})"


def missing() -> list[str]:
    """A line for each thing that is not here."""
    return [f"{name} is not here (Debian: {it.package}); left out: {it.without}" for name, it in WANTED.items() if not has(name)]
