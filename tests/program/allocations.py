#!/usr/bin/env python3
"""Runs the built program dpv while memory or a device fails.

Usage: tests/program/allocations.py [PROGRAM]   (the built program; by default the one that ./dpv builds and runs)
Refused memory: dpv runs again and again, with the first allocation refused, then the second, and so on to the last. Each run has to end
with `fault: memory` and status 4, or do all that a run without refusals does. One that ended early may have printed only the first of the
lines, and has left each of its outputs empty or whole. A run of a pipeline makes as many allocations for 1,000 records as for one. Memory
that is returned: a run with a region of 64 mebibytes keeps less than one of them at its end. A full disk: a failed write gives status 3,
and a port's `sent` counts only the records that are whole in its file. Prints a line for each, and exits with 1 if one failed.
"""
import os
import pathlib
import re
import resource
import shutil
import signal
import struct
import subprocess
import sys

import paths  # noqa: F401

from command import MULTICAST, STRIP, asked, fixed, new_folder, put_library

OUTPUTS = ("out.pcap", "port0.pcap", "port1.pcap")
MEBIBYTE = 1_048_576
# the document of a command that found no memory
NO_MEMORY = b'{"fault":{"status":4,"text":"fault: memory"}}\n'
HEAP = "region 65536\n" + "malloc 100 0\n" * 40 + "zmalloc 64 1024\nlist\nfree 1\nfree 41\nstats\n"


def one(program: str, output: str) -> list[str]:
    """The words that run the example on its capture."""
    return [program, "one", str(STRIP / "strip.dpv"), str(STRIP / "strip.cert"), str(STRIP / "in.pcap"), output]


def copy_multicast(folder: pathlib.Path, records: int, region: int | None = None) -> list[str]:
    """Copies the example of two ports, port 0 with this number of records, and returns the words that run it, without the program."""
    shutil.copytree(MULTICAST, folder, dirs_exist_ok=True)
    header, record = 24, struct.pack("<IIII", 1, 2, 60, 60) + bytes(60)
    capture = (MULTICAST / "in0.pcap").read_bytes()[:header] + records * record
    (folder / "in0.pcap").write_bytes(capture)
    if region is not None:
        text = (MULTICAST / "multicast.toml").read_text()
        (folder / "multicast.toml").write_text(re.sub(r"(?m)^region = \d+", f"region = {region}", text))
    return ["run", "multicast.toml"]


class Ended:
    """What a run did: its status, its outputs and files, how many allocations it made, and how many bytes it kept."""

    def __init__(self, command: list[str], shim: pathlib.Path, refused: int) -> None:
        folder = shim.parent
        outputs, count = [folder / name for name in OUTPUTS], folder / "count"
        for output in outputs:
            output.unlink(missing_ok=True)
        env = dict(os.environ, LD_PRELOAD=str(shim), REFUSE=str(refused), COUNT=str(count))
        run = subprocess.run(command, env=env, cwd=folder, capture_output=True, timeout=60)
        self.status, self.printed, self.reported = run.returncode, run.stdout, run.stderr
        self.written = [output.read_bytes() if output.exists() else b"" for output in outputs]
        self.allocations, self.kept = map(int, count.read_text().split())

    def is_as(self, whole: "Ended") -> bool:
        """Whether it did all that this run did."""
        return (self.status, self.printed, self.reported, self.written) == (0, whole.printed, b"", whole.written)

    def is_refused(self, whole: "Ended") -> bool:
        """Whether it reported the refused memory, and printed and wrote nothing else than that run."""
        return (
            (self.status, self.reported) == (4, b"fault: memory\n")
            and whole.printed.startswith(self.printed.removesuffix(NO_MEMORY))
            and all(held in (b"", complete) for held, complete in zip(self.written, whole.written))
        )


def refuse_each(name: str, command: list[str], shim: pathlib.Path) -> bool:
    """Whether each run ended as it has to."""
    whole = Ended(command, shim, 0)
    if whole.status != 0 or whole.allocations == 0:
        print(f"{name}: it does not run: status {whole.status}, {whole.allocations} allocations")
        return False
    refused, bad = 0, 0
    for number in range(1, whole.allocations + 1):
        ended = Ended(command, shim, number)
        refused += ended.is_refused(whole)
        if not ended.is_refused(whole) and not ended.is_as(whole):
            bad += 1
            print(f"{name}: allocation {number}: status {ended.status}, reported {ended.reported!r}, printed {ended.printed!r}")
    print(f"{name}: {whole.allocations} allocations, {refused} runs ended with fault: memory, {bad} failed")
    return bad == 0 and refused > 0


def takes_the_same(program: str, shim: pathlib.Path) -> bool:
    """Whether a run of a pipeline makes as many allocations for 1,000 records as for one."""
    counts = [Ended([program, *copy_multicast(shim.parent, records)], shim, 0).allocations for records in (1, 1_000)]
    print(f"dpv run: {counts[0]} allocations for one record, {counts[1]} for 1,000")
    return counts[0] == counts[1] > 0


def gives_back(program: str, shim: pathlib.Path) -> bool:
    """Whether runs over a large region have returned it at their ends, also after a fault."""
    region = 64 * MEBIBYTE
    script, late = shim.parent / "large.txt", shim.parent / "late.txt"
    script.write_text(f"region {region}\nmalloc 4096 0\nlist\n")
    late.write_text(f"region {region}\nmalloc 4096 0\nfree 2\n")
    multicast = copy_multicast(shim.parent, 3, region)
    commands = {
        "dpv mem": (0, ["mem", str(script)]),
        "dpv mem at fault": (3, ["mem", str(late)]),
        "dpv run": (0, multicast),
        "dpv run with a call refused": (0, [*multicast, "--refuse", "1"]),
    }
    passed = []
    for name, (status, words) in commands.items():
        ended = Ended([program, *words], shim, 0)
        passed.append(ended.status == status and ended.kept < MEBIBYTE)
        print(f"{name}, a region of 64 mebibytes: status {ended.status}, {ended.kept} bytes are kept")
    return all(passed)


def shim_in(folder: pathlib.Path) -> pathlib.Path | None:
    """The library that refuses an allocation; nothing if there is no C compiler."""
    shim = put_library("refused", folder)
    if shim is None:
        print("refused memory: NOT TRIED, since there is no C compiler")
    return shim


# What is reported where standard output takes nothing.
UNWRITTEN = b"fault: standard output cannot be written\n"


def is_full(name: str, command: list[str], reported: bytes, printed: str | None = None) -> bool:
    """Whether a run ends with status 3 and this on standard error, with its output to a file or dropped."""
    with open(printed or os.devnull, "wb") as out:
        run = subprocess.run(command, stdout=out, stderr=subprocess.PIPE, timeout=60)
    passed = (run.returncode, fixed(run.stderr.decode())) == (3, reported.decode())
    print(f"{name}: status {run.returncode}, reported {run.stderr!r}" + ("" if passed else f", and not 3 and {reported!r}"))
    return passed


def limit_files(size: int) -> None:
    """No file may have more bytes: a write past them takes those that fit, and the next fails."""
    signal.signal(signal.SIGXFSZ, signal.SIG_IGN)
    resource.setrlimit(resource.RLIMIT_FSIZE, (size, size))


def sends_what_fits(program: str, folder: pathlib.Path, size: int) -> bool:
    """Whether a run into a file of at most this many bytes reports as sent the records of 46 bytes, of 2,000, that are whole there; a new file that
    takes none is removed."""
    header, record = 24, struct.pack("<IIII", 1, 2, 60, 60) + bytes(60)
    capture, out = folder / "many.pcap", folder / "fits.pcap"
    capture.write_bytes((STRIP / "in.pcap").read_bytes()[:header] + 2000 * record)
    command = [program, "one", str(STRIP / "strip.dpv"), str(STRIP / "strip.cert"), str(capture), str(out)]
    run = subprocess.run(command, capture_output=True, text=True, timeout=60, preexec_fn=lambda: limit_files(size))
    sent = re.search(r" sent (\d+) input ", run.stdout)
    held, whole = out.stat().st_size if out.exists() else 0, max(size - header, 0) // 62
    passed = (run.returncode, fixed(run.stderr), held, sent and int(sent[1])) == (3, "fault: output 0\n", size, whole) and out.exists() == (size > 0)
    print(f"dpv one into {size} bytes: status {run.returncode}, reported {run.stderr!r}, sent {sent and sent[1]}" + ("" if passed else f", and not {whole}"))
    return passed


def main() -> int:
    """All of it."""
    program = asked()
    with new_folder() as folder:
        heap, shim = folder / "heap.txt", shim_in(folder)
        heap.write_text(HEAP)
        passed = [
            shim is None or refuse_each("dpv mem", [program, "mem", str(heap)], shim),
            shim is None or refuse_each("dpv one", one(program, "out.pcap"), shim),
            shim is None or refuse_each("dpv run", [program, *copy_multicast(folder, 3)], shim),
            shim is None or takes_the_same(program, shim),
            shim is None or gives_back(program, shim),
            is_full("dpv one to a full disk", one(program, "/dev/full"), b"fault: output 0\n"),
            is_full("dpv one, its report to a full disk", one(program, str(folder / "out.pcap")), UNWRITTEN, "/dev/full"),
            is_full("dpv mem to a full disk", [program, "mem", str(heap)], UNWRITTEN, "/dev/full"),
            *(sends_what_fits(program, folder, size) for size in (0, 20, 85, 86, 65536, 100000, 124023)),
        ]
    return 0 if all(passed) else 1


if __name__ == "__main__":
    sys.exit(main())
