#!/usr/bin/env python3
"""Runs the built program dpv while its surroundings change: streams are closed, files disappear, signals arrive.

Usage: tests/program/outside.py [PROGRAM]   (by default the one that ./dpv builds and runs; some seconds)
The program runs below what says its documents, as dpv starts it. The input is a pipe that is fed in two halves, so that what happens between
them happens in the middle of a run. The file on disk is always a prefix of the capture that a whole run writes. Prints a line for each case, and exits with 1 if one failed.
"""
import itertools
import os
import pathlib
import shutil
import signal
import struct
import subprocess
import sys
import time
from collections.abc import Callable

import paths  # noqa: F401

from command import STRIP, asked, fixed, new_folder, saying
from model import captures

REPORT = "port 0 received {0} nobuf 0 oversize 0 sent {0} input whole\npool 0 free 64 of 64\ncalls {0} refused 0\n"
COUNT = 4000
HALF = 24 + 16 * (COUNT // 2) + 60 * (COUNT // 2)


def source() -> bytes:
    """A capture of records of 60 bytes."""
    records = [(k, 0, struct.pack(">I", k) * 15) for k in range(COUNT)]
    return captures.written(False, records)


def target() -> bytes:
    """The capture that strip makes of it."""
    return captures.written(False, [(second, 0, data[14:]) for second, _, data in captures.read(source()).records])


class Tried:
    """A run on a pipe, in a folder of its own."""

    def __init__(self, program: str, folder: pathlib.Path) -> None:
        self.program, self.folder, self.output = program, folder, folder / "out.pcap"
        self.pipe = folder / "in.pcap"
        os.mkfifo(self.pipe)

    def words(self) -> list[str]:
        """The words of the run."""
        return [self.program, "one", str(STRIP / "strip.dpv"), str(STRIP / "strip.cert"), str(self.pipe), str(self.output)]

    def between_halves(self, act: Callable[[subprocess.Popen[bytes]], None]) -> tuple[int, str, str]:
        """Feeds a half, lets something happen when the program waits for more, then feeds the rest. Returns how the program ended."""
        run = subprocess.Popen(self.words(), stdout=subprocess.PIPE, stderr=subprocess.PIPE)
        with open(self.pipe, "wb", buffering=0) as feed:
            feed.write(source()[:HALF])
            while self.output.stat().st_size == 0:
                time.sleep(0.01)
            act(run)
            try:
                feed.write(source()[HALF:])
            except BrokenPipeError:
                pass
        printed, reported = run.communicate(timeout=60)
        return run.returncode, printed.decode(), reported.decode()

    def is_front(self) -> bool:
        """Whether the file on disk is a prefix of the capture, and is read as records up to a cut; also by tcpdump, if installed."""
        data = self.output.read_bytes()
        read = captures.read(data)
        is_read = read.ending == "whole" or read.ending.startswith("cut ")
        return target().startswith(data) and len(data) > 24 and is_read and self.is_read_by_tcpdump(read)

    def is_read_by_tcpdump(self, read: captures.Capture) -> bool:
        """Whether tcpdump reads as many records, and complains of a cut alone."""
        if shutil.which("tcpdump") is None:
            return True
        run = subprocess.run(["tcpdump", "-n", "-t", "-x", "-r", str(self.output)], capture_output=True, text=True, timeout=60)
        records = [line for line in run.stdout.splitlines() if not line.startswith("\t")]
        return len(records) == len(read.records) and ("truncated dump file" in run.stderr) == (read.ending != "whole")


def is_whole(ended: tuple[int, str, str], tried: Tried) -> bool:
    """Whether it ended as an undisturbed run does."""
    return ended == (0, REPORT.format(COUNT), "") and (not tried.output.exists() or tried.output.read_bytes() == target())


def by_signal(number: signal.Signals) -> Callable[[Tried], bool]:
    """A run that a signal ends."""
    return lambda tried: tried.between_halves(lambda run: run.send_signal(number))[0] == -number and tried.is_front()


def stopped(tried: Tried) -> bool:
    """A run that is stopped for a while, and continued."""

    def act(run: subprocess.Popen[bytes]) -> None:
        run.send_signal(signal.SIGSTOP)
        time.sleep(0.1)
        run.send_signal(signal.SIGCONT)

    return is_whole(tried.between_halves(act), tried)


def removed(tried: Tried) -> bool:
    """The output is removed in the middle: the run ends as usual, and makes no other file."""
    ended = tried.between_halves(lambda _: tried.output.unlink())
    return is_whole(ended, tried) and not tried.output.exists()


def emptied(tried: Tried) -> bool:
    """Another program truncates the output in the middle: the run ends as usual."""
    return tried.between_halves(lambda _: os.truncate(tried.output, 0)) == (0, REPORT.format(COUNT), "")


def moved(tried: Tried) -> bool:
    """The output gets another name in the middle: the capture is there."""
    other = tried.folder / "other.pcap"
    return is_whole(tried.between_halves(lambda _: tried.output.rename(other)), tried) and other.read_bytes() == target()


def one_by_one(tried: Tried) -> bool:
    """The pipe gives its bytes in small pieces, with pauses."""
    run = subprocess.Popen(tried.words(), stdout=subprocess.PIPE, stderr=subprocess.PIPE)
    with open(tried.pipe, "wb", buffering=0) as feed:
        data = source()
        for at in range(0, 300):
            feed.write(data[at : at + 1])
            time.sleep(0.0005)
        feed.write(data[300:])
    printed, reported = run.communicate(timeout=60)
    return is_whole((run.returncode, printed.decode(), reported.decode()), tried)


def ends(tried: Tried, suffix: str) -> tuple[int, str, str]:
    """A run on the whole capture by the shell, with something after its words."""
    tried.pipe.unlink()
    tried.pipe.write_bytes(source())
    run = subprocess.run(["sh", "-c", f'"$@" {suffix}', "sh", *tried.words()], capture_output=True, text=True, timeout=60)
    return run.returncode, run.stdout, run.stderr


STREAMS = {"<&-": "input", ">&-": "output", "2>&-": "error"}
# What is reported where the report cannot be printed.
UNWRITTEN = "fault: standard output cannot be written\n"


def without(closed: tuple[str, ...]) -> Callable[[Tried], bool]:
    """Standard streams are closed: no file gets what goes there, so the capture is whole, and the status says where the report is lost."""
    status, printed = (3, "") if ">&-" in closed else (0, REPORT.format(COUNT))
    reported = UNWRITTEN if status == 3 and "2>&-" not in closed else ""
    return lambda tried: ends(tried, " ".join(closed)) == (status, printed, reported) and tried.output.read_bytes() == target()


def nothing_to_read(tried: Tried) -> bool:
    """Standard input is closed, but read: it is empty, and no new output stays."""
    words = [tried.program, "one", *tried.words()[2:4], "/dev/stdin", str(tried.output)]
    run = subprocess.run(["sh", "-c", '"$@" <&-', "sh", *words], capture_output=True, text=True, timeout=60)
    reported = (run.returncode, run.stdout, run.stderr.partition("\n")[0])
    return reported == (3, REPORT.format(0).replace("whole", "open"), "fault: input 0 cause 6") and not tried.output.exists()


def closed_pipe(tried: Tried) -> bool:
    """Nobody reads the report, and writing to it is an error and no signal: the capture is whole, and the status says it."""
    tried.pipe.unlink()
    tried.pipe.write_bytes(source())
    reader, writer = os.pipe()
    os.close(reader)
    run = subprocess.run(tried.words(), stdout=writer, stderr=subprocess.PIPE, timeout=60)
    os.close(writer)
    return (run.returncode, run.stderr.decode()) == (3, UNWRITTEN) and tried.output.read_bytes() == target()


def on_full(stream: str) -> Callable[[Tried], bool]:
    """A run with a note whose report, or note, cannot be written: the other one is, and the status says it."""

    def case(tried: Tried) -> bool:
        tried.pipe.unlink()
        tried.pipe.write_bytes(source()[:-1])
        run = subprocess.run(["sh", "-c", f'"$@" {stream}/dev/full', "sh", *tried.words()], capture_output=True, text=True, timeout=60)
        end = len(source()) - 76
        printed = REPORT.format(COUNT - 1).replace("whole", f"cut {end}") if stream == "2>" else ""
        reported = f"port 0: its input ends within the record at byte {end}, which is not read\n{UNWRITTEN}" if stream == ">" else ""
        return (run.returncode, run.stdout, run.stderr) == (3, printed, reported)

    return case


def left_pipe(tried: Tried) -> bool:
    """The output is a pipe whose reader ends in the middle: it got a prefix of the capture, and the fault is printed after the report."""
    tried.pipe.unlink()
    tried.pipe.write_bytes(source())
    os.mkfifo(tried.output)
    run = subprocess.Popen(tried.words(), stdout=subprocess.PIPE, stderr=subprocess.PIPE, text=True)
    with open(tried.output, "rb", buffering=0) as reader:
        taken = reader.read(1000)
    printed, reported = run.communicate(timeout=60)
    lines = (reported.partition("\n")[0], printed.splitlines()[1:2])
    return run.returncode == 3 and lines == ("fault: output 0", ["pool 0 free 64 of 64"]) and target().startswith(taken)


def read_only(tried: Tried) -> bool:
    """The folder of the output may not be written: the output cannot be made."""
    tried.output = tried.folder / "closed" / "out.pcap"
    tried.output.parent.mkdir(mode=0o555)
    tried.pipe.unlink()
    tried.pipe.write_bytes(source())
    near = [shutil.copy(word, tried.folder) for word in tried.words()[:1] + tried.words()[2:4]]
    words = [near[0], "one", *near[1:], *tried.words()[4:]]
    nobody = 65_534 if os.geteuid() == 0 else None
    run = subprocess.run(words, capture_output=True, text=True, timeout=60, user=nobody)
    reported = f"fault: file {tried.output}\n"
    return (run.returncode, run.stdout, fixed(run.stderr)) == (3, "", reported) and not tried.output.exists()


CASES: dict[str, Callable[[Tried], bool]] = {
    **{f"{number.name} in the middle": by_signal(number) for number in (signal.SIGTERM, signal.SIGINT, signal.SIGHUP, signal.SIGKILL)},
    "stopped in the middle": stopped,
    "output removed in the middle": removed,
    "output cut in the middle": emptied,
    "output renamed in the middle": moved,
    "input byte by byte": one_by_one,
    **{
        f"no standard {' and no '.join(STREAMS[name] for name in closed)}": without(closed)
        for number in (1, 2, 3)
        for closed in itertools.combinations(STREAMS, number)
    },
    "no standard input, which is read": nothing_to_read,
    "closed pipe": closed_pipe,
    "full standard output": on_full(">"),
    "full standard error": on_full("2>"),
    "output whose reader goes away": left_pipe,
    "read-only folder": read_only,
}


def main() -> int:
    """All of it."""
    # Where a shell starts this in the background, SIGINT is ignored, and under nohup SIGHUP, also by what is started here.
    signal.signal(signal.SIGINT, signal.default_int_handler)
    signal.signal(signal.SIGHUP, signal.SIG_DFL)
    program = asked()
    passed = []
    signal.alarm(600)
    if shutil.which("tcpdump") is None:
        print("captures that end in the middle: NOT READ by tcpdump, which is not installed")
    for name, case in CASES.items():
        with new_folder() as folder, new_folder() as kept:
            folder.chmod(0o755)
            # (another user may not read what says the documents)
            passed.append(case(Tried(program if case is read_only else saying(program, kept), folder)))
        print(f"{name}: {'as it has to be' if passed[-1] else 'FAILED'}")
    return 0 if all(passed) else 1


if __name__ == "__main__":
    sys.exit(main())
