"""The parts shared by the benches."""
import os
import pathlib
import re
import shutil
import subprocess
import time

from wanted import of_dpdk

TOP = pathlib.Path(__file__).resolve().parent.parent


def built() -> str:
    """The program that ./dpv runs, which builds it if needed. valgrind counts nothing of a program that a script begins."""
    subprocess.run([str(TOP / "dpv"), "--version"], check=True, stdout=subprocess.DEVNULL)
    return str(TOP / "crates/dpv/out/dpv")


def seconds(command: list[str]) -> float:
    """The time of one run."""
    start = time.perf_counter()
    subprocess.run(command, check=True, stdout=subprocess.DEVNULL)
    return time.perf_counter() - start


def processor(command: list[str], folder: str | None = None) -> float:
    """The processor time of one run, its own and that in the kernel, in seconds: without what others run at the same time."""
    run = subprocess.Popen(command, cwd=folder, stdout=subprocess.DEVNULL, stderr=subprocess.DEVNULL)
    _, status, used = os.wait4(run.pid, 0)
    run.returncode = os.waitstatus_to_exitcode(status)
    if run.returncode != 0:
        raise subprocess.CalledProcessError(run.returncode, command)
    return used.ru_utime + used.ru_stime


def best(command: list[str]) -> float:
    """The least time of three runs, in seconds."""
    return min(seconds(command) for _ in range(3))


def best_in_turn(commands: list[tuple[list[str], pathlib.Path]], rounds: int) -> list[float]:
    """The least processor time of each command, in seconds. Each round runs all of them, so that a busy moment meets them alike, and each run
    begins without the file that it makes: a file system may take longer to close one that was there before."""
    times: list[list[float]] = [[] for _ in commands]
    for _ in range(rounds):
        for (command, made), taken in zip(commands, times):
            made.unlink(missing_ok=True)
            taken.append(processor(command))
    return [min(taken) for taken in times]


def instructions(command: list[str], folder: str | None = None) -> int | None:
    """The machine instructions of a run in this folder, if it succeeds and perf or valgrind can count them."""
    tools = {
        "perf": (["perf", "stat", "-x,", "-e", "instructions:u"], r"^(\d+),"),
        "valgrind": (["valgrind", "--tool=callgrind", "--callgrind-out-file=/dev/null"], r"Collected : (\d+)"),
    }
    for tool, (words, pattern) in tools.items():
        if shutil.which(tool):
            run = subprocess.run([*words, *command], cwd=folder, stdout=subprocess.DEVNULL, stderr=subprocess.PIPE, text=True)
            if run.returncode == 0 and (found := re.search(pattern, run.stderr, re.M)):
                return int(found.group(1))
    return None


def dpdk() -> list[str] | None:
    """The words with which a C program is compiled over DPDK, if that is installed."""
    return of_dpdk("--cflags", "--libs").split() or None
