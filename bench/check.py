#!/usr/bin/env python3
"""Counts the machine instructions of the checker and the inferrer per instruction of a program of 1,024.

Usage: bench/check.py [COMMIT ..]   (each commit's crates beside those that stand here)
It builds another program (bench/check/main.rt.txt) over copies of the crates, which proves them. A count is the difference of two runs, one
with more rounds, counted by perf or valgrind. A program begins with a test of the packet's length and then repeats one line 1,021 times: a
sum, a store or a jump. If DPDK is installed, rte_bpf_load of a program of 1,024 is measured beside them (bench/check/bpf.c). `infer` also
checks its result.
"""
import pathlib
import shutil
import subprocess
import sys
import tempfile

from tables import Table, number
from timing import dpdk, instructions

TOP = pathlib.Path(__file__).resolve().parent.parent
HERE = TOP / "bench" / "check"
CRATES = ["dp_model", "dp_lang", "dp_cert", "dp_check", "dp_infer"]
LINES = ["numbers", "bytes", "jumps"]
ROUNDS = 50
LENGTH = 1_024


def sources(folder: pathlib.Path, commit: str | None) -> None:
    """Copies the crates into a folder."""
    (folder / "crates").mkdir(parents=True)
    if commit is None:
        for crate in CRATES:
            shutil.copytree(TOP / "crates" / crate, folder / "crates" / crate, symlinks=True)
        lines = (TOP / "crates.txt").read_text()
    else:
        words = ["git", "-C", str(TOP), "archive", commit, "crates.txt", *(f"crates/{crate}" for crate in CRATES)]
        archive = subprocess.run(words, check=True, stdout=subprocess.PIPE).stdout
        subprocess.run(["tar", "x", "-C", str(folder)], check=True, input=archive)
        lines = (folder / "crates.txt").read_text()
    kept = [line for line in lines.splitlines() if line.split(":")[0] in CRATES]
    (folder / "crates.txt").write_text("\n".join([*kept, f"check_bench: {' '.join(CRATES)} anyhow", ""]))
    (folder / "crates" / "check_bench" / "src").mkdir(parents=True)
    shutil.copy(HERE / "main.rt.txt", folder / "crates" / "check_bench" / "src" / "main.rt")


def built(folder: pathlib.Path, commit: str | None) -> str:
    """The program over the crates of a commit, or of those that stand here."""
    sources(folder, commit)
    crate = folder / "crates" / "check_bench"
    run = subprocess.run(["rt", "run", "--", "numbers", "check", "1"], cwd=crate, stdout=subprocess.PIPE, text=True)
    if run.returncode != 0:
        sys.exit(run.stdout)
    return str(crate / "out" / "check_bench")


def each(command: list[str]) -> float | None:
    """The instructions of a round for each instruction of the program."""
    low, high = (instructions([*command, str(rounds)]) for rounds in (1, 1 + ROUNDS))
    return None if low is None or high is None else (high - low) / (ROUNDS * LENGTH)


def bpf(folder: pathlib.Path) -> str | None:
    """The program over DPDK, where that is installed."""
    flags = dpdk()
    if flags is None:
        return None
    program = folder / "bpf"
    subprocess.run(["cc", "-O2", str(HERE / "bpf.c"), "-o", str(program), *flags], check=True)
    return str(program)


def tables(commits: list[str]) -> list[Table]:
    """The table."""
    with tempfile.TemporaryDirectory() as name:
        folder = pathlib.Path(name)
        programs = {commit or "here": built(folder / (commit or "here"), commit) for commit in [None, *commits]}
        other = bpf(folder)
        table = Table(["instructions each", *programs, "rte_bpf_load"], [18])
        for line in LINES:
            for deed in ("check", "infer"):
                theirs = each([other, line]) if other and deed == "check" else None
                table.row(f"{line}, {deed}", *(number(each([program, line, deed])) for program in programs.values()), number(theirs))
    return [table]


if __name__ == "__main__":
    tables(sys.argv[1:])
