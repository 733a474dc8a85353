#!/usr/bin/env python3
"""Runs the pipelines of the examples with the built program dpv.

Usage: tests/program/examples.py [PROGRAM]   (the built program; by default the one that ./dpv builds and runs)
In a copy of each folder under examples with a pipeline, `dpv run` has to end with status 0, and each port has to write the capture that
make_captures.py expects, to the byte; once with the node programs of the folder, and once with those that `dpv build` makes from its .pkt
files, which have at most 15 % more instructions than those written by hand. Prints a line for each folder and way; exits with 1 if a run
failed.
"""
import pathlib
import shutil
import subprocess
import sys
import tomllib

import paths  # noqa: F401

from command import TOP, asked, fixed, new_folder


# The head of a node program that was built.
BUILT = "# Built from "


def count(program: str) -> int:
    """How many instructions a node program has."""
    lines = [line.partition("#")[0].rpartition(":")[2].strip() for line in program.splitlines()]
    return sum(1 for line in lines if line)


def build(folder: pathlib.Path) -> bool:
    """Puts what is built of each .pkt file in place of the program of that name, and takes the certificates of the others out of the
    pipelines. Says whether all were built, are no longer than they may be, and are as stored, where what is stored was built."""
    passed = True
    for source in sorted(folder.glob("*.pkt")):
        there = source.with_suffix(".dpv")
        stored = there.read_text()
        run = subprocess.run([str(TOP / "dpv"), "build", source.name], cwd=folder, capture_output=True, text=True, timeout=60)
        is_good = run.stdout == stored if stored.startswith(BUILT) else run.returncode == 0 and count(run.stdout) <= 1.15 * count(stored)
        if not is_good:
            print(f"examples/{folder.name}/{source.name}: {count(run.stdout)} instructions, {count(stored)} stored, reported {run.stderr!r}")
        passed = passed and is_good
        there.write_text(run.stdout)
    for pipeline in folder.glob("*.toml"):
        kept = [line for line in pipeline.read_text().splitlines(keepends=True) if not line.startswith("cert")]
        pipeline.write_text("".join(kept))
    return passed


def is_as_expected(program: str, pipeline: pathlib.Path, what: str = "") -> bool:
    """Whether a run of the pipeline writes what is expected of each port."""
    folder = pipeline.parent
    run = subprocess.run([program, "run", pipeline.name], cwd=folder, capture_output=True, text=True, timeout=60)
    passed = (run.returncode, fixed(run.stderr)) == (0, "")
    ports = tomllib.loads(pipeline.read_text())["port"]
    for k, port in enumerate(ports):
        written = folder / port["out"]
        expected = folder / ("expected.pcap" if len(ports) == 1 else f"expected{k}.pcap")
        passed = passed and written.exists() and written.read_bytes() == expected.read_bytes()
    print(f"examples/{folder.name}{what}: {'as expected' if passed else f'status {run.returncode}, reported {run.stderr!r}, not as expected'}")
    return passed


def strips_as_by_hand(program: str, folder: pathlib.Path) -> bool:
    """Whether `dpv one` writes the same with the program built from strip.pkt, whose certificate is inferred."""
    captures = []
    for name in ("hand", "built"):
        if name == "built" and not build(folder):
            return False
        cert = subprocess.run([program, "infer-one", "strip.dpv"], cwd=folder, capture_output=True, text=True, timeout=60)
        (folder / "strip.cert").write_text(cert.stdout)
        run = subprocess.run([program, "one", "strip.dpv", "strip.cert", "in.pcap", f"{name}.pcap"], cwd=folder, capture_output=True, timeout=60)
        captures.append((run.returncode, (folder / f"{name}.pcap").read_bytes()))
    passed = captures[0] == captures[1] and captures[0][0] == 0
    print(f"examples/strip, built of .pkt: {'as by hand' if passed else 'not as by hand'}")
    return passed


def does_task(program: str, folder: pathlib.Path, source: pathlib.Path) -> bool:
    """Whether a program of examples/tasks is accepted, and sends what scapy worked out (tests/program/tasks_by_scapy.py)."""
    expected = sorted(it for it in folder.glob(f"{source.stem}*.pcap") if it.stem.rstrip("0123456789") == source.stem)
    built = subprocess.run([str(TOP / "dpv"), "build", source.name], cwd=folder, capture_output=True, text=True, timeout=60)
    (folder / "node.dpv").write_text(built.stdout)
    (folder / "drop.dpv").write_text("free p0\nexit\n")
    text = "region = 1048576\n" + "".join(f"[[pool]]\ncount = 64\ncache = 0\nroom = {room}\n" for room in (2176, 0))
    for k in range(len(expected)):
        node, reads = ("node.dpv", "in.pcap") if k == 0 else ("drop.dpv", "../none.pcap")
        text += f'[[port]]\npool = 0\nsegs = 1\nqueue = 32\nnode = "{node}"\nin = "{reads}"\nout = "out{k}.pcap"\n'
    (folder / "task.toml").write_text(text)
    run = subprocess.run([program, "run", "task.toml"], cwd=folder, capture_output=True, text=True, timeout=60)
    written = [folder / f"out{k}.pcap" for k in range(len(expected))]
    same = [ours.exists() and ours.read_bytes() == theirs.read_bytes() for ours, theirs in zip(written, expected)]
    passed = (run.returncode, fixed(run.stderr)) == (0, "") and all(same) and bool(same)
    said = f"as scapy's, {count(built.stdout)} instructions" if passed else f"not as scapy's: {same}, {built.stderr}{run.stdout}{run.stderr}"
    print(f"examples/tasks/{source.name}: {said}")
    return passed


def main() -> int:
    """All of them."""
    program = asked()
    with new_folder() as folder:
        shutil.copytree(TOP / "examples", folder, dirs_exist_ok=True)
        pipelines = sorted(it for it in folder.glob("*/*.toml") if it.parent.name not in ("refused", "live"))
        passed = [is_as_expected(program, pipeline) for pipeline in pipelines]
        passed += [build(pipeline.parent) and is_as_expected(program, pipeline, ", built of .pkt") for pipeline in pipelines]
        passed += [does_task(program, folder / "tasks", source) for source in sorted(folder.glob("tasks/*.pkt"))]
        passed.append(strips_as_by_hand(program, folder / "strip"))
    return 0 if passed and all(passed) else 1


if __name__ == "__main__":
    sys.exit(main())
